//! Memories and flags.

use crate::links::Link;
use crate::numbering::Numbering;

/// The memory that data transfers read and write.
#[derive(Clone, Copy, PartialEq, Eq, Debug)]
pub enum Target {
    Text,
    Glyph,
    Graphic,
}

/// A half of a word: high byte first.
#[derive(Clone, Copy, PartialEq, Eq, Debug)]
pub enum Half {
    High,
    Low,
}

/// The whole state of the panel.
#[derive(Clone, PartialEq, Eq, Debug)]
pub struct Panel {
    /// Text memory: 64 words of 16 bits, four lines of 16.
    pub text: [u16; 64],
    /// Glyph memory: 64 words; row y of image i is word 16 i + y.
    pub glyph: [u16; 64],
    /// Graphic memory: 64 rows of 16 words.
    pub graphic: [[u16; 16]; 64],

    pub target: Target,
    /// 6 bits for text and glyph memory, 4 bits for graphic memory.
    pub counter: u8,
    /// The separate graphic row, 0..63.
    pub graphic_row: u8,
    /// Which half comes next.
    pub next: Half,
    pub dummy_due: bool,
    /// The graphic row that waits for its column.
    pub waiting: Option<u8>,

    /// I/D: step up (1) or down (0).
    pub id: bool,
    pub s: bool,
    pub display: bool,
    pub cursor: bool,
    pub blink: bool,
    pub dl: bool,
    pub re: bool,
    pub g: bool,
    pub sr: bool,
    pub standby: bool,
    /// 0..63
    pub scroll: u8,
    /// 0..15
    pub shift: u8,
    /// Which of the four lines are reversed.
    pub reversed: [bool; 4],

    /// Whether it was made with time, which no call changes.
    pub time: bool,
    /// Microseconds left in which it is busy, 0..1,600; without time 0.
    pub left: u16,

    /// Which numbering it has; only reset changes it.
    pub numbering: Numbering,

    pub link: Link,
}

impl Panel {
    /// Fresh, without time, with the old numbering. The interface pin: 0
    /// serial, 1 parallel.
    pub fn fresh(parallel: bool) -> Panel {
        Panel::made(parallel, false, Numbering::Old)
    }

    /// Fresh, also after reset, with or without time, with either numbering.
    pub fn made(parallel: bool, time: bool, numbering: Numbering) -> Panel {
        Panel {
            // Text bytes 20h, the other memories 0.
            text: [0x2020; 64],
            glyph: [0; 64],
            graphic: [[0; 16]; 64],
            // Target text, counter 0, high half next; graphic row 0 (reading 9).
            target: Target::Text,
            counter: 0,
            graphic_row: 0,
            next: Half::High,
            // No dummy read due, no row waiting.
            dummy_due: false,
            waiting: None,
            // I/D 1, S 0.
            id: true,
            s: false,
            // Display, cursor, blink, RE, SR, G 0; DL 1.
            display: false,
            cursor: false,
            blink: false,
            re: false,
            sr: false,
            g: false,
            dl: true,
            // No standby, scroll 0, shift 0, no line reversed.
            standby: false,
            scroll: 0,
            shift: 0,
            reversed: [false; 4],
            // Not busy.
            time,
            left: 0,
            numbering,
            // Link idle.
            link: Link::idle(parallel),
        }
    }
}

/// One half of a word.
pub(crate) fn half_of(word: u16, half: Half) -> u8 {
    match half {
        Half::High => (word >> 8) as u8,
        Half::Low => (word & 0x00FF) as u8,
    }
}

/// The word with one half replaced.
pub(crate) fn with_half(word: u16, half: Half, byte: u8) -> u16 {
    match half {
        Half::High => (word & 0x00FF) | (u16::from(byte) << 8),
        Half::Low => (word & 0xFF00) | u16::from(byte),
    }
}

/// Bit `n` of a byte.
pub(crate) fn bit(byte: u8, n: u32) -> bool {
    (byte >> n) & 1 == 1
}
