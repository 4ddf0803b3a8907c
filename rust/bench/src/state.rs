//! What plain Rust draws and writes: the memories, and the controls as the boundary packs them. It asks for no standard library, so
//! that tools/cortex can count its instructions too.

/// The controls' bytes, in the order in which the boundary packs them.
pub const TARGET: usize = 0;
pub const COUNTER: usize = 1;
pub const ROW: usize = 2;
pub const LOW: usize = 3;
pub const DUMMY: usize = 4;
pub const WAITS: usize = 5;
pub const WAITING: usize = 6;
pub const ID: usize = 7;
pub const S: usize = 8;
pub const DISPLAY: usize = 9;
pub const CURSOR: usize = 10;
pub const BLINK: usize = 11;
pub const DL: usize = 12;
pub const RE: usize = 13;
pub const G: usize = 14;
pub const SR: usize = 15;
pub const STANDBY: usize = 16;
pub const SCROLL: usize = 17;
pub const SHIFT: usize = 18;
pub const REVERSED: usize = 19;
pub const TIMED: usize = 23;
/// High byte, low byte.
pub const REMAINING: usize = 24;
pub const NUMBERING: usize = 26;

/// How many bytes they are.
pub const CONTROL: usize = 27;

/// The targets, as the boundary packs them.
pub const TEXT: u8 = 0;
pub const GLYPH: u8 = 1;
pub const GRAPHIC: u8 = 2;

/// The numberings, as the boundary packs them: 96 codes to a lead, or 160.
pub const BY_96: u8 = 0;
pub const BY_160: u8 = 1;

/// The longest full font, under either numbering.
pub const FULL_FONT_LIMIT: usize = 281_600;

#[repr(C)]
pub struct Screen {
    pub text: [u8; 128],
    pub glyph: [u8; 128],
    pub graphic: [u8; 2048],
    pub control: [u8; CONTROL],
}

impl Screen {
    /// Display 0 or standby.
    pub fn dark(&self) -> bool {
        self.control[DISPLAY] != 1 || self.control[STANDBY] == 1
    }

    /// Where the full glyph of a code begins in the font, if the code has a number.
    #[inline(always)]
    pub fn full_glyph(&self, high: u8, low: u8) -> Option<usize> {
        let (lead, trail) = (high as usize, low as usize);
        let number = match (self.control[NUMBERING], high, low) {
            (BY_96, 0xA1..=0xF7, 0xA0..) => 96 * (lead - 0xA1) + trail - 0xA0,
            (BY_160, 0xA1..=0xD7, 0x40..=0x7F) => 160 * (lead - 0xA1) + trail - 0x40,
            (BY_160, 0xA1..=0xD7, 0xA0..) => 160 * (lead - 0xA1) + trail - 0x60,
            _ => return None,
        };
        Some(32 * number)
    }
}
