//! A case: all that a replay is given.
use crate::random::Random;
use model::{Numbering, Panel, FRAME_LENGTH, FULL_FONT_LIMIT, HALF_FONT_LENGTH};
use proved::{Lent, Made};

pub const NUMBERINGS: [Numbering; 2] = [Numbering::Old, Numbering::New];

/// Where the last glyph of the old numbering ends; that of the new one ends with the longest font.
pub const OLD_END: usize = 267_264;

#[derive(Clone, PartialEq)]
pub struct Case {
    pub parallel: bool,
    pub time: bool,
    pub numbering: Numbering,
    pub capture: Vec<u8>,
    pub frame: Vec<u8>,
    pub half: Vec<u8>,
    pub full: Vec<u8>,
    pub phase: bool,
}

impl Case {
    /// What the program `replay` begins with.
    pub fn printed(time: bool, capture: Vec<u8>) -> Case {
        Case {
            parallel: true,
            time,
            numbering: Numbering::Old,
            capture,
            frame: vec![0; FRAME_LENGTH],
            half: vec![0; HALF_FONT_LENGTH],
            full: Vec::new(),
            phase: false,
        }
    }

    /// A numbering, a frame of other content, fonts and phase at random, lengths as they should be.
    pub fn random(parallel: bool, time: bool, capture: Vec<u8>, random: &mut Random) -> Case {
        let length = full_length(random);
        Case {
            parallel,
            time,
            numbering: random.pick(&NUMBERINGS),
            capture,
            frame: random.bytes(FRAME_LENGTH),
            half: random.bytes(HALF_FONT_LENGTH),
            full: random.bytes(length),
            phase: random.flag(),
        }
    }

    /// The model's panel, before anything came to it.
    pub fn panel(&self) -> Panel {
        Panel::made(self.parallel, self.time, self.numbering)
    }

    /// The same for the proved code.
    pub fn made(&self) -> Made {
        Made {
            parallel: self.parallel,
            time: self.time,
            numbering: match self.numbering {
                Numbering::Old => proved::Numbering::By96,
                Numbering::New => proved::Numbering::By160,
            },
        }
    }

    pub fn lent(&self) -> Lent<'_> {
        Lent {
            half: &self.half,
            full: &self.full,
            phase: self.phase,
        }
    }

    pub fn records(&self) -> usize {
        self.capture.len().div_ceil(4)
    }
}

/// Any allowed length; mostly short, since a long font is slow to make, and often the shortest and those around the numberings' ends.
pub fn full_length(random: &mut Random) -> usize {
    match random.below(16) {
        0..=3 => 0,
        4 => 32,
        5 => random.pick(&[OLD_END, OLD_END + 32, FULL_FONT_LIMIT - 32, FULL_FONT_LIMIT]),
        6 => 32 * random.below(FULL_FONT_LIMIT / 32 + 1),
        _ => 32 * random.below(300),
    }
}
