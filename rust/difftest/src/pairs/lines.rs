//! How the select lines stand while something is sent.
use crate::random::Random;
use model::Selects;
use std::ops::Range;

pub const NEITHER: Selects = selects(false, false);
pub const LEFT: Selects = selects(true, false);
pub const RIGHT: Selects = selects(false, true);
pub const BOTH: Selects = selects(true, true);

const fn selects(left: bool, right: bool) -> Selects {
    Selects { left, right }
}

pub fn any_selects(random: &mut Random) -> Selects {
    random.pick(&[NEITHER, LEFT, RIGHT, BOTH])
}

pub enum Lines {
    Held(Selects),
    /// Held, but that they stand otherwise at some of the bits.
    Changed {
        held: Selects,
        other: Selects,
        at: Range<usize>,
    },
    /// Anywhere at each bit.
    Moving,
}

impl Lines {
    /// Most often held over all the bits; else they change at one, often of the first header, for good or for a few bits.
    pub fn over(bits: usize, held: Selects, random: &mut Random) -> Lines {
        let places = if random.flag() { 8 } else { bits.max(1) };
        let from = random.below(places);
        let to = match random.below(16) {
            0..=8 => return Lines::Held(held),
            9 => return Lines::Moving,
            10..=12 => bits,
            _ => from + 1 + random.below(3),
        };
        Lines::Changed {
            held,
            other: any_selects(random),
            at: from..to,
        }
    }

    pub fn at(&self, bit: usize, random: &mut Random) -> Selects {
        match self {
            Lines::Changed { other, at, .. } if at.contains(&bit) => *other,
            Lines::Held(held) | Lines::Changed { held, .. } => *held,
            Lines::Moving => any_selects(random),
        }
    }
}
