//! Two panels on one wire, clock by clock: the proved pair, which a board keeps as bytes, and the model's.
mod acts;
mod any_bytes;
mod begun;
mod compare;
mod kept;
mod lines;
mod made;
mod minimise;
mod report;
mod sent;

pub use any_bytes::any_bytes;
pub use compare::compare;
pub use made::pair;
pub use minimise::minimise;
pub use report::report;

use crate::case::Case;
use proved::Clock;
use std::fmt;

/// Two panels, the left one first, and what comes to them.
#[derive(Clone, PartialEq)]
pub struct Pair {
    pub sides: [Side; 2],
    pub steps: Vec<Step>,
}

/// One of the panels: the case says what it is made with, which capture leads to its state, and what it is lent.
#[derive(Clone, PartialEq)]
pub struct Side {
    pub case: Case,
    /// Whether its frame begins as the picture, and not as the case has it.
    pub picture: bool,
}

#[derive(Clone, Copy, PartialEq)]
pub enum Step {
    Clock(Clock),
    /// A clock for which some buffers are lent a byte short, so that it is refused.
    Short(Clock, Short),
    /// So many times 8 microseconds pass, on both panels.
    Pass(u8),
}

/// Which buffers are a byte short: bits 0 to 2 for the left frame, half font and full font, bits 3 to 5 for the right ones. A font of no
/// bytes never is.
#[derive(Clone, Copy, PartialEq)]
pub struct Short(pub u8);

impl Pair {
    fn cases(&self) -> [&Case; 2] {
        [&self.sides[0].case, &self.sides[1].case]
    }
}

impl Short {
    /// What a side is lent, over its frame.
    fn lent<'a>(self, side: usize, case: &'a Case, frame: &'a mut [u8]) -> model::Side<'a> {
        let short = self.0 >> (3 * side);
        let length = |whole: usize, n: u8| whole.saturating_sub(usize::from(short >> n & 1));
        let many = length(frame.len(), 0);
        model::Side {
            frame: &mut frame[..many],
            half: &case.half[..length(case.half.len(), 1)],
            full: &case.full[..length(case.full.len(), 2)],
            phase: case.phase,
        }
    }
}

/// A clock as its bit and the panels whose select is high: 1LR, 0L-, 1--. What is short stands behind it, and time is +9.
impl fmt::Display for Step {
    fn fmt(&self, out: &mut fmt::Formatter) -> fmt::Result {
        match *self {
            Step::Clock(Clock { bit, left, right }) => {
                let left = if left { 'L' } else { '-' };
                let right = if right { 'R' } else { '-' };
                write!(out, "{}{left}{right}", u8::from(bit))
            }
            Step::Short(clock, Short(which)) => write!(out, "{}/{which:06b}", Step::Clock(clock)),
            Step::Pass(eights) => write!(out, "+{eights}"),
        }
    }
}
