//! The proved code, called over the boundary crate: every use of `unsafe` in this workspace is here.
//!
//! The calls ask nothing of their caller. Lengths that document 01 fixes are in the types, or refused with its number.
mod draw;
mod pair;
mod replay;
mod sender;
mod state;

pub use draw::draw;
pub use pair::{pair_bit, Clock, PairOutcome, Side};
pub use replay::{replay, Ended, Made, Numbering, Refused};
pub use sender::send;
pub use state::{Memories, CONTROL, CONTROL_AT, LINK, LINK_AT, STATE};

/// The two fonts and the blink phase.
#[derive(Clone, Copy)]
pub struct Lent<'a> {
    pub half: &'a [u8],
    pub full: &'a [u8],
    pub phase: bool,
}
