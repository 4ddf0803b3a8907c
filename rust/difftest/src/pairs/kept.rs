//! What a board keeps of the panels, for the proved code.
use super::Short;
use crate::case::Case;
use crate::names::frame_place;
use proved::{Clock, Lent, Memories, PairOutcome, STATE};

pub const NAMES: [&str; 2] = ["the left panel", "the right panel"];

/// Of one panel: its state and its frame.
#[derive(Clone, PartialEq)]
pub struct Kept {
    pub state: [u8; STATE],
    pub frame: Vec<u8>,
}

impl Kept {
    fn lent<'a>(&'a mut self, side: usize, case: &'a Case, short: Short) -> proved::Side<'a> {
        let model::Side {
            frame,
            half,
            full,
            phase,
        } = short.lent(side, case, &mut self.frame);
        proved::Side {
            state: &mut self.state,
            frame,
            lent: Lent { half, full, phase },
        }
    }

    /// Draws the state afresh, and answers where the frame is not that picture.
    pub fn not_drawn(&self, case: &Case) -> Option<String> {
        let mut afresh = vec![0x5A; self.frame.len()];
        let number = proved::draw(Memories::of(&self.state), &mut afresh, case.lent());
        if number != 0 {
            return Some(format!("drawing is refused with {number}"));
        }
        let at = afresh.iter().zip(&self.frame).position(|(a, b)| a != b)?;
        Some(format!(
            "the frame is not the state's picture at {at} ({})",
            frame_place(at)
        ))
    }
}

/// A clock comes to both.
pub fn clock(kept: &mut [Kept; 2], cases: [&Case; 2], clock: Clock, short: Short) -> PairOutcome {
    let [left, right] = kept;
    proved::pair_bit(
        clock,
        left.lent(0, cases[0], short),
        right.lent(1, cases[1], short),
    )
}

/// A refused call leaves all that it was lent.
pub fn not_kept(number: u8, before: &[Kept; 2], after: &[Kept; 2]) -> Option<String> {
    (number != 0 && before != after)
        .then(|| format!("the call is refused with {number}, and changed what it was lent"))
}
