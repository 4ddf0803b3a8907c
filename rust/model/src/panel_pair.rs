//! Two panels on one wire: a left and a right one share clock and data, with a
//! select line each (reading 50).

use crate::calls::buffers_number;
use crate::links::Link;
use crate::memories::Panel;

/// The left and the right panel. Every other call is made on one of them alone.
#[derive(Clone, PartialEq, Eq, Debug)]
pub struct PanelPair {
    pub left: Panel,
    pub right: Panel,
}

/// The two select lines: high, or low.
#[derive(Clone, Copy, PartialEq, Eq, Debug)]
pub struct Selects {
    pub left: bool,
    pub right: bool,
}

/// What one side is lent: a frame and fonts of its own, and the blink phase.
#[derive(PartialEq, Eq, Debug)]
pub struct Side<'a> {
    pub frame: &'a mut [u8],
    pub half: &'a [u8],
    pub full: &'a [u8],
    pub phase: bool,
}

/// What a bit on the wire answers. Nothing is read, so there is no reply.
#[derive(Clone, Copy, PartialEq, Eq, Debug)]
pub struct PairOutcome {
    /// 0 if accepted, else the refusal number.
    pub number: u8,
    /// The number of bytes named and rewritten in the left frame.
    pub left: usize,
    /// The number of bytes named and rewritten in the right frame.
    pub right: usize,
}

impl PanelPair {
    /// One bit of the wire, with both selects. Where both are high, both hear
    /// it. A refusal touches neither panel and neither frame.
    pub fn bit(&mut self, bit: bool, selects: Selects, left: Side, right: Side) -> PairOutcome {
        let number = self.number(&left, &right);
        if number != 0 {
            return PairOutcome {
                number,
                left: 0,
                right: 0,
            };
        }
        PairOutcome {
            number: 0,
            left: one_side(&mut self.left, selects.left, bit, left),
            right: one_side(&mut self.right, selects.right, bit, right),
        }
    }

    /// 1, 2, 3 for the left panel, then 1, 2, 3 for the right; 0 if none
    /// applies. The selects do not matter to any of them.
    fn number(&self, left: &Side, right: &Side) -> u8 {
        let number = buffers_number(left.frame, left.half, left.full);
        if number != 0 {
            return number;
        }
        let number = buffers_number(right.frame, right.half, right.full);
        if number != 0 {
            return number;
        }
        // 5, checked last: unless both panels are serial.
        if is_serial(&self.left) && is_serial(&self.right) {
            0
        } else {
            5
        }
    }
}

fn is_serial(panel: &Panel) -> bool {
    matches!(panel.link, Link::Serial(_))
}

/// One side by itself: select high, it hears the bit; select low, it loses sync
/// and is otherwise untouched. Answers its count.
fn one_side(panel: &mut Panel, select: bool, bit: bool, side: Side) -> usize {
    let outcome = if select {
        panel.bit(bit, side.frame, side.half, side.full, side.phase)
    } else {
        panel.select_low(side.frame, side.half, side.full, side.phase)
    };
    outcome.count
}
