//! Two panels on one wire, kept as bytes.
use crate::state::Parts;
use crate::{Lent, CONTROL, LINK, STATE};

extern "C" {
    fn zifqarell_pair_bit(
        left_text: *mut [u8; 128],
        left_glyph: *mut [u8; 128],
        left_graphic: *mut [u8; 2048],
        left_control: *mut [u8; CONTROL],
        left_link: *mut [u8; LINK],
        right_text: *mut [u8; 128],
        right_glyph: *mut [u8; 128],
        right_graphic: *mut [u8; 2048],
        right_control: *mut [u8; CONTROL],
        right_link: *mut [u8; LINK],
        bit: bool,
        left_select: bool,
        right_select: bool,
        left_frame: *mut u8,
        left_frame_length: usize,
        left_half: *const u8,
        left_half_length: usize,
        left_full: *const u8,
        left_full_length: usize,
        left_phase: bool,
        right_frame: *mut u8,
        right_frame_length: usize,
        right_half: *const u8,
        right_half_length: usize,
        right_full: *const u8,
        right_full_length: usize,
        right_phase: bool,
    ) -> u32;
}

/// A clock of the wire: the bit, and of each panel whether its select is high.
#[derive(Clone, Copy, PartialEq, Eq, Debug)]
pub struct Clock {
    pub bit: bool,
    pub left: bool,
    pub right: bool,
}

/// One of the two panels: its state, which any bytes are, its frame, and what it is lent beside.
pub struct Side<'a> {
    pub state: &'a mut [u8; STATE],
    pub frame: &'a mut [u8],
    pub lent: Lent<'a>,
}

/// What a clock answers: 0 or the refusal's number, and how many bytes of each frame were painted.
#[derive(Clone, Copy, PartialEq, Eq, Debug)]
pub struct PairOutcome {
    pub number: u8,
    pub left: u16,
    pub right: u16,
}

impl PairOutcome {
    /// The number stands in bits 7..0, the left panel's count in bits 19..8, the right's in bits 31..20.
    fn of(answer: u32) -> PairOutcome {
        PairOutcome {
            number: answer as u8,
            left: (answer >> 8 & 0xFFF) as u16,
            right: (answer >> 20) as u16,
        }
    }
}

/// A clock comes to both panels.
pub fn pair_bit(clock: Clock, left: Side, right: Side) -> PairOutcome {
    let (left_kept, right_kept) = (Parts::of(left.state), Parts::of(right.state));
    // Each pointer is that of a live reference, with the length that goes with it; all that is written is borrowed mutably and lies
    // apart.
    let answer = unsafe {
        zifqarell_pair_bit(
            left_kept.text,
            left_kept.glyph,
            left_kept.graphic,
            left_kept.control,
            left_kept.link,
            right_kept.text,
            right_kept.glyph,
            right_kept.graphic,
            right_kept.control,
            right_kept.link,
            clock.bit,
            clock.left,
            clock.right,
            left.frame.as_mut_ptr(),
            left.frame.len(),
            left.lent.half.as_ptr(),
            left.lent.half.len(),
            left.lent.full.as_ptr(),
            left.lent.full.len(),
            left.lent.phase,
            right.frame.as_mut_ptr(),
            right.frame.len(),
            right.lent.half.as_ptr(),
            right.lent.half.len(),
            right.lent.full.as_ptr(),
            right.lent.full.len(),
            right.lent.phase,
        )
    };
    PairOutcome::of(answer)
}
