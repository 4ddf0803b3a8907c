//! A capture replayed.
use crate::{Lent, STATE};

extern "C" {
    fn zifqarell_replay(
        parallel: bool,
        time: bool,
        by_160: bool,
        capture: *const u8,
        capture_length: usize,
        frame: *mut u8,
        frame_length: usize,
        half: *const u8,
        half_length: usize,
        full: *const u8,
        full_length: usize,
        phase: bool,
        state: *mut [u8; STATE],
        last: *mut [u8; 11],
    ) -> u8;
}

/// What the lent buffers hold before a call, so that a byte which the call leaves out is seen.
const UNWRITTEN: u8 = 0xEE;

/// How the codes of full glyphs are numbered: 96 to a lead, or 160.
#[derive(Clone, Copy, PartialEq, Eq)]
pub enum Numbering {
    By96,
    By160,
}

/// What a panel is made with: its link, whether it has time, and its numbering.
#[derive(Clone, Copy)]
pub struct Made {
    pub parallel: bool,
    pub time: bool,
    pub numbering: Numbering,
}

/// How a replay ended: the refusal number (0 at the end), the records accepted, the last one's reply and count, and the state.
pub struct Ended {
    pub number: u8,
    pub place: u64,
    pub reply: u8,
    pub count: u16,
    pub state: [u8; STATE],
}

/// A replay that was refused as a call, with 1, 2 or 3: nothing was read. `kept`: state and answers were left as they were lent.
pub struct Refused {
    pub number: u8,
    pub kept: bool,
}

/// Replays a capture on a fresh panel, made so, over the lent frame.
pub fn replay(made: Made, capture: &[u8], frame: &mut [u8], lent: Lent) -> Result<Ended, Refused> {
    let mut state = [UNWRITTEN; STATE];
    let mut last = [UNWRITTEN; 11];
    // Each pointer is that of a live reference, with the length that goes with it; the three that are written are borrowed mutably
    // and lie apart.
    let number = unsafe {
        zifqarell_replay(
            made.parallel,
            made.time,
            made.numbering == Numbering::By160,
            capture.as_ptr(),
            capture.len(),
            frame.as_mut_ptr(),
            frame.len(),
            lent.half.as_ptr(),
            lent.half.len(),
            lent.full.as_ptr(),
            lent.full.len(),
            lent.phase,
            &mut state,
            &mut last,
        )
    };
    if (1..=3).contains(&number) {
        let kept = state == [UNWRITTEN; STATE] && last == [UNWRITTEN; 11];
        return Err(Refused { number, kept });
    }
    let [p0, p1, p2, p3, p4, p5, p6, p7, reply, low, high] = last;
    Ok(Ended {
        number,
        place: u64::from_le_bytes([p0, p1, p2, p3, p4, p5, p6, p7]),
        reply,
        count: u16::from_le_bytes([low, high]),
        state,
    })
}
