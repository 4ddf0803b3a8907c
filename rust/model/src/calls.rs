//! The public calls of the panel, and refusal numbers 1, 2, 3 and 5; and 8
//! for time passing on a panel without it.

use crate::links::{Link, Transfer};
use crate::memories::Panel;
use crate::named::Named;
use crate::numbering::Numbering;
use crate::parallel::parallel;
use crate::picture::{picture_byte, Lent};
use crate::serial::serial_bit;
use crate::{FRAME_LENGTH, FULL_FONT_LIMIT, HALF_FONT_LENGTH};

/// What a call answers.
#[derive(Clone, Copy, PartialEq, Eq, Debug)]
pub struct Outcome {
    /// 0 if accepted, else the refusal number.
    pub number: u8,
    /// 0 unless the call reads.
    pub reply: u8,
    /// The number of bytes named and rewritten.
    pub count: usize,
}

/// A refusal returns its number, reply 0, count 0.
fn refused(number: u8) -> Outcome {
    Outcome {
        number,
        reply: 0,
        count: 0,
    }
}

/// The numbers 1, 2, 3 in this order; 0 if none applies. The numbering does not
/// matter to 3 (reading 49).
pub(crate) fn buffers_number(frame: &[u8], half: &[u8], full: &[u8]) -> u8 {
    if frame.len() != FRAME_LENGTH {
        1
    } else if half.len() != HALF_FONT_LENGTH {
        2
    } else if !full.len().is_multiple_of(32) || full.len() > FULL_FONT_LIMIT {
        3
    } else {
        0
    }
}

impl Panel {
    /// One transfer of the parallel link.
    pub fn transfer(
        &mut self,
        transfer: Transfer,
        frame: &mut [u8],
        half: &[u8],
        full: &[u8],
        phase: bool,
    ) -> Outcome {
        let number = buffers_number(frame, half, full);
        if number != 0 {
            return refused(number);
        }
        // 5, checked last: a transfer of the other link.
        let Link::Parallel(pair) = self.link else {
            return refused(5);
        };
        let whole = parallel(self, pair, transfer);
        let lent = Lent { half, full, phase };
        Outcome {
            number: 0,
            reply: whole.reply,
            count: self.paint(&whole.named, frame, lent),
        }
    }

    /// One serial bit, chip select high.
    pub fn bit(
        &mut self,
        bit: bool,
        frame: &mut [u8],
        half: &[u8],
        full: &[u8],
        phase: bool,
    ) -> Outcome {
        let number = buffers_number(frame, half, full);
        if number != 0 {
            return refused(number);
        }
        // 5, checked last: a serial bit of the other link.
        let Link::Serial(receiver) = self.link else {
            return refused(5);
        };
        let named = serial_bit(self, receiver, bit);
        let lent = Lent { half, full, phase };
        Outcome {
            number: 0,
            reply: 0,
            count: self.paint(&named, frame, lent),
        }
    }

    /// Chip select low loses sync and clears the run. It names no byte and
    /// paints nothing; the frame and fonts are checked all the same.
    pub fn select_low(
        &mut self,
        frame: &mut [u8],
        half: &[u8],
        full: &[u8],
        _phase: bool,
    ) -> Outcome {
        let number = buffers_number(frame, half, full);
        if number != 0 {
            return refused(number);
        }
        // 5, checked last: select-low of the other link.
        let Link::Serial(_) = self.link else {
            return refused(5);
        };
        self.link = Link::idle(false);
        Outcome {
            number: 0,
            reply: 0,
            count: 0,
        }
    }

    /// Time passes, on either link: 8 microseconds for each of `eights`. The
    /// time left falls to 0 and no lower; nothing else changes and no byte is
    /// named. The frame and fonts are checked all the same.
    pub fn pass(
        &mut self,
        eights: u8,
        frame: &mut [u8],
        half: &[u8],
        full: &[u8],
        _phase: bool,
    ) -> Outcome {
        let number = buffers_number(frame, half, full);
        if number != 0 {
            return refused(number);
        }
        // 8: a panel without time.
        if !self.time {
            return refused(8);
        }
        self.left = self.left.saturating_sub(8 * u16::from(eights));
        Outcome {
            number: 0,
            reply: 0,
            count: 0,
        }
    }

    /// Reset takes the interface pin, 0 serial, 1 parallel, and the numbering
    /// that holds until the next. It names all 1,024 bytes.
    pub fn reset(
        &mut self,
        parallel: bool,
        numbering: Numbering,
        frame: &mut [u8],
        half: &[u8],
        full: &[u8],
        phase: bool,
    ) -> Outcome {
        let number = buffers_number(frame, half, full);
        if number != 0 {
            return refused(number);
        }
        // Whether it has time survives.
        *self = Panel::made(parallel, self.time, numbering);
        let lent = Lent { half, full, phase };
        Outcome {
            number: 0,
            reply: 0,
            count: self.paint(&Named::all(), frame, lent),
        }
    }

    /// Fills the frame with the picture drawn afresh; answers the number.
    pub fn draw(&self, frame: &mut [u8], half: &[u8], full: &[u8], phase: bool) -> u8 {
        let number = buffers_number(frame, half, full);
        if number != 0 {
            return number;
        }
        let lent = Lent { half, full, phase };
        for (place, byte) in frame.iter_mut().enumerate() {
            *byte = picture_byte(self, place, lent);
        }
        0
    }

    /// Painting gives each named byte the value it has in the new picture and
    /// keeps all others. Answers the number of distinct bytes rewritten.
    fn paint(&self, named: &Named, frame: &mut [u8], lent: Lent) -> usize {
        for (place, byte) in frame.iter_mut().enumerate() {
            if named.has(place) {
                *byte = picture_byte(self, place, lent);
            }
        }
        named.size()
    }
}
