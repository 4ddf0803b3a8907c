//! The whole state as bytes, in a fixed format, for comparing states.

use crate::links::{Kind, Link, Receiver};
use crate::memories::{half_of, Half, Panel, Target};
use crate::numbering::Numbering;

impl Panel {
    /// Text memory 128 bytes, glyph memory 128, graphic memory 2,048 (high
    /// byte of each word first, graphic row by row), 23 bytes of place, flags
    /// and view, 3 bytes of time (whether it has time; the microseconds left,
    /// high byte first), 1 byte of the numbering (0 the old, 1 the new), 10
    /// bytes of the link: 2,341 in all. What does not apply is 0.
    pub fn bytes(&self) -> Vec<u8> {
        let mut out = Vec::new();
        for word in self.text {
            push_word(&mut out, word);
        }
        for word in self.glyph {
            push_word(&mut out, word);
        }
        for row in self.graphic {
            for word in row {
                push_word(&mut out, word);
            }
        }
        out.push(match self.target {
            Target::Text => 0,
            Target::Glyph => 1,
            Target::Graphic => 2,
        });
        out.push(self.counter);
        out.push(self.graphic_row);
        out.push(match self.next {
            Half::High => 0,
            Half::Low => 1,
        });
        out.push(u8::from(self.dummy_due));
        out.push(u8::from(self.waiting.is_some()));
        out.push(self.waiting.unwrap_or(0));
        out.push(u8::from(self.id));
        out.push(u8::from(self.s));
        out.push(u8::from(self.display));
        out.push(u8::from(self.cursor));
        out.push(u8::from(self.blink));
        out.push(u8::from(self.dl));
        out.push(u8::from(self.re));
        out.push(u8::from(self.g));
        out.push(u8::from(self.sr));
        out.push(u8::from(self.standby));
        out.push(self.scroll);
        out.push(self.shift);
        for line in self.reversed {
            out.push(u8::from(line));
        }
        out.push(u8::from(self.time));
        push_word(&mut out, self.left);
        out.push(match self.numbering {
            Numbering::Old => 0,
            Numbering::New => 1,
        });
        out.extend(link_bytes(&self.link));
        out
    }
}

fn push_word(out: &mut Vec<u8>, word: u16) {
    out.push(half_of(word, Half::High));
    out.push(half_of(word, Half::Low));
}

/// Link; kind and bits of the open first half; where the receiver is, run of
/// ones, header bits seen, read bit, register bit, body bits seen, the body's
/// data bits so far as a number (the first bit highest).
fn link_bytes(link: &Link) -> [u8; 10] {
    match *link {
        Link::Parallel(None) => [0; 10],
        Link::Parallel(Some(pair)) => {
            let kind = match pair.kind {
                Kind::InstructionWrite => 1,
                Kind::DataWrite => 2,
                Kind::StatusRead => 3,
                Kind::DataRead => 4,
            };
            [0, kind, pair.bits, 0, 0, 0, 0, 0, 0, 0]
        }
        Link::Serial(Receiver::Hunting { run }) => [1, 0, 0, 0, run, 0, 0, 0, 0, 0],
        Link::Serial(Receiver::Header {
            seen,
            read,
            register,
        }) => {
            let (read, register) = (u8::from(read), u8::from(register));
            [1, 0, 0, 1, 0, seen, read, register, 0, 0]
        }
        Link::Serial(Receiver::Body {
            run,
            register,
            seen,
            data,
        }) => [1, 0, 0, 2, run, 0, 0, u8::from(register), seen, data],
    }
}
