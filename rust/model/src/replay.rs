//! Replay over captures, and the lines it prints.

use std::fmt::Write;

use crate::calls::{buffers_number, Outcome};
use crate::captures::{Reader, Record};
use crate::links::{Link, Transfer};
use crate::memories::{bit, Panel};
use crate::numbering::Numbering;

/// The answer of one accepted record.
#[derive(Clone, Copy, PartialEq, Eq, Debug)]
pub struct Answer {
    pub kind: u8,
    pub reply: u8,
    pub count: usize,
}

/// What a replay answers.
#[derive(Clone, PartialEq, Eq, Debug)]
pub struct Replayed {
    /// One per accepted record.
    pub answers: Vec<Answer>,
    /// The place where it stopped: records accepted.
    pub place: usize,
    /// The refusal number; 0 at the end of the capture.
    pub number: u8,
}

/// Goes on until the first refusal. Earlier records stand, the refused one has
/// no effect.
pub fn replay(
    panel: &mut Panel,
    capture: &[u8],
    frame: &mut [u8],
    half: &[u8],
    full: &[u8],
    phase: bool,
) -> Replayed {
    let mut answers = Vec::new();
    // As a call it refuses with 1, 2, 3 before it reads a record.
    let mut number = buffers_number(frame, half, full);
    // No record changes whether the panel has time.
    let mut reader = Reader::made(capture, panel.time);
    while number == 0 {
        let record = match reader.read() {
            Ok(record) => record,
            Err(why) => {
                number = why;
                break;
            }
        };
        let outcome = obey(panel, record, frame, half, full, phase);
        number = outcome.number;
        if number == 0 {
            answers.push(Answer {
                kind: record.kind,
                reply: outcome.reply,
                count: outcome.count,
            });
        }
    }
    Replayed {
        place: answers.len(),
        answers,
        number,
    }
}

/// One record is one call, but for the eight serial bits.
fn obey(
    panel: &mut Panel,
    record: Record,
    frame: &mut [u8],
    half: &[u8],
    full: &[u8],
    phase: bool,
) -> Outcome {
    let value = record.value;
    match record.kind {
        0 => panel.transfer(Transfer::InstructionWrite(value), frame, half, full, phase),
        1 => panel.transfer(Transfer::DataWrite(value), frame, half, full, phase),
        2 => panel.transfer(Transfer::StatusRead, frame, half, full, phase),
        3 => panel.transfer(Transfer::DataRead, frame, half, full, phase),
        4 => eight_bits(panel, value, frame, half, full, phase),
        5 => panel.select_low(frame, half, full, phase),
        // Bit 0 is the interface pin, bit 1 the numbering (reading 47).
        6 => {
            let numbering = if bit(value, 1) {
                Numbering::New
            } else {
                Numbering::Old
            };
            panel.reset(bit(value, 0), numbering, frame, half, full, phase)
        }
        _ => panel.pass(value, frame, half, full, phase),
    }
}

/// Eight serial bits, highest first. On a parallel panel no bit is heard.
fn eight_bits(
    panel: &mut Panel,
    value: u8,
    frame: &mut [u8],
    half: &[u8],
    full: &[u8],
    phase: bool,
) -> Outcome {
    let mut sum = Outcome {
        number: 0,
        reply: 0,
        count: 0,
    };
    if let Link::Parallel(_) = panel.link {
        sum.number = 5;
        return sum;
    }
    for n in (0..8).rev() {
        let outcome = panel.bit(bit(value, n), frame, half, full, phase);
        // At most one byte can complete in eight bits.
        sum.count += outcome.count;
    }
    sum
}

/// Per accepted record its number, reply (two hex digits, `--` for non-reads)
/// and count; then `end N`, or `stop N code`.
pub fn printed(replayed: &Replayed) -> String {
    let mut lines = String::new();
    for (i, answer) in replayed.answers.iter().enumerate() {
        let reply = match answer.kind {
            2 | 3 => format!("{:02X}", answer.reply),
            _ => String::from("--"),
        };
        // Writing to a string does not fail.
        let _ = writeln!(lines, "{i} {reply} {}", answer.count);
    }
    let place = replayed.place;
    let _ = match replayed.number {
        0 => writeln!(lines, "end {place}"),
        code => writeln!(lines, "stop {place} {code}"),
    };
    lines
}
