//! The parallel link: whole bytes (DL = 1) and half bytes (DL = 0).

use crate::data::{act, Whole};
use crate::links::{Link, Pair, Transfer};
use crate::memories::Panel;
use crate::named::Named;

/// One transfer of the parallel link; `pair` is its open first half, if any.
pub(crate) fn parallel(panel: &mut Panel, pair: Option<Pair>, transfer: Transfer) -> Whole {
    // DL = 1: one transfer, one byte. It does not look at the pairing.
    if panel.dl {
        return act(panel, transfer);
    }
    // DL = 0: a second half is of the very kind of the first. If it differs,
    // the first is dropped and the new one is a first.
    match pair {
        Some(first) if first.kind == transfer.kind() => second_half(panel, first, transfer),
        _ => first_half(panel, transfer),
    }
}

fn first_half(panel: &mut Panel, transfer: Transfer) -> Whole {
    match transfer {
        // Upper half first: bits 7..4 count, and a write waits for its second.
        Transfer::InstructionWrite(value) | Transfer::DataWrite(value) => {
            keep(panel, transfer, value & 0xF0);
            Whole {
                reply: 0,
                named: Named::none(),
            }
        }
        // A read acts at its first half. The reply carries its four bits in
        // 7..4, zeros below; the low four bits are kept for the second half.
        Transfer::StatusRead | Transfer::DataRead => {
            let whole = act(panel, transfer);
            keep(panel, transfer, (whole.reply & 0x0F) << 4);
            Whole {
                reply: whole.reply & 0xF0,
                named: whole.named,
            }
        }
    }
}

fn second_half(panel: &mut Panel, first: Pair, transfer: Transfer) -> Whole {
    // The pair is complete.
    panel.link = Link::Parallel(None);
    match transfer {
        // A write acts at its second half byte.
        Transfer::InstructionWrite(value) => {
            let byte = first.bits | (value >> 4);
            act(panel, Transfer::InstructionWrite(byte))
        }
        Transfer::DataWrite(value) => {
            let byte = first.bits | (value >> 4);
            act(panel, Transfer::DataWrite(byte))
        }
        // A read's second half only hands over the low four bits of the same
        // answer.
        Transfer::StatusRead | Transfer::DataRead => Whole {
            reply: first.bits,
            named: Named::none(),
        },
    }
}

fn keep(panel: &mut Panel, transfer: Transfer, bits: u8) {
    panel.link = Link::Parallel(Some(Pair {
        kind: transfer.kind(),
        bits,
    }));
}
