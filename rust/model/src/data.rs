//! Data write, data read, status read, and one whole transfer.

use crate::instructions::{decide, display_left, display_right, execute};
use crate::links::Transfer;
use crate::memories::{half_of, with_half, Half, Panel, Target};
use crate::named::{named, Named};
use crate::time::{cost, lost};

/// What a whole transfer answers: its reply byte (0 unless it reads) and the
/// bytes it names for repaint.
pub(crate) struct Whole {
    pub reply: u8,
    pub named: Named,
}

/// The panel does one whole transfer, however it came over the link, or loses
/// it: then all stays, the time left included, and the reply is 0.
pub(crate) fn act(panel: &mut Panel, transfer: Transfer) -> Whole {
    let before = panel.clone();
    let reply = if lost(panel, transfer) {
        0
    } else {
        carry_out(panel, transfer)
    };
    let named = named(&before, transfer, panel);
    Whole { reply, named }
}

/// Does the transfer and answers its reply. With time, what it costs is left
/// from then on; what costs nothing leaves the time as it is.
fn carry_out(panel: &mut Panel, transfer: Transfer) -> u8 {
    let cost = cost(panel, transfer);
    let reply = match transfer {
        Transfer::InstructionWrite(byte) => {
            let instruction = decide(panel, byte);
            execute(panel, instruction);
            0
        }
        Transfer::DataWrite(byte) => {
            data_write(panel, byte);
            0
        }
        Transfer::StatusRead => status_read(panel),
        Transfer::DataRead => data_read(panel),
    };
    if panel.time && cost > 0 {
        panel.left = cost;
    }
    reply
}

/// Data write: store into the next half; after the low half, step. A write
/// leaves the dummy mark. It drops a waiting row and leaves standby.
fn data_write(panel: &mut Panel, byte: u8) {
    panel.waiting = None;
    let half = panel.next;
    let word = word_at_counter(panel);
    *word = with_half(*word, half, byte);
    after_half(panel);
}

/// Data read: if a dummy is due, answer 0, clear that mark and move nothing.
/// Otherwise answer the next half and move as a write does. Either drops a
/// waiting row.
fn data_read(panel: &mut Panel) -> u8 {
    panel.waiting = None;
    if panel.dummy_due {
        panel.dummy_due = false;
        return 0;
    }
    let half = panel.next;
    let answer = half_of(*word_at_counter(panel), half);
    after_half(panel);
    answer
}

/// Status read: bit 7 set while busy, bit 6 zero, the counter; it changes
/// nothing.
fn status_read(panel: &Panel) -> u8 {
    u8::from(panel.busy()) << 7 | panel.counter
}

/// The word at target, counter and (for graphic memory) graphic row.
fn word_at_counter(panel: &mut Panel) -> &mut u16 {
    let counter = usize::from(panel.counter);
    match panel.target {
        Target::Text => &mut panel.text[counter],
        Target::Glyph => &mut panel.glyph[counter],
        Target::Graphic => &mut panel.graphic[usize::from(panel.graphic_row)][counter],
    }
}

/// After the high half the low half comes next; after the low half, step.
fn after_half(panel: &mut Panel) {
    match panel.next {
        Half::High => panel.next = Half::Low,
        Half::Low => {
            panel.next = Half::High;
            step(panel);
            // When a text word completes with S = 1, by read or write, the
            // display shifts left (I/D = 1) or right.
            if panel.target == Target::Text && panel.s {
                if panel.id {
                    display_left(panel);
                } else {
                    display_right(panel);
                }
            }
        }
    }
}

/// Text and glyph step by +1 (I/D = 1) or -1, modulo 64; graphic by +1 modulo
/// 16, same row.
fn step(panel: &mut Panel) {
    panel.counter = match panel.target {
        Target::Text | Target::Glyph => {
            if panel.id {
                (panel.counter + 1) % 64
            } else {
                (panel.counter + 63) % 64
            }
        }
        Target::Graphic => (panel.counter + 1) % 16,
    };
}
