//! Bytes named for repaint.

use crate::glyphs::image_of;
use crate::instructions::{decide, Instruction};
use crate::links::Transfer;
use crate::memories::{Half, Panel, Target};
use crate::picture::{shown_row, shown_word};
use crate::time::lost;

/// A set of the 1,024 frame places.
#[derive(Clone, PartialEq, Eq, Debug)]
pub struct Named {
    places: [bool; 1_024],
}

impl Named {
    pub fn none() -> Named {
        Named {
            places: [false; 1_024],
        }
    }

    pub fn all() -> Named {
        Named {
            places: [true; 1_024],
        }
    }

    pub fn add(&mut self, place: usize) {
        self.places[place] = true;
    }

    pub fn has(&self, place: usize) -> bool {
        self.places[place]
    }

    /// The number of distinct bytes.
    pub fn size(&self) -> usize {
        (0..1_024).filter(|&place| self.has(place)).count()
    }
}

/// The bytes that a whole transfer names, given the panel before and after.
/// The first line that applies decides.
pub fn named(before: &Panel, transfer: Transfer, after: &Panel) -> Named {
    // A lost transfer names no bytes.
    if lost(before, transfer) {
        return Named::none();
    }
    if names_all(before, transfer, after) {
        return Named::all();
    }
    let mut named = Named::none();
    match transfer {
        Transfer::DataWrite(_) => match before.target {
            // Text write: the word's cell and, if the counter steps, the new
            // word's cell.
            Target::Text => {
                add_cell(&mut named, after, before.counter);
                if completes_word(before, transfer) {
                    add_cell(&mut named, after, after.counter);
                }
            }
            Target::Graphic => add_graphic_byte(&mut named, before, after),
            Target::Glyph => add_image_bytes(&mut named, before, after),
        },
        // Text read that steps: both cells.
        Transfer::DataRead => {
            if before.target == Target::Text && completes_word(before, transfer) {
                add_cell(&mut named, after, before.counter);
                add_cell(&mut named, after, after.counter);
            }
        }
        // Address sets and cursor moves: the counter's cell before and after,
        // each where target is text.
        Transfer::InstructionWrite(byte) => {
            if is_address_set_or_cursor_move(decide(before, byte)) {
                if before.target == Target::Text {
                    add_cell(&mut named, after, before.counter);
                }
                if after.target == Target::Text {
                    add_cell(&mut named, after, after.counter);
                }
            }
            // A row alone, and an ignored code: none.
        }
        // All else: none.
        Transfer::StatusRead => {}
    }
    named
}

/// All 1,024: a text word completed with S = 1; an instruction that ends
/// standby; every other executed instruction not listed. (And reset.)
fn names_all(before: &Panel, transfer: Transfer, after: &Panel) -> bool {
    match transfer {
        Transfer::DataWrite(_) | Transfer::DataRead => {
            before.target == Target::Text && before.s && completes_word(before, transfer)
        }
        Transfer::InstructionWrite(byte) => {
            let instruction = decide(before, byte);
            let executed = instruction != Instruction::Ignored;
            let ends_standby = before.standby && !after.standby;
            let listed = is_address_set_or_cursor_move(instruction)
                || matches!(instruction, Instruction::GraphicRow(_));
            ends_standby || (executed && !listed)
        }
        Transfer::StatusRead => false,
    }
}

/// Does the data transfer complete a word, so that the counter steps? It takes
/// the low half, and a read that answers the dummy moves nothing.
fn completes_word(before: &Panel, transfer: Transfer) -> bool {
    match transfer {
        Transfer::DataWrite(_) => before.next == Half::Low,
        Transfer::DataRead => before.next == Half::Low && !before.dummy_due,
        Transfer::InstructionWrite(_) | Transfer::StatusRead => false,
    }
}

fn is_address_set_or_cursor_move(instruction: Instruction) -> bool {
    matches!(
        instruction,
        Instruction::TextAddress(_)
            | Instruction::GlyphAddress(_)
            | Instruction::GraphicColumn { .. }
            | Instruction::CursorLeft
            | Instruction::CursorRight
    )
}

/// A cell's bytes are its two columns on the visible rows of its line.
fn add_cell(named: &mut Named, panel: &Panel, word: u8) {
    for r in 0..32 {
        let s = shown_row(panel, r);
        for k in 0..16 {
            if shown_word(panel, s, k) == usize::from(word) {
                named.add(32 * r + 2 * k);
                named.add(32 * r + 2 * k + 1);
            }
        }
    }
}

/// Graphic write: its byte, if visible. G does not matter.
fn add_graphic_byte(named: &mut Named, before: &Panel, after: &Panel) {
    for r in 0..32 {
        for k in 0..16 {
            let row = shown_row(after, r);
            if row == usize::from(before.graphic_row) && k == usize::from(before.counter) {
                named.add(32 * r + 2 * k + column_of(before.next));
            }
        }
    }
}

/// Glyph write: each byte showing that half of that image row.
fn add_image_bytes(named: &mut Named, before: &Panel, after: &Panel) {
    let image = usize::from(before.counter) / 16;
    let y = usize::from(before.counter) % 16;
    for r in 0..32 {
        let s = shown_row(after, r);
        for k in 0..16 {
            let word = after.text[shown_word(after, s, k)];
            if s % 16 == y && image_of(word) == Some(image) {
                named.add(32 * r + 2 * k + column_of(before.next));
            }
        }
    }
}

/// The high half is a cell's left byte, the low half its right byte.
fn column_of(half: Half) -> usize {
    match half {
        Half::High => 0,
        Half::Low => 1,
    }
}
