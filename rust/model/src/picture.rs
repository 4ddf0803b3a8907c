//! The picture, dot by dot.

use crate::glyphs::{is_half_glyph, look_up, Glyph, Lookup};
use crate::memories::{bit, Panel, Target};

/// The two lent fonts and the blink phase.
#[derive(Clone, Copy)]
pub(crate) struct Lent<'a> {
    pub half: &'a [u8],
    pub full: &'a [u8],
    pub phase: bool,
}

/// At row r, s = (r + scroll) mod 64.
pub(crate) fn shown_row(panel: &Panel, r: usize) -> usize {
    (r + usize::from(panel.scroll)) % 64
}

/// Cell k of row s shows text word 16 (s/16) + (k + shift) mod 16.
pub(crate) fn shown_word(panel: &Panel, s: usize, k: usize) -> usize {
    16 * (s / 16) + (k + usize::from(panel.shift)) % 16
}

/// The byte of the picture at a frame place: bit 7 leftmost.
pub(crate) fn picture_byte(panel: &Panel, place: usize, lent: Lent) -> u8 {
    let row = place / 32;
    let left = 8 * (place % 32);
    let mut byte = 0;
    for n in 0..8 {
        if dot(panel, row, left + n, lent) {
            byte |= 0x80 >> n;
        }
    }
    byte
}

/// The dot in row r (of 32) and column x (of 256).
fn dot(panel: &Panel, r: usize, x: usize, lent: Lent) -> bool {
    // Display 0 or standby: all zero.
    if !panel.display || panel.standby {
        return false;
    }
    let s = shown_row(panel, r);
    let line = s / 16;
    let y = s % 16;
    let k = x / 16;
    let across = x % 16;
    let word = shown_word(panel, s, k);

    let mut on = glyph_dot(panel, panel.text[word], y, across, lent);
    // Then: at the counter's word, if target is text,
    if panel.target == Target::Text && word == usize::from(panel.counter) {
        // cursor sets glyph row 15
        if panel.cursor && y == 15 {
            on = true;
        }
        // and blink with phase 1 inverts the cell.
        if panel.blink && lent.phase {
            on = !on;
        }
    }
    // Then line reverse inverts;
    if panel.reversed[line] {
        on = !on;
    }
    // then, if G, exclusive or with graphic row s, unshifted.
    if panel.g {
        on ^= word_dot(panel.graphic[s][k], across);
    }
    on
}

/// The dot of a text word's glyph: row y, `across` 0..15 from the left.
fn glyph_dot(panel: &Panel, word: u16, y: usize, across: usize, lent: Lent) -> bool {
    match look_up(panel.numbering, word, lent.full) {
        // Row y of image i is glyph word 16 i + y.
        Lookup::Found(Glyph::Image(i)) => word_dot(panel.glyph[16 * i + y], across),
        // Row y is byte 2 y of the glyph and the next byte.
        Lookup::Found(Glyph::Full(rows)) => byte_dot(rows[2 * y + across / 8], across % 8),
        Lookup::Found(Glyph::Halves { left, right }) => {
            if across < 8 {
                half_dot(lent.half, left, y, across)
            } else {
                half_dot(lent.half, right, y, across - 8)
            }
        }
        Lookup::Blank => false,
        Lookup::Missing => box_dot(y, across),
    }
}

/// A box, the outermost dots of the 16 by 16 cell.
fn box_dot(y: usize, across: usize) -> bool {
    y == 0 || y == 15 || across == 0 || across == 15
}

/// A half glyph's row y is at 16 c + y; any other code is blank.
fn half_dot(half: &[u8], code: u8, y: usize, across: usize) -> bool {
    if !is_half_glyph(code) {
        return false;
    }
    byte_dot(half[16 * usize::from(code) + y], across)
}

/// Bit 15 is the leftmost dot of a word.
fn word_dot(word: u16, across: usize) -> bool {
    (word >> (15 - across)) & 1 == 1
}

/// Bit 7 is the leftmost dot of a byte.
fn byte_dot(byte: u8, across: usize) -> bool {
    bit(byte, 7 - across as u32)
}
