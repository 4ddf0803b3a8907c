//! The glyph lookup: what a text word stands for, found, blank or missing.

use crate::memories::{half_of, Half};
use crate::numbering::{full_glyph_number, Numbering};

/// The three things that the lookup tells apart.
#[derive(Clone, Copy, PartialEq, Eq, Debug)]
pub(crate) enum Lookup<'a> {
    Found(Glyph<'a>),
    /// Blank by the rules: neither byte is a half glyph, or the word has a high
    /// byte of A1h or more and no number.
    Blank,
    /// The code has a number, and its 32 bytes do not lie inside the lent font.
    Missing,
}

/// What a cell is drawn from.
#[derive(Clone, Copy, PartialEq, Eq, Debug)]
pub(crate) enum Glyph<'a> {
    /// The image of this number in glyph memory.
    Image(usize),
    /// The 32 bytes of a full glyph.
    Full(&'a [u8]),
    /// Each byte by itself; one of the two may be blank.
    Halves { left: u8, right: u8 },
}

/// Looks a text word up. Images and half glyphs are never missing: glyph memory
/// and the half font hold them all.
pub(crate) fn look_up(numbering: Numbering, word: u16, full: &[u8]) -> Lookup<'_> {
    if let Some(i) = image_of(word) {
        return Lookup::Found(Glyph::Image(i));
    }
    let left = half_of(word, Half::High);
    let right = half_of(word, Half::Low);
    // High byte A1h or more: a full glyph.
    if left >= 0xA1 {
        return match full_glyph_number(numbering, left, right) {
            Some(i) => full_glyph(i, full),
            None => Lookup::Blank,
        };
    }
    // Otherwise each byte by itself.
    if is_half_glyph(left) || is_half_glyph(right) {
        Lookup::Found(Glyph::Halves { left, right })
    } else {
        Lookup::Blank
    }
}

/// Full font: glyph i is the 32 bytes from 32 i on, if they lie inside.
fn full_glyph(i: usize, full: &[u8]) -> Lookup<'_> {
    match full.get(32 * i..32 * i + 32) {
        Some(rows) => Lookup::Found(Glyph::Full(rows)),
        None => Lookup::Missing,
    }
}

/// Word 0000h..000Fh: image (low byte / 2) mod 4.
pub(crate) fn image_of(word: u16) -> Option<usize> {
    if word <= 0x000F {
        Some((usize::from(half_of(word, Half::Low)) / 2) % 4)
    } else {
        None
    }
}

/// 02h..7Fh is a half glyph, the rest blank.
pub(crate) fn is_half_glyph(code: u8) -> bool {
    (0x02..=0x7F).contains(&code)
}
