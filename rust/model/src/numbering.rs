//! The numberings of full glyphs.

/// Which numbering the panel has: chosen when it is made and at each reset,
/// kept by everything else.
#[derive(Clone, Copy, PartialEq, Eq, Debug)]
pub enum Numbering {
    /// Document 01's: leads A1h..F7h, trails A0h..FFh, 8,352 numbers.
    Old,
    /// Document 02's, for the traditional and the mixed font: leads A1h..D7h,
    /// trails 40h..7Fh and A0h..FFh, 8,800 numbers.
    New,
}

/// The number of a code in a numbering, if it has one there. No two codes of
/// one numbering share a number.
pub fn full_glyph_number(numbering: Numbering, lead: u8, trail: u8) -> Option<usize> {
    match numbering {
        Numbering::Old => old_number(lead, trail),
        Numbering::New => new_number(lead, trail),
    }
}

/// (lead - A1h) 96 + (trail - A0h), for lead A1h to F7h, trail from A0h.
fn old_number(lead: u8, trail: u8) -> Option<usize> {
    if (0xA1..=0xF7).contains(&lead) && trail >= 0xA0 {
        Some((usize::from(lead) - 0xA1) * 96 + (usize::from(trail) - 0xA0))
    } else {
        None
    }
}

/// (lead - A1h) 160, plus trail - 40h for the low range, or 64 + trail - A0h
/// for the high one, with leads A1h..D7h; no other code (reading 48).
fn new_number(lead: u8, trail: u8) -> Option<usize> {
    if !(0xA1..=0xD7).contains(&lead) {
        return None;
    }
    let first = (usize::from(lead) - 0xA1) * 160;
    match trail {
        0x40..=0x7F => Some(first + (usize::from(trail) - 0x40)),
        0xA0..=0xFF => Some(first + 64 + (usize::from(trail) - 0xA0)),
        _ => None,
    }
}
