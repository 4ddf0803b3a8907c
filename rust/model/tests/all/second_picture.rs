//! The picture a second time, word by word instead of dot by dot; the named
//! bytes and the missing glyphs a second time, by arithmetic instead of walking.

use std::collections::BTreeSet;

use model::{Half, Missing, Numbering, Panel, Target};

/// The box of a missing glyph, dot for dot.
pub const BOX: [u16; 16] = [
    0b11111111_11111111,
    0b10000000_00000001,
    0b10000000_00000001,
    0b10000000_00000001,
    0b10000000_00000001,
    0b10000000_00000001,
    0b10000000_00000001,
    0b10000000_00000001,
    0b10000000_00000001,
    0b10000000_00000001,
    0b10000000_00000001,
    0b10000000_00000001,
    0b10000000_00000001,
    0b10000000_00000001,
    0b10000000_00000001,
    0b11111111_11111111,
];

/// The picture, one 16-bit word per cell row.
pub fn second_picture(panel: &Panel, half: &[u8], full: &[u8], phase: bool) -> Vec<u8> {
    let mut frame = Vec::with_capacity(1_024);
    for r in 0..32u8 {
        let s = usize::from(r.wrapping_add(panel.scroll) & 63);
        for k in 0..16u8 {
            let at = (s & 0x30) | usize::from((k + panel.shift) & 15);
            let mut dots = cell_row(panel, panel.text[at], s & 15, half, full);
            let marked = panel.target == Target::Text && usize::from(panel.counter) == at;
            if marked && panel.cursor && s & 15 == 15 {
                dots = 0xFFFF;
            }
            if marked && panel.blink && phase {
                dots ^= 0xFFFF;
            }
            if panel.reversed[s >> 4] {
                dots ^= 0xFFFF;
            }
            if panel.g {
                dots ^= panel.graphic[s][usize::from(k)];
            }
            if panel.standby || !panel.display {
                dots = 0;
            }
            frame.extend(dots.to_be_bytes());
        }
    }
    frame
}

fn cell_row(panel: &Panel, word: u16, y: usize, half: &[u8], full: &[u8]) -> u16 {
    let [high, low] = word.to_be_bytes();
    match (high, low) {
        (0, 0..=15) => panel.glyph[usize::from(low >> 1 & 3) * 16 + y],
        (0xA1..=0xFF, _) => {
            let Some(number) = second_number(panel.numbering, word) else {
                return 0;
            };
            match full.chunks_exact(32).nth(number) {
                Some(glyph) => u16::from_be_bytes([glyph[2 * y], glyph[2 * y + 1]]),
                None => BOX[y],
            }
        }
        _ => {
            let one = |code: u8| match code {
                0x02..=0x7F => half[usize::from(code) * 16 + y],
                _ => 0,
            };
            u16::from_be_bytes([one(high), one(low)])
        }
    }
}

/// The number of a full glyph: the place of its trail among those allowed, in
/// the row of its lead among those allowed.
pub fn second_number(numbering: Numbering, word: u16) -> Option<usize> {
    let [lead, trail] = word.to_be_bytes();
    let (last, row, skipped) = match (numbering, trail) {
        (Numbering::Old, 0xA0..) => (0xF7, 96, 0xA0),
        (Numbering::New, 0x40..=0x7F) => (0xD7, 160, 0x40),
        // The 32 trails 80h..9Fh are left out.
        (Numbering::New, 0xA0..) => (0xD7, 160, 0x40 + 32),
        _ => return None,
    };
    let before = usize::from(lead.checked_sub(0xA1)?);
    (lead <= last).then(|| before * row + usize::from(trail - skipped))
}

/// The frame rows that show row s of 64: one or none.
fn frame_row(panel: &Panel, s: usize) -> Option<usize> {
    let r = (s + 64 - usize::from(panel.scroll)) % 64;
    (r < 32).then_some(r)
}

/// The bytes of a text word's cell.
pub fn cell(panel: &Panel, word: u8) -> BTreeSet<usize> {
    let word = usize::from(word);
    let k = (word + 16 - usize::from(panel.shift)) % 16;
    (0..16)
        .filter_map(|y| frame_row(panel, word / 16 * 16 + y))
        .flat_map(|r| [32 * r + 2 * k, 32 * r + 2 * k + 1])
        .collect()
}

/// The missing glyphs in sight: looked for word by word, then put in order.
pub fn second_missing(panel: &Panel, full: &[u8]) -> Vec<Missing> {
    let mut list = Vec::new();
    for (word, &code) in panel.text.iter().enumerate() {
        let number = second_number(panel.numbering, code);
        if number.is_none_or(|number| number < full.len() / 32) {
            continue;
        }
        let rows = || (0..16).filter_map(|y| frame_row(panel, word / 16 * 16 + y));
        let (Some(first_row), Some(last_row)) = (rows().min(), rows().max()) else {
            continue;
        };
        let [lead, trail] = code.to_be_bytes();
        list.push(Missing {
            lead,
            trail,
            first_row,
            last_row,
            cell: (word + 16 - usize::from(panel.shift)) % 16,
        });
    }
    list.sort_by_key(|missing| (missing.first_row, missing.cell));
    list
}

/// The byte of the graphic write that comes next.
pub fn graphic_byte(panel: &Panel) -> BTreeSet<usize> {
    let column = 2 * usize::from(panel.counter) + usize::from(panel.next == Half::Low);
    frame_row(panel, usize::from(panel.graphic_row))
        .map(|r| 32 * r + column)
        .into_iter()
        .collect()
}

/// The bytes of the glyph write that comes next: every cell of an image.
pub fn image_bytes(panel: &Panel) -> BTreeSet<usize> {
    let (image, y) = (panel.counter / 16, panel.counter % 16);
    let right = usize::from(panel.next == Half::Low);
    (0..64u8)
        .filter(|&word| {
            let code = panel.text[usize::from(word)];
            code < 16 && code as u8 / 2 % 4 == image
        })
        .filter_map(|word| {
            let r = frame_row(panel, usize::from(word / 16 * 16 + y))?;
            let k = (usize::from(word) + 16 - usize::from(panel.shift)) % 16;
            Some(32 * r + 2 * k + right)
        })
        .collect()
}
