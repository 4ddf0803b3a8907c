//! The picture in plain Rust, dot by dot, as document 01 says it.
use crate::screen::*;

/// The number of a full glyph by the screen's numbering, for leads from A1h on.
fn number(s: &Screen, lead: usize, trail: usize) -> Option<usize> {
    if s.control[NUMBERING] == BY_160 {
        let place = match trail {
            0x40..=0x7F => trail - 0x40,
            0xA0.. => 64 + trail - 0xA0,
            _ => return None,
        };
        return (lead <= 0xD7).then_some((lead - 0xA1) * 160 + place);
    }
    (lead <= 0xF7 && trail >= 0xA0).then(|| (lead - 0xA1) * 96 + trail - 0xA0)
}

/// Whether the dot `x` of glyph row `y` of a text word is set, before cursor and the rest.
fn glyph_dot(s: &Screen, f: &Fonts, word: usize, y: usize, x: usize) -> bool {
    let (high, low) = (s.text[2 * word], s.text[2 * word + 1]);
    let byte = if high == 0 && low <= 0x0F {
        let image = (low / 2 % 4) as usize;
        s.glyph[2 * (16 * image + y) + x / 8]
    } else if high >= 0xA1 {
        let Some(number) = number(s, high as usize, low as usize) else {
            return false;
        };
        // A glyph that is missing: the outermost dots of the cell.
        if 32 * number + 32 > f.full.len() {
            return [0, 15].contains(&x) || [0, 15].contains(&y);
        }
        f.full[32 * number + 2 * y + x / 8]
    } else {
        let code = if x < 8 { high } else { low };
        if !(0x02..=0x7F).contains(&code) {
            return false;
        }
        f.half[16 * code as usize + y]
    };
    byte >> (7 - x % 8) & 1 == 1
}

fn dot(s: &Screen, f: &Fonts, phase: bool, row: usize, column: usize) -> bool {
    let on = |at: usize| s.control[at] == 1;
    if !on(DISPLAY) || on(STANDBY) {
        return false;
    }
    let line = (row + s.control[SCROLL] as usize) % 64;
    let (cell, x, y) = (column / 16, column % 16, line % 16);
    let word = 16 * (line / 16) + (cell + s.control[SHIFT] as usize) % 16;
    let mut dot = glyph_dot(s, f, word, y, x);
    if s.control[TARGET] == 0 && s.control[COUNTER] as usize == word {
        dot |= on(CURSOR) && y == 15;
        dot ^= on(BLINK) && phase;
    }
    dot ^= on(REVERSED + line / 16);
    if on(G) {
        dot ^= s.graphic[32 * line + column / 8] >> (7 - column % 8) & 1 == 1;
    }
    dot
}

pub fn draw(s: &Screen, f: &Fonts, phase: bool, frame: &mut [u8]) {
    for row in 0..32 {
        for column in 0..256 {
            let place = 32 * row + column / 8;
            let mask = 0x80 >> (column % 8);
            if dot(s, f, phase, row, column) {
                frame[place] |= mask;
            } else {
                frame[place] &= !mask;
            }
        }
    }
}
