//! Which codes of the present screen have no glyph in the lent font, and where.

use crate::glyphs::{look_up, Lookup};
use crate::memories::{half_of, Half, Panel};
use crate::picture::{shown_row, shown_word};

/// A cell of the glass whose text word shows the box of a missing glyph.
#[derive(Debug, Clone, Copy, PartialEq, Eq)]
pub struct Missing {
    /// The code's high byte.
    pub lead: u8,
    /// The code's low byte.
    pub trail: u8,
    /// The first row of the glass, 0..31, on which the cell's line stands.
    pub first_row: usize,
    /// The last one.
    pub last_row: usize,
    /// The cell's number on the glass, 0..15 from the left.
    pub cell: usize,
}

impl Panel {
    /// The missing glyphs of the glass, from the top downwards, in a line from
    /// left to right. Text memory, numbering, scroll and shift decide; a dark
    /// glass (display off, standby) has the list that it would have if lit.
    pub fn missing(&self, full: &[u8]) -> Vec<Missing> {
        // Each with its text word, which tells the lines of the glass apart.
        let mut found: Vec<(usize, Missing)> = Vec::new();
        for row in 0..32 {
            let s = shown_row(self, row);
            for cell in 0..16 {
                let word = shown_word(self, s, cell);
                let code = self.text[word];
                if look_up(self.numbering, code, full) != Lookup::Missing {
                    continue;
                }
                match found.iter_mut().find(|(of, _)| *of == word) {
                    // A further row of a cell that a row above began.
                    Some((_, missing)) => missing.last_row = row,
                    None => found.push((
                        word,
                        Missing {
                            lead: half_of(code, Half::High),
                            trail: half_of(code, Half::Low),
                            first_row: row,
                            last_row: row,
                            cell,
                        },
                    )),
                }
            }
        }
        found.into_iter().map(|(_, missing)| missing).collect()
    }
}
