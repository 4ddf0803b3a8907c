//! The list of missing glyphs: which codes of the present screen have none in
//! the lent font, and where.

use crate::bench::{Bench, Dice, NUMBERINGS};
use crate::numbering::{cell_of, showing};
use crate::second_picture::BOX;
use model::{Missing, Numbering, Panel, Target};

/// Code, first row, last row, cell.
fn listed(code: u16, first_row: usize, last_row: usize, cell: usize) -> Missing {
    let [lead, trail] = code.to_be_bytes();
    Missing {
        lead,
        trail,
        first_row,
        last_row,
        cell,
    }
}

/// A fresh panel with these codes at these words.
fn with(codes: &[(usize, u16)]) -> Panel {
    let mut panel = Panel::fresh(true);
    for &(word, code) in codes {
        panel.text[word] = code;
    }
    panel
}

/// Scroll 0, shift 0: two whole lines, the two below are out of sight.
#[test]
fn a_plain_screen() {
    let panel = with(&[
        (2, 0xB0A1),
        (7, 0xA1A0),
        (15, 0xB0A1),
        (16, 0xF7FF),
        (31, 0xC9FE),
        (32, 0xB0A1),
        (63, 0xB0A1),
    ]);
    let expected = [
        listed(0xB0A1, 0, 15, 2),
        listed(0xA1A0, 0, 15, 7),
        listed(0xB0A1, 0, 15, 15),
        listed(0xF7FF, 16, 31, 0),
        listed(0xC9FE, 16, 31, 15),
    ];
    assert_eq!(panel.missing(&[]), expected);
    // The code A1A0h alone is in a font of one glyph.
    let found = [expected[0], expected[2], expected[3], expected[4]];
    assert_eq!(panel.missing(&[0; 32]), found);
}

#[test]
fn lead_and_trail_are_the_codes_two_bytes() {
    let list = with(&[(0, 0xB0A1)]).missing(&[]);
    assert_eq!((list[0].lead, list[0].trail), (0xB0, 0xA1));
}

/// Scroll 5: rows 5..15 of line 0, all of line 1, rows 0..4 of line 2.
#[test]
fn three_lines_of_which_two_in_part() {
    let mut panel = with(&[
        (40, 0xB0A5),
        (33, 0xB0A4),
        (20, 0xB0A3),
        (9, 0xB0A2),
        (1, 0xB0A1),
        (50, 0xB0A6),
    ]);
    panel.scroll = 5;
    let expected = [
        listed(0xB0A1, 0, 10, 1),
        listed(0xB0A2, 0, 10, 9),
        listed(0xB0A3, 11, 26, 4),
        listed(0xB0A4, 27, 31, 1),
        listed(0xB0A5, 27, 31, 8),
    ];
    assert_eq!(panel.missing(&[]), expected);
}

/// Every scroll: lines of one cell each, by the words of the document. The line
/// at the top has 16 - scroll mod 16 rows, the next 16, the third what is left.
#[test]
fn every_scroll() {
    let mut panel = with(&[(0, 0xB0A1), (16, 0xB0A2), (32, 0xB0A3), (48, 0xB0A4)]);
    for scroll in 0..64 {
        panel.scroll = scroll;
        let code = |below: u16| 0xB0A1 + (u16::from(scroll) / 16 + below) % 4;
        let end = 16 - usize::from(scroll) % 16;
        let mut expected = vec![
            listed(code(0), 0, end - 1, 0),
            listed(code(1), end, end + 15, 0),
        ];
        if end < 16 {
            expected.push(listed(code(2), end + 16, 31, 0));
        }
        assert_eq!(panel.missing(&[]), expected, "scroll {scroll}");
    }
}

/// Scroll 56: line 3 stands above lines 0 and 1.
#[test]
fn from_the_top_of_the_glass_downwards() {
    let mut panel = with(&[(4, 0xB0A1), (16, 0xB0A2), (60, 0xB0A4)]);
    panel.scroll = 56;
    let expected = [
        listed(0xB0A4, 0, 7, 12),
        listed(0xB0A1, 8, 23, 4),
        listed(0xB0A2, 24, 31, 0),
    ];
    assert_eq!(panel.missing(&[]), expected);
}

/// Scroll 63: one row of line 3, all of line 0, 15 rows of line 1.
#[test]
fn a_line_of_one_row() {
    let mut panel = with(&[(0, 0xB0A1), (16, 0xB0A2), (32, 0xB0A3), (48, 0xB0A4)]);
    panel.scroll = 63;
    let expected = [
        listed(0xB0A4, 0, 0, 0),
        listed(0xB0A1, 1, 16, 0),
        listed(0xB0A2, 17, 31, 0),
    ];
    assert_eq!(panel.missing(&[]), expected);
}

/// Shift 3: words 0, 1 and 2 stand at cells 13, 14 and 15, so after word 3.
#[test]
fn shifted_from_left_to_right() {
    let mut panel = with(&[(0, 0xB0A1), (2, 0xB0A2), (3, 0xB0A3), (15, 0xB0A4)]);
    panel.shift = 3;
    let expected = [
        listed(0xB0A3, 0, 15, 0),
        listed(0xB0A4, 0, 15, 12),
        listed(0xB0A1, 0, 15, 13),
        listed(0xB0A2, 0, 15, 15),
    ];
    assert_eq!(panel.missing(&[]), expected);
}

#[test]
fn scrolled_and_shifted() {
    let mut panel = with(&[(1, 0xB0A1), (14, 0xB0A2), (33, 0xB0A3), (46, 0xB0A4)]);
    panel.scroll = 15;
    panel.shift = 2;
    let expected = [
        listed(0xB0A2, 0, 0, 12),
        listed(0xB0A1, 0, 0, 15),
        listed(0xB0A4, 17, 31, 12),
        listed(0xB0A3, 17, 31, 15),
    ];
    assert_eq!(panel.missing(&[]), expected);
}

/// The same code in one cell of each line, and in neighbouring cells: each is
/// listed for itself.
#[test]
fn every_place_of_one_code() {
    let mut panel = with(&[(4, 0xB0A1), (5, 0xB0A1), (20, 0xB0A1), (36, 0xB0A1)]);
    panel.scroll = 8;
    let expected = [
        listed(0xB0A1, 0, 7, 4),
        listed(0xB0A1, 0, 7, 5),
        listed(0xB0A1, 8, 23, 4),
        listed(0xB0A1, 24, 31, 4),
    ];
    assert_eq!(panel.missing(&[]), expected);
}

/// All 64 words: 32 cells, or 48 with the scroll in the middle of a line.
#[test]
fn a_glass_full_of_boxes() {
    let mut panel = Panel::fresh(true);
    panel.text = [0xA1A0; 64];
    for (scroll, tops) in [
        (0, &[(0, 15), (16, 31)][..]),
        (10, &[(0, 5), (6, 21), (22, 31)]),
    ] {
        panel.scroll = scroll;
        let expected: Vec<Missing> = tops
            .iter()
            .flat_map(|&(first, last)| (0..16).map(move |cell| listed(0xA1A0, first, last, cell)))
            .collect();
        assert_eq!(panel.missing(&[]), expected);
    }
}

/// A fresh panel; one whose codes are all in the font; one whose missing codes
/// are out of sight.
#[test]
fn nothing_missing() {
    assert_eq!(Panel::fresh(true).missing(&[]), []);
    let panel = with(&[(0, 0xA1A0), (17, 0xA1A1)]);
    assert_eq!(panel.missing(&[0; 64]), []);
    let mut panel = with(&[(5, 0xB0A1), (63, 0xB0A1)]);
    panel.scroll = 16;
    assert_eq!(panel.missing(&[]), []);
}

/// Images, half glyphs, blanks and codes without a number are never listed.
#[test]
fn only_codes_with_a_number() {
    for (numbering, numbers) in [(Numbering::Old, 8_352), (Numbering::New, 8_800)] {
        let words: Vec<u16> = (0..=0xFFFF).collect();
        let mut listed = Vec::new();
        for some in words.chunks(32) {
            let list = showing(numbering, some).missing(&[]);
            listed.extend(list.iter().map(|m| u16::from_be_bytes([m.lead, m.trail])));
        }
        assert_eq!(listed.len(), numbers);
        let allowed = words.into_iter().filter(|word| {
            let [lead, trail] = word.to_be_bytes();
            model::full_glyph_number(numbering, lead, trail).is_some()
        });
        assert!(allowed.eq(listed));
    }
}

/// The last code inside a font and the first one outside.
#[test]
fn both_sides_of_a_fonts_end() {
    let font = vec![0; 281_600];
    for (numbering, glyphs, inside, outside) in [
        (Numbering::Old, 1, 0xA1A0, 0xA1A1),
        (Numbering::Old, 96, 0xA1FF, 0xA2A0),
        (Numbering::Old, 8_351, 0xF7FE, 0xF7FF),
        (Numbering::New, 1, 0xA140, 0xA141),
        (Numbering::New, 64, 0xA17F, 0xA1A0),
        (Numbering::New, 160, 0xA1FF, 0xA240),
        (Numbering::New, 8_799, 0xD7FE, 0xD7FF),
    ] {
        let panel = showing(numbering, &[inside, outside]);
        let list = panel.missing(&font[..32 * glyphs]);
        assert_eq!(list, [listed(outside, 0, 15, 1)], "{glyphs}");
    }
}

/// The 32 bytes lie inside, or the glyph is missing: part of it is not enough.
#[test]
fn a_glyph_cut_off_is_missing() {
    let panel = with(&[(0, 0xA1A0), (1, 0xA1A1)]);
    for (length, missing) in [(0, 2), (31, 2), (32, 1), (33, 1), (63, 1), (64, 0), (65, 0)] {
        assert_eq!(panel.missing(&vec![0; length]).len(), missing, "{length}");
    }
}

/// What a panel misses depends on its numbering.
#[test]
fn the_panels_own_numbering_decides() {
    for (numbering, codes) in [
        (Numbering::Old, &[0xA1A0, 0xD8A0][..]),
        (Numbering::New, &[0xA1A0, 0xA140]),
    ] {
        let panel = showing(numbering, &[0xA1A0, 0xA140, 0xD8A0, 0xA190]);
        let list = panel.missing(&[]);
        let shown: Vec<u16> = list
            .iter()
            .map(|m| u16::from_be_bytes([m.lead, m.trail]))
            .collect();
        assert_eq!(shown, codes);
    }
}

/// A glyph that looks like the box, and one without dots, are found.
#[test]
fn how_a_glyph_looks_does_not_matter() {
    let box_bytes = BOX.map(u16::to_be_bytes).concat();
    let font = [box_bytes, vec![0; 32]].concat();
    let mut bench = Bench::with(showing(Numbering::Old, &[0xA1A0, 0xA1A1, 0xA1A2]));
    bench.full = font;
    let frame = bench.picture();
    let shown = [0, 1, 2].map(|at| cell_of(&frame, at));
    assert_eq!(shown, [BOX, [0; 16], BOX]);
    let list = bench.panel.missing(&bench.full);
    assert_eq!(list, [listed(0xA1A2, 0, 15, 2)]);
}

#[test]
fn a_dark_glass_has_the_same_list() {
    let mut panel = with(&[(2, 0xB0A1), (20, 0xB0A2)]);
    let expected = [listed(0xB0A1, 0, 15, 2), listed(0xB0A2, 16, 31, 4)];
    for display in [false, true] {
        for standby in [false, true] {
            panel.display = display;
            panel.standby = standby;
            assert_eq!(panel.missing(&[]), expected);
        }
    }
}

/// Text memory, numbering, scroll and shift decide; everything else of the
/// state makes no difference.
#[test]
fn nothing_else_makes_a_difference() {
    let mut dice = Dice::new(167);
    for _ in 0..1_000 {
        let mut one = dice.timed(true);
        let code = |dice: &mut Dice| 0xA1A0 + 0x0100 * dice.below(60) as u16;
        one.text = std::array::from_fn(|_| code(&mut dice));
        let mut other = dice.panel(false);
        other.text = one.text;
        other.numbering = one.numbering;
        other.scroll = one.scroll;
        other.shift = one.shift;
        let full = vec![0; 32 * dice.below(5_000) as usize];
        let list = one.missing(&full);
        assert_eq!(list, other.missing(&full));
    }
}

/// The cursor's own cell, blinking, reversed and under graphic.
#[test]
fn cursor_reverse_and_graphic_make_no_difference() {
    let mut panel = with(&[(0, 0xB0A1), (1, 0xB0A2)]);
    let expected = [listed(0xB0A1, 0, 15, 0), listed(0xB0A2, 0, 15, 1)];
    panel.target = Target::Text;
    panel.cursor = true;
    panel.blink = true;
    assert_eq!(panel.missing(&[]), expected);
    panel.reversed = [true; 4];
    assert_eq!(panel.missing(&[]), expected);
    panel.g = true;
    panel.graphic = [[0xFFFF; 16]; 64];
    assert_eq!(panel.missing(&[]), expected);
}

/// A whole capture that ends with a dark glass, on both numberings.
#[test]
fn after_a_capture_that_ends_dark() {
    for numbering in NUMBERINGS {
        let mut bench = Bench::with(Panel::made(true, false, numbering));
        bench.full = Vec::new();
        bench.instruction(0x0C);
        bench.instruction(0x83);
        for byte in [0xB0, 0xA1, 0x41, 0x42, 0xB0, 0xA2] {
            bench.data(byte);
        }
        let expected = [listed(0xB0A1, 0, 15, 3), listed(0xB0A2, 0, 15, 5)];
        assert_eq!(bench.panel.missing(&bench.full), expected);
        bench.instruction(0x08);
        assert_eq!(bench.panel.missing(&bench.full), expected);
        // Clear leaves nothing missing.
        bench.instruction(0x01);
        assert_eq!(bench.panel.missing(&bench.full), []);
    }
}
