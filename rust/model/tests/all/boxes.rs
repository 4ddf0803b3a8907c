//! Boxes for missing glyphs: request K6 and reading 51, sentence by sentence.

use crate::bench::{Bench, Dice, NUMBERINGS};
use crate::cabinet::{Cabinet, BOTH};
use crate::numbering::{cell_of, cells, marked, marked_font, BLANK};
use crate::second_picture::{second_number, BOX};
use model::{Half, Numbering, Panel, Target, Transfer};

fn inverted(rows: [u16; 16]) -> [u16; 16] {
    rows.map(|row| !row)
}

/// A panel in the light with a missing glyph at word 5 alone: the lent font is
/// empty, the other words are blank, and the counter is not of text.
fn one_box() -> Bench {
    let mut panel = Panel::fresh(true);
    panel.display = true;
    panel.target = Target::Glyph;
    panel.text = [0x8080; 64];
    panel.text[5] = 0xB0A1;
    let mut bench = Bench::with(panel);
    bench.full = Vec::new();
    bench
}

/// Each of the 32 by 256 dots: those outermost in the cell are on, no other.
#[test]
fn reading_51_the_box_dot_for_dot() {
    let frame = one_box().picture();
    for r in 0..32 {
        for x in 0..256 {
            let on = frame[32 * r + x / 8] & (0x80 >> (x % 8)) != 0;
            let in_cell = r < 16 && (80..96).contains(&x);
            let outermost = r == 0 || r == 15 || x == 80 || x == 95;
            assert_eq!(on, in_cell && outermost, "row {r}, dot {x}");
        }
    }
}

/// FFh FFh on glyph rows 0 and 15, 80h 01h on the others.
#[test]
fn reading_51_the_bytes_of_the_box() {
    let frame = one_box().picture();
    for y in 0..16 {
        let row = &frame[32 * y + 10..32 * y + 12];
        match y {
            0 | 15 => assert_eq!(row, [0xFF, 0xFF]),
            _ => assert_eq!(row, [0x80, 0x01]),
        }
    }
    assert_eq!(cell_of(&frame, 5), BOX);
}

/// In every cell of both lines in sight.
#[test]
fn boxes_side_by_side() {
    let mut bench = one_box();
    bench.panel.text = [0xB0A1; 64];
    let frame = bench.picture();
    for at in 0..32 {
        assert_eq!(cell_of(&frame, at), BOX, "cell {at}");
    }
}

/// The last code inside a font of so many glyphs and the first one outside.
#[test]
fn both_sides_of_a_fonts_end() {
    let font = marked_font();
    for (numbering, glyphs, inside, outside) in [
        (Numbering::Old, 1, 0xA1A0, 0xA1A1),
        (Numbering::Old, 95, 0xA1FE, 0xA1FF),
        (Numbering::Old, 96, 0xA1FF, 0xA2A0),
        (Numbering::Old, 97, 0xA2A0, 0xA2A1),
        (Numbering::Old, 8_256, 0xF6FF, 0xF7A0),
        (Numbering::Old, 8_351, 0xF7FE, 0xF7FF),
        (Numbering::New, 1, 0xA140, 0xA141),
        (Numbering::New, 63, 0xA17E, 0xA17F),
        (Numbering::New, 64, 0xA17F, 0xA1A0),
        (Numbering::New, 65, 0xA1A0, 0xA1A1),
        (Numbering::New, 160, 0xA1FF, 0xA240),
        (Numbering::New, 8_704, 0xD77F, 0xD7A0),
        (Numbering::New, 8_799, 0xD7FE, 0xD7FF),
    ] {
        let words = [inside, outside];
        let shown = cells(numbering, &words, &[0xFF; 2_048], &font[..32 * glyphs]);
        assert_eq!(shown, [marked(glyphs - 1), BOX], "{glyphs}");
    }
}

/// Fonts of every length up to 200 glyphs, and what they hold of 200.
#[test]
fn as_many_boxes_as_glyphs_are_short() {
    let font = marked_font();
    for numbering in NUMBERINGS {
        let words: Vec<u16> = (0xA100..=0xFFFF)
            .filter(|&word| second_number(numbering, word).is_some_and(|i| i < 200))
            .collect();
        for glyphs in 0..=200 {
            let shown = cells(numbering, &words, &[0xFF; 2_048], &font[..32 * glyphs]);
            for (i, &cell) in shown.iter().enumerate() {
                let expected = if i < glyphs { marked(i) } else { BOX };
                assert_eq!(cell, expected, "{i} of {glyphs}");
            }
        }
    }
}

/// All 8,352 and all 8,800; codes without a number stay blank.
#[test]
fn an_empty_font_gives_boxes_for_all_allowed_codes() {
    let words: Vec<u16> = (0xA100..=0xFFFF).collect();
    for (numbering, allowed) in [(Numbering::Old, 8_352), (Numbering::New, 8_800)] {
        let shown = cells(numbering, &words, &[0xFF; 2_048], &[]);
        for (&word, &cell) in words.iter().zip(&shown) {
            let expected = match second_number(numbering, word) {
                Some(_) => BOX,
                None => BLANK,
            };
            assert_eq!(cell, expected, "{word:04X}");
        }
        assert_eq!(shown.iter().filter(|&&c| c == BOX).count(), allowed);
    }
}

/// The corners of the two numberings by hand, in an empty font.
#[test]
fn codes_without_a_number_stay_blank() {
    for (word, old, new) in [
        (0xA13F, BLANK, BLANK),
        (0xA140, BLANK, BOX),
        (0xA17F, BLANK, BOX),
        (0xA180, BLANK, BLANK),
        (0xA19F, BLANK, BLANK),
        (0xA1A0, BOX, BOX),
        (0xD7FF, BOX, BOX),
        (0xD840, BLANK, BLANK),
        (0xD8A0, BOX, BLANK),
        (0xF7FF, BOX, BLANK),
        (0xF8A0, BLANK, BLANK),
        (0xFFFF, BLANK, BLANK),
    ] {
        let shown = |numbering| cells(numbering, &[word], &[0xFF; 2_048], &[])[0];
        assert_eq!(shown(Numbering::Old), old, "{word:04X}");
        assert_eq!(shown(Numbering::New), new, "{word:04X}");
    }
}

/// Every word below A100h looks the same with an empty and with a long font.
#[test]
fn images_and_half_glyphs_are_never_missing() {
    let words: Vec<u16> = (0x0000..=0xA0FF).collect();
    let half = Dice::new(161).bytes(2_048);
    let font = marked_font();
    for numbering in NUMBERINGS {
        let empty = cells(numbering, &words, &half, &[]);
        assert!(empty == cells(numbering, &words, &half, &font));
        assert!(empty.iter().all(|&cell| cell != BOX));
    }
}

/// Inside the font a glyph without dots is found: no box.
#[test]
fn a_glyph_without_dots_is_found() {
    let shown = cells(Numbering::Old, &[0xA1A0], &[0xFF; 2_048], &[0; 32]);
    assert_eq!(shown, [BLANK]);
}

/// The cursor sets glyph row 15, which is all set in a box; blink inverts the
/// cell with the cursor in it.
#[test]
fn cursor_and_blink_over_the_box() {
    let mut bench = one_box();
    let mut shows = |change: fn(&mut Bench), expected: [u16; 16]| {
        change(&mut bench);
        assert_eq!(cell_of(&bench.picture(), 5), expected);
    };
    shows(|b| b.panel.target = Target::Text, BOX);
    shows(|b| b.panel.counter = 5, BOX);
    shows(|b| b.panel.cursor = true, BOX);
    shows(|b| b.panel.blink = true, inverted(BOX));
    shows(|b| b.panel.cursor = false, inverted(BOX));
    shows(|b| b.phase = false, BOX);
    shows(|b| b.phase = true, inverted(BOX));
    shows(|b| b.panel.counter = 4, BOX);
    shows(|b| b.panel.counter = 5, inverted(BOX));
    shows(|b| b.panel.target = Target::Glyph, BOX);
}

/// Line reverse inverts the box with its line; with blink it is as before.
#[test]
fn reverse_over_the_box() {
    let mut bench = one_box();
    bench.panel.reversed[1] = true;
    assert_eq!(cell_of(&bench.picture(), 5), BOX);
    bench.panel.reversed[0] = true;
    let frame = bench.picture();
    assert_eq!(cell_of(&frame, 5), inverted(BOX));
    assert_eq!(cell_of(&frame, 6), [0xFFFF; 16]);
    bench.panel.target = Target::Text;
    bench.panel.counter = 5;
    bench.panel.blink = true;
    assert_eq!(cell_of(&bench.picture(), 5), BOX);
}

/// Exclusive or with the graphic row, if G.
#[test]
fn graphic_over_the_box() {
    let mut bench = one_box();
    for (row, words) in bench.panel.graphic.iter_mut().enumerate() {
        words[5] = 0x1234 + 0x0111 * row as u16;
    }
    assert_eq!(cell_of(&bench.picture(), 5), BOX);
    bench.panel.g = true;
    let mut expected = BOX;
    for (y, row) in expected.iter_mut().enumerate() {
        *row ^= 0x1234 + 0x0111 * y as u16;
    }
    assert_eq!(cell_of(&bench.picture(), 5), expected);
    // A box of graphic wipes it out.
    for (row, words) in bench.panel.graphic.iter_mut().enumerate() {
        words[5] = BOX[row % 16];
    }
    assert_eq!(cell_of(&bench.picture(), 5), BLANK);
}

/// Scroll 5: line 0 without its first five glyph rows, line 1 whole, line 2
/// with its first five.
#[test]
fn boxes_in_part() {
    let mut bench = one_box();
    for line in 0..4 {
        bench.panel.text[16 * line + 5] = 0xB0A1;
    }
    bench.panel.scroll = 5;
    let frame = bench.picture();
    for r in 0..32 {
        let expected = match r {
            // Edges: below line 0, above and below line 1, above line 2.
            10 | 11 | 26 | 27 => [0xFF, 0xFF],
            _ => [0x80, 0x01],
        };
        assert_eq!(frame[32 * r + 10..32 * r + 12], expected, "row {r}");
    }
}

/// The box goes where its word goes, the graphic stays.
#[test]
fn a_box_shifted() {
    let mut bench = one_box();
    bench.panel.shift = 3;
    let frame = bench.picture();
    assert_eq!([cell_of(&frame, 2), cell_of(&frame, 5)], [BOX, BLANK]);
    bench.panel.graphic[7][2] = 0x8001;
    bench.panel.graphic[7][5] = 0x0FF0;
    bench.panel.g = true;
    let frame = bench.picture();
    let (mut there, mut here) = (BOX, BLANK);
    there[7] = 0x0000;
    here[7] = 0x0FF0;
    assert_eq!([cell_of(&frame, 2), cell_of(&frame, 5)], [there, here]);
}

/// Display 0 or standby: all zero, the box too; and then it is there again.
#[test]
fn display_off_and_standby_are_dark() {
    let mut bench = one_box();
    let lit = bench.picture();
    for (display, standby) in [(false, false), (true, true), (false, true)] {
        bench.panel.display = display;
        bench.panel.standby = standby;
        assert_eq!(bench.picture(), [0; 1_024]);
    }
    bench.panel.display = true;
    bench.panel.standby = false;
    assert_eq!(bench.picture(), lit);
}

/// Byte by byte at word 0: each write repaints the whole cell.
#[test]
fn a_box_comes_and_goes_with_its_halves() {
    let mut bench = one_box();
    bench.panel.text[0] = 0x2020;
    bench.panel.target = Target::Text;
    bench.half = vec![0; 2_048];
    bench.half[0x41 * 16..][..16].fill(0x18);
    bench.half[0x42 * 16..][..16].fill(0x24);
    bench.frame = bench.picture();
    let mut shows = |address: bool, byte: u8, count: usize, expected: [u16; 16]| {
        if address {
            bench.instruction(0x80);
        }
        assert_eq!(bench.data(byte), count);
        assert_eq!(cell_of(&bench.frame, 0), expected, "{byte:02X}");
    };
    // B020h has no number, B0A2h has one.
    shows(true, 0xB0, 32, BLANK);
    shows(false, 0xA2, 64, BOX);
    // B1A2h is missing too, 41A2h is a half glyph and a blank.
    shows(true, 0xB1, 32, BOX);
    shows(true, 0x41, 32, [0x1800; 16]);
    shows(false, 0x42, 64, [0x1824; 16]);
    // F842h has no number.
    shows(true, 0xF8, 32, BLANK);
    shows(false, 0xA2, 64, BLANK);
    shows(true, 0xF7, 32, BOX);
}

/// On a frame of other content a write that makes a box rewrites its cell and
/// the next one, and no other byte.
#[test]
fn a_box_is_painted_over_other_content() {
    let mut panel = Panel::fresh(true);
    panel.display = true;
    panel.text[3] = 0xA120;
    panel.counter = 3;
    panel.next = Half::Low;
    let (half, mut frame) = ([0; 2_048], [0x77; 1_024]);
    let write = Transfer::DataWrite(0xA0);
    let outcome = panel.transfer(write, &mut frame, &half, &[], false);
    assert_eq!((outcome.number, outcome.count), (0, 64));
    for at in 0..32 {
        let expected = match at {
            3 => BOX,
            4 => [0; 16],
            _ => [0x7777; 16],
        };
        assert_eq!(cell_of(&frame, at), expected, "cell {at}");
    }
}

/// Clear takes boxes away, display on brings them back, standby darkens them.
#[test]
fn boxes_through_instructions() {
    let mut bench = one_box();
    bench.frame = bench.picture();
    assert_eq!(cell_of(&bench.frame, 5), BOX);
    assert_eq!(bench.instruction(0x08), 1_024);
    assert_eq!(bench.frame, [0; 1_024]);
    assert_eq!(bench.instruction(0x0C), 1_024);
    assert_eq!(cell_of(&bench.frame, 5), BOX);
    // RE = 1, standby, and an instruction that ends it.
    assert_eq!(bench.instruction(0x34), 1_024);
    assert_eq!(bench.instruction(0x01), 1_024);
    assert_eq!(bench.frame, [0; 1_024]);
    assert_eq!(bench.instruction(0x04), 1_024);
    assert_eq!(cell_of(&bench.frame, 5), inverted(BOX));
    assert_eq!(bench.instruction(0x04), 1_024);
    assert_eq!(bench.instruction(0x30), 1_024);
    assert_eq!(cell_of(&bench.frame, 5), BOX);
    assert_eq!(bench.instruction(0x01), 1_024);
    assert!(bench.panel.missing(&[]).is_empty());
    assert_ne!(cell_of(&bench.frame, 5), BOX);
}

/// On one wire: the left panel's font has the glyph, the right one's has not.
#[test]
fn each_panel_of_a_pair_misses_its_own() {
    let mut left = Bench::serial();
    left.full = vec![0x3C; 64];
    let mut right = Bench::serial();
    right.full = vec![0x3C; 32];
    let mut cabinet = Cabinet::of(&left, &right);
    for (register, byte) in [(false, 0x0C), (true, 0xA1), (true, 0xA1)] {
        let (one, other) = cabinet.write(register, byte, BOTH);
        assert_eq!(one, other);
    }
    assert_eq!(cell_of(&cabinet.left.frame, 0), [0x3C3C; 16]);
    assert_eq!(cell_of(&cabinet.right.frame, 0), BOX);
}
