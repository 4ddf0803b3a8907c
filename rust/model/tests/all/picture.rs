//! Readings 23 to 25: the picture.

use crate::bench::{Bench, Dice};
use crate::second_picture::second_picture;
use model::{Panel, Target};

/// A panel that shows only what a test puts there: display on, blank text,
/// target not text.
fn shown() -> Panel {
    let mut panel = Panel::fresh(true);
    panel.display = true;
    panel.target = Target::Glyph;
    panel.text = [0x8080; 64];
    panel
}

fn places_not(frame: &[u8], blank: u8) -> Vec<usize> {
    (0..1_024).filter(|&place| frame[place] != blank).collect()
}

#[test]
fn reading_23_rows_cells_and_places() {
    let mut panel = shown();
    panel.text[16 + 3] = 0x4142;
    panel.scroll = 5;
    panel.shift = 14;
    let mut bench = Bench::with(panel);
    bench.half = vec![0; 2_048];
    bench.half[0x41 * 16 + 7] = 0x81;
    bench.half[0x42 * 16 + 7] = 0x18;
    // Glyph row 7 of line 1 is row s = 23, so r = 18; (k + 14) mod 16 = 3 is
    // k = 5.
    let frame = bench.picture();
    assert_eq!(places_not(&frame, 0), [32 * 18 + 10, 32 * 18 + 11]);
    assert_eq!(frame[32 * 18 + 10], 0x81);
    assert_eq!(frame[32 * 18 + 11], 0x18);
}

#[test]
fn reading_24_images() {
    for word in 0x0000..=0x0011u16 {
        let mut panel = shown();
        panel.text[0] = word;
        for i in 0..4 {
            panel.glyph[16 * i + 2] = 0x8001 + 0x0100 * i as u16;
        }
        let mut bench = Bench::with(panel);
        bench.half = vec![0; 2_048];
        let frame = bench.picture();
        if word <= 0x000F {
            let image = (word / 2) % 4;
            assert_eq!(frame[64..66], [0x80 + image as u8, 0x01]);
        } else {
            // 0010h and 0011h are halves, here of an empty font.
            assert_eq!(places_not(&frame, 0), []);
        }
    }
}

#[test]
fn reading_24_full_glyphs() {
    let full_font: Vec<u8> = (0..8_352u32)
        .flat_map(|i| {
            let (a, b) = ((i / 96) as u8 + 1, (i % 96) as u8 + 1);
            (0..32).map(move |n| if n % 2 == 0 { a } else { b })
        })
        .collect();
    assert_eq!(full_font.len(), 267_264);
    for length in [0, 32, 32 * 97, 267_264] {
        for lead in 0xA1..=0xFF_u8 {
            for trail in [0x00, 0x41, 0x7F, 0x9F, 0xA0, 0xA1, 0xD0, 0xFF] {
                let mut panel = shown();
                panel.text[0] = u16::from_be_bytes([lead, trail]);
                let mut bench = Bench::with(panel);
                bench.half = vec![0xFF; 2_048];
                bench.full = full_font[..length].to_vec();
                let mut expected = [0, 0];
                if lead <= 0xF7 && trail >= 0xA0 {
                    let (a, b) = (lead - 0xA0, trail - 0x9F);
                    let number = (usize::from(a) - 1) * 96 + usize::from(b) - 1;
                    expected = if 32 * number < length {
                        [a, b]
                    } else {
                        // Row 0 of the box of a missing glyph.
                        [0xFF, 0xFF]
                    };
                }
                assert_eq!(bench.picture()[0..2], expected);
            }
        }
    }
}

#[test]
fn reading_24_halves_one_by_one() {
    let font: Vec<u8> = (0..2_048).map(|at| (at / 16) as u8 + 0x80).collect();
    let one = |code: u8| match code {
        0x02..=0x7F => code + 0x80,
        _ => 0,
    };
    for high in 0..=0xA0u8 {
        for low in 0..=255u8 {
            if high == 0 && low < 16 {
                continue;
            }
            let mut panel = shown();
            panel.text[0] = u16::from_be_bytes([high, low]);
            let mut frame = [0; 1_024];
            if low % 16 == 3 || high % 16 == 2 {
                panel.draw(&mut frame, &font, &[0xFF; 32], true);
                assert_eq!(frame[0..2], [one(high), one(low)]);
            }
        }
    }
}

#[test]
fn reading_25_cursor_blink_reverse_graphic() {
    // Row 15 of word 1, whose glyph is blank.
    let at = 32 * 15 + 2;
    let mut panel = shown();
    panel.target = Target::Text;
    panel.counter = 1;
    let mut bench = Bench::with(panel);
    let mut shows = |change: fn(&mut Bench), row_15: u8, row_14: u8| {
        change(&mut bench);
        let frame = bench.picture();
        assert_eq!(frame[at..at + 2], [row_15, row_15]);
        assert_eq!(frame[at - 32..at - 30], [row_14, row_14]);
    };
    shows(|_| {}, 0x00, 0x00);
    shows(|b| b.panel.cursor = true, 0xFF, 0x00);
    shows(|b| b.panel.blink = true, 0x00, 0xFF);
    shows(|b| b.phase = false, 0xFF, 0x00);
    shows(|b| b.panel.reversed[0] = true, 0x00, 0xFF);
    shows(|b| b.panel.graphic[15][1] = 0x3C3C, 0x00, 0xFF);
    shows(|b| b.panel.g = true, 0x3C, 0xFF);
    // Unshifted: the cell moves to column 0, the graphic word stays.
    shows(|b| b.panel.shift = 1, 0xC3, 0xFF);
    shows(|b| b.panel.target = Target::Graphic, 0xC3, 0xFF);
    shows(|b| b.panel.standby = true, 0x00, 0x00);
    shows(|b| b.panel.standby = false, 0xC3, 0xFF);
    shows(|b| b.panel.display = false, 0x00, 0x00);
}

#[test]
fn reading_25_only_at_the_counter() {
    let mut panel = shown();
    panel.cursor = true;
    panel.counter = 18;
    for target in [Target::Text, Target::Glyph] {
        panel.target = target;
        let frame = Bench::with(panel.clone()).picture();
        let expected: Vec<usize> = match target {
            Target::Text => vec![32 * 31 + 4, 32 * 31 + 5],
            _ => vec![],
        };
        assert_eq!(places_not(&frame, 0), expected);
    }
    // Reverse of one line inverts that line alone.
    panel.reversed[1] = true;
    let frame = Bench::with(panel).picture();
    assert_eq!(places_not(&frame, 0), (512..1_024).collect::<Vec<_>>());
}

#[test]
fn dot_by_dot_equals_word_by_word() {
    let mut dice = Dice::new(51);
    let half = dice.bytes(2_048);
    let long = dice.bytes(281_600);
    for round in 0..3_000 {
        let panel = dice.panel(round % 2 == 0);
        let glyphs = [0, 1, 100, 8_351, 8_352, 8_353, 8_799, 8_800];
        let full = &long[..32 * glyphs[dice.below(8) as usize]];
        let phase = dice.flag();
        let mut frame = vec![0x55; 1_024];
        assert_eq!(panel.draw(&mut frame, &half, full, phase), 0);
        assert_eq!(frame, second_picture(&panel, &half, full, phase));
    }
}
