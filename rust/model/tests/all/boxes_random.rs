//! Seeded runs with boxes on the screen: partial repaint, counts, the list.

use crate::bench::{Bench, Dice, LINKS};
use crate::calls::records;
use crate::numbering::wide_byte;
use crate::second_picture::{second_missing, second_picture, BOX};
use model::{named, printed, replay, Panel, Target, Transfer};

/// A full font's length in glyphs: none, few, many or all.
fn any_glyphs(dice: &mut Dice) -> usize {
    match dice.below(4) {
        0 => 0,
        1 => 1 + dice.below(400) as usize,
        2 => 8_800,
        _ => dice.below(8_801) as usize,
    }
}

/// A made-up state with many wide codes.
fn wide_panel(dice: &mut Dice) -> Panel {
    let mut panel = dice.panel(true);
    for word in panel.text.iter_mut().filter(|word| **word > 0x000F) {
        *word = u16::from_be_bytes([wide_byte(dice), wide_byte(dice)]);
    }
    panel
}

fn any_transfer(dice: &mut Dice) -> Transfer {
    match dice.below(8) {
        0..=3 => Transfer::DataWrite(wide_byte(dice)),
        4 => Transfer::DataRead,
        5 => Transfer::StatusRead,
        _ => Transfer::InstructionWrite(dice.byte()),
    }
}

/// Demand 3 with boxes on the screen, over all links: after each write the
/// frame is the picture drawn afresh.
#[test]
fn repaint_keeps_the_picture_with_boxes() {
    let mut dice = Dice::new(162);
    let mut with_boxes = 0;
    for round in 0..60 {
        let mut bench = Bench::over(LINKS[round % 3], wide_panel(&mut dice));
        let glyphs = dice.below(600) as usize;
        bench.full = dice.bytes(32 * glyphs);
        bench.phase = dice.flag();
        bench.frame = bench.picture();
        for _ in 0..60 {
            let (register, byte) = match dice.below(16) {
                0 => (false, dice.byte()),
                1..=2 => (false, 0x80 + dice.below(64) as u8),
                3 => (false, 0x0C + dice.below(4) as u8),
                _ => (true, wide_byte(&mut dice)),
            };
            bench.write(register, byte);
            let again = second_picture(&bench.panel, &bench.half, &bench.full, bench.phase);
            assert!(bench.frame == again);
            let lit = bench.panel.display && !bench.panel.standby;
            with_boxes += usize::from(lit && !bench.panel.missing(&bench.full).is_empty());
        }
    }
    assert!(with_boxes > 1_500, "{with_boxes} pictures with boxes");
}

/// Named bytes, counts, replies and what a transfer does do not depend on the
/// font's length.
#[test]
fn named_bytes_do_not_depend_on_the_fonts_length() {
    let mut dice = Dice::new(163);
    let font = dice.bytes(281_600);
    let mut differ = 0;
    for _ in 0..1_500 {
        let mut before = wide_panel(&mut dice);
        before.dl = true;
        let transfer = any_transfer(&mut dice);
        let [one, other] = [0, 1].map(|_| {
            let mut bench = Bench::with(before.clone());
            bench.full = font[..32 * any_glyphs(&mut dice)].to_vec();
            bench.frame = bench.picture();
            let outcome = bench.call(transfer);
            let named = named(&before, transfer, &bench.panel);
            assert_eq!(outcome.count, named.size());
            (outcome, named, bench)
        });
        assert_eq!((one.0, one.1), (other.0, other.1));
        assert_eq!(one.2.panel, other.2.panel);
        differ += usize::from(one.2.frame != other.2.frame);
    }
    assert!(differ > 700, "{differ} pictures differ");
}

/// The lines that a capture prints do not depend on the font's length.
#[test]
fn printed_lines_do_not_depend_on_the_fonts_length() {
    let mut dice = Dice::new(164);
    let font = dice.bytes(281_600);
    for _ in 0..20 {
        let list: Vec<(u8, u8)> = (0..100)
            .map(|_| match any_transfer(&mut dice) {
                Transfer::InstructionWrite(byte) => (0, byte),
                Transfer::DataWrite(byte) => (1, byte),
                Transfer::StatusRead => (2, 0),
                Transfer::DataRead => (3, 0),
            })
            .collect();
        let capture = records(&list);
        let before = wide_panel(&mut dice);
        let lines = [0, 1, 300, 8_352, 8_800].map(|glyphs| {
            let (mut panel, mut frame) = (before.clone(), [0x55; 1_024]);
            let full = &font[..32 * glyphs];
            let replayed = replay(&mut panel, &capture, &mut frame, &[1; 2_048], full, true);
            assert_eq!(replayed.number, 0);
            (printed(&replayed), panel)
        });
        assert!(lines.iter().all(|line| line == &lines[0]));
    }
}

/// The list walked through equals the list worked out.
#[test]
fn the_list_equals_the_second_list() {
    let mut dice = Dice::new(165);
    let font = vec![0; 281_600];
    let mut longest = 0;
    for _ in 0..4_000 {
        let panel = wide_panel(&mut dice);
        let full = &font[..32 * any_glyphs(&mut dice)];
        let list = panel.missing(full);
        assert_eq!(list, second_missing(&panel, full));
        longest = longest.max(list.len());
    }
    assert!(longest >= 20, "{longest}");
}

/// Where the list says so, and nowhere else, the picture shows rows of a box:
/// with dotless fonts and images no other cell has dots.
#[test]
fn the_list_equals_the_boxes_in_the_picture() {
    let mut dice = Dice::new(166);
    let font = vec![0; 281_600];
    for _ in 0..600 {
        let mut panel = wide_panel(&mut dice);
        panel.display = true;
        panel.standby = false;
        panel.glyph = [0; 64];
        panel.target = Target::Glyph;
        panel.reversed = [false; 4];
        panel.g = false;
        let full = &font[..32 * any_glyphs(&mut dice)];
        let mut expected = [0; 1_024];
        for missing in panel.missing(full) {
            for row in missing.first_row..=missing.last_row {
                let y = (row + usize::from(panel.scroll)) % 16;
                let place = 32 * row + 2 * missing.cell;
                expected[place..place + 2].copy_from_slice(&BOX[y].to_be_bytes());
            }
        }
        let mut frame = [0x55; 1_024];
        assert_eq!(panel.draw(&mut frame, &[0; 2_048], full, true), 0);
        assert_eq!(frame, expected);
    }
}
