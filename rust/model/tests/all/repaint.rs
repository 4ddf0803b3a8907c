//! Readings 26 to 30: the bytes named, each set written down by hand.

use std::collections::BTreeSet;

use crate::bench::{without_link, Bench, Dice};
use crate::second_picture::{cell, graphic_byte, image_bytes};
use model::{named, Half, Named, Numbering, Panel, Target, Transfer};

fn set(named: &Named) -> BTreeSet<usize> {
    (0..1_024).filter(|&place| named.has(place)).collect()
}

fn all() -> BTreeSet<usize> {
    (0..1_024).collect()
}

/// The set named by one byte transfer, and the panel after it.
fn names(before: &Panel, transfer: Transfer) -> (BTreeSet<usize>, Panel) {
    let mut bench = Bench::with(before.clone());
    let count = bench.call(transfer).count;
    let set = set(&named(before, transfer, &bench.panel));
    assert_eq!(count, set.len());
    (set, bench.panel)
}

fn both(one: BTreeSet<usize>, two: BTreeSet<usize>) -> BTreeSet<usize> {
    one.union(&two).copied().collect()
}

fn byte_panel(dice: &mut Dice) -> Panel {
    let mut panel = dice.panel(true);
    panel.dl = true;
    panel
}

#[test]
fn reading_26_visible_rows() {
    // Scroll 8: line 0 shows 8 rows, line 1 all, line 2 eight, line 3 none.
    for (scroll, counts) in [
        (0, [32, 32, 0, 0]),
        (8, [16, 32, 16, 0]),
        (40, [16, 0, 16, 32]),
        (63, [32, 30, 0, 2]),
    ] {
        for line in 0..4u8 {
            let mut panel = Panel::fresh(true);
            panel.scroll = scroll;
            panel.counter = 16 * line + 5;
            let (set, _) = names(&panel, Transfer::DataWrite(0x41));
            assert_eq!(set.len(), counts[usize::from(line)]);
        }
    }
    // Shift 3: word 2 of a line is at cell 15.
    let mut panel = Panel::fresh(true);
    panel.shift = 3;
    panel.counter = 2;
    let (set, _) = names(&panel, Transfer::DataWrite(0x41));
    let expected = (0..16).flat_map(|r| [32 * r + 30, 32 * r + 31]).collect();
    assert_eq!(set, expected);
}

#[test]
fn reading_27_text_write_and_read() {
    let mut dice = Dice::new(61);
    for _ in 0..400 {
        let mut before = byte_panel(&mut dice);
        before.target = Target::Text;
        before.counter = dice.below(64) as u8;
        let (write, after) = names(&before, Transfer::DataWrite(dice.text_byte()));
        let cells = both(cell(&after, before.counter), cell(&after, after.counter));
        let expected = match (before.next, before.s) {
            (Half::High, _) => cell(&before, before.counter),
            (Half::Low, false) => cells,
            (Half::Low, true) => all(),
        };
        assert_eq!(write, expected);
        let (read, after) = names(&before, Transfer::DataRead);
        let cells = both(cell(&after, before.counter), cell(&after, after.counter));
        let expected = match (before.next, before.s) {
            _ if before.dummy_due => BTreeSet::new(),
            (Half::High, _) => BTreeSet::new(),
            (Half::Low, false) => cells,
            (Half::Low, true) => all(),
        };
        assert_eq!(read, expected);
    }
}

#[test]
fn readings_28_and_29_glyph_and_graphic_write() {
    let mut dice = Dice::new(62);
    let mut largest = 0;
    for round in 0..600 {
        let mut before = byte_panel(&mut dice);
        if round % 3 == 0 {
            before.text = [0x0000; 64];
        }
        let expected = match before.target {
            Target::Text => continue,
            Target::Glyph => image_bytes(&before),
            Target::Graphic => graphic_byte(&before),
        };
        let (write, _) = names(&before, Transfer::DataWrite(dice.byte()));
        assert_eq!(write, expected);
        assert!(write.len() <= 32);
        largest = largest.max(write.len());
        // Reads of glyph and graphic memory name none.
        let (read, _) = names(&before, Transfer::DataRead);
        assert_eq!(read, BTreeSet::new());
    }
    assert_eq!(largest, 32);
}

#[test]
fn reading_28_by_hand() {
    let mut before = Panel::fresh(true);
    before.text[0] = 0x0002;
    before.text[17] = 0x000A;
    before.text[18] = 0x0020;
    before.text[40] = 0x0003;
    before.target = Target::Glyph;
    before.counter = 16 + 9;
    before.next = Half::Low;
    let (set, _) = names(&before, Transfer::DataWrite(0xFF));
    assert_eq!(set, BTreeSet::from([32 * 9 + 1, 32 * 25 + 3]));
}

#[test]
fn address_sets_and_cursor_moves() {
    let mut dice = Dice::new(63);
    for _ in 0..600 {
        let mut before = byte_panel(&mut dice);
        before.standby = false;
        let byte = if dice.below(3) == 0 {
            0x10 + dice.below(8) as u8
        } else {
            0x40 + dice.below(0xC0) as u8
        };
        let ignored_move = before.target != Target::Text || before.re;
        let listed = match byte {
            0x10..=0x17 if ignored_move => continue,
            0x40..=0x7F if before.re || before.sr => continue,
            // A row alone: none.
            0x80..=0xFF if before.re => before.waiting.is_some(),
            _ => true,
        };
        let (set, after) = names(&before, Transfer::InstructionWrite(byte));
        let mut expected = BTreeSet::new();
        if listed && before.target == Target::Text {
            expected.extend(cell(&before, before.counter));
        }
        if listed && after.target == Target::Text {
            expected.extend(cell(&after, after.counter));
        }
        assert_eq!(set, expected);
    }
}

#[test]
fn reading_30_reset_and_what_names_none() {
    let mut bench = Bench::parallel();
    bench.instruction(0x0F);
    assert_eq!(bench.status(), 0);
    bench.frame = vec![0x77; 1_024];
    let outcome = bench.reset(false, Numbering::Old);
    assert_eq!(
        (outcome.number, outcome.reply, outcome.count),
        (0, 0, 1_024)
    );
    assert_eq!(bench.frame, vec![0; 1_024]);
    assert_eq!(bench.panel, Panel::fresh(false));
    // Serial bits that complete nothing.
    let before = without_link(&bench.panel);
    assert_eq!(bench.bits("11111 010 0100 0000 0001 000"), 0);
    assert_eq!(without_link(&bench.panel), before);
    assert_eq!(bench.select_low().count, 0);
    // A reset from any state of either link is the fresh one.
    let mut dice = Dice::new(64);
    for round in 0..50 {
        let mut bench = Bench::with(dice.panel(round % 2 == 0));
        let (pin, numbering) = (dice.flag(), dice.numbering());
        assert_eq!(bench.reset(pin, numbering).count, 1_024);
        assert_eq!(bench.panel, Panel::made(pin, false, numbering));
        assert_eq!(bench.frame, bench.picture());
    }
}
