//! Readings 1 to 9: ignored and executed instructions.

use crate::bench::{Bench, Dice};
use model::{Half, Panel, Target};

/// Ignored as reading 1 lists them.
pub fn is_ignored(panel: &Panel, byte: u8) -> bool {
    match (byte, panel.re) {
        (0x00, _) => true,
        (0x08..=0x1F, true) => true,
        (0x10..=0x17, false) => panel.target != Target::Text,
        (0x40..=0x7F, false) => panel.sr,
        (0x40..=0x7F, true) => !panel.sr,
        _ => false,
    }
}

#[test]
fn reading_1_ignored_changes_nothing() {
    let mut dice = Dice::new(11);
    for _ in 0..60 {
        let mut before = dice.panel(true);
        before.dl = true;
        for byte in 0..=255 {
            if is_ignored(&before, byte) {
                let mut bench = Bench::with(before.clone());
                assert_eq!(bench.instruction(byte), 0);
                assert_eq!(bench.panel, before);
                // Over half bytes only the pairing moves, and comes back.
                let mut bench = Bench::with(before.clone());
                bench.panel.dl = false;
                let still = bench.panel.clone();
                assert_eq!(bench.instruction(byte), 0);
                assert_eq!(bench.instruction(byte << 4), 0);
                assert_eq!(bench.panel, still);
            }
        }
    }
}

#[test]
fn readings_2_and_3_executed_ends_standby() {
    let mut dice = Dice::new(12);
    for _ in 0..30 {
        let mut before = dice.panel(true);
        before.dl = true;
        before.standby = true;
        for byte in 0..=255 {
            if is_ignored(&before, byte) {
                continue;
            }
            let mut bench = Bench::with(before.clone());
            assert_eq!(bench.instruction(byte), 1_024);
            // 01h with RE = 1 is executed again and does not end standby.
            let stays = byte == 0x01 && before.re;
            assert_eq!(bench.panel.standby, stays);
        }
    }
}

#[test]
fn reading_3_counts_outside_standby() {
    let mut dice = Dice::new(13);
    for _ in 0..30 {
        let mut before = dice.panel(true);
        before.dl = true;
        before.standby = false;
        for byte in 0..=255 {
            let mut bench = Bench::with(before.clone());
            let count = bench.instruction(byte);
            let cells = match (byte, before.re) {
                (0x10..=0x17, false) => !is_ignored(&before, byte),
                (0x40..=0x7F, false) => !before.sr,
                (0x80..=0xFF, _) => true,
                _ => false,
            };
            if cells {
                assert!(count <= 64);
            } else if is_ignored(&before, byte) {
                assert_eq!(count, 0);
            } else {
                assert_eq!(count, 1_024);
            }
            assert_eq!(bench.panel.standby, byte == 0x01 && before.re);
        }
    }
}

#[test]
fn reading_4_waiting_row_is_dropped_or_kept() {
    let mut dice = Dice::new(14);
    for _ in 0..30 {
        let mut before = dice.panel(true);
        before.dl = true;
        before.waiting = Some(0);
        for byte in 0..=255 {
            let mut bench = Bench::with(before.clone());
            bench.instruction(byte);
            let kept = is_ignored(&before, byte);
            assert_eq!(bench.panel.waiting, kept.then_some(0));
        }
        let mut bench = Bench::with(before.clone());
        bench.data(0x41);
        assert_eq!(bench.panel.waiting, None);
        for dummy_due in [false, true] {
            let mut bench = Bench::with(before.clone());
            bench.panel.dummy_due = dummy_due;
            bench.read();
            assert_eq!(bench.panel.waiting, None);
        }
        let mut bench = Bench::with(before.clone());
        bench.status();
        assert_eq!(bench.panel.waiting, Some(0));
    }
    // Select-low keeps it.
    let mut bench = Bench::serial();
    bench.panel.waiting = Some(9);
    assert_eq!(bench.select_low().number, 0);
    assert_eq!(bench.panel.waiting, Some(9));
}

#[test]
fn reading_4_waiting_row_over_half_bytes() {
    let mut before = Panel::fresh(true);
    before.dl = false;
    before.re = true;
    before.waiting = Some(9);
    // A write's first half keeps it, its second half drops it.
    let mut bench = Bench::with(before.clone());
    bench.data(0x40);
    assert_eq!(bench.panel.waiting, Some(9));
    bench.data(0x10);
    assert_eq!(bench.panel.waiting, None);
    // A read drops it at its first half.
    let mut bench = Bench::with(before);
    bench.read();
    assert_eq!(bench.panel.waiting, None);
}

#[test]
fn reading_5_row_then_column() {
    let mut bench = Bench::parallel();
    bench.instruction(0x34);
    for (row, column) in [(0x80, 0x80), (0xBF, 0xFF), (0xC7, 0xB5)] {
        let before = bench.panel.clone();
        bench.instruction(row);
        let mut expected = before.clone();
        expected.waiting = Some(row & 0x3F);
        assert_eq!(bench.panel, expected);
        bench.instruction(column);
        expected.waiting = None;
        expected.target = Target::Graphic;
        expected.graphic_row = row & 0x3F;
        expected.counter = column & 0x0F;
        expected.next = Half::High;
        expected.dummy_due = true;
        assert_eq!(bench.panel, expected);
        bench.data(0x01);
    }
}

#[test]
fn reading_6_function_set() {
    for byte in 0x20..=0x3F {
        for flags in 0..8 {
            let mut before = Panel::fresh(true);
            before.re = flags & 1 != 0;
            before.g = flags & 2 != 0;
            before.dl = flags & 4 != 0;
            let mut expected = before.clone();
            let new_re = byte & 0x04 != 0;
            if new_re != before.re {
                expected.re = new_re;
            } else {
                expected.dl = byte & 0x10 != 0;
                expected.g = if new_re { byte & 0x02 != 0 } else { before.g };
            }
            let mut bench = Bench::with(before.clone());
            let count = if before.dl {
                bench.instruction(byte)
            } else {
                bench.instruction(byte) + bench.instruction(byte << 4)
            };
            assert_eq!(count, 1_024);
            assert_eq!(bench.panel, expected);
            // On the serial link the DL flag changes likewise.
            let mut bench = Bench::serial();
            bench.panel.re = before.re;
            bench.panel.g = before.g;
            bench.panel.dl = before.dl;
            assert_eq!(bench.serial_bytes(&[0xF8, byte & 0xF0, byte << 4]), 1_024);
            expected.link = bench.panel.link;
            assert_eq!(bench.panel, expected);
        }
    }
}

#[test]
fn reading_7_clear_home_and_display_shift() {
    let mut dice = Dice::new(17);
    for _ in 0..50 {
        let mut before = dice.panel(true);
        before.dl = true;
        before.re = false;
        before.standby = false;
        let mut home = before.clone();
        home.target = Target::Text;
        home.counter = 0;
        home.shift = 0;
        home.next = Half::High;
        home.dummy_due = true;
        home.waiting = None;
        for byte in [0x02, 0x03] {
            let mut bench = Bench::with(before.clone());
            bench.instruction(byte);
            assert_eq!(bench.panel, home);
        }
        let mut clear = home.clone();
        clear.text = [0x2020; 64];
        // Reading 46: clear also sets I/D to 1, and S stays.
        clear.id = true;
        let mut bench = Bench::with(before.clone());
        bench.instruction(0x01);
        assert_eq!(bench.panel, clear);
        for (byte, step) in [(0x18, 1), (0x1B, 1), (0x1C, 15), (0x1F, 15)] {
            let mut bench = Bench::with(before.clone());
            bench.instruction(byte);
            let mut shifted = before.clone();
            shifted.waiting = None;
            shifted.shift = (before.shift + step) % 16;
            assert_eq!(bench.panel, shifted);
        }
    }
}

#[test]
fn reading_8_all_outlives_a_change_of_re() {
    let mut dice = Dice::new(18);
    for _ in 0..50 {
        let mut before = dice.panel(true);
        before.dl = true;
        before.re = true;
        before.standby = false;
        before.waiting = None;
        let mut bench = Bench::with(before.clone());
        bench.instruction(0x30);
        let mut expected = before.clone();
        expected.re = false;
        assert_eq!(bench.panel, expected);
        bench.instruction(0x34);
        assert_eq!(bench.panel, before);
    }
}

#[test]
fn reading_9_graphic_row_stays() {
    let mut bench = Bench::parallel();
    for byte in [0x34, 0x87, 0x8B] {
        bench.instruction(byte);
    }
    assert_eq!(bench.status(), 0x0B);
    bench.instruction(0x30);
    bench.instruction(0x55);
    assert_eq!((bench.panel.graphic_row, bench.status()), (7, 0x15));
    assert_eq!(bench.panel.target, Target::Glyph);
    bench.instruction(0xD5);
    assert_eq!((bench.panel.graphic_row, bench.status()), (7, 0x15));
    assert_eq!(bench.panel.target, Target::Text);
}
