//! Readings 10 to 12, the rest of the table, and stepping.

use crate::bench::{Bench, Dice};
use model::{Half, Panel, Target};

#[test]
fn reading_10_data_in_standby_and_display_off() {
    let mut dice = Dice::new(21);
    for _ in 0..300 {
        let mut before = dice.panel(true);
        before.dl = true;
        let byte = dice.text_byte();
        let mut plain = Bench::with(before.clone());
        plain.panel.standby = false;
        plain.panel.display = true;
        plain.frame = plain.picture();
        let mut other = Bench::with(before.clone());
        other.panel.standby = dice.flag();
        other.panel.display = !other.panel.standby || dice.flag();
        other.frame = other.picture();
        let (standby, display) = (other.panel.standby, other.panel.display);
        // Same replies, counts and state; standby does not end.
        assert_eq!(plain.data(byte), other.data(byte));
        assert_eq!(plain.read(), other.read());
        assert_eq!(plain.read(), other.read());
        plain.panel.standby = standby;
        plain.panel.display = display;
        assert_eq!(plain.panel, other.panel);
    }
}

#[test]
fn reading_11_dummy_mark() {
    let mut dice = Dice::new(22);
    for _ in 0..300 {
        let mut before = dice.panel(true);
        before.dl = true;
        before.dummy_due = true;
        // A read answers 0, clears the mark and moves nothing.
        let mut bench = Bench::with(before.clone());
        assert_eq!(bench.read(), (0, 0));
        let mut expected = before.clone();
        expected.dummy_due = false;
        expected.waiting = None;
        assert_eq!(bench.panel, expected);
        // A write leaves the mark.
        let mut bench = Bench::with(before);
        bench.data(dice.byte());
        assert!(bench.panel.dummy_due);
    }
}

#[test]
fn reading_12_reads_step_as_writes_do() {
    let mut dice = Dice::new(23);
    for _ in 0..500 {
        let mut before = dice.panel(true);
        before.dl = true;
        before.dummy_due = false;
        let at = usize::from(before.counter);
        let row = usize::from(before.graphic_row);
        let word = match before.target {
            Target::Text => before.text[at],
            Target::Glyph => before.glyph[at],
            Target::Graphic => before.graphic[row][at],
        };
        let same = match before.next {
            Half::High => (word >> 8) as u8,
            Half::Low => word as u8,
        };
        let mut reads = Bench::with(before.clone());
        assert_eq!(reads.read().0, same);
        // Writing back what is there moves alike.
        let mut writes = Bench::with(before.clone());
        writes.data(same);
        assert_eq!(reads.panel, writes.panel);
        // High half: low comes next, nothing else moves.
        let mut expected = before.clone();
        expected.waiting = None;
        if before.next == Half::High {
            expected.next = Half::Low;
        } else {
            expected.next = Half::High;
            let step = if before.id { 1 } else { 63 };
            expected.counter = match before.target {
                Target::Graphic => (before.counter + 1) % 16,
                _ => (before.counter + step) % 64,
            };
            if before.target == Target::Text && before.s {
                let shift = if before.id { 1 } else { 15 };
                expected.shift = (before.shift + shift) % 16;
            }
        }
        assert_eq!(reads.panel, expected);
    }
}

#[test]
fn each_half_is_stored_as_it_comes() {
    let mut bench = Bench::parallel();
    bench.instruction(0x80);
    bench.data(0x2D);
    assert_eq!(bench.panel.text[0], 0x2D20);
    bench.instruction(0x80);
    bench.data(0x37);
    assert_eq!(bench.panel.text[0], 0x3720);
    bench.instruction(0x41);
    bench.data(0x81);
    assert_eq!(bench.panel.glyph[1], 0x8100);
    bench.data(0x18);
    assert_eq!(bench.panel.glyph[1], 0x8118);
}

/// Every byte of the table from a state of known flags.
#[test]
fn the_table_with_re_0() {
    for byte in 0x04..=0x17u8 {
        let mut before = Panel::fresh(true);
        before.counter = 0;
        before.next = Half::Low;
        let mut expected = before.clone();
        match byte {
            0x04..=0x07 => {
                expected.id = byte & 2 != 0;
                expected.s = byte & 1 != 0;
            }
            0x08..=0x0F => {
                expected.display = byte & 4 != 0;
                expected.cursor = byte & 2 != 0;
                expected.blink = byte & 1 != 0;
            }
            _ => {
                expected.counter = if byte & 4 == 0 { 63 } else { 1 };
                expected.next = Half::High;
                expected.dummy_due = true;
            }
        }
        let mut bench = Bench::with(before);
        bench.instruction(byte);
        assert_eq!(bench.panel, expected);
    }
    // Cursor right past the last word.
    let mut bench = Bench::parallel();
    bench.instruction(0xBF);
    bench.instruction(0x14);
    assert_eq!(bench.status(), 0);
}

#[test]
fn the_table_with_re_1() {
    for byte in 0x01..=0x07u8 {
        let mut before = Panel::fresh(true);
        before.re = true;
        let mut expected = before.clone();
        match byte {
            0x01 => expected.standby = true,
            0x02 | 0x03 => expected.sr = byte & 1 != 0,
            _ => expected.reversed[usize::from(byte & 3)] = true,
        }
        let mut bench = Bench::with(before.clone());
        bench.instruction(byte);
        assert_eq!(bench.panel, expected);
        if byte >= 0x04 {
            bench.instruction(byte);
            assert_eq!(bench.panel, before);
        }
    }
    for byte in 0x40..=0x7F {
        let mut bench = Bench::parallel();
        bench.panel.re = true;
        bench.panel.sr = true;
        let mut expected = bench.panel.clone();
        expected.scroll = byte & 0x3F;
        assert_eq!(bench.instruction(byte), 1_024);
        assert_eq!(bench.panel, expected);
    }
}
