//! The twelve panel readings of document 01, and its replay example.

use crate::bench::Bench;
use model::{full_glyph_number, printed, replay, Half, Numbering, Panel, Target, Transfer};

/// What a panel reading leaves untouched is as in the given panel.
fn assert_state(bench: &Bench, expected: &Panel) {
    assert_eq!(&bench.panel, expected);
    assert_eq!(bench.panel.bytes(), expected.bytes());
}

#[test]
fn case_1_status() {
    let mut bench = Bench::parallel();
    assert_eq!(bench.status(), 0x00);
    assert_state(&bench, &Panel::fresh(true));
}

#[test]
fn case_2_address_and_status() {
    let mut bench = Bench::parallel();
    assert_eq!(bench.instruction(0x85), 64);
    assert_eq!(bench.status(), 0x05);
    let mut expected = Panel::fresh(true);
    expected.counter = 5;
    expected.dummy_due = true;
    assert_state(&bench, &expected);
}

fn case_3() -> Bench {
    let mut bench = Bench::parallel();
    assert_eq!(bench.instruction(0x80), 32);
    assert_eq!(bench.data(0x2D), 32);
    assert_eq!(bench.data(0x37), 64);
    assert_eq!(bench.status(), 0x01);
    bench
}

#[test]
fn case_3_hyphen_and_seven() {
    let bench = case_3();
    let mut expected = Panel::fresh(true);
    expected.text[0] = 0x2D37;
    expected.counter = 1;
    expected.dummy_due = true;
    assert_state(&bench, &expected);
}

#[test]
fn case_4_three_reads() {
    let mut bench = case_3();
    bench.instruction(0x80);
    assert_eq!(bench.read(), (0x00, 0));
    assert_eq!(bench.read(), (0x2D, 0));
    assert_eq!(bench.read(), (0x37, 64));
    let mut expected = Panel::fresh(true);
    expected.text[0] = 0x2D37;
    expected.counter = 1;
    assert_state(&bench, &expected);
}

#[test]
fn case_5_last_word() {
    let mut bench = Bench::parallel();
    assert_eq!(bench.instruction(0xBF), 32);
    assert_eq!(bench.data(0x12), 0);
    assert_eq!(bench.data(0x34), 32);
    assert_eq!(bench.status(), 0x00);
    let mut expected = Panel::fresh(true);
    expected.text[63] = 0x1234;
    expected.dummy_due = true;
    assert_state(&bench, &expected);
}

#[test]
fn case_6_stepping_down() {
    let mut bench = Bench::parallel();
    assert_eq!(bench.instruction(0x04), 1_024);
    assert_eq!(bench.instruction(0x80), 32);
    assert_eq!(bench.data(0x56), 32);
    assert_eq!(bench.data(0x78), 32);
    assert_eq!(bench.status(), 0x3F);
    let mut expected = Panel::fresh(true);
    expected.id = false;
    expected.text[0] = 0x5678;
    expected.counter = 63;
    expected.dummy_due = true;
    assert_state(&bench, &expected);
}

#[test]
fn case_7_function_set_twice() {
    let mut bench = Bench::parallel();
    assert_eq!(bench.instruction(0x36), 1_024);
    let mut expected = Panel::fresh(true);
    expected.re = true;
    assert_state(&bench, &expected);
    assert_eq!(bench.instruction(0x36), 1_024);
    expected.g = true;
    assert_state(&bench, &expected);
}

#[test]
fn case_8_graphic_word() {
    let mut bench = Bench::parallel();
    assert_eq!(bench.instruction(0x34), 1_024);
    assert_eq!(bench.instruction(0x36), 1_024);
    assert_eq!(bench.instruction(0x83), 0);
    assert_eq!(bench.instruction(0x8F), 32);
    assert_eq!(bench.data(0xAA), 1);
    assert_eq!(bench.data(0x55), 1);
    assert_eq!(bench.status(), 0x00);
    let mut expected = Panel::fresh(true);
    expected.re = true;
    expected.g = true;
    expected.target = Target::Graphic;
    expected.graphic_row = 3;
    expected.graphic[3][15] = 0xAA55;
    expected.dummy_due = true;
    assert_state(&bench, &expected);
}

#[test]
fn case_9_glyph_numbers() {
    let number = |lead, trail| full_glyph_number(Numbering::Old, lead, trail);
    assert_eq!(number(0xA1, 0xA0), Some(0));
    assert_eq!(number(0xF7, 0xFF), Some(8_351));
    assert_eq!(number(0xF8, 0xA0), None);
    assert_eq!(number(0xA1, 0x9F), None);
    assert_eq!(number(0xA0, 0xA0), None);
}

#[test]
fn case_10_frame_lengths() {
    for length in [1_023, 1_025] {
        let mut panel = Panel::fresh(true);
        let mut frame = vec![0x77; length];
        let outcome = panel.transfer(Transfer::StatusRead, &mut frame, &[0; 2_048], &[], false);
        assert_eq!((outcome.number, outcome.reply, outcome.count), (1, 0, 0));
        assert_eq!(frame, vec![0x77; length]);
        assert_eq!(panel, Panel::fresh(true));
    }
}

#[test]
fn case_11_serial_stores() {
    let mut bench = Bench::serial();
    assert_eq!(bench.serial_bytes(&[0xFA, 0x20, 0xD0]), 32);
    assert_eq!(bench.panel.text[0], 0x2D20);
    assert_eq!(bench.panel.next, Half::Low);
    let mut expected = Panel::fresh(false);
    expected.text[0] = 0x2D20;
    expected.next = Half::Low;
    // Still in the body of the data header, no bit seen.
    assert_eq!(bench.panel.bytes()[2_331..], [1, 0, 0, 2, 0, 0, 0, 1, 0, 0]);
    expected.link = bench.panel.link;
    assert_state(&bench, &expected);
}

#[test]
fn case_12_serial_stores_nothing() {
    let mut bench = Bench::serial();
    assert_eq!(bench.serial_bytes(&[0xFA, 0x20, 0xD1]), 0);
    // Sync is lost; the one that lost it counts in the run.
    assert_eq!(bench.panel.bytes()[2_331..], [1, 0, 0, 0, 1, 0, 0, 0, 0, 0]);
    let mut expected = Panel::fresh(false);
    expected.link = bench.panel.link;
    assert_state(&bench, &expected);
}

#[test]
fn replay_example() {
    let capture = [
        0xA5, 0x5A, 0x00, 0x80, 0xA5, 0x5A, 0x01, 0x2D, 0xA5, 0x5A, 0x02, 0x00,
    ];
    let mut panel = Panel::fresh(true);
    let mut frame = [0; 1_024];
    let replayed = replay(&mut panel, &capture, &mut frame, &[0; 2_048], &[], false);
    assert_eq!((replayed.place, replayed.number), (3, 0));
    assert_eq!(printed(&replayed), "0 -- 32\n1 -- 32\n2 00 0\nend 3\n");
}

#[test]
fn fresh_as_bytes() {
    let bytes = Panel::fresh(true).bytes();
    assert_eq!(bytes.len(), 128 + 128 + 2_048 + 23 + 3 + 1 + 10);
    assert_eq!(bytes.len(), 2_341);
    assert!(bytes[..128].iter().all(|&byte| byte == 0x20));
    assert!(bytes[128..2_304].iter().all(|&byte| byte == 0));
    // I/D and DL are 1, all else is 0.
    let ones: Vec<usize> = (2_304..2_341).filter(|&i| bytes[i] != 0).collect();
    assert_eq!(ones, [2_304 + 7, 2_304 + 12]);
    assert_eq!((bytes[2_311], bytes[2_316]), (1, 1));
    let serial = Panel::fresh(false).bytes();
    assert_eq!(serial[2_331..], [1, 0, 0, 0, 0, 0, 0, 0, 0, 0]);
    assert_eq!(serial[..2_331], bytes[..2_331]);
    // Made with time: one byte differs, the two of the time left are 0.
    let timed = Panel::made(true, true, Numbering::Old).bytes();
    let other: Vec<usize> = (0..2_341).filter(|&i| timed[i] != bytes[i]).collect();
    assert_eq!((other, timed[2_327]), (vec![2_327], 1));
    let mut busy = Panel::made(false, true, Numbering::Old);
    busy.left = 1_600;
    assert_eq!(busy.bytes()[2_327..2_330], [1, 0x06, 0x40]);
}
