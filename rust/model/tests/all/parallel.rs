//! Readings 13 to 16: half bytes.

use crate::bench::{Bench, Dice};
use model::{Half, Kind, Link, Pair, Panel, Target, Transfer};

fn kinds(value: u8) -> [Transfer; 4] {
    [
        Transfer::InstructionWrite(value),
        Transfer::DataWrite(value),
        Transfer::StatusRead,
        Transfer::DataRead,
    ]
}

fn open(panel: &Panel) -> Option<Pair> {
    match panel.link {
        Link::Parallel(pair) => pair,
        Link::Serial(_) => panic!("a parallel link"),
    }
}

#[test]
fn reading_13_a_second_half_is_of_the_very_kind() {
    for (i, first) in kinds(0x40).into_iter().enumerate() {
        for (j, second) in kinds(0x10).into_iter().enumerate() {
            let mut bench = Bench::half_bytes();
            bench.call(first);
            assert_eq!(open(&bench.panel).unwrap().kind, first.kind());
            bench.call(second);
            if i == j {
                assert_eq!(open(&bench.panel), None);
            } else {
                // The first is dropped and the new one is a first.
                assert_eq!(open(&bench.panel).unwrap().kind, second.kind());
                if let Transfer::DataWrite(_) | Transfer::InstructionWrite(_) = second {
                    assert_eq!(bench.panel.text, [0x2020; 64]);
                    bench.call(second);
                    assert_eq!(open(&bench.panel), None);
                }
            }
        }
    }
}

#[test]
fn reading_13_a_dropped_write_leaves_no_trace() {
    let mut bench = Bench::half_bytes();
    bench.data(0x40);
    assert_eq!(bench.status(), 0x00);
    // A status read between the halves drops the first half of the write.
    bench.data(0x50);
    bench.data(0x20);
    assert_eq!(bench.panel.text[0], 0x5220);
}

#[test]
fn reading_14_writes_act_at_the_second_half() {
    let mut bench = Bench::half_bytes();
    let before = bench.panel.clone();
    assert_eq!(bench.instruction(0x85), 0);
    let mut expected = before.clone();
    expected.link = Link::Parallel(Some(Pair {
        kind: Kind::InstructionWrite,
        bits: 0x80,
    }));
    assert_eq!(bench.panel, expected);
    assert_eq!(bench.panel.bytes()[2_331..][..3], [0, 1, 0x80]);
    assert_eq!(bench.instruction(0x5F), 64);
    assert_eq!(bench.panel.counter, 0x05);
    assert_eq!(open(&bench.panel), None);
}

#[test]
fn reading_14_reads_act_at_the_first_half() {
    let mut before = Panel::fresh(true);
    before.dl = false;
    before.text[5] = 0x2D37;
    before.counter = 5;
    let mut bench = Bench::with(before);
    assert_eq!(bench.read(), (0x20, 0));
    assert_eq!(bench.panel.next, Half::Low);
    assert_eq!(bench.panel.bytes()[2_331..][..3], [0, 4, 0xD0]);
    assert_eq!(bench.read(), (0xD0, 0));
    assert_eq!(bench.panel.next, Half::Low);
    // The count of a read that names bytes is its first half's.
    assert_eq!(bench.read(), (0x30, 64));
    assert_eq!(bench.panel.counter, 6);
    assert_eq!(bench.read(), (0x70, 0));
    assert_eq!(bench.panel.counter, 6);
    // Status: 06h as 00h and 60h.
    assert_eq!(bench.status(), 0x00);
    assert_eq!(bench.panel.bytes()[2_331..][..3], [0, 3, 0x60]);
    assert_eq!(bench.status(), 0x60);
    assert_eq!(open(&bench.panel), None);
    // A dropped read has acted; its low bits are not handed over.
    bench.panel.text[6] = 0x4142;
    assert_eq!(bench.read(), (0x40, 0));
    assert_eq!(bench.status(), 0x00);
    assert_eq!(bench.read(), (0x40, 64));
    assert_eq!(bench.read(), (0x20, 0));
}

#[test]
fn reading_15_low_bits_do_not_count() {
    let mut dice = Dice::new(31);
    for _ in 0..200 {
        let mut before = dice.panel(true);
        before.dl = false;
        let mut plain = Bench::with(before.clone());
        let mut dirty = Bench::with(before);
        for _ in 0..4 {
            let byte = dice.byte();
            let noise = dice.byte() & 0x0F;
            let (one, two) = if dice.flag() {
                let data = Transfer::DataWrite;
                (data(byte & 0xF0), data(byte & 0xF0 | noise))
            } else {
                let instruction = Transfer::InstructionWrite;
                (instruction(byte & 0xF0), instruction(byte & 0xF0 | noise))
            };
            assert_eq!(plain.call(one), dirty.call(two));
            assert_eq!(plain.panel, dirty.panel);
            // A function set may have made it a link of whole bytes.
            if plain.panel.dl {
                break;
            }
        }
    }
}

#[test]
fn reading_16_change_of_width() {
    // 20h as a byte turns to half bytes; the next transfer is a first half.
    let mut bench = Bench::parallel();
    assert_eq!(bench.instruction(0x20), 1_024);
    assert_eq!(bench.data(0x40), 0);
    assert_eq!(bench.data(0x10), 32);
    assert_eq!(bench.panel.text[0], 0x4120);
    // 30h as half bytes turns back; the next transfer is a byte.
    assert_eq!(bench.instruction(0x30), 0);
    assert_eq!(bench.instruction(0x00), 1_024);
    assert_eq!(open(&bench.panel), None);
    assert_eq!(bench.data(0x42), 64);
    assert_eq!(bench.panel.text[0], 0x4142);
}

#[test]
fn reading_16_no_open_half_meets_byte_width() {
    let mut dice = Dice::new(32);
    let mut bench = Bench::parallel();
    for _ in 0..3_000 {
        let byte = if dice.below(4) == 0 {
            0x20 + dice.below(32) as u8
        } else {
            dice.byte()
        };
        bench.call(kinds(byte)[dice.below(4) as usize]);
        assert!(!bench.panel.dl || open(&bench.panel).is_none());
    }
    // In a made-up state that has both, it is not looked at and stays.
    for transfer in kinds(0x41) {
        let mut panel = Panel::fresh(true);
        panel.target = Target::Text;
        let kind = Kind::DataWrite;
        panel.link = Link::Parallel(Some(Pair { kind, bits: 0x50 }));
        let mut with = Bench::with(panel.clone());
        let mut without = Bench::parallel();
        assert_eq!(with.call(transfer), without.call(transfer));
        assert_eq!(with.panel.link, panel.link);
        without.panel.link = panel.link;
        assert_eq!(with.panel, without.panel);
    }
}
