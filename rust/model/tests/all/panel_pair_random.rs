//! Seeded runs of two panels on one wire, beside two lone panels that are each
//! given their own events.

use crate::bench::{without_link, Bench, Dice, Over};
use crate::cabinet::{wire, wire_byte, Cabinet, Lend, BOTH, NEITHER, SELECTS};
use crate::second_picture::second_picture;
use model::{Numbering, Outcome, Panel, Selects};

/// A left and a right side that differ: one with time, the new numbering and
/// phase 1, the other with none of these, each with fonts of its own.
fn two_sides(dice: &mut Dice, exchanged: bool) -> [Bench; 2] {
    let mut timed = dice.timed(false);
    timed.numbering = Numbering::New;
    let mut plain = dice.panel(false);
    plain.numbering = Numbering::Old;
    let sides = [(timed, true), (plain, false)].map(|(panel, phase)| {
        let mut bench = Bench::with(panel);
        let glyphs = dice.below(400) as usize;
        bench.half = dice.bytes(2_048);
        bench.full = dice.bytes(32 * glyphs);
        bench.phase = phase;
        bench.frame = bench.picture();
        bench
    });
    let [one, two] = sides;
    if exchanged {
        [two, one]
    } else {
        [one, two]
    }
}

fn any_selects(dice: &mut Dice) -> Selects {
    SELECTS[dice.below(4) as usize]
}

/// Mostly data, often the display and an address, every instruction at times.
fn any_write(dice: &mut Dice) -> (bool, u8) {
    match dice.below(16) {
        0..=8 => (true, dice.text_byte()),
        9..=10 => (false, 0x0C + dice.below(4) as u8),
        11..=12 => (false, 0x80 + dice.below(0x80) as u8),
        _ => (false, dice.byte()),
    }
}

/// Some bits, each with its selects: whole writes, writes with a select that
/// falls or rises among them, and noise.
fn any_bits(dice: &mut Dice) -> Vec<(bool, Selects)> {
    let (register, byte) = any_write(dice);
    let write = wire(register, byte).into_iter();
    let held = any_selects(dice);
    match dice.below(16) {
        0..=8 => write.map(|bit| (bit, held)).collect(),
        // Others from some bit on.
        9..=10 => {
            let (later, from) = (any_selects(dice), dice.below(24) as usize);
            let with = |at| if at < from { held } else { later };
            write.enumerate().map(|(at, bit)| (bit, with(at))).collect()
        }
        // Others for one bit.
        11..=12 => {
            let gap = dice.below(24) as usize;
            let with = |at| if at == gap { held } else { BOTH };
            write.enumerate().map(|(at, bit)| (bit, with(at))).collect()
        }
        // A header or half a byte, out of place.
        13..=14 => {
            let bytes = [0xF8, 0xFA, dice.byte() & 0xF0, dice.byte()];
            let bits = wire_byte(bytes[dice.below(4) as usize]);
            bits.map(|bit| (bit, held)).to_vec()
        }
        _ => {
            let length = dice.below(40);
            let noise = |_| (dice.below(4) != 0, any_selects(dice));
            (0..length).map(noise).collect()
        }
    }
}

/// The lone panel's own event: the bit, or select-low.
fn alone(bench: &mut Bench, bit: bool, select: bool) -> usize {
    let (half, full, phase) = (&bench.half, &bench.full, bench.phase);
    let outcome = if select {
        bench.panel.bit(bit, &mut bench.frame, half, full, phase)
    } else {
        bench.panel.select_low(&mut bench.frame, half, full, phase)
    };
    assert_eq!((outcome.number, outcome.reply), (0, 0));
    outcome.count
}

fn assert_same(cabinet: &Cabinet, sides: &[Bench; 2]) {
    assert!(cabinet.pair.left == sides[0].panel);
    assert!(cabinet.pair.right == sides[1].panel);
    assert!(cabinet.left.frame == sides[0].frame);
    assert!(cabinet.right.frame == sides[1].frame);
}

/// Partial repaint keeps each frame the picture of its panel, begun so.
fn assert_pictures(cabinet: &Cabinet) {
    let pair = &cabinet.pair;
    for (panel, lend) in [(&pair.left, &cabinet.left), (&pair.right, &cabinet.right)] {
        let picture = second_picture(panel, &lend.half, &lend.full, lend.phase);
        assert!(lend.frame == picture);
    }
}

/// A call on a panel of the pair and the same on the lone one.
fn other_call(panel: &mut Panel, lend: &mut Lend, bench: &mut Bench, dice: &mut Dice) {
    let call = dice.below(16);
    let value = dice.byte();
    let flag = dice.flag();
    let numbering = dice.numbering();
    let make = |panel: &mut Panel, frame: &mut [u8]| -> Outcome {
        let (half, full, phase) = (&lend.half, &lend.full, lend.phase);
        match call {
            0 => panel.reset(false, numbering, frame, half, full, phase),
            1 => panel.select_low(frame, half, full, phase),
            2 => panel.bit(flag, frame, half, full, phase),
            // Refused with 8 on the side without time.
            _ => panel.pass(value, frame, half, full, phase),
        }
    };
    let one = make(panel, &mut lend.frame);
    let two = make(&mut bench.panel, &mut bench.frame);
    assert_eq!(one, two);
}

/// One side's frame is too short: refused, and to the lone panels nothing came.
fn refused_bit(cabinet: &mut Cabinet, dice: &mut Dice) {
    let (bit, selects) = (dice.flag(), any_selects(dice));
    let Cabinet { pair, left, right } = cabinet;
    let outcome = if dice.flag() {
        let mut short = left.clone();
        short.frame.truncate(1_023);
        pair.bit(bit, selects, short.side(), right.side())
    } else {
        let mut short = right.clone();
        short.frame.truncate(1_023);
        pair.bit(bit, selects, left.side(), short.side())
    };
    assert_eq!((outcome.number, outcome.left, outcome.right), (1, 0, 0));
}

/// Each panel ends as it would alone on the bits it heard, with a select-low
/// for each bit it did not; frames and counts too, after every bit.
fn run(seed: u64, exchanged: bool) {
    let mut dice = Dice::new(seed);
    // Bits at which the left, the right or both have painted.
    let mut painted = [[0; 2]; 2];
    for _ in 0..20 {
        let mut sides = two_sides(&mut dice, exchanged);
        let mut cabinet = Cabinet::of(&sides[0], &sides[1]);
        let (mut pair_sum, mut lone_sum) = ((0, 0), (0, 0));
        for _ in 0..120 {
            for (bit, selects) in any_bits(&mut dice) {
                let outcome = cabinet.bit(bit, selects);
                let left = alone(&mut sides[0], bit, selects.left);
                let right = alone(&mut sides[1], bit, selects.right);
                assert_eq!(outcome.number, 0);
                assert_eq!((outcome.left, outcome.right), (left, right));
                pair_sum = (pair_sum.0 + outcome.left, pair_sum.1 + outcome.right);
                lone_sum = (lone_sum.0 + left, lone_sum.1 + right);
                assert_same(&cabinet, &sides);
                painted[usize::from(left > 0)][usize::from(right > 0)] += 1;
            }
            assert_pictures(&cabinet);
            let Cabinet { pair, left, right } = &mut cabinet;
            other_call(&mut pair.left, left, &mut sides[0], &mut dice);
            other_call(&mut pair.right, right, &mut sides[1], &mut dice);
            assert_same(&cabinet, &sides);
            if dice.below(8) == 0 {
                refused_bit(&mut cabinet, &mut dice);
                assert_same(&cabinet, &sides);
            }
        }
        assert_eq!(pair_sum, lone_sum);
    }
    let [[_, right], [left, both]] = painted;
    assert!(left > 100 && right > 100 && both > 100, "{painted:?}");
}

#[test]
fn each_as_it_would_be_alone() {
    run(161, false);
}

#[test]
fn each_as_it_would_be_alone_exchanged() {
    run(162, true);
}

/// Nothing but random bits and random selects, as they fall.
#[test]
fn each_as_it_would_be_alone_in_noise() {
    let mut dice = Dice::new(163);
    for round in 0..20 {
        let mut sides = two_sides(&mut dice, round % 2 == 1);
        let mut cabinet = Cabinet::of(&sides[0], &sides[1]);
        for _ in 0..1_000 {
            let (bit, selects) = (dice.flag(), any_selects(&mut dice));
            let outcome = cabinet.bit(bit, selects);
            let left = alone(&mut sides[0], bit, selects.left);
            let right = alone(&mut sides[1], bit, selects.right);
            assert_eq!(
                (outcome.number, outcome.left, outcome.right),
                (0, left, right)
            );
            assert_same(&cabinet, &sides);
        }
        assert_pictures(&cabinet);
    }
}

/// Time passes on a side that has it: not enough after a clear.
fn some_time(panel: &mut Panel, lend: &mut Lend, bench: &mut Bench) {
    if panel.time {
        let (half, full, phase) = (&lend.half, &lend.full, lend.phase);
        let outcome = panel.pass(100, &mut lend.frame, half, full, phase);
        assert_eq!(outcome.number, 0);
        bench.pass(100);
    }
}

/// Whole writes with the selects held reach whom they are sent to, as though
/// they had come over a link of whole bytes to those and to no others.
#[test]
fn whole_writes_reach_whom_they_are_sent_to() {
    let mut dice = Dice::new(164);
    for round in 0..20 {
        let sides = two_sides(&mut dice, round % 2 == 1);
        let mut cabinet = Cabinet::of(&sides[0], &sides[1]);
        let mut plain = sides.map(|side| Bench {
            panel: Bench::over(Over::Bytes, side.panel.clone()).panel,
            ..side
        });
        for _ in 0..100 {
            let (register, byte) = any_write(&mut dice);
            let selects = any_selects(&mut dice);
            let counts = cabinet.write(register, byte, selects);
            let [left, right] = &mut plain;
            let expected = [(left, selects.left), (right, selects.right)].map(|(side, select)| {
                if select {
                    side.write(register, byte)
                } else {
                    0
                }
            });
            assert_eq!([counts.0, counts.1], expected);
            let pair = &cabinet.pair;
            assert!(without_link(&pair.left) == without_link(&plain[0].panel));
            assert!(without_link(&pair.right) == without_link(&plain[1].panel));
            assert!(cabinet.left.frame == plain[0].frame);
            assert!(cabinet.right.frame == plain[1].frame);
            let Cabinet { pair, left, right } = &mut cabinet;
            some_time(&mut pair.left, left, &mut plain[0]);
            some_time(&mut pair.right, right, &mut plain[1]);
        }
        assert_eq!(cabinet.write(true, 0x41, NEITHER), (0, 0));
    }
}
