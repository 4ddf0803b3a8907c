//! Seeded runs with time and beside it.

use crate::bench::{Bench, Dice, LINKS};
use crate::second_picture::second_picture;
use model::{Link, Receiver, Transfer};

fn any_transfer(dice: &mut Dice) -> Transfer {
    match dice.below(16) {
        0..=5 => Transfer::DataWrite(dice.text_byte()),
        6..=8 => Transfer::DataRead,
        9 => Transfer::StatusRead,
        10 => Transfer::InstructionWrite(0x20 + dice.below(32) as u8),
        11 => Transfer::InstructionWrite(dice.below(32) as u8),
        _ => Transfer::InstructionWrite(dice.byte()),
    }
}

/// A byte of the serial wire: headers, half bytes and noise.
fn any_wire_byte(dice: &mut Dice) -> u8 {
    match dice.below(8) {
        0 => 0xF8,
        1 => 0xFA,
        2 => dice.byte(),
        _ => dice.byte() & 0xF0,
    }
}

/// A transfer or a wire byte, whichever the link takes; answers reply and
/// count.
fn anything(bench: &mut Bench, dice: &mut Dice) -> (u8, usize) {
    match bench.panel.link {
        Link::Parallel(_) => {
            let outcome = bench.call(any_transfer(dice));
            (outcome.reply, outcome.count)
        }
        Link::Serial(_) => (0, bench.serial_bytes(&[any_wire_byte(dice)])),
    }
}

/// Without time the base rules stand: nothing is left, bit 7 stays clear.
#[test]
fn without_time_never_busy() {
    let mut dice = Dice::new(121);
    for round in 0..60 {
        let mut bench = Bench::with(dice.panel(round % 2 == 0));
        for _ in 0..60 {
            anything(&mut bench, &mut dice);
            if dice.below(10) == 0 {
                bench.reset(dice.flag(), dice.numbering());
            }
            assert_eq!((bench.panel.time, bench.panel.left), (false, 0));
            if let Link::Parallel(None) = bench.panel.link {
                assert_eq!(bench.status() & 0x80, 0);
            }
        }
    }
}

/// With time at most 1,600 are left, the panel keeps its time through every
/// call, and repainting the named bytes keeps the picture.
#[test]
fn with_time_at_most_1_600() {
    let mut dice = Dice::new(122);
    let mut largest = 0;
    for round in 0..100 {
        let mut bench = Bench::with(dice.timed(round % 2 == 0));
        for _ in 0..80 {
            match dice.below(24) {
                0 => {
                    bench.reset(dice.flag(), dice.numbering());
                    assert!(!bench.panel.busy());
                }
                1 if matches!(bench.panel.link, Link::Serial(_)) => {
                    let before = bench.panel.left;
                    assert_eq!(bench.select_low().number, 0);
                    assert_eq!(bench.panel.left, before);
                }
                2..=7 => bench.pass(dice.byte()),
                _ => {
                    anything(&mut bench, &mut dice);
                }
            }
            assert!(bench.panel.time);
            assert!(bench.panel.left <= 1_600);
            largest = largest.max(bench.panel.left);
            let picture = second_picture(&bench.panel, &bench.half, &bench.full, bench.phase);
            assert!(bench.frame == picture);
        }
    }
    assert_eq!(largest, 1_600);
}

/// A lost transfer leaves everything but the link, and the link moves as on a
/// panel that is not busy; only what a lost read keeps for its second half is
/// 0.
#[test]
fn lost_transfers_leave_all_but_the_link() {
    let mut dice = Dice::new(123);
    for _ in 0..3_000 {
        let mut bench = Bench::with(dice.busy(true));
        if !bench.panel.dl && dice.flag() {
            bench.call(any_transfer(&mut dice));
        }
        let before = bench.panel.clone();
        let mut idle = Bench::with(before.clone());
        idle.panel.left = 0;
        let transfer = any_transfer(&mut dice);
        let outcome = bench.call(transfer);
        idle.call(transfer);
        assert_eq!(outcome.count, 0);
        let mut expected = before.clone();
        expected.link = idle.panel.link;
        let second = matches!(before.link, Link::Parallel(Some(p)) if p.kind == transfer.kind());
        if let (Transfer::DataRead, Link::Parallel(Some(pair)), false) =
            (transfer, &mut expected.link, second)
        {
            pair.bits = 0;
        }
        assert_eq!(bench.panel, expected);
        if transfer != Transfer::StatusRead && !second {
            assert_eq!(outcome.reply, 0);
        }
    }
}

#[test]
fn lost_serial_bytes_leave_all_but_the_link() {
    let mut dice = Dice::new(124);
    let mut completed = 0;
    for _ in 0..40 {
        let mut bench = Bench::with(dice.busy(false));
        let before = bench.panel.clone();
        let mut idle = Bench::serial();
        for _ in 0..40 {
            let byte = any_wire_byte(&mut dice);
            assert_eq!(bench.serial_bytes(&[byte]), 0);
            idle.serial_bytes(&[byte]);
            let mut expected = before.clone();
            expected.link = idle.panel.link;
            assert_eq!(bench.panel, expected);
            let end = matches!(
                idle.panel.link,
                Link::Serial(Receiver::Body { seen: 0, .. })
            );
            completed += usize::from(end && byte & 0x0F == 0);
        }
    }
    assert!(completed > 100);
}

/// With so much time between the transfers that nothing is lost, replies,
/// counts, memories and picture are as without time.
#[test]
fn with_time_enough_all_is_as_without() {
    let mut dice = Dice::new(125);
    for round in 0..120 {
        let start = dice.panel(true);
        let over = LINKS[round % 3];
        let mut without = Bench::over(over, start.clone());
        let mut with = Bench::over(over, start);
        with.panel.time = true;
        for _ in 0..40 {
            for _ in 0..1 + dice.below(3) {
                with.pass(255);
            }
            let seed = dice.roll();
            let one = anything(&mut without, &mut Dice::new(seed));
            let two = anything(&mut with, &mut Dice::new(seed));
            assert_eq!(one, two);
            let mut expected = without.panel.clone();
            (expected.time, expected.left) = (true, with.panel.left);
            assert_eq!(with.panel, expected);
            assert_eq!(with.frame, without.frame);
        }
    }
}
