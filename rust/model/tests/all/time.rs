//! The busy flag, with time: request K1 and readings 38 to 45, sentence by
//! sentence.

use crate::bench::{without_link, Bench, Dice, Over, LINKS};
use crate::calls::{program_with, records};
use crate::instructions::is_ignored;
use model::{
    named, printed, replay, Kind, Link, Named, Numbering, Outcome, Pair, Panel, Reader, Record,
    Replayed, Transfer,
};

const PARALLEL: [Over; 2] = [Over::Bytes, Over::HalfBytes];

/// Accepted, reply 0, count 0.
const NOTHING: Outcome = Outcome {
    number: 0,
    reply: 0,
    count: 0,
};

fn run(panel: &mut Panel, capture: &[u8]) -> Replayed {
    replay(panel, capture, &mut [0; 1_024], &[0; 2_048], &[], false)
}

/// What an instruction costs on an idle panel, from the words alone.
fn price(before: &Panel, byte: u8) -> u16 {
    match (byte, before.re) {
        _ if is_ignored(before, byte) => 0,
        (0x01, false) => 1_600,
        _ => 72,
    }
}

/// The list of the customer: clear, and polls until the busy flag falls.
fn customers_list() -> Vec<u8> {
    records(&[(0, 0x01), (2, 0), (7, 199), (2, 0), (7, 1), (2, 0)])
}

#[test]
fn the_customers_example() {
    let replayed = run(
        &mut Panel::made(true, true, Numbering::Old),
        &customers_list(),
    );
    let lines = "0 -- 1024\n1 80 0\n2 -- 0\n3 80 0\n4 -- 0\n5 00 0\nend 6\n";
    assert_eq!(printed(&replayed), lines);
    // The same without time stops at the first kind 7.
    let replayed = run(&mut Panel::fresh(true), &customers_list());
    assert_eq!((replayed.place, replayed.number), (2, 8));
    assert_eq!(printed(&replayed), "0 -- 1024\n1 00 0\nstop 2 8\n");
}

/// A meter that polls bit 7 sees it rise and fall.
#[test]
fn bit_7_rises_and_falls() {
    for over in PARALLEL {
        let mut bench = Bench::timed(over);
        assert_eq!(bench.whole_read(Kind::StatusRead), (0x00, 0));
        assert_eq!(bench.write(false, 0x85), 64);
        assert_eq!(bench.whole_read(Kind::StatusRead), (0x85, 0));
        bench.pass(8);
        assert_eq!(bench.whole_read(Kind::StatusRead), (0x85, 0));
        bench.pass(1);
        assert_eq!(bench.whole_read(Kind::StatusRead), (0x05, 0));
    }
}

/// While busy, status shows bit 7 set and the counter, and is never lost.
#[test]
fn reading_41_status_while_busy() {
    let mut dice = Dice::new(101);
    for _ in 0..200 {
        for over in PARALLEL {
            let panel = dice.timed(true);
            let bit_7 = if panel.left == 0 { 0x00 } else { 0x80 };
            let mut bench = Bench::over(over, panel);
            let before = bench.panel.clone();
            let status = bit_7 + before.counter;
            assert_eq!(bench.whole_read(Kind::StatusRead), (status, 0));
            assert_eq!(bench.panel, before);
        }
    }
}

#[test]
fn reading_38_time_is_fixed_when_made() {
    for parallel in [true, false] {
        let with = Panel::made(parallel, true, Numbering::Old);
        let without = Panel::made(parallel, false, Numbering::Old);
        assert!(with.time && !without.time);
        assert_eq!(without, Panel::fresh(parallel));
        let mut same = with.clone();
        same.time = false;
        assert_eq!(same, without);
        // Fresh is not busy.
        assert_eq!((with.left, with.busy()), (0, false));
        assert_eq!((without.left, without.busy()), (0, false));
    }
}

/// Reset is not busy, keeps whether it has time, and costs nothing.
#[test]
fn reading_38_reset() {
    let mut dice = Dice::new(102);
    for _ in 0..20 {
        for pin in [false, true] {
            for from in [false, true] {
                let mut bench = Bench::with(dice.busy(from));
                assert_eq!(bench.reset(pin, Numbering::Old).count, 1_024);
                assert_eq!(bench.panel, Panel::made(pin, true, Numbering::Old));
                assert!(!bench.panel.busy());
                assert_eq!(bench.frame, bench.picture());
                let mut bench = Bench::with(dice.panel(from));
                assert_eq!(bench.reset(pin, Numbering::Old).count, 1_024);
                assert_eq!(bench.panel, Panel::made(pin, false, Numbering::Old));
            }
        }
    }
    // Kind 7 is a record still after a reset to either link.
    let capture = records(&[(7, 1), (6, 0), (7, 1), (6, 1), (7, 1)]);
    let replayed = run(&mut Panel::made(true, true, Numbering::Old), &capture);
    assert_eq!((replayed.place, replayed.number), (5, 0));
}

/// Without time nothing is ever left.
#[test]
fn reading_38_without_time_nothing_is_left() {
    for over in LINKS {
        let mut bench = Bench::over(over, Panel::fresh(true));
        for (register, byte) in [(false, 0x01), (true, 0x41), (true, 0x42), (false, 0x85)] {
            assert_ne!(bench.write(register, byte), 0);
            assert_eq!((bench.panel.left, bench.panel.busy()), (0, false));
        }
        assert_eq!((bench.panel.text[0], bench.panel.counter), (0x4142, 5));
    }
}

#[test]
fn reading_39_busy_means_more_than_0_left() {
    for left in 0..=1_600 {
        let mut panel = Panel::made(true, true, Numbering::Old);
        panel.left = left;
        assert_eq!(panel.busy(), left > 0);
    }
}

/// Takes 8 times the value off and stops at 0; any value.
#[test]
fn reading_39_pass() {
    for left in [0, 1, 7, 8, 9, 71, 72, 73, 1_592, 1_599, 1_600] {
        for eights in 0..=255u8 {
            let mut bench = Bench::parallel();
            bench.panel.time = true;
            bench.panel.left = left;
            let (half, full) = ([1; 2_048], [2; 64]);
            let outcome = bench
                .panel
                .pass(eights, &mut bench.frame, &half, &full, true);
            assert_eq!(outcome, NOTHING);
            let expected = i32::from(left) - 8 * i32::from(eights);
            assert_eq!(i32::from(bench.panel.left), expected.max(0));
        }
    }
}

/// On both links, in any state of pairing and receiver, with a row waiting
/// and in standby: nothing else changes, the frame neither.
#[test]
fn reading_39_pass_changes_nothing_else() {
    let mut dice = Dice::new(103);
    for _ in 0..400 {
        for parallel in [true, false] {
            let mut bench = Bench::with(dice.timed(parallel));
            if parallel {
                let kinds = [
                    Transfer::InstructionWrite(dice.byte()),
                    Transfer::DataWrite(dice.byte()),
                    Transfer::StatusRead,
                    Transfer::DataRead,
                ];
                bench.call(kinds[dice.below(4) as usize]);
            } else {
                for _ in 0..dice.below(30) {
                    bench.bit(dice.below(5) != 0);
                }
            }
            let eights = dice.byte();
            let mut expected = bench.panel.clone();
            expected.left = expected.left.saturating_sub(8 * u16::from(eights));
            bench.pass(eights);
            assert_eq!(bench.panel, expected);
        }
    }
}

#[test]
fn kind_7_is_value_times_8_microseconds() {
    for value in 0..=255 {
        let mut panel = Panel::made(true, true, Numbering::Old);
        let replayed = run(&mut panel, &records(&[(0, 0x01), (7, value)]));
        let lines = "0 -- 1024\n1 -- 0\nend 2\n";
        assert_eq!(printed(&replayed), lines);
        let left = 1_600 - (8 * u16::from(value)).min(1_600);
        assert_eq!(panel.left, left);
        // On the serial link the same.
        let mut panel = Panel::made(false, true, Numbering::Old);
        let list = [(4, 0xF8), (4, 0x00), (4, 0x10), (7, value)];
        let replayed = run(&mut panel, &records(&list));
        assert_eq!((replayed.place, replayed.number), (4, 0));
        assert_eq!(panel.left, left);
    }
}

/// Clear 1,600, every other executed instruction 72, ignored codes nothing:
/// every byte over every link.
#[test]
fn reading_40_instructions_cost() {
    let mut dice = Dice::new(104);
    for _ in 0..2 {
        for over in LINKS {
            let mut before = dice.panel(true);
            before.time = true;
            for byte in 0..=255 {
                let mut bench = Bench::over(over, before.clone());
                bench.write(false, byte);
                assert_eq!(bench.panel.left, price(&before, byte), "{byte:02X}");
            }
        }
    }
}

/// By name: a row alone and its column, standby, function set, home.
#[test]
fn reading_40_instructions_by_name() {
    for over in LINKS {
        let mut bench = Bench::timed(over);
        let dl = if over == Over::Bytes { 0x10 } else { 0 };
        for (byte, left) in [
            (0x01, 1_600),
            (0x02, 72),
            (0x00, 0),
            (0x0F, 72),
            (0x24 + dl, 72),
            (0x01, 72),
            (0x08, 0),
            (0x1F, 0),
            (0x83, 72),
            (0x8F, 72),
            (0x40, 0),
            (0x20 + dl, 72),
            (0x10, 0),
            (0x18, 72),
            (0x80, 72),
            (0x10, 72),
            (0x01, 1_600),
        ] {
            bench.write(false, byte);
            assert_eq!(bench.panel.left, left, "{byte:02X}");
            bench.pass(200);
            assert!(!bench.panel.busy());
        }
    }
}

/// A data write and a data read, a dummy read too: 72.
#[test]
fn reading_40_data_costs_72() {
    let mut dice = Dice::new(105);
    for _ in 0..100 {
        let mut before = dice.panel(true);
        before.time = true;
        for over in LINKS {
            let mut bench = Bench::over(over, before.clone());
            bench.write(true, dice.byte());
            assert_eq!(bench.panel.left, 72);
        }
        for over in PARALLEL {
            for dummy_due in [false, true] {
                let mut bench = Bench::over(over, before.clone());
                bench.panel.dummy_due = dummy_due;
                bench.whole_read(Kind::DataRead);
                assert_eq!(bench.panel.left, 72);
                assert!(!bench.panel.dummy_due);
            }
        }
    }
}

/// Status reads, select-low, bits that complete nothing and halves that do not
/// act.
#[test]
fn reading_40_what_costs_nothing() {
    for left in [0, 40, 1_600] {
        for over in PARALLEL {
            let mut bench = Bench::timed(over);
            bench.panel.left = left;
            bench.whole_read(Kind::StatusRead);
            assert_eq!(bench.panel.left, left);
        }
        let mut bench = Bench::timed(Over::Serial);
        bench.panel.left = left;
        assert_eq!(bench.bits("11111 010 0100 0000 0001 000"), 0);
        assert_eq!(bench.panel.left, left);
        assert_eq!(bench.select_low(), NOTHING);
        assert_eq!(bench.panel.left, left);
        // A write's first half.
        for transfer in [Transfer::InstructionWrite(0x01), Transfer::DataWrite(0x40)] {
            let mut bench = Bench::timed(Over::HalfBytes);
            bench.panel.left = left;
            assert_eq!(bench.call(transfer), NOTHING);
            assert_eq!(bench.panel.left, left);
        }
    }
    // A read's second half.
    let mut bench = Bench::timed(Over::HalfBytes);
    bench.call(Transfer::DataRead);
    assert_eq!(bench.panel.left, 72);
    bench.pass(9);
    bench.call(Transfer::DataRead);
    assert_eq!(bench.panel.left, 0);
}

/// A write that completes is lost: all but the link stays, the time left
/// included; an ignored code is tested like the others.
#[test]
fn reading_41_a_write_is_lost() {
    let mut dice = Dice::new(106);
    for _ in 0..2 {
        for over in LINKS {
            let before = dice.busy(true);
            for byte in 0..=255 {
                for register in [false, true] {
                    let mut bench = Bench::over(over, before.clone());
                    let mut expected = bench.panel.clone();
                    let frame = bench.frame.clone();
                    assert_eq!(bench.write(register, byte), 0);
                    assert_eq!(bench.frame, frame);
                    // The bits are used up: the body with no bit seen.
                    if over == Over::Serial {
                        let mut idle = Bench::serial();
                        idle.write(register, 0x00);
                        expected.link = idle.panel.link;
                    }
                    assert_eq!(bench.panel, expected);
                }
            }
        }
    }
}

/// A data read answers 0 and is lost; a dummy stays due, a row waits on.
#[test]
fn reading_41_a_data_read_is_lost() {
    let mut dice = Dice::new(107);
    for _ in 0..300 {
        for over in PARALLEL {
            let mut bench = Bench::over(over, dice.busy(true));
            let before = bench.panel.clone();
            assert_eq!(bench.whole_read(Kind::DataRead), (0, 0));
            assert_eq!(bench.panel, before);
        }
    }
    let mut bench = Bench::timed(Over::Bytes);
    bench.panel.text[0] = 0x4142;
    bench.write(false, 0x80);
    assert_eq!(bench.whole_read(Kind::DataRead), (0, 0));
    assert!(bench.panel.dummy_due);
    for reply in [0x00, 0x41, 0x42] {
        bench.pass(9);
        assert_eq!(bench.whole_read(Kind::DataRead).0, reply);
    }
}

/// Neither restarts the time.
#[test]
fn a_lost_transfer_does_not_restart_the_time() {
    for over in LINKS {
        let mut bench = Bench::timed(over);
        bench.write(false, 0x01);
        for n in 1..200 {
            bench.pass(1);
            bench.write(true, 0x41);
            bench.write(false, 0x01);
            if over != Over::Serial {
                bench.whole_read(Kind::DataRead);
            }
            assert_eq!(bench.panel.left, 1_600 - 8 * n);
        }
        bench.pass(1);
        assert_ne!(bench.write(true, 0x41), 0);
        assert_eq!(bench.panel.text[0], 0x4120);
        assert_eq!(bench.panel.left, 72);
    }
}

/// A function set that is lost leaves the width, the instruction set and
/// standby as they were.
#[test]
fn reading_41_a_lost_function_set_changes_no_width() {
    let mut bench = Bench::timed(Over::Bytes);
    bench.write(false, 0x0C);
    bench.write(false, 0x20);
    assert!(bench.panel.dl);
    bench.pass(9);
    assert_eq!(bench.write(false, 0x20), 1_024);
    assert!(!bench.panel.dl);
    bench.write(false, 0x30);
    assert!(!bench.panel.dl);
    assert_eq!(bench.panel.link, Link::Parallel(None));
    bench.pass(9);
    assert_eq!(bench.write(false, 0x30), 1_024);
    assert!(bench.panel.dl);
}

/// A lost transfer names no bytes, also where the set itself is asked for.
#[test]
fn a_lost_transfer_names_no_bytes() {
    let mut dice = Dice::new(108);
    for _ in 0..300 {
        let mut before = dice.busy(true);
        before.dl = true;
        let transfers = [
            Transfer::InstructionWrite(dice.byte()),
            Transfer::InstructionWrite(0x01),
            Transfer::DataWrite(dice.text_byte()),
            Transfer::DataRead,
        ];
        for transfer in transfers {
            let mut bench = Bench::with(before.clone());
            assert_eq!(bench.call(transfer), NOTHING);
            assert_eq!(bench.panel, before);
            assert_eq!(named(&before, transfer, &bench.panel), Named::none());
        }
    }
}

/// A transfer of the other link is refused with 5, not lost.
#[test]
fn a_refusal_comes_before_the_busy_test() {
    let mut dice = Dice::new(109);
    let lent = [1; 2_048];
    let before = dice.busy(false);
    let mut panel = before.clone();
    let mut frame = [0x77; 1_024];
    let outcome = panel.transfer(Transfer::DataRead, &mut frame, &lent, &[], false);
    assert_eq!((outcome.number, outcome.reply, outcome.count), (5, 0, 0));
    assert_eq!(panel, before);
    let before = dice.busy(true);
    let mut panel = before.clone();
    for bit in [false, true] {
        let outcome = panel.bit(bit, &mut frame, &lent, &[], false);
        assert_eq!((outcome.number, outcome.reply, outcome.count), (5, 0, 0));
    }
    assert_eq!(panel, before);
}

/// A write busy at its first half and idle at its second is carried out.
#[test]
fn reading_42_a_write_is_tested_at_its_second_half() {
    let mut bench = Bench::timed(Over::HalfBytes);
    bench.write(false, 0x80);
    assert_eq!(bench.data(0x40), 0);
    assert!(bench.panel.busy());
    bench.pass(9);
    assert_eq!(bench.data(0x10), 32);
    assert_eq!((bench.panel.text[0], bench.panel.left), (0x4120, 72));
    // Busy at its second half it is lost, and the pair is complete.
    assert_eq!(bench.data(0x40), 0);
    bench.pass(8);
    assert_eq!(bench.data(0x20), 0);
    assert_eq!((bench.panel.text[0], bench.panel.left), (0x4120, 8));
    assert_eq!(bench.panel.link, Link::Parallel(None));
    // So with an instruction.
    assert_eq!(bench.instruction(0x80), 0);
    bench.pass(1);
    assert_eq!(bench.instruction(0x70), 64);
    assert_eq!((bench.panel.counter, bench.panel.left), (7, 72));
}

/// A read lost at its first half hands over 0 at its second, also if time has
/// passed between them.
#[test]
fn reading_42_a_read_is_tested_at_its_first_half() {
    for eights in [0, 1, 9, 255] {
        let mut bench = Bench::timed(Over::HalfBytes);
        bench.panel.text[0] = 0x4F20;
        bench.panel.left = 72;
        let before = bench.panel.clone();
        assert_eq!(bench.call(Transfer::DataRead), NOTHING);
        let kind = Kind::DataRead;
        let mut first = before.clone();
        first.link = Link::Parallel(Some(Pair { kind, bits: 0 }));
        assert_eq!(bench.panel, first);
        bench.pass(eights);
        assert_eq!(bench.call(Transfer::DataRead), NOTHING);
        let mut after = before.clone();
        after.left = 72 - (8 * u16::from(eights)).min(72);
        assert_eq!(bench.panel, after);
        // It was lost whole: the next one reads what it would have read.
        bench.pass(9);
        assert_eq!(bench.whole_read(Kind::DataRead), (0x4F, 0));
    }
}

/// The second half of a good read is handed over though the first half made
/// the panel busy.
#[test]
fn reading_42_a_good_read_is_handed_over() {
    for eights in [0, 8, 9] {
        let mut bench = Bench::timed(Over::HalfBytes);
        bench.panel.text[0] = 0x4F5E;
        assert_eq!(bench.read(), (0x40, 0));
        assert_eq!(bench.panel.left, 72);
        bench.pass(eights);
        let left = bench.panel.left;
        assert_eq!(bench.read(), (0xF0, 0));
        assert_eq!(bench.panel.left, left);
        bench.pass(9);
        assert_eq!(bench.read(), (0x50, 64));
        assert_eq!(bench.read(), (0xE0, 0));
    }
}

/// The halves of a status read are of one answer: bit 7 is that of the first.
#[test]
fn reading_42_status_over_half_bytes() {
    let mut bench = Bench::timed(Over::HalfBytes);
    bench.write(false, 0x95);
    assert_eq!(bench.status(), 0x90);
    bench.pass(9);
    assert_eq!(bench.status(), 0x50);
    assert_eq!(bench.status(), 0x10);
    assert_eq!(bench.status(), 0x50);
}

/// Pairing goes on as before: over any list of halves, busy throughout, kinds
/// pair as they do on an idle panel.
#[test]
fn pairing_goes_on_as_before() {
    let mut dice = Dice::new(110);
    let mut busy = Bench::timed(Over::HalfBytes);
    let mut plain = Bench::half_bytes();
    let kind_of = |bench: &Bench| match bench.panel.link {
        Link::Parallel(pair) => pair.map(|pair| pair.kind),
        Link::Serial(_) => panic!("a parallel link"),
    };
    for _ in 0..2_000 {
        // No function set can arise, so the plain panel keeps its width.
        let transfer = match dice.below(4) {
            0 => Transfer::InstructionWrite(0x80 | dice.byte()),
            1 => Transfer::DataWrite(dice.byte()),
            2 => Transfer::StatusRead,
            _ => Transfer::DataRead,
        };
        busy.panel.left = 1 + dice.below(1_600) as u16;
        busy.call(transfer);
        plain.call(transfer);
        assert_eq!(kind_of(&busy), kind_of(&plain));
    }
    assert_ne!(
        without_link(&plain.panel),
        without_link(&Panel::fresh(true))
    );
    busy.panel.left = 0;
    let fresh = Panel::made(true, true, Numbering::Old);
    assert_eq!(without_link(&busy.panel), without_link(&fresh));
}

/// Serial bits are heard while busy; the byte is tested on its last zero.
#[test]
fn serial_bytes_are_tested_on_their_last_zero() {
    let mut bench = Bench::timed(Over::Serial);
    bench.write(false, 0x80);
    assert_eq!(bench.bits("11111 010 0100 0000 0001 000"), 0);
    bench.pass(9);
    assert_eq!(bench.bits("0"), 32);
    assert_eq!(bench.panel.text[0], 0x4120);
    // The next byte under the same header is lost, the one after it is not.
    assert_eq!(bench.bits("0100 0000 0010 0000"), 0);
    bench.pass(9);
    assert_eq!(bench.bits("0100 0000 0011 0000"), 64);
    assert_eq!(bench.panel.text[0], 0x4143);
}

/// With time kinds go to 7 and 8 is given above 7; without, kind 7 is refused
/// with 8.
#[test]
fn reading_43_kind_7_is_a_record_only_with_time() {
    for value in 0..=255 {
        let bytes = [0xA5, 0x5A, 7, value];
        assert_eq!(
            Reader::made(&bytes, true).read(),
            Ok(Record { kind: 7, value })
        );
        assert_eq!(Reader::made(&bytes, false).read(), Err(8));
        assert_eq!(Reader::new(&bytes).read(), Err(8));
        for parallel in [true, false] {
            for time in [true, false] {
                let mut panel = Panel::made(parallel, time, Numbering::Old);
                let replayed = run(&mut panel, &bytes);
                let expected = if time { (1, 0) } else { (0, 8) };
                assert_eq!((replayed.place, replayed.number), expected);
                assert_eq!(panel, Panel::made(parallel, time, Numbering::Old));
            }
        }
    }
    for kind in 8..=255 {
        let bytes = [0xA5, 0x5A, kind, 0];
        assert_eq!(Reader::made(&bytes, true).read(), Err(8));
        let replayed = run(&mut Panel::made(true, true, Numbering::Old), &bytes);
        assert_eq!((replayed.place, replayed.number), (0, 8));
    }
    // 6 and 7 come before 8, with time too.
    assert_eq!(Reader::made(&[0xA5, 0x5A, 7], true).read(), Err(6));
    assert_eq!(Reader::made(&[0xA5, 0x5B, 7, 0], true).read(), Err(7));
    assert_eq!(Reader::made(&[0xA5, 0x5B, 8, 0], true).read(), Err(7));
}

/// The call on a panel without time is refused with 8 after 1, 2, 3.
#[test]
fn reading_43_pass_without_time() {
    let mut dice = Dice::new(111);
    for parallel in [true, false] {
        let without = dice.panel(parallel);
        for (before, accepted) in [(without, 8), (dice.busy(parallel), 0)] {
            for (frame, half, full, number) in [
                (1_023, 2_047, 31, 1),
                (1_024, 2_047, 31, 2),
                (1_024, 2_048, 31, 3),
                (1_024, 2_048, 32, accepted),
            ] {
                let mut panel = before.clone();
                let mut lent = vec![0x77; frame];
                let (half, full) = (vec![1; half], vec![2; full]);
                let outcome = panel.pass(255, &mut lent, &half, &full, true);
                assert_eq!(outcome, Outcome { number, ..NOTHING });
                let mut expected = before.clone();
                if number == 0 {
                    expected.left = 0;
                }
                assert_eq!(panel, expected);
                assert_eq!(lent, vec![0x77; frame]);
            }
        }
    }
}

/// The program starts without time, with `--time` with it.
#[test]
fn reading_44_the_programs_argument() {
    let output = program_with(&[], &customers_list());
    assert!(output.status.success());
    assert_eq!(output.stdout, b"0 -- 1024\n1 00 0\nstop 2 8\n");
    let output = program_with(&["--time"], &customers_list());
    assert!(output.status.success() && output.stderr.is_empty());
    let lines = b"0 -- 1024\n1 80 0\n2 -- 0\n3 80 0\n4 -- 0\n5 00 0\nend 6\n";
    assert_eq!(output.stdout, lines);
    for arguments in [
        &["--tim"][..],
        &["time"],
        &[""],
        &["--time", "--time"],
        &["--time", "x"],
        &["x", "--time"],
    ] {
        let output = program_with(arguments, &customers_list());
        assert_eq!(output.status.code(), Some(1));
        assert!(output.stdout.is_empty());
        let said = String::from_utf8(output.stderr).unwrap();
        assert!(said.contains("only --time is known"));
    }
}
