//! Clear turns the direction: request K2 and reading 46, sentence by sentence.

use crate::bench::{Bench, Dice, Over, LINKS};
use crate::calls::{program_with, records};
use model::{named, Half, Kind, Link, Named, Panel, Target, Transfer};

/// The entry modes with the I/D and S they set.
const ENTRY_MODES: [(u8, bool, bool); 4] = [
    (0x04, false, false),
    (0x05, false, true),
    (0x06, true, false),
    (0x07, true, true),
];

/// I/D and S.
fn direction(panel: &Panel) -> (bool, bool) {
    (panel.id, panel.s)
}

/// What an executed instruction makes of I/D and S, from the words alone.
fn direction_after(before: &Panel, byte: u8) -> (bool, bool) {
    match (byte, before.re) {
        (0x01, false) => (true, before.s),
        (0x04..=0x07, false) => (byte & 2 != 0, byte & 1 != 0),
        _ => direction(before),
    }
}

/// The counter by status; a serial panel cannot be read, so there as it stands.
fn counter(bench: &mut Bench) -> u8 {
    match bench.panel.link {
        Link::Parallel(_) => bench.whole_read(Kind::StatusRead).0,
        Link::Serial(_) => bench.panel.counter,
    }
}

/// Fresh, without time.
fn fresh(over: Over) -> Bench {
    Bench::over(over, Panel::fresh(true))
}

/// After 04h and then clear, the old panel writes to the right. Going left the
/// second word would be the last one, which is out of sight: the counts tell.
#[test]
fn after_04h_and_clear_it_writes_to_the_right() {
    for over in LINKS {
        let mut bench = fresh(over);
        assert_eq!(bench.write(false, 0x04), 1_024);
        assert_eq!(bench.write(false, 0x01), 1_024);
        assert_eq!(bench.write(true, 0x31), 32);
        assert_eq!(bench.write(true, 0x32), 64);
        assert_eq!(counter(&mut bench), 1);
        assert_eq!(bench.write(true, 0x33), 32);
        assert_eq!(bench.write(true, 0x34), 64);
        assert_eq!(counter(&mut bench), 2);
        let mut expected = [0x2020; 64];
        (expected[0], expected[1]) = (0x3132, 0x3334);
        assert_eq!(bench.panel.text, expected);
    }
}

/// Riggers saw reversed digits after a menu was left.
#[test]
fn digits_after_a_menu_stand_left_to_right() {
    for over in LINKS {
        let mut bench = fresh(over);
        bench.write(false, 0x04);
        bench.write(false, 0x85);
        // The menu's text steps down from word 5.
        for byte in *b"MENU" {
            bench.write(true, byte);
        }
        assert_eq!(bench.panel.text[3..7], [0x2020, 0x4E55, 0x4D45, 0x2020]);
        assert_eq!(counter(&mut bench), 3);
        bench.write(false, 0x01);
        assert_eq!(bench.panel.text, [0x2020; 64]);
        assert_eq!(counter(&mut bench), 0);
        for (at, digits) in (1..).zip([b"12", b"34", b"56"]) {
            // The word's cell; then that and the next one's.
            assert_eq!(bench.write(true, digits[0]), 32);
            assert_eq!(bench.write(true, digits[1]), 64);
            assert_eq!(counter(&mut bench), at);
        }
        let mut expected = [0x2020; 64];
        expected[..3].copy_from_slice(&[0x3132, 0x3334, 0x3536]);
        assert_eq!(bench.panel.text, expected);
    }
}

/// The same as a capture; home leaves I/D at 1, so the digits are read back
/// left to right too.
#[test]
fn the_program_writes_and_reads_to_the_right() {
    let list = [
        // 04h, word 5, ME, its status: down to word 4.
        ((0, 0x04), "-- 1024"),
        ((0, 0x85), "-- 64"),
        ((1, 0x4D), "-- 32"),
        ((1, 0x45), "-- 64"),
        ((2, 0), "04 0"),
        // Clear, 12, 34: up to word 2.
        ((0, 0x01), "-- 1024"),
        ((2, 0), "00 0"),
        ((1, 0x31), "-- 32"),
        ((1, 0x32), "-- 64"),
        ((2, 0), "01 0"),
        ((1, 0x33), "-- 32"),
        ((1, 0x34), "-- 64"),
        ((2, 0), "02 0"),
        // Home, the dummy read, the digits.
        ((0, 0x02), "-- 1024"),
        ((3, 0), "00 0"),
        ((3, 0), "31 0"),
        ((3, 0), "32 64"),
        ((3, 0), "33 0"),
        ((3, 0), "34 64"),
        ((2, 0), "02 0"),
    ];
    let capture: Vec<(u8, u8)> = list.iter().map(|&(record, _)| record).collect();
    let output = program_with(&[], &records(&capture));
    assert!(output.status.success() && output.stderr.is_empty());
    let mut lines = String::new();
    for (n, (_, line)) in list.iter().enumerate() {
        lines += &format!("{n} {line}\n");
    }
    assert_eq!(
        String::from_utf8(output.stdout).unwrap(),
        lines + "end 20\n"
    );
}

#[test]
fn clear_sets_i_d_to_1_and_s_stays() {
    for over in LINKS {
        for (entry_mode, id, s) in ENTRY_MODES {
            let mut bench = fresh(over);
            bench.write(false, entry_mode);
            assert_eq!(direction(&bench.panel), (id, s));
            for _ in 0..2 {
                assert_eq!(bench.write(false, 0x01), 1_024);
                assert_eq!(direction(&bench.panel), (true, s));
            }
        }
    }
}

#[test]
fn home_stays_as_it_was() {
    for over in LINKS {
        for (entry_mode, id, s) in ENTRY_MODES {
            for home in [0x02, 0x03] {
                let mut bench = fresh(over);
                bench.write(false, entry_mode);
                assert_eq!(bench.write(false, home), 1_024);
                assert_eq!(direction(&bench.panel), (id, s));
                bench.write(true, 0x31);
                bench.write(true, 0x32);
                assert_eq!(counter(&mut bench), if id { 1 } else { 63 });
            }
        }
    }
}

/// From any state: I/D 1, and everything else as before the request.
#[test]
fn everything_else_of_clear_is_as_before() {
    let mut dice = Dice::new(131);
    for _ in 0..40 {
        for over in LINKS {
            let mut before = dice.panel(true);
            before.re = false;
            let mut bench = Bench::over(over, before);
            let mut expected = bench.panel.clone();
            expected.text = [0x2020; 64];
            expected.target = Target::Text;
            expected.counter = 0;
            expected.shift = 0;
            expected.next = Half::High;
            expected.dummy_due = true;
            expected.waiting = None;
            expected.standby = false;
            expected.id = true;
            assert_eq!(bench.write(false, 0x01), 1_024);
            expected.link = bench.panel.link;
            assert_eq!(bench.panel, expected);
        }
    }
}

/// Every byte under every I/D, S and RE; and data and status.
#[test]
fn only_entry_mode_and_clear_change_i_d() {
    let mut dice = Dice::new(132);
    for flags in 0..8 {
        let mut before = dice.panel(true);
        before.dl = true;
        before.id = flags & 1 != 0;
        before.s = flags & 2 != 0;
        before.re = flags & 4 != 0;
        for byte in 0..=255 {
            let mut bench = Bench::with(before.clone());
            bench.instruction(byte);
            let expected = direction_after(&before, byte);
            assert_eq!(direction(&bench.panel), expected, "{byte:02X}");
        }
        let mut bench = Bench::with(before.clone());
        bench.data(0x01);
        bench.data(0x01);
        // A dummy read may be among the three.
        for _ in 0..3 {
            bench.read();
        }
        bench.status();
        assert_eq!(direction(&bench.panel), direction(&before));
    }
}

/// 01h with RE = 1 is standby, not clear.
#[test]
fn standby_turns_nothing() {
    for over in LINKS {
        let dl = if over == Over::Bytes { 0x10 } else { 0 };
        for (entry_mode, id, s) in ENTRY_MODES {
            let mut bench = fresh(over);
            bench.write(false, entry_mode);
            bench.write(false, 0x24 + dl);
            for _ in 0..2 {
                assert_eq!(bench.write(false, 0x01), 1_024);
                assert!(bench.panel.standby);
                assert_eq!(direction(&bench.panel), (id, s));
            }
            bench.write(false, 0x20 + dl);
            assert!(!bench.panel.standby);
            assert_eq!(direction(&bench.panel), (id, s));
            // With RE = 0 again it is clear.
            bench.write(false, 0x01);
            assert_eq!(direction(&bench.panel), (true, s));
        }
    }
}

/// The named bytes do not change: all, whatever I/D and S were.
#[test]
fn clear_names_all_bytes() {
    let mut dice = Dice::new(133);
    for flags in 0..4 {
        let mut before = dice.panel(true);
        before.dl = true;
        before.re = false;
        before.id = flags & 1 != 0;
        before.s = flags & 2 != 0;
        let clear = Transfer::InstructionWrite(0x01);
        let mut bench = Bench::with(before.clone());
        assert_eq!(bench.call(clear).count, 1_024);
        assert_eq!(named(&before, clear, &bench.panel), Named::all());
    }
}

/// With S = 1 the display then shifts left when a word completes.
#[test]
fn with_s_1_the_display_shifts_left_after_clear() {
    for over in LINKS {
        let mut bench = fresh(over);
        bench.write(false, 0x0C);
        bench.write(false, 0x05);
        // Before it, with I/D = 0, right.
        bench.write(true, 0x4F);
        assert_eq!(bench.write(true, 0x4E), 1_024);
        assert_eq!((bench.panel.shift, counter(&mut bench)), (15, 63));
        bench.write(false, 0x01);
        assert_eq!((bench.panel.shift, counter(&mut bench)), (0, 0));
        for word in 1..=20 {
            // Each word is written at cell 0 and then moves to the left.
            assert_eq!(bench.write(true, 0x31), 32);
            assert_eq!(bench.panel.shift, (word - 1) % 16);
            assert_eq!(bench.write(true, 0x32), 1_024);
            assert_eq!(bench.panel.shift, word % 16);
            assert_eq!(counter(&mut bench), word);
            // To the left of cell 0 is cell 15; line 0 there, line 1 below.
            let top = if word <= 16 { 0 } else { 16 };
            for y in 0..16 {
                let place = 32 * (top + y) + 30;
                let glyphs = [bench.half[16 * 0x31 + y], bench.half[16 * 0x32 + y]];
                assert_eq!(bench.frame[place..place + 2], glyphs);
            }
        }
    }
    // A word that is read shifts alike.
    for over in [Over::Bytes, Over::HalfBytes] {
        let mut bench = fresh(over);
        bench.write(false, 0x05);
        bench.write(false, 0x01);
        for answer in [(0x00, 0), (0x20, 0), (0x20, 1_024)] {
            assert_eq!((bench.panel.shift, bench.panel.counter), (0, 0));
            assert_eq!(bench.whole_read(Kind::DataRead), answer);
        }
        assert_eq!((bench.panel.shift, counter(&mut bench)), (1, 1));
    }
}

/// Glyph memory steps by the same flag.
#[test]
fn glyph_words_step_up_after_clear() {
    for over in LINKS {
        let mut bench = fresh(over);
        bench.write(false, 0x04);
        bench.write(false, 0x01);
        bench.write(false, 0x45);
        for byte in [0x81, 0x18, 0x42, 0x24] {
            bench.write(true, byte);
        }
        assert_eq!(bench.panel.glyph[4..8], [0, 0x8118, 0x4224, 0]);
        assert_eq!(counter(&mut bench), 7);
    }
}

/// Over half bytes it turns where clear acts.
#[test]
fn half_bytes_turn_at_the_second_half() {
    let mut bench = Bench::half_bytes();
    bench.write(false, 0x04);
    assert_eq!(bench.instruction(0x00), 0);
    assert!(!bench.panel.id);
    assert_eq!(bench.instruction(0x10), 1_024);
    assert!(bench.panel.id);
    // A dropped first half makes no clear: what follows is 10h, cursor left.
    bench.write(false, 0x04);
    assert_eq!(bench.instruction(0x00), 0);
    assert_eq!(bench.whole_read(Kind::StatusRead), (0x00, 0));
    assert_eq!(bench.instruction(0x10), 0);
    assert_eq!(bench.instruction(0x00), 32);
    assert!(!bench.panel.id);
    assert_eq!(bench.whole_read(Kind::StatusRead), (0x3F, 0));
}

/// Over serial bits it turns on the last zero.
#[test]
fn serial_bits_turn_on_the_last_zero() {
    let mut bench = Bench::serial();
    bench.write(false, 0x04);
    assert_eq!(bench.bits("11111 000 0000 0000 0001 000"), 0);
    assert!(!bench.panel.id);
    assert_eq!(bench.bits("0"), 1_024);
    assert!(bench.panel.id);
    // A one in its place loses sync and makes no clear.
    bench.write(false, 0x04);
    assert_eq!(bench.bits("11111 000 0000 0000 0001 0001"), 0);
    assert!(!bench.panel.id);
}

/// A clear that is lost to a busy panel does not turn the direction.
#[test]
fn a_lost_clear_does_not_turn_the_direction() {
    for over in LINKS {
        for (entry_mode, s) in [(0x04, false), (0x05, true)] {
            let mut bench = Bench::timed(over);
            bench.write(false, entry_mode);
            for left in [72, 8] {
                assert_eq!(bench.panel.left, left);
                assert_eq!(bench.write(false, 0x01), 0);
                assert_eq!(direction(&bench.panel), (false, s));
                bench.pass(8);
            }
            for byte in *b"12" {
                bench.write(true, byte);
                bench.pass(9);
            }
            assert_eq!((bench.panel.text[0], counter(&mut bench)), (0x3132, 63));
            assert_eq!(bench.panel.shift, if s { 15 } else { 0 });
            // On the idle panel it does, at once; only what comes too soon
            // after it is lost.
            assert_eq!(bench.write(false, 0x01), 1_024);
            assert_eq!(direction(&bench.panel), (true, s));
            assert_eq!(bench.panel.left, 1_600);
            bench.pass(199);
            assert_eq!(bench.write(true, 0x39), 0);
            bench.pass(1);
            for byte in *b"1234" {
                bench.write(true, byte);
                bench.pass(9);
            }
            assert_eq!(bench.panel.text[..3], [0x3132, 0x3334, 0x2020]);
            assert_eq!(counter(&mut bench), 2);
            assert_eq!(bench.panel.shift, if s { 2 } else { 0 });
        }
    }
}

/// Over half bytes the busy test stands where clear acts.
#[test]
fn half_bytes_with_time() {
    for (eights, count, id) in [(8, 0, false), (9, 1_024, true)] {
        let mut bench = Bench::timed(Over::HalfBytes);
        bench.write(false, 0x04);
        assert_eq!(bench.instruction(0x00), 0);
        bench.pass(eights);
        assert_eq!(bench.instruction(0x10), count);
        assert_eq!(bench.panel.id, id);
    }
}

/// Over any list, I/D and S are those of the entry modes and clears that were
/// carried out.
#[test]
fn the_direction_over_any_writes() {
    let mut dice = Dice::new(134);
    let (mut turned, mut lost) = (0, 0);
    for round in 0..240 {
        let time = round % 2 == 0;
        let start = if time {
            dice.timed(true)
        } else {
            dice.panel(true)
        };
        let mut bench = Bench::over(LINKS[round % 3], start);
        for _ in 0..40 {
            if time && dice.flag() {
                bench.pass([1, 9, 200][dice.below(3) as usize]);
            }
            let register = dice.below(6) == 0;
            let byte = match dice.below(8) {
                0 | 1 => 0x01,
                2 | 3 => 0x04 + dice.below(4) as u8,
                4 => 0x20 + dice.below(32) as u8,
                5 => dice.below(32) as u8,
                _ => dice.byte(),
            };
            let before = bench.panel.clone();
            let mut expected = direction(&before);
            if !register {
                let after = direction_after(&before, byte);
                let turns = byte == 0x01 && after != expected;
                if before.busy() {
                    lost += usize::from(turns);
                } else {
                    turned += usize::from(turns);
                    expected = after;
                }
            }
            bench.write(register, byte);
            assert_eq!(direction(&bench.panel), expected, "{byte:02X}");
        }
    }
    assert!(turned >= 20 && lost >= 20, "{turned} turned, {lost} lost");
}
