//! Refusal numbers: when, only then, in order, with nothing changed.

use crate::bench::{Dice, NUMBERINGS};
use model::{printed, replay, send, Link, Numbering, Outcome, Panel, Reader, Record, Transfer};

/// A panel of each link, without time and busy, under each numbering.
fn panels(dice: &mut Dice) -> Vec<Panel> {
    let mut panels = Vec::new();
    for numbering in NUMBERINGS {
        for mut panel in [
            dice.panel(true),
            dice.panel(false),
            dice.busy(true),
            dice.busy(false),
        ] {
            panel.numbering = numbering;
            panels.push(panel);
        }
    }
    panels
}

/// The interface pin and the numbering, as a reset takes them.
fn resets() -> impl Iterator<Item = (bool, Numbering)> {
    [true, false]
        .into_iter()
        .flat_map(|pin| NUMBERINGS.map(|numbering| (pin, numbering)))
}

fn is_parallel(panel: &Panel) -> bool {
    matches!(panel.link, Link::Parallel(_))
}

/// Every call that takes frame and fonts, on both links, but reset.
fn all_calls(panel: &mut Panel, frame: &mut [u8], half: &[u8], full: &[u8]) -> Vec<(u8, Outcome)> {
    let mut out = Vec::new();
    let number = panel.draw(frame, half, full, true);
    let drawn = Outcome {
        number,
        reply: 0,
        count: 0,
    };
    out.push((0, drawn));
    let parallel = [
        Transfer::InstructionWrite(0x80),
        Transfer::InstructionWrite(0x00),
        Transfer::DataWrite(0x41),
        Transfer::StatusRead,
        Transfer::DataRead,
    ];
    for transfer in parallel {
        out.push((1, panel.transfer(transfer, frame, half, full, true)));
    }
    out.push((2, panel.bit(true, frame, half, full, true)));
    out.push((2, panel.select_low(frame, half, full, true)));
    out.push((3, panel.pass(9, frame, half, full, true)));
    out
}

fn assert_refused(frame: usize, half: usize, full: usize, number: u8) {
    let (half, full) = (vec![1; half], vec![2; full]);
    let mut dice = Dice::new(3);
    for before in panels(&mut dice) {
        let mut panel = before.clone();
        let mut lent = vec![0x77; frame];
        for (_, outcome) in all_calls(&mut panel, &mut lent, &half, &full) {
            assert_eq!(
                (outcome.number, outcome.reply, outcome.count),
                (number, 0, 0)
            );
        }
        for (pin, numbering) in resets() {
            let outcome = panel.reset(pin, numbering, &mut lent, &half, &full, true);
            assert_eq!(
                (outcome.number, outcome.reply, outcome.count),
                (number, 0, 0)
            );
        }
        // A replay refuses as a call, also with an empty capture.
        let resets = [vec![0xA5, 0x5A, 6, 1], vec![0xA5, 0x5A, 6, 3]];
        let others = [vec![], vec![0xA5], vec![1; 8]];
        for capture in resets.iter().chain(&others) {
            let replayed = replay(&mut panel, capture, &mut lent, &half, &full, true);
            assert_eq!((replayed.place, replayed.number), (0, number));
            assert!(replayed.answers.is_empty());
            assert_eq!(printed(&replayed), format!("stop 0 {number}\n"));
        }
        assert_eq!(panel, before);
        assert_eq!(lent, vec![0x77; frame]);
    }
}

fn assert_accepted(full: usize) {
    let full = vec![2; full];
    let mut dice = Dice::new(4);
    for before in panels(&mut dice) {
        for (pin, numbering) in resets() {
            let mut panel = before.clone();
            let mut frame = vec![0x77; 1_024];
            for (link, outcome) in all_calls(&mut panel, &mut frame, &[1; 2_048], &full) {
                let expected = match link {
                    1 if !is_parallel(&before) => 5,
                    2 if is_parallel(&before) => 5,
                    3 if !before.time => 8,
                    _ => 0,
                };
                assert_eq!(outcome.number, expected);
            }
            let outcome = panel.reset(pin, numbering, &mut frame, &[1; 2_048], &full, true);
            assert_eq!(
                (outcome.number, outcome.reply, outcome.count),
                (0, 0, 1_024)
            );
            assert_eq!(panel, Panel::made(pin, before.time, numbering));
            assert_eq!(frame, vec![0; 1_024]);
        }
    }
}

#[test]
fn number_1_frame() {
    for length in [0, 1, 1_023, 1_025, 2_048] {
        assert_refused(length, 2_048, 0, 1);
    }
}

#[test]
fn number_2_half_font() {
    for length in [0, 2_047, 2_049, 4_096] {
        assert_refused(1_024, length, 32, 2);
    }
}

#[test]
fn number_3_full_font() {
    for length in [1, 31, 33, 267_263, 267_265, 281_599, 281_601, 281_632] {
        assert_refused(1_024, 2_048, length, 3);
    }
    for length in [0, 32, 64, 267_264, 267_296, 281_600] {
        assert_accepted(length);
    }
}

#[test]
fn numbers_in_order() {
    assert_refused(1_023, 2_047, 31, 1);
    assert_refused(1_023, 2_048, 31, 1);
    assert_refused(1_024, 2_047, 31, 2);
    assert_refused(1_024, 2_048, 31, 3);
}

#[test]
fn number_4_send_buffer() {
    for length in 0..3 {
        let mut buffer = vec![0x77; length];
        assert_eq!(send(true, 0x2D, &mut buffer), 4);
        assert_eq!(buffer, vec![0x77; length]);
    }
    for length in 3..8 {
        for byte in 0..=255 {
            for (register, first) in [(false, 0xF8), (true, 0xFA)] {
                let mut buffer = vec![0x77; length];
                assert_eq!(send(register, byte, &mut buffer), 0);
                assert_eq!(buffer[..3], [first, byte / 16 * 16, byte % 16 * 16]);
                assert!(buffer[3..].iter().all(|&rest| rest == 0x77));
            }
        }
    }
}

#[test]
fn number_5_other_link() {
    let mut dice = Dice::new(5);
    for _ in 0..200 {
        for before in panels(&mut dice) {
            let mut panel = before.clone();
            let mut frame = vec![0x77; 1_024];
            let mut refused = |transfer: Option<Transfer>, bit: Option<bool>| {
                let (half, full) = ([1; 2_048], [2; 64]);
                let outcome = match (transfer, bit) {
                    (Some(transfer), _) => panel.transfer(transfer, &mut frame, &half, &full, true),
                    (None, Some(bit)) => panel.bit(bit, &mut frame, &half, &full, true),
                    (None, None) => panel.select_low(&mut frame, &half, &full, true),
                };
                assert_eq!((outcome.number, outcome.reply, outcome.count), (5, 0, 0));
            };
            if is_parallel(&before) {
                refused(None, Some(dice.flag()));
                refused(None, None);
            } else {
                refused(Some(Transfer::InstructionWrite(dice.byte())), None);
                refused(Some(Transfer::DataWrite(dice.byte())), None);
                refused(Some(Transfer::StatusRead), None);
                refused(Some(Transfer::DataRead), None);
            }
            assert_eq!(panel, before);
            assert_eq!(frame, vec![0x77; 1_024]);
        }
    }
}

#[test]
fn number_6_bytes_remain() {
    for length in 1..4 {
        for bytes in [[0xA5, 0x5A, 0x00], [0, 0, 0], [0xA5, 0x5A, 0xFF]] {
            assert_eq!(Reader::new(&bytes[..length]).read(), Err(6));
        }
    }
    assert_eq!(Reader::new(&[]).read(), Err(0));
}

#[test]
fn number_7_mark_wrong() {
    for first in 0..=255 {
        for second in [0x5A, 0xA5, 0x00, 0x5B] {
            let bytes = [first, second, 9, 9];
            let right = first == 0xA5 && second == 0x5A;
            let expected = if right { 8 } else { 7 };
            assert_eq!(Reader::new(&bytes).read(), Err(expected));
        }
    }
}

#[test]
fn numbers_8_and_9_kind_and_value() {
    for kind in 0..=255 {
        for value in 0..=255 {
            let bytes = [0xA5, 0x5A, kind, value, 0x77];
            for time in [false, true] {
                let mut reader = Reader::made(&bytes, time);
                let expected = match (kind, value) {
                    (7, _) if !time => Err(8),
                    (8..=255, _) => Err(8),
                    (2 | 3 | 5, 1..=255) | (6, 4..=255) => Err(9),
                    _ => Ok(Record { kind, value }),
                };
                assert_eq!(reader.read(), expected);
                // A record is passed over, a refused one is not.
                let rest = if expected.is_ok() { 4 } else { 0 };
                assert_eq!(reader.rest(), &bytes[rest..]);
            }
            // A new reader is one for a panel without time.
            let (mut new, mut made) = (Reader::new(&bytes), Reader::made(&bytes, false));
            assert_eq!(new, made);
            assert_eq!(new.read(), made.read());
        }
    }
}
