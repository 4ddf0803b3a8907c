//! Readings 31 to 36: refusal order, captures, replay and its lines.

use std::io::Write;
use std::process::{Command, Output, Stdio};

use crate::bench::{Bench, Dice, NUMBERINGS};
use model::{printed, replay, Answer, Half, Outcome, Panel, Reader, Record, Replayed, Transfer};

pub fn records(list: &[(u8, u8)]) -> Vec<u8> {
    list.iter()
        .flat_map(|&(kind, value)| [0xA5, 0x5A, kind, value])
        .collect()
}

fn run(panel: &mut Panel, capture: &[u8], frame: &mut [u8]) -> Replayed {
    replay(panel, capture, frame, &[0; 2_048], &[], false)
}

fn lines(capture: &[u8]) -> String {
    printed(&run(&mut Panel::fresh(true), capture, &mut [0; 1_024]))
}

#[test]
fn reading_33_end_and_bytes_left() {
    assert_eq!(lines(&[]), "end 0\n");
    let mut capture = records(&[(0, 0x80)]);
    assert_eq!(lines(&capture), "0 -- 32\nend 1\n");
    for left in [0xA5, 0x5A, 0x00] {
        capture.push(left);
        assert_eq!(lines(&capture), "0 -- 32\nstop 1 6\n");
    }
}

#[test]
fn readings_33_and_34_stops() {
    let good = (2, 0);
    for (record, code) in [
        ((7, 0), 8),
        ((255, 0), 8),
        ((7, 9), 8),
        ((2, 1), 9),
        ((3, 1), 9),
        ((5, 1), 9),
        ((6, 4), 9),
        ((6, 255), 9),
        // Of the other link, but the value is tested first.
        ((5, 0), 5),
        ((4, 0xFA), 5),
    ] {
        let capture = records(&[good, record, good]);
        assert_eq!(lines(&capture), format!("0 00 0\nstop 1 {code}\n"));
    }
    let mut capture = records(&[good, good]);
    capture[5] = 0x5B;
    capture[6] = 9;
    assert_eq!(lines(&capture), "0 00 0\nstop 1 7\n");
    // On a serial panel the parallel kinds are refused with 5.
    for kind in 0..4 {
        let capture = records(&[(6, 0), (4, 0xFA), (5, 0), (kind, 0)]);
        assert_eq!(lines(&capture), "0 -- 1024\n1 -- 0\n2 -- 0\nstop 3 5\n");
    }
}

#[test]
fn reading_34_eight_bits_are_all_heard_or_none() {
    let mut panel = Panel::fresh(true);
    let mut frame = [0x77; 1_024];
    let replayed = run(&mut panel, &records(&[(4, 0xFF)]), &mut frame);
    assert_eq!((replayed.place, replayed.number), (0, 5));
    assert_eq!(panel, Panel::fresh(true));
    assert_eq!(frame, [0x77; 1_024]);
    let capture = records(&[(4, 0xFA), (4, 0x20), (4, 0xD0), (4, 0x30), (4, 0x70)]);
    let mut panel = Panel::fresh(false);
    let replayed = run(&mut panel, &capture, &mut [0; 1_024]);
    assert_eq!(panel.text[0], 0x2D37);
    let counts: Vec<usize> = replayed.answers.iter().map(|a| a.count).collect();
    assert_eq!(counts, [0, 0, 32, 0, 64]);
}

#[test]
fn reading_35_printed_lines() {
    let answer = |kind, reply, count| Answer { kind, reply, count };
    let mut replayed = Replayed {
        answers: vec![
            answer(0, 0, 32),
            answer(2, 0x0A, 0),
            answer(3, 0xFF, 1_024),
            answer(4, 0, 5),
            answer(5, 0, 0),
            answer(6, 0, 1_024),
            answer(1, 0, 64),
            answer(3, 0x00, 0),
            answer(3, 0x3C, 0),
            answer(3, 0xB0, 0),
            answer(2, 0x3F, 0),
        ],
        place: 11,
        number: 0,
    };
    let body = "0 -- 32\n1 0A 0\n2 FF 1024\n3 -- 5\n4 -- 0\n5 -- 1024\n6 -- 64\n\
                7 00 0\n8 3C 0\n9 B0 0\n10 3F 0\n";
    assert_eq!(printed(&replayed), format!("{body}end 11\n"));
    replayed.number = 9;
    assert_eq!(printed(&replayed), format!("{body}stop 11 9\n"));
}

/// The program with these arguments and a capture on its standard input.
pub fn program_with(arguments: &[&str], capture: &[u8]) -> Output {
    let mut child = Command::new(env!("CARGO_BIN_EXE_model"))
        .args(arguments)
        .stdin(Stdio::piped())
        .stdout(Stdio::piped())
        .stderr(Stdio::piped())
        .spawn()
        .unwrap();
    // A program that refuses its arguments may be gone before it is written to.
    let _ = child.stdin.take().unwrap().write_all(capture);
    child.wait_with_output().unwrap()
}

/// What the program prints for a capture.
fn program(capture: &[u8]) -> String {
    let output = program_with(&[], capture);
    assert!(output.status.success() && output.stderr.is_empty());
    String::from_utf8(output.stdout).unwrap()
}

#[test]
fn the_program_prints_the_lines() {
    let capture = records(&[(0, 0x80), (1, 0x2D), (2, 0)]);
    assert_eq!(program(&capture), "0 -- 32\n1 -- 32\n2 00 0\nend 3\n");
    assert_eq!(program(&[]), "end 0\n");
    let capture = records(&[(6, 0), (4, 0xF8), (4, 0x00), (4, 0xF0), (6, 1), (5, 0)]);
    let expected = "0 -- 1024\n1 -- 0\n2 -- 0\n3 -- 1024\n4 -- 1024\nstop 5 5\n";
    assert_eq!(program(&capture), expected);
}

#[test]
fn a_stop_keeps_what_stood_before() {
    // The hyphen and the seven, then a wrong record: both halves stand.
    let mut capture = records(&[(0, 0x0C), (0, 0x80), (1, 0x2D), (1, 0x37), (3, 0), (3, 0)]);
    capture.extend([0xA5, 0x5A, 9, 0]);
    let mut panel = Panel::fresh(true);
    let mut frame = [0; 1_024];
    let mut font = [0; 2_048];
    font[0x2D * 16 + 8] = 0x7E;
    font[0x37 * 16 + 8] = 0x42;
    let replayed = replay(&mut panel, &capture, &mut frame, &font, &[], false);
    assert_eq!((replayed.place, replayed.number), (6, 8));
    assert_eq!(panel.text[0], 0x2D37);
    assert_eq!(panel.next, Half::Low);
    assert_eq!(
        replayed.answers[4],
        Answer {
            kind: 3,
            reply: 0,
            count: 0
        }
    );
    assert_eq!(replayed.answers[5].reply, 0x20);
    let mut expected = [0; 1_024];
    expected[32 * 8] = 0x7E;
    expected[32 * 8 + 1] = 0x42;
    assert_eq!(frame, expected);
}

#[test]
fn the_reader_leaves_the_rest() {
    let capture = records(&[(0, 0x80), (6, 1), (4, 0xFF)]);
    let mut reader = Reader::new(&capture);
    assert_eq!(reader.rest(), &capture[..]);
    for (at, kind, value) in [(4, 0, 0x80), (8, 6, 1), (12, 4, 0xFF)] {
        assert_eq!(reader.read(), Ok(Record { kind, value }));
        assert_eq!(reader.rest(), &capture[at..]);
    }
    assert_eq!(reader.read(), Err(0));
    assert_eq!(reader.read(), Err(0));
}

#[test]
fn reading_36_no_trace_of_what_is_over() {
    // Two ways to the same answers are one state: through a dropped row, a
    // dropped half byte, and lost sync.
    let mut bench = Bench::parallel();
    for byte in [0x34, 0xBF, 0x30] {
        bench.instruction(byte);
    }
    assert_eq!(bench.panel.bytes(), Panel::fresh(true).bytes());
    let mut bench = Bench::half_bytes();
    let idle = bench.panel.bytes();
    bench.instruction(0xF0);
    bench.status();
    bench.status();
    assert_eq!(bench.panel.bytes(), idle);
    let mut bench = Bench::serial();
    bench.bits("11111 010 1010 0000 1101 001 0");
    assert_eq!(bench.panel.bytes(), Panel::fresh(false).bytes());
}

/// Replay is the calls one after another, with time and without.
#[test]
fn replay_equals_the_calls() {
    let mut dice = Dice::new(71);
    for round in 0..400 {
        let time = round % 4 != 0;
        let length = dice.below(30);
        let list: Vec<(u8, u8)> = (0..length)
            .map(|_| match dice.below(30) {
                0 => (6, dice.below(4) as u8),
                1 => (dice.byte(), dice.byte()),
                2..=11 => (0, dice.byte()),
                12..=21 => (1, dice.text_byte()),
                22..=24 => (2, 0),
                25..=26 if time => (7, dice.byte()),
                27 => (7, dice.byte()),
                _ => (3, 0),
            })
            .collect();
        let numbering = NUMBERINGS[round / 4 % 2];
        let mut bench = Bench::with(Panel::made(true, time, numbering));
        let mut panel = Panel::made(true, time, numbering);
        let mut frame = bench.picture();
        let (half, full) = (bench.half.clone(), bench.full.clone());
        let replayed = replay(&mut panel, &records(&list), &mut frame, &half, &full, true);
        for (answer, &(kind, value)) in replayed.answers.iter().zip(&list) {
            let outcome = match kind {
                0 => bench.call(Transfer::InstructionWrite(value)),
                1 => bench.call(Transfer::DataWrite(value)),
                2 => bench.call(Transfer::StatusRead),
                3 => bench.call(Transfer::DataRead),
                4 => panic!("on a serial panel only"),
                5 => bench.select_low(),
                6 => bench.reset(value % 2 == 1, NUMBERINGS[usize::from(value / 2)]),
                _ => {
                    bench.pass(value);
                    Outcome {
                        number: 0,
                        reply: 0,
                        count: 0,
                    }
                }
            };
            assert_eq!(answer.kind, kind);
            assert_eq!((answer.reply, answer.count), (outcome.reply, outcome.count));
        }
        assert_eq!(bench.panel, panel);
        assert_eq!(bench.frame, frame);
        if replayed.number == 0 {
            assert_eq!(replayed.place, list.len());
        }
        assert_eq!(panel.time, time);
    }
}
