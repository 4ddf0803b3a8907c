//! Records of one sort, many in a row, replayed over the boundary, and the parallel ones by plain Rust in place.
use crate::in_place::{Answer, Panel, Transfer};
use crate::screen::{Fonts, Random, BY_160, BY_96, TIMED};
use crate::timing::in_turn;
use proved::{Lent, Made, Memories, Numbering};
use std::hint::black_box;

const RECORDS: usize = 1_000;
const BATCHES: usize = 101;

/// Records of a kind and a value each: those that make the screen, then those that are measured, over and over.
struct Sort {
    name: &'static str,
    parallel: bool,
    before: Vec<[u8; 2]>,
    measured: Vec<[u8; 2]>,
}

impl Sort {
    fn capture(&self) -> Vec<u8> {
        let measured = self.measured.iter().cycle().take(RECORDS);
        let records = self.before.iter().chain(measured);
        records
            .flat_map(|&[kind, value]| [0xA5, 0x5A, kind, value])
            .collect()
    }
}

fn instructions(bytes: &[u8]) -> Vec<[u8; 2]> {
    bytes.iter().map(|&byte| [0, byte]).collect()
}

fn data(bytes: impl Iterator<Item = u8>) -> Vec<[u8; 2]> {
    bytes.map(|byte| [1, byte]).collect()
}

/// A write as the sender makes it: eight bits to a record.
fn sent(register: bool, byte: u8) -> Vec<[u8; 2]> {
    let mut buffer = [0; 3];
    model::send(register, byte, &mut buffer);
    buffer.iter().map(|&bits| [4, bits]).collect()
}

fn sorts() -> Vec<Sort> {
    let letters = || 0x21..0x7F;
    // Every word an image, so that each row of an image shows in several cells.
    let images = (0..64).flat_map(|word| [0, word % 16]);
    vec![
        Sort {
            name: "text write",
            parallel: true,
            before: instructions(&[0x0F, 0x80]),
            measured: data(letters()),
        },
        Sort {
            name: "glyph write",
            parallel: true,
            before: [
                instructions(&[0x0F, 0x80]),
                data(images),
                instructions(&[0x40]),
            ]
            .concat(),
            measured: data(letters()),
        },
        Sort {
            name: "graphic write",
            parallel: true,
            before: instructions(&[0x0F, 0x34, 0x36, 0x83, 0x80]),
            measured: data(letters()),
        },
        Sort {
            name: "data read of text",
            parallel: true,
            before: instructions(&[0x0F, 0x80]),
            measured: vec![[3, 0]],
        },
        Sort {
            name: "instruction that names all 1,024",
            parallel: true,
            before: instructions(&[0x80]),
            measured: instructions(&[0x0C, 0x0D, 0x0E, 0x0F]),
        },
        Sort {
            name: "eight serial bits, a text write in three",
            parallel: false,
            before: [sent(false, 0x0F), sent(false, 0x80)].concat(),
            measured: letters().flat_map(|byte| sent(true, byte)).collect(),
        },
        Sort {
            name: "eight serial bits that complete nothing",
            parallel: false,
            before: sent(false, 0x0F),
            measured: vec![[4, 0xA5], [4, 0x5A], [4, 0x71]],
        },
    ]
}

/// The capture's parallel records in place; answers how many were accepted, and the last one's answer.
fn in_place(
    panel: &mut Panel,
    capture: &[u8],
    frame: &mut [u8],
    lent: Lent,
) -> (u64, Option<Answer>) {
    let mut accepted = 0;
    let mut last = None;
    for record in capture.as_chunks::<4>().0 {
        let given = match *record {
            [0xA5, 0x5A, 7, value] if panel.screen.control[TIMED] == 1 => {
                panel.pass(value);
                accepted += 1;
                last = Some(Answer {
                    number: 0,
                    reply: 0,
                    count: 0,
                });
                continue;
            }
            [0xA5, 0x5A, 0, value] => Transfer::Instruct(value),
            [0xA5, 0x5A, 1, value] => Transfer::Write(value),
            [0xA5, 0x5A, 2, 0] => Transfer::Status,
            [0xA5, 0x5A, 3, 0] => Transfer::Read,
            _ => break,
        };
        let answer = panel.transfer(given, frame, lent.half, lent.full, lent.phase);
        if answer.number != 0 {
            break;
        }
        accepted += 1;
        last = Some(answer);
    }
    (accepted, last)
}

/// Holds plain Rust in place to the proved code, so that what is timed does the same: random transfers, half bytes among them, without
/// time and with it, by either numbering, with the whole full font and with none, so that every full glyph is missing.
pub fn agree(fonts: &Fonts) {
    let none = fonts.cut(0);
    let mut random = Random(0x5EED_0009);
    for turn in 0..400 {
        let time = turn >= 200;
        let (packed, numbering) = match turn / 2 % 2 {
            0 => (BY_96, Numbering::By96),
            _ => (BY_160, Numbering::By160),
        };
        let mut capture = Vec::new();
        for _ in 0..200 {
            let kind = [0, 0, 1, 1, 1, 2, 3, 3][random.byte() as usize % 8];
            let value = if kind < 2 { random.byte() } else { 0 };
            if time && random.byte() % 4 > 0 {
                capture.extend([0xA5, 0x5A, 7, [8, 9, 9, random.byte()][kind as usize % 4]]);
            }
            capture.extend([0xA5, 0x5A, kind, value]);
        }
        let lent = if turn / 4 % 2 == 0 { fonts } else { &none }.lent(turn % 2 == 1);
        let mut frames = [[0u8; 1024]; 2];
        let mut panel = Panel::fresh(time, packed);
        let (accepted, last) = in_place(&mut panel, &capture, &mut frames[0], lent);
        let made = Made {
            parallel: true,
            time,
            numbering,
        };
        let Ok(ended) = proved::replay(made, &capture, &mut frames[1], lent) else {
            panic!("refused");
        };
        let memories = Memories::of(&ended.state);
        assert!(
            accepted == ended.place
                && last.is_some_and(|a| a.reply == ended.reply && a.count == ended.count as usize)
                && frames[0] == frames[1]
                && panel.screen.text == *memories.text
                && panel.screen.glyph == *memories.glyph
                && panel.screen.graphic == *memories.graphic
                && panel.screen.control == *memories.control,
            "plain Rust in place differs from the proved code on random capture {turn}"
        );
    }
}

pub fn measure(fonts: &Fonts) {
    println!("\nNanoseconds for a record replayed over the boundary: captures of {RECORDS} such records, the middle of {BATCHES} replays, and from the 10th to the 90th in a hundred.\n");
    println!("| record | plain Rust in place | proved, by value |");
    println!("|---|---|---|");
    for sort in sorts() {
        let capture = sort.capture();
        let records = capture.len() as f64 / 4.0;
        let lent = fonts.lent(false);
        let made = Made {
            parallel: sort.parallel,
            time: false,
            numbering: Numbering::By96,
        };
        let mut frames = [[0u8; 1024]; 2];
        let [theirs, ours] = &mut frames;
        let [plain, proved] = in_turn(
            BATCHES,
            [
                (1, &mut || {
                    let mut panel = Panel::fresh(false, BY_96);
                    black_box(in_place(&mut panel, black_box(&capture), theirs, lent));
                }),
                (1, &mut || {
                    let _ = black_box(proved::replay(made, black_box(&capture), ours, lent));
                }),
            ],
        );
        assert!(
            !sort.parallel || frames[0] == frames[1],
            "the frames after {} differ",
            sort.name
        );
        println!(
            "| {} | {} | {} |",
            sort.name,
            match sort.parallel {
                true => plain.part(records).spread(),
                false => "".to_string(),
            },
            proved.part(records).spread(),
        );
    }
}
