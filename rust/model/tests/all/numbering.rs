//! Traditional and mixed fonts: request K3 and readings 47 to 49, sentence by
//! sentence.

use crate::bench::{Bench, Dice, Over, LINKS, NUMBERINGS};
use crate::calls::{program_with, records};
use crate::second_picture::{second_number, second_picture, BOX};
use model::{
    full_glyph_number, named, printed, replay, send, Kind, Link, Numbering, Panel, Target,
    Transfer, FULL_FONT_LIMIT,
};

/// The four values of a capture's reset with their pin and numbering.
const RESETS: [(u8, bool, Numbering); 4] = [
    (0, false, Numbering::Old),
    (1, true, Numbering::Old),
    (2, false, Numbering::New),
    (3, true, Numbering::New),
];

/// One glyph short, exact and one more at both ends.
const ALLOWED: [usize; 5] = [267_232, 267_264, 267_296, 281_568, 281_600];

pub const BLANK: [u16; 16] = [0; 16];

fn number(numbering: Numbering, word: u16) -> Option<usize> {
    let [lead, trail] = word.to_be_bytes();
    full_glyph_number(numbering, lead, trail)
}

/// A font as long as allowed: all rows of glyph i are i + 1, so none is blank.
pub fn marked_font() -> Vec<u8> {
    (1..=8_800u16)
        .flat_map(|mark| mark.to_be_bytes().repeat(16))
        .collect()
}

/// What glyph i of the marked font looks like.
pub fn marked(i: usize) -> [u16; 16] {
    [i as u16 + 1; 16]
}

/// A panel that shows these words, 32 at most, and nothing else.
pub fn showing(numbering: Numbering, words: &[u16]) -> Panel {
    let mut panel = Panel::made(true, false, numbering);
    panel.display = true;
    panel.target = Target::Glyph;
    panel.glyph = std::array::from_fn(|at| 0xF0F0 + at as u16);
    panel.text[..words.len()].copy_from_slice(words);
    panel
}

/// The 16 rows of a cell on one of the two lines in sight.
pub fn cell_of(frame: &[u8], at: usize) -> [u16; 16] {
    let top = 512 * (at / 16) + 2 * (at % 16);
    std::array::from_fn(|y| {
        let place = top + 32 * y;
        u16::from_be_bytes([frame[place], frame[place + 1]])
    })
}

/// The cell of each word, drawn with these fonts.
pub fn cells(numbering: Numbering, words: &[u16], half: &[u8], full: &[u8]) -> Vec<[u16; 16]> {
    let mut cells = Vec::new();
    for some in words.chunks(32) {
        let mut frame = [0x55; 1_024];
        let panel = showing(numbering, some);
        assert_eq!(panel.draw(&mut frame, half, full, true), 0);
        cells.extend((0..some.len()).map(|at| cell_of(&frame, at)));
    }
    cells
}

/// The corners that have a number; all others have none.
#[test]
fn both_sides_of_each_range() {
    let numbers = [
        (Numbering::Old, 0xA1A0, 0),
        (Numbering::Old, 0xA1FF, 95),
        (Numbering::Old, 0xD7A0, 5_184),
        (Numbering::Old, 0xD7FF, 5_279),
        (Numbering::Old, 0xD8A0, 5_280),
        (Numbering::Old, 0xD8FF, 5_375),
        (Numbering::Old, 0xF7A0, 8_256),
        (Numbering::Old, 0xF7FF, 8_351),
        (Numbering::New, 0xA140, 0),
        (Numbering::New, 0xA17F, 63),
        (Numbering::New, 0xA1A0, 64),
        (Numbering::New, 0xA1FF, 159),
        (Numbering::New, 0xD740, 8_640),
        (Numbering::New, 0xD77F, 8_703),
        (Numbering::New, 0xD7A0, 8_704),
        (Numbering::New, 0xD7FF, 8_799),
    ];
    let font = marked_font();
    for numbering in NUMBERINGS {
        for lead in [0xA0, 0xA1, 0xD7, 0xD8, 0xF7, 0xF8, 0xFF] {
            for trail in [0x00, 0x3F, 0x40, 0x7F, 0x80, 0x9F, 0xA0, 0xFF] {
                let word = u16::from_be_bytes([lead, trail]);
                let expected = numbers
                    .iter()
                    .find(|&&(of, code, _)| (of, code) == (numbering, word))
                    .map(|&(_, _, i)| i);
                assert_eq!(number(numbering, word), expected, "{word:04X}");
                // With an empty half font A0h is blank too.
                let cell = cells(numbering, &[word], &[0; 2_048], &font)[0];
                assert_eq!(cell, expected.map_or(BLANK, marked), "{word:04X}");
            }
        }
    }
}

/// (lead - A1h) 160 + trail - 40h, or + 64 + trail - A0h, worked by hand.
#[test]
fn worked_examples() {
    for (word, old, new) in [
        (0xA17E, None, Some(62)),
        (0xA1FE, Some(94), Some(158)),
        (0xA240, None, Some(160)),
        (0xA2A0, Some(96), Some(224)),
        (0xA440, None, Some(480)),
        (0xA4A1, Some(289), Some(545)),
        (0xB05C, None, Some(2_428)),
        (0xB0A1, Some(1_441), Some(2_465)),
        (0xC9FE, Some(3_934), Some(6_558)),
        (0xD6FF, Some(5_183), Some(8_639)),
        (0xE0C3, Some(6_083), None),
        (0xB090, None, None),
        (0x4142, None, None),
    ] {
        assert_eq!(number(Numbering::Old, word), old, "{word:04X}");
        assert_eq!(number(Numbering::New, word), new, "{word:04X}");
    }
}

/// Over all words: no two codes share a number, and every number is one's.
#[test]
fn each_number_is_one_codes() {
    for (numbering, numbers) in [(Numbering::Old, 8_352), (Numbering::New, 8_800)] {
        let mut codes = vec![Vec::new(); numbers];
        for word in 0..=0xFFFF {
            if let Some(i) = number(numbering, word) {
                codes[i].push(word);
            }
        }
        for (i, codes) in codes.iter().enumerate() {
            assert_eq!(codes.len(), 1, "{i}: {codes:04X?}");
        }
    }
}

/// In the order of the words; and as they are numbered a second time.
#[test]
fn codes_in_order_have_numbers_in_order() {
    for (numbering, numbers) in [(Numbering::Old, 8_352), (Numbering::New, 8_800)] {
        let found = (0..=0xFFFF).filter_map(|word| number(numbering, word));
        assert!(found.eq(0..numbers));
        for word in 0..=0xFFFF {
            assert_eq!(number(numbering, word), second_number(numbering, word));
        }
    }
}

/// A high byte of A1h or more: the glyph of its number, or blank in both
/// halves, never half glyphs.
#[test]
fn reading_48_codes_without_a_number_are_blank() {
    let words: Vec<u16> = (0xA100..=0xFFFF).collect();
    let font = marked_font();
    for (numbering, blank) in [(Numbering::Old, 15_968), (Numbering::New, 15_520)] {
        let cells = cells(numbering, &words, &[0xFF; 2_048], &font);
        for (&word, &cell) in words.iter().zip(&cells) {
            let expected = second_number(numbering, word).map_or(BLANK, marked);
            assert_eq!(cell, expected, "{word:04X}");
        }
        assert_eq!(cells.iter().filter(|&&c| c == BLANK).count(), blank);
    }
}

#[test]
fn reading_48_images_and_half_glyphs_are_the_same() {
    let words: Vec<u16> = (0x0000..=0xA0FF).collect();
    let half = Dice::new(141).bytes(2_048);
    let font = marked_font();
    let old = cells(Numbering::Old, &words, &half, &font);
    let new = cells(Numbering::New, &words, &half, &font);
    for (at, &word) in words.iter().enumerate() {
        let [high, low] = word.to_be_bytes();
        let expected: [u16; 16] = std::array::from_fn(|y| {
            let one = |code: u8| match code {
                0x02..=0x7F => half[16 * usize::from(code) + y],
                _ => 0,
            };
            match word {
                0x0000..=0x000F => 0xF0F0 + 16 * (word / 2 % 4) + y as u16,
                _ => u16::from_be_bytes([one(high), one(low)]),
            }
        });
        assert_eq!((old[at], new[at]), (expected, expected), "{word:04X}");
    }
}

/// Fonts cut off anywhere: a glyph is shown if all of it is there, else a box.
#[test]
fn fonts_cut_around_both_ends() {
    let font = marked_font();
    assert_eq!(font.len(), 281_600);
    let words: Vec<u16> = [0xA1u8, 0xA2, 0xD6, 0xD7, 0xD8, 0xF6, 0xF7, 0xF8]
        .into_iter()
        .flat_map(|lead| (0..=0xFF).map(move |trail| u16::from_be_bytes([lead, trail])))
        .collect();
    let short = [0, 1, 63, 64, 65, 95, 96, 97, 159, 160, 161].map(|glyphs| 32 * glyphs);
    for length in short.into_iter().chain(ALLOWED) {
        for numbering in NUMBERINGS {
            let cells = cells(numbering, &words, &[0xFF; 2_048], &font[..length]);
            for (&word, cell) in words.iter().zip(cells) {
                let expected = match second_number(numbering, word) {
                    Some(i) if i < length / 32 => marked(i),
                    Some(_) => BOX,
                    None => BLANK,
                };
                assert_eq!(cell, expected, "{word:04X} in {length}");
            }
        }
    }
}

/// The last two codes of each numbering, by hand.
#[test]
fn the_last_glyph_of_a_font() {
    let font = marked_font();
    for (numbering, last, length, shown) in [
        (Numbering::Old, 0xF7FF, 267_232, [marked(8_350), BOX]),
        (Numbering::Old, 0xF7FF, 267_264, [8_350, 8_351].map(marked)),
        (Numbering::Old, 0xF7FF, 267_296, [8_350, 8_351].map(marked)),
        (Numbering::Old, 0xF7FF, 281_600, [8_350, 8_351].map(marked)),
        (Numbering::New, 0xD7FF, 267_264, [BOX, BOX]),
        (Numbering::New, 0xD7FF, 281_536, [BOX, BOX]),
        (Numbering::New, 0xD7FF, 281_568, [marked(8_798), BOX]),
        (Numbering::New, 0xD7FF, 281_600, [8_798, 8_799].map(marked)),
    ] {
        let words = [last - 1, last];
        let cells = cells(numbering, &words, &[0xFF; 2_048], &font[..length]);
        assert_eq!(cells, shown, "{length}");
    }
}

/// Under the old numbering the end of a longer font is never asked for.
#[test]
fn reading_49_the_end_of_a_longer_font() {
    let words: Vec<u16> = (0xA100..=0xFFFF).collect();
    let mut font = marked_font();
    let exact = cells(Numbering::Old, &words, &[0; 2_048], &font[..267_264]);
    font[267_264..].fill(0xFF);
    for length in [267_296, 281_600] {
        let longer = cells(Numbering::Old, &words, &[0; 2_048], &font[..length]);
        assert!(longer == exact, "{length}");
    }
}

/// Number 3: not a multiple of 32, or over 281,600, under either numbering.
#[test]
fn reading_49_number_3_under_either_numbering() {
    assert_eq!(FULL_FONT_LIMIT, 281_600);
    let refused = [
        1, 31, 33, 267_263, 267_265, 267_280, 281_584, 281_599, 281_601, 281_616, 281_632, 320_000,
    ];
    let lengths = ALLOWED.map(|length| (length, 0));
    let half = [1; 2_048];
    let mut dice = Dice::new(142);
    for (length, number) in lengths.into_iter().chain(refused.map(|length| (length, 3))) {
        let full = vec![2; length];
        for (_, parallel, numbering) in RESETS {
            let mut before = dice.panel(parallel);
            before.numbering = numbering;
            let mut frame = [0x77; 1_024];
            assert_eq!(before.draw(&mut frame, &half, &full, true), number);
            for (value, pin, to) in RESETS {
                let (mut called, mut replayed) = (before.clone(), before.clone());
                let outcome = called.reset(pin, to, &mut frame, &half, &full, true);
                assert_eq!(outcome.number, number, "{length}");
                let capture = records(&[(6, value)]);
                let lines = replay(&mut replayed, &capture, &mut frame, &half, &full, true);
                assert_eq!(lines.number, number, "{length}");
                let expected = match number {
                    0 => Panel::made(pin, false, to),
                    _ => before.clone(),
                };
                assert_eq!((&called, &replayed), (&expected, &expected));
            }
            if number != 0 {
                assert_eq!(frame, [0x77; 1_024]);
            }
        }
    }
}

#[test]
fn reading_47_chosen_when_made() {
    for parallel in [false, true] {
        assert_eq!(
            Panel::fresh(parallel),
            Panel::made(parallel, false, Numbering::Old)
        );
        for time in [false, true] {
            let old = Panel::made(parallel, time, Numbering::Old);
            let mut new = Panel::made(parallel, time, Numbering::New);
            assert_eq!(old.numbering, Numbering::Old);
            assert_eq!(new.numbering, Numbering::New);
            assert_ne!(old, new);
            new.numbering = Numbering::Old;
            assert_eq!(old, new);
        }
    }
}

/// As bytes: one after the three of time, before the ten of the link.
#[test]
fn the_numbering_as_a_byte() {
    for (_, parallel, numbering) in RESETS {
        let mut panel = Panel::made(parallel, true, numbering);
        panel.left = 0x0123;
        let bytes = panel.bytes();
        assert_eq!(bytes.len(), 2_341);
        let expected = u8::from(numbering == Numbering::New);
        assert_eq!(bytes[2_327..2_331], [1, 0x01, 0x23, expected]);
        let mut link = [0; 10];
        link[0] = u8::from(!parallel);
        assert_eq!(bytes[2_331..], link);
    }
    let mut dice = Dice::new(143);
    let mut panel = dice.busy(true);
    panel.numbering = Numbering::Old;
    let old = panel.bytes();
    panel.numbering = Numbering::New;
    let new = panel.bytes();
    let other: Vec<usize> = (0..2_341).filter(|&i| old[i] != new[i]).collect();
    assert_eq!((other, old[2_330], new[2_330]), (vec![2_330], 0, 1));
}

/// From each kind of panel to each value, as a call and as a record; whether
/// it has time survives.
#[test]
fn reading_47_each_reset_from_each_panel() {
    let mut dice = Dice::new(144);
    for (_, from, old) in RESETS {
        for time in [false, true] {
            for (value, pin, numbering) in RESETS {
                let mut before = if time {
                    dice.busy(from)
                } else {
                    dice.panel(from)
                };
                before.numbering = old;
                let mut bench = Bench::with(before.clone());
                bench.frame = vec![0x77; 1_024];
                let outcome = bench.reset(pin, numbering);
                let all = (outcome.number, outcome.reply, outcome.count);
                assert_eq!(all, (0, 0, 1_024));
                let after = Panel::made(pin, time, numbering);
                assert_eq!((&bench.panel, &bench.frame), (&after, &vec![0; 1_024]));

                let mut frame = vec![0x77; 1_024];
                let (half, full) = (&bench.half, &bench.full);
                let capture = records(&[(6, value)]);
                let lines = replay(&mut before, &capture, &mut frame, half, full, true);
                assert_eq!(printed(&lines), "0 -- 1024\nend 1\n");
                assert_eq!((before, frame), (after, vec![0; 1_024]));
            }
        }
    }
}

/// Number 9 above 3, without effect; what stood before it stands.
#[test]
fn number_9_above_3() {
    let mut dice = Dice::new(145);
    for (first, parallel, numbering) in RESETS {
        for time in [false, true] {
            for value in 4..=255 {
                let mut panel = dice.panel(!parallel);
                panel.time = time;
                let mut frame = [0x77; 1_024];
                let capture = records(&[(6, first), (6, value), (6, 0)]);
                let lines = replay(&mut panel, &capture, &mut frame, &[1; 2_048], &[], true);
                assert_eq!(printed(&lines), "0 -- 1024\nstop 1 9\n");
                assert_eq!(panel, Panel::made(parallel, time, numbering));
                // On its own it changes nothing at all.
                let before = dice.panel(parallel);
                let mut panel = before.clone();
                let mut frame = [0x77; 1_024];
                let capture = records(&[(6, value)]);
                let lines = replay(&mut panel, &capture, &mut frame, &[1; 2_048], &[], true);
                assert_eq!(printed(&lines), "stop 0 9\n");
                assert_eq!((panel, frame), (before, [0x77; 1_024]));
            }
        }
    }
}

/// The pins of the four values: 2 takes serial kinds, 3 parallel ones.
#[test]
fn the_program_takes_four_values() {
    let list = [
        (6, 3),
        (2, 0),
        (6, 2),
        (5, 0),
        (6, 1),
        (2, 0),
        (6, 0),
        (5, 0),
    ];
    let lines = "0 -- 1024\n1 00 0\n2 -- 1024\n3 -- 0\n4 -- 1024\n5 00 0\n6 -- 1024\n7 -- 0\n";
    for (last, stop) in [((6, 4), 9), ((6, 255), 9), ((2, 0), 5)] {
        let capture = records(&[&list[..], &[last]].concat());
        for arguments in [&[][..], &["--time"]] {
            let output = program_with(arguments, &capture);
            assert!(output.status.success() && output.stderr.is_empty());
            let said = String::from_utf8(output.stdout).unwrap();
            assert_eq!(said, format!("{lines}stop 8 {stop}\n"));
        }
    }
}

/// A whole capture: the same two codes after each reset, on either link; the
/// numbering holds through the next capture too.
#[test]
fn a_reset_chooses_what_is_shown() {
    let font = marked_font();
    let writes = [
        (false, 0x0C),
        (false, 0x80),
        (true, 0xA4),
        (true, 0x40),
        (true, 0xA4),
        (true, 0xA1),
    ];
    let mut panel = Panel::fresh(true);
    let mut frame = [0; 1_024];
    for (value, parallel, numbering) in RESETS.into_iter().chain(RESETS.into_iter().rev()) {
        let mut list = Vec::new();
        for (register, byte) in writes {
            let mut wire = [0; 3];
            assert_eq!(send(register, byte, &mut wire), 0);
            if parallel {
                list.push((u8::from(register), byte));
            } else {
                list.extend(wire.map(|byte| (4, byte)));
            }
        }
        let shown = match numbering {
            Numbering::Old => [BLANK, marked(289)],
            Numbering::New => [marked(480), marked(545)],
        };
        for capture in [[&[(6, value)], &list[..]].concat(), list] {
            let capture = records(&capture);
            let lines = replay(
                &mut panel,
                &capture,
                &mut frame,
                &[0xFF; 2_048],
                &font,
                true,
            );
            assert_eq!((lines.place, lines.number), (capture.len() / 4, 0));
            assert_eq!(panel.text[..2], [0xA440, 0xA4A1]);
            assert_eq!([cell_of(&frame, 0), cell_of(&frame, 1)], shown);
        }
    }
}

/// Clear, home, function sets, standby, data, reads, select-low and time: all
/// keep it, and so does what is lost or refused.
#[test]
fn everything_else_keeps_the_numbering() {
    let mut dice = Dice::new(146);
    for numbering in NUMBERINGS {
        for time in [false, true] {
            for over in LINKS {
                let mut bench = Bench::over(over, Panel::made(true, time, numbering));
                let dl = if over == Over::Bytes { 0x10 } else { 0 };
                let writes = [
                    0x0F,
                    0x01,
                    0x02,
                    0x20 + dl,
                    0x24 + dl,
                    0x26 + dl,
                    0x01,
                    0x20,
                ];
                for byte in writes.into_iter().chain([0x24 + dl, 0x83, 0x85]) {
                    for register in [false, true] {
                        bench.write(register, byte);
                        assert_eq!(bench.panel.numbering, numbering, "{byte:02X}");
                        if time && dice.below(4) != 0 {
                            bench.pass(200);
                        }
                        assert_eq!(bench.panel.numbering, numbering);
                    }
                }
                match over {
                    Over::Serial => assert_eq!(bench.select_low().number, 0),
                    _ => {
                        // A dummy read may be among the four.
                        for _ in 0..4 {
                            bench.whole_read(Kind::DataRead);
                            bench.whole_read(Kind::StatusRead);
                            if time {
                                bench.pass(200);
                            }
                        }
                        assert_eq!(bench.select_low().number, 5);
                    }
                }
                assert_eq!(bench.panel.numbering, numbering);
            }
        }
        // Every byte from any state.
        for byte in 0..=255 {
            for register in [false, true] {
                let mut panel = dice.timed(true);
                panel.numbering = numbering;
                panel.left *= u16::from(dice.flag());
                let mut bench = Bench::over(Over::Bytes, panel);
                bench.write(register, byte);
                assert_eq!(bench.panel.numbering, numbering, "{byte:02X}");
            }
        }
    }
}

/// The other one.
fn other(numbering: Numbering) -> Numbering {
    match numbering {
        Numbering::Old => Numbering::New,
        Numbering::New => Numbering::Old,
    }
}

/// A byte of a wide code, mostly.
pub fn wide_byte(dice: &mut Dice) -> u8 {
    match dice.below(5) {
        0 => dice.text_byte(),
        1 => 0x40 + dice.below(64) as u8,
        _ => 0xA1 + dice.below(0x57) as u8,
    }
}

/// Named bytes, counts, replies and what a transfer does do not depend on it.
#[test]
fn named_bytes_do_not_depend_on_the_numbering() {
    let mut dice = Dice::new(147);
    let mut differ = 0;
    for _ in 0..2_000 {
        let mut before = dice.timed(true);
        before.left *= u16::from(dice.below(4) == 0);
        before.dl = true;
        for word in before.text.iter_mut().filter(|word| **word > 0x000F) {
            *word = u16::from_be_bytes([wide_byte(&mut dice), wide_byte(&mut dice)]);
        }
        let transfer = match dice.below(8) {
            0..=3 => Transfer::DataWrite(wide_byte(&mut dice)),
            4 => Transfer::DataRead,
            5 => Transfer::StatusRead,
            _ => Transfer::InstructionWrite(dice.byte()),
        };
        let mut bench = Bench::with(before.clone());
        let outcome = bench.call(transfer);
        let mut twin = before.clone();
        twin.numbering = other(before.numbering);
        let start = twin.clone();
        let mut twins = Bench::with(twin);
        assert_eq!(outcome, twins.call(transfer));
        assert_eq!(
            named(&before, transfer, &bench.panel),
            named(&start, transfer, &twins.panel)
        );
        differ += usize::from(bench.frame != twins.frame);
        twins.panel.numbering = before.numbering;
        assert_eq!(bench.panel, twins.panel);
    }
    assert!(differ > 1_000, "{differ} pictures differ");
}

/// Demand 3 over both numberings: repainting the named bytes keeps the
/// picture, through resets to all four values.
#[test]
fn repaint_keeps_the_picture_through_resets() {
    let mut dice = Dice::new(148);
    let mut resets = [0; 4];
    let mut differ = [0; 2];
    for time in [false, true] {
        let mut bench = Bench::with(Panel::made(true, time, Numbering::New));
        bench.full = dice.bytes(281_600);
        for _ in 0..2_500 {
            let numbering = bench.panel.numbering;
            if dice.below(50) == 0 {
                let (value, pin, numbering) = RESETS[dice.below(4) as usize];
                assert_eq!(bench.reset(pin, numbering).count, 1_024);
                assert_eq!(bench.panel, Panel::made(pin, time, numbering));
                resets[usize::from(value)] += 1;
                bench.write(false, 0x0C + dice.below(4) as u8);
            } else {
                let (register, byte) = match dice.below(16) {
                    0 => (false, dice.byte()),
                    1 => (false, 0x80 + dice.below(64) as u8),
                    2 => (false, 0x0C + dice.below(4) as u8),
                    _ => (true, wide_byte(&mut dice)),
                };
                bench.write(register, byte);
                assert_eq!(bench.panel.numbering, numbering);
            }
            if time && dice.below(4) != 0 {
                bench.pass(200);
            }
            let Bench { panel, frame, .. } = &bench;
            let again = second_picture(panel, &bench.half, &bench.full, bench.phase);
            assert!(*frame == again);
            // Under the other numbering it would mostly be another one.
            let mut twin = panel.clone();
            twin.numbering = other(panel.numbering);
            let twins = second_picture(&twin, &bench.half, &bench.full, bench.phase);
            differ[usize::from(panel.numbering == Numbering::New)] += usize::from(again != twins);
            if let Link::Parallel(pair) = panel.link {
                assert_eq!(pair, None);
            }
        }
    }
    assert!(resets.iter().all(|&n| n >= 10), "{resets:?}");
    assert!(differ.iter().all(|&n| n >= 500), "{differ:?}");
}
