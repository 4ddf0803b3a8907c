//! Two panels on one wire: request K5 and reading 50, sentence by sentence.

use crate::bench::{Bench, Dice};
use crate::cabinet::{selects, wire, Cabinet, Lend, BOTH, LEFT, NEITHER, RIGHT, SELECTS};
use model::{
    Kind, Link, Numbering, Pair, PairOutcome, Panel, PanelPair, Receiver, Selects, Transfer,
};

/// Lengths of frame, half font and full font.
type Lengths = [usize; 3];

const GOOD: Lengths = [1_024, 2_048, 32];
const WRONG: Lengths = [1_023, 2_047, 31];

/// A side with these lengths, every byte of its frame 77h.
fn lend([frame, half, full]: Lengths) -> Lend {
    Lend {
        frame: vec![0x77; frame],
        half: vec![1; half],
        full: vec![2; full],
        phase: true,
    }
}

/// One zero short of a function set: either bit and select-low each change it.
fn last_zero() -> Link {
    Link::Serial(Receiver::Body {
        run: 0,
        register: false,
        seen: 15,
        data: 0x30,
    })
}

/// A made-up panel in the midst of a transfer: serial with its last zero to
/// come, parallel with a first half byte open.
fn amid(dice: &mut Dice, parallel: bool) -> Panel {
    let mut panel = dice.panel(parallel);
    panel.dl = !parallel;
    panel.link = if parallel {
        Link::Parallel(Some(Pair {
            kind: Kind::DataWrite,
            bits: 0x20,
        }))
    } else {
        last_zero()
    };
    panel
}

/// What each bit with each selects answers to such a pair. What is refused has
/// touched nothing; what is accepted has changed both panels.
fn assert_number(pair: &PanelPair, left: Lengths, right: Lengths, number: u8) {
    for (bit, selects) in [false, true]
        .into_iter()
        .flat_map(|bit| SELECTS.map(|selects| (bit, selects)))
    {
        let mut cabinet = Cabinet {
            pair: pair.clone(),
            left: lend(left),
            right: lend(right),
        };
        let outcome = cabinet.bit(bit, selects);
        // The function set names all 1,024.
        let count = |select| match (number, select, bit) {
            (0, true, false) => 1_024,
            _ => 0,
        };
        let expected = PairOutcome {
            number,
            left: count(selects.left),
            right: count(selects.right),
        };
        assert_eq!(outcome, expected, "{left:?} {right:?} {bit} {selects:?}");
        if number == 0 {
            assert_ne!(cabinet.pair.left, pair.left);
            assert_ne!(cabinet.pair.right, pair.right);
            continue;
        }
        assert_eq!(&cabinet.pair, pair);
        assert_eq!(cabinet.pair.left.bytes(), pair.left.bytes());
        assert_eq!(cabinet.pair.right.bytes(), pair.right.bytes());
        assert_eq!(cabinet.left.frame, vec![0x77; left[0]]);
        assert_eq!(cabinet.right.frame, vec![0x77; right[0]]);
    }
}

fn pair_amid(dice: &mut Dice, parallel: [bool; 2]) -> PanelPair {
    PanelPair {
        left: amid(dice, parallel[0]),
        right: amid(dice, parallel[1]),
    }
}

/// All is wrong; then one thing after another is put right.
#[test]
fn reading_50_refusals_in_order() {
    let mut dice = Dice::new(151);
    for (left, right, parallel, number) in [
        (WRONG, WRONG, [true, true], 1),
        ([1_024, 2_047, 31], WRONG, [true, true], 2),
        ([1_024, 2_048, 31], WRONG, [true, true], 3),
        (GOOD, WRONG, [true, true], 1),
        (GOOD, [1_024, 2_047, 31], [true, true], 2),
        (GOOD, [1_024, 2_048, 31], [true, true], 3),
        (GOOD, GOOD, [true, true], 5),
        (GOOD, GOOD, [false, true], 5),
        (GOOD, GOOD, [true, false], 5),
        (GOOD, GOOD, [false, false], 0),
    ] {
        assert_number(&pair_amid(&mut dice, parallel), left, right, number);
    }
}

/// One thing alone is wrong, on one side.
#[test]
fn reading_50_each_number_alone() {
    let mut dice = Dice::new(152);
    let pair = pair_amid(&mut dice, [false, false]);
    for (number, lengths) in [0, 1, 1_023, 1_025, 2_048]
        .map(|frame| (1, [frame, 2_048, 32]))
        .into_iter()
        .chain([0, 2_047, 2_049, 4_096].map(|half| (2, [1_024, half, 32])))
        .chain([1, 31, 33, 281_599, 281_601, 281_632].map(|full| (3, [1_024, 2_048, full])))
        .chain([0, 32, 281_600].map(|full| (0, [1_024, 2_048, full])))
    {
        assert_number(&pair, lengths, GOOD, number);
        assert_number(&pair, GOOD, lengths, number);
    }
}

/// Any lengths left and right, any links: the left side's number, else the
/// right side's, else 5.
#[test]
fn reading_50_every_two_sides_together() {
    let sides = [
        (GOOD, 0),
        ([1_025, 2_048, 32], 1),
        ([1_025, 2_049, 32], 1),
        ([1_025, 2_048, 33], 1),
        (WRONG, 1),
        ([1_024, 2_049, 32], 2),
        ([1_024, 2_049, 33], 2),
        ([1_024, 2_048, 33], 3),
    ];
    let mut dice = Dice::new(153);
    for parallel in [[false, false], [false, true], [true, false], [true, true]] {
        let pair = pair_amid(&mut dice, parallel);
        for (left, first) in sides {
            for (right, second) in sides {
                let number = match (first, second) {
                    (0, 0) if parallel == [false, false] => 0,
                    (0, 0) => 5,
                    (0, _) => second,
                    _ => first,
                };
                assert_number(&pair, left, right, number);
            }
        }
    }
}

/// 5 where the left, the right or both are parallel, also where the parallel
/// one's select is low; over half bytes and whole ones, with time and without.
#[test]
fn reading_50_number_5_unless_both_are_serial() {
    let mut dice = Dice::new(154);
    for _ in 0..100 {
        for parallel in [[false, true], [true, false], [true, true]] {
            assert_number(&pair_amid(&mut dice, parallel), GOOD, GOOD, 5);
            let [left, right] = parallel.map(|pin| match dice.flag() {
                true => dice.timed(pin),
                false => dice.panel(pin),
            });
            assert_number(&PanelPair { left, right }, GOOD, GOOD, 5);
        }
    }
}

/// A message goes on after refused bits as though they had never come.
#[test]
fn a_refused_bit_was_not_on_the_wire() {
    let mut cabinet = cabinet();
    for (at, bit) in wire(true, 0x2D).into_iter().enumerate() {
        for selects in SELECTS {
            let mut short = lend([1_023, 2_048, 0]);
            let right = cabinet.right.side();
            let outcome = cabinet.pair.bit(!bit, selects, short.side(), right);
            assert_eq!((outcome.number, outcome.left, outcome.right), (1, 0, 0));
            let mut short = lend([1_024, 2_047, 0]);
            let left = cabinet.left.side();
            let outcome = cabinet.pair.bit(!bit, selects, left, short.side());
            assert_eq!((outcome.number, outcome.left, outcome.right), (2, 0, 0));
        }
        let count = if at == 23 { 32 } else { 0 };
        assert_eq!(cabinet.hear([(bit, BOTH)]), (count, count));
    }
    assert_eq!(cabinet.pair.left.text[0], 0x2D20);
    assert_eq!(cabinet.pair.right.text[0], 0x2D20);
}

/// A half font with a hyphen and a seven of one row each.
fn font(hyphen: u8, seven: u8) -> Vec<u8> {
    let mut font = vec![0; 2_048];
    font[16 * 0x2D + 8] = hyphen;
    font[16 * 0x37 + 8] = seven;
    font
}

/// Both panels fresh, each with a hyphen and a seven of its own.
fn cabinet() -> Cabinet {
    let (mut left, mut right) = (Bench::serial(), Bench::serial());
    left.half = font(0x7E, 0x42);
    right.half = font(0x3C, 0x18);
    Cabinet::of(&left, &right)
}

/// Display on, address 0, a hyphen and a seven in one word: the counts of the
/// four writes.
fn hyphen_and_seven(cabinet: &mut Cabinet, selects: Selects) -> [(usize, usize); 4] {
    [(false, 0x0C), (false, 0x80), (true, 0x2D), (true, 0x37)]
        .map(|(register, byte)| cabinet.write(register, byte, selects))
}

/// A fresh panel after that message, in the body of its last header.
fn told() -> Panel {
    let mut panel = Panel::fresh(false);
    panel.display = true;
    panel.text[0] = 0x2D37;
    panel.counter = 1;
    panel.dummy_due = true;
    panel.link = Link::Serial(Receiver::Body {
        run: 0,
        register: true,
        seen: 0,
        data: 0,
    });
    panel
}

/// A frame with nothing but these two bytes in row 8 of cell 0.
fn row_8(hyphen: u8, seven: u8) -> Vec<u8> {
    let mut frame = vec![0; 1_024];
    frame[32 * 8] = hyphen;
    frame[32 * 8 + 1] = seven;
    frame
}

#[test]
fn a_message_to_the_left_only() {
    let mut cabinet = cabinet();
    let counts = hyphen_and_seven(&mut cabinet, LEFT);
    assert_eq!(counts, [(1_024, 0), (32, 0), (32, 0), (64, 0)]);
    assert_eq!(cabinet.pair.left, told());
    assert_eq!(cabinet.left.frame, row_8(0x7E, 0x42));
    assert_eq!(cabinet.pair.right, Panel::fresh(false));
    assert_eq!(cabinet.right.frame, vec![0; 1_024]);
}

#[test]
fn a_message_to_the_right_only() {
    let mut cabinet = cabinet();
    let counts = hyphen_and_seven(&mut cabinet, RIGHT);
    assert_eq!(counts, [(0, 1_024), (0, 32), (0, 32), (0, 64)]);
    assert_eq!(cabinet.pair.left, Panel::fresh(false));
    assert_eq!(cabinet.left.frame, vec![0; 1_024]);
    assert_eq!(cabinet.pair.right, told());
    assert_eq!(cabinet.right.frame, row_8(0x3C, 0x18));
}

#[test]
fn a_message_to_both() {
    let mut cabinet = cabinet();
    let counts = hyphen_and_seven(&mut cabinet, BOTH);
    assert_eq!(counts, [(1_024, 1_024), (32, 32), (32, 32), (64, 64)]);
    assert_eq!(cabinet.pair.left, told());
    assert_eq!(cabinet.left.frame, row_8(0x7E, 0x42));
    assert_eq!(cabinet.pair.right, told());
    assert_eq!(cabinet.right.frame, row_8(0x3C, 0x18));
}

#[test]
fn a_message_to_neither() {
    let mut cabinet = cabinet();
    assert_eq!(hyphen_and_seven(&mut cabinet, NEITHER), [(0, 0); 4]);
    assert_eq!(cabinet.pair.left, Panel::fresh(false));
    assert_eq!(cabinet.pair.right, Panel::fresh(false));
    assert_eq!(cabinet.left.frame, vec![0; 1_024]);
    assert_eq!(cabinet.right.frame, vec![0; 1_024]);
}

/// One message after another over one wire, half of a word to each in turn.
#[test]
fn messages_in_turn() {
    let mut cabinet = cabinet();
    for (register, byte, selects) in [
        (false, 0x80, LEFT),
        (false, 0x85, RIGHT),
        (true, 0x2D, LEFT),
        (true, 0x37, RIGHT),
        (true, 0x37, LEFT),
        (true, 0x2D, RIGHT),
        (true, 0x41, BOTH),
        (true, 0x42, LEFT),
        (true, 0x43, RIGHT),
    ] {
        cabinet.write(register, byte, selects);
    }
    let mut left = [0x2020; 64];
    left[..2].copy_from_slice(&[0x2D37, 0x4142]);
    let mut right = [0x2020; 64];
    right[5..7].copy_from_slice(&[0x372D, 0x4143]);
    assert_eq!(cabinet.pair.left.text, left);
    assert_eq!(cabinet.pair.right.text, right);
    assert_eq!(cabinet.pair.left.counter, 2);
    assert_eq!(cabinet.pair.right.counter, 7);
}

/// A write in which one side's select is low for some of its bits.
fn with_gap(byte: u8, gap: std::ops::Range<usize>, left_falls: bool) -> Vec<(bool, Selects)> {
    let bits = wire(true, byte).into_iter().enumerate();
    bits.map(|(at, bit)| {
        let high = !gap.contains(&at);
        match left_falls {
            true => (bit, selects(high, true)),
            false => (bit, selects(true, high)),
        }
    })
    .collect()
}

/// Wherever it falls and for however long: that byte is lost on that side, and
/// not on the other; the next one reaches both.
#[test]
fn a_select_that_falls_in_a_byte() {
    let whole = [0x2D20, 0x2D37];
    let lost = [0x2020, 0x3720];
    for from in 0..24 {
        for to in from + 1..=24 {
            for left_falls in [false, true] {
                let mut cabinet = cabinet();
                let (counts, words) = match left_falls {
                    true => ([(0, 32), (32, 64)], [lost, whole]),
                    false => ([(32, 0), (64, 32)], [whole, lost]),
                };
                let first = cabinet.hear(with_gap(0x2D, from..to, left_falls));
                assert_eq!(first, counts[0], "{from}..{to}");
                assert_eq!(cabinet.pair.left.text[0], words[0][0]);
                assert_eq!(cabinet.pair.right.text[0], words[1][0]);
                assert_eq!(cabinet.write(true, 0x37, BOTH), counts[1]);
                assert_eq!(cabinet.pair.left.text[0], words[0][1]);
                assert_eq!(cabinet.pair.right.text[0], words[1][1]);
            }
        }
    }
}

/// With the select the header is lost too: what follows under it is not heard.
#[test]
fn a_select_that_falls_between_bytes_under_one_header() {
    let mut cabinet = cabinet();
    assert_eq!(cabinet.write(true, 0x2D, BOTH), (32, 32));
    assert_eq!(cabinet.bits("0", LEFT), (0, 0));
    assert_eq!(cabinet.bits("011 0000 0111 0000", BOTH), (64, 0));
    assert_eq!(cabinet.bits("0100 0000 0001 0000", BOTH), (32, 0));
    assert_eq!(cabinet.pair.left.text[..2], [0x2D37, 0x4120]);
    assert_eq!(cabinet.pair.right.text[..2], [0x2D20, 0x2020]);
    // The half that is next has not moved on: a new header, and it goes on.
    assert_eq!(cabinet.write(true, 0x37, RIGHT), (0, 64));
    assert_eq!(cabinet.pair.right.text[..2], [0x2D37, 0x2020]);
}

fn receiver(panel: &Panel) -> Receiver {
    match panel.link {
        Link::Serial(receiver) => receiver,
        Link::Parallel(_) => panic!("a serial link"),
    }
}

/// Three ones, one more that the right does not hear, and a fifth.
#[test]
fn a_run_of_ones_is_cut() {
    let mut cabinet = cabinet();
    cabinet.bits("111", BOTH);
    assert_eq!(receiver(&cabinet.pair.left), Receiver::Hunting { run: 3 });
    assert_eq!(receiver(&cabinet.pair.right), Receiver::Hunting { run: 3 });
    cabinet.bits("1", LEFT);
    assert_eq!(receiver(&cabinet.pair.left), Receiver::Hunting { run: 4 });
    assert_eq!(receiver(&cabinet.pair.right), Receiver::Hunting { run: 0 });
    cabinet.bits("1", BOTH);
    let header = Receiver::Header {
        seen: 0,
        read: false,
        register: false,
    };
    assert_eq!(receiver(&cabinet.pair.left), header);
    assert_eq!(receiver(&cabinet.pair.right), Receiver::Hunting { run: 1 });
    let sum = cabinet.bits("010 0010 0000 1101 0000", BOTH);
    assert_eq!(sum, (32, 0));
    assert_eq!(cabinet.pair.left.text[0], 0x2D20);
    assert_eq!(cabinet.pair.right.text, [0x2020; 64]);
}

/// However many ones came before, only those after it count; and the bit that
/// is on the wire while the select is low does not matter.
#[test]
fn a_run_of_ones_begins_anew() {
    for before in 0..5 {
        for after in 0..5 {
            for (bit, left_falls) in [("0", false), ("0", true), ("1", false), ("1", true)] {
                let mut cabinet = cabinet();
                cabinet.bits(&"1".repeat(before), BOTH);
                cabinet.bits(bit, if left_falls { RIGHT } else { LEFT });
                cabinet.bits(&"1".repeat(after), BOTH);
                let fallen = match left_falls {
                    true => &cabinet.pair.left,
                    false => &cabinet.pair.right,
                };
                let run = after as u8;
                assert_eq!(receiver(fallen), Receiver::Hunting { run });
            }
        }
    }
}

/// Sync is lost and the run cleared, and nothing else: from any state, with any
/// bit, whatever the other side hears. The frame may hold anything.
#[test]
fn reading_50_a_low_side_is_otherwise_untouched() {
    let mut dice = Dice::new(155);
    for _ in 0..300 {
        let mut benches = [dice.panel(false), dice.timed(false)].map(Bench::with);
        for bench in &mut benches {
            for _ in 0..dice.below(20) {
                bench.bit(dice.below(4) != 0);
            }
            if dice.below(4) == 0 {
                bench.panel.link = last_zero();
            }
            bench.frame = vec![0x77; 1_024];
        }
        let before = Cabinet::of(&benches[0], &benches[1]).pair;
        let selects = SELECTS[dice.below(4) as usize];
        let mut cabinet = Cabinet::of(&benches[0], &benches[1]);
        let outcome = cabinet.bit(dice.flag(), selects);
        assert_eq!(outcome.number, 0);
        if !selects.left {
            assert_untouched(before.left, &cabinet.pair.left);
            assert_eq!((outcome.left, cabinet.left.frame), (0, vec![0x77; 1_024]));
        }
        if !selects.right {
            assert_untouched(before.right, &cabinet.pair.right);
            assert_eq!((outcome.right, cabinet.right.frame), (0, vec![0x77; 1_024]));
        }
    }
}

fn assert_untouched(mut before: Panel, after: &Panel) {
    before.link = Link::idle(false);
    assert_eq!(after, &before);
}

/// A full font in which this glyph alone, its last, has dots.
fn last_glyph(number: usize, mark: u8) -> Vec<u8> {
    let mut font = vec![0; 32 * number];
    font.extend([mark; 32]);
    font
}

/// Code A4A1h is number 289 on the left and 545 on the right; the cell after it
/// has cursor and blink, with phase 0 on the left and 1 on the right.
#[test]
fn each_has_its_own_fonts_numbering_and_phase() {
    let mut left = Bench::with(Panel::made(false, false, Numbering::Old));
    left.full = last_glyph(289, 0x11);
    left.phase = false;
    let mut right = Bench::with(Panel::made(false, false, Numbering::New));
    right.full = last_glyph(545, 0x22);
    right.phase = true;
    (left.half, right.half) = (vec![0; 2_048], vec![0; 2_048]);
    let mut cabinet = Cabinet::of(&left, &right);
    for (register, byte) in [(false, 0x0F), (true, 0xA4), (true, 0xA1)] {
        cabinet.write(register, byte, BOTH);
    }
    let (mut left, mut right) = (vec![0; 1_024], vec![0; 1_024]);
    for r in 0..16 {
        left[32 * r..32 * r + 2].fill(0x11);
        right[32 * r..32 * r + 2].fill(0x22);
    }
    left[32 * 15 + 2..32 * 15 + 4].fill(0xFF);
    for r in 0..15 {
        right[32 * r + 2..32 * r + 4].fill(0xFF);
    }
    assert_eq!(cabinet.left.frame, left);
    assert_eq!(cabinet.right.frame, right);
}

/// The left has time and the right has none: after a clear the left is busy and
/// loses a byte that the right carries out.
#[test]
fn one_with_time_and_one_without() {
    let left = Bench::with(Panel::made(false, true, Numbering::Old));
    let mut cabinet = Cabinet::of(&left, &Bench::serial());
    assert_eq!(cabinet.write(false, 0x01, BOTH), (1_024, 1_024));
    assert_eq!(cabinet.write(true, 0x2D, BOTH), (0, 32));
    let (panel, side) = (&mut cabinet.pair.left, cabinet.left.side());
    let outcome = panel.pass(200, side.frame, side.half, side.full, side.phase);
    assert_eq!(outcome.number, 0);
    assert_eq!(cabinet.write(true, 0x37, BOTH), (32, 64));
    assert_eq!(cabinet.pair.left.text[0], 0x3720);
    assert_eq!(cabinet.pair.right.text[0], 0x2D37);
    assert_eq!((cabinet.pair.left.left, cabinet.pair.right.left), (72, 0));
}

/// Any other call is made on one side alone, and the other does not notice.
#[test]
fn other_calls_on_one_side_alone() {
    let mut cabinet = cabinet();
    hyphen_and_seven(&mut cabinet, BOTH);
    // The right is reset to parallel: it takes transfers, the wire is refused.
    reset_right(&mut cabinet, true);
    let (panel, side) = (&mut cabinet.pair.right, cabinet.right.side());
    let write = Transfer::DataWrite(0x41);
    let outcome = panel.transfer(write, side.frame, side.half, side.full, side.phase);
    assert_eq!((outcome.number, outcome.count), (0, 32));
    assert_eq!(cabinet.bit(true, LEFT).number, 5);
    assert_eq!(cabinet.pair.left, told());
    assert_eq!(cabinet.pair.right.text[0], 0x4120);
    // Meanwhile the left hears its bits alone.
    for bit in wire(true, 0x2D) {
        let (panel, side) = (&mut cabinet.pair.left, cabinet.left.side());
        let outcome = panel.bit(bit, side.frame, side.half, side.full, side.phase);
        assert_eq!(outcome.number, 0);
    }
    assert_eq!(cabinet.pair.left.text[..2], [0x2D37, 0x2D20]);
    // Serial again, the right is back on the wire.
    reset_right(&mut cabinet, false);
    assert_eq!(cabinet.write(true, 0x37, BOTH), (64, 32));
    assert_eq!(cabinet.pair.left.text[..2], [0x2D37, 0x2D37]);
    assert_eq!(cabinet.pair.right.text[..2], [0x3720, 0x2020]);
}

fn reset_right(cabinet: &mut Cabinet, parallel: bool) {
    let (panel, lend) = (&mut cabinet.pair.right, &mut cabinet.right);
    let (frame, half, full) = (&mut lend.frame, &lend.half, &lend.full);
    let outcome = panel.reset(parallel, Numbering::New, frame, half, full, lend.phase);
    assert_eq!((outcome.number, outcome.count), (0, 1_024));
}
