//! Long seeded runs: partial repaint, counts, and the limit of 64.

use crate::bench::Dice;
use crate::second_picture::second_picture;
use model::{Panel, Transfer};

/// Mostly data, with every instruction now and then.
fn any_transfer(dice: &mut Dice) -> Transfer {
    match dice.below(32) {
        0..=12 => Transfer::DataWrite(dice.text_byte()),
        13..=15 => Transfer::DataRead,
        16 => Transfer::StatusRead,
        17 => Transfer::InstructionWrite(0x0C + dice.below(4) as u8),
        18 => Transfer::InstructionWrite(0x20 + dice.below(32) as u8),
        19 => Transfer::InstructionWrite(dice.below(32) as u8),
        20..=28 => Transfer::InstructionWrite(0x40 + dice.below(0xC0) as u8),
        _ => Transfer::InstructionWrite(dice.byte()),
    }
}

struct Fonts {
    half: Vec<u8>,
    full: Vec<u8>,
}

fn fonts(dice: &mut Dice) -> Fonts {
    let length = 32 * dice.below(400) as usize;
    Fonts {
        half: dice.bytes(2_048),
        full: dice.bytes(length),
    }
}

fn draw(panel: &Panel, fonts: &Fonts, phase: bool) -> Vec<u8> {
    let mut frame = vec![0; 1_024];
    assert_eq!(panel.draw(&mut frame, &fonts.half, &fonts.full, phase), 0);
    frame
}

/// Repainting only the named bytes keeps the frame equal to the picture: at
/// every transfer to the one drawn word by word, and often to the one drawn
/// dot by dot.
fn run_parallel(seed: u64, transfers: usize) {
    let mut dice = Dice::new(seed);
    let mut panel = Panel::fresh(true);
    let mut lent = fonts(&mut dice);
    let mut phase = false;
    let mut frame = draw(&panel, &lent, phase);
    for round in 0..transfers {
        if round % 2_000 == 0 {
            // A new start: other fonts, phase and state.
            lent = fonts(&mut dice);
            phase = dice.flag();
            panel = dice.panel(true);
            frame = draw(&panel, &lent, phase);
        }
        let transfer = any_transfer(&mut dice);
        let outcome = panel.transfer(transfer, &mut frame, &lent.half, &lent.full, phase);
        assert_eq!(outcome.number, 0);
        let afresh = second_picture(&panel, &lent.half, &lent.full, phase);
        assert!(frame == afresh, "{transfer:?}");
        if round % 16 == 0 {
            assert!(frame == draw(&panel, &lent, phase));
        }
    }
}

#[test]
fn repaint_keeps_the_picture_first_run() {
    run_parallel(91, 150_000);
}

#[test]
fn repaint_keeps_the_picture_second_run() {
    run_parallel(92, 150_000);
}

#[test]
fn repaint_keeps_the_picture_over_serial_bits() {
    let mut dice = Dice::new(93);
    let lent = fonts(&mut dice);
    let mut panel = Panel::fresh(false);
    let mut frame = draw(&panel, &lent, true);
    for _ in 0..12_000 {
        // Mostly well-formed writes, some noise, now and then select-low.
        let register = dice.below(3) != 0;
        let byte = match any_transfer(&mut dice) {
            Transfer::InstructionWrite(byte) | Transfer::DataWrite(byte) => byte,
            Transfer::StatusRead | Transfer::DataRead => dice.byte(),
        };
        let mut bytes = vec![0; 3];
        model::send(register, byte, &mut bytes);
        match dice.below(8) {
            0 => bytes.push(dice.byte()),
            1 => bytes.truncate(2),
            _ => {}
        }
        let mut named = 0;
        for bit in bytes
            .iter()
            .flat_map(|b| (0..8).rev().map(move |n| b >> n & 1))
        {
            let outcome = panel.bit(bit == 1, &mut frame, &lent.half, &lent.full, true);
            assert_eq!((outcome.number, outcome.reply), (0, 0));
            named += outcome.count;
        }
        assert!(named <= 2_048);
        assert!(frame == draw(&panel, &lent, true));
        if dice.below(16) == 0 {
            let outcome = panel.select_low(&mut frame, &lent.half, &lent.full, true);
            assert_eq!((outcome.number, outcome.count), (0, 0));
        }
    }
}

/// On a frame of other content: as many bytes as counted become the
/// picture's, no other byte is altered.
#[test]
fn counts_are_the_bytes_rewritten() {
    let mut dice = Dice::new(94);
    let lent = fonts(&mut dice);
    for _ in 0..20_000 {
        let before = dice.panel(true);
        let phase = dice.flag();
        let mut next = any_transfer(&mut dice);
        if dice.flag() {
            next = Transfer::DataWrite(dice.text_byte());
        }
        let mut panel = before.clone();
        let mut scrap = vec![0; 1_024];
        let first = panel.transfer(next, &mut scrap, &lent.half, &lent.full, phase);
        let picture = draw(&panel, &lent, phase);
        let other: Vec<u8> = picture.iter().map(|byte| !byte).collect();
        let mut frame = other.clone();
        let mut again = before.clone();
        let second = again.transfer(next, &mut frame, &lent.half, &lent.full, phase);
        // The frame's content does not matter to state, reply and count.
        assert_eq!((first, &panel), (second, &again));
        let mut rewritten = 0;
        for place in 0..1_024 {
            if frame[place] == picture[place] {
                rewritten += 1;
            } else {
                assert_eq!(frame[place], other[place]);
            }
        }
        assert_eq!(rewritten, second.count);
    }
}

/// With S at 0 a data transfer names at most 64.
#[test]
fn data_names_at_most_64() {
    let mut dice = Dice::new(95);
    let lent = fonts(&mut dice);
    let mut largest = 0;
    for _ in 0..100_000 {
        let mut panel = dice.panel(true);
        panel.s = false;
        let next = if dice.below(4) == 0 {
            Transfer::DataRead
        } else {
            Transfer::DataWrite(dice.text_byte())
        };
        let mut frame = vec![0; 1_024];
        let outcome = panel.transfer(next, &mut frame, &lent.half, &lent.full, true);
        assert!(outcome.count <= 64);
        largest = largest.max(outcome.count);
    }
    assert_eq!(largest, 64);
}
