//! Whole draws: the proved code, and plain Rust dot by dot and in its two fast forms, on the same screens.
use crate::screen::{Fonts, Screen, BY_160, BY_96, CONTROL, DISPLAY, FULL_FONT_LIMIT, NUMBERING};
use crate::timing::{in_turn, BATCHES};
use crate::{blocks, bytewise, dots};
use std::hint::black_box;

/// Holds plain Rust in its three forms to the proved code: every text word, 32 to a screen, by both numberings, with the whole full font and
/// with its first half, so that glyphs are missing.
pub fn agree(fonts: &Fonts) {
    let cut = fonts.cut(FULL_FONT_LIMIT / 64 * 32);
    for fonts in [fonts, &cut] {
        agree_with(fonts);
    }
}

fn agree_with(fonts: &Fonts) {
    let mut screen = Screen {
        text: [0x20; 128],
        glyph: *fonts.half.first_chunk().expect("2,048 bytes"),
        graphic: [0; 2048],
        control: [0; CONTROL],
    };
    screen.control[DISPLAY] = 1;
    for numbering in [BY_96, BY_160] {
        screen.control[NUMBERING] = numbering;
        for first in (0..=0xFFFF_u16).step_by(32) {
            let shown = &mut screen.text.as_chunks_mut().0[..32];
            for (word, bytes) in (first..=first + 31).zip(shown) {
                *bytes = word.to_be_bytes();
            }
            let [mut by_dot, mut by_byte, mut by_block, mut ours] = [[0u8; 1024]; 4];
            dots::draw(&screen, fonts, false, &mut by_dot);
            bytewise::draw(&screen, &mut by_byte, &fonts.half, &fonts.full, false);
            blocks::draw(&screen, &mut by_block, &fonts.half, &fonts.full, false);
            proved::draw(screen.memories(), &mut ours, fonts.lent(false));
            assert!(
                [by_dot, by_byte, by_block] == [ours; 3],
                "a plain drawing differs from the proved one: numbering {numbering}, words from {first:04X}, full font of {} bytes",
                fonts.full.len()
            );
        }
    }
}

pub fn measure(fonts: &Fonts, screens: &[(&str, Screen)]) {
    println!("Nanoseconds for a whole draw: the middle of {BATCHES} batches, and from the 10th to the 90th in a hundred.\n");
    println!("| screen | dot by dot | bytewise | blocks | proved | fastest plain Rust / proved |");
    println!("|---|---|---|---|---|---|");
    for (name, screen) in screens {
        let mut frames = [[0u8; 1024]; 4];
        let [by_dot, by_byte, by_block, ours] = &mut frames;
        let [slow, bytes, blocks, proved] = in_turn(
            BATCHES,
            [
                (2, &mut || {
                    dots::draw(black_box(screen), fonts, true, black_box(by_dot))
                }),
                (400, &mut || {
                    bytewise::draw(
                        black_box(screen),
                        black_box(by_byte),
                        &fonts.half,
                        &fonts.full,
                        true,
                    );
                }),
                (400, &mut || {
                    blocks::draw(
                        black_box(screen),
                        black_box(by_block),
                        &fonts.half,
                        &fonts.full,
                        true,
                    );
                }),
                (400, &mut || {
                    proved::draw(
                        black_box(screen).memories(),
                        black_box(ours),
                        fonts.lent(true),
                    );
                }),
            ],
        );
        assert!(
            frames.iter().all(|frame| *frame == frames[0]),
            "the pictures of the {name} screen differ"
        );
        println!(
            "| {name} | {} | {} | {} | {} | {:.2} |",
            slow.spread(),
            bytes.spread(),
            blocks.spread(),
            proved.spread(),
            bytes.over(&proved).min(blocks.over(&proved))
        );
    }
}
