//! The picture in plain Rust, as fast as we could write it: each cell's sixteen rows are laid out once, where whole vectors of bytes
//! can be inverted at a time, then handed out row by row, and the graphic laid over a row of 32 bytes at a time.
use crate::blocks::{Look, BOX};
use crate::state::*;

/// A cell: sixteen rows of two bytes.
type Tile = [[u8; 2]; 16];

const BLANK: [u8; 16] = [0; 16];

fn half(f: Look<'_>, code: u8) -> &[u8; 16] {
    match code {
        0x02..=0x7F => f.half[16 * code as usize..].first_chunk().unwrap_or(&BLANK),
        _ => &BLANK,
    }
}

/// Sixteen rows of two bytes that lie together, the box of a missing glyph where they do not.
fn pairs(bytes: &[u8], at: usize) -> Tile {
    let Some(bytes) = bytes.get(at..at + 32) else {
        return *BOX.as_chunks().0.as_array().expect("sixteen rows");
    };
    let mut tile = [[0; 2]; 16];
    tile.as_flattened_mut().copy_from_slice(bytes);
    tile
}

/// Two columns of sixteen bytes side by side.
fn columns(left: &[u8; 16], right: &[u8; 16]) -> Tile {
    let mut tile = [[0; 2]; 16];
    for (y, row) in tile.iter_mut().enumerate() {
        *row = [left[y], right[y]];
    }
    tile
}

#[inline(always)]
fn tile(s: &Screen, f: Look, word: usize) -> Tile {
    let (high, low) = (s.text[2 * word], s.text[2 * word + 1]);
    match (high, low) {
        (0, 0..=0x0F) => pairs(&s.glyph, 32 * (low / 2 % 4) as usize),
        (0xA1.., _) => match s.full_glyph(high, low) {
            Some(at) => pairs(f.full, at),
            None => [[0; 2]; 16],
        },
        _ => columns(half(f, high), half(f, low)),
    }
}

/// The cells of a line, with cursor, blink and reverse.
#[inline(always)]
fn tiles(s: &Screen, f: Look, line: usize) -> [Tile; 16] {
    let on = |at: usize| s.control[at] == 1;
    let reversed = on(REVERSED + line);
    let mut tiles = [[[0; 2]; 16]; 16];
    for (k, place) in tiles.iter_mut().enumerate() {
        let word = 16 * line + (k + s.control[SHIFT] as usize) % 16;
        let mut tile = tile(s, f, word);
        let here = s.control[TARGET] == 0 && s.control[COUNTER] as usize == word;
        if here && on(CURSOR) {
            tile[15] = [0xFF; 2];
        }
        if (here && on(BLINK) && f.phase) != reversed {
            for byte in tile.as_flattened_mut() {
                *byte = !*byte;
            }
        }
        *place = tile;
    }
    tiles
}

fn paint_whole(s: &Screen, f: Look, frame: &mut [u8; 1024]) {
    if s.dark() {
        frame.fill(0);
        return;
    }
    let graphic = s.control[G] == 1;
    let scroll = s.control[SCROLL] as usize;
    let (rows, _) = frame.as_chunks_mut::<32>();
    let mut row = 0;
    while row < 32 {
        let (line, first) = ((row + scroll) % 64 / 16, (row + scroll) % 16);
        let tiles = tiles(s, f, line);
        let end = (row + 16 - first).min(32);
        for (y, bytes) in (first..).zip(&mut rows[row..end]) {
            for (two, tile) in bytes.as_chunks_mut::<2>().0.iter_mut().zip(&tiles) {
                *two = tile[y];
            }
            if graphic {
                let over = &s.graphic[32 * (16 * line + y)..][..32];
                for (byte, over) in bytes.iter_mut().zip(over) {
                    *byte ^= over;
                }
            }
        }
        row = end;
    }
}

/// Draws into the frame and answers 0, or the number of the refusal.
pub fn draw(s: &Screen, frame: &mut [u8], half: &[u8], full: &[u8], phase: bool) -> u8 {
    match Look::of(frame, half, full, phase) {
        Ok((frame, look)) => {
            paint_whole(s, look, frame);
            0
        }
        Err(number) => number,
    }
}
