//! The picture in plain Rust by the proved painters' idea and past it: a line's tiles are laid once; then blocks of four cells by four
//! rows are turned from cells to rows in numbers of 64 bits, in which no byte is moved by itself.
use crate::state::*;

/// A cell: sixteen rows of two bytes.
pub type Tile = [u8; 32];

/// A row of the glass, four cells to a number, the first in its low bits.
type Row = [u64; 4];

const BLANK: Tile = [0; 32];
/// What a glyph that is missing shows.
pub const BOX: Tile = {
    let mut tile = [0; 32];
    let mut y = 0;
    while y < 16 {
        let edge = y == 0 || y == 15;
        tile[2 * y] = if edge { 0xFF } else { 0x80 };
        tile[2 * y + 1] = if edge { 0xFF } else { 0x01 };
        y += 1;
    }
    tile
};
const NO_HALF: [u8; 16] = [0; 16];

/// The fonts, of lengths that are not refused, and the phase.
#[derive(Clone, Copy)]
pub struct Look<'a> {
    pub half: &'a [u8; 2048],
    pub full: &'a [u8],
    pub phase: bool,
}

impl<'a> Look<'a> {
    /// What was lent, or the number of the refusal.
    #[inline(always)]
    pub fn of<'b>(
        frame: &'b mut [u8],
        half: &'a [u8],
        full: &'a [u8],
        phase: bool,
    ) -> Result<(&'b mut [u8; 1024], Look<'a>), u8> {
        let frame = frame.try_into().map_err(|_| 1)?;
        let half = half.try_into().map_err(|_| 2)?;
        if !full.len().is_multiple_of(32) || full.len() > FULL_FONT_LIMIT {
            return Err(3);
        }
        Ok((frame, Look { half, full, phase }))
    }
}

/// Eight bytes as a number, the first in its low bits.
fn number(bytes: &[u8; 32], eight: usize) -> u64 {
    u64::from_le_bytes(bytes.as_chunks().0[eight])
}

/// Thirty-two bytes that lie together, the box where they do not.
fn together(bytes: &[u8], at: usize) -> &Tile {
    bytes
        .get(at..)
        .and_then(|part| part.first_chunk())
        .unwrap_or(&BOX)
}

fn half_glyph(half: &[u8; 2048], code: u8) -> &[u8; 16] {
    match code {
        0x02..=0x7F => half[16 * code as usize..].first_chunk().unwrap_or(&NO_HALF),
        _ => &NO_HALF,
    }
}

/// What a text word shows.
pub enum Shown<'a> {
    Together(&'a Tile),
    Beside(&'a [u8; 16], &'a [u8; 16]),
}

#[inline(always)]
pub fn shown<'a>(s: &'a Screen, look: Look<'a>, word: usize) -> Shown<'a> {
    let (high, low) = (s.text[2 * word], s.text[2 * word + 1]);
    match (high, low) {
        (0, 0..=0x0F) => Shown::Together(together(&s.glyph, 32 * (low / 2 % 4) as usize)),
        (0xA1.., _) => Shown::Together(match s.full_glyph(high, low) {
            Some(at) => together(look.full, at),
            None => &BLANK,
        }),
        _ => Shown::Beside(half_glyph(look.half, high), half_glyph(look.half, low)),
    }
}

#[inline(always)]
pub fn lay(s: &Screen, look: Look, word: usize, tile: &mut Tile) {
    match shown(s, look, word) {
        Shown::Together(bytes) => *tile = *bytes,
        Shown::Beside(left, right) => {
            for y in 0..16 {
                tile[2 * y] = left[y];
                tile[2 * y + 1] = right[y];
            }
        }
    }
}

/// Cursor and blink, at the counter's word.
#[inline(always)]
pub fn mark(s: &Screen, phase: bool, tile: &mut Tile) {
    if s.control[CURSOR] == 1 {
        tile[30..].fill(0xFF);
    }
    if s.control[BLINK] == 1 && phase {
        *tile = tile.map(|byte| !byte);
    }
}

/// The cells of a line, with cursor and blink.
#[inline(always)]
fn lay_line(s: &Screen, look: Look, line: usize, tiles: &mut [Tile; 16]) {
    let shift = s.control[SHIFT] as usize;
    for (k, tile) in tiles.iter_mut().enumerate() {
        lay(s, look, 16 * line + (k + shift) % 16, tile);
    }
    let counter = s.control[COUNTER] as usize;
    if s.control[TARGET] == TEXT && counter / 16 == line {
        mark(s, look.phase, &mut tiles[(counter + 16 - shift) % 16]);
    }
}

/// Four cells with four rows each become four rows with four cells each.
#[inline(always)]
fn turned([a, b, c, d]: [u64; 4]) -> [u64; 4] {
    const HALF: u64 = 0xFFFF_FFFF;
    const EVEN: u64 = 0x0000_FFFF_0000_FFFF;
    let (a, c) = (a & HALF | c << 32, a >> 32 | c & !HALF);
    let (b, d) = (b & HALF | d << 32, b >> 32 | d & !HALF);
    let (a, b) = (a & EVEN | (b & EVEN) << 16, a >> 16 & EVEN | b & !EVEN);
    let (c, d) = (c & EVEN | (d & EVEN) << 16, c >> 16 & EVEN | d & !EVEN);
    [a, b, c, d]
}

pub fn paint_whole(s: &Screen, look: Look, frame: &mut [u8; 1024]) {
    if s.dark() {
        frame.fill(0);
        return;
    }
    let graphic = s.control[G] == 1;
    let scroll = s.control[SCROLL] as usize;
    let (over, _) = s.graphic.as_chunks::<32>();
    let (glass, _) = frame.as_chunks_mut::<32>();
    let mut tiles = [BLANK; 16];
    let mut rows: [Row; 16] = [[0; 4]; 16];
    let mut row = 0;
    while row < 32 {
        let (line, first) = ((row + scroll) % 64 / 16, (row + scroll) % 16);
        let end = (row + 16 - first).min(32);
        let after = first + end - row;
        lay_line(s, look, line, &mut tiles);
        let reverse = match s.control[REVERSED + line] {
            1 => !0,
            _ => 0,
        };
        for block in first / 4..after.div_ceil(4) {
            for four in 0..4 {
                let cells = core::array::from_fn(|k| number(&tiles[4 * four + k], block));
                for (k, cells) in turned(cells).into_iter().enumerate() {
                    rows[4 * block + k][four] = cells ^ reverse;
                }
            }
        }
        for (y, bytes) in (first..after).zip(&mut glass[row..end]) {
            let mut shown = rows[y];
            if graphic {
                let over = &over[16 * line + y];
                shown = core::array::from_fn(|k| shown[k] ^ number(over, k));
            }
            for (eight, shown) in bytes.as_chunks_mut::<8>().0.iter_mut().zip(shown) {
                *eight = shown.to_le_bytes();
            }
        }
        row = end;
    }
}

/// Draws into the frame and answers 0, or the number of the refusal.
pub fn draw(s: &Screen, frame: &mut [u8], half: &[u8], full: &[u8], phase: bool) -> u8 {
    match Look::of(frame, half, full, phase) {
        Ok((frame, look)) => {
            paint_whole(s, look, frame);
            0
        }
        Err(number) => number,
    }
}
