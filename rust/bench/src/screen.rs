//! The screens that are drawn, and fonts.
use proved::{Lent, Memories};

pub use crate::state::*;

impl Screen {
    pub fn memories(&self) -> Memories<'_> {
        Memories {
            text: &self.text,
            glyph: &self.glyph,
            graphic: &self.graphic,
            control: &self.control,
        }
    }
}

pub struct Fonts {
    pub half: Vec<u8>,
    pub full: Vec<u8>,
}

impl Fonts {
    /// With so many bytes of the full font.
    pub fn cut(&self, length: usize) -> Fonts {
        Fonts {
            half: self.half.clone(),
            full: self.full[..length].to_vec(),
        }
    }

    pub fn lent(&self, phase: bool) -> Lent<'_> {
        Lent {
            half: &self.half,
            full: &self.full,
            phase,
        }
    }
}

/// A small generator with a seed, so that every run draws the same screens.
pub struct Random(pub u64);

impl Random {
    pub fn next(&mut self) -> u64 {
        self.0 ^= self.0 << 13;
        self.0 ^= self.0 >> 7;
        self.0 ^= self.0 << 17;
        self.0
    }

    pub fn byte(&mut self) -> u8 {
        (self.next() >> 24) as u8
    }
}

/// The end of the full font, which the new numbering alone reads, has a generator of its own, so that it moves no screen of the old one:
/// those come after the fonts, and are stored as pictures.
pub fn fonts(random: &mut Random) -> Fonts {
    let half = (0..2048).map(|_| random.byte()).collect();
    let mut full: Vec<u8> = (0..267_264).map(|_| random.byte()).collect();
    let mut end = Random(0x5EED_000A);
    full.resize_with(FULL_FONT_LIMIT, || end.byte());
    Fonts { half, full }
}

/// What a screen shows in its text memory.
#[derive(Clone, Copy)]
pub enum Words {
    Spaces,
    Letters,
    Glyphs,
    Mixed,
    /// Full glyphs of the new numbering, of both ranges, and the codes between them and behind the last lead.
    Traditional,
}

fn word(words: Words, random: &mut Random) -> [u8; 2] {
    match words {
        Words::Spaces => [0x20, 0x20],
        Words::Letters => [0x21 + random.byte() % 0x5E, 0x21 + random.byte() % 0x5E],
        Words::Glyphs => [0xA1 + random.byte() % 0x57, 0xA0 + random.byte() % 0x60],
        Words::Mixed => match random.byte() % 4 {
            0 => [0x00, random.byte() % 0x10],
            1 => word(Words::Glyphs, random),
            2 => word(Words::Letters, random),
            _ => [random.byte(), random.byte()],
        },
        Words::Traditional => [0xA1 + random.byte() % 0x38, 0x40 + random.byte() % 0xC0],
    }
}

pub fn screen(words: Words, graphics: bool, random: &mut Random) -> Screen {
    let mut screen = Screen {
        text: [0; 128],
        glyph: [0; 128],
        graphic: [0; 2048],
        control: [0; CONTROL],
    };
    for k in 0..64 {
        let [high, low] = word(words, random);
        screen.text[2 * k] = high;
        screen.text[2 * k + 1] = low;
    }
    screen.glyph.fill_with(|| random.byte());
    if graphics {
        screen.graphic.fill_with(|| random.byte());
    }
    screen.control[COUNTER] = random.byte() % 64;
    screen.control[DISPLAY] = 1;
    screen.control[CURSOR] = 1;
    screen.control[BLINK] = 1;
    screen.control[G] = graphics as u8;
    screen.control[SCROLL] = random.byte() % 64;
    screen.control[SHIFT] = random.byte() % 16;
    screen.control[REVERSED + 1] = 1;
    if let Words::Traditional = words {
        screen.control[NUMBERING] = BY_160;
    }
    screen
}
