//! Whole draws of states that are made up, also of those that no capture is likely to reach.
use crate::case::{full_length, NUMBERINGS};
use crate::compare::{boxed, bytes, Tally};
use crate::names::frame_place;
use crate::random::Random;
use crate::scenes::word;
use model::{
    full_glyph_number, Half, Numbering, Panel, Target, FRAME_LENGTH, FULL_FONT_LIMIT,
    HALF_FONT_LENGTH,
};
use proved::{Lent, Memories, CONTROL, CONTROL_AT};

/// A state at random, within its ranges, its link idle.
pub fn panel(random: &mut Random) -> Panel {
    let mut panel = Panel::fresh(true);
    panel.text.fill_with(|| u16::from_be_bytes(word(random)));
    panel.glyph.fill_with(|| random.next() as u16);
    for row in &mut panel.graphic {
        row.fill_with(|| random.next() as u16);
    }
    (panel.target, panel.counter) = match random.below(3) {
        0 => (Target::Text, random.below(64) as u8),
        1 => (Target::Glyph, random.below(64) as u8),
        _ => (Target::Graphic, random.below(16) as u8),
    };
    panel.graphic_row = random.below(64) as u8;
    panel.next = if random.flag() { Half::High } else { Half::Low };
    panel.dummy_due = random.flag();
    panel.waiting = random.flag().then(|| random.below(64) as u8);
    panel.display = !random.once_in(8);
    panel.standby = random.once_in(8);
    for flag in [
        &mut panel.id,
        &mut panel.s,
        &mut panel.cursor,
        &mut panel.blink,
        &mut panel.dl,
        &mut panel.re,
        &mut panel.g,
        &mut panel.sr,
    ] {
        *flag = random.flag();
    }
    panel.scroll = random.below(64) as u8;
    panel.shift = random.below(16) as u8;
    panel.reversed.fill_with(|| random.flag());
    panel.time = random.flag();
    if panel.time {
        panel.left = random.below(1_601) as u16;
    }
    panel.numbering = random.pick(&NUMBERINGS);
    panel
}

/// A shown screen with nothing over its words.
fn plain() -> Panel {
    let mut panel = Panel::fresh(true);
    panel.display = true;
    panel
}

/// Draws on both sides, into frames of other content.
fn same(
    panel: &Panel,
    state: &[u8; proved::STATE],
    lent: Lent,
    tally: &mut Tally,
) -> Option<String> {
    let mut ours = vec![0x5A; FRAME_LENGTH];
    let mut theirs = vec![0x5A; FRAME_LENGTH];
    let proved = proved::draw(Memories::of(state), &mut ours, lent);
    let model = panel.draw(&mut theirs, lent.half, lent.full, lent.phase);
    tally.draws += 1;
    tally.boxed += u64::from(model == 0 && boxed(panel, lent.full));
    if proved != model {
        return Some(format!(
            "draw's number {proved} of the proved code, {model} of the model"
        ));
    }
    bytes("a state drawn", "picture", frame_place, &ours, &theirs)
}

fn state(panel: &Panel) -> [u8; proved::STATE] {
    panel.bytes().try_into().expect("a state is 2,341 bytes")
}

/// A state that is made up. The boundary takes a control's byte by the bits that it should have, so the others are anything.
pub fn made_up(random: &mut Random, tally: &mut Tally) -> Option<String> {
    let panel = panel(random);
    let mut state = state(&panel);
    if random.flag() {
        spoil(&mut state, &panel, random);
    }
    let half = random.bytes(HALF_FONT_LENGTH);
    let length = full_length(random);
    let full = random.bytes(length);
    let lent = Lent {
        half: &half,
        full: &full,
        phase: random.flag(),
    };
    same(&panel, &state, lent, tally)
}

/// Fills the bits of the controls that do not count: of the time left no picture shows any.
fn spoil(state: &mut [u8; proved::STATE], panel: &Panel, random: &mut Random) {
    let counter = if panel.target == Target::Graphic {
        0xF0
    } else {
        0xC0
    };
    for (at, control) in state[CONTROL_AT..][..CONTROL].iter_mut().enumerate() {
        *control |= random.byte()
            & match at {
                0 => 0xFC,
                1 => counter,
                2 | 6 | 17 => 0xC0,
                18 => 0xF0,
                24 | 25 => 0xFF,
                _ => 0xFE,
            };
    }
}

/// Every word there is, 32 to a screen, by both numberings, with a full font of any length and with an empty one.
pub fn every_word(random: &mut Random, tally: &mut Tally) -> Option<String> {
    let half = random.bytes(HALF_FONT_LENGTH);
    let longest = random.bytes(FULL_FONT_LIMIT);
    let mut shown = plain();
    for first in (0..0x1_0000).step_by(32) {
        shown.glyph.fill_with(|| random.next() as u16);
        for (k, word) in shown.text[..32].iter_mut().enumerate() {
            *word = (first + k) as u16;
        }
        let length = if random.flag() {
            FULL_FONT_LIMIT
        } else {
            32 * random.below(FULL_FONT_LIMIT / 32)
        };
        for (numbering, length) in NUMBERINGS.into_iter().flat_map(|n| [(n, length), (n, 0)]) {
            shown.numbering = numbering;
            let lent = Lent {
                half: &half,
                full: &longest[..length],
                phase: false,
            };
            if let Some(what) = same(&shown, &state(&shown), lent, tally) {
                return Some(format!(
                    "{numbering:?} numbering, words from {first:04X}, full font of {length} bytes: {what}"
                ));
            }
        }
    }
    None
}

/// The words that have a number, from the first.
fn numbered(numbering: Numbering) -> Vec<u16> {
    let words = 0xA100..=0xFFFF;
    let is_one =
        |word: &u16| full_glyph_number(numbering, (word >> 8) as u8, *word as u8).is_some();
    words.filter(is_one).collect()
}

/// Every allowed length of the full font, by both numberings, with the glyphs on both sides of its end; and lengths that are refused.
pub fn every_length(random: &mut Random, tally: &mut Tally) -> Option<String> {
    NUMBERINGS.into_iter().find_map(|numbering| {
        let different = every_length_by(numbering, random, tally);
        different.map(|what| format!("{numbering:?} numbering, {what}"))
    })
}

fn every_length_by(numbering: Numbering, random: &mut Random, tally: &mut Tally) -> Option<String> {
    let half = random.bytes(HALF_FONT_LENGTH);
    let longest = random.bytes(FULL_FONT_LIMIT + 64);
    let words = numbered(numbering);
    let mut shown = plain();
    shown.numbering = numbering;
    for glyphs in 0..=FULL_FONT_LIMIT / 32 + 1 {
        for (k, word) in shown.text[..32].iter_mut().enumerate() {
            *word = words[(glyphs + k + words.len() - 16) % words.len()];
        }
        for length in [32 * glyphs, 32 * glyphs + 1 + random.below(31)] {
            let lent = Lent {
                half: &half,
                full: &longest[..length],
                phase: true,
            };
            let different = same(&shown, &state(&shown), lent, tally);
            if different.is_some() {
                return different.map(|what| format!("full font of {length} bytes: {what}"));
            }
        }
    }
    None
}
