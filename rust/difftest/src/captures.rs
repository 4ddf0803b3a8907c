//! Random captures: whole ones, damaged ones, and with buffers that are refused.
use crate::case::{Case, NUMBERINGS, OLD_END};
use crate::compare::From;
use crate::damage::damage;
use crate::random::Random;
use crate::scenes::{self, play};
use crate::wire::{Link, Wire, PASS, RESET, SELECT_LOW};
use model::{FRAME_LENGTH, FULL_FONT_LIMIT, HALF_FONT_LENGTH};

/// A capture as a meter's, with noise; every record of a short one is compared, of a long one the last ones, since each is compared
/// by a replay of all that comes before it.
pub fn whole(time: bool, mut random: Random) -> (Case, From) {
    let parallel = !random.once_in(3);
    let (passed, compared) = match random.below(64) {
        0 => (200 + random.below(600), 16),
        1..=8 => (random.below(120), 32),
        _ => (0, 4 + random.below(40)),
    };
    let mut wire = Wire::new(parallel, time, random);
    begin(&mut wire);
    play(&mut wire, passed + compared);
    wire.fill_record();
    let Wire {
        capture,
        mut random,
        ..
    } = wire;
    let case = Case::random(parallel, time, capture, &mut random);
    (case, From(passed))
}

/// Most captures begin with the display on, and many with the modes that show most.
pub fn begin(wire: &mut Wire) {
    if wire.link != Link::Serial && wire.random.once_in(3) {
        wire.other_width();
    }
    if wire.random.once_in(4) {
        return;
    }
    let (switches, entry) = (wire.random.below(4) as u8, wire.random.below(4) as u8);
    wire.instruction(0x0C | switches);
    if wire.random.once_in(4) {
        wire.instruction(0x04 | entry);
    }
    if wire.random.flag() {
        wire.function_set(true, false);
        wire.function_set(true, true);
    }
    if wire.random.once_in(3) {
        scenes::scroll(wire);
    }
}

/// The same, damaged: replay stops where the damage is.
pub fn damaged(time: bool, random: Random) -> (Case, From) {
    let mut own = random.clone();
    let (mut case, _) = whole(time, random);
    case.capture.truncate(4 * 64);
    damage(&mut case.capture, time, &mut own);
    let near = case.records().saturating_sub(8);
    (case, From(if own.once_in(4) { 0 } else { near }))
}

/// Records of any kind and value, marks right.
pub fn any_records(time: bool, mut random: Random) -> (Case, From) {
    let parallel = random.flag();
    let mut capture = Vec::new();
    for _ in 0..random.below(32) {
        let kind = if parallel { random.below(4) } else { 4 } as u8;
        let (kind, value) = match (random.below(24), kind) {
            (0, _) => (random.below(9) as u8, random.byte()),
            // Up to the first value that is not allowed.
            (1, _) if random.flag() => (SELECT_LOW, random.below(2) as u8),
            (1, _) => (RESET, random.below(5) as u8),
            // 72 microseconds are nine times eight, 1,600 two hundred times.
            (2..=9, _) if time => (PASS, random.pick(&[0, 1, 8, 9, 10, 199, 200, 255])),
            (_, 2 | 3) => (kind, 0),
            _ => (kind, random.byte()),
        };
        capture.extend([0xA5, 0x5A, kind, value]);
    }
    let case = Case::random(parallel, time, capture, &mut random);
    (case, From(0))
}

/// Buffers of wrong lengths, one or more at a time: refusals 1, 2 and 3.
pub fn refused(time: bool, random: Random) -> (Case, From) {
    let mut own = random.clone();
    let (mut case, _) = whole(time, random);
    case.capture.truncate(4 * 16);
    wrong_lengths(&mut case, &mut own);
    (case, From(0))
}

/// One or more of the buffers get a length that is refused.
pub fn wrong_lengths(case: &mut Case, own: &mut Random) {
    let wrong = 1 + own.below(7);
    if wrong & 1 != 0 {
        let length = own.pick(&[
            0,
            1,
            512,
            FRAME_LENGTH - 1,
            FRAME_LENGTH + 1,
            2 * FRAME_LENGTH,
        ]);
        case.frame = own.bytes(length);
    }
    if wrong & 2 != 0 {
        let length = own.pick(&[
            0,
            16,
            HALF_FONT_LENGTH - 1,
            HALF_FONT_LENGTH + 1,
            2 * HALF_FONT_LENGTH,
        ]);
        case.half = own.bytes(length);
    }
    if wrong & 4 != 0 {
        let odd = 32 * own.below(300) + 1 + own.below(31);
        let length = own.pick(&[
            1,
            31,
            33,
            odd,
            OLD_END - 1,
            OLD_END + 1,
            FULL_FONT_LIMIT - 1,
            FULL_FONT_LIMIT + 1,
            FULL_FONT_LIMIT + 32,
        ]);
        case.full = own.bytes(length);
    }
}

/// A long capture for the program `replay`, now and then damaged. It begins parallel with the old numbering, and changes over by resets.
pub fn to_print(time: bool, mut random: Random, records: usize) -> Vec<u8> {
    let mut own = random.clone();
    let parallel = !random.once_in(3);
    let numbering = random.pick(&NUMBERINGS);
    let mut wire = Wire::new(true, time, random);
    wire.reset(parallel, numbering);
    begin(&mut wire);
    play(&mut wire, records);
    wire.fill_record();
    if own.once_in(3) {
        damage(&mut wire.capture, time, &mut own);
    }
    wire.capture
}
