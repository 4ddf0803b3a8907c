//! States of any bytes, also such as no panel leaves. The model has none of them, so the proved pair is held to what holds of every call.
use super::kept::{clock, not_kept, Kept, NAMES};
use super::Short;
use crate::case::Case;
use crate::compare::Tally;
use crate::random::Random;
use model::{FRAME_LENGTH, HALF_FONT_LENGTH};
use proved::{Clock, Memories, PairOutcome, LINK_AT, STATE};

/// Some clocks to two panels of any bytes, whose frames are their pictures; answers what is wrong, if anything is.
pub fn any_bytes(random: &mut Random, tally: &mut Tally) -> Option<String> {
    let cases = [(); 2].map(|()| Case::random(false, false, Vec::new(), random));
    let cases = [&cases[0], &cases[1]];
    let mut kept = cases.map(|case| any_kept(case, random));
    for at in 0..1 + random.below(24) {
        let short = if random.once_in(16) {
            Short(1 + random.below(63) as u8)
        } else {
            Short(0)
        };
        let before = kept.clone();
        let number = refusal(&before, cases, short);
        let said = clock(&mut kept, cases, any_clock(random), short);
        tally.bits += 1;
        tally.stops += u64::from(said.number != 0);
        if said.number != number {
            return Some(format!("clock {at}: {said:?} where the number is {number}"));
        }
        if let Some(what) = wrong(said, &before, &kept) {
            return Some(format!("clock {at}: {what}"));
        }
    }
    tally.draws += 2;
    (0..2).find_map(|side| {
        let wrong = kept[side].not_drawn(cases[side]);
        wrong.map(|what| format!("at the end, {}: {what}", NAMES[side]))
    })
}

/// The number that the clock is refused with: of what is a byte short, the left panel's first; 5 where a link's first byte is even.
fn refusal(kept: &[Kept; 2], cases: [&Case; 2], short: Short) -> u8 {
    let of_side = |side: usize| {
        let mut frame = kept[side].frame.clone();
        let lent = short.lent(side, cases[side], &mut frame);
        match (lent.frame.len(), lent.half.len(), lent.full.len()) {
            (FRAME_LENGTH, HALF_FONT_LENGTH, full) if full % 32 == 0 => 0,
            (FRAME_LENGTH, HALF_FONT_LENGTH, _) => 3,
            (FRAME_LENGTH, _, _) => 2,
            _ => 1,
        }
    };
    let parallel = kept.iter().any(|kept| kept.state[LINK_AT] % 2 == 0);
    let numbers = [of_side(0), of_side(1), 5 * u8::from(parallel)];
    numbers.into_iter().find(|&number| number != 0).unwrap_or(0)
}

/// A panel of any bytes, most often serial, with its picture.
fn any_kept(case: &Case, random: &mut Random) -> Kept {
    let mut state: [u8; STATE] = random.bytes(STATE).try_into().expect("2,341 bytes");
    let link = &mut state[LINK_AT..];
    if !random.once_in(8) {
        link[0] |= 1;
    }
    // Often as a receiver has them, or one beside that: where it is, the run of ones, header bits seen, body bits seen.
    for (at, limit) in [(3, 4), (4, 6), (5, 4), (8, 18)] {
        if random.flag() {
            link[at] %= limit;
        }
    }
    let mut frame = case.frame.clone();
    proved::draw(Memories::of(&state), &mut frame, case.lent());
    Kept { state, frame }
}

/// Zeros more often than ones, so that bytes are completed.
fn any_clock(random: &mut Random) -> Clock {
    Clock {
        bit: random.once_in(4),
        left: !random.once_in(8),
        right: !random.once_in(8),
    }
}

fn wrong(said: PairOutcome, before: &[Kept; 2], after: &[Kept; 2]) -> Option<String> {
    let counts = [said.left, said.right].map(usize::from);
    if counts.iter().any(|&count| count > FRAME_LENGTH) {
        return Some(format!("{said:?} is no answer"));
    }
    if said.number != 0 && counts != [0, 0] {
        return Some(format!("{said:?}: a refusal has counts"));
    }
    not_kept(said.number, before, after).or_else(|| {
        (0..2).find_map(|side| {
            let frames = before[side].frame.iter().zip(&after[side].frame);
            let painted = frames.filter(|(before, after)| before != after).count();
            (painted > counts[side])
                .then(|| format!("{}: {painted} bytes changed: {said:?}", NAMES[side]))
        })
    })
}
