//! How pairs are made: where their panels begin, and what comes to them.
use super::sent::sent;
use super::{Pair, Side};
use crate::captures::{begin, wrong_lengths};
use crate::case::Case;
use crate::random::Random;
use crate::scenes::play;
use crate::wire::{Link, Wire};

/// Where every clock is refused, so many are enough.
const REFUSED: usize = 40;

/// The pair that a generator gives.
pub fn pair(mut random: Random) -> Pair {
    let (left, left_wire) = side(Random::new(random.next(), 0));
    let (right, right_wire) = side(Random::new(random.next(), 0));
    let (mut sides, wires) = ([left, right], [left_wire, right_wire]);
    let serial = wires.iter().all(|wire| wire.link == Link::Serial);
    let wrong = random.once_in(20);
    if wrong {
        put_wrong(&mut sides, &mut random);
    }
    let mut steps = sent(wires, random);
    if wrong || !serial {
        steps.truncate(REFUSED);
    }
    Pair { sides, steps }
}

/// A panel, most often fresh and serial, else where a capture has led it; and its wire, on which a meter keeps account of it.
fn side(mut random: Random) -> (Side, Wire) {
    let (parallel, time) = (random.once_in(24), random.once_in(3));
    let (fresh, picture) = (!random.once_in(3), random.flag());
    let mut wire = Wire::new(parallel, time, random);
    if !fresh {
        let records = 4 + wire.random.below(60);
        begin(&mut wire);
        play(&mut wire, records);
        wire.fill_record();
    }
    let capture = std::mem::take(&mut wire.capture);
    let case = Case::random(parallel, time, capture, &mut wire.random);
    (Side { case, picture }, wire)
}

/// Lengths that are refused, on the left, on the right or on both.
fn put_wrong(sides: &mut [Side; 2], random: &mut Random) {
    let which = 1 + random.below(3);
    for (n, side) in sides.iter_mut().enumerate() {
        if which >> n & 1 == 1 {
            wrong_lengths(&mut side.case, random);
        }
    }
}
