//! Captures as they should not be: one thing is put wrong, most often near the end, so that much is replayed before it.
use crate::random::Random;
use crate::wire::{EIGHT_BITS, RESET, SELECT_LOW};

/// Often the first byte that is not allowed, else any from there on.
fn from(first: u8, random: &mut Random) -> u8 {
    if random.flag() {
        return first;
    }
    first + random.below(256 - usize::from(first)) as u8
}

pub fn damage(capture: &mut Vec<u8>, time: bool, random: &mut Random) {
    let records = capture.len() / 4;
    if records == 0 {
        capture.extend([0xA5, 0x5A, 0x00]);
        return;
    }
    let at = 4 * random.below(records).max(random.below(records));
    match random.below(10) {
        // One to three bytes remain.
        0 => capture.truncate(at + 1 + random.below(3)),
        1 => {
            let length = 1 + random.below(3);
            capture.extend(random.bytes(length));
        }
        // A mark that is wrong in a bit, or whose bytes have changed places.
        2 => capture[at + random.clone().below(2)] ^= 1 << random.below(8),
        3 => capture.swap(at, at + 1),
        // A kind above 6, with time above 7.
        4 => capture[at + 2] = from(if time { 8 } else { 7 }, random),
        // A value that is not allowed, or any other kind and value.
        5 => {
            let kind = random.pick(&[2, 3, 5, RESET, RESET]);
            capture[at + 2] = kind;
            capture[at + 3] = from(if kind == RESET { 4 } else { 1 }, random);
        }
        6 => capture[at + 2] = random.below(9) as u8,
        // A record of the other link, on a panel of either.
        7 => {
            capture[at + 2] = random.pick(&[0, 1, 2, 3, EIGHT_BITS, SELECT_LOW]);
            capture[at + 3] = 0;
        }
        // A byte lost or put in: all after it is out of step.
        8 => {
            capture.remove(at + random.clone().below(4));
        }
        _ => {
            let byte = random.pick(&[0xA5, 0x5A, 0x00]);
            capture.insert(at + random.clone().below(4), byte);
        }
    }
}
