//! What comes over the wire of two panels.
use super::lines::{any_selects, Lines, BOTH, LEFT, NEITHER, RIGHT};
use super::{Short, Step};
use crate::captures::begin;
use crate::random::Random;
use crate::scenes::play;
use crate::wire::{Wire, EIGHT_BITS, PASS};
use model::Selects;
use proved::Clock;

/// Most often both displays are put on. Then come scenes, for the left panel, the right, both or neither, and noise between them.
pub fn sent(mut wires: [Wire; 2], random: Random) -> Vec<Step> {
    let steps = Vec::new();
    let mut sent = Sent { random, steps };
    for (wire, own) in wires.iter_mut().zip([LEFT, RIGHT]) {
        wire.share();
        begin(wire);
        let held = sent.random.pick(&[own, own, BOTH]);
        sent.records(wire, |_, _| Lines::Held(held));
    }
    for _ in 0..sent.random.below(8) {
        if sent.random.once_in(12) {
            sent.noise();
        } else {
            sent.scenes(&mut wires);
        }
    }
    sent.steps
}

struct Sent {
    random: Random,
    steps: Vec<Step>,
}

impl Sent {
    /// Scenes over the wire of a panel that hears them; where both do or neither, over either.
    fn scenes(&mut self, wires: &mut [Wire; 2]) {
        let held = match self.random.below(10) {
            0..=2 => LEFT,
            3..=5 => RIGHT,
            6..=8 => BOTH,
            _ => NEITHER,
        };
        let right = if held.left == held.right {
            self.random.flag()
        } else {
            held.right
        };
        let wire = &mut wires[usize::from(right)];
        let records = 1 + self.random.below(8);
        wire.begin_anew();
        play(wire, records);
        self.records(wire, |bits, random| Lines::over(bits, held, random));
    }

    /// Bits that mean nothing, many of them ones, with the selects anywhere.
    fn noise(&mut self) {
        for _ in 0..self.random.below(80) {
            let bit = !self.random.once_in(4);
            let selects = any_selects(&mut self.random);
            self.clock(bit, selects);
        }
    }

    /// What the wire's records carry, with the select lines that are chosen for so many bits.
    fn records(&mut self, wire: &mut Wire, lines: impl Fn(usize, &mut Random) -> Lines) {
        wire.fill_record();
        let capture = std::mem::take(&mut wire.capture);
        let lines = lines(8 * capture.len() / 4, &mut self.random);
        let mut bits = 0..;
        for record in capture.chunks_exact(4) {
            match (record[2], record[3]) {
                (EIGHT_BITS, byte) => self.byte(byte, &lines, &mut bits),
                (PASS, eights) => self.steps.push(Step::Pass(eights)),
                // Chip select low is that of both.
                _ => {
                    let bit = self.random.flag();
                    self.clock(bit, NEITHER);
                }
            }
        }
    }

    fn byte(&mut self, byte: u8, lines: &Lines, bits: &mut impl Iterator<Item = usize>) {
        for (n, bit) in (0..8).rev().zip(bits) {
            let selects = lines.at(bit, &mut self.random);
            self.clock(byte >> n & 1 == 1, selects);
        }
    }

    /// A clock; now and then it comes before that with buffers that are short.
    fn clock(&mut self, bit: bool, Selects { left, right }: Selects) {
        let clock = Clock { bit, left, right };
        if self.random.once_in(64) {
            let short = Short(1 + self.random.below(63) as u8);
            self.steps.push(Step::Short(clock, short));
        }
        self.steps.push(Step::Clock(clock));
    }
}
