//! Two panels on one wire, with the frames and fonts of both.

use crate::bench::Bench;
use model::{send, PairOutcome, Panel, PanelPair, Selects, Side};

pub const NEITHER: Selects = selects(false, false);
pub const LEFT: Selects = selects(true, false);
pub const RIGHT: Selects = selects(false, true);
pub const BOTH: Selects = selects(true, true);

pub const SELECTS: [Selects; 4] = [NEITHER, LEFT, RIGHT, BOTH];

pub const fn selects(left: bool, right: bool) -> Selects {
    Selects { left, right }
}

/// The 24 bits of a write, as they are sent.
pub fn wire(register: bool, byte: u8) -> Vec<bool> {
    let mut buffer = [0; 3];
    assert_eq!(send(register, byte, &mut buffer), 0);
    buffer.into_iter().flat_map(wire_byte).collect()
}

/// The bits of a byte, highest first.
pub fn wire_byte(byte: u8) -> [bool; 8] {
    std::array::from_fn(|n| byte << n & 0x80 != 0)
}

/// What one side is lent.
#[derive(Clone)]
pub struct Lend {
    pub frame: Vec<u8>,
    pub half: Vec<u8>,
    pub full: Vec<u8>,
    pub phase: bool,
}

impl Lend {
    pub fn side(&mut self) -> Side<'_> {
        Side {
            frame: &mut self.frame,
            half: &self.half,
            full: &self.full,
            phase: self.phase,
        }
    }

    /// A bench's own, for another panel.
    fn of(bench: &Bench) -> Lend {
        Lend {
            frame: bench.frame.clone(),
            half: bench.half.clone(),
            full: bench.full.clone(),
            phase: bench.phase,
        }
    }

    fn picture(&self, panel: &Panel) -> Vec<u8> {
        let mut frame = vec![0x55; 1_024];
        let number = panel.draw(&mut frame, &self.half, &self.full, self.phase);
        assert_eq!(number, 0);
        frame
    }
}

/// The pair of the mast cabinet.
pub struct Cabinet {
    pub pair: PanelPair,
    pub left: Lend,
    pub right: Lend,
}

impl Cabinet {
    /// The panels of two benches with what they are lent.
    pub fn of(left: &Bench, right: &Bench) -> Cabinet {
        Cabinet {
            pair: PanelPair {
                left: left.panel.clone(),
                right: right.panel.clone(),
            },
            left: Lend::of(left),
            right: Lend::of(right),
        }
    }

    pub fn bit(&mut self, bit: bool, selects: Selects) -> PairOutcome {
        self.pair
            .bit(bit, selects, self.left.side(), self.right.side())
    }

    /// Accepted bits, each with its selects; answers the counts. Both frames
    /// are the pictures of their panels then.
    pub fn hear(&mut self, bits: impl IntoIterator<Item = (bool, Selects)>) -> (usize, usize) {
        let mut sum = (0, 0);
        for (bit, selects) in bits {
            let outcome = self.bit(bit, selects);
            assert_eq!(outcome.number, 0);
            sum.0 += outcome.left;
            sum.1 += outcome.right;
        }
        assert!(self.left.frame == self.left.picture(&self.pair.left));
        assert!(self.right.frame == self.right.picture(&self.pair.right));
        sum
    }

    /// Bits written as ones, zeros and spaces, the selects held.
    pub fn bits(&mut self, bits: &str, selects: Selects) -> (usize, usize) {
        let bits = bits.chars().filter(|&c| c != ' ');
        self.hear(bits.map(|c| (c == '1', selects)))
    }

    /// A whole write, the selects held.
    pub fn write(&mut self, register: bool, byte: u8, selects: Selects) -> (usize, usize) {
        let bits = wire(register, byte).into_iter();
        self.hear(bits.map(|bit| (bit, selects)))
    }
}
