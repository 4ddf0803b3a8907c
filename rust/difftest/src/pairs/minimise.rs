//! A pair that differs is made small: steps and records are dropped, and what is left is made plain, as long as something still differs.
use super::{Pair, Step};
use crate::minimise::{drop_runs, Differs, Small, PLAIN};
use proved::Clock;

const LOW: [fn(&mut Clock); 3] = [
    |clock| clock.bit = false,
    |clock| clock.left = false,
    |clock| clock.right = false,
];

/// The smallest pair that was found, and what differs there.
pub fn minimise(pair: &Pair, what: String, differs: &mut Differs<Pair>) -> (Pair, String) {
    let mut small = Small::new(pair.clone(), what, differs);
    loop {
        let before = small.case.clone();
        small.drop_steps();
        for side in 0..2 {
            small.plain_side(side);
        }
        small.simplify_clocks();
        if small.case == before {
            return (small.case, small.what);
        }
    }
}

impl Small<'_, '_, Pair> {
    fn drop_steps(&mut self) {
        drop_runs(self.case.steps.len(), |from, to| {
            self.try_with(|pair| drop(pair.steps.drain(from..to)))
        });
    }

    /// A fresh serial panel over a zero frame, each if it can be.
    fn plain_side(&mut self, side: usize) {
        drop_runs(self.case.sides[side].case.records(), |from, to| {
            self.try_with(|pair| pair.sides[side].case.drop_records(from, to))
        });
        self.try_with(|pair| pair.sides[side].case.parallel = false);
        self.try_with(|pair| pair.sides[side].picture = false);
        for plain in PLAIN {
            self.try_with(|pair| plain(&mut pair.sides[side].case));
        }
    }

    /// Each clock with the bit 0 and the selects low, as many of these as can be.
    fn simplify_clocks(&mut self) {
        for (at, low) in (0..self.case.steps.len()).flat_map(|at| LOW.map(|low| (at, low))) {
            let Step::Clock(mut clock) = self.case.steps[at] else {
                continue;
            };
            low(&mut clock);
            let step = Step::Clock(clock);
            if step != self.case.steps[at] {
                self.try_with(|pair| pair.steps[at] = step);
            }
        }
    }
}
