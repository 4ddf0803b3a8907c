//! The comparison: after every clock number, counts, states and frames of both panels.
use super::acts::Acts;
use super::begun::begin;
use super::kept::{self, not_kept, Kept, NAMES};
use super::{Pair, Short, Step};
use crate::compare::{boxed, bytes, Tally};
use crate::names::{frame_place, state_place};
use model::{Panel, PanelPair, Selects};
use proved::{Clock, PairOutcome, CONTROL_AT};

/// Where a state has the microseconds for which the panel is still busy, high byte first.
const REMAINING_AT: usize = CONTROL_AT + 24;

/// Carries out the steps on both sides; answers what differs first, if anything does.
pub fn compare(pair: &Pair, tally: &mut Tally) -> Option<String> {
    let mut both = match Both::begin(pair) {
        Ok(both) => both,
        Err(what) => return Some(what),
    };
    for (at, &step) in pair.steps.iter().enumerate() {
        if let Some(what) = both.step(step, tally) {
            return Some(format!("step {at}, {step}: {what}"));
        }
    }
    both.not_drawn(tally)
}

/// A pair between two steps: what the proved code has of it, and the model.
struct Both<'a> {
    pair: &'a Pair,
    kept: [Kept; 2],
    panels: PanelPair,
    frames: [Vec<u8>; 2],
    /// Which frames began as the picture.
    pictures: [bool; 2],
}

impl Both<'_> {
    fn begin(pair: &Pair) -> Result<Both<'_>, String> {
        let [left, right] = &pair.sides;
        let (left, right) = (begin(left)?, begin(right)?);
        Ok(Both {
            pair,
            frames: [left.kept.frame.clone(), right.kept.frame.clone()],
            kept: [left.kept, right.kept],
            panels: PanelPair {
                left: left.panel,
                right: right.panel,
            },
            pictures: [left.picture, right.picture],
        })
    }

    fn step(&mut self, step: Step, tally: &mut Tally) -> Option<String> {
        match step {
            Step::Clock(clock) => self.clock(clock, Short(0), tally),
            Step::Short(clock, short) => self.clock(clock, short, tally),
            Step::Pass(eights) => {
                self.pass(eights);
                None
            }
        }
    }

    /// Over the boundary only a replay is told of time, so what remains is put into the states as the model has it.
    fn pass(&mut self, eights: u8) {
        let panels = [&mut self.panels.left, &mut self.panels.right];
        for (panel, kept) in panels.into_iter().zip(&mut self.kept) {
            panel.left = panel.left.saturating_sub(8 * u16::from(eights));
            kept.state[REMAINING_AT..][..2].copy_from_slice(&panel.left.to_be_bytes());
        }
    }

    fn clock(&mut self, clock: Clock, short: Short, tally: &mut Tally) -> Option<String> {
        let before = self.kept.clone();
        let acts = Acts::of(&self.panels, clock);
        let proved = kept::clock(&mut self.kept, self.pair.cases(), clock, short);
        let model = self.by_the_model(clock, short);
        tally.bits += 1;
        if model.number == 0 {
            acts.count(tally);
        } else {
            tally.stops += 1;
        }
        answers(proved, model)
            .or_else(|| self.different(0, &self.panels.left))
            .or_else(|| self.different(1, &self.panels.right))
            .or_else(|| not_kept(model.number, &before, &self.kept))
    }

    fn by_the_model(&mut self, clock: Clock, short: Short) -> model::PairOutcome {
        let selects = Selects {
            left: clock.left,
            right: clock.right,
        };
        let ([left, right], [left_case, right_case]) = (&mut self.frames, self.pair.cases());
        let left = short.lent(0, left_case, left);
        let right = short.lent(1, right_case, right);
        self.panels.bit(clock.bit, selects, left, right)
    }

    /// Where state or frame of one side differ.
    fn different(&self, side: usize, panel: &Panel) -> Option<String> {
        let (name, kept) = (NAMES[side], &self.kept[side]);
        bytes(name, "state", state_place, &kept.state, &panel.bytes())
            .or_else(|| bytes(name, "frame", frame_place, &kept.frame, &self.frames[side]))
    }

    /// A frame that began as the picture is the picture at the end.
    fn not_drawn(&self, tally: &mut Tally) -> Option<String> {
        (0..2).filter(|&side| self.pictures[side]).find_map(|side| {
            tally.draws += 1;
            let panel = [&self.panels.left, &self.panels.right][side];
            tally.boxed += u64::from(boxed(panel, &self.pair.cases()[side].full));
            let wrong = self.kept[side].not_drawn(self.pair.cases()[side]);
            wrong.map(|what| format!("at the end, {}: {what}", NAMES[side]))
        })
    }
}

fn answers(proved: PairOutcome, model: model::PairOutcome) -> Option<String> {
    let number = |what: &str, proved: usize, model: usize| {
        (proved != model)
            .then(|| format!("{what} {proved} of the proved code, {model} of the model"))
    };
    number("number", proved.number.into(), model.number.into())
        .or_else(|| number("the left panel: count", proved.left.into(), model.left))
        .or_else(|| number("the right panel: count", proved.right.into(), model.right))
}
