//! A case that differs is made small: records are dropped and values simplified as long as something still differs.
use crate::case::Case;
use model::Numbering;

/// Some difference, or none.
pub type Differs<'a, T> = dyn FnMut(&T) -> Option<String> + 'a;

/// The smallest case that was found, and what differs there.
pub fn minimise(case: &Case, what: String, differs: &mut Differs<Case>) -> (Case, String) {
    let mut small = Small::new(case.clone(), what, differs);
    small.plain_surroundings();
    loop {
        let before = small.case.capture.clone();
        small.drop_records();
        small.simplify_values();
        if small.case.capture == before {
            break;
        }
    }
    small.plain_surroundings();
    (small.case, small.what)
}

/// What is being made small.
pub struct Small<'a, 'b, T> {
    pub case: T,
    pub what: String,
    differs: &'a mut Differs<'b, T>,
}

impl<'a, 'b, T: Clone> Small<'a, 'b, T> {
    pub fn new(case: T, what: String, differs: &'a mut Differs<'b, T>) -> Small<'a, 'b, T> {
        Small {
            case,
            what,
            differs,
        }
    }

    /// Keeps the changed case if it still differs.
    pub fn try_with(&mut self, change: impl FnOnce(&mut T)) -> bool {
        let mut case = self.case.clone();
        change(&mut case);
        match (self.differs)(&case) {
            Some(what) => {
                self.case = case;
                self.what = what;
                true
            }
            None => false,
        }
    }
}

/// Runs up to this length are tried at every place.
const SHORT: usize = 8;

/// Drops runs out of so many: long ones first, then each short one at every place, since a serial write is two or three records. `dropped`
/// answers whether it could be without those from one place to before another.
pub fn drop_runs(mut many: usize, mut dropped: impl FnMut(usize, usize) -> bool) {
    let mut run = many;
    while run > 0 {
        let mut at = 0;
        while at < many {
            let end = (at + run).min(many);
            if dropped(at, end) {
                many -= end - at;
            } else {
                at += if run > SHORT { run } else { 1 };
            }
        }
        run = if run > SHORT { run / 2 } else { run - 1 };
    }
}

/// A zero frame and font, no full glyphs, phase 0, no time and the old numbering: what `replay` begins with.
pub const PLAIN: [fn(&mut Case); 6] = [
    |case| case.time = false,
    |case| case.numbering = Numbering::Old,
    |case| case.full.clear(),
    |case| case.half.fill(0),
    |case| case.frame.fill(0),
    |case| case.phase = false,
];

impl Case {
    /// Without the records from one place to before another.
    pub fn drop_records(&mut self, from: usize, to: usize) {
        let end = (4 * to).min(self.capture.len());
        self.capture.drain(4 * from..end);
    }
}

impl Small<'_, '_, Case> {
    /// Each if it can be.
    fn plain_surroundings(&mut self) {
        for plain in PLAIN {
            self.try_with(plain);
        }
    }

    fn drop_records(&mut self) {
        drop_runs(self.case.records(), |from, to| {
            self.try_with(|case| case.drop_records(from, to))
        });
    }

    /// Each value 0, or else with as few bits as still differ.
    fn simplify_values(&mut self) {
        for at in (3..self.case.capture.len()).step_by(4) {
            let value = self.case.capture[at];
            if value == 0 || self.try_with(|case| case.capture[at] = 0) {
                continue;
            }
            for n in 0..8 {
                if self.case.capture[at] >> n & 1 == 1 {
                    self.try_with(|case| case.capture[at] &= !(1 << n));
                }
            }
        }
    }
}
