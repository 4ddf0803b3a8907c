//! Batches of calls, timed, with their middle and spread.
use std::time::Instant;

pub const BATCHES: usize = 501;

/// Nanoseconds for one of them, in the order in which they were taken.
pub struct Times(Vec<f64>);

impl Times {
    pub fn of(times: Vec<f64>) -> Times {
        Times(times)
    }

    fn at(&self, hundredth: usize) -> f64 {
        let mut times = self.0.clone();
        times.sort_by(f64::total_cmp);
        times[(times.len() - 1) * hundredth / 100]
    }

    /// The times of one of so many equal parts.
    pub fn part(&self, parts: f64) -> Times {
        Times(self.0.iter().map(|time| time / parts).collect())
    }

    /// How many times as long as another it takes: the middle of the ratios of what was taken one after the other.
    pub fn over(&self, other: &Times) -> f64 {
        let pairs = self.0.iter().zip(&other.0);
        Times(pairs.map(|(one, other)| one / other).collect()).middle()
    }

    pub fn middle(&self) -> f64 {
        self.at(50)
    }

    /// The middle, and from the 10th to the 90th in a hundred.
    pub fn spread(&self) -> String {
        format!(
            "{:.0} ({:.0}..{:.0})",
            self.middle(),
            self.at(10),
            self.at(90)
        )
    }
}

/// Runs the calls in turn, batch by batch, so that a busy moment of the machine meets them alike. Each batch is `each` calls.
pub fn in_turn<const N: usize>(
    batches: usize,
    mut calls: [(usize, &mut dyn FnMut()); N],
) -> [Times; N] {
    let mut times = [(); N].map(|_| Vec::new());
    for _ in 0..batches {
        for ((each, call), times) in calls.iter_mut().zip(&mut times) {
            let start = Instant::now();
            for _ in 0..*each {
                call();
            }
            times.push(start.elapsed().as_nanos() as f64 / *each as f64);
        }
    }
    times.map(Times::of)
}
