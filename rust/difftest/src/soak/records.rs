//! The soak of records: so many without time and as many with it. Sixteen cases without time and sixteen with it come in turn.
use super::Soaked;
use crate::compare::Tally;
use crate::gate::told;
use crate::groups;

/// Once in so many cases the program `replay` is run, and once in so many a state is made up and drawn.
const LINES_EVERY: u64 = 2_048;
const DRAWN_EVERY: u64 = 8;

/// What was compared without time, and what with it, is counted apart.
#[derive(Default)]
pub struct Records([Tally; 2]);

impl Soaked for Records {
    const NAME: &'static str = "soak";

    fn case(&mut self, seed: u64, number: u64) -> Result<(), String> {
        if number.is_multiple_of(LINES_EVERY) {
            let time = (number / LINES_EVERY) % 2 == 1;
            groups::lines(time, seed, number, 4_000, &mut self.0[usize::from(time)])?;
        }
        let time = (number / 16) % 2 == 1;
        let tally = &mut self.0[usize::from(time)];
        if number.is_multiple_of(DRAWN_EVERY) {
            groups::made_up(seed, number, tally)?;
        }
        let mut turn = number % 16;
        for (name, make, share) in groups::RANDOM {
            if turn < share {
                return groups::random(name, make, time, seed, number, tally);
            }
            turn -= share;
        }
        Ok(())
    }

    fn compared(&self) -> u64 {
        let [without, with] = &self.0;
        without.records.min(with.records)
    }

    fn shown(&self) -> (String, u64) {
        let [without, with] = [self.0[0].records, self.0[1].records];
        let words = format!("{without} records compared without time, {with} with it");
        (words, without + with)
    }

    fn told(&self) -> Vec<String> {
        let modes = self.0.iter().zip(["without time", "with time"]);
        let line = |(tally, mode): (&Tally, &str)| {
            format!(
                ", {mode}: {} compared; {} more records replayed on the way; records of kinds 0 to 7: {:?}",
                told(tally),
                tally.passed,
                tally.kinds
            )
        };
        modes.map(line).collect()
    }
}
