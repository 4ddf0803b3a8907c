//! A capture from a file, compared in every way: printed, and over the boundary with other fonts, frames and phases, each without and with time.
use crate::case::Case;
use crate::compare::{compare, From, Tally};
use crate::gate::told;
use crate::printed;
use crate::random::Random;

fn differs(time: bool, capture: &[u8], tally: &mut Tally) -> Option<String> {
    let mut random = Random::new(0, 0);
    let plain = Case::printed(time, capture.to_vec());
    printed::compare(&plain, &mut random, tally)
        .or_else(|| compare(&plain, From(0), tally))
        .or_else(|| {
            (0..8).find_map(|_| {
                // A capture in a file begins with what `replay` begins with.
                let case = Case {
                    numbering: plain.numbering,
                    ..Case::random(plain.parallel, time, capture.to_vec(), &mut random)
                };
                compare(&case, From(0), tally)
            })
        })
}

pub fn run(path: &str) -> bool {
    let capture = match std::fs::read(path) {
        Ok(capture) => capture,
        Err(error) => {
            eprintln!("{path}: {error}");
            return false;
        }
    };
    let mut tally = Tally::default();
    let different = [false, true]
        .into_iter()
        .find_map(|time| differs(time, &capture, &mut tally));
    match different {
        None => println!("ok difftest: {path}: {} compared", told(&tally)),
        Some(what) => {
            println!("FAILED difftest: {path}: {what}");
            return false;
        }
    }
    true
}
