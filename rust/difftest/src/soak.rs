//! The soaks: cases without end, until so much was compared or so many seconds have passed.
mod pairs;
mod records;

pub use pairs::Pairs;
pub use records::Records;

use std::time::{Duration, Instant};

#[derive(Clone, Copy)]
pub enum Until {
    Compared(u64),
    Seconds(u64),
}

const SHOWN_EVERY: Duration = Duration::from_secs(5);

/// What is soaked, with what was compared so far.
pub trait Soaked {
    const NAME: &'static str;

    /// Compares the case of a number.
    fn case(&mut self, seed: u64, number: u64) -> Result<(), String>;

    /// How much there is so far of what a soak goes on for.
    fn compared(&self) -> u64;

    /// What is shown on the way: how much was compared, in words, and as the number that a speed is told of.
    fn shown(&self) -> (String, u64);

    /// What is told at the end, a line each.
    fn told(&self) -> Vec<String>;
}

fn enough(soaked: &impl Soaked, until: Until, start: Instant) -> bool {
    match until {
        Until::Compared(many) => soaked.compared() >= many,
        Until::Seconds(seconds) => start.elapsed().as_secs() >= seconds,
    }
}

fn show(soaked: &impl Soaked, start: Instant) {
    let seconds = start.elapsed().as_secs_f64();
    let (words, many) = soaked.shown();
    let speed = many as f64 / seconds;
    eprintln!("{seconds:.0} s: {words}, {speed:.0} a second");
}

pub fn run<S: Soaked>(mut soaked: S, until: Until, seed: u64) -> bool {
    let name = S::NAME;
    let start = Instant::now();
    let mut shown = start;
    let mut number = 0;
    while !enough(&soaked, until, start) {
        if let Err(what) = soaked.case(seed, number) {
            println!(
                "FAILED difftest: {name}, seed {seed}, case {number}, after {number} cases: {what}"
            );
            return false;
        }
        number += 1;
        if shown.elapsed() >= SHOWN_EVERY {
            shown = Instant::now();
            show(&soaked, start);
        }
    }
    for line in soaked.told() {
        println!("ok difftest: {name}, seed {seed}{line}");
    }
    let seconds = start.elapsed().as_secs_f64();
    println!("ok difftest: {name}, seed {seed}: {number} cases in {seconds:.0} s");
    true
}
