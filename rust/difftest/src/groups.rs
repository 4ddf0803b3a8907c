//! Groups of cases, each compared in one way; a difference is made small and written down.
use crate::case::Case;
use crate::compare::{self, From, Tally};
use crate::minimise::minimise;
use crate::pairs::Pair;
use crate::random::Random;
use crate::report::report;
use crate::{captures, draws, modes, pairs, printed};

/// A way to make a case of a number, for a panel without time or with it.
type Make = fn(bool, Random) -> (Case, From);

/// The random groups, with how many of sixteen cases of a soak each has.
pub const RANDOM: [(&str, Make, u64); 4] = [
    ("captures", captures::whole, 11),
    ("damaged captures", captures::damaged, 2),
    ("records of any kind", captures::any_records, 2),
    ("buffers that are refused", captures::refused, 1),
];

/// A group's name, without time or with it.
pub fn named(group: &str, time: bool) -> String {
    format!("{group}{}", if time { " with time" } else { "" })
}

fn file_name(seed: u64, group: &str, number: u64) -> String {
    format!("seed-{seed}-{}-{number}", group.replace(' ', "-"))
}

/// Compares one case, and if it differs makes it small and answers the message.
pub fn one(name: &str, case: &Case, from: From, tally: &mut Tally) -> Result<(), String> {
    let Some(what) = compare::compare(case, from, tally) else {
        return Ok(());
    };
    let mut differs = |case: &Case| compare::compare(case, From(0), &mut Tally::default());
    let (small, what) = minimise(case, what, &mut differs);
    Err(report(name, &small, &what))
}

pub fn random(
    group: &str,
    make: Make,
    time: bool,
    seed: u64,
    number: u64,
    tally: &mut Tally,
) -> Result<(), String> {
    let (case, from) = make(time, Random::new(seed, number));
    let name = file_name(seed, &named(group, time), number);
    one(&name, &case, from, tally)
}

pub fn every_instruction(time: bool, seed: u64, tally: &mut Tally) -> Result<(), String> {
    for (number, (case, begins)) in modes::cases(time, seed).enumerate() {
        let name = file_name(seed, &named("instruction", time), number as u64);
        one(&name, &case, From(begins + 1), tally)?;
    }
    Ok(())
}

pub fn lines(
    time: bool,
    seed: u64,
    number: u64,
    records: usize,
    tally: &mut Tally,
) -> Result<(), String> {
    let mut random = Random::new(seed, number);
    let case = Case::printed(time, captures::to_print(time, random.clone(), records));
    let Some(what) = printed::compare(&case, &mut random, tally) else {
        return Ok(());
    };
    let mut differs =
        |case: &Case| printed::compare(case, &mut Random::new(0, 0), &mut Tally::default());
    let (small, what) = minimise(&case, what, &mut differs);
    let name = file_name(seed, &named("lines", time), number);
    Err(report(&name, &small, &what))
}

pub fn made_up(seed: u64, number: u64, tally: &mut Tally) -> Result<(), String> {
    let different = draws::made_up(&mut Random::new(seed, number), tally);
    different.map_or(Ok(()), |what| {
        Err(format!("seed {seed}, state {number}: {what}"))
    })
}

/// A pair, compared clock by clock; one that differs is made small.
pub fn pair(seed: u64, number: u64, tally: &mut Tally) -> Result<(), String> {
    let pair = pairs::pair(Random::new(seed, number));
    let Some(what) = pairs::compare(&pair, tally) else {
        return Ok(());
    };
    let mut differs = |pair: &Pair| pairs::compare(pair, &mut Tally::default());
    let (small, what) = pairs::minimise(&pair, what, &mut differs);
    let name = file_name(seed, "pairs", number);
    Err(pairs::report(&name, &small, &what))
}

pub fn any_bytes(seed: u64, number: u64, tally: &mut Tally) -> Result<(), String> {
    let wrong = pairs::any_bytes(&mut Random::new(seed, number), tally);
    wrong.map_or(Ok(()), |what| {
        Err(format!("seed {seed}, pair {number}: {what}"))
    })
}
