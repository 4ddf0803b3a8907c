//! Compares the proved code with the model, which was written from document 01 apart from it.
//!
//!     difftest                       the cases of the gate: a line 'ok ..' for each group
//!     difftest soak [MANY] [SEED]    random cases until MANY records were compared without time and as many with it; 600s is for so many
//!                                    seconds
//!     difftest soak-pairs [MANY] [SEED]
//!                                    random pairs until MANY bits of the wire were compared, or for so many seconds
//!     difftest file FILE             one capture, without time and with it
//!     difftest show WORDS..          what `show` should print, from the model (module `shown`)
//!     difftest cabinet FONT          what `cabinet` should print for the wire on standard input, from the model
//!
//! It is run at the project's root. A difference is made small and written to target/difftest.
mod cabinet;
mod captures;
mod case;
mod compare;
mod damage;
mod draws;
mod file;
mod gate;
mod groups;
mod minimise;
mod modes;
mod names;
mod pairs;
mod printed;
mod random;
mod report;
mod scenes;
mod sender;
mod shown;
mod soak;
mod wire;

use soak::{Pairs, Records, Soaked, Until};

fn until(word: &str) -> Option<Until> {
    match word.strip_suffix('s') {
        Some(seconds) => seconds.parse().ok().map(Until::Seconds),
        None => word.parse().ok().map(Until::Compared),
    }
}

/// Until ten million were compared and from seed 1, where the words say nothing else.
fn soak<S: Soaked + Default>(words: &[&str]) -> Option<bool> {
    let (many, seed) = match *words {
        [] => (Until::Compared(10_000_000), 1),
        [many] => (until(many)?, 1),
        [many, seed] => (until(many)?, seed.parse().ok()?),
        _ => return None,
    };
    Some(soak::run(S::default(), many, seed))
}

fn run(words: &[&str]) -> Option<bool> {
    match *words {
        [] => Some(gate::run()),
        ["soak", ref words @ ..] => soak::<Records>(words),
        ["soak-pairs", ref words @ ..] => soak::<Pairs>(words),
        ["file", path] => Some(file::run(path)),
        ["show", ref words @ ..] => Some(shown::run(words)),
        ["cabinet", font] => Some(cabinet::run(font)),
        _ => None,
    }
}

fn main() {
    let words: Vec<String> = std::env::args().skip(1).collect();
    let words: Vec<&str> = words.iter().map(String::as_str).collect();
    let passed = run(&words).unwrap_or_else(|| {
        eprintln!("usage: difftest [soak [RECORDS | SECONDSs] [SEED] | soak-pairs [BITS | SECONDSs] [SEED]");
        eprintln!("                | file FILE | show WORDS.. | cabinet FONT]");
        false
    });
    if !passed {
        std::process::exit(1);
    }
}
