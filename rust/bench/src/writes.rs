//! Writes with their repaint, on memories that the caller keeps: the proved program `timing` against the same million turns in plain
//! Rust in place. Both are timed from outside, in turn, by what the processor gave them, and must print the same number.
use crate::timing::Times;
use std::io::Read;
use std::process::{Command, Stdio};
use std::time::Duration;

/// Built for this processor by `tools/native`.
const PROGRAM: &str = "target/native/timing";
const RUNS: usize = 21;
const TIMES: f64 = 1e6;

/// Nanoseconds of the processor that a program had, told once it has ended and before it is waited for: what it waited for while others
/// ran does not count.
fn processor_time(pid: u32) -> Option<f64> {
    let ended = || {
        let status = std::fs::read_to_string(format!("/proc/{pid}/stat")).ok()?;
        Some(status.contains(") Z "))
    };
    while !ended()? {
        std::thread::sleep(Duration::from_millis(1));
    }
    let had = std::fs::read_to_string(format!("/proc/{pid}/schedstat")).ok()?;
    had.split_whitespace().next()?.parse().ok()
}

/// Nanoseconds for one turn, over a whole run of the program, and what it printed.
fn once(command: &mut Command) -> Option<(f64, Vec<u8>)> {
    let mut child = command.stdout(Stdio::piped()).spawn().ok()?;
    let mut printed = Vec::new();
    child.stdout.take()?.read_to_end(&mut printed).ok()?;
    let time = processor_time(child.id());
    let status = child.wait().ok()?;
    status.success().then_some((time? / TIMES, printed))
}

/// The times of one thing, proved and plain.
fn both(what: &str) -> Option<[Times; 2]> {
    let here = std::env::current_exe().ok()?;
    let mut times = [Vec::new(), Vec::new()];
    for _ in 0..RUNS {
        let (plain, said) = once(Command::new(&here).args(["turns", what]))?;
        let (proved, printed) = once(Command::new(PROGRAM).arg(what))?;
        assert!(said == printed, "plain Rust counts otherwise for {what}");
        times[0].push(plain);
        times[1].push(proved);
    }
    Some(times.map(Times::of))
}

fn alone(what: &str) -> Option<Times> {
    let times = (0..RUNS).map(|_| once(Command::new(PROGRAM).arg(what)).map(|(time, _)| time));
    times.collect::<Option<Vec<_>>>().map(Times::of)
}

fn table() -> Option<()> {
    println!("\nNanoseconds for a write with its repaint: the middle of {RUNS} runs of a million each, and from the 10th to the 90th in a hundred.\n");
    println!("| write, on lent memories | plain Rust in place | proved | plain Rust / proved |");
    println!("|---|---|---|---|");
    for (name, what) in [
        ("text", "text"),
        ("glyph", "images"),
        ("graphic", "graphic"),
    ] {
        let [plain, proved] = both(what)?;
        println!(
            "| {name} | {} | {} | {:.2} |",
            plain.spread(),
            proved.spread(),
            plain.over(&proved)
        );
    }
    println!("\n| proved, alone | ns |\n|---|---|");
    for (name, what) in [
        ("text write by value", "value"),
        ("a copy of the state", "copy"),
    ] {
        println!("| {name} | {} |", alone(what)?.spread());
    }
    Some(())
}

pub fn measure() {
    if table().is_none() {
        eprintln!("bench: {PROGRAM} cannot be run: `tools/native timing` builds it, and bench is run at the project's root");
    }
}
