//! Programs against programs: `replay` and the model's, on the same capture, reading standard input and printing the same lines.
use crate::screen::Random;
use crate::timing::Times;
use std::fs::File;
use std::io::{self, BufWriter, Write};
use std::path::{Path, PathBuf};
use std::process::{Command, Stdio};
use std::time::{Duration, Instant};

/// The proved program, built for this processor by `tools/native`; and the model's.
const PROVED: &str = "target/native/replay";
const MODEL: &str = "rust/target/release/model";

const RUNS: usize = 11;
const RECORDS: usize = 200_000;
const LONG: usize = 25_000_000;

/// A long capture as a meter's: text, images and graphic in turn, with an address now and then.
fn write_capture(path: &Path, records: usize) -> io::Result<()> {
    let mut file = BufWriter::new(File::create(path)?);
    let mut random = Random(0x5EED_0008);
    let mut put = |kind: u8, value: u8| file.write_all(&[0xA5, 0x5A, kind, value]);
    put(0, 0x0C)?;
    for n in 1..records {
        let turn = n % 96;
        let address = random.byte();
        match turn {
            0 => put(0, 0x80 | address)?,
            32 => put(0, 0x40 | (address % 64))?,
            64 => put(0, 0x34)?,
            65 | 66 => put(0, 0x80 | address)?,
            94 => put(2, 0)?,
            95 => put(0, 0x30)?,
            _ => put(1, random.byte())?,
        }
    }
    file.flush()
}

/// How long it ran, and its peak of resident memory in kilobytes as the system last told it.
struct Run {
    seconds: f64,
    peak: u64,
}

fn peak(pid: u32) -> Option<u64> {
    let status = std::fs::read_to_string(format!("/proc/{pid}/status")).ok()?;
    let line = status.lines().find(|line| line.starts_with("VmHWM:"))?;
    line.split_whitespace().nth(1)?.parse().ok()
}

fn run(
    program: &str,
    capture: &Path,
    output: Stdio,
    look_every: Option<Duration>,
) -> io::Result<Run> {
    let start = Instant::now();
    let mut child = Command::new(program)
        .stdin(File::open(capture)?)
        .stdout(output)
        .spawn()?;
    let mut highest = 0;
    let status = match look_every {
        None => child.wait()?,
        Some(pause) => loop {
            highest = peak(child.id()).unwrap_or(0).max(highest);
            if let Some(status) = child.try_wait()? {
                break status;
            }
            std::thread::sleep(pause);
        },
    };
    if !status.success() {
        return Err(io::Error::other(format!("{program} ended with {status}")));
    }
    Ok(Run {
        seconds: start.elapsed().as_secs_f64(),
        peak: highest,
    })
}

fn temporary(name: &str) -> PathBuf {
    std::env::temp_dir().join(format!("bench-{}-{name}", std::process::id()))
}

/// Removes the files when it is dropped, also after an error.
struct Files(Vec<PathBuf>);

impl Drop for Files {
    fn drop(&mut self) {
        for file in &self.0 {
            let _ = std::fs::remove_file(file);
        }
    }
}

fn same_lines(capture: &Path, files: &mut Files) -> io::Result<()> {
    let mut printed = Vec::new();
    for (k, program) in [PROVED, MODEL].into_iter().enumerate() {
        let lines = temporary(&format!("lines-{k}"));
        files.0.push(lines.clone());
        run(program, capture, File::create(&lines)?.into(), None)?;
        printed.push(std::fs::read(&lines)?);
    }
    if printed[0] != printed[1] {
        return Err(io::Error::other("the two programs print other lines"));
    }
    Ok(())
}

fn against_the_model() -> io::Result<()> {
    let capture = temporary("capture");
    let mut files = Files(vec![capture.clone()]);
    write_capture(&capture, RECORDS)?;
    same_lines(&capture, &mut files)?;
    let mut times = [Vec::new(), Vec::new()];
    for _ in 0..RUNS {
        for (program, times) in [MODEL, PROVED].into_iter().zip(&mut times) {
            times.push(1e9 * run(program, &capture, Stdio::null(), None)?.seconds / RECORDS as f64);
        }
    }
    let [model, proved] = times.map(Times::of);
    println!("\nNanoseconds for a record, read from standard input, replayed and printed: the middle of {RUNS} runs of {RECORDS} records each, and from the 10th to the 90th in a hundred.\n");
    println!("| model's program | `replay` | ratio |");
    println!("|---|---|---|");
    println!(
        "| {} | {} | {:.0} |",
        model.spread(),
        proved.spread(),
        model.over(&proved)
    );
    Ok(())
}

fn memory() -> io::Result<()> {
    println!("\nPeak of resident memory, as /proc tells it while the program runs.\n");
    println!("| program | capture, bytes | seconds | peak, kB |");
    println!("|---|---|---|---|");
    let pause = Duration::from_millis(2);
    for (program, records) in [(PROVED, RECORDS), (PROVED, LONG), (MODEL, RECORDS)] {
        let capture = temporary("long");
        let _files = Files(vec![capture.clone()]);
        write_capture(&capture, records)?;
        let run = run(program, &capture, Stdio::null(), Some(pause))?;
        println!(
            "| `{program}` | {} | {:.1} | {} |",
            4 * records,
            run.seconds,
            run.peak
        );
    }
    Ok(())
}

pub fn measure() {
    if let Err(error) = against_the_model().and_then(|()| memory()) {
        eprintln!("bench: {error}: tools/measure builds both programs, and bench is run at the project's root");
    }
}
