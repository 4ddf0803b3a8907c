//! Reads a capture from standard input, replays it and prints the lines. With
//! the argument `--time` the panel has time.

use std::env;
use std::ffi::OsString;
use std::io::{self, Read, Write};
use std::process::ExitCode;

use model::{printed, replay, Numbering, Panel, FRAME_LENGTH, HALF_FONT_LENGTH};

fn main() -> io::Result<ExitCode> {
    let arguments: Vec<OsString> = env::args_os().skip(1).collect();
    let time = match arguments.as_slice() {
        [] => false,
        [only] if only == "--time" => true,
        _ => {
            eprintln!("only --time is known");
            return Ok(ExitCode::from(1));
        }
    };
    let mut capture = Vec::new();
    io::stdin().read_to_end(&mut capture)?;
    // Fresh and parallel, the old numbering, a zero frame, a zero half font, an
    // empty full font, phase 0.
    let mut panel = Panel::made(true, time, Numbering::Old);
    let mut frame = [0; FRAME_LENGTH];
    let half = [0; HALF_FONT_LENGTH];
    let replayed = replay(&mut panel, &capture, &mut frame, &half, &[], false);
    io::stdout().write_all(printed(&replayed).as_bytes())?;
    Ok(ExitCode::SUCCESS)
}
