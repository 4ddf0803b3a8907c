//! A difference is written down: a capture that `./run` replays, and beside it what differed.
use crate::case::Case;
use crate::wire::{reset_value, RESET};
use model::Numbering;
use std::path::PathBuf;

const FOLDER: &str = "target/difftest";

/// Writes the case and answers the message.
pub fn report(name: &str, case: &Case, what: &str) -> String {
    let mut capture = Vec::new();
    let as_replay = case.parallel && case.numbering == Numbering::Old;
    if !as_replay {
        // `replay` begins parallel with the old numbering: the reset makes the panel that this case began with.
        let value = reset_value(case.parallel, case.numbering);
        capture.extend([0xA5, 0x5A, RESET, value]);
    }
    capture.extend(&case.capture);
    let reset = if as_replay {
        ""
    } else {
        " (the capture has a reset before it)"
    };
    let message = format!("{what}\n  {}{reset}\n", surroundings(case));
    let written = write(name, "txt", message.as_bytes());
    let kept = match written.and_then(|_| write(name, "capture", &capture)) {
        Ok(path) => format!(
            "  ./run {1}{0} and difftest file {0} replay it",
            path.display(),
            if case.time { "--time " } else { "" },
        ),
        Err(why) => why,
    };
    message + &kept
}

/// Writes a file of a difference, whose name it has; answers where it is, or why it is not.
pub fn write(name: &str, extension: &str, bytes: &[u8]) -> Result<PathBuf, String> {
    let path = PathBuf::from(FOLDER).join(format!("{name}.{extension}"));
    match std::fs::create_dir_all(FOLDER).and_then(|_| std::fs::write(&path, bytes)) {
        Ok(()) => Ok(path),
        Err(error) => Err(format!(
            "  it could not be written: {}: {error}",
            path.display()
        )),
    }
}

/// What a panel is made with, and what it is lent.
pub fn surroundings(case: &Case) -> String {
    format!(
        "{} records; frame of {} bytes, half font of {}, full font of {}, phase {}, begun {} with the {} numbering{}",
        case.records(),
        describe(&case.frame),
        describe(&case.half),
        describe(&case.full),
        case.phase as u8,
        if case.parallel { "parallel" } else { "serial" },
        match case.numbering {
            Numbering::Old => "old",
            Numbering::New => "new",
        },
        if case.time { ", with time" } else { "" },
    )
}

fn describe(bytes: &[u8]) -> String {
    if bytes.iter().all(|&byte| byte == 0) {
        format!("{} zero", bytes.len())
    } else {
        format!("{} random", bytes.len())
    }
}
