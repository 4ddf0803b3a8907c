//! What the program `cabinet` should print, from the model: tests/cabinet holds it to that.
//!
//! The built-in half font comes from the file that draws it. A byte of the wire is a clock: bit 0 the data line, bits 1 and 2 the selects.
use crate::shown::{braille, drawn, file};
use model::{Numbering, Panel, PanelPair, Selects, Side, FRAME_LENGTH};
use std::io::{Read, Write};

fn printed(drawing: &str) -> Result<String, String> {
    let half = drawn(&file(drawing)?);
    let mut wire = Vec::new();
    std::io::stdin()
        .read_to_end(&mut wire)
        .map_err(|error| error.to_string())?;
    let fresh = || Panel::made(false, false, Numbering::Old);
    let mut pair = PanelPair {
        left: fresh(),
        right: fresh(),
    };
    let mut frames = [[0; FRAME_LENGTH]; 2];
    for inputs in &wire {
        let selects = Selects {
            left: inputs & 2 != 0,
            right: inputs & 4 != 0,
        };
        let [left, right] = frames.each_mut().map(|frame| Side {
            frame,
            half: &half,
            full: &[],
            phase: false,
        });
        pair.bit(inputs & 1 != 0, selects, left, right);
    }
    let [left, right] = frames.map(|frame| braille(&frame));
    Ok(format!("left\n{left}right\n{right}{} clocks\n", wire.len()))
}

pub fn run(drawing: &str) -> bool {
    let written = printed(drawing).and_then(|text| {
        std::io::stdout()
            .write_all(text.as_bytes())
            .map_err(|error| error.to_string())
    });
    if let Err(what) = &written {
        eprintln!("difftest cabinet: {what}");
    }
    written.is_ok()
}
