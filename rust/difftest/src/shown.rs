//! What the program `show` should print, from the model: tests/show holds the stored pictures to it.
//!
//! The words are those of `show`, but that the built-in half font comes from the file that draws it (`--drawn FILE`), and that a picture
//! file goes to standard output (`--pbm`).
use model::{replay, Numbering, Panel, FRAME_LENGTH, HALF_FONT_LENGTH};
use std::io::{Read, Write};

struct Asked {
    capture: Vec<u8>,
    half: Vec<u8>,
    full: Vec<u8>,
    phase: bool,
    time: bool,
    records: usize,
    plain: bool,
    pbm: bool,
    missing: bool,
}

pub fn file(path: &str) -> Result<Vec<u8>, String> {
    std::fs::read(path).map_err(|error| format!("{path}: {error}"))
}

/// The half font that a source draws: characters from 20h on, eight to a strip, each six dots wide and thirteen high. A drawing stands one
/// dot from the left of its glyph and begins at row 2.
pub fn drawn(source: &[u8]) -> Vec<u8> {
    let source = String::from_utf8_lossy(source);
    let is_row = |line: &&str| line.len() == 55 && line.chars().all(|c| ".# ".contains(c));
    let line = |line: &'_ str| line.trim().trim_end_matches(['\\', ';', '"']).to_string();
    let rows: Vec<String> = source.lines().map(line).collect();
    let rows: Vec<&str> = rows.iter().map(String::as_str).filter(is_row).collect();
    let mut font = vec![0; HALF_FONT_LENGTH];
    for (at, row) in rows.iter().enumerate() {
        for (n, dots) in row.split(' ').enumerate() {
            let code = 0x20 + 8 * (at / 13) + n;
            let byte = dots
                .chars()
                .rev()
                .enumerate()
                .fold(0, |byte, (i, dot)| byte | u8::from(dot == '#') << (i + 1));
            font[16 * code + 2 + at % 13] = byte;
        }
    }
    font
}

fn asked(words: &[&str]) -> Result<Asked, String> {
    let mut asked = Asked {
        capture: Vec::new(),
        half: Vec::new(),
        full: Vec::new(),
        phase: false,
        time: false,
        records: usize::MAX,
        plain: false,
        pbm: false,
        missing: false,
    };
    let (mut words, mut named) = (words.iter(), false);
    while let Some(&word) = words.next() {
        let mut value = || words.next().ok_or(format!("{word}: its value is missing"));
        match word {
            "--drawn" => asked.half = drawn(&file(value()?)?),
            "--half" => asked.half = file(value()?)?,
            "--full" => asked.full = file(value()?)?,
            "--phase" => asked.phase = *value()? == "1",
            "--time" => asked.time = true,
            "--records" => asked.records = value()?.parse().map_err(|_| "no number".to_string())?,
            "--plain" => asked.plain = true,
            "--pbm" => asked.pbm = true,
            "--missing" => asked.missing = true,
            path => {
                asked.capture = file(path)?;
                named = true;
            }
        }
    }
    if !named {
        let read = std::io::stdin().read_to_end(&mut asked.capture);
        read.map_err(|error| format!("standard input: {error}"))?;
    }
    asked.capture.truncate(asked.records.saturating_mul(4));
    Ok(asked)
}

fn dot(frame: &[u8], x: usize, y: usize) -> bool {
    frame[32 * y + x / 8] & (0x80 >> (x % 8)) != 0
}

/// Two dots by four, in a box.
pub fn braille(frame: &[u8]) -> String {
    // where dot n + 1 of a Braille character stands
    let places = [
        (0, 0),
        (0, 1),
        (0, 2),
        (1, 0),
        (1, 1),
        (1, 2),
        (0, 3),
        (1, 3),
    ];
    let character = |x: usize, y: usize| {
        let bits = (0..8).filter(|&n| dot(frame, 2 * x + places[n].0, 4 * y + places[n].1));
        char::from_u32(0x2800 + bits.map(|n| 1 << n).sum::<u32>()).expect("a Braille character")
    };
    let edge = "─".repeat(128);
    let lines: String = (0..8)
        .map(|y| {
            format!(
                "│{}│\n",
                (0..128).map(|x| character(x, y)).collect::<String>()
            )
        })
        .collect();
    format!("┌{edge}┐\n{lines}└{edge}┘\n")
}

fn plain(frame: &[u8]) -> String {
    let line = |y| {
        (0..256)
            .map(|x| if dot(frame, x, y) { '#' } else { '.' })
            .chain(['\n'])
            .collect::<String>()
    };
    (0..32).map(line).collect()
}

fn caption(panel: &Panel, records: usize) -> String {
    let dark = match (panel.display, panel.standby) {
        (false, _) => ", the display is off",
        (true, true) => ", in standby",
        (true, false) => "",
    };
    format!(
        "{records} record{}{dark}\n",
        if records == 1 { "" } else { "s" }
    )
}

/// A line for each code that has no glyph in the full font.
fn missing(panel: &Panel, full: &[u8]) -> String {
    let list = panel.missing(full);
    if list.is_empty() {
        return "no glyph is missing\n".to_string();
    }
    let line = |one: &model::Missing| {
        format!(
            "no glyph for {:02X}{:02X}h: cell {}, rows {} to {}\n",
            one.lead, one.trail, one.cell, one.first_row, one.last_row
        )
    };
    list.iter().map(line).collect()
}

fn printed(words: &[&str]) -> Result<Vec<u8>, String> {
    let asked = asked(words)?;
    let mut panel = Panel::made(true, asked.time, Numbering::Old);
    let mut frame = vec![0; FRAME_LENGTH];
    let said = replay(
        &mut panel,
        &asked.capture,
        &mut frame,
        &asked.half,
        &asked.full,
        asked.phase,
    );
    if (1..=3).contains(&said.number) {
        return Err(format!("a font is refused with {}", said.number));
    }
    let picture = if asked.pbm {
        [b"P4\n256 32\n".to_vec(), frame].concat()
    } else if asked.plain {
        plain(&frame).into_bytes()
    } else {
        (braille(&frame) + &caption(&panel, said.place)).into_bytes()
    };
    let list = if asked.missing {
        missing(&panel, &asked.full)
    } else {
        String::new()
    };
    Ok([picture, list.into_bytes()].concat())
}

pub fn run(words: &[&str]) -> bool {
    let written = printed(words).and_then(|text| {
        std::io::stdout()
            .write_all(&text)
            .map_err(|error| error.to_string())
    });
    if let Err(what) = &written {
        eprintln!("difftest show: {what}");
    }
    written.is_ok()
}
