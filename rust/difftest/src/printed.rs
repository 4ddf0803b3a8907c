//! The comparison of processes: what the program `replay` prints, and the model's lines.
use crate::case::Case;
use crate::compare::Tally;
use crate::random::Random;
use model::{printed, replay};
use std::io::{Read, Write};
use std::process::{Command, Stdio};

/// Runs programs that `rt check` has built, under an emulator where the processor is another.
const RUNNER: &str = "tools/program";

/// What `replay` prints. The capture goes in by parts of the given lengths, since a pipe may hand over as little as it likes.
fn proved_lines(case: &Case, parts: &[usize]) -> Result<Vec<u8>, String> {
    let fault = |error: std::io::Error| {
        format!("{RUNNER} replay: {error}; difftest is run at the project's root")
    };
    let mut child = Command::new(RUNNER)
        .arg("replay")
        .args(case.time.then_some("--time"))
        .stdin(Stdio::piped())
        .stdout(Stdio::piped())
        // where it says that it stopped, which its last line says too
        .stderr(Stdio::null())
        .spawn()
        .map_err(fault)?;
    let mut input = child.stdin.take().expect("standard input is piped");
    let mut output = child.stdout.take().expect("standard output is piped");
    let mut lines = Vec::new();
    std::thread::scope(|scope| {
        scope.spawn(move || {
            let mut rest = &case.capture[..];
            let mut lengths = parts.iter().copied().cycle();
            while !rest.is_empty() {
                let length = lengths.next().unwrap_or(rest.len()).clamp(1, rest.len());
                // The program stops reading at the first refusal, so that a write may fail.
                if input.write_all(&rest[..length]).is_err() {
                    return;
                }
                rest = &rest[length..];
            }
        });
        output.read_to_end(&mut lines)
    })
    .map_err(fault)?;
    let status = child.wait().map_err(fault)?;
    if !status.success() {
        return Err(format!("replay ended with {status}"));
    }
    Ok(lines)
}

fn model_lines(case: &Case) -> String {
    let mut panel = case.panel();
    let mut frame = case.frame.clone();
    let said = replay(
        &mut panel,
        &case.capture,
        &mut frame,
        &case.half,
        &case.full,
        case.phase,
    );
    printed(&said)
}

/// Answers the first line that differs, if one does, of a case that is what `replay` begins with.
pub fn compare(case: &Case, random: &mut Random, tally: &mut Tally) -> Option<String> {
    let model = model_lines(case);
    let parts: Vec<usize> = match random.below(4) {
        0 => vec![1, 3, 4_095, 1],
        1 => vec![5 + random.below(5_000), 1 + random.below(7)],
        _ => Vec::new(),
    };
    let proved = match proved_lines(case, &parts) {
        Ok(lines) => lines,
        Err(why) => return Some(why),
    };
    let count = model.lines().count() as u64;
    tally.lines += count;
    if proved == model.as_bytes() {
        return None;
    }
    let proved = String::from_utf8_lossy(&proved);
    let mut ours = proved.split_inclusive('\n');
    let mut theirs = model.split_inclusive('\n');
    for line in 0.. {
        let (our, their) = (ours.next(), theirs.next());
        if our != their {
            let shown = |line: Option<&str>| line.map_or("none".to_string(), |l| format!("{l:?}"));
            return Some(format!(
                "printed line {line}: {} of the proved program, {} of the model",
                shown(our),
                shown(their)
            ));
        }
        if our.is_none() {
            break;
        }
    }
    Some("the printed lines are no text".to_string())
}
