//! A difference of a pair is written down: where both panels began, and every step up to where they differ.
use super::kept::NAMES;
use super::{Pair, Side, Step};
use crate::report::{surroundings, write};

/// Writes the pair and answers the message.
pub fn report(name: &str, pair: &Pair, what: &str) -> String {
    let [left, right] = [0, 1].map(|side| began(NAMES[side], &pair.sides[side]));
    let steps: Vec<String> = pair.steps.iter().map(Step::to_string).collect();
    let message = format!(
        "{what}\n{left}{right}  {} steps: {}\n",
        steps.len(),
        steps.join(" ")
    );
    match write(name, "txt", message.as_bytes()) {
        Ok(path) => format!("{message}  written to {}", path.display()),
        Err(why) => message + &why,
    }
}

/// A panel's surroundings, and the records that led it there by kind and value.
fn began(name: &str, side: &Side) -> String {
    let surroundings = surroundings(&side.case);
    let picture = if side.picture {
        ", its frame the picture"
    } else {
        ""
    };
    let records: String = side
        .case
        .capture
        .chunks_exact(4)
        .map(|record| format!(" {}:{:02X}", record[2], record[3]))
        .collect();
    format!("  {name}: {surroundings}{picture}{records}\n")
}
