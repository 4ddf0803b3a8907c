//! Names for the places of a state and a frame, for messages.
use proved::{CONTROL, CONTROL_AT, LINK_AT};

const CONTROLS: [&str; CONTROL] = [
    "target",
    "counter",
    "graphic row",
    "next half",
    "dummy due",
    "row waits",
    "waiting row",
    "I/D",
    "S",
    "display",
    "cursor",
    "blink",
    "DL",
    "RE",
    "G",
    "SR",
    "standby",
    "scroll",
    "shift",
    "line 0 reversed",
    "line 1 reversed",
    "line 2 reversed",
    "line 3 reversed",
    "with time",
    "time left, high byte",
    "time left, low byte",
    "numbering",
];

const LINK: [&str; 10] = [
    "link",
    "first half's kind",
    "first half's bits",
    "receiver",
    "run of ones",
    "header bits seen",
    "read bit",
    "register bit",
    "body bits seen",
    "data bits",
];

pub fn state_place(at: usize) -> String {
    match at {
        0..=127 => format!("text word {}, byte {}", at / 2, at % 2),
        128..=255 => format!("glyph word {}, byte {}", (at - 128) / 2, at % 2),
        256..=2303 => format!("graphic row {}, byte {}", (at - 256) / 32, at % 32),
        CONTROL_AT..LINK_AT => CONTROLS[at - CONTROL_AT].to_string(),
        _ => LINK[at - LINK_AT].to_string(),
    }
}

pub fn frame_place(at: usize) -> String {
    format!("row {}, byte {}", at / 32, at % 32)
}
