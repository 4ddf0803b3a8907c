//! Turns of one thing, as the proved program `timing` does them, in plain Rust in place: the same transfers, the same
//! lent frame and fonts, the same number printed at the end.
use crate::in_place::{Panel, Transfer};
use crate::state::BY_96;

fn mixed(sum: u32, with: usize) -> u32 {
    (sum % 65536) * 31 + (with % 65536) as u32
}

fn letter(i: u32) -> Transfer {
    Transfer::Write(0x21 + (i % 64) as u8)
}

fn text_turn(i: u32) -> Transfer {
    match i {
        0 => Transfer::Instruct(0x0F),
        1 => Transfer::Instruct(0x80),
        _ => letter(i),
    }
}

fn images_turn(i: u32) -> Transfer {
    match i {
        0 => Transfer::Instruct(0x0F),
        1 => Transfer::Instruct(0x80),
        2..=129 if i % 2 == 0 => Transfer::Write(0x00),
        2..=129 => Transfer::Write((i / 2 % 16) as u8),
        130 => Transfer::Instruct(0x40),
        _ => letter(i),
    }
}

fn graphic_turn(i: u32) -> Transfer {
    match i {
        0 => Transfer::Instruct(0x0F),
        1 => Transfer::Instruct(0x34),
        2 => Transfer::Instruct(0x36),
        3 => Transfer::Instruct(0x83),
        4 => Transfer::Instruct(0x80),
        _ => letter(i),
    }
}

fn turn(what: u8, i: u32) -> Transfer {
    match what {
        b'i' => images_turn(i),
        b'g' => graphic_turn(i),
        _ => text_turn(i),
    }
}

/// So many turns; the first letter says of what, as with `timing`. Answers the number that `timing` prints.
pub fn run(what: u8, times: u32) -> u32 {
    let mut panel = Panel::fresh(false, BY_96);
    let mut frame = [0u8; 1024];
    let half = [0u8; 2048];
    let full = [0u8; 32];
    let mut sum = 0;
    for i in 0..times {
        let answer = panel.transfer(turn(what, i), &mut frame, &half, &full, false);
        sum = mixed(sum, answer.count);
    }
    sum
}
