//! What meters do, as short scenes put one after the other, with noise between them.
use crate::case::NUMBERINGS;
use crate::random::Random;
use crate::wire::{Link, Wire, DATA_READ, STATUS_READ};

/// Sends scenes until the capture has so many records.
pub fn play(wire: &mut Wire, records: usize) {
    while wire.records() < records {
        if wire.random.once_in(12) {
            wire.noise();
        }
        if wire.time && wire.random.once_in(12) {
            let eights = wire.random.byte();
            wire.pass(eights);
        }
        scene(wire);
    }
}

fn scene(wire: &mut Wire) {
    match wire.random.below(32) {
        0..=6 => text(wire),
        7..=10 => images(wire),
        11..=15 => graphic(wire),
        16..=17 => read_back(wire),
        18 => switches(wire),
        19 => entry_mode(wire),
        20..=21 => moves(wire),
        22..=23 => view(wire),
        24 => standby(wire),
        25..=26 => any_instruction(wire),
        27 => any_function_set(wire),
        28 => other_width(wire),
        29 => poll(wire),
        30 => any_data(wire),
        _ => now_and_then(wire),
    }
}

/// A word of text memory, of each sort that the picture tells apart under either numbering, and at their edges.
pub fn word(random: &mut Random) -> [u8; 2] {
    match random.below(9) {
        0..=1 => [0x00, random.below(0x11) as u8],
        // Both ranges of trails, and the hole between them, where short fonts have glyphs.
        2..=3 => [
            random.pick(&[0xA1, 0xA1, 0xA2]),
            0x40 + random.below(0xC0) as u8,
        ],
        // D55F is the new numbering's code for the old one's last number.
        4 => [
            random.pick(&[0xA0, 0xA1, 0xA2, 0xD5, 0xD6, 0xD7, 0xD8, 0xF6, 0xF7, 0xF8]),
            random.pick(&[0x00, 0x3F, 0x40, 0x5F, 0x60, 0x7F, 0x80, 0x9F, 0xA0, 0xFF]),
        ],
        5..=6 => [
            0x20 + random.below(0x60) as u8,
            0x20 + random.below(0x60) as u8,
        ],
        7 => [
            random.pick(&[0x00, 0x01, 0x02, 0x03, 0x7F, 0x80]),
            random.pick(&[0x00, 0x01, 0x02, 0x7F, 0x80, 0x0F]),
        ],
        _ => [random.byte(), random.byte()],
    }
}

fn text(wire: &mut Wire) {
    if !wire.random.once_in(4) {
        wire.choose(false);
        let address = wire.random.below(0x80) as u8;
        wire.instruction(0x80 | address);
    }
    for _ in 0..1 + wire.random.below(6) {
        let [high, low] = word(&mut wire.random);
        wire.data(high);
        if !wire.random.once_in(12) {
            wire.data(low);
        }
    }
}

/// Rows of images, often after words that show them.
fn images(wire: &mut Wire) {
    wire.choose(false);
    if wire.random.flag() {
        let address = wire.random.below(0x40) as u8;
        wire.instruction(0x80 | address);
        for _ in 0..1 + wire.random.below(4) {
            let low = wire.random.below(0x10) as u8;
            wire.data(0x00);
            wire.data(low);
        }
    }
    let address = wire.random.below(0x40) as u8;
    wire.instruction(0x40 | address);
    for _ in 0..1 + wire.random.below(8) {
        let byte = wire.random.byte();
        wire.data(byte);
    }
}

fn graphic(wire: &mut Wire) {
    wire.choose(true);
    if wire.random.once_in(3) {
        wire.function_set(true, true);
    }
    if !wire.random.once_in(6) {
        let row = wire.random.byte();
        wire.instruction(0x80 | row);
        if wire.random.once_in(10) {
            any_data(wire);
        }
        let column = wire.random.byte();
        wire.instruction(0x80 | column);
    }
    for _ in 0..1 + wire.random.below(8) {
        let byte = wire.random.byte();
        wire.data(byte);
    }
}

fn read_back(wire: &mut Wire) {
    if wire.random.flag() {
        let re = wire.random.flag();
        wire.choose(re);
        let address = wire.random.byte();
        wire.instruction(0x40 | address);
    }
    for _ in 0..1 + wire.random.below(6) {
        wire.read(DATA_READ);
    }
}

/// Status; with time over and over, since it shows whether the panel is busy.
fn poll(wire: &mut Wire) {
    wire.read(STATUS_READ);
    if !wire.time {
        return;
    }
    for _ in 0..wire.random.below(5) {
        let eights = wire.random.below(6) as u8;
        wire.pass(eights);
        wire.read(STATUS_READ);
    }
}

fn switches(wire: &mut Wire) {
    wire.choose(false);
    // On, but for once in eight.
    let display = if wire.random.once_in(8) { 0 } else { 4 };
    let rest = wire.random.below(4) as u8;
    wire.instruction(0x08 | display | rest);
}

fn entry_mode(wire: &mut Wire) {
    wire.choose(false);
    let modes = wire.random.pick(&[0, 1, 2, 2, 3]);
    wire.instruction(0x04 | modes);
}

fn moves(wire: &mut Wire) {
    wire.choose(false);
    for _ in 0..1 + wire.random.below(3) {
        let way = wire.random.below(0x10) as u8;
        wire.instruction(0x10 | way);
    }
}

/// Scroll and reversed lines.
fn view(wire: &mut Wire) {
    match wire.random.below(4) {
        0 => {
            wire.choose(true);
            let line = wire.random.below(4) as u8;
            wire.instruction(0x04 | line);
        }
        1..=2 => scroll(wire),
        _ => {
            wire.choose(true);
            let sr = wire.random.below(2) as u8;
            wire.instruction(0x02 | sr);
        }
    }
}

pub fn scroll(wire: &mut Wire) {
    wire.choose(true);
    wire.instruction(0x03);
    let rows = wire.random.below(0x40) as u8;
    wire.instruction(0x40 | rows);
    // While SR is 1 there is no glyph address.
    if !wire.random.once_in(4) {
        wire.instruction(0x02);
    }
}

fn standby(wire: &mut Wire) {
    wire.choose(true);
    wire.instruction(0x01);
    if wire.random.flag() {
        any_data(wire);
    }
}

fn any_instruction(wire: &mut Wire) {
    let byte = match wire.random.below(3) {
        0 => wire.random.byte(),
        1 => 1 << wire.random.below(8),
        _ => wire.random.byte() >> wire.random.below(8),
    };
    // Clear and home take much away, so they come less often.
    if byte > 3 || wire.random.once_in(4) {
        wire.instruction(byte);
    }
}

fn any_function_set(wire: &mut Wire) {
    let bits = wire.random.below(0x20) as u8;
    wire.instruction(0x20 | bits);
}

fn other_width(wire: &mut Wire) {
    if wire.link == Link::Serial {
        any_function_set(wire);
    } else {
        wire.other_width();
    }
}

fn any_data(wire: &mut Wire) {
    let byte = wire.random.byte();
    wire.data(byte);
}

/// What a capture has rarely: another link, or everything anew.
fn now_and_then(wire: &mut Wire) {
    match wire.random.below(12) {
        0..=1 if !wire.shared => {
            let (parallel, numbering) = (wire.random.flag(), wire.random.pick(&NUMBERINGS));
            wire.reset(parallel, numbering);
            // Most often on, so that what comes next is seen.
            switches(wire);
        }
        2 => wire.instruction(0x01),
        3 => wire.instruction(0x02),
        4..=6 => wire.noise(),
        _ => switches(wire),
    }
}
