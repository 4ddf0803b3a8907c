//! Every instruction byte in every mode that instructions look at, over each link.
use crate::case::Case;
use crate::random::Random;
use crate::scenes::word;
use crate::wire::{Link, Wire, DATA_READ};

const LINKS: [Link; 3] = [Link::Bytes, Link::Halves, Link::Serial];

/// RE, with what only stands while RE is 1.
#[derive(Clone, Copy)]
enum Set {
    Basic,
    Extended,
    RowWaits,
    Standby,
}

const SETS: [Set; 4] = [Set::Basic, Set::Extended, Set::RowWaits, Set::Standby];

/// RE, a waiting row, standby; SR; G; target. The other modes (S, I/D, half, dummy, switches, view) are taken at random.
const MODES: usize = 4 * 2 * 2 * 3;

/// A capture that leads to the mode, then the instruction, and the record where that begins. With time the panel is busy there and loses
/// it, which leaves the mode; time passes, and it comes again.
fn capture(link: Link, time: bool, mode: usize, byte: u8, random: Random) -> (Vec<u8>, usize) {
    let mut wire = Wire::new(link != Link::Serial, time, random);
    wire.patient = true;
    if link == Link::Halves {
        wire.other_width();
    }
    prelude(&mut wire, mode);
    let begins = wire.records();
    if time {
        wire.instruction_at_once(byte);
    }
    wire.instruction(byte);
    (wire.capture, begins)
}

fn prelude(wire: &mut Wire, mode: usize) {
    let set = SETS[mode % 4];
    let sr = (mode / 4 % 2) as u8;
    let g = mode / 8 % 2 == 1;
    let target = mode / 16;
    let (entry, switches) = (wire.random.below(4) as u8, wire.random.below(16) as u8);
    wire.instruction(0x08 | switches & 7);
    wire.instruction(0x04 | entry);
    let address = wire.random.byte();
    match target {
        0 => wire.instruction(0x80 | address),
        1 => wire.instruction(0x40 | address & 0x3F),
        _ => {}
    }
    wire.function_set(true, false);
    wire.function_set(true, g);
    // Shift and scroll, so that named bytes are not where they would be without.
    if sr == 1 || wire.random.flag() {
        let rows = wire.random.byte() & 0x3F;
        wire.instruction(0x03);
        wire.instruction(0x40 | rows);
    }
    wire.instruction(0x02 | sr);
    let line = wire.random.below(4) as u8;
    wire.instruction(0x04 | line);
    if target == 2 {
        let row = wire.random.byte();
        wire.instruction(0x80 | row);
        wire.instruction(0x80 | address);
    }
    if wire.random.flag() {
        wire.read(DATA_READ);
    }
    for byte in word(&mut wire.random)
        .into_iter()
        .take(wire.random.clone().below(3))
    {
        wire.data(byte);
    }
    match set {
        Set::Basic => wire.function_set(false, false),
        Set::Extended => {}
        Set::RowWaits => {
            let row = wire.random.byte();
            wire.instruction(0x80 | row);
        }
        Set::Standby => wire.instruction(0x01),
    }
}

/// The whole of it as cases: each mode on each link with each byte.
pub fn cases(time: bool, seed: u64) -> impl Iterator<Item = (Case, usize)> {
    LINKS.into_iter().flat_map(move |link| {
        (0..MODES).flat_map(move |mode| {
            let number = (link as u64) << 8 | mode as u64;
            let mut surroundings = Random::new(seed, number);
            let parallel = link != Link::Serial;
            let case = Case::random(parallel, time, Vec::new(), &mut surroundings);
            (0..=255).map(move |byte| {
                let (capture, begins) = capture(link, time, mode, byte, surroundings.clone());
                let case = Case {
                    capture,
                    ..case.clone()
                };
                (case, begins)
            })
        })
    })
}
