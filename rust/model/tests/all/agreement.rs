//! Sender to receiver, and the same state over all three links (readings 37
//! and 45).

use crate::bench::{without_link, Bench, Dice, LINKS};
use model::{send, Transfer};

/// A write: data (true) or instruction, and its byte.
type Write = (bool, u8);

fn any_write(dice: &mut Dice) -> Write {
    match dice.below(8) {
        0..=3 => (true, dice.text_byte()),
        4 => (false, 0x20 + dice.below(32) as u8),
        5 => (false, dice.below(32) as u8),
        _ => (false, dice.byte()),
    }
}

/// A function set keeps the link's own DL in bit 4.
fn keeping_width((register, byte): Write, dl: bool) -> Write {
    if !register && (0x20..=0x3F).contains(&byte) {
        (register, byte & !0x10 | u8::from(dl) << 4)
    } else {
        (register, byte)
    }
}

fn transfer((register, byte): Write) -> Transfer {
    if register {
        Transfer::DataWrite(byte)
    } else {
        Transfer::InstructionWrite(byte)
    }
}

fn as_byte(bench: &mut Bench, write: Write) -> usize {
    bench.call(transfer(keeping_width(write, true))).count
}

fn as_half_bytes(bench: &mut Bench, write: Write) -> usize {
    let (register, byte) = keeping_width(write, false);
    let upper = bench.call(transfer((register, byte & 0xF0)));
    assert_eq!((upper.reply, upper.count), (0, 0));
    bench.call(transfer((register, byte << 4))).count
}

fn as_serial(bench: &mut Bench, write: Write) -> usize {
    let (register, byte) = keeping_width(write, bench.panel.dl);
    let mut buffer = [0; 3];
    assert_eq!(send(register, byte, &mut buffer), 0);
    bench.serial_bytes(&buffer)
}

#[test]
fn what_is_sent_is_received() {
    // Every write, begun on an idle link and after every other first byte.
    for register in [false, true] {
        for byte in 0..=255 {
            let mut bench = Bench::serial();
            let mut plain = Bench::parallel();
            let mut buffer = [0; 3];
            send(register, byte, &mut buffer);
            let count = bench.serial_bytes(&buffer);
            assert_eq!(count, plain.call(transfer((register, byte))).count);
            assert_eq!(
                bench.panel.bytes()[2_331..],
                [1, 0, 0, 2, 0, 0, 0, u8::from(register), 0, 0]
            );
            let dl = bench.panel.dl;
            assert_eq!(dl, plain.panel.dl);
            assert_eq!(without_link(&bench.panel), without_link(&plain.panel));
        }
    }
}

#[test]
fn any_number_of_writes_is_received() {
    let mut dice = Dice::new(81);
    for _ in 0..60 {
        let mut bench = Bench::serial();
        let mut data = Vec::new();
        for _ in 0..40 {
            let byte = dice.byte();
            data.push(byte);
            let mut buffer = [0; 3];
            send(true, byte, &mut buffer);
            bench.serial_bytes(&buffer);
        }
        for (word, bytes) in bench.panel.text.iter().zip(data.chunks(2)) {
            assert_eq!(word.to_be_bytes(), bytes);
        }
        assert_eq!(bench.panel.counter, 20);
    }
}

/// With time it passes between whole writes alone, the same on each link.
/// Answers how many writes found the panel busy.
fn links_agree(seed: u64, time: bool) -> usize {
    let mut dice = Dice::new(seed);
    let mut busy = 0;
    for round in 0..120 {
        // Begin equal apart from link and DL, links idle.
        let start = if time {
            dice.timed(true)
        } else {
            dice.panel(true)
        };
        let mut byte = Bench::with(start.clone());
        byte.panel.dl = true;
        let mut half = Bench::with(start.clone());
        half.panel.dl = false;
        let mut serial = Bench::with(start);
        serial.panel.link = model::Link::idle(false);
        serial.panel.dl = round % 2 == 0;
        for _ in 0..40 {
            if time && dice.below(3) != 0 {
                let eights = [1, 8, 9, 199, 200, dice.byte()][dice.below(6) as usize];
                byte.pass(eights);
                half.pass(eights);
                serial.pass(eights);
            }
            busy += usize::from(byte.panel.busy());
            let write = any_write(&mut dice);
            let count = as_byte(&mut byte, write);
            assert_eq!(count, as_half_bytes(&mut half, write));
            assert_eq!(count, as_serial(&mut serial, write));
            let same = without_link(&byte.panel);
            assert_eq!(same, without_link(&half.panel));
            assert_eq!(same, without_link(&serial.panel));
            assert_eq!(byte.frame, half.frame);
            assert_eq!(byte.frame, serial.frame);
        }
        assert!(byte.panel.dl && !half.panel.dl);
        assert_eq!(serial.panel.dl, round % 2 == 0);
    }
    busy
}

#[test]
fn three_links_agree() {
    assert_eq!(links_agree(82, false), 0);
}

/// All three links lose the same writes.
#[test]
fn reading_45_three_links_agree_with_time() {
    let busy = links_agree(83, true);
    assert!((1_000..3_800).contains(&busy), "{busy} of 4,800");
}

/// With time what is sent is carried out if none was lost, and only then.
#[test]
fn reading_45_what_is_sent_is_carried_out_if_none_is_lost() {
    let mut dice = Dice::new(84);
    for eights in [0, 8, 9, 255] {
        for over in LINKS {
            let mut bench = Bench::timed(over);
            let data = dice.bytes(40);
            for &byte in &data {
                bench.write(true, byte);
                bench.pass(eights);
            }
            let mut expected = [0x2020; 64];
            if eights >= 9 {
                for (word, bytes) in expected.iter_mut().zip(data.chunks(2)) {
                    *word = u16::from_be_bytes([bytes[0], bytes[1]]);
                }
                assert_eq!(bench.panel.counter, 20);
            } else {
                // 64 of 72 passed, then the other 8: every second one is lost.
                let kept: Vec<u8> = match eights {
                    0 => data[..1].to_vec(),
                    _ => data.iter().copied().step_by(2).collect(),
                };
                for (at, &byte) in kept.iter().enumerate() {
                    let [high, low] = expected[at / 2].to_be_bytes();
                    expected[at / 2] = match at % 2 {
                        0 => u16::from_be_bytes([byte, low]),
                        _ => u16::from_be_bytes([high, byte]),
                    };
                }
            }
            assert_eq!(bench.panel.text, expected);
        }
    }
}
