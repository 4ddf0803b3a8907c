//! Readings 17 to 22: the serial link, bit by bit.

use crate::bench::{without_link, Bench, Dice};
use model::{Link, Receiver};

fn receiver(bench: &Bench) -> Receiver {
    match bench.panel.link {
        Link::Serial(receiver) => receiver,
        Link::Parallel(_) => panic!("a serial link"),
    }
}

fn hunting(run: u8) -> Receiver {
    Receiver::Hunting { run }
}

fn header(seen: u8, read: bool, register: bool) -> Receiver {
    Receiver::Header {
        seen,
        read,
        register,
    }
}

fn body(run: u8, register: bool, seen: u8, data: u8) -> Receiver {
    Receiver::Body {
        run,
        register,
        seen,
        data,
    }
}

/// Where a fresh receiver is after these bits; nothing has acted.
fn after(bits: &str) -> Receiver {
    let mut bench = Bench::serial();
    let fresh = without_link(&bench.panel);
    assert_eq!(bench.bits(bits), 0);
    assert_eq!(without_link(&bench.panel), fresh);
    receiver(&bench)
}

#[test]
fn reading_17_hunting_and_header() {
    assert_eq!(after(""), hunting(0));
    assert_eq!(after("1111"), hunting(4));
    assert_eq!(after("1111 0"), hunting(0));
    assert_eq!(after("1111 0 11111"), header(0, false, false));
    assert_eq!(after("11111 0"), header(1, false, false));
    assert_eq!(after("11111 1"), header(1, true, false));
    assert_eq!(after("11111 01"), header(2, false, true));
    assert_eq!(after("11111 11"), header(2, true, true));
    assert_eq!(after("11111 010"), body(0, true, 0, 0));
    assert_eq!(after("11111 000"), body(0, false, 0, 0));
    // Read = 1 or third bit = 1 loses sync with the run at 0.
    for bits in ["100", "101", "110", "111", "001", "011"] {
        assert_eq!(after(&format!("11111 {bits}")), hunting(0));
    }
    // Read data, 11111110, does not start twice.
    assert_eq!(after("1111 1110 11"), hunting(2));
    assert_eq!(after("1111 1111 1111"), hunting(4));
    assert_eq!(after("1111 1111 11111"), header(0, false, false));
}

#[test]
fn reading_17_five_ones_in_the_body() {
    // Data bits of one group and a one among its zeros.
    assert_eq!(after("11111 010 1111 1"), header(0, false, false));
    // A header's own ones do not count: three data ones, then four.
    assert_eq!(after("11111 010 111"), body(3, true, 3, 7));
    assert_eq!(after("11111 010 1111"), body(4, true, 4, 15));
    assert_eq!(after("11111 010 1111 0"), body(0, true, 5, 15));
    // What was half received is dropped; the new header begins clean.
    let mut bench = Bench::serial();
    bench.bits("11111 010 0100 0000 1111 1 010 0100 0000 0010 0000");
    assert_eq!(bench.panel.text[0], 0x4220);
}

#[test]
fn reading_18_a_one_among_the_zeros() {
    for place in 4..8 {
        for data in 0..16u8 {
            for group in [0, 1] {
                let mut bits = String::from("11111 010");
                if group == 1 {
                    bits.push_str("1010 0000");
                }
                bits.push_str(&format!("{data:04b}"));
                bits.push_str(&"0".repeat(place - 4));
                bits.push('1');
                // The run goes on counting over the data ones before it.
                let ones = if place == 4 { data.trailing_ones() } else { 0 };
                let expected = match ones {
                    4 => header(0, false, false),
                    run => hunting(run as u8 + 1),
                };
                assert_eq!(after(&bits), expected);
            }
        }
    }
    // Three data ones and that one make four, and one more begins a header.
    assert_eq!(after("11111 010 0111 1"), hunting(4));
    assert_eq!(after("11111 010 0111 11"), header(0, false, false));
    assert_eq!(after("11111 010 0111 10"), hunting(0));
}

#[test]
fn reading_18_body_bits_in_order() {
    let bits = "1010 0000 0110 0000";
    let sent: Vec<char> = bits.chars().filter(|&c| c != ' ').collect();
    let mut bench = Bench::serial();
    bench.bits("11111 010");
    for (i, &c) in sent.iter().enumerate() {
        let Receiver::Body { seen, data, .. } = receiver(&bench) else {
            panic!("in the body");
        };
        assert_eq!(usize::from(seen), i);
        let data_bits: String = (0..i).filter(|j| j % 8 < 4).map(|j| sent[j]).collect();
        let number = u8::from_str_radix(&format!("0{data_bits}"), 2).unwrap();
        assert_eq!(data, number);
        // The byte acts on the last zero and not before.
        assert_eq!(bench.bit(c == '1'), if i == 15 { 32 } else { 0 });
    }
    assert_eq!(bench.panel.text[0], 0xA620);
    assert_eq!(receiver(&bench), body(0, true, 0, 0));
}

#[test]
fn reading_19_more_bytes_under_one_header() {
    let mut bench = Bench::serial();
    assert_eq!(bench.serial_bytes(&[0xFA, 0x20, 0xD0, 0x30, 0x70]), 96);
    assert_eq!(bench.panel.text[0], 0x2D37);
    assert_eq!(bench.panel.counter, 1);
    assert_eq!(receiver(&bench), body(0, true, 0, 0));
    assert_eq!(bench.serial_bytes(&[0xF8, 0x80, 0x50, 0x80, 0x00]), 128);
    assert_eq!(bench.panel.counter, 0);
    assert_eq!(receiver(&bench), body(0, false, 0, 0));
}

#[test]
fn reading_20_select_low_makes_idle_and_no_more() {
    let mut dice = Dice::new(41);
    for _ in 0..300 {
        let mut bench = Bench::with(dice.panel(false));
        for _ in 0..dice.below(20) {
            bench.bit(dice.below(4) != 0);
        }
        let mut expected = bench.panel.clone();
        expected.link = Link::idle(false);
        let frame = bench.frame.clone();
        let outcome = bench.select_low();
        assert_eq!((outcome.number, outcome.reply, outcome.count), (0, 0, 0));
        assert_eq!(bench.panel, expected);
        assert_eq!(bench.frame, frame);
        assert_eq!(bench.panel.bytes()[2_331..], [1, 0, 0, 0, 0, 0, 0, 0, 0, 0]);
    }
}

#[test]
fn reading_21_eight_bits_complete_at_most_one_byte() {
    let mut dice = Dice::new(42);
    let mut bench = Bench::serial();
    for _ in 0..4_000 {
        let byte = match dice.below(4) {
            0 => 0xFA,
            1 => 0xF8,
            2 => dice.byte() & 0xF0,
            _ => dice.byte(),
        };
        let mut completed = 0;
        for n in (0..8).rev() {
            let bit = byte & (1 << n) != 0;
            let full = matches!(receiver(&bench), Receiver::Body { seen: 15, .. });
            bench.bit(bit);
            let done = matches!(receiver(&bench), Receiver::Body { seen: 0, .. });
            if full && done {
                completed += 1;
            }
        }
        assert!(completed <= 1);
    }
}

#[test]
fn reading_22_serial_instruction_and_data() {
    let mut bench = Bench::serial();
    assert_eq!(bench.serial_bytes(&[0xF8, 0x80, 0x50]), 64);
    assert_eq!(bench.panel.counter, 5);
    assert_eq!(bench.serial_bytes(&[0xFA, 0x80, 0x50]), 32);
    assert_eq!(bench.panel.text[5], 0x8520);
}
