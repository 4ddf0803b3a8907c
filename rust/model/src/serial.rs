//! The serial link, bit by bit with chip select high.

use crate::data::act;
use crate::links::{Link, Receiver, Transfer};
use crate::memories::Panel;
use crate::named::Named;

/// One serial bit: the receiver moves on, and if a byte is complete it acts.
/// Answers the bytes named.
pub(crate) fn serial_bit(panel: &mut Panel, receiver: Receiver, bit: bool) -> Named {
    let (receiver, complete) = hear(receiver, bit);
    panel.link = Link::Serial(receiver);
    match complete {
        None => Named::none(),
        Some(transfer) => act(panel, transfer).named,
    }
}

/// Where the receiver is after a bit, and the write that the bit completes.
fn hear(receiver: Receiver, bit: bool) -> (Receiver, Option<Transfer>) {
    match receiver {
        Receiver::Header {
            seen,
            read,
            register,
        } => (header_bit(seen, read, register, bit), None),
        Receiver::Hunting { run } => {
            let run = run_after(run, bit);
            // Five ones in a row always begin a header, outside a header.
            if run == 5 {
                return (header(), None);
            }
            (Receiver::Hunting { run }, None)
        }
        Receiver::Body {
            run,
            register,
            seen,
            data,
        } => {
            let run = run_after(run, bit);
            // Also in the body; a half-received byte is dropped.
            if run == 5 {
                return (header(), None);
            }
            body_bit(run, register, seen, data, bit)
        }
    }
}

/// Outside a header each 1 adds one to the run and each 0 clears it.
fn run_after(run: u8, bit: bool) -> u8 {
    if bit {
        run + 1
    } else {
        0
    }
}

/// A header begins; the run starts anew at 0.
fn header() -> Receiver {
    Receiver::Header {
        seen: 0,
        read: false,
        register: false,
    }
}

/// Three header bits follow: read, register, 0.
fn header_bit(seen: u8, read: bool, register: bool, bit: bool) -> Receiver {
    match seen {
        0 => Receiver::Header {
            seen: 1,
            read: bit,
            register,
        },
        1 => Receiver::Header {
            seen: 2,
            read,
            register: bit,
        },
        _ => {
            // When all three have come, read = 1 or third bit = 1 loses sync,
            // with the run of ones at 0.
            if read || bit {
                Receiver::Hunting { run: 0 }
            } else {
                begin_body(register)
            }
        }
    }
}

/// The body with no bit seen.
fn begin_body(register: bool) -> Receiver {
    Receiver::Body {
        run: 0,
        register,
        seen: 0,
        data: 0,
    }
}

/// Groups of eight, four data bits and four zeros; two groups make a byte.
fn body_bit(
    run: u8,
    register: bool,
    seen: u8,
    data: u8,
    bit: bool,
) -> (Receiver, Option<Transfer>) {
    let data_bit = seen % 8 < 4;
    // A one among the zeros loses sync; the run goes on counting.
    if !data_bit && bit {
        return (Receiver::Hunting { run }, None);
    }
    let data = if data_bit {
        data * 2 + u8::from(bit)
    } else {
        data
    };
    // The byte acts on the last zero. More bytes may follow one header.
    if seen == 15 {
        let write = if register {
            Transfer::DataWrite(data)
        } else {
            Transfer::InstructionWrite(data)
        };
        return (begin_body(register), Some(write));
    }
    let body = Receiver::Body {
        run,
        register,
        seen: seen + 1,
        data,
    };
    (body, None)
}
