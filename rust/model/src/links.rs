//! Links: what their bookkeeping holds.

/// One transfer of the parallel link. Over half bytes bits 7..4 of its value
/// count; over whole bytes all of it.
#[derive(Clone, Copy, PartialEq, Eq, Debug)]
pub enum Transfer {
    InstructionWrite(u8),
    DataWrite(u8),
    StatusRead,
    DataRead,
}

/// The four kinds of transfer.
#[derive(Clone, Copy, PartialEq, Eq, Debug)]
pub enum Kind {
    InstructionWrite,
    DataWrite,
    StatusRead,
    DataRead,
}

impl Transfer {
    pub fn kind(self) -> Kind {
        match self {
            Transfer::InstructionWrite(_) => Kind::InstructionWrite,
            Transfer::DataWrite(_) => Kind::DataWrite,
            Transfer::StatusRead => Kind::StatusRead,
            Transfer::DataRead => Kind::DataRead,
        }
    }
}

/// An open first half byte.
#[derive(Clone, Copy, PartialEq, Eq, Debug)]
pub struct Pair {
    pub kind: Kind,
    /// In bits 7..4: of a write the upper half that came; of a read the low
    /// four bits of the answer that are still to be handed over.
    pub bits: u8,
}

/// Where the serial receiver is.
#[derive(Clone, Copy, PartialEq, Eq, Debug)]
pub enum Receiver {
    /// Without sync: counting ones in a row, 0..4.
    Hunting { run: u8 },
    /// After five ones: 0..2 of the three header bits seen.
    Header {
        seen: u8,
        read: bool,
        register: bool,
    },
    /// After a header: 0..15 of two groups of eight seen, `data` the data
    /// bits so far as a number, the first bit highest.
    Body {
        run: u8,
        register: bool,
        seen: u8,
        data: u8,
    },
}

/// The link, with its own bookkeeping.
#[derive(Clone, Copy, PartialEq, Eq, Debug)]
pub enum Link {
    Parallel(Option<Pair>),
    Serial(Receiver),
}

impl Link {
    /// Idle: parallel, pairing empty; serial, hunting with the run at 0.
    pub fn idle(parallel: bool) -> Link {
        if parallel {
            Link::Parallel(None)
        } else {
            Link::Serial(Receiver::Hunting { run: 0 })
        }
    }
}
