//! Captures: records of four bytes, and refusal numbers 6 to 9.

/// A record: a kind and a value.
#[derive(Clone, Copy, PartialEq, Eq, Debug)]
pub struct Record {
    /// 0 instruction write, 1 data write, 2 status read, 3 data read, 4 eight
    /// serial bits, 5 chip select low, 6 reset (to 0 serial, 1 parallel, 2 and
    /// 3 the same with the new numbering); for a panel with time also 7, value
    /// times 8 microseconds passed.
    pub kind: u8,
    pub value: u8,
}

/// A small reader that holds the capture it was lent. What a record is depends
/// on whether the panel it reads for has time.
#[derive(Clone, Copy, PartialEq, Eq, Debug)]
pub struct Reader<'a> {
    capture: &'a [u8],
    position: usize,
    time: bool,
}

impl<'a> Reader<'a> {
    /// A reader for a panel without time.
    pub fn new(capture: &'a [u8]) -> Reader<'a> {
        Reader::made(capture, false)
    }

    /// A reader for a panel with or without time.
    pub fn made(capture: &'a [u8], time: bool) -> Reader<'a> {
        Reader {
            capture,
            position: 0,
            time,
        }
    }

    /// The rest of the caller's own capture, beginning after what was read.
    pub fn rest(&self) -> &'a [u8] {
        &self.capture[self.position..]
    }

    /// Yields a record, or says why not: 0 at the end of the capture, else
    /// the refusal number. Only a record that is yielded is passed over.
    pub fn read(&mut self) -> Result<Record, u8> {
        let rest = self.rest();
        if rest.is_empty() {
            return Err(0);
        }
        // 6: 1 to 3 bytes remain.
        if rest.len() < 4 {
            return Err(6);
        }
        // 7: mark wrong.
        if rest[0] != 0xA5 || rest[1] != 0x5A {
            return Err(7);
        }
        let kind = rest[2];
        let value = rest[3];
        // 8: kind above 6, with time above 7.
        let last = if self.time { 7 } else { 6 };
        if kind > last {
            return Err(8);
        }
        // 9: value not allowed.
        if !allowed(kind, value) {
            return Err(9);
        }
        self.position += 4;
        Ok(Record { kind, value })
    }
}

/// Kinds 2, 3, 5 need value 0; 6 needs 0 to 3; the others take any.
fn allowed(kind: u8, value: u8) -> bool {
    match kind {
        2 | 3 | 5 => value == 0,
        6 => value <= 3,
        _ => true,
    }
}
