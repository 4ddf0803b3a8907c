//! What a meter sends, as records of a capture, over any of the three links.
//!
//! The wire keeps account of the width, of RE and of the time for which the panel is busy, as a meter would. Noise can put that account
//! wrong; the capture is then just noise, and both sides have to agree on that too.
use crate::random::Random;
use model::Numbering;

#[derive(Clone, Copy, PartialEq, Eq)]
pub enum Link {
    Bytes,
    Halves,
    Serial,
}

pub const INSTRUCTION: u8 = 0;
pub const DATA: u8 = 1;
pub const STATUS_READ: u8 = 2;
pub const DATA_READ: u8 = 3;
pub const EIGHT_BITS: u8 = 4;
pub const SELECT_LOW: u8 = 5;
pub const RESET: u8 = 6;
pub const PASS: u8 = 7;

/// What a reset has for a value: bit 0 is the interface pin, bit 1 the numbering.
pub fn reset_value(parallel: bool, numbering: Numbering) -> u8 {
    parallel as u8 | ((numbering == Numbering::New) as u8) << 1
}

pub struct Wire {
    pub random: Random,
    pub link: Link,
    pub capture: Vec<u8>,
    /// Whether the panel has time.
    pub time: bool,
    /// Whether the meter always waits until the panel is idle.
    pub patient: bool,
    /// Whether another panel shares the wire: then nothing resets this one.
    pub shared: bool,
    /// Microseconds for which the panel is still busy.
    left: u16,
    re: bool,
    /// Serial bits that do not fill a record yet.
    bits: Vec<bool>,
    /// The register of the last header sent, while more bytes may follow it.
    header: Option<bool>,
}

impl Wire {
    /// Begins on a fresh panel: parallel with whole bytes, or serial.
    pub fn new(parallel: bool, time: bool, random: Random) -> Wire {
        Wire {
            random,
            link: if parallel { Link::Bytes } else { Link::Serial },
            capture: Vec::new(),
            time,
            patient: false,
            shared: false,
            left: 0,
            re: false,
            bits: Vec::new(),
            header: None,
        }
    }

    /// From here on the wire is shared, and serial.
    pub fn share(&mut self) {
        self.link = Link::Serial;
        self.shared = true;
        self.begin_anew();
    }

    /// The next write has a header: others were sent to, and the panel may have lost sync.
    pub fn begin_anew(&mut self) {
        self.header = None;
    }

    pub fn records(&self) -> usize {
        self.capture.len() / 4
    }

    pub fn record(&mut self, kind: u8, value: u8) {
        self.capture.extend([0xA5, 0x5A, kind, value]);
    }

    pub fn instruction(&mut self, byte: u8) {
        self.wait();
        self.instruction_at_once(byte);
    }

    pub fn instruction_at_once(&mut self, byte: u8) {
        let takes = if byte == 0x01 && !self.re { 1_600 } else { 72 };
        self.write(INSTRUCTION, byte);
        if self.acts(takes) && (0x20..0x40).contains(&byte) {
            let re = byte & 0x04 != 0;
            if re != self.re {
                self.re = re;
            } else if self.link != Link::Serial {
                self.link = if byte & 0x10 != 0 {
                    Link::Bytes
                } else {
                    Link::Halves
                };
            }
        }
    }

    pub fn data(&mut self, byte: u8) {
        self.wait();
        self.write(DATA, byte);
        self.acts(72);
    }

    /// A status read or a data read. The serial link has none: there it is a header that asks for one, and loses sync.
    pub fn read(&mut self, kind: u8) {
        if kind == DATA_READ && self.link != Link::Serial {
            self.wait();
            self.acts(72);
        }
        match self.link {
            Link::Bytes => self.record(kind, 0),
            Link::Halves => {
                self.record(kind, 0);
                self.wait_between();
                self.record(kind, 0);
            }
            Link::Serial => {
                self.header = None;
                self.serial_byte(0xFC | (kind & 1) << 1);
            }
        }
    }

    /// That value times 8 microseconds pass, which only a panel with time hears of.
    pub fn pass(&mut self, eights: u8) {
        self.record(PASS, eights);
        self.left = self.left.saturating_sub(8 * u16::from(eights));
    }

    /// The meter waits before a transfer: most often as long as the panel is busy, else too shortly or not at all, so that it is lost.
    fn wait(&mut self) {
        if !self.time || self.left == 0 {
            return;
        }
        let whole = self.left.div_ceil(8) as u8;
        if self.patient {
            return self.pass(whole);
        }
        let eights = match self.random.below(16) {
            0..=8 => whole,
            9 => whole - 1,
            10 => self.random.below(whole.into()) as u8,
            11 => self.random.byte(),
            12 => 255,
            _ => return,
        };
        self.pass(eights);
    }

    /// Now and then it waits in the middle of a transfer, unless it has waited before.
    fn wait_between(&mut self) {
        if self.time && !self.patient && self.random.once_in(4) {
            self.wait();
        }
    }

    /// A transfer acts, and takes so many microseconds; answers whether it is carried out.
    fn acts(&mut self, takes: u16) -> bool {
        let idle = self.left == 0;
        if self.time && idle {
            self.left = takes;
        }
        idle
    }

    /// The instruction set that RE chooses, with the width as it is.
    pub fn choose(&mut self, re: bool) {
        if re != self.re {
            self.function_set(re, false);
        }
    }

    /// A function set that keeps the link's width.
    pub fn function_set(&mut self, re: bool, g: bool) {
        let dl = if self.link == Link::Halves { 0 } else { 0x10 };
        self.instruction(0x20 | dl | (re as u8) << 2 | (g as u8) << 1);
    }

    /// The other width of the parallel link.
    pub fn other_width(&mut self) {
        let dl = if self.link == Link::Halves { 0x10 } else { 0 };
        self.instruction(0x20 | dl | (self.re as u8) << 2);
    }

    pub fn reset(&mut self, parallel: bool, numbering: Numbering) {
        self.fill_record();
        self.record(RESET, reset_value(parallel, numbering));
        self.link = if parallel { Link::Bytes } else { Link::Serial };
        self.left = 0;
        self.re = false;
        self.header = None;
    }

    /// Chip select low, wherever the receiver is.
    pub fn select_low(&mut self) {
        self.fill_record();
        self.record(SELECT_LOW, 0);
        self.header = None;
    }

    pub fn bit(&mut self, bit: bool) {
        self.bits.push(bit);
        if self.bits.len() == 8 {
            let byte = self.bits.iter().fold(0, |byte, &bit| byte << 1 | bit as u8);
            self.bits.clear();
            self.record(EIGHT_BITS, byte);
        }
    }

    pub fn serial_byte(&mut self, byte: u8) {
        for n in (0..8).rev() {
            self.bit(byte >> n & 1 == 1);
        }
    }

    /// Bits that begin a record are sent with others behind them.
    pub fn fill_record(&mut self) {
        while !self.bits.is_empty() {
            let bit = self.random.flag();
            self.bit(bit);
            self.header = None;
        }
    }

    /// Something goes wrong on the wire.
    pub fn noise(&mut self) {
        match self.link {
            Link::Bytes => {
                let (kind, value) = (self.random.below(2) as u8, self.random.byte());
                self.record(kind, value);
            }
            // A half byte of any kind, so that the halves after it are mispaired.
            Link::Halves => {
                let kind = self.random.below(4) as u8;
                let value = if kind < 2 { self.random.byte() } else { 0 };
                self.record(kind, value);
            }
            Link::Serial => self.serial_noise(),
        }
    }

    fn serial_noise(&mut self) {
        self.header = None;
        match self.random.below(6) {
            0 => self.select_low(),
            1 => {
                for _ in 0..1 + self.random.below(24) {
                    let bit = self.random.flag();
                    self.bit(bit);
                }
            }
            // Ones in a row, as many as begin a header or fewer or more.
            2 => {
                for _ in 0..1 + self.random.below(12) {
                    self.bit(true);
                }
            }
            // A header of any three bits.
            3 => {
                let byte = 0xF8 | self.random.byte() & 7;
                self.serial_byte(byte);
            }
            // A write cut short.
            4 => {
                let header = self.random.pick(&[0xF8, 0xFA]);
                self.serial_byte(header);
                for _ in 0..self.random.below(16) {
                    let bit = self.random.once_in(3);
                    self.bit(bit);
                }
            }
            // A one among the zeros.
            _ => {
                let (high, low) = (self.random.byte(), self.random.byte());
                let one = 1 << self.random.below(4);
                let (header, first) = (self.random.pick(&[0xF8, 0xFA]), self.random.flag());
                self.serial_byte(header);
                self.serial_byte(high & 0xF0 | if first { one } else { 0 });
                self.serial_byte(low & 0xF0 | if first { 0 } else { one });
            }
        }
    }

    fn write(&mut self, kind: u8, byte: u8) {
        match self.link {
            Link::Bytes => self.record(kind, byte),
            // The low four bits of a half byte do not count, so they are anything.
            Link::Halves => {
                let noise = self.random.byte();
                self.record(kind, byte & 0xF0 | noise & 0x0F);
                self.wait_between();
                self.record(kind, byte << 4 | noise >> 4);
            }
            Link::Serial => {
                let register = kind == DATA;
                // More bytes may follow one header.
                if self.header != Some(register) || self.random.flag() {
                    self.serial_byte(if register { 0xFA } else { 0xF8 });
                }
                self.serial_byte(byte & 0xF0);
                self.wait_between();
                self.serial_byte(byte << 4);
                self.header = Some(register);
            }
        }
    }
}
