//! A panel with its frame and fonts, and a seeded generator.

use model::{send, Half, Kind, Link, Numbering, Outcome, Panel, Target, Transfer};

/// A small xorshift generator.
pub struct Dice(u64);

impl Dice {
    pub fn new(seed: u64) -> Dice {
        Dice(seed.wrapping_mul(0x9E37_79B9_7F4A_7C15) | 1)
    }

    pub fn roll(&mut self) -> u64 {
        self.0 ^= self.0 << 13;
        self.0 ^= self.0 >> 7;
        self.0 ^= self.0 << 17;
        self.0 >> 11
    }

    pub fn below(&mut self, limit: u64) -> u64 {
        self.roll() % limit
    }

    pub fn byte(&mut self) -> u8 {
        self.below(256) as u8
    }

    pub fn flag(&mut self) -> bool {
        self.below(2) == 1
    }

    pub fn numbering(&mut self) -> Numbering {
        NUMBERINGS[self.below(2) as usize]
    }

    pub fn bytes(&mut self, length: usize) -> Vec<u8> {
        (0..length).map(|_| self.byte()).collect()
    }

    /// A byte of text: blanks, image codes, half glyphs, leads and trails.
    pub fn text_byte(&mut self) -> u8 {
        match self.below(4) {
            0 => 0,
            1 => self.below(18) as u8,
            2 => 0xA0 + self.below(4) as u8,
            _ => self.byte(),
        }
    }

    /// A made-up state within the ranges, its link idle.
    pub fn panel(&mut self, parallel: bool) -> Panel {
        let mut panel = Panel::fresh(parallel);
        for word in &mut panel.text {
            *word = u16::from_be_bytes([self.text_byte(), self.text_byte()]);
        }
        for word in panel
            .glyph
            .iter_mut()
            .chain(panel.graphic.iter_mut().flatten())
        {
            *word = self.below(0x1_0000) as u16;
        }
        (panel.target, panel.counter) = match self.below(3) {
            0 => (Target::Text, self.below(64) as u8),
            1 => (Target::Glyph, self.below(64) as u8),
            _ => (Target::Graphic, self.below(16) as u8),
        };
        panel.graphic_row = self.below(64) as u8;
        panel.next = if self.flag() { Half::High } else { Half::Low };
        panel.dummy_due = self.flag();
        panel.waiting = self.flag().then(|| self.below(64) as u8);
        panel.id = self.flag();
        panel.s = self.flag();
        panel.display = self.below(8) != 0;
        panel.cursor = self.flag();
        panel.blink = self.flag();
        panel.dl = self.flag();
        panel.re = self.flag();
        panel.g = self.flag();
        panel.sr = self.flag();
        panel.standby = self.below(8) == 0;
        panel.scroll = self.below(64) as u8;
        panel.shift = self.below(16) as u8;
        panel.reversed = std::array::from_fn(|_| self.flag());
        panel.numbering = self.numbering();
        panel
    }

    /// A made-up state with time, busy or not.
    pub fn timed(&mut self, parallel: bool) -> Panel {
        let mut panel = self.panel(parallel);
        panel.time = true;
        panel.left = match self.below(4) {
            0 => 0,
            1 => 1 + self.below(72) as u16,
            _ => self.below(1_601) as u16,
        };
        panel
    }

    /// A made-up state with time that is busy.
    pub fn busy(&mut self, parallel: bool) -> Panel {
        let mut panel = self.timed(parallel);
        panel.left = panel.left.max(1);
        panel
    }
}

/// The three links: whole bytes, half bytes, serial.
#[derive(Clone, Copy, PartialEq, Eq, Debug)]
pub enum Over {
    Bytes,
    HalfBytes,
    Serial,
}

pub const LINKS: [Over; 3] = [Over::Bytes, Over::HalfBytes, Over::Serial];

pub const NUMBERINGS: [Numbering; 2] = [Numbering::Old, Numbering::New];

/// A panel, its frame and the lent fonts. Every accepted call is checked: the
/// frame stays the picture of the present state.
pub struct Bench {
    pub panel: Panel,
    pub frame: Vec<u8>,
    pub half: Vec<u8>,
    pub full: Vec<u8>,
    pub phase: bool,
}

impl Bench {
    /// A bench whose frame equals the picture of the panel.
    pub fn with(panel: Panel) -> Bench {
        let mut dice = Dice::new(7);
        let mut bench = Bench {
            panel,
            frame: vec![0; 1_024],
            half: dice.bytes(2_048),
            full: dice.bytes(32 * 300),
            phase: true,
        };
        bench.frame = bench.picture();
        bench
    }

    pub fn parallel() -> Bench {
        Bench::with(Panel::fresh(true))
    }

    pub fn serial() -> Bench {
        Bench::with(Panel::fresh(false))
    }

    /// Parallel with DL = 0.
    pub fn half_bytes() -> Bench {
        let mut panel = Panel::fresh(true);
        panel.dl = false;
        Bench::with(panel)
    }

    /// The panel with an idle link of this sort.
    pub fn over(over: Over, mut panel: Panel) -> Bench {
        panel.link = Link::idle(over != Over::Serial);
        panel.dl = over == Over::Bytes;
        Bench::with(panel)
    }

    /// Fresh, with time, with the old numbering.
    pub fn timed(over: Over) -> Bench {
        Bench::over(over, Panel::made(true, true, Numbering::Old))
    }

    pub fn picture(&self) -> Vec<u8> {
        let mut frame = vec![0x55; 1_024];
        let number = self
            .panel
            .draw(&mut frame, &self.half, &self.full, self.phase);
        assert_eq!(number, 0);
        frame
    }

    pub fn call(&mut self, transfer: Transfer) -> Outcome {
        let (half, full) = (&self.half, &self.full);
        let outcome = self
            .panel
            .transfer(transfer, &mut self.frame, half, full, self.phase);
        assert_eq!(outcome.number, 0);
        assert_eq!(self.frame, self.picture());
        outcome
    }

    /// An instruction write; answers the count.
    pub fn instruction(&mut self, byte: u8) -> usize {
        let outcome = self.call(Transfer::InstructionWrite(byte));
        assert_eq!(outcome.reply, 0);
        outcome.count
    }

    /// A data write; answers the count.
    pub fn data(&mut self, byte: u8) -> usize {
        let outcome = self.call(Transfer::DataWrite(byte));
        assert_eq!(outcome.reply, 0);
        outcome.count
    }

    /// A status read, which names nothing; answers the reply.
    pub fn status(&mut self) -> u8 {
        let outcome = self.call(Transfer::StatusRead);
        assert_eq!(outcome.count, 0);
        outcome.reply
    }

    /// A data read; answers reply and count.
    pub fn read(&mut self) -> (u8, usize) {
        let outcome = self.call(Transfer::DataRead);
        (outcome.reply, outcome.count)
    }

    /// One whole write over the panel's own link, begun idle; answers the
    /// count.
    pub fn write(&mut self, register: bool, byte: u8) -> usize {
        if let Link::Serial(_) = self.panel.link {
            let mut buffer = [0; 3];
            assert_eq!(send(register, byte, &mut buffer), 0);
            return self.serial_bytes(&buffer);
        }
        let transfer = if register {
            Transfer::DataWrite
        } else {
            Transfer::InstructionWrite
        };
        if self.panel.dl {
            return self.call(transfer(byte)).count;
        }
        let upper = self.call(transfer(byte & 0xF0));
        assert_eq!((upper.reply, upper.count), (0, 0));
        self.call(transfer(byte << 4)).count
    }

    /// One whole read over the panel's own link, begun idle.
    pub fn whole_read(&mut self, kind: Kind) -> (u8, usize) {
        let transfer = match kind {
            Kind::StatusRead => Transfer::StatusRead,
            _ => Transfer::DataRead,
        };
        let first = self.call(transfer);
        if self.panel.dl {
            return (first.reply, first.count);
        }
        let second = self.call(transfer);
        assert_eq!((first.reply & 0x0F, second.reply & 0x0F), (0, 0));
        assert_eq!(second.count, 0);
        (first.reply | second.reply >> 4, first.count)
    }

    /// Time passes on a panel with time; the frame is not touched.
    pub fn pass(&mut self, eights: u8) {
        let frame = self.frame.clone();
        let (half, full) = (&self.half, &self.full);
        let outcome = self
            .panel
            .pass(eights, &mut self.frame, half, full, self.phase);
        assert_eq!((outcome.number, outcome.reply, outcome.count), (0, 0, 0));
        assert_eq!(self.frame, frame);
    }

    /// One serial bit; answers the count.
    pub fn bit(&mut self, bit: bool) -> usize {
        let (half, full) = (&self.half, &self.full);
        let outcome = self.panel.bit(bit, &mut self.frame, half, full, self.phase);
        assert_eq!((outcome.number, outcome.reply), (0, 0));
        assert_eq!(self.frame, self.picture());
        outcome.count
    }

    /// Serial bits written as ones, zeros and spaces; answers the count.
    pub fn bits(&mut self, bits: &str) -> usize {
        bits.chars()
            .filter(|&c| c != ' ')
            .map(|c| self.bit(c == '1'))
            .sum()
    }

    /// Serial bytes, highest bit first; answers the count.
    pub fn serial_bytes(&mut self, bytes: &[u8]) -> usize {
        bytes
            .iter()
            .map(|byte| self.bits(&format!("{byte:08b}")))
            .sum()
    }

    pub fn select_low(&mut self) -> Outcome {
        let (half, full) = (&self.half, &self.full);
        self.panel
            .select_low(&mut self.frame, half, full, self.phase)
    }

    pub fn reset(&mut self, parallel: bool, numbering: Numbering) -> Outcome {
        let (half, full) = (&self.half, &self.full);
        let frame = &mut self.frame;
        self.panel
            .reset(parallel, numbering, frame, half, full, self.phase)
    }
}

/// All but link and DL, as bytes: what is the same over all links.
pub fn without_link(panel: &Panel) -> Vec<u8> {
    let mut same = panel.clone();
    same.link = Link::idle(true);
    same.dl = true;
    same.bytes()
}
