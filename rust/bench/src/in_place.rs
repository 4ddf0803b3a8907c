//! The parallel panel in plain Rust, in place and made for speed: the caller keeps the state, and lends frame and fonts. It does what
//! the proved call does with a transfer: refusals, whole and half bytes, every instruction, the repaint and its count, and with time what a
//! busy panel loses.
use crate::blocks::{lay, mark, paint_whole, shown, Look, Shown};
use crate::state::*;

#[derive(Clone, Copy, PartialEq)]
pub enum Transfer {
    Instruct(u8),
    Write(u8),
    Status,
    Read,
}

/// What half bytes have left open, with its four bits in 7..4.
#[derive(Clone, Copy)]
pub enum Pairing {
    Empty,
    Upper { register: bool, bits: u8 },
    Lower { register: bool, bits: u8 },
}

pub struct Panel {
    pub screen: Screen,
    pub parallel: bool,
    pub pairing: Pairing,
}

#[derive(Clone, Copy)]
pub struct Answer {
    pub number: u8,
    pub reply: u8,
    pub count: usize,
}

/// Which bytes a transfer names. A cell is that of a text word.
enum Region {
    Nothing,
    Whole,
    Cells(Option<u8>, Option<u8>),
    GlyphHalf { word: u8, low: u8 },
    GraphicHalf { row: u8, column: u8, low: u8 },
}

impl Panel {
    pub fn fresh(time: bool, numbering: u8) -> Panel {
        let mut control = [0; CONTROL];
        control[ID] = 1;
        control[DL] = 1;
        control[TIMED] = time as u8;
        control[NUMBERING] = numbering;
        Panel {
            screen: Screen {
                text: [0x20; 128],
                glyph: [0; 128],
                graphic: [0; 2048],
                control,
            },
            parallel: true,
            pairing: Pairing::Empty,
        }
    }

    #[inline(always)]
    pub fn transfer(
        &mut self,
        given: Transfer,
        frame: &mut [u8],
        half: &[u8],
        full: &[u8],
        phase: bool,
    ) -> Answer {
        let refused = |number| Answer {
            number,
            reply: 0,
            count: 0,
        };
        let (frame, look) = match Look::of(frame, half, full, phase) {
            Ok(lent) => lent,
            Err(number) => return refused(number),
        };
        if !self.parallel {
            return refused(5);
        }
        let (reply, region) = if self.screen.control[DL] == 1 {
            self.screen.act(given)
        } else {
            self.half_byte(given)
        };
        Answer {
            number: 0,
            reply,
            count: self.screen.paint(region, look, frame),
        }
    }

    /// So many times 8 microseconds pass.
    pub fn pass(&mut self, eights: u8) {
        let remaining = self.screen.remaining();
        self.screen
            .remain(remaining.saturating_sub(8 * eights as u16));
    }

    #[inline(never)]
    fn half_byte(&mut self, given: Transfer) -> (u8, Region) {
        let register = matches!(given, Transfer::Write(_) | Transfer::Read);
        match (given, self.pairing) {
            (
                Transfer::Instruct(value) | Transfer::Write(value),
                Pairing::Upper {
                    register: first,
                    bits,
                },
            ) if first == register => {
                self.pairing = Pairing::Empty;
                let byte = bits | value >> 4;
                self.screen.act(if register {
                    Transfer::Write(byte)
                } else {
                    Transfer::Instruct(byte)
                })
            }
            (Transfer::Instruct(value) | Transfer::Write(value), _) => {
                self.pairing = Pairing::Upper {
                    register,
                    bits: value & 0xF0,
                };
                (0, Region::Nothing)
            }
            (
                _,
                Pairing::Lower {
                    register: first,
                    bits,
                },
            ) if first == register => {
                self.pairing = Pairing::Empty;
                (bits, Region::Nothing)
            }
            _ => {
                let (reply, region) = self.screen.act(given);
                self.pairing = Pairing::Lower {
                    register,
                    bits: reply << 4,
                };
                (reply & 0xF0, region)
            }
        }
    }
}

impl Screen {
    fn act(&mut self, given: Transfer) -> (u8, Region) {
        let busy = self.remaining() > 0;
        match given {
            Transfer::Status => (self.control[COUNTER] | (busy as u8) << 7, Region::Nothing),
            _ if busy => (0, Region::Nothing),
            Transfer::Instruct(byte) => (0, self.instruct(byte)),
            Transfer::Write(byte) => (0, self.write(byte)),
            Transfer::Read => self.read(),
        }
    }

    fn remaining(&self) -> u16 {
        u16::from_be_bytes([self.control[REMAINING], self.control[REMAINING + 1]])
    }

    fn remain(&mut self, microseconds: u16) {
        [self.control[REMAINING], self.control[REMAINING + 1]] = microseconds.to_be_bytes();
    }

    #[inline(always)]
    fn take(&mut self, microseconds: u16) {
        if self.control[TIMED] == 1 {
            self.remain(microseconds);
        }
    }

    /// The counter's word, where the target is text.
    fn cell(&self) -> Option<u8> {
        (self.control[TARGET] == TEXT).then_some(self.control[COUNTER])
    }

    fn next_half(&mut self) -> &mut u8 {
        let low = self.control[LOW] as usize % 2;
        let counter = self.control[COUNTER] as usize;
        match self.control[TARGET] {
            TEXT => &mut self.text[2 * (counter % 64) + low],
            GLYPH => &mut self.glyph[2 * (counter % 64) + low],
            _ => {
                let row = self.control[ROW] as usize % 64;
                &mut self.graphic[32 * row + 2 * (counter % 16) + low]
            }
        }
    }

    /// On to the next half; answers whether a text word completes with S = 1.
    #[inline(always)]
    fn step(&mut self) -> bool {
        let c = &mut self.control;
        let completes = c[LOW] == 1;
        c[LOW] ^= 1;
        if !completes {
            return false;
        }
        if c[TARGET] == GRAPHIC {
            c[COUNTER] = (c[COUNTER] + 1) % 16;
            return false;
        }
        c[COUNTER] = (c[COUNTER] + if c[ID] == 1 { 1 } else { 63 }) % 64;
        if c[TARGET] != TEXT || c[S] != 1 {
            return false;
        }
        c[SHIFT] = (c[SHIFT] + if c[ID] == 1 { 1 } else { 15 }) % 16;
        true
    }

    #[inline(always)]
    fn write(&mut self, byte: u8) -> Region {
        self.take(72);
        self.drop_waiting();
        let [target, word, row, low, ..] = self.control;
        *self.next_half() = byte;
        if self.step() {
            return Region::Whole;
        }
        match target {
            TEXT => Region::Cells(Some(word), (low == 1).then_some(self.control[COUNTER])),
            GLYPH => Region::GlyphHalf { word, low },
            _ => Region::GraphicHalf {
                row,
                column: word,
                low,
            },
        }
    }

    fn read(&mut self) -> (u8, Region) {
        self.take(72);
        self.drop_waiting();
        if self.control[DUMMY] == 1 {
            self.control[DUMMY] = 0;
            return (0, Region::Nothing);
        }
        let before = self.cell();
        let low = self.control[LOW];
        let answer = *self.next_half();
        if self.step() {
            return (answer, Region::Whole);
        }
        if low == 1 && before.is_some() {
            return (answer, Region::Cells(before, self.cell()));
        }
        (answer, Region::Nothing)
    }

    fn drop_waiting(&mut self) {
        self.control[WAITS] = 0;
        self.control[WAITING] = 0;
    }

    /// High half next, and a dummy read due.
    fn point(&mut self, target: u8, counter: u8) {
        self.control[TARGET] = target;
        self.control[COUNTER] = counter;
        self.control[LOW] = 0;
        self.control[DUMMY] = 1;
    }

    #[inline(never)]
    fn instruct(&mut self, byte: u8) -> Region {
        let c = &self.control;
        let (re, sr, waits, row) = (c[RE] == 1, c[SR] == 1, c[WAITS] == 1, c[WAITING]);
        let cursor = matches!(byte, 0x10..=0x17) && !re;
        let ignored = match byte {
            0x00 => true,
            0x08..=0x1F if re => true,
            0x10..=0x17 => c[TARGET] != TEXT,
            0x40..=0x7F => re != sr,
            _ => false,
        };
        if ignored {
            return Region::Nothing;
        }
        let before = self.cell();
        let wakes = c[STANDBY] == 1 && !(byte == 0x01 && re);
        self.take(if byte == 0x01 && !re { 1_600 } else { 72 });
        self.drop_waiting();
        self.control[STANDBY] = 0;
        let mut named = Region::Whole;
        match byte {
            0x01 if re => self.control[STANDBY] = 1,
            0x02..=0x03 if re => self.control[SR] = byte & 1,
            0x01..=0x03 => {
                if byte == 0x01 {
                    self.text = [0x20; 128];
                    self.control[ID] = 1;
                }
                self.control[SHIFT] = 0;
                self.point(TEXT, 0);
            }
            0x04..=0x07 if re => self.control[REVERSED + (byte & 3) as usize] ^= 1,
            0x04..=0x07 => {
                self.control[ID] = byte >> 1 & 1;
                self.control[S] = byte & 1;
            }
            0x08..=0x0F => {
                self.control[DISPLAY] = byte >> 2 & 1;
                self.control[CURSOR] = byte >> 1 & 1;
                self.control[BLINK] = byte & 1;
            }
            0x10..=0x1F if cursor => {
                let by = if byte & 4 == 4 { 1 } else { 63 };
                self.point(TEXT, (self.control[COUNTER] + by) % 64);
                named = Region::Cells(before, self.cell());
            }
            0x10..=0x1F => {
                let by = if byte & 4 == 4 { 15 } else { 1 };
                self.control[SHIFT] = (self.control[SHIFT] + by) % 16;
            }
            0x20..=0x3F => {
                if (byte & 4 == 4) != re {
                    self.control[RE] = byte >> 2 & 1;
                } else {
                    self.control[DL] = byte >> 4 & 1;
                    if re {
                        self.control[G] = byte >> 1 & 1;
                    }
                }
            }
            0x40..=0x7F if re => self.control[SCROLL] = byte & 0x3F,
            0x40..=0x7F => {
                self.point(GLYPH, byte & 0x3F);
                named = Region::Cells(before, None);
            }
            0x80.. if !re => {
                self.point(TEXT, byte & 0x3F);
                named = Region::Cells(before, self.cell());
            }
            0x80.. if waits => {
                self.control[ROW] = row;
                self.point(GRAPHIC, byte & 0x0F);
                named = Region::Cells(before, None);
            }
            0x80.. => {
                self.control[WAITS] = 1;
                self.control[WAITING] = byte & 0x3F;
                named = Region::Nothing;
            }
            0x00 => {}
        }
        if wakes {
            return Region::Whole;
        }
        named
    }

    #[inline(always)]
    fn paint(&self, region: Region, look: Look, frame: &mut [u8; 1024]) -> usize {
        match region {
            Region::Nothing => 0,
            Region::Whole => {
                paint_whole(self, look, frame);
                1024
            }
            Region::Cells(a, b) => {
                let first = a.map_or(0, |word| self.paint_cell(word, look, frame));
                let second = b.filter(|_| a != b);
                first + second.map_or(0, |word| self.paint_cell(word, look, frame))
            }
            Region::GlyphHalf { word, low } => self.paint_glyph_half(word, low, frame),
            Region::GraphicHalf { row, column, low } => {
                self.paint_graphic_half(row, column, low, look, frame)
            }
        }
    }

    fn reverse(&self, line: usize) -> u8 {
        match self.control[REVERSED + line] {
            1 => 0xFF,
            _ => 0,
        }
    }

    fn paint_cell(&self, word: u8, look: Look, frame: &mut [u8; 1024]) -> usize {
        let word = word as usize % 64;
        let line = word / 16;
        let top = (16 * line + 64 - self.control[SCROLL] as usize % 64) % 64;
        let (row, y, rows) = match top {
            0..=16 => (top, 0, 16),
            17..=31 => (top, 0, 32 - top),
            32..=48 => return 0,
            _ => (0, 64 - top, top - 48),
        };
        let cell = (word + 16 - self.control[SHIFT] as usize % 16) % 16;
        let (glass, _) = frame.as_chunks_mut::<32>();
        let glass = glass[row..][..rows].iter_mut();
        let glass = glass.map(|row| &mut row.as_chunks_mut::<2>().0[cell]);
        if self.dark() {
            glass.for_each(|two| *two = [0; 2]);
            return 2 * rows;
        }
        let mut tile = [0; 32];
        lay(self, look, word, &mut tile);
        if self.cell() == Some(word as u8) {
            mark(self, look.phase, &mut tile);
        }
        let reverse = self.reverse(line);
        tile = tile.map(|byte| byte ^ reverse);
        let tile = tile.as_chunks::<2>().0[y..].iter();
        if self.control[G] == 1 {
            let over = self.graphic.as_chunks::<32>().0[16 * line + y..][..rows].iter();
            let over = over.map(|row| row.as_chunks::<2>().0[cell]);
            for ((two, tile), over) in glass.zip(tile).zip(over) {
                *two = [tile[0] ^ over[0], tile[1] ^ over[1]];
            }
        } else {
            for (two, tile) in glass.zip(tile) {
                *two = *tile;
            }
        }
        2 * rows
    }

    /// A byte with what lies over it; the target is not text, so there is no cursor.
    #[inline(always)]
    fn finished(&self, s: usize, column: usize, byte: u8) -> u8 {
        if self.dark() {
            return 0;
        }
        let over = match self.control[G] {
            1 => self.graphic[32 * s + column],
            _ => 0,
        };
        byte ^ self.reverse(s / 16) ^ over
    }

    fn paint_glyph_half(&self, word: u8, low: u8, frame: &mut [u8; 1024]) -> usize {
        let (word, low) = (word as usize % 64, low as usize % 2);
        let (image, y) = (word / 16, word % 16);
        let byte = self.glyph[2 * word + low];
        let scroll = self.control[SCROLL] as usize % 64;
        let shift = self.control[SHIFT] as usize % 16;
        let (glass, _) = frame.as_chunks_mut::<32>();
        let top = (y + 64 - scroll) % 16;
        let mut count = 0;
        for row in [top, top + 16] {
            let s = (row + scroll) % 64;
            let line = &self.text.as_chunks::<32>().0[s / 16];
            let line = line.as_chunks::<2>().0;
            for cell in 0..16 {
                let [high, code] = line[(cell + shift) % 16];
                if high == 0 && code <= 0x0F && (code / 2 % 4) as usize == image {
                    let column = 2 * cell + low;
                    glass[row][column] = self.finished(s, column, byte);
                    count += 1;
                }
            }
        }
        count
    }

    fn paint_graphic_half(
        &self,
        s: u8,
        column: u8,
        low: u8,
        look: Look,
        frame: &mut [u8; 1024],
    ) -> usize {
        let (s, cell, low) = (s as usize % 64, column as usize % 16, low as usize % 2);
        let row = (s + 64 - self.control[SCROLL] as usize % 64) % 64;
        if row >= 32 {
            return 0;
        }
        let word = 16 * (s / 16) + (cell + self.control[SHIFT] as usize) % 16;
        let byte = match shown(self, look, word) {
            Shown::Together(bytes) => bytes[2 * (s % 16) + low],
            Shown::Beside(left, right) => [left, right][low][s % 16],
        };
        let column = 2 * cell + low;
        frame[32 * row + column] = self.finished(s, column, byte);
        1
    }
}
