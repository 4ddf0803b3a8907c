//! Instructions: the table, and what each entry does.

use crate::memories::{bit, Half, Panel, Target};

/// One entry of the table, with its numbers.
#[derive(Clone, Copy, PartialEq, Eq, Debug)]
pub enum Instruction {
    Ignored,
    Clear,
    Home,
    EntryMode {
        id: bool,
        s: bool,
    },
    Switches {
        display: bool,
        cursor: bool,
        blink: bool,
    },
    CursorLeft,
    CursorRight,
    DisplayLeft,
    DisplayRight,
    FunctionSet {
        dl: bool,
        re: bool,
        g: bool,
    },
    GlyphAddress(u8),
    TextAddress(u8),
    Standby,
    SetSr(bool),
    ToggleReverse(usize),
    Scroll(u8),
    GraphicRow(u8),
    GraphicColumn {
        row: u8,
        column: u8,
    },
}

/// Each byte is decided by its highest set bit and by RE.
pub fn decide(panel: &Panel, byte: u8) -> Instruction {
    match (highest_set_bit(byte), panel.re) {
        // 00h: ignored in both sets.
        (None, _) => Instruction::Ignored,
        // 01h
        (Some(0), false) => Instruction::Clear,
        (Some(0), true) => Instruction::Standby,
        // 02h..03h
        (Some(1), false) => Instruction::Home,
        (Some(1), true) => Instruction::SetSr(bit(byte, 0)),
        // 04h..07h
        (Some(2), false) => Instruction::EntryMode {
            id: bit(byte, 1),
            s: bit(byte, 0),
        },
        (Some(2), true) => Instruction::ToggleReverse(usize::from(byte & 0b11)),
        // 08h..0Fh
        (Some(3), false) => Instruction::Switches {
            display: bit(byte, 2),
            cursor: bit(byte, 1),
            blink: bit(byte, 0),
        },
        (Some(3), true) => Instruction::Ignored,
        // 10h..1Fh
        (Some(4), false) => cursor_or_display(panel, bit(byte, 3), bit(byte, 2)),
        (Some(4), true) => Instruction::Ignored,
        // 20h..3Fh: function set in both sets.
        (Some(5), _) => Instruction::FunctionSet {
            dl: bit(byte, 4),
            re: bit(byte, 2),
            g: bit(byte, 1),
        },
        // 40h..7Fh: glyph address if SR = 0, else ignored.
        (Some(6), false) => {
            if !panel.sr {
                Instruction::GlyphAddress(byte & 0x3F)
            } else {
                Instruction::Ignored
            }
        }
        // 40h..7Fh: scroll if SR = 1, else ignored.
        (Some(6), true) => {
            if panel.sr {
                Instruction::Scroll(byte & 0x3F)
            } else {
                Instruction::Ignored
            }
        }
        // 80h..FFh: text address = bits 5..0; bit 6 dropped.
        (Some(7..), false) => Instruction::TextAddress(byte & 0x3F),
        // 80h..FFh: first the row (bits 5..0), then the column (bits 3..0).
        (Some(7..), true) => match panel.waiting {
            None => Instruction::GraphicRow(byte & 0x3F),
            Some(row) => Instruction::GraphicColumn {
                row,
                column: byte & 0x0F,
            },
        },
    }
}

fn highest_set_bit(byte: u8) -> Option<u32> {
    (0..8).rev().find(|&n| bit(byte, n))
}

/// Bit 3 = 0: cursor left (bit 2 = 0) or right, if target is text, else
/// ignored. Bit 3 = 1: display left (bit 2 = 0) or right.
fn cursor_or_display(panel: &Panel, bit_3: bool, bit_2: bool) -> Instruction {
    match (bit_3, bit_2) {
        (false, _) if panel.target != Target::Text => Instruction::Ignored,
        (false, false) => Instruction::CursorLeft,
        (false, true) => Instruction::CursorRight,
        (true, false) => Instruction::DisplayLeft,
        (true, true) => Instruction::DisplayRight,
    }
}

/// What an instruction does to the panel.
pub(crate) fn execute(panel: &mut Panel, instruction: Instruction) {
    // An ignored code changes nothing, standby and a waiting row included.
    if instruction == Instruction::Ignored {
        return;
    }
    // Every other instruction except 01h with RE = 1 ends standby.
    if instruction != Instruction::Standby {
        panel.standby = false;
    }
    // Any other executed instruction drops the waiting row; its own column
    // uses it up, and a row alone (below) sets it.
    panel.waiting = None;

    match instruction {
        Instruction::Ignored => {}
        // Clear: text bytes 20h, I/D 1, then as home; S stays (reading 46).
        Instruction::Clear => {
            panel.text = [0x2020; 64];
            panel.id = true;
            home(panel);
        }
        Instruction::Home => home(panel),
        Instruction::EntryMode { id, s } => {
            panel.id = id;
            panel.s = s;
        }
        Instruction::Switches {
            display,
            cursor,
            blink,
        } => {
            panel.display = display;
            panel.cursor = cursor;
            panel.blink = blink;
        }
        // Cursor left: counter -1 modulo 64.
        Instruction::CursorLeft => {
            panel.counter = (panel.counter + 63) % 64;
            high_half_and_dummy(panel);
        }
        // Cursor right: counter +1 modulo 64.
        Instruction::CursorRight => {
            panel.counter = (panel.counter + 1) % 64;
            high_half_and_dummy(panel);
        }
        Instruction::DisplayLeft => display_left(panel),
        Instruction::DisplayRight => display_right(panel),
        Instruction::FunctionSet { dl, re, g } => function_set(panel, dl, re, g),
        Instruction::GlyphAddress(address) => {
            panel.target = Target::Glyph;
            panel.counter = address;
            high_half_and_dummy(panel);
        }
        Instruction::TextAddress(address) => {
            panel.target = Target::Text;
            panel.counter = address;
            high_half_and_dummy(panel);
        }
        Instruction::Standby => panel.standby = true,
        Instruction::SetSr(sr) => panel.sr = sr,
        Instruction::ToggleReverse(line) => panel.reversed[line] = !panel.reversed[line],
        Instruction::Scroll(scroll) => panel.scroll = scroll,
        // A graphic row waits for its column.
        Instruction::GraphicRow(row) => panel.waiting = Some(row),
        // Only then do target, row and column change.
        Instruction::GraphicColumn { row, column } => {
            panel.target = Target::Graphic;
            panel.graphic_row = row;
            panel.counter = column;
            high_half_and_dummy(panel);
        }
    }
}

/// Home: target text, counter 0, shift 0.
fn home(panel: &mut Panel) {
    panel.target = Target::Text;
    panel.counter = 0;
    panel.shift = 0;
    high_half_and_dummy(panel);
}

/// Address sets, clear, home and cursor moves make the high half next and a
/// dummy read due.
fn high_half_and_dummy(panel: &mut Panel) {
    panel.next = Half::High;
    panel.dummy_due = true;
}

/// Bit 4 DL, bit 2 RE, bit 1 G (RE = 1 only). If bit 2 differs from RE, only
/// RE changes.
fn function_set(panel: &mut Panel, dl: bool, re: bool, g: bool) {
    if re != panel.re {
        panel.re = re;
        return;
    }
    panel.dl = dl;
    if panel.re {
        panel.g = g;
    }
}

/// Display left adds 1 to the shift modulo 16; the counter stays.
pub(crate) fn display_left(panel: &mut Panel) {
    panel.shift = (panel.shift + 1) % 16;
}

/// Display right subtracts 1; the counter stays.
pub(crate) fn display_right(panel: &mut Panel) {
    panel.shift = (panel.shift + 15) % 16;
}
