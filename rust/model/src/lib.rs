//! A reference model of the display controller panel of document 01.
//!
//! It is written rule by rule and dot by dot, clear before fast, so that it
//! can be ticked off against the document sentence by sentence. A comment
//! says in few words which sentence a line stands for; "reading N" is the
//! N-th of the readings that settle what document 01 leaves open.
//!
//! | Section of document 01 | Module |
//! |---|---|
//! | Memories and flags | `memories`, and `bytes` for comparing states |
//! | Instructions | `instructions` (the table), `data` (reads and writes) |
//! | Links | `links`, `parallel`, `serial`, `sender` |
//! | The picture | `picture`, `glyphs` (the lookup), and `numbering` for full glyphs |
//! | Bytes named for repaint | `named` |
//! | Refusal numbers | `calls` |
//! | Captures | `captures`, `replay` |
//!
//! A panel may be made with time, as document 02 asks: `time` says when it is
//! busy, what that loses and what each transfer costs. Clear also sets I/D to
//! 1, as document 02 asks. And as it asks, a panel has one of two numberings of
//! full glyphs, chosen when it is made and at each reset. Two panels may share
//! one wire with a select line each, as it asks too: `panel_pair`. A code that
//! has a number and no glyph in the lent font shows a box, as it asks, and
//! `missing` lists such codes with their places.

mod bytes;
mod calls;
mod captures;
mod data;
mod glyphs;
mod instructions;
mod links;
mod memories;
mod missing;
mod named;
mod numbering;
mod panel_pair;
mod parallel;
mod picture;
mod replay;
mod sender;
mod serial;
mod time;

pub use calls::Outcome;
pub use captures::{Reader, Record};
pub use instructions::{decide, Instruction};
pub use links::{Kind, Link, Pair, Receiver, Transfer};
pub use memories::{Half, Panel, Target};
pub use missing::Missing;
pub use named::{named, Named};
pub use numbering::{full_glyph_number, Numbering};
pub use panel_pair::{PairOutcome, PanelPair, Selects, Side};
pub use replay::{printed, replay, Answer, Replayed};
pub use sender::send;

/// A frame: 32 rows of 32 bytes.
pub const FRAME_LENGTH: usize = 1_024;
/// A half font: 128 codes of 16 rows.
pub const HALF_FONT_LENGTH: usize = 2_048;
/// The longest full font, under either numbering: 8,800 glyphs of 32 bytes.
pub const FULL_FONT_LIMIT: usize = 281_600;
