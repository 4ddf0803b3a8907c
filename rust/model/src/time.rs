//! Time: when the panel is busy, what that loses, and what makes it so.

use crate::instructions::{decide, Instruction};
use crate::links::Transfer;
use crate::memories::Panel;

impl Panel {
    /// Busy means more than 0 microseconds left.
    pub fn busy(&self) -> bool {
        self.left > 0
    }
}

/// A transfer that would act while the panel is busy is lost; a status read
/// never is. This is asked where the transfer acts, so a half that does not
/// act is not asked.
pub(crate) fn lost(panel: &Panel, transfer: Transfer) -> bool {
    panel.busy() && transfer != Transfer::StatusRead
}

/// The microseconds that a transfer costs, given the panel before it acts: an
/// executed clear 1,600, every other executed instruction and each data
/// transfer 72, a status read and an ignored code nothing.
pub(crate) fn cost(before: &Panel, transfer: Transfer) -> u16 {
    match transfer {
        Transfer::InstructionWrite(byte) => match decide(before, byte) {
            Instruction::Ignored => 0,
            Instruction::Clear => 1_600,
            _ => 72,
        },
        // A dummy read costs as any other.
        Transfer::DataWrite(_) | Transfer::DataRead => 72,
        Transfer::StatusRead => 0,
    }
}
