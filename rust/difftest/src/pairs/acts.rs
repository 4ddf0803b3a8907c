//! What clocks come to, by the model's panels: counted, so that it is seen how much of what is compared does something.
use crate::compare::Tally;
use model::{decide, Instruction, Link, Panel, PanelPair, Receiver};
use proved::Clock;

/// What a clock comes to on a panel: nothing, or a transfer that is carried out, without time or in time, or lost to a busy panel that an
/// idle one would carry out.
#[derive(Clone, Copy, PartialEq)]
enum Act {
    Nothing,
    Done,
    InTime,
    Lost,
}

/// The same on the left panel and on the right.
pub struct Acts([Act; 2]);

impl Acts {
    pub fn of(panels: &PanelPair, clock: Clock) -> Acts {
        Acts([
            act(&panels.left, clock.left, clock.bit),
            act(&panels.right, clock.right, clock.bit),
        ])
    }

    pub fn count(&self, tally: &mut Tally) {
        let many = |act: Act| self.0.iter().filter(|&&other| other == act).count() as u64;
        tally.in_time += many(Act::InTime);
        tally.lost += many(Act::Lost);
        match self.0.map(|act| matches!(act, Act::Done | Act::InTime)) {
            [true, true] => tally.on_both += 1,
            [true, false] => tally.on_left += 1,
            [false, true] => tally.on_right += 1,
            [false, false] => {}
        }
    }
}

fn act(panel: &Panel, select: bool, bit: bool) -> Act {
    if !select || !completes(panel, bit) {
        Act::Nothing
    } else if !panel.time {
        Act::Done
    } else if !panel.busy() {
        Act::InTime
    } else {
        Act::Lost
    }
}

/// Whether the bit completes a transfer that an idle panel carries out.
fn completes(panel: &Panel, bit: bool) -> bool {
    match panel.link {
        Link::Serial(Receiver::Body {
            register,
            seen: 15,
            data,
            ..
        }) => !bit && (register || decide(panel, data) != Instruction::Ignored),
        _ => false,
    }
}
