//! Where a panel of a pair begins.
use super::kept::Kept;
use super::Side;
use crate::case::Case;
use crate::compare::bytes;
use crate::names::state_place;
use model::Panel;

/// A panel where its capture has led: the model's, and what the proved code keeps of it.
pub struct Begun {
    pub panel: Panel,
    pub kept: Kept,
    /// Whether the frame is the picture.
    pub picture: bool,
}

/// The same buffers as `replay` has: no state depends on them, and they are not refused.
fn plain(case: &Case) -> Case {
    Case {
        parallel: case.parallel,
        numbering: case.numbering,
        ..Case::printed(case.time, case.capture.clone())
    }
}

/// Replays the side's capture on both sides, and lays the frame; or answers what differs.
pub fn begin(side: &Side) -> Result<Begun, String> {
    let case = plain(&side.case);
    let ended = proved::replay(
        case.made(),
        &case.capture,
        &mut case.frame.clone(),
        case.lent(),
    )
    .map_err(|refused| format!("the replay is refused with {}", refused.number))?;
    let panel = replayed(&case);
    let different = bytes(
        "at the beginning",
        "state",
        state_place,
        &ended.state,
        &panel.bytes(),
    );
    if let Some(what) = different {
        return Err(what);
    }
    let Case {
        mut frame,
        half,
        full,
        phase,
        ..
    } = side.case.clone();
    let picture = side.picture && panel.draw(&mut frame, &half, &full, phase) == 0;
    let state = ended.state;
    Ok(Begun {
        panel,
        kept: Kept { state, frame },
        picture,
    })
}

fn replayed(case: &Case) -> Panel {
    let mut panel = case.panel();
    model::replay(
        &mut panel,
        &case.capture,
        &mut case.frame.clone(),
        &case.half,
        &case.full,
        case.phase,
    );
    panel
}
