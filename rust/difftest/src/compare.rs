//! The comparison over the boundary: what the proved code says of a capture, and what the model says.
//!
//! The boundary tells the reply and the count of the last record alone. So a record is compared by replaying the capture up to it: then
//! its reply, its count, the whole state and the whole frame right after it are compared. The model goes on record by record.
use crate::case::Case;
use crate::names::{frame_place, state_place};
use model::{Numbering, Panel, Replayed};
use proved::{Memories, Refused};

/// Which records are compared: from a place on, and the last.
#[derive(Clone, Copy)]
pub struct From(pub usize);

/// What was compared so far.
#[derive(Default, Clone, Copy)]
pub struct Tally {
    /// Records whose reply, count, state and frame were compared.
    pub records: u64,
    /// These by their kind, 0 to 7.
    pub kinds: [u64; 8],
    /// Those that left a panel of the new numbering.
    pub by_new: u64,
    /// Transfers among them that were lost to a busy panel and that an idle one would have carried out, and those that made it busy.
    pub lost: u64,
    pub in_time: u64,
    /// Records that were replayed on the way to those, and not compared one by one.
    pub passed: u64,
    /// Captures that stopped before their end, and clocks of a pair that were refused.
    pub stops: u64,
    /// Whole draws compared.
    pub draws: u64,
    /// Records that left the box of a missing glyph on the glass, and draws of a state that shows one.
    pub boxed: u64,
    /// Lines of the program `replay` compared.
    pub lines: u64,
    /// Clocks of a pair, refused ones among them, after which number, counts, states and frames were compared.
    pub bits: u64,
    /// Those that completed a transfer which the left panel alone carried out, the right alone, or both.
    pub on_left: u64,
    pub on_right: u64,
    pub on_both: u64,
}

/// The model's view after some records.
struct Expected<'a> {
    panel: &'a Panel,
    frame: &'a [u8],
    number: u8,
    place: usize,
    reply: u8,
    count: usize,
}

/// Replays the case on both sides; answers what differs first, if anything does.
pub fn compare(case: &Case, from: From, tally: &mut Tally) -> Option<String> {
    let mut panel = case.panel();
    let mut frame = case.frame.clone();
    // Once a record has named every byte, the frame is the picture.
    let mut whole = false;
    let (mut reply, mut count) = (0, 0);
    let records = case.records();
    // The empty capture first: it is refused with 1, 2, 3 like any other.
    for place in 0..=records {
        let begin = (4 * place).saturating_sub(4);
        let end = (4 * place).min(case.capture.len());
        let record = &case.capture[begin..end];
        let before = case.time.then(|| panel.clone());
        let said = step(&mut panel, case, record, &mut frame);
        let stops = said.number != 0;
        let accepted = place - usize::from(stops && place > 0);
        if let Some(answer) = said.answers.last() {
            (reply, count) = (answer.reply, answer.count);
            whole |= answer.count == 1_024;
        }
        let expected = Expected {
            panel: &panel,
            frame: &frame,
            number: said.number,
            place: accepted,
            reply,
            count,
        };
        let compared = place >= from.0 || place == records || stops;
        if compared {
            let different = over_the_boundary(case, end, &expected, whole, tally);
            if different.is_some() {
                return different;
            }
        }
        if stops {
            tally.stops += 1;
            // What comes after the refused record has no effect.
            return over_the_boundary(case, case.capture.len(), &expected, whole, tally);
        }
        match (place, compared) {
            (0, _) => {}
            (_, true) => {
                tally.records += 1;
                tally.kinds[usize::from(case.capture[begin + 2])] += 1;
                tally.by_new += u64::from(panel.numbering == Numbering::New);
                tally.boxed += u64::from(boxed(&panel, &case.full));
                if let Some(before) = before {
                    count_time(case, record, before, &panel, tally);
                }
            }
            (_, false) => tally.passed += 1,
        }
    }
    None
}

fn step(panel: &mut Panel, case: &Case, record: &[u8], frame: &mut [u8]) -> Replayed {
    model::replay(panel, record, frame, &case.half, &case.full, case.phase)
}

/// Whether the box of a missing glyph is to be seen.
pub fn boxed(panel: &Panel, full: &[u8]) -> bool {
    panel.display && !panel.standby && !panel.missing(full).is_empty()
}

/// Counts what became of a record's transfer, if it has one: a panel that was idle and is busy has carried it out, and one that was busy
/// has lost what would have made it busy otherwise.
fn count_time(case: &Case, record: &[u8], before: Panel, after: &Panel, tally: &mut Tally) {
    if !before.busy() {
        tally.in_time += u64::from(after.busy());
        return;
    }
    let mut idle = Panel { left: 0, ..before };
    step(&mut idle, case, record, &mut case.frame.clone());
    tally.lost += u64::from(idle.busy());
}

/// Replays the capture's first `length` bytes by the proved code.
fn over_the_boundary(
    case: &Case,
    length: usize,
    expected: &Expected,
    whole: bool,
    tally: &mut Tally,
) -> Option<String> {
    let mut frame = case.frame.clone();
    let capture = &case.capture[..length];
    let after = format!("after {length} bytes of the capture");
    let ended = match proved::replay(case.made(), capture, &mut frame, case.lent()) {
        Ok(ended) => ended,
        Err(refused) => return refused_as_a_call(case, &refused, &frame, expected, tally),
    };
    let number = |what: &str, proved: u64, model: u64| {
        (proved != model)
            .then(|| format!("{after}: {what} {proved} of the proved code, {model} of the model"))
    };
    number("number", ended.number.into(), expected.number.into())
        .or_else(|| number("place", ended.place, expected.place as u64))
        .or_else(|| number("reply", ended.reply.into(), expected.reply.into()))
        .or_else(|| number("count", ended.count.into(), expected.count as u64))
        .or_else(|| {
            bytes(
                &after,
                "state",
                state_place,
                &ended.state,
                &expected.panel.bytes(),
            )
        })
        .or_else(|| bytes(&after, "frame", frame_place, &frame, expected.frame))
        .or_else(|| {
            drawn(case, &ended.state, expected, whole, tally).map(|what| format!("{after}: {what}"))
        })
}

/// Refusals 1, 2, 3 come before anything is read: no lent buffer changes, and drawing is refused alike.
fn refused_as_a_call(
    case: &Case,
    refused: &Refused,
    frame: &[u8],
    expected: &Expected,
    tally: &mut Tally,
) -> Option<String> {
    if refused.number != expected.number || expected.place != 0 {
        return Some(format!(
            "the call is refused with {} by the proved code, and by the model with {} at place {}",
            refused.number, expected.number, expected.place
        ));
    }
    if !refused.kept {
        return Some("a refused replay wrote its state or its last answers".to_string());
    }
    let state = expected.panel.bytes().try_into().expect("2,341 bytes");
    bytes("the refused call", "frame", frame_place, frame, &case.frame)
        .or_else(|| drawn(case, &state, expected, false, tally))
}

/// The first byte that differs.
pub fn bytes(
    after: &str,
    what: &str,
    place: fn(usize) -> String,
    proved: &[u8],
    model: &[u8],
) -> Option<String> {
    if proved == model {
        return None;
    }
    let at = proved.iter().zip(model).position(|(p, m)| p != m);
    let Some(at) = at else {
        return Some(format!(
            "{after}: {what} of {} bytes of the proved code, {} of the model",
            proved.len(),
            model.len()
        ));
    };
    let many = proved.iter().zip(model).filter(|(p, m)| p != m).count();
    Some(format!(
        "{after}: {what} differs at {many} places, first at {at} ({}): {:02X} of the proved code, {:02X} of the model",
        place(at),
        proved[at],
        model[at]
    ))
}

/// The proved drawing of the state that the replay led to. Where the frame is the picture already it is held to the model's frame,
/// which spares the model's drawing, dot by dot; else to that.
fn drawn(
    case: &Case,
    state: &[u8; proved::STATE],
    expected: &Expected,
    whole: bool,
    tally: &mut Tally,
) -> Option<String> {
    let length = expected.frame.len();
    let mut afresh = vec![0x5A; length];
    let number = proved::draw(Memories::of(state), &mut afresh, case.lent());
    let mut picture = vec![0x5A; length];
    let model_number = if whole {
        picture.copy_from_slice(expected.frame);
        0
    } else {
        expected
            .panel
            .draw(&mut picture, &case.half, &case.full, case.phase)
    };
    tally.draws += 1;
    if number != model_number {
        return Some(format!(
            "draw's number {number} of the proved code, {model_number} of the model"
        ));
    }
    bytes(
        "the state drawn afresh",
        "picture",
        frame_place,
        &afresh,
        &picture,
    )
}
