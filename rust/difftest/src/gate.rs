//! The part of the gate: the same cases every time, a line for each group.
use crate::compare::Tally;
use crate::groups::{self, named};
use crate::random::Random;
use crate::{draws, sender};

/// The seed of the gate's cases.
const SEED: u64 = 8;

fn cases(
    many: u64,
    mut compare: impl FnMut(u64, &mut Tally) -> Result<(), String>,
) -> Result<String, String> {
    let mut tally = Tally::default();
    for number in 0..many {
        compare(number, &mut tally)?;
    }
    Ok(told(&tally))
}

/// How much each group compares: the cases are the same every time, so a group that compares less, or nothing, has lost some.
const PINNED: [(&str, &str); 18] = [
    (
        "captures",
        "136986 records, 69895 of them by the new numbering, 140743 whole draws, \
         10703 glasses with the box of a missing glyph",
    ),
    (
        "damaged captures",
        "6548 records, 3517 of them by the new numbering, 734 refusals, 8240 whole draws, \
         353 glasses with the box of a missing glyph",
    ),
    (
        "records of any kind",
        "6496 records, 3149 of them by the new numbering, 470 refusals, 8236 whole draws, \
         17 glasses with the box of a missing glyph",
    ),
    ("buffers that are refused", "400 refusals, 800 whole draws"),
    (
        "every instruction in every mode over each link",
        "69632 records, 35328 of them by the new numbering, 69632 whole draws, \
         2033 glasses with the box of a missing glyph",
    ),
    (
        "states made up, drawn",
        "20000 whole draws, 13497 glasses with the box of a missing glyph",
    ),
    (
        "every text word, drawn",
        "8192 whole draws, 657 glasses with the box of a missing glyph",
    ),
    (
        "every length of the full font, drawn",
        "35208 whole draws, 17152 glasses with the box of a missing glyph",
    ),
    ("printed lines", "55342 printed lines"),
    (
        "captures with time",
        "151832 records, 73802 of them by the new numbering, 155589 whole draws, \
         6458 glasses with the box of a missing glyph, \
         44398 transfers carried out in time, 16581 lost",
    ),
    (
        "damaged captures with time",
        "7055 records, 3233 of them by the new numbering, 734 refusals, 8736 whole draws, \
         116 glasses with the box of a missing glyph, \
         2076 transfers carried out in time, 793 lost",
    ),
    (
        "records of any kind with time",
        "6879 records, 3429 of them by the new numbering, 440 refusals, 8559 whole draws, \
         722 transfers carried out in time, 960 lost",
    ),
    (
        "buffers that are refused with time",
        "400 refusals, 800 whole draws",
    ),
    (
        "every instruction in every mode over each link with time",
        "174080 records, 90112 of them by the new numbering, 174080 whole draws, \
         4337 glasses with the box of a missing glyph, \
         29328 transfers carried out in time, 29328 lost",
    ),
    ("printed lines with time", "58664 printed lines"),
    (
        "pairs",
        "453736 bits, 12002 refusals, 975 whole draws, \
         93 glasses with the box of a missing glyph, \
         5728 transfers on the left panel, 5775 on the right, 3518 on both, \
         4378 transfers carried out in time, 2654 lost",
    ),
    (
        "pairs of any bytes",
        "250678 bits, 44851 refusals, 40000 whole draws",
    ),
    ("sender", "4096 calls"),
];

/// Prints the group's line; answers whether nothing differs, and as much was compared as is pinned.
fn group(name: &str, compared: Result<String, String>) -> bool {
    let pinned = PINNED.iter().find(|(group, _)| *group == name);
    let wrong = match (&compared, pinned) {
        (Err(what), _) => what.clone(),
        (Ok(told), None) => format!("{told} compared, and nothing is pinned"),
        (Ok(told), Some((_, much))) if told != much => {
            format!("{told} compared, and pinned are {much}")
        }
        (Ok(told), _) => {
            println!("ok difftest: {name}: {told} compared");
            return true;
        }
    };
    println!("FAILED difftest: {name}: {wrong}");
    false
}

/// What was compared, without what was not.
pub fn told(tally: &Tally) -> String {
    let counts = [
        (tally.bits, "bits"),
        (tally.records, "records"),
        (tally.by_new, "of them by the new numbering"),
        (tally.stops, "refusals"),
        (tally.draws, "whole draws"),
        (tally.boxed, "glasses with the box of a missing glyph"),
        (tally.lines, "printed lines"),
    ];
    let mut parts: Vec<String> = counts
        .iter()
        .filter(|(count, _)| *count > 0)
        .map(|(count, what)| format!("{count} {what}"))
        .collect();
    let on_panels = [tally.on_left, tally.on_right, tally.on_both];
    if on_panels != [0; 3] {
        let [left, right, both] = on_panels;
        parts.push(format!(
            "{left} transfers on the left panel, {right} on the right, {both} on both"
        ));
    }
    // A run with time that loses none is to be seen.
    if tally.in_time + tally.lost > 0 {
        let (in_time, lost) = (tally.in_time, tally.lost);
        parts.push(format!(
            "{in_time} transfers carried out in time, {lost} lost"
        ));
    }
    if parts.is_empty() {
        return "nothing".to_string();
    }
    parts.join(", ")
}

fn whole(
    different: impl FnOnce(&mut Random, &mut Tally) -> Option<String>,
) -> Result<String, String> {
    let mut tally = Tally::default();
    match different(&mut Random::new(SEED, 0), &mut tally) {
        None => Ok(told(&tally)),
        Some(what) => Err(what),
    }
}

/// The groups that replay captures, on panels without time or with it.
fn replays(time: bool) -> bool {
    let mut passed = true;
    for (name, make, share) in groups::RANDOM {
        let random =
            |number: u64, tally: &mut Tally| groups::random(name, make, time, SEED, number, tally);
        passed &= group(&named(name, time), cases(400 * share, random));
    }
    let mut tally = Tally::default();
    let every = groups::every_instruction(time, SEED, &mut tally).map(|()| told(&tally));
    let name = named("every instruction in every mode over each link", time);
    passed &= group(&name, every);
    let lines = |number: u64, tally: &mut Tally| {
        groups::lines(time, SEED, number, 40 << (number % 8), tally)
    };
    passed & group(&named("printed lines", time), cases(48, lines))
}

pub fn run() -> bool {
    let mut passed = true;
    for time in [false, true] {
        passed &= replays(time);
    }
    let made_up = |number: u64, tally: &mut Tally| groups::made_up(SEED, number, tally);
    passed &= group("states made up, drawn", cases(20_000, made_up));
    passed &= group("every text word, drawn", whole(draws::every_word));
    passed &= group(
        "every length of the full font, drawn",
        whole(draws::every_length),
    );
    let pair = |number: u64, tally: &mut Tally| groups::pair(SEED, number, tally);
    passed &= group("pairs", cases(1_000, pair));
    let any_bytes = |number: u64, tally: &mut Tally| groups::any_bytes(SEED, number, tally);
    passed &= group("pairs of any bytes", cases(20_000, any_bytes));
    let calls = sender::compare(&mut Random::new(SEED, 0)).map(|calls| format!("{calls} calls"));
    passed & group("sender", calls)
}
