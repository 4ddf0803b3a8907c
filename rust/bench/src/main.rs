//! The proved code measured against plain Rust, on the same inputs in one run.
//!
//!     bench                        times all of it, and prints tables of ratios
//!     bench draws|writes|replays|programs    only these
//!     bench turns text|images|graphic       does a million turns of that and prints a number, as `timing` does
//!     bench agree                  holds the plain Rust that is timed to the proved code: the panel on random captures, the drawings on
//!                                  every text word
//!     bench pictures FOLDER        holds the proved pictures to those stored in FOLDER, a line 'ok ..' each
//!     bench screens FOLDER         stores the screens, each with its picture, and the fonts, as bytes alone
//!     bench write-pictures FOLDER  stores the pictures that plain Rust draws dot by dot
mod blocks;
mod bytewise;
mod dots;
mod draws;
mod in_place;
mod pictures;
mod programs;
mod replays;
mod screen;
mod state;
mod timing;
mod turns;
mod writes;

use screen::*;

/// The fonts and the screens that every run draws.
fn scenes() -> (Fonts, [(&'static str, Screen); 5]) {
    let mut random = Random(0x5EED_0007);
    let fonts = fonts(&mut random);
    let screens = [
        ("text", screen(Words::Letters, false, &mut random)),
        ("glyph", screen(Words::Glyphs, false, &mut random)),
        ("graphic", screen(Words::Spaces, true, &mut random)),
        ("mixed", screen(Words::Mixed, true, &mut random)),
        (
            "traditional",
            screen(Words::Traditional, false, &mut random),
        ),
    ];
    (fonts, screens)
}

fn main() {
    let words: Vec<String> = std::env::args().skip(1).collect();
    let words: Vec<&str> = words.iter().map(String::as_str).collect();
    if let ["turns", what] = words[..] {
        println!("{}", turns::run(what.as_bytes()[0], 1_000_000));
        return;
    }
    let (fonts, screens) = scenes();
    let mut passed = true;
    match words[..] {
        [] => {
            draws::measure(&fonts, &screens);
            replays::agree(&fonts);
            writes::measure();
            replays::measure(&fonts);
            programs::measure();
        }
        ["draws"] => draws::measure(&fonts, &screens),
        ["writes"] => {
            replays::agree(&fonts);
            writes::measure()
        }
        ["replays"] => {
            replays::agree(&fonts);
            replays::measure(&fonts)
        }
        ["programs"] => programs::measure(),
        ["agree"] => {
            replays::agree(&fonts);
            println!("ok plain Rust in place: as the proved code on random captures");
            draws::agree(&fonts);
            println!(
                "ok plain Rust drawings: as the proved code on every text word, by both numberings"
            );
        }
        ["pictures", folder] => passed = pictures::compare(folder, &fonts, &screens),
        ["screens", folder] => passed = pictures::raw(folder, &fonts, &screens),
        ["write-pictures", folder] => passed = pictures::write(folder, &fonts, &screens),
        _ => {
            eprintln!("usage: bench [draws | writes | replays | programs | turns WHAT | agree | screens FOLDER | pictures FOLDER | write-pictures FOLDER]");
            passed = false;
        }
    };
    if !passed {
        std::process::exit(1);
    }
}
