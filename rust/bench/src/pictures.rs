//! Stored pictures: plain Rust drew them, and the proved drawing is held to them. They are PBM files, which image tools show.
use crate::dots;
use crate::screen::{Fonts, Screen};
use std::path::{Path, PathBuf};

const HEADER: &[u8] = b"P4\n256 32\n";

fn file(folder: &str, name: &str, phase: bool) -> PathBuf {
    Path::new(folder).join(format!("{name}-{}.pbm", phase as u8))
}

pub fn write(folder: &str, fonts: &Fonts, screens: &[(&str, Screen)]) -> bool {
    for (name, screen) in screens {
        for phase in [false, true] {
            let mut frame = [0u8; 1024];
            dots::draw(screen, fonts, phase, &mut frame);
            let path = file(folder, name, phase);
            if let Err(error) = std::fs::write(&path, [HEADER, &frame].concat()) {
                eprintln!("{}: {error}", path.display());
                return false;
            }
        }
    }
    true
}

/// The screens, each followed by its picture of phase 1, and the fonts: for a program that reads no files.
pub fn raw(folder: &str, fonts: &Fonts, screens: &[(&str, Screen)]) -> bool {
    let mut bytes = Vec::new();
    for (_, screen) in screens {
        let mut frame = [0u8; 1024];
        dots::draw(screen, fonts, true, &mut frame);
        for part in [
            &screen.text[..],
            &screen.glyph,
            &screen.graphic,
            &screen.control,
            &frame,
        ] {
            bytes.extend(part);
        }
    }
    for (name, bytes) in [
        ("screens", &bytes),
        ("half", &fonts.half),
        ("full", &fonts.full),
    ] {
        if let Err(error) = std::fs::write(Path::new(folder).join(name), bytes) {
            eprintln!("{name}: {error}");
            return false;
        }
    }
    true
}

/// Whether the proved drawing, into a frame of other content, gives the stored picture.
fn same(path: &Path, screen: &Screen, fonts: &Fonts, phase: bool) -> Result<(), String> {
    let stored = std::fs::read(path).map_err(|error| error.to_string())?;
    let mut frame = [0x5Au8; 1024];
    let number = proved::draw(screen.memories(), &mut frame, fonts.lent(phase));
    if number != 0 {
        return Err(format!("refused with {number}"));
    }
    if stored != [HEADER, &frame].concat() {
        return Err("another picture is stored".to_string());
    }
    Ok(())
}

pub fn compare(folder: &str, fonts: &Fonts, screens: &[(&str, Screen)]) -> bool {
    let mut passed = true;
    for (name, screen) in screens {
        for phase in [false, true] {
            let path = file(folder, name, phase);
            match same(&path, screen, fonts, phase) {
                Ok(()) => println!("ok picture {name}, phase {}", phase as u8),
                Err(why) => {
                    println!(
                        "FAILED picture {name}, phase {}: {}: {why}",
                        phase as u8,
                        path.display()
                    );
                    passed = false;
                }
            }
        }
    }
    passed
}
