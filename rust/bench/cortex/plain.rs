//! The plain Rust of the bench for a Cortex-M, where tools/cortex counts its instructions beside those of the proved code.
#![no_std]
#![crate_type = "lib"]

#[path = "../src/blocks.rs"]
mod blocks;
#[path = "../src/bytewise.rs"]
mod bytewise;
#[path = "../src/in_place.rs"]
mod in_place;
#[path = "../src/state.rs"]
mod state;
#[path = "../src/turns.rs"]
mod turns;

#[no_mangle]
pub extern "C" fn blocks_draw(
    screen: &state::Screen,
    frame: &mut [u8; 1024],
    half: &[u8; 2048],
    full: &[u8; state::FULL_FONT_LIMIT],
) {
    blocks::draw(screen, frame, half, full, true);
}

#[no_mangle]
pub extern "C" fn bytewise_draw(
    screen: &state::Screen,
    frame: &mut [u8; 1024],
    half: &[u8; 2048],
    full: &[u8; state::FULL_FONT_LIMIT],
) {
    bytewise::draw(screen, frame, half, full, true);
}

#[no_mangle]
pub extern "C" fn plain_turns(what: u8, times: u32) -> u32 {
    turns::run(what, times)
}
