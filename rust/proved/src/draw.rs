//! A picture drawn afresh.
use crate::{Lent, Memories, CONTROL};

extern "C" {
    fn zifqarell_draw(
        text: *const [u8; 128],
        glyph: *const [u8; 128],
        graphic: *const [u8; 2048],
        control: *const [u8; CONTROL],
        frame: *mut u8,
        frame_length: usize,
        half: *const u8,
        half_length: usize,
        full: *const u8,
        full_length: usize,
        phase: bool,
    ) -> u8;
}

/// Draws a state's picture into the frame; answers 0 or the refusal's number.
pub fn draw(memories: Memories, frame: &mut [u8], lent: Lent) -> u8 {
    // Each pointer is that of a live reference, with the length that goes with it, and only the frame is written.
    unsafe {
        zifqarell_draw(
            memories.text,
            memories.glyph,
            memories.graphic,
            memories.control,
            frame.as_mut_ptr(),
            frame.len(),
            lent.half.as_ptr(),
            lent.half.len(),
            lent.full.as_ptr(),
            lent.full.len(),
            lent.phase,
        )
    }
}
