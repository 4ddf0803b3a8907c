//! A state as bytes: text memory, glyph memory, graphic memory, controls, link.

/// The bytes of the controls, the numbering last.
pub const CONTROL: usize = 27;

/// Where they begin in a state's bytes: after text memory, glyph memory and graphic memory.
pub const CONTROL_AT: usize = 128 + 128 + 2048;

/// The bytes of the link.
pub const LINK: usize = 10;

/// Where they begin: after the controls.
pub const LINK_AT: usize = CONTROL_AT + CONTROL;

/// The bytes of a state.
pub const STATE: usize = LINK_AT + LINK;

/// A state to draw: its memories and its controls.
#[derive(Clone, Copy)]
pub struct Memories<'a> {
    pub text: &'a [u8; 128],
    pub glyph: &'a [u8; 128],
    pub graphic: &'a [u8; 2048],
    pub control: &'a [u8; CONTROL],
}

impl<'a> Memories<'a> {
    /// The parts of a state's bytes that a picture shows.
    pub fn of(state: &'a [u8; STATE]) -> Memories<'a> {
        let (text, rest) = state.split_first_chunk().expect("128 bytes of text");
        let (glyph, rest) = rest.split_first_chunk().expect("128 bytes of images");
        let (graphic, rest) = rest.split_first_chunk().expect("2,048 bytes of graphic");
        let (control, _) = rest.split_first_chunk().expect("27 bytes of controls");
        Memories {
            text,
            glyph,
            graphic,
            control,
        }
    }
}

/// All parts of a state's bytes, for a call that writes them.
pub(crate) struct Parts<'a> {
    pub text: &'a mut [u8; 128],
    pub glyph: &'a mut [u8; 128],
    pub graphic: &'a mut [u8; 2048],
    pub control: &'a mut [u8; CONTROL],
    pub link: &'a mut [u8; LINK],
}

impl<'a> Parts<'a> {
    pub fn of(state: &'a mut [u8; STATE]) -> Parts<'a> {
        let (text, rest) = state.split_first_chunk_mut().expect("128 bytes of text");
        let (glyph, rest) = rest.split_first_chunk_mut().expect("128 bytes of images");
        let (graphic, rest) = rest
            .split_first_chunk_mut()
            .expect("2,048 bytes of graphic");
        let (control, rest) = rest.split_first_chunk_mut().expect("27 bytes of controls");
        let (link, _) = rest.split_first_chunk_mut().expect("10 bytes of the link");
        Parts {
            text,
            glyph,
            graphic,
            control,
            link,
        }
    }
}
