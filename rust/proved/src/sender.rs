//! The sender of the serial link.

extern "C" {
    fn zifqarell_send(register: bool, byte: u8, buffer: *mut u8, buffer_length: usize) -> u8;
}

/// The sender: three bytes of the serial link for a write; answers 0, or 4 for a buffer that is too short.
pub fn send(register: bool, byte: u8, buffer: &mut [u8]) -> u8 {
    // The pointer is that of a live, mutably borrowed slice, with its length.
    unsafe { zifqarell_send(register, byte, buffer.as_mut_ptr(), buffer.len()) }
}
