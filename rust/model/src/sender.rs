//! The sender: three bytes of the serial link per write.

/// F8h (instruction) or FAh (data, `register`), then the upper and the lower
/// half byte in bits 7..4. Refuses a buffer under 3 bytes with 4; writes the
/// first three bytes and no others.
pub fn send(register: bool, byte: u8, buffer: &mut [u8]) -> u8 {
    if buffer.len() < 3 {
        return 4;
    }
    buffer[0] = if register { 0xFA } else { 0xF8 };
    buffer[1] = byte & 0xF0;
    buffer[2] = (byte & 0x0F) << 4;
    0
}
