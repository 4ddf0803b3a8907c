//! The sender: every byte for both registers, with buffers short and long.
use crate::random::Random;

/// Answers how many calls were compared, or what differs.
pub fn compare(random: &mut Random) -> Result<u64, String> {
    let mut calls = 0;
    for register in [false, true] {
        for byte in 0..=255 {
            for length in [0, 1, 2, 3, 4, 5, 8, 1_000] {
                let before = random.bytes(length);
                let (mut ours, mut theirs) = (before.clone(), before);
                let proved = proved::send(register, byte, &mut ours);
                let model = model::send(register, byte, &mut theirs);
                if (proved, &ours) != (model, &theirs) {
                    let call =
                        format!("register {register}, byte {byte:02X}, buffer of {length} bytes");
                    return Err(format!("{call}: {proved} and {ours:02X?} of the proved code, {model} and {theirs:02X?} of the model"));
                }
                calls += 1;
            }
        }
    }
    Ok(calls)
}
