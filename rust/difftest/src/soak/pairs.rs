//! The soak of pairs: so many bits of the wire.
use super::Soaked;
use crate::compare::Tally;
use crate::gate::told;
use crate::groups;

#[derive(Default)]
pub struct Pairs(Tally);

impl Soaked for Pairs {
    const NAME: &'static str = "soak of pairs";

    fn case(&mut self, seed: u64, number: u64) -> Result<(), String> {
        groups::pair(seed, number, &mut self.0)
    }

    fn compared(&self) -> u64 {
        self.0.bits
    }

    fn shown(&self) -> (String, u64) {
        let bits = self.0.bits;
        (format!("{bits} bits compared"), bits)
    }

    fn told(&self) -> Vec<String> {
        vec![format!(": {} compared", told(&self.0))]
    }
}
