//! Damage to bytes.

use random::Random;

/// The bytes with a few of them changed, taken out or put in; new bytes come
/// mostly from the alphabet.
pub fn damaged(random: &mut Random, mut bytes: Vec<u8>, alphabet: &[u8]) -> Vec<u8> {
    for _ in 0..random.within(1..=3) {
        let new = if random.chance(85) { random.pick(alphabet) } else { random.number() as u8 };
        let at = random.below(bytes.len() + 1);
        match random.below(8) {
            0..=2 if at < bytes.len() => bytes[at] = new,
            3..=4 if at < bytes.len() => drop(bytes.remove(at)),
            5 => bytes.truncate(at),
            _ => bytes.insert(at, new),
        }
    }
    bytes
}
