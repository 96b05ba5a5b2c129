use crate::Rng;

/// Changes some bytes: flips, cuts, insertions, removals, and values at the edge of a limit.
pub fn damage(bytes: &mut Vec<u8>, rng: &mut Rng) {
    for _ in 0..1 + rng.below(2) {
        if bytes.is_empty() {
            bytes.push(rng.number() as u8);
            continue;
        }
        let at = rng.below(bytes.len());
        match rng.below(8) {
            0 | 1 => bytes[at] ^= 1 << rng.below(8),
            2 => bytes[at] = rng.number() as u8,
            3 => bytes[at] = rng.pick(&[0, 1, 2, 4, 5, 8, 9, 12, 13, 16, 17, 31, 32, 33, 64, 65, 126, 127, 255]),
            4 => bytes.truncate(at),
            5 => bytes.insert(at, rng.number() as u8),
            6 => drop(bytes.remove(at)),
            _ => bytes.push(rng.number() as u8),
        }
    }
}
