//! States and lists of operator numbers.

use crate::Rng;

/// All states of so many atoms.
pub fn all(atoms: usize) -> impl Iterator<Item = Vec<u8>> {
    (0..1usize << atoms).map(move |bits| (0..atoms).map(|a| (bits >> a & 1) as u8).collect())
}

/// A random state of 0 and 1 bytes.
pub fn valid(rng: &mut Rng, atoms: usize) -> Vec<u8> {
    let percent = *rng.pick(&[10, 50, 90]);
    (0..atoms).map(|_| u8::from(rng.chance(percent))).collect()
}

/// A state of a wrong length or with a byte that is neither 0 nor 1.
pub fn damaged(rng: &mut Rng, atoms: usize) -> Vec<u8> {
    let mut state = valid(rng, atoms);
    if rng.chance(50) || atoms == 0 {
        let length = wrong_length(rng, atoms);
        state.resize(length, 0);
    } else {
        state[rng.below(atoms)] = *rng.pick(&[2, 3, 128, 255]);
    }
    state
}

/// A length other than this one.
pub fn wrong_length(rng: &mut Rng, length: usize) -> usize {
    let lengths = [
        length + 1,
        length.wrapping_sub(1),
        0,
        2 * length,
        length + 2,
    ];
    let mut lengths = lengths.to_vec();
    lengths.retain(|&other| other != length && other != usize::MAX);
    *rng.pick(&lengths)
}

/// A random operator number, now and then one that is too high.
pub fn operator(rng: &mut Rng, operators: usize) -> u16 {
    if operators == 0 || rng.chance(6) {
        let too_high = [operators, operators + 1, 1024, 65535];
        (*rng.pick(&too_high)).max(operators) as u16
    } else {
        rng.below(operators) as u16
    }
}

/// A random list of operator numbers, sometimes empty.
pub fn list(rng: &mut Rng, operators: usize) -> Vec<u16> {
    let length = *rng.pick(&[0, 1, 2, 3, 5, 12]);
    (0..length).map(|_| operator(rng, operators)).collect()
}
