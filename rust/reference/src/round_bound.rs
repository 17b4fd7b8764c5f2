//! The most rounds a synthesis makes (document 02 §5).

/// The number of clauses of 1 to `n` literals: a clause of k literals takes k of the
/// atoms, each in one of two signs.
pub fn possible_clauses(atoms: u64, n: u32) -> u64 {
    (1..=n).map(|k| 2u64.pow(k) * choose(atoms, k)).sum()
}

/// A synthesis makes at most so many rounds.
pub fn round_bound(atoms: u64, n: u32) -> u64 {
    1 + possible_clauses(atoms, n)
}

/// The number of sets of `k` atoms. Before each factor the product is a number of
/// smaller sets, so every division is exact.
pub fn choose(atoms: u64, k: u32) -> u64 {
    let factors = (0..u64::from(k)).map(|taken| (atoms.saturating_sub(taken), taken + 1));
    factors.fold(1, |sets, (remaining, size)| sets * remaining / size)
}
