//! Round limits: which one always suffices (docs/ROUNDS.md).

use crate::library::WIDTH;
use crate::Failure;

/// The highest limit that question 12 admits.
const HIGHEST: u64 = 65_535;

/// 1 plus the number of possible clauses.
fn bound(atoms: u16, n: u16) -> u64 {
    let atoms = u64::from(atoms);
    let pairs = 2 * atoms * atoms;
    let triples = 4 * atoms * atoms.saturating_sub(1) * atoms.saturating_sub(2) / 3;
    1 + match n {
        1 => 2 * atoms,
        2 => pairs,
        _ => pairs + triples,
    }
}

/// The limit of an argument, and for 'enough' what it is.
pub fn read(argument: &str, atoms: u16, n: u16) -> Result<(u16, Option<String>), Failure> {
    if argument != "enough" {
        let wrong = || format!("LIMIT: '{argument}' is not a number from 0 to 65535, or 'enough'");
        let limit = task_text::parse_word(argument);
        return Ok((limit.ok_or_else(|| Failure::Usage(wrong()))?, None));
    }
    if n == 0 || usize::from(n) > WIDTH {
        return Ok((HIGHEST as u16, None)); // question 12 refuses N
    }
    let bound = bound(atoms, n);
    let text = if bound <= HIGHEST {
        format!("limit {bound}: proved to suffice for {atoms} atoms and clauses of at most {n} literals")
    } else {
        format!("limit {HIGHEST}, the highest; only {bound} is proved to suffice for {atoms} atoms and clauses of at most {n} literals")
    };
    Ok((bound.min(HIGHEST) as u16, Some(text)))
}

/// What a refusal by question 15 means.
pub fn advice(atoms: u16, n: u16, limit: u16) -> String {
    let bound = bound(atoms, n);
    let enough = if bound <= HIGHEST {
        format!("{bound} rounds always suffice")
    } else {
        format!("no limit is known to suffice; the highest is {HIGHEST}")
    };
    format!("no finding in {limit} rounds; for {atoms} atoms and at most {n} literals {enough}")
}

#[cfg(test)]
mod tests {
    use super::*;

    #[test]
    fn enough() {
        let limit = |atoms, n| read("enough", atoms, n).expect("it is a limit").0;
        assert_eq!((limit(3, 2), limit(3, 3), limit(1024, 1)), (19, 27, 2049));
        assert_eq!((limit(181, 2), limit(182, 2)), (65_523, 65_535));
        assert_eq!((limit(37, 3), limit(38, 3)), (64_899, 65_535));
        let said = |atoms| read("enough", atoms, 3).expect("it is a limit").1;
        assert!(said(37).is_some_and(|text| text.starts_with("limit 64899: proved to suffice")));
        assert!(said(38).is_some_and(|text| text.starts_with("limit 65535, the highest")));
    }

    #[test]
    fn closed_forms() {
        for (atoms, n) in (0..=1024).flat_map(|atoms| [1, 2, 3].map(|n| (atoms, n))) {
            let counted = reference::round_bound::round_bound(atoms.into(), n.into());
            assert_eq!(bound(atoms, n), counted, "{atoms} atoms, {n} literals");
        }
    }

    #[test]
    fn nothing_is_said_of_a_wrong_n() {
        for n in [0, 4] {
            assert!(read("enough", 3, n).is_ok_and(|(_, said)| said.is_none()));
        }
    }

    #[test]
    fn numbers() {
        assert!(read("10", 3, 2).is_ok_and(|(limit, said)| limit == 10 && said.is_none()));
        assert!(read("ten", 3, 2).is_err() && read("65536", 3, 2).is_err());
    }

    #[test]
    fn advice_after_a_refusal() {
        let few = advice(3, 2, 2);
        assert_eq!(
            few,
            "no finding in 2 rounds; for 3 atoms and at most 2 literals 19 rounds always suffice"
        );
        assert!(advice(38, 3, 2).contains("no limit is known to suffice"));
    }
}
