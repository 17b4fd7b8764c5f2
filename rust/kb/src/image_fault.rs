//! Says of an image that questions 1 to 7 refuse what is wrong with it. The
//! refusal is the library's; this only looks for the place.

use kulabismuth::Refusal;
use task_text::task::parts;
use task_text::Names;

const MOST: u16 = 1024;

/// What a refusal by questions 1 to 7 says.
pub fn describe(refusal: Refusal, image: &[u16], names: &Names) -> String {
    let operator = refusal.first as usize;
    match refusal.number {
        1 => format!("the image has {} words; 6 to 8192 are read", image.len()),
        2 => numbers(image),
        3 => format!("the directory is not right: {}", directory(image)),
        4 => format!("the initial state is not right: {}", initial(image)),
        5 => format!(
            "the goal is not right: {}",
            list(part(image, 1), image, names)
        ),
        6 => format!(
            "operator {}: its counts do not end at the end of its block, which has {} words",
            names.operators.describe(operator),
            part(image, 2 + operator).len()
        ),
        _ => format!(
            "operator {}: {}",
            names.operators.describe(operator),
            block(part(image, 2 + operator), image, names)
        ),
    }
}

fn numbers(image: &[u16]) -> String {
    let (atoms, operators) = (image[0], image[1]);
    format!(
        "{atoms} atoms and {operators} operators; atoms are 1 to {MOST}, operators at most {MOST}"
    )
}

/// A part of an image whose directory is right.
fn part(image: &[u16], number: usize) -> &[u16] {
    parts(image, 2 + usize::from(image[1]))
        .nth(number)
        .unwrap_or(&[])
}

/// The first pair that does not go on where the part before it ends.
fn directory(image: &[u16]) -> String {
    let count = 2 + usize::from(image[1]);
    let mut end = 2 + 2 * count;
    if image.len() < end {
        return format!("it takes {end} words, and the image has {}", image.len());
    }
    for (number, pair) in image[2..end].chunks_exact(2).enumerate() {
        let what = match number {
            0 => "the initial state".to_string(),
            1 => "the goal".to_string(),
            _ => format!("operator {}", number - 2),
        };
        if usize::from(pair[0]) != end {
            return format!("the offset of {what} is {}, and not {end}", pair[0]);
        }
        end += usize::from(pair[1]);
    }
    format!(
        "the last part ends at {end}, and the image at {}",
        image.len()
    )
}

fn initial(image: &[u16]) -> String {
    let (list, atoms) = (part(image, 0), image[0]);
    let falls = list.windows(2).find(|pair| pair[0] >= pair[1]);
    match (list.iter().find(|&&atom| atom >= atoms), falls) {
        (Some(atom), _) => format!("atom {atom}, and there are {atoms} atoms"),
        (_, Some(pair)) => format!("atom {} stands behind atom {}", pair[1], pair[0]),
        _ => "its list".to_string(),
    }
}

/// What is wrong with a literal list.
fn list(list: &[u16], image: &[u16], names: &Names) -> String {
    list_fault(list, image[0], names).unwrap_or("its list".to_string())
}

fn list_fault(list: &[u16], atoms: u16, names: &Names) -> Option<String> {
    let high = list
        .iter()
        .find_map(|&literal| literal_fault(literal, atoms));
    let twice = || {
        let pair = list.windows(2).find(|pair| pair[0] / 2 == pair[1] / 2)?;
        let atom = names.atoms.describe(usize::from(pair[0] / 2));
        Some(format!("atom {atom} stands twice in a list"))
    };
    let falls = || {
        let pair = list.windows(2).find(|pair| pair[0] > pair[1])?;
        Some(format!(
            "literal {} stands behind literal {}",
            pair[1], pair[0]
        ))
    };
    high.or_else(twice).or_else(falls)
}

fn literal_fault(literal: u16, atoms: u16) -> Option<String> {
    let atom = literal / 2;
    (atom >= atoms)
        .then(|| format!("literal {literal} is of atom {atom}, and there are {atoms} atoms"))
}

/// What is wrong in a block whose counts are right.
fn block(block: &[u16], image: &[u16], names: &Names) -> String {
    let atoms = image[0];
    let (precondition, rest) = block[1..].split_at(block[0].into());
    if let Some(fault) = list_fault(precondition, atoms, names) {
        return format!("its precondition is not right: {fault}");
    }
    let (mut rows, mut number) = (&rest[1..], 0);
    while let [effect, count, rest @ ..] = rows {
        let (conditions, after) = rest.split_at((*count).into());
        let fault = literal_fault(*effect, atoms);
        if let Some(fault) = fault.or_else(|| list_fault(conditions, atoms, names)) {
            return format!("its effect row {number} is not right: {fault}");
        }
        (rows, number) = (after, number + 1);
    }
    "its literals and lists are not right".to_string()
}

#[cfg(test)]
mod tests {
    use super::*;

    const RING: [u16; 35] = [
        3, 3, 12, 1, 13, 1, 14, 7, 21, 7, 28, 7, 0, 4, 1, 0, 2, 1, 0, 2, 0, 1, 2, 2, 3, 0, 4, 0, 1,
        4, 2, 5, 0, 0, 0,
    ];

    /// What is said of the ring with some words changed.
    fn said(changes: &[(usize, u16)]) -> String {
        let mut image = RING.to_vec();
        changes.iter().for_each(|&(at, word)| image[at] = word);
        let refusal = kulabismuth::read(&image)
            .answer()
            .expect_err("it is refused");
        format!(
            "{}: {}",
            refusal.number,
            describe(refusal, &image, &Names::default())
        )
    }

    #[test]
    fn faults() {
        for (changes, expected) in [
            (&[(0, 0)][..], "2: 0 atoms and 3 operators"),
            (&[(1, 1025)], "2: 3 atoms and 1025 operators"),
            (
                &[(1, 20)],
                "3: the directory is not right: it takes 46 words",
            ),
            (
                &[(4, 12)],
                "3: the directory is not right: the offset of the goal is 12, and not 13",
            ),
            (
                &[(11, 6)],
                "3: the directory is not right: the last part ends at 34",
            ),
            (
                &[(12, 3)],
                "4: the initial state is not right: atom 3, and there are 3 atoms",
            ),
            (
                &[(13, 6)],
                "5: the goal is not right: literal 6 is of atom 3",
            ),
            (&[(23, 3)], "6: operator 1: its counts do not end"),
            (
                &[(22, 6)],
                "7: operator 1: its precondition is not right: literal 6 is of atom 3",
            ),
            (
                &[(33, 7)],
                "7: operator 2: its effect row 1 is not right: literal 7 is of atom 3",
            ),
        ] {
            let found = said(changes);
            assert!(found.starts_with(expected), "{found}");
        }
        let refusal = kulabismuth::read(&RING[..5]).answer();
        let refusal = refusal.expect_err("it is refused");
        let found = describe(refusal, &RING[..5], &Names::default());
        assert_eq!(found, "the image has 5 words; 6 to 8192 are read");
    }

    #[test]
    fn lists() {
        let fault = |list: &[u16]| list_fault(list, 3, &Names::default()).unwrap_or_default();
        assert_eq!(fault(&[0, 1]), "atom 0 stands twice in a list");
        assert_eq!(fault(&[4, 0]), "literal 0 stands behind literal 4");
        assert_eq!(fault(&[0, 3, 4]), "");
    }
}
