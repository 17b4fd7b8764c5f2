//! Operator lists as text: names or numbers parted by white space, with '#'
//! comments.

use crate::token::{lines, Mistake};
use crate::Names;

/// The operator numbers of a text.
pub fn read(text: &str, names: &Names) -> Result<Vec<u16>, Mistake> {
    let tokens = lines(text).flatten();
    let number = |token: crate::token::Token| {
        names
            .operator(token.text)
            .map_err(|text| token.mistake(text))
    };
    tokens.map(number).collect()
}

#[cfg(test)]
mod tests {
    use super::*;

    #[test]
    fn names_and_numbers() {
        let mut names = Names::default();
        names.operators.push(Some("go"));
        assert_eq!(read("go 7 # stop\n 0", &names), Ok(vec![0, 7, 0]));
        for text in ["stop", "-1", "65536"] {
            assert!(read(text, &names).is_err(), "{text}");
        }
    }
}
