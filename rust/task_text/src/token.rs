//! Lines as tokens parted by white space, without comments ('#' to the end of
//! the line), and mistakes with their place.

use std::fmt;

/// What is wrong at a place of a text; lines and columns are counted from 1.
#[derive(Clone, PartialEq, Eq, Debug)]
pub struct Mistake {
    pub line: usize,
    pub column: usize,
    pub text: String,
}

impl fmt::Display for Mistake {
    fn fmt(&self, f: &mut fmt::Formatter) -> fmt::Result {
        write!(f, "{}:{}: {}", self.line, self.column, self.text)
    }
}

#[derive(Clone, Copy, PartialEq, Eq, Debug)]
pub struct Token<'a> {
    pub line: usize,
    pub column: usize,
    pub text: &'a str,
}

impl Token<'_> {
    pub fn mistake(&self, text: impl Into<String>) -> Mistake {
        Mistake {
            line: self.line,
            column: self.column,
            text: text.into(),
        }
    }
}

/// The tokens of each line.
pub fn lines(text: &str) -> impl Iterator<Item = Vec<Token<'_>>> {
    let numbered = text.lines().enumerate();
    numbered.map(|(number, line)| tokens(number + 1, line.split('#').next().unwrap_or("")))
}

fn tokens(line: usize, content: &str) -> Vec<Token<'_>> {
    let mut found = Vec::new();
    let mut start = None;
    let ends = content.char_indices().chain([(content.len(), ' ')]);
    for (column, (at, c)) in ends.enumerate() {
        match (c.is_whitespace(), start) {
            (false, None) => start = Some((column + 1, at)),
            (true, Some((column, from))) => {
                let text = &content[from..at];
                found.push(Token { line, column, text });
                start = None;
            }
            _ => {}
        }
    }
    found
}

/// A word as decimal digits.
pub fn parse_word(text: &str) -> Option<u16> {
    let digits = text.bytes().all(|byte| byte.is_ascii_digit());
    text.parse().ok().filter(|_| digits)
}

#[cfg(test)]
mod tests {
    use super::*;

    #[test]
    fn places_of_tokens() {
        let found: Vec<_> = lines("ä b# c\n\n\t dé\r\n").collect();
        let place = |line, column, text| Token { line, column, text };
        assert_eq!(
            found,
            [
                vec![place(1, 1, "ä"), place(1, 3, "b")],
                vec![],
                vec![place(3, 3, "dé")],
            ]
        );
    }

    #[test]
    fn words() {
        assert_eq!(parse_word("65535"), Some(65535));
        for text in ["65536", "-1", "+1", "x", "1.0", ""] {
            assert_eq!(parse_word(text), None, "{text}");
        }
    }
}
