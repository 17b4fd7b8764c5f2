//! The worked example of docs/CORRECTING.md: each text is read, checked and
//! answered as written there.

use inputs::clauses;
use kulabismuth::Reply;
use reference::{checker, dimacs};
use sources::Synthesized;

const PAGE: &str = include_str!("../../../docs/CORRECTING.md");
const ANSWER: &str = "`kb_check` answers ";

/// The texts of the page, each with the answer that the page gives after it.
fn steps() -> Vec<(String, Reply)> {
    let mut steps = Vec::new();
    let mut text = String::new();
    for line in PAGE.lines() {
        if let Some(line) = line.strip_prefix("    ") {
            text.push_str(line);
            text.push('\n');
        } else if let Some(rest) = line.strip_prefix(ANSWER) {
            steps.push((std::mem::take(&mut text), answer(rest)));
        }
    }
    assert_eq!(text, "", "a text without an answer");
    steps
}

/// The three numbers before the colon.
fn answer(rest: &str) -> Reply {
    let (numbers, _) = rest.split_once(':').expect("a colon behind the answer");
    let numbers: Vec<u64> = numbers
        .split(", ")
        .map(|number| number.parse().expect("a number"))
        .collect();
    let [number, first, second] = numbers[..] else {
        panic!("not three numbers: {numbers:?}");
    };
    Reply {
        number: number as u32,
        first,
        second,
    }
}

#[test]
fn the_page_is_right() {
    let image = inputs::structured::ring(3).image();
    let steps = steps();
    for (text, expected) in &steps {
        let mut rows = [0; 30];
        let read = kulabismuth::read_dimacs(&image, text.as_bytes(), &mut rows);
        assert_eq!(read.number, 0, "{text}");
        let words = &rows[..3 * read.first as usize];
        assert_eq!(
            kulabismuth::check(&image, words, &mut [0]),
            *expected,
            "{text}"
        );
        let reference = Reply::from(checker::check(&image, words, &mut [0]));
        assert_eq!(reference, *expected, "{text}");
        assert_eq!(written(&image, words), *text, "rows in another order");
    }
    let answers: Vec<u32> = steps.iter().map(|(_, reply)| reply.number).collect();
    assert_eq!(answers, [10, 10, 11, 11, 11, 0]);
    let found = clauses::words(&Synthesized::new(image.clone(), 3).rows);
    assert_eq!(written(&image, &found), steps[5].0, "the last set is found");
}

/// The text of the rows, which the reference writes as well.
fn written(image: &[u16], words: &[u16]) -> String {
    let mut text = [0; 200];
    let reply = kulabismuth::write_dimacs(image, words, &mut text);
    assert_eq!(reply, dimacs::write(image, words, &mut [0; 200]).into());
    String::from_utf8(text[..reply.first as usize].to_vec()).expect("a text")
}
