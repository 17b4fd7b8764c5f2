//! Clauses to and from DIMACS CNF.

mod common;

use common::*;
use inputs::task::{OperatorSpec, TaskSpec};
use reference::{clause, dimacs, Answer};

/// A task of so many atoms.
fn image(atoms: u16) -> Vec<u16> {
    common::task(atoms, &[], &[])
}

/// What is written for the ring's atoms.
fn written(clauses: &[u16]) -> Answer<String> {
    let mut text = [7; 200];
    let length = dimacs::write(&RING, clauses, &mut text)?;
    assert!(text[length..].iter().all(|&byte| byte == 7));
    Ok(String::from_utf8(text[..length].to_vec()).expect("a text"))
}

/// The rows read for a task of so many atoms, into room for many.
fn rows_for(atoms: u16, text: &[u8]) -> Answer<Vec<u16>> {
    let mut rows = vec![7; 31_000];
    let answer = dimacs::read(&image(atoms), text, &mut rows);
    let length = 3 * answer.unwrap_or(0);
    assert!(rows[length..].iter().all(|&word| word == 7));
    answer?;
    rows.truncate(length);
    Ok(rows)
}

/// The rows read for a task of three atoms.
fn rows(text: &str) -> Answer<Vec<u16>> {
    rows_for(3, text.as_bytes())
}

/// The number of the refusal, 0 if there is none; its places are 0.
fn number(text: &str) -> u32 {
    match rows(text) {
        Ok(_) => 0,
        Err(found) => {
            assert_eq!((found.first, found.second), (0, 0));
            found.number
        }
    }
}

/// `count` different clauses of three of so many atoms, none negated.
fn many(atoms: u16, count: usize) -> Vec<[u16; 3]> {
    let threes = (0..atoms).flat_map(|a| {
        (a + 1..atoms).flat_map(move |b| (b + 1..atoms).map(move |c| [2 * a, 2 * b, 2 * c]))
    });
    let clauses: Vec<[u16; 3]> = threes.take(count).collect();
    assert_eq!(clauses.len(), count);
    clauses
}

/// Clauses of atoms that are not negated as text, in this order.
fn text_of(atoms: u16, clauses: &[[u16; 3]]) -> String {
    let lines = clauses
        .iter()
        .map(|[a, b, c]| format!("{} {} {} 0\n", a / 2 + 1, b / 2 + 1, c / 2 + 1));
    let header = format!("p cnf {atoms} {}\n", clauses.len());
    header + &lines.collect::<String>()
}

#[test]
fn written_out() {
    assert_eq!(written(&[]).as_deref(), Ok("p cnf 3 0\n"));
    assert_eq!(
        written(&RING_CLAUSES).as_deref(),
        Ok("p cnf 3 4\n1 2 3 0\n-1 -2 0\n-1 -3 0\n-2 -3 0\n")
    );
    assert_eq!(
        written(&[0, F, F, 5, F, F]).as_deref(),
        Ok("p cnf 3 2\n1 0\n-3 0\n")
    );
    let mut text = [7; 40];
    let length = dimacs::write(&image(1024), &[0, 2047, F, 2046, F, F], &mut text);
    let expected = b"p cnf 1024 2\n1 -1024 0\n1024 0\n";
    assert_eq!(length, Ok(expected.len()));
    assert_eq!(text[..expected.len()], *expected);
}

#[test]
fn writing_questions() {
    let write = |image: &[u16], clauses: &[u16], length: usize| {
        let mut text = vec![7; length];
        let answer = dimacs::write(image, clauses, &mut text);
        assert!(answer.is_ok() || text.iter().all(|&byte| byte == 7));
        answer
    };
    assert_eq!(write(&[1], &[0], 0), refusal(1, 0, 0));
    assert_eq!(write(&[0, 0, 6, 0, 6, 0], &[0], 0), refusal(2, 0, 0));
    assert_eq!(write(&RING[1..], &[0], 0), refusal(3, 0, 0));
    assert_eq!(write(&[1, 0, 6, 1, 7, 0, 1], &[0], 0), refusal(4, 0, 0));
    assert_eq!(write(&[1, 0, 6, 0, 6, 1, 2], &[0], 0), refusal(5, 0, 0));
    let blocks = |second: &[u16]| {
        let parts = [vec![], vec![], vec![0, 0], second.to_vec()];
        inputs::task::lay_out(1, 2, &parts)
    };
    assert_eq!(write(&blocks(&[]), &[0], 0), refusal(6, 1, 0));
    assert_eq!(write(&blocks(&[1, 2, 0]), &[0], 0), refusal(7, 1, 0));
    assert_eq!(write(&RING, &[0], 0), refusal(8, 0, 0));
    assert_eq!(write(&RING, &[F; 30_003], 0), refusal(8, 0, 0));
    assert_eq!(write(&RING, &[0, F, F, 0, F, F], 0), refusal(9, 1, 0));
    assert_eq!(write(&RING, &[6, F, F], 0), refusal(9, 0, 0));
    assert_eq!(write(&RING, &[0, F, F], 0), refusal(26, 0, 0));
    assert_eq!(write(&RING, &[], 9), refusal(26, 0, 0));
    assert_eq!(write(&RING, &[], 10), Ok(10));
    assert_eq!(write(&RING, &[0, F, F], 13), refusal(26, 0, 0));
    assert_eq!(write(&RING, &[0, F, F], 14), Ok(14));
    assert_eq!(write(&RING, &[0, F, F], 15), Ok(14));
}

#[test]
fn reading_asks_of_the_image_first() {
    let read = |image: &[u16]| dimacs::read(image, b"x", &mut []);
    assert_eq!(read(&[1]), refusal(1, 0, 0));
    assert_eq!(read(&[0, 0, 6, 0, 6, 0]), refusal(2, 0, 0));
    assert_eq!(read(&RING[1..]), refusal(3, 0, 0));
    assert_eq!(read(&[1, 0, 6, 1, 7, 0, 1]), refusal(4, 0, 0));
    assert_eq!(read(&[1, 0, 6, 0, 6, 1, 2]), refusal(5, 0, 0));
    assert_eq!(read(&[1, 1, 8, 0, 8, 0, 8, 1, 0]), refusal(6, 0, 0));
    assert_eq!(read(&[1, 1, 8, 0, 8, 0, 8, 3, 1, 2, 0]), refusal(7, 0, 0));
    assert_eq!(read(&RING), refusal(24, 0, 0));
}

#[test]
fn rows_come_out_sorted_and_each_once() {
    assert_eq!(rows("p cnf 3 0"), Ok(vec![]));
    assert_eq!(rows("p cnf 3 0\n"), Ok(vec![]));
    assert_eq!(rows("p cnf 3 1\n1 0\n"), Ok(vec![0, F, F]));
    assert_eq!(rows("p cnf 3 1\n-3 -1 0\n"), Ok(vec![1, 5, F]));
    assert_eq!(rows("p cnf 3 1\n3 -2 1 0\n"), Ok(vec![0, 3, 4]));
    assert_eq!(rows("p cnf 3 2\n1 2 0\n2 1 0\n"), Ok(vec![0, 2, F]));
    assert_eq!(
        rows("p cnf 3 5\n-3 0\n1 0\n1 2 0\n-3 0 3 2 1 0"),
        Ok(vec![0, 2, 4, 0, 2, F, 0, F, F, 5, F, F])
    );
}

#[test]
fn blanks_and_line_ends() {
    let right = Ok(vec![0, F, F]);
    for text in [
        "p cnf\n3\n1 1\n0",
        "p cnf 3 1 1 0",
        "p cnf 3 1 1 0 ",
        "p cnf 3 1\n1 0\n\n \n",
        "p cnf   3  \n\n 1 \n \n1   0\n",
        "p cnf\n\n3 1\n\n\n1\n0\n",
        "p cnf 3\n1\n1 0",
    ] {
        assert_eq!(rows(text), right, "{text:?}");
    }
    for text in [
        "p cnf3 1 1 0",
        "p cnf\t3 1 1 0",
        "p cnf 3\t1 1 0",
        "p cnf 3 1\r\n1 0\r\n",
        "p cnf 3 1 1\u{b}0",
        "p cnf 3 1 1\u{a0}0",
        "p cnf 3 1 1 0\0",
        "p cnf 3 11 0",
        "p cnf 3 1 10",
        "p cnf 31 1 0",
    ] {
        assert_eq!(number(text), 24, "{text:?}");
    }
}

#[test]
fn comments_and_header() {
    for text in [
        "c\np cnf 3 0",
        "c one\nc two\ncnf\nc p cnf 9 9\ncp cnf 3 0\np cnf 3 0\n",
        "c\u{e9}\t\r\0 0 -0\np cnf 3 0",
    ] {
        assert_eq!(rows(text), Ok(vec![]), "{text:?}");
    }
    assert_eq!(rows_for(3, b"c\xff\xfe\x80\np cnf 3 0"), Ok(vec![]));
    for text in [
        "",
        "c",
        "c p cnf 3 0",
        "c\n",
        "c\n\np cnf 3 0",
        "c\n p cnf 3 0",
        "\np cnf 3 0",
        " p cnf 3 0",
        "C\np cnf 3 0",
        " c\np cnf 3 0",
        "p",
        "p cnf",
        "p cnf ",
        "p cnf 3",
        "p cnf 3 ",
        "p  cnf 3 0",
        "p\ncnf 3 0",
        "P cnf 3 0",
        "p CNF 3 0",
        "pcnf 3 0",
        "p cn 3 0",
        "p dnf 3 0",
        "p cnf cnf 3 0",
        "p cnf c\n3 0",
        "p cnf 3 0\nc",
        "p cnf 3 0\nc end\n",
        "p cnf 3 1\nc\n1 0\n",
        "p cnf 3 0\np cnf 3 0\n",
        "p cnf 3 0\n%\n",
    ] {
        assert_eq!(number(text), 24, "{text:?}");
    }
}

#[test]
fn forms_of_numbers() {
    for wrong in [
        "+1", "-", "--1", "-0", "00", "01", "-01", "1-2", "1-", "1.0", "0x1", "a", "1a", "-a",
        "1,", "000", "-00", "\u{661}",
    ] {
        for text in [
            format!("p cnf 3 1\n{wrong} 0\n"),
            format!("p cnf 3 1\n2 {wrong} 0\n"),
            format!("p cnf 3 1\n1 0 {wrong}"),
            format!("p cnf 3 1\n1 {wrong}"),
            format!("p cnf {wrong} 1\n1 0"),
            format!("p cnf 3 {wrong}\n1 0"),
        ] {
            assert_eq!(number(&text), 24, "{text:?}");
        }
    }
}

/// Numbers that would be right if they were kept in some number of bits.
#[test]
fn long_numbers() {
    for bits in [8, 16, 32, 63, 64, 100] {
        let wrapped = |more: u128| (1_u128 << bits) + more;
        for text in [
            format!("p cnf 3 1\n{} 0\n", wrapped(1)),
            format!("p cnf 3 1\n-{} 0\n", wrapped(1)),
            format!("p cnf 3 1\n{} 0\n", wrapped(0) - 1),
            format!("p cnf 3 1\n2 {}\n", wrapped(0)),
            format!("p cnf {} 1\n1 0\n", wrapped(3)),
            format!("p cnf 3 {}\n1 0\n", wrapped(1)),
        ] {
            assert_eq!(number(&text), 24, "{text:?}");
        }
    }
    let long = "1".repeat(5_000);
    assert_eq!(number(&format!("p cnf 3 1\n{long} 0")), 24);
    assert_eq!(number(&format!("p cnf 3 1\n-{long} 0")), 24);
    assert_eq!(number(&format!("p cnf {long} 1\n1 0")), 24);
    assert_eq!(number(&format!("p cnf 3 {long}\n1 0")), 24);
}

#[test]
fn header_and_text_agree() {
    for text in [
        "p cnf 2 1\n1 0",
        "p cnf 4 1\n1 0",
        "p cnf 0 1\n1 0",
        "p cnf -3 1\n1 0",
        "p cnf 3 0\n1 0",
        "p cnf 3 2\n1 0",
        "p cnf 3 -1\n1 0",
        "p cnf 3 1\n1 0\n1 0",
        "p cnf 3 1\n",
        "p cnf 3 1\n1",
        "p cnf 3 1\n1 0 2",
        "p cnf 3 2\n1 0 2",
        "p cnf 3 0\n2",
        "p cnf 3 1\n4 0",
        "p cnf 3 1\n-4 0",
        "p cnf 3 1\n1 2 4 0",
    ] {
        assert_eq!(number(text), 24, "{text:?}");
    }
    assert_eq!(number("p cnf 3 1\n3 0"), 0);
    assert_eq!(number("p cnf 3 1\n-3 0"), 0);
    let limit = |text: &[u8]| rows_for(1024, text);
    assert_eq!(limit(b"p cnf 1024 1\n-1024 0"), Ok(vec![2047, F, F]));
    assert_eq!(limit(b"p cnf 1024 1\n1025 0"), refusal(24, 0, 0));
    assert_eq!(rows_for(1, b"p cnf 1 1\n1 0"), Ok(vec![0, F, F]));
    assert_eq!(rows_for(1, b"p cnf 1 1\n2 0"), refusal(24, 0, 0));
}

#[test]
fn clauses_of_no_row() {
    for text in [
        "p cnf 3 1\n0",
        "p cnf 3 2\n1 0\n0\n",
        "p cnf 3 2\n0 0",
        "p cnf 3 1\n1 1 0",
        "p cnf 3 1\n1 -1 0",
        "p cnf 3 1\n-2 1 2 0",
        "p cnf 3 1\n1 2 3 1 0",
        "p cnf 3 1\n1 2 3 -1 2 0",
        "p cnf 3 2\n1 2 3 0\n3 3 0",
    ] {
        assert_eq!(number(text), 25, "{text:?}");
    }
    assert_eq!(
        rows_for(4, b"p cnf 4 1\n1 2 3 4 0"),
        refusal(25, 0, 0),
        "four literals"
    );
}

/// 24 is asked of the whole text before 25, 25 before 26.
#[test]
fn order_of_the_questions() {
    for text in [
        "p cnf 3 2\n1 1 0\n4 0",
        "p cnf 3 2\n4 0\n1 1 0",
        "p cnf 3 2\n1 1 0\n-0 0",
        "p cnf 3 3\n1 1 0\n1 0",
        "p cnf 3 1\n0\n1",
        "p cnf 4 1\n0\n",
    ] {
        assert_eq!(number(text), 24, "{text:?}");
    }
    let mut none: [u16; 0] = [];
    let into_none = |text: &[u8], target: &mut [u16]| dimacs::read(&RING, text, target);
    assert_eq!(into_none(b"p cnf 3 1\n4 0", &mut none), refusal(24, 0, 0));
    assert_eq!(into_none(b"p cnf 3 1\n0", &mut none), refusal(25, 0, 0));
    assert_eq!(into_none(b"p cnf 3 2\n1 0 0", &mut none), refusal(25, 0, 0));
    assert_eq!(into_none(b"p cnf 3 1\n1 0", &mut none), refusal(26, 0, 0));
    assert_eq!(into_none(b"p cnf 3 0", &mut none), Ok(0));
}

#[test]
fn room_for_the_rows() {
    let text = b"p cnf 3 3\n3 0 1 0 3 0";
    for length in 0..10 {
        let mut rows = vec![7; length];
        let answer = dimacs::read(&RING, text, &mut rows);
        let mut expected = vec![7; length];
        if length < 6 {
            assert_eq!(answer, refusal(26, 0, 0));
        } else {
            assert_eq!(answer, Ok(2));
            expected[..6].copy_from_slice(&[0, F, F, 4, F, F]);
        }
        assert_eq!(rows, expected);
    }
}

#[test]
fn ten_thousand_rows() {
    let most = many(50, 10_000);
    assert_eq!(
        rows_for(50, text_of(50, &most).as_bytes()),
        Ok(most.concat())
    );
    let mut backwards = most.clone();
    backwards.reverse();
    let text = text_of(50, &backwards);
    assert_eq!(rows_for(50, text.as_bytes()), Ok(most.concat()));
    let more = text_of(50, &many(50, 10_001));
    assert_eq!(rows_for(50, more.as_bytes()), refusal(26, 0, 0));
    // Equal clauses count once, and their number has no limit.
    let repeated = [&most[..], &most[..5_000], &most].concat();
    let text = text_of(50, &repeated);
    assert_eq!(rows_for(50, text.as_bytes()), Ok(most.concat()));
    let few = most[..3].repeat(30_000);
    let text = text_of(50, &few);
    assert_eq!(rows_for(50, text.as_bytes()), Ok(most[..3].concat()));
    let mut short = vec![7; 29_999];
    let text = text_of(50, &most);
    let answer = dimacs::read(&image(50), text.as_bytes(), &mut short);
    assert_eq!(answer, refusal(26, 0, 0));
    assert!(short.iter().all(|&word| word == 7));
}

/// What is written, read again, gives the same rows; what is read passes
/// questions 8 and 9.
#[test]
fn written_and_read_again() {
    let task = TaskSpec {
        atoms: 40,
        operators: vec![OperatorSpec::default()],
        ..TaskSpec::default()
    };
    let image = task.image();
    let rng = &mut inputs::Rng::new(11);
    for _ in 0..300 {
        let clauses = inputs::clauses::words(&inputs::clauses::random_set(rng, 40, 200));
        let mut text = vec![7; 5_000];
        let length = dimacs::write(&image, &clauses, &mut text).expect("room for the text");
        let mut again = vec![7; clauses.len()];
        let answer = dimacs::read(&image, &text[..length], &mut again);
        assert_eq!(answer, Ok(clauses.len() / 3));
        assert_eq!(again, clauses);
        assert!(clause::read(&again, 40).is_ok());
    }
}
