//! Damage to texts: to the clauses (question 25), to header, comments and
//! numbers (question 24), and to single bytes (any answer).

// All kinds of damage have one type, also those that leave the length alone.
#![allow(clippy::ptr_arg)]

use super::{comments, number, proposal, Literals, Text};
use crate::clauses::Row;
use crate::random::literal;
use crate::Rng;

pub type ClauseDamage = fn(&mut Rng, usize, &mut Vec<Literals>);
pub type TextDamage = fn(&mut Rng, &mut Text);
pub type ByteDamage = fn(&mut Rng, &mut Vec<u8>);

/// Each makes a clause that is no row.
pub const CLAUSES: &[ClauseDamage] = &[
    empty_clause,
    fourth_literal,
    same_literal_twice,
    both_literals_of_an_atom,
];

/// Each makes a text that has not the right form.
pub const TEXT: &[TextDamage] = &[
    wrong_form,
    wrong_form,
    variable_too_high,
    number_that_wraps,
    header_atoms_off,
    header_count_off,
    zero_more_or_less,
    no_zero_at_the_end,
    number_after_the_end,
    comment_after_the_header,
    line_before_the_header,
    wrong_start,
    endless_comment,
];

/// Each changes some bytes; the text may stay right.
pub const BYTES: &[ByteDamage] = &[
    changed,
    deleted,
    doubled,
    inserted,
    cut,
    swapped,
    other_blank,
    no_blank,
    no_blank_after_cnf,
];

/// Bytes that come into a text by mistake.
const SPECIAL: &[u8] = b"\t\r\n\0 +-.0019cpn%\x0b\x80\xa0\xff";

/// A text of the rows with one or more kinds of damage.
pub fn damaged(rng: &mut Rng, atoms: usize, rows: &[Row]) -> Vec<u8> {
    let mut clauses = proposal(rng, rows);
    let (spoil_clauses, spoil_text) = (rng.chance(55), rng.chance(35));
    if spoil_clauses {
        rng.pick(CLAUSES)(rng, atoms, &mut clauses);
    }
    let mut text = Text::new(atoms, &clauses);
    text.comments = comments(rng);
    if spoil_text {
        rng.pick(TEXT)(rng, &mut text);
    }
    let mut bytes = if rng.chance(40) {
        text.plain()
    } else {
        text.odd(rng)
    };
    if !spoil_clauses && !spoil_text || rng.chance(10) {
        rng.pick(BYTES)(rng, &mut bytes);
    }
    bytes
}

fn insert<T>(rng: &mut Rng, items: &mut Vec<T>, item: T) {
    let place = rng.below(items.len() + 1);
    items.insert(place, item);
}

/// A random clause; the clauses get one if they are empty.
fn pick_clause<'a>(rng: &mut Rng, clauses: &'a mut Vec<Literals>) -> &'a mut Literals {
    if clauses.is_empty() {
        clauses.push(vec![0]);
    }
    let place = rng.below(clauses.len());
    &mut clauses[place]
}

pub fn empty_clause(rng: &mut Rng, _: usize, clauses: &mut Vec<Literals>) {
    insert(rng, clauses, Vec::new());
}

/// A clause of four literals or more, of different atoms if there are as many.
pub fn fourth_literal(rng: &mut Rng, atoms: usize, clauses: &mut Vec<Literals>) {
    let length = *rng.pick(&[4, 4, 5, 9]);
    let clause = pick_clause(rng, clauses);
    let is_free = |atom: &u16| clause.iter().all(|literal| literal / 2 != *atom);
    let mut free: Vec<u16> = (0..atoms as u16).filter(is_free).collect();
    rng.shuffle(&mut free);
    while clause.len() < length {
        let next = match free.pop() {
            Some(atom) => 2 * atom + rng.below(2) as u16,
            None => literal(rng, atoms),
        };
        clause.push(next);
    }
}

pub fn same_literal_twice(rng: &mut Rng, _: usize, clauses: &mut Vec<Literals>) {
    add_of_an_atom(rng, clauses, 0);
}

pub fn both_literals_of_an_atom(rng: &mut Rng, _: usize, clauses: &mut Vec<Literals>) {
    add_of_an_atom(rng, clauses, 1);
}

/// Adds a literal of the clause again, turned if `turn` is 1. A clause of three
/// mostly loses another one for it.
fn add_of_an_atom(rng: &mut Rng, clauses: &mut Vec<Literals>, turn: u16) {
    let clause = pick_clause(rng, clauses);
    rng.shuffle(clause);
    if clause.len() == 3 && rng.chance(70) {
        clause.pop();
    }
    let again = clause[0] ^ turn;
    insert(rng, clause, again);
}

/// A random place among the numbers, the header's two included.
fn any_place(rng: &mut Rng, text: &Text) -> usize {
    rng.below(text.numbers.len())
}

/// A random literal's place; a text without one gets one.
fn literal_place(rng: &mut Rng, text: &mut Text) -> usize {
    let is_literal = |&place: &usize| text.numbers[place] != "0";
    let places: Vec<usize> = (2..text.numbers.len()).filter(is_literal).collect();
    match rng.place(places.len()) {
        Some(place) => places[place],
        None => {
            text.numbers.extend(["1", "0"].map(str::to_string));
            text.numbers.len() - 2
        }
    }
}

/// A number in a form that no number has, at any place.
pub fn wrong_form(rng: &mut Rng, text: &mut Text) {
    let place = any_place(rng, text);
    let old = &text.numbers[place];
    let forms = [
        "+1".to_string(),
        "-".to_string(),
        "-0".to_string(),
        "00".to_string(),
        "01".to_string(),
        "-01".to_string(),
        "1-2".to_string(),
        "x".to_string(),
        format!("+{old}"),
        format!("0{old}"),
        format!("--{old}"),
        format!("{old}-"),
        format!("{old}-1"),
        format!("{old}."),
        format!("{old}\t"),
        format!("{old}\r"),
    ];
    text.numbers[place] = rng.pick(&forms).clone();
}

/// A literal of variable N+1 or just above.
pub fn variable_too_high(rng: &mut Rng, text: &mut Text) {
    let atoms: u16 = text.numbers[0].parse().unwrap_or(1);
    let place = literal_place(rng, text);
    let more = *rng.pick(&[0, 0, 1, 9]);
    text.numbers[place] = number(2 * (atoms + more) + rng.below(2) as u16);
}

/// A number that comes out right if it is kept in too few bits, or a very long
/// one.
pub fn number_that_wraps(rng: &mut Rng, text: &mut Text) {
    let place = any_place(rng, text);
    let old = text.numbers[place].clone();
    let (sign, digits) = match old.strip_prefix('-') {
        Some(digits) => ("-", digits),
        None => ("", old.as_str()),
    };
    let value: u128 = digits.parse().unwrap_or(1);
    let bits = *rng.pick(&[16, 17, 31, 32, 33, 63, 64, 65, 100]);
    text.numbers[place] = if rng.chance(80) {
        format!("{sign}{}", value + (1 << bits))
    } else {
        let length = rng.between(19, 40);
        let any = |_| char::from(b'1' + rng.below(9) as u8);
        format!("{sign}{}", (0..length).map(any).collect::<String>())
    };
}

fn off_by_one(rng: &mut Rng, old: &str) -> String {
    let value: i64 = old.parse().unwrap_or(1);
    let more = *rng.pick(&[-1, 1]);
    (value + more).to_string()
}

pub fn header_atoms_off(rng: &mut Rng, text: &mut Text) {
    text.numbers[0] = off_by_one(rng, &text.numbers[0]);
}

pub fn header_count_off(rng: &mut Rng, text: &mut Text) {
    text.numbers[1] = off_by_one(rng, &text.numbers[1]);
}

/// Two clauses joined, or one parted; the header's count stays.
pub fn zero_more_or_less(rng: &mut Rng, text: &mut Text) {
    let is_zero = |&place: &usize| text.numbers[place] == "0";
    let zeros: Vec<usize> = (2..text.numbers.len()).filter(is_zero).collect();
    match rng.place(zeros.len()) {
        Some(place) if rng.chance(50) => {
            text.numbers.remove(zeros[place]);
        }
        _ => {
            let place = rng.between(2, text.numbers.len());
            text.numbers.insert(place, "0".to_string());
        }
    }
}

/// The last clause does not end; the header's count may leave it out.
pub fn no_zero_at_the_end(rng: &mut Rng, text: &mut Text) {
    literal_place(rng, text);
    text.numbers.pop();
    if rng.chance(50) {
        recount(text);
    }
}

/// Literals after the last 0, not counted.
pub fn number_after_the_end(rng: &mut Rng, text: &mut Text) {
    for _ in 0..rng.between(1, 3) {
        text.numbers.push("1".to_string());
    }
}

fn recount(text: &mut Text) {
    let zeros = text.numbers[2..].iter().filter(|number| *number == "0");
    text.numbers[1] = zeros.count().to_string();
}

pub fn comment_after_the_header(rng: &mut Rng, text: &mut Text) {
    let comment = *rng.pick(&["c", "\nc\n", "\nc a comment\n", "\nc 1 0\n", "%"]);
    insert(rng, &mut text.numbers, comment.to_string());
}

/// A line that is neither comment nor header, before the header.
pub fn line_before_the_header(rng: &mut Rng, text: &mut Text) {
    let line = *rng.pick(&["", " ", " c", "C", "p", "p cnf", "x", "0", "%", "\r", "\tc"]);
    insert(rng, &mut text.comments, line.as_bytes().to_vec());
}

pub fn wrong_start(rng: &mut Rng, text: &mut Text) {
    let starts = [
        "p  cnf",
        "P cnf",
        "p CNF",
        "p Cnf",
        "pcnf",
        "p\ncnf",
        "p\tcnf",
        " p cnf",
        "\np cnf",
        "p cn",
        "p cnff",
        "p dnf",
        "p",
        "cnf",
        "",
        "cp cnf",
        "p cnf\t",
        "p cnf\r",
        "p cnf p cnf",
        "p cnf c",
    ];
    text.start = rng.pick(&starts).to_string();
}

/// The header stands in the last comment line.
pub fn endless_comment(rng: &mut Rng, text: &mut Text) {
    text.start = rng
        .pick(&["c", "c ", "cc", "c p cnf", "cp cnf"])
        .to_string();
}

pub fn changed(rng: &mut Rng, bytes: &mut Vec<u8>) {
    if let Some(place) = rng.place(bytes.len()) {
        bytes[place] = any_byte(rng);
    }
}

fn any_byte(rng: &mut Rng) -> u8 {
    if rng.chance(70) {
        *rng.pick(SPECIAL)
    } else {
        rng.word() as u8
    }
}

pub fn deleted(rng: &mut Rng, bytes: &mut Vec<u8>) {
    if let Some(place) = rng.place(bytes.len()) {
        bytes.remove(place);
    }
}

pub fn doubled(rng: &mut Rng, bytes: &mut Vec<u8>) {
    if let Some(place) = rng.place(bytes.len()) {
        bytes.insert(place, bytes[place]);
    }
}

pub fn inserted(rng: &mut Rng, bytes: &mut Vec<u8>) {
    let byte = any_byte(rng);
    insert(rng, bytes, byte);
}

pub fn cut(rng: &mut Rng, bytes: &mut Vec<u8>) {
    let most = *rng.pick(&[3, bytes.len()]);
    let length = bytes.len().saturating_sub(rng.between(1, most.max(1)));
    bytes.truncate(length);
}

/// Two neighbours change places.
pub fn swapped(rng: &mut Rng, bytes: &mut Vec<u8>) {
    if let Some(place) = rng.place(bytes.len().saturating_sub(1)) {
        bytes.swap(place, place + 1);
    }
}

/// The places of blanks and line ends.
fn blanks(bytes: &[u8]) -> Vec<usize> {
    let is_blank = |&place: &usize| matches!(bytes[place], b' ' | b'\n');
    (0..bytes.len()).filter(is_blank).collect()
}

/// Another byte that some readers take for a blank.
pub fn other_blank(rng: &mut Rng, bytes: &mut Vec<u8>) {
    let blanks = blanks(bytes);
    if let Some(place) = rng.place(blanks.len()) {
        bytes[blanks[place]] = *rng.pick(b"\t\r\0\x0b\x0c\xa0");
    }
}

pub fn no_blank(rng: &mut Rng, bytes: &mut Vec<u8>) {
    let blanks = blanks(bytes);
    if let Some(place) = rng.place(blanks.len()) {
        bytes.remove(blanks[place]);
    }
}

/// "p cnf3" for "p cnf 3".
pub fn no_blank_after_cnf(_: &mut Rng, bytes: &mut Vec<u8>) {
    let start = b"p cnf";
    let found = bytes.windows(start.len()).position(|part| part == start);
    if let Some(place) = found.map(|place| place + start.len()) {
        while bytes.get(place).is_some_and(|byte| b" \n".contains(byte)) {
            bytes.remove(place);
        }
    }
}
