//! One case: a call with what it is given, and the line that belongs to it.

use reference::operator_closure::operator_closure;
use reference::ticket::{self, Ticket};
use reference::{agreement, checker, coding, dimacs, fdr, groups, join, kept, reencoding};
use reference::{state, synthesis, task, Reply};
use std::fmt::Write;

/// What a list holds after its stored values.
pub const FILL: u16 = 7;

/// A call by its number, with its two numbers and four lists; what these mean
/// is said in crates/cases/src/lib.rt.
#[derive(Clone, Default)]
pub struct Case {
    pub call: u16,
    pub numbers: [u16; 2],
    pub image: Vec<u16>,
    pub list: Vec<u16>,
    pub other: Vec<u16>,
    pub small: Vec<u8>,
}

impl Case {
    /// The words of the case in the input.
    pub fn words(&self) -> Vec<u16> {
        let small: Vec<u16> = self.small.iter().map(|&byte| u16::from(byte)).collect();
        let lists = [&self.image, &self.list, &self.other, &small];
        let mut words = vec![self.call];
        words.extend(self.numbers);
        for list in lists {
            words.extend([list.len() as u16, stored(list).len() as u16]);
        }
        words.extend(lists.into_iter().flat_map(|list| stored(list)));
        words
    }

    /// Whether the lists have room in the program.
    pub fn fits(&self) -> bool {
        let lists = [&self.image, &self.list, &self.other];
        lists.iter().all(|list| list.len() <= 8200) && self.small.len() <= 2100
    }

    /// The answer; the lists are left as the call leaves them.
    fn answer(&mut self) -> Reply {
        let [x, y] = self.numbers;
        let (image, list, other) = (&self.image, &mut self.list, &mut self.other);
        let small = &mut self.small;
        match self.call {
            0 => task::read(image).map(|_| ()).into(),
            1 => state::initial(image, small).into(),
            2 => state::step(image, small, x).into(),
            3 => state::goal(image, small).into(),
            4 => state::run(image, small, list).into(),
            5 => kept::kept(image, list, other, x, small).into(),
            6 => checker::check(image, list, small).into(),
            7 => synthesis::synthesize(image, x, y, list, other, small).into(),
            8 => groups::groups(image, list, small, other).into(),
            9 => reencoding::reencode(image, list, small, other).into(),
            10 => fdr::initial(image, list).into(),
            11 => fdr::step(image, list, x).into(),
            12 => fdr::goal(image, list).into(),
            13 => fdr::run(image, list, other).into(),
            14 => coding::encode(image, small, list).into(),
            15 => coding::decode(image, list, small).into(),
            16 => agreement::agree(image, list, other, small).into(),
            17 => dimacs::write(image, list, small).into(),
            18 => dimacs::read(image, small, list).into(),
            19 => join::join(image, list, other).into(),
            20 => operator_closure(image, list, x, small).into(),
            21 => ticket::ask(image, small, y, x).into(),
            22 => commit(image, small, list, x, y),
            call => unreachable!("no call has the number {call}"),
        }
    }

    /// The returned number, and the line that the program writes.
    pub fn line(&self) -> (u32, String) {
        let mut after = self.clone();
        let reply = after.answer();
        let mut line = format!("{} {} {} ", reply.number, reply.first, reply.second);
        match self.call {
            1 | 2 | 4 | 15 | 17 | 20 => add_list(&mut line, &after.small),
            7 | 10 | 11 | 13 | 14 | 18 => add_list(&mut line, &after.list),
            8 | 9 | 19 => add_list(&mut line, &after.other),
            22 => {
                add_list(&mut line, &after.small);
                add_list(&mut line, &after.list);
            }
            _ => {}
        }
        (reply.number, line + "\n")
    }
}

/// A commit of the ticket of this operator and count; the list is the state's count alone.
fn commit(image: &[u16], state: &mut [u8], list: &mut [u16], operator: u16, count: u16) -> Reply {
    let [held] = list else {
        panic!("a commit is lent one count");
    };
    ticket::commit(image, state, held, Ticket { count, operator }).into()
}

/// The list without the fill at its end.
fn stored(list: &[u16]) -> &[u16] {
    let fill = list.iter().rev().take_while(|&&word| word == FILL).count();
    &list[..list.len() - fill]
}

fn add_list<T: std::fmt::Display>(line: &mut String, list: &[T]) {
    line.push_str("| ");
    for value in list {
        write!(line, "{value} ").expect("a string takes all");
    }
}
