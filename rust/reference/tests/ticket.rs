//! Ask first, commit later (document 02 §8): witnesses by hand, all short lists of small
//! tasks, and commits with only asks in between.

mod common;

use common::*;
use inputs::small::{count, small};
use inputs::structured::ring;
use inputs::task::OperatorSpec;
use inputs::ticket::{single, Single};
use inputs::Rng;
use reference::ticket::{ask, commit, Ticket};
use reference::{state, Answer, Reply};

/// The last count.
const LAST: u16 = 65535;

fn ticket(count: u16, operator: u16) -> Ticket {
    Ticket { count, operator }
}

/// A commit, and the state and the count after it.
fn committed(
    image: &[u16],
    before: &[u8],
    count: u16,
    ticket: Ticket,
) -> (Answer<()>, Vec<u8>, u16) {
    let (mut state, mut count) = (before.to_vec(), count);
    let answer = commit(image, &mut state, &mut count, ticket);
    (answer, state, count)
}

/// Asserts that a commit is refused, and that state and count stay.
fn assert_refused(
    image: &[u16],
    state: &[u8],
    count: u16,
    ticket: Ticket,
    (number, first): (u32, u64),
) {
    let expected = (refusal(number, first, 0), state.to_vec(), count);
    assert_eq!(committed(image, state, count, ticket), expected);
}

/// The hoist asks for a move, then for others, and commits the first.
#[test]
fn the_ring() {
    let start = [1, 0, 0];
    let granted = ask(&RING, &start, 0, 0);
    assert_eq!(granted, Ok(ticket(0, 0)));
    assert_eq!(ask(&RING, &start, 0, 1), refusal(20, 0, 0));
    assert_eq!(ask(&RING, &start, 0, 3), refusal(19, 0, 0));
    let (answer, state, count) = committed(&RING, &start, 0, ticket(0, 0));
    assert_eq!((answer, &state[..], count), (Ok(()), &[0, 1, 0][..], 1));
    assert_refused(&RING, &state, count, ticket(0, 0), (28, 0));
    assert_eq!(ask(&RING, &state, count, 1), Ok(ticket(1, 1)));
    assert_eq!(ask(&RING, &state, count, 0), refusal(20, 0, 0));
    let (answer, state, count) = committed(&RING, &state, count, ticket(1, 1));
    assert_eq!((answer, &state[..], count), (Ok(()), &[0, 0, 1][..], 2));
}

/// A ticket got before another commit is refused, though the step is possible again.
#[test]
fn old_tickets() {
    let image = task(1, &[], &[OperatorSpec::strips(&[], &[0])]);
    let old = ask(&image, &[0], 7, 0).expect("applicable");
    let (answer, state, count) = committed(&image, &[0], 7, old);
    assert_eq!((answer, &state[..], count), (Ok(()), &[1][..], 8));
    assert_eq!(ask(&image, &state, count, 0), Ok(ticket(8, 0)));
    assert_refused(&image, &state, count, old, (28, 0));
    assert_refused(&image, &state, count, ticket(9, 0), (28, 0));
}

/// A ticket is two numbers: one that nobody was given counts as one that was.
#[test]
fn invented_tickets() {
    let expected = (Ok(()), vec![0, 1, 0], 1);
    assert_eq!(committed(&RING, &[1, 0, 0], 0, ticket(0, 0)), expected);
    assert_refused(&RING, &[1, 0, 0], 0, ticket(1, 0), (28, 0));
    assert_refused(&RING, &[1, 0, 0], 1, ticket(0, 0), (28, 0));
    assert_refused(&RING, &[1, 0, 0], 0, ticket(LAST, 0), (28, 0));
    assert_refused(&RING, &[1, 0, 0], 0, ticket(0, 1), (20, 0));
    assert_refused(&RING, &[1, 0, 0], 0, ticket(0, 3), (19, 0));
}

/// A ticket got under another image, or in another state, is asked anew.
#[test]
fn tickets_of_elsewhere() {
    let longer = ring(5).image();
    let foreign = ask(&longer, &[0, 0, 0, 0, 1], 4, 4).expect("applicable");
    assert_refused(&RING, &[0, 0, 1], 4, foreign, (19, 0));
    let foreign = ask(&longer, &[0, 0, 1, 0, 0], 4, 2).expect("applicable");
    let expected = (Ok(()), vec![1, 0, 0], 5);
    assert_eq!(committed(&RING, &[0, 0, 1], 4, foreign), expected);
    assert_refused(&RING, &[0, 1, 0], 4, foreign, (20, 0));
    assert_refused(&RING, &[0, 0, 1], 5, foreign, (28, 0));
}

/// The last commit is that of count 65,534. At 65,535 a ticket is given all the same.
#[test]
fn the_last_counts() {
    let start = [1, 0, 0];
    assert_eq!(ask(&RING, &start, LAST - 1, 0), Ok(ticket(LAST - 1, 0)));
    let (answer, state, count) = committed(&RING, &start, LAST - 1, ticket(LAST - 1, 0));
    assert_eq!((answer, &state[..], count), (Ok(()), &[0, 1, 0][..], LAST));
    assert_eq!(ask(&RING, &state, LAST, 1), Ok(ticket(LAST, 1)));
    assert_eq!(ask(&RING, &state, LAST, 0), refusal(20, 0, 0));
    for operator in [0, 1, 3, LAST] {
        for count in [LAST, LAST - 1, 0] {
            assert_refused(&RING, &state, LAST, ticket(count, operator), (28, 0));
        }
    }
    assert_refused(&RING, &start, LAST - 1, ticket(LAST, 0), (28, 0));
}

/// An image for each refusal of reading, with the places.
const REFUSED: [(&[u16], (u32, u64)); 8] = [
    (&[1, 0, 6, 0, 6], (1, 0)),
    (&[0, 0, 6, 0, 6, 0], (2, 0)),
    (&[1, 0, 6, 65530, 0, 6], (3, 0)),
    (&[2, 0, 6, 2, 8, 0, 1, 0], (4, 0)),
    (&[2, 0, 6, 0, 6, 2, 2, 3], (5, 0)),
    (&[1, 1, 8, 0, 8, 0, 8, 0], (6, 0)),
    (&[1, 1, 8, 0, 8, 0, 8, 4, 0, 1, 2, 0], (7, 0)),
    (&[1, 2, 10, 0, 10, 0, 10, 2, 12, 3, 0, 0, 1, 2, 0], (7, 1)),
];

/// Where several questions are answered "no", the first decides: 1 to 7, 18, then 28 in
/// a commit alone, then 19, 20.
#[test]
fn the_first_no_decides() {
    for (image, places) in REFUSED {
        let refused = refusal(places.0, places.1, 0);
        assert_eq!(ask(image, &[2; 9], 5, LAST), refused);
        assert_refused(image, &[2; 9], 5, ticket(6, LAST), places);
    }
    for state in [&[1, 0][..], &[1, 0, 0, 0], &[], &[1, 0, 2], &[255, 0, 0]] {
        for operator in [0, 1, 3] {
            assert_eq!(ask(&RING, state, LAST, operator), refusal(18, 0, 0));
            for count in [0, 5, LAST] {
                assert_refused(&RING, state, LAST, ticket(count, operator), (18, 0));
            }
        }
    }
    let start = &[1, 0, 0];
    for (operator, number) in [(1, 20), (3, 19), (LAST, 19)] {
        assert_eq!(ask(&RING, start, LAST, operator), refusal(number, 0, 0));
        assert_refused(&RING, start, 5, ticket(4, operator), (28, 0));
        assert_refused(&RING, start, LAST, ticket(LAST, operator), (28, 0));
        assert_refused(&RING, start, 5, ticket(5, operator), (number, 0));
    }
    let without = task(1, &[0], &[]);
    assert_eq!(ask(&without, &[1], 0, 0), refusal(19, 0, 0));
    assert_refused(&without, &[1], 0, ticket(0, 0), (19, 0));
}

/// A finding of an ask is the ticket's two numbers; that of a commit has no value.
#[test]
fn replies() {
    let granted = ask(&RING, &[0, 0, 1], 300, 2);
    assert_eq!(Reply::from(granted), Reply::finding(300, 2));
    let (answer, ..) = committed(&RING, &[0, 0, 1], 300, ticket(300, 2));
    assert_eq!(Reply::from(answer), Reply::finding(0, 0));
}

/// A call of a list.
#[derive(Clone, Copy)]
enum Call {
    Ask(u16),
    Commit(Ticket),
}

/// Where a list of calls has come to: the state, its count, and the operators whose
/// commits were not refused.
#[derive(Clone)]
struct Along {
    state: Vec<u8>,
    count: u16,
    done: Vec<u16>,
}

/// An image, its initial state, and the calls that are tried at each place of a list.
struct Lists {
    image: Vec<u16>,
    initial: Vec<u8>,
    calls: Vec<Call>,
}

impl Lists {
    /// Asks for each operator and for one too high, and commits of these at the counts
    /// that a list of four calls can meet, and at the last.
    fn new(image: Vec<u16>) -> Lists {
        let operators = 0..=image[1];
        let counts = [0, 1, 2, 3, LAST];
        let commits = |operator| counts.map(|count| Call::Commit(ticket(count, operator)));
        let mut calls: Vec<Call> = operators.clone().map(Call::Ask).collect();
        calls.extend(operators.flat_map(commits));
        let mut initial = vec![9; usize::from(image[0])];
        state::initial(&image, &mut initial).expect("a right image");
        Lists {
            image,
            initial,
            calls,
        }
    }

    /// Makes a call. An ask answers as the step does, and gives the two numbers.
    fn make(&self, along: &mut Along, call: Call) {
        match call {
            Call::Ask(operator) => {
                let step = state::step(&self.image, &mut along.state.clone(), operator);
                let expected = step.map(|()| ticket(along.count, operator));
                let given = ask(&self.image, &along.state, along.count, operator);
                assert_eq!(given, expected);
            }
            Call::Commit(ticket) => {
                let (state, count) = (&mut along.state, &mut along.count);
                if commit(&self.image, state, count, ticket).is_ok() {
                    along.done.push(ticket.operator);
                }
            }
        }
    }

    /// The state is that of the operators done, by steps and by a list run, and the count
    /// is their number.
    fn assert_done(&self, along: &Along) {
        let mut stepped = self.initial.clone();
        for &operator in &along.done {
            assert_eq!(state::step(&self.image, &mut stepped, operator), Ok(()));
        }
        let mut run = self.initial.clone();
        let answer = state::run(&self.image, &mut run, &along.done);
        assert_eq!(answer, Ok(along.done.len()));
        assert_eq!((&along.state, &along.state), (&stepped, &run));
        assert_eq!(usize::from(along.count), along.done.len());
    }

    /// Tries all lists that go on from here by up to so many calls, and counts them by
    /// the commits done.
    fn try_all(&self, along: &Along, calls: usize, tried: &mut [usize; 5]) {
        self.assert_done(along);
        tried[along.done.len()] += 1;
        if calls > 0 {
            for &call in &self.calls {
                let mut next = along.clone();
                self.make(&mut next, call);
                self.try_all(&next, calls - 1, tried);
            }
        }
    }
}

/// The claim for every list of up to four asks and commits of any tickets.
#[test]
fn all_short_lists() {
    let mut images = vec![RING.to_vec()];
    images.extend((0..count(2, 1)).step_by(13).map(|k| small(2, 1, k).image()));
    images.extend((0..5).map(|k| small(2, 2, 1 + 5_231 * k).image()));
    let mut tried = [0; 5];
    for image in images {
        let lists = Lists::new(image);
        let start = Along {
            state: lists.initial.clone(),
            count: 0,
            done: Vec::new(),
        };
        lists.try_all(&start, 4, &mut tried);
    }
    let lists = |calls: usize| (0..=4).map(|length| calls.pow(length)).sum::<usize>();
    let expected = lists(24) + 25 * lists(12) + 5 * lists(18);
    assert_eq!(tried.iter().sum::<usize>(), expected);
    assert!(tried.iter().all(|&lists| lists > 20), "{tried:?}");
}

/// A ticket's commit in the state that was asked does the step, but at count 65,535, where
/// it is refused with 28. Asks in between take what is lent to read, so they are left out.
fn assert_honoured(image: &[u16], before: &[u8], count: u16, asked: u16) -> bool {
    let Ok(granted) = ask(image, before, count, asked) else {
        return false;
    };
    let mut after = before.to_vec();
    assert_eq!(state::step(image, &mut after, asked), Ok(()));
    if count == LAST {
        assert_refused(image, before, count, granted, (28, 0));
    } else {
        let expected = (Ok(()), after, count + 1);
        assert_eq!(committed(image, before, count, granted), expected);
    }
    true
}

#[test]
fn committed_after_asking() {
    let sizes = [(1, 1, 1), (1, 2, 1), (2, 1, 1), (2, 2, 7)];
    let tasks = sizes.iter().flat_map(|&(atoms, operators, step)| {
        let numbers = (0..count(atoms, operators)).step_by(step);
        numbers.map(move |k| small(atoms, operators, k))
    });
    let mut granted = 0;
    for image in tasks.chain([ring(3)]).map(|task| task.image()) {
        for state in inputs::state::all(usize::from(image[0])) {
            for count in [0, 1, 65533, 65534, LAST] {
                let honoured = |&asked: &u16| assert_honoured(&image, &state, count, asked);
                granted += (0..image[1]).filter(honoured).count();
            }
        }
    }
    assert!(granted > 50_000, "{granted}");
}

/// On inputs of every kind: a commit answers as an ask does, but for 28; refused it
/// leaves all, otherwise it does the step and counts it.
#[test]
fn commits_answer_as_asks() {
    let rng = &mut Rng::new(81);
    let mut numbers = [0; 29];
    for _ in 0..20_000 {
        let Single {
            image,
            state,
            count,
            ticket,
        } = single(rng, 40);
        let (answer, after, counted) = committed(&image, &state, count, ticket);
        let number = answer.err().map_or(0, |refusal| refusal.number);
        numbers[number as usize] += 1;
        let asked = ask(&image, &state, ticket.count, ticket.operator);
        if number != 28 {
            assert_eq!(asked.map(|_| ()), answer);
        } else {
            assert!(asked.is_ok() || asked.is_err_and(|refusal| refusal.number > 18));
            assert!(ticket.count != count || count == LAST);
        }
        let mut stepped = state.clone();
        if answer.is_ok() {
            assert_eq!(state::step(&image, &mut stepped, ticket.operator), answer);
        }
        assert_eq!(after, stepped);
        assert_eq!(counted, count + u16::from(answer.is_ok()));
    }
    let expected = [0, 1, 2, 3, 4, 5, 6, 7, 18, 19, 20, 28];
    assert!(expected.iter().all(|&number| numbers[number] > 50));
}
