//! Ask first, commit later (document 02 §8): single asks and commits, lists of them, and
//! the last counts.

use compare::runs::{initial, run};
use compare::tally::INPUTS;
use compare::{Guarded, Kinds, Tally};
use inputs::small::{count as small_tasks, small};
use inputs::structured::ring;
use inputs::ticket::{single, Call, Caller, Origin, Single};
use inputs::{random, state, Rng};
use kulabismuth::Reply;
use reference::state as steps;
use reference::ticket::{self as model, Ticket};

/// Each number and each kind must occur so often.
const LEAST: usize = 50;

/// Images of single calls damaged so often, in percent.
const DAMAGED: usize = 40;

/// Single asks, single commits, and lists of both are so many each.
const TIMES: usize = 2 * INPUTS;

/// The last count.
const LAST: u16 = 65535;

/// Every number of an ask, with a finding as 0; a commit has 28 besides.
const NUMBERS: [u32; 12] = [0, 1, 2, 3, 4, 5, 6, 7, 18, 19, 20, 28];

/// An image, a state and its count.
type Lent = (Guarded<u16>, Guarded<u8>, Guarded<u16>);

fn lent(image: &[u16], state: &[u8], count: u16) -> Lent {
    (
        Guarded::new(image),
        Guarded::new(state),
        Guarded::new(&[count]),
    )
}

/// Compares an ask. The reference's takes what is lent to read, so that the library's is
/// found out where it changes something.
fn compare_ask(tally: &mut Tally, lent: &Lent, operator: u16) -> Reply {
    let (reply, _) = tally.compare(
        operator,
        lent.clone(),
        |(image, state, count)| {
            model::ask(image.lend(), state.lend(), count.lend()[0], operator).into()
        },
        |(image, state, count)| {
            kulabismuth::ask(image.lend(), state.lend(), count.lend()[0], operator)
        },
    );
    reply
}

/// Compares a commit; state and count are then as it leaves them.
fn compare_commit(tally: &mut Tally, lent: &mut Lent, ticket: Ticket) -> Reply {
    let (reply, after) = tally.compare(
        ticket,
        lent.clone(),
        |(image, state, count)| {
            let count = &mut count.lend_mut()[0];
            model::commit(image.lend(), state.lend_mut(), count, ticket).into()
        },
        |(image, state, count)| {
            let (state, count) = (state.lend_mut(), &mut count.lend_mut()[0]);
            kulabismuth::commit(image.lend(), state, count, ticket.count, ticket.operator)
        },
    );
    *lent = after;
    reply
}

/// An answer without values or places.
fn bare(number: u32) -> Reply {
    Reply {
        number,
        first: 0,
        second: 0,
    }
}

#[test]
fn asks() {
    let rng = &mut Rng::new(1101);
    let mut tally = Tally::new("kb_ask");
    let mut kinds = Kinds::new("kb_ask");
    while tally.total() < TIMES {
        let input = single(rng, DAMAGED);
        let lent = lent(&input.image, &input.state, input.count);
        let reply = compare_ask(&mut tally, &lent, input.ticket.operator);
        let at = match input.count {
            65535 => "at 65535",
            65534 => "at 65534",
            0 => "at 0",
            _ => "between",
        };
        kinds.see_if(reply.number == 0, at);
        kinds.see_if(reply.number > 7 && at == "at 65535", "refused at 65535");
    }
    let expected = [
        "at 0",
        "at 65534",
        "at 65535",
        "between",
        "refused at 65535",
    ];
    kinds.finish(LEAST, expected.map(String::from).to_vec());
    tally.finish_after(TIMES, LEAST, &NUMBERS[..11]);
}

/// Sees what decides about a commit, and which later question would be answered "no".
fn see_commit(kinds: &mut Kinds, input: &Single, reply: Reply) {
    let Single {
        image,
        state,
        count,
        ticket,
    } = input;
    let step = steps::step(image, &mut state.clone(), ticket.operator);
    let due = step.err().map_or(0, |refusal| refusal.number);
    let fits = ticket.count == *count && *count != LAST;
    kinds.see_if((1..8).contains(&reply.number) && !fits, "image, 28 due");
    kinds.see_if(reply.number == 18 && !fits, "18, 28 due");
    if reply.number == 28 {
        kinds.see(format!("28, {due} due"));
        kinds.see_if(ticket.count < *count, "28, ticket below");
        kinds.see_if(ticket.count > *count, "28, ticket above");
        kinds.see_if(ticket.count == *count, "28, both 65535");
        kinds.see_if(ticket.count == LAST && *count < LAST, "28, ticket 65535");
    }
    if reply.number == 0 {
        kinds.see_if(*count == 0, "done at 0");
        kinds.see_if(*count == LAST - 1, "done at 65534");
        kinds.see_if((1..LAST - 1).contains(count), "done between");
    }
}

#[test]
fn commits() {
    let rng = &mut Rng::new(1102);
    let mut tally = Tally::new("kb_commit");
    let mut kinds = Kinds::new("kb_commit");
    while tally.total() < TIMES {
        let input = single(rng, DAMAGED);
        let mut lent = lent(&input.image, &input.state, input.count);
        let before = lent.clone();
        let reply = compare_commit(&mut tally, &mut lent, input.ticket);
        see_commit(&mut kinds, &input, reply);
        assert!(reply.number == 0 || lent == before, "a refusal changed it");
    }
    let expected = [
        "image, 28 due",
        "18, 28 due",
        "28, 0 due",
        "28, 19 due",
        "28, 20 due",
        "28, ticket below",
        "28, ticket above",
        "28, both 65535",
        "28, ticket 65535",
        "done at 0",
        "done at 65534",
        "done between",
    ];
    kinds.finish(LEAST, expected.map(String::from).to_vec());
    tally.finish_after(TIMES, LEAST, &NUMBERS);
}

/// All states of all tasks of document 02 §13 with two atoms and one operator, with
/// counts and tickets at the bounds.
#[test]
fn all_small_tasks() {
    let mut asks = Tally::new("kb_ask, all small tasks");
    let mut commits = Tally::new("kb_commit, all small tasks");
    let counts = [0, 1, LAST - 1, LAST];
    for k in 0..small_tasks(2, 1) {
        let image = small(2, 1, k).image();
        for (state, count) in state::all(2).flat_map(|state| counts.map(|at| (state.clone(), at))) {
            for operator in 0..2 {
                compare_ask(&mut asks, &lent(&image, &state, count), operator);
                for of in counts {
                    let ticket = Ticket {
                        count: of,
                        operator,
                    };
                    compare_commit(&mut commits, &mut lent(&image, &state, count), ticket);
                }
            }
        }
    }
    asks.finish_after(324 * 4 * 4 * 2, LEAST, &[0, 19, 20]);
    commits.finish_after(4 * 324 * 4 * 4 * 2, LEAST, &[0, 19, 20, 28]);
}

/// The ticket that an ask of the library gave.
fn granted(reply: Reply) -> Option<Ticket> {
    let number = |value: u64| u16::try_from(value).expect("a number of a ticket");
    (reply.number == 0).then(|| Ticket {
        count: number(reply.first),
        operator: number(reply.second),
    })
}

/// Tickets of asks in other states of this task and of another one, at this count or a
/// little above.
fn elsewhere(rng: &mut Rng, image: &[u16], count: u16) -> Vec<Ticket> {
    let other = random::small(rng).image();
    let mut tickets = Vec::new();
    for image in [image, &other].repeat(5) {
        let state = state::valid(rng, usize::from(image[0]));
        let count = count.saturating_add(rng.below(5) as u16);
        let operator = state::operator(rng, usize::from(image[1]));
        tickets.extend(granted(kulabismuth::ask(image, &state, count, operator)));
    }
    tickets
}

/// What the calls of the lists have come to.
struct Counted {
    asks: Tally,
    commits: Tally,
    kinds: Kinds,
}

impl Counted {
    fn new(asks: &'static str, commits: &'static str) -> Counted {
        Counted {
            asks: Tally::new(asks),
            commits: Tally::new(commits),
            kinds: Kinds::new(commits),
        }
    }
}

/// A list of asks and commits: the buffers as the last call left them, and the operators
/// whose commits were not refused.
struct List {
    lent: Lent,
    start: u16,
    done: Vec<u16>,
}

impl List {
    /// Before the first call: the initial state, with this count.
    fn new(image: &[u16], start: u16) -> List {
        List {
            lent: lent(image, &initial(image), start),
            start,
            done: Vec::new(),
        }
    }

    fn image(&self) -> &[u16] {
        self.lent.0.lend()
    }

    fn count(&self) -> u16 {
        self.lent.2.lend()[0]
    }

    fn ask(&self, counted: &mut Counted, operator: u16) -> Option<Ticket> {
        granted(compare_ask(&mut counted.asks, &self.lent, operator))
    }

    /// If a ticket of this list has the state's count, there were only asks, and commits
    /// that were refused, since it was given: it is refused only at 65,535.
    fn commit(&mut self, counted: &mut Counted, ticket: Ticket, origin: Origin) {
        let count = self.count();
        let reply = compare_commit(&mut counted.commits, &mut self.lent, ticket);
        let kind = match origin {
            Origin::Asked if ticket.count == count => "own",
            Origin::Asked => "old",
            Origin::Elsewhere => "elsewhere",
            Origin::Invented => "invented",
        };
        if kind == "own" {
            let number = if count == LAST { 28 } else { 0 };
            assert_eq!(reply, bare(number), "{:?} {ticket:?}", self.lent);
        }
        counted.kinds.see(format!("{kind} {}", reply.number));
        if reply.number == 0 {
            self.done.push(ticket.operator);
        }
    }

    /// Makes so many calls.
    fn make(&mut self, rng: &mut Rng, counted: &mut Counted, calls: usize) {
        let operators = usize::from(self.image()[1]);
        let elsewhere = elsewhere(rng, self.image(), self.start);
        let mut caller = Caller::new(operators, elsewhere);
        for _ in 0..calls {
            match caller.next(rng, self.count()) {
                Call::Ask(operator) => {
                    if let Some(ticket) = self.ask(counted, operator) {
                        caller.keep(ticket);
                    }
                }
                Call::Commit(ticket, origin) => self.commit(counted, ticket, origin),
            }
        }
    }

    /// By the library's own steps, and by its list run: the state is that after the
    /// operators done. The count is their number, from the first count on.
    fn assert_done(&self) {
        let image = self.image();
        let mut stepped = initial(image);
        for &operator in &self.done {
            let reply = kulabismuth::task_step(image, &mut stepped, operator);
            assert_eq!(reply, Reply::finding(0, 0), "{image:?} {:?}", self.done);
        }
        let (reply, left) = run(image, &self.done);
        assert_eq!(reply, Reply::finding(self.done.len() as u64, 0));
        let state = self.lent.1.lend();
        assert!(
            state == stepped && state == left,
            "{image:?} {:?}",
            self.done
        );
        let counted = usize::from(self.count() - self.start);
        assert_eq!(counted, self.done.len(), "{image:?}");
    }
}

/// Sees how a list went.
fn see_list(kinds: &mut Kinds, list: &List) {
    let done = match list.done.len() {
        0 => "no commit done",
        1..=4 => "1 to 4 done",
        _ => "5 or more done",
    };
    kinds.see(done);
    kinds.see_if(list.start == 0, "from 0");
    kinds.see_if(
        list.start > 0 && list.count() < LAST,
        "from above, ends below 65535",
    );
    kinds.see_if(list.start < LAST && list.count() == LAST, "comes to 65535");
    kinds.see_if(list.start == LAST, "from 65535");
}

/// All kinds that are told apart in lists.
fn all_kinds() -> Vec<String> {
    let mut kinds: Vec<String> = ["elsewhere", "invented"]
        .iter()
        .flat_map(|kind| [0, 19, 20, 28].map(|number| format!("{kind} {number}")))
        .collect();
    let others = [
        "own 0",
        "own 28",
        "old 28",
        "no commit done",
        "1 to 4 done",
        "5 or more done",
        "from 0",
        "from above, ends below 65535",
        "comes to 65535",
        "from 65535",
    ];
    kinds.extend(others.map(String::from));
    kinds
}

#[test]
fn lists() {
    let rng = &mut Rng::new(1103);
    let mut counted = Counted::new("kb_ask, lists", "kb_commit, lists");
    for _ in 0..TIMES {
        let task = match rng.below(10) {
            0..=6 => random::small(rng),
            _ => random::any(rng),
        };
        let start = match rng.below(4) {
            0 => rng.between(65530, 65535) as u16,
            _ => 0,
        };
        let calls = *rng.pick(&[1, 4, 10, 20, 40, 80]);
        let mut list = List::new(&task.image(), start);
        list.make(rng, &mut counted, calls);
        list.assert_done();
        see_list(&mut counted.kinds, &list);
    }
    println!("lists of asks and commits: {TIMES}");
    counted.kinds.finish(LEAST, all_kinds());
    counted.asks.finish(LEAST, &[0, 19, 20]);
    counted.commits.finish(LEAST, &[0, 19, 20, 28]);
}

/// 65,535 commits from 0, each of a ticket asked for before it; then every ticket is
/// refused, though asks are answered as before.
#[test]
fn the_longest_list() {
    let mut counted = Counted::new("kb_ask, 65535 commits", "kb_commit, 65535 commits");
    let mut list = List::new(&ring(3).image(), 0);
    for count in 0..LAST {
        let ticket = list.ask(&mut counted, count % 3).expect("applicable");
        list.commit(&mut counted, ticket, Origin::Asked);
    }
    assert_eq!((list.count(), list.done.len()), (LAST, 65535));
    list.assert_done();
    let ticket = list.ask(&mut counted, 0).expect("applicable");
    assert_eq!((ticket.count, ticket.operator), (LAST, 0));
    for count in [LAST, 0, 1, LAST - 1] {
        list.commit(&mut counted, Ticket { count, ..ticket }, Origin::Asked);
    }
    list.assert_done();
    let kinds = ["own 0", "own 28", "old 28"].map(String::from);
    counted.kinds.finish(1, kinds.to_vec());
    counted.asks.finish_after(65536, 1, &[0]);
    counted.commits.finish_after(65539, 4, &[0, 28]);
}

/// The ring with the answers written down.
#[test]
fn as_written_down() {
    let ring = ring(3).image();
    let (mut state, mut count) = (vec![1, 0, 0], 0);
    let ask = |state: &[u8], count, operator| kulabismuth::ask(&ring, state, count, operator);
    assert_eq!(ask(&state, count, 0), Reply::finding(0, 0));
    assert_eq!(ask(&state, count, 1), bare(20));
    assert_eq!(ask(&state, count, 3), bare(19));
    assert_eq!(ask(&state[1..], count, 3), bare(18));
    assert_eq!(ask(&state, 65535, 0), Reply::finding(65535, 0));
    let short = kulabismuth::commit(&ring, &mut state[1..], &mut count, 1, 3);
    assert_eq!((short, count), (bare(18), 0));
    let mut commit = |ticket_count, operator| {
        let reply = kulabismuth::commit(&ring, &mut state, &mut count, ticket_count, operator);
        (reply, state.clone(), count)
    };
    assert_eq!(commit(1, 0), (bare(28), vec![1, 0, 0], 0));
    assert_eq!(commit(1, 3), (bare(28), vec![1, 0, 0], 0));
    assert_eq!(commit(0, 1), (bare(20), vec![1, 0, 0], 0));
    assert_eq!(commit(0, 3), (bare(19), vec![1, 0, 0], 0));
    assert_eq!(commit(0, 0), (Reply::finding(0, 0), vec![0, 1, 0], 1));
    assert_eq!(commit(0, 0), (bare(28), vec![0, 1, 0], 1));
    assert_eq!(commit(1, 1), (Reply::finding(0, 0), vec![0, 0, 1], 2));
}
