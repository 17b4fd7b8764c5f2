//! What a set says about one operator (document 02 §7): the answer, both numbers and
//! all of the marks.

use compare::tally::INPUTS;
use compare::{calls, Guarded, Kinds, Tally};
use inputs::clauses::{self, Row};
use inputs::task::{OperatorSpec, TaskSpec};
use inputs::{damage, random, state, structured, Rng};
use kulabismuth::Reply;
use reference::closure::Closure;
use reference::literal::Literal;
use reference::marks::{is_marked, mark_bytes};
use reference::{clause, task};
use sources::Synthesized;

/// Each kind of input and of answer must occur so often.
const LEAST: usize = 50;

/// What a call is lent.
struct Input {
    image: Vec<u16>,
    set: Vec<u16>,
    operator: u16,
    marks: Vec<u8>,
}

impl Input {
    /// Marks of any content, of just enough bytes.
    fn exact(rng: &mut Rng, image: &[u16], set: &[u16], operator: u16) -> Input {
        Input {
            image: image.to_vec(),
            set: set.to_vec(),
            operator,
            marks: rng.bytes(mark_bytes(usize::from(image[0]))),
        }
    }

    /// A set of any kind, an operator at the bounds or any, marks of some length; now and
    /// then a damaged image.
    fn random(rng: &mut Rng, source: &Synthesized) -> Input {
        let set = random_set(rng, source);
        let operator = random_operator(rng, usize::from(source.image[1]));
        let length = random_length(rng, mark_bytes(source.atoms()));
        let mut image = source.image.clone();
        if rng.chance(10) {
            damage::task_image(rng, &mut image);
        }
        Input {
            image,
            set,
            operator,
            marks: rng.bytes(length),
        }
    }

    fn compare(&self, tally: &mut Tally) -> (Reply, Vec<u8>) {
        let lent = (
            Guarded::new(&self.image),
            Guarded::new(&self.set),
            Guarded::new(&self.marks),
        );
        let (reply, marks) = calls::closure(tally, lent, self.operator);
        (reply, marks.lend().to_vec())
    }
}

/// The set found, such a set changed or damaged, or random rows; many of the latter
/// have a contradictory closure.
fn random_set(rng: &mut Rng, source: &Synthesized) -> Vec<u16> {
    if rng.chance(40) {
        return source.clause_words(rng);
    }
    let most = *rng.pick(&[3, 6, 12]);
    let mut rows = clauses::random_set(rng, source.atoms(), most);
    if rng.chance(40) {
        rows.extend(short_rows(rng, source.atoms()));
    }
    clauses::words(&rows)
}

/// A few clauses of one literal or two.
fn short_rows(rng: &mut Rng, atoms: usize) -> Vec<Row> {
    let mut row = || {
        let size = rng.between(1, 2);
        let list: Vec<u16> = (0..size).map(|_| random::literal(rng, atoms)).collect();
        clauses::row(&list)
    };
    (0..5).map(|_| row()).collect()
}

/// The last operator's number, the one after it, the highest word, or any.
fn random_operator(rng: &mut Rng, operators: usize) -> u16 {
    match rng.below(12) {
        0..=2 => operators.saturating_sub(1) as u16,
        3 => operators as u16,
        4 if rng.chance(50) => 65535,
        _ => state::operator(rng, operators),
    }
}

/// A length of the marks: just enough, more, a byte too few, none, or any below.
fn random_length(rng: &mut Rng, needed: usize) -> usize {
    match rng.below(20) {
        0 => needed - 1,
        1 => 0,
        2 => rng.below(needed),
        3..=7 => needed + rng.between(1, 9),
        _ => needed,
    }
}

/// Sees what the marks were, and which operator was asked for, in a right image.
fn see_lent(kinds: &mut Kinds, input: &Input) {
    let Ok(task) = task::read(&input.image) else {
        return;
    };
    let (needed, given) = (mark_bytes(task.atoms()), input.marks.len());
    kinds.see_if(given == needed, "marks exact");
    kinds.see_if(given > needed, "marks longer");
    kinds.see_if(given + 1 == needed, "marks one byte short");
    kinds.see_if(given == 0, "no marks");
    let (operators, operator) = (task.operators(), usize::from(input.operator));
    kinds.see_if(operator + 1 == operators, "operator M-1");
    kinds.see_if(operator == operators, "operator M");
    kinds.see_if(operator == 65535, "operator 65535");
    kinds.see_if(operators == 0, "no operators");
    let due = operator >= operators && given < needed;
    kinds.see_if(due, "operator too high and marks too short");
}

/// Whether both literals of an atom are marked.
fn is_contradictory(marks: &[u8], atoms: u16) -> bool {
    let held = |word| is_marked(marks, Literal(word));
    (0..atoms).any(|atom| held(2 * atom) && held(2 * atom + 1))
}

/// Sees what a finding is about.
fn see_finding(kinds: &mut Kinds, input: &Input, reply: Reply, marks: &[u8]) {
    let task = task::read(&input.image).expect("a right image");
    let atoms = task.atoms();
    let set = clause::read(&input.set, atoms).expect("right rows");
    let precondition = task.operator(usize::from(input.operator)).precondition;
    let contradictory = is_contradictory(marks, input.image[0]);
    kinds.see_if(contradictory, "contradictory");
    kinds.see_if(!contradictory, "consistent");
    let stopping = Closure::new(atoms, &set, precondition);
    assert_eq!(stopping.is_contradictory(), contradictory);
    let before = stopping.marks().iter().filter(|&&held| held).count();
    let count = reply.first as usize;
    // More than the literals of the clause at which the other one stops.
    kinds.see_if(before + 3 < count, "goes on after a complement");
    kinds.see_if(count == 0, "no literal");
    kinds.see_if(count == 2 * atoms, "all literals");
    kinds.see_if(count > precondition.len(), "more than the precondition");
    kinds.see(format!(
        "{} bits left over",
        8 * mark_bytes(atoms) - 2 * atoms
    ));
    kinds.see_if(atoms == 1, "1 atom");
}

/// All kinds that are told apart.
fn all_kinds() -> Vec<String> {
    let kinds = [
        "marks exact",
        "marks longer",
        "marks one byte short",
        "no marks",
        "operator M-1",
        "operator M",
        "operator 65535",
        "no operators",
        "operator too high and marks too short",
        "contradictory",
        "consistent",
        "goes on after a complement",
        "no literal",
        "all literals",
        "more than the precondition",
        "0 bits left over",
        "2 bits left over",
        "4 bits left over",
        "6 bits left over",
        "1 atom",
    ];
    kinds.map(String::from).to_vec()
}

#[test]
fn closures() {
    let rng = &mut Rng::new(1001);
    let mut tally = Tally::new("kb_closure");
    let mut kinds = Kinds::new("kb_closure");
    let mut findings = [0; 2];
    while tally.total() < 2 * INPUTS {
        let source = Synthesized::random(rng);
        for _ in 0..6 {
            let input = Input::random(rng, &source);
            see_lent(&mut kinds, &input);
            let (reply, marks) = input.compare(&mut tally);
            if reply.number == 0 {
                see_finding(&mut kinds, &input, reply, &marks);
                findings[usize::from(is_contradictory(&marks, input.image[0]))] += 1;
            } else {
                assert_eq!(marks, input.marks, "a refusal changed the marks");
            }
        }
    }
    println!("kb_closure: findings consistent and contradictory {findings:?}");
    assert!(findings.iter().all(|&count| count > 5_000));
    kinds.finish(LEAST, all_kinds());
    let numbers = [0, 1, 2, 3, 4, 5, 6, 7, 8, 9, 13, 19];
    tally.finish_after(2 * INPUTS, LEAST, &numbers);
}

/// All clauses of one literal or two over so many atoms.
fn short_clauses(atoms: u16) -> Vec<Row> {
    let literals = 0..2 * atoms;
    let ones = literals.clone().map(|one| clauses::row(&[one]));
    let pairs = literals.clone().flat_map(|one| {
        let others = literals.clone().filter(move |other| other / 2 > one / 2);
        others.map(move |other| clauses::row(&[one, other]))
    });
    ones.chain(pairs).collect()
}

/// An operator for each literal list over so many atoms.
fn all_preconditions(atoms: u16) -> Vec<OperatorSpec> {
    let literals = |atom: u16| [vec![], vec![2 * atom], vec![2 * atom + 1]];
    let mut lists = vec![vec![]];
    for atom in 0..atoms {
        let longer = |list: &Vec<u16>| literals(atom).map(|more| [list.clone(), more].concat());
        lists = lists.iter().flat_map(longer).collect();
    }
    let operators = lists.iter().map(|list| OperatorSpec::strips(list, &[]));
    operators.collect()
}

/// All sets of clauses over one atom and over two, with all preconditions: 12 and 2,304
/// closures, each into marks of zeros, of ones, and of any content.
#[test]
fn all_small_sets() {
    let rng = &mut Rng::new(1002);
    let mut tally = Tally::new("kb_closure, all small sets");
    for atoms in 1..=2 {
        let operators = all_preconditions(atoms);
        let task = TaskSpec {
            atoms,
            operators,
            ..TaskSpec::default()
        };
        let (image, clauses) = (task.image(), short_clauses(atoms));
        for chosen in 0u32..1 << clauses.len() {
            let some = (0..clauses.len()).filter(|place| chosen >> place & 1 == 1);
            let rows: Vec<Row> = some.map(|place| clauses[place]).collect();
            let set = clauses::words(&rows);
            for operator in 0..image[1] {
                let mut input = Input::exact(rng, &image, &set, operator);
                input.compare(&mut tally);
                input.marks = vec![0, 0];
                input.compare(&mut tally);
                input.marks = vec![255, 255];
                input.compare(&mut tally);
            }
        }
    }
    tally.finish_after(3 * (12 + 2304), LEAST, &[0]);
}

/// Every operator of larger tasks, with the set that synthesis finds, with such a set
/// changed, and with random rows put to it.
#[test]
fn structured_tasks() {
    let rng = &mut Rng::new(1003);
    let mut tally = Tally::new("kb_closure, structured tasks");
    let mut findings = [0; 2];
    let tasks = structured::one_of_each();
    for (image, n) in tasks
        .iter()
        .flat_map(|task| [1, 2, 3].map(|n| (task.image(), n)))
    {
        let source = Synthesized::new(image, n);
        for kind in 0..6 {
            let mut rows = source.rows.clone();
            for _ in 0..kind {
                clauses::mutate(rng, source.atoms(), &mut rows);
            }
            if kind > 3 {
                rows.extend(short_rows(rng, source.atoms()));
            }
            let set = clauses::words(&rows);
            for operator in 0..source.image[1] {
                let input = Input::exact(rng, &source.image, &set, operator);
                let (reply, marks) = input.compare(&mut tally);
                assert_eq!(reply.number, 0);
                findings[usize::from(is_contradictory(&marks, source.image[0]))] += 1;
            }
        }
    }
    println!("kb_closure: structured, consistent and contradictory {findings:?}");
    assert!(findings.iter().all(|&count| count > 500));
    tally.finish_after(3_000, LEAST, &[0]);
}

/// The largest tasks and sets: images of 8,192 words, 1,024 atoms, 10,000 rows.
#[test]
fn large_tasks() {
    let rng = &mut Rng::new(1004);
    let mut tally = Tally::new("kb_closure, large");
    let mut most_atoms = 0;
    for number in 0..60 {
        let spec = match number % 3 {
            0 => random::edge(rng),
            1 => random::largest(rng),
            _ => random::task(rng, &random::LARGE),
        };
        let atoms = usize::from(spec.atoms);
        let rows = *rng.pick(&[100, 1_000, 10_000]);
        let rows: Vec<Row> = (0..rows).map(|_| clauses::random_row(rng, atoms)).collect();
        let (image, set) = (spec.image(), clauses::words(&rows));
        for _ in 0..4 {
            let operator = random_operator(rng, spec.operators.len());
            let mut input = Input::exact(rng, &image, &set, operator);
            let (reply, _) = input.compare(&mut tally);
            most_atoms += usize::from(reply.number == 0 && atoms >= 1023);
            input.marks.push(rng.word() as u8);
            input.compare(&mut tally);
            input.marks.truncate(mark_bytes(atoms) - 1);
            input.compare(&mut tally);
        }
    }
    println!("kb_closure: {most_atoms} findings with 1,023 atoms or 1,024");
    assert!(most_atoms > 20);
    tally.finish_after(700, LEAST, &[0, 13, 19]);
}

/// A chain through all of 1,024 atoms, in the order of the rows and against it, from the
/// precondition; and, from both literals of an atom, all 2,048 literals.
#[test]
fn the_longest_chain() {
    let mut tally = Tally::new("kb_closure, chains");
    let atoms = 1024;
    let preconditions = [&[0][..], &[2 * atoms - 2], &[]];
    let task = TaskSpec {
        atoms,
        operators: preconditions
            .map(|list| OperatorSpec::strips(list, &[]))
            .to_vec(),
        ..TaskSpec::default()
    };
    let image = task.image();
    let pairs = |sign: u16, next: u16| {
        let pair = |atom: u16| clauses::row(&[2 * atom + sign, 2 * atom + next]);
        (0..atoms - 1).map(pair).collect::<Vec<Row>>()
    };
    let ends = vec![clauses::row(&[0]), clauses::row(&[1])];
    let all = [ends, pairs(0, 2), pairs(0, 3)].concat();
    let rng = &mut Rng::new(1005);
    let mut count = |rows: &[Row], operator: u16| {
        let input = Input::exact(rng, &image, &clauses::words(rows), operator);
        input.compare(&mut tally).0
    };
    assert_eq!(count(&pairs(1, 2), 0), Reply::finding(1024, 0));
    assert_eq!(count(&pairs(0, 3), 1), Reply::finding(1024, 0));
    assert_eq!(count(&pairs(0, 3), 0), Reply::finding(1, 0));
    assert_eq!(count(&all, 2), Reply::finding(2048, 0));
}

/// The other calls of the library say the same: a set with a contradictory closure keeps
/// every clause under that operator.
#[test]
fn a_contradictory_closure_keeps_all() {
    let rng = &mut Rng::new(1006);
    let mut tally = Tally::new("kb_closure, for kept clauses");
    let mut kept = 0;
    while kept < 5_000 {
        let source = Synthesized::new(random::small(rng).image(), 1);
        let set = clauses::words(&clauses::random_set(rng, source.atoms(), 8));
        for operator in 0..source.image[1] {
            let input = Input::exact(rng, &source.image, &set, operator);
            let (_, mut marks) = input.compare(&mut tally);
            if is_contradictory(&marks, source.image[0]) {
                let row = clauses::random_row(rng, source.atoms());
                let reply = kulabismuth::kept(&source.image, &set, &row, operator, &mut marks);
                assert_eq!(reply, Reply::finding(1, 0), "{:?} {set:?}", source.image);
                kept += 1;
            }
        }
    }
    tally.finish_after(5_000, LEAST, &[0]);
}

/// Examples with the marks written down: the ring, and clauses that contradict.
#[test]
fn as_written_down() {
    let ring = structured::ring(3).image();
    let fill = clauses::FILL;
    let pairs = [1, 3, fill, 1, 5, fill, 3, 5, fill];
    let call = |set: &[u16], operator: u16, before: &[u8]| {
        let mut marks = before.to_vec();
        let reply = kulabismuth::closure(&ring, set, operator, &mut marks);
        ((reply.number, reply.first, reply.second), marks)
    };
    assert_eq!(call(&pairs, 0, &[0]), ((0, 3, 0), vec![0b10_1001]));
    assert_eq!(call(&pairs, 1, &[255]), ((0, 3, 0), vec![0b1110_0110]));
    assert_eq!(call(&pairs, 2, &[64, 9]), ((0, 3, 0), vec![0b0101_1010, 9]));
    assert_eq!(call(&[], 2, &[0]), ((0, 1, 0), vec![0b01_0000]));
    let both = [0, fill, fill, 1, fill, fill];
    assert_eq!(call(&both, 1, &[128]), ((0, 3, 0), vec![0b1000_0111]));
    assert_eq!(call(&pairs, 3, &[]), ((19, 0, 0), vec![]));
    assert_eq!(call(&pairs, 65535, &[77]), ((19, 0, 0), vec![77]));
    assert_eq!(call(&pairs, 2, &[]), ((13, 0, 0), vec![]));
    assert_eq!(call(&pairs[..4], 3, &[77]), ((8, 0, 0), vec![77]));
    assert_eq!(call(&pairs[1..7], 3, &[77]), ((9, 0, 0), vec![77]));
}
