//! The examples. The names stand in the order in which `inputs::structured`
//! numbers atoms and operators.

use crate::example::Example;
use inputs::structured;
use inputs::task::yes;

pub fn all() -> [Example; 6] {
    [
        ring(),
        gripper(),
        blocks(),
        briefcase(),
        changer(),
        refused(),
    ]
}

/// All pairs of different names, by the first.
fn pairs<'a>(names: &'a [&'a str]) -> impl Iterator<Item = (&'a str, &'a str)> {
    let others = move |a: &'a str| names.iter().filter(move |&&b| b != a).map(move |&b| (a, b));
    names.iter().flat_map(move |&a| others(a))
}

fn ring() -> Example {
    let moves = |number: u16| format!("move-{number}-{}", (number + 1) % 3);
    Example {
        name: "ring",
        about: &[
            "A token goes round three places: the ring of document 01. Atom at-0 says that it is at place 0.",
            "The clauses say that it is never at two places; one group has all three atoms.",
        ],
        n: 2,
        limit: 10,
        task: structured::ring(3),
        atoms: (0..3).map(|place| format!("at-{place}")).collect(),
        operators: (0..3).map(moves).collect(),
    }
}

fn gripper() -> Example {
    let rooms = ["A", "B", "C"];
    let balls = ["ball1", "ball2", "ball3", "ball4"];
    let arms = ["left", "right"];
    let mut task = structured::gripper(4, 3, 2);
    let mut atoms: Vec<String> = rooms.map(|room| format!("robot-{room}")).into();
    atoms.extend(arms.map(|arm| format!("{arm}-free")));
    for ball in balls {
        atoms.extend(rooms.map(|room| format!("{ball}-{room}")));
    }
    for ball in balls {
        atoms.extend(arms.map(|arm| format!("{arm}-{ball}")));
    }
    let mut operators: Vec<String> = pairs(&rooms)
        .map(|(from, to)| format!("move-{from}-{to}"))
        .collect();
    for ball in balls {
        for room in rooms {
            for arm in arms {
                operators.push(format!("pick-{ball}-{room}-{arm}"));
                operators.push(format!("drop-{ball}-{room}-{arm}"));
            }
        }
    }
    // Source document 000 wants the balls in room B.
    task.goal = (0..4).map(|ball| yes(5 + 3 * ball + 1)).collect();
    Example {
        name: "gripper",
        about: &[
            "A robot with two grippers carries four balls from room A to room B: the running example of",
            "source document 000. Atom left-ball1 says that the left gripper carries ball 1. The card has",
            "its 63 mutexes; a group for the robot, one for each gripper and one for each ball.",
        ],
        n: 2,
        limit: 100,
        task,
        atoms,
        operators,
    }
}

fn blocks() -> Example {
    let blocks = ["A", "B", "C"];
    let mut atoms: Vec<String> = blocks.map(|a| format!("clear-{a}")).into();
    atoms.extend(blocks.map(|a| format!("table-{a}")));
    atoms.extend(blocks.map(|a| format!("held-{a}")));
    atoms.push("hand-empty".to_string());
    atoms.extend(pairs(&blocks).map(|(a, b)| format!("on-{a}-{b}")));
    let mut operators = Vec::new();
    for a in blocks {
        operators.push(format!("pick-up-{a}"));
        operators.push(format!("put-down-{a}"));
        for b in blocks.into_iter().filter(|&b| b != a) {
            operators.push(format!("stack-{a}-{b}"));
            operators.push(format!("unstack-{a}-{b}"));
        }
    }
    Example {
        name: "blocks",
        about: &[
            "Three blocks on a table and a hand: blocks world with four kinds of operators. Atom clear-A says",
            "that nothing is on A and it is not held, on-A-B that A is on B.",
            "The first three groups say what is above each block: nothing, the hand, or another block.",
        ],
        n: 3,
        limit: 100,
        task: structured::blocks(3),
        atoms,
        operators,
    }
}

fn briefcase() -> Example {
    let places = ["home", "office", "bank"];
    let objects = ["book", "pen"];
    let mut atoms: Vec<String> = places.map(|place| format!("case-{place}")).into();
    for object in objects {
        atoms.extend(places.map(|place| format!("{object}-{place}")));
    }
    atoms.extend(objects.map(|object| format!("{object}-inside")));
    let mut operators: Vec<String> = pairs(&places)
        .map(|(from, to)| format!("carry-{from}-{to}"))
        .collect();
    for object in objects {
        operators.extend(places.map(|place| format!("put-in-{object}-{place}")));
        operators.push(format!("take-out-{object}"));
    }
    Example {
        name: "briefcase",
        about: &[
            "A briefcase is carried between three places and takes along what is in it: conditional effects.",
            "Synthesis finds that the briefcase is at exactly one place, and no clause about the objects.",
        ],
        n: 3,
        limit: 100,
        task: structured::briefcase(2, 3),
        atoms,
        operators,
    }
}

fn changer() -> Example {
    let trays = ["sample", "reagent"];
    let docks = ["oven", "scale", "hatch"];
    let mut atoms = Vec::new();
    let mut operators = Vec::new();
    for tray in trays {
        atoms.extend(docks.map(|dock| format!("{tray}-{dock}")));
        operators.extend(docks.map(|dock| format!("send-{tray}-{dock}")));
    }
    Example {
        name: "changer",
        about: &[
            "A tray changer serves three docks; atom sample-oven says that the sample tray is at the oven. Sending",
            "a tray, where the other tray is not, deletes all its places and adds the new one. A tray sent to",
            "where it stands is deleted and added there: an add beats a delete, and it stays.",
            "The clauses say that each tray is at exactly one dock, and no two trays are at the same.",
        ],
        n: 3,
        limit: 100,
        task: structured::changer(2, 3),
        atoms,
        operators,
    }
}

/// The ring with a literal that names no atom.
fn refused() -> Example {
    let mut example = ring();
    example.task.operators[1].precondition = vec![yes(3)];
    Example {
        name: "refused",
        about: &[
            "The ring of document 01 with a mistake: the precondition of operator 1 is literal 6, but atom 3",
            "does not exist. So question 7 is answered with no for operator 1: refused 7 1 0.",
        ],
        ..example
    }
}
