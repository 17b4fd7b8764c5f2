//! Well-known planning tasks of any size.

use crate::task::{no, yes, OperatorSpec, RowSpec, TaskSpec};

/// A token goes round: from place i to the next.
pub fn ring(places: u16) -> TaskSpec {
    let next = |place| (place + 1) % places;
    let operators = (0..places).map(|place| OperatorSpec {
        precondition: vec![yes(place)],
        rows: vec![
            RowSpec::new(no(place), &[]),
            RowSpec::new(yes(next(place)), &[]),
        ],
    });
    TaskSpec {
        atoms: places,
        initial: vec![0],
        goal: vec![yes(places - 1)],
        operators: operators.collect(),
    }
}

/// All pairs of different numbers below `count`.
fn pairs(count: u16) -> impl Iterator<Item = (u16, u16)> {
    (0..count).flat_map(move |a| (0..count).filter(move |&b| b != a).map(move |b| (a, b)))
}

/// A robot carries balls from the first room to the last.
pub fn gripper(balls: u16, rooms: u16, grippers: u16) -> TaskSpec {
    let free = |gripper| rooms + gripper;
    let at = |ball, room| rooms + grippers + ball * rooms + room;
    let carried = |ball, gripper| at(balls, 0) + ball * grippers + gripper;
    let mut operators: Vec<OperatorSpec> = pairs(rooms)
        .map(|(from, to)| OperatorSpec::strips(&[yes(from)], &[no(from), yes(to)]))
        .collect();
    for ball in 0..balls {
        for (room, gripper) in (0..rooms).flat_map(|r| (0..grippers).map(move |g| (r, g))) {
            let (f, a, c) = (free(gripper), at(ball, room), carried(ball, gripper));
            operators.push(OperatorSpec::strips(
                &[yes(room), yes(f), yes(a)],
                &[no(f), no(a), yes(c)],
            ));
            operators.push(OperatorSpec::strips(
                &[yes(room), yes(c)],
                &[yes(f), yes(a), no(c)],
            ));
        }
    }
    let mut initial = vec![0];
    initial.extend((0..grippers).map(free));
    initial.extend((0..balls).map(|ball| at(ball, 0)));
    TaskSpec {
        atoms: carried(balls, 0),
        initial,
        goal: (0..balls).map(|ball| yes(at(ball, rooms - 1))).collect(),
        operators,
    }
}

/// Blocks world with four operators, all blocks on the table at first.
pub fn blocks(count: u16) -> TaskSpec {
    let (clear, table, holding) = (|b| b, |b| count + b, |b| 2 * count + b);
    let hand = 3 * count;
    let on = |a: u16, b: u16| hand + 1 + a * (count - 1) + if b < a { b } else { b - 1 };
    let mut operators = Vec::new();
    for a in 0..count {
        operators.push(OperatorSpec::strips(
            &[yes(clear(a)), yes(table(a)), yes(hand)],
            &[no(clear(a)), no(table(a)), yes(holding(a)), no(hand)],
        ));
        operators.push(OperatorSpec::strips(
            &[yes(holding(a))],
            &[yes(clear(a)), yes(table(a)), no(holding(a)), yes(hand)],
        ));
        for b in (0..count).filter(|&b| b != a) {
            let (ca, cb, h, o) = (clear(a), clear(b), holding(a), on(a, b));
            operators.push(OperatorSpec::strips(
                &[yes(cb), yes(h)],
                &[yes(ca), no(cb), no(h), yes(hand), yes(o)],
            ));
            operators.push(OperatorSpec::strips(
                &[yes(ca), yes(hand), yes(o)],
                &[no(ca), yes(cb), yes(h), no(hand), no(o)],
            ));
        }
    }
    let initial = (0..2 * count).chain([hand]).collect();
    TaskSpec {
        atoms: hand + 1 + count * (count - 1),
        initial,
        goal: (1..count).map(|b| yes(on(b - 1, b))).collect(),
        operators,
    }
}

/// A briefcase moves the objects in it: conditional effects.
pub fn briefcase(objects: u16, places: u16) -> TaskSpec {
    let at = |object, place| places + object * places + place;
    let inside = |object| at(objects, 0) + object;
    let mut operators: Vec<OperatorSpec> = pairs(places)
        .map(|(from, to)| {
            let mut rows = vec![RowSpec::new(no(from), &[]), RowSpec::new(yes(to), &[])];
            for object in 0..objects {
                let carried = [yes(inside(object))];
                rows.push(RowSpec::new(no(at(object, from)), &carried));
                rows.push(RowSpec::new(yes(at(object, to)), &carried));
            }
            OperatorSpec {
                precondition: vec![yes(from)],
                rows,
            }
        })
        .collect();
    for object in 0..objects {
        let held = inside(object);
        operators.extend((0..places).map(|place| {
            OperatorSpec::strips(
                &[yes(place), yes(at(object, place)), no(held)],
                &[yes(held)],
            )
        }));
        operators.push(OperatorSpec::strips(&[yes(held)], &[no(held)]));
    }
    let initial = std::iter::once(0).chain((0..objects).map(|object| at(object, 0)));
    TaskSpec {
        atoms: inside(objects),
        initial: initial.collect(),
        goal: (0..objects)
            .map(|object| yes(at(object, places - 1)))
            .collect(),
        operators,
    }
}

/// Trucks carry packages along a road of places.
pub fn transport(trucks: u16, packages: u16, places: u16) -> TaskSpec {
    let truck_at = |truck, place| truck * places + place;
    let at = |package, place| trucks * places + package * places + place;
    let inside = |package, truck| at(packages, 0) + package * trucks + truck;
    let mut operators = Vec::new();
    for (truck, place) in (0..trucks).flat_map(|t| (0..places).map(move |p| (t, p))) {
        let here = truck_at(truck, place);
        let roads = (0..places).filter(|&to| to.abs_diff(place) == 1);
        operators.extend(
            roads.map(|to| {
                OperatorSpec::strips(&[yes(here)], &[no(here), yes(truck_at(truck, to))])
            }),
        );
        for package in 0..packages {
            let (a, i) = (at(package, place), inside(package, truck));
            operators.push(OperatorSpec::strips(&[yes(here), yes(a)], &[no(a), yes(i)]));
            operators.push(OperatorSpec::strips(&[yes(here), yes(i)], &[yes(a), no(i)]));
        }
    }
    let initial = (0..trucks)
        .map(|truck| truck_at(truck, truck % places))
        .chain((0..packages).map(|package| at(package, 0)));
    TaskSpec {
        atoms: inside(packages, 0),
        initial: initial.collect(),
        goal: (0..packages)
            .map(|package| yes(at(package, places - 1)))
            .collect(),
        operators,
    }
}

/// A changer sends trays to docks. Wherever a tray is, it leaves every dock and
/// comes to the new one: sent to its own dock, it is deleted there and added.
pub fn changer(trays: u16, docks: u16) -> TaskSpec {
    let at = |tray, dock| tray * docks + dock;
    let mut operators = Vec::new();
    for (tray, dock) in (0..trays).flat_map(|t| (0..docks).map(move |d| (t, d))) {
        let others = (0..trays).filter(|&other| other != tray);
        let vacant: Vec<u16> = others.map(|other| no(at(other, dock))).collect();
        let mut effects: Vec<u16> = (0..docks).map(|left| no(at(tray, left))).collect();
        effects.push(yes(at(tray, dock)));
        operators.push(OperatorSpec::strips(&vacant, &effects));
    }
    TaskSpec {
        atoms: at(trays, 0),
        initial: (0..trays).map(|tray| at(tray, tray % docks)).collect(),
        goal: (0..trays)
            .map(|tray| yes(at(tray, docks - 1 - tray % docks)))
            .collect(),
        operators,
    }
}

/// A task of each kind, larger than those that are gone through whole.
pub fn one_of_each() -> [TaskSpec; 6] {
    [
        ring(30),
        gripper(5, 2, 2),
        blocks(4),
        briefcase(4, 3),
        transport(2, 4, 4),
        changer(3, 4),
    ]
}
