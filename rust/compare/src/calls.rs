//! Calls that lend marks. What these hold afterwards is open, and so is work in
//! synthesis, but for the call that leaves a closure in them.

use kulabismuth::Reply;
use reference::operator_closure::operator_closure;
use reference::{agreement, checker, kept, synthesis, Answer};

use crate::{Guarded, Tally};

type Words = Guarded<u16>;
type Marks = Guarded<u8>;

/// Image, clauses and marks.
pub type Check = (Words, Words, Marks);

/// Three buffers of words, and marks.
pub type Triple = (Words, Words, Words, Marks);

/// Image, clauses, marks and a target.
pub type Targeted = (Words, Words, Marks, Words);

/// Groups and re-encoding have the same form.
pub type Model = fn(&[u16], &[u16], &mut [u8], &mut [u16]) -> Answer<usize>;
pub type Library = fn(&[u16], &[u16], &mut [u8], &mut [u16]) -> Reply;

pub fn check(tally: &mut Tally, lent: Check) -> Reply {
    let reference = |(image, set, marks): &mut Check| {
        let answer = checker::check(image.lend(), set.lend(), marks.lend_mut());
        marks.forget();
        answer.into()
    };
    let library = |(image, set, marks): &mut Check| {
        let reply = kulabismuth::check(image.lend(), set.lend(), marks.lend_mut());
        marks.forget();
        reply
    };
    tally.compare((), lent, reference, library).0
}

/// Lends image, clauses, one clause, and marks.
pub fn kept(tally: &mut Tally, lent: Triple, operator: u16) -> Reply {
    let reference = |(image, set, clause, marks): &mut Triple| {
        let (set, row) = (set.lend(), clause.lend());
        let answer = kept::kept(image.lend(), set, row, operator, marks.lend_mut());
        marks.forget();
        answer.into()
    };
    let library = |(image, set, clause, marks): &mut Triple| {
        let (set, row) = (set.lend(), clause.lend());
        let reply = kulabismuth::kept(image.lend(), set, row, operator, marks.lend_mut());
        marks.forget();
        reply
    };
    tally.compare(operator, lent, reference, library).0
}

/// Lends image, clauses, work, and marks. Gives back the clause buffer besides.
pub fn synthesize(tally: &mut Tally, lent: Triple, n: u16, limit: u16) -> (Reply, Words) {
    let reference = |(image, clauses, work, marks): &mut Triple| {
        let (rows, work_lent) = (clauses.lend_mut(), work.lend_mut());
        let marks_lent = marks.lend_mut();
        let answer = synthesis::synthesize(image.lend(), n, limit, rows, work_lent, marks_lent);
        work.forget();
        marks.forget();
        answer.into()
    };
    let library = |(image, clauses, work, marks): &mut Triple| {
        let (rows, work_lent) = (clauses.lend_mut(), work.lend_mut());
        let marks_lent = marks.lend_mut();
        let reply = kulabismuth::synthesize(image.lend(), n, limit, rows, work_lent, marks_lent);
        work.forget();
        marks.forget();
        reply
    };
    let (reply, (_, clauses, _, _)) = tally.compare((n, limit), lent, reference, library);
    (reply, clauses)
}

/// Lends image, clauses, operator numbers, and marks.
pub fn agree(tally: &mut Tally, lent: Triple) -> Reply {
    let reference = |(image, set, list, marks): &mut Triple| {
        let answer = agreement::agree(image.lend(), set.lend(), list.lend(), marks.lend_mut());
        marks.forget();
        answer.into()
    };
    let library = |(image, set, list, marks): &mut Triple| {
        let reply = kulabismuth::agree(image.lend(), set.lend(), list.lend(), marks.lend_mut());
        marks.forget();
        reply
    };
    tally.compare((), lent, reference, library).0
}

/// Groups or re-encoding. Gives back the target besides.
pub fn targeted(
    tally: &mut Tally,
    lent: Targeted,
    model: Model,
    library: Library,
) -> (Reply, Words) {
    let reference = |(image, set, marks, target): &mut Targeted| {
        let (set, marks_lent) = (set.lend(), marks.lend_mut());
        let answer = model(image.lend(), set, marks_lent, target.lend_mut());
        marks.forget();
        answer.into()
    };
    let library = |(image, set, marks, target): &mut Targeted| {
        let (set, marks_lent) = (set.lend(), marks.lend_mut());
        let reply = library(image.lend(), set, marks_lent, target.lend_mut());
        marks.forget();
        reply
    };
    let (reply, (_, _, _, target)) = tally.compare((), lent, reference, library);
    (reply, target)
}

/// The closure for an operator; all of the marks is compared. Gives them back besides.
pub fn closure(tally: &mut Tally, lent: Check, operator: u16) -> (Reply, Marks) {
    let reference = |(image, set, marks): &mut Check| {
        operator_closure(image.lend(), set.lend(), operator, marks.lend_mut()).into()
    };
    let library = |(image, set, marks): &mut Check| {
        kulabismuth::closure(image.lend(), set.lend(), operator, marks.lend_mut())
    };
    let (reply, (_, _, marks)) = tally.compare(operator, lent, reference, library);
    (reply, marks)
}
