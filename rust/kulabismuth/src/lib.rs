//! The C interface of the proved library, each call as a safe function.
//!
//! A slice passes as pointer and length; `first` and `second` receive the
//! finding's values or the refusal's places.

pub use answer::{Answer, Refusal, Reply};

/// Calls the library with two places that must be written.
fn reply(call: impl FnOnce(*mut u64, *mut u64) -> u32) -> Reply {
    let (mut first, mut second) = (u64::MAX, u64::MAX);
    let number = call(&mut first, &mut second);
    Reply {
        number,
        first,
        second,
    }
}

/// The task calls.
mod task {
    use super::{reply, Reply};

    extern "C" {
        fn kb_read(
            image: *const u16,
            image_length: usize,
            first: *mut u64,
            second: *mut u64,
        ) -> u32;
        fn kb_task_initial(
            image: *const u16,
            image_length: usize,
            state: *mut u8,
            state_length: usize,
            first: *mut u64,
            second: *mut u64,
        ) -> u32;
        fn kb_task_step(
            image: *const u16,
            image_length: usize,
            state: *mut u8,
            state_length: usize,
            operator: u16,
            first: *mut u64,
            second: *mut u64,
        ) -> u32;
        fn kb_task_goal(
            image: *const u16,
            image_length: usize,
            state: *const u8,
            state_length: usize,
            first: *mut u64,
            second: *mut u64,
        ) -> u32;
        fn kb_task_run(
            image: *const u16,
            image_length: usize,
            state: *mut u8,
            state_length: usize,
            list: *const u16,
            list_length: usize,
            first: *mut u64,
            second: *mut u64,
        ) -> u32;
    }

    pub fn read(image: &[u16]) -> Reply {
        // Safety: every pointer comes with the length of its slice.
        reply(|first, second| unsafe { kb_read(image.as_ptr(), image.len(), first, second) })
    }

    pub fn task_initial(image: &[u16], state: &mut [u8]) -> Reply {
        // Safety: every pointer comes with the length of its slice.
        reply(|first, second| unsafe {
            kb_task_initial(
                image.as_ptr(),
                image.len(),
                state.as_mut_ptr(),
                state.len(),
                first,
                second,
            )
        })
    }

    pub fn task_step(image: &[u16], state: &mut [u8], operator: u16) -> Reply {
        // Safety: every pointer comes with the length of its slice.
        reply(|first, second| unsafe {
            kb_task_step(
                image.as_ptr(),
                image.len(),
                state.as_mut_ptr(),
                state.len(),
                operator,
                first,
                second,
            )
        })
    }

    pub fn task_goal(image: &[u16], state: &[u8]) -> Reply {
        // Safety: every pointer comes with the length of its slice.
        reply(|first, second| unsafe {
            kb_task_goal(
                image.as_ptr(),
                image.len(),
                state.as_ptr(),
                state.len(),
                first,
                second,
            )
        })
    }

    pub fn task_run(image: &[u16], state: &mut [u8], list: &[u16]) -> Reply {
        // Safety: every pointer comes with the length of its slice.
        reply(|first, second| unsafe {
            kb_task_run(
                image.as_ptr(),
                image.len(),
                state.as_mut_ptr(),
                state.len(),
                list.as_ptr(),
                list.len(),
                first,
                second,
            )
        })
    }
}

/// One clause under one operator, and the checker.
mod checker {
    use super::{reply, Reply};

    extern "C" {
        fn kb_kept(
            image: *const u16,
            image_length: usize,
            clauses: *const u16,
            clauses_length: usize,
            clause: *const u16,
            clause_length: usize,
            operator: u16,
            marks: *mut u8,
            marks_length: usize,
            first: *mut u64,
            second: *mut u64,
        ) -> u32;
        fn kb_check(
            image: *const u16,
            image_length: usize,
            clauses: *const u16,
            clauses_length: usize,
            marks: *mut u8,
            marks_length: usize,
            first: *mut u64,
            second: *mut u64,
        ) -> u32;
    }

    pub fn kept(
        image: &[u16],
        clauses: &[u16],
        clause: &[u16],
        operator: u16,
        marks: &mut [u8],
    ) -> Reply {
        // Safety: every pointer comes with the length of its slice.
        reply(|first, second| unsafe {
            kb_kept(
                image.as_ptr(),
                image.len(),
                clauses.as_ptr(),
                clauses.len(),
                clause.as_ptr(),
                clause.len(),
                operator,
                marks.as_mut_ptr(),
                marks.len(),
                first,
                second,
            )
        })
    }

    pub fn check(image: &[u16], clauses: &[u16], marks: &mut [u8]) -> Reply {
        // Safety: every pointer comes with the length of its slice.
        reply(|first, second| unsafe {
            kb_check(
                image.as_ptr(),
                image.len(),
                clauses.as_ptr(),
                clauses.len(),
                marks.as_mut_ptr(),
                marks.len(),
                first,
                second,
            )
        })
    }
}

/// Synthesis.
mod synthesis {
    use super::{reply, Reply};

    extern "C" {
        fn kb_synthesize(
            image: *const u16,
            image_length: usize,
            n: u16,
            limit: u16,
            clauses: *mut u16,
            clauses_length: usize,
            work: *mut u16,
            work_length: usize,
            marks: *mut u8,
            marks_length: usize,
            first: *mut u64,
            second: *mut u64,
        ) -> u32;
    }

    pub fn synthesize(
        image: &[u16],
        n: u16,
        limit: u16,
        clauses: &mut [u16],
        work: &mut [u16],
        marks: &mut [u8],
    ) -> Reply {
        // Safety: every pointer comes with the length of its slice.
        reply(|first, second| unsafe {
            kb_synthesize(
                image.as_ptr(),
                image.len(),
                n,
                limit,
                clauses.as_mut_ptr(),
                clauses.len(),
                work.as_mut_ptr(),
                work.len(),
                marks.as_mut_ptr(),
                marks.len(),
                first,
                second,
            )
        })
    }
}

/// Groups, re-encoding and the finite-domain calls.
mod fdr {
    use super::{reply, Reply};

    extern "C" {
        fn kb_groups(
            image: *const u16,
            image_length: usize,
            clauses: *const u16,
            clauses_length: usize,
            marks: *mut u8,
            marks_length: usize,
            target: *mut u16,
            target_length: usize,
            first: *mut u64,
            second: *mut u64,
        ) -> u32;
        fn kb_reencode(
            image: *const u16,
            image_length: usize,
            clauses: *const u16,
            clauses_length: usize,
            marks: *mut u8,
            marks_length: usize,
            target: *mut u16,
            target_length: usize,
            first: *mut u64,
            second: *mut u64,
        ) -> u32;
        fn kb_fdr_initial(
            image: *const u16,
            image_length: usize,
            state: *mut u16,
            state_length: usize,
            first: *mut u64,
            second: *mut u64,
        ) -> u32;
        fn kb_fdr_step(
            image: *const u16,
            image_length: usize,
            state: *mut u16,
            state_length: usize,
            operator: u16,
            first: *mut u64,
            second: *mut u64,
        ) -> u32;
        fn kb_fdr_goal(
            image: *const u16,
            image_length: usize,
            state: *const u16,
            state_length: usize,
            first: *mut u64,
            second: *mut u64,
        ) -> u32;
        fn kb_fdr_run(
            image: *const u16,
            image_length: usize,
            state: *mut u16,
            state_length: usize,
            list: *const u16,
            list_length: usize,
            first: *mut u64,
            second: *mut u64,
        ) -> u32;
    }

    pub fn groups(image: &[u16], clauses: &[u16], marks: &mut [u8], target: &mut [u16]) -> Reply {
        // Safety: every pointer comes with the length of its slice.
        reply(|first, second| unsafe {
            kb_groups(
                image.as_ptr(),
                image.len(),
                clauses.as_ptr(),
                clauses.len(),
                marks.as_mut_ptr(),
                marks.len(),
                target.as_mut_ptr(),
                target.len(),
                first,
                second,
            )
        })
    }

    pub fn reencode(image: &[u16], clauses: &[u16], marks: &mut [u8], target: &mut [u16]) -> Reply {
        // Safety: every pointer comes with the length of its slice.
        reply(|first, second| unsafe {
            kb_reencode(
                image.as_ptr(),
                image.len(),
                clauses.as_ptr(),
                clauses.len(),
                marks.as_mut_ptr(),
                marks.len(),
                target.as_mut_ptr(),
                target.len(),
                first,
                second,
            )
        })
    }

    pub fn fdr_initial(image: &[u16], state: &mut [u16]) -> Reply {
        // Safety: every pointer comes with the length of its slice.
        reply(|first, second| unsafe {
            kb_fdr_initial(
                image.as_ptr(),
                image.len(),
                state.as_mut_ptr(),
                state.len(),
                first,
                second,
            )
        })
    }

    pub fn fdr_step(image: &[u16], state: &mut [u16], operator: u16) -> Reply {
        // Safety: every pointer comes with the length of its slice.
        reply(|first, second| unsafe {
            kb_fdr_step(
                image.as_ptr(),
                image.len(),
                state.as_mut_ptr(),
                state.len(),
                operator,
                first,
                second,
            )
        })
    }

    pub fn fdr_goal(image: &[u16], state: &[u16]) -> Reply {
        // Safety: every pointer comes with the length of its slice.
        reply(|first, second| unsafe {
            kb_fdr_goal(
                image.as_ptr(),
                image.len(),
                state.as_ptr(),
                state.len(),
                first,
                second,
            )
        })
    }

    pub fn fdr_run(image: &[u16], state: &mut [u16], list: &[u16]) -> Reply {
        // Safety: every pointer comes with the length of its slice.
        reply(|first, second| unsafe {
            kb_fdr_run(
                image.as_ptr(),
                image.len(),
                state.as_mut_ptr(),
                state.len(),
                list.as_ptr(),
                list.len(),
                first,
                second,
            )
        })
    }
}

/// Coding of states.
mod coding {
    use super::{reply, Reply};

    extern "C" {
        fn kb_encode(
            image: *const u16,
            image_length: usize,
            state: *const u8,
            state_length: usize,
            target: *mut u16,
            target_length: usize,
            first: *mut u64,
            second: *mut u64,
        ) -> u32;
        fn kb_decode(
            image: *const u16,
            image_length: usize,
            state: *const u16,
            state_length: usize,
            target: *mut u8,
            target_length: usize,
            first: *mut u64,
            second: *mut u64,
        ) -> u32;
    }

    pub fn encode(image: &[u16], state: &[u8], target: &mut [u16]) -> Reply {
        // Safety: every pointer comes with the length of its slice.
        reply(|first, second| unsafe {
            kb_encode(
                image.as_ptr(),
                image.len(),
                state.as_ptr(),
                state.len(),
                target.as_mut_ptr(),
                target.len(),
                first,
                second,
            )
        })
    }

    pub fn decode(image: &[u16], state: &[u16], target: &mut [u8]) -> Reply {
        // Safety: every pointer comes with the length of its slice.
        reply(|first, second| unsafe {
            kb_decode(
                image.as_ptr(),
                image.len(),
                state.as_ptr(),
                state.len(),
                target.as_mut_ptr(),
                target.len(),
                first,
                second,
            )
        })
    }
}

/// Demand 3 along a list.
mod agreement {
    use super::{reply, Reply};

    extern "C" {
        fn kb_agree(
            image: *const u16,
            image_length: usize,
            clauses: *const u16,
            clauses_length: usize,
            list: *const u16,
            list_length: usize,
            marks: *mut u8,
            marks_length: usize,
            first: *mut u64,
            second: *mut u64,
        ) -> u32;
    }

    pub fn agree(image: &[u16], clauses: &[u16], list: &[u16], marks: &mut [u8]) -> Reply {
        // Safety: every pointer comes with the length of its slice.
        reply(|first, second| unsafe {
            kb_agree(
                image.as_ptr(),
                image.len(),
                clauses.as_ptr(),
                clauses.len(),
                list.as_ptr(),
                list.len(),
                marks.as_mut_ptr(),
                marks.len(),
                first,
                second,
            )
        })
    }
}

/// Clauses to and from DIMACS CNF.
mod dimacs {
    use super::{reply, Reply};

    extern "C" {
        fn kb_write_dimacs(
            image: *const u16,
            image_length: usize,
            clauses: *const u16,
            clauses_length: usize,
            text: *mut u8,
            text_length: usize,
            first: *mut u64,
            second: *mut u64,
        ) -> u32;
        fn kb_read_dimacs(
            image: *const u16,
            image_length: usize,
            text: *const u8,
            text_length: usize,
            clauses: *mut u16,
            clauses_length: usize,
            first: *mut u64,
            second: *mut u64,
        ) -> u32;
    }

    pub fn write_dimacs(image: &[u16], clauses: &[u16], text: &mut [u8]) -> Reply {
        // Safety: every pointer comes with the length of its slice.
        reply(|first, second| unsafe {
            kb_write_dimacs(
                image.as_ptr(),
                image.len(),
                clauses.as_ptr(),
                clauses.len(),
                text.as_mut_ptr(),
                text.len(),
                first,
                second,
            )
        })
    }

    pub fn read_dimacs(image: &[u16], text: &[u8], clauses: &mut [u16]) -> Reply {
        // Safety: every pointer comes with the length of its slice.
        reply(|first, second| unsafe {
            kb_read_dimacs(
                image.as_ptr(),
                image.len(),
                text.as_ptr(),
                text.len(),
                clauses.as_mut_ptr(),
                clauses.len(),
                first,
                second,
            )
        })
    }
}

/// Two tasks joined.
mod join {
    use super::{reply, Reply};

    extern "C" {
        fn kb_join(
            left: *const u16,
            left_length: usize,
            right: *const u16,
            right_length: usize,
            target: *mut u16,
            target_length: usize,
            first: *mut u64,
            second: *mut u64,
        ) -> u32;
    }

    pub fn join(left: &[u16], right: &[u16], target: &mut [u16]) -> Reply {
        // Safety: every pointer comes with the length of its slice.
        reply(|first, second| unsafe {
            kb_join(
                left.as_ptr(),
                left.len(),
                right.as_ptr(),
                right.len(),
                target.as_mut_ptr(),
                target.len(),
                first,
                second,
            )
        })
    }
}

/// What a set says about one operator.
mod closure {
    use super::{reply, Reply};

    extern "C" {
        fn kb_closure(
            image: *const u16,
            image_length: usize,
            clauses: *const u16,
            clauses_length: usize,
            operator: u16,
            marks: *mut u8,
            marks_length: usize,
            first: *mut u64,
            second: *mut u64,
        ) -> u32;
    }

    pub fn closure(image: &[u16], clauses: &[u16], operator: u16, marks: &mut [u8]) -> Reply {
        // Safety: every pointer comes with the length of its slice.
        reply(|first, second| unsafe {
            kb_closure(
                image.as_ptr(),
                image.len(),
                clauses.as_ptr(),
                clauses.len(),
                operator,
                marks.as_mut_ptr(),
                marks.len(),
                first,
                second,
            )
        })
    }
}

/// Asking first and committing later.
mod ticket {
    use super::{reply, Reply};

    extern "C" {
        fn kb_ask(
            image: *const u16,
            image_length: usize,
            state: *const u8,
            state_length: usize,
            count: u16,
            operator: u16,
            first: *mut u64,
            second: *mut u64,
        ) -> u32;
        fn kb_commit(
            image: *const u16,
            image_length: usize,
            state: *mut u8,
            state_length: usize,
            count: *mut u16,
            ticket_count: u16,
            ticket_operator: u16,
            first: *mut u64,
            second: *mut u64,
        ) -> u32;
    }

    /// The ticket is the two values of the finding: a count and an operator.
    pub fn ask(image: &[u16], state: &[u8], count: u16, operator: u16) -> Reply {
        // Safety: every pointer comes with the length of its slice.
        reply(|first, second| unsafe {
            kb_ask(
                image.as_ptr(),
                image.len(),
                state.as_ptr(),
                state.len(),
                count,
                operator,
                first,
                second,
            )
        })
    }

    pub fn commit(
        image: &[u16],
        state: &mut [u8],
        count: &mut u16,
        ticket_count: u16,
        ticket_operator: u16,
    ) -> Reply {
        // Safety: every pointer comes with the length of its slice; `count` is one word.
        reply(|first, second| unsafe {
            kb_commit(
                image.as_ptr(),
                image.len(),
                state.as_mut_ptr(),
                state.len(),
                count,
                ticket_count,
                ticket_operator,
                first,
                second,
            )
        })
    }
}

pub use agreement::*;
pub use checker::*;
pub use closure::*;
pub use coding::*;
pub use dimacs::*;
pub use fdr::*;
pub use join::*;
pub use synthesis::*;
pub use task::*;
pub use ticket::*;
