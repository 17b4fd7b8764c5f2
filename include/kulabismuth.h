/*
 * kulabismuth.h: the C interface of the proved library libkulabismuth.a (crates/kulabismuth), for C99 and C++ on x86-64
 * Linux. docs/LIBRARY.md says how to link it and has worked examples; tests/library checks this file against the library.
 *
 * ANSWERS. A call returns KB_FINDING (0), or the number of the first question that was answered "no": a refusal. *first and
 * *second are always written: the values of a finding, or the places of a refusal; 0 where none is named.
 *
 * BUFFERS. A buffer is passed as a pointer and its length in elements. Rules for the caller, which no call can test:
 *
 * - Length. Behind the pointer there are at least as many elements as the length says.
 * - Overlap. What a call writes (buffers whose pointer is not const, *count, *first, *second) overlaps nothing else that is
 *   passed to it: the contracts speak of separate lists, where a write to one leaves the others as they are. Buffers that are
 *   only read may overlap or be the same.
 * - Null. The pointer of a buffer may be null if its length is 0; it is then not used. count, first and second are never null.
 * - Alignment. A pointer is aligned for its type: 2 bytes for uint16_t, 8 bytes for uint64_t.
 * - Contents. *first, *second, marks, work and targets need not be set before a call; *count must be.
 *
 * A call changes only what the comment at its prototype says. Unless that says otherwise, a refusal leaves every buffer and
 * *count as they were, except marks and work, which may hold anything after a finding or a refusal.
 *
 * CALLS keep nothing between them, allocate nothing and do no input or output: the library has no writable data and needs
 * only memcpy and memset. They may run at the same time in several threads, if none writes what another one is using.
 *
 * STACK. 'stack: N bytes' at a prototype is an upper bound of what the call needs, below the caller's stack pointer at its call
 * instruction. It is computed from the machine code, with 4096 bytes for memcpy or memset and rounded up to a multiple of 1024
 * (tests/stack). It holds for the library that the kit rattle-kit-13f makes. A signal handler on the same stack needs its
 * own room. Where the stack is too short, a signal ends the process at the guard page below the stack, if there is one: frames
 * of more than a page are probed page by page.
 *
 * WORDS are 16 bits. Atoms, operators, clauses, variables and values are numbered from 0. N atoms, M operators, V variables.
 *
 * - Literal: 2a for "atom a is true", 2a+1 for "atom a is false".
 * - Clauses: rows of KB_ROW_WORDS words, 1 to 3 literals in ascending order, no atom twice, filled with KB_FILL; rows ascend.
 * - Marks: a bit for each literal, literal l is bit l % 8 (lowest first) of byte l / 8; at least KB_MARK_BYTES(N) bytes.
 * - Task image, re-encoded image: document 01, "Task image", "Groups and re-encoding".
 * - State of a task: N bytes, each 0 or 1. Finite-domain state: V words, a value for each variable.
 */
#ifndef KULABISMUTH_H
#define KULABISMUTH_H

#include <stddef.h>
#include <stdint.h>

#ifdef __cplusplus
extern "C" {
#endif

/* The questions, in the words of documents 01 and 02. In brackets the places that a refusal names: first, second. */
enum {
    KB_FINDING = 0,          /* not a question: the call has a finding */
    KB_IMAGE_SIZE = 1,       /* the image has 6 to KB_MOST_IMAGE_WORDS words */
    KB_COUNTS = 2,           /* 1 to KB_MOST_ATOMS atoms, at most KB_MOST_OPERATORS operators */
    KB_DIRECTORY = 3,        /* the directory is right */
    KB_INITIAL = 4,          /* the initial list is right */
    KB_GOAL = 5,             /* the goal is right */
    KB_BLOCK_COUNTS = 6,     /* an operator's counts end exactly at its block's end (operator) */
    KB_BLOCK_LITERALS = 7,   /* its literals and lists are right (operator) */
    KB_CLAUSE_WORDS = 8,     /* the clause words are a multiple of KB_ROW_WORDS, at most KB_MOST_ROWS rows */
    KB_CLAUSE_ROW = 9,       /* a row is right, and above the one before it (row) */
    KB_CLAUSE_FALSE = 10,    /* all clauses are true initially (the lowest that is false) */
    KB_CLAUSE_NOT_KEPT = 11, /* all clauses are kept (the lowest that is not, and under it the lowest operator) */
    KB_LIMITS = 12,          /* n is 1 to 3, the round limit 1 to 65535 */
    KB_BUFFERS = 13,         /* marks have KB_MARK_BYTES(N) bytes or more; in synthesis, work is as long as clauses or longer */
    KB_OUT_OF_ROWS = 14,     /* each clause set of the synthesis fits the rows of the buffer */
    KB_OUT_OF_ROUNDS = 15,   /* the finding is made by the round limit */
    KB_TARGET = 16,          /* groups or re-encoded image fit the target */
    KB_FDR_IMAGE = 17,       /* the re-encoded image is right */
    KB_STATE = 18,           /* the state has the exact length and values in range, the target the exact length */
    KB_OPERATOR_NUMBER = 19, /* the operator number is below M (in a list run: the steps taken) */
    KB_PRECONDITION = 20,    /* the precondition is true (in a list run: the steps taken) */
    KB_CONFLICT = 21,        /* no variable is set to two values (in a list run: the steps taken) */
    KB_OMITTED_NONE = 22,    /* no variable is sent to an omitted none (in a list run: the steps taken) */
    KB_NOT_CODABLE = 23,     /* no group has two true atoms, or no true atom and none omitted */
    KB_TEXT_FORM = 24,       /* the text has the form of DIMACS CNF, N and the number of clauses are right, variables at most N */
    KB_TEXT_CLAUSE = 25,     /* each clause has 1 to 3 literals and no atom twice */
    KB_TEXT_ROOM = 26,       /* the rows are at most KB_MOST_ROWS and fit, or the text written fits */
    KB_JOIN_ROOM = 27,       /* the joined task is within the limits of 1 and 2 and fits the target */
    KB_TICKET = 28           /* the ticket's count is the state's, and not KB_LAST_COUNT */
};

#define KB_MOST_ATOMS 1024
#define KB_MOST_OPERATORS 1024
#define KB_MOST_IMAGE_WORDS 8192      /* words of a task image */
#define KB_MOST_FDR_IMAGE_WORDS 32768 /* words of a re-encoded image */
#define KB_ROW_WORDS 3                /* words of a clause row, and the most literals of a clause */
#define KB_MOST_ROWS 10000            /* rows of a clause set */
#define KB_FILL 65535                 /* the words of a row behind its literals */
#define KB_LAST_COUNT 65535           /* the commit count at which nothing more is committed */
#define KB_MARK_BYTES(atoms) (((size_t)(atoms) + 3) / 4)

/* ---- Tasks ---- */

/*
 * Reads a task image. Asks 1 to 7.
 * stack: 1024 bytes
 */
uint32_t kb_read(const uint16_t *image, size_t image_length, uint64_t *first, uint64_t *second);

/*
 * Sets a state to the initial one. Asks 1 to 7, then the length of 18.
 * state: exactly N bytes, holding anything; then the initial state.
 * stack: 5120 bytes
 */
uint32_t kb_task_initial(const uint16_t *image, size_t image_length, uint8_t *state, size_t state_length,
                         uint64_t *first, uint64_t *second);

/*
 * Makes a step in a state. Asks 1 to 7, 18, 19, 20.
 * state: exactly N bytes, each 0 or 1; then the state after the step.
 * stack: 7168 bytes
 */
uint32_t kb_task_step(const uint16_t *image, size_t image_length, uint8_t *state, size_t state_length,
                      uint16_t operator_number, uint64_t *first, uint64_t *second);

/*
 * Tests whether the goal is met in a state. Asks 1 to 7, 18.
 * state: exactly N bytes, each 0 or 1.
 * first: 1 if the goal is met, 0 if it is not.
 * stack: 1024 bytes
 */
uint32_t kb_task_goal(const uint16_t *image, size_t image_length, const uint8_t *state, size_t state_length,
                      uint64_t *first, uint64_t *second);

/*
 * Runs a list of operator numbers in a state. Asks 1 to 7 and 18 once, also for an empty list, then 19 and 20 at each number.
 * state: exactly N bytes, each 0 or 1; then the state after the steps. A refusal by 19 or 20 keeps the steps taken before it.
 * list: any length.
 * first: the number of steps, which is the length of the list; at a refusal by 19 or 20 the number of steps taken.
 * stack: 7168 bytes
 */
uint32_t kb_task_run(const uint16_t *image, size_t image_length, uint8_t *state, size_t state_length,
                     const uint16_t *list, size_t list_length, uint64_t *first, uint64_t *second);

/* ---- Asking first, committing later: a state of a task with a commit count, 0 with the initial state ---- */

/*
 * Asks for a step without making it, and gives a ticket: the two numbers that kb_commit takes. Asks 1 to 7, 18, 19, 20.
 * state: exactly N bytes, each 0 or 1.
 * count: any, also KB_LAST_COUNT, at which no commit is made.
 * first: the ticket's count, which is count. second: the ticket's operator, which is operator_number.
 * stack: 1024 bytes
 */
uint32_t kb_ask(const uint16_t *image, size_t image_length, const uint8_t *state, size_t state_length, uint16_t count,
                uint16_t operator_number, uint64_t *first, uint64_t *second);

/*
 * Commits a ticket: makes the step of its operator in the state and adds one to the count. Asks 1 to 7, 18, 28, 19, 20. With
 * only asks since the one that gave the ticket, under the same image and with state and count written by nothing else, it is
 * refused only at KB_LAST_COUNT.
 * state: exactly N bytes, each 0 or 1; then the state after the step.
 * count: the state's count; then one more.
 * ticket_count, ticket_operator: any numbers, whether an ask gave them or not.
 * stack: 7168 bytes
 */
uint32_t kb_commit(const uint16_t *image, size_t image_length, uint8_t *state, size_t state_length, uint16_t *count,
                   uint16_t ticket_count, uint16_t ticket_operator, uint64_t *first, uint64_t *second);

/* ---- Clause sets ---- */

/*
 * Makes the closure of the clauses and an operator's precondition: all literals that propagation derives from them, also where
 * it holds a literal and its complement. Asks 1 to 9, 19, 13.
 * marks: KB_MARK_BYTES(N) bytes or more; then of the 2N bits exactly those of the closure's literals are set, and bits and bytes
 * beyond are as they were. A refusal leaves the marks as they were.
 * first: the number of literals of the closure.
 * stack: 5120 bytes
 */
uint32_t kb_closure(const uint16_t *image, size_t image_length, const uint16_t *clauses, size_t clauses_length,
                    uint16_t operator_number, uint8_t *marks, size_t marks_length, uint64_t *first, uint64_t *second);

/*
 * Tests whether the clauses keep a clause under an operator. Asks 1 to 9, then 8 (exactly one row) and 9 of the clause alone,
 * 19, 13.
 * clause: exactly KB_ROW_WORDS words.
 * marks: KB_MARK_BYTES(N) bytes or more; then anything.
 * first: 1 if the clause is kept, 0 if it is not.
 * stack: 9216 bytes
 */
uint32_t kb_kept(const uint16_t *image, size_t image_length, const uint16_t *clauses, size_t clauses_length,
                 const uint16_t *clause, size_t clause_length, uint16_t operator_number, uint8_t *marks,
                 size_t marks_length, uint64_t *first, uint64_t *second);

/*
 * The checker: a finding says that every clause holds initially and is kept by the set under every operator, so that all hold
 * in every reachable state. Asks 1 to 9, 13, 10, 11.
 * marks: KB_MARK_BYTES(N) bytes or more; then anything.
 * first, second: 0; at refusal 10 the lowest false clause and 0; at refusal 11 the lowest clause that is not kept, and the
 * lowest operator under which it is not.
 * stack: 19456 bytes
 */
uint32_t kb_check(const uint16_t *image, size_t image_length, const uint16_t *clauses, size_t clauses_length,
                  uint8_t *marks, size_t marks_length, uint64_t *first, uint64_t *second);

/*
 * Synthesis: finds clauses of at most n literals that the checker accepts, in at most limit rounds. Asks 1 to 7, 12, 13; then
 * 14 of the first set, and after each round in which a clause fails 15, then 14 of the next set.
 * clauses: its rows are a third of its words, rounded down, at most KB_MOST_ROWS; then the rows found, and zeros behind them.
 * A refusal by 14 or 15 leaves zeros, any other refusal leaves it as it was.
 * work: as long as clauses or longer; then anything.
 * marks: KB_MARK_BYTES(N) bytes or more; then anything.
 * first: the number of rows. second: the number of rounds made.
 * stack: 36864 bytes
 */
uint32_t kb_synthesize(const uint16_t *image, size_t image_length, uint16_t n, uint16_t limit, uint16_t *clauses,
                       size_t clauses_length, uint16_t *work, size_t work_length, uint8_t *marks, size_t marks_length,
                       uint64_t *first, uint64_t *second);

/*
 * Mutex groups of an accepted set, and the variables that they make. Asks the questions of kb_check, then 16.
 * marks: KB_MARK_BYTES(N) bytes or more; then anything.
 * target: 2V + 2N words or more, at most 4 * KB_MOST_ATOMS are needed; then for each variable the number of its values and 1 if
 * none is among them, else 0; behind these for each atom its variable and its value. Words behind these stay as they were.
 * first: V.
 * stack: 27648 bytes
 */
uint32_t kb_groups(const uint16_t *image, size_t image_length, const uint16_t *clauses, size_t clauses_length,
                   uint8_t *marks, size_t marks_length, uint16_t *target, size_t target_length,
                   uint64_t *first, uint64_t *second);

/*
 * Writes the re-encoded image of a task and an accepted set. Asks the questions of kb_check, then 16.
 * marks: KB_MARK_BYTES(N) bytes or more; then anything.
 * target: as long as the image or longer, KB_MOST_FDR_IMAGE_WORDS always suffice; then the image, words behind it stay.
 * first: the number of words written.
 * stack: 19456 bytes
 */
uint32_t kb_reencode(const uint16_t *image, size_t image_length, const uint16_t *clauses, size_t clauses_length,
                     uint8_t *marks, size_t marks_length, uint16_t *target, size_t target_length,
                     uint64_t *first, uint64_t *second);

/* ---- Re-encoded tasks: image is a re-encoded image ---- */

/*
 * Sets a finite-domain state to the initial one. Asks 17, then the length of 18.
 * state: exactly V words, holding anything; then the initial values.
 * stack: 8192 bytes
 */
uint32_t kb_fdr_initial(const uint16_t *image, size_t image_length, uint16_t *state, size_t state_length,
                        uint64_t *first, uint64_t *second);

/*
 * Makes a step in a finite-domain state. Asks 17 to 22.
 * state: exactly V words, each below the number of values of its variable; then the state after the step.
 * stack: 16384 bytes
 */
uint32_t kb_fdr_step(const uint16_t *image, size_t image_length, uint16_t *state, size_t state_length,
                     uint16_t operator_number, uint64_t *first, uint64_t *second);

/*
 * Tests whether the goal is met in a finite-domain state. Asks 17, 18.
 * state: exactly V words, each below the number of values of its variable.
 * first: 1 if the goal is met, 0 if it is not.
 * stack: 8192 bytes
 */
uint32_t kb_fdr_goal(const uint16_t *image, size_t image_length, const uint16_t *state, size_t state_length,
                     uint64_t *first, uint64_t *second);

/*
 * Runs a list of operator numbers in a finite-domain state. Asks 17 and 18 once, also for an empty list, then 19 to 22 at each
 * number.
 * state: exactly V words, each below the number of values of its variable; then the state after the steps. A refusal by 19 to
 * 22 keeps the steps taken before it.
 * list: any length.
 * first: the number of steps, which is the length of the list; at a refusal by 19 to 22 the number of steps taken.
 * stack: 16384 bytes
 */
uint32_t kb_fdr_run(const uint16_t *image, size_t image_length, uint16_t *state, size_t state_length,
                    const uint16_t *list, size_t list_length, uint64_t *first, uint64_t *second);

/*
 * Codes a task's state as a finite-domain state. Asks 17, 18, 23.
 * state: exactly N bytes, each 0 or 1.
 * target: exactly V words; then the finite-domain state.
 * stack: 16384 bytes
 */
uint32_t kb_encode(const uint16_t *image, size_t image_length, const uint8_t *state, size_t state_length,
                   uint16_t *target, size_t target_length, uint64_t *first, uint64_t *second);

/*
 * Codes a finite-domain state back as a task's state. Asks 17, 18.
 * state: exactly V words, each below the number of values of its variable.
 * target: exactly N bytes; then the task's state.
 * stack: 8192 bytes
 */
uint32_t kb_decode(const uint16_t *image, size_t image_length, const uint16_t *state, size_t state_length,
                   uint8_t *target, size_t target_length, uint64_t *first, uint64_t *second);

/*
 * Compares a task with its re-encoding along a list of operator numbers: answers, states, clauses and goal tests after each
 * step, and the list runs. Asks the questions of kb_check. image is a task image.
 * list: any length, any numbers.
 * marks: KB_MARK_BYTES(N) bytes or more; then anything.
 * first: 1 if they agree, as they do for every accepted set and every list (proved), else 0.
 * stack: 100352 bytes
 */
uint32_t kb_agree(const uint16_t *image, size_t image_length, const uint16_t *clauses, size_t clauses_length,
                  const uint16_t *list, size_t list_length, uint8_t *marks, size_t marks_length,
                  uint64_t *first, uint64_t *second);

/* ---- DIMACS CNF texts: atom a is variable a+1 ---- */

/*
 * Writes clauses as a DIMACS CNF text. Asks 1 to 9, 26.
 * text: as long as the text or longer; then the text, without a byte 0 at its end; bytes behind it stay as they were.
 * first: the number of bytes written.
 * stack: 5120 bytes
 */
uint32_t kb_write_dimacs(const uint16_t *image, size_t image_length, const uint16_t *clauses, size_t clauses_length,
                         uint8_t *text, size_t text_length, uint64_t *first, uint64_t *second);

/*
 * Reads a DIMACS CNF text into clause rows, sorted, equal ones once. Asks 1 to 7, then 24, 25 and 26, each of the whole text.
 * text: its bytes alone, without a byte 0 at its end.
 * clauses: KB_ROW_WORDS words for each row, or more; then the rows, words behind them stay as they were.
 * first: the number of rows.
 * stack: 154624 bytes
 */
uint32_t kb_read_dimacs(const uint16_t *image, size_t image_length, const uint8_t *text, size_t text_length,
                        uint16_t *clauses, size_t clauses_length, uint64_t *first, uint64_t *second);

/* ---- Two tasks ---- */

/*
 * Joins two tasks: the atoms and operators of right follow those of left. Asks 1 to 7 of left, 1 to 7 of right, 27.
 * left, right: task images, which may be the same.
 * target: left_length + right_length - 6 words or more; then the joined image, words behind it stay as they were.
 * first: the number of words written.
 * stack: 7168 bytes
 */
uint32_t kb_join(const uint16_t *left, size_t left_length, const uint16_t *right, size_t right_length,
                 uint16_t *target, size_t target_length, uint64_t *first, uint64_t *second);

#ifdef __cplusplus
}
#endif

#endif
