/*
 * Tests rules of include/kulabismuth.h on the ring of document 01: every call answers alike for a buffer of length 0 whether its
 * pointer is null or not, at each position and at all at once; and the mark bytes are those that question 13 asks for.
 * Prints the number of comparisons; the exit status is 0 if all are right.
 */
#include "kulabismuth.h"
#include <stdio.h>
#include <string.h>

enum { ATOMS = 3, RING = 35, ROWS = 9, FDR = 63, MOST_BUFFERS = 4 };

/* What the calls are given. */
static struct data {
    uint16_t ring[RING], clauses[ROWS], work[ROWS], clause[KB_ROW_WORDS], list[2], fdr_image[FDR], target[64], fdr_state[1];
    uint16_t count;
    uint8_t state[ATOMS], atoms[ATOMS], marks[KB_MARK_BYTES(ATOMS)], text[64], empty_text[10];
} start = {
    .ring = {3, 3, 12, 1, 13, 1, 14, 7, 21, 7, 28, 7, 0, 4, 1, 0, 2, 1, 0, 2, 0, 1, 2, 2, 3, 0, 4, 0, 1, 4, 2, 5, 0, 0, 0},
    .clauses = {1, 3, KB_FILL, 1, 5, KB_FILL, 3, 5, KB_FILL},
    .clause = {1, 3, KB_FILL},
    .list = {0, 1},
    .state = {1, 0, 0},
    .empty_text = {'p', ' ', 'c', 'n', 'f', ' ', '3', ' ', '0', '\n'},
}, data;

struct buffer {
    void *pointer;
    size_t length;
};

struct answer {
    uint32_t number;
    uint64_t first, second;
};

#define B(i) b[i].pointer, b[i].length
#define CALL(name, ...)                                             \
    static uint32_t run_##name(const struct buffer *b, struct answer *a) \
    {                                                               \
        return name(__VA_ARGS__, &a->first, &a->second);            \
    }

CALL(kb_read, B(0))
CALL(kb_task_initial, B(0), B(1))
CALL(kb_task_step, B(0), B(1), 0)
CALL(kb_task_goal, B(0), B(1))
CALL(kb_task_run, B(0), B(1), B(2))
CALL(kb_ask, B(0), B(1), 0, 0)
CALL(kb_commit, B(0), B(1), &data.count, 0, 0)
CALL(kb_closure, B(0), B(1), 0, B(2))
CALL(kb_kept, B(0), B(1), B(2), 0, B(3))
CALL(kb_check, B(0), B(1), B(2))
CALL(kb_synthesize, B(0), 2, 10, B(1), B(2), B(3))
CALL(kb_groups, B(0), B(1), B(2), B(3))
CALL(kb_reencode, B(0), B(1), B(2), B(3))
CALL(kb_fdr_initial, B(0), B(1))
CALL(kb_fdr_step, B(0), B(1), 0)
CALL(kb_fdr_goal, B(0), B(1))
CALL(kb_fdr_run, B(0), B(1), B(2))
CALL(kb_encode, B(0), B(1), B(2))
CALL(kb_decode, B(0), B(1), B(2))
CALL(kb_agree, B(0), B(1), B(2), B(3))
CALL(kb_write_dimacs, B(0), B(1), B(2))
CALL(kb_read_dimacs, B(0), B(1), B(2))
CALL(kb_join, B(0), B(1), B(2))

#define IS(field) {data.field, sizeof data.field / sizeof data.field[0]}

static const struct call {
    const char *name;
    uint32_t (*run)(const struct buffer *, struct answer *);
    struct buffer buffers[MOST_BUFFERS];
} calls[] = {
    {"kb_read", run_kb_read, {IS(ring)}},
    {"kb_task_initial", run_kb_task_initial, {IS(ring), IS(state)}},
    {"kb_task_step", run_kb_task_step, {IS(ring), IS(state)}},
    {"kb_task_goal", run_kb_task_goal, {IS(ring), IS(state)}},
    {"kb_task_run", run_kb_task_run, {IS(ring), IS(state), IS(list)}},
    {"kb_ask", run_kb_ask, {IS(ring), IS(state)}},
    {"kb_commit", run_kb_commit, {IS(ring), IS(state)}},
    {"kb_closure", run_kb_closure, {IS(ring), IS(clauses), IS(marks)}},
    {"kb_kept", run_kb_kept, {IS(ring), IS(clauses), IS(clause), IS(marks)}},
    {"kb_check", run_kb_check, {IS(ring), IS(clauses), IS(marks)}},
    {"kb_synthesize", run_kb_synthesize, {IS(ring), IS(clauses), IS(work), IS(marks)}},
    {"kb_groups", run_kb_groups, {IS(ring), IS(clauses), IS(marks), IS(target)}},
    {"kb_reencode", run_kb_reencode, {IS(ring), IS(clauses), IS(marks), IS(target)}},
    {"kb_fdr_initial", run_kb_fdr_initial, {IS(fdr_image), IS(fdr_state)}},
    {"kb_fdr_step", run_kb_fdr_step, {IS(fdr_image), IS(fdr_state)}},
    {"kb_fdr_goal", run_kb_fdr_goal, {IS(fdr_image), IS(fdr_state)}},
    {"kb_fdr_run", run_kb_fdr_run, {IS(fdr_image), IS(fdr_state), IS(list)}},
    {"kb_encode", run_kb_encode, {IS(fdr_image), IS(state), IS(fdr_state)}},
    {"kb_decode", run_kb_decode, {IS(fdr_image), IS(fdr_state), IS(atoms)}},
    {"kb_agree", run_kb_agree, {IS(ring), IS(clauses), IS(list), IS(marks)}},
    {"kb_write_dimacs", run_kb_write_dimacs, {IS(ring), IS(clauses), IS(text)}},
    {"kb_read_dimacs", run_kb_read_dimacs, {IS(ring), IS(empty_text), IS(clauses)}},
    {"kb_join", run_kb_join, {IS(ring), IS(ring), IS(target)}},
};

static int compared, faults;

static struct answer answer_of(const struct call *call, const struct buffer *buffers)
{
    struct answer answer = {0, 99, 99};
    data = start;
    answer.number = call->run(buffers, &answer);
    return answer;
}

static void expect(int right, const char *name, const char *what, int position)
{
    compared++;
    if (!right) {
        faults++;
        printf("%s: %s, buffer %d\n", name, what, position);
    }
}

/* Compares both pointers for the buffers from one position to another. */
static void compare_null(const struct call *call, int from, int to)
{
    struct buffer buffers[MOST_BUFFERS];
    memcpy(buffers, call->buffers, sizeof buffers);
    for (int i = from; i < to; i++)
        buffers[i].length = 0;
    struct answer empty = answer_of(call, buffers);
    for (int i = from; i < to; i++)
        buffers[i].pointer = NULL;
    struct answer null = answer_of(call, buffers);
    int same = null.number == empty.number && null.first == empty.first && null.second == empty.second;
    expect(same, call->name, "a null pointer is answered otherwise", from);
}

static void test_null(const struct call *call)
{
    int count = 0;
    while (count < MOST_BUFFERS && call->buffers[count].pointer != NULL)
        count++;
    expect(answer_of(call, call->buffers).number == KB_FINDING, call->name, "no finding", 0);
    for (int i = 0; i < count; i++)
        compare_null(call, i, i + 1);
    compare_null(call, 0, count);
}

/* The image of a task with so many atoms, no operator, an empty initial state and an empty goal. */
static void test_marks(uint16_t atoms)
{
    uint16_t image[6] = {atoms, 0, 6, 0, 6, 0};
    uint8_t marks[KB_MARK_BYTES(KB_MOST_ATOMS)];
    uint64_t first, second;
    size_t bytes = KB_MARK_BYTES(atoms);
    expect(kb_check(image, 6, NULL, 0, marks, bytes, &first, &second) == KB_FINDING, "KB_MARK_BYTES", "too few", atoms);
    expect(kb_check(image, 6, NULL, 0, marks, bytes - 1, &first, &second) == KB_BUFFERS, "KB_MARK_BYTES", "too many", atoms);
}

int main(void)
{
    struct answer a;
    size_t marks = sizeof start.marks;
    a.number = kb_reencode(start.ring, RING, start.clauses, ROWS, start.marks, marks, start.fdr_image, FDR, &a.first, &a.second);
    expect(a.number == KB_FINDING && a.first == FDR, "kb_reencode", "the image of the ring has another length", 0);
    for (size_t i = 0; i < sizeof calls / sizeof calls[0]; i++)
        test_null(&calls[i]);
    for (uint16_t atoms = 1; atoms <= KB_MOST_ATOMS; atoms++)
        test_marks(atoms);
    printf("%d compared, %d faults\n", compared, faults);
    return faults != 0;
}
