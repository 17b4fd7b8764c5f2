/*
 * Measures how much stack each call uses on large inputs: runs it on a painted stack, in a process of its own, so that its first
 * call of memcpy or memset goes through the dynamic linker (link with -z lazy). Prints a line 'NAME BYTES' for each call.
 * The bytes are counted from the frame of the thread's first function; they can be somewhat more than the call's own.
 */
#define _GNU_SOURCE
#include "kulabismuth.h"
#include <inttypes.h>
#include <pthread.h>
#include <stdio.h>
#include <stdlib.h>
#include <sys/mman.h>
#include <sys/wait.h>
#include <unistd.h>

enum { PLACES = 100, PAIRS = PLACES * (PLACES - 1) / 2, COPIES = 3, STACK = 1 << 20, PAINT = 0xa5, LINE = 16 };

/* What the calls are given. In shared memory: a child process makes it. */
static struct data {
    uint16_t image[KB_MOST_IMAGE_WORDS], joined[KB_MOST_IMAGE_WORDS];
    uint16_t clauses[KB_ROW_WORDS * KB_MOST_ROWS], work[KB_ROW_WORDS * KB_MOST_ROWS], rows[KB_ROW_WORDS * KB_MOST_ROWS];
    uint16_t fdr_image[KB_MOST_FDR_IMAGE_WORDS], target[KB_MOST_FDR_IMAGE_WORDS];
    uint16_t fdr_state[KB_MOST_ATOMS], list[2 * PLACES], count;
    uint8_t state[PLACES], atoms[PLACES], marks[KB_MARK_BYTES(PLACES)];
    uint8_t text[COPIES * PAIRS * LINE + LINE], written[PAIRS * LINE];
    size_t image_words, clause_words, fdr_words, variables, text_bytes;
} * data;

static uint64_t first, second;

/* Ends the program unless the answer is a finding. */
static void found(const char *name, uint32_t number)
{
    if (number != KB_FINDING) {
        fprintf(stderr, "%s: refused %" PRIu32 " %" PRIu64 " %" PRIu64 "\n", name, number, first, second);
        exit(1);
    }
}

#define IMAGE data->image, data->image_words
#define CLAUSES data->clauses, data->clause_words
#define MARKS data->marks, sizeof data->marks
#define FDR data->fdr_image, data->fdr_words
#define STATE data->state, PLACES
#define FDR_STATE data->fdr_state, data->variables
#define LIST data->list, 2 * PLACES
#define TARGET data->target, KB_MOST_FDR_IMAGE_WORDS
#define ANSWER &first, &second

/* A function that makes one call. */
#define CALL(name, ...)                         \
    static void run_##name(void)                \
    {                                           \
        found(#name, name(__VA_ARGS__, ANSWER)); \
    }

CALL(kb_read, IMAGE)
CALL(kb_task_initial, IMAGE, STATE)
CALL(kb_task_step, IMAGE, STATE, 0)
CALL(kb_task_goal, IMAGE, STATE)
CALL(kb_task_run, IMAGE, STATE, LIST)
CALL(kb_ask, IMAGE, STATE, 0, 0)
CALL(kb_commit, IMAGE, STATE, &data->count, 0, 1)
CALL(kb_closure, IMAGE, CLAUSES, 0, MARKS)
CALL(kb_kept, IMAGE, CLAUSES, data->clauses, KB_ROW_WORDS, 0, MARKS)
CALL(kb_check, IMAGE, CLAUSES, MARKS)
CALL(kb_synthesize, IMAGE, 2, 65535, data->rows, KB_ROW_WORDS *KB_MOST_ROWS, data->work, KB_ROW_WORDS *KB_MOST_ROWS, MARKS)
CALL(kb_groups, IMAGE, CLAUSES, MARKS, TARGET)
CALL(kb_reencode, IMAGE, CLAUSES, MARKS, TARGET)
CALL(kb_fdr_initial, FDR, FDR_STATE)
CALL(kb_fdr_step, FDR, FDR_STATE, 0)
CALL(kb_fdr_goal, FDR, FDR_STATE)
CALL(kb_fdr_run, FDR, FDR_STATE, LIST)
CALL(kb_encode, FDR, STATE, FDR_STATE)
CALL(kb_decode, FDR, FDR_STATE, data->atoms, PLACES)
CALL(kb_agree, IMAGE, CLAUSES, LIST, MARKS)
CALL(kb_write_dimacs, IMAGE, CLAUSES, data->written, sizeof data->written)
CALL(kb_read_dimacs, IMAGE, data->text, data->text_bytes, data->rows, KB_ROW_WORDS *KB_MOST_ROWS)
CALL(kb_join, IMAGE, IMAGE, data->joined, KB_MOST_IMAGE_WORDS)

static const struct call {
    const char *name;
    void (*run)(void);
} calls[] = {
    {"kb_read", run_kb_read},
    {"kb_task_initial", run_kb_task_initial},
    {"kb_task_goal", run_kb_task_goal},
    {"kb_task_run", run_kb_task_run},
    {"kb_ask", run_kb_ask},
    {"kb_closure", run_kb_closure},
    {"kb_kept", run_kb_kept},
    {"kb_check", run_kb_check},
    {"kb_synthesize", run_kb_synthesize},
    {"kb_groups", run_kb_groups},
    {"kb_reencode", run_kb_reencode},
    {"kb_fdr_initial", run_kb_fdr_initial},
    {"kb_fdr_goal", run_kb_fdr_goal},
    {"kb_fdr_run", run_kb_fdr_run},
    {"kb_encode", run_kb_encode},
    {"kb_decode", run_kb_decode},
    {"kb_agree", run_kb_agree},
    {"kb_write_dimacs", run_kb_write_dimacs},
    {"kb_read_dimacs", run_kb_read_dimacs},
    {"kb_join", run_kb_join},
    /* Last, since they leave other states. */
    {"kb_task_step", run_kb_task_step},
    {"kb_commit", run_kb_commit},
    {"kb_fdr_step", run_kb_fdr_step},
};

/* Operator i of the ring takes the token from place i to the next. */
static void write_operator(uint16_t *block, int i)
{
    uint16_t next = (uint16_t)((i + 1) % PLACES);
    uint16_t words[] = {1, (uint16_t)(2 * i), 2, (uint16_t)(2 * i + 1), 0, (uint16_t)(2 * next), 0};
    for (int k = 0; k < 7; k++)
        block[k] = words[k];
}

/* The ring of document 01 with many places. */
static void make_image(void)
{
    uint16_t *image = data->image, at = 2 + 2 * (PLACES + 2);
    image[0] = image[1] = PLACES;
    for (int i = 0; i < PLACES + 2; i++) {
        uint16_t words = i < 2 ? 1 : 7;
        image[2 + 2 * i] = at;
        image[3 + 2 * i] = words;
        if (i >= 2)
            write_operator(image + at, i - 2);
        at += words;
    }
    image[2 + 2 * (PLACES + 2)] = 0;
    image[3 + 2 * (PLACES + 2)] = 2 * (PLACES - 1);
    data->image_words = at;
}

/* All pairs of negative literals, from the last to the first and more than once: the rows are sorted as deep as they can be. */
static void make_text(void)
{
    char *text = (char *)data->text;
    size_t at = (size_t)sprintf(text, "p cnf %d %d\n", PLACES, COPIES * PAIRS);
    for (int copy = 0; copy < COPIES; copy++)
        for (int a = PLACES - 1; a >= 1; a--)
            for (int b = PLACES; b > a; b--)
                at += (size_t)sprintf(text + at, "-%d -%d 0\n", a, b);
    data->text_bytes = at;
}

static void prepare(void)
{
    make_image();
    make_text();
    for (int i = 0; i < 2 * PLACES; i++)
        data->list[i] = (uint16_t)(i % PLACES);
    run_kb_task_initial();
    found("rows", kb_read_dimacs(IMAGE, data->text, data->text_bytes, data->clauses, KB_ROW_WORDS * KB_MOST_ROWS, ANSWER));
    data->clause_words = KB_ROW_WORDS * first;
    found("groups", kb_groups(IMAGE, CLAUSES, MARKS, TARGET, ANSWER));
    data->variables = first;
    found("image", kb_reencode(IMAGE, CLAUSES, MARKS, data->fdr_image, KB_MOST_FDR_IMAGE_WORDS, ANSWER));
    data->fdr_words = first;
    run_kb_fdr_initial();
}

static volatile uint8_t *stack;
static size_t used;

static void *on_painted_stack(void *call)
{
    uint8_t *frame = __builtin_frame_address(0);
    ((const struct call *)call)->run();
    size_t lowest = 0;
    while (stack[lowest] == PAINT)
        lowest++;
    used = (size_t)(frame - (const uint8_t *)stack) - lowest;
    return NULL;
}

static int measure(const struct call *call)
{
    pthread_t thread;
    pthread_attr_t attributes;
    void *room = mmap(NULL, STACK, PROT_READ | PROT_WRITE, MAP_PRIVATE | MAP_ANONYMOUS, -1, 0);
    if (room == MAP_FAILED)
        return 1;
    stack = room;
    for (size_t i = 0; i < STACK; i++)
        stack[i] = PAINT;
    if (pthread_attr_init(&attributes) != 0 || pthread_attr_setstack(&attributes, room, STACK) != 0)
        return 1;
    if (pthread_create(&thread, &attributes, on_painted_stack, (void *)call) != 0 || pthread_join(thread, NULL) != 0)
        return 1;
    printf("%s %zu\n", call->name, used);
    return 0;
}

/* Runs the measurement of a call, or the preparation, in a process of its own. */
static int in_child(const struct call *call)
{
    int status = 1;
    fflush(stdout);
    pid_t child = fork();
    if (child == 0) {
        if (call == NULL)
            prepare();
        exit(call == NULL ? 0 : measure(call));
    }
    return child > 0 && waitpid(child, &status, 0) == child ? status : 1;
}

int main(void)
{
    data = mmap(NULL, sizeof *data, PROT_READ | PROT_WRITE, MAP_SHARED | MAP_ANONYMOUS, -1, 0);
    if (data == MAP_FAILED || in_child(NULL) != 0)
        return 1;
    for (size_t i = 0; i < sizeof calls / sizeof calls[0]; i++)
        if (in_child(&calls[i]) != 0)
            return 1;
    return 0;
}
