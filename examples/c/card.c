/*
 * Makes the card of the ring of document 01 (clauses of at most 2 literals, mutex groups), then checks two proposed clause sets
 * given as DIMACS CNF texts. examples/rust does the same and prints the same text, card.stdout.
 *
 *     gcc -std=c99 -I include examples/c/card.c target/staticlib/libkulabismuth.a -o card
 */
#include "kulabismuth.h"
#include <inttypes.h>
#include <stdio.h>
#include <string.h>

enum { ATOMS = 3, LITERALS = 2, ROUNDS = 10, CLAUSE_WORDS = 100 * KB_ROW_WORDS, GROUP_WORDS = 4 * ATOMS };

/* A token goes round three places; atom a says that it is at place a. */
static const uint16_t ring[] = {3, 3, 12, 1, 13, 1, 14, 7, 21, 7, 28, 7, 0, 4, 1, 0, 2, 1,
                                0, 2, 0,  1, 2,  2, 3,  0, 4,  0, 1,  4, 2, 5, 0, 0, 0};
static const size_t ring_length = sizeof ring / sizeof ring[0];

static const char *const proposals[] = {
    "p cnf 3 1\n-1 -2 0\n",
    "c in any order, one of them twice\np cnf 3 4\n-2 -1 0 -3 -1 0\n-2 -3 0 -1 -2 0\n",
};

/* What a call answers. */
struct answer {
    uint32_t number;
    uint64_t first, second;
};

static void print_refusal(struct answer answer)
{
    printf("refused %" PRIu32 " %" PRIu64 " %" PRIu64 "\n", answer.number, answer.first, answer.second);
}

/* Prints the literals of a row, each as its sign and atom. */
static void print_row(const uint16_t *row)
{
    for (int i = 0; i < KB_ROW_WORDS && row[i] != KB_FILL; i++)
        printf("%s%c%d", i == 0 ? "" : " ", row[i] % 2 == 0 ? '+' : '-', row[i] / 2);
    printf("\n");
}

/* Prints the atoms of each variable, and "none" if that is one of its values. */
static void print_groups(const uint16_t *groups, size_t variables)
{
    const uint16_t *places = groups + 2 * variables;
    printf("groups %zu\n", variables);
    for (size_t v = 0; v < variables; v++) {
        const char *space = "";
        for (int a = 0; a < ATOMS; a++) {
            if (places[2 * a] == v) {
                printf("%s%d", space, a);
                space = " ";
            }
        }
        printf("%s\n", groups[2 * v + 1] == 1 ? " none" : "");
    }
}

/* Finds the clauses, and prints them. */
static struct answer make_clauses(uint16_t *clauses)
{
    struct answer answer;
    uint16_t work[CLAUSE_WORDS];
    uint8_t marks[KB_MARK_BYTES(ATOMS)];
    answer.number = kb_synthesize(ring, ring_length, LITERALS, ROUNDS, clauses, CLAUSE_WORDS, work, CLAUSE_WORDS, marks,
                                  sizeof marks, &answer.first, &answer.second);
    if (answer.number == KB_FINDING) {
        printf("clauses %" PRIu64 " rounds %" PRIu64 "\n", answer.first, answer.second);
        for (size_t row = 0; row < answer.first; row++)
            print_row(clauses + KB_ROW_WORDS * row);
    }
    return answer;
}

/* Finds the mutex groups of so many rows, and prints them. */
static struct answer make_groups(const uint16_t *clauses, size_t rows)
{
    struct answer answer;
    uint16_t groups[GROUP_WORDS];
    uint8_t marks[KB_MARK_BYTES(ATOMS)];
    answer.number = kb_groups(ring, ring_length, clauses, KB_ROW_WORDS * rows, marks, sizeof marks, groups, GROUP_WORDS,
                              &answer.first, &answer.second);
    if (answer.number == KB_FINDING)
        print_groups(groups, answer.first);
    return answer;
}

static struct answer make_card(void)
{
    uint16_t clauses[CLAUSE_WORDS];
    struct answer answer = make_clauses(clauses);
    return answer.number == KB_FINDING ? make_groups(clauses, answer.first) : answer;
}

/* Reads a proposed set and prints what the checker says of it; the answer is that of the reading. */
static struct answer check_proposal(const char *text)
{
    struct answer read, checked;
    uint16_t clauses[CLAUSE_WORDS];
    uint8_t marks[KB_MARK_BYTES(ATOMS)];
    read.number = kb_read_dimacs(ring, ring_length, (const uint8_t *)text, strlen(text), clauses, CLAUSE_WORDS,
                                 &read.first, &read.second);
    if (read.number != KB_FINDING)
        return read;
    checked.number = kb_check(ring, ring_length, clauses, KB_ROW_WORDS * read.first, marks, sizeof marks,
                              &checked.first, &checked.second);
    printf("proposed clauses %" PRIu64 ": ", read.first);
    if (checked.number == KB_FINDING)
        printf("accepted\n");
    else
        print_refusal(checked);
    return read;
}

int main(void)
{
    struct answer answer = make_card();
    for (size_t i = 0; answer.number == KB_FINDING && i < sizeof proposals / sizeof proposals[0]; i++)
        answer = check_proposal(proposals[i]);
    if (answer.number == KB_FINDING)
        return 0;
    print_refusal(answer);
    return 1;
}
