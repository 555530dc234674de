/* Asks the libraries about small lists through julqetai.h, and prints what they answer. */
#include <stdio.h>
#include <string.h>

#include "julqetai.h"

_Static_assert(sizeof(struct julqetai_overload) == 6, "three words");

static uint16_t sorts[JULQETAI_SORT_WORDS];
static uint16_t nodes[JULQETAI_NODE_WORDS];
static uint16_t scratch[JULQETAI_SCRATCH_WORDS];
static uint16_t index_words[JULQETAI_INDEX_WORDS];
static uint16_t left_in_index = 0;

/* The fixed six sorts, then Set(Nat). */
static void put_sorts(void)
{
    memset(sorts, 0, sizeof sorts);
    for (uint16_t kind = 0; kind < 6; kind++)
        sorts[4 * kind] = kind;
    sorts[24] = 7;
    sorts[25] = 3;
}

/* An index may hold any words before a call, and has to be zero after it. */
static void put_index(void)
{
    memset(index_words, 0xa5, sizeof index_words);
}

static void look_at_index(void)
{
    for (int word = 0; word < JULQETAI_INDEX_WORDS; word++)
        left_in_index |= index_words[word];
}

/* Nodes 0 and 1 are variables, node 2 is FSet of the first. */
static void put_nodes(void)
{
    const uint16_t rows[12] = {14, 0, 0, 0, 14, 1, 0, 0, 8, JULQETAI_FIRST_NODE, 0, 0};
    memset(nodes, 0, sizeof nodes);
    memcpy(nodes, rows, sizeof rows);
}

/* Sub of FSet(v) to Set(Nat); then w is a built-in Pos or an operation Nat, for expression 2, and widens into Nat; and it is
 * that operation, for expression 1. */
static void ask(const char *name, int records)
{
    uint16_t binds[2] = {JULQETAI_FREE, JULQETAI_FREE};
    const uint16_t v = JULQETAI_FIRST_NODE, w = v + 1, set = v + 2;
    const uint16_t exprs[3] = {v, w, w};
    const uint16_t base[3] = {0, 1, 0};
    const uint16_t constraints[20] = {0, set, 6, 0, 0, 2, 2, w, 0, 2, 0, w, 3, 0, 0, 2, 1, w, 1, 1};
    const struct julqetai_overload overloads[2] = {{{3, 0}, 2}, {{2, 3}, 3}};
    const uint16_t words[6] = {3, 0, 2, 2, 3, 3};
    uint16_t typing[9], measure[2], choices[4];
    uint64_t answer = 0;

    put_sorts();
    put_nodes();
    put_index();
    if (records)
        answer = sort_solve_records(sorts, JULQETAI_SORT_WORDS, 7, 0, nodes, JULQETAI_NODE_WORDS, 3, 0, binds, 2, 2,
            exprs, 3, 3, base, 3, 1, constraints, 20, 4, overloads, 2, 2, NULL, 0, 0, 1, scratch,
            JULQETAI_SCRATCH_WORDS, index_words, JULQETAI_INDEX_WORDS, typing, 9, measure, 2, choices, 4);
#ifdef SOLVE_ENTRIES
    else
        answer = sort_solve(sorts, JULQETAI_SORT_WORDS, 7, 0, nodes, JULQETAI_NODE_WORDS, 3, 0, binds, 2, 2, exprs, 3,
            3, base, 3, 1, constraints, 20, 4, words, 6, 2, NULL, 0, 0, 1, scratch, JULQETAI_SCRATCH_WORDS, index_words,
            JULQETAI_INDEX_WORDS, typing, 9, measure, 2, choices, 4);
#endif
    (void)words;
    look_at_index();
    printf("%s: code %u, sorts %zu, entries %zu, typing", name, julqetai_code(answer), julqetai_sorts(answer),
        julqetai_entries(answer));
    for (int word = 0; word < 9; word++)
        printf(" %u", typing[word]);
    printf(", measure");
    for (size_t index = 0; index < julqetai_components(answer); index++)
        printf(" %u", measure[index]);
    printf(", choices");
    for (size_t index = 0; index < julqetai_choices(answer); index++)
        printf(" %u %u", choices[2 * index], choices[2 * index + 1]);
    printf("\n");
}

int main(void)
{
    ask("sort_solve_records", 1);
#ifdef SOLVE_ENTRIES
    ask("sort_solve", 0);
#endif
#ifdef UNIFY_ENTRIES
    {
        uint16_t binds[2] = {JULQETAI_FREE, JULQETAI_FREE};
        put_sorts();
        put_nodes();
        uint64_t answer = sort_unify(sorts, JULQETAI_SORT_WORDS, 7, 0, nodes, JULQETAI_NODE_WORDS, 3, 0, binds, 2, 2,
            JULQETAI_FIRST_NODE, 6);
        printf("sort_unify: %llu, binds %u %u\n", (unsigned long long)answer, binds[0], binds[1]);
    }
#endif
#ifdef SORT_ENTRIES
    put_sorts();
    printf("sort_partial_cmp: %llu\n", (unsigned long long)sort_partial_cmp(sorts, JULQETAI_SORT_WORDS, 7, 0, 2, 3));
    printf("sort_is_materializable: %llu\n",
        (unsigned long long)sort_is_materializable(sorts, JULQETAI_SORT_WORDS, 7, 0, 2, 5));
    printf("sort_widening_distance: %llx\n",
        (unsigned long long)sort_widening_distance(sorts, JULQETAI_SORT_WORDS, 7, 0, 2, 5));
    put_index();
    printf("sort_join: %llx\n",
        (unsigned long long)sort_join(sorts, JULQETAI_SORT_WORDS, 7, 0, index_words, JULQETAI_INDEX_WORDS, 2, 4));
    look_at_index();
    put_index();
    printf("sort_meet: %llx\n",
        (unsigned long long)sort_meet(sorts, JULQETAI_SORT_WORDS, 7, 0, index_words, JULQETAI_INDEX_WORDS, 2, 4));
    look_at_index();
#endif
#ifdef SORT_WRITER
    {
        uint8_t out[16];
        put_sorts();
        uint64_t answer = sort_write(sorts, JULQETAI_SORT_WORDS, 7, 0, 6, out, sizeof out);
        printf("sort_write: %.*s\n", (int)answer, (const char *)out);
    }
#endif
    return left_in_index != 0;
}
