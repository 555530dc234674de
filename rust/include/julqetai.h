/* The entries of the proved libraries, for C.
 *
 * `tools/build.sh NAME` at the root of the repository writes target/staticlib/libNAME.a, which has the functions below its
 * name here and no others. All words have 16 bits; docs/FORMAT.md, "In memory", says what they mean.
 *
 * A slice passes as a pointer and a length in words (of overloads: in records). Words, counts and lengths may be
 * anything: what does not fit is refused by a code. The slices of a call may not overlap, and a pointer has to be valid
 * for its length; of a slice of length 0 it may be NULL. No entry keeps a pointer, allocates, or has memory of its own. The solver calls itself: up to 2.8 MB of
 * stack were measured for a list at its ceilings.
 */
#ifndef JULQETAI_H
#define JULQETAI_H

#include <stddef.h>
#include <stdint.h>

#ifdef __cplusplus
extern "C" {
#endif

/* Lengths in words below which storage, scratch and index are too short (14). An entry that makes sorts finds them by an
 * index, which is scratch of its own: its words may be anything, and are zero after the call, but for a refusal (1 to 14),
 * which leaves them as they are. */
#define JULQETAI_SORT_WORDS 8192
#define JULQETAI_NODE_WORDS 12288
#define JULQETAI_SCRATCH_WORDS 4096
#define JULQETAI_INDEX_WORDS 2048

/* Where the argument entries begin in sort and node storage. */
#define JULQETAI_SORT_ENTRIES_AT 4096
#define JULQETAI_NODE_ENTRIES_AT 8192

/* The place of node 0, and the binding of a free variable. */
#define JULQETAI_FIRST_NODE 1024
#define JULQETAI_FREE 65535

/* What a name resolved to. Kind 1 is a variable, 2 an operation with its sort, 3 a built-in. */
struct julqetai_target {
    uint16_t kind;
    uint16_t sort;
};

/* One overload of a name: what it resolves to, and the place of its sort. */
struct julqetai_overload {
    struct julqetai_target target;
    uint16_t sort;
};

/* libsolve_records.a
 *
 * Infers the sorts of the expressions. The answer is read by the functions julqetai_code to julqetai_choices. */
uint64_t sort_solve_records(
    uint16_t *sorts, size_t sorts_len, size_t sort_count, size_t entry_count,
    uint16_t *nodes, size_t nodes_len, size_t node_count, size_t node_entry_count,
    uint16_t *binds, size_t binds_len, size_t var_count,
    const uint16_t *exprs, size_t exprs_len, size_t expr_count,
    const uint16_t *names, size_t names_len, size_t name_count,
    const uint16_t *constraints, size_t constraints_len, size_t constraint_count,
    const struct julqetai_overload *overloads, size_t overloads_len, size_t overload_count,
    const uint16_t *sources, size_t sources_len, size_t source_count,
    uint16_t default_sort,
    uint16_t *scratch, size_t scratch_len,
    uint16_t *index, size_t index_len,
    uint16_t *typing, size_t typing_len,
    uint16_t *measure, size_t measure_len,
    uint16_t *choices, size_t choices_len);

/* libsolve_entries.a
 *
 * The same with overloads in words, three for each. */
uint64_t sort_solve(
    uint16_t *sorts, size_t sorts_len, size_t sort_count, size_t entry_count,
    uint16_t *nodes, size_t nodes_len, size_t node_count, size_t node_entry_count,
    uint16_t *binds, size_t binds_len, size_t var_count,
    const uint16_t *exprs, size_t exprs_len, size_t expr_count,
    const uint16_t *names, size_t names_len, size_t name_count,
    const uint16_t *constraints, size_t constraints_len, size_t constraint_count,
    const uint16_t *overloads, size_t overloads_len, size_t overload_count,
    const uint16_t *sources, size_t sources_len, size_t source_count,
    uint16_t default_sort,
    uint16_t *scratch, size_t scratch_len,
    uint16_t *index, size_t index_len,
    uint16_t *typing, size_t typing_len,
    uint16_t *measure, size_t measure_len,
    uint16_t *choices, size_t choices_len);

/* The code: 0 is a typing. */
static inline unsigned julqetai_code(uint64_t answer) { return (unsigned)(answer & 0xff); }

/* Under 0, 17 and 18: the sorts and sort entries in storage after the call. */
static inline size_t julqetai_sorts(uint64_t answer) { return (size_t)(answer >> 8 & 0xffff); }
static inline size_t julqetai_entries(uint64_t answer) { return (size_t)(answer >> 24 & 0xffff); }

/* Under 0: the components in `measure`, and the rows in `choices`, which go by rising expression number. */
static inline size_t julqetai_components(uint64_t answer) { return (size_t)(answer >> 40 & 0xfff); }
static inline size_t julqetai_choices(uint64_t answer) { return (size_t)(answer >> 52 & 0xfff); }

/* libunify_entries.a
 *
 * Unifies two places. 256 is a yes, whose bindings are in `binds`; 0 is a no; else the code of the first failing check. */
uint64_t sort_unify(
    const uint16_t *sorts, size_t sorts_len, size_t sort_count, size_t entry_count,
    const uint16_t *nodes, size_t nodes_len, size_t node_count, size_t node_entry_count,
    uint16_t *binds, size_t binds_len, size_t var_count,
    uint16_t lhs, uint16_t rhs);

/* libsort_entries.a
 *
 * The answers have the code in bits 0 to 7. With code 0, bits 8 to 15 are: for the order 0 unrelated, 1 equal, 2 below,
 * 3 above; for the others 1 for a yes and 0 for a no or none. */
uint64_t sort_partial_cmp(
    const uint16_t *sorts, size_t sorts_len, size_t sort_count, size_t entry_count, uint16_t lhs, uint16_t rhs);

uint64_t sort_is_materializable(
    const uint16_t *sorts, size_t sorts_len, size_t sort_count, size_t entry_count, uint16_t from, uint16_t to);

/* Bits 16 to 23 are the head, 24 to 31 the interior. */
uint64_t sort_widening_distance(
    const uint16_t *sorts, size_t sorts_len, size_t sort_count, size_t entry_count, uint16_t from, uint16_t to);

/* Bits 16 to 31 are the sort, 32 to 47 the sorts and 48 to 63 the sort entries in storage after the call. */
uint64_t sort_join(
    uint16_t *sorts, size_t sorts_len, size_t sort_count, size_t entry_count,
    uint16_t *index, size_t index_len, uint16_t lhs, uint16_t rhs);

uint64_t sort_meet(
    uint16_t *sorts, size_t sorts_len, size_t sort_count, size_t entry_count,
    uint16_t *index, size_t index_len, uint16_t lhs, uint16_t rhs);

/* libsort_writer.a
 *
 * Writes a sort as text into `out`. The answer is the length of the text, or 2^63 and the code of a refusal. */
uint64_t sort_write(
    const uint16_t *sorts, size_t sorts_len, size_t sort_count, size_t entry_count, uint16_t id,
    uint8_t *out, size_t out_len);

#ifdef __cplusplus
}
#endif

#endif
