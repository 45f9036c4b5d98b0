/* Pavrenni: a verified union-find decoder for quantum error correction. The calls of the static library libserver.a.
 *
 * A slice crosses as a pointer and its length in entries; where an entry is an array, a row of a table, as a pointer to
 * the rows and their number.
 *
 * Safety. A call asks this of its caller and nothing else. Each pointer is aligned for its entries and not null, also
 * where the length is 0. It is valid for its length: for reading, and for writing where the call writes. What a call
 * writes overlaps nothing else that it is lent. The entries of a `bool` slice are 0 or 1, in scratch too. Counts,
 * lengths, tables and lists are checked, and what is wrong is refused with a code. Calls are reentrant: nothing is kept
 * between them, and calls on memory of their own may run at the same time.
 *
 * An answer is a struct by value. Its code is 0, or one of docs/RULES.md, "Refusals"; `first` and `second` are the
 * values that stand beside it there, in their order, and 0 where there are none:
 *     4, 5 (a mechanism, or an edge of a lent graph), 6, 7 (a mechanism), 9 (a shot): `first`
 *     11: `first` is the shot, `second` the detector
 *
 * Rows: bit b of a row is bit b mod 64 of word b div 64. A row of width n has words(n) words, n / 64 rounded up; rows
 * of several shots follow each other. D is the number of detectors, O of observables, M of mechanisms, E of edges.
 *
 * Limits: D to 4,096, O to 128, M and E to 16,384, shots to 16,777,216 (1 if over); 16 entries a list and 16 components
 * a mechanism (5 if over).
 *
 * Slices of outputs, lists and scratch are refused with 2 if shorter than what is said here; a longer one is taken, and
 * what is past the words written is untouched. Scratch: ask the `_lengths_for` functions. What scratch holds before a
 * call reaches no answer, and what it holds after one is left open.
 */
#ifndef PAVRENNI_H
#define PAVRENNI_H

#include <stdbool.h>
#include <stddef.h>
#include <stdint.h>

/* The version of the library that this header belongs to. */
#define PAVRENNI_VERSION "0.1.0"

/* PAVRENNI_EMPTY: what to pass for a slice of length 0, of any type. It is not null, and aligned for every entry. */
static inline void *pavrenni_empty(void)
{
    static union {
        uint64_t word;
        double real;
    } place;
    return &place;
}

#ifdef __cplusplus
/* C++ converts no void * by itself */
struct pavrenni_empty_slice {
    template <typename Entry> operator Entry *() const { return static_cast<Entry *>(pavrenni_empty()); }
};
#define PAVRENNI_EMPTY (pavrenni_empty_slice())
#else
#define PAVRENNI_EMPTY (pavrenni_empty())
#endif

#ifdef __cplusplus
extern "C" {
#endif

/* The second end of a boundary edge. */
#define PAVRENNI_BOUNDARY UINT32_C(4294967295)

/* Codes; pavrenni_code_text has a sentence on each. A refusal leaves the tables that decomposition and compiling were
 * to fill all zero, and the rows and lists of the other calls untouched, but by 11 and 12 as they say. 3 is of frames
 * alone: none of these calls has it. */
enum pavrenni_code {
    PAVRENNI_DONE = 0,
    PAVRENNI_LIMIT = 1,
    PAVRENNI_SHORT = 2,
    PAVRENNI_FRAME = 3,
    PAVRENNI_PROBABILITY = 4,
    PAVRENNI_INDEX = 5,
    PAVRENNI_NO_COVER = 6,
    PAVRENNI_NOT_GRAPHLIKE = 7,
    PAVRENNI_LENGTH = 8,
    PAVRENNI_PADDING = 9,
    PAVRENNI_WIDTH = 10,
    PAVRENNI_STUCK = 11,
    PAVRENNI_SHAPE = 12,
    PAVRENNI_EDGE = 13
};

/* What a code says, in a sentence: the words of the Rust client. */
static inline const char *pavrenni_code_text(uint32_t code)
{
    switch (code) {
    case PAVRENNI_DONE: return "done";
    case PAVRENNI_LIMIT: return "a count is over its limit, or the decomposed model finds no place";
    case PAVRENNI_SHORT: return "a table, list, output or scratch slice is too short";
    case PAVRENNI_FRAME: return "frame digits, kind, length or order are wrong";
    case PAVRENNI_PROBABILITY: return "the probability is not in [0, 1), or the weight is neither from 0 to 1,024 nor infinity";
    case PAVRENNI_INDEX: return "a list is not strictly ascending, out of range or too long, or an edge's ends or observables are out of range";
    case PAVRENNI_NO_COVER: return "no choice of smaller mechanisms covers it";
    case PAVRENNI_NOT_GRAPHLIKE: return "it has over two detectors";
    case PAVRENNI_LENGTH: return "the row data has the wrong length";
    case PAVRENNI_PADDING: return "a bit past the width is set";
    case PAVRENNI_WIDTH: return "the width differs from the number of detectors";
    case PAVRENNI_STUCK: return "no set of edges explains it";
    case PAVRENNI_SHAPE: return "the true observables have the wrong shape";
    case PAVRENNI_EDGE: return "an edge of the list is unknown or repeated";
    default: return "a refusal that this header does not know";
    }
}

/* The name that a code has above, "unknown" where it has none. */
static inline const char *pavrenni_code_name(uint32_t code)
{
#define PAVRENNI_NAMED(name) case name: return #name
    switch (code) {
    PAVRENNI_NAMED(PAVRENNI_DONE);
    PAVRENNI_NAMED(PAVRENNI_LIMIT);
    PAVRENNI_NAMED(PAVRENNI_SHORT);
    PAVRENNI_NAMED(PAVRENNI_FRAME);
    PAVRENNI_NAMED(PAVRENNI_PROBABILITY);
    PAVRENNI_NAMED(PAVRENNI_INDEX);
    PAVRENNI_NAMED(PAVRENNI_NO_COVER);
    PAVRENNI_NAMED(PAVRENNI_NOT_GRAPHLIKE);
    PAVRENNI_NAMED(PAVRENNI_LENGTH);
    PAVRENNI_NAMED(PAVRENNI_PADDING);
    PAVRENNI_NAMED(PAVRENNI_WIDTH);
    PAVRENNI_NAMED(PAVRENNI_STUCK);
    PAVRENNI_NAMED(PAVRENNI_SHAPE);
    PAVRENNI_NAMED(PAVRENNI_EDGE);
    default: return "unknown";
    }
#undef PAVRENNI_NAMED
}

/* ---- answers */

/* of pavrenni_decompose: the counts of the model that is left, 0 after a refusal */
struct pavrenni_model {
    uint32_t code;
    size_t first;
    size_t second;
    size_t mechanisms;
    size_t components;
    size_t entries;
};

/* of pavrenni_compile: the number of edges, 0 after a refusal */
struct pavrenni_graph {
    uint32_t code;
    size_t first;
    size_t second;
    size_t edges;
};

/* of pavrenni_decode_shot: the rounds finished, after Stuck too, and the length of the list, 0 after a refusal */
struct pavrenni_shot {
    uint32_t code;
    size_t first;
    size_t second;
    uint32_t rounds;
    size_t length;
};

/* of pavrenni_decode_batch */
struct pavrenni_batch {
    uint32_t code;
    size_t first;
    size_t second;
};

/* of pavrenni_mark: where the code is 0, `passed` is 1, or 0 and `detector` the lowest wrong one */
struct pavrenni_mark {
    uint32_t code;
    size_t first;
    size_t second;
    uint32_t passed;
    uint32_t detector;
};

/* of pavrenni_rate */
struct pavrenni_rate {
    uint32_t code;
    size_t first;
    size_t second;
    double rate;
};

/* ---- scratch: the least entries or rows of each slice; all 0 for counts over the limits, which are refused anyway */

struct pavrenni_lengths {
    size_t adj_offsets;
    size_t adj;
    size_t tree;
    size_t flags;
    size_t stacks;
    size_t links;
    size_t growth;
    size_t sat;
};

struct pavrenni_decompose_lengths {
    size_t starts;
    size_t before;
    size_t last_of;
    size_t first_of;
    size_t next_of;
    size_t numbers;
    size_t masks;
    size_t words0;
    size_t words1;
    size_t earlier;
};

struct pavrenni_compile_lengths {
    size_t edge_p;
    size_t first;
    size_t next;
};

struct pavrenni_mark_lengths {
    size_t marks;
    size_t wrong;
};

struct pavrenni_lengths pavrenni_lengths_for(size_t detectors, size_t edges);
struct pavrenni_decompose_lengths pavrenni_decompose_lengths_for(size_t detectors, size_t mechanisms);
struct pavrenni_compile_lengths pavrenni_compile_lengths_for(size_t detectors, size_t mechanisms);
struct pavrenni_mark_lengths pavrenni_mark_lengths_for(size_t detectors, size_t edges);

/* ---- parameters that several calls have */

/* A model in tables. The first four have an entry a mechanism, the next two an entry a component, those of mechanism 0
 * first. The last has for each mechanism its detectors, its observables, then for each of its components the
 * component's detectors and observables. */
#define PAVRENNI_MODEL                                                                                                 \
    size_t detectors, size_t observables, size_t mechanisms,                                                           \
    const double *probability, size_t probability_len,                                                                 \
    const uint8_t *detector_counts, size_t detector_counts_len,                                                        \
    const uint8_t *observable_counts, size_t observable_counts_len,                                                    \
    const uint8_t *component_counts, size_t component_counts_len,                                                      \
    const uint8_t *component_detectors, size_t component_detectors_len,                                                \
    const uint8_t *component_observables, size_t component_observables_len,                                            \
    const uint32_t *entries, size_t entries_len

/* The counts of a lent graph: D, O and E. */
struct pavrenni_size {
    size_t detectors;
    size_t observables;
    size_t edges;
};

/* A lent graph: its counts by value, then for each edge its first end, its second end (greater, or the boundary), its
 * weight (from 0 to 1,024, or infinity), and its row of O observables. */
#define PAVRENNI_GRAPH                                                                                                 \
    struct pavrenni_size size,                                                                                         \
    const uint32_t *edge_u, size_t edge_u_len,                                                                         \
    const uint32_t *edge_v, size_t edge_v_len,                                                                         \
    const double *edge_weight, size_t edge_weight_len,                                                                 \
    const uint64_t *edge_obs, size_t edge_obs_len

/* The decoder's scratch; struct pavrenni_lengths has the entries or rows in the same order. adj_offsets: where the rows
 * of each detector begin in adj (edge, other end, which is D for the boundary). tree (parent, boundary edge) and flags
 * (lit, known, odd, hot, free, three to spare): a row a detector. stacks: six lists side by side (defects, seen,
 * active, front, order edge, order parent). links: the edges of a round (touched, count, fresh, one to spare). growth
 * and sat: an entry an edge. docs/SCRATCH.md says what each is for. */
#define PAVRENNI_SCRATCH                                                                                               \
    uint32_t *adj_offsets, size_t adj_offsets_len,                                                                     \
    uint32_t (*adj)[2], size_t adj_len,                                                                                \
    uint32_t (*tree)[2], size_t tree_len,                                                                              \
    bool (*flags)[8], size_t flags_len,                                                                                \
    uint32_t (*stacks)[6], size_t stacks_len,                                                                          \
    uint32_t (*links)[4], size_t links_len,                                                                            \
    double *growth, size_t growth_len,                                                                                 \
    bool *sat, size_t sat_len

/* ---- calls */

/* The decomposed model, into output tables that are no shorter than the tables given need to be. Each component may
 * become a mechanism: M and the number of components together are always places enough. Scratch:
 * pavrenni_decompose_lengths_for(D, M). Refused in this order: 1, 2, then 5 and 4 by mechanism, then 6, or 1 where a
 * component's new mechanism finds no place.
 *
 * The search for a cover takes time exponential in the size of a mechanism of many detectors whose pieces differ in
 * observables alone: bound the size of models from a source that is not trusted, or decompose them in a process that
 * can be ended. */
struct pavrenni_model pavrenni_decompose(
    PAVRENNI_MODEL,
    double *out_probability, size_t out_probability_len,
    uint8_t *out_detector_counts, size_t out_detector_counts_len,
    uint8_t *out_observable_counts, size_t out_observable_counts_len,
    uint8_t *out_component_counts, size_t out_component_counts_len,
    uint8_t *out_component_detectors, size_t out_component_detectors_len,
    uint8_t *out_component_observables, size_t out_component_observables_len,
    uint32_t *out_entries, size_t out_entries_len,
    uint32_t *starts, size_t starts_len,
    uint32_t *before, size_t before_len,
    uint32_t *last_of, size_t last_of_len,
    uint32_t *first_of, size_t first_of_len,
    uint32_t *next_of, size_t next_of_len,
    uint32_t *numbers, size_t numbers_len,
    uint16_t *masks, size_t masks_len,
    uint64_t *words0, size_t words0_len,
    uint64_t *words1, size_t words1_len,
    uint32_t *earlier, size_t earlier_len);

/* The edge graph of a model: edge_u, edge_v and edge_weight take M entries each, edge_obs M * words(O). Scratch:
 * pavrenni_compile_lengths_for(D, M). Refused in this order: 1, 2, then 5, 4 and 7 by mechanism. */
struct pavrenni_graph pavrenni_compile(
    PAVRENNI_MODEL,
    uint32_t *edge_u, size_t edge_u_len,
    uint32_t *edge_v, size_t edge_v_len,
    double *edge_weight, size_t edge_weight_len,
    uint64_t *edge_obs, size_t edge_obs_len,
    double *edge_p, size_t edge_p_len,
    uint32_t *first, size_t first_len,
    uint32_t *next, size_t next_len);

/* One shot of width D: XORs the observables of its correction into the row (words(O)) and writes the list (D entries),
 * of which the answer has the length. Scratch: pavrenni_lengths_for(D, E). Refused in this order: 1, 2, then 5 and 4 by
 * edge, 8, 9, 10, 11; then row and list are untouched. */
struct pavrenni_shot pavrenni_decode_shot(
    uint64_t *row, size_t row_len,
    uint32_t *list, size_t list_len,
    PAVRENNI_SCRATCH,
    PAVRENNI_GRAPH,
    const uint64_t *shot, size_t shot_len,
    size_t width);

/* Shots of width D: a row of words(O) a shot into `out`. The list (D entries) is scratch here. Refused as one shot is;
 * by 11 the earlier rows are done, this row is zero, later ones are untouched, by the others all are. */
struct pavrenni_batch pavrenni_decode_batch(
    uint64_t *out, size_t out_len,
    uint32_t *list, size_t list_len,
    PAVRENNI_SCRATCH,
    PAVRENNI_GRAPH,
    const uint64_t *rows, size_t rows_len,
    size_t shots, size_t width);

/* Marks a list, of any length, of edge numbers against a shot of width D. It passes if its edges flip exactly the lit
 * detectors; then the XOR of their observables is written to the row (words(O)), else the row is untouched. Scratch:
 * pavrenni_mark_lengths_for(D, E). Refused in this order: 1, 2, then 5 and 4 by edge, 8, 9, 10, 13. */
struct pavrenni_mark pavrenni_mark(
    PAVRENNI_GRAPH,
    const uint64_t *shot, size_t shot_len,
    size_t width,
    const uint32_t *list, size_t list_len,
    uint64_t *row, size_t row_len,
    uint64_t *marks, size_t marks_len,
    uint64_t *wrong, size_t wrong_len);

/* The logical error rate: shots of which any predicted observable differs from the true ones, divided by shots; 0 where
 * there are no shots or no observables. The predicted rows are left in `out`, as by a batch. Refused in this order: 1,
 * 2, then 5 and 4 by edge, 8 and 9 of the shots, 8 and 9 of the true observables, 10, 11, and 12 with the rows done. */
struct pavrenni_rate pavrenni_rate(
    uint64_t *out, size_t out_len,
    uint32_t *list, size_t list_len,
    PAVRENNI_SCRATCH,
    PAVRENNI_GRAPH,
    const uint64_t *rows, size_t rows_len,
    size_t shots, size_t width,
    const uint64_t *truth, size_t truth_len,
    size_t true_shots, size_t true_width);

#ifdef __cplusplus
}
#endif

#endif
