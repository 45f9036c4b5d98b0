/* PAVRENNI_EMPTY for every slice that may be empty, in each call. A program in C99, and the same in C++11. */
#include "check.h"
#include "pavrenni_slices.h"

#ifdef __cplusplus
#define LANGUAGE "C++"
#else
#define LANGUAGE "C"
#endif

/* a slice of length 0, as arguments of a call */
#define NONE PAVRENNI_EMPTY, 0

/* the tables of a model of no mechanisms, and of a graph of no edges */
#define NO_MECHANISMS NONE, NONE, NONE, NONE, NONE, NONE, NONE
#define NO_EDGES NONE, NONE, NONE, NONE

#define CONVERTS(type) \
    do { \
        struct after { \
            char byte; \
            type entry; \
        }; \
        type *written = PAVRENNI_EMPTY; \
        const type *read = PAVRENNI_EMPTY; \
        CHECK(written != NULL && (uintptr_t)written % offsetof(struct after, entry) == 0); \
        CHECK((uintptr_t)read == (uintptr_t)written); \
    } while (0)

static void pointers(void)
{
    CONVERTS(bool);
    CONVERTS(uint8_t);
    CONVERTS(uint16_t);
    CONVERTS(uint32_t);
    CONVERTS(uint64_t);
    CONVERTS(double);
    CONVERTS(pavrenni_row_of_2);
    CONVERTS(pavrenni_row_of_4);
    CONVERTS(pavrenni_row_of_6);
    CONVERTS(pavrenni_row_of_flags);
}

static void models(void)
{
    struct pavrenni_model model = pavrenni_decompose(
        0, 0, 0, NO_MECHANISMS, NO_MECHANISMS, NONE, NONE, NONE, NONE, NONE, NONE, NONE, NONE, NONE, NONE);
    CHECK(model.code == PAVRENNI_DONE && model.mechanisms == 0 && model.components == 0 && model.entries == 0);
    struct pavrenni_graph graph = pavrenni_compile(0, 0, 0, NO_MECHANISMS, NO_EDGES, NONE, NONE, NONE);
    CHECK(graph.code == PAVRENNI_DONE && graph.edges == 0);
    /* where a slice may not be empty */
    CHECK(pavrenni_compile(0, 0, 1, NO_MECHANISMS, NO_EDGES, NONE, NONE, NONE).code == PAVRENNI_SHORT);
}

/* what scratch there is where there is no detector and no edge: an entry of adj_offsets, a row of links */
static uint32_t offsets[1], links[1][4];
#define LEAST_SCRATCH offsets, 1, NONE, NONE, NONE, NONE, links, 1, NONE, NONE

static void no_detectors(void)
{
    const struct pavrenni_size none = {0, 0, 0};
    struct pavrenni_shot shot = pavrenni_decode_shot(NONE, NONE, LEAST_SCRATCH, none, NO_EDGES, NONE, 0);
    CHECK(shot.code == PAVRENNI_DONE && shot.rounds == 0 && shot.length == 0);
    shot = pavrenni_decode_shot(
        NONE, NONE, NONE, NONE, NONE, NONE, NONE, NONE, NONE, NONE, none, NO_EDGES, NONE, 0);
    CHECK(shot.code == PAVRENNI_SHORT);
    CHECK(pavrenni_decode_batch(NONE, NONE, LEAST_SCRATCH, none, NO_EDGES, NONE, 3, 0).code == PAVRENNI_DONE);
    struct pavrenni_rate rate = pavrenni_rate(NONE, NONE, LEAST_SCRATCH, none, NO_EDGES, NONE, 3, 0, NONE, 3, 0);
    CHECK(rate.code == PAVRENNI_DONE && rate.rate == 0.0);
    struct pavrenni_mark mark = pavrenni_mark(none, NO_EDGES, NONE, 0, NONE, NONE, NONE, NONE);
    CHECK(mark.code == PAVRENNI_DONE && mark.passed == 1);
}

/* two detectors, no edges, no observables: the list is empty, or a lit detector is Stuck and the marker's difference */
static void no_edges(void)
{
    const struct pavrenni_size two = {2, 0, 0};
    const uint64_t dark = 0, lit = 2;
    uint64_t wrong[1];
    uint32_t list[2] = {7, 7};
    struct pavrenni_decoder_scratch s;
    if (!pavrenni_take_decoder(&s, 2, 0)) {
        CHECK(!"there is memory");
        return;
    }
    struct pavrenni_shot shot =
        pavrenni_decode_shot(NONE, list, 2, PAVRENNI_LEND_DECODER(&s), two, NO_EDGES, &dark, 1, 2);
    CHECK(shot.code == PAVRENNI_DONE && shot.rounds == 0 && shot.length == 0);
    shot = pavrenni_decode_shot(NONE, list, 2, PAVRENNI_LEND_DECODER(&s), two, NO_EDGES, &lit, 1, 2);
    CHECK(shot.code == PAVRENNI_STUCK && shot.second == 1 && shot.rounds == 0 && shot.length == 0);
    CHECK(list[0] == 7 && list[1] == 7);
    pavrenni_give_back_decoder(&s);
    struct pavrenni_mark mark = pavrenni_mark(two, NO_EDGES, &dark, 1, 2, NONE, NONE, NONE, wrong, 1);
    CHECK(mark.code == PAVRENNI_DONE && mark.passed == 1);
    mark = pavrenni_mark(two, NO_EDGES, &lit, 1, 2, NONE, NONE, NONE, wrong, 1);
    CHECK(mark.code == PAVRENNI_DONE && mark.passed == 0 && mark.detector == 1);
}

int main(void)
{
    pointers();
    models();
    no_detectors();
    no_edges();
    return verdict(LANGUAGE ", slices of length 0");
}
