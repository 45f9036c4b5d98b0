/* Calls are reentrant: two threads that decode shots of one graph and mark the lists at the same time, over scratch of
 * their own, get what one alone gets. */
#define _POSIX_C_SOURCE 200112L
#include "check.h"
#include "pavrenni_slices.h"

#include <pthread.h>
#include <stdlib.h>
#include <string.h>

enum { ROWS = 6, COLUMNS = 8, DETECTORS = ROWS * COLUMNS, MOST_EDGES = 2 * DETECTORS, LISTED = DETECTORS };
enum { THREADS = 2, SHOTS = 512, PASSES = 20 };

/* the tables that every call of this program is lent */
static struct pavrenni_size size = {DETECTORS, 3, 0};
static uint32_t edge_u[MOST_EDGES], edge_v[MOST_EDGES];
static double edge_weight[MOST_EDGES];
static uint64_t edge_obs[MOST_EDGES];
#define GRAPH size, edge_u, MOST_EDGES, edge_v, MOST_EDGES, edge_weight, MOST_EDGES, edge_obs, MOST_EDGES

static uint64_t shots[SHOTS];

static void add_edge(size_t first, size_t second)
{
    const size_t edge = size.edges++;
    edge_u[edge] = (uint32_t)first;
    edge_v[edge] = (uint32_t)second;
    edge_weight[edge] = 1.0 + 0.25 * (double)(edge * 7 % 5);
    edge_obs[edge] = edge % 8;
}

/* detectors in a grid, each joined to those right of it and below it, the outer columns to the boundary */
static void make_graph(void)
{
    for (size_t d = 0; d < DETECTORS; d++) {
        const size_t column = d % COLUMNS;
        if (column == 0 || column == COLUMNS - 1) {
            add_edge(d, PAVRENNI_BOUNDARY);
        }
        if (column != COLUMNS - 1) {
            add_edge(d, d + 1);
        }
        if (d + COLUMNS < DETECTORS) {
            add_edge(d, d + COLUMNS);
        }
    }
}

/* by xorshift, every second detector lit or so */
static void make_shots(void)
{
    uint64_t word = UINT64_C(0x9e3779b97f4a7c15);
    for (size_t i = 0; i < SHOTS; i++) {
        word ^= word << 13;
        word ^= word >> 7;
        word ^= word << 17;
        shots[i] = word >> (64 - DETECTORS);
    }
}

struct scratch {
    struct pavrenni_decoder_scratch decoder;
    struct pavrenni_mark_scratch marker;
};

static void take(struct scratch *s)
{
    if (!pavrenni_take_decoder(&s->decoder, size.detectors, size.edges)
        || !pavrenni_take_mark(&s->marker, size.detectors, size.edges)) {
        abort();
    }
}

static void give_back(struct scratch *s)
{
    pavrenni_give_back_decoder(&s->decoder);
    pavrenni_give_back_mark(&s->marker);
}

/* all that is answered on a shot; what lies past the list is left as it was, and is compared too */
struct answers {
    uint32_t code, rounds, mark_code, passed, list[LISTED];
    size_t length;
    uint64_t row, mark_row;
};

static void decode_and_mark(struct scratch *s, size_t number, struct answers *out)
{
    memset(out, 0, sizeof *out);
    const struct pavrenni_shot shot = pavrenni_decode_shot(
        &out->row, 1, out->list, LISTED, PAVRENNI_LEND_DECODER(&s->decoder), GRAPH, &shots[number], 1, DETECTORS);
    const struct pavrenni_mark mark = pavrenni_mark(
        GRAPH, &shots[number], 1, DETECTORS, out->list, shot.length, &out->mark_row, 1,
        PAVRENNI_LEND_MARK(&s->marker));
    out->code = shot.code;
    out->rounds = shot.rounds;
    out->length = shot.length;
    out->mark_code = mark.code;
    out->passed = mark.passed;
}

static struct answers alone[SHOTS];

static void decode_alone(void)
{
    struct scratch s;
    take(&s);
    for (size_t i = 0; i < SHOTS; i++) {
        decode_and_mark(&s, i, &alone[i]);
        CHECK(alone[i].code == PAVRENNI_DONE && alone[i].rounds > 0 && alone[i].length > 0);
        CHECK(alone[i].mark_code == PAVRENNI_DONE && alone[i].passed == 1 && alone[i].mark_row == alone[i].row);
    }
    give_back(&s);
}

static pthread_barrier_t both;

struct worker {
    pthread_t thread;
    size_t number, decoded, wrong;
};

/* every second shot, or the others; the threads begin each pass together */
static void *work(void *at)
{
    struct worker *own = at;
    struct scratch s;
    struct answers now;
    take(&s);
    for (size_t pass = 0; pass < PASSES; pass++) {
        pthread_barrier_wait(&both);
        for (size_t i = own->number; i < SHOTS; i += THREADS) {
            decode_and_mark(&s, i, &now);
            own->wrong += memcmp(&now, &alone[i], sizeof now) != 0;
            own->decoded++;
        }
    }
    give_back(&s);
    return NULL;
}

int main(void)
{
    struct worker workers[THREADS];
    make_graph();
    make_shots();
    decode_alone();
    if (pthread_barrier_init(&both, NULL, THREADS) != 0) {
        abort();
    }
    for (size_t t = 0; t < THREADS; t++) {
        workers[t] = (struct worker){.number = t};
        if (pthread_create(&workers[t].thread, NULL, work, &workers[t]) != 0) {
            abort();
        }
    }
    for (size_t t = 0; t < THREADS; t++) {
        CHECK(pthread_join(workers[t].thread, NULL) == 0);
        CHECK(workers[t].decoded == PASSES * SHOTS / THREADS && workers[t].wrong == 0);
    }
    pthread_barrier_destroy(&both);
    return verdict("C, two threads");
}
