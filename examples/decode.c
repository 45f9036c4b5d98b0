/* Pavrenni from C: the model of docs/RULES.md, "Frames", is decomposed and compiled, a shot decoded, its list marked,
 * the rate of four shots taken. examples/decode.out has what is printed. At the top of the repository:
 *
 *     (cd crates/server && rt lib)
 *     cc -Iinclude examples/decode.c crates/server/out/libserver.a -o decode && ./decode
 */
#include <inttypes.h>
#include <stdio.h>
#include "pavrenni_slices.h"

/* two detectors, an observable, two mechanisms whose lists have four entries together */
enum { DETECTORS = 2, OBSERVABLES = 1, MECHANISMS = 2, ENTRIES = 4, SHOTS = 4 };

/* The tables of a model. No mechanism has components, so that two of the seven are empty. */
struct tables {
    double probability[MECHANISMS];
    uint8_t detector_counts[MECHANISMS], observable_counts[MECHANISMS], component_counts[MECHANISMS];
    uint32_t entries[ENTRIES];
};
#define TABLES(t) \
    (t)->probability, MECHANISMS, (t)->detector_counts, MECHANISMS, (t)->observable_counts, MECHANISMS, \
    (t)->component_counts, MECHANISMS, PAVRENNI_EMPTY, 0, PAVRENNI_EMPTY, 0, (t)->entries, ENTRIES

/* A graph: each mechanism may give an edge, and a row of one observable is one word. */
struct graph {
    struct pavrenni_size size;
    uint32_t edge_u[MECHANISMS], edge_v[MECHANISMS];
    double edge_weight[MECHANISMS];
    uint64_t edge_obs[MECHANISMS];
};
#define EDGES(g) \
    (g)->edge_u, MECHANISMS, (g)->edge_v, MECHANISMS, (g)->edge_weight, MECHANISMS, (g)->edge_obs, MECHANISMS

/* whether a call was refused, and then it is said why */
static bool refused(const char *call, uint32_t code)
{
    if (code != PAVRENNI_DONE) {
        printf("%s: refused with %s: %s\n", call, pavrenni_code_name(code), pavrenni_code_text(code));
    }
    return code != PAVRENNI_DONE;
}

static bool make_graph(struct graph *graph)
{
    /* 0.25 that detector 0 and observable 0 flip, 0.25 that detectors 0 and 1 flip */
    const struct tables given = {{0.25, 0.25}, {1, 2}, {1, 0}, {0, 0}, {0, 0, 0, 1}};
    struct tables decomposed;
    struct pavrenni_decompose_scratch d;
    struct pavrenni_compile_scratch c;
    if (!pavrenni_take_decompose(&d, DETECTORS, MECHANISMS)) {
        return false;
    }
    const struct pavrenni_model model = pavrenni_decompose(
        DETECTORS, OBSERVABLES, MECHANISMS, TABLES(&given), TABLES(&decomposed), PAVRENNI_LEND_DECOMPOSE(&d));
    pavrenni_give_back_decompose(&d);
    if (refused("decompose", model.code) || !pavrenni_take_compile(&c, DETECTORS, model.mechanisms)) {
        return false;
    }
    const struct pavrenni_graph compiled = pavrenni_compile(
        DETECTORS, OBSERVABLES, model.mechanisms, TABLES(&decomposed), EDGES(graph), PAVRENNI_LEND_COMPILE(&c));
    pavrenni_give_back_compile(&c);
    graph->size.edges = compiled.edges;
    return !refused("compile", compiled.code);
}

/* a shot decoded, and the decoder's list marked as if a group had handed it in */
static void decode(
    const struct graph *g, struct pavrenni_decoder_scratch *s, struct pavrenni_mark_scratch *m, uint64_t shot)
{
    uint64_t row = 0;
    uint32_t list[DETECTORS];
    const struct pavrenni_shot answer = pavrenni_decode_shot(
        &row, 1, list, DETECTORS, PAVRENNI_LEND_DECODER(s), g->size, EDGES(g), &shot, 1, DETECTORS);
    if (refused("decode", answer.code)) {
        return;
    }
    printf("decode: list");
    for (size_t i = 0; i < answer.length; i++) {
        printf(" %" PRIu32, list[i]);
    }
    printf(", row %" PRIu64 "\n", row);
    const struct pavrenni_mark marked =
        pavrenni_mark(g->size, EDGES(g), &shot, 1, DETECTORS, list, answer.length, &row, 1, PAVRENNI_LEND_MARK(m));
    if (!refused("mark", marked.code)) {
        printf("mark: %s\n", marked.passed ? "Pass" : "Differs");
    }
}

static void rate(const struct graph *g, struct pavrenni_decoder_scratch *s)
{
    const uint64_t shots[SHOTS] = {0, 1, 2, 3}, truth[SHOTS] = {0, 1, 0, 0};
    uint64_t rows[SHOTS];
    uint32_t list[DETECTORS];
    const struct pavrenni_rate answer = pavrenni_rate(
        rows, SHOTS, list, DETECTORS, PAVRENNI_LEND_DECODER(s), g->size, EDGES(g),
        shots, SHOTS, SHOTS, DETECTORS, truth, SHOTS, SHOTS, OBSERVABLES);
    if (!refused("rate", answer.code)) {
        printf("rate: %g\n", answer.rate);
    }
}

int main(void)
{
    struct graph graph = {{DETECTORS, OBSERVABLES, 0}, {0, 0}, {0, 0}, {0, 0}, {0, 0}};
    struct pavrenni_decoder_scratch s;
    struct pavrenni_mark_scratch m;
    if (!make_graph(&graph) || !pavrenni_take_decoder(&s, DETECTORS, graph.size.edges)) {
        return 1;
    }
    printf("compile: edges %zu\n", graph.size.edges);
    if (pavrenni_take_mark(&m, DETECTORS, graph.size.edges)) {
        decode(&graph, &s, &m, 2); /* detector 1 is lit */
        decode(&graph, &s, &m, 4); /* there is no detector 2 */
        rate(&graph, &s);
        pavrenni_give_back_mark(&m);
    }
    pavrenni_give_back_decoder(&s);
    return 0;
}
