/* The example of docs/RULES.md, "Frames", through every call of the library, and refusals of each. */
#include "check.h"
#include "pavrenni_slices.h"

#include <stdlib.h>
#include <string.h>

#define UNTOUCHED UINT64_C(0x5a5a5a5a5a5a5a5a)

/* ---- scratch of which every byte is 1, which is stale in each table and a bool in each bool slice */

#define STALE(s, name, type) memset((s)->name, 1, (s)->lengths.name * sizeof(type))
#define TAKE(kind, KIND, s, detectors, others) \
    do { \
        if (!pavrenni_take_##kind(s, detectors, others)) { \
            abort(); \
        } \
        PAVRENNI_##KIND##_SLICES(STALE, ;, s); \
    } while (0)

/* ---- a model, a graph and the calls on them */

#define PLACES 4

struct model {
    size_t detectors, observables, mechanisms, components, entry_count;
    double probability[PLACES];
    uint8_t detector_counts[PLACES], observable_counts[PLACES], component_counts[PLACES];
    uint8_t component_detectors[PLACES], component_observables[PLACES];
    uint32_t entries[4 * PLACES];
};

struct graph {
    size_t detectors, observables, edges;
    uint32_t edge_u[PLACES], edge_v[PLACES];
    double edge_weight[PLACES];
    uint64_t edge_obs[PLACES];
};

#define MODEL(m) \
    (m)->detectors, (m)->observables, (m)->mechanisms, (m)->probability, (m)->mechanisms, (m)->detector_counts, \
    (m)->mechanisms, (m)->observable_counts, (m)->mechanisms, (m)->component_counts, (m)->mechanisms, \
    (m)->component_detectors, (m)->components, (m)->component_observables, (m)->components, (m)->entries, \
    (m)->entry_count

#define GRAPH(g) \
    (struct pavrenni_size){(g)->detectors, (g)->observables, (g)->edges}, (g)->edge_u, (g)->edges, (g)->edge_v, \
    (g)->edges, (g)->edge_weight, (g)->edges, (g)->edge_obs, (g)->edges

static struct pavrenni_model decompose(const struct model *model, struct model *out)
{
    struct pavrenni_decompose_scratch s;
    TAKE(decompose, DECOMPOSE, &s, model->detectors, model->mechanisms);
    memset(out, 1, sizeof *out);
    struct pavrenni_model answer = pavrenni_decompose(
        MODEL(model), out->probability, PLACES, out->detector_counts, PLACES, out->observable_counts, PLACES,
        out->component_counts, PLACES, out->component_detectors, PLACES, out->component_observables, PLACES,
        out->entries, 4 * PLACES, PAVRENNI_LEND_DECOMPOSE(&s));
    pavrenni_give_back_decompose(&s);
    out->detectors = model->detectors;
    out->observables = model->observables;
    out->mechanisms = answer.mechanisms;
    out->components = answer.components;
    out->entry_count = answer.entries;
    return answer;
}

static struct pavrenni_graph compile(const struct model *model, struct graph *out)
{
    struct pavrenni_compile_scratch s;
    TAKE(compile, COMPILE, &s, model->detectors, model->mechanisms);
    memset(out, 1, sizeof *out);
    struct pavrenni_graph answer = pavrenni_compile(
        MODEL(model), out->edge_u, PLACES, out->edge_v, PLACES, out->edge_weight, PLACES, out->edge_obs, PLACES,
        PAVRENNI_LEND_COMPILE(&s));
    pavrenni_give_back_compile(&s);
    out->detectors = model->detectors;
    out->observables = model->observables;
    out->edges = answer.edges;
    return answer;
}

static struct pavrenni_shot decode_shot(
    const struct graph *graph, uint64_t shot, size_t width, uint64_t *row, uint32_t *list)
{
    struct pavrenni_decoder_scratch s;
    TAKE(decoder, DECODER, &s, graph->detectors, graph->edges);
    struct pavrenni_shot answer =
        pavrenni_decode_shot(row, 1, list, 2, PAVRENNI_LEND_DECODER(&s), GRAPH(graph), &shot, 1, width);
    pavrenni_give_back_decoder(&s);
    return answer;
}

/* what a batch and a rate are asked; the last is how many entries the last scratch slice lacks */
struct asked {
    const uint64_t *rows;
    size_t rows_len, shots, width;
    const uint64_t *truth;
    size_t truth_len, true_shots, true_width, out_len, list_len, lacks;
};

static struct pavrenni_batch decode_batch(const struct graph *graph, const struct asked *a, uint64_t *out)
{
    struct pavrenni_decoder_scratch s;
    uint32_t list[2];
    TAKE(decoder, DECODER, &s, graph->detectors, graph->edges);
    s.lengths.sat -= a->lacks;
    struct pavrenni_batch answer = pavrenni_decode_batch(
        out, a->out_len, list, a->list_len, PAVRENNI_LEND_DECODER(&s), GRAPH(graph), a->rows, a->rows_len, a->shots,
        a->width);
    pavrenni_give_back_decoder(&s);
    return answer;
}

static struct pavrenni_rate rate(const struct graph *graph, const struct asked *a, uint64_t *out)
{
    struct pavrenni_decoder_scratch s;
    uint32_t list[2];
    TAKE(decoder, DECODER, &s, graph->detectors, graph->edges);
    s.lengths.sat -= a->lacks;
    struct pavrenni_rate answer = pavrenni_rate(
        out, a->out_len, list, a->list_len, PAVRENNI_LEND_DECODER(&s), GRAPH(graph), a->rows, a->rows_len, a->shots,
        a->width, a->truth, a->truth_len, a->true_shots, a->true_width);
    pavrenni_give_back_decoder(&s);
    return answer;
}

/* a shot of shot_len words by its width, a row of row_len words, and how many entries the last scratch slice lacks */
struct judged {
    uint64_t shot;
    size_t shot_len, width, row_len, lacks;
};

static struct pavrenni_mark judge(
    const struct graph *graph, const struct judged *j, const uint32_t *list, size_t length, uint64_t *row)
{
    struct pavrenni_mark_scratch s;
    TAKE(mark, MARK, &s, graph->detectors, graph->edges);
    s.lengths.wrong -= j->lacks;
    struct pavrenni_mark answer = pavrenni_mark(
        GRAPH(graph), &j->shot, j->shot_len, j->width, list, length, row, j->row_len, PAVRENNI_LEND_MARK(&s));
    pavrenni_give_back_mark(&s);
    return answer;
}

static struct pavrenni_mark mark(
    const struct graph *graph, uint64_t shot, const uint32_t *list, size_t length, uint64_t *row)
{
    const struct judged j = {.shot = shot, .shot_len = 1, .width = 2, .row_len = 1};
    return judge(graph, &j, list, length, row);
}

/* ---- tests */

/* the example: 0.25 flips detector 0 and observable 0, 0.25 flips detectors 0 and 1 */
static const struct model example = {
    .detectors = 2, .observables = 1, .mechanisms = 2, .entry_count = 4,
    .probability = {0.25, 0.25}, .detector_counts = {1, 2}, .observable_counts = {1, 0}, .entries = {0, 0, 0, 1}};

static bool is_zero(const void *at, size_t bytes)
{
    const unsigned char *byte = at;
    for (size_t i = 0; i < bytes; i++) {
        if (byte[i] != 0) {
            return false;
        }
    }
    return true;
}

/* every table that decomposition was to fill is zero */
static bool no_model(const struct model *m)
{
    return is_zero(m->probability, sizeof m->probability) && is_zero(m->detector_counts, sizeof m->detector_counts)
        && is_zero(m->observable_counts, sizeof m->observable_counts)
        && is_zero(m->component_counts, sizeof m->component_counts)
        && is_zero(m->component_detectors, sizeof m->component_detectors)
        && is_zero(m->component_observables, sizeof m->component_observables) && is_zero(m->entries, sizeof m->entries);
}

static bool no_graph(const struct graph *g)
{
    return is_zero(g->edge_u, sizeof g->edge_u) && is_zero(g->edge_v, sizeof g->edge_v)
        && is_zero(g->edge_weight, sizeof g->edge_weight) && is_zero(g->edge_obs, sizeof g->edge_obs);
}

#define DECOMPOSE_REFUSED(change, code_, first_) \
    do { \
        struct model m = example, left; \
        change; \
        struct pavrenni_model r = decompose(&m, &left); \
        CHECK(r.code == (code_) && r.first == (first_) && r.second == 0 && r.mechanisms == 0 && no_model(&left)); \
    } while (0)

#define COMPILE_REFUSED(change, code_, first_) \
    do { \
        struct model m = example; \
        struct graph left; \
        change; \
        struct pavrenni_graph r = compile(&m, &left); \
        CHECK(r.code == (code_) && r.first == (first_) && r.second == 0 && r.edges == 0 && no_graph(&left)); \
    } while (0)

/* mechanism 1 flips detectors 0, 1 and 2 */
static void make_triple(struct model *m)
{
    m->detectors = 3;
    m->detector_counts[1] = 3;
    m->entries[4] = 2;
    m->entry_count = 5;
}

static void models(void)
{
    struct model out;
    struct pavrenni_model answer = decompose(&example, &out);
    CHECK(answer.code == PAVRENNI_DONE && answer.mechanisms == 2 && answer.components == 0 && answer.entries == 4);
    CHECK(memcmp(out.probability, example.probability, 2 * sizeof(double)) == 0);
    CHECK(memcmp(out.entries, example.entries, 4 * sizeof(uint32_t)) == 0);

    DECOMPOSE_REFUSED(m.detectors = 4097, PAVRENNI_LIMIT, 0);
    DECOMPOSE_REFUSED(m.observables = 129, PAVRENNI_LIMIT, 0);
    DECOMPOSE_REFUSED(m.entry_count = 3, PAVRENNI_SHORT, 0);
    DECOMPOSE_REFUSED(m.entry_count = 0, PAVRENNI_SHORT, 0);
    DECOMPOSE_REFUSED(m.probability[1] = 1.0, PAVRENNI_PROBABILITY, 1);
    DECOMPOSE_REFUSED(m.entries[3] = 2, PAVRENNI_INDEX, 1);
    /* detector 2 is in no other mechanism */
    DECOMPOSE_REFUSED(make_triple(&m), PAVRENNI_NO_COVER, 1);
}

static void graphs(struct graph *graph)
{
    struct pavrenni_graph answer = compile(&example, graph);
    uint64_t weight;
    CHECK(answer.code == PAVRENNI_DONE && answer.edges == 2);
    CHECK(graph->edge_u[0] == 0 && graph->edge_v[0] == PAVRENNI_BOUNDARY && graph->edge_obs[0] == 1);
    CHECK(graph->edge_u[1] == 0 && graph->edge_v[1] == 1 && graph->edge_obs[1] == 0);
    memcpy(&weight, &graph->edge_weight[0], sizeof weight);
    CHECK(weight == UINT64_C(0x3ff193ea7aad030a));

    COMPILE_REFUSED(m.detectors = 4097, PAVRENNI_LIMIT, 0);
    COMPILE_REFUSED(m.entry_count = 3, PAVRENNI_SHORT, 0);
    COMPILE_REFUSED(m.probability[1] = -0.5, PAVRENNI_PROBABILITY, 1);
    COMPILE_REFUSED(m.entries[3] = 0, PAVRENNI_INDEX, 1);
    COMPILE_REFUSED(make_triple(&m), PAVRENNI_NOT_GRAPHLIKE, 1);
}

static void shots(const struct graph *graph)
{
    uint64_t row = 0;
    uint32_t list[2] = {7, 7};
    struct pavrenni_shot answer = decode_shot(graph, 2, 2, &row, list);
    CHECK(answer.code == PAVRENNI_DONE && answer.rounds == 2 && answer.length == 2);
    CHECK(row == 1 && list[0] == 1 && list[1] == 0);
    CHECK(decode_shot(graph, 2, 3, &row, list).code == PAVRENNI_WIDTH);
    CHECK(decode_shot(graph, 2, SIZE_MAX, &row, list).code == PAVRENNI_LENGTH);
    CHECK(decode_shot(graph, 4, 2, &row, list).code == PAVRENNI_PADDING);
    CHECK(row == 1 && list[0] == 1 && list[1] == 0);

    struct graph bad = *graph;
    bad.edge_u[1] = 2;
    struct pavrenni_shot refused = decode_shot(&bad, 2, 2, &row, list);
    CHECK(refused.code == PAVRENNI_INDEX && refused.first == 1 && refused.rounds == 0 && refused.length == 0);
    bad = *graph;
    bad.edge_weight[1] = 1025.0;
    refused = decode_shot(&bad, 2, 2, &row, list);
    CHECK(refused.code == PAVRENNI_PROBABILITY && refused.first == 1);
    bad = *graph;
    bad.observables = 65;
    CHECK(decode_shot(&bad, 2, 2, &row, list).code == PAVRENNI_SHORT);
    bad.observables = 129;
    CHECK(decode_shot(&bad, 2, 2, &row, list).code == PAVRENNI_LIMIT);
    CHECK(row == 1 && list[0] == 1 && list[1] == 0);

    /* the pair edge alone */
    struct graph pair = {.detectors = 2, .observables = 1, .edges = 1, .edge_v = {1}, .edge_weight = {1.0}};
    answer = decode_shot(&pair, 2, 2, &row, list);
    CHECK(answer.code == PAVRENNI_STUCK && answer.first == 0 && answer.second == 0 && answer.rounds == 1);
    CHECK(row == 1 && list[0] == 1 && list[1] == 0);
}

static const uint64_t every_shot[4] = {0, 1, 2, 3};
static const uint64_t one_wrong[4] = {0, 1, 0, 0};
static const struct asked four = {
    .rows = every_shot, .rows_len = 4, .shots = 4, .width = 2, .truth = one_wrong, .truth_len = 4, .true_shots = 4,
    .true_width = 1, .out_len = 4, .list_len = 2};

static bool untouched(const uint64_t *words, size_t count)
{
    for (size_t i = 0; i < count; i++) {
        if (words[i] != UNTOUCHED) {
            return false;
        }
    }
    return true;
}

/* refused by the rate, the output untouched */
#define RATE_REFUSED(change, code_, first_) \
    do { \
        struct asked a = four; \
        struct graph g = *graph; \
        uint64_t out[4] = {UNTOUCHED, UNTOUCHED, UNTOUCHED, UNTOUCHED}; \
        change; \
        struct pavrenni_rate r = rate(&g, &a, out); \
        CHECK(r.code == (code_) && r.first == (first_) && r.second == 0 && r.rate == 0.0 && untouched(out, 4)); \
    } while (0)

/* refused so by a batch too */
#define BOTH_REFUSED(change, code_, first_) \
    do { \
        struct asked a = four; \
        struct graph g = *graph; \
        uint64_t out[4] = {UNTOUCHED, UNTOUCHED, UNTOUCHED, UNTOUCHED}; \
        change; \
        struct pavrenni_batch b = decode_batch(&g, &a, out); \
        CHECK(b.code == (code_) && b.first == (first_) && b.second == 0 && untouched(out, 4)); \
        RATE_REFUSED(change, code_, first_); \
    } while (0)

/* what a batch refuses, and the rate as it does */
static void refusals(const struct graph *graph)
{
    const uint64_t padded[4] = {0, 1, 4, 8};
    BOTH_REFUSED(a.shots = 16777217, PAVRENNI_LIMIT, 0);
    BOTH_REFUSED(a.shots = SIZE_MAX, PAVRENNI_LIMIT, 0);
    BOTH_REFUSED(g.observables = 129, PAVRENNI_LIMIT, 0);
    BOTH_REFUSED(a.out_len = 3, PAVRENNI_SHORT, 0);
    BOTH_REFUSED(a.out_len = 0, PAVRENNI_SHORT, 0);
    BOTH_REFUSED(a.list_len = 1, PAVRENNI_SHORT, 0);
    BOTH_REFUSED(a.lacks = 1, PAVRENNI_SHORT, 0);
    BOTH_REFUSED(g.edge_u[1] = 2, PAVRENNI_INDEX, 1);
    BOTH_REFUSED(g.edge_weight[0] = -1.0, PAVRENNI_PROBABILITY, 0);
    BOTH_REFUSED(a.rows_len = 0, PAVRENNI_LENGTH, 0);
    BOTH_REFUSED(a.rows_len = 3, PAVRENNI_LENGTH, 0);
    BOTH_REFUSED(a.shots = 3, PAVRENNI_LENGTH, 0);
    BOTH_REFUSED(a.width = SIZE_MAX, PAVRENNI_LENGTH, 0);
    BOTH_REFUSED(a.rows = padded, PAVRENNI_PADDING, 2);
    BOTH_REFUSED(a.width = 3, PAVRENNI_WIDTH, 0);
}

/* a boundary edge alone: shots that light detector 1 are Stuck there */
static const struct graph end = {
    .detectors = 2, .observables = 1, .edges = 1, .edge_v = {PAVRENNI_BOUNDARY}, .edge_obs = {1}};

static void stuck(void)
{
    for (size_t at = 0; at < 4; at++) {
        uint64_t rows[4] = {1, 1, 1, 1};
        uint64_t out[4] = {UNTOUCHED, UNTOUCHED, UNTOUCHED, UNTOUCHED};
        uint64_t rated[4] = {UNTOUCHED, UNTOUCHED, UNTOUCHED, UNTOUCHED};
        struct asked a = four;
        rows[at] = 2;
        a.rows = rows;
        struct pavrenni_batch b = decode_batch(&end, &a, out);
        CHECK(b.code == PAVRENNI_STUCK && b.first == at && b.second == 1);
        /* before the shape */
        a.true_width = 2;
        struct pavrenni_rate r = rate(&end, &a, rated);
        CHECK(r.code == PAVRENNI_STUCK && r.first == at && r.second == 1 && r.rate == 0.0);
        for (size_t i = 0; i < 4; i++) {
            CHECK(out[i] == (i < at ? 1 : i == at ? 0 : UNTOUCHED) && rated[i] == out[i]);
        }
    }
}

static void batches(const struct graph *graph)
{
    uint64_t out[4] = {UNTOUCHED, UNTOUCHED, UNTOUCHED, UNTOUCHED};
    CHECK(decode_batch(graph, &four, out).code == PAVRENNI_DONE);
    CHECK(out[0] == 0 && out[1] == 1 && out[2] == 1 && out[3] == 0);
    refusals(graph);
    stuck();
}

#define MARK_REFUSED(change, code_, first_) \
    do { \
        struct judged j = {.shot = 2, .shot_len = 1, .width = 2, .row_len = 1}; \
        struct graph g = *graph; \
        uint64_t left = UNTOUCHED; \
        change; \
        struct pavrenni_mark r = judge(&g, &j, list, 2, &left); \
        CHECK(r.code == (code_) && r.first == (first_) && r.second == 0 && r.passed == 0 && left == UNTOUCHED); \
    } while (0)

static void marks(const struct graph *graph)
{
    const uint32_t list[3] = {0, 1, 2};
    MARK_REFUSED(g.observables = 129, PAVRENNI_LIMIT, 0);
    MARK_REFUSED(j.row_len = 0, PAVRENNI_SHORT, 0);
    MARK_REFUSED(j.lacks = 1, PAVRENNI_SHORT, 0);
    MARK_REFUSED(g.edge_v[1] = 0, PAVRENNI_INDEX, 1);
    MARK_REFUSED(g.edge_weight[1] = 1025.0, PAVRENNI_PROBABILITY, 1);
    MARK_REFUSED(j.shot_len = 0, PAVRENNI_LENGTH, 0);
    MARK_REFUSED(j.width = SIZE_MAX, PAVRENNI_LENGTH, 0);
    MARK_REFUSED(j.shot = 4, PAVRENNI_PADDING, 0);
    MARK_REFUSED(j.width = 3, PAVRENNI_WIDTH, 0);
    const uint32_t repeated[2] = {0, 0};
    uint64_t row = UNTOUCHED;
    struct pavrenni_mark answer = mark(graph, 2, list, 1, &row);
    CHECK(answer.code == PAVRENNI_DONE && answer.passed == 0 && answer.detector == 0);
    CHECK(mark(graph, 2, list, 3, &row).code == PAVRENNI_EDGE);
    CHECK(mark(graph, 2, repeated, 2, &row).code == PAVRENNI_EDGE);
    CHECK(row == UNTOUCHED);
    answer = mark(graph, 2, list, 2, &row);
    CHECK(answer.code == PAVRENNI_DONE && answer.passed == 1 && row == 1);
    CHECK(mark(graph, 0, list, 0, &row).passed == 1 && row == 0);
}

static void rates(const struct graph *graph)
{
    const uint64_t padded[4] = {0, 1, 2, 0};
    uint64_t out[4] = {UNTOUCHED, UNTOUCHED, UNTOUCHED, UNTOUCHED};
    struct asked a = four;
    struct pavrenni_rate answer = rate(graph, &a, out);
    CHECK(answer.code == PAVRENNI_DONE && answer.rate == 0.25);
    CHECK(out[0] == 0 && out[1] == 1 && out[2] == 1 && out[3] == 0);

    /* the true observables: their count, their packing */
    RATE_REFUSED(a.true_shots = 16777217, PAVRENNI_LIMIT, 0);
    RATE_REFUSED(a.truth_len = 3, PAVRENNI_LENGTH, 0);
    RATE_REFUSED(a.truth_len = 0, PAVRENNI_LENGTH, 0);
    RATE_REFUSED(a.true_width = SIZE_MAX, PAVRENNI_LENGTH, 0);
    RATE_REFUSED(a.truth = padded, PAVRENNI_PADDING, 2);
    /* which comes before the width */
    RATE_REFUSED((a.truth = padded, a.width = 3), PAVRENNI_PADDING, 2);

    /* and their shape: the rows are done */
    memset(out, 1, sizeof out);
    a.true_width = 2;
    CHECK(rate(graph, &a, out).code == PAVRENNI_SHAPE);
    CHECK(out[0] == 0 && out[1] == 1 && out[2] == 1 && out[3] == 0);
    a = four;
    a.true_shots = a.truth_len = 3;
    CHECK(rate(graph, &a, out).code == PAVRENNI_SHAPE);

    /* no shots */
    a.shots = a.rows_len = a.true_shots = a.truth_len = 0;
    answer = rate(graph, &a, out);
    CHECK(answer.code == PAVRENNI_DONE && answer.rate == 0.0);
}

static void lengths(void)
{
    struct pavrenni_lengths over = pavrenni_lengths_for(4097, 1);
    struct pavrenni_mark_lengths over_mark = pavrenni_mark_lengths_for(1, 16385);
    CHECK(is_zero(&over, sizeof over) && is_zero(&over_mark, sizeof over_mark));
}

#define IS_NAMED(code) CHECK(strcmp(pavrenni_code_name(code), #code) == 0)

/* every code has a sentence and a name of its own, and so has a number that is none */
static void codes(void)
{
    for (uint32_t code = 0; code <= 14; code++) {
        CHECK(pavrenni_code_text(code)[0] != '\0' && pavrenni_code_name(code)[0] != '\0');
        for (uint32_t other = 0; other < code; other++) {
            CHECK(strcmp(pavrenni_code_text(code), pavrenni_code_text(other)) != 0);
            CHECK(strcmp(pavrenni_code_name(code), pavrenni_code_name(other)) != 0);
        }
    }
    CHECK(strcmp(pavrenni_code_text(0), "done") == 0);
    CHECK(strcmp(pavrenni_code_text(11), "no set of edges explains it") == 0);
    CHECK(strcmp(pavrenni_code_text(14), "a refusal that this header does not know") == 0);
    CHECK(pavrenni_code_text(UINT32_MAX) == pavrenni_code_text(14));
    CHECK(pavrenni_code_name(UINT32_MAX) == pavrenni_code_name(14));
    IS_NAMED(PAVRENNI_DONE);
    IS_NAMED(PAVRENNI_LIMIT);
    IS_NAMED(PAVRENNI_SHORT);
    IS_NAMED(PAVRENNI_FRAME);
    IS_NAMED(PAVRENNI_PROBABILITY);
    IS_NAMED(PAVRENNI_INDEX);
    IS_NAMED(PAVRENNI_NO_COVER);
    IS_NAMED(PAVRENNI_NOT_GRAPHLIKE);
    IS_NAMED(PAVRENNI_LENGTH);
    IS_NAMED(PAVRENNI_PADDING);
    IS_NAMED(PAVRENNI_WIDTH);
    IS_NAMED(PAVRENNI_STUCK);
    IS_NAMED(PAVRENNI_SHAPE);
    IS_NAMED(PAVRENNI_EDGE);
}

int main(void)
{
    struct graph graph;
    codes();
    models();
    graphs(&graph);
    shots(&graph);
    batches(&graph);
    marks(&graph);
    rates(&graph);
    lengths();
    return verdict("C, every call");
}
