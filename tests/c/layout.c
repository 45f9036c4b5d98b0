/* Prints the size of each struct of pavrenni.h, and place and size of each of its fields. tests/c/layout.txt has what
 * it must print, and the Rust client is held to the same file. */
#include "pavrenni.h"

#include <stdio.h>

#define STRUCT(name) printf(#name " size %zu\n", sizeof(struct name))
#define FIELD(name, field) \
    printf(#name "." #field " at %zu size %zu\n", offsetof(struct name, field), sizeof(((struct name *)0)->field))

/* what every answer begins with */
#define ANSWER(name) \
    STRUCT(name);    \
    FIELD(name, code); \
    FIELD(name, first); \
    FIELD(name, second)

static void answers(void)
{
    ANSWER(pavrenni_model);
    FIELD(pavrenni_model, mechanisms);
    FIELD(pavrenni_model, components);
    FIELD(pavrenni_model, entries);
    ANSWER(pavrenni_graph);
    FIELD(pavrenni_graph, edges);
    ANSWER(pavrenni_shot);
    FIELD(pavrenni_shot, rounds);
    FIELD(pavrenni_shot, length);
    ANSWER(pavrenni_batch);
    ANSWER(pavrenni_mark);
    FIELD(pavrenni_mark, passed);
    FIELD(pavrenni_mark, detector);
    ANSWER(pavrenni_rate);
    FIELD(pavrenni_rate, rate);
}

static void counts(void)
{
    STRUCT(pavrenni_size);
    FIELD(pavrenni_size, detectors);
    FIELD(pavrenni_size, observables);
    FIELD(pavrenni_size, edges);
}

static void decoder_lengths(void)
{
    STRUCT(pavrenni_lengths);
    FIELD(pavrenni_lengths, adj_offsets);
    FIELD(pavrenni_lengths, adj);
    FIELD(pavrenni_lengths, tree);
    FIELD(pavrenni_lengths, flags);
    FIELD(pavrenni_lengths, stacks);
    FIELD(pavrenni_lengths, links);
    FIELD(pavrenni_lengths, growth);
    FIELD(pavrenni_lengths, sat);
}

static void other_lengths(void)
{
    STRUCT(pavrenni_decompose_lengths);
    FIELD(pavrenni_decompose_lengths, starts);
    FIELD(pavrenni_decompose_lengths, before);
    FIELD(pavrenni_decompose_lengths, last_of);
    FIELD(pavrenni_decompose_lengths, first_of);
    FIELD(pavrenni_decompose_lengths, next_of);
    FIELD(pavrenni_decompose_lengths, numbers);
    FIELD(pavrenni_decompose_lengths, masks);
    FIELD(pavrenni_decompose_lengths, words0);
    FIELD(pavrenni_decompose_lengths, words1);
    FIELD(pavrenni_decompose_lengths, earlier);
    STRUCT(pavrenni_compile_lengths);
    FIELD(pavrenni_compile_lengths, edge_p);
    FIELD(pavrenni_compile_lengths, first);
    FIELD(pavrenni_compile_lengths, next);
    STRUCT(pavrenni_mark_lengths);
    FIELD(pavrenni_mark_lengths, marks);
    FIELD(pavrenni_mark_lengths, wrong);
}

int main(void)
{
    answers();
    counts();
    decoder_lengths();
    other_lengths();
    return 0;
}
