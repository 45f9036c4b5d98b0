/* Scratch for the calls of pavrenni.h: taken from the heap by the lengths that the library tells, lent, given back.
 *
 *     struct pavrenni_decoder_scratch s;
 *     if (!pavrenni_take_decoder(&s, detectors, edges)) { .. }     there is no memory, and nothing to give back
 *     pavrenni_decode_shot(row, row_len, list, list_len, PAVRENNI_LEND_DECODER(&s), size, ..);
 *     pavrenni_give_back_decoder(&s);
 *
 * There are four, each with these names:
 *     decoder    taken for detectors and edges       lent to pavrenni_decode_shot, _decode_batch, _rate after the list
 *     decompose  taken for detectors and mechanisms  lent to pavrenni_decompose at the end
 *     compile    taken for detectors and mechanisms  lent to pavrenni_compile at the end
 *     mark       taken for detectors and edges       lent to pavrenni_mark at the end
 *
 * Scratch that is taken once may be lent to any number of calls on as many detectors, edges and mechanisms or fewer,
 * one at a time: a thread has its own. Its `lengths` say how long the slices are. Every entry is 0 at first, so that a
 * bool is 0 or 1 as the calls ask. No slice is null: where its length is 0, there is room for one entry all the same.
 */
#ifndef PAVRENNI_SLICES_H
#define PAVRENNI_SLICES_H

#include "pavrenni.h"

#include <stdlib.h>

/* rows of the decoder's tables */
typedef uint32_t pavrenni_row_of_2[2];
typedef uint32_t pavrenni_row_of_4[4];
typedef uint32_t pavrenni_row_of_6[6];
typedef bool pavrenni_row_of_flags[8];

/* The slices of each scratch in the order of the calls, each as SLICE(s, name, type of an entry), with NEXT between. */
#define PAVRENNI_DECODER_SLICES(SLICE, NEXT, s)                                                                        \
    SLICE(s, adj_offsets, uint32_t) NEXT                                                                               \
    SLICE(s, adj, pavrenni_row_of_2) NEXT                                                                              \
    SLICE(s, tree, pavrenni_row_of_2) NEXT                                                                             \
    SLICE(s, flags, pavrenni_row_of_flags) NEXT                                                                        \
    SLICE(s, stacks, pavrenni_row_of_6) NEXT                                                                           \
    SLICE(s, links, pavrenni_row_of_4) NEXT                                                                            \
    SLICE(s, growth, double) NEXT                                                                                      \
    SLICE(s, sat, bool)

#define PAVRENNI_DECOMPOSE_SLICES(SLICE, NEXT, s)                                                                      \
    SLICE(s, starts, uint32_t) NEXT                                                                                    \
    SLICE(s, before, uint32_t) NEXT                                                                                    \
    SLICE(s, last_of, uint32_t) NEXT                                                                                   \
    SLICE(s, first_of, uint32_t) NEXT                                                                                  \
    SLICE(s, next_of, uint32_t) NEXT                                                                                   \
    SLICE(s, numbers, uint32_t) NEXT                                                                                   \
    SLICE(s, masks, uint16_t) NEXT                                                                                     \
    SLICE(s, words0, uint64_t) NEXT                                                                                    \
    SLICE(s, words1, uint64_t) NEXT                                                                                    \
    SLICE(s, earlier, uint32_t)

#define PAVRENNI_COMPILE_SLICES(SLICE, NEXT, s)                                                                        \
    SLICE(s, edge_p, double) NEXT                                                                                      \
    SLICE(s, first, uint32_t) NEXT                                                                                     \
    SLICE(s, next, uint32_t)

#define PAVRENNI_MARK_SLICES(SLICE, NEXT, s)                                                                           \
    SLICE(s, marks, uint64_t) NEXT                                                                                     \
    SLICE(s, wrong, uint64_t)

/* Pointer and length of each slice, as arguments of a call. */
#define PAVRENNI_LENT(s, name, type) (s)->name, (s)->lengths.name
#define PAVRENNI_COMMA ,
#define PAVRENNI_LEND_DECODER(s) PAVRENNI_DECODER_SLICES(PAVRENNI_LENT, PAVRENNI_COMMA, s)
#define PAVRENNI_LEND_DECOMPOSE(s) PAVRENNI_DECOMPOSE_SLICES(PAVRENNI_LENT, PAVRENNI_COMMA, s)
#define PAVRENNI_LEND_COMPILE(s) PAVRENNI_COMPILE_SLICES(PAVRENNI_LENT, PAVRENNI_COMMA, s)
#define PAVRENNI_LEND_MARK(s) PAVRENNI_MARK_SLICES(PAVRENNI_LENT, PAVRENNI_COMMA, s)

/* The struct of a scratch, and the two functions that take it and give it back. */
#ifdef __cplusplus
#define PAVRENNI_POINTER(type, value) static_cast<type *>(value)
#else
#define PAVRENNI_POINTER(type, value) (value)
#endif
#define PAVRENNI_MEMBER(s, name, type) type *name
#define PAVRENNI_TAKE(s, name, type)                                                                                   \
    (s)->name = PAVRENNI_POINTER(type, calloc((s)->lengths.name + ((s)->lengths.name == 0), sizeof(type)))
#define PAVRENNI_IS_TAKEN(s, name, type) ((s)->name != NULL)
#define PAVRENNI_GIVE_BACK(s, name, type) free((s)->name)
#define PAVRENNI_HEAP_SCRATCH(NAME, SLICES, LENGTHS)                                                                   \
    struct pavrenni_##NAME##_scratch {                                                                                 \
        SLICES(PAVRENNI_MEMBER, ;, s);                                                                                 \
        struct LENGTHS lengths;                                                                                        \
    };                                                                                                                 \
    static inline void pavrenni_give_back_##NAME(struct pavrenni_##NAME##_scratch *s)                                  \
    {                                                                                                                  \
        SLICES(PAVRENNI_GIVE_BACK, ;, s);                                                                              \
    }                                                                                                                  \
    static inline bool pavrenni_take_##NAME(struct pavrenni_##NAME##_scratch *s, size_t detectors, size_t others)      \
    {                                                                                                                  \
        s->lengths = LENGTHS##_for(detectors, others);                                                                 \
        SLICES(PAVRENNI_TAKE, ;, s);                                                                                   \
        if (SLICES(PAVRENNI_IS_TAKEN, &&, s)) {                                                                        \
            return true;                                                                                               \
        }                                                                                                              \
        pavrenni_give_back_##NAME(s);                                                                                  \
        return false;                                                                                                  \
    }

PAVRENNI_HEAP_SCRATCH(decoder, PAVRENNI_DECODER_SLICES, pavrenni_lengths)
PAVRENNI_HEAP_SCRATCH(decompose, PAVRENNI_DECOMPOSE_SLICES, pavrenni_decompose_lengths)
PAVRENNI_HEAP_SCRATCH(compile, PAVRENNI_COMPILE_SLICES, pavrenni_compile_lengths)
PAVRENNI_HEAP_SCRATCH(mark, PAVRENNI_MARK_SLICES, pavrenni_mark_lengths)

#undef PAVRENNI_HEAP_SCRATCH
#undef PAVRENNI_GIVE_BACK
#undef PAVRENNI_IS_TAKEN
#undef PAVRENNI_TAKE
#undef PAVRENNI_MEMBER
#undef PAVRENNI_POINTER

#endif
