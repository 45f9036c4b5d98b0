/* pavrenni_slices.h: what is taken is zero, not null and as long as the library says, and where memory runs out nothing
 * is kept. The heap that the header takes from is one that counts, and that ends where the test says. */
#include <stdint.h>
#include <stdlib.h>

static size_t left, held;

/* C allows a heap to answer a count of 0 with a null */
static void *counted_calloc(size_t count, size_t size)
{
    if (left == 0 || count == 0) {
        return NULL;
    }
    left--;
    held++;
    return calloc(count, size);
}

static void counted_free(void *taken)
{
    held -= taken != NULL;
    free(taken);
}

#define calloc counted_calloc
#define free counted_free
#include "pavrenni_slices.h"
#undef calloc
#undef free

#include "check.h"

#include <string.h>

/* not null, and each byte of it zero */
static bool is_zero(const void *at, size_t bytes)
{
    const unsigned char *byte = at;
    size_t i = 0;
    while (at != NULL && i < bytes && byte[i] == 0) {
        i++;
    }
    return at != NULL && i == bytes;
}

#define IS_ZERO(s, name, type) is_zero((s)->name, (s)->lengths.name * sizeof(type))
#define ONE(s, name, type) +1

/* taken for counts, used, given back; then with every smaller number of slices that the heap has */
#define TAKEN(kind, KIND, lengths_for, detectors, others) \
    do { \
        const size_t slices = PAVRENNI_##KIND##_SLICES(ONE, , &s); \
        struct pavrenni_##kind##_scratch s; \
        left = slices; \
        CHECK(pavrenni_take_##kind(&s, detectors, others) && left == 0 && held == slices); \
        CHECK(PAVRENNI_##KIND##_SLICES(IS_ZERO, &&, &s)); \
        struct lengths_for lengths = lengths_for##_for(detectors, others); \
        CHECK(memcmp(&s.lengths, &lengths, sizeof lengths) == 0); \
        pavrenni_give_back_##kind(&s); \
        CHECK(held == 0); \
        for (size_t there = 0; there < slices; there++) { \
            left = there; \
            CHECK(!pavrenni_take_##kind(&s, detectors, others) && left == 0 && held == 0); \
        } \
    } while (0)

#define TAKEN_EACH(detectors, others) \
    do { \
        TAKEN(decoder, DECODER, pavrenni_lengths, detectors, others); \
        TAKEN(decompose, DECOMPOSE, pavrenni_decompose_lengths, detectors, others); \
        TAKEN(compile, COMPILE, pavrenni_compile_lengths, detectors, others); \
        TAKEN(mark, MARK, pavrenni_mark_lengths, detectors, others); \
    } while (0)

int main(void)
{
    TAKEN_EACH(0, 0);
    TAKEN_EACH(3, 5);
    TAKEN_EACH(4096, 16384);
    /* over the limits */
    TAKEN_EACH(4097, 5);
    TAKEN_EACH(SIZE_MAX, SIZE_MAX);
    return verdict("C, scratch from the heap");
}
