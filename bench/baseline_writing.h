/* A packed formula written by hand: each of the baseline's files has this writer to itself, as it has the reader. */
#ifndef BASELINE_WRITING_H
#define BASELINE_WRITING_H

#include "baseline.h"

#include <string.h>

/* Bits wait at the low end of the word until they fill a byte. */
typedef struct {
    uint8_t *next;
    uint64_t word;
    unsigned waiting;
} writer;

/* At most 31 bits wait and a field has at most 32, so that the word has room. Four bytes are stored at once. */
static inline void put(writer *w, uint64_t field, unsigned width)
{
    w->word = w->word << width | field;
    w->waiting += width;
    if (w->waiting >= 32) {
        w->waiting -= 32;
        uint32_t four = __builtin_bswap32((uint32_t)(w->word >> w->waiting));
        memcpy(w->next, &four, sizeof four);
        w->next += sizeof four;
    }
}

/* Zeros up to the end of a byte, and all bytes that wait. */
static inline void finish(writer *w)
{
    unsigned padding = -w->waiting % 8;
    w->word <<= padding;
    for (w->waiting += padding; w->waiting; *w->next++ = (uint8_t)(w->word >> w->waiting))
        w->waiting -= 8;
}

static inline margins_packed not_packed(uint32_t refusal)
{
    return (margins_packed){refusal, 0, 0};
}

#endif
