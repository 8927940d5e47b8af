/* Why a domain is refused and how far it must shrink, by hand over the baseline's admit; in a file of its own, so that it changes nothing in
   the machine code of the other jobs. */
#include "baseline.h"

#define M UINT64_C(2147483647)

enum { ALL_PARTS = 256 };
enum { VALUES = MARGINS_MOST_VALUES, OUTPUTS = MARGINS_MOST_OUTPUTS };

/* A formula with a domain that is good: one of each for each input. */
typedef struct {
    const uint8_t *bytes;
    size_t length, inputs;
    const int64_t *middles, *strays, *margins;
} question;

unsigned baseline_admissions;

static inline margins_explanation unexplained(uint32_t refusal, uint64_t place)
{
    return (margins_explanation){refusal, 0, 0, 0, place};
}

static inline margins_explanation nothing_to_explain(void)
{
    return (margins_explanation){MARGINS_DONE, MARGINS_NOTHING_TO_EXPLAIN, 0, 0, 0};
}

/* The least t that is refused, and what it met. */
static inline margins_explanation explained(int refused, margins_reply met)
{
    if (refused == 0)
        return (margins_explanation){MARGINS_DONE, MARGINS_NEVER_ADMITTED, 0, (uint16_t)met.refusal, met.place};
    return (margins_explanation){MARGINS_DONE, MARGINS_ADMITTED_TO, (uint8_t)(refused - 1), (uint16_t)met.refusal, met.place};
}

/* What is refused before any step, 0 for none, and the domain where nothing is. */
static margins_explanation asked(const uint8_t *bytes, size_t length,
                                 const int64_t *middles, size_t middles_length,
                                 const int64_t *strays, size_t strays_length,
                                 const int64_t *margins, size_t margins_length, question *q)
{
    margins_formula read = baseline_check(bytes, length);
    if (read.refusal)
        return unexplained(read.refusal, 0);
    if (middles_length != read.inputs || strays_length != read.inputs || margins_length != read.inputs)
        return unexplained(MARGINS_REFUSED_READING_COUNT, 0);
    for (size_t i = 0; i < read.inputs; i++) {
        uint64_t size = middles[i] < 0 ? -(uint64_t)middles[i] : (uint64_t)middles[i];
        if (strays[i] < 0 || margins[i] < 0)
            return unexplained(MARGINS_REFUSED_NEGATIVE_MARGIN, i);
        if (size > M || (uint64_t)strays[i] > M - size || (uint64_t)margins[i] > M - size - (uint64_t)strays[i])
            return unexplained(MARGINS_REFUSED_READING_TOO_LARGE, i);
    }
    *q = (question){bytes, length, read.inputs, middles, strays, margins};
    return unexplained(MARGINS_DONE, 0);
}

/* A stray or margin has at most 31 bits, and its product with t at most 39. */
static margins_reply admitted(const question *q, int parts)
{
    int64_t strays[MARGINS_MOST_INPUTS], margins[MARGINS_MOST_INPUTS];
    int64_t work_middles[VALUES], output_middles[OUTPUTS];
    uint64_t work_strays[VALUES], work_margins[VALUES], output_strays[OUTPUTS], output_margins[OUTPUTS];
    for (size_t i = 0; i < q->inputs; i++) {
        strays[i] = q->strays[i] * parts / ALL_PARTS;
        margins[i] = q->margins[i] * parts / ALL_PARTS;
    }
    baseline_admissions++;
    return baseline_admit(q->bytes, q->length, q->middles, q->inputs, strays, q->inputs, margins, q->inputs,
                          work_middles, VALUES, work_strays, VALUES, work_margins, VALUES,
                          output_middles, OUTPUTS, output_strays, OUTPUTS, output_margins, OUTPUTS);
}

/* 255 comes first, so that of the 258 answers 256 are left for eight halves. */
margins_explanation baseline_explain(const uint8_t *bytes, size_t length,
                                     const int64_t *middles, size_t middles_length,
                                     const int64_t *strays, size_t strays_length,
                                     const int64_t *margins, size_t margins_length)
{
    question q;
    margins_explanation refused = asked(bytes, length, middles, middles_length, strays, strays_length, margins, margins_length, &q);
    if (refused.refusal)
        return refused;
    int most_admitted = -1, least_refused = ALL_PARTS - 1;
    margins_reply met = admitted(&q, ALL_PARTS - 1);
    if (!met.refusal) {
        met = admitted(&q, ALL_PARTS);
        return met.refusal ? explained(ALL_PARTS, met) : nothing_to_explain();
    }
    while (least_refused - most_admitted > 1) {
        int middle = (most_admitted + least_refused) / 2;
        margins_reply reply = admitted(&q, middle);
        if (reply.refusal)
            least_refused = middle, met = reply;
        else
            most_admitted = middle;
    }
    return explained(least_refused, met);
}

margins_explanation baseline_explain_from_above(const uint8_t *bytes, size_t length,
                                                const int64_t *middles, size_t middles_length,
                                                const int64_t *strays, size_t strays_length,
                                                const int64_t *margins, size_t margins_length)
{
    question q;
    margins_explanation refused = asked(bytes, length, middles, middles_length, strays, strays_length, margins, margins_length, &q);
    if (refused.refusal)
        return refused;
    margins_reply met = {0}, reply;
    int parts = ALL_PARTS;
    for (; parts >= 0; parts--, met = reply) {
        reply = admitted(&q, parts);
        if (!reply.refusal)
            break;
    }
    return parts == ALL_PARTS ? nothing_to_explain() : explained(parts + 1, met);
}
