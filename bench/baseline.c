/* Decoded once onto the stack, since a second reading of the packed bits costs more than the store. */
#include "baseline_reading.h"

#include <stdbool.h>

static inline margins_reply refused(uint32_t refusal, uint64_t place)
{
    return (margins_reply){refusal, 0, place};
}

/* A reading outside its limits: a negative stray or margin is told before its reach. */
static inline margins_reply misread(bool negative, uint64_t place)
{
    return refused(negative ? MARGINS_REFUSED_NEGATIVE_MARGIN : MARGINS_REFUSED_READING_TOO_LARGE, place);
}

static inline margins_reply done(uint32_t outputs)
{
    return (margins_reply){MARGINS_DONE, outputs, 0};
}

/* For p from 0 on: p/Q rounded up. */
static inline uint64_t up(uint64_t p, uint32_t scale)
{
    return (p + (UINT64_C(1) << scale) - 1) >> scale;
}

/* T/a and a half, rounded down, where T is Q times Q: below zero a tie goes the other way than in the quotient of the sizes. */
static inline int64_t inverse(int64_t a, uint64_t t)
{
    uint64_t n = size(a), quotient = (t + ((n - (a < 0)) >> 1)) / n;
    return a < 0 ? -(int64_t)quotient : (int64_t)quotient;
}

/* T times a doubt, divided by a product and rounded up. It fits: a doubt that does not reach 0 is below 2^30, and the product below 2^62. */
static inline uint64_t doubt_up(uint64_t doubt, uint64_t factor, uint64_t other, uint32_t scale)
{
    uint64_t divisor = factor * other;
    return ((doubt << 2 * scale) + divisor - 1) / divisor;
}

margins_formula baseline_check(const uint8_t *bytes, size_t length)
{
    formula f;
    uint32_t refusal = read_formula(bytes, length, &f);
    return refusal ? no_formula(refusal) : header_of(&f);
}

margins_reply baseline_plain(const uint8_t *bytes, size_t length,
                             const int64_t *readings, size_t readings_length,
                             int64_t *work, size_t work_length,
                             int64_t *output, size_t output_length)
{
    formula f;
    uint32_t refusal = read_formula(bytes, length, &f);
    if (refusal)
        return refused(refusal, 0);
    if (readings_length != f.inputs)
        return refused(MARGINS_REFUSED_READING_COUNT, 0);
    for (size_t i = 0; i < f.inputs; i++)
        if (size(readings[i]) > M)
            return refused(MARGINS_REFUSED_READING_TOO_LARGE, i);
    if (work_length < f.inputs + f.instructions || output_length < f.outputs)
        return refused(MARGINS_REFUSED_NO_ROOM, 0);

    for (size_t i = 0; i < f.inputs; i++)
        work[i] = readings[i];
    int64_t half = f.scale ? INT64_C(1) << (f.scale - 1) : 0;
    uint64_t t = UINT64_C(1) << 2 * f.scale;
    for (size_t k = 0; k < f.instructions; k++) {
        const instruction *at = &f.program[k];
        int64_t centre;
        switch (at->code) {
        case CONSTANT:
            centre = at->constant;
            break;
        case NEGATE:
            centre = -work[at->left];
            break;
        case ADD:
            centre = work[at->left] + work[at->right];
            break;
        case SUBTRACT:
            centre = work[at->left] - work[at->right];
            break;
        default:
            if (at->code == MULTIPLY) {
                centre = (work[at->left] * work[at->right] + half) >> f.scale;
            } else if (at->code == RECIPROCAL) {
                if (work[at->left] == 0)
                    return refused(MARGINS_REFUSED_MAY_BE_ZERO, k);
                centre = inverse(work[at->left], t);
            } else {
                centre = at->constant;
            }
        }
        if (size(centre) > M)
            return refused(MARGINS_REFUSED_OUT_OF_REACH, k);
        work[f.inputs + k] = centre;
    }
    for (size_t i = 0; i < f.outputs; i++)
        output[i] = work[f.output[i]];
    return done(f.outputs);
}

margins_reply baseline_ball(const uint8_t *bytes, size_t length,
                            const int64_t *centres, size_t centres_length,
                            const int64_t *margins, size_t margins_length,
                            int64_t *work_centres, size_t work_centres_length,
                            uint64_t *work_margins, size_t work_margins_length,
                            int64_t *output_centres, size_t output_centres_length,
                            uint64_t *output_margins, size_t output_margins_length)
{
    formula f;
    uint32_t refusal = read_formula(bytes, length, &f);
    if (refusal)
        return refused(refusal, 0);
    if (centres_length != f.inputs || margins_length != f.inputs)
        return refused(MARGINS_REFUSED_READING_COUNT, 0);
    for (size_t i = 0; i < f.inputs; i++)
        if (size(centres[i]) > M || margins[i] < 0 || margins[i] > M - (int64_t)size(centres[i]))
            return misread(margins[i] < 0, i);
    size_t values = f.inputs + f.instructions;
    if (work_centres_length < values || work_margins_length < values ||
        output_centres_length < f.outputs || output_margins_length < f.outputs)
        return refused(MARGINS_REFUSED_NO_ROOM, 0);

    for (size_t i = 0; i < f.inputs; i++) {
        work_centres[i] = centres[i];
        work_margins[i] = (uint64_t)margins[i];
    }
    int64_t half = f.scale ? INT64_C(1) << (f.scale - 1) : 0;
    int64_t below_unit = (INT64_C(1) << f.scale) - 1;
    uint64_t t = UINT64_C(1) << 2 * f.scale;
    for (size_t k = 0; k < f.instructions; k++) {
        const instruction *at = &f.program[k];
        int64_t centre;
        uint64_t margin;
        switch (at->code) {
        case CONSTANT:
            centre = at->constant;
            margin = 0;
            break;
        case NEGATE:
            centre = -work_centres[at->left];
            margin = work_margins[at->left];
            break;
        case ADD:
            centre = work_centres[at->left] + work_centres[at->right];
            margin = work_margins[at->left] + work_margins[at->right];
            break;
        case SUBTRACT:
            centre = work_centres[at->left] - work_centres[at->right];
            margin = work_margins[at->left] + work_margins[at->right];
            break;
        case MULTIPLY: {
            int64_t a = work_centres[at->left], b = work_centres[at->right];
            uint64_t r = work_margins[at->left], s = work_margins[at->right];
            int64_t raised = a * b + half;
            centre = raised >> f.scale;
            uint64_t lost = size((raised & below_unit) - half);
            margin = up((size(a) + r) * s + size(b) * r + lost, f.scale);
            break;
        }
        default:
            if (at->code == RECIPROCAL) {
                int64_t a = work_centres[at->left];
                uint64_t r = work_margins[at->left], n = size(a);
                if (n <= r)
                    return refused(MARGINS_REFUSED_MAY_BE_ZERO, k);
                centre = inverse(a, t);
                margin = doubt_up(r, n - r, n, f.scale) + ((uint64_t)(centre * a) != t);
                break;
            }
            centre = at->constant;
            margin = at->code - COEFFICIENT;
        }
        if (size(centre) + margin > M)
            return refused(MARGINS_REFUSED_OUT_OF_REACH, k);
        work_centres[f.inputs + k] = centre;
        work_margins[f.inputs + k] = margin;
    }
    for (size_t i = 0; i < f.outputs; i++) {
        output_centres[i] = work_centres[f.output[i]];
        output_margins[i] = work_margins[f.output[i]];
    }
    return done(f.outputs);
}

static bool admissible(int64_t middle, int64_t stray, int64_t margin)
{
    if (size(middle) > M || stray < 0 || stray > M || margin < 0 || margin > M)
        return false;
    return (int64_t)size(middle) + stray + margin <= M;
}

margins_reply baseline_admit(const uint8_t *bytes, size_t length,
                             const int64_t *middles, size_t middles_length,
                             const int64_t *strays, size_t strays_length,
                             const int64_t *margins, size_t margins_length,
                             int64_t *work_middles, size_t work_middles_length,
                             uint64_t *work_strays, size_t work_strays_length,
                             uint64_t *work_margins, size_t work_margins_length,
                             int64_t *output_middles, size_t output_middles_length,
                             uint64_t *output_strays, size_t output_strays_length,
                             uint64_t *output_margins, size_t output_margins_length)
{
    formula f;
    uint32_t refusal = read_formula(bytes, length, &f);
    if (refusal)
        return refused(refusal, 0);
    if (middles_length != f.inputs || strays_length != f.inputs || margins_length != f.inputs)
        return refused(MARGINS_REFUSED_READING_COUNT, 0);
    for (size_t i = 0; i < f.inputs; i++)
        if (!admissible(middles[i], strays[i], margins[i]))
            return misread(strays[i] < 0 || margins[i] < 0, i);
    size_t values = f.inputs + f.instructions;
    if (work_middles_length < values || work_strays_length < values || work_margins_length < values ||
        output_middles_length < f.outputs || output_strays_length < f.outputs || output_margins_length < f.outputs)
        return refused(MARGINS_REFUSED_NO_ROOM, 0);

    for (size_t i = 0; i < f.inputs; i++) {
        work_middles[i] = middles[i];
        work_strays[i] = (uint64_t)strays[i];
        work_margins[i] = (uint64_t)margins[i];
    }
    uint64_t half = f.scale ? UINT64_C(1) << (f.scale - 1) : 0;
    uint64_t below_unit = (UINT64_C(1) << f.scale) - 1;
    uint64_t t = UINT64_C(1) << 2 * f.scale;
    for (size_t k = 0; k < f.instructions; k++) {
        const instruction *at = &f.program[k];
        int64_t middle;
        uint64_t stray, margin;
        switch (at->code) {
        case CONSTANT:
            middle = at->constant;
            stray = 0;
            margin = 0;
            break;
        case NEGATE:
            middle = -work_middles[at->left];
            stray = work_strays[at->left];
            margin = work_margins[at->left];
            break;
        case ADD:
            middle = work_middles[at->left] + work_middles[at->right];
            stray = work_strays[at->left] + work_strays[at->right];
            margin = work_margins[at->left] + work_margins[at->right];
            break;
        case SUBTRACT:
            middle = work_middles[at->left] - work_middles[at->right];
            stray = work_strays[at->left] + work_strays[at->right];
            margin = work_margins[at->left] + work_margins[at->right];
            break;
        case MULTIPLY: {
            int64_t a = work_middles[at->left], b = work_middles[at->right];
            uint64_t strays_a = work_strays[at->left], strays_b = work_strays[at->right];
            uint64_t r = work_margins[at->left], s = work_margins[at->right];
            uint64_t around_a = size(a) + strays_a, around_b = size(b) + strays_b;
            /* 0 for a factor that does not stray and is a multiple of Q: no product that it covers is rounded. */
            uint64_t rest_a = ((uint64_t)a & below_unit) | strays_a, rest_b = ((uint64_t)b & below_unit) | strays_b;
            middle = (a * b + (int64_t)half) >> f.scale;
            stray = up(around_a * strays_b + size(b) * strays_a, f.scale);
            margin = up((around_a + r) * s + around_b * r + (rest_a && rest_b ? half : 0), f.scale);
            break;
        }
        default:
            if (at->code == RECIPROCAL) {
                int64_t a = work_middles[at->left];
                uint64_t strays_a = work_strays[at->left], r = work_margins[at->left], n = size(a);
                if (n <= strays_a + r)
                    return refused(MARGINS_REFUSED_MAY_BE_ZERO, k);
                middle = inverse(a, t);
                stray = doubt_up(strays_a, n - strays_a, n, f.scale);
                margin = doubt_up(r, n - strays_a - r, n - strays_a, f.scale) + 1;
                break;
            }
            middle = at->constant;
            stray = 0;
            margin = at->code - COEFFICIENT;
        }
        if (size(middle) + stray + margin > M)
            return refused(MARGINS_REFUSED_OUT_OF_REACH, k);
        work_middles[f.inputs + k] = middle;
        work_strays[f.inputs + k] = stray;
        work_margins[f.inputs + k] = margin;
    }
    for (size_t i = 0; i < f.outputs; i++) {
        output_middles[i] = work_middles[f.output[i]];
        output_strays[i] = work_strays[f.output[i]];
        output_margins[i] = work_margins[f.output[i]];
    }
    return done(f.outputs);
}
