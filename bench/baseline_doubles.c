/* The baseline's ball run, its outputs as doubles; in a file of its own, so that it changes nothing in the machine code of the runs. */
#include "baseline.h"

static inline size_t at_most(size_t length, size_t most)
{
    return length < most ? length : most;
}

/* A centre and a margin have at most 31 bits, so the casts lose nothing, and neither does a quotient by a power of two. */
margins_reply baseline_ball_doubles(const uint8_t *bytes, size_t length,
                                    const int64_t *centres, size_t centres_length,
                                    const int64_t *margins, size_t margins_length,
                                    int64_t *work_centres, size_t work_centres_length,
                                    uint64_t *work_margins, size_t work_margins_length,
                                    double *output_centres, size_t output_centres_length,
                                    double *output_margins, size_t output_margins_length)
{
    int64_t unit_centres[MARGINS_MOST_OUTPUTS];
    uint64_t unit_margins[MARGINS_MOST_OUTPUTS];
    margins_reply reply = baseline_ball(bytes, length, centres, centres_length, margins, margins_length,
                                        work_centres, work_centres_length, work_margins, work_margins_length,
                                        unit_centres, at_most(output_centres_length, MARGINS_MOST_OUTPUTS),
                                        unit_margins, at_most(output_margins_length, MARGINS_MOST_OUTPUTS));
    if (reply.refusal)
        return reply;
    uint32_t scale = (bytes[0] & 1u) << 4 | bytes[1] >> 4; /* behind the version's 7 bits */
    double unit = (double)(UINT32_C(1) << scale);
    for (size_t i = 0; i < reply.outputs; i++) {
        output_centres[i] = (double)unit_centres[i] / unit;
        output_margins[i] = (double)unit_margins[i] / unit;
    }
    return reply;
}
