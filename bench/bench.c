/* bench: the library beside the baseline, in small batches by turns; prints ratios of medians and how time grows with the instructions.
 * bench count WORKLOAD SIDE JOB RUNS: runs one job so often and measures nothing, for a tool that counts instructions. */
#define _POSIX_C_SOURCE 199309L
#include "baseline.h"
#include "workloads.h"

#include <stdbool.h>
#include <stdio.h>
#include <stdlib.h>
#include <string.h>
#include <time.h>

enum { CHECK, PLAIN, BALL, ADMIT, PACK, UNPACK, DOUBLES, TEXT, EXPLAIN, FORMULA_JOBS, TO_DECIMAL = FORMULA_JOBS, FROM_DECIMAL, JOBS };
enum { BASELINE, LIBRARY, SIDES };
enum { ROUNDS = 501, BATCH_NANOSECONDS = 20000, TRIED_RUNS = 100 };
enum { VALUES = MARGINS_MOST_VALUES, OUTPUTS = MARGINS_MOST_OUTPUTS, STEPS = MARGINS_MOST_INSTRUCTIONS, BYTES = MARGINS_MOST_BYTES };
enum { FORMULAS = 5, DECIMAL_BYTES = MARGINS_MOST_DECIMAL_BYTES };

static const char *const job_names[JOBS] = {"check", "plain", "ball", "admit", "pack", "unpack", "doubles", "text", "explain",
                                            "dec.out", "dec.in"};
static const uint32_t growing[] = {16, 64, 256, 512};

/* What a run leaves, cleared before two runs are compared. */
static struct {
    int64_t work[VALUES], output[OUTPUTS];
    uint64_t work_strays[VALUES], output_strays[OUTPUTS];
    uint64_t work_margins[VALUES], output_margins[OUTPUTS];
    int64_t codes[STEPS], firsts[STEPS], seconds[STEPS];
    uint8_t bytes[BYTES];
    double double_centres[OUTPUTS], double_margins[OUTPUTS];
    int64_t decimal_centres[BALLS], read_centres[BALLS], read_margins[BALLS];
    uint64_t decimal_margins[BALLS];
    uint8_t decimal_texts[BALLS][DECIMAL_BYTES];
    margins_explanation explanation;
} left;

typedef uint32_t run(const workload *w);

/* One function for each job of each side. */
#define RUNS(side)                                                                                                                       \
    static uint32_t side##_check_run(const workload *w)                                                                                  \
    {                                                                                                                                    \
        return side##_check(w->bytes, w->length).refusal;                                                                                \
    }                                                                                                                                    \
    static uint32_t side##_plain_run(const workload *w)                                                                                  \
    {                                                                                                                                    \
        return side##_plain(w->bytes, w->length, w->middles, w->inputs, left.work, VALUES, left.output, OUTPUTS).refusal;                \
    }                                                                                                                                    \
    static uint32_t side##_ball_run(const workload *w)                                                                                   \
    {                                                                                                                                    \
        return side##_ball(w->bytes, w->length, w->middles, w->inputs, w->margins, w->inputs, left.work, VALUES,                         \
                           left.work_margins, VALUES, left.output, OUTPUTS, left.output_margins, OUTPUTS).refusal;                       \
    }                                                                                                                                    \
    static uint32_t side##_admit_run(const workload *w)                                                                                  \
    {                                                                                                                                    \
        return side##_admit(w->bytes, w->length, w->middles, w->inputs, w->strays, w->inputs, w->margins, w->inputs, left.work, VALUES,  \
                            left.work_strays, VALUES, left.work_margins, VALUES, left.output, OUTPUTS, left.output_strays, OUTPUTS,      \
                            left.output_margins, OUTPUTS).refusal;                                                                       \
    }                                                                                                                                    \
    static uint32_t side##_pack_run(const workload *w)                                                                                   \
    {                                                                                                                                    \
        return side##_pack(w->scale, w->inputs, w->codes, w->instructions, w->firsts, w->instructions, w->seconds, w->instructions,      \
                           &w->output, 1, left.bytes, BYTES).refusal;                                                                    \
    }                                                                                                                                    \
    static uint32_t side##_unpack_run(const workload *w)                                                                                 \
    {                                                                                                                                    \
        return side##_unpack(w->bytes, w->length, left.codes, STEPS, left.firsts, STEPS, left.seconds, STEPS,                            \
                             left.output, OUTPUTS).refusal;                                                                              \
    }                                                                                                                                    \
    static uint32_t side##_doubles_run(const workload *w)                                                                                \
    {                                                                                                                                    \
        return side##_ball_doubles(w->bytes, w->length, w->middles, w->inputs, w->margins, w->inputs, left.work, VALUES,                 \
                                   left.work_margins, VALUES, left.double_centres, OUTPUTS, left.double_margins, OUTPUTS).refusal;       \
    }                                                                                                                                    \
    static uint32_t side##_text_run(const workload *w)                                                                                   \
    {                                                                                                                                    \
        return side##_pack_text(w->scale, w->inputs, (const uint8_t *)w->text, w->text_length, left.bytes, BYTES).refusal;               \
    }                                                                                                                                    \
    static uint32_t side##_explain_run(const workload *w)                                                                                \
    {                                                                                                                                    \
        left.explanation = side##_explain(w->bytes, w->length, w->middles, w->inputs, w->wide_strays, w->inputs, w->margins, w->inputs); \
        return left.explanation.refusal;                                                                                                 \
    }                                                                                                                                    \
    static uint32_t side##_to_decimal_run(const workload *w)                                                                             \
    {                                                                                                                                    \
        uint32_t refusals = 0;                                                                                                           \
        for (int i = 0; i < BALLS; i++)                                                                                                  \
            refusals |= side##_to_decimal(w->scale, w->decimals, w->middles[i], (uint64_t)w->margins[i], &left.decimal_centres[i], 1,    \
                                          &left.decimal_margins[i], 1, left.decimal_texts[i], DECIMAL_BYTES).refusal;                    \
        return refusals;                                                                                                                 \
    }                                                                                                                                    \
    static uint32_t side##_from_decimal_run(const workload *w)                                                                           \
    {                                                                                                                                    \
        uint32_t refusals = 0;                                                                                                           \
        for (int i = 0; i < BALLS; i++)                                                                                                  \
            refusals |= side##_from_decimal(w->scale, w->numbers[i].text, w->numbers[i].length, w->doubts[i].text, w->doubts[i].length,  \
                                            &left.read_centres[i], 1, &left.read_margins[i], 1).refusal;                                 \
        return refusals;                                                                                                                 \
    }

RUNS(baseline)
RUNS(margins)

static run *const runs[SIDES][JOBS] = {
    {baseline_check_run, baseline_plain_run, baseline_ball_run, baseline_admit_run, baseline_pack_run, baseline_unpack_run,
     baseline_doubles_run, baseline_text_run, baseline_explain_run, baseline_to_decimal_run, baseline_from_decimal_run},
    {margins_check_run, margins_plain_run, margins_ball_run, margins_admit_run, margins_pack_run, margins_unpack_run,
     margins_doubles_run, margins_text_run, margins_explain_run, margins_to_decimal_run, margins_from_decimal_run},
};

typedef struct {
    double nanoseconds[SIDES][JOBS];
} medians;

static void fail(const char *why, const workload *w, int job)
{
    fprintf(stderr, "bench: %s: %s: %s\n", w->name, job_names[job], why);
    exit(1);
}

static bool has(const workload *w, int job)
{
    return job >= FORMULA_JOBS ? w->numbers[0].length : job == TEXT ? w->text_length : w->length;
}

/* The header's count of the formula that was packed last. */
static uint32_t packed_instructions(void)
{
    return (left.bytes[2] & 127u) << 3 | left.bytes[3] >> 5;
}

/* Both sides accept and leave the same. */
static void agree(const workload *w)
{
    static __typeof__(left) kept;
    for (int job = 0; job < JOBS; job++) {
        if (!has(w, job))
            continue;
        memset(&left, 0, sizeof left);
        if (runs[BASELINE][job](w))
            fail("the baseline refuses", w, job);
        if (job == PACK && memcmp(left.bytes, w->bytes, sizeof left.bytes))
            fail("the baseline packs other bytes", w, job);
        if (job == TEXT && packed_instructions() != w->instructions)
            fail("the text has another number of instructions", w, job);
        if (job == EXPLAIN && left.explanation.answer != MARGINS_ADMITTED_TO)
            fail("the domain is not one that must shrink", w, job);
        kept = left;
        memset(&left, 0, sizeof left);
        if (runs[LIBRARY][job](w))
            fail("the library refuses", w, job);
        if (memcmp(&kept, &left, sizeof left))
            fail("the two differ", w, job);
    }
}

static double now(void)
{
    struct timespec t;
    clock_gettime(CLOCK_MONOTONIC, &t);
    return (double)t.tv_sec * 1e9 + (double)t.tv_nsec;
}

static double batch(run *job, const workload *w, int times)
{
    uint32_t refusals = 0;
    double begun = now();
    for (int i = 0; i < times; i++)
        refusals |= job(w);
    double taken = now() - begun;
    if (refusals)
        exit(1);
    return taken / times;
}

static int by_size(const void *one, const void *other)
{
    double a = *(const double *)one, b = *(const double *)other;
    return (a > b) - (a < b);
}

/* A job at a time, so that no other job disturbs what the processor has learnt of it; small batches of its two sides in turn, so that whatever
   slows the machine slows both. */
static medians measure(const workload *w)
{
    static double taken[SIDES][JOBS][ROUNDS];
    int times[SIDES][JOBS];
    medians found = {{{0}}};
    agree(w);
    for (int side = 0; side < SIDES; side++)
        for (int job = 0; job < JOBS; job++)
            times[side][job] = has(w, job) ? 1 + (int)(BATCH_NANOSECONDS / batch(runs[side][job], w, TRIED_RUNS)) : 0;
    for (int job = 0; job < JOBS; job++)
        for (int round = 0; has(w, job) && round < ROUNDS; round++)
            for (int turn = 0; turn < SIDES; turn++) {
                int side = (turn + round) % SIDES;
                taken[side][job][round] = batch(runs[side][job], w, times[side][job]);
            }
    for (int side = 0; side < SIDES; side++)
        for (int job = 0; job < JOBS; job++) {
            if (!has(w, job))
                continue;
            qsort(taken[side][job], ROUNDS, sizeof(double), by_size);
            found.nanoseconds[side][job] = taken[side][job][ROUNDS / 2];
        }
    return found;
}

static void heading(const char *words, int first, int end)
{
    printf("%-24s", words);
    for (int job = first; job < end; job++)
        printf("%8s", job_names[job]);
}

static void print_ratios(const workload *w, const medians *found, int first, int end)
{
    printf("%-24s", w->name);
    for (int job = first; job < end; job++)
        if (has(w, job))
            printf("%8.2f", found->nanoseconds[LIBRARY][job] / found->nanoseconds[BASELINE][job]);
        else
            printf("%8s", "-");
}

static void ratios(const workload *w)
{
    heading("library over baseline", 0, FORMULA_JOBS);
    printf("%24s\n", "library's ball/plain");
    for (int i = 0; i < FORMULAS; i++) {
        medians found = measure(&w[i]);
        print_ratios(&w[i], &found, 0, FORMULA_JOBS);
        printf("%24.2f\n", found.nanoseconds[LIBRARY][BALL] / found.nanoseconds[LIBRARY][PLAIN]);
    }
}

/* How many admissions the baseline's way takes, and how many it would by trying each t from the whole domain down. */
static void admissions(const workload *w)
{
    for (int i = 0; i < FORMULAS; i++, w++) {
        baseline_admissions = 0;
        margins_explanation found = baseline_explain(w->bytes, w->length, w->middles, w->inputs, w->wide_strays, w->inputs, w->margins, w->inputs);
        unsigned by_halves = baseline_admissions;
        margins_explanation tried = baseline_explain_from_above(w->bytes, w->length, w->middles, w->inputs, w->wide_strays, w->inputs,
                                                                w->margins, w->inputs);
        if (memcmp(&found, &tried, sizeof found))
            fail("from above it is another explanation", w, EXPLAIN);
        printf("explain, %s: admitted to %d of 256; admissions by halves %u, from above %u\n", w->name, found.parts, by_halves,
               baseline_admissions - by_halves);
    }
}

static void decimal_ratios(const workload *w)
{
    heading("library over baseline", FORMULA_JOBS, JOBS);
    printf("%24s\n", "library's ns for one");
    for (int i = 0; i < DECIMAL_KINDS; i++) {
        medians found = measure(&w[i]);
        print_ratios(&w[i], &found, FORMULA_JOBS, JOBS);
        for (int job = FORMULA_JOBS; job < JOBS; job++)
            printf("%12.1f", found.nanoseconds[LIBRARY][job] / BALLS);
        printf("\n");
    }
}

static void growth(void)
{
    heading("ns an instruction", 0, FORMULA_JOBS);
    printf("  (library, then baseline)\n");
    for (size_t i = 0; i < sizeof growing / sizeof *growing; i++) {
        workload w = mix(growing[i]);
        medians found = measure(&w);
        for (int side = SIDES; side-- > 0;) {
            printf("%-24s", side == LIBRARY ? w.name : "");
            for (int job = 0; job < FORMULA_JOBS; job++)
                printf("%8.1f", found.nanoseconds[side][job] / w.instructions);
            printf("\n");
        }
    }
}

int main(int arguments, char **argument)
{
    const workload w[] = {dot_product(), polynomial(), mix(512), coefficients(), reciprocals(), decimals(0), decimals(1), decimals(2)};
    const int all = FORMULAS + DECIMAL_KINDS;
    if (arguments == 1) {
        ratios(w);
        admissions(w);
        decimal_ratios(w + FORMULAS);
        growth();
        return 0;
    }
    int chosen = arguments == 6 ? atoi(argument[2]) : all, side = arguments == 6 ? atoi(argument[3]) : SIDES,
        job = arguments == 6 ? atoi(argument[4]) : JOBS;
    if (strcmp(argument[1], "count") != 0 || chosen < 0 || chosen >= all || side < 0 || side >= SIDES || job < 0 || job >= JOBS) {
        fprintf(stderr, "bench: no argument, or: count WORKLOAD SIDE JOB RUNS, numbers from 0\n");
        return 1;
    }
    for (int i = atoi(argument[5]); i > 0; i--)
        if (runs[side][job](&w[chosen]))
            return 1;
    return 0;
}
