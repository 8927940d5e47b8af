/* A first program with margins.h: one formula checked, run on readings, its figures printed and given as doubles, admitted for a whole
 * domain, refused domains explained, packed from lists and from its text, and read back; then a weight that was rounded, a quotient, and
 * decimal numbers out and in. At scale 4 a unit is 1/16. The formula is x*y + x. */
#include <inttypes.h>
#include <stdbool.h>
#include <stdio.h>
#include <string.h>

#include "margins.h"

#if MARGINS_INTERFACE != 4
#error "this program is written for interface 4"
#endif

static const uint8_t formula[] = {0x02, 0x41, 0x00, 0x41, 0x80, 0x00, 0x02, 0x80, 0x20, 0x00, 0x03};

static int64_t work[MARGINS_MOST_VALUES], output[MARGINS_MOST_OUTPUTS];
static uint64_t work_strays[MARGINS_MOST_VALUES], output_strays[MARGINS_MOST_OUTPUTS];
static uint64_t work_margins[MARGINS_MOST_VALUES], output_margins[MARGINS_MOST_OUTPUTS];
static double chart_centres[MARGINS_MOST_OUTPUTS], chart_margins[MARGINS_MOST_OUTPUTS];

static void tell_refusal(const char *job, margins_reply reply)
{
    printf("%s: refused %" PRIu32 ", %s", job, reply.refusal, margins_refusal_text(reply.refusal));
    if (reply.refusal == MARGINS_REFUSED_OUT_OF_REACH || reply.refusal == MARGINS_REFUSED_MAY_BE_ZERO)
        printf(", at instruction %" PRIu64, reply.place);
    if (reply.refusal == MARGINS_REFUSED_NEGATIVE_MARGIN || reply.refusal == MARGINS_REFUSED_READING_TOO_LARGE)
        printf(", at reading %" PRIu64, reply.place);
    if (reply.refusal == MARGINS_REFUSED_NUMBER_TEXT || reply.refusal == MARGINS_REFUSED_MARGIN_TEXT)
        printf(", at byte %" PRIu64, reply.place);
    printf("\n");
}

/* The ball with so many decimals, as text and as counts. */
static void to_decimal(const char *job, int64_t scale, int64_t decimals, int64_t centre, uint64_t margin, size_t length)
{
    int64_t decimal_centre;
    uint64_t decimal_margin;
    uint8_t text[MARGINS_MOST_DECIMAL_BYTES];
    margins_packed made = margins_to_decimal(scale, decimals, centre, margin, &decimal_centre, 1, &decimal_margin, 1, text, length);
    if (made.refusal)
        printf("%s: refused %" PRIu32 ", %s\n", job, made.refusal, margins_refusal_text(made.refusal));
    else
        printf("%s: %.*s, in counts %" PRId64 " and %" PRIu64 "\n", job, (int)made.bytes, (const char *)text, decimal_centre, decimal_margin);
}

static void from_decimal(int64_t scale, const char *number, const char *margin, size_t length)
{
    int64_t centre, doubt;
    margins_reply reply = margins_from_decimal(scale, (const uint8_t *)number, strlen(number), (const uint8_t *)margin, strlen(margin),
                                               &centre, length, &doubt, length);
    printf("%s and %s ", number, margin);
    if (reply.refusal)
        tell_refusal("from decimal", reply);
    else
        printf("from decimal: %" PRId64 " give or take %" PRId64 "\n", centre, doubt);
}

static void check(const uint8_t *bytes, size_t length)
{
    margins_formula found = margins_check(bytes, length);
    if (found.refusal)
        printf("check of %zu bytes: refused %" PRIu32 ", %s\n", length, found.refusal, margins_refusal_text(found.refusal));
    else
        printf("check of %zu bytes: scale %" PRIu32 ", inputs %u, instructions %" PRIu32 ", outputs %u\n", length, found.scale,
               (unsigned)found.inputs, found.instructions, (unsigned)found.outputs);
}

/* The largest counts, every instruction a coefficient: 0 give or take 0, and value 0 as each output. */
static void check_longest(void)
{
    static int64_t codes[MARGINS_MOST_INSTRUCTIONS];
    static const int64_t zeros[MARGINS_MOST_INSTRUCTIONS];
    static uint8_t longest[MARGINS_MOST_BYTES];
    for (size_t k = 0; k < MARGINS_MOST_INSTRUCTIONS; k++)
        codes[k] = MARGINS_CODE_COEFFICIENT;
    margins_packed made = margins_pack(30, MARGINS_MOST_INPUTS, codes, MARGINS_MOST_INSTRUCTIONS, zeros, MARGINS_MOST_INSTRUCTIONS,
                                       zeros, MARGINS_MOST_INSTRUCTIONS, zeros, MARGINS_MOST_OUTPUTS, longest, sizeof longest);
    check(longest, made.bytes);
}

static void plain(int64_t x, int64_t y, size_t count, size_t work_length)
{
    const int64_t readings[] = {x, y};
    margins_reply reply = margins_plain(formula, sizeof formula, readings, count, work, work_length, output, MARGINS_MOST_OUTPUTS);
    if (reply.refusal)
        tell_refusal("plain", reply);
    else
        printf("plain: %" PRId64 "\n", output[0]);
}

static void ball(margins_reading x, margins_reading y)
{
    const margins_reading readings[] = {x, y};
    margins_reply reply = margins_ball_records(formula, sizeof formula, readings, 2, work, MARGINS_MOST_VALUES,
                                               work_margins, MARGINS_MOST_VALUES, output, MARGINS_MOST_OUTPUTS,
                                               output_margins, MARGINS_MOST_OUTPUTS);
    if (reply.refusal)
        tell_refusal("ball", reply);
    else
        printf("ball: %" PRId64 " give or take %" PRIu64 "\n", output[0], output_margins[0]);
}

static void ball_of_two_lists(const int64_t centres[2], const int64_t margins[2])
{
    margins_reply reply = margins_ball(formula, sizeof formula, centres, 2, margins, 2, work, MARGINS_MOST_VALUES,
                                       work_margins, MARGINS_MOST_VALUES, output, MARGINS_MOST_OUTPUTS,
                                       output_margins, MARGINS_MOST_OUTPUTS);
    if (reply.refusal)
        tell_refusal("ball of two lists", reply);
    else
        printf("ball of two lists: %" PRId64 " give or take %" PRIu64 "\n", output[0], output_margins[0]);
}

/* Whether the bits of the double, read as sign, significand and power of two, mean units/2^scale; a zero is plus zero. */
static bool is_exactly(double number, int64_t units, int scale)
{
    uint64_t bits, size = units < 0 ? -(uint64_t)units : (uint64_t)units;
    memcpy(&bits, &number, sizeof bits);
    if (units == 0)
        return bits == 0;
    uint64_t sign = bits >> 63, significand = UINT64_C(1) << 52 | (bits & ((UINT64_C(1) << 52) - 1));
    /* The number is significand/2^down: units have less than 53 bits, so that down is at least scale. */
    int down = 1075 - (int)(bits >> 52 & 2047), shift = down - scale;
    if (shift < 0 || shift > 52 || sign != (units < 0))
        return false;
    return significand >> shift == size && (significand & ((UINT64_C(1) << shift) - 1)) == 0;
}

/* After a refusal the lists of doubles hold what they held, here 0.1. */
static void chart(const int64_t centres[2], const int64_t margins[2], size_t length)
{
    chart_centres[0] = chart_margins[0] = 0.1;
    margins_reply reply = margins_ball_doubles(formula, sizeof formula, centres, 2, margins, 2, work, MARGINS_MOST_VALUES,
                                               work_margins, MARGINS_MOST_VALUES, chart_centres, MARGINS_MOST_OUTPUTS,
                                               chart_margins, length);
    if (reply.refusal) {
        tell_refusal("chart", reply);
        printf("chart: the doubles are %s\n", chart_centres[0] == 0.1 && chart_margins[0] == 0.1 ? "as they were" : "others");
        return;
    }
    bool exactly = is_exactly(chart_centres[0], work[3], 4) && is_exactly(chart_margins[0], (int64_t)work_margins[3], 4);
    printf("chart: the doubles are %s those of value 3\n", exactly ? "exactly" : "not");
    to_decimal("chart", 4, 4, work[3], work_margins[3], MARGINS_MOST_DECIMAL_BYTES);
}

/* How many of the figures of one reading are not exactly what margins_ball gives in units. */
static int inexact(const uint8_t *bytes, size_t length, int scale, int64_t centre, int64_t margin)
{
    margins_reply units = margins_ball(bytes, length, &centre, 1, &margin, 1, work, MARGINS_MOST_VALUES, work_margins, MARGINS_MOST_VALUES,
                                       output, MARGINS_MOST_OUTPUTS, output_margins, MARGINS_MOST_OUTPUTS);
    margins_reply drawn = margins_ball_doubles(bytes, length, &centre, 1, &margin, 1, work, MARGINS_MOST_VALUES,
                                               work_margins, MARGINS_MOST_VALUES, chart_centres, MARGINS_MOST_OUTPUTS,
                                               chart_margins, MARGINS_MOST_OUTPUTS);
    if (units.refusal || drawn.refusal || units.outputs != 2 || drawn.outputs != 2)
        return 4;
    int wrong = 0;
    for (int i = 0; i < 2; i++)
        wrong += !is_exactly(chart_centres[i], output[i], scale) + !is_exactly(chart_margins[i], (int64_t)output_margins[i], scale);
    return wrong;
}

/* At each scale 0, M and the powers of two with their neighbours, as a reading, negated, and as a margin: the outputs are x and -x. */
static void chart_each_scale(void)
{
    static const int64_t code = MARGINS_CODE_NEGATE, none = 0, outputs[] = {0, 1};
    const int64_t most = 2147483647;
    int figures = 0, wrong = 0;
    for (int scale = 0; scale <= 30; scale++) {
        uint8_t bytes[MARGINS_MOST_BYTES];
        margins_packed made = margins_pack(scale, 1, &code, 1, &none, 1, &none, 1, outputs, 2, bytes, sizeof bytes);
        for (int power = 0; power <= 31; power++)
            for (int64_t size = (INT64_C(1) << power) - 1; size <= (INT64_C(1) << power) + 1 && size <= most; size++, figures += 8)
                wrong += inexact(bytes, made.bytes, scale, size, most - size) + inexact(bytes, made.bytes, scale, size - most, size);
    }
    printf("chart: of %d figures %d are not exact\n", figures, wrong);
}

static void admit(const int64_t middles[2], const int64_t strays[2], const int64_t margins[2])
{
    margins_reply reply = margins_admit(formula, sizeof formula, middles, 2, strays, 2, margins, 2, work, MARGINS_MOST_VALUES,
                                        work_strays, MARGINS_MOST_VALUES, work_margins, MARGINS_MOST_VALUES,
                                        output, MARGINS_MOST_OUTPUTS, output_strays, MARGINS_MOST_OUTPUTS,
                                        output_margins, MARGINS_MOST_OUTPUTS);
    if (reply.refusal)
        tell_refusal("admit", reply);
    else
        printf("admit: a computed centre is at most %" PRIu64 " from %" PRId64 ", an exact result at most %" PRIu64 " from that centre\n",
               output_strays[0], output[0], output_margins[0]);
}

/* What of the domain is admitted; it is admitted then. */
static void explain(const int64_t middles[2], const int64_t strays[2], const int64_t margins[2], size_t count)
{
    margins_explanation found = margins_explain(formula, sizeof formula, middles, 2, strays, count, margins, 2);
    const int64_t t = found.parts;
    switch (found.answer) {
    case MARGINS_NOTHING_TO_EXPLAIN: printf("explain: nothing to explain\n"); break;
    case MARGINS_ADMITTED_TO:
        printf("explain: admitted to %u of 256, then %s, at instruction %" PRIu64 "\n", (unsigned)found.parts,
               margins_refusal_text(found.met), found.place);
        admit(middles, (const int64_t[]){strays[0] * t / 256, strays[1] * t / 256}, (const int64_t[]){margins[0] * t / 256, margins[1] * t / 256});
        break;
    case MARGINS_NEVER_ADMITTED:
        printf("explain: never admitted, %s, at instruction %" PRIu64 "\n", margins_refusal_text(found.met), found.place);
        break;
    default: tell_refusal("explain", (margins_reply){found.refusal, 0, found.place});
    }
}

/* x is value 0 and y value 1; value 2 is their product, and value 3 is that plus x. */
static void pack(int64_t scale, size_t length)
{
    static const int64_t codes[] = {MARGINS_CODE_MULTIPLY, MARGINS_CODE_ADD}, firsts[] = {0, 2}, seconds[] = {1, 0}, outputs[] = {3};
    uint8_t bytes[MARGINS_MOST_BYTES];
    margins_packed made = margins_pack(scale, 2, codes, 2, firsts, 2, seconds, 2, outputs, 1, bytes, length);
    if (made.refusal)
        printf("pack: refused %" PRIu32 ", %s\n", made.refusal, margins_refusal_text(made.refusal));
    else
        printf("pack: %" PRIu32 " bytes, %s formula\n", made.bytes, memcmp(bytes, formula, sizeof formula) ? "another" : "the same");
}

/* x is the letter a, and y the letter b. */
static void pack_text(int64_t scale, const char *text, size_t length)
{
    uint8_t bytes[MARGINS_MOST_BYTES];
    margins_packed made = margins_pack_text(scale, 2, (const uint8_t *)text, strlen(text), bytes, length);
    if (!made.refusal) {
        bool same = made.bytes == sizeof formula && memcmp(bytes, formula, sizeof formula) == 0;
        printf("text %s: %" PRIu32 " bytes, %s formula\n", text, made.bytes, same ? "the same" : "another");
        return;
    }
    printf("text %s: refused %" PRIu32 ", %s", text, made.refusal, margins_refusal_text(made.refusal));
    if (made.refusal == MARGINS_REFUSED_MISPLACED || made.refusal == MARGINS_REFUSED_TOO_DEEP)
        printf(", at byte %" PRIu64, made.place);
    printf("\n");
}

/* The weight 0.1 is 1.6 units: as an exact constant its rounding to 2 would be lost, as a coefficient it stays in the margin. */
static void weigh(int64_t code, int64_t margin, margins_reading x)
{
    const int64_t codes[] = {code, MARGINS_CODE_MULTIPLY}, firsts[] = {2, 0}, seconds[] = {margin, 1}, outputs[] = {2};
    uint8_t bytes[MARGINS_MOST_BYTES];
    margins_packed made = margins_pack(4, 1, codes, 2, firsts, 2, seconds, 2, outputs, 1, bytes, sizeof bytes);
    if (made.refusal) {
        printf("weigh: refused %" PRIu32 ", %s\n", made.refusal, margins_refusal_text(made.refusal));
        return;
    }
    margins_reply reply = margins_ball_records(bytes, made.bytes, &x, 1, work, MARGINS_MOST_VALUES, work_margins, MARGINS_MOST_VALUES,
                                               output, MARGINS_MOST_OUTPUTS, output_margins, MARGINS_MOST_OUTPUTS);
    if (reply.refusal)
        tell_refusal("weigh", reply);
    else
        printf("weigh: %" PRId64 " give or take %" PRIu64 "\n", output[0], output_margins[0]);
}

/* x divided by y is x times 1/y: value 2 is the reciprocal of y, value 3 is x times it. A reciprocal is for scales 0 to 16. */
static void divide(int64_t scale, margins_reading x, margins_reading y)
{
    static const int64_t codes[] = {MARGINS_CODE_RECIPROCAL, MARGINS_CODE_MULTIPLY}, firsts[] = {1, 0}, seconds[] = {0, 2}, outputs[] = {3};
    const margins_reading readings[] = {x, y};
    uint8_t bytes[MARGINS_MOST_BYTES];
    margins_packed made = margins_pack(scale, 2, codes, 2, firsts, 2, seconds, 2, outputs, 1, bytes, sizeof bytes);
    if (made.refusal) {
        printf("divide: refused %" PRIu32 ", %s\n", made.refusal, margins_refusal_text(made.refusal));
        return;
    }
    margins_reply reply = margins_ball_records(bytes, made.bytes, readings, 2, work, MARGINS_MOST_VALUES, work_margins, MARGINS_MOST_VALUES,
                                               output, MARGINS_MOST_OUTPUTS, output_margins, MARGINS_MOST_OUTPUTS);
    if (reply.refusal)
        tell_refusal("divide", reply);
    else
        printf("divide: %" PRId64 " give or take %" PRIu64 "\n", output[0], output_margins[0]);
}

static void unpack(size_t length)
{
    int64_t codes[MARGINS_MOST_INSTRUCTIONS], firsts[MARGINS_MOST_INSTRUCTIONS], seconds[MARGINS_MOST_INSTRUCTIONS];
    margins_formula found = margins_unpack(formula, sizeof formula, codes, length, firsts, length, seconds, length,
                                           output, MARGINS_MOST_OUTPUTS);
    if (found.refusal) {
        printf("unpack: refused %" PRIu32 ", %s\n", found.refusal, margins_refusal_text(found.refusal));
        return;
    }
    for (uint32_t k = 0; k < found.instructions; k++)
        printf("unpack: value %" PRIu32 " has code %" PRId64 ", first %" PRId64 ", second %" PRId64 "\n", found.inputs + k, codes[k],
               firsts[k], seconds[k]);
    printf("unpack: the output is value %" PRId64 "\n", output[0]);
}

static void try_runs(void)
{
    check(formula, sizeof formula);
    check(formula, sizeof formula - 1);
    check_longest();
    plain(24, -10, 2, MARGINS_MOST_VALUES);
    plain(24, -10, 2, 3);
    plain(24, -10, 1, MARGINS_MOST_VALUES);
    plain(2147483648, -10, 2, MARGINS_MOST_VALUES);
    ball((margins_reading){24, 3}, (margins_reading){-10, 2});
    ball((margins_reading){24, 3}, (margins_reading){-10, -2});
    ball((margins_reading){24, 3}, (margins_reading){-10, 2147483647});
    ball((margins_reading){1000000, 0}, (margins_reading){1000000, 0});
    ball_of_two_lists((const int64_t[]){24, -10}, (const int64_t[]){3, 2});
    chart((const int64_t[]){24, -10}, (const int64_t[]){3, 2}, MARGINS_MOST_OUTPUTS);
    chart((const int64_t[]){1000000, 1000000}, (const int64_t[]){0, 0}, MARGINS_MOST_OUTPUTS);
    chart((const int64_t[]){24, -10}, (const int64_t[]){3, 2}, 0);
    chart_each_scale();
    admit((const int64_t[]){24, -10}, (const int64_t[]){3, 2}, (const int64_t[]){1, 1});
    admit((const int64_t[]){24, -10}, (const int64_t[]){2147483000, 2}, (const int64_t[]){1, 1});
    admit((const int64_t[]){24, -10}, (const int64_t[]){3, -2}, (const int64_t[]){1, 1});
}

static void try_explaining(void)
{
    explain((const int64_t[]){24, -10}, (const int64_t[]){3, 2}, (const int64_t[]){1, 1}, 2);
    explain((const int64_t[]){24, -10}, (const int64_t[]){3000000, 2000000}, (const int64_t[]){1, 1}, 2);
    explain((const int64_t[]){1073741823, 16}, (const int64_t[]){300, 0}, (const int64_t[]){0, 0}, 2);
    explain((const int64_t[]){1073741824, 16}, (const int64_t[]){300, 0}, (const int64_t[]){0, 0}, 2);
    explain((const int64_t[]){24, -10}, (const int64_t[]){3, 2}, (const int64_t[]){1, 1}, 1);
    explain((const int64_t[]){24, -10}, (const int64_t[]){3, -2}, (const int64_t[]){1, 1}, 2);
    explain((const int64_t[]){2147483647, -10}, (const int64_t[]){3, 2}, (const int64_t[]){1, 1}, 2);
}

static void try_packing(void)
{
    pack(4, MARGINS_MOST_BYTES);
    pack(4, sizeof formula - 1);
    pack(-1, MARGINS_MOST_BYTES);
    pack_text(4, "a*b+a", MARGINS_MOST_BYTES);
    pack_text(4, "a*(b-0.25)+-0.1", MARGINS_MOST_BYTES);
    pack_text(4, "a*b+a", sizeof formula - 1);
    pack_text(4, "a*b+", MARGINS_MOST_BYTES);
    pack_text(4, "a * b + a", MARGINS_MOST_BYTES);
    pack_text(4, "a*b+c", MARGINS_MOST_BYTES);
    pack_text(4, "a*((((((((((((((((((((((((((((((((-b))))))))))))))))))))))))))))))))", MARGINS_MOST_BYTES);
    pack_text(30, "2*a", MARGINS_MOST_BYTES);
    pack_text(31, "a", MARGINS_MOST_BYTES);
    weigh(MARGINS_CODE_CONSTANT, 0, (margins_reading){160, 0});
    weigh(MARGINS_CODE_COEFFICIENT, 1, (margins_reading){160, 0});
    weigh(MARGINS_CODE_COEFFICIENT, -1, (margins_reading){160, 0});
    divide(16, (margins_reading){5898240, 65536}, (margins_reading){39321600, 0});
    divide(16, (margins_reading){5898240, 65536}, (margins_reading){131072, 131072});
    divide(16, (margins_reading){5898240, 65536}, (margins_reading){2, 0});
    divide(17, (margins_reading){5898240, 65536}, (margins_reading){39321600, 0});
    unpack(MARGINS_MOST_INSTRUCTIONS);
    unpack(1);
}

static void try_decimals(void)
{
    to_decimal("to decimal", 4, 4, 9, 9, MARGINS_MOST_DECIMAL_BYTES);
    to_decimal("to decimal", 4, 1, 9, 9, MARGINS_MOST_DECIMAL_BYTES);
    to_decimal("to decimal", 20, 4, 3, 1, MARGINS_MOST_DECIMAL_BYTES);
    to_decimal("to decimal", 1, 0, -3, 0, MARGINS_MOST_DECIMAL_BYTES);
    to_decimal("to decimal", 0, 9, -1073741824, 1073741823, MARGINS_MOST_DECIMAL_BYTES);
    to_decimal("to decimal", 0, 9, -1073741824, 1073741823, MARGINS_MOST_DECIMAL_BYTES - 1);
    to_decimal("to decimal", 31, 10, 9, 9, MARGINS_MOST_DECIMAL_BYTES);
    to_decimal("to decimal", 4, 10, 9, 9, MARGINS_MOST_DECIMAL_BYTES);
    to_decimal("to decimal", 4, 4, INT64_MIN, UINT64_MAX, MARGINS_MOST_DECIMAL_BYTES);
    from_decimal(20, "0.1", "0.02", 1);
    from_decimal(4, "-0.5625", "0.5625", 1);
    from_decimal(0, "-2.5", "0", 1);
    from_decimal(20, "0.1", "0.02", 0);
    from_decimal(31, "0,1", "-0.02", 1);
    from_decimal(20, "0,1", "-0.02", 1);
    from_decimal(20, "0.1", "-0.02", 1);
    from_decimal(20, "0.1", "0.", 1);
    from_decimal(30, "1.5", "0.5", 1);
}

int main(void)
{
    try_runs();
    try_explaining();
    try_packing();
    try_decimals();
    for (uint32_t refusal = 0; refusal <= MARGINS_REFUSED_DECIMALS + 1; refusal++)
        printf("%" PRIu32 ": %s\n", refusal, margins_refusal_text(refusal));
    return 0;
}
