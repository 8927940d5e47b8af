#include "workloads.h"

#include "texts.h"

#include <inttypes.h>
#include <stdio.h>

enum { CONSTANT, NEGATE, ADD, SUBTRACT, MULTIPLY, COEFFICIENT, RECIPROCAL };
enum { SCALE = 16, UNIT = 1 << SCALE, TERMS = 8, DEGREE = 15, COEFFICIENTS_DEGREE = 21, MOST_MARGIN = 10, RECENT = 8 };

/* The formula of a workload while it is packed. */
typedef struct {
    workload made;
    size_t bits, listed;
    uint32_t seed;
} packing;

static uint32_t any(packing *p, uint32_t below)
{
    p->seed = p->seed * 1664525 + 1013904223;
    return (p->seed >> 8) % below;
}

static void put(packing *p, uint32_t number, int width)
{
    while (width--) {
        if (number >> width & 1)
            p->made.bytes[p->bits >> 3] |= (uint8_t)(128 >> (p->bits & 7));
        p->bits++;
    }
    p->made.length = (p->bits + 7) >> 3;
}

static packing start(uint32_t inputs, uint32_t instructions)
{
    packing p = {.made = {.scale = SCALE, .inputs = inputs, .instructions = instructions}, .seed = 1};
    put(&p, 1, 7);
    put(&p, SCALE, 5);
    put(&p, inputs, 5);
    put(&p, instructions, 10);
    put(&p, 1, 5);
    for (uint32_t i = 0; i < inputs; i++) {
        p.made.middles[i] = (int64_t)any(&p, 2 * UNIT) - UNIT;
        p.made.strays[i] = any(&p, 100);
        p.made.margins[i] = any(&p, 10);
    }
    return p;
}

/* The code is packed, and the instruction is put into the lists. */
static void instruction(packing *p, uint32_t code, int64_t first, int64_t second)
{
    put(p, code, 3);
    p->made.codes[p->listed] = code;
    p->made.firsts[p->listed] = first;
    p->made.seconds[p->listed++] = second;
}

static void constant(packing *p, int32_t number)
{
    instruction(p, CONSTANT, number, 0);
    put(p, (uint32_t)number, 32);
}

static void coefficient(packing *p, int32_t centre, uint32_t margin)
{
    instruction(p, COEFFICIENT, centre, margin);
    put(p, (uint32_t)centre, 32);
    put(p, margin, 31);
}

static void one(packing *p, uint32_t code, uint32_t operand)
{
    instruction(p, code, operand, 0);
    put(p, operand, 10);
}

static void two(packing *p, uint32_t code, uint32_t left, uint32_t right)
{
    instruction(p, code, left, right);
    put(p, left, 10);
    put(p, right, 10);
}

/* The last value is the only output. Of the wide strays a part is admitted. */
static workload finish(packing *p, int64_t wide)
{
    for (uint32_t i = 0; i < p->made.inputs; i++)
        p->made.wide_strays[i] = wide;
    uint32_t last = p->made.inputs + p->made.instructions - 1;
    put(p, last, 10);
    p->made.output = last;
    return p->made;
}

workload dot_product(void)
{
    packing p = start(2 * TERMS, 2 * TERMS - 1);
    snprintf(p.made.name, sizeof p.made.name, "dot product of %d", TERMS);
    for (uint32_t i = 0; i < TERMS; i++)
        two(&p, MULTIPLY, i, TERMS + i);
    for (uint32_t i = 1; i < TERMS; i++)
        two(&p, ADD, i == 1 ? 2 * TERMS : 3 * TERMS + i - 2, 2 * TERMS + i);
    write_dot_product(&p.made);
    return finish(&p, 128 * UNIT);
}

workload polynomial(void)
{
    packing p = start(1, 1 + 3 * DEGREE);
    snprintf(p.made.name, sizeof p.made.name, "polynomial of degree %d", DEGREE);
    constant(&p, UNIT / 2);
    for (uint32_t sum = 1; sum < 1 + 3 * DEGREE; sum += 3) {
        two(&p, MULTIPLY, sum, 0);
        constant(&p, (int32_t)any(&p, 2 * UNIT) - UNIT);
        two(&p, ADD, sum + 1, sum + 2);
    }
    write_polynomial(&p.made, DEGREE, 0);
    return finish(&p, 3 * UNIT);
}

workload coefficients(void)
{
    packing p = start(1, 1 + 3 * COEFFICIENTS_DEGREE);
    snprintf(p.made.name, sizeof p.made.name, "coefficients, degree %d", COEFFICIENTS_DEGREE);
    coefficient(&p, UNIT / 2, 1);
    for (uint32_t sum = 1; sum < 1 + 3 * COEFFICIENTS_DEGREE; sum += 3) {
        two(&p, MULTIPLY, sum, 0);
        int32_t centre = (int32_t)any(&p, 2 * UNIT) - UNIT;
        coefficient(&p, centre, any(&p, MOST_MARGIN));
        two(&p, ADD, sum + 1, sum + 2);
    }
    write_polynomial(&p.made, COEFFICIENTS_DEGREE, 1);
    return finish(&p, 3 * UNIT);
}

/* The divisors are 1 to 2 in size and of both signs. */
workload reciprocals(void)
{
    packing p = start(2 * TERMS, 3 * TERMS - 1);
    snprintf(p.made.name, sizeof p.made.name, "reciprocals, %d quotients", TERMS);
    for (uint32_t i = TERMS; i < 2 * TERMS; i++) {
        int64_t divisor = UNIT + any(&p, UNIT);
        p.made.middles[i] = i % 2 ? divisor : -divisor;
    }
    for (uint32_t i = 0; i < TERMS; i++)
        one(&p, RECIPROCAL, TERMS + i);
    for (uint32_t i = 0; i < TERMS; i++)
        two(&p, MULTIPLY, i, 2 * TERMS + i);
    for (uint32_t i = 1; i < TERMS; i++)
        two(&p, ADD, i == 1 ? 3 * TERMS : 4 * TERMS + i - 2, 3 * TERMS + i);
    return finish(&p, 2 * UNIT);
}

/* One operand is a late value and the other an input of size at most 1, so that values grow by sums only. */
workload mix(uint32_t instructions)
{
    static const uint32_t codes[] = {CONSTANT, NEGATE, ADD, ADD, SUBTRACT, SUBTRACT, MULTIPLY, MULTIPLY, MULTIPLY, MULTIPLY};
    packing p = start(MARGINS_MOST_INPUTS, instructions);
    snprintf(p.made.name, sizeof p.made.name, "mix of %u", instructions);
    for (uint32_t value = p.made.inputs; value < p.made.inputs + instructions; value++) {
        uint32_t code = codes[any(&p, sizeof codes / sizeof *codes)], late = value - 1 - any(&p, RECENT);
        if (code == CONSTANT) {
            constant(&p, (int32_t)any(&p, 2 * UNIT) - UNIT);
        } else if (code == NEGATE) {
            one(&p, code, late);
        } else {
            two(&p, code, late, any(&p, p.made.inputs));
        }
    }
    write_mix(&p.made);
    /* The more instructions, the sooner one of them is out of reach. */
    return finish(&p, 3 * MARGINS_MOST_INSTRUCTIONS / instructions * UNIT);
}

/* A count of 10^-behind. */
static number written(const char *sign, uint32_t count, int behind)
{
    uint32_t parts = 1;
    for (int i = 0; i < behind; i++)
        parts *= 10;
    number n;
    n.length = (size_t)snprintf((char *)n.text, sizeof n.text, "%s%" PRIu32 ".%0*" PRIu32, sign, count / parts, behind, count % parts);
    return n;
}

/* Every second centre and number is below 0. */
workload decimals(int kind)
{
    /* What each is below: centre and margin in units, number and margin in counts. */
    static const struct {
        const char *name;
        uint32_t scale, decimals, centre, margin, number, doubt;
        int behind;
    } kinds[DECIMAL_KINDS] = {
        {"hours, 1 decimal", 4, 1, 400, 16, 250, 10, 1},
        {"hours, 4 decimals", 20, 4, 25 << 20, 1 << 16, 250000, 500, 4},
        {"most digits", 0, 9, 1 << 30, 1 << 30, 999999999, 999999999, 3},
    };
    packing p = {.made = {.scale = kinds[kind].scale, .decimals = kinds[kind].decimals}, .seed = 1};
    snprintf(p.made.name, sizeof p.made.name, "%s", kinds[kind].name);
    for (uint32_t i = 0; i < BALLS; i++) {
        int64_t centre = any(&p, kinds[kind].centre);
        p.made.middles[i] = i % 2 ? -centre : centre;
        p.made.margins[i] = any(&p, kinds[kind].margin);
        p.made.numbers[i] = written(i % 2 ? "-" : "", any(&p, kinds[kind].number), kinds[kind].behind);
        p.made.doubts[i] = written("", any(&p, kinds[kind].doubt), kinds[kind].behind);
    }
    return p.made;
}
