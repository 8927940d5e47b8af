/* A packed formula read and tested by hand: each of the baseline's files has this reader to itself, so that what one file does with it changes
   nothing in another. */
#ifndef BASELINE_READING_H
#define BASELINE_READING_H

#include "baseline.h"

#define M INT64_C(2147483647)

/* A coefficient is the last of them, unlike in margins.h. */
enum { CONSTANT, NEGATE, ADD, SUBTRACT, MULTIPLY, RECIPROCAL, COEFFICIENT };
enum { MOST_SCALE_OF_A_RECIPROCAL = 16 };

/* Eight bytes, so that decoding an instruction stores one word. A coefficient's margin has no other place than its code: it is added there. */
typedef struct {
    uint32_t code;
    union {
        int32_t constant;
        struct {
            uint16_t left, right;
        };
    };
} instruction;

typedef struct {
    uint32_t scale, inputs, instructions, outputs;
    instruction program[MARGINS_MOST_INSTRUCTIONS];
    uint16_t output[MARGINS_MOST_OUTPUTS];
} formula;

/* At least 57 bits from a bit on, the first one at the top; zeros stand where the bytes have ended. */
static inline uint64_t window(const uint8_t *bytes, size_t length, size_t bit)
{
    size_t first = bit >> 3;
    uint64_t word = 0;
    if (first + 8 <= length) {
        const uint8_t *b = bytes + first;
        word = (uint64_t)b[0] << 56 | (uint64_t)b[1] << 48 | (uint64_t)b[2] << 40 | (uint64_t)b[3] << 32 |
               (uint64_t)b[4] << 24 | (uint64_t)b[5] << 16 | (uint64_t)b[6] << 8 | b[7];
    } else {
        for (size_t i = first; i < length; i++)
            word |= (uint64_t)bytes[i] << (56 - 8 * (i - first));
    }
    return word << (bit & 7);
}

static inline uint64_t size(int64_t number)
{
    return number < 0 ? -(uint64_t)number : (uint64_t)number;
}

static uint32_t read_header(const uint8_t *bytes, size_t length, formula *f)
{
    uint64_t word = window(bytes, length, 0);
    size_t bits = length < 8 ? 8 * length : 64;
    if (bits < 7)
        return MARGINS_REFUSED_ENDED;
    if (word >> 57 != 1)
        return MARGINS_REFUSED_VERSION;
    if (bits < 12)
        return MARGINS_REFUSED_ENDED;
    f->scale = word >> 52 & 31;
    if (f->scale > 30)
        return MARGINS_REFUSED_SCALE;
    if (bits < 17)
        return MARGINS_REFUSED_ENDED;
    f->inputs = word >> 47 & 31;
    if (f->inputs > MARGINS_MOST_INPUTS)
        return MARGINS_REFUSED_COUNT;
    if (bits < 27)
        return MARGINS_REFUSED_ENDED;
    f->instructions = word >> 37 & 1023;
    if (f->instructions > MARGINS_MOST_INSTRUCTIONS)
        return MARGINS_REFUSED_COUNT;
    if (bits < 32)
        return MARGINS_REFUSED_ENDED;
    f->outputs = word >> 32 & 31;
    if (f->outputs < 1 || f->outputs > MARGINS_MOST_OUTPUTS)
        return MARGINS_REFUSED_COUNT;
    return MARGINS_DONE;
}

static inline uint32_t read_reciprocal(uint64_t word, size_t left, uint32_t scale, uint32_t value, instruction *at)
{
    if (scale > MOST_SCALE_OF_A_RECIPROCAL)
        return MARGINS_REFUSED_RECIPROCAL_SCALE;
    if (left < 13)
        return MARGINS_REFUSED_ENDED;
    uint32_t name = word >> 51 & 1023;
    if (name >= value)
        return MARGINS_REFUSED_OPERAND;
    at->code = RECIPROCAL;
    at->left = (uint16_t)name;
    return MARGINS_DONE;
}

/* What follows another code over MULTIPLY. A constant of -2^31 is out of reach with every margin. */
static inline uint32_t read_coefficient(const uint8_t *bytes, size_t length, size_t bit, uint64_t word, instruction *at)
{
    if (word >> 61 != MARGINS_CODE_COEFFICIENT)
        return MARGINS_REFUSED_CODE;
    if (8 * length - bit < 66)
        return MARGINS_REFUSED_ENDED;
    int32_t centre = (int32_t)(uint32_t)(word >> 29);
    uint32_t margin = (uint32_t)(window(bytes, length, bit + 35) >> 33);
    if (size(centre) + margin > M)
        return MARGINS_REFUSED_CONSTANT;
    at->code = COEFFICIENT + margin;
    at->constant = centre;
    return MARGINS_DONE;
}

/* Reads and tests the whole formula once; the walks then take its instructions ready. */
static uint32_t read_formula(const uint8_t *bytes, size_t length, formula *f)
{
    uint32_t refusal = read_header(bytes, length, f);
    if (refusal)
        return refusal;
    size_t end = 8 * length, bit = 32;
    for (uint32_t k = 0, value = f->inputs; k < f->instructions; k++, value++) {
        uint64_t word = window(bytes, length, bit);
        size_t left = end - bit;
        uint32_t code = (uint32_t)(word >> 61);
        if (left < 3)
            return MARGINS_REFUSED_ENDED;
        /* Without the hint the compiler lays the other codes out behind these, which costs each of them two jumps. */
        if (__builtin_expect(code > MULTIPLY, 0)) {
            refusal = code == MARGINS_CODE_RECIPROCAL ? read_reciprocal(word, left, f->scale, value, &f->program[k])
                                                      : read_coefficient(bytes, length, bit, word, &f->program[k]);
            if (refusal)
                return refusal;
            bit += code == MARGINS_CODE_RECIPROCAL ? 13 : 66;
            continue;
        }
        f->program[k].code = code;
        if (code == CONSTANT) {
            if (left < 35)
                return MARGINS_REFUSED_ENDED;
            int32_t constant = (int32_t)(uint32_t)(word >> 29);
            if (constant == INT32_MIN)
                return MARGINS_REFUSED_CONSTANT;
            f->program[k].constant = constant;
            bit += 35;
            continue;
        }
        if (left < 13)
            return MARGINS_REFUSED_ENDED;
        uint32_t first = word >> 51 & 1023;
        if (first >= value)
            return MARGINS_REFUSED_OPERAND;
        f->program[k].left = (uint16_t)first;
        if (code == NEGATE) {
            bit += 13;
            continue;
        }
        if (left < 23)
            return MARGINS_REFUSED_ENDED;
        uint32_t second = word >> 41 & 1023;
        if (second >= value)
            return MARGINS_REFUSED_OPERAND;
        f->program[k].right = (uint16_t)second;
        bit += 23;
    }
    for (uint32_t i = 0; i < f->outputs; i++, bit += 10) {
        if (end - bit < 10)
            return MARGINS_REFUSED_ENDED;
        uint32_t name = (uint32_t)(window(bytes, length, bit) >> 54);
        if (name >= f->inputs + f->instructions)
            return MARGINS_REFUSED_OPERAND;
        f->output[i] = (uint16_t)name;
    }
    if (end - bit >= 8 || window(bytes, length, bit) != 0)
        return MARGINS_REFUSED_PADDING;
    return MARGINS_DONE;
}

static inline margins_formula no_formula(uint32_t refusal)
{
    return (margins_formula){refusal, 0, 0, 0, 0};
}

static inline margins_formula header_of(const formula *f)
{
    return (margins_formula){MARGINS_DONE, f->scale, (uint16_t)f->inputs, (uint16_t)f->outputs, f->instructions};
}

#endif
