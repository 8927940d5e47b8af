/* A text packed by recursive descent: each instruction is packed onto the stack as soon as its operands are read, and the caller's buffer
   is written when nothing is left to be refused. In a file of its own, so that it changes nothing in the machine code of the other jobs. */
#include "baseline_writing.h"

#include <stdbool.h>

#define M UINT64_C(2147483647)

enum { MOST_SCALE = 30, MOST_DIGITS = 9, MOST_OPEN = 32, HEADER_BYTES = 4, MISREAD = -1 };

typedef struct {
    const uint8_t *at, *end;
    uint32_t scale, inputs, instructions;
    uint32_t refusal; /* of the byte at `at` */
    uint32_t later;   /* of the first instruction that has one; it counts once the whole text is read */
    writer packed;
} reading;

/* What nests is called, so that letters and numbers can be read in line. */
static int32_t minus(reading *r, unsigned open);
static int32_t parentheses(reading *r, unsigned open);

static inline int32_t misread(reading *r, uint32_t refusal)
{
    r->refusal = refusal;
    return MISREAD;
}

static inline bool has_room(reading *r)
{
    if (!r->later && r->instructions == MARGINS_MOST_INSTRUCTIONS)
        r->later = MARGINS_REFUSED_COUNT;
    return !r->later;
}

/* The value that the instruction makes which was just packed. */
static inline int32_t made(reading *r)
{
    return (int32_t)(r->inputs + r->instructions++);
}

static inline int32_t negated(reading *r, int32_t operand)
{
    if (!has_room(r))
        return 0;
    put(&r->packed, (uint64_t)MARGINS_CODE_NEGATE << 10 | (uint64_t)operand, 13);
    return made(r);
}

static inline int32_t joined(reading *r, uint64_t code, int32_t left, int32_t right)
{
    if (!has_room(r))
        return 0;
    put(&r->packed, code << 20 | (uint64_t)left << 10 | (uint64_t)right, 23);
    return made(r);
}

/* The number is below 10^9 and its count of units therefore below 2^60. */
static inline int32_t constant(reading *r, uint64_t number, unsigned behind_point)
{
    static const uint32_t powers[MOST_DIGITS] = {1, 10, 100, 1000, 10000, 100000, 1000000, 10000000, 100000000};
    uint64_t whole = number << r->scale, parts = powers[behind_point], rest = whole % parts, units = whole / parts + (2 * rest >= parts);
    if (!has_room(r))
        return 0;
    if (units + (rest != 0) > M) {
        r->later = MARGINS_REFUSED_CONSTANT;
        return 0;
    }
    put(&r->packed, rest ? MARGINS_CODE_COEFFICIENT : MARGINS_CODE_CONSTANT, 3);
    put(&r->packed, units, 32);
    if (rest)
        put(&r->packed, 1, 31);
    return made(r);
}

/* Behind a number's last digit a further digit or point is left to whoever expects an operator there. */
static inline unsigned digits(reading *r, unsigned most, uint64_t *number)
{
    unsigned count = 0;
    for (; count < most && r->at != r->end && (uint8_t)(*r->at - '0') < 10; count++)
        *number = 10 * *number + (uint8_t)(*r->at++ - '0');
    return count;
}

static inline int32_t number(reading *r)
{
    uint64_t read = 0;
    unsigned whole = digits(r, MOST_DIGITS, &read), behind_point = 0;
    if (whole < MOST_DIGITS && r->at != r->end && *r->at == '.') {
        r->at++;
        behind_point = digits(r, MOST_DIGITS - whole, &read);
        if (!behind_point)
            return misread(r, MARGINS_REFUSED_MISPLACED);
    }
    return constant(r, read, behind_point);
}

static inline int32_t factor(reading *r, unsigned open)
{
    if (r->at == r->end)
        return misread(r, MARGINS_REFUSED_MISPLACED);
    uint8_t byte = *r->at;
    if ((uint8_t)(byte - 'a') < r->inputs) {
        r->at++;
        return byte - 'a';
    }
    if ((uint8_t)(byte - '0') < 10)
        return number(r);
    if (byte != '(' && byte != '-')
        return misread(r, MARGINS_REFUSED_MISPLACED);
    if (open == MOST_OPEN)
        return misread(r, MARGINS_REFUSED_TOO_DEEP);
    r->at++;
    return byte == '-' ? minus(r, open + 1) : parentheses(r, open + 1);
}

static inline int32_t product(reading *r, unsigned open)
{
    int32_t left = factor(r, open);
    while (left >= 0 && r->at != r->end && *r->at == '*') {
        r->at++;
        int32_t right = factor(r, open);
        left = right < 0 ? right : joined(r, MARGINS_CODE_MULTIPLY, left, right);
    }
    return left;
}

static int32_t sum(reading *r, unsigned open)
{
    int32_t left = product(r, open);
    while (left >= 0 && r->at != r->end && (*r->at == '+' || *r->at == '-')) {
        uint64_t code = *r->at++ == '+' ? MARGINS_CODE_ADD : MARGINS_CODE_SUBTRACT;
        int32_t right = product(r, open);
        left = right < 0 ? right : joined(r, code, left, right);
    }
    return left;
}

/* The factor of a minus that was read. */
static int32_t minus(reading *r, unsigned open)
{
    int32_t operand = factor(r, open);
    return operand < 0 ? operand : negated(r, operand);
}

/* What follows a parenthesis that was read, up to the one that closes it. */
static int32_t parentheses(reading *r, unsigned open)
{
    int32_t inner = sum(r, open);
    if (inner < 0)
        return inner;
    if (r->at == r->end || *r->at != ')')
        return misread(r, MARGINS_REFUSED_MISPLACED);
    r->at++;
    return inner;
}

margins_packed baseline_pack_text(int64_t scale, int64_t inputs, const uint8_t *text, size_t text_length, uint8_t *bytes, size_t length)
{
    if (scale < 0 || scale > MOST_SCALE)
        return not_packed(MARGINS_REFUSED_SCALE);
    if (inputs < 0 || inputs > MARGINS_MOST_INPUTS)
        return not_packed(MARGINS_REFUSED_COUNT);

    uint8_t packed[MARGINS_MOST_BYTES];
    reading r = {.at = text, .end = text_length ? text + text_length : text, .scale = (uint32_t)scale, .inputs = (uint32_t)inputs,
                 .packed = {packed + HEADER_BYTES, 0, 0}};
    int32_t output = sum(&r, 0);
    if (output >= 0 && r.at != r.end)
        output = misread(&r, MARGINS_REFUSED_MISPLACED);
    if (output < 0)
        return (margins_packed){r.refusal, 0, text_length - (size_t)(r.end - r.at)};
    if (r.later)
        return not_packed(r.later);
    put(&r.packed, (uint64_t)output, 10);
    finish(&r.packed);
    size_t size = (size_t)(r.packed.next - packed);
    if (length < size)
        return not_packed(MARGINS_REFUSED_NO_ROOM);

    writer header = {packed, 0, 0};
    put(&header, UINT64_C(1) << 25 | (uint64_t)scale << 20 | (uint64_t)inputs << 15 | r.instructions << 5 | 1, 32);
    memcpy(bytes, packed, size);
    return (margins_packed){MARGINS_DONE, (uint32_t)size, 0};
}
