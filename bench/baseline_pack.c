/* Every field tested and every width summed before a byte is written. */
#include "baseline_reading.h"
#include "baseline_writing.h"

static uint32_t test_header(int64_t scale, int64_t inputs, size_t codes, size_t firsts, size_t seconds, size_t outputs)
{
    if (scale < 0 || scale > 30)
        return MARGINS_REFUSED_SCALE;
    if (inputs < 0 || inputs > MARGINS_MOST_INPUTS)
        return MARGINS_REFUSED_COUNT;
    if (firsts != codes || seconds != codes || codes > MARGINS_MOST_INSTRUCTIONS)
        return MARGINS_REFUSED_COUNT;
    return outputs < 1 || outputs > MARGINS_MOST_OUTPUTS ? MARGINS_REFUSED_COUNT : MARGINS_DONE;
}

/* Adds the widths to bits. A number below zero is, without its sign, beyond every limit. */
static uint32_t test_instructions(const int64_t *codes, const int64_t *firsts, const int64_t *seconds, size_t count, uint64_t value,
                                  int64_t scale, size_t *bits)
{
    size_t sum = *bits;
    for (size_t k = 0; k < count; k++, value++) {
        switch (codes[k]) {
        case CONSTANT:
            if (size(firsts[k]) > M)
                return MARGINS_REFUSED_CONSTANT;
            sum += 35;
            break;
        case NEGATE:
            if ((uint64_t)firsts[k] >= value)
                return MARGINS_REFUSED_OPERAND;
            sum += 13;
            break;
        case ADD:
        case SUBTRACT:
        case MULTIPLY:
            if ((uint64_t)firsts[k] >= value || (uint64_t)seconds[k] >= value)
                return MARGINS_REFUSED_OPERAND;
            sum += 23;
            break;
        default:
            if (codes[k] == MARGINS_CODE_COEFFICIENT) {
                if (size(firsts[k]) > M || (uint64_t)seconds[k] > M - size(firsts[k]))
                    return MARGINS_REFUSED_CONSTANT;
                sum += 66;
                break;
            }
            if (codes[k] != MARGINS_CODE_RECIPROCAL)
                return MARGINS_REFUSED_CODE;
            if (scale > MOST_SCALE_OF_A_RECIPROCAL)
                return MARGINS_REFUSED_RECIPROCAL_SCALE;
            if ((uint64_t)firsts[k] >= value)
                return MARGINS_REFUSED_OPERAND;
            sum += 13;
        }
    }
    *bits = sum;
    return MARGINS_DONE;
}

static inline void put_instruction(writer *w, uint64_t code, int64_t first, int64_t second)
{
    if (code == CONSTANT)
        put(w, code, 3), put(w, (uint32_t)first, 32);
    else if (code == NEGATE)
        put(w, code << 10 | (uint64_t)first, 13);
    else if (code <= MULTIPLY)
        put(w, code << 20 | (uint64_t)first << 10 | (uint64_t)second, 23);
    else if (code == MARGINS_CODE_COEFFICIENT)
        put(w, code, 3), put(w, (uint32_t)first, 32), put(w, (uint64_t)second, 31);
    else
        put(w, code << 10 | (uint64_t)first, 13);
}

margins_packed baseline_pack(int64_t scale, int64_t inputs,
                             const int64_t *codes, size_t codes_length,
                             const int64_t *firsts, size_t firsts_length,
                             const int64_t *seconds, size_t seconds_length,
                             const int64_t *outputs, size_t outputs_length,
                             uint8_t *bytes, size_t length)
{
    uint32_t refusal = test_header(scale, inputs, codes_length, firsts_length, seconds_length, outputs_length);
    if (refusal)
        return not_packed(refusal);
    size_t bits = 32 + 10 * outputs_length;
    refusal = test_instructions(codes, firsts, seconds, codes_length, (uint64_t)inputs, scale, &bits);
    if (refusal)
        return not_packed(refusal);
    for (size_t i = 0; i < outputs_length; i++)
        if ((uint64_t)outputs[i] >= (uint64_t)inputs + codes_length)
            return not_packed(MARGINS_REFUSED_OPERAND);
    if (length < (bits + 7) / 8)
        return not_packed(MARGINS_REFUSED_NO_ROOM);

    writer w = {bytes, 0, 0};
    put(&w, UINT64_C(1) << 25 | (uint64_t)scale << 20 | (uint64_t)inputs << 15 | codes_length << 5 | outputs_length, 32);
    for (size_t k = 0; k < codes_length; k++)
        put_instruction(&w, (uint64_t)codes[k], firsts[k], seconds[k]);
    for (size_t i = 0; i < outputs_length; i++)
        put(&w, (uint64_t)outputs[i], 10);
    finish(&w);
    return (margins_packed){MARGINS_DONE, (uint32_t)((bits + 7) / 8), 0};
}

margins_formula baseline_unpack(const uint8_t *bytes, size_t length,
                                int64_t *codes, size_t codes_length,
                                int64_t *firsts, size_t firsts_length,
                                int64_t *seconds, size_t seconds_length,
                                int64_t *outputs, size_t outputs_length)
{
    formula f;
    uint32_t refusal = read_formula(bytes, length, &f);
    if (refusal)
        return no_formula(refusal);
    if (codes_length < f.instructions || firsts_length < f.instructions || seconds_length < f.instructions || outputs_length < f.outputs)
        return no_formula(MARGINS_REFUSED_NO_ROOM);

    for (size_t k = 0; k < f.instructions; k++) {
        const instruction *at = &f.program[k];
        switch (at->code) {
        case CONSTANT:
            codes[k] = CONSTANT, firsts[k] = at->constant, seconds[k] = 0;
            break;
        case NEGATE:
            codes[k] = NEGATE, firsts[k] = at->left, seconds[k] = 0;
            break;
        case ADD:
        case SUBTRACT:
        case MULTIPLY:
            codes[k] = at->code, firsts[k] = at->left, seconds[k] = at->right;
            break;
        default:
            if (at->code == RECIPROCAL) {
                codes[k] = MARGINS_CODE_RECIPROCAL, firsts[k] = at->left, seconds[k] = 0;
                break;
            }
            codes[k] = MARGINS_CODE_COEFFICIENT, firsts[k] = at->constant, seconds[k] = at->code - COEFFICIENT;
        }
    }
    for (size_t i = 0; i < f.outputs; i++)
        outputs[i] = f.output[i];
    return header_of(&f);
}
