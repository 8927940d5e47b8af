/* Packed formulas run on readings, each figure with an honest margin; and packed from lists or from a text, and read back into lists. A
 * figure is printed as a decimal number, and a decimal number is read as a reading, with the rounding in the margin. Of a domain that is not
 * admitted, how far it must shrink.
 *
 * Every function may be called with any bytes, any numbers and lists of any length: it answers or refuses, and a refusal
 * writes no output. Nothing has to be checked first. A list is a pointer and the number of its places. Where that number is 0 the
 * pointer is not used. The memory of a list must be there and aligned for its type, and no list that is written may overlap another;
 * that is all that C cannot promise by itself.
 *
 * Readings, constants and results are whole counts of one unit, 2^-F, where F is the formula's scale; margins_ball_doubles alone gives
 * results as doubles. The numbers of a text, and those of margins_to_decimal and margins_from_decimal, are decimal numbers.
 *
 * C sees lists of one type as one and the same: each parameter says which list it is. Where a form with records is offered, a centre
 * cannot be swapped with its margin.
 */
#ifndef MARGINS_H
#define MARGINS_H

#include <stddef.h>
#include <stdint.h>

#if defined(__GNUC__)
#define MARGINS_MUST_USE __attribute__((warn_unused_result))
#elif (defined(__cplusplus) && __cplusplus >= 201703L) || (defined(__STDC_VERSION__) && __STDC_VERSION__ >= 202311L)
#define MARGINS_MUST_USE [[nodiscard]]
#else
#define MARGINS_MUST_USE
#endif

/* C89 has no inline: there an unused function must be allowed to be one. */
#if defined(__cplusplus) || (defined(__STDC_VERSION__) && __STDC_VERSION__ >= 199901L)
#define MARGINS_IN_HEADER static inline
#elif defined(__GNUC__)
#define MARGINS_IN_HEADER static __attribute__((unused))
#else
#define MARGINS_IN_HEADER static
#endif

#ifdef __cplusplus
extern "C" {
#endif

/* The version of this interface; it grows when a program written for the one before may need a change. */
#define MARGINS_INTERFACE 4

/* Enough for every formula. Values are the inputs and the instructions' results; a work list of so many places is never too short. */
#define MARGINS_MOST_INPUTS 16
#define MARGINS_MOST_OUTPUTS 16
#define MARGINS_MOST_INSTRUCTIONS 512
#define MARGINS_MOST_VALUES 528
/* The longest formula: 32 bits of header, 512 coefficients of 66 bits, 16 outputs of 10 bits. */
#define MARGINS_MOST_BYTES 4248
/* The longest text of a ball: a minus, two numbers of 10 digits before the point and 9 behind it, and 4 bytes between them. */
#define MARGINS_MOST_DECIMAL_BYTES 45

/* Why there is no answer. A refusal is one of these numbers, 0 is none; a later library may give further ones. 9 is not given any more.
 * They are tested in this order: 1 to 8 and 16 field by field, 13 to 15, 10, then instruction by instruction 17 and 11; of a text 3 and 4,
 * then 18 and 19 byte by byte, then instruction by instruction 4 and 7, then 10; of a ball to be printed 3, 27, 26, then 10; of a decimal
 * number with its margin 3, 24, 25, 26, then 10; of a domain to be explained 1 to 8 and 16 field by field, then 13 to 15. Where nothing is
 * said of `place` it is 0. */
enum {
    MARGINS_DONE = 0,
    MARGINS_REFUSED_ENDED = 1,              /* the bytes end inside a field */
    MARGINS_REFUSED_VERSION = 2,            /* the version isn't 1 */
    MARGINS_REFUSED_SCALE = 3,              /* the scale is outside 0 to 30 */
    MARGINS_REFUSED_COUNT = 4,              /* the number of inputs, instructions or outputs is outside its limits, or the
                                             * instructions' lists differ in length */
    MARGINS_REFUSED_CODE = 5,               /* the code is outside 0 to 6 */
    MARGINS_REFUSED_OPERAND = 6,            /* an operand or output names no permitted value */
    MARGINS_REFUSED_CONSTANT = 7,           /* a constant is outside -2147483647 to 2147483647, or its margin is below 0 or
                                             * reaches outside */
    MARGINS_REFUSED_PADDING = 8,            /* a padding bit is set or a byte follows */
    MARGINS_REFUSED_MISPLACED = 18,         /* no formula's text that begins as this one has this byte at offset `place`; or, where that is
                                             * the text's length, the text ends too early. What stands before it is good */
    MARGINS_REFUSED_TOO_DEEP = 19,          /* the byte at offset `place` is the 33rd parenthesis or factor's minus that is open at once */
    MARGINS_REFUSED_NUMBER_TEXT = 24,       /* no decimal number that begins as this one has this byte at offset `place`; or, where that is
                                             * the text's length, the text ends too early. What stands before it is good */
    MARGINS_REFUSED_MARGIN_TEXT = 25,       /* the same of the margin's text, which has no minus; `place` is an offset in that text */
    MARGINS_REFUSED_BALL_REACH = 26,        /* a ball that is printed or read has |centre| + margin over 2147483647 units */
    MARGINS_REFUSED_DECIMALS = 27,          /* the number of decimals is outside 0 to 9 */
    MARGINS_REFUSED_RECIPROCAL_SCALE = 16,  /* a reciprocal in a formula whose scale is over 16: pack it with a scale of 0 to 16 */
    MARGINS_REFUSED_READING_COUNT = 13,     /* a list of readings has more or fewer than the formula has inputs: margins_check tells
                                             * how many those are */
    MARGINS_REFUSED_NEGATIVE_MARGIN = 14,   /* reading `place`, counted from 0, has a negative stray or margin; those before it are
                                             * good */
    MARGINS_REFUSED_READING_TOO_LARGE = 15, /* reading `place`, counted from 0, has |centre| + stray + margin over 2147483647; those
                                             * before it are good */
    MARGINS_REFUSED_NO_ROOM = 10,           /* a list to be written is too short */
    MARGINS_REFUSED_MAY_BE_ZERO = 17,       /* instruction `place`, counted from 0, is a reciprocal of what may be 0: its operand is 0, or
                                             * its margin, with the stray in an admission, reaches 0. Keep it away from 0, or shrink the
                                             * margins or the domain, so that |centre| is over margin plus stray. Of a domain
                                             * margins_explain tells how far */
    MARGINS_REFUSED_OUT_OF_REACH = 11,      /* the result of instruction `place`, counted from 0, is out of reach: shrink the readings
                                             * or the domain, or use a smaller scale. Of a domain margins_explain tells how far */
    MARGINS_REFUSED_FORM = 12               /* the program's input has another form; no function gives it */
};

/* The words of a refusal, for a line of a log; never NULL, and an answer for every number. */
MARGINS_IN_HEADER const char *margins_refusal_text(uint32_t refusal)
{
    switch (refusal) {
    case MARGINS_DONE: return "no refusal";
    case MARGINS_REFUSED_ENDED: return "the bytes end inside a field";
    case MARGINS_REFUSED_VERSION: return "the version isn't 1";
    case MARGINS_REFUSED_SCALE: return "the scale is outside 0 to 30";
    case MARGINS_REFUSED_COUNT:
        return "the number of inputs, instructions or outputs is outside its limits, "
               "or the instructions' lists differ in length";
    case MARGINS_REFUSED_CODE: return "the code is outside 0 to 6";
    case MARGINS_REFUSED_OPERAND: return "an operand or output names no permitted value";
    case MARGINS_REFUSED_CONSTANT:
        return "a constant is outside -2147483647 to 2147483647, "
               "or its margin is below 0 or reaches outside";
    case MARGINS_REFUSED_PADDING: return "a padding bit is set or a byte follows";
    case MARGINS_REFUSED_MISPLACED: return "the text has a byte that cannot stand there, or ends too early";
    case MARGINS_REFUSED_TOO_DEEP: return "over 32 parentheses and minuses of the text are open at once";
    case MARGINS_REFUSED_NUMBER_TEXT: return "the number's text has a byte that cannot stand there, or ends too early";
    case MARGINS_REFUSED_MARGIN_TEXT: return "the margin's text has a byte that cannot stand there, or ends too early";
    case MARGINS_REFUSED_BALL_REACH: return "the ball's |centre| + margin is over 2147483647 units";
    case MARGINS_REFUSED_DECIMALS: return "the number of decimals is outside 0 to 9";
    case MARGINS_REFUSED_RECIPROCAL_SCALE: return "a reciprocal in a formula whose scale is over 16";
    case MARGINS_REFUSED_READING_COUNT: return "the number of readings isn't that of the inputs";
    case MARGINS_REFUSED_NEGATIVE_MARGIN: return "a reading has a negative stray or margin";
    case MARGINS_REFUSED_READING_TOO_LARGE: return "a reading's |centre| + stray + margin is over 2147483647";
    case MARGINS_REFUSED_NO_ROOM: return "a list to be written is too short";
    case MARGINS_REFUSED_MAY_BE_ZERO: return "a reciprocal of what may be 0";
    case MARGINS_REFUSED_OUT_OF_REACH: return "a step's result is out of reach";
    case MARGINS_REFUSED_FORM: return "the program's input has another form";
    default: return "a refusal that this header does not know";
    }
}

/* refusal 0: that many outputs were written, and place is 0. Else no output was written and outputs is 0; place says where, counted from
 * 0: the reading with MARGINS_REFUSED_NEGATIVE_MARGIN and MARGINS_REFUSED_READING_TOO_LARGE, the instruction with
 * MARGINS_REFUSED_MAY_BE_ZERO and MARGINS_REFUSED_OUT_OF_REACH, the byte of the number's text with MARGINS_REFUSED_NUMBER_TEXT, of the
 * margin's text with MARGINS_REFUSED_MARGIN_TEXT; it is 0 with the others. */
typedef struct {
    uint32_t refusal;
    uint32_t outputs;
    uint64_t place;
} margins_reply;

/* refusal 0: the bytes are a formula with this scale and so many inputs, outputs and instructions. Else all of them are 0; the place of
 * a refusal is 0 here and therefore not held. */
typedef struct {
    uint32_t refusal;
    uint32_t scale;
    uint16_t inputs;
    uint16_t outputs;
    uint32_t instructions;
} margins_formula;

/* refusal 0: the formula, or the text of a ball, was written into the first `bytes` places. Else nothing was written and bytes is 0. The
 * place is the offset of a byte of the text with MARGINS_REFUSED_MISPLACED and MARGINS_REFUSED_TOO_DEEP; it is 0 with every other refusal
 * that packing gives, and with each of margins_to_decimal. */
typedef struct {
    uint32_t refusal;
    uint32_t bytes;
    uint64_t place;
} margins_packed;

/* What margins_explain answers. */
enum {
    MARGINS_NOTHING_TO_EXPLAIN = 1, /* the domain is admitted as it is */
    MARGINS_ADMITTED_TO = 2,        /* it is admitted with every stray and margin shrunk to `parts` of 256, and refused at each greater t */
    MARGINS_NEVER_ADMITTED = 3      /* it is refused even with every stray and margin 0: change the formula, the middles or the scale */
};

/* refusal 0: `answer` is one of these. Else the question could not be looked at, `answer` is 0, and place is the reading with
 * MARGINS_REFUSED_NEGATIVE_MARGIN and MARGINS_REFUSED_READING_TOO_LARGE, 0 with the others. */
typedef struct {
    uint32_t refusal;
    uint8_t answer; /* one of these, 0 with a refusal */
    uint8_t parts;  /* with MARGINS_ADMITTED_TO the largest t of 256 that is admitted, 0 to 255; else 0 */
    uint16_t met;   /* MARGINS_REFUSED_OUT_OF_REACH or MARGINS_REFUSED_MAY_BE_ZERO as it is met at parts + 1, or at 0 with
                     * MARGINS_NEVER_ADMITTED; else 0 */
    uint64_t place; /* with `met` its instruction, counted from 0 */
} margins_explanation;

/* One reading with its margin. */
typedef struct {
    int64_t centre; /* what was read */
    int64_t margin; /* how far the truth may be from it, at least 0; |centre| + margin is at most 2147483647 */
} margins_reading;

/* The library hands these over by their layout: a compiler that lays them out otherwise stops here. */
typedef char margins_reply_has_16_bytes[sizeof(margins_reply) == 16 ? 1 : -1];
typedef char margins_formula_has_16_bytes[sizeof(margins_formula) == 16 ? 1 : -1];
typedef char margins_packed_has_16_bytes[sizeof(margins_packed) == 16 ? 1 : -1];
typedef char margins_explanation_has_16_bytes[sizeof(margins_explanation) == 16 ? 1 : -1];
typedef char margins_reading_has_16_bytes[sizeof(margins_reading) == 16 ? 1 : -1];
typedef char margins_double_has_8_bytes[sizeof(double) == 8 ? 1 : -1];

/* In each run: a list of readings has exactly a place for each input; a work list has inputs + instructions places or more
 * (MARGINS_MOST_VALUES are always enough), an output list a place for each output or more (MARGINS_MOST_OUTPUTS).
 * After refusal 0 the work lists hold all values, after 11 and 17 those before the refused instruction; later places, and with the other
 * refusals all, keep what they held. */

/* Are these bytes a formula? */
MARGINS_MUST_USE margins_formula margins_check(
    const uint8_t *formula, size_t formula_length); /* read: the packed bytes */

/* Bare readings; for each output its centre. */
MARGINS_MUST_USE margins_reply margins_plain(
    const uint8_t *formula, size_t formula_length,   /* read: the packed bytes */
    const int64_t *readings, size_t readings_length, /* read: what was read, one for each input; -2147483647 to 2147483647 */
    int64_t *work, size_t work_length,               /* written: a centre for each value; inputs + instructions places */
    int64_t *output, size_t output_length);          /* written: a centre for each output */

/* A centre and a margin for each reading; for each output a centre and a margin that holds every exact result. */
MARGINS_MUST_USE margins_reply margins_ball_records(
    const uint8_t *formula, size_t formula_length,           /* read: the packed bytes */
    const margins_reading *readings, size_t readings_length, /* read: centre beside margin, one record for each input */
    int64_t *work_centres, size_t work_centres_length,       /* written: a centre for each value; inputs + instructions places */
    uint64_t *work_margins, size_t work_margins_length,      /* written: a margin for each value; inputs + instructions places */
    int64_t *output_centres, size_t output_centres_length,   /* written: a centre for each output */
    uint64_t *output_margins, size_t output_margins_length); /* written: a margin for each output */

/* The same with the readings as two lists; it answers identically. */
MARGINS_MUST_USE margins_reply margins_ball(
    const uint8_t *formula, size_t formula_length,           /* read: the packed bytes */
    const int64_t *centres, size_t centres_length,           /* read: what was read, one for each input */
    const int64_t *margins, size_t margins_length,           /* read: how far the truth may be from it, one for each input; at least 0 */
    int64_t *work_centres, size_t work_centres_length,       /* written: a centre for each value; inputs + instructions places */
    uint64_t *work_margins, size_t work_margins_length,      /* written: a margin for each value; inputs + instructions places */
    int64_t *output_centres, size_t output_centres_length,   /* written: a centre for each output */
    uint64_t *output_margins, size_t output_margins_length); /* written: a margin for each output */

/* The ball run for a page that draws with doubles; it answers and refuses as margins_ball does. For each output centre/2^F and margin/2^F as
 * doubles that are exactly these numbers: nothing is rounded, and a zero is plus zero. The work lists hold whole counts of units, as after
 * margins_ball. Later places of the output lists, and with a refusal all, keep the bits that they held. */
MARGINS_MUST_USE margins_reply margins_ball_doubles(
    const uint8_t *formula, size_t formula_length,         /* read: the packed bytes */
    const int64_t *centres, size_t centres_length,         /* read: what was read, one for each input; in units */
    const int64_t *margins, size_t margins_length,         /* read: how far the truth may be from it, one for each input; at least 0 */
    int64_t *work_centres, size_t work_centres_length,     /* written: a centre for each value; inputs + instructions places */
    uint64_t *work_margins, size_t work_margins_length,    /* written: a margin for each value; inputs + instructions places */
    double *output_centres, size_t output_centres_length,  /* written: centre/2^F for each output */
    double *output_margins, size_t output_margins_length); /* written: margin/2^F for each output */

/* A domain, once. Readings are inside it when each centre is within its stray of its middle, and each margin at most the domain's.
 * For each output the middle, the stray of its computed centre and the static margin: an exact result is within the static margin of
 * the centre that a run computes, and within stray plus margin of the middle. */
MARGINS_MUST_USE margins_reply margins_admit(
    const uint8_t *formula, size_t formula_length,           /* read: the packed bytes */
    const int64_t *middles, size_t middles_length,           /* read: the middle of the centres, one for each input */
    const int64_t *strays, size_t strays_length,             /* read: how far a centre may be from it, one for each input; at least 0 */
    const int64_t *margins, size_t margins_length,           /* read: the largest margin of a reading, one for each input; at least 0 */
    int64_t *work_middles, size_t work_middles_length,       /* written: a middle for each value; inputs + instructions places */
    uint64_t *work_strays, size_t work_strays_length,        /* written: a stray for each value; inputs + instructions places */
    uint64_t *work_margins, size_t work_margins_length,      /* written: a static margin for each value; inputs + instructions places */
    int64_t *output_middles, size_t output_middles_length,   /* written: a middle for each output */
    uint64_t *output_strays, size_t output_strays_length,    /* written: the stray of its computed centre, for each output */
    uint64_t *output_margins, size_t output_margins_length); /* written: the static margin, for each output */

/* Why margins_admit refuses a domain with 11 or 17, and how far it must shrink: at t of 256 every stray and margin x is x*t/256, rounded down,
 * and the middles stay. A domain that is made no larger stays admitted, so that there is one largest t. It is found by halves, with at most 9
 * admissions; nothing is lent. */
MARGINS_MUST_USE margins_explanation margins_explain(
    const uint8_t *formula, size_t formula_length,  /* read: the packed bytes */
    const int64_t *middles, size_t middles_length,  /* read: the middle of the centres, one for each input */
    const int64_t *strays, size_t strays_length,    /* read: how far a centre may be from it, one for each input; at least 0 */
    const int64_t *margins, size_t margins_length); /* read: the largest margin of a reading, one for each input; at least 0 */

/* A formula as lists. Instruction k has the code codes[k] and the fields firsts[k] and seconds[k]; it makes value inputs + k and may name
 * only smaller values. The outputs may name any value. */
enum {
    MARGINS_CODE_CONSTANT = 0,    /* first: the constant, exact, -2147483647 to 2147483647; it has no second */
    MARGINS_CODE_NEGATE = 1,      /* first: the operand; it has no second */
    MARGINS_CODE_ADD = 2,         /* first and second: the operands */
    MARGINS_CODE_SUBTRACT = 3,    /* first: the operand from which the second is taken */
    MARGINS_CODE_MULTIPLY = 4,    /* first and second: the operands */
    MARGINS_CODE_COEFFICIENT = 5, /* a constant with a margin; first: its centre, second: how far the truth may be from it, at least 0;
                                   * |centre| + margin is at most 2147483647 */
    MARGINS_CODE_RECIPROCAL = 6   /* 1 divided by the operand, in a formula whose scale is 0 to 16; first: the operand; it has no second.
                                   * x/y is x times the reciprocal of y */
};

/* Packs the lists. They may hold any numbers; a second field that the code does not have is not looked at. The fields are tested in the
 * order in which they are written, the room for the bytes last. The places behind the formula keep what they held. */
MARGINS_MUST_USE margins_packed margins_pack(
    int64_t scale,                                 /* 0 to 30 */
    int64_t inputs,                                /* 0 to 16 */
    const int64_t *codes, size_t codes_length,     /* read: a code for each instruction; 0 to 512 */
    const int64_t *firsts, size_t firsts_length,   /* read: a first field for each instruction */
    const int64_t *seconds, size_t seconds_length, /* read: a second field for each instruction */
    const int64_t *outputs, size_t outputs_length, /* read: the value that each output names; 1 to 16 */
    uint8_t *formula, size_t formula_length);      /* written: the packed bytes; MARGINS_MOST_BYTES places are always enough */

/* Packs a formula as people write it, such as a*(b-0.25)+c; its one output is the value of the whole text. There are no spaces.
 * A sum is products joined by + or -, a product is factors joined by *, both grouped from the left. A factor is a letter, a number, a minus
 * and a factor, or a sum in parentheses. The letter a is input 0, b is input 1, and so on up to p; only those of the inputs are allowed. A
 * number has 1 to 9 digits in all, with an optional point between digits. It is rounded to units, ties up: where it is a whole number of
 * units it is a constant, else a coefficient with margin 1. Each number, minus and operator is one instruction, left operand before right,
 * both before their operator. At most 32 parentheses and factors' minuses are open at once, a parenthesis up to the one that closes it, a
 * minus up to the end of its factor.
 * The text may be any bytes; its length does not count a zero that ends it in C. The places behind the formula keep what they held. */
MARGINS_MUST_USE margins_packed margins_pack_text(
    int64_t scale,                            /* 0 to 30 */
    int64_t inputs,                           /* 0 to 16 */
    const uint8_t *text, size_t text_length,  /* read: the text, in ASCII */
    uint8_t *formula, size_t formula_length); /* written: the packed bytes; MARGINS_MOST_BYTES places are always enough */

/* Reads the packed bytes back into lists, which pack to the same bytes. It answers as margins_check does, and refuses lists that are too
 * short. A second field that the code does not have is 0; places behind the last instruction or output keep what they held. */
MARGINS_MUST_USE margins_formula margins_unpack(
    const uint8_t *formula, size_t formula_length, /* read: the packed bytes */
    int64_t *codes, size_t codes_length,           /* written: a code for each instruction; MARGINS_MOST_INSTRUCTIONS are enough */
    int64_t *firsts, size_t firsts_length,         /* written: a first field for each instruction; as many */
    int64_t *seconds, size_t seconds_length,       /* written: a second field for each instruction; as many */
    int64_t *outputs, size_t outputs_length);      /* written: the value that each output names; MARGINS_MOST_OUTPUTS are enough */

/* A ball as decimal numbers, which are whole counts of 10^-decimals, and as text, such as 0.5625 +- 0.5625.
 * The decimal centre is the count nearest to the centre, of two the upper one. The decimal margin is the least count that holds the whole
 * ball around it: the margin and what rounding the centre lost, rounded up together. So it is 0 only where the margin is 0 and nothing was
 * lost. The text has the decimal centre, a space, plus, minus, a space, and the decimal margin. Each has at least one digit before the
 * point and as many behind it as there are decimals, without decimals no point; a minus stands only before a count below 0. Places behind
 * the first of a list and behind the text keep what they held. margins_from_decimal reads the text again, in two parts, where each has at
 * most 9 digits and they are in reach; with 9 decimals it has more. */
MARGINS_MUST_USE margins_packed margins_to_decimal(
    int64_t scale,                                            /* 0 to 30; a unit is 2^-scale */
    int64_t decimals,                                         /* 0 to 9 */
    int64_t centre,                                           /* the ball's centre in units, as margins_ball gives it */
    uint64_t margin,                                          /* its margin in units; |centre| + margin is at most 2147483647 */
    int64_t *decimal_centres, size_t decimal_centres_length,  /* written: the decimal centre; 1 place */
    uint64_t *decimal_margins, size_t decimal_margins_length, /* written: the decimal margin; 1 place */
    uint8_t *text, size_t text_length);                       /* written: the text, in ASCII, no zero behind it; MARGINS_MOST_DECIMAL_BYTES
                                                               * places are always enough */

/* A decimal number, give or take a decimal margin, as a reading for margins_ball: whatever is within the written margin of the written
 * number is inside the reading. A number has an optional minus and 1 to 9 digits in all, with an optional point between digits; a margin
 * has no minus. The centre is rounded to units, ties up, and the margin is rounded up to units, plus 1 where the number is no whole
 * number of units. Both texts may be any bytes; a length does not count a zero that ends a text in C. Places behind the first of a list
 * keep what they held. After refusal 0 `outputs` is 1. */
MARGINS_MUST_USE margins_reply margins_from_decimal(
    int64_t scale,                               /* 0 to 30; a unit is 2^-scale */
    const uint8_t *number, size_t number_length, /* read: the number, such as -0.1, in ASCII */
    const uint8_t *margin, size_t margin_length, /* read: how far the truth may be from it, such as 0.02 */
    int64_t *centres, size_t centres_length,     /* written: the reading's centre, in units; 1 place */
    int64_t *margins, size_t margins_length);    /* written: the reading's margin, in units; 1 place */

#ifdef __cplusplus
}
#endif

#undef MARGINS_MUST_USE
#undef MARGINS_IN_HEADER

#endif
