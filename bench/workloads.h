/* Formulas, packed, as lists and most of them as a text, with readings for the benchmark; every run of them stays in reach, but for the
 * admission of a domain with wide strays. And balls to be printed, with texts of numbers to be read. */
#ifndef WORKLOADS_H
#define WORKLOADS_H

#include "margins.h"

enum { MOST_TEXT = 4096, BALLS = MARGINS_MOST_INPUTS, MOST_NUMBER = 16, DECIMAL_KINDS = 3 };

/* A number as people write it. */
typedef struct {
    uint8_t text[MOST_NUMBER];
    size_t length;
} number;

typedef struct {
    char name[32];
    _Alignas(64) uint8_t bytes[MARGINS_MOST_BYTES];
    size_t length;
    uint32_t scale, inputs, instructions;
    int64_t codes[MARGINS_MOST_INSTRUCTIONS], firsts[MARGINS_MOST_INSTRUCTIONS], seconds[MARGINS_MOST_INSTRUCTIONS], output;
    int64_t middles[MARGINS_MOST_INPUTS], strays[MARGINS_MOST_INPUTS], margins[MARGINS_MOST_INPUTS];
    int64_t wide_strays[MARGINS_MOST_INPUTS]; /* with them the domain is refused */
    _Alignas(64) char text[MOST_TEXT];
    size_t text_length; /* 0: it has no text */
    uint32_t decimals;
    number numbers[BALLS], doubts[BALLS]; /* those of balls alone; the first has length 0 in a formula */
} workload;

/* 16 inputs, 8 products and 7 sums. */
workload dot_product(void);

/* Horner's rule for a polynomial of degree 15 in one input. */
workload polynomial(void);

/* Horner's rule for a polynomial of degree 21 whose constants have margins: 22 of 64 instructions. */
workload coefficients(void);

/* 16 inputs, 8 quotients and 7 sums: 8 reciprocals in 23 instructions. */
workload reciprocals(void);

/* Instructions of all codes but a coefficient's and a reciprocal's in an order that looks random; at most 512 of them. */
workload mix(uint32_t instructions);

/* No formula but balls in middles and margins, and numbers with their margins as text: hours with one decimal, hours with four, and what has
 * the most digits. */
workload decimals(int kind);

#endif
