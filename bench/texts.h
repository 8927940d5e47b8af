/* Texts of the workloads' kinds, with as many inputs and instructions as the workload has; each is packed to a formula of its own. */
#ifndef TEXTS_H
#define TEXTS_H

#include "workloads.h"

/* Products of two letters each, and their sum. */
void write_dot_product(workload *w);

/* Horner's rule in the letter a. The numbers are whole counts of units; or hardly one is, and they are rounded. */
void write_polynomial(workload *w, uint32_t degree, int rounded);

/* Letters, numbers of both kinds, minuses and parentheses in an order that looks random. */
void write_mix(workload *w);

#endif
