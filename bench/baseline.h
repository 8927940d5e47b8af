/* The four jobs, the ball job with doubles, packing from lists and from a text, reading back, decimal numbers out and in, and why a domain is
 * refused, by hand in C, with the signatures of margins.h: what the proved library is measured against. */
#ifndef BASELINE_H
#define BASELINE_H

#include "margins.h"

/* The type is taken from the library's function, so the two cannot drift apart. */
__typeof__(margins_check) baseline_check;
__typeof__(margins_plain) baseline_plain;
__typeof__(margins_ball) baseline_ball;
__typeof__(margins_ball_doubles) baseline_ball_doubles;
__typeof__(margins_admit) baseline_admit;
__typeof__(margins_pack) baseline_pack;
__typeof__(margins_pack_text) baseline_pack_text;
__typeof__(margins_unpack) baseline_unpack;
__typeof__(margins_to_decimal) baseline_to_decimal;
__typeof__(margins_from_decimal) baseline_from_decimal;
__typeof__(margins_explain) baseline_explain;

/* The same by trying each t from 256 down. */
__typeof__(margins_explain) baseline_explain_from_above;
/* How many admissions both have taken so far. */
extern unsigned baseline_admissions;

#endif
