#include "texts.h"

#include <stdarg.h>
#include <stdio.h>
#include <stdlib.h>

enum { PART = 5, MOST_NESTED = 8 };

static void say(workload *w, const char *words, ...)
{
    va_list rest;
    va_start(rest, words);
    size_t room = sizeof w->text - w->text_length;
    int said = vsnprintf(w->text + w->text_length, room, words, rest);
    va_end(rest);
    if (said < 0 || (size_t)said >= room) {
        fprintf(stderr, "bench: %s: its text is too long\n", w->name);
        exit(1);
    }
    w->text_length += (size_t)said;
}

static uint32_t any(uint32_t *seed, uint32_t below)
{
    *seed = *seed * 1664525 + 1013904223;
    return (*seed >> 8) % below;
}

/* Below 2; a multiple of 1/16, or with five digits behind the point. */
static void say_number(workload *w, uint32_t *seed, int rounded)
{
    uint32_t number = any(seed, rounded ? 200000 : 32);
    if (rounded)
        say(w, "%u.%05u", number / 100000, number % 100000);
    else
        say(w, "%u.%04u", number / 16, number % 16 * 625);
}

void write_dot_product(workload *w)
{
    for (uint32_t i = 0, terms = w->inputs / 2; i < terms; i++)
        say(w, "%s%c*%c", i ? "+" : "", (int)('a' + i), (int)('a' + terms + i));
}

void write_polynomial(workload *w, uint32_t degree, int rounded)
{
    uint32_t seed = 1;
    for (uint32_t i = 1; i < degree; i++)
        say(w, "(");
    say(w, rounded ? "0.12345" : "0.5");
    for (uint32_t i = 1; i <= degree; i++) {
        say(w, "*a%s", any(&seed, 2) ? "+" : "-");
        say_number(w, &seed, rounded);
        if (i < degree)
            say(w, ")");
    }
}

/* An operator is one instruction, and so are a minus and a number behind it. */
void write_mix(workload *w)
{
    uint32_t seed = 1, nested = 0;
    say(w, "a");
    for (uint32_t left = w->instructions; left; left--) {
        say(w, "%c", "+-*"[any(&seed, 3)]);
        if (left > 1 && any(&seed, PART) == 0)
            say(w, "-"), left--;
        if (nested < MOST_NESTED && any(&seed, PART) == 0)
            say(w, "("), nested++;
        if (left > 1 && any(&seed, PART) == 0)
            say_number(w, &seed, any(&seed, 2) == 0), left--;
        else
            say(w, "%c", (int)('a' + any(&seed, w->inputs)));
        if (nested && any(&seed, PART) == 0)
            say(w, ")"), nested--;
    }
    for (; nested; nested--)
        say(w, ")");
}
