/* Runs framed cases from standard input and writes framed replies to standard output; frames.py, packing_frames.py, text_frames.py,
 * doubles_frames.py, decimal_frames.py and explaining_frames.py tell the forms. Each list is allocated at exactly its length, so that a memory
 * checker sees every step beyond it. In half of the cases of packing, of texts, of doubles and of decimals sentinels stand behind each list
 * that is written instead, and in half of those of explaining on both sides of each list that is read, so that a step beyond is seen without
 * a checker. */
#include "margins.h"

#include <stdbool.h>
#include <stdio.h>
#include <stdlib.h>
#include <string.h>

enum { CHECK, PLAIN, BALL, ADMIT, RECORDS, PACK, UNPACK, DOUBLES, TEXT, TO_DECIMAL, FROM_DECIMAL, EXPLAIN };
enum { CODES, FIRSTS, SECONDS, OUTPUTS, PACKING_LISTS };
enum { CENTRES, MARGINS, DECIMAL_LISTS };
enum { MIDDLES, STRAYS, DOMAIN_MARGINS, DOMAIN_LISTS };
enum { MOST_PARTS = 3, BEHIND = 8, BUFFER = 1 << 20 };

typedef struct {
    int64_t *places;
    size_t length;
} list;

/* A formula or a text that is read, and a copy of it. */
typedef struct {
    uint8_t *memory, *bytes, *kept;
    size_t length;
} packed;

static void stop(const char *why)
{
    fprintf(stderr, "driver: %s\n", why);
    exit(2);
}

static void take(void *to, size_t size)
{
    if (size && fread(to, 1, size, stdin) != size)
        stop("the input ends inside a frame");
}

static void give(const void *from, size_t size)
{
    if (size && fwrite(from, 1, size, stdout) != size)
        stop("the reply cannot be written");
}

static size_t take_length(void)
{
    uint32_t length;
    take(&length, sizeof length);
    return length;
}

/* An empty list has no memory at all: its pointer must not be used. */
static void *allocate(size_t size)
{
    void *memory = size ? malloc(size) : NULL;
    if (size && !memory)
        stop("no memory");
    return memory;
}

static void *copy(const void *from, size_t size)
{
    void *memory = allocate(size);
    if (size)
        memcpy(memory, from, size);
    return memory;
}

static bool same(const void *one, const void *other, size_t size)
{
    return !size || memcmp(one, other, size) == 0;
}

/* A different number at each place of each lent list; frames.py has the same. */
static uint64_t sentinel(size_t list_number, size_t index)
{
    uint64_t x = (list_number + 1) * UINT64_C(0x9E3779B97F4A7C15) + (index + 1) * UINT64_C(0xBF58476D1CE4E5B9);
    x = (x ^ x >> 31) * UINT64_C(0x94D049BB133111EB);
    return x ^ x >> 29;
}

/* In a list of doubles: NaNs with a payload, minus zeros and numbers of every size, so that a place is seen that was read as a double and
 * written again; doubles_frames.py has the same. */
static uint64_t double_sentinel(size_t list_number, size_t index)
{
    const uint64_t exponent = UINT64_C(0x7FF) << 52, x = sentinel(list_number, index);
    switch (index % 4) {
    case 0: return x | exponent;
    case 1: return UINT64_C(1) << 63;
    case 2: return x & ~exponent;
    default: return x;
    }
}

typedef uint64_t holding(size_t list_number, size_t index);

static size_t bytes_of(list of)
{
    return of.length * sizeof *of.places;
}

static list take_list(void)
{
    list made = {NULL, take_length()};
    made.places = allocate(bytes_of(made));
    take(made.places, bytes_of(made));
    return made;
}

static list copy_list(list of)
{
    return (list){copy(of.places, bytes_of(of)), of.length};
}

static list lend(size_t list_number, size_t behind, holding *sentinel_at)
{
    list made = {NULL, take_length()};
    made.places = allocate((made.length + behind) * sizeof *made.places);
    for (size_t i = 0; i < made.length + behind; i++) {
        uint64_t held = sentinel_at(list_number, i);
        memcpy(&made.places[i], &held, sizeof held);
    }
    return made;
}

static bool kept_behind(list lent, size_t list_number, size_t behind, holding *sentinel_at)
{
    for (size_t i = lent.length; i < lent.length + behind; i++)
        if ((uint64_t)lent.places[i] != sentinel_at(list_number, i))
            return false;
    return true;
}

static bool kept_behind_all(const list *lent, size_t count, size_t behind)
{
    bool kept = true;
    for (size_t i = 0; i < count; i++)
        kept = kept && kept_behind(lent[i], i, behind, sentinel);
    return kept;
}

/* Every place of these lists, which are then no longer needed. */
static void give_all(list *lent, size_t count)
{
    for (size_t i = 0; i < count; i++) {
        give(lent[i].places, bytes_of(lent[i]));
        free(lent[i].places);
    }
}

/* A formula, or a text, may start at any address. */
static packed take_formula(size_t number)
{
    size_t offset = number % 8, length = take_length();
    uint8_t *memory = allocate(offset + length), *bytes = length ? memory + offset : NULL;
    take(bytes, length);
    return (packed){memory, bytes, copy(bytes, length), length};
}

static void free_formula(packed formula)
{
    free(formula.memory);
    free(formula.kept);
}

#ifndef WITHOUT_RECORDS
/* The same readings, centre beside margin. */
static margins_reply run_records(const uint8_t *formula, size_t length, const list *in, list *work, list *out)
{
    size_t count = in[0].length;
    if (in[1].length != count)
        stop("records of which a half is missing");
    margins_reading *readings = allocate(count * sizeof *readings);
    for (size_t i = 0; i < count; i++)
        readings[i] = (margins_reading){in[0].places[i], in[1].places[i]};
    margins_reply answer = margins_ball_records(formula, length, readings, count, work[0].places, work[0].length,
                                                (uint64_t *)work[1].places, work[1].length, out[0].places, out[0].length,
                                                (uint64_t *)out[1].places, out[1].length);
    free(readings);
    return answer;
}
#endif

static margins_reply run(int job, const uint8_t *formula, size_t length, list *in, list *work, list *out)
{
    switch (job) {
    case PLAIN:
        return margins_plain(formula, length, in[0].places, in[0].length, work[0].places, work[0].length, out[0].places, out[0].length);
    case RECORDS:
#ifndef WITHOUT_RECORDS
        return run_records(formula, length, in, work, out);
#endif
    case BALL:
        return margins_ball(formula, length, in[0].places, in[0].length, in[1].places, in[1].length,
                            work[0].places, work[0].length, (uint64_t *)work[1].places, work[1].length,
                            out[0].places, out[0].length, (uint64_t *)out[1].places, out[1].length);
    default:
        return margins_admit(formula, length, in[0].places, in[0].length, in[1].places, in[1].length, in[2].places, in[2].length,
                             work[0].places, work[0].length, (uint64_t *)work[1].places, work[1].length,
                             (uint64_t *)work[2].places, work[2].length, out[0].places, out[0].length,
                             (uint64_t *)out[1].places, out[1].length, (uint64_t *)out[2].places, out[2].length);
    }
}

static void run_case(int job, size_t number)
{
    list in[MOST_PARTS], kept[MOST_PARTS], lent[2 * MOST_PARTS];
    size_t parts = job == RECORDS ? BALL : (size_t)job;
    packed formula = take_formula(number);
    for (size_t i = 0; i < parts; i++) {
        in[i] = take_list();
        kept[i] = copy_list(in[i]);
    }
    for (size_t i = 0; i < 2 * parts; i++)
        lent[i] = lend(i, 0, sentinel);

    if (job == CHECK) {
        margins_formula answer = margins_check(formula.bytes, formula.length);
        give(&answer, sizeof answer);
    } else {
        margins_reply answer = run(job, formula.bytes, formula.length, in, lent, lent + parts);
        give(&answer, sizeof answer);
    }
    uint8_t intact = same(formula.bytes, formula.kept, formula.length);
    for (size_t i = 0; i < parts; i++)
        intact = intact && same(in[i].places, kept[i].places, bytes_of(in[i]));
    give(&intact, sizeof intact);

    give_all(lent, 2 * parts);
    for (size_t i = 0; i < parts; i++) {
        free(in[i].places);
        free(kept[i].places);
    }
    free_formula(formula);
}

static size_t places_behind(size_t number)
{
    return number / 8 % 2 ? BEHIND : 0;
}

/* A buffer for a formula, at any address, with sentinels on both sides. */
typedef struct {
    uint8_t *memory, *bytes;
    size_t before, length, whole;
} buffer;

static uint8_t byte_held(const buffer *b, size_t i)
{
    return i < b->before ? (uint8_t)~i : (uint8_t)sentinel(PACKING_LISTS, i - b->before);
}

static buffer lend_buffer(size_t number)
{
    buffer b = {.before = number % 8, .length = take_length()};
    b.whole = b.before + b.length + places_behind(number);
    b.memory = allocate(b.whole);
    b.bytes = b.whole > b.before ? b.memory + b.before : NULL;
    for (size_t i = 0; i < b.whole; i++)
        b.memory[i] = byte_held(&b, i);
    return b;
}

static bool kept_around(const buffer *b)
{
    for (size_t i = 0; i < b->whole; i++)
        if ((i < b->before || i >= b->before + b->length) && b->memory[i] != byte_held(b, i))
            return false;
    return true;
}

static void pack_case(size_t number)
{
    int64_t scale, inputs;
    list in[PACKING_LISTS], kept[PACKING_LISTS];
    take(&scale, sizeof scale);
    take(&inputs, sizeof inputs);
    for (size_t i = 0; i < PACKING_LISTS; i++) {
        in[i] = take_list();
        kept[i] = copy_list(in[i]);
    }
    buffer b = lend_buffer(number);

    margins_packed answer = margins_pack(scale, inputs, in[CODES].places, in[CODES].length, in[FIRSTS].places, in[FIRSTS].length,
                                         in[SECONDS].places, in[SECONDS].length, in[OUTPUTS].places, in[OUTPUTS].length,
                                         b.bytes, b.length);
    give(&answer, sizeof answer);
    uint8_t intact = kept_around(&b);
    for (size_t i = 0; i < PACKING_LISTS; i++)
        intact = intact && same(in[i].places, kept[i].places, bytes_of(in[i]));
    give(&intact, sizeof intact);

    give(b.bytes, b.length);
    free(b.memory);
    for (size_t i = 0; i < PACKING_LISTS; i++) {
        free(in[i].places);
        free(kept[i].places);
    }
}

static void text_case(size_t number)
{
    int64_t scale, inputs;
    take(&scale, sizeof scale);
    take(&inputs, sizeof inputs);
    packed text = take_formula(number);
    buffer b = lend_buffer(number);

    margins_packed answer = margins_pack_text(scale, inputs, text.bytes, text.length, b.bytes, b.length);
    give(&answer, sizeof answer);
    uint8_t intact = kept_around(&b) && same(text.bytes, text.kept, text.length);
    give(&intact, sizeof intact);

    give(b.bytes, b.length);
    free(b.memory);
    free_formula(text);
}

static void unpack_case(size_t number)
{
    list lent[PACKING_LISTS];
    size_t behind = places_behind(number);
    packed formula = take_formula(number);
    for (size_t i = 0; i < PACKING_LISTS; i++)
        lent[i] = lend(i, behind, sentinel);

    margins_formula answer = margins_unpack(formula.bytes, formula.length, lent[CODES].places, lent[CODES].length,
                                            lent[FIRSTS].places, lent[FIRSTS].length, lent[SECONDS].places, lent[SECONDS].length,
                                            lent[OUTPUTS].places, lent[OUTPUTS].length);
    give(&answer, sizeof answer);
    uint8_t intact = same(formula.bytes, formula.kept, formula.length) && kept_behind_all(lent, PACKING_LISTS, behind);
    give(&intact, sizeof intact);

    give_all(lent, PACKING_LISTS);
    free_formula(formula);
}

static holding *held_in(size_t list_number)
{
    return list_number < BALL ? sentinel : double_sentinel;
}

/* The bits of a double reach the reply as they stand in memory. */
static void doubles_case(size_t number)
{
    list in[BALL], kept[BALL], lent[2 * BALL];
    size_t behind = places_behind(number);
    packed formula = take_formula(number);
    for (size_t i = 0; i < BALL; i++) {
        in[i] = take_list();
        kept[i] = copy_list(in[i]);
    }
    for (size_t i = 0; i < 2 * BALL; i++)
        lent[i] = lend(i, behind, held_in(i));

    margins_reply answer = margins_ball_doubles(formula.bytes, formula.length, in[0].places, in[0].length, in[1].places, in[1].length,
                                                lent[0].places, lent[0].length, (uint64_t *)lent[1].places, lent[1].length,
                                                (double *)lent[2].places, lent[2].length, (double *)lent[3].places, lent[3].length);
    give(&answer, sizeof answer);
    uint8_t intact = same(formula.bytes, formula.kept, formula.length);
    for (size_t i = 0; i < BALL; i++)
        intact = intact && same(in[i].places, kept[i].places, bytes_of(in[i]));
    for (size_t i = 0; i < 2 * BALL; i++)
        intact = intact && kept_behind(lent[i], i, behind, held_in(i));
    give(&intact, sizeof intact);

    give_all(lent, 2 * BALL);
    for (size_t i = 0; i < BALL; i++) {
        free(in[i].places);
        free(kept[i].places);
    }
    free_formula(formula);
}

static void to_decimal_case(size_t number)
{
    int64_t scale, decimals, centre;
    uint64_t margin;
    list lent[DECIMAL_LISTS];
    size_t behind = places_behind(number);
    take(&scale, sizeof scale);
    take(&decimals, sizeof decimals);
    take(&centre, sizeof centre);
    take(&margin, sizeof margin);
    for (size_t i = 0; i < DECIMAL_LISTS; i++)
        lent[i] = lend(i, behind, sentinel);
    buffer b = lend_buffer(number);

    margins_packed answer = margins_to_decimal(scale, decimals, centre, margin, lent[CENTRES].places, lent[CENTRES].length,
                                               (uint64_t *)lent[MARGINS].places, lent[MARGINS].length, b.bytes, b.length);
    give(&answer, sizeof answer);
    uint8_t intact = kept_around(&b) && kept_behind_all(lent, DECIMAL_LISTS, behind);
    give(&intact, sizeof intact);

    give_all(lent, DECIMAL_LISTS);
    give(b.bytes, b.length);
    free(b.memory);
}

static void from_decimal_case(size_t number)
{
    int64_t scale;
    list lent[DECIMAL_LISTS];
    size_t behind = places_behind(number);
    take(&scale, sizeof scale);
    packed digits = take_formula(number), margin = take_formula(number / 2);
    for (size_t i = 0; i < DECIMAL_LISTS; i++)
        lent[i] = lend(i, behind, sentinel);

    margins_reply answer = margins_from_decimal(scale, digits.bytes, digits.length, margin.bytes, margin.length,
                                                lent[CENTRES].places, lent[CENTRES].length, lent[MARGINS].places, lent[MARGINS].length);
    give(&answer, sizeof answer);
    uint8_t intact = same(digits.bytes, digits.kept, digits.length) && same(margin.bytes, margin.kept, margin.length) &&
                     kept_behind_all(lent, DECIMAL_LISTS, behind);
    give(&intact, sizeof intact);

    give_all(lent, DECIMAL_LISTS);
    free_formula(digits);
    free_formula(margin);
}

/* A list that is only read, and all that stands there before and after. */
typedef struct {
    list in, whole, kept;
} watched;

static watched watch_list(size_t list_number, size_t around)
{
    watched w = {.in.length = take_length()};
    w.whole.length = w.in.length + 2 * around;
    w.whole.places = allocate(bytes_of(w.whole));
    for (size_t i = 0; i < w.whole.length; i++) {
        uint64_t held = sentinel(list_number, i);
        memcpy(&w.whole.places[i], &held, sizeof held);
    }
    w.in.places = w.whole.length ? w.whole.places + around : NULL;
    take(w.in.places, bytes_of(w.in));
    w.kept = copy_list(w.whole);
    return w;
}

static void explain_case(size_t number)
{
    watched lists[DOMAIN_LISTS];
    packed formula = take_formula(number);
    for (size_t i = 0; i < DOMAIN_LISTS; i++)
        lists[i] = watch_list(i, places_behind(number));
    const list middles = lists[MIDDLES].in, strays = lists[STRAYS].in, margins = lists[DOMAIN_MARGINS].in;

    margins_explanation answer = margins_explain(formula.bytes, formula.length, middles.places, middles.length,
                                                 strays.places, strays.length, margins.places, margins.length);
    give(&answer, sizeof answer);
    uint8_t intact = same(formula.bytes, formula.kept, formula.length);
    for (size_t i = 0; i < DOMAIN_LISTS; i++)
        intact = intact && same(lists[i].whole.places, lists[i].kept.places, bytes_of(lists[i].whole));
    give(&intact, sizeof intact);

    for (size_t i = 0; i < DOMAIN_LISTS; i++) {
        free(lists[i].whole.places);
        free(lists[i].kept.places);
    }
    free_formula(formula);
}

int main(void)
{
    setvbuf(stdin, NULL, _IOFBF, BUFFER);
    setvbuf(stdout, NULL, _IOFBF, BUFFER);
    size_t number = 0;
    for (int job = getchar(); job != EOF; job = getchar(), number++) {
        if (job == PACK)
            pack_case(number);
        else if (job == UNPACK)
            unpack_case(number);
        else if (job == DOUBLES)
            doubles_case(number);
        else if (job == TEXT)
            text_case(number);
        else if (job == TO_DECIMAL)
            to_decimal_case(number);
        else if (job == FROM_DECIMAL)
            from_decimal_case(number);
        else if (job == EXPLAIN)
            explain_case(number);
        else if (job <= RECORDS)
            run_case(job, number);
        else
            stop("no such job");
    }
    return fflush(stdout) ? 2 : 0;
}
