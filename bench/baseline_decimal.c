/* A ball printed as decimal numbers and a decimal number read as a reading, by hand; in a file of its own, so that it changes nothing in the
   machine code of the other jobs. */
#include "baseline.h"

#include <stdbool.h>
#include <string.h>

#define M UINT64_C(2147483647)

enum { MOST_SCALE = 30, MOST_DECIMALS = 9, MOST_DIGITS = 9 };

static const uint64_t powers[] = {1, 10, 100, 1000, 10000, 100000, 1000000, 10000000, 100000000, 1000000000};

/* A number that was read: a count of 10^-behind_point, unless the byte at `place` cannot stand there or the text ends too early. */
typedef struct {
    uint64_t count;
    size_t behind_point, place;
    bool negative, good;
} decimal;

static inline margins_packed not_printed(uint32_t refusal)
{
    return (margins_packed){refusal, 0, 0};
}

static inline margins_reply not_read(uint32_t refusal, size_t place)
{
    return (margins_reply){refusal, 0, place};
}

static inline bool reaches_too_far(uint64_t size, uint64_t margin)
{
    return size > M || margin > M - size;
}

static inline uint64_t size_of(int64_t number)
{
    return number < 0 ? -(uint64_t)number : (uint64_t)number;
}

/* Backwards from the end, at least one digit before the point; gives where it begins. */
static inline uint8_t *print_before(uint8_t *end, uint64_t count, int64_t decimals)
{
    for (int64_t digit = 0; digit <= decimals || count; digit++) {
        if (digit && digit == decimals)
            *--end = '.';
        *--end = (uint8_t)('0' + count % 10);
        count /= 10;
    }
    return end;
}

static inline uint8_t *print_ball_before(uint8_t *end, int64_t centre, uint64_t margin, int64_t decimals)
{
    uint8_t *begin = print_before(end, margin, decimals) - 4;
    memcpy(begin, " +- ", 4);
    begin = print_before(begin, size_of(centre), decimals);
    if (centre < 0)
        *--begin = '-';
    return begin;
}

/* The centre is below 2^31 in size and a power at most 10^9, so that products are below 2^61; a shift of a negative number rounds down. */
margins_packed baseline_to_decimal(int64_t scale, int64_t decimals, int64_t centre, uint64_t margin,
                                   int64_t *decimal_centres, size_t decimal_centres_length,
                                   uint64_t *decimal_margins, size_t decimal_margins_length,
                                   uint8_t *text, size_t text_length)
{
    if (scale < 0 || scale > MOST_SCALE)
        return not_printed(MARGINS_REFUSED_SCALE);
    if (decimals < 0 || decimals > MOST_DECIMALS)
        return not_printed(MARGINS_REFUSED_DECIMALS);
    if (reaches_too_far(size_of(centre), margin))
        return not_printed(MARGINS_REFUSED_BALL_REACH);

    const int64_t unit = INT64_C(1) << scale, exactly = centre * (int64_t)powers[decimals];
    const int64_t decimal_centre = (exactly + unit / 2) >> scale;
    const uint64_t lost = size_of(exactly - decimal_centre * unit);
    const uint64_t decimal_margin = (margin * powers[decimals] + lost + (uint64_t)unit - 1) >> scale;
    uint8_t printed[MARGINS_MOST_DECIMAL_BYTES], *const end = printed + sizeof printed;
    const uint8_t *begin = print_ball_before(end, decimal_centre, decimal_margin, decimals);
    const size_t size = (size_t)(end - begin);
    if (decimal_centres_length < 1 || decimal_margins_length < 1 || text_length < size)
        return not_printed(MARGINS_REFUSED_NO_ROOM);

    decimal_centres[0] = decimal_centre;
    decimal_margins[0] = decimal_margin;
    memcpy(text, begin, size);
    return (margins_packed){MARGINS_DONE, (uint32_t)size, 0};
}

static inline decimal read_decimal(const uint8_t *text, size_t length, bool with_minus)
{
    decimal read = {0};
    unsigned digits = 0;
    bool point = false;
    if (with_minus && length && text[0] == '-')
        read.negative = true, read.place++;
    for (; read.place < length; read.place++) {
        const uint8_t byte = text[read.place], digit = (uint8_t)(byte - '0');
        if (digits == MOST_DIGITS || (digit > 9 && (byte != '.' || point || !digits)))
            break;
        if (byte == '.') {
            point = true;
            continue;
        }
        read.count = 10 * read.count + digit;
        read.behind_point += point;
        digits++;
    }
    read.good = read.place == length && digits && (!point || read.behind_point);
    return read;
}

/* A count is below 10^9 and therefore below 2^60 when it is shifted. */
margins_reply baseline_from_decimal(int64_t scale, const uint8_t *number, size_t number_length, const uint8_t *margin, size_t margin_length,
                                    int64_t *centres, size_t centres_length, int64_t *margins, size_t margins_length)
{
    if (scale < 0 || scale > MOST_SCALE)
        return not_read(MARGINS_REFUSED_SCALE, 0);
    const decimal centre = read_decimal(number, number_length, true), doubt = read_decimal(margin, margin_length, false);
    if (!centre.good)
        return not_read(MARGINS_REFUSED_NUMBER_TEXT, centre.place);
    if (!doubt.good)
        return not_read(MARGINS_REFUSED_MARGIN_TEXT, doubt.place);

    const uint64_t whole = centre.count << scale, parts = powers[centre.behind_point], rest = whole % parts;
    const uint64_t units = whole / parts + (centre.negative ? 2 * rest > parts : 2 * rest >= parts);
    const uint64_t doubt_parts = powers[doubt.behind_point];
    const uint64_t doubt_units = ((doubt.count << scale) + doubt_parts - 1) / doubt_parts + (rest != 0);
    if (reaches_too_far(units, doubt_units))
        return not_read(MARGINS_REFUSED_BALL_REACH, 0);
    if (centres_length < 1 || margins_length < 1)
        return not_read(MARGINS_REFUSED_NO_ROOM, 0);
    centres[0] = centre.negative ? -(int64_t)units : (int64_t)units;
    margins[0] = (int64_t)doubt_units;
    return (margins_reply){MARGINS_DONE, 1, 0};
}
