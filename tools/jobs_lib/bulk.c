/* The inner loops of `jobs split`, `jobs merge` and `jobs show`, run for every record of a large file. bulk.py loads
 * this library, and has the same functions in Python for when bindings/build has not made it.
 *
 * `sizes` has the size of a record of every mark, whose first byte is the low one, and 0 for what is no mark; `places`
 * each mark's index in a table. A record is whole if it ends at `end` or before. */
#include <math.h>
#include <stddef.h>
#include <stdint.h>
#include <stdio.h>
#include <stdlib.h>
#include <string.h>

/* The output buffer of one group, with how many bytes and records it holds, and the most records it may take. */
typedef struct {
    uint8_t *bytes;
    uint64_t size, records, most;
} group;

/* The answers of one group; those from byte `at` to `end` are not yet copied. */
typedef struct {
    const uint8_t *data;
    uint64_t at, end;
} answers;

static size_t mark_at(const uint8_t *data, size_t at) { return data[at] | (size_t)data[at + 1] << 8; }

/* The size of the whole record at byte `at`, or 0 where there is none. */
static size_t whole(const uint8_t *data, size_t at, size_t end, const uint16_t *sizes) {
    const size_t size = end - at < 2 ? 0 : sizes[mark_at(data, at)];
    return size <= end - at ? size : 0;
}

/* Counts the records from byte `at` on by mark. Returns the byte after the last. */
size_t sim3_bulk_count(const uint8_t *data, size_t at, size_t end, const uint16_t *sizes, const uint8_t *places,
                       uint64_t *counts) {
    for (size_t size; (size = whole(data, at, end, sizes)) > 0; at += size) counts[places[mark_at(data, at)]]++;
    return at;
}

/* Whether one of some numbers of `width` bytes is a NaN or an infinity: every bit of its exponent is set. */
static int is_unusable(const uint8_t *at, size_t count, size_t width) {
    const unsigned ones = width == 8 ? 0x7FF0 : 0x7F80;
    for (; count > 0; count--, at += width)
        if (((at[width - 1] << 8 | at[width - 2]) & ones) == ones) return 1;
    return 0;
}

/* Where the numbers of a record begin, how many they are, and the bytes of each. */
typedef struct {
    uint16_t first, count, width;
} numbers;

/* Writes the indices of the records from byte `at` on that hold a NaN or an infinity. Returns how many there are. */
size_t sim3_bulk_unusable(const uint8_t *data, size_t at, size_t end, const uint16_t *sizes, const uint8_t *places,
                          const numbers *of, uint32_t *found) {
    size_t done = 0;
    for (size_t record = 0, size; (size = whole(data, at, end, sizes)) > 0; at += size, record++) {
        const numbers *some = &of[places[mark_at(data, at)]];
        if (is_unusable(data + at + some->first, some->count, some->width)) found[done++] = (uint32_t)record;
    }
    return done;
}

/* Copies the records from byte `at` on to their groups, and the number of each one's group to `order`: up to `most`
 * records, `room` bytes, or the first whose group is full. Returns the byte after the last. */
size_t sim3_bulk_cut(const uint8_t *data, size_t at, size_t end, const uint16_t *sizes, const uint8_t *group_of,
                     group *groups, size_t room, uint8_t *order, size_t most) {
    if (end - at > room) end = at + room;
    for (size_t done = 0, size; done < most && (size = whole(data, at, end, sizes)) > 0; done++) {
        group *to = &groups[order[done] = group_of[mark_at(data, at)]];
        if (to->records == to->most) break;
        memcpy(to->bytes + to->size, data + at, size);
        to->size += size;
        to->records++;
        at += size;
    }
    return at;
}

/* Copies the answers to `records` records, whose group numbers are in `order`, one after the other: up to `room` bytes,
 * or the first whose group has no whole answer left. Returns how many, and stores their size in `written`. */
size_t sim3_bulk_interleave(const uint8_t *order, size_t records, answers *groups, const uint16_t *sizes, uint8_t *out,
                       size_t room, size_t *written) {
    size_t done = 0, at = 0;
    for (; done < records; done++) {
        answers *from = &groups[order[done]];
        const size_t size = whole(from->data, from->at, from->end, sizes);
        if (size == 0 || size > room - at) break;
        memcpy(out + at, from->data + from->at, size);
        from->at += size;
        at += size;
    }
    *written = at;
    return done;
}

/* A single x > 0 with its rounding interval: the doubles midway to its neighbours, which are exact. Every decimal
 * between them reads back as x. */
typedef struct {
    double x, low, high;
} single;

/* The decimal with `digits` digits nearest to x, as its nearest double. Returns 1 if it reads back, 0 if not, and -1 if
 * arithmetic in doubles does not decide. x times a power of ten up to 12 is exact, and the quotient is rounded once. */
static int by_doubles(const single *s, int digits, double *near) {
    static const double tens[] = {1e0, 1e1, 1e2, 1e3, 1e4, 1e5, 1e6, 1e7, 1e8, 1e9, 1e10, 1e11, 1e12};
    const int power = digits - 1 - (int)floor(log10(s->x));
    if (power < 0 || power > 12) return -1;
    const double whole = nearbyint(s->x * tens[power]);
    if (whole < tens[digits - 1] || whole > tens[digits]) return -1;
    *near = whole / tens[power];
    return s->low < *near && *near < s->high ? 1 : *near < s->low || *near > s->high ? 0 : -1;
}

/* Whether the decimal with `digits` digits nearest to x reads back as x; its nearest double is stored in `near`. */
static int reads_back(const single *s, int digits, double *near) {
    char text[32];
    double found;
    int good = by_doubles(s, digits, &found);
    if (good < 0) {
        snprintf(text, sizeof text, "%.*e", digits - 1, s->x);
        good = strtof(text, NULL) == (float)s->x;
        found = good ? strtod(text, NULL) : 0;
    }
    if (good) *near = found;
    return good;
}

/* The double nearest to the shortest decimal that reads back as x. Nine digits always do, and with fewer digits the
 * decimal is never nearer. A power of two has half the room below that it has above, so every count is tried there. */
static double shortest(float of) {
    const float x = fabsf(of), above = nextafterf(x, INFINITY);
    const single s = {x, ((double)nextafterf(x, 0) + x) / 2, isfinite(above) ? ((double)x + above) / 2 : x};
    int power, digits;
    double near = x;
    if (x == 0 || !isfinite(x)) return of;
    if (frexpf(x, &power) == 0.5f) {
        for (digits = 1; !reads_back(&s, digits, &near); digits++) {}
    } else if (reads_back(&s, 8, &near)) {
        for (digits = 7; digits > 0 && reads_back(&s, digits, &near); digits--) {}
    } else {
        reads_back(&s, 9, &near);
    }
    return copysign(near, of);
}

/* The powers of ten from LEAST on, each scaled by a power of two to 128 bits and rounded up: high, low. */
enum { LEAST = -292 };
typedef struct {
    uint64_t high, low;
} power;

/* p times c without its last 128 bits, rounded to odd; the error of p is left out of account. */
static uint64_t to_odd(power p, uint64_t c) {
    const unsigned __int128 high = (unsigned __int128)p.high * c + (uint64_t)((unsigned __int128)p.low * c >> 64);
    return (uint64_t)(high >> 64) | ((uint64_t)high > 1);
}

/* The shortest decimal that reads back as the finite double x > 0, and the nearest of those: R. Giulietti's Schubfach.
 * Returns the digits as a whole number, and stores the power of ten that scales them in `exponent`. */
static uint64_t decimal(double x, const power *powers, int *exponent) {
    uint64_t bits;
    memcpy(&bits, &x, sizeof bits);
    const uint64_t fraction = bits & ((1ull << 52) - 1), biased = bits >> 52;
    const uint64_t c = fraction | (uint64_t)(biased > 0) << 52;
    const int q = (biased ? (int)biased : 1) - 1075, closer = fraction == 0 && biased > 1, odd = c & 1;
    const int k = (q * 1262611 - (closer ? 524031 : 0)) >> 22, h = q + ((-k * 1741647) >> 19) + 1;
    const power p = powers[-k - LEAST];
    const uint64_t low = to_odd(p, (4 * c - 2 + closer) << h) + odd, high = to_odd(p, (4 * c + 2) << h) - odd;
    const uint64_t four = to_odd(p, 4 * c << h), s = four / 4, tens = s / 10;
    const int below = low <= 40 * tens, above = 40 * tens + 40 <= high;
    *exponent = s >= 10 && below != above ? k + 1 : k;
    if (*exponent > k) return tens + above;
    if ((low <= 4 * s) != (4 * s + 4 <= high)) return s + (4 * s + 4 <= high);
    return s + (four > 4 * s + 2 || (four == 4 * s + 2 && s % 2));
}

/* Writes digits with their point or exponent, as Python does. Returns the end of the text. */
static char *with_point(char *out, const char *digits, int count, int point) {
    if (point <= -4 || point > 16) {
        *out++ = *digits;
        if (count > 1) *out++ = '.';
        memcpy(out, digits + 1, (size_t)count - 1);
        return out + count - 1 + sprintf(out + count - 1, "e%c%02d", point > 0 ? '+' : '-', abs(point - 1));
    }
    for (int i = point < 1 ? point - 1 : 0; i < count || i < point + 1; i++) {
        if (i == point) *out++ = '.';
        *out++ = i < 0 || i >= count ? '0' : digits[i];
    }
    return out;
}

/* Writes a double as Python does. Returns the end of the text. */
static char *double_text(char *out, double x, const power *powers) {
    char digits[20], *first = digits + sizeof digits;
    int exponent = 0;
    if (isnan(x)) return out + sprintf(out, "nan");
    if (signbit(x)) *out++ = '-';
    if (isinf(x)) return out + sprintf(out, "inf");
    uint64_t whole = x == 0 ? 0 : decimal(fabs(x), powers, &exponent);
    for (; whole > 0 && whole % 10 == 0; whole /= 10) exponent++;
    do *--first = (char)('0' + whole % 10);
    while (whole /= 10);
    const int count = (int)(digits + sizeof digits - first);
    return with_point(out, first, count, count + exponent);
}

/* Writes a number of a record by its code: d a double, f a single, H, B and I whole numbers. Returns the end of the
 * text, and moves `at` past the number. A NaN with other bits than those of answers is written as its bits. */
static char *number(char *out, const uint8_t **at, char code, const power *powers) {
    uint64_t bits = 0;
    double x;
    float y;
    const size_t size = code == 'd' ? 8 : code == 'H' ? 2 : code == 'B' ? 1 : 4;
    memcpy(&bits, *at, size);
    *at += size;
    if (code == 'd') {
        memcpy(&x, &bits, sizeof x);
        if (isnan(x) && bits != 0x7FF8000000000000) return out + sprintf(out, "nan:%016llx", (unsigned long long)bits);
        return double_text(out, x, powers);
    }
    if (code == 'f') {
        const uint32_t half = (uint32_t)bits;
        memcpy(&y, &half, sizeof y);
        if (isnan(y) && half != 0x7FC00000) return out + sprintf(out, "nan:%08lx", (unsigned long)half);
        return double_text(out, shortest(y), powers);
    }
    return out + sprintf(out, "%lu", (unsigned long)bits);
}

/* Writes the numbers of a record with these codes, each followed by a blank. Returns how many bytes. */
size_t sim3_bulk_text(const uint8_t *numbers, const char *codes, const power *powers, char *out) {
    char *const first = out;
    for (; *codes; codes++) {
        out = number(out, &numbers, *codes, powers);
        *out++ = ' ';
    }
    return (size_t)(out - first);
}
