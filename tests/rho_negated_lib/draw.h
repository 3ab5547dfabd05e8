/* Seeded cases: tangent, values and matrices, of numbers of every kind. */
#ifndef DRAW_H
#define DRAW_H

static uint64_t seed;

static uint64_t next(void) {
    uint64_t x = seed += 0x9e3779b97f4a7c15;
    x = (x ^ x >> 30) * 0xbf58476d1ce4e5b9;
    x = (x ^ x >> 27) * 0x94d049bb133111eb;
    return x ^ x >> 31;
}

static uint64_t below(uint64_t n) { return (next() >> 11) % n; }

/* Any bits. */
static number any(void) { return of_bits((word)next()); }

/* A number with a random fraction and sign and an exponent from low to high. */
static number sized(int low, int high) {
    const word exponent = (word)(BIAS + low + (int)below((uint64_t)(high - low + 1)));
    return of_bits(((word)next() & (SIGN | (NORMAL - 1))) | exponent << FRACTION);
}

/* Zeros, infinities, NaNs, the least and largest subnormal and normal numbers, ones with their neighbours, and numbers
 * whose squares are out of range. */
static number special(void) {
    const word one = (word)BIAS << FRACTION;
    const word kinds[] = {0,
                          0,
                          INFINITE,
                          INFINITE | NORMAL >> 1,
                          INFINITE | 1,
                          1,
                          3,
                          NORMAL - 1,
                          NORMAL,
                          NORMAL + 1,
                          INFINITE - 1,
                          INFINITE - NORMAL,
                          one,
                          one - 1,
                          one + 1,
                          one + NORMAL,
                          (word)(BIAS + BIAS / 2 + 1) << FRACTION,
                          (word)(BIAS - BIAS / 2 - 1) << FRACTION};
    return of_bits(kinds[below(sizeof kinds / sizeof kinds[0])] | ((word)next() & SIGN));
}

/* Zeros and ones of either sign, and now and then an ordinary number. */
static number zero_or_one(void) {
    const uint64_t which = below(8);
    return which < 5   ? of_bits((word)next() & SIGN)
           : which < 7 ? of_bits((word)BIAS << FRACTION | ((word)next() & SIGN))
                       : sized(-4, 3);
}

enum { ORDINARY, LIMIT, SPRINKLED, ZEROS, WIDE, SMALL, SPECIAL, ANY, KINDS };

static number of_kind(uint64_t kind) {
    switch (kind) {
    case ZEROS: return zero_or_one();
    case WIDE: return sized(-BIAS + 1, BIAS);
    case SMALL: return sized(-BIAS + 1, -BIAS / 2);
    case SPECIAL: return special();
    case ANY: return any();
    default: return sized(-8, 6);
    }
}

/* phi and sigma whose sum sigma^2 + |phi|^2 is at a limit or within four neighbours of it, with phi on one axis or on
 * all three. */
static void at_limit(number *tau) {
    const number limit = of_bits(LIMITS[below(sizeof LIMITS / sizeof LIMITS[0])]);
    number sigma = below(3) ? sized(-12, -1) : of_bits((word)next() & SIGN);
    if (!(sigma * sigma < limit)) sigma = 0;
    const number r = (number)sqrt((double)limit - (double)sigma * (double)sigma);
    const int axis = (int)below(4);
    for (int i = 0; i < 3; i++)
        tau[i] = axis == 3   ? (number)(r * 0.57735026918962576)
                 : axis == i ? r
                             : of_bits((word)next() & SIGN);
    const int moved = axis == 3 ? (int)below(3) : axis;
    tau[moved] = of_bits((bits_of(tau[moved]) + (word)below(9) - 4) ^ ((word)next() & SIGN));
    tau[6] = sigma;
}

/* phi and sigma of ordinary size, in every arm; one sigma in four and one phi in eight is a zero of either sign. */
static void ordinary(number *tau) {
    const int reach = -10 + (int)below(14), none = below(8) == 0;
    for (int i = 0; i < 3; i++) tau[i] = none ? of_bits((word)next() & SIGN) : sized(reach - 3, reach);
    tau[6] = below(4) ? sized(-10, 2) : of_bits((word)next() & SIGN);
}

static void draw(number given[NUMBERS]) {
    const uint64_t kind = below(KINDS);
    number *values = given + TAU, *jl = values + VALUES;
    for (int i = 0; i < NUMBERS; i++) given[i] = of_kind(kind);
    if (kind == LIMIT) at_limit(given);
    if (kind == ORDINARY || kind == SPRINKLED) ordinary(given);
    if (kind <= SPRINKLED || below(2)) HOST_VALUES(given, values);
    if (kind <= SPRINKLED || below(2)) HOST_MATRICES(given, jl, jl + MATRIX);
    if (kind == SPRINKLED)
        for (uint64_t n = 1 + below(4); n; n--) given[below(NUMBERS)] = special();
}

#endif
