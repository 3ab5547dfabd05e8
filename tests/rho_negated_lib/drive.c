/* Negating rho, through the C functions: Exp and the left block of the block pair for a tangent, and again with rho
 * negated. Compiled for doubles, and with -DSINGLE for singles.
 *
 *     drive draw SEED COUNT                  random cases
 *     drive records                          cases from standard input: the job's PA records of this width, and nothing
 *                                            else
 *     drive changed SEED COUNT PLACE BITS    as draw, with these bits of number PLACE of the second answer flipped: the
 *                                            pose's 8, the block's 31, 2 frames
 *
 * Writes one line of NAME=COUNT words, and the first three failing cases to standard error. Returns 1 if one failed. */
#include "sim3.h"
#include "sim3_host_f32.h"
#include <inttypes.h>
#include <stdio.h>
#include <stdlib.h>
#include <string.h>

#include "number.h"

enum { TAU = 7, VALUES = 10, MATRIX = 9, NUMBERS = TAU + VALUES + 2 * MATRIX };
enum { POSE = 8, BLOCK = 31, FOUR_BLOCKS = 4 * BLOCK, ANSWER = POSE + BLOCK, FRAMES = 2 };

#include "draw.h"

/* What one call of each function answers. */
typedef struct {
    number out[ANSWER];
    uint16_t frames[FRAMES];
} answers;

static answers call_both(const number *given, const uint16_t frames[FRAMES]) {
    answers a;
    number four[FOUR_BLOCKS];
    const number *values = given + TAU, *jl = values + VALUES;
    if (EXP(given, TAU, values, VALUES, frames, FRAMES, a.out, POSE, a.frames, FRAMES) ||
        PAIR(given, TAU, values, VALUES, jl, MATRIX, jl + MATRIX, MATRIX, four, FOUR_BLOCKS)) {
        fprintf(stderr, "drive: a call was refused\n");
        exit(2);
    }
    memcpy(a.out + POSE, four, BLOCK * sizeof(number));
    return a;
}

/* Which numbers must be negated: t of the pose, b and f of the block. */
static int is_negated(int place) {
    return (place >= 4 && place < 7) || (place >= POSE + 9 && place < POSE + 18) ||
           (place >= POSE + 27 && place < POSE + 30);
}

static uint64_t cases, failed, arm[6], ends, scaled, far, with_nan, with_infinity, with_subnormal, same_zero[3];

/* Whether y is right for the negated rho if x is the number for the tangent itself; counts zeros that keep their sign.
 * */
static int is_expected(int place, number x, number y) {
    const word a = bits_of(x), b = bits_of(y);
    if (is_nan(a) || is_nan(b)) return is_nan(a) && is_nan(b);
    if (!is_negated(place)) return a == b;
    if (is_zero(a) && is_zero(b)) {
        same_zero[place < POSE ? 0 : place < POSE + 18 ? 1 : 2] += a == b;
        return 1;
    }
    return b == (a ^ SIGN);
}

/* Counts the arms and forms that the case reaches, and the kinds of its numbers. */
static void count_case(const number *given) {
    number out[12];
    const number z = norm_sq(given);
    int nan = 0, infinite = 0, subnormal = 0;
    if (ARMED(given[6], z, given + TAU, VALUES, out, 12)) exit(2);
    arm[out[0] >= 1 && out[0] <= 5 ? (int)out[0] : 0]++;
    ends += out[1] == 1;
    scaled += out[11] == 1;
    far += !(z < FAR_FROM);
    for (int i = 0; i < NUMBERS; i++) {
        const word b = bits_of(given[i]) & ~SIGN;
        nan |= b > INFINITE;
        infinite |= b == INFINITE;
        subnormal |= b != 0 && b < NORMAL;
    }
    with_nan += nan;
    with_infinity += infinite;
    with_subnormal += subnormal;
}

static void print_case(const number *given, int place, number x, number y) {
    fprintf(stderr, "number %d is %" PRIxMAX ", with rho negated %" PRIxMAX "; tangent, values and matrices:", place,
            (uintmax_t)bits_of(x), (uintmax_t)bits_of(y));
    for (int i = 0; i < NUMBERS; i++) fprintf(stderr, " %" PRIxMAX, (uintmax_t)bits_of(given[i]));
    fprintf(stderr, "\n");
}

/* Checks one case; the bits `flip` of number `place` of the second answer are flipped first. */
static void check_case(const number *given, int place, word flip) {
    const uint16_t frames[FRAMES] = {(uint16_t)(cases * 40503u), (uint16_t)(cases * 9973u + 1)};
    number with_rho_negated[NUMBERS];
    memcpy(with_rho_negated, given, sizeof with_rho_negated);
    for (int i = 3; i < 6; i++) with_rho_negated[i] = of_bits(bits_of(given[i]) ^ SIGN);
    const answers plain = call_both(given, frames);
    answers negated = call_both(with_rho_negated, frames);
    if (place < ANSWER)
        negated.out[place] = of_bits(bits_of(negated.out[place]) ^ flip);
    else
        negated.frames[place - ANSWER] ^= (uint16_t)(flip != 0);
    const int frames_differ =
        memcmp(plain.frames, frames, sizeof frames) || memcmp(negated.frames, frames, sizeof frames);
    int wrong = frames_differ ? ANSWER : -1;
    for (int i = ANSWER - 1; i >= 0; i--)
        if (!is_expected(i, plain.out[i], negated.out[i])) wrong = i;
    if (wrong >= 0 && failed++ < 3 && !flip)
        print_case(given, wrong, wrong < ANSWER ? plain.out[wrong] : 0, wrong < ANSWER ? negated.out[wrong] : 0);
    count_case(given);
    cases++;
}

/* The records of standard input: two letters and the numbers, little endian. */
static void from_records(void) {
    static unsigned char record[2 + NUMBERS * sizeof(number)];
    number given[NUMBERS];
    while (fread(record, sizeof record, 1, stdin) == 1) {
        if (memcmp(record, MARK, 2)) {
            fprintf(stderr, "drive: a record does not begin with %s\n", MARK);
            exit(2);
        }
        memcpy(given, record + 2, sizeof given);
        check_case(given, 0, 0);
    }
}

static int print_counts(void) {
    printf("cases=%" PRIu64 " failed=%" PRIu64, cases, failed);
    for (int i = 1; i <= 5; i++) printf(" arm%d=%" PRIu64, i, arm[i]);
    printf(" ends=%" PRIu64 " scaled=%" PRIu64 " far=%" PRIu64, ends, scaled, far);
    printf(" nan=%" PRIu64 " infinity=%" PRIu64 " subnormal=%" PRIu64, with_nan, with_infinity, with_subnormal);
    printf(" same_zero_t=%" PRIu64 " same_zero_b=%" PRIu64 " same_zero_f=%" PRIu64 "\n", same_zero[0], same_zero[1],
           same_zero[2]);
    return failed > 0;
}

int main(int count, char **words) {
    const int drawn = count == 4 && !strcmp(words[1], "draw"), changed = count == 6 && !strcmp(words[1], "changed");
    number given[NUMBERS];
    if (count == 2 && !strcmp(words[1], "records")) {
        from_records();
        return print_counts();
    }
    if (!drawn && !changed) {
        fprintf(stderr, "drive: expected draw SEED COUNT, records, or changed SEED COUNT PLACE BITS\n");
        return 2;
    }
    const uint64_t most = strtoull(words[3], NULL, 10);
    const int place = changed ? atoi(words[4]) : 0;
    const word flip = changed ? (word)strtoull(words[5], NULL, 16) : 0;
    seed = strtoull(words[2], NULL, 10);
    for (uint64_t i = 0; i < most; i++) {
        draw(given);
        check_case(given, place, flip);
    }
    return print_counts();
}
