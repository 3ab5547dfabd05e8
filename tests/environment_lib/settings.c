/* Each of the sixteen settings of rounding and flushing, and each unmasked exception: what the probe and the register
 * report; that enter and leave restore all of MXCSR; and that answers between them have the bits of the proved setting.
 * Prints what is wrong. Exit status: 0 if nothing is. */
#include "sim3.h"
#include <stdio.h>
#include <string.h>
#include <xmmintrin.h>

#define PROVED 0x1f80u
static const double PROBE[3] = {4.75, 0x1p-1074, 0x1.0000000000001p+1023};
static const uint16_t FRAMES[2] = {1, 1};
static int wrong;

static void expect(int good, unsigned csr, const char *what) {
    if (good) return;
    wrong = 1;
    printf("%04x: %s\n", csr, what);
}

struct answers {
    double moved[6], product[8];
    float single[3];
};

/* Denormal points, others, a product and a point at f32. */
static struct answers compute_answers(void) {
    static const double turn[8] = {0.6, 0, 0.8, 0, 0, 0, 0, 0.1}, points[6] = {0x1p-1074, 1e-310, 0, 0.1, 0.2, 0.3};
    static const float turn_single[8] = {0.6f, 0, 0.8f, 0, 0, 0, 0, 0.1f}, point[3] = {0.1f, 0.2f, 0.3f};
    struct answers a;
    uint16_t out_frames[2];
    memset(&a, 0, sizeof a);
    unsigned refused = sim3_act_each(turn, 8, 1.1, points, 6, a.moved, 6) |
                       sim3_mul(turn, 8, FRAMES, 2, turn, 8, FRAMES, 2, 1.1, a.product, 8, out_frames, 2) |
                       sim3_act_each_f32(turn_single, 8, 1.1f, point, 3, a.single, 3);
    expect(!refused, _mm_getcsr(), "a call was refused");
    return a;
}

/* Checks that the answers between enter and leave are the expected ones, and that MXCSR is csr again afterwards. */
static void guarded(unsigned csr, const struct answers *expected) {
    _mm_setcsr(csr);
    uint32_t was = sim3_environment_enter();
    uint32_t inside = sim3_environment_differs(), probe = sim3_environment(PROBE, 3), nested = sim3_environment_enter();
    struct answers found = compute_answers();
    sim3_environment_leave(nested);
    uint32_t still = sim3_environment_differs();
    sim3_environment_leave(was);
    unsigned after = _mm_getcsr();
    _mm_setcsr(PROVED);
    expect(was == csr && after == csr, csr, "not all of MXCSR was put back");
    expect(!inside && probe == 1 && !still, csr, "the guard does not set what is proved");
    expect(!memcmp(&found, expected, sizeof found), csr, "other bits inside the guard");
}

int main(void) {
    struct answers expected = compute_answers();
    expect(_mm_getcsr() & 0x20, PROVED, "calls raise no flag");
    for (unsigned i = 0; i < 16; i++) {
        unsigned csr = PROVED | (i & 1) << 15 | (i >> 1 & 1) << 6 | (i >> 2) << 13;
        _mm_setcsr(csr);
        uint32_t probe = sim3_environment(PROBE, 3), differs = sim3_environment_differs();
        struct answers found = compute_answers();
        _mm_setcsr(PROVED);
        expect(probe == (i == 0), csr, "the probe");
        expect(differs == (csr ^ PROVED), csr, "the register");
        expect(!memcmp(&found, &expected, sizeof found) == (i == 0), csr, "the answers show no difference");
        guarded(csr, &expected);
        guarded(csr | 0x3f, &expected); /* with every flag */
    }
    for (unsigned i = 0; i < 6; i++) {
        unsigned csr = PROVED & ~(0x80u << i);
        _mm_setcsr(csr);
        uint32_t differs = sim3_environment_differs();
        _mm_setcsr(PROVED);
        expect(differs == 0x80u << i, csr, "an exception that is not masked");
        guarded(csr, &expected);
    }
    _mm_setcsr(PROVED | 0x3f);
    struct answers found = compute_answers();
    expect(_mm_getcsr() == (PROVED | 0x3f) && !memcmp(&found, &expected, sizeof found), PROVED | 0x3f,
           "a flag was cleared, or read");
    expect(sim3_environment(PROBE, 2) == SIM3_LIST_LENGTH && sim3_environment((const double[]){1, 1, 1}, 3) == 0,
           PROVED, "other lists");
    return wrong;
}
