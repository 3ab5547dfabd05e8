/* Calls the function of each row of docs/PERFORMANCE.md on a few inputs, for callgrind, which counts the instructions
   of each row by itself; bench/counts builds it and reads the counts. With SINGLE it calls the functions at f32. With
   LIBRARY it calls those of the library for C, else the wrappers of tests/calls. */
#include <math.h>
#include <stdint.h>
#include <stdio.h>
#include <stdlib.h>

#ifdef SINGLE
typedef float number;
#define AT(name) name##_f32
#else
typedef double number;
#define AT(name) name
#endif

enum { COUNT = 16, SHORT = 200, LONG = 20000, WIDEST = 48, WIDEST_OUT = 124 };

typedef uint32_t call(const number *x, number *out);
typedef struct { const char *name; number sigma, z; } arm;
static number points[3 * LONG], moved[3 * LONG];

#ifdef LIBRARY
#include "sim3.h"
static const uint16_t in_frames[2] = {1, 1};
static uint16_t out_frames[2];
static uint32_t exponential(const number *x, number *out) {
    return AT(sim3_exp)(x, 7, x + 7, 10, in_frames, 2, out, 8, out_frames, 2);
}
static uint32_t product(const number *x, number *out) {
    return AT(sim3_mul)(x, 8, in_frames, 2, x + 8, 8, in_frames, 2, x[16], out, 8, out_frames, 2);
}
static uint32_t inverse(const number *x, number *out) {
    return AT(sim3_inverse)(x, 8, in_frames, 2, x[8], out, 8, out_frames, 2);
}
static uint32_t action(const number *x, number *out) { return AT(sim3_act_each)(x, 8, x[8], x + 9, 3, out, 3); }
static uint32_t adjoint(const number *x, number *out) { return AT(sim3_adjoint)(x, 8, x[8], out, 31); }
static uint32_t armed(const number *x, number *out) { return AT(sim3_coeffs_armed)(x[0], x[1], x + 2, 10, out, 12); }
static uint32_t scaled_pair(const number *x, number *out) {
    return AT(sim3_scaled_pair)(x[0], x[1], x + 2, 10, out, 20);
}
static uint32_t armed_pair(const number *x, number *out) { return AT(sim3_armed_pair)(x[0], x[1], x + 2, 10, out, 24); }
static uint32_t block_pair(const number *x, number *out) {
    return AT(sim3_block_pair)(x, 7, x + 7, 10, x + 17, 9, x + 26, 9, out, 124);
}
static uint32_t block_inverse(const number *x, number *out) { return AT(sim3_block_inverse)(x, 31, out, 31); }
static uint32_t many(const number *x, size_t n) { return AT(sim3_act_many)(x, 8, x[8], points, n, moved, n); }
static uint32_t each(const number *x, size_t n) { return AT(sim3_act_each)(x, 8, x[8], points, n, moved, n); }
#else
call AT(call_63), AT(call_64), AT(call_67), AT(call_68), AT(call_86), AT(call_200), AT(call_201), AT(call_202),
    AT(call_203), AT(call_204), AT(call_205);
uint32_t AT(call_82)(const number *x, const number *list, size_t n, number *out, size_t m);
uint32_t AT(call_83)(const number *x, const number *list, size_t n, number *out, size_t m);
static uint32_t many(const number *x, size_t n) { return AT(call_82)(x, points, n, moved, n); }
static uint32_t each(const number *x, size_t n) { return AT(call_83)(x, points, n, moved, n); }
#endif
static uint32_t many_short(const number *x, number *out) { (void)out; return many(x, 3 * SHORT); }
static uint32_t many_long(const number *x, number *out) { (void)out; return many(x, 3 * LONG); }
static uint32_t each_short(const number *x, number *out) { (void)out; return each(x, 3 * SHORT); }
static uint32_t each_long(const number *x, number *out) { (void)out; return each(x, 3 * LONG); }

/* ---- inputs: those of bench/functions/inputs.rs, by the same generator */

static uint64_t state;
static number next(void) { /* from -1 to 1 */
    uint64_t x = state += 0x9e3779b97f4a7c15u;
    x = (x ^ x >> 30) * 0xbf58476d1ce4e5b9u;
    x = (x ^ x >> 27) * 0x94d049bb133111ebu;
    return (number)((double)((x ^ x >> 31) >> 11) / (double)(1ull << 52) - 1.0);
}
static void several(number *x, int n) { for (int i = 0; i < n; i++) x[i] = next(); }
static number near(number x) { return x * (1 + (number)0.001 * next()); }
static void direction(number *v) {
    several(v, 3);
    double n = sqrt((double)v[0] * v[0] + (double)v[1] * v[1] + (double)v[2] * v[2]);
    for (int i = 0; i < 3; i++) v[i] /= (number)n;
}
static void values(number sigma, number z, number *out) {
    double root = sqrt(z), e = exp(-fabs(sigma)), m = expm1(-fabs(sigma));
    double all[10] = {root, sin(root / 2), cos(root / 2), sin(root), e, m, e, m, e, e};
    for (int i = 0; i < 10; i++) out[i] = (number)all[i];
}
static void coefficients(const arm *a, number *x) {
    x[0] = near(a->sigma);
    x[1] = near(a->z);
    values(x[0], x[1], x + 2);
}
static void tangent(const arm *a, number *x) {
    number sigma = near(a->sigma), z = near(a->z);
    direction(x);
    for (int i = 0; i < 3; i++) x[i] *= (number)sqrt(z);
    several(x + 3, 3);
    x[6] = sigma;
    values(sigma, z, x + 7);
}
static void matrix(number *m) {
    several(m, 9);
    for (int i = 0; i < 9; i++) m[i] = (number)0.2 * m[i] + (i % 4 == 0);
}
static void tangent_and_jacobians(const arm *a, number *x) {
    tangent(a, x);
    matrix(x + 17);
    matrix(x + 26);
}
static void pose(number *x) {
    number v[3];
    direction(v);
    double turn = next();
    x[0] = (number)cos(turn);
    for (int i = 0; i < 3; i++) x[1 + i] = (number)sin(turn) * v[i];
    several(x + 4, 4);
}
static number scale(void) { return 1 + (number)0.1 * next(); }
static void one_pose(const arm *a, number *x) { (void)a; pose(x); x[8] = scale(); several(x + 9, 3); }
static void two_poses(const arm *a, number *x) { (void)a; pose(x); pose(x + 8); x[16] = scale(); }
static void block(const arm *a, number *x) {
    (void)a;
    matrix(x);
    several(x + 9, 9);
    matrix(x + 18);
    several(x + 27, 3);
    x[30] = scale();
}

/* ---- the rows */

/* callgrind's requests: to count from zero, and to write the counts to a file with a name */
enum { ZERO = 0x43540001, WRITE = 0x43540003 };
static __attribute__((noinline)) void request(uint64_t what, const void *argument) {
    volatile uint64_t words[6] = {what, (uint64_t)argument, 0, 0, 0, 0};
    uint64_t answer = 0;
    __asm__ volatile("rolq $3, %%rdi; rolq $13, %%rdi; rolq $61, %%rdi; rolq $51, %%rdi; xchgq %%rbx, %%rbx"
                     : "+d"(answer) : "a"(words) : "cc", "memory");
}

static volatile uint32_t refused;
static __attribute__((noinline)) void pass(call *f, int count, number (*inputs)[WIDEST], number *out) {
    for (int i = 0; i < count; i++) refused |= f(inputs[i], out);
}
static void count(const char *what, const char *arm_name, int count, call *f, void fill(const arm *, number *),
                  const arm *a) {
    static number inputs[COUNT][WIDEST], out[WIDEST_OUT];
    char name[200];
    state = 1;
    for (int i = 0; i < count; i++) fill(a, inputs[i]);
    snprintf(name, sizeof name, "%s | %s | %d", what, arm_name, count);
    pass(f, count, inputs, out); /* what is bound at the first call is bound */
    request(ZERO, 0);
    pass(f, count, inputs, out);
    request(WRITE, name);
    if (refused) { fprintf(stderr, "%s is refused\n", name); exit(1); }
}

#ifdef SINGLE
static const char *terms[4] = {"series, 4 terms", "series, 7 terms", "series, 9 terms", "series, 11 terms"};
#else
static const char *terms[4] = {"series, 6 terms", "series, 11 terms", "series, 14 terms", "series, 19 terms"};
#endif
static void by_arm(const char *what, call *f, void fill(const arm *, number *)) {
    arm arms[10] = {{terms[0], 0.004, 2e-5}, {terms[1], 0.1, 0.02}, {terms[2], 0.2, 0.15}, {terms[3], 0.5, 1},
                    {"closed, sigma 0.2, z 3", 0.2, 3}, {"closed, sigma 0.2, z 7", 0.2, 7},
                    {"closed, sigma 0.2, z 9.7", 0.2, 9.7}, {"closed, sigma 1.5, z 3", 1.5, 3},
                    {"closed, sigma 1.5, z 7", 1.5, 7}, {"closed, sigma 1.5, z 9.7", 1.5, 9.7}};
    for (int i = 0; i < 10; i++) count(what, arms[i].name, COUNT, f, fill, &arms[i]);
}

int main(void) {
    several(points, 3 * LONG);
#ifdef LIBRARY
    by_arm("sim3_exp", exponential, tangent);
    by_arm("sim3_coeffs_armed", armed, coefficients);
    by_arm("sim3_scaled_pair", scaled_pair, coefficients);
    by_arm("sim3_armed_pair", armed_pair, coefficients);
    by_arm("sim3_block_pair", block_pair, tangent_and_jacobians);
    count("sim3_mul", "", COUNT, product, two_poses, 0);
    count("sim3_inverse", "", COUNT, inverse, one_pose, 0);
    count("sim3_act_each", "1 point", COUNT, action, one_pose, 0);
    count("sim3_adjoint", "", COUNT, adjoint, one_pose, 0);
    count("sim3_block_inverse", "", COUNT, block_inverse, block, 0);
#define LIST(name) "sim3_" name
#else
    by_arm("exp", AT(call_200), tangent);
    by_arm("sim3_v", AT(call_64), coefficients);
    by_arm("sim3_coeffs_scaled", AT(call_67), coefficients);
    by_arm("sim3_coeffs", AT(call_63), coefficients);
    by_arm("scaled pair", AT(call_68), coefficients);
    by_arm("block pair", AT(call_204), tangent_and_jacobians);
    count("mul", "", COUNT, AT(call_201), two_poses, 0);
    count("inverse", "", COUNT, AT(call_202), one_pose, 0);
    count("act", "", COUNT, AT(call_203), one_pose, 0);
    count("adjoint", "", COUNT, AT(call_86), one_pose, 0);
    count("block inverse", "", COUNT, AT(call_205), block, 0);
#define LIST(name) name
#endif
    count(LIST("act_many"), "200 points", 1, many_short, one_pose, 0);
    count(LIST("act_many"), "20,000 points", 1, many_long, one_pose, 0);
    count(LIST("act_each"), "200 points", 1, each_short, one_pose, 0);
    count(LIST("act_each"), "20,000 points", 1, each_long, one_pose, 0);
    return 0;
}
