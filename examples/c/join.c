/* The engine from C: joins two runs of shots by a similarity, and frames keep the order of the factors right; moves the
 * points of a staff line, computes Jacobian blocks, a square root with its remainder and a line in singles, and shows
 * refusals. Compares every answer with numbers known by hand; exit status 1 and a message if one is wrong.
 * examples/c/run builds and runs it. */
#include <stdio.h>

#include "sim3.h"
#include "sim3_host.h"
#include "sim3_host_f32.h"
#include "sim3_host_root.h"
#include "sim3_refusal.h"

#define COUNT(list) (sizeof(list) / sizeof((list)[0]))

static const double QUARTER = 1.5707963267948966; /* pi/2 */
static const double DOUBLE = 0.6931471805599453;  /* ln 2 */
static const double HALF_ROOT = 0.7071067811865476; /* sqrt(1/2) */
enum { FIRST = 1, SECOND = 2, SHOT = 10, NEXT = 11 }; /* frames: the two runs, a shot of both, a shot of the second */
static int wrong = 0;

/* A call that must be answered. */
static void asked(const char *what, uint32_t refused) {
    if (refused == SIM3_OK) return;
    printf("%s: refusal %u: %s\n", what, (unsigned)refused, sim3_refusal_text(refused));
    wrong = 1;
}

/* Prints a list; reports a number that is further than `most` from the one known by hand. */
static void known_within(double most, const char *what, const double *found, const double *expected, size_t count) {
    printf("%s:", what);
    for (size_t i = 0; i < count; i++) printf(" %.6g", found[i]);
    printf("\n");
    for (size_t i = 0; i < count; i++)
        if (!(fabs(found[i] - expected[i]) <= most)) {
            printf("%s: WRONG: number %zu is %.17g and not %.17g\n", what, i, found[i], expected[i]);
            wrong = 1;
        }
}

/* The same for doubles. */
static void known(const char *what, const double *found, const double *expected, size_t count) {
    known_within(1e-12, what, found, expected, count);
}

/* The same for the frames of a pose. */
static void known_frames(const char *what, const uint16_t found[2], uint16_t from, uint16_t to) {
    printf("%s: from frame %u to frame %u\n", what, (unsigned)found[0], (unsigned)found[1]);
    if (found[0] == from && found[1] == to) return;
    printf("%s: WRONG: the frames are not %u and %u\n", what, (unsigned)from, (unsigned)to);
    wrong = 1;
}

/* A call that must be refused, with this number. */
static void refused(const char *what, uint32_t number, uint32_t expected) {
    printf("%s: refusal %u: %s\n", what, (unsigned)number, sim3_refusal_text(number));
    if (number != expected) {
        printf("%s: WRONG: expected refusal %u\n", what, (unsigned)expected);
        wrong = 1;
    }
}

/* The camera hand: one shot has the pose x in the first run and y in the second. X Y^-1 maps the second run's
 * coordinates to the first's. The frames of each pose are a list of their own: from, to. */
static void join_runs(double join[8]) {
    const double turn[7] = {0, 0, QUARTER, 0, 0, 0, DOUBLE}; /* a quarter turn about z, and twice the size */
    const double shift[8] = {1, 0, 0, 0, 10, 22, 30, 0};
    const double y[8] = {1, 0, 0, 0, 1, 0, 0, 0}, next[8] = {1, 0, 0, 0, 2, 0, 0, 0};
    const uint16_t in_first[2] = {SHOT, FIRST}, in_second[2] = {SHOT, SECOND}, within_first[2] = {FIRST, FIRST};
    const uint16_t next_frames[2] = {NEXT, SECOND};
    double values[10], turned[8], x[8], placed[8], back[8];
    uint16_t turned_frames[2], x_frames[2], join_frames[2], placed_frames[2], back_frames[2];

    sim3_host_tangent_values(turn, values);
    asked("exp", sim3_exp(turn, 7, values, 10, in_first, 2, turned, 8, turned_frames, 2));
    asked("mul", sim3_mul(shift, 8, within_first, 2, turned, 8, turned_frames, 2, sim3_host_up(shift), x, 8, x_frames, 2));
    asked("join", sim3_mul_inv(x, 8, x_frames, 2, y, 8, in_second, 2, sim3_host_ds(x, y), join, 8, join_frames, 2));
    asked("next shot", sim3_mul(join, 8, join_frames, 2, next, 8, next_frames, 2, sim3_host_up(join), placed, 8,
                                placed_frames, 2));
    asked("and back", sim3_inv_mul(placed, 8, placed_frames, 2, join, 8, join_frames, 2, sim3_host_down(join), back, 8,
                                   back_frames, 2));

    known("join", join, (const double[]){HALF_ROOT, 0, 0, HALF_ROOT, 10, 20, 30, DOUBLE}, 8);
    known_frames("join", join_frames, SECOND, FIRST);
    known("next shot", placed, (const double[]){HALF_ROOT, 0, 0, HALF_ROOT, 10, 24, 30, DOUBLE}, 8);
    known_frames("next shot", placed_frames, NEXT, FIRST);
    known("and back", back, next, 8);
    known_frames("and back", back_frames, NEXT, SECOND);
    refused("mul the wrong way round",
            sim3_mul(next, 8, next_frames, 2, join, 8, join_frames, 2, sim3_host_up(next), placed, 8, placed_frames, 2),
            SIM3_FRAMES);
}

/* The page flattener: the points of a staff line, x y z of each. */
static void move_line(const double join[8]) {
    const double line[9] = {0, 0, 0, 1, 0, 0, 2, 0, 0};
    const double expected[9] = {10, 20, 30, 10, 22, 30, 10, 24, 30};
    double moved[9];

    asked("act_many", sim3_act_many(join, 8, sim3_host_up(join), line, COUNT(line), moved, COUNT(moved)));
    known("staff line", moved, expected, COUNT(expected));
    asked("act_each", sim3_act_each(join, 8, sim3_host_up(join), line, COUNT(line), moved, COUNT(moved)));
    known("point by point", moved, expected, COUNT(expected));
}

/* A block times a tangent: the rows (a 0 0), (b c f), (0 0 e). */
static void times(const double *block, const double tau[7], double out[7]) {
    const double *a = block, *b = block + 9, *c = block + 18, *f = block + 27;
    for (int row = 0; row < 3; row++) {
        out[row] = 0;
        out[3 + row] = f[row] * tau[6];
        for (int k = 0; k < 3; k++) {
            out[row] += a[row + 3 * k] * tau[k];
            out[3 + row] += b[row + 3 * k] * tau[k] + c[row + 3 * k] * tau[3 + k];
        }
    }
    out[6] = block[30] * tau[6];
}

/* The adjuster: J_l, its inverse, J_r and its inverse from one evaluation. Each maps its own tangent to itself. */
static void adjust(const double join[8]) {
    const double tau[7] = {0.1, -0.2, 0.3, 1, 2, 3, 0.5}, p[3] = {1, 0, 0};
    const char *names[4] = {"left", "left inverse", "right", "right inverse"};
    double values[10], jl[9], jl_inv[9], blocks[124], by[30], same[7];

    sim3_host_tangent_values(tau, values);
    sim3_host_rotation_jacobians(tau, jl, jl_inv);
    asked("block_pair", sim3_block_pair(tau, 7, values, 10, jl, 9, jl_inv, 9, blocks, 124));
    asked("act_jacobians", sim3_act_jacobians_left(join, 8, sim3_host_up(join), p, 3, by, 30));

    for (int i = 0; i < 4; i++) {
        times(blocks + 31 * i, tau, same);
        known(names[i], same, tau, 7);
    }
    known("moved point by sigma", by + 18, (const double[]){10, 22, 30}, 3);
}

/* The cradle, whose host has no square root to rely on: the root of 2 with its remainder, and Exp with the engine's
 * root of z. */
static void root_and_remainder(void) {
    const double turn[7] = {0, 0, QUARTER, 0, 0, 0, DOUBLE};
    const uint16_t frames[2] = {SHOT, FIRST};
    uint64_t whole[2];
    int64_t exponent[1];
    double nearest[1], values[10], turned[8];
    uint16_t turned_frames[2];

    asked("root", sim3_root(2, whole, 2, exponent, 1, nearest, 1));
    sim3_host_values_by(sim3_host_root, turn[6], sim3_host_norm_sq(turn), values);
    asked("exp by that root", sim3_exp(turn, 7, values, 10, frames, 2, turned, 8, turned_frames, 2));

    known("root of 2", (const double[]){(double)whole[0], (double)whole[1], (double)exponent[0], nearest[0]},
          (const double[]){6369051672525772, 7192236498376048, -52, 1.4142135623730951}, 4);
    known("exp by that root", turned, (const double[]){HALF_ROOT, 0, 0, HALF_ROOT, 0, 0, 0, DOUBLE}, 8);
}

/* The camera hand again, shot by shot: after four quarter turns, each with a step along its own x, the pose is where it
 * began. */
static void chain(void) {
    const double shot[8] = {HALF_ROOT, 0, 0, HALF_ROOT, 1, 0, 0, 0};
    const uint16_t frames[2] = {FIRST, FIRST};
    double pose[8];
    uint16_t state[5];

    asked("start", sim3_running_start(pose, 8, state, 5));
    asked("every", sim3_running_every(state, 5, 2));
    for (int i = 0; i < 4; i++)
        asked("push", sim3_running_push(pose, 8, state, 5, shot, 8, frames, 2, sim3_host_up(pose)));
    known("four shots", pose, (const double[]){-1, 0, 0, 0, 0, 0, 0, 0}, 8);
    known_frames("four shots", state, FIRST, FIRST);
}

static void refusals(const double join[8]) {
    const double tau[7] = {0}, values[10] = {0}, block[31] = {0}, pts[7] = {0};
    const uint16_t frames[2] = {SHOT, FIRST};
    double out[31];
    uint16_t out_frames[2];
    uint64_t whole[2];
    int64_t exponent[1];

    refused("exp with six numbers", sim3_exp(tau, 6, values, 10, frames, 2, out, 8, out_frames, 2), SIM3_LIST_LENGTH);
    refused("block_inverse with e = 0", sim3_block_inverse(block, 31, out, 31), SIM3_E_IS_ZERO);
    refused("scaled_pair with z = -1", sim3_scaled_pair(0, -1, values, 10, out, 20), SIM3_BELOW_ZERO);
    refused("act_many with seven numbers", sim3_act_many(join, 8, 2, pts, 7, out, 7), SIM3_POINTS_LENGTH);
    refused("root of infinity", sim3_root(INFINITY, whole, 2, exponent, 1, out, 1), SIM3_NOT_FINITE);
}

/* The second camera, whose board sends singles: the engine at f32 turns and moves a line. */
static void in_singles(void) {
    const float turn[7] = {0, 0, (float)QUARTER, 0, 0, 0, (float)DOUBLE}, line[6] = {1, 0, 0, 2, 0, 0};
    const uint16_t frames[2] = {SHOT, FIRST};
    float values[10], turned[8], moved[6];
    uint16_t turned_frames[2];
    double found[6];

    sim3_host_tangent_values_f32(turn, values);
    asked("exp at f32", sim3_exp_f32(turn, 7, values, 10, frames, 2, turned, 8, turned_frames, 2));
    asked("act_many at f32", sim3_act_many_f32(turned, 8, sim3_host_up_f32(turned), line, 6, moved, 6));
    sim3_host_widened_f32(moved, 6, found);
    known_within(1e-6, "line at f32", found, (const double[]){0, 2, 0, 0, 4, 0}, 6);
    known_frames("line at f32", turned_frames, SHOT, FIRST);
}

int main(void) {
    double join[8];
    join_runs(join);
    move_line(join);
    adjust(join);
    root_and_remainder();
    chain();
    in_singles();
    refusals(join);
    printf(wrong ? "example: WRONG, see above\n" : "example: every answer is the one known by hand\n");
    return wrong;
}
