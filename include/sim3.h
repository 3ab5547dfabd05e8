/* sim3.h: the proved Sim(3) engine for C and C++ (x86-64, SSE2). The proofs are about IEEE 754 as every process starts
 * with it: rounding to nearest, nothing flushed to zero, no exception that traps. The thread of a call must have that:
 * bits 6 to 15 of its register MXCSR are 0x1f80. Else the answers have other bits. A shared library linked with
 * -ffast-math changes it when it is loaded. sim3_environment_differs tells it; sim3_environment_enter and _leave set it
 * for some calls and put back what was there (below, the environment).
 *
 * bindings/install puts this header and its library where `pkg-config --cflags --libs sim3` finds them; in the source
 * tree bindings/build makes target/bindings/libsim3.a.
 *
 * Lists. Every list is a pointer and the count of its numbers. A pointer is never null, points to that many numbers of
 * its type, and a list that is written overlaps no other list of the call. This and the environment are all that is asked
 * of a caller: every count and every number is taken, NaN and infinities included.
 *
 * Answers. A call, but for those of the environment, returns 0 and has written all of `out` and `out_frames` (sim3_root: of
 * its three lists; what works in place: the lists that are not const), or the number of a refusal and has written nothing:
 *     1  z is below zero                        (sim3_scaled_pair, sim3_coeffs_armed, sim3_armed_pair, sim3_root, sim3_nearest_arm)
 *     2  e is +0 or -0                          (sim3_block_inverse)
 *     5  a list of points has a wrong length    (sim3_act_many, sim3_act_each: a multiple of 3, at most 65,535 numbers, `out` as long as `pts`)
 *        or a list of tangents has              (sim3_sort_tangents: a multiple of 7, at most 7,168 numbers)
 *     8  z is a NaN or +infinity                (sim3_root; sim3_nearest_arm: or sigma is a NaN or an infinity)
 *     9  the frames do not meet                 (sim3_mul, sim3_mul_inv, sim3_inv_mul, sim3_running_push)
 *    10  the take is the one that is kept      (sim3_sheets_put)
 *    11  the sheet would be the 513th           (sim3_sheets_put)
 *    12  nothing was ever kept of the sheet     (sim3_sheets_get)
 *   100  another list has a wrong length; the right one stands in brackets below. This number is the boundary's own: in Rattle no such list can be made
 * Where several apply: first 100 for the lists that are read, those that are read and written among them; then the function's own refusal; last 100 for the lists
 * that are written alone. sim3_sheets_put alone has every length first, that of `out` too, and then 10 or 11. 5 looks at `pts` and `out` together, after x.
 *
 * Orders.
 *     pose     [8]   quaternion w x y z, translation x y z, sigma
 *     frames   [2]   from, to: frame numbers of the pose that stands before them, of 16 bits
 *     tangent  [7]   phi x y z, rho x y z, sigma
 *     matrix   [9]   column by column
 *     block   [31]   a [9], b [9], c [9], f [3], e [1]: the 7 by 7 matrix with the rows (a 0 0), (b c f), (0 0 e)
 *     values  [10]   functions of z = |phi|^2 and sigma, which the caller computes:
 *         0 root      square root of z
 *         1 sin_half  sine of half the root          2 cos_half  its cosine
 *         3 sin       sine of the root
 *         4 e         e^t                            5 m         e^t - 1          with t = -|sigma|, and t = sigma where sigma is +0, -0 or NaN
 *         6 e0        the same two for -sigma        7 m0        in place of sigma; read only where sigma is +0 or -0
 *         8 up        e^sigma                        9 down      e^-sigma
 *     The values of the negative tangent are the mirrored ones: up and down change places, e and e0, m and m0 change places where sigma is a zero, the rest
 *     stays; and its rotation Jacobians are the transposed ones. The paired functions mirror by themselves: hand in the tangent's own.
 * Right means X Exp(tau), left Exp(tau) X. Jacobians are by tau, in the order phi, rho, sigma.
 *
 * Frames. A pose maps points of its frame `from` to points of its frame `to`. What numbers frames have is the caller's matter; that poses are joined the right
 * way round is the engine's: where frames do not meet, the call is refused by 9. Frames change no number. The action, the Jacobians and sim3_renormalize read
 * none, and take the eight numbers alone.
 */
#ifndef SIM3_H
#define SIM3_H

#include <stddef.h>
#include <stdint.h>

#ifdef __cplusplus
extern "C" {
#endif

/* The version of this header, written by tools/version from the file VERSION; docs/ABI.md says what a change of it means. sim3_version gives that of the library
 * which is linked. */
#define SIM3_VERSION_MAJOR 1
#define SIM3_VERSION_MINOR 1
#define SIM3_VERSION_PATCH 0
#define SIM3_VERSION "1.1.0"

const char *sim3_version(void);

/* What a call returns. */
enum {
    SIM3_OK = 0,
    SIM3_BELOW_ZERO = 1,
    SIM3_E_IS_ZERO = 2,
    SIM3_POINTS_LENGTH = 5,
    SIM3_NOT_FINITE = 8,
    SIM3_FRAMES = 9,
    SIM3_SAME_TAKE = 10,
    SIM3_TOO_MANY_SHEETS = 11,
    SIM3_NEVER_KEPT = 12,
    SIM3_LIST_LENGTH = 100
};

/* ---- the environment: how the processor rounds in this thread
 *
 * A thread begins with the environment of the one that starts it. A shared library linked with -ffast-math or -Ofast sets
 * flushing when it is loaded, in the thread that loads it; fesetround, feenableexcept and _mm_setcsr set the thread that
 * calls them. Where it is not the proved one, calls answer other bits, or end in SIGFPE where an exception traps. No call
 * looks at it. Calls raise flags of MXCSR, inexact nearly always, and neither read nor clear them. */

/* 0 where this thread has the proved environment, else the bits of MXCSR that differ: 0x8000 where denormal results are
 * flushed to zero, 0x0040 where denormal numbers are read as zero, 0x6000 of the rounding, 0x1f80 of the exceptions that
 * trap. Changes nothing and cannot trap. */
uint32_t sim3_environment_differs(void);

/* Sets the proved environment in this thread and gives all of MXCSR as it was, flags too; sim3_environment_leave, with what
 * was given, puts that back. Pairs of the two nest. They are for the calls between them: a compiler may move sums of the
 * caller's own across them. In C++ sim3_environment.hpp has both as a class. */
uint32_t sim3_environment_enter(void);
void sim3_environment_leave(uint32_t was);

/* Asks the arithmetic itself. 1 where (probe[0] * probe[1]) * probe[2], each product rounded once, is
 * 0x1.4000000000001p-49, else 0; SIM3_LIST_LENGTH where there are not three numbers. For 4.75, 4.9406564584124654e-324
 * (0x1p-1074) and 8.9884656743115815e+307 (0x1.0000000000001p+1023) it is proved to be 1; by trial it is 0 for them in each
 * of the 15 other settings of flushing and rounding. Raises the flags of denormal, underflow and inexact, and traps where
 * one of these does. probe [3]. */
uint32_t sim3_environment(const double *probe, size_t probe_n);

/* ---- poses */

/* Exp(tau). tau [7], values [10], frames [2]; out [8], out_frames [2], which are those handed in. */
uint32_t sim3_exp(const double *tau, size_t tau_n, const double *values, size_t values_n, const uint16_t *frames, size_t frames_n, double *out, size_t out_n,
                  uint16_t *out_frames, size_t out_frames_n);

/* X Y, first Y and then X. x [8], x_frames [2], y [8], y_frames [2], up = e^sigma of X; out [8], out_frames [2]: from of Y, to of X. Refusal 9 where from of X is
 * not to of Y. */
uint32_t sim3_mul(const double *x, size_t x_n, const uint16_t *x_frames, size_t x_frames_n, const double *y, size_t y_n, const uint16_t *y_frames,
                  size_t y_frames_n, double up, double *out, size_t out_n, uint16_t *out_frames, size_t out_frames_n);

/* X^-1. x [8], x_frames [2], down = e^-sigma of X; out [8], out_frames [2]: those of X exchanged. */
uint32_t sim3_inverse(const double *x, size_t x_n, const uint16_t *x_frames, size_t x_frames_n, double down, double *out, size_t out_n, uint16_t *out_frames,
                      size_t out_frames_n);

/* X Y^-1. x [8], x_frames [2], y [8], y_frames [2], ds = e^(sigma of X - sigma of Y); out [8], out_frames [2]: to of Y, to of X. Refusal 9 where from of X is not
 * from of Y. */
uint32_t sim3_mul_inv(const double *x, size_t x_n, const uint16_t *x_frames, size_t x_frames_n, const double *y, size_t y_n, const uint16_t *y_frames,
                      size_t y_frames_n, double ds, double *out, size_t out_n, uint16_t *out_frames, size_t out_frames_n);

/* Y^-1 X. x [8], x_frames [2], y [8], y_frames [2], down = e^-sigma of Y; out [8], out_frames [2]: from of X, from of Y. Refusal 9 where to of X is not to
 * of Y. */
uint32_t sim3_inv_mul(const double *x, size_t x_n, const uint16_t *x_frames, size_t x_frames_n, const double *y, size_t y_n, const uint16_t *y_frames,
                      size_t y_frames_n, double down, double *out, size_t out_n, uint16_t *out_frames, size_t out_frames_n);

/* One Newton step that brings the quaternion nearer to length 1, in place. x [8]; X keeps its frames, which are not read. */
uint32_t sim3_renormalize(double *x, size_t x_n);

/* The same step in every pose of a list, in place. poses: eight numbers a pose, a multiple of eight, else 100. */
uint32_t sim3_renormalize_all(double *poses, size_t poses_n);

/* ---- a running join: poses are joined as they come. What is kept between the calls stands in two lists of the caller's: pose [8], the running pose's numbers, and
 * state [5]: its frames, from and to; n; the products since the last renormalisation, where 65,535 are that many or more; and 1 where there is a pose, else there
 * is none. The two may be copied and kept, and read at any time; any numbers in them are taken. */

/* No pose yet, and none will be renormalised: all zeros. pose [8], state [5]. */
uint32_t sim3_running_start(double *pose, size_t pose_n, uint16_t *state, size_t state_n);

/* A pose x is joined: the first is the running pose, and is no product, its up unused; a further one replaces it by running X, up being e^sigma of the running pose,
 * and where that is the nth product since the last renormalisation, or a later one, the quaternion is renormalised as by sim3_renormalize and the count begins
 * anew. Then pose and state hold the running pose. pose [8], state [5], x [8], x_frames [2]. Refusal 9 where from of the running pose is not to of x; then
 * nothing changes. */
uint32_t sim3_running_push(double *pose, size_t pose_n, uint16_t *state, size_t state_n, const double *x, size_t x_n, const uint16_t *x_frames,
                           size_t x_frames_n, double up);

/* From here on after every nth product, 0 for never. The count goes on, also while n is 0, and the pose stays as it is. state [5]. */
uint32_t sim3_running_every(uint16_t *state, size_t state_n, uint16_t n);

/* ---- retaken sheets: for each of up to 512 sheets the pose of the highest take is kept, in bytes of the caller's. Any bytes of that many are a store, of
 * which one can tell by sim3_sheets_get what is kept in it: of 512 sheets at most. */
enum { SIM3_SHEETS_SIZE = 167938 };

/* Nothing is kept yet. store [SIM3_SHEETS_SIZE]. */
uint32_t sim3_sheets_start(uint8_t *store, size_t store_n);

/* A shot of a sheet. store [SIM3_SHEETS_SIZE], x [8], x_frames [2]; out [2]: 1 where the sheet is new, 2 where the shot replaces one of a lower take, 3 where it is
 * older and not kept; and the take that stood before, 0 with a new sheet. Refusal 10 where the take is the one that is kept, 11 where the sheet would be the
 * 513th: where 512 others are kept, and nowhere else, whatever bytes the store holds. Then no byte of the store changes. A wrong length of any of the four lists,
 * `out` too, is refused by 100 before 10 and 11 are looked for, so that no shot is kept whose answer has no room. */
uint32_t sim3_sheets_put(uint8_t *store, size_t store_n, uint16_t sheet, uint16_t take, const double *x, size_t x_n, const uint16_t *x_frames,
                         size_t x_frames_n, uint16_t *out, size_t out_n);

/* What is kept of a sheet. store [SIM3_SHEETS_SIZE]; take [1], out [8], out_frames [2]. Refusal 12 where nothing was ever kept of it: after the length of the store,
 * before the others. */
uint32_t sim3_sheets_get(const uint8_t *store, size_t store_n, uint16_t sheet, uint16_t *take, size_t take_n, double *out, size_t out_n, uint16_t *out_frames,
                         size_t out_frames_n);

/* ---- lists of points, three numbers each: every point moved to s R p + t. x [8], up = e^sigma of X. */

/* By the matrix s R, formed once: the bits of helicoid's act_many. */
uint32_t sim3_act_many(const double *x, size_t x_n, double up, const double *pts, size_t pts_n, double *out, size_t out_n);

/* Each point by itself: the bits of the job's mark AC. */
uint32_t sim3_act_each(const double *x, size_t x_n, double up, const double *pts, size_t pts_n, double *out, size_t out_n);

/* ---- both signs, both sides, from one evaluation */

/* The coefficients v0 v1 v2 w0 w1 w2 dv1 dv2 chi_delta and their flag (1: still to be multiplied by e^sigma, else 0) at sigma, then at -sigma.
 * values [10]; out [20]. Refusal 1 where z is below zero. */
uint32_t sim3_scaled_pair(double sigma, double z, const double *values, size_t values_n, double *out, size_t out_n);

/* The same numbers at sigma alone, and before them the arm that formed them: 1, 2, 3 or 4 for a series of 6, 11, 14 or 19 terms, 5 for the closed forms; and 1
 * where v0 and w0 of the closed forms come from series of their own, else 0. values [10]; out [12]: arm, ends, ten numbers. Refusal 1 where z is below zero. */
uint32_t sim3_coeffs_armed(double sigma, double z, const double *values, size_t values_n, double *out, size_t out_n);

/* The numbers of sim3_scaled_pair, and before them arm and ends at sigma, then at -sigma. values [10]; out [24]. Refusal 1 where z is below zero. */
uint32_t sim3_armed_pair(double sigma, double z, const double *values, size_t values_n, double *out, size_t out_n);

/* J_l(tau), its inverse, J_r(tau), its inverse. tau [7], values [10], jl [9] = J_l(phi) of the rotation, jl_inv [9] its inverse; out [124]: four blocks. */
uint32_t sim3_block_pair(const double *tau, size_t tau_n, const double *values, size_t values_n, const double *jl, size_t jl_n, const double *jl_inv,
                         size_t jl_inv_n, double *out, size_t out_n);

/* ---- blocks */

/* The inverse of a block, by adjugates. j [31]; out [31]. Refusal 2 where e is a zero. A singular a or c is divided by its zero. */
uint32_t sim3_block_inverse(const double *j, size_t j_n, double *out, size_t out_n);

/* Ad_X. x [8], up = e^sigma of X; out [31]. */
uint32_t sim3_adjoint(const double *x, size_t x_n, double up, double *out, size_t out_n);

/* Of X p by X and by p. x [8], up = e^sigma of X, p [3]; out [30]: three rows by phi [9], by rho [9], by sigma [3], and s R [9]. */
uint32_t sim3_act_jacobians_right(const double *x, size_t x_n, double up, const double *p, size_t p_n, double *out, size_t out_n);
uint32_t sim3_act_jacobians_left(const double *x, size_t x_n, double up, const double *p, size_t p_n, double *out, size_t out_n);

/* Of X Y by X and by Y; out [62]: two blocks. Right reads Y alone: y [8], down = e^-sigma of Y. Left reads X alone: x [8], up = e^sigma of X. */
uint32_t sim3_compose_jacobians_right(const double *y, size_t y_n, double down, double *out, size_t out_n);
uint32_t sim3_compose_jacobians_left(const double *x, size_t x_n, double up, double *out, size_t out_n);

/* Of X^-1; out [31]. Right: x [8], up = e^sigma of X. Left: x [8], down = e^-sigma of X. */
uint32_t sim3_inverse_jacobian_right(const double *x, size_t x_n, double up, double *out, size_t out_n);
uint32_t sim3_inverse_jacobian_left(const double *x, size_t x_n, double down, double *out, size_t out_n);

/* ---- the square root with what is left, in whole numbers */

/* For a finite z > 0, z = m 4^s with m whole, 2^104 <= m < 2^106: whole [2] holds r, the largest whole number whose square is at most m, and the remainder
 * m - r^2; exponent [1] holds s; nearest [1] the double nearest to the square root of z: r 2^s where the remainder is at most r, else (r + 1) 2^s. A zero gives
 * zeros, and nearest keeps its sign. Refusal 1 where z is below zero, -infinity too, and 8 where it is a NaN or +infinity. */
uint32_t sim3_root(double z, uint64_t *whole, size_t whole_n, int64_t *exponent, size_t exponent_n, double *nearest, size_t nearest_n);

/* ---- how near another arm is */

/* The least number of neighbouring doubles that z must move, up or down, staying finite and not below zero, for the arm of sim3_coeffs_armed to change: out [3]
 * holds that count, the direction, 0 for down and 1 for up, and the new arm. Where both directions need the same count, up is given. -0 counts as +0. Three
 * zeros say that there is none: every such z has the same arm. Refusal 1 where z is below zero, then 8 where sigma or z is a NaN or an infinity. */
uint32_t sim3_nearest_arm(double sigma, double z, uint64_t *out, size_t out_n);

/* ---- tangents in a fixed order. Each number goes by IEEE 754's totalOrder: NaNs with the sign, -infinity, .., -0, +0, .., +infinity, NaNs without; the first
 * difference from phi to sigma decides. A number is its 64-bit pattern here, the bytes of a double as they are, so that NaNs with different bits differ. Doubles
 * are copied to an array of uint64_t by memcpy, and back; in C they may stand in a union with one. A double * is not cast: neither language lets an array of doubles
 * be read or written through a pointer to uint64_t. */

/* The tangent a against b. a [7], b [7]; out [1]: -1 where a stands before b, 0 where all bits are the same, 1 where a stands after b. */
uint32_t sim3_compare_tangents(const uint64_t *a, size_t a_n, const uint64_t *b, size_t b_n, int64_t *out, size_t out_n);

/* The tangents of a list, seven numbers each, put in order in their place, smallest first; bit-equal ones are alike. Refusal 5 where list_n is above 7,168 or no
 * multiple of seven. */
uint32_t sim3_sort_tangents(uint64_t *list, size_t list_n);

/* ---- the same at f32: each function above but those of the environment, sim3_root, sim3_renormalize_all and those of the running join, of sheets and of tangents in order, on singles, with the ending _f32. Arguments, orders, counts, refusals and the numbers of the arms are
 * as above; the arms' series have 4, 7, 9 and 11 terms. The answers are those of the engine at binary32, and not the doubles' rounded; where a number is a NaN,
 * so are those that are computed from it. The function values are the caller's here too; sim3_host_f32.h computes them in double and rounds each once. */

uint32_t sim3_exp_f32(const float *tau, size_t tau_n, const float *values, size_t values_n, const uint16_t *frames, size_t frames_n, float *out, size_t out_n,
                      uint16_t *out_frames, size_t out_frames_n);
uint32_t sim3_mul_f32(const float *x, size_t x_n, const uint16_t *x_frames, size_t x_frames_n, const float *y, size_t y_n, const uint16_t *y_frames,
                      size_t y_frames_n, float up, float *out, size_t out_n, uint16_t *out_frames, size_t out_frames_n);
uint32_t sim3_inverse_f32(const float *x, size_t x_n, const uint16_t *x_frames, size_t x_frames_n, float down, float *out, size_t out_n, uint16_t *out_frames,
                          size_t out_frames_n);
uint32_t sim3_mul_inv_f32(const float *x, size_t x_n, const uint16_t *x_frames, size_t x_frames_n, const float *y, size_t y_n, const uint16_t *y_frames,
                          size_t y_frames_n, float ds, float *out, size_t out_n, uint16_t *out_frames, size_t out_frames_n);
uint32_t sim3_inv_mul_f32(const float *x, size_t x_n, const uint16_t *x_frames, size_t x_frames_n, const float *y, size_t y_n, const uint16_t *y_frames,
                          size_t y_frames_n, float down, float *out, size_t out_n, uint16_t *out_frames, size_t out_frames_n);
uint32_t sim3_renormalize_f32(float *x, size_t x_n);
uint32_t sim3_act_many_f32(const float *x, size_t x_n, float up, const float *pts, size_t pts_n, float *out, size_t out_n);
uint32_t sim3_act_each_f32(const float *x, size_t x_n, float up, const float *pts, size_t pts_n, float *out, size_t out_n);
uint32_t sim3_scaled_pair_f32(float sigma, float z, const float *values, size_t values_n, float *out, size_t out_n);
uint32_t sim3_coeffs_armed_f32(float sigma, float z, const float *values, size_t values_n, float *out, size_t out_n);
uint32_t sim3_armed_pair_f32(float sigma, float z, const float *values, size_t values_n, float *out, size_t out_n);
uint32_t sim3_block_pair_f32(const float *tau, size_t tau_n, const float *values, size_t values_n, const float *jl, size_t jl_n, const float *jl_inv,
                             size_t jl_inv_n, float *out, size_t out_n);
uint32_t sim3_block_inverse_f32(const float *j, size_t j_n, float *out, size_t out_n);
uint32_t sim3_adjoint_f32(const float *x, size_t x_n, float up, float *out, size_t out_n);
uint32_t sim3_act_jacobians_right_f32(const float *x, size_t x_n, float up, const float *p, size_t p_n, float *out, size_t out_n);
uint32_t sim3_act_jacobians_left_f32(const float *x, size_t x_n, float up, const float *p, size_t p_n, float *out, size_t out_n);
uint32_t sim3_compose_jacobians_right_f32(const float *y, size_t y_n, float down, float *out, size_t out_n);
uint32_t sim3_compose_jacobians_left_f32(const float *x, size_t x_n, float up, float *out, size_t out_n);
uint32_t sim3_inverse_jacobian_right_f32(const float *x, size_t x_n, float up, float *out, size_t out_n);
uint32_t sim3_inverse_jacobian_left_f32(const float *x, size_t x_n, float down, float *out, size_t out_n);
uint32_t sim3_nearest_arm_f32(float sigma, float z, uint64_t *out, size_t out_n);

#ifdef __cplusplus
}
#endif

#endif
