/* The numbers of one width, their bits, and the C functions on them. */
#ifndef NUMBER_H
#define NUMBER_H

#if __BYTE_ORDER__ != __ORDER_LITTLE_ENDIAN__
#error "drive.c copies numbers as they are: it needs a little-endian machine"
#endif

#ifdef SINGLE
typedef float number;
typedef uint32_t word;
#define MARK "pa"
#define EXP sim3_exp_f32
#define PAIR sim3_block_pair_f32
#define ARMED sim3_coeffs_armed_f32
#define HOST_VALUES sim3_host_tangent_values_f32
#define HOST_MATRICES sim3_host_rotation_jacobians_f32
static const word SIGN = 0x80000000, INFINITE = 0x7f800000, NORMAL = 0x00800000;
static const number FAR_FROM = 8.9768715f; /* the limit of b, from which t is formed by chi */
enum { FRACTION = 23, BIAS = 127 };
/* The limits of the arms, of form b, of w0's series, of b and of the other circle functions. */
static const word LIMITS[] = {0x3a7ce158, 0x3e03ba20, 0x3f205df3, 0x4017c496, 0x40ba8a92, 0x3f153ba8,
                              0x410fa144, 0x411a588a, 0x409102bc, 0x3afa78f1, 0x3a83126f};
#else
typedef double number;
typedef uint64_t word;
#define MARK "PA"
#define EXP sim3_exp
#define PAIR sim3_block_pair
#define ARMED sim3_coeffs_armed
#define HOST_VALUES sim3_host_tangent_values
#define HOST_MATRICES sim3_host_rotation_jacobians
static const word SIGN = 0x8000000000000000, INFINITE = 0x7ff0000000000000, NORMAL = 0x0010000000000000;
static const number FAR_FROM = 7.773650302387758;
enum { FRACTION = 52, BIAS = 1023 };
static const word LIMITS[] = {0x3f0c70e59cfc9f1f, 0x3fa59742aa36710d, 0x3fd0e8139c96fc79, 0x3fffb1ffbc2a9c8c,
                              0x3fe2a77501626657, 0x401f1837c8ed2f09, 0x40234b1147487fea, 0x4017515241baffec,
                              0x4020b50e65c5be18, 0x4014ee953b2f4f99, 0x3f756f305d5f8ce6, 0x3f65a3f024984d68};
#endif

static number of_bits(word b) {
    number x;
    memcpy(&x, &b, sizeof x);
    return x;
}

static word bits_of(number x) {
    word b;
    memcpy(&b, &x, sizeof b);
    return b;
}

static int is_nan(word b) { return (b & ~SIGN) > INFINITE; }
static int is_zero(word b) { return (b & ~SIGN) == 0; }

/* |phi|^2 by the engine's sum. `volatile` keeps a compiler from fusing a product with the sum. */
static number norm_sq(const number *phi) {
    volatile number xx = phi[0] * phi[0], yy = phi[1] * phi[1], zz = phi[2] * phi[2];
    volatile number two = xx + yy;
    return two + zz;
}

#endif
