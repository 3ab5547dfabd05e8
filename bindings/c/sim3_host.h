/* sim3_host.h: the host's function values for sim3.h, by C's mathematics library (link -lm): for C, root, sine,
 * exponential and the rotation Jacobians are computed here only. The engine takes any numbers here; these are the true
 * ones.
 *
 * The values of the negative tangent, which no function of sim3.h takes, follow from those of the tangent: up and down
 * are exchanged; so are e and e0, and m and m0, where sigma is a zero; the others are the same. Its rotation Jacobians
 * are the transposes.
 */
#ifndef SIM3_HOST_H
#define SIM3_HOST_H

#include <math.h>

#ifdef __FAST_MATH__
#error "sim3_host.h: -ffast-math changes sums, zeros' signs and NaN; compile without it"
#endif

/* z = |phi|^2 by the same sum as the engine's. `volatile` keeps a compiler from fusing a product with the sum. */
static inline double sim3_host_norm_sq(const double *phi) {
    volatile double xx = phi[0] * phi[0], yy = phi[1] * phi[1], zz = phi[2] * phi[2];
    return (xx + yy) + zz;
}

/* t = -|sigma|, but sigma itself if it is a zero, whose sign matters, or a NaN. */
static inline double sim3_host_shrinking(double sigma) { return sigma < 0 || sigma > 0 ? -fabs(sigma) : sigma; }

/* The ten values for a log scale and a squared angle, whose root is computed by `root`: sqrt, or sim3_host_root of
 * sim3_host_root.h. */
static inline void sim3_host_values_by(double (*root)(double), double sigma, double z, double values[10]) {
    const double r = root(z), here = sim3_host_shrinking(sigma), there = sim3_host_shrinking(-sigma);
    values[0] = r;
    values[1] = sin(0.5 * r);
    values[2] = cos(0.5 * r);
    values[3] = sin(r);
    values[4] = exp(here);
    values[5] = expm1(here);
    values[6] = exp(there);
    values[7] = expm1(there);
    values[8] = exp(sigma);
    values[9] = exp(-sigma);
}

/* The same with the machine's root. */
static inline void sim3_host_values(double sigma, double z, double values[10]) {
    sim3_host_values_by(sqrt, sigma, z, values);
}

/* The ten values of a tangent. */
static inline void sim3_host_tangent_values(const double tau[7], double values[10]) {
    sim3_host_values(tau[6], sim3_host_norm_sq(tau), values);
}

/* e^sigma and e^-sigma of a pose; e^(sigma of X - sigma of Y), which sim3_mul_inv reads. */
static inline double sim3_host_up(const double x[8]) { return exp(x[7]); }
static inline double sim3_host_down(const double x[8]) { return exp(-x[7]); }
static inline double sim3_host_ds(const double x[8], const double y[8]) { return exp(x[7] - y[7]); }

/* The sum of (-1)^i weight[i] z^i, from the highest term. */
static inline double sim3_host_series(double z, const double weight[12]) {
    double total = 0;
    for (int i = 11; i >= 0; i--) total = weight[i] - z * total;
    return total;
}

/* a, b, c of J = I + a W + b W^2 and its inverse I - W/2 + c W^2, W the hat of phi: a = (1 - cos r)/z,
 * b = (r - sin r)/r^3, c = (1 - (r/2) cot(r/2))/z; below z = 1, where these lose digits, by the series of a, of b and
 * of 2 a c = (2 a - sin r/r)/z. */
static inline void sim3_host_rotation_coefficients(double z, double abc[3]) {
    /* 1/(2i + 2)!, 1/(2i + 3)!, (2i + 2)/(2i + 4)! */
    static const double a[12] = {0.5, 0.041666666666666664, 0.001388888888888889, 2.48015873015873e-05,
                                 2.755731922398589e-07, 2.08767569878681e-09, 1.1470745597729725e-11,
                                 4.779477332387385e-14, 1.5619206968586225e-16, 4.110317623312165e-19,
                                 8.896791392450574e-22, 1.6117375710961184e-24};
    static const double b[12] = {0.16666666666666666, 0.008333333333333333, 0.0001984126984126984,
                                 2.7557319223985893e-06, 2.505210838544172e-08, 1.6059043836821613e-10,
                                 7.647163731819816e-13, 2.8114572543455206e-15, 8.22063524662433e-18,
                                 1.9572941063391263e-20, 3.868170170630684e-23, 6.446950284384474e-26};
    static const double c[12] = {0.08333333333333333, 0.005555555555555556, 0.00014880952380952382,
                                 2.204585537918871e-06, 2.08767569878681e-08, 1.376489471727567e-10,
                                 6.691268265342339e-13, 2.499073114973796e-15, 7.398571721961897e-18,
                                 1.7793582784901146e-20, 3.54582265641146e-23, 5.951031031739514e-26};
    if (z < 1) {
        abc[0] = sim3_host_series(z, a);
        abc[1] = sim3_host_series(z, b);
        abc[2] = sim3_host_series(z, c) / (2 * abc[0]);
        return;
    }
    const double r = sqrt(z), s = sin(0.5 * r), t = tan(0.5 * r);
    abc[0] = 2 * s * s / z;
    abc[1] = (r - sin(r)) / (r * z);
    abc[2] = (1 - 0.5 * r / t) / z;
}

/* SO(3)'s left Jacobian at phi and its inverse, each column by column. */
static inline void sim3_host_rotation_jacobians(const double *phi, double jl[9], double jl_inv[9]) {
    const double hat[9] = {0, phi[2], -phi[1], -phi[2], 0, phi[0], phi[1], -phi[0], 0};
    const double z = sim3_host_norm_sq(phi);
    double abc[3];
    sim3_host_rotation_coefficients(z, abc);
    for (int i = 0; i < 9; i++) {
        const int row = i % 3, column = i / 3;
        const double unit = row == column ? 1 : 0;
        const double square = phi[row] * phi[column] - (row == column ? z : 0);
        jl[i] = unit + (abc[0] * hat[i] + abc[1] * square);
        jl_inv[i] = unit + (abc[2] * square - 0.5 * hat[i]);
    }
}

#endif
