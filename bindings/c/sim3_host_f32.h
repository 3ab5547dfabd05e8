/* sim3_host_f32.h: the host's function values for the functions of sim3.h that end in _f32: those of sim3_host.h,
 * computed in double, and each rounded once to float. Link -lm.
 */
#ifndef SIM3_HOST_F32_H
#define SIM3_HOST_F32_H

#include "sim3_host.h"

/* n numbers in double, and n numbers rounded. */
static inline void sim3_host_widened_f32(const float *numbers, int n, double *out) {
    for (int i = 0; i < n; i++) out[i] = (double)numbers[i];
}
static inline void sim3_host_rounded_f32(const double *numbers, int n, float *out) {
    for (int i = 0; i < n; i++) out[i] = (float)numbers[i];
}

/* z = |phi|^2. */
static inline float sim3_host_norm_sq_f32(const float *phi) {
    double wide[3];
    sim3_host_widened_f32(phi, 3, wide);
    return (float)sim3_host_norm_sq(wide);
}

/* The ten values for a log scale and a squared angle. */
static inline void sim3_host_values_f32(float sigma, float z, float values[10]) {
    double wide[10];
    sim3_host_values((double)sigma, (double)z, wide);
    sim3_host_rounded_f32(wide, 10, values);
}

/* The ten values of a tangent, whose squared angle is not rounded before the root. */
static inline void sim3_host_tangent_values_f32(const float tau[7], float values[10]) {
    double wide[7], found[10];
    sim3_host_widened_f32(tau, 7, wide);
    sim3_host_tangent_values(wide, found);
    sim3_host_rounded_f32(found, 10, values);
}

/* e^sigma and e^-sigma of a pose; e^(sigma of X - sigma of Y), which sim3_mul_inv_f32 reads. */
static inline float sim3_host_up_f32(const float x[8]) { return (float)exp((double)x[7]); }
static inline float sim3_host_down_f32(const float x[8]) { return (float)exp(-(double)x[7]); }
static inline float sim3_host_ds_f32(const float x[8], const float y[8]) {
    return (float)exp((double)x[7] - (double)y[7]);
}

/* SO(3)'s left Jacobian at phi and its inverse, each column by column. */
static inline void sim3_host_rotation_jacobians_f32(const float *phi, float jl[9], float jl_inv[9]) {
    double wide[3], found[9], inverse[9];
    sim3_host_widened_f32(phi, 3, wide);
    sim3_host_rotation_jacobians(wide, found, inverse);
    sim3_host_rounded_f32(found, 9, jl);
    sim3_host_rounded_f32(inverse, 9, jl_inv);
}

#endif
