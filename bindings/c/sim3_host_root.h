/* sim3_host_root.h: the square root by the engine's own sim3_root, for a host without a correctly rounded one. It has
 * the bits of a correctly rounded sqrt:
 *     sim3_host_values_by(sim3_host_root, sigma, z, values);
 */
#ifndef SIM3_HOST_ROOT_H
#define SIM3_HOST_ROOT_H

#include "sim3.h"
#include "sim3_host.h"

/* Where sim3_root refuses, the root is that of IEEE 754: a NaN below zero; a NaN and +infinity themselves. */
static inline double sim3_host_root(double z) {
    uint64_t whole[2];
    int64_t exponent[1];
    double nearest[1] = {z};
    return sim3_root(z, whole, 2, exponent, 1, nearest, 1) == SIM3_BELOW_ZERO ? (double)NAN : nearest[0];
}

#endif
