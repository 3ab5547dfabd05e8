/* The values of bindings/c/sim3_host.h for tests/bindings: reads records of 23 doubles from standard input, a tangent
 * and two poses, and writes 31 doubles for each: the ten values, the rotation Jacobian and its inverse, up and down of
 * the first pose, ds of both. With -DSINGLE the same in singles, by sim3_host_f32.h. */
#include <stdio.h>

#ifdef SINGLE
#include "sim3_host_f32.h"
typedef float number;
#define HOST(name) sim3_host_##name##_f32
#else
#include "sim3_host.h"
typedef double number;
#define HOST(name) sim3_host_##name
#endif

int main(void) {
    number in[23], out[31];
    while (fread(in, sizeof in, 1, stdin) == 1) {
        const number *tau = in, *x = in + 7, *y = in + 15;
        HOST(tangent_values)(tau, out);
        HOST(rotation_jacobians)(tau, out + 10, out + 19);
        out[28] = HOST(up)(x);
        out[29] = HOST(down)(x);
        out[30] = HOST(ds)(x, y);
        if (fwrite(out, sizeof out, 1, stdout) != 1) return 1;
    }
    return 0;
}
