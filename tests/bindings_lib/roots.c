/* The square root of include/sim3.h and bindings/c/sim3_host_root.h for tests/bindings.
 *     roots parts     reads patterns of doubles from standard input, 8 bytes each; for each it writes five words: what
 *                     sim3_root returns, the whole root, the remainder, the exponent and the pattern of the nearest
 *                     double; zeros if it is refused
 *     roots values    reads tangents of 7 doubles; prints each whose ten values, or whose Exp by them, have other bits
 *                     by sim3_host_root than by sqrt; the exit status is 1 if there is one */
#include <stdio.h>
#include <string.h>

#include "sim3_host_root.h"

static int parts(void) {
    double z;
    while (fread(&z, sizeof z, 1, stdin) == 1) {
        uint64_t out[5] = {0}, whole[2] = {0, 0};
        int64_t exponent[1] = {0};
        double nearest[1] = {0};
        out[0] = sim3_root(z, whole, 2, exponent, 1, nearest, 1);
        memcpy(out + 1, whole, sizeof whole);
        memcpy(out + 3, exponent, sizeof exponent);
        memcpy(out + 4, nearest, sizeof nearest);
        if (fwrite(out, sizeof out, 1, stdout) != 1) return 2;
    }
    return 0;
}

static int values(void) {
    double tau[7];
    int wrong = 0;
    while (fread(tau, sizeof tau, 1, stdin) == 1) {
        const double z = sim3_host_norm_sq(tau);
        const uint16_t frames[2] = {0, 0};
        double by_machine[10], by_root[10], x[8], y[8];
        uint16_t out_frames[2];
        sim3_host_values(tau[6], z, by_machine);
        sim3_host_values_by(sim3_host_root, tau[6], z, by_root);
        const uint32_t refused = sim3_exp(tau, 7, by_machine, 10, frames, 2, x, 8, out_frames, 2) |
                                 sim3_exp(tau, 7, by_root, 10, frames, 2, y, 8, out_frames, 2);
        if (refused || memcmp(by_machine, by_root, sizeof by_root) || memcmp(x, y, sizeof y)) {
            printf("z = %a: other bits by sim3_host_root\n", z);
            wrong = 1;
        }
    }
    return wrong;
}

int main(int argc, char **argv) {
    if (argc == 2 && !strcmp(argv[1], "parts")) return parts();
    if (argc == 2 && !strcmp(argv[1], "values")) return values();
    return 2;
}
