// Calls sim3_nearest_arm from C, or, where SINGLE is defined, sim3_nearest_arm_f32.
//
//     drive           reads patterns of sigma and z from standard input, 8 bytes each, little endian; for each pair it
//                     writes four words to standard output: the refusal's number or 0, the count, the direction and the
//                     arm
//     drive --time    writes how many ns a call takes, the best of some rounds
#include <stdint.h>
#include <stdio.h>
#include <string.h>
#include <time.h>

#include "sim3.h"

#if __BYTE_ORDER__ != __ORDER_LITTLE_ENDIAN__
#error "drive.c copies words as they are: it needs a little-endian machine"
#endif

#ifdef SINGLE
typedef float number;
#define NEAREST sim3_nearest_arm_f32
#define WIDTH "f32"
#else
typedef double number;
#define NEAREST sim3_nearest_arm
#define WIDTH "f64"
#endif

// On this machine a number's bytes are the first of the word's.
static number of_bits(uint64_t b) {
    number x;
    memcpy(&x, &b, sizeof x);
    return x;
}

static int answer_all(void) {
    static uint64_t in[4096][2], out[4096][4];
    size_t n;
    while ((n = fread(in, sizeof in[0], 4096, stdin)) > 0) {
        memset(out, 0, sizeof out);
        for (size_t i = 0; i < n; i++)
            out[i][0] = NEAREST(of_bits(in[i][0]), of_bits(in[i][1]), out[i] + 1, 3);
        if (fwrite(out, sizeof out[0], n, stdout) != n) {
            fprintf(stderr, "drive: standard output could not be written\n");
            return 2;
        }
    }
    return 0;
}

enum { COUNT = 1 << 12, ROUNDS = 100 };

static double now(void) {
    struct timespec t;
    clock_gettime(CLOCK_MONOTONIC, &t);
    return (double)t.tv_sec * 1e9 + (double)t.tv_nsec;
}

static int timed(void) {
    static number sigma[COUNT], z[COUNT];
    uint64_t seed = 1, sink = 0;
    double best = 1e18;
    for (size_t i = 0; i < COUNT; i++) {
        seed = seed * 6364136223846793005u + 1442695040888963407u;
        sigma[i] = (number)((double)(seed >> 40) / (1 << 24) * 1.6 - 0.8);
        z[i] = (number)((double)(seed >> 12 & 0xffffff) / (1 << 24) * 2.5);
    }
    for (int round = 0; round < ROUNDS; round++) {
        const double before = now();
        for (size_t i = 0; i < COUNT; i++) {
            uint64_t out[3] = {0, 0, 0};
            sink += NEAREST(sigma[i], z[i], out, 3) + out[0];
        }
        const double took = (now() - before) / COUNT;
        best = took < best ? took : best;
    }
    printf("near: " WIDTH ": %.0f ns a call, the best of %d rounds of %d (%u)\n", best, ROUNDS, COUNT,
           (unsigned)(sink & 1));
    return 0;
}

int main(int count, char **words) {
    return count == 2 && !strcmp(words[1], "--time") ? timed() : answer_all();
}
