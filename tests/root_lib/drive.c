// Calls the proved square root from C.
//
//     drive           reads patterns of doubles from standard input, 8 bytes each, little endian; writes five words for
//                     each to standard output: the refusal's number or 0, the root as an integer, the remainder, the
//                     exponent, and the pattern of the nearest double
//     drive --time    prints how many ns a call takes beside the machine's sqrt, for independent calls and for a chain
//                     of dependent ones, the best of some rounds
#include <math.h>
#include <stdint.h>
#include <stdio.h>
#include <string.h>
#include <time.h>

#if __BYTE_ORDER__ != __ORDER_LITTLE_ENDIAN__
#error "drive.c copies words as they are: it needs a little-endian machine"
#endif

uint32_t root_call(double z, uint64_t out[3], int64_t power[1]);

static double of_bits(uint64_t b) {
    double z;
    memcpy(&z, &b, sizeof z);
    return z;
}

static int answer_all(void) {
    static uint64_t in[4096], out[4096][5];
    size_t n;
    while ((n = fread(in, sizeof in[0], 4096, stdin)) > 0) {
        for (size_t i = 0; i < n; i++) {
            uint64_t words[3] = {0, 0, 0};
            int64_t power[1] = {0};
            out[i][0] = root_call(of_bits(in[i]), words, power);
            out[i][1] = words[0];
            out[i][2] = words[1];
            memcpy(&out[i][3], power, sizeof power);
            out[i][4] = words[2];
        }
        if (fwrite(out, sizeof out[0], n, stdout) != n) {
            fprintf(stderr, "drive: standard output could not be written\n");
            return 2;
        }
    }
    return 0;
}

enum { COUNT = 1 << 16, ROUNDS = 300 };
static double inputs[COUNT];
static volatile uint64_t sink;

static double now(void) {
    struct timespec t;
    clock_gettime(CLOCK_MONOTONIC, &t);
    return (double)t.tv_sec * 1e9 + (double)t.tv_nsec;
}

// The root's pattern by the proved function, or by the machine.
static uint64_t by_call(double z) {
    uint64_t words[3] = {0, 0, 0};
    int64_t power[1];
    root_call(z, words, power);
    return words[2];
}

static uint64_t by_machine(double z) {
    double x = sqrt(z);
    uint64_t b;
    memcpy(&b, &x, sizeof b);
    return b;
}

// ns for each call over the doubles of `inputs`; in a chain each call waits for the one before.
static double timed(uint64_t (*f)(double), int chained) {
    double best = 1e300;
    for (int round = 0; round < ROUNDS; round++) {
        uint64_t sum = 0;
        double began = now();
        for (int i = 0; i < COUNT; i++) sum += f(chained ? inputs[i] + (double)(sum >> 63) : inputs[i]);
        double took = (now() - began) / COUNT;
        if (took < best) best = took;
        sink = sum;
    }
    return best;
}

int main(int argc, char **argv) {
    if (argc == 1) return answer_all();
    if (argc != 2 || strcmp(argv[1], "--time") != 0) {
        fprintf(stderr, "drive: expected nothing or --time\n");
        return 2;
    }
    uint64_t state = 1;
    for (int i = 0; i < COUNT; i++) {
        state = state * 6364136223846793005u + 1442695040888963407u;
        inputs[i] = of_bits((state >> 12) | (uint64_t)(i % 2046 + 1) << 52);
    }
    printf("stream: %.1f ns a call, the machine's sqrt %.1f ns\n", timed(by_call, 0), timed(by_machine, 0));
    printf("chain:  %.1f ns a call, the machine's sqrt %.1f ns\n", timed(by_call, 1), timed(by_machine, 1));
    return 0;
}
