/* The order of tangents through the C functions. `compare` reads pairs of tangents, 14 patterns each, and writes the
 * order of each pair, a word. `sort` reads lists, each a count and as many patterns, and writes for each what the
 * function returns and the list afterwards. `time` measures how long 1,024 tangents take, beside the C library's qsort
 * with the same order. */
#include "sim3.h"
#include <inttypes.h>
#include <stdio.h>
#include <stdlib.h>
#include <string.h>
#include <time.h>

enum { TANGENT = 7, MOST = 1024, NUMBERS = TANGENT * MOST, CAPACITY = 1 << 16, ROUNDS = 300 };

static uint64_t list[CAPACITY], start[NUMBERS], check[NUMBERS];

static size_t words(uint64_t *to, size_t count) { return fread(to, 8, count, stdin); }

static int compare(void) {
    uint64_t pair[2 * TANGENT];
    while (words(pair, 2 * TANGENT) == 2 * TANGENT) {
        int64_t order = 99;
        if (sim3_compare_tangents(pair, TANGENT, pair + TANGENT, TANGENT, &order, 1)) return 1;
        fwrite(&order, 8, 1, stdout);
    }
    return 0;
}

static int sort(void) {
    uint64_t count;
    while (words(&count, 1) == 1) {
        if (count > CAPACITY || words(list, count) != count) return 1;
        uint64_t status = sim3_sort_tangents(list, count);
        fwrite(&status, 8, 1, stdout);
        fwrite(list, 8, count, stdout);
    }
    return 0;
}

/* ---- times */

static int by_key(const void *a, const void *b) {
    const uint64_t *x = a, *y = b;
    for (int i = 0; i < TANGENT; i++) {
        if (x[i] != y[i]) {
            uint64_t p = x[i] >> 63 ? ~x[i] : x[i] | 1ull << 63, q = y[i] >> 63 ? ~y[i] : y[i] | 1ull << 63;
            return p < q ? -1 : 1;
        }
    }
    return 0;
}

static uint64_t random_bits(void) {
    static uint64_t s = 88172645463325252ull;
    s ^= s << 13;
    s ^= s >> 7;
    return s ^= s << 17;
}

static void fill(const char *kind) {
    for (int i = 0; i < MOST; i++) {
        for (int j = 0; j < TANGENT; j++) {
            double x = (double)(int64_t)random_bits() * 0x1p-62;
            memcpy(&start[i * TANGENT + j], &x, 8);
            if (!strcmp(kind, "first six alike") && j < 6) start[i * TANGENT + j] = start[j];
            if (!strcmp(kind, "all alike")) start[i * TANGENT + j] = start[j];
        }
    }
    if (!strcmp(kind, "in order") || !strcmp(kind, "reversed")) qsort(start, MOST, 8 * TANGENT, by_key);
    if (!strcmp(kind, "reversed")) {
        for (int i = 0; i < MOST / 2; i++) {
            uint64_t t[TANGENT], *a = start + i * TANGENT, *b = start + (MOST - 1 - i) * TANGENT;
            memcpy(t, a, sizeof t), memcpy(a, b, sizeof t), memcpy(b, t, sizeof t);
        }
    }
}

static double now(void) {
    struct timespec t;
    clock_gettime(CLOCK_MONOTONIC, &t);
    return (double)t.tv_sec * 1e6 + (double)t.tv_nsec * 1e-3;
}

static double best(int ours) {
    double least = 1e30;
    for (int round = 0; round < ROUNDS; round++) {
        memcpy(list, start, sizeof start);
        double from = now();
        if (ours) sim3_sort_tangents(list, NUMBERS);
        else qsort(list, MOST, 8 * TANGENT, by_key);
        double took = now() - from;
        if (took < least) least = took;
    }
    return least;
}

static int timed(void) {
    const char *kinds[] = {"random", "first six alike", "in order", "reversed", "all alike"};
    for (int k = 0; k < 5; k++) {
        fill(kinds[k]);
        double ours = best(1);
        memcpy(check, list, sizeof check);
        double theirs = best(0);
        if (memcmp(check, list, sizeof check)) return 1;
        printf("%-16s %6.1f us, qsort %6.1f us\n", kinds[k], ours, theirs);
    }
    return 0;
}

int main(int count, char **word) {
    const char *what = count == 2 ? word[1] : "";
    return !strcmp(what, "compare") ? compare() : !strcmp(what, "sort") ? sort() : !strcmp(what, "time") ? timed() : 2;
}
