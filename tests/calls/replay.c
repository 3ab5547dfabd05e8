// The port's judge-lib: answers records of library calls (oracle/README.md) by the port's functions.
//
// Reads standard input, writes standard output. A record is one byte, the function's id, and its inputs, little endian:
// doubles, or singles where it is compiled with SINGLE, and whole numbers of 8 bytes. An answer is the byte 0 and the
// outputs, or a refusal's number alone. Every NaN is written 7ff8000000000000, or 7fc00000. An id that is no function
// and a cut record end the program with a message and status 2. With the word --tally it then writes to standard error
// a line for each function that was called: its id, its calls, and its calls that were refused with 1, 2, 3, 4 and 5;
// 9, for frames that do not meet, is none of judge-lib's.
//
// tests/calls/build compiles it for each width, with a header and a table that it makes from functions.py.
#include <stdbool.h>
#include <stdint.h>
#include <stdio.h>
#include <stdlib.h>
#include <string.h>

#if __BYTE_ORDER__ != __ORDER_LITTLE_ENDIAN__
#error "replay.c copies words as they are: it needs a little-endian machine"
#endif

#ifdef SINGLE
typedef float number;
typedef uint32_t pattern;
static const pattern NOT_A_NUMBER = 0x7fc00000;
#else
typedef double number;
typedef uint64_t pattern;
static const pattern NOT_A_NUMBER = 0x7ff8000000000000;
#endif
enum { WORD = 8, WIDE = sizeof(number) }; // bytes of a whole number and of a number

// A function of the table: the bytes of its record behind the id (the last eight are a list's length, and its numbers
// follow), and its answer's numbers.
struct function {
    const char *name;
    size_t length, numbers;
    uint32_t (*run)(const unsigned char *r, number *out);
    uint32_t (*list)(const number *x, const number *pts, size_t n, number *out, size_t room);
};

static size_t whole(const unsigned char *r) {
    uint64_t n;
    memcpy(&n, r, sizeof n);
    return n;
}

#ifdef SINGLE
#include "calls_f32.h"
#include "table_f32.h"
#else
#include "calls.h"
#include "table.h"
#endif

enum { BUFFER = 1 << 20, MOST_BEFORE_LIST = 16, MOST_IN_LIST = 100000, MOST_NUMBERS = 256, REFUSALS = 5, FRAMES = 9 };

static unsigned char input[BUFFER], output[BUFFER];
static size_t unread, unwritten; // bytes in input and in output
static number list_in[MOST_IN_LIST], list_out[MOST_IN_LIST];
static unsigned long long record, place; // of the record at hand: its number from 1 on, and its first byte
static unsigned long long calls[256], refused[256][REFUSALS + 1];

static void flush(void) {
    if (fwrite(output, 1, unwritten, stdout) != unwritten || fflush(stdout) != 0) {
        fprintf(stderr, "replay: standard output could not be written\n");
        exit(2);
    }
    unwritten = 0;
}

static void stop(const char *what, unsigned long long number) {
    flush();
    fprintf(stderr, "replay: record %llu, at byte %llu: ", record, place);
    fprintf(stderr, what, number);
    fprintf(stderr, "\n");
    exit(2);
}

// Counts a call and adds its answer to the output.
static void answer(unsigned char id, uint32_t status, const number *numbers, size_t n) {
    if (status > REFUSALS && status != FRAMES) stop("the answer has the status %llu, which is no refusal", status);
    calls[id]++;
    if (status <= REFUSALS) refused[id][status]++;
    if (status != 0) n = 0;
    if (BUFFER - unwritten < 1 + WIDE * n) flush();
    output[unwritten++] = (unsigned char)status;
    for (size_t i = 0; i < n; i++, unwritten += WIDE) {
        pattern bits = NOT_A_NUMBER;
        if (numbers[i] == numbers[i]) memcpy(&bits, numbers + i, sizeof bits);
        memcpy(output + unwritten, &bits, sizeof bits);
    }
}

// Answers the record at the front of `at`, of which `n` bytes are there. Returns its length, or 0 if there is more of
// it.
static size_t take(const unsigned char *at, size_t n) {
    const struct function *f = &functions[at[0]];
    if (f->name == NULL) stop("no function has the id %llu", at[0]);
    number x[MOST_BEFORE_LIST], out[MOST_NUMBERS];
    size_t length = 1 + f->length;
    if (n < length) return 0;
    if (f->list == NULL) {
        answer(at[0], f->run(at + 1, out), out, f->numbers);
        return length;
    }
    size_t count = whole(at + length - WORD);
    if (count > MOST_IN_LIST) stop("a list of %llu numbers, more than 100000", count);
    if (n - length < WIDE * count) return 0;
    memcpy(x, at + 1, f->length - WORD);
    memcpy(list_in, at + length, WIDE * count);
    answer(at[0], f->list(x, list_in, count, list_out, count), list_out, count);
    return length + WIDE * count;
}

// Answers the whole records of the input, and moves the rest to its front.
static void feed(void) {
    size_t at = 0;
    while (at < unread) {
        size_t length = take(input + at, unread - at);
        if (length == 0) break;
        at += length, place += length, record++;
    }
    memmove(input, input + at, unread - at);
    unread -= at;
}

static void tally(void) {
    for (int id = 0; id < 256; id++) {
        if (calls[id] == 0) continue;
        fprintf(stderr, "%d %llu", id, calls[id]);
        for (int number = 1; number <= REFUSALS; number++) fprintf(stderr, " %llu", refused[id][number]);
        fprintf(stderr, "\n");
    }
}

int main(int count, char **words) {
    bool tallied = count == 2 && strcmp(words[1], "--tally") == 0;
    if (count > 1 && !tallied) {
        fprintf(stderr, "usage: replay [--tally] < RECORDS > ANSWERS\n");
        return 2;
    }
    record = 1;
    for (;;) {
        size_t more = fread(input + unread, 1, BUFFER - unread, stdin);
        if (more == 0) break;
        unread += more;
        feed();
    }
    if (ferror(stdin)) stop("standard input could not be read", 0);
    if (unread != 0) stop("the record is cut: %llu bytes are there", unread);
    flush();
    if (tallied) tally();
    return 0;
}
