/* Answers as text. */
#include <inttypes.h>
#include <math.h>
#include <stdio.h>

#include "doors.h"

void value(uint64_t n) { printf(" %" PRIu64, n); }

void signed_value(int64_t n) { printf(" %" PRId64, n); }

/* The whole number that a double is, where it is one of 64 bits; else 0. */
static int64_t whole_of(double x) { return x >= -9223372036854775808.0 && x < 9223372036854775808.0 ? (int64_t)x : 0; }

void float_value(double x) {
    int64_t whole = whole_of(x);
    signed_value(whole);
    mark((double)whole != x || (whole == 0 && signbit(x)));
}

void absent_float(double x) {
    fputs(" absent", stdout);
    mark(!isnan(x));
}

void bytes_out(const uint8_t *bytes, size_t count) { fwrite(bytes, 1, count, stdout); }

void identifier_out(uint64_t identifier) {
    printf("%c%" PRIu64 "%" PRIu64, (int)(identifier / 100 % 256), identifier % 100 / 10, identifier % 10);
}

void version_out(uint8_t letter) { printf(" |%c|\n", letter); }

void mark(bool wrong) {
    if (wrong) putchar('?');
}

void check(bool holds, const char *what) {
    if (!holds) printf("wrong: %s\n", what);
}
