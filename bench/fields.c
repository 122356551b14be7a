// Counts calls of the library's fields beside plain C that judges and writes the same columns, and beside a function that does nothing.
#include <stdbool.h>

#include "count.h"

uint64_t our_read(const uint8_t *s, size_t n);
bool our_write(uint8_t *s, size_t n, bool negative, uint64_t magnitude);
uint64_t our_date(uint64_t year, uint64_t month, uint64_t day);

// blanks, a minus, at least one digit, the point, six digits
__attribute__((noipa)) uint64_t c_read(const uint8_t *s, size_t n) {
    size_t i = 0, first;
    bool negative = false;
    uint64_t v = 0;
    while (i < n && s[i] == ' ') i++;
    if (i < n && s[i] == '-') { negative = true; i++; }
    for (first = i; i < n && s[i] >= '0' && s[i] <= '9'; i++) v = v * 10 + (s[i] - '0');
    if (i == first || n - i != 7 || s[i] != '.') return 6;
    for (i++; i < n; i++) {
        if (s[i] < '0' || s[i] > '9') return 6;
        v = v * 10 + (s[i] - '0');
    }
    return negative && v ? v + 1 : v;
}

// from the right: six places, the point, the digits, the minus, blanks
__attribute__((noipa)) bool c_write(uint8_t *s, size_t n, bool negative, uint64_t m) {
    size_t i = n;
    if (n != 14 || m >= (negative && m ? 1000000000000u : 10000000000000u)) return false;
    negative = negative && m;
    for (int k = 0; k < 6; k++, m /= 10) s[--i] = '0' + m % 10;
    s[--i] = '.';
    do { s[--i] = '0' + m % 10; m /= 10; } while (m);
    if (negative) s[--i] = '-';
    while (i) s[--i] = ' ';
    return true;
}

__attribute__((noipa)) uint64_t no_read(const uint8_t *s, size_t n) { return (void)s, n; }
__attribute__((noipa)) bool no_write(uint8_t *s, size_t n, bool negative, uint64_t m) { return (void)s, (void)n, (void)m, negative; }
__attribute__((noipa)) uint64_t no_date(uint64_t year, uint64_t month, uint64_t day) { return (void)month, (void)day, year; }

enum { FIELDS = 6, ROUNDS = 1000, WIDTH = 14 };

static const char *const good[FIELDS] = {"   5000.000001", " -12345.678901", "      0.000000", " 999999.999999", "-999999.999999", "  20123.456789"};
static const char *const bad[FIELDS] = {"       .500000", "     -0.50000a", "12345 6.789012", "      0.50000 ", "     +0.500000", "- 1234.567890"};

static const char *const *fields;
static bool negative[FIELDS];
static uint64_t magnitude[FIELDS], sum;
static __typeof__(our_read) *reader;
static __typeof__(our_write) *writer;
static __typeof__(our_date) *dater;

static void read_all(void) {
    for (int i = 0; i < ROUNDS * FIELDS; i++) sum += reader((const uint8_t *)fields[i % FIELDS], WIDTH);
}
static void write_all(void) {
    uint8_t out[WIDTH];
    for (int i = 0; i < ROUNDS * FIELDS; i++) sum += writer(out, WIDTH, negative[i % FIELDS], magnitude[i % FIELDS]);
}
static void date_all(void) {
    for (int i = 0; i < ROUNDS * FIELDS; i++) sum += dater(1980 + (unsigned)i % 120, 1 + (unsigned)i % 12, 1 + (unsigned)i % 28);
}

// both sides read and write each field alike, and write again what was read
static int differences(void) {
    int wrong = 0;
    for (int k = 0; k < FIELDS; k++) {
        const uint8_t *s = (const uint8_t *)good[k], *t = (const uint8_t *)bad[k];
        uint8_t x[WIDTH], y[WIDTH];
        uint64_t a = our_read(s, WIDTH);
        negative[k] = memchr(s, '-', WIDTH) != NULL, magnitude[k] = negative[k] ? a - 1 : a;
        wrong += a != c_read(s, WIDTH) || our_read(t, WIDTH) != 6 || c_read(t, WIDTH) != 6;
        wrong += !our_write(x, WIDTH, negative[k], magnitude[k]) || !c_write(y, WIDTH, negative[k], magnitude[k]);
        wrong += memcmp(x, y, WIDTH) != 0 || memcmp(x, s, WIDTH) != 0;
    }
    return wrong;
}

int main(void) {
    static __typeof__(our_read) *const readers[] = {no_read, our_read, c_read};
    static __typeof__(our_write) *const writers[] = {no_write, our_write, c_write};
    static __typeof__(our_date) *const daters[] = {no_date, our_date};
    int wrong = differences();
    for (int k = 0; k < 3; k++) reader = readers[k], fields = good, counted("good", read_all);
    for (int k = 0; k < 3; k++) reader = readers[k], fields = bad, counted("bad", read_all);
    for (int k = 0; k < 3; k++) writer = writers[k], counted("written", write_all);
    for (int k = 0; k < 2; k++) dater = daters[k], counted("date", date_all);
    printf("%s %llu\n", wrong ? "DIFFERENT" : "same", (unsigned long long)sum);
    return wrong != 0;
}
