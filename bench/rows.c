// Counts calls of the library's judging of a P line and of taking its row, beside plain C that does the same and a function that does nothing.
#include <stdbool.h>

#include "count.h"

size_t our_judge(const uint8_t line[80]);
uint64_t our_take(const uint8_t *line, size_t n);

static size_t lower(size_t a, size_t b) { return !b ? a : !a ? b : a < b ? a : b; }
static size_t fault(size_t number, size_t column) { return number * 128 + column; }

// blanks, a minus, at least one digit, the point, six digits; at most twelve nines
static size_t decimal(const uint8_t *s, size_t column, bool *negative, uint64_t *value) {
    size_t i = 0, first;
    uint64_t v = 0;
    *negative = false;
    while (i < 14 && s[i] == ' ') i++;
    if (i < 14 && s[i] == '-') { *negative = true; i++; }
    for (first = i; i < 14 && s[i] >= '0' && s[i] <= '9'; i++) v = v * 10 + (s[i] - '0');
    if (i == first || i != 7 || s[i] != '.') return fault(6, column);
    for (i++; i < 14; i++) {
        if (s[i] < '0' || s[i] > '9') return fault(6, column);
        v = v * 10 + (s[i] - '0');
    }
    *negative = *negative && v;
    *value = v;
    return v > 999999999999u ? fault(7, column) : 0;
}

// six nines without a minus, the point and blanks
static bool bare(const uint8_t *s) {
    size_t i = 0;
    uint64_t v = 0;
    while (i < 7 && s[i] == ' ') i++;
    for (; i < 7 && s[i] >= '0' && s[i] <= '9'; i++) v = v * 10 + (s[i] - '0');
    return i == 7 && v == 999999 && memcmp(s + 7, ".      ", 7) == 0;
}

// such a decimal, of which six nines without a minus are absent, or bare ones
static size_t clock_at(const uint8_t *s, size_t column, bool *negative, uint64_t *value) {
    size_t found = decimal(s, column, negative, value);
    bool absent = found ? bare(s) : !*negative && *value >= 999999000000u;
    if (absent) *value = 999999999999u;
    return absent ? 0 : found;
}

// blank, or blanks and at least one digit
static size_t exponent(const uint8_t *s, size_t n, size_t column, uint64_t *value) {
    size_t i = 0;
    while (i < n && s[i] == ' ') i++;
    if (i == n) { *value = 1000; return 0; }
    for (*value = 0; i < n; i++) {
        if (s[i] < '0' || s[i] > '9') return fault(6, column);
        *value = *value * 10 + (s[i] - '0');
    }
    return 0;
}

static size_t blank(const uint8_t *s, size_t column) { return s[column - 1] == ' ' ? 0 : fault(5, column); }
static size_t flag(const uint8_t *s, size_t column, uint8_t letter) {
    return s[column - 1] == letter || s[column - 1] == ' ' ? 0 : fault(6, column);
}

struct row { uint64_t satellite, number[4], spread[4]; bool negative[4], flag[4]; };

static size_t read_row(const uint8_t *s, struct row *r) {
    static const size_t at[4] = {62, 65, 68, 71}, wide[4] = {2, 2, 2, 3}, unused[4] = {61, 64, 67, 70};
    size_t low = s[0] == 'P' ? 0 : fault(4, 0);
    bool named = s[1] >= 'A' && s[1] <= 'Z' && s[2] >= '0' && s[2] <= '9' && s[3] >= '0' && s[3] <= '9';
    uint64_t number = (s[2] - '0') * 10 + (s[3] - '0');
    low = lower(low, !named ? fault(6, 2) : number == 0 ? fault(7, 2) : 0);
    r->satellite = s[1] * 100 + number;
    for (int k = 0; k < 3; k++) low = lower(low, decimal(s + 4 + 14 * k, 5 + 14 * k, &r->negative[k], &r->number[k]));
    low = lower(low, clock_at(s + 46, 47, &r->negative[3], &r->number[3]));
    for (int k = 0; k < 4; k++) {
        low = lower(low, blank(s, unused[k]));
        low = lower(low, exponent(s + at[k] - 1, wide[k], at[k], &r->spread[k]));
    }
    low = lower(lower(low, blank(s, 74)), flag(s, 75, 'E'));
    low = lower(lower(low, flag(s, 76, 'P')), blank(s, 77));
    low = lower(lower(low, blank(s, 78)), flag(s, 79, 'M'));
    low = lower(low, flag(s, 80, 'P'));
    r->flag[0] = s[74] == 'E', r->flag[1] = s[75] == 'P', r->flag[2] = s[78] == 'M', r->flag[3] = s[79] == 'P';
    return low;
}

__attribute__((noipa)) size_t c_judge(const uint8_t *s) {
    struct row r;
    return read_row(s, &r);
}

__attribute__((noipa)) uint64_t c_take(const uint8_t *s, size_t n) {
    struct row r;
    uint64_t sum = 0;
    bool any = false;
    (void)n;
    read_row(s, &r);
    for (int k = 0; k < 4; k++) {
        sum += r.number[k] % 4294967296u + r.spread[k] % 4096;
        any |= r.negative[k] | r.flag[k];
    }
    return sum + r.satellite % 16384 + any;
}

__attribute__((noipa)) size_t no_judge(const uint8_t *s) { return *s; }
__attribute__((noipa)) uint64_t no_take(const uint8_t *s, size_t n) { return *s + n; }

enum { LINES = 4, ROUNDS = 1000, WIDTH = 80 };

static const char *const good[LINES] = {
    "PG01   5783.206741 -18133.044484 -18510.756016     12.734450 18 18 18 219 EP  MP",
    "PR24 -12345.678901  25000.000001      0.000000 999999.999999                    ",
    "PE07      0.000000      0.000000      0.000000 999999.999999 99 99 99 999       ",
    "PC33  20123.456789 -20123.456789   -123.000001     -0.000001  0  1  9   0     M ",
};
static const char *const bad[LINES] = {
    "PG01   5783.206741 -18133.04448x -18510.756016     12.734450 18 18 18 219 EP  MP",
    "PG00 -12345.678901  25000.000001      0.000000 999999.999999                    ",
    "PE071000000.000000      0.000000      0.000000 999999.999999 99 9a 99 999       ",
    "PC33  20123.456789 -20123.456789   -123.000001     -0.000001 .0  1  9   0    xM ",
};

// clocks near six nines: compared and not counted
static const char *const clocks[] = {
    "PR24 -12345.678901  25000.000001      0.000000 999999.                          ",
    "PR24 -12345.678901  25000.000001      0.0000000999999.123456                    ",
    "PR24 -12345.678901  25000.000001      0.000000-999999.000000                    ",
    "PR24 -12345.678901  25000.000001      0.000000 999998.999999                    ",
    "PR24 -12345.678901  25000.000001      0.000000 999999.     0                    ",
    "PR24 -12345.678901  25000.000001      0.000000-999999.                          ",
    "PR24 -12345.678901  25000.000001      0.0000001000000.000000                    ",
};

static const char *const *lines;
static uint64_t sum;
static __typeof__(our_judge) *judge;
static __typeof__(our_take) *take;

static void judge_all(void) {
    for (int i = 0; i < ROUNDS * LINES; i++) sum += judge((const uint8_t *)lines[i % LINES]);
}
static void take_all(void) {
    for (int i = 0; i < ROUNDS * LINES; i++) sum += take((const uint8_t *)lines[i % LINES], WIDTH);
}

// both sides name the same fault, or none, and take the same row
static int differences(void) {
    int wrong = 0;
    for (int k = 0; k < LINES; k++) {
        const uint8_t *s = (const uint8_t *)good[k], *t = (const uint8_t *)bad[k];
        wrong += our_judge(s) != 0 || c_judge(s) != 0 || our_judge(t) != c_judge(t) || our_judge(t) == 0 || our_take(s, WIDTH) != c_take(s, WIDTH);
    }
    for (size_t k = 0; k < sizeof clocks / sizeof *clocks; k++) {
        const uint8_t *s = (const uint8_t *)clocks[k];
        wrong += our_judge(s) != c_judge(s) || (our_judge(s) == 0 && our_take(s, WIDTH) != c_take(s, WIDTH));
    }
    return wrong;
}

int main(void) {
    static __typeof__(our_judge) *const judges[] = {no_judge, our_judge, c_judge};
    static __typeof__(our_take) *const takes[] = {no_take, our_take, c_take};
    int wrong = differences();
    for (int k = 0; k < 3; k++) judge = judges[k], lines = good, counted("good", judge_all);
    for (int k = 0; k < 3; k++) judge = judges[k], lines = bad, counted("bad", judge_all);
    for (int k = 0; k < 3; k++) take = takes[k], lines = good, counted("taken", take_all);
    printf("%s %llu\n", wrong ? "DIFFERENT" : "same", (unsigned long long)sum);
    return wrong != 0;
}
