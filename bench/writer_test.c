// Answers the tables of a batch of tests/forms.rs from standard input with the writer of writer.c; its files are left out. `BIN clocks` compares
// tables with clocks on both sides of their bounds with what was worked out by hand, and ends with 1 where one differs.
#include <inttypes.h>
#include <stdio.h>
#include <stdlib.h>

#include "writer.c"

enum { ARGUMENTS = 34, MARK = 7 };

static uint64_t number(void) {
    uint64_t v;
    if (scanf("%" SCNu64, &v) != 1 || getchar() < 0) exit(2);
    return v;
}

static void *room(size_t count, size_t size) {
    void *p = malloc(count * size + 1);
    if (!p) exit(2);
    return p;
}

static uint64_t *numbers(size_t count) {
    uint64_t *list = room(count, 8);
    for (size_t i = 0; i < count; i++) list[i] = number();
    return list;
}

static int64_t *signed_numbers(size_t count) {
    int64_t *list = room(count, 8);
    for (size_t i = 0; i < count; i++)
        if (scanf("%" SCNd64, list + i) != 1 || getchar() < 0) exit(2);
    return list;
}

static sp3_header_t head_of(const uint64_t n[ARGUMENTS], uint64_t start) {
    sp3_header_t h = {.velocity = n[0] == 'V', .start8 = start, .epochs = n[7], .interval8 = n[8], .satellites = n[9], .comments = n[10],
                      .file_type = (uint8_t)n[11], .bases = {n[15], n[16]}};
    for (size_t i = 0; i < 17; i++) ((uint8_t *)&h.texts)[i] = (uint8_t)n[17 + i];
    for (size_t i = 0; i < 3; i++) h.time_system[i] = (uint8_t)n[12 + i];
    return h;
}

// the start in 10^-8 s since MJD 0; 0 where it is no date within the bounds or no time of day
static uint64_t start_of(const uint64_t n[ARGUMENTS]) {
    uint64_t day = FIRST_DAY - 5;
    if (n[1] < 1980 || n[1] > 2099 || n[2] < 1 || n[2] > 12 || n[3] < 1 || n[3] > month_days(n[1], n[2])) return 0;
    if (n[4] > 23 || n[5] > 59 || n[6] >= 60 * SECOND) return 0;
    for (uint64_t year = 1980; year < n[1]; year++) day += year_days(year);
    for (uint64_t month = 1; month < n[2]; month++) day += month_days(n[1], month);
    day += n[3] - 1;
    return day < FIRST_DAY ? 0 : day * DAY + (3600 * n[4] + 60 * n[5]) * SECOND + n[6];
}

static unsigned made(const uint64_t n[ARGUMENTS]) {
    sp3_header_t h = head_of(n, start_of(n));
    if ((n[0] != 'P' && n[0] != 'V') || !letters_listed(&h)) return 6;
    return h.start8 == 0 || !numbers_bounded(&h) ? 7 : 0;
}

static void table(bool older, sp3_header_t h, const struct lists *t, size_t size) {
    uint8_t *out = room(size, 1);
    size_t kept = 0;
    memset(out, MARK, size);
    sp3_measured_t w = (older ? PLAIN(write_c) : PLAIN(write))(h, t->identifiers, t->identifier_count, t->exponents, t->exponent_count, t->comments,
                                                               t->comment_count, t->rows, t->row_count, out, size);
    printf("write %zu %zu\n", w.refusal, w.length);
    fwrite(out, 1, w.length, stdout);
    for (size_t i = w.length; i < size; i++) kept += out[i] == MARK;
    printf(kept == size - w.length ? "kept\n" : "changed\n");
    free(out);
}

static void table_case(bool older, size_t size) {
    uint64_t n[ARGUMENTS];
    for (size_t i = 0; i < ARGUMENTS; i++) n[i] = number();
    uint64_t start = start_of(n), field = number(), value = number();
    unsigned refusal = made(n);
    struct lists t = {.identifier_count = number()};
    t.exponent_count = number(), t.comment_count = number(), t.row_count = number();
    uint64_t *identifiers = numbers(t.identifier_count), *exponents = numbers(t.exponent_count);
    int64_t *rows = signed_numbers(t.row_count);
    uint8_t *comments = room(t.comment_count, 1);
    if (fread(comments, 1, t.comment_count, stdin) != t.comment_count) exit(2);
    t.identifiers = identifiers, t.exponents = exponents, t.comments = comments, t.rows = rows;
    printf("new %u\n", refusal);
    if (refusal == 0) {
        if (field < ARGUMENTS) n[field] = value;
        table(older, head_of(n, field == 1 ? value : start), &t, size);
    }
    free(identifiers), free(exponents), free(comments), free(rows);
}

// A clock or rate of a table, and how it is written; nothing where the table is not valid.
static const struct {
    int64_t held;
    const char *columns;
} clocks[] = {
    {999999999999, " 999999.999999"},
    {999998999999, " 999998.999999"},
    {999998000000, " 999998.000000"},
    {0, "      0.000000"},
    {-1, "     -0.000001"},
    {-999999000000, "-999999.000000"},
    {-999999999999, "-999999.999999"},
    {999999000000, NULL},
    {999999000001, NULL},
    {999999500000, NULL},
    {999999999998, NULL},
    {1000000000000, NULL},
    {-1000000000000, NULL},
    {INT64_MAX, NULL},
    {INT64_MIN, NULL},
};

enum { CLOCKS = sizeof clocks / sizeof *clocks, ROOM = 2000, ROW = 61, CLOCK = 46, WIDTH = 14 };

// A row with this clock; x and y are within their bounds and past those of a clock, and nothing else is known.
static void fill_row(int64_t *row, int64_t clock) {
    const int64_t numbers[] = {999999000000, 999999999998, -999999999999, clock, UNKNOWN, UNKNOWN, UNKNOWN, UNKNOWN, 0, 0, 0, 0, 0};
    memcpy(row, numbers, sizeof numbers);
    for (size_t i = NOTE + 1; i < NUMBERS; i++) row[i] = UNNOTED;
}

// The clock stands in the last row of one satellite and one epoch.
static bool clock_right(size_t k, bool velocity) {
    sp3_header_t h = {.velocity = velocity, .start8 = 56385 * DAY, .epochs = 1, .interval8 = 900 * SECOND, .satellites = 1, .comments = 4,
                      .file_type = 'G', .time_system = {'G', 'P', 'S'}};
    uint64_t identifier = 7107, exponent = 0;
    int64_t rows[2 * NUMBERS];
    uint8_t comments[4 * TEXT], out[ROOM];
    memset(&h.texts, ' ', sizeof h.texts);
    memset(comments, ' ', sizeof comments);
    fill_row(rows, 0);
    fill_row(velocity ? rows + NUMBERS : rows, clocks[k].held);
    sp3_measured_t w = PLAIN(write)(h, &identifier, 1, &exponent, 1, comments, sizeof comments, rows, 2 * NUMBERS, out, ROOM);
    if (!clocks[k].columns) return w.refusal == 13;
    return w.refusal == 0 && memcmp(out + w.length - 4 - ROW + CLOCK, clocks[k].columns, WIDTH) == 0;
}

static int compare_clocks(void) {
    int wrong = 0;
    for (size_t k = 0; k < 2 * CLOCKS; k++) {
        if (clock_right(k / 2, k % 2)) continue;
        printf("%" PRId64 " in %c is not written as it must be\n", clocks[k / 2].held, k % 2 ? 'V' : 'P');
        wrong = 1;
    }
    if (!wrong) printf("writer: %zu clocks and rates, as worked out by hand\n", (size_t)2 * CLOCKS);
    return wrong;
}

int main(int count, char **words) {
    size_t kind, version, size, length;
    if (count == 2 && strcmp(words[1], "clocks") == 0) return compare_clocks();
    while (scanf("%zu %zu %zu %zu", &kind, &version, &size, &length) == 4) {
        if (getchar() != '\n') return 2;
        if (kind == 1) {
            printf("table %zu %zu\n", size, length);
            table_case(version == 'c', size);
        } else {
            for (size_t i = 0; i < length; i++) getchar();
        }
    }
    return 0;
}
