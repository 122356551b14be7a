// Answers a batch from standard input with the reader and divider of reader.c, as far as it asks for them:
//   BIN files < batch        a batch of tests/files.rs: the lines case, front, whole, read, sums and those of the header, of each case
//   BIN divide < batch       a batch of tests/divide.rs: the lines case, divide, length and the first kept, of each case
//   BIN clocks < paper.sp3   compares clocks and rates in the paper's file with what was worked out by hand, and ends with 1 where one differs
#include <inttypes.h>
#include <stdio.h>
#include <stdlib.h>

#include "reader.c"

enum { MARK = 7777 };

static void *room(size_t count, size_t size) {
    void *p = malloc(count * size + 1);
    if (!p) exit(2);
    return p;
}

static uint8_t *bytes(size_t count) {
    uint8_t *p = room(count, 1);
    if (getchar() != '\n' || fread(p, 1, count, stdin) != count) exit(2);
    return p;
}

static void told(const char *what, sp3_reading_t r) {
    printf("%s %zu %" PRIu64 " %zu |%c|\n", what, r.refusal, r.line, r.length, r.version);
}

static void told_header(const sp3_header_t *h) {
    const sp3_texts_t *t = &h->texts;
    printf("mode %c\nstart8 %" PRIu64 "\nepochs %" PRIu64 "\ninterval8 %" PRIu64 "\n", h->velocity ? 'V' : 'P', h->start8, h->epochs, h->interval8);
    printf("texts |%.5s|%.5s|%.3s|%.4s|\n", (const char *)t->data_used, (const char *)t->coordinates, (const char *)t->orbit,
           (const char *)t->agency);
    printf("type %c\ntime %.3s\nbases %" PRIu64 " %" PRIu64 "\n", h->file_type, (const char *)h->time_system, h->bases.place, h->bases.clock);
    printf("satellites %" PRIu64 "\ncomments %" PRIu64 "\n", h->satellites, h->comments);
}

static uint64_t sum(const uint64_t *list, size_t count) {
    uint64_t s = 0;
    for (size_t i = 0; i < count; i++) s = s * 31 + list[i];
    return s;
}

// rooms of these lengths with a mark in every place, as the judge has them; the sums are over all places
static void read_case(const uint8_t *file, size_t length, const size_t rooms[4]) {
    uint64_t *identifiers = room(rooms[0], 8), *exponents = room(rooms[1], 8), c = 0, d = 0;
    uint8_t *comments = room(rooms[2], 1);
    int64_t *rows = room(rooms[3], 8);
    for (size_t i = 0; i < rooms[0]; i++) identifiers[i] = MARK;
    for (size_t i = 0; i < rooms[1]; i++) exponents[i] = MARK;
    for (size_t i = 0; i < rooms[2]; i++) comments[i] = '#';
    for (size_t i = 0; i < rooms[3]; i++) rows[i] = -7;
    sp3_reading_t r = PLAIN(read)(file, length, identifiers, rooms[0], exponents, rooms[1], comments, rooms[2], rows, rooms[3]);
    told("read", r);
    for (size_t i = 0; i < rooms[2]; i++) c = c * 31 + comments[i];
    for (size_t i = 0; i < rooms[3]; i++) d = (d * 31 + (uint64_t)(rows[i] < 0 ? -rows[i] : rows[i])) * 31 + (rows[i] < 0);
    printf("sums %" PRIu64 " %" PRIu64 " %" PRIu64 " %" PRIu64 "\n", sum(identifiers, rooms[0]), sum(exponents, rooms[1]), c, d);
    if (r.refusal == 0) told_header(&r.header);
    free(identifiers), free(exponents), free(comments), free(rows);
}

// LENGTH, four rooms, and numbers of questions that are left out
static bool file_case(void) {
    size_t n[9];
    for (size_t i = 0; i < 9; i++)
        if (scanf("%zu", n + i) != 1) return false;
    uint8_t *file = bytes(n[0]);
    printf("case %zu\n", n[0]);
    told("front", PLAIN(judge_front)(file, n[0]));
    told("whole", PLAIN(judge)(file, n[0]));
    read_case(file, n[0], n + 1);
    free(file);
    return true;
}

// ROOM, WALK, I, the number of identifiers, LENGTH, and the identifiers
static bool stretch_case(void) {
    size_t n[5], identifier, kept = 0;
    for (size_t i = 0; i < 5; i++)
        if (scanf("%zu", n + i) != 1) return false;
    for (size_t i = 0; i < n[3]; i++)
        if (scanf("%zu", &identifier) != 1) exit(2);
    uint8_t *stretch = bytes(n[4]);
    uint64_t *lengths = room(n[0], 8);
    for (size_t i = 0; i < n[0]; i++) lengths[i] = MARK;
    sp3_division_t d = PLAIN(divide)(stretch, n[4], lengths, n[0]);
    printf("case %zu\ndivide %zu %" PRIu64 " %" PRIu64 " %zu\n", n[4], d.refusal, d.line, d.count, d.rest);
    for (size_t i = 0; i < d.count; i++) printf("length %" PRIu64 "\n", lengths[i]);
    for (size_t i = d.count; i < n[0]; i++) kept += lengths[i] == MARK;
    printf(kept == n[0] - d.count ? "kept\n" : "changed\n");
    free(stretch), free(lengths);
    return true;
}

// What stands from column 47 of a row on, the refusal that it earns, and where there is none the clock that is held.
static const struct {
    const char *columns;
    size_t refusal;
    int64_t held;
} clocks[] = {
    {" 999999.999999", 0, 999999999999},
    {" 999999.000000", 0, 999999999999},
    {" 999999.999998", 0, 999999999999},
    {"0999999.123456", 0, 999999999999},
    {" 999999.      ", 0, 999999999999},
    {"0999999.      ", 0, 999999999999},
    {" 999999.", 0, 999999999999},
    {"0999999.", 0, 999999999999},
    {" 999999.       18 18 18 219", 0, 999999999999},
    {"      0.999999", 0, 999999},
    {" 999998.999999", 0, 999998999999},
    {"0999998.000000", 0, 999998000000},
    {"-999999.000000", 0, -999999000000},
    {"-999999.999999", 0, -999999999999},
    {"-999999.      ", 6, 0},
    {" 999999.00000 ", 6, 0},
    {" 999999.     0", 6, 0},
    {" 999999.0     ", 6, 0},
    {" 999999.  0   ", 6, 0},
    {" 999998.      ", 6, 0},
    {"1000000.      ", 6, 0},
    {"      9.      ", 6, 0},
    {"       .      ", 6, 0},
    {" 999999       ", 6, 0},
    {" 999999", 6, 0},
    {"999999.       ", 6, 0},
    {" 99 999.      ", 6, 0},
    {"              ", 6, 0},
    {"", 6, 0},
    {"1000000.000000", 7, 0},
    {"1999999.000000", 7, 0},
    {" 999999.      x", 5, 0},
};

enum { PAPER = 1215, ROW = PAPER - 65, CLOCK = 46, CLOCKS = sizeof clocks / sizeof *clocks };

// The paper's file with these columns in its row; in mode V in a V row after that.
static size_t with_clock(const uint8_t *paper, const char *columns, bool velocity, uint8_t *made) {
    size_t row = velocity ? ROW + 61 : ROW, wide = strlen(columns);
    memcpy(made, paper, ROW + 61);
    memcpy(made + row, paper + ROW, CLOCK);
    if (velocity) made[2] = made[row] = 'V';
    memcpy(made + row + CLOCK, columns, wide);
    memcpy(made + row + CLOCK + wide, "\nEOF\n", 5);
    return row + CLOCK + wide + 5;
}

static bool clock_right(const uint8_t *paper, size_t k, bool velocity) {
    uint8_t made[2 * PAPER], comments[4 * TEXT];
    uint64_t identifier, exponent;
    int64_t rows[2 * NUMBERS];
    size_t length = with_clock(paper, clocks[k].columns, velocity, made);
    sp3_reading_t r = PLAIN(read)(made, length, &identifier, 1, &exponent, 1, comments, sizeof comments, rows, 2 * NUMBERS);
    if (clocks[k].refusal != 0) return r.refusal == clocks[k].refusal && r.line == (velocity ? 25 : 24);
    return r.refusal == 0 && rows[velocity ? NUMBERS + 3 : 3] == clocks[k].held;
}

static int compare_clocks(void) {
    uint8_t paper[PAPER];
    int wrong = 0;
    if (fread(paper, 1, PAPER, stdin) != PAPER) return 2;
    for (size_t k = 0; k < 2 * CLOCKS; k++) {
        if (clock_right(paper, k / 2, k % 2)) continue;
        printf("|%s| in %c is not read as it must be\n", clocks[k / 2].columns, k % 2 ? 'V' : 'P');
        wrong = 1;
    }
    if (!wrong) printf("reader: %zu clocks and rates, as worked out by hand\n", (size_t)2 * CLOCKS);
    return wrong;
}

int main(int count, char **words) {
    if (count == 2 && strcmp(words[1], "clocks") == 0) return compare_clocks();
    bool (*answer)(void) = count == 2 && strcmp(words[1], "divide") == 0 ? stretch_case : file_case;
    while (answer()) {}
    return 0;
}
