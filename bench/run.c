// Runs the library and the plain C, built at -O2 and at -O3, over one file of bench/file.awk, each operation by each of these three sides, and fails
// where they don't answer the same:
//   run count FILE [COPIES]              with counts; the stretch that is divided is so many copies of the file
//   run time FILE                        prints the least time of each, in ns, the sides taking turns
//   run stack FILE                       prints how many bytes of its stack each touches
//   run altered FILE BYTES NUMBERS       reads, divides and writes again with one byte, then one number altered at a time; ours and -O2 alone
#include <stdlib.h>
#include <time.h>

#include "count.h"
#define PLAIN(name) o2_##name
#include "plain.h"
#undef PLAIN
#define PLAIN(name) o3_##name
#include "plain.h"

enum { BYTES = 1 << 22, COPIES = 16, MARK = 7, TURNS = 15 };
enum { SATELLITES = SP3_MOST_SATELLITES, COMMENTS = 16 * SP3_COMMENT_WIDTH, ROWS = 36000 * SP3_ROW_WIDTH };

static const struct side {
    __typeof__(sp3_judge) *judge;
    __typeof__(sp3_read) *read;
    __typeof__(sp3_write) *write;
    __typeof__(sp3_divide) *divide;
} sides[] = {
    {sp3_judge, sp3_read, sp3_write, sp3_divide},
    {o2_judge, o2_read, o2_write, o2_divide},
    {o3_judge, o3_read, o3_write, o3_divide},
};

enum { OURS, O2, SIDES = sizeof sides / sizeof *sides };

// what a side answered, and what was lent to it
static struct answers {
    sp3_reading_t judged, read;
    sp3_measured_t written;
    sp3_division_t divided;
    uint64_t identifiers[SATELLITES], exponents[SATELLITES], lengths[COPIES];
    int64_t rows[ROWS];
    uint8_t comments[COMMENTS], out[BYTES];
} answers[SIDES];

static uint8_t stretch[BYTES];
static size_t length, copies = 1, room = BYTES;
static const struct side *side = sides;
static struct answers *given = answers;

static void of_side(int k) { side = sides + k, given = answers + k; }

// ---- the operations

static void judge_file(void) { given->judged = side->judge(stretch, length); }

static void read_file(void) {
    given->read = side->read(stretch, length, given->identifiers, SATELLITES, given->exponents, SATELLITES, given->comments, COMMENTS, given->rows,
                             ROWS);
}

static void write_table(void) {
    given->written = side->write(given->read.header, given->identifiers, SATELLITES, given->exponents, SATELLITES, given->comments, COMMENTS,
                                 given->rows, ROWS, given->out, room);
}

static void rewrite_file(void) {
    read_file();
    write_table();
}

static void divide_stretch(void) { given->divided = side->divide(stretch, copies * length, given->lengths, COPIES); }

// the library alone: the form of the table measured, which the C does as a part of writing
static void measure_table(void) {
    sp3_measured_t measured = sp3_form_length(given->read.header, given->identifiers, SATELLITES, given->exponents, SATELLITES, given->comments,
                                              COMMENTS, given->rows, ROWS);
    if (measured.refusal != 0 || measured.length != given->written.length) exit(3);
}

// the library alone: all rows of the file, one by one, as floats
static void walk_rows(void) {
    static uint64_t identifiers[SATELLITES];
    sp3_reading_t begun = sp3_begin(stretch, length, identifiers, SATELLITES);
    sp3_row_walk_t walk = sp3_first_row();
    uint64_t rows = 0;
    for (;;) {
        sp3_row_step_t step = sp3_next_row(stretch, length, identifiers, begun.header.satellites, walk);
        if (step.refusal != 0 || step.end) break;
        walk = step.next, rows++;
    }
    if (rows != begun.header.satellites * begun.header.epochs) exit(3);
}

static const struct operation {
    const char *name;
    void (*run)(void);
    int sides;
} operations[] = {
    {"judge", judge_file, SIDES},     {"read", read_file, SIDES},        {"write", write_table, SIDES}, {"measure", measure_table, 1},
    {"rewrite", rewrite_file, SIDES}, {"divide", divide_stretch, SIDES}, {"walk", walk_rows, 1},
};

enum { OPERATIONS = sizeof operations / sizeof *operations };

// ---- the same answers

static bool same_header(const sp3_header_t *a, const sp3_header_t *b) {
    return a->velocity == b->velocity && a->start8 == b->start8 && a->epochs == b->epochs && a->interval8 == b->interval8
        && memcmp(&a->texts, &b->texts, sizeof a->texts) == 0 && a->satellites == b->satellites && a->comments == b->comments
        && a->file_type == b->file_type && memcmp(a->time_system, b->time_system, 3) == 0 && a->bases.place == b->bases.place
        && a->bases.clock == b->bases.clock;
}

static bool same_reading(const sp3_reading_t *a, const sp3_reading_t *b) {
    return a->refusal == b->refusal && a->line == b->line && a->length == b->length && a->version == b->version
        && (a->refusal != 0 || same_header(&a->header, &b->header));
}

// every answer, and every lent place
static bool same(const struct answers *a, const struct answers *b) {
    return same_reading(&a->judged, &b->judged) && same_reading(&a->read, &b->read) && a->written.refusal == b->written.refusal
        && a->written.length == b->written.length && a->divided.count == b->divided.count && a->divided.rest == b->divided.rest
        && a->divided.refusal == b->divided.refusal && a->divided.line == b->divided.line
        && memcmp(a->identifiers, b->identifiers, sizeof a->identifiers) == 0 && memcmp(a->exponents, b->exponents, sizeof a->exponents) == 0
        && memcmp(a->lengths, b->lengths, sizeof a->lengths) == 0 && memcmp(a->rows, b->rows, sizeof a->rows) == 0
        && memcmp(a->comments, b->comments, sizeof a->comments) == 0 && memcmp(a->out, b->out, sizeof a->out) == 0;
}

// The form of a file of bench/file.awk is the file with the blanks before each LF cut.
static bool is_cut(const uint8_t *form, size_t count) {
    static uint8_t cut[BYTES];
    size_t n = 0;
    for (size_t i = 0; i < length; i++) {
        while (stretch[i] == '\n' && n > 0 && cut[n - 1] == ' ') n--;
        cut[n++] = stretch[i];
    }
    return n == count && memcmp(form, cut, n) == 0;
}

// What every side must have answered by now: the file is accepted, and is as often in the stretch as it was copied.
static bool right(void) {
    bool all = true;
    for (int k = 0; k < SIDES; k++) all = all && same(answers, answers + k);
    for (size_t i = 0; i < copies; i++) all = all && answers->lengths[i] == length;
    return all && answers->read.refusal == 0 && answers->divided.count == copies && is_cut(answers->out, answers->written.length);
}

// ---- what is asked of this program

static void count_all(void) {
    char name[40];
    for (int i = 0; i < OPERATIONS; i++)
        for (int k = 0; k < operations[i].sides; k++) {
            snprintf(name, sizeof name, "%s %d", operations[i].name, k);
            of_side(k);
            counted(name, operations[i].run);
        }
    printf("bytes file %zu\nbytes divide %zu\n", length, copies * length);
    printf("bytes measure %zu\nbytes write %zu\n", answers->written.length, answers->written.length);
}

static uint64_t now(void) {
    struct timespec t;
    clock_gettime(CLOCK_MONOTONIC, &t);
    return (uint64_t)t.tv_sec * 1000000000 + (uint64_t)t.tv_nsec;
}

static void time_operation(const struct operation *o) {
    uint64_t least[SIDES];
    memset(least, 0xff, sizeof least);
    for (int turn = 0; turn < TURNS; turn++)
        for (int k = 0; k < o->sides; k++) {
            of_side(k);
            uint64_t from = now();
            o->run();
            uint64_t took = now() - from;
            if (took < least[k]) least[k] = took;
        }
    for (int k = 0; k < o->sides; k++) printf("time %s %d %llu\n", o->name, k, (unsigned long long)least[k]);
}

static void stack_of(const struct operation *o) {
    for (int k = 0; k < o->sides; k++) {
        of_side(k);
        printf("stack %s %d %zu\n", o->name, k, touched(o->run) - touched(nothing));
    }
}

static uint64_t random_below(uint64_t bound) {
    static uint64_t seed = 20130403;
    seed = seed * 16807 % 2147483647;
    return seed % bound;
}

// ours and the C at -O2 do what is given; whether they differ then
static bool differ(void (*first)(void), void (*second)(void)) {
    for (int k = OURS; k <= O2; k++) {
        of_side(k);
        first();
        second();
    }
    return !same(answers + OURS, answers + O2);
}

// One byte altered at a time, half of them in the header: both sides refuse with the same number at the same line, or accept and fill the same.
static size_t altered_bytes(size_t count) {
    size_t different = 0;
    for (size_t i = 0; i < count; i++) {
        size_t spot = random_below(i % 2 ? length : 1500);
        uint8_t before = stretch[spot];
        stretch[spot] = i % 8 ? (uint8_t)"0123456789 -.EPMGc/*+\nF"[random_below(23)] : (uint8_t)random_below(256);
        different += differ(read_file, divide_stretch);
        stretch[spot] = before;
    }
    return different;
}

// One number of the rows altered at a time, and the room in every fourth turn: both sides write the same, or nothing both of them.
static size_t altered_numbers(size_t count) {
    static const int64_t values[] = {0, 1, -1, 2, 99, 100, 999, 1000, 1001, -500000, 999999999999, -999999999999, 1000000000000, INT64_MIN,
                                     999998999999, 999999000000, 999999999998, 9999, 10000, 9999999, 10000000, -9999999, -10000000, SP3_UNNOTED,
                                     -SP3_UNNOTED};
    size_t different = differ(read_file, write_table), needed = answers->written.length;
    for (size_t i = 0; i < count; i++) {
        size_t cell = random_below(SP3_ROW_WIDTH * answers->read.header.epochs * answers->read.header.satellites);
        int64_t before = answers->rows[cell];
        answers[OURS].rows[cell] = answers[O2].rows[cell] = values[random_below(sizeof values / sizeof *values)];
        room = i % 4 ? BYTES : needed - 1 + random_below(3);
        different += differ(write_table, nothing);
        answers[OURS].rows[cell] = answers[O2].rows[cell] = before;
    }
    return different;
}

static bool load(const char *name) {
    FILE *from = fopen(name, "rb");
    if (!from) return false;
    length = fread(stretch, 1, BYTES, from);
    fclose(from);
    for (size_t k = 1; k < copies && (k + 1) * length <= BYTES; k++) memcpy(stretch + k * length, stretch, length);
    memset(answers, MARK, sizeof answers);
    return length > 0 && copies <= COPIES && copies * length < BYTES;
}

int main(int count, char **words) {
    const char *what = count > 2 ? words[1] : "";
    bool asked = strcmp(what, "count") == 0, alter = strcmp(what, "altered") == 0;
    size_t different = 0;
    if (asked && count > 3) copies = strtoul(words[3], NULL, 10);
    if (count < 3 || !load(words[2])) return 2;
    if (asked || alter) count_all();
    for (int i = 0; i < OPERATIONS && strcmp(what, "time") == 0; i++) time_operation(operations + i);
    for (int i = 0; i < OPERATIONS && strcmp(what, "stack") == 0; i++) stack_of(operations + i);
    if (!right()) {
        printf("DIFFERENT\n");
        return 1;
    }
    if (alter && count == 5) different = altered_bytes(strtoul(words[3], NULL, 10)) + altered_numbers(strtoul(words[4], NULL, 10));
    if (alter) printf("altered %zu\n", different);
    return different != 0;
}
