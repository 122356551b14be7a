// Counts what files cost, with room enough for those of bench/hostile.sh:
//   hostile read FILE..      each is judged and read; prints its length, refusal and line
//   hostile measure FILE..   each is judged and, where it is accepted, its table measured, then once more with the last identifier as the first;
//                            prints length, refusal and line of the file, then the length and the refusals of both tables
#include <inttypes.h>

#include "../include/sp3.h"
#include "count.h"

enum { SATELLITES = SP3_MOST_SATELLITES, BYTES = 1 << 23 };
enum { COMMENTS = SP3_COMMENT_WIDTH * 336000, ROWS = SP3_ROW_WIDTH * SP3_MOST_SATELLITES * 16 };

static uint8_t file[BYTES], comments[COMMENTS];
static uint64_t identifiers[SATELLITES], exponents[SATELLITES];
static int64_t rows[ROWS];
static size_t length;
static sp3_reading_t judged, filled;
static sp3_measured_t measured;

static void judge_file(void) { judged = sp3_judge(file, length); }
static void read_file(void) { filled = sp3_read(file, length, identifiers, SATELLITES, exponents, SATELLITES, comments, COMMENTS, rows, ROWS); }
static void measure_table(void) {
    measured = sp3_form_length(filled.header, identifiers, SATELLITES, exponents, SATELLITES, comments, COMMENTS, rows, ROWS);
}

static bool load(const char *name) {
    FILE *from = fopen(name, "rb");
    if (!from) return false;
    length = fread(file, 1, BYTES, from);
    fclose(from);
    return length < BYTES;
}

static void told(void) { printf("file %zu %zu %" PRIu64, length, judged.refusal, judged.line); }

static void count_reading(void) {
    counted("judge", judge_file);
    counted("read", read_file);
    told();
    printf("\n");
}

static void count_measuring(void) {
    sp3_measured_t whole;
    counted("judge", judge_file);
    read_file();
    if (judged.refusal != 0) {
        told();
        printf(" 0 0 0\n");
        return;
    }
    counted("measure", measure_table);
    whole = measured;
    identifiers[filled.header.satellites - 1] = identifiers[0];
    counted("repeated", measure_table);
    told();
    printf(" %zu %zu %zu\n", whole.length, whole.refusal, measured.refusal);
}

int main(int count, char **words) {
    void (*work)(void) = count > 1 && strcmp(words[1], "measure") == 0 ? count_measuring : count_reading;
    for (int k = 2; k < count; k++) {
        if (!load(words[k])) return 2;
        work();
        if (filled.refusal != judged.refusal || filled.line != judged.line) {
            printf("%s: judged %zu, read %zu\n", words[k], judged.refusal, filled.refusal);
            return 1;
        }
    }
    return 0;
}
