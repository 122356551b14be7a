/* Walks the rows of a file in SP3-c or SP3-d in order and prints them: places in mm, clocks in ps, absent as a word. In the repository:
 *
 *   gcc -std=c11 -Wall -Wextra -O2 -I include -o target/rows examples/c/rows.c target/staticlib/libsp3.a
 *   target/rows samples/paper.sp3
 *
 * Ends with 0 for an accepted file, with 1 for a refused one, with 2 where there is no file to read or nowhere to print. */
#include "sp3.h"

#include <inttypes.h>
#include <stdio.h>
#include <stdlib.h>

/* The bytes of a file, their number in `length`; NULL where they cannot be had. There is room also for no bytes: a slice is never NULL. */
static uint8_t *bytes_of(const char *name, size_t *length) {
    FILE *file = fopen(name, "rb");
    if (file == NULL) return NULL;
    size_t room = 65536;
    uint8_t *bytes = malloc(room);
    *length = 0;
    while (bytes != NULL && !feof(file) && !ferror(file)) {
        *length += fread(bytes + *length, 1, room - *length, file);
        if (*length < room) continue;
        room *= 2;
        uint8_t *more = realloc(bytes, room);
        if (more == NULL) free(bytes);
        bytes = more;
    }
    if (bytes != NULL && ferror(file)) {
        free(bytes);
        bytes = NULL;
    }
    fclose(file);
    return bytes;
}

/* A row of the satellite that is stored as `identifier`: its letter's byte times 100, and its number. */
static void print_row(const sp3_row_step_t *step, uint64_t identifier) {
    const sp3_row_t *row = &step->row;
    printf("epoch %" PRIu64 " %c%02u place ", step->epoch, (char)(identifier / 100), (unsigned)(identifier % 100));
    if (row->place_absent) printf("absent clock ");
    else printf("%.0f %.0f %.0f clock ", row->x, row->y, row->z);
    if (row->clock_absent) puts("absent");
    else printf("%.0f\n", row->clock);
}

/* Says that a file is refused; gives the status of the program. */
static int refused(const char *name, size_t number, uint64_t line, size_t column) {
    fprintf(stderr, "%s: refused %zu line %" PRIu64 " column %zu\n", name, number, line, column);
    return 1;
}

/* Judges the file, walks its rows and prints them; gives the status of the program. */
static int walk(const char *name, const uint8_t *file, size_t length) {
    uint64_t identifiers[SP3_MOST_SATELLITES], counts[2] = {0, 0};
    sp3_reading_t reading = sp3_begin(file, length, identifiers, SP3_MOST_SATELLITES);
    if (reading.refusal != 0) return refused(name, reading.refusal, reading.line, reading.column);
    sp3_row_step_t step = {.next = sp3_first_row()};
    for (;;) {
        step = sp3_next_row(file, length, identifiers, reading.header.satellites, step.next);
        if (step.refusal != 0) return refused(name, step.refusal, step.line, step.column);
        if (step.end) break;
        print_row(&step, identifiers[step.satellite]);
        counts[step.row.place_absent]++;
    }
    printf("rows %" PRIu64 " known %" PRIu64 " absent %" PRIu64 "\n", counts[0] + counts[1], counts[0], counts[1]);
    return fflush(stdout) == 0 && !ferror(stdout) ? 0 : 2;
}

int main(int argc, char **argv) {
    size_t length;
    uint8_t *file = argc == 2 ? bytes_of(argv[1], &length) : NULL;
    if (file == NULL) {
        if (argc == 2) perror(argv[1]);
        else fputs("rows FILE\n", stderr);
        return 2;
    }
    int status = walk(argv[1], file, length);
    free(file);
    return status;
}
