#define _POSIX_C_SOURCE 200809L
#include <errno.h>
#include <fcntl.h>
#include <stdlib.h>
#include <string.h>
#include <sys/stat.h>
#include <unistd.h>

#include "desk.h"

// A product, or the largest size where it is larger; so much memory there never is.
static size_t times(size_t a, size_t b) { return b != 0 && a > SIZE_MAX / b ? SIZE_MAX : a * b; }

void *lend(size_t count, size_t size) {
    size_t bytes = times(count, size);
    return malloc(bytes == 0 ? 1 : bytes);
}

int out_of_memory(const input_t *file) { return unusable("there is not enough memory for it", "%s", file->name); }

// How many bytes an input seems to have, and one more, so that its end is met while there is room.
static size_t first_room(int source) {
    struct stat about;
    bool sized = fstat(source, &about) == 0 && S_ISREG(about.st_mode);
    return sized ? (size_t)about.st_size + 1 : 1 << 16;
}

// Reads to the end. Gives 0, or the reason why that cannot be done.
static int read_all(input_t *input, int source) {
    size_t room = first_room(source);
    uint8_t *lent = lend(room, 1);
    while (lent != NULL) {
        input->bytes = lent;
        ssize_t got = read(source, lent + input->length, room - input->length);
        if (got == 0) return 0;
        if (got < 0 && errno != EINTR) return errno;
        if (got > 0) input->length += (size_t)got;
        if (input->length < room) continue;
        room = times(room, 2);
        lent = realloc(lent, room);
    }
    return ENOMEM;
}

int take_input(input_t *input, const char *argument) {
    bool standard = strcmp(argument, "-") == 0;
    *input = (input_t){.name = standard ? "standard input" : argument};
    if (*argument == '\0') return unusable("the name is empty", "FILE ''");
    int source = standard ? STDIN_FILENO : open(argument, O_RDONLY);
    if (source < 0) return unusable(strerror(errno), "%s", argument);
    int reason = read_all(input, source);
    if (!standard) close(source);
    if (reason == ENOMEM) return out_of_memory(input);
    if (reason != 0) return unusable(strerror(reason), "%s", input->name);
    return input->length > 0 ? ACCEPTED : unusable("it has no bytes", "%s", input->name);
}

void drop_input(input_t *input) { free(input->bytes); }

// The status of a file that was judged or read; where it is refused, that is said.
static int status_of(const input_t *file, sp3_reading_t answer, FILE *refusals) {
    if (answer.refusal == 0) return ACCEPTED;
    refusal_t refusal = {answer.refusal, answer.line, answer.column, file->bytes, file->length};
    return refused(refusals, &refusal, "%s", file->name);
}

int judge_file(table_t *table, const char *argument, FILE *refusals) {
    *table = (table_t){0};
    input_t *file = &table->file;
    int status = take_input(file, argument);
    if (status != ACCEPTED) return status;
    sp3_reading_t judged = sp3_judge(file->bytes, file->length);
    table->header = judged.header;
    table->version = judged.version;
    return status_of(file, judged, refusals);
}

int read_identifiers(table_t *table) {
    const input_t *file = &table->file;
    size_t satellites = table->header.satellites;
    table->identifiers = lend(satellites, sizeof *table->identifiers);
    if (table->identifiers == NULL) return out_of_memory(file);
    return status_of(file, sp3_begin(file->bytes, file->length, table->identifiers, satellites), stderr);
}

// Whether there is memory for all lists of a table.
static bool lend_lists(table_t *table) {
    const sp3_header_t *header = &table->header;
    table->row_count = times(times(header->satellites, header->epochs), header->velocity ? 2 : 1);
    table->row_numbers = times(table->row_count, SP3_ROW_WIDTH);
    table->comment_bytes = times(header->comments, SP3_COMMENT_WIDTH);
    table->identifiers = lend(header->satellites, sizeof *table->identifiers);
    table->exponents = lend(header->satellites, sizeof *table->exponents);
    table->comments = lend(table->comment_bytes, 1);
    table->rows = lend(table->row_numbers, sizeof *table->rows);
    return table->identifiers != NULL && table->exponents != NULL && table->comments != NULL && table->rows != NULL;
}

int read_table(table_t *table) {
    const input_t *file = &table->file;
    size_t satellites = table->header.satellites;
    if (!lend_lists(table)) return out_of_memory(file);
    sp3_reading_t read = sp3_read(file->bytes, file->length, table->identifiers, satellites, table->exponents, satellites, table->comments,
                                  table->comment_bytes, table->rows, table->row_numbers);
    return status_of(file, read, stderr);
}

void drop_table(table_t *table) {
    free(table->identifiers);
    free(table->exponents);
    free(table->comments);
    free(table->rows);
    drop_input(&table->file);
}
