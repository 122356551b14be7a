#include <errno.h>
#include <inttypes.h>
#include <stdarg.h>
#include <stdio.h>
#include <string.h>

#include "desk.h"

// Why the first writing that failed did so.
static int output_error;

const char *words_of(uint64_t number) {
    static const char *const words[] = {
        "accepted",
        "no line end is left before the file's EOF line is complete",
        "a byte outside 32 to 126 stands in the line",
        "the line has more than 80 characters",
        "the line is not of a kind that may stand here",
        "an unused column is not blank, or a placeholder is not all `c` or a zero",
        "a field is malformed, or a letter, file type or time system is not listed",
        "a number or date is outside its bounds",
        "line 2 disagrees with the start, a slot after the last satellite is not `  0`, an identifier repeats, or the file type disagrees",
        "an epoch stands at the wrong instant",
        "a row names another satellite than the header has here",
        "bytes stand after the EOF line",
        "lent room is too small",
        "what is asked by number is not there",
        [OUTSIDE_C] = "the table to be written is outside the bounds of SP3-c",
    };
    bool known = number < sizeof words / sizeof *words && words[number] != NULL;
    return known ? words[number] : "no words are known for this number";
}

static void flush_results(void) {
    bool failed = fflush(stdout) != 0 || ferror(stdout);
    if (failed && output_error == 0) output_error = errno;
}

// The results so far, then the beginning of what is said.
static void begin_saying(FILE *to, const char *who, const char *subject, va_list values) {
    if (to != stdout) flush_results();
    fputs(who, to);
    vfprintf(to, subject, values);
}

int refused(FILE *to, const refusal_t *refusal, const char *subject, ...) {
    va_list values;
    va_start(values, subject);
    begin_saying(to, "", subject, values);
    va_end(values);
    fprintf(to, ": refused %" PRIu64 " line %" PRIu64, refusal->number, refusal->line);
    if (refusal->column > 0) fprintf(to, " column %zu", refusal->column);
    say_cause(to, refusal);
    show_line(to, refusal);
    return REFUSED;
}

int unusable(const char *why, const char *subject, ...) {
    va_list values;
    va_start(values, subject);
    begin_saying(stderr, "sp3: ", subject, values);
    va_end(values);
    fprintf(stderr, ": %s\n", why);
    return UNUSABLE;
}

int last_status(int status) {
    flush_results();
    // a closed output has failed above, if there was a result
    if (fclose(stdout) != 0 && errno != EBADF && output_error == 0) output_error = errno;
    if (output_error == 0) return status;
    fprintf(stderr, "sp3: standard output: %s\n", strerror(output_error));
    return UNUSABLE;
}

const char *decimal(char room[TEXT_ROOM], int64_t value, int places) {
    uint64_t left = value < 0 ? 0 - (uint64_t)value : (uint64_t)value;
    char *at = room + TEXT_ROOM - 1;
    *at = '\0';
    for (int digits = 0; left != 0 || digits <= places; digits++) {
        if (digits == places && places > 0) *--at = '.';
        *--at = (char)('0' + left % 10);
        left /= 10;
    }
    if (value < 0) *--at = '-';
    return at;
}

const char *moment(char room[TEXT_ROOM], uint64_t instant8) {
    sp3_moment_t at = sp3_moment(instant8).moment;
    unsigned seconds = (unsigned)(at.second8 / 100000000), fraction = (unsigned)(at.second8 % 100000000);
    snprintf(room, TEXT_ROOM, "%04u-%02u-%02u %02u:%02u:%02u.%08u", (unsigned)at.year, (unsigned)at.month, (unsigned)at.day, (unsigned)at.hour,
             (unsigned)at.minute, seconds, fraction);
    return room;
}

const char *identifier(char room[TEXT_ROOM], uint64_t number) {
    snprintf(room, TEXT_ROOM, "%c%02u", (char)(number / 100), (unsigned)(number % 100));
    return room;
}
