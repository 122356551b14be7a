/* Answers batches of cases by the doors of the archive (include/sp3.h), in the formats of the oracles:
 *
 *   doors tables|forms|divide|dates < BATCH
 *
 * The formats stand at the head of tests/files.rs, tests/forms.rs, tests/divide.rs and tests/dates.rs, which make the batches and say what must be
 * printed. For `tables`, `forms` and `divide` it is what the programs of crates/ print, but for cases of every size.
 *
 * Beside that it prints a `?` or a line `wrong: ..`, which no oracle prints, where an answer breaks a promise of the header that the formats do not
 * show: a number beside a mark of absence, something beside a refusal, two doors that must agree and do not, memory touched that was not lent.
 * Bytes that are looked at end where nothing may be touched, and lists that are written stand between two guards (tests/doors/lent.c). */
#include <stdio.h>
#include <string.h>

#include "doors/doors.h"

typedef struct {
    const char *name;
    void (*answer)(bytes_t *batch);
} format_t;

static const format_t formats[] = {
    {"tables", tables_case},
    {"forms", forms_case},
    {"divide", divide_case},
    {"dates", dates_case},
};

/* The format with this name, or NULL. */
static const format_t *format_of(const char *name) {
    for (size_t i = 0; i < sizeof formats / sizeof *formats; i++)
        if (strcmp(formats[i].name, name) == 0) return &formats[i];
    return NULL;
}

int main(int argc, char **argv) {
    const format_t *format = argc == 2 ? format_of(argv[1]) : NULL;
    if (format == NULL) stop("usage: doors tables|forms|divide|dates < BATCH");
    bytes_t batch = standard_input();
    while (!is_empty(&batch)) {
        format->answer(&batch);
        take_back();
        if (fflush(stdout) != 0) stop("standard output: a write failed");
    }
    return 0;
}
