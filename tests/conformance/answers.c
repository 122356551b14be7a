/* What the library answers, a line to each case, for tests/conformance.sh:
 *
 *   answers files LIST     LIST names two files to a line, with a TAB between them: a case, and the form in which it should be written
 *   answers calls PAPER    calls on the paper's file (calls.c)
 *
 * A file is `refused N line L`, with ` column C` where the refusal names one, or `accepted written|other row X Y Z CLOCK note ..`: whether its
 * canonical form, in its own version, is the second file, the row of epoch 0 and satellite 0, and what its stored row says of the EP line after it, in mode V also what
 * the V row says of the EV line (`note ..` again): `none`, or four deviations and six correlations, `-` for unknown, `large` for too large. The line
 * reader must find the same refusal in the same line and column. */
#include "sp3.h"
#include "stretch.h"

#include <stdio.h>
#include <stdlib.h>
#include <string.h>

enum { LONGEST_PATH = 4096 };

static void stop(const char *what, const char *which)
{
    fprintf(stderr, "answers: %s: %s\n", which, what);
    exit(2);
}

void *room(size_t count, size_t size)
{
    void *lent = calloc(count > 0 ? count : 1, size);
    if (lent == NULL)
        stop("no memory", "room");
    return lent;
}

/* The number of bytes of an open file, which then stands at its first byte. */
static size_t length_of(FILE *file, const char *path)
{
    if (fseek(file, 0, SEEK_END) != 0)
        stop("cannot be read", path);
    long length = ftell(file);
    if (length < 0)
        stop("cannot be read", path);
    rewind(file);
    return (size_t)length;
}

stretch_t load(const char *path)
{
    FILE *file = fopen(path, "rb");
    if (file == NULL)
        stop("cannot be read", path);
    size_t length = length_of(file, path);
    stretch_t all = {room(length, 1), length};
    if (fread(all.bytes, 1, length, file) != length)
        stop("cannot be read", path);
    fclose(file);
    return all;
}

/* Whether the line reader finds the same refusal at the same line and column; bytes after EOF are none of its concern. */
static bool same_by_lines(stretch_t file, sp3_reading_t judged)
{
    uint64_t identifiers[SP3_MOST_SATELLITES] = {0};
    sp3_spot_t spot = sp3_first_spot();
    for (uint64_t line = 1;; line++) {
        sp3_line_answer_t answer = sp3_read_line(file.bytes, file.length, spot, identifiers, SP3_MOST_SATELLITES);
        if (answer.finished)
            return judged.refusal == 11 && judged.line == line + 1 && judged.column == 0;
        if (answer.refusal != 0)
            return answer.refusal == judged.refusal && judged.line == line && answer.column == judged.column;
        spot = answer.next;
    }
}

static void print_refusal(stretch_t file, sp3_reading_t judged, const char *path)
{
    if (!same_by_lines(file, judged))
        stop("the line reader finds another refusal", path);
    printf("refused %zu line %llu", judged.refusal, (unsigned long long)judged.line);
    if (judged.column != 0)
        printf(" column %zu", judged.column);
    printf("\n");
}

/* The table of an accepted file. */
typedef struct {
    sp3_header_t header;
    size_t text, numbers;
    uint64_t *identifiers, *exponents;
    uint8_t *comments;
    int64_t *rows;
} table_t;

static table_t table_of(stretch_t file, sp3_header_t h, const char *path)
{
    size_t n = h.satellites;
    table_t t = {h, h.comments * SP3_COMMENT_WIDTH, n * h.epochs * (h.velocity ? 2 : 1) * SP3_ROW_WIDTH, NULL, NULL, NULL, NULL};
    t.identifiers = room(n, sizeof *t.identifiers);
    t.exponents = room(n, sizeof *t.exponents);
    t.comments = room(t.text, 1);
    t.rows = room(t.numbers, sizeof *t.rows);
    if (sp3_read(file.bytes, file.length, t.identifiers, n, t.exponents, n, t.comments, t.text, t.rows, t.numbers).refusal != 0)
        stop("accepted, and not read", path);
    return t;
}

static void free_table(table_t t)
{
    free(t.identifiers), free(t.exponents), free(t.comments), free(t.rows);
}

/* Whether a table is written in this form, in the version of its file. */
static bool is_written_as(table_t t, uint8_t version, stretch_t form)
{
    uint8_t *out = room(form.length, 1);
    size_t n = t.header.satellites;
    sp3_measured_t written = (version == 'c' ? sp3_write_c : sp3_write)(t.header, t.identifiers, n, t.exponents, n, t.comments, t.text, t.rows,
                                                                        t.numbers, out, form.length);
    bool same = written.refusal == 0 && written.length == form.length && memcmp(out, form.bytes, form.length) == 0;
    free(out);
    return same;
}

static void print_row(stretch_t file)
{
    sp3_row_t row = sp3_row(file.bytes, file.length, 0, 0).row;
    printf(" row");
    if (row.place_absent)
        printf(" absent");
    else
        printf(" %.0f %.0f %.0f", row.x, row.y, row.z);
    if (row.clock_absent)
        printf(" absent");
    else
        printf(" %.0f", row.clock);
}

static void print_deviation(sp3_note_deviation_t d)
{
    if (d.unknown)
        printf(" -");
    else if (d.too_large)
        printf(" large");
    else
        printf(" %llu", (unsigned long long)d.value);
}

static void print_correlation(sp3_note_correlation_t c)
{
    if (c.unknown)
        printf(" -");
    else
        printf(" %lld", (long long)c.value);
}

/* What the k-th stored row says of the EP or EV line after it. */
static void print_note(table_t t, size_t k)
{
    printf(" note");
    if (!sp3_note_of(t.rows, t.numbers, k).stands) {
        printf(" none");
        return;
    }
    for (size_t which = 0; which < 4; which++)
        print_deviation(sp3_note_deviation_of(t.rows, t.numbers, k, which));
    for (size_t which = 0; which < 6; which++)
        print_correlation(sp3_note_correlation_of(t.rows, t.numbers, k, which));
}

static void print_file(const char *path, const char *form_path)
{
    stretch_t file = load(path), form = load(form_path);
    sp3_reading_t judged = sp3_judge(file.bytes, file.length);
    if (judged.refusal != 0) {
        print_refusal(file, judged, path);
    } else {
        table_t table = table_of(file, judged.header, path);
        printf("accepted %s", is_written_as(table, judged.version, form) ? "written" : "other");
        print_row(file);
        for (size_t k = 0; k < (judged.header.velocity ? 2 : 1); k++)
            print_note(table, k);
        printf("\n");
        free_table(table);
    }
    free(file.bytes), free(form.bytes);
}

static void print_files(const char *list_path)
{
    char line[2 * LONGEST_PATH];
    FILE *list = fopen(list_path, "r");
    if (list == NULL)
        stop("cannot be read", list_path);
    while (fgets(line, sizeof line, list) != NULL) {
        char *path = strtok(line, "\t\n"), *form_path = strtok(NULL, "\t\n");
        if (form_path == NULL)
            stop("two files to a line are needed", list_path);
        print_file(path, form_path);
    }
    fclose(list);
}

int main(int count, char **words)
{
    if (count == 3 && strcmp(words[1], "files") == 0)
        print_files(words[2]);
    else if (count == 3 && strcmp(words[1], "calls") == 0)
        print_calls(load(words[2]));
    else
        stop("files LIST, or calls PAPER", "usage");
    return 0;
}
