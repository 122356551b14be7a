#include <string.h>

#include "desk.h"

// At most so many columns of a line are shown. Of a line whose column at fault is past them so many before that column are shown, and those after it.
enum { WIDTH = 100, BEFORE = 80 };

// A line of a file stands further in than any line of a report, so that none can be taken for one.
#define INDENT "    "

line_t line_of(const refusal_t *refusal) {
    const uint8_t *at = refusal->bytes, *end = at + refusal->length, *lf = NULL;
    for (uint64_t number = refusal->line; number > 1 && at < end; number--) {
        lf = memchr(at, '\n', (size_t)(end - at));
        at = lf == NULL ? end : lf + 1;
    }
    if (refusal->line == 0 || at == end) return (line_t){0};
    lf = memchr(at, '\n', (size_t)(end - at));
    return (line_t){true, at, (size_t)((lf == NULL ? end : lf) - at)};
}

// The columns of a line after so many, as many as there is room for; `?` for a byte that is none of a text. Gives how many there are.
static size_t take_columns(char text[WIDTH + 1], line_t line, size_t cut) {
    size_t taken = 0;
    for (; taken < WIDTH && cut + taken < line.length; taken++) {
        uint8_t byte = line.at[cut + taken];
        text[taken] = byte >= 32 && byte <= 126 ? (char)byte : '?';
    }
    text[taken] = '\0';
    return taken;
}

void show_line(FILE *to, const refusal_t *refusal) {
    line_t line = line_of(refusal);
    if (!line.there) return;
    size_t column = refusal->column, cut = column > WIDTH ? column - 1 - BEFORE : 0;
    char text[WIDTH + 1];
    size_t shown = cut + take_columns(text, line, cut);
    const char *before = cut > 0 ? ".." : "", *after = shown < line.length ? ".." : "";
    fprintf(to, INDENT "%s%s%s\n", before, text, after);
    if (column > 0) fprintf(to, INDENT "%*s^\n", (int)(strlen(before) + column - 1 - cut), "");
}
