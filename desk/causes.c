#include <string.h>

#include "desk.h"

// The refusals of which more is said, and the kinds of line that tell the causes of 8 apart.
enum { TOO_LONG = 3, WRONG_KIND = 4, OUT_OF_BOUNDS = 7, DISAGREES = 8, WRONG_INSTANT = 9, OTHER_SATELLITE = 10 };
enum { SECOND_LINE = 2, SATELLITE_LINE = 3, TYPE_LINE = 5 };

// The bounds of SP3-c, as the header has them, in words.
#define AS_TEXT(number) DIGITS_OF(number)
#define DIGITS_OF(digits) #digits
static const char comment_too_long[] = "a comment line of SP3-c has more than " AS_TEXT(SP3_COMMENT_COLUMNS_C) " characters";
static const char satellites_of_c[] = " (a file in SP3-c has 1 to " AS_TEXT(SP3_MOST_SATELLITES_C) " satellites)";
static const char bounds_of_c[] = " (at most " AS_TEXT(SP3_MOST_SATELLITES_C) " satellites, " AS_TEXT(SP3_COMMENTS_C)
                                  " comments, comment lines of " AS_TEXT(SP3_COMMENT_COLUMNS_C) " characters)";

// ---- What the bytes make plain ----

// Whether the only byte of a line outside 32 to 126 is a CR at its end.
static bool ends_in_cr(line_t line) {
    size_t k = 0;
    while (k < line.length && line.at[k] >= 32 && line.at[k] <= 126) k++;
    return k + 1 == line.length && line.at[k] == '\r';
}

// The first bytes of what gzip and compress make.
static bool is_compressed(const uint8_t *bytes, size_t length) {
    return length >= 2 && bytes[0] == 0x1f && (bytes[1] == 0x8b || bytes[1] == 0x9d);
}

// Whether bytes begin with `#` and this letter.
static bool begins_with(const uint8_t *bytes, size_t length, char letter) { return length >= 2 && bytes[0] == '#' && bytes[1] == letter; }

// What is said of a first line that is none.
static const char *version_hint(line_t line) {
    if (begins_with(line.at, line.length, 'a')) return " (this is SP3-a; SP3-c and SP3-d are read)";
    if (begins_with(line.at, line.length, 'b')) return " (this is SP3-b; SP3-c and SP3-d are read)";
    return " (`#c` or `#d` is due; SP3-c and SP3-d are read)";
}

// Whether it is the number of satellites, in the third line of a file in SP3-c, that is outside its bounds.
static bool is_satellite_bound(const refusal_t *refusal) {
    return refusal->number == OUT_OF_BOUNDS && refusal->line == 3 && refusal->column == 4 && begins_with(refusal->bytes, refusal->length, 'c');
}

// What a refusal plainly comes from; "" where that is not plain.
static const char *hint_of(const refusal_t *refusal, line_t line) {
    uint64_t number = refusal->number;
    if (is_compressed(refusal->bytes, refusal->length)) return " (compressed: zcat FILE | sp3 check -)";
    if (number == 2 && ends_in_cr(line)) return " (the line ends in CR LF: tr -d '\\r' < FILE | sp3 check -)";
    if (number == WRONG_KIND && refusal->line == 1) return version_hint(line);
    if (is_satellite_bound(refusal)) return satellites_of_c;
    if (number == 11 && line.length >= 1 && line.at[0] == '#') return " (another file follows: sp3 divide FILE)";
    if (number == OUTSIDE_C) return bounds_of_c;
    return "";
}

// ---- What stands in the line, and what was due ----

// What the library says was due in the line of a refusal.
static sp3_due_t due_at(const refusal_t *refusal) {
    uint64_t identifiers[SP3_MOST_SATELLITES] = {0};
    sp3_spot_t spot = sp3_after_lines(refusal->bytes, refusal->length, identifiers, SP3_MOST_SATELLITES, sp3_first_spot(), refusal->line - 1);
    return sp3_due(refusal->bytes, refusal->length, identifiers, SP3_MOST_SATELLITES, spot);
}

// Which of the causes of 8 it was.
static const char *disagreement(const sp3_due_t *due) {
    if (due->kind == SECOND_LINE) return "line 2 disagrees with the start";
    if (due->kind == TYPE_LINE) return "the file type disagrees with the identifiers";
    return due->kind == SATELLITE_LINE && due->repeats ? "an identifier repeats" : "a slot after the last satellite is not `  0`";
}

// How a line of a kind after the first begins.
static const char *symbol(uint64_t kind) {
    static const char *const symbols[] = {"", "", "##", "+ ", "++", "%c", "%f", "%i", "/*", "* ", "P", "V", "EP", "EV", "EOF"};
    return kind < sizeof symbols / sizeof *symbols ? symbols[kind] : "";
}

// How the line that was due begins, and the one that may stand before it.
static void say_kinds(FILE *to, const sp3_due_t *due) {
    char text[TEXT_ROOM];
    fprintf(to, " (`%s%s` is due", symbol(due->kind), due->identifier == 0 ? "" : identifier(text, due->identifier));
    if (due->also != 0) fprintf(to, ", `%s` may stand before it", symbol(due->also));
    fputc(')', to);
}

// A text of the columns of a line from one on, counted from 1: each that is blank is shown as in the pattern, which has so many columns.
static const char *columns_of(char room[TEXT_ROOM], line_t line, size_t first, const char *pattern) {
    size_t k = 0;
    for (; pattern[k] != '\0'; k++) {
        char column = first - 1 + k < line.length ? (char)line.at[first - 1 + k] : ' ';
        room[k] = column == ' ' ? pattern[k] : column;
    }
    room[k] = '\0';
    return room;
}

// The instant of an epoch line, columns 4 to 31, and the one that was due, which may be past the last date.
static void say_instants(FILE *to, line_t line, const sp3_due_t *due) {
    char here[TEXT_ROOM], text[TEXT_ROOM];
    bool dated = sp3_moment(due->instant8).refusal == 0;
    fprintf(to, " (%s stands here, %s is due)", columns_of(here, line, 4, "0000-00-00 00:00:00.00000000"),
            dated ? moment(text, due->instant8) : "an instant past the last date");
}

// The satellite of a row, columns 2 to 4, and the one that was due.
static void say_satellites(FILE *to, line_t line, const sp3_due_t *due) {
    char here[TEXT_ROOM], text[TEXT_ROOM];
    fprintf(to, " (%s stands here, %s is due)", columns_of(here, line, 2, "   "), identifier(text, due->identifier));
}

// A refusal in words: of 8 which of its causes it was, of 3 which bound, as its column tells.
static const char *words_for(const refusal_t *refusal, const sp3_due_t *due) {
    if (refusal->number == DISAGREES) return disagreement(due);
    bool comment = refusal->number == TOO_LONG && refusal->column == SP3_COMMENT_COLUMNS_C + 1;
    return comment ? comment_too_long : words_of(refusal->number);
}

// Whether the library tells more of a refusal than its number.
static bool is_told(uint64_t number) { return number == WRONG_KIND || (number >= DISAGREES && number <= OTHER_SATELLITE); }

void say_cause(FILE *to, const refusal_t *refusal) {
    uint64_t number = refusal->number;
    line_t line = line_of(refusal);
    const char *hint = hint_of(refusal, line);
    sp3_due_t due = is_told(number) ? due_at(refusal) : (sp3_due_t){0};
    fprintf(to, ": %s%s", words_for(refusal, &due), hint);
    if (number == WRONG_KIND && *hint == '\0') say_kinds(to, &due);
    if (number == WRONG_INSTANT) say_instants(to, line, &due);
    if (number == OTHER_SATELLITE) say_satellites(to, line, &due);
    fputc('\n', to);
}
