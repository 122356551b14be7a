/* A file line by line: the plain line reader, the same where the identifiers are known, and the walker. */
#include <inttypes.h>
#include <stdio.h>
#include <string.h>

#include "doors.h"

void spot_out(const char *word, uint64_t k, sp3_spot_t spot) {
    printf("%s %" PRIu64 " %zu %" PRIu64 " %" PRIu64 " %" PRIu64 "\n", word, k, spot.at, spot.state.due, spot.state.left,
           spot.state.epochs);
}

/* The number of the kind `+ `. */
enum { IDENTIFIERS_DUE = 3 };

size_t brought(sp3_spot_t spot) {
    return spot.state.satellites - (spot.state.due == IDENTIFIERS_DUE ? spot.state.left : 0);
}

/* Where the byte of a spot is past the last, no line repeats an identifier; all else that is due there follows from the state. */
static void check_due_past(bytes_t file, const uint64_t *identifiers, size_t count, sp3_spot_t spot, sp3_due_t due) {
    const size_t past[] = {file.length, SIZE_MAX};
    for (size_t i = 0; i < sizeof past / sizeof *past; i++) {
        sp3_due_t none = sp3_due(file.bytes, file.length, identifiers, count, (sp3_spot_t){past[i], spot.state});
        bool same = none.kind == due.kind && none.also == due.also && none.instant8 == due.instant8 && none.identifier == due.identifier;
        check(same && !none.repeats, "what is due past the end");
    }
}

void due_out(const char *word, bytes_t file, const uint64_t *identifiers, size_t count, sp3_spot_t spot) {
    const uint64_t *lent = shown(identifiers, count * sizeof *lent);
    sp3_due_t due = sp3_due(file.bytes, file.length, lent, count, spot);
    printf("%s %" PRIu64 " %" PRIu64 " %" PRIu64 " %" PRIu64 " %d\n", word, due.kind, due.also, due.instant8, due.identifier, due.repeats);
    check_due_past(file, lent, count, spot, due);
}

static bool same_identifiers(const uint64_t *one, const uint64_t *other, size_t count) { return memcmp(one, other, count * sizeof *one) == 0; }

static sp3_line_answer_t read_at(bytes_t file, sp3_spot_t at, uint64_t *identifiers, size_t room) {
    return sp3_read_line(file.bytes, file.length, at, identifiers, room);
}

/* What line k, at this spot, was found to do; whether it is the last that is read. */
static bool line_out(uint64_t k, sp3_line_answer_t line, sp3_spot_t at) {
    if (line.refusal != 0) {
        printf("stopped %zu line %" PRIu64 " column %zu\n", line.refusal, k, line.column);
        check(!line.finished && same_spot(line.next, at), "the spot at a line that is refused");
        return true;
    }
    check(line.column == 0, "a column beside no refusal");
    if (line.finished) {
        printf("finished %" PRIu64 " %zu\n", k, line.next.at);
        sp3_spot_t before = {line.next.at, at.state};
        check(same_spot(line.next, before), "the state after the EOF line");
        return true;
    }
    spot_out("line", k, line.next);
    return false;
}

/* Where the byte of a spot is past the last, no line is left. */
static void check_no_line(bytes_t file, size_t at, uint64_t *identifiers, size_t room) {
    sp3_spot_t spot = sp3_first_spot();
    spot.at = at;
    sp3_line_answer_t none = {1, 0, false, spot};
    check(same_line(read_at(file, spot, identifiers, room), none), "a line read past the end");
    check(same_line(sp3_next_line(file.bytes, file.length, identifiers, room, spot), none), "a line known past the end");
    check(same_spot(sp3_after_lines(file.bytes, file.length, identifiers, room, spot, 3), spot), "lines walked past the end");
}

/* Where the identifiers are known each line does what the line reader found, but needs no room. */
static void check_known(bytes_t file, const uint64_t *identifiers, size_t count) {
    const uint64_t *known = shown(identifiers, count * sizeof *known);
    uint64_t *again = lent_numbers(count, NUMBER_MARK);
    sp3_spot_t at = sp3_first_spot();
    bool last = false;
    while (!last) {
        sp3_line_answer_t read = read_at(file, at, again, count);
        sp3_line_answer_t line = sp3_next_line(file.bytes, file.length, known, count, at);
        check(read.refusal == 12 ? line.refusal == 0 && !line.finished : same_line(read, line), "a line read and known");
        last = read.refusal != 0 || read.finished;
        at = read.next;
    }
}

/* With room for all identifiers the reader ends where the file at the front is judged to. */
static void check_judged(bytes_t file, uint64_t k, sp3_line_answer_t last) {
    sp3_reading_t front = sp3_judge_front(file.bytes, file.length);
    bool refused = front.refusal == last.refusal && front.line == k && front.column == last.column;
    check(last.finished ? front.refusal == 0 && front.length == last.next.at : refused, "a file read by lines and judged");
}

/* A `+ ` line without fault read once more, with the identifiers before it in a list of so many places: 12 where those after it do not fit. */
static void check_room(bytes_t file, sp3_spot_t at, sp3_line_answer_t line, const uint64_t *identifiers, size_t room) {
    uint64_t *list = lent_numbers(room, NUMBER_MARK), *before = lent_numbers(room, NUMBER_MARK);
    size_t known = brought(at) < room ? brought(at) : room, needed = brought(line.next);
    memcpy(list, identifiers, known * sizeof *list);
    memcpy(before, identifiers, known * sizeof *list);
    sp3_line_answer_t short_of_room = {12, 0, false, at}, found = read_at(file, at, list, room);
    if (room < needed) {
        check(same_line(found, short_of_room) && same_identifiers(list, before, room), "a line that needs more room");
    } else {
        check(same_line(found, line) && same_identifiers(list, identifiers, needed), "a line that has just the room");
    }
}

/* A line that is refused where a `+ ` line is due is refused the same with room for the identifiers before it alone: its own fault comes before 12.
 */
static void check_fault(bytes_t file, sp3_spot_t at, sp3_line_answer_t line, const uint64_t *identifiers) {
    size_t room = brought(at);
    uint64_t *list = lent_numbers(room, NUMBER_MARK);
    memcpy(list, identifiers, room * sizeof *list);
    bool same = same_line(read_at(file, at, list, room), line) && same_identifiers(list, identifiers, room);
    check(same, "a line refused without room for its identifiers");
}

/* A line that was read: one that brings no identifiers leaves them as they were; a `+ ` line needs room for just its own and those before it. */
static void check_line(bytes_t file, sp3_spot_t at, sp3_line_answer_t line, const uint64_t *before, const uint64_t *identifiers, size_t room) {
    bool identifiers_due = at.state.due == IDENTIFIERS_DUE, brings = identifiers_due && line.refusal == 0;
    check(brings || same_identifiers(before, identifiers, room), "the identifiers after a line that brings none");
    if (identifiers_due && !brings) check_fault(file, at, line, identifiers);
    if (!brings) return;
    size_t needed = brought(line.next);
    check_room(file, at, line, identifiers, needed);
    check_room(file, at, line, identifiers, needed - 1);
    check_room(file, at, line, identifiers, 0);
}

/* So many lines from the first spot on, at once and in two parts with one list, lead to this spot and leave these identifiers. */
static void check_walk(bytes_t file, size_t lines, sp3_spot_t spot, const uint64_t *identifiers, size_t room) {
    uint64_t *once = lent_numbers(room, NUMBER_MARK), *twice = lent_numbers(room, NUMBER_MARK);
    sp3_spot_t first = sp3_first_spot();
    sp3_spot_t at = sp3_after_lines(file.bytes, file.length, once, room, first, lines);
    check(same_spot(at, spot) && same_identifiers(once, identifiers, room), "lines walked and read");
    sp3_spot_t half = sp3_after_lines(file.bytes, file.length, twice, room, first, lines / 2);
    at = sp3_after_lines(file.bytes, file.length, twice, room, half, lines - lines / 2);
    check(same_spot(at, spot) && same_identifiers(twice, identifiers, room), "lines walked in two parts and read");
}

/* Whether the walk over so many lines is held to the lines read one by one: the first ones, all `+ ` lines among them, and some of the others. */
static bool is_walked(uint64_t lines) { return lines <= 62 || lines % 50 == 0; }

static void identifiers_out(const uint64_t *identifiers, size_t count) {
    fputs("identifiers", stdout);
    for (size_t i = 0; i < count; i++) value(identifiers[i]);
    putchar('\n');
}

/* The lines up to the last that is read, each shown and checked; gives its number, and what it does. */
static uint64_t each_line(bytes_t file, uint64_t *identifiers, size_t room, sp3_line_answer_t *last) {
    uint64_t *before = lent_numbers(room, NUMBER_MARK);
    sp3_spot_t at = sp3_first_spot();
    for (uint64_t k = 1;; k++) {
        memcpy(before, identifiers, room * sizeof *before);
        *last = read_at(file, at, identifiers, room);
        bool ends = line_out(k, *last, at);
        if (ends) due_out("due", file, identifiers, room, at);
        check_line(file, at, *last, before, identifiers, room);
        if (ends) check_walk(file, k + 5, at, identifiers, room);
        if (ends) return k;
        if (is_walked(k)) check_walk(file, k, last->next, identifiers, room);
        at = last->next;
    }
}

void lines_shown(bytes_t file, size_t room) {
    uint64_t *identifiers = lent_numbers(room, NUMBER_MARK);
    sp3_line_answer_t last;
    uint64_t k = each_line(file, identifiers, room, &last);
    identifiers_out(identifiers, room);
    check_known(file, identifiers, room);
    if (room >= SP3_MOST_SATELLITES) check_judged(file, k, last);
    check_no_line(file, file.length, identifiers, room);
    check_no_line(file, SIZE_MAX, identifiers, room);
}

line_end_t known_lines(bytes_t file, const uint64_t *identifiers, size_t count) {
    sp3_spot_t at = sp3_first_spot();
    for (uint64_t k = 1;; k++) {
        sp3_line_answer_t line = sp3_next_line(file.bytes, file.length, identifiers, count, at);
        if (line.refusal != 0 || line.finished) return (line_end_t){line.refusal, k, line.column};
        at = line.next;
    }
}
