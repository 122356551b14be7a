/* The format of tests/divide.rs: stretches divided, files walked and read line by line. */
#include <inttypes.h>
#include <stdio.h>
#include <string.h>

#include "doors.h"

/* The identifiers of a header, or others instead of them. */
typedef struct {
    const uint64_t *list;
    size_t count;
} identifiers_t;

static void kept_out(const uint64_t *list, size_t from, size_t count) { puts(numbers_kept(list, from, count) ? "kept" : "changed"); }

static void divide_out(bytes_t bytes, size_t room) {
    uint64_t *lengths = lent_numbers(room, NUMBER_MARK);
    sp3_division_t division = sp3_divide(bytes.bytes, bytes.length, lengths, room);
    printf("divide %zu %" PRIu64 " %zu %" PRIu64 " %zu\n", division.refusal, division.line, division.column, division.count, division.rest);
    size_t filled = division.count <= room ? division.count : room;
    check(division.count <= room, "more files than room");
    for (size_t i = 0; i < filled; i++) printf("length %" PRIu64 "\n", lengths[i]);
    kept_out(lengths, filled, room);
}

static void row_out(sp3_row_step_t step) {
    sp3_row_t row = step.row;
    printf("row %" PRIu64 " %" PRIu64, step.epoch, step.satellite);
    if (row.place_absent) {
        absent_float(row.x);
        mark(row.y == row.y || row.z == row.z);
    } else {
        fputs(" at", stdout);
        float_value(row.x);
        float_value(row.y);
        float_value(row.z);
    }
    row.clock_absent ? absent_float(row.clock) : float_value(row.clock);
    putchar('\n');
}

/* How a walk over rows ends: the spot stays, there is no row, and lines walked one by one end the same way. */
static void walk_end_out(bytes_t file, identifiers_t identifiers, sp3_row_step_t step, sp3_row_walk_t from) {
    if (step.end) {
        puts("end");
    } else {
        printf("refused %zu line %" PRIu64 " column %zu\n", step.refusal, step.line, step.column);
    }
    bool stays = same_spot(step.next.spot, from.spot) && step.next.passed == from.passed;
    check(stays && step.epoch == 0 && step.satellite == 0 && is_no_row(step.row), "a row beside the end of a walk");
    check(step.end ? step.refusal == 0 && step.line == 0 && step.column == 0 : step.refusal != 0, "an end beside a refusal");
    line_end_t lines = known_lines(file, identifiers.list, identifiers.count);
    bool same = lines.refusal == step.refusal && lines.column == step.column && (step.end || lines.line == step.line);
    check(same, "a walk over rows and over lines");
}

/* Each row of a file that was accepted is the one that the row question gives; of many rows some twenty are asked for. */
static void check_row(bytes_t file, sp3_header_t header, sp3_row_step_t step) {
    uint64_t count = header.satellites * header.epochs, k = step.epoch * header.satellites + step.satellite;
    if (header.epochs == 0 || k % (1 + count / 20) != 0) return;
    sp3_row_answer_t answer = sp3_row(file.bytes, file.length, step.epoch, step.satellite);
    bool accepted = answer.refusal == 0 && answer.line == 0 && answer.column == 0;
    check(accepted && same_row(answer.row, step.row), "a row walked and asked for");
}

/* The rows of a file in order; a file has no more rows than bytes. */
static void rows_out(bytes_t file, identifiers_t identifiers, sp3_header_t header) {
    sp3_row_walk_t from = sp3_first_row();
    for (size_t left = file.length + 1; left > 0; left--) {
        sp3_row_step_t step = sp3_next_row(file.bytes, file.length, identifiers.list, identifiers.count, from);
        if (step.refusal != 0 || step.end) {
            walk_end_out(file, identifiers, step, from);
            return;
        }
        check(step.line == 0 && step.column == 0, "a line or a column beside a row");
        row_out(step);
        check_row(file, header, step);
        from = step.next;
    }
    puts("more rows than bytes");
}

static size_t line_count(bytes_t bytes) {
    size_t count = 0;
    for (size_t i = 0; i < bytes.length; i++) count += bytes.bytes[i] == '\n';
    return count;
}

/* The spot after so many lines, with a list of the walker's own. */
static void after_out(bytes_t file, size_t lines) {
    uint64_t *identifiers = lent_numbers(SP3_MOST_SATELLITES, NUMBER_MARK);
    spot_out("spot", lines, sp3_after_lines(file.bytes, file.length, identifiers, SP3_MOST_SATELLITES, sp3_first_spot(), lines));
}

/* The spots after half of the lines and after the others, with the same list; gives it. */
static const uint64_t *halves_out(bytes_t file, size_t all) {
    uint64_t *identifiers = lent_numbers(SP3_MOST_SATELLITES, NUMBER_MARK);
    sp3_spot_t half = sp3_after_lines(file.bytes, file.length, identifiers, SP3_MOST_SATELLITES, sp3_first_spot(), all / 2);
    spot_out("spot", all / 2, half);
    spot_out("then", all, sp3_after_lines(file.bytes, file.length, identifiers, SP3_MOST_SATELLITES, half, all - all / 2));
    return identifiers;
}

/* A walk that is refused stays before the line that the file at the front is refused at. */
static void check_stays(bytes_t file, sp3_spot_t last) {
    uint64_t *identifiers = lent_numbers(SP3_MOST_SATELLITES, NUMBER_MARK);
    sp3_reading_t front = sp3_judge_front(file.bytes, file.length);
    if (front.refusal == 0) return;
    sp3_spot_t before = sp3_after_lines(file.bytes, file.length, identifiers, SP3_MOST_SATELLITES, sp3_first_spot(), front.line - 1);
    check(same_spot(before, last), "the spot before a line that is refused");
}

/* The spot after so many lines, more than there are, and what must stand there: with the identifiers that the lines brought, and with those given. */
static void last_out(bytes_t file, size_t lines, identifiers_t given) {
    uint64_t *identifiers = lent_numbers(SP3_MOST_SATELLITES, NUMBER_MARK);
    sp3_spot_t last = sp3_after_lines(file.bytes, file.length, identifiers, SP3_MOST_SATELLITES, sp3_first_spot(), lines);
    spot_out("spot", lines, last);
    due_out("due", file, identifiers, SP3_MOST_SATELLITES, last);
    due_out("given", file, given.list, given.count, last);
    check_stays(file, last);
}

/* The spots after no line, one, three, half of them, all of them in two steps and in one, and five more. Of an accepted file the walker learns the
 * identifiers that sp3_begin leaves. */
static void spots_out(bytes_t file, identifiers_t own, identifiers_t given) {
    size_t all = line_count(file);
    after_out(file, 0);
    after_out(file, 1);
    after_out(file, 3);
    const uint64_t *identifiers = halves_out(file, all);
    check(memcmp(identifiers, own.list, own.count * sizeof *identifiers) == 0, "the identifiers of a walk and of sp3_begin");
    after_out(file, all);
    last_out(file, all + 5, given);
}

/* The identifiers of which a list has so many, and whether its other places are as they were. */
static void identifiers_out(const uint64_t *list, size_t count, size_t room) {
    size_t filled = count <= room ? count : room;
    for (size_t i = 0; i < filled; i++) {
        fputs("identifier ", stdout);
        identifier_out(list[i]);
        putchar('\n');
    }
    kept_out(list, filled, room);
}

/* The spot after all lines with room for so many identifiers, and those that they brought. */
static void short_out(bytes_t file, size_t room) {
    uint64_t *identifiers = lent_numbers(room, NUMBER_MARK);
    size_t all = line_count(file);
    sp3_spot_t at = sp3_after_lines(file.bytes, file.length, identifiers, room, sp3_first_spot(), all);
    spot_out("short", all, at);
    due_out("due", file, identifiers, room, at);
    identifiers_out(identifiers, brought(at), room);
}

/* A file walked over rows with the identifiers that sp3_begin leaves, or with those given where it is refused; and over lines. */
static void walk_out(bytes_t file, size_t room, identifiers_t given) {
    uint64_t *identifiers = lent_numbers(room, NUMBER_MARK);
    sp3_reading_t reading = sp3_begin(file.bytes, file.length, identifiers, room);
    sp3_header_t header = reading.header;
    printf("begin %zu %" PRIu64 " %zu %zu %" PRIu64 " %" PRIu64, reading.refusal, reading.line, reading.column, reading.length,
           header.satellites, header.epochs);
    version_out(reading.version);
    check_reading(reading);
    identifiers_out(identifiers, header.satellites, room);
    identifiers_t own = {shown(identifiers, room * sizeof *identifiers), room};
    rows_out(file, reading.refusal == 0 ? own : given, header);
    spots_out(file, (identifiers_t){own.list, header.satellites}, given);
    short_out(file, room);
}

void divide_case(bytes_t *batch) {
    uint64_t room = take_number(batch), way = take_number(batch), identifier_room = take_number(batch), count = take_number(batch);
    uint64_t length = take_number(batch);
    if (way > 2) stop("a stretch is divided (0), walked (1) or read by lines (2)");
    uint64_t *identifiers = lent_numbers(count, 0);
    for (size_t i = 0; i < count; i++) identifiers[i] = take_number(batch);
    identifiers_t given = {shown(identifiers, count * sizeof *identifiers), count};
    bytes_t bytes = shown_bytes(take_bytes(batch, length));
    printf("case %zu\n", bytes.length);
    divide_out(bytes, room);
    if (way == 1) walk_out(bytes, identifier_room, given);
    if (way == 2) lines_shown(bytes, identifier_room);
}
