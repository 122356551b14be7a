/* The format of tests/files.rs: files judged, read into lent lists and asked about. */
#include <inttypes.h>
#include <stdio.h>
#include <string.h>

#include "doors.h"

/* ---- the table, by the header and the questions for stored rows ---- */

static void text_out(const uint8_t *text, size_t length) {
    bytes_out(text, length);
    putchar('|');
}

static void header_out(sp3_header_t header) {
    printf("mode %c\n", header.velocity ? 'V' : 'P');
    printf("start8 %" PRIu64 "\nepochs %" PRIu64 "\ninterval8 %" PRIu64 "\n", header.start8, header.epochs, header.interval8);
    fputs("texts |", stdout);
    text_out(header.texts.data_used, 5);
    text_out(header.texts.coordinates, 5);
    text_out(header.texts.orbit, 3);
    text_out(header.texts.agency, 4);
    printf("\ntype %c\ntime ", header.file_type);
    bytes_out(header.time_system, 3);
    printf("\nbases %" PRIu64 " %" PRIu64 "\n", header.bases.place, header.bases.clock);
}

static void satellites_out(uint64_t count, lists_t lists) {
    printf("satellites %" PRIu64 "\n", count);
    for (size_t k = 0; k < count && k < lists.identifier_room && k < lists.exponent_room; k++) {
        identifier_out(lists.identifiers[k]);
        value(lists.exponents[k]);
        putchar('\n');
    }
}

/* A comment without its trailing blanks. */
static void comment_out(const uint8_t *text) {
    size_t length = SP3_COMMENT_WIDTH;
    while (length > 0 && text[length - 1] == ' ') length--;
    putchar('|');
    text_out(text, length);
    putchar('\n');
}

static void comments_out(uint64_t count, lists_t lists) {
    printf("comments %" PRIu64 "\n", count);
    for (size_t k = 0; k < count && k < lists.comment_room / SP3_COMMENT_WIDTH; k++) comment_out(lists.comments + k * SP3_COMMENT_WIDTH);
}

static bool is_no_stored_place(sp3_stored_place_t place) {
    return place.absent && place.x == INT64_MIN && place.y == INT64_MIN && place.z == INT64_MIN;
}

static void place_value(sp3_stored_place_t place) {
    if (place.absent) {
        fputs(" absent", stdout);
        mark(!is_no_stored_place(place));
    } else {
        signed_value(place.x);
        signed_value(place.y);
        signed_value(place.z);
    }
    mark(place.refusal != 0);
}

static void clock_value(sp3_stored_clock_t clock) {
    if (clock.absent) {
        fputs(" absent", stdout);
        mark(clock.clock != INT64_MIN);
    } else {
        signed_value(clock.clock);
    }
    mark(clock.refusal != 0);
}

static void exponent_value(sp3_stored_exponent_t exponent) {
    if (exponent.unknown) {
        fputs(" unknown", stdout);
    } else if (exponent.too_large) {
        fputs(" large", stdout);
    } else {
        value(exponent.value);
    }
    bool empty = !(exponent.unknown || exponent.too_large) || exponent.value == 0;
    mark(exponent.refusal != 0 || (exponent.unknown && exponent.too_large) || !empty);
}

static void flag_value(sp3_stored_flag_t flag, char letter) {
    putchar(flag.set ? letter : '.');
    mark(flag.refusal != 0);
}

static void deviation_value(sp3_note_deviation_t deviation) {
    if (deviation.unknown) {
        fputs(" unknown", stdout);
    } else if (deviation.too_large) {
        fputs(" large", stdout);
    } else {
        value(deviation.value);
    }
    bool empty = !(deviation.unknown || deviation.too_large) || deviation.value == UINT64_MAX;
    mark(deviation.refusal != 0 || deviation.no_record || (deviation.unknown && deviation.too_large) || !empty);
}

static void correlation_value(sp3_note_correlation_t correlation) {
    if (correlation.unknown) {
        fputs(" unknown", stdout);
        mark(correlation.value != INT64_MIN);
    } else {
        signed_value(correlation.value);
    }
    mark(correlation.refusal != 0 || correlation.no_record);
}

/* Whether deviation and correlation `which` of row k are those of no record, with this refusal. */
static bool is_no_deviation(lists_t lists, size_t k, size_t which, size_t refusal) {
    sp3_note_deviation_t d = sp3_note_deviation_of(lists.rows, lists.row_room, k, which);
    return d.refusal == refusal && d.no_record && !d.unknown && !d.too_large && d.value == UINT64_MAX;
}

static bool is_no_correlation(lists_t lists, size_t k, size_t which, size_t refusal) {
    sp3_note_correlation_t c = sp3_note_correlation_of(lists.rows, lists.row_room, k, which);
    return c.refusal == refusal && c.no_record && !c.unknown && c.value == INT64_MIN;
}

/* Whether row k has no note, nor a number of one, with this refusal. */
static bool is_no_note(lists_t lists, size_t k, size_t refusal) {
    sp3_stored_note_t note = sp3_note_of(lists.rows, lists.row_room, k);
    bool none = note.refusal == refusal && !note.stands;
    for (size_t which = 0; which < 4; which++) none = none && is_no_deviation(lists, k, which, refusal);
    for (size_t which = 0; which < 6; which++) none = none && is_no_correlation(lists, k, which, refusal);
    return none;
}

/* What the record after a row says, where one stands. */
static void note_out(lists_t lists, size_t k) {
    sp3_stored_note_t note = sp3_note_of(lists.rows, lists.row_room, k);
    if (!note.stands) {
        mark(!is_no_note(lists, k, 0));
        return;
    }
    fputs(" note", stdout);
    mark(note.refusal != 0);
    for (size_t which = 0; which < 4; which++) deviation_value(sp3_note_deviation_of(lists.rows, lists.row_room, k, which));
    for (size_t which = 0; which < 6; which++) correlation_value(sp3_note_correlation_of(lists.rows, lists.row_room, k, which));
}

/* The k-th stored row; in mode V each P row has its V row after it. */
static void row_out(sp3_header_t header, lists_t lists, size_t k) {
    const int64_t *rows = lists.rows;
    size_t room = lists.row_room, p = header.velocity ? k / 2 : k;
    putchar(header.velocity && k % 2 == 1 ? 'V' : 'P');
    value(p / header.satellites);
    putchar(' ');
    identifier_out(lists.identifiers[p % header.satellites]);
    place_value(sp3_place_of(rows, room, k));
    clock_value(sp3_clock_of(rows, room, k));
    for (size_t which = 0; which < 4; which++) exponent_value(sp3_exponent_of(rows, room, k, which));
    putchar(' ');
    for (size_t which = 0; which < 4; which++) flag_value(sp3_flag_of(rows, room, k, which), "EPMP"[which]);
    note_out(lists, k);
    putchar('\n');
}

static void rows_out(sp3_header_t header, lists_t lists) {
    uint64_t count = header.satellites * header.epochs * (header.velocity ? 2 : 1), absent = 0;
    for (size_t k = 0; k < count; k++) {
        row_out(header, lists, k);
        absent += sp3_place_of(lists.rows, lists.row_room, k).absent;
    }
    printf("rows %" PRIu64 " known %" PRIu64 " absent %" PRIu64 "\n", count, count - absent, absent);
}

/* What is not there is 13, with the marks of absence set: exponent `which` and flag `which` of row k. */
static void check_not_there(lists_t lists, size_t k, size_t which) {
    sp3_stored_exponent_t exponent = sp3_exponent_of(lists.rows, lists.row_room, k, which);
    sp3_stored_flag_t flag = sp3_flag_of(lists.rows, lists.row_room, k, which);
    check(exponent.refusal == 13 && exponent.unknown && !exponent.too_large && exponent.value == 0, "an exponent that is not there");
    check(flag.refusal == 13 && !flag.set, "a flag that is not there");
}

/* The same for all of row k, which is past the last. */
static void check_no_row(lists_t lists, size_t k) {
    sp3_stored_place_t place = sp3_place_of(lists.rows, lists.row_room, k);
    sp3_stored_clock_t clock = sp3_clock_of(lists.rows, lists.row_room, k);
    check(place.refusal == 13 && is_no_stored_place(place), "a place that is not there");
    check(clock.refusal == 13 && clock.absent && clock.clock == INT64_MIN, "a clock that is not there");
    check(is_no_note(lists, k, 13), "a note that is not there");
    check_not_there(lists, k, 0);
}

/* The same for deviation `fifth` and correlation `seventh` of row k, which no note has. */
static void check_not_noted(lists_t lists, size_t k, size_t fifth, size_t seventh) {
    check(is_no_deviation(lists, k, fifth, 13), "a deviation that is not there");
    check(is_no_correlation(lists, k, seventh, 13), "a correlation that is not there");
}

static void table_out(sp3_header_t header, lists_t lists) {
    header_out(header);
    satellites_out(header.satellites, lists);
    comments_out(header.comments, lists);
    rows_out(header, lists);
    check_no_row(lists, lists.row_room / SP3_ROW_WIDTH);
    check_no_row(lists, SIZE_MAX);
    check_not_there(lists, 0, 4);
    check_not_noted(lists, 0, 4, 6);
    check_not_noted(lists, 0, SIZE_MAX, SIZE_MAX);
}

/* ---- readings ---- */

static void told(const char *word, sp3_reading_t reading) {
    fputs(word, stdout);
    value(reading.refusal);
    value(reading.line);
    value(reading.column);
    value(reading.length);
    version_out(reading.version);
    check_reading(reading);
}

static uint64_t step(uint64_t sum, uint64_t n) { return 31 * sum + n; }

static uint64_t sum_of(const uint64_t *list, size_t count) {
    uint64_t sum = 0;
    for (size_t i = 0; i < count; i++) sum = step(sum, list[i]);
    return sum;
}

static uint64_t sum_of_bytes(const uint8_t *list, size_t count) {
    uint64_t sum = 0;
    for (size_t i = 0; i < count; i++) sum = step(sum, list[i]);
    return sum;
}

/* Of each number its size, then 1 for a minus or 0 for none. */
static uint64_t sum_of_rows(const int64_t *list, size_t count) {
    uint64_t sum = 0;
    for (size_t i = 0; i < count; i++) {
        bool minus = list[i] < 0;
        sum = step(step(sum, minus ? 0 - (uint64_t)list[i] : (uint64_t)list[i]), minus);
    }
    return sum;
}

static void sums_out(lists_t lists) {
    fputs("sums", stdout);
    value(sum_of(lists.identifiers, lists.identifier_room));
    value(sum_of(lists.exponents, lists.exponent_room));
    value(sum_of_bytes(lists.comments, lists.comment_room));
    value(sum_of_rows(lists.rows, lists.row_room));
    putchar('\n');
}

/* ---- questions ---- */

static void ask_comment(bytes_t file, uint64_t k) {
    sp3_comment_answer_t answer = sp3_comment(file.bytes, file.length, k);
    bool within = answer.at <= file.length && answer.length <= file.length - answer.at;
    fputs("comment", stdout);
    value(answer.refusal);
    value(answer.line);
    value(answer.column);
    value(answer.at);
    value(answer.length);
    fputs(" |", stdout);
    mark(!within);
    if (within) bytes_out(file.bytes + answer.at, answer.length);
    fputs("|\n", stdout);
}

/* An identifier as a text gives its number again. */
static void check_identifier(uint64_t identifier) {
    uint64_t letter = identifier / 100, number = identifier % 100;
    uint8_t text[3] = {(uint8_t)letter, (uint8_t)('0' + number / 10), (uint8_t)('0' + number % 10)};
    bool is_one = letter >= 'A' && letter <= 'Z' && number >= 1;
    if (is_one) check(sp3_identifier(shown(text, 3), 3) == identifier, "an identifier by its text");
}

static void ask_satellite(bytes_t file, uint64_t identifier) {
    sp3_satellite_answer_t answer = sp3_satellite_of(file.bytes, file.length, identifier);
    fputs("satellite", stdout);
    value(answer.refusal);
    value(answer.line);
    value(answer.column);
    value(answer.number);
    putchar('\n');
    check_identifier(identifier);
}

static void ask_row(bytes_t file, uint64_t epoch, uint64_t satellite) {
    sp3_row_answer_t answer = sp3_row(file.bytes, file.length, epoch, satellite);
    sp3_row_t row = answer.row;
    fputs("row", stdout);
    value(answer.refusal);
    value(answer.line);
    value(answer.column);
    if (row.place_absent) {
        absent_float(row.x);
        mark(row.y == row.y || row.z == row.z);
    } else {
        float_value(row.x);
        float_value(row.y);
        float_value(row.z);
    }
    row.clock_absent ? absent_float(row.clock) : float_value(row.clock);
    putchar('\n');
}

/* ---- one case ---- */

/* Reads into lists of the lengths that the case says; the header must be that of the judgement, where the file is read. */
static void read_out(const char *word, bytes_t file, bool front, const size_t rooms[4], sp3_reading_t judged) {
    lists_t lists = lent_lists(rooms[0], rooms[1], rooms[2], rooms[3]);
    sp3_reading_t reading = read_into(file, front, lists);
    told(word, reading);
    sums_out(lists);
    if (reading.refusal != 0) return;
    check(reading.length == judged.length && same_header(reading.header, judged.header), "a reading and its judgement");
    check(reading.version == judged.version, "the version of a reading and of its judgement");
    if (!front) table_out(reading.header, lists);
}

void tables_case(bytes_t *batch) {
    uint64_t numbers[9];
    for (size_t k = 0; k < 9; k++) numbers[k] = take_number(batch);
    bytes_t file = shown_bytes(take_bytes(batch, numbers[0]));
    size_t rooms[4] = {numbers[1], numbers[2], numbers[3], numbers[4]};
    sp3_reading_t front = sp3_judge_front(file.bytes, file.length);
    sp3_reading_t whole = sp3_judge(file.bytes, file.length);
    printf("case %zu\n", file.length);
    told("front", front);
    told("whole", whole);
    read_out("read", file, false, rooms, whole);
    read_out("read_front", file, true, rooms, front);
    ask_comment(file, numbers[5]);
    ask_satellite(file, numbers[8]);
    ask_row(file, numbers[6], numbers[7]);
}
