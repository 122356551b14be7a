/* The format of tests/forms.rs: tables written, of files or made by numbers. */
#include <inttypes.h>
#include <stdio.h>
#include <string.h>

#include "doors.h"

/* Places of the arguments of a header, in the order of the batch. */
enum { MODE = 0, START = 1, EPOCHS = 7, INTERVAL, SATELLITES, COMMENTS, TYPE, TIME, BASES = 15, TEXTS = 17, ARGUMENTS = 34 };

static void letters(uint8_t *to, const uint64_t *numbers, size_t count) {
    for (size_t i = 0; i < count; i++) to[i] = (uint8_t)numbers[i];
}

static sp3_texts_t texts_of(const uint64_t *numbers) {
    sp3_texts_t texts;
    letters(texts.data_used, numbers, 5);
    letters(texts.coordinates, numbers + 5, 5);
    letters(texts.orbit, numbers + 10, 3);
    letters(texts.agency, numbers + 13, 4);
    return texts;
}

static sp3_header_parts_t parts_of(const uint64_t n[ARGUMENTS]) {
    sp3_header_parts_t parts = {
        .mode = (uint8_t)n[MODE],
        .start = {n[START], n[2], n[3], n[4], n[5], n[6]},
        .epochs = n[EPOCHS],
        .interval8 = n[INTERVAL],
        .texts = texts_of(n + TEXTS),
        .satellites = n[SATELLITES],
        .comments = n[COMMENTS],
        .file_type = (uint8_t)n[TYPE],
        .bases = {n[BASES], n[BASES + 1]},
    };
    letters(parts.time_system, n + TIME, 3);
    return parts;
}

/* A header with these numbers and this start, whatever they are. */
static sp3_header_t header_with(const uint64_t n[ARGUMENTS], uint64_t start8) {
    sp3_header_parts_t parts = parts_of(n);
    sp3_header_t header = {
        .velocity = parts.mode == 'V',
        .start8 = start8,
        .epochs = parts.epochs,
        .interval8 = parts.interval8,
        .texts = parts.texts,
        .satellites = parts.satellites,
        .comments = parts.comments,
        .file_type = parts.file_type,
        .bases = parts.bases,
    };
    memcpy(header.time_system, parts.time_system, 3);
    return header;
}

/* A header that was accepted, with one field changed afterwards. */
static sp3_header_t changed(sp3_header_t header, uint64_t n[ARGUMENTS], uint64_t field, uint64_t to) {
    if (field >= ARGUMENTS) return header;
    n[field] = to;
    return header_with(n, field == START ? to : header.start8);
}

/* A table whose lists are shown to the library, not lent, and the version that is wanted, by its letter. */
typedef struct {
    uint64_t version;
    sp3_header_t header;
    const uint64_t *identifiers, *exponents;
    const uint8_t *comments;
    const int64_t *rows;
    lists_t lists;
} table_t;

static table_t table_of(uint64_t version, sp3_header_t header, lists_t lists) {
    return (table_t){
        .version = version,
        .header = header,
        .identifiers = shown(lists.identifiers, lists.identifier_room * sizeof *lists.identifiers),
        .exponents = shown(lists.exponents, lists.exponent_room * sizeof *lists.exponents),
        .comments = shown(lists.comments, lists.comment_room),
        .rows = shown(lists.rows, lists.row_room * sizeof *lists.rows),
        .lists = lists,
    };
}

static sp3_measured_t write_into(table_t t, uint8_t *out, size_t room) {
    return (t.version == 'c' ? sp3_write_c : sp3_write)(t.header, t.identifiers, t.lists.identifier_room, t.exponents,
                                                        t.lists.exponent_room, t.comments, t.lists.comment_room, t.rows,
                                                        t.lists.row_room, out, room);
}

/* The length of a table's form in this version. */
static sp3_measured_t length_told(table_t t, uint64_t version) {
    return (version == 'c' ? sp3_form_length_c : sp3_form_length)(t.header, t.identifiers, t.lists.identifier_room, t.exponents,
                                                                  t.lists.exponent_room, t.comments, t.lists.comment_room, t.rows,
                                                                  t.lists.row_room);
}

/* Whether writing into so much room answers this. */
static bool writes(table_t table, size_t room, size_t refusal, size_t length) {
    sp3_measured_t answer = write_into(table, lent_bytes(room, OUTPUT_MARK), room);
    return answer.refusal == refusal && answer.length == length;
}

/* The length that is told before: just so much room suffices, and not one byte less, in d too; 13 and 17 are told alike, and what is 17 is a table
 * in d. */
static void check_length(table_t t, sp3_measured_t written) {
    sp3_measured_t told = length_told(t, t.version), in_d = length_told(t, 'd');
    bool form = told.refusal == 0 && told.length > 0 && in_d.refusal == 0 && in_d.length == told.length;
    if (written.refusal == 13 || written.refusal == 17) {
        check(told.refusal == written.refusal && told.length == 0, "the length of what is no table of the version");
        check(in_d.refusal == (written.refusal == 13 ? 13 : 0), "what can't be put into c and is no table");
    } else {
        check(form && writes(t, told.length, 0, told.length) && writes(t, told.length - 1, 12, 0), "the length of a form");
    }
}

/* Whether the first places of the lists of a table are those of others, as far as these go. */
static bool same_lists(table_t t, lists_t other) {
    return memcmp(t.identifiers, other.identifiers, other.identifier_room * sizeof *other.identifiers) == 0 &&
           memcmp(t.exponents, other.exponents, other.exponent_room * sizeof *other.exponents) == 0 &&
           memcmp(t.comments, other.comments, other.comment_room) == 0 && memcmp(t.rows, other.rows, other.row_room * sizeof *other.rows) == 0;
}

/* What was written is read back with the version and the table that were given. */
static void check_again(table_t t, bytes_t form) {
    sp3_header_t h = t.header;
    lists_t lists = lent_lists(h.satellites, h.satellites, h.comments * SP3_COMMENT_WIDTH,
                               h.satellites * h.epochs * (h.velocity ? 2 : 1) * SP3_ROW_WIDTH);
    sp3_reading_t again = read_into(shown_bytes(form), false, lists);
    check(again.refusal == 0 && again.version == t.version && again.length == form.length, "a form and its version read back");
    check(same_header(again.header, h) && same_lists(t, lists), "the table of a form");
}

/* Writes a table into a room of marks. */
static void write_out(table_t table, size_t room) {
    uint8_t *out = lent_bytes(room, OUTPUT_MARK);
    sp3_measured_t answer = write_into(table, out, room);
    size_t written = answer.length <= room ? answer.length : 0;
    bool kept = answer.length == written;
    for (size_t i = written; i < room; i++) kept = kept && out[i] == OUTPUT_MARK;
    printf("write %zu %zu\n", answer.refusal, answer.length);
    bytes_out(out, written);
    puts(kept ? "kept" : "changed");
    check_length(table, answer);
    if (answer.refusal == 0) check_again(table, (bytes_t){out, written, 0});
}

/* A file read into these lists and written again in a version. */
static void file_out(bytes_t file, lists_t lists, uint64_t version, size_t room) {
    sp3_reading_t reading = read_into(file, false, lists);
    printf("read %zu %" PRIu64 " %zu", reading.refusal, reading.line, reading.column);
    version_out(reading.version);
    check_reading(reading);
    if (reading.refusal == 0) write_out(table_of(version, reading.header, lists), room);
}

/* Lists with the room that the format says: for a satellite more than there can be, for 1,000 rows. */
static lists_t roomy_lists(void) {
    const size_t identifiers = SP3_MOST_SATELLITES + 1, rows = 1000 * SP3_ROW_WIDTH, comments = 8000;
    return lent_lists(identifiers, identifiers, comments, rows);
}

/* Lists with just the room that a file needs. */
static lists_t needed_lists(bytes_t file) {
    sp3_header_t header = sp3_judge(file.bytes, file.length).header;
    size_t rows = header.satellites * header.epochs * (header.velocity ? 2 : 1);
    return lent_lists(header.satellites, header.satellites, header.comments * SP3_COMMENT_WIDTH, rows * SP3_ROW_WIDTH);
}

/* The lists of a table, in the order of the batch. */
static lists_t lists_of(bytes_t *text, const uint64_t lengths[4]) {
    lists_t lists = lent_lists(lengths[0], lengths[1], lengths[2], lengths[3]);
    for (size_t i = 0; i < lists.identifier_room; i++) lists.identifiers[i] = take_number(text);
    for (size_t i = 0; i < lists.exponent_room; i++) lists.exponents[i] = take_number(text);
    for (size_t i = 0; i < lists.row_room; i++) lists.rows[i] = take_signed(text);
    bytes_t comments = take_bytes(text, lists.comment_room);
    if (comments.length > 0) memcpy(lists.comments, comments.bytes, comments.length);
    return lists;
}

/* A table made by numbers: its header, then the table written. */
static void table_out(bytes_t text, uint64_t version, size_t room) {
    uint64_t n[ARGUMENTS], rest[6];
    for (size_t k = 0; k < ARGUMENTS; k++) n[k] = take_number(&text);
    for (size_t k = 0; k < 6; k++) rest[k] = take_number(&text);
    sp3_header_answer_t answer = sp3_header(parts_of(n));
    printf("new %" PRIu64 "\n", answer.refusal);
    if (answer.refusal != 0) {
        check(is_no_header(answer.header), "a header beside a refusal");
        return;
    }
    check(same_header(answer.header, header_with(n, answer.header.start8)), "a header and what it was made of");
    write_out(table_of(version, changed(answer.header, n, rest[0], rest[1]), lists_of(&text, rest + 2)), room);
}

void forms_case(bytes_t *batch) {
    uint64_t kind = take_number(batch), version = take_number(batch), room = take_number(batch), length = take_number(batch);
    if (kind > 2) stop("a case is a file (0, 2) or a table (1)");
    if (version != 'c' && version != 'd') stop("a form is written in c (99) or d (100)");
    bytes_t bytes = take_bytes(batch, length);
    printf("%s %" PRIu64 " %" PRIu64 "\n", kind == 1 ? "table" : "file", room, length);
    if (kind == 1) {
        table_out(bytes, version, room);
        return;
    }
    bytes_t file = shown_bytes(bytes);
    file_out(file, kind == 0 ? roomy_lists() : needed_lists(file), version, room);
}
