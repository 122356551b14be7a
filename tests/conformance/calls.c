/* Calls on the paper's file and on bytes made from it, for tests/conformance.sh: a line `NAME accepted` or `NAME refused N` to each, with ` line L`
 * where the answer has a line and ` column C` where the refusal names one; to each call of sp3_due a line `NAME due KIND`, with ` also KIND`,
 * ` instant8 T`, ` identifier S` and ` repeats` where the answer has them. The answers that must come are in calls.txt. */
#include "sp3.h"
#include "stretch.h"

#include <stdio.h>
#include <stdlib.h>
#include <string.h>

/* What the paper's file needs; room for more than its bytes; how far its row stands before its end (61 bytes with its LF, `EOF` 4); where its first
 * `+ ` line begins (two lines of 61 bytes stand before it), and more lines than it has. Where a row has its clock, the mark of its record, the first
 * deviation, that of the clock, and the first correlation; the bytes of a record of which nothing is known. */
enum { IDENTIFIERS = 1, COMMENTS = 4, TEXT = COMMENTS * SP3_COMMENT_WIDTH, NUMBERS = SP3_ROW_WIDTH, LENGTH = 1215, ROOM = 2 * LENGTH,
       ROW_FROM_END = 65, IDENTIFIERS_LINE = 122, ALL_LINES = 99, CLOCK = 3, MARK = 12, DEVIATION = 13, CLOCK_DEVIATION = 16, CORRELATION = 17,
       BARE_NOTE = 3 };

/* More than version c has: satellites, comments, the characters of a comment's text; room for 86 satellites. */
enum { SATELLITES_C = 85, MORE_SATELLITES = 86, MORE_COMMENTS = 5, TEXT_C = 57, LARGE_ROOM = 8000 };

/* What is changed in the paper's table before it is written. */
enum { AS_READ, EXPONENT_1000, IDENTIFIER_00, THREE_COMMENTS, CLOCK_LARGE, CLOCK_LARGEST, CLOCK_SIX_NINES, CLOCK_BELOW, CLOCK_LEAST,
       CLOCK_MINUS_LARGE, RATE_LARGEST, RATE_SIX_NINES, RATE_BELOW, PLACE_SIX_NINES, FLAG_2, PAST_2099, MARK_1, MARK_2, NO_RECORD_5, NO_RECORD_0,
       DEVIATION_9999, DEVIATION_10000, DEVIATION_MINUS, CLOCK_DEVIATION_LARGE, CORRELATION_LARGE, CORRELATION_MINUS_LARGE,
       CORRELATION_MINUS_UNKNOWN, SATELLITES_85, SATELLITES_86, SATELLITES_86_AND_EXPONENT, FIVE_COMMENTS, TEXT_57, TEXT_58 };

/* An answer; `line` is -1 where the function tells none, `column` is 0 where it tells none or the refusal names none. */
typedef struct {
    size_t refusal;
    long line;
    size_t column;
} answer_t;

static answer_t at_place(size_t refusal, uint64_t line, size_t column)
{
    return (answer_t){refusal, (long)line, column};
}

static answer_t in_line(sp3_line_answer_t line)
{
    return (answer_t){line.refusal, -1, line.column};
}

static answer_t alone(size_t refusal)
{
    return (answer_t){refusal, -1, 0};
}

/* The paper's table, with room for one epoch more, or for more satellites and comments. */
typedef struct {
    sp3_header_t header;
    uint64_t identifiers[MORE_SATELLITES], exponents[MORE_SATELLITES];
    uint8_t comments[MORE_COMMENTS * SP3_COMMENT_WIDTH];
    int64_t rows[MORE_SATELLITES * NUMBERS];
} table_t;

static table_t table_of(stretch_t file)
{
    table_t t = {0};
    t.header = sp3_read(file.bytes, file.length, t.identifiers, IDENTIFIERS, t.exponents, IDENTIFIERS, t.comments, TEXT, t.rows, NUMBERS).header;
    memcpy(t.rows + NUMBERS, t.rows, NUMBERS * sizeof t.rows[0]);
    return t;
}

/* ---- Bytes made from the paper's ---- */

static stretch_t followed_by(stretch_t paper, const void *more, size_t length)
{
    static uint8_t made[3 * LENGTH];
    memcpy(made, paper.bytes, paper.length);
    memcpy(made + paper.length, more, length);
    return (stretch_t){made, paper.length + length};
}

static stretch_t itself(stretch_t paper)
{
    return paper;
}

static stretch_t with_more(stretch_t paper)
{
    return followed_by(paper, "x", 1);
}

static stretch_t twice(stretch_t paper)
{
    return followed_by(paper, paper.bytes, paper.length);
}

/* The row names G08. */
static stretch_t damaged(stretch_t paper)
{
    stretch_t file = followed_by(paper, "", 0);
    file.bytes[file.length - ROW_FROM_END + 3] = '8';
    return file;
}

/* The row's x has a letter for its last digit. */
static stretch_t misspelt(stretch_t paper)
{
    stretch_t file = followed_by(paper, "", 0);
    file.bytes[file.length - ROW_FROM_END + 17] = 'x';
    return file;
}

/* The paper's file, and then that one. */
static stretch_t then_misspelt(stretch_t paper)
{
    stretch_t both = twice(paper);
    both.bytes[both.length - ROW_FROM_END + 17] = 'x';
    return both;
}

/* The paper's file in version c. */
static stretch_t older(stretch_t paper)
{
    stretch_t file = followed_by(paper, "", 0);
    file.bytes[1] = 'c';
    return file;
}

/* That one, and then the paper's. */
static stretch_t older_then_itself(stretch_t paper)
{
    stretch_t both = twice(paper);
    both.bytes[1] = 'c';
    return both;
}

/* And then once more that one. */
static stretch_t by_turns(stretch_t paper)
{
    stretch_t three = older_then_itself(paper);
    memcpy(three.bytes + three.length, three.bytes, paper.length);
    return (stretch_t){three.bytes, three.length + paper.length};
}

static stretch_t older_then_misspelt(stretch_t paper)
{
    stretch_t both = then_misspelt(paper);
    both.bytes[1] = 'c';
    return both;
}

/* The `+ ` line has two satellites, and both are G07. */
static stretch_t repeated(stretch_t paper)
{
    stretch_t file = followed_by(paper, "", 0);
    file.bytes[IDENTIFIERS_LINE + 5] = '2';
    memcpy(file.bytes + IDENTIFIERS_LINE + 12, "G07", 3);
    return file;
}

/* The `+ ` line has `G 7`. */
static stretch_t unnamed(stretch_t paper)
{
    stretch_t file = followed_by(paper, "", 0);
    file.bytes[IDENTIFIERS_LINE + 10] = ' ';
    return file;
}

/* ---- The calls: `with` are their numbers ---- */

/* with: identifiers and exponents, bytes of comments, numbers of rows, 1 for the file at the front */
static answer_t read_into(stretch_t file, const size_t *with)
{
    table_t t;
    sp3_reading_t r = (with[3] == 1 ? sp3_read_front : sp3_read)(file.bytes, file.length, t.identifiers, with[0], t.exponents, with[0],
                                                                 t.comments, with[1], t.rows, with[2]);
    return at_place(r.refusal, r.line, r.column);
}

static answer_t judge_front(stretch_t file, const size_t *with)
{
    (void)with;
    sp3_reading_t r = sp3_judge_front(file.bytes, file.length);
    return at_place(r.refusal, r.line, r.column);
}

/* with: identifiers */
static answer_t begin_into(stretch_t file, const size_t *with)
{
    uint64_t identifiers[IDENTIFIERS];
    sp3_reading_t r = sp3_begin(file.bytes, file.length, identifiers, with[0]);
    return at_place(r.refusal, r.line, r.column);
}

/* The table of mode V, of which the V row has this rate. */
static void rate(table_t *t, int64_t value)
{
    t->header.velocity = true;
    t->rows[NUMBERS + CLOCK] = value;
}

/* The row has a record of which one number is known. */
static void note(table_t *t, size_t place, int64_t value)
{
    t->rows[MARK] = 1;
    t->rows[place] = value;
}

/* So many satellites, G01 and on, each with the row of the first. */
static void satellites(table_t *t, size_t count)
{
    t->header.satellites = count;
    for (size_t k = 0; k < count; k++) {
        t->identifiers[k] = 'G' * 100 + 1 + k;
        memmove(t->rows + k * NUMBERS, t->rows, NUMBERS * sizeof t->rows[0]);
    }
}

static void change(table_t *t, size_t which)
{
    const uint64_t day8 = 86400ull * 100000000ull;
    switch (which) {
    case EXPONENT_1000: t->exponents[0] = 1000; break;
    case IDENTIFIER_00: t->identifiers[0] = 'G' * 100; break;
    case THREE_COMMENTS: t->header.comments = COMMENTS - 1; break;
    case CLOCK_LARGE: t->rows[CLOCK] = 1000000000000; break;
    case CLOCK_LARGEST: t->rows[CLOCK] = 999998999999; break;
    case CLOCK_SIX_NINES: t->rows[CLOCK] = 999999000000; break;
    case CLOCK_BELOW: t->rows[CLOCK] = 999999999998; break;
    case CLOCK_LEAST: t->rows[CLOCK] = -999999999999; break;
    case CLOCK_MINUS_LARGE: t->rows[CLOCK] = -1000000000000; break;
    case RATE_LARGEST: rate(t, 999998999999); break;
    case RATE_SIX_NINES: rate(t, 999999000000); break;
    case RATE_BELOW: rate(t, 999999999998); break;
    case PLACE_SIX_NINES: t->rows[0] = 999999000000; break;
    case FLAG_2: t->rows[8] = 2; break;
    case PAST_2099:
        /* 2099-12-31 is MJD 88068 */
        t->header.start8 = 88068 * day8;
        t->header.interval8 = day8;
        t->header.epochs = 2;
        break;
    case MARK_1: t->rows[MARK] = 1; break;
    case MARK_2: t->rows[MARK] = 2; break;
    case NO_RECORD_5: t->rows[DEVIATION] = 5; break;
    case NO_RECORD_0: t->rows[CORRELATION] = 0; break;
    case DEVIATION_9999: note(t, DEVIATION, 9999); break;
    case DEVIATION_10000: note(t, DEVIATION, 10000); break;
    case DEVIATION_MINUS: note(t, DEVIATION, -5); break;
    case CLOCK_DEVIATION_LARGE: note(t, CLOCK_DEVIATION, 10000000); break;
    case CORRELATION_LARGE: note(t, CORRELATION, 10000000); break;
    case CORRELATION_MINUS_LARGE: note(t, CORRELATION, -10000000); break;
    case CORRELATION_MINUS_UNKNOWN: note(t, CORRELATION, -SP3_UNNOTED); break;
    case SATELLITES_85: satellites(t, SATELLITES_C); break;
    case SATELLITES_86: satellites(t, MORE_SATELLITES); break;
    case SATELLITES_86_AND_EXPONENT:
        satellites(t, MORE_SATELLITES);
        t->exponents[0] = 1000;
        break;
    case FIVE_COMMENTS:
        t->header.comments = MORE_COMMENTS;
        memset(t->comments + TEXT, ' ', SP3_COMMENT_WIDTH);
        break;
    case TEXT_57: memset(t->comments, 'x', TEXT_C); break;
    case TEXT_58: memset(t->comments, 'x', TEXT_C + 1); break;
    }
}

/* with: what is changed, identifiers, bytes of output, numbers that the list of rows lacks */
static answer_t write_into(stretch_t file, const size_t *with)
{
    static uint8_t out[ROOM];
    table_t t = table_of(file);
    change(&t, with[0]);
    size_t numbers = t.header.epochs * (t.header.velocity ? 2 : 1) * NUMBERS - with[3];
    return alone(sp3_write(t.header, t.identifiers, with[1], t.exponents, IDENTIFIERS, t.comments, TEXT, t.rows, numbers, out, with[2]).refusal);
}

/* with: what is changed, bytes of output, the letter of the version; the lists are as long as the counts say */
static answer_t write_in(stretch_t file, const size_t *with)
{
    static uint8_t out[LARGE_ROOM];
    table_t t = table_of(file);
    change(&t, with[0]);
    size_t n = t.header.satellites, text = t.header.comments * SP3_COMMENT_WIDTH, numbers = n * NUMBERS;
    return alone((with[2] == 'c' ? sp3_write_c : sp3_write)(t.header, t.identifiers, n, t.exponents, n, t.comments, text, t.rows, numbers, out,
                                                            with[1]).refusal);
}

/* with: mode, satellites, month and day in 2001 */
static answer_t make_header(stretch_t file, const size_t *with)
{
    (void)file;
    sp3_header_parts_t parts = {.mode = (uint8_t)with[0], .start = {.year = 2001, .month = with[2], .day = with[3]}, .epochs = 1, .interval8 = 1,
                                .satellites = with[1], .comments = COMMENTS, .file_type = 'G', .time_system = {'G', 'P', 'S'}};
    memset(&parts.texts, ' ', sizeof parts.texts);
    return alone(sp3_header(parts).refusal);
}

/* with: the comment */
static answer_t ask_comment(stretch_t file, const size_t *with)
{
    sp3_comment_answer_t c = sp3_comment(file.bytes, file.length, with[0]);
    return at_place(c.refusal, c.line, c.column);
}

/* with: the identifier */
static answer_t ask_satellite(stretch_t file, const size_t *with)
{
    sp3_satellite_answer_t s = sp3_satellite_of(file.bytes, file.length, with[0]);
    return at_place(s.refusal, s.line, s.column);
}

/* with: epoch, satellite */
static answer_t ask_row(stretch_t file, const size_t *with)
{
    sp3_row_answer_t r = sp3_row(file.bytes, file.length, with[0], with[1]);
    return at_place(r.refusal, r.line, r.column);
}

/* with: numbers, the row */
static answer_t ask_stored_place(stretch_t file, const size_t *with)
{
    table_t t = table_of(file);
    return alone(sp3_place_of(t.rows, with[0], with[1]).refusal);
}

/* with: which exponent of row 0 */
static answer_t ask_stored_exponent(stretch_t file, const size_t *with)
{
    table_t t = table_of(file);
    return alone(sp3_exponent_of(t.rows, NUMBERS, 0, with[0]).refusal);
}

/* with: which flag of row 0 */
static answer_t ask_stored_flag(stretch_t file, const size_t *with)
{
    table_t t = table_of(file);
    return alone(sp3_flag_of(t.rows, NUMBERS, 0, with[0]).refusal);
}

/* with: numbers, the row */
static answer_t ask_note(stretch_t file, const size_t *with)
{
    table_t t = table_of(file);
    return alone(sp3_note_of(t.rows, with[0], with[1]).refusal);
}

/* with: numbers, the row, which deviation */
static answer_t ask_note_deviation(stretch_t file, const size_t *with)
{
    table_t t = table_of(file);
    return alone(sp3_note_deviation_of(t.rows, with[0], with[1], with[2]).refusal);
}

/* with: numbers, the row, which correlation */
static answer_t ask_note_correlation(stretch_t file, const size_t *with)
{
    table_t t = table_of(file);
    return alone(sp3_note_correlation_of(t.rows, with[0], with[1], with[2]).refusal);
}

/* with: year, month, day */
static answer_t ask_date(stretch_t file, const size_t *with)
{
    (void)file;
    return alone(sp3_date(with[0], with[1], with[2]).refusal);
}

/* with: the instant */
static answer_t ask_moment(stretch_t file, const size_t *with)
{
    (void)file;
    return alone(sp3_moment(with[0]).refusal);
}

/* with: places for lengths */
static answer_t divide_into(stretch_t stretch, const size_t *with)
{
    uint64_t lengths[3];
    sp3_division_t d = sp3_divide(stretch.bytes, stretch.length, lengths, with[0]);
    return at_place(d.refusal, d.line, d.column);
}

/* with: the byte at which the line begins */
static answer_t line_at(stretch_t file, const size_t *with)
{
    uint64_t identifiers[IDENTIFIERS] = {0};
    sp3_spot_t spot = sp3_first_spot();
    spot.at = with[0];
    return in_line(sp3_read_line(file.bytes, file.length, spot, identifiers, IDENTIFIERS));
}

/* with: how many lines the walker may pass before the line is read, identifiers */
static answer_t line_after(stretch_t file, const size_t *with)
{
    uint64_t identifiers[IDENTIFIERS] = {0};
    sp3_spot_t spot = sp3_after_lines(file.bytes, file.length, identifiers, with[1], sp3_first_spot(), with[0]);
    return in_line(sp3_read_line(file.bytes, file.length, spot, identifiers, with[1]));
}

/* with: how many lines the walker may pass before the line is read, by the identifier that it has for the file's */
static answer_t line_known_after(stretch_t file, const size_t *with)
{
    uint64_t learnt[IDENTIFIERS] = {0}, identifiers[IDENTIFIERS] = {with[1]};
    sp3_spot_t spot = sp3_after_lines(file.bytes, file.length, learnt, IDENTIFIERS, sp3_first_spot(), with[0]);
    return in_line(sp3_next_line(file.bytes, file.length, identifiers, IDENTIFIERS, spot));
}

/* with: the identifier that the walk takes for the file's */
static answer_t walk_with(stretch_t file, const size_t *with)
{
    uint64_t identifiers[IDENTIFIERS] = {with[0]};
    sp3_row_step_t s = sp3_next_row(file.bytes, file.length, identifiers, IDENTIFIERS, sp3_first_row());
    return at_place(s.refusal, s.line, s.column);
}

static const struct {
    const char *name;
    stretch_t (*made)(stretch_t paper);
    answer_t (*call)(stretch_t file, const size_t *with);
    size_t with[4];
} calls[] = {
    {"read-exact", itself, read_into, {IDENTIFIERS, TEXT, NUMBERS}},
    {"read-short-identifiers", itself, read_into, {IDENTIFIERS - 1, TEXT, NUMBERS}},
    {"read-short-comments", itself, read_into, {IDENTIFIERS, TEXT - 1, NUMBERS}},
    {"read-short-rows", itself, read_into, {IDENTIFIERS, TEXT, NUMBERS - 1}},
    {"read-rows-12", itself, read_into, {IDENTIFIERS, TEXT, 12}},
    {"read-refused-short", damaged, read_into, {0}},
    {"read-column", misspelt, read_into, {IDENTIFIERS, TEXT, NUMBERS}},
    {"read-after-end-short", with_more, read_into, {0}},
    {"front-after-end", with_more, judge_front, {0}},
    {"front-column", misspelt, judge_front, {0}},
    {"front-read-column", misspelt, read_into, {IDENTIFIERS, TEXT, NUMBERS, 1}},
    {"front-short", with_more, read_into, {IDENTIFIERS, TEXT, NUMBERS - 1, 1}},
    {"begin-exact", itself, begin_into, {IDENTIFIERS}},
    {"begin-short", itself, begin_into, {IDENTIFIERS - 1}},
    {"begin-column", misspelt, begin_into, {IDENTIFIERS}},
    {"write-exact", itself, write_into, {AS_READ, IDENTIFIERS, LENGTH}},
    {"write-short", itself, write_into, {AS_READ, IDENTIFIERS, LENGTH - 1}},
    {"write-exponent-1000", itself, write_into, {EXPONENT_1000, IDENTIFIERS, ROOM}},
    {"write-identifier-00", itself, write_into, {IDENTIFIER_00, IDENTIFIERS, ROOM}},
    {"write-three-comments", itself, write_into, {THREE_COMMENTS, IDENTIFIERS, ROOM}},
    {"write-list-short", itself, write_into, {AS_READ, IDENTIFIERS - 1, ROOM}},
    {"write-clock-large", itself, write_into, {CLOCK_LARGE, IDENTIFIERS, ROOM}},
    {"write-clock-largest", itself, write_into, {CLOCK_LARGEST, IDENTIFIERS, ROOM}},
    {"write-clock-six-nines", itself, write_into, {CLOCK_SIX_NINES, IDENTIFIERS, ROOM}},
    {"write-clock-below", itself, write_into, {CLOCK_BELOW, IDENTIFIERS, ROOM}},
    {"write-clock-least", itself, write_into, {CLOCK_LEAST, IDENTIFIERS, ROOM}},
    {"write-clock-minus-large", itself, write_into, {CLOCK_MINUS_LARGE, IDENTIFIERS, ROOM}},
    {"write-rate-largest", itself, write_into, {RATE_LARGEST, IDENTIFIERS, ROOM}},
    {"write-rate-six-nines", itself, write_into, {RATE_SIX_NINES, IDENTIFIERS, ROOM}},
    {"write-rate-below", itself, write_into, {RATE_BELOW, IDENTIFIERS, ROOM}},
    {"write-place-six-nines", itself, write_into, {PLACE_SIX_NINES, IDENTIFIERS, ROOM}},
    {"write-flag-2", itself, write_into, {FLAG_2, IDENTIFIERS, ROOM}},
    {"write-past-2099", itself, write_into, {PAST_2099, IDENTIFIERS, ROOM}},
    {"write-rows-short", itself, write_into, {AS_READ, IDENTIFIERS, ROOM, 1}},
    {"write-note-exact", itself, write_into, {MARK_1, IDENTIFIERS, LENGTH + BARE_NOTE}},
    {"write-note-short", itself, write_into, {MARK_1, IDENTIFIERS, LENGTH + BARE_NOTE - 1}},
    {"write-note-2", itself, write_into, {MARK_2, IDENTIFIERS, ROOM}},
    {"write-no-note-5", itself, write_into, {NO_RECORD_5, IDENTIFIERS, ROOM}},
    {"write-no-note-0", itself, write_into, {NO_RECORD_0, IDENTIFIERS, ROOM}},
    {"write-deviation-9999", itself, write_into, {DEVIATION_9999, IDENTIFIERS, ROOM}},
    {"write-deviation-10000", itself, write_into, {DEVIATION_10000, IDENTIFIERS, ROOM}},
    {"write-deviation-minus", itself, write_into, {DEVIATION_MINUS, IDENTIFIERS, ROOM}},
    {"write-deviation-clock", itself, write_into, {CLOCK_DEVIATION_LARGE, IDENTIFIERS, ROOM}},
    {"write-correlation-large", itself, write_into, {CORRELATION_LARGE, IDENTIFIERS, ROOM}},
    {"write-correlation-minus-large", itself, write_into, {CORRELATION_MINUS_LARGE, IDENTIFIERS, ROOM}},
    {"write-correlation-minus-unknown", itself, write_into, {CORRELATION_MINUS_UNKNOWN, IDENTIFIERS, ROOM}},
    {"write-invalid-short", itself, write_into, {EXPONENT_1000, IDENTIFIERS, 0}},
    {"write-c-exact", itself, write_in, {AS_READ, LENGTH, 'c'}},
    {"write-c-short", itself, write_in, {AS_READ, LENGTH - 1, 'c'}},
    {"write-c-85", itself, write_in, {SATELLITES_85, LARGE_ROOM, 'c'}},
    {"write-c-86", itself, write_in, {SATELLITES_86, LARGE_ROOM, 'c'}},
    {"write-c-57", itself, write_in, {TEXT_57, LARGE_ROOM, 'c'}},
    {"write-c-58", itself, write_in, {TEXT_58, LARGE_ROOM, 'c'}},
    {"write-c-three-comments", itself, write_in, {THREE_COMMENTS, LARGE_ROOM, 'c'}},
    {"write-c-five-comments", itself, write_in, {FIVE_COMMENTS, LARGE_ROOM, 'c'}},
    {"write-c-five-short", itself, write_in, {FIVE_COMMENTS, 0, 'c'}},
    {"write-c-86-exponent-1000", itself, write_in, {SATELLITES_86_AND_EXPONENT, LARGE_ROOM, 'c'}},
    {"write-d-86", older, write_in, {SATELLITES_86, LARGE_ROOM, 'd'}},
    {"write-d-58", older, write_in, {TEXT_58, LARGE_ROOM, 'd'}},
    {"header-mode-q", itself, make_header, {'Q', 1, 8, 8}},
    {"header-256", itself, make_header, {'P', 256, 8, 8}},
    {"header-999", itself, make_header, {'P', SP3_MOST_SATELLITES, 8, 8}},
    {"header-1000", itself, make_header, {'P', SP3_MOST_SATELLITES + 1, 8, 8}},
    {"header-both", itself, make_header, {'Q', SP3_MOST_SATELLITES + 1, 8, 8}},
    {"header-2001-02-29", itself, make_header, {'P', 1, 2, 29}},
    {"ask-comment-3", itself, ask_comment, {3}},
    {"ask-comment-4", itself, ask_comment, {4}},
    {"ask-refused-file", damaged, ask_comment, {4}},
    {"ask-after-end", with_more, ask_comment, {4}},
    {"ask-comment-column", misspelt, ask_comment, {0}},
    {"ask-satellite-column", misspelt, ask_satellite, {'G' * 100 + 7}},
    {"ask-row-column", misspelt, ask_row, {0, 0}},
    {"ask-satellite-g08", itself, ask_satellite, {'G' * 100 + 8}},
    {"ask-row-epoch-1", itself, ask_row, {1, 0}},
    {"ask-row-satellite-1", itself, ask_row, {0, 1}},
    {"ask-stored-row-1", itself, ask_stored_place, {2 * NUMBERS - 1, 1}},
    {"ask-stored-exponent-4", itself, ask_stored_exponent, {4}},
    {"ask-stored-flag-4", itself, ask_stored_flag, {4}},
    {"ask-note-row-0", itself, ask_note, {NUMBERS, 0}},
    {"ask-note-row-1", itself, ask_note, {2 * NUMBERS - 1, 1}},
    {"ask-note-deviation-3", itself, ask_note_deviation, {NUMBERS, 0, 3}},
    {"ask-note-deviation-4", itself, ask_note_deviation, {NUMBERS, 0, 4}},
    {"ask-note-deviation-row-1", itself, ask_note_deviation, {2 * NUMBERS - 1, 1, 0}},
    {"ask-note-correlation-5", itself, ask_note_correlation, {NUMBERS, 0, 5}},
    {"ask-note-correlation-6", itself, ask_note_correlation, {NUMBERS, 0, 6}},
    {"ask-note-correlation-row-1", itself, ask_note_correlation, {2 * NUMBERS - 1, 1, 0}},
    {"ask-date-2001-02-29", itself, ask_date, {2001, 2, 29}},
    {"ask-moment-0", itself, ask_moment, {0}},
    {"divide-two", twice, divide_into, {2}},
    {"divide-short", twice, divide_into, {1}},
    {"divide-rest", with_more, divide_into, {1}},
    {"divide-refused-first", damaged, divide_into, {0}},
    {"divide-mixed", by_turns, divide_into, {3}},
    {"divide-c-then-damaged", older_then_misspelt, divide_into, {2}},
    {"read-c-then-d", older_then_itself, read_into, {IDENTIFIERS, TEXT, NUMBERS}},
    {"divide-column", then_misspelt, divide_into, {1}},
    {"walk-line-at-end", itself, line_at, {LENGTH}},
    {"walk-identifiers-exact", itself, line_after, {2, IDENTIFIERS}},
    {"walk-identifiers-short", itself, line_after, {ALL_LINES, IDENTIFIERS - 1}},
    {"walk-identifiers-faulty-short", unnamed, line_after, {ALL_LINES, IDENTIFIERS - 1}},
    {"walk-other-row", damaged, line_after, {ALL_LINES, IDENTIFIERS}},
    {"walk-other-identifiers", itself, walk_with, {'G' * 100 + 8}},
    {"walk-line-column", misspelt, line_after, {ALL_LINES, IDENTIFIERS}},
    {"walk-known-column", misspelt, line_known_after, {ALL_LINES, 'G' * 100 + 7}},
    {"walk-row-column", misspelt, walk_with, {'G' * 100 + 7}},
};

/* What must stand where the walker is after so many lines. */
static const struct {
    const char *name;
    stretch_t (*made)(stretch_t paper);
    size_t lines;
} dues[] = {
    {"due-line-1", itself, 0},
    {"due-line-2", itself, 1},
    {"due-line-3", itself, 2},
    {"due-line-8", itself, 7},
    {"due-line-13", itself, 12},
    {"due-line-15", itself, 14},
    {"due-line-17", itself, 16},
    {"due-comment", itself, 21},
    {"due-epoch", itself, 22},
    {"due-epoch-c", older, 22},
    {"due-row", itself, 23},
    {"due-end", itself, 24},
    {"due-other-row", damaged, ALL_LINES},
    {"due-repeats", repeated, ALL_LINES},
};

static void print_due(size_t k, stretch_t file)
{
    uint64_t identifiers[IDENTIFIERS] = {0};
    sp3_spot_t spot = sp3_after_lines(file.bytes, file.length, identifiers, IDENTIFIERS, sp3_first_spot(), dues[k].lines);
    sp3_due_t due = sp3_due(file.bytes, file.length, identifiers, IDENTIFIERS, spot);
    printf("%s due %llu", dues[k].name, (unsigned long long)due.kind);
    if (due.also != 0)
        printf(" also %llu", (unsigned long long)due.also);
    if (due.instant8 != 0)
        printf(" instant8 %llu", (unsigned long long)due.instant8);
    if (due.identifier != 0)
        printf(" identifier %llu", (unsigned long long)due.identifier);
    printf("%s\n", due.repeats ? " repeats" : "");
}

static void print_answer(const char *name, answer_t a)
{
    if (a.refusal == 0) {
        printf("%s accepted\n", name);
        return;
    }
    printf("%s refused %zu", name, a.refusal);
    if (a.line >= 0)
        printf(" line %ld", a.line);
    if (a.column != 0)
        printf(" column %zu", a.column);
    printf("\n");
}

void print_calls(stretch_t paper)
{
    if (paper.length != LENGTH) {
        fprintf(stderr, "answers: calls are made on the paper's file, which has %d bytes\n", LENGTH);
        exit(2);
    }
    for (size_t k = 0; k < sizeof calls / sizeof calls[0]; k++)
        print_answer(calls[k].name, calls[k].call(calls[k].made(paper), calls[k].with));
    for (size_t k = 0; k < sizeof dues / sizeof dues[0]; k++)
        print_due(k, dues[k].made(paper));
}
