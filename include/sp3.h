/* sp3.h: the reader and writer of SP3-c and SP3-d files for C.
 *
 * Every function here is a door to one function of the proved library (crates/sp3); docs/STATEMENTS.md says what is proved of each. Link with
 * target/staticlib/libsp3.a, which `tests/archive.sh` proves and builds for x86-64.
 *
 * LENT MEMORY. A slice is a pointer and a number of elements (not bytes). A function looks at just so many and keeps no pointer. The pointer is never
 * NULL, also where the number is 0, and the slices of one call that are written (no `const`) overlap no other slice of that call. No function
 * allocates, prints, stops the program or asks anything else of its caller: bytes of every kind and length, every table, room of every size.
 *
 * THREADS. No function keeps a state: an answer follows from what the call is given. So they may be called from several threads at once, each call
 * with lent memory of its own; a slice that is only looked at (`const`) may be lent to several calls at the same time.
 *
 * VERSIONS. SP3-c and SP3-d are read and written. Each function that is lent a file tells its version by its first two bytes, SP3-c where they are
 * `#c`, else SP3-d, and judges it by the rules of that version; a division does so at the first byte of each file. A file in SP3-c has at most
 * SP3_MOST_SATELLITES_C satellites, exactly SP3_COMMENTS_C comments, and comment lines of at most SP3_COMMENT_COLUMNS_C characters; all else is
 * alike. A reading tells the version, a table keeps none, and each version has a function that writes it.
 *
 * REFUSALS. Each answer has a `refusal`, 0 for accepted, and where a file is judged its `line` and `column`, counted from 1 (0 where the refusal
 * names none). A refusal changes nothing that was lent, and every other part of the answer is then empty: 0, blank, or absent. After success the
 * places past those that are filled are unchanged too. The first faulty line decides, in a line the lowest number, of several faults with that
 * number the leftmost:
 *
 *    0  accepted
 *    1  no line end is left before the file's EOF line is complete
 *    2  a byte outside 32 to 126 stands in the line; column: that byte, also past 80
 *    3  the line has more than 80 characters, or a comment line of SP3-c more than 60; column: 81, or 61
 *    4  the line is not of a kind that may stand here
 *    5  an unused column is not blank, or a placeholder is not all `c` or a zero; column: that column, or the placeholder's first
 *    6  a field is malformed, or a letter, file type or time system is not listed; column: the field's first, also where the line ends before it;
 *       4 for year, month and day
 *    7  a number or date is outside its bounds; column: as for 6, so 4 for 86 satellites in SP3-c
 *    8  line 2 disagrees with the start, a slot after the last satellite is not `  0`, an identifier repeats, or the file type disagrees
 *    9  an epoch stands at the wrong instant
 *   10  a row names another satellite than the header has here
 *   11  bytes stand after the EOF line (whole files only; the line is the one after EOF)
 *   12  lent room is too small (line 0; after all other checks)
 *   13  the table to be written is not valid, or what is asked by number is not there (line 0; before 12)
 *   17  the table to be written is outside the bounds of SP3-c (line 0; after 13, before 12; in writing SP3-c alone)
 *
 * ABSENCE has a mark of its own (`absent`, `place_absent`, `clock_absent`). The number that stands beside a set mark is no coordinate: NaN for a
 * double, INT64_MIN for a whole number, which no file can hold. A place of which one or two coordinates are 0 is not absent. A clock or rate is
 * absent exactly where columns 47 to 53 hold 999999 without a minus; leading zeros may stand, and the six columns after the point are any digits or
 * all blank. `-999999.000000` is a clock.
 *
 * Epochs, satellites of the header, comments and rows are counted from 0. `...8` is a time in 10^-8 s. */
#ifndef SP3_H
#define SP3_H

#include <stdbool.h>
#include <stddef.h>
#include <stdint.h>

#ifdef __cplusplus
extern "C" {
#endif

/* The numbers of one stored row, and the bytes of one stored comment.
 *
 * A stored row, as sp3_read leaves it and sp3_write takes it: x, y, z, clock; their four exponents, 0 to 99 (0 to 999 for the clock) or
 * SP3_UNKNOWN; four flags, 0 or 1; then what an EP record directly after a P row, or an EV record directly after a V row, says of it: 1 where it
 * stands there and 0 where not; the standard deviations of x, y, z and clock, 0 to 9999 (0 to 9999999 for the clock); the correlations xy, xz, xc,
 * yz, yc and zc, -9999999 to 9999999. Each of these ten is SP3_UNNOTED where it is unknown, and all ten are where no such record stands. A place that
 * is absent is stored as three zeros, an absent clock as SP3_NO_CLOCK, however it was spelt: nobody should take these numbers for a place, so ask
 * sp3_place_of, sp3_clock_of and sp3_note_of instead of counting. No number is above 999,999,999,999 or below minus that, and no clock but
 * SP3_NO_CLOCK is above 999,998,999,999. */
enum { SP3_ROW_WIDTH = 23, SP3_COMMENT_WIDTH = 77, SP3_UNKNOWN = 1000, SP3_UNNOTED = 100000000 };
#define SP3_NO_CLOCK INT64_C(999999999999)

/* So many satellites a file has at most: room for as many identifiers always suffices. */
#define SP3_MOST_SATELLITES 999

/* In SP3-c: its most satellites, the number of its comments, and the most characters of a comment line, whose text begins in column 4. */
#define SP3_MOST_SATELLITES_C 85
#define SP3_COMMENTS_C 4
#define SP3_COMMENT_COLUMNS_C 60

/* A date and a time of day, the seconds in 10^-8 s. */
typedef struct {
    uint64_t year, month, day, hour, minute, second8;
} sp3_moment_t;

/* The four texts of line 1, blanks too: columns 41 to 45, 47 to 51, 53 to 55, 57 to 60. No NUL ends them. */
typedef struct {
    uint8_t data_used[5], coordinates[5], orbit[3], agency[4];
} sp3_texts_t;

/* The bases of place and clock exponents, in 10^-7 and 10^-9: `1.2500000` is 12500000 (line `%f`, columns 4 to 13 and 15 to 26). */
typedef struct {
    uint64_t place, clock;
} sp3_bases_t;

/* What the header lines of a file say. `velocity` is mode V; `start8` is the start since MJD 0; `satellites` is 1 to
 * SP3_MOST_SATELLITES; `file_type` is G, M, R, L, S, I, E, C or J. */
typedef struct {
    bool velocity;
    uint64_t start8, epochs, interval8;
    sp3_texts_t texts;
    uint64_t satellites, comments;
    uint8_t file_type, time_system[3];
    sp3_bases_t bases;
} sp3_header_t;

/* ---- Reading ---- */

/* `length` is the length of the file in bytes, LF of its EOF line included; `version` is 'c' or 'd', a blank beside a refusal. */
typedef struct {
    size_t refusal;
    uint64_t line;
    size_t column, length;
    sp3_header_t header;
    uint8_t version;
} sp3_reading_t;

/* Judges one whole file and tells its version; nothing is lent but its bytes. Refused: no bytes at all are 1 at line 1, `#a` or `#C` is 4 there; a
 * blank after the last LF is 11. */
sp3_reading_t sp3_judge(const uint8_t *file, size_t length);

/* Judges the file at the front of a stretch of files laid end to end and tells its length. Refused: as sp3_judge, but never 11. */
sp3_reading_t sp3_judge_front(const uint8_t *stretch, size_t length);

/* Reads one whole file into the first places of four lists. Needed, with n = header.satellites: n identifiers (7107 is G07: the letter's byte times
 * 100, and the number), n exponents of the `++` lines, 77 bytes for each comment (filled up with blanks), and SP3_ROW_WIDTH numbers for each of n
 * times epochs rows; twice as many rows in mode V, the P row and then the V row of each satellite. sp3_judge tells all of these. A stored row is
 * asked for by sp3_place_of and its like. Refused: 12 with line 0 where any list is short by one place; then no list has changed. */
sp3_reading_t sp3_read(const uint8_t *file, size_t length, uint64_t *identifiers, size_t identifier_room, uint64_t *exponents,
                       size_t exponent_room, uint8_t *comments, size_t comment_room, int64_t *rows, size_t row_room);

/* The same for the file at the front of a stretch. Refused: as sp3_read, but never 11. */
sp3_reading_t sp3_read_front(const uint8_t *stretch, size_t length, uint64_t *identifiers, size_t identifier_room, uint64_t *exponents,
                             size_t exponent_room, uint8_t *comments, size_t comment_room, int64_t *rows, size_t row_room);

/* ---- Writing ---- */

/* `length` is the number of bytes of the form. */
typedef struct {
    size_t refusal, length;
} sp3_measured_t;

/* Writes the canonical form of a table in SP3-d into the first bytes of `out`, an absent clock as ` 999999.999999`. Places of the lists past the
 * header's counts are not looked at.
 * Refused: 13 where the table is not valid (1000 among the exponents of the header, a flag of 2, a clock above 999,998,999,999 that is not
 * SP3_NO_CLOCK, a deviation beside a row without its record, a list shorter than its count); then 12 where `out` is one byte too short. */
sp3_measured_t sp3_write(sp3_header_t header, const uint64_t *identifiers, size_t identifier_count, const uint64_t *exponents,
                         size_t exponent_count, const uint8_t *comments, size_t comment_bytes, const int64_t *rows, size_t row_numbers,
                         uint8_t *out, size_t out_room);

/* How many bytes sp3_write would write, so that just so many can be lent. Refused: 13 where the table is not valid. */
sp3_measured_t sp3_form_length(sp3_header_t header, const uint64_t *identifiers, size_t identifier_count, const uint64_t *exponents,
                               size_t exponent_count, const uint8_t *comments, size_t comment_bytes, const int64_t *rows, size_t row_numbers);

/* The same in SP3-c: that form but for its second byte, which is `c`.
 * Refused: 13 as sp3_write; then 17 where there are 86 satellites, five comments, or a comment of 58 bytes before its trailing blanks; then 12. */
sp3_measured_t sp3_write_c(sp3_header_t header, const uint64_t *identifiers, size_t identifier_count, const uint64_t *exponents,
                           size_t exponent_count, const uint8_t *comments, size_t comment_bytes, const int64_t *rows, size_t row_numbers,
                           uint8_t *out, size_t out_room);

/* How many bytes sp3_write_c would write. Refused: 13, then 17, as sp3_write_c. */
sp3_measured_t sp3_form_length_c(sp3_header_t header, const uint64_t *identifiers, size_t identifier_count, const uint64_t *exponents,
                                 size_t exponent_count, const uint8_t *comments, size_t comment_bytes, const int64_t *rows, size_t row_numbers);

/* What a header is made of; `mode` is 'P' or 'V'. */
typedef struct {
    uint8_t mode;
    sp3_moment_t start;
    uint64_t epochs, interval8;
    sp3_texts_t texts;
    uint64_t satellites, comments;
    uint8_t file_type, time_system[3];
    sp3_bases_t bases;
} sp3_header_parts_t;

typedef struct {
    uint64_t refusal;
    sp3_header_t header;
} sp3_header_answer_t;

/* A header out of its parts. Refused: 6 for mode 'Q', 7 for 1000 satellites, 6 for both. */
sp3_header_answer_t sp3_header(sp3_header_parts_t parts);

/* ---- Stored rows, by name ---- */

/* A place in mm, or a velocity in 10^-4 mm/s. Absent exactly where all three are zero in the file, whatever the clock. */
typedef struct {
    size_t refusal;
    bool absent;
    int64_t x, y, z;
} sp3_stored_place_t;

/* A clock in ps, or a rate in 10^-16 s/s. Absent exactly where columns 47 to 53 of the file hold 999999 without a minus, whatever the place; that is
 * where the row holds SP3_NO_CLOCK. */
typedef struct {
    size_t refusal;
    bool absent;
    int64_t clock;
} sp3_stored_clock_t;

/* The exponent of a standard deviation, whose base is in the header: a blank one is unknown, 99 (999 for the clock) is too large. The value is 0
 * where a mark is set. */
typedef struct {
    size_t refusal;
    bool unknown, too_large;
    uint64_t value;
} sp3_stored_exponent_t;

typedef struct {
    size_t refusal;
    bool set;
} sp3_stored_flag_t;

/* The k-th row of `rows`, as sp3_read leaves it: columns 5 to 46, 47 to 60, then the exponents of columns 62-63, 65-66, 68-69 and 71-73 (0 to 3), and
 * the flags of columns 75, 76, 79 and 80 (0 to 3: clock event, clock predicted, maneuver, orbit predicted; a V row has none set).
 * Refused: 13 where there is no k-th row (k = 1 of 45 numbers), or `which` is 4; the mark of absence is then set too. */
sp3_stored_place_t sp3_place_of(const int64_t *rows, size_t row_numbers, size_t k);
sp3_stored_clock_t sp3_clock_of(const int64_t *rows, size_t row_numbers, size_t k);
sp3_stored_exponent_t sp3_exponent_of(const int64_t *rows, size_t row_numbers, size_t k, size_t which);
sp3_stored_flag_t sp3_flag_of(const int64_t *rows, size_t row_numbers, size_t k, size_t which);

/* Whether a correlation record stands directly after the row: EP after a P row, EV after a V row. */
typedef struct {
    size_t refusal;
    bool stands;
} sp3_stored_note_t;

/* A standard deviation of such a record, in mm and ps, after a V row in 10^-4 mm/s and 10^-4 ps/s: a blank one is unknown, 9999 (9999999 for the
 * clock) is too large. At most one mark is set; the value is UINT64_MAX where one is. */
typedef struct {
    size_t refusal;
    bool no_record, unknown, too_large;
    uint64_t value;
} sp3_note_deviation_t;

/* A correlation of such a record, in 10^-7: a blank one is unknown. At most one mark is set; the value is INT64_MIN where one is. */
typedef struct {
    size_t refusal;
    bool no_record, unknown;
    int64_t value;
} sp3_note_correlation_t;

/* What the k-th row of `rows` says of the record after it: whether there is one, the deviations of columns 5-8, 10-13, 15-18 and 20-26 (0 to 3: x, y,
 * z, clock) and the correlations of columns 28-35, 37-44, 46-53, 55-62, 64-71 and 73-80 (0 to 5: xy, xz, xc, yz, yc, zc).
 * Refused: 13 where there is no k-th row (k = 1 of 45 numbers), or `which` is 4 for a deviation, 6 for a correlation; then there is no record too. */
sp3_stored_note_t sp3_note_of(const int64_t *rows, size_t row_numbers, size_t k);
sp3_note_deviation_t sp3_note_deviation_of(const int64_t *rows, size_t row_numbers, size_t k, size_t which);
sp3_note_correlation_t sp3_note_correlation_of(const int64_t *rows, size_t row_numbers, size_t k, size_t which);

/* ---- Dividing ---- */

/* The number of accepted files at the front, the byte where the rest begins, and the refusal, line and column there, counted from that byte. */
typedef struct {
    uint64_t count;
    size_t rest, refusal;
    uint64_t line;
    size_t column;
} sp3_division_t;

/* Divides a stretch of files laid end to end, of both versions mixed; their lengths go to the first places of `lengths`, also where the rest is
 * refused. An empty stretch is 0 files, refusal 0. Refused: 12 alone, all other parts 0, where there are more files than places; the rest itself is
 * never refused with 11 or 12. */
sp3_division_t sp3_divide(const uint8_t *stretch, size_t length, uint64_t *lengths, size_t room);

/* ---- Questions about one whole file, which is judged at each call: its own refusal first, then 13 with line 0 ---- */

/* A stretch of the file: its first byte and its length, both 0 beside a refusal. */
typedef struct {
    size_t refusal;
    uint64_t line;
    size_t column, at, length;
} sp3_comment_answer_t;

/* Where the text of comment k lies: from column 4 on, trailing blanks cut. Refused: 13 for comment 4 of a file that has four. */
sp3_comment_answer_t sp3_comment(const uint8_t *file, size_t length, uint64_t k);

/* The identifier of a text of three bytes as the one number by which it is stored: 7107 for "G07"; 0, which is no satellite, for "G 7", "g07"
 * or "G00". */
uint64_t sp3_identifier(const uint8_t *text, size_t length);

typedef struct {
    size_t refusal;
    uint64_t line;
    size_t column;
    uint64_t number;
} sp3_satellite_answer_t;

/* The number in the header of the satellite with this identifier. Refused: 13 where the header has none such. */
sp3_satellite_answer_t sp3_satellite_of(const uint8_t *file, size_t length, uint64_t identifier);

/* Coordinates in mm and the clock in ps, each exactly the whole number of the file, or absent. */
typedef struct {
    double x, y, z, clock;
    bool place_absent, clock_absent;
} sp3_row_t;

typedef struct {
    size_t refusal;
    uint64_t line;
    size_t column;
    sp3_row_t row;
} sp3_row_answer_t;

/* The P row of an epoch and a satellite, in mode V too. Every call judges the whole file, as sp3_judge does: the way through all rows is the
 * walk (sp3_begin, then sp3_next_row), which judges it twice in all. Refused: 13 for epoch 96 of a file of 96; both marks are then set. */
sp3_row_answer_t sp3_row(const uint8_t *file, size_t length, uint64_t epoch, uint64_t satellite);

/* ---- Dates: plain calendar, days of 86,400 s, 1980-01-06 to 2099-12-31 ---- */

typedef struct {
    size_t refusal;
    uint64_t mjd, week, seconds;
} sp3_date_answer_t;

/* MJD, GPS week and seconds of week of a date. Refused: 7 for 2001-02-29. */
sp3_date_answer_t sp3_date(uint64_t year, uint64_t month, uint64_t day);

typedef struct {
    size_t refusal;
    sp3_moment_t moment;
} sp3_moment_answer_t;

/* The date and time of day of an instant in 10^-8 s since MJD 0; epoch k of a file is at start8 + k * interval8. Refused: 7 for instant 0. */
sp3_moment_answer_t sp3_moment(uint64_t instant8);

/* ---- A file line by line ---- */

/* What must stand next in a file. Kinds of line have the numbers 1 (`#c`, `#d`) to 14 (`EOF`). Made by the functions below; to be handed on, not
 * altered. */
typedef struct {
    uint64_t due, also, lines, left, comments;
    bool velocity;
    uint64_t satellites, epochs, at8, gap8, interval8;
} sp3_state_t;

/* Between two lines: the byte at which the next line begins, and what must stand there. */
typedef struct {
    size_t at;
    sp3_state_t state;
} sp3_spot_t;

/* What a line does: the refusal, its column (0 where it names none), whether the line ends the file, and the spot after it. A line that is refused
 * leaves the spot as it was; the state after the EOF line is the one before it. */
typedef struct {
    size_t refusal, column;
    bool finished;
    sp3_spot_t next;
} sp3_line_answer_t;

/* Before the first line. */
sp3_spot_t sp3_first_spot(void);

/* The plain line reader: what the line at a spot does. A `+ ` line without fault leaves its own in `identifiers` (SP3_MOST_SATELLITES places
 * suffice), after those of the lines before it; no other line changes the list, which is lent to the next line as this one left it. Refused: 1 where
 * no LF is left; 12 at the `+ ` line without fault that brings more identifiers than there are places for, and the list is then as it was. Never 11
 * or 13. */
sp3_line_answer_t sp3_read_line(const uint8_t *file, size_t length, sp3_spot_t spot, uint64_t *identifiers, size_t identifier_room);

/* The line reader where all identifiers of the header are known (sp3_begin): what the line at a spot does. Refused: as sp3_read_line, but never
 * 12. */
sp3_line_answer_t sp3_next_line(const uint8_t *file, size_t length, const uint64_t *identifiers, size_t identifier_count, sp3_spot_t spot);

/* What must stand at a spot: the kind of line that must come, and the kind that may stand there before it (0 for none). Kinds are 1 `#c` or `#d`, 2
 * `##`, 3 `+ `, 4 `++`, 5 `%c`, 6 `%f`, 7 `%i`, 8 comment, 9 epoch, 10 P, 11 V, 12 EP, 13 EV, 14 EOF. `instant8` is the instant at which the epoch
 * that comes next must stand, `identifier` the satellite that the row that comes next must name; each is 0 where no epoch (no row) must come, the
 * latter also where fewer identifiers are lent. `repeats` says that a `+ ` line stands there which is refused with 8 though its slots after the last
 * satellite are right: it names an identifier again. */
typedef struct {
    uint64_t kind, also, instant8, identifier;
    bool repeats;
} sp3_due_t;

/* What a refused line should have been: with the spot before that line (sp3_after_lines, one line fewer than its number) and the identifiers that the
 * lines before it left. Has no refusal. */
sp3_due_t sp3_due(const uint8_t *file, size_t length, const uint64_t *identifiers, size_t identifier_count, sp3_spot_t spot);

/* The walker's steps: the spot so many lines further, each line read as by sp3_read_line. Afterwards `identifiers` (SP3_MOST_SATELLITES places
 * suffice) holds those of the `+ ` lines that were passed; to go on from there lend it as it is. The spot stays at a line that is refused, with 12
 * too, and at the one that ends the file. Every step costs a line, also one that stays. Has no refusal. */
sp3_spot_t sp3_after_lines(const uint8_t *file, size_t length, uint64_t *identifiers, size_t identifier_room, sp3_spot_t spot, size_t lines);

/* ---- A file row by row, for the adjustment's loop ---- */

/* Between two rows. To be handed on, not altered. */
typedef struct {
    sp3_spot_t spot;
    uint64_t passed;
} sp3_row_walk_t;

/* The next row: whether the file is at its end, else epoch, satellite and row; and the walk after it. Beside a refusal and at the end both parts of
 * the row are absent and the walk is the one that was given. */
typedef struct {
    size_t refusal;
    uint64_t line;
    size_t column;
    bool end;
    uint64_t epoch, satellite;
    sp3_row_t row;
    sp3_row_walk_t next;
} sp3_row_step_t;

/* Judges a whole file and leaves the identifiers of its header in `identifiers` (SP3_MOST_SATELLITES places suffice). Refused: 12 where there is less
 * room than satellites. */
sp3_reading_t sp3_begin(const uint8_t *file, size_t length, uint64_t *identifiers, size_t identifier_room);

/* Before the first row. */
sp3_row_walk_t sp3_first_row(void);

/* The next P row in order, in mode V too; each line on the way is judged. A file that sp3_begin accepted gives all its rows, then the end.
 * Refused: 10 at its line where `identifiers` are another file's. */
sp3_row_step_t sp3_next_row(const uint8_t *file, size_t length, const uint64_t *identifiers, size_t identifier_count, sp3_row_walk_t from);

#ifdef __cplusplus
}
#endif
#endif
