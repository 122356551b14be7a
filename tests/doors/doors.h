/* What the parts of the driver (tests/doors.c) share. */
#ifndef DOORS_H
#define DOORS_H

#include <stdbool.h>
#include <stddef.h>
#include <stdint.h>

#include "sp3.h"

/* ---- batch.c: the input, taken from its front ---- */

/* Some bytes, of which the first `at` have been taken. */
typedef struct {
    const uint8_t *bytes;
    size_t length, at;
} bytes_t;

/* The whole of standard input. */
bytes_t standard_input(void);

bool is_empty(const bytes_t *batch);

/* The next word and the one byte after it, a blank or LF: a number, a number with a sign, or whether it is this word. Each stops the program where
 * the batch has none such. */
uint64_t take_number(bytes_t *batch);
int64_t take_signed(bytes_t *batch);
bool take_word(bytes_t *batch, const char *word);

/* So many bytes as they stand. */
bytes_t take_bytes(bytes_t *batch, size_t count);

/* Stops the program with 2 and a message. */
_Noreturn void stop(const char *message);

/* ---- lent.c: memory for one case, that tells whether more of it was touched than was lent ---- */

/* A copy of some bytes that can only be read; the byte after its last cannot be touched. */
const void *shown(const void *bytes, size_t size);
bytes_t shown_bytes(bytes_t bytes);

/* So many elements, each holding the mark; they are followed by guards, and the byte before the first cannot be touched. */
uint64_t *lent_numbers(size_t count, uint64_t mark);
int64_t *lent_signed(size_t count, int64_t mark);
uint8_t *lent_bytes(size_t count, uint8_t mark);

/* The marks of the batches. */
enum { NUMBER_MARK = 7777, COMMENT_MARK = '#', ROW_MARK = -7, OUTPUT_MARK = 7 };

/* Whether every element from `from` on still holds the mark. */
bool numbers_kept(const uint64_t *list, size_t from, size_t count);

/* The end of a case: tells a guard that was changed, and takes everything back. */
void take_back(void);

/* The four lists of a table. */
typedef struct {
    uint64_t *identifiers, *exponents;
    uint8_t *comments;
    int64_t *rows;
    size_t identifier_room, exponent_room, comment_room, row_room;
} lists_t;

/* Lists with so many places, which hold marks. */
lists_t lent_lists(size_t identifiers, size_t exponents, size_t comments, size_t rows);

/* A file read into the lists: whole, or at the front of the bytes. */
sp3_reading_t read_into(bytes_t file, bool front, lists_t lists);

/* ---- print.c: answers as text ---- */

/* A number with a blank before it. */
void value(uint64_t n);
void signed_value(int64_t n);

/* A double that is a whole number, with a blank before it; any other, and minus zero, has a mark after it. */
void float_value(double x);

/* The word `absent`, with a mark after it where the number beside it is one. */
void absent_float(double x);

void bytes_out(const uint8_t *bytes, size_t count);

/* A satellite's identifier: 7107 is G07. */
void identifier_out(uint64_t identifier);

/* The letter of a version, and the end of a line. */
void version_out(uint8_t letter);

/* A mark, which stands in no expected answer, where something is wrong. */
void mark(bool wrong);

/* A line of its own, which stands in no expected answer, where something does not hold. */
void check(bool holds, const char *what);

/* ---- same.c: answers compared part by part ---- */

bool same_header(sp3_header_t one, sp3_header_t other);

/* Whether a header is the one that stands beside a refusal. */
bool is_no_header(sp3_header_t header);

bool same_spot(sp3_spot_t one, sp3_spot_t other);
bool same_line(sp3_line_answer_t one, sp3_line_answer_t other);
bool same_row(sp3_row_t one, sp3_row_t other);

/* Whether both parts of a row are absent. */
bool is_no_row(sp3_row_t row);

/* Tells a line or a column beside no refusal, and a length, header or version beside one. */
void check_reading(sp3_reading_t reading);

/* ---- the formats: one case each, and its answer ---- */

void tables_case(bytes_t *batch);
void forms_case(bytes_t *batch);
void divide_case(bytes_t *batch);
void dates_case(bytes_t *batch);

/* ---- lines.c ---- */

/* A file read line by line by the plain line reader, with room for so many identifiers. */
void lines_shown(bytes_t file, size_t room);

/* Where the lines end that are read with these identifiers known: the refusal (0 at the EOF line), the number of that line and the column. */
typedef struct {
    size_t refusal;
    uint64_t line;
    size_t column;
} line_end_t;

line_end_t known_lines(bytes_t file, const uint64_t *identifiers, size_t count);

/* A spot after k lines: its byte, the kind of line due there, and the satellites and epochs still to come. */
void spot_out(const char *word, uint64_t k, sp3_spot_t spot);

/* What must stand at a spot where these identifiers are lent: the kind of line, the kind that may stand before it, instant, satellite, and whether
 * the line there repeats an identifier. */
void due_out(const char *word, bytes_t file, const uint64_t *identifiers, size_t count, sp3_spot_t spot);

/* How many identifiers the lines before a spot have brought. */
size_t brought(sp3_spot_t spot);

#endif
