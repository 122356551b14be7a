// The parts of the desk tool: words.c says things, causes.c says what a refusal comes from, shown.c shows the refused line, lent.c lends memory,
// table.c shows tables, sp3.c has the commands.
#ifndef DESK_H
#define DESK_H

#include <stdio.h>

#include "../include/sp3.h"

// ---- What is said: results on standard output, messages on standard error. A refusal is a result of `check`, and a message of the others ----

// The statuses that the tool ends with, each graver than the one before.
enum { ACCEPTED = 0, REFUSED = 1, UNUSABLE = 2 };

// The refusal of a table that SP3-c cannot hold.
enum { OUTSIDE_C = 17 };

// A refusal in words.
const char *words_of(uint64_t number);

// What was refused: the number, the line and the column (0 where it names none), and the bytes that were judged.
typedef struct {
    uint64_t number, line;
    size_t column;
    const uint8_t *bytes;
    size_t length;
} refusal_t;

// Says which refusal the subject, a format with its values, was given, what it comes from, and shows the line. Gives REFUSED.
int refused(FILE *to, const refusal_t *refusal, const char *subject, ...);

// Says a refusal in words, and in parentheses what the bytes make plain, or what stands in the line and what was due.
void say_cause(FILE *to, const refusal_t *refusal);

// A line without its LF; where the bytes have no such line it is not there.
typedef struct {
    bool there;
    const uint8_t *at;
    size_t length;
} line_t;

// The line that a refusal names.
line_t line_of(const refusal_t *refusal);

// Shows that line, where there is one, and under it a caret, where the refusal has a column.
void show_line(FILE *to, const refusal_t *refusal);

// Says why the subject, a format with its values, is of no use. Gives UNUSABLE.
int unusable(const char *why, const char *subject, ...);

// Hands on all results and gives the status to end with: where a writing failed, UNUSABLE, and the reason is said.
int last_status(int status);

// Room for a text of these three; each gives where in it the text begins.
enum { TEXT_ROOM = 80 };

// A whole number of 10^-places as text, digit for digit.
const char *decimal(char room[TEXT_ROOM], int64_t value, int places);

// An instant in 10^-8 s since MJD 0 as date and time.
const char *moment(char room[TEXT_ROOM], uint64_t instant8);

// The text of an identifier, G07 for 7107.
const char *identifier(char room[TEXT_ROOM], uint64_t number);

// ---- What is lent. Where a status is not ACCEPTED its reason has been said; what was taken is dropped in every case ----

// A whole input in memory.
typedef struct {
    const char *name;
    uint8_t *bytes;
    size_t length;
} input_t;

// An accepted file with its header and version; read_table fills the lists, read_identifiers the identifiers alone.
typedef struct {
    input_t file;
    sp3_header_t header;
    uint8_t version;
    uint64_t *identifiers, *exponents;
    uint8_t *comments;
    int64_t *rows;
    size_t comment_bytes, row_count, row_numbers;
} table_t;

// Room for so many elements, also for none; NULL where there is not so much memory.
void *lend(size_t count, size_t size);

// The status of a file for which there is not enough memory.
int out_of_memory(const input_t *file);

// All bytes of a file of any kind, a pipe too, or of standard input where the argument is `-`.
int take_input(input_t *input, const char *argument);
void drop_input(input_t *input);

// A file judged, its header and version; where it is refused, that is said there. Then either its identifiers or its whole table.
int judge_file(table_t *table, const char *argument, FILE *refusals);
int read_identifiers(table_t *table);
int read_table(table_t *table);
void drop_table(table_t *table);

// ---- What is shown of a table ----

// How many places and clocks of P rows are known (0) and absent (1), and how many notes P rows (0) and V rows (1) have: EP and EV records.
typedef struct {
    uint64_t places[2], clocks[2], notes[2];
} tally_t;

tally_t tally_of(const table_t *table);

// Ends a line with the counts, where `notes` is set with those of the notes too.
void show_tally(const tally_t *tally, bool notes);

// The header, a line for each row and each note, the count. Of notes nothing is said where there are none.
int show_table(const table_t *table);

#endif
