// sp3: SP3-c and SP3-d files at the desk. It lends memory to the functions of include/sp3.h and prints what they answer; every rule of the format is
// theirs.
#define _POSIX_C_SOURCE 200809L
#include <inttypes.h>
#include <signal.h>
#include <stdio.h>
#include <stdlib.h>
#include <string.h>

#include "desk.h"

// The refusal after which more is lent.
enum { ROOM_TOO_SMALL = 12 };

// The version that `rewrite` is to write; 0 where none was asked for.
static uint8_t asked_version;

// Whether a word is digits alone and its number fits.
static bool is_number(uint64_t *number, const char *word) {
    *number = 0;
    for (const char *at = word; *at != '\0'; at++) {
        if (*at < '0' || *at > '9') return false;
        uint64_t digit = (uint64_t)(*at - '0');
        if (*number > (UINT64_MAX - digit) / 10) return false;
        *number = *number * 10 + digit;
    }
    return *word != '\0';
}

// The number that an argument must be.
static int take_number(uint64_t *number, const char *name, const char *word) {
    return is_number(number, word) ? ACCEPTED : unusable("not a number from 0 to 18446744073709551615", "%s '%s'", name, word);
}

// Reads a whole table and has it shown; where its file is refused, that is said there.
static int with_table(const char *argument, FILE *refusals, int (*show)(const table_t *table)) {
    table_t table;
    int status = judge_file(&table, argument, refusals);
    if (status == ACCEPTED) status = read_table(&table);
    if (status == ACCEPTED) status = show(&table);
    drop_table(&table);
    return status;
}

// ---- check ----

// The line of an accepted file.
static int show_checked(const table_t *table) {
    const sp3_header_t *header = &table->header;
    tally_t tally = tally_of(table);
    char start[TEXT_ROOM], interval[TEXT_ROOM];
    printf("%s: accepted, SP3-%c, mode %c, start %s, epochs %" PRIu64 ", interval %s s, satellites %" PRIu64 ", time system %.3s, ",
           table->file.name, table->version, header->velocity ? 'V' : 'P', moment(start, header->start8), header->epochs,
           decimal(interval, (int64_t)header->interval8, 8), header->satellites, (const char *)header->time_system);
    show_tally(&tally, true);
    return ACCEPTED;
}

// Each file is judged, also after a refused one; the gravest status is given.
static int check(char **arguments) {
    int gravest = ACCEPTED;
    for (; *arguments != NULL; arguments++) {
        int status = with_table(*arguments, stdout, show_checked);
        if (status > gravest) gravest = status;
    }
    return gravest;
}

// ---- rewrite and table ----

// How long the canonical form of a table in a version is.
static sp3_measured_t measure_form(const table_t *table, uint8_t version) {
    size_t satellites = table->header.satellites;
    return (version == 'c' ? sp3_form_length_c : sp3_form_length)(table->header, table->identifiers, satellites, table->exponents, satellites,
                                                                  table->comments, table->comment_bytes, table->rows, table->row_numbers);
}

static sp3_measured_t write_form(const table_t *table, uint8_t version, uint8_t *form, size_t room) {
    size_t satellites = table->header.satellites;
    return (version == 'c' ? sp3_write_c : sp3_write)(table->header, table->identifiers, satellites, table->exponents, satellites, table->comments,
                                                      table->comment_bytes, table->rows, table->row_numbers, form, room);
}

// The table of an accepted file is valid; in SP3-c it may still be refused.
static int refused_form(const input_t *file, uint64_t number) {
    refusal_t refusal = {number, 0, 0, file->bytes, file->length};
    return number == OUTSIDE_C ? refused(stderr, &refusal, "%s", file->name) : unusable("the table to be written is not valid", "%s", file->name);
}

// Writes the canonical form, in the version of the file where no other was asked for, into just as many bytes as it has.
static int show_form(const table_t *table) {
    uint8_t version = asked_version == 0 ? table->version : asked_version;
    sp3_measured_t written = measure_form(table, version);
    if (written.refusal != 0) return refused_form(&table->file, written.refusal);
    uint8_t *form = lend(written.length, 1);
    if (form == NULL) return out_of_memory(&table->file);
    written = write_form(table, version, form, written.length);
    fwrite(form, 1, written.length, stdout);
    free(form);
    return written.refusal == 0 ? ACCEPTED : refused_form(&table->file, written.refusal);
}

static int rewrite(char **arguments) { return with_table(arguments[0], stderr, show_form); }

static int table(char **arguments) { return with_table(arguments[0], stderr, show_table); }

// ---- row and comment ----

// The identifier that a word names, 0 for none.
static uint64_t named(const char *word) { return sp3_identifier((const uint8_t *)word, strlen(word)); }

// The number in the header of a satellite that is given by its number or its identifier.
static int find_satellite(uint64_t *number, const input_t *file, const char *word) {
    if (is_number(number, word)) return ACCEPTED;
    sp3_satellite_answer_t found = sp3_satellite_of(file->bytes, file->length, named(word));
    *number = found.number;
    if (found.refusal == 0) return ACCEPTED;
    refusal_t refusal = {found.refusal, found.line, found.column, file->bytes, file->length};
    return refused(stderr, &refusal, "%s: satellite %s", file->name, word);
}

// Which row it is, its place and its clock.
static void show_row(const table_t *table, uint64_t epoch, uint64_t satellite, const sp3_row_t *row) {
    char instant[TEXT_ROOM], text[TEXT_ROOM];
    printf("epoch %" PRIu64 " %s\n", epoch, moment(instant, table->header.start8 + epoch * table->header.interval8));
    printf("satellite %" PRIu64 " %s\n", satellite, identifier(text, table->identifiers[satellite]));
    if (row->place_absent) puts("place absent");
    else printf("place %.0f %.0f %.0f mm\n", row->x, row->y, row->z);
    if (row->clock_absent) puts("clock absent");
    else printf("clock %.0f ps\n", row->clock);
}

static int ask_row(const table_t *table, uint64_t epoch, const char *word) {
    const input_t *file = &table->file;
    uint64_t satellite;
    int status = find_satellite(&satellite, file, word);
    if (status != ACCEPTED) return status;
    sp3_row_answer_t answer = sp3_row(file->bytes, file->length, epoch, satellite);
    refusal_t refusal = {answer.refusal, answer.line, answer.column, file->bytes, file->length};
    if (answer.refusal != 0) return refused(stderr, &refusal, "%s: epoch %" PRIu64 ", satellite %s", file->name, epoch, word);
    show_row(table, epoch, satellite, &answer.row);
    return ACCEPTED;
}

static int row(char **arguments) {
    uint64_t epoch, number;
    const char *word = arguments[2];
    if (take_number(&epoch, "EPOCH", arguments[1]) != ACCEPTED) return UNUSABLE;
    if (!is_number(&number, word) && named(word) == 0)
        return unusable("neither an identifier such as G07 nor a number from 0 to 18446744073709551615", "SAT '%s'", word);
    table_t table;
    int status = judge_file(&table, arguments[0], stderr);
    if (status == ACCEPTED) status = read_identifiers(&table);
    if (status == ACCEPTED) status = ask_row(&table, epoch, word);
    drop_table(&table);
    return status;
}

static int ask_comment(const input_t *file, uint64_t k) {
    sp3_comment_answer_t answer = sp3_comment(file->bytes, file->length, k);
    refusal_t refusal = {answer.refusal, answer.line, answer.column, file->bytes, file->length};
    if (answer.refusal != 0) return refused(stderr, &refusal, "%s: comment %" PRIu64, file->name, k);
    fwrite(file->bytes + answer.at, 1, answer.length, stdout);
    putchar('\n');
    return ACCEPTED;
}

static int comment(char **arguments) {
    uint64_t k;
    if (take_number(&k, "K", arguments[1]) != ACCEPTED) return UNUSABLE;
    table_t table;
    int status = judge_file(&table, arguments[0], stderr);
    if (status == ACCEPTED) status = ask_comment(&table.file, k);
    drop_table(&table);
    return status;
}

// ---- divide ----

// Divides a stretch; lends room for some lengths, and for eight times as many each time that they are too few.
static int divide_input(sp3_division_t *division, uint64_t **lengths, const input_t *stretch) {
    division->refusal = ROOM_TOO_SMALL;
    for (size_t room = 64; division->refusal == ROOM_TOO_SMALL; room *= 8) {
        free(*lengths);
        *lengths = lend(room, sizeof **lengths);
        if (*lengths == NULL) return out_of_memory(stretch);
        *division = sp3_divide(stretch->bytes, stretch->length, *lengths, room);
    }
    return ACCEPTED;
}

// Says why the rest of a stretch is no file.
static int refused_rest(const sp3_division_t *division, const input_t *stretch) {
    size_t rest = division->rest;
    refusal_t refusal = {division->refusal, division->line, division->column, stretch->bytes + rest, stretch->length - rest};
    return refused(stderr, &refusal, "%s: from byte %zu", stretch->name, rest);
}

// A line for each file, then what is left.
static int show_division(const sp3_division_t *division, const uint64_t *lengths, const input_t *stretch) {
    uint64_t first = 0;
    for (uint64_t k = 0; k < division->count; first += lengths[k++])
        printf("file %" PRIu64 " first byte %" PRIu64 " length %" PRIu64 "\n", k, first, lengths[k]);
    if (division->refusal != 0) return refused_rest(division, stretch);
    printf("nothing is left: files %" PRIu64 ", bytes %zu\n", division->count, stretch->length);
    return ACCEPTED;
}

static int divide(char **arguments) {
    input_t stretch;
    sp3_division_t division = {0};
    uint64_t *lengths = NULL;
    int status = take_input(&stretch, arguments[0]);
    if (status == ACCEPTED) status = divide_input(&division, &lengths, &stretch);
    if (status == ACCEPTED) status = show_division(&division, lengths, &stretch);
    free(lengths);
    drop_input(&stretch);
    return status;
}

// ---- date ----

static int date(char **arguments) {
    static const char *const names[] = {"Y", "M", "D"};
    uint64_t parts[3];
    for (int k = 0; k < 3; k++)
        if (take_number(&parts[k], names[k], arguments[k]) != ACCEPTED) return UNUSABLE;
    sp3_date_answer_t answer = sp3_date(parts[0], parts[1], parts[2]);
    if (answer.refusal == 0) {
        printf("MJD %" PRIu64 ", GPS week %" PRIu64 ", seconds of week %" PRIu64 "\n", answer.mjd, answer.week, answer.seconds);
        return ACCEPTED;
    }
    fprintf(stderr, "%s %s %s: refused %zu: %s\n", arguments[0], arguments[1], arguments[2], answer.refusal, words_of(answer.refusal));
    return REFUSED;
}

// ---- Words of the command line ----

typedef struct {
    const char *name, *arguments, *meaning;
    int fewest;
    bool more;
    int (*run)(char **arguments);
} command_t;

static const command_t commands[] = {
    {"check", "FILE..", "judge each file: what an accepted one holds, or why it is refused", 1, true, check},
    {"rewrite", "[--as c|d] FILE", "write a file's canonical form, in its own version or as SP3-c or SP3-d", 1, false, rewrite},
    {"table", "FILE", "show the header, every row and its EP or EV; absent as a word", 1, false, table},
    {"row", "FILE EPOCH SAT", "show a satellite's place and clock at an epoch; SAT is G07 or a number", 3, false, row},
    {"comment", "FILE K", "write the text of a comment", 2, false, comment},
    {"divide", "FILE", "tell where each file begins in a stretch of files laid end to end", 1, false, divide},
    {"date", "Y M D", "tell MJD, GPS week and seconds of week of a date", 3, false, date},
};
enum { COMMANDS = sizeof commands / sizeof *commands };

static int usage(FILE *to, int status) {
    fputs("usage: sp3 COMMAND ARGUMENTS\n\n", to);
    for (size_t k = 0; k < COMMANDS; k++) fprintf(to, "  sp3 %-7s %-15s %s\n", commands[k].name, commands[k].arguments, commands[k].meaning);
    fputs("\nFILE, in SP3-c or SP3-d, may be - for standard input; a name that begins with - comes after --.\n"
          "Epochs, satellites and comments are counted from 0. Results, for check the refusals too, go to\n"
          "standard output, messages to standard error.\n"
          "Status: 0 accepted, 1 refused, 2 wrong arguments or an input or output that fails.\n",
          to);
    return status;
}

// The version that the word after `--as` must be.
static int take_version(const char *word) {
    if (word == NULL || (strcmp(word, "c") != 0 && strcmp(word, "d") != 0)) return unusable("c or d must come after it", "--as");
    asked_version = (uint8_t)*word;
    return ACCEPTED;
}

// Takes the options, and `--` that ends them, out of the words.
static int take_options(bool *help, char **words) {
    char **kept = words;
    bool ended = false;
    for (; *words != NULL; words++) {
        bool option = !ended && (*words)[0] == '-' && (*words)[1] != '\0';
        if (!option) *kept++ = *words;
        else if (strcmp(*words, "--") == 0) ended = true;
        else if (strcmp(*words, "-h") == 0 || strcmp(*words, "--help") == 0) *help = true;
        else if (strcmp(*words, "--as") != 0) return unusable("no such option; a name that begins with - comes after --", "%s", *words);
        else if (take_version(*++words) != ACCEPTED) return UNUSABLE;
    }
    *kept = NULL;
    return ACCEPTED;
}

// Runs the command that the words name.
static int run(char **words) {
    int count = 0;
    while (words[count] != NULL) count++;
    if (count == 0) return usage(stderr, UNUSABLE);
    for (const command_t *command = commands; command < commands + COMMANDS; command++) {
        if (strcmp(words[0], command->name) != 0) continue;
        if (asked_version != 0 && command->run != rewrite) return unusable("for rewrite alone", "--as");
        if (count - 1 == command->fewest || (command->more && count - 1 > command->fewest)) return command->run(words + 1);
        return unusable(command->arguments, "the arguments of %s are", command->name);
    }
    unusable("no such command", "%s", words[0]);
    return usage(stderr, UNUSABLE);
}

int main(int count, char **words) {
    bool help = false;
    // a reader of the results that has seen enough ends the tool without a word, whatever was inherited
    signal(SIGPIPE, SIG_DFL);
    if (count == 0) return usage(stderr, UNUSABLE);
    int status = take_options(&help, ++words);
    if (status == ACCEPTED && *words != NULL && strcmp(*words, "help") == 0) help = true;
    if (status == ACCEPTED) status = help ? usage(stdout, ACCEPTED) : run(words);
    return last_status(status);
}
