#include <inttypes.h>
#include <stdio.h>

#include "desk.h"

// Whether a stored row is a V row: in mode V each satellite has its P row and then its V row.
static bool is_velocity(const table_t *table, size_t k) { return table->header.velocity && k % 2 == 1; }

static bool has_note(const table_t *table, size_t k) { return sp3_note_of(table->rows, table->row_numbers, k).stands; }

tally_t tally_of(const table_t *table) {
    tally_t tally = {0};
    for (size_t k = 0; k < table->row_count; k++) {
        bool velocity = is_velocity(table, k);
        if (has_note(table, k)) tally.notes[velocity]++;
        if (velocity) continue;
        tally.places[sp3_place_of(table->rows, table->row_numbers, k).absent]++;
        tally.clocks[sp3_clock_of(table->rows, table->row_numbers, k).absent]++;
    }
    return tally;
}

void show_tally(const tally_t *tally, bool notes) {
    printf("rows known %" PRIu64 " absent %" PRIu64 ", clocks known %" PRIu64 " absent %" PRIu64, tally->places[0], tally->places[1],
           tally->clocks[0], tally->clocks[1]);
    if (notes) printf(", notes EP %" PRIu64 " EV %" PRIu64, tally->notes[0], tally->notes[1]);
    putchar('\n');
}

// A text that no NUL ends, without its trailing blanks.
static void show_text(const char *label, const uint8_t *text, size_t length) {
    while (length > 0 && text[length - 1] == ' ') length--;
    if (length == 0) puts(label);
    else printf("%-13s %.*s\n", label, (int)length, (const char *)text);
}

// What the lines of the header say, but for the lists.
static void show_header(const sp3_header_t *header) {
    const sp3_texts_t *texts = &header->texts;
    char text[TEXT_ROOM];
    printf("mode          %c\n", header->velocity ? 'V' : 'P');
    printf("start         %s\n", moment(text, header->start8));
    printf("epochs        %" PRIu64 "\n", header->epochs);
    printf("interval      %s s\n", decimal(text, (int64_t)header->interval8, 8));
    show_text("data used", texts->data_used, sizeof texts->data_used);
    show_text("coordinates", texts->coordinates, sizeof texts->coordinates);
    show_text("orbit type", texts->orbit, sizeof texts->orbit);
    show_text("agency", texts->agency, sizeof texts->agency);
    show_text("file type", &header->file_type, 1);
    show_text("time system", header->time_system, sizeof header->time_system);
    printf("place base    %s\n", decimal(text, (int64_t)header->bases.place, 7));
    printf("clock base    %s\n", decimal(text, (int64_t)header->bases.clock, 9));
}

// The satellites with the exponents of the `++` lines.
static void show_satellites(const table_t *table) {
    char text[TEXT_ROOM];
    printf("satellites    %" PRIu64 "\n", table->header.satellites);
    for (size_t k = 0; k < table->header.satellites; k++)
        printf("satellite %-3zu %s accuracy exponent %" PRIu64 "\n", k, identifier(text, table->identifiers[k]), table->exponents[k]);
}

static void show_comments(const table_t *table) {
    char label[TEXT_ROOM];
    printf("comments      %" PRIu64 "\n", table->header.comments);
    for (size_t k = 0; k < table->header.comments; k++) {
        snprintf(label, sizeof label, "comment %zu", k);
        show_text(label, table->comments + k * SP3_COMMENT_WIDTH, SP3_COMMENT_WIDTH);
    }
}

// What the columns of the notes are.
static void show_note_units(bool velocity) {
    puts("EP notes      of the P row before: x-sdev y-sdev z-sdev in mm, clock-sdev in ps");
    if (velocity) puts("EV notes      of the V row before: x-sdev y-sdev z-sdev in mm/s, clock-sdev in ps/s");
    puts("x-sdev ..     standard deviations of x y z clock; - is unknown, > is too large");
    puts("xy xz ..      correlation coefficients, c is the clock; - is unknown");
}

// What the columns of the rows are, and of the notes where there are some.
static void show_heading(bool velocity, bool notes) {
    puts("P rows        x y z in mm, clock in ps");
    if (velocity) puts("V rows        x y z in mm/s, clock in ps/s");
    puts("sx sy sz sc   exponents of the standard deviations of x y z clock; - is unknown, > is too large");
    puts("flags         E clock event, P clock predicted, M maneuver, P orbit predicted; . is not set");
    if (notes) show_note_units(velocity);
    printf("row  epoch date       time              sat%15s%15s%15s%15s sx sy sz  sc flags\n", "x", "y", "z", "clock");
    if (!notes) return;
    printf("note epoch date       time              sat%15s%15s%15s%15s", "x-sdev", "y-sdev", "z-sdev", "clock-sdev");
    printf("%11s%11s%11s%11s%11s%11s\n", "xy", "xz", "xc", "yz", "yc", "zc");
}

// A number of 10^-places as text, or the sign in place of one that is unknown or too large.
static const char *number_or_sign(char text[TEXT_ROOM], bool unknown, bool too_large, int64_t value, int places) {
    return unknown ? "-" : too_large ? ">" : decimal(text, value, places);
}

// Three coordinates and a clock, `absent` in each column that has none.
static void show_numbers(const table_t *table, size_t k, int places) {
    sp3_stored_place_t place = sp3_place_of(table->rows, table->row_numbers, k);
    sp3_stored_clock_t clock = sp3_clock_of(table->rows, table->row_numbers, k);
    const int64_t numbers[] = {place.x, place.y, place.z, clock.clock};
    const bool absent[] = {place.absent, place.absent, place.absent, clock.absent};
    char text[TEXT_ROOM];
    for (int part = 0; part < 4; part++) printf("%15s", absent[part] ? "absent" : decimal(text, numbers[part], places));
}

static void show_exponents(const table_t *table, size_t k) {
    static const int widths[] = {3, 3, 3, 4};
    char text[TEXT_ROOM];
    for (size_t which = 0; which < 4; which++) {
        sp3_stored_exponent_t exponent = sp3_exponent_of(table->rows, table->row_numbers, k, which);
        printf("%*s", widths[which], number_or_sign(text, exponent.unknown, exponent.too_large, (int64_t)exponent.value, 0));
    }
}

// The flags of a stored row, and the end of its line.
static void show_flags(const table_t *table, size_t k) {
    char flags[] = " EPMP";
    for (size_t which = 0; which < 4; which++)
        if (!sp3_flag_of(table->rows, table->row_numbers, k, which).set) flags[1 + which] = '.';
    puts(flags);
}

static void show_deviations(const table_t *table, size_t k, int places) {
    char text[TEXT_ROOM];
    for (size_t which = 0; which < 4; which++) {
        sp3_note_deviation_t deviation = sp3_note_deviation_of(table->rows, table->row_numbers, k, which);
        printf("%15s", number_or_sign(text, deviation.unknown, deviation.too_large, (int64_t)deviation.value, places));
    }
}

// The correlations of a stored row's note, and the end of its line.
static void show_correlations(const table_t *table, size_t k) {
    char text[TEXT_ROOM];
    for (size_t which = 0; which < 6; which++) {
        sp3_note_correlation_t correlation = sp3_note_correlation_of(table->rows, table->row_numbers, k, which);
        printf("%11s", number_or_sign(text, correlation.unknown, false, correlation.value, 7));
    }
    putchar('\n');
}

// The line of a stored row and, directly after it, the one of its note; `whose` says epoch, instant and satellite in both.
static void show_row(const table_t *table, size_t k, const char *whose) {
    bool velocity = is_velocity(table, k);
    int places = velocity ? 4 : 0;
    printf("%c   %s", velocity ? 'V' : 'P', whose);
    show_numbers(table, k, places);
    show_exponents(table, k);
    show_flags(table, k);
    if (!has_note(table, k)) return;
    printf("E%c  %s", velocity ? 'V' : 'P', whose);
    show_deviations(table, k, places);
    show_correlations(table, k);
}

static void show_rows(const table_t *table) {
    const sp3_header_t *header = &table->header;
    size_t kinds = header->velocity ? 2 : 1, of_epoch = kinds * header->satellites;
    char instant[TEXT_ROOM], text[TEXT_ROOM], whose[TEXT_ROOM];
    const char *at = "";
    for (size_t k = 0; k < table->row_count && !ferror(stdout); k++) {
        if (k % of_epoch == 0) at = moment(instant, header->start8 + k / of_epoch * header->interval8);
        snprintf(whose, sizeof whose, "%6zu %s %s", k / of_epoch, at, identifier(text, table->identifiers[k % of_epoch / kinds]));
        show_row(table, k, whose);
    }
}

int show_table(const table_t *table) {
    tally_t tally = tally_of(table);
    bool notes = tally.notes[0] + tally.notes[1] > 0;
    show_header(&table->header);
    show_satellites(table);
    show_comments(table);
    show_heading(table->header.velocity, notes);
    show_rows(table);
    show_tally(&tally, notes);
    return ACCEPTED;
}
