// A scalar writer of SP3-c and SP3-d: plain C, the yardstick of bench/run.sh. It is written from the documents alone and shares with the library its
// header and no code: a table is judged and its form measured in a first pass, then written in a second, one line at a time.
#include <string.h>

#include "plain.h"

enum { COLUMNS = 80, SLOTS = 17, MOST_SATELLITES = SP3_MOST_SATELLITES, TEXT = 77, UNKNOWN = 1000 };

// the codes of A00 and Z99, between which those of all identifiers lie
enum { FIRST_CODE = 6500, LAST_CODE = 9099 };

// the numbers of a row, of which those from NOTE on say what the correlation record after it holds
enum { NUMBERS = 23, NOTE = 12, NOTED = NUMBERS - NOTE, UNNOTED = 100000000, MOST_CORRELATION = 9999999 };

static const uint64_t SECOND = 100000000, DAY = 86400 * 100000000ull, FIRST_DAY = 44244, LAST_DAY = 88068;
static const int64_t LARGEST = 999999999999, LARGEST_CLOCK = 999998999999, ABSENT_CLOCK = 999999999999;

// the lists of a table and their lengths
struct lists {
    const uint64_t *identifiers, *exponents;
    const uint8_t *comments;
    const int64_t *rows;
    size_t identifier_count, exponent_count, comment_count, row_count;
};

// data used 5, coordinate system 5, orbit type 3, agency 4
static const uint8_t *texts_of(const sp3_header_t *h) { return (const uint8_t *)&h->texts; }

// ---- judging

static bool printable(const uint8_t *s, size_t count) {
    for (size_t i = 0; i < count; i++)
        if (s[i] < 32 || s[i] > 126) return false;
    return true;
}

static bool listed(const uint8_t *s, size_t width, const char *list) {
    for (; *list; list += width)
        if (memcmp(s, list, width) == 0) return true;
    return false;
}

// letters and texts that their fields may hold
static bool letters_listed(const sp3_header_t *h) {
    return listed(&h->file_type, 1, "GMRLSIECJ") && listed(h->time_system, 3, "GPSGLOGALBDTTAIUTCIRNQZS") && printable(texts_of(h), 17);
}

// I7 up to 100,000, F14.8 above 0, 1 to the most satellites, four or more, F10.7 and F12.9
static bool numbers_bounded(const sp3_header_t *h) {
    return h->epochs >= 1 && h->epochs <= 100000 && h->interval8 >= 1 && h->interval8 <= 9999999999999 && h->satellites >= 1
        && h->satellites <= MOST_SATELLITES && h->comments >= 4 && h->bases.place <= 999999999 && h->bases.clock <= 99999999999;
}

static bool allowed_day(uint64_t instant) { return instant / DAY >= FIRST_DAY && instant / DAY <= LAST_DAY; }

// every epoch is a date within the bounds; nothing overflows, as the numbers are bounded by now
static bool epochs_allowed(const sp3_header_t *h) { return allowed_day(h->start8) && allowed_day(h->start8 + (h->epochs - 1) * h->interval8); }

static size_t rows_of(const sp3_header_t *h) { return h->satellites * h->epochs * (h->velocity ? 2 : 1); }

static bool lists_suffice(const sp3_header_t *h, const struct lists *t) {
    return t->identifier_count >= h->satellites && t->exponent_count >= h->satellites && t->comment_count / TEXT >= h->comments
        && t->row_count >= NUMBERS * rows_of(h);
}

// a capital letter and 01 to 99, no other like it before; the file type is M or its letter
static bool identifiers_valid(const sp3_header_t *h, const uint64_t *codes) {
    bool named[LAST_CODE - FIRST_CODE + 1] = {false};
    for (size_t i = 0; i < h->satellites; i++) {
        uint64_t letter = codes[i] / 100;
        if (letter < 'A' || letter > 'Z' || codes[i] % 100 == 0) return false;
        if (h->file_type != 'M' && letter != h->file_type) return false;
        if (named[codes[i] - FIRST_CODE]) return false;
        named[codes[i] - FIRST_CODE] = true;
    }
    return true;
}

static bool exponents_valid(const sp3_header_t *h, const uint64_t *exponents) {
    for (size_t i = 0; i < h->satellites; i++)
        if (exponents[i] > 999) return false;
    return true;
}

static bool exponent_valid(int64_t v, int64_t most) { return (v >= 0 && v <= most) || v == UNKNOWN; }

static bool clock_valid(int64_t v) { return (v >= -LARGEST && v <= LARGEST_CLOCK) || v == ABSENT_CLOCK; }

static bool row_valid(const int64_t *row, int64_t most_flag) {
    for (size_t i = 0; i < 3; i++)
        if (row[i] < -LARGEST || row[i] > LARGEST) return false;
    if (!clock_valid(row[3])) return false;
    for (size_t i = 4; i < 7; i++)
        if (!exponent_valid(row[i], 99)) return false;
    if (!exponent_valid(row[7], 999)) return false;
    for (size_t i = 8; i < NOTE; i++)
        if (row[i] < 0 || row[i] > most_flag) return false;
    return true;
}

static bool noted_valid(int64_t v, int64_t least, int64_t most) { return (v >= least && v <= most) || v == UNNOTED; }

// 0 and ten that are unknown, or 1 and ten within their bounds
static bool note_valid(const int64_t *note) {
    static const int64_t none[NOTED] = {0, UNNOTED, UNNOTED, UNNOTED, UNNOTED, UNNOTED, UNNOTED, UNNOTED, UNNOTED, UNNOTED, UNNOTED};
    if (memcmp(note, none, sizeof none) == 0) return true;
    if (note[0] != 1) return false;
    for (size_t i = 1; i < 4; i++)
        if (!noted_valid(note[i], 0, 9999)) return false;
    if (!noted_valid(note[4], 0, 9999999)) return false;
    for (size_t i = 5; i < NOTED; i++)
        if (!noted_valid(note[i], -MOST_CORRELATION, MOST_CORRELATION)) return false;
    return true;
}

// the last column of a row that isn't blank
static size_t row_columns(const int64_t *row) {
    static const uint8_t exponents[4] = {63, 66, 69, 73}, flags[4] = {75, 76, 79, 80};
    for (size_t i = 4; i-- > 0;)
        if (row[8 + i]) return flags[i];
    for (size_t i = 4; i-- > 0;)
        if (row[4 + i] != UNKNOWN) return exponents[i];
    return 60;
}

// the last columns of the fields of a correlation record
static const uint8_t noted_columns[NOTED - 1] = {8, 13, 18, 26, 35, 44, 53, 62, 71, 80};

// the last column of such a record that isn't blank
static size_t note_columns(const int64_t *note) {
    for (size_t i = NOTED - 1; i > 0; i--)
        if (note[i] != UNNOTED) return noted_columns[i - 1];
    return 2;
}

// whether all rows are valid, and the bytes of their lines
static bool rows_valid(const sp3_header_t *h, const int64_t *rows, size_t *length) {
    size_t count = rows_of(h);
    for (size_t k = 0; k < count; k++, rows += NUMBERS) {
        if (!row_valid(rows, h->velocity && k % 2 == 1 ? 0 : 1) || !note_valid(rows + NOTE)) return false;
        *length += row_columns(rows) + 1;
        if (rows[NOTE]) *length += note_columns(rows + NOTE) + 1;
    }
    return true;
}

// the last column of a comment line that isn't blank
static size_t comment_columns(const uint8_t *text) {
    size_t n = TEXT;
    while (n > 0 && text[n - 1] == ' ') n--;
    return n > 0 ? n + 3 : 2;
}

static bool comments_valid(const sp3_header_t *h, const uint8_t *text, size_t *length) {
    for (size_t k = 0; k < h->comments; k++, text += TEXT) {
        if (!printable(text, TEXT)) return false;
        *length += comment_columns(text) + 1;
    }
    return true;
}

// whether a valid table is within the bounds of SP3-c
static bool fits_older(const sp3_header_t *h, const uint8_t *text) {
    for (size_t k = 0; k < h->comments; k++)
        if (comment_columns(text + TEXT * k) > SP3_COMMENT_COLUMNS_C) return false;
    return h->satellites <= SP3_MOST_SATELLITES_C && h->comments == SP3_COMMENTS_C;
}

// the last column of line 1 that isn't blank
static size_t first_columns(const uint8_t *texts) {
    static const uint8_t columns[17] = {41, 42, 43, 44, 45, 47, 48, 49, 50, 51, 53, 54, 55, 57, 58, 59, 60};
    for (size_t i = 17; i-- > 0;)
        if (texts[i] != ' ') return columns[i];
    return 39;
}

static size_t slot_lines(size_t n) { return n <= 5 * SLOTS ? 5 : (n + SLOTS - 1) / SLOTS; }

// whether the table is valid, and the length of its form
static bool valid(const sp3_header_t *h, const struct lists *t, size_t *length) {
    if (!letters_listed(h) || !numbers_bounded(h) || !epochs_allowed(h) || !lists_suffice(h, t)) return false;
    if (!identifiers_valid(h, t->identifiers) || !exponents_valid(h, t->exponents)) return false;
    *length = first_columns(texts_of(h)) + 1 + 61 * (1 + 2 * slot_lines(h->satellites) + 6) + 32 * h->epochs + 4;
    return comments_valid(h, t->comments, length) && rows_valid(h, t->rows, length);
}

// ---- writing

// a line of 80 columns, and where it goes in the output
struct pen {
    uint8_t line[COLUMNS];
    uint8_t *out;
};

static void begin(struct pen *p, const char *symbol) {
    memset(p->line, ' ', COLUMNS);
    for (size_t i = 0; symbol[i]; i++) p->line[i] = (uint8_t)symbol[i];
}

// trailing blanks cut, and a LF
static void end(struct pen *p) {
    size_t n = COLUMNS;
    while (n > 0 && p->line[n - 1] == ' ') n--;
    memcpy(p->out, p->line, n);
    p->out[n] = '\n';
    p->out += n + 1;
}

static void text(struct pen *p, size_t first, const uint8_t *s, size_t count) { memcpy(p->line + first - 1, s, count); }

// digits up to this column, no leading zeros; the column before them
static size_t integer(struct pen *p, size_t last, uint64_t v) {
    do {
        p->line[--last] = (uint8_t)('0' + v % 10);
        v /= 10;
    } while (v);
    return last;
}

static size_t decimal(struct pen *p, size_t last, size_t places, uint64_t v) {
    for (; places > 0; places--) {
        p->line[--last] = (uint8_t)('0' + v % 10);
        v /= 10;
    }
    p->line[--last] = '.';
    return integer(p, last, v);
}

static void signed_decimal(struct pen *p, size_t last, int64_t v) {
    size_t before = decimal(p, last, 6, (uint64_t)(v < 0 ? -v : v));
    if (v < 0) p->line[before - 1] = '-';
}

static void signed_integer(struct pen *p, size_t last, int64_t v) {
    size_t before = integer(p, last, (uint64_t)(v < 0 ? -v : v));
    if (v < 0) p->line[before - 1] = '-';
}

static void identifier(struct pen *p, size_t first, uint64_t code) {
    p->line[first - 1] = (uint8_t)(code / 100);
    p->line[first] = (uint8_t)('0' + code / 10 % 10);
    p->line[first + 1] = (uint8_t)('0' + code % 10);
}

static bool is_leap(uint64_t year) { return year % 4 == 0 && (year % 100 != 0 || year % 400 == 0); }

static uint64_t year_days(uint64_t year) { return is_leap(year) ? 366 : 365; }

static uint64_t month_days(uint64_t year, uint64_t month) {
    static const uint8_t days[12] = {31, 28, 31, 30, 31, 30, 31, 31, 30, 31, 30, 31};
    return month == 2 && is_leap(year) ? 29 : days[month - 1];
}

// columns 4 to 31: year, month, day, hour, minute, second
static void moment(struct pen *p, uint64_t instant) {
    uint64_t days = instant / DAY - (FIRST_DAY - 5), time = instant % DAY, year = 1980, month = 1;
    for (; days >= year_days(year); year++) days -= year_days(year);
    for (; days >= month_days(year, month); month++) days -= month_days(year, month);
    integer(p, 7, year);
    integer(p, 10, month);
    integer(p, 13, days + 1);
    integer(p, 16, time / (3600 * SECOND));
    integer(p, 19, time / (60 * SECOND) % 60);
    decimal(p, 31, 8, time % (60 * SECOND));
}

static void write_start(struct pen *p, const sp3_header_t *h, bool older) {
    uint64_t day = h->start8 / DAY, time = h->start8 % DAY;
    begin(p, older ? "#c" : "#d");
    p->line[2] = h->velocity ? 'V' : 'P';
    moment(p, h->start8);
    integer(p, 39, h->epochs);
    text(p, 41, h->texts.data_used, 5);
    text(p, 47, h->texts.coordinates, 5);
    text(p, 53, h->texts.orbit, 3);
    text(p, 57, h->texts.agency, 4);
    end(p);
    begin(p, "##");
    integer(p, 7, (day - FIRST_DAY) / 7);
    decimal(p, 23, 8, (day - FIRST_DAY) % 7 * DAY + time);
    decimal(p, 38, 8, h->interval8);
    integer(p, 44, day);
    decimal(p, 60, 13, (125 * time + 54) / 108);
    end(p);
}

// the lines `+ `, or `++` where exponents are given
static void write_slots(struct pen *p, const sp3_header_t *h, const char *symbol, const uint64_t *numbers, bool identifiers) {
    for (size_t line = 0; line < slot_lines(h->satellites); line++) {
        begin(p, symbol);
        if (identifiers && line == 0) integer(p, 6, h->satellites);
        for (size_t i = 0; i < SLOTS; i++) {
            size_t k = SLOTS * line + i, first = 10 + 3 * i;
            if (k < h->satellites && identifiers) identifier(p, first, numbers[k]);
            else integer(p, first + 2, k < h->satellites ? numbers[k] : 0);
        }
        end(p);
    }
}

static void write_floats(struct pen *p, uint64_t place, uint64_t clock) {
    begin(p, "%f");
    decimal(p, 13, 7, place);
    decimal(p, 26, 9, clock);
    decimal(p, 41, 11, 0);
    decimal(p, 60, 15, 0);
    end(p);
}

static void write_fixed(struct pen *p, const sp3_header_t *h) {
    begin(p, "%c    cc     ccc cccc cccc cccc cccc ccccc ccccc ccccc ccccc");
    text(p, 4, &h->file_type, 1);
    text(p, 10, h->time_system, 3);
    end(p);
    begin(p, "%c cc cc ccc ccc cccc cccc cccc cccc ccccc ccccc ccccc ccccc");
    end(p);
    write_floats(p, h->bases.place, h->bases.clock);
    write_floats(p, 0, 0);
    for (size_t i = 0; i < 2; i++) {
        begin(p, "%i    0    0    0    0      0      0      0      0         0");
        end(p);
    }
}

static void write_row(struct pen *p, uint64_t code, const int64_t *row, bool velocity) {
    static const uint8_t exponents[4] = {63, 66, 69, 73}, flags[4] = {75, 76, 79, 80};
    begin(p, velocity ? "V" : "P");
    identifier(p, 2, code);
    for (size_t i = 0; i < 4; i++) signed_decimal(p, 18 + 14 * i, row[i]);
    for (size_t i = 0; i < 4; i++)
        if (row[4 + i] != UNKNOWN) integer(p, exponents[i], (uint64_t)row[4 + i]);
    for (size_t i = 0; i < 4; i++)
        if (row[8 + i]) p->line[flags[i] - 1] = (uint8_t)"EPMP"[i];
    end(p);
}

static void write_note(struct pen *p, const int64_t *note, bool velocity) {
    begin(p, velocity ? "EV" : "EP");
    for (size_t i = 1; i < NOTED; i++)
        if (note[i] != UNNOTED) signed_integer(p, noted_columns[i - 1], note[i]);
    end(p);
}

// a row, and the correlation record after it
static void write_rows(struct pen *p, uint64_t code, const int64_t *row, bool velocity) {
    write_row(p, code, row, velocity);
    if (row[NOTE]) write_note(p, row + NOTE, velocity);
}

static void write_epochs(struct pen *p, const sp3_header_t *h, const struct lists *t) {
    const int64_t *row = t->rows;
    for (uint64_t k = 0; k < h->epochs; k++) {
        begin(p, "*");
        moment(p, h->start8 + k * h->interval8);
        end(p);
        for (size_t j = 0; j < h->satellites; j++) {
            write_rows(p, t->identifiers[j], row, false);
            row += NUMBERS;
            if (h->velocity) {
                write_rows(p, t->identifiers[j], row, true);
                row += NUMBERS;
            }
        }
    }
}

static void write_comments(struct pen *p, const sp3_header_t *h, const uint8_t *comments) {
    for (size_t k = 0; k < h->comments; k++) {
        begin(p, "/*");
        text(p, 4, comments + TEXT * k, TEXT);
        end(p);
    }
}

// writes in SP3-c or in SP3-d
static sp3_measured_t write_as(bool older, const sp3_header_t *h, const struct lists *t, uint8_t *out, size_t out_room) {
    size_t length = 0;
    struct pen p;
    if (!valid(h, t, &length)) return (sp3_measured_t){13, 0};
    if (older && !fits_older(h, t->comments)) return (sp3_measured_t){17, 0};
    if (length > out_room) return (sp3_measured_t){12, 0};
    p.out = out;
    write_start(&p, h, older);
    write_slots(&p, h, "+", t->identifiers, true);
    write_slots(&p, h, "++", t->exponents, false);
    write_fixed(&p, h);
    write_comments(&p, h, t->comments);
    write_epochs(&p, h, t);
    begin(&p, "EOF");
    end(&p);
    return (sp3_measured_t){0, (size_t)(p.out - out)};
}

sp3_measured_t PLAIN(write)(sp3_header_t header, const uint64_t *identifiers, size_t identifier_count, const uint64_t *exponents,
                            size_t exponent_count, const uint8_t *comments, size_t comment_bytes, const int64_t *rows, size_t row_numbers,
                            uint8_t *out, size_t out_room) {
    const struct lists t = {identifiers, exponents, comments, rows, identifier_count, exponent_count, comment_bytes, row_numbers};
    return write_as(false, &header, &t, out, out_room);
}

sp3_measured_t PLAIN(write_c)(sp3_header_t header, const uint64_t *identifiers, size_t identifier_count, const uint64_t *exponents,
                              size_t exponent_count, const uint8_t *comments, size_t comment_bytes, const int64_t *rows, size_t row_numbers,
                              uint8_t *out, size_t out_room) {
    const struct lists t = {identifiers, exponents, comments, rows, identifier_count, exponent_count, comment_bytes, row_numbers};
    return write_as(true, &header, &t, out, out_room);
}
