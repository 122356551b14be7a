// A scalar reader and divider of SP3-c and SP3-d: plain C, the yardstick of bench/run.sh. It is written from the documents alone and shares with the
// library its header and no code: one line at a time, every column judged in a first pass, the lent lists filled in a second. Of a
// refusal it tells number and line; the column is 0.
#include <string.h>

#include "plain.h"

enum { COLUMNS = 80, SLOTS = 17, MOST_SATELLITES = SP3_MOST_SATELLITES, MOST_EPOCHS = 100000, TEXT = 77, UNKNOWN = 1000 };

// the codes of A00 and Z99, between which those of all identifiers lie
enum { FIRST_CODE = 6500, LAST_CODE = 9099 };

// the numbers of a row, of which those from NOTE on say what the correlation record after it holds
enum { NUMBERS = 23, NOTE = 12, NOTED = NUMBERS - NOTE, UNNOTED = 100000000, MOST_CORRELATION = 9999999 };

static const uint64_t SECOND = 100000000, DAY = 86400 * 100000000ull;

// the least clock that is absent, and how an absent clock is held
static const int64_t SIX_NINES = 999999000000, ABSENT = 999999999999;

// the numbers of the paper's table, and one that is higher than all
enum { NO_LF = 1, BYTE, TOO_LONG, KIND, UNUSED, MALFORMED, BOUNDS, DISAGREES, INSTANT, SATELLITE, AFTER, ROOM, NO_FAULT };

struct file {
    const uint8_t *bytes;
    size_t length, spot;   // the next line begins at this spot
    bool older;             // it is judged as SP3-c
    size_t number;          // the line that was taken last, counted from 1
    const uint8_t *line;    // its 80 columns
    unsigned fault;         // the lowest fault of that line
    uint8_t padded[COLUMNS];
};

// what the header lines say, and the identifiers of its satellites; of each code whether it has been named
struct header {
    sp3_header_t said;
    uint64_t identifiers[MOST_SATELLITES];
    bool named[LAST_CODE - FIRST_CODE + 1];
};

static void fault(struct file *f, unsigned number) {
    if (number < f->fault) f->fault = number;
}

// The 80 columns of the line of `count` characters at `spot`: "a short line counts as padded with blanks".
static void show(struct file *f, size_t spot, size_t count) {
    f->line = f->bytes + spot;
    if (count < COLUMNS) {
        memcpy(f->padded, f->line, count);
        memset(f->padded + count, ' ', COLUMNS - count);
        f->line = f->padded;
    }
}

// whether a line of so many characters has too many; in SP3-c those of comments have 60 at most
static bool too_long(const struct file *f, const uint8_t *line, size_t count) {
    return count > COLUMNS || (f->older && count > SP3_COMMENT_COLUMNS_C && line[0] == '/' && line[1] == '*');
}

// Takes the next line; whether it may be a line at all.
static bool take(struct file *f) {
    const uint8_t *s = f->bytes;
    size_t n = f->length, first = f->spot, i = first;
    bool plain = true;
    f->number++;
    for (; i < n && s[i] != '\n'; i++)
        if (s[i] < 32 || s[i] > 126) plain = false;
    if (i == n) {
        f->fault = NO_LF;
    } else if (!plain) {
        f->fault = BYTE;
    } else if (too_long(f, s + first, i - first)) {
        f->fault = TOO_LONG;
    } else {
        f->fault = NO_FAULT;
        f->spot = i + 1;
        show(f, first, i - first);
    }
    return f->fault == NO_FAULT;
}

static bool begins(const struct file *f, const char *symbol) {
    for (size_t i = 0; symbol[i]; i++)
        if (f->line[i] != (uint8_t)symbol[i]) return false;
    return true;
}

// Takes the next line, which must be of this kind.
static bool take_kind(struct file *f, const char *symbol) {
    if (!take(f)) return false;
    if (!begins(f, symbol)) fault(f, KIND);
    return f->fault == NO_FAULT;
}

static bool is_digit(uint8_t c) { return c >= '0' && c <= '9'; }

// the columns from `first` to `last`, counted from 1 as in the documents, are blank
static void unused(struct file *f, size_t first, size_t last) {
    for (size_t c = first; c <= last; c++)
        if (f->line[c - 1] != ' ') fault(f, UNUSED);
}

// blanks, then at least one digit, filling the field
static bool integer(const uint8_t *s, size_t width, uint64_t *value) {
    uint64_t v = 0;
    size_t i = 0;
    while (i < width && s[i] == ' ') i++;
    if (i == width) return false;
    for (; i < width; i++) {
        if (!is_digit(s[i])) return false;
        v = v * 10 + (s[i] - '0');
    }
    *value = v;
    return true;
}

// the same with a minus directly before the first digit, or without; `value` is the magnitude
static bool signed_integer(const uint8_t *s, size_t width, uint64_t *value) {
    size_t i = 0;
    while (i < width && s[i] == ' ') i++;
    if (i < width && s[i] == '-') i++;
    return i < width && s[i] != ' ' && integer(s + i, width - i, value);
}

// blanks, a minus if the field allows it, at least one digit, the point, exactly the places, filling the field; `value` is the magnitude
static bool decimal(const uint8_t *s, size_t width, size_t places, bool minus, uint64_t *value) {
    size_t point = width - places - 1, i = 0;
    uint64_t v = 0;
    while (i < point && s[i] == ' ') i++;
    if (minus && i < point && s[i] == '-') i++;
    if (i == point || s[point] != '.') return false;
    for (; i < point; i++) {
        if (!is_digit(s[i])) return false;
        v = v * 10 + (s[i] - '0');
    }
    for (i = point + 1; i < width; i++) {
        if (!is_digit(s[i])) return false;
        v = v * 10 + (s[i] - '0');
    }
    *value = v;
    return true;
}

static uint64_t integer_at(struct file *f, size_t first, size_t last) {
    uint64_t value = 0;
    if (!integer(f->line + first - 1, last - first + 1, &value)) fault(f, MALFORMED);
    return value;
}

static uint64_t decimal_at(struct file *f, size_t first, size_t last, size_t places) {
    uint64_t value = 0;
    if (!decimal(f->line + first - 1, last - first + 1, places, false, &value)) fault(f, MALFORMED);
    return value;
}

static void zero_integer_at(struct file *f, size_t first, size_t last) {
    uint64_t value;
    if (!integer(f->line + first - 1, last - first + 1, &value) || value != 0) fault(f, UNUSED);
}

static void zero_decimal_at(struct file *f, size_t first, size_t last, size_t places) {
    uint64_t value;
    if (!decimal(f->line + first - 1, last - first + 1, places, false, &value) || value != 0) fault(f, UNUSED);
}

// a capital letter and 01 to 99; G07 is 7107
static uint64_t identifier_at(struct file *f, size_t first) {
    const uint8_t *s = f->line + first - 1;
    uint64_t number;
    if (s[0] < 'A' || s[0] > 'Z' || !is_digit(s[1]) || !is_digit(s[2])) {
        fault(f, MALFORMED);
        return 0;
    }
    number = (s[1] - '0') * 10 + (s[2] - '0');
    if (number == 0) fault(f, BOUNDS);
    return s[0] * 100 + number;
}

static bool leap(uint64_t year) { return year % 4 == 0; }   // from 1980 to 2099

static uint64_t days_in(uint64_t year, uint64_t month) {
    if (month == 2) return leap(year) ? 29 : 28;
    return month == 4 || month == 6 || month == 9 || month == 11 ? 30 : 31;
}

// The date and time of columns 4 to 31 in 10^-8 s from MJD 0.
static uint64_t instant(struct file *f) {
    uint64_t year = integer_at(f, 4, 7), month = integer_at(f, 9, 10), day = integer_at(f, 12, 13);
    uint64_t hour = integer_at(f, 15, 16), minute = integer_at(f, 18, 19), second = decimal_at(f, 21, 31, 8);
    uint64_t mjd;
    unused(f, 8, 8), unused(f, 11, 11), unused(f, 14, 14), unused(f, 17, 17), unused(f, 20, 20);
    if (year < 1980 || year > 2099 || month < 1 || month > 12 || day < 1 || day > days_in(year, month)
        || (year == 1980 && month == 1 && day < 6) || hour > 23 || minute > 59 || second >= 60 * SECOND) {
        fault(f, BOUNDS);
        return 0;
    }
    mjd = 44239 + 365 * (year - 1980) + (year - 1980 + 3) / 4 + day - 1;
    for (uint64_t m = 1; m < month; m++) mjd += days_in(year, m);
    return mjd * DAY + (hour * 3600 + minute * 60) * SECOND + second;
}

static bool first_line(struct file *f, struct header *h) {
    if (!take_kind(f, f->older ? "#c" : "#d")) return false;
    if (f->line[2] != 'P' && f->line[2] != 'V') fault(f, MALFORMED);
    h->said.velocity = f->line[2] == 'V';
    h->said.start8 = instant(f);
    unused(f, 32, 32);
    h->said.epochs = integer_at(f, 33, 39);
    if (h->said.epochs < 1 || h->said.epochs > MOST_EPOCHS) fault(f, BOUNDS);
    unused(f, 40, 40), unused(f, 46, 46), unused(f, 52, 52), unused(f, 56, 56), unused(f, 61, 80);
    memcpy(h->said.texts.data_used, f->line + 40, 5);
    memcpy(h->said.texts.coordinates, f->line + 46, 5);
    memcpy(h->said.texts.orbit, f->line + 52, 3);
    memcpy(h->said.texts.agency, f->line + 56, 4);
    return f->fault == NO_FAULT;
}

static bool second_line(struct file *f, struct header *h) {
    uint64_t week, seconds, mjd, fraction, days = h->said.start8 / DAY, time = h->said.start8 % DAY, one, other;
    if (!take_kind(f, "##")) return false;
    unused(f, 3, 3);
    week = integer_at(f, 4, 7);
    unused(f, 8, 8);
    seconds = decimal_at(f, 9, 23, 8);
    if (seconds >= 604800 * SECOND) fault(f, BOUNDS);
    unused(f, 24, 24);
    h->said.interval8 = decimal_at(f, 25, 38, 8);
    if (h->said.interval8 == 0) fault(f, BOUNDS);
    unused(f, 39, 39);
    mjd = integer_at(f, 40, 44);
    unused(f, 45, 45);
    fraction = decimal_at(f, 46, 60, 13);
    if (fraction >= 10000000000000) fault(f, BOUNDS);
    unused(f, 61, 80);
    one = 108 * fraction, other = 125 * time;
    if (mjd != days || week != (days - 44244) / 7 || seconds != (days - 44244) % 7 * DAY + time
        || (one < other ? other - one : one - other) >= 108)
        fault(f, DISAGREES);
    return f->fault == NO_FAULT;
}

static size_t satellite_lines(size_t n) {
    size_t lines = (n + SLOTS - 1) / SLOTS;
    return lines < 5 ? 5 : lines;
}

static void empty_slot(struct file *f, size_t first) {
    const uint8_t *s = f->line + first - 1;
    if (s[0] != ' ' || s[1] != ' ' || s[2] != '0') fault(f, DISAGREES);
}

// Whether this identifier has been named before; from now on it has. One that is malformed has another fault already.
static bool repeats(struct header *h, uint64_t code) {
    bool before;
    if (code < FIRST_CODE) return false;
    before = h->named[code - FIRST_CODE];
    h->named[code - FIRST_CODE] = true;
    return before;
}

// The 17 slots of line j.
static void identifier_slots(struct file *f, struct header *h, size_t j) {
    for (size_t i = 0; i < SLOTS; i++) {
        size_t k = SLOTS * j + i;
        if (k < h->said.satellites) {
            h->identifiers[k] = identifier_at(f, 10 + 3 * i);
            if (repeats(h, h->identifiers[k])) fault(f, DISAGREES);
        } else {
            empty_slot(f, 10 + 3 * i);
        }
    }
}

static bool identifier_lines(struct file *f, struct header *h) {
    uint64_t n;
    if (!take_kind(f, "+ ")) return false;
    unused(f, 3, 3), unused(f, 7, 9), unused(f, 61, 80);
    if (!integer(f->line + 3, 3, &n)) {
        fault(f, MALFORMED);
        return false;
    }
    if (n < 1 || n > (f->older ? SP3_MOST_SATELLITES_C : MOST_SATELLITES)) fault(f, BOUNDS);
    h->said.satellites = n;
    memset(h->named, 0, sizeof h->named);
    identifier_slots(f, h, 0);
    if (f->fault != NO_FAULT) return false;
    for (size_t j = 1; j < satellite_lines(n); j++) {
        if (!take_kind(f, "+ ")) return false;
        unused(f, 3, 9), unused(f, 61, 80);
        identifier_slots(f, h, j);
        if (f->fault != NO_FAULT) return false;
    }
    return true;
}

static bool exponent_lines(struct file *f, const struct header *h) {
    for (size_t j = 0; j < satellite_lines(h->said.satellites); j++) {
        if (!take_kind(f, "++")) return false;
        unused(f, 3, 9), unused(f, 61, 80);
        for (size_t i = 0; i < SLOTS; i++) {
            if (SLOTS * j + i < h->said.satellites)
                integer_at(f, 10 + 3 * i, 12 + 3 * i);
            else
                empty_slot(f, 10 + 3 * i);
        }
        if (f->fault != NO_FAULT) return false;
    }
    return true;
}

// `c` in each of these columns, and the column after them blank
static void placeholder(struct file *f, size_t first, size_t last) {
    for (size_t c = first; c <= last; c++)
        if (f->line[c - 1] != 'c') fault(f, UNUSED);
    unused(f, last + 1, last + 1);
}

// what both `%c` lines have in columns 14 to 80
static void character_fields(struct file *f) {
    placeholder(f, 14, 16);
    placeholder(f, 18, 21), placeholder(f, 23, 26), placeholder(f, 28, 31), placeholder(f, 33, 36);
    placeholder(f, 38, 42), placeholder(f, 44, 48), placeholder(f, 50, 54), placeholder(f, 56, 60);
    unused(f, 61, 80);
}

static bool listed(uint8_t c, const char *letters) {
    for (size_t i = 0; letters[i]; i++)
        if (c == (uint8_t)letters[i]) return true;
    return false;
}

static bool time_system(const uint8_t *s) {
    static const char *const systems[] = {"GPS", "GLO", "GAL", "BDT", "TAI", "UTC", "IRN", "QZS"};
    for (size_t i = 0; i < 8; i++)
        if (memcmp(s, systems[i], 3) == 0) return true;
    return false;
}

static bool character_lines(struct file *f, struct header *h) {
    uint8_t type;
    if (!take_kind(f, "%c")) return false;
    unused(f, 3, 3);
    h->said.file_type = type = f->line[3];
    memcpy(h->said.time_system, f->line + 9, 3);
    if (!listed(type, "GMRLSIECJ") || f->line[4] != ' ') fault(f, MALFORMED);
    unused(f, 6, 6);
    placeholder(f, 7, 8);
    if (!time_system(f->line + 9)) fault(f, MALFORMED);
    unused(f, 13, 13);
    character_fields(f);
    for (size_t k = 0; k < h->said.satellites; k++)
        if (type != 'M' && h->identifiers[k] / 100 != type) fault(f, DISAGREES);
    if (f->fault != NO_FAULT) return false;
    if (!take_kind(f, "%c")) return false;
    unused(f, 3, 3);
    placeholder(f, 4, 5), placeholder(f, 7, 8), placeholder(f, 10, 12);
    character_fields(f);
    return f->fault == NO_FAULT;
}

static bool float_lines(struct file *f, struct header *h) {
    for (size_t j = 0; j < 2; j++) {
        if (!take_kind(f, "%f")) return false;
        unused(f, 3, 3), unused(f, 14, 14), unused(f, 27, 27), unused(f, 42, 42), unused(f, 61, 80);
        if (j == 0) {
            h->said.bases.place = decimal_at(f, 4, 13, 7);
            h->said.bases.clock = decimal_at(f, 15, 26, 9);
        } else {
            zero_decimal_at(f, 4, 13, 7), zero_decimal_at(f, 15, 26, 9);
        }
        zero_decimal_at(f, 28, 41, 11), zero_decimal_at(f, 43, 60, 15);
        if (f->fault != NO_FAULT) return false;
    }
    return true;
}

static bool integer_lines(struct file *f) {
    for (size_t j = 0; j < 2; j++) {
        if (!take_kind(f, "%i")) return false;
        unused(f, 3, 3);
        for (size_t c = 4; c <= 19; c += 5) zero_integer_at(f, c, c + 3), unused(f, c + 4, c + 4);
        for (size_t c = 24; c <= 45; c += 7) zero_integer_at(f, c, c + 5), unused(f, c + 6, c + 6);
        zero_integer_at(f, 52, 60);
        unused(f, 61, 80);
        if (f->fault != NO_FAULT) return false;
    }
    return true;
}

// Four comments or more, in SP3-c four; the line after them is taken.
static bool comment_lines(struct file *f, struct header *h) {
    for (h->said.comments = 0;; h->said.comments++) {
        if (!take(f)) return false;
        if (!begins(f, "/*") || (f->older && h->said.comments == SP3_COMMENTS_C)) break;
        unused(f, 3, 3);
        if (f->fault != NO_FAULT) return false;
    }
    if (h->said.comments < 4) fault(f, KIND);
    return f->fault == NO_FAULT;
}

// The line that was taken is the header of epoch k.
static bool epoch_line(struct file *f, const struct header *h, size_t k) {
    if (!begins(f, "* ")) {
        fault(f, KIND);
        return false;
    }
    unused(f, 3, 3);
    if (instant(f) != h->said.start8 + k * h->said.interval8) fault(f, INSTANT);
    unused(f, 32, 80);
    return f->fault == NO_FAULT;
}

static void bounded(struct file *f, uint64_t value) {
    if (value > 999999999999) fault(f, BOUNDS);
}

static void coordinate_at(struct file *f, size_t first) {
    uint64_t value;
    if (decimal(f->line + first - 1, 14, 6, true, &value))
        bounded(f, value);
    else
        fault(f, MALFORMED);
}

static bool is_blank(const uint8_t *s, size_t width) {
    for (size_t i = 0; i < width; i++)
        if (s[i] != ' ') return false;
    return true;
}

// six nines without a minus, the point, and blanks after it: an absent clock of which no fraction is told
static bool is_bare_clock(const uint8_t *s) {
    uint64_t whole;
    return integer(s, 7, &whole) && whole == 999999 && s[7] == '.' && is_blank(s + 8, 6);
}

// the clock or its rate: a number as x, y and z are, or a bare one
static void clock_at(struct file *f, size_t first) {
    uint64_t value;
    if (decimal(f->line + first - 1, 14, 6, true, &value))
        bounded(f, value);
    else if (!is_bare_clock(f->line + first - 1))
        fault(f, MALFORMED);
}

// an integer, or blank for unknown
static void known_at(struct file *f, size_t first, size_t width) {
    uint64_t value;
    if (!is_blank(f->line + first - 1, width) && !integer(f->line + first - 1, width, &value)) fault(f, MALFORMED);
}

static void correlation_at(struct file *f, size_t first) {
    uint64_t value;
    if (is_blank(f->line + first - 1, 8)) return;
    if (!signed_integer(f->line + first - 1, 8, &value))
        fault(f, MALFORMED);
    else if (value > MOST_CORRELATION)
        fault(f, BOUNDS);
}

static void flag_at(struct file *f, size_t column, uint8_t letter) {
    if (f->line[column - 1] != letter && f->line[column - 1] != ' ') fault(f, MALFORMED);
}

// The line that was taken is the row of satellite k with this letter.
static bool row_line(struct file *f, const struct header *h, size_t k, uint8_t letter) {
    if (f->line[0] != letter) {
        fault(f, KIND);
        return false;
    }
    if (identifier_at(f, 2) != h->identifiers[k]) fault(f, SATELLITE);
    coordinate_at(f, 5), coordinate_at(f, 19), coordinate_at(f, 33), clock_at(f, 47);
    unused(f, 61, 61), unused(f, 64, 64), unused(f, 67, 67), unused(f, 70, 70);
    known_at(f, 62, 2), known_at(f, 65, 2), known_at(f, 68, 2), known_at(f, 71, 3);
    if (letter == 'P') {
        unused(f, 74, 74), unused(f, 77, 78);
        flag_at(f, 75, 'E'), flag_at(f, 76, 'P'), flag_at(f, 79, 'M'), flag_at(f, 80, 'P');
    } else {
        unused(f, 74, 80);
    }
    return f->fault == NO_FAULT;
}

// The line that was taken is a correlation record.
static bool note_line(struct file *f) {
    unused(f, 3, 4), unused(f, 9, 9), unused(f, 14, 14), unused(f, 19, 19);
    known_at(f, 5, 4), known_at(f, 10, 4), known_at(f, 15, 4), known_at(f, 20, 7);
    for (size_t c = 28; c <= 73; c += 9) unused(f, c - 1, c - 1), correlation_at(f, c);
    return f->fault == NO_FAULT;
}

// Takes the next line, and the one after it where it is a correlation record with this symbol.
static bool take_after(struct file *f, const char *symbol) {
    if (!take(f)) return false;
    return !begins(f, symbol) || (note_line(f) && take(f));
}

// The epochs, from the line that was taken; the line after them is taken.
static bool epochs(struct file *f, const struct header *h) {
    for (size_t e = 0; e < h->said.epochs; e++) {
        if (!epoch_line(f, h, e) || !take(f)) return false;
        for (size_t k = 0; k < h->said.satellites; k++) {
            if (!row_line(f, h, k, 'P') || !take_after(f, "EP")) return false;
            if (h->said.velocity && (!row_line(f, h, k, 'V') || !take_after(f, "EV"))) return false;
        }
    }
    return true;
}

static bool last_line(struct file *f) {
    if (!begins(f, "EOF"))
        fault(f, KIND);
    else
        unused(f, 4, 80);
    return f->fault == NO_FAULT;
}

static bool records(struct file *f, struct header *h) {
    return first_line(f, h) && second_line(f, h) && identifier_lines(f, h) && exponent_lines(f, h) && character_lines(f, h)
        && float_lines(f, h) && integer_lines(f) && comment_lines(f, h) && epochs(f, h) && last_line(f);
}

static sp3_reading_t refused(size_t number, uint64_t line) { return (sp3_reading_t){.refusal = number, .line = line, .version = ' '}; }

static sp3_reading_t judged(const uint8_t *bytes, size_t length, bool whole, struct header *h) {
    struct file f = {.bytes = bytes, .length = length, .older = length >= 2 && bytes[0] == '#' && bytes[1] == 'c'};
    if (!records(&f, h)) return refused(f.fault, f.number);
    if (whole && f.spot < length) return refused(AFTER, f.number + 1);
    return (sp3_reading_t){.length = f.spot, .header = h->said, .version = f.older ? 'c' : 'd'};
}

sp3_reading_t PLAIN(judge_front)(const uint8_t *stretch, size_t length) {
    struct header h;
    return judged(stretch, length, false, &h);
}

sp3_reading_t PLAIN(judge)(const uint8_t *file, size_t length) {
    struct header h;
    return judged(file, length, true, &h);
}

// The second pass, over a file that was accepted: its lines and fields are well-formed.

static void next(struct file *f) {
    const uint8_t *s = f->bytes;
    size_t first = f->spot, i = first;
    while (s[i] != '\n') i++;
    f->spot = i + 1;
    show(f, first, i - first);
}

// the digits of a field as one number, with its minus
static int64_t number(const uint8_t *s, size_t width) {
    int64_t v = 0;
    bool minus = false;
    for (size_t i = 0; i < width; i++) {
        if (is_digit(s[i]))
            v = v * 10 + (s[i] - '0');
        else if (s[i] == '-')
            minus = true;
    }
    return minus ? -v : v;
}

// the clock or its rate: six nines without a minus are absent, whatever comes after the point; only a bare clock ends with a blank
static int64_t clock_of(const uint8_t *s) {
    int64_t v = s[13] == ' ' ? ABSENT : number(s, 14);
    return v >= SIX_NINES ? ABSENT : v;
}

static int64_t known(const uint8_t *s, size_t width, int64_t unknown) { return is_blank(s, width) ? unknown : number(s, width); }

// a row that no correlation record stands after
static void fill_row(const uint8_t *s, int64_t *row) {
    static const int64_t none[NOTED] = {0, UNNOTED, UNNOTED, UNNOTED, UNNOTED, UNNOTED, UNNOTED, UNNOTED, UNNOTED, UNNOTED, UNNOTED};
    for (size_t i = 0; i < 3; i++) row[i] = number(s + 4 + 14 * i, 14);
    row[3] = clock_of(s + 46);
    for (size_t i = 0; i < 3; i++) row[4 + i] = known(s + 61 + 3 * i, 2, UNKNOWN);
    row[7] = known(s + 70, 3, UNKNOWN);
    row[8] = s[74] == 'E', row[9] = s[75] == 'P', row[10] = s[78] == 'M', row[11] = s[79] == 'P';
    memcpy(row + NOTE, none, sizeof none);
}

static void fill_note(const uint8_t *s, int64_t *note) {
    note[0] = 1;
    for (size_t i = 0; i < 3; i++) note[1 + i] = known(s + 4 + 5 * i, 4, UNNOTED);
    note[4] = known(s + 19, 7, UNNOTED);
    for (size_t i = 0; i < 6; i++) note[5 + i] = known(s + 27 + 9 * i, 8, UNNOTED);
}

static void fill_exponents(struct file *f, size_t n, uint64_t *exponents) {
    for (size_t j = 0; j < satellite_lines(n); j++) {
        next(f);
        for (size_t i = 0; i < SLOTS && SLOTS * j + i < n; i++) exponents[SLOTS * j + i] = (uint64_t)number(f->line + 9 + 3 * i, 3);
    }
}

static void fill_comments(struct file *f, size_t count, uint8_t *comments) {
    for (size_t k = 0; k < count; k++) {
        next(f);
        memcpy(comments + TEXT * k, f->line + 3, TEXT);
    }
}

// The rows up to EOF, and what the records after them say.
static void fill_rows(struct file *f, int64_t *row) {
    for (next(f); !begins(f, "EOF"); next(f)) {
        if (f->line[0] == 'P' || f->line[0] == 'V') {
            fill_row(f->line, row);
            row += NUMBERS;
        } else if (f->line[0] == 'E') {
            fill_note(f->line, row - NOTED);
        }
    }
}

sp3_reading_t PLAIN(read)(const uint8_t *file, size_t length, uint64_t *identifiers, size_t identifier_room, uint64_t *exponents,
                          size_t exponent_room, uint8_t *comments, size_t comment_room, int64_t *rows, size_t row_room) {
    struct header h;
    struct file f = {.bytes = file, .length = length};
    sp3_reading_t answer = judged(file, length, true, &h);
    size_t n, row_count;
    if (answer.refusal != 0) return answer;
    n = h.said.satellites, row_count = n * h.said.epochs * (h.said.velocity ? 2 : 1);
    if (identifier_room < n || exponent_room < n || comment_room < TEXT * h.said.comments || row_room < NUMBERS * row_count)
        return refused(ROOM, 0);
    for (size_t j = 0; j < 2 + satellite_lines(n); j++) next(&f);
    for (size_t k = 0; k < n; k++) identifiers[k] = h.identifiers[k];
    fill_exponents(&f, n, exponents);
    for (size_t j = 0; j < 6; j++) next(&f);
    fill_comments(&f, h.said.comments, comments);
    fill_rows(&f, rows);
    return answer;
}

// The length of the file at the front, which was accepted: it ends with the first line that begins as EOF does.
static size_t file_length(const uint8_t *bytes, size_t length) {
    struct file f = {.bytes = bytes, .length = length};
    do next(&f);
    while (!begins(&f, "EOF"));
    return f.spot;
}

// All files are counted before a length is stored: where there are more than room, nothing may be written.
sp3_division_t PLAIN(divide)(const uint8_t *stretch, size_t length, uint64_t *lengths, size_t room) {
    sp3_division_t d = {0};
    size_t spot = 0;
    while (d.rest < length) {
        sp3_reading_t front = PLAIN(judge_front)(stretch + d.rest, length - d.rest);
        if (front.refusal != 0) {
            d.refusal = front.refusal, d.line = front.line;
            break;
        }
        if (++d.count > room) return (sp3_division_t){.refusal = ROOM};
        d.rest += front.length;
    }
    for (uint64_t k = 0; k < d.count; k++) spot += lengths[k] = file_length(stretch + spot, length - spot);
    return d;
}
