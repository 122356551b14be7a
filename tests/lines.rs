//! A judge of single lines of SP3-d and SP3-c, written only from the documents.
//!
//! It says of one line alone which number of the paper's table it earns, at
//! which column, and, for an accepted line, how the canonical form shows it.
//! It says of a record, whatever it holds, which bytes its line leaves in lent
//! output of any length. It also makes the cases on which another implementation
//! is compared with it. It shares no code with that implementation.
//!
//! Build: `rustc -O --edition 2021 -o BIN tests/lines.rs`
//!
//! * `BIN judge < cases`   prints an answer for each case;
//! * `BIN cases`           prints the cases;
//! * `BIN check CRATE_DIR` compares `CRATE_DIR/stdin` with the cases and
//!   `CRATE_DIR/stdout` with the answers to them;
//! * `BIN self-test`       compares the judge with answers worked out by hand;
//! * `BIN count`           counts the cases by their answers.
//!
//! A case is a kind letter, three digits (the argument: satellites left for
//! this line and later ones, for `d` and `e`), and the SP3 line. The kinds:
//!
//! ```text
//! a #d          b ##         c first +    d further +  e ++       f first %c
//! g second %c   h first %f   i second %f  j %i         k /*       l *
//! m P           n V          o EP         p EV         q EOF      z which kind
//! ```
//!
//! These are of SP3-d; a capital letter asks the same of SP3-c (`A`, `C` and `Z`
//! have other answers there).
//!
//! An answer is `NUMBER COLUMN`, `0 0 CANONICAL LINE`, or `kind N` for the kind
//! letter `z`. The canonical line of an EP or EV shows its ten values as that of
//! any other record does: `0 0 EP    55               222`, and `0 0 EP` where
//! all of them are unknown.
//!
//! A case of a record to be written is `w`, three digits (the room: how many bytes
//! are lent), a kind letter other than `z`, the mark that each byte of the room
//! holds before, and the record's values. Numbers are whole, in units of their last
//! place, with a blank between them:
//!
//! ```text
//! a mode (1 byte), data used (5), coordinate system (5), orbit type (3), agency (4),
//!   a blank, then year, month, day, hour, minute, seconds, epochs
//! b week, seconds of week, interval, MJD, fraction
//! c number of satellites, identifiers  d satellites left, identifiers
//! e satellites left, exponents
//! f file type (1 byte), time system (3)               h both bases
//! k the text, of any length            l year, month, day, hour, minute, seconds
//! m identifier, x, y, z, clock, their exponents, four flags as 0 or 1; n the same
//! o deviations of x, y, z and clock, correlations xy, xz, xc, yz, yc, zc; p the same
//! g, i, j and q have none; numbers that are missing at the end are 0
//! ```
//!
//! `w064m#G07 5000000001 -500000 0 999999999999 1000 1000 1000 1000 0 0 0 0` is a P
//! line to be written into 64 bytes that hold `#`. Its answer is the length of the
//! line with its LF, in any room, and then every byte of the room between bars, an
//! LF as `$`:
//! `61 |PG07   5000.000001     -0.500000      0.000000 999999.999999$###|`.
//! For the room the paper's table of answers decides: where the line is longer,
//! "Each refusal leaves all lent memory unchanged", else "the places past those
//! filled are unchanged too". A record may hold numbers that no line has. Of these
//! the documents say nothing, and the writers' own promise is taken at its word: one
//! that doesn't fit its columns leaves them blank, as an unknown one does (1000 for
//! an exponent, 100,000,000 in an EP or EV: neither fits), and "trailing blanks" are
//! "cut from each line", whatever they are of.
//!
//! "The paper" is 01-scope.md as requests 1 to 3, 5, 6 and 9 of
//! 02-change-requests.md changed it, "000" is the SP3-d document; the words beside
//! the columns below are those of its column-by-column description.

use std::collections::{BTreeMap, HashSet};
use std::io::{Read, Write};
use std::ops::RangeInclusive;
use std::process::exit;

// ---------------------------------------------------------------------------
// Lines and faults
// ---------------------------------------------------------------------------

/// "It has at most 80 characters."
pub(crate) const WIDTH: usize = 80;

/// A line with its missing columns: "A short line counts as padded with blanks."
pub(crate) struct Line([u8; WIDTH]);

impl Line {
    pub(crate) fn padded(text: &[u8]) -> Line {
        let mut columns = [b' '; WIDTH];
        columns[..text.len()].copy_from_slice(text);
        Line(columns)
    }

    /// Columns `first` to `last`, counted from 1 as in 000.
    fn columns(&self, first: usize, last: usize) -> &[u8] {
        &self.0[first - 1..last]
    }

    pub(crate) fn begins(&self, symbol: &str) -> bool {
        self.0.starts_with(symbol.as_bytes())
    }
}

/// A refusal. The derived order is the order in which faults decide: the
/// lowest number, and of several with that number the leftmost column.
#[derive(Clone, Copy, PartialEq, Eq, PartialOrd, Ord, Debug)]
pub(crate) struct Fault {
    pub(crate) number: u8,
    pub(crate) column: usize,
}

const WRONG_KIND: u8 = 4;
const NOT_BLANK: u8 = 5;
const MALFORMED: u8 = 6;
const OUT_OF_BOUNDS: u8 = 7;
const DISAGREES: u8 = 8;

/// The column given where a number has none.
const NO_COLUMN: usize = 0;

/// Request 9: "files for the older stations". What the versions don't share.
#[derive(Clone, Copy, PartialEq, Eq, Debug)]
pub(crate) enum Version {
    C,
    D,
}

impl Version {
    /// Columns 1 and 2 of its first line.
    pub(crate) fn symbol(self) -> &'static str {
        match self {
            Version::C => "#c",
            Version::D => "#d",
        }
    }

    /// "at most 85 satellites"; request 6: "Take 999, as document 000 does": as many as
    /// its I3 shows.
    pub(crate) fn most_satellites(self) -> i64 {
        match self {
            Version::C => 85,
            Version::D => MOST_SATELLITES,
        }
    }
}

/// "The kind of a line is told by columns 1 and 2; for P and V by column 1,
/// for EOF by columns 1 to 3." The first is that of SP3-d.
pub(crate) const SYMBOLS: [&str; 14] = [
    "#d", "##", "+ ", "++", "%c", "%f", "%i", "/*", "* ", "P", "V", "EP", "EV", "EOF",
];

/// The symbols of a version.
pub(crate) fn symbols(version: Version) -> [&'static str; 14] {
    let mut symbols = SYMBOLS;
    symbols[0] = version.symbol();
    symbols
}

/// The kind of a line, 1 to 14 in the order above; 0 for none of them.
fn kind_of_line(version: Version, line: &Line) -> usize {
    let found = symbols(version).iter().position(|symbol| line.begins(symbol));
    found.map_or(0, |place| place + 1)
}

// ---------------------------------------------------------------------------
// Fields: each is judged from its own columns
// ---------------------------------------------------------------------------

/// Digits only, and at least one.
fn read_digits(field: &[u8]) -> Option<i64> {
    if field.is_empty() || !field.iter().all(u8::is_ascii_digit) {
        return None;
    }
    Some(field.iter().fold(0, |value, d| 10 * value + i64::from(d - b'0')))
}

fn without_leading_blanks(field: &[u8]) -> &[u8] {
    let blanks = field.iter().take_while(|&&c| c == b' ').count();
    &field[blanks..]
}

pub(crate) fn without_trailing_blanks(field: &[u8]) -> &[u8] {
    let blanks = field.iter().rev().take_while(|&&c| c == b' ').count();
    &field[..field.len() - blanks]
}

/// "Integer: blanks, then at least one digit, filling the field. No sign.
/// Leading zeros may stand."
fn read_integer(field: &[u8]) -> Option<i64> {
    read_digits(without_leading_blanks(field))
}

/// The integer of a correlation: "a minus may stand before the first digit and
/// minus zero is zero".
fn read_signed(field: &[u8]) -> Option<i64> {
    let text = without_leading_blanks(field);
    match text.strip_prefix(b"-") {
        Some(digits) => read_digits(digits).map(|magnitude| -magnitude),
        None => read_digits(text),
    }
}

fn is_blank(field: &[u8]) -> bool {
    field.iter().all(|&c| c == b' ')
}

/// "Decimal: blanks, a minus if the field allows it, at least one digit, the
/// point, exactly the stated places, filling the field." The value is in
/// units of the last place.
fn read_decimal(field: &[u8], places: usize, minus_allowed: bool) -> Option<i64> {
    let (front, places_text) = field.split_at(field.len() - places);
    let whole_text = without_leading_blanks(front.strip_suffix(b".")?);
    let (negative, whole_text) = match whole_text.strip_prefix(b"-") {
        Some(rest) if minus_allowed => (true, rest),
        _ => (false, whole_text),
    };
    let magnitude = read_digits(whole_text)? * power_of_ten(places) + read_digits(places_text)?;
    Some(if negative { -magnitude } else { magnitude })
}

pub(crate) fn power_of_ten(places: usize) -> i64 {
    (0..places).fold(1, |power, _| 10 * power)
}

/// Request 3: "So a clock or rate without a minus whose whole part has the value
/// 999999 is absent; after the point all six columns are digits or all six are
/// blank." Of the fourteen columns the whole part has seven, the point one.
fn is_absent_clock(field: &[u8]) -> bool {
    let (whole, rest) = field.split_at(7);
    let (point, fraction) = rest.split_at(1);
    read_integer(whole) == Some(999_999)
        && point == b"."
        && (is_blank(fraction) || read_digits(fraction).is_some())
}

/// "a blank exponent is unknown (in P and V, not in `++`)"
#[derive(Clone, Copy)]
pub(crate) enum Exponent {
    Known(i64),
    Unknown,
}

fn read_exponent(field: &[u8]) -> Option<Exponent> {
    if is_blank(field) {
        return Some(Exponent::Unknown);
    }
    read_integer(field).map(Exponent::Known)
}

/// "Identifiers are a capital letter and 01 to 99."
#[derive(Clone, Copy)]
pub(crate) struct Identifier {
    pub(crate) letter: u8,
    pub(crate) number: i64,
}

/// A capital letter and two digits; 00 is left to the bounds.
fn read_identifier(field: &[u8]) -> Option<Identifier> {
    let letter = field[0];
    if !letter.is_ascii_uppercase() {
        return None;
    }
    read_digits(&field[1..]).map(|number| Identifier { letter, number })
}

#[derive(Clone, Copy)]
pub(crate) struct Date {
    pub(crate) year: i64,
    pub(crate) month: i64,
    pub(crate) day: i64,
}

pub(crate) fn days_in_month(year: i64, month: i64) -> i64 {
    let leap = year % 4 == 0 && (year % 100 != 0 || year % 400 == 0);
    match month {
        2 if leap => 29,
        2 => 28,
        4 | 6 | 9 | 11 => 30,
        _ => 31,
    }
}

/// A day of the calendar within "1980-01-06 to 2099-12-31".
pub(crate) fn date_is_allowed(date: Date) -> bool {
    let Date { year, month, day } = date;
    (1..=12).contains(&month)
        && (1..=days_in_month(year, month)).contains(&day)
        && (year, month, day) >= (1980, 1, 6)
        && year <= 2099
}

// ---------------------------------------------------------------------------
// The reader: takes fields from a line and keeps the deciding fault
// ---------------------------------------------------------------------------

/// What a column serves for in its record.
#[derive(Clone, Copy, PartialEq, Eq, Debug)]
enum Role {
    Untouched,
    Symbol,
    Unused,
    /// Kept as it stands, whatever it is.
    Text,
    /// Holds `c` in each column.
    Letters,
    /// Has a form of its own.
    Field,
}

pub(crate) struct Reader {
    line: Line,
    pub(crate) deciding: Option<Fault>,
    roles: [Role; WIDTH],
    taken_twice: bool,
}

impl Reader {
    pub(crate) fn new(text: &[u8]) -> Reader {
        Reader {
            line: Line::padded(text),
            deciding: None,
            roles: [Role::Untouched; WIDTH],
            taken_twice: false,
        }
    }

    fn fault(&mut self, number: u8, column: usize) {
        let fault = Fault { number, column };
        self.deciding = Some(self.deciding.map_or(fault, |other| other.min(fault)));
    }

    fn take(&mut self, first: usize, last: usize, role: Role) -> Vec<u8> {
        for place in &mut self.roles[first - 1..last] {
            self.taken_twice |= *place != Role::Untouched;
            *place = role;
        }
        self.line.columns(first, last).to_vec()
    }

    fn symbol(&mut self, symbol: &str) {
        self.take(1, symbol.len(), Role::Symbol);
        if !self.line.begins(symbol) {
            self.fault(WRONG_KIND, NO_COLUMN);
        }
    }

    fn unused(&mut self, first: usize, last: usize) {
        let blanks = self.take(first, last, Role::Unused);
        for (place, &c) in blanks.iter().enumerate() {
            if c != b' ' {
                self.fault(NOT_BLANK, first + place);
            }
        }
    }

    fn text(&mut self, first: usize, last: usize) -> Vec<u8> {
        self.take(first, last, Role::Text)
    }

    /// Says 6 at `column` for a malformed field, 7 for a value out of bounds.
    fn bounded(&mut self, read: Option<i64>, column: usize, bounds: RangeInclusive<i64>) -> i64 {
        match read {
            None => self.fault(MALFORMED, column),
            Some(value) if !bounds.contains(&value) => self.fault(OUT_OF_BOUNDS, column),
            Some(value) => return value,
        }
        0
    }

    fn integer(&mut self, first: usize, last: usize, bounds: RangeInclusive<i64>) -> i64 {
        let field = self.take(first, last, Role::Field);
        self.bounded(read_integer(&field), first, bounds)
    }

    fn decimal(
        &mut self,
        first: usize,
        last: usize,
        places: usize,
        bounds: RangeInclusive<i64>,
    ) -> i64 {
        let field = self.take(first, last, Role::Field);
        self.bounded(read_decimal(&field, places, false), first, bounds)
    }

    /// "Only x, y, z and clock fields allow the minus."
    fn coordinate(&mut self, first: usize, last: usize) -> i64 {
        let field = self.take(first, last, Role::Field);
        let bounds = -MOST_MAGNITUDE..=MOST_MAGNITUDE;
        self.bounded(read_decimal(&field, 6, true), first, bounds)
    }

    /// A clock or rate: absent by its six nines, or a decimal that may have a
    /// minus. "A blank fraction elsewhere stays 6."
    fn clock(&mut self, first: usize, last: usize) -> i64 {
        let field = self.take(first, last, Role::Field);
        if is_absent_clock(&field) {
            return ABSENT_CLOCK;
        }
        self.bounded(read_decimal(&field, 6, true), first, -MOST_MAGNITUDE..=MOST_CLOCK)
    }

    fn exponent(&mut self, first: usize, last: usize) -> Exponent {
        let field = self.take(first, last, Role::Field);
        let read = read_exponent(&field);
        if read.is_none() {
            self.fault(MALFORMED, first);
        }
        read.unwrap_or(Exponent::Unknown)
    }

    /// Request 1: "0 to 9999 (the last 0 to 9999999 ..)", which is as many
    /// nines as the field has columns; "blank for unknown", which is none here.
    fn deviation(&mut self, first: usize, last: usize) -> Option<i64> {
        let field = self.take(first, last, Role::Field);
        let largest = power_of_ten(last - first + 1) - 1;
        (!is_blank(&field)).then(|| self.bounded(read_integer(&field), first, 0..=largest))
    }

    /// Request 1: "from -9999999 to 9999999", or blank.
    fn correlation(&mut self, first: usize, last: usize) -> Option<i64> {
        let field = self.take(first, last, Role::Field);
        let bounds = -MOST_CORRELATION..=MOST_CORRELATION;
        (!is_blank(&field)).then(|| self.bounded(read_signed(&field), first, bounds))
    }

    fn identifier(&mut self, first: usize, last: usize) -> Identifier {
        let field = self.take(first, last, Role::Field);
        let read = read_identifier(&field);
        let number = self.bounded(read.map(|id| id.number), first, 1..=99);
        let letter = read.map_or(b'?', |id| id.letter);
        Identifier { letter, number }
    }

    /// One of the listed spellings of a field.
    fn listed(&mut self, first: usize, last: usize, list: &[&str]) -> Vec<u8> {
        let field = self.take(first, last, Role::Field);
        if !list.iter().any(|spelling| spelling.as_bytes() == field) {
            self.fault(MALFORMED, first);
        }
        field
    }

    /// Year 4-7, month 9-10, day 12-13: column 4 for any fault of them.
    fn date(&mut self) -> Date {
        let year = self.take(4, 7, Role::Field);
        self.unused(8, 8);
        let month = self.take(9, 10, Role::Field);
        self.unused(11, 11);
        let day = self.take(12, 13, Role::Field);
        let date = Date {
            year: self.bounded(read_integer(&year), 4, 0..=9999),
            month: self.bounded(read_integer(&month), 4, 0..=99),
            day: self.bounded(read_integer(&day), 4, 0..=99),
        };
        if !date_is_allowed(date) {
            self.fault(OUT_OF_BOUNDS, 4);
        }
        date
    }

    /// Rule 5: "All other text fields hold `c` in each column."
    fn letters_c(&mut self, first: usize, last: usize) {
        let field = self.take(first, last, Role::Letters);
        if field.iter().any(|&c| c != b'c') {
            self.fault(NOT_BLANK, first);
        }
    }

    /// Rule 6: "Two `%i`: zeros."
    fn integer_zero(&mut self, first: usize, last: usize) {
        let field = self.take(first, last, Role::Field);
        if read_integer(&field) != Some(0) {
            self.fault(NOT_BLANK, first);
        }
    }

    /// Rule 6: "the other decimals are zero."
    fn decimal_zero(&mut self, first: usize, last: usize, places: usize) {
        let field = self.take(first, last, Role::Field);
        if read_decimal(&field, places, false) != Some(0) {
            self.fault(NOT_BLANK, first);
        }
    }

    /// "slots after n hold `  0`"; anything else there is 8.
    fn empty_slot(&mut self, first: usize, last: usize) {
        if self.take(first, last, Role::Field) != b"  0" {
            self.fault(DISAGREES, NO_COLUMN);
        }
    }
}

// ---------------------------------------------------------------------------
// Records: what a line holds
// ---------------------------------------------------------------------------

/// A date and a time of day; the seconds in 10^-8 s.
pub(crate) struct Moment {
    pub(crate) date: Date,
    pub(crate) hour: i64,
    pub(crate) minute: i64,
    pub(crate) seconds: i64,
}

pub(crate) struct FirstLine {
    pub(crate) mode: Vec<u8>,
    pub(crate) start: Moment,
    pub(crate) epochs: i64,
    pub(crate) data_used: Vec<u8>,
    pub(crate) coordinate_system: Vec<u8>,
    pub(crate) orbit_type: Vec<u8>,
    pub(crate) agency: Vec<u8>,
}

/// Seconds of week and interval in 10^-8 s, the fraction in 10^-13 day.
pub(crate) struct LineTwo {
    pub(crate) week: i64,
    pub(crate) seconds_of_week: i64,
    pub(crate) interval: i64,
    pub(crate) modified_julian_day: i64,
    pub(crate) fraction: i64,
}

/// A `+ ` line; only the first one has the number of satellites.
pub(crate) struct Satellites {
    pub(crate) number: Option<i64>,
    pub(crate) identifiers: Vec<Identifier>,
}

pub(crate) struct FirstCharacters {
    pub(crate) file_type: Vec<u8>,
    pub(crate) time_system: Vec<u8>,
}

/// The bases in 10^-7 and 10^-9.
pub(crate) struct Bases {
    pub(crate) position: i64,
    pub(crate) clock: i64,
}

pub(crate) struct Row {
    pub(crate) identifier: Identifier,
    pub(crate) numbers: [i64; 4],
    pub(crate) exponents: [Exponent; 4],
}

pub(crate) struct Position {
    pub(crate) row: Row,
    pub(crate) flags: [Vec<u8>; 4],
}

/// What an EP or EV says of the row before it: deviations of x, y, z and clock,
/// correlations xy, xz, xc, yz, yc and zc; none where it is unknown.
#[derive(Clone, Copy, PartialEq, Eq, Debug)]
pub(crate) struct Note {
    pub(crate) deviations: [Option<i64>; 4],
    pub(crate) correlations: [Option<i64>; 6],
}

/// The symbol of a P row's note, and of a V row's.
pub(crate) const EP: &str = "EP";
pub(crate) const EV: &str = "EV";

enum Record {
    First(FirstLine),
    Two(LineTwo),
    Satellites(Satellites),
    Accuracies(Vec<i64>),
    FirstCharacters(FirstCharacters),
    SecondCharacters,
    FirstFloats(Bases),
    SecondFloats,
    Integers,
    Comment(Vec<u8>),
    Epoch(Moment),
    Position(Position),
    Velocity(Row),
    Note(&'static str, Note),
    End,
}

// ---------------------------------------------------------------------------
// Reading records: the columns of 000
// ---------------------------------------------------------------------------

pub(crate) const SLOTS: usize = 17;
/// Those of SP3-d.
pub(crate) const MOST_SATELLITES: i64 = 999;
pub(crate) const MOST_EPOCHS: i64 = 100_000;
/// Of x, y and z, and of a clock or rate below zero: "with magnitude at most
/// 999,999,999,999".
pub(crate) const MOST_MAGNITUDE: i64 = 999_999_999_999;
/// Request 3: "The largest valid clock is now 999,998,999,999."
pub(crate) const MOST_CLOCK: i64 = 999_998_999_999;
/// "An absent clock or rate is held as its twelve nines", whatever its fraction.
pub(crate) const ABSENT_CLOCK: i64 = 999_999_999_999;
/// In 10^-7: "a correlation coefficient between -0.9999999 and +0.9999999".
pub(crate) const MOST_CORRELATION: i64 = 9_999_999;

/// The same columns in the first line and in the epoch header.
fn read_moment(r: &mut Reader) -> Moment {
    let date = r.date(); //                     Columns 4-13   Year I4, Month I2, Day of Month I2
    r.unused(14, 14); //                        Column 14      Unused
    let hour = r.integer(15, 16, 0..=23); //    Columns 15-16  Hour Start        I2
    r.unused(17, 17); //                        Column 17      Unused
    let minute = r.integer(18, 19, 0..=59); //  Columns 18-19  Minute Start      I2
    r.unused(20, 20); //                        Column 20      Unused
    let below_60 = 0..=60 * power_of_ten(8) - 1;
    let seconds = r.decimal(21, 31, 8, below_60); // Columns 21-31 Second Start  F11.8
    Moment { date, hour, minute, seconds }
}

/// SP3 First Line
pub(crate) fn read_first_line(r: &mut Reader, version: Version) -> FirstLine {
    r.symbol(version.symbol()); //                          Columns 1-2    Version Symbol
    let mode = r.listed(3, 3, &["P", "V"]); //              Column 3       Pos or Vel Flag  A1
    let start = read_moment(r); //                          Columns 4-31
    r.unused(32, 32); //                                    Column 32      Unused
    let epochs = r.integer(33, 39, 1..=MOST_EPOCHS); //     Columns 33-39  Number of Epochs I7
    r.unused(40, 40); //                                    Column 40      Unused
    let data_used = r.text(41, 45); //                      Columns 41-45  Data Used        A5
    r.unused(46, 46); //                                    Column 46      Unused
    let coordinate_system = r.text(47, 51); //              Columns 47-51  Coordinate Sys   A5
    r.unused(52, 52); //                                    Column 52      Unused
    let orbit_type = r.text(53, 55); //                     Columns 53-55  Orbit Type       A3
    r.unused(56, 56); //                                    Column 56      Unused
    let agency = r.text(57, 60); //                         Columns 57-60  Agency           A4
    r.unused(61, 80);
    FirstLine { mode, start, epochs, data_used, coordinate_system, orbit_type, agency }
}

/// SP3 Line Two
pub(crate) fn read_line_two(r: &mut Reader) -> LineTwo {
    let a_week = 0..=604_800 * power_of_ten(8) - 1;
    let above_0 = 1..=i64::MAX;
    let below_1 = 0..=power_of_ten(13) - 1;
    r.symbol("##"); //                                      Columns 1-2    Symbols
    r.unused(3, 3); //                                      Column 3       Unused
    let week = r.integer(4, 7, 0..=i64::MAX); //            Columns 4-7    GPS Week         I4
    r.unused(8, 8); //                                      Column 8       Unused
    let seconds_of_week = r.decimal(9, 23, 8, a_week); //   Columns 9-23   Seconds of week  F15.8
    r.unused(24, 24); //                                    Column 24      Unused
    let interval = r.decimal(25, 38, 8, above_0); //        Columns 25-38  Epoch Interval   F14.8
    r.unused(39, 39); //                                    Column 39      Unused
    let modified_julian_day = r.integer(40, 44, 0..=i64::MAX); // 40-44    Mod Jul Day St   I5
    r.unused(45, 45); //                                    Column 45      Unused
    let fraction = r.decimal(46, 60, 13, below_1); //       Columns 46-60  Fractional Day   F15.13
    r.unused(61, 80);
    LineTwo { week, seconds_of_week, interval, modified_julian_day, fraction }
}

/// First and last column of the slots: "Columns 10-12 Sat #1 ... Columns 58-60 Sat #17".
fn slot_columns(slot: usize) -> (usize, usize) {
    (10 + 3 * slot, 12 + 3 * slot)
}

/// SP3 Line Three
pub(crate) fn read_first_satellites(r: &mut Reader, version: Version) -> Satellites {
    r.symbol("+ "); //                                      Columns 1-2    Symbols
    r.unused(3, 3); //                                      Column 3       Unused
    let written = read_integer(r.line.columns(4, 6));
    let bounds = 1..=version.most_satellites();
    let number = r.integer(4, 6, bounds); //                Columns 4-6    Number of Sats   I3
    r.unused(7, 9); //                                      Columns 7-9    Unused
    let identifiers = match written {
        Some(left) => read_identifiers(r, left as usize),
        None => skip_slots(r),
    };
    r.unused(61, 80);
    Satellites { number: Some(number), identifiers }
}

/// Where the number of satellites is malformed, its slots are not judged.
fn skip_slots(r: &mut Reader) -> Vec<Identifier> {
    r.take(10, 60, Role::Field);
    Vec::new()
}

/// SP3 Line Four and on
pub(crate) fn read_further_satellites(r: &mut Reader, left: usize) -> Satellites {
    r.symbol("+ "); //                                      Columns 1-2    Symbols
    r.unused(3, 9); //                                      Columns 3-9    Unused
    let identifiers = read_identifiers(r, left);
    r.unused(61, 80);
    Satellites { number: None, identifiers }
}

/// Identifiers in the first `left` slots (A1,I2.2), `  0` in the others.
fn read_identifiers(r: &mut Reader, left: usize) -> Vec<Identifier> {
    let mut identifiers = Vec::new();
    for slot in 0..SLOTS {
        let (first, last) = slot_columns(slot);
        if slot < left {
            identifiers.push(r.identifier(first, last));
        } else {
            r.empty_slot(first, last);
        }
    }
    identifiers
}

/// SP3 Line Twelve and on: exponents (I3) in the first `left` slots.
pub(crate) fn read_accuracies(r: &mut Reader, left: usize) -> Vec<i64> {
    r.symbol("++"); //                                      Columns 1-2    Symbols
    r.unused(3, 9); //                                      Columns 3-9    Unused
    let mut exponents = Vec::new();
    for slot in 0..SLOTS {
        let (first, last) = slot_columns(slot);
        if slot < left {
            exponents.push(r.integer(first, last, 0..=999));
        } else {
            r.empty_slot(first, last);
        }
    }
    r.unused(61, 80);
    exponents
}

/// "G, M, R, L, S, I, E, C or J with a blank after it"
pub(crate) const FILE_TYPES: [&str; 9] = ["G ", "M ", "R ", "L ", "S ", "I ", "E ", "C ", "J "];
pub(crate) const TIME_SYSTEMS: [&str; 8] = ["GPS", "GLO", "GAL", "BDT", "TAI", "UTC", "IRN", "QZS"];

/// SP3 Line Twenty one
pub(crate) fn read_first_characters(r: &mut Reader) -> FirstCharacters {
    r.symbol("%c"); //                                      Columns 1-2    Symbols
    r.unused(3, 3); //                                      Column 3       Unused
    let file_type = r.listed(4, 5, &FILE_TYPES); //         Columns 4-5    File Type        A2
    r.unused(6, 6); //                                      Column 6       Unused
    r.letters_c(7, 8); //                                   Columns 7-8    2 characters     A2
    r.unused(9, 9); //                                      Column 9       Unused
    let time_system = r.listed(10, 12, &TIME_SYSTEMS); //   Columns 10-12  Time System      A3
    read_rest_of_characters(r);
    FirstCharacters { file_type, time_system }
}

/// SP3 Line Twenty two
pub(crate) fn read_second_characters(r: &mut Reader) {
    r.symbol("%c"); //        Columns 1-2    Symbols
    r.unused(3, 3); //        Column 3       Unused
    r.letters_c(4, 5); //     Columns 4-5    2 characters     A2
    r.unused(6, 6); //        Column 6       Unused
    r.letters_c(7, 8); //     Columns 7-8    2 characters     A2
    r.unused(9, 9); //        Column 9       Unused
    r.letters_c(10, 12); //   Columns 10-12  3 characters     A3
    read_rest_of_characters(r);
}

/// The columns that both `%c` lines have alike.
fn read_rest_of_characters(r: &mut Reader) {
    r.unused(13, 13); //      Column 13      Unused
    r.letters_c(14, 16); //   Columns 14-16  3 characters     A3
    r.unused(17, 17); //      Column 17      Unused
    r.letters_c(18, 21); //   Columns 18-21  4 characters     A4
    r.unused(22, 22); //      Column 22      Unused
    r.letters_c(23, 26); //   Columns 23-26  4 characters     A4
    r.unused(27, 27); //      Column 27      Unused
    r.letters_c(28, 31); //   Columns 28-31  4 characters     A4
    r.unused(32, 32); //      Column 32      Unused
    r.letters_c(33, 36); //   Columns 33-36  4 characters     A4
    r.unused(37, 37); //      Column 37      Unused
    r.letters_c(38, 42); //   Columns 38-42  5 characters     A5
    r.unused(43, 43); //      Column 43      Unused
    r.letters_c(44, 48); //   Columns 44-48  5 characters     A5
    r.unused(49, 49); //      Column 49      Unused
    r.letters_c(50, 54); //   Columns 50-54  5 characters     A5
    r.unused(55, 55); //      Column 55      Unused
    r.letters_c(56, 60); //   Columns 56-60  5 characters     A5
    r.unused(61, 80);
}

/// SP3 Line Twenty three
pub(crate) fn read_first_floats(r: &mut Reader) -> Bases {
    r.symbol("%f"); //                                      Columns 1-2    Symbols
    r.unused(3, 3); //                                      Column 3       Unused
    let position = r.decimal(4, 13, 7, 0..=i64::MAX); //    Columns 4-13   Base for Pos/Vel F10.7
    r.unused(14, 14); //                                    Column 14      Unused
    let clock = r.decimal(15, 26, 9, 0..=i64::MAX); //      Columns 15-26  Base for Clk/Rate F12.9
    read_rest_of_floats(r);
    Bases { position, clock }
}

/// SP3 Line Twenty four
pub(crate) fn read_second_floats(r: &mut Reader) {
    r.symbol("%f"); //             Columns 1-2    Symbols
    r.unused(3, 3); //             Column 3       Unused
    r.decimal_zero(4, 13, 7); //   Columns 4-13   10-column float  F10.7
    r.unused(14, 14); //           Column 14      Unused
    r.decimal_zero(15, 26, 9); //  Columns 15-26  12-column float  F12.9
    read_rest_of_floats(r);
}

/// The columns that both `%f` lines have alike.
fn read_rest_of_floats(r: &mut Reader) {
    r.unused(27, 27); //           Column 27      Unused
    r.decimal_zero(28, 41, 11); // Columns 28-41  14-column float  F14.11
    r.unused(42, 42); //           Column 42      Unused
    r.decimal_zero(43, 60, 15); // Columns 43-60  18-column float  F18.15
    r.unused(61, 80);
}

/// SP3 Lines Twenty five and Twenty six
pub(crate) fn read_integers(r: &mut Reader) {
    r.symbol("%i"); //          Columns 1-2    Symbols
    r.unused(3, 3); //          Column 3       Unused
    r.integer_zero(4, 7); //    Columns 4-7    4-column int  I4
    r.unused(8, 8); //          Column 8       Unused
    r.integer_zero(9, 12); //   Columns 9-12   4-column int  I4
    r.unused(13, 13); //        Column 13      Unused
    r.integer_zero(14, 17); //  Columns 14-17  4-column int  I4
    r.unused(18, 18); //        Column 18      Unused
    r.integer_zero(19, 22); //  Columns 19-22  4-column int  I4
    r.unused(23, 23); //        Column 23      Unused
    r.integer_zero(24, 29); //  Columns 24-29  6-column int  I6
    r.unused(30, 30); //        Column 30      Unused
    r.integer_zero(31, 36); //  Columns 31-36  6-column int  I6
    r.unused(37, 37); //        Column 37      Unused
    r.integer_zero(38, 43); //  Columns 38-43  6-column int  I6
    r.unused(44, 44); //        Column 44      Unused
    r.integer_zero(45, 50); //  Columns 45-50  6-column int  I6
    r.unused(51, 51); //        Column 51      Unused
    r.integer_zero(52, 60); //  Columns 52-60  9-column int  I9
    r.unused(61, 80);
}

/// SP3 Lines Twenty seven to Thirty one
pub(crate) fn read_comment(r: &mut Reader) -> Vec<u8> {
    r.symbol("/*"); //             Columns 1-2    Symbols
    r.unused(3, 3); //             Column 3       Unused
    let text = r.text(4, 80); //   Columns 4-80   Comment  A77
    without_trailing_blanks(&text).to_vec()
}

/// SP3 Line Thirty two (The Epoch Header Record)
pub(crate) fn read_epoch(r: &mut Reader) -> Moment {
    r.symbol("* "); //                  Columns 1-2    Symbols
    r.unused(3, 3); //                  Column 3       Unused
    let moment = read_moment(r); //     Columns 4-31
    r.unused(32, 80);
    moment
}

/// Columns 2 to 73, alike in the Position and in the Velocity Record.
fn read_row(r: &mut Reader) -> Row {
    let identifier = r.identifier(2, 4); // Columns 2-4    Vehicle Id.                  A1,I2.2
    let x = r.coordinate(5, 18); //         Columns 5-18   x-coordinate, x-velocity     F14.6
    let y = r.coordinate(19, 32); //        Columns 19-32  y-coordinate, y-velocity     F14.6
    let z = r.coordinate(33, 46); //        Columns 33-46  z-coordinate, z-velocity     F14.6
    let clock = r.clock(47, 60); //         Columns 47-60  clock, clock rate-chg        F14.6
    r.unused(61, 61); //                    Column 61      Unused
    let x_sdev = r.exponent(62, 63); //     Columns 62-63  x-sdev                       I2
    r.unused(64, 64); //                    Column 64      Unused
    let y_sdev = r.exponent(65, 66); //     Columns 65-66  y-sdev                       I2
    r.unused(67, 67); //                    Column 67      Unused
    let z_sdev = r.exponent(68, 69); //     Columns 68-69  z-sdev                       I2
    r.unused(70, 70); //                    Column 70      Unused
    let c_sdev = r.exponent(71, 73); //     Columns 71-73  c-sdev                       I3
    Row {
        identifier,
        numbers: [x, y, z, clock],
        exponents: [x_sdev, y_sdev, z_sdev, c_sdev],
    }
}

/// SP3 Line Thirty three (The Position and Clock Record)
pub(crate) fn read_position(r: &mut Reader) -> Position {
    r.symbol("P"); //                                       Column 1       Symbol
    let row = read_row(r); //                               Columns 2-73
    r.unused(74, 74); //                                    Column 74      Unused
    let clock_event = r.listed(75, 75, &["E", " "]); //     Column 75      E=Clock Event Flag
    let clock_predicted = r.listed(76, 76, &["P", " "]); // Column 76      P=Clock Pred. Flag
    r.unused(77, 78); //                                    Columns 77-78  Unused
    let maneuver = r.listed(79, 79, &["M", " "]); //        Column 79      M=Maneuver Flag
    let orbit_predicted = r.listed(80, 80, &["P", " "]); // Column 80      P=Orbit Pred. Flag
    let flags = [clock_event, clock_predicted, maneuver, orbit_predicted];
    Position { row, flags }
}

/// SP3 Line Twenty six in Example 2
pub(crate) fn read_velocity(r: &mut Reader) -> Row {
    r.symbol("V"); //               Column 1       Symbol
    let row = read_row(r); //       Columns 2-73
    r.unused(74, 80); //            Columns 74-80  Unused
    row
}

/// SP3 Lines Twenty five (EP) and Twenty seven (EV) in Example 2
pub(crate) fn read_note(r: &mut Reader, symbol: &str) -> Note {
    r.symbol(symbol); //                Columns 1-2    Symbols
    r.unused(3, 4); //                  Columns 3-4    Unused
    let x = r.deviation(5, 8); //       Columns 5-8    x-sdev, xvel-sdev        I4
    r.unused(9, 9); //                  Column 9       Unused
    let y = r.deviation(10, 13); //     Columns 10-13  y-sdev, yvel-sdev        I4
    r.unused(14, 14); //                Column 14      Unused
    let z = r.deviation(15, 18); //     Columns 15-18  z-sdev, zvel-sdev        I4
    r.unused(19, 19); //                Column 19      Unused
    let clock = r.deviation(20, 26); // Columns 20-26  clk-sdev, clkrate-sdev   I7
    r.unused(27, 27); //                Column 27      Unused
    let xy = r.correlation(28, 35); //  Columns 28-35  xy-correlation           I8
    r.unused(36, 36); //                Column 36      Unused
    let xz = r.correlation(37, 44); //  Columns 37-44  xz-correlation           I8
    r.unused(45, 45); //                Column 45      Unused
    let xc = r.correlation(46, 53); //  Columns 46-53  xc-correlation           I8
    r.unused(54, 54); //                Column 54      Unused
    let yz = r.correlation(55, 62); //  Columns 55-62  yz-correlation           I8
    r.unused(63, 63); //                Column 63      Unused
    let yc = r.correlation(64, 71); //  Columns 64-71  yc-correlation           I8
    r.unused(72, 72); //                Column 72      Unused
    let zc = r.correlation(73, 80); //  Columns 73-80  zc-correlation           I8
    Note { deviations: [x, y, z, clock], correlations: [xy, xz, xc, yz, yc, zc] }
}

/// SP3 "Last" Line (The End-of-File marker)
pub(crate) fn read_end(r: &mut Reader) {
    r.symbol("EOF"); //             Columns 1-3    End of File
    r.unused(4, 80);
}

/// The version of a kind letter, and the letter that asks the same of SP3-d.
fn version_of(letter: u8) -> (Version, u8) {
    let version = if letter.is_ascii_uppercase() { Version::C } else { Version::D };
    (version, letter.to_ascii_lowercase())
}

/// The record that kind letter `letter` asks for; faults are left in `r`.
fn read_record(letter: u8, left: usize, r: &mut Reader) -> Record {
    let (version, letter) = version_of(letter);
    match letter {
        b'a' => Record::First(read_first_line(r, version)),
        b'b' => Record::Two(read_line_two(r)),
        b'c' => Record::Satellites(read_first_satellites(r, version)),
        b'd' => Record::Satellites(read_further_satellites(r, left)),
        b'e' => Record::Accuracies(read_accuracies(r, left)),
        b'f' => Record::FirstCharacters(read_first_characters(r)),
        b'g' => {
            read_second_characters(r);
            Record::SecondCharacters
        }
        b'h' => Record::FirstFloats(read_first_floats(r)),
        b'i' => {
            read_second_floats(r);
            Record::SecondFloats
        }
        b'j' => {
            read_integers(r);
            Record::Integers
        }
        b'k' => Record::Comment(read_comment(r)),
        b'l' => Record::Epoch(read_epoch(r)),
        b'm' => Record::Position(read_position(r)),
        b'n' => Record::Velocity(read_velocity(r)),
        b'o' => Record::Note(EP, read_note(r, EP)),
        b'p' => Record::Note(EV, read_note(r, EV)),
        b'q' => {
            read_end(r);
            Record::End
        }
        _ => fail(&format!("no kind has the letter {:?}", letter as char)),
    }
}

// ---------------------------------------------------------------------------
// Canonical text: the values put into their columns
// ---------------------------------------------------------------------------

/// A line of 80 blanks into which fields are put.
struct Writer([u8; WIDTH]);

impl Writer {
    fn new(symbol: &str) -> Writer {
        let mut w = Writer([b' '; WIDTH]);
        w.text(1, symbol.as_bytes());
        w
    }

    fn text(&mut self, first: usize, text: &[u8]) {
        self.0[first - 1..first - 1 + text.len()].copy_from_slice(text);
    }

    /// Numbers stand at the right of their columns; those that don't fit leave
    /// them blank.
    fn at_the_right(&mut self, first: usize, last: usize, text: &str) {
        if text.len() <= last + 1 - first {
            self.text(last + 1 - text.len(), text.as_bytes());
        }
    }

    fn integer(&mut self, first: usize, last: usize, value: i64) {
        self.at_the_right(first, last, &value.to_string());
    }

    /// One digit at least before the point, the minus directly before it.
    fn decimal(&mut self, first: usize, last: usize, places: usize, value: i64) {
        let minus = if value < 0 { "-" } else { "" };
        let whole = value.abs() / power_of_ten(places);
        let rest = value.abs() % power_of_ten(places);
        self.at_the_right(first, last, &format!("{minus}{whole}.{rest:0places$}"));
    }

    /// Blank where it is unknown.
    fn known(&mut self, first: usize, last: usize, value: Option<i64>) {
        if let Some(value) = value {
            self.integer(first, last, value);
        }
    }

    fn exponent(&mut self, first: usize, last: usize, exponent: Exponent) {
        if let Exponent::Known(value) = exponent {
            self.integer(first, last, value);
        }
    }

    fn identifier(&mut self, first: usize, id: Identifier) {
        self.text(first, format!("{}{:02}", id.letter as char, id.number).as_bytes());
    }

    /// "trailing blanks cut from each line"
    fn finish(self) -> String {
        String::from_utf8_lossy(without_trailing_blanks(&self.0)).into_owned()
    }
}

fn write_moment(w: &mut Writer, moment: &Moment) {
    w.integer(4, 7, moment.date.year);
    w.integer(9, 10, moment.date.month);
    w.integer(12, 13, moment.date.day);
    w.integer(15, 16, moment.hour);
    w.integer(18, 19, moment.minute);
    w.decimal(21, 31, 8, moment.seconds);
}

pub(crate) fn write_first_line(version: Version, line: &FirstLine) -> String {
    let mut w = Writer::new(version.symbol());
    w.text(3, &line.mode);
    write_moment(&mut w, &line.start);
    w.integer(33, 39, line.epochs);
    w.text(41, &line.data_used);
    w.text(47, &line.coordinate_system);
    w.text(53, &line.orbit_type);
    w.text(57, &line.agency);
    w.finish()
}

pub(crate) fn write_line_two(line: &LineTwo) -> String {
    let mut w = Writer::new("##");
    w.integer(4, 7, line.week);
    w.decimal(9, 23, 8, line.seconds_of_week);
    w.decimal(25, 38, 8, line.interval);
    w.integer(40, 44, line.modified_julian_day);
    w.decimal(46, 60, 13, line.fraction);
    w.finish()
}

pub(crate) fn write_satellites(line: &Satellites) -> String {
    let mut w = Writer::new("+ ");
    if let Some(number) = line.number {
        w.integer(4, 6, number);
    }
    for slot in 0..SLOTS {
        let (first, last) = slot_columns(slot);
        match line.identifiers.get(slot) {
            Some(&identifier) => w.identifier(first, identifier),
            None => w.integer(first, last, 0),
        }
    }
    w.finish()
}

pub(crate) fn write_accuracies(exponents: &[i64]) -> String {
    let mut w = Writer::new("++");
    for slot in 0..SLOTS {
        let (first, last) = slot_columns(slot);
        w.integer(first, last, exponents.get(slot).copied().unwrap_or(0));
    }
    w.finish()
}

pub(crate) fn write_characters(file_type: &[u8], time_system: &[u8]) -> String {
    let mut w = Writer::new("%c cc cc ccc ccc cccc cccc cccc cccc ccccc ccccc ccccc ccccc");
    w.text(4, file_type);
    w.text(10, time_system);
    w.finish()
}

pub(crate) fn write_floats(position: i64, clock: i64) -> String {
    let mut w = Writer::new("%f");
    w.decimal(4, 13, 7, position);
    w.decimal(15, 26, 9, clock);
    w.decimal(28, 41, 11, 0);
    w.decimal(43, 60, 15, 0);
    w.finish()
}

pub(crate) fn write_integers() -> String {
    let mut w = Writer::new("%i");
    let columns = [(4, 7), (9, 12), (14, 17), (19, 22), (24, 29), (31, 36), (38, 43), (45, 50)];
    for (first, last) in columns.into_iter().chain([(52, 60)]) {
        w.integer(first, last, 0);
    }
    w.finish()
}

/// "text in 4 to 80": what is longer has no columns.
pub(crate) fn write_comment(text: &[u8]) -> String {
    let mut w = Writer::new("/*");
    w.text(4, &text[..text.len().min(77)]);
    w.finish()
}

pub(crate) fn write_epoch(moment: &Moment) -> String {
    let mut w = Writer::new("* ");
    write_moment(&mut w, moment);
    w.finish()
}

fn write_row(w: &mut Writer, row: &Row) {
    w.identifier(2, row.identifier);
    let columns = [(5, 18), (19, 32), (33, 46), (47, 60)];
    for ((first, last), number) in columns.into_iter().zip(row.numbers) {
        w.decimal(first, last, 6, number);
    }
    let columns = [(62, 63), (65, 66), (68, 69), (71, 73)];
    for ((first, last), exponent) in columns.into_iter().zip(row.exponents) {
        w.exponent(first, last, exponent);
    }
}

pub(crate) fn write_position(position: &Position) -> String {
    let mut w = Writer::new("P");
    write_row(&mut w, &position.row);
    for (place, column) in [75, 76, 79, 80].into_iter().enumerate() {
        w.text(column, &position.flags[place]);
    }
    w.finish()
}

pub(crate) fn write_velocity(row: &Row) -> String {
    let mut w = Writer::new("V");
    write_row(&mut w, row);
    w.finish()
}

pub(crate) fn write_note(symbol: &str, note: &Note) -> String {
    let mut w = Writer::new(symbol);
    let columns = [(5, 8), (10, 13), (15, 18), (20, 26)];
    for ((first, last), value) in columns.into_iter().zip(note.deviations) {
        w.known(first, last, value);
    }
    let columns = [(28, 35), (37, 44), (46, 53), (55, 62), (64, 71), (73, 80)];
    for ((first, last), value) in columns.into_iter().zip(note.correlations) {
        w.known(first, last, value);
    }
    w.finish()
}

/// The canonical line of a record.
fn canonical(version: Version, record: &Record) -> String {
    match record {
        Record::First(line) => write_first_line(version, line),
        Record::Two(line) => write_line_two(line),
        Record::Satellites(line) => write_satellites(line),
        Record::Accuracies(exponents) => write_accuracies(exponents),
        Record::FirstCharacters(line) => write_characters(&line.file_type, &line.time_system),
        Record::SecondCharacters => write_characters(b"cc", b"ccc"),
        Record::FirstFloats(bases) => write_floats(bases.position, bases.clock),
        Record::SecondFloats => write_floats(0, 0),
        Record::Integers => write_integers(),
        Record::Comment(text) => write_comment(text),
        Record::Epoch(moment) => write_epoch(moment),
        Record::Position(position) => write_position(position),
        Record::Velocity(row) => write_velocity(row),
        Record::Note(symbol, note) => write_note(symbol, note),
        Record::End => "EOF".to_string(),
    }
}

// ---------------------------------------------------------------------------
// Records by their values, and their lines in lent output
// ---------------------------------------------------------------------------

/// A number of any size. What is larger than an i64 fits no columns, so the
/// largest may stand for it. Minus zero is zero.
fn number_of(word: &str) -> i64 {
    let most = i128::from(i64::MAX);
    match word.parse::<i128>() {
        Ok(number) => number.clamp(-most, most) as i64,
        Err(_) => fail(&format!("{word:?} is no number")),
    }
}

/// A letter, whether capital or not, and two digits, 00 too.
fn identifier_of(word: &str) -> Identifier {
    match word.as_bytes() {
        [letter, digits @ ..] if letter.is_ascii_alphabetic() && digits.len() == 2 => {
            Identifier { letter: *letter, number: number_of(&word[1..]) }
        }
        _ => fail(&format!("{word:?} is no identifier")),
    }
}

/// Numbers with a blank between them, and zeros after them.
fn numbers_of(words: &str) -> Vec<i64> {
    let given = words.split_terminator(' ').map(number_of);
    given.chain(std::iter::repeat(0)).take(SLOTS + 1).collect()
}

fn moment_of(numbers: &[i64]) -> Moment {
    Moment {
        date: Date { year: numbers[0], month: numbers[1], day: numbers[2] },
        hour: numbers[3],
        minute: numbers[4],
        seconds: numbers[5],
    }
}

fn first_line_of(values: &str) -> FirstLine {
    let (front, words) = values.split_at(19);
    let numbers = numbers_of(words);
    let text = |from: usize, to: usize| front.as_bytes()[from..to].to_vec();
    FirstLine {
        mode: text(0, 1),
        start: moment_of(&numbers),
        epochs: numbers[6],
        data_used: text(1, 6),
        coordinate_system: text(6, 11),
        orbit_type: text(11, 14),
        agency: text(14, 18),
    }
}

fn line_two_of(numbers: &[i64]) -> LineTwo {
    LineTwo {
        week: numbers[0],
        seconds_of_week: numbers[1],
        interval: numbers[2],
        modified_julian_day: numbers[3],
        fraction: numbers[4],
    }
}

/// How many slots of a line are used.
fn slots_used(count: i64) -> usize {
    SLOTS.min(count as usize)
}

/// The number of satellites, or how many are left, and the identifiers of those.
fn satellites_of(values: &str, first: bool) -> Satellites {
    let (count, words) = values.split_once(' ').unwrap_or((values, ""));
    let count = number_of(count);
    let used = words.split_terminator(' ').take(slots_used(count));
    let identifiers: Vec<Identifier> = used.map(identifier_of).collect();
    if identifiers.len() < slots_used(count) {
        fail(&format!("{values:?} has too few identifiers"));
    }
    Satellites { number: first.then_some(count), identifiers }
}

fn accuracies_of(numbers: &[i64]) -> Vec<i64> {
    numbers[1..].iter().copied().take(slots_used(numbers[0])).collect()
}

fn first_characters_of(bytes: &[u8]) -> FirstCharacters {
    FirstCharacters { file_type: vec![bytes[0], b' '], time_system: bytes[1..4].to_vec() }
}

/// What stands after the identifier of a row.
fn after_identifier(values: &str) -> Vec<i64> {
    numbers_of(&values[4..])
}

fn row_of(values: &str) -> Row {
    let n = after_identifier(values);
    Row {
        identifier: identifier_of(&values[..3]),
        numbers: [n[0], n[1], n[2], n[3]],
        exponents: [n[4], n[5], n[6], n[7]].map(Exponent::Known),
    }
}

fn position_of(values: &str) -> Position {
    let n = after_identifier(values);
    let flag = |place: usize, letter: u8| vec![if n[place] == 0 { b' ' } else { letter }];
    let flags = [flag(8, b'E'), flag(9, b'P'), flag(10, b'M'), flag(11, b'P')];
    Position { row: row_of(values), flags }
}

fn note_of(numbers: &[i64]) -> Note {
    let number = |place: usize| Some(numbers[place]);
    Note { deviations: [0, 1, 2, 3].map(number), correlations: [4, 5, 6, 7, 8, 9].map(number) }
}

/// The record of a kind letter out of its values.
fn record_of(letter: u8, values: &str) -> Record {
    let numbers = || numbers_of(values);
    match letter {
        b'a' => Record::First(first_line_of(values)),
        b'b' => Record::Two(line_two_of(&numbers())),
        b'c' => Record::Satellites(satellites_of(values, true)),
        b'd' => Record::Satellites(satellites_of(values, false)),
        b'e' => Record::Accuracies(accuracies_of(&numbers())),
        b'f' => Record::FirstCharacters(first_characters_of(values.as_bytes())),
        b'g' => Record::SecondCharacters,
        b'h' => Record::FirstFloats(Bases { position: numbers()[0], clock: numbers()[1] }),
        b'i' => Record::SecondFloats,
        b'j' => Record::Integers,
        b'k' => Record::Comment(values.as_bytes().to_vec()),
        b'l' => Record::Epoch(moment_of(&numbers())),
        b'm' => Record::Position(position_of(values)),
        b'n' => Record::Velocity(row_of(values)),
        b'o' => Record::Note(EP, note_of(&numbers())),
        b'p' => Record::Note(EV, note_of(&numbers())),
        b'q' => Record::End,
        _ => fail(&format!("no record has the letter {:?}", letter as char)),
    }
}

/// The line of a record, by its kind letter and values.
fn line_of_record(letter: u8, values: &str) -> String {
    let (version, letter) = version_of(letter);
    canonical(version, &record_of(letter, values))
}

/// The length of a line with its LF, and what `room` bytes that held `mark` hold
/// after it was to be laid at their front.
fn laid(line: &str, room: usize, mark: char) -> String {
    let length = line.len() + 1;
    let marks = |count: usize| mark.to_string().repeat(count);
    let held = match room.checked_sub(length) {
        Some(rest) => format!("{line}${}", marks(rest)),
        None => marks(room),
    };
    format!("{length} |{held}|")
}

// ---------------------------------------------------------------------------
// Judging cases
// ---------------------------------------------------------------------------

/// The answer of one line: a fault, or its canonical text.
fn judge(letter: u8, left: usize, text: &[u8]) -> Result<String, Fault> {
    let mut reader = Reader::new(text);
    let record = read_record(letter, left, &mut reader);
    match reader.deciding {
        Some(fault) => Err(fault),
        None => Ok(canonical(version_of(letter).0, &record)),
    }
}

/// The letter of a case that is a record to be written: its kind letter, the mark
/// and the values stand in place of the line, its room in place of the argument.
const WRITTEN: u8 = b'w';

#[derive(Clone, PartialEq, Eq, Hash)]
struct Case {
    letter: u8,
    argument: usize,
    line: String,
}

impl Case {
    fn show(&self) -> String {
        format!("{}{:03}{}", self.letter as char, self.argument, self.line)
    }

    fn answer(&self) -> String {
        let text = self.line.as_bytes();
        if self.letter == WRITTEN {
            let line = line_of_record(text[0], &self.line[2..]);
            return laid(&line, self.argument, text[1] as char);
        }
        if let (version, b'z') = version_of(self.letter) {
            return format!("kind {}", kind_of_line(version, &Line::padded(text)));
        }
        match judge(self.letter, self.argument, text) {
            Err(fault) => format!("{} {}", fault.number, fault.column),
            Ok(canonical) => format!("0 0 {canonical}"),
        }
    }
}

impl Case {
    /// What its answer begins with; of a record whether its line was laid.
    fn outcome(&self) -> String {
        let answer = self.answer();
        let first = answer.split(' ').next().unwrap_or_default();
        match self.letter {
            WRITTEN if answer.contains('$') => "laid".to_string(),
            WRITTEN => "no room".to_string(),
            _ => first.to_string(),
        }
    }
}

/// One case as it stands in a file of cases.
fn parse_case(bytes: &[u8], place: usize) -> Case {
    let printable = bytes.iter().all(|c| (32..=126).contains(c));
    let argument = bytes.get(1..4).and_then(read_digits);
    match argument {
        Some(argument) if printable && (bytes[0] == WRITTEN || bytes.len() <= 4 + WIDTH) => Case {
            letter: bytes[0],
            argument: argument as usize,
            line: String::from_utf8_lossy(&bytes[4..]).into_owned(),
        },
        _ => fail(&format!("case {place} is no case")),
    }
}

fn parse_cases(bytes: &[u8]) -> Vec<Case> {
    let whole = bytes.strip_suffix(b"\n").unwrap_or(bytes);
    let lines = whole.split(|&c| c == b'\n').enumerate();
    lines.map(|(place, line)| parse_case(line, place + 1)).collect()
}

fn lines_of(cases: &[Case], show: fn(&Case) -> String) -> String {
    cases.iter().map(|case| show(case) + "\n").collect()
}

// ---------------------------------------------------------------------------
// Good lines, from which the cases are made
// ---------------------------------------------------------------------------

/// Kind letter, argument, and a line that is accepted and canonical. The first
/// of each kind fills every column that its record has.
const GOOD: &[(u8, usize, &str)] = &[
    (b'a', 0, "#dP2013  4  3  0  0  0.00000000       1 ORBIT WGS84 BCT PORT"),
    (b'a', 0, "#dV2096 12 31 23 59 59.99999999  100000 u+U    IGS  HLM  IGS"),
    (b'b', 0, "## 1734 259200.00000000   900.00000000 56385 0.0000000000000"),
    (b'b', 0, "##   99  86399.12345678 99999.99999999  4244 0.9876543210123"),
    (b'c', 0, "+  140   G01G02G03G04G05G06G07G08G09G10G11G12G13G14G15G16G17"),
    (b'c', 0, "+    2   G07R24  0  0  0  0  0  0  0  0  0  0  0  0  0  0  0"),
    (b'd', 34, "+        G18G19G20G21G22G23G24G25G26G27G28G29G30G31G32R01R02"),
    (b'd', 4, "+        S33S35S37S38  0  0  0  0  0  0  0  0  0  0  0  0  0"),
    (b'e', 17, "++         7  8  7 18  6  7 37  7  7  7999  7  7  0  8 27  9"),
    (b'e', 9, "++         9  8  6  8  7 17  6  7100  0  0  0  0  0  0  0  0"),
    (b'f', 0, "%c G  cc GPS ccc cccc cccc cccc cccc ccccc ccccc ccccc ccccc"),
    (b'g', 0, "%c cc cc ccc ccc cccc cccc cccc cccc ccccc ccccc ccccc ccccc"),
    (b'h', 0, "%f  1.2500000  1.025000000  0.00000000000  0.000000000000000"),
    (b'i', 0, "%f  0.0000000  0.000000000  0.00000000000  0.000000000000000"),
    (b'j', 0, "%i    0    0    0    0      0      0      0      0         0"),
    (
        b'k',
        0,
        "/* might look like with more than 85 satellites, the columns all filled to 80. A",
    ),
    (b'k', 0, "/* ONE ROW"),
    (b'l', 0, "*  2013  4  3 23 45  0.00000000"),
    (
        b'm',
        0,
        "PG01 -11044.805800 -10475.672350  21929.418200    189.163300 18 18 18 219 EP  MP",
    ),
    (b'm', 0, "PG07   5000.000001     -0.500000      0.000000 999999.999999"),
    (
        b'n',
        0,
        "VG01  20298.880364 -18462.044804   1381.387685     -4.534317 14 14 14 191",
    ),
    (b'n', 0, "VR24      0.000000      0.000000      0.000000 999999.999999"),
    (
        b'o',
        0,
        "EP    55   55   55     222  1234567 -1234567  5999999      -30       21 -1230000",
    ),
    (
        b'p',
        0,
        "EV    22   22   22     111  1234567  1234567  1234567  1234567  1234567  1234567",
    ),
    (b'o', 0, "EP"),
    (b'o', 0, "EP  1000      9999 9999999"),
    (b'p', 0, "EV                       0 -9999999                             9999999"),
    (b'q', 0, "EOF"),
];

fn good_cases() -> Vec<Case> {
    let case = |&(letter, argument, line): &(u8, usize, &str)| Case {
        letter,
        argument,
        line: line.to_string(),
    };
    GOOD.iter().map(case).collect()
}

/// The first good line of a kind.
fn good(letter: u8) -> Case {
    let found = good_cases().into_iter().find(|case| case.letter == letter);
    found.unwrap_or_else(|| fail(&format!("no good line for {:?}", letter as char)))
}

/// The line with `text` put at column `first`, lengthened where needed.
fn edited(case: &Case, first: usize, text: &str) -> Case {
    let mut bytes = case.line.clone().into_bytes();
    let end = first - 1 + text.len();
    if bytes.len() < end {
        bytes.resize(end, b' ');
    }
    bytes[first - 1..end].copy_from_slice(text.as_bytes());
    let line = String::from_utf8_lossy(&bytes).into_owned();
    Case { line, ..case.clone() }
}

fn cut(case: &Case, length: usize) -> Case {
    let line = case.line.chars().take(length).collect();
    Case { line, ..case.clone() }
}

/// What the columns of a case's record serve for.
fn roles(case: &Case) -> [Role; WIDTH] {
    let mut reader = Reader::new(case.line.as_bytes());
    read_record(case.letter, case.argument, &mut reader);
    reader.roles
}

// ---------------------------------------------------------------------------
// Single faults with their answers worked out by hand
// ---------------------------------------------------------------------------

/// Kind letter, column and text put into the first good line of that kind,
/// and the number and column that the documents give for it.
const SPOILED: &[(u8, usize, &str, u8, usize)] = &[
    // First line.
    (b'a', 2, "c", 4, 0),
    (b'a', 3, "v", 6, 3),
    (b'a', 4, "20x3", 6, 4),
    (b'a', 8, "x", 5, 8),
    (b'a', 9, "13", 7, 4),
    (b'a', 12, "3 ", 6, 4),
    (b'a', 15, "24", 7, 15),
    (b'a', 18, "  ", 6, 18),
    (b'a', 20, "0", 5, 20),
    (b'a', 21, "60.00000000", 7, 21),
    (b'a', 33, "     -1", 6, 33),
    (b'a', 56, ".", 5, 56),
    (b'a', 61, "x", 5, 61),
    // Line two.
    (b'b', 1, " ", 4, 0),
    (b'b', 3, "1", 5, 3),
    (b'b', 4, "    ", 6, 4),
    (b'b', 9, "604800.00000000", 7, 9),
    (b'b', 24, "-", 5, 24),
    (b'b', 25, "    0.00000000", 7, 25),
    (b'b', 25, " -900.00000000", 6, 25),
    (b'b', 40, "5638 ", 6, 40),
    (b'b', 46, "1.0000000000000", 7, 46),
    (b'b', 46, " .0000000000000", 6, 46),
    (b'b', 61, "0", 5, 61),
    // First satellites.
    (b'c', 2, "+", 4, 0),
    (b'c', 3, "x", 5, 3),
    (b'c', 4, "  x", 6, 4),
    (b'c', 4, "000", 7, 4),
    (b'c', 4, "   ", 6, 4),
    (b'c', 8, "0", 5, 8),
    (b'c', 10, "g01", 6, 10),
    (b'c', 22, "G00", 7, 22),
    (b'c', 34, "G 9", 6, 34),
    (b'c', 58, "R00", 7, 58),
    (b'c', 70, "x", 5, 70),
    // Further satellites.
    (b'd', 1, "P", 4, 0),
    (b'd', 5, "1", 5, 5),
    (b'd', 9, "x", 5, 9),
    (b'd', 10, "  0", 6, 10),
    (b'd', 13, "G00", 7, 13),
    (b'd', 31, "   ", 6, 31),
    (b'd', 55, "R1 ", 6, 55),
    (b'd', 58, "Z00", 7, 58),
    (b'd', 61, "0", 5, 61),
    // Accuracies.
    (b'e', 2, " ", 4, 0),
    (b'e', 3, "x", 5, 3),
    (b'e', 9, "7", 5, 9),
    (b'e', 10, "   ", 6, 10),
    (b'e', 25, " 7 ", 6, 25),
    (b'e', 40, " -1", 6, 40),
    (b'e', 58, "G01", 6, 58),
    (b'e', 80, "0", 5, 80),
    // First characters.
    (b'f', 2, "C", 4, 0),
    (b'f', 3, "c", 5, 3),
    (b'f', 4, "X ", 6, 4),
    (b'f', 4, "GG", 6, 4),
    (b'f', 8, "C", 5, 7),
    (b'f', 10, "gps", 6, 10),
    (b'f', 13, "c", 5, 13),
    (b'f', 21, " ", 5, 18),
    (b'f', 58, "x", 5, 56),
    (b'f', 61, "c", 5, 61),
    // Second characters.
    (b'g', 1, "#", 4, 0),
    (b'g', 4, "G ", 5, 4),
    (b'g', 6, "c", 5, 6),
    (b'g', 10, "GPS", 5, 10),
    (b'g', 16, " ", 5, 14),
    (b'g', 42, "C", 5, 38),
    (b'g', 55, "c", 5, 55),
    (b'g', 79, "c", 5, 79),
    // First floats.
    (b'h', 2, "F", 4, 0),
    (b'h', 3, "1", 5, 3),
    (b'h', 4, "-1.2500000", 6, 4),
    (b'h', 14, "-", 5, 14),
    (b'h', 15, "  .025000000", 6, 15),
    (b'h', 28, "-0.00000000000", 5, 28),
    (b'h', 43, " 0.000000000000001", 5, 43),
    (b'h', 60, " ", 5, 43),
    (b'h', 75, ".", 5, 75),
    // Second floats.
    (b'i', 2, "i", 4, 0),
    (b'i', 4, " 1.0000000", 5, 4),
    (b'i', 14, "0", 5, 14),
    (b'i', 15, "            ", 5, 15),
    (b'i', 28, "  .00000000000", 5, 28),
    (b'i', 42, "-", 5, 42),
    (b'i', 43, "00.00000000000000x", 5, 43),
    (b'i', 61, "0", 5, 61),
    // Integers.
    (b'j', 2, "f", 4, 0),
    (b'j', 4, "   1", 5, 4),
    (b'j', 8, "0", 5, 8),
    (b'j', 14, "  -0", 5, 14),
    (b'j', 24, "      ", 5, 24),
    (b'j', 50, " ", 5, 45),
    (b'j', 52, "000000010", 5, 52),
    (b'j', 62, "0", 5, 62),
    // Comment.
    (b'k', 1, "*", 4, 0),
    (b'k', 2, " ", 4, 0),
    (b'k', 3, "x", 5, 3),
    // Epoch header.
    (b'l', 2, "*", 4, 0),
    (b'l', 3, "2", 5, 3),
    (b'l', 4, "1979", 7, 4),
    (b'l', 9, "  ", 6, 4),
    (b'l', 12, " 0", 7, 4),
    (b'l', 14, "-", 5, 14),
    (b'l', 15, "24", 7, 15),
    (b'l', 18, "4 ", 6, 18),
    (b'l', 21, "-0.00000000", 6, 21),
    (b'l', 21, "60.00000000", 7, 21),
    (b'l', 32, "0", 5, 32),
    // Position.
    (b'm', 1, "p", 4, 0),
    (b'm', 2, "G00", 7, 2),
    (b'm', 2, "G 1", 6, 2),
    (b'm', 5, "1000000.000000", 7, 5),
    (b'm', 19, "       .500000", 6, 19),
    (b'm', 33, "            1.", 6, 33),
    (b'm', 5, " 999999.      ", 6, 5),
    (b'm', 47, "9999999.999999", 7, 47),
    (b'm', 47, "-999999.      ", 6, 47),
    (b'm', 47, "1000000.000000", 7, 47),
    (b'm', 61, "1", 5, 61),
    (b'm', 62, "1 ", 6, 62),
    (b'm', 71, " -1", 6, 71),
    (b'm', 75, "P", 6, 75),
    (b'm', 77, "x", 5, 77),
    (b'm', 79, "m", 6, 79),
    // Velocity.
    (b'n', 1, "P", 4, 0),
    (b'n', 2, "001", 6, 2),
    (b'n', 2, "V00", 7, 2),
    (b'n', 5, "   - 1.000000 ", 6, 5),
    (b'n', 19, "9999999.999999", 7, 19),
    (b'n', 33, " 999999.      ", 6, 33),
    (b'n', 47, "    +4.534317 ", 6, 47),
    (b'n', 47, " 999999.     0", 6, 47),
    (b'n', 64, "1", 5, 64),
    (b'n', 68, ".1", 6, 68),
    (b'n', 74, " E", 5, 75),
    (b'n', 80, "P", 5, 80),
    // Notes: each unused column and each field, 7 and 6 in the correlations.
    (b'o', 2, "V", 4, 0),
    (b'o', 3, "x", 5, 3),
    (b'o', 4, "5", 5, 4),
    (b'o', 5, "55  ", 6, 5),
    (b'o', 9, "1", 5, 9),
    (b'o', 10, "  -1", 6, 10),
    (b'o', 14, "-", 5, 14),
    (b'o', 15, "5 5 ", 6, 15),
    (b'o', 19, "0", 5, 19),
    (b'o', 20, "    2.2", 6, 20),
    (b'o', 27, "x", 5, 27),
    (b'o', 28, "99999999", 7, 28),
    (b'o', 36, "-", 5, 36),
    (b'o', 37, "     - 1", 6, 37),
    (b'o', 45, "1", 5, 45),
    (b'o', 46, "10000000", 7, 46),
    (b'o', 54, "x", 5, 54),
    (b'o', 55, "      +1", 6, 55),
    (b'o', 63, "0", 5, 63),
    (b'o', 64, "       -", 6, 64),
    (b'o', 72, "x", 5, 72),
    (b'o', 73, "1234567 ", 6, 73),
    (b'o', 73, "12345678", 7, 73),
    (b'p', 2, "P", 4, 0),
    (b'p', 4, "x", 5, 4),
    (b'p', 5, "-001", 6, 5),
    (b'p', 15, "2 2 ", 6, 15),
    (b'p', 20, "222    ", 6, 20),
    (b'p', 27, "0", 5, 27),
    (b'p', 28, "--123456", 6, 28),
    (b'p', 37, "10000000", 7, 37),
    (b'p', 55, "55555555", 7, 55),
    (b'p', 63, "-", 5, 63),
    (b'p', 64, "99999999", 7, 64),
    (b'p', 73, "1.234567", 6, 73),
    (b'p', 80, "x", 6, 73),
    // End.
    (b'q', 3, "X", 4, 0),
    (b'q', 4, "X", 5, 4),
    (b'q', 40, ".", 5, 40),
    (b'q', 80, "0", 5, 80),
];

pub(crate) type Spoiler = (u8, usize, &'static str, u8, usize);

pub(crate) fn spoilers_of(letter: u8) -> Vec<&'static Spoiler> {
    SPOILED.iter().filter(|spoiler| spoiler.0 == letter).collect()
}

pub(crate) fn overlap(one: &Spoiler, other: &Spoiler) -> bool {
    one.1 < other.1 + other.2.len() && other.1 < one.1 + one.2.len()
}

// ---------------------------------------------------------------------------
// Clocks and rates (request 3) with their answers worked out by hand
// ---------------------------------------------------------------------------

/// An absent clock, however it was spelt, in the canonical form.
const TWELVE_NINES: &str = " 999999.999999";
/// A clock that has only the six nines that 000 requires.
const BARE_CLOCK: &str = " 999999.      ";

/// What columns 47 to 60 of a P or V hold; how the canonical form shows it there,
/// or the number that it earns at column 47.
pub(crate) const CLOCKS: &[(&str, Result<&str, u8>)] = &[
    // Absent: the fraction blank or any six digits, a leading zero.
    (BARE_CLOCK, Ok(TWELVE_NINES)),
    ("0999999.      ", Ok(TWELVE_NINES)),
    (" 999999.000000", Ok(TWELVE_NINES)),
    (" 999999.000001", Ok(TWELVE_NINES)),
    (" 999999.999998", Ok(TWELVE_NINES)),
    (TWELVE_NINES, Ok(TWELVE_NINES)),
    ("0999999.000000", Ok(TWELVE_NINES)),
    ("0999999.123456", Ok(TWELVE_NINES)),
    ("0999999.999999", Ok(TWELVE_NINES)),
    // Present: a whole part of another value, or a minus.
    (" 999998.999999", Ok(" 999998.999999")),
    ("0999998.000000", Ok(" 999998.000000")),
    ("-999999.000000", Ok("-999999.000000")),
    ("-999999.999999", Ok("-999999.999999")),
    ("-999998.999999", Ok("-999998.999999")),
    ("  99999.999999", Ok("  99999.999999")),
    ("0099999.000000", Ok("  99999.000000")),
    ("  99999.900000", Ok("  99999.900000")),
    ("      0.999999", Ok("      0.999999")),
    // A blank fraction after anything else.
    ("-999999.      ", Err(6)),
    (" 999998.      ", Err(6)),
    ("0999998.      ", Err(6)),
    ("1000000.      ", Err(6)),
    ("9999999.      ", Err(6)),
    ("  99999.      ", Err(6)),
    ("      0.      ", Err(6)),
    ("       .      ", Err(6)),
    ("- 99999.      ", Err(6)),
    // A fraction of digits and blanks, or of something else.
    (" 999999.00000 ", Err(6)),
    (" 999999.     0", Err(6)),
    (" 999999. 00000", Err(6)),
    (" 999999.9     ", Err(6)),
    (" 999999.99 999", Err(6)),
    (" 999999.-00000", Err(6)),
    (" 999999.     .", Err(6)),
    // The point not in column 54, or none; no digits, or others between them.
    (" 999999       ", Err(6)),
    ("999999.       ", Err(6)),
    ("999999.0000000", Err(6)),
    ("  999999.     ", Err(6)),
    ("  999999.00000", Err(6)),
    (" 999999,      ", Err(6)),
    ("              ", Err(6)),
    ("+999999.      ", Err(6)),
    ("+999999.999999", Err(6)),
    ("9 99999.      ", Err(6)),
    ("99999 9.      ", Err(6)),
    ("99999-9.000000", Err(6)),
    // Well formed and too large.
    ("1000000.000000", Err(7)),
    ("1999999.999999", Err(7)),
    ("9999990.000000", Err(7)),
];

/// The same columns of x, y and z: no six nines make them absent.
const COORDINATES: &[(&str, Result<&str, u8>)] = &[
    (BARE_CLOCK, Err(6)),
    ("0999999.      ", Err(6)),
    ("-999999.      ", Err(6)),
    (" 999999.00000 ", Err(6)),
    (" 999999.000000", Ok(" 999999.000000")),
    (" 999999.999998", Ok(" 999999.999998")),
    ("0999999.123456", Ok(" 999999.123456")),
    ("-999999.000000", Ok("-999999.000000")),
    ("1000000.000000", Err(7)),
];

/// A P or V with a text in one of its four numbers, and the answer to it.
fn number_case(
    base: &Case,
    column: usize,
    given: &str,
    wanted: Result<&str, u8>,
) -> (Case, String) {
    let answer = match wanted {
        Ok(shown) => format!("0 0 {}", edited(base, column, shown).line),
        Err(number) => format!("{number} {column}"),
    };
    (edited(base, column, given), answer)
}

/// Clocks in every good P and V, coordinates in the first of each.
fn number_cases() -> Vec<(Case, String)> {
    let mut cases = Vec::new();
    for base in good_cases().iter().filter(|case| b"mn".contains(&case.letter)) {
        cases.extend(CLOCKS.iter().map(|&(given, wanted)| number_case(base, 47, given, wanted)));
    }
    for base in [good(b'm'), good(b'n')] {
        for column in [5, 19, 33] {
            let put = |&(given, wanted)| number_case(&base, column, given, wanted);
            cases.extend(COORDINATES.iter().map(put));
        }
    }
    cases
}

/// Any clock near six nines: the fraction blank, six digits or neither, and
/// perhaps another character in some column.
pub(crate) fn clock_near_nines(random: &mut Random) -> String {
    let whole = *random.pick(&[
        " 999999", " 999999", " 999999", "0999999", "-999999", " 999998", "0999998", "1000000",
        "  99999", "9999999",
    ]);
    let digits = (random.next() % 1_000_000) as i64;
    let fraction = match random.below(5) {
        0 | 1 => " ".repeat(6),
        2 => format!("{digits:06}"),
        3 => random.pick(&["000000", "999999", "999998", "000001"]).to_string(),
        _ => random.pick(&["00000 ", "     0", "9     ", " 99999", "00 000"]).to_string(),
    };
    let mut text = format!("{whole}.{fraction}").into_bytes();
    if random.below(4) == 0 {
        let place = random.below(text.len());
        text[place] = *random.pick(b"0189 -.x");
    }
    String::from_utf8_lossy(&text).into_owned()
}

// ---------------------------------------------------------------------------
// Other spellings of fields, to be put into the good lines
// ---------------------------------------------------------------------------

/// The first three deviations of a note, and its correlations.
const DEVIATIONS: &[&str] = &[
    "   0", "0000", "   9", "0055", "1000", "9998", "9999", "09  ", "    ", "5   ", "  -1", "  -0",
    "  +5", " 5 5", " 1.0",
];
const CORRELATIONS: &[&str] = &[
    "       0", "      -0", "-0000000", "00000000", "      -1", " 9999999", "09999999", "-9999999",
    "-0000030", "10000000", "99999999", "        ", "     - 1", "      +1", "1234567 ", "       -",
    "     --1", "-",
];

/// Kind letters, columns, and texts put there; a text is set at the left.
pub(crate) const SPELLINGS: &[(&str, &[usize], &[&str])] = &[
    // Mode.
    ("a", &[3], &["P", "V", "v", "p", "M", " "]),
    // Dates. Months and leap days are added by `dates`.
    (
        "al",
        &[4],
        &[
            "1979 12 31", "1980  1  5", "1980  1  6", "1980  1  7", "1980 01 06", "1980 02  1",
            "1981  1  1", "1981  1  5", "2099 12 31", "2099 12 32", "2100  1  1", "9999 12 31",
            "   0  1  1", "0000 00 00", "2013  0  3", "2013 00  3", "2013 12  3", "2013 13  3",
            "2013 99  3", "2013  4  0", "2013  4 00", "2013  4 99", "2013 04 03", " 213  4  3",
            "0213  4  3", "  13  4  3", "          ", "2013  4  x", "2013  x  3", "x013  4  3",
            "2013 4   3", "2013  4 3 ", "2013 -4  3", "-013  4  3", "201   4  3", "20 3  4  3",
        ],
    ),
    ("al", &[15], &[" 0", "00", "09", "23", "24", "25", "60", "99", "  ", "2 ", "-1"]),
    ("al", &[18], &[" 0", "00", "07", "59", "60", "61", "99", "  ", "5 ", "+1"]),
    (
        "al",
        &[21],
        &[
            " 0.00000000", "00.00000000", " 0.00000001", "59.99999999", "60.00000000",
            "60.00000001", "99.99999999", "09.50000000", "  .50000000", "-1.00000000",
            "-0.00000000", "1.000000000", "  1.0000000", " 10.0000000", " 0,00000000",
            "          0", "           ", " 0.0000000 ", " 0. 0000000",
        ],
    ),
    (
        "a",
        &[33],
        &[
            "      0", "      1", " 100000", " 100001", "9999999", "0000001", "0100000", "0100001",
            "0000000", "  99999", "  099  ", "       ", "1      ", "   1 00", "    1.0", "     +1",
            "     -0",
        ],
    ),
    // Texts.
    ("a", &[41, 47], &["     ", "    u", "u    ", " u+U ", "/*EOF", "-0.50"]),
    ("a", &[53], &["   ", "F  ", "  F", " F ", "000"]),
    ("a", &[57], &["    ", " NGS", "N   ", "   N", " N  ", "EOF "]),
    ("a", &[41], &["                    ", "     x     x   x    ", "ABCDE FGHIJ KLM NOPQ"]),
    // Line two.
    ("b", &[4], &["   0", "0000", "9999", "0001", "  12", "12  ", "-001", "    ", "1 34"]),
    (
        "b",
        &[9],
        &[
            "     0.00000000", "000000.00000000", "604799.99999999", "604800.00000000",
            "604800.00000001", "999999.99999999", "000001.50000000", "    -1.00000000",
            "      .00000000", "259200.0000000 ", " 259200.0000000", "           0.00",
        ],
    ),
    (
        "b",
        &[25],
        &[
            "    0.00000000", "00000.00000000", "    0.00000001", "00000.00000001",
            "99999.99999999", "00900.00000000", "   -0.00000001", "     .90000000",
            "  900         ", "100000.0000000",
        ],
    ),
    ("b", &[40], &["    0", "00000", "99999", "00001", "44244", "4424 ", "-4424", "     "]),
    (
        "b",
        &[46],
        &[
            "0.9999999999999", "1.0000000000000", "0.0000000000001", "9.9999999999999",
            " .5000000000000", "-.5000000000000", "0.000000000000 ", " 0.000000000000",
        ],
    ),
    // Identifiers, in satellite lines and in rows.
    (
        "cd",
        &[10, 58],
        &[
            "A01", "Z99", "G00", "g07", "G 7", "G7 ", "007", "G99", "G10", "@01", "[01", "  0",
            "   ", "G0x", "G-1", "GG1", "0G1",
        ],
    ),
    (
        "mn",
        &[2],
        &[
            "A01", "Z99", "G00", "g07", "G 7", "G7 ", "007", "G99", "G10", "@01", "[01", "  0",
            "   ", "G0x", "G-1", "GG1", "0G1", "Z00",
        ],
    ),
    // Number of satellites; those of the slots are in `slot_cases`.
    (
        "c",
        &[4],
        &[
            "  0", "000", "  1", " 16", " 17", "017", " 18", "255", "256", "998", "999", "099",
            "17 ", "1 7", " -1", "-01", "   ", "1.0", " x1", "100", "101", "116", "117", "200",
            "x17",
        ],
    ),
    // Accuracies.
    (
        "e",
        &[10, 34, 58],
        &[
            "  0", "000", " 00", " 99", "099", "999", "007", " 7 ", "7  ", "   ", "-01", " -0",
            "1.0", "G01", "1 1",
        ],
    ),
    // File type and time system.
    (
        "f",
        &[4],
        &[
            "G ", "M ", "R ", "L ", "S ", "I ", "E ", "C ", "J ", "X ", "A ", "g ", "m ", " G",
            "GM", "GG", "Gc", "cc", "  ", "P ",
        ],
    ),
    (
        "f",
        &[10],
        &[
            "GPS", "GLO", "GAL", "BDT", "TAI", "UTC", "IRN", "QZS", "gps", "GpS", " GP", "PS ",
            "GP ", "GAI", "TAL", "BDS", "IRS", "QZT", "ccc", "   ", "UTX", "GLC",
        ],
    ),
    // Text placeholders.
    ("g", &[4], &["G ", "CC", "c ", " c", "  "]),
    ("g", &[10], &["GPS", "ccC", "cc ", "   "]),
    ("fg", &[7], &["CC", "c ", " c", "  ", "00"]),
    ("fg", &[14], &["CCC", "cc ", " cc", "   "]),
    ("fg", &[18, 33], &["cccC", "ccc ", "    "]),
    ("fg", &[38, 56], &["Ccccc", " cccc", "     "]),
    // Bases.
    (
        "h",
        &[4],
        &[
            " 0.0000000", "00.0000000", "99.9999999", "01.2500000", " 0.0000001", "-1.2500000",
            "-0.0000000", "  .2500000", "1.25000000", " 1.25     ", "          ", " 1.250000 ",
        ],
    ),
    (
        "h",
        &[15],
        &[
            " 0.000000000", "00.000000000", "99.999999999", "01.025000000", " 0.000000001",
            "-1.025000000", "  .025000000", "1.0250000000", "            ", " 1.02500000 ",
        ],
    ),
    // Zero placeholders.
    (
        "i",
        &[4],
        &["00.0000000", "-0.0000000", "  .0000000", " 0.0000001", "10.0000000", "          "],
    ),
    (
        "i",
        &[15],
        &[
            "00.000000000", "-0.000000000", "  .000000000", " 0.000000001", "10.000000000",
            "            ", "           0",
        ],
    ),
    (
        "hi",
        &[28],
        &[
            "00.00000000000", "-0.00000000000", "  .00000000000", " 0.00000000001",
            "10.00000000000", "              ", "             0", "0.000000000000",
        ],
    ),
    (
        "hi",
        &[43],
        &[
            "00.000000000000000", "-0.000000000000000", "  .000000000000000",
            " 0.000000000000001", "90.000000000000000", "                  ",
            "                 0", "99.999999999999999",
        ],
    ),
    (
        "j",
        &[4, 9, 14, 19],
        &["0000", "  00", " 000", "    ", "   1", "1000", "  -0", "0   ", " 0 0", "  0."],
    ),
    (
        "j",
        &[24, 31, 38, 45],
        &["000000", "    00", "      ", "     1", "100000", "    -0", "0     ", "    +0"],
    ),
    (
        "j",
        &[52],
        &[
            "000000000", "       00", "         ", "        1", "100000000", "       -0",
            "0        ",
        ],
    ),
    // Comments.
    ("k", &[3], &[" ", "x", ".", "*", "/"]),
    ("k", &[4], &[" ", "  leading", "/* inside", "EOF"]),
    ("k", &[60], &["                     ", " trailing            "]),
    ("k", &[79], &["  ", " x", "x "]),
    // Coordinates, velocities, clocks and rates.
    (
        "mn",
        &[5, 19, 33, 47],
        &[
            " 999999.999999", "0999999.999999", "1000000.000000", "9999999.999999",
            "-999999.999999", "      0.000000", "     -0.000000", "-000000.000000",
            "0000000.000000", "     -0.500000", "    -00.500000", "-000000.000001",
            "      -.500000", "       .500000", "           1.5", "1.5           ",
            "    - 1.000000", "     +1.000000", "    --1.000000", "  00000.500000",
            "      0.000001", "-1      .00000", "      1,000000", "     1.0000000",
            "              ", "1.000000      ", "      1.00000 ", "      1. 00000",
            " 999999.      ", "-", " 999999.000000", "0999999.123456", "-999999.000000",
            "-999999.      ", "1000000.      ",
        ],
    ),
    // Exponents of rows: blank is unknown.
    (
        "mn",
        &[62, 65, 68],
        &[" 0", "00", " 9", "09", "99", "  ", "9 ", "-1", "x1", " x", ".5", "+1"],
    ),
    (
        "mn",
        &[71],
        &[
            "  0", "000", " 99", "099", "999", "007", "   ", " 9 ", "9  ", "99 ", "-99", " -0",
            "9 9", "1.0",
        ],
    ),
    ("mn", &[61], &["             ", " 99 99 99 999", "  0  0  0   0", "    99  0    "]),
    // Flags.
    ("mn", &[75], &["E", " ", "P", "e", "M", "x"]),
    ("mn", &[76, 80], &["P", " ", "E", "p", "M", "x"]),
    ("mn", &[79], &["M", " ", "P", "m", "E", "x"]),
    ("mn", &[74], &["       ", " E     ", "  P    ", "     M ", "      P", " PE  PM", "EP  MP "]),
    // End.
    ("q", &[4], &[" ", "  ", "X", "F", "0", "."]),
    // Symbols.
    ("abcdefghijklmnop", &[1], &["EOF", "EP ", "* ", "P", "  "]),
    ("ab", &[1], &["#c", "#D", "# ", "##", "#d", "#a"]),
    ("cde", &[1], &["+ ", "++", "+a", "+x", " +"]),
    ("fghij", &[1], &["%c", "%C", "%f", "%F", "%i", "%I", "% "]),
    ("kl", &[1], &["/*", "* ", "*a", "**", "/ ", " *", "//"]),
    ("mn", &[1], &["P", "V", "p", "v", "E", "EP"]),
    ("op", &[1], &["EP", "EV", "Ep", "eP", "EE", "E "]),
    ("op", &[3], &["x", "X", "7", ".........................."]),
    // Deviations: blank is unknown.
    ("o", &[5, 15], DEVIATIONS),
    ("op", &[10], DEVIATIONS),
    (
        "op",
        &[20],
        &[
            "      0", "0000000", "   1000", "0009999", "9999998", "9999999", "       ", "222    ",
            "     -1", "     -0", "-999999", " 22 222", "    1.0",
        ],
    ),
    // Correlations: a minus before the first digit.
    ("o", &[37, 46, 55, 64], CORRELATIONS),
    ("op", &[28, 73], CORRELATIONS),
    // All deviations, all correlations, all of them.
    ("op", &[5], &["                      ", "9999 9999 9999 9999999", "1000 0000    0      -1"]),
    ("op", &[28], &["                                                     "]),
    (
        "op",
        &[3],
        &["                                                                              "],
    ),
    ("q", &[1], &["EOF", "EOX", "EOf", "eof", "EO ", "E F", " EO"]),
];

/// Kind letter, and texts of which each is well formed and out of bounds.
const OUTSIDE: &[(u8, &[(usize, &str)])] = &[
    (
        b'a',
        &[(4, "2100"), (15, "24"), (18, "60"), (21, "60.00000000"), (33, " 100001")],
    ),
    (
        b'b',
        &[(9, "604800.00000000"), (25, "    0.00000000"), (46, "1.0000000000000")],
    ),
    (b'c', &[(4, "000"), (10, "A00"), (31, "B00"), (58, "C00")]),
    (b'd', &[(10, "A00"), (13, "B00"), (34, "C00"), (58, "Z00")]),
    (b'l', &[(12, "31"), (15, "99"), (18, "99"), (21, "99.99999999")]),
    (
        b'm',
        &[
            (2, "G00"),
            (5, "1000000.000000"),
            (19, "9999999.999999"),
            (33, "1000000.000000"),
            (47, "1000000.000001"),
        ],
    ),
    (
        b'n',
        &[
            (2, "X00"),
            (5, "9999999.999999"),
            (19, "1000000.000000"),
            (33, "5000000.000000"),
            (47, "1000000.000000"),
        ],
    ),
    (
        b'o',
        &[
            (28, "10000000"),
            (37, "99999999"),
            (46, "10000001"),
            (55, "19999999"),
            (64, "10000000"),
            (73, "90000000"),
        ],
    ),
    (b'p', &[(28, "99999999"), (46, "10000000"), (73, "10000000")]),
];

/// Accepted spellings and how the canonical form shows them: kind letter,
/// column in the first good line, text put there, text shown there.
const SHOWN: &[(u8, usize, &str, &str)] = &[
    (b'a', 4, "2013 04 03 00 00 00.00000000", "2013  4  3  0  0  0.00000000"),
    (b'a', 15, "09 07 05.25000000 0000096", " 9  7  5.25000000      96"),
    (b'a', 41, "  u+U  x      a  ", "  u+U  x      a  "),
    (b'b', 4, "0007", "   7"),
    (b'b', 9, "000001.50000000", "     1.50000000"),
    (b'b', 25, "00900.00000000 00007", "  900.00000000     7"),
    (b'b', 46, "0.0123456789012", "0.0123456789012"),
    (b'c', 4, "017", " 17"),
    (b'e', 10, "007000999010", "  7  0999 10"),
    (b'f', 4, "M  cc UTC", "M  cc UTC"),
    (b'h', 4, "01.2500000 00.000000001", " 1.2500000  0.000000001"),
    (b'h', 28, "00.00000000000 00.000000000000000", " 0.00000000000  0.000000000000000"),
    (b'i', 4, "00.0000000 00.000000000", " 0.0000000  0.000000000"),
    (b'j', 4, "0000   00", "   0    0"),
    (b'j', 52, "000000000", "        0"),
    (b'k', 4, "   three blanks", "   three blanks"),
    (b'l', 9, "04 03 07 05 09.50000000", " 4  3  7  5  9.50000000"),
    (b'm', 5, "    -00.500000", "     -0.500000"),
    (b'm', 19, "     -0.000000", "      0.000000"),
    (b'm', 33, "-000000.000000", "      0.000000"),
    (b'm', 47, "-999999.999999", "-999999.999999"),
    (b'm', 47, "0999999.999999", " 999999.999999"),
    (b'm', 61, " 00 09    007", "  0  9      7"),
    (b'm', 61, "             ", "             "),
    (b'm', 75, "      ", "      "),
    (b'm', 75, "E   M ", "E   M "),
    (b'n', 5, "  00000.500000", "      0.500000"),
    (b'n', 61, "    05       ", "     5       "),
    (b'o', 5, "0055 0000 9999 0000222", "  55    0 9999     222"),
    (b'o', 5, "1000              9999", "1000              9999"),
    (b'o', 5, "                      ", "                      "),
    (b'o', 20, "9999999", "9999999"),
    (b'o', 28, "09999999 -9999999       -0", " 9999999 -9999999        0"),
    (b'o', 55, "-0000030 00000000 -0000000", "     -30        0        0"),
    (b'o', 73, "        ", "        "),
    (b'p', 5, "0000      0007", "   0         7"),
    (b'p', 20, "0000001", "      1"),
    (b'p', 28, "-0000001", "      -1"),
    (b'p', 64, "                 ", "                 "),
];

// ---------------------------------------------------------------------------
// The cases
// ---------------------------------------------------------------------------

/// Cases in the order in which they were made, none of them twice.
#[derive(Default)]
struct Cases {
    list: Vec<Case>,
    known: HashSet<Case>,
}

impl Cases {
    fn add(&mut self, case: Case) {
        let too_long = case.letter != WRITTEN && case.line.len() > WIDTH;
        assert!(!too_long, "a case is too long: {}", case.show());
        if self.known.insert(case.clone()) {
            self.list.push(case);
        }
    }
}

/// Good lines, and the first one of each kind under every kind letter.
fn add_good_lines(cases: &mut Cases) {
    for case in good_cases() {
        cases.add(case);
    }
    for letter in b'a'..=b'q' {
        for other in b'a'..=b'q' {
            cases.add(Case { letter, ..good(other) });
        }
    }
}

/// Each column of the first good line of each kind by turns wrong or blank.
fn add_single_columns(cases: &mut Cases) {
    for letter in b'a'..=b'q' {
        let base = good(letter);
        for (place, role) in roles(&base).into_iter().enumerate() {
            let wrong: &[&str] = match role {
                Role::Field => &["x", " ", "7", "-", "."],
                Role::Letters => &["x", " ", "C"],
                _ => &["x", " "],
            };
            for text in wrong {
                if place < base.line.len() || *text != " " {
                    cases.add(edited(&base, place + 1, text));
                }
            }
        }
    }
}

fn add_spellings(cases: &mut Cases) {
    for (letters, columns, texts) in SPELLINGS {
        for letter in letters.bytes() {
            for &column in *columns {
                for text in *texts {
                    cases.add(edited(&good(letter), column, text));
                }
            }
        }
    }
    for &(letter, column, given, _) in SHOWN {
        cases.add(edited(&good(letter), column, given));
    }
}

/// Clocks and coordinates by hand; each column of a bare clock, and of one with
/// its fraction, by turns another; both cut short from its last column to its
/// first.
fn add_clocks(cases: &mut Cases) {
    for (case, _) in number_cases() {
        cases.add(case);
    }
    let short = "G07   5000.000001     -0.500000      0.000000";
    for (letter, symbol, clock) in [(b'm', "P", BARE_CLOCK), (b'n', "V", " 999999.000000")] {
        let base = Case { letter, argument: 0, line: format!("{symbol}{short}{clock}") };
        for place in 0..clock.len() {
            for text in ["x", " ", "0", "9", "-", "."] {
                cases.add(edited(&base, 47 + place, text));
            }
        }
    }
    for (letter, symbol) in [(b'm', "P"), (b'n', "V")] {
        for clock in [BARE_CLOCK, " 999999.000000", "-999999.000000"] {
            let base = Case { letter, argument: 0, line: format!("{symbol}{short}{clock}") };
            for length in 46..60 {
                cases.add(cut(&base, length));
            }
        }
    }
    add_clock_faults(cases);
}

/// A bare clock, and one that is too large, beside every other fault of its line.
fn add_clock_faults(cases: &mut Cases) {
    for (letter, clock) in [(b'm', BARE_CLOCK), (b'n', BARE_CLOCK), (b'n', "1000000.000000")] {
        for spoiler in spoilers_of(letter).into_iter().filter(|spoiler| beside_clock(spoiler)) {
            let base = edited(&good(letter), 47, clock);
            cases.add(edited(&base, spoiler.1, spoiler.2));
        }
    }
}

/// Whether a fault leaves the clock as it is.
fn beside_clock(spoiler: &Spoiler) -> bool {
    spoiler.1 + spoiler.2.len() <= 47 || spoiler.1 > 60
}

/// Several spellings of a kind in one line, whether right or wrong.
fn add_mixed_spellings(cases: &mut Cases, random: &mut Random) {
    for letter in b'a'..=b'p' {
        let of_letter = SPELLINGS.iter().filter(|entry| entry.0.as_bytes().contains(&letter));
        let entries: Vec<_> = of_letter.filter(|entry| entry.1[0] > 1).collect();
        for _ in 0..if b"mnop".contains(&letter) { 60 } else { 15 } {
            let mut case = good(letter);
            for _ in 0..2 + random.below(3) {
                let &&(_, columns, texts) = random.pick(&entries);
                let (column, text) = (*random.pick(columns), *random.pick(texts));
                case = edited(&case, column, text);
            }
            cases.add(case);
        }
    }
}

/// The ends of all months, and of February in leap years and others.
fn add_dates(cases: &mut Cases) {
    let mut days = Vec::new();
    for month in 1..=12 {
        days.extend([1, 28, 29, 30, 31, 32].map(|day| (2013, month, day)));
    }
    for year in [1980, 1996, 2000, 2001, 2002, 2004, 2020, 2096, 2099] {
        days.extend([28, 29, 30].map(|day| (year, 2, day)));
    }
    for (year, month, day) in days {
        let text = format!("{year:4} {month:2} {day:2}");
        cases.add(edited(&good(b'l'), 4, &text));
        if month == 2 {
            cases.add(edited(&good(b'a'), 4, &text));
        }
    }
}

/// A line of kind c, d or e for `count` satellites, `  0` after them.
fn slot_line(letter: u8, count: usize) -> Case {
    let mut line = match letter {
        b'c' => format!("+  {count:3}   "),
        b'd' => format!("{:9}", "+"),
        _ => format!("{:9}", "++"),
    };
    for slot in 0..SLOTS {
        line += &match letter {
            _ if slot >= count => "  0".to_string(),
            b'e' => format!("{:3}", 3 * slot + 1),
            _ => format!("E{:02}", slot + 1),
        };
    }
    let argument = if letter == b'c' { 0 } else { count };
    Case { letter, argument, line }
}

/// Wrong and odd slots among the satellites and after them.
fn add_slots(cases: &mut Cases) {
    for letter in [b'c', b'd', b'e'] {
        for count in [0, 1, 2, 16, 17, 18, 34, 255, 999] {
            let base = slot_line(letter, count);
            cases.add(base.clone());
            let within = count.min(SLOTS);
            if within > 0 {
                for text in ["  0", "   ", " 00", "0  ", "G00"] {
                    cases.add(edited(&base, slot_columns(0).0, text));
                    cases.add(edited(&base, slot_columns(within - 1).0, text));
                }
            }
            if within < SLOTS {
                for text in ["000", " 00", "0  ", "   ", "G01", "  7", " 0 ", "G00", "x"] {
                    cases.add(edited(&base, slot_columns(within).0, text));
                    cases.add(edited(&base, slot_columns(SLOTS - 1).0, text));
                }
            }
        }
    }
    add_slot_faults(cases);
}

/// Slots after n that are wrong (8), together with faults of lower numbers.
fn add_slot_faults(cases: &mut Cases) {
    for letter in [b'c', b'd', b'e'] {
        let wrong = edited(&slot_line(letter, 4), slot_columns(9).0, "R09");
        for (column, text) in [(10, "G00"), (13, "x"), (7, "x"), (61, "0"), (1, "x"), (19, "   ")] {
            cases.add(edited(&wrong, column, text));
        }
    }
    let numbers = [
        "  0", "000", "  1", "  5", " 10", " 17", " 18", "255", "256", "999", "  x", "   ",
    ];
    let edits = [(10, "e01"), (13, "E00"), (25, "E06"), (9, "x"), (58, "E17"), (80, "x")];
    for number in numbers {
        let line = edited(&slot_line(b'c', 5), 4, number);
        cases.add(line.clone());
        for (column, text) in edits {
            cases.add(edited(&line, column, text));
        }
    }
}

/// Single faults, all pairs of them in one line, and several at random.
fn add_spoiled(cases: &mut Cases, random: &mut Random) {
    for letter in b'a'..=b'q' {
        let base = good(letter);
        let spoilers = spoilers_of(letter);
        for one in &spoilers {
            cases.add(edited(&base, one.1, one.2));
        }
        for (place, one) in spoilers.iter().enumerate() {
            for other in spoilers[place + 1..].iter().filter(|other| !overlap(one, other)) {
                cases.add(edited(&edited(&base, one.1, one.2), other.1, other.2));
            }
        }
        if spoilers.len() > 4 {
            for _ in 0..15 {
                cases.add(spoiled_at_random(&base, &spoilers, random));
            }
        }
    }
}

/// Three to five faults, none of number 4 among them.
fn spoiled_at_random(base: &Case, spoilers: &[&Spoiler], random: &mut Random) -> Case {
    let mut case = base.clone();
    for _ in 0..3 + random.below(3) {
        let spoiler = spoilers[1 + random.below(spoilers.len() - 1)];
        case = edited(&case, spoiler.1, spoiler.2);
    }
    case
}

/// Every choice of the texts that are out of bounds, in one line.
fn add_outside(cases: &mut Cases) {
    for (letter, texts) in OUTSIDE {
        for choice in 0..1 << texts.len() {
            let mut case = good(*letter);
            for (place, &(column, text)) in texts.iter().enumerate() {
                if choice >> place & 1 == 1 {
                    case = edited(&case, column, text);
                }
            }
            cases.add(case);
        }
    }
}

/// Good lines cut short, and lengthened by blanks.
fn add_lengths(cases: &mut Cases) {
    let lengths = [
        0, 1, 2, 3, 4, 6, 7, 10, 13, 19, 31, 39, 46, 57, 59, 60, 62, 63, 66, 72, 73, 75, 79,
    ];
    let of_notes = [5, 8, 9, 18, 26, 27, 35, 36, 44, 53, 55, 71];
    for base in good_cases() {
        let more: &[usize] = if b"op".contains(&base.letter) { &of_notes } else { &[] };
        for &length in lengths.iter().chain(more).filter(|&&length| length < base.line.len()) {
            cases.add(cut(&base, length));
        }
        cases.add(edited(&base, base.line.len().min(79) + 1, " "));
        cases.add(edited(&cut(&base, 79), 80, " "));
    }
}

/// Kinds of lines.
fn add_kinds(cases: &mut Cases) {
    let near = [
        "", " ", "#", "#c", "#D", "#d", "#dP", "##", "# #", " #d", "+", "+ ", "++", "+a", "+0",
        "+-", "%", "%c", "%C", "%f", "%F", "%i", "%I", "%d", "/", "/*", "/ *", "//", "*/", "*",
        "* ", "*a", "**", "*2", "P", "PX", "P ", "p", "PG01", "V", "VX", "v", "VG01", "E", "EP",
        "EPX", "Ep", "eP", "EV", "EVX", "Ev", "EX", "E P", "EO", "EO ", "EOX", "EOF", "EOFX",
        "EOF ", "eof", "EOf", "EoF", " EOF", " P", "F", "G01", "~", "EE", "OF", "\"", "0",
    ];
    let lines = GOOD.iter().map(|good| good.2).chain(near);
    for line in lines {
        cases.add(Case { letter: b'z', argument: 0, line: line.to_string() });
    }
}

/// A small generator of numbers (splitmix64).
pub(crate) struct Random(pub(crate) u64);

impl Random {
    pub(crate) fn next(&mut self) -> u64 {
        self.0 = self.0.wrapping_add(0x9e37_79b9_7f4a_7c15);
        let mut z = self.0;
        z = (z ^ (z >> 30)).wrapping_mul(0xbf58_476d_1ce4_e5b9);
        z = (z ^ (z >> 27)).wrapping_mul(0x94d0_49bb_1331_11eb);
        z ^ (z >> 31)
    }

    pub(crate) fn below(&mut self, bound: usize) -> usize {
        (self.next() % bound as u64) as usize
    }

    pub(crate) fn pick<'a, T>(&mut self, list: &'a [T]) -> &'a T {
        &list[self.below(list.len())]
    }
}

const ALPHABET: [&str; 19] = [
    " ", " ", "0", "1", "2", "3", "4", "5", "6", "7", "8", "9", "-", ".", "c", "G", "P", "E", "M",
];

/// Good lines with one to four columns replaced, anywhere or near each other.
fn add_random(cases: &mut Cases, random: &mut Random, number: usize) {
    let mut bases = good_cases();
    bases.retain(|case| !b"kq".contains(&case.letter));
    let goal = cases.list.len() + number;
    while cases.list.len() < goal {
        let mut case = random.pick(&bases).clone();
        let spread = *random.pick(&[10, 80, 80]);
        let start = random.below(WIDTH + 1 - spread);
        for _ in 0..1 + random.below(4) {
            let column = 1 + start + random.below(spread);
            let text = if random.below(20) == 0 { "x" } else { *random.pick(&ALPHABET) };
            if column <= case.line.len() || random.below(4) == 0 {
                case = edited(&case, column, text);
            }
        }
        cases.add(case);
    }
}

/// Clocks near six nines in good rows, some of them cut, some with another
/// spelling beside them.
fn add_random_clocks(cases: &mut Cases, random: &mut Random, number: usize) {
    let mut rows = good_cases();
    rows.retain(|case| b"mn".contains(&case.letter));
    let goal = cases.list.len() + number;
    while cases.list.len() < goal {
        let clock = clock_near_nines(random);
        let mut case = edited(random.pick(&rows), 47, &clock);
        match random.below(4) {
            0 => case = cut(&case, 52 + random.below(9)),
            1 => {
                let spoilers = spoilers_of(case.letter);
                let spoiler = *random.pick(&spoilers);
                case = edited(&case, spoiler.1, spoiler.2);
            }
            _ => {}
        }
        cases.add(case);
    }
}

/// What SP3-c has otherwise: its first line, with the letter of either version; the first
/// `+ ` line, of which 85 and 86 satellites; and which kind a line is.
fn add_older_version(cases: &mut Cases) {
    let known = cases.list.clone();
    let of = |letter: u8| known.iter().filter(move |case| case.letter == letter);
    for (place, case) in of(b'a').enumerate() {
        let older = Case { letter: b'A', ..case.clone() };
        let with_letter = case.line.starts_with("#d") && place % 8 != 0;
        cases.add(if with_letter { edited(&older, 2, "c") } else { older });
    }
    for (place, case) in of(b'c').step_by(2).chain(of(b'z')).enumerate() {
        let older = Case { letter: case.letter.to_ascii_uppercase(), ..case.clone() };
        let fewer = case.line.starts_with("+  140") && place % 8 != 0;
        cases.add(if fewer { edited(&older, 4, " 85") } else { older });
    }
    for letter in [b'c', b'C'] {
        for number in ["085", " 84", " 85", " 86", "086", " 87", "100", "255", "999"] {
            let line = edited(&Case { letter, ..slot_line(b'c', 17) }, 4, number);
            cases.add(line.clone());
            for (column, text) in [(10, "e01"), (13, "E00"), (58, "  0"), (9, "x"), (61, "0")] {
                cases.add(edited(&line, column, text));
            }
        }
    }
}

// ---------------------------------------------------------------------------
// Records to be written
// ---------------------------------------------------------------------------

/// A record by its kind letter: the bytes that stand before its numbers, and those.
#[derive(Clone)]
struct Draft {
    letter: u8,
    front: String,
    words: Vec<String>,
}

impl Draft {
    fn new(letter: u8, front: &str, words: &str) -> Draft {
        let words = words.split_terminator(' ').map(str::to_string).collect();
        Draft { letter, front: front.to_string(), words }
    }

    fn with(&self, place: usize, word: &str) -> Draft {
        let mut draft = self.clone();
        draft.words[place] = word.to_string();
        draft
    }

    fn values(&self) -> String {
        self.front.clone() + &self.words.join(" ")
    }

    /// The bytes that its line needs, its LF too.
    fn length(&self) -> usize {
        line_of_record(self.letter, &self.values()).len() + 1
    }

    fn case(&self, room: usize, mark: char) -> Case {
        let line = format!("{}{mark}{}", self.letter as char, self.values());
        Case { letter: WRITTEN, argument: room, line }
    }
}

impl Cases {
    /// A record to be written into rooms of these bytes more than it needs, all `#`.
    fn add_draft(&mut self, draft: &Draft, more: &[isize]) {
        for &more in more {
            let room = draft.length().saturating_add_signed(more);
            self.add(draft.case(room, '#'));
        }
    }

    /// And into one in which a line of 80 characters would have room.
    fn add_in_81(&mut self, draft: &Draft) {
        self.add(draft.case(WIDTH + 1, '#'));
    }
}

/// A record of each kind that fills its columns, in both versions where they differ.
const FILLED: &[(u8, &str, &str)] = &[
    (b'a', "PORBITWGS84BCTPORT ", "2013 10 13 10 45 1234567890 100000"),
    (b'A', "Vu+U  IGS  HLM IGS ", "1996 12 31 23 59 5999999999 1234567"),
    (b'b', "", "1734 25920012345678 90012345678 56385 9876543210123"),
    (b'c', "", "140 G01 G02 G03 G04 G05 G06 G07 G08 G09 G10 G11 G12 G13 G14 G15 G16 G17"),
    (b'C', "", "85 R01 R02 R03 R04 R05 R06 R07 R08 R09 R10 R11 R12 R13 R14 R15 R16 R17"),
    (b'd', "", "34 E18 E19 E20 E21 E22 E23 E24 E25 E26 E27 E28 E29 E30 E31 E32 S01 S02"),
    (b'e', "", "17 7 8 107 18 6 7 37 7 7 7 999 7 7 0 8 27 9"),
    (b'f', "GGPS", ""),
    (b'g', "", ""),
    (b'h', "", "12500000 1025000000"),
    (b'i', "", ""),
    (b'j', "", ""),
    (b'k', "might look like with more than 85 satellites, the columns all filled to 80. A", ""),
    (b'l', "", "2013 10 13 23 45 1234567890"),
    (b'm', "", "G01 -11044805800 -10475672350 21929418200 189163300 18 17 16 219 1 1 1 1"),
    (b'n', "", "G01 20298880364 -18462044804 1381387685 -4534317 14 13 12 191 1 1 1 1"),
    (b'o', "", "55 56 57 222 1234567 -1234567 5999999 -30 21 -1230000"),
    (b'p', "", "22 23 24 111 1234567 1234568 1234569 1234570 1234571 -9999999"),
    (b'q', "", ""),
];

fn filled(letter: u8) -> Draft {
    let found = FILLED.iter().find(|entry| entry.0 == letter);
    let &(_, front, words) =
        found.unwrap_or_else(|| fail(&format!("no record for {:?}", letter as char)));
    Draft::new(letter, front, words)
}

/// Columns of a number and its places after the point, as 000 has them: I4 is (4, 0),
/// F14.6 is (14, 6).
type Form = (usize, usize);

const MOMENT: [Form; 6] = [(4, 0), (2, 0), (2, 0), (2, 0), (2, 0), (11, 8)];

/// The numbers of a kind: the words that they are, in the order of their columns.
fn forms(letter: u8) -> Vec<(usize, Form)> {
    let (before, list) = match letter.to_ascii_lowercase() {
        b'a' => (0, [&MOMENT[..], &[(7, 0)]].concat()),
        b'b' => (0, vec![(4, 0), (15, 8), (14, 8), (5, 0), (15, 13)]),
        b'c' => (0, vec![(3, 0)]),
        b'e' => (1, vec![(3, 0); SLOTS]),
        b'h' => (0, vec![(10, 7), (12, 9)]),
        b'l' => (0, MOMENT.to_vec()),
        b'm' | b'n' => (1, [[(14, 6); 4], [(2, 0), (2, 0), (2, 0), (3, 0)]].concat()),
        b'o' | b'p' => (0, [&[(4, 0), (4, 0), (4, 0), (7, 0)][..], &[(8, 0); 6]].concat()),
        _ => (0, Vec::new()),
    };
    list.into_iter().enumerate().map(|(place, form)| (before + place, form)).collect()
}

/// How many digits a number may have that has no minus.
fn digits_of((columns, places): Form) -> usize {
    columns - usize::from(places > 0)
}

/// The least number that doesn't fit.
fn too_large(form: Form) -> String {
    format!("1{}", "0".repeat(digits_of(form)))
}

/// The largest number of so many digits.
fn nines(digits: usize) -> String {
    "9".repeat(digits)
}

/// "Only x, y, z and clock fields allow the minus", and correlations.
fn has_sign(letter: u8, form: Form) -> bool {
    matches!((letter, form), (b'm' | b'n', (14, 6)) | (b'o' | b'p', (8, 0)))
}

/// The largest that fits and the least that doesn't, zero, the largest of all; with a
/// minus, for which a column less is left, the same; minus zero.
fn words_around(letter: u8, form: Form) -> Vec<String> {
    let digits = digits_of(form);
    let mut words = vec![nines(digits), too_large(form), "0".to_string(), u64::MAX.to_string()];
    if has_sign(letter, form) {
        let less = [nines(digits - 1), too_large((form.0 - 1, form.1)), nines(digits)];
        let others = [too_large(form), "0".to_string(), "1".to_string(), u64::MAX.to_string()];
        words.extend(less.into_iter().chain(others).map(|word| format!("-{word}")));
    }
    words
}

/// Every kind in every kind of room, which is all `#` or all blank.
fn add_rooms(cases: &mut Cases) {
    for &(letter, ..) in FILLED {
        let draft = filled(letter);
        let length = draft.length();
        for room in [0, length - 1, length, length + 1, 81, 100] {
            cases.add(draft.case(room, '#'));
        }
        for room in [length - 1, length, length + 1] {
            cases.add(draft.case(room, ' '));
        }
    }
}

/// Each number by itself at its limits; of line 1, V and EV, which have the columns of the
/// epoch, P and EP, the first and the last; of `++`, whose slots are alike, four.
fn add_limits(cases: &mut Cases) {
    for letter in *b"abcehlmnop" {
        let mut forms = forms(letter);
        let last = forms.len() - 1;
        match letter {
            b'a' | b'n' | b'p' => forms = vec![forms[0], forms[last]],
            b'e' => forms = vec![forms[0], forms[1], forms[8], forms[last]],
            _ => {}
        }
        for (place, form) in forms {
            for word in words_around(letter, form) {
                cases.add_draft(&filled(letter).with(place, &word), &[1]);
            }
        }
    }
}

/// A record that has nothing after its numbers: no texts, no flags.
fn without_tail(letter: u8) -> Draft {
    let mut draft = filled(letter);
    if letter.eq_ignore_ascii_case(&b'a') {
        draft.front = format!("P{}", " ".repeat(18));
    }
    if letter == b'm' {
        draft.words.truncate(9);
        draft.words.extend(["0"; 4].map(str::to_string));
    }
    draft
}

/// The numbers of these places, counted from 0, too large for their columns.
fn spoilt(draft: &Draft, wrong: impl Fn(usize) -> bool) -> Draft {
    let mut draft = draft.clone();
    for (place, (word, form)) in forms(draft.letter).into_iter().enumerate() {
        if wrong(place) {
            draft = draft.with(word, &too_large(form));
        }
    }
    draft
}

/// The numbers from one on too large, so that the line ends before it, down to its
/// symbol; those up to one.
fn add_blank_ends(cases: &mut Cases) {
    for letter in *b"abehlmnop" {
        let draft = without_tail(letter);
        for place in 0..forms(letter).len() {
            let ends = spoilt(&draft, |other| other >= place);
            cases.add_in_81(&ends);
            if b"ablmo".contains(&letter) {
                cases.add_draft(&ends, &[-1, 0]);
                cases.add_draft(&spoilt(&draft, |other| other <= place), &[1]);
            }
        }
    }
}

/// Every choice of four numbers, exponents or flags of a row that are there; EP and EV
/// with one value alone, and without one.
fn add_choices(cases: &mut Cases) {
    let bare = spoilt(&without_tail(b'm'), |place| place > 3);
    let full = without_tail(b'm');
    for choice in 0..16 {
        let left_out = |place: usize| choice >> place & 1 == 0;
        cases.add_in_81(&spoilt(&bare, |place| place < 4 && left_out(place) || place > 3));
        cases.add_draft(&spoilt(&full, |place| place > 3 && left_out(place - 4)), &[1]);
        let mut flagged = bare.clone();
        for place in 0..4 {
            flagged = flagged.with(9 + place, if left_out(place) { "0" } else { "1" });
        }
        cases.add_draft(&flagged, &[1]);
        if choice % 5 == 0 {
            cases.add_draft(&Draft { letter: b'n', ..flagged }, &[0, 1]);
        }
    }
    for place in 0..10 {
        cases.add_in_81(&spoilt(&filled(b'o'), |other| other != place));
        cases.add_draft(&spoilt(&filled(b'p'), |other| other == place), &[1]);
    }
}

/// Numbers that have a meaning of their own, or once had: exponents that say too large or
/// unknown, clocks of six nines, deviations and correlations that say unknown.
fn add_meanings(cases: &mut Cases) {
    for word in ["1", "99", "100", "999", "1000", "1001"] {
        for place in 5..9 {
            cases.add_draft(&without_tail(b'm').with(place, word), &[1]);
        }
        cases.add_draft(&filled(b'n').with(8, word), &[0]);
    }
    for word in ["999999999999", "-999999999999", "999999000000", "-1", "-1000000", "123456"] {
        for place in [1, 4] {
            cases.add_draft(&filled(b'm').with(place, word), &[0]);
        }
    }
    for word in ["999", "1000", "99999999", "100000000", "100000001"] {
        for place in 0..4 {
            cases.add_draft(&filled(b'o').with(place, word), &[1]);
        }
    }
    for word in ["99999999", "100000000", "-100000000", "100000001", "-9", "10000000"] {
        for place in [4, 9] {
            cases.add_draft(&filled(b'o').with(place, word), &[1]);
        }
    }
}

/// Comments of any text, also of more than the 77 characters that have columns.
fn add_comments(cases: &mut Cases) {
    let long = "0123456789".repeat(10);
    let mut texts = vec![
        String::new(),
        " ".to_string(),
        " x".to_string(),
        "a  b   c".to_string(),
        "trailing blanks   ".to_string(),
        " ".repeat(77),
        " ".repeat(99),
        " ".repeat(76) + "x",
        " ".repeat(77) + "x",
        "x".to_string() + &" ".repeat(76) + "x",
        long[..76].to_string() + " x",
        long[..75].to_string() + "  x",
        "~!\"%&'()*+,-./:;<=>?@[]^_`{}".to_string(),
    ];
    texts.extend([1, 2, 76, 77, 78, 80, 81, 100].map(|length| long[..length].to_string()));
    for text in texts {
        let draft = Draft::new(b'k', &text, "");
        cases.add_draft(&draft, &[-1, 0]);
        cases.add_in_81(&draft);
    }
}

/// Texts and letters of line 1 that are blank, or not listed; file types and time systems.
fn add_texts(cases: &mut Cases) {
    let fronts = [
        " ORBITWGS84BCTPORT ",
        "vORBITWGS84BCTP    ",
        "#ORBITWGS84BCT     ",
        "PORBITWGS84B       ",
        "P   ITWG  4 C  O   ",
        "PORBITWGS84        ",
        "PORBIT             ",
        "P    T             ",
        "VO                 ",
        "V                  ",
        "                   ",
        "P            T     ",
        "P     W          T ",
    ];
    for (place, front) in fronts.into_iter().enumerate() {
        let letter = if place % 2 == 0 { b'a' } else { b'A' };
        let draft = Draft { front: front.to_string(), ..filled(letter) };
        cases.add_draft(&draft, &[-1, 0]);
        cases.add_in_81(&spoilt(&draft, |place| place > 2));
        cases.add_draft(&spoilt(&draft, |_| true), &[0, 1]);
    }
    for front in ["XGPS", " GLO", "ccc ", "M   ", "    ", "m gp"] {
        cases.add_draft(&Draft::new(b'f', front, ""), &[0, 1]);
    }
}

/// Slots that are used or not, whatever the record holds for them; identifiers that no
/// line is accepted with; exponents that don't fit.
fn add_slot_records(cases: &mut Cases) {
    for letter in *b"cCde" {
        for count in ["0", "1", "2", "16", "17", "18", "999", "1000", "18446744073709551615"] {
            let draft = filled(letter).with(0, count);
            cases.add_draft(&draft, if count == "2" { &[-1, 0, 1] } else { &[1] });
        }
    }
    for letter in *b"cd" {
        cases.add_draft(&filled(letter).with(1, "G00").with(9, "g07").with(17, "z99"), &[1]);
        cases.add_draft(&Draft::new(letter, "", "3 G07 a00 R24"), &[0, 1]);
        cases.add_draft(&Draft::new(letter, "", "0"), &[0, 1]);
    }
    for count in [1, 5, 16] {
        let draft = spoilt(&filled(b'e').with(0, &count.to_string()), |_| true);
        cases.add_draft(&draft, &[0, 1]);
    }
    for last in [0, 3, 8, 15] {
        let draft = spoilt(&filled(b'e'), |place| place > last || place % 3 == 1);
        cases.add_draft(&draft, &[-1, 0, 1]);
    }
}

/// Numbers, rooms and marks at random.
fn add_random_records(cases: &mut Cases, random: &mut Random, number: usize) {
    let goal = cases.list.len() + number;
    while cases.list.len() < goal {
        let letter = *random.pick(b"aAbcehlmmmnnooop");
        let mut draft = filled(letter);
        for (place, form) in forms(letter) {
            if random.below(2) == 0 {
                let around = words_around(letter, form);
                draft = draft.with(place, &around[random.below(around.len())]);
            }
        }
        let room = match random.below(4) {
            0 => draft.length() - 1,
            1 => draft.length(),
            2 => draft.length() + random.below(9),
            _ => random.below(101),
        };
        cases.add(draft.case(room, *random.pick(&['#', ' ', '0', '-'])));
    }
}

fn add_records(cases: &mut Cases, random: &mut Random) {
    add_rooms(cases);
    add_limits(cases);
    add_blank_ends(cases);
    add_choices(cases);
    add_meanings(cases);
    add_comments(cases);
    add_texts(cases);
    add_slot_records(cases);
    add_random_records(cases, random, 60);
}

fn all_cases() -> Vec<Case> {
    let mut cases = Cases::default();
    let mut random = Random(20_160_221);
    add_good_lines(&mut cases);
    add_single_columns(&mut cases);
    add_spellings(&mut cases);
    add_clocks(&mut cases);
    add_mixed_spellings(&mut cases, &mut random);
    add_dates(&mut cases);
    add_slots(&mut cases);
    add_spoiled(&mut cases, &mut random);
    add_outside(&mut cases);
    add_lengths(&mut cases);
    add_kinds(&mut cases);
    add_random_clocks(&mut cases, &mut random, 150);
    add_random(&mut cases, &mut random, 620);
    add_older_version(&mut cases);
    add_records(&mut cases, &mut random);
    cases.list
}

// ---------------------------------------------------------------------------
// Self-test: answers worked out by hand
// ---------------------------------------------------------------------------

/// The paper's "One file whole": each line is accepted and canonical.
const SAMPLE: &[&str] = &[
    "a000#dP2013  4  3  0  0  0.00000000       1 ORBIT WGS84 BCT PORT",
    "b000## 1734 259200.00000000   900.00000000 56385 0.0000000000000",
    "c000+    1   G07  0  0  0  0  0  0  0  0  0  0  0  0  0  0  0  0",
    "d000+          0  0  0  0  0  0  0  0  0  0  0  0  0  0  0  0  0",
    "e001++         0  0  0  0  0  0  0  0  0  0  0  0  0  0  0  0  0",
    "e000++         0  0  0  0  0  0  0  0  0  0  0  0  0  0  0  0  0",
    "f000%c G  cc GPS ccc cccc cccc cccc cccc ccccc ccccc ccccc ccccc",
    "g000%c cc cc ccc ccc cccc cccc cccc cccc ccccc ccccc ccccc ccccc",
    "h000%f  1.2500000  1.025000000  0.00000000000  0.000000000000000",
    "i000%f  0.0000000  0.000000000  0.00000000000  0.000000000000000",
    "j000%i    0    0    0    0      0      0      0      0         0",
    "k000/* ONE ROW",
    "k000/*",
    "l000*  2013  4  3  0  0  0.00000000",
    "m000PG07   5000.000001     -0.500000      0.000000 999999.999999",
    "q000EOF",
];

/// Whole cases and their answers.
const BY_HAND: &[(&str, &str)] = &[
    // The paper's file as it comes in, y spelt `-00.500000`.
    (
        "m000PG07   5000.000001    -00.500000      0.000000 999999.999999",
        "0 0 PG07   5000.000001     -0.500000      0.000000 999999.999999",
    ),
    // The paper's cases 3, 4, 5, 6, 7, 8, 9.
    ("l000*  1980  1  6  0  0  0.00000000", "0 0 *  1980  1  6  0  0  0.00000000"),
    ("l000*  2000  2 29  0  0  0.00000000", "0 0 *  2000  2 29  0  0  0.00000000"),
    ("l000*  2001  2 29  0  0  0.00000000", "7 4"),
    ("l000*  1980  1  5  0  0  0.00000000", "7 4"),
    ("l000*  2099 12 31 23 59 59.99999999", "0 0 *  2099 12 31 23 59 59.99999999"),
    ("l000*  2100  1  1  0  0  0.00000000", "7 4"),
    ("l000*  2013  4 31  0  0  0.00000000", "7 4"),
    ("l000*  2013  4  3  0  0 60.00000000", "7 21"),
    (
        "m000PG07     -0.500000     -0.000000      0.000001     -0.000001",
        "0 0 PG07     -0.500000      0.000000      0.000001     -0.000001",
    ),
    ("m000PG071000000.000000      0.000000      0.000000      0.000000", "7 5"),
    ("m000PG07       .500000      0.000000      0.000000      0.000000", "6 5"),
    // 7 at the left and 6 at the right: the lower number decides.
    ("m000PG071000000.000000       .500000      0.000000      0.000000", "6 19"),
    ("m000PG00       .500000       .500000      0.000000      0.000000", "6 5"),
    ("m000PG00      0.500000      0.500000      0.000000      0.000000", "7 2"),
    // 6 at the left and 5 at the right.
    ("m000PG07       .500000      0.500000      0.000000      0.000000x", "5 61"),
    ("m000PG07      0.000000      0.000000      0.000000", "6 47"),
    // Request 3. A line that ends with the point, before it, after it.
    (
        "m000PG07   5000.000001     -0.500000      0.000000 999999.",
        "0 0 PG07   5000.000001     -0.500000      0.000000 999999.999999",
    ),
    (
        "n000VG07   5000.000001     -0.500000      0.000000 999999.",
        "0 0 VG07   5000.000001     -0.500000      0.000000 999999.999999",
    ),
    (
        "m000PG07   5000.000001     -0.500000      0.0000000999999.   ",
        "0 0 PG07   5000.000001     -0.500000      0.000000 999999.999999",
    ),
    ("m000PG07   5000.000001     -0.500000      0.000000 999999", "6 47"),
    ("n000VG07   5000.000001     -0.500000      0.000000 999999", "6 47"),
    ("m000PG07   5000.000001     -0.500000      0.000000 99999", "6 47"),
    ("m000PG07   5000.000001     -0.500000      0.000000 999999.9", "6 47"),
    ("n000VG07   5000.000001     -0.500000      0.000000 999999.99999", "6 47"),
    ("m000PG07   5000.000001     -0.500000      0.000000 999998.", "6 47"),
    ("m000PG07   5000.000001     -0.500000      0.000000-999999.", "6 47"),
    ("n000VG07   5000.000001     -0.500000      0.0000001000000.", "6 47"),
    // A bare clock, then exponents and flags, or the place absent too.
    (
        "m000PG07   5000.000001     -0.500000      0.000000 999999.       18 99 07 219 EP  MP",
        "0 0 PG07   5000.000001     -0.500000      0.000000 999999.999999 18 99  7 219 EP  MP",
    ),
    (
        "m000PG07     -0.000000      0.000000      0.000000 999999.                    E    P",
        "0 0 PG07      0.000000      0.000000      0.000000 999999.999999              E    P",
    ),
    (
        "n000VG07   5000.000001     -0.500000      0.000000 999999.       18 99 07 219",
        "0 0 VG07   5000.000001     -0.500000      0.000000 999999.999999 18 99  7 219",
    ),
    ("m000PG07   5000.000001     -0.500000      0.000000 999999.      0", "5 61"),
    ("n000VG07   5000.000001     -0.500000      0.000000 999999.      018", "5 61"),
    ("n000VG07   5000.000001     -0.500000      0.000000 999999.       18 99 07 219 E", "5 75"),
    // Beside other faults: the lowest number, then the leftmost column.
    ("m000PG07   5000.000001     -0.500000      0.000000 999999.     00", "5 61"),
    ("m000PG07   5000.000001     -0.500000      0.000000-999999.      0", "5 61"),
    ("m000PG07 999999.           -0.500000      0.000000 999999.", "6 5"),
    ("m000PG07   5000.000001 999999.            0.000000 999999.     0", "6 19"),
    ("n000VG07   5000.000001     -0.500000 999999.      -999999.", "6 33"),
    ("m000PG071000000.000000     -0.500000      0.000000 999999.", "7 5"),
    ("m000PG071000000.000000     -0.500000      0.000000 999998.", "6 47"),
    ("m000PG00   5000.000001     -0.500000      0.000000 999999.", "7 2"),
    ("m000PG00   5000.000001     -0.500000      0.0000001000000.000000", "7 2"),
    ("m000Pg07   5000.000001     -0.500000      0.000000-999999.", "6 2"),
    ("m000PG07   5000.000001     -0.500000      0.0000001000000.000000  x", "6 62"),
    ("m000PG07   5000.000001     -0.500000      0.000000-999999.        x", "6 47"),
    ("m000PG07   5000.000001     -0.500000      0.000000 999999.        x", "6 62"),
    // x of six nines is a place.
    (
        "m000PG07 999999.000000 999999.999999-999999.000000 999999.000000",
        "0 0 PG07 999999.000000 999999.999999-999999.000000 999999.999999",
    ),
    ("m000P", "6 2"),
    ("m000", "4 0"),
    ("m000VG07      0.000000      0.000000      0.000000      0.000000", "4 0"),
    // Slots: n = 0, malformed; after n. Up to 999 satellites (request 6).
    ("c000+    0     0  0  0  0  0  0  0  0  0  0  0  0  0  0  0  0  0", "7 4"),
    ("c000+    0   G01  0  0  0  0  0  0  0  0  0  0  0  0  0  0  0  0", "7 4"),
    ("c000+  000   G07  0  0  0  0  0  0  0  0  0  0  0  0  0  0  0  0", "7 4"),
    (
        "c000+  255   G01G02G03G04G05G06G07G08G09G10G11G12G13G14G15G16G17",
        "0 0 +  255   G01G02G03G04G05G06G07G08G09G10G11G12G13G14G15G16G17",
    ),
    (
        "c000+  256   G01G02G03G04G05G06G07G08G09G10G11G12G13G14G15G16G17",
        "0 0 +  256   G01G02G03G04G05G06G07G08G09G10G11G12G13G14G15G16G17",
    ),
    ("c000+  256   G01G02G03G04G05G06G07G08G09G10G11G12G13G14G15G16  0", "6 58"),
    ("c000+  256   G00G02G03G04G05G06G07G08G09G10G11G12G13G14G15G16G17", "7 10"),
    (
        "c000+  999   G01G02G03G04G05G06G07G08G09G10G11G12G13G14G15G16G17",
        "0 0 +  999   G01G02G03G04G05G06G07G08G09G10G11G12G13G14G15G16G17",
    ),
    ("c000+  999   G07  0  0  0  0  0  0  0  0  0  0  0  0  0  0  0  0", "6 13"),
    // "1,000 can't be written in the field"
    ("c000+  1000  G01G02G03G04G05G06G07G08G09G10G11G12G13G14G15G16G17", "5 7"),
    ("c000+ 1000   G01G02G03G04G05G06G07G08G09G10G11G12G13G14G15G16G17", "5 3"),
    ("c000+ 1000   G07  0  0  0  0  0  0  0  0  0  0  0  0  0  0  0  0", "5 3"),
    ("c000+ 1256   G01G02G03G04G05G06G07G08G09G10G11G12G13G14G15G16G17", "5 3"),
    // The second and the last line of 999.
    (
        "d982+        G18G19G20G21G22G23G24G25G26G27G28G29G30G31G32G33G34",
        "0 0 +        G18G19G20G21G22G23G24G25G26G27G28G29G30G31G32G33G34",
    ),
    ("d982+        G18G19G20G21G22G23G24G25G26G27G28G29G30G31G32G33  0", "6 58"),
    (
        "d013+        M96M97M98M99Z01Z02Z03Z04Z05Z06Z07Z08Z09  0  0  0  0",
        "0 0 +        M96M97M98M99Z01Z02Z03Z04Z05Z06Z07Z08Z09  0  0  0  0",
    ),
    ("d013+        M96M97M98M99Z01Z02Z03Z04Z05Z06Z07Z08Z09Z10  0  0  0", "8 0"),
    ("d013+        M96M97M98M99Z01Z02Z03Z04Z05Z06Z07Z08  0  0  0  0  0", "6 46"),
    (
        "e013++       902909916923930937944951958965972979986  0  0  0  0",
        "0 0 ++       902909916923930937944951958965972979986  0  0  0  0",
    ),
    ("e013++       902909916923930937944951958965972979986993  0  0  0", "8 0"),
    ("c000+    x    xxxxx", "6 4"),
    ("c000+    x x  xxxxx", "5 8"),
    ("c000+    2   G01  0  0  0  0  0  0  0  0  0  0  0  0  0  0  0  0", "6 13"),
    ("c000+    1   G01000  0  0  0  0  0  0  0  0  0  0  0  0  0  0  0", "8 0"),
    ("c000+    1   G01 00  0  0  0  0  0  0  0  0  0  0  0  0  0  0  0", "8 0"),
    ("c000+    1   G010    0  0  0  0  0  0  0  0  0  0  0  0  0  0  0", "8 0"),
    ("c000+    1   G01  0  0  0  0  0  0  0  0  0  0  0  0  0  0  0", "8 0"),
    ("c000+    1   G00G02  0  0  0  0  0  0  0  0  0  0  0  0  0  0  0", "7 10"),
    ("d002+        G18G 9  0  0  0  0  0  0  0  0  0  0  0  0  0  0G01", "6 13"),
    ("d001+        G18G 9  0  0  0  0  0  0  0  0  0  0  0  0  0  0G01", "8 0"),
    ("d000+    0     0  0  0  0  0  0  0  0  0  0  0  0  0  0  0  0  0", "5 6"),
    ("d000+", "8 0"),
    ("d001+", "6 10"),
    ("d000", "4 0"),
    (
        "e002++       007999  0  0  0  0  0  0  0  0  0  0  0  0  0  0  0",
        "0 0 ++         7999  0  0  0  0  0  0  0  0  0  0  0  0  0  0  0",
    ),
    ("e002++       007     0  0  0  0  0  0  0  0  0  0  0  0  0  0  0", "6 13"),
    ("e001++       007     0  0  0  0  0  0  0  0  0  0  0  0  0  0  0", "8 0"),
    ("e001++       007007  0  0  0  0  0  0  0  0  0  0  0  0  0  0  0", "8 0"),
    // Placeholders.
    ("j000%i", "5 4"),
    ("i000%f", "5 4"),
    ("g000%c", "5 4"),
    ("f000%c", "5 7"),
    ("h000%f", "5 28"),
    ("h000%f  1.2500000  1.025000000  0.00000000000", "5 43"),
    ("g000%c G  cc GPS ccc cccc cccc cccc cccc ccccc ccccc ccccc ccccc", "5 4"),
    ("f000%c cc cc ccc ccc cccc cccc cccc cccc ccccc ccccc ccccc ccccc", "6 4"),
    ("f000%c G  cc cGP ccc cccc cccc cccc cccc ccccc ccccc ccccc cccc", "5 56"),
    // Short lines.
    ("a000#d", "6 3"),
    ("a000#dP", "6 4"),
    ("a000#d 2013  4  3  0  0  0.00000000", "6 3"),
    ("a000#dP2013  4  3  0  0  0.00000000", "6 33"),
    (
        "a000#dP2013  4  3  0  0  0.00000000       1",
        "0 0 #dP2013  4  3  0  0  0.00000000       1",
    ),
    ("b000##", "6 4"),
    ("b000## 1734", "6 9"),
    ("l000*", "6 4"),
    ("l000*  2013  4  3  0  0", "6 21"),
    ("n000V", "6 2"),
    ("m000PG07", "6 5"),
    // Dates: column 4 for any fault of year, month or day, but columns 8 and 11 are
    // unused; the number decides first, and then the leftmost column.
    ("l000*  201x  4  3  0  0  0.00000000", "6 4"),
    ("l000*  2013 x4  3  0  0  0.00000000", "6 4"),
    ("a000#dP2013  4 3   0  0  0.00000000       1", "6 4"),
    ("l000*  201xx 4  3  0  0  0.00000000", "5 8"),
    ("l000*  2013 13x 3  0  0  0.00000000", "5 11"),
    ("l000*  2013 13  3 24  0  0.00000000", "7 4"),
    ("l000*  2013 13  3 2x  0  0.00000000", "6 15"),
    ("l000*  2013 13  x 2x  0  0.00000000", "6 4"),
    ("a000#dv2013  4  x  0  0  0.00000000       1", "6 3"),
    // Comments and the end.
    ("k000/*   two blanks before   ", "0 0 /*   two blanks before"),
    ("k000/* ", "0 0 /*"),
    ("k000/*x", "5 3"),
    ("k000/ *", "4 0"),
    ("q000EOF   ", "0 0 EOF"),
    ("q000EOFX", "5 4"),
    ("q000EOX", "4 0"),
    ("q000EO", "4 0"),
    // Notes: 000's own EP and EV.
    (
        "o000EP    55   55   55     222  1234567 -1234567  5999999      -30       21 -1230000",
        "0 0 EP    55   55   55     222  1234567 -1234567  5999999      -30       21 -1230000",
    ),
    (
        "p000EV    22   22   22     111  1234567  1234567  1234567  1234567  1234567  1234567",
        "0 0 EV    22   22   22     111  1234567  1234567  1234567  1234567  1234567  1234567",
    ),
    ("o000EP", "0 0 EP"),
    ("p000EV", "0 0 EV"),
    ("o000EP   ", "0 0 EP"),
    (
        "o000EP                                                                              ",
        "0 0 EP",
    ),
    ("o000EV", "4 0"),
    ("p000EP", "4 0"),
    ("p000E", "4 0"),
    ("o000EPx", "5 3"),
    ("o000EP x", "5 4"),
    ("o000EPxxxx", "5 3"),
    ("o000EP      1", "5 9"),
    ("o000EP                                                                     x", "5 72"),
    ("o000EP                                                                       x", "6 73"),
    // Deviations: leading zeros, no minus; the largest is a number like others.
    ("o000EP  0055", "0 0 EP    55"),
    ("o000EP  55", "6 5"),
    ("o000EP  55  ", "6 5"),
    ("o000EP    -1", "6 5"),
    ("o000EP  1000", "0 0 EP  1000"),
    ("o000EP  9999", "0 0 EP  9999"),
    ("o000EP                 9999999", "0 0 EP                 9999999"),
    ("o000EP                 0000000", "0 0 EP                       0"),
    ("o000EP                      0", "6 20"),
    ("p000EV       000", "6 10"),
    ("p000EV       0000", "0 0 EV          0"),
    ("p000EV                 000000", "6 20"),
    ("p000EV            9999", "0 0 EV            9999"),
    // Correlations.
    ("o000EP                         99999999", "7 28"),
    ("o000EP                         10000000", "7 28"),
    ("o000EP                         09999999", "0 0 EP                          9999999"),
    ("o000EP                         -9999999", "0 0 EP                         -9999999"),
    ("o000EP                               -0", "0 0 EP                                0"),
    ("o000EP                              - 1", "6 28"),
    ("o000EP                               +1", "6 28"),
    ("o000EP                                -", "6 28"),
    ("o000EP                         1234567 ", "6 28"),
    (
        "o000EP                                                                      -0000001",
        "0 0 EP                                                                            -1",
    ),
    ("p000EV                                                             90000000", "7 64"),
    // 6 at the left and 5 at the right; 7 at the left and 6 at the right.
    ("o000EP  55                    x", "5 27"),
    (
        "o000EP                         99999999                                     1234567 ",
        "6 73",
    ),
    ("p000EV                         10000000 10000000", "7 28"),
    // SP3-c: its letter, 85 satellites at most; all else is the same.
    (
        "A000#cP2013  4  3  0  0  0.00000000       1 ORBIT WGS84 BCT PORT",
        "0 0 #cP2013  4  3  0  0  0.00000000       1 ORBIT WGS84 BCT PORT",
    ),
    (
        "A000#cV2013 04 03 00 00 00.00000000 0000001 ORBIT WGS84 BCT PORT                ",
        "0 0 #cV2013  4  3  0  0  0.00000000       1 ORBIT WGS84 BCT PORT",
    ),
    ("A000#dP2013  4  3  0  0  0.00000000       1 ORBIT WGS84 BCT PORT", "4 0"),
    ("A000#CP2013  4  3  0  0  0.00000000       1 ORBIT WGS84 BCT PORT", "4 0"),
    ("A000##P2013  4  3  0  0  0.00000000       1 ORBIT WGS84 BCT PORT", "4 0"),
    ("a000#cP2013  4  3  0  0  0.00000000       1 ORBIT WGS84 BCT PORT", "4 0"),
    ("A000#cv2013  4  3  0  0  0.00000000       1 ORBIT WGS84 BCT PORT", "6 3"),
    ("A000#cP2013  4  3  0  0  0.00000000  100001 ORBIT WGS84 BCT PORT", "7 33"),
    ("A000#c", "6 3"),
    (
        "C000+   85   G01G02G03G04G05G06G07G08G09G10G11G12G13G14G15G16G17",
        "0 0 +   85   G01G02G03G04G05G06G07G08G09G10G11G12G13G14G15G16G17",
    ),
    (
        "c000+   86   G01G02G03G04G05G06G07G08G09G10G11G12G13G14G15G16G17",
        "0 0 +   86   G01G02G03G04G05G06G07G08G09G10G11G12G13G14G15G16G17",
    ),
    ("C000+   86   G01G02G03G04G05G06G07G08G09G10G11G12G13G14G15G16G17", "7 4"),
    ("C000+  086   G01G02G03G04G05G06G07G08G09G10G11G12G13G14G15G16G17", "7 4"),
    ("C000+  999   G01G02G03G04G05G06G07G08G09G10G11G12G13G14G15G16G17", "7 4"),
    ("C000+    0     0  0  0  0  0  0  0  0  0  0  0  0  0  0  0  0  0", "7 4"),
    // Beside other faults: of the slots that 86 satellites need, 6 before 7 and 5 before 6.
    ("C000+   86   G01G 2G03G04G05G06G07G08G09G10G11G12G13G14G15G16G17", "6 13"),
    ("C000+   86   G01G02G03G04G05G06G07G08G09G10G11G12G13G14G15G16  0", "6 58"),
    ("C000+   86   G00G02G03G04G05G06G07G08G09G10G11G12G13G14G15G16G17", "7 4"),
    ("C000+   86 x G01G 2G03G04G05G06G07G08G09G10G11G12G13G14G15G16G17", "5 8"),
    ("C000+  1000  G01G02G03G04G05G06G07G08G09G10G11G12G13G14G15G16G17", "5 7"),
    // The columns of a comment are those of SP3-d; how long its line may be isn't judged here.
    ("K000/* two", "0 0 /* two"),
    ("M000PG07", "6 5"),
    ("Z000#cP", "kind 1"),
    ("Z000#dP", "kind 0"),
    ("Z000#C", "kind 0"),
    ("Z000##", "kind 2"),
    ("Z000/*", "kind 8"),
    ("Z000EOF", "kind 14"),
    // Kinds.
    ("z000#dP", "kind 1"),
    ("z000#c", "kind 0"),
    ("z000##", "kind 2"),
    ("z000+", "kind 3"),
    ("z000++", "kind 4"),
    ("z000+a", "kind 0"),
    ("z000%c", "kind 5"),
    ("z000%C", "kind 0"),
    ("z000%f", "kind 6"),
    ("z000%i", "kind 7"),
    ("z000/*", "kind 8"),
    ("z000/", "kind 0"),
    ("z000*", "kind 9"),
    ("z000*a", "kind 0"),
    ("z000P", "kind 10"),
    ("z000PX", "kind 10"),
    ("z000V", "kind 11"),
    ("z000EPX", "kind 12"),
    ("z000EV", "kind 13"),
    ("z000EOF", "kind 14"),
    ("z000EOFX", "kind 14"),
    ("z000EO", "kind 0"),
    ("z000E", "kind 0"),
    ("z000", "kind 0"),
];

/// A record to be written and the room after it.
const WRITTEN_BY_HAND: &[(&str, &str)] = &[
    // The end in rooms of 0, one too few, as many as it needs, more; blank ones too.
    ("w000q#", "4 ||"),
    ("w003q#", "4 |###|"),
    ("w004q#", "4 |EOF$|"),
    ("w009q#", "4 |EOF$#####|"),
    ("w003q ", "4 |   |"),
    ("w006q ", "4 |EOF$  |"),
    // The paper's row, which needs 61 bytes.
    (
        "w064m#G07 5000000001 -500000 0 999999999999 1000 1000 1000 1000 0 0 0 0",
        "61 |PG07   5000.000001     -0.500000      0.000000 999999.999999$###|",
    ),
    (
        "w061mxG07 5000000001 -500000 0 999999999999 1000 1000 1000 1000 0 0 0 0",
        "61 |PG07   5000.000001     -0.500000      0.000000 999999.999999$|",
    ),
    (
        "w060mxG07 5000000001 -500000 0 999999999999 1000 1000 1000 1000 0 0 0 0",
        "61 |xxxxxxxxxxxxxxxxxxxxxxxxxxxxxxxxxxxxxxxxxxxxxxxxxxxxxxxxxxxx|",
    ),
    // All columns of P; V has no flags.
    (
        "w081m#R24 -1 -0 -1000000 123456 1 2 99 999 1 1 1 1",
        "81 |PR24     -0.000001      0.000000     -1.000000      0.123456  1  2 99 999 EP  MP$|",
    ),
    (
        "w076n#R24 -1 -0 -1000000 123456 1 2 99 999 1 1 1 1",
        "74 |VR24     -0.000001      0.000000     -1.000000      0.123456  1  2 99 999$##|",
    ),
    // The largest that fit, without a minus and with it, then one more of each.
    (
        "w034n#G07 9999999999999 -999999999999 10000000000000 -1000000000000 100 100 100 1000",
        "33 |VG079999999.999999-999999.999999$#|",
    ),
    (
        "w006m#G07 10000000000000 -1000000000000 10000000000000 -1000000000000 100 100 100 1000",
        "5 |PG07$#|",
    ),
    (
        "w004m#G07 10000000000000 -1000000000000 10000000000000 -1000000000000 100 100 100 1000",
        "5 |####|",
    ),
    // y's exponent alone, the maneuver flag alone.
    (
        "w068m#G07 10000000000000 10000000000000 10000000000000 10000000000000 100 99 100 1000",
        "67 |PG07                                                            99$#|",
    ),
    (
        "w081m#G07 10000000000000 10000000000000 10000000000000 10000000000000 \
         100 100 100 1000 0 0 1 0",
        "80 |PG07                                                                          M$#|",
    ),
    // EP and EV: nothing known, one deviation, correlations with as many digits as fit.
    (
        "w003o#100000000 10000 10000 10000000 \
         100000000 100000000 100000000 100000000 -10000000 100000000",
        "3 |EP$|",
    ),
    (
        "w010o#9999 10000 10000 10000000 \
         100000000 100000000 100000000 100000000 100000000 100000000",
        "9 |EP  9999$#|",
    ),
    (
        "w037p#10000 10000 10000 10000000 \
         -9999999 -10000000 100000000 100000000 100000000 100000000",
        "36 |EV                         -9999999$#|",
    ),
    (
        "w046p#10000 10000 10000 9999999 -0 99999999 100000000 100000000 100000000 100000000",
        "45 |EV                 9999999        0 99999999$#|",
    ),
    // Epochs that end with any field, down to the symbol.
    ("w032l#2013 4 3 0 0 0", "32 |*  2013  4  3  0  0  0.00000000$|"),
    ("w033l-10000 100 100 100 100 9999999999", "32 |*                   99.99999999$-|"),
    ("w009l#2013 100 100 100 100 10000000000", "8 |*  2013$#|"),
    ("w005l#10000 100 100 100 100 10000000000", "2 |*$###|"),
    ("w001l#10000 100 100 100 100 18446744073709551615", "2 |#|"),
    // Line 1: all of it, its mode alone, neither; the last letter of a text.
    (
        "w062a#PORBITWGS84BCTPORT 2013 4 3 0 0 0 1",
        "61 |#dP2013  4  3  0  0  0.00000000       1 ORBIT WGS84 BCT PORT$#|",
    ),
    ("w005a#v                  10000 100 100 100 100 10000000000 10000000", "4 |#dv$#|"),
    ("w004A#                   10000 100 100 100 100 10000000000 10000000", "3 |#c$#|"),
    (
        "w057A#V            T     10000 100 100 100 100 10000000000 9999999",
        "56 |#cV                             9999999               T$#|",
    ),
    // Line 2.
    ("w004b#10000 100000000000000 10000000000000 100000 100000000000000", "3 |##$#|"),
    (
        "w062b#10000 99999999999999 9999999999999 99999 99999999999999",
        "61 |##      999999.99999999 99999.99999999 99999 9.9999999999999$#|",
    ),
    // Slots: after n always `  0`, whatever is held for them; 1000 fits no slot.
    (
        "w062c#2 G07 R24 G09",
        "61 |+    2   G07R24  0  0  0  0  0  0  0  0  0  0  0  0  0  0  0$#|",
    ),
    (
        "w061c#1000 G01 G02 G03 G04 G05 G06 G07 G08 G09 G10 G11 G12 G13 G14 G15 G16 G17",
        "61 |+        G01G02G03G04G05G06G07G08G09G10G11G12G13G14G15G16G17$|",
    ),
    (
        "w062d#1 g00 R24",
        "61 |+        g00  0  0  0  0  0  0  0  0  0  0  0  0  0  0  0  0$#|",
    ),
    (
        "w062e#2 999 1000 7",
        "61 |++       999     0  0  0  0  0  0  0  0  0  0  0  0  0  0  0$#|",
    ),
    (
        "w014e#17 5 1000 1000 1000 1000 1000 1000 1000 1000 1000 1000 1000 1000 1000 1000 1000 \
         1000",
        "13 |++         5$#|",
    ),
    (
        "w004e#17 1000 1000 1000 1000 1000 1000 1000 1000 1000 1000 1000 1000 1000 1000 1000 1000 \
         1000",
        "3 |++$#|",
    ),
    // Letters that aren't listed; bases.
    (
        "w062f#XA C",
        "61 |%c X  cc A C ccc cccc cccc cccc cccc ccccc ccccc ccccc ccccc$#|",
    ),
    (
        "w062h#999999999 99999999999",
        "61 |%f 99.9999999 99.999999999  0.00000000000  0.000000000000000$#|",
    ),
    (
        "w062h#1000000000 100000000000",
        "61 |%f                          0.00000000000  0.000000000000000$#|",
    ),
    (
        "w062j#",
        "61 |%i    0    0    0    0      0      0      0      0         0$#|",
    ),
    // Comments: no text, blanks, a blank inside, one character more than there are columns.
    ("w004k#", "3 |/*$#|"),
    ("w004k#    ", "3 |/*$#|"),
    ("w008k# a b  ", "8 |/*  a b$|"),
    (
        "w082k#01234567890123456789012345678901234567890123456789012345678901234567890123456789",
        "81 |/* 01234567890123456789012345678901234567890123456789012345678901234567890123456$#|",
    ),
];

/// Counts comparisons and tells those that fail.
#[derive(Default)]
pub(crate) struct Tally {
    pub(crate) made: usize,
    pub(crate) failed: usize,
}

impl Tally {
    fn expect(&mut self, case: &Case, wanted: &str) {
        let answer = case.answer();
        self.holds(answer == wanted, || {
            format!("{}\n  wanted {wanted}\n  given  {answer}", case.show())
        });
    }

    pub(crate) fn holds(&mut self, condition: bool, message: impl Fn() -> String) {
        self.made += 1;
        if !condition {
            self.failed += 1;
            eprintln!("{}", message());
        }
    }

    /// Prints how many comparisons there were, and ends with 1 if one failed.
    pub(crate) fn tell(&self, by_hand: usize) {
        println!("{} comparisons, {by_hand} of them by hand, {} failed", self.made, self.failed);
        if self.failed > 0 {
            exit(1);
        }
    }
}

fn test_by_hand(tally: &mut Tally) {
    for text in SAMPLE {
        let case = parse_case(text.as_bytes(), 0);
        tally.expect(&case, &format!("0 0 {}", case.line));
    }
    for (text, wanted) in BY_HAND.iter().chain(WRITTEN_BY_HAND) {
        tally.expect(&parse_case(text.as_bytes(), 0), wanted);
    }
    for &(letter, column, text, number, at) in SPOILED {
        tally.expect(&edited(&good(letter), column, text), &format!("{number} {at}"));
    }
    for &(letter, column, given, shown) in SHOWN {
        let wanted = edited(&good(letter), column, shown).line;
        let wanted = wanted.trim_end_matches(' ');
        tally.expect(&edited(&good(letter), column, given), &format!("0 0 {wanted}"));
    }
    for (case, wanted) in number_cases() {
        tally.expect(&case, &wanted);
    }
}

/// A bare clock changes no other fault of its line.
fn test_beside_bare_clocks(tally: &mut Tally) {
    for spoiler in SPOILED.iter().filter(|spoiler| b"mn".contains(&spoiler.0)) {
        if beside_clock(spoiler) {
            let &(letter, column, text, number, at) = spoiler;
            let base = edited(&good(letter), 47, BARE_CLOCK);
            tally.expect(&edited(&base, column, text), &format!("{number} {at}"));
        }
    }
}

/// Good lines are canonical, and every column is judged exactly once.
fn test_good_lines(tally: &mut Tally) {
    for case in good_cases() {
        tally.expect(&case, &format!("0 0 {}", case.line));
        let mut reader = Reader::new(case.line.as_bytes());
        read_record(case.letter, case.argument, &mut reader);
        let all_taken = !reader.roles.contains(&Role::Untouched) && !reader.taken_twice;
        tally.holds(all_taken, || format!("columns not taken once: {}", case.show()));
    }
}

/// Of two faults the lesser decides; the slots of `c` depend on its number.
fn test_pairs(tally: &mut Tally) {
    for (place, one) in SPOILED.iter().enumerate() {
        for other in &SPOILED[place + 1..] {
            let number_of_satellites = one.0 == b'c' && (one.1 == 4 || other.1 == 4);
            if one.0 == other.0 && !overlap(one, other) && !number_of_satellites {
                let both = edited(&edited(&good(one.0), one.1, one.2), other.1, other.2);
                let (number, column) = (one.3, one.4).min((other.3, other.4));
                tally.expect(&both, &format!("{number} {column}"));
            }
        }
    }
}

/// A canonical line is accepted and is its own canonical line.
fn test_canonical_again(tally: &mut Tally) {
    for case in all_cases() {
        if let Some(line) = case.answer().strip_prefix("0 0 ") {
            let again = Case { line: line.to_string(), ..case.clone() };
            tally.expect(&again, &format!("0 0 {line}"));
        }
    }
}

/// What a record's line is accepted as is that line: it is canonical. A clock of six
/// nines, which a record may hold, is absent in the line, and so held as twelve.
fn test_records_again(tally: &mut Tally) {
    for case in all_cases().iter().filter(|case| case.letter == WRITTEN) {
        let (letter, values) = (case.line.as_bytes()[0], &case.line[2..]);
        let line = line_of_record(letter, values);
        let left = match letter {
            b'd' | b'e' => number_of(values.split(' ').next().unwrap_or_default()),
            _ => 0,
        };
        let absent = is_absent_clock(Line::padded(line.as_bytes()).columns(47, 60));
        if let (Ok(again), false) = (judge(letter, left as usize, line.as_bytes()), absent) {
            tally.holds(again == line, || case.show());
        }
    }
}

fn self_test() {
    let mut tally = Tally::default();
    test_by_hand(&mut tally);
    let by_hand = tally.made;
    test_good_lines(&mut tally);
    test_beside_bare_clocks(&mut tally);
    test_pairs(&mut tally);
    test_canonical_again(&mut tally);
    test_records_again(&mut tally);
    tally.tell(by_hand);
}

// ---------------------------------------------------------------------------
// The program
// ---------------------------------------------------------------------------

pub(crate) fn fail(message: &str) -> ! {
    eprintln!("{message}");
    exit(1)
}

fn print(text: &str) {
    if let Err(error) = std::io::stdout().write_all(text.as_bytes()) {
        fail(&format!("standard output: {error}"));
    }
}

fn judge_standard_input() {
    let mut bytes = Vec::new();
    if let Err(error) = std::io::stdin().read_to_end(&mut bytes) {
        fail(&format!("standard input: {error}"));
    }
    if !bytes.is_empty() {
        print(&lines_of(&parse_cases(&bytes), Case::answer));
    }
}

/// Fails at the first line in which the file differs from `wanted`.
fn compare_file(path: &str, wanted: &str) {
    let found = std::fs::read(path).unwrap_or_else(|error| fail(&format!("{path}: {error}")));
    if found == wanted.as_bytes() {
        return;
    }
    let found = String::from_utf8_lossy(&found).into_owned();
    let mut wanted_lines = wanted.split_inclusive('\n');
    let mut found_lines = found.split_inclusive('\n');
    for number in 1.. {
        let (want, have) = (wanted_lines.next(), found_lines.next());
        if want != have || want.is_none() {
            fail(&format!("{path}: line {number} is {have:?} and should be {want:?}"));
        }
    }
}

fn check(directory: &str) {
    let cases = all_cases();
    compare_file(&format!("{directory}/stdin"), &lines_of(&cases, Case::show));
    compare_file(&format!("{directory}/stdout"), &lines_of(&cases, Case::answer));
}

/// How many cases have each number, over all and by kind; how many records had room.
fn count() {
    let mut counts: BTreeMap<(char, String), usize> = BTreeMap::new();
    for case in all_cases() {
        let number = case.outcome();
        *counts.entry(('*', number.clone())).or_default() += 1;
        *counts.entry((case.letter as char, number)).or_default() += 1;
    }
    for ((letter, number), count) in counts {
        println!("{letter} {number} {count}");
    }
}

fn main() {
    let arguments: Vec<String> = std::env::args().skip(1).collect();
    let words: Vec<&str> = arguments.iter().map(String::as_str).collect();
    match words[..] {
        ["judge"] => judge_standard_input(),
        ["cases"] => print(&lines_of(&all_cases(), Case::show)),
        ["check", directory] => check(directory),
        ["self-test"] => self_test(),
        ["count"] => count(),
        _ => fail("usage: judge | cases | check CRATE_DIR | self-test | count"),
    }
}
