//! A judge of whole files of SP3-d and SP3-c, written only from the documents.
//!
//! It says of a stretch of bytes whether it is such a file and of which version,
//! which number of the paper's table refuses it, at which line and at which
//! column, what its table holds, what is laid into lent rooms, and what the
//! questions about a file are answered.
//! It also makes the files on which another implementation is compared with
//! it. It shares no code with that implementation; single lines are judged by
//! `lines.rs`, from the same documents.
//!
//! Build: `rustc -O --edition 2021 -o BIN tests/files.rs`
//!
//! * `BIN answer < batch`      prints the answers to a batch of cases;
//! * `BIN generate SEED COUNT` prints a batch of that many generated cases;
//! * `BIN case SEED NUMBER`    prints one of them, counted from 1;
//! * `BIN any ..`              the same with cases of any size (`any compare 1 9 ..`);
//! * `BIN kinds SEED COUNT`    counts of what kinds the files of such cases are;
//! * `BIN file MODE SATELLITES EPOCHS [c]` prints a plain file, mode P or V, of
//!   version d or c;
//! * `BIN bytes SEED COUNT`    prints so many bytes of any kind;
//! * `BIN columns`             prints a batch of files with other bytes in the
//!   columns of a line; `BIN columns case NUMBER` and `BIN columns compare
//!   PROGRAM [ARGS..]` are as below;
//! * `BIN hand`                the same of the cases worked out by hand, stored
//!   and not stored (`hand case NUMBER`, `hand compare PROGRAM [ARGS..]`);
//! * `BIN cases`               prints the stored batch;
//! * `BIN check CRATE_DIR`     compares `CRATE_DIR/stdin` with the stored batch
//!   and `CRATE_DIR/stdout` with the answers to it;
//! * `BIN self-test`           compares the judge with answers worked out by hand;
//! * `BIN count < batch`       counts the answers by their numbers;
//! * `BIN compare SEED COUNT PROGRAM [ARGS..]` gives generated batches to the
//!   program and compares what it prints with the answers, byte for byte.
//!
//! A batch is cases one after the other. A case is a line of nine numbers,
//! `LENGTH I X C R K E S N`, and directly after its LF the LENGTH bytes of a
//! file. I, X, C and R are the rooms lent for identifiers, exponents, bytes of
//! comments and numbers of rows, 23 for each row; K is the comment asked for, E
//! and S the epoch and the satellite, N the identifier (G07 is 7107). The answer
//! to a case:
//!
//! ```text
//! case LENGTH
//! front R LINE COLUMN LENGTH |V|    one file at the front of the bytes
//! whole R LINE COLUMN LENGTH |V|    the bytes as one file
//! read R LINE COLUMN LENGTH |V|     read whole into the lent rooms
//! sums A B C D                  of everything lent, filled or not
//! (the table, where `read` gave 0)
//! read_front R LINE COLUMN LENGTH |V|
//! sums A B C D
//! comment R LINE COLUMN AT LENGTH |TEXT|
//! satellite R LINE COLUMN NUMBER
//! row R LINE COLUMN X Y Z CLOCK `absent` in place of X Y Z or of CLOCK
//! ```
//!
//! V is the letter of the version, a blank beside a refusal.
//!
//! In the table each row has a line, in file order. It has more words where the
//! row has a note, an EP (after P) or EV (after V) directly after it:
//!
//! ```text
//! P E G07 X Y Z CLOCK SX SY SZ SC EPMP              or V
//! P E G07 X Y Z CLOCK SX SY SZ SC EPMP note D D D D C C C C C C
//! ```
//!
//! E is the epoch, S. an exponent, EPMP the flags or points in their places; D is
//! the deviation of x, y, z and clock, C the correlation xy, xz, xc, yz, yc and
//! zc, in 10^-7. An exponent, a D or a C that is blank is `unknown`; an exponent
//! or D that is the largest of its field is `large`:
//!
//! ```text
//! P 0 G07 1 2 3 4 18 18 18 219 .... note 55 large unknown 222 -30 unknown 0 1 2 3
//! ```
//!
//! "The paper" is 01-scope.md as requests 1 to 3, 6 and 9 of 02-change-requests.md
//! changed it, "000" is the SP3-d document.

#[allow(dead_code)]
#[path = "lines.rs"]
pub(crate) mod lines;

use lines::{fail, without_trailing_blanks, ABSENT_CLOCK};
use lines::{Exponent, Identifier, Line, Moment, Note, Random, Reader, Tally, Version, EP, EV};
use std::collections::{BTreeMap, BTreeSet, HashSet};
use std::io::{Read, Write};
use std::ops::{Range, RangeInclusive};
use std::process::{exit, Command, ExitStatus, Stdio};

// ---------------------------------------------------------------------------
// Refusals, and the lines of a file
// ---------------------------------------------------------------------------

/// A number of the paper's table, the line and the column, each counted from 1;
/// 0 for none.
#[derive(Clone, Copy, PartialEq, Eq, Debug)]
pub(crate) struct Refusal {
    pub(crate) number: u8,
    pub(crate) line: usize,
    pub(crate) column: usize,
}

impl Refusal {
    /// The number, the line and the column.
    pub(crate) fn show(&self) -> String {
        format!("{} {} {}", self.number, self.line, self.column)
    }
}

/// "no LF is left before the file's EOF line is complete"
const NO_LF: u8 = 1;
/// "a byte outside 32-126 in the line"
const WRONG_BYTE: u8 = 2;
/// "more than 80 characters"; in a c file "any `/*` line over 60 characters"
const TOO_LONG: u8 = 3;
/// "line 2 disagrees with the start; ..; an identifier repeats; the file type disagrees"
const DISAGREES: u8 = 8;
/// "an epoch stands at the wrong instant"
const WRONG_INSTANT: u8 = 9;
/// "a P or V names another satellite than the header has here"
const OTHER_SATELLITE: u8 = 10;
/// "whole file: bytes stand after the EOF line"
const BYTES_AFTER: u8 = 11;
/// "lent room is too small"
pub(crate) const NO_ROOM: Refusal = Refusal { number: 12, line: 0, column: 0 };
/// "what is asked by number isn't there"
const NOT_THERE: Refusal = Refusal { number: 13, line: 0, column: 0 };

impl Version {
    /// Told by the first two bytes of a file: c by `#c`, else d.
    pub(crate) fn told_by(bytes: &[u8]) -> Version {
        if bytes.starts_with(b"#c") {
            Version::C
        } else {
            Version::D
        }
    }

    pub(crate) fn letter(self) -> u8 {
        self.symbol().as_bytes()[1]
    }

    /// "exactly four comments"; rule 7: "Four or more".
    pub(crate) fn allows_more_than_four(self) -> bool {
        self == Version::D
    }

    /// "comment lines of at most 60 characters"; else "at most 80 characters".
    pub(crate) fn comment_width(self) -> usize {
        match self {
            Version::C => 60,
            Version::D => lines::WIDTH,
        }
    }

    /// "It has at most 80 characters", a comment line so many as its version allows; what
    /// kind a line is, is told by its first columns.
    fn width(self, text: &[u8]) -> usize {
        if text.starts_with(b"/*") {
            self.comment_width()
        } else {
            lines::WIDTH
        }
    }
}

/// The bytes and their version, where the next line begins, and how many lines lie before
/// it.
pub(crate) struct Lines<'a> {
    bytes: &'a [u8],
    version: Version,
    place: usize,
    taken: usize,
}

impl<'a> Lines<'a> {
    /// Lines of the version that these bytes tell.
    pub(crate) fn new(bytes: &'a [u8]) -> Lines<'a> {
        Lines::of(Version::told_by(bytes), bytes)
    }

    /// Lines of this version.
    pub(crate) fn of(version: Version, bytes: &'a [u8]) -> Lines<'a> {
        Lines { bytes, version, place: 0, taken: 0 }
    }

    /// "A line is the bytes up to the next LF." None where no LF is left.
    fn following(&self) -> Option<&'a [u8]> {
        let rest = &self.bytes[self.place..];
        let length = rest.iter().position(|&c| c == b'\n')?;
        Some(&rest[..length])
    }

    /// Whether the line that follows is of the kind with this symbol.
    fn next_is(&self, symbol: &str) -> bool {
        let text = self.following().unwrap_or_default();
        Line::padded(&text[..text.len().min(lines::WIDTH)]).begins(symbol)
    }

    /// A number that names no column.
    fn refuse<T>(&self, number: u8) -> Result<T, Refusal> {
        self.refuse_at(number, 0)
    }

    fn refuse_at<T>(&self, number: u8, column: usize) -> Result<T, Refusal> {
        Err(Refusal { number, line: self.taken, column })
    }

    /// The line that follows, if it may be a line at all (1, 2, 3).
    pub(crate) fn take(&mut self) -> Result<&'a [u8], Refusal> {
        self.taken += 1;
        let Some(text) = self.following() else {
            return self.refuse(NO_LF);
        };
        if let Some(place) = text.iter().position(|c| !(32..=126).contains(c)) {
            return self.refuse_at(WRONG_BYTE, place + 1);
        }
        let width = self.version.width(text);
        if text.len() > width {
            return self.refuse_at(TOO_LONG, width + 1);
        }
        self.place += text.len() + 1;
        Ok(text)
    }

    /// The record that must stand here (4 to 8 by its own columns), and
    /// `number` where what it holds isn't `right` here: "in a line the lowest".
    fn checked<T>(
        &mut self,
        read: impl FnOnce(&mut Reader) -> T,
        number: u8,
        right: impl FnOnce(&T) -> bool,
    ) -> Result<T, Refusal> {
        let mut reader = Reader::new(self.take()?);
        let record = read(&mut reader);
        match reader.deciding {
            Some(fault) => self.refuse_at(fault.number, fault.column),
            None if !right(&record) => self.refuse(number),
            None => Ok(record),
        }
    }

    fn record<T>(&mut self, read: impl FnOnce(&mut Reader) -> T) -> Result<T, Refusal> {
        self.checked(read, 0, |_| true)
    }
}

// ---------------------------------------------------------------------------
// Instants: whole numbers of 10^-8 s since MJD 0
// ---------------------------------------------------------------------------

pub(crate) const SECOND: i64 = 100_000_000;
pub(crate) const DAY: i64 = 86_400 * SECOND;
/// "44244 represents GPS zero time -- January 6, 1980"
pub(crate) const GPS_ZERO: i64 = 44_244;

/// MJD of a date from 1980 on: whole years, whole months, days.
pub(crate) fn modified_julian_day(date: lines::Date) -> i64 {
    let days_before_year: i64 = (1980..date.year).map(days_in_year).sum();
    let days_before_month: i64 = (1..date.month).map(|m| lines::days_in_month(date.year, m)).sum();
    GPS_ZERO - 5 + days_before_year + days_before_month + date.day - 1
}

fn days_in_year(year: i64) -> i64 {
    (1..=12).map(|month| lines::days_in_month(year, month)).sum()
}

pub(crate) fn time_of_day(moment: &Moment) -> i64 {
    (3600 * moment.hour + 60 * moment.minute) * SECOND + moment.seconds
}

fn instant(moment: &Moment) -> i64 {
    modified_julian_day(moment.date) * DAY + time_of_day(moment)
}

/// Rule 2: line two says again when the first line's start is.
fn line_two_agrees(two: &lines::LineTwo, start: i64) -> bool {
    let (day, time) = (start / DAY, start % DAY);
    let (week, day_of_week) = ((day - GPS_ZERO) / 7, (day - GPS_ZERO) % 7);
    two.week == week
        && two.seconds_of_week == day_of_week * DAY + time
        && two.modified_julian_day == day
        && (108 * two.fraction - 125 * time).abs() < 108
}

// ---------------------------------------------------------------------------
// The table of a file
// ---------------------------------------------------------------------------

/// How an unknown exponent is held.
pub(crate) const UNKNOWN: i64 = 1000;
/// How each number of a note is held that is unknown, and all ten where there is
/// no note.
pub(crate) const UNNOTED: i64 = 100_000_000;
/// The numbers of a row in the lent list: its own twelve, whether it has a note,
/// and the ten of the note.
pub(crate) const ROW_WIDTH: usize = 23;
/// So many places for identifiers are never too few.
pub(crate) const MOST_SATELLITES: usize = lines::MOST_SATELLITES as usize;

pub(crate) struct Row {
    pub(crate) letter: char,
    pub(crate) epoch: usize,
    pub(crate) satellite: usize,
    pub(crate) place: [i64; 3],
    pub(crate) clock: i64,
    pub(crate) exponents: [i64; 4],
    pub(crate) flags: [i64; 4],
    /// "A row now says whether such a record stood there."
    pub(crate) note: Option<Note>,
}

impl Row {
    /// "A place or velocity is absent exactly when all three are zero."
    pub(crate) fn place_is_absent(&self) -> bool {
        self.place == [0, 0, 0]
    }

    /// A clock or rate is absent exactly where it is held as its twelve nines.
    fn clock_is_absent(&self) -> bool {
        self.clock == ABSENT_CLOCK
    }

    /// The numbers of a row, its note's after its own.
    pub(crate) fn held(&self) -> Vec<i64> {
        let own = [&self.place[..], &[self.clock], &self.exponents, &self.flags].concat();
        [own, held_note(self.note)].concat()
    }
}

/// 1 and the ten numbers of a note, or 0 and ten that are unknown.
pub(crate) fn held_note(note: Option<Note>) -> Vec<i64> {
    let (mark, deviations, correlations) = match note {
        Some(note) => (1, note.deviations, note.correlations),
        None => (0, [None; 4], [None; 6]),
    };
    let fields = deviations.into_iter().chain(correlations);
    let numbers = fields.map(|field| field.unwrap_or(UNNOTED));
    std::iter::once(mark).chain(numbers).collect()
}

/// Comments are held as the stretches of the file where their texts lie.
#[derive(Default)]
pub(crate) struct Table {
    pub(crate) velocities: bool,
    pub(crate) start: i64,
    pub(crate) epochs: usize,
    pub(crate) interval: i64,
    pub(crate) texts: Vec<Vec<u8>>,
    pub(crate) identifiers: Vec<u64>,
    pub(crate) accuracies: Vec<u64>,
    pub(crate) file_type: u8,
    pub(crate) time_system: Vec<u8>,
    pub(crate) bases: [i64; 2],
    pub(crate) comments: Vec<Range<usize>>,
    pub(crate) rows: Vec<Row>,
    /// Taken for the identifiers of the header, where others are lent.
    lent: Option<Vec<u64>>,
    /// How many identifiers there is room for, where a list is lent for them.
    room: Option<usize>,
}

impl Table {
    fn satellites(&self) -> usize {
        self.identifiers.len()
    }

    /// The identifiers so far, or as many of those lent for them.
    fn known(&self) -> &[u64] {
        let names = self.lent.as_ref().unwrap_or(&self.identifiers);
        &names[..names.len().min(self.satellites())]
    }

    /// Identifiers, exponents, bytes of comments, numbers of rows.
    fn room_needed(&self) -> [usize; 4] {
        let n = self.satellites();
        [n, n, 77 * self.comments.len(), ROW_WIDTH * self.rows.len()]
    }
}

/// An identifier as one number: G07 is 7107.
fn code(identifier: &Identifier) -> u64 {
    u64::from(identifier.letter) * 100 + identifier.number as u64
}

pub(crate) fn show_code(code: u64) -> String {
    format!("{}{:02}", (code / 100) as u8 as char, code % 100)
}

// ---------------------------------------------------------------------------
// Records in order
// ---------------------------------------------------------------------------

/// Rules 1 and 2.
fn take_start(lines: &mut Lines, table: &mut Table) -> Result<(), Refusal> {
    let version = lines.version;
    let first = lines.record(|r| lines::read_first_line(r, version))?;
    table.velocities = first.mode == b"V";
    table.start = instant(&first.start);
    table.epochs = first.epochs as usize;
    table.texts = vec![first.data_used, first.coordinate_system, first.orbit_type, first.agency];
    let agrees = |two: &lines::LineTwo| line_two_agrees(two, table.start);
    let two = lines.checked(lines::read_line_two, DISAGREES, agrees)?;
    table.interval = two.interval;
    Ok(())
}

/// "exactly n / 17 rounded up, or five where that is less than five"
pub(crate) fn satellite_lines(n: usize) -> usize {
    n.div_ceil(lines::SLOTS).max(5)
}

/// "Identifiers are .. all different": those of this line among all so far.
pub(crate) fn all_new(known: &[u64], line: &lines::Satellites) -> bool {
    let mut all = known.to_vec();
    all.extend(line.identifiers.iter().map(code));
    (known.len()..all.len()).all(|place| !all[..place].contains(&all[place]))
}

/// Lays the identifiers of a line behind those before it: "lent room is too
/// small" where they don't fit, "after all other checks".
fn keep(lines: &Lines, table: &mut Table, line: &lines::Satellites) -> Result<(), Refusal> {
    let needed = table.satellites() + line.identifiers.len();
    if table.room.is_some_and(|room| room < needed) {
        return lines.refuse(NO_ROOM.number);
    }
    table.identifiers.extend(line.identifiers.iter().map(code));
    Ok(())
}

/// Rule 3: identifiers.
fn take_identifiers(lines: &mut Lines, table: &mut Table) -> Result<usize, Refusal> {
    let version = lines.version;
    let first = |r: &mut Reader| lines::read_first_satellites(r, version);
    let line = lines.checked(first, DISAGREES, |line| all_new(&[], line))?;
    let n = line.number.unwrap_or_default() as usize;
    keep(lines, table, &line)?;
    for _ in 1..satellite_lines(n) {
        let left = n - table.satellites();
        let further = |r: &mut Reader| lines::read_further_satellites(r, left);
        let line = lines.checked(further, DISAGREES, |line| all_new(table.known(), line))?;
        keep(lines, table, &line)?;
    }
    Ok(n)
}

/// Rules 3 and 4.
fn take_satellites(lines: &mut Lines, table: &mut Table) -> Result<(), Refusal> {
    let n = take_identifiers(lines, table)?;
    for _ in 0..satellite_lines(n) {
        let left = n - table.accuracies.len();
        let exponents = lines.record(|r| lines::read_accuracies(r, left))?;
        table.accuracies.extend(exponents.iter().map(|&exponent| exponent as u64));
    }
    Ok(())
}

/// "A type other than M needs all identifiers to begin with it."
pub(crate) fn type_agrees(file_type: u8, identifiers: &[u64]) -> bool {
    file_type == b'M' || identifiers.iter().all(|code| code / 100 == u64::from(file_type))
}

/// Rules 5 and 6.
fn take_fixed_lines(lines: &mut Lines, table: &mut Table) -> Result<(), Refusal> {
    let agrees = |line: &lines::FirstCharacters| type_agrees(line.file_type[0], table.known());
    let characters = lines.checked(lines::read_first_characters, DISAGREES, agrees)?;
    table.file_type = characters.file_type[0];
    table.time_system = characters.time_system;
    lines.record(lines::read_second_characters)?;
    let bases = lines.record(lines::read_first_floats)?;
    table.bases = [bases.position, bases.clock];
    lines.record(lines::read_second_floats)?;
    lines.record(lines::read_integers)?;
    lines.record(lines::read_integers)
}

/// Where the text of a comment lies in its line: from column 4 on without
/// trailing blanks; at the end of a line that is shorter.
fn comment_text(line: &[u8]) -> Range<usize> {
    let first = line.len().min(3);
    first..without_trailing_blanks(line).len().max(first)
}

/// Rule 7: "Four or more comments"; in a c file "a fifth comment 4".
fn take_comments(lines: &mut Lines, table: &mut Table) -> Result<(), Refusal> {
    let more = lines.version.allows_more_than_four();
    while table.comments.len() < 4 || more && lines.next_is("/*") {
        let begin = lines.place;
        lines.record(lines::read_comment)?;
        let text = comment_text(&lines.bytes[begin..lines.place - 1]);
        table.comments.push(begin + text.start..begin + text.end);
    }
    Ok(())
}

/// Rule 8: "epoch k, counted from 0, is the start plus k times the interval, exactly".
fn take_epochs(lines: &mut Lines, table: &mut Table) -> Result<(), Refusal> {
    for epoch in 0..table.epochs {
        let wanted = table.start + epoch as i64 * table.interval;
        lines.checked(lines::read_epoch, WRONG_INSTANT, |moment| instant(moment) == wanted)?;
        for satellite in 0..table.satellites() {
            take_satellite(lines, table, epoch, satellite)?;
        }
    }
    Ok(())
}

/// Rule 9: "P, then one EP at most; in mode V then V, and one EV at most".
fn take_satellite(
    lines: &mut Lines,
    table: &mut Table,
    epoch: usize,
    satellite: usize,
) -> Result<(), Refusal> {
    let here = table.known().get(satellite).copied();
    let named = |line: &lines::Position| Some(code(&line.row.identifier)) == here;
    let line = lines.checked(lines::read_position, OTHER_SATELLITE, named)?;
    let flags = line.flags.map(|flag| i64::from(flag != b" "));
    table.rows.push(make_row('P', epoch, satellite, &line.row, flags));
    take_note(lines, table, EP)?;
    if table.velocities {
        let named = |row: &lines::Row| Some(code(&row.identifier)) == here;
        let row = lines.checked(lines::read_velocity, OTHER_SATELLITE, named)?;
        table.rows.push(make_row('V', epoch, satellite, &row, [0; 4]));
        take_note(lines, table, EV)?;
    }
    Ok(())
}

/// "one EP at most": what it says belongs to the row that was taken last.
fn take_note(lines: &mut Lines, table: &mut Table, symbol: &str) -> Result<(), Refusal> {
    if lines.next_is(symbol) {
        let note = lines.record(|r| lines::read_note(r, symbol))?;
        if let Some(row) = table.rows.last_mut() {
            row.note = Some(note);
        }
    }
    Ok(())
}

fn make_row(
    letter: char,
    epoch: usize,
    satellite: usize,
    row: &lines::Row,
    flags: [i64; 4],
) -> Row {
    let [x, y, z, clock] = row.numbers;
    let exponents = row.exponents.map(|exponent| match exponent {
        Exponent::Known(value) => value,
        Exponent::Unknown => UNKNOWN,
    });
    Row { letter, epoch, satellite, place: [x, y, z], clock, exponents, flags, note: None }
}

// ---------------------------------------------------------------------------
// Judging and reading
// ---------------------------------------------------------------------------

/// What an accepted file holds, and its length in bytes; or its refusal.
pub(crate) type Judged = Result<(Table, usize), Refusal>;

/// The lines of some bytes read one by one, up to EOF or the first refused.
pub(crate) struct Followed {
    /// What the lines before it hold.
    pub(crate) table: Table,
    /// How many lines were read, the last of them too.
    pub(crate) taken: usize,
    pub(crate) refusal: Option<Refusal>,
    /// Where the line after them begins.
    pub(crate) place: usize,
}

/// The records 1 to 10 in order, with these names for the identifiers of the
/// header where they are given.
pub(crate) fn follow(bytes: &[u8], names: Option<&[u64]>) -> Followed {
    let lent = names.map(<[u64]>::to_vec);
    follow_with(bytes, Table { lent, ..Table::default() })
}

/// The records in order, whose identifiers are kept in a list of so many
/// places: 12 at the `+ ` line that brings more than fit.
pub(crate) fn follow_keeping(bytes: &[u8], room: usize) -> Followed {
    follow_with(bytes, Table { room: Some(room), ..Table::default() })
}

fn follow_with(bytes: &[u8], mut table: Table) -> Followed {
    let mut lines = Lines::new(bytes);
    let refusal = take_records(&mut lines, &mut table).err();
    Followed { table, taken: lines.taken, refusal, place: lines.place }
}

fn take_records(lines: &mut Lines, table: &mut Table) -> Result<(), Refusal> {
    take_start(lines, table)?;
    take_satellites(lines, table)?;
    take_fixed_lines(lines, table)?;
    take_comments(lines, table)?;
    take_epochs(lines, table)?;
    lines.record(lines::read_end)
}

/// One file at the front of a stretch.
pub(crate) fn judge_front(stretch: &[u8]) -> Judged {
    let read = follow(stretch, None);
    read.refusal.map_or(Ok((read.table, read.place)), Err)
}

/// The bytes as one file: 11 if any follow, "and the line is the one after EOF".
pub(crate) fn judge(file: &[u8]) -> Judged {
    let read = follow(file, None);
    let after = Refusal { number: BYTES_AFTER, line: read.taken + 1, column: 0 };
    let more = (read.place < file.len()).then_some(after);
    read.refusal.or(more).map_or(Ok((read.table, read.place)), Err)
}

/// The lists that are lent for a reading.
#[derive(Clone, Default)]
pub(crate) struct Lent {
    pub(crate) identifiers: Vec<u64>,
    pub(crate) exponents: Vec<u64>,
    pub(crate) comments: Vec<u8>,
    pub(crate) rows: Vec<i64>,
}

impl Lent {
    /// Rooms of these lengths, with a mark in every place.
    pub(crate) fn marked([identifiers, exponents, comments, rows]: [usize; 4]) -> Lent {
        Lent {
            identifiers: vec![7777; identifiers],
            exponents: vec![7777; exponents],
            comments: vec![b'#'; comments],
            rows: vec![-7; rows],
        }
    }

    fn rooms(&self) -> [usize; 4] {
        [self.identifiers.len(), self.exponents.len(), self.comments.len(), self.rows.len()]
    }

    fn fill(&mut self, table: &Table, file: &[u8]) {
        let n = table.satellites();
        self.identifiers[..n].copy_from_slice(&table.identifiers);
        self.exponents[..n].copy_from_slice(&table.accuracies);
        for (place, stretch) in self.comments.chunks_mut(77).zip(&table.comments) {
            let text = &file[stretch.clone()];
            place.fill(b' ');
            place[..text.len()].copy_from_slice(text);
        }
        for (place, row) in self.rows.chunks_mut(ROW_WIDTH).zip(&table.rows) {
            place.copy_from_slice(&row.held());
        }
    }

    /// Sums over all places, filled or not.
    fn sums(&self) -> [u64; 4] {
        let step = |sum: u64, value: u64| sum.wrapping_mul(31).wrapping_add(value);
        let of_row =
            |sum, &value: &i64| step(step(sum, value.unsigned_abs()), u64::from(value < 0));
        [
            self.identifiers.iter().fold(0, |sum, &value| step(sum, value)),
            self.exponents.iter().fold(0, |sum, &value| step(sum, value)),
            self.comments.iter().fold(0, |sum, &value| step(sum, u64::from(value))),
            self.rows.iter().fold(0, of_row),
        ]
    }
}

/// Lays an accepted file into the lent lists; "12 comes after all other checks".
/// Gives the length of the file.
fn lay(judged: &Judged, file: &[u8], lent: &mut Lent) -> Result<usize, Refusal> {
    let (table, length) = judged.as_ref().map_err(|refusal| *refusal)?;
    let short = lent.rooms().iter().zip(table.room_needed()).any(|(&room, need)| room < need);
    if short {
        return Err(NO_ROOM);
    }
    lent.fill(table, file);
    Ok(*length)
}

pub(crate) fn read(file: &[u8], lent: &mut Lent) -> Result<usize, Refusal> {
    lay(&judge(file), file, lent)
}

fn read_front(stretch: &[u8], lent: &mut Lent) -> Result<usize, Refusal> {
    lay(&judge_front(stretch), stretch, lent)
}

// ---------------------------------------------------------------------------
// Questions: "A question about a file gives the file's own refusal first."
// ---------------------------------------------------------------------------

fn comment_answer(file: &[u8], k: usize) -> Result<Range<usize>, Refusal> {
    let (table, _) = judge(file)?;
    table.comments.get(k).cloned().ok_or(NOT_THERE)
}

fn satellite_of(file: &[u8], code: u64) -> Result<usize, Refusal> {
    let (table, _) = judge(file)?;
    table.identifiers.iter().position(|&other| other == code).ok_or(NOT_THERE)
}

/// "in mode V too this is the P row"
pub(crate) fn row(file: &[u8], epoch: usize, satellite: usize) -> Result<Row, Refusal> {
    let (table, _) = judge(file)?;
    let asked = |row: &Row| (row.letter, row.epoch, row.satellite) == ('P', epoch, satellite);
    table.rows.into_iter().find(asked).ok_or(NOT_THERE)
}

// ---------------------------------------------------------------------------
// Cases and their answers
// ---------------------------------------------------------------------------

/// What another implementation is compared on: a file with questions here, a
/// file or a table to be written in `forms.rs`, a stretch in `divide.rs`.
pub(crate) trait Compared {
    /// The words of an answer that have a number of the paper's table after
    /// them.
    const COUNTED: &'static [&'static str];

    /// The case as it stands in a batch.
    fn show(&self) -> Vec<u8>;

    fn answer(&self) -> String;
}

#[derive(Clone, Default)]
struct Case {
    file: Vec<u8>,
    /// I, X, C, R
    rooms: [usize; 4],
    /// K, E, S, N
    asked: [usize; 4],
}

/// The program under test has arrays of these lengths: one more than there can be
/// satellites, and 1,000 rows. A file is given to it up to so many bytes.
pub(crate) const MOST_BYTES: usize = 75_000;
pub(crate) const MOST_ROOMS: [usize; 4] = [1000, 1000, 8000, 23_000];
const MOST_NUMBER: usize = 999_999_999;

impl Compared for Case {
    const COUNTED: &'static [&'static str] =
        &["front", "whole", "read", "read_front", "comment", "satellite", "row"];

    fn show(&self) -> Vec<u8> {
        let numbers = [&[self.file.len()], &self.rooms[..], &self.asked[..]].concat();
        let words: Vec<String> = numbers.iter().map(usize::to_string).collect();
        let mut shown = words.join(" ").into_bytes();
        shown.push(b'\n');
        shown.extend(&self.file);
        shown
    }

    fn answer(&self) -> String {
        let file = &self.file[..];
        let front = judge_front(file);
        let whole = judge(file);
        let mut out = format!("case {}\n", file.len());
        out += &format!("front {}\n", self.told_reading(&length_of(&front)));
        out += &format!("whole {}\n", self.told_reading(&length_of(&whole)));
        let mut lent = Lent::marked(self.rooms);
        let answer = read(file, &mut lent);
        out += &format!("read {}\n{}", self.told_reading(&answer), show_sums(&lent));
        if let (Ok(_), Ok((table, _))) = (&answer, &whole) {
            out += &show_table(table, file);
        }
        let mut lent = Lent::marked(self.rooms);
        let answer = read_front(file, &mut lent);
        out += &format!("read_front {}\n{}", self.told_reading(&answer), show_sums(&lent));
        out + &self.show_questions()
    }
}

impl Case {
    /// A reading's answer, and the version.
    fn told_reading(&self, answer: &Result<usize, Refusal>) -> String {
        format!("{} {}", told(answer), show_version(&self.file, answer.is_ok()))
    }

    fn show_questions(&self) -> String {
        let (file, [k, epoch, satellite, code]) = (&self.file[..], self.asked);
        let comment = show_comment(comment_answer(file, k), file);
        let satellite_number = told(&satellite_of(file, code as u64));
        let row = show_row_answer(row(file, epoch, satellite));
        format!("comment {comment}\nsatellite {satellite_number}\nrow {row}\n")
    }
}

fn length_of(judged: &Judged) -> Result<usize, Refusal> {
    judged.as_ref().map(|(_, length)| *length).map_err(|refusal| *refusal)
}

/// The refusal, its line and column, and a number that is 0 beside a refusal.
fn told(answer: &Result<usize, Refusal>) -> String {
    match answer {
        Ok(number) => format!("0 0 0 {number}"),
        Err(refusal) => format!("{} 0", refusal.show()),
    }
}

/// "reading tells it": the version of an accepted file, a blank beside a refusal.
pub(crate) fn show_version(file: &[u8], accepted: bool) -> String {
    let letter = if accepted { Version::told_by(file).letter() } else { b' ' };
    format!("|{}|", letter as char)
}

fn show_sums(lent: &Lent) -> String {
    let [identifiers, exponents, comments, rows] = lent.sums();
    format!("sums {identifiers} {exponents} {comments} {rows}\n")
}

fn show_comment(answer: Result<Range<usize>, Refusal>, file: &[u8]) -> String {
    match answer {
        Ok(at) => format!("0 0 0 {} {} |{}|", at.start, at.len(), show_text(&file[at.clone()])),
        Err(refusal) => format!("{} 0 0 ||", refusal.show()),
    }
}

fn show_row_answer(answer: Result<Row, Refusal>) -> String {
    match answer {
        Ok(row) => format!("0 0 0 {} {}", show_place(&row), show_clock(&row)),
        Err(refusal) => format!("{} absent absent", refusal.show()),
    }
}

pub(crate) fn show_text(text: &[u8]) -> String {
    String::from_utf8_lossy(text).into_owned()
}

pub(crate) fn show_place(row: &Row) -> String {
    let [x, y, z] = row.place;
    if row.place_is_absent() {
        "absent".to_string()
    } else {
        format!("{x} {y} {z}")
    }
}

pub(crate) fn show_clock(row: &Row) -> String {
    if row.clock_is_absent() {
        "absent".to_string()
    } else {
        row.clock.to_string()
    }
}

/// "An exponent of 99 (or 999 for the clock) means too large."
fn show_exponent(exponent: i64, large: i64) -> String {
    match exponent {
        UNKNOWN => "unknown".to_string(),
        _ if exponent == large => "large".to_string(),
        _ => exponent.to_string(),
    }
}

/// "largest meaning too large", "blank for unknown"; a correlation is never too
/// large.
fn show_noted(value: Option<i64>, large: Option<i64>) -> String {
    match value {
        None => " unknown".to_string(),
        Some(_) if value == large => " large".to_string(),
        Some(number) => format!(" {number}"),
    }
}

fn show_note(note: &Note) -> String {
    let [x, y, z, clock] = note.deviations;
    let deviations = [(x, 9999), (y, 9999), (z, 9999), (clock, 9_999_999)];
    let deviations = deviations.map(|(value, large)| show_noted(value, Some(large)));
    let correlations = note.correlations.map(|value| show_noted(value, None));
    format!(" note{}{}", deviations.concat(), correlations.concat())
}

fn show_row(row: &Row, table: &Table) -> String {
    let [x, y, z, clock] = row.exponents;
    let exponents =
        [(x, 99), (y, 99), (z, 99), (clock, 999)].map(|(e, large)| show_exponent(e, large));
    let flags = row.flags.iter().zip("EPMP".chars());
    let flags: String = flags.map(|(&flag, letter)| if flag == 1 { letter } else { '.' }).collect();
    format!(
        "{} {} {} {} {} {} {flags}{}\n",
        row.letter,
        row.epoch,
        show_code(table.identifiers[row.satellite]),
        show_place(row),
        show_clock(row),
        exponents.join(" "),
        row.note.as_ref().map_or(String::new(), show_note),
    )
}

fn show_header(table: &Table) -> String {
    let texts: String = table.texts.iter().map(|text| show_text(text) + "|").collect();
    let mut out = format!("mode {}\n", if table.velocities { 'V' } else { 'P' });
    out += &format!("start8 {}\n", table.start);
    out += &format!("epochs {}\n", table.epochs);
    out += &format!("interval8 {}\n", table.interval);
    out += &format!("texts |{texts}\n");
    out += &format!("type {}\n", table.file_type as char);
    out += &format!("time {}\n", show_text(&table.time_system));
    out + &format!("bases {} {}\n", table.bases[0], table.bases[1])
}

fn show_table(table: &Table, file: &[u8]) -> String {
    let mut out = show_header(table);
    out += &format!("satellites {}\n", table.satellites());
    for (&identifier, accuracy) in table.identifiers.iter().zip(&table.accuracies) {
        out += &format!("{} {accuracy}\n", show_code(identifier));
    }
    out += &format!("comments {}\n", table.comments.len());
    for text in &table.comments {
        out += &format!("|{}|\n", show_text(&file[text.clone()]));
    }
    for row in &table.rows {
        out += &show_row(row, table);
    }
    let absent = table.rows.iter().filter(|row| row.place_is_absent()).count();
    let known = table.rows.len() - absent;
    out + &format!("rows {} known {known} absent {absent}\n", table.rows.len())
}

// ---------------------------------------------------------------------------
// Batches
// ---------------------------------------------------------------------------

/// The numbers of a case's line, and how many bytes it has with its LF.
fn parse_numbers(bytes: &[u8]) -> Option<(Vec<usize>, usize)> {
    let length = bytes.iter().position(|&c| c == b'\n')?;
    let words = std::str::from_utf8(&bytes[..length]).ok()?.split(' ');
    let numbers: Option<Vec<usize>> = words.map(|word| word.parse().ok()).collect();
    Some((numbers?, length + 1))
}

/// Cases that are each a line of numbers and then so many bytes as `length_of`
/// finds among the numbers; none where they are no case.
pub(crate) fn parse_cases<C>(
    mut bytes: &[u8],
    length_of: fn(&[usize]) -> Option<usize>,
    case_of: fn(&[usize], Vec<u8>) -> C,
) -> Vec<C> {
    let mut cases = Vec::new();
    while !bytes.is_empty() {
        let place = cases.len() + 1;
        let line = parse_numbers(bytes);
        let Some((numbers, line, length)) =
            line.and_then(|(numbers, line)| length_of(&numbers).map(|n| (numbers, line, n)))
        else {
            fail(&format!("case {place} has no line of its numbers"));
        };
        let Some(body) = bytes.get(line..).and_then(|rest| rest.get(..length)) else {
            fail(&format!("case {place} ends too early"));
        };
        cases.push(case_of(&numbers, body.to_vec()));
        bytes = &bytes[line + length..];
    }
    cases
}

fn parse_batch(bytes: &[u8]) -> Vec<Case> {
    let nine = |numbers: &[usize]| (numbers.len() == 9).then(|| numbers[0]);
    parse_cases(bytes, nine, |numbers, file| Case {
        file,
        rooms: std::array::from_fn(|place| numbers[1 + place]),
        asked: std::array::from_fn(|place| numbers[5 + place]),
    })
}

pub(crate) fn show_batch<C: Compared>(cases: &[C]) -> Vec<u8> {
    cases.iter().flat_map(C::show).collect()
}

pub(crate) fn answers<C: Compared>(cases: &[C]) -> String {
    cases.iter().map(C::answer).collect()
}

// ---------------------------------------------------------------------------
// Drafts: files as lines that can be altered
// ---------------------------------------------------------------------------

/// Lines with their LF; bytes after the EOF line are one more.
#[derive(Clone, Default)]
pub(crate) struct Draft(pub(crate) Vec<Vec<u8>>);

impl Draft {
    fn of(lines: &[&str]) -> Draft {
        Draft(lines.iter().map(|line| format!("{line}\n").into_bytes()).collect())
    }

    pub(crate) fn bytes(&self) -> Vec<u8> {
        self.0.concat()
    }

    /// Puts bytes into line `line` at column `column`, both counted from 1;
    /// the line is lengthened by blanks where needed.
    pub(crate) fn put(&mut self, line: usize, column: usize, bytes: &[u8]) {
        let Some(text) = self.0.get_mut(line - 1) else {
            return;
        };
        let ended = text.last() == Some(&b'\n');
        if ended {
            text.pop();
        }
        let end = column - 1 + bytes.len();
        if text.len() < end {
            text.resize(end, b' ');
        }
        text[column - 1..end].copy_from_slice(bytes);
        if ended {
            text.push(b'\n');
        }
    }

    /// Puts a whole line before line `line`.
    fn insert(&mut self, line: usize, text: &[u8]) {
        let place = (line - 1).min(self.0.len());
        self.0.insert(place, [text, b"\n"].concat());
    }

    fn drop_line(&mut self, line: usize) {
        if line <= self.0.len() {
            self.0.remove(line - 1);
        }
    }

    fn double_line(&mut self, line: usize) {
        if let Some(text) = self.0.get(line - 1).cloned() {
            self.0.insert(line, text);
        }
    }

    fn swap_lines(&mut self, one: usize, other: usize) {
        if one.max(other) <= self.0.len() {
            self.0.swap(one - 1, other - 1);
        }
    }

    /// Takes the last byte of a line away: its LF.
    fn lose_end(&mut self, line: usize) {
        if let Some(text) = self.0.get_mut(line - 1) {
            text.pop();
        }
    }

    /// Only the first `length` columns of a line stay.
    fn cut(&mut self, line: usize, length: usize) {
        if let Some(text) = self.0.get_mut(line - 1).filter(|text| text.len() > length) {
            text.truncate(length);
            text.push(b'\n');
        }
    }

    /// Numbers of the lines that begin with the symbol.
    fn lines_of(&self, symbol: &str) -> Vec<usize> {
        let begins = |line: &usize| self.0[line - 1].starts_with(symbol.as_bytes());
        (1..=self.0.len()).filter(begins).collect()
    }
}

// ---------------------------------------------------------------------------
// Files made by hand
// ---------------------------------------------------------------------------

const NO_SATELLITES: &str = "+          0  0  0  0  0  0  0  0  0  0  0  0  0  0  0  0  0";
const NO_ACCURACIES: &str = "++         0  0  0  0  0  0  0  0  0  0  0  0  0  0  0  0  0";
const SECOND_CHARACTERS: &str = "%c cc cc ccc ccc cccc cccc cccc cccc ccccc ccccc ccccc ccccc";
const FIRST_FLOATS: &str = "%f  1.2500000  1.025000000  0.00000000000  0.000000000000000";
const SECOND_FLOATS: &str = "%f  0.0000000  0.000000000  0.00000000000  0.000000000000000";
const INTEGERS: &str = "%i    0    0    0    0      0      0      0      0         0";

/// The 22 lines before the first epoch: those given are 1, 2, 3, 8 and 13.
fn header(
    [first, two, satellites, accuracies, characters]: [&'static str; 5],
) -> Vec<&'static str> {
    let mut lines = vec![first, two, satellites];
    lines.extend([NO_SATELLITES; 4]);
    lines.push(accuracies);
    lines.extend([NO_ACCURACIES; 4]);
    lines.extend([characters, SECOND_CHARACTERS, FIRST_FLOATS, SECOND_FLOATS]);
    lines.extend([INTEGERS, INTEGERS, "/* ONE ROW", "/*", "/*", "/*"]);
    lines
}

/// The paper's "One file whole", 25 lines.
pub(crate) fn paper_file() -> Draft {
    let mut lines = header([
        "#dP2013  4  3  0  0  0.00000000       1 ORBIT WGS84 BCT PORT",
        "## 1734 259200.00000000   900.00000000 56385 0.0000000000000",
        "+    1   G07  0  0  0  0  0  0  0  0  0  0  0  0  0  0  0  0",
        NO_ACCURACIES,
        "%c G  cc GPS ccc cccc cccc cccc cccc ccccc ccccc ccccc ccccc",
    ]);
    lines.extend([
        "*  2013  4  3  0  0  0.00000000",
        "PG07   5000.000001     -0.500000      0.000000 999999.999999",
        "EOF",
    ]);
    Draft::of(&lines)
}

/// Two satellites and three epochs across midnight at the end of a year; 32 lines.
fn night_file() -> Draft {
    let mut lines = header([
        "#dP2012 12 31 23 45  0.00000000       3 u+U   IGS08 FIT  NGS",
        "## 1721 171900.00000000   900.00000000 56292 0.9895833333333",
        "+    2   G07R24  0  0  0  0  0  0  0  0  0  0  0  0  0  0  0",
        "++         5 13  0  0  0  0  0  0  0  0  0  0  0  0  0  0  0",
        "%c M  cc UTC ccc cccc cccc cccc cccc ccccc ccccc ccccc ccccc",
    ]);
    lines.extend([
        "*  2012 12 31 23 45  0.00000000",
        "PG07  15000.000000 -20000.500000      0.000000    123.456789",
        "PR24      0.000000      0.000000      0.000000 999999.999999",
        "*  2013  1  1  0  0  0.00000000",
        "PG07      0.000000      0.000000      0.000000     -0.000001 18 18 18 219 EP  MP",
        "PR24      0.000000      0.000000      0.000001 999999.999999 99 99 99 999",
        "*  2013  1  1  0 15  0.00000000",
        "PG07     -0.500000     -0.000000      0.000000 999999.000000",
        "PR24 999999.999999-999999.999999 999999.999999-999999.999999  0     9   7     M",
        "EOF",
    ]);
    Draft::of(&lines)
}

/// Mode V with an EP and an EV, from the document's Example 2; 30 lines.
fn motion_file() -> Draft {
    let mut lines = header([
        "#dV2001  8  8  0  0  0.00000000       1 ORBIT IGS97 HLM MGEX",
        "## 1126 259200.00000000   900.00000000 52129 0.0000000000000",
        "+    2   G01G02  0  0  0  0  0  0  0  0  0  0  0  0  0  0  0",
        "++         7  8  0  0  0  0  0  0  0  0  0  0  0  0  0  0  0",
        "%c G  cc GPS ccc cccc cccc cccc cccc ccccc ccccc ccccc ccccc",
    ]);
    lines.extend([
        "*  2001  8  8  0  0  0.00000000",
        "PG01 -11044.805800 -10475.672350  21929.418200    189.163300 18 18 18 219",
        "EP    55   55   55     222  1234567 -1234567  5999999      -30       21 -1230000",
        "VG01  20298.880364 -18462.044804   1381.387685     -4.534317 14 14 14 191",
        "EV    22   22   22     111  1234567  1234567  1234567  1234567  1234567  1234567",
        "PG02 -12593.593500  10170.327650 -20354.534400    -55.976000 18 18 18 219     M",
        "VG02      0.000000      0.000000      0.000000 999999.999999",
        "EOF",
    ]);
    Draft::of(&lines)
}

/// Two satellites and two epochs, 29 lines. The rows: every column that has a
/// use is filled; nothing is known; minus signs and some exponents; zeros
/// before the digits.
fn rows_file() -> Draft {
    let mut lines = header([
        "#dP2013  4  3  0  0  0.00000000       2 ORBIT WGS84 BCT PORT",
        "## 1734 259200.00000000   900.00000000 56385 0.0000000000000",
        "+    2   G07R20  0  0  0  0  0  0  0  0  0  0  0  0  0  0  0",
        NO_ACCURACIES,
        "%c M  cc GPS ccc cccc cccc cccc cccc ccccc ccccc ccccc ccccc",
    ]);
    lines.extend([
        "*  2013  4  3  0  0  0.00000000",
        "PG07 123456.789012 234567.890123 999999.999999 987654.321098 18 99 07 219 EP  MP",
        "PR20      0.000000      0.000000      0.000000 999999.999999",
        "*  2013  4  3  0 15  0.00000000",
        "PG07 -00012.500000 -23456.789012  -3456.789012     -0.000001  5    99   7  P",
        "PR20 000012.500000      1.000000     -0.500000 999999.999999  0  1 10  12      P",
        "EOF",
    ]);
    Draft::of(&lines)
}

/// The same rows without a clock but for its six nines: nothing after their point
/// but exponents and flags; the line cut there; zeros; other digits.
fn clocks_file() -> Draft {
    let mut draft = rows_file();
    draft.put(24, 47, b" 999999.      ");
    draft.cut(25, 54);
    draft.put(27, 47, b" 999999.000000");
    draft.put(28, 47, b"0999999.123456");
    draft
}

/// A file in mode V, 33 lines of 29: each P has the V of its columns after it.
fn moving(mut draft: Draft) -> Draft {
    draft.put(1, 3, b"V");
    for line in draft.lines_of("P").into_iter().rev() {
        let row = &draft.0[line - 1];
        let columns = row[1..row.len().min(73)].trim_ascii_end();
        draft.insert(line + 1, &[b"V", columns].concat());
    }
    draft
}

/// What stands from column 3 on in notes: every column that has a use is filled;
/// nothing is known; a part is known, with the largest numbers; zeros, minus
/// signs and minus zero.
const NOTES: [&str; 4] = [
    "  1234 5678 9012 3456789 -1234567 09999999 -9999999 01234567 -0000021 08765432",
    "",
    "  9999           9999999  9999999          -9999999",
    "  0055    0 1000       0       -0      -30        0 00000000      -21 -1230000",
];

/// A file with a note after each row: the rows of a satellite have the same.
fn with_notes(mut draft: Draft) -> Draft {
    let mut rows = [draft.lines_of("P"), draft.lines_of("V")].concat();
    rows.sort();
    let times = rows.len() / NOTES.len();
    for (place, &line) in rows.iter().enumerate().rev() {
        let letter = draft.0[line - 1][0] as char;
        draft.insert(line + 1, format!("E{letter}{}", NOTES[place / times]).as_bytes());
    }
    draft
}

/// The first `n` identifiers of G01 to G99, R01 to R99 and so on; those of a letter
/// are 99, so that 999 satellites have eleven letters.
fn letter_by_letter(n: usize) -> Vec<String> {
    let identifier = |place: usize| format!("{}{:02}", LETTERS[place / 99] as char, place % 99 + 1);
    (0..n).map(identifier).collect()
}

const LETTERS: &[u8; 11] = b"GRECJISLAMZ";

/// G01, R01, E01 and so on up to Z01, then G02.
fn over_the_letters(n: usize) -> Vec<String> {
    let letter = |place: usize| LETTERS[place % LETTERS.len()] as char;
    (0..n).map(|place| format!("{}{:02}", letter(place), place / LETTERS.len() + 1)).collect()
}

/// The paper's file with these satellites, of type M.
fn many_file(identifiers: &[String]) -> Draft {
    let n = identifiers.len();
    let filler = || "  0".to_string();
    let mut draft = paper_file();
    let number = satellite_lines(n);
    draft.0.splice(2..12, std::iter::empty());
    for line in 0..number {
        let places = 17 * line..17 * line + 17;
        let name = |p: usize| identifiers.get(p).cloned().unwrap_or_else(filler);
        let exponent = |p| if p < n { format!("{:3}", p * 7 % 1000) } else { filler() };
        let names: String = places.clone().map(name).collect();
        let exponents: String = places.map(exponent).collect();
        draft.insert(3 + line, format!("+        {names}").as_bytes());
        draft.insert(4 + 2 * line, format!("++       {exponents}").as_bytes());
    }
    draft.put(3, 4, format!("{n:3}").as_bytes());
    draft.put(3 + 2 * number, 4, b"M");
    let first_row = 3 + 2 * number + 11;
    draft.drop_line(first_row);
    for (place, identifier) in identifiers.iter().enumerate() {
        let text =
            format!("P{identifier}{place:7}.000001     -0.500000      0.000000      1.000000");
        draft.insert(first_row + place, text.as_bytes());
    }
    draft
}

/// The paper's file with `count` comments, `/* COMMENT 0` and so on.
fn talkative_file(count: usize) -> Draft {
    let mut draft = paper_file();
    draft.0.splice(18..22, std::iter::empty());
    for number in 0..count {
        draft.insert(19 + number, format!("/* COMMENT {number}").as_bytes());
    }
    draft
}

/// What a file made by hand begins with.
#[derive(Clone, Copy, Debug)]
pub(crate) enum Base {
    Nothing,
    Paper,
    Night,
    Motion,
    Rows,
    /// `Rows` in version c.
    OlderRows,
    MovingRows,
    Clocks,
    MovingClocks,
    /// `Rows` and `MovingRows` with notes: 33 lines, 41 in mode V.
    Notes,
    MovingNotes,
    /// So many satellites: letter by letter, the same backwards, over the letters,
    /// and letter by letter in mode V.
    Many(usize),
    ManyBackwards(usize),
    ManyOverLetters(usize),
    MovingMany(usize),
    Talkative(usize),
}

/// What is done to it then; lines and columns are counted from 1.
#[derive(Clone, Copy, Debug)]
pub(crate) enum Edit {
    Put(usize, usize, &'static str),
    Byte(usize, usize, u8),
    Line(usize, &'static str),
    Insert(usize, &'static str),
    Drop(usize),
    Double(usize),
    Swap(usize, usize),
    /// The LF of this line is taken away.
    Join(usize),
    /// Only so many lines stay.
    Keep(usize),
    After(&'static [u8]),
    AfterMany(u8, usize),
    AfterItself,
    /// CR before the LF of each line.
    CarriageReturns,
}

pub(crate) fn base_file(base: Base) -> Draft {
    match base {
        Base::Nothing => Draft::default(),
        Base::Paper => paper_file(),
        Base::Night => night_file(),
        Base::Motion => motion_file(),
        Base::Rows => rows_file(),
        Base::OlderRows => {
            let mut draft = rows_file();
            draft.put(1, 2, b"c");
            draft
        }
        Base::MovingRows => moving(rows_file()),
        Base::Clocks => clocks_file(),
        Base::MovingClocks => moving(clocks_file()),
        Base::Notes => with_notes(rows_file()),
        Base::MovingNotes => with_notes(moving(rows_file())),
        Base::Many(n) => many_file(&letter_by_letter(n)),
        Base::ManyBackwards(n) => {
            let backwards: Vec<String> = letter_by_letter(n).into_iter().rev().collect();
            many_file(&backwards)
        }
        Base::ManyOverLetters(n) => many_file(&over_the_letters(n)),
        Base::MovingMany(n) => moving(many_file(&letter_by_letter(n))),
        Base::Talkative(count) => talkative_file(count),
    }
}

fn apply(draft: &mut Draft, edit: Edit) {
    match edit {
        Edit::Put(line, column, text) => draft.put(line, column, text.as_bytes()),
        Edit::Byte(line, column, byte) => draft.put(line, column, &[byte]),
        Edit::Line(line, text) => draft.0[line - 1] = format!("{text}\n").into_bytes(),
        Edit::Insert(line, text) => draft.insert(line, text.as_bytes()),
        Edit::Drop(line) => draft.drop_line(line),
        Edit::Double(line) => draft.double_line(line),
        Edit::Swap(one, other) => draft.swap_lines(one, other),
        Edit::Join(line) => draft.lose_end(line),
        Edit::Keep(count) => draft.0.truncate(count),
        Edit::After(bytes) => draft.0.push(bytes.to_vec()),
        Edit::AfterMany(byte, count) => draft.0.push(vec![byte; count]),
        Edit::AfterItself => draft.0.push(draft.bytes()),
        Edit::CarriageReturns => {
            for line in &mut draft.0 {
                line.insert(line.len() - 1, b'\r');
            }
        }
    }
}

pub(crate) fn hand_made(base: Base, edits: &[Edit]) -> Vec<u8> {
    let mut draft = base_file(base);
    edits.iter().for_each(|&edit| apply(&mut draft, edit));
    draft.bytes()
}

// ---------------------------------------------------------------------------
// Answers worked out by hand
// ---------------------------------------------------------------------------

use Base::{Clocks, Many, ManyBackwards, ManyOverLetters, Motion, MovingClocks, MovingMany};
use Base::{MovingNotes, MovingRows, Night, Notes, Nothing, OlderRows, Paper, Rows, Talkative};
use Edit::{
    After, AfterItself, AfterMany, Byte, CarriageReturns, Double, Drop, Insert, Join, Keep,
    Line as Whole, Put, Swap,
};

type Hand = (Base, &'static [Edit], u8, usize, usize);

/// A file, and its refusal, line and column as a whole file by the documents.
const HAND: &[Hand] = &[
    // 0: the files as they stand.
    (Paper, &[], 0, 0, 0),
    (Night, &[], 0, 0, 0),
    (Motion, &[], 0, 0, 0),
    // 1: no LF is left. "No bytes: 1, line 1."
    (Nothing, &[], 1, 1, 0),
    (Nothing, &[After(b"#d")], 1, 1, 0),
    (Nothing, &[After(b"\x80\x00")], 1, 1, 0),
    (Nothing, &[AfterMany(b'x', 20_000)], 1, 1, 0),
    (Paper, &[Keep(1)], 1, 2, 0),
    (Paper, &[Keep(22)], 1, 23, 0),
    (Paper, &[Keep(24)], 1, 25, 0),
    (Paper, &[Join(25)], 1, 25, 0),
    (Paper, &[Whole(25, "EOFX"), Join(25)], 1, 25, 0),
    (Paper, &[Whole(25, "\u{7f}"), Join(25)], 1, 25, 0),
    (Paper, &[Keep(24), After(b"EO")], 1, 25, 0),
    (Paper, &[Keep(24), AfterMany(b'P', 90)], 1, 25, 0),
    (Motion, &[Keep(25), After(b"VG01")], 1, 26, 0),
    // A fault in an earlier line comes before it.
    (Paper, &[Join(25), Put(24, 61, "x")], 5, 24, 61),
    // 2: a byte outside 32-126, anywhere in the line, before 3, 4 and 5.
    (Paper, &[CarriageReturns], 2, 1, 61),
    (Paper, &[Byte(25, 4, b'\r')], 2, 25, 4),
    (Paper, &[Byte(24, 40, 0x80)], 2, 24, 40),
    (Paper, &[Byte(24, 1, 0xff)], 2, 24, 1),
    (Paper, &[Byte(24, 2, 0)], 2, 24, 2),
    (Paper, &[Byte(24, 81, 127)], 2, 24, 81),
    (Paper, &[Byte(24, 200, 9)], 2, 24, 200),
    (Paper, &[Byte(24, 90, 200)], 2, 24, 90),
    (Paper, &[Byte(24, 128, 255)], 2, 24, 128),
    (Paper, &[Put(24, 300, " "), Byte(24, 200, 127)], 2, 24, 200),
    // The leftmost of several.
    (Paper, &[Byte(24, 9, 127), Byte(24, 40, 127)], 2, 24, 9),
    (Paper, &[Byte(24, 40, 0x80), Byte(24, 60, 0)], 2, 24, 40),
    (Paper, &[Byte(24, 80, 0), Byte(24, 81, 0), Byte(24, 130, 0)], 2, 24, 80),
    (Paper, &[Byte(19, 4, 9)], 2, 19, 4),
    (Paper, &[Byte(19, 4, 31)], 2, 19, 4),
    (Paper, &[Byte(19, 4, 32)], 0, 0, 0),
    (Paper, &[Byte(19, 4, 126)], 0, 0, 0),
    (Paper, &[Byte(19, 4, 127)], 2, 19, 4),
    (Paper, &[Byte(19, 80, 9)], 2, 19, 80),
    (Paper, &[Byte(1, 61, 0)], 2, 1, 61),
    (Paper, &[Whole(14, "x"), Byte(14, 3, 200)], 2, 14, 3),
    (Motion, &[Byte(25, 60, 200)], 2, 25, 60),
    (Motion, &[Byte(27, 3, 31)], 2, 27, 3),
    (Nothing, &[AfterMany(b'x', 9000), After(b"\x1f\n")], 2, 1, 9001),
    // 3: "80 and 81 characters", before 4 and 5.
    (Paper, &[Put(24, 80, " ")], 0, 0, 0),
    (Paper, &[Put(24, 80, "P")], 0, 0, 0),
    (Paper, &[Put(24, 81, " ")], 3, 24, 81),
    (Paper, &[Put(24, 81, "x")], 3, 24, 81),
    (Paper, &[Put(24, 85, "x")], 3, 24, 81),
    (Paper, &[Put(24, 300, " ")], 3, 24, 81),
    (Paper, &[Put(24, 300, "x"), Put(24, 61, "x")], 3, 24, 81),
    (Paper, &[Put(1, 80, " ")], 0, 0, 0),
    (Paper, &[Put(1, 81, " ")], 3, 1, 81),
    (Paper, &[Put(19, 80, "x")], 0, 0, 0),
    (Paper, &[Put(19, 81, "x")], 3, 19, 81),
    (Paper, &[Put(25, 80, " ")], 0, 0, 0),
    (Paper, &[Put(25, 81, " ")], 3, 25, 81),
    (Motion, &[Put(25, 81, " ")], 3, 25, 81),
    (Motion, &[Put(25, 80, "~")], 6, 25, 73),
    (Paper, &[Put(24, 1, "x"), Put(24, 81, "x")], 3, 24, 81),
    (Paper, &[Join(1)], 3, 1, 81),
    (Nothing, &[AfterMany(b'x', 9000), After(b"\n")], 3, 1, 81),
    (Nothing, &[AfterMany(b' ', 81), After(b"\n")], 3, 1, 81),
    (Nothing, &[AfterMany(b' ', 80), After(b"\n")], 4, 1, 0),
    // 4: not a kind that may stand here.
    (Nothing, &[AfterMany(b'\n', 1)], 4, 1, 0),
    (Nothing, &[AfterMany(b'\n', 5000)], 4, 1, 0),
    (Nothing, &[After(b"EOF\n")], 4, 1, 0),
    (Paper, &[Drop(1)], 4, 1, 0),
    (Paper, &[Double(1)], 4, 2, 0),
    (Paper, &[Swap(1, 2)], 4, 1, 0),
    (Paper, &[Put(1, 2, "a")], 4, 1, 0),
    (Paper, &[Put(1, 2, "C")], 4, 1, 0),
    (Paper, &[Put(1, 2, "D")], 4, 1, 0),
    (Paper, &[Put(1, 2, "#")], 4, 1, 0),
    (Paper, &[Insert(1, "")], 4, 1, 0),
    (Paper, &[Insert(1, "/* FIRST")], 4, 1, 0),
    (Paper, &[Drop(2)], 4, 2, 0),
    (Paper, &[Double(2)], 4, 3, 0),
    (Paper, &[Keep(1), After(b"EOF\n")], 4, 2, 0),
    // "Reading `+ ` lines until `++` comes, and not by n."
    (Paper, &[Drop(7)], 4, 7, 0),
    (Paper, &[Double(7)], 4, 8, 0),
    (Paper, &[Swap(7, 8)], 4, 7, 0),
    (Paper, &[Swap(3, 8)], 4, 3, 0),
    (Paper, &[Drop(12)], 4, 12, 0),
    (Paper, &[Double(12)], 4, 13, 0),
    (Paper, &[Swap(12, 13)], 4, 12, 0),
    (Paper, &[Put(4, 2, "x")], 4, 4, 0),
    (Paper, &[Drop(7), Drop(7)], 4, 7, 0),
    (Paper, &[Double(7), Double(13)], 4, 8, 0),
    (Many(85), &[], 0, 0, 0),
    (Many(86), &[], 0, 0, 0),
    (Many(255), &[], 0, 0, 0),
    (Many(85), &[Double(7), Keep(12)], 4, 8, 0),
    (Many(86), &[Drop(8), Keep(12)], 4, 8, 0),
    (Many(86), &[Double(8), Keep(12)], 4, 9, 0),
    (Many(86), &[Insert(9, NO_SATELLITES), Keep(12)], 4, 9, 0),
    (Many(86), &[Drop(14), Keep(16)], 4, 14, 0),
    (Many(102), &[Put(3, 4, "103"), Keep(12)], 4, 9, 0),
    (Many(255), &[Drop(17), Keep(20)], 4, 17, 0),
    (Paper, &[Put(13, 2, "C")], 4, 13, 0),
    (Paper, &[Drop(14)], 4, 14, 0),
    (Paper, &[Double(14)], 4, 15, 0),
    (Paper, &[Swap(14, 15)], 4, 14, 0),
    (Paper, &[Drop(16)], 4, 16, 0),
    (Paper, &[Double(16)], 4, 17, 0),
    (Paper, &[Put(15, 2, "F")], 4, 15, 0),
    (Paper, &[Drop(18)], 4, 18, 0),
    (Paper, &[Double(18)], 4, 19, 0),
    (Paper, &[Put(17, 2, "I")], 4, 17, 0),
    // "three comments (4)"
    (Paper, &[Drop(22)], 4, 22, 0),
    (Paper, &[Drop(22), Drop(21)], 4, 21, 0),
    (Talkative(0), &[], 4, 19, 0),
    (Talkative(3), &[], 4, 22, 0),
    (Talkative(4), &[], 0, 0, 0),
    (Talkative(5), &[], 0, 0, 0),
    (Talkative(103), &[], 0, 0, 0),
    (Paper, &[Put(20, 1, "//")], 4, 20, 0),
    (Paper, &[Put(20, 2, " ")], 4, 20, 0),
    (Paper, &[Insert(23, "")], 4, 23, 0),
    (Paper, &[Insert(23, "EOF")], 4, 23, 0),
    (Paper, &[Insert(23, "EOFX")], 4, 23, 0),
    (Paper, &[Insert(24, "/*")], 4, 24, 0),
    (Paper, &[Insert(25, "/*")], 4, 25, 0),
    (Paper, &[Insert(23, INTEGERS)], 4, 23, 0),
    // Epochs: too few, too many, EOF too early.
    (Paper, &[Drop(23)], 4, 23, 0),
    (Paper, &[Double(23)], 4, 24, 0),
    (Paper, &[Put(23, 2, "x")], 4, 23, 0),
    (Paper, &[Put(23, 2, "*")], 4, 23, 0),
    (Paper, &[Put(1, 33, "      2")], 4, 25, 0),
    (Paper, &[Put(1, 33, " 100000")], 4, 25, 0),
    (Paper, &[Insert(25, "*")], 4, 25, 0),
    (Paper, &[Insert(25, "*  2013  4  3  0 15  0.00000000")], 4, 25, 0),
    (Night, &[Put(1, 39, "2")], 4, 29, 0),
    (Night, &[Put(1, 39, "4")], 4, 32, 0),
    (Night, &[Drop(26)], 4, 26, 0),
    (Night, &[Insert(26, "EOF")], 4, 26, 0),
    (Night, &[Keep(28), After(b"EOF\n")], 4, 29, 0),
    (Night, &[Keep(27), After(b"EOF\n")], 4, 28, 0),
    // Rows.
    (Paper, &[Drop(24)], 4, 24, 0),
    (Paper, &[Double(24)], 4, 25, 0),
    (Paper, &[Put(24, 1, "p")], 4, 24, 0),
    (Paper, &[Put(24, 1, "V")], 4, 24, 0),
    (Paper, &[Put(1, 3, "V")], 4, 25, 0),
    (
        Paper,
        &[Insert(25, "VG07      0.000000      0.000000      0.000000 999999.999999")],
        4,
        25,
        0,
    ),
    (Night, &[Drop(25)], 4, 25, 0),
    (Night, &[Double(25)], 4, 26, 0),
    (Night, &[Drop(31)], 4, 31, 0),
    (Motion, &[Put(1, 3, "P")], 4, 26, 0),
    (Motion, &[Drop(26)], 4, 26, 0),
    (Motion, &[Drop(26), Drop(26)], 4, 26, 0),
    (Motion, &[Drop(29)], 4, 29, 0),
    (Motion, &[Double(26)], 4, 27, 0),
    (Motion, &[Double(29)], 4, 30, 0),
    (Motion, &[Drop(24)], 4, 24, 0),
    // EP and EV.
    (Paper, &[BARE], 0, 0, 0),
    (Paper, &[BARE, Put(25, 80, " ")], 0, 0, 0),
    (Paper, &[NOTE], 0, 0, 0),
    (Paper, &[ABSENT, BARE], 0, 0, 0),
    (Paper, &[ABSENT, NOTE], 0, 0, 0),
    (Notes, &[], 0, 0, 0),
    (MovingNotes, &[], 0, 0, 0),
    (Paper, &[Insert(25, "EPx ~ anything 77")], 5, 25, 3),
    (Paper, &[NOTE, Byte(25, 7, 9)], 2, 25, 7),
    (Paper, &[NOTE, Byte(25, 60, 9)], 2, 25, 60),
    (Paper, &[BARE, Byte(25, 3, 9)], 2, 25, 3),
    (Paper, &[NOTE, Put(25, 81, " ")], 3, 25, 81),
    (Paper, &[NOTE, Double(25)], 4, 26, 0),
    // Their unused columns.
    (Paper, &[Insert(25, "EPx")], 5, 25, 3),
    (Paper, &[BARE, Put(25, 9, "1")], 5, 25, 9),
    (Paper, &[NOTE, Put(25, 14, "0")], 5, 25, 14),
    (Paper, &[NOTE, Put(25, 19, "-")], 5, 25, 19),
    (Paper, &[NOTE, Put(25, 27, "x")], 5, 25, 27),
    (Paper, &[NOTE, Put(25, 36, "-")], 5, 25, 36),
    (Paper, &[NOTE, Put(25, 45, "1")], 5, 25, 45),
    (Paper, &[NOTE, Put(25, 54, "x")], 5, 25, 54),
    (Paper, &[NOTE, Put(25, 63, "0")], 5, 25, 63),
    (Paper, &[NOTE, Put(25, 72, "x")], 5, 25, 72),
    (Motion, &[Put(27, 3, "x")], 5, 27, 3),
    // Deviations: blank, or digits that fill the field from its right.
    (Paper, &[BARE, Put(25, 5, "0055")], 0, 0, 0),
    (Paper, &[BARE, Put(25, 5, "1000")], 0, 0, 0),
    (Paper, &[BARE, Put(25, 5, "9999")], 0, 0, 0),
    (Paper, &[BARE, Put(25, 8, "0")], 0, 0, 0),
    (Paper, &[NOTE, Put(25, 20, "9999999")], 0, 0, 0),
    (Paper, &[BARE, Put(25, 5, "55  ")], 6, 25, 5),
    (Paper, &[BARE, Put(25, 5, "  -1")], 6, 25, 5),
    (Paper, &[NOTE, Put(25, 15, " 5.5")], 6, 25, 15),
    (Paper, &[NOTE, Put(25, 20, "222    ")], 6, 25, 20),
    (Motion, &[Put(27, 5, "22  ")], 6, 27, 5),
    // Correlations: a minus before the first digit; at most seven digits count.
    (Paper, &[BARE, Put(25, 28, "09999999")], 0, 0, 0),
    (Paper, &[BARE, Put(25, 28, "-9999999")], 0, 0, 0),
    (Paper, &[BARE, Put(25, 28, "      -0")], 0, 0, 0),
    (Paper, &[BARE, Put(25, 28, "99999999")], 7, 25, 28),
    (Paper, &[BARE, Put(25, 28, "10000000")], 7, 25, 28),
    (Paper, &[NOTE, Put(25, 73, "10000000")], 7, 25, 73),
    (Paper, &[BARE, Put(25, 28, "     - 1")], 6, 25, 28),
    (Paper, &[BARE, Put(25, 28, "      +1")], 6, 25, 28),
    (Paper, &[BARE, Put(25, 28, "1234567 ")], 6, 25, 28),
    (Paper, &[NOTE, Put(25, 37, "     --1")], 6, 25, 37),
    (Paper, &[NOTE, Put(25, 55, "     3-0")], 6, 25, 55),
    (Paper, &[NOTE, Put(25, 80, "x")], 6, 25, 73),
    (Motion, &[Put(27, 80, "x")], 6, 27, 73),
    (Motion, &[Put(27, 46, "10000000")], 7, 27, 46),
    (Motion, &[Put(27, 64, "- 234567")], 6, 27, 64),
    // Two faults: the lower number.
    (Paper, &[NOTE, Put(25, 5, "55  "), Put(25, 27, "x")], 5, 25, 27),
    (Paper, &[NOTE, Put(25, 28, "99999999"), Put(25, 73, "1234567 ")], 6, 25, 73),
    // Two of the same number: the leftmost.
    (Paper, &[NOTE, Put(25, 45, "x"), Put(25, 36, "x")], 5, 25, 36),
    (Paper, &[NOTE, Put(25, 26, "x"), Put(25, 35, "x")], 6, 25, 20),
    (Motion, &[Put(27, 64, "99999999"), Put(27, 55, "10000000")], 7, 27, 55),
    (Paper, &[NOTE, Put(25, 3, "x"), Put(25, 81, "x")], 3, 25, 81),
    (Paper, &[Insert(25, "EVx")], 4, 25, 0),
    (Paper, &[Insert(24, "EPx")], 4, 24, 0),
    (Motion, &[Put(25, 3, "x"), Double(26)], 5, 25, 3),
    (Motion, &[Insert(26, "EVx")], 4, 26, 0),
    (Motion, &[Insert(30, "EPx")], 4, 30, 0),
    // Their places.
    (Paper, &[Insert(25, "EP"), Insert(26, "EP")], 4, 26, 0),
    (Paper, &[Insert(25, "EV")], 4, 25, 0),
    (Paper, &[Insert(25, "EP"), Insert(26, "EV")], 4, 26, 0),
    (Paper, &[Insert(24, "EP")], 4, 24, 0),
    (Paper, &[Insert(23, "EP")], 4, 23, 0),
    (Paper, &[Insert(25, "E")], 4, 25, 0),
    (Paper, &[Insert(25, "Ep")], 4, 25, 0),
    (Paper, &[Insert(25, "EQ")], 4, 25, 0),
    (Paper, &[Insert(25, "EO")], 4, 25, 0),
    (Motion, &[Drop(25)], 0, 0, 0),
    (Motion, &[Drop(27)], 0, 0, 0),
    (Motion, &[Drop(27), Drop(25)], 0, 0, 0),
    (Motion, &[Double(25)], 4, 26, 0),
    (Motion, &[Double(27)], 4, 28, 0),
    (Motion, &[Swap(25, 26)], 4, 26, 0),
    (Motion, &[Swap(26, 27)], 4, 26, 0),
    (Motion, &[Swap(25, 27)], 4, 25, 0),
    (Motion, &[Insert(29, "EP")], 0, 0, 0),
    (Motion, &[Insert(29, "EV")], 4, 29, 0),
    (Motion, &[Insert(30, "EV")], 0, 0, 0),
    (Motion, &[Insert(30, "EP")], 4, 30, 0),
    (Night, &[Insert(25, "EP"), Insert(29, "EP")], 0, 0, 0),
    (Night, &[Insert(24, "EP")], 4, 24, 0),
    (Night, &[Insert(26, "EV")], 4, 26, 0),
    // EOF.
    (Paper, &[Whole(25, "EOX")], 4, 25, 0),
    (Paper, &[Whole(25, "EO")], 4, 25, 0),
    (Paper, &[Whole(25, "eof")], 4, 25, 0),
    (Paper, &[Whole(25, " EOF")], 4, 25, 0),
    (Paper, &[Insert(25, "")], 4, 25, 0),
    (Paper, &[Whole(25, "EOFX")], 5, 25, 4),
    (Paper, &[Put(25, 80, "x")], 5, 25, 80),
    (Paper, &[Put(25, 5, " ")], 0, 0, 0),
    // 5: an unused column, or a placeholder.
    (Paper, &[Put(1, 32, "x")], 5, 1, 32),
    (Paper, &[Put(1, 46, "x")], 5, 1, 46),
    (Paper, &[Put(1, 61, "x")], 5, 1, 61),
    (Paper, &[Put(1, 3, "v"), Put(1, 61, "x")], 5, 1, 61),
    (Paper, &[Put(2, 3, "x")], 5, 2, 3),
    (Paper, &[Put(2, 61, "0")], 5, 2, 61),
    (Paper, &[Put(3, 9, "x")], 5, 3, 9),
    (Paper, &[Put(3, 4, "  x"), Put(3, 8, "0")], 5, 3, 8),
    (Paper, &[Put(4, 6, "0")], 5, 4, 6),
    (Paper, &[Put(8, 3, "0")], 5, 8, 3),
    (Paper, &[Put(13, 7, "CC")], 5, 13, 7),
    (Paper, &[Put(13, 4, "X "), Put(13, 60, "x")], 5, 13, 56),
    (Paper, &[Put(14, 4, "G ")], 5, 14, 4),
    (Paper, &[Put(14, 10, "GPS")], 5, 14, 10),
    (Paper, &[Put(15, 28, "-0.00000000000")], 5, 15, 28),
    (Paper, &[Put(15, 43, " 0.000000000000001")], 5, 15, 43),
    (Paper, &[Put(16, 4, " 1.2500000")], 5, 16, 4),
    (Paper, &[Put(16, 4, "          ")], 5, 16, 4),
    (Paper, &[Put(16, 4, "00.0000000")], 0, 0, 0),
    (Paper, &[Put(17, 4, "   1")], 5, 17, 4),
    (Paper, &[Put(18, 52, "         ")], 5, 18, 52),
    (Paper, &[Put(18, 52, "000000000")], 0, 0, 0),
    (Paper, &[Put(19, 3, "x")], 5, 19, 3),
    (Paper, &[Join(22)], 5, 22, 3),
    (Paper, &[Put(23, 32, "x")], 5, 23, 32),
    (Paper, &[Put(24, 61, "x")], 5, 24, 61),
    (Paper, &[Put(24, 2, "G08"), Put(24, 77, "x")], 5, 24, 77),
    (Paper, &[Join(24)], 5, 24, 61),
    (Motion, &[Put(26, 75, "E")], 5, 26, 75),
    (Motion, &[Put(26, 80, "P")], 5, 26, 80),
    // The unused column itself, not the first of those beside it.
    (Paper, &[Put(3, 63, "x")], 5, 3, 63),
    (Paper, &[Put(4, 7, "x")], 5, 4, 7),
    (Paper, &[Put(23, 80, "x")], 5, 23, 80),
    (Paper, &[Put(24, 78, "x")], 5, 24, 78),
    (Paper, &[Whole(25, "EOF       x")], 5, 25, 11),
    // The leftmost of several.
    (Paper, &[Put(1, 61, "x"), Put(1, 70, "x")], 5, 1, 61),
    (Paper, &[Put(24, 61, "x"), Put(24, 70, "x")], 5, 24, 61),
    (Paper, &[Put(24, 74, "x"), Put(24, 61, "x")], 5, 24, 61),
    (Paper, &[Put(18, 24, "     1"), Put(18, 52, "        1")], 5, 18, 24),
    (Paper, &[Put(14, 43, "x"), Put(14, 48, "C")], 5, 14, 43),
    (Paper, &[Put(14, 43, "x"), Put(14, 42, "C")], 5, 14, 38),
    // A placeholder has its first column, also where its others are wrong.
    (Paper, &[Put(14, 5, "C")], 5, 14, 4),
    (Paper, &[Put(14, 58, "x")], 5, 14, 56),
    (Paper, &[Put(15, 60, "1")], 5, 15, 43),
    (Paper, &[Put(17, 29, "1")], 5, 17, 24),
    // Columns 8 and 11 of a date are unused columns.
    (Paper, &[Put(1, 8, "x")], 5, 1, 8),
    (Paper, &[Put(1, 11, "x")], 5, 1, 11),
    (Paper, &[Put(1, 4, "201x"), Put(1, 8, "x")], 5, 1, 8),
    (Paper, &[Put(23, 11, "1")], 5, 23, 11),
    (Paper, &[Put(23, 4, "201x"), Put(23, 14, "x")], 5, 23, 14),
    // Placeholders past the end of a short line.
    (Paper, &[Whole(13, "%c")], 5, 13, 7),
    (Paper, &[Whole(13, "%c G  cc GPS")], 5, 13, 14),
    (Paper, &[Whole(14, "%c")], 5, 14, 4),
    (Paper, &[Whole(15, "%f")], 5, 15, 28),
    (Paper, &[Whole(17, "%i    0    0")], 5, 17, 14),
    // 6: malformed fields, letters, file types and time systems.
    (Paper, &[Put(1, 3, "v")], 6, 1, 3),
    (Paper, &[Put(1, 33, "       ")], 6, 1, 33),
    (Paper, &[Put(1, 4, "2013  4  x")], 6, 1, 4),
    (Paper, &[Put(2, 4, "    ")], 6, 2, 4),
    (Paper, &[Put(2, 25, " -900.00000000")], 6, 2, 25),
    (Paper, &[Put(3, 4, "   ")], 6, 3, 4),
    (Paper, &[Put(3, 4, "1  ")], 6, 3, 4),
    (Paper, &[Put(3, 4, " -1")], 6, 3, 4),
    (Paper, &[Put(3, 4, "  x"), Put(3, 10, "x00000")], 6, 3, 4),
    (Paper, &[Put(3, 4, "  2")], 6, 3, 13),
    (Paper, &[Put(3, 10, "  0")], 6, 3, 10),
    (Paper, &[Put(3, 10, "G 7")], 6, 3, 10),
    (Paper, &[Put(3, 10, "g07")], 6, 3, 10),
    (Paper, &[Put(3, 10, "007")], 6, 3, 10),
    (Paper, &[Put(3, 4, "256")], 6, 3, 13),
    (Paper, &[Put(8, 10, "   ")], 6, 8, 10),
    (Paper, &[Put(8, 10, " -1")], 6, 8, 10),
    (Paper, &[Put(13, 4, "X ")], 6, 13, 4),
    (Paper, &[Put(13, 4, "GG")], 6, 13, 4),
    (Paper, &[Put(13, 4, " G")], 6, 13, 4),
    (Paper, &[Put(13, 10, "gps")], 6, 13, 10),
    (Paper, &[Put(13, 4, "R  cc GPX")], 6, 13, 10),
    (Paper, &[Put(15, 4, "-1.2500000")], 6, 15, 4),
    (Paper, &[Put(15, 15, "            ")], 6, 15, 15),
    (Paper, &[Whole(23, "*")], 6, 23, 4),
    (Paper, &[Put(23, 4, "2013 13  x")], 6, 23, 4),
    (Paper, &[Whole(24, "P")], 6, 24, 2),
    (Paper, &[Put(24, 2, "G 7")], 6, 24, 2),
    (Paper, &[Put(24, 5, "       .500000")], 6, 24, 5),
    (Paper, &[Put(24, 5, "1000000.000000       .500000")], 6, 24, 19),
    (Paper, &[Put(24, 47, "              ")], 6, 24, 47),
    (Paper, &[Put(24, 62, "1 ")], 6, 24, 62),
    (Paper, &[Put(24, 75, "P")], 6, 24, 75),
    (Paper, &[Put(24, 76, "E")], 6, 24, 76),
    (Paper, &[Put(24, 79, "P")], 6, 24, 79),
    (Paper, &[Put(24, 80, "M")], 6, 24, 80),
    (Paper, &[Put(24, 80, "p")], 6, 24, 80),
    (Paper, &[Put(24, 2, "G08"), Put(24, 75, "x")], 6, 24, 75),
    (Motion, &[Whole(26, "V")], 6, 26, 2),
    (Motion, &[Put(26, 5, "     +0.000000")], 6, 26, 5),
    (Paper, &[Put(24, 5, "  5000.0000001")], 6, 24, 5),
    (Paper, &[Put(24, 75, "e")], 6, 24, 75),
    (Paper, &[Put(13, 4, "Gx")], 6, 13, 4),
    // Any fault of year, month or day has column 4; the hour has its own.
    (Paper, &[Put(1, 4, "201x")], 6, 1, 4),
    (Paper, &[Put(1, 9, "x4")], 6, 1, 4),
    (Paper, &[Put(1, 12, "3 ")], 6, 1, 4),
    (Paper, &[Put(23, 12, " x")], 6, 23, 4),
    (Paper, &[Put(23, 9, "13"), Put(23, 15, "2x")], 6, 23, 15),
    (Paper, &[Put(23, 12, "3 "), Put(23, 15, "2x")], 6, 23, 4),
    (Paper, &[Put(1, 3, "v"), Put(1, 9, "x4")], 6, 1, 3),
    // The leftmost of several.
    (Paper, &[Put(2, 40, "    x"), Put(2, 25, " -900.00000000")], 6, 2, 25),
    (Paper, &[Put(13, 4, "X  cc gps")], 6, 13, 4),
    (Night, &[Put(3, 13, "R x"), Put(3, 16, "xxx")], 6, 3, 13),
    (Night, &[Put(8, 10, " -1 -1")], 6, 8, 10),
    (Paper, &[Put(24, 80, "x"), Put(24, 62, "x ")], 6, 24, 62),
    // A field past the end of a short line has its first column too.
    (Paper, &[Whole(1, "#d")], 6, 1, 3),
    (Paper, &[Whole(1, "#dP2013  4  3")], 6, 1, 15),
    (Paper, &[Whole(1, "#dP2013  4  3  0  0  0.00000000")], 6, 1, 33),
    (Paper, &[Whole(2, "##")], 6, 2, 4),
    (Paper, &[Whole(3, "+    1")], 6, 3, 10),
    (Paper, &[Whole(8, "++")], 6, 8, 10),
    (Paper, &[Whole(23, "*  2013  4  3  0  0")], 6, 23, 21),
    (Paper, &[Whole(24, "PG07")], 6, 24, 5),
    (Paper, &[Whole(24, "PG07   5000.000001")], 6, 24, 19),
    (Paper, &[Whole(24, "PG07   5000.0000")], 6, 24, 5),
    (Motion, &[Whole(26, "VG01")], 6, 26, 5),
    // 7: outside the bounds.
    (Paper, &[Put(1, 33, "      0")], 7, 1, 33),
    (Paper, &[Put(1, 33, " 100001")], 7, 1, 33),
    (Paper, &[Put(1, 33, "9999999")], 7, 1, 33),
    (Paper, &[Put(1, 4, "1980  1  5")], 7, 1, 4),
    (Paper, &[Put(1, 4, "2001  2 29")], 7, 1, 4),
    (Paper, &[Put(1, 4, "2100  1  1")], 7, 1, 4),
    (Paper, &[Put(1, 4, "2013  0  3")], 7, 1, 4),
    (Paper, &[Put(1, 15, "24")], 7, 1, 15),
    (Paper, &[Put(1, 18, "60")], 7, 1, 18),
    (Paper, &[Put(1, 21, "60.00000000")], 7, 1, 21),
    (Paper, &[Put(2, 9, "604800.00000000")], 7, 2, 9),
    (Paper, &[Put(2, 25, "    0.00000000")], 7, 2, 25),
    (Paper, &[Put(2, 4, "9999"), Put(2, 46, "1.0000000000000")], 7, 2, 46),
    (Many(255), &[Put(3, 4, "000"), Keep(40)], 7, 3, 4),
    (Many(256), &[Put(3, 10, "G00"), Keep(40)], 7, 3, 10),
    (Many(256), &[Put(3, 58, "G00"), Keep(40)], 7, 3, 58),
    (Many(256), &[Put(3, 58, "  0"), Keep(40)], 6, 3, 58),
    (Many(256), &[Put(3, 13, "G 2"), Keep(40)], 6, 3, 13),
    (Paper, &[Put(3, 4, "  0")], 7, 3, 4),
    (Paper, &[Put(3, 4, "000"), Put(3, 10, "  0")], 7, 3, 4),
    (Paper, &[Put(3, 10, "G00")], 7, 3, 10),
    (Night, &[Put(3, 13, "G00"), Put(3, 16, "G07")], 7, 3, 13),
    (Night, &[Put(26, 4, "2012 12 32")], 7, 26, 4),
    (Night, &[Put(26, 4, "2012 12 31 24  0  0.00000000")], 7, 26, 15),
    (Night, &[Put(26, 4, "2012 12 31 23 60  0.00000000")], 7, 26, 18),
    (Night, &[Put(26, 4, "2012 12 31 23 59 60.00000000")], 7, 26, 21),
    (Paper, &[Put(24, 2, "G00")], 7, 24, 2),
    (Paper, &[Put(24, 5, "1000000.000000")], 7, 24, 5),
    (Paper, &[Put(24, 47, "9999999.999999")], 7, 24, 47),
    (Paper, &[Put(24, 2, "G08"), Put(24, 5, "1000000.000000")], 7, 24, 5),
    (Motion, &[Put(26, 2, "G00")], 7, 26, 2),
    // Of the date before the hour, of x before the clock.
    (Paper, &[Put(1, 4, "2001  2 29 24")], 7, 1, 4),
    (Paper, &[Put(23, 9, "13"), Put(23, 15, "24")], 7, 23, 4),
    (Paper, &[Put(23, 15, "24 60")], 7, 23, 15),
    (Paper, &[Put(24, 19, "1000000.000000")], 7, 24, 19),
    (Paper, &[Put(24, 47, "1000000.000000"), Put(24, 5, "1000000.000000")], 7, 24, 5),
    (Paper, &[Put(24, 2, "G00"), Put(24, 5, "1000000.000000")], 7, 24, 2),
    // 8: line two disagrees with the start.
    (Paper, &[Put(1, 4, "1980  1  6")], 8, 2, 0),
    (Paper, &[Put(1, 4, "2099 12 31")], 8, 2, 0),
    (Paper, &[Put(2, 4, "1735")], 8, 2, 0),
    (Paper, &[Put(2, 4, "1733")], 8, 2, 0),
    (Paper, &[Put(2, 4, "9999")], 8, 2, 0),
    (Paper, &[Put(2, 9, "259200.00000001")], 8, 2, 0),
    (Paper, &[Put(2, 9, "259199.99999999")], 8, 2, 0),
    (Paper, &[Put(2, 9, "     0.00000000")], 8, 2, 0),
    (Paper, &[Put(2, 40, "56384")], 8, 2, 0),
    (Paper, &[Put(2, 40, "56386")], 8, 2, 0),
    (Paper, &[Put(2, 46, "0.0000000000001")], 8, 2, 0),
    (Paper, &[Put(2, 46, "0.9999999999999")], 8, 2, 0),
    (Paper, &[Put(2, 4, "1735"), Put(3, 3, "x")], 8, 2, 0),
    (Night, &[Put(2, 46, "0.9895833333332")], 8, 2, 0),
    (Night, &[Put(2, 46, "0.9895833333334")], 0, 0, 0),
    (Night, &[Put(2, 46, "0.9895833333335")], 8, 2, 0),
    // A slot after n isn't `  0`.
    (Paper, &[Put(3, 13, "000")], 8, 3, 0),
    (Paper, &[Put(3, 13, " 00")], 8, 3, 0),
    (Paper, &[Put(3, 13, "0  ")], 8, 3, 0),
    (Paper, &[Put(3, 13, "   ")], 8, 3, 0),
    (Paper, &[Put(3, 13, "G08")], 8, 3, 0),
    (Paper, &[Put(3, 58, "g08")], 8, 3, 0),
    (Night, &[Put(3, 4, "  1")], 8, 3, 0),
    (Paper, &[Put(7, 10, "G08")], 8, 7, 0),
    (Paper, &[Whole(4, "+")], 8, 4, 0),
    (Paper, &[Put(8, 13, "  1")], 8, 8, 0),
    (Paper, &[Put(8, 13, "000")], 8, 8, 0),
    (Paper, &[Put(8, 58, "   ")], 8, 8, 0),
    (Paper, &[Put(12, 58, "  7")], 8, 12, 0),
    (Paper, &[Whole(9, "++")], 8, 9, 0),
    // An identifier repeats: the line of the later one.
    (Night, &[Put(3, 13, "G07")], 8, 3, 0),
    (Night, &[Put(3, 13, "G07"), Put(3, 3, "x")], 5, 3, 3),
    (Many(20), &[], 0, 0, 0),
    (Many(20), &[Put(4, 10, "G01"), Keep(9)], 8, 4, 0),
    (Many(20), &[Put(4, 16, "G18"), Keep(9)], 8, 4, 0),
    (Many(20), &[Put(4, 16, "G17"), Put(4, 10, "G 9"), Keep(9)], 6, 4, 10),
    (Many(255), &[Put(17, 58, "  1"), Keep(20)], 6, 17, 58),
    (Many(255), &[Put(17, 58, "G01"), Keep(20)], 8, 17, 0),
    (Many(255), &[Put(17, 58, "Z99"), Keep(60)], 1, 61, 0),
    // The file type disagrees.
    (Paper, &[Put(13, 4, "R ")], 8, 13, 0),
    (Paper, &[Put(13, 4, "M ")], 0, 0, 0),
    (Paper, &[Put(3, 10, "A01")], 8, 13, 0),
    (Night, &[Put(13, 4, "G ")], 8, 13, 0),
    (Night, &[Put(13, 4, "R ")], 8, 13, 0),
    (Many(20), &[Put(3 + 10, 4, "G ")], 0, 0, 0),
    (Many(20), &[Put(13, 4, "G "), Put(4, 16, "E20"), Keep(16)], 8, 13, 0),
    // 9: the wrong instant. "an epoch that is one interval late after midnight"
    (Paper, &[Put(23, 21, " 0.00000001")], 9, 23, 0),
    (Paper, &[Put(23, 4, "2013  4  4")], 9, 23, 0),
    (Paper, &[Put(23, 15, " 0 15")], 9, 23, 0),
    (Paper, &[Put(23, 4, "2013  4  2 23 59 59.99999999")], 9, 23, 0),
    (Night, &[Put(26, 18, "15")], 9, 26, 0),
    (Night, &[Put(26, 18, "15"), Put(29, 18, "30")], 9, 26, 0),
    (Night, &[Put(29, 18, "30")], 9, 29, 0),
    (Night, &[Put(26, 4, "2012 12 31")], 9, 26, 0),
    (Night, &[Put(26, 4, "2013 12 31")], 9, 26, 0),
    (Night, &[Put(26, 4, "2012  1  1")], 9, 26, 0),
    (Night, &[Put(26, 4, "2013  1  2")], 9, 26, 0),
    (Night, &[Put(29, 4, "2012 12 31")], 9, 29, 0),
    (Night, &[Put(29, 18, " 0")], 9, 29, 0),
    (Night, &[Swap(26, 29)], 9, 26, 0),
    (Night, &[Put(2, 25, "  899.99999999")], 9, 26, 0),
    (Night, &[Put(2, 25, "  900.00000001")], 9, 26, 0),
    (Night, &[Put(2, 25, "00900.00000000")], 0, 0, 0),
    // 10: another satellite than the header has here.
    (Paper, &[Put(24, 2, "G08")], 10, 24, 0),
    (Paper, &[Put(24, 2, "R07")], 10, 24, 0),
    (Paper, &[Put(3, 10, "A01"), Put(13, 4, "M ")], 10, 24, 0),
    (Night, &[Swap(24, 25)], 10, 24, 0),
    (Night, &[Swap(30, 31)], 10, 30, 0),
    (Night, &[Drop(24)], 10, 24, 0),
    (Night, &[Double(24)], 10, 25, 0),
    (Motion, &[Put(26, 2, "G02")], 10, 26, 0),
    (Motion, &[Swap(26, 29)], 10, 26, 0),
    (Motion, &[Put(29, 2, "G01")], 10, 29, 0),
    // 11: bytes after the EOF line, not examined.
    (Paper, &[After(b"\n")], 11, 26, 0),
    (Paper, &[After(b"\x00")], 11, 26, 0),
    (Paper, &[After(b"EOF\n")], 11, 26, 0),
    (Paper, &[After(b"EP\n")], 11, 26, 0),
    (Paper, &[AfterMany(b'\n', 4000)], 11, 26, 0),
    (Paper, &[AfterMany(0xff, 4000)], 11, 26, 0),
    (Paper, &[Double(25)], 11, 26, 0),
    (Paper, &[AfterItself], 11, 26, 0),
    (Night, &[AfterItself], 11, 33, 0),
    (Motion, &[After(b" ")], 11, 31, 0),
    // The paper's dates: 1, 2, 3, 4; the last day.
    (
        Paper,
        &[
            Put(1, 4, "2012 10  1"),
            Put(2, 4, "1708  86400.00000000"),
            Put(2, 40, "56201"),
            Put(23, 4, "2012 10  1"),
        ],
        0,
        0,
        0,
    ),
    (
        Paper,
        &[
            Put(1, 4, "1980  1  6"),
            Put(2, 4, "   0      0.00000000"),
            Put(2, 40, "44244"),
            Put(23, 4, "1980  1  6"),
        ],
        0,
        0,
        0,
    ),
    (
        Paper,
        &[
            Put(1, 4, "2000  2 29"),
            Put(2, 4, "1051 172800.00000000"),
            Put(2, 40, "51603"),
            Put(23, 4, "2000  2 29"),
        ],
        0,
        0,
        0,
    ),
    (
        Paper,
        &[
            Put(1, 4, "2099 12 31 23 59 59.99999999"),
            Put(2, 4, "6260 431999.99999999"),
            Put(2, 40, "88068 0.9999999999999"),
            Put(23, 4, "2099 12 31 23 59 59.99999999"),
        ],
        0,
        0,
        0,
    ),
    // Its right second epoch is past the bound; another one isn't right.
    (
        Paper,
        &[
            Put(1, 4, "2099 12 31 23 45  0.00000000       2"),
            Put(2, 4, "6260 431100.00000000"),
            Put(2, 40, "88068 0.9895833333333"),
            Put(23, 4, "2099 12 31 23 45  0.00000000"),
            Insert(25, "*  2100  1  1  0  0  0.00000000"),
        ],
        7,
        25,
        4,
    ),
    (
        Paper,
        &[
            Put(1, 4, "2099 12 31 23 45  0.00000000       2"),
            Put(2, 4, "6260 431100.00000000"),
            Put(2, 40, "88068 0.9895833333333"),
            Put(23, 4, "2099 12 31 23 45  0.00000000"),
            Insert(25, "*  2099 12 31  0  0  0.00000000"),
        ],
        9,
        25,
        0,
    ),
    // Its case 11: the fraction of 00:00:01.
    (Paper, &[ONE_SECOND[0], ONE_SECOND[1], ONE_SECOND[2], Put(2, 46, "0.0000115740740")], 0, 0, 0),
    (Paper, &[ONE_SECOND[0], ONE_SECOND[1], ONE_SECOND[2], Put(2, 46, "0.0000115740741")], 0, 0, 0),
    (Paper, &[ONE_SECOND[0], ONE_SECOND[1], ONE_SECOND[2], Put(2, 46, "0.0000115740742")], 8, 2, 0),
    (Paper, &[ONE_SECOND[0], ONE_SECOND[1], ONE_SECOND[2], Put(2, 46, "0.0000115740739")], 8, 2, 0),
    // Odd and right spellings.
    (Paper, &[Put(24, 19, "    -00.500000")], 0, 0, 0),
    (Paper, &[Put(24, 5, "-000000.000000     -0.000000-000000.000000-999999.999999")], 0, 0, 0),
    (Paper, &[Put(24, 47, "0999999.999999")], 0, 0, 0),
    (Paper, &[Put(24, 47, " 999999.000000")], 0, 0, 0),
    (Paper, &[Put(24, 5, "      0.000000      0.000000      0.000000     12.734450")], 0, 0, 0),
    (Paper, &[Put(24, 5, "      0.000000      0.000000      0.000000 999999.999999")], 0, 0, 0),
    (Paper, &[Put(24, 61, "    00 99 999 E    P")], 0, 0, 0),
    (Paper, &[Put(1, 41, "                    ")], 0, 0, 0),
    (Paper, &[Put(1, 9, "04 03 00 00 00.00000000 0000001")], 0, 0, 0),
    (Paper, &[Put(2, 25, "    0.00000001")], 0, 0, 0),
    (Paper, &[Put(2, 25, "99999.99999999")], 0, 0, 0),
    (Paper, &[Put(3, 4, "001")], 0, 0, 0),
    (Paper, &[Put(8, 10, "999")], 0, 0, 0),
    (Paper, &[Put(8, 10, "000")], 0, 0, 0),
    (Paper, &[Put(15, 4, "00.0000000 99.999999999")], 0, 0, 0),
    (Paper, &[Put(20, 80, " "), Put(21, 3, " "), Put(22, 4, "   x   y")], 0, 0, 0),
];

/// Clocks and rates by request 3: what isn't absent by its six nines and is no
/// decimal; what a bare clock stands beside.
const CLOCKS_BY_HAND: &[Hand] = &[
    (Paper, &[Put(24, 47, "-999999.      ")], 6, 24, 47),
    (Paper, &[Put(24, 47, " 999999.00000 ")], 6, 24, 47),
    (Paper, &[Put(24, 47, " 999999.     0")], 6, 24, 47),
    (Paper, &[Put(24, 47, " 999998.      ")], 6, 24, 47),
    (Paper, &[Put(24, 47, "1000000.      ")], 6, 24, 47),
    (Paper, &[Put(24, 47, " 999999       ")], 6, 24, 47),
    (Paper, &[Put(24, 47, "999999.       ")], 6, 24, 47),
    (Paper, &[Put(24, 47, "1000000.000000")], 7, 24, 47),
    (Motion, &[Put(26, 47, "-999999.      ")], 6, 26, 47),
    (Motion, &[Put(26, 47, " 999999.00000 ")], 6, 26, 47),
    (Motion, &[Put(26, 47, " 999999.     0")], 6, 26, 47),
    (Motion, &[Put(26, 47, " 999998.      ")], 6, 26, 47),
    (Motion, &[Put(26, 47, "1000000.      ")], 6, 26, 47),
    (Motion, &[Put(26, 47, " 999999       ")], 6, 26, 47),
    (Motion, &[Put(26, 47, "              ")], 6, 26, 47),
    (Motion, &[Put(26, 47, "999999.       ")], 6, 26, 47),
    (Motion, &[Put(26, 47, "1000000.000000")], 7, 26, 47),
    // A line that ends before the point, or in the fraction.
    (Paper, &[Whole(24, "PG07   5000.000001     -0.500000      0.000000 999999")], 6, 24, 47),
    (Paper, &[Whole(24, "PG07   5000.000001     -0.500000      0.000000 999999.0")], 6, 24, 47),
    (Motion, &[Whole(29, "VG02      0.000000      0.000000      0.000000 999999")], 6, 29, 47),
    // A blank fraction of x, y and z.
    (Paper, &[Put(24, 5, " 999999.      ")], 6, 24, 5),
    (Paper, &[Put(24, 33, " 999999.      ")], 6, 24, 33),
    (Motion, &[Put(26, 19, " 999999.      ")], 6, 26, 19),
    // Beside other faults: the lowest number, then the leftmost column.
    (Paper, &[Put(24, 47, " 999999.      0")], 5, 24, 61),
    (Motion, &[Put(26, 47, "-999999.      014")], 5, 26, 61),
    (Paper, &[Put(24, 47, " 999999.       9 ")], 6, 24, 62),
    (Paper, &[Put(24, 47, "1000000.000000 9 ")], 6, 24, 62),
    (Paper, &[Put(24, 5, "1000000.000000"), Put(24, 47, " 999999.      ")], 7, 24, 5),
    (Paper, &[Put(24, 5, "1000000.000000"), Put(24, 47, " 999998.      ")], 6, 24, 47),
    (Paper, &[Put(24, 2, "G08"), Put(24, 47, " 999999.      ")], 10, 24, 0),
    (Paper, &[Put(24, 2, "G08"), Put(24, 47, " 999999.     0")], 6, 24, 47),
];

/// Request 6, up to 999 satellites: files that are refused before their rows. A file of
/// n has its `+ ` lines from line 3 on, 16 for 256 to 272, 17 for 273, 58 for 986, 59 for
/// 987 to 999; then as many `++`; then `%c`. Of 999 the `+ ` lines are 3 to 61, `++` 62 to
/// 120, `%c` 121; line 61 has 13 identifiers, M96 to M99 and Z01 to Z09, the last of them
/// in column 46.
const MANY_REFUSED: &[Hand] = &[
    // "1,000 can't be written in the field": column 7 or 3 isn't blank, or it is 000.
    (Paper, &[Put(3, 4, "1000")], 5, 3, 7),
    (Paper, &[Put(3, 3, "1000")], 5, 3, 3),
    (Paper, &[Put(3, 4, "000")], 7, 3, 4),
    (Paper, &[Put(3, 4, "999")], 6, 3, 13),
    (Many(999), &[Put(3, 4, "1000"), Keep(5)], 5, 3, 7),
    (Many(999), &[Put(3, 3, "1000"), Keep(5)], 5, 3, 3),
    (Many(999), &[Put(3, 4, "000"), Keep(5)], 7, 3, 4),
    // Too few lines and too many.
    (Many(256), &[Drop(18), Keep(18)], 4, 18, 0),
    (Many(256), &[Insert(19, NO_SATELLITES), Keep(19)], 4, 19, 0),
    (Many(999), &[Insert(62, NO_SATELLITES), Keep(62)], 4, 62, 0),
    // A slot after n that is filled, one within n that is not.
    (Many(999), &[Put(61, 49, "Z10"), Keep(61)], 8, 61, 0),
    (Many(998), &[Put(3, 4, "999"), Keep(61)], 6, 61, 46),
    // An identifier repeats: in the first line, of the line before, in the middle, the
    // last the first.
    (Many(999), &[Put(3, 58, "G01"), Keep(5)], 8, 3, 0),
    (Many(999), &[Put(4, 10, "G17"), Keep(5)], 8, 4, 0),
    (Many(999), &[Put(30, 10, "J63"), Keep(31)], 8, 30, 0),
    (Many(999), &[Put(61, 46, "G01"), Keep(61)], 8, 61, 0),
    // Identifiers of one letter are 99 at most: 100 satellites need type M.
    (Many(100), &[Put(15, 4, "G"), Keep(20)], 8, 15, 0),
];

/// More of them; these aren't stored.
const MANY_MORE_REFUSED: &[Hand] = &[
    // Too few lines and too many.
    (Many(255), &[Put(3, 4, "256"), Keep(40)], 4, 18, 0),
    (Many(255), &[Put(3, 4, "999"), Keep(40)], 4, 18, 0),
    (Many(256), &[Put(3, 4, "255"), Keep(40)], 4, 18, 0),
    (Many(256), &[Drop(34), Keep(40)], 4, 34, 0),
    (Many(256), &[Double(34), Keep(40)], 4, 35, 0),
    (Many(272), &[Drop(18), Keep(40)], 4, 18, 0),
    (Many(272), &[Insert(19, NO_SATELLITES), Keep(40)], 4, 19, 0),
    (Many(273), &[Drop(19), Keep(40)], 4, 19, 0),
    (Many(273), &[Insert(20, NO_SATELLITES), Keep(40)], 4, 20, 0),
    (Many(986), &[Drop(60), Keep(64)], 4, 60, 0),
    (Many(986), &[Insert(61, NO_SATELLITES), Keep(64)], 4, 61, 0),
    (Many(987), &[Drop(61), Keep(64)], 4, 61, 0),
    (Many(987), &[Insert(62, NO_SATELLITES), Keep(64)], 4, 62, 0),
    (Many(999), &[Drop(61), Keep(64)], 4, 61, 0),
    (Many(999), &[Drop(120), Keep(124)], 4, 120, 0),
    (Many(999), &[Double(120), Keep(124)], 4, 121, 0),
    // Slots after n that are filled.
    (Many(256), &[Put(18, 13, "E59"), Keep(40)], 8, 18, 0),
    (Many(999), &[Put(61, 58, "Z10"), Keep(64)], 8, 61, 0),
    (Many(999), &[Put(120, 49, "993"), Keep(124)], 8, 120, 0),
    (Many(999), &[Put(3, 4, "998"), Keep(64)], 8, 61, 0),
    (Many(999), &[Put(3, 4, " 99"), Keep(64)], 8, 8, 0),
    // An identifier repeats: of the first, of the line before, of its own line, two in
    // one line, two in two.
    (Many(256), &[Put(18, 10, "G01"), Keep(40)], 8, 18, 0),
    (Many(999), &[Put(30, 34, "G01"), Keep(64)], 8, 30, 0),
    (Many(999), &[Put(30, 58, "J64"), Keep(64)], 8, 30, 0),
    (Many(999), &[Put(61, 10, "M95"), Keep(64)], 8, 61, 0),
    (Many(999), &[Put(61, 46, "Z08"), Keep(64)], 8, 61, 0),
    (Many(999), &[Put(61, 10, "G01G02"), Keep(64)], 8, 61, 0),
    (Many(999), &[Put(61, 10, "G01"), Put(61, 46, "G01"), Keep(64)], 8, 61, 0),
    (Many(999), &[Put(30, 10, "G01"), Put(61, 46, "G01"), Keep(64)], 8, 30, 0),
    (ManyBackwards(999), &[Put(61, 46, "Z09"), Keep(64)], 8, 61, 0),
    (ManyOverLetters(999), &[Put(61, 46, "G01"), Keep(64)], 8, 61, 0),
    // Beside a fault with a lower number.
    (Many(999), &[Put(61, 10, "G01"), Put(61, 61, "x"), Keep(64)], 5, 61, 61),
    (Many(999), &[Put(61, 10, "G01"), Put(61, 46, "Z 9"), Keep(64)], 6, 61, 46),
    (Many(999), &[Put(61, 10, "G01"), Put(61, 46, "Z00"), Keep(64)], 7, 61, 46),
    // The file type.
    (Many(99), &[Put(15, 4, "G")], 0, 0, 0),
    (Many(100), &[Put(8, 52, "G01"), Put(15, 4, "G"), Keep(20)], 8, 8, 0),
    (Many(999), &[Put(121, 4, "G"), Keep(124)], 8, 121, 0),
];

/// Files of more than 255 satellites that are accepted, or refused at a row or after
/// it; these aren't stored. Of 999 the comments are lines 127 to 130, the epoch 131,
/// the rows 132 to 1130, EOF 1131; in mode V the rows are 132 to 2129.
const MANY_BY_HAND: &[Hand] = &[
    (Many(255), &[], 0, 0, 0),
    (Many(256), &[], 0, 0, 0),
    (Many(272), &[], 0, 0, 0),
    (Many(273), &[], 0, 0, 0),
    (Many(986), &[], 0, 0, 0),
    (Many(987), &[], 0, 0, 0),
    (Many(998), &[], 0, 0, 0),
    (Many(999), &[], 0, 0, 0),
    (ManyBackwards(256), &[], 0, 0, 0),
    (ManyBackwards(999), &[], 0, 0, 0),
    (ManyOverLetters(256), &[], 0, 0, 0),
    (ManyOverLetters(999), &[], 0, 0, 0),
    (MovingMany(256), &[], 0, 0, 0),
    (MovingMany(999), &[], 0, 0, 0),
    (Many(999), &[Put(3, 4, "999"), Put(121, 4, "M ")], 0, 0, 0),
    // The rows: the 256th and the last under other names, exchanged, gone, twice.
    (Many(999), &[Put(387, 2, "E57")], 10, 387, 0),
    (Many(999), &[Put(387, 2, "G01")], 10, 387, 0),
    (Many(999), &[Put(1130, 2, "Z10")], 10, 1130, 0),
    (Many(999), &[Put(1130, 2, "G01")], 10, 1130, 0),
    (Many(999), &[Swap(1129, 1130)], 10, 1129, 0),
    (Many(999), &[Drop(1130)], 4, 1130, 0),
    (Many(999), &[Double(1130)], 4, 1131, 0),
    (Many(999), &[Put(1130, 5, "1000000.000000")], 7, 1130, 5),
    (Many(999), &[Insert(1131, "EP"), Insert(1131, "EP")], 4, 1132, 0),
    (Many(999), &[Insert(1131, "EP")], 0, 0, 0),
    (MovingMany(999), &[Put(2129, 2, "Z08")], 10, 2129, 0),
    (MovingMany(999), &[Drop(2129)], 4, 2129, 0),
    // Its end.
    (Many(999), &[Drop(1131)], 1, 1131, 0),
    (Many(999), &[Join(1131)], 1, 1131, 0),
    (Many(999), &[Put(1131, 4, "x")], 5, 1131, 4),
    (Many(999), &[After(b"x")], 11, 1132, 0),
];

/// Makes a file of version d one of version c.
pub(crate) const AS_C: Edit = Put(1, 2, "c");
pub(crate) const AS_D: Edit = Put(1, 2, "d");
/// Comment lines of 60 and of 61 characters, their columns by their last digits.
pub(crate) const COMMENT_60: &str = "/* 456789012345678901234567890123456789012345678901234567890";
pub(crate) const COMMENT_61: &str = "/* 4567890123456789012345678901234567890123456789012345678901";
/// One of 61 without a text, and a line of 61 that is none.
const BLANK_61: &str = "/*                                                           ";
const SLASH_61: &str = "/x 4567890123456789012345678901234567890123456789012345678901";

/// Request 9, files of version c: "at most 85 satellites, exactly five lines of each kind,
/// exactly four comments, comment lines of at most 60 characters, all else as in 01".
const OLDER: &[Hand] = &[
    // As they stand, of both modes, with notes, with clocks that are bare or cut.
    (Paper, &[AS_C], 0, 0, 0),
    (Night, &[AS_C], 0, 0, 0),
    (Motion, &[AS_C], 0, 0, 0),
    (Rows, &[AS_C], 0, 0, 0),
    (Clocks, &[AS_C], 0, 0, 0),
    (MovingClocks, &[AS_C], 0, 0, 0),
    (Notes, &[AS_C], 0, 0, 0),
    (MovingNotes, &[AS_C], 0, 0, 0),
    (Paper, &[AS_C, NOTE], 0, 0, 0),
    (Paper, &[AS_C, BARE, Put(25, 80, " ")], 0, 0, 0),
    (Paper, &[AS_C, Put(24, 47, " 999999.000000")], 0, 0, 0),
    (Paper, &[AS_C, Put(24, 19, "    -00.500000")], 0, 0, 0),
    // Its first line; `#d` and `#c` in another.
    (Nothing, &[After(b"#c")], 1, 1, 0),
    (Nothing, &[After(b"#c\n")], 6, 1, 3),
    (Nothing, &[After(b"#cP\n")], 6, 1, 4),
    (Nothing, &[After(b"#\nc")], 4, 1, 0),
    (Nothing, &[After(b" #c\n")], 4, 1, 0),
    (Paper, &[AS_C, Put(1, 3, "v")], 6, 1, 3),
    (Paper, &[AS_C, Put(1, 3, "c")], 6, 1, 3),
    (Paper, &[AS_C, Put(1, 3, "v"), Put(1, 61, "x")], 5, 1, 61),
    (Paper, &[AS_C, Put(1, 61, "x")], 5, 1, 61),
    (Paper, &[AS_C, Put(1, 33, " 100001")], 7, 1, 33),
    (Paper, &[AS_C, Insert(1, "")], 4, 1, 0),
    (Paper, &[AS_C, Drop(1)], 4, 1, 0),
    (Paper, &[AS_C, Double(1)], 4, 2, 0),
    (Paper, &[AS_C, Insert(2, "#dP2013  4  3  0  0  0.00000000       1")], 4, 2, 0),
    (Paper, &[AS_C, Insert(23, "#dP2013  4  3  0  0  0.00000000       1")], 4, 23, 0),
    (Paper, &[AS_C, Insert(24, "#d")], 4, 24, 0),
    (Paper, &[AS_C, Whole(25, "#d")], 4, 25, 0),
    (Paper, &[Insert(2, "#cP2013  4  3  0  0  0.00000000       1")], 4, 2, 0),
    (Paper, &[Insert(24, "#c")], 4, 24, 0),
    // 85 satellites and more; beside a malformed slot, 00, an unused column.
    (Many(84), &[AS_C], 0, 0, 0),
    (Many(85), &[AS_C], 0, 0, 0),
    (MovingMany(85), &[AS_C], 0, 0, 0),
    (Many(86), &[AS_C, Keep(12)], 7, 3, 4),
    (Many(86), &[AS_C, Put(3, 4, "086"), Keep(12)], 7, 3, 4),
    (Many(255), &[AS_C, Keep(12)], 7, 3, 4),
    (Many(999), &[AS_C, Keep(12)], 7, 3, 4),
    (Paper, &[AS_C, Put(3, 4, "  0")], 7, 3, 4),
    (Many(86), &[AS_C, Put(3, 13, "G 2"), Keep(12)], 6, 3, 13),
    (Many(86), &[AS_C, Put(3, 58, "  0"), Keep(12)], 6, 3, 58),
    (Many(86), &[AS_C, Put(3, 13, "G00"), Keep(12)], 7, 3, 4),
    (Many(86), &[AS_C, Put(3, 13, "G01"), Keep(12)], 7, 3, 4),
    (Many(86), &[AS_C, Put(3, 13, "G 2"), Put(3, 9, "x"), Keep(12)], 5, 3, 9),
    (Paper, &[AS_C, Put(3, 4, " 86")], 6, 3, 13),
    // "exactly five lines of each kind"
    (Many(86), &[AS_C, Put(3, 4, " 85"), Keep(12)], 4, 8, 0),
    (Many(85), &[AS_C, Drop(7), Keep(12)], 4, 7, 0),
    (Many(85), &[AS_C, Insert(8, NO_SATELLITES), Keep(12)], 4, 8, 0),
    (Many(85), &[AS_C, Drop(12), Keep(14)], 4, 12, 0),
    (Many(85), &[AS_C, Insert(13, NO_ACCURACIES), Keep(14)], 4, 13, 0),
    (Many(85), &[AS_C, Put(7, 58, "G01"), Keep(12)], 8, 7, 0),
    (Many(84), &[AS_C, Put(7, 58, "G85"), Keep(12)], 8, 7, 0),
    // Comments of 60 characters and of 61; blanks at the end count.
    (Paper, &[AS_C, Whole(19, COMMENT_60)], 0, 0, 0),
    (Paper, &[AS_C, Whole(19, COMMENT_61)], 3, 19, 61),
    (Paper, &[Whole(19, COMMENT_61)], 0, 0, 0),
    (Paper, &[AS_C, Put(19, 60, " ")], 0, 0, 0),
    (Paper, &[AS_C, Put(19, 61, " ")], 3, 19, 61),
    (Paper, &[AS_C, Whole(20, BLANK_61)], 3, 20, 61),
    (Paper, &[Whole(20, BLANK_61)], 0, 0, 0),
    (Paper, &[AS_C, Whole(22, COMMENT_60)], 0, 0, 0),
    (Paper, &[AS_C, Whole(22, COMMENT_61)], 3, 22, 61),
    (Paper, &[AS_C, Put(19, 80, "x")], 3, 19, 61),
    (Paper, &[AS_C, Put(19, 81, "x")], 3, 19, 61),
    (Paper, &[AS_C, Put(19, 300, "x")], 3, 19, 61),
    (Paper, &[AS_C, Put(19, 3, "x"), Put(19, 61, "x")], 3, 19, 61),
    (Paper, &[AS_C, Put(19, 3, "x"), Put(19, 60, "x")], 5, 19, 3),
    (Paper, &[AS_C, Byte(19, 61, 127)], 2, 19, 61),
    (Paper, &[AS_C, Byte(19, 70, 9)], 2, 19, 70),
    (Paper, &[AS_C, Whole(19, COMMENT_61), Join(19)], 3, 19, 61),
    // Four of them: a fifth, one of 60 and one of 61; three.
    (Paper, &[AS_C, Insert(23, "/*")], 4, 23, 0),
    (Paper, &[AS_C, Insert(23, "/*x")], 4, 23, 0),
    (Paper, &[AS_C, Insert(23, COMMENT_60)], 4, 23, 0),
    (Paper, &[AS_C, Insert(23, COMMENT_61)], 3, 23, 61),
    (Paper, &[AS_C, Insert(23, BLANK_61)], 3, 23, 61),
    (Paper, &[AS_C, Drop(22)], 4, 22, 0),
    (Paper, &[AS_C, Drop(22), Drop(21)], 4, 21, 0),
    (Talkative(0), &[AS_C], 4, 19, 0),
    (Talkative(3), &[AS_C], 4, 22, 0),
    (Talkative(4), &[AS_C], 0, 0, 0),
    (Talkative(5), &[AS_C], 4, 23, 0),
    (Talkative(103), &[AS_C], 4, 23, 0),
    // A `/*` line out of place, of 61 and of 60; in a d file; a line that is none.
    (Paper, &[AS_C, Insert(2, COMMENT_61)], 3, 2, 61),
    (Paper, &[AS_C, Insert(3, COMMENT_60)], 4, 3, 0),
    (Paper, &[AS_C, Insert(19, COMMENT_61)], 3, 19, 61),
    (Paper, &[AS_C, Insert(24, COMMENT_61)], 3, 24, 61),
    (Paper, &[AS_C, Insert(24, COMMENT_60)], 4, 24, 0),
    (Paper, &[Insert(24, COMMENT_61)], 4, 24, 0),
    (Paper, &[AS_C, Insert(25, COMMENT_61)], 3, 25, 61),
    (Paper, &[AS_C, Insert(25, COMMENT_60)], 4, 25, 0),
    (Paper, &[Insert(25, COMMENT_61)], 4, 25, 0),
    (Paper, &[AS_C, Whole(23, SLASH_61)], 4, 23, 0),
    (Paper, &[AS_C, Whole(19, SLASH_61)], 4, 19, 0),
    (Paper, &[AS_C, After(b"/*")], 11, 26, 0),
    // One as line 1: its file is no c file.
    (Paper, &[AS_C, Insert(1, COMMENT_61)], 4, 1, 0),
    (Paper, &[Insert(1, COMMENT_61)], 4, 1, 0),
    (Paper, &[AS_C, Insert(1, COMMENT_61), Put(1, 81, "x")], 3, 1, 81),
    // The other lines have 80 characters, rows and notes too.
    (Paper, &[AS_C, Put(1, 80, " ")], 0, 0, 0),
    (Paper, &[AS_C, Put(1, 81, " ")], 3, 1, 81),
    (Paper, &[AS_C, Put(3, 80, " ")], 0, 0, 0),
    (Paper, &[AS_C, Put(3, 81, " ")], 3, 3, 81),
    (Paper, &[AS_C, Put(4, 80, " ")], 0, 0, 0),
    (Paper, &[AS_C, Put(4, 81, " ")], 3, 4, 81),
    (Paper, &[AS_C, Put(4, 61, "x")], 5, 4, 61),
    (Paper, &[AS_C, Put(23, 61, " ")], 0, 0, 0),
    (Paper, &[AS_C, Put(24, 80, "P")], 0, 0, 0),
    (Paper, &[AS_C, Put(24, 81, " ")], 3, 24, 81),
    (Paper, &[AS_C, NOTE, Put(25, 81, " ")], 3, 25, 81),
    (Paper, &[AS_C, Put(25, 80, " ")], 0, 0, 0),
    (Paper, &[AS_C, Put(25, 81, " ")], 3, 25, 81),
    // Its end: no last LF; bytes after it, of this version and of the other.
    (Paper, &[AS_C, Join(25)], 1, 25, 0),
    (Paper, &[AS_C, Keep(24)], 1, 25, 0),
    (Paper, &[AS_C, After(b"\n")], 11, 26, 0),
    (Paper, &[AS_C, AfterItself], 11, 26, 0),
    (Paper, &[AfterItself, AS_C], 11, 26, 0),
    (Paper, &[AS_C, AfterItself, AS_D], 11, 26, 0),
    (Motion, &[AfterItself, AS_C], 11, 31, 0),
    // Faults of the other lines.
    (Paper, &[AS_C, CarriageReturns], 2, 1, 61),
    (Paper, &[AS_C, Put(2, 4, "1735")], 8, 2, 0),
    (Paper, &[AS_C, Put(13, 4, "R ")], 8, 13, 0),
    (Paper, &[AS_C, Put(23, 18, "15")], 9, 23, 0),
    (Paper, &[AS_C, Put(24, 2, "G08")], 10, 24, 0),
    (Paper, &[AS_C, Put(24, 5, "  5000.0000001")], 6, 24, 5),
    (Paper, &[AS_C, Put(24, 5, "1000000.000000")], 7, 24, 5),
    (Paper, &[AS_C, Insert(25, "EV")], 4, 25, 0),
    (Motion, &[AS_C, Put(27, 73, "12345678")], 7, 27, 73),
];

/// Their tables and the questions about them.
const OLDER_ASKED: &[Asked] = &[
    // The table of the paper's file in either version: but for V the answers are the same.
    (
        Paper,
        &[AS_C],
        [1, 1, 308, 23],
        [0, 0, 0, 7107],
        &[
            "case 1215",
            "front 0 0 0 1215 |c|",
            "whole 0 0 0 1215 |c|",
            "read 0 0 0 1215 |c|",
            "sums 7107 0 10666195931946167104 9802001914446447297",
            "mode P",
            "start8 487166400000000000",
            "epochs 1",
            "texts |ORBIT|WGS84|BCT|PORT|",
            "satellites 1",
            "G07 0",
            "comments 4",
            "|ONE ROW|",
            "||",
            "||",
            "||",
            "P 0 G07 5000000001 -500000 0 absent unknown unknown unknown unknown ....",
            "rows 1 known 1 absent 0",
            "read_front 0 0 0 1215 |c|",
            "sums 7107 0 10666195931946167104 9802001914446447297",
            "comment 0 0 0 1101 7 |ONE ROW|",
            "satellite 0 0 0 0",
            "row 0 0 0 5000000001 -500000 0 absent",
        ],
    ),
    (
        Motion,
        &[AS_C],
        [2, 2, 308, 92],
        [1, 0, 1, 7102],
        &[
            "read 0 0 0 1605 |c|",
            "sums 227233 225 10666195931946167104 11604800878146835693",
            "mode V",
            "rows 4 known 3 absent 1",
            "comment 0 0 0 1111 0 ||",
            "satellite 0 0 0 1",
            "row 0 0 0 -12593593500 10170327650 -20354534400 -55976000",
        ],
    ),
    // 12 and 13, a refusal and bytes after: a blank in place of the version.
    (
        Paper,
        &[AS_C],
        [1, 1, 307, 23],
        [4, 1, 0, 7106],
        &[
            "front 0 0 0 1215 |c|",
            "whole 0 0 0 1215 |c|",
            "read 12 0 0 0 | |",
            "read_front 12 0 0 0 | |",
            "comment 13 0 0 0 0 ||",
            "satellite 13 0 0 0",
            "row 13 0 0 absent absent",
        ],
    ),
    (
        Paper,
        &[AfterItself, AS_C],
        [1, 1, 308, 23],
        [0, 0, 0, 7107],
        &[
            "case 2430",
            "front 0 0 0 1215 |c|",
            "whole 11 26 0 0 | |",
            "read 11 26 0 0 | |",
            "read_front 0 0 0 1215 |c|",
            "comment 11 26 0 0 0 ||",
            "satellite 11 26 0 0",
            "row 11 26 0 absent absent",
        ],
    ),
    (
        Paper,
        &[AS_C, AfterItself, AS_D],
        [1, 1, 308, 23],
        [0, 0, 0, 7107],
        &["front 0 0 0 1215 |d|", "whole 11 26 0 0 | |", "read_front 0 0 0 1215 |d|"],
    ),
    (
        Paper,
        &[AS_C, Whole(19, COMMENT_61)],
        [1, 1, 308, 23],
        [0, 0, 0, 7107],
        &[
            "front 3 19 61 0 | |",
            "whole 3 19 61 0 | |",
            "read 3 19 61 0 | |",
            "sums 7777 7777 3351868396646214080 4045731010258001686",
            "read_front 3 19 61 0 | |",
            "comment 3 19 61 0 0 ||",
            "satellite 3 19 61 0",
            "row 3 19 61 absent absent",
        ],
    ),
    (
        Paper,
        &[AS_C, Whole(19, COMMENT_60)],
        [1, 1, 308, 23],
        [0, 0, 0, 7107],
        &[
            "read 0 0 0 1265 |c|",
            "|456789012345678901234567890123456789012345678901234567890|",
            "comment 0 0 0 1101 57 |456789012345678901234567890123456789012345678901234567890|",
        ],
    ),
    // 85 satellites and 86: 61 * 18 + 56 bytes before the rows and after them, 61 a row; of 86
    // two lines more.
    (
        Many(85),
        &[AS_C],
        [85, 85, 308, 1955],
        [3, 0, 84, 7185],
        &[
            "whole 0 0 0 6339 |c|",
            "read 0 0 0 6339 |c|",
            "satellites 85",
            "G85 588",
            "rows 85 known 85 absent 0",
            "satellite 0 0 0 84",
            "row 0 0 0 84000001 -500000 0 1000000",
        ],
    ),
    (
        Many(86),
        &[AS_C],
        [86, 86, 308, 1978],
        [0, 0, 85, 7186],
        &[
            "case 6522",
            "front 7 3 4 0 | |",
            "whole 7 3 4 0 | |",
            "read 7 3 4 0 | |",
            "read_front 7 3 4 0 | |",
            "comment 7 3 4 0 0 ||",
            "satellite 7 3 4 0",
            "row 7 3 4 absent absent",
        ],
    ),
    // Five comments, of which the fifth is the first that isn't taken.
    (
        Talkative(5),
        &[AS_C],
        [1, 1, 385, 23],
        [4, 0, 0, 7107],
        &["whole 4 23 0 0 | |", "read 4 23 0 0 | |", "comment 4 23 0 0 0 ||"],
    ),
    (
        Talkative(5),
        &[],
        [1, 1, 385, 23],
        [4, 0, 0, 7107],
        &["comments 5", "|COMMENT 4|", "comment 0 0 0 1153 9 |COMMENT 4|"],
    ),
];

/// A note after the row of the paper's file: 000's own, and one of which nothing
/// is known. The row without place and clock.
pub(crate) const NOTE: Edit =
    Insert(25, "EP    55   55   55     222  1234567 -1234567  5999999      -30       21 -1230000");
pub(crate) const BARE: Edit = Insert(25, "EP");
const ABSENT: Edit = Put(24, 5, "      0.000000      0.000000      0.000000 999999.999999");

/// The paper's file begun one second later.
const ONE_SECOND: [Edit; 3] =
    [Put(1, 21, " 1.00000000"), Put(2, 9, "259201.00000000"), Put(23, 21, " 1.00000000")];

// ---------------------------------------------------------------------------
// Generated files: what they hold
// ---------------------------------------------------------------------------

/// True once in so many times.
pub(crate) fn once_in(random: &mut Random, times: usize) -> bool {
    random.below(times) == 0
}

/// What a generated file says before its rows.
pub(crate) struct Plan {
    version: Version,
    velocities: bool,
    start: i64,
    interval: i64,
    epochs: usize,
    pub(crate) identifiers: Vec<u64>,
    file_type: u8,
    time_system: &'static str,
    comments: usize,
    /// One row in so many has a note.
    notes: usize,
    /// Whether fields are spelt in any way that is right.
    odd: bool,
    done: Vec<Done>,
}

/// A damage: its name, and the record (its letter in `lines.rs`) and column of
/// the first byte that it changed.
struct Done {
    name: &'static str,
    letter: u8,
    column: usize,
}

/// Days around which something turns: the ends of months, leap days, the
/// ends of years, of GPS weeks and of the calendar of the paper.
const DAYS: &[(i64, i64, i64)] = &[
    (1980, 1, 6),
    (1980, 1, 12),
    (1980, 2, 28),
    (1980, 2, 29),
    (1999, 12, 31),
    (2000, 2, 28),
    (2000, 2, 29),
    (2001, 2, 28),
    (2004, 2, 29),
    (2012, 12, 31),
    (2013, 4, 3),
    (2013, 4, 6),
    (2013, 4, 30),
    (2016, 11, 30),
    (2019, 12, 31),
    (2023, 2, 28),
    (2038, 1, 31),
    (2096, 2, 28),
    (2099, 2, 28),
    (2099, 12, 30),
    (2099, 12, 31),
];

const TIMES: &[i64] =
    &[0, 1, SECOND, 43_200 * SECOND, 85_500 * SECOND, 86_370 * SECOND, DAY - SECOND, DAY - 1];

const INTERVALS: &[i64] = &[
    1,
    SECOND / 2,
    SECOND,
    30 * SECOND,
    300 * SECOND,
    900 * SECOND,
    900 * SECOND,
    3600 * SECOND,
    43_200 * SECOND,
    DAY - 1,
    DAY,
    DAY + 1,
    99_999 * SECOND + 99_999_999,
];

pub(crate) fn choose_start(random: &mut Random) -> i64 {
    let day = if once_in(random, 3) {
        GPS_ZERO + random.below(43_825) as i64
    } else {
        let &(year, month, day) = random.pick(DAYS);
        modified_julian_day(lines::Date { year, month, day })
    };
    let time =
        if once_in(random, 3) { (random.next() % DAY as u64) as i64 } else { *random.pick(TIMES) };
    day * DAY + time
}

pub(crate) fn choose_interval(random: &mut Random) -> i64 {
    if once_in(random, 4) {
        1 + (random.next() % (100_000 * SECOND as u64 - 1)) as i64
    } else {
        *random.pick(INTERVALS)
    }
}

/// Many satellites: as many as were allowed before request 6 and more, as fill their
/// lines and as begin another, and all.
const MANY: &[usize] = &[85, 86, 238, 255, 256, 272, 273, 986, 987, 998, 999, 999];

/// Mostly few satellites; sometimes as many as fill a line, five lines or all.
fn choose_number(random: &mut Random) -> usize {
    match random.below(60) {
        0 => *random.pick(&[84, 85, 86, 101, 102, 103]),
        1 if once_in(random, 4) => *random.pick(MANY),
        1 if once_in(random, 4) => 1 + random.below(MOST_SATELLITES),
        2..=4 => *random.pick(&[15, 16, 17, 18, 19, 33, 34, 35]),
        5..=8 => 6 + random.below(9),
        _ => 1 + random.below(5),
    }
}

/// So many identifiers, all different; with a letter of their own or several.
fn choose_identifiers(random: &mut Random, number: usize) -> (Vec<u64>, u8) {
    let one_letter = number < 99 && !once_in(random, 3);
    let letters: &[u8] = match number {
        _ if one_letter => b"GRLSIECJ",
        256.. if once_in(random, 2) => b"ABCDEFGHIJKLMNOPQRSTUVWXYZ",
        _ => b"GRLSIECJGRECAMZ",
    };
    let letter = *random.pick(letters);
    let mut identifiers: Vec<u64> = Vec::new();
    while identifiers.len() < number {
        let letter = if one_letter { letter } else { *random.pick(letters) };
        let code = u64::from(letter) * 100 + 1 + random.below(99) as u64;
        if !identifiers.contains(&code) {
            identifiers.push(code);
        }
    }
    if once_in(random, 2) {
        identifiers.sort();
    }
    let mixed = !one_letter || once_in(random, 5);
    (identifiers, if mixed { b'M' } else { letter })
}

/// Two files in five are of version c.
fn choose_version(random: &mut Random) -> Version {
    if random.below(5) < 2 {
        Version::C
    } else {
        Version::D
    }
}

/// As many satellites as the version allows, at most; of more than c allows some files have
/// one more, or all, and are refused.
fn bounded(random: &mut Random, version: Version, number: usize) -> usize {
    let most = version.most_satellites() as usize;
    match random.below(4) {
        _ if number <= most => number,
        0 => most + 1,
        1 => number,
        _ => most,
    }
}

/// Four, or of version d so many more.
fn comments_with(version: Version, more: usize) -> usize {
    if version.allows_more_than_four() {
        4 + more
    } else {
        4
    }
}

fn choose_plan(random: &mut Random) -> Plan {
    let version = choose_version(random);
    let number = choose_number(random);
    let number = bounded(random, version, number);
    let (identifiers, file_type) = choose_identifiers(random, number);
    let most_epochs = match number {
        1..=3 => 6,
        4..=12 => 3,
        13..=40 => 2,
        _ => 1,
    };
    let more = if once_in(random, 40) { 1 + random.below(90) } else { random.below(3) };
    Plan {
        version,
        velocities: number < 200 && once_in(random, 3),
        start: choose_start(random),
        interval: choose_interval(random),
        epochs: 1 + random.below(most_epochs).min(random.below(most_epochs)),
        identifiers,
        file_type,
        time_system: *random.pick(&lines::TIME_SYSTEMS),
        comments: comments_with(version, more),
        notes: *random.pick(&[1, 2, 8, 8, 1000]),
        odd: false,
        done: Vec::new(),
    }
}

/// The most rows of a large file, those of V too.
const LARGE_ROWS: usize = 3000;

/// More satellites, epochs or comments than the programs have room for: any
/// number of satellites, and as many epochs as give so many rows at most.
fn choose_large_plan(random: &mut Random) -> Plan {
    let rest = choose_plan(random);
    let number = match random.below(5) {
        0 => *random.pick(MANY),
        1 => 1 + random.below(9),
        2 => 1 + random.below(MOST_SATELLITES),
        _ => 1 + random.below(255),
    };
    let number = bounded(random, rest.version, number);
    let (identifiers, file_type) = choose_identifiers(random, number);
    let velocities = once_in(random, 2);
    let epochs = 1 + random.below(LARGE_ROWS / number / if velocities { 2 } else { 1 });
    let more = if once_in(random, 4) { random.below(400) } else { random.below(3) };
    let comments = comments_with(rest.version, more);
    Plan { velocities, epochs, identifiers, file_type, comments, ..rest }
}

/// Some epochs around the midnight before or after a day on which something
/// turns.
fn choose_night_plan(random: &mut Random) -> Plan {
    let &(year, month, day) = random.pick(DAYS);
    let midnight = (modified_julian_day(lines::Date { year, month, day }) + 1) * DAY;
    let interval =
        *random.pick(&[SECOND, 30 * SECOND, 300 * SECOND, 900 * SECOND, 43_200 * SECOND]);
    let before = 1 + random.below(3) as i64;
    let start = (midnight - before * interval).max(GPS_ZERO * DAY);
    Plan { start, interval, epochs: 4 + random.below(3), ..choose_plan(random) }
}

// ---------------------------------------------------------------------------
// Generated files: how they are spelt
// ---------------------------------------------------------------------------

/// Spells fields in any way that is right, or plainly where it isn't `odd`.
struct Pen<'a> {
    random: &'a mut Random,
    odd: bool,
}

impl Pen<'_> {
    fn oddly(&mut self, times: usize) -> bool {
        self.odd && once_in(self.random, times)
    }

    /// "Leading zeros may stand."
    fn zeros(&mut self, room: usize) -> String {
        let count = match self.oddly(4) {
            true if self.oddly(2) => room,
            true => self.random.below(room + 1),
            false => 0,
        };
        "0".repeat(count)
    }

    fn integer(&mut self, width: usize, value: i64) -> String {
        let digits = value.to_string();
        // a number with more digits than the field has columns stands past it
        let zeros = self.zeros(width.saturating_sub(digits.len()));
        format!("{:>width$}", zeros + &digits)
    }

    fn decimal(&mut self, width: usize, places: usize, value: i64) -> String {
        self.signed_decimal(width, places, value.abs(), value < 0)
    }

    fn signed_decimal(&mut self, width: usize, places: usize, size: i64, minus: bool) -> String {
        let unit = lines::power_of_ten(places);
        let digits = format!("{}.{:0places$}", size / unit, size % unit);
        let sign = if minus { "-" } else { "" };
        let zeros = self.zeros(width - digits.len() - sign.len());
        format!("{:>width$}", format!("{sign}{zeros}{digits}"))
    }

    /// "a minus may stand before the first digit and minus zero is zero"
    fn signed_integer(&mut self, width: usize, value: i64) -> String {
        let minus = value < 0 || value == 0 && self.oddly(3);
        let (sign, digits) = (if minus { "-" } else { "" }, value.abs().to_string());
        let zeros = self.zeros(width - digits.len() - sign.len());
        format!("{:>width$}", format!("{sign}{zeros}{digits}"))
    }

    /// "Minus zero is zero."
    fn coordinate(&mut self, value: i64) -> String {
        let minus = value < 0 || value == 0 && self.oddly(3);
        self.signed_decimal(14, 6, value.abs(), minus)
    }

    /// Request 3: an absent clock by its six nines, after which all six columns
    /// are digits or all six are blank.
    fn clock(&mut self, value: i64) -> String {
        if value != ABSENT_CLOCK || !self.oddly(2) {
            return self.coordinate(value);
        }
        let digits = self.random.next() % 1_000_000;
        let fraction = match self.random.below(4) {
            0 | 1 => " ".repeat(6),
            2 => "000000".to_string(),
            _ => format!("{digits:06}"),
        };
        let front = if self.oddly(4) { "0" } else { " " };
        format!("{front}999999.{fraction}")
    }

    fn moment(&mut self, instant: i64) -> String {
        let (year, month, day) = date_of(instant / DAY);
        let time = instant % DAY;
        let minutes = time / (60 * SECOND);
        let parts = [
            self.integer(4, year),
            self.integer(2, month),
            self.integer(2, day),
            self.integer(2, minutes / 60),
            self.integer(2, minutes % 60),
            self.decimal(11, 8, time % (60 * SECOND)),
        ];
        parts.join(" ")
    }

    /// Printable characters, blanks among them.
    fn text(&mut self, width: usize) -> String {
        let character = |random: &mut Random| match random.below(8) {
            0 => ' ',
            1 => (32 + random.below(95)) as u8 as char,
            _ => (b'A' + random.below(26) as u8) as char,
        };
        (0..width).map(|_| character(self.random)).collect()
    }

    /// "A short line counts as padded with blanks", and a padded one may stand.
    fn line(&mut self, text: String) -> Vec<u8> {
        let mut line = match self.oddly(3) {
            true => text.into_bytes(),
            false => without_trailing_blanks(text.as_bytes()).to_vec(),
        };
        if self.oddly(12) {
            let length = *self.random.pick(&[lines::WIDTH, line.len() + 1, 60]);
            line.resize(length.clamp(line.len(), lines::WIDTH), b' ');
        }
        line.push(b'\n');
        line
    }
}

/// The date of an MJD from 1980 on.
pub(crate) fn date_of(modified_julian_day: i64) -> (i64, i64, i64) {
    let mut days = modified_julian_day - (GPS_ZERO - 5);
    let mut year = 1980;
    while days >= days_in_year(year) {
        days -= days_in_year(year);
        year += 1;
    }
    let mut month = 1;
    while days >= lines::days_in_month(year, month) {
        days -= lines::days_in_month(year, month);
        month += 1;
    }
    (year, month, days + 1)
}

/// Any fraction of which "108*F and 125*S differ by less than 108".
fn choose_fraction(pen: &mut Pen, time: i64) -> i64 {
    let nearest = (125 * time + 54) / 108;
    let other = nearest + *pen.random.pick(&[-1, 0, 1]);
    let allowed = (108 * other - 125 * time).abs() < 108;
    let allowed = allowed && (0..lines::power_of_ten(13)).contains(&other);
    if allowed {
        other
    } else {
        nearest.min(lines::power_of_ten(13) - 1)
    }
}

fn write_start(pen: &mut Pen, plan: &Plan) -> [String; 2] {
    let mode = if plan.velocities { "V" } else { "P" };
    let texts = if pen.oddly(3) {
        format!("{} {} {} {}", pen.text(5), pen.text(5), pen.text(3), pen.text(4))
    } else {
        "ORBIT IGS08 HLM  IGS".to_string()
    };
    let epochs = pen.integer(7, plan.epochs as i64);
    let symbol = plan.version.symbol();
    let first = format!("{symbol}{mode}{} {epochs} {texts}", pen.moment(plan.start));
    let (day, time) = (plan.start / DAY, plan.start % DAY);
    let week = (day - GPS_ZERO) / 7;
    let seconds = (day - GPS_ZERO) % 7 * DAY + time;
    let fraction = choose_fraction(pen, time);
    let two = format!(
        "## {} {} {} {} {}",
        pen.integer(4, week),
        pen.decimal(15, 8, seconds),
        pen.decimal(14, 8, plan.interval),
        pen.integer(5, day),
        pen.decimal(15, 13, fraction),
    );
    [first, two]
}

/// The lines `+ ` and `++`.
fn write_slots(pen: &mut Pen, plan: &Plan) -> Vec<String> {
    let n = plan.identifiers.len();
    let (mut identifiers, mut exponents) = (Vec::new(), Vec::new());
    for line in 0..satellite_lines(n) {
        let number = if line == 0 { pen.integer(3, n as i64) } else { "   ".to_string() };
        let (mut names, mut accuracies) = (String::new(), String::new());
        for place in 17 * line..17 * line + 17 {
            if let Some(&code) = plan.identifiers.get(place) {
                let most = *pen.random.pick(&[1, 14, 100, 1000]);
                let exponent = pen.random.below(most) as i64;
                names += &show_code(code);
                accuracies += &pen.integer(3, exponent);
            } else {
                names += "  0";
                accuracies += "  0";
            }
        }
        identifiers.push(format!("+  {number}   {names}"));
        exponents.push(format!("++       {accuracies}"));
    }
    [identifiers, exponents].concat()
}

/// The lines `%c`, `%f` and `%i`.
fn write_fixed_lines(pen: &mut Pen, plan: &Plan) -> [String; 6] {
    let rest = "ccc cccc cccc cccc cccc ccccc ccccc ccccc ccccc";
    let bases = *pen.random.pick(&[
        (12_500_000, 1_025_000_000),
        (12_500_000, 1_025_000_000),
        (0, 0),
        (999_999_999, 99_999_999_999),
        (1, 1),
    ]);
    let mut floats = |one: i64, two: i64| {
        format!(
            "%f {} {} {} {}",
            pen.decimal(10, 7, one),
            pen.decimal(12, 9, two),
            pen.decimal(14, 11, 0),
            pen.decimal(18, 15, 0),
        )
    };
    let [first, second] = [floats(bases.0, bases.1), floats(0, 0)];
    let mut integers = || {
        let widths = [4, 4, 4, 4, 6, 6, 6, 6, 9];
        format!("%i {}", widths.map(|width| pen.integer(width, 0)).join(" "))
    };
    [
        format!("%c {}  cc {} {rest}", plan.file_type as char, plan.time_system),
        format!("%c cc cc ccc {rest}"),
        first,
        second,
        integers(),
        integers(),
    ]
}

/// Comments of every length that their version allows, their trailing blanks kept as they
/// are made.
fn write_comment(pen: &mut Pen, version: Version) -> Vec<u8> {
    let length = pen.random.below(20);
    let text = match pen.random.below(16) {
        0 => "/*".to_string(),
        1 => "/* ".to_string(),
        2 => format!("/*{}", " ".repeat(length)),
        3 if pen.odd => format!("/* {}.", pen.text(76)),
        4 => format!("/*    {}", pen.text(length)),
        5 => format!("/* {}   ", pen.text(length)),
        6 => format!("/* {}", pen.text(77)),
        7..=9 => format!("/* {}", pen.text(length)),
        _ => "/* CCC".to_string(),
    };
    let width = text.len().min(version.comment_width());
    [&text.as_bytes()[..width], b"\n"].concat()
}

const SIZES: &[i64] =
    &[0, 1, 500_000, 999_999, 1_000_000, 5_000_000_001, 26_560_123_456, 999_999_999_999];

pub(crate) fn choose_value(random: &mut Random) -> i64 {
    let size = match random.below(4) {
        0 => *random.pick(SIZES),
        1 => (random.next() % 1_000_000_000_000) as i64,
        _ => (random.next() % 42_000_000_000) as i64,
    };
    if once_in(random, 2) {
        -size
    } else {
        size
    }
}

pub(crate) fn choose_place(random: &mut Random) -> [i64; 3] {
    let mut place = [0; 3].map(|_: i64| choose_value(random));
    match random.below(10) {
        0 | 1 => place = [0; 3],
        2 => place[random.below(3)] = 0,
        3 => {
            let kept = random.below(3);
            place = [0, 1, 2].map(|axis| if axis == kept { place[axis] } else { 0 });
        }
        _ => {}
    }
    place
}

/// Clocks that are present and near the bounds, or zero.
const CLOCK_ENDS: &[i64] =
    &[lines::MOST_CLOCK, 999_998_000_000, -999_999_000_000, -lines::MOST_MAGNITUDE, 0];

/// The nines of an absent clock, numbers near them, and others.
pub(crate) fn choose_clock(random: &mut Random) -> i64 {
    match random.below(8) {
        0 | 1 => ABSENT_CLOCK,
        2 => *random.pick(CLOCK_ENDS),
        _ => choose_value(random) % 1_000_000_000,
    }
}

/// Columns 61 to 80 of a P or V.
fn write_tail(pen: &mut Pen, flags: bool) -> String {
    let mut tail = String::new();
    for (width, large) in [(2, 99), (2, 99), (2, 99), (3, 999)] {
        let value = match pen.random.below(8) {
            0 | 1 => None,
            2 => Some(large),
            3 => Some(0),
            _ => Some(pen.random.below(large as usize) as i64),
        };
        let text = value.map(|value| pen.integer(width, value));
        tail += &format!(" {}", text.unwrap_or(" ".repeat(width)));
    }
    if flags {
        let mut flag = |letter: &str| {
            if once_in(pen.random, 3) {
                letter.to_string()
            } else {
                " ".to_string()
            }
        };
        tail += &format!(" {}{}  {}{}", flag("E"), flag("P"), flag("M"), flag("P"));
    }
    tail
}

fn write_row(pen: &mut Pen, letter: char, code: u64) -> Vec<u8> {
    let numbers: String =
        choose_place(pen.random).into_iter().map(|value| pen.coordinate(value)).collect();
    let clock = choose_clock(pen.random);
    let clock = pen.clock(clock);
    let with_tail = once_in(pen.random, 3);
    let tail = if with_tail { write_tail(pen, letter == 'P') } else { String::new() };
    pen.line(format!("{letter}{}{numbers}{clock}{tail}", show_code(code)))
}

/// Any deviation of so many columns, unknown and the largest among them.
fn choose_deviation(random: &mut Random, width: usize) -> Option<i64> {
    let largest = lines::power_of_ten(width) - 1;
    match random.below(8) {
        0 | 1 => None,
        2 => Some(largest),
        3 => Some(*random.pick(&[0, 1, 999, 1000, largest - 1])),
        _ => Some(random.below(largest as usize) as i64),
    }
}

fn choose_correlation(random: &mut Random) -> Option<i64> {
    let most = lines::MOST_CORRELATION;
    match random.below(8) {
        0 | 1 => None,
        2 => Some(*random.pick(&[0, 0, 1, -1, most, -most])),
        _ => Some(random.below(2 * most as usize + 1) as i64 - most),
    }
}

/// A note: full, with unknown fields here and there, of deviations or of
/// correlations alone, of nothing.
pub(crate) fn choose_note(random: &mut Random) -> Note {
    let kind = random.below(8);
    let mut note = Note {
        deviations: [4, 4, 4, 7].map(|width| choose_deviation(random, width)),
        correlations: [(); 6].map(|_| choose_correlation(random)),
    };
    match kind {
        0 => note = Note { deviations: [None; 4], correlations: [None; 6] },
        1 => note.deviations = [None; 4],
        2 => note.correlations = [None; 6],
        3 => {
            note.deviations = note.deviations.map(|value| value.or(Some(55)));
            note.correlations = note.correlations.map(|value| value.or(Some(-30)));
        }
        _ => {}
    }
    note
}

/// An EP or EV, spelt in any way that is right.
fn write_note(pen: &mut Pen, symbol: &str) -> Vec<u8> {
    let note = choose_note(pen.random);
    let mut text = symbol.to_string();
    for (place, value) in note.deviations.into_iter().enumerate() {
        let width = if place < 3 { 4 } else { 7 };
        let gap = if place == 0 { "  " } else { " " };
        let field = value.map_or(" ".repeat(width), |value| pen.integer(width, value));
        text += &format!("{gap}{field}");
    }
    for value in note.correlations {
        let field = value.map_or(" ".repeat(8), |value| pen.signed_integer(8, value));
        text += &format!(" {field}");
    }
    pen.line(text)
}

fn write_epoch(pen: &mut Pen, plan: &Plan, epoch: usize, lines: &mut Vec<Vec<u8>>) {
    let moment = pen.moment(plan.start + epoch as i64 * plan.interval);
    lines.push(pen.line(format!("*  {moment}")));
    for &code in &plan.identifiers {
        for (letter, symbol) in [('P', EP), ('V', EV)] {
            if letter == 'P' || plan.velocities {
                lines.push(write_row(pen, letter, code));
                if once_in(pen.random, plan.notes) {
                    lines.push(write_note(pen, symbol));
                }
            }
        }
    }
}

fn write_plan(pen: &mut Pen, plan: &Plan) -> Draft {
    let mut header: Vec<String> = write_start(pen, plan).to_vec();
    header.extend(write_slots(pen, plan));
    header.extend(write_fixed_lines(pen, plan));
    let mut lines: Vec<Vec<u8>> = header.into_iter().map(|text| pen.line(text)).collect();
    lines.extend((0..plan.comments).map(|_| write_comment(pen, plan.version)));
    for epoch in 0..plan.epochs {
        write_epoch(pen, plan, epoch, &mut lines);
    }
    lines.push(pen.line("EOF".to_string()));
    Draft(lines)
}

// ---------------------------------------------------------------------------
// Damage
// ---------------------------------------------------------------------------

/// The kind letter that `lines.rs` gives to a line of a file.
fn kind_letter(draft: &Draft, line: usize) -> u8 {
    let begins =
        |line: usize, symbol: &str| line >= 1 && draft.0[line - 1].starts_with(symbol.as_bytes());
    let again = |symbol: &str| begins(line, symbol) && begins(line - 1, symbol);
    let symbols = [
        ("#d", b'a'),
        ("#c", b'a'),
        ("##", b'b'),
        ("+ ", b'c'),
        ("++", b'e'),
        ("%c", b'f'),
        ("%f", b'h'),
        ("%i", b'j'),
        ("/*", b'k'),
        ("* ", b'l'),
        ("P", b'm'),
        ("V", b'n'),
        ("EP", b'o'),
        ("EV", b'p'),
        ("EOF", b'q'),
    ];
    match symbols.iter().find(|(symbol, _)| begins(line, symbol)) {
        Some(&(symbol @ ("+ " | "%c" | "%f"), letter)) if again(symbol) => letter + 1,
        Some(&(_, letter)) => letter,
        None => b'z',
    }
}

/// A line of the file, mostly each kind of record as often as the others.
fn choose_line(draft: &Draft, random: &mut Random) -> usize {
    if once_in(random, 3) {
        return 1 + random.below(draft.0.len().max(1));
    }
    let letters: Vec<u8> = (1..=draft.0.len()).map(|line| kind_letter(draft, line)).collect();
    let mut kinds = letters.clone();
    kinds.sort();
    kinds.dedup();
    if kinds.is_empty() {
        return 1;
    }
    let kind = *random.pick(&kinds);
    let lines: Vec<usize> = (1..=letters.len()).filter(|line| letters[line - 1] == kind).collect();
    *random.pick(&lines)
}

type Damage = fn(&mut Draft, &Plan, &mut Random);

/// A field spelt otherwise, rightly or wrongly.
fn another_spelling(draft: &mut Draft, _: &Plan, random: &mut Random) {
    let line = choose_line(draft, random);
    if !draft.0.is_empty() {
        spell_otherwise(draft, line, random);
    }
}

fn spell_otherwise(draft: &mut Draft, line: usize, random: &mut Random) {
    let letter = kind_letter(draft, line);
    let entries: Vec<_> =
        lines::SPELLINGS.iter().filter(|entry| entry.0.as_bytes().contains(&letter)).collect();
    if !entries.is_empty() {
        let &&(_, columns, texts) = random.pick(&entries);
        let (column, text) = (*random.pick(columns), *random.pick(texts));
        draft.put(line, column, text.as_bytes());
    }
}

fn another_character(draft: &mut Draft, _: &Plan, random: &mut Random) {
    let line = choose_line(draft, random);
    let length = draft.0.get(line - 1).map_or(1, |text| text.len().max(1));
    let column =
        if once_in(random, 6) { 1 + random.below(80) } else { 1 + random.below(length.min(80)) };
    draft.put(line, column, &[*random.pick(b"0123456789 -.xcGRPVEM+*/#%")]);
}

fn wrong_byte(draft: &mut Draft, _: &Plan, random: &mut Random) {
    let line = choose_line(draft, random);
    let byte = *random.pick(&[0, 9, 10, 13, 31, 127, 128, 200, 255]);
    if once_in(random, 2) {
        let column = 1 + random.below(90);
        draft.put(line, column, &[byte]);
    } else if let Some(text) = draft.0.get_mut(line - 1) {
        let place = random.below(text.len() + 1);
        text.insert(place, byte);
    }
}

fn lines_moved(draft: &mut Draft, _: &Plan, random: &mut Random) {
    let (line, other) = (choose_line(draft, random), choose_line(draft, random));
    match random.below(6) {
        0 | 1 => draft.drop_line(line),
        2 | 3 => draft.double_line(line),
        4 => draft.swap_lines(line, line + 1),
        _ => draft.swap_lines(line, other),
    }
}

const STRANGE_LINES: &[&str] = &[
    "", " ", "#d", "#c", "##", "+", "+ ", "++", "%c", "%C", "%f", "%i", "/*", "/* ", "/ *", "*",
    "* ", "**", "P", "PG01", "V", "EP", "EV", "E", "EO", "EOF", "EOFX", "EOX", "EP  x", "EV  x",
    "x",
];

fn line_inserted(draft: &mut Draft, _: &Plan, random: &mut Random) {
    let line = choose_line(draft, random);
    if once_in(random, 2) {
        draft.insert(line, random.pick(STRANGE_LINES).as_bytes());
    } else if !draft.0.is_empty() {
        let other = choose_line(draft, random);
        let text = draft.0[other - 1].clone();
        draft.0.insert(line - 1, text);
    }
}

/// EP and EV where they may stand, or not.
fn correlation_inserted(draft: &mut Draft, _: &Plan, random: &mut Random) {
    let rows = [draft.lines_of("P"), draft.lines_of("V"), draft.lines_of("E")].concat();
    if !rows.is_empty() {
        let line = *random.pick(&rows) + random.below(2);
        let text = *random.pick(&["EP", "EP", "EV", "EV", "EPx", "EP  \u{7f}", "E", "Ep"]);
        draft.insert(line, text.as_bytes());
    }
}

/// A clock or rate near six nines, absent or not, well formed or not; some lines
/// end in it or have another fault.
fn clock_near_nines(draft: &mut Draft, _: &Plan, random: &mut Random) {
    let (positions, velocities) = (draft.lines_of("P"), draft.lines_of("V"));
    let rows = if velocities.is_empty() || once_in(random, 2) { positions } else { velocities };
    if rows.is_empty() {
        return;
    }
    let line = *random.pick(&rows);
    draft.put(line, 47, lines::clock_near_nines(random).as_bytes());
    match random.below(6) {
        0 | 1 => draft.cut(line, 52 + random.below(9)),
        2 => spoil_line(draft, line, random, 1),
        _ => {}
    }
}

/// A note after a row, in place of the one there or before it, mostly of the
/// row's own kind; then most are spoilt.
fn note_spoilt(draft: &mut Draft, _: &Plan, random: &mut Random) {
    let (positions, velocities) = (draft.lines_of("P"), draft.lines_of("V"));
    let rows = if velocities.is_empty() || once_in(random, 3) { positions } else { velocities };
    if rows.is_empty() {
        return;
    }
    let row = *random.pick(&rows);
    let own = if draft.0[row - 1][0] == b'P' { EP } else { EV };
    let symbol = if once_in(random, 8) { *random.pick(&[EP, EV]) } else { own };
    let noted = draft.lines_of(own).contains(&(row + 1));
    if noted && !once_in(random, 8) {
        draft.drop_line(row + 1);
    }
    draft.0.insert(row, write_note(&mut Pen { random, odd: true }, symbol));
    spoil_note(draft, row + 1, random);
}

/// Too long, a wrong byte, a correlation on either side of its bounds, another
/// spelling, one or two fields spoilt, or not.
fn spoil_note(draft: &mut Draft, line: usize, random: &mut Random) {
    match random.below(16) {
        0 => draft.put(line, 81, &[*random.pick(b" x0")]),
        1 => draft.put(line, 1 + random.below(81), &[*random.pick(&[9, 0, 31, 127, 255])]),
        2 | 3 => draft.put(line, 3 + random.below(78), &[*random.pick(b"0123456789 -.x+")]),
        4..=6 => {
            let text = *random.pick(&["10000000", "99999999", "12345678", "09999999", "-9999999"]);
            draft.put(line, 28 + 9 * random.below(6), text.as_bytes());
        }
        7..=10 => spell_otherwise(draft, line, random),
        11 | 12 => spoil_line(draft, line, random, 1),
        13 | 14 => spoil_line(draft, line, random, 2),
        _ => {}
    }
}

fn line_end_spoiled(draft: &mut Draft, _: &Plan, random: &mut Random) {
    let line = choose_line(draft, random);
    match random.below(4) {
        0 => draft.lose_end(line),
        1 => draft.put(line, 81, b"x"),
        2 => draft.put(line, 80 + random.below(3), b" "),
        _ => {
            if let Some(text) = draft.0.get_mut(line - 1) {
                text.insert(text.len().saturating_sub(1), b'\r');
            }
        }
    }
}

/// One epoch at another instant, or all from it on.
fn wrong_instant(draft: &mut Draft, plan: &Plan, random: &mut Random) {
    let lines = draft.lines_of("*");
    let first = random.below(lines.len() + 1);
    let shifts =
        [plan.interval, plan.interval, -plan.interval, 1, -1, SECOND, 60 * SECOND, DAY, -DAY];
    let shift = *random.pick(&shifts);
    let count = if once_in(random, 2) { lines.len() } else { 1 };
    for (epoch, &line) in lines.iter().enumerate().skip(first).take(count) {
        let instant = plan.start + epoch as i64 * plan.interval + shift;
        let mut pen = Pen { random, odd: false };
        let text = pen.moment(instant.max(GPS_ZERO * DAY));
        draft.put(line, 4, text.as_bytes());
    }
}

/// Line and column of a slot in the `+ ` lines.
fn slot_place(slot: usize) -> (usize, usize) {
    (3 + slot / 17, 10 + 3 * (slot % 17))
}

fn identifier_repeats(draft: &mut Draft, plan: &Plan, random: &mut Random) {
    let n = plan.identifiers.len();
    let (one, other) = (random.below(n), random.below(n));
    let (line, column) = slot_place(one.max(other));
    draft.put(line, column, show_code(plan.identifiers[one.min(other)]).as_bytes());
}

/// Something in a slot, after n or before.
fn slot_spoiled(draft: &mut Draft, plan: &Plan, random: &mut Random) {
    let n = plan.identifiers.len();
    let number = satellite_lines(n);
    let slot = if once_in(random, 3) { n } else { random.below(17 * number) };
    let (line, column) = slot_place(slot);
    let text = *random
        .pick(&["000", " 00", "0  ", "   ", "  0", "G01", "  1", "Z99", "G00", "z01", "G 1"]);
    let exponents = if once_in(random, 2) { number } else { 0 };
    draft.put(line + exponents, column, text.as_bytes());
}

fn type_disagrees(draft: &mut Draft, plan: &Plan, random: &mut Random) {
    let n = plan.identifiers.len();
    let letter = *random.pick(b"GRLSIECJMX");
    if once_in(random, 2) {
        draft.put(3 + 2 * satellite_lines(n), 4, &[letter]);
    } else {
        let (line, column) = slot_place(random.below(n));
        draft.put(line, column, &[letter]);
    }
}

/// Rows in another order, or under another name.
fn another_satellite(draft: &mut Draft, plan: &Plan, random: &mut Random) {
    let rows = [draft.lines_of("P"), draft.lines_of("V")].concat();
    if rows.is_empty() {
        return;
    }
    let (one, other) = (*random.pick(&rows), *random.pick(&rows));
    match random.below(3) {
        0 => draft.swap_lines(one, other),
        1 => draft.put(one, 2, show_code(*random.pick(&plan.identifiers)).as_bytes()),
        _ => draft.put(one, 2, random.pick(&["G01", "G02", "R01", "G00", "G 1", "g01"]).as_bytes()),
    }
}

fn line_two_disagrees(draft: &mut Draft, plan: &Plan, random: &mut Random) {
    let (day, time) = (plan.start / DAY, plan.start % DAY);
    let shift = *random.pick(&[-1, 1, 1, 2, -7, 7]);
    let week = (day - GPS_ZERO) / 7;
    let seconds = (day - GPS_ZERO) % 7 * DAY + time;
    let nearest = (125 * time + 54) / 108;
    let mut pen = Pen { random, odd: false };
    let (column, text) = match pen.random.below(5) {
        0 => (4, pen.integer(4, (week + shift).max(0))),
        1 => (9, pen.decimal(15, 8, (seconds + shift).max(0))),
        2 => (9, pen.decimal(15, 8, (seconds + shift * DAY).max(0))),
        3 => (40, pen.integer(5, day + shift)),
        _ => (46, pen.decimal(15, 13, (nearest + shift).max(0))),
    };
    draft.put(2, column, text.as_bytes());
}

/// n, the number of epochs, or the mode is another.
fn counts_disagree(draft: &mut Draft, plan: &Plan, random: &mut Random) {
    let n = plan.identifiers.len() as i64;
    let shift = *random.pick(&[-1, 1]);
    let mode = if plan.velocities { "P" } else { "V" };
    let epochs = plan.epochs as i64;
    let mut pen = Pen { random, odd: true };
    match pen.random.below(6) {
        0 => draft.put(3, 4, pen.integer(3, n + shift).as_bytes()),
        1 => {
            draft.put(3, 4, pen.random.pick(&["  0", "256", "998", "999", " 85", " 86"]).as_bytes())
        }
        2 | 3 => draft.put(1, 33, pen.integer(7, epochs + shift).as_bytes()),
        4 => draft.put(1, 33, pen.random.pick(&[" 100000", " 100001", "9999999"]).as_bytes()),
        _ => draft.put(1, 3, mode.as_bytes()),
    }
}

fn comments_dropped(draft: &mut Draft, _: &Plan, random: &mut Random) {
    let lines = draft.lines_of("/*");
    let kept = random.below(4);
    for &line in lines.iter().skip(kept).rev() {
        draft.drop_line(line);
    }
}

/// The letter of the other version: more comments, longer ones and more satellites than c
/// allows come so into files of it; or a letter that is none.
fn another_version(draft: &mut Draft, plan: &Plan, random: &mut Random) {
    let other = if plan.version == Version::C { b'd' } else { b'c' };
    let letter = if once_in(random, 6) { *random.pick(b"abCD#e ") } else { other };
    draft.put(1, 2, &[letter]);
}

/// A comment line of some 60 characters or of 80, mostly in place of one, else anywhere.
fn comment_lengthened(draft: &mut Draft, _: &Plan, random: &mut Random) {
    let length = *random.pick(&[59, 60, 60, 61, 61, 61, 62, 80, 80, 81]);
    let last = *random.pick(b" x.");
    let comments = draft.lines_of("/*");
    if comments.is_empty() || once_in(random, 3) {
        let line = choose_line(draft, random);
        draft.insert(line, b"/*");
        draft.put(line, length, &[last]);
    } else {
        let line = *random.pick(&comments);
        draft.cut(line, length);
        draft.put(line, length, &[last]);
    }
}

/// One comment more than there are, or one less.
fn comments_counted(draft: &mut Draft, _: &Plan, random: &mut Random) {
    let lines = draft.lines_of("/*");
    match lines.last() {
        Some(&line) if once_in(random, 3) => draft.drop_line(line),
        Some(&line) => draft.double_line(line),
        None => {}
    }
}

fn truncated(draft: &mut Draft, _: &Plan, random: &mut Random) {
    let mut bytes = draft.bytes();
    let length = match random.below(3) {
        0 => bytes.len().saturating_sub(1),
        1 => bytes.len().saturating_sub(random.below(100)),
        _ => random.below(bytes.len() + 1),
    };
    bytes.truncate(length);
    draft.0 = bytes.split_inclusive(|&c| c == b'\n').map(<[u8]>::to_vec).collect();
}

fn bytes_after(draft: &mut Draft, _: &Plan, random: &mut Random) {
    let after = match random.below(6) {
        0 => draft.bytes(),
        1 => vec![b'\n'; 1 + random.below(20)],
        2 => vec![random.next() as u8],
        3 => (0..random.below(50)).map(|_| random.next() as u8).collect(),
        _ => random.pick(STRANGE_LINES).as_bytes().to_vec(),
    };
    draft.0.push(after);
}

/// One or two fields of a line spoilt, each in a way that `lines.rs` has for it.
fn spoil_fields(draft: &mut Draft, random: &mut Random, count: usize) {
    let line = choose_line(draft, random);
    if !draft.0.is_empty() {
        spoil_line(draft, line, random, count);
    }
}

fn spoil_line(draft: &mut Draft, line: usize, random: &mut Random, count: usize) {
    let spoilers = lines::spoilers_of(kind_letter(draft, line));
    let mut put: Vec<&lines::Spoiler> = Vec::new();
    while put.len() < count && spoilers.len() >= count {
        let spoiler = *random.pick(&spoilers);
        if put.iter().any(|other| lines::overlap(other, spoiler)) {
            return;
        }
        draft.put(line, spoiler.1, spoiler.2.as_bytes());
        put.push(spoiler);
    }
}

fn field_spoilt(draft: &mut Draft, _: &Plan, random: &mut Random) {
    spoil_fields(draft, random, 1);
}

fn two_fields_spoilt(draft: &mut Draft, _: &Plan, random: &mut Random) {
    spoil_fields(draft, random, 2);
}

/// Any byte in any column in place of the one there, before it, or one gone.
fn any_byte(draft: &mut Draft, _: &Plan, random: &mut Random) {
    let line = choose_line(draft, random);
    let byte = if once_in(random, 2) { 32 + random.below(95) as u8 } else { random.next() as u8 };
    let column = 1 + random.below(82);
    match (random.below(4), draft.0.get_mut(line - 1)) {
        (0, Some(text)) => text.insert((column - 1).min(text.len()), byte),
        (1, Some(text)) if column <= text.len() => drop(text.remove(column - 1)),
        _ => draft.put(line, column, &[byte]),
    }
}

/// A line without its last columns.
fn line_cut(draft: &mut Draft, _: &Plan, random: &mut Random) {
    let line = choose_line(draft, random);
    let length = draft.0.get(line - 1).map_or(1, |text| text.len().max(1));
    draft.cut(line, random.below(length));
}

/// Other characters in some columns of a line.
fn other_characters(draft: &mut Draft, _: &Plan, random: &mut Random) {
    let line = choose_line(draft, random);
    for _ in 0..2 + random.below(3) {
        draft.put(line, 1 + random.below(80), &[*random.pick(b"0123456789 -.xcGRPVEM")]);
    }
}

/// Some wrong bytes in a line, also far past the last column that it may have.
fn wrong_bytes(draft: &mut Draft, _: &Plan, random: &mut Random) {
    let line = choose_line(draft, random);
    for _ in 0..1 + random.below(3) {
        let last = *random.pick(&[80, 82, 130, 300]);
        let byte = *random.pick(&[0, 9, 31, 127, 128, 255]);
        draft.put(line, 1 + random.below(last), &[byte]);
    }
}

/// A line that is too long by one column or by many, perhaps with another fault.
fn line_lengthened(draft: &mut Draft, _: &Plan, random: &mut Random) {
    let line = choose_line(draft, random);
    if once_in(random, 2) && !draft.0.is_empty() {
        spoil_line(draft, line, random, 1);
    }
    let column = *random.pick(&[81, 82, 100, 127, 128, 129, 300]);
    draft.put(line, column, &[*random.pick(b" x0")]);
}

/// Two faults of a line that have the same number.
fn one_number_twice(draft: &mut Draft, _: &Plan, random: &mut Random) {
    let line = choose_line(draft, random);
    if draft.0.is_empty() || kind_letter(draft, line) == b'z' {
        return;
    }
    let spoilers = lines::spoilers_of(kind_letter(draft, line));
    let one = *random.pick(&spoilers);
    let beside = |other: &&lines::Spoiler| other.3 == one.3 && !lines::overlap(one, other);
    let others: Vec<&lines::Spoiler> = spoilers.iter().copied().filter(beside).collect();
    if !others.is_empty() {
        for &(_, column, text, ..) in [one, *random.pick(&others)] {
            draft.put(line, column, text.as_bytes());
        }
    }
}

/// Each damage as often as its weight.
type Damages = &'static [(usize, &'static str, Damage)];

const DAMAGES: Damages = &[
    (10, "field: another spelling", another_spelling),
    (6, "byte: another character", another_character),
    (3, "byte: wrong", wrong_byte),
    (6, "line: gone, twice or exchanged", lines_moved),
    (3, "line: inserted", line_inserted),
    (2, "line: EP or EV inserted", correlation_inserted),
    (12, "line: a note, spoilt or not", note_spoilt),
    (8, "field: a clock near six nines", clock_near_nines),
    (2, "line: its end spoilt", line_end_spoiled),
    (5, "field: another instant", wrong_instant),
    (2, "field: an identifier twice", identifier_repeats),
    (3, "field: a slot", slot_spoiled),
    (2, "field: the file type", type_disagrees),
    (4, "field: another satellite", another_satellite),
    (3, "field: line two", line_two_disagrees),
    (3, "field: a count or the mode", counts_disagree),
    (1, "line: comments gone", comments_dropped),
    (5, "byte: the letter of the version", another_version),
    (5, "line: a comment of some 60 characters", comment_lengthened),
    (3, "line: a comment more or less", comments_counted),
    (2, "line: the end of the file gone", truncated),
    (4, "line: bytes after EOF", bytes_after),
];

/// Those that the stored batches do without.
const FURTHER_DAMAGES: Damages = &[
    (3, "field: spoilt", field_spoilt),
    (3, "field: two of a line spoilt", two_fields_spoilt),
    (4, "field: two faults of one number", one_number_twice),
    (6, "byte: any", any_byte),
    (3, "byte: other characters in a line", other_characters),
    (2, "byte: some wrong ones, also far out", wrong_bytes),
    (1, "line: too long", line_lengthened),
    (1, "line: cut", line_cut),
    (4, "line: a note, spoilt or not", note_spoilt),
];

/// What many satellites are damaged by more often than few.
const REPEATS: Damages = &[(1, "field: an identifier twice", identifier_repeats)];

fn damage(draft: &mut Draft, plan: &Plan, random: &mut Random, damages: Damages) -> Done {
    let all: usize = damages.iter().map(|(weight, ..)| weight).sum();
    let mut number = random.below(all);
    let chosen = damages.iter().find(|(weight, ..)| {
        let found = number < *weight;
        number = number.saturating_sub(*weight);
        found
    });
    let &(_, name, damage) = chosen.unwrap_or(&damages[0]);
    let before = draft.clone();
    damage(draft, plan, random);
    let (letter, column) = first_change(&before, draft);
    Done { name, letter, column }
}

/// The record and the column of the first byte that another draft has not;
/// a line that became shorter or longer counts as padded with blanks.
fn first_change(before: &Draft, after: &Draft) -> (u8, usize) {
    let same = before.0.iter().zip(&after.0).take_while(|(one, other)| one == other).count();
    let Some(line) = before.0.get(same) else {
        return (b'z', 0);
    };
    let byte = |text: &[u8], place: usize| match text.get(place) {
        None | Some(b'\n') => b' ',
        Some(&byte) => byte,
    };
    let other = after.0.get(same).map_or(&[][..], Vec::as_slice);
    let length = line.len().max(other.len());
    let column = (0..length).find(|&place| byte(line, place) != byte(other, place));
    (kind_letter(before, same + 1), column.unwrap_or(length) + 1)
}

// ---------------------------------------------------------------------------
// Generated cases
// ---------------------------------------------------------------------------

/// Half of the files are damaged, some of them twice.
pub(crate) fn generate_file(random: &mut Random) -> (Plan, Vec<u8>) {
    loop {
        let mut plan = choose_plan(random);
        plan.odd = !once_in(random, 4);
        let mut draft = write_plan(&mut Pen { random, odd: plan.odd }, &plan);
        let damages = *random.pick(&[0, 0, 0, 0, 1, 1, 1, 1, 1, 2]);
        for _ in 0..damages {
            damage(&mut draft, &plan, random, DAMAGES);
        }
        let mut file = draft.bytes();
        if !once_in(random, 3) {
            cut_after_fault(&mut file);
        }
        if file.len() <= MOST_BYTES {
            return (plan, file);
        }
    }
}

/// Files of any size, with damages of every kind; where there are two of them
/// both stay.
pub(crate) fn generate_any_file(random: &mut Random) -> (Plan, Vec<u8>) {
    let mut plan = match random.below(10) {
        0 => choose_large_plan(random),
        1..=2 => choose_night_plan(random),
        _ => choose_plan(random),
    };
    plan.odd = !once_in(random, 4);
    let mut draft = write_plan(&mut Pen { random, odd: plan.odd }, &plan);
    let damages = *random.pick(&[0, 0, 0, 0, 1, 1, 1, 1, 2, 2]);
    for _ in 0..damages {
        let list = match random.below(2) {
            _ if plan.identifiers.len() > 255 && once_in(random, 4) => REPEATS,
            0 => FURTHER_DAMAGES,
            _ => DAMAGES,
        };
        let done = damage(&mut draft, &plan, random, list);
        plan.done.push(done);
    }
    let mut file = draft.bytes();
    if damages < 2 && !once_in(random, 3) {
        cut_after_fault(&mut file);
    }
    (plan, file)
}

/// A file of 2013 on, plainly spelt, with any numbers in its rows.
fn plain_file(version: Version, velocities: bool, satellites: usize, epochs: usize) -> Draft {
    let random = &mut Random(STORED_SEED);
    let (identifiers, file_type) = choose_identifiers(random, satellites);
    let (start, interval, notes) = (56_385 * DAY, 900 * SECOND, 8);
    let (rest, comments) = (choose_plan(random), comments_with(version, 1));
    let plan = Plan { velocities, start, interval, epochs, identifiers, file_type, notes, ..rest };
    let plan = Plan { version, comments, ..plan };
    write_plan(&mut Pen { random, odd: false }, &plan)
}

/// What stands after the first faulty line changes nothing; most files do
/// without it, so that many fit into a batch.
pub(crate) fn cut_after_fault(file: &mut Vec<u8>) {
    if let Err(refusal) = judge_front(file) {
        let ends = file.iter().enumerate().filter(|(_, &c)| c == b'\n').map(|(place, _)| place);
        if let Some(end) = ends.take(refusal.line).last().filter(|_| refusal.number != NO_LF) {
            file.truncate(end + 1);
        }
    }
}

/// Rooms as they are needed, or with more or fewer places in some list.
fn choose_rooms(random: &mut Random, needed: [usize; 4], most: [usize; 4]) -> [usize; 4] {
    let mut rooms = needed;
    let list = random.below(4);
    match random.below(12) {
        0 | 1 => rooms[list] = rooms[list].saturating_sub(1),
        2 => rooms[list] = random.below(rooms[list] + 1),
        3 => rooms = rooms.map(|room| room.saturating_sub(random.below(2))),
        4..=6 => rooms = rooms.map(|room| room + random.below(20)),
        7 => rooms = rooms.map(|room| room + random.below(200)),
        8 if once_in(random, 4) => rooms = [0; 4],
        _ => {}
    }
    [0, 1, 2, 3].map(|list| rooms[list].min(most[list]))
}

/// A number below the bound, the bound itself, or one far past it.
fn choose_asked(random: &mut Random, bound: usize) -> usize {
    match random.below(12) {
        0 => bound,
        1 => *random.pick(&[bound + 1, bound + 255, bound + 65_536, MOST_NUMBER]),
        2 => bound.saturating_sub(1),
        _ => random.below(bound),
    }
}

/// The code of an identifier of the file, mostly.
fn choose_code(random: &mut Random, identifiers: &[u64]) -> usize {
    let code = *random.pick(identifiers) as usize;
    match random.below(12) {
        0 => code + 65_536,
        1 => *random.pick(&[code + 1, code - 1, code + 100, code % 100, code / 100]),
        2 => *random.pick(&[0, 7100, 7101, 9099, MOST_NUMBER]),
        _ => code,
    }
}

/// A file with rooms, of so many places at most, and questions.
fn ask(random: &mut Random, plan: &Plan, file: Vec<u8>, most: [usize; 4]) -> Case {
    let n = plan.identifiers.len();
    let rows = n * plan.epochs * if plan.velocities { 2 } else { 1 };
    let planned = [n, n, 77 * plan.comments, ROW_WIDTH * rows];
    let needed = judge_front(&file).map_or(planned, |(table, _)| table.room_needed());
    let rooms = choose_rooms(random, needed, most);
    let asked = [
        choose_asked(random, plan.comments),
        choose_asked(random, plan.epochs),
        choose_asked(random, n),
        choose_code(random, &plan.identifiers),
    ];
    Case { file, rooms, asked }
}

fn generate_case(random: &mut Random) -> Case {
    let (plan, file) = generate_file(random);
    let case = ask(random, &plan, file, MOST_ROOMS);
    let within =
        case.file.len() <= MOST_BYTES && case.asked.iter().all(|&number| number <= MOST_NUMBER);
    assert!(within, "a case is too large for the programs");
    case
}

/// Numbers far past every bound, that the programs have no digits for.
const FAR: &[usize] = &[
    1 << 32,
    (1 << 32) - 1,
    1 << 63,
    usize::MAX,
    usize::MAX - 1,
    usize::MAX / 77 + 1,
    usize::MAX / ROW_WIDTH + 1,
    usize::MAX / MOST_SATELLITES + 1,
];

fn generate_any_case(random: &mut Random) -> Case {
    let (plan, file) = generate_any_file(random);
    let mut case = ask(random, &plan, file, [usize::MAX; 4]);
    if once_in(random, 8) {
        case.asked[random.below(4)] = *random.pick(FAR);
    }
    case
}

pub(crate) type Generate<C> = fn(&mut Random) -> C;

/// Case `number` of a seed, whatever the others are.
pub(crate) fn generated<C>(generate: Generate<C>, seed: u64, number: u64) -> C {
    let mut random = Random(seed.wrapping_mul(0x9e37_79b9_7f4a_7c15) ^ number);
    let seed = random.next();
    generate(&mut Random(seed))
}

// ---------------------------------------------------------------------------
// The stored cases
// ---------------------------------------------------------------------------

/// The program under test has room for 1,000,000 bytes of input.
const MOST_BATCH: usize = 995_000;
pub(crate) const STORED_SEED: u64 = 20_160_221;

/// A file made by hand with rooms that suffice; most refused ones end after
/// their faulty line.
fn hand_case(place: usize, base: Base, edits: &[Edit]) -> Case {
    let mut file = hand_made(base, edits);
    if place % 10 != 0 {
        cut_after_fault(&mut file);
    }
    let needed = judge_front(&file).map_or([2, 2, 308, 46], |(table, _)| table.room_needed());
    Case { file, rooms: needed, asked: [place % 5, place / 3 % 2, place / 5 % 2, 7107] }
}

/// First the files with questions, then those that are only judged, each once.
fn cases_of(asked: &[&[Asked]], judged: &[&[Hand]]) -> Vec<Case> {
    let asked = asked.iter().copied().flatten().map(|&(base, edits, rooms, asked, _)| Case {
        file: hand_made(base, edits),
        rooms,
        asked,
    });
    let mut cases: Vec<Case> = asked.collect();
    let mut files: HashSet<Vec<u8>> = cases.iter().map(|case| case.file.clone()).collect();
    for (place, &(base, edits, ..)) in judged.iter().copied().flatten().enumerate() {
        let case = hand_case(place, base, edits);
        if files.insert(case.file.clone()) {
            cases.push(case);
        }
    }
    cases
}

/// Those that are stored.
fn hand_cases() -> Vec<Case> {
    cases_of(&[ASKED, OLDER_ASKED], &[HAND, CLOCKS_BY_HAND, MANY_REFUSED, OLDER])
}

/// All of them.
fn all_hand_cases() -> Vec<Case> {
    cases_of(
        &[ASKED, OLDER_ASKED, MANY_ASKED, ROWS_ASKED, NOTES_ASKED],
        &[
            HAND,
            CLOCKS_BY_HAND,
            MANY_REFUSED,
            OLDER,
            MANY_MORE_REFUSED,
            MANY_BY_HAND,
            ROWS_BY_HAND,
            NOTES_BY_HAND,
        ],
    )
}

/// The cases made by hand, and after them small generated ones up to a batch.
pub(crate) fn filled_up<C: Compared>(
    mut cases: Vec<C>,
    generate: Generate<C>,
    small: fn(&C) -> bool,
) -> Vec<C> {
    let mut length = show_batch(&cases).len();
    let made = (1..).map(|number| generated(generate, STORED_SEED, number));
    for case in made.filter(small) {
        length += case.show().len();
        if length > MOST_BATCH {
            break;
        }
        cases.push(case);
    }
    cases
}

fn stored_cases() -> Vec<Case> {
    filled_up(hand_cases(), generate_case, |case| case.file.len() < 4000)
}

// ---------------------------------------------------------------------------
// Lines with other bytes in their columns
// ---------------------------------------------------------------------------

/// Of every class of bytes both ends, and those with a use in a row.
const EDGES: &[u8] = &[
    0, 9, 10, 13, 31, 32, 33, b'+', b',', b'-', b'.', b'/', b'0', b'1', b'9', b':', b'@', b'A',
    b'E', b'G', b'M', b'P', b'V', b'Z', b'[', b'a', b'e', b'p', b'z', b'~', 127, 128, 255,
];
const FEW: &[u8] = b"\n -0EP";
/// Those of the lines that are no rows.
const OTHERS: &[u8] = b"\n 0-x\x7f";
const BESIDE_FLAGS: &[u8] = b"DFLNOQ";
/// The columns of a line, and the first that it hasn't.
const ALL_COLUMNS: RangeInclusive<usize> = 1..=81;
/// Those of a clock or rate, and the one before and after it.
const CLOCK_COLUMNS: RangeInclusive<usize> = 46..=61;

/// Files, a line, columns of it, and the bytes that each is given.
const ALTERED: &[(Base, usize, RangeInclusive<usize>, &[u8])] = &[
    (Rows, 24, ALL_COLUMNS, EDGES),
    (Rows, 25, ALL_COLUMNS, EDGES),
    (Rows, 27, ALL_COLUMNS, FEW),
    (Rows, 28, ALL_COLUMNS, FEW),
    (MovingRows, 24, ALL_COLUMNS, FEW),
    (MovingRows, 25, ALL_COLUMNS, FEW),
    (MovingRows, 32, ALL_COLUMNS, FEW),
    (Rows, 24, 74..=80, BESIDE_FLAGS),
    (Rows, 25, 74..=80, BESIDE_FLAGS),
    (Notes, 25, ALL_COLUMNS, EDGES),
    (Notes, 27, ALL_COLUMNS, FEW),
    (Notes, 30, ALL_COLUMNS, FEW),
    (Notes, 32, ALL_COLUMNS, FEW),
    (MovingNotes, 25, ALL_COLUMNS, FEW),
    (MovingNotes, 27, ALL_COLUMNS, EDGES),
    (MovingNotes, 31, ALL_COLUMNS, FEW),
    // Absent clocks and rates.
    (Clocks, 24, CLOCK_COLUMNS, EDGES),
    (Clocks, 25, CLOCK_COLUMNS, EDGES),
    (Clocks, 27, CLOCK_COLUMNS, EDGES),
    (Clocks, 28, CLOCK_COLUMNS, EDGES),
    (MovingClocks, 25, CLOCK_COLUMNS, EDGES),
    (MovingClocks, 27, CLOCK_COLUMNS, EDGES),
    (MovingClocks, 30, CLOCK_COLUMNS, FEW),
    (MovingClocks, 32, CLOCK_COLUMNS, FEW),
    // One line of each other kind.
    (Rows, 1, ALL_COLUMNS, OTHERS),
    (Rows, 2, ALL_COLUMNS, OTHERS),
    (Rows, 3, ALL_COLUMNS, OTHERS),
    (Rows, 4, ALL_COLUMNS, OTHERS),
    (Rows, 8, ALL_COLUMNS, OTHERS),
    (Rows, 9, ALL_COLUMNS, OTHERS),
    (Rows, 13, ALL_COLUMNS, OTHERS),
    (Rows, 14, ALL_COLUMNS, OTHERS),
    (Rows, 15, ALL_COLUMNS, OTHERS),
    (Rows, 16, ALL_COLUMNS, OTHERS),
    (Rows, 17, ALL_COLUMNS, OTHERS),
    (Rows, 19, ALL_COLUMNS, OTHERS),
    (Rows, 26, ALL_COLUMNS, OTHERS),
    (Rows, 29, ALL_COLUMNS, OTHERS),
    // The lines that version c has otherwise, an epoch and a row.
    (OlderRows, 1, ALL_COLUMNS, OTHERS),
    (OlderRows, 3, ALL_COLUMNS, OTHERS),
    (OlderRows, 19, ALL_COLUMNS, OTHERS),
    (OlderRows, 22, ALL_COLUMNS, OTHERS),
    (OlderRows, 23, ALL_COLUMNS, OTHERS),
    (OlderRows, 24, ALL_COLUMNS, FEW),
];

/// The numbers of a row: their first column and the last that a blank may
/// stand before.
const NUMBERS: &[(usize, usize)] =
    &[(5, 11), (19, 25), (33, 39), (47, 53), (62, 63), (65, 66), (68, 69), (71, 73)];
/// Those of a note.
const NOTED: &[(usize, usize)] = &[
    (5, 8),
    (10, 13),
    (15, 18),
    (20, 26),
    (28, 35),
    (37, 44),
    (46, 53),
    (55, 62),
    (64, 71),
    (73, 80),
];

/// A file with an edit in line `line`, asked for the P row that stood there or
/// last before it.
fn ask_for_row(base: Base, line: usize, edit: impl FnOnce(&mut Draft)) -> Case {
    let mut draft = base_file(base);
    let rows = draft.lines_of("P").into_iter().filter(|&row| row <= line).count();
    let place = rows.saturating_sub(1);
    edit(&mut draft);
    let rooms = [2, 2, 308, 8 * ROW_WIDTH];
    Case { file: draft.bytes(), rooms, asked: [0, place / 2, place % 2, 7107] }
}

fn single_bytes() -> Vec<Case> {
    let mut cases = Vec::new();
    for (base, line, columns, bytes) in ALTERED {
        for column in columns.clone() {
            let put = |&byte| ask_for_row(*base, *line, |draft| draft.put(*line, column, &[byte]));
            cases.extend(bytes.iter().map(put));
        }
    }
    cases
}

/// What stands side by side in two columns.
fn pairs() -> Vec<[u8; 2]> {
    let beside = |one: u8| if one == b' ' { EDGES } else { b" 1-.EPM" };
    let pairs_of = |&one: &u8| beside(one).iter().map(move |&other| [one, other]);
    b" 1-.E".iter().flat_map(pairs_of).collect()
}

/// A pair in a row or a note of digits; a number in whose front it begins has
/// only blanks before it.
fn pairs_of_bytes(
    base: Base,
    line: usize,
    columns: RangeInclusive<usize>,
    numbers: &[(usize, usize)],
) -> Vec<Case> {
    let mut cases = Vec::new();
    for column in columns {
        let number = numbers.iter().find(|&&(first, last)| (first..=last).contains(&column));
        let first = number.map_or(column, |&(first, _)| first);
        let blanks = vec![b' '; column - first];
        for pair in pairs() {
            let bytes = [&blanks[..], &pair].concat();
            cases.push(ask_for_row(base, line, |draft| draft.put(line, first, &bytes)));
        }
    }
    cases
}

/// Three bytes for the identifier that make its number: `F:7` for G07.
fn names_alike() -> Vec<Case> {
    let mut cases = Vec::new();
    for (line, code) in [(24, 7107), (25, 8220)] {
        for (letter, tens) in (32..=126).flat_map(|letter| (32..=126).map(move |c| (letter, c))) {
            let ones = code - 100 * letter - 10 * (tens - 48) + 48;
            if (32..=126).contains(&ones) {
                let name = [letter as u8, tens as u8, ones as u8];
                cases.push(ask_for_row(Rows, line, |draft| draft.put(line, 2, &name)));
            }
        }
    }
    cases
}

/// A line of the epochs once more, where it may not stand.
fn lines_doubled() -> Vec<Case> {
    let files = [(Rows, 23..=28), (MovingRows, 23..=32), (Notes, 23..=32), (MovingNotes, 23..=40)];
    let lines = files.into_iter().flat_map(|(base, lines)| lines.map(move |line| (base, line)));
    lines.map(|(base, line)| ask_for_row(base, line, |draft| draft.double_line(line))).collect()
}

/// Rows with absent clocks and rates, cut after each of the columns around them.
fn clocks_cut() -> Vec<Case> {
    let rows = [24, 25, 27, 28].map(|line| (Clocks, line));
    let moving = [25, 27, 30, 32].map(|line| (MovingClocks, line));
    let cut = |(base, line), length| ask_for_row(base, line, |draft| draft.cut(line, length));
    let rows = rows.into_iter().chain(moving);
    rows.flat_map(|row| (45..=75).map(move |length| cut(row, length))).collect()
}

/// Whole parts on both sides of 999999, in the seven columns that they have.
const WHOLES: &[&str] = &[
    " 999999", "0999999", "-999999", "+999999", " 999998", "1000000", "1999999", "9999999",
    "  99999", "9 99999", "999999 ",
];

/// Every fraction of this digit and blanks.
fn fractions(digit: char) -> Vec<String> {
    let is_blank = |blanks: usize, place: usize| blanks >> place & 1 == 1;
    let fraction =
        |blanks| (0..6).map(|place| if is_blank(blanks, place) { ' ' } else { digit }).collect();
    (0..64).map(fraction).collect()
}

/// All of them in a clock and in a rate, those of six nines in x, y and z too.
fn numbers_spelt() -> Vec<Case> {
    let mut cases = Vec::new();
    for (base, line, digit) in [(Clocks, 24, '0'), (MovingClocks, 27, '9')] {
        let mut put = |column, text: String| {
            cases.push(ask_for_row(base, line, |draft| draft.put(line, column, text.as_bytes())));
        };
        for fraction in fractions(digit) {
            WHOLES.iter().for_each(|whole| put(47, format!("{whole}.{fraction}")));
            [5, 19, 33].into_iter().for_each(|column| put(column, format!(" 999999.{fraction}")));
        }
    }
    cases
}

/// All of them, each once.
fn altered_lines() -> Vec<Case> {
    let columns = 4..=lines::WIDTH - 1;
    let pairs = [
        pairs_of_bytes(Rows, 24, columns.clone(), NUMBERS),
        pairs_of_bytes(Notes, 25, columns, NOTED),
        pairs_of_bytes(Clocks, 24, CLOCK_COLUMNS, &[]),
        pairs_of_bytes(MovingClocks, 27, CLOCK_COLUMNS, &[]),
    ];
    let clocks = [clocks_cut(), numbers_spelt()].concat();
    let mut cases =
        [single_bytes(), pairs.concat(), clocks, names_alike(), lines_doubled()].concat();
    let mut files = HashSet::new();
    cases.retain(|case| files.insert(case.file.clone()));
    cases
}

// ---------------------------------------------------------------------------
// Counting and comparing
// ---------------------------------------------------------------------------

/// A name and the span in which a number lies, of those with these least numbers.
fn span_of(name: &str, least: &[usize], number: usize) -> String {
    let place = least.iter().rposition(|&least| least <= number).unwrap_or_default();
    match least.get(place + 1) {
        Some(&next) if next == least[place] + 1 => format!("{name} {}", least[place]),
        Some(next) => format!("{name} {} to {}", least[place], next - 1),
        None => format!("{name} {} and more", least[place]),
    }
}

/// What the epochs of a file lie over.
fn kinds_of_days(table: &Table) -> Vec<(&'static str, bool)> {
    let days = (0..table.epochs).map(|k| (table.start + k as i64 * table.interval) / DAY);
    let dates: Vec<(i64, i64, i64)> = days.map(date_of).collect();
    let some_step = |turns: fn(&[(i64, i64, i64)]) -> bool| dates.windows(2).any(turns);
    vec![
        ("epochs over a midnight", some_step(|pair| pair[0] != pair[1])),
        ("epochs over the end of a month", some_step(|pair| pair[0].1 != pair[1].1)),
        ("epochs over the end of a year", some_step(|pair| pair[0].0 != pair[1].0)),
        ("epochs on a leap day", dates.iter().any(|date| (date.1, date.2) == (2, 29))),
    ]
}

/// What is in some row of a file.
fn kinds_of_rows(rows: &[Row]) -> Vec<(&'static str, bool)> {
    let some = |holds: fn(&Row) -> bool| rows.iter().any(holds);
    let blank = |row: &Row| row.exponents.contains(&UNKNOWN) && row.exponents != [UNKNOWN; 4];
    vec![
        ("a place absent", some(Row::place_is_absent)),
        ("a clock absent", some(Row::clock_is_absent)),
        ("both absent", some(|row| row.place_is_absent() && row.clock_is_absent())),
        ("one or two coordinates zero", some(|r| !r.place_is_absent() && r.place.contains(&0))),
        ("an exponent unknown beside one that is not", some(blank)),
    ]
}

/// How the clocks of an accepted file are spelt that have six nines.
fn kinds_of_clocks(file: &[u8]) -> Vec<(&'static str, bool)> {
    let rows =
        |letter: u8| file.split(|&c| c == b'\n').filter(move |row| row.starts_with(&[letter]));
    let some = |holds: fn(&[u8]) -> bool| rows(b'P').chain(rows(b'V')).any(holds);
    let of_rates = |holds: fn(&[u8]) -> bool| rows(b'V').any(holds);
    vec![
        ("clocks, bare and cut", some(|row| row.len() == 54)),
        ("clocks, bare and blank", some(|row| row.len() > 54 && row[54] == b' ')),
        ("clocks, bare before exponents", some(|row| row.len() > 61 && row[54] == b' ')),
        ("clocks, bare rates", of_rates(|row| row.len() == 54 || row[54] == b' ')),
        ("clocks, zeros after six nines", some(|row| row[47..].starts_with(b"999999.000000"))),
        ("clocks, twelve nines", some(|row| row[47..].starts_with(b"999999.999999"))),
        ("clocks, six nines and a minus", some(|row| row[46..].starts_with(b"-999999."))),
        ("clocks, six nines after a zero", some(|row| row[46..].starts_with(b"0999999."))),
        ("clocks, 999998", some(|row| row[47..].starts_with(b"999998."))),
    ]
}

/// How many of the ten fields of a note aren't blank.
fn known_in(note: &Note) -> usize {
    note.deviations.iter().flatten().count() + note.correlations.iter().flatten().count()
}

/// What is in some note of a file.
fn kinds_of_notes(rows: &[Row]) -> Vec<(&'static str, bool)> {
    let some = |holds: fn(&Note) -> bool| rows.iter().filter_map(|row| row.note).any(|n| holds(&n));
    let of_letter = |letter| rows.iter().any(|row| row.letter == letter && row.note.is_some());
    vec![
        ("notes, an EP", of_letter('P')),
        ("notes, an EV", of_letter('V')),
        ("notes, one of nothing", some(|n| known_in(n) == 0)),
        ("notes, one of some fields", some(|n| (1..10).contains(&known_in(n)))),
        ("notes, one full", some(|n| known_in(n) == 10)),
        ("notes, one too large", some(|n| n.deviations[..3].contains(&Some(9999)))),
        ("notes, a clock too large", some(|n| n.deviations[3] == Some(9_999_999))),
        ("notes, a minus", some(|n| n.correlations.iter().any(|c| c.is_some_and(|c| c < 0)))),
    ]
}

/// What an accepted file has of what the format allows.
fn kinds_of_table(table: &Table, file: &[u8]) -> Vec<String> {
    let mut named = vec![
        ("accepted", true),
        ("version c", Version::told_by(file) == Version::C),
        ("version d", Version::told_by(file) == Version::D),
        ("mode P", !table.velocities),
        ("mode V", table.velocities),
        ("comments, more than four", table.comments.len() > 4),
    ];
    named.extend(kinds_of_days(table));
    named.extend(kinds_of_rows(&table.rows));
    named.extend(kinds_of_clocks(file));
    named.extend(kinds_of_notes(&table.rows));
    let mut kinds: Vec<String> =
        named.iter().filter(|(_, holds)| *holds).map(|(name, _)| name.to_string()).collect();
    let least = &[1, 2, 6, 17, 18, 86, 200, 255, 256, 257, 986, 987, 988, 998, 999, 1000];
    kinds.push(span_of("satellites", least, table.satellites()));
    kinds.push(span_of("epochs", &[1, 2, 4, 7, 100, 1000], table.epochs));
    kinds
}

/// What a generated file is: accepted and of which kinds, or damaged how.
fn kinds_of(plan: &Plan, file: &[u8]) -> Vec<String> {
    let mut kinds = match judge(file) {
        Ok((table, _)) => kinds_of_table(&table, file),
        Err(refusal) => {
            let version = Version::told_by(file).letter() as char;
            let refused = ["refused".to_string(), format!("refused {:2}", refusal.number)];
            let of_version = format!("refused, version {version}, {:2}", refusal.number);
            refused.into_iter().chain([of_version]).collect()
        }
    };
    if plan.odd && plan.done.is_empty() {
        kinds.push("undamaged, odd spellings".to_string());
    }
    kinds.push(format!("damages {}", plan.done.len()));
    kinds.extend(plan.done.iter().map(|done| format!("damage of a {}", done.name)));
    kinds
}

/// Counts the kinds of the files that are generated, the columns of their
/// refusals, and how often a damage began in each column of each record.
fn tell_kinds(seed: u64, count: u64) {
    let mut kinds: BTreeMap<String, usize> = BTreeMap::new();
    let mut columns: BTreeMap<u8, [usize; lines::WIDTH + 1]> = BTreeMap::new();
    let mut numbers: HashSet<usize> = HashSet::new();
    let mut refused: BTreeMap<u8, BTreeSet<usize>> = BTreeMap::new();
    for place in 1..=count {
        let (plan, file) = generated(generate_any_file, seed, place);
        kinds_of(&plan, &file).into_iter().for_each(|kind| *kinds.entry(kind).or_default() += 1);
        match judge(&file) {
            Ok((table, _)) => drop(numbers.insert(table.satellites())),
            Err(refusal) => drop(refused.entry(refusal.number).or_default().insert(refusal.column)),
        }
        for done in plan.done.iter().filter(|done| done.column <= lines::WIDTH) {
            columns.entry(done.letter).or_insert([0; lines::WIDTH + 1])[done.column] += 1;
        }
    }
    kinds.iter().for_each(|(kind, count)| println!("{count:7} {kind}"));
    println!("{:7} different numbers of satellites", numbers.len());
    for (number, columns) in refused {
        let (first, last) = (columns.first().unwrap_or(&0), columns.last().unwrap_or(&0));
        println!("{:7} different columns of {number}, {first} to {last}", columns.len());
    }
    for (letter, counts) in columns {
        let all: usize = counts.iter().sum();
        let touched = counts[1..].iter().filter(|&&count| count > 0).count();
        println!(
            "{all:7} damages begin in a record {}, in {touched} columns of it",
            letter as char
        );
    }
}

/// The numbers of the paper's table and of the requests that landed.
const NUMBERS_GIVEN: [usize; 15] = [0, 1, 2, 3, 4, 5, 6, 7, 8, 9, 10, 11, 12, 13, 17];

/// How often each of them stands after a word of the answers.
struct Counts(Vec<(&'static str, [usize; 15])>);

impl Counts {
    fn of(words: &[&'static str]) -> Counts {
        Counts(words.iter().map(|&word| (word, [0; 15])).collect())
    }

    fn add(&mut self, answer: &str) {
        for line in answer.lines() {
            let mut words = line.split(' ');
            let word = words.next().unwrap_or_default();
            let number = words.next().and_then(|number| number.parse::<usize>().ok());
            let place = number.and_then(|n| NUMBERS_GIVEN.iter().position(|&given| given == n));
            let counted = self.0.iter_mut().find(|(counted, _)| *counted == word);
            if let (Some((_, numbers)), Some(place)) = (counted, place) {
                numbers[place] += 1;
            }
        }
    }

    fn show(&self) -> String {
        let row = |name: &str, numbers: [usize; 15]| {
            let columns: String = numbers.iter().map(|number| format!("{number:7}")).collect();
            format!("{name:10}{columns}\n")
        };
        let first = row("number", NUMBERS_GIVEN);
        let rest = self.0.iter().map(|&(name, numbers)| row(name, numbers));
        first + &rest.collect::<String>()
    }
}

fn count<C: Compared>(cases: &[C]) {
    let mut counts = Counts::of(C::COUNTED);
    cases.iter().for_each(|case| counts.add(&case.answer()));
    println!("{} cases\n{}", cases.len(), counts.show().trim_end());
}

/// Gives the input to the program and takes what it prints.
fn run(
    program: &str,
    arguments: &[&str],
    input: Vec<u8>,
) -> std::io::Result<(Vec<u8>, ExitStatus)> {
    let mut command = Command::new(program);
    let mut child = command.args(arguments).stdin(Stdio::piped()).stdout(Stdio::piped()).spawn()?;
    let stdin = child.stdin.take();
    let feeder = std::thread::spawn(move || stdin.map(|mut pipe| pipe.write_all(&input)));
    let mut output = Vec::new();
    if let Some(mut pipe) = child.stdout.take() {
        pipe.read_to_end(&mut output)?;
    }
    let status = child.wait()?;
    drop(feeder.join());
    Ok((output, status))
}

/// The first line in which two texts differ: wanted and found.
pub(crate) fn first_difference(wanted: &[u8], found: &[u8]) -> Option<(usize, String, String)> {
    if wanted == found {
        return None;
    }
    let show =
        |line: Option<&[u8]>| line.map_or("nothing".to_string(), |l| format!("{:?}", show_text(l)));
    let mut wanted = wanted.split_inclusive(|&c| c == b'\n');
    let mut found = found.split_inclusive(|&c| c == b'\n');
    (1..).find_map(|number| {
        let (want, have) = (wanted.next(), found.next());
        (want != have || want.is_none()).then(|| (number, show(want), show(have)))
    })
}

/// Which of the answers has line `line` of all of them. A line `wrong: ..`,
/// which no answer has, belongs to the answer before it.
fn case_of_line(answers: &[String], line: usize) -> usize {
    let mut lines = 0;
    let ends = |answer: &String| {
        lines += answer.lines().count();
        line <= lines
    };
    answers.iter().position(ends).unwrap_or(answers.len().saturating_sub(1))
}

/// Cases from `first` on, one at least and as many as a batch may hold and
/// `last` allows.
fn next_batch<C: Compared>(case_of: &impl Fn(u64) -> C, first: u64, last: u64) -> Vec<C> {
    let mut length = 0;
    let cases = (first..=last).map(case_of);
    let fits = |case: &C| {
        let alone = length == 0;
        length += case.show().len();
        alone || length <= MOST_BATCH
    };
    cases.take_while(fits).collect()
}

/// Cases 1 to `number` of those that have this name.
fn compare<C: Compared>(
    name: &str,
    case_of: impl Fn(u64) -> C,
    number: u64,
    program: &str,
    arguments: &[&str],
) {
    let mut counts = Counts::of(C::COUNTED);
    let mut done = 0;
    while done < number {
        let cases = next_batch(&case_of, done + 1, number);
        let answers: Vec<String> = cases.iter().map(C::answer).collect();
        let (output, status) = run(program, arguments, show_batch(&cases))
            .unwrap_or_else(|error| fail(&format!("{program}: {error}")));
        if let Some((line, wanted, found)) = first_difference(answers.concat().as_bytes(), &output)
        {
            let line = if found.starts_with("\"wrong: ") { line.saturating_sub(1) } else { line };
            let case = done + 1 + case_of_line(&answers, line) as u64;
            println!("{name} case {case}: wanted {wanted}, found {found} ({status})");
            exit(1);
        }
        if !status.success() {
            println!("{name} cases {} and on: {status}", done + 1);
            exit(1);
        }
        answers.iter().for_each(|answer| counts.add(answer));
        done += cases.len() as u64;
    }
    println!("{number} cases agree\n{}", counts.show().trim_end());
}

/// Fails at the first line in which the file differs from `wanted`.
fn check_file(path: &str, wanted: &[u8]) {
    let found = std::fs::read(path).unwrap_or_else(|error| fail(&format!("{path}: {error}")));
    if let Some((line, wanted, found)) = first_difference(wanted, &found) {
        fail(&format!("{path}: line {line} is {found} and should be {wanted}"));
    }
}

fn check<C: Compared>(directory: &str, cases: &[C]) {
    check_file(&format!("{directory}/stdin"), &show_batch(cases));
    check_file(&format!("{directory}/stdout"), answers(cases).as_bytes());
}

/// A file, rooms and questions, and lines of the answer in their order.
type Asked = (Base, &'static [Edit], [usize; 4], [usize; 4], &'static [&'static str]);

/// The paper's file needs rooms of 1, 1, 308 and 23 places and has 1,215 bytes;
/// `night` 2, 2, 308, 138 and 1,636; `motion` 2, 2, 308, 92 and 1,605.
const ASKED: &[Asked] = &[
    // Everything there.
    (
        Paper,
        &[],
        [1, 1, 308, 23],
        [0, 0, 0, 7107],
        &[
            "case 1215",
            "front 0 0 0 1215 |d|",
            "whole 0 0 0 1215 |d|",
            "read 0 0 0 1215 |d|",
            "sums 7107 0 10666195931946167104 9802001914446447297",
            "mode P",
            "start8 487166400000000000",
            "epochs 1",
            "interval8 90000000000",
            "texts |ORBIT|WGS84|BCT|PORT|",
            "type G",
            "time GPS",
            "bases 12500000 1025000000",
            "satellites 1",
            "G07 0",
            "comments 4",
            "|ONE ROW|",
            "||",
            "||",
            "||",
            "P 0 G07 5000000001 -500000 0 absent unknown unknown unknown unknown ....",
            "rows 1 known 1 absent 0",
            "read_front 0 0 0 1215 |d|",
            "sums 7107 0 10666195931946167104 9802001914446447297",
            "comment 0 0 0 1101 7 |ONE ROW|",
            "satellite 0 0 0 0",
            "row 0 0 0 5000000001 -500000 0 absent",
        ],
    ),
    (
        Night,
        &[],
        [2, 2, 308, 138],
        [3, 2, 1, 8224],
        &[
            "case 1636",
            "whole 0 0 0 1636 |d|",
            "read 0 0 0 1636 |d|",
            "sums 228541 168 10666195931946167104 3143308803866154615",
            "mode P",
            "start8 486371430000000000",
            "epochs 3",
            "interval8 90000000000",
            "texts |u+U  |IGS08|FIT| NGS|",
            "type M",
            "time UTC",
            "satellites 2",
            "G07 5",
            "R24 13",
            "P 0 G07 15000000000 -20000500000 0 123456789 unknown unknown unknown unknown ....",
            "P 0 R24 absent absent unknown unknown unknown unknown ....",
            "P 1 G07 absent -1 18 18 18 219 EPMP",
            "P 1 R24 0 0 1 absent large large large large ....",
            "P 2 G07 -500000 0 0 absent unknown unknown unknown unknown ....",
            "P 2 R24 999999999999 -999999999999 999999999999 -999999999999 0 unknown 9 7 ..M.",
            "rows 6 known 4 absent 2",
            "comment 0 0 0 1117 0 ||",
            "satellite 0 0 0 1",
            "row 0 0 0 999999999999 -999999999999 999999999999 -999999999999",
        ],
    ),
    (
        Motion,
        &[],
        [2, 2, 308, 92],
        [1, 0, 1, 7102],
        &[
            "read 0 0 0 1605 |d|",
            "sums 227233 225 10666195931946167104 11604800878146835693",
            "mode V",
            "start8 450394560000000000",
            "texts |ORBIT|IGS97|HLM|MGEX|",
            "G01 7",
            "G02 8",
            "P 0 G01 -11044805800 -10475672350 21929418200 189163300 18 18 18 219 .... note \
             55 55 55 222 1234567 -1234567 5999999 -30 21 -1230000",
            "V 0 G01 20298880364 -18462044804 1381387685 -4534317 14 14 14 191 .... note \
             22 22 22 111 1234567 1234567 1234567 1234567 1234567 1234567",
            "P 0 G02 -12593593500 10170327650 -20354534400 -55976000 18 18 18 219 ..M.",
            "V 0 G02 absent absent unknown unknown unknown unknown ....",
            "rows 4 known 3 absent 1",
            "comment 0 0 0 1111 0 ||",
            "satellite 0 0 0 1",
            "row 0 0 0 -12593593500 10170327650 -20354534400 -55976000",
        ],
    ),
    // A room more in each list: its places stay as they were.
    (
        Paper,
        &[],
        [2, 2, 309, 24],
        [3, 0, 0, 7106],
        &[
            "read 0 0 0 1215 |d|",
            "sums 228094 7777 17057424637268802787 11884362191164528475",
            "read_front 0 0 0 1215 |d|",
            "sums 228094 7777 17057424637268802787 11884362191164528475",
            "comment 0 0 0 1117 0 ||",
            "satellite 13 0 0 0",
        ],
    ),
    (
        Paper,
        &[],
        [1, 1, 384, 28],
        [4, 0, 0, 0],
        &["read 0 0 0 1215 |d|", "comment 13 0 0 0 0 ||", "satellite 13 0 0 0"],
    ),
    // A room too few in each list: nothing is filled.
    (
        Paper,
        &[],
        [0, 1, 308, 23],
        [5, 1, 0, 7107 + 65_536],
        &[
            "front 0 0 0 1215 |d|",
            "whole 0 0 0 1215 |d|",
            "read 12 0 0 0 | |",
            "sums 0 7777 3351868396646214080 4045731010258001686",
            "read_front 12 0 0 0 | |",
            "sums 0 7777 3351868396646214080 4045731010258001686",
            "comment 13 0 0 0 0 ||",
            "satellite 13 0 0 0",
            "row 13 0 0 absent absent",
        ],
    ),
    (
        Paper,
        &[],
        [1, 0, 308, 23],
        [1, 0, 1, 100],
        &[
            "read 12 0 0 0 | |",
            "sums 7777 0 3351868396646214080 4045731010258001686",
            "comment 0 0 0 1111 0 ||",
            "row 13 0 0 absent absent",
        ],
    ),
    (
        Paper,
        &[],
        [1, 1, 307, 23],
        [2, 1, 1, 7100],
        &[
            "read 12 0 0 0 | |",
            "comment 0 0 0 1114 0 ||",
            "satellite 13 0 0 0",
            "row 13 0 0 absent absent",
        ],
    ),
    (
        Paper,
        &[],
        [1, 1, 308, 22],
        [999_999_999, 999_999_999, 999_999_999, 999_999_999],
        &[
            "read 12 0 0 0 | |",
            "comment 13 0 0 0 0 ||",
            "satellite 13 0 0 0",
            "row 13 0 0 absent absent",
        ],
    ),
    (
        Paper,
        &[],
        [0, 0, 0, 0],
        [0, 0, 0, 8207],
        &["read 12 0 0 0 | |", "sums 0 0 0 0", "satellite 13 0 0 0"],
    ),
    (
        Night,
        &[],
        [2, 2, 308, 137],
        [0, 3, 0, 7107],
        &[
            "read 12 0 0 0 | |",
            "sums 248864 248864 3351868396646214080 12381452714405939882",
            "read_front 12 0 0 0 | |",
            "sums 248864 248864 3351868396646214080 12381452714405939882",
            "satellite 0 0 0 0",
            "row 13 0 0 absent absent",
        ],
    ),
    (Night, &[], [2, 2, 308, 138], [0, 0, 2, 7107], &["row 13 0 0 absent absent"]),
    (Night, &[], [2, 2, 308, 138], [0, 1, 3, 7107], &["row 13 0 0 absent absent"]),
    (
        Motion,
        &[],
        [2, 2, 308, 92],
        [0, 1, 0, 7107],
        &["satellite 13 0 0 0", "row 13 0 0 absent absent"],
    ),
    (
        Night,
        &[],
        [2, 1, 308, 138],
        [0, 2, 2, 7124],
        &["read 12 0 0 0 | |", "satellite 13 0 0 0", "row 13 0 0 absent absent"],
    ),
    (
        Night,
        &[],
        [1, 2, 308, 138],
        [0, 0, 1, 8207],
        &["read 12 0 0 0 | |", "satellite 13 0 0 0", "row 0 0 0 absent absent"],
    ),
    (
        Night,
        &[],
        [9, 9, 400, 150],
        [0, 1, 0, 8224],
        &["read 0 0 0 1636 |d|", "satellite 0 0 0 1", "row 0 0 0 absent -1"],
    ),
    (
        Night,
        &[],
        [2, 2, 308, 138],
        [0, 1, 1, 8225],
        &["read 0 0 0 1636 |d|", "row 0 0 0 0 0 1 absent"],
    ),
    (
        Night,
        &[],
        [2, 2, 308, 138],
        [0, 2, 0, 8223],
        &["read 0 0 0 1636 |d|", "row 0 0 0 -500000 0 0 absent"],
    ),
    (
        Motion,
        &[],
        [2, 2, 308, 91],
        [0, 0, 2, 7101],
        &["read 12 0 0 0 | |", "satellite 0 0 0 0", "row 13 0 0 absent absent"],
    ),
    (Motion, &[], [2, 2, 308, 46], [0, 0, 0, 7101], &["read 12 0 0 0 | |"]),
    (
        Motion,
        &[],
        [3, 3, 308, 103],
        [0, 0, 0, 7103],
        &[
            "read 0 0 0 1605 |d|",
            "satellite 13 0 0 0",
            "row 0 0 0 -11044805800 -10475672350 21929418200 189163300",
        ],
    ),
    // 11 before 12 and 13; the front is read all the same.
    (
        Paper,
        &[After(b"x")],
        [1, 1, 308, 23],
        [0, 0, 0, 7107],
        &[
            "case 1216",
            "front 0 0 0 1215 |d|",
            "whole 11 26 0 0 | |",
            "read 11 26 0 0 | |",
            "sums 7777 7777 3351868396646214080 4045731010258001686",
            "read_front 0 0 0 1215 |d|",
            "sums 7107 0 10666195931946167104 9802001914446447297",
            "comment 11 26 0 0 0 ||",
            "satellite 11 26 0 0",
            "row 11 26 0 absent absent",
        ],
    ),
    (
        Paper,
        &[After(b"\n")],
        [0, 1, 308, 23],
        [4, 1, 1, 0],
        &[
            "front 0 0 0 1215 |d|",
            "whole 11 26 0 0 | |",
            "read 11 26 0 0 | |",
            "read_front 12 0 0 0 | |",
            "comment 11 26 0 0 0 ||",
            "satellite 11 26 0 0",
            "row 11 26 0 absent absent",
        ],
    ),
    // The file's own refusal before 12 and 13; "filling the table before a later line is refused".
    (
        Paper,
        &[Drop(25)],
        [1, 1, 308, 23],
        [0, 0, 0, 7107],
        &[
            "front 1 25 0 0 | |",
            "whole 1 25 0 0 | |",
            "read 1 25 0 0 | |",
            "sums 7777 7777 3351868396646214080 4045731010258001686",
            "read_front 1 25 0 0 | |",
            "sums 7777 7777 3351868396646214080 4045731010258001686",
            "comment 1 25 0 0 0 ||",
            "satellite 1 25 0 0",
            "row 1 25 0 absent absent",
        ],
    ),
    (
        Paper,
        &[Whole(25, "EOFX")],
        [0, 0, 0, 0],
        [9, 9, 9, 9],
        &[
            "read 5 25 4 0 | |",
            "read_front 5 25 4 0 | |",
            "comment 5 25 4 0 0 ||",
            "satellite 5 25 4 0",
            "row 5 25 4 absent absent",
        ],
    ),
    (
        Paper,
        &[Put(24, 5, "  5000.0000001")],
        [1, 1, 308, 23],
        [0, 0, 0, 7107],
        &[
            "front 6 24 5 0 | |",
            "whole 6 24 5 0 | |",
            "read 6 24 5 0 | |",
            "sums 7777 7777 3351868396646214080 4045731010258001686",
            "read_front 6 24 5 0 | |",
            "sums 7777 7777 3351868396646214080 4045731010258001686",
            "comment 6 24 5 0 0 ||",
            "satellite 6 24 5 0",
            "row 6 24 5 absent absent",
        ],
    ),
    (
        Night,
        &[Byte(27, 200, 127), Byte(27, 300, 9)],
        [2, 2, 308, 138],
        [9, 9, 9, 9],
        &[
            "front 2 27 200 0 | |",
            "whole 2 27 200 0 | |",
            "read 2 27 200 0 | |",
            "read_front 2 27 200 0 | |",
            "comment 2 27 200 0 0 ||",
            "satellite 2 27 200 0",
            "row 2 27 200 absent absent",
        ],
    ),
    (
        Motion,
        &[Put(26, 61, "x"), Put(26, 70, "x")],
        [0, 0, 0, 0],
        [0, 0, 0, 7101],
        &[
            "whole 5 26 61 0 | |",
            "read 5 26 61 0 | |",
            "satellite 5 26 61 0",
            "row 5 26 61 absent absent",
        ],
    ),
    (
        Night,
        &[Put(29, 9, "13"), Put(29, 15, "24")],
        [2, 2, 308, 138],
        [0, 0, 0, 7107],
        &["front 7 29 4 0 | |", "comment 7 29 4 0 0 ||", "row 7 29 4 absent absent"],
    ),
    // Comments: from column 4 on, trailing blanks cut, leading ones kept.
    (Paper, &[Put(20, 3, "    ")], [1, 1, 308, 23], [1, 0, 0, 7107], &["comment 0 0 0 1112 0 ||"]),
    (Paper, &[Put(20, 3, " ")], [1, 1, 308, 23], [1, 0, 0, 7107], &["comment 0 0 0 1112 0 ||"]),
    (
        Paper,
        &[Put(20, 4, "  a |b|   ")],
        [1, 1, 308, 23],
        [1, 0, 0, 7107],
        &["|  a |b||", "comment 0 0 0 1112 7 |  a |b||"],
    ),
    (Paper, &[Put(20, 80, "z")], [1, 1, 308, 23], [2, 0, 0, 7107], &["comment 0 0 0 1192 0 ||"]),
    (
        Talkative(103),
        &[],
        [1, 1, 7931, 23],
        [102, 0, 0, 7107],
        &["comments 103", "|COMMENT 102|", "comment 0 0 0 2521 11 |COMMENT 102|"],
    ),
    (
        Talkative(103),
        &[],
        [1, 1, 7930, 23],
        [103, 0, 0, 7107],
        &["read 12 0 0 0 | |", "comment 13 0 0 0 0 ||"],
    ),
    // Notes: 000's own, one of nothing, the largest numbers, zeros; 1000 is no mark.
    (
        Paper,
        &[NOTE],
        [1, 1, 308, 23],
        [0, 0, 0, 7107],
        &[
            "sums 7107 0 10666195931946167104 15289957320527067536",
            "P 0 G07 5000000001 -500000 0 absent unknown unknown unknown unknown .... note \
             55 55 55 222 1234567 -1234567 5999999 -30 21 -1230000",
            "rows 1 known 1 absent 0",
            "row 0 0 0 5000000001 -500000 0 absent",
        ],
    ),
    (
        Paper,
        &[BARE],
        [1, 1, 308, 23],
        [0, 0, 0, 7107],
        &[
            "sums 7107 0 10666195931946167104 15226688131451141472",
            "P 0 G07 5000000001 -500000 0 absent unknown unknown unknown unknown .... note \
             unknown unknown unknown unknown unknown unknown unknown unknown unknown unknown",
            "rows 1 known 1 absent 0",
            "row 0 0 0 5000000001 -500000 0 absent",
        ],
    ),
    (
        Paper,
        &[BARE, Put(25, 80, " ")],
        [1, 1, 308, 23],
        [0, 0, 0, 7107],
        &[
            "P 0 G07 5000000001 -500000 0 absent unknown unknown unknown unknown .... note \
             unknown unknown unknown unknown unknown unknown unknown unknown unknown unknown",
            "rows 1 known 1 absent 0",
            "row 0 0 0 5000000001 -500000 0 absent",
        ],
    ),
    (
        Paper,
        &[BARE, Put(25, 5, "0055")],
        [1, 1, 308, 23],
        [0, 0, 0, 7107],
        &[
            "P 0 G07 5000000001 -500000 0 absent unknown unknown unknown unknown .... note \
             55 unknown unknown unknown unknown unknown unknown unknown unknown unknown",
            "rows 1 known 1 absent 0",
            "row 0 0 0 5000000001 -500000 0 absent",
        ],
    ),
    (
        Paper,
        &[BARE, Put(25, 5, "9999"), Put(25, 20, "9999999")],
        [1, 1, 308, 23],
        [0, 0, 0, 7107],
        &[
            "P 0 G07 5000000001 -500000 0 absent unknown unknown unknown unknown .... note \
             large unknown unknown large unknown unknown unknown unknown unknown unknown",
            "rows 1 known 1 absent 0",
            "row 0 0 0 5000000001 -500000 0 absent",
        ],
    ),
    (
        Paper,
        &[BARE, Put(25, 5, "9998 1000 9999 9999998")],
        [1, 1, 308, 23],
        [0, 0, 0, 7107],
        &[
            "P 0 G07 5000000001 -500000 0 absent unknown unknown unknown unknown .... note \
             9998 1000 large 9999998 unknown unknown unknown unknown unknown unknown",
            "rows 1 known 1 absent 0",
            "row 0 0 0 5000000001 -500000 0 absent",
        ],
    ),
    (
        Paper,
        &[BARE, Put(25, 20, "   9999 09999999 -9999999       -0 -0000030")],
        [1, 1, 308, 23],
        [0, 0, 0, 7107],
        &[
            "P 0 G07 5000000001 -500000 0 absent unknown unknown unknown unknown .... note \
             unknown unknown unknown 9999 9999999 -9999999 0 -30 unknown unknown",
            "rows 1 known 1 absent 0",
            "row 0 0 0 5000000001 -500000 0 absent",
        ],
    ),
    (
        Paper,
        &[BARE, Put(25, 73, "      -1")],
        [1, 1, 308, 23],
        [0, 0, 0, 7107],
        &[
            "P 0 G07 5000000001 -500000 0 absent unknown unknown unknown unknown .... note \
             unknown unknown unknown unknown unknown unknown unknown unknown unknown -1",
            "rows 1 known 1 absent 0",
            "row 0 0 0 5000000001 -500000 0 absent",
        ],
    ),
    (
        Paper,
        &[ABSENT, BARE, Put(25, 8, "7")],
        [1, 1, 308, 23],
        [0, 0, 0, 7107],
        &[
            "P 0 G07 absent absent unknown unknown unknown unknown .... note \
             7 unknown unknown unknown unknown unknown unknown unknown unknown unknown",
            "rows 1 known 0 absent 1",
            "row 0 0 0 absent absent",
        ],
    ),
    // A number of rows too few.
    (
        Paper,
        &[NOTE],
        [1, 1, 308, 22],
        [0, 0, 0, 7107],
        &["whole 0 0 0 1296 |d|", "read 12 0 0 0 | |"],
    ),
    (MovingNotes, &[], [2, 2, 308, 183], [0, 0, 0, 7107], &["read 12 0 0 0 | |"]),
    // Mode V: a note of P alone, of V alone.
    (
        Motion,
        &[Drop(27)],
        [2, 2, 308, 92],
        [0, 0, 0, 7101],
        &[
            "P 0 G01 -11044805800 -10475672350 21929418200 189163300 18 18 18 219 .... note \
             55 55 55 222 1234567 -1234567 5999999 -30 21 -1230000",
            "V 0 G01 20298880364 -18462044804 1381387685 -4534317 14 14 14 191 ....",
            "P 0 G02 -12593593500 10170327650 -20354534400 -55976000 18 18 18 219 ..M.",
        ],
    ),
    (
        Motion,
        &[Drop(25), Insert(29, "EV")],
        [2, 2, 308, 92],
        [0, 0, 0, 7101],
        &[
            "P 0 G01 -11044805800 -10475672350 21929418200 189163300 18 18 18 219 ....",
            "V 0 G01 20298880364 -18462044804 1381387685 -4534317 14 14 14 191 .... note \
             22 22 22 111 1234567 1234567 1234567 1234567 1234567 1234567",
            "P 0 G02 -12593593500 10170327650 -20354534400 -55976000 18 18 18 219 ..M.",
            "V 0 G02 absent absent unknown unknown unknown unknown .... note \
             unknown unknown unknown unknown unknown unknown unknown unknown unknown unknown",
        ],
    ),
    (
        Night,
        &[Insert(25, "EP"), Insert(29, "EP    18")],
        [2, 2, 308, 138],
        [0, 1, 0, 7107],
        &[
            "P 0 G07 15000000000 -20000500000 0 123456789 unknown unknown unknown unknown .... \
             note unknown unknown unknown unknown unknown unknown unknown unknown unknown unknown",
            "P 0 R24 absent absent unknown unknown unknown unknown ....",
            "P 1 G07 absent -1 18 18 18 219 EPMP note \
             18 unknown unknown unknown unknown unknown unknown unknown unknown unknown",
            "P 1 R24 0 0 1 absent large large large large ....",
        ],
    ),
    // Absent clocks: bare, cut, bare before exponents and flags, other digits, zeros,
    // a leading zero. With twelve nines in all of them the table is the same.
    (
        Night,
        &[
            Put(24, 47, " 999999.      "),
            Whole(25, "PR24      0.000000      0.000000      0.000000 999999."),
            Put(27, 47, " 999999.      "),
            Put(28, 47, " 999999.999998"),
            Put(31, 47, "0999999.123456"),
        ],
        [2, 2, 308, 138],
        [3, 2, 1, 8224],
        &[
            "case 1630",
            "read 0 0 0 1630 |d|",
            "sums 228541 168 10666195931946167104 9354858664053465677",
            "P 0 G07 15000000000 -20000500000 0 absent unknown unknown unknown unknown ....",
            "P 0 R24 absent absent unknown unknown unknown unknown ....",
            "P 1 G07 absent absent 18 18 18 219 EPMP",
            "P 1 R24 0 0 1 absent large large large large ....",
            "P 2 G07 -500000 0 0 absent unknown unknown unknown unknown ....",
            "P 2 R24 999999999999 -999999999999 999999999999 absent 0 unknown 9 7 ..M.",
            "rows 6 known 4 absent 2",
            "row 0 0 0 999999999999 -999999999999 999999999999 absent",
        ],
    ),
    (
        Night,
        &[
            Put(24, 47, " 999999.999999"),
            Put(27, 47, " 999999.999999"),
            Put(30, 47, " 999999.999999"),
            Put(31, 47, " 999999.999999"),
        ],
        [2, 2, 308, 138],
        [3, 2, 1, 8224],
        &[
            "case 1636",
            "read 0 0 0 1636 |d|",
            "sums 228541 168 10666195931946167104 9354858664053465677",
            "P 2 R24 999999999999 -999999999999 999999999999 absent 0 unknown 9 7 ..M.",
            "row 0 0 0 999999999999 -999999999999 999999999999 absent",
        ],
    ),
    // Present: 999998, a minus; x, y and z of six nines are a place.
    (
        Night,
        &[
            Put(24, 47, " 999998.999999"),
            Put(25, 47, "-999999.000000"),
            Put(27, 47, "-999999.999999"),
            Put(28, 47, "0999998.000000"),
            Put(30, 5, " 999999.000000 999999.999998-999999.000000      0.999999"),
        ],
        [2, 2, 308, 138],
        [3, 0, 0, 8224],
        &[
            "P 0 G07 15000000000 -20000500000 0 999998999999 unknown unknown unknown unknown ....",
            "P 0 R24 absent -999999000000 unknown unknown unknown unknown ....",
            "P 1 G07 absent -999999999999 18 18 18 219 EPMP",
            "P 1 R24 0 0 1 999998000000 large large large large ....",
            "P 2 G07 999999000000 999999999998 -999999000000 999999 \
             unknown unknown unknown unknown ....",
            "rows 6 known 4 absent 2",
            "row 0 0 0 15000000000 -20000500000 0 999998999999",
        ],
    ),
    // The same of rates; the row that is asked for is the P.
    (
        MovingRows,
        &[
            Put(25, 47, " 999999.      "),
            Whole(27, "VR20      0.000000      0.000000      0.000000 999999."),
            Put(29, 47, "-999999.000000"),
            Put(30, 47, " 999999.000000"),
            Put(31, 47, " 999999.999998"),
            Put(32, 47, "0999999.123456"),
        ],
        [2, 2, 308, 184],
        [3, 1, 0, 8220],
        &[
            "P 0 G07 123456789012 234567890123 999999999999 987654321098 18 large 7 219 EPMP",
            "V 0 G07 123456789012 234567890123 999999999999 absent 18 large 7 219 ....",
            "P 0 R20 absent absent unknown unknown unknown unknown ....",
            "V 0 R20 absent absent unknown unknown unknown unknown ....",
            "P 1 G07 -12500000 -23456789012 -3456789012 -999999000000 5 unknown large 7 .P..",
            "V 1 G07 -12500000 -23456789012 -3456789012 absent 5 unknown large 7 ....",
            "P 1 R20 12500000 1000000 -500000 absent 0 1 10 12 ...P",
            "V 1 R20 12500000 1000000 -500000 absent 0 1 10 12 ....",
            "rows 8 known 6 absent 2",
            "row 0 0 0 -12500000 -23456789012 -3456789012 -999999000000",
        ],
    ),
    (
        MovingRows,
        &[
            Put(25, 47, " 999998.999999"),
            Put(27, 47, "-999999.000000"),
            Put(29, 47, " 999999.      "),
            Put(30, 47, "-999999.999999"),
            Put(32, 5, " 999999.000000 999999.999998-999999.0000000999998.000000"),
        ],
        [2, 2, 308, 184],
        [3, 1, 0, 8220],
        &[
            "V 0 G07 123456789012 234567890123 999999999999 999998999999 18 large 7 219 ....",
            "V 0 R20 absent -999999000000 unknown unknown unknown unknown ....",
            "P 1 G07 -12500000 -23456789012 -3456789012 absent 5 unknown large 7 .P..",
            "V 1 G07 -12500000 -23456789012 -3456789012 -999999999999 5 unknown large 7 ....",
            "V 1 R20 999999000000 999999999998 -999999000000 999998000000 0 1 10 12 ....",
            "row 0 0 0 -12500000 -23456789012 -3456789012 absent",
        ],
    ),
    // The paper's file with its clock cut after the point, and as `.000000`.
    (
        Paper,
        &[Whole(24, "PG07   5000.000001     -0.500000      0.000000 999999.")],
        [1, 1, 308, 23],
        [0, 0, 0, 7107],
        &[
            "whole 0 0 0 1209 |d|",
            "read 0 0 0 1209 |d|",
            "sums 7107 0 10666195931946167104 9802001914446447297",
            "P 0 G07 5000000001 -500000 0 absent unknown unknown unknown unknown ....",
            "row 0 0 0 5000000001 -500000 0 absent",
        ],
    ),
    (
        Paper,
        &[Put(24, 47, " 999999.000000")],
        [1, 1, 308, 23],
        [0, 0, 0, 7107],
        &[
            "read 0 0 0 1215 |d|",
            "sums 7107 0 10666195931946167104 9802001914446447297",
            "row 0 0 0 5000000001 -500000 0 absent",
        ],
    ),
    // A bare clock after anything else than six nines refuses the row that is asked for.
    (
        Motion,
        &[Put(28, 47, "-999999.      ")],
        [2, 2, 308, 92],
        [0, 0, 0, 7101],
        &[
            "whole 6 28 47 0 | |",
            "read 6 28 47 0 | |",
            "satellite 6 28 47 0",
            "row 6 28 47 absent absent",
        ],
    ),
    // Minus zero is zero; the clock's nines with a leading zero are absent.
    (
        Paper,
        &[Put(24, 5, "-000000.000000     -0.000000-000000.000000-999999.999999")],
        [1, 1, 308, 23],
        [0, 0, 0, 7107],
        &[
            "P 0 G07 absent -999999999999 unknown unknown unknown unknown ....",
            "rows 1 known 0 absent 1",
            "row 0 0 0 absent -999999999999",
        ],
    ),
    (
        Paper,
        &[Put(24, 47, "0999999.999999    00 99 999 E    P")],
        [1, 1, 308, 23],
        [0, 0, 0, 7107],
        &["P 0 G07 5000000001 -500000 0 absent unknown 0 large large E..P"],
    ),
    (
        Paper,
        &[Put(24, 47, "     -0.000000 99 09  7  99  P")],
        [1, 1, 308, 23],
        [0, 0, 0, 7107],
        &["P 0 G07 5000000001 -500000 0 0 large 9 7 99 .P.."],
    ),
    // Many satellites; two letters with the same number are two satellites.
    (
        Many(255),
        &[],
        [255, 255, 308, 5865],
        [0, 0, 254, 6957],
        &[
            "read 0 0 0 17929 |d|",
            "satellites 255",
            "G01 0",
            "G99 686",
            "R01 693",
            "E57 778",
            "P 0 E57 254000001 -500000 0 1000000 unknown unknown unknown unknown ....",
            "rows 255 known 255 absent 0",
            "satellite 0 0 0 254",
            "row 0 0 0 254000001 -500000 0 1000000",
        ],
    ),
    // 61 * (2 + 2 * 16 + 6) + 56 bytes before the rows and after them, 61 a row; 255
    // places, as many as sufficed before request 6.
    (
        Many(256),
        &[],
        [255, 256, 308, 5888],
        [0, 0, 255, 6958],
        &[
            "whole 0 0 0 18112 |d|",
            "read 12 0 0 0 | |",
            "read_front 12 0 0 0 | |",
            "satellite 0 0 0 255",
            "row 0 0 0 255000001 -500000 0 1000000",
        ],
    ),
    // 61 * (2 + 2 * 59 + 6) + 56 + 61 * 999; its last comment is two bytes after 126
    // lines of 61, one of 11 and two of 3.
    (
        Many(999),
        &[],
        [999, 999, 308, 22_977],
        [3, 0, 998, 9009],
        &[
            "case 68681",
            "front 0 0 0 68681 |d|",
            "whole 0 0 0 68681 |d|",
            "read 0 0 0 68681 |d|",
            "type M",
            "satellites 999",
            "G01 0",
            "E57 778",
            "E58 785",
            "Z09 986",
            "P 0 G01 1 -500000 0 1000000 unknown unknown unknown unknown ....",
            "P 0 E58 255000001 -500000 0 1000000 unknown unknown unknown unknown ....",
            "P 0 Z09 998000001 -500000 0 1000000 unknown unknown unknown unknown ....",
            "rows 999 known 999 absent 0",
            "read_front 0 0 0 68681 |d|",
            "comment 0 0 0 7705 0 ||",
            "satellite 0 0 0 998",
            "row 0 0 0 998000001 -500000 0 1000000",
        ],
    ),
    (
        Many(18),
        &[],
        [17, 18, 308, 414],
        [0, 0, 18, 7119],
        &["read 12 0 0 0 | |", "satellite 13 0 0 0", "row 13 0 0 absent absent"],
    ),
    (
        Many(86),
        &[],
        [86, 86, 308, 1978],
        [0, 0, 85, 7186],
        &["satellites 86", "G86 595", "satellite 0 0 0 85", "row 0 0 0 85000001 -500000 0 1000000"],
    ),
];

/// What 999 satellites need and a place less in each list; rows and satellites that
/// are there and that aren't. These aren't stored.
const MANY_ASKED: &[Asked] = &[
    (
        Many(999),
        &[],
        [998, 999, 308, 22_977],
        [4, 0, 999, 9010],
        &[
            "whole 0 0 0 68681 |d|",
            "read 12 0 0 0 | |",
            "read_front 12 0 0 0 | |",
            "comment 13 0 0 0 0 ||",
            "satellite 13 0 0 0",
            "row 13 0 0 absent absent",
        ],
    ),
    (
        Many(999),
        &[],
        [999, 998, 308, 22_977],
        [0, 0, 255, 6957],
        &["read 12 0 0 0 | |", "satellite 0 0 0 254", "row 0 0 0 255000001 -500000 0 1000000"],
    ),
    (
        Many(999),
        &[],
        [999, 999, 307, 22_977],
        [0, 0, 256, 6958],
        &["read 12 0 0 0 | |", "satellite 0 0 0 255", "row 0 0 0 256000001 -500000 0 1000000"],
    ),
    (
        Many(999),
        &[],
        [999, 999, 308, 22_976],
        [0, 1, 0, 6959],
        &["read 12 0 0 0 | |", "satellite 0 0 0 256", "row 13 0 0 absent absent"],
    ),
    (
        Many(999),
        &[],
        [1000, 1001, 400, 23_000],
        [0, 0, 1000, 9100],
        &["read 0 0 0 68681 |d|", "satellite 13 0 0 0", "row 13 0 0 absent absent"],
    ),
    (
        Many(256),
        &[],
        [256, 256, 308, 5888],
        [0, 0, 256, 6959],
        &[
            "read 0 0 0 18112 |d|",
            "satellites 256",
            "E58 785",
            "P 0 E58 255000001 -500000 0 1000000 unknown unknown unknown unknown ....",
            "rows 256 known 256 absent 0",
            "satellite 13 0 0 0",
            "row 13 0 0 absent absent",
        ],
    ),
    (
        Many(256),
        &[],
        [256, 255, 308, 5888],
        [0, 0, 254, 6957],
        &["read 12 0 0 0 | |", "satellite 0 0 0 254", "row 0 0 0 254000001 -500000 0 1000000"],
    ),
    // The row of a satellite whose position is 256 more or less.
    (
        Many(999),
        &[],
        [999, 999, 308, 22_977],
        [0, 0, 512, 7309],
        &["read 0 0 0 68681 |d|", "satellite 0 0 0 503", "row 0 0 0 512000001 -500000 0 1000000"],
    ),
    (
        ManyBackwards(999),
        &[],
        [999, 999, 308, 22_977],
        [0, 0, 998, 7101],
        &[
            "read 0 0 0 68681 |d|",
            "Z09 0",
            "G01 986",
            "P 0 Z09 1 -500000 0 1000000 unknown unknown unknown unknown ....",
            "satellite 0 0 0 998",
            "row 0 0 0 998000001 -500000 0 1000000",
        ],
    ),
    (
        ManyOverLetters(999),
        &[],
        [999, 999, 308, 22_977],
        [0, 0, 11, 8291],
        &[
            "read 0 0 0 68681 |d|",
            "G01 0",
            "R01 7",
            "Z01 70",
            "G02 77",
            "satellite 0 0 0 991",
            "row 0 0 0 11000001 -500000 0 1000000",
        ],
    ),
    // Mode V: twice the rows, of which the question has those of P.
    (
        MovingMany(999),
        &[],
        [999, 999, 308, 45_954],
        [0, 0, 998, 9009],
        &[
            "read 0 0 0 129620 |d|",
            "mode V",
            "P 0 Z09 998000001 -500000 0 1000000 unknown unknown unknown unknown ....",
            "V 0 Z09 998000001 -500000 0 1000000 unknown unknown unknown unknown ....",
            "rows 1998 known 1998 absent 0",
            "satellite 0 0 0 998",
            "row 0 0 0 998000001 -500000 0 1000000",
        ],
    ),
    (
        MovingMany(999),
        &[],
        [999, 999, 308, 45_953],
        [0, 0, 999, 9009],
        &["whole 0 0 0 129620 |d|", "read 12 0 0 0 | |", "row 13 0 0 absent absent"],
    ),
];

/// Rows with other bytes in their columns; these aren't stored.
const ROWS_BY_HAND: &[Hand] = &[
    (Rows, &[], 0, 0, 0),
    (MovingRows, &[], 0, 0, 0),
    // Column 1 tells the kind.
    (Rows, &[Put(24, 1, "V")], 4, 24, 0),
    (Rows, &[Put(24, 1, "E")], 4, 24, 0),
    (Rows, &[Put(24, 1, "p")], 4, 24, 0),
    (Rows, &[Put(25, 1, " ")], 4, 25, 0),
    (MovingRows, &[Put(24, 1, "V")], 4, 24, 0),
    (MovingRows, &[Put(25, 1, "P")], 4, 25, 0),
    // 2-4: a capital letter and two digits, not 00, the satellite of the header.
    (Rows, &[Put(24, 2, "g")], 6, 24, 2),
    (Rows, &[Put(24, 3, ":")], 6, 24, 2),
    (Rows, &[Put(24, 3, " ")], 6, 24, 2),
    (Rows, &[Put(24, 2, "F:7")], 6, 24, 2),
    (Rows, &[Put(25, 4, "/")], 6, 25, 2),
    (Rows, &[Put(24, 4, "0")], 7, 24, 2),
    (Rows, &[Put(24, 4, "8")], 10, 24, 0),
    (Rows, &[Put(24, 2, "R20")], 10, 24, 0),
    // The first column of a number: a digit makes 10^12 or more of 123456, not of 12.5.
    (Rows, &[Put(24, 5, "-")], 0, 0, 0),
    (Rows, &[Put(24, 5, "1")], 7, 24, 5),
    (Rows, &[Put(24, 5, "+")], 6, 24, 5),
    (Rows, &[Put(25, 5, "-")], 6, 25, 5),
    (Rows, &[Put(28, 5, "0")], 0, 0, 0),
    // Blanks, a minus, digits: in this order.
    (Rows, &[Put(24, 8, " ")], 6, 24, 5),
    (Rows, &[Put(24, 8, "-")], 6, 24, 5),
    (Rows, &[Put(24, 6, "  ")], 0, 0, 0),
    (Rows, &[Put(24, 6, "--")], 6, 24, 5),
    (Rows, &[Put(24, 6, "- ")], 6, 24, 5),
    (Rows, &[Put(25, 10, "-")], 0, 0, 0),
    (Rows, &[Put(25, 9, "-")], 6, 25, 5),
    (Rows, &[Put(25, 9, "1")], 6, 25, 5),
    (Rows, &[Put(25, 11, " ")], 6, 25, 5),
    (Rows, &[Put(25, 11, "-")], 6, 25, 5),
    (Rows, &[Put(24, 53, "e")], 6, 24, 47),
    (Rows, &[Put(24, 39, ":")], 6, 24, 33),
    // The point and the six digits after it.
    (Rows, &[Put(24, 12, "0")], 6, 24, 5),
    (Rows, &[Put(24, 26, ",")], 6, 24, 19),
    (Rows, &[Put(24, 13, " ")], 6, 24, 5),
    (Rows, &[Put(24, 46, " ")], 6, 24, 33),
    (Rows, &[Put(24, 60, ":")], 6, 24, 47),
    (Rows, &[Put(25, 57, "-")], 6, 25, 47),
    // Clocks by their six nines: bare, cut, with zeros, with other digits.
    (Clocks, &[], 0, 0, 0),
    (MovingClocks, &[], 0, 0, 0),
    (Clocks, &[Put(24, 47, "-")], 6, 24, 47),
    (Clocks, &[Put(24, 47, "0")], 0, 0, 0),
    (Clocks, &[Put(24, 47, "1")], 6, 24, 47),
    (Clocks, &[Put(24, 48, " ")], 6, 24, 47),
    (Clocks, &[Put(24, 53, "8")], 6, 24, 47),
    (Clocks, &[Put(24, 54, " ")], 6, 24, 47),
    (Clocks, &[Put(24, 55, "0")], 6, 24, 47),
    (Clocks, &[Put(24, 60, "9")], 6, 24, 47),
    (Clocks, &[Put(24, 55, "000000")], 0, 0, 0),
    (Clocks, &[Put(24, 61, "0")], 5, 24, 61),
    (Clocks, &[Put(24, 5, "1")], 7, 24, 5),
    (Clocks, &[Put(25, 54, " ")], 6, 25, 47),
    (Clocks, &[Put(25, 55, "      ")], 0, 0, 0),
    (Clocks, &[Put(25, 60, "0")], 6, 25, 47),
    (Clocks, &[Put(25, 61, "x")], 5, 25, 61),
    (Clocks, &[Put(25, 81, " ")], 3, 25, 81),
    (Clocks, &[Put(27, 47, "-")], 0, 0, 0),
    (Clocks, &[Put(27, 47, "1")], 7, 27, 47),
    (Clocks, &[Put(27, 53, "8")], 0, 0, 0),
    (Clocks, &[Put(27, 55, " ")], 6, 27, 47),
    (Clocks, &[Put(28, 47, " ")], 0, 0, 0),
    (Clocks, &[Put(28, 48, " ")], 6, 28, 47),
    (Clocks, &[Put(28, 60, " ")], 6, 28, 47),
    (MovingClocks, &[Put(25, 47, "-")], 6, 25, 47),
    (MovingClocks, &[Put(25, 55, "0")], 6, 25, 47),
    (MovingClocks, &[Put(25, 61, "0")], 5, 25, 61),
    (MovingClocks, &[Put(27, 53, "8")], 6, 27, 47),
    (MovingClocks, &[Put(27, 75, "E")], 5, 27, 75),
    (MovingClocks, &[Put(30, 47, "-")], 0, 0, 0),
    (MovingClocks, &[Put(32, 47, "1")], 7, 32, 47),
    (MovingClocks, &[Put(32, 60, " ")], 6, 32, 47),
    // Unused columns.
    (Rows, &[Put(24, 61, "0")], 5, 24, 61),
    (Rows, &[Put(24, 64, "-")], 5, 24, 64),
    (Rows, &[Put(24, 67, ".")], 5, 24, 67),
    (Rows, &[Put(24, 70, "1")], 5, 24, 70),
    (Rows, &[Put(24, 74, "E")], 5, 24, 74),
    (Rows, &[Put(24, 77, "P")], 5, 24, 77),
    (Rows, &[Put(25, 78, "M")], 5, 25, 78),
    (Rows, &[Put(28, 61, "x")], 5, 28, 61),
    // Exponents: blanks and then digits, or blank.
    (Rows, &[Put(24, 62, " ")], 0, 0, 0),
    (Rows, &[Put(24, 63, " ")], 6, 24, 62),
    (Rows, &[Put(24, 62, "  ")], 0, 0, 0),
    (Rows, &[Put(24, 65, "-")], 6, 24, 65),
    (Rows, &[Put(27, 65, "9")], 6, 27, 65),
    (Rows, &[Put(27, 66, "0")], 0, 0, 0),
    (Rows, &[Put(24, 72, " ")], 6, 24, 71),
    (Rows, &[Put(24, 73, "E")], 6, 24, 71),
    (MovingRows, &[Put(32, 63, "x")], 6, 32, 62),
    // Flags: each its own letter or blank; V has none.
    (Rows, &[Put(24, 75, " ")], 0, 0, 0),
    (Rows, &[Put(25, 75, "E")], 0, 0, 0),
    (Rows, &[Put(27, 79, "M")], 0, 0, 0),
    (Rows, &[Put(24, 75, "P")], 6, 24, 75),
    (Rows, &[Put(24, 76, "E")], 6, 24, 76),
    (Rows, &[Put(24, 79, "P")], 6, 24, 79),
    (Rows, &[Put(24, 79, "m")], 6, 24, 79),
    (Rows, &[Put(28, 80, "M")], 6, 28, 80),
    (MovingRows, &[Put(25, 75, "E")], 5, 25, 75),
    (MovingRows, &[Put(32, 80, "P")], 5, 32, 80),
    // 81 characters; bytes that aren't characters.
    (Rows, &[Put(24, 81, " ")], 3, 24, 81),
    (Rows, &[Put(25, 81, "P")], 3, 25, 81),
    (Rows, &[Byte(24, 81, 127)], 2, 24, 81),
    (Rows, &[Byte(24, 30, 0)], 2, 24, 30),
    (Rows, &[Byte(24, 61, 31)], 2, 24, 61),
    (Rows, &[Byte(25, 80, 128)], 2, 25, 80),
    // LF ends the line: what follows it is a line of no kind.
    (Rows, &[Byte(24, 1, 10)], 4, 24, 0),
    (Rows, &[Byte(24, 12, 10)], 6, 24, 5),
    (Rows, &[Byte(24, 61, 10)], 4, 25, 0),
    (Rows, &[Byte(24, 80, 10)], 4, 25, 0),
    (Rows, &[Byte(25, 70, 10)], 4, 26, 0),
    // The lowest number decides.
    (Rows, &[Put(24, 8, " "), Put(24, 61, "x")], 5, 24, 61),
    (Rows, &[Put(24, 1, "V"), Byte(24, 80, 127)], 2, 24, 80),
];

/// Notes with other bytes in their columns; these aren't stored.
const NOTES_BY_HAND: &[Hand] = &[
    // After the row of the paper's file, and of mode V.
    (Paper, &[BARE, Put(25, 81, " ")], 3, 25, 81),
    (Paper, &[NOTE, Byte(25, 81, 9)], 2, 25, 81),
    (Paper, &[BARE, Put(25, 4, "0")], 5, 25, 4),
    (Paper, &[BARE, Put(25, 72, "x")], 5, 25, 72),
    (Motion, &[Put(27, 72, "-")], 5, 27, 72),
    (Paper, &[NOTE, Put(25, 5, "    ")], 0, 0, 0),
    (Paper, &[NOTE, Put(25, 20, "0000000")], 0, 0, 0),
    (Paper, &[BARE, Put(25, 5, "55")], 6, 25, 5),
    (Paper, &[BARE, Put(25, 5, "  -0")], 6, 25, 5),
    (Paper, &[BARE, Put(25, 5, "  +1")], 6, 25, 5),
    (Paper, &[NOTE, Put(25, 10, " 5 5")], 6, 25, 10),
    (Paper, &[NOTE, Put(25, 20, "     -1")], 6, 25, 20),
    (Paper, &[BARE, Put(25, 28, "-0000000")], 0, 0, 0),
    (Paper, &[NOTE, Put(25, 73, "        ")], 0, 0, 0),
    (Paper, &[BARE, Put(25, 80, "0")], 0, 0, 0),
    (Paper, &[BARE, Put(25, 28, "       -")], 6, 25, 28),
    (Paper, &[NOTE, Put(25, 80, " ")], 6, 25, 73),
    (Paper, &[NOTE, Put(25, 28, "99999999"), Put(25, 72, "x")], 5, 25, 72),
    // Columns 1 and 2 tell the kind.
    (Notes, &[Put(25, 1, "P")], 5, 25, 61),
    (Notes, &[Put(25, 1, "e")], 4, 25, 0),
    (Notes, &[Put(25, 2, "V")], 4, 25, 0),
    (Notes, &[Put(27, 2, "p")], 4, 27, 0),
    (MovingNotes, &[Put(27, 2, "P")], 4, 27, 0),
    (MovingNotes, &[Put(25, 2, "V")], 4, 25, 0),
    // Unused columns.
    (Notes, &[Put(25, 3, "0")], 5, 25, 3),
    (Notes, &[Put(25, 4, "1")], 5, 25, 4),
    (Notes, &[Put(25, 9, "-")], 5, 25, 9),
    (Notes, &[Put(25, 14, ".")], 5, 25, 14),
    (Notes, &[Put(25, 19, "9")], 5, 25, 19),
    (Notes, &[Put(25, 27, "E")], 5, 25, 27),
    (Notes, &[Put(25, 36, "0")], 5, 25, 36),
    (Notes, &[Put(27, 45, "0")], 5, 27, 45),
    (Notes, &[Put(27, 54, "0")], 5, 27, 54),
    (Notes, &[Put(30, 63, "P")], 5, 30, 63),
    (MovingNotes, &[Put(27, 72, "~")], 5, 27, 72),
    // The first and the last column of a deviation.
    (Notes, &[Put(25, 5, " ")], 0, 0, 0),
    (Notes, &[Put(25, 5, "-")], 6, 25, 5),
    (Notes, &[Put(25, 5, "0")], 0, 0, 0),
    (Notes, &[Put(25, 6, " ")], 6, 25, 5),
    (Notes, &[Put(25, 8, " ")], 6, 25, 5),
    (Notes, &[Put(25, 13, ":")], 6, 25, 10),
    (Notes, &[Put(25, 15, "/")], 6, 25, 15),
    (Notes, &[Put(25, 26, "x")], 6, 25, 20),
    (Notes, &[Put(27, 7, "5")], 6, 27, 5),
    (Notes, &[Put(27, 8, "5")], 0, 0, 0),
    (Notes, &[Put(27, 26, "0")], 0, 0, 0),
    (Notes, &[Put(27, 25, "0")], 6, 27, 20),
    // Correlations: the first column has a minus, a zero, another digit, a blank.
    (Notes, &[Put(25, 28, "1")], 7, 25, 28),
    (Notes, &[Put(25, 28, "0")], 0, 0, 0),
    (Notes, &[Put(25, 28, " ")], 0, 0, 0),
    (Notes, &[Put(25, 28, "+")], 6, 25, 28),
    (Notes, &[Put(25, 37, "1")], 7, 25, 37),
    (Notes, &[Put(25, 37, "-")], 0, 0, 0),
    (Notes, &[Put(25, 29, "-")], 6, 25, 28),
    (Notes, &[Put(25, 29, " ")], 6, 25, 28),
    (Notes, &[Put(25, 38, "-")], 6, 25, 37),
    (Notes, &[Put(25, 37, " -")], 0, 0, 0),
    (Notes, &[Put(25, 62, " ")], 6, 25, 55),
    (Notes, &[Put(27, 80, "0")], 0, 0, 0),
    (Notes, &[Put(27, 80, "-")], 6, 27, 73),
    (Notes, &[Put(27, 79, "-")], 6, 27, 73),
    (Notes, &[Put(27, 79, "-1")], 0, 0, 0),
    (Notes, &[Put(27, 73, "1")], 6, 27, 73),
    (MovingNotes, &[Put(27, 73, "9")], 7, 27, 73),
    (MovingNotes, &[Put(31, 80, "P")], 6, 31, 73),
    // 81 characters; bytes that aren't characters; LF.
    (Notes, &[Put(25, 81, " ")], 3, 25, 81),
    (Notes, &[Put(27, 81, " ")], 3, 27, 81),
    (Notes, &[Byte(25, 81, 127)], 2, 25, 81),
    (Notes, &[Byte(25, 3, 9)], 2, 25, 3),
    (Notes, &[Byte(27, 80, 128)], 2, 27, 80),
    (Notes, &[Byte(25, 1, 10)], 4, 25, 0),
    (Notes, &[Byte(25, 3, 10)], 4, 26, 0),
    (Notes, &[Byte(25, 7, 10)], 6, 25, 5),
    (Notes, &[Byte(25, 9, 10)], 4, 26, 0),
    // The lowest number decides.
    (Notes, &[Put(25, 6, " "), Put(25, 72, "x")], 5, 25, 72),
    (Notes, &[Put(25, 28, "9"), Put(25, 73, "x")], 6, 25, 73),
    (Notes, &[Put(25, 2, "V"), Byte(25, 80, 127)], 2, 25, 80),
];

const NOTES_ASKED: &[Asked] = &[
    (
        Notes,
        &[],
        [2, 2, 308, 92],
        [0, 1, 0, 8220],
        &[
            "P 0 G07 123456789012 234567890123 999999999999 987654321098 18 large 7 219 EPMP note \
             1234 5678 9012 3456789 -1234567 9999999 -9999999 1234567 -21 8765432",
            "P 0 R20 absent absent unknown unknown unknown unknown .... note \
             unknown unknown unknown unknown unknown unknown unknown unknown unknown unknown",
            "P 1 G07 -12500000 -23456789012 -3456789012 -1 5 unknown large 7 .P.. note \
             large unknown unknown large 9999999 unknown -9999999 unknown unknown unknown",
            "P 1 R20 12500000 1000000 -500000 absent 0 1 10 12 ...P note \
             55 0 1000 0 0 -30 0 0 -21 -1230000",
            "rows 4 known 3 absent 1",
            "row 0 0 0 -12500000 -23456789012 -3456789012 -1",
        ],
    ),
    (
        MovingNotes,
        &[Drop(25), Put(26, 28, " 1"), Put(30, 80, "0")],
        [2, 2, 308, 184],
        [0, 0, 0, 7107],
        &[
            "P 0 G07 123456789012 234567890123 999999999999 987654321098 18 large 7 219 EPMP",
            "V 0 G07 123456789012 234567890123 999999999999 987654321098 18 large 7 219 .... note \
             1234 5678 9012 3456789 1234567 9999999 -9999999 1234567 -21 8765432",
            "P 0 R20 absent absent unknown unknown unknown unknown .... note \
             unknown unknown unknown unknown unknown unknown unknown unknown unknown unknown",
            "V 0 R20 absent absent unknown unknown unknown unknown .... note \
             unknown unknown unknown unknown unknown unknown unknown unknown unknown 0",
        ],
    ),
];

const ROWS_ASKED: &[Asked] = &[
    (
        Rows,
        &[],
        [2, 2, 308, 92],
        [0, 1, 0, 8220],
        &[
            "P 0 G07 123456789012 234567890123 999999999999 987654321098 18 large 7 219 EPMP",
            "P 0 R20 absent absent unknown unknown unknown unknown ....",
            "P 1 G07 -12500000 -23456789012 -3456789012 -1 5 unknown large 7 .P..",
            "P 1 R20 12500000 1000000 -500000 absent 0 1 10 12 ...P",
            "rows 4 known 3 absent 1",
            "satellite 0 0 0 1",
            "row 0 0 0 -12500000 -23456789012 -3456789012 -1",
        ],
    ),
    (
        Rows,
        &[Put(24, 6, "  -"), Put(24, 62, " "), Put(24, 71, "   "), Put(24, 75, " ")],
        [2, 2, 308, 92],
        [0, 0, 0, 7107],
        &[
            "P 0 G07 -456789012 234567890123 999999999999 987654321098 8 large 7 unknown .PMP",
            "row 0 0 0 -456789012 234567890123 999999999999 987654321098",
        ],
    ),
    (
        Rows,
        &[Put(25, 10, "-"), Put(25, 60, "8"), Put(25, 73, "0"), Put(25, 79, "M")],
        [2, 2, 308, 92],
        [0, 0, 1, 7107],
        &["P 0 R20 absent absent unknown unknown unknown 0 ..M.", "row 0 0 0 absent absent"],
    ),
    (
        Rows,
        &[Put(25, 10, "-"), Put(25, 53, "8"), Put(25, 73, "0"), Put(25, 79, "M")],
        [2, 2, 308, 92],
        [0, 0, 1, 7107],
        &[
            "P 0 R20 absent 999998999999 unknown unknown unknown 0 ..M.",
            "row 0 0 0 absent 999998999999",
        ],
    ),
    (
        Clocks,
        &[],
        [2, 2, 308, 92],
        [0, 0, 0, 7107],
        &[
            "P 0 G07 123456789012 234567890123 999999999999 absent 18 large 7 219 EPMP",
            "P 0 R20 absent absent unknown unknown unknown unknown ....",
            "P 1 G07 -12500000 -23456789012 -3456789012 absent 5 unknown large 7 .P..",
            "P 1 R20 12500000 1000000 -500000 absent 0 1 10 12 ...P",
            "row 0 0 0 123456789012 234567890123 999999999999 absent",
        ],
    ),
    (
        MovingClocks,
        &[Put(24, 53, "8.123456"), Put(27, 47, "-999999.100000"), Put(30, 47, "-")],
        [2, 2, 308, 184],
        [0, 0, 0, 7107],
        &[
            "P 0 G07 123456789012 234567890123 999999999999 999998123456 18 large 7 219 EPMP",
            "V 0 G07 123456789012 234567890123 999999999999 absent 18 large 7 219 ....",
            "V 0 R20 absent -999999100000 unknown unknown unknown unknown ....",
            "P 1 G07 -12500000 -23456789012 -3456789012 absent 5 unknown large 7 .P..",
            "V 1 G07 -12500000 -23456789012 -3456789012 -999999000000 5 unknown large 7 ....",
            "V 1 R20 12500000 1000000 -500000 absent 0 1 10 12 ....",
            "row 0 0 0 123456789012 234567890123 999999999999 999998123456",
        ],
    ),
    (
        MovingRows,
        &[Put(25, 5, "-"), Put(27, 63, "9")],
        [2, 2, 308, 184],
        [0, 0, 0, 7107],
        &[
            "P 0 G07 123456789012 234567890123 999999999999 987654321098 18 large 7 219 EPMP",
            "V 0 G07 -123456789012 234567890123 999999999999 987654321098 18 large 7 219 ....",
            "V 0 R20 absent absent 9 unknown unknown unknown ....",
            "row 0 0 0 123456789012 234567890123 999999999999 987654321098",
        ],
    ),
];

// ---------------------------------------------------------------------------
// Self-test
// ---------------------------------------------------------------------------

/// The numbers of an answer: 0, 0 and 0 where it isn't a refusal.
fn numbers<T>(answer: &Result<T, Refusal>) -> (u8, usize, usize) {
    let of_refusal = |refusal: &Refusal| (refusal.number, refusal.line, refusal.column);
    answer.as_ref().map_or_else(of_refusal, |_| (0, 0, 0))
}

fn test_hand(tally: &mut Tally, list: &[Hand]) {
    for &(base, edits, number, line, column) in list {
        let file = hand_made(base, edits);
        let (whole, front) = (numbers(&judge(&file)), numbers(&judge_front(&file)));
        let wanted = (number, line, column);
        let wanted_front = if number == BYTES_AFTER { (0, 0, 0) } else { wanted };
        tally.holds(whole == wanted, || {
            format!("{base:?} {edits:?}\n  wanted {wanted:?}\n  given  {whole:?}")
        });
        tally.holds(front == wanted_front, || format!("{base:?} {edits:?} front {front:?}"));
    }
}

/// Whether the wanted lines stand in the answer in this order.
pub(crate) fn missing_line<'a>(answer: &str, wanted: &[&'a str]) -> Option<&'a str> {
    let mut lines = answer.lines();
    wanted.iter().copied().find(|wanted| !lines.any(|line| line == *wanted))
}

fn test_asked(tally: &mut Tally, list: &[Asked]) {
    for &(base, edits, rooms, asked, wanted) in list {
        let case = Case { file: hand_made(base, edits), rooms, asked };
        let answer = case.answer();
        let missing = missing_line(&answer, wanted);
        tally.holds(missing.is_none(), || {
            format!("{base:?} {edits:?}\n  wanted {missing:?}\n  given {answer}")
        });
        tally.made += wanted.len() - 1;
    }
}

/// Each clock that `lines.rs` has by hand, in P and in V: the number of the file,
/// or what its row holds.
fn test_clocks(tally: &mut Tally) {
    for &(given, wanted) in lines::CLOCKS {
        for (base, line, row) in [(Paper, 24, 0), (Motion, 26, 1), (Motion, 29, 3)] {
            let mut draft = base_file(base);
            draft.put(line, 47, given.as_bytes());
            let judged = judge(&draft.bytes());
            let right = match (&judged, wanted) {
                (Ok((table, _)), Ok(shown)) => table.rows[row].clock == number_shown(shown),
                (Err(refusal), Err(number)) => {
                    (refusal.number, refusal.line, refusal.column) == (number, line, 47)
                }
                _ => false,
            };
            tally.holds(right, || format!("{base:?} clock {given:?}: {:?}", numbers(&judged)));
        }
    }
}

/// ` 999998.000001` is 999,998,000,001.
fn number_shown(text: &str) -> i64 {
    text.replace([' ', '.'], "").parse().unwrap_or_else(|_| fail(&format!("{text:?} is no number")))
}

/// Files that differ in the fractions of six nines have equal tables.
fn test_equal_tables(tally: &mut Tally) {
    let nines = lines::CLOCKS.iter().filter(|(_, shown)| *shown == Ok(" 999999.999999"));
    let absent: Vec<&str> = nines.map(|&(given, _)| given).collect();
    for (base, line, rooms) in
        [(Paper, 24, [1, 1, 308, 23]), (Night, 28, [2, 2, 308, 138]), (Motion, 29, [2, 2, 308, 92])]
    {
        let lists = |clock: &&str| {
            let (mut draft, mut lent) = (base_file(base), Lent::marked(rooms));
            draft.put(line, 47, clock.as_bytes());
            let read = read(&draft.bytes(), &mut lent).map(|_| ());
            (read.is_ok(), lent.identifiers, lent.exponents, lent.comments, lent.rows)
        };
        let tables: Vec<_> = absent.iter().map(lists).collect();
        let alike = tables.iter().all(|table| table.0 && *table == tables[0]);
        tally.holds(alike, || format!("{base:?}: absent clocks make different tables"));
    }
}

/// Each file type with each letter, and each time system.
fn test_types(tally: &mut Tally) {
    for letter in "GMRLSIECJ".chars() {
        for other in "GRLSIECJAMZ".chars() {
            let mut draft = paper_file();
            draft.put(3, 10, format!("{other}07").as_bytes());
            draft.put(13, 4, format!("{letter} ").as_bytes());
            draft.put(24, 2, format!("{other}07").as_bytes());
            let wanted = if letter == 'M' || letter == other { (0, 0, 0) } else { (8, 13, 0) };
            let given = numbers(&judge(&draft.bytes()));
            tally.holds(given == wanted, || format!("type {letter} of {other}07: {given:?}"));
        }
    }
    for system in ["GPS", "GLO", "GAL", "BDT", "TAI", "UTC", "IRN", "QZS"] {
        let mut draft = paper_file();
        draft.put(13, 10, system.as_bytes());
        tally.holds(judge(&draft.bytes()).is_ok(), || format!("time system {system}"));
    }
}

/// "No accepted file is the beginning of a longer accepted file": what is cut
/// off gives 1 in the unfinished line, what is added gives 11.
fn test_lengths(tally: &mut Tally) {
    let edits: [&[Edit]; 2] = [&[], &[AS_C]];
    for (base, edits) in [Paper, Night, Motion, Notes].into_iter().zip(edits.into_iter().cycle()) {
        let file = hand_made(base, edits);
        for length in 0..file.len() {
            let line = 1 + file[..length].iter().filter(|&&c| c == b'\n').count();
            let given = numbers(&judge(&file[..length]));
            tally.holds(given == (1, line, 0), || format!("{base:?} cut to {length}: {given:?}"));
        }
        let line = 1 + file.iter().filter(|&&c| c == b'\n').count();
        for byte in 0..=255 {
            let longer = [&file[..], &[byte]].concat();
            let given = (numbers(&judge(&longer)), length_of(&judge_front(&longer)));
            let wanted = ((11, line, 0), Ok(file.len()));
            tally.holds(given == wanted, || format!("{base:?} and {byte}: {given:?}"));
        }
    }
}

/// Undamaged files hold what was planned; only an epoch past the calendar of
/// the paper refuses them, or more satellites than c has.
fn test_plans(tally: &mut Tally) {
    let mut random = Random(STORED_SEED);
    for place in 0..700 {
        let plan = match place {
            0..=599 => choose_plan(&mut random),
            600..=659 => choose_night_plan(&mut random),
            _ => choose_large_plan(&mut random),
        };
        let draft = write_plan(&mut Pen { random: &mut random, odd: place % 2 == 0 }, &plan);
        let last = plan.start + (plan.epochs as i64 - 1) * plan.interval;
        let too_many = plan.version == Version::C && plan.identifiers.len() > 85;
        let held = match judge(&draft.bytes()) {
            Err(refusal) if too_many => numbers(&Err::<(), _>(refusal)) == (7, 3, 4),
            Err(refusal) => refusal.number == 7 && last >= 88_069 * DAY,
            Ok((table, _)) => {
                last < 88_069 * DAY
                    && !too_many
                    && table.velocities == plan.velocities
                    && (table.start, table.interval) == (plan.start, plan.interval)
                    && (table.epochs, table.comments.len()) == (plan.epochs, plan.comments)
                    && (table.identifiers, table.file_type) == (plan.identifiers, plan.file_type)
                    && table.time_system == plan.time_system.as_bytes()
            }
        };
        tally.holds(held, || format!("{}", show_text(&draft.bytes())));
    }
}

/// Files with room for identifiers, and the refusal, line and column where they
/// are kept there.
const KEPT: &[(Base, &[Edit], usize, u8, usize, usize)] = &[
    (Paper, &[], 1, 0, 0, 0),
    (Paper, &[], 0, 12, 3, 0),
    (Night, &[], 300, 0, 0, 0),
    (Night, &[], 1, 12, 3, 0),
    (Many(20), &[], 20, 0, 0, 0),
    (Many(20), &[], 19, 12, 4, 0),
    (Many(20), &[], 17, 12, 4, 0),
    (Many(20), &[], 16, 12, 3, 0),
    (Many(86), &[], 85, 12, 8, 0),
    (Many(86), &[], 84, 12, 7, 0),
    (Many(256), &[], 255, 12, 18, 0),
    (Many(999), &[], 999, 0, 0, 0),
    (Many(999), &[], 998, 12, 61, 0),
    (Many(999), &[], 985, 12, 60, 0),
    (Many(999), &[Put(61, 46, "G01")], 998, 8, 61, 0),
    (Many(999), &[Put(61, 46, "G01")], 985, 12, 60, 0),
    // "12 comes after all other checks" of its line; a later line isn't read.
    (Many(20), &[Put(4, 10, "G17")], 17, 8, 4, 0),
    (Many(20), &[Put(4, 10, "G17")], 16, 12, 3, 0),
    (Many(20), &[Put(4, 13, "G 9")], 17, 6, 4, 13),
    (Many(20), &[Put(4, 13, "E19"), Put(13, 4, "G ")], 20, 8, 13, 0),
    (Many(20), &[Put(4, 13, "E19"), Put(13, 4, "G ")], 18, 12, 4, 0),
];

fn test_kept(tally: &mut Tally) {
    for &(base, edits, room, number, line, column) in KEPT {
        let refusal = follow_keeping(&hand_made(base, edits), room).refusal;
        let found = numbers(&refusal.map_or(Ok(()), Err));
        let wanted = (number, line, column);
        tally.holds(found == wanted, || format!("{base:?} {edits:?} {room}: {found:?}"));
    }
}

/// "the byte for 2, column 81 for 3, .. otherwise 0": which columns a number has.
fn column_is_right(refusal: &Refusal, file: &[u8]) -> bool {
    let wrong = |byte: &u8| !(32..=126).contains(byte);
    let line = file.split(|&c| c == b'\n').nth(refusal.line - 1).unwrap_or_default();
    match refusal.number {
        2 => line.iter().position(wrong) == Some(refusal.column - 1),
        3 if Version::told_by(file) == Version::C && line.starts_with(b"/*") => {
            refusal.column == 61
        }
        3 => refusal.column == 81,
        5..=7 => (1..=80).contains(&refusal.column),
        _ => refusal.column == 0,
    }
}

fn test_columns(tally: &mut Tally) {
    for number in 1..=1000 {
        let (_, file) = generated(generate_any_file, STORED_SEED + 4, number);
        let refusal = judge(&file).err();
        let right = refusal.map_or(true, |refusal| column_is_right(&refusal, &file));
        tally.holds(right, || format!("columns {number}: {refusal:?}"));
    }
}

/// A batch that is shown and read again has the same answers.
pub(crate) fn test_batches<C: Compared>(
    tally: &mut Tally,
    cases: Vec<C>,
    parse_batch: fn(&[u8]) -> Vec<C>,
) {
    let again = parse_batch(&show_batch(&cases));
    tally.holds(answers(&cases) == answers(&again), || "a batch read again".to_string());
}

/// MJD of the paper's cases, of the ends of the calendar and of leap days.
fn test_days(tally: &mut Tally) {
    for (year, month, day, wanted) in [
        (1980, 1, 6, 44_244),
        (1980, 2, 29, 44_298),
        (1980, 3, 1, 44_299),
        (2000, 1, 1, 51_544),
        (2000, 2, 29, 51_603),
        (2001, 8, 8, 52_129),
        (2012, 10, 1, 56_201),
        (2012, 12, 31, 56_292),
        (2013, 4, 3, 56_385),
        (2099, 12, 31, 88_068),
    ] {
        let given = modified_julian_day(lines::Date { year, month, day });
        tally.holds(given == wanted, || format!("{year} {month} {day}: {given}"));
    }
}

fn self_test() {
    let mut tally = Tally::default();
    test_hand(&mut tally, HAND);
    test_hand(&mut tally, CLOCKS_BY_HAND);
    test_hand(&mut tally, MANY_REFUSED);
    test_hand(&mut tally, OLDER);
    test_hand(&mut tally, MANY_MORE_REFUSED);
    test_hand(&mut tally, MANY_BY_HAND);
    test_hand(&mut tally, ROWS_BY_HAND);
    test_hand(&mut tally, NOTES_BY_HAND);
    test_asked(&mut tally, ASKED);
    test_asked(&mut tally, OLDER_ASKED);
    test_asked(&mut tally, MANY_ASKED);
    test_asked(&mut tally, ROWS_ASKED);
    test_asked(&mut tally, NOTES_ASKED);
    test_clocks(&mut tally);
    test_equal_tables(&mut tally);
    test_types(&mut tally);
    test_days(&mut tally);
    test_kept(&mut tally);
    let by_hand = tally.made;
    test_lengths(&mut tally);
    test_plans(&mut tally);
    test_columns(&mut tally);
    test_batches(&mut tally, stored_cases(), parse_batch);
    tally.tell(by_hand);
}

// ---------------------------------------------------------------------------
// The program
// ---------------------------------------------------------------------------

pub(crate) fn print(bytes: &[u8]) {
    if let Err(error) = std::io::stdout().write_all(bytes) {
        fail(&format!("standard output: {error}"));
    }
}

pub(crate) fn standard_input() -> Vec<u8> {
    let mut bytes = Vec::new();
    if let Err(error) = std::io::stdin().read_to_end(&mut bytes) {
        fail(&format!("standard input: {error}"));
    }
    bytes
}

fn number(word: &str) -> u64 {
    word.parse().unwrap_or_else(|_| fail(&format!("{word:?} is no number")))
}

/// Does what the words ask of cases, or fails with the usage.
pub(crate) fn obey<C: Compared>(
    words: &[&str],
    parse_batch: fn(&[u8]) -> Vec<C>,
    generate: Generate<C>,
    stored_cases: fn() -> Vec<C>,
    usage: &str,
) {
    match *words {
        ["answer"] => print(answers(&parse_batch(&standard_input())).as_bytes()),
        ["generate", seed, count] => {
            let seed = number(seed);
            (1..=number(count)).for_each(|place| print(&generated(generate, seed, place).show()));
        }
        ["case", seed, place] => print(&generated(generate, number(seed), number(place)).show()),
        ["cases"] => print(&show_batch(&stored_cases())),
        ["check", directory] => check(directory, &stored_cases()),
        ["count"] => count(&parse_batch(&standard_input())),
        ["compare", seed, count, program, ref rest @ ..] => {
            let (name, seed) = (format!("seed {seed}"), number(seed));
            let case_of = |place| generated(generate, seed, place);
            compare(&name, case_of, number(count), program, rest);
        }
        _ => fail(usage),
    }
}

/// The same of the cases of a list that has this name.
pub(crate) fn obey_list<C: Compared + Clone>(name: &str, cases: &[C], words: &[&str], usage: &str) {
    let case_of = |place: u64| match cases.get((place as usize).wrapping_sub(1)) {
        Some(case) => case.clone(),
        None => fail(&format!("there are {} cases", cases.len())),
    };
    match *words {
        [] => print(&show_batch(cases)),
        ["case", place] => print(&case_of(number(place)).show()),
        ["compare", program, ref rest @ ..] => {
            compare(name, case_of, cases.len() as u64, program, rest);
        }
        _ => fail(usage),
    }
}

fn main() {
    let arguments: Vec<String> = std::env::args().skip(1).collect();
    let words: Vec<&str> = arguments.iter().map(String::as_str).collect();
    let usage =
        "usage: answer | generate SEED COUNT | case SEED NUMBER | cases | check CRATE_DIR\n\
         | self-test | count | compare SEED COUNT PROGRAM [ARGS..] | any .. | kinds SEED COUNT\n\
         | file MODE SATELLITES EPOCHS [c] | bytes SEED COUNT\n\
         | columns|hand [case NUMBER | compare PROGRAM [ARGS..]]";
    match words[..] {
        ["self-test"] => self_test(),
        ["kinds", seed, count] => tell_kinds(number(seed), number(count)),
        ["file", mode @ ("P" | "V"), satellites, epochs, ref version @ ..] => {
            let (satellites, epochs) = (number(satellites) as usize, number(epochs) as usize);
            let version = if *version == ["c"] { Version::C } else { Version::D };
            print(&plain_file(version, mode == "V", satellites, epochs).bytes());
        }
        ["bytes", seed, count] => {
            let mut random = Random(number(seed));
            print(&(0..number(count)).map(|_| random.next() as u8).collect::<Vec<u8>>());
        }
        ["columns", ref rest @ ..] => obey_list("columns", &altered_lines(), rest, usage),
        ["hand", ref rest @ ..] => obey_list("hand", &all_hand_cases(), rest, usage),
        ["any", ref rest @ ..] => {
            obey(rest, parse_batch, generate_any_case, stored_cases, usage);
        }
        _ => obey(&words, parse_batch, generate_case, stored_cases, usage),
    }
}
