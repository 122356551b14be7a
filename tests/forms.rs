//! A judge and a writer of tables, in SP3-d and in SP3-c, written only from the
//! documents.
//!
//! It says of a table whether it is valid, whether it is within the bounds of a
//! version, and what its canonical bytes there are.
//! It also makes the tables and files on which another implementation is
//! compared with it. It shares no code with that implementation; files are
//! judged by `files.rs` and single lines written by `lines.rs`, from the same
//! documents.
//!
//! Build: `rustc -O --edition 2021 -o BIN tests/forms.rs`
//!
//! * `BIN answer < batch`      prints the answers to a batch of cases;
//! * `BIN answer-tables < batch` prints those to its tables alone;
//! * `BIN generate SEED COUNT` prints a batch of that many generated cases;
//! * `BIN case SEED NUMBER`    prints a generated case, counted from 1;
//! * `BIN any ..`              the same with cases of any size (`any compare 1 9 ..`);
//! * `BIN hand`                prints the cases worked out by hand, stored and not
//!   stored; `BIN hand case NUMBER` and `BIN hand compare PROGRAM [ARGS..]` are as
//!   with the generated ones;
//! * `BIN cases`               prints the stored batch;
//! * `BIN check CRATE_DIR`     compares `CRATE_DIR/stdin` with the stored batch
//!   and `CRATE_DIR/stdout` with the answers to it;
//! * `BIN self-test`           compares the writer with answers worked out by hand;
//! * `BIN count < batch`       counts the answers by their numbers;
//! * `BIN compare SEED COUNT PROGRAM [ARGS..]` gives generated batches to the
//!   program and compares what it prints with the answers, byte for byte.
//!
//! A batch is cases one after the other. A case is a line `KIND VERSION ROOM
//! LENGTH` and directly after its LF so many bytes. VERSION is the one to be
//! written, its letter as a number (99 c, 100 d). ROOM is the output lent, of
//! which every byte holds a mark before. Of kind 0 the bytes are a file, which is
//! read into lists with room for 1,000 identifiers, 1,000 exponents, 8,000 bytes of
//! comments and 23,000 numbers of rows, and written again. Of kind 2 they are a
//! file that is read into lists with just the room that it needs (the program of
//! crates/ has no such cases). Of kind 1 they are a table. Its numbers each have
//! one blank or LF after them:
//!
//! ```text
//! 34 numbers   the arguments of a header: mode, year, month, day, hour,
//!              minute, seconds in 10^-8, epochs, interval in 10^-8 s,
//!              satellites, comments, file type, time system (3), bases (2),
//!              texts (17); letters as their bytes
//! FIELD VALUE  which of these is another after the header was accepted, 1
//!              standing for the start in 10^-8 s since MJD 0; 99 for none
//! I X C R      how many identifiers, exponents, bytes of comments and numbers
//!              of rows are lent
//! ```
//!
//! and then these lists: I, X and R numbers, and C bytes as they are. A row has
//! 23 numbers: x, y, z, clock; four exponents; four flags; 1 where it has a note,
//! else 0; four deviations; six correlations (xy, xz, xc, yz, yc, zc). A number
//! of a note that is unknown is 100000000, and so are all ten beside a 0. The
//! answer to a case:
//!
//! ```text
//! file ROOM LENGTH      or  table ROOM LENGTH
//! read R LINE COLUMN |V|    new R
//! (the rest only where that is 0)
//! write R LENGTH
//! (the bytes written)
//! kept                      every byte past them still holds the mark
//! ```
//!
//! V is the letter of the version that the file had, a blank beside a refusal.
//!
//! "The paper" is 01-scope.md as requests 1 to 3, 6 and 9 of 02-change-requests.md
//! changed it, "000" is the SP3-d document.

#[allow(dead_code)]
#[path = "files.rs"]
pub(crate) mod files;

use files::lines::{self, fail, without_trailing_blanks, Version};
use files::lines::{Exponent, Identifier, Moment, Note, Random, Tally};
use files::{answers, generated, AS_C, COMMENT_60, COMMENT_61};
use files::{Base, Compared, Edit, Lent, BARE, DAY, GPS_ZERO, NOTE, SECOND, UNKNOWN, UNNOTED};
use std::collections::HashSet;

// ---------------------------------------------------------------------------
// What a table says
// ---------------------------------------------------------------------------

/// "lent room is too small"
const NO_ROOM: u8 = 12;
/// "the table to be written isn't valid"
const NOT_VALID: u8 = 13;
/// "a table outside c's bounds"
const OUTSIDE_VERSION: u8 = 17;
/// A letter, file type or time system that isn't listed, or a text's byte.
const NOT_LISTED: u8 = 6;
/// "a number or date is outside its bounds"
const OUT_OF_BOUNDS: u8 = 7;

/// What stands before the lists of a table, right or wrong; times in 10^-8 s,
/// the start since MJD 0.
#[derive(Clone)]
struct Head {
    velocities: bool,
    start: u64,
    epochs: u64,
    interval: u64,
    /// data used 5, coordinate system 5, orbit type 3, agency 4
    texts: [u8; 17],
    satellites: u64,
    comments: u64,
    file_type: u8,
    time_system: [u8; 3],
    bases: [u64; 2],
}

impl Head {
    /// "n times epochs rows (twice that in mode V)"
    fn rows(&self) -> u128 {
        let rows = u128::from(self.satellites) * u128::from(self.epochs);
        rows * if self.velocities { 2 } else { 1 }
    }

    fn text(&self, first: usize, length: usize) -> Vec<u8> {
        self.texts[first..first + length].to_vec()
    }
}

/// Width of a comment and of a row in the lists.
const COMMENT: usize = 77;
const ROW: usize = files::ROW_WIDTH;
/// The place of the clock in a row.
const CLOCK: usize = 3;
/// Places in a row: whether it has a note, and the note's deviations and
/// correlations.
const MARK: usize = 12;
const DEVIATIONS: std::ops::Range<usize> = 13..17;
const CLOCK_DEVIATION: usize = 16;
const CORRELATIONS: std::ops::Range<usize> = 17..23;

// ---------------------------------------------------------------------------
// Validity: "A table is valid exactly when some accepted file has it"
// ---------------------------------------------------------------------------

fn is_printable(bytes: &[u8]) -> bool {
    bytes.iter().all(|byte| (32..=126).contains(byte))
}

fn is_file_type(letter: u8) -> bool {
    lines::FILE_TYPES.iter().any(|listed| listed.as_bytes()[0] == letter)
}

fn is_time_system(text: &[u8]) -> bool {
    lines::TIME_SYSTEMS.iter().any(|listed| listed.as_bytes() == text)
}

/// Whether an instant is on a day of "1980-01-06 to 2099-12-31".
fn is_on_an_allowed_day(instant: u128) -> bool {
    (44_244..=88_068).contains(&(instant / DAY as u128))
}

/// The largest number that so many digits show.
fn most_of(digits: usize) -> u64 {
    lines::power_of_ten(digits) as u64 - 1
}

/// I7 with "1 or more" and "at most 100,000"; F14.8 "above 0", which leaves 13
/// digits; I3 with 1 to 999; "Four or more comments"; F10.7 and F12.9, which
/// leave 9 and 11 digits.
fn numbers_are_bounded(head: &Head) -> bool {
    (1..=100_000).contains(&head.epochs)
        && (1..=most_of(13)).contains(&head.interval)
        && (1..=files::MOST_SATELLITES as u64).contains(&head.satellites)
        && head.comments >= 4
        && head.bases[0] <= most_of(9)
        && head.bases[1] <= most_of(11)
}

/// "epoch k, counted from 0, is the start plus k times the interval", and each
/// is a date within the bounds.
fn epochs_are_bounded(head: &Head) -> bool {
    let start = u128::from(head.start);
    let last = start + u128::from(head.epochs.saturating_sub(1)) * u128::from(head.interval);
    is_on_an_allowed_day(start) && is_on_an_allowed_day(last)
}

fn head_is_valid(head: &Head) -> bool {
    numbers_are_bounded(head)
        && epochs_are_bounded(head)
        && is_printable(&head.texts)
        && is_file_type(head.file_type)
        && is_time_system(&head.time_system)
}

/// "lists shorter than its counts make it invalid"
fn lists_suffice(head: &Head, lists: &Lent) -> bool {
    let suffices = |length: usize, needed: u128| length as u128 >= needed;
    suffices(lists.identifiers.len(), head.satellites.into())
        && suffices(lists.exponents.len(), head.satellites.into())
        && suffices(lists.comments.len(), COMMENT as u128 * u128::from(head.comments))
        && suffices(lists.rows.len(), ROW as u128 * head.rows())
}

/// "a capital letter and 01 to 99": G07 is held as 7107.
fn is_identifier(code: u64) -> bool {
    (u64::from(b'A')..=u64::from(b'Z')).contains(&(code / 100)) && code % 100 != 0
}

fn identifiers_are_valid(file_type: u8, codes: &[u64]) -> bool {
    let different: HashSet<u64> = codes.iter().copied().collect();
    codes.iter().all(|&code| is_identifier(code))
        && different.len() == codes.len()
        && files::type_agrees(file_type, codes)
}

/// I2 or I3, or unknown.
fn is_exponent(value: i64, most: i64) -> bool {
    (0..=most).contains(&value) || value == UNKNOWN
}

/// A present clock or rate as a row can hold it ("The largest valid clock is now
/// 999,998,999,999"), or the twelve nines of an absent one.
fn is_clock(value: i64) -> bool {
    (-lines::MOST_MAGNITUDE..=lines::MOST_CLOCK).contains(&value) || value == lines::ABSENT_CLOCK
}

fn row_is_valid(row: &[i64], velocity: bool) -> bool {
    let most_flag = if velocity { 0 } else { 1 };
    row[..CLOCK].iter().all(|&value| value.unsigned_abs() <= most_of(12))
        && is_clock(row[CLOCK])
        && row[4..7].iter().all(|&value| is_exponent(value, 99))
        && is_exponent(row[7], 999)
        && row[8..MARK].iter().all(|&flag| (0..=most_flag).contains(&flag))
        && note_is_valid(&row[MARK..])
}

/// The mark and the ten numbers of a note: I4 and I7, and -9,999,999 to 9,999,999,
/// or unknown; all ten are unknown where there is none.
fn note_is_valid(note: &[i64]) -> bool {
    let known = |value, least, most| (least..=most).contains(&value) || value == UNNOTED;
    match note[0] {
        0 => note[1..].iter().all(|&value| value == UNNOTED),
        1 => {
            note[1..4].iter().all(|&value| known(value, 0, 9999))
                && known(note[4], 0, 9_999_999)
                && note[5..].iter().all(|&value| known(value, -9_999_999, 9_999_999))
        }
        _ => false,
    }
}

fn is_valid(head: &Head, lists: &Lent) -> bool {
    if !head_is_valid(head) || !lists_suffice(head, lists) {
        return false;
    }
    let held = Held::of(head, lists);
    let mut rows = held.rows.chunks(ROW).enumerate();
    identifiers_are_valid(head.file_type, held.identifiers)
        && held.exponents.iter().all(|&exponent| exponent <= 999)
        && is_printable(held.comments)
        && rows.all(|(place, row)| row_is_valid(row, head.velocities && place % 2 == 1))
}

/// Whether a valid table is within the bounds of a version: its satellites, its comments,
/// and their lines, of which the text begins in column 4.
fn is_within(version: Version, head: &Head, lists: &Lent) -> bool {
    let short = |text: &[u8]| match without_trailing_blanks(text).len() {
        0 => true,
        length => 3 + length <= version.comment_width(),
    };
    head.satellites <= version.most_satellites() as u64
        && (version.allows_more_than_four() || head.comments == 4)
        && Held::of(head, lists).comments.chunks(COMMENT).all(short)
}

/// The lists as far as the counts go: "places past them aren't looked at".
struct Held<'a> {
    identifiers: &'a [u64],
    exponents: &'a [u64],
    comments: &'a [u8],
    rows: &'a [i64],
}

impl Held<'_> {
    fn of<'a>(head: &Head, lists: &'a Lent) -> Held<'a> {
        let n = head.satellites as usize;
        Held {
            identifiers: &lists.identifiers[..n],
            exponents: &lists.exponents[..n],
            comments: &lists.comments[..COMMENT * head.comments as usize],
            rows: &lists.rows[..ROW * head.rows() as usize],
        }
    }
}

// ---------------------------------------------------------------------------
// The canonical form
// ---------------------------------------------------------------------------

fn moment_of(instant: u64) -> Moment {
    let (day, time) = (instant as i64 / DAY, instant as i64 % DAY);
    let (year, month, day) = files::date_of(day);
    let minutes = time / (60 * SECOND);
    Moment {
        date: lines::Date { year, month, day },
        hour: minutes / 60,
        minute: minutes % 60,
        seconds: time % (60 * SECOND),
    }
}

fn identifier_of(code: u64) -> Identifier {
    Identifier { letter: (code / 100) as u8, number: (code % 100) as i64 }
}

/// "F as 125*S / 108 rounded to the nearest with halves upward"
fn fraction_of(time: i64) -> i64 {
    let (whole, rest) = (125 * time / 108, 125 * time % 108);
    whole + i64::from(2 * rest >= 108)
}

/// Records 1 and 2.
fn start_lines(version: Version, head: &Head) -> [String; 2] {
    let first = lines::FirstLine {
        mode: if head.velocities { b"V".to_vec() } else { b"P".to_vec() },
        start: moment_of(head.start),
        epochs: head.epochs as i64,
        data_used: head.text(0, 5),
        coordinate_system: head.text(5, 5),
        orbit_type: head.text(10, 3),
        agency: head.text(13, 4),
    };
    let (day, time) = (head.start as i64 / DAY, head.start as i64 % DAY);
    let two = lines::LineTwo {
        week: (day - GPS_ZERO) / 7,
        seconds_of_week: (day - GPS_ZERO) % 7 * DAY + time,
        interval: head.interval as i64,
        modified_julian_day: day,
        fraction: fraction_of(time),
    };
    [lines::write_first_line(version, &first), lines::write_line_two(&two)]
}

/// Records 3 and 4: seventeen to a line, five lines at least of each.
fn slot_lines(identifiers: &[u64], exponents: &[u64]) -> Vec<String> {
    let n = identifiers.len();
    let part = |line: usize| (17 * line).min(n)..(17 * line + 17).min(n);
    let satellites = |line: usize| lines::Satellites {
        number: (line == 0).then_some(n as i64),
        identifiers: identifiers[part(line)].iter().map(|&code| identifier_of(code)).collect(),
    };
    let accuracies = |line: usize| -> Vec<i64> {
        exponents[part(line)].iter().map(|&exponent| exponent as i64).collect()
    };
    let count = files::satellite_lines(n);
    let plus = (0..count).map(|line| lines::write_satellites(&satellites(line)));
    let double = (0..count).map(|line| lines::write_accuracies(&accuracies(line)));
    plus.chain(double).collect()
}

/// Records 5 and 6.
fn fixed_lines(head: &Head) -> [String; 6] {
    [
        lines::write_characters(&[head.file_type, b' '], &head.time_system),
        lines::write_characters(b"cc", b"ccc"),
        lines::write_floats(head.bases[0] as i64, head.bases[1] as i64),
        lines::write_floats(0, 0),
        lines::write_integers(),
        lines::write_integers(),
    ]
}

fn row_line(code: u64, row: &[i64], velocity: bool) -> String {
    let exponent = |place: usize| match row[place] {
        UNKNOWN => Exponent::Unknown,
        value => Exponent::Known(value),
    };
    let record = lines::Row {
        identifier: identifier_of(code),
        numbers: [row[0], row[1], row[2], row[3]],
        exponents: [exponent(4), exponent(5), exponent(6), exponent(7)],
    };
    if velocity {
        return lines::write_velocity(&record);
    }
    let flag = |place: usize, letter: &[u8]| match row[place] {
        0 => b" ".to_vec(),
        _ => letter.to_vec(),
    };
    let flags = [flag(8, b"E"), flag(9, b"P"), flag(10, b"M"), flag(11, b"P")];
    lines::write_position(&lines::Position { row: record, flags })
}

/// "the canonical form writes it there, even when all its fields are blank"
fn note_line(row: &[i64], velocity: bool) -> Option<String> {
    let field = |place: usize| (row[place] != UNNOTED).then(|| row[place]);
    let note = Note {
        deviations: std::array::from_fn(|place| field(DEVIATIONS.start + place)),
        correlations: std::array::from_fn(|place| field(CORRELATIONS.start + place)),
    };
    let symbol = if velocity { lines::EV } else { lines::EP };
    (row[MARK] == 1).then(|| lines::write_note(symbol, &note))
}

/// A row, and directly after it its note.
fn row_lines(code: u64, row: &[i64], velocity: bool) -> Vec<String> {
    std::iter::once(row_line(code, row, velocity)).chain(note_line(row, velocity)).collect()
}

/// Records 8 and 9.
fn epoch_lines(head: &Head, held: &Held) -> Vec<String> {
    let mut out = Vec::new();
    let mut rows = held.rows.chunks(ROW);
    for epoch in 0..head.epochs {
        out.push(lines::write_epoch(&moment_of(head.start + epoch * head.interval)));
        for &code in held.identifiers {
            for velocity in [false, true] {
                if head.velocities || !velocity {
                    let row = rows.next().into_iter();
                    out.extend(row.flat_map(|row| row_lines(code, row, velocity)));
                }
            }
        }
    }
    out
}

/// The canonical bytes of a valid table in a version.
fn canonical(version: Version, head: &Head, lists: &Lent) -> Vec<u8> {
    let held = Held::of(head, lists);
    let mut all = start_lines(version, head).to_vec();
    all.extend(slot_lines(held.identifiers, held.exponents));
    all.extend(fixed_lines(head));
    all.extend(held.comments.chunks(COMMENT).map(lines::write_comment));
    all.extend(epoch_lines(head, &held));
    all.push("EOF".to_string());
    all.iter().flat_map(|line| line.bytes().chain([b'\n'])).collect()
}

/// What is written into a room of so many bytes; 17, "after 13 and before 12".
fn write(version: Version, head: &Head, lists: &Lent, room: usize) -> Result<Vec<u8>, u8> {
    if !is_valid(head, lists) {
        return Err(NOT_VALID);
    }
    if !is_within(version, head, lists) {
        return Err(OUTSIDE_VERSION);
    }
    let bytes = canonical(version, head, lists);
    if bytes.len() > room {
        return Err(NO_ROOM);
    }
    Ok(bytes)
}

// ---------------------------------------------------------------------------
// A header out of numbers
// ---------------------------------------------------------------------------

/// Places of the arguments of a header.
const MODE: usize = 0;
const START: usize = 1;
const YEAR: usize = 1;
const MONTH: usize = 2;
const DAY_OF_MONTH: usize = 3;
const HOUR: usize = 4;
const MINUTE: usize = 5;
const SECONDS: usize = 6;
const EPOCHS: usize = 7;
const INTERVAL: usize = 8;
const SATELLITES: usize = 9;
const COMMENTS: usize = 10;
const TYPE: usize = 11;
const TIME: usize = 12;
const PLACE_BASE: usize = 15;
const CLOCK_BASE: usize = 16;
const TEXTS: usize = 17;
const ARGUMENTS: usize = 34;
/// No field is another after the header was accepted.
const NO_FIELD: u64 = 99;

type Arguments = [u64; ARGUMENTS];

/// A header with these numbers, right or wrong.
fn head_with(numbers: &Arguments, start: u64) -> Head {
    let byte = |place: usize| numbers[place] as u8;
    Head {
        velocities: byte(MODE) == b'V',
        start,
        epochs: numbers[EPOCHS],
        interval: numbers[INTERVAL],
        texts: std::array::from_fn(|place| byte(TEXTS + place)),
        satellites: numbers[SATELLITES],
        comments: numbers[COMMENTS],
        file_type: byte(TYPE),
        time_system: std::array::from_fn(|place| byte(TIME + place)),
        bases: [numbers[PLACE_BASE], numbers[CLOCK_BASE]],
    }
}

/// The start, if it is a date within the bounds and a time of day.
fn start_of(numbers: &Arguments) -> Option<u64> {
    let number = |place: usize| i64::try_from(numbers[place]).unwrap_or(i64::MAX);
    let date = lines::Date { year: number(YEAR), month: number(MONTH), day: number(DAY_OF_MONTH) };
    let (hour, minute, seconds) = (number(HOUR), number(MINUTE), number(SECONDS));
    let allowed = lines::date_is_allowed(date) && hour < 24 && minute < 60 && seconds < 60 * SECOND;
    allowed.then(|| {
        let time = (3600 * hour + 60 * minute) * SECOND + seconds;
        (files::modified_julian_day(date) * DAY + time) as u64
    })
}

/// A header of these numbers: 6 for what isn't listed, else 7 for a number
/// outside its bounds.
fn make_head(numbers: &Arguments) -> Result<Head, u8> {
    let head = head_with(numbers, 0);
    let listed = [b'P', b'V'].contains(&(numbers[MODE] as u8))
        && is_printable(&head.texts)
        && is_file_type(head.file_type)
        && is_time_system(&head.time_system);
    if !listed {
        return Err(NOT_LISTED);
    }
    match start_of(numbers) {
        Some(start) if numbers_are_bounded(&head) => Ok(Head { start, ..head }),
        _ => Err(OUT_OF_BOUNDS),
    }
}

/// A table as a case gives it.
#[derive(Clone)]
pub(crate) struct Given {
    numbers: Arguments,
    field: u64,
    value: u64,
    lists: Lent,
}

impl Given {
    /// The header with one field changed after it was accepted.
    fn head(&self) -> Result<Head, u8> {
        let head = make_head(&self.numbers)?;
        if self.field >= ARGUMENTS as u64 {
            return Ok(head);
        }
        let field = self.field as usize;
        let mut numbers = self.numbers;
        numbers[field] = self.value;
        Ok(head_with(&numbers, if field == START { self.value } else { head.start }))
    }

    pub(crate) fn write(&self, version: Version, room: usize) -> Result<Vec<u8>, u8> {
        self.head().and_then(|head| write(version, &head, &self.lists, room))
    }
}

/// The table of an accepted file.
pub(crate) fn given_of(file: &[u8]) -> Option<Given> {
    let (table, _) = files::judge(file).ok()?;
    let start = moment_of(table.start as u64);
    let mut numbers = [0; ARGUMENTS];
    let front = [
        i64::from(if table.velocities { b'V' } else { b'P' }),
        start.date.year,
        start.date.month,
        start.date.day,
        start.hour,
        start.minute,
        start.seconds,
        table.epochs as i64,
        table.interval,
        table.identifiers.len() as i64,
        table.comments.len() as i64,
        i64::from(table.file_type),
        i64::from(table.time_system[0]),
        i64::from(table.time_system[1]),
        i64::from(table.time_system[2]),
        table.bases[0],
        table.bases[1],
    ];
    let texts = table.texts.concat();
    let all = front.iter().map(|&number| number as u64).chain(texts.iter().map(|&b| b.into()));
    numbers.iter_mut().zip(all).for_each(|(place, number)| *place = number);
    let mut lists = Lent {
        identifiers: table.identifiers.clone(),
        exponents: table.accuracies.clone(),
        comments: Vec::new(),
        rows: table.rows.iter().flat_map(|row| row.held()).collect(),
    };
    for text in &table.comments {
        let mut comment = file[text.clone()].to_vec();
        comment.resize(COMMENT, b' ');
        lists.comments.extend(comment);
    }
    Some(Given { numbers, field: NO_FIELD, value: 0, lists })
}

// ---------------------------------------------------------------------------
// Cases and their answers
// ---------------------------------------------------------------------------

#[derive(Clone)]
enum Body {
    File(Vec<u8>),
    Table(Given),
    /// A file that is read into lists with all the room that it needs.
    Roomy(Vec<u8>),
}

#[derive(Clone)]
struct Case {
    version: Version,
    room: usize,
    body: Body,
}

/// The program under test has an output of this length.
const MOST_ROOM: usize = 75_000;

/// Numbers with one byte after each of them.
fn show_numbers<T: ToString>(numbers: &[T]) -> String {
    let words: Vec<String> = numbers.iter().map(T::to_string).collect();
    if words.is_empty() {
        String::new()
    } else {
        words.join(" ") + "\n"
    }
}

impl Given {
    /// How many identifiers, exponents, bytes of comments and numbers of rows.
    fn lengths(&self) -> [usize; 4] {
        let lists = &self.lists;
        [lists.identifiers.len(), lists.exponents.len(), lists.comments.len(), lists.rows.len()]
    }

    fn show(&self) -> Vec<u8> {
        let lists = &self.lists;
        let mut text = show_numbers(&self.numbers);
        text += &show_numbers(&[self.field, self.value]);
        text += &show_numbers(&self.lengths());
        text += &show_numbers(&lists.identifiers);
        text += &show_numbers(&lists.exponents);
        text += &lists.rows.chunks(ROW).map(show_numbers).collect::<String>();
        [text.as_bytes(), &lists.comments].concat()
    }
}

impl Case {
    fn bytes(&self) -> Vec<u8> {
        match &self.body {
            Body::File(file) | Body::Roomy(file) => file.clone(),
            Body::Table(given) => given.show(),
        }
    }

    /// A file read into lists with these rooms, and written again.
    fn answer_file(&self, file: &[u8], rooms: [usize; 4]) -> String {
        let mut lists = Lent::marked(rooms);
        match files::read(file, &mut lists) {
            Err(refusal) => {
                format!("read {} {}\n", refusal.show(), files::show_version(file, false))
            }
            Ok(_) => {
                let head = given_of(file).and_then(|given| given.head().ok());
                let Some(head) = head else {
                    fail("a file was read that has no header");
                };
                let told = files::show_version(file, true);
                format!("read 0 0 0 {told}\n{}", self.show_write(&head, &lists))
            }
        }
    }

    fn show_write(&self, head: &Head, lists: &Lent) -> String {
        show_written(write(self.version, head, lists, self.room))
    }

    fn answer_table(&self, given: &Given) -> String {
        match given.head() {
            Err(number) => format!("new {number}\n"),
            Ok(head) => format!("new 0\n{}", self.show_write(&head, &given.lists)),
        }
    }
}

impl Compared for Case {
    const COUNTED: &'static [&'static str] = &["read", "new", "write"];

    fn show(&self) -> Vec<u8> {
        let kind = match self.body {
            Body::File(_) => 0,
            Body::Table(_) => 1,
            Body::Roomy(_) => 2,
        };
        let (bytes, letter) = (self.bytes(), self.version.letter().into());
        [show_numbers(&[kind, letter, self.room, bytes.len()]).into_bytes(), bytes].concat()
    }

    fn answer(&self) -> String {
        let length = self.bytes().len();
        let (word, answer) = match &self.body {
            Body::File(file) => ("file", self.answer_file(file, files::MOST_ROOMS)),
            Body::Table(given) => ("table", self.answer_table(given)),
            Body::Roomy(file) => {
                let rooms = given_of(file).map_or([0; 4], |given| given.lengths());
                ("file", self.answer_file(file, rooms))
            }
        };
        format!("{word} {} {length}\n{answer}", self.room)
    }
}

fn show_written(answer: Result<Vec<u8>, u8>) -> String {
    match answer {
        Ok(bytes) => format!("write 0 {}\n{}kept\n", bytes.len(), files::show_text(&bytes)),
        Err(number) => format!("write {number} 0\nkept\n"),
    }
}

/// Takes numbers from the front of a text, each with one byte after it.
struct Words<'a>(&'a [u8]);

impl Words<'_> {
    fn word(&mut self) -> String {
        let length = self.0.iter().position(|byte| b" \n".contains(byte));
        let Some(length) = length else {
            fail("a number has no blank or LF after it");
        };
        let word = files::show_text(&self.0[..length]);
        self.0 = &self.0[length + 1..];
        word
    }

    fn take<T: std::str::FromStr>(&mut self) -> T {
        let word = self.word();
        word.parse().unwrap_or_else(|_| fail(&format!("{word:?} is no number")))
    }

    fn list<T: std::str::FromStr>(&mut self, count: usize) -> Vec<T> {
        (0..count).map(|_| self.take()).collect()
    }

    fn bytes(&mut self, count: usize) -> Vec<u8> {
        let Some(bytes) = self.0.get(..count) else {
            fail("a case ends too early");
        };
        self.0 = &self.0[count..];
        bytes.to_vec()
    }
}

fn parse_given(bytes: &[u8]) -> Given {
    let mut words = Words(bytes);
    let mut numbers = [0; ARGUMENTS];
    numbers.iter_mut().for_each(|number| *number = words.take());
    let (field, value) = (words.take(), words.take());
    let [i, x, c, r] = [0; 4].map(|_: usize| words.take());
    let (identifiers, exponents, rows) = (words.list(i), words.list(x), words.list(r));
    let comments = words.bytes(c);
    Given { numbers, field, value, lists: Lent { identifiers, exponents, comments, rows } }
}

fn parse_batch(bytes: &[u8]) -> Vec<Case> {
    let mut words = Words(bytes);
    let mut cases = Vec::new();
    while !words.0.is_empty() {
        let [kind, letter, room, length] = [0; 4].map(|_: usize| words.take());
        let version = match letter {
            99 => Version::C,
            100 => Version::D,
            _ => fail(&format!("{letter} is no version")),
        };
        let bytes = words.bytes(length);
        let body = match kind {
            0 => Body::File(bytes),
            1 => Body::Table(parse_given(&bytes)),
            2 => Body::Roomy(bytes),
            _ => fail(&format!("{kind} is no kind of case")),
        };
        cases.push(Case { version, room, body });
    }
    cases
}

// ---------------------------------------------------------------------------
// Tables made by hand
// ---------------------------------------------------------------------------

/// What is done to the table of a file made by hand.
#[derive(Clone, Copy, Debug)]
enum Change {
    /// An argument of the header, before it is made.
    Argument(usize, u64),
    /// A field of the header, after it was accepted.
    Field(usize, u64),
    /// Year, month, day, hour, minute, seconds in 10^-8.
    Start([u64; 6]),
    /// So many epochs, each with the rows of the first.
    Epochs(usize),
    Type(u8),
    System(&'static str),
    Texts(&'static str),
    Identifier(usize, u64),
    Exponent(usize, u64),
    CommentByte(usize, u8),
    Comment(usize, &'static str),
    RowNumber(usize, i64),
    /// A list (I, X, C, R) of another length, rubbish in its further places.
    Length(usize, usize),
    /// The rows once more after themselves.
    Twice,
    /// One satellite more in the lists of one epoch in mode P, with the exponent and the
    /// row of the first.
    More(u64),
}

use Base::{Many, ManyBackwards, ManyOverLetters, Motion, MovingMany, MovingNotes, Night, Notes};
use Base::{Paper, Talkative};
use Change::{
    Argument, Comment, CommentByte, Epochs, Exponent as Accuracy, Field, Identifier as Name,
    Length, More, RowNumber, Start, System, Texts, Twice, Type,
};
use Edit::{After, Byte, Drop, Insert, Line as Whole, Put};

/// A number of a row: both counted from 0.
const fn at(row: usize, place: usize) -> usize {
    ROW * row + place
}

fn set_length(lists: &mut Lent, list: usize, length: usize) {
    match list {
        0 => lists.identifiers.resize(length, u64::MAX),
        1 => lists.exponents.resize(length, 5000),
        2 => lists.comments.resize(length, 200),
        _ => lists.rows.resize(length, i64::MIN),
    }
}

fn set_epochs(given: &mut Given, epochs: usize) {
    let width = given.lists.rows.len() / given.numbers[EPOCHS] as usize;
    given.lists.rows = given.lists.rows[..width].repeat(epochs);
    given.numbers[EPOCHS] = epochs as u64;
}

fn change(given: &mut Given, change: Change) {
    match change {
        Argument(place, number) => given.numbers[place] = number,
        Field(place, value) => (given.field, given.value) = (place as u64, value),
        Start(numbers) => given.numbers[YEAR..=SECONDS].copy_from_slice(&numbers),
        Epochs(number) => set_epochs(given, number),
        Type(letter) => given.numbers[TYPE] = letter.into(),
        System(text) => put_letters(&mut given.numbers[TIME..], text),
        Texts(text) => put_letters(&mut given.numbers[TEXTS..], text),
        Name(place, code) => given.lists.identifiers[place] = code,
        Accuracy(place, exponent) => given.lists.exponents[place] = exponent,
        CommentByte(place, byte) => given.lists.comments[place] = byte,
        Comment(number, text) => {
            let comment = &mut given.lists.comments[COMMENT * number..COMMENT * (number + 1)];
            comment.fill(b' ');
            comment[..text.len()].copy_from_slice(text.as_bytes());
        }
        RowNumber(place, number) => given.lists.rows[place] = number,
        Length(list, length) => set_length(&mut given.lists, list, length),
        Twice => given.lists.rows = given.lists.rows.repeat(2),
        More(code) => {
            let lists = &mut given.lists;
            lists.identifiers.push(code);
            lists.exponents.push(lists.exponents[0]);
            lists.rows.extend_from_within(..ROW);
        }
    }
}

fn put_letters(numbers: &mut [u64], text: &str) {
    numbers.iter_mut().zip(text.bytes()).for_each(|(number, byte)| *number = byte.into());
}

fn base_table(base: Base) -> Given {
    given_of(&files::base_file(base).bytes()).unwrap_or_else(|| fail("a base has no table"))
}

fn changed(base: Base, changes: &[Change]) -> Given {
    let mut given = base_table(base);
    changes.iter().for_each(|&each| change(&mut given, each));
    given
}

// ---------------------------------------------------------------------------
// Forms worked out by hand
// ---------------------------------------------------------------------------

const PAPER_ROW: &str = "PG07   5000.000001     -0.500000      0.000000 999999.999999";

/// The lines of a canonical form that aren't those of the base's own form; one
/// that is empty is gone.
type Lines = &'static [(usize, &'static str)];

macro_rules! row {
    ($tail:expr) => {
        concat!("PG07   5000.000001     -0.500000      0.000000 999999.999999", $tail)
    };
}

/// The paper's row with its clock cut after the point.
const CUT_ROW: &str = "PG07   5000.000001     -0.500000      0.000000 999999.";

macro_rules! clocked {
    ($clock:expr) => {
        concat!("PG07   5000.000001     -0.500000      0.000000", $clock)
    };
}

macro_rules! noted {
    ($note:expr) => {
        &[(25, $note), (26, "EOF")]
    };
}

/// A file, and what is written of it.
const WRITTEN: &[(Base, &[Edit], Lines)] = &[
    // "Input: the file below with y as `-00.500000`", and its own form.
    (Paper, &[Put(24, 19, "    -00.500000")], &[]),
    (Paper, &[], &[]),
    (Night, &[], &[]),
    (Motion, &[], &[]),
    // Each length of a row.
    (Paper, &[Put(24, 80, " ")], &[]),
    (Paper, &[Put(24, 62, " 5")], &[(24, row!("  5"))]),
    (Paper, &[Put(24, 65, "99")], &[(24, row!("    99"))]),
    (Paper, &[Put(24, 68, " 0")], &[(24, row!("        0"))]),
    (Paper, &[Put(24, 71, "999")], &[(24, row!("          999"))]),
    (Paper, &[Put(24, 75, "E")], &[(24, row!("              E"))]),
    (Paper, &[Put(24, 76, "P")], &[(24, row!("               P"))]),
    (Paper, &[Put(24, 79, "M")], &[(24, row!("                  M"))]),
    (Paper, &[Put(24, 80, "P")], &[(24, row!("                   P"))]),
    (Paper, &[Put(24, 61, " 18 18 18 219 EP  MP")], &[(24, row!(" 18 18 18 219 EP  MP"))]),
    (Paper, &[Put(24, 61, " 99 99 99 999")], &[(24, row!(" 99 99 99 999"))]),
    (Paper, &[Put(24, 61, " 05 09 00 007")], &[(24, row!("  5  9  0   7"))]),
    (Paper, &[Put(24, 61, " 05       007  P")], &[(24, row!("  5         7  P"))]),
    (Paper, &[Put(24, 61, "              E    P")], &[(24, row!("              E    P"))]),
    // Numbers of a row: leading zeros, minus zero, the nines.
    (Paper, &[Put(24, 5, "0005000.000001-000000.500000     -0.0000000999999.999999")], &[]),
    (
        Paper,
        &[Put(24, 5, "-000000.000000     -0.000000-000000.000000-999999.999999")],
        &[(24, "PG07      0.000000      0.000000      0.000000-999999.999999")],
    ),
    (
        Paper,
        &[Put(24, 5, "0000000.000001-000001.000000 999999.000000     -0.000000")],
        &[(24, "PG07      0.000001     -1.000000 999999.000000      0.000000")],
    ),
    // Request 3: "The canonical form still writes twelve nines." Bare, cut, with any
    // digits, after a zero; before exponents and flags.
    (Paper, &[Put(24, 47, " 999999.      ")], &[]),
    (Paper, &[Whole(24, CUT_ROW)], &[]),
    (Paper, &[Put(24, 47, " 999999.000000")], &[]),
    (Paper, &[Put(24, 47, " 999999.999998")], &[]),
    (Paper, &[Put(24, 47, "0999999.123456")], &[]),
    (
        Paper,
        &[Put(24, 47, " 999999.       18 99 07 219 EP  MP")],
        &[(24, row!(" 18 99  7 219 EP  MP"))],
    ),
    (Motion, &[Put(29, 47, " 999999.      ")], &[]),
    (Motion, &[Whole(29, "VG02      0.000000      0.000000      0.000000 999999.")], &[]),
    (Motion, &[Put(29, 47, " 999999.000000")], &[]),
    (Motion, &[Put(29, 47, " 999999.999998")], &[]),
    (Motion, &[Put(29, 47, "0999999.123456")], &[]),
    (
        Motion,
        &[Put(26, 47, " 999999.       14 09    191")],
        &[(26, "VG01  20298.880364 -18462.044804   1381.387685 999999.999999 14  9    191")],
    ),
    // Clocks that are present near them; six nines of x are a place.
    (Paper, &[Put(24, 47, " 999998.999999")], &[(24, clocked!(" 999998.999999"))]),
    (Paper, &[Put(24, 47, "-999999.000000")], &[(24, clocked!("-999999.000000"))]),
    (Paper, &[Put(24, 47, "-999999.999999")], &[(24, clocked!("-999999.999999"))]),
    (Paper, &[Put(24, 47, "0999998.000000")], &[(24, clocked!(" 999998.000000"))]),
    (
        Paper,
        &[Put(24, 5, " 999999.000000")],
        &[(24, "PG07 999999.000000     -0.500000      0.000000 999999.999999")],
    ),
    (
        Motion,
        &[Put(26, 47, " 999998.999999"), Put(29, 47, "-999999.999999")],
        &[
            (26, "VG01  20298.880364 -18462.044804   1381.387685 999998.999999 14 14 14 191"),
            (29, "VG02      0.000000      0.000000      0.000000-999999.999999"),
        ],
    ),
    (
        Motion,
        &[Put(26, 5, " 999999.000000"), Put(26, 47, "-999999.000000")],
        &[(26, "VG01 999999.000000 -18462.044804   1381.387685-999999.000000 14 14 14 191")],
    ),
    // Texts of line 1 that are blank, at the end or all.
    (
        Paper,
        &[Put(1, 41, "                    ")],
        &[(1, "#dP2013  4  3  0  0  0.00000000       1")],
    ),
    (
        Paper,
        &[Put(1, 57, "    ")],
        &[(1, "#dP2013  4  3  0  0  0.00000000       1 ORBIT WGS84 BCT")],
    ),
    (
        Paper,
        &[Put(1, 57, "A   ")],
        &[(1, "#dP2013  4  3  0  0  0.00000000       1 ORBIT WGS84 BCT A")],
    ),
    (
        Paper,
        &[Put(1, 41, "                   X")],
        &[(1, "#dP2013  4  3  0  0  0.00000000       1                    X")],
    ),
    (
        Paper,
        &[Put(1, 41, "  a   ~~    \"    -  ")],
        &[(1, "#dP2013  4  3  0  0  0.00000000       1   a   ~~    \"    -")],
    ),
    // Odd spellings of the other lines.
    (Paper, &[Put(1, 9, "04 03 00 00 00.00000000 0000001")], &[]),
    (Paper, &[Put(1, 80, " "), Put(2, 80, " "), Put(3, 80, " "), Put(8, 80, " ")], &[]),
    (Paper, &[Put(2, 25, "00900.00000000")], &[]),
    (Paper, &[Put(3, 4, "001"), Put(8, 10, "000")], &[]),
    (
        Paper,
        &[Put(8, 10, "005")],
        &[(8, "++         5  0  0  0  0  0  0  0  0  0  0  0  0  0  0  0  0")],
    ),
    (
        Paper,
        &[Put(8, 10, "999")],
        &[(8, "++       999  0  0  0  0  0  0  0  0  0  0  0  0  0  0  0  0")],
    ),
    (Paper, &[Put(15, 4, "01.2500000 01.025000000")], &[]),
    (Paper, &[Put(15, 28, "00.00000000000 00.000000000000000")], &[]),
    (
        Paper,
        &[Put(16, 4, "00.0000000 00.000000000"), Put(17, 4, "0000"), Put(18, 52, "000000000")],
        &[],
    ),
    (
        Paper,
        &[Put(15, 4, "99.9999999 99.999999999")],
        &[(15, "%f 99.9999999 99.999999999  0.00000000000  0.000000000000000")],
    ),
    (
        Paper,
        &[Put(15, 4, "00.0000001 00.000000000")],
        &[(15, "%f  0.0000001  0.000000000  0.00000000000  0.000000000000000")],
    ),
    (Paper, &[Put(23, 9, "04 03 00 00 00.00000000"), Put(23, 80, " "), Put(25, 80, " ")], &[]),
    // Comments.
    (Paper, &[Put(20, 80, " "), Put(21, 3, " "), Put(22, 3, "     ")], &[]),
    (Paper, &[Put(22, 4, "   x   y   ")], &[(22, "/*    x   y")]),
    (
        Paper,
        &[Put(
            20,
            4,
            "0123456789 0123456789 0123456789 0123456789 0123456789 0123456789 0123456789",
        )],
        &[(20, "/* 0123456789 0123456789 0123456789 0123456789 0123456789 0123456789 0123456789")],
    ),
    (
        Paper,
        &[Put(21, 80, "z")],
        &[(21, "/*                                                                             z")],
    ),
    // Notes: 000's own; of nothing; leading zeros, minus zero, the largest.
    (
        Paper,
        &[NOTE],
        noted!("EP    55   55   55     222  1234567 -1234567  5999999      -30       21 -1230000"),
    ),
    (Paper, &[BARE], noted!("EP")),
    (Paper, &[BARE, Put(25, 80, " ")], noted!("EP")),
    (Paper, &[BARE, Put(25, 5, "0055")], noted!("EP    55")),
    (Paper, &[BARE, Put(25, 5, "1000")], noted!("EP  1000")),
    (Paper, &[BARE, Put(25, 5, "0000")], noted!("EP     0")),
    (Paper, &[BARE, Put(25, 5, "9999")], noted!("EP  9999")),
    (Paper, &[BARE, Put(25, 10, "0007")], noted!("EP          7")),
    (Paper, &[BARE, Put(25, 15, "  99")], noted!("EP              99")),
    (Paper, &[BARE, Put(25, 20, "9999999")], noted!("EP                 9999999")),
    (Paper, &[BARE, Put(25, 20, "0009999")], noted!("EP                    9999")),
    (Paper, &[BARE, Put(25, 28, "09999999")], noted!("EP                          9999999")),
    (Paper, &[BARE, Put(25, 28, "-9999999")], noted!("EP                         -9999999")),
    (Paper, &[BARE, Put(25, 28, "      -0")], noted!("EP                                0")),
    (
        Paper,
        &[BARE, Put(25, 37, "-0000030")],
        noted!("EP                                       -30"),
    ),
    (
        Paper,
        &[BARE, Put(25, 46, "-0000000")],
        noted!("EP                                                  0"),
    ),
    (
        Paper,
        &[BARE, Put(25, 55, "00000021")],
        noted!("EP                                                          21"),
    ),
    (
        Paper,
        &[BARE, Put(25, 64, "      -1")],
        noted!("EP                                                                   -1"),
    ),
    (
        Paper,
        &[BARE, Put(25, 80, "1")],
        noted!("EP                                                                             1"),
    ),
    (
        Paper,
        &[NOTE, Put(25, 28, "                                                     ")],
        noted!("EP    55   55   55     222"),
    ),
    (
        Paper,
        &[NOTE, Put(25, 5, "                      ")],
        noted!("EP                          1234567 -1234567  5999999      -30       21 -1230000"),
    ),
    (
        Paper,
        &[Put(24, 5, "     -0.000000      0.000000      0.000000 999999.999999"), BARE],
        &[
            (24, "PG07      0.000000      0.000000      0.000000 999999.999999"),
            (25, "EP"),
            (26, "EOF"),
        ],
    ),
    (Notes, &[], &[]),
    (MovingNotes, &[], &[]),
    // Mode V: EP alone, EV alone, both.
    (Motion, &[Drop(27)], MOTION_EP),
    (Motion, &[Drop(25)], MOTION_EV),
    (Motion, &[Drop(27), Drop(25)], MOTION_ROWS),
    (Night, &[Insert(25, "EP"), Insert(29, "EP     7      0008")], NIGHT_NOTES),
    // F follows from the start, however it was spelt.
    (
        Paper,
        &[
            Put(1, 21, " 1.00000000"),
            Put(2, 9, "259201.00000000"),
            Put(23, 21, "01.00000000"),
            Put(2, 46, "0.0000115740740"),
        ],
        ONE_SECOND,
    ),
    (
        Paper,
        &[
            Put(1, 21, "01.00000000"),
            Put(2, 9, "259201.00000000"),
            Put(23, 21, " 1.00000000"),
            Put(2, 46, "0.0000115740741"),
        ],
        ONE_SECOND,
    ),
    (Many(1), &[], &[]),
    (Many(17), &[], &[]),
    (Many(18), &[], &[]),
    (Many(85), &[], &[]),
    (Many(86), &[], &[]),
    (Many(255), &[], &[]),
    (Many(256), &[], &[]),
    (Many(999), &[], &[]),
    (Talkative(5), &[], &[]),
    (Talkative(103), &[], &[]),
];

/// Files of more than 255 satellites (request 6); these aren't stored. Of 999 the `+ `
/// lines are 3 to 61, `++` 62 to 120, `%c` 121, the rows 132 to 1130.
const MANY_WRITTEN: &[(Base, &[Edit], Lines)] = &[
    (Many(272), &[], &[]),
    (Many(273), &[], &[]),
    (Many(986), &[], &[]),
    (Many(987), &[], &[]),
    (Many(998), &[], &[]),
    (ManyBackwards(256), &[], &[]),
    (ManyBackwards(999), &[], &[]),
    (ManyOverLetters(256), &[], &[]),
    (ManyOverLetters(999), &[], &[]),
    (MovingMany(256), &[], &[]),
    (MovingMany(999), &[], &[]),
    // The last satellite's exponent, and its row with zeros before its digits.
    (
        Many(999),
        &[Put(120, 46, "007"), Put(1130, 5, "0000998.000001    -00.500000")],
        &[(120, "++       902909916923930937944951958965972979  7  0  0  0  0")],
    ),
    (
        Many(999),
        &[Put(1130, 47, " 999999.      ")],
        &[(1130, "PZ09    998.000001     -0.500000      0.000000 999999.999999")],
    ),
];

/// What is left of the rows of `motion` without some of its notes.
const MOTION_EP: Lines = &[
    (26, "VG01  20298.880364 -18462.044804   1381.387685     -4.534317 14 14 14 191"),
    (27, "PG02 -12593.593500  10170.327650 -20354.534400    -55.976000 18 18 18 219     M"),
    (28, "VG02      0.000000      0.000000      0.000000 999999.999999"),
    (29, "EOF"),
    (30, ""),
];
const MOTION_EV: Lines = &[
    (25, "VG01  20298.880364 -18462.044804   1381.387685     -4.534317 14 14 14 191"),
    (26, "EV    22   22   22     111  1234567  1234567  1234567  1234567  1234567  1234567"),
    (27, "PG02 -12593.593500  10170.327650 -20354.534400    -55.976000 18 18 18 219     M"),
    (28, "VG02      0.000000      0.000000      0.000000 999999.999999"),
    (29, "EOF"),
    (30, ""),
];
const MOTION_ROWS: Lines = &[
    (25, "VG01  20298.880364 -18462.044804   1381.387685     -4.534317 14 14 14 191"),
    (26, "PG02 -12593.593500  10170.327650 -20354.534400    -55.976000 18 18 18 219     M"),
    (27, "VG02      0.000000      0.000000      0.000000 999999.999999"),
    (28, "EOF"),
    (29, ""),
    (30, ""),
];

/// `night` with two notes, by the lines from the first of them on.
const NIGHT_NOTES: Lines = &[
    (25, "EP"),
    (26, "PR24      0.000000      0.000000      0.000000 999999.999999"),
    (27, "*  2013  1  1  0  0  0.00000000"),
    (28, "PG07      0.000000      0.000000      0.000000     -0.000001 18 18 18 219 EP  MP"),
    (29, "EP     7         8"),
    (30, "PR24      0.000000      0.000000      0.000001 999999.999999 99 99 99 999"),
    (31, "*  2013  1  1  0 15  0.00000000"),
    (32, "PG07     -0.500000      0.000000      0.000000 999999.999999"),
    (33, "PR24 999999.999999-999999.999999 999999.999999-999999.999999  0     9   7     M"),
    (34, "EOF"),
];

const ONE_SECOND: Lines = &[
    (1, "#dP2013  4  3  0  0  1.00000000       1 ORBIT WGS84 BCT PORT"),
    (2, "## 1734 259201.00000000   900.00000000 56385 0.0000115740741"),
    (23, "*  2013  4  3  0  0  1.00000000"),
];

/// A table, and what is written of it; times and dates.
const DATED: &[(Base, &[Change], Lines)] = &[
    (Paper, &[Start([2013, 4, 3, 0, 0, 100_000_000])], ONE_SECOND),
    // Over midnight at the end of a year.
    (
        Paper,
        &[Start([2012, 12, 31, 23, 45, 0]), Epochs(2)],
        &[
            (1, "#dP2012 12 31 23 45  0.00000000       2 ORBIT WGS84 BCT PORT"),
            (2, "## 1721 171900.00000000   900.00000000 56292 0.9895833333333"),
            (23, "*  2012 12 31 23 45  0.00000000"),
            (25, "*  2013  1  1  0  0  0.00000000"),
            (26, PAPER_ROW),
            (27, "EOF"),
        ],
    ),
    // Into a leap day, and past a day that is none.
    (
        Paper,
        &[Start([2000, 2, 28, 23, 59, 5_999_999_999]), Epochs(2), Argument(INTERVAL, 1)],
        &[
            (1, "#dP2000  2 28 23 59 59.99999999       2 ORBIT WGS84 BCT PORT"),
            (2, "## 1051 172799.99999999     0.00000001 51602 0.9999999999999"),
            (23, "*  2000  2 28 23 59 59.99999999"),
            (25, "*  2000  2 29  0  0  0.00000000"),
            (26, PAPER_ROW),
            (27, "EOF"),
        ],
    ),
    (
        Paper,
        &[Start([2001, 2, 28, 0, 0, 0]), Epochs(3), Argument(INTERVAL, 8_640_000_000_000)],
        &[
            (1, "#dP2001  2 28  0  0  0.00000000       3 ORBIT WGS84 BCT PORT"),
            (2, "## 1103 259200.00000000 86400.00000000 51968 0.0000000000000"),
            (23, "*  2001  2 28  0  0  0.00000000"),
            (25, "*  2001  3  1  0  0  0.00000000"),
            (26, PAPER_ROW),
            (27, "*  2001  3  2  0  0  0.00000000"),
            (28, PAPER_ROW),
            (29, "EOF"),
        ],
    ),
    // The first and the last day; the longest interval.
    (
        Paper,
        &[Start([1980, 1, 6, 0, 0, 0])],
        &[
            (1, "#dP1980  1  6  0  0  0.00000000       1 ORBIT WGS84 BCT PORT"),
            (2, "##    0      0.00000000   900.00000000 44244 0.0000000000000"),
            (23, "*  1980  1  6  0  0  0.00000000"),
        ],
    ),
    (
        Paper,
        &[Start([2099, 12, 31, 23, 59, 5_999_999_999])],
        &[
            (1, "#dP2099 12 31 23 59 59.99999999       1 ORBIT WGS84 BCT PORT"),
            (2, "## 6260 431999.99999999   900.00000000 88068 0.9999999999999"),
            (23, "*  2099 12 31 23 59 59.99999999"),
        ],
    ),
    (
        Paper,
        &[Start([2099, 12, 30, 0, 0, 0]), Epochs(2), Argument(INTERVAL, 9_999_999_999_999)],
        &[
            (1, "#dP2099 12 30  0  0  0.00000000       2 ORBIT WGS84 BCT PORT"),
            (2, "## 6260 259200.00000000 99999.99999999 88067 0.0000000000000"),
            (23, "*  2099 12 30  0  0  0.00000000"),
            (25, "*  2099 12 31  3 46 39.99999999"),
            (26, PAPER_ROW),
            (27, "EOF"),
        ],
    ),
    // The last epoch in the last 10^-8 s.
    (
        Paper,
        &[Start([2099, 12, 31, 23, 44, 5_999_999_999]), Epochs(2)],
        &[
            (1, "#dP2099 12 31 23 44 59.99999999       2 ORBIT WGS84 BCT PORT"),
            (2, "## 6260 431099.99999999   900.00000000 88068 0.9895833333332"),
            (23, "*  2099 12 31 23 44 59.99999999"),
            (25, "*  2099 12 31 23 59 59.99999999"),
            (26, PAPER_ROW),
            (27, "EOF"),
        ],
    ),
    // 125 * 54 / 108 is 62 and a half, "halves upward".
    (
        Paper,
        &[Start([2013, 4, 3, 0, 0, 53])],
        &[
            (1, "#dP2013  4  3  0  0  0.00000053       1 ORBIT WGS84 BCT PORT"),
            (2, "## 1734 259200.00000053   900.00000000 56385 0.0000000000061"),
            (23, "*  2013  4  3  0  0  0.00000053"),
        ],
    ),
    (
        Paper,
        &[Start([2013, 4, 3, 0, 0, 54])],
        &[
            (1, "#dP2013  4  3  0  0  0.00000054       1 ORBIT WGS84 BCT PORT"),
            (2, "## 1734 259200.00000054   900.00000000 56385 0.0000000000063"),
            (23, "*  2013  4  3  0  0  0.00000054"),
        ],
    ),
    (
        Paper,
        &[Start([2013, 4, 3, 0, 0, 55])],
        &[
            (1, "#dP2013  4  3  0  0  0.00000055       1 ORBIT WGS84 BCT PORT"),
            (2, "## 1734 259200.00000055   900.00000000 56385 0.0000000000064"),
            (23, "*  2013  4  3  0  0  0.00000055"),
        ],
    ),
    (
        Paper,
        &[Start([2013, 4, 3, 0, 0, 162])],
        &[
            (1, "#dP2013  4  3  0  0  0.00000162       1 ORBIT WGS84 BCT PORT"),
            (2, "## 1734 259200.00000162   900.00000000 56385 0.0000000000188"),
            (23, "*  2013  4  3  0  0  0.00000162"),
        ],
    ),
    (
        Paper,
        &[Start([2013, 4, 3, 12, 0, 54])],
        &[
            (1, "#dP2013  4  3 12  0  0.00000054       1 ORBIT WGS84 BCT PORT"),
            (2, "## 1734 302400.00000054   900.00000000 56385 0.5000000000063"),
            (23, "*  2013  4  3 12  0  0.00000054"),
        ],
    ),
    (
        Paper,
        &[Start([2013, 4, 3, 23, 59, 5_999_999_946])],
        &[
            (1, "#dP2013  4  3 23 59 59.99999946       1 ORBIT WGS84 BCT PORT"),
            (2, "## 1734 345599.99999946   900.00000000 56385 0.9999999999938"),
            (23, "*  2013  4  3 23 59 59.99999946"),
        ],
    ),
    // The start by its number, mode and letters by theirs, after the header was made.
    (Paper, &[Field(START, 487_166_400_100_000_000)], ONE_SECOND),
    (
        Paper,
        &[Field(TEXTS + 16, b' ' as u64)],
        &[(1, "#dP2013  4  3  0  0  0.00000000       1 ORBIT WGS84 BCT POR")],
    ),
    (Paper, &[Texts("                 ")], &[(1, "#dP2013  4  3  0  0  0.00000000       1")]),
    (
        Paper,
        &[Texts("~~~~~!!!!!|||    "), Type(b'M'), System("QZS")],
        &[
            (1, "#dP2013  4  3  0  0  0.00000000       1 ~~~~~ !!!!! |||"),
            (13, "%c M  cc QZS ccc cccc cccc cccc cccc ccccc ccccc ccccc ccccc"),
        ],
    ),
    (Paper, &[Comment(1, " leading"), Comment(0, "")], &[(19, "/*"), (20, "/*  leading")]),
    // Lists that are longer than the counts: "places past them aren't looked at".
    (Paper, &[Length(0, 2), Length(1, 3), Length(2, 309), Length(3, 24)], &[]),
    (Night, &[Length(0, 30), Length(1, 20), Length(2, 400), Length(3, 200)], &[]),
    (Motion, &[Length(0, 3), Length(1, 2), Length(2, 385), Length(3, 100)], &[]),
    (Many(86), &[Length(0, 87), Length(1, 87), Length(3, 1979)], &[]),
    // Clocks at both ends of their bounds, and absent.
    (Paper, &[RowNumber(CLOCK, 999_998_999_999)], &[(24, clocked!(" 999998.999999"))]),
    (Paper, &[RowNumber(CLOCK, -999_999_999_999)], &[(24, clocked!("-999999.999999"))]),
    (Paper, &[RowNumber(CLOCK, 999_999_999_999)], &[]),
    (
        Motion,
        &[RowNumber(at(3, CLOCK), 999_998_999_999)],
        &[(29, "VG02      0.000000      0.000000      0.000000 999998.999999")],
    ),
    (
        Motion,
        &[RowNumber(at(3, CLOCK), -999_999_999_999), RowNumber(at(1, CLOCK), 999_999_999_999)],
        &[
            (26, "VG01  20298.880364 -18462.044804   1381.387685 999999.999999 14 14 14 191"),
            (29, "VG02      0.000000      0.000000      0.000000-999999.999999"),
        ],
    ),
    // Numbers of a note.
    (Paper, &[RowNumber(MARK, 1)], noted!("EP")),
    (Paper, &[RowNumber(MARK, 1), RowNumber(13, 1000)], noted!("EP  1000")),
    (Paper, &[RowNumber(MARK, 1), RowNumber(15, 9999)], noted!("EP            9999")),
    (
        Paper,
        &[RowNumber(MARK, 1), RowNumber(16, 1000), RowNumber(17, -30), RowNumber(22, -9_999_999)],
        noted!("EP                    1000      -30                                     -9999999"),
    ),
    (
        Paper,
        &[Argument(MODE, b'V' as u64), Twice, RowNumber(at(1, MARK), 1), RowNumber(at(1, 13), 0)],
        &[
            (1, "#dV2013  4  3  0  0  0.00000000       1 ORBIT WGS84 BCT PORT"),
            (25, "VG07   5000.000001     -0.500000      0.000000 999999.999999"),
            (26, "EV     0"),
            (27, "EOF"),
        ],
    ),
];

/// Files that are refused, and what is said of their reading: refusal, line and
/// column.
const REFUSED: &[(Base, &[Edit], &str)] = &[
    (Base::Nothing, &[], "read 1 1 0 | |"),
    (Paper, &[Put(25, 4, "x")], "read 5 25 4 | |"),
    (Paper, &[Byte(24, 200, 127)], "read 2 24 200 | |"),
    (Paper, &[Put(24, 300, " ")], "read 3 24 81 | |"),
    (Paper, &[Drop(22)], "read 4 22 0 | |"),
    (Paper, &[Put(24, 5, "  5000.0000001")], "read 6 24 5 | |"),
    (Paper, &[Put(24, 47, "1000000.000000")], "read 7 24 47 | |"),
    (Paper, &[Put(24, 47, "-999999.      ")], "read 6 24 47 | |"),
    (Paper, &[Put(24, 47, " 999999.00000 ")], "read 6 24 47 | |"),
    (Paper, &[Put(24, 47, " 999999.     0")], "read 6 24 47 | |"),
    (Paper, &[Put(24, 47, " 999999.0     ")], "read 6 24 47 | |"),
    (Paper, &[Put(24, 47, " 999998.      ")], "read 6 24 47 | |"),
    (Paper, &[Put(24, 47, "1000000.      ")], "read 6 24 47 | |"),
    (Paper, &[Put(24, 47, " 999999       ")], "read 6 24 47 | |"),
    (Paper, &[Put(24, 47, "              ")], "read 6 24 47 | |"),
    (Paper, &[Put(24, 47, "999999.       ")], "read 6 24 47 | |"),
    (Paper, &[Put(24, 47, " 999999.      0")], "read 5 24 61 | |"),
    (Paper, &[Put(24, 5, " 999999.      ")], "read 6 24 5 | |"),
    (Motion, &[Put(26, 47, "1000000.000000")], "read 7 26 47 | |"),
    (Motion, &[Put(26, 47, "-999999.      ")], "read 6 26 47 | |"),
    (Motion, &[Put(26, 47, " 999999.00000 ")], "read 6 26 47 | |"),
    (Motion, &[Put(26, 47, " 999999.     0")], "read 6 26 47 | |"),
    (Motion, &[Put(26, 47, " 999998.      ")], "read 6 26 47 | |"),
    (Motion, &[Put(26, 47, "1000000.      ")], "read 6 26 47 | |"),
    (Motion, &[Put(26, 47, " 999999       ")], "read 6 26 47 | |"),
    (Motion, &[Put(26, 47, "              ")], "read 6 26 47 | |"),
    (Motion, &[Put(26, 47, "999999.       ")], "read 6 26 47 | |"),
    (Motion, &[Put(26, 47, " 999999.      0")], "read 5 26 61 | |"),
    (Motion, &[Put(26, 5, " 999999.      ")], "read 6 26 5 | |"),
    (Paper, &[Put(24, 2, "G08")], "read 10 24 0 | |"),
    (Paper, &[After(b"\n")], "read 11 26 0 | |"),
    (Talkative(104), &[], "read 12 0 0 | |"),
];

/// Files whose form is longer than they are, the room for it, and the number of
/// its writing. Of one row that is cut after the point the form has 1,215 bytes
/// and the file 1,209; of `Clocks` 1,486 and 1,480.
const LONGER: &[(Base, &[Edit], usize, u8)] = &[
    (Paper, &[Whole(24, CUT_ROW)], 1209, 12),
    (Paper, &[Whole(24, CUT_ROW)], 1214, 12),
    (Paper, &[Whole(24, CUT_ROW)], 1215, 0),
    (Base::Clocks, &[], 1480, 12),
    (Base::Clocks, &[], 1485, 12),
    (Base::Clocks, &[], 1486, 0),
];

/// The canonical form of a base, by hand.
fn base_form(base: Base) -> Vec<String> {
    let bytes = files::base_file(base).bytes();
    let mut form: Vec<String> = files::show_text(&bytes).lines().map(str::to_string).collect();
    match base {
        // Minus zero is zero, an absent clock twelve nines.
        Night => {
            form[29] = "PG07     -0.500000      0.000000      0.000000 999999.999999".to_string();
        }
        Notes | MovingNotes => form.iter_mut().for_each(|line| *line = plain_note(line)),
        _ => {}
    }
    form
}

/// A line of the files with notes as its form has it: rows and notes without
/// leading zeros, minus zero as zero.
fn plain_note(line: &str) -> String {
    let shown = [
        ("-00012.500000", "   -12.500000"),
        ("000012.500000", "    12.500000"),
        (" 07 219", "  7 219"),
        ("-1234567 09999999 -9999999 01234567 -0000021 08765432", BY_HAND_FULL),
        ("  0055    0 1000       0       -0      -30        0 00000000      -21", BY_HAND_ZEROS),
    ];
    shown.iter().fold(line.to_string(), |text, (given, form)| text.replace(given, form))
}

const BY_HAND_FULL: &str = "-1234567  9999999 -9999999  1234567      -21  8765432";
const BY_HAND_ZEROS: &str = "    55    0 1000       0        0      -30        0        0      -21";

/// The form of a base with these lines instead.
fn form_with(base: Base, lines: Lines) -> Vec<u8> {
    let mut form = base_form(base);
    for &(number, text) in lines {
        form.resize(form.len().max(number), String::new());
        form[number - 1] = text.to_string();
    }
    form.retain(|line| !line.is_empty());
    form.iter().flat_map(|line| line.bytes().chain([b'\n'])).collect()
}

// ---------------------------------------------------------------------------
// Tables judged by hand
// ---------------------------------------------------------------------------

/// A table, the number of its header, and the number of its writing.
type Judged = (Base, Vec<Change>, u8, u8);

/// A number of the header, values within its bounds, and values outside.
const BOUNDS: &[(usize, &[u64], &[u64])] = &[
    (EPOCHS, &[1], &[0, 100_001, u64::MAX]),
    (INTERVAL, &[1, 9_999_999_999_999], &[0, 10_000_000_000_000, u64::MAX]),
    (SATELLITES, &[1], &[0, 1000, 1001, u64::MAX]),
    (COMMENTS, &[4], &[0, 3]),
    (PLACE_BASE, &[0, 999_999_999], &[1_000_000_000, u64::MAX]),
    (CLOCK_BASE, &[0, 99_999_999_999], &[100_000_000_000, u64::MAX]),
];

/// A count within its bounds for which the lists are too short; 77 times the
/// last is 61 modulo 2^64.
const TOO_MANY: &[(usize, u64)] = &[
    (EPOCHS, 2),
    (EPOCHS, 100_000),
    (SATELLITES, 2),
    (SATELLITES, 999),
    (COMMENTS, 5),
    (COMMENTS, 6),
    (COMMENTS, u64::MAX),
    (COMMENTS, 239_568_104_853_370_801),
];

/// Dates and times that are none within the bounds.
const NO_STARTS: &[[u64; 6]] = &[
    [1980, 1, 5, 23, 59, 5_999_999_999],
    [2100, 1, 1, 0, 0, 0],
    [2001, 2, 29, 0, 0, 0],
    [2013, 0, 3, 0, 0, 0],
    [2013, 13, 3, 0, 0, 0],
    [2013, 4, 0, 0, 0, 0],
    [2013, 4, 31, 0, 0, 0],
    [2013, 4, 3, 24, 0, 0],
    [2013, 4, 3, 0, 60, 0],
    [2013, 4, 3, 0, 0, 6_000_000_000],
    [0, 0, 0, 0, 0, 0],
    [u64::MAX, 4, 3, 0, 0, 0],
    [2013, 4, 3, 0, 0, u64::MAX],
];

/// Bytes of the texts: places of each text's first and last.
const TEXT_PLACES: &[usize] = &[0, 4, 5, 9, 10, 12, 13, 16];

fn judged_heads() -> Vec<Judged> {
    let mut all: Vec<Judged> = Vec::new();
    for &(place, within, outside) in BOUNDS {
        for &number in within {
            all.push((Paper, vec![Argument(place, number)], 0, 0));
            all.push((Paper, vec![Field(place, number)], 0, 0));
        }
        for &number in outside {
            all.push((Paper, vec![Argument(place, number)], 7, 0));
            all.push((Paper, vec![Field(place, number)], 0, 13));
        }
    }
    for &(place, number) in TOO_MANY {
        all.push((Paper, vec![Argument(place, number)], 0, 13));
        all.push((Motion, vec![Field(place, number.max(3))], 0, 13));
    }
    all.extend(NO_STARTS.iter().map(|&start| (Paper, vec![Start(start)], 7, 0)));
    all.push((Paper, vec![Start([2000, 2, 29, 23, 59, 5_999_999_999])], 0, 0));
    let (first, end) = (44_244 * DAY as u64, 88_069 * DAY as u64);
    for (start, number) in
        [(first - 1, 13), (first, 0), (end - 1, 0), (end, 13), (0, 13), (u64::MAX, 13)]
    {
        all.push((Paper, vec![Field(START, start)], 0, number));
    }
    all.extend(judged_letters());
    all
}

fn judged_letters() -> Vec<Judged> {
    let mut all: Vec<Judged> = Vec::new();
    all.extend(b"QpvE".iter().map(|&mode| (Paper, vec![Argument(MODE, mode.into())], 6, 0)));
    // Mode V needs twice the rows, mode P half of them, without flags in none.
    all.push((Paper, vec![Argument(MODE, b'V'.into())], 0, 13));
    all.push((Paper, vec![Field(MODE, b'V'.into())], 0, 13));
    all.push((Motion, vec![Field(MODE, b'P'.into())], 0, 0));
    let velocity = Argument(MODE, b'V'.into());
    all.push((Paper, vec![velocity, Length(3, 2 * ROW), RowNumber(at(1, 0), 0)], 0, 13));
    all.push((Paper, vec![velocity, Twice], 0, 0));
    for letter in [b'X', b'g', b'A', b' ', 0, 255] {
        all.push((Paper, vec![Type(letter)], 6, 0));
        all.push((Paper, vec![Field(TYPE, letter.into())], 0, 13));
    }
    for letter in *b"GRLSIECJ" {
        let named = Name(0, u64::from(letter) * 100 + 7);
        all.push((Paper, vec![Type(letter), named], 0, 0));
        all.push((Paper, vec![Type(b'M'), named], 0, 0));
        let other = if letter == b'G' { b'R' } else { b'G' };
        all.push((Paper, vec![Type(other), named], 0, 13));
    }
    all.extend(lines::TIME_SYSTEMS.iter().map(|&text| (Paper, vec![System(text)], 0, 0)));
    all.extend(["gps", "GPX", "   ", "GLS", "GAS"].map(|text| (Paper, vec![System(text)], 6, 0)));
    all.extend([0, 1, 2].map(|place| (Paper, vec![Field(TIME + place, b'X'.into())], 0, 13)));
    for &place in TEXT_PLACES {
        for byte in [31, 127] {
            all.push((Paper, vec![Argument(TEXTS + place, byte)], 6, 0));
            all.push((Paper, vec![Field(TEXTS + place, byte)], 0, 13));
        }
    }
    all.extend([32, 126].map(|byte| (Paper, vec![Field(TEXTS + 4, byte)], 0, 0)));
    // "the lowest decides"
    all.push((Paper, vec![Type(b'X'), Argument(SATELLITES, 1000)], 6, 0));
    all.push((Paper, vec![Argument(MODE, b'Q'.into()), Start([2100, 1, 1, 0, 0, 0])], 6, 0));
    all
}

/// Epochs up to the end of the calendar.
fn judged_ends() -> Vec<Judged> {
    let last_second = [2099, 12, 31, 23, 59, 5_999_999_999];
    vec![
        (Paper, vec![Start([2099, 12, 31, 23, 45, 0]), Epochs(2)], 0, 13),
        (Paper, vec![Start([2099, 12, 31, 23, 30, 0]), Epochs(2)], 0, 0),
        (Paper, vec![Start([2099, 12, 31, 23, 30, 0]), Epochs(3)], 0, 13),
        (Paper, vec![Start(last_second), Epochs(2), Argument(INTERVAL, 1)], 0, 13),
        (Paper, vec![Start(last_second), Argument(INTERVAL, 9_999_999_999_999)], 0, 0),
        (
            Paper,
            vec![Start([2099, 12, 31, 23, 59, 5_999_999_998]), Epochs(2), Field(INTERVAL, 1)],
            0,
            0,
        ),
        (
            Paper,
            vec![Start([2099, 12, 31, 23, 59, 5_999_999_998]), Epochs(2), Field(INTERVAL, 2)],
            0,
            13,
        ),
        (Night, vec![Field(START, 88_069 * DAY as u64 - 1 - 1800 * SECOND as u64)], 0, 0),
        (Night, vec![Field(START, 88_069 * DAY as u64 - 1800 * SECOND as u64)], 0, 13),
        (
            Motion,
            vec![Start([2099, 12, 31, 0, 0, 0]), Epochs(2), Field(INTERVAL, 8_639_999_999_999)],
            0,
            0,
        ),
        (
            Motion,
            vec![Start([2099, 12, 31, 0, 0, 0]), Epochs(2), Field(INTERVAL, 8_640_000_000_000)],
            0,
            13,
        ),
    ]
}

const CODES: &[u64] = &[6501, 9099, 7101, 7199, 7701];
const NO_CODES: &[u64] =
    &[7100, 6500, 9000, 6407, 6499, 9101, 9199, 10_307, 0, 7, 707, 32_707, 72_643, u64::MAX];

fn judged_satellites() -> Vec<Judged> {
    let mut all: Vec<Judged> = Vec::new();
    let mixed = Type(b'M');
    all.extend(CODES.iter().map(|&code| (Paper, vec![mixed, Name(0, code)], 0, 0)));
    all.extend(NO_CODES.iter().map(|&code| (Paper, vec![mixed, Name(0, code)], 0, 13)));
    all.extend(NO_CODES.iter().map(|&code| (Night, vec![Name(1, code)], 0, 13)));
    all.push((Night, vec![Name(1, 7107)], 0, 13));
    all.push((Night, vec![Type(b'G')], 0, 13));
    all.push((Night, vec![Type(b'R')], 0, 13));
    all.push((Night, vec![Type(b'G'), Name(1, 7108)], 0, 0));
    for (place, code) in [(17, 7101), (17, 7117), (16, 7118), (0, 7118), (9, 7100)] {
        all.push((Many(18), vec![Name(place, code)], 0, 13));
    }
    all.push((Many(18), vec![Type(b'G')], 0, 0));
    all.push((Many(18), vec![Type(b'G'), Name(17, 8218)], 0, 13));
    all.push((Many(255), vec![Name(254, 7101)], 0, 13));
    all.push((Many(255), vec![Name(254, 9099)], 0, 0));
    for (exponent, number) in [(0, 0), (999, 0), (1000, 13), (u64::MAX, 13)] {
        all.push((Paper, vec![Accuracy(0, exponent)], 0, number));
        all.push((Many(18), vec![Accuracy(17, exponent)], 0, number));
    }
    for (place, byte, number) in [
        (0, 31, 13),
        (0, 126, 0),
        (76, 127, 13),
        (76, 33, 0),
        (77, 10, 13),
        (307, 200, 13),
        (307, 126, 0),
    ] {
        all.push((Paper, vec![CommentByte(place, byte)], 0, number));
    }
    all.push((Paper, vec![Length(2, 309), CommentByte(308, 0)], 0, 0));
    all
}

/// Tables of many satellites (request 6); these aren't stored. "1,000 can't be written
/// in the field": a header of them is 7, a table of them 13, whatever its lists hold.
fn judged_many() -> Vec<Judged> {
    let number = |n| Argument(SATELLITES, n);
    let field = |n| Field(SATELLITES, n);
    vec![
        (Paper, vec![number(255)], 0, 13),
        (Paper, vec![number(256)], 0, 13),
        (Motion, vec![field(256)], 0, 13),
        (Many(255), vec![More(6958), number(256)], 0, 0),
        (Many(255), vec![More(6958), field(256)], 0, 0),
        (Many(255), vec![More(7101), number(256)], 0, 13),
        (Many(255), vec![number(256)], 0, 13),
        (Many(256), vec![number(255)], 0, 0),
        (Many(998), vec![More(9009), number(999)], 0, 0),
        (Many(998), vec![More(9009), field(999)], 0, 0),
        (Many(998), vec![More(9099), number(999)], 0, 0),
        (Many(998), vec![More(7101), number(999)], 0, 13),
        (Many(998), vec![number(999)], 0, 13),
        (Many(999), vec![], 0, 0),
        (Many(999), vec![number(998)], 0, 0),
        (Many(999), vec![number(1000)], 7, 0),
        (Many(999), vec![field(1000)], 0, 13),
        (Many(999), vec![More(9010), number(1000)], 7, 0),
        (Many(999), vec![More(9010), field(1000)], 0, 13),
        (Many(999), vec![More(9010)], 0, 0),
        (Many(999), vec![More(7101)], 0, 0),
        // An identifier repeats: the first, the one before, in the middle.
        (Many(999), vec![Name(998, 7101)], 0, 13),
        (Many(999), vec![Name(998, 9008)], 0, 13),
        (Many(999), vec![Name(0, 9009)], 0, 13),
        (Many(999), vec![Name(500, 7101)], 0, 13),
        (Many(999), vec![Name(500, 9009)], 0, 13),
        (Many(999), vec![Name(499, 7302), Name(500, 7301)], 0, 13),
        (Many(999), vec![Name(998, 6600)], 0, 13),
        (Many(999), vec![Name(998, 6601)], 0, 0),
        (Many(999), vec![Name(998, 9101)], 0, 13),
        (Many(999), vec![Name(998, 72_643)], 0, 13),
        (Many(999), vec![Name(998, 7101 + 65_536)], 0, 13),
        (ManyBackwards(999), vec![], 0, 0),
        (ManyBackwards(999), vec![Name(998, 9009)], 0, 13),
        (ManyOverLetters(999), vec![], 0, 0),
        (ManyOverLetters(999), vec![Name(998, 7101)], 0, 13),
        (MovingMany(999), vec![], 0, 0),
        (MovingMany(999), vec![Field(MODE, b'P'.into())], 0, 0),
        (MovingMany(999), vec![Length(3, 45_953)], 0, 13),
        (MovingMany(999), vec![RowNumber(at(1997, 11), 1)], 0, 13),
        // Identifiers of one letter are 99 at most.
        (Many(99), vec![Type(b'G')], 0, 0),
        (Many(100), vec![Type(b'G')], 0, 13),
        (Many(100), vec![Type(b'G'), Name(99, 7101)], 0, 13),
        // The last places, and one place less.
        (Many(999), vec![Accuracy(998, 999)], 0, 0),
        (Many(999), vec![Accuracy(998, 1000)], 0, 13),
        (Many(999), vec![RowNumber(at(998, 11), 2)], 0, 13),
        (Many(999), vec![Length(0, 998)], 0, 13),
        (Many(999), vec![Length(1, 998)], 0, 13),
        (Many(999), vec![Length(3, 22_976)], 0, 13),
        (Many(999), vec![Length(0, 1000), Length(1, 1000), Length(3, 23_000)], 0, 0),
    ]
}

const AMOUNTS: (&[i64], &[i64]) = (
    &[999_999_999_999, -999_999_999_999, 999_999_000_000, 999_999_999_998, 0, -1, -1_000_000],
    &[1_000_000_000_000, -1_000_000_000_000, i64::MIN, i64::MAX],
);
/// A clock or rate: those that only an absent one could be spelt as are none.
const CLOCK_AMOUNTS: (&[i64], &[i64]) = (
    &[
        999_999_999_999,
        999_998_999_999,
        999_998_000_000,
        -999_999_999_999,
        -999_999_000_000,
        0,
        -1,
        999_999,
    ],
    &[
        999_999_000_000,
        999_999_000_001,
        999_999_500_000,
        999_999_999_998,
        1_000_000_000_000,
        -1_000_000_000_000,
        i64::MIN,
        i64::MAX,
    ],
);
const EXPONENTS: (&[i64], &[i64]) = (&[0, 9, 99, 1000], &[-1, 100, 999, 1001, -1000, i64::MIN]);
const CLOCK_EXPONENTS: (&[i64], &[i64]) =
    (&[0, 10, 100, 999, 1000], &[-1, 1001, -1000, i64::MIN, i64::MAX]);
const FLAGS: (&[i64], &[i64]) = (&[0, 1], &[2, -1, 1000, i64::MIN]);
const NO_FLAGS: (&[i64], &[i64]) = (&[0], &[1, 2, -1]);
/// The mark of a note beside ten that are unknown; a number beside the mark 0.
const MARKS: (&[i64], &[i64]) = (&[0, 1], &[2, -1, 100_000_000, i64::MIN]);
const NONE_NOTED: (&[i64], &[i64]) = (&[100_000_000], &[0, 5, -100_000_000]);
/// The deviations and correlations of a note, and both ends of their bounds.
const NOTED: (&[i64], &[i64]) = (
    &[0, 1, 1000, 9999, 100_000_000],
    &[-1, 10_000, 9_999_999, -9999, -100_000_000, 99_999_999, 100_000_001, i64::MAX],
);
const CLOCK_NOTED: (&[i64], &[i64]) =
    (&[0, 10_000, 9_999_999, 100_000_000], &[-1, 10_000_000, 99_999_999, -100_000_000, i64::MIN]);
const CORRELATED: (&[i64], &[i64]) = (
    &[0, 1, -1, 9_999_999, -9_999_999, 100_000_000],
    &[10_000_000, -10_000_000, 99_999_999, -99_999_999, -100_000_000, 100_000_001, i64::MIN],
);
const NOTED_ENDS: (&[i64], &[i64]) = (&[0, 9999], &[-1, 10_000, -100_000_000]);
const CLOCK_NOTED_ENDS: (&[i64], &[i64]) = (&[0, 9_999_999], &[-1, 10_000_000, -100_000_000]);
const CORRELATED_ENDS: (&[i64], &[i64]) =
    (&[-9_999_999, 9_999_999], &[-10_000_000, 10_000_000, -100_000_000]);

/// Each number of a P row, then of a V row.
fn judged_rows() -> Vec<Judged> {
    let mut all: Vec<Judged> = Vec::new();
    for (base, row, flags) in [(Paper, 0, FLAGS), (Motion, 3, NO_FLAGS)] {
        for place in (0..ROW).filter(|&place| place != CLOCK) {
            let (right, wrong) = match place {
                0..=2 => AMOUNTS,
                4..=6 => EXPONENTS,
                7 => CLOCK_EXPONENTS,
                MARK => MARKS,
                _ if place > MARK => NONE_NOTED,
                _ => flags,
            };
            all.extend(judged_number(base, at(row, place), &[], right, wrong));
        }
    }
    // The last row, and one that isn't of the table.
    all.push((Night, vec![RowNumber(at(5, 11), 2)], 0, 13));
    all.push((Night, vec![RowNumber(at(5, 0), i64::MIN)], 0, 13));
    all.push((Motion, vec![RowNumber(at(3, 8), 1)], 0, 13));
    all.push((Motion, vec![RowNumber(at(2, 8), 1)], 0, 0));
    all.push((Night, vec![Length(3, 7 * ROW), RowNumber(at(6, 0), i64::MAX)], 0, 0));
    all
}

/// The clock of a P row, then of a V row; of the P row of mode V, of the last row,
/// and of one that isn't of the table.
fn judged_clocks() -> Vec<Judged> {
    let (right, wrong) = CLOCK_AMOUNTS;
    let mut all = judged_number(Paper, CLOCK, &[], right, wrong);
    all.extend(judged_number(Motion, at(3, CLOCK), &[], right, wrong));
    all.push((Motion, vec![RowNumber(at(2, CLOCK), 999_999_000_000)], 0, 13));
    all.push((Motion, vec![RowNumber(at(2, CLOCK), 999_998_999_999)], 0, 0));
    all.push((Night, vec![RowNumber(at(5, CLOCK), 999_999_999_998)], 0, 13));
    all.push((Night, vec![Length(3, 7 * ROW), RowNumber(at(6, CLOCK), 999_999_000_000)], 0, 0));
    all
}

/// A number of the rows after some changes: those that it may be, and others.
fn judged_number(
    base: Base,
    place: usize,
    before: &[Change],
    right: &[i64],
    wrong: &[i64],
) -> Vec<Judged> {
    let judged =
        |&number: &i64, answer| (base, [before, &[RowNumber(place, number)]].concat(), 0, answer);
    let right = right.iter().map(|number| judged(number, 0));
    right.chain(wrong.iter().map(|number| judged(number, 13))).collect()
}

/// Each number of a note: after a P row that has nothing else noted, and after a
/// V row whose note is full.
fn judged_notes() -> Vec<Judged> {
    let mut all: Vec<Judged> = Vec::new();
    for place in MARK + 1..ROW {
        let (values, ends) = match place {
            CLOCK_DEVIATION => (CLOCK_NOTED, CLOCK_NOTED_ENDS),
            _ if DEVIATIONS.contains(&place) => (NOTED, NOTED_ENDS),
            _ => (CORRELATED, CORRELATED_ENDS),
        };
        let (right, wrong) = if [13, 16, 17, 22].contains(&place) { values } else { ends };
        all.extend(judged_number(Paper, place, &[RowNumber(MARK, 1)], right, wrong));
        all.extend(judged_number(Motion, at(1, place), &[], ends.0, ends.1));
    }
    // A mark of 0 beside a full note, of 2 and of -1; both rows of mode V marked.
    for mark in [0, 2, -1] {
        all.push((Motion, vec![RowNumber(at(1, MARK), mark)], 0, 13));
    }
    let none = CORRELATIONS.map(|place| RowNumber(at(1, place), UNNOTED));
    let none = DEVIATIONS.map(|place| RowNumber(at(1, place), UNNOTED)).chain(none);
    let none: Vec<Change> = none.chain([RowNumber(at(1, MARK), 0)]).collect();
    all.push((Motion, none, 0, 0));
    all.push((Motion, vec![RowNumber(at(2, MARK), 1), RowNumber(at(3, MARK), 1)], 0, 0));
    // The last row's last number; one of a row that isn't of the table.
    all.push((Night, vec![RowNumber(at(5, 22), 0)], 0, 13));
    all.push((Night, vec![Length(3, 7 * ROW), RowNumber(at(6, MARK), 2)], 0, 0));
    all
}

/// Lists exactly long enough, and one too short.
fn judged_lengths() -> Vec<Judged> {
    let mut all: Vec<Judged> = Vec::new();
    for (base, lengths) in
        [(Paper, [1, 1, 308, 23]), (Night, [2, 2, 308, 138]), (Motion, [2, 2, 308, 92])]
    {
        for (list, &length) in lengths.iter().enumerate() {
            all.push((base, vec![Length(list, length)], 0, 0));
            all.push((base, vec![Length(list, length - 1)], 0, 13));
            all.push((base, vec![Length(list, 0)], 0, 13));
        }
    }
    all.push((Motion, vec![Length(3, 46)], 0, 13));
    all.push((Motion, vec![Length(3, 48)], 0, 13));
    all.push((Paper, vec![Length(3, 12)], 0, 13));
    all.push((Paper, vec![Length(2, 231)], 0, 13));
    all
}

fn judged_by_hand() -> Vec<Judged> {
    let rows = [judged_rows(), judged_notes()].concat();
    [judged_heads(), judged_ends(), judged_satellites(), rows, judged_lengths()].concat()
}

/// A table, whether it is spoilt, and the room: as it is needed and so much
/// more or less; then the answer. 13 comes before 12.
const ROOMS: &[(Base, &[Change], isize, u8)] = &[
    (Paper, &[], 0, 0),
    (Paper, &[], -1, 12),
    (Paper, &[], 1, 0),
    (Paper, &[], 100, 0),
    (Paper, &[], -4, 12),
    (Paper, &[], -1214, 12),
    (Paper, &[], -1215, 12),
    (Night, &[], 0, 0),
    (Night, &[], -1, 12),
    (Motion, &[], 0, 0),
    (Motion, &[], -1, 12),
    (Many(18), &[], 0, 0),
    (Many(18), &[], -1, 12),
    (Talkative(103), &[], -1, 12),
    (Paper, &[RowNumber(4, 7), RowNumber(11, 1)], 0, 0),
    (Paper, &[RowNumber(4, 7), RowNumber(11, 1)], -1, 12),
    (Paper, &[Name(0, 7100)], -1215, 13),
    (Paper, &[RowNumber(11, 2)], -1215, 13),
    (Paper, &[RowNumber(CLOCK, 999_999_000_000)], -1, 13),
    (Paper, &[Length(3, 22)], -1215, 13),
    (Paper, &[Field(TYPE, 0)], -1215, 13),
    (Paper, &[CommentByte(307, 7)], -1, 13),
    (Night, &[RowNumber(at(5, 11), 2)], -1, 13),
    (Night, &[RowNumber(at(5, 11), 2)], -1000, 13),
    (Paper, &[RowNumber(MARK, 1)], 0, 0),
    (Paper, &[RowNumber(MARK, 1)], -1, 12),
    (Paper, &[RowNumber(MARK, 1), RowNumber(22, -1)], 0, 0),
    (Paper, &[RowNumber(MARK, 1), RowNumber(22, -1)], -1, 12),
    (Paper, &[RowNumber(MARK, 2)], -1215, 13),
    (Paper, &[RowNumber(13, 5)], -1, 13),
];

/// The same of 256 and 999 satellites, whose forms have 18,112 and 68,681 bytes; these aren't stored.
const MANY_ROOMS: &[(Base, &[Change], isize, u8)] = &[
    (Many(256), &[], 0, 0),
    (Many(256), &[], -1, 12),
    (Many(999), &[], 0, 0),
    (Many(999), &[], -1, 12),
    (Many(999), &[], -3145, 12),
    (Many(999), &[], -68_681, 12),
    (Many(999), &[Name(998, 7101)], -68_681, 13),
    (Many(999), &[Field(SATELLITES, 1000)], -1, 13),
    (MovingMany(999), &[], 0, 0),
    (MovingMany(999), &[], -1, 12),
];

/// Tables to be put into c, the room as above, and the answer: "a table outside c's bounds
/// gives 17, after 13 and before 12".
const OLDER_ROOMS: &[(Base, &[Change], isize, u8)] = &[
    (Paper, &[], 0, 0),
    (Paper, &[], -1, 12),
    (Paper, &[], 5, 0),
    (Paper, &[], -1215, 12),
    (Night, &[], 0, 0),
    (Motion, &[], 0, 0),
    (Motion, &[], -1, 12),
    (MovingNotes, &[], 0, 0),
    // Satellites.
    (Many(85), &[], 0, 0),
    (Many(86), &[], 0, 17),
    (Many(86), &[], -6522, 17),
    // Comments: four, and no more; three are 13.
    (Talkative(4), &[], 0, 0),
    (Talkative(5), &[], 0, 17),
    (Talkative(5), &[], -1, 17),
    (Talkative(5), &[], -1260, 17),
    (Talkative(5), &[Field(COMMENTS, 4)], 0, 0),
    (Talkative(103), &[], 0, 17),
    (Paper, &[Field(COMMENTS, 3)], 0, 13),
    (Paper, &[Field(COMMENTS, 5)], 0, 13),
    (Paper, &[Field(COMMENTS, 0)], -1215, 13),
    // Texts of 57 and 58 characters: column 60, column 61; of 77; with blanks after them.
    (Paper, &[Comment(0, TEXT_57)], 0, 0),
    (Paper, &[Comment(0, TEXT_57)], -1, 12),
    (Paper, &[Comment(0, TEXT_58)], 0, 17),
    (Paper, &[Comment(0, TEXT_58)], -1, 17),
    (Paper, &[Comment(3, TEXT_57)], 0, 0),
    (Paper, &[Comment(3, TEXT_58)], 0, 17),
    (Paper, &[CommentByte(56, b'x')], 0, 0),
    (Paper, &[CommentByte(57, b'x')], 0, 17),
    (Paper, &[CommentByte(57, b' ')], 0, 0),
    (Paper, &[CommentByte(76, b'x')], 0, 17),
    (Paper, &[CommentByte(307, b'x')], 0, 17),
    (Paper, &[Length(2, 309), CommentByte(308, b'x')], 0, 0),
    // 13 before 17, 17 before 12.
    (Many(86), &[Accuracy(0, 1000)], 0, 13),
    (Talkative(5), &[CommentByte(384, 7)], 0, 13),
    (Talkative(5), &[CommentByte(384, 7)], -1260, 13),
    (Talkative(5), &[RowNumber(MARK, 2)], 0, 13),
    (Paper, &[CommentByte(57, 7)], 0, 13),
    (Paper, &[CommentByte(57, 200)], -1215, 13),
    (Paper, &[CommentByte(60, b'x'), Field(TYPE, 0)], 0, 13),
    (Paper, &[CommentByte(60, b'x'), Length(0, 0)], 0, 13),
];

/// More of them, of many satellites; these aren't stored.
const MANY_OLDER_ROOMS: &[(Base, &[Change], isize, u8)] = &[
    (Many(84), &[], 0, 0),
    (Many(85), &[], -1, 12),
    (Many(86), &[], -1, 17),
    (Many(86), &[Field(SATELLITES, 85)], 0, 0),
    (Many(85), &[More(7186), Field(SATELLITES, 86)], 0, 17),
    (Many(255), &[], 0, 17),
    (Many(86), &[Accuracy(85, 1000)], -6522, 13),
    (Many(86), &[Name(85, 7101)], 0, 13),
    (Many(86), &[RowNumber(at(85, 11), 2)], -1, 13),
    (Many(86), &[Length(3, 1977)], 0, 13),
    (Many(85), &[Accuracy(84, 1000)], 0, 13),
    (Many(999), &[], 0, 17),
    (Many(999), &[], -68_681, 17),
    (Many(999), &[Accuracy(998, 1000)], 0, 13),
    (Many(999), &[Field(SATELLITES, 1000)], 0, 13),
];

/// Texts whose lines have 60 and 61 characters.
const TEXT_57: &str = "456789012345678901234567890123456789012345678901234567890";
const TEXT_58: &str = "4567890123456789012345678901234567890123456789012345678901";

/// Files of either version, the version to be written, and what is said of it; the bytes that
/// are written begin with the line after it.
const PUT_INTO: &[(Base, &[Edit], Version, &[&str])] = &[
    (Paper, &[], Version::C, &["read 0 0 0 |d|", "write 0 1215", PAPER_C, PAPER_TWO]),
    (Paper, &[AS_C], Version::D, &["read 0 0 0 |c|", "write 0 1215", PAPER_D, PAPER_TWO]),
    (Paper, &[AS_C], Version::C, &["read 0 0 0 |c|", "write 0 1215", PAPER_C, PAPER_TWO]),
    (
        Paper,
        &[AS_C, Put(24, 19, "    -00.500000")],
        Version::C,
        &["read 0 0 0 |c|", "write 0 1215", PAPER_C, PAPER_TWO, PAPER_ROW, "EOF", "kept"],
    ),
    (
        Paper,
        &[AS_C, Put(4, 80, " "), Put(24, 80, " "), Put(19, 60, " ")],
        Version::C,
        &["write 0 1215", PAPER_C, "/* ONE ROW", PAPER_ROW, "EOF"],
    ),
    (Motion, &[AS_C], Version::C, &["read 0 0 0 |c|", "write 0 1605", MOTION_C]),
    (Motion, &[AS_C], Version::D, &["read 0 0 0 |c|", "write 0 1605", MOTION_D]),
    (Paper, &[AS_C, Whole(19, COMMENT_60)], Version::C, &["write 0 1265", PAPER_C, COMMENT_60]),
    (Paper, &[Whole(19, COMMENT_60)], Version::C, &["write 0 1265", PAPER_C, COMMENT_60]),
    (Paper, &[Whole(19, COMMENT_61)], Version::C, &["read 0 0 0 |d|", "write 17 0", "kept"]),
    (Paper, &[Whole(19, COMMENT_61)], Version::D, &["write 0 1266", PAPER_D, COMMENT_61]),
    // Blanks past column 60 don't count in a table.
    (Paper, &[Put(19, 80, " ")], Version::C, &["read 0 0 0 |d|", "write 0 1215", PAPER_C]),
    (Paper, &[Insert(23, "/*")], Version::C, &["read 0 0 0 |d|", "write 17 0", "kept"]),
    (Talkative(5), &[], Version::C, &["read 0 0 0 |d|", "write 17 0", "kept"]),
    (Many(85), &[], Version::C, &["read 0 0 0 |d|", "write 0 6339", MANY_C]),
    (Many(86), &[], Version::C, &["read 0 0 0 |d|", "write 17 0", "kept"]),
    // A c file that is refused is not written, whatever is wanted.
    (Many(86), &[AS_C], Version::D, &["read 7 3 4 | |"]),
    (Talkative(5), &[AS_C], Version::D, &["read 4 23 0 | |"]),
    (Paper, &[AS_C, Whole(19, COMMENT_61)], Version::D, &["read 3 19 61 | |"]),
];

const PAPER_C: &str = "#cP2013  4  3  0  0  0.00000000       1 ORBIT WGS84 BCT PORT";
const PAPER_D: &str = "#dP2013  4  3  0  0  0.00000000       1 ORBIT WGS84 BCT PORT";
const PAPER_TWO: &str = "## 1734 259200.00000000   900.00000000 56385 0.0000000000000";
const MOTION_C: &str = "#cV2001  8  8  0  0  0.00000000       1 ORBIT IGS97 HLM MGEX";
const MOTION_D: &str = "#dV2001  8  8  0  0  0.00000000       1 ORBIT IGS97 HLM MGEX";
const MANY_C: &str = PAPER_C;

// ---------------------------------------------------------------------------
// Generated cases
// ---------------------------------------------------------------------------

/// Numbers near some bound or other, of any field.
const SMALL: &[u64] = &[
    0, 1, 2, 3, 4, 5, 9, 10, 17, 31, 32, 65, 71, 77, 80, 86, 90, 91, 99, 100, 126, 127, 128, 254,
    255, 256, 999, 1000, 1001, 6501, 7100, 7101, 9099, 9999, 10_000, 65_535, 65_536, 100_000,
    100_001,
];
const LARGE: &[u64] = &[
    9_999_999,
    10_000_000,
    99_999_999,
    100_000_000,
    100_000_001,
    999_999_999,
    1_000_000_000,
    99_999_999_999,
    100_000_000_000,
    999_998_999_999,
    999_999_000_000,
    999_999_999_998,
    999_999_999_999,
    1_000_000_000_000,
    9_999_999_999_999,
    10_000_000_000_000,
    382_268_159_999_999_999,
    382_268_160_000_000_000,
    760_916_159_999_999_999,
    760_916_160_000_000_000,
    239_568_104_853_370_801,
    9_223_372_036_854_775_807,
    9_223_372_036_854_775_808,
    u64::MAX,
];

fn choose_any(random: &mut Random) -> u64 {
    match random.below(6) {
        0 => random.next(),
        1 => random.next() % 1001,
        2 | 3 => *random.pick(LARGE),
        _ => *random.pick(SMALL),
    }
}

/// A number that stands in its field rightly, mostly.
fn choose_number(random: &mut Random, place: usize) -> u64 {
    let (year, month, day) = files::date_of(files::choose_start(random) / DAY);
    match place {
        _ if files::once_in(random, 4) => choose_any(random),
        MODE => u64::from(*random.pick(b"PV")),
        YEAR => year as u64,
        MONTH => month as u64,
        DAY_OF_MONTH => day as u64,
        HOUR => random.below(25) as u64,
        MINUTE => random.below(61) as u64,
        SECONDS => *random.pick(&[0, 54, 162, 270, 100_000_000, 5_999_999_999, 6_000_000_000]),
        EPOCHS => 1 + random.below(6) as u64,
        INTERVAL => files::choose_interval(random) as u64,
        SATELLITES => 1 + random.below(6) as u64,
        COMMENTS => 3 + random.below(4) as u64,
        TYPE => u64::from(*random.pick(b"GMRLSIECJ")),
        12..=14 => u64::from(*random.pick(b"GPSLOABDTIURNQZ")),
        PLACE_BASE => random.next() % 1_000_000_000,
        CLOCK_BASE => random.next() % 100_000_000_000,
        _ => 32 + random.below(95) as u64,
    }
}

fn spoil_argument(given: &mut Given, random: &mut Random) {
    let place = random.below(ARGUMENTS);
    given.numbers[place] = choose_number(random, place);
}

fn spoil_field(given: &mut Given, random: &mut Random) {
    let place = if files::once_in(random, 2) { random.below(ARGUMENTS) } else { random.below(17) };
    given.field = place as u64;
    given.value = match place {
        START if !files::once_in(random, 4) => files::choose_start(random) as u64,
        _ => choose_number(random, place),
    };
}

fn spoil_identifier(given: &mut Given, random: &mut Random) {
    if given.lists.identifiers.is_empty() {
        return;
    }
    let list = &mut given.lists.identifiers;
    let (place, other) = (random.below(list.len()), random.below(list.len()));
    list[place] = match random.below(6) {
        0 => choose_any(random),
        1 => list[other],
        2 => list[place] + 1,
        3 => list[place].wrapping_add(100),
        4 => u64::from(*random.pick(b"GRLSIECJAMZ")) * 100 + random.below(100) as u64,
        _ => list[place] - list[place] % 100,
    };
}

/// One identifier twice, or once more the same.
fn repeat_identifier(given: &mut Given, random: &mut Random) {
    let list = &mut given.lists.identifiers;
    let (place, other) = (random.below(list.len()), random.below(list.len()));
    list[place] = list[other];
}

fn spoil_exponent(given: &mut Given, random: &mut Random) {
    if given.lists.exponents.is_empty() {
        return;
    }
    let place = random.below(given.lists.exponents.len());
    given.lists.exponents[place] =
        if files::once_in(random, 2) { random.next() % 1002 } else { choose_any(random) };
}

fn spoil_comment(given: &mut Given, random: &mut Random) {
    if given.lists.comments.is_empty() {
        return;
    }
    let place = random.below(given.lists.comments.len());
    given.lists.comments[place] =
        if files::once_in(random, 2) { 30 + random.below(99) as u8 } else { random.next() as u8 };
}

/// A clock on one side or the other of each of its bounds.
fn choose_clock_number(random: &mut Random) -> i64 {
    let nearby = *random.pick(&[
        999_998_999_999,
        999_999_000_000,
        999_999_999_998,
        999_999_999_999,
        1_000_000_000_000,
        -999_999_000_000,
        -999_999_999_999,
        -1_000_000_000_000,
    ]);
    match random.below(4) {
        0 => files::choose_clock(random),
        1 => nearby + random.below(1000) as i64 - 500,
        _ => nearby,
    }
}

fn choose_row_number(random: &mut Random, place: usize) -> i64 {
    if files::once_in(random, 6) {
        let number = choose_any(random) as i64;
        return if files::once_in(random, 2) { number } else { number.wrapping_neg() };
    }
    match place {
        0..=2 => files::choose_value(random),
        CLOCK => choose_clock_number(random),
        4..=6 => *random.pick(&[0, 1, 9, 10, 98, 99, 99, 1000, 1000, 100]),
        7 => *random.pick(&[0, 1, 9, 10, 99, 100, 998, 999, 1000, 1000, 1001]),
        8..=MARK => *random.pick(&[0, 1, 0, 1, 0, 1, 0, 1, 0, 1, 2]),
        CLOCK_DEVIATION => {
            *random.pick(&[0, 1000, 9_999_998, 9_999_999, 10_000_000, UNNOTED, UNNOTED, -1])
        }
        _ if place < CLOCK_DEVIATION => {
            *random.pick(&[0, 9, 999, 1000, 9998, 9999, 10_000, UNNOTED, UNNOTED, -1])
        }
        _ => {
            let size = *random.pick(&[0, 1, 30, 9_999_999, 10_000_000, UNNOTED, UNNOTED]);
            if files::once_in(random, 2) && (size < UNNOTED || files::once_in(random, 8)) {
                -size
            } else {
                size
            }
        }
    }
}

fn spoil_row(given: &mut Given, random: &mut Random) {
    let rows = given.lists.rows.len();
    if rows == 0 {
        return;
    }
    let place = random.below(rows);
    given.lists.rows[place] = choose_row_number(random, place % ROW);
}

/// The clock of a row.
fn spoil_clock(given: &mut Given, random: &mut Random) {
    let rows = given.lists.rows.len() / ROW;
    if rows > 0 {
        given.lists.rows[at(random.below(rows), CLOCK)] = choose_clock_number(random);
    }
}

/// A number of a note, or its mark.
fn spoil_note(given: &mut Given, random: &mut Random) {
    let rows = given.lists.rows.len() / ROW;
    if rows == 0 {
        return;
    }
    let place = MARK + random.below(ROW - MARK).min(random.below(ROW - MARK));
    given.lists.rows[at(random.below(rows), place)] = choose_row_number(random, place);
}

fn spoil_length(given: &mut Given, random: &mut Random) {
    let lengths = given.lengths();
    let list = random.below(4);
    let length = match random.below(6) {
        0 | 1 => lengths[list].saturating_sub(1),
        2 => random.below(lengths[list] + 1),
        _ => lengths[list] + 1 + random.below(30),
    };
    set_length(&mut given.lists, list, length.min(files::MOST_ROOMS[list].max(lengths[list])));
}

type Spoil = fn(&mut Given, &mut Random);

const SPOILS: &[Spoil] = &[
    spoil_argument,
    spoil_field,
    spoil_field,
    spoil_identifier,
    spoil_exponent,
    spoil_comment,
    spoil_row,
    spoil_row,
    spoil_clock,
    spoil_note,
    spoil_note,
    spoil_length,
];

/// Other rows, other times, many epochs: a table that is valid still, mostly.
fn vary(given: &mut Given, random: &mut Random) {
    let width = given.lists.rows.len() / given.numbers[EPOCHS] as usize;
    if width <= 6 * ROW && files::once_in(random, 25) {
        set_epochs(given, 1 + random.below(200 * ROW / width));
    }
    if files::once_in(random, 2) {
        let moment = moment_of(files::choose_start(random) as u64);
        let date = moment.date;
        let numbers = [date.year, date.month, date.day, moment.hour, moment.minute, moment.seconds];
        given.numbers[YEAR..=SECONDS].copy_from_slice(&numbers.map(|number| number as u64));
    }
    if files::once_in(random, 3) {
        given.numbers[INTERVAL] = files::choose_interval(random) as u64;
    }
    if files::once_in(random, 2) {
        let velocities = given.numbers[MODE] == u64::from(b'V');
        for (number, row) in given.lists.rows.chunks_mut(ROW).enumerate() {
            let flags = !velocities || number % 2 == 0;
            vary_row(row, flags, random);
        }
    }
}

/// A row of any numbers that it may hold.
fn vary_row(row: &mut [i64], flags: bool, random: &mut Random) {
    let known = random.below(16);
    let set = random.below(16) * usize::from(random.below(2));
    for place in 0..4 {
        row[place] =
            if place < 3 { files::choose_value(random) } else { files::choose_clock(random) };
        let most = if place < 3 { 100 } else { 1000 };
        row[4 + place] = if known >> place & 1 == 1 { random.below(most) as i64 } else { UNKNOWN };
        row[8 + place] = i64::from(flags && set >> place & 1 == 1);
    }
    let note = files::once_in(random, 2).then(|| files::choose_note(random));
    row[MARK..].copy_from_slice(&files::held_note(note));
}

/// A table with lists of so many places at most.
fn generate_table(random: &mut Random, file: MakeFile, most: [usize; 4]) -> Given {
    loop {
        let Some(mut given) = given_of(&file(random)) else {
            continue;
        };
        if given.lengths().iter().zip(most).any(|(&length, most)| length > most) {
            continue;
        }
        vary(&mut given, random);
        let many = given.lists.identifiers.len() > 255;
        for _ in 0..*random.pick(&[0, 0, 1, 1, 1, 2]) {
            match many && files::once_in(random, 4) {
                true => repeat_identifier(&mut given, random),
                false => random.pick(SPOILS)(&mut given, random),
            }
        }
        return given;
    }
}

/// The length of what is written, where the room suffices.
fn length_of(version: Version, body: &Body) -> Option<usize> {
    let given = match body {
        Body::File(file) | Body::Roomy(file) => given_of(file)?,
        Body::Table(given) => given.clone(),
    };
    given.write(version, usize::MAX).ok().map(|bytes| bytes.len())
}

fn choose_room(random: &mut Random, needed: usize) -> usize {
    match random.below(12) {
        0 | 1 => needed.saturating_sub(1),
        2 => random.below(needed + 1),
        3 => needed + 1,
        4 | 5 => needed + random.below(300),
        6 if files::once_in(random, 3) => 0,
        _ => needed,
    }
}

/// In either version; where it isn't within its bounds the room is one for the other.
fn with_some_room(random: &mut Random, body: Body) -> Case {
    let version = if files::once_in(random, 2) { Version::C } else { Version::D };
    let needed = length_of(Version::D, &body).unwrap_or(random.below(3000));
    Case { version, room: choose_room(random, needed), body }
}

type MakeFile = fn(&mut Random) -> Vec<u8>;

fn generate_case(random: &mut Random) -> Case {
    let file: MakeFile = |random| files::generate_file(random).1;
    let body = if files::once_in(random, 3) {
        Body::File(file(random))
    } else {
        Body::Table(generate_table(random, file, files::MOST_ROOMS))
    };
    let case = with_some_room(random, body);
    Case { room: case.room.min(MOST_ROOM), ..case }
}

/// Files and tables of any size.
fn generate_any_case(random: &mut Random) -> Case {
    let file: MakeFile = |random| files::generate_any_file(random).1;
    let body = match random.below(6) {
        0 => Body::File(file(random)),
        1 | 2 => Body::Roomy(file(random)),
        kind => {
            let mut given = generate_table(random, file, [usize::MAX; 4]);
            if kind == 3 {
                spoil_argument(&mut given, random);
            }
            Body::Table(given)
        }
    };
    with_some_room(random, body)
}

// ---------------------------------------------------------------------------
// The stored cases
// ---------------------------------------------------------------------------

fn with_room(body: Body, more: isize) -> Case {
    let needed = length_of(Version::D, &body).unwrap_or(1215);
    Case { version: Version::D, room: needed.saturating_add_signed(more), body }
}

fn refused_case(base: Base, edits: &[Edit]) -> Case {
    let body = Body::File(files::hand_made(base, edits));
    Case { version: Version::D, room: 1300, body }
}

fn longer_case(base: Base, edits: &[Edit], room: usize) -> Case {
    Case { version: Version::D, room, body: Body::File(files::hand_made(base, edits)) }
}

/// A table with the room that it needs, and so much more or less.
fn room_case(base: Base, changes: &[Change], more: isize) -> Case {
    let given = changed(base, changes);
    let written = given.write(Version::D, usize::MAX);
    let needed = written.map_or(form_with(base, &[]).len(), |bytes| bytes.len());
    let room = needed.saturating_add_signed(more);
    Case { version: Version::D, room, body: Body::Table(given) }
}

/// Those of many satellites: as files, with a byte too little too, and as tables.
fn many_cases() -> Vec<Case> {
    let mut cases: Vec<Case> = Vec::new();
    for &(base, edits, _) in MANY_WRITTEN {
        let file = files::hand_made(base, edits);
        cases.push(with_room(Body::Roomy(file.clone()), 0));
        cases.push(with_room(Body::Roomy(file), -1));
    }
    for (base, changes, ..) in judged_many() {
        cases.push(with_room(Body::Table(changed(base, &changes)), 1));
    }
    let rooms = MANY_ROOMS.iter().map(|&(base, changes, more, _)| room_case(base, changes, more));
    cases.into_iter().chain(rooms).collect()
}

/// A file of either version with the room that its table needs in d.
fn put_into(base: Base, edits: &[Edit], version: Version) -> Case {
    Case { version, ..with_room(Body::File(files::hand_made(base, edits)), 0) }
}

/// Tables to be put into c.
fn older_rooms(list: &[(Base, &[Change], isize, u8)]) -> Vec<Case> {
    let room = |&(base, changes, more, _): &(_, &[Change], _, _)| room_case(base, changes, more);
    list.iter().map(room).map(|case| Case { version: Version::C, ..case }).collect()
}

/// Those of version c that are stored: tables and files.
fn older_cases() -> Vec<Case> {
    let rooms = older_rooms(OLDER_ROOMS).into_iter();
    let files = PUT_INTO.iter().map(|&(base, edits, version, _)| put_into(base, edits, version));
    rooms.chain(files).collect()
}

/// All of them that are worked out by hand, stored or not.
fn all_hand_cases() -> Vec<Case> {
    let judged = judged_by_hand().into_iter().map(|(base, changes, ..)| (base, changes));
    let tables = judged.map(|(base, changes)| with_room(Body::Table(changed(base, &changes)), 1));
    let all = hand_cases().into_iter().chain(tables).chain(many_cases());
    all.chain(older_rooms(MANY_OLDER_ROOMS)).collect()
}

/// Those worked out by hand, the longer of the judged tables in part.
fn hand_cases() -> Vec<Case> {
    let mut cases: Vec<Case> = Vec::new();
    for &(base, edits, _) in WRITTEN {
        let file = files::hand_made(base, edits);
        cases.push(with_room(Body::File(file), 0));
    }
    for &(base, changes, _) in DATED {
        cases.push(with_room(Body::Table(changed(base, changes)), 3));
    }
    cases.extend(ROOMS.iter().map(|&(base, changes, more, _)| room_case(base, changes, more)));
    for (place, &(base, edits, more, _)) in ROOMS.iter().enumerate() {
        if edits.is_empty() && place < 13 {
            let file = files::base_file(base).bytes();
            cases.push(with_room(Body::File(file), more));
        }
    }
    for (base, changes, ..) in judged_clocks() {
        cases.push(with_room(Body::Table(changed(base, &changes)), 1));
    }
    for (place, (base, changes, ..)) in judged_by_hand().into_iter().enumerate() {
        let case = with_room(Body::Table(changed(base, &changes)), 1);
        if case.bytes().len() < 700 || place % 6 == 0 {
            cases.push(case);
        }
    }
    cases.extend(REFUSED.iter().map(|&(base, edits, _)| refused_case(base, edits)));
    cases.extend(LONGER.iter().map(|&(base, edits, room, _)| longer_case(base, edits, room)));
    cases.extend(older_cases());
    cases
}

/// And after them small generated ones.
fn stored_cases() -> Vec<Case> {
    files::filled_up(hand_cases(), generate_case, |case| case.bytes().len() < 3000)
}

// ---------------------------------------------------------------------------
// Self-test
// ---------------------------------------------------------------------------

fn same(tally: &mut Tally, given: Result<Vec<u8>, u8>, wanted: &[u8], name: &str) {
    tally.holds(given.as_deref() == Ok(wanted), || {
        let found = given.as_ref().map_or_else(|number| vec![*number], Vec::clone);
        let difference = files::first_difference(wanted, &found);
        format!("{name}: {difference:?}")
    });
}

/// What is written of a table in both versions: in c the same but for the second byte, or 17
/// where that form has six `+ ` lines, five comments or a comment line of 61 characters.
fn test_versions(tally: &mut Tally, given: Option<Given>, form: &[u8], name: &str) {
    let write = |version| given.as_ref().map_or(Err(0), |given| given.write(version, usize::MAX));
    same(tally, write(Version::D), form, name);
    let (mut older, count) = (form.to_vec(), |symbol| lines_of(form, symbol).count());
    older[1] = b'c';
    let within = count("+ ") == 5 && count("/*") == 4;
    if within && lines_of(form, "/*").all(|line| line.len() <= 60) {
        same(tally, write(Version::C), &older, name);
    } else {
        tally.holds(write(Version::C) == Err(17), || format!("{name}: it can be put into c"));
    }
}

/// The lines that begin so.
fn lines_of<'a>(form: &'a [u8], symbol: &'a str) -> impl Iterator<Item = &'a [u8]> {
    form.split(|&c| c == b'\n').filter(move |line| line.starts_with(symbol.as_bytes()))
}

/// What is written of files and tables, line by line.
fn test_forms(tally: &mut Tally) {
    for &(base, edits, lines) in WRITTEN.iter().chain(MANY_WRITTEN) {
        let file = files::hand_made(base, edits);
        let given = given_of(&file);
        let form = form_with(base, lines);
        test_versions(tally, given, &form, &format!("{base:?} {edits:?}"));
    }
    for &(base, changes, lines) in DATED {
        let form = form_with(base, lines);
        test_versions(tally, Some(changed(base, changes)), &form, &format!("{base:?} {changes:?}"));
    }
}

/// The numbers of a table: of its header, and of its writing in a version into a room.
fn numbers_of(version: Version, given: &Given, room: usize) -> (u8, u8) {
    match given.head() {
        Err(number) => (number, 0),
        Ok(head) => (0, write(version, &head, &given.lists, room).err().unwrap_or_default()),
    }
}

fn test_judged(tally: &mut Tally) {
    let judged = [judged_by_hand(), judged_clocks(), judged_many()].concat();
    for (base, changes, new, written) in judged {
        let given = changed(base, &changes);
        let found = numbers_of(Version::D, &given, usize::MAX);
        tally.holds(found == (new, written), || {
            format!("{base:?} {changes:?}: wanted {new} {written}, found {found:?}")
        });
        // "after 13": what isn't valid is neither in c
        let found = numbers_of(Version::C, &given, usize::MAX);
        tally.holds(written != 13 || found == (new, 13), || format!("{base:?} {changes:?} in c"));
    }
    for &(base, changes, more, number) in ROOMS.iter().chain(MANY_ROOMS) {
        let given = changed(base, changes);
        let found = numbers_of(Version::D, &given, room_case(base, changes, more).room);
        tally.holds(found == (0, number), || format!("{base:?} {changes:?} {more}: {found:?}"));
    }
}

fn test_older(tally: &mut Tally) {
    for &(base, changes, more, number) in OLDER_ROOMS.iter().chain(MANY_OLDER_ROOMS) {
        let given = changed(base, changes);
        let found = numbers_of(Version::C, &given, room_case(base, changes, more).room);
        tally.holds(found == (0, number), || format!("c {base:?} {changes:?} {more}: {found:?}"));
    }
    for &(base, edits, version, wanted) in PUT_INTO {
        let answer = put_into(base, edits, version).answer();
        let missing = files::missing_line(&answer, wanted);
        tally.holds(missing.is_none(), || {
            format!("{base:?} {edits:?} {version:?}\n  wanted {missing:?}\n  given {answer}")
        });
    }
}

fn test_refused(tally: &mut Tally) {
    for &(base, edits, read) in REFUSED {
        let case = refused_case(base, edits);
        let wanted = format!("file 1300 {}\n{read}\n", case.bytes().len());
        let found = case.answer();
        tally.holds(found == wanted, || format!("{base:?} {edits:?}: {found}"));
    }
}

/// A form that is longer than its file needs room of its own length.
fn test_longer(tally: &mut Tally) {
    for &(base, edits, room, number) in LONGER {
        let found = longer_case(base, edits, room).answer();
        let wanted = if number == 0 { format!("write 0 {room}\n") } else { "write 12 0\n".into() };
        tally.holds(found.contains(&wanted), || format!("{base:?} {edits:?} {room}: {found}"));
    }
}

/// Files that differ in the fractions of six nines are written alike.
fn test_alike(tally: &mut Tally) {
    for (base, line) in [(Paper, 24), (Night, 28), (Motion, 29)] {
        for &(clock, shown) in lines::CLOCKS {
            let mut draft = files::base_file(base);
            draft.put(line, 47, clock.as_bytes());
            let write = |given: Given| given.write(Version::D, usize::MAX);
            let written = given_of(&draft.bytes()).map(write);
            if let Ok(shown) = shown {
                draft = files::base_file(base);
                draft.put(line, 47, shown.as_bytes());
                let plain = given_of(&draft.bytes()).map(write);
                tally.holds(written.is_some() && written == plain, || {
                    format!("{base:?} clock {clock:?} isn't written as {shown:?}")
                });
            }
        }
    }
}

/// Whether bytes are an accepted file that has exactly this table.
fn has_table(bytes: &[u8], head: &Head, lists: &Lent) -> bool {
    let Some(other) = given_of(bytes) else {
        return false;
    };
    let Ok(again) = other.head() else {
        return false;
    };
    let (one, two) = (Held::of(head, lists), Held::of(&again, &other.lists));
    (again.velocities, again.start, again.epochs, again.interval)
        == (head.velocities, head.start, head.epochs, head.interval)
        && (again.texts, again.satellites, again.comments)
            == (head.texts, head.satellites, head.comments)
        && (again.file_type, again.time_system, again.bases)
            == (head.file_type, head.time_system, head.bases)
        && (one.identifiers, one.exponents) == (two.identifiers, two.exponents)
        && (one.comments, one.rows) == (two.comments, two.rows)
}

/// "A table is valid exactly when some accepted file has it": the form of a
/// valid table is such a file and its own form; what the writer would make of
/// a table that isn't valid, or not within the bounds of the version, is none.
fn test_validity(tally: &mut Tally) {
    std::panic::set_hook(Box::new(|_| {}));
    for number in 1..=3000 {
        let case = generated(generate_case, files::STORED_SEED + 1, number);
        let (version, Body::Table(given)) = (case.version, case.body) else {
            continue;
        };
        let Ok(head) = given.head() else {
            continue;
        };
        let lists = &given.lists;
        let small = lists_suffice(&head, lists);
        let valid = is_valid(&head, lists) && is_within(version, &head, lists);
        let made = std::panic::catch_unwind(|| small.then(|| canonical(version, &head, lists)));
        let bytes = made.ok().flatten().unwrap_or_default();
        tally.holds(valid == has_table(&bytes, &head, lists), || {
            format!("case {number}: valid {valid}\n{}", files::show_text(&given.show()))
        });
        if valid {
            let again = given_of(&bytes).map_or(Err(0), |given| given.write(version, bytes.len()));
            same(tally, again, &bytes, &format!("case {number} again"));
        }
    }
    let _ = std::panic::take_hook();
}

/// The table of every accepted file is valid in its version and in d, and its form has the
/// same table.
fn test_files(tally: &mut Tally) {
    for number in 1..=3000 {
        let Body::File(file) = generated(generate_case, files::STORED_SEED + 1, number).body else {
            continue;
        };
        let Some(given) = given_of(&file) else {
            continue;
        };
        let own = Version::told_by(&file);
        for version in [own, Version::D] {
            let written = given.write(version, usize::MAX).unwrap_or_default();
            let told = Version::told_by(&written) == version;
            let held = given.head().is_ok_and(|head| has_table(&written, &head, &given.lists));
            tally.holds(told && held, || format!("case {number}: its form has another table"));
        }
    }
}

fn self_test() {
    let mut tally = Tally::default();
    test_forms(&mut tally);
    test_judged(&mut tally);
    test_older(&mut tally);
    test_refused(&mut tally);
    test_longer(&mut tally);
    test_alike(&mut tally);
    let by_hand = tally.made;
    test_validity(&mut tally);
    test_files(&mut tally);
    files::test_batches(&mut tally, stored_cases(), parse_batch);
    tally.tell(by_hand);
}

// ---------------------------------------------------------------------------
// The program
// ---------------------------------------------------------------------------

fn main() {
    let arguments: Vec<String> = std::env::args().skip(1).collect();
    let words: Vec<&str> = arguments.iter().map(String::as_str).collect();
    let usage = "usage: answer | answer-tables | generate SEED COUNT | case SEED NUMBER | cases\n\
         | check CRATE_DIR | self-test | count | compare SEED COUNT PROGRAM [ARGS..] | any ..\n\
         | hand [case NUMBER | compare PROGRAM [ARGS..]]";
    match words[..] {
        ["answer-tables"] => {
            let mut cases = parse_batch(&files::standard_input());
            cases.retain(|case| matches!(case.body, Body::Table(_)));
            files::print(answers(&cases).as_bytes());
        }
        ["self-test"] => self_test(),
        ["hand", ref rest @ ..] => files::obey_list("hand", &all_hand_cases(), rest, usage),
        ["any", ref rest @ ..] => {
            files::obey(rest, parse_batch, generate_any_case, stored_cases, usage);
        }
        _ => files::obey(&words, parse_batch, generate_case, stored_cases, usage),
    }
}
