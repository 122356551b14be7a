//! Dates, instants and identifiers by the documents: the questions that need no
//! file.
//!
//! It says what a date names, which date and time of day an instant is, and
//! which identifier a text of three bytes. It also makes the cases on which
//! another implementation is compared with it. It shares no code with that
//! implementation; days are counted by `files.rs`, from the same documents.
//!
//! Build: `rustc -O --edition 2021 -o BIN tests/dates.rs`
//!
//! * `BIN answer < batch`      prints the answers to a batch of cases;
//! * `BIN generate SEED COUNT` prints a batch of that many generated cases;
//! * `BIN case SEED NUMBER`    prints one of them, counted from 1;
//! * `BIN cases`               prints those worked out by hand;
//! * `BIN self-test`           compares the answers with those worked out by hand;
//! * `BIN count < batch`       counts the answers by their numbers;
//! * `BIN compare SEED COUNT PROGRAM [ARGS..]` gives generated batches to the
//!   program and compares what it prints with the answers, byte for byte.
//!
//! A batch is cases one after the other, and so are the answers:
//!
//! ```text
//! date YEAR MONTH DAY           date R MJD WEEK SECONDS
//! moment INSTANT                moment R YEAR MONTH DAY HOUR MINUTE SECONDS
//! identifier LENGTH             identifier NUMBER
//! ```
//!
//! An instant and the seconds of a time of day are in 10^-8 s, an instant since
//! MJD 0; seconds of week are whole. Directly after the LF of `identifier` stand
//! so many bytes; the answer is 7107 for `G07`, 0 for a text that names none.
//!
//! "The paper" is 01-scope.md.

#[allow(dead_code)]
#[path = "files.rs"]
mod files;

use files::lines::{self, fail, Random, Tally};
use files::{show_text, Compared, DAY, GPS_ZERO, SECOND};

/// "1980-01-06 to 2099-12-31"
const LAST_DAY: i64 = 88_068;

// ---------------------------------------------------------------------------
// Cases and their answers
// ---------------------------------------------------------------------------

#[derive(Clone, Debug)]
enum Case {
    Date([u64; 3]),
    Moment(u64),
    Identifier(Vec<u8>),
}

/// "A date (year, month, day) gives MJD, week and seconds of week, or 7."
fn date_answer(numbers: &[u64; 3]) -> String {
    let [year, month, day] = numbers.map(|number| i64::try_from(number).unwrap_or(i64::MAX));
    let date = lines::Date { year, month, day };
    if !lines::date_is_allowed(date) {
        return "date 7 0 0 0\n".to_string();
    }
    let mjd = files::modified_julian_day(date);
    let (week, day_of_week) = ((mjd - GPS_ZERO) / 7, (mjd - GPS_ZERO) % 7);
    format!("date 0 {mjd} {week} {}\n", 86_400 * day_of_week)
}

fn moment_answer(instant: u64) -> String {
    let (day, time) = (instant / DAY as u64, instant as i64 % DAY);
    if !(GPS_ZERO as u64..=LAST_DAY as u64).contains(&day) {
        return "moment 7 0 0 0 0 0 0\n".to_string();
    }
    let (year, month, day) = files::date_of(day as i64);
    let minutes = time / (60 * SECOND);
    let (hour, minute, seconds) = (minutes / 60, minutes % 60, time % (60 * SECOND));
    format!("moment 0 {year} {month} {day} {hour} {minute} {seconds}\n")
}

/// "Identifiers are a capital letter and 01 to 99."
fn identifier_answer(text: &[u8]) -> String {
    let number = match *text {
        [_, b'0', b'0'] => 0,
        [letter @ b'A'..=b'Z', tens @ b'0'..=b'9', ones @ b'0'..=b'9'] => {
            100 * u64::from(letter) + 10 * u64::from(tens - b'0') + u64::from(ones - b'0')
        }
        _ => 0,
    };
    format!("identifier {number}\n")
}

impl Compared for Case {
    const COUNTED: &'static [&'static str] = &["date", "moment"];

    fn show(&self) -> Vec<u8> {
        match self {
            Case::Date([year, month, day]) => format!("date {year} {month} {day}\n").into_bytes(),
            Case::Moment(instant) => format!("moment {instant}\n").into_bytes(),
            Case::Identifier(text) => {
                [format!("identifier {}\n", text.len()).as_bytes(), text].concat()
            }
        }
    }

    fn answer(&self) -> String {
        match self {
            Case::Date(numbers) => date_answer(numbers),
            Case::Moment(instant) => moment_answer(*instant),
            Case::Identifier(text) => identifier_answer(text),
        }
    }
}

/// The case at the front of some bytes, and the bytes after it.
fn parse_case(bytes: &[u8]) -> Option<(Case, &[u8])> {
    let length = bytes.iter().position(|&c| c == b'\n')?;
    let (line, rest) = (show_text(&bytes[..length]), &bytes[length + 1..]);
    let words: Vec<&str> = line.split(' ').collect();
    let numbers: Option<Vec<u64>> = words[1..].iter().map(|word| word.parse().ok()).collect();
    match (words[0], &numbers?[..]) {
        ("date", &[year, month, day]) => Some((Case::Date([year, month, day]), rest)),
        ("moment", &[instant]) => Some((Case::Moment(instant), rest)),
        ("identifier", &[length]) => {
            let text = rest.get(..length as usize)?;
            Some((Case::Identifier(text.to_vec()), &rest[text.len()..]))
        }
        _ => None,
    }
}

fn parse_batch(mut bytes: &[u8]) -> Vec<Case> {
    let mut cases = Vec::new();
    while !bytes.is_empty() {
        let Some((case, rest)) = parse_case(bytes) else {
            fail(&format!("case {} is no date, moment or identifier", cases.len() + 1));
        };
        cases.push(case);
        bytes = rest;
    }
    cases
}

// ---------------------------------------------------------------------------
// Generated cases
// ---------------------------------------------------------------------------

const FAR: &[u64] = &[100, 10_000, 1 << 32, (1 << 32) + 4, 1 << 63, u64::MAX - 1, u64::MAX];

/// A day of the calendar, mostly near one on which something turns; sometimes
/// with another year, month or day.
fn generate_date(random: &mut Random) -> Case {
    let (year, month, day) = files::date_of(files::choose_start(random) / DAY);
    let mut numbers = [year, month, day].map(|number| number as u64);
    match random.below(8) {
        0 => numbers[0] = 1978 + random.below(124) as u64,
        1 => numbers[1] = random.below(15) as u64,
        2 | 3 => numbers[2] = 27 + random.below(6) as u64,
        4 => numbers[2] = random.below(9) as u64,
        5 => numbers[random.below(3)] = *random.pick(FAR),
        6 => numbers[random.below(3)] += *random.pick(&[1 << 8, 1 << 16, 1 << 32, 1 << 63]),
        _ => {}
    }
    Case::Date(numbers)
}

fn generate_moment(random: &mut Random) -> Case {
    let bounds = [GPS_ZERO * DAY, (LAST_DAY + 1) * DAY, 0, DAY].map(|instant| instant as u64);
    let near = *random.pick(&[0, 1, 54, SECOND as u64, 60 * SECOND as u64, DAY as u64]);
    Case::Moment(match random.below(8) {
        0 => random.pick(&bounds).wrapping_sub(near),
        1 => random.pick(&bounds).wrapping_add(near),
        2 => random.next(),
        3 => *random.pick(FAR),
        4 => files::choose_start(random) as u64 + (1 << 63),
        _ => files::choose_start(random) as u64,
    })
}

/// A right text, mostly with one byte another, more or less.
fn generate_identifier(random: &mut Random) -> Case {
    let letter = b'A' + random.below(26) as u8;
    let mut text = format!("{}{:02}", letter as char, random.below(100)).into_bytes();
    let place = random.below(3);
    let byte = *random.pick(b"0129 :/@[aGz-+\x00\xb7\xff");
    match random.below(9) {
        0 => text[place] = byte,
        1 => text[place] = random.next() as u8,
        2 => text.insert(place, byte),
        3 => text.truncate(place),
        4 => text.make_ascii_lowercase(),
        5 => text[1..].copy_from_slice(*random.pick(&[b"00", b" 7", b"7 ", b"0x"])),
        _ => {}
    }
    Case::Identifier(text)
}

fn generate_case(random: &mut Random) -> Case {
    match random.below(3) {
        0 => generate_date(random),
        1 => generate_moment(random),
        _ => generate_identifier(random),
    }
}

// ---------------------------------------------------------------------------
// Answers worked out by hand
// ---------------------------------------------------------------------------

/// The paper's cases 1 to 5, and days at both ends of the calendar.
const DATES: &[([u64; 3], &str)] = &[
    ([2013, 4, 3], "date 0 56385 1734 259200\n"),
    ([2012, 10, 1], "date 0 56201 1708 86400\n"),
    ([1980, 1, 6], "date 0 44244 0 0\n"),
    ([2000, 2, 29], "date 0 51603 1051 172800\n"),
    ([2001, 2, 29], "date 7 0 0 0\n"),
    ([1980, 1, 5], "date 7 0 0 0\n"),
    ([1980, 1, 12], "date 0 44250 0 518400\n"),
    ([1980, 1, 13], "date 0 44251 1 0\n"),
    ([2099, 12, 31], "date 0 88068 6260 345600\n"),
    ([2100, 1, 1], "date 7 0 0 0\n"),
    ([2013, 0, 3], "date 7 0 0 0\n"),
    ([2013, 13, 3], "date 7 0 0 0\n"),
    ([2013, 4, 0], "date 7 0 0 0\n"),
    ([2013, 4, 31], "date 7 0 0 0\n"),
    ([u64::MAX, 4, 3], "date 7 0 0 0\n"),
    ([2013, 4, u64::MAX], "date 7 0 0 0\n"),
];

/// The start of the paper's file, and both ends of the calendar.
const MOMENTS: &[(u64, &str)] = &[
    (487_166_400_000_000_000, "moment 0 2013 4 3 0 0 0\n"),
    (487_166_399_999_999_999, "moment 0 2013 4 2 23 59 5999999999\n"),
    (487_166_400_100_000_054, "moment 0 2013 4 3 0 0 100000054\n"),
    (382_268_160_000_000_000, "moment 0 1980 1 6 0 0 0\n"),
    (382_268_159_999_999_999, "moment 7 0 0 0 0 0 0\n"),
    (760_916_159_999_999_999, "moment 0 2099 12 31 23 59 5999999999\n"),
    (760_916_160_000_000_000, "moment 7 0 0 0 0 0 0\n"),
    (0, "moment 7 0 0 0 0 0 0\n"),
    (u64::MAX, "moment 7 0 0 0 0 0 0\n"),
];

const IDENTIFIERS: &[(&[u8], &str)] = &[
    (b"G07", "identifier 7107\n"),
    (b"A01", "identifier 6501\n"),
    (b"Z99", "identifier 9099\n"),
    (b"G00", "identifier 0\n"),
    (b"G 7", "identifier 0\n"),
    (b"g07", "identifier 0\n"),
    (b"@07", "identifier 0\n"),
    (b"[07", "identifier 0\n"),
    (b"G0:", "identifier 0\n"),
    (b"G/1", "identifier 0\n"),
    (b"", "identifier 0\n"),
    (b"G7", "identifier 0\n"),
    (b"G070", "identifier 0\n"),
    (b"G07\n", "identifier 0\n"),
];

fn by_hand() -> Vec<(Case, &'static str)> {
    let dates = DATES.iter().map(|&(numbers, wanted)| (Case::Date(numbers), wanted));
    let moments = MOMENTS.iter().map(|&(instant, wanted)| (Case::Moment(instant), wanted));
    let texts = IDENTIFIERS.iter();
    let texts = texts.map(|&(text, wanted)| (Case::Identifier(text.to_vec()), wanted));
    dates.chain(moments).chain(texts).collect()
}

fn hand_cases() -> Vec<Case> {
    by_hand().into_iter().map(|(case, _)| case).collect()
}

/// Every day of the calendar is the one after the day before.
fn test_calendar(tally: &mut Tally) {
    for mjd in GPS_ZERO..=LAST_DAY {
        let (year, month, day) = files::date_of(mjd);
        let found = files::modified_julian_day(lines::Date { year, month, day });
        tally.holds(found == mjd, || format!("{year} {month} {day}: {found}, not {mjd}"));
    }
}

fn self_test() {
    let mut tally = Tally::default();
    for (case, wanted) in by_hand() {
        let found = case.answer();
        tally.holds(found == wanted, || format!("{case:?}: wanted {wanted}found {found}"));
    }
    let by_hand = tally.made;
    test_calendar(&mut tally);
    files::test_batches(&mut tally, hand_cases(), parse_batch);
    tally.tell(by_hand);
}

fn main() {
    let arguments: Vec<String> = std::env::args().skip(1).collect();
    let words: Vec<&str> = arguments.iter().map(String::as_str).collect();
    let usage =
        "usage: answer | generate SEED COUNT | case SEED NUMBER | cases | self-test | count\n\
         | compare SEED COUNT PROGRAM [ARGS..]";
    match words[..] {
        ["self-test"] => self_test(),
        ["any", ref rest @ ..] => files::obey(rest, parse_batch, generate_case, hand_cases, usage),
        _ => files::obey(&words, parse_batch, generate_case, hand_cases, usage),
    }
}
