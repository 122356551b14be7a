//! A divider of stretches and a walker of files, of SP3-d and SP3-c, written from
//! the documents. Where they are silent it follows the definitions: in what the
//! state of a spot between two lines is (the kind of line due, satellites and
//! epochs still to come), in what identifiers other than the file's do in a walk
//! over rows, and in what is told of the line that must come next.
//!
//! It says how a stretch of bytes divides into files, which rows a walk of one
//! file gives, where a walker stands after so many lines, which learns the
//! identifiers from the lines that it passes, and what is due there. It also makes the
//! stretches on which another implementation is compared with it. It shares no
//! code with that implementation; single files are judged by `files.rs`, from
//! the same documents.
//!
//! Build: `rustc -O --edition 2021 -o BIN tests/divide.rs`
//!
//! * `BIN answer < batch`      prints the answers to a batch of cases;
//! * `BIN generate SEED COUNT` prints a batch of that many generated cases;
//! * `BIN case SEED NUMBER`    prints a generated case, counted from 1;
//! * `BIN any ..`              the same with cases of any size (`any compare 1 9 ..`);
//! * `BIN hand`                prints the cases worked out by hand, stored and not
//!   stored; `BIN hand case NUMBER` and `BIN hand compare PROGRAM [ARGS..]` are as
//!   with the generated ones;
//! * `BIN cases`               prints the stored batch;
//! * `BIN check CRATE_DIR`     compares `CRATE_DIR/stdin` with the stored batch
//!   and `CRATE_DIR/stdout` with the answers to it;
//! * `BIN self-test`           compares the divider and the walker with answers
//!   worked out by hand;
//! * `BIN count < batch`       counts the answers by their numbers;
//! * `BIN compare SEED COUNT PROGRAM [ARGS..]` gives generated batches to the
//!   program and compares what it prints with the answers, byte for byte.
//!
//! A batch is cases one after the other. A case is a line of numbers,
//! `ROOM WALK I N LENGTH` and N identifiers, and directly after its LF the LENGTH
//! bytes of a stretch. ROOM is the room lent for lengths; WALK is 1 where the
//! bytes are walked as one file, with room for I identifiers; those N (G07 is
//! 7107) stand for the identifiers of its header in the walk over rows where it
//! is refused. WALK is 2 where they are read line by line, with room for I
//! identifiers (the program of crates/ has no such cases). Lent places hold a
//! mark before. The answer to a case:
//!
//! ```text
//! case LENGTH
//! divide R LINE COLUMN COUNT REST
//! length L                      of each file
//! kept                          every lent place past them holds the mark
//! (the rest only where WALK is 1)
//! begin R LINE COLUMN LENGTH SATELLITES EPOCHS |V|
//! identifier G07                each identifier
//! kept
//! row E S at X Y Z CLOCK        each P row; `absent` in place of `at X Y Z`
//! row E S absent CLOCK          or of CLOCK
//! end                           or  refused R line LINE column COLUMN
//! spot K AT DUE LEFT EPOCHS     after K lines, or as many as may be passed
//! then K AT DUE LEFT EPOCHS     the same after half of the lines and the others
//! due KIND ALSO INSTANT IDENTIFIER REPEATS     what must stand at the last spot
//! given KIND ALSO INSTANT IDENTIFIER REPEATS   the same with those N identifiers
//! short K AT DUE LEFT EPOCHS    after all lines, with room for I identifiers
//! due KIND ALSO INSTANT IDENTIFIER REPEATS     what must stand there
//! identifier G07                each identifier that they left there
//! kept
//! (and this only where WALK is 2)
//! line K AT DUE LEFT EPOCHS     after line K, each that is without fault
//! finished K AT                 line K ends the file; AT is the byte after it
//! stopped R line K column C     or line K is refused
//! due KIND ALSO INSTANT IDENTIFIER REPEATS     what must stand as line K
//! identifiers CODE ..           all places of the room, filled or not
//! ```
//!
//! At `spot` and `then` K is 0, 1, 3, half of the lines, all (`then` before
//! `spot`), five more, and there is room for 999 identifiers. AT is the byte,
//! DUE the record that must stand there (1 the first line to 14 `EOF` in their order),
//! LEFT how many satellites have their slot, or their rows of this epoch, still
//! to come, EPOCHS how many epochs are still to come.
//!
//! V is the letter of the version, a blank beside a refusal. A division chooses the
//! version anew at each file, a walk and a reading by lines by the first bytes.
//!
//! KIND is the record that must come next, ALSO the one that may stand before it
//! (0 for none): a comment after four (not in c), EP after P, EV after V. INSTANT is that of
//! the epoch that must come, IDENTIFIER the satellite (7107) that the row that must
//! come must name; 0 where none must, IDENTIFIER also where fewer are lent. REPEATS
//! is 1 where a `+ ` line is due and the line there, LF and all, is refused with 8
//! though its slots are right: one of its identifiers repeats another of its own, or
//! one of the lines before, as the lent list has them.
//!
//! EP and EV are lines like others: they are judged, and a row is met before the
//! note after it.
//!
//! "The paper" is 01-scope.md as requests 1 to 3, 6 and 9 of 02-change-requests.md
//! changed it, "000" is the SP3-d document.

#[allow(dead_code)]
#[path = "files.rs"]
mod files;

use files::lines::{Line, Random, Reader, Tally, Version, SYMBOLS};
use files::{generated, once_in, AS_C, AS_D, COMMENT_60, COMMENT_61};
use files::{Base, Compared, Edit, Refusal, Row, Table, BARE, MOST_SATELLITES, NOTE, NO_ROOM};

// ---------------------------------------------------------------------------
// Dividing
// ---------------------------------------------------------------------------

/// "When nothing is left .. refusal and line are both 0", and the column too.
const NOTHING_LEFT: Refusal = Refusal { number: 0, line: 0, column: 0 };

/// "the lengths of the accepted files at the front .., the byte where the rest
/// begins, and the refusal and line there, counted from that byte"; a rest that
/// is refused has its column, as every refused reading.
struct Division {
    lengths: Vec<usize>,
    rest: usize,
    refusal: Refusal,
}

fn divide(stretch: &[u8]) -> Division {
    let mut division = Division { lengths: Vec::new(), rest: 0, refusal: NOTHING_LEFT };
    while division.rest < stretch.len() {
        match files::judge_front(&stretch[division.rest..]) {
            Ok((_, length)) => {
                division.lengths.push(length);
                division.rest += length;
            }
            Err(refusal) => {
                division.refusal = refusal;
                break;
            }
        }
    }
    division
}

/// "If there are more lengths than room, it gives 12 only".
fn divide_into(stretch: &[u8], room: usize) -> Division {
    let division = divide(stretch);
    if division.lengths.len() > room {
        return Division { lengths: Vec::new(), rest: 0, refusal: NO_ROOM };
    }
    division
}

// ---------------------------------------------------------------------------
// Walking
// ---------------------------------------------------------------------------

/// A file for a walk: its table and length, the file's own refusal, or 12.
fn begin(file: &[u8], room: usize) -> Result<(Table, usize), Refusal> {
    let (table, length) = files::judge(file)?;
    if table.identifiers.len() > room {
        return Err(NO_ROOM);
    }
    Ok((table, length))
}

/// What a walk over rows meets, where these identifiers are known, in order: P rows,
/// then the refused line or EOF. Bytes after EOF are not met.
struct RowWalk {
    rows: Vec<Row>,
    refusal: Option<Refusal>,
}

fn walk_rows(bytes: &[u8], identifiers: &[u64]) -> RowWalk {
    let read = files::follow(bytes, Some(identifiers));
    let rows = read.table.rows.into_iter().filter(|row| row.letter == 'P').collect();
    RowWalk { rows, refusal: read.refusal }
}

/// A walk over lines, up to EOF or the refused one; each `+ ` line that it passes
/// leaves its identifiers in the lent list.
struct Walk<'a> {
    bytes: &'a [u8],
    read: files::Followed,
}

fn walk(bytes: &[u8], room: usize) -> Walk<'_> {
    Walk { bytes, read: files::follow_keeping(bytes, room) }
}

/// Where a walk stands between two lines.
#[derive(PartialEq, Debug)]
struct Standing {
    at: usize,
    due: usize,
    left: usize,
    epochs: usize,
}

impl Standing {
    fn show(&self, word: &str, lines: usize) -> String {
        let Standing { at, due, left, epochs } = self;
        format!("{word} {lines} {at} {due} {left} {epochs}\n")
    }
}

/// The number in some columns of a line without fault.
fn number_in(line: &[u8], first: usize, last: usize) -> usize {
    files::show_text(&line[first - 1..last]).trim().parse().unwrap_or_default()
}

/// The number of a record: 1 for the first line to 14 for `EOF`.
fn number_of(record: &str) -> usize {
    SYMBOLS.iter().position(|&symbol| symbol == record).map_or(0, |place| place + 1)
}

/// What must stand where a walk stops.
struct Due {
    kind: usize,
    also: usize,
    instant: i64,
    identifier: u64,
    repeats: bool,
}

impl Due {
    fn show(&self, word: &str) -> String {
        let Due { kind, also, instant, identifier, repeats } = self;
        format!("{word} {kind} {also} {instant} {identifier} {}\n", u8::from(*repeats))
    }
}

/// Lines without fault from the front of a file, of the version that it tells.
struct Passed<'a>(Vec<&'a [u8]>, Version);

impl Passed<'_> {
    fn of(bytes: &[u8], count: usize) -> Passed<'_> {
        let lines = bytes.split_inclusive(|&c| c == b'\n').take(count);
        let lines = lines.map(|line| &line[..line.len() - 1]).collect();
        Passed(lines, Version::told_by(bytes))
    }

    /// How many of them are this record; the first line has the version's letter.
    fn count(&self, record: &str) -> usize {
        let symbol = if record == SYMBOLS[0] { self.1.symbol() } else { record };
        self.0.iter().filter(|line| Line::padded(line).begins(symbol)).count()
    }

    /// Those after the last epoch header; none before the first.
    fn in_epoch(&self) -> Passed<'_> {
        let header = self.0.iter().rposition(|line| Line::padded(line).begins("* "));
        Passed(self.0[header.map_or(self.0.len(), |place| place + 1)..].to_vec(), self.1)
    }

    fn length(&self) -> usize {
        self.0.iter().map(|line| line.len() + 1).sum()
    }

    /// n, the number of epochs, and whether there are velocities; as far as
    /// their lines were passed.
    fn said(&self) -> (usize, usize, bool) {
        let n = self.0.get(2).map_or(0, |line| number_in(line, 4, 6));
        let epochs = self.0.first().map_or(0, |line| number_in(line, 33, 39));
        (n, epochs, self.0.first().is_some_and(|line| line[2] == b'V'))
    }

    /// Satellites of this epoch of which all rows were passed.
    fn satellites_done(&self) -> usize {
        self.in_epoch().count(if self.said().2 { "V" } else { "P" })
    }

    /// Rules 1 to 10: the first record of which there are too few.
    fn due(&self) -> &'static str {
        let (n, epochs, velocities) = self.said();
        let slots = files::satellite_lines(n);
        let needed = [1, 1, slots, slots, 2, 2, 2, 4];
        let mut header = SYMBOLS.into_iter().zip(needed);
        if let Some((record, _)) = header.find(|&(record, needed)| self.count(record) < needed) {
            return record;
        }
        let here = self.in_epoch();
        match self.count("* ") {
            0 => "* ",
            _ if velocities && here.count("P") > here.count("V") => "V",
            _ if self.satellites_done() < n => "P",
            passed if passed < epochs => "* ",
            _ => "EOF",
        }
    }

    /// "Four or more comments" ("exactly four" in c), "one EP at most", "one EV at most":
    /// the record that may stand here before the one that is due.
    fn also(&self) -> Option<&'static str> {
        let last = Line::padded(self.0.last()?);
        let more = self.1.allows_more_than_four();
        match () {
            _ if last.begins("/*") && self.count("/*") >= 4 => more.then_some("/*"),
            _ if last.begins("P") => Some("EP"),
            _ if last.begins("V") => Some("EV"),
            _ => None,
        }
    }

    /// Whether the line at the front of these bytes, where a `+ ` line is due, is
    /// refused with 8 though its columns are right: its identifiers and those before
    /// are not "all different".
    fn repeats(&self, rest: &[u8], identifiers: &[u64]) -> bool {
        let Ok(text) = files::Lines::of(self.1, rest).take() else {
            return false;
        };
        let mut reader = Reader::new(text);
        let line = match self.count("+ ") {
            0 => files::lines::read_first_satellites(&mut reader, self.1),
            _ => files::lines::read_further_satellites(&mut reader, self.left()),
        };
        let brought = identifiers.len().min(self.said().0 - self.left());
        reader.deciding.is_none() && !files::all_new(&identifiers[..brought], &line)
    }

    /// Satellites of which a slot in the lines of this kind, or a row of this
    /// epoch, is still to come.
    fn left(&self) -> usize {
        let (n, ..) = self.said();
        let (plus, double) = (self.count("+ "), self.count("++"));
        match () {
            _ if self.count("* ") > 0 => n - self.satellites_done(),
            _ if double > 0 => n.saturating_sub(17 * double),
            _ if plus == files::satellite_lines(n) => n,
            _ => n.saturating_sub(17 * plus),
        }
    }
}

impl Walk<'_> {
    /// How many lines stand before EOF or the refused one.
    fn passed(&self) -> usize {
        self.read.taken - 1
    }

    /// The identifiers that the passed lines brought.
    fn identifiers(&self) -> &[u64] {
        &self.read.table.identifiers
    }

    /// Where the walk stands after so many lines; "a line that is refused, or
    /// that ends the file" isn't passed.
    fn after(&self, lines: usize) -> Standing {
        let passed = Passed::of(self.bytes, lines.min(self.passed()));
        Standing {
            at: passed.length(),
            due: number_of(passed.due()),
            left: passed.left(),
            epochs: passed.said().1 - passed.count("* "),
        }
    }

    /// What must stand where the walk stops, where these identifiers are lent:
    /// "epoch k .. is the start plus k times the interval", rows "in header order".
    fn due(&self, identifiers: &[u64]) -> Due {
        let passed = Passed::of(self.bytes, self.passed());
        let mut due = Due {
            kind: number_of(passed.due()),
            also: passed.also().map_or(0, number_of),
            instant: 0,
            identifier: 0,
            repeats: false,
        };
        let Table { start, interval, .. } = self.read.table;
        match passed.due() {
            "* " => due.instant = start + passed.count("* ") as i64 * interval,
            "P" | "V" => {
                let here = identifiers.get(passed.satellites_done());
                due.identifier = here.copied().unwrap_or_default();
            }
            "+ " => due.repeats = passed.repeats(&self.bytes[passed.length()..], identifiers),
            _ => {}
        }
        due
    }
}

// ---------------------------------------------------------------------------
// Cases and their answers
// ---------------------------------------------------------------------------

/// What is done with the bytes beside dividing them.
#[derive(Clone, Copy, PartialEq)]
enum Way {
    Divided,
    Walked,
    Read,
}

const WAYS: [Way; 3] = [Way::Divided, Way::Walked, Way::Read];

impl Way {
    fn walked(walked: bool) -> Way {
        if walked {
            Way::Walked
        } else {
            Way::Divided
        }
    }
}

#[derive(Clone)]
struct Case {
    stretch: Vec<u8>,
    room: usize,
    way: Way,
    identifier_room: usize,
    identifiers: Vec<u64>,
}

/// The program under test has lists of these lengths.
const MOST_LENGTHS: usize = 1000;
const MOST_IDENTIFIERS: usize = 1000;

impl Compared for Case {
    const COUNTED: &'static [&'static str] = &["divide", "begin", "refused", "stopped"];

    fn show(&self) -> Vec<u8> {
        let way = WAYS.iter().position(|&way| way == self.way).unwrap_or_default();
        let front =
            [self.room, way, self.identifier_room, self.identifiers.len(), self.stretch.len()];
        let words: Vec<String> = front.iter().map(usize::to_string).collect();
        let identifiers: Vec<String> = self.identifiers.iter().map(u64::to_string).collect();
        let line = [words, identifiers].concat().join(" ") + "\n";
        [line.as_bytes(), &self.stretch].concat()
    }

    fn answer(&self) -> String {
        let mut out = format!("case {}\n", self.stretch.len());
        out += &show_division(&divide_into(&self.stretch, self.room));
        match self.way {
            Way::Divided => out,
            Way::Walked => out + &self.show_walked(),
            Way::Read => out + &show_read(&self.stretch, self.identifier_room),
        }
    }
}

fn show_division(division: &Division) -> String {
    let Division { lengths, rest, refusal } = division;
    let written: String = lengths.iter().map(|length| format!("length {length}\n")).collect();
    format!("divide {} {} {rest}\n{written}kept\n", refusal.show(), lengths.len())
}

impl Case {
    fn show_walked(&self) -> String {
        let begun = begin(&self.stretch, self.identifier_room);
        let identifiers = begun.as_ref().map_or(&self.identifiers, |(table, _)| &table.identifiers);
        self.show_begun(&begun)
            + &show_rows(&walk_rows(&self.stretch, identifiers))
            + &show_spots(&walk(&self.stretch, MOST_SATELLITES), &self.identifiers)
            + &show_short(&walk(&self.stretch, self.identifier_room))
    }

    fn show_begun(&self, begun: &Result<(Table, usize), Refusal>) -> String {
        let version = files::show_version(&self.stretch, begun.is_ok());
        match begun {
            Err(refusal) => format!("begin {} 0 0 0 {version}\nkept\n", refusal.show()),
            Ok((table, length)) => {
                let identifiers = &table.identifiers;
                let counts = format!("{} {} {version}", identifiers.len(), table.epochs);
                format!("begin 0 0 0 {length} {counts}\n{}", show_identifiers(identifiers))
            }
        }
    }
}

/// The lines of a file one by one, whose identifiers are kept in a list of so
/// many places.
fn show_read(bytes: &[u8], room: usize) -> String {
    let walk = walk(bytes, room);
    let taken = walk.read.taken;
    let mut out: String = (1..taken).map(|k| walk.after(k).show("line", k)).collect();
    out += &match walk.read.refusal {
        None => format!("finished {taken} {}\n", walk.read.place),
        Some(refusal) => show_refused("stopped", &refusal),
    };
    out += &walk.due(walk.identifiers()).show("due");
    let mut identifiers = vec![7777; room];
    identifiers[..walk.identifiers().len()].copy_from_slice(walk.identifiers());
    let shown: String = identifiers.iter().map(|number| format!(" {number}")).collect();
    out + &format!("identifiers{shown}\n")
}

fn show_refused(word: &str, refusal: &Refusal) -> String {
    let Refusal { number, line, column } = refusal;
    format!("{word} {number} line {line} column {column}\n")
}

/// Identifiers that were left in a list; its other places are as they were.
fn show_identifiers(identifiers: &[u64]) -> String {
    let shown =
        identifiers.iter().map(|&number| format!("identifier {}\n", files::show_code(number)));
    shown.collect::<String>() + "kept\n"
}

fn show_row(row: &Row) -> String {
    let place = files::show_place(row);
    let word = if row.place_is_absent() { "" } else { "at " };
    format!("row {} {} {word}{place} {}\n", row.epoch, row.satellite, files::show_clock(row))
}

fn show_rows(walk: &RowWalk) -> String {
    let rows: String = walk.rows.iter().map(show_row).collect();
    rows + &match walk.refusal {
        None => "end\n".to_string(),
        Some(refusal) => show_refused("refused", &refusal),
    }
}

fn count_lines(bytes: &[u8]) -> usize {
    bytes.iter().filter(|&&c| c == b'\n').count()
}

fn show_short(walk: &Walk) -> String {
    let all = count_lines(walk.bytes);
    walk.after(all).show("short", all)
        + &walk.due(walk.identifiers()).show("due")
        + &show_identifiers(walk.identifiers())
}

fn show_spots(walk: &Walk, given: &[u64]) -> String {
    let mut out = String::new();
    let all = count_lines(walk.bytes);
    for lines in [0, 1, 3, all / 2] {
        out += &walk.after(lines).show("spot", lines);
    }
    out += &walk.after(all).show("then", all);
    for lines in [all, all + 5] {
        out += &walk.after(lines).show("spot", lines);
    }
    out + &walk.due(walk.identifiers()).show("due") + &walk.due(given).show("given")
}

fn parse_batch(bytes: &[u8]) -> Vec<Case> {
    let length_of = |numbers: &[usize]| match *numbers {
        [_, way, _, identifiers, length, ref rest @ ..] if way < 3 && rest.len() == identifiers => {
            Some(length)
        }
        _ => None,
    };
    files::parse_cases(bytes, length_of, |numbers, stretch| Case {
        stretch,
        room: numbers[0],
        way: WAYS[numbers[1]],
        identifier_room: numbers[2],
        identifiers: numbers[5..].iter().map(|&number| number as u64).collect(),
    })
}

// ---------------------------------------------------------------------------
// Stretches made by hand
// ---------------------------------------------------------------------------

/// A part of a stretch: a file, perhaps altered, or bytes.
#[derive(Clone, Copy, Debug)]
enum Part {
    File(Base, &'static [Edit]),
    Bytes(&'static [u8]),
    Many(u8, usize),
}

use Base::{Clocks, Many as ManyFile, ManyBackwards, ManyOverLetters, Motion, MovingClocks};
use Base::{MovingMany, MovingNotes, MovingRows, Night, Notes, Nothing, Paper};
use Edit::{
    After, AfterItself, Byte, CarriageReturns, Drop, Insert, Join, Keep, Line as Whole, Put, Swap,
};
use Part::{Bytes, File, Many};

fn joined(parts: &[Part]) -> Vec<u8> {
    let bytes = |part: &Part| match *part {
        File(base, edits) => files::hand_made(base, edits),
        Bytes(bytes) => bytes.to_vec(),
        Many(byte, count) => vec![byte; count],
    };
    parts.iter().flat_map(bytes).collect()
}

/// 1,215 bytes and 25 lines; 1,636 and 32; 1,605 and 30.
const P: Part = File(Paper, &[]);
const N: Part = File(Night, &[]);
const M: Part = File(Motion, &[]);
/// Refused with 5 at line 24, column 61.
const X: Part = File(Paper, &[Put(24, 61, "x")]);

/// The paper's row with its clock cut after the point; its file has 1,209 bytes.
const CUT_ROW: &str = "PG07   5000.000001     -0.500000      0.000000 999999.";
const C: Part = File(Paper, &[Whole(24, CUT_ROW)]);

/// The same of version c, and one of each refused by its rules and accepted by those of d: a
/// comment line of 61 characters (its file in d has 1,266 bytes), five comments (1,218).
const PC: Part = File(Paper, &[AS_C]);
const NC: Part = File(Night, &[AS_C]);
const MC: Part = File(Motion, &[AS_C]);
const XC: Part = File(Paper, &[AS_C, Put(24, 61, "x")]);
const LONG: Part = File(Paper, &[Whole(19, COMMENT_61)]);
const LONG_C: Part = File(Paper, &[AS_C, Whole(19, COMMENT_61)]);
const FIVE: Part = File(Paper, &[Insert(23, "/*")]);
const FIVE_C: Part = File(Paper, &[AS_C, Insert(23, "/*")]);

/// Parts and room; refusal, line, column, number of files, where the rest begins;
/// lengths.
type Divided = (&'static [Part], usize, [usize; 5], &'static [usize]);

const DIVIDED: &[Divided] = &[
    // "When nothing is left, as with an empty stretch".
    (&[], 0, [0, 0, 0, 0, 0], &[]),
    (&[], 3, [0, 0, 0, 0, 0], &[]),
    // One to five files, of both modes.
    (&[P], 1, [0, 0, 0, 1, 1215], &[1215]),
    (&[N], 1, [0, 0, 0, 1, 1636], &[1636]),
    (&[M], 1, [0, 0, 0, 1, 1605], &[1605]),
    (&[P, P], 2, [0, 0, 0, 2, 2430], &[1215, 1215]),
    (&[P, N], 2, [0, 0, 0, 2, 2851], &[1215, 1636]),
    (&[N, P], 2, [0, 0, 0, 2, 2851], &[1636, 1215]),
    (&[M, M], 2, [0, 0, 0, 2, 3210], &[1605, 1605]),
    (&[P, N, M], 3, [0, 0, 0, 3, 4456], &[1215, 1636, 1605]),
    (&[M, P, N, M], 4, [0, 0, 0, 4, 6061], &[1605, 1215, 1636, 1605]),
    (&[P, N, M, P, N], 5, [0, 0, 0, 5, 7307], &[1215, 1636, 1605, 1215, 1636]),
    // Room: short by one, none, more than needed.
    (&[P, N, M, P, N], 4, [12, 0, 0, 0, 0], &[]),
    (&[P, N, M, P, N], 0, [12, 0, 0, 0, 0], &[]),
    (&[P, N, M, P, N], 6, [0, 0, 0, 5, 7307], &[1215, 1636, 1605, 1215, 1636]),
    (&[P, N, M, P, N], 1000, [0, 0, 0, 5, 7307], &[1215, 1636, 1605, 1215, 1636]),
    (&[P], 0, [12, 0, 0, 0, 0], &[]),
    (&[P], 2, [0, 0, 0, 1, 1215], &[1215]),
    (&[P, P], 1, [12, 0, 0, 0, 0], &[]),
    (&[N, M], 1, [12, 0, 0, 0, 0], &[]),
    // 12 though the rest is refused; the rest itself needs no room.
    (&[P, P, X], 1, [12, 0, 0, 0, 0], &[]),
    (&[P, P, X], 2, [5, 24, 61, 2, 2430], &[1215, 1215]),
    (&[P, X], 0, [12, 0, 0, 0, 0], &[]),
    (&[X], 0, [5, 24, 61, 0, 0], &[]),
    (&[X, P], 0, [5, 24, 61, 0, 0], &[]),
    (&[Bytes(b"x")], 0, [1, 1, 0, 0, 0], &[]),
    // A line of 80 characters.
    (&[File(Paper, &[Put(24, 80, " ")]), P], 2, [0, 0, 0, 2, 2450], &[1235, 1215]),
    // Rows that end after the point of a clock: their own lengths.
    (&[C], 1, [0, 0, 0, 1, 1209], &[1209]),
    (&[C, P, C], 3, [0, 0, 0, 3, 3633], &[1209, 1215, 1209]),
    (&[C, C], 1, [12, 0, 0, 0, 0], &[]),
    (
        &[
            P,
            File(Motion, &[Whole(29, "VG02      0.000000      0.000000      0.000000 999999.")]),
            P,
        ],
        3,
        [0, 0, 0, 3, 4029],
        &[1215, 1599, 1215],
    ),
    (&[C, File(Paper, &[Put(24, 47, "-999999.      ")]), C], 3, [6, 24, 47, 1, 1209], &[1209]),
    (&[C, File(Motion, &[Put(26, 47, " 999999.     0")]), C], 3, [6, 26, 47, 1, 1209], &[1209]),
    (&[C, File(Paper, &[Put(24, 47, " 999999.      0")])], 2, [5, 24, 61, 1, 1209], &[1209]),
    // EP and EV, and files without: their own lengths.
    (&[File(Motion, &[Drop(27), Drop(25)]), P], 2, [0, 0, 0, 2, 2658], &[1443, 1215]),
    (&[File(Motion, &[Drop(25)])], 1, [0, 0, 0, 1, 1524], &[1524]),
    (&[File(Paper, &[Insert(25, "EP")]), M], 2, [0, 0, 0, 2, 2823], &[1218, 1605]),
    (&[File(Motion, &[Insert(30, "EV")]), P], 2, [0, 0, 0, 2, 2823], &[1608, 1215]),
    (&[P, File(Paper, &[Insert(25, "EV")])], 2, [4, 25, 0, 1, 1215], &[1215]),
    (&[File(Paper, &[NOTE]), P], 2, [0, 0, 0, 2, 2511], &[1296, 1215]),
    (&[P, File(Paper, &[BARE, Put(25, 5, "0055")])], 2, [0, 0, 0, 2, 2439], &[1215, 1224]),
    // Their columns: 5, 6, 7 in the second file.
    (&[P, File(Paper, &[Insert(25, "EPx")])], 2, [5, 25, 3, 1, 1215], &[1215]),
    (&[P, File(Paper, &[NOTE, Put(25, 72, "x")]), P], 3, [5, 25, 72, 1, 1215], &[1215]),
    (&[P, File(Paper, &[BARE, Put(25, 5, "55  ")])], 2, [6, 25, 5, 1, 1215], &[1215]),
    (&[P, File(Motion, &[Put(27, 80, "x")]), P], 3, [6, 27, 73, 1, 1215], &[1215]),
    (&[P, File(Motion, &[Put(27, 28, "10000000")]), P], 3, [7, 27, 28, 1, 1215], &[1215]),
    (&[P, File(Paper, &[NOTE, Byte(25, 9, 9)])], 2, [2, 25, 9, 1, 1215], &[1215]),
    (&[P, File(Paper, &[NOTE, Put(25, 81, " ")])], 2, [3, 25, 81, 1, 1215], &[1215]),
    (&[P, File(Paper, &[NOTE, BARE])], 2, [4, 26, 0, 1, 1215], &[1215]),
    // A note is no file's beginning.
    (&[P, Bytes(b"EP\n")], 2, [4, 1, 0, 1, 1215], &[1215]),
    (&[P, Bytes(b"EPx\n"), P], 2, [4, 1, 0, 1, 1215], &[1215]),
    // Rests that are no file: half of one, one byte, a lone LF, EOF.
    (&[P, File(Night, &[Keep(16)])], 2, [1, 17, 0, 1, 1215], &[1215]),
    (&[P, File(Paper, &[Keep(24), After(b"EO")])], 2, [1, 25, 0, 1, 1215], &[1215]),
    (&[P, File(Motion, &[Keep(25), After(b"VG01")])], 2, [1, 26, 0, 1, 1215], &[1215]),
    (&[File(Paper, &[Keep(24)])], 2, [1, 25, 0, 0, 0], &[]),
    (&[P, Bytes(b"x")], 2, [1, 1, 0, 1, 1215], &[1215]),
    (&[P, Bytes(b"#")], 2, [1, 1, 0, 1, 1215], &[1215]),
    (&[P, Bytes(b"\x00")], 1, [1, 1, 0, 1, 1215], &[1215]),
    (&[P, Bytes(b"\n")], 2, [4, 1, 0, 1, 1215], &[1215]),
    (&[P, N, Bytes(b"\n\n\n")], 2, [4, 1, 0, 2, 2851], &[1215, 1636]),
    (&[P, Bytes(b"EOF")], 2, [1, 1, 0, 1, 1215], &[1215]),
    (&[P, Bytes(b"EOF\n")], 2, [4, 1, 0, 1, 1215], &[1215]),
    (&[Bytes(b"\n"), P], 2, [4, 1, 0, 0, 0], &[]),
    (&[P, Bytes(b" "), P], 2, [4, 1, 0, 1, 1215], &[1215]),
    (&[P, Bytes(b"\n"), P], 2, [4, 1, 0, 1, 1215], &[1215]),
    (&[P, Bytes(b"EP\n"), P], 2, [4, 1, 0, 1, 1215], &[1215]),
    (&[P, Bytes(b"#dP\n")], 1, [6, 1, 4, 1, 1215], &[1215]),
    (&[P, Bytes(b"#cP\n")], 1, [6, 1, 4, 1, 1215], &[1215]),
    (&[P, Bytes(b"#aP\n")], 1, [4, 1, 0, 1, 1215], &[1215]),
    // A last LF that is missing: of the last file, of one before another.
    (&[File(Paper, &[Join(25)])], 1, [1, 25, 0, 0, 0], &[]),
    (&[N, File(Paper, &[Join(25)])], 2, [1, 25, 0, 1, 1636], &[1636]),
    (&[File(Paper, &[Join(25)]), P], 2, [5, 25, 4, 0, 0], &[]),
    (&[M, File(Night, &[Join(32)]), P], 3, [5, 32, 4, 1, 1605], &[1605]),
    // Garbage.
    (&[P, Many(0xff, 300)], 2, [1, 1, 0, 1, 1215], &[1215]),
    (&[P, Many(0xff, 300), Bytes(b"\n")], 2, [2, 1, 1, 1, 1215], &[1215]),
    (&[P, Bytes(b"\x00\n")], 2, [2, 1, 1, 1, 1215], &[1215]),
    (&[Bytes(b"xyz\n"), P], 2, [4, 1, 0, 0, 0], &[]),
    (&[N, Many(b' ', 80), Bytes(b"\n")], 1, [4, 1, 0, 1, 1636], &[1636]),
    (&[N, Many(b' ', 81), Bytes(b"\n")], 1, [3, 1, 81, 1, 1636], &[1636]),
    (&[N, Many(b'x', 5000)], 1, [1, 1, 0, 1, 1636], &[1636]),
    (&[P, File(Paper, &[CarriageReturns])], 2, [2, 1, 61, 1, 1215], &[1215]),
    // A second file refused with 1 to 10: the line counted from its first byte.
    (&[N, File(Paper, &[Drop(25)])], 2, [1, 25, 0, 1, 1636], &[1636]),
    (&[N, File(Paper, &[Byte(24, 40, 0x80)])], 2, [2, 24, 40, 1, 1636], &[1636]),
    (&[N, File(Paper, &[Put(24, 81, " ")])], 2, [3, 24, 81, 1, 1636], &[1636]),
    (&[N, File(Paper, &[Drop(1)])], 2, [4, 1, 0, 1, 1636], &[1636]),
    (&[N, File(Paper, &[Drop(22)])], 2, [4, 22, 0, 1, 1636], &[1636]),
    (&[N, X], 2, [5, 24, 61, 1, 1636], &[1636]),
    (&[N, File(Paper, &[Put(3, 10, "G 7")])], 2, [6, 3, 10, 1, 1636], &[1636]),
    (&[N, File(Paper, &[Put(24, 5, "1000000.000000")])], 2, [7, 24, 5, 1, 1636], &[1636]),
    (&[N, File(Paper, &[Put(3, 4, "000")])], 2, [7, 3, 4, 1, 1636], &[1636]),
    (&[N, File(ManyFile(256), &[Drop(18), Keep(40)])], 2, [4, 18, 0, 1, 1636], &[1636]),
    (&[N, File(Paper, &[Put(2, 4, "1735")])], 2, [8, 2, 0, 1, 1636], &[1636]),
    (&[P, File(Night, &[Put(26, 18, "15")])], 2, [9, 26, 0, 1, 1215], &[1215]),
    (&[P, File(Night, &[Swap(24, 25)])], 2, [10, 24, 0, 1, 1215], &[1215]),
    // The column of the rest: the leftmost of the lowest number, also far out.
    (&[N, File(Paper, &[Put(24, 5, "  5000.0000001")]), P], 3, [6, 24, 5, 1, 1636], &[1636]),
    (
        &[P, File(Paper, &[Put(24, 300, " "), Byte(24, 200, 127)])],
        2,
        [2, 24, 200, 1, 1215],
        &[1215],
    ),
    (&[P, Many(b'x', 200), Bytes(b"\xff\n")], 2, [2, 1, 201, 1, 1215], &[1215]),
    (&[P, File(Paper, &[Put(24, 300, " ")])], 2, [3, 24, 81, 1, 1215], &[1215]),
    (&[P, File(Paper, &[Put(1, 4, "201x"), Put(1, 8, "x")])], 2, [5, 1, 8, 1, 1215], &[1215]),
    (&[P, File(Paper, &[Put(24, 61, "x"), Put(24, 70, "x")])], 2, [5, 24, 61, 1, 1215], &[1215]),
    (&[P, Bytes(b"#d\n")], 1, [6, 1, 3, 1, 1215], &[1215]),
    (&[P, File(Paper, &[Put(23, 9, "13"), Put(23, 15, "2x")])], 2, [6, 23, 15, 1, 1215], &[1215]),
    (&[P, File(Paper, &[Whole(24, "PG07")]), P], 3, [6, 24, 5, 1, 1215], &[1215]),
    (&[P, File(Paper, &[Put(23, 9, "13"), Put(23, 15, "24")])], 2, [7, 23, 4, 1, 1215], &[1215]),
    // The middle one of three or four damaged, at each kind of line: the files
    // after it don't count.
    (&[P, File(Motion, &[Put(1, 61, "x")]), P], 3, [5, 1, 61, 1, 1215], &[1215]),
    (&[P, File(Motion, &[Put(2, 3, "x")]), P], 3, [5, 2, 3, 1, 1215], &[1215]),
    (&[P, File(Motion, &[Put(3, 9, "x")]), P], 3, [5, 3, 9, 1, 1215], &[1215]),
    (&[P, File(Motion, &[Put(4, 6, "0")]), P], 3, [5, 4, 6, 1, 1215], &[1215]),
    (&[P, File(Motion, &[Put(8, 3, "0")]), P], 3, [5, 8, 3, 1, 1215], &[1215]),
    (&[P, File(Motion, &[Put(12, 58, "  7")]), P], 3, [8, 12, 0, 1, 1215], &[1215]),
    (&[P, File(Motion, &[Put(13, 4, "R ")]), P], 3, [8, 13, 0, 1, 1215], &[1215]),
    (&[P, File(Motion, &[Put(14, 4, "G ")]), P], 3, [5, 14, 4, 1, 1215], &[1215]),
    (&[P, File(Motion, &[Put(15, 4, "-1.2500000")]), P], 3, [6, 15, 4, 1, 1215], &[1215]),
    (&[P, File(Motion, &[Put(16, 4, " 1.2500000")]), P], 3, [5, 16, 4, 1, 1215], &[1215]),
    (&[P, File(Motion, &[Put(17, 4, "   1")]), P], 3, [5, 17, 4, 1, 1215], &[1215]),
    (&[P, File(Motion, &[Put(18, 2, "I")]), P], 3, [4, 18, 0, 1, 1215], &[1215]),
    (&[P, File(Motion, &[Put(19, 3, "x")]), P], 3, [5, 19, 3, 1, 1215], &[1215]),
    (&[P, File(Motion, &[Put(23, 32, "x")]), P], 3, [5, 23, 32, 1, 1215], &[1215]),
    (&[P, File(Motion, &[Put(24, 2, "G02")]), P], 3, [10, 24, 0, 1, 1215], &[1215]),
    (&[P, File(Motion, &[Byte(25, 60, 200)]), P], 3, [2, 25, 60, 1, 1215], &[1215]),
    (&[P, File(Motion, &[Put(26, 75, "E")]), P], 3, [5, 26, 75, 1, 1215], &[1215]),
    (&[P, File(Motion, &[Put(27, 81, " ")]), P], 3, [3, 27, 81, 1, 1215], &[1215]),
    (&[P, File(Motion, &[Drop(29)]), P], 3, [4, 29, 0, 1, 1215], &[1215]),
    (&[P, N, File(Motion, &[Put(30, 4, "X")]), P], 4, [5, 30, 4, 2, 2851], &[1215, 1636]),
    (&[P, N, X, M], 4, [5, 24, 61, 2, 2851], &[1215, 1636]),
    (&[X, P, N, M], 4, [5, 24, 61, 0, 0], &[]),
    // "an epoch too many": a file's rows once more, and then EOF.
    (&[P, File(Paper, &[Insert(25, "*")]), P], 3, [4, 25, 0, 1, 1215], &[1215]),
    // The EOF line twice, or with blanks after it.
    (&[P, Bytes(b"EOF   \n"), P], 3, [4, 1, 0, 1, 1215], &[1215]),
    (&[File(Paper, &[Whole(25, "EOF   ")]), P], 2, [0, 0, 0, 2, 2433], &[1218, 1215]),
    // 255 satellites, of 17,929 bytes.
    (&[File(ManyFile(255), &[]), P], 2, [0, 0, 0, 2, 19144], &[17929, 1215]),
    (&[P, File(ManyFile(255), &[Join(299)])], 2, [1, 299, 0, 1, 1215], &[1215]),
];

/// Request 9: "demand 3 then reads accepted files of both versions mixed". The version is
/// chosen anew at each file's first byte.
const MIXED: &[Divided] = &[
    (&[PC], 1, [0, 0, 0, 1, 1215], &[1215]),
    (&[PC, PC], 2, [0, 0, 0, 2, 2430], &[1215, 1215]),
    (&[PC, P], 2, [0, 0, 0, 2, 2430], &[1215, 1215]),
    (&[P, PC], 2, [0, 0, 0, 2, 2430], &[1215, 1215]),
    (&[PC, N, MC], 3, [0, 0, 0, 3, 4456], &[1215, 1636, 1605]),
    (&[P, NC, M], 3, [0, 0, 0, 3, 4456], &[1215, 1636, 1605]),
    (&[PC, N, MC], 2, [12, 0, 0, 0, 0], &[]),
    (&[P, NC, M, PC, N], 5, [0, 0, 0, 5, 7307], &[1215, 1636, 1605, 1215, 1636]),
    // A damaged file of the other version; the files after it don't count.
    (&[PC, X], 2, [5, 24, 61, 1, 1215], &[1215]),
    (&[P, XC], 2, [5, 24, 61, 1, 1215], &[1215]),
    (&[NC, X, PC], 3, [5, 24, 61, 1, 1636], &[1636]),
    (&[PC, File(Paper, &[Join(25)])], 2, [1, 25, 0, 1, 1215], &[1215]),
    (&[PC, File(Paper, &[AS_C, Join(25)]), P], 3, [5, 25, 4, 1, 1215], &[1215]),
    // What only d allows: after a file of either version, and before one.
    (&[PC, LONG, PC], 3, [0, 0, 0, 3, 3696], &[1215, 1266, 1215]),
    (&[LONG, PC], 2, [0, 0, 0, 2, 2481], &[1266, 1215]),
    (&[P, LONG_C, P], 3, [3, 19, 61, 1, 1215], &[1215]),
    (&[LONG, LONG_C], 2, [3, 19, 61, 1, 1266], &[1266]),
    (&[LONG_C, P], 2, [3, 19, 61, 0, 0], &[]),
    (&[PC, FIVE, PC], 3, [0, 0, 0, 3, 3648], &[1215, 1218, 1215]),
    (&[P, FIVE_C, P], 3, [4, 23, 0, 1, 1215], &[1215]),
    (&[FIVE, FIVE_C, PC], 3, [4, 23, 0, 1, 1218], &[1218]),
    (&[PC, File(ManyFile(86), &[])], 2, [0, 0, 0, 2, 7737], &[1215, 6522]),
    (&[File(ManyFile(86), &[]), PC], 2, [0, 0, 0, 2, 7737], &[6522, 1215]),
    (&[P, File(ManyFile(85), &[AS_C]), P], 3, [0, 0, 0, 3, 8769], &[1215, 6339, 1215]),
    (&[P, File(ManyFile(86), &[AS_C, Keep(12)])], 2, [7, 3, 4, 1, 1215], &[1215]),
    // Rests: the first bytes of a file of c, `#C`, `#a`, `##`; a comment of 61 is no c file.
    (&[PC, Bytes(b"#c")], 2, [1, 1, 0, 1, 1215], &[1215]),
    (&[PC, Bytes(b"#c\n")], 2, [6, 1, 3, 1, 1215], &[1215]),
    (&[PC, Bytes(b"#C\n")], 2, [4, 1, 0, 1, 1215], &[1215]),
    (&[PC, Bytes(b"##\n"), PC], 2, [4, 1, 0, 1, 1215], &[1215]),
    (&[PC, Bytes(b"/*"), Many(b' ', 59), Bytes(b"\n")], 2, [4, 1, 0, 1, 1215], &[1215]),
    (&[PC, Bytes(b"\n"), PC], 2, [4, 1, 0, 1, 1215], &[1215]),
];

/// Files of more than 255 satellites; these aren't stored. One of 256 has 18,112 bytes,
/// one of 999 has 68,681, its `+ ` lines being 3 to 61, its rows 132 to 1130.
const MANY_DIVIDED: &[Divided] = &[
    (&[P, File(ManyFile(999), &[]), N], 3, [0, 0, 0, 3, 71_532], &[1215, 68_681, 1636]),
    (&[File(ManyFile(256), &[]), P], 2, [0, 0, 0, 2, 19_327], &[18_112, 1215]),
    (&[File(ManyFile(999), &[]), File(ManyFile(256), &[])], 1, [12, 0, 0, 0, 0], &[]),
    (&[P, File(ManyFile(999), &[Join(1131)])], 2, [1, 1131, 0, 1, 1215], &[1215]),
    (&[P, File(ManyFile(999), &[Insert(62, "+")]), P], 3, [4, 62, 0, 1, 1215], &[1215]),
    (&[P, File(ManyFile(999), &[Put(3, 4, "1000")]), P], 3, [5, 3, 7, 1, 1215], &[1215]),
    (&[P, File(ManyFile(998), &[Put(3, 4, "999")]), P], 3, [6, 61, 46, 1, 1215], &[1215]),
    (&[P, File(ManyFile(999), &[Put(61, 46, "G01")]), P], 3, [8, 61, 0, 1, 1215], &[1215]),
    (&[P, File(ManyFile(999), &[Put(61, 49, "Z10")]), P], 3, [8, 61, 0, 1, 1215], &[1215]),
    (
        &[File(ManyFile(999), &[]), File(ManyFile(999), &[Put(1130, 2, "G01")])],
        2,
        [10, 1130, 0, 1, 68_681],
        &[68_681],
    ),
    (
        &[
            File(MovingMany(999), &[]),
            File(ManyBackwards(999), &[]),
            File(ManyOverLetters(999), &[]),
            P,
        ],
        4,
        [0, 0, 0, 4, 268_197],
        &[129_620, 68_681, 68_681, 1215],
    ),
];

/// A file, room for identifiers, identifiers that stand for them where it is refused;
/// lines of the answer in their order.
type Walked = (Base, &'static [Edit], usize, &'static [u64], &'static [&'static str]);

/// A clock of the paper's file that is malformed, and a rate of `motion`.
const SIX_IN_P: &[&str] =
    &["begin 6 24 47 0 0 0 | |", "kept", "refused 6 line 24 column 47", "spot 25 1150 10 1 0"];
const SIX_IN_V: &[&str] = &[
    "begin 6 26 47 0 0 0 | |",
    "row 0 0 at -11044805800 -10475672350 21929418200 189163300",
    "refused 6 line 26 column 47",
    "spot 30 1305 11 2 0",
];

/// Files of version c. What is due after their four comments is the epoch alone.
const OLDER_WALKED: &[Walked] = &[
    (
        Paper,
        &[AS_C],
        1,
        &[],
        &[
            "begin 0 0 0 1215 1 1 |c|",
            "identifier G07",
            "kept",
            "row 0 0 at 5000000001 -500000 0 absent",
            "end",
            "spot 0 0 1 0 0",
            "spot 1 61 2 0 1",
            "spot 3 183 3 0 1",
            "spot 12 732 5 0 1",
            "then 25 1211 14 0 0",
            "spot 25 1211 14 0 0",
            "spot 30 1211 14 0 0",
            "due 14 12 0 0 0",
            "short 25 1211 14 0 0",
        ],
    ),
    (
        Motion,
        &[AS_C],
        2,
        &[],
        &[
            "begin 0 0 0 1605 2 1 |c|",
            "row 0 0 at -11044805800 -10475672350 21929418200 189163300",
            "row 0 1 at -12593593500 10170327650 -20354534400 -55976000",
            "end",
        ],
    ),
    // A fifth comment: refused there, and none may stand there; in d an epoch may be wrong.
    (
        Paper,
        &[AS_C, Insert(23, "/*")],
        1,
        &[7107],
        &[
            "begin 4 23 0 0 0 0 | |",
            "kept",
            "refused 4 line 23 column 0",
            "spot 26 1118 9 0 1",
            "due 9 0 487166400000000000 0 0",
            "given 9 0 487166400000000000 0 0",
        ],
    ),
    (
        Paper,
        &[Insert(23, "EP")],
        1,
        &[7107],
        &["begin 4 23 0 0 0 0 | |", "spot 26 1118 9 0 1", "due 9 8 487166400000000000 0 0"],
    ),
    (
        Paper,
        &[AS_C, Insert(23, "EP")],
        1,
        &[7107],
        &["begin 4 23 0 0 0 0 | |", "spot 26 1118 9 0 1", "due 9 0 487166400000000000 0 0"],
    ),
    // A `/*` line of 61 characters, in its place and out of it.
    (
        Paper,
        &[AS_C, Whole(19, COMMENT_61)],
        1,
        &[7107],
        &["begin 3 19 61 0 0 0 | |", "refused 3 line 19 column 61", "spot 25 1098 8 0 1"],
    ),
    (
        Paper,
        &[AS_C, Insert(24, COMMENT_61)],
        1,
        &[7107],
        &["begin 3 24 61 0 0 0 | |", "refused 3 line 24 column 61", "spot 26 1150 10 1 0"],
    ),
    (
        Paper,
        &[AS_C, Whole(22, COMMENT_60)],
        1,
        &[],
        &["begin 0 0 0 1273 1 1 |c|", "end", "spot 25 1269 14 0 0"],
    ),
    // 85 satellites; 86, whose first `+ ` line is refused.
    (
        ManyFile(85),
        &[AS_C],
        85,
        &[],
        &["begin 0 0 0 6339 85 1 |c|", "identifier G85", "row 0 84 at 84000001 -500000 0 1000000"],
    ),
    (
        ManyFile(86),
        &[AS_C],
        86,
        &[7101],
        &["begin 7 3 4 0 0 0 | |", "refused 7 line 3 column 4", "spot 3 122 3 0 1"],
    ),
    (
        ManyFile(20),
        &[AS_C, Put(4, 10, "G17")],
        20,
        &[],
        &["begin 8 4 0 0 0 0 | |", "due 3 0 0 0 1", "given 3 0 0 0 0"],
    ),
    // A file of the other version after it isn't met.
    (
        Paper,
        &[AfterItself, AS_C],
        1,
        &[7107],
        &["begin 11 26 0 0 0 0 | |", "row 0 0 at 5000000001 -500000 0 absent", "end"],
    ),
    (
        Paper,
        &[AS_C, AfterItself, AS_D],
        1,
        &[7107],
        &["begin 11 26 0 0 0 0 | |", "row 0 0 at 5000000001 -500000 0 absent", "end"],
    ),
];

const WALKED: &[Walked] = &[
    (
        Paper,
        &[],
        1,
        &[],
        &[
            "begin 0 0 0 1215 1 1 |d|",
            "identifier G07",
            "kept",
            "row 0 0 at 5000000001 -500000 0 absent",
            "end",
            "spot 0 0 1 0 0",
            "spot 1 61 2 0 1",
            "spot 3 183 3 0 1",
            "spot 12 732 5 0 1",
            "then 25 1211 14 0 0",
            "spot 25 1211 14 0 0",
            "spot 30 1211 14 0 0",
            "short 25 1211 14 0 0",
            "identifier G07",
            "kept",
        ],
    ),
    (
        Night,
        &[],
        9,
        &[],
        &[
            "begin 0 0 0 1636 2 3 |d|",
            "identifier G07",
            "identifier R24",
            "kept",
            "row 0 0 at 15000000000 -20000500000 0 123456789",
            "row 0 1 absent absent",
            "row 1 0 absent -1",
            "row 1 1 at 0 0 1 absent",
            "row 2 0 at -500000 0 0 absent",
            "row 2 1 at 999999999999 -999999999999 999999999999 -999999999999",
            "end",
            "spot 3 183 3 0 3",
            "spot 16 976 7 0 3",
            "spot 32 1632 14 0 0",
        ],
    ),
    // Mode V: the P rows alone, past EP, V and EV.
    (
        Motion,
        &[],
        2,
        &[],
        &[
            "begin 0 0 0 1605 2 1 |d|",
            "identifier G01",
            "identifier G02",
            "kept",
            "row 0 0 at -11044805800 -10475672350 21929418200 189163300",
            "row 0 1 at -12593593500 10170327650 -20354534400 -55976000",
            "end",
            "spot 15 915 6 0 1",
            "then 30 1601 14 0 0",
        ],
    ),
    (
        Motion,
        &[Drop(27), Drop(25)],
        3,
        &[],
        &[
            "begin 0 0 0 1443 2 1 |d|",
            "row 0 0 at -11044805800 -10475672350 21929418200 189163300",
            "row 0 1 at -12593593500 10170327650 -20354534400 -55976000",
            "end",
        ],
    ),
    // Notes change no row; a note that is refused stands after its row.
    (
        Paper,
        &[NOTE],
        1,
        &[],
        &[
            "begin 0 0 0 1296 1 1 |d|",
            "row 0 0 at 5000000001 -500000 0 absent",
            "end",
            "then 26 1292 14 0 0",
            "spot 26 1292 14 0 0",
        ],
    ),
    (
        Paper,
        &[Insert(25, "EPx")],
        1,
        &[7107],
        &[
            "begin 5 25 3 0 0 0 | |",
            "kept",
            "row 0 0 at 5000000001 -500000 0 absent",
            "refused 5 line 25 column 3",
            "then 26 1211 14 0 0",
            "short 26 1211 14 0 0",
        ],
    ),
    (
        Paper,
        &[NOTE, Put(25, 28, "99999999"), Put(25, 73, "1234567 ")],
        1,
        &[7107],
        &[
            "begin 6 25 73 0 0 0 | |",
            "row 0 0 at 5000000001 -500000 0 absent",
            "refused 6 line 25 column 73",
        ],
    ),
    (
        Motion,
        &[Put(25, 46, "10000000")],
        2,
        &[7101, 7102],
        &[
            "begin 7 25 46 0 0 0 | |",
            "row 0 0 at -11044805800 -10475672350 21929418200 189163300",
            "refused 7 line 25 column 46",
            "spot 30 1224 11 2 0",
        ],
    ),
    (
        Motion,
        &[Put(27, 3, "x")],
        2,
        &[7101, 7102],
        &[
            "begin 5 27 3 0 0 0 | |",
            "row 0 0 at -11044805800 -10475672350 21929418200 189163300",
            "refused 5 line 27 column 3",
            "spot 30 1379 10 1 0",
        ],
    ),
    // Places: absent, alone zero, minus zero; clocks: absent, near it.
    (
        Paper,
        &[Put(24, 5, "      0.000000      0.000000      0.000000 999999.999999")],
        1,
        &[],
        &["row 0 0 absent absent", "end"],
    ),
    (
        Paper,
        &[Put(24, 5, "      0.000000      0.000000      0.000000     12.734450")],
        1,
        &[],
        &["row 0 0 absent 12734450", "end"],
    ),
    (
        Paper,
        &[Put(24, 5, "-000000.000000     -0.000000-000000.000000-999999.999999")],
        1,
        &[],
        &["row 0 0 absent -999999999999", "end"],
    ),
    (
        Paper,
        &[Put(24, 5, "      0.000000      0.000001      0.000000      0.000000")],
        1,
        &[],
        &["row 0 0 at 0 1 0 0", "end"],
    ),
    (
        Paper,
        &[Put(24, 5, "     -0.000001      0.000000      0.000000 999999.999998")],
        1,
        &[],
        &["row 0 0 at -1 0 0 absent", "end"],
    ),
    (
        Paper,
        &[Put(24, 5, "     -0.000001      0.000000      0.000000 999998.999999")],
        1,
        &[],
        &["row 0 0 at -1 0 0 999998999999", "end"],
    ),
    (
        Paper,
        &[Put(24, 5, "      1.000000      1.000000      0.0000000999999.999999")],
        1,
        &[],
        &["row 0 0 at 1000000 1000000 0 absent", "end"],
    ),
    // Clocks by their six nines: bare, the line cut there, before exponents and flags,
    // with other digits, after a zero; then those that are present.
    (
        Paper,
        &[Whole(24, CUT_ROW)],
        1,
        &[],
        &[
            "begin 0 0 0 1209 1 1 |d|",
            "row 0 0 at 5000000001 -500000 0 absent",
            "end",
            "then 25 1205 14 0 0",
            "spot 25 1205 14 0 0",
            "short 25 1205 14 0 0",
        ],
    ),
    (
        Night,
        &[
            Put(24, 47, " 999999.      "),
            Whole(25, "PR24      0.000000      0.000000      0.000000 999999."),
            Put(27, 47, " 999999.      "),
            Put(28, 47, " 999999.999998"),
            Put(31, 47, "0999999.123456"),
        ],
        2,
        &[],
        &[
            "begin 0 0 0 1630 2 3 |d|",
            "row 0 0 at 15000000000 -20000500000 0 absent",
            "row 0 1 absent absent",
            "row 1 0 absent absent",
            "row 1 1 at 0 0 1 absent",
            "row 2 0 at -500000 0 0 absent",
            "row 2 1 at 999999999999 -999999999999 999999999999 absent",
            "end",
            "spot 32 1626 14 0 0",
        ],
    ),
    (
        Night,
        &[
            Put(24, 47, " 999998.999999"),
            Put(25, 47, "-999999.000000"),
            Put(27, 47, "-999999.999999"),
            Put(28, 47, "0999998.000000"),
            Put(30, 5, " 999999.000000 999999.999998-999999.000000      0.999999"),
            Put(31, 33, " 999999.000000"),
        ],
        2,
        &[],
        &[
            "begin 0 0 0 1636 2 3 |d|",
            "row 0 0 at 15000000000 -20000500000 0 999998999999",
            "row 0 1 absent -999999000000",
            "row 1 0 absent -999999999999",
            "row 1 1 at 0 0 1 999998000000",
            "row 2 0 at 999999000000 999999999998 -999999000000 999999",
            "row 2 1 at 999999999999 -999999999999 999999000000 -999999999999",
            "end",
        ],
    ),
    // The same of rates, beside clocks that are present or not.
    (
        MovingRows,
        &[
            Put(25, 47, " 999999.      "),
            Whole(27, "VR20      0.000000      0.000000      0.000000 999999."),
            Put(29, 47, "-999999.000000"),
            Put(30, 47, " 999999.000000"),
            Put(31, 47, " 999999.999998"),
            Put(32, 47, "0999999.123456"),
        ],
        2,
        &[],
        &[
            "begin 0 0 0 1763 2 2 |d|",
            "row 0 0 at 123456789012 234567890123 999999999999 987654321098",
            "row 0 1 absent absent",
            "row 1 0 at -12500000 -23456789012 -3456789012 -999999000000",
            "row 1 1 at 12500000 1000000 -500000 absent",
            "end",
            "spot 33 1759 14 0 0",
        ],
    ),
    (
        MovingRows,
        &[
            Put(25, 47, " 999998.999999"),
            Put(27, 47, "-999999.000000"),
            Put(30, 47, "-999999.999999"),
            Put(32, 47, "0999998.000000"),
        ],
        2,
        &[],
        &["begin 0 0 0 1769 2 2 |d|", "row 1 1 at 12500000 1000000 -500000 absent", "end"],
    ),
    // Neither absent nor a decimal, in P and in V.
    (Paper, &[Put(24, 47, "-999999.      ")], 1, &[7107], SIX_IN_P),
    (Paper, &[Put(24, 47, " 999999.00000 ")], 1, &[7107], SIX_IN_P),
    (Paper, &[Put(24, 47, " 999999.     0")], 1, &[7107], SIX_IN_P),
    (Paper, &[Put(24, 47, " 999999.0     ")], 1, &[7107], SIX_IN_P),
    (Paper, &[Put(24, 47, " 999998.      ")], 1, &[7107], SIX_IN_P),
    (Paper, &[Put(24, 47, "1000000.      ")], 1, &[7107], SIX_IN_P),
    (Paper, &[Put(24, 47, " 999999       ")], 1, &[7107], SIX_IN_P),
    (Paper, &[Put(24, 47, "              ")], 1, &[7107], SIX_IN_P),
    (Paper, &[Put(24, 47, "999999.       ")], 1, &[7107], SIX_IN_P),
    (Motion, &[Put(26, 47, "-999999.      ")], 2, &[7101, 7102], SIX_IN_V),
    (Motion, &[Put(26, 47, " 999999.00000 ")], 2, &[7101, 7102], SIX_IN_V),
    (Motion, &[Put(26, 47, " 999999.     0")], 2, &[7101, 7102], SIX_IN_V),
    (Motion, &[Put(26, 47, " 999998.      ")], 2, &[7101, 7102], SIX_IN_V),
    (Motion, &[Put(26, 47, "1000000.      ")], 2, &[7101, 7102], SIX_IN_V),
    (Motion, &[Put(26, 47, " 999999       ")], 2, &[7101, 7102], SIX_IN_V),
    (Motion, &[Put(26, 47, "              ")], 2, &[7101, 7102], SIX_IN_V),
    (Motion, &[Put(26, 47, "999999.       ")], 2, &[7101, 7102], SIX_IN_V),
    (
        Paper,
        &[Put(24, 47, "1000000.000000")],
        1,
        &[7107],
        &["begin 7 24 47 0 0 0 | |", "kept", "refused 7 line 24 column 47", "spot 25 1150 10 1 0"],
    ),
    (
        Motion,
        &[Put(26, 47, "1000000.000000")],
        2,
        &[7101, 7102],
        &[
            "begin 7 26 47 0 0 0 | |",
            "row 0 0 at -11044805800 -10475672350 21929418200 189163300",
            "refused 7 line 26 column 47",
        ],
    ),
    // A line cut before the point; a blank fraction of x; column 61 after a bare clock;
    // two faults; another satellite.
    (
        Paper,
        &[Whole(24, "PG07   5000.000001     -0.500000      0.000000 999999")],
        1,
        &[7107],
        SIX_IN_P,
    ),
    (
        Paper,
        &[Put(24, 5, " 999999.      ")],
        1,
        &[7107],
        &["begin 6 24 5 0 0 0 | |", "kept", "refused 6 line 24 column 5"],
    ),
    (
        Paper,
        &[Put(24, 47, " 999999.      0")],
        1,
        &[7107],
        &["begin 5 24 61 0 0 0 | |", "kept", "refused 5 line 24 column 61"],
    ),
    (
        Motion,
        &[Put(26, 5, "1000000.000000"), Put(26, 47, " 999999.     0")],
        2,
        &[7101, 7102],
        SIX_IN_V,
    ),
    (
        Paper,
        &[Put(24, 2, "G08"), Put(24, 47, " 999999.      ")],
        1,
        &[7107],
        &["begin 10 24 0 0 0 0 | |", "kept", "refused 10 line 24 column 0"],
    ),
    // Too little room: 12 with line 0, and the identifiers that are given; the walker
    // stays at the `+ ` line that brings too many.
    (
        Night,
        &[],
        1,
        &[7107, 8224],
        &[
            "begin 12 0 0 0 0 0 | |",
            "kept",
            "row 0 0 at 15000000000 -20000500000 0 123456789",
            "end",
            "then 32 1632 14 0 0",
            "short 32 122 3 0 3",
            "kept",
        ],
    ),
    (
        Night,
        &[],
        2,
        &[],
        &["end", "short 32 1632 14 0 0", "identifier G07", "identifier R24", "kept"],
    ),
    (
        Night,
        &[],
        3,
        &[],
        &["end", "short 32 1632 14 0 0", "identifier G07", "identifier R24", "kept"],
    ),
    (
        Paper,
        &[],
        0,
        &[7107],
        &[
            "begin 12 0 0 0 0 0 | |",
            "kept",
            "row 0 0 at 5000000001 -500000 0 absent",
            "then 25 1211 14 0 0",
            "short 25 122 3 0 1",
            "kept",
        ],
    ),
    (
        Paper,
        &[],
        0,
        &[7108],
        &["begin 12 0 0 0 0 0 | |", "kept", "refused 10 line 24 column 0", "spot 30 1211 14 0 0"],
    ),
    // 18 satellites, of which 17 have their slots in the first line.
    (ManyFile(18), &[], 16, &[], &["begin 12 0 0 0 0 0 | |", "kept", "short 42 122 3 0 1", "kept"]),
    (
        ManyFile(18),
        &[],
        17,
        &[],
        &[
            "begin 12 0 0 0 0 0 | |",
            "kept",
            "spot 42 2248 14 0 0",
            "short 42 183 3 1 1",
            "identifier G01",
            "identifier G17",
            "kept",
        ],
    ),
    (
        ManyFile(18),
        &[],
        18,
        &[],
        &["short 42 2248 14 0 0", "identifier G17", "identifier G18", "kept"],
    ),
    (
        ManyFile(40),
        &[Keep(5)],
        20,
        &[],
        &["then 5 305 3 0 1", "short 5 183 3 23 1", "identifier G17", "kept"],
    ),
    (
        ManyFile(40),
        &[Keep(5), Put(4, 10, "G01")],
        20,
        &[],
        &[
            "begin 8 4 0 0 0 0 | |",
            "then 5 183 3 23 1",
            "short 5 183 3 23 1",
            "identifier G17",
            "kept",
        ],
    ),
    (
        Paper,
        &[Join(25)],
        0,
        &[7107],
        &["begin 1 25 0 0 0 0 | |", "kept", "refused 1 line 25 column 0"],
    ),
    // No bytes, a byte, an empty line.
    (
        Nothing,
        &[],
        1,
        &[],
        &[
            "begin 1 1 0 0 0 0 | |",
            "kept",
            "refused 1 line 1 column 0",
            "spot 0 0 1 0 0",
            "spot 1 0 1 0 0",
            "spot 3 0 1 0 0",
            "spot 0 0 1 0 0",
            "then 0 0 1 0 0",
            "spot 0 0 1 0 0",
            "spot 5 0 1 0 0",
        ],
    ),
    (Nothing, &[After(b"x")], 1, &[], &["begin 1 1 0 0 0 0 | |", "refused 1 line 1 column 0"]),
    (
        Nothing,
        &[After(b"\n")],
        1,
        &[],
        &["begin 4 1 0 0 0 0 | |", "refused 4 line 1 column 0", "spot 1 0 1 0 0"],
    ),
    // Bytes after EOF: 11 at `begin`, and a walk that ends there.
    (
        Paper,
        &[After(b"x")],
        1,
        &[7107],
        &[
            "begin 11 26 0 0 0 0 | |",
            "kept",
            "row 0 0 at 5000000001 -500000 0 absent",
            "end",
            "spot 25 1211 14 0 0",
        ],
    ),
    (
        Motion,
        &[AfterItself],
        2,
        &[7101, 7102],
        &[
            "begin 11 31 0 0 0 0 | |",
            "row 0 0 at -11044805800 -10475672350 21929418200 189163300",
            "row 0 1 at -12593593500 10170327650 -20354534400 -55976000",
            "end",
            "spot 30 1601 14 0 0",
            "then 60 1601 14 0 0",
            "spot 65 1601 14 0 0",
        ],
    ),
    // Other identifiers than the header's: none, another, of another letter, more; the
    // walker has the file's own.
    (Paper, &[After(b"x")], 1, &[], &["begin 11 26 0 0 0 0 | |", "refused 10 line 24 column 0"]),
    (
        Paper,
        &[After(b"x")],
        1,
        &[7108],
        &["begin 11 26 0 0 0 0 | |", "refused 10 line 24 column 0"],
    ),
    // A row of number 00 or of a small letter is faulty, also where such a name is given.
    (
        Paper,
        &[Put(24, 2, "G00")],
        1,
        &[7100],
        &["begin 7 24 2 0 0 0 | |", "refused 7 line 24 column 2"],
    ),
    (
        Paper,
        &[Put(13, 4, "M"), Put(24, 2, "g07")],
        1,
        &[10307],
        &["begin 6 24 2 0 0 0 | |", "refused 6 line 24 column 2"],
    ),
    (
        Paper,
        &[After(b"x")],
        1,
        &[8207],
        &[
            "begin 11 26 0 0 0 0 | |",
            "refused 8 line 13 column 0",
            "spot 12 732 5 0 1",
            "then 25 1211 14 0 0",
        ],
    ),
    (
        Paper,
        &[After(b"x")],
        1,
        &[7107, 8207, 0],
        &["begin 11 26 0 0 0 0 | |", "row 0 0 at 5000000001 -500000 0 absent", "end"],
    ),
    (
        Night,
        &[After(b"x")],
        2,
        &[7107],
        &["row 0 0 at 15000000000 -20000500000 0 123456789", "refused 10 line 25 column 0"],
    ),
    (
        Night,
        &[After(b"x")],
        2,
        &[7107, 8224, 7107],
        &["row 2 1 at 999999999999 -999999999999 999999999999 -999999999999", "end"],
    ),
    (
        ManyFile(20),
        &[After(b"x")],
        20,
        &[7118],
        &["begin 11 45 0 0 0 0 | |", "refused 8 line 4 column 0"],
    ),
    (
        ManyFile(20),
        &[After(b"x")],
        20,
        &[7117],
        &["begin 11 45 0 0 0 0 | |", "refused 10 line 24 column 0"],
    ),
    // Refused before the first row.
    (
        Paper,
        &[Put(2, 4, "1735")],
        1,
        &[7107],
        &[
            "begin 8 2 0 0 0 0 | |",
            "kept",
            "refused 8 line 2 column 0",
            "spot 1 61 2 0 1",
            "spot 3 61 2 0 1",
            "spot 12 61 2 0 1",
            "then 25 61 2 0 1",
        ],
    ),
    (Paper, &[Drop(22)], 1, &[7107], &["refused 4 line 22 column 0", "spot 24 1115 8 0 1"]),
    (Paper, &[Drop(23)], 1, &[7107], &["refused 4 line 23 column 0", "spot 24 1118 9 0 1"]),
    (
        Paper,
        &[Put(24, 61, "x")],
        1,
        &[7107],
        &["refused 5 line 24 column 61", "spot 25 1150 10 1 0"],
    ),
    (Paper, &[Keep(24)], 1, &[7107], &["refused 1 line 25 column 0", "spot 24 1211 14 0 0"]),
    (
        Night,
        &[Put(3, 13, "G07")],
        2,
        &[7107, 8224],
        &["begin 8 3 0 0 0 0 | |", "refused 8 line 3 column 0"],
    ),
    // Refused between rows.
    (
        Night,
        &[Put(29, 18, "30")],
        2,
        &[7107, 8224],
        &[
            "begin 9 29 0 0 0 0 | |",
            "kept",
            "row 0 0 at 15000000000 -20000500000 0 123456789",
            "row 0 1 absent absent",
            "row 1 0 absent -1",
            "row 1 1 at 0 0 1 absent",
            "refused 9 line 29 column 0",
            "then 32 1459 9 0 1",
            "spot 37 1459 9 0 1",
        ],
    ),
    (
        Night,
        &[Swap(27, 28)],
        2,
        &[7107, 8224],
        &[
            "begin 10 27 0 0 0 0 | |",
            "row 0 1 absent absent",
            "refused 10 line 27 column 0",
            "spot 32 1304 10 2 1",
        ],
    ),
    (
        Night,
        &[Insert(26, "EP"), Insert(27, "EP")],
        2,
        &[7107, 8224],
        &[
            "begin 4 27 0 0 0 0 | |",
            "row 0 1 absent absent",
            "refused 4 line 27 column 0",
            "spot 34 1275 9 0 2",
        ],
    ),
    (
        Motion,
        &[Byte(25, 60, 200)],
        2,
        &[7101, 7102],
        &[
            "begin 2 25 60 0 0 0 | |",
            "row 0 0 at -11044805800 -10475672350 21929418200 189163300",
            "refused 2 line 25 column 60",
            "spot 30 1224 11 2 0",
        ],
    ),
    (
        Motion,
        &[Put(26, 2, "G02")],
        2,
        &[7101, 7102],
        &[
            "begin 10 26 0 0 0 0 | |",
            "row 0 0 at -11044805800 -10475672350 21929418200 189163300",
            "refused 10 line 26 column 0",
            "spot 30 1305 11 2 0",
        ],
    ),
    (
        Motion,
        &[Put(27, 81, " ")],
        2,
        &[7101, 7102],
        &[
            "begin 3 27 81 0 0 0 | |",
            "row 0 0 at -11044805800 -10475672350 21929418200 189163300",
            "refused 3 line 27 column 81",
            "spot 30 1379 10 1 0",
        ],
    ),
    (
        Motion,
        &[Put(28, 5, "1000000.000000")],
        2,
        &[7101, 7102],
        &[
            "begin 7 28 5 0 0 0 | |",
            "row 0 0 at -11044805800 -10475672350 21929418200 189163300",
            "refused 7 line 28 column 5",
            "spot 30 1460 10 1 0",
        ],
    ),
    (
        Motion,
        &[Put(30, 4, "X")],
        2,
        &[7101, 7102],
        &[
            "begin 5 30 4 0 0 0 | |",
            "row 0 0 at -11044805800 -10475672350 21929418200 189163300",
            "row 0 1 at -12593593500 10170327650 -20354534400 -55976000",
            "refused 5 line 30 column 4",
            "spot 30 1601 14 0 0",
        ],
    ),
    // The column at `begin` and at the line where the walk stops.
    (
        Paper,
        &[Put(24, 5, "  5000.0000001")],
        1,
        &[7107],
        &["begin 6 24 5 0 0 0 | |", "kept", "refused 6 line 24 column 5", "spot 25 1150 10 1 0"],
    ),
    (
        Night,
        &[Byte(27, 200, 127), Byte(27, 300, 9)],
        2,
        &[7107, 8224],
        &["begin 2 27 200 0 0 0 | |", "row 0 1 absent absent", "refused 2 line 27 column 200"],
    ),
    (
        Motion,
        &[Put(26, 61, "x"), Put(26, 70, "x")],
        2,
        &[7101, 7102],
        &[
            "begin 5 26 61 0 0 0 | |",
            "row 0 0 at -11044805800 -10475672350 21929418200 189163300",
            "refused 5 line 26 column 61",
        ],
    ),
    (
        Night,
        &[Put(29, 9, "13"), Put(29, 15, "24")],
        2,
        &[7107, 8224],
        &["begin 7 29 4 0 0 0 | |", "row 1 1 at 0 0 1 absent", "refused 7 line 29 column 4"],
    ),
    // Slots: 20 satellites in two lines, 86 in six.
    (
        ManyFile(20),
        &[],
        20,
        &[],
        &[
            "begin 0 0 0 2374 20 1 |d|",
            "identifier G18",
            "row 0 19 at 19000001 -500000 0 1000000",
            "spot 3 183 3 3 1",
        ],
    ),
    (
        ManyFile(86),
        &[Keep(9), After(b"EOF\n")],
        86,
        &[],
        &[
            "begin 4 10 0 0 0 0 | |",
            "refused 4 line 10 column 0",
            "spot 5 305 3 35 1",
            "then 10 549 4 69 1",
        ],
    ),
    (
        ManyFile(86),
        &[Keep(8)],
        86,
        &[],
        &["refused 1 line 9 column 0", "spot 4 244 3 52 1", "then 8 488 4 86 1"],
    ),
    (
        ManyFile(255),
        &[],
        255,
        &[],
        &[
            "begin 0 0 0 17929 255 1 |d|",
            "identifier E57",
            "row 0 254 at 254000001 -500000 0 1000000",
            "end",
        ],
    ),
    (
        ManyFile(255),
        &[Put(3, 4, "256")],
        300,
        &[],
        &["begin 4 18 0 0 0 0 | |", "kept", "refused 4 line 18 column 0"],
    ),
    // 255 places are too few for 256 satellites: the line walk stays before line 18,
    // which brings the last.
    (
        ManyFile(256),
        &[],
        255,
        &[],
        &[
            "begin 12 0 0 0 0 0 | |",
            "kept",
            "refused 10 line 46 column 0",
            "then 302 18108 14 0 0",
            "short 302 1037 3 1 1",
            "identifier E57",
            "kept",
        ],
    ),
    // 999 satellites. Half of the 1,131 lines are 131 before the rows, of 126 * 61 +
    // 20 + 32 bytes, and 434 rows.
    (
        ManyFile(999),
        &[],
        999,
        &[],
        &[
            "begin 0 0 0 68681 999 1 |d|",
            "identifier G01",
            "identifier E58",
            "identifier Z09",
            "kept",
            "row 0 0 at 1 -500000 0 1000000",
            "row 0 255 at 255000001 -500000 0 1000000",
            "row 0 256 at 256000001 -500000 0 1000000",
            "row 0 998 at 998000001 -500000 0 1000000",
            "end",
            "spot 3 183 3 982 1",
            "spot 565 34212 10 565 0",
            "then 1131 68677 14 0 0",
            "short 1131 68677 14 0 0",
        ],
    ),
];

/// Walks over 999 satellites; these aren't stored.
const MANY_WALKED: &[Walked] = &[
    (
        ManyFile(999),
        &[],
        998,
        &[],
        &[
            "begin 12 0 0 0 0 0 | |",
            "kept",
            "refused 10 line 132 column 0",
            "then 1131 68677 14 0 0",
            "short 1131 3660 3 13 1",
            "identifier M95",
            "kept",
        ],
    ),
    (
        ManyFile(999),
        &[],
        1000,
        &[],
        &["begin 0 0 0 68681 999 1 |d|", "identifier Z09", "kept", "end"],
    ),
    (ManyFile(999), &[], 985, &[], &["begin 12 0 0 0 0 0 | |", "short 1131 3599 3 30 1"]),
    (ManyFile(999), &[], 0, &[7101], &["begin 12 0 0 0 0 0 | |", "short 1131 122 3 0 1", "kept"]),
    // With one identifier lent: its row, and then none that is known.
    (
        ManyFile(999),
        &[],
        998,
        &[7101],
        &["row 0 0 at 1 -500000 0 1000000", "refused 10 line 133 column 0"],
    ),
    (
        ManyBackwards(999),
        &[],
        999,
        &[],
        &[
            "begin 0 0 0 68681 999 1 |d|",
            "identifier Z09",
            "identifier G01",
            "row 0 0 at 1 -500000 0 1000000",
            "row 0 998 at 998000001 -500000 0 1000000",
            "end",
        ],
    ),
    (
        ManyOverLetters(999),
        &[],
        999,
        &[],
        &["begin 0 0 0 68681 999 1 |d|", "identifier Z01", "identifier G02", "end"],
    ),
    (
        MovingMany(999),
        &[],
        999,
        &[],
        &[
            "begin 0 0 0 129620 999 1 |d|",
            "row 0 998 at 998000001 -500000 0 1000000",
            "end",
            "then 2130 129616 14 0 0",
        ],
    ),
    // A repeat at the last `+ ` line, and another row at the end.
    (
        ManyFile(999),
        &[Put(61, 46, "G01")],
        999,
        &[],
        &[
            "begin 8 61 0 0 0 0 | |",
            "kept",
            "refused 10 line 132 column 0",
            "then 1131 3660 3 13 1",
        ],
    ),
    (
        ManyFile(999),
        &[Put(1130, 2, "Z08")],
        999,
        &[],
        &["begin 10 1130 0 0 0 0 | |", "kept", "then 1131 68616 10 1 0"],
    ),
];

/// A file read line by line, room for identifiers; lines of the answer in their
/// order.
type ReadFile = (Base, &'static [Edit], usize, &'static [&'static str]);

const READ: &[ReadFile] = &[
    // Files of version c, line by line.
    (
        Paper,
        &[AS_C],
        1,
        &[
            "line 1 61 2 0 1",
            "line 22 1118 9 0 1",
            "line 24 1211 14 0 0",
            "finished 25 1215",
            "due 14 12 0 0 0",
            "identifiers 7107",
        ],
    ),
    (Paper, &[AS_C, Insert(23, "/*")], 1, &["line 22 1118 9 0 1", "stopped 4 line 23 column 0"]),
    (Paper, &[Insert(23, "/*")], 1, &["line 23 1121 9 0 1", "finished 26 1218"]),
    (Paper, &[AS_C, Insert(23, COMMENT_61)], 1, &["stopped 3 line 23 column 61"]),
    (Paper, &[AS_C, Put(20, 61, " ")], 1, &["line 19 1109 8 0 1", "stopped 3 line 20 column 61"]),
    (Paper, &[AS_C, Insert(24, COMMENT_60)], 1, &["stopped 4 line 24 column 0"]),
    (Paper, &[AS_C, Put(4, 81, " ")], 1, &["stopped 3 line 4 column 81"]),
    (ManyFile(86), &[AS_C], 86, &["line 2 122 3 0 1", "stopped 7 line 3 column 4"]),
    (ManyFile(85), &[AS_C], 85, &["line 12 732 5 0 1", "finished 109 6339"]),
    (ManyFile(85), &[AS_C], 84, &["line 6 366 3 17 1", "stopped 12 line 7 column 0"]),
    (Nothing, &[After(b"#cP\n")], 1, &["stopped 6 line 1 column 4", "due 1 0 0 0 0"]),
    (
        Paper,
        &[],
        1,
        &[
            "line 1 61 2 0 1",
            "line 2 122 3 0 1",
            "line 3 183 3 0 1",
            "line 7 427 4 1 1",
            "line 8 488 4 0 1",
            "line 22 1118 9 0 1",
            "line 23 1150 10 1 0",
            "line 24 1211 14 0 0",
            "finished 25 1215",
            "identifiers 7107",
        ],
    ),
    // Bytes after EOF are not read; places past the identifiers are kept.
    (Paper, &[After(b"x")], 3, &["finished 25 1215", "identifiers 7107 7777 7777"]),
    (
        Motion,
        &[],
        2,
        &["line 24 1224 11 2 0", "line 25 1305 11 2 0", "finished 30 1605", "identifiers 7101 7102"],
    ),
    (
        ManyFile(20),
        &[],
        20,
        &["line 3 183 3 3 1", "line 4 244 3 0 1", "line 7 427 4 20 1", "line 8 488 4 3 1"],
    ),
    // The columns of notes.
    (
        Paper,
        &[BARE],
        1,
        &["line 24 1211 14 0 0", "line 25 1214 14 0 0", "finished 26 1218", "identifiers 7107"],
    ),
    (
        Notes,
        &[],
        2,
        &["line 24 1231 10 1 1", "line 25 1312 10 1 1", "line 26 1373 9 0 1", "line 27 1376 9 0 1"],
    ),
    (MovingNotes, &[], 2, &["line 25 1312 11 2 1", "line 27 1467 10 1 1", "finished 41 2207"]),
    (Paper, &[Insert(25, "EPx")], 1, &["line 24 1211 14 0 0", "stopped 5 line 25 column 3"]),
    (Paper, &[BARE, Put(25, 9, "1")], 1, &["stopped 5 line 25 column 9"]),
    (Paper, &[BARE, Put(25, 72, "x")], 1, &["stopped 5 line 25 column 72"]),
    (Paper, &[BARE, Put(25, 5, "55  ")], 1, &["stopped 6 line 25 column 5"]),
    (Paper, &[BARE, Put(25, 5, "  -1")], 1, &["stopped 6 line 25 column 5"]),
    (Paper, &[BARE, Put(25, 28, "99999999")], 1, &["stopped 7 line 25 column 28"]),
    (Paper, &[BARE, Put(25, 28, "     - 1")], 1, &["stopped 6 line 25 column 28"]),
    (Paper, &[NOTE, Put(25, 5, "55  "), Put(25, 27, "x")], 1, &["stopped 5 line 25 column 27"]),
    (
        Paper,
        &[NOTE, Put(25, 28, "99999999"), Put(25, 73, "1234567 ")],
        1,
        &["stopped 6 line 25 column 73"],
    ),
    (Paper, &[NOTE, Byte(25, 50, 9)], 1, &["stopped 2 line 25 column 50"]),
    (Paper, &[NOTE, Put(25, 81, " ")], 1, &["stopped 3 line 25 column 81"]),
    (Paper, &[NOTE, BARE], 1, &["line 25 1214 14 0 0", "stopped 4 line 26 column 0"]),
    (Paper, &[Insert(25, "EVx")], 1, &["stopped 4 line 25 column 0"]),
    (Motion, &[Put(27, 64, "19999999")], 2, &["stopped 7 line 27 column 64"]),
    // Clocks and rates: rows that end after the point, and those that are malformed.
    (Paper, &[Whole(24, CUT_ROW)], 1, &["line 24 1205 14 0 0", "finished 25 1209"]),
    (Clocks, &[], 2, &["line 24 1231 10 1 1", "line 25 1286 9 0 1", "finished 29 1480"]),
    (MovingClocks, &[], 2, &["line 25 1305 10 1 1", "line 27 1415 9 0 1", "finished 33 1757"]),
    (Paper, &[Put(24, 47, "-999999.      ")], 1, &["stopped 6 line 24 column 47"]),
    (Paper, &[Put(24, 47, " 999999.00000 ")], 1, &["stopped 6 line 24 column 47"]),
    (Paper, &[Put(24, 47, "1000000.000000")], 1, &["stopped 7 line 24 column 47"]),
    (Paper, &[Put(24, 47, " 999999.      0")], 1, &["stopped 5 line 24 column 61"]),
    (Paper, &[Put(24, 5, " 999999.      ")], 1, &["stopped 6 line 24 column 5"]),
    (MovingClocks, &[Put(25, 60, "0")], 2, &["stopped 6 line 25 column 47"]),
    (MovingClocks, &[Put(27, 53, "8")], 2, &["line 26 1360 11 1 1", "stopped 6 line 27 column 47"]),
    // Room for n - 1, n and n + 1: "lent room is too small" at the `+ ` line that
    // brings more than fit, and the list is as it was.
    (Paper, &[], 0, &["line 2 122 3 0 1", "stopped 12 line 3 column 0", "identifiers"]),
    (Paper, &[], 2, &["finished 25 1215", "identifiers 7107 7777"]),
    (Night, &[], 1, &["line 2 122 3 0 3", "stopped 12 line 3 column 0", "identifiers 7777"]),
    (Night, &[], 2, &["finished 32 1636", "identifiers 7107 8224"]),
    (Night, &[], 3, &["finished 32 1636", "identifiers 7107 8224 7777"]),
    // Two `+ ` lines of which the first fits and the second not, or both, or none.
    (
        ManyFile(18),
        &[],
        17,
        &[
            "line 3 183 3 1 1",
            "stopped 12 line 4 column 0",
            "identifiers 7101 7102 7103 7104 7105 7106 7107 7108 7109 7110 \
             7111 7112 7113 7114 7115 7116 7117",
        ],
    ),
    (
        ManyFile(18),
        &[],
        18,
        &[
            "line 4 244 3 0 1",
            "finished 42 2252",
            "identifiers 7101 7102 7103 7104 7105 7106 7107 7108 7109 7110 \
             7111 7112 7113 7114 7115 7116 7117 7118",
        ],
    ),
    (
        ManyFile(18),
        &[],
        16,
        &[
            "line 2 122 3 0 1",
            "stopped 12 line 3 column 0",
            "identifiers 7777 7777 7777 7777 7777 7777 7777 7777 7777 7777 7777 7777 7777 7777 7777 7777",
        ],
    ),
    (ManyFile(18), &[], 0, &["line 2 122 3 0 1", "stopped 12 line 3 column 0", "identifiers"]),
    // What a line that doesn't fit would bring is not laid in part.
    (
        ManyFile(40),
        &[],
        20,
        &[
            "line 3 183 3 23 1",
            "stopped 12 line 4 column 0",
            "identifiers 7101 7102 7103 7104 7105 7106 7107 7108 7109 7110 \
             7111 7112 7113 7114 7115 7116 7117 7777 7777 7777",
        ],
    ),
    (ManyFile(86), &[], 85, &["line 7 427 3 1 1", "stopped 12 line 8 column 0"]),
    (ManyFile(255), &[], 254, &["line 16 976 3 17 1", "stopped 12 line 17 column 0"]),
    (ManyFile(255), &[], 255, &["line 17 1037 4 255 1", "finished 299 17929"]),
    (ManyFile(256), &[], 255, &["line 17 1037 3 1 1", "stopped 12 line 18 column 0"]),
    (ManyFile(256), &[], 256, &["line 18 1098 4 256 1", "finished 302 18112"]),
    (ManyFile(999), &[], 998, &["line 60 3660 3 13 1", "stopped 12 line 61 column 0"]),
    (
        ManyFile(999),
        &[],
        999,
        &[
            "line 3 183 3 982 1",
            "line 60 3660 3 13 1",
            "line 61 3721 4 999 1",
            "line 62 3782 4 982 1",
            "line 119 7259 4 13 1",
            "line 131 7738 10 999 0",
            "line 387 23354 10 743 0",
            "line 1130 68677 14 0 0",
            "finished 1131 68681",
        ],
    ),
    (
        ManyFile(999),
        &[Put(61, 46, "G01")],
        986,
        &["line 60 3660 3 13 1", "stopped 8 line 61 column 0"],
    ),
    // "12 comes after all other checks": a `+ ` line's own fault comes first.
    (Paper, &[Byte(3, 80, 0x80)], 0, &["stopped 2 line 3 column 80", "identifiers"]),
    (Paper, &[Put(3, 81, " ")], 0, &["stopped 3 line 3 column 81", "identifiers"]),
    (Paper, &[Put(3, 2, "+")], 0, &["stopped 4 line 3 column 0", "identifiers"]),
    (Paper, &[Put(3, 9, "x")], 0, &["stopped 5 line 3 column 9", "identifiers"]),
    (Paper, &[Put(3, 10, "G 7")], 0, &["stopped 6 line 3 column 10", "identifiers"]),
    (Paper, &[Put(3, 11, "00")], 0, &["stopped 7 line 3 column 10", "identifiers"]),
    (Paper, &[Put(3, 13, "G08")], 0, &["stopped 8 line 3 column 0", "identifiers"]),
    (Night, &[Put(3, 13, "G07")], 1, &["stopped 8 line 3 column 0", "identifiers 7777"]),
    (ManyFile(18), &[Put(4, 10, "G17")], 17, &["line 3 183 3 1 1", "stopped 8 line 4 column 0"]),
    (ManyFile(18), &[Put(4, 10, "G17")], 16, &["line 2 122 3 0 1", "stopped 12 line 3 column 0"]),
    // A line without its LF is 1, whatever it brings.
    (Paper, &[Keep(3), Join(3)], 0, &["line 2 122 3 0 1", "stopped 1 line 3 column 0", "identifiers"]),
    // Refused lines; a `+ ` line that is refused leaves no name.
    (Nothing, &[], 2, &["stopped 1 line 1 column 0", "identifiers 7777 7777"]),
    (Paper, &[Keep(24)], 1, &["line 24 1211 14 0 0", "stopped 1 line 25 column 0", "identifiers 7107"]),
    (Paper, &[Byte(24, 40, 0x80)], 1, &["stopped 2 line 24 column 40", "identifiers 7107"]),
    (Paper, &[Put(24, 300, " "), Byte(24, 200, 127)], 1, &["stopped 2 line 24 column 200"]),
    (Paper, &[Put(24, 90, "x")], 1, &["stopped 3 line 24 column 81", "identifiers 7107"]),
    (Paper, &[Put(1, 4, "201x"), Put(1, 8, "x")], 1, &["stopped 5 line 1 column 8"]),
    (Paper, &[Put(23, 9, "13"), Put(23, 15, "2x")], 1, &["stopped 6 line 23 column 15"]),
    (Paper, &[Whole(24, "PG07")], 1, &["stopped 6 line 24 column 5", "identifiers 7107"]),
    (
        Paper,
        &[Put(3, 13, "G08")],
        1,
        &["line 2 122 3 0 1", "stopped 8 line 3 column 0", "identifiers 7777"],
    ),
    (ManyFile(20), &[Put(4, 13, "G 9")], 20, &["line 3 183 3 3 1", "stopped 6 line 4 column 13"]),
    (Night, &[Put(29, 18, "30")], 2, &["stopped 9 line 29 column 0", "identifiers 7107 8224"]),
    (Night, &[Put(3, 14, "00")], 2, &["stopped 7 line 3 column 13", "identifiers 7777 7777"]),
];

/// A file, room for identifiers, identifiers that are lent instead of the file's;
/// where the lines read with that room end, and what must stand: where all lines
/// are walked, there with the other identifiers, where the lines read end.
type DueFile = (Base, &'static [Edit], usize, &'static [u64], &'static str, [&'static str; 3]);

const DUE: &[DueFile] = &[
    // In c no comment may stand before the first epoch: "exactly four".
    (
        Paper,
        &[AS_C, Put(23, 18, "15")],
        1,
        &[7107],
        "stopped 9 line 23 column 0",
        ["9 0 487166400000000000 0 0"; 3],
    ),
    (
        Paper,
        &[AS_C, Insert(23, "/*")],
        1,
        &[7107],
        "stopped 4 line 23 column 0",
        ["9 0 487166400000000000 0 0"; 3],
    ),
    (Paper, &[AS_C, Drop(22)], 1, &[7107], "stopped 4 line 22 column 0", ["8 0 0 0 0"; 3]),
    (Paper, &[AS_C], 1, &[], "finished 25 1215", ["14 12 0 0 0"; 3]),
    (Paper, &[AS_C, Put(1, 3, "v")], 1, &[], "stopped 6 line 1 column 3", ["1 0 0 0 0"; 3]),
    // 86 satellites: 7 in c, though an identifier repeats; in d that is 8.
    (
        ManyFile(86),
        &[AS_C, Put(3, 13, "G01")],
        86,
        &[],
        "stopped 7 line 3 column 4",
        ["3 0 0 0 0"; 3],
    ),
    (ManyFile(86), &[Put(3, 13, "G01")], 86, &[], "stopped 8 line 3 column 0", ["3 0 0 0 1"; 3]),
    (
        ManyFile(85),
        &[AS_C, Put(7, 58, "G69")],
        85,
        &[],
        "stopped 8 line 7 column 0",
        ["3 0 0 0 1"; 3],
    ),
    // Before EOF: a note may stand before it where none does.
    (Paper, &[], 1, &[], "finished 25 1215", ["14 12 0 0 0"; 3]),
    (Paper, &[BARE], 1, &[], "finished 26 1218", ["14 0 0 0 0"; 3]),
    (Paper, &[After(b"x")], 1, &[7107], "finished 25 1215", ["14 12 0 0 0"; 3]),
    (Motion, &[], 2, &[], "finished 30 1605", ["14 13 0 0 0"; 3]),
    (Motion, &[Insert(30, "EV")], 2, &[], "finished 31 1608", ["14 0 0 0 0"; 3]),
    // 9 in the first epoch, with four comments and with five, and in later ones:
    // days since MJD 0 times 86,400 s, 900 s more for each epoch.
    (
        Paper,
        &[Put(23, 18, "15")],
        1,
        &[7107],
        "stopped 9 line 23 column 0",
        ["9 8 487166400000000000 0 0"; 3],
    ),
    (
        Paper,
        &[Insert(23, "/* FIVE"), Put(24, 31, "1")],
        1,
        &[7107],
        "stopped 9 line 24 column 0",
        ["9 8 487166400000000000 0 0"; 3],
    ),
    (
        Motion,
        &[Put(23, 12, " 9")],
        2,
        &[],
        "stopped 9 line 23 column 0",
        ["9 8 450394560000000000 0 0"; 3],
    ),
    (
        Night,
        &[Put(23, 18, "46")],
        2,
        &[7107, 8224],
        "stopped 9 line 23 column 0",
        ["9 8 486371430000000000 0 0"; 3],
    ),
    (
        Night,
        &[Put(26, 18, "15")],
        2,
        &[7107, 8224],
        "stopped 9 line 26 column 0",
        ["9 12 486371520000000000 0 0"; 3],
    ),
    (
        Night,
        &[Put(29, 18, "30")],
        3,
        &[7107],
        "stopped 9 line 29 column 0",
        ["9 12 486371610000000000 0 0"; 3],
    ),
    (
        Notes,
        &[Put(28, 18, "14")],
        2,
        &[],
        "stopped 9 line 28 column 0",
        ["9 0 487166490000000000 0 0"; 3],
    ),
    (
        MovingRows,
        &[Put(28, 18, "16")],
        2,
        &[7107, 8220],
        "stopped 9 line 28 column 0",
        ["9 13 487166490000000000 0 0"; 3],
    ),
    (
        MovingNotes,
        &[Put(32, 18, "16")],
        2,
        &[7107, 8220],
        "stopped 9 line 32 column 0",
        ["9 0 487166490000000000 0 0"; 3],
    ),
    // An interval of 900.00000001 s; an epoch after the last date.
    (
        Night,
        &[Put(2, 38, "1")],
        2,
        &[7107, 8224],
        "stopped 9 line 26 column 0",
        ["9 12 486371520000000001 0 0"; 3],
    ),
    (
        Night,
        &[
            Put(1, 4, "2099"),
            Put(2, 4, "6260 431100.00000000"),
            Put(2, 40, "88068"),
            Put(23, 4, "2099"),
            Put(26, 4, "2100"),
        ],
        2,
        &[7107, 8224],
        "stopped 7 line 26 column 4",
        ["9 12 760916160000000000 0 0"; 3],
    ),
    // 10 in P and in V: of the first satellite, of the second, in a later epoch;
    // with a note before the row and without.
    (Paper, &[Put(24, 2, "G08")], 1, &[7107], "stopped 10 line 24 column 0", ["10 0 0 7107 0"; 3]),
    (
        Night,
        &[Swap(24, 25)],
        2,
        &[8224, 7107],
        "stopped 10 line 24 column 0",
        ["10 0 0 7107 0", "10 0 0 8224 0", "10 0 0 7107 0"],
    ),
    (
        Night,
        &[Put(25, 2, "G08")],
        2,
        &[7107, 8224, 7108],
        "stopped 10 line 25 column 0",
        ["10 12 0 8224 0"; 3],
    ),
    (
        Night,
        &[Put(28, 2, "G07")],
        2,
        &[7107, 8224],
        "stopped 10 line 28 column 0",
        ["10 12 0 8224 0"; 3],
    ),
    (
        Notes,
        &[Put(26, 2, "R21")],
        2,
        &[7107, 8221],
        "stopped 10 line 26 column 0",
        ["10 0 0 8220 0", "10 0 0 8221 0", "10 0 0 8220 0"],
    ),
    (
        Motion,
        &[Put(24, 2, "G02")],
        2,
        &[7101, 7102],
        "stopped 10 line 24 column 0",
        ["10 0 0 7101 0"; 3],
    ),
    (
        Motion,
        &[Put(26, 2, "G02")],
        2,
        &[7101, 7102],
        "stopped 10 line 26 column 0",
        ["11 0 0 7101 0"; 3],
    ),
    (
        Motion,
        &[Put(28, 2, "G01")],
        2,
        &[7101, 7102],
        "stopped 10 line 28 column 0",
        ["10 0 0 7102 0"; 3],
    ),
    (
        Motion,
        &[Drop(27), Put(27, 2, "G01")],
        2,
        &[7101, 7102],
        "stopped 10 line 27 column 0",
        ["10 13 0 7102 0"; 3],
    ),
    (
        Motion,
        &[Put(29, 2, "G01")],
        2,
        &[7101, 7102],
        "stopped 10 line 29 column 0",
        ["11 12 0 7102 0"; 3],
    ),
    (
        MovingRows,
        &[Put(32, 2, "G07")],
        2,
        &[7107, 8220],
        "stopped 10 line 32 column 0",
        ["11 12 0 8220 0"; 3],
    ),
    // Fewer identifiers lent than the row needs, just as many, others.
    (
        Paper,
        &[Put(24, 2, "G08")],
        1,
        &[],
        "stopped 10 line 24 column 0",
        ["10 0 0 7107 0", "10 0 0 0 0", "10 0 0 7107 0"],
    ),
    (
        Night,
        &[Put(25, 5, "x")],
        2,
        &[7107],
        "stopped 6 line 25 column 5",
        ["10 12 0 8224 0", "10 12 0 0 0", "10 12 0 8224 0"],
    ),
    (
        Night,
        &[Put(24, 5, "x")],
        2,
        &[7199],
        "stopped 6 line 24 column 5",
        ["10 0 0 7107 0", "10 0 0 7199 0", "10 0 0 7107 0"],
    ),
    (
        Motion,
        &[Put(29, 74, "x")],
        2,
        &[7101],
        "stopped 5 line 29 column 74",
        ["11 12 0 7102 0", "11 12 0 0 0", "11 12 0 7102 0"],
    ),
    (
        Motion,
        &[Put(26, 74, "x")],
        2,
        &[1],
        "stopped 5 line 26 column 74",
        ["11 0 0 7101 0", "11 0 0 1 0", "11 0 0 7101 0"],
    ),
    // With less room the lines end at the `+ ` line that doesn't fit, which has no
    // fault.
    (
        Night,
        &[Put(25, 2, "G08")],
        1,
        &[7107],
        "stopped 12 line 3 column 0",
        ["10 12 0 8224 0", "10 12 0 0 0", "3 0 0 0 0"],
    ),
    (
        ManyFile(18),
        &[Put(42, 4, "x")],
        17,
        &[7101],
        "stopped 12 line 4 column 0",
        ["14 12 0 0 0", "14 12 0 0 0", "3 0 0 0 0"],
    ),
    // A repeat in the first `+ ` line, whatever is lent and needs room.
    (Night, &[Put(3, 13, "G07")], 2, &[7107], "stopped 8 line 3 column 0", ["3 0 0 0 1"; 3]),
    (Night, &[Put(3, 13, "G07")], 0, &[], "stopped 8 line 3 column 0", ["3 0 0 0 1"; 3]),
    (ManyFile(18), &[Put(3, 58, "G01")], 18, &[], "stopped 8 line 3 column 0", ["3 0 0 0 1"; 3]),
    // In a further one: of the line before, of its own; it is known by what is lent
    // for the lines before.
    (
        ManyFile(18),
        &[Put(4, 10, "G17")],
        18,
        &[7101],
        "stopped 8 line 4 column 0",
        ["3 0 0 0 1", "3 0 0 0 0", "3 0 0 0 1"],
    ),
    (
        ManyFile(18),
        &[Put(4, 10, "G01")],
        17,
        &[7101],
        "stopped 8 line 4 column 0",
        ["3 0 0 0 1"; 3],
    ),
    (
        ManyFile(18),
        &[Put(4, 10, "G17")],
        16,
        &[],
        "stopped 12 line 3 column 0",
        ["3 0 0 0 1", "3 0 0 0 0", "3 0 0 0 0"],
    ),
    (
        ManyFile(18),
        &[Put(4, 10, "G17")],
        17,
        &[1, 2, 3, 4, 5, 6, 7, 8, 9, 10, 11, 12, 13, 14, 15, 16, 17, 7117],
        "stopped 8 line 4 column 0",
        ["3 0 0 0 1", "3 0 0 0 0", "3 0 0 0 1"],
    ),
    (ManyFile(20), &[Put(4, 16, "G18")], 20, &[], "stopped 8 line 4 column 0", ["3 0 0 0 1"; 3]),
    (
        ManyFile(86),
        &[Put(8, 10, "G35")],
        86,
        &[],
        "stopped 8 line 8 column 0",
        ["3 0 0 0 1", "3 0 0 0 0", "3 0 0 0 1"],
    ),
    // A slot after n that is filled, with an identifier of the header too, is no
    // repeat, and is told before one.
    (Paper, &[Put(3, 13, "G08")], 1, &[7108], "stopped 8 line 3 column 0", ["3 0 0 0 0"; 3]),
    (Paper, &[Put(3, 13, "G07")], 1, &[7107], "stopped 8 line 3 column 0", ["3 0 0 0 0"; 3]),
    (Paper, &[Put(4, 10, "G07")], 1, &[7107], "stopped 8 line 4 column 0", ["3 0 0 0 0"; 3]),
    (ManyFile(20), &[Put(4, 19, "G18")], 20, &[], "stopped 8 line 4 column 0", ["3 0 0 0 0"; 3]),
    (Night, &[Put(3, 13, "G07G07")], 2, &[7107], "stopped 8 line 3 column 0", ["3 0 0 0 0"; 3]),
    (
        ManyFile(20),
        &[Put(4, 10, "G17G19G20G17")],
        20,
        &[7117],
        "stopped 8 line 4 column 0",
        ["3 0 0 0 0"; 3],
    ),
    // A repeat beside a fault with a lower number: 2 to 7.
    (
        Night,
        &[Put(3, 13, "G07"), Byte(3, 70, 9)],
        2,
        &[7107],
        "stopped 2 line 3 column 70",
        ["3 0 0 0 0"; 3],
    ),
    (
        Night,
        &[Put(3, 13, "G07"), Put(3, 81, " ")],
        2,
        &[7107],
        "stopped 3 line 3 column 81",
        ["3 0 0 0 0"; 3],
    ),
    (
        Night,
        &[Put(3, 13, "G07"), Put(3, 2, "+")],
        2,
        &[7107],
        "stopped 4 line 3 column 0",
        ["3 0 0 0 0"; 3],
    ),
    (
        Night,
        &[Put(3, 13, "G07"), Put(3, 61, "x")],
        2,
        &[7107],
        "stopped 5 line 3 column 61",
        ["3 0 0 0 0"; 3],
    ),
    (
        ManyFile(18),
        &[Put(3, 13, "G01G 3")],
        18,
        &[7101],
        "stopped 6 line 3 column 16",
        ["3 0 0 0 0"; 3],
    ),
    (
        ManyFile(20),
        &[Put(4, 10, "G17G 9")],
        20,
        &[7117],
        "stopped 6 line 4 column 13",
        ["3 0 0 0 0"; 3],
    ),
    (Night, &[Put(3, 10, "G 7G 7")], 2, &[7107], "stopped 6 line 3 column 10", ["3 0 0 0 0"; 3]),
    (Night, &[Put(3, 10, "G00G00")], 2, &[7100], "stopped 7 line 3 column 10", ["3 0 0 0 0"; 3]),
    (
        ManyFile(255),
        &[Put(3, 4, "000"), Put(3, 13, "G01")],
        255,
        &[],
        "stopped 7 line 3 column 4",
        ["3 0 0 0 0"; 3],
    ),
    // The last line of 999: it repeats the first identifier, which is known by what is
    // lent; a filled slot after the last satellite is no repeat.
    (
        ManyFile(999),
        &[Put(61, 46, "G01")],
        999,
        &[7101],
        "stopped 8 line 61 column 0",
        ["3 0 0 0 1"; 3],
    ),
    (
        ManyFile(999),
        &[Put(61, 46, "M95")],
        999,
        &[7101],
        "stopped 8 line 61 column 0",
        ["3 0 0 0 1", "3 0 0 0 0", "3 0 0 0 1"],
    ),
    (
        ManyFile(999),
        &[Put(61, 49, "Z10")],
        999,
        &[9010],
        "stopped 8 line 61 column 0",
        ["3 0 0 0 0"; 3],
    ),
    // 8 of other records.
    (Paper, &[Put(2, 4, "1735")], 1, &[7107], "stopped 8 line 2 column 0", ["2 0 0 0 0"; 3]),
    (Motion, &[Put(12, 58, "  7")], 2, &[7101], "stopped 8 line 12 column 0", ["4 0 0 0 0"; 3]),
    (Motion, &[Put(13, 4, "R ")], 2, &[7101], "stopped 8 line 13 column 0", ["5 0 0 0 0"; 3]),
    // 4: too few `+ ` and `++` lines and too many, a missing fourth comment, a
    // comment after the epoch, no epoch.
    (Paper, &[Drop(7)], 1, &[7107], "stopped 4 line 7 column 0", ["3 0 0 0 0"; 3]),
    (ManyFile(86), &[Drop(8)], 86, &[7101], "stopped 4 line 8 column 0", ["3 0 0 0 0"; 3]),
    (Paper, &[Swap(7, 8)], 1, &[7107], "stopped 4 line 7 column 0", ["3 0 0 0 0"; 3]),
    (Paper, &[Whole(8, "+ ")], 1, &[7107], "stopped 4 line 8 column 0", ["4 0 0 0 0"; 3]),
    (Paper, &[Drop(12)], 1, &[7107], "stopped 4 line 12 column 0", ["4 0 0 0 0"; 3]),
    (Paper, &[Drop(13)], 1, &[7107], "stopped 6 line 13 column 4", ["5 0 0 0 0"; 3]),
    (Paper, &[Drop(14)], 1, &[7107], "stopped 4 line 14 column 0", ["5 0 0 0 0"; 3]),
    (Paper, &[Drop(16)], 1, &[7107], "stopped 4 line 16 column 0", ["6 0 0 0 0"; 3]),
    (Paper, &[Drop(18)], 1, &[7107], "stopped 4 line 18 column 0", ["7 0 0 0 0"; 3]),
    (Paper, &[Drop(22)], 1, &[7107], "stopped 4 line 22 column 0", ["8 0 0 0 0"; 3]),
    (
        Paper,
        &[Drop(23)],
        1,
        &[7107],
        "stopped 4 line 23 column 0",
        ["9 8 487166400000000000 0 0"; 3],
    ),
    (Paper, &[Insert(24, "/*")], 1, &[7107], "stopped 4 line 24 column 0", ["10 0 0 7107 0"; 3]),
    (
        Paper,
        &[Insert(23, "/*x")],
        1,
        &[7107],
        "stopped 5 line 23 column 3",
        ["9 8 487166400000000000 0 0"; 3],
    ),
    // An epoch too many; EP and EV twice, in each other's place, in the wrong mode.
    (Paper, &[Insert(25, "*")], 1, &[7107], "stopped 4 line 25 column 0", ["14 12 0 0 0"; 3]),
    (Motion, &[Insert(30, "*")], 2, &[], "stopped 4 line 30 column 0", ["14 13 0 0 0"; 3]),
    (Paper, &[NOTE, BARE], 1, &[7107], "stopped 4 line 26 column 0", ["14 0 0 0 0"; 3]),
    (
        Notes,
        &[Insert(26, "EP")],
        2,
        &[],
        "stopped 4 line 26 column 0",
        ["10 0 0 8220 0", "10 0 0 0 0", "10 0 0 8220 0"],
    ),
    (Motion, &[Insert(26, "EP")], 2, &[7101], "stopped 4 line 26 column 0", ["11 0 0 7101 0"; 3]),
    (
        Motion,
        &[Insert(28, "EV")],
        2,
        &[7101, 7102],
        "stopped 4 line 28 column 0",
        ["10 0 0 7102 0"; 3],
    ),
    (Motion, &[Put(25, 2, "V")], 2, &[7101], "stopped 4 line 25 column 0", ["11 12 0 7101 0"; 3]),
    (
        Motion,
        &[Put(27, 2, "P")],
        2,
        &[7101, 7102],
        "stopped 4 line 27 column 0",
        ["10 13 0 7102 0"; 3],
    ),
    (Paper, &[Insert(25, "EV")], 1, &[7107], "stopped 4 line 25 column 0", ["14 12 0 0 0"; 3]),
    (Paper, &[Insert(25, "VG07")], 1, &[7107], "stopped 4 line 25 column 0", ["14 12 0 0 0"; 3]),
    (
        Motion,
        &[Drop(29)],
        2,
        &[],
        "stopped 4 line 29 column 0",
        ["11 12 0 7102 0", "11 12 0 0 0", "11 12 0 7102 0"],
    ),
    // EOF too early.
    (Paper, &[Whole(1, "EOF")], 1, &[7107], "stopped 4 line 1 column 0", ["1 0 0 0 0"; 3]),
    (Paper, &[Whole(3, "EOF")], 1, &[7107], "stopped 4 line 3 column 0", ["3 0 0 0 0"; 3]),
    (
        Paper,
        &[Whole(23, "EOF")],
        1,
        &[7107],
        "stopped 4 line 23 column 0",
        ["9 8 487166400000000000 0 0"; 3],
    ),
    (
        Night,
        &[Whole(26, "EOF")],
        2,
        &[7107],
        "stopped 4 line 26 column 0",
        ["9 12 486371520000000000 0 0"; 3],
    ),
    (
        Night,
        &[Whole(31, "EOF")],
        2,
        &[7107, 8224],
        "stopped 4 line 31 column 0",
        ["10 12 0 8224 0"; 3],
    ),
    (Motion, &[Whole(26, "EOF")], 2, &[7101], "stopped 4 line 26 column 0", ["11 0 0 7101 0"; 3]),
    // No LF is left, also where the bytes of a line without it repeat an identifier.
    (Nothing, &[], 1, &[7107], "stopped 1 line 1 column 0", ["1 0 0 0 0"; 3]),
    (Paper, &[Keep(1)], 1, &[7107], "stopped 1 line 2 column 0", ["2 0 0 0 0"; 3]),
    (Paper, &[Keep(2)], 1, &[7107], "stopped 1 line 3 column 0", ["3 0 0 0 0"; 3]),
    (
        Night,
        &[Put(3, 13, "G07"), Keep(3), Join(3)],
        2,
        &[7107],
        "stopped 1 line 3 column 0",
        ["3 0 0 0 0"; 3],
    ),
    (Paper, &[Keep(21)], 1, &[7107], "stopped 1 line 22 column 0", ["8 0 0 0 0"; 3]),
    (
        Paper,
        &[Keep(22)],
        1,
        &[7107],
        "stopped 1 line 23 column 0",
        ["9 8 487166400000000000 0 0"; 3],
    ),
    (Paper, &[Keep(23)], 1, &[7107], "stopped 1 line 24 column 0", ["10 0 0 7107 0"; 3]),
    (Paper, &[Join(25)], 1, &[7107], "stopped 1 line 25 column 0", ["14 12 0 0 0"; 3]),
];

/// Identifiers lent for those of 58 `+ ` lines, the last of them this one; the others
/// are no satellites, but all of them are G01 in the lowest 16 bits.
const fn lent_before(last: u64) -> [u64; 986] {
    let mut list = [last; 986];
    let mut place = 0;
    while place < 985 {
        list[place] = 7101 + ((1 + place as u64) << (16 * (1 + place % 3)));
        place += 1;
    }
    list
}

const NOT_G01: &[u64] = &lent_before(7101 + (1 << 16));
const THEN_G01: &[u64] = &lent_before(7101);
const THEN_Z09: &[u64] = &lent_before(9009);

/// Repeats in the last `+ ` line of 999 satellites and in the middle one, by the
/// identifiers that are lent for those before; these aren't stored.
const MANY_DUE: &[DueFile] = &[
    (
        ManyFile(999),
        &[Put(61, 46, "G01")],
        999,
        NOT_G01,
        "stopped 8 line 61 column 0",
        ["3 0 0 0 1", "3 0 0 0 0", "3 0 0 0 1"],
    ),
    (
        ManyFile(999),
        &[Put(61, 46, "G01")],
        999,
        THEN_G01,
        "stopped 8 line 61 column 0",
        ["3 0 0 0 1"; 3],
    ),
    // Of the file's own identifiers G01 is none that stands before in what is lent.
    (
        ManyFile(999),
        &[Put(61, 46, "G01")],
        999,
        THEN_Z09,
        "stopped 8 line 61 column 0",
        ["3 0 0 0 1", "3 0 0 0 0", "3 0 0 0 1"],
    ),
    (
        ManyFile(999),
        &[Put(61, 10, "Z09")],
        999,
        NOT_G01,
        "stopped 8 line 61 column 0",
        ["3 0 0 0 1"; 3],
    ),
    // Line 30: of 459 identifiers before it; with room for these alone.
    (
        ManyFile(999),
        &[Put(30, 58, "G01")],
        459,
        NOT_G01,
        "stopped 8 line 30 column 0",
        ["3 0 0 0 1", "3 0 0 0 0", "3 0 0 0 1"],
    ),
    (
        ManyBackwards(999),
        &[Put(61, 46, "Z09")],
        999,
        THEN_Z09,
        "stopped 8 line 61 column 0",
        ["3 0 0 0 1"; 3],
    ),
    (
        ManyOverLetters(999),
        &[Put(61, 46, "Z01")],
        999,
        THEN_G01,
        "stopped 8 line 61 column 0",
        ["3 0 0 0 1", "3 0 0 0 0", "3 0 0 0 1"],
    ),
    // At the rows the satellite that must come is the one that is lent.
    (
        ManyFile(999),
        &[Put(132 + 985, 2, "G01")],
        999,
        THEN_Z09,
        "stopped 10 line 1117 column 0",
        ["10 12 0 7795 0", "10 12 0 9009 0", "10 12 0 7795 0"],
    ),
];

// ---------------------------------------------------------------------------
// Generated cases
// ---------------------------------------------------------------------------

/// Makes a file with the identifiers that it was planned with.
type MakePart = fn(&mut Random) -> (Vec<u64>, Vec<u8>);

/// A generated file of moderate length.
fn generate_part(random: &mut Random) -> (Vec<u64>, Vec<u8>) {
    loop {
        let (plan, file) = files::generate_file(random);
        if file.len() <= 6000 || once_in(random, 20) {
            return (plan.identifiers, file);
        }
    }
}

/// A generated file of any length.
fn generate_any_part(random: &mut Random) -> (Vec<u64>, Vec<u8>) {
    let (plan, file) = files::generate_any_file(random);
    (plan.identifiers, file)
}

fn generate_accepted(random: &mut Random, part: MakePart) -> (Vec<u64>, Vec<u8>) {
    loop {
        let (identifiers, file) = part(random);
        if files::judge(&file).is_ok() {
            return (identifiers, file);
        }
    }
}

const SHORT_RESTS: &[&[u8]] = &[
    b"\n", b"x", b"#", b"#d", b"#c", b"#d\n", b"#c\n", b"#dP", b"#cP", b"EOF", b"EOF\n", b"EOF \n",
    b"\x00", b"\xff\n", b" \n", b"\n\n", b"EP\n", b"/*\n", b"\r\n", b"\x1a", b"* \n",
];

/// What may stand after accepted files: nothing, a beginning of one, garbage,
/// a damaged one.
fn generate_rest(random: &mut Random, part: MakePart) -> Vec<u8> {
    match random.below(10) {
        0..=2 => Vec::new(),
        3 => random.pick(SHORT_RESTS).to_vec(),
        4 => (0..random.below(100)).map(|_| random.next() as u8).collect(),
        5 => {
            let (_, mut file) = generate_accepted(random, part);
            let kept = file.len() - 1 - random.below(file.len().min(80));
            file.truncate(if once_in(random, 2) { kept } else { random.below(file.len()) });
            file
        }
        _ => part(random).1,
    }
}

/// One byte another, gone or more; one line gone, twice or exchanged.
fn spoil(stretch: &mut Vec<u8>, random: &mut Random) {
    if stretch.is_empty() {
        return;
    }
    let place = random.below(stretch.len());
    let byte = *random.pick(b"\n\n 09xGP\r\x00\x7f\xff");
    match random.below(6) {
        0 => stretch[place] = byte,
        1 => stretch.insert(place, byte),
        2 => drop(stretch.remove(place)),
        kind => {
            let mut lines: Vec<Vec<u8>> =
                stretch.split_inclusive(|&c| c == b'\n').map(<[u8]>::to_vec).collect();
            let (line, other) = (random.below(lines.len()), random.below(lines.len()));
            match kind {
                3 => drop(lines.remove(line)),
                4 => lines.insert(line, lines[line].clone()),
                _ => lines.swap(line, other),
            }
            *stretch = lines.concat();
        }
    }
}

/// Mostly the identifiers of the header; sometimes others, fewer or more.
fn spoil_identifiers(identifiers: &mut Vec<u64>, random: &mut Random) {
    let place = random.below(identifiers.len());
    match random.below(12) {
        0 => identifiers.truncate(place),
        1 => identifiers[place] = *random.pick(&[0, 1, 7101, 7107, 8224, 9099, 999_999_999_999]),
        2 => identifiers.push(*random.pick(&[0, 7101, 7107, 8224])),
        3 => identifiers.swap(0, place),
        4 => identifiers[place] += *random.pick(&[1, 100]),
        _ => {}
    }
    identifiers.truncate(MOST_IDENTIFIERS);
}

fn generate_files(random: &mut Random, part: MakePart) -> (Vec<u64>, Vec<u8>) {
    let count = *random.pick(&[1, 1, 1, 2, 2, 3, 4, 5]);
    let parts: Vec<_> = (0..count).map(|_| generate_accepted(random, part)).collect();
    let rest = generate_rest(random, part);
    let bytes = parts.iter().flat_map(|(_, file)| file.clone()).chain(rest).collect();
    (parts[0].0.clone(), bytes)
}

fn choose_room(random: &mut Random, needed: usize, most: usize) -> usize {
    let room = match random.below(10) {
        0 | 1 => needed.saturating_sub(1),
        2 => random.below(needed + 1),
        3 => 0,
        4 | 5 => needed + 1 + random.below(9),
        6 => most,
        _ => needed,
    };
    room.min(most)
}

/// A file alone, or files laid end to end: whether it is one, the identifiers of the
/// first, and the bytes.
fn generate_stretch(random: &mut Random, part: MakePart) -> (bool, Vec<u64>, Vec<u8>) {
    let single = once_in(random, 2);
    let (identifiers, mut stretch) =
        if single { part(random) } else { generate_files(random, part) };
    if once_in(random, if single { 6 } else { 3 }) {
        spoil(&mut stretch, random);
    }
    (single, identifiers, stretch)
}

/// The stretch with rooms, and identifiers that are the header's or not.
fn lend(random: &mut Random, single: bool, mut identifiers: Vec<u64>, stretch: Vec<u8>) -> Case {
    let room = choose_room(random, divide(&stretch).lengths.len(), MOST_LENGTHS);
    let identifier_room = choose_room(random, identifiers.len(), MOST_IDENTIFIERS);
    spoil_identifiers(&mut identifiers, random);
    let way = Way::walked(single || once_in(random, 3));
    Case { stretch, room, way, identifier_room, identifiers }
}

fn generate_case(random: &mut Random) -> Case {
    loop {
        let (single, identifiers, stretch) = generate_stretch(random, generate_part);
        if stretch.len() <= files::MOST_BYTES {
            return lend(random, single, identifiers, stretch);
        }
    }
}

/// Stretches of any length; some of those that are not too long are read line
/// by line.
fn generate_any_case(random: &mut Random) -> Case {
    let (single, identifiers, stretch) = generate_stretch(random, generate_any_part);
    let mut case = lend(random, single, identifiers, stretch);
    if once_in(random, 12) && !case.identifiers.is_empty() {
        let far = *random.pick(&[1 << 8, 1 << 16, 1 << 32, u64::MAX]);
        let place = random.below(case.identifiers.len());
        case.identifiers[place] = case.identifiers[place].wrapping_add(far);
    }
    let read = case.stretch.len() <= 20_000 && once_in(random, 3);
    Case { way: if read { Way::Read } else { case.way }, ..case }
}

// ---------------------------------------------------------------------------
// The stored cases
// ---------------------------------------------------------------------------

/// Those worked out by hand; every fifth of the stretches is walked too, and the
/// files of which is told what is due end with their fault.
fn hand_cases() -> Vec<Case> {
    let due = DUE.iter().map(|&(base, edits, room, identifiers, ..)| {
        let mut case = walked_case(base, edits, room, identifiers);
        files::cut_after_fault(&mut case.stretch);
        case
    });
    let divided = divided_cases(DIVIDED).chain(divided_cases(MIXED));
    divided.chain(walked_cases(WALKED)).chain(walked_cases(OLDER_WALKED)).chain(due).collect()
}

/// All of them, stored or not; those read line by line are not.
fn all_hand_cases() -> Vec<Case> {
    let many_due = MANY_DUE
        .iter()
        .map(|&(base, edits, room, identifiers, ..)| walked_case(base, edits, room, identifiers));
    let many = divided_cases(MANY_DIVIDED).chain(walked_cases(MANY_WALKED)).chain(many_due);
    let read = READ.iter().map(|&(base, edits, room, _)| (base, edits, room));
    let due = DUE.iter().chain(MANY_DUE).map(|&(base, edits, room, ..)| (base, edits, room));
    let by_lines = read.chain(due).map(|(base, edits, identifier_room)| Case {
        way: Way::Read,
        ..walked_case(base, edits, identifier_room, &[])
    });
    hand_cases().into_iter().chain(many).chain(by_lines).collect()
}

fn divided_cases(list: &'static [Divided]) -> impl Iterator<Item = Case> {
    list.iter().enumerate().map(|(place, &(parts, room, ..))| Case {
        stretch: joined(parts),
        room,
        way: Way::walked(place % 5 == 0),
        identifier_room: 2,
        identifiers: vec![7107, 8224],
    })
}

fn walked_cases(list: &'static [Walked]) -> impl Iterator<Item = Case> {
    list.iter()
        .map(|&(base, edits, room, identifiers, _)| walked_case(base, edits, room, identifiers))
}

fn walked_case(base: Base, edits: &[Edit], identifier_room: usize, identifiers: &[u64]) -> Case {
    let (stretch, identifiers) = (files::hand_made(base, edits), identifiers.to_vec());
    Case { stretch, room: 1, way: Way::Walked, identifier_room, identifiers }
}

fn stored_cases() -> Vec<Case> {
    files::filled_up(hand_cases(), generate_case, |case| case.stretch.len() < 5000)
}

// ---------------------------------------------------------------------------
// Self-test
// ---------------------------------------------------------------------------

fn test_divided(tally: &mut Tally) {
    for &(parts, room, wanted, lengths) in DIVIDED.iter().chain(MIXED).chain(MANY_DIVIDED) {
        let found = divide_into(&joined(parts), room);
        let Refusal { number, line, column } = found.refusal;
        let numbers = [number.into(), line, column, found.lengths.len(), found.rest];
        tally.holds(numbers == wanted && found.lengths == lengths, || {
            format!(
                "{parts:?} {room}\n  wanted {wanted:?}\n  given  {numbers:?} {:?}",
                found.lengths
            )
        });
    }
}

fn test_walked(tally: &mut Tally) {
    let walked = WALKED.iter().chain(OLDER_WALKED).chain(MANY_WALKED);
    for &(base, edits, room, identifiers, wanted) in walked {
        let answer = walked_case(base, edits, room, identifiers).show_walked();
        let missing = files::missing_line(&answer, wanted);
        tally.holds(missing.is_none(), || {
            format!("{base:?} {edits:?}\n  wanted {missing:?}\n  given {answer}")
        });
        tally.made += wanted.len() - 1;
    }
}

fn test_read(tally: &mut Tally) {
    for &(base, edits, room, wanted) in READ {
        let answer = show_read(&files::hand_made(base, edits), room);
        let missing = files::missing_line(&answer, wanted);
        tally.holds(missing.is_none(), || {
            format!("{base:?} {edits:?} {room}\n  wanted {missing:?}\n  given {answer}")
        });
        tally.made += wanted.len() - 1;
    }
}

/// What must stand, in a walk and where the lines are read one by one.
fn test_due(tally: &mut Tally) {
    for &(base, edits, room, identifiers, end, [all, given, short]) in DUE.iter().chain(MANY_DUE) {
        let case = walked_case(base, edits, room, identifiers);
        let walked = case.show_walked();
        let tells = |line: &&str| line.starts_with("due ") || line.starts_with("given ");
        let told: Vec<&str> = walked.lines().filter(tells).collect();
        let wanted = [format!("due {all}"), format!("given {given}"), format!("due {short}")];
        tally.holds(told == wanted, || {
            format!("{base:?} {edits:?} {room}\n  wanted {wanted:?}\n  given  {told:?}")
        });
        let read = show_read(&case.stretch, room);
        let wanted = format!("{end}\ndue {short}\nidentifiers");
        tally.holds(read.contains(&wanted), || {
            format!("{base:?} {edits:?} {room}\n  wanted {wanted:?}\n  given {read}")
        });
    }
}

/// With less room than satellites a walk stays at the first `+ ` line that the
/// list is too short for: each brings 17, the last those that are left.
fn test_rooms(tally: &mut Tally) {
    for n in [1, 2, 16, 17, 18, 34, 35, 85, 86, 254, 255, 256, 986, 987, 999] {
        let file = files::hand_made(ManyFile(n), &[]);
        // of many satellites the rooms near both ends of each `+ ` line
        for room in (0..=n + 1).filter(|room| n < 256 || [0, 16].contains(&(room % 17))) {
            let short = room < n;
            let refusal = short.then_some(Refusal { number: 12, line: 3 + room / 17, column: 0 });
            let kept = if short { room / 17 * 17 } else { n };
            let found = walk(&file, room);
            let same = found.read.refusal == refusal && found.identifiers().len() == kept;
            tally.holds(same, || format!("{n}, room for {room}: {:?}", found.read.refusal));
        }
    }
}

/// Every cut of two files: the first is found as soon as it is whole, and what
/// is left of the second is refused with 1 in its unfinished line.
fn test_cuts(tally: &mut Tally) {
    let stretch = joined(&[P, M]);
    for length in 0..=stretch.len() {
        let found = divide(&stretch[..length]);
        let first = if length < 1215 { 0 } else { 1215 };
        let line = 1 + stretch[first..length].iter().filter(|&&c| c == b'\n').count();
        let wanted = match length {
            0 | 1215 => (NOTHING_LEFT, usize::from(length > 0), first),
            2820 => (NOTHING_LEFT, 2, 2820),
            _ => (Refusal { number: 1, line, column: 0 }, usize::from(first > 0), first),
        };
        let found = (found.refusal, found.lengths.len(), found.rest);
        tally.holds(found == wanted, || format!("cut to {length}: {found:?}"));
    }
}

/// Accepted files laid end to end divide into just these.
fn test_joined(tally: &mut Tally) {
    for number in 1..=300 {
        let make = |random: &mut Random| -> Vec<Vec<u8>> {
            (0..1 + random.below(5)).map(|_| generate_accepted(random, generate_part).1).collect()
        };
        let parts = generated(make, files::STORED_SEED + 2, number);
        let found = divide(&parts.concat());
        let same = found.lengths == parts.iter().map(Vec::len).collect::<Vec<_>>();
        let all = found.rest == parts.concat().len() && found.refusal == NOTHING_LEFT;
        tally.holds(same && all, || format!("files {number}: {:?}", found.lengths));
    }
}

/// A walk of an accepted file gives what the row question gives for each epoch
/// and satellite, in order; with its own identifiers it is refused as the file is, and
/// so is a walk over lines that learns them; and spots go on from one to the
/// next.
fn test_walks(tally: &mut Tally) {
    for number in 1..=1500 {
        let stretch = generated(generate_case, files::STORED_SEED + 3, number).stretch;
        let front = files::judge_front(&stretch);
        let own = files::follow(&stretch, None).table.identifiers;
        let (rows, walk) = (walk_rows(&stretch, &own), walk(&stretch, MOST_SATELLITES));
        let refused = front.as_ref().err().copied();
        tally.holds(rows.refusal == refused, || format!("rows {number}: {:?}", rows.refusal));
        let stopped = walk.read.refusal;
        tally.holds(stopped == refused, || format!("walk {number}: {stopped:?}"));
        tally.holds(walk.identifiers() == own, || format!("walk {number}: its identifiers"));
        if let Ok((table, length)) = front {
            let pairs =
                |epoch| (0..table.identifiers.len()).map(move |satellite| (epoch, satellite));
            let asked = (0..table.epochs).flat_map(pairs).map(|(epoch, satellite)| {
                files::row(&stretch[..length], epoch, satellite).map(|row| show_row(&row))
            });
            let same = asked.eq(rows.rows.iter().map(|row| Ok(show_row(row))));
            tally.holds(same, || format!("rows {number}: the rows"));
        }
        let all = walk.passed();
        let ends: Vec<usize> = (0..=all).map(|lines| walk.after(lines).at).collect();
        let is_line = |pair: &[usize]| {
            let line = &stretch[pair[0]..pair[1]];
            line.iter().position(|&c| c == b'\n') == Some(line.len() - 1)
        };
        let lines = ends[0] == 0 && ends.windows(2).all(is_line);
        tally.holds(lines, || format!("walk {number}: its spots"));
        tally.holds(walk.after(all) == walk.after(all + 7), || format!("walk {number}: its end"));
    }
}

fn self_test() {
    let mut tally = Tally::default();
    test_divided(&mut tally);
    test_walked(&mut tally);
    test_read(&mut tally);
    test_due(&mut tally);
    let by_hand = tally.made;
    test_rooms(&mut tally);
    test_cuts(&mut tally);
    test_joined(&mut tally);
    test_walks(&mut tally);
    files::test_batches(&mut tally, stored_cases(), parse_batch);
    tally.tell(by_hand);
}

// ---------------------------------------------------------------------------
// The program
// ---------------------------------------------------------------------------

fn main() {
    let arguments: Vec<String> = std::env::args().skip(1).collect();
    let words: Vec<&str> = arguments.iter().map(String::as_str).collect();
    let usage =
        "usage: answer | generate SEED COUNT | case SEED NUMBER | cases | check CRATE_DIR\n\
         | self-test | count | compare SEED COUNT PROGRAM [ARGS..] | any ..\n\
         | hand [case NUMBER | compare PROGRAM [ARGS..]]";
    match words[..] {
        ["self-test"] => self_test(),
        ["hand", ref rest @ ..] => files::obey_list("hand", &all_hand_cases(), rest, usage),
        ["any", ref rest @ ..] => {
            files::obey(rest, parse_batch, generate_any_case, stored_cases, usage);
        }
        _ => files::obey(&words, parse_batch, generate_case, stored_cases, usage),
    }
}
