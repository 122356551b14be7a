//! Each refusal with its line and column, and lent memory that stays as it was.

mod common;

use common::{many, motion, night, paper, refused, Draft, SAMPLE};
use sp3::{Header, Refusal, Table, MOST_SATELLITES};

/// Four lists to lend.
#[derive(Clone, Debug, PartialEq)]
struct Lent {
    identifiers: Vec<u64>,
    exponents: Vec<u64>,
    comments: Vec<u8>,
    rows: Vec<i64>,
}

impl Lent {
    /// Lists of these lengths, filled with marks that no file leaves.
    fn marked([identifiers, exponents, comments, rows]: [usize; 4]) -> Lent {
        Lent {
            identifiers: vec![77_777; identifiers],
            exponents: vec![88_888; exponents],
            comments: vec![199; comments],
            rows: vec![-5_555_555_555_555; rows],
        }
    }

    /// Reads a whole file into the lists.
    fn read(&mut self, file: &[u8]) -> Result<sp3::Reading, Refusal> {
        let Lent { identifiers, exponents, comments, rows } = self;
        sp3::read(file, identifiers, exponents, comments, rows)
    }

    /// Reads the file at the front of a stretch.
    fn read_front(&mut self, stretch: &[u8]) -> Result<sp3::Reading, Refusal> {
        let Lent { identifiers, exponents, comments, rows } = self;
        sp3::read_front(stretch, identifiers, exponents, comments, rows)
    }
}

/// A file that is refused, by number, line and column: the paper's, or that with velocities, with one alteration or two.
fn refused_files() -> Vec<(u8, u64, usize, Vec<u8>)> {
    let of = |number, line, column, draft: Draft| (number, line, column, draft.bytes());
    let row = |text: &str| paper().without(24).with(24, text);
    vec![
        (1, 1, 0, Vec::new()),
        (1, 25, 0, SAMPLE[..SAMPLE.len() - 1].to_vec()),
        (1, 24, 0, SAMPLE[..SAMPLE.len() - 5].to_vec()),
        of(2, 1, 61, paper().put(1, 61, "\r")),
        of(2, 19, 4, paper().put(19, 4, "\t")),
        of(2, 19, 9, paper().put(19, 9, "\x7f").put(19, 40, "\x7f")),
        of(2, 19, 80, paper().put(19, 80, "\x7f")),
        of(2, 19, 200, paper().put(19, 300, "-").put(19, 200, "\x7f")),
        of(3, 19, 81, paper().put(19, 81, " ")),
        of(3, 19, 81, paper().put(19, 300, "-")),
        of(4, 1, 0, paper().put(1, 2, "a")),
        of(4, 24, 0, paper().without(24)),
        of(4, 25, 0, paper().with(25, "EV")),
        of(4, 26, 0, paper().with(25, "EP").with(26, "EP")),
        of(4, 27, 0, motion().without(27).with(27, "EP")),
        of(5, 25, 4, paper().put(25, 4, "X")),
        of(5, 1, 8, paper().put(1, 4, "20x3-")),
        of(5, 23, 11, paper().put(23, 11, "-").put(23, 12, "x")),
        of(5, 3, 63, paper().put(3, 63, "0")),
        of(5, 24, 61, paper().put(24, 70, "x").put(24, 61, "x")),
        of(5, 26, 75, motion().put(26, 75, "E")),
        of(5, 24, 61, paper().end(24, 47, " 999999.     0x")),
        of(5, 14, 4, paper().put(14, 4, "xx")),
        of(5, 14, 56, paper().put(14, 60, "C")),
        of(5, 25, 3, paper().with(25, "EPx")),
        of(5, 25, 72, paper().with(25, "EP").put(25, 72, "x")),
        of(6, 1, 3, paper().put(1, 3, "v")),
        of(6, 1, 4, paper().put(1, 12, "3 ")),
        of(6, 23, 15, paper().put(23, 9, "13").put(23, 15, "2x")),
        of(6, 3, 13, paper().put(3, 4, "999")),
        of(6, 13, 4, paper().put(13, 4, "Gx")),
        of(6, 13, 10, paper().put(13, 10, "gps")),
        of(6, 24, 2, row("P")),
        of(6, 24, 2, paper().put(24, 3, " ")),
        of(6, 24, 5, row("PG07")),
        of(6, 24, 5, paper().put(24, 5, "  5000.0000001")),
        of(6, 24, 5, paper().put(24, 5, " 999999.      ")),
        of(6, 24, 47, paper().put(24, 47, " 999999.     0")),
        of(6, 24, 47, paper().end(24, 47, "-999999.")),
        of(6, 29, 47, motion().end(29, 47, " 999998.")),
        of(6, 24, 75, paper().put(24, 75, "e")),
        of(6, 25, 5, paper().with(25, "EP    -1")),
        of(6, 27, 73, motion().put(27, 80, "x")),
        of(7, 1, 4, paper().put(1, 12, "31")),
        of(7, 1, 4, paper().put(1, 9, "13").put(1, 15, "24")),
        of(7, 3, 4, paper().put(3, 4, "000")),
        of(7, 3, 10, paper().put(3, 10, "G00")),
        of(7, 23, 21, paper().put(23, 21, "60.00000000")),
        of(7, 24, 2, paper().put(24, 2, "G00")),
        of(7, 24, 5, paper().put(24, 5, "1000000.000000").put(24, 47, "1000000.000000")),
        of(7, 29, 47, motion().put(29, 47, "1000000.000000")),
        of(7, 25, 28, paper().with(25, "EP").put(25, 28, "10000000")),
        of(8, 2, 0, paper().put(2, 4, "1735")),
        of(8, 3, 0, paper().put(3, 6, "2").put(3, 13, "G07")),
        of(8, 3, 0, paper().put(3, 13, "G08")),
        of(8, 13, 0, paper().put(13, 4, "R")),
        of(9, 23, 0, paper().put(23, 18, " 1")),
        of(10, 24, 0, paper().put(24, 4, "8")),
        of(10, 24, 0, paper().put(24, 4, "8").end(24, 47, " 999999.")),
        (11, 26, 0, [SAMPLE, b" "].concat()),
        (11, 26, 0, SAMPLE.repeat(2)),
    ]
}

/// Room for the paper's file: 1 identifier, 1 exponent, 4 comments, 1 row.
const PAPER_ROOM: [usize; 4] = [1, 1, 4 * 77, 23];

#[test]
fn numbers_1_to_11_with_their_lines_and_columns() {
    for (number, line, column, file) in refused_files() {
        assert_eq!(sp3::judge(&file), refused(number, line, column));
        let mut lent = Lent::marked([MOST_SATELLITES, MOST_SATELLITES, 1000, 1000]);
        let before = lent.clone();
        assert_eq!(lent.read(&file), refused(number, line, column));
        assert_eq!(lent, before, "a refusal {number} changed what was lent");
    }
    let numbers: Vec<u8> = refused_files().iter().map(|file| file.0).collect();
    assert!((1..=11).all(|number| numbers.contains(&number)));
}

#[test]
fn questions_give_the_files_own_refusal_first() {
    for (number, line, column, file) in refused_files() {
        assert_eq!(Table::read(&file), refused(number, line, column));
        assert_eq!(sp3::comment(&file, 99), refused(number, line, column));
        assert_eq!(sp3::comment_answer(&file, 0), refused(number, line, column));
        assert_eq!(sp3::satellite_of(&file, 0), refused(number, line, column));
        assert_eq!(sp3::row(&file, 99, 99), refused(number, line, column));
        assert_eq!(sp3::rows(&file).map(|_| ()), refused(number, line, column));
        let mut identifiers = [77_777; MOST_SATELLITES];
        assert_eq!(sp3::begin(&file, &mut identifiers).map(|_| ()), refused(number, line, column));
        assert_eq!(identifiers, [77_777; MOST_SATELLITES]);
    }
}

#[test]
fn a_file_at_the_front_is_never_11() {
    for (number, line, column, file) in refused_files() {
        let front = sp3::judge_front(&file).map(|reading| reading.length);
        match number {
            11 => assert_eq!(front, Ok(SAMPLE.len())),
            _ => assert_eq!(front, refused(number, line, column)),
        }
        assert_eq!(Table::read_front(&file).map(|(_, length)| length), front);
        let mut lent = Lent::marked([MOST_SATELLITES, MOST_SATELLITES, 1000, 1000]);
        assert_eq!(lent.read_front(&file).map(|reading| reading.length), front);
    }
}

#[test]
fn number_12_where_any_list_is_one_short() {
    for short in 0..4 {
        let mut room = PAPER_ROOM;
        room[short] -= 1;
        let mut lent = Lent::marked(room);
        let before = lent.clone();
        assert_eq!(lent.read(SAMPLE), refused(12, 0, 0));
        assert_eq!(lent.read_front(SAMPLE), refused(12, 0, 0));
        assert_eq!(lent, before);
    }
    assert!(Lent::marked(PAPER_ROOM).read(SAMPLE).is_ok());
    assert_eq!(sp3::begin(SAMPLE, &mut []).map(|_| ()), refused(12, 0, 0));
}

#[test]
fn places_past_those_filled_stay() {
    let table = Table::read(SAMPLE).unwrap();
    let mut lent = Lent::marked(PAPER_ROOM.map(|room| room + 3));
    let mut expected = lent.clone();
    expected.identifiers[..1].copy_from_slice(&table.identifiers);
    expected.exponents[..1].copy_from_slice(&table.exponents);
    expected.comments[..4 * 77].copy_from_slice(&table.comments);
    expected.rows[..23].copy_from_slice(&table.rows);
    let reading = lent.read(SAMPLE).unwrap();
    let (length, header) = (SAMPLE.len(), common::paper_header());
    assert_eq!(reading, sp3::Reading { length, header, version: sp3::Version::D });
    assert_eq!(lent, expected);
    let mut front = Lent::marked(PAPER_ROOM.map(|room| room + 3));
    assert_eq!(front.read_front(&SAMPLE.repeat(2)), Ok(reading));
    assert_eq!(front, expected);
}

#[test]
fn number_13_for_what_is_not_there() {
    assert_eq!(sp3::comment(SAMPLE, 4), refused(13, 0, 0));
    assert_eq!(sp3::comment(SAMPLE, u64::MAX), refused(13, 0, 0));
    assert_eq!(sp3::satellite_of(SAMPLE, 7108), refused(13, 0, 0));
    assert_eq!(sp3::row(SAMPLE, 1, 0), refused(13, 0, 0));
    assert_eq!(sp3::row(SAMPLE, 0, 1), refused(13, 0, 0));
    assert_eq!(sp3::row(SAMPLE, u64::MAX, u64::MAX), refused(13, 0, 0));
    assert_eq!(sp3::place_of(&[1; 45], 1), refused(13, 0, 0));
    assert_eq!(sp3::clock_of(&[1; 45], usize::MAX), refused(13, 0, 0));
    assert_eq!(sp3::exponent_of(&[1; 23], 0, 4), refused(13, 0, 0));
    assert_eq!(sp3::flag_of(&[1; 23], 0, usize::MAX), refused(13, 0, 0));
    assert_eq!(sp3::note_of(&[1; 45], 1), refused(13, 0, 0));
    assert_eq!(sp3::note_deviation_of(&[1; 23], 0, 4), refused(13, 0, 0));
    assert_eq!(sp3::note_correlation_of(&[1; 23], 0, 6), refused(13, 0, 0));
    assert_eq!(sp3::note_correlation_of(&[1; 45], 1, 0), refused(13, 0, 0));
}

/// Has a correlation record after the row of the paper's table, with one of its ten numbers.
fn note(table: &mut Table, place: usize, number: i64) {
    table.rows[12] = 1;
    table.rows[place] = number;
}

/// Tables that no accepted file has, each made from the paper's by one alteration.
fn invalid_tables() -> Vec<Table> {
    let alterations: [fn(&mut Table); 25] = [
        |table| table.exponents[0] = 1000,
        |table| table.identifiers.clear(),
        |table| table.exponents.clear(),
        |table| table.comments.truncate(4 * 77 - 1),
        |table| table.rows.truncate(22),
        |table| table.identifiers[0] = 7100,
        |table| table.comments[0] = b'\n',
        |table| table.rows[0] = 1_000_000_000_000,
        |table| table.rows[3] = 999_999_000_000,
        |table| table.rows[3] = 999_999_999_998,
        |table| table.rows[3] = -1_000_000_000_000,
        |table| table.rows[12] = 2,
        |table| table.rows[13] = 5,
        |table| table.rows[22] = 0,
        |table| note(table, 13, 10_000),
        |table| note(table, 14, -1),
        |table| note(table, 16, 10_000_000),
        |table| note(table, 17, 10_000_000),
        |table| note(table, 22, -10_000_000),
        |table| note(table, 22, -100_000_000),
        |table| note(table, 22, i64::MIN),
        |table| table.header.comments = 3,
        |table| table.header.epochs = 0,
        |table| table.header.satellites = u64::MAX,
        |table| table.header.file_type = b'R',
    ];
    let altered = |alter: &fn(&mut Table)| {
        let mut table = Table::read(SAMPLE).unwrap();
        alter(&mut table);
        table
    };
    alterations.iter().map(altered).collect()
}

#[test]
fn number_13_for_a_table_that_is_not_valid_and_the_output_stays() {
    for table in invalid_tables() {
        let mut out = vec![199; 2000];
        for room in [0, 2000] {
            let out = &mut out[..room];
            let (identifiers, comments) = (&table.identifiers, &table.comments);
            let answer = sp3::write(
                &table.header,
                identifiers,
                &table.exponents,
                comments,
                &table.rows,
                out,
            );
            assert_eq!(answer, refused(13, 0, 0), "{table:?}");
        }
        assert_eq!(out, [199; 2000]);
        assert_eq!(table.write(), refused(13, 0, 0));
    }
}

#[test]
fn output_of_every_room() {
    let table = Table::read(SAMPLE).unwrap();
    let write = |out: &mut [u8]| {
        let (identifiers, comments) = (&table.identifiers, &table.comments);
        sp3::write(&table.header, identifiers, &table.exponents, comments, &table.rows, out)
    };
    for room in 0..SAMPLE.len() {
        let mut out = vec![199; room];
        assert_eq!(write(&mut out), refused(12, 0, 0));
        assert_eq!(out, vec![199; room]);
    }
    let mut out = vec![199; SAMPLE.len() + 3];
    assert_eq!(write(&mut out), Ok(SAMPLE.len()));
    assert_eq!(out, [SAMPLE, &[199; 3]].concat());
}

#[test]
fn empty_slices() {
    assert_eq!(Lent::marked([0; 4]).read(b""), refused(1, 1, 0));
    assert_eq!(Lent::marked([0; 4]).read(SAMPLE), refused(12, 0, 0));
    assert_eq!(sp3::judge_front(b""), refused(1, 1, 0));
    assert_eq!(sp3::place_of(&[], 0), refused(13, 0, 0));
    assert_eq!(sp3::stored_row(&[], 0), refused(13, 0, 0));
    assert_eq!(sp3::identifier(b""), None);
    let header = common::paper_header();
    assert_eq!(sp3::write(&header, &[], &[], &[], &[], &mut []), refused(13, 0, 0));
    let nothing = sp3::Divided { count: 0, rest: 0, refusal: None };
    assert_eq!(sp3::divide(b"", &mut []), Ok(nothing));
    let empty = sp3::Division { files: Vec::new(), rest: 0, refusal: None };
    assert_eq!(sp3::divide_all(b""), empty);
    assert_eq!(sp3::next_row(b"", &[], sp3::first_row()), refused(1, 1, 0));
    assert_eq!(sp3::after_lines(b"", &mut [], sp3::first_spot(), 9), sp3::first_spot());
}

#[test]
fn a_stretch_and_its_rest() {
    let files = [SAMPLE.to_vec(), night().bytes(), motion().bytes(), many(256).write().unwrap()];
    let wrong = paper().put(23, 18, " 1").bytes();
    let stretch = [files.concat(), wrong.clone()].concat();
    let rest = stretch.len() - wrong.len();
    let refusal = Some(Refusal { number: 9, line: 23, column: 0 });
    let mut lengths = [99; 6];
    let divided = sp3::divide(&stretch, &mut lengths);
    assert_eq!(divided, Ok(sp3::Divided { count: 4, rest, refusal }));
    let expected: Vec<u64> = files.iter().map(|file| file.len() as u64).collect();
    assert_eq!(lengths, [&expected[..], &[99, 99]].concat()[..]);
    let division = sp3::divide_all(&stretch);
    assert_eq!((division.rest, division.refusal), (rest, refusal));
    let parts: Vec<&[u8]> = division.files.into_iter().map(|file| &stretch[file]).collect();
    assert_eq!(parts, files);
    let mut short = [99; 3];
    assert_eq!(sp3::divide(&stretch, &mut short), refused(12, 0, 0));
    assert_eq!(short, [99; 3]);
}

/// A division tells line and column of its rest by that rest alone, and 11 never occurs.
#[test]
fn what_is_left_is_refused_as_it_is_alone() {
    for (number, line, column, file) in refused_files() {
        let division = sp3::divide_all(&[SAMPLE, &file].concat());
        let refusal = Some(Refusal { number, line, column });
        match (number, file.is_empty()) {
            (11, _) => assert!(division.files.len() >= 2),
            (_, true) => assert_eq!(division.refusal, None),
            _ => assert_eq!((division.files.len(), division.refusal), (1, refusal)),
        }
    }
}

/// A walk over a file that is refused stops at that line; bytes after EOF are none of its concern.
#[test]
fn a_walk_is_refused_as_its_file_is() {
    for (number, line, column, file) in refused_files() {
        let identifiers = if file.starts_with(b"#dV") { [7101, 7102] } else { [7107, 0] };
        let mut walk = sp3::first_row();
        while let Ok(Some((_, next))) = sp3::next_row(&file, &identifiers, walk) {
            walk = next;
        }
        let expected = if number == 11 { Ok(None) } else { refused(number, line, column) };
        assert_eq!(sp3::next_row(&file, &identifiers, walk), expected);
    }
}

#[test]
fn words_and_errors() {
    let refusal = sp3::judge(&paper().put(23, 18, " 1").bytes()).unwrap_err();
    assert_eq!(refusal.to_string(), "refused 9 line 23: an epoch stands at the wrong instant");
    let bounded = sp3::judge(&paper().put(24, 5, "1000000.000000").bytes()).unwrap_err();
    let words = "refused 7 line 24 column 5: a number or date is outside its bounds";
    assert_eq!(bounded.to_string(), words);
    let short = sp3::begin(SAMPLE, &mut []).unwrap_err();
    assert_eq!(short.to_string(), "refused 12 line 0: lent room is too small");
    let boxed: Box<dyn std::error::Error> = Box::new(refusal);
    assert_eq!(boxed.to_string(), refusal.to_string());
    let line = sp3::read_line(b"", sp3::first_spot(), &mut []).unwrap_err();
    let words = "refused 1: no line end is left before the file's EOF line is complete";
    assert_eq!(line.to_string(), words);
    let file = paper().put(24, 19, "       .500000").bytes();
    let row = sp3::after_lines(&file, &mut [0], sp3::first_spot(), 99);
    let line = sp3::next_line(&file, &[7107], row).unwrap_err();
    assert_eq!(line, sp3::LineRefusal { number: 6, column: 19 }, "the y field of line 24");
    let words = "refused 6 column 19: a field is malformed, or a letter, file type or time system is not listed";
    assert_eq!(line.to_string(), words);
    for number in [14, 15, 16, 18, 255] {
        assert_eq!(sp3::words(number), "an unknown number");
    }
}

/// Headers that nobody can have read: nothing stops, nothing is made up.
#[test]
fn tables_that_hang_together_nowhere() {
    let table = Table::read(SAMPLE).unwrap();
    for (satellites, epochs) in [(0, u64::MAX), (u64::MAX, u64::MAX), (u64::MAX, 0), (1, u64::MAX)]
    {
        for velocity in [false, true] {
            let header =
                Header { satellites, epochs, velocity, interval8: u64::MAX, ..table.header };
            let table = Table { header, ..table.clone() };
            let rows = table.rows().count();
            assert_eq!(rows, usize::from(satellites > 0 && epochs > 0 && !velocity));
            assert_eq!(table.row(u64::MAX - 1, u64::MAX - 1), refused(13, 0, 0));
            assert_eq!(table.write(), refused(13, 0, 0));
            assert!(header.epoch(u64::MAX - 1).is_err());
        }
    }
}
