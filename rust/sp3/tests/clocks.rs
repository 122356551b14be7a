//! Clocks and rates: each spelling of an absent one, the numbers beside it, what is malformed, and what can be written.

mod common;

use common::{motion, paper, refused, Draft, SAMPLE, SIX_NINES};
use sp3::{Exponent, Flags, StoredRow, Table};

/// Absent clocks as they are spelt from column 47 on; the short ones end their lines.
const ABSENT: [&str; 11] = [
    " 999999.999999",
    " 999999.      ",
    " 999999.",
    " 999999.000000",
    " 999999.999998",
    "0999999.123456",
    "0999999.000000",
    "0999999.      ",
    "0999999.",
    " 999999.   ",
    " 999999.123456",
];

/// Clocks that are there, with their numbers and their canonical spellings.
const THERE: [(&str, i64, &str); 7] = [
    (" 999998.999999", 999_998_999_999, " 999998.999999"),
    ("-999999.000000", -999_999_000_000, "-999999.000000"),
    ("-999999.999999", -999_999_999_999, "-999999.999999"),
    ("0999998.000000", 999_998_000_000, " 999998.000000"),
    ("0099999.999999", 99_999_999_999, "  99999.999999"),
    ("      0.000000", 0, "      0.000000"),
    ("-000000.000000", 0, "      0.000000"),
];

/// What is neither a number nor absent.
const MALFORMED: [&str; 18] = [
    "-999999.      ",
    "-999999.",
    " 999999.00000 ",
    " 999999.00000",
    " 999999.     0",
    " 999999. 99999",
    " 999998.      ",
    " 999998.",
    "1000000.      ",
    "9999999.      ",
    "      0.      ",
    " 999999       ",
    " 999999",
    "              ",
    "",
    "999999.       ",
    "  999999.00000",
    "+999999.      ",
];

/// How an absent clock is held.
const TWELVE_NINES: i64 = 999_999_999_999;

/// The P row of the paper's file.
fn in_p(clock: &str) -> Draft {
    paper().end(24, 47, clock)
}

/// A V row in mode V, the last row of its file.
fn in_v(clock: &str) -> Draft {
    motion().end(29, 47, clock)
}

/// A P row in mode V with exponents and a flag after the clock.
fn before_exponents(clock: &str) -> Draft {
    motion().put(28, 47, format!("{clock:14}"))
}

/// The clock in the only row of a file: of the table, by its number, by the walk, by the question.
fn by_every_way(file: &[u8]) -> [Option<i64>; 5] {
    let table = Table::read(file).unwrap();
    let first = table.rows().next().unwrap();
    let whole = |clock: f64| clock as i64;
    let walked = sp3::rows(file).unwrap().next().unwrap().unwrap();
    let (stepped, _) = sp3::next_row(file, &[7107], sp3::first_row()).unwrap().unwrap();
    assert_eq!(stepped, walked);
    [
        first.position.clock,
        table.clock_of(0).unwrap(),
        sp3::stored_row(&table.rows, 0).unwrap().clock,
        walked.row.clock.map(whole),
        sp3::row(file, 0, 0).unwrap().clock.map(whole),
    ]
}

/// Columns 47 to 60 of a line of the canonical form.
fn written(table: &Table, line: usize) -> String {
    let form = String::from_utf8(table.write().unwrap()).unwrap();
    form.lines().nth(line - 1).unwrap()[46..60].to_string()
}

#[test]
fn absent_in_a_p_row() {
    for clock in ABSENT {
        let file = in_p(clock).bytes();
        assert_eq!(by_every_way(&file), [None; 5], "{clock:?}");
        let table = Table::read(&file).unwrap();
        assert_eq!(table.rows[3], TWELVE_NINES);
        assert_eq!(Ok(&table), Table::read(SAMPLE).as_ref(), "one table, however it is spelt");
        assert_eq!(table.write().as_deref(), Ok(SAMPLE));
        assert_eq!(sp3::judge_front(&[&file, SAMPLE].concat()).unwrap().length, file.len());
    }
}

#[test]
fn absent_in_a_v_row() {
    for rate in ABSENT {
        let table = Table::read(&in_v(rate).bytes()).unwrap();
        assert_eq!(table.row(0, 1).unwrap().velocity.unwrap().clock, None, "{rate:?}");
        assert_eq!((table.clock_of(3), table.rows[3 * 23 + 3]), (Ok(None), TWELVE_NINES));
        assert_eq!(Ok(&table), Table::read(&motion().bytes()).as_ref());
        assert_eq!(table.write(), Ok(motion().bytes()));
    }
}

#[test]
fn absent_before_exponents_and_flags() {
    for clock in ABSENT {
        let file = before_exponents(clock).bytes();
        let table = Table::read(&file).unwrap();
        let row = table.row(0, 1).unwrap().position;
        assert_eq!((row.clock, table.clock_of(2)), (None, Ok(None)), "{clock:?}");
        assert_eq!(row.exponents, [18, 18, 18, 219].map(Exponent::Value));
        assert_eq!(row.flags, Flags { maneuver: true, ..Flags::default() });
        assert_eq!(sp3::row(&file, 0, 1).unwrap().clock, None);
        assert_eq!(sp3::rows(&file).unwrap().nth(1).unwrap().unwrap().row.clock, None);
        assert_eq!(table.write(), Ok(before_exponents(" 999999.999999").bytes()));
    }
}

#[test]
fn numbers_beside_the_nines() {
    for (clock, number, canonical) in THERE {
        let file = in_p(clock).bytes();
        assert_eq!(by_every_way(&file), [Some(number); 5], "{clock:?}");
        assert_eq!(written(&Table::read(&file).unwrap(), 24), canonical);
        let table = Table::read(&in_v(clock).bytes()).unwrap();
        assert_eq!(table.row(0, 1).unwrap().velocity.unwrap().clock, Some(number));
        assert_eq!((table.clock_of(3), written(&table, 29)), (Ok(Some(number)), canonical.into()));
    }
}

#[test]
fn neither_a_number_nor_absent() {
    let cases = MALFORMED.map(|clock| (clock, 6)).into_iter().chain([("1000000.000000", 7)]);
    for (clock, number) in cases {
        for (draft, line) in [(in_p(clock), 24), (in_v(clock), 29), (before_exponents(clock), 28)] {
            let file = draft.bytes();
            assert_eq!(sp3::judge(&file), refused(number, line, 47), "{clock:?}");
            assert_eq!(Table::read(&file), refused(number, line, 47));
            assert_eq!(sp3::row(&file, 0, 0), refused(number, line, 47));
            assert_eq!(sp3::rows(&file).map(|_| ()), refused(number, line, 47));
        }
        let walked = sp3::next_row(&in_p(clock).bytes(), &[7107], sp3::first_row());
        assert_eq!(walked, refused(number, 24, 47));
    }
}

/// A blank fraction is a clock's alone, and six nines are absent in a clock alone.
#[test]
fn coordinates_are_not_clocks() {
    for (axis, column) in [5, 19, 33].into_iter().enumerate() {
        let blank = paper().put(24, column, " 999999.      ").bytes();
        assert_eq!(sp3::judge(&blank), refused(6, 24, column));
        let file = paper().put(24, column, " 999999.000000").bytes();
        let table = Table::read(&file).unwrap();
        assert_eq!(table.place_of(0).unwrap().unwrap()[axis], 999_999_000_000);
        assert_eq!(table.write(), Ok(file));
    }
    assert_eq!(sp3::judge(&in_p(" 999999.      x").bytes()), refused(5, 24, 61));
}

/// The paper's table and one in mode V, each with this clock in its last row, and the line of that row.
fn holding(clock: i64) -> [(Table, usize); 2] {
    [(SAMPLE.to_vec(), 24), (motion().bytes(), 29)].map(|(file, line)| {
        let mut table = Table::read(&file).unwrap();
        let last = table.rows.len() - 23;
        table.rows[last + 3] = clock;
        (table, line)
    })
}

#[test]
fn clocks_that_can_be_written() {
    let widest = 999_999_999_999;
    for (clock, canonical) in [
        (999_998_999_999, " 999998.999999"),
        (999_998_000_000, " 999998.000000"),
        (TWELVE_NINES, " 999999.999999"),
        (-999_998_999_999, "-999998.999999"),
        (-999_999_000_000, "-999999.000000"),
        (-999_999_999_998, "-999999.999998"),
        (-widest, "-999999.999999"),
    ] {
        for (table, line) in holding(clock) {
            assert_eq!(written(&table, line), canonical);
            assert_eq!(Table::read(&table.write().unwrap()), Ok(table));
        }
    }
}

#[test]
fn clocks_that_no_file_has() {
    let nines = [999_999_000_000, 999_999_000_001, 999_999_500_000, 999_999_999_998];
    let wide = [1_000_000_000_000, -1_000_000_000_000, i64::MAX, i64::MIN];
    for clock in nines.into_iter().chain(wide) {
        for (table, _) in holding(clock) {
            assert_eq!(table.write(), refused(13, 0, 0), "{clock}");
            let Table { header, identifiers, exponents, comments, rows } = &table;
            let length = sp3::form_length(header, identifiers, exponents, comments, rows);
            assert_eq!(length, refused(13, 0, 0));
        }
    }
    let mut table = Table::read(SAMPLE).unwrap();
    table.rows[..3].copy_from_slice(&[999_999_000_000, 999_999_999_998, 999_999_999_999]);
    assert!(table.write().is_ok(), "a coordinate has another bound");
}

/// Rows made of `Option`s: an absent clock is held as twelve nines; of a clock that no file has the writer says so.
#[test]
fn rows_with_clocks_made() {
    let table = Table::read(SAMPLE).unwrap();
    let row = |clock| StoredRow { clock, ..table.row(0, 0).unwrap().position };
    let with = |clock| Table { rows: row(clock).numbers().unwrap().to_vec(), ..table.clone() };
    assert_eq!(row(None).numbers().unwrap()[3], TWELVE_NINES);
    assert_eq!(written(&with(None), 24), " 999999.999999");
    assert_eq!(written(&with(Some(999_998_999_999)), 24), " 999998.999999");
    assert_eq!(with(Some(999_999_000_000)).write(), refused(13, 0, 0));
    assert_eq!(row(Some(TWELVE_NINES)).numbers(), refused(13, 0, 0), "it would be absent");
}

/// The sample, by the columns of its lines: clocks and rates of each satellite in turn.
#[test]
fn a_centre_that_writes_six_nines() {
    let table = Table::read(SIX_NINES).unwrap();
    let clocks = [
        [(None, None), (None, None), (None, None), (None, None)],
        [
            (Some(-999_999_000_000), Some(-100_000)),
            (Some(999_998_999_999), None),
            (Some(512_345_678), Some(-999_999_999_999)),
            (None, Some(999_998_000_000)),
        ],
    ];
    let clocks = clocks.concat();
    let read = table.rows().map(|row| (row.position.clock, row.velocity.unwrap().clock));
    assert_eq!(read.collect::<Vec<_>>(), clocks);
    let walked = sp3::rows(SIX_NINES).unwrap().map(|row| row.unwrap().row.clock);
    let of_p = clocks.iter().map(|(clock, _)| clock.map(|number| number as f64));
    assert_eq!(walked.collect::<Vec<_>>(), of_p.collect::<Vec<_>>());
    let form = String::from_utf8(table.write().unwrap()).unwrap();
    let nines = form.lines().filter(|line| line.starts_with(['P', 'V']));
    let nines = nines.filter(|line| &line[46..60] == " 999999.999999").count();
    assert_eq!(nines, 8 + 2);
    assert_eq!(Table::read(form.as_bytes()), Ok(table));
}
