//! The paper's file, its twelve cases and those that it asks to be run.

mod common;

use common::{crowd, many, paper, paper_header, paper_parts, refused, SAMPLE};
use sp3::{date, judge, Date, Exponent, Flags, Header, HeaderParts, Refusal, StoredRow, Table};

/// x, y, z and clock of the row of the paper's file, with the y field replaced.
fn with_y(field: &str) -> Result<[i64; 3], Refusal> {
    let table = Table::read(&paper().put(24, 19, field).bytes())?;
    Ok(table.place_of(0)?.expect("a place"))
}

/// The paper's file with a start at 00:00:01 and this fraction of day in 10^-13.
fn second_past_midnight(fraction: u64) -> Vec<u8> {
    let file = paper().put(1, 21, " 1.00000000").put(2, 9, "259201.00000000");
    let file = file.put(2, 46, format!("0.{fraction:013}")).put(23, 21, " 1.00000000");
    file.bytes()
}

#[test]
fn the_sample_is_the_papers_file() {
    assert_eq!(paper().bytes(), SAMPLE);
    assert_eq!(paper().0.len(), 25);
}

#[test]
fn the_papers_table() {
    let table = Table::read(SAMPLE).unwrap();
    assert_eq!(table.header, paper_header());
    assert_eq!(table.identifiers, [7107]);
    assert_eq!(table.exponents, [0]);
    let comments = ["ONE ROW", "", "", ""].map(|text| format!("{text:77}")).concat();
    assert_eq!(table.comments, comments.as_bytes());
    let row = StoredRow {
        place: Some([5_000_000_001, -500_000, 0]),
        clock: None,
        exponents: [Exponent::Unknown; 4],
        flags: Flags::default(),
        note: None,
    };
    assert_eq!(table.rows().map(|row| row.position).collect::<Vec<_>>(), [row]);
}

/// "Input: the file below with y as `-00.500000`, ending in the same column."
#[test]
fn the_papers_input_becomes_its_output() {
    let input = paper().put(24, 19, "    -00.500000").bytes();
    assert_ne!(input, SAMPLE);
    assert_eq!(Table::read(&input).unwrap().write().as_deref(), Ok(SAMPLE));
}

#[test]
fn a_header_of_its_parts() {
    assert_eq!(Header::new(paper_parts()), Ok(paper_header()));
    let of = |parts: HeaderParts| Header::new(parts);
    assert_eq!(of(HeaderParts { mode: b'Q', ..paper_parts() }), refused(6, 0, 0));
    assert_eq!(of(HeaderParts { satellites: 1000, ..paper_parts() }), refused(7, 0, 0));
    assert_eq!(of(HeaderParts { mode: b'Q', satellites: 1000, ..paper_parts() }), refused(6, 0, 0));
    assert_eq!(of(HeaderParts { epochs: 0, ..paper_parts() }), refused(7, 0, 0));
    assert_eq!(of(HeaderParts { epochs: 100_001, ..paper_parts() }), refused(7, 0, 0));
    assert_eq!(of(HeaderParts { mode: b'V', ..paper_parts() }).map(|made| made.velocity), Ok(true));
}

#[test]
fn cases_1_to_5() {
    assert_eq!(date(2013, 4, 3), Ok(Date { mjd: 56385, week: 1734, seconds: 259_200 }));
    assert_eq!(date(2012, 10, 1), Ok(Date { mjd: 56201, week: 1708, seconds: 86_400 }));
    assert_eq!(date(1980, 1, 6), Ok(Date { mjd: 44244, week: 0, seconds: 0 }));
    assert_eq!(date(2000, 2, 29).map(|date| date.mjd), Ok(51603));
    assert_eq!(date(2001, 2, 29), refused(7, 0, 0));
}

#[test]
fn cases_6_to_9() {
    assert_eq!(with_y("     -0.500000"), Ok([5_000_000_001, -500_000, 0]));
    assert_eq!(with_y("     -0.000000"), Ok([5_000_000_001, 0, 0]));
    assert_eq!(with_y("1000000.000000"), refused(7, 24, 19));
    assert_eq!(with_y("       .500000"), refused(6, 24, 19));
}

#[test]
fn case_10() {
    for (n, lines) in [(85, 5), (86, 6), (255, 15), (999, 59)] {
        let file = many(n).write().unwrap();
        let begin = |symbol: &[u8]| {
            file.split(|&byte| byte == b'\n').filter(|line| line.starts_with(symbol)).count()
        };
        assert_eq!((begin(b"+ "), begin(b"++")), (lines, lines), "{n} satellites");
        assert_eq!(Table::read(&file), Ok(many(n)));
    }
}

#[test]
fn case_11() {
    assert!(judge(&second_past_midnight(115_740_740)).is_ok());
    assert!(judge(&second_past_midnight(115_740_741)).is_ok());
    assert_eq!(judge(&second_past_midnight(115_740_742)), refused(8, 2, 0));
}

#[test]
fn case_12() {
    assert_eq!(judge(b""), refused(1, 1, 0));
}

/// "Run: 256 satellites (7); 80 and 81 characters; three comments (4); `EOF` without LF (1); z alone zero (present)." Of the first request 6 says:
/// "256 passes, 1,000 can't be written in the field".
#[test]
fn cases_to_be_run() {
    assert!(judge(&crowd(256).bytes()).is_ok());
    assert_eq!(judge(&paper().put(3, 4, "1000").bytes()), refused(5, 3, 7));
    assert!(judge(&paper().put(19, 4, [b'-'; 77]).bytes()).is_ok());
    assert_eq!(judge(&paper().put(19, 4, [b'-'; 78]).bytes()), refused(3, 19, 81));
    assert_eq!(judge(&paper().without(20).bytes()), refused(4, 22, 0));
    assert_eq!(judge(SAMPLE.strip_suffix(b"\n").unwrap()), refused(1, 25, 0));
    assert_eq!(with_y("     -0.500000"), Ok([5_000_000_001, -500_000, 0]));
}
