//! Both versions, as request 9 has them: in SP3-c at most 85 satellites, exactly four comments, comment lines of at most 60 characters.

mod common;

use common::{crowd, many, motion, night, paper, refused, Draft, CORRELATIONS, SAMPLE};
use sp3::{judge, stored_comment, Refusal, Table, Version, COMMENT_COLUMNS_C, MOST_SATELLITES_C};

/// As many satellites as SP3-c allows.
const MOST: u64 = MOST_SATELLITES_C as u64;

/// The file with the letter of SP3-c.
fn older(file: Draft) -> Draft {
    file.put(1, 2, "c")
}

/// A comment line of so many characters.
fn comment_line(characters: usize) -> String {
    format!("/* {}", "x".repeat(characters - 3))
}

/// The table of the paper's file with these comments.
fn commented(texts: &[&str]) -> Table {
    let mut table = Table::read(SAMPLE).expect("the paper's file");
    table.header.comments = texts.len() as u64;
    table.comments = texts.iter().flat_map(|text| stored_comment(text).expect("a text")).collect();
    table
}

/// What writing in SP3-c answers: into room that suffices, into none, by its length, and as a table that lends the room.
fn written_c(table: &Table) -> Result<Vec<u8>, Refusal> {
    let Table { header, identifiers, exponents, comments, rows } = table;
    let mut out = vec![199; 100_000];
    let length = sp3::form_length_c(header, identifiers, exponents, comments, rows);
    let written = sp3::write_c(header, identifiers, exponents, comments, rows, &mut out);
    let cramped = sp3::write_c(header, identifiers, exponents, comments, rows, &mut []);
    assert_eq!(written, length);
    assert_eq!(cramped.unwrap_err().number, length.map_or_else(|refusal| refusal.number, |_| 12));
    assert!(out[length.unwrap_or(0)..].iter().all(|&byte| byte == 199));
    out.truncate(length?);
    assert_eq!(table.write_as(Version::C).as_ref(), Ok(&out));
    Ok(out)
}

#[test]
fn told_by_every_reading() {
    for file in [paper(), night(), motion(), crowd(MOST)] {
        for (file, version) in [(file.bytes(), Version::D), (older(file).bytes(), Version::C)] {
            assert_eq!(judge(&file).map(|reading| reading.version), Ok(version));
            let stretch = [&file[..], SAMPLE].concat();
            assert_eq!(sp3::judge_front(&stretch).map(|reading| reading.version), Ok(version));
            assert_eq!(sp3::rows(&file).map(|rows| rows.reading().version), Ok(version));
            let mut identifiers = [0; MOST_SATELLITES_C];
            let begun = sp3::begin(&file, &mut identifiers).map(|rows| rows.reading());
            assert_eq!(begun, judge(&file));
        }
    }
}

#[test]
fn names() {
    assert_eq!([Version::C, Version::D].map(|version| version.letter()), *b"cd");
    assert_eq!([Version::C, Version::D].map(|version| version.to_string()), ["SP3-c", "SP3-d"]);
}

/// A table keeps no version; its two forms differ in the second byte, and each reads back as the table.
#[test]
fn written_in_both() {
    for file in [paper(), night(), motion(), crowd(MOST)] {
        let table = Table::read(&file.bytes()).expect("a file");
        assert_eq!(Table::read(&older(file).bytes()).as_ref(), Ok(&table));
        let (newer, older) = (table.write().expect("SP3-d"), written_c(&table).expect("SP3-c"));
        assert_eq!(table.write_as(Version::D).as_ref(), Ok(&newer));
        assert_eq!((&older[..2], &older[2..]), (&b"#c"[..], &newer[2..]));
        assert_eq!(Table::read(&older).as_ref(), Ok(&table));
        assert_eq!(
            (judge(&newer).unwrap().version, judge(&older).unwrap().version),
            (Version::D, Version::C)
        );
    }
}

#[test]
fn number_17_outside_the_bounds() {
    assert!(written_c(&many(MOST)).is_ok());
    assert_eq!(written_c(&many(MOST + 1)), refused(17, 0, 0));
    assert_eq!(written_c(&many(999)), refused(17, 0, 0));
    let long = comment_line(COMMENT_COLUMNS_C + 1);
    let long = &long[3..];
    assert!(written_c(&commented(&[&long[1..]; 4])).is_ok());
    assert_eq!(written_c(&commented(&["", "", "", long])), refused(17, 0, 0));
    assert_eq!(written_c(&commented(&[long, "", "", ""])), refused(17, 0, 0));
    assert_eq!(written_c(&commented(&[""; 5])), refused(17, 0, 0));
    let refusal = written_c(&Table::read(CORRELATIONS).unwrap()).unwrap_err();
    let words = "refused 17 line 0: the table to be written is outside the bounds of SP3-c";
    assert_eq!(refusal.to_string(), words);
    for table in [many(MOST + 1), commented(&[long; 4]), commented(&[""; 5])] {
        assert!(table.write().is_ok() && table.write_as(Version::D).is_ok());
    }
}

/// 13 comes before 17, and 17 before 12.
#[test]
fn number_17_between_its_neighbours() {
    let mut wrong = many(MOST + 1);
    wrong.exponents[0] = 1000;
    assert_eq!(written_c(&wrong), refused(13, 0, 0));
    assert_eq!(written_c(&commented(&[""; 3])), refused(13, 0, 0));
    assert_eq!(written_c(&many(1000)), refused(13, 0, 0));
    let table = Table::read(SAMPLE).unwrap();
    let Table { header, identifiers, exponents, comments, rows } = &table;
    let mut out = vec![199; SAMPLE.len() - 1];
    let answer = sp3::write_c(header, identifiers, exponents, comments, rows, &mut out);
    assert_eq!(answer, refused(12, 0, 0));
    assert!(out.iter().all(|&byte| byte == 199));
}

#[test]
fn satellites_of_an_older_file() {
    assert!(judge(&older(crowd(MOST)).bytes()).is_ok());
    for n in [MOST + 1, 255, 999] {
        assert_eq!(judge(&older(crowd(n)).bytes()), refused(7, 3, 4));
        assert!(judge(&crowd(n).bytes()).is_ok());
    }
    assert_eq!(judge(&older(crowd(MOST + 1)).put(3, 13, "G 2").bytes()), refused(6, 3, 13));
}

#[test]
fn comments_of_an_older_file() {
    let with =
        |line: usize, characters: usize| older(paper()).end(line, 1, comment_line(characters));
    assert!(judge(&with(19, 60).bytes()).is_ok());
    assert_eq!(judge(&with(19, 61).bytes()), refused(3, 19, 61));
    assert_eq!(judge(&older(paper()).put(22, 61, " ").bytes()), refused(3, 22, 61));
    assert_eq!(judge(&older(paper()).with(23, "/*").bytes()), refused(4, 23, 0));
    assert_eq!(judge(&older(paper()).with(23, &comment_line(61)).bytes()), refused(3, 23, 61));
    assert_eq!(judge(&older(paper()).with(24, &comment_line(61)).bytes()), refused(3, 24, 61));
    assert_eq!(judge(&older(paper()).with(24, &comment_line(60)).bytes()), refused(4, 24, 0));
    assert_eq!(judge(&paper().with(24, &comment_line(61)).bytes()), refused(4, 24, 0));
    assert_eq!(judge(&older(paper()).without(22).bytes()), refused(4, 22, 0));
    assert!(judge(&paper().with(23, &comment_line(80)).bytes()).is_ok());
}

#[test]
fn other_letters() {
    for letter in ["a", "b", "C", "D", "e", "#", " "] {
        assert_eq!(judge(&paper().put(1, 2, letter).bytes()), refused(4, 1, 0), "#{letter}");
    }
    assert_eq!(judge(&older(paper()).put(1, 3, "v").bytes()), refused(6, 1, 3));
}

/// Files of both versions mixed: each is judged by its own.
#[test]
fn mixed() {
    let (newer, older) = (paper().with(23, &comment_line(80)).bytes(), older(paper()).bytes());
    for files in [[&older, &newer, &older], [&newer, &older, &newer]] {
        let stretch: Vec<u8> = files.into_iter().flatten().copied().collect();
        let division = sp3::divide_all(&stretch);
        let found: Vec<_> = division.files.iter().map(|file| &stretch[file.clone()]).collect();
        assert_eq!((found, division.refusal), (files.map(Vec::as_slice).to_vec(), None));
        assert_eq!(judge(&stretch).unwrap_err().number, 11);
    }
}

/// The line reader takes the version from the first two bytes of what it is lent, wherever the line stands.
#[test]
fn by_lines() {
    let file = older(paper()).with(23, &comment_line(60)).bytes();
    let mut identifiers = [0; MOST_SATELLITES_C];
    let spot = sp3::after_lines(&file, &mut identifiers, sp3::first_spot(), 22);
    assert_eq!(sp3::read_line(&file, spot, &mut identifiers).unwrap_err().number, 4);
    let due = sp3::due(&file, &identifiers, spot);
    assert_eq!((due.kind, due.also), (9, None));
    let newer = paper().with(23, &comment_line(61)).bytes();
    let spot = sp3::after_lines(&newer, &mut identifiers, sp3::first_spot(), 22);
    assert!(sp3::read_line(&newer, spot, &mut identifiers).is_ok());
    assert_eq!(sp3::due(&newer, &identifiers, spot).also, Some(8));
    let older = older(paper()).end(22, 1, comment_line(61)).bytes();
    let spot = sp3::after_lines(&older, &mut identifiers, sp3::first_spot(), 99);
    let refusal = sp3::LineRefusal { number: 3, column: 61 };
    assert_eq!(sp3::read_line(&older, spot, &mut identifiers), Err(refusal));
    assert_eq!(sp3::next_line(&older, &identifiers, spot), Err(refusal));
}
