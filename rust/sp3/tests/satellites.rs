//! Many satellites: up to the 999 of the SP3-d document, which request 6 asks for.

mod common;

use common::{crowd, many, name, paper, paper_parts, refused, Draft, SAMPLE};
use sp3::{judge, Header, HeaderParts, Table, MOST_SATELLITES};

/// As many as a file can have.
const MOST: u64 = MOST_SATELLITES as u64;

/// On both sides of what a byte counts, of a line of 17 that is full, and below the most and at it.
const COUNTS: [u64; 8] = [255, 256, 272, 273, 986, 987, MOST - 1, MOST];

/// The file of so many satellites in mode V: after each row the same as a V row.
fn moving(n: u64) -> Draft {
    let lines = crowd(n).0.into_iter().flat_map(|line| {
        let velocity = line.strip_prefix(b"P").map(|rest| [b"V", rest].concat());
        [Some(line), velocity]
    });
    Draft(lines.flatten().collect()).put(1, 3, "V")
}

#[test]
fn read_and_written() {
    for n in COUNTS {
        let file = crowd(n).bytes();
        assert_eq!(Table::read(&file), Ok(many(n)), "{n} satellites");
        assert_eq!(many(n).write(), Ok(file), "{n} satellites");
    }
}

#[test]
fn read_and_written_in_mode_v() {
    for n in [256, MOST] {
        let (file, mut table) = (moving(n).bytes(), many(n));
        table.header.velocity = true;
        table.rows = table.rows.repeat(2);
        assert_eq!(Table::read(&file).as_ref(), Ok(&table), "{n} satellites");
        assert_eq!(table.write(), Ok(file), "{n} satellites");
    }
}

/// "1,000 can't be written in the field."
#[test]
fn a_thousand() {
    assert_eq!(judge(&paper().put(3, 4, "1000").bytes()), refused(5, 3, 7));
    assert_eq!(judge(&paper().put(3, 3, "1000").bytes()), refused(5, 3, 3));
    assert_eq!(judge(&paper().put(3, 4, "000").bytes()), refused(7, 3, 4));
    assert_eq!(judge(&crowd(MOST).put(3, 4, "1000").bytes()), refused(5, 3, 7));
    let of = |satellites| Header::new(HeaderParts { satellites, ..paper_parts() });
    assert_eq!(of(MOST).map(|header| header.satellites), Ok(MOST));
    assert_eq!(of(MOST + 1), refused(7, 0, 0));
    assert_eq!(of(u64::MAX), refused(7, 0, 0));
    assert_eq!(many(MOST + 1).write(), refused(13, 0, 0));
    let table = many(MOST + 1);
    let Table { header, identifiers, exponents, comments, rows } = &table;
    let mut out = vec![199; 100_000];
    assert_eq!(
        sp3::write(header, identifiers, exponents, comments, rows, &mut out),
        refused(13, 0, 0)
    );
    assert_eq!(out, vec![199; 100_000]);
}

/// The number of satellites says how many lines there are, and a slot within it that holds `  0` is malformed.
#[test]
fn as_many_as_the_number_says() {
    assert_eq!(judge(&paper().put(3, 4, "999").bytes()), refused(6, 3, 13));
    assert_eq!(judge(&crowd(MOST - 1).put(3, 4, "999").bytes()), refused(6, 61, 46));
    assert_eq!(judge(&crowd(256).without(18).bytes()), refused(4, 18, 0));
    assert_eq!(judge(&crowd(255).put(3, 4, "256").bytes()), refused(4, 18, 0));
    let none = "+          0  0  0  0  0  0  0  0  0  0  0  0  0  0  0  0  0";
    assert_eq!(judge(&crowd(MOST).with(62, none).bytes()), refused(4, 62, 0));
}

/// One letter has 99 identifiers: 100 satellites are of type M.
#[test]
fn a_hundred_of_one_type() {
    assert!(judge(&crowd(99).put(15, 4, "G").bytes()).is_ok());
    assert!(judge(&crowd(100).bytes()).is_ok());
    assert_eq!(judge(&crowd(100).put(15, 4, "G").bytes()), refused(8, 15, 0));
}

/// What must stand at the line of a refusal, with all identifiers before it.
fn due_at(file: &[u8], line: usize) -> sp3::Due {
    let mut identifiers = [0; MOST_SATELLITES];
    let spot = sp3::after_lines(file, &mut identifiers, sp3::first_spot(), line - 1);
    sp3::due(file, &identifiers, spot)
}

/// The last `+ ` line, 61, has 13 identifiers and four slots after them.
#[test]
fn the_last_slots() {
    for (column, text, repeats) in
        [(46, "G01", true), (46, "D08", true), (49, "D10", false), (49, "G01", false)]
    {
        let file = crowd(MOST).put(61, column, text).bytes();
        assert_eq!(judge(&file), refused(8, 61, 0), "{text} in column {column}");
        assert_eq!(due_at(&file, 61).repeats, repeats, "{text} in column {column}");
        assert!(!due_at(&file, 60).repeats);
    }
    let mut table = many(MOST);
    table.identifiers[MOST_SATELLITES - 1] = table.identifiers[0];
    assert_eq!(table.write(), refused(13, 0, 0));
}

/// The row of the last satellite is its own: with 256 of them that of the 256th, with 999 that of the 999th.
#[test]
fn the_last_row() {
    for n in [256, MOST] {
        let last = crowd(n).0.len() - 1;
        let file = crowd(n).put(last, 5, "    -42.000000").bytes();
        let identifier = name(n - 1);
        let place = Some([-42_000_000.0, -500_000.0, 0.0]);
        assert_eq!(sp3::satellite_of(&file, identifier), Ok(n - 1));
        assert_eq!(sp3::row(&file, 0, n - 1).map(|row| row.place), Ok(place));
        assert_eq!(sp3::row(&file, 0, n), refused(13, 0, 0));
        let walked: Vec<_> = sp3::rows(&file).unwrap().map(Result::unwrap).collect();
        assert_eq!(walked.len() as u64, n);
        assert_eq!(walked.last().map(|row| (row.satellite, row.row.place)), Some((n - 1, place)));
        let table = Table::read(&file).unwrap();
        assert_eq!(table.satellite_of(identifier), Ok(n - 1));
        let stored = table.row(0, n - 1).map(|row| row.position.place);
        assert_eq!(stored, Ok(Some([-42_000_000, -500_000, 0])));
        assert_eq!(table.row(0, n), refused(13, 0, 0));
        let other = crowd(n).put(last, 2, "Z99").bytes();
        assert_eq!(judge(&other), refused(10, last as u64, 0));
        assert_eq!(due_at(&other, last).identifier, Some(identifier));
        assert_eq!(sp3::satellite_of(&file, sp3::identifier("Z99").unwrap()), refused(13, 0, 0));
    }
}

/// Room for as many identifiers as there are satellites suffices, for one fewer does not; then nothing has changed.
#[test]
fn room_for_the_identifiers() {
    for n in [256, MOST] {
        let (file, whole) = (crowd(n).bytes(), many(n).identifiers);
        for room in [n - 1, n] {
            let mut identifiers = vec![77_777; room as usize];
            let begun = sp3::begin(&file, &mut identifiers).map(|rows| rows.count() as u64);
            assert_eq!(begun, if room == n { Ok(n) } else { refused(12, 0, 0) });
            let left = if room == n { whole.clone() } else { vec![77_777; room as usize] };
            assert_eq!(identifiers, left, "room for {room} of {n}");
        }
        let mut enough = [77_777; MOST_SATELLITES];
        assert!(sp3::begin(&file, &mut enough).is_ok());
        assert_eq!(enough[..n as usize], whole);
        assert!(enough[n as usize..].iter().all(|&place| place == 77_777));
    }
}

/// A reading with one place fewer for identifiers or for exponents.
#[test]
fn room_for_a_table() {
    let (file, table, all) = (crowd(MOST).bytes(), many(MOST), MOST_SATELLITES);
    for (identifier_room, exponent_room) in [(all - 1, all), (all, all - 1), (255, 255), (all, all)]
    {
        let (mut identifiers, mut exponents) = (vec![1; identifier_room], vec![1; exponent_room]);
        let (mut comments, mut rows) = (table.comments.clone(), table.rows.clone());
        let read = sp3::read(&file, &mut identifiers, &mut exponents, &mut comments, &mut rows);
        if (identifier_room, exponent_room) == (all, all) {
            assert_eq!(read.map(|reading| reading.length), Ok(file.len()));
            assert_eq!((identifiers, exponents), (table.identifiers.clone(), vec![0; all]));
        } else {
            assert_eq!(read, refused(12, 0, 0));
            assert_eq!(
                (identifiers, exponents),
                (vec![1; identifier_room], vec![1; exponent_room])
            );
        }
    }
}

/// The walker stays at the `+ ` line that brings more identifiers than there are places for: 16 lines of 17 are 272.
#[test]
fn room_for_a_walk() {
    let (file, lines, all) = (crowd(MOST).bytes(), crowd(MOST).0.len(), MOST_SATELLITES);
    for (room, stays) in [(255, 18), (271, 18), (272, 19), (all - 1, 61), (all, lines)] {
        let mut identifiers = vec![77_777; room];
        let spot = sp3::after_lines(&file, &mut identifiers, sp3::first_spot(), lines + 5);
        let before: usize = crowd(MOST).0[..stays - 1].iter().map(|line| line.len() + 1).sum();
        assert_eq!(spot.at(), before, "room for {room}");
        let read = sp3::read_line(&file, spot, &mut identifiers);
        match stays == lines {
            true => assert!(read.unwrap().finished),
            false => assert_eq!(read, Err(sp3::LineRefusal { number: 12, column: 0 })),
        }
    }
}

/// The combined sample: every 37th satellite has no place and no clock, nine others no place, twenty no clock (samples/make.py). It is canonical.
#[test]
fn the_combined_sample() {
    let file = include_bytes!("../../../samples/combined.sp3");
    let table = Table::read(file).unwrap();
    assert_eq!(table.write().as_deref(), Ok(&file[..]));
    assert_eq!((table.header.satellites, table.header.file_type), (MOST, b'M'));
    let absent = |is_absent: fn(&sp3::TableRow) -> bool| table.rows().filter(is_absent).count();
    assert_eq!(absent(|row| row.position.place.is_none()), 27 + 9);
    assert_eq!(absent(|row| row.position.clock.is_none()), 27 + 20);
    let last = table.rows().last().unwrap();
    assert_eq!(last.satellite, MOST - 1);
    assert_eq!(last.position.place, Some([10_270_969_466, 13_491_121_968, -20_443_346_455]));
    assert_eq!(last.position.clock, Some(219_654_700));
    assert!(last.position.flags.clock_predicted && last.position.flags.orbit_predicted);
}

#[test]
fn divided() {
    let files = [crowd(MOST).bytes(), SAMPLE.to_vec(), moving(256).bytes(), crowd(256).bytes()];
    let stretch = files.concat();
    let division = sp3::divide_all(&stretch);
    assert_eq!((division.rest, division.refusal), (stretch.len(), None));
    let parts: Vec<&[u8]> = division.files.into_iter().map(|file| &stretch[file]).collect();
    assert_eq!(parts, files);
}
