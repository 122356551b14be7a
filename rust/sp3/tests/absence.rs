//! Absence of place and of clock, each apart; mode V; the walk, the lines.

mod common;

use common::{many, motion, night, refused, SAMPLE};
use sp3::{Exponent, Flags, Row, StoredRow, Table};

const ALL_FLAGS: Flags =
    Flags { clock_event: true, clock_predicted: true, maneuver: true, orbit_predicted: true };
const MANEUVER: Flags =
    Flags { clock_event: false, clock_predicted: false, maneuver: true, orbit_predicted: false };
const NO_FLAGS: Flags =
    Flags { clock_event: false, clock_predicted: false, maneuver: false, orbit_predicted: false };

/// The rows of the file over midnight, worked out from its columns.
fn night_rows() -> [StoredRow; 6] {
    use Exponent::{TooLarge, Unknown, Value};
    let row =
        |place, clock, exponents, flags| StoredRow { place, clock, exponents, flags, note: None };
    let widest = 999_999_999_999;
    [
        row(Some([15_000_000_000, -20_000_500_000, 0]), Some(123_456_789), [Unknown; 4], NO_FLAGS),
        row(None, None, [Unknown; 4], NO_FLAGS),
        row(None, Some(-1), [Value(18), Value(18), Value(18), Value(219)], ALL_FLAGS),
        row(Some([0, 0, 1]), None, [TooLarge; 4], NO_FLAGS),
        row(Some([-500_000, 0, 0]), None, [Unknown; 4], NO_FLAGS),
        row(
            Some([widest, -widest, widest]),
            Some(-widest),
            [Value(0), Unknown, Value(9), Value(7)],
            MANEUVER,
        ),
    ]
}

/// A stored row as the adjustment gets it.
fn floats(row: &StoredRow) -> Row {
    Row {
        place: row.place.map(|place| place.map(|number| number as f64)),
        clock: row.clock.map(|number| number as f64),
    }
}

#[test]
fn rows_of_a_night() {
    let table = Table::read(&night().bytes()).unwrap();
    let rows: Vec<_> = table.rows().collect();
    let numbers: Vec<_> = rows.iter().map(|row| (row.epoch, row.satellite)).collect();
    assert_eq!(numbers, [(0, 0), (0, 1), (1, 0), (1, 1), (2, 0), (2, 1)]);
    assert_eq!(rows.iter().map(|row| row.position).collect::<Vec<_>>(), night_rows());
    assert!(rows.iter().all(|row| row.velocity.is_none()));
    assert_eq!(table.identifiers, [7107, 8224]);
    assert_eq!(table.exponents, [5, 13]);
    assert_eq!((table.satellite_of(8224), table.satellite_of(7108)), (Ok(1), refused(13, 0, 0)));
    assert_eq!((table.row(0, 2), table.row(3, 0)), (refused(13, 0, 0), refused(13, 0, 0)));
}

#[test]
fn rows_by_name() {
    let table = Table::read(&night().bytes()).unwrap();
    for (k, row) in night_rows().iter().enumerate() {
        assert_eq!(table.place_of(k), Ok(row.place));
        assert_eq!(table.clock_of(k), Ok(row.clock));
        for which in 0..4 {
            assert_eq!(table.exponent_of(k, which), Ok(row.exponents[which]));
        }
        let Flags { clock_event, clock_predicted, maneuver, orbit_predicted } = row.flags;
        for (which, set) in
            [clock_event, clock_predicted, maneuver, orbit_predicted].into_iter().enumerate()
        {
            assert_eq!(table.flag_of(k, which), Ok(set));
        }
    }
    assert_eq!(table.place_of(6), refused(13, 0, 0));
}

/// E in column 75, P in 76, M in 79, P in 80, each alone.
#[test]
fn each_flag_alone() {
    for (which, (column, letter)) in
        [(75, "E"), (76, "P"), (79, "M"), (80, "P")].into_iter().enumerate()
    {
        let table = Table::read(&common::paper().put(24, column, letter).bytes()).unwrap();
        let row = table.row(0, 0).unwrap().position;
        assert_eq!(row.numbers().as_ref().map(|numbers| &numbers[..]), Ok(&table.rows[..]));
        let flags = row.flags;
        let set = [flags.clock_event, flags.clock_predicted, flags.maneuver, flags.orbit_predicted];
        assert_eq!(set, [0, 1, 2, 3].map(|other| other == which), "column {column}");
    }
}

#[test]
fn rows_as_floats() {
    let file = night().bytes();
    let mut identifiers = [77_777; 3];
    let rows = sp3::begin(&file, &mut identifiers).unwrap();
    assert_eq!(rows.identifiers(), [7107, 8224]);
    let walked: Vec<_> = rows.map(Result::unwrap).collect();
    assert_eq!(identifiers, [7107, 8224, 77_777]);
    assert_eq!(walked.len(), 6);
    for (k, (walked, stored)) in walked.iter().zip(night_rows()).enumerate() {
        assert_eq!((walked.epoch, walked.satellite), (k as u64 / 2, k as u64 % 2));
        assert_eq!(walked.row, floats(&stored));
        assert_eq!(sp3::row(&file, walked.epoch, walked.satellite), Ok(floats(&stored)));
    }
    let zero = sp3::row(&file, 2, 0).unwrap().place.unwrap()[1];
    assert!(zero.is_sign_positive(), "minus zero is zero");
}

#[test]
fn a_walk_by_hand() {
    let file = night().bytes();
    let mut walk = sp3::first_row();
    let mut seen = 0;
    while let Some((row, next)) = sp3::next_row(&file, &[7107, 8224], walk).unwrap() {
        assert_eq!(row.row, floats(&night_rows()[seen]));
        seen += 1;
        walk = next;
    }
    assert_eq!(seen, 6);
    assert_eq!(sp3::next_row(&file, &[7107, 8225], sp3::first_row()).map(|_| ()), Ok(()));
    let (_, second) = sp3::next_row(&file, &[7107, 8225], sp3::first_row()).unwrap().unwrap();
    assert_eq!(sp3::next_row(&file, &[7107, 8225], second), refused(10, 25, 0));
}

#[test]
fn a_walk_that_owns_its_names() {
    let file = night().bytes();
    let mut rows = sp3::rows(&file).unwrap();
    assert_eq!(rows.identifiers(), [7107, 8224]);
    assert_eq!(rows.reading(), sp3::judge(&file).unwrap());
    assert_eq!(rows.by_ref().count(), 6);
    assert!(rows.next().is_none(), "a walk that has ended stays so");
}

#[test]
fn epochs_over_midnight() {
    let header = sp3::judge(&night().bytes()).unwrap().header;
    let clock =
        |k| header.epoch(k).map(|at| (at.year, at.month, at.day, at.hour, at.minute, at.second8));
    assert_eq!(clock(0), Ok((2012, 12, 31, 23, 45, 0)));
    assert_eq!(clock(1), Ok((2013, 1, 1, 0, 0, 0)));
    assert_eq!(clock(2), Ok((2013, 1, 1, 0, 15, 0)));
    assert_eq!(clock(3), refused(13, 0, 0));
    let late = night().put(26, 18, "15").bytes();
    assert_eq!(sp3::judge(&late), refused(9, 26, 0));
}

#[test]
fn mode_v() {
    let file = motion().bytes();
    let table = Table::read(&file).unwrap();
    assert!(table.header.velocity);
    let rows: Vec<_> = table.rows().collect();
    assert_eq!(rows.len(), 2);
    let places = [
        [-11_044_805_800, -10_475_672_350, 21_929_418_200],
        [-12_593_593_500, 10_170_327_650, -20_354_534_400],
    ];
    assert_eq!(rows[0].position.place, Some(places[0]));
    assert_eq!(rows[1].position.place, Some(places[1]));
    assert_eq!(
        (rows[0].position.clock, rows[1].position.clock),
        (Some(189_163_300), Some(-55_976_000))
    );
    assert_eq!(rows[1].position.flags, MANEUVER);
    let velocity = rows[0].velocity.unwrap();
    assert_eq!(velocity.place, Some([20_298_880_364, -18_462_044_804, 1_381_387_685]));
    assert_eq!(velocity.clock, Some(-4_534_317));
    assert_eq!(velocity.exponents, [14, 14, 14, 191].map(Exponent::Value));
    let withdrawn = rows[1].velocity.unwrap();
    assert_eq!((withdrawn.place, withdrawn.clock), (None, None));
    let walked: Vec<_> = sp3::rows(&file).unwrap().map(|row| row.unwrap().row).collect();
    assert_eq!(walked, [floats(&rows[0].position), floats(&rows[1].position)], "the P rows alone");
    assert_eq!(table.place_of(1), Ok(velocity.place), "a V row stands after its P row");
}

#[test]
fn rows_made_and_given_back() {
    for row in night_rows() {
        assert_eq!(sp3::stored_row(&row.numbers().unwrap(), 0), Ok(row));
    }
    let row = night_rows()[0];
    let exponents = |x, clock| [x, Exponent::Unknown, Exponent::Unknown, clock];
    let others = [
        StoredRow { place: Some([0; 3]), ..row },
        StoredRow { clock: Some(999_999_999_999), ..row },
        StoredRow { exponents: exponents(Exponent::Value(99), Exponent::Unknown), ..row },
        StoredRow { exponents: exponents(Exponent::Unknown, Exponent::Value(999)), ..row },
        StoredRow { exponents: exponents(Exponent::Value(1000), Exponent::Unknown), ..row },
        StoredRow { exponents: exponents(Exponent::Value(u64::MAX), Exponent::Unknown), ..row },
    ];
    for other in others {
        assert_eq!(other.numbers(), refused(13, 0, 0), "{other:?}");
    }
    let clock_of_99 =
        StoredRow { exponents: exponents(Exponent::Value(98), Exponent::Value(99)), ..row };
    assert!(clock_of_99.numbers().is_ok());
}

#[test]
fn comments_as_stretches_of_the_file() {
    let file = common::paper().put(20, 1, "/*  INDENTED   ").bytes();
    let texts: Vec<_> = (0..4).map(|k| sp3::comment(&file, k).unwrap()).collect();
    assert_eq!(texts, [&b"ONE ROW"[..], b" INDENTED", b"", b""]);
    let column_4 = 18 * 61 + 3; // after 18 lines of 60 characters
    assert_eq!(sp3::comment_answer(&file, 0), Ok(column_4..column_4 + "ONE ROW".len()));
    let table = Table::read(&file).unwrap();
    assert_eq!((0..4).map(|k| table.comment(k).unwrap()).collect::<Vec<_>>(), texts);
    assert_eq!(table.comment(4), refused(13, 0, 0));
    assert_eq!(table.comment(usize::MAX), refused(13, 0, 0));
}

#[test]
fn identifiers_and_their_texts() {
    for text in ["A01", "G07", "R24", "Z99"] {
        let number = sp3::identifier(text).unwrap();
        assert_eq!(sp3::identifier_text(number).as_deref(), Some(text));
    }
    assert_eq!(sp3::identifier("G07"), Some(7107));
    for text in ["", "G", "G7", "G 7", "g07", "G071", "707", "Gé7"] {
        assert_eq!(sp3::identifier(text), None, "{text}");
    }
    for number in [0, 7, 707, 6_499, 9_101, 20_007, 65_607, u64::MAX] {
        assert_eq!(sp3::identifier_text(number), None, "{number}");
    }
}

#[test]
fn lines_one_after_the_other() {
    let file = night().bytes();
    let mut identifiers = [77_777; 4];
    let mut spot = sp3::first_spot();
    for (k, text) in night().0.iter().enumerate() {
        let mut learnt = [77_777; 4];
        assert_eq!(spot, sp3::after_lines(&file, &mut learnt, sp3::first_spot(), k));
        assert_eq!(learnt, identifiers);
        assert_eq!(
            sp3::next_line(&file, &[7107, 8224], spot),
            sp3::read_line(&file, spot, &mut identifiers)
        );
        let line = sp3::read_line(&file, spot, &mut identifiers).unwrap();
        assert_eq!(line.next.at(), spot.at() + text.len() + 1);
        assert_eq!(line.finished, text == b"EOF");
        spot = line.next;
    }
    assert_eq!(spot.at(), file.len());
    assert_eq!(identifiers, [7107, 8224, 77_777, 77_777]);
}

/// Where a `+ ` line brings more identifiers than there are places for, the reader refuses it and the walker stays at it.
#[test]
fn fewer_names_than_satellites() {
    let file = night().bytes();
    let mut identifiers = [77_777; 1];
    let mut spot = sp3::first_spot();
    for _ in 0..2 {
        spot = sp3::read_line(&file, spot, &mut identifiers).unwrap().next;
    }
    let refusal = sp3::LineRefusal { number: 12, column: 0 };
    assert_eq!(sp3::read_line(&file, spot, &mut identifiers), Err(refusal));
    assert_eq!(sp3::after_lines(&file, &mut identifiers, sp3::first_spot(), 99), spot);
    assert_eq!(identifiers, [77_777]);
    assert!(sp3::next_line(&file, &identifiers, spot).is_ok());
    assert!(sp3::read_line(&file, spot, &mut [0; 2]).is_ok());
}

/// A walk in two parts, with one list, is the walk at once.
#[test]
fn walks_in_two_parts() {
    let file = many(18).write().unwrap();
    for (room, end) in [(16, 2), (17, 3), (18, 41), (sp3::MOST_SATELLITES, 41)] {
        let mut once = vec![77_777; room];
        let spot = sp3::after_lines(&file, &mut once, sp3::first_spot(), end);
        assert_eq!(sp3::after_lines(&file, &mut once, spot, 1), spot, "room for {room}");
        for half in 0..=end {
            let mut twice = vec![77_777; room];
            let middle = sp3::after_lines(&file, &mut twice, sp3::first_spot(), half);
            assert_eq!(sp3::after_lines(&file, &mut twice, middle, 99), spot);
            assert_eq!(twice, once);
        }
    }
}

/// A spot that was found in one file means nothing in another, and does no harm there.
#[test]
fn places_of_another_file() {
    let spot = sp3::after_lines(&night().bytes(), &mut [0; 2], sp3::first_spot(), 30);
    assert_eq!(sp3::next_line(b"", &[], spot).unwrap_err().number, 1);
    assert_eq!(sp3::read_line(b"EOF\n", spot, &mut []).unwrap_err().number, 1);
    assert!(sp3::next_line(SAMPLE, &[7107], spot).is_err());
    assert_eq!(sp3::after_lines(b"\n\n", &mut [], spot, 5), spot);
}
