//! Correlation records: EP after a P row, EV after a V row, read and written back.

mod common;

use common::{motion, paper, refused, stored_again, CORRELATIONS, SAMPLE};
use sp3::Deviation::{TooLarge, Value};
use sp3::{Deviation, Note, StoredRow, Table};

/// A record of which all is known.
fn full(deviations: [u64; 4], correlations: [i64; 6]) -> Option<Note> {
    let deviations = deviations.map(|value| Some(Value(value)));
    Some(Note { deviations, correlations: correlations.map(Some) })
}

/// A record with deviations alone.
fn deviations(deviations: [Option<Deviation>; 4]) -> Option<Note> {
    Some(Note { deviations, ..Note::default() })
}

/// A record with correlations alone.
fn correlations(correlations: [Option<i64>; 6]) -> Option<Note> {
    Some(Note { correlations, ..Note::default() })
}

/// The two records of Example 2 in the SP3-d document.
fn example() -> [Option<Note>; 2] {
    [
        full([55, 55, 55, 222], [1_234_567, -1_234_567, 5_999_999, -30, 21, -1_230_000]),
        full([22, 22, 22, 111], [1_234_567; 6]),
    ]
}

/// The records after each row of the sample, P and V in turn, by the columns of its lines.
fn sample_notes() -> Vec<Option<Note>> {
    let three = Note {
        deviations: [Some(Value(7)), Some(Value(8)), Some(Value(9)), None],
        correlations: [Some(120_000), Some(-450_000), None, Some(30), None, None],
    };
    let zeros = Note {
        deviations: [0, 1000, 0, 0].map(|value| Some(Value(value))),
        correlations: [Some(0), Some(0), None, Some(0), None, Some(-7)],
    };
    let [ep, ev] = example();
    let nothing = Some(Note::default());
    let ends = correlations([Some(9_999_999), Some(-9_999_999), None, Some(-1), Some(1), None]);
    let below = deviations([Some(Value(1)), None, Some(Value(9998)), Some(Value(9_999_998))]);
    let first = [ep, ev, Some(three), None, nothing, nothing];
    let second = [deviations([Some(TooLarge); 4]), ends, None, Some(zeros), below, None];
    [first, second].concat()
}

/// The note of the paper's row with this line after it, and the line in the canonical form.
fn noted(line: &str) -> Result<(Note, String), sp3::Refusal> {
    let table = Table::read(&paper().with(25, line).bytes())?;
    let form = String::from_utf8(table.write()?).expect("characters");
    let written = form.lines().nth(24).expect("the line after the row").to_string();
    Ok((table.note_of(0)?.expect("a note"), written))
}

#[test]
fn records_of_every_kind() {
    let table = Table::read(CORRELATIONS).unwrap();
    let rows = table.rows().flat_map(|row| [row.position.note, row.velocity.unwrap().note]);
    assert_eq!(rows.collect::<Vec<_>>(), sample_notes());
    assert_eq!(table.row(1, 2).unwrap().position.place, None, "withdrawn, and yet with a record");
    assert_eq!(table.write().unwrap(), CORRELATIONS);
    assert_eq!(stored_again(&table), table.rows);
}

#[test]
fn records_by_name() {
    let table = Table::read(CORRELATIONS).unwrap();
    for (k, expected) in sample_notes().into_iter().enumerate() {
        assert_eq!(table.note_of(k), Ok(expected));
        let note = expected.unwrap_or_default();
        for (which, &deviation) in note.deviations.iter().enumerate() {
            assert_eq!(table.note_deviation_of(k, which), Ok(deviation));
        }
        for (which, &correlation) in note.correlations.iter().enumerate() {
            assert_eq!(table.note_correlation_of(k, which), Ok(correlation));
        }
    }
    assert_eq!(table.note_of(12), refused(13, 0, 0));
    assert_eq!(table.note_deviation_of(0, 4), refused(13, 0, 0));
    assert_eq!(table.note_correlation_of(0, 6), refused(13, 0, 0));
}

#[test]
fn numbers_of_a_row_and_its_record() {
    let with = |line| Table::read(&paper().with(25, line).bytes()).unwrap().rows[12..].to_vec();
    let unknown = 100_000_000;
    assert_eq!(Table::read(SAMPLE).unwrap().rows[12..], [&[0][..], &[unknown; 10]].concat());
    assert_eq!(with("EP"), [&[1][..], &[unknown; 10]].concat());
    assert_eq!(with("EP     7"), [&[1, 7][..], &[unknown; 9]].concat());
}

#[test]
fn mode_v_with_records() {
    let file = motion().bytes();
    let table = Table::read(&file).unwrap();
    let [first, second] = [0, 1].map(|satellite| table.row(0, satellite).unwrap());
    assert_eq!([first.position.note, first.velocity.unwrap().note], example());
    assert_eq!([second.position.note, second.velocity.unwrap().note], [None, None]);
    assert_eq!(table.write().unwrap(), file);
    let [ep_alone, ev_alone] = [27, 25].map(|line| motion().without(line).bytes());
    for (file, notes) in [(ep_alone, [example()[0], None]), (ev_alone, [None, example()[1]])] {
        let table = Table::read(&file).unwrap();
        assert_eq!([0, 1].map(|k| table.note_of(k).unwrap()), notes);
        assert_eq!(table.write().unwrap(), file);
    }
}

/// Leading zeros, minus zero, trailing blanks: what is known, and how it is written.
#[test]
fn lines_and_their_forms() {
    let nothing = Note::default();
    assert_eq!(noted("EP"), Ok((nothing, "EP".to_string())));
    assert_eq!(noted(&format!("{:80}", "EP")), Ok((nothing, "EP".to_string())));
    let first = |value| deviations([Some(value), None, None, None]).unwrap();
    assert_eq!(noted("EP  0055"), Ok((first(Value(55)), "EP    55".to_string())));
    assert_eq!(noted("EP  1000"), Ok((first(Value(1000)), "EP  1000".to_string())));
    assert_eq!(noted("EP  9999"), Ok((first(TooLarge), "EP  9999".to_string())));
    let clock = |value| deviations([None, None, None, Some(value)]).unwrap();
    let line = |columns: &str| format!("{:19}{columns}", "EP");
    assert_eq!(noted(&line("9999999")), Ok((clock(TooLarge), line("9999999"))));
    assert_eq!(noted(&line("   9999")), Ok((clock(Value(9999)), line("   9999"))));
    let xy = |number| correlations([Some(number), None, None, None, None, None]).unwrap();
    let line = |columns: &str| format!("{:27}{columns}", "EP");
    assert_eq!(noted(&line("      -0")), Ok((xy(0), line("       0"))));
    assert_eq!(noted(&line("     -30")), Ok((xy(-30), line("     -30"))));
    assert_eq!(noted(&line("09999999")), Ok((xy(9_999_999), line(" 9999999"))));
    assert_eq!(noted(&line("10000000")), refused(7, 25, 28));
    assert_eq!(noted(&line("      +1")), refused(6, 25, 28));
}

/// A row with its record, made and given back; what would be another record is refused, what no line can hold the writer refuses.
#[test]
fn records_made_and_given_back() {
    let table = Table::read(SAMPLE).unwrap();
    let row = |note| StoredRow { note, ..table.row(0, 0).unwrap().position };
    let deviation = |value| deviations([None, None, Some(Value(value)), None]);
    let correlation = |number| correlations([None, None, None, None, None, Some(number)]);
    for note in sample_notes() {
        let numbers = row(note).numbers().unwrap();
        assert_eq!(sp3::stored_row(&numbers, 0), Ok(row(note)));
        let table = Table { rows: numbers.to_vec(), ..table.clone() };
        assert_eq!(Table::read(&table.write().unwrap()), Ok(table));
    }
    for note in
        [deviation(9999), deviation(100_000_000), deviation(u64::MAX), correlation(100_000_000)]
    {
        assert_eq!(row(note).numbers(), refused(13, 0, 0), "{note:?}");
    }
    for note in [deviation(10_000), correlation(10_000_000), correlation(-10_000_000)] {
        let rows = row(note).numbers().unwrap().to_vec();
        assert_eq!(Table { rows, ..table.clone() }.write(), refused(13, 0, 0), "{note:?}");
    }
}
