//! What must stand at each line of a file, and what a refused line should have been.

mod common;

use common::{many, motion, night, paper, refused};
use sp3::Due;

/// What must stand after so many lines of a file, or where the walker stays before.
fn due_after(lines: usize, file: &[u8]) -> Due {
    let mut identifiers = [0; sp3::MOST_SATELLITES];
    let spot = sp3::after_lines(file, &mut identifiers, sp3::first_spot(), lines);
    sp3::due(file, &identifiers, spot)
}

/// What must stand at each line of a file.
fn at_each_line(file: &[u8]) -> Vec<Due> {
    let lines = file.iter().filter(|&&byte| byte == b'\n').count();
    (0..lines).map(|line| due_after(line, file)).collect()
}

/// A line of this kind must come, and the other may stand before it.
fn line(kind: u64, also: Option<u64>) -> Due {
    Due { kind, also, instant8: None, identifier: None, repeats: false }
}

/// An epoch must come, so many days after MJD 0 and seconds after midnight.
fn epoch(also: u64, days: u64, seconds: u64) -> Due {
    let instant8 = (days * 86_400 + seconds) * 100_000_000;
    Due { instant8: Some(instant8), ..line(9, Some(also)) }
}

/// A row of this satellite must come, P (10) or V (11).
fn row(kind: u64, also: Option<u64>, identifier: u64) -> Due {
    Due { identifier: Some(identifier), ..line(kind, also) }
}

/// A header of `#d`, `##`, five `+ `, five `++`, two each of `%c`, `%f` and `%i`, and four comments; then these.
fn after_header(rest: &[Due]) -> Vec<Due> {
    let kinds = [(1, 1), (2, 1), (3, 5), (4, 5), (5, 2), (6, 2), (7, 2), (8, 4)];
    let header = kinds.iter().flat_map(|&(kind, lines)| vec![line(kind, None); lines]);
    header.chain(rest.iter().copied()).collect()
}

#[test]
fn each_line_of_the_papers_file() {
    let rest = [epoch(8, 56385, 0), row(10, None, 7107), line(14, Some(12))];
    assert_eq!(at_each_line(&paper().bytes()), after_header(&rest));
}

#[test]
fn each_line_over_midnight() {
    let [first, second] = [row(10, None, 7107), row(10, Some(12), 8224)];
    let rest = [
        epoch(8, 56292, 85_500),
        first,
        second,
        epoch(12, 56293, 0),
        first,
        second,
        epoch(12, 56293, 900),
        first,
        second,
        line(14, Some(12)),
    ];
    assert_eq!(at_each_line(&night().bytes()), after_header(&rest));
}

#[test]
fn each_line_of_mode_v() {
    let rest = [
        epoch(8, 52129, 0),
        row(10, None, 7101),
        row(11, Some(12), 7101),
        row(11, None, 7101),
        row(10, Some(13), 7102),
        row(10, None, 7102),
        row(11, Some(12), 7102),
        line(14, Some(13)),
    ];
    assert_eq!(at_each_line(&motion().bytes()), after_header(&rest));
}

/// The walker stays at a refused line, so that it can be asked what must stand there.
#[test]
fn what_a_refused_line_should_have_been() {
    let number = |file: &[u8]| sp3::judge(file).unwrap_err().number;
    let late = paper().put(23, 18, "15").bytes();
    assert_eq!((number(&late), due_after(99, &late)), (9, epoch(8, 56385, 0)));
    let other = paper().put(24, 4, "8").bytes();
    assert_eq!((number(&other), due_after(99, &other)), (10, row(10, None, 7107)));
    let three = paper().without(20).bytes();
    assert_eq!((number(&three), due_after(99, &three)), (4, line(8, None)));
    assert_eq!((number(b""), due_after(99, b"")), (1, line(1, None)));
}

#[test]
fn identifiers_that_repeat() {
    let twice = Due { repeats: true, ..line(3, None) };
    let within = paper().put(3, 6, "2").put(3, 13, "G07").bytes();
    assert_eq!(sp3::judge(&within), refused(8, 3, 0));
    assert_eq!(due_after(2, &within), twice);
    let text = String::from_utf8(many(18).write().unwrap()).unwrap();
    let later = text.replacen("+        G18", "+        G01", 1);
    assert_eq!(sp3::judge(later.as_bytes()), refused(8, 4, 0));
    assert_eq!(due_after(2, later.as_bytes()), line(3, None));
    assert_eq!(due_after(3, later.as_bytes()), twice);
    assert_eq!(due_after(3, text.as_bytes()), line(3, None));
}

/// A slot after the last satellite is the other cause of 8 in a `+ ` line.
#[test]
fn a_slot_that_is_no_repeat() {
    let after = paper().put(3, 13, "G07").bytes();
    assert_eq!(sp3::judge(&after), refused(8, 3, 0));
    assert_eq!(due_after(2, &after), line(3, None));
}
