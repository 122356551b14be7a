//! A file line by line.

use crate::ffi;
use crate::refusal::refused;
use crate::{LineRefusal, Spot};

impl Spot {
    /// The byte at which the next line begins.
    pub fn at(&self) -> usize {
        self.at
    }
}

/// What a line without fault does.
#[derive(Clone, Copy, Debug, PartialEq, Eq, Hash)]
pub struct Line {
    /// Whether the line is the file's EOF line.
    pub finished: bool,
    /// The spot after the line. After the EOF line only its byte counts: there the file ends.
    pub next: Spot,
}

impl ffi::LineAnswer {
    /// The answer as a result.
    fn told(self) -> Result<Line, LineRefusal> {
        match refused(self.refusal) {
            None => Ok(Line { finished: self.finished, next: self.next }),
            Some(number) => Err(LineRefusal { number, column: self.column }),
        }
    }
}

/// The spot before the first line of a file.
///
/// ```
/// assert_eq!(sp3::first_spot().at(), 0);
/// ```
pub fn first_spot() -> Spot {
    ffi::sp3_first_spot()
}

/// What the line at a spot does. A `+ ` line without fault leaves its own in `identifiers` ([`MOST_SATELLITES`](crate::MOST_SATELLITES) places
/// suffice), after those of the lines before it; no other line changes the list, which is lent to the next line as this one left it.
///
/// Refused: 1 where no LF is left, 12 at the `+ ` line without fault that brings more identifiers than the list has places for; the list is then
/// as it was.
///
/// ```
/// let file = include_bytes!("../../../samples/paper.sp3");
/// let mut identifiers = [0; sp3::MOST_SATELLITES];
/// let mut line = sp3::read_line(file, sp3::first_spot(), &mut identifiers)?;
/// assert_eq!(line.next.at(), 61);
/// while !line.finished {
///     line = sp3::read_line(file, line.next, &mut identifiers)?;
/// }
/// assert_eq!(line.next.at(), file.len());
/// assert_eq!(identifiers[0], 7107);
///
/// let refusal = sp3::read_line(b"#dP2013", sp3::first_spot(), &mut identifiers).unwrap_err();
/// assert_eq!(refusal.number, 1);
///
/// let satellites = sp3::after_lines(file, &mut [], sp3::first_spot(), 2);
/// let refusal = sp3::read_line(file, satellites, &mut []).unwrap_err();
/// assert_eq!(refusal, sp3::LineRefusal { number: 12, column: 0 });
/// # Ok::<(), sp3::LineRefusal>(())
/// ```
pub fn read_line(file: &[u8], spot: Spot, identifiers: &mut [u64]) -> Result<Line, LineRefusal> {
    // SAFETY: each pointer and its number are of one slice; the identifiers are borrowed for this call alone.
    let answer = unsafe {
        ffi::sp3_read_line(
            file.as_ptr(),
            file.len(),
            spot,
            identifiers.as_mut_ptr(),
            identifiers.len(),
        )
    };
    answer.told()
}

/// What the line at a spot does, where all identifiers of the header are known (as [`begin`](crate::begin) leaves them).
///
/// Refused: as [`read_line`], but never 12; 10 for a row of a satellite that `identifiers` does not have here.
///
/// ```
/// let file = include_bytes!("../../../samples/paper.sp3");
/// let row = sp3::after_lines(file, &mut [0; sp3::MOST_SATELLITES], sp3::first_spot(), 23);
/// assert!(file[row.at()..].starts_with(b"PG07"));
/// assert!(sp3::next_line(file, &[7107], row).is_ok());
/// assert_eq!(sp3::next_line(file, &[7108], row).unwrap_err().number, 10);
/// ```
pub fn next_line(file: &[u8], identifiers: &[u64], spot: Spot) -> Result<Line, LineRefusal> {
    // SAFETY: each pointer and its number are of one slice.
    let answer = unsafe {
        ffi::sp3_next_line(file.as_ptr(), file.len(), identifiers.as_ptr(), identifiers.len(), spot)
    };
    answer.told()
}

/// What must stand at a spot.
#[derive(Clone, Copy, Debug, PartialEq, Eq, Hash)]
pub struct Due {
    /// The kind of line that must come: 1 `#c` or `#d`, 2 `##`, 3 `+ `, 4 `++`, 5 `%c`, 6 `%f`, 7 `%i`, 8 comment, 9 epoch, 10 P, 11 V, 12 EP,
    /// 13 EV, 14 `EOF`.
    pub kind: u64,
    /// The kind that may stand there before it.
    pub also: Option<u64>,
    /// The instant at which the epoch must stand, in 10^-8 s since MJD 0; `None` where no epoch must come.
    pub instant8: Option<u64>,
    /// The satellite that the row must name; `None` where no row must come, and where fewer identifiers are lent.
    pub identifier: Option<u64>,
    /// Whether a `+ ` line stands there that is refused with 8 though its slots after the last satellite are right: it names an identifier again,
    /// in itself or after the lines before it.
    pub repeats: bool,
}

impl ffi::Due {
    /// The answer with what there is not as `None`.
    fn told(self) -> Due {
        let there = |number: u64| (number != 0).then_some(number);
        Due {
            kind: self.kind,
            also: there(self.also),
            instant8: there(self.instant8),
            identifier: there(self.identifier),
            repeats: self.repeats,
        }
    }
}

/// What a refused line should have been: with the spot before that line ([`after_lines`], one line fewer than its number) and the identifiers
/// that the lines before it left.
///
/// ```
/// let file = include_str!("../../../samples/paper.sp3").replace("PG07", "PG08");
/// let refusal = sp3::judge(file.as_bytes()).unwrap_err();
/// assert_eq!((refusal.number, refusal.line), (10, 24));
///
/// let mut identifiers = [0; sp3::MOST_SATELLITES];
/// let row = sp3::after_lines(file.as_bytes(), &mut identifiers, sp3::first_spot(), 23);
/// let due = sp3::due(file.as_bytes(), &identifiers, row);
/// assert_eq!((due.kind, due.also), (10, None));
/// assert_eq!(due.identifier, sp3::identifier("G07"));
///
/// let epoch = sp3::after_lines(file.as_bytes(), &mut identifiers, sp3::first_spot(), 22);
/// let due = sp3::due(file.as_bytes(), &identifiers, epoch);
/// assert_eq!((due.kind, due.also), (9, Some(8)));
/// assert_eq!(due.instant8, Some(56385 * 86_400 * 100_000_000));
/// ```
pub fn due(file: &[u8], identifiers: &[u64], spot: Spot) -> Due {
    // SAFETY: each pointer and its number are of one slice.
    let answer = unsafe {
        ffi::sp3_due(file.as_ptr(), file.len(), identifiers.as_ptr(), identifiers.len(), spot)
    };
    answer.told()
}

/// The spot so many lines further, each line read as by [`read_line`]. Afterwards `identifiers` ([`MOST_SATELLITES`](crate::MOST_SATELLITES)
/// places suffice) holds those of the `+ ` lines that were passed; to go on from there lend it as it is. The spot stays at a line that is refused,
/// with 12 too, and at the EOF line.
///
/// ```
/// let file = include_bytes!("../../../samples/paper.sp3");
/// let mut identifiers = [0; sp3::MOST_SATELLITES];
/// let end = sp3::after_lines(file, &mut identifiers, sp3::first_spot(), 1000);
/// assert_eq!(&file[end.at()..], b"EOF\n");
/// assert_eq!(identifiers[0], 7107);
///
/// let satellites = sp3::after_lines(file, &mut [], sp3::first_spot(), 1000);
/// assert!(file[satellites.at()..].starts_with(b"+    1   G07"));
/// ```
pub fn after_lines(file: &[u8], identifiers: &mut [u64], spot: Spot, lines: usize) -> Spot {
    let (list, room) = (identifiers.as_mut_ptr(), identifiers.len());
    // SAFETY: each pointer and its number are of one slice; the identifiers are borrowed for this call alone.
    unsafe { ffi::sp3_after_lines(file.as_ptr(), file.len(), list, room, spot, lines) }
}
