//! A file row by row, for the adjustment's loop.

use crate::ffi;
use crate::refusal::accepted;
use crate::table::room;
use crate::{judge, Reading, Refusal, Row, RowWalk};
use std::borrow::Cow;
use std::iter::FusedIterator;

/// A P row of a file and whose it is.
#[derive(Clone, Copy, Debug, PartialEq)]
pub struct RowAt {
    /// The number of its epoch, counted from 0.
    pub epoch: u64,
    /// The number of its satellite in the header, counted from 0.
    pub satellite: u64,
    /// Its place and clock.
    pub row: Row,
}

/// The walk before the first row.
pub fn first_row() -> RowWalk {
    ffi::sp3_first_row()
}

/// The next P row of a file in order, in mode V too, and the walk after it; `None` at the end of the file. Each line on the way is judged.
/// [`begin`] gives the same as an iterator.
///
/// Refused: 10 at its line where `identifiers` are another file's.
///
/// ```
/// let file = include_bytes!("../../../samples/paper.sp3");
/// let (first, walk) = sp3::next_row(file, &[7107], sp3::first_row())?.expect("one row");
/// assert_eq!((first.epoch, first.satellite), (0, 0));
/// assert_eq!(sp3::next_row(file, &[7107], walk)?, None);
///
/// let refused = sp3::next_row(file, &[7108], sp3::first_row());
/// assert_eq!(refused, Err(sp3::Refusal { number: 10, line: 24, column: 0 }));
/// # Ok::<(), sp3::Refusal>(())
/// ```
pub fn next_row(
    file: &[u8],
    identifiers: &[u64],
    from: RowWalk,
) -> Result<Option<(RowAt, RowWalk)>, Refusal> {
    // SAFETY: each pointer and its number are of one slice.
    let answer = unsafe {
        ffi::sp3_next_row(file.as_ptr(), file.len(), identifiers.as_ptr(), identifiers.len(), from)
    };
    accepted(answer.refusal, answer.line, answer.column)?;
    let (epoch, satellite) = (answer.epoch, answer.satellite);
    let row = RowAt { epoch, satellite, row: answer.row.told() };
    Ok((!answer.end).then_some((row, answer.next)))
}

/// The P rows of a file in order: every satellite of the header in every epoch. Made by [`begin`] or [`rows`]. The file was judged, so no item
/// is a refusal; after a refusal there would be no further item.
#[derive(Clone, Debug)]
pub struct Rows<'a> {
    file: &'a [u8],
    identifiers: Cow<'a, [u64]>,
    reading: Reading,
    walk: RowWalk,
    ended: bool,
}

impl Rows<'_> {
    /// The length, the header and the version of the file.
    pub fn reading(&self) -> Reading {
        self.reading
    }

    /// The identifiers of its header, by which a row's satellite is named.
    pub fn identifiers(&self) -> &[u64] {
        &self.identifiers
    }
}

impl Iterator for Rows<'_> {
    type Item = Result<RowAt, Refusal>;

    fn next(&mut self) -> Option<Self::Item> {
        if self.ended {
            return None;
        }
        match next_row(self.file, &self.identifiers, self.walk) {
            Ok(Some((row, next))) => {
                self.walk = next;
                Some(Ok(row))
            }
            Ok(None) => {
                self.ended = true;
                None
            }
            Err(refusal) => {
                self.ended = true;
                Some(Err(refusal))
            }
        }
    }
}

impl FusedIterator for Rows<'_> {}

/// Judges a whole file, leaves the identifiers of its header in the first places of `identifiers` ([`MOST_SATELLITES`](crate::MOST_SATELLITES)
/// places suffice), and gives the walk over its rows.
///
/// Refused: the file's own refusal first, then 12 with line 0 where there is less room than satellites; the list is then as it was.
///
/// ```
/// let file = include_bytes!("../../../samples/paper.sp3");
/// let mut identifiers = [0; sp3::MOST_SATELLITES];
/// for row in sp3::begin(file, &mut identifiers)? {
///     let row = row?;
///     assert_eq!((row.epoch, row.satellite), (0, 0));
///     assert_eq!(row.row.place, Some([5_000_000_001.0, -500_000.0, 0.0]));
///     assert_eq!(row.row.clock, None);
/// }
/// assert_eq!(identifiers[0], 7107);
///
/// assert_eq!(sp3::begin(file, &mut []).unwrap_err(), sp3::Refusal { number: 12, line: 0, column: 0 });
/// # Ok::<(), sp3::Refusal>(())
/// ```
pub fn begin<'a>(file: &'a [u8], identifiers: &'a mut [u64]) -> Result<Rows<'a>, Refusal> {
    let reading = begin_with(file, identifiers)?;
    let identifiers: &'a [u64] = identifiers;
    let count = usize::try_from(reading.header.satellites).unwrap_or(identifiers.len());
    Ok(walk_over(file, Cow::Borrowed(identifiers.get(..count).unwrap_or(identifiers)), reading))
}

/// The same with the room for the identifiers lent here.
///
/// Refused: the file's own refusal.
///
/// ```
/// let file = include_bytes!("../../../samples/paper.sp3");
/// let rows = sp3::rows(file)?;
/// assert_eq!(rows.identifiers(), [7107]);
/// assert_eq!(rows.count(), 1);
/// assert_eq!(sp3::rows(b"#d").unwrap_err(), sp3::Refusal { number: 1, line: 1, column: 0 });
/// # Ok::<(), sp3::Refusal>(())
/// ```
pub fn rows(file: &[u8]) -> Result<Rows<'_>, Refusal> {
    let header = judge(file)?.header;
    let mut identifiers = room(&[header.satellites])?;
    let reading = begin_with(file, &mut identifiers)?;
    Ok(walk_over(file, Cow::Owned(identifiers), reading))
}

/// Judges the file and leaves its identifiers.
fn begin_with(file: &[u8], identifiers: &mut [u64]) -> Result<Reading, Refusal> {
    // SAFETY: each pointer and its number are of one slice; the identifiers are borrowed for this call alone.
    let answer = unsafe {
        ffi::sp3_begin(file.as_ptr(), file.len(), identifiers.as_mut_ptr(), identifiers.len())
    };
    answer.told()
}

/// The walk before its first row.
fn walk_over<'a>(file: &'a [u8], identifiers: Cow<'a, [u64]>, reading: Reading) -> Rows<'a> {
    Rows { file, identifiers, reading, walk: first_row(), ended: false }
}
