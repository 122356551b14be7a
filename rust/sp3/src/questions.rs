//! Questions about one whole file, and about dates.

use crate::ffi;
use crate::refusal::{accepted, NOT_THERE};
use crate::{Moment, Refusal};
use std::ops::Range;

/// Where in a file the text of comment k lies, counted from 0: from column 4 on, trailing blanks cut.
///
/// Refused: the file's own refusal first, then 13 with line 0 for comment 4 of a file that has four.
///
/// ```
/// let file = include_bytes!("../../../samples/paper.sp3");
/// let stretch = sp3::comment_answer(file, 0)?;
/// assert_eq!(&file[stretch], b"ONE ROW");
/// assert_eq!(sp3::comment_answer(file, 4), Err(sp3::Refusal { number: 13, line: 0, column: 0 }));
/// # Ok::<(), sp3::Refusal>(())
/// ```
pub fn comment_answer(file: &[u8], k: u64) -> Result<Range<usize>, Refusal> {
    // SAFETY: pointer and number are of one slice.
    let answer = unsafe { ffi::sp3_comment(file.as_ptr(), file.len(), k) };
    accepted(answer.refusal, answer.line, answer.column)?;
    Ok(answer.at..answer.at.saturating_add(answer.length))
}

/// The text of comment k, counted from 0, as that stretch of the file: from column 4 on, trailing blanks cut.
///
/// Refused: the file's own refusal first, then 13 with line 0 for comment 4 of a file that has four.
///
/// ```
/// let file = include_bytes!("../../../samples/paper.sp3");
/// assert_eq!(sp3::comment(file, 0)?, b"ONE ROW");
/// assert_eq!(sp3::comment(file, 1)?, b"");
/// assert_eq!(sp3::comment(file, 4), Err(sp3::Refusal { number: 13, line: 0, column: 0 }));
/// # Ok::<(), sp3::Refusal>(())
/// ```
pub fn comment(file: &[u8], k: u64) -> Result<&[u8], Refusal> {
    let stretch = comment_answer(file, k)?;
    file.get(stretch).ok_or(NOT_THERE)
}

/// The identifier of a text as the one number by which it is stored: 7107 for `G07`. `None` for a text that names no satellite.
///
/// ```
/// assert_eq!(sp3::identifier("G07"), Some(7107));
/// assert_eq!(sp3::identifier("G 7"), None);
/// assert_eq!(sp3::identifier("g07"), None);
/// ```
pub fn identifier(text: impl AsRef<[u8]>) -> Option<u64> {
    let text = text.as_ref();
    // SAFETY: pointer and number are of one slice.
    match unsafe { ffi::sp3_identifier(text.as_ptr(), text.len()) } {
        0 => None,
        number => Some(number),
    }
}

/// The text of an identifier that is stored as a number, such that [`identifier`] gives the number back. `None` for a number that is no
/// satellite's.
///
/// ```
/// assert_eq!(sp3::identifier_text(7107).as_deref(), Some("G07"));
/// assert_eq!(sp3::identifier_text(707), None);
/// ```
pub fn identifier_text(number: u64) -> Option<String> {
    let letter = u8::try_from(number / 100).ok()?;
    let text = format!("{}{:02}", char::from(letter), number % 100);
    (identifier(&text) == Some(number)).then_some(text)
}

/// The number in the header, counted from 0, of the satellite with this identifier.
///
/// Refused: the file's own refusal first, then 13 with line 0 where the header has none such.
///
/// ```
/// let file = include_bytes!("../../../samples/paper.sp3");
/// assert_eq!(sp3::satellite_of(file, 7107)?, 0);
/// assert_eq!(sp3::satellite_of(file, 7108), Err(sp3::Refusal { number: 13, line: 0, column: 0 }));
/// # Ok::<(), sp3::Refusal>(())
/// ```
pub fn satellite_of(file: &[u8], identifier: u64) -> Result<u64, Refusal> {
    // SAFETY: pointer and number are of one slice.
    let answer = unsafe { ffi::sp3_satellite_of(file.as_ptr(), file.len(), identifier) };
    accepted(answer.refusal, answer.line, answer.column)?;
    Ok(answer.number)
}

/// A row for the adjustment, each number exactly the whole number of the file.
#[derive(Clone, Copy, Debug, PartialEq)]
pub struct Row {
    /// x, y, z in mm; `None` is absent.
    pub place: Option<[f64; 3]>,
    /// The clock in ps; `None` is absent.
    pub clock: Option<f64>,
}

impl ffi::Row {
    /// The row with what is absent as `None`.
    pub(crate) fn told(self) -> Row {
        Row {
            place: (!self.place_absent).then_some([self.x, self.y, self.z]),
            clock: (!self.clock_absent).then_some(self.clock),
        }
    }
}

/// The P row of an epoch and a satellite of the header, both counted from 0; in mode V too. Every call judges the whole file, as
/// [`judge`](crate::judge) does: the way through all rows is the walk, [`rows`](crate::rows) or [`begin`](crate::begin).
///
/// Refused: the file's own refusal first, then 13 with line 0 for epoch 1 of a file that has one.
///
/// ```
/// let file = include_bytes!("../../../samples/paper.sp3");
/// let row = sp3::row(file, 0, 0)?;
/// assert_eq!(row.place, Some([5_000_000_001.0, -500_000.0, 0.0]));
/// assert_eq!(row.clock, None);
/// assert_eq!(sp3::row(file, 1, 0), Err(sp3::Refusal { number: 13, line: 0, column: 0 }));
/// # Ok::<(), sp3::Refusal>(())
/// ```
pub fn row(file: &[u8], epoch: u64, satellite: u64) -> Result<Row, Refusal> {
    // SAFETY: pointer and number are of one slice.
    let answer = unsafe { ffi::sp3_row(file.as_ptr(), file.len(), epoch, satellite) };
    accepted(answer.refusal, answer.line, answer.column)?;
    Ok(answer.row.told())
}

/// What a date names.
#[derive(Clone, Copy, Debug, PartialEq, Eq, Hash)]
pub struct Date {
    /// Modified Julian Date, in days.
    pub mjd: u64,
    /// GPS week.
    pub week: u64,
    /// Seconds of week, in s.
    pub seconds: u64,
}

/// MJD, GPS week and seconds of week of a date from 1980-01-06 to 2099-12-31.
///
/// Refused: 7 with line 0 for 2001-02-29.
///
/// ```
/// assert_eq!(sp3::date(2013, 4, 3)?, sp3::Date { mjd: 56385, week: 1734, seconds: 259_200 });
/// assert_eq!(sp3::date(2001, 2, 29), Err(sp3::Refusal { number: 7, line: 0, column: 0 }));
/// # Ok::<(), sp3::Refusal>(())
/// ```
pub fn date(year: u64, month: u64, day: u64) -> Result<Date, Refusal> {
    let answer = ffi::sp3_date(year, month, day);
    accepted(answer.refusal, 0, 0)?;
    Ok(Date { mjd: answer.mjd, week: answer.week, seconds: answer.seconds })
}

/// The date and time of day of an instant in 10^-8 s since MJD 0. Days have 86,400 s.
///
/// Refused: 7 with line 0 for an instant before 1980-01-06 or after 2099-12-31.
///
/// ```
/// let second = 100_000_000;
/// let instant = sp3::moment((56385 * 86_400 + 3_661) * second)?;
/// assert_eq!((instant.year, instant.month, instant.day), (2013, 4, 3));
/// assert_eq!((instant.hour, instant.minute, instant.second8), (1, 1, second));
/// assert_eq!(sp3::moment(0), Err(sp3::Refusal { number: 7, line: 0, column: 0 }));
/// # Ok::<(), sp3::Refusal>(())
/// ```
pub fn moment(instant8: u64) -> Result<Moment, Refusal> {
    let answer = ffi::sp3_moment(instant8);
    accepted(answer.refusal, 0, 0)?;
    Ok(answer.moment)
}
