//! What the correlation record directly after a row says of it: EP after a P row, EV after a V row.

use crate::ffi;
use crate::refusal::accepted;
use crate::Refusal;

/// A standard deviation that a record gives: in mm and ps, after a V row in 10^-4 mm/s and 10^-16 s/s.
#[derive(Clone, Copy, Debug, PartialEq, Eq, Hash)]
pub enum Deviation {
    /// 0 to 9998; 0 to 9,999,998 for a clock.
    Value(u64),
    /// 9999; 9,999,999 for a clock.
    TooLarge,
}

/// A correlation record. By default nothing of it is known: the line is `EP` or `EV` alone.
#[derive(Clone, Copy, Debug, Default, PartialEq, Eq, Hash)]
pub struct Note {
    /// The standard deviations of x, y, z and clock; `None` is unknown: the field is blank, which is apart from 0.
    pub deviations: [Option<Deviation>; 4],
    /// The correlations xy, xz, xc, yz, yc and zc in 10^-7, c being the clock; `None` is unknown.
    pub correlations: [Option<i64>; 6],
}

/// The record directly after the k-th stored row. `None`: none stands there, which is apart from one of which nothing is known.
///
/// Refused: 13 where there is no k-th row (k = 1 of 45 numbers).
///
/// ```
/// let table = sp3::Table::read(include_bytes!("../../../samples/correlations.sp3"))?;
/// let note = sp3::note_of(&table.rows, 0)?.expect("an EP line after the first row");
/// assert_eq!(note.deviations, [55, 55, 55, 222].map(|value| Some(sp3::Deviation::Value(value))));
/// assert_eq!(note.correlations, [1234567, -1234567, 5999999, -30, 21, -1230000].map(Some));
/// assert_eq!(sp3::note_of(&[0; 45], 0)?, None);
/// assert_eq!(sp3::note_of(&[0; 45], 1), Err(sp3::Refusal { number: 13, line: 0, column: 0 }));
/// # Ok::<(), sp3::Refusal>(())
/// ```
pub fn note_of(rows: &[i64], k: usize) -> Result<Option<Note>, Refusal> {
    // SAFETY: pointer and number are of one slice.
    let answer = unsafe { ffi::sp3_note_of(rows.as_ptr(), rows.len(), k) };
    accepted(answer.refusal, 0, 0)?;
    if !answer.stands {
        return Ok(None);
    }
    let mut note = Note::default();
    for (which, deviation) in note.deviations.iter_mut().enumerate() {
        *deviation = note_deviation_of(rows, k, which)?;
    }
    for (which, correlation) in note.correlations.iter_mut().enumerate() {
        *correlation = note_correlation_of(rows, k, which)?;
    }
    Ok(Some(note))
}

/// A deviation in the record after the k-th stored row: of x, y, z or clock (0 to 3), columns 5-8, 10-13, 15-18 and 20-26. `None` is unknown, as
/// it is where no record stands; [`note_of`] tells the two apart.
///
/// Refused: 13 where there is no k-th row (k = 1 of 45 numbers), or `which` is 4.
///
/// ```
/// use sp3::Deviation::{TooLarge, Value};
/// let mut rows = [0; sp3::ROW_WIDTH];
/// assert_eq!(sp3::note_deviation_of(&rows, 0, 3)?, None);
/// rows[12] = 1; // a record stands there
/// assert_eq!(sp3::note_deviation_of(&rows, 0, 3)?, Some(Value(0)));
/// rows[16] = 9_999_999;
/// assert_eq!(sp3::note_deviation_of(&rows, 0, 3)?, Some(TooLarge));
/// assert_eq!(sp3::note_deviation_of(&rows, 0, 4), Err(sp3::Refusal { number: 13, line: 0, column: 0 }));
/// # Ok::<(), sp3::Refusal>(())
/// ```
pub fn note_deviation_of(
    rows: &[i64],
    k: usize,
    which: usize,
) -> Result<Option<Deviation>, Refusal> {
    // SAFETY: pointer and number are of one slice.
    let answer = unsafe { ffi::sp3_note_deviation_of(rows.as_ptr(), rows.len(), k, which) };
    accepted(answer.refusal, 0, 0)?;
    let deviation = match answer.too_large {
        true => Deviation::TooLarge,
        false => Deviation::Value(answer.value),
    };
    Ok((!answer.no_record && !answer.unknown).then_some(deviation))
}

/// A correlation in the record after the k-th stored row, in 10^-7: xy, xz, xc, yz, yc or zc (0 to 5), columns 28-35, 37-44, 46-53, 55-62, 64-71
/// and 73-80. `None` is unknown, as it is where no record stands; [`note_of`] tells the two apart.
///
/// Refused: 13 where there is no k-th row (k = 1 of 45 numbers), or `which` is 6.
///
/// ```
/// let mut rows = [0; sp3::ROW_WIDTH];
/// assert_eq!(sp3::note_correlation_of(&rows, 0, 5)?, None);
/// rows[12] = 1; // a record stands there
/// rows[22] = -1_230_000;
/// assert_eq!(sp3::note_correlation_of(&rows, 0, 5)?, Some(-1_230_000));
/// assert_eq!(sp3::note_correlation_of(&rows, 0, 6), Err(sp3::Refusal { number: 13, line: 0, column: 0 }));
/// # Ok::<(), sp3::Refusal>(())
/// ```
pub fn note_correlation_of(rows: &[i64], k: usize, which: usize) -> Result<Option<i64>, Refusal> {
    // SAFETY: pointer and number are of one slice.
    let answer = unsafe { ffi::sp3_note_correlation_of(rows.as_ptr(), rows.len(), k, which) };
    accepted(answer.refusal, 0, 0)?;
    Ok((!answer.no_record && !answer.unknown).then_some(answer.value))
}

/// How an unknown deviation or correlation is held.
pub(crate) const UNNOTED: i64 = 100_000_000;

/// How a deviation that is too large is held, for x, y, z and clock.
const TOO_LARGE: [i64; 4] = [9999, 9999, 9999, 9_999_999];

/// The numbers by which the record after a row is held: whether it stands, its deviations, its correlations.
pub(crate) fn note_numbers(note: Option<Note>) -> impl Iterator<Item = i64> {
    let stands = i64::from(note.is_some());
    let Note { deviations, correlations } = note.unwrap_or_default();
    let deviations = (0..4).map(move |which: usize| match deviations[which] {
        Some(Deviation::Value(value)) => i64::try_from(value).unwrap_or(i64::MAX),
        Some(Deviation::TooLarge) => TOO_LARGE[which],
        None => UNNOTED,
    });
    let correlations = correlations.map(|correlation| correlation.unwrap_or(UNNOTED));
    [stands].into_iter().chain(deviations).chain(correlations)
}
