//! Stored rows, asked for by name and made.

use crate::ffi;
use crate::notes::note_numbers;
use crate::refusal::{accepted, NOT_THERE};
use crate::{note_of, Note, Refusal};

/// The numbers of one stored row: x, y, z, clock, their four exponents, four flags; then of the correlation record after it whether it stands
/// there, four deviations, six correlations.
pub const ROW_WIDTH: usize = 23;

/// The bytes of one stored comment.
pub const COMMENT_WIDTH: usize = 77;

/// The exponent of a standard deviation, whose base is in [`Header::bases`](crate::Header::bases).
#[derive(Clone, Copy, Debug, PartialEq, Eq, Hash)]
pub enum Exponent {
    /// 0 to 98; 0 to 998 for a clock.
    Value(u64),
    /// The field is blank, which is apart from 0.
    Unknown,
    /// 99; 999 for a clock.
    TooLarge,
}

/// The flags of a P row. A V row has none set.
#[derive(Clone, Copy, Debug, Default, PartialEq, Eq, Hash)]
pub struct Flags {
    /// E in column 75.
    pub clock_event: bool,
    /// P in column 76.
    pub clock_predicted: bool,
    /// M in column 79.
    pub maneuver: bool,
    /// P in column 80.
    pub orbit_predicted: bool,
}

/// The place or velocity of the k-th stored row, columns 5 to 46: x, y, z in mm, or in 10^-4 mm/s in a V row. `None` is absent: all three are
/// zero in the file, whatever the clock.
///
/// Refused: 13 where there is no k-th row (k = 1 of 45 numbers).
///
/// ```
/// let mut rows = [0; 45];
/// rows[2] = 1;
/// assert_eq!(sp3::place_of(&rows, 0)?, Some([0, 0, 1]));
/// rows[2] = 0;
/// assert_eq!(sp3::place_of(&rows, 0)?, None);
/// assert_eq!(sp3::place_of(&rows, 1), Err(sp3::Refusal { number: 13, line: 0, column: 0 }));
/// # Ok::<(), sp3::Refusal>(())
/// ```
pub fn place_of(rows: &[i64], k: usize) -> Result<Option<[i64; 3]>, Refusal> {
    // SAFETY: pointer and number are of one slice.
    let answer = unsafe { ffi::sp3_place_of(rows.as_ptr(), rows.len(), k) };
    accepted(answer.refusal, 0, 0)?;
    Ok((!answer.absent).then_some([answer.x, answer.y, answer.z]))
}

/// The clock or rate of the k-th stored row, columns 47 to 60: in ps, or in 10^-16 s/s in a V row. `None` is absent: columns 47 to 53 of the file
/// hold 999999 without a minus, whatever the place. The row then holds twelve nines, however the file spells them.
///
/// Refused: 13 where there is no k-th row (k = 1 of 45 numbers).
///
/// ```
/// let mut rows = [0; 45];
/// assert_eq!(sp3::clock_of(&rows, 0)?, Some(0));
/// rows[3] = 999_999_999_999;
/// assert_eq!(sp3::clock_of(&rows, 0)?, None);
/// assert_eq!(sp3::clock_of(&rows, 1), Err(sp3::Refusal { number: 13, line: 0, column: 0 }));
///
/// let table = sp3::Table::read(include_bytes!("../../../samples/six-nines.sp3"))?;
/// assert_eq!(sp3::clock_of(&table.rows, 0)?, None, "999999.000000");
/// assert_eq!(sp3::clock_of(&table.rows, 8)?, Some(-999_999_000_000), "-999999.000000");
/// # Ok::<(), sp3::Refusal>(())
/// ```
pub fn clock_of(rows: &[i64], k: usize) -> Result<Option<i64>, Refusal> {
    // SAFETY: pointer and number are of one slice.
    let answer = unsafe { ffi::sp3_clock_of(rows.as_ptr(), rows.len(), k) };
    accepted(answer.refusal, 0, 0)?;
    Ok((!answer.absent).then_some(answer.clock))
}

/// An exponent of the k-th stored row: of x, y, z or clock (0 to 3), columns 62-63, 65-66, 68-69 and 71-73.
///
/// Refused: 13 where there is no k-th row, or `which` is 4.
///
/// ```
/// let rows = [0; sp3::ROW_WIDTH];
/// assert_eq!(sp3::exponent_of(&rows, 0, 3)?, sp3::Exponent::Value(0));
/// assert_eq!(sp3::exponent_of(&rows, 0, 4), Err(sp3::Refusal { number: 13, line: 0, column: 0 }));
/// # Ok::<(), sp3::Refusal>(())
/// ```
pub fn exponent_of(rows: &[i64], k: usize, which: usize) -> Result<Exponent, Refusal> {
    // SAFETY: pointer and number are of one slice.
    let answer = unsafe { ffi::sp3_exponent_of(rows.as_ptr(), rows.len(), k, which) };
    accepted(answer.refusal, 0, 0)?;
    Ok(match (answer.unknown, answer.too_large) {
        (true, _) => Exponent::Unknown,
        (_, true) => Exponent::TooLarge,
        _ => Exponent::Value(answer.value),
    })
}

/// Whether a flag of the k-th stored row is set: clock event, clock predicted, maneuver or orbit predicted (0 to 3), columns 75, 76, 79 and 80.
///
/// Refused: 13 where there is no k-th row, or `which` is 4.
///
/// ```
/// let rows = [0; sp3::ROW_WIDTH];
/// assert_eq!(sp3::flag_of(&rows, 0, 2)?, false);
/// assert_eq!(sp3::flag_of(&rows, 0, 4), Err(sp3::Refusal { number: 13, line: 0, column: 0 }));
/// # Ok::<(), sp3::Refusal>(())
/// ```
pub fn flag_of(rows: &[i64], k: usize, which: usize) -> Result<bool, Refusal> {
    // SAFETY: pointer and number are of one slice.
    let answer = unsafe { ffi::sp3_flag_of(rows.as_ptr(), rows.len(), k, which) };
    accepted(answer.refusal, 0, 0)?;
    Ok(answer.set)
}

/// All of one stored row.
#[derive(Clone, Copy, Debug, PartialEq, Eq, Hash)]
pub struct StoredRow {
    /// x, y, z in mm, or in 10^-4 mm/s in a V row; `None` is absent.
    pub place: Option<[i64; 3]>,
    /// The clock in ps, or the rate in 10^-16 s/s in a V row, at most 999,998,999,999; `None` is absent.
    pub clock: Option<i64>,
    /// The exponents of x, y, z and clock.
    pub exponents: [Exponent; 4],
    /// The flags.
    pub flags: Flags,
    /// The EP record directly after a P row, or the EV record directly after a V row; `None` where none stands there.
    pub note: Option<Note>,
}

/// All of the k-th stored row.
///
/// Refused: 13 where there is no k-th row (k = 1 of 45 numbers).
///
/// ```
/// let row = sp3::stored_row(&[0; 45], 0)?;
/// assert_eq!((row.place, row.clock, row.note), (None, Some(0), None));
/// assert_eq!(sp3::stored_row(&[0; 45], 1), Err(sp3::Refusal { number: 13, line: 0, column: 0 }));
/// # Ok::<(), sp3::Refusal>(())
/// ```
pub fn stored_row(rows: &[i64], k: usize) -> Result<StoredRow, Refusal> {
    let exponent = |which| exponent_of(rows, k, which);
    let flag = |which| flag_of(rows, k, which);
    Ok(StoredRow {
        place: place_of(rows, k)?,
        clock: clock_of(rows, k)?,
        exponents: [exponent(0)?, exponent(1)?, exponent(2)?, exponent(3)?],
        flags: Flags {
            clock_event: flag(0)?,
            clock_predicted: flag(1)?,
            maneuver: flag(2)?,
            orbit_predicted: flag(3)?,
        },
        note: note_of(rows, k)?,
    })
}

/// How an absent clock or rate is held, however a file spells it; an absent place or velocity is held as three zeros.
pub(crate) const ABSENT_CLOCK: i64 = 999_999_999_999;

/// How an unknown exponent is held.
pub(crate) const UNKNOWN: i64 = 1000;

/// How an exponent that is too large is held, for x, y, z and clock.
const TOO_LARGE: [i64; 4] = [99, 99, 99, 999];

impl Exponent {
    /// The number by which the exponent of x, y, z or clock (0 to 3) is held.
    fn number(self, which: usize) -> i64 {
        match self {
            Exponent::Value(value) => i64::try_from(value).unwrap_or(i64::MAX),
            Exponent::Unknown => UNKNOWN,
            Exponent::TooLarge => TOO_LARGE[which],
        }
    }
}

impl Flags {
    /// The flags in the order of their columns.
    fn in_order(self) -> [bool; 4] {
        [self.clock_event, self.clock_predicted, self.maneuver, self.orbit_predicted]
    }
}

impl StoredRow {
    /// The row as the numbers that [`write`](crate::write) takes, such that [`stored_row`] gives it back.
    ///
    /// Refused: 13 where it would be another row: `Some([0, 0, 0])` and a clock `Some(999_999_999_999)` would be absent, an exponent `Value(99)`
    /// too large, a correlation `Some(100_000_000)` unknown. What no file can hold, such as a clock `Some(999_999_000_000)`, is left to
    /// [`write`](crate::write), which refuses it.
    ///
    /// ```
    /// use sp3::{Deviation, Exponent, Flags, Note, StoredRow};
    /// let row = StoredRow {
    ///     place: Some([5_000_000_001, -500_000, 0]),
    ///     clock: None,
    ///     exponents: [Exponent::Unknown; 4],
    ///     flags: Flags { maneuver: true, ..Flags::default() },
    ///     note: Some(Note { deviations: [Some(Deviation::Value(55)); 4], ..Note::default() }),
    /// };
    /// assert_eq!(sp3::stored_row(&row.numbers()?, 0)?, row);
    ///
    /// let centre = StoredRow { place: Some([0, 0, 0]), ..row };
    /// assert_eq!(centre.numbers(), Err(sp3::Refusal { number: 13, line: 0, column: 0 }));
    /// # Ok::<(), sp3::Refusal>(())
    /// ```
    pub fn numbers(&self) -> Result<[i64; ROW_WIDTH], Refusal> {
        let place = self.place.unwrap_or([0; 3]).into_iter();
        let exponents = (0..4).map(|which| self.exponents[which].number(which));
        let in_order = place
            .chain([self.clock.unwrap_or(ABSENT_CLOCK)])
            .chain(exponents)
            .chain(self.flags.in_order().map(i64::from))
            .chain(note_numbers(self.note));
        let mut numbers = [0; ROW_WIDTH];
        for (place, number) in numbers.iter_mut().zip(in_order) {
            *place = number;
        }
        match stored_row(&numbers, 0) {
            Ok(row) if row == *self => Ok(numbers),
            _ => Err(NOT_THERE),
        }
    }
}

/// The text of a comment as the bytes that [`write`](crate::write) takes: filled up with blanks.
///
/// Refused: 13 for a text of more than [`COMMENT_WIDTH`] bytes.
///
/// ```
/// assert_eq!(sp3::stored_comment("ONE ROW")?.trim_ascii_end(), b"ONE ROW");
/// assert_eq!(sp3::stored_comment([b'-'; 78]), Err(sp3::Refusal { number: 13, line: 0, column: 0 }));
/// # Ok::<(), sp3::Refusal>(())
/// ```
pub fn stored_comment(text: impl AsRef<[u8]>) -> Result<[u8; COMMENT_WIDTH], Refusal> {
    let text = text.as_ref();
    let mut bytes = [b' '; COMMENT_WIDTH];
    bytes.get_mut(..text.len()).ok_or(NOT_THERE)?.copy_from_slice(text);
    Ok(bytes)
}
