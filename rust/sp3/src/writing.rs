//! Headers made and tables written.

use crate::ffi;
use crate::refusal::{accepted, NOT_THERE};
use crate::{moment, Header, HeaderParts, Moment, Refusal};

impl Header {
    /// A header out of its parts.
    ///
    /// Refused: 6 for mode `Q`, 7 for 1000 satellites, 6 for both; line 0.
    ///
    /// ```
    /// let parts = sp3::HeaderParts {
    ///     mode: b'P',
    ///     start: sp3::Moment { year: 2013, month: 4, day: 3, ..Default::default() },
    ///     epochs: 96,
    ///     interval8: 90_000_000_000,
    ///     texts: sp3::Texts {
    ///         data_used: *b"ORBIT",
    ///         coordinates: *b"WGS84",
    ///         orbit: *b"BCT",
    ///         agency: *b"PORT",
    ///     },
    ///     satellites: 32,
    ///     comments: 4,
    ///     file_type: b'G',
    ///     time_system: *b"GPS",
    ///     bases: sp3::Bases { place: 12_500_000, clock: 1_025_000_000 },
    /// };
    /// assert_eq!(sp3::Header::new(parts)?.epochs, 96);
    ///
    /// let refused = sp3::Header::new(sp3::HeaderParts { satellites: 1000, ..parts });
    /// assert_eq!(refused, Err(sp3::Refusal { number: 7, line: 0, column: 0 }));
    /// # Ok::<(), sp3::Refusal>(())
    /// ```
    pub fn new(parts: HeaderParts) -> Result<Header, Refusal> {
        let answer = ffi::sp3_header(parts);
        accepted(answer.refusal, 0, 0)?;
        Ok(answer.header)
    }

    /// The date and time of day of an epoch, counted from 0: the start and so many intervals.
    ///
    /// Refused: 13 for epoch 96 of 96; 7 where the instant lies past 2099.
    ///
    /// ```
    /// let header = sp3::judge(include_bytes!("../../../samples/paper.sp3"))?.header;
    /// let start = header.epoch(0)?;
    /// assert_eq!((start.year, start.month, start.day), (2013, 4, 3));
    /// assert_eq!(header.epoch(1), Err(sp3::Refusal { number: 13, line: 0, column: 0 }));
    /// # Ok::<(), sp3::Refusal>(())
    /// ```
    pub fn epoch(&self, k: u64) -> Result<Moment, Refusal> {
        if k >= self.epochs {
            return Err(NOT_THERE);
        }
        moment(self.start8.saturating_add(k.saturating_mul(self.interval8)))
    }
}

/// How many bytes the canonical form of a table in SP3-d has, so that just so many can be lent to [`write()`].
///
/// Refused: 13 with line 0 where the table is not valid.
///
/// ```
/// let table = sp3::Table::read(include_bytes!("../../../samples/paper.sp3"))?;
/// let (identifiers, comments) = (&table.identifiers, &table.comments);
/// let length = sp3::form_length(&table.header, identifiers, &table.exponents, comments, &table.rows);
/// assert_eq!(length, Ok(1215));
///
/// let refused = sp3::form_length(&table.header, &[], &table.exponents, comments, &table.rows);
/// assert_eq!(refused, Err(sp3::Refusal { number: 13, line: 0, column: 0 }));
/// # Ok::<(), sp3::Refusal>(())
/// ```
pub fn form_length(
    header: &Header,
    identifiers: &[u64],
    exponents: &[u64],
    comments: &[u8],
    rows: &[i64],
) -> Result<usize, Refusal> {
    length_by(ffi::sp3_form_length, header, identifiers, exponents, comments, rows)
}

/// How many bytes the canonical form of a table in SP3-c has: as many as in SP3-d.
///
/// Refused, with line 0: 13 where the table is not valid, then 17 where it is outside the bounds of SP3-c.
///
/// ```
/// let table = sp3::Table::read(include_bytes!("../../../samples/paper.sp3"))?;
/// let (identifiers, comments) = (&table.identifiers, &table.comments);
/// let length = sp3::form_length_c(&table.header, identifiers, &table.exponents, comments, &table.rows);
/// assert_eq!(length, Ok(1215));
/// # Ok::<(), sp3::Refusal>(())
/// ```
pub fn form_length_c(
    header: &Header,
    identifiers: &[u64],
    exponents: &[u64],
    comments: &[u8],
    rows: &[i64],
) -> Result<usize, Refusal> {
    length_by(ffi::sp3_form_length_c, header, identifiers, exponents, comments, rows)
}

/// A function of the library that measures a form.
type LengthDoor = unsafe extern "C" fn(
    Header,
    *const u64,
    usize,
    *const u64,
    usize,
    *const u8,
    usize,
    *const i64,
    usize,
) -> ffi::Measured;

/// Measures by one of the two functions that do.
fn length_by(
    door: LengthDoor,
    header: &Header,
    identifiers: &[u64],
    exponents: &[u64],
    comments: &[u8],
    rows: &[i64],
) -> Result<usize, Refusal> {
    // SAFETY: each pointer and its number are of one slice.
    let answer = unsafe {
        door(
            *header,
            identifiers.as_ptr(),
            identifiers.len(),
            exponents.as_ptr(),
            exponents.len(),
            comments.as_ptr(),
            comments.len(),
            rows.as_ptr(),
            rows.len(),
        )
    };
    accepted(answer.refusal, 0, 0)?;
    Ok(answer.length)
}

/// Writes the canonical form of a table in SP3-d into the first bytes of `out` and gives their number. [`Table::write`](crate::Table::write)
/// lends the output itself.
///
/// The lists are as [`read`](crate::read) leaves them; places past the header's counts are not looked at, bytes of `out` past those written
/// stay as they were. An absent clock is written as ` 999999.999999`.
///
/// Refused, with line 0: 13 where the table is not valid (1000 among the header's exponents, a clock from 999,999,000,000 to 999,999,999,998, a
/// deviation beside a row without its record, a list shorter than its count), then 12 where `out` is one byte too short; `out` is then as it was.
///
/// ```
/// let file = include_bytes!("../../../samples/paper.sp3");
/// let table = sp3::Table::read(file)?;
/// let (identifiers, comments) = (&table.identifiers, &table.comments);
/// let mut out = [0; 2000];
/// let length = sp3::write(&table.header, identifiers, &table.exponents, comments, &table.rows, &mut out)?;
/// assert_eq!(&out[..length], file);
///
/// let refused = sp3::write(&table.header, identifiers, &[1000], comments, &table.rows, &mut out);
/// assert_eq!(refused, Err(sp3::Refusal { number: 13, line: 0, column: 0 }));
/// # Ok::<(), sp3::Refusal>(())
/// ```
pub fn write(
    header: &Header,
    identifiers: &[u64],
    exponents: &[u64],
    comments: &[u8],
    rows: &[i64],
    out: &mut [u8],
) -> Result<usize, Refusal> {
    write_by(ffi::sp3_write, header, identifiers, exponents, comments, rows, out)
}

/// Writes the canonical form of a table in SP3-c, as [`write()`] does that in SP3-d; the second byte alone differs.
/// [`Table::write_as`](crate::Table::write_as) lends the output itself.
///
/// Refused, with line 0: 13 as [`write()`], then 17 where the table is outside the bounds of SP3-c (86 satellites, five comments, a comment of 58
/// bytes before its trailing blanks), then 12 where `out` is one byte too short; `out` is then as it was.
///
/// ```
/// let file = include_bytes!("../../../samples/paper.sp3");
/// let table = sp3::Table::read(file)?;
/// let (identifiers, comments) = (&table.identifiers, &table.comments);
/// let mut out = [0; 2000];
/// let length = sp3::write_c(&table.header, identifiers, &table.exponents, comments, &table.rows, &mut out)?;
/// assert_eq!((&out[..2], &out[2..length]), (&b"#c"[..], &file[2..]));
///
/// let long = sp3::stored_comment("A comment of 58 bytes: SP3-c has no room for more than 57.")?;
/// let comments = [long; 4].concat();
/// let refused = sp3::write_c(&table.header, identifiers, &table.exponents, &comments, &table.rows, &mut []);
/// assert_eq!(refused, Err(sp3::Refusal { number: 17, line: 0, column: 0 }));
/// # Ok::<(), sp3::Refusal>(())
/// ```
pub fn write_c(
    header: &Header,
    identifiers: &[u64],
    exponents: &[u64],
    comments: &[u8],
    rows: &[i64],
    out: &mut [u8],
) -> Result<usize, Refusal> {
    write_by(ffi::sp3_write_c, header, identifiers, exponents, comments, rows, out)
}

/// A function of the library that writes a form.
type WriteDoor = unsafe extern "C" fn(
    Header,
    *const u64,
    usize,
    *const u64,
    usize,
    *const u8,
    usize,
    *const i64,
    usize,
    *mut u8,
    usize,
) -> ffi::Measured;

/// Writes by one of the two functions that do.
fn write_by(
    door: WriteDoor,
    header: &Header,
    identifiers: &[u64],
    exponents: &[u64],
    comments: &[u8],
    rows: &[i64],
    out: &mut [u8],
) -> Result<usize, Refusal> {
    // SAFETY: each pointer and its number are of one slice; the output is borrowed for this call alone.
    let answer = unsafe {
        door(
            *header,
            identifiers.as_ptr(),
            identifiers.len(),
            exponents.as_ptr(),
            exponents.len(),
            comments.as_ptr(),
            comments.len(),
            rows.as_ptr(),
            rows.len(),
            out.as_mut_ptr(),
            out.len(),
        )
    };
    accepted(answer.refusal, 0, 0)?;
    Ok(answer.length)
}
