//! Files judged and read into lent lists.

use crate::ffi;
use crate::refusal::accepted;
use crate::{Header, Refusal, Version};

/// So many satellites a file has at most: room for as many identifiers always suffices.
///
/// ```
/// let file = include_bytes!("../../../samples/combined.sp3");
/// let mut identifiers = [0; sp3::MOST_SATELLITES];
/// assert_eq!(sp3::begin(file, &mut identifiers)?.reading().header.satellites, 999);
/// assert_eq!(identifiers.last().copied(), sp3::identifier("D09"));
/// # Ok::<(), sp3::Refusal>(())
/// ```
pub const MOST_SATELLITES: usize = 999;

/// An accepted file.
#[derive(Clone, Copy, Debug, PartialEq, Eq, Hash)]
pub struct Reading {
    /// The length of the file in bytes, LF of its EOF line included.
    pub length: usize,
    /// What its header lines say.
    pub header: Header,
    /// Its version, by its first two bytes.
    pub version: Version,
}

impl ffi::Reading {
    /// The answer as a result.
    pub(crate) fn told(self) -> Result<Reading, Refusal> {
        accepted(self.refusal, self.line, self.column)?;
        let version = Version::by(self.version);
        Ok(Reading { length: self.length, header: self.header, version })
    }
}

/// Judges one whole file, and tells its version.
///
/// Refused: no bytes at all are 1 at line 1, and `#a` or `#C` is 4 there; a blank after the last LF is 11.
///
/// ```
/// let file = include_bytes!("../../../samples/paper.sp3");
/// let reading = sp3::judge(file)?;
/// assert_eq!((reading.header.satellites, reading.version), (1, sp3::Version::D));
///
/// let longer = [&file[..], b" "].concat();
/// assert_eq!(sp3::judge(&longer), Err(sp3::Refusal { number: 11, line: 26, column: 0 }));
/// # Ok::<(), sp3::Refusal>(())
/// ```
pub fn judge(file: &[u8]) -> Result<Reading, Refusal> {
    // SAFETY: pointer and number are of one slice.
    unsafe { ffi::sp3_judge(file.as_ptr(), file.len()) }.told()
}

/// Judges the file at the front of a stretch of files laid end to end, and tells its length.
///
/// Refused: as [`judge`], but never 11.
///
/// ```
/// let file = include_bytes!("../../../samples/paper.sp3");
/// let longer = [&file[..], b" "].concat();
/// assert_eq!(sp3::judge_front(&longer)?.length, file.len());
/// # Ok::<(), sp3::Refusal>(())
/// ```
pub fn judge_front(stretch: &[u8]) -> Result<Reading, Refusal> {
    // SAFETY: pointer and number are of one slice.
    unsafe { ffi::sp3_judge_front(stretch.as_ptr(), stretch.len()) }.told()
}

/// A function of the library that reads into four lists.
type ReadDoor = unsafe extern "C" fn(
    *const u8,
    usize,
    *mut u64,
    usize,
    *mut u64,
    usize,
    *mut u8,
    usize,
    *mut i64,
    usize,
) -> ffi::Reading;

/// Reads by one of the two functions that do.
fn read_by(
    door: ReadDoor,
    bytes: &[u8],
    identifiers: &mut [u64],
    exponents: &mut [u64],
    comments: &mut [u8],
    rows: &mut [i64],
) -> Result<Reading, Refusal> {
    // SAFETY: each pointer and its number are of one slice; those that are written are borrowed for this call alone.
    let answer = unsafe {
        door(
            bytes.as_ptr(),
            bytes.len(),
            identifiers.as_mut_ptr(),
            identifiers.len(),
            exponents.as_mut_ptr(),
            exponents.len(),
            comments.as_mut_ptr(),
            comments.len(),
            rows.as_mut_ptr(),
            rows.len(),
        )
    };
    answer.told()
}

/// Reads one whole file into the first places of four lent lists. [`Table::read`](crate::Table::read) lends them itself.
///
/// Needed, with n = `header.satellites` of [`judge`]'s answer: n identifiers (7107 is G07: the letter's byte times 100, and the number), n
/// exponents of the `++` lines, [`COMMENT_WIDTH`](crate::COMMENT_WIDTH) bytes for each comment (filled up with blanks), and
/// [`ROW_WIDTH`](crate::ROW_WIDTH) numbers for each of n times `header.epochs` rows; twice as many rows in mode V, the P row and then the V
/// row of each satellite. Places past these stay as they were.
///
/// Refused: 12 with line 0 where any list is short by one place; then no list has changed.
///
/// ```
/// let file = include_bytes!("../../../samples/paper.sp3");
/// let (mut identifiers, mut exponents) = ([0; 1], [0; 1]);
/// let (mut comments, mut rows) = ([0; 4 * sp3::COMMENT_WIDTH], [0; sp3::ROW_WIDTH]);
/// sp3::read(file, &mut identifiers, &mut exponents, &mut comments, &mut rows)?;
/// assert_eq!(identifiers, [7107]);
/// assert_eq!(sp3::place_of(&rows, 0)?, Some([5_000_000_001, -500_000, 0]));
///
/// let refused = sp3::read(file, &mut identifiers, &mut exponents, &mut comments, &mut rows[1..]);
/// assert_eq!(refused, Err(sp3::Refusal { number: 12, line: 0, column: 0 }));
/// # Ok::<(), sp3::Refusal>(())
/// ```
pub fn read(
    file: &[u8],
    identifiers: &mut [u64],
    exponents: &mut [u64],
    comments: &mut [u8],
    rows: &mut [i64],
) -> Result<Reading, Refusal> {
    read_by(ffi::sp3_read, file, identifiers, exponents, comments, rows)
}

/// Reads the file at the front of a stretch, as [`read`] does, and tells its length.
///
/// Refused: as [`read`], but never 11.
///
/// ```
/// let file = include_bytes!("../../../samples/paper.sp3");
/// let (mut identifiers, mut exponents) = ([0; 1], [0; 1]);
/// let (mut comments, mut rows) = ([0; 4 * sp3::COMMENT_WIDTH], [0; sp3::ROW_WIDTH]);
/// let stretch = file.repeat(2);
/// let reading = sp3::read_front(&stretch, &mut identifiers, &mut exponents, &mut comments, &mut rows)?;
/// assert_eq!(reading.length, file.len());
///
/// let refused = sp3::read_front(&stretch, &mut [], &mut exponents, &mut comments, &mut rows);
/// assert_eq!(refused, Err(sp3::Refusal { number: 12, line: 0, column: 0 }));
/// # Ok::<(), sp3::Refusal>(())
/// ```
pub fn read_front(
    stretch: &[u8],
    identifiers: &mut [u64],
    exponents: &mut [u64],
    comments: &mut [u8],
    rows: &mut [i64],
) -> Result<Reading, Refusal> {
    read_by(ffi::sp3_read_front, stretch, identifiers, exponents, comments, rows)
}
