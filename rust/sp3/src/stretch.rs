//! Stretches of files laid end to end, divided.

use crate::ffi;
use crate::refusal::{accepted, NO_ROOM};
use crate::Refusal;
use std::ops::Range;

/// A stretch divided into lent lengths.
#[derive(Clone, Copy, Debug, PartialEq, Eq, Hash)]
pub struct Divided {
    /// The number of accepted files at the front: so many lengths were written.
    pub count: u64,
    /// The byte where the rest begins.
    pub rest: usize,
    /// Why the rest is no accepted file, its line counted from `rest`; `None` where nothing is left.
    pub refusal: Option<Refusal>,
}

/// Divides a stretch of files laid end to end, of both versions mixed; their lengths in bytes go to the first places of `lengths`, also where the
/// rest is refused. [`divide_all`] lends the places itself.
///
/// Refused: 12 where there are more files than places; then no length is written. 11 never occurs.
///
/// ```
/// let file = include_bytes!("../../../samples/paper.sp3");
/// let stretch = [&file[..], file, b"rest\n"].concat();
/// let mut lengths = [0; 2];
/// let divided = sp3::divide(&stretch, &mut lengths)?;
/// assert_eq!(lengths, [file.len() as u64; 2]);
/// assert_eq!(divided.refusal, Some(sp3::Refusal { number: 4, line: 1, column: 0 }));
///
/// let refused = sp3::divide(&stretch, &mut lengths[..1]);
/// assert_eq!(refused, Err(sp3::Refusal { number: 12, line: 0, column: 0 }));
/// # Ok::<(), sp3::Refusal>(())
/// ```
pub fn divide(stretch: &[u8], lengths: &mut [u64]) -> Result<Divided, Refusal> {
    // SAFETY: each pointer and its number are of one slice; the lengths are borrowed for this call alone.
    let answer = unsafe {
        ffi::sp3_divide(stretch.as_ptr(), stretch.len(), lengths.as_mut_ptr(), lengths.len())
    };
    match accepted(answer.refusal, answer.line, answer.column).err() {
        Some(NO_ROOM) => Err(NO_ROOM),
        refusal => Ok(Divided { count: answer.count, rest: answer.rest, refusal }),
    }
}

/// A stretch divided: its files, and what is left.
#[derive(Clone, Debug, PartialEq, Eq)]
pub struct Division {
    /// Where the accepted files at the front lie, in their order.
    pub files: Vec<Range<usize>>,
    /// The byte where the rest begins.
    pub rest: usize,
    /// Why the rest is no accepted file, its line counted from `rest`; `None` where nothing is left.
    pub refusal: Option<Refusal>,
}

/// Divides a stretch of files laid end to end. A rest that is refused is part of the result; an empty stretch has no files and no refusal.
///
/// ```
/// let file = include_bytes!("../../../samples/paper.sp3");
/// let stretch = [&file[..], file, b"rest\n"].concat();
/// let division = sp3::divide_all(&stretch);
/// assert_eq!(division.files.len(), 2);
/// assert_eq!(&stretch[division.files[1].clone()], file);
/// assert_eq!(&stretch[division.rest..], b"rest\n");
/// assert_eq!(division.refusal, Some(sp3::Refusal { number: 4, line: 1, column: 0 }));
/// ```
pub fn divide_all(stretch: &[u8]) -> Division {
    divide_from(stretch, 64)
}

/// Divides with so many places lent at first, and four times as many until they suffice.
fn divide_from(stretch: &[u8], places: usize) -> Division {
    let mut lengths = vec![0; places];
    loop {
        match divide(stretch, &mut lengths) {
            Ok(divided) => return division(&divided, &lengths),
            Err(_) => lengths.resize(lengths.len().saturating_mul(4).max(1), 0),
        }
    }
}

/// The files of these lengths.
fn division(divided: &Divided, lengths: &[u64]) -> Division {
    let count = usize::try_from(divided.count).unwrap_or(usize::MAX);
    let mut end = 0_usize;
    let files = lengths.iter().take(count).map(|&length| {
        let start = end;
        end = end.saturating_add(usize::try_from(length).unwrap_or(usize::MAX));
        start..end
    });
    Division { files: files.collect(), rest: divided.rest, refusal: divided.refusal }
}

#[cfg(test)]
mod tests {
    use super::*;

    /// However few places are lent at first, the division is the same.
    #[test]
    fn lengths_lent_again() {
        let file = include_bytes!("../../../samples/paper.sp3");
        let stretch = file.repeat(9);
        let files: Vec<_> = (0..9).map(|k| k * file.len()..(k + 1) * file.len()).collect();
        let expected = Division { files, rest: stretch.len(), refusal: None };
        for places in [0, 1, 8, 9, 10] {
            assert_eq!(divide_from(&stretch, places), expected, "{places} places");
        }
    }
}
