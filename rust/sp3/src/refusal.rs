//! Refusals: the number in the paper's table, and where.

use std::error::Error;
use std::fmt;

/// A refusal's number in words. A number other than 0 to 13 and 17, which the library never gives, has the words `an unknown number`.
///
/// ```
/// assert_eq!(sp3::words(9), "an epoch stands at the wrong instant");
/// assert_eq!(sp3::words(17), "the table to be written is outside the bounds of SP3-c");
/// ```
pub fn words(number: u8) -> &'static str {
    match number {
        0 => "accepted",
        1 => "no line end is left before the file's EOF line is complete",
        2 => "a byte outside 32 to 126 stands in the line",
        3 => "the line has more than 80 characters, or a comment line of SP3-c more than 60",
        4 => "the line is not of a kind that may stand here",
        5 => "an unused column is not blank, or a placeholder is not all `c` or a zero",
        6 => "a field is malformed, or a letter, file type or time system is not listed",
        7 => "a number or date is outside its bounds",
        8 => "line 2 disagrees with the start, a slot after the last satellite is not `  0`, an identifier repeats, or the file type disagrees",
        9 => "an epoch stands at the wrong instant",
        10 => "a row names another satellite than the header has here",
        11 => "bytes stand after the EOF line",
        12 => "lent room is too small",
        13 => "the table to be written is not valid, or what is asked by number is not there",
        17 => "the table to be written is outside the bounds of SP3-c",
        _ => "an unknown number",
    }
}

/// Why something was refused. Whatever was lent is then as it was before.
///
/// The first faulty line of a file decides, in a line the lowest number, of several faults with that number the leftmost. 13, then 17,
/// then 12 come after all other numbers. In words a column of 0 is left out.
///
/// ```
/// let file = include_str!("../../../samples/paper.sp3").replace("  5000.000001", " 5000.0000001");
/// let refusal = sp3::judge(file.as_bytes()).unwrap_err();
/// assert_eq!(refusal, sp3::Refusal { number: 6, line: 24, column: 5 });
/// assert_eq!(
///     refusal.to_string(),
///     "refused 6 line 24 column 5: a field is malformed, or a letter, file type or time system is not listed"
/// );
///
/// let refusal = sp3::judge(b"").unwrap_err();
/// assert_eq!(refusal, sp3::Refusal { number: 1, line: 1, column: 0 });
/// assert_eq!(
///     refusal.to_string(),
///     "refused 1 line 1: no line end is left before the file's EOF line is complete"
/// );
/// ```
#[derive(Clone, Copy, Debug, PartialEq, Eq, Hash)]
pub struct Refusal {
    /// 1 to 13, or 17; [`words`] says what each means.
    pub number: u8,
    /// The line, counted from 1; 0 where the refusal names none.
    pub line: u64,
    /// The column in that line, counted from 1; 0 where the refusal names none. Of 2 the byte itself, also past column 80; of 3 column 81,
    /// or 61 in a comment line of SP3-c; of 5 the unused column or the placeholder's first; of 6 and 7 the field's first, 4 for year, month and day.
    pub column: usize,
}

impl fmt::Display for Refusal {
    fn fmt(&self, out: &mut fmt::Formatter<'_>) -> fmt::Result {
        write!(out, "refused {} line {}", self.number, self.line)?;
        column_and_words(self.number, self.column, out)
    }
}

impl Error for Refusal {}

/// Why one line was refused by the line readers: its number, and where in the line. Whatever was lent is then as it was before. 12 comes after
/// all other numbers. In words a column of 0 is left out.
///
/// ```
/// let refusal = sp3::read_line(b"#dQ\n", sp3::first_spot(), &mut []).unwrap_err();
/// assert_eq!(refusal.number, 6);
/// assert_eq!(refusal.column, 3);
/// ```
#[derive(Clone, Copy, Debug, PartialEq, Eq, Hash)]
pub struct LineRefusal {
    /// 1 to 10, or 12; [`words`] says what each means.
    pub number: u8,
    /// The column, counted from 1, as that of a [`Refusal`]; 0 where the refusal names none.
    pub column: usize,
}

impl fmt::Display for LineRefusal {
    fn fmt(&self, out: &mut fmt::Formatter<'_>) -> fmt::Result {
        write!(out, "refused {}", self.number)?;
        column_and_words(self.number, self.column, out)
    }
}

impl Error for LineRefusal {}

/// The column, where there is one, and the number in words.
fn column_and_words(number: u8, column: usize, out: &mut fmt::Formatter<'_>) -> fmt::Result {
    if column != 0 {
        write!(out, " column {column}")?;
    }
    write!(out, ": {}", words(number))
}

/// What is asked for by number is not there.
pub(crate) const NOT_THERE: Refusal = Refusal { number: 13, line: 0, column: 0 };

/// Memory cannot be lent.
pub(crate) const NO_ROOM: Refusal = Refusal { number: 12, line: 0, column: 0 };

/// The number of an answer, if it is a refusal.
pub(crate) fn refused(number: impl TryInto<u8>) -> Option<u8> {
    match number.try_into() {
        Ok(0) => None,
        Ok(number) => Some(number),
        Err(_) => Some(u8::MAX),
    }
}

/// Goes on after an answer without refusal.
pub(crate) fn accepted(number: impl TryInto<u8>, line: u64, column: usize) -> Result<(), Refusal> {
    match refused(number) {
        None => Ok(()),
        Some(number) => Err(Refusal { number, line, column }),
    }
}

#[cfg(test)]
mod tests {
    use super::*;

    /// A number too large for a refusal's is none the less a refusal.
    #[test]
    fn numbers_that_the_library_never_gives() {
        assert_eq!((refused(0_u64), refused(13_u64)), (None, Some(13)));
        assert_eq!((refused(256_u64), refused(usize::MAX)), (Some(255), Some(255)));
    }
}
