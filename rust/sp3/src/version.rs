//! The two versions that are read and written.

use std::fmt;

/// A version of the format. A reading tells that of its file; a table keeps none, and is written in the one that is asked for.
///
/// ```
/// use sp3::{judge, Table, Version};
/// let newer = include_bytes!("../../../samples/paper.sp3");
/// let table = Table::read(newer)?;
/// let older = table.write_as(Version::C)?;
/// assert_eq!((judge(newer)?.version, judge(&older)?.version), (Version::D, Version::C));
/// assert_eq!(Table::read(&older)?, table);
/// # Ok::<(), sp3::Refusal>(())
/// ```
#[derive(Clone, Copy, Debug, PartialEq, Eq, PartialOrd, Ord, Hash)]
pub enum Version {
    /// SP3-c: at most [`MOST_SATELLITES_C`] satellites, [`COMMENTS_C`] comments, and comment lines of at most [`COMMENT_COLUMNS_C`] characters.
    C,
    /// SP3-d.
    D,
}

/// The most satellites of a file in SP3-c. A table with one more is refused with 17 where it is to be written in that version.
pub const MOST_SATELLITES_C: usize = 85;

/// As many comments a file in SP3-c has, neither fewer nor more.
pub const COMMENTS_C: usize = 4;

/// The most characters of a comment line in SP3-c, blanks at its end too; the text begins in column 4.
pub const COMMENT_COLUMNS_C: usize = 60;

impl Version {
    /// Its letter, the second byte of a file.
    ///
    /// ```
    /// assert_eq!(sp3::Version::C.letter(), b'c');
    /// ```
    pub fn letter(self) -> u8 {
        match self {
            Version::C => b'c',
            Version::D => b'd',
        }
    }

    /// The version that an accepted reading tells by its letter.
    pub(crate) fn by(letter: u8) -> Version {
        match letter {
            b'c' => Version::C,
            _ => Version::D,
        }
    }
}

/// `SP3-c` or `SP3-d`.
///
/// ```
/// assert_eq!(sp3::Version::D.to_string(), "SP3-d");
/// ```
impl fmt::Display for Version {
    fn fmt(&self, out: &mut fmt::Formatter<'_>) -> fmt::Result {
        write!(out, "SP3-{}", char::from(self.letter()))
    }
}
