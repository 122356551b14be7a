//! The proved reader and writer of SP3-c and SP3-d for Rust: the functions of include/sp3.h under their names, with absence as an `Option` and
//! refusals as a `Result`. The crate judges nothing: it lends memory and hands answers on.
//! It knows how a row and a comment are stored (`include/sp3.h`), so that rows can be made out of `Option`s; whether they are right the library says.
//!
//! ```
//! let file = include_bytes!("../../../samples/paper.sp3");
//! let table = sp3::Table::read(file)?;
//! for row in table.rows() {
//!     match row.position.place {
//!         Some([x, y, z]) => println!("{x} {y} {z} mm"),
//!         None => println!("absent"),
//!     }
//! }
//! # Ok::<(), sp3::Refusal>(())
//! ```
//!
//! There are two levels:
//!
//! - Functions over lent slices, just as in C: [`read`], [`write()`], [`divide`], [`begin`]. They allocate nothing. A refusal changes nothing that
//!   was lent; after success the places past those that are filled are unchanged too.
//! - Conveniences that lend the room themselves: [`Table`], [`divide_all`], [`rows`].
//!
//! **Absence.** A satellite that was withdrawn is written as a place of three zeros. Here that is `None`, never a coordinate; a place of which
//! one or two coordinates are 0 is not absent. A clock or rate is absent exactly where columns 47 to 53 hold 999999 without a minus; leading zeros
//! may stand, and the six columns after the point are any digits or all blank. Place and clock are absent apart from each other. Every satellite of
//! the header stays in every epoch.
//!
//! **Correlation records.** What an EP line says of the P row before it, and an EV line of the V row before it, is the row's [`Note`]: `None`
//! where no such line stands, and in it `None` for what is unknown; neither is 0.
//!
//! **Versions.** SP3-c and SP3-d are read, told by the first two bytes of a file: `#c`, or else SP3-d. [`Reading`] tells which it was; a table keeps
//! none. [`write()`] and [`Table::write`] write SP3-d, [`write_c`] SP3-c, and [`Table::write_as`] the [`Version`] that is asked for.
//!
//! **Refusals.** [`Refusal`] has the number in the paper's table, 1 to 13 or 17, the line and the column; [`words`] says what each number means.
//!
//! **Threads.** No function keeps a state: an answer follows from what the call is given. So they may be called from several threads at once, each
//! call with lent memory of its own; what is borrowed shared, such as a file's bytes, may be lent to several calls at the same time.
//!
//! **Units.** Places and their standard deviations in mm, clocks and theirs in ps; in V rows 10^-4 mm/s and 10^-16 s/s; correlations in 10^-7. A
//! name that ends in `8` is a time in 10^-8 s. Epochs, satellites of the header, comments and rows are counted from 0, lines and columns from 1.
#![deny(missing_docs)]
#![deny(unsafe_op_in_unsafe_fn)]

mod ffi;
#[cfg(test)]
mod layout;
mod lines;
mod notes;
mod questions;
mod reading;
mod refusal;
mod stored;
mod stretch;
mod table;
mod version;
mod walk;
mod writing;

pub use ffi::{Bases, Header, HeaderParts, Moment, RowWalk, Spot, Texts};
pub use lines::{after_lines, due, first_spot, next_line, read_line, Due, Line};
pub use notes::{note_correlation_of, note_deviation_of, note_of, Deviation, Note};
pub use questions::{
    comment, comment_answer, date, identifier, identifier_text, moment, row, satellite_of, Date,
    Row,
};
pub use reading::{judge, judge_front, read, read_front, Reading, MOST_SATELLITES};
pub use refusal::{words, LineRefusal, Refusal};
pub use stored::{
    clock_of, exponent_of, flag_of, place_of, stored_comment, stored_row, Exponent, Flags,
    StoredRow, COMMENT_WIDTH, ROW_WIDTH,
};
pub use stretch::{divide, divide_all, Divided, Division};
pub use table::{Table, TableRow};
pub use version::{Version, COMMENTS_C, COMMENT_COLUMNS_C, MOST_SATELLITES_C};
pub use walk::{begin, first_row, next_row, rows, RowAt, Rows};
pub use writing::{form_length, form_length_c, write, write_c};
