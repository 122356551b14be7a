//! A table that owns its lists.

use crate::refusal::{NOT_THERE, NO_ROOM};
use crate::stored::{COMMENT_WIDTH, ROW_WIDTH};
use crate::{
    clock_of, exponent_of, flag_of, form_length, form_length_c, judge, judge_front,
    note_correlation_of, note_deviation_of, note_of, place_of, read, read_front, stored_row, write,
    write_c, Deviation, Exponent, Header, Note, Refusal, StoredRow, Version,
};

/// What a file holds: its header and the four lists, as [`read`] leaves them. All parts may be altered; [`Table::write`] says whether they are
/// a valid table.
///
/// ```
/// use sp3::*;
/// let row = StoredRow {
///     place: Some([5_000_000_001, -500_000, 0]),
///     clock: None,
///     exponents: [Exponent::Unknown; 4],
///     flags: Flags::default(),
///     note: None,
/// };
/// let table = Table {
///     header: Header::new(HeaderParts {
///         mode: b'P',
///         start: Moment { year: 2013, month: 4, day: 3, ..Moment::default() },
///         epochs: 1,
///         interval8: 90_000_000_000,
///         texts: Texts {
///             data_used: *b"ORBIT",
///             coordinates: *b"WGS84",
///             orbit: *b"BCT",
///             agency: *b"PORT",
///         },
///         satellites: 1,
///         comments: 4,
///         file_type: b'G',
///         time_system: *b"GPS",
///         bases: Bases { place: 12_500_000, clock: 1_025_000_000 },
///     })?,
///     identifiers: vec![7107],
///     exponents: vec![0],
///     comments: ["ONE ROW", "", "", ""].map(stored_comment).into_iter().collect::<Result<Vec<_>, _>>()?.concat(),
///     rows: row.numbers()?.to_vec(),
/// };
/// assert_eq!(table.write()?, include_bytes!("../../../samples/paper.sp3"));
/// # Ok::<(), Refusal>(())
/// ```
#[derive(Clone, Debug, PartialEq, Eq)]
pub struct Table {
    /// What the header lines say.
    pub header: Header,
    /// The identifiers of the satellites in header order: 7107 is G07.
    pub identifiers: Vec<u64>,
    /// The exponents of the `++` lines, 0 to 999, one for each satellite.
    pub exponents: Vec<u64>,
    /// [`COMMENT_WIDTH`] bytes for each comment, filled up with blanks.
    pub comments: Vec<u8>,
    /// [`ROW_WIDTH`] numbers for each row in file order; in mode V the P row and then the V row of each satellite.
    pub rows: Vec<i64>,
}

/// One satellite in one epoch of a table.
#[derive(Clone, Copy, Debug, PartialEq, Eq, Hash)]
pub struct TableRow {
    /// The number of the epoch, counted from 0.
    pub epoch: u64,
    /// The number of the satellite in the header, counted from 0.
    pub satellite: u64,
    /// The P row with the EP record after it: mm and ps.
    pub position: StoredRow,
    /// The V row with the EV record after it: 10^-4 mm/s and 10^-16 s/s. `None` in mode P, where there is none.
    pub velocity: Option<StoredRow>,
}

/// The product of some numbers, where it is one of this machine's.
fn product(factors: &[u64]) -> Option<usize> {
    let product = factors.iter().try_fold(1_u64, |product, &factor| product.checked_mul(factor))?;
    usize::try_from(product).ok()
}

/// A list of so many places, the product of some numbers; 12 where memory does not suffice.
pub(crate) fn room<T: Clone + Default>(factors: &[u64]) -> Result<Vec<T>, Refusal> {
    let places = product(factors).ok_or(NO_ROOM)?;
    let mut list = Vec::new();
    list.try_reserve_exact(places).map_err(|_| NO_ROOM)?;
    list.resize(places, T::default());
    Ok(list)
}

impl Table {
    /// A table of this header with lists of exactly the room that a reading needs.
    fn with_room(header: Header) -> Result<Table, Refusal> {
        let cell = rows_of_cell(&header);
        Ok(Table {
            header,
            identifiers: room(&[header.satellites])?,
            exponents: room(&[header.satellites])?,
            comments: room(&[header.comments, COMMENT_WIDTH as u64])?,
            rows: room(&[header.satellites, header.epochs, cell, ROW_WIDTH as u64])?,
        })
    }

    /// Reads one whole file.
    ///
    /// Refused: as [`judge`]; 12 with line 0 where memory does not suffice.
    ///
    /// ```
    /// let table = sp3::Table::read(include_bytes!("../../../samples/paper.sp3"))?;
    /// assert_eq!(table.place_of(0)?, Some([5_000_000_001, -500_000, 0]));
    /// assert_eq!(table.clock_of(0)?, None);
    /// assert_eq!(sp3::Table::read(b"\n"), Err(sp3::Refusal { number: 4, line: 1, column: 0 }));
    /// # Ok::<(), sp3::Refusal>(())
    /// ```
    pub fn read(file: &[u8]) -> Result<Table, Refusal> {
        let mut table = Table::with_room(judge(file)?.header)?;
        let Table { identifiers, exponents, comments, rows, .. } = &mut table;
        read(file, identifiers, exponents, comments, rows)?;
        Ok(table)
    }

    /// Reads the file at the front of a stretch, and tells its length in bytes.
    ///
    /// Refused: as [`Table::read`], but never 11.
    ///
    /// ```
    /// let file = include_bytes!("../../../samples/paper.sp3");
    /// let (table, length) = sp3::Table::read_front(&file.repeat(2))?;
    /// assert_eq!(table, sp3::Table::read(file)?);
    /// assert_eq!(length, file.len());
    /// # Ok::<(), sp3::Refusal>(())
    /// ```
    pub fn read_front(stretch: &[u8]) -> Result<(Table, usize), Refusal> {
        let mut table = Table::with_room(judge_front(stretch)?.header)?;
        let Table { identifiers, exponents, comments, rows, .. } = &mut table;
        let reading = read_front(stretch, identifiers, exponents, comments, rows)?;
        Ok((table, reading.length))
    }

    /// The canonical form of the table in SP3-d.
    ///
    /// Refused: 13 with line 0 where the table is not valid; 12 where memory does not suffice.
    ///
    /// ```
    /// let file = include_bytes!("../../../samples/paper.sp3");
    /// let mut table = sp3::Table::read(file)?;
    /// assert_eq!(table.write()?, file);
    /// table.rows.pop();
    /// assert_eq!(table.write(), Err(sp3::Refusal { number: 13, line: 0, column: 0 }));
    /// # Ok::<(), sp3::Refusal>(())
    /// ```
    pub fn write(&self) -> Result<Vec<u8>, Refusal> {
        self.write_as(Version::D)
    }

    /// The canonical form of the table in a version; [`judge`] tells that of a file.
    ///
    /// Refused: 13 with line 0 where the table is not valid; then 17 where the version is SP3-c and the table is outside its bounds; 12 where memory
    /// does not suffice.
    ///
    /// ```
    /// use sp3::{judge, Table, Version};
    /// let table = Table::read(include_bytes!("../../../samples/paper.sp3"))?;
    /// let older = table.write_as(Version::C)?;
    /// assert_eq!(Table::read(&older)?.write_as(judge(&older)?.version)?, older);
    ///
    /// let table = Table::read(include_bytes!("../../../samples/combined.sp3"))?;
    /// let refused = table.write_as(Version::C);
    /// assert_eq!(refused, Err(sp3::Refusal { number: 17, line: 0, column: 0 }));
    /// # Ok::<(), sp3::Refusal>(())
    /// ```
    pub fn write_as(&self, version: Version) -> Result<Vec<u8>, Refusal> {
        let Table { header, identifiers, exponents, comments, rows } = self;
        let length = match version {
            Version::C => form_length_c(header, identifiers, exponents, comments, rows),
            Version::D => form_length(header, identifiers, exponents, comments, rows),
        }?;
        let mut out = room(&[length as u64])?;
        match version {
            Version::C => write_c(header, identifiers, exponents, comments, rows, &mut out),
            Version::D => write(header, identifiers, exponents, comments, rows, &mut out),
        }?;
        Ok(out)
    }

    /// The place or velocity of the k-th stored row; see [`place_of`].
    pub fn place_of(&self, k: usize) -> Result<Option<[i64; 3]>, Refusal> {
        place_of(&self.rows, k)
    }

    /// The clock or rate of the k-th stored row; see [`clock_of`].
    pub fn clock_of(&self, k: usize) -> Result<Option<i64>, Refusal> {
        clock_of(&self.rows, k)
    }

    /// An exponent of the k-th stored row; see [`exponent_of`].
    pub fn exponent_of(&self, k: usize, which: usize) -> Result<Exponent, Refusal> {
        exponent_of(&self.rows, k, which)
    }

    /// A flag of the k-th stored row; see [`flag_of`].
    pub fn flag_of(&self, k: usize, which: usize) -> Result<bool, Refusal> {
        flag_of(&self.rows, k, which)
    }

    /// The correlation record directly after the k-th stored row; see [`note_of`].
    pub fn note_of(&self, k: usize) -> Result<Option<Note>, Refusal> {
        note_of(&self.rows, k)
    }

    /// A deviation in the record after the k-th stored row; see [`note_deviation_of`].
    pub fn note_deviation_of(&self, k: usize, which: usize) -> Result<Option<Deviation>, Refusal> {
        note_deviation_of(&self.rows, k, which)
    }

    /// A correlation in the record after the k-th stored row; see [`note_correlation_of`].
    pub fn note_correlation_of(&self, k: usize, which: usize) -> Result<Option<i64>, Refusal> {
        note_correlation_of(&self.rows, k, which)
    }

    /// The row of an epoch and a satellite of the header, both counted from 0.
    ///
    /// Refused: 13 with line 0 for epoch 1 of a table that has one.
    ///
    /// ```
    /// let table = sp3::Table::read(include_bytes!("../../../samples/paper.sp3"))?;
    /// let row = table.row(0, 0)?;
    /// assert_eq!(row.position.place, Some([5_000_000_001, -500_000, 0]));
    /// assert_eq!(row.position.exponents, [sp3::Exponent::Unknown; 4]);
    /// assert_eq!((row.position.note, row.velocity), (None, None));
    /// assert_eq!(table.row(1, 0), Err(sp3::Refusal { number: 13, line: 0, column: 0 }));
    /// # Ok::<(), sp3::Refusal>(())
    /// ```
    pub fn row(&self, epoch: u64, satellite: u64) -> Result<TableRow, Refusal> {
        let header = &self.header;
        if epoch >= header.epochs || satellite >= header.satellites {
            return Err(NOT_THERE);
        }
        let before = product(&[epoch, header.satellites, rows_of_cell(header)]);
        let within = product(&[satellite, rows_of_cell(header)]);
        let k = before.zip(within).and_then(|(before, within)| before.checked_add(within));
        let k = k.ok_or(NOT_THERE)?;
        let position = stored_row(&self.rows, k)?;
        let velocity = match header.velocity {
            true => Some(stored_row(&self.rows, k + 1)?),
            false => None,
        };
        Ok(TableRow { epoch, satellite, position, velocity })
    }

    /// The rows in file order: every satellite of the header in every epoch. Where the list of rows was made shorter than the header says, they
    /// end with the list.
    ///
    /// ```
    /// let table = sp3::Table::read(include_bytes!("../../../samples/paper.sp3"))?;
    /// let known = table.rows().filter(|row| row.position.place.is_some()).count();
    /// assert_eq!(known, 1);
    /// # Ok::<(), sp3::Refusal>(())
    /// ```
    pub fn rows(&self) -> impl Iterator<Item = TableRow> + '_ {
        let satellites = self.header.satellites;
        let row =
            move |k: u64| self.row(k.checked_div(satellites)?, k.checked_rem(satellites)?).ok();
        (0..).map_while(row)
    }

    /// The number in the header, counted from 0, of the satellite with this identifier.
    ///
    /// Refused: 13 with line 0 where there is none such.
    ///
    /// ```
    /// let table = sp3::Table::read(include_bytes!("../../../samples/paper.sp3"))?;
    /// assert_eq!(table.satellite_of(7107)?, 0);
    /// assert_eq!(table.satellite_of(7108), Err(sp3::Refusal { number: 13, line: 0, column: 0 }));
    /// # Ok::<(), sp3::Refusal>(())
    /// ```
    pub fn satellite_of(&self, identifier: u64) -> Result<u64, Refusal> {
        let number = self.identifiers.iter().position(|&other| other == identifier);
        number.map(|number| number as u64).ok_or(NOT_THERE)
    }

    /// The text of comment k, counted from 0, trailing blanks cut.
    ///
    /// Refused: 13 with line 0 for comment 4 of a table that has four.
    ///
    /// ```
    /// let table = sp3::Table::read(include_bytes!("../../../samples/paper.sp3"))?;
    /// assert_eq!(table.comment(0)?, b"ONE ROW");
    /// assert_eq!(table.comment(4), Err(sp3::Refusal { number: 13, line: 0, column: 0 }));
    /// # Ok::<(), sp3::Refusal>(())
    /// ```
    pub fn comment(&self, k: usize) -> Result<&[u8], Refusal> {
        let bytes = self.comments.chunks_exact(COMMENT_WIDTH).nth(k).ok_or(NOT_THERE)?;
        let length = bytes.iter().rposition(|&byte| byte != b' ').map_or(0, |last| last + 1);
        bytes.get(..length).ok_or(NOT_THERE)
    }
}

/// The rows of one satellite in one epoch: the P row, and the V row in mode V.
fn rows_of_cell(header: &Header) -> u64 {
    1 + u64::from(header.velocity)
}

#[cfg(test)]
mod tests {
    use super::*;

    /// Room that no machine has is refused.
    #[test]
    fn room_that_is_not_there() {
        assert_eq!(room::<i64>(&[u64::MAX, 2]), Err(NO_ROOM));
        assert_eq!(room::<i64>(&[u64::MAX]), Err(NO_ROOM));
        assert_eq!(room::<i64>(&[1 << 61]), Err(NO_ROOM));
        assert_eq!(room::<u8>(&[0, u64::MAX]), Ok(Vec::new()));
    }
}
