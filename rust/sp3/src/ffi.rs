//! include/sp3.h one for one: its structs and its functions, in its order. tests/wrapper.sh holds both to each other.
//!
//! A `bool` that comes from the library is 0 or 1: it is a truth value of the proved source.

// ---- Values that both sides hold ----

/// A date and a time of day.
#[repr(C)]
#[derive(Clone, Copy, Debug, Default, PartialEq, Eq, Hash)]
pub struct Moment {
    /// 1980 to 2099.
    pub year: u64,
    /// 1 to 12.
    pub month: u64,
    /// 1 to 31.
    pub day: u64,
    /// 0 to 23.
    pub hour: u64,
    /// 0 to 59.
    pub minute: u64,
    /// The seconds in 10^-8 s, below 60 s.
    pub second8: u64,
}

/// The four texts of line 1 as they stand, blanks too.
#[repr(C)]
#[derive(Clone, Copy, Debug, PartialEq, Eq, Hash)]
pub struct Texts {
    /// Data used, columns 41 to 45.
    pub data_used: [u8; 5],
    /// Coordinate system, columns 47 to 51.
    pub coordinates: [u8; 5],
    /// Orbit type, columns 53 to 55.
    pub orbit: [u8; 3],
    /// Agency, columns 57 to 60.
    pub agency: [u8; 4],
}

/// The bases of the exponents, from the first `%f` line.
#[repr(C)]
#[derive(Clone, Copy, Debug, PartialEq, Eq, Hash)]
pub struct Bases {
    /// Base for places and velocities in 10^-7, columns 4 to 13: `1.2500000` is 12,500,000.
    pub place: u64,
    /// Base for clocks and rates in 10^-9, columns 15 to 26: `1.025000000` is 1,025,000,000.
    pub clock: u64,
}

/// What the header lines of a file say. [`Header::new`] makes one from its parts.
#[repr(C)]
#[derive(Clone, Copy, Debug, PartialEq, Eq, Hash)]
pub struct Header {
    /// Mode V: a velocity row follows each place row.
    pub velocity: bool,
    /// The start in 10^-8 s since MJD 0; [`moment`](crate::moment) gives its date.
    pub start8: u64,
    /// The number of epochs, 1 to 100,000.
    pub epochs: u64,
    /// The interval between two epochs in 10^-8 s.
    pub interval8: u64,
    /// The four texts of line 1.
    pub texts: Texts,
    /// The number of satellites, 1 to [`MOST_SATELLITES`](crate::MOST_SATELLITES).
    pub satellites: u64,
    /// The number of comments, 4 or more.
    pub comments: u64,
    /// G, M, R, L, S, I, E, C or J.
    pub file_type: u8,
    /// GPS, GLO, GAL, BDT, TAI, UTC, IRN or QZS.
    pub time_system: [u8; 3],
    /// The bases of the exponents.
    pub bases: Bases,
}

// ---- Reading ----

#[repr(C)]
pub struct Reading {
    pub refusal: usize,
    pub line: u64,
    pub column: usize,
    pub length: usize,
    pub header: Header,
    pub version: u8,
}

// ---- Writing ----

#[repr(C)]
pub struct Measured {
    pub refusal: usize,
    pub length: usize,
}

/// What a header is made of, by [`Header::new`].
#[repr(C)]
#[derive(Clone, Copy, Debug, PartialEq, Eq, Hash)]
pub struct HeaderParts {
    /// `b'P'`, or `b'V'` where a velocity row follows each place row.
    pub mode: u8,
    /// The instant of the first epoch.
    pub start: Moment,
    /// The number of epochs, 1 to 100,000.
    pub epochs: u64,
    /// The interval between two epochs in 10^-8 s, above 0.
    pub interval8: u64,
    /// The four texts of line 1.
    pub texts: Texts,
    /// The number of satellites, 1 to [`MOST_SATELLITES`](crate::MOST_SATELLITES).
    pub satellites: u64,
    /// The number of comments, 4 or more.
    pub comments: u64,
    /// G, M, R, L, S, I, E, C or J.
    pub file_type: u8,
    /// GPS, GLO, GAL, BDT, TAI, UTC, IRN or QZS.
    pub time_system: [u8; 3],
    /// The bases of the exponents.
    pub bases: Bases,
}

#[repr(C)]
pub struct HeaderAnswer {
    pub refusal: u64,
    pub header: Header,
}

// ---- Stored rows, by name ----

#[repr(C)]
pub struct StoredPlace {
    pub refusal: usize,
    pub absent: bool,
    pub x: i64,
    pub y: i64,
    pub z: i64,
}

#[repr(C)]
pub struct StoredClock {
    pub refusal: usize,
    pub absent: bool,
    pub clock: i64,
}

#[repr(C)]
pub struct StoredExponent {
    pub refusal: usize,
    pub unknown: bool,
    pub too_large: bool,
    pub value: u64,
}

#[repr(C)]
pub struct StoredFlag {
    pub refusal: usize,
    pub set: bool,
}

#[repr(C)]
pub struct StoredNote {
    pub refusal: usize,
    pub stands: bool,
}

#[repr(C)]
pub struct NoteDeviation {
    pub refusal: usize,
    pub no_record: bool,
    pub unknown: bool,
    pub too_large: bool,
    pub value: u64,
}

#[repr(C)]
pub struct NoteCorrelation {
    pub refusal: usize,
    pub no_record: bool,
    pub unknown: bool,
    pub value: i64,
}

// ---- Dividing ----

#[repr(C)]
pub struct Division {
    pub count: u64,
    pub rest: usize,
    pub refusal: usize,
    pub line: u64,
    pub column: usize,
}

// ---- Questions about one whole file ----

#[repr(C)]
pub struct CommentAnswer {
    pub refusal: usize,
    pub line: u64,
    pub column: usize,
    pub at: usize,
    pub length: usize,
}

#[repr(C)]
pub struct SatelliteAnswer {
    pub refusal: usize,
    pub line: u64,
    pub column: usize,
    pub number: u64,
}

#[repr(C)]
pub struct Row {
    pub x: f64,
    pub y: f64,
    pub z: f64,
    pub clock: f64,
    pub place_absent: bool,
    pub clock_absent: bool,
}

#[repr(C)]
pub struct RowAnswer {
    pub refusal: usize,
    pub line: u64,
    pub column: usize,
    pub row: Row,
}

// ---- Dates ----

#[repr(C)]
pub struct DateAnswer {
    pub refusal: usize,
    pub mjd: u64,
    pub week: u64,
    pub seconds: u64,
}

#[repr(C)]
pub struct MomentAnswer {
    pub refusal: usize,
    pub moment: Moment,
}

// ---- A file line by line ----

#[repr(C)]
#[derive(Clone, Copy, Debug, PartialEq, Eq, Hash)]
pub struct State {
    pub due: u64,
    pub also: u64,
    pub lines: u64,
    pub left: u64,
    pub comments: u64,
    pub velocity: bool,
    pub satellites: u64,
    pub epochs: u64,
    pub at8: u64,
    pub gap8: u64,
    pub interval8: u64,
}

/// Between two lines: the byte at which the next line begins, and what must stand there. [`first_spot`](crate::first_spot) makes the
/// first one; the line readers lead on from it.
#[repr(C)]
#[derive(Clone, Copy, Debug, PartialEq, Eq, Hash)]
pub struct Spot {
    pub(crate) at: usize,
    pub(crate) state: State,
}

#[repr(C)]
pub struct LineAnswer {
    pub refusal: usize,
    pub column: usize,
    pub finished: bool,
    pub next: Spot,
}

#[repr(C)]
pub struct Due {
    pub kind: u64,
    pub also: u64,
    pub instant8: u64,
    pub identifier: u64,
    pub repeats: bool,
}

// ---- A file row by row ----

/// Between two rows of a walk. [`first_row`](crate::first_row) makes the first one, [`next_row`](crate::next_row) leads on from it.
#[repr(C)]
#[derive(Clone, Copy, Debug, PartialEq, Eq, Hash)]
pub struct RowWalk {
    pub(crate) spot: Spot,
    pub(crate) passed: u64,
}

#[repr(C)]
pub struct RowStep {
    pub refusal: usize,
    pub line: u64,
    pub column: usize,
    pub end: bool,
    pub epoch: u64,
    pub satellite: u64,
    pub row: Row,
    pub next: RowWalk,
}

// A pointer and the number after it are of one slice, as `as_ptr`, `as_mut_ptr` and `len` give them; a slice that is written overlaps no other
// of the call. Functions that take no pointer ask nothing.
unsafe extern "C" {
    pub fn sp3_judge(file: *const u8, length: usize) -> Reading;
    pub fn sp3_judge_front(stretch: *const u8, length: usize) -> Reading;
    pub fn sp3_read(
        file: *const u8,
        length: usize,
        identifiers: *mut u64,
        identifier_room: usize,
        exponents: *mut u64,
        exponent_room: usize,
        comments: *mut u8,
        comment_room: usize,
        rows: *mut i64,
        row_room: usize,
    ) -> Reading;
    pub fn sp3_read_front(
        stretch: *const u8,
        length: usize,
        identifiers: *mut u64,
        identifier_room: usize,
        exponents: *mut u64,
        exponent_room: usize,
        comments: *mut u8,
        comment_room: usize,
        rows: *mut i64,
        row_room: usize,
    ) -> Reading;
    pub fn sp3_write(
        header: Header,
        identifiers: *const u64,
        identifier_count: usize,
        exponents: *const u64,
        exponent_count: usize,
        comments: *const u8,
        comment_bytes: usize,
        rows: *const i64,
        row_numbers: usize,
        out: *mut u8,
        out_room: usize,
    ) -> Measured;
    pub fn sp3_form_length(
        header: Header,
        identifiers: *const u64,
        identifier_count: usize,
        exponents: *const u64,
        exponent_count: usize,
        comments: *const u8,
        comment_bytes: usize,
        rows: *const i64,
        row_numbers: usize,
    ) -> Measured;
    pub fn sp3_write_c(
        header: Header,
        identifiers: *const u64,
        identifier_count: usize,
        exponents: *const u64,
        exponent_count: usize,
        comments: *const u8,
        comment_bytes: usize,
        rows: *const i64,
        row_numbers: usize,
        out: *mut u8,
        out_room: usize,
    ) -> Measured;
    pub fn sp3_form_length_c(
        header: Header,
        identifiers: *const u64,
        identifier_count: usize,
        exponents: *const u64,
        exponent_count: usize,
        comments: *const u8,
        comment_bytes: usize,
        rows: *const i64,
        row_numbers: usize,
    ) -> Measured;
    pub safe fn sp3_header(parts: HeaderParts) -> HeaderAnswer;
    pub fn sp3_place_of(rows: *const i64, row_numbers: usize, k: usize) -> StoredPlace;
    pub fn sp3_clock_of(rows: *const i64, row_numbers: usize, k: usize) -> StoredClock;
    pub fn sp3_exponent_of(
        rows: *const i64,
        row_numbers: usize,
        k: usize,
        which: usize,
    ) -> StoredExponent;
    pub fn sp3_flag_of(rows: *const i64, row_numbers: usize, k: usize, which: usize) -> StoredFlag;
    pub fn sp3_note_of(rows: *const i64, row_numbers: usize, k: usize) -> StoredNote;
    pub fn sp3_note_deviation_of(
        rows: *const i64,
        row_numbers: usize,
        k: usize,
        which: usize,
    ) -> NoteDeviation;
    pub fn sp3_note_correlation_of(
        rows: *const i64,
        row_numbers: usize,
        k: usize,
        which: usize,
    ) -> NoteCorrelation;
    pub fn sp3_divide(
        stretch: *const u8,
        length: usize,
        lengths: *mut u64,
        room: usize,
    ) -> Division;
    pub fn sp3_comment(file: *const u8, length: usize, k: u64) -> CommentAnswer;
    pub fn sp3_identifier(text: *const u8, length: usize) -> u64;
    pub fn sp3_satellite_of(file: *const u8, length: usize, identifier: u64) -> SatelliteAnswer;
    pub fn sp3_row(file: *const u8, length: usize, epoch: u64, satellite: u64) -> RowAnswer;
    pub safe fn sp3_date(year: u64, month: u64, day: u64) -> DateAnswer;
    pub safe fn sp3_moment(instant8: u64) -> MomentAnswer;
    pub safe fn sp3_first_spot() -> Spot;
    pub fn sp3_read_line(
        file: *const u8,
        length: usize,
        spot: Spot,
        identifiers: *mut u64,
        identifier_room: usize,
    ) -> LineAnswer;
    pub fn sp3_next_line(
        file: *const u8,
        length: usize,
        identifiers: *const u64,
        identifier_count: usize,
        spot: Spot,
    ) -> LineAnswer;
    pub fn sp3_due(
        file: *const u8,
        length: usize,
        identifiers: *const u64,
        identifier_count: usize,
        spot: Spot,
    ) -> Due;
    pub fn sp3_after_lines(
        file: *const u8,
        length: usize,
        identifiers: *mut u64,
        identifier_room: usize,
        spot: Spot,
        lines: usize,
    ) -> Spot;
    pub fn sp3_begin(
        file: *const u8,
        length: usize,
        identifiers: *mut u64,
        identifier_room: usize,
    ) -> Reading;
    pub safe fn sp3_first_row() -> RowWalk;
    pub fn sp3_next_row(
        file: *const u8,
        length: usize,
        identifiers: *const u64,
        identifier_count: usize,
        from: RowWalk,
    ) -> RowStep;
}
