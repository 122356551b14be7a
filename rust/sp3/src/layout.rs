//! What this crate takes include/sp3.h to be, printed for tests/wrapper.sh, which holds it to what C says.

use crate::ffi::*;
use std::mem::{offset_of, size_of};

/// A type that C calls by this name.
trait CType {
    const NAME: &'static str;
}

/// What a field holds, in a word.
trait Kind {
    const KIND: &'static str;
}

macro_rules! named {
    ($($rust:ty = $name:literal;)*) => { $(impl CType for $rust { const NAME: &'static str = $name; })* };
}

macro_rules! of_kind {
    ($($rust:ty = $kind:literal;)*) => { $(impl Kind for $rust { const KIND: &'static str = $kind; })* };
}

named! {
    u64 = "uint64_t";
    usize = "size_t";
    *const u8 = "const uint8_t *";
    *mut u8 = "uint8_t *";
    *const u64 = "const uint64_t *";
    *mut u64 = "uint64_t *";
    *const i64 = "const int64_t *";
    *mut i64 = "int64_t *";
}

of_kind! {
    bool = "truth";
    u8 = "byte";
    u64 = "unsigned";
    usize = "unsigned";
    i64 = "signed";
    f64 = "float";
}

impl<const N: usize> Kind for [u8; N] {
    const KIND: &'static str = "bytes";
}

/// Size and kind of the field that a function shows.
fn size_and_kind<S, F: Kind>(_: fn(&S) -> &F) -> String {
    format!("{} {}", size_of::<F>(), F::KIND)
}

/// For each struct a line with its size, and for each field one with its offset, size and kind.
macro_rules! structs {
    ($($c:ident = $rust:ident { $($field:ident)* })*) => {
        $(impl CType for $rust { const NAME: &'static str = stringify!($c); })*
        $(impl Kind for $rust { const KIND: &'static str = "struct"; })*

        fn structs() -> Vec<String> {
            let mut lines = Vec::new();
            $(
                lines.push(format!("struct {} {}", stringify!($c), size_of::<$rust>()));
                $(
                    let name = concat!(stringify!($c), ".", stringify!($field));
                    let tail = size_and_kind(|whole: &$rust| &whole.$field);
                    lines.push(format!("field {name} {} {tail}", offset_of!($rust, $field)));
                )*
            )*
            lines
        }
    };
}

structs! {
    sp3_moment_t = Moment { year month day hour minute second8 }
    sp3_texts_t = Texts { data_used coordinates orbit agency }
    sp3_bases_t = Bases { place clock }
    sp3_header_t = Header {
        velocity start8 epochs interval8 texts satellites comments file_type time_system bases
    }
    sp3_reading_t = Reading { refusal line column length header version }
    sp3_measured_t = Measured { refusal length }
    sp3_header_parts_t = HeaderParts {
        mode start epochs interval8 texts satellites comments file_type time_system bases
    }
    sp3_header_answer_t = HeaderAnswer { refusal header }
    sp3_stored_place_t = StoredPlace { refusal absent x y z }
    sp3_stored_clock_t = StoredClock { refusal absent clock }
    sp3_stored_exponent_t = StoredExponent { refusal unknown too_large value }
    sp3_stored_flag_t = StoredFlag { refusal set }
    sp3_stored_note_t = StoredNote { refusal stands }
    sp3_note_deviation_t = NoteDeviation { refusal no_record unknown too_large value }
    sp3_note_correlation_t = NoteCorrelation { refusal no_record unknown value }
    sp3_division_t = Division { count rest refusal line column }
    sp3_comment_answer_t = CommentAnswer { refusal line column at length }
    sp3_satellite_answer_t = SatelliteAnswer { refusal line column number }
    sp3_row_t = Row { x y z clock place_absent clock_absent }
    sp3_row_answer_t = RowAnswer { refusal line column row }
    sp3_date_answer_t = DateAnswer { refusal mjd week seconds }
    sp3_moment_answer_t = MomentAnswer { refusal moment }
    sp3_state_t = State { due also lines left comments velocity satellites epochs at8 gap8 interval8 }
    sp3_spot_t = Spot { at state }
    sp3_line_answer_t = LineAnswer { refusal column finished next }
    sp3_due_t = Due { kind also instant8 identifier repeats }
    sp3_row_walk_t = RowWalk { spot passed }
    sp3_row_step_t = RowStep { refusal line column end epoch satellite row next }
}

/// A function as C declares it.
trait Declared {
    fn declared(self, name: &str) -> String;
}

macro_rules! functions_of {
    ($(($($argument:ident)*))*) => { $(
        impl<R: CType, $($argument: CType),*> Declared for unsafe extern "C" fn($($argument),*) -> R {
            fn declared(self, name: &str) -> String {
                let arguments: &[&str] = &[$($argument::NAME),*];
                let arguments = if arguments.is_empty() { "void".to_string() } else { arguments.join(", ") };
                format!("declared {} {name}({arguments});", R::NAME)
            }
        }
    )* };
}

functions_of! {
    () (A) (A B) (A B C) (A B C D) (A B C D E) (A B C D E F)
    (A B C D E F G H I) (A B C D E F G H I J) (A B C D E F G H I J K)
}

/// The declaration of each function; a `_` stands for each argument.
macro_rules! functions {
    ($($name:ident($($argument:tt)*))*) => {
        fn functions() -> Vec<String> {
            vec![$({
                let door: unsafe extern "C" fn($($argument),*) -> _ = $name;
                door.declared(stringify!($name))
            }),*]
        }
    };
}

functions! {
    sp3_judge(_ _)
    sp3_judge_front(_ _)
    sp3_read(_ _ _ _ _ _ _ _ _ _)
    sp3_read_front(_ _ _ _ _ _ _ _ _ _)
    sp3_write(_ _ _ _ _ _ _ _ _ _ _)
    sp3_form_length(_ _ _ _ _ _ _ _ _)
    sp3_write_c(_ _ _ _ _ _ _ _ _ _ _)
    sp3_form_length_c(_ _ _ _ _ _ _ _ _)
    sp3_header(_)
    sp3_place_of(_ _ _)
    sp3_clock_of(_ _ _)
    sp3_exponent_of(_ _ _ _)
    sp3_flag_of(_ _ _ _)
    sp3_note_of(_ _ _)
    sp3_note_deviation_of(_ _ _ _)
    sp3_note_correlation_of(_ _ _ _)
    sp3_divide(_ _ _ _)
    sp3_comment(_ _ _)
    sp3_identifier(_ _)
    sp3_satellite_of(_ _ _)
    sp3_row(_ _ _ _)
    sp3_date(_ _ _)
    sp3_moment(_)
    sp3_first_spot()
    sp3_read_line(_ _ _ _ _)
    sp3_next_line(_ _ _ _ _)
    sp3_due(_ _ _ _ _)
    sp3_after_lines(_ _ _ _ _ _)
    sp3_begin(_ _ _ _)
    sp3_first_row()
    sp3_next_row(_ _ _ _ _)
}

/// Prints structs, constants, functions and words, each line with the kind of thing first.
#[test]
#[ignore = "prints for tests/wrapper.sh, which compares"]
fn layout() {
    let constants = [
        format!("constant SP3_ROW_WIDTH {}", crate::ROW_WIDTH),
        format!("constant SP3_COMMENT_WIDTH {}", crate::COMMENT_WIDTH),
        format!("constant SP3_UNKNOWN {}", crate::stored::UNKNOWN),
        format!("constant SP3_UNNOTED {}", crate::notes::UNNOTED),
        format!("constant SP3_NO_CLOCK {}", crate::stored::ABSENT_CLOCK),
        format!("constant SP3_MOST_SATELLITES {}", crate::MOST_SATELLITES),
        format!("constant SP3_MOST_SATELLITES_C {}", crate::MOST_SATELLITES_C),
        format!("constant SP3_COMMENTS_C {}", crate::COMMENTS_C),
        format!("constant SP3_COMMENT_COLUMNS_C {}", crate::COMMENT_COLUMNS_C),
    ];
    let known = (0..=u8::MAX).filter(|&number| crate::words(number) != crate::words(u8::MAX));
    let words = known.map(|number| format!("words {number} {}", crate::words(number)));
    println!();
    for line in structs().into_iter().chain(constants).chain(functions()).chain(words) {
        println!("{line}");
    }
}
