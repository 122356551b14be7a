//! What the program `rewrite` must print, said from the paper's "One file
//! whole". Files are judged by `files.rs` and canonical forms written by
//! `forms.rs`, from the documents alone; no code is shared with the program.
//!
//! Build: `rustc -O --edition 2021 -o BIN tests/rewrite.rs`
//!
//! * `BIN answer < file`  prints what `rewrite` must print for it;
//! * `BIN make DIR`       writes the stored inputs, NAME.sp3, with what must be
//!   printed for them, NAME.out;
//! * `BIN make-large DIR` writes so those inputs that are made by rule and not
//!   stored;
//! * `BIN make-random SEED COUNT DIR` writes so generated files, right and
//!   damaged;
//! * `BIN check DIR`      compares DIR with the stored inputs and outputs;
//! * `BIN self-test`      compares the answers with ones worked out by hand.
//!
//! 13 and 17 are no answers of `rewrite`: what was read from a file is a valid table
//! in the file's own version, in which it is written.
//!
//! "The paper" is 01-scope.md as requests 1 to 3, 6 and 9 of 02-change-requests.md
//! changed it.

#[allow(dead_code)]
#[path = "forms.rs"]
mod forms;

use forms::files;
use forms::files::lines::{fail, Tally, Version};
use forms::files::{Base, Draft, Edit, AS_C, AS_D, BARE, COMMENT_60, COMMENT_61};
use forms::files::{MOST_SATELLITES, NOTE};
use std::collections::BTreeMap;
use std::path::Path;
use std::process::exit;

// ---------------------------------------------------------------------------
// What is printed
// ---------------------------------------------------------------------------

/// "Over 65,536 bytes it prints `too long`. It has room for .. 65,536 bytes of
/// output"
const MOST_BYTES: usize = 65_536;
/// "room for 800 comments"
const MOST_COMMENTS: usize = 800;

/// "one line .. (number, then line)", and then the column: "`rewrite` prints
/// `refused 6 line 24 column 5`", in one form also where there is none.
fn refused(number: u8, line: usize, column: usize) -> Vec<u8> {
    format!("refused {number} line {line} column {column}\n").into_bytes()
}

fn too_long() -> Vec<u8> {
    b"too long\n".to_vec()
}

/// The canonical form of a file that was accepted, in its own version; "past that it prints
/// `refused 12 line 0`" and column 0.
fn printed_form(file: &[u8]) -> Vec<u8> {
    let Some(table) = forms::given_of(file) else {
        fail("a file was accepted that has no table");
    };
    let version = Version::told_by(file);
    table.write(version, MOST_BYTES).unwrap_or_else(|number| refused(number, 0, 0))
}

fn printed(input: &[u8]) -> Vec<u8> {
    if input.len() > MOST_BYTES {
        return too_long();
    }
    match files::judge(input) {
        Err(refusal) => refused(refusal.number, refusal.line, refusal.column),
        Ok((table, _)) if table.comments.len() > MOST_COMMENTS => refused(12, 0, 0),
        Ok(_) => printed_form(input),
    }
}

// ---------------------------------------------------------------------------
// Inputs that are stored
// ---------------------------------------------------------------------------

use Base::Talkative;
use Base::{Many, ManyBackwards, ManyOverLetters, Motion, MovingNotes, Night, Nothing, Paper};
use Edit::{
    After, AfterItself, Byte, CarriageReturns, Double, Drop, Insert, Join, Keep, Line as Whole,
    Put, Swap,
};

/// An input, and what must be printed for it, worked out by hand.
struct Case {
    name: String,
    input: Vec<u8>,
    wanted: Vec<u8>,
}

impl Case {
    fn new(name: &str, input: Vec<u8>, wanted: Vec<u8>) -> Case {
        Case { name: name.to_string(), input, wanted }
    }
}

type Edits = &'static [Edit];

/// The paper's file begun one second later, by its case 11.
const ONE_SECOND: [Edit; 3] =
    [Put(1, 21, " 1.00000000"), Put(2, 9, "259201.00000000"), Put(23, 21, " 1.00000000")];

/// Numbers of the night file that are not written as they stand there.
const NIGHT_FORM: Edit = Put(30, 19, "      0.000000      0.000000 999999.999999");

/// The paper's row cut after the point of its clock, and one with a zero before it.
const CUT: Edit = Whole(24, "PG07   5000.000001     -0.500000      0.000000 999999.");
const CUT_ZERO: Edit = Whole(24, "PG07   5000.000001     -0.500000      0.0000000999999.");
/// The last V row of the motion file, whose rate is absent, cut likewise.
const CUT_RATE: Edit = Whole(29, "VG02      0.000000      0.000000      0.000000 999999.");

/// Files that are accepted: how they are made, and how their forms are.
const WRITTEN: &[(&str, Base, Edits, Edits)] = &[
    ("00-paper", Paper, &[Put(24, 19, "    -00.500000")], &[]),
    ("00-canonical", Paper, &[], &[]),
    ("00-over-midnight", Night, &[], &[NIGHT_FORM]),
    ("00-mode-v-with-ep-and-ev", Motion, &[], &[]),
    ("00-mode-v-with-ep", Motion, &[Drop(27)], &[Drop(27)]),
    ("00-mode-v-with-ev", Motion, &[Drop(25)], &[Drop(25)]),
    ("00-one-ep", Paper, &[NOTE], &[NOTE]),
    ("00-ep-of-nothing", Paper, &[BARE], &[BARE]),
    ("00-ep-of-blanks", Paper, &[BARE, Put(25, 80, " ")], &[BARE]),
    (
        "00-ep-leading-zeros",
        Paper,
        &[BARE, Put(25, 5, "0055"), Put(25, 28, "09999999 -0000030")],
        &[BARE, Put(25, 5, "  55"), Put(25, 28, " 9999999      -30")],
    ),
    (
        "00-ep-minus-zero",
        Paper,
        &[BARE, Put(25, 28, "      -0 -9999999")],
        &[BARE, Put(25, 28, "       0 -9999999")],
    ),
    (
        "00-ep-too-large",
        Paper,
        &[BARE, Put(25, 5, "9999 1000      9999999")],
        &[BARE, Put(25, 5, "9999 1000      9999999")],
    ),
    (
        "00-ep-after-an-absent-place",
        Paper,
        &[Put(24, 5, "     -0.000000      0.000000      0.000000"), NOTE],
        &[Put(24, 5, "      0.000000      0.000000      0.000000"), NOTE],
    ),
    (
        "00-notes",
        MovingNotes,
        &[],
        &[
            Put(24, 68, " 7"),
            Put(25, 37, " 9999999 -9999999  1234567      -21  8765432"),
            Put(26, 68, " 7"),
            Put(27, 37, " 9999999 -9999999  1234567      -21  8765432"),
            Put(33, 5, "    -12.500000"),
            Put(35, 5, "    -12.500000"),
            Put(37, 5, "     12.500000"),
            Put(38, 5, "  55    0 1000       0        0      -30        0        0      -21"),
            Put(39, 5, "     12.500000"),
            Put(40, 5, "  55    0 1000       0        0      -30        0        0      -21"),
        ],
    ),
    (
        "00-leading-zeros",
        Paper,
        &[
            Put(1, 9, "04 03 00 00 00.00000000 0000001"),
            Put(2, 25, "00900.00000000"),
            Put(3, 4, "001"),
            Put(8, 10, "000"),
            Put(16, 4, "00.0000000"),
            Put(18, 52, "000000000"),
            Put(23, 9, "04 03 00 00 00.00000000"),
            Put(24, 5, "0005000.000001-000000.500000      0.000000"),
        ],
        &[],
    ),
    (
        "00-trailing-blanks",
        Paper,
        &[Put(1, 80, " "), Put(4, 80, " "), Put(19, 80, " "), Put(22, 4, " "), Put(25, 80, " ")],
        &[],
    ),
    ("00-minus-zero", Paper, &[Put(24, 33, "     -0.000000")], &[]),
    (
        "00-z-alone-zero",
        Paper,
        &[Put(24, 5, "0000001.000000     -1.000000      0.000000")],
        &[Put(24, 5, "      1.000000     -1.000000      0.000000")],
    ),
    (
        "00-place-absent",
        Paper,
        &[Put(24, 5, "     -0.000000-000000.000000      0.000000     -0.000001")],
        &[Put(24, 5, "      0.000000      0.000000      0.000000     -0.000001")],
    ),
    (
        "00-exponents-and-flags",
        Paper,
        &[Put(24, 61, "    00 99 999 E    P")],
        &[Put(24, 61, "     0 99 999 E    P")],
    ),
    (
        "00-no-texts",
        Paper,
        &[Put(1, 41, "                    ")],
        &[Whole(1, "#dP2013  4  3  0  0  0.00000000       1")],
    ),
    (
        "00-comments",
        Paper,
        &[Put(19, 80, "~"), Put(20, 80, " "), Put(21, 3, " "), Put(22, 4, "   x   y  ")],
        &[Put(19, 80, "~"), Put(22, 4, "   x   y")],
    ),
    (
        "00-fraction-rounded",
        Paper,
        &[ONE_SECOND[0], ONE_SECOND[1], ONE_SECOND[2], Put(2, 46, "0.0000115740740")],
        &[ONE_SECOND[0], ONE_SECOND[1], ONE_SECOND[2], Put(2, 46, "0.0000115740741")],
    ),
    ("00-80-characters", Paper, &[Put(24, 80, " ")], &[]),
    // Version c: `#c` again, and all else as of version d.
    ("00-c-paper", Paper, &[AS_C, Put(24, 19, "    -00.500000")], &[AS_C]),
    ("00-c-canonical", Paper, &[AS_C], &[AS_C]),
    ("00-c-over-midnight", Night, &[AS_C], &[AS_C, NIGHT_FORM]),
    ("00-c-mode-v-with-ep-and-ev", Motion, &[AS_C], &[AS_C]),
    ("00-c-ep-of-blanks", Paper, &[AS_C, BARE, Put(25, 80, " ")], &[AS_C, BARE]),
    ("00-c-clock-cut", Paper, &[AS_C, CUT], &[AS_C]),
    (
        "00-c-comment-of-60",
        Paper,
        &[AS_C, Whole(19, COMMENT_60), Put(22, 60, " ")],
        &[AS_C, Whole(19, COMMENT_60)],
    ),
    (
        "00-c-lines-of-80",
        Paper,
        &[AS_C, Put(1, 80, " "), Put(4, 80, " "), Put(13, 80, " "), Put(24, 80, " ")],
        &[AS_C],
    ),
    ("00-c-85-satellites", Many(85), &[AS_C], &[AS_C]),
    ("00-comment-of-61", Paper, &[Whole(19, COMMENT_61)], &[Whole(19, COMMENT_61)]),
    ("00-five-comments", Paper, &[Insert(23, "/* FIVE")], &[Insert(23, "/* FIVE")]),
    // Six nines are enough for an absent clock: "The canonical form still writes twelve nines".
    ("00-clock-six-nines", Paper, &[Put(24, 47, " 999999.000000")], &[]),
    ("00-clock-nearly-twelve-nines", Paper, &[Put(24, 47, " 999999.999998")], &[]),
    ("00-clock-zero-and-six-nines", Paper, &[Put(24, 47, "0999999.123456")], &[]),
    ("00-clock-bare", Paper, &[Put(24, 47, " 999999.      ")], &[]),
    ("00-clock-bare-with-a-zero", Paper, &[Put(24, 47, "0999999.      ")], &[]),
    ("00-clock-cut", Paper, &[CUT], &[]),
    ("00-clock-cut-with-a-zero", Paper, &[CUT_ZERO], &[]),
    ("00-clock-cut-and-one-blank", Paper, &[CUT, Put(24, 55, " ")], &[]),
    ("00-clock-cut-before-ep", Paper, &[CUT, NOTE], &[NOTE]),
    (
        "00-clock-bare-exponents-and-flags",
        Paper,
        &[Put(24, 47, " 999999.       18 18 18 219 EP  MP")],
        &[Put(24, 61, " 18 18 18 219 EP  MP")],
    ),
    ("00-clock-cut-flag-at-80", Paper, &[CUT, Put(24, 80, "P")], &[Put(24, 80, "P")]),
    (
        "00-clock-bare-place-absent",
        Paper,
        &[Put(24, 5, "      0.000000      0.000000      0.000000 999999.      ")],
        &[Put(24, 5, "      0.000000      0.000000      0.000000 999999.999999")],
    ),
    ("00-rate-six-nines", Motion, &[Put(29, 47, " 999999.000000")], &[]),
    ("00-rate-nearly-twelve-nines", Motion, &[Put(29, 47, " 999999.999998")], &[]),
    ("00-rate-zero-and-six-nines", Motion, &[Put(29, 47, "0999999.123456")], &[]),
    ("00-rate-bare", Motion, &[Put(29, 47, " 999999.      ")], &[]),
    ("00-rate-cut", Motion, &[CUT_RATE], &[]),
    (
        "00-clock-and-rate-bare",
        Motion,
        &[Put(24, 47, " 999999.      "), Put(26, 47, "0999999.      ")],
        &[Put(24, 47, " 999999.999999"), Put(26, 47, " 999999.999999")],
    ),
    // Clocks that are told.
    ("00-clock-largest", Paper, &[Put(24, 47, " 999998.999999")], &[Put(24, 47, " 999998.999999")]),
    (
        "00-clock-zero-and-999998",
        Paper,
        &[Put(24, 47, "0999998.000000")],
        &[Put(24, 47, " 999998.000000")],
    ),
    (
        "00-clock-minus-six-nines",
        Paper,
        &[Put(24, 47, "-999999.000000")],
        &[Put(24, 47, "-999999.000000")],
    ),
    (
        "00-clock-minus-twelve-nines",
        Paper,
        &[Put(24, 47, "-999999.999999")],
        &[Put(24, 47, "-999999.999999")],
    ),
    ("00-rate-largest", Motion, &[Put(29, 47, " 999998.999999")], &[Put(29, 47, " 999998.999999")]),
    (
        "00-rate-minus-six-nines",
        Motion,
        &[Put(29, 47, "-999999.000000")],
        &[Put(29, 47, "-999999.000000")],
    ),
    (
        "00-six-nines-in-x-y-z",
        Paper,
        &[Put(24, 5, " 999999.0000000999999.123456-999999.000000")],
        &[Put(24, 5, " 999999.000000 999999.123456-999999.000000")],
    ),
];

/// Files that are refused: how they are made, the number, the line and the column.
const REFUSED: &[(&str, Base, Edits, u8, usize, usize)] = &[
    ("01-no-bytes", Nothing, &[], 1, 1, 0),
    ("01-one-byte", Nothing, &[After(b"#")], 1, 1, 0),
    ("01-eof-without-lf", Paper, &[Join(25)], 1, 25, 0),
    ("01-c-eof-without-lf", Paper, &[AS_C, Join(25)], 1, 25, 0),
    ("01-no-eof", Paper, &[Keep(24)], 1, 25, 0),
    ("01-one-line", Paper, &[Keep(1)], 1, 2, 0),
    ("02-carriage-returns", Paper, &[CarriageReturns], 2, 1, 61),
    ("02-byte-128", Paper, &[Byte(24, 40, 128)], 2, 24, 40),
    ("02-byte-127-in-a-comment", Paper, &[Byte(19, 4, 127)], 2, 19, 4),
    ("02-before-3", Paper, &[Byte(24, 81, 9)], 2, 24, 81),
    ("02-ep-tab", Paper, &[BARE, Byte(25, 3, 9)], 2, 25, 3),
    ("02-tab-in-a-comment", Paper, &[Byte(19, 4, 9)], 2, 19, 4),
    ("02-column-200-of-300", Paper, &[Put(24, 300, " "), Byte(24, 200, 127)], 2, 24, 200),
    ("02-leftmost", Paper, &[Byte(24, 9, 127), Byte(24, 40, 127)], 2, 24, 9),
    ("03-81-characters", Paper, &[Put(24, 81, " ")], 3, 24, 81),
    ("03-300-characters", Paper, &[Put(24, 300, " ")], 3, 24, 81),
    ("03-comment-of-81", Paper, &[Put(19, 81, "x")], 3, 19, 81),
    ("03-c-comment-of-61", Paper, &[AS_C, Whole(19, COMMENT_61)], 3, 19, 61),
    ("03-c-comment-padded-to-61", Paper, &[AS_C, Put(19, 61, " ")], 3, 19, 61),
    ("03-c-comment-of-81", Paper, &[AS_C, Put(19, 81, "x")], 3, 19, 61),
    ("03-c-fifth-comment-of-61", Paper, &[AS_C, Insert(23, COMMENT_61)], 3, 23, 61),
    ("03-c-comment-of-61-after-an-epoch", Paper, &[AS_C, Insert(24, COMMENT_61)], 3, 24, 61),
    ("03-c-satellites-of-81", Paper, &[AS_C, Put(4, 81, " ")], 3, 4, 81),
    ("03-before-4", Paper, &[Put(24, 1, "x"), Put(24, 81, "x")], 3, 24, 81),
    ("03-ep-of-81", Paper, &[NOTE, Put(25, 81, " ")], 3, 25, 81),
    ("04-one-lf", Nothing, &[After(b"\n")], 4, 1, 0),
    ("04-three-comments", Paper, &[Drop(22)], 4, 22, 0),
    ("04-sp3-a", Paper, &[Put(1, 2, "a")], 4, 1, 0),
    ("04-sp3-capital-c", Paper, &[Put(1, 2, "C")], 4, 1, 0),
    ("04-line-1-of-two-marks", Paper, &[Put(1, 2, "#")], 4, 1, 0),
    ("04-c-five-comments", Paper, &[AS_C, Insert(23, "/*")], 4, 23, 0),
    ("04-c-three-comments", Paper, &[AS_C, Drop(22)], 4, 22, 0),
    ("04-c-comment-of-60-after-an-epoch", Paper, &[AS_C, Insert(24, COMMENT_60)], 4, 24, 0),
    ("04-comment-of-61-after-an-epoch", Paper, &[Insert(24, COMMENT_61)], 4, 24, 0),
    ("04-c-comment-of-61-as-line-1", Paper, &[AS_C, Insert(1, COMMENT_61)], 4, 1, 0),
    ("04-c-line-of-d", Paper, &[AS_C, Insert(2, "#d")], 4, 2, 0),
    ("04-c-six-lines-of-85", Many(86), &[AS_C, Put(3, 4, " 85"), Keep(14)], 4, 8, 0),
    ("04-slots-too-few", Paper, &[Drop(7)], 4, 7, 0),
    ("04-slots-too-many", Paper, &[Double(7)], 4, 8, 0),
    ("04-256-satellites-in-15-lines", Many(256), &[Drop(18), Keep(40)], 4, 18, 0),
    ("04-999-satellites-in-58-lines", Many(999), &[Drop(61), Keep(64)], 4, 61, 0),
    ("04-999-satellites-in-60-lines", Many(999), &[Insert(62, "+"), Keep(64)], 4, 62, 0),
    ("04-capital-c", Paper, &[Put(13, 2, "C")], 4, 13, 0),
    ("04-eof-too-early", Paper, &[Put(1, 39, "2")], 4, 25, 0),
    ("04-epoch-too-many", Paper, &[Insert(25, "*  2013  4  3  0 15  0.00000000")], 4, 25, 0),
    ("04-two-ep", Paper, &[Insert(25, "EP"), Insert(26, "EP")], 4, 26, 0),
    ("04-ev-in-mode-p", Paper, &[Insert(25, "EV")], 4, 25, 0),
    ("04-ev-before-v", Motion, &[Swap(26, 27)], 4, 26, 0),
    ("04-ep-after-v", Motion, &[Swap(25, 26)], 4, 26, 0),
    ("04-mode-v-without-v", Motion, &[Drop(26)], 4, 26, 0),
    ("05-unused-column", Paper, &[Put(1, 32, "x")], 5, 1, 32),
    ("05-1000-satellites", Many(999), &[Put(3, 4, "1000"), Keep(64)], 5, 3, 7),
    ("05-1000-satellites-from-column-3", Many(999), &[Put(3, 3, "1000"), Keep(64)], 5, 3, 3),
    ("05-placeholder-of-letters", Paper, &[Put(14, 4, "G ")], 5, 14, 4),
    ("05-placeholder-at-56", Paper, &[Put(14, 58, "x")], 5, 14, 56),
    ("05-leftmost", Paper, &[Put(24, 70, "x"), Put(24, 61, "x")], 5, 24, 61),
    ("05-column-61-after-a-bare-clock", Paper, &[Put(24, 47, " 999999.      x")], 5, 24, 61),
    ("05-column-63", Paper, &[Put(3, 63, "x")], 5, 3, 63),
    ("05-column-8-of-a-date", Paper, &[Put(1, 4, "201x"), Put(1, 8, "x")], 5, 1, 8),
    ("05-placeholder-blank", Paper, &[Put(18, 52, "         ")], 5, 18, 52),
    ("05-eofx", Paper, &[Whole(25, "EOFX")], 5, 25, 4),
    ("05-flag-in-v", Motion, &[Put(26, 75, "E")], 5, 26, 75),
    ("05-ep-column-3", Paper, &[Insert(25, "EPx")], 5, 25, 3),
    ("05-ep-column-9", Paper, &[BARE, Put(25, 9, "1")], 5, 25, 9),
    ("05-ep-column-72", Paper, &[BARE, Put(25, 72, "x")], 5, 25, 72),
    ("05-ep-before-6", Paper, &[NOTE, Put(25, 5, "55  "), Put(25, 27, "x")], 5, 25, 27),
    ("05-ev-column-3", Motion, &[Put(27, 3, "x")], 5, 27, 3),
    ("06-c-small-v", Paper, &[AS_C, Put(1, 3, "v")], 6, 1, 3),
    ("06-c-86-satellites-and-a-slot", Many(86), &[AS_C, Put(3, 13, "G 2"), Keep(14)], 6, 3, 13),
    ("06-small-v", Paper, &[Put(1, 3, "v")], 6, 1, 3),
    ("06-no-digit-before-point", Paper, &[Put(24, 5, "       .500000")], 6, 24, 5),
    ("06-blank-clock", Paper, &[Put(24, 47, "              ")], 6, 24, 47),
    // "A blank fraction elsewhere stays 6."
    ("06-clock-minus-bare", Paper, &[Put(24, 47, "-999999.      ")], 6, 24, 47),
    ("06-clock-five-digits-after", Paper, &[Put(24, 47, " 999999.00000 ")], 6, 24, 47),
    ("06-clock-last-digit-alone", Paper, &[Put(24, 47, " 999999.     0")], 6, 24, 47),
    ("06-clock-first-digit-alone", Paper, &[CUT, Put(24, 55, "0")], 6, 24, 47),
    ("06-clock-999998-bare", Paper, &[Put(24, 47, " 999998.      ")], 6, 24, 47),
    ("06-clock-million-bare", Paper, &[Put(24, 47, "1000000.      ")], 6, 24, 47),
    ("06-clock-seven-nines-bare", Paper, &[Put(24, 47, "9999999.      ")], 6, 24, 47),
    ("06-clock-nine-bare", Paper, &[Put(24, 47, "      9.      ")], 6, 24, 47),
    ("06-clock-no-digit", Paper, &[Put(24, 47, "       .      ")], 6, 24, 47),
    ("06-clock-no-point", Paper, &[Put(24, 47, " 999999       ")], 6, 24, 47),
    ("06-clock-point-in-53", Paper, &[Put(24, 47, "999999.       ")], 6, 24, 47),
    ("06-clock-blank-within", Paper, &[Put(24, 47, "9 99999.      ")], 6, 24, 47),
    (
        "06-clock-cut-before-the-point",
        Paper,
        &[Whole(24, "PG07   5000.000001     -0.500000      0.000000 999999")],
        6,
        24,
        47,
    ),
    ("06-rate-minus-bare", Motion, &[Put(29, 47, "-999999.      ")], 6, 29, 47),
    ("06-rate-last-digit-alone", Motion, &[Put(29, 47, " 999999.     0")], 6, 29, 47),
    ("06-rate-999998-bare", Motion, &[Put(29, 47, " 999998.      ")], 6, 29, 47),
    ("06-x-bare", Paper, &[Put(24, 5, " 999999.      ")], 6, 24, 5),
    ("06-y-bare", Paper, &[Put(24, 19, " 999999.      ")], 6, 24, 19),
    ("06-z-bare", Paper, &[Put(24, 33, " 999999.      ")], 6, 24, 33),
    ("06-x-bare-and-clock-bare", Paper, &[CUT, Put(24, 5, " 999999.      ")], 6, 24, 5),
    ("06-velocity-bare", Motion, &[Put(29, 33, " 999999.      ")], 6, 29, 33),
    ("06-seven-places", Paper, &[Put(24, 5, "  5000.0000001")], 6, 24, 5),
    ("06-row-of-a-name", Paper, &[Whole(24, "PG07")], 6, 24, 5),
    ("06-row-of-nothing", Paper, &[Whole(24, "P")], 6, 24, 2),
    ("06-small-e", Paper, &[Put(24, 75, "e")], 6, 24, 75),
    ("06-day", Paper, &[Put(1, 12, "3 ")], 6, 1, 4),
    ("06-hour-before-7", Paper, &[Put(23, 9, "13"), Put(23, 15, "2x")], 6, 23, 15),
    ("06-slot-before-7", Many(256), &[Put(3, 10, "G00G 2"), Keep(40)], 6, 3, 13),
    ("06-999-of-one-satellite", Paper, &[Put(3, 4, "999")], 6, 3, 13),
    ("06-999-of-998-satellites", Many(998), &[Put(3, 4, "999"), Keep(64)], 6, 61, 46),
    ("06-identifier-in-a-row", Paper, &[Put(24, 2, "G 7")], 6, 24, 2),
    ("06-file-type-of-two", Paper, &[Put(13, 4, "Gx")], 6, 13, 4),
    ("06-identifier", Paper, &[Put(3, 10, "G 7")], 6, 3, 10),
    ("06-file-type", Paper, &[Put(13, 4, "X ")], 6, 13, 4),
    ("06-time-system", Paper, &[Put(13, 10, "gps")], 6, 13, 10),
    ("06-ep-blanks-after", Paper, &[BARE, Put(25, 5, "55  ")], 6, 25, 5),
    ("06-ep-deviation-minus", Paper, &[BARE, Put(25, 5, "  -1")], 6, 25, 5),
    ("06-ep-minus-apart", Paper, &[BARE, Put(25, 28, "     - 1")], 6, 25, 28),
    ("06-ep-plus", Paper, &[BARE, Put(25, 28, "      +1")], 6, 25, 28),
    ("06-ep-correlation-at-the-left", Paper, &[BARE, Put(25, 28, "1234567 ")], 6, 25, 28),
    ("06-ep-before-7", Paper, &[NOTE, Put(25, 28, "99999999"), Put(25, 73, "1234567 ")], 6, 25, 73),
    ("06-ev-column-80", Motion, &[Put(27, 80, "x")], 6, 27, 73),
    ("07-ep-99999999", Paper, &[BARE, Put(25, 28, "99999999")], 7, 25, 28),
    ("07-ep-10000000", Paper, &[BARE, Put(25, 28, "10000000")], 7, 25, 28),
    ("07-ev-10000000", Motion, &[Put(27, 73, "10000000")], 7, 27, 73),
    ("07-c-86-satellites", Many(86), &[AS_C, Keep(14)], 7, 3, 4),
    ("07-c-999-satellites", Many(999), &[AS_C, Keep(14)], 7, 3, 4),
    ("07-no-satellite", Paper, &[Put(3, 4, "  0")], 7, 3, 4),
    ("07-000-satellites", Many(999), &[Put(3, 4, "000"), Keep(64)], 7, 3, 4),
    ("07-100001-epochs", Paper, &[Put(1, 33, " 100001")], 7, 1, 33),
    ("07-2001-02-29", Paper, &[Put(1, 4, "2001  2 29")], 7, 1, 4),
    ("07-month-and-hour", Paper, &[Put(23, 9, "13"), Put(23, 15, "24")], 7, 23, 4),
    ("07-second-60", Paper, &[Put(1, 21, "60.00000000")], 7, 1, 21),
    ("07-coordinate", Paper, &[Put(24, 5, "1000000.000000")], 7, 24, 5),
    (
        "07-clock-and-coordinate",
        Paper,
        &[Put(24, 47, "1000000.000000"), Put(24, 5, "1000000.000000")],
        7,
        24,
        5,
    ),
    ("07-clock", Paper, &[Put(24, 47, "1000000.000000")], 7, 24, 47),
    ("07-clock-1999999", Paper, &[Put(24, 47, "1999999.000000")], 7, 24, 47),
    ("07-rate", Motion, &[Put(29, 47, "1000000.000000")], 7, 29, 47),
    ("07-identifier-00", Paper, &[Put(24, 2, "G00")], 7, 24, 2),
    ("08-week", Paper, &[Put(2, 4, "1735")], 8, 2, 0),
    (
        "08-fraction",
        Paper,
        &[ONE_SECOND[0], ONE_SECOND[1], ONE_SECOND[2], Put(2, 46, "0.0000115740742")],
        8,
        2,
        0,
    ),
    ("08-slot-after-n", Paper, &[Put(3, 13, "G08")], 8, 3, 0),
    ("08-exponent-after-n", Paper, &[Put(8, 13, "000")], 8, 8, 0),
    ("08-identifier-repeats", Night, &[Put(3, 13, "G07")], 8, 3, 0),
    ("08-999th-is-the-first", Many(999), &[Put(61, 46, "G01"), Keep(64)], 8, 61, 0),
    ("08-459th-is-the-458th", Many(999), &[Put(30, 10, "J63"), Keep(64)], 8, 30, 0),
    ("08-1000th-slot", Many(999), &[Put(61, 49, "Z10"), Keep(64)], 8, 61, 0),
    ("08-file-type", Paper, &[Put(13, 4, "R ")], 8, 13, 0),
    ("08-file-type-of-100", Many(100), &[Put(15, 4, "G "), Keep(20)], 8, 15, 0),
    ("09-wrong-instant", Paper, &[Put(23, 15, " 0 15")], 9, 23, 0),
    ("09-late-after-midnight", Night, &[Put(26, 18, "15"), Put(29, 18, "30")], 9, 26, 0),
    ("10-another-satellite", Paper, &[Put(24, 2, "G08")], 10, 24, 0),
    ("10-order", Night, &[Swap(30, 31)], 10, 30, 0),
    ("10-another-in-v", Motion, &[Put(26, 2, "G02")], 10, 26, 0),
    ("11-one-lf-after", Paper, &[After(b"\n")], 11, 26, 0),
    ("11-zero-after", Paper, &[After(b"\0")], 11, 26, 0),
    ("11-two-files", Paper, &[AfterItself], 11, 26, 0),
    ("11-c-then-d", Paper, &[AfterItself, AS_C], 11, 26, 0),
    ("11-d-then-c", Paper, &[AS_C, AfterItself, AS_D], 11, 26, 0),
];

fn stored() -> Vec<Case> {
    let written = WRITTEN.iter().map(|&(name, base, edits, form)| {
        Case::new(name, files::hand_made(base, edits), files::hand_made(base, form))
    });
    let refused = REFUSED.iter().map(|&(name, base, edits, number, line, column)| {
        Case::new(name, files::hand_made(base, edits), refused(number, line, column))
    });
    written.chain(refused).collect()
}

// ---------------------------------------------------------------------------
// Inputs that are made by rule
// ---------------------------------------------------------------------------

/// Where the comments of a draft end.
fn first_epoch(draft: &Draft) -> usize {
    let is_epoch = |line: &Vec<u8>| line.starts_with(b"* ");
    draft.0.iter().position(is_epoch).unwrap_or_else(|| fail("a draft without an epoch"))
}

/// A comment line of so many bytes with its LF: 3, or 5 to 81.
fn comment_of(bytes: usize) -> Vec<u8> {
    let text = if bytes == 3 { String::new() } else { format!(" {}", "x".repeat(bytes - 4)) };
    format!("/*{text}\n").into_bytes()
}

/// The draft with as few comments more as make it so many bytes.
fn filled_to(bytes: usize, mut draft: Draft) -> Vec<u8> {
    let mut missing = bytes - draft.bytes().len();
    let place = first_epoch(&draft);
    while missing > 0 {
        // no rest of 1, 2 or 4 bytes is left, of which no comment is made
        let taken = if missing <= 81 { missing } else { 81.min(missing - 5) };
        draft.0.insert(place, comment_of(taken));
        missing -= taken;
    }
    draft.bytes()
}

/// The bytes of a file beside its epochs, at least: line 1 has at least 40 bytes, other
/// lines before the comments 61, a comment 3 and EOF 4.
fn bytes_beside_epochs(satellites: usize) -> usize {
    40 + 61 * (2 * files::satellite_lines(satellites) + 7) + 4 * 3 + 4
}

/// The most rows that a file of at most 65,536 bytes has whose rows have so many; an
/// epoch line has 32.
fn most_rows(row: usize) -> Option<usize> {
    let rows = |n: usize, modes: usize| {
        let epochs = MOST_BYTES.saturating_sub(bytes_beside_epochs(n)) / (32 + row * n * modes);
        n * modes * epochs
    };
    (1..=MOST_SATELLITES).flat_map(|n| [rows(n, 1), rows(n, 2)]).max()
}

/// The most satellites that such a file has.
fn most_satellites(row: usize) -> Option<usize> {
    let fits = |&n: &usize| bytes_beside_epochs(n) + 32 + row * n <= MOST_BYTES;
    (1..=MOST_SATELLITES).rev().find(fits)
}

/// The one epoch of a draft so many times, a minute apart on the paper's day; in
/// mode V each P has the V of its columns after it.
fn repeated(draft: &Draft, mode: u8, epochs: usize) -> Draft {
    let mut lines = draft.0[..first_epoch(draft)].to_vec();
    lines[0].splice(2..3, [mode]);
    lines[0].splice(32..39, format!("{epochs:7}").into_bytes());
    lines[1].splice(24..38, *b"   60.00000000");
    for epoch in 0..epochs {
        let (hour, minute) = (epoch / 60, epoch % 60);
        lines.push(format!("*  2013  4  3 {hour:2} {minute:2}  0.00000000\n").into_bytes());
        for row in draft.0.iter().filter(|line| line[0] == b'P') {
            lines.push(row.clone());
            if mode == b'V' {
                lines.push([b"V", &row[1..]].concat());
            }
        }
    }
    lines.push(b"EOF\n".to_vec());
    Draft(lines)
}

/// Without the texts of line 1, which then has 40 bytes.
fn without_texts(mut draft: Draft) -> Draft {
    draft.0[0].splice(39.., *b"\n");
    draft
}

/// So many satellites in mode V, of which no clock and no rate is known.
fn many_rows(satellites: usize, epochs: usize) -> Draft {
    let mut draft = without_texts(repeated(&files::base_file(Many(satellites)), b'V', epochs));
    for row in draft.0.iter_mut().filter(|line| is_row(line)) {
        row.splice(46.., *b" 999999.999999\n");
    }
    draft
}

fn is_row(line: &[u8]) -> bool {
    matches!(line[0], b'P' | b'V')
}

/// A form in which every clock is absent, with its rows cut after the point of the
/// clock: 55 bytes and not 61.
fn cut_rows(form: &[u8]) -> Vec<u8> {
    let line = |line: &str| match is_row(line.as_bytes()) {
        true => format!("{}\n", &line[..54]),
        false => format!("{line}\n"),
    };
    files::show_text(form).lines().map(line).collect::<String>().into_bytes()
}

/// Files in which every clock is bare and every row ends in column 54: the epochs
/// of the paper's satellite, a comment of so many bytes more, the bytes of the
/// file and those of its form.
///
/// Beside its epoch the paper's file has 1,215 - 32 - 61 = 1,122 bytes. An epoch
/// has 32 + 55 = 87 bytes, in the form 32 + 61 = 93; in mode V 32 + 110 = 142, in
/// the form 32 + 122 = 154. So 692 epochs have 1,122 + 692 * 87 = 61,326 bytes and
/// 1,122 + 692 * 93 = 65,478, and 58 are left; 418 in mode V have 1,122 + 418 *
/// 142 = 60,478 and 1,122 + 418 * 154 = 65,494, and 42 are left. Texts and comments
/// that say nothing would save 21 + 8 bytes, too few for one epoch more.
const BARE_CLOCKS: &[(&str, u8, usize, usize, usize, usize)] = &[
    ("692-epochs-of-bare-clocks", b'P', 692, 0, 61_326, 65_478),
    ("692-epochs-of-bare-clocks-one-left", b'P', 692, 57, 61_383, 65_535),
    ("692-epochs-of-bare-clocks-all", b'P', 692, 58, 61_384, 65_536),
    ("692-epochs-of-bare-clocks-too-many", b'P', 692, 59, 61_385, 65_537),
    ("693-epochs-of-bare-clocks", b'P', 693, 0, 61_413, 65_571),
    ("418-epochs-of-bare-rates", b'V', 418, 0, 60_478, 65_494),
    ("418-epochs-of-bare-rates-one-left", b'V', 418, 41, 60_519, 65_535),
    ("418-epochs-of-bare-rates-all", b'V', 418, 42, 60_520, 65_536),
    ("418-epochs-of-bare-rates-too-many", b'V', 418, 43, 60_521, 65_537),
    ("419-epochs-of-bare-rates", b'V', 419, 0, 60_620, 65_648),
];

/// The form of such a file.
fn bare_form(mode: u8, epochs: usize, comment: usize) -> Vec<u8> {
    let draft = repeated(&files::base_file(Paper), mode, epochs);
    let length = draft.bytes().len() + comment;
    filled_to(length, draft)
}

fn bare_cases() -> Vec<Case> {
    let case = |&(name, mode, epochs, comment, _, length): &(_, _, _, _, _, usize)| {
        let form = bare_form(mode, epochs, comment);
        let file = cut_rows(&form);
        Case::new(name, file, if length <= MOST_BYTES { form } else { refused(12, 0, 0) })
    };
    BARE_CLOCKS.iter().map(case).collect()
}

/// 693 epochs of bare clocks, 22 + 2 * 693 + 1 = 1,409 lines: what is wrong in the
/// file comes before the room for its form.
fn bare_faults() -> Vec<Case> {
    let file = cut_rows(&bare_form(b'P', 693, 0));
    let mut clock = file.clone();
    // before the last LF: `EOF`, a LF, and the clock's `9.`
    let nine = clock.len() - "9.\nEOF\n".len();
    clock[nine] = b'8';
    vec![
        Case::new("693-epochs-no-last-lf", cut(file.clone()), refused(1, 1409, 0)),
        Case::new("693-epochs-last-clock-999998", clock, refused(6, 1408, 47)),
        Case::new("693-epochs-and-a-byte-after", [&file[..], b"x"].concat(), refused(11, 1410, 0)),
    ]
}

/// Files of 65,536 bytes and near it: one bare clock makes the form 6 bytes longer,
/// and blanks after the row make the file longer than its form.
fn bare_at_the_bound() -> Vec<Case> {
    let form = |bytes| filled_to(bytes, files::base_file(Paper));
    let bare = |bytes| cut_rows(&form(bytes));
    // 1,122 + 570 * (32 + 81) = 65,532 bytes, and 1,122 + 570 * 93 in the form
    let long = bare_form(b'P', 570, 0);
    vec![
        Case::new("65530-bytes-with-a-bare-clock", bare(MOST_BYTES), form(MOST_BYTES)),
        Case::new("65531-bytes-with-a-bare-clock", bare(MOST_BYTES + 1), refused(12, 0, 0)),
        Case::new("65536-bytes-with-a-bare-clock", bare(MOST_BYTES + 6), refused(12, 0, 0)),
        Case::new("65537-bytes-with-a-bare-clock", bare(MOST_BYTES + 7), too_long()),
        Case::new("65532-bytes-with-blanks-after", padded(&cut_rows(&long), "P"), long),
    ]
}

/// As many rows as 65,536 bytes hold, 97 satellites in mode V and six epochs, whose
/// form would have 1,164 * 6 bytes more; and as many as a form holds, 1,050.
fn bare_rows() -> Vec<Case> {
    let bytes = MOST_BYTES + 1_164 * 6;
    let most = cut_rows(&filled_to(bytes, many_rows(97, 6)));
    let longer = cut_rows(&filled_to(bytes + 1, many_rows(97, 6)));
    let form = filled_to(MOST_BYTES, many_rows(75, 7));
    vec![
        Case::new("65536-bytes-of-1164-rows", most, refused(12, 0, 0)),
        Case::new("65537-bytes-of-1164-rows", longer, too_long()),
        Case::new("59236-bytes-of-1050-rows", cut_rows(&form), form),
    ]
}

/// A file of so many satellites of which no clock is known: with the comments and texts
/// of the paper's file it has 61 * (2 * lines + 8) + 56 bytes and 61 for each row.
fn without_clocks(base: Base) -> Vec<u8> {
    let mut draft = files::base_file(base);
    for row in draft.0.iter_mut().filter(|line| is_row(line)) {
        row.splice(46.., *b" 999999.999999\n");
    }
    draft.bytes()
}

/// Request 6. 65,536 bytes hold 952 satellites whose rows have 61 bytes: 56 lines of
/// each kind and 952 rows make 65,448 with the paper's texts, and 953 need 57 lines.
/// Where every row ends in column 54 they hold 999, in 61 * 126 + 56 + 55 * 999 bytes;
/// the form of more than 952 is too long.
fn many_satellites() -> Vec<Case> {
    let many = |n| files::base_file(Many(n)).bytes();
    let bare = |n| cut_rows(&without_clocks(Many(n)));
    let filled = |bytes| filled_to(bytes, files::base_file(Many(952)));
    let mut other_row = bare(999);
    // before the last row's LF and `EOF`: `Z09` and 50 columns more
    let name = other_row.len() - "EOF\n".len() - 54;
    other_row[name..name + 3].copy_from_slice(b"Z10");
    vec![
        same_form("255-satellites", many(255)),
        same_form("256-satellites", many(256)),
        same_form("272-satellites", many(272)),
        same_form("273-satellites", many(273)),
        same_form("952-satellites-backwards", files::base_file(ManyBackwards(952)).bytes()),
        same_form("952-satellites-over-letters", files::base_file(ManyOverLetters(952)).bytes()),
        same_form("65448-bytes-of-952-satellites", many(952)),
        same_form("65536-bytes-of-952-satellites", filled(MOST_BYTES)),
        Case::new("65537-bytes-of-952-satellites", filled(MOST_BYTES + 1), too_long()),
        Case::new("65631-bytes-of-953-satellites", many(953), too_long()),
        Case::new("68681-bytes-of-999-satellites", many(999), too_long()),
        Case::new("59736-bytes-of-952-satellites", bare(952), without_clocks(Many(952))),
        Case::new("59913-bytes-of-953-satellites", bare(953), refused(12, 0, 0)),
        Case::new("62687-bytes-of-999-satellites", bare(999), refused(12, 0, 0)),
        Case::new("62686-bytes-no-last-lf", cut(bare(999)), refused(1, 1131, 0)),
        Case::new("62687-bytes-last-row-of-z10", other_row, refused(10, 1130, 0)),
        Case::new(
            "62688-bytes-one-past-eof",
            [bare(999), b"x".to_vec()].concat(),
            refused(11, 1132, 0),
        ),
    ]
}

/// Every P row of a draft with this EP after it.
fn with_notes(draft: &Draft, note: &str) -> Draft {
    let with_note = |line: &Vec<u8>| match line[0] {
        b'P' => vec![line.clone(), format!("{note}\n").into_bytes()],
        _ => vec![line.clone()],
    };
    Draft(draft.0.iter().flat_map(with_note).collect())
}

/// Lines that begin so filled up with blanks to 80 characters.
fn padded(form: &[u8], symbol: &str) -> Vec<u8> {
    let line = |line: &str| match line.starts_with(symbol) {
        true => format!("{line:80}\n"),
        false => format!("{line}\n"),
    };
    files::show_text(form).lines().map(line).collect::<String>().into_bytes()
}

/// A file of 65,536 bytes whose form has 78 less for each of its EP lines, in
/// which nothing is known.
fn notes_case() -> Case {
    let form = filled_to(MOST_BYTES - 255 * 78, with_notes(&files::base_file(Many(255)), "EP"));
    Case::new("65536-bytes-with-ep", padded(&form, "EP"), form)
}

/// A full EP after each of 255 rows.
fn full_notes_case() -> Case {
    let Edit::Insert(_, note) = NOTE else {
        fail("the note of 000 is no line");
    };
    let file = filled_to(MOST_BYTES, with_notes(&files::base_file(Many(255)), note));
    same_form("65536-bytes-with-full-ep", file)
}

fn same_form(name: &str, file: Vec<u8>) -> Case {
    Case::new(name, file.clone(), file)
}

fn large() -> Vec<Case> {
    let talk = |count| files::base_file(Talkative(count)).bytes();
    let paper = |bytes| filled_to(bytes, files::base_file(Paper));
    let after = |byte, mut file: Vec<u8>| {
        file.push(byte);
        file
    };
    let rows = filled_to(MOST_BYTES, many_rows(75, 7));
    let mut many_comments = files::base_file(Paper);
    let place = first_epoch(&many_comments);
    many_comments.0.splice(place..place, vec![comment_of(3); 21_440]);
    let lines_of_80 = [b"x".repeat(80), b"\n".to_vec()].concat().repeat(810);
    let others = vec![
        same_form("800-comments", talk(800)),
        Case::new("801-comments", talk(801), refused(12, 0, 0)),
        Case::new("801-comments-and-a-byte-after", after(b'x', talk(801)), refused(11, 823, 0)),
        Case::new("21444-comments", many_comments.bytes(), refused(12, 0, 0)),
        same_form("85-satellites", files::base_file(Many(85)).bytes()),
        same_form("c-of-1050-rows", as_c(many_rows(75, 7).bytes())),
        same_form("c-of-692-epochs", as_c(bare_form(b'P', 692, 0))),
        Case::new(
            "c-of-693-bare-epochs",
            as_c(cut_rows(&bare_form(b'P', 693, 0))),
            refused(12, 0, 0),
        ),
        Case::new("c-of-801-comments", as_c(talk(801)), refused(4, 23, 0)),
        Case::new("65537-bytes-of-c", as_c(paper(MOST_BYTES + 1)), too_long()),
        same_form("86-satellites", files::base_file(Many(86)).bytes()),
        same_form("65535-bytes", paper(MOST_BYTES - 1)),
        same_form("65536-bytes", paper(MOST_BYTES)),
        same_form("65536-bytes-of-1050-rows", rows.clone()),
        notes_case(),
        full_notes_case(),
        Case::new(
            "65536-bytes-one-past-eof",
            after(b'x', paper(MOST_BYTES - 1)),
            refused(11, 821, 0),
        ),
        Case::new("65536-bytes-no-last-lf", cut(paper(MOST_BYTES + 1)), refused(1, 820, 0)),
        Case::new("65536-bytes-x", b"x".repeat(MOST_BYTES), refused(1, 1, 0)),
        Case::new("65536-bytes-x-lf", after(b'\n', b"x".repeat(MOST_BYTES - 1)), refused(3, 1, 81)),
        Case::new("65536-bytes-last-column", in_the_last_column(), refused(2, 1, 65_535)),
        Case::new("65536-bytes-zero", vec![0; MOST_BYTES], refused(1, 1, 0)),
        Case::new("65536-lf", b"\n".repeat(MOST_BYTES), refused(4, 1, 0)),
        Case::new("65610-bytes-in-lines", lines_of_80, too_long()),
        Case::new("65537-bytes", paper(MOST_BYTES + 1), too_long()),
        Case::new("65537-bytes-one-past-eof", after(b'\n', rows), too_long()),
        Case::new("65537-bytes-x", b"x".repeat(MOST_BYTES + 1), too_long()),
        Case::new("65537-lf", b"\n".repeat(MOST_BYTES + 1), too_long()),
        Case::new("1000000-bytes-zero", vec![0; 1_000_000], too_long()),
    ];
    [others, many_satellites(), bare_cases(), bare_faults(), bare_at_the_bound(), bare_rows()]
        .into_iter()
        .flatten()
        .collect()
}

/// The file as one of version c.
fn as_c(mut file: Vec<u8>) -> Vec<u8> {
    file[1] = b'c';
    file
}

/// One line of so many bytes of which the last before its LF is wrong.
fn in_the_last_column() -> Vec<u8> {
    [b"x".repeat(MOST_BYTES - 2), b"\x7f\n".to_vec()].concat()
}

/// Without the last byte.
fn cut(mut file: Vec<u8>) -> Vec<u8> {
    file.pop();
    file
}

/// Generated files with what the judge and the writer say of them.
fn random(seed: u64, count: u64) -> Vec<Case> {
    let case = |number| {
        let (_, file) = files::generated(files::generate_file, seed, number);
        Case { name: format!("random-{number}"), wanted: printed(&file), input: file }
    };
    (1..=count).map(case).collect()
}

// ---------------------------------------------------------------------------
// Files and tests
// ---------------------------------------------------------------------------

fn read(path: &Path) -> Vec<u8> {
    std::fs::read(path).unwrap_or_else(|error| fail(&format!("{}: {error}", path.display())))
}

/// NAME.sp3 and NAME.out of each case.
fn contents(cases: &[Case]) -> BTreeMap<String, Vec<u8>> {
    let of_case = |case: &Case| {
        [
            (format!("{}.sp3", case.name), case.input.clone()),
            (format!("{}.out", case.name), printed(&case.input)),
        ]
    };
    cases.iter().flat_map(of_case).collect()
}

fn make(cases: &[Case], directory: &str) {
    for (name, bytes) in contents(cases) {
        let path = Path::new(directory).join(name);
        if let Err(error) = std::fs::write(&path, bytes) {
            fail(&format!("{}: {error}", path.display()));
        }
    }
}

/// The names of the files in a folder.
fn names_in(directory: &str) -> Vec<String> {
    let entries =
        std::fs::read_dir(directory).unwrap_or_else(|error| fail(&format!("{directory}: {error}")));
    let mut names: Vec<String> = entries
        .map(|entry| match entry {
            Ok(entry) => entry.file_name().to_string_lossy().into_owned(),
            Err(error) => fail(&format!("{directory}: {error}")),
        })
        .collect();
    names.sort();
    names
}

fn check(directory: &str) {
    let wanted = contents(&stored());
    if names_in(directory) != wanted.keys().cloned().collect::<Vec<_>>() {
        fail(&format!("{directory}: other files than `make` writes"));
    }
    for (name, bytes) in &wanted {
        if read(&Path::new(directory).join(name)) != *bytes {
            fail(&format!("{directory}/{name} is not what `make` writes"));
        }
    }
}

/// The number of a refusal in words, 0 for a form.
fn number_in(text: &[u8]) -> Option<u8> {
    let text = String::from_utf8_lossy(text);
    match text.strip_prefix("refused ") {
        Some(rest) => rest.split(' ').next()?.parse().ok(),
        None => (text.starts_with("#d") || text.starts_with("#c")).then_some(0),
    }
}

/// The sizes that were worked out: of the files with bare clocks and of their forms,
/// and of the most rows and satellites that a file and a form have.
fn test_sizes(tally: &mut Tally) {
    for &(name, mode, epochs, comment, file, form) in BARE_CLOCKS {
        let made = bare_form(mode, epochs, comment);
        let sizes = (cut_rows(&made).len(), made.len());
        tally.holds(sizes == (file, form), || format!("{name}: {sizes:?} bytes"));
    }
    for (row, satellites, epochs, wanted) in [(61, 75, 7, 1050), (55, 97, 6, 1164)] {
        let file = many_rows(satellites, epochs).bytes();
        let rows = files::judge(&file).map_or(0, |(table, _)| table.rows.len());
        tally.holds(most_rows(row) == Some(wanted) && rows == wanted, || format!("{rows} rows"));
    }
    for (row, wanted) in [(61, 952), (55, 999)] {
        let found = most_satellites(row);
        tally.holds(found == Some(wanted), || format!("{found:?} satellites"));
    }
}

fn self_test() {
    let mut tally = Tally::default();
    let cases: Vec<Case> = stored().into_iter().chain(large()).collect();
    for case in &cases {
        let given = printed(&case.input);
        let first = |text: &[u8]| String::from_utf8_lossy(text).lines().next().map(str::to_string);
        tally.holds(given == case.wanted, || {
            format!("{}: wanted {:?}, given {:?}", case.name, first(&case.wanted), first(&given))
        });
        let size: Option<usize> = case.name.split("-bytes").next().and_then(|n| n.parse().ok());
        tally.holds(size.map_or(true, |n| n == case.input.len()), || {
            format!("{}: {} bytes", case.name, case.input.len())
        });
    }
    test_sizes(&mut tally);
    for number in 0..=12 {
        let occurs = cases.iter().any(|case| number_in(&case.wanted) == Some(number));
        tally.holds(occurs, || format!("{number} does not occur"));
    }
    println!("{} comparisons, {} failed", tally.made, tally.failed);
    if tally.failed > 0 {
        exit(1);
    }
}

fn number(word: &str) -> u64 {
    word.parse().unwrap_or_else(|_| fail(&format!("{word:?} is no number")))
}

fn main() {
    let arguments: Vec<String> = std::env::args().skip(1).collect();
    let words: Vec<&str> = arguments.iter().map(String::as_str).collect();
    match words[..] {
        ["answer"] => files::print(&printed(&files::standard_input())),
        ["make", directory] => make(&stored(), directory),
        ["make-large", directory] => make(&large(), directory),
        ["make-random", seed, count, directory] => {
            make(&random(number(seed), number(count)), directory);
        }
        ["check", directory] => check(directory),
        ["self-test"] => self_test(),
        _ => fail(
            "usage: answer | make DIR | make-large DIR | make-random SEED COUNT DIR\n\
             | check DIR | self-test",
        ),
    }
}
