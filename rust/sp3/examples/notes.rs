//! Prints what the EP and EV records of a file say, a line for each: epoch, satellite and kind, the standard deviations of x, y, z and clock,
//! the correlations xy, xz, xc, yz, yc and zc; `-` is unknown, `large` too large.
//!
//!     cargo run --offline --example notes -- ../../samples/correlations.sp3
//!
//! Ends with 0 for an accepted file, with 1 for a refused one and where there is no file to read.

use sp3::{Deviation, Note, Table};
use std::error::Error;
use std::io::{self, Write};
use std::process::ExitCode;

/// The deviations and correlations of a record.
fn shown(note: Note) -> String {
    let deviation = |deviation| match deviation {
        Some(Deviation::Value(value)) => value.to_string(),
        Some(Deviation::TooLarge) => "large".to_string(),
        None => "-".to_string(),
    };
    let correlation = |correlation: Option<i64>| match correlation {
        Some(number) => number.to_string(),
        None => "-".to_string(),
    };
    let deviations = note.deviations.map(deviation).join(" ");
    format!("{deviations} {}", note.correlations.map(correlation).join(" "))
}

/// A line for each record, in the order of the file.
fn report(table: &Table) -> String {
    let mut text = String::new();
    for row in table.rows() {
        let number = table.identifiers[row.satellite as usize];
        let identifier = sp3::identifier_text(number).unwrap_or_default();
        let of_velocity = row.velocity.and_then(|velocity| velocity.note);
        for (kind, note) in [("EP", row.position.note), ("EV", of_velocity)] {
            if let Some(note) = note {
                text += &format!("{} {identifier} {kind} {}\n", row.epoch, shown(note));
            }
        }
    }
    text
}

/// Reads the file and prints its records.
fn run() -> Result<(), Box<dyn Error>> {
    let path = std::env::args_os().nth(1).ok_or("notes FILE")?;
    let table = Table::read(&std::fs::read(path)?)?;
    io::stdout().write_all(report(&table).as_bytes())?;
    Ok(())
}

fn main() -> ExitCode {
    match run() {
        Ok(()) => ExitCode::SUCCESS,
        Err(error) => {
            eprintln!("{error}");
            ExitCode::FAILURE
        }
    }
}
