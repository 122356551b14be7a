//! Counts the known and the absent places of each satellite of a file:
//!
//!     cargo run --offline --example known -- ../../samples/paper.sp3
//!
//! Ends with 0 for an accepted file, with 1 for a refused one, with 2 where there is no file to read.

use std::io::{self, Write};
use std::process::ExitCode;

/// A line for each satellite in header order, and one for all.
fn report(file: &[u8]) -> Result<String, sp3::Refusal> {
    let rows = sp3::rows(file)?;
    let identifiers = rows.identifiers().to_vec();
    let mut counts = vec![[0_u64; 2]; identifiers.len()];
    for row in rows {
        let row = row?;
        let absent = usize::from(row.row.place.is_none());
        counts[row.satellite as usize][absent] += 1;
    }
    let mut text = String::new();
    for (&number, [known, absent]) in identifiers.iter().zip(&counts) {
        let identifier = sp3::identifier_text(number).unwrap_or_default();
        text += &format!("{identifier} known {known} absent {absent}\n");
    }
    let sum = |which: usize| counts.iter().map(|count| count[which]).sum::<u64>();
    Ok(text + &format!("all known {} absent {}\n", sum(0), sum(1)))
}

fn main() -> ExitCode {
    let Some(path) = std::env::args_os().nth(1) else {
        eprintln!("known FILE");
        return ExitCode::from(2);
    };
    let shown = path.to_string_lossy();
    let file = match std::fs::read(&path) {
        Ok(file) => file,
        Err(error) => {
            eprintln!("{shown}: {error}");
            return ExitCode::from(2);
        }
    };
    match report(&file) {
        Ok(text) => match io::stdout().write_all(text.as_bytes()) {
            Ok(()) => ExitCode::SUCCESS,
            Err(error) => {
                eprintln!("standard output: {error}");
                ExitCode::from(2)
            }
        },
        Err(refusal) => {
            eprintln!("{shown}: {refusal}");
            ExitCode::FAILURE
        }
    }
}
