//! Prints a file of either version as SP3-c, for a station that loads no other:
//!
//!     cargo run --offline --example older -- ../../samples/paper.sp3
//!
//! Ends with 0 where that is done, with 1 where the file is refused or SP3-c cannot hold it, with 2 where there is no file to read.

use std::io::{self, Write};
use std::process::ExitCode;

/// The version of a file, and its canonical form in SP3-c.
fn older(file: &[u8]) -> Result<(sp3::Version, Vec<u8>), sp3::Refusal> {
    let version = sp3::judge(file)?.version;
    let form = sp3::Table::read(file)?.write_as(sp3::Version::C)?;
    Ok((version, form))
}

fn main() -> ExitCode {
    let Some(path) = std::env::args_os().nth(1) else {
        eprintln!("older FILE");
        return ExitCode::from(2);
    };
    let shown = path.to_string_lossy();
    let file = match std::fs::read(&path) {
        Ok(file) => file,
        Err(error) => {
            eprintln!("{shown}: {error}");
            return ExitCode::from(2);
        }
    };
    match older(&file) {
        Ok((version, form)) => match io::stdout().write_all(&form) {
            Ok(()) => {
                eprintln!("{shown}: {version}, printed as {}", sp3::Version::C);
                ExitCode::SUCCESS
            }
            Err(error) => {
                eprintln!("standard output: {error}");
                ExitCode::from(2)
            }
        },
        Err(refusal) => {
            eprintln!("{shown}: {refusal}");
            ExitCode::FAILURE
        }
    }
}
