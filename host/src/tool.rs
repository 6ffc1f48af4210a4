//! How a tool starts and ends: help on standard output; what was wrong, as a sentence on standard error; never a panic.

use model::sheet::LONGEST_NEW;
use model::Figures;
use std::fs::File;
use std::io::{self, Read, Write};
use std::{env, process::ExitCode};

/// Why a tool did not do its work.
#[derive(Debug, PartialEq)]
pub enum Failure {
    /// The arguments are none that it takes.
    Usage,
    /// Why these arguments do not go together, in a sentence.
    Misused(&'static str),
    /// What was wrong, in a sentence.
    Said(String),
}

/// Of something with a name, such as a file: what the system said.
pub fn failed(name: &str) -> impl Fn(io::Error) -> Failure + '_ {
    move |e| Failure::Said(format!("{name}: {e}"))
}

/// The bytes of a sheet's file, or of 001's default sheet. One byte past the longest is enough to see that bytes trail.
pub fn sheet_bytes(sheet: &str) -> Result<Vec<u8>, Failure> {
    if sheet == "default" {
        return Ok(crate::generate::sheet(&Figures::standard()));
    }
    let mut bytes = Vec::new();
    let file = File::open(sheet).map_err(failed(sheet))?;
    file.take(LONGEST_NEW as u64 + 1).read_to_end(&mut bytes).map_err(failed(sheet))?;
    Ok(bytes)
}

/// Run a tool on its arguments. It ends with 0 if all was right, with 1 if it was not or was not to be known, with 2 on bad usage.
pub fn run(usage: &str, work: impl FnOnce(&[String]) -> Result<bool, Failure>) -> ExitCode {
    let words: Vec<String> = env::args_os().skip(1).map(|w| w.to_string_lossy().into_owned()).collect();
    // A standard output that is closed is no reason to panic.
    if words.iter().any(|w| w == "-h" || w == "--help") {
        let _ = writeln!(io::stdout(), "{usage}");
        return ExitCode::SUCCESS;
    }
    let (said, status) = match work(&words) {
        Ok(right) => return ExitCode::from(u8::from(!right)),
        Err(Failure::Usage) => (format!("usage: {usage}"), 2),
        Err(Failure::Misused(why)) => (why.into(), 2),
        Err(Failure::Said(said)) => (said, 1),
    };
    let _ = writeln!(io::stderr(), "{said}");
    ExitCode::from(status)
}
