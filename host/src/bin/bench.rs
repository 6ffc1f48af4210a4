//! bench: the bench run of paper 01 on standard input and output; with the archive, over the archive.

use host::tool::{failed, run, Failure};
use std::io::{self, Read};
use std::process::ExitCode;

fn main() -> ExitCode {
    run("bench < INPUT", |arguments| {
        if !arguments.is_empty() {
            return Err(Failure::Usage);
        }
        let mut input = Vec::new();
        io::stdin().read_to_end(&mut input).map_err(failed("standard input"))?;
        model::bench::run::<host::Other>(&input, &mut io::stdout().lock()).map_err(failed("standard output"))?;
        Ok(true)
    })
}
