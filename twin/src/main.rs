//! `twin < trace`: reads standard input to its end and writes the program's report.
//! The status is 0 whatever the stop number, and 1 when input or output fails.

use std::io::{self, Read, Write};
use std::process::ExitCode;

use twin::run::{program, TRACE};

fn main() -> ExitCode {
    match answer() {
        Ok(()) => ExitCode::SUCCESS,
        Err(error) => {
            let _ = writeln!(io::stderr(), "twin: {error}");
            ExitCode::FAILURE
        }
    }
}

fn answer() -> io::Result<()> {
    let mut input = io::stdin().lock();
    let mut trace = Vec::new();
    // One byte more than a trace may have tells a longer one; the rest is dropped.
    input
        .by_ref()
        .take(TRACE as u64 + 1)
        .read_to_end(&mut trace)?;
    io::copy(&mut input, &mut io::sink())?;
    let mut output = io::stdout().lock();
    output.write_all(&program(&trace).report())?;
    output.flush()
}
