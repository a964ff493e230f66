//! The bench program of document 01: standard input holds a device record and a trace, standard output gets the
//! answers.

use std::io::{self, Read, Write};
use std::process::ExitCode;

use m95_model::{bench, BENCH_INPUT};

fn main() -> ExitCode {
    match bench_standard_input() {
        Ok(()) => ExitCode::SUCCESS,
        Err(error) => {
            eprintln!("bench: {error}");
            ExitCode::from(2)
        }
    }
}

/// One byte more than the longest input is enough to see that an input is too long.
fn bench_standard_input() -> io::Result<()> {
    let mut input = Vec::new();
    io::stdin()
        .lock()
        .take(BENCH_INPUT as u64 + 1)
        .read_to_end(&mut input)?;
    io::stdout().lock().write_all(bench(&input).as_bytes())
}
