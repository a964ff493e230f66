//! `generate PROFILE DEVICE SEED RECORDS` writes a generated trace to standard output, for `play` or another tool.

use std::io::{self, Write};
use std::process::ExitCode;

use m95_model::device;
use m95_model::generate::{trace, Profile};

fn main() -> ExitCode {
    let arguments: Vec<String> = std::env::args().skip(1).collect();
    let Some(bytes) = generated(&arguments) else {
        let names: Vec<&str> = Profile::ALL.iter().map(|profile| profile.name()).collect();
        eprintln!("use: generate PROFILE DEVICE SEED RECORDS");
        eprintln!("profiles: {}", names.join(" "));
        return ExitCode::from(2);
    };
    match io::stdout().lock().write_all(&bytes) {
        Ok(()) => ExitCode::SUCCESS,
        Err(error) => {
            eprintln!("generate: {error}");
            ExitCode::from(2)
        }
    }
}

/// The trace, or none when an argument is not one.
fn generated(arguments: &[String]) -> Option<Vec<u8>> {
    let [profile, number, seed, records] = arguments else {
        return None;
    };
    let profile = Profile::named(profile)?;
    let device = device(number.parse().ok()?)?;
    let seed = seed.parse().ok()?;
    let records = records.parse().ok()?;
    Some(trace(profile, device, seed, records))
}
