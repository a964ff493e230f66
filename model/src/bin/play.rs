//! `play DEVICE CHIP TRACE ANSWERS` runs a trace of any length over a chip kept in a file.
//!
//! CHIP is the long form (cells, identification page, status bits, lock), a raw image of the cells, or missing for a
//! prepared chip; afterwards it holds the long form. ANSWERS gets one byte for each record done. One line on
//! standard output tells how the run ended. Bad use changes no file and ends with status 2.
//!
//! `play blank DEVICE CHIP` tells the first blank page of such a chip, which must be there: `blank 17` and status 0, or
//! `blank none` and status 1. It changes no file.

use std::process::ExitCode;

use m95_model::{play_files, Fault};

fn main() -> ExitCode {
    let arguments: Result<Vec<String>, _> = std::env::args_os()
        .skip(1)
        .map(|argument| argument.into_string())
        .collect();
    let played = match arguments {
        Ok(arguments) => play_files(Fault::None, &arguments),
        Err(_) => Err("an argument is not text".into()),
    };
    match played {
        Ok(told) => {
            print!("{}", told.line);
            ExitCode::from(told.status)
        }
        Err(reason) => {
            eprintln!("play: {reason}");
            ExitCode::from(2)
        }
    }
}
