//! `wrong_play FAULT` and the arguments of `play`, for a run or for a blank page, is `play` with one named fault:
//! something for `compare` to find. `wrong_play list` prints the names of the faults that a `play` can have.

use std::process::ExitCode;

use m95_model::{play_files, Fault};

fn main() -> ExitCode {
    let arguments: Vec<String> = std::env::args().skip(1).collect();
    match arguments.split_first() {
        Some((word, [])) if word == "list" => {
            faults_of_play().for_each(|fault| println!("{fault:?}"));
            ExitCode::SUCCESS
        }
        Some((name, rest)) => play_with(name, rest),
        None => bad_use("the arguments are FAULT and those of play, or list"),
    }
}

fn faults_of_play() -> impl Iterator<Item = Fault> {
    Fault::ALL
        .iter()
        .copied()
        .filter(|fault| fault.is_of_play())
}

fn play_with(name: &str, arguments: &[String]) -> ExitCode {
    let Some(fault) = faults_of_play().find(|fault| format!("{fault:?}") == name) else {
        return bad_use(&format!("{name} is no fault of the list"));
    };
    match play_files(fault, arguments) {
        Ok(told) => {
            print!("{}", told.line);
            ExitCode::from(told.status)
        }
        Err(reason) => bad_use(&reason),
    }
}

fn bad_use(reason: &str) -> ExitCode {
    eprintln!("wrong_play: {reason}");
    ExitCode::from(2)
}
