//! `compare --play "COMMAND" --bench "COMMAND" [--seed S] [--records N] [--keep DIR]` runs other programs beside the
//! model on generated traces, until N records were done or something differs (status 1).
//!
//! The other `play` is also asked for blank pages, of the chips that its runs left and of some made for this. Either
//! command may be left out. DIR holds the files of the running comparison and, after a difference, keeps them.

use std::path::PathBuf;
use std::process::ExitCode;

use m95_model::compare::{compare, Order, Outcome};
use m95_model::generate::Profile;

const USE: &str =
    "use: compare --play \"COMMAND\" --bench \"COMMAND\" [--seed S] [--records N] [--keep DIR]";

fn main() -> ExitCode {
    let order = match order(std::env::args().skip(1)) {
        Ok(order) => order,
        Err(reason) => {
            eprintln!("compare: {reason}");
            eprintln!("{USE}");
            return ExitCode::from(2);
        }
    };
    match compare(&order) {
        Ok(outcome) => report(&order, &outcome),
        Err(error) => {
            eprintln!("compare: {error}");
            ExitCode::from(2)
        }
    }
}

fn order(mut arguments: impl Iterator<Item = String>) -> Result<Order, String> {
    let mut order = Order {
        play: None,
        bench: None,
        seed: 1,
        records: 2_200_000,
        keep: PathBuf::from("compare-files"),
    };
    while let Some(name) = arguments.next() {
        let value = arguments.next().ok_or(format!("{name} needs a value"))?;
        let number = || value.parse().map_err(|_| format!("{value} is no number"));
        match name.as_str() {
            "--play" => order.play = Some(value),
            "--bench" => order.bench = Some(value),
            "--seed" => order.seed = number()?,
            "--records" => order.records = number()? as usize,
            "--keep" => order.keep = PathBuf::from(value),
            _ => return Err(format!("{name} is no option")),
        }
    }
    if order.play.is_none() && order.bench.is_none() {
        return Err("nothing to compare with".into());
    }
    Ok(order)
}

fn report(order: &Order, outcome: &Outcome) -> ExitCode {
    if let Some(difference) = &outcome.difference {
        println!("{difference}");
        println!("files kept in {}", order.keep.display());
    }
    println!(
        "{:<10} {:>6} {:>10} {:>12}",
        "profile", "runs", "records", "differences"
    );
    let profiles = Profile::ALL.map(Profile::name).into_iter();
    let blanks = [
        ("blank left", outcome.blank_left),
        ("blank made", outcome.blank_made),
    ];
    let (mut runs, mut differences) = (0, 0);
    for (name, tally) in profiles.zip(outcome.tallies).chain(blanks) {
        println!(
            "{name:<10} {:>6} {:>10} {:>12}",
            tally.runs, tally.records, tally.differences
        );
        runs += tally.runs;
        differences += tally.differences;
    }
    println!(
        "{:<10} {runs:>6} {:>10} {differences:>12}",
        "total",
        outcome.records()
    );
    if differences == 0 {
        ExitCode::SUCCESS
    } else {
        ExitCode::FAILURE
    }
}
