//! Mistakes of the bench program (document 01, "Bench program"), made in what the right one prints.

use std::ops::RangeInclusive;

use crate::bench::{bench, BENCH_INPUT};
use crate::device::{BP, SRWD};
use crate::fault::Fault;
use crate::trace::{head, record_bytes, HEAD};

/// `bench`, with a mistake.
pub fn bench_wrongly(fault: Fault, input: &[u8]) -> String {
    let right = bench(input);
    // The input as far as it is not too long.
    let within = &input[..input.len().min(BENCH_INPUT)];
    let (length, kind_is_wrong) = match input.get(..HEAD) {
        Some(start) => (head(start).0, right == "end 7 --\n"),
        None => (0, false),
    };
    match fault {
        Fault::BenchStatusIsStored => with_stored_status(&right),
        Fault::BenchRefusalIsBare => bare_if_refused(right),
        Fault::BenchHeaderNeedsRecord => right.replace("record q\nend", "end"),
        Fault::BenchLimitOneLess if input.len() == BENCH_INPUT => "end 12 --\n".into(),
        Fault::BenchLimitCountsTrace => bench(within),
        Fault::BenchLimitJudgedLast => match bench(within) {
            refused if refused.ends_with("--\n") => refused,
            _ => right,
        },
        Fault::BenchLengthBeforeKind if kind_is_wrong && length != 3 => "end 8 --\n".into(),
        Fault::BenchBodyBeforeKind if kind_is_wrong && input.len() < record_bytes(length) => {
            "end 6 --\n".into()
        }
        Fault::BenchTakesLargeDevices => with_device(input, 3..=4, 2),
        Fault::BenchTakesSmallerDevices => with_device(input, 5..=7, 1),
        Fault::BenchTakesNoInput if input.is_empty() => "end 0 --\n".into(),
        _ => right,
    }
}

/// What the right one prints with another device in the place of these.
fn with_device(input: &[u8], devices: RangeInclusive<u8>, other: u8) -> String {
    let mut taken = input.to_vec();
    if let Some(number) = taken
        .get_mut(HEAD)
        .filter(|number| devices.contains(number))
    {
        *number = other;
    }
    bench(&taken)
}

/// The status at the end without WEL and WIP.
fn with_stored_status(text: &str) -> String {
    let (rest, status) = text.trim_end().rsplit_once(' ').unwrap_or((text, "--"));
    match u8::from_str_radix(status, 16) {
        Ok(byte) => format!("{rest} {:02X}\n", byte & (SRWD | BP)),
        Err(_) => text.into(),
    }
}

/// The end alone and no status, for a trace that was refused.
fn bare_if_refused(text: String) -> String {
    let end = text.lines().last().unwrap_or_default();
    match end.split(' ').nth(1) {
        Some("0") | None => text,
        Some(number) => format!("end {number} --\n"),
    }
}
