//! The bench program as a function of its input (document 01, "Bench program").

use std::fmt::Write;

use crate::calls::{prepare, run};
use crate::device::{device, Device};
use crate::number::Number;
use crate::state::{status_byte, State};
use crate::trace::{head, record_bytes, HEAD};

/// The devices that the program takes; all others give number 1. It names them itself and does not go by the table:
/// some that it refuses would fit the room it keeps.
pub const BENCH_DEVICES: [u8; 2] = [1, 2];
/// Cells that the program keeps room for.
pub const BENCH_CELLS: usize = 16_384;
/// The longest input that is run, first record included.
pub const BENCH_INPUT: usize = 32_768;

const DEVICE_KIND: u16 = 16;
const DEVICE_LENGTH: u16 = 3;

/// What the program prints for `input`.
pub fn bench(input: &[u8]) -> String {
    match first_record(input) {
        Ok((device, trace)) => run_bench(device, trace),
        Err(number) => format!("end {} --\n", number as u8),
    }
}

/// The device that the first record names and the trace after it; judged by 12, then 6, 7, 8, 6, 1.
fn first_record(input: &[u8]) -> Result<(&'static Device, &[u8]), Number> {
    if input.len() > BENCH_INPUT {
        return Err(Number::Input);
    }
    if input.len() < HEAD {
        return Err(Number::Cut);
    }
    let (length, kind) = head(input);
    if kind != DEVICE_KIND {
        return Err(Number::Kind);
    }
    if length != DEVICE_LENGTH {
        return Err(Number::Length);
    }
    if input.len() < record_bytes(length) {
        return Err(Number::Cut);
    }
    let (record, trace) = input.split_at(record_bytes(length));
    let number = record[HEAD];
    if !BENCH_DEVICES.contains(&number) {
        return Err(Number::Device);
    }
    let row = device(number).ok_or(Number::Device)?;
    Ok((row, trace))
}

fn run_bench(device: &Device, trace: &[u8]) -> String {
    let mut cells = [0xFF; BENCH_CELLS];
    let cells = &mut cells[..device.cells];
    let mut identification = vec![0; device.identification];
    let mut latch = vec![0; 2 * device.page];
    let mut counts = vec![0; device.pages()];
    let (_, mut state) = prepare(
        device.number,
        cells,
        &mut identification,
        &mut latch,
        &mut counts,
    );
    let mut answers = [0; BENCH_INPUT / HEAD];
    let ran = run(
        device.number,
        &mut state,
        cells,
        &mut identification,
        &mut latch,
        &mut counts,
        trace,
        &mut answers,
        usize::MAX,
    );
    report(&answers[..ran.done], ran.number, &state)
}

fn report(answers: &[u8], number: Number, state: &State) -> String {
    let mut text = String::from("record q\n");
    for (index, answer) in answers.iter().enumerate() {
        let q = ['0', '1', 'Z'][usize::from(*answer)];
        writeln!(text, "{} {q}", index + 1).expect("a string takes every line");
    }
    writeln!(text, "end {} {:02X}", number as u8, status_byte(state))
        .expect("a string takes every line");
    text
}
