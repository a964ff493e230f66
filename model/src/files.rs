//! `play` on files: reads a chip and a trace, runs the trace, writes the answers and the chip back; or reads a chip and
//! tells its first blank page.

use std::fs;
use std::io::ErrorKind;

use crate::contents::{play_wrongly, Contents};
use crate::device::{Device, DEVICES};
use crate::fault::Fault;
use crate::mistakes::{file_counts, first_blank_wrongly};
use crate::number::Number;

/// What `play` prints, and the status that it ends with.
#[derive(Clone, Debug, PartialEq, Eq)]
pub struct Told {
    pub line: String,
    pub status: u8,
}

/// Runs `play` with these arguments, and with a mistake unless `fault` is none. Gives what is told, or what is bad about
/// the use.
pub fn play_files(fault: Fault, arguments: &[String]) -> Result<Told, String> {
    match arguments {
        [word, number, chip] if word == "blank" => blank_file(fault, number, chip),
        [number, chip, trace, answers] => run_files(fault, number, chip, trace, answers),
        _ => Err("the arguments are DEVICE CHIP TRACE ANSWERS, or blank DEVICE CHIP".into()),
    }
}

/// `play DEVICE CHIP TRACE ANSWERS`. Everything is read and judged before the first file is written.
fn run_files(
    fault: Fault,
    number: &str,
    chip: &str,
    trace: &str,
    answers: &str,
) -> Result<Told, String> {
    let device = device_named(number)?;
    let mut contents = read_chip(fault, device, chip)?;
    let records = fs::read(trace).map_err(|error| format!("{trace}: {error}"))?;
    let all = usize::MAX;
    let played = play_wrongly(fault, device, &mut contents, &records, all, all);
    fs::write(answers, &played.answers).map_err(|error| format!("{answers}: {error}"))?;
    fs::write(chip, contents.to_bytes()).map_err(|error| format!("{chip}: {error}"))?;
    Ok(Told {
        line: played.line(),
        status: 0,
    })
}

/// `play blank DEVICE CHIP`. A missing file is bad use here: whoever asks for room on a chip has one, and a name that is
/// mistyped must not be answered with page 0.
fn blank_file(fault: Fault, number: &str, chip: &str) -> Result<Told, String> {
    let device = device_named(number)?;
    let bytes = fs::read(chip).map_err(|error| format!("cannot read the chip {chip}: {error}"))?;
    tell_blank(fault, device, &contents_of(device, chip, &bytes)?)
}

/// The first blank page of a chip in words. A chip keeps no counts, so they are made from its cells.
pub(crate) fn tell_blank(
    fault: Fault,
    device: &Device,
    contents: &Contents,
) -> Result<Told, String> {
    let counts = file_counts(fault, device, &contents.cells);
    let (line, status) = match first_blank_wrongly(fault, device.number, &counts) {
        (Number::Done, Some(page)) => (format!("blank {page}\n"), 0),
        (Number::Done, None) => ("blank none\n".into(), 1),
        (number, _) => return Err(format!("the search is refused with {}", number as u8)),
    };
    Ok(Told { line, status })
}

fn device_named(text: &str) -> Result<&'static Device, String> {
    DEVICES
        .iter()
        .find(|row| row.number.to_string() == text)
        .ok_or(format!("device {text} is not 1 to {}", DEVICES.len()))
}

/// The chip's contents; a missing file means a prepared chip.
fn read_chip(fault: Fault, device: &Device, path: &str) -> Result<Contents, String> {
    match fs::read(path) {
        Ok(bytes) => contents_of(device, path, &bytes),
        Err(error) if error.kind() == ErrorKind::NotFound => {
            Ok(Contents::prepared_wrongly(fault, device))
        }
        Err(error) => Err(format!("{path}: {error}")),
    }
}

/// What a chip's file holds, or what is wrong with it.
fn contents_of(device: &Device, path: &str, bytes: &[u8]) -> Result<Contents, String> {
    Contents::from_bytes(device, bytes).map_err(|reason| format!("{path}: {reason}"))
}
