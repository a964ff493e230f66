//! Inputs of the bench program: a first record, then a trace that fits.

use super::{events, tail, Profile};
use crate::bench::BENCH_INPUT;
use crate::device::Device;
use crate::trace::append_record;

/// Bytes of the first record.
const FIRST: usize = 5;
/// More records than this never fit, since none is shorter.
const MOST_RECORDS: usize = BENCH_INPUT / 5;
/// Bytes of the longest record, a wait.
const LONGEST_RECORD: usize = 8;

/// A whole input of the profile; for `Malformed` with the tail number `which`.
pub fn bench_input(profile: Profile, device: &'static Device, seed: u64, which: usize) -> Vec<u8> {
    let end = match profile {
        Profile::Malformed => tail(device, which),
        _ => Vec::new(),
    };
    let room = BENCH_INPUT - end.len() - LONGEST_RECORD;
    let mut input = vec![3, 0, 16, 0, device.number];
    for event in events(profile, device, seed, MOST_RECORDS) {
        if input.len() > room {
            break;
        }
        append_record(&mut input, event);
    }
    input.extend_from_slice(&end);
    input
}

/// Inputs whose first record is refused, or of the lengths at the limit.
pub const ODD_BENCH_INPUTS: usize = REFUSED.len() + 4;

const REFUSED: [&[u8]; 18] = [
    &[],
    &[3],
    &[3, 0, 16],
    &[3, 0, 16, 0],
    &[3, 0, 17, 0, 1],
    &[9, 0, 1, 0],
    &[3, 0, 16, 1, 1],
    &[2, 0, 16, 0],
    &[4, 0, 16, 0, 1, 1],
    &[3, 1, 16, 0, 1],
    &[3, 0, 16, 0, 0],
    &[3, 0, 16, 0, 3],
    &[3, 0, 16, 0, 4],
    &[3, 0, 16, 0, 5],
    &[3, 0, 16, 0, 6],
    &[3, 0, 16, 0, 7],
    &[3, 0, 16, 0, 8],
    &[3, 0, 16, 0, 255],
];

/// The odd input number `which`, below `ODD_BENCH_INPUTS`.
pub fn odd_bench_input(which: usize) -> Vec<u8> {
    match which.checked_sub(REFUSED.len()) {
        None => REFUSED[which].to_vec(),
        Some(0) => padded(BENCH_INPUT),
        Some(1) => padded(BENCH_INPUT + 1),
        Some(2) => vec![0; BENCH_INPUT + 1],
        Some(_) => [3, 0, 16, 0, 1].to_vec(),
    }
}

/// A device record and settings of D, cut at `length` bytes.
fn padded(length: usize) -> Vec<u8> {
    let settings = (length - FIRST).div_ceil(5);
    let mut input = vec![3, 0, 16, 0, 2];
    input.extend([3, 0, 1, 0, 2].repeat(settings));
    input.truncate(length);
    input
}
