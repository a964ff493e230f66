//! Ends of traces that are refused, reaching the numbers 6 to 9 and 11 of document 01 in every way.

use super::commands::{Kind, Maker};
use super::records_of;
use crate::device::Device;
use crate::trace::Event;

/// Tails that are bytes alone; the kind, the length or the body is wrong, or the record is cut.
const BYTES: [&[u8]; 44] = [
    // Cut in the head and in the body, each kind.
    &[3],
    &[3, 0],
    &[3, 0, 1],
    &[3, 0, 1, 0],
    &[6],
    &[6, 0, 2],
    &[6, 0, 2, 0],
    &[6, 0, 2, 0, 1],
    &[6, 0, 2, 0, 1, 2],
    &[6, 0, 2, 0, 1, 2, 3],
    &[2],
    &[2, 0],
    &[2, 0, 3],
    &[0, 0, 99],
    // No such kind, whole, cut, and with a length that no kind has.
    &[3, 0, 0, 0, 0],
    &[2, 0, 4, 0],
    &[3, 0, 16, 0, 1],
    &[3, 0, 255, 255, 1],
    &[3, 0, 1, 1, 0],
    &[6, 0, 2, 1, 0, 0, 0, 0],
    &[2, 0, 3, 1],
    &[6, 0, 9, 0],
    &[99, 0, 9, 0],
    &[0, 0, 0, 0],
    &[0, 1, 4, 0, 0],
    // The length of another kind, whole and cut.
    &[2, 0, 1, 0],
    &[4, 0, 1, 0, 0, 0],
    &[4, 0, 1, 0],
    &[0, 0, 1, 0, 0],
    &[3, 1, 1, 0, 0],
    &[5, 0, 2, 0, 0, 0, 0],
    &[7, 0, 2, 0, 0, 0, 0, 0, 0],
    &[7, 0, 2, 0, 0],
    &[6, 1, 2, 0, 0, 0, 0, 0],
    &[3, 0, 3, 0, 0],
    &[1, 0, 3, 0],
    &[3, 0, 3, 0],
    &[2, 1, 3, 0],
    // No such pin.
    &[3, 0, 1, 0, 10],
    &[3, 0, 1, 0, 11],
    &[3, 0, 1, 0, 12],
    &[3, 0, 1, 0, 128],
    &[3, 0, 1, 0, 137],
    &[3, 0, 1, 0, 255],
];

/// Tails that begin with good records: power in one of the four cycles, outside and inside a selection.
const POWERS: usize = 8;

/// How many tails there are.
pub const TAILS: usize = BYTES.len() + POWERS;

/// The tail number `which`, below `TAILS`.
pub fn tail(device: &'static Device, which: usize) -> Vec<u8> {
    match BYTES.get(which) {
        Some(bytes) => bytes.to_vec(),
        None => records_of(&power_in_cycle(device, which - BYTES.len())),
    }
}

/// Ends what may run, starts a cycle of its kind, and cycles the power in it. Where there is no identification page two
/// of the kinds start none: power is taken after them, and refused in an array cycle that follows.
fn power_in_cycle(device: &'static Device, which: usize) -> Vec<Event> {
    let mut maker = Maker::new(device, which as u64, 0);
    maker.calm();
    maker.settle();
    maker.set_status(0);
    maker.enable();
    let command = match which % 4 {
        0 => maker.write_command(),
        1 => maker.wrid_command(),
        2 => maker.wrsr_command(),
        _ => maker.lid_command(true),
    };
    maker.send(&command.bytes);
    let of_page = matches!(command.kind, Kind::Identification | Kind::Lock);
    if of_page && !device.has_identification() {
        maker.put(&[Event::Power]);
        maker.enable();
        let command = maker.write_command();
        maker.send(&command.bytes);
    }
    maker.put(&[Event::Wait(device.write_time - 1)]);
    if which >= 4 {
        maker.put(&[Event::Select(false)]);
    }
    maker.put(&[Event::Power, Event::Wait(1)]);
    maker.events
}
