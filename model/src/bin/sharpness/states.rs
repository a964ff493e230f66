//! The faults of judging a state and of loading one, which no trace shows: chosen states and loads are asked instead.

use m95_model::generate::{loads, states};
use m95_model::{is_sound, is_sound_wrongly, load, load_wrongly, Fault, DEVICES};

/// Prints the line of one fault about which states are sound; false when it was missed.
pub fn show_state(fault: Fault) -> bool {
    let mut devices = Vec::new();
    for row in &DEVICES {
        let marks = vec![0; row.page];
        let differs =
            |state| is_sound(row, state, &marks) != is_sound_wrongly(fault, row, state, &marks);
        let count = states(row).iter().filter(|state| differs(state)).count();
        devices.extend(vec![row.number; count]);
    }
    show(fault, "state", "number", &devices)
}

/// Prints the line of one fault of `load`; false when it was missed.
pub fn show_load(fault: Fault) -> bool {
    let differs = |&(number, status, lock): &(u8, u8, u8)| {
        load(number, status, lock) != load_wrongly(fault, number, status, lock)
    };
    let devices: Vec<u8> = loads()
        .into_iter()
        .filter(differs)
        .map(|(number, _, _)| number)
        .collect();
    show(fault, "load", "number", &devices)
}

/// Prints the line, by the devices of all differences.
fn show(fault: Fault, of: &str, by: &str, devices: &[u8]) -> bool {
    let first = devices.first().map(|number| (number.to_string(), by));
    super::show_without_trace(fault, of, first, devices.len())
}
