//! States and loads to compare models by, chosen and not drawn by lot as views are: what a device without an
//! identification page must not have, alone and together, selected and not (document 02, W-202).

use crate::device::{Device, DEVICES};
use crate::state::{Cycle, Instruction, State};

/// Every instruction.
pub const INSTRUCTIONS: [Instruction; 11] = [
    Instruction::Unknown,
    Instruction::Wren,
    Instruction::Wrdi,
    Instruction::Rdsr,
    Instruction::Wrsr,
    Instruction::Read,
    Instruction::Write,
    Instruction::Rdid,
    Instruction::Rdls,
    Instruction::Wrid,
    Instruction::Lid,
];

const CYCLES: [Cycle; 5] = [
    Cycle::None,
    Cycle::Array,
    Cycle::Identification,
    Cycle::Status,
    Cycle::Lock,
];

/// States of a device that are sound but for an instruction, a cycle or a lock that it may not have.
pub fn states(device: &Device) -> Vec<State> {
    let prepared = State::prepared();
    let selected = State {
        select: false,
        selected: true,
        ..State::prepared()
    };
    let received = State {
        whole_bytes: 1,
        turned_away: true,
        ..selected.clone()
    };
    let mut states = Vec::new();
    for start in [prepared, selected, received] {
        for instruction in INSTRUCTIONS {
            for cycle in CYCLES {
                let time_left = match cycle {
                    Cycle::None => 0,
                    _ => device.write_time,
                };
                states.extend([false, true].map(|locked| State {
                    instruction,
                    cycle,
                    time_left,
                    locked,
                    ..start.clone()
                }));
            }
        }
    }
    states
}

/// Device, status bits and lock: all bytes of status bits with each lock that is taken somewhere and some that are
/// not, for every device and the two numbers beside the table.
pub fn loads() -> Vec<(u8, u8, u8)> {
    let mut loads = Vec::new();
    for number in 0..=DEVICES.len() as u8 + 1 {
        for status in 0..=u8::MAX {
            loads.extend([0, 1, 2, 255].map(|lock| (number, status, lock)));
        }
    }
    loads
}
