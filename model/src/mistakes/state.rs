//! Mistakes about which states are sound, and about what is loaded (document 02, W-202): the right judgement, asked
//! about another state or other bits.

use crate::calls::load;
use crate::device::{device, Device, SRWD};
use crate::fault::Fault;
use crate::number::Number;
use crate::state::{is_sound, Cycle, Instruction, State};

/// `is_sound`, with a mistake.
pub fn is_sound_wrongly(fault: Fault, device: &Device, state: &State, marks: &[u8]) -> bool {
    if device.has_identification() {
        return is_sound(device, state, marks);
    }
    let is_of_page = state.instruction.is_of_identification();
    let overlooked = match fault {
        Fault::StateInstructionIsSound => is_of_page,
        Fault::StateLeftoverIsSound => is_of_page && !state.selected,
        Fault::StateLockInstructionIsSound => {
            matches!(state.instruction, Instruction::Rdls | Instruction::Lid)
        }
        _ => false,
    };
    let mut asked = state.clone();
    match (fault, state.cycle) {
        (Fault::StateLockedIsSound, _) => asked.locked = false,
        // A cycle that is sound with the same time left; it does not ask for page start 0, as the other one does.
        (Fault::StateIdentificationCycleIsSound, Cycle::Identification)
            if state.page_start == 0 =>
        {
            asked.cycle = Cycle::Status;
        }
        (Fault::StateLockCycleIsSound, Cycle::Lock) => asked.cycle = Cycle::Status,
        // An instruction that a cycle turns away too.
        _ if overlooked => asked.instruction = Instruction::Unknown,
        _ => {}
    }
    is_sound(device, &asked, marks)
}

/// `load`, with a mistake.
pub fn load_wrongly(fault: Fault, number: u8, status: u8, lock: u8) -> (Number, State) {
    let right = load(number, status, lock);
    let Some(row) = device(number).filter(|row| !row.has_identification()) else {
        return right;
    };
    // What the right one takes, and what a mistaken one stores in its place.
    let (taken, locked) = match fault {
        Fault::LoadTakesLock if lock == 1 => (load(number, status, 0), true),
        Fault::LoadTakesSrwd if !row.has_srwd => (load(number, status & !SRWD, lock), false),
        Fault::LoadRefusesSrwd if status & SRWD != 0 => {
            return (Number::State, State::prepared());
        }
        _ => return right,
    };
    match taken {
        (Number::Done, state) => {
            let loaded = State {
                status,
                locked,
                ..state
            };
            (Number::Done, loaded)
        }
        refused => refused,
    }
}
