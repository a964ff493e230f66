//! Mistakes about what is judged at the rise of S (document 01, "Instructions").

use super::Mistaken;
use crate::device::{BP, SRWD};
use crate::fault::Fault;
use crate::state::{Cycle, Instruction, State};

/// Whether an instruction starts a cycle when it is done.
fn writes(instruction: Instruction) -> bool {
    matches!(
        instruction,
        Instruction::Wrsr | Instruction::Write | Instruction::Wrid | Instruction::Lid
    )
}

impl Mistaken<'_> {
    pub(super) fn before_select_rise(&mut self) {
        self.before_held_rise();
        let state = &mut *self.chip.state;
        match self.fault {
            Fault::HoldPinDropsCommand if !state.hold => state.held = true,
            Fault::ProtectSampledAtEnd => state.protect_seen_low = !state.protect,
            _ if self.is_over_before_select_rise() => self.drop_command(),
            _ => {}
        }
        match self.chip.state.instruction {
            Instruction::Wren => self.before_wren(),
            Instruction::Wrdi => self.before_wrdi(),
            Instruction::Wrsr => self.before_wrsr(),
            Instruction::Write => self.before_write(),
            Instruction::Wrid => self.before_wrid(),
            Instruction::Lid => self.before_lid(),
            _ => {}
        }
    }

    /// Drops the command: an unknown one does nothing.
    pub(super) fn drop_command(&mut self) {
        self.chip.state.instruction = Instruction::Unknown;
    }

    fn before_wren(&mut self) {
        let state = &mut *self.chip.state;
        match self.fault {
            Fault::WrenTakesMoreBytes => state.whole_bytes = state.whole_bytes.min(1),
            Fault::WrenTakesMoreBits => state.bits = 0,
            Fault::WrenStoppedByProtect if state.protect_seen_low => self.drop_command(),
            _ => {}
        }
    }

    fn before_wrdi(&mut self) {
        let state = &mut *self.chip.state;
        match self.fault {
            Fault::WrdiTakesMoreBytes => state.whole_bytes = state.whole_bytes.min(1),
            Fault::WrdiTakesMoreBits => state.bits = 0,
            _ => {}
        }
    }

    fn before_wrsr(&mut self) {
        let state = &mut *self.chip.state;
        match self.fault {
            Fault::WrsrWithoutWel => state.write_enable_latch = true,
            Fault::WrsrTakesMoreBytes => state.whole_bytes = state.whole_bytes.min(2),
            Fault::WrsrTakesMoreBits => state.bits = 0,
            Fault::WrsrTakesLess => state.whole_bytes = state.whole_bytes.max(2),
            Fault::WrsrIgnoresProtect => state.protect_seen_low = false,
            Fault::WrsrStoppedWithoutSrwd if state.protect_seen_low => self.drop_command(),
            _ => {}
        }
    }

    fn before_write(&mut self) {
        let protected = self.wrongly_protected();
        let state = &mut *self.chip.state;
        match self.fault {
            Fault::WriteWithoutWel => state.write_enable_latch = true,
            Fault::WriteWithoutData => self.count_missing_data(),
            Fault::WriteTakesMoreBits => state.bits = 0,
            Fault::WriteIgnoresProtection => state.status &= !BP,
            Fault::WriteIgnoresProtectOnDevice1 => state.protect_seen_low = false,
            Fault::WriteStoppedByProtect if state.protect_seen_low => self.drop_command(),
            _ => match protected {
                Some(true) => self.drop_command(),
                Some(false) => state.status &= !BP,
                None => {}
            },
        }
    }

    /// Whether a mistaken protection covers the page, or none where the entries are asked; `sheet` makes these wrong.
    fn wrongly_protected(&self) -> Option<bool> {
        let device = self.chip.device;
        let (status, address) = (self.chip.state.status, self.chip.state.address);
        let first = device.first_protected(status);
        let partly = first != 0 && first != device.cells;
        match self.fault {
            Fault::ProtectionFromBottom if partly => Some(address < device.cells - first),
            Fault::ProtectionLostWithSrwd if status & SRWD != 0 => Some(false),
            Fault::ProtectionFirstAddressOpen if self.address_sent == first => Some(false),
            _ => None,
        }
    }

    fn count_missing_data(&mut self) {
        if self.chip.state.whole_bytes == self.chip.device.bytes_before_data() {
            self.chip.state.whole_bytes += 1;
        }
    }

    fn before_wrid(&mut self) {
        let device = self.chip.device;
        let state = &mut *self.chip.state;
        let uppermost_protected = device.is_protected(state.status, device.cells - 1);
        match self.fault {
            Fault::WridWithoutWel => state.write_enable_latch = true,
            Fault::WridWithoutData => self.count_missing_data(),
            Fault::WridTakesMoreBits => state.bits = 0,
            Fault::WridIgnoresLock => state.locked = false,
            Fault::WridIgnoresProtection => state.status &= !BP,
            Fault::WridProtectedByAddress if uppermost_protected => self.drop_command(),
            Fault::WridIgnoresProtectOnDevice1 => state.protect_seen_low = false,
            _ => {}
        }
    }

    fn before_lid(&mut self) {
        let one_data_byte = self.chip.device.bytes_before_data() + 1;
        let state = &mut *self.chip.state;
        match self.fault {
            Fault::LidWithoutWel => state.write_enable_latch = true,
            Fault::LidWithoutData => self.count_missing_data(),
            Fault::LidTakesMoreBytes => state.whole_bytes = state.whole_bytes.min(one_data_byte),
            Fault::LidTakesMoreBits => state.bits = 0,
            Fault::LidIgnoresBit1 => state.last_byte |= 0x02,
            Fault::LidAsksBit0 => state.last_byte <<= 1,
            Fault::LidIgnoresLock => state.locked = false,
            Fault::LidIgnoresProtection => state.status &= !BP,
            Fault::LidIgnoresProtectOnDevice1 => state.protect_seen_low = false,
            _ => {}
        }
    }

    /// Puts back what was changed for the judgement alone, then adds the mistakes about what it starts.
    pub(super) fn after_select_rise(&mut self, was: &State) {
        let state = &mut *self.chip.state;
        let started = state.in_cycle() && (!was.in_cycle() || state.time_left > was.time_left);
        state.status = was.status;
        state.locked = was.locked;
        let wel_lent = matches!(
            self.fault,
            Fault::WrsrWithoutWel
                | Fault::WriteWithoutWel
                | Fault::WridWithoutWel
                | Fault::LidWithoutWel
        );
        if wel_lent && writes(was.instruction) {
            state.write_enable_latch = was.write_enable_latch;
        }
        if started {
            self.held.started = was.held;
            self.after_status_judged();
            self.after_cycle_started();
        } else if !was.held && !was.turned_away {
            self.after_nothing_started(was);
        }
        if was.held {
            self.after_held_rise(was, started);
        }
        self.keep_received(was);
    }

    fn after_status_judged(&mut self) {
        let state = &mut *self.chip.state;
        let stored = match self.fault {
            Fault::WrsrStoresOtherBits => self.chip.device.status_bits() | 0x70,
            Fault::WrsrStoresSrwdOnDevice1 => SRWD | BP,
            Fault::Device7SrwdMissing => BP,
            _ => return,
        };
        if state.cycle == Cycle::Status {
            state.new_status = state.last_byte & stored;
        }
    }

    fn after_nothing_started(&mut self, was: &State) {
        let wrdi_done =
            was.instruction == Instruction::Wrdi && was.whole_bytes == 1 && was.bits == 0;
        let state = &mut *self.chip.state;
        match self.fault {
            Fault::WrdiStopsCycle if wrdi_done => {
                state.cycle = Cycle::None;
                state.time_left = 0;
            }
            Fault::DroppedWriteClearsWel if writes(was.instruction) => {
                state.write_enable_latch = false;
            }
            Fault::DroppedWriteStartsCycle
                if was.instruction == Instruction::Write && state.write_enable_latch =>
            {
                self.chip.marks.fill(0);
                self.chip.start_cycle(Cycle::Array);
            }
            _ => {}
        }
    }
}
