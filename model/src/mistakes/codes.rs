//! Mistakes about what is received: bits, codes, addresses and data bytes (document 01, "Instructions").

use super::smaller::UNKNOWN_CODE;
use super::Mistaken;
use crate::fault::Fault;
use crate::state::{Cycle, Instruction, State};

/// The instruction that 82h or 83h is with the lock bit or without it.
fn told_apart(instruction: Instruction, has_lock_bit: bool) -> Instruction {
    match (instruction, has_lock_bit) {
        (_, false) => instruction,
        (Instruction::Rdid, true) => Instruction::Rdls,
        (_, true) => Instruction::Lid,
    }
}

impl Mistaken<'_> {
    /// Whether the rise of C that comes now completes a byte, and the byte that the right rules would receive.
    fn byte_to_come(&self) -> Option<u8> {
        let state = &*self.chip.state;
        (state.bits == 7).then_some(state.value << 1 | u8::from(state.data))
    }

    /// Lets the right rules receive another byte; `after_rise` puts D back.
    fn substitute(&mut self, byte: u8) {
        self.chip.state.value = byte >> 1;
        self.chip.state.data = byte & 1 == 1;
    }

    pub(super) fn before_rise(&mut self) {
        let state = &*self.chip.state;
        let first_bit = state.whole_bytes == 0 && state.bits == 0;
        if first_bit && self.fault == Fault::TurnedAwayJudgedAtFirstBit {
            self.cycle_before_code = state.in_cycle();
        }
        let Some(byte) = self.byte_to_come() else {
            return;
        };
        if self.fault == Fault::LeastBitFirst {
            let state = &*self.chip.state;
            self.substitute(state.value | u8::from(state.data) << 7);
        } else if self.chip.state.whole_bytes == 0 {
            self.before_code(byte);
        } else {
            self.before_argument();
        }
    }

    fn before_code(&mut self, code: u8) {
        if let Some(other) = self.misheard(code) {
            self.substitute(other);
        }
        let judged_before = matches!(
            self.fault,
            Fault::TurnedAwayJudgedAtSelectFall | Fault::TurnedAwayJudgedAtFirstBit
        );
        match self.fault {
            Fault::MarksNotCleared
            | Fault::MarksClearedOnlyWithWel
            | Fault::MarksClearedForWriteOnly
            | Fault::SmallerWridLatches => self.marks_before = self.chip.marks.to_vec(),
            // The right rules shall find the cycle that has ended meanwhile.
            _ if judged_before && self.cycle_before_code && !self.chip.state.in_cycle() => {
                self.chip.state.cycle = Cycle::Lock;
            }
            _ => {}
        }
    }

    /// The code that a mistaken device takes this one for, or none where it takes it for what it is.
    fn misheard(&self, code: u8) -> Option<u8> {
        let has_one_address_byte = self.chip.device.has_one_address_byte();
        match (self.fault, code) {
            (Fault::Device1CodeBit3Counts, 0x08..=0x0F)
            | (Fault::Device5And6ShortBit3Counts, 0x09 | 0x0C | 0x0D | 0x0E)
            | (Fault::Device5And6ArrayBit3Counts, 0x0A | 0x0B) => Some(UNKNOWN_CODE),
            (Fault::Device1Address8Ignored, 0x0A | 0x0B)
            | (Fault::Device1IdentificationCodesLoose, 0x8A | 0x8B) => Some(code & !0x08),
            (Fault::CodeBit3IgnoredEverywhere, 0x08..=0x0F) if !has_one_address_byte => {
                Some(code & !0x08)
            }
            _ if self.stays_unknown(code) => Some(UNKNOWN_CODE),
            _ => None,
        }
    }

    fn before_argument(&mut self) {
        let state = &mut *self.chip.state;
        let before_data = self.chip.device.bytes_before_data();
        let writes = matches!(state.instruction, Instruction::Write | Instruction::Wrid);
        let to_latch = writes && !state.turned_away && state.whole_bytes >= before_data;
        let place = state.address & (self.chip.device.page - 1);
        match self.fault {
            Fault::LatchReusedInCycle if state.instruction == Instruction::Write => {
                state.turned_away = false;
            }
            Fault::FirstByteForPlaceCounts if to_latch && self.chip.marks[place] == 1 => {
                self.substitute(self.chip.data[place]);
            }
            Fault::LatchedOnlyWithWel => {
                self.data_before = self.chip.data.to_vec();
                self.marks_before = self.chip.marks.to_vec();
            }
            _ => {}
        }
    }

    pub(super) fn after_rise(&mut self, was: &State) {
        let byte_came = was.bits == 7;
        self.chip.state.data = was.data;
        match self.fault {
            Fault::LeastBitFirst if !byte_came => {
                self.chip.state.value = was.value | u8::from(was.data) << was.bits;
            }
            Fault::OutputMovesAtRise if byte_came => {}
            Fault::OutputMovesAtRise => self.chip.clock_falls(),
            _ => {}
        }
        if byte_came {
            self.after_byte(was);
        }
    }

    fn after_byte(&mut self, was: &State) {
        if was.whole_bytes == 0 {
            self.after_code(was);
        } else {
            self.after_argument(was);
        }
        let state = &mut *self.chip.state;
        match self.fault {
            Fault::NewStatusIsScratch => {
                state.new_status = state.last_byte & self.chip.device.status_bits();
            }
            Fault::WholeBytesStopAtFive => state.whole_bytes = state.whole_bytes.min(5),
            Fault::ByteTakenAtLastRise if self.chip.is_sending() => self.chip.take_byte(),
            Fault::OutputMovesAtRise => self.chip.clock_falls(),
            _ => {}
        }
    }

    fn after_code(&mut self, was: &State) {
        self.held.code = self.chip.state.last_byte;
        self.chip.state.cycle = was.cycle;
        let state = &mut *self.chip.state;
        let instruction = state.instruction;
        let uses_latch = matches!(instruction, Instruction::Write | Instruction::Wrid);
        let marks_kept = match self.fault {
            Fault::MarksNotCleared => true,
            Fault::MarksClearedOnlyWithWel => !state.write_enable_latch,
            Fault::MarksClearedForWriteOnly | Fault::SmallerWridLatches => {
                instruction == Instruction::Wrid
            }
            _ => false,
        };
        if marks_kept {
            self.chip.marks.copy_from_slice(&self.marks_before);
        }
        match self.fault {
            Fault::UnknownCodeSkipped if instruction == Instruction::Unknown => {
                state.whole_bytes = 0;
            }
            Fault::WrenAtEighthRise if instruction == Instruction::Wren && !state.turned_away => {
                state.write_enable_latch = true;
            }
            Fault::LatchDataCleared if uses_latch && !state.turned_away => self.chip.data.fill(0),
            Fault::LatchReusedInCycle if instruction == Instruction::Write => {
                self.chip.marks.fill(0);
            }
            Fault::SmallerWridClearsMarks if instruction == Instruction::Wrid => {
                state.instruction = Instruction::Unknown;
            }
            _ if state.in_cycle() => self.after_code_in_cycle(instruction),
            _ => {}
        }
    }

    /// Mistakes about which codes are taken in a cycle.
    fn after_code_in_cycle(&mut self, instruction: Instruction) {
        let (fault, turned_away) = match instruction {
            Instruction::Rdsr => (Fault::RdsrTurnedAway, true),
            Instruction::Wrdi => (Fault::WrdiTurnedAway, true),
            Instruction::Wren => (Fault::WrenTakenInCycle, false),
            Instruction::Wrsr => (Fault::WrsrTakenInCycle, false),
            Instruction::Read => (Fault::ReadTakenInCycle, false),
            Instruction::Write => (Fault::WriteTakenInCycle, false),
            Instruction::Rdid | Instruction::Rdls => (Fault::RdidTakenInCycle, false),
            Instruction::Wrid | Instruction::Lid => (Fault::WridTakenInCycle, false),
            Instruction::Unknown => (Fault::UnknownTakenInCycle, false),
        };
        if self.fault != fault && !self.is_believed_in_cycle(instruction) {
            return;
        }
        self.chip.state.turned_away = turned_away;
        if matches!(instruction, Instruction::Write | Instruction::Wrid) {
            self.chip.marks.fill(0);
        }
    }

    fn after_argument(&mut self, was: &State) {
        if was.turned_away {
            self.chip.state.turned_away = true;
            return;
        }
        let in_address = was.whole_bytes < self.chip.device.bytes_before_data();
        match was.instruction {
            Instruction::Read | Instruction::Write if in_address => self.after_address_byte(was),
            Instruction::Rdid | Instruction::Wrid if in_address => {
                self.after_address_byte(was);
                if self.chip.is_first_byte() {
                    self.after_identification_address(was);
                }
            }
            Instruction::Write | Instruction::Wrid => self.after_data_byte(was),
            Instruction::Lid if self.fault == Fault::LidByteLatched => {
                self.chip.latch_byte(self.chip.state.last_byte);
            }
            _ => {}
        }
    }

    /// The address with its new byte, as far as bits above the array count too.
    fn wide_address(&self, was: &State) -> usize {
        was.address << 8 | usize::from(self.chip.state.last_byte)
    }

    fn after_address_byte(&mut self, was: &State) {
        let last = self.chip.device.cells - 1;
        let wide = self.wide_address(was);
        match self.fault {
            Fault::AddressAboveArrayCounts if wide > last => {
                self.chip.state.instruction = Instruction::Unknown;
            }
            Fault::AddressMaskOneBitShort => self.chip.state.address &= last >> 1,
            // The byte before the address is the code.
            Fault::Device5And6Address8IsTopBit if was.last_byte & 0x08 != 0 => {
                self.chip.state.address |= last ^ last >> 1;
            }
            _ => {}
        }
        self.address_sent = self.chip.state.address;
    }

    fn after_identification_address(&mut self, was: &State) {
        let device = self.chip.device;
        let address = self.wide_address(was) & (device.cells - 1);
        let other_bits = address & !(device.page - 1) & !device.lock_bit();
        let has_lower_bit = address & device.lock_bit() >> 1 != 0;
        match self.fault {
            Fault::IdentificationHighBitsCount if other_bits != 0 => {
                self.chip.state.instruction = Instruction::Unknown;
            }
            Fault::Device1LockBitIsTen => {
                self.chip.state.instruction = was.instruction;
            }
            Fault::LockBitOneLower => {
                self.chip.state.instruction = told_apart(was.instruction, has_lower_bit);
            }
            _ => {
                let has_lock_bit = self.wide_address(was) & device.lock_bit() != 0;
                self.believe_or_forget(told_apart(was.instruction, has_lock_bit));
            }
        }
    }

    fn after_data_byte(&mut self, was: &State) {
        let in_page = self.chip.device.page - 1;
        let state = &mut *self.chip.state;
        match self.fault {
            Fault::PageRollsIntoNext => {
                state.address = (was.address + 1) & (self.chip.device.cells - 1);
            }
            Fault::Device5And6PageIs32 => {
                state.address = was.address & !31 | (was.address + 1) & 31;
            }
            Fault::PageRollsOneEarly if (was.address + 1) & in_page == in_page => {
                state.address = was.address & !in_page;
            }
            Fault::LatchedOnlyWithWel if !state.write_enable_latch => {
                state.address = was.address;
                self.chip.data.copy_from_slice(&self.data_before);
                self.chip.marks.copy_from_slice(&self.marks_before);
            }
            _ => {}
        }
    }
}
