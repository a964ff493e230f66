//! Mistakes about what is sent (document 01, "Instructions").

use super::Mistaken;
use crate::fault::Fault;
use crate::state::{status_byte, Instruction, Output, State};

impl Mistaken<'_> {
    pub(super) fn before_fall(&mut self) {
        if self.fault == Fault::OutputMovesAtRise {
            // The right rules shall send nothing at this fall.
            self.chip.state.turned_away = true;
        }
        if !self.chip.is_sending() {
            return;
        }
        let last = self.chip.device.cells - 1;
        let in_page = self.chip.device.page - 1;
        let goes_on = self.chip.state.bits == 0 && !self.chip.is_first_byte();
        let state = &mut *self.chip.state;
        let reads_on = goes_on && state.instruction == Instruction::Read;
        match self.fault {
            // The address that the right rules go on from to the one that is wanted.
            Fault::ReadRollsInPage if reads_on && state.address & in_page == in_page => {
                state.address = state.address.wrapping_sub(in_page + 1) & last;
            }
            Fault::ReadTurnsOneEarly if reads_on && state.address + 1 == last => {
                state.address = last;
            }
            Fault::RdsrTakenEachBit if state.instruction == Instruction::Rdsr => {
                state.sent_byte = status_byte(state);
            }
            _ => {}
        }
    }

    pub(super) fn after_fall(&mut self, was: &State) {
        if self.fault == Fault::OutputMovesAtRise {
            self.chip.state.turned_away = was.turned_away;
            return;
        }
        if !self.chip.is_sending() {
            return;
        }
        if was.bits == 0 {
            self.after_byte_taken(was);
        }
        let first = self.chip.is_first_byte();
        let page = self.chip.device.identification;
        let state = &mut *self.chip.state;
        let silent = match (self.fault, state.instruction) {
            (Fault::ReadStopsAtLastCell, Instruction::Read) => state.address == 0 && !first,
            (Fault::RdidEndsOneEarly, Instruction::Rdid) => state.address + 1 >= page,
            (Fault::RdsrSentOnce, Instruction::Rdsr) => state.whole_bytes > 1,
            _ => false,
        };
        if silent {
            state.output = Output::Z;
        }
    }

    fn after_byte_taken(&mut self, was: &State) {
        let first = self.chip.is_first_byte();
        let page = self.chip.device.identification;
        let state = &mut *self.chip.state;
        match (self.fault, state.instruction) {
            (Fault::ByteTakenAtLastRise, _) => {
                state.address = was.address;
                state.sent_byte = was.sent_byte;
            }
            (Fault::RdidTurnsRound, Instruction::Rdid) if state.address == page => {
                state.address = 0;
                state.sent_byte = self.chip.identification[0];
            }
            (Fault::RdlsSentOnce, Instruction::Rdls) if !first => state.sent_byte = 0,
            (Fault::RdlsInverted, Instruction::Rdls) => state.sent_byte ^= 0x01,
            (Fault::RdsrTakenOnce, Instruction::Rdsr) if state.whole_bytes > 1 => {
                state.sent_byte = was.sent_byte;
            }
            (Fault::RdsrWithoutWip, Instruction::Rdsr) => state.sent_byte &= !0x01,
            (Fault::RdsrWithoutWel, Instruction::Rdsr) => state.sent_byte &= !0x02,
            (Fault::Device1UpperBitsOne, Instruction::Rdsr) => state.sent_byte |= 0xF0,
            _ => return,
        }
        self.chip.show_bit();
    }
}
