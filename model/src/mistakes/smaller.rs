//! Mistakes of some devices alone, and those about an identification page that a device has not (document 02, W-202).

use super::Mistaken;
use crate::device::Device;
use crate::fault::Fault;
use crate::state::Instruction;

/// A code that no device knows.
pub(super) const UNKNOWN_CODE: u8 = 0x00;
const READING_CODE: u8 = 0x83;
const WRITING_CODE: u8 = 0x82;

/// The mistake to make on this device: those that name devices are made on these and are none elsewhere. What several
/// of them do alike on different devices is one mistake, that of the first of them.
pub(super) fn limited(fault: Fault, device: &Device) -> Fault {
    let (made, devices): (Fault, &[u8]) = match fault {
        Fault::Device1CodeBit3Counts
        | Fault::Device1Address8Ignored
        | Fault::Device1IdentificationCodesLoose
        | Fault::Device1LockBitIsTen
        | Fault::Device1UpperBitsOne
        | Fault::WrenStoppedByProtect
        | Fault::ProtectClearsWel
        | Fault::WrsrStoresSrwdOnDevice1
        | Fault::WriteIgnoresProtectOnDevice1
        | Fault::WridIgnoresProtectOnDevice1
        | Fault::LidIgnoresProtectOnDevice1 => (fault, &[1]),
        Fault::WrsrIgnoresProtectOnDevice1 => (Fault::WrsrIgnoresProtect, &[1]),
        Fault::WrsrIgnoresProtect => (fault, &[2, 3, 4, 7]),
        Fault::Device3WriteTimeAsOthers => (fault, &[3]),
        Fault::Device3And4RowsExchanged => (fault, &[3, 4]),

        Fault::Device5AddressBit7Counts => (Fault::AddressAboveArrayCounts, &[5]),
        Fault::Device6AddressBit7Ignored => (Fault::AddressMaskOneBitShort, &[6]),
        Fault::Device6ReadStopsAtLastCell => (Fault::ReadStopsAtLastCell, &[6]),

        Fault::Device5And6PageIs32
        | Fault::Device5And6ProtectionAsDevice1
        | Fault::Device5And6RowsExchanged
        | Fault::Device5And6ShortBit3Counts
        | Fault::Device5And6ArrayBit3Counts
        | Fault::Device5And6Address8IsTopBit => (fault, &[5, 6]),
        Fault::Device5And6RdidSends => (Fault::Device7RdidSends, &[5, 6]),
        Fault::Device5And6RdlsSends => (Fault::Device7RdlsSends, &[5, 6]),
        Fault::Device5And6WrsrIgnoresProtect => (Fault::WrsrIgnoresProtect, &[5, 6]),
        Fault::Device5And6WriteIgnoresProtect => (Fault::WriteIgnoresProtectOnDevice1, &[5, 6]),
        Fault::Device5And6WrenStopped => (Fault::WrenStoppedByProtect, &[5, 6]),
        Fault::Device5And6ProtectClearsWel => (Fault::ProtectClearsWel, &[5, 6]),
        Fault::Device5And6StoreSrwd => (Fault::WrsrStoresSrwdOnDevice1, &[5, 6]),
        Fault::Device5And6UpperBitsOne => (Fault::Device1UpperBitsOne, &[5, 6]),

        Fault::Device7RdidSends
        | Fault::Device7RdlsSends
        | Fault::Device7SrwdMissing
        | Fault::Device7HeldWridStartsCycle => (fault, &[7]),
        Fault::Device7CodeBit3Ignored => (Fault::CodeBit3IgnoredEverywhere, &[7]),
        Fault::Device7WrsrIgnoresProtect => (Fault::WrsrIgnoresProtect, &[7]),
        Fault::Device7WrsrStoppedWithoutSrwd => (Fault::WrsrStoppedWithoutSrwd, &[7]),
        Fault::Device7WriteStoppedByProtect => (Fault::WriteStoppedByProtect, &[7]),

        Fault::SmallerWriteTimeIs4000
        | Fault::SmallerRdidTakenInCycle
        | Fault::SmallerWridStartsCycle
        | Fault::SmallerWridDoneAtOnce
        | Fault::SmallerWridClearsMarks
        | Fault::SmallerWridLatches
        | Fault::SmallerWridTakenInCycle
        | Fault::SmallerLidLocks => (fault, &[5, 6, 7]),
        _ => return fault,
    };
    if devices.contains(&device.number) {
        made
    } else {
        Fault::None
    }
}

/// The one instruction on an identification page that a device without one does all the same.
#[derive(Clone, Copy)]
pub(super) struct Believed {
    instruction: Instruction,
    /// Whether it is taken in a cycle and only there, or else only outside.
    in_cycle: bool,
    /// Whether it is judged at the rise of S, and not over then.
    is_judged: bool,
}

impl Believed {
    pub fn of(fault: Fault) -> Option<Believed> {
        let (instruction, in_cycle, is_judged) = match fault {
            Fault::Device7RdidSends => (Instruction::Rdid, false, false),
            Fault::Device7RdlsSends => (Instruction::Rdls, false, false),
            Fault::SmallerRdidTakenInCycle => (Instruction::Rdid, true, false),
            Fault::SmallerWridStartsCycle | Fault::SmallerWridDoneAtOnce => {
                (Instruction::Wrid, false, true)
            }
            Fault::SmallerWridClearsMarks | Fault::SmallerWridLatches => {
                (Instruction::Wrid, false, false)
            }
            Fault::SmallerWridTakenInCycle => (Instruction::Wrid, true, false),
            Fault::SmallerLidLocks => (Instruction::Lid, false, true),
            _ => return None,
        };
        Some(Believed {
            instruction,
            in_cycle,
            is_judged,
        })
    }

    fn code(self) -> u8 {
        match self.instruction {
            Instruction::Rdid | Instruction::Rdls => READING_CODE,
            _ => WRITING_CODE,
        }
    }
}

impl Mistaken<'_> {
    /// Whether this is a code of the page that is unknown even to a device that believes in one.
    pub(super) fn stays_unknown(&self, code: u8) -> bool {
        let in_cycle = self.chip.state.in_cycle();
        self.believed.is_some_and(|believed| {
            let is_taken = code == believed.code() && in_cycle == believed.in_cycle;
            matches!(code, READING_CODE | WRITING_CODE) && !is_taken
        })
    }

    /// Whether the instruction is believed in and not turned away in a cycle.
    pub(super) fn is_believed_in_cycle(&self, instruction: Instruction) -> bool {
        self.believed
            .is_some_and(|believed| believed.in_cycle && believed.instruction == instruction)
    }

    /// The lock bit, which may lie above the array of so small a device, has told the two instructions of a code apart;
    /// one that is not believed in is unknown again.
    pub(super) fn believe_or_forget(&mut self, instruction: Instruction) {
        if let Some(believed) = self.believed {
            self.chip.state.instruction = if believed.instruction == instruction {
                instruction
            } else {
                Instruction::Unknown
            };
        }
    }

    /// Whether all that the command is believed to do is done before S rises.
    pub(super) fn is_over_before_select_rise(&self) -> bool {
        let is_of_page = self.chip.state.instruction.is_of_identification();
        is_of_page && self.believed.is_some_and(|believed| !believed.is_judged)
    }
}
