//! Mistakes about a command that S's rise finds held (document 02, W-206). Where not said otherwise they are those of
//! the devices that let a write start there.

use super::Mistaken;
use crate::device::Device;
use crate::fault::Fault;
use crate::state::{Cycle, Instruction, State};
use crate::trace::Event;

/// The code of WRID and LID, which device 7 does not know.
const WRITING_CODE: u8 = 0x82;

/// What these mistakes remember from one event to the next.
pub(super) struct Memory {
    /// The code of the selection.
    pub code: u8,
    /// Whether C rose since hold began.
    clocked: bool,
    /// Whether the running cycle was started by deselecting in hold.
    pub started: bool,
    /// The cycle that waits for HOLD to be high.
    waiting: Cycle,
    /// Whether hold has not ended with the selection.
    stays_held: bool,
    /// Whether HOLD has to be high once before it can hold again.
    ignores_hold: bool,
}

impl Memory {
    pub fn new() -> Memory {
        Memory {
            code: 0,
            clocked: false,
            started: false,
            waiting: Cycle::None,
            stays_held: false,
            ignores_hold: false,
        }
    }
}

/// The row of this device with the mistake in its column, or none where the mistake is of another kind. Where the name
/// speaks of a device the others have theirs.
pub(super) fn wrong_row(fault: Fault, device: &Device) -> Option<Device> {
    let (number, wrong) = match fault {
        Fault::HeldCommandDropped => (device.number, false),
        Fault::Device2HeldWritesDropped => (2, false),
        Fault::Device7HeldWriteDropped => (7, false),
        Fault::Device1HeldWritesJudged => (1, true),
        Fault::Device3HeldWritesJudged => (3, true),
        Fault::Device4HeldWritesJudged => (4, true),
        Fault::Device5HeldWriteJudged => (5, true),
        Fault::Device6HeldWriteJudged => (6, true),
        _ => return None,
    };
    let is_here = device.number == number;
    Some(Device {
        writes_in_hold: if is_here {
            wrong
        } else {
            device.writes_in_hold
        },
        ..device.clone()
    })
}

/// The mistake about any write that a mistake about a held one is made by, or none where there is no such one.
fn as_of_any_write(fault: Fault) -> Option<Fault> {
    let made = match fault {
        Fault::HeldWriteWithoutWel => Fault::WriteWithoutWel,
        Fault::HeldWriteWithoutData => Fault::WriteWithoutData,
        Fault::HeldWriteTakesMoreBits => Fault::WriteTakesMoreBits,
        Fault::HeldWriteIgnoresProtection => Fault::WriteIgnoresProtection,
        Fault::HeldWriteStoppedByProtect => Fault::WriteStoppedByProtect,
        Fault::HeldWridWithoutWel => Fault::WridWithoutWel,
        Fault::HeldWridWithoutData => Fault::WridWithoutData,
        Fault::HeldWridTakesMoreBits => Fault::WridTakesMoreBits,
        Fault::HeldWridIgnoresLock => Fault::WridIgnoresLock,
        Fault::HeldWridIgnoresProtection => Fault::WridIgnoresProtection,
        Fault::HeldLidWithoutWel => Fault::LidWithoutWel,
        Fault::HeldLidWithoutData => Fault::LidWithoutData,
        Fault::HeldLidTakesMoreBytes => Fault::LidTakesMoreBytes,
        Fault::HeldLidTakesMoreBits => Fault::LidTakesMoreBits,
        Fault::HeldLidIgnoresBit1 => Fault::LidIgnoresBit1,
        Fault::HeldLidIgnoresLock => Fault::LidIgnoresLock,
        Fault::HeldLidIgnoresProtection => Fault::LidIgnoresProtection,
        Fault::HeldWriteTimeOneShort => Fault::WriteTimeOneShort,
        _ => return None,
    };
    Some(made)
}

// Before the rise of S.
impl Mistaken<'_> {
    /// Whether hold has a command that the right rules would judge at a rise of S.
    fn is_held_write(&self) -> bool {
        self.chip.state.held && self.chip.outlasts_hold()
    }

    /// The mistake to make at a rise of S.
    pub(super) fn made_at_select_rise(&self) -> Fault {
        match as_of_any_write(self.fault) {
            Some(made) if self.is_held_write() => made,
            Some(_) => Fault::None,
            None => self.fault,
        }
    }

    /// Mistakes about which held commands are judged, and about what they may lack.
    pub(super) fn before_held_rise(&mut self) {
        if self.judges_held() {
            self.chip.state.held = false;
        } else if self.drops_held_write() {
            self.drop_command();
        }
        let before_data = self.chip.device.bytes_before_data();
        let is_held_write = self.is_held_write();
        let state = &mut *self.chip.state;
        let only_byte_cut = state.whole_bytes == before_data && state.bits > 0;
        match self.fault {
            Fault::HeldTurnedAwayJudged if is_held_write => state.turned_away = false,
            Fault::HeldCutByteCounts if is_held_write && only_byte_cut => {
                state.whole_bytes += 1;
                state.bits = 0;
            }
            _ => {}
        }
    }

    /// Whether a held command is judged that the right rules drop. The first two are mistakes of all devices.
    fn judges_held(&self) -> bool {
        let state = &*self.chip.state;
        let is_here =
            |instruction| self.chip.device.writes_in_hold && state.instruction == instruction;
        match self.fault {
            Fault::HeldCommandJudged => true,
            Fault::HeldWithHoldHighJudged => state.hold,
            Fault::HeldWrenJudged => is_here(Instruction::Wren),
            Fault::HeldWrdiJudged => is_here(Instruction::Wrdi),
            Fault::HeldWrsrJudged => is_here(Instruction::Wrsr),
            _ => false,
        }
    }

    /// Whether a write is dropped that the right rules judge, held or not.
    fn drops_held_write(&self) -> bool {
        let state = &*self.chip.state;
        if self.fault == Fault::HoldPinDropsWrite {
            return self.chip.outlasts_hold() && !state.held && !state.hold;
        }
        let one_data_byte = self.chip.device.bytes_before_data() + 1;
        let drops = match self.fault {
            Fault::HeldWriteDropped => state.instruction == Instruction::Write,
            Fault::HeldWridDropped => state.instruction == Instruction::Wrid,
            Fault::HeldLidDropped => state.instruction == Instruction::Lid,
            Fault::HeldWriteNeedsHoldLow => state.hold,
            Fault::HeldWriteNeedsClockLow => state.clock,
            Fault::HeldClockSpoilsWrite => self.held.clocked,
            Fault::HeldWriteTakesOneByte => state.whole_bytes > one_data_byte,
            _ => false,
        };
        drops && self.is_held_write()
    }
}

// After the rise of S, and later.
impl Mistaken<'_> {
    /// Mistakes about what deselecting in hold leaves, and about the cycle that it started.
    pub(super) fn after_held_rise(&mut self, was: &State, started: bool) {
        let state = &mut *self.chip.state;
        match self.fault {
            Fault::HeldDeselectClearsWel => state.write_enable_latch = false,
            Fault::HeldDeselectEndsCycle if was.in_cycle() => {
                state.cycle = Cycle::None;
                state.time_left = 0;
            }
            Fault::Device7HeldWridStartsCycle if self.would_be_wrid(was) => {
                self.chip.start_cycle(Cycle::Identification);
            }
            _ if started => self.after_held_write_started(),
            _ => {}
        }
    }

    /// Whether the bytes of the selection would make a WRID or LID, on a device that has neither.
    fn would_be_wrid(&self, was: &State) -> bool {
        let is_whole = was.whole_bytes > self.chip.device.bytes_before_data() && was.bits == 0;
        let is_taken = was.write_enable_latch && !was.turned_away;
        self.held.code == WRITING_CODE && is_whole && is_taken
    }

    fn after_held_write_started(&mut self) {
        let state = &mut *self.chip.state;
        match self.fault {
            Fault::HeldWriteWritesNothing => self.chip.marks.fill(0),
            Fault::HeldWriteToFirstPage => state.page_start = 0,
            Fault::HeldWriteDoneAtOnce => {
                self.chip.make_change();
                self.chip.state.cycle = Cycle::None;
                self.chip.state.time_left = 0;
                self.chip.state.write_enable_latch = false;
            }
            Fault::HeldWriteStartsAtRelease if !state.hold => {
                self.held.waiting = state.cycle;
                state.cycle = Cycle::None;
                state.time_left = 0;
            }
            Fault::HeldWriteStaysHeld => self.held.stays_held = true,
            Fault::HeldWriteFreesNext => self.held.ignores_hold = true,
            _ => {}
        }
    }

    /// After any event: what is remembered, and what it does; `was` is the state before all of it. With HOLD low
    /// nothing can be received, so that nothing comes between a waiting cycle and its latch but power.
    pub(super) fn after_any_in_hold(&mut self, event: Event, was: &State) {
        let memory = &mut self.held;
        let state = &mut *self.chip.state;
        let rises = event == Event::Clock(true) && !was.clock;
        let releases = event == Event::Hold(true) && !was.hold;
        memory.clocked = state.held && (memory.clocked || was.held && rises);
        if event == Event::Power {
            memory.waiting = Cycle::None;
        } else if memory.waiting != Cycle::None && state.hold {
            state.cycle = memory.waiting;
            state.time_left = self.chip.device.write_time;
            memory.waiting = Cycle::None;
        }
        memory.stays_held &= !(releases && was.selected);
        memory.ignores_hold &= !state.hold;
        if state.selected && memory.stays_held {
            state.held = true;
        } else if state.selected && memory.ignores_hold {
            state.held = false;
        }
    }
}
