//! What a device remembers between two events (document 01, "The device's state"), and when such a memory can be
//! true of a device at all.

use crate::device::Device;

/// Whole bytes are counted up to here and no further; every rule that counts bytes needs less.
pub const MOST_WHOLE_BYTES: u8 = 6;

/// What a code asks for. `Unknown` serves both for "no code yet" and for a code that is not in the list, since
/// neither does anything.
#[derive(Clone, Copy, Debug, PartialEq, Eq)]
pub enum Instruction {
    Unknown,
    Wren,
    Wrdi,
    Rdsr,
    Wrsr,
    Read,
    Write,
    Rdid,
    Rdls,
    Wrid,
    Lid,
}

impl Instruction {
    /// Whether it is one of the four that need an identification page.
    pub fn is_of_identification(self) -> bool {
        matches!(
            self,
            Instruction::Rdid | Instruction::Rdls | Instruction::Wrid | Instruction::Lid
        )
    }
}

/// The cycle that is running.
#[derive(Clone, Copy, Debug, PartialEq, Eq)]
pub enum Cycle {
    None,
    Array,
    Identification,
    Status,
    Lock,
}

/// The level of Q; `as u8` is the answer byte of a trace.
#[derive(Clone, Copy, Debug, PartialEq, Eq)]
#[repr(u8)]
pub enum Output {
    Zero = 0,
    One = 1,
    Z = 2,
}

impl From<bool> for Output {
    fn from(high: bool) -> Self {
        if high {
            Output::One
        } else {
            Output::Zero
        }
    }
}

/// The device's memory, apart from the lent bytes. A level is true when high.
#[derive(Clone, Debug, PartialEq, Eq)]
pub struct State {
    pub clock: bool,
    pub data: bool,
    pub select: bool,
    pub hold: bool,
    pub protect: bool,
    pub selected: bool,
    pub held: bool,
    pub protect_seen_low: bool,
    /// Bits received of the current byte, and their value.
    pub bits: u8,
    pub value: u8,
    pub whole_bytes: u8,
    /// The last whole byte: the data byte of WRSR and of LID.
    pub last_byte: u8,
    pub instruction: Instruction,
    pub turned_away: bool,
    /// Names the byte being sent, or the place of the next data byte.
    pub address: usize,
    pub sent_byte: u8,
    /// Q as kept; the outside sees Z while held.
    pub output: Output,
    pub status: u8,
    pub locked: bool,
    pub write_enable_latch: bool,
    pub cycle: Cycle,
    pub time_left: u32,
    pub page_start: usize,
    pub new_status: u8,
}

impl State {
    /// The state of a prepared device, the same on all of them ("The device's state", Preparing).
    pub fn prepared() -> State {
        State {
            clock: false,
            data: false,
            select: true,
            hold: true,
            protect: true,
            selected: false,
            held: false,
            protect_seen_low: false,
            bits: 0,
            value: 0,
            whole_bytes: 0,
            last_byte: 0,
            instruction: Instruction::Unknown,
            turned_away: false,
            address: 0,
            sent_byte: 0,
            output: Output::Z,
            status: 0,
            locked: false,
            write_enable_latch: false,
            cycle: Cycle::None,
            time_left: 0,
            page_start: 0,
            new_status: 0,
        }
    }

    /// Whether a cycle is running; RDSR calls it WIP.
    pub fn in_cycle(&self) -> bool {
        self.cycle != Cycle::None
    }

    /// The level of Q as the outside sees it.
    pub fn answer(&self) -> Output {
        if self.held {
            Output::Z
        } else {
            self.output
        }
    }
}

/// The byte that RDSR would send now. The stored bits already sit where RDSR shows them.
pub fn status_byte(state: &State) -> u8 {
    state.status | u8::from(state.write_enable_latch) << 1 | u8::from(state.in_cycle())
}

/// Whether this state and these marks can be a device's: the list of "A state is sound exactly if", in its order, then
/// what W-202 adds to it, then the marks, whose values number 5 covers too.
pub fn is_sound(device: &Device, state: &State, marks: &[u8]) -> bool {
    received_is_sound(device, state)
        && stored_is_sound(device, state)
        && cycle_is_sound(device, state)
        && selection_is_sound(state)
        && identification_is_sound(device, state)
        && marks.iter().all(|&mark| mark <= 1)
}

fn received_is_sound(device: &Device, state: &State) -> bool {
    state.bits <= 7
        && u32::from(state.value) < 1 << state.bits
        && state.whole_bytes <= MOST_WHOLE_BYTES
        && state.address < device.cells
}

fn stored_is_sound(device: &Device, state: &State) -> bool {
    device.has_bits(state.status | state.new_status)
}

fn cycle_is_sound(device: &Device, state: &State) -> bool {
    let time_is_sound = if state.in_cycle() {
        (1..=device.write_time).contains(&state.time_left)
    } else {
        state.time_left == 0
    };
    time_is_sound
        && state.page_start.is_multiple_of(device.page)
        && state.page_start < device.cells
        && (state.cycle != Cycle::Identification || state.page_start == 0)
}

/// The last line of the list, on held and Q, asks nothing of a state: the bit is kept, and `answer` shows the Z.
fn selection_is_sound(state: &State) -> bool {
    let nothing_received = state.bits == 0 && state.whole_bytes == 0;
    let idle_is_sound =
        state.selected || !state.held && nothing_received && state.output == Output::Z;
    let taken_in_cycle = matches!(state.instruction, Instruction::Rdsr | Instruction::Wrdi);
    let received_in_cycle = state.in_cycle() && state.whole_bytes > 0;
    idle_is_sound
        && (!state.selected || !state.select)
        && (!state.selected || state.protect || state.protect_seen_low)
        && (!received_in_cycle || taken_in_cycle || state.turned_away)
        && (!state.selected || state.clock || state.held != state.hold)
}

/// Without an identification page there is nothing to lock, to write to or to ask for. The instruction counts here in a
/// deselected state too, where nothing else looks at it: it can only be left over from another device.
fn identification_is_sound(device: &Device, state: &State) -> bool {
    let of_cycle = matches!(state.cycle, Cycle::Identification | Cycle::Lock);
    let of_instruction = state.instruction.is_of_identification();
    device.has_identification() || !(state.locked || of_cycle || of_instruction)
}
