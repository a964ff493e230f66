//! The rules: what each event does to a device (document 01, "Events" and "Instructions"; document 02, W-204 and
//! W-206).

use crate::count::page_count;
use crate::device::{Device, BP, SRWD};
use crate::number::Number;
use crate::state::{status_byte, Cycle, Instruction, Output, State, MOST_WHOLE_BYTES};
use crate::trace::Event;

/// A device with everything that was lent to it; the lengths and the state have been judged before.
pub(crate) struct Chip<'a> {
    pub device: &'a Device,
    pub state: &'a mut State,
    pub cells: &'a mut [u8],
    pub identification: &'a mut [u8],
    /// The write latch: a page of data and a page of marks.
    pub data: &'a mut [u8],
    pub marks: &'a mut [u8],
    /// How full each page of cells is.
    pub counts: &'a mut [u16],
}

// Events.
impl Chip<'_> {
    /// What refuses `event`, by what is there before it, so that nothing has to be taken back: 11 for power during a
    /// cycle, of whatever kind, since nobody could say what a cycle cut short leaves; 15 for the wait that would end an
    /// array cycle on a page whose count is wrong.
    #[inline(always)]
    pub fn refusal(&self, event: Event) -> Option<Number> {
        match event {
            Event::Power if self.state.in_cycle() => Some(Number::Power),
            Event::Wait(microseconds) if self.ends_miscounted(microseconds) => {
                Some(Number::Miscounted)
            }
            _ => None,
        }
    }

    /// Whether a wait ends an array cycle whose page has a wrong count. No other event looks at a count. Most records
    /// are no waits, so it stands outside their loop.
    #[inline(never)]
    fn ends_miscounted(&self, microseconds: u32) -> bool {
        let state = &*self.state;
        let ends = state.cycle == Cycle::Array && microseconds >= state.time_left;
        ends && !self.is_counted()
    }

    /// Whether the count of the running cycle's page is the number of its cells other than FFh.
    fn is_counted(&self) -> bool {
        let (start, page) = (self.state.page_start, self.device.page);
        self.counts[start / page] == page_count(&self.cells[start..start + page])
    }

    /// Does one event and gives the answer, or the number that refuses it.
    #[inline(always)]
    pub fn try_event(&mut self, event: Event) -> Result<Output, Number> {
        match self.refusal(event) {
            Some(number) => Err(number),
            None => Ok(self.event(event)),
        }
    }

    /// Does one event that is not refused and gives the answer.
    #[inline(always)]
    pub fn event(&mut self, event: Event) -> Output {
        match event {
            Event::Clock(level) => self.set_clock(level),
            Event::Data(level) => self.state.data = level,
            Event::Select(level) => self.set_select(level),
            Event::Hold(level) => self.state.hold = level,
            Event::Protect(level) => self.set_protect(level),
            Event::Wait(microseconds) => self.wait(microseconds),
            Event::Power => self.power(),
        }
        self.follow_hold();
        self.state.answer()
    }

    /// Held is still what it was before this edge: the fall that starts hold is decoded, the one that ends it is not
    /// ("Events", Hold).
    #[inline(always)]
    fn set_clock(&mut self, level: bool) {
        let edge = level != self.state.clock;
        self.state.clock = level;
        if edge && self.state.selected && !self.state.held {
            if level {
                self.clock_rises();
            } else {
                self.clock_falls();
            }
        }
    }

    #[inline(always)]
    fn set_select(&mut self, level: bool) {
        let edge = level != self.state.select;
        self.state.select = level;
        if edge && !level {
            self.select_falls();
        } else if edge && self.state.selected {
            self.select_rises();
        }
    }

    /// Makes the selection anew: nothing that an earlier one left may reach into it.
    pub fn select_falls(&mut self) {
        self.clear_received();
        let state = &mut *self.state;
        state.selected = true;
        state.held = false;
        state.protect_seen_low = !state.protect;
        state.instruction = Instruction::Unknown;
        state.turned_away = false;
        state.output = Output::Z;
    }

    /// A paused command is dropped, by the stored flag and not by the level of HOLD ("Events", Deselected while
    /// held), unless it is one that hold cannot stop any more. That one is judged as out of hold: there is no second
    /// judgement that could ask for more or less.
    pub fn select_rises(&mut self) {
        if !self.state.held || self.outlasts_hold() {
            self.judge();
        }
        self.deselect();
    }

    /// Whether this is a write to the array, the identification page or the lock, on a device that does not drop these
    /// in hold. WRSR is none of them (document 02, W-206).
    pub fn outlasts_hold(&self) -> bool {
        let writes = matches!(
            self.state.instruction,
            Instruction::Write | Instruction::Wrid | Instruction::Lid
        );
        writes && self.device.writes_in_hold
    }

    pub fn deselect(&mut self) {
        self.clear_received();
        self.state.selected = false;
        self.state.held = false;
        self.state.output = Output::Z;
    }

    fn clear_received(&mut self) {
        self.state.bits = 0;
        self.state.value = 0;
        self.state.whole_bytes = 0;
    }

    /// W low at any moment of a selection counts, in hold too, so it is noted here and not looked up at the end.
    #[inline(always)]
    fn set_protect(&mut self, level: bool) {
        self.state.protect = level;
        if self.state.selected && !level {
            self.state.protect_seen_low = true;
        }
    }

    /// Held follows HOLD while C is low and stays as it is while C is high ("Events", Hold).
    #[inline(always)]
    pub fn follow_hold(&mut self) {
        if self.state.selected && !self.state.clock {
            self.state.held = !self.state.hold;
        }
    }

    /// Time passes in hold and in any selection; without a cycle there is nothing to pass.
    fn wait(&mut self, microseconds: u32) {
        if !self.state.in_cycle() {
            return;
        }
        self.state.time_left = self.state.time_left.saturating_sub(microseconds);
        if self.state.time_left == 0 {
            self.make_change();
            self.state.cycle = Cycle::None;
            self.state.write_enable_latch = false;
        }
    }

    /// What a cycle is for. It comes at the cycle's end; until then nothing has changed ("Events", Wait).
    pub fn make_change(&mut self) {
        let start = self.state.page_start;
        match self.state.cycle {
            Cycle::None => {}
            Cycle::Array => {
                let page = &mut self.cells[start..start + self.device.page];
                write_page(page, self.data, self.marks);
                self.counts[start / self.device.page] = page_count(page);
            }
            Cycle::Identification => write_page(self.identification, self.data, self.marks),
            Cycle::Status => self.state.status = self.state.new_status,
            Cycle::Lock => self.state.locked = true,
        }
    }

    /// S low is not enough to be selected afterwards: its fall is what selects ("Events", Power).
    fn power(&mut self) {
        self.state.write_enable_latch = false;
        self.deselect();
    }
}

/// Puts the marked latch bytes in their places.
pub(crate) fn write_page(page: &mut [u8], data: &[u8], marks: &[u8]) {
    for ((place, &byte), &mark) in page.iter_mut().zip(data).zip(marks) {
        if mark == 1 {
            *place = byte;
        }
    }
}

// Receiving.
impl Chip<'_> {
    #[inline(always)]
    fn clock_rises(&mut self) {
        let state = &mut *self.state;
        state.value = state.value << 1 | u8::from(state.data);
        state.bits += 1;
        if state.bits == 8 {
            let byte = state.value;
            state.bits = 0;
            state.value = 0;
            self.byte_received(byte);
        }
    }

    fn byte_received(&mut self, byte: u8) {
        let state = &mut *self.state;
        state.last_byte = byte;
        state.whole_bytes = (state.whole_bytes + 1).min(MOST_WHOLE_BYTES);
        if state.whole_bytes == 1 {
            self.code_received(byte);
        } else if !state.turned_away {
            self.argument_received(byte);
        }
    }

    /// Whether the code is turned away is decided here, once for the whole selection ("Instructions", during a
    /// cycle). A taken WRITE or 82h starts with no place marked; WEL is not asked yet, it is judged at the end.
    fn code_received(&mut self, code: u8) {
        let instruction = self.decode(code);
        let taken_in_cycle = matches!(instruction, Instruction::Rdsr | Instruction::Wrdi);
        self.state.instruction = instruction;
        self.state.turned_away = self.state.in_cycle() && !taken_in_cycle;
        self.state.address = self.first_address_bit(instruction, code);
        let uses_latch = matches!(instruction, Instruction::Write | Instruction::Wrid);
        if uses_latch && !self.state.turned_away {
            self.marks.fill(0);
        }
    }

    /// Bit 3 is the place of A8 where there is one address byte, so it cannot tell the six short codes apart there,
    /// whether A8 counts or not ("Instructions", Codes). Without an address it is not known yet whether 82h and 83h
    /// mean the lock; without an identification page they mean nothing.
    fn decode(&self, code: u8) -> Instruction {
        let bit_3_ignored = self.device.has_one_address_byte() && code & 0xF0 == 0;
        match if bit_3_ignored { code & 0x07 } else { code } {
            0x06 => Instruction::Wren,
            0x04 => Instruction::Wrdi,
            0x05 => Instruction::Rdsr,
            0x01 => Instruction::Wrsr,
            0x03 => Instruction::Read,
            0x02 => Instruction::Write,
            0x83 if self.device.has_identification() => Instruction::Rdid,
            0x82 if self.device.has_identification() => Instruction::Wrid,
            _ => Instruction::Unknown,
        }
    }

    /// What the address is before its first byte: A8 where the code brings it, else nothing.
    fn first_address_bit(&self, instruction: Instruction, code: u8) -> usize {
        let in_array = matches!(instruction, Instruction::Read | Instruction::Write);
        if self.device.code_brings_a8() && in_array {
            usize::from(code >> 3 & 1)
        } else {
            0
        }
    }

    /// A byte after the code: of the address, then data. WRSR's and LID's data byte is kept as the last byte only.
    fn argument_received(&mut self, byte: u8) {
        let in_address = self.state.whole_bytes <= self.device.bytes_before_data();
        match self.state.instruction {
            Instruction::Read | Instruction::Write if in_address => self.address_received(byte),
            Instruction::Rdid | Instruction::Wrid if in_address => {
                self.address_received(byte);
                if self.state.whole_bytes == self.device.bytes_before_data() {
                    self.identification_addressed();
                }
            }
            Instruction::Write | Instruction::Wrid => self.latch_byte(byte),
            _ => {}
        }
    }

    /// Most significant byte first; cell counts are powers of two, so a mask drops the bits above the array.
    fn address_received(&mut self, byte: u8) {
        let wide = self.state.address << 8 | usize::from(byte);
        self.state.address = wide & (self.device.cells - 1);
    }

    /// With its last address byte an identification instruction shows whether it is a lock instruction; for the
    /// others only the place in the page counts ("Instructions", Address).
    fn identification_addressed(&mut self) {
        if self.state.address & self.device.lock_bit() != 0 {
            self.state.instruction = match self.state.instruction {
                Instruction::Rdid => Instruction::Rdls,
                _ => Instruction::Lid,
            };
        }
        self.state.address &= self.device.identification - 1;
    }

    /// A data byte goes in as soon as it is whole, and the place rolls round within the page ("Instructions",
    /// WRITE).
    pub fn latch_byte(&mut self, byte: u8) {
        let in_page = self.device.page - 1;
        let place = self.state.address & in_page;
        self.data[place] = byte;
        self.marks[place] = 1;
        self.state.address = self.state.address & !in_page | (place + 1) & in_page;
    }
}

// Sending.
impl Chip<'_> {
    /// Decoded rises and falls alternate, so the bits received of the current byte also say which output bit is
    /// next: none received means a top bit, which takes a new byte.
    #[inline(always)]
    pub fn clock_falls(&mut self) {
        if !self.is_sending() {
            return;
        }
        if self.state.bits == 0 {
            self.take_byte();
        }
        self.show_bit();
    }

    /// Whether the command is sending: a reading one, all of whose command bytes are in.
    #[inline(always)]
    pub fn is_sending(&self) -> bool {
        let command_bytes = match self.state.instruction {
            Instruction::Rdsr => 1,
            Instruction::Read | Instruction::Rdid | Instruction::Rdls => {
                self.device.bytes_before_data()
            }
            _ => return false,
        };
        !self.state.turned_away && self.state.whole_bytes >= command_bytes
    }

    /// RDID alone can have an address that names no byte: it has no turn at the end of its page ("Instructions",
    /// RDID).
    #[inline(always)]
    pub fn show_bit(&mut self) {
        let state = &mut *self.state;
        let past_end =
            state.instruction == Instruction::Rdid && state.address >= self.device.identification;
        state.output = if past_end {
            Output::Z
        } else {
            Output::from(state.sent_byte << state.bits & 0x80 != 0)
        };
    }

    /// Takes the next byte to send; the status and the lock afresh each time.
    pub fn take_byte(&mut self) {
        match self.state.instruction {
            Instruction::Rdsr => self.state.sent_byte = status_byte(self.state),
            Instruction::Rdls => self.state.sent_byte = u8::from(self.state.locked),
            Instruction::Read => {
                if !self.is_first_byte() {
                    self.state.address = (self.state.address + 1) & (self.device.cells - 1);
                }
                self.state.sent_byte = self.cells[self.state.address];
            }
            Instruction::Rdid => {
                if !self.is_first_byte() && self.state.address < self.device.identification {
                    self.state.address += 1;
                }
                if self.state.address < self.device.identification {
                    self.state.sent_byte = self.identification[self.state.address];
                }
            }
            _ => {}
        }
    }

    /// The first output byte is the one that the address names as it came in; whole bytes go on counting while bytes
    /// are sent.
    #[inline(always)]
    pub fn is_first_byte(&self) -> bool {
        self.state.whole_bytes == self.device.bytes_before_data()
    }
}

// Judging at the rise of S.
impl Chip<'_> {
    /// A done write starts its cycle; a dropped one changes nothing, and WEL stays ("Instructions", Judged at the
    /// rise of S). What was turned away, or is not in the list, is not judged at all.
    fn judge(&mut self) {
        if self.state.turned_away {
            return;
        }
        match self.state.instruction {
            Instruction::Wren if self.exactly(1) => self.state.write_enable_latch = true,
            Instruction::Wrdi if self.exactly(1) => self.state.write_enable_latch = false,
            Instruction::Wrsr if self.wrsr_is_done() => self.start_cycle(Cycle::Status),
            Instruction::Write if self.write_is_done() => self.start_cycle(Cycle::Array),
            Instruction::Wrid if self.wrid_is_done() => self.start_cycle(Cycle::Identification),
            Instruction::Lid if self.lid_is_done() => self.start_cycle(Cycle::Lock),
            _ => {}
        }
    }

    /// Exactly so many whole bytes and no bit more.
    fn exactly(&self, bytes: u8) -> bool {
        self.state.whole_bytes == bytes && self.state.bits == 0
    }

    /// At least one data byte, and no cut byte at the end.
    fn has_data(&self) -> bool {
        self.state.whole_bytes > self.device.bytes_before_data() && self.state.bits == 0
    }

    fn wrsr_is_done(&self) -> bool {
        let state = &*self.state;
        let guarded = self.device.has_one_address_byte() || state.status & SRWD != 0;
        state.write_enable_latch && self.exactly(2) && !(state.protect_seen_low && guarded)
    }

    fn write_is_done(&self) -> bool {
        let state = &*self.state;
        state.write_enable_latch
            && self.has_data()
            && !self.device.is_protected(state.status, state.address)
            && self.protect_allows()
    }

    fn wrid_is_done(&self) -> bool {
        self.state.write_enable_latch
            && self.has_data()
            && self.identification_is_open()
            && self.protect_allows()
    }

    fn lid_is_done(&self) -> bool {
        self.state.write_enable_latch
            && self.exactly(self.device.bytes_before_data() + 1)
            && self.state.last_byte & 0b0000_0010 != 0
            && self.identification_is_open()
            && self.protect_allows()
    }

    /// The identification page lies outside the array, so only the lock and BP 11 protect it.
    fn identification_is_open(&self) -> bool {
        !self.state.locked && self.state.status & BP != BP
    }

    /// Where there is one address byte W guards the writes themselves, elsewhere the status register only.
    fn protect_allows(&self) -> bool {
        !self.device.has_one_address_byte() || !self.state.protect_seen_low
    }

    /// Only what this cycle needs is set; the rest keeps its value.
    pub fn start_cycle(&mut self, cycle: Cycle) {
        let state = &mut *self.state;
        state.cycle = cycle;
        state.time_left = self.device.write_time;
        match cycle {
            Cycle::Array => state.page_start = state.address & !(self.device.page - 1),
            Cycle::Identification => state.page_start = 0,
            Cycle::Status => state.new_status = state.last_byte & self.device.status_bits(),
            Cycle::Lock | Cycle::None => {}
        }
    }
}
