//! Whole commands: the bytes of each instruction at addresses and lengths where rules change, and the selections
//! that carry them.

use super::random::Random;
use crate::device::{Device, BP, SRWD};
use crate::trace::Event;

pub(super) const WREN: u8 = 0x06;
pub(super) const WRDI: u8 = 0x04;
pub(super) const RDSR: u8 = 0x05;
pub(super) const WRSR: u8 = 0x01;
pub(super) const READ: u8 = 0x03;
pub(super) const WRITE: u8 = 0x02;
pub(super) const RDID: u8 = 0x83;
pub(super) const WRID: u8 = 0x82;

/// The bit that is A8 or ignored in the short codes of some devices, and makes them unknown on the others.
pub(super) const BIT_3: u8 = 0x08;

/// Codes that no device knows, and those that only some know.
const ODD_CODES: [u8; 12] = [
    0x00, 0x07, 0x0E, 0x0C, 0x0D, 0x09, 0x8A, 0x8B, 0x80, 0x86, 0x46, 0xFF,
];

/// A trace in the making.
pub(super) struct Maker {
    pub random: Random,
    pub device: &'static Device,
    pub events: Vec<Event>,
    records: usize,
    /// Whether the trace may lock the chip.
    locks: bool,
    /// Whether C rests high between selections: the other of the two SPI modes.
    pub idle_high: bool,
}

/// What a command is for; `look_back` reads what it could have changed.
#[derive(Clone)]
pub(super) struct Command {
    pub bytes: Vec<u8>,
    pub kind: Kind,
    /// The place it is about, in the array or the identification page.
    pub address: usize,
}

#[derive(Clone, Copy, PartialEq, Eq)]
pub(super) enum Kind {
    Short,
    Status,
    Array,
    Identification,
    Lock,
    Reading,
}

impl Maker {
    pub fn new(device: &'static Device, seed: u64, records: usize) -> Maker {
        let mut random = Random::new(seed);
        let locks = random.level();
        Maker {
            random,
            device,
            events: Vec::new(),
            records,
            locks,
            idle_high: false,
        }
    }

    pub fn is_full(&self) -> bool {
        self.events.len() >= self.records
    }

    /// A lock can never be undone, so it may come only in some traces, and in their last part; where there is no
    /// identification page nothing locks and nothing is to be spared.
    pub fn may_lock(&self) -> bool {
        !self.device.has_identification() || self.locks && self.events.len() * 4 >= self.records * 3
    }

    pub fn put(&mut self, events: &[Event]) {
        self.events.extend_from_slice(events);
    }

    /// Brings all pins to rest; now and then changes the SPI mode.
    pub fn calm(&mut self) {
        if self.random.once_in(4) {
            self.idle_high = !self.idle_high;
        }
        self.rest();
    }

    /// Brings all pins to rest in the SPI mode as it is.
    pub fn rest(&mut self) {
        let rest = [
            Event::Select(true),
            Event::Hold(true),
            Event::Protect(true),
            Event::Clock(self.idle_high),
        ];
        self.put(&rest);
    }

    /// The events of a selection that sends the first `bits` bits of `bytes`.
    pub fn selection_of(&mut self, bytes: &[u8], bits: usize) -> Vec<Event> {
        let mut events = vec![Event::Select(false)];
        let mut last = None;
        for place in 0..bits {
            let level = bytes[place / 8] << (place % 8) & 0x80 != 0;
            if self.idle_high {
                events.push(Event::Clock(false));
            }
            // D is set again only now and then when it has the level already.
            if last != Some(level) || self.random.once_in(8) {
                events.push(Event::Data(level));
                last = Some(level);
            }
            events.push(Event::Clock(true));
            // Only the rise of C takes D, so D may change while C is high.
            if self.random.once_in(16) {
                events.push(Event::Data(!level));
                last = Some(!level);
            }
            if !self.idle_high {
                events.push(Event::Clock(false));
            }
        }
        events.push(Event::Select(true));
        events
    }

    pub fn selection(&mut self, bytes: &[u8]) -> Vec<Event> {
        self.selection_of(bytes, 8 * bytes.len())
    }

    pub fn send(&mut self, bytes: &[u8]) {
        let events = self.selection(bytes);
        self.put(&events);
    }

    /// A code as it may come: bit 3 of a short one is ignored where there is one address byte.
    fn short_code(&mut self, code: u8) -> u8 {
        let ignored = self.device.has_one_address_byte() && code & 0xF0 == 0;
        if ignored && self.random.once_in(3) {
            code | BIT_3
        } else {
            code
        }
    }

    pub fn enable(&mut self) {
        let code = self.short_code(WREN);
        self.send(&[code]);
    }

    /// Reads the status in one selection, now and then twice.
    pub fn look(&mut self) {
        let code = self.short_code(RDSR);
        let repeats = self.random.pick(&[1, 1, 1, 2]);
        self.send(&[&[code][..], &vec![0; repeats]].concat());
    }

    /// A wait that surely ends a cycle.
    pub fn settle(&mut self) {
        let time = self.device.write_time;
        let wait = self
            .random
            .pick(&[time, time, time, time + 1, 2 * time, u32::MAX]);
        self.put(&[Event::Wait(wait)]);
    }

    /// A wait that may or may not end a cycle.
    pub fn some_wait(&mut self) {
        let time = self.device.write_time;
        let wait = self
            .random
            .pick(&[0, 1, time - 1, time, time + 1, time / 2, u32::MAX]);
        self.put(&[Event::Wait(wait)]);
    }

    /// Stores status bits, with all pins at rest.
    pub fn set_status(&mut self, bits: u8) {
        self.enable();
        let code = self.short_code(WRSR);
        let others = self.random.byte() & !(SRWD | BP);
        self.send(&[code, bits | others]);
        self.settle();
    }

    /// Most often nothing protected, at times any protection.
    pub fn usual_status(&mut self) {
        if self.random.once_in(3) {
            let bits = self
                .random
                .pick(&[0x00, 0x00, 0x80, 0x04, 0x08, 0x0C, 0x84, 0x88, 0x8C]);
            self.set_status(bits);
        }
    }

    /// A cell address where something begins or ends, or any.
    pub fn cell_address(&mut self) -> usize {
        let (cells, page) = (self.device.cells, self.device.page);
        let edges = [
            0,
            page,
            2 * page,
            cells / 4,
            cells / 2,
            cells - cells / 4,
            cells - page,
            cells,
        ];
        let near = self.random.pick(&edges) + cells;
        let address = match self.random.below(8) {
            0 | 1 => near,
            2 | 3 => near - 1,
            4 => near + 1,
            5 => near - page,
            6 => near - page / 2,
            _ => self.random.below(cells),
        };
        address % cells
    }

    /// A code and an address, with any bits above the array, of the address bytes and of the code.
    pub fn array_command(&mut self, code: u8, address: usize) -> Vec<u8> {
        if self.device.code_brings_a8() {
            return vec![code | (address >> 8 << 3) as u8, address as u8];
        }
        let code = self.short_code(code);
        let above = if self.random.level() {
            usize::from(self.random.byte()) * self.device.cells
        } else {
            0
        };
        self.with_address(code, address | above)
    }

    /// A code and an address as it is; bits that the address bytes have no room for are lost.
    pub fn with_address(&self, code: u8, address: usize) -> Vec<u8> {
        let mut bytes = vec![code];
        for place in (0..self.device.address_bytes).rev() {
            bytes.push((address >> (8 * place)) as u8);
        }
        bytes
    }

    /// A code and a place in the identification page or, with the lock bit, the lock; other bits are random.
    pub fn identification_command(&mut self, code: u8, place: usize, lock: bool) -> Vec<u8> {
        let lock_bit = self.device.lock_bit();
        let in_page = self.device.page - 1;
        let others = if self.random.level() {
            self.random.word() as usize & !in_page & !lock_bit
        } else {
            0
        };
        let asked = if lock { lock_bit } else { 0 };
        self.with_address(code, others | asked | place & in_page)
    }

    /// Data for a page write: most often a byte or a few, at times more than a page.
    fn data(&mut self) -> Vec<u8> {
        let page = self.device.page;
        let long_odds = page / 2;
        let length = if self.random.once_in(long_odds) {
            page + self.random.below(4)
        } else {
            self.random.pick(&[1, 1, 1, 2, 2, 3, 4])
        };
        (0..length).map(|_| self.random.byte()).collect()
    }

    pub fn write_command(&mut self) -> Command {
        let address = self.cell_address();
        self.write_command_at(address)
    }

    pub fn wrid_command(&mut self) -> Command {
        let address = self.page_place();
        let mut bytes = self.identification_command(WRID, address, false);
        bytes.extend(self.data());
        Command {
            bytes,
            kind: Kind::Identification,
            address,
        }
    }

    /// LID; where the trace may not lock yet, with a data byte that does not, unless `harmless`: something else surely
    /// stops it.
    pub fn lid_command(&mut self, harmless: bool) -> Command {
        let place = self.random.byte().into();
        let mut bytes = self.identification_command(WRID, place, true);
        let data = self.random.byte();
        bytes.push(if self.may_lock() || harmless {
            data | 0x02
        } else {
            data & !0x02
        });
        Command {
            bytes,
            kind: Kind::Lock,
            address: 0,
        }
    }

    pub fn wrsr_command(&mut self) -> Command {
        let code = self.short_code(WRSR);
        let data = self.random.byte();
        Command {
            bytes: vec![code, data],
            kind: Kind::Status,
            address: 0,
        }
    }

    /// One of the four commands that start a cycle.
    pub fn writing_command(&mut self) -> Command {
        match self.random.below(8) {
            0..=2 => self.write_command(),
            3 | 4 => self.wrid_command(),
            5 | 6 => self.wrsr_command(),
            _ => self.lid_command(false),
        }
    }

    /// WRITE to `address`.
    pub fn write_command_at(&mut self, address: usize) -> Command {
        let mut bytes = self.array_command(WRITE, address);
        bytes.extend(self.data());
        Command {
            bytes,
            kind: Kind::Array,
            address,
        }
    }

    pub fn short_command(&mut self) -> Command {
        let code = self.random.pick(&[WREN, WREN, WRDI]);
        Command {
            bytes: vec![self.short_code(code)],
            kind: Kind::Short,
            address: 0,
        }
    }

    pub fn disable(&mut self) {
        let code = self.short_code(WRDI);
        self.send(&[code]);
    }

    /// WEL as it lets `command` show what it does: clear before WREN, else most often set.
    pub fn make_ready(&mut self, command: &Command) {
        if command.bytes[0] & !BIT_3 == WREN {
            self.disable();
        } else if !self.random.once_in(6) {
            self.enable();
        }
    }

    /// RDSR with room for several bytes.
    pub fn rdsr_command(&mut self) -> Command {
        let code = self.short_code(RDSR);
        let repeats = 1 + self.random.below(4);
        Command {
            bytes: [&[code][..], &vec![0; repeats]].concat(),
            kind: Kind::Reading,
            address: 0,
        }
    }

    /// A command that sends, with room for some output bytes.
    pub fn reading_command(&mut self) -> Command {
        let mut address = 0;
        let mut bytes = match self.random.below(5) {
            0 => {
                let code = self.short_code(RDSR);
                vec![code]
            }
            1 | 2 => {
                address = self.cell_address();
                self.array_command(READ, address)
            }
            3 => {
                address = self.page_place();
                self.identification_command(RDID, address, false)
            }
            _ => self.identification_command(RDID, 0, true),
        };
        let repeats = 1 + self.random.below(4);
        bytes.extend(std::iter::repeat_with(|| self.random.byte()).take(repeats));
        Command {
            bytes,
            kind: Kind::Reading,
            address,
        }
    }

    /// A place in the identification page, most often near one of its ends.
    fn page_place(&mut self) -> usize {
        let page = self.device.page;
        let any = self.random.below(page);
        self.random
            .pick(&[0, 1, 2, page - 3, page - 2, page - 1, any])
    }

    /// A code that is not in the list, followed by bytes that would mean something alone, or by the bytes that belong
    /// to a code that is.
    pub fn odd_command(&mut self) -> Command {
        if self.random.level() {
            let mut command = match self.random.below(4) {
                0 => self.reading_command(),
                1 => self.short_command(),
                2 => self.wrid_command(),
                _ => self.writing_command(),
            };
            command.bytes[0] ^= self.random.pick(&[0x08, 0x08, 0x08, 0x10, 0x20, 0x40]);
            return command;
        }
        let code = self.random.pick(&ODD_CODES);
        let mut bytes = vec![code];
        let next = self.random.pick(&[WREN, RDSR, READ, WRITE]);
        for _ in 0..self.random.below(6) {
            bytes.push(self.random.pick(&[next, 0x00, 0x02]));
        }
        Command {
            bytes,
            kind: Kind::Short,
            address: 0,
        }
    }

    /// Any command, those that write most often.
    pub fn any_command(&mut self) -> Command {
        match self.random.below(14) {
            0..=6 => self.writing_command(),
            7 | 8 => self.short_command(),
            9..=11 => self.reading_command(),
            _ => self.odd_command(),
        }
    }

    /// The code of a command alone, as a start for noise.
    pub fn command_start(&mut self) -> Vec<u8> {
        let command = self.any_command();
        let before_data = usize::from(self.device.bytes_before_data());
        let length = command.bytes.len().min(before_data);
        command.bytes[..length].to_vec()
    }

    /// Reads what `command` could have changed.
    pub fn look_back(&mut self, command: &Command) {
        match command.kind {
            Kind::Short | Kind::Reading | Kind::Status => self.look(),
            Kind::Array => self.read_around(command.address),
            Kind::Identification => self.read_identification(command.address),
            Kind::Lock => {
                let bytes = self.identification_command(RDID, 0, true);
                self.send(&[&bytes[..], &[0, 0]].concat());
            }
        }
    }

    /// Two cells at the address, or the start of its page or the next page, where a wrong roll would write.
    pub fn read_around(&mut self, address: usize) {
        let page = self.device.page;
        let start = address & !(page - 1);
        let from = match self.random.below(4) {
            0 => start,
            1 => (start + page) % self.device.cells,
            _ => address,
        };
        self.read_at(from, 2);
    }

    pub fn read_at(&mut self, address: usize, count: usize) {
        let bytes = self.array_command(READ, address);
        self.send(&[&bytes[..], &vec![0; count]].concat());
    }

    fn read_identification(&mut self, place: usize) {
        let from = if self.random.once_in(3) { 0 } else { place };
        let bytes = self.identification_command(RDID, from, false);
        self.send(&[&bytes[..], &[0, 0, 0]].concat());
    }

    /// Half of all traces end in a cycle, to show that its change has not come.
    pub fn leave_open(&mut self) {
        self.calm();
        self.settle();
        if self.random.level() {
            self.set_status(0);
            self.enable();
            let command = self.writing_command();
            self.send(&command.bytes);
        }
    }
}
