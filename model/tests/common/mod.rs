//! A board for the tests: one prepared device, driven by events or by whole bytes. Every event must be taken and
//! must leave a sound state, so each test checks that too.
#![allow(dead_code)] // each test file is its own crate and uses a part of the board

use m95_model::{
    device, event, is_sound, prepare, run, status_byte, Device, Event, Number, Output, Ran, State,
};

pub struct Board {
    pub device: &'static Device,
    pub state: State,
    pub cells: Vec<u8>,
    pub identification: Vec<u8>,
    pub latch: Vec<u8>,
    pub counts: Vec<u16>,
}

/// C high and C low, for readable lists of events.
pub const RISE: Event = Event::Clock(true);
pub const FALL: Event = Event::Clock(false);

/// WRITE of one byte, with A8 in the code where the device has it there.
pub fn write_at(row: &Device, address: usize) -> Vec<u8> {
    let byte = |shift: usize| (address >> shift) as u8;
    match row.address_bytes {
        1 if row.code_brings_a8() => vec![0x02 | byte(8) << 3, byte(0), 0x5A],
        1 => vec![0x02, byte(0), 0x5A],
        2 => vec![0x02, byte(8), byte(0), 0x5A],
        _ => vec![0x02, byte(16), byte(8), byte(0), 0x5A],
    }
}

impl Board {
    pub fn new(number: u8) -> Board {
        let device = device(number).expect("a device of the table");
        let mut cells = vec![0; device.cells];
        let mut identification = vec![0; device.identification];
        let mut latch = vec![0; 2 * device.page];
        let mut counts = vec![7; device.pages()];
        let (done, state) = prepare(
            number,
            &mut cells,
            &mut identification,
            &mut latch,
            &mut counts,
        );
        assert_eq!(done, Number::Done);
        Board {
            device,
            state,
            cells,
            identification,
            latch,
            counts,
        }
    }

    /// One event, whatever number it gives.
    pub fn try_set(&mut self, happening: Event) -> (Number, Output) {
        event(
            self.device.number,
            &mut self.state,
            &mut self.cells,
            &mut self.identification,
            &mut self.latch,
            &mut self.counts,
            happening,
        )
    }

    /// A trace, with as much room for answers and as many records as asked, whatever number it gives.
    pub fn run(&mut self, trace: &[u8], answers: &mut [u8], limit: usize) -> Ran {
        run(
            self.device.number,
            &mut self.state,
            &mut self.cells,
            &mut self.identification,
            &mut self.latch,
            &mut self.counts,
            trace,
            answers,
            limit,
        )
    }

    /// One event that must be taken.
    pub fn set(&mut self, happening: Event) -> Output {
        let (number, answer) = self.try_set(happening);
        assert_eq!(number, Number::Done, "{happening:?}");
        assert!(
            is_sound(self.device, &self.state, self.marks()),
            "{happening:?}"
        );
        answer
    }

    pub fn marks(&self) -> &[u8] {
        &self.latch[self.device.page..]
    }

    pub fn q(&self) -> Output {
        self.state.answer()
    }

    pub fn select(&mut self) {
        self.set(Event::Select(false));
    }

    pub fn deselect(&mut self) {
        self.set(Event::Select(true));
    }

    pub fn wait(&mut self, microseconds: u32) {
        self.set(Event::Wait(microseconds));
    }

    /// One bit with C idle low; gives what Q showed before the rise.
    pub fn bit(&mut self, level: bool) -> Output {
        let shown = self.q();
        self.set(Event::Data(level));
        self.set(RISE);
        self.set(FALL);
        shown
    }

    /// The first `count` bits of `bytes`, most significant first.
    pub fn bits(&mut self, bytes: &[u8], count: usize) {
        for place in 0..count {
            self.bit(bytes[place / 8] << (place % 8) & 0x80 != 0);
        }
    }

    pub fn bytes(&mut self, bytes: &[u8]) {
        self.bits(bytes, 8 * bytes.len());
    }

    /// Eight bits as Q shows them.
    pub fn shown_bits(&mut self) -> [Output; 8] {
        std::array::from_fn(|_| self.bit(false))
    }

    /// A byte from Q; none of its bits may be Z.
    pub fn shown_byte(&mut self) -> u8 {
        self.shown_bits().iter().fold(0, |byte, &bit| {
            assert_ne!(bit, Output::Z);
            byte << 1 | bit as u8
        })
    }

    /// `bytes` in one selection.
    pub fn command(&mut self, bytes: &[u8]) {
        self.command_of(bytes, 8 * bytes.len());
    }

    /// The first `count` bits of `bytes` in one selection.
    pub fn command_of(&mut self, bytes: &[u8], count: usize) {
        self.select();
        self.bits(bytes, count);
        self.deselect();
    }

    /// `bytes` in one selection, then `count` bytes read in it.
    pub fn query(&mut self, bytes: &[u8], count: usize) -> Vec<u8> {
        self.select();
        self.bytes(bytes);
        let read = (0..count).map(|_| self.shown_byte()).collect();
        self.deselect();
        read
    }

    /// The status by RDSR, which must agree with `status_byte`.
    pub fn status(&mut self) -> u8 {
        let byte = self.query(&[0x05], 1)[0];
        assert_eq!(byte, status_byte(&self.state));
        byte
    }

    /// WREN, then `bytes` in one selection, no wait after.
    pub fn start_write(&mut self, bytes: &[u8]) {
        self.command(&[0x06]);
        self.command(bytes);
    }

    /// WREN, `bytes`, and a full wait.
    pub fn write(&mut self, bytes: &[u8]) {
        self.start_write(bytes);
        self.wait(self.device.write_time);
    }
}
