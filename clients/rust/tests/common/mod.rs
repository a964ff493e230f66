//! What the wrapper's tests lend to its calls, and the second model beside them.
#![allow(dead_code)] // each test file is a crate of its own and uses a part of it

use m95_model::{Device, Event, Fault, Number, Output, State};
use proved::{kind, pin, Lent, Ran, STATE_BYTES};

/// A device's buffers, not yet prepared.
#[derive(Clone, PartialEq)]
pub struct Buffers {
    pub state: Vec<u8>,
    pub cells: Vec<u8>,
    pub identification: Vec<u8>,
    pub latch: Vec<u8>,
    pub counts: Vec<u16>,
}

impl Buffers {
    pub fn new(device: usize) -> Buffers {
        Buffers {
            state: vec![0xA5; STATE_BYTES],
            cells: vec![0xA5; proved::cells(device)],
            identification: vec![0xA5; proved::identification(device)],
            latch: vec![0xA5; 2 * proved::page(device)],
            counts: vec![0xA5A5; proved::pages(device)],
        }
    }

    pub fn lent(&mut self) -> Lent<'_> {
        Lent {
            state: &mut self.state,
            cells: &mut self.cells,
            identification: &mut self.identification,
            latch: &mut self.latch,
            counts: &mut self.counts,
        }
    }

    /// All that the device stores.
    pub fn stored(&self) -> (&[u8], &[u8], &[u8], &[u16]) {
        (&self.cells, &self.identification, &self.latch, &self.counts)
    }
}

/// The library and the second model with a device each. The model's state is no bytes, so that of its buffers stands for nothing.
pub struct Pair {
    pub row: &'static Device,
    pub ours: Buffers,
    pub model: Buffers,
    pub state: State,
}

impl Pair {
    /// Both prepared.
    pub fn prepared(row: &'static Device) -> Pair {
        let device = usize::from(row.number);
        let (mut ours, mut model) = (Buffers::new(device), Buffers::new(device));
        assert_eq!(proved::prepare(device, &mut ours.lent()), 0);
        let (number, state) = m95_model::prepare(
            row.number,
            &mut model.cells,
            &mut model.identification,
            &mut model.latch,
            &mut model.counts,
        );
        assert_eq!(number, Number::Done);
        let pair = Pair {
            row,
            ours,
            model,
            state,
        };
        assert!(pair.is_same());
        pair
    }

    pub fn device(&self) -> usize {
        usize::from(self.row.number)
    }

    /// Whether both store the same and tell the same of their states.
    pub fn is_same(&self) -> bool {
        self.ours.stored() == self.model.stored() && tells_the_same(&self.ours.state, &self.state)
    }

    /// One event through both, which must give and leave the same: its number.
    pub fn event(&mut self, event: Event) -> usize {
        let number = self.event_wrongly(Fault::None, event);
        number.unwrap_or_else(|| panic!("the two differ: {} {event:?}", self.row.name))
    }

    /// One event through the library and the model with this fault: its number, or none where the two give or leave something else.
    pub fn event_wrongly(&mut self, fault: Fault, event: Event) -> Option<usize> {
        let (kind, value) = numbers_of(event);
        let ours = proved::event(self.device(), &mut self.ours.lent(), kind, value);
        let (number, output) = self.by_model(fault, event);
        let same = ours == (number as usize, output as usize) && self.is_same();
        same.then_some(ours.0)
    }

    fn by_model(&mut self, fault: Fault, event: Event) -> (Number, Output) {
        let (number, state, model) = (self.row.number, &mut self.state, &mut self.model);
        let (cells, identification) = (&mut model.cells, &mut model.identification);
        let (latch, counts) = (&mut model.latch, &mut model.counts);
        if fault == Fault::None {
            return m95_model::event(number, state, cells, identification, latch, counts, event);
        }
        m95_model::event_wrongly(
            fault,
            number,
            state,
            cells,
            identification,
            latch,
            counts,
            event,
        )
    }

    /// A trace through both, with so much room for answers and up to this limit; they must give and leave the same.
    pub fn run(&mut self, trace: &[u8], room: usize, limit: usize) -> Ran {
        let (mut answers, mut others) = (vec![7; room], vec![7; room]);
        let (device, mut lent) = (self.device(), self.ours.lent());
        let ran = proved::run(device, &mut lent, trace, &mut answers, limit);
        let other = m95_model::run(
            self.row.number,
            &mut self.state,
            &mut self.model.cells,
            &mut self.model.identification,
            &mut self.model.latch,
            &mut self.model.counts,
            trace,
            &mut others,
            limit,
        );
        let told = (other.number as usize, other.taken, other.done);
        assert_eq!((ran.number, ran.taken, ran.done), told);
        assert!(answers == others && self.is_same());
        ran
    }

    /// Lends both these counts.
    pub fn lend(&mut self, counts: &[u16]) {
        self.ours.counts.copy_from_slice(counts);
        self.model.counts.copy_from_slice(counts);
    }

    /// Counts the pages of both, each by its own call.
    pub fn count_pages(&mut self) {
        let (device, ours, model) = (self.device(), &mut self.ours, &mut self.model);
        assert_eq!(
            proved::count_pages(device, &ours.cells, &mut ours.counts),
            0
        );
        let number = m95_model::count_pages(self.row.number, &model.cells, &mut model.counts);
        assert_eq!(number, Number::Done);
        assert!(self.is_same());
    }
}

/// What can be asked of a state, asked of both.
pub fn tells_the_same(ours: &[u8], model: &State) -> bool {
    let status = m95_model::status_byte(model);
    let (bits, lock) = m95_model::stored(model);
    proved::status_byte(ours) == Ok(status.into())
        && proved::stored(ours) == Ok((bits.into(), lock.into()))
}

/// An event as its kind and its value.
fn numbers_of(event: Event) -> (usize, usize) {
    let pin = |pin: usize, level: bool| (kind::SET_PIN, pin + usize::from(level));
    match event {
        Event::Clock(level) => pin(pin::C, level),
        Event::Data(level) => pin(pin::D, level),
        Event::Select(level) => pin(pin::S, level),
        Event::Hold(level) => pin(pin::HOLD, level),
        Event::Protect(level) => pin(pin::W, level),
        Event::Wait(microseconds) => (kind::WAIT, microseconds as usize),
        Event::Power => (kind::POWER_CYCLE, 0),
    }
}
