//! The model made wrong in one named way.
//!
//! The rules know nothing of this. A mistaken device is the right one, with the state changed before an event so that
//! the right rules do the wrong thing, or changed after it; or its row of the table is wrong. `Fault::None` runs the
//! right model itself.

mod bench;
mod blank;
mod codes;
mod counts;
mod edges;
mod held;
mod judging;
mod records;
mod sending;
mod sheet;
mod smaller;
mod state;
mod view;

use crate::calls::{run_records, stored, Ran};
use crate::device::{Device, IDENTIFICATION_CODE};
use crate::fault::Fault;
use crate::number::Number;
use crate::rules::Chip;
use crate::state::{status_byte, Cycle, Output, State};
use crate::trace::Event;
pub use bench::bench_wrongly;
pub use blank::first_blank_wrongly;
pub(crate) use counts::file_counts;
pub use counts::{event_wrongly, prepare_wrongly};
use smaller::Believed;
pub use state::{is_sound_wrongly, load_wrongly};
pub use view::view_wrongly;

/// The mistakes of preparing: what the identification page starts with.
pub(crate) fn prepared(fault: Fault, device: &Device, identification: &mut [u8]) {
    let start = match (fault, device.number) {
        (Fault::IdentificationCodeMissing, 4) => [0xFF; 3],
        (Fault::IdentificationCodeOnDevice3, 3) => IDENTIFICATION_CODE,
        _ => return,
    };
    identification[..start.len()].copy_from_slice(&start);
}

/// `stored`, with a mistake.
pub(crate) fn stored_wrongly(fault: Fault, state: &State) -> (u8, u8) {
    let (status, lock) = stored(state);
    match (fault, state.cycle) {
        (Fault::StoredBitsWithWel, _) => (status_byte(state), lock),
        (Fault::StoredBitsAreNew, Cycle::Status) => (state.new_status, lock),
        (Fault::StoredLockIsNew, Cycle::Lock) => (status, 1),
        _ => (status, lock),
    }
}

/// `run_records`, with a mistake.
pub(crate) fn run_wrongly(
    fault: Fault,
    mut chip: Chip,
    trace: &[u8],
    answers: &mut [u8],
    limit: usize,
) -> Ran {
    let fault = smaller::limited(fault, chip.device);
    if fault == Fault::None {
        return run_records(&mut chip, trace, answers, limit);
    }
    let wrong_row = sheet::wrong_row(fault, chip.device);
    if let Some(row) = wrong_row.or_else(|| held::wrong_row(fault, chip.device)) {
        let mut chip = Chip {
            device: &row,
            ..chip
        };
        return run_records(&mut chip, trace, answers, limit);
    }
    let Some(believed) = Believed::of(fault) else {
        return Mistaken::new(fault, chip).run(trace, answers, limit);
    };
    // A page that is believed in is in the row, and has bytes of its own.
    let row = Device {
        identification: chip.device.page,
        ..chip.device.clone()
    };
    let mut page = vec![0xFF; row.identification];
    let chip = Chip {
        device: &row,
        identification: &mut page,
        ..chip
    };
    Mistaken {
        believed: Some(believed),
        ..Mistaken::new(fault, chip)
    }
    .run(trace, answers, limit)
}

/// A device with a mistake.
struct Mistaken<'a> {
    fault: Fault,
    chip: Chip<'a>,
    /// What it does with an identification page that it has not.
    believed: Option<Believed>,
    /// Whether a cycle ran when a mistaken reading judged the code, before the code was there.
    cycle_before_code: bool,
    /// The address as its bytes gave it; data bytes move on the one in the state.
    address_sent: usize,
    /// The latch before the event, where a mistake puts it back.
    data_before: Vec<u8>,
    marks_before: Vec<u8>,
    /// The count of the cycle's page before a wait.
    count_before: u16,
    held: held::Memory,
}

/// What an event is for the selection.
#[derive(Clone, Copy, PartialEq, Eq)]
enum Moment {
    /// Decoded edges of C.
    Rise,
    Fall,
    SelectFall,
    /// While selected.
    SelectRise,
    Other,
}

fn moment(state: &State, event: Event) -> Moment {
    let decodes = state.selected && !state.held;
    match event {
        Event::Clock(true) if !state.clock && decodes => Moment::Rise,
        Event::Clock(false) if state.clock && decodes => Moment::Fall,
        Event::Select(false) if state.select => Moment::SelectFall,
        Event::Select(true) if !state.select && state.selected => Moment::SelectRise,
        _ => Moment::Other,
    }
}

impl<'a> Mistaken<'a> {
    fn new(fault: Fault, chip: Chip<'a>) -> Mistaken<'a> {
        Mistaken {
            fault,
            chip,
            believed: None,
            cycle_before_code: false,
            address_sent: 0,
            data_before: Vec::new(),
            marks_before: Vec::new(),
            count_before: 0,
            held: held::Memory::new(),
        }
    }

    fn try_event(&mut self, event: Event) -> Result<Output, Number> {
        match self.refusal(event) {
            Some(number) => {
                self.after_refusal(event);
                Err(number)
            }
            None => Ok(self.event(event)),
        }
    }

    fn event(&mut self, event: Event) -> Output {
        if self.judges_at_power(event) {
            self.chip.select_rises();
            return Output::Z;
        }
        let first = self.chip.state.clone();
        let event = self.before_edge(event);
        let was = self.chip.state.clone();
        let moment = moment(&was, event);
        let named = self.fault;
        if moment == Moment::SelectRise {
            self.fault = self.made_at_select_rise();
        }
        match moment {
            Moment::Rise => self.before_rise(),
            Moment::Fall => self.before_fall(),
            Moment::SelectRise => self.before_select_rise(),
            Moment::SelectFall | Moment::Other => self.before_other(event),
        }
        self.chip.event(event);
        match moment {
            Moment::Rise => self.after_rise(&was),
            Moment::Fall => self.after_fall(&was),
            Moment::SelectRise => self.after_select_rise(&was),
            Moment::SelectFall => self.after_select_fall(&was),
            Moment::Other => self.after_other(event, &was),
        }
        self.fault = named;
        self.after_any(event, &first);
        self.after_any_in_hold(event, &first);
        match self.fault {
            Fault::HoldShowsOutput => self.chip.state.output,
            _ => self.chip.state.answer(),
        }
    }

    fn judges_at_power(&self, event: Event) -> bool {
        self.fault == Fault::PowerJudgesCommand && event == Event::Power && self.chip.state.selected
    }

    /// A mistaken device may end its cycle at power instead of refusing it.
    fn end_cycle_at_power(&mut self) {
        let ends_here = match self.chip.state.cycle {
            Cycle::None => return,
            Cycle::Array => Fault::PowerTakenInArrayCycle,
            Cycle::Identification => Fault::PowerTakenInIdentificationCycle,
            Cycle::Status => Fault::PowerTakenInStatusCycle,
            Cycle::Lock => Fault::PowerTakenInLockCycle,
        };
        if self.fault == ends_here {
            self.chip.state.cycle = Cycle::None;
            self.chip.state.time_left = 0;
        }
    }
}
