//! Mistakes about the counts of the pages (document 02, W-204).

use super::Mistaken;
use crate::calls::{count_pages, judge_lent, lend, prepare};
use crate::count::page_count;
use crate::device::{device, Device};
use crate::fault::Fault;
use crate::number::Number;
use crate::rules::{write_page, Chip};
use crate::state::{is_sound, Cycle, Output, State};
use crate::trace::Event;

/// The counts for the cells of a chip's file, with a mistake.
pub(crate) fn file_counts(fault: Fault, device: &Device, cells: &[u8]) -> Vec<u16> {
    let mut counts = vec![0; device.pages()];
    if fault != Fault::CountOfFileIsBlank {
        // Cells of a wrong length are not counted; lending them is refused with the same number.
        count_pages(device.number, cells, &mut counts);
    }
    counts
}

/// `prepare`, with a mistake about counts.
pub fn prepare_wrongly(
    fault: Fault,
    number: u8,
    cells: &mut [u8],
    identification: &mut [u8],
    latch: &mut [u8],
    counts: &mut [u16],
) -> (Number, State) {
    let before = counts.to_vec();
    let right = judge_lent(number, cells, identification, latch, counts);
    if let Some(number) = judged_wrongly(fault, number, right, counts) {
        return (number, State::prepared());
    }
    if fault == Fault::CountsNotJudgedInPreparing && right == Err(Number::Counts) {
        counts.fill(0);
        let mut own = vec![0; device(number).map_or(0, Device::pages)];
        return prepare(number, cells, identification, latch, &mut own);
    }
    let lent = taken(fault, number, counts);
    let prepared = prepare(number, cells, identification, latch, lent);
    if fault == Fault::CountsLeftByPreparing {
        counts.copy_from_slice(&before);
    }
    prepared
}

/// `event`, with a mistake about counts. Others can remember earlier events, so a single one does not make them.
#[allow(clippy::too_many_arguments)] // it is lent what `event` is
pub fn event_wrongly(
    fault: Fault,
    number: u8,
    state: &mut State,
    cells: &mut [u8],
    identification: &mut [u8],
    latch: &mut [u8],
    counts: &mut [u16],
    event: Event,
) -> (Number, Output) {
    let right = judge_lent(number, cells, identification, latch, counts);
    let judged = judged_wrongly(fault, number, right, counts)
        .or_else(|| called_unsound(fault, number, right, state, latch, cells, counts));
    if let Some(number) = judged {
        return (number, Output::Z);
    }
    let lent = taken(fault, number, counts);
    let chip = match lend(number, state, cells, identification, latch, lent) {
        Ok(chip) => chip,
        Err(number) => return (number, Output::Z),
    };
    match tried(fault, chip, event) {
        (Ok(answer), _) => (Number::Done, answer),
        (Err(Number::Miscounted), shown) if fault == Fault::CountWrongAnswersQ => {
            (Number::Miscounted, shown)
        }
        (Err(number), _) => (number, Output::Z),
    }
}

/// What the event gives, by the right rules themselves where there is no mistake, and what Q shows then.
fn tried(fault: Fault, mut chip: Chip, event: Event) -> (Result<Output, Number>, Output) {
    if fault == Fault::None {
        return (chip.try_event(event), chip.state.answer());
    }
    let mut mistaken = Mistaken::new(fault, chip);
    (mistaken.try_event(event), mistaken.chip.state.answer())
}

type Judged = Result<&'static Device, Number>;

/// The number that a mistaken order of lengths gives, or a mistaken length; none where it is the right one's.
fn judged_wrongly(fault: Fault, number: u8, right: Judged, counts: &[u16]) -> Option<Number> {
    let row = device(number)?;
    let is_wrong = counts.len() != row.pages();
    let early = fault == Fault::CountsJudgedBeforeLatch && right == Err(Number::Latch) && is_wrong;
    let one_more = fault == Fault::CountsHaveIdentification && row.has_identification();
    (early || one_more && right == Ok(row)).then_some(Number::Counts)
}

/// 5, where a mistaken judgement of the state gives it.
fn called_unsound(
    fault: Fault,
    number: u8,
    right: Judged,
    state: &State,
    latch: &[u8],
    cells: &[u8],
    counts: &[u16],
) -> Option<Number> {
    let row = device(number)?;
    let unsound = match (fault, right) {
        (Fault::CountsJudgedAfterState, Err(Number::Counts)) => {
            !is_sound(row, state, &latch[row.page..])
        }
        (Fault::CountWrongIsUnsound, Ok(row)) => has_wrong_count(row, cells, counts),
        _ => false,
    };
    unsound.then_some(Number::State)
}

fn has_wrong_count(device: &Device, cells: &[u8], counts: &[u16]) -> bool {
    let mut pages = cells.chunks_exact(device.page).zip(counts);
    pages.any(|(page, &count)| count != page_count(page))
}

/// The part of the lent counts that a device works on which takes more of them than there are pages.
fn taken(fault: Fault, number: u8, counts: &mut [u16]) -> &mut [u16] {
    let Some(row) = device(number) else {
        return counts;
    };
    let is_taken = match fault {
        Fault::CountsLongerTaken => counts.len() > row.pages(),
        Fault::CountsHaveIdentification => {
            row.has_identification() && counts.len() == row.pages() + 1
        }
        _ => false,
    };
    match is_taken {
        true => &mut counts[..row.pages()],
        false => counts,
    }
}

impl Mistaken<'_> {
    /// What refuses an event: power as it should be, and a count by the page that is tested, if one is.
    pub(super) fn refusal(&self, event: Event) -> Option<Number> {
        if event == Event::Power {
            return self.chip.refusal(event);
        }
        let start = self.page_tested(event)?;
        self.is_miscounted(start).then_some(Number::Miscounted)
    }

    /// Where the page begins whose count is tested at this event.
    fn page_tested(&self, event: Event) -> Option<usize> {
        let state = &*self.chip.state;
        let wait = match event {
            Event::Wait(microseconds) => Some(microseconds),
            _ => None,
        };
        let ends = wait.is_some_and(|microseconds| microseconds >= state.time_left);
        let is_tested = match (self.fault, state.cycle) {
            (Fault::CountWrongRefusedAtSelectRise, Cycle::None) => return self.page_started(event),
            (Fault::CountWrongRefusedAtEveryWait, Cycle::Array) => wait.is_some(),
            (Fault::CountWrongRefusedInIdentification, Cycle::Identification)
            | (Fault::CountWrongRefusedInStatus, Cycle::Status)
            | (Fault::CountWrongRefusedInLock, Cycle::Lock)
            | (_, Cycle::Array) => ends,
            _ => false,
        };
        is_tested.then_some(state.page_start)
    }

    /// Where the page begins on which this event would start an array cycle. It is tried out without the lent bytes:
    /// the rise of S looks at none of them.
    fn page_started(&self, event: Event) -> Option<usize> {
        if event != Event::Select(true) {
            return None;
        }
        let mut state = self.chip.state.clone();
        let mut trial = Chip {
            device: self.chip.device,
            state: &mut state,
            cells: &mut [],
            identification: &mut [],
            data: &mut [],
            marks: &mut [],
            counts: &mut [],
        };
        trial.event(event);
        (state.cycle == Cycle::Array).then_some(state.page_start)
    }

    /// Whether the count of the page at `start` is taken for a wrong one.
    fn is_miscounted(&self, start: usize) -> bool {
        let chip = &self.chip;
        let size = chip.device.page;
        let count = chip.counts[start / size];
        match self.fault {
            Fault::CountWrongNotRefused => false,
            Fault::CountWrongOnlyAbove256 => count > 256,
            Fault::CountWrongRefusedForAnyPage => {
                has_wrong_count(chip.device, chip.cells, chip.counts)
            }
            Fault::CountTestedAfterChange | Fault::CountSetAtSelectRise => {
                count != self.count_to_come(start)
            }
            _ => count != self.counted(&chip.cells[start..start + size]),
        }
    }

    /// The number of a page's cells other than FFh, as far as the mistake is not in this.
    fn counted(&self, page: &[u8]) -> u16 {
        let right = page_count(page);
        match self.fault {
            Fault::CountInByte => right & 0xFF,
            Fault::CountOfBlankCells => page.len() as u16 - right,
            Fault::CountSkipsZero => right - page.iter().filter(|&&cell| cell == 0).count() as u16,
            _ => right,
        }
    }

    /// The number of the page's cells other than FFh with the latch written to it.
    fn count_to_come(&self, start: usize) -> u16 {
        let mut page = self.chip.cells[start..start + self.chip.device.page].to_vec();
        write_page(&mut page, self.chip.data, self.chip.marks);
        page_count(&page)
    }

    /// What a refused wait does all the same.
    pub(super) fn after_refusal(&mut self, event: Event) {
        let Event::Wait(microseconds) = event else {
            return;
        };
        let (start, size) = (self.chip.state.page_start, self.chip.device.page);
        let state = &mut *self.chip.state;
        match self.fault {
            Fault::CountWrongTakesTime => {
                state.time_left = state.time_left.saturating_sub(microseconds);
            }
            Fault::CountWrongMendedByRefusal => {
                self.chip.counts[start / size] = page_count(&self.chip.cells[start..start + size]);
            }
            Fault::CountWrongDropsCycle => {
                state.cycle = Cycle::None;
                state.time_left = 0;
                state.write_enable_latch = false;
            }
            _ => {}
        }
    }

    /// Before a wait: the count that its end may find.
    pub(super) fn note_count(&mut self) {
        let page = self.chip.state.page_start / self.chip.device.page;
        self.count_before = self.chip.counts[page];
    }

    /// At the start of an array cycle.
    pub(super) fn after_array_cycle_started(&mut self) {
        if self.fault == Fault::CountSetAtSelectRise {
            let start = self.chip.state.page_start;
            self.chip.counts[start / self.chip.device.page] = self.count_to_come(start);
        }
    }

    /// At the end of a cycle, its change made.
    pub(super) fn after_change(&mut self, was: &State) {
        let (start, size) = (was.page_start, self.chip.device.page);
        let by_identification = self.fault == Fault::CountSetByIdentificationCycle;
        let marked = self.chip.marks.iter().filter(|&&mark| mark == 1).count() as u16;
        let count = match (was.cycle, self.fault) {
            (Cycle::Array, Fault::CountLeftAtCycleEnd) => self.count_before,
            (Cycle::Array, Fault::CountLeftByHeldWrite) if self.held.started => self.count_before,
            (Cycle::Array, Fault::CountAddsMarkedBytes) => self.count_before + marked,
            (Cycle::Array, _) => self.counted(&self.chip.cells[start..start + size]),
            (Cycle::Identification, _) if by_identification => page_count(self.chip.identification),
            _ => return,
        };
        self.chip.counts[start / size] = count;
    }
}
