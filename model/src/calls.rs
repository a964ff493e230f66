//! The calls of the library (document 01, "Traces" and "Numbers given back"; document 02, W-201, W-202, W-204 and
//! W-205). A refused call leaves what the table of numbers says.

use crate::count::page_count;
use crate::device::{device, Device};
use crate::number::Number;
use crate::rules::Chip;
use crate::state::{is_sound, Output, State};
use crate::trace::{read_record, Event};

/// How running a trace ended.
#[derive(Clone, Copy, Debug, PartialEq, Eq)]
pub struct Ran {
    pub number: Number,
    /// Records done, each with its answer.
    pub done: usize,
    /// Bytes that they took.
    pub taken: usize,
}

impl Ran {
    /// Refused before the first record.
    pub(crate) fn refused(number: Number) -> Ran {
        Ran {
            number,
            done: 0,
            taken: 0,
        }
    }
}

/// Prepares a device. Latch and counts may hold anything before; they are overwritten. All cells are blank then, and so
/// every count is 0.
pub fn prepare(
    device: u8,
    cells: &mut [u8],
    identification: &mut [u8],
    latch: &mut [u8],
    counts: &mut [u16],
) -> (Number, State) {
    let row = match judge_lent(device, cells, identification, latch, counts) {
        Ok(row) => row,
        Err(number) => return (number, State::prepared()),
    };
    cells.fill(0xFF);
    identification.fill(0xFF);
    latch.fill(0);
    counts.fill(0);
    identification[..row.identification_code.len()].copy_from_slice(row.identification_code);
    (Number::Done, State::prepared())
}

/// The state after power of a device that keeps these status bits and this lock: a prepared one but for them. It gives
/// 1, then 5 for bits that the device has not and for a lock other than 0 and 1, or other than 0 where there is no
/// identification page to lock; refused, the state is that of a prepared device.
pub fn load(number: u8, status: u8, lock: u8) -> (Number, State) {
    let prepared = State::prepared();
    let Some(row) = device(number) else {
        return (Number::Device, prepared);
    };
    if !row.has_bits(status) || lock > u8::from(row.has_identification()) {
        return (Number::State, prepared);
    }
    let loaded = State {
        status,
        locked: lock == 1,
        ..prepared
    };
    (Number::Done, loaded)
}

/// What a device would keep without power: the status bits, where the status register has them, and the lock, 0 or 1.
/// The change of a running cycle has not come yet, so it is not among them. Bits that only an unsound state can hold
/// are given as they are, so that `load` refuses them and nothing is mended unseen.
pub fn stored(state: &State) -> (u8, u8) {
    (state.status, state.locked.into())
}

/// Counts each page afresh from its cells, for whoever fills cells otherwise than by preparing and events; without it
/// the next cycle on such a page could not end. It gives 1, 2, then 14, and changes nothing then.
pub fn count_pages(number: u8, cells: &[u8], counts: &mut [u16]) -> Number {
    let row = match judge_cells(number, cells).and_then(|row| judge_counts(row, counts)) {
        Ok(row) => row,
        Err(number) => return number,
    };
    for (count, page) in counts.iter_mut().zip(cells.chunks_exact(row.page)) {
        *count = page_count(page);
    }
    Number::Done
}

/// Where there is room: the number, from 0, of the first page that counts no written cell, or none where every page
/// has one. It is lent no cells, so it takes each count as it stands, a wrong one too. It gives 1, then 14, and no page
/// then.
pub fn first_blank(number: u8, counts: &[u16]) -> (Number, Option<usize>) {
    let row = device(number).ok_or(Number::Device);
    match row.and_then(|row| judge_counts(row, counts)) {
        Ok(_) => (Number::Done, counts.iter().position(|&count| count == 0)),
        Err(number) => (number, None),
    }
}

/// Does one event; a refused one answers Z.
pub fn event(
    device: u8,
    state: &mut State,
    cells: &mut [u8],
    identification: &mut [u8],
    latch: &mut [u8],
    counts: &mut [u16],
    event: Event,
) -> (Number, Output) {
    let mut chip = match lend(device, state, cells, identification, latch, counts) {
        Ok(chip) => chip,
        Err(number) => return (number, Output::Z),
    };
    match chip.try_event(event) {
        Ok(answer) => (Number::Done, answer),
        Err(number) => (number, Output::Z),
    }
}

/// Runs at most `limit` records of a trace and writes one answer byte for each.
#[allow(clippy::too_many_arguments)] // document 01 lends each buffer by itself
pub fn run(
    device: u8,
    state: &mut State,
    cells: &mut [u8],
    identification: &mut [u8],
    latch: &mut [u8],
    counts: &mut [u16],
    trace: &[u8],
    answers: &mut [u8],
    limit: usize,
) -> Ran {
    match lend(device, state, cells, identification, latch, counts) {
        Ok(mut chip) => run_records(&mut chip, trace, answers, limit),
        Err(number) => Ran::refused(number),
    }
}

/// The loop over the records. At the limit nothing more is looked at; a refused record has done nothing.
pub(crate) fn run_records(chip: &mut Chip, trace: &[u8], answers: &mut [u8], limit: usize) -> Ran {
    let (mut done, mut taken) = (0, 0);
    while done < limit && taken < trace.len() {
        let record = judge_record(&trace[taken..], done < answers.len());
        match record.and_then(|(event, bytes)| Ok((chip.try_event(event)?, bytes))) {
            Ok((answer, bytes)) => {
                answers[done] = answer as u8;
                done += 1;
                taken += bytes;
            }
            Err(number) => {
                return Ran {
                    number,
                    done,
                    taken,
                }
            }
        }
    }
    Ran {
        number: Number::Done,
        done,
        taken,
    }
}

/// All that can refuse a record before its event is tried: what `read_record` judges, then 10.
#[inline(always)]
pub(crate) fn judge_record(bytes: &[u8], has_room: bool) -> Result<(Event, usize), Number> {
    let record = read_record(bytes)?;
    if has_room {
        Ok(record)
    } else {
        Err(Number::Answers)
    }
}

/// The lent buffer that a view shows a page of.
#[derive(Clone, Copy, Debug, PartialEq, Eq)]
pub enum Region {
    Cells,
    Identification,
}

/// Shows a page of one region, lent and not copied: the page of cells that holds `address`, or the identification page,
/// which needs no address and looks at none. A device without that page has one of no bytes to show. Both slices are
/// judged whichever is shown, so a caller that mixes them up learns of it from either region. A refused view shows an
/// empty part.
pub fn view<'a>(
    number: u8,
    region: Region,
    cells: &'a [u8],
    identification: &'a [u8],
    address: usize,
) -> (Number, &'a [u8]) {
    let row = match judge_stored(number, cells, identification) {
        Ok(row) => row,
        Err(number) => return (number, &[]),
    };
    match region {
        Region::Identification => (Number::Done, identification),
        Region::Cells if address >= row.cells => (Number::Address, &[]),
        Region::Cells => {
            let start = address & !(row.page - 1);
            (Number::Done, &cells[start..start + row.page])
        }
    }
}

/// Numbers 1 and 2, in their order: what every call that is lent a chip's bytes judges first.
fn judge_cells(number: u8, cells: &[u8]) -> Result<&'static Device, Number> {
    let row = device(number).ok_or(Number::Device)?;
    if cells.len() != row.cells {
        return Err(Number::Cells);
    }
    Ok(row)
}

/// Numbers 1 to 3, in their order.
fn judge_stored(
    number: u8,
    cells: &[u8],
    identification: &[u8],
) -> Result<&'static Device, Number> {
    let row = judge_cells(number, cells)?;
    if identification.len() != row.identification {
        return Err(Number::Identification);
    }
    Ok(row)
}

/// Number 14. The counts themselves are not judged: a wrong one is found where its page is written.
fn judge_counts(row: &'static Device, counts: &[u16]) -> Result<&'static Device, Number> {
    if counts.len() != row.pages() {
        return Err(Number::Counts);
    }
    Ok(row)
}

/// Numbers 1 to 4, then 14, in this order.
pub(crate) fn judge_lent(
    number: u8,
    cells: &[u8],
    identification: &[u8],
    latch: &[u8],
    counts: &[u16],
) -> Result<&'static Device, Number> {
    let row = judge_stored(number, cells, identification)?;
    if latch.len() != 2 * row.page {
        return Err(Number::Latch);
    }
    judge_counts(row, counts)
}

/// Numbers 1 to 4, 14 and 5, then the chip that the rules work on. Lengths come before the state.
pub(crate) fn lend<'a>(
    number: u8,
    state: &'a mut State,
    cells: &'a mut [u8],
    identification: &'a mut [u8],
    latch: &'a mut [u8],
    counts: &'a mut [u16],
) -> Result<Chip<'a>, Number> {
    let device = judge_lent(number, cells, identification, latch, counts)?;
    let (data, marks) = latch.split_at_mut(device.page);
    if !is_sound(device, state, marks) {
        return Err(Number::State);
    }
    Ok(Chip {
        device,
        state,
        cells,
        identification,
        data,
        marks,
        counts,
    })
}
