//! The proved library for Rust: each call of include/m95.h on slices. A slice is what its pointer and length say, and no two that may
//! be written to overlap, so that all the header asks of a caller holds and every call here is safe.

/// The bytes of a state.
pub const STATE_BYTES: usize = 36;

/// The version that this wrapper was written for; `version` gives that of the library which is linked.
pub const VERSION: usize = 1;

/// The numbers that calls give back, but for 0, which says that all is well.
pub mod refused {
    /// The device is not 1 to 7.
    pub const DEVICE: usize = 1;
    /// Cells of a wrong length.
    pub const CELLS: usize = 2;
    /// Identification page of a wrong length.
    pub const IDENTIFICATION: usize = 3;
    /// Latch of a wrong length.
    pub const LATCH: usize = 4;
    /// The state's bytes are no state or not a sound one, or a mark of the latch is neither 0 nor 1.
    pub const STATE: usize = 5;
    /// A record is cut short.
    pub const CUT: usize = 6;
    /// A record's or an event's kind is unknown.
    pub const KIND: usize = 7;
    /// A record's length is not its kind's.
    pub const LENGTH: usize = 8;
    /// A pin byte is above 9.
    pub const PIN: usize = 9;
    /// No answer byte is left.
    pub const ANSWERS: usize = 10;
    /// Power during a write cycle.
    pub const POWER: usize = 11;
    /// An address past the cells.
    pub const ADDRESS: usize = 13;
    /// Counts of a wrong length: not one for each page.
    pub const COUNTS: usize = 14;
    /// A wait that would end the write to a page whose count is not the number of its cells other than FFh.
    pub const COUNT: usize = 15;
}

/// Kinds of events; what the value of each is stands beside it.
pub mod kind {
    /// The pin plus 0 for low or 1 for high.
    pub const SET_PIN: usize = 1;
    /// Microseconds.
    pub const WAIT: usize = 2;
    /// Not looked at.
    pub const POWER_CYCLE: usize = 3;
}

/// The pins.
pub mod pin {
    pub const C: usize = 0;
    pub const D: usize = 2;
    pub const S: usize = 4;
    pub const HOLD: usize = 6;
    pub const W: usize = 8;
}

/// What can be looked at: the cells, a page at a time, or the identification page. The numbers are those of m95.h.
#[derive(Clone, Copy, Debug, PartialEq, Eq)]
pub enum Region {
    Cells = 0,
    Identification = 1,
}

mod c {
    extern "C" {
        pub fn m95_version() -> usize;
        pub fn m95_cells(device: usize) -> usize;
        pub fn m95_page(device: usize) -> usize;
        pub fn m95_identification(device: usize) -> usize;
        pub fn m95_pages(device: usize) -> usize;
        pub fn m95_refusal(
            device: usize,
            state: *const u8,
            state_length: usize,
            cells: *const u8,
            cells_length: usize,
            identification: *const u8,
            identification_length: usize,
            latch: *const u8,
            latch_length: usize,
            counts: *const u16,
            counts_length: usize,
        ) -> usize;
        pub fn m95_prepare(
            device: usize,
            state: *mut u8,
            state_length: usize,
            cells: *mut u8,
            cells_length: usize,
            identification: *mut u8,
            identification_length: usize,
            latch: *mut u8,
            latch_length: usize,
            counts: *mut u16,
            counts_length: usize,
        ) -> usize;
        pub fn m95_count_pages(
            device: usize,
            cells: *const u8,
            cells_length: usize,
            counts: *mut u16,
            counts_length: usize,
        ) -> usize;
        pub fn m95_first_blank(
            device: usize,
            counts: *const u16,
            counts_length: usize,
            found: *mut usize,
            page: *mut usize,
        ) -> usize;
        pub fn m95_load(
            device: usize,
            state: *mut u8,
            state_length: usize,
            status: usize,
            lock: usize,
        ) -> usize;
        pub fn m95_event(
            device: usize,
            state: *mut u8,
            state_length: usize,
            cells: *mut u8,
            cells_length: usize,
            identification: *mut u8,
            identification_length: usize,
            latch: *mut u8,
            latch_length: usize,
            counts: *mut u16,
            counts_length: usize,
            kind: usize,
            value: usize,
            answer: *mut usize,
        ) -> usize;
        pub fn m95_run(
            device: usize,
            state: *mut u8,
            state_length: usize,
            cells: *mut u8,
            cells_length: usize,
            identification: *mut u8,
            identification_length: usize,
            latch: *mut u8,
            latch_length: usize,
            counts: *mut u16,
            counts_length: usize,
            trace: *const u8,
            trace_length: usize,
            answers: *mut u8,
            answers_length: usize,
            limit: usize,
            taken: *mut usize,
            done: *mut usize,
        ) -> usize;
        pub fn m95_status_byte(state: *const u8, state_length: usize, status: *mut usize) -> usize;
        pub fn m95_stored(
            state: *const u8,
            state_length: usize,
            status: *mut usize,
            lock: *mut usize,
        ) -> usize;
        pub fn m95_view(
            device: usize,
            region: usize,
            cells: *const u8,
            cells_length: usize,
            identification: *const u8,
            identification_length: usize,
            address: usize,
            start: *mut usize,
            length: *mut usize,
        ) -> usize;
    }
}

/// A call on a device's five buffers, each as its pointer, got by `$pointer`, and its length; what more the call takes comes after them.
macro_rules! lend {
    ($call:ident, $pointer:ident, $device:expr, $lent:expr $(, $more:expr)*) => {
        c::$call(
            $device,
            $lent.state.$pointer(),
            $lent.state.len(),
            $lent.cells.$pointer(),
            $lent.cells.len(),
            $lent.identification.$pointer(),
            $lent.identification.len(),
            $lent.latch.$pointer(),
            $lent.latch.len(),
            $lent.counts.$pointer(),
            $lent.counts.len()
            $(, $more)*
        )
    };
}

/// A device's five buffers, lent to a call.
pub struct Lent<'a> {
    pub state: &'a mut [u8],
    pub cells: &'a mut [u8],
    pub identification: &'a mut [u8],
    pub latch: &'a mut [u8],
    /// For each page how many of its cells are other than FFh.
    pub counts: &'a mut [u16],
}

/// How a trace ended: its number, the bytes that the records done took, and how many they are.
#[must_use]
#[derive(Clone, Copy, Debug, PartialEq, Eq)]
pub struct Ran {
    pub number: usize,
    pub taken: usize,
    pub done: usize,
}

/// A number that changes when the bytes of a state change their meaning: states saved under another one must not be lent.
pub fn version() -> usize {
    // SAFETY: it gives a number only.
    unsafe { c::m95_version() }
}

/// The cells of a device; 0 for a number that is no device's.
pub fn cells(device: usize) -> usize {
    // SAFETY: it takes and gives numbers only.
    unsafe { c::m95_cells(device) }
}

/// The bytes of a page of a device; 0 for a number that is no device's.
pub fn page(device: usize) -> usize {
    // SAFETY: it takes and gives numbers only.
    unsafe { c::m95_page(device) }
}

/// The bytes of a device's identification page, 0 where it has none; 0 for a number that is no device's.
pub fn identification(device: usize) -> usize {
    // SAFETY: it takes and gives numbers only.
    unsafe { c::m95_identification(device) }
}

/// The pages that a device's cells make, each of which has a count; 0 for a number that is no device's.
pub fn pages(device: usize) -> usize {
    // SAFETY: it takes and gives numbers only.
    unsafe { c::m95_pages(device) }
}

/// What `event` and `run` refuse the buffers with: 1 to 4, 14, 5, or 0. What the counts say is not looked at.
#[must_use]
pub fn refusal(device: usize, lent: &Lent) -> usize {
    // SAFETY: each pointer is a slice's, with the slice's length, and nothing is written.
    unsafe { lend!(m95_refusal, as_ptr, device, lent) }
}

/// Prepares a device: 1 to 4, 14, 5 for a state's room of a wrong length, or 0. Refused with 1 to 4 or 14 it puts the prepared state all
/// the same.
#[must_use]
pub fn prepare(device: usize, lent: &mut Lent) -> usize {
    // SAFETY: each pointer is a slice's, with the slice's length, and the slices are lent for writing, so that none overlap.
    unsafe { lend!(m95_prepare, as_mut_ptr, device, lent) }
}

/// Counts each page of a device afresh from its cells: 1, 2, 14, or 0; refused, it leaves the counts. For whoever fills cells otherwise than
/// by `prepare` and events: before the next event, since a write to a page that is not counted right does not end.
#[must_use]
pub fn count_pages(device: usize, cells: &[u8], counts: &mut [u16]) -> usize {
    // SAFETY: each pointer is a slice's, with the slice's length, and the counts are lent for writing.
    unsafe {
        c::m95_count_pages(
            device,
            cells.as_ptr(),
            cells.len(),
            counts.as_mut_ptr(),
            counts.len(),
        )
    }
}

/// The lowest page that has a count of 0, or `None` where no page has; refused with 1 or 14. A page is given by its number: its cells start at
/// that times `page`. No cell is read, and wrong counts are taken at their word: after cells were filled otherwise than by `prepare` and
/// events, `count_pages` comes first.
pub fn first_blank(device: usize, counts: &[u16]) -> Result<Option<usize>, usize> {
    let (mut found, mut page) = (0, 0);
    // SAFETY: the pointer is a slice's, with the slice's length; found and page are local numbers.
    let number =
        unsafe { c::m95_first_blank(device, counts.as_ptr(), counts.len(), &mut found, &mut page) };
    match number {
        0 => Ok((found == 1).then_some(page)),
        number => Err(number),
    }
}

/// Puts the state of a device that has just got its power, with the status bits and the lock that it has stored: 1; 5 for a room of a
/// wrong length, bits that the device has not, or a lock that is neither 0 nor, where there is an identification page, 1; or 0. Refused, it
/// leaves the room as it was.
#[must_use]
pub fn load(device: usize, state: &mut [u8], status: usize, lock: usize) -> usize {
    // SAFETY: the pointer is a slice's, with the slice's length, and the slice is lent for writing.
    unsafe { c::m95_load(device, state.as_mut_ptr(), state.len(), status, lock) }
}

/// One event, by its kind and its value: its number, and how it answers (0, 1, or 2 for Z). The wait that ends a write to a page sets the
/// page's count; where that is wrong already, it gets 15 and nothing changes.
#[must_use]
pub fn event(device: usize, lent: &mut Lent, kind: usize, value: usize) -> (usize, usize) {
    let mut answer = 0;
    // SAFETY: as for `prepare`; the answer is a local number.
    let number = unsafe {
        lend!(
            m95_event,
            as_mut_ptr,
            device,
            lent,
            kind,
            value,
            &mut answer
        )
    };
    (number, answer)
}

/// At most `limit` records of a trace, with one answer for each that was done.
pub fn run(device: usize, lent: &mut Lent, trace: &[u8], answers: &mut [u8], limit: usize) -> Ran {
    let (mut taken, mut done) = (0, 0);
    // SAFETY: as for `prepare`; the trace is only read, and the answers are lent for writing too.
    let number = unsafe {
        lend!(
            m95_run,
            as_mut_ptr,
            device,
            lent,
            trace.as_ptr(),
            trace.len(),
            answers.as_mut_ptr(),
            answers.len(),
            limit,
            &mut taken,
            &mut done
        )
    };
    Ran {
        number,
        taken,
        done,
    }
}

/// The byte that RDSR would send, or the number 5 for bytes that are no state. Soundness is not judged: of a state that `refusal` gives 5
/// for, the status may be above 255.
pub fn status_byte(state: &[u8]) -> Result<usize, usize> {
    let mut status = 0;
    // SAFETY: the pointer is a slice's, with the slice's length; the status is a local number.
    match unsafe { c::m95_status_byte(state.as_ptr(), state.len(), &mut status) } {
        0 => Ok(status),
        number => Err(number),
    }
}

/// The status bits and the lock, 0 or 1, that a state has stored, or the number 5 for bytes that are no state. Soundness is not judged.
pub fn stored(state: &[u8]) -> Result<(usize, usize), usize> {
    let (mut status, mut lock) = (0, 0);
    // SAFETY: the pointer is a slice's, with the slice's length; status and lock are local numbers.
    match unsafe { c::m95_stored(state.as_ptr(), state.len(), &mut status, &mut lock) } {
        0 => Ok((status, lock)),
        number => Err(number),
    }
}

/// A view of a region: of the cells the page that holds the address, of the identification page all, whatever the address (nothing where the
/// device has none). It is refused
/// with 1, with 2 and 3 whichever slice was asked for, and for the cells alone with 13.
pub fn view<'a>(
    device: usize,
    region: Region,
    cells: &'a [u8],
    identification: &'a [u8],
    address: usize,
) -> Result<&'a [u8], usize> {
    let (mut start, mut length) = (0, 0);
    // SAFETY: each pointer is a slice's, with the slice's length; start and length are local numbers.
    let number = unsafe {
        c::m95_view(
            device,
            region as usize,
            cells.as_ptr(),
            cells.len(),
            identification.as_ptr(),
            identification.len(),
            address,
            &mut start,
            &mut length,
        )
    };
    let buffer = match region {
        Region::Cells => cells,
        Region::Identification => identification,
    };
    match number {
        0 => Ok(&buffer[start..start + length]),
        number => Err(number),
    }
}
