//! Mistakes of looking for the first blank page (document 02, W-205).

use crate::calls::first_blank;
use crate::device::{device, Device, DEVICES};
use crate::fault::Fault;
use crate::number::Number;

/// What the call gives.
type Answer = (Number, Option<usize>);

/// `first_blank`, with a mistake.
pub fn first_blank_wrongly(fault: Fault, number: u8, counts: &[u16]) -> Answer {
    let right = first_blank(number, counts);
    if fault == Fault::BlankLentRefusalIsPage && right.0 != Number::Done {
        return (right.0, Some(0));
    }
    match device(number) {
        None => without_device(fault, counts),
        Some(row) if right.0 == Number::Done => of_right_length(fault, row, counts),
        Some(row) => of_wrong_length(fault, row, counts),
    }
}

/// The first page whose count is 0, however many counts there are.
fn searched(counts: &[u16]) -> Answer {
    (Number::Done, first(counts, |count| count == 0))
}

fn first(counts: &[u16], is_blank: impl Fn(u16) -> bool) -> Option<usize> {
    counts.iter().position(|&count| is_blank(count))
}

fn has_length_of_a_device(counts: &[u16]) -> bool {
    DEVICES.iter().any(|row| row.pages() == counts.len())
}

/// Where the right one gives 1.
fn without_device(fault: Fault, counts: &[u16]) -> Answer {
    match fault {
        Fault::BlankLentDeviceTaken => searched(counts),
        Fault::BlankLentDeviceIs14 => (Number::Counts, None),
        Fault::BlankLentJudgedFirst if !has_length_of_a_device(counts) => (Number::Counts, None),
        _ => (Number::Device, None),
    }
}

/// Where the right one gives 14.
fn of_wrong_length(fault: Fault, row: &Device, counts: &[u16]) -> Answer {
    let (pages, lent) = (row.pages(), counts.len());
    match fault {
        Fault::BlankLentSmallerUnknown if !row.has_identification() => (Number::Device, None),
        Fault::BlankLentRefusalIsNone => (Number::Done, None),
        Fault::BlankLentEmptyTaken if lent == 0 => (Number::Done, None),
        Fault::BlankLentLongerTaken if lent > pages => searched(&counts[..pages]),
        Fault::BlankLentLongerSearched if lent > pages => searched(counts),
        Fault::BlankLentShorterTaken if lent < pages => searched(counts),
        Fault::BlankLentOfOtherTaken if has_length_of_a_device(counts) => searched(counts),
        Fault::BlankLentHasIdentification if row.has_identification() && lent == pages + 1 => {
            searched(&counts[..pages])
        }
        _ => (Number::Counts, None),
    }
}

/// Where the right one searches.
fn of_right_length(fault: Fault, row: &Device, counts: &[u16]) -> Answer {
    let right = first_blank(row.number, counts);
    let impossible = || first(counts, |count| usize::from(count) > row.page);
    // Where the search ends, by a page that is found or by the last one.
    let end = right.1.unwrap_or(row.pages());
    match fault {
        Fault::BlankLentSmallerUnknown if !row.has_identification() => (Number::Device, None),
        Fault::BlankLentHasIdentification if row.has_identification() => (Number::Counts, None),
        Fault::BlankNoneIsRefused if right.1.is_none() => (Number::Counts, None),
        Fault::BlankWrongRefused if impossible().is_some_and(|page| page < end) => {
            (Number::Miscounted, None)
        }
        Fault::BlankWrongEndsSearch if impossible().is_some_and(|page| page < end) => {
            (Number::Done, None)
        }
        _ => {
            let found = found_wrongly(fault, row, counts, right.1);
            (Number::Done, told_wrongly(fault, row, found))
        }
    }
}

/// The mistakes about which pages are looked at and which of them are blank.
fn found_wrongly(
    fault: Fault,
    row: &Device,
    counts: &[u16],
    right: Option<usize>,
) -> Option<usize> {
    let last = row.pages() - 1;
    let full = row.page as u16;
    match fault {
        Fault::BlankIsLast => counts.iter().rposition(|&count| count == 0),
        Fault::BlankBehindLastWritten => behind_last_written(counts),
        Fault::BlankZeroNotLookedAt => {
            first(&counts[1..], |count| count == 0).map(|behind| behind + 1)
        }
        Fault::BlankLastNotLookedAt => right.filter(|&page| page < last),
        Fault::BlankPast255NotLookedAt => right.filter(|&page| page < 256),
        Fault::BlankEndsAtWritten => right.filter(|&page| page == 0),
        Fault::BlankByLowByte => first(counts, |count| count as u8 == 0),
        Fault::BlankTakesFull => first(counts, |count| count == 0 || count == full),
        Fault::BlankIsFull => first(counts, |count| count == full),
        Fault::BlankTakesOneCell => first(counts, |count| count <= 1),
        Fault::BlankIsLeastWritten => (0..=last).min_by_key(|&page| counts[page]),
        Fault::BlankWrongIsBlank => first(counts, |count| count == 0 || count > full),
        Fault::BlankWrongIsNegative => first(counts, |count| (count as i16) < 1),
        _ => right,
    }
}

fn behind_last_written(counts: &[u16]) -> Option<usize> {
    let written = counts.iter().rposition(|&count| count != 0);
    let behind = written.map_or(0, |page| page + 1);
    (behind < counts.len()).then_some(behind)
}

/// The mistakes about how a page that was found is told, or that none was.
fn told_wrongly(fault: Fault, row: &Device, found: Option<usize>) -> Option<usize> {
    match (fault, found) {
        (Fault::BlankIsAddress, Some(page)) => Some(page * row.page),
        (Fault::BlankFromOne, Some(page)) => Some(page + 1),
        (Fault::BlankNumberInByte, Some(page)) => Some(page & 0xFF),
        (Fault::BlankNoneIsZero, None) => Some(0),
        (Fault::BlankNoneIsLast, None) => Some(row.pages() - 1),
        (Fault::BlankNoneIsPages, None) => Some(row.pages()),
        _ => found,
    }
}
