//! Events, and the records that carry them (document 01, "Events" and "Traces").

use crate::number::Number;

/// One thing that happens to a device. A level is true when high.
#[derive(Clone, Copy, Debug, PartialEq, Eq)]
pub enum Event {
    Clock(bool),
    Data(bool),
    Select(bool),
    Hold(bool),
    Protect(bool),
    Wait(u32),
    Power,
}

/// The length field and the kind; the length field counts what follows it, the kind included.
pub(crate) const HEAD: usize = 4;
const LENGTH_FIELD: usize = 2;
const PIN_KIND: u16 = 1;
const WAIT_KIND: u16 = 2;
const POWER_KIND: u16 = 3;
const PIN_LENGTH: u16 = 3;
const WAIT_LENGTH: u16 = 6;
const POWER_LENGTH: u16 = 2;

/// The length field and the kind of the record at the start of `bytes`, which hold at least a head.
#[inline(always)]
pub(crate) fn head(bytes: &[u8]) -> (u16, u16) {
    let length = u16::from_le_bytes([bytes[0], bytes[1]]);
    let kind = u16::from_le_bytes([bytes[2], bytes[3]]);
    (length, kind)
}

/// The bytes that a record with this length field takes in all.
#[inline(always)]
pub(crate) fn record_bytes(length: u16) -> usize {
    LENGTH_FIELD + usize::from(length)
}

/// The length that a kind has, or none where there is no such kind.
#[inline(always)]
pub(crate) fn length_of(kind: u16) -> Option<u16> {
    match kind {
        PIN_KIND => Some(PIN_LENGTH),
        WAIT_KIND => Some(WAIT_LENGTH),
        POWER_KIND => Some(POWER_LENGTH),
        _ => None,
    }
}

/// Reads the record at the start of `bytes`: its event and the bytes it takes, or the number that refuses it. The
/// order is that of "Numbers given back": 6 for the head, 7, 8, 6 for the body, 9.
#[inline(always)]
pub(crate) fn read_record(bytes: &[u8]) -> Result<(Event, usize), Number> {
    if bytes.len() < HEAD {
        return Err(Number::Cut);
    }
    let (length, kind) = head(bytes);
    if length != length_of(kind).ok_or(Number::Kind)? {
        return Err(Number::Length);
    }
    let size = record_bytes(length);
    if bytes.len() < size {
        return Err(Number::Cut);
    }
    let event = match (kind, &bytes[HEAD..size]) {
        (PIN_KIND, &[pin]) => pin_event(pin)?,
        (WAIT_KIND, &[a, b, c, d]) => Event::Wait(u32::from_le_bytes([a, b, c, d])),
        _ => Event::Power,
    };
    Ok((event, size))
}

/// The pin byte is twice the pin number plus the level.
#[inline(always)]
fn pin_event(byte: u8) -> Result<Event, Number> {
    let level = byte & 1 == 1;
    match byte >> 1 {
        0 => Ok(Event::Clock(level)),
        1 => Ok(Event::Data(level)),
        2 => Ok(Event::Select(level)),
        3 => Ok(Event::Hold(level)),
        4 => Ok(Event::Protect(level)),
        _ => Err(Number::Pin),
    }
}

/// Appends the record of `event` to a trace.
pub fn append_record(trace: &mut Vec<u8>, event: Event) {
    let pin = |trace: &mut Vec<u8>, number: u8, level: bool| {
        append_head(trace, PIN_LENGTH, PIN_KIND);
        trace.push(number << 1 | u8::from(level));
    };
    match event {
        Event::Clock(level) => pin(trace, 0, level),
        Event::Data(level) => pin(trace, 1, level),
        Event::Select(level) => pin(trace, 2, level),
        Event::Hold(level) => pin(trace, 3, level),
        Event::Protect(level) => pin(trace, 4, level),
        Event::Wait(microseconds) => {
            append_head(trace, WAIT_LENGTH, WAIT_KIND);
            trace.extend_from_slice(&microseconds.to_le_bytes());
        }
        Event::Power => append_head(trace, POWER_LENGTH, POWER_KIND),
    }
}

fn append_head(trace: &mut Vec<u8>, length: u16, kind: u16) {
    trace.extend_from_slice(&length.to_le_bytes());
    trace.extend_from_slice(&kind.to_le_bytes());
}
