//! Disturbances of one selection: events put in, taken out or moved at one of its moments.

use super::random::Random;
use crate::trace::Event;

/// Puts `extra` in at `place`.
pub(super) fn insert(events: &mut Vec<Event>, place: usize, extra: &[Event]) {
    events.splice(place..place, extra.iter().copied());
}

/// Any moment of a selection: before its first event, between two, or after its last.
pub(super) fn moment(random: &mut Random, events: &[Event]) -> usize {
    random.below(events.len() + 1)
}

/// A moment inside a selection: after S fell and before it rises.
pub(super) fn inner_moment(random: &mut Random, events: &[Event]) -> usize {
    1 + random.below(events.len() - 1)
}

/// A moment at the end of a byte of a selection: around its eighth rise of C or the fall after it, where a byte is
/// judged or taken. Any moment, where there is none.
pub(super) fn byte_moment(random: &mut Random, events: &[Event]) -> usize {
    let rises = (0..events.len()).filter(|&place| events[place] == Event::Clock(true));
    let eighths: Vec<usize> = rises.skip(7).step_by(8).collect();
    if eighths.is_empty() {
        return moment(random, events);
    }
    let place = random.pick(&eighths) + random.below(4);
    place.saturating_sub(1).min(events.len())
}

/// Either of the two.
pub(super) fn some_moment(random: &mut Random, events: &[Event]) -> usize {
    if random.level() {
        byte_moment(random, events)
    } else {
        moment(random, events)
    }
}

/// W goes low at one moment and high again at the same or a later one.
pub(super) fn pulse_protect(random: &mut Random, events: &mut Vec<Event>) {
    let first = moment(random, events);
    let length = match random.below(3) {
        0 => 0,
        1 => random.below(4),
        _ => random.below(events.len()),
    };
    let last = (first + length).min(events.len());
    insert(events, last, &[Event::Protect(true)]);
    insert(events, first, &[Event::Protect(false)]);
}

/// W goes low and high again inside the selection, in a pause where C is low.
pub(super) fn pulse_protect_inside(random: &mut Random, events: &mut Vec<Event>) {
    let place = inner_moment(random, events);
    let pulse = [Event::Protect(false), Event::Protect(true)];
    if events[place - 1] == Event::Clock(false) {
        insert(events, place, &[Event::Hold(true)]);
        insert(events, place, &pulse);
        insert(events, place, &[Event::Hold(false)]);
    } else {
        insert(events, place, &pulse);
    }
}

/// One wrong edge, more or less. A selection with hardly an edge left is wrong enough already.
pub(super) fn glitch(random: &mut Random, events: &mut Vec<Event>) {
    if events.len() < 4 {
        return;
    }
    let place = inner_moment(random, events);
    match random.below(10) {
        0 => insert(events, place, &[Event::Clock(true), Event::Clock(false)]),
        1 => insert(events, place, &[Event::Clock(false), Event::Clock(true)]),
        2 => drop_clock_pair(random, events),
        3 => drop(events.remove(random.below(events.len()))),
        4 => insert(events, place, &[events[place - 1]]),
        5 => insert(events, place, &[Event::Select(true), Event::Select(false)]),
        6 => insert(events, place, &[Event::Select(false)]),
        7 => drop(events.drain(place..events.len() - 1)),
        8 => append_bits(random, events),
        _ => events.swap(place - 1, place),
    }
}

/// Takes out one clock of a selection, both edges.
fn drop_clock_pair(random: &mut Random, events: &mut Vec<Event>) {
    let is_clock = |event: &Event| matches!(event, Event::Clock(_));
    let clocks: Vec<usize> = (0..events.len())
        .filter(|&place| is_clock(&events[place]))
        .collect();
    if clocks.len() < 2 {
        return;
    }
    let first = random.below(clocks.len() - 1);
    events.remove(clocks[first + 1]);
    events.remove(clocks[first]);
}

/// One bit to two bytes more before S rises.
fn append_bits(random: &mut Random, events: &mut Vec<Event>) {
    let bits = random.pick(&[1, 1, 2, 7, 8, 8, 9, 16]);
    let clock_high = matches!(events[events.len() - 2], Event::Clock(true));
    for _ in 0..bits {
        let end = events.len() - 1;
        insert(
            events,
            end,
            &[Event::Clock(!clock_high), Event::Clock(clock_high)],
        );
    }
}

/// HOLD goes low and high again, with or without clocks, waits and W in between.
pub(super) fn hold(random: &mut Random, events: &mut Vec<Event>) {
    let place = some_moment(random, events);
    match random.below(7) {
        // A pause that the command does not notice when C is low.
        0 => insert(events, place, &[Event::Hold(false), Event::Hold(true)]),
        1 | 2 => insert(events, place, &pause(random)),
        // The clocks of the command itself go on and are lost.
        3 => {
            let last = place + random.below(events.len() - place + 1);
            insert(events, last, &[Event::Hold(true)]);
            insert(events, place, &[Event::Hold(false)]);
        }
        4 => hold_at_start(random, events),
        5 => hold_at_end(random, events),
        _ => pause_at_top_bit(random, events),
    }
}

/// A pause around a fall that shows a top bit: only there does it matter which falls are decoded.
pub(super) fn pause_at_top_bit(random: &mut Random, events: &mut Vec<Event>) {
    let is_fall = |place: &usize| events[*place] == Event::Clock(false);
    let rises = (0..events.len()).filter(|&place| events[place] == Event::Clock(true));
    let falls: Vec<usize> = rises
        .skip(7)
        .step_by(8)
        .filter_map(|eighth| (eighth..events.len()).find(is_fall))
        .collect();
    // The later ones are more likely to show something.
    let later = &falls[falls.len() / 2..];
    if later.is_empty() {
        return;
    }
    let fall = random.pick(later);
    let ways: [&[Event]; 3] = [
        &[
            Event::Hold(false),
            Event::Clock(true),
            Event::Clock(false),
            Event::Hold(true),
        ],
        &[
            Event::Hold(false),
            Event::Clock(true),
            Event::Hold(true),
            Event::Clock(false),
        ],
        &[Event::Hold(true)],
    ];
    let way = random.below(ways.len());
    insert(events, fall + 1, ways[way]);
    // The last way begins its pause with the fall itself.
    if way == 2 {
        insert(events, fall, &[Event::Hold(false)]);
    }
}

/// HOLD low before S falls; high again at any moment, or after clocks that do not count.
pub(super) fn hold_at_start(random: &mut Random, events: &mut Vec<Event>) {
    if random.level() {
        let last = moment(random, events);
        insert(events, last, &[Event::Hold(true)]);
    } else {
        let clocks = [Event::Clock(true), Event::Clock(false)].repeat(1 + random.below(2));
        insert(events, 1, &[Event::Clock(false), Event::Hold(true)]);
        insert(events, 1, &clocks);
    }
    insert(events, 0, &[Event::Hold(false)]);
}

/// HOLD low, some clocks and other things, HOLD high, at every order of the edges of C and HOLD.
fn pause(random: &mut Random) -> Vec<Event> {
    let mut pause = vec![Event::Hold(false)];
    for _ in 0..random.below(6) {
        pause.push(random.pick(&[
            Event::Clock(true),
            Event::Clock(false),
            Event::Clock(true),
            Event::Clock(false),
            Event::Data(true),
            Event::Data(false),
            Event::Protect(false),
            Event::Protect(true),
        ]));
    }
    if random.level() {
        pause.push(Event::Clock(false));
    }
    pause.push(Event::Hold(true));
    if random.level() {
        pause.push(Event::Clock(false));
    }
    pause
}

/// Deselects in hold, or so that only the flag or only the pin says hold.
pub(super) fn hold_at_end(random: &mut Random, events: &mut Vec<Event>) {
    let end = events.len() - 1;
    let ways: [&[Event]; 6] = [
        &[Event::Hold(false)],
        &[Event::Hold(false), Event::Clock(true)],
        &[Event::Hold(false), Event::Clock(true), Event::Hold(true)],
        &[Event::Hold(false), Event::Clock(false)],
        &[Event::Hold(false), Event::Hold(true)],
        &[
            Event::Hold(false),
            Event::Clock(false),
            Event::Clock(true),
            Event::Hold(true),
        ],
    ];
    insert(events, end, random.pick(&ways));
    // With C idle low the last fall can be left out, so that HOLD falls with C high.
    let last_fall = end - 1;
    if events[last_fall] == Event::Clock(false) && random.level() {
        events.remove(last_fall);
    }
}

/// S rises in hold: with C low or high, with HOLD low or high again, after clocks that do not count, with W low. Now
/// and then only the pin says hold. C may rest high, so that it goes low first.
pub(super) fn deselect_in_hold(random: &mut Random, events: &mut Vec<Event>) {
    let end = events.len() - 1;
    let (low, high) = (Event::Clock(false), Event::Clock(true));
    if random.once_in(8) {
        if events[end - 1] == low {
            events.remove(end - 1);
        }
        insert(events, events.len() - 1, &[Event::Hold(false)]);
        return;
    }
    let clocks = [high, low].repeat(random.pick(&[1, 1, 7, 8]));
    let ways: [&[Event]; 6] = [
        &[],
        &[],
        &[high],
        &[high, Event::Hold(true)],
        &clocks,
        &[Event::Protect(false), Event::Protect(true)],
    ];
    insert(events, end, random.pick(&ways));
    insert(events, end, &[low, Event::Hold(false)]);
}

/// One random event; S seldom, C most often.
pub(super) fn noise(random: &mut Random, write_time: u32) -> Event {
    let level = random.level();
    match random.below(40) {
        0..=21 => Event::Clock(level),
        22..=29 => Event::Data(level),
        30 => Event::Select(level),
        31..=34 => Event::Hold(level),
        35..=37 => Event::Protect(level),
        _ => Event::Wait(random.pick(&[0, 1, write_time / 2, write_time])),
    }
}
