//! Generated traces of all profiles and devices: states stay sound, and broken selections leave nothing behind, whether
//! the counts agree with the cells or not.

mod common;

use common::Board;
use m95_model::generate::{
    counts, events, records_of, tail, trace, Counting, Profile, Random, INSTRUCTIONS, TAILS,
};
use m95_model::{
    is_sound, play, status_byte, Contents, Cycle, Device, Event, Number, Output, State, DEVICES,
};

const RECORDS: usize = 12_000;

/// What the outside can ever learn of a board, apart from answers.
fn visible(board: &Board) -> (&[u8], &[u8], &[u16], u8, bool, u8) {
    (
        &board.cells,
        &board.identification,
        &board.counts,
        board.state.status,
        board.state.locked,
        status_byte(&board.state),
    )
}

/// Broken selections are few in most profiles, so their tests take several traces of each.
const SEEDS: std::ops::Range<u64> = 2..5;

fn all_profiles() -> impl Iterator<Item = (Profile, &'static Device)> {
    Profile::ALL
        .into_iter()
        .flat_map(|profile| DEVICES.iter().map(move |device| (profile, device)))
}

fn all_traces() -> impl Iterator<Item = ((Profile, &'static Device), u64)> {
    all_profiles().flat_map(|one| SEEDS.map(move |seed| (one, seed)))
}

#[test]
fn states_stay_sound() {
    for (profile, device) in all_profiles() {
        let mut board = Board::new(device.number);
        for (index, happening) in events(profile, device, 1, RECORDS).into_iter().enumerate() {
            let (number, _) = board.try_set(happening);
            let place = format!("{profile:?} device {} record {index}", device.number);
            assert_eq!(number, Number::Done, "{place}");
            assert!(is_sound(device, &board.state, board.marks()), "{place}");
        }
    }
}

/// One selection of a trace: from the fall of S that selects to the rise that deselects.
struct Selection {
    first: usize,
    last: usize,
    rises: usize,
    has_power: bool,
}

/// The selections of a trace, found by watching the device itself: only it knows which rises were decoded.
fn selections(mut board: Board, events: &[Event]) -> Vec<Selection> {
    let mut found = Vec::new();
    let mut open: Option<Selection> = None;
    for (index, &happening) in events.iter().enumerate() {
        let before = board.state.clone();
        board.try_set(happening);
        if let Some(selection) = &mut open {
            let rise = happening == Event::Clock(true) && !before.clock;
            selection.rises += usize::from(rise && before.selected && !before.held);
            selection.has_power |= happening == Event::Power;
        }
        let falls = happening == Event::Select(false) && before.select;
        let rises = happening == Event::Select(true) && !before.select;
        if falls {
            open = Some(Selection {
                first: index,
                last: index,
                rises: 0,
                has_power: false,
            });
        } else if rises {
            if let Some(selection) = open.take() {
                found.push(Selection {
                    last: index,
                    ..selection
                });
            }
        }
    }
    found
}

fn is_broken(selection: &Selection) -> bool {
    let whole_bytes = selection.rises > 0 && selection.rises.is_multiple_of(8);
    !whole_bytes && !selection.has_power
}

/// Takes out the two edges of S of each broken selection, so that all other pins and the time go on as before, and
/// compares everything outside those selections.
#[test]
fn broken_selections_leave_nothing_behind() {
    let mut taken_out = 0;
    for ((profile, device), seed) in all_traces() {
        let events = events(profile, device, seed, RECORDS);
        taken_out += take_out_broken(profile, || Board::new(device.number), &events).0;
    }
    assert!(taken_out > 1000, "only {taken_out} broken selections");
}

/// 204.8: agreeing counts are not needed for it. A cycle on a page with a wrong count goes on in both runs, and the
/// same waits are refused in both.
#[test]
fn broken_selections_leave_nothing_behind_with_wrong_counts() {
    let (mut taken_out, mut refused) = (0, 0);
    for ((profile, device), seed) in all_traces() {
        let events = events(profile, device, seed, RECORDS);
        for counting in [Counting::OneMore, Counting::AllWrong] {
            let start = || {
                let mut board = Board::new(device.number);
                let mut random = Random::new(seed);
                board.counts = counts(counting, device, &board.state, &board.cells, &mut random);
                board
            };
            let (selections, waits) = take_out_broken(profile, start, &events);
            taken_out += selections;
            refused += waits;
        }
    }
    assert!(taken_out > 1000, "only {taken_out} broken selections");
    assert!(refused > 500, "only {refused} waits refused with 15");
}

/// Gives the number of broken selections, and of events refused with 15.
fn take_out_broken(
    profile: Profile,
    start: impl Fn() -> Board,
    events: &[Event],
) -> (usize, usize) {
    let mut removed = vec![false; events.len()];
    let mut inside = vec![false; events.len()];
    let mut taken_out = 0;
    for broken in selections(start(), events)
        .iter()
        .filter(|one| is_broken(one))
    {
        removed[broken.first] = true;
        removed[broken.last] = true;
        inside[broken.first..=broken.last].fill(true);
        taken_out += 1;
    }
    let refused = compare_without(profile, start(), start(), events, &removed, &inside);
    (taken_out, refused)
}

/// Gives the number of events refused with 15.
fn compare_without(
    profile: Profile,
    mut whole: Board,
    mut without: Board,
    events: &[Event],
    removed: &[bool],
    inside: &[bool],
) -> usize {
    let device = whole.device;
    let mut refused = 0;
    for (index, &happening) in events.iter().enumerate() {
        let given = whole.try_set(happening);
        refused += usize::from(given.0 == Number::Miscounted);
        let given_without = if removed[index] {
            given
        } else {
            without.try_set(happening)
        };
        let place = format!("{profile:?} device {} record {index}", device.number);
        if !inside[index] {
            assert_eq!(given, given_without, "{place}");
        }
        // Comparing every cell after every event would take long; a power of two apart is often enough.
        if index % 256 == 0 {
            assert_eq!(visible(&whole), visible(&without), "{place}");
        }
    }
    assert_eq!(visible(&whole), visible(&without), "{profile:?} at the end");
    refused
}

/// The same, but each broken selection that moves no other pin and takes no time is taken out whole.
#[test]
fn broken_selections_can_be_taken_out_whole() {
    let mut taken_out = 0;
    for ((profile, device), seed) in all_traces() {
        let all = events(profile, device, seed, RECORDS);
        let levels = levels(device, &all);
        let mut kept = vec![true; all.len()];
        let selections = selections(Board::new(device.number), &all);
        for broken in selections.iter().filter(|one| is_broken(one)) {
            if leaves_pins_alone(&all, &levels, broken) {
                kept[broken.first..=broken.last].fill(false);
                taken_out += 1;
            }
        }
        let rest: Vec<Event> = (0..all.len())
            .filter(|&i| kept[i])
            .map(|i| all[i])
            .collect();
        let (mut first, mut second) = (Contents::prepared(device), Contents::prepared(device));
        let whole = play(device, &mut first, &records_of(&all));
        let without = play(device, &mut second, &records_of(&rest));
        let answers: Vec<u8> = (0..all.len())
            .filter(|&i| kept[i])
            .map(|i| whole.answers[i])
            .collect();
        assert_eq!(
            answers, without.answers,
            "{profile:?} device {}",
            device.number
        );
        assert_eq!(first, second);
        assert_eq!(whole.status_byte, without.status_byte);
        assert_eq!(whole.counts, without.counts);
    }
    assert!(taken_out > 300, "only {taken_out} broken selections");
}

/// C, D, HOLD and W, before the first event and after each.
fn levels(device: &'static Device, events: &[Event]) -> Vec<[bool; 4]> {
    let mut board = Board::new(device.number);
    let mut levels = vec![[false, false, true, true]];
    for &happening in events {
        board.try_set(happening);
        let state = &board.state;
        levels.push([state.clock, state.data, state.hold, state.protect]);
    }
    levels
}

/// Whether the levels after the selection are those before it, and no time passes in it.
fn leaves_pins_alone(events: &[Event], levels: &[[bool; 4]], selection: &Selection) -> bool {
    let inner = &events[selection.first..=selection.last];
    levels[selection.first] == levels[selection.last + 1]
        && !inner.iter().any(|event| matches!(event, Event::Wait(_)))
}

#[test]
fn every_tail_is_refused_with_its_number() {
    for device in &DEVICES {
        let mut seen = [0; 12];
        for which in 0..TAILS {
            let mut contents = Contents::prepared(device);
            let played = play(device, &mut contents, &tail(device, which));
            seen[played.ran.number as usize] += 1;
        }
        assert_eq!(seen, [0, 0, 0, 0, 0, 0, 14, 11, 13, 6, 0, 8]);
    }
}

#[test]
fn same_seed_same_trace() {
    for (profile, device) in all_profiles() {
        let first = trace(profile, device, 7, 1000);
        assert_eq!(first, trace(profile, device, 7, 1000));
        assert_ne!(first, trace(profile, device, 8, 1000));
    }
}

/// A random state of the device, sound or not; most fields lie close to what is sound.
fn random_state(device: &Device, random: &mut Random) -> State {
    let cycles = [
        Cycle::None,
        Cycle::None,
        Cycle::Array,
        Cycle::Identification,
        Cycle::Status,
        Cycle::Lock,
    ];
    let cycle = random.pick(&cycles);
    let bits = random.below(8) as u8;
    let time = random.below(device.write_time as usize) as u32;
    let page = random.below(device.cells / device.page);
    State {
        clock: random.level(),
        data: random.level(),
        select: false,
        hold: random.level(),
        protect: random.level(),
        selected: true,
        held: random.level(),
        protect_seen_low: random.level(),
        bits,
        value: random.below(1 << bits) as u8,
        whole_bytes: random.below(7) as u8,
        last_byte: random.byte(),
        instruction: random.pick(&INSTRUCTIONS),
        turned_away: random.level(),
        address: random.below(device.cells),
        sent_byte: random.byte(),
        output: random.pick(&[Output::Zero, Output::One, Output::Z]),
        status: random.byte() & device.status_bits(),
        locked: random.level(),
        write_enable_latch: random.level(),
        cycle,
        time_left: if cycle == Cycle::None { 0 } else { 1 + time },
        page_start: if cycle == Cycle::Identification {
            0
        } else {
            page * device.page
        },
        new_status: random.byte() & device.status_bits(),
    }
}

/// The calls take every sound state, also one that no trace reaches, so every sound state must stay sound.
#[test]
fn every_sound_state_stays_sound() {
    let mut random = Random::new(5);
    for device in &DEVICES {
        let mut board = Board::new(device.number);
        let mut sound = 0;
        while sound < 20_000 {
            board.state = random_state(device, &mut random);
            if !is_sound(device, &board.state, board.marks()) {
                continue;
            }
            sound += 1;
            for _ in 0..20 {
                let level = random.level();
                let happening = random.pick(&[
                    Event::Clock(level),
                    Event::Clock(level),
                    Event::Data(level),
                    Event::Select(level),
                    Event::Hold(level),
                    Event::Protect(level),
                    Event::Wait(device.write_time / 2),
                    Event::Power,
                ]);
                let before = board.state.clone();
                let refused = happening == Event::Power && before.in_cycle();
                let (number, _) = board.try_set(happening);
                let expected = if refused { Number::Power } else { Number::Done };
                assert_eq!(number, expected, "{before:?} {happening:?}");
                let stays = is_sound(device, &board.state, board.marks());
                assert!(stays, "{before:?} {happening:?} {:?}", board.state);
            }
        }
    }
}
