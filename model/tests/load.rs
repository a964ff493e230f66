//! What a device stores, put into a state and taken out of one: `load` and `stored`, and the chip's file that stands on
//! them.

mod common;

use common::{Board, FALL, RISE};
use m95_model::generate::{records_of, trace, Profile};
use m95_model::{
    device, is_sound, load, play, status_byte, stored, Contents, Cycle, Device, Event, Instruction,
    Number, Output, Ran, State, DEVICES,
};

/// Every byte that the status bits of a device can be: BP1 and BP0, and SRWD where there is more than one address byte.
fn statuses(number: u8) -> &'static [u8] {
    match number {
        1 | 5 | 6 => &[0x00, 0x04, 0x08, 0x0C],
        2..=4 | 7 => &[0x00, 0x04, 0x08, 0x0C, 0x80, 0x84, 0x88, 0x8C],
        _ => &[],
    }
}

/// Every lock that a device can have: without an identification page there is none to set.
fn locks(number: u8) -> &'static [u8] {
    match number {
        1..=4 => &[0, 1],
        _ => &[0],
    }
}

/// All that the devices can store.
fn all_stored() -> impl Iterator<Item = (&'static Device, u8, u8)> {
    DEVICES.iter().flat_map(|device| {
        let bytes = statuses(device.number).iter();
        bytes.flat_map(move |&status| {
            let locks = locks(device.number).iter();
            locks.map(move |&lock| (device, status, lock))
        })
    })
}

#[test]
fn every_device_status_and_lock_is_judged() {
    for number in 0..=9 {
        for (status, lock) in (0..=255).flat_map(|one| (0..=255).map(move |other| (one, other))) {
            let can_be = statuses(number).contains(&status) && locks(number).contains(&lock);
            let expected = match number {
                0 | 8 | 9 => Number::Device,
                _ if can_be => Number::Done,
                _ => Number::State,
            };
            let mut state = State::prepared();
            if can_be {
                state.status = status;
                state.locked = lock == 1;
            }
            let given = load(number, status, lock);
            let place = format!("device {number} status {status:02X} lock {lock}");
            assert_eq!(given, (expected, state), "{place}");
        }
    }
}

#[test]
fn what_is_loaded_is_stored_and_sound() {
    for (device, status, lock) in all_stored() {
        let (_, state) = load(device.number, status, lock);
        assert_eq!(stored(&state), (status, lock), "device {}", device.number);
        assert!(is_sound(device, &state, &[]));
        assert_eq!(status_byte(&state), status);
    }
}

/// A loaded device has just got its power, so getting it once more changes nothing.
#[test]
fn power_changes_nothing_after_load() {
    for (device, status, lock) in all_stored() {
        let mut board = loaded(device, status, lock);
        let before = board.state.clone();
        assert_eq!(board.try_set(Event::Power), (Number::Done, Output::Z));
        assert_eq!(board.state, before, "device {}", device.number);
    }
}

fn loaded(device: &Device, status: u8, lock: u8) -> Board {
    let mut board = Board::new(device.number);
    let (number, state) = load(device.number, status, lock);
    assert_eq!(number, Number::Done);
    board.state = state;
    board
}

/// LID, with the code, the address and its data byte; nothing on devices 5 to 7.
fn lid(device: &Device) -> Vec<u8> {
    match device.number {
        1 | 5 | 6 => vec![0x82, 0x80, 0x02],
        2 | 7 => vec![0x82, 0x04, 0x00, 0x02],
        _ => vec![0x82, 0x00, 0x04, 0x00, 0x02],
    }
}

/// A device that came to its bits by LID and WRSR, in this order since BP 11 stops LID, and then lost its power with WEL
/// set, its pins at rest as those of a loaded one.
fn written(device: &Device, status: u8, lock: u8) -> Board {
    let mut board = Board::new(device.number);
    if lock == 1 {
        board.write(&lid(device));
    }
    board.write(&[0x01, status]);
    board.command(&[0x06]);
    assert_eq!(board.status(), status | 0x02);
    board.set(Event::Data(false));
    board.set(Event::Power);
    board
}

/// WREN, WRSR of the same bits and RDSR, setting only the levels that must change: a pin that is not where a loaded
/// device has it spoils them. Generated traces bring the pins to rest first and so would not notice.
fn trusting_start(status: u8) -> Vec<Event> {
    let mut events = Vec::new();
    let mut data = false;
    for bytes in [&[0x06][..], &[0x01, status], &[0x05, 0x00]] {
        events.push(Event::Select(false));
        for place in 0..8 * bytes.len() {
            let bit = bytes[place / 8] << (place % 8) & 0x80 != 0;
            if bit != data {
                events.push(Event::Data(bit));
                data = bit;
            }
            events.extend([RISE, FALL]);
        }
        events.push(Event::Select(true));
    }
    events.push(Event::Wait(5000));
    events
}

/// Runs a whole trace and gives the answers with how it ended.
fn run_whole(board: &mut Board, trace: &[u8]) -> (Ran, Vec<u8>) {
    let mut answers = vec![7; trace.len()];
    let ran = board.run(trace, &mut answers, trace.len());
    (ran, answers)
}

#[test]
fn loaded_device_goes_on_as_after_power() {
    for (device, status, lock) in all_stored() {
        for (profile, seed) in Profile::ALL.into_iter().zip(u64::from(status + lock)..) {
            let start = records_of(&trusting_start(status));
            let trace = [start, trace(profile, device, seed, 1500)].concat();
            let mut first = loaded(device, status, lock);
            let mut second = written(device, status, lock);
            let (given, expected) = (
                run_whole(&mut first, &trace),
                run_whole(&mut second, &trace),
            );
            let place = format!(
                "{profile:?} device {} status {status:02X} lock {lock}",
                device.number
            );
            assert_eq!(given, expected, "{place}");
            assert!(first.cells == second.cells, "{place}");
            assert_eq!(first.identification, second.identification, "{place}");
            assert_eq!(first.latch, second.latch, "{place}");
            assert_eq!(stored(&first.state), stored(&second.state), "{place}");
            assert_eq!(
                status_byte(&first.state),
                status_byte(&second.state),
                "{place}"
            );
        }
    }
}

/// The change comes with the last microsecond of the cycle and not before; WEL is never among the stored bits.
#[test]
fn running_cycle_still_stores_the_old() {
    for (device, status, lock) in all_stored() {
        let other = status ^ 0x0C;
        let mut board = loaded(device, status, lock);
        board.start_write(&[0x01, other]);
        board.wait(device.write_time - 1);
        assert_eq!(board.state.cycle, Cycle::Status);
        assert_eq!(stored(&board.state), (status, lock));
        board.wait(1);
        assert_eq!(stored(&board.state), (other, lock));

        let mut board = loaded(device, status, 0);
        board.start_write(&lid(device));
        let done = status & 0x0C != 0x0C && locks(device.number).contains(&1);
        assert_eq!(board.state.cycle == Cycle::Lock, done);
        board.wait(device.write_time - 1);
        assert_eq!(stored(&board.state), (status, 0));
        board.wait(1);
        assert_eq!(stored(&board.state), (status, u8::from(done)));
    }
}

/// Nothing else of a state counts, and bits that no device has are not hidden.
#[test]
fn unsound_state_gives_its_bits_as_they_are() {
    for status in 0..=255 {
        for cycle in [Cycle::None, Cycle::Array, Cycle::Status, Cycle::Lock] {
            for locked in [false, true] {
                let state = State {
                    status,
                    locked,
                    new_status: !status,
                    write_enable_latch: true,
                    cycle,
                    time_left: u32::MAX,
                    whole_bytes: 255,
                    last_byte: !status,
                    instruction: Instruction::Wrsr,
                    held: true,
                    ..State::prepared()
                };
                assert_eq!(stored(&state), (status, locked as u8));
            }
        }
    }
}

/// One number stands for both bytes, but the message of a chip's file says which one is wrong, the status first.
#[test]
fn chips_file_says_which_byte_is_wrong() {
    for (number, right) in [(1, "0 or 1"), (2, "0 or 1"), (5, "0"), (6, "0"), (7, "0")] {
        let device = device(number).expect("a device of the table");
        let mut file = Contents::prepared(device).to_bytes();
        let place = file.len() - 2;
        for (status, lock) in (0..=255).flat_map(|one| [0, 1, 2, 255].map(|other| (one, other))) {
            file[place..].copy_from_slice(&[status, lock]);
            let status_is_right = statuses(number).contains(&status);
            let expected = if !status_is_right {
                Err(format!(
                    "status {status:02X} has bits that device {number} has not"
                ))
            } else if locks(number).contains(&lock) {
                Ok(file.clone())
            } else {
                Err(format!("lock is {lock}, not {right}"))
            };
            let read = Contents::from_bytes(device, &file);
            assert_eq!(read.map(|contents| contents.to_bytes()), expected);
        }
    }
}

/// A caller can make contents that no file gives; they are refused and stay, also where the cells are wrong too.
#[test]
fn contents_that_cannot_be_are_refused_and_stay() {
    let device = &DEVICES[0];
    let trace = trace(Profile::Commands, device, 1, 100);
    for (cells, expected) in [(512, Number::State), (511, Number::Cells)] {
        let made = Contents {
            cells: vec![0x5A; cells],
            status: 0x80,
            locked: true,
            ..Contents::prepared(device)
        };
        let mut contents = made.clone();
        let played = play(device, &mut contents, &trace);
        assert_eq!((played.ran.number, played.ran.done), (expected, 0));
        assert_eq!(contents, made);
    }
}
