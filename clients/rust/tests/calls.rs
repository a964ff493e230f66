//! The wrapper's calls beside the second model's: generated traces of every profile whole, in pieces and event by event, the numbers
//! of lent buffers, views, and states of any bytes. Nothing is expected of either but what the other says. What wrong counts do is in
//! counts.rs.

mod common;

use common::{tells_the_same, Buffers, Pair};
use m95_model::generate::{
    events, records_of, trace_with_tail, view_bytes, views, Profile, Random, View, TAILS,
};
use m95_model::{Device, Event, Fault, Number, Output, DEVICES};
use proved::{kind, refused, Region, STATE_BYTES};

fn sizes(device: usize) -> (usize, usize, usize, usize) {
    (
        proved::cells(device),
        proved::page(device),
        proved::identification(device),
        proved::pages(device),
    )
}

#[test]
fn sizes_are_the_models() {
    for row in &DEVICES {
        let own = (row.cells, row.page, row.identification, row.pages());
        assert_eq!(sizes(usize::from(row.number)), own);
    }
    for device in [0, 8, 255, 256, 257, 260, 263, usize::MAX] {
        assert_eq!(sizes(device), (0, 0, 0, 0));
    }
}

#[test]
fn refusals_have_the_models_numbers() {
    for (ours, model) in [
        (refused::DEVICE, Number::Device),
        (refused::CELLS, Number::Cells),
        (refused::IDENTIFICATION, Number::Identification),
        (refused::LATCH, Number::Latch),
        (refused::STATE, Number::State),
        (refused::CUT, Number::Cut),
        (refused::KIND, Number::Kind),
        (refused::LENGTH, Number::Length),
        (refused::PIN, Number::Pin),
        (refused::ANSWERS, Number::Answers),
        (refused::POWER, Number::Power),
        (refused::ADDRESS, Number::Address),
        (refused::COUNTS, Number::Counts),
        (refused::COUNT, Number::Miscounted),
    ] {
        assert_eq!(ours, model as usize);
    }
}

/// Runs a trace in pieces of at most `limit` records through both, with room for `room` answers in all.
fn run_both(mut pair: Pair, trace: &[u8], limit: usize, room: usize) {
    let (mut at, mut answered) = (0, 0);
    loop {
        let ran = pair.run(&trace[at..], room - answered, limit);
        at += ran.taken;
        answered += ran.done;
        if ran.number != 0 || at == trace.len() || ran.done == 0 {
            return;
        }
    }
}

#[test]
fn traces_of_every_profile() {
    for row in &DEVICES {
        for profile in Profile::ALL {
            for seed in 1..=3 {
                let trace = trace_with_tail(profile, row, seed, 20_000, seed as usize % TAILS);
                run_both(Pair::prepared(row), &trace, usize::MAX, trace.len());
                run_both(Pair::prepared(row), &trace, 257, trace.len());
                run_both(Pair::prepared(row), &trace, usize::MAX, 1_000);
            }
        }
    }
}

#[test]
fn every_tail() {
    for row in &DEVICES {
        for which in 0..TAILS {
            let trace = trace_with_tail(Profile::Malformed, row, which as u64, 200, which);
            run_both(Pair::prepared(row), &trace, usize::MAX, trace.len());
        }
    }
}

/// Both loaded with these status bits and this lock, and with the same bytes of chance in cells and identification page.
fn loaded(row: &'static Device, status: u8, lock: u8, random: &mut Random) -> Pair {
    let mut pair = Pair::prepared(row);
    pair.ours.cells.fill_with(|| random.below(256) as u8);
    pair.ours
        .identification
        .fill_with(|| random.below(256) as u8);
    pair.model.cells.clone_from(&pair.ours.cells);
    let page = &pair.ours.identification;
    pair.model.identification.clone_from(page);
    pair.count_pages();
    let device = pair.device();
    let number = proved::load(device, &mut pair.ours.state, status.into(), lock.into());
    assert_eq!(number, 0);
    let (number, state) = m95_model::load(row.number, status, lock);
    assert_eq!(number, Number::Done);
    Pair { state, ..pair }
}

/// WREN, WRSR of the given bits, and RDSR, with no pin set to the level at which a loaded chip has it. A generated trace sets all pins
/// first, so that one which was loaded at another level would not show.
fn trusting_start(status: u8) -> Vec<u8> {
    let mut events = Vec::new();
    let mut data = false;
    for bytes in [&[0x06][..], &[0x01, status], &[0x05, 0x00]] {
        events.push(Event::Select(false));
        for place in 0..8 * bytes.len() {
            let bit = bytes[place / 8] >> (7 - place % 8) & 1 == 1;
            if bit != data {
                events.push(Event::Data(bit));
            }
            data = bit;
            events.extend([Event::Clock(true), Event::Clock(false)]);
        }
        events.push(Event::Select(true));
    }
    events.push(Event::Wait(5_000));
    records_of(&events)
}

/// Traces on chips that were loaded with every set of status bits that the device has, locked where it can be and not.
#[test]
fn traces_of_loaded_chips() {
    let mut random = Random::new(3);
    for row in &DEVICES {
        for bits in (0..=255).filter(|bits| bits & !row.status_bits() == 0) {
            for lock in 0..=u8::from(row.has_identification()) {
                let pair = loaded(row, bits, lock, &mut random);
                let mut trace = trusting_start(bits);
                trace.extend(records_of(&events(Profile::Mixed, row, bits.into(), 5_000)));
                run_both(pair, &trace, 1_000, trace.len());
            }
        }
    }
}

/// Every status of a byte and some locks, on every device and on numbers that are none; and what is above a byte.
#[test]
fn loading_is_the_models() {
    for device in (0..=8).chain([255]) {
        for status in 0..=255 {
            for lock in [0, 1, 2, 255] {
                let (number, model) = m95_model::load(device, status, lock);
                let mut state = [0xA5; STATE_BYTES];
                let (device, status, lock) = (device.into(), status.into(), lock.into());
                assert_eq!(
                    proved::load(device, &mut state, status, lock),
                    number as usize
                );
                if number == Number::Done {
                    assert!(tells_the_same(&state, &model));
                } else {
                    assert!(state == [0xA5; STATE_BYTES]);
                }
            }
        }
        for (status, lock) in [(256, 0), (0, 256), (usize::MAX, 1), (4, 1 << 32 | 1)] {
            let (number, _) = m95_model::load(device, 0xFF, 2);
            let mut state = [0xA5; STATE_BYTES];
            let refusal = proved::load(device.into(), &mut state, status, lock);
            assert_eq!(refusal, number as usize);
            assert!(state == [0xA5; STATE_BYTES]);
        }
    }
}

/// A room that is not as long as a state: 1 for no device, then 5, and the room stays.
#[test]
fn loading_into_other_rooms() {
    for length in (0..=2 * STATE_BYTES).filter(|&length| length != STATE_BYTES) {
        let mut room = vec![0xA5; length];
        assert_eq!(proved::load(2, &mut room, 0, 0), refused::STATE);
        assert_eq!(proved::load(2, &mut room, 0xFF, 2), refused::STATE);
        assert_eq!(proved::load(8, &mut room, 0xFF, 2), refused::DEVICE);
        assert!(room.iter().all(|&byte| byte == 0xA5));
        assert_eq!(proved::stored(&room), Err(refused::STATE));
    }
}

#[test]
fn versions_are_one() {
    assert_eq!(proved::version(), proved::VERSION);
}

/// Event by event, with a power event after each in a write cycle, which must be refused.
#[test]
fn event_by_event() {
    for row in &DEVICES {
        let mut pair = Pair::prepared(row);
        for event in events(Profile::Mixed, row, 5, 3_000) {
            pair.event(event);
            let is_busy = m95_model::status_byte(&pair.state) & 1 == 1;
            if is_busy {
                assert_eq!(pair.event(Event::Power), refused::POWER);
            }
        }
    }
}

#[test]
fn kinds_and_values_that_are_no_event() {
    let mut ours = Pair::prepared(&DEVICES[1]).ours;
    let before = ours.clone();
    for kind in [0, 4, 16, 256, 257, usize::MAX] {
        assert_eq!(
            proved::event(2, &mut ours.lent(), kind, 0),
            (refused::KIND, Output::Z as usize)
        );
    }
    for value in [10, 255, 256, 1 << 32, usize::MAX] {
        assert_eq!(
            proved::event(2, &mut ours.lent(), kind::SET_PIN, value),
            (refused::PIN, Output::Z as usize)
        );
    }
    assert!(ours == before);
}

/// Buffers of every length about the right one, in every combination: the numbers are the model's. The bytes lent for a state are none, so
/// that 5 is what is left for an event where all else is right.
#[test]
fn lengths_of_lent_buffers() {
    let lengths = |right: usize| [right, 0, right.saturating_sub(1), right + 1];
    for device in 0..=DEVICES.len() + 1 {
        let row = &DEVICES[device.clamp(1, DEVICES.len()) - 1];
        for cells in lengths(row.cells) {
            for page in lengths(row.identification).into_iter().chain([row.page]) {
                for latch in lengths(2 * row.page) {
                    for counts in lengths(row.pages()) {
                        lend_lengths(device, [cells, page, latch, counts]);
                    }
                }
            }
        }
    }
}

/// Buffers of these lengths, with rooms for a state that are as long as one and that are not.
fn lend_lengths(device: usize, [cells, page, latch, counts]: [usize; 4]) {
    let before = Buffers {
        state: Vec::new(),
        cells: vec![7; cells],
        identification: vec![7; page],
        latch: vec![0; latch],
        counts: vec![7; counts],
    };
    let mut model = before.clone();
    let (prepared, _) = m95_model::prepare(
        device as u8,
        &mut model.cells,
        &mut model.identification,
        &mut model.latch,
        &mut model.counts,
    );
    let refusal = match prepared {
        Number::Done => refused::STATE,
        number => number as usize,
    };
    for room in [STATE_BYTES, 0, STATE_BYTES - 1, STATE_BYTES + 1] {
        let mut lent = before.clone();
        lent.state = vec![9; room];
        assert_eq!(proved::refusal(device, &lent.lent()), refusal);
        let (number, answer) = proved::event(device, &mut lent.lent(), kind::WAIT, 0);
        assert_eq!((number, answer), (refusal, Output::Z as usize));
        let ran = proved::run(device, &mut lent.lent(), &[], &mut [], 1);
        assert_eq!((ran.number, ran.taken, ran.done), (refusal, 0, 0));
        assert!(lent.stored() == before.stored() && lent.state == vec![9; room]);
        let expected = match room {
            STATE_BYTES => prepared as usize,
            _ => refusal,
        };
        assert_eq!(proved::prepare(device, &mut lent.lent()), expected);
        assert!(expected == 0 || lent.stored() == before.stored());
    }
}

/// A prepared state with some bytes of chance is a state or gets 5, and one that takes an event is one after it.
#[test]
fn states_of_any_bytes() {
    let mut random = Random::new(9);
    let good = Pair::prepared(&DEVICES[2]).ours;
    let mut sound = 0;
    for _ in 0..20_000 {
        let mut buffers = good.clone();
        for _ in 0..random.below(4) {
            buffers.state[random.below(STATE_BYTES)] = random.below(12) as u8;
        }
        let before = buffers.clone();
        let refusal = proved::refusal(3, &buffers.lent());
        let is_state = proved::status_byte(&buffers.state).is_ok();
        assert_eq!(proved::stored(&buffers.state).is_ok(), is_state);
        let (number, _) = proved::event(3, &mut buffers.lent(), kind::WAIT, 1);
        assert_eq!(number, refusal);
        match refusal {
            0 => {
                sound += 1;
                assert_eq!(proved::refusal(3, &buffers.lent()), 0);
            }
            refused::STATE => assert!(buffers == before),
            other => panic!("{other} for bytes of a state"),
        }
    }
    assert!((1..20_000).contains(&sound));
}

/// The model's answer to a view, as the library would give it.
fn expected(model: (Number, &[u8])) -> Result<&[u8], usize> {
    match model {
        (Number::Done, part) => Ok(part),
        (number, _) => Err(number as usize),
    }
}

/// The library's answer to one of the model's views.
fn viewed<'a>(view: &View, cells: &'a [u8], identification: &'a [u8]) -> Result<&'a [u8], usize> {
    let region = match view.region {
        m95_model::Region::Cells => Region::Cells,
        m95_model::Region::Identification => Region::Identification,
    };
    let (cells, identification) = (&cells[..view.cells], &identification[..view.identification]);
    proved::view(
        view.device.into(),
        region,
        cells,
        identification,
        view.address,
    )
}

#[test]
fn views_are_the_models() {
    let (cells, identification) = view_bytes();
    for view in DEVICES.iter().flat_map(views) {
        let ours = viewed(&view, &cells, &identification);
        let model = expected(view.show(Fault::None, &cells, &identification));
        assert_eq!(ours, model, "{view:?}");
        // No copy: the part lies where the model's does.
        assert!(
            ours.map(<[u8]>::as_ptr) == model.map(<[u8]>::as_ptr),
            "{view:?}"
        );
    }
    // The model's numbers of devices are bytes; the library's are not.
    for device in 256..=260 {
        let large = proved::view(device, Region::Cells, &cells, &identification, 0);
        assert_eq!(large, Err(refused::DEVICE));
    }
}

/// The views would tell the library from a model that is wrong about them in a named way; but for one, since a refused part cannot be seen
/// through a `Result`. The test in C sees that there is none.
#[test]
fn wrong_views_are_told_apart() {
    let (cells, identification) = view_bytes();
    for fault in Fault::ALL.iter().filter(|fault| fault.is_of_view()) {
        let differs = DEVICES.iter().flat_map(views).any(|view| {
            let wrong = expected(view.show(*fault, &cells, &identification));
            viewed(&view, &cells, &identification) != wrong
        });
        assert_eq!(differs, *fault != Fault::ViewRefusalShowsPart, "{fault:?}");
    }
}
