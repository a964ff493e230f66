//! The counts of pages, the wrapper's calls beside the second model's: generated traces with counts lent anew now and then, most of them
//! wrong, event by event and in pieces; counting; and lent lengths. Models that are wrong about counts in a named way are told apart.

mod common;

use common::{tells_the_same, Buffers, Pair};
use m95_model::generate::{
    counts, events, lendings, records_of, Counting, Left, Lending, Profile, Random,
};
use m95_model::{Device, Event, Fault, Output, DEVICES};
use proved::{kind, pin, refused, STATE_BYTES};

/// Profiles in which many cycles end, some of them begun in hold.
const PROFILES: [Profile; 4] = [
    Profile::Commands,
    Profile::Waits,
    Profile::Mixed,
    Profile::Held,
];
const EVENTS: usize = 5_000;

/// Lends both counts that stand so to the cells.
fn lend(pair: &mut Pair, counting: Counting, random: &mut Random) {
    let counts = counts(counting, pair.row, &pair.state, &pair.model.cells, random);
    pair.lend(&counts);
}

/// Cells of chance with blank and full pages among them.
fn cells_of_chance(row: &Device, random: &mut Random) -> Vec<u8> {
    let mut cells = vec![0xFF; row.cells];
    for page in cells.chunks_mut(row.page) {
        let odds = random.below(4);
        for cell in page {
            *cell = match odds {
                0 => 0xFF,
                1 => random.below(255) as u8,
                _ => [0xFF, 0x00, 0xFE, random.byte()][random.below(4)],
            };
        }
    }
    cells
}

/// Both with cells of chance, but for one profile, in which pages are blank at first.
fn start(row: &'static Device, profile: Profile, random: &mut Random) -> Pair {
    let mut pair = Pair::prepared(row);
    if profile != Profile::Commands {
        pair.ours.cells = cells_of_chance(row, random);
        pair.model.cells.clone_from(&pair.ours.cells);
        pair.count_pages();
    }
    pair
}

/// A trace event by event through the library and the model with a fault, with counts lent anew before half of the waits and now and then
/// else. A wait that is refused with 15 must leave all, the bytes of the state too, and be refused again; then the pages are counted and it
/// must be done, so that the trace goes on as it was meant to. How many were refused, or none where the two differ.
fn play(row: &'static Device, profile: Profile, counting: Counting, fault: Fault) -> Option<usize> {
    let seed = counting as u64;
    let mut random = Random::new(seed);
    let mut pair = start(row, profile, &mut random);
    let mut refused = 0;
    for event in events(profile, row, seed, EVENTS) {
        let is_wait = matches!(event, Event::Wait(_));
        if random.once_in(if is_wait { 2 } else { 100 }) {
            lend(&mut pair, counting, &mut random);
        }
        let before = is_wait.then(|| pair.ours.clone());
        let number = pair.event_wrongly(fault, event)?;
        if number == refused::COUNT {
            assert!(before.as_ref() == Some(&pair.ours));
            assert_eq!(pair.event_wrongly(fault, event)?, refused::COUNT);
            assert!(before.as_ref() == Some(&pair.ours));
            pair.count_pages();
            assert_eq!(pair.event_wrongly(fault, event)?, 0);
            refused += 1;
        }
    }
    Some(refused)
}

/// The two never differ, and 15 is met on every device and by every way that counts can be wrong; where they agree it is not.
#[test]
fn counts_are_the_models_after_every_event() {
    let mut refused = Vec::new();
    for (counting, row, profile) in plays() {
        let place = format!("{counting:?} {} {profile:?}", row.name);
        let played = play(row, profile, counting, Fault::None);
        let times = played.unwrap_or_else(|| panic!("the two differ: {place}"));
        refused.extend(vec![(counting, row.number); times]);
    }
    for counting in Counting::ALL {
        let is_met = refused.iter().any(|(met, _)| *met == counting);
        assert_eq!(is_met, counting != Counting::Agreeing, "{counting:?}");
    }
    for row in &DEVICES {
        let is_met = refused.iter().any(|(_, met)| *met == row.number);
        assert!(is_met, "{}", row.name);
    }
}

/// Counts that stand in each way to the cells, on each device in each profile.
fn plays() -> impl Iterator<Item = (Counting, &'static Device, Profile)> {
    let of_row = |counting, row| {
        PROFILES
            .into_iter()
            .map(move |profile| (counting, row, profile))
    };
    let of_counting = move |counting| DEVICES.iter().flat_map(move |row| of_row(counting, row));
    Counting::ALL.into_iter().flat_map(of_counting)
}

/// A fault of counts that single events show; the others are those of lent lengths, of a file, and of how a cycle began, which no state
/// remembers.
fn is_of_events(fault: Fault) -> bool {
    let others = [Fault::CountOfFileIsBlank, Fault::CountLeftByHeldWrite];
    fault.is_of_count() && !fault.is_of_lent() && !others.contains(&fault)
}

/// The same traces would tell the library from a model that is wrong about counts in a named way.
#[test]
fn wrong_counts_are_told_apart() {
    for &fault in Fault::ALL.iter().filter(|fault| is_of_events(**fault)) {
        let mut plays = plays();
        let differs =
            plays.any(|(counting, row, profile)| play(row, profile, counting, fault).is_none());
        assert!(differs, "{fault:?}");
    }
}

/// Traces in pieces, with counts lent anew before each; after 15 the pages are counted and the trace goes on.
#[test]
fn traces_with_wrong_counts() {
    for row in &DEVICES {
        let (mut random, mut refused) = (Random::new(4), 0);
        for profile in PROFILES {
            let trace = records_of(&events(profile, row, 4, 20_000));
            let (mut pair, mut at) = (start(row, profile, &mut random), 0);
            while at < trace.len() {
                lend(&mut pair, random.pick(&Counting::ALL), &mut random);
                let limit = 1 + random.below(500);
                let mut ran = pair.run(&trace[at..], limit, limit);
                at += ran.taken;
                if ran.number == refused::COUNT {
                    refused += 1;
                    pair.count_pages();
                    ran = pair.run(&trace[at..], 1, 1);
                    at += ran.taken;
                }
                assert_eq!(ran.number, 0);
            }
        }
        assert!(refused > 0, "{}", row.name);
    }
}

/// Counting on every device and on numbers that are none, with lengths that are right and wrong.
#[test]
fn counting_is_the_models() {
    let mut random = Random::new(5);
    for row in &DEVICES {
        let cells = cells_of_chance(row, &mut random);
        let numbers = [row.number, 0, DEVICES.len() as u8 + 1, u8::MAX];
        for length in [row.cells, row.cells - 1, row.cells / 2, 0] {
            let pages = row.pages();
            for counts in [pages, pages - 1, pages + 1, 2 * pages, 0] {
                for device in numbers {
                    let (mut ours, mut model) = (vec![0xA5A5; counts], vec![0xA5A5; counts]);
                    let number = proved::count_pages(device.into(), &cells[..length], &mut ours);
                    let other = m95_model::count_pages(device, &cells[..length], &mut model);
                    assert_eq!(number, other as usize);
                    assert!(ours == model && (number == 0 || ours == vec![0xA5A5; counts]));
                }
            }
        }
        // The model's numbers of devices are bytes; the library's are not.
        let large = 256 + usize::from(row.number);
        let mut counts = vec![0xA5A5; row.pages()];
        assert_eq!(
            proved::count_pages(large, &cells, &mut counts),
            refused::DEVICE
        );
        assert!(counts == vec![0xA5A5; row.pages()]);
    }
}

/// The library's buffers as the model has them before a call. Its one unsound state has an address past the cells.
fn lent(lending: &Lending) -> Buffers {
    let Left {
        cells,
        identification,
        latch,
        counts,
        ..
    } = lending.lent();
    let mut state = vec![0; STATE_BYTES];
    assert_eq!(proved::load(1, &mut state, 0, 0), 0);
    if !lending.is_sound {
        state[..4].fill(0xFF);
    }
    Buffers {
        state,
        cells,
        identification,
        latch,
        counts,
    }
}

/// Whether the library's call gave and left what the model's did. An unsound state tells the same as the prepared one.
fn is_left(number: usize, answer: Option<usize>, ours: &Buffers, left: &Left) -> bool {
    let stored: (&[u8], &[u8], &[u8], &[u16]) =
        (&left.cells, &left.identification, &left.latch, &left.counts);
    let output = left.answer.map(|answer| answer as usize);
    (number, answer) == (left.number as usize, output)
        && ours.stored() == stored
        && tells_the_same(&ours.state, &left.state)
}

/// Preparing with these lengths, and then an event that raises D, in the library and in the model with a fault: which of the two are the same.
fn are_same(lending: &Lending, fault: Fault) -> [bool; 2] {
    let device = lending.device.into();
    let mut ours = lent(lending);
    let number = proved::prepare(device, &mut ours.lent());
    let prepared = is_left(number, None, &ours, &lending.prepare(fault));
    let mut ours = lent(lending);
    let before = ours.state.clone();
    let (number, answer) = proved::event(device, &mut ours.lent(), kind::SET_PIN, pin::D + 1);
    assert!(number == 0 || (answer, &ours.state) == (Output::Z as usize, &before));
    let done = is_left(number, Some(answer), &ours, &lending.event(fault));
    [prepared, done]
}

#[test]
fn lent_lengths_are_the_models() {
    for lending in DEVICES.iter().flat_map(lendings) {
        assert_eq!(are_same(&lending, Fault::None), [true; 2], "{lending:?}");
    }
}

/// Lent lengths would tell the library from a model that is wrong about them, or about what preparing does to counts, in a named way.
#[test]
fn wrong_lengths_are_told_apart() {
    for fault in Fault::ALL.iter().filter(|fault| fault.is_of_lent()) {
        let mut lent = DEVICES.iter().flat_map(lendings);
        let differs = lent.any(|lending| are_same(&lending, *fault) != [true; 2]);
        assert!(differs, "{fault:?}");
    }
}
