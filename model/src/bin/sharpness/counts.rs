//! The faults of wrong counts and of lent counts, which no trace shows from counts that agree: chosen counts are lent
//! to generated traces, and chosen lengths to preparing and to an event.

use m95_model::generate::{counts, lendings, short_events, Counting, Left, Profile, Random};
use m95_model::{
    event_wrongly, load, Contents, Device, Event, Fault, Number, Output, State, DEVICES,
};

const RECORDS: usize = 1_000;
const SEEDS: u64 = 16;
/// Once in so many events counts are lent anew.
const EVENTS: usize = 40;

/// Generated traces of all profiles and devices.
pub struct Counted {
    cases: Vec<Case>,
}

/// One trace with what it starts from.
struct Case {
    device: &'static Device,
    start: Lent,
    events: Vec<Event>,
    seed: u64,
}

#[derive(Clone)]
struct Lent {
    state: State,
    cells: Vec<u8>,
    identification: Vec<u8>,
    latch: Vec<u8>,
    counts: Vec<u16>,
}

impl Counted {
    pub fn new() -> Counted {
        let mut cases = Vec::new();
        for (seed, profile) in (0..SEEDS).flat_map(|seed| Profile::ALL.map(|one| (seed, one))) {
            for device in &DEVICES {
                // Traces must not share their random choices, or they would miss the same things.
                let own = (seed * 10 + u64::from(device.number)) * 10 + profile as u64;
                cases.push(Case {
                    device,
                    start: Lent::new(device, seed),
                    events: short_events(profile, device, own, RECORDS),
                    seed: own,
                });
            }
        }
        Counted { cases }
    }

    /// Prints the line of one fault; false when it was missed.
    pub fn show(&self, fault: Fault) -> bool {
        let differing = |case: &Case| Some((case.device.number, case.difference(fault)?));
        let differences: Vec<_> = self.cases.iter().filter_map(differing).collect();
        show(fault, "counts", &differences)
    }
}

impl Lent {
    /// In turn a prepared chip and one with any contents.
    fn new(device: &Device, seed: u64) -> Lent {
        let contents = match seed % 2 {
            0 => Contents::prepared(device),
            _ => Contents::random(device, &mut Random::new(seed), false),
        };
        let (_, state) = load(device.number, contents.status, contents.locked.into());
        let counting = Counting::Agreeing;
        Lent {
            counts: counts(
                counting,
                device,
                &state,
                &contents.cells,
                &mut Random::new(seed),
            ),
            state,
            cells: contents.cells,
            identification: contents.identification,
            latch: vec![0; 2 * device.page],
        }
    }

    fn event(&mut self, fault: Fault, device: &Device, event: Event) -> (Number, Output) {
        event_wrongly(
            fault,
            device.number,
            &mut self.state,
            &mut self.cells,
            &mut self.identification,
            &mut self.latch,
            &mut self.counts,
            event,
        )
    }
}

impl Case {
    /// What differs first. The trace goes on after a refusal.
    fn difference(&self, fault: Fault) -> Option<&'static str> {
        let (mut right, mut wrong) = (self.start.clone(), self.start.clone());
        let mut random = Random::new(self.seed);
        for &event in &self.events {
            if random.once_in(EVENTS) {
                let counting = random.pick(&Counting::ALL);
                right.counts = counts(
                    counting,
                    self.device,
                    &right.state,
                    &right.cells,
                    &mut random,
                );
                wrong.counts.clone_from(&right.counts);
            }
            let expected = right.event(Fault::None, self.device, event);
            let given = wrong.event(fault, self.device, event);
            if let Some(by) = difference(&right, expected, &wrong, given) {
                return Some(by);
            }
        }
        (right.cells != wrong.cells).then_some("cells")
    }
}

fn difference(
    right: &Lent,
    expected: (Number, Output),
    wrong: &Lent,
    given: (Number, Output),
) -> Option<&'static str> {
    if expected.0 != given.0 {
        Some("number")
    } else if expected.1 != given.1 {
        Some("answer")
    } else if right.state != wrong.state {
        Some("state")
    } else if right.counts != wrong.counts {
        Some("counts")
    } else {
        None
    }
}

/// Prints the line of one fault of lending counts; false when it was missed.
pub fn show_lent(fault: Fault) -> bool {
    let by = |right: Left, wrong: Left| match right == wrong {
        true => None,
        false if right.number != wrong.number => Some("number"),
        false => Some("counts"),
    };
    let mut differences = Vec::new();
    for lending in DEVICES.iter().flat_map(lendings) {
        let prepared = by(lending.prepare(Fault::None), lending.prepare(fault));
        let done = by(lending.event(Fault::None), lending.event(fault));
        differences.extend(prepared.or(done).map(|by| (lending.device, by)));
    }
    show(fault, "lent", &differences)
}

/// Prints the line, by the devices of all differences and what differs.
fn show(fault: Fault, of: &str, differences: &[(u8, &'static str)]) -> bool {
    let first = differences
        .first()
        .map(|&(number, by)| (number.to_string(), by));
    super::show_without_trace(fault, of, first, differences.len())
}
