//! `sharpness [SEEDS]` shows that generated traces notice mistakes: it runs the model with each named fault beside
//! the right one, on short traces of all profiles and devices, and prints where each first shows. Mistakes of the bench
//! program, of a view, of judging a state, of loading one, of a count that is wrong before, of lending counts and of
//! looking for a blank page, which no trace can show, are held to inputs of their own.
//!
//! `sharpness --stored DIR` does so with the vectors that `store` wrote to DIR.
//!
//! A fault that nothing shows ends the program with status 1, unless a reason for it is given here.

mod blanks;
mod counts;
mod states;
mod stored;
mod views;

use std::process::ExitCode;
use std::rc::Rc;

use blanks::Blanks;
use counts::Counted;
use m95_model::generate::{
    bench_input, odd_bench_input, trace_with_tail, Profile, Random, ODD_BENCH_INPUTS, TAILS,
};
use m95_model::{
    bench, bench_wrongly, play_wrongly, Contents, Device, Fault, Played, BENCH_DEVICES, DEVICES,
};
use views::Views;

const RECORDS: usize = 3_000;
/// A malformed trace is about its end, so it may be short.
const MALFORMED_RECORDS: usize = 200;
/// One device alone has all that the faults of a held command are about.
const HELD_RECORDS: usize = 6_000;
/// With fewer of them some entries of the sheet are never met.
const SEEDS: u64 = 24;
const USE: &str = "use: sharpness [SEEDS] or sharpness --stored DIR";

/// Faults that cannot show, and why.
const UNSEEN: [(Fault, &str); 2] = [
    (
        Fault::UnknownTakenInCycle,
        "an unknown code does nothing, turned away or not; only the soundness of a state speaks of it",
    ),
    (
        Fault::HoldAtSelectWithClockHigh,
        "until the first fall of C nothing can be received or sent, so nothing can be lost",
    ),
];

fn main() -> ExitCode {
    let arguments: Vec<String> = std::env::args().skip(1).collect();
    let words: Vec<&str> = arguments.iter().map(String::as_str).collect();
    let missed = match words[..] {
        [] => Ok(show_generated(SEEDS)),
        ["--stored", directory] => stored::show(directory),
        [seeds] => seeds.parse().map(show_generated).map_err(|_| USE.into()),
        _ => Err(USE.into()),
    };
    match missed {
        Ok(missed) => ExitCode::from(u8::from(missed > 0)),
        Err(reason) => {
            eprintln!("{reason}");
            ExitCode::from(2)
        }
    }
}

/// Prints the table of generated traces and gives the number of faults that were missed without a reason.
fn show_generated(seeds: u64) -> usize {
    let cases = cases(seeds);
    println!(
        "{} faults, {} traces, {} records",
        Fault::ALL.len(),
        cases.len(),
        cases
            .iter()
            .map(|case| case.right[0].ran.done)
            .sum::<usize>()
    );
    println!(
        "{:<32} {:<10} {:>6} {:<14} {:>9} {:>7}  meaning",
        "fault", "profile", "device", "by", "records", "traces"
    );
    let (inputs, views, counted) = (bench_inputs(seeds), Views::new(), Counted::new());
    let blanks = Blanks::new();
    let is_seen = |fault: Fault| match fault {
        _ if fault.is_of_bench() => show_bench(fault, &inputs),
        _ if fault.is_of_view() => views.show(fault),
        _ if fault.is_of_state() => states::show_state(fault),
        _ if fault.is_of_load() => states::show_load(fault),
        _ if fault.is_of_wrong_count() => counted.show(fault),
        _ if fault.is_of_lent() => counts::show_lent(fault),
        _ if fault.is_of_blank() => blanks.show(fault),
        _ => show(fault, &cases),
    };
    let missed = Fault::ALL.iter().filter(|fault| !is_seen(**fault)).count();
    println!("{missed} faults not seen without a reason");
    missed
}

/// One trace with what the right model makes of it.
struct Case {
    profile: Profile,
    device: &'static Device,
    /// The contents to start with, or none for a prepared chip.
    start: Option<Rc<Contents>>,
    trace: Vec<u8>,
    right: Vec<Played>,
    contents: Vec<Contents>,
}

fn cases(seeds: u64) -> Vec<Case> {
    let mut cases = Vec::new();
    for seed in 0..seeds {
        let starts: Vec<_> = DEVICES.iter().map(|device| start(device, seed)).collect();
        for profile in Profile::ALL {
            for device in &DEVICES {
                if profile != Profile::Malformed {
                    let start = starts[usize::from(device.number) - 1].clone();
                    cases.push(Case::new(profile, device, start, seed, 0));
                }
            }
        }
        for which in 0..TAILS {
            let index = (which + seed as usize) % DEVICES.len();
            let start = starts[index].clone();
            cases.push(Case::new(
                Profile::Malformed,
                &DEVICES[index],
                start,
                seed,
                which,
            ));
        }
    }
    cases
}

/// In turn a prepared chip, and any contents, unlocked and locked.
fn start(device: &Device, seed: u64) -> Option<Rc<Contents>> {
    let random = |locked| Rc::new(Contents::random(device, &mut Random::new(seed), locked));
    match seed % 3 {
        0 => None,
        1 => Some(random(false)),
        _ => Some(random(true)),
    }
}

impl Case {
    fn new(
        profile: Profile,
        device: &'static Device,
        start: Option<Rc<Contents>>,
        seed: u64,
        which: usize,
    ) -> Case {
        // Traces must not share their random choices, or they would miss the same things.
        let own = ((seed * 100 + which as u64) * 10 + u64::from(device.number)) * 10;
        let records = match profile {
            Profile::Malformed => MALFORMED_RECORDS,
            Profile::Held => HELD_RECORDS,
            _ => RECORDS,
        };
        let mut case = Case {
            profile,
            device,
            start,
            trace: trace_with_tail(profile, device, own + profile as u64, records, which),
            right: Vec::new(),
            contents: Vec::new(),
        };
        let (first, stored) = case.play(Fault::None, usize::MAX, usize::MAX);
        let done = first.ran.done;
        case.right.push(first);
        case.contents.push(stored);
        for (room, limit) in case.other_ends(done) {
            let (played, stored) = case.play(Fault::None, room, limit);
            case.right.push(played);
            case.contents.push(stored);
        }
        case
    }

    /// A refused record is also met without room for its answer, and at the limit.
    fn other_ends(&self, done: usize) -> Vec<(usize, usize)> {
        if self.profile == Profile::Malformed {
            vec![(done, usize::MAX), (usize::MAX, done)]
        } else {
            Vec::new()
        }
    }

    fn play(&self, fault: Fault, room: usize, limit: usize) -> (Played, Contents) {
        let mut contents = match &self.start {
            Some(start) => Contents::clone(start),
            None => Contents::prepared_wrongly(fault, self.device),
        };
        let played = play_wrongly(fault, self.device, &mut contents, &self.trace, room, limit);
        (played, contents)
    }

    /// The first difference that `fault` makes: the records until then and what differs.
    fn difference(&self, fault: Fault) -> Option<(usize, &'static str)> {
        let mut ends = vec![(usize::MAX, usize::MAX)];
        ends.extend(self.other_ends(self.right[0].ran.done));
        ends.iter().enumerate().find_map(|(index, &(room, limit))| {
            let (played, stored) = self.play(fault, room, limit);
            difference(&self.right[index], &self.contents[index], &played, &stored)
        })
    }
}

fn difference(
    right: &Played,
    stored: &Contents,
    wrong: &Played,
    wrongly: &Contents,
) -> Option<(usize, &'static str)> {
    let shared = right.ran.done.min(wrong.ran.done);
    if let Some(index) = (0..shared).find(|&index| right.answers[index] != wrong.answers[index]) {
        return Some((index + 1, "answer"));
    }
    let by = if right.ran != wrong.ran {
        "number"
    } else if stored.cells != wrongly.cells {
        "cells"
    } else if stored.identification != wrongly.identification {
        "identification"
    } else if (stored.status, right.status_byte) != (wrongly.status, wrong.status_byte) {
        "status"
    } else if stored.locked != wrongly.locked {
        "lock"
    } else if right.rest_untouched != wrong.rest_untouched {
        "answer room"
    } else if right.latch != wrong.latch {
        "latch"
    } else if right.counts != wrong.counts {
        "counts"
    } else {
        return None;
    };
    Some((shared, by))
}

/// Inputs of the bench program: the odd ones, and some of each profile.
fn bench_inputs(seeds: u64) -> Vec<Vec<u8>> {
    let mut inputs: Vec<Vec<u8>> = (0..ODD_BENCH_INPUTS).map(odd_bench_input).collect();
    for seed in 0..seeds {
        let taken = |device: &&Device| BENCH_DEVICES.contains(&device.number);
        for device in DEVICES.iter().filter(taken) {
            for profile in [Profile::Mixed, Profile::Malformed] {
                let which = (seed as usize * 7 + usize::from(device.number)) % TAILS;
                inputs.push(bench_input(profile, device, seed, which));
            }
        }
    }
    inputs
}

/// Prints the line of one fault of the bench program; false when it was missed.
fn show_bench(fault: Fault, inputs: &[Vec<u8>]) -> bool {
    let seen = inputs
        .iter()
        .filter(|input| bench(input) != bench_wrongly(fault, input))
        .count();
    let first = (seen > 0).then(|| (String::new(), "line"));
    show_without_trace(fault, "bench", first, seen)
}

/// Prints the line of a fault that is `of` something else than a trace: the device and the kind of its first
/// difference, and how many there are. False when there is none.
fn show_without_trace(fault: Fault, of: &str, first: Option<(String, &str)>, seen: usize) -> bool {
    let (name, meaning) = (format!("{fault:?}"), fault.meaning());
    let Some((device, by)) = first else {
        println!("{name:<32} not seen: no reason is known  ({meaning})");
        return false;
    };
    println!(
        "{name:<32} {of:<10} {device:>6} {by:<14} {:>9} {seen:>7}  {meaning}",
        ""
    );
    true
}

/// Prints the line of one fault; false when it was missed without a reason.
fn show(fault: Fault, cases: &[Case]) -> bool {
    let name = format!("{fault:?}");
    let mut records = 0;
    let mut first = None;
    let mut seen = 0;
    for case in cases {
        match case.difference(fault) {
            Some((at, by)) => {
                seen += 1;
                first = first.or(Some((case, records + at, by)));
            }
            None => records += case.right[0].ran.done,
        }
    }
    let meaning = fault.meaning();
    if let Some((case, records, by)) = first {
        let (profile, number) = (case.profile.name(), case.device.number);
        println!("{name:<32} {profile:<10} {number:>6} {by:<14} {records:>9} {seen:>7}  {meaning}");
        return true;
    }
    let reason = UNSEEN.iter().find(|(unseen, _)| *unseen == fault);
    let why = reason.map_or("no reason is known", |(_, why)| why);
    println!("{name:<32} not seen: {why}  ({meaning})");
    reason.is_some()
}
