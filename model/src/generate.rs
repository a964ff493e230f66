//! Seeded traces for comparing models, by named profiles: the same profile, device, seed and length give the same
//! trace.
//!
//! A profile repeats steps. Most steps bring the pins to rest, set up what a command needs (status bits, WEL, a
//! running cycle), disturb that one command at one moment, and look at what came of it, so that traces get past the
//! first bits of a selection.
//!
//! What no trace asks for, the bench program, a view, a state or a load to judge, counts that are wrong or of a wrong
//! length, a blank page to look for, has inputs of its own here.

mod blanks;
mod commands;
mod counts;
mod disturb;
mod inputs;
mod made;
mod malformed;
mod random;
mod states;
mod steps;
mod views;

use crate::device::Device;
use crate::trace::{append_record, Event};
pub use blanks::{blank_chips, blanks, Blank, BlankChip};
use commands::Maker;
pub use counts::{counts, lendings, Counting, Left, Lending};
pub use inputs::{bench_input, odd_bench_input, ODD_BENCH_INPUTS};
pub use made::{held_events, made_events, sheet_events};
pub use malformed::{tail, TAILS};
pub use random::Random;
pub use states::{loads, states, INSTRUCTIONS};
pub use views::{view_bytes, views, View};

/// What a trace is about.
#[derive(Clone, Copy, Debug, PartialEq, Eq)]
pub enum Profile {
    /// Whole commands of every instruction at boundary addresses and lengths.
    Commands,
    /// Commands of every wrong length, in bytes and in bits.
    Lengths,
    /// W low and high at every moment of a selection.
    Protect,
    /// Extra, missing and repeated edges.
    Glitch,
    /// HOLD at every moment of a selection.
    Hold,
    /// Cycles that end at every moment of a selection.
    Waits,
    /// Power at every moment of a selection.
    Power,
    /// Random pins after a meaningful start.
    Noise,
    /// Steps of all the profiles above.
    Mixed,
    /// A mixed trace with a record at its end that is refused.
    Malformed,
    /// Commands that S's rise finds held. It came with request W-206 of document 02 and so stands last: the traces of
    /// the others, mixed ones too, are those of before.
    Held,
}

impl Profile {
    pub const ALL: [Profile; 11] = [
        Profile::Commands,
        Profile::Lengths,
        Profile::Protect,
        Profile::Glitch,
        Profile::Hold,
        Profile::Waits,
        Profile::Power,
        Profile::Noise,
        Profile::Mixed,
        Profile::Malformed,
        Profile::Held,
    ];

    /// Those that have a file of stored vectors. For the last one some made by hand stand in the files of the others.
    pub const STORED: &'static [Profile] = Profile::ALL.split_at(Profile::Held as usize).0;

    pub fn name(self) -> &'static str {
        match self {
            Profile::Commands => "commands",
            Profile::Lengths => "lengths",
            Profile::Protect => "protect",
            Profile::Glitch => "glitch",
            Profile::Hold => "hold",
            Profile::Waits => "waits",
            Profile::Power => "power",
            Profile::Noise => "noise",
            Profile::Mixed => "mixed",
            Profile::Malformed => "malformed",
            Profile::Held => "held",
        }
    }

    pub fn named(name: &str) -> Option<Profile> {
        Profile::ALL
            .into_iter()
            .find(|profile| profile.name() == name)
    }
}

/// The events of a trace of at least `records` events; none of them is refused on a chip that is in no cycle.
pub fn events(profile: Profile, device: &'static Device, seed: u64, records: usize) -> Vec<Event> {
    let mut maker = Maker::new(device, seed, records);
    while !maker.is_full() {
        maker.step(profile);
    }
    maker.leave_open();
    maker.events
}

/// How often a step of `short_events` may be too long before the trace is taken as full.
const STEPS_TOO_LONG: usize = 8;

/// The events of a trace of at most `most` events, all its steps whole. About one trace in four is then cut at some
/// moment, most often within a selection.
pub fn short_events(
    profile: Profile,
    device: &'static Device,
    seed: u64,
    most: usize,
) -> Vec<Event> {
    // No records asked for: a short trace may lock at once.
    let mut maker = Maker::new(device, seed, 0);
    let mut too_long = 0;
    while too_long < STEPS_TOO_LONG {
        let before = maker.events.len();
        maker.step(profile);
        if maker.events.len() > most {
            maker.events.truncate(before);
            too_long += 1;
        }
    }
    if maker.random.once_in(4) {
        let length = maker.events.len();
        let cut = length - maker.random.below(length / 2 + 1);
        maker.events.truncate(cut);
    }
    maker.events
}

/// The records of `events`; for `Malformed` with the tail that the seed picks.
pub fn trace(profile: Profile, device: &'static Device, seed: u64, records: usize) -> Vec<u8> {
    let which = Random::new(seed).below(TAILS);
    trace_with_tail(profile, device, seed, records, which)
}

/// `trace`, for `Malformed` with the tail number `which`.
pub fn trace_with_tail(
    profile: Profile,
    device: &'static Device,
    seed: u64,
    records: usize,
    which: usize,
) -> Vec<u8> {
    let mut bytes = records_of(&events(profile, device, seed, records));
    if profile == Profile::Malformed {
        bytes.extend_from_slice(&tail(device, which));
    }
    bytes
}

/// The records of a list of events.
pub fn records_of(events: &[Event]) -> Vec<u8> {
    let mut bytes = Vec::new();
    for &event in events {
        append_record(&mut bytes, event);
    }
    bytes
}
