//! `store DIR` writes vectors to DIR, one file for each profile, named as the profile; `Vector` says how a file is
//! laid out. The same files come out each time, and what a request brings is only appended to them.

use std::fs;
use std::path::Path;
use std::process::ExitCode;

use m95_model::generate::{
    held_events, made_events, records_of, sheet_events, short_events, tail, Profile, TAILS,
};
use m95_model::{Device, Event, Fault, Vector, DEVICES};

/// Records of a trace, at most.
const RECORDS: usize = 400;
/// Records of a trace that is more than a start, at least; in some traces hardly a step finds room.
const FEWEST_RECORDS: usize = 150;
/// Bytes of most records.
const RECORD_BYTES: usize = 5;
/// Of a profile and a device: vectors that leave cells, identification page or lock changed, and others.
const USUAL: Usual = Usual {
    changing: 3,
    others: 2,
};
const FEW: Usual = Usual {
    changing: 1,
    others: 1,
};

struct Usual {
    changing: usize,
    others: usize,
}

/// Devices that joined the table together. Others may refer to a vector by its place, so those of later devices stand
/// behind all the earlier ones of the file.
struct Joined {
    devices: &'static [Device],
    /// Profiles with few generated vectors, where those made by hand leave no room: a file has to stay short.
    few: &'static [Profile],
    /// Records before the tail of a malformed trace, at most.
    before_tail: usize,
}

/// Document 01's devices, then those of W-202.
static JOINED: [Joined; 2] = [
    Joined {
        devices: DEVICES.split_at(4).0,
        few: &[],
        before_tail: 300,
    },
    Joined {
        devices: DEVICES.split_at(4).1,
        few: &[Profile::Commands, Profile::Waits, Profile::Mixed],
        before_tail: 200,
    },
];

fn main() -> ExitCode {
    let arguments: Vec<String> = std::env::args().skip(1).collect();
    let [directory] = &arguments[..] else {
        eprintln!("use: store DIR");
        return ExitCode::from(2);
    };
    for &profile in Profile::STORED {
        let mut file = Vec::new();
        let joined = JOINED.iter().flat_map(|joined| joined.vectors(profile));
        // Those about the service sheet came next, and those about held commands last.
        let sheet = made_by_hand(sheet_events(profile));
        let held = made_by_hand(held_events(profile));
        let vectors: Vec<Vector> = joined.chain(sheet).chain(held).collect();
        for vector in &vectors {
            vector.append_to(&mut file);
        }
        let path = Path::new(directory).join(profile.name());
        if let Err(error) = fs::write(&path, &file) {
            eprintln!("store: {}: {error}", path.display());
            return ExitCode::from(2);
        }
        println!(
            "{:<10} {:>3} vectors {:>7} bytes",
            profile.name(),
            vectors.len(),
            file.len()
        );
    }
    ExitCode::SUCCESS
}

impl Joined {
    fn vectors(&self, profile: Profile) -> Vec<Vector> {
        if profile == Profile::Malformed {
            return (0..TAILS).map(|which| self.malformed(which)).collect();
        }
        let devices = self.devices;
        let most = match self.few.contains(&profile) {
            true => FEW,
            false => USUAL,
        };
        let usual = devices.iter();
        let usual = usual.flat_map(|device| most.vectors(profile, device));
        let seeds = sharp_seeds(profile);
        let sharp = devices.iter().flat_map(|device| {
            let seeds = seeds[usize::from(device.number) - 1].iter();
            seeds.map(move |&seed| generated(profile, device, seed))
        });
        let made = made_by_hand(made_events(profile, devices));
        usual.chain(sharp).chain(made).collect()
    }

    /// A short trace with the tail number `which`. Tails of one sort follow each other in fours, so the device moves on
    /// by one more after each four.
    fn malformed(&self, which: usize) -> Vector {
        let device = &self.devices[(which + which / 4 + 1) % self.devices.len()];
        let tail = tail(device, which);
        let most = self.before_tail.min(RECORDS - tail.len() / RECORD_BYTES);
        let events = short_events(Profile::Malformed, device, which as u64, most);
        let trace = [records_of(&events), tail].concat();
        Vector::of(Fault::None, device, &trace)
    }
}

impl Usual {
    /// The vectors of the first seeds that give as many changing ones and others as asked for. The seeds are those that
    /// were chosen before W-206: it changes what a trace gives, and must not change which traces there are.
    fn vectors(&self, profile: Profile, device: &'static Device) -> Vec<Vector> {
        let (mut changing, mut others) = (Vec::new(), Vec::new());
        for seed in 0.. {
            let before = made_by_seed(Fault::HeldCommandDropped, profile, device, seed);
            let (kept, most) = match changes(&before) {
                true => (&mut changing, self.changing),
                false => (&mut others, self.others),
            };
            if kept.len() < most && before.answers.len() >= FEWEST_RECORDS {
                kept.push(generated(profile, device, seed));
            }
            if changing.len() == self.changing && others.len() == self.others {
                break;
            }
        }
        changing.append(&mut others);
        changing
    }
}

/// Seeds for each device whose vectors notice faults that other vectors seldom or never notice; without those of the
/// base `sharpness --stored` would find faults missed.
fn sharp_seeds(profile: Profile) -> [&'static [u64]; DEVICES.len()] {
    match profile {
        Profile::Commands => [&[52], &[75, 89], &[68], &[89], &[], &[], &[]],
        Profile::Lengths => [&[36], &[15, 18, 59], &[], &[78, 85], &[], &[], &[64, 140]],
        Profile::Protect => [&[67, 72, 88, 89], &[87], &[6], &[6, 88], &[], &[], &[]],
        Profile::Glitch => [&[48, 89], &[], &[64, 86], &[61], &[], &[], &[117]],
        Profile::Hold => [&[12, 33, 72], &[66, 87], &[], &[87], &[], &[], &[]],
        Profile::Waits => [&[35, 86], &[], &[86, 87], &[], &[], &[], &[]],
        Profile::Power => [&[30, 75], &[], &[85], &[85], &[54], &[120], &[103]],
        Profile::Noise => [&[12, 38], &[78, 79], &[79], &[60], &[], &[], &[]],
        Profile::Mixed => [
            &[19],
            &[],
            &[67, 70, 89],
            &[16, 67],
            &[13, 20],
            &[20, 127],
            &[126],
        ],
        Profile::Malformed | Profile::Held => [&[]; DEVICES.len()],
    }
}

fn made_by_hand(traces: Vec<(&'static Device, Vec<Event>)>) -> impl Iterator<Item = Vector> {
    traces
        .into_iter()
        .map(|(device, events)| Vector::of(Fault::None, device, &records_of(&events)))
}

fn generated(profile: Profile, device: &'static Device, seed: u64) -> Vector {
    made_by_seed(Fault::None, profile, device, seed)
}

/// What the model with `fault` makes of the trace of a seed.
fn made_by_seed(fault: Fault, profile: Profile, device: &'static Device, seed: u64) -> Vector {
    let events = short_events(profile, device, seed, RECORDS);
    Vector::of(fault, device, &records_of(&events))
}

fn changes(vector: &Vector) -> bool {
    !vector.cells.is_empty() || !vector.identification.is_empty() || vector.locked == 1
}
