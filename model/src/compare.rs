//! Runs other programs beside the model on generated traces and looks for the first difference.
//!
//! The programs are used as `play` and `bench` are. Traces for `play` are long, since starting a process may cost
//! more than running one, and go on from chip to chip in chains. `play` is also asked for the first blank page, of the
//! chip that each run left and of some made for this.

mod blanks;
mod external;

use std::io;
use std::path::PathBuf;

use crate::bench::BENCH_DEVICES;
use crate::device::{Device, DEVICES};
use crate::generate::{
    bench_input, odd_bench_input, trace_with_tail, Profile, Random, ODD_BENCH_INPUTS, TAILS,
};
use crate::{bench, play, Contents};
use external::{Files, Program};

/// Records of one trace for `play`, and of one that is refused at its end. All profiles on all devices make a round of
/// a little less than the 2,200,000 records that the program does if not told otherwise.
const PLAY_RECORDS: usize = 23_000;
const MALFORMED_RECORDS: usize = 4_000;
/// Refused traces for each device in a round. Those of `play` take every tail at least once.
const MALFORMED_PLAYS: usize = TAILS.div_ceil(DEVICES.len());
const MALFORMED_BENCHES: usize = 8;
/// Runs of a device on one chip before it gets another one.
const CHAIN: usize = 3;

/// What to compare, and how far.
pub struct Order {
    pub play: Option<String>,
    pub bench: Option<String>,
    pub seed: u64,
    pub records: usize,
    pub keep: PathBuf,
}

/// What was done with one profile, or with questions of one sort, which are runs without records.
#[derive(Clone, Copy, Default)]
pub struct Tally {
    pub runs: usize,
    pub records: usize,
    pub differences: usize,
}

impl Tally {
    fn add(&mut self, records: usize, difference: &Option<String>) {
        self.runs += 1;
        self.records += records;
        self.differences += usize::from(difference.is_some());
    }
}

/// The first difference in words, and the tally of each profile in the order of `Profile::ALL`.
#[derive(Default)]
pub struct Outcome {
    pub difference: Option<String>,
    pub tallies: [Tally; Profile::ALL.len()],
    /// Questions for the first blank page of chips that runs left, and of those made for this.
    pub blank_left: Tally,
    pub blank_made: Tally,
}

impl Outcome {
    pub fn records(&self) -> usize {
        self.tallies.iter().map(|tally| tally.records).sum()
    }
}

/// Compares until enough records were done or a difference was found. An error means that the comparison itself
/// could not go on.
pub fn compare(order: &Order) -> io::Result<Outcome> {
    let mut comparison = Comparison::new(order)?;
    for round in 0.. {
        comparison.round(round)?;
        if comparison.is_over() {
            break;
        }
    }
    comparison.files.clear()?;
    Ok(comparison.outcome)
}

/// The chip of a device: the model's copy; the other program's is in a file.
struct Chain {
    contents: Contents,
    /// Runs on this chip, and chips before it.
    runs: usize,
    chips: usize,
}

struct Comparison {
    play: Option<Program>,
    bench: Option<Program>,
    records: usize,
    seed: u64,
    random: Random,
    files: Files,
    chains: Vec<Chain>,
    play_tail: usize,
    bench_tail: usize,
    outcome: Outcome,
}

/// What one run is about, for the report.
#[derive(Clone, Copy)]
struct Run {
    profile: Profile,
    device: &'static Device,
    seed: u64,
    program: &'static str,
}

impl Comparison {
    fn new(order: &Order) -> io::Result<Comparison> {
        let mut random = Random::new(order.seed);
        Ok(Comparison {
            play: order.play.as_deref().map(Program::new),
            bench: order.bench.as_deref().map(Program::new),
            records: order.records,
            seed: order.seed,
            files: Files::new(&order.keep)?,
            chains: DEVICES.iter().map(Chain::new).collect(),
            play_tail: random.below(TAILS),
            bench_tail: random.below(TAILS),
            random,
            outcome: Outcome::default(),
        })
    }

    fn is_over(&self) -> bool {
        self.outcome.difference.is_some() || self.outcome.records() >= self.records
    }

    /// Every profile on every device once, the refused ones more often. The odd inputs are always the same, so once is
    /// enough for them, and so it is for the chips made to be asked about, which differ little.
    fn round(&mut self, round: usize) -> io::Result<()> {
        if round == 0 {
            for which in 0..ODD_BENCH_INPUTS {
                self.odd_input_run(which)?;
            }
            self.ask_about_made()?;
        }
        for profile in Profile::ALL {
            let (plays, benches) = match profile {
                Profile::Malformed => (MALFORMED_PLAYS, MALFORMED_BENCHES),
                _ => (1, 1),
            };
            for device in &DEVICES {
                for _ in 0..plays {
                    self.play_run(profile, device)?;
                }
                for _ in 0..benches {
                    self.bench_run(profile, device)?;
                }
            }
        }
        Ok(())
    }

    fn run(&mut self, profile: Profile, device: &'static Device, program: &'static str) -> Run {
        Run {
            profile,
            device,
            seed: self.random.word(),
            program,
        }
    }

    fn play_run(&mut self, profile: Profile, device: &'static Device) -> io::Result<()> {
        let Some(program) = self.play.clone() else {
            return Ok(());
        };
        if self.is_over() {
            return Ok(());
        }
        let run = self.run(profile, device, "play");
        let mut records = PLAY_RECORDS;
        if profile == Profile::Malformed {
            records = MALFORMED_RECORDS;
            self.play_tail = (self.play_tail + 1) % TAILS;
        }
        let trace = trace_with_tail(profile, device, run.seed, records, self.play_tail);
        self.start_chip(device)?;
        self.files.write("trace", &trace)?;

        let chain = &mut self.chains[usize::from(device.number) - 1];
        chain.runs += 1;
        let played = play(device, &mut chain.contents, &trace);
        let expected_chip = chain.contents.to_bytes();
        let given = program.play(device, &self.files)?;
        let difference = first_difference(&played.answers, &given.answers)
            .or_else(|| text_difference(&played.line(), &given.text))
            .or_else(|| chip_difference(device, &expected_chip, &given.chip));
        if difference.is_some() {
            self.files.write("answers-expected", &played.answers)?;
            self.files.write("chip-expected", &expected_chip)?;
        }
        self.note(&run, played.ran.done, difference);
        self.ask_about_left(&program, &run)
    }

    /// The chip to begin with: the one of the run before, or a missing file, a raw image, or any contents. A locked
    /// chip is often left early, since nothing unlocks it and it takes less.
    fn start_chip(&mut self, device: &'static Device) -> io::Result<()> {
        let index = usize::from(device.number) - 1;
        let name = chip_name(device);
        let chain = &self.chains[index];
        let left_early = chain.contents.locked && self.random.level();
        if (1..CHAIN).contains(&chain.runs) && !left_early {
            return self.files.copy(&name, "chip-before");
        }
        self.files.remove(&name)?;
        self.files.remove("chip-before")?;
        let locked = self.random.once_in(3);
        let random = Contents::random(device, &mut self.random, locked);
        let chips = self.chains[index].chips;
        let contents = match (chips + index) % 3 {
            0 => Contents::prepared(device),
            1 => {
                self.files.write(&name, &random.cells)?;
                Contents {
                    cells: random.cells,
                    ..Contents::prepared(device)
                }
            }
            _ => {
                self.files.write(&name, &random.to_bytes())?;
                random
            }
        };
        if self.files.path(&name).exists() {
            self.files.copy(&name, "chip-before")?;
        }
        self.chains[index] = Chain {
            contents,
            runs: 0,
            chips: chips + 1,
        };
        Ok(())
    }

    fn bench_run(&mut self, profile: Profile, device: &'static Device) -> io::Result<()> {
        if !BENCH_DEVICES.contains(&device.number) {
            return Ok(());
        }
        let run = self.run(profile, device, "bench");
        if profile == Profile::Malformed {
            self.bench_tail = (self.bench_tail + 1) % TAILS;
        }
        let input = bench_input(profile, device, run.seed, self.bench_tail);
        self.bench_input(run, &input)
    }

    /// An input whose first record is refused, or whose length is at the limit.
    fn odd_input_run(&mut self, which: usize) -> io::Result<()> {
        let run = self.run(Profile::Malformed, &DEVICES[0], "bench");
        self.bench_input(run, &odd_bench_input(which))
    }

    fn bench_input(&mut self, run: Run, input: &[u8]) -> io::Result<()> {
        let Some(program) = self.bench.clone() else {
            return Ok(());
        };
        if self.is_over() {
            return Ok(());
        }
        self.files.write("trace", input)?;
        let expected = bench(input);
        let given = program.bench(&self.files)?;
        let difference = text_difference(&expected, &given);
        // A header, a line for each record, and the end.
        let records = expected.lines().count().saturating_sub(2);
        self.note(&run, records, difference);
        Ok(())
    }

    fn note(&mut self, run: &Run, records: usize, difference: Option<String>) {
        let index = Profile::ALL.iter().position(|&one| one == run.profile);
        let tally = &mut self.outcome.tallies[index.expect("a profile of the list")];
        tally.add(records, &difference);
        self.keep(self.place(run), difference);
    }

    fn place(&self, run: &Run) -> String {
        format!(
            "{} differs: seed {} (of the comparison {}), profile {}, device {}",
            run.program,
            run.seed,
            self.seed,
            run.profile.name(),
            run.device.number
        )
    }

    /// Keeps a difference with its place, and its files.
    fn keep(&mut self, place: String, difference: Option<String>) {
        let Some(difference) = difference else {
            return;
        };
        self.files.keep();
        self.outcome.difference = Some(format!("{place}: {difference}"));
    }
}

impl Chain {
    fn new(device: &Device) -> Chain {
        Chain {
            contents: Contents::prepared(device),
            runs: 0,
            chips: 0,
        }
    }
}

/// The file of a device's chip; chains of different devices go on side by side.
fn chip_name(device: &Device) -> String {
    format!("chip{}", device.number)
}

/// The first place where two lists of answers part.
fn first_difference(expected: &[u8], given: &[u8]) -> Option<String> {
    let shared = expected.len().min(given.len());
    if let Some(index) = (0..shared).find(|&index| expected[index] != given[index]) {
        return Some(format!(
            "record {}: the model answers {}, the other {}",
            index + 1,
            expected[index],
            given[index]
        ));
    }
    (expected.len() != given.len()).then(|| {
        format!(
            "record {}: the model did {} records, the other {}",
            shared + 1,
            expected.len(),
            given.len()
        )
    })
}

/// The first line that differs; the lines of the bench program begin with their record.
fn text_difference(expected: &str, given: &str) -> Option<String> {
    if expected == given {
        return None;
    }
    let (mut ours, mut theirs) = (expected.lines(), given.lines());
    loop {
        let (our, their) = (ours.next(), theirs.next());
        if our != their || our.is_none() {
            return Some(format!(
                "the model prints {:?}, the other {:?}",
                our.unwrap_or("nothing more"),
                their.unwrap_or("nothing more")
            ));
        }
    }
}

/// The first stored byte that differs, by the part of the chip it is in.
fn chip_difference(device: &Device, expected: &[u8], given: &[u8]) -> Option<String> {
    if expected.len() != given.len() {
        return Some(format!(
            "the chip has {} bytes, the other's {}",
            expected.len(),
            given.len()
        ));
    }
    let index = (0..expected.len()).find(|&index| expected[index] != given[index])?;
    let end = device.cells + device.identification;
    let part = match index {
        _ if index < device.cells => format!("cell {index:X}h"),
        _ if index < end => format!("identification byte {:X}h", index - device.cells),
        _ if index == end => "status".into(),
        _ => "lock".into(),
    };
    Some(format!(
        "{part}: the model stores {:02X}, the other {:02X}",
        expected[index], given[index]
    ))
}
