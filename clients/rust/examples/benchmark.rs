//! `benchmark [RECORDS]`: the same traces through the proved library and through the plain Rust model, in turns in one run: records a
//! second of each, their ratio, and the library against the real bus. Traces grow tenfold from 1,000 records as long as they have at most
//! RECORDS (ten million where none is said). The shortest time of several turns counts; answers, cells and counts of both must be equal.

use std::process::ExitCode;
use std::time::{Duration, Instant};

use m95_model::{append_record, Event};
use proved::{Lent, STATE_BYTES};

/// 20 million bits a second, each of three records: D set, C up, C down.
const BUS: f64 = 60e6;
const SMALLEST: usize = 1_000;
const LARGEST: usize = 10_000_000;

/// For each size, turns are taken until so many records were done by each, and at least so many turns.
const RECORDS_A_SIZE: usize = 50_000_000;
const TURNS: usize = 7;

#[derive(Clone, Copy)]
enum Kind {
    Reading,
    Writing,
}

fn main() -> ExitCode {
    let words: Vec<String> = std::env::args().skip(1).collect();
    let largest = match (words.len(), words.first().map(|text| text.parse())) {
        (0, _) => LARGEST,
        (1, Some(Ok(records))) if records >= SMALLEST => records,
        _ => {
            eprintln!(
                "benchmark: it takes a number of records, at least {SMALLEST}: benchmark [RECORDS]"
            );
            return ExitCode::from(2);
        }
    };
    println!("| device | trace | records | proved library, million records a second | plain Rust model | ratio | times the bus |");
    println!("|---|---|---|---|---|---|---|");
    for device in [1, 4] {
        for kind in [Kind::Reading, Kind::Writing] {
            let mut records = SMALLEST;
            while records <= largest {
                row(device, kind, records);
                records *= 10;
            }
        }
    }
    ExitCode::SUCCESS
}

/// Measures one trace with both, and prints its line.
fn row(device: usize, kind: Kind, records: usize) {
    let trace = trace(device, kind, records);
    let mut ours = Bench::new(device, records);
    let mut model = Bench::new(device, records);
    let turns = (RECORDS_A_SIZE / records).max(TURNS);
    let mut best = (Duration::MAX, Duration::MAX);
    for _ in 0..turns {
        best.0 = best.0.min(ours.proved(device, &trace));
        best.1 = best.1.min(model.plain(device, &trace));
    }
    let same = ours.answers == model.answers && ours.cells == model.cells;
    assert!(
        same && ours.counts == model.counts,
        "the two differ on {records} records"
    );
    let rate = |time: Duration| records as f64 / time.as_secs_f64();
    println!(
        "| {} | {} | {} | {:.1} | {:.1} | {:.2} | {:.2} |",
        device,
        match kind {
            Kind::Reading => "reading",
            Kind::Writing => "page writing",
        },
        records,
        rate(best.0) / 1e6,
        rate(best.1) / 1e6,
        rate(best.0) / rate(best.1),
        rate(best.0) / BUS
    );
}

/// Buffers of a device, and room for the answers of a trace.
struct Bench {
    state: [u8; STATE_BYTES],
    cells: Vec<u8>,
    identification: Vec<u8>,
    latch: Vec<u8>,
    counts: Vec<u16>,
    answers: Vec<u8>,
}

impl Bench {
    fn new(device: usize, records: usize) -> Bench {
        Bench {
            state: [0; STATE_BYTES],
            cells: vec![0; proved::cells(device)],
            identification: vec![0; proved::identification(device)],
            latch: vec![0; 2 * proved::page(device)],
            counts: vec![0; proved::pages(device)],
            answers: vec![0; records],
        }
    }

    /// One run of the library from a prepared device; preparing is not timed.
    fn proved(&mut self, device: usize, trace: &[u8]) -> Duration {
        let mut lent = Lent {
            state: &mut self.state,
            cells: &mut self.cells,
            identification: &mut self.identification,
            latch: &mut self.latch,
            counts: &mut self.counts,
        };
        assert_eq!(proved::prepare(device, &mut lent), 0);
        let start = Instant::now();
        let ran = proved::run(device, &mut lent, trace, &mut self.answers, usize::MAX);
        let time = start.elapsed();
        assert_eq!((ran.number, ran.done), (0, self.answers.len()));
        time
    }

    /// The same by the model.
    fn plain(&mut self, device: usize, trace: &[u8]) -> Duration {
        let number = device as u8;
        let (cells, identification) = (&mut self.cells, &mut self.identification);
        let (latch, counts) = (&mut self.latch, &mut self.counts);
        let (_, mut state) = m95_model::prepare(number, cells, identification, latch, counts);
        let start = Instant::now();
        let ran = m95_model::run(
            number,
            &mut state,
            cells,
            identification,
            latch,
            counts,
            trace,
            &mut self.answers,
            usize::MAX,
        );
        let time = start.elapsed();
        assert_eq!(
            (ran.number, ran.done),
            (m95_model::Number::Done, self.answers.len())
        );
        time
    }
}

/// A trace of so many records: one READ from address 0 that goes on and on, or WREN and a WRITE of a whole page, page after page.
fn trace(device: usize, kind: Kind, records: usize) -> Vec<u8> {
    let mut events = Vec::with_capacity(records);
    match kind {
        Kind::Reading => {
            events.push(Event::Select(false));
            send(&mut events, &command(device, 0x03, 0));
            while events.len() < records {
                send(&mut events, &[0]);
            }
        }
        Kind::Writing => {
            let (cells, page) = (proved::cells(device), proved::page(device));
            let mut address = 0;
            while events.len() < records {
                write_page(&mut events, device, address, page);
                address = (address + page) % cells;
            }
        }
    }
    let mut trace = Vec::new();
    for event in &events[..records] {
        append_record(&mut trace, *event);
    }
    trace
}

/// WREN, the WRITE of a page at an address, and the time that it takes.
fn write_page(events: &mut Vec<Event>, device: usize, address: usize, page: usize) {
    events.push(Event::Select(false));
    send(events, &[0x06]);
    events.push(Event::Select(true));
    events.push(Event::Select(false));
    send(events, &command(device, 0x02, address));
    let bytes: Vec<u8> = (0..page)
        .map(|place| (address / page + place) as u8)
        .collect();
    send(events, &bytes);
    events.push(Event::Select(true));
    events.push(Event::Wait(5_000));
}

/// A code and its address: of one byte, with A8 in the code, on device 1, and of three on device 4.
fn command(device: usize, code: u8, address: usize) -> Vec<u8> {
    if device == 1 {
        vec![code | (address >> 8 << 3) as u8, address as u8]
    } else {
        let address = (address as u32).to_be_bytes();
        vec![code, address[1], address[2], address[3]]
    }
}

/// Bytes, most significant bit first, three records a bit.
fn send(events: &mut Vec<Event>, bytes: &[u8]) {
    for byte in bytes {
        for bit in (0..8).rev() {
            events.push(Event::Data(byte >> bit & 1 == 1));
            events.push(Event::Clock(true));
            events.push(Event::Clock(false));
        }
    }
}
