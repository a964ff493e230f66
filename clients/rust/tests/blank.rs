//! The first blank page, the wrapper's call beside the second model's: each page as the only blank one, counts of chance with few zeros
//! among them, every wrong length, the model's own questions with each of its faults, and the counts that generated traces leave, where both
//! also say what the cells themselves do.

mod common;

use common::Pair;
use m95_model::generate::{blanks, counts, events, records_of, Counting, Profile, Random};
use m95_model::{Device, Fault, Number, DEVICES};
use proved::refused;

/// What the model says, as the library would; a refused search finds nothing.
fn by_model(device: u8, counts: &[u16]) -> Result<Option<usize>, usize> {
    match m95_model::first_blank(device, counts) {
        (Number::Done, page) => Ok(page),
        (number, page) => {
            assert_eq!(page, None);
            Err(number as usize)
        }
    }
}

/// What both say of these counts, which must be the same.
fn search(device: u8, counts: &[u16]) -> Result<Option<usize>, usize> {
    let ours = proved::first_blank(device.into(), counts);
    let model = by_model(device, counts);
    assert_eq!(ours, model, "{device} {counts:?}");
    ours
}

/// The first page whose cells are all FFh, looked for in the cells.
fn read(row: &Device, cells: &[u8]) -> Option<usize> {
    let mut pages = cells.chunks(row.page);
    pages.position(|page| page.iter().all(|&cell| cell == 0xFF))
}

/// A count that is not 0, now and then more than a page has cells, or with a low byte of 0.
fn filled(row: &Device, random: &mut Random) -> u16 {
    let chance = 1 + random.below(usize::from(u16::MAX)) as u16;
    random.pick(&[1, row.page as u16, 256, 257, 0xFF00, u16::MAX, chance])
}

#[test]
fn each_page_alone_and_before_others() {
    for row in &DEVICES {
        for count in [1, row.page as u16, 256, u16::MAX] {
            let full = vec![count; row.pages()];
            assert_eq!(search(row.number, &full), Ok(None));
            for page in 0..row.pages() {
                let mut counts = full.clone();
                counts[page] = 0;
                assert_eq!(search(row.number, &counts), Ok(Some(page)));
                counts[page..].fill(0);
                assert_eq!(search(row.number, &counts), Ok(Some(page)));
            }
        }
    }
}

/// About one zero in all counts, so that there is none now and then and the first is anywhere.
#[test]
fn counts_of_chance() {
    let mut random = Random::new(6);
    for row in &DEVICES {
        let (mut none, mut upper) = (0, 0);
        for _ in 0..2_000 {
            let count = |random: &mut Random| match random.once_in(row.pages()) {
                true => 0,
                false => filled(row, random),
            };
            let counts: Vec<u16> = (0..row.pages()).map(|_| count(&mut random)).collect();
            match search(row.number, &counts) {
                Ok(None) => none += 1,
                Ok(Some(page)) => upper += usize::from(page >= row.pages() / 2),
                Err(number) => panic!("{number} for right lengths"),
            }
        }
        assert!(none > 0 && upper > 0, "{}", row.name);
    }
}

/// Every length up to past twice the right one, with a blank page at the start, at the end or nowhere, on the device and on numbers that
/// are none.
#[test]
fn lengths_of_counts() {
    for row in &DEVICES {
        for length in 0..=2 * row.pages() + 1 {
            let full = vec![1; length];
            let (mut first, mut last) = (full.clone(), full.clone());
            first.iter_mut().take(1).for_each(|count| *count = 0);
            last.iter_mut().rev().take(1).for_each(|count| *count = 0);
            for counts in [full, first, last] {
                let refusal = (length != row.pages()).then_some(refused::COUNTS);
                assert_eq!(search(row.number, &counts).err(), refusal);
                for device in [0, DEVICES.len() as u8 + 1, u8::MAX] {
                    assert_eq!(search(device, &counts), Err(refused::DEVICE));
                }
                // The model's numbers of devices are bytes; the library's are not.
                let number = usize::from(row.number);
                for large in [256 + number, 1 << 32 | number, usize::MAX - 255 + number] {
                    let ours = proved::first_blank(large, &counts);
                    assert_eq!(ours, Err(refused::DEVICE));
                }
            }
        }
    }
}

/// The model's chosen questions: the library answers each as the model does, and no fault of the model answers all of them so.
#[test]
fn chosen_questions() {
    let faults = Fault::ALL
        .iter()
        .copied()
        .filter(|fault| fault.is_of_blank());
    let mut unnoticed: Vec<Fault> = faults.collect();
    assert!(!unnoticed.is_empty());
    for question in DEVICES.iter().flat_map(blanks) {
        let answer = match search(question.device, &question.counts) {
            Ok(page) => (0, page),
            Err(number) => (number, None),
        };
        unnoticed.retain(|&fault| {
            let (number, page) = question.ask(fault);
            (number as usize, page) == answer
        });
    }
    assert_eq!(unnoticed, []);
}

/// Both with a byte other than FFh in every page but half of those at the edges, which generated traces like to write to; counted.
fn start(row: &'static Device, random: &mut Random) -> Pair {
    let mut pair = Pair::prepared(row);
    let quarter = row.pages() / 4;
    for (number, page) in pair.ours.cells.chunks_mut(row.page).enumerate() {
        let is_edge = number < 3 || number % quarter == 0 || (number + 1) % quarter == 0;
        if !is_edge || random.level() {
            page[random.below(row.page)] = random.below(255) as u8;
        }
    }
    pair.model.cells.clone_from(&pair.ours.cells);
    pair.count_pages();
    pair
}

/// Traces in pieces: after each the answer is that of the cells, and on every device it changes. Counts of every kind, most of them wrong,
/// are lent for a search alone, and answered as they stand.
#[test]
fn pages_that_traces_leave_blank() {
    let mut random = Random::new(7);
    for row in &DEVICES {
        let mut changes = 0;
        for profile in Profile::ALL {
            let mut pair = start(row, &mut random);
            let mut answer = search(row.number, &pair.ours.counts);
            let trace = records_of(&events(profile, row, 7, 50_000));
            let mut at = 0;
            while at < trace.len() {
                let limit = 1 + random.below(1_000);
                let ran = pair.run(&trace[at..], limit, limit);
                assert_eq!(ran.number, 0);
                at += ran.taken;
                let now = search(row.number, &pair.ours.counts);
                assert_eq!(now, Ok(read(row, &pair.ours.cells)));
                changes += usize::from(now != answer);
                answer = now;
                search_lent(&pair, &mut random);
            }
        }
        assert!(changes > 0, "{}", row.name);
    }
}

/// A search of counts that stand in some way to the cells.
fn search_lent(pair: &Pair, random: &mut Random) {
    let counting = random.pick(&Counting::ALL);
    let counts = counts(counting, pair.row, &pair.state, &pair.model.cells, random);
    let page = counts.iter().position(|&count| count == 0);
    assert_eq!(search(pair.row.number, &counts), Ok(page), "{counting:?}");
}
