//! The first blank page (document 02, W-205, readings 205.1 to 205.3): by the counts alone, and the same as by the cells
//! where the two agree.

mod common;

use common::{write_at, Board};
use m95_model::generate::{
    blank_chips, blanks, counts, events, short_events, Blank, Counting, Profile, Random,
};
use m95_model::{
    count_pages, device, first_blank, load, Contents, Device, Event, Fault, Number, DEVICES,
};

/// Pages of each device, as reading 204.2 lists them.
const PAGES: [(u8, usize); 7] = [
    (1, 32),
    (2, 256),
    (3, 512),
    (4, 1024),
    (5, 8),
    (6, 16),
    (7, 256),
];

/// The answer that needs no counts.
fn by_every_cell(row: &Device, cells: &[u8]) -> Option<usize> {
    let mut found = None;
    for (page, cells) in cells.chunks(row.page).enumerate() {
        let written = cells.iter().filter(|&&cell| cell != 0xFF).count();
        if written == 0 && found.is_none() {
            found = Some(page);
        }
    }
    found
}

fn room(board: &Board) -> Option<usize> {
    let (number, page) = first_blank(board.device.number, &board.counts);
    assert_eq!(number, Number::Done);
    page
}

#[test]
fn the_lowest_page_with_count_0_is_given() {
    for (number, pages) in PAGES {
        for page in 0..pages {
            let mut counts = vec![1; pages];
            counts[page] = 0;
            let expected = (Number::Done, Some(page));
            assert_eq!(first_blank(number, &counts), expected, "alone");
            counts[pages - 1] = 0;
            assert_eq!(first_blank(number, &counts), expected, "and the last");
            counts[page..].fill(0);
            assert_eq!(first_blank(number, &counts), expected, "and all behind");
        }
    }
}

/// 205.1: what is given is never as large as an address of the last page.
#[test]
fn it_is_given_by_its_number() {
    for (number, pages) in PAGES {
        let mut counts = vec![3; pages];
        counts[pages - 1] = 0;
        let given = first_blank(number, &counts);
        assert_eq!(given, (Number::Done, Some(pages - 1)), "device {number}");
    }
}

#[test]
fn none_is_no_refusal() {
    for (number, pages) in PAGES {
        for value in [1, 2, 16, 64, 255, 256, 257, 512, 0x8000, u16::MAX] {
            let given = first_blank(number, &vec![value; pages]);
            assert_eq!(given, (Number::Done, None), "device {number} {value}");
        }
    }
}

#[test]
fn a_wrong_length_gives_14_and_no_page() {
    for (number, pages) in PAGES {
        let lengths = PAGES.iter().map(|&(_, pages)| pages);
        let beside = [0, 1, pages - 1, pages + 1, 2 * pages];
        for length in lengths.chain(beside).filter(|&length| length != pages) {
            for value in [0, 1] {
                let given = first_blank(number, &vec![value; length]);
                let asked = format!("device {number} {length} counts of {value}");
                assert_eq!(given, (Number::Counts, None), "{asked}");
            }
        }
    }
}

/// 1 comes before 14, whether or not some device has that many pages.
#[test]
fn no_device_gives_1_whatever_the_length() {
    for number in [0].into_iter().chain(8..=u8::MAX) {
        for length in [0, 1, 8, 16, 32, 100, 256, 512, 1024, 1025] {
            for value in [0, 1] {
                let given = first_blank(number, &vec![value; length]);
                assert_eq!(given, (Number::Device, None), "device {number} {length}");
            }
        }
    }
}

/// 205.2 and 205.3: of all chosen questions none ends in another number, and no refusal has a page.
#[test]
fn no_other_number_is_given() {
    let mut seen = [0; 4];
    for row in &DEVICES {
        for Blank { device, counts } in blanks(row) {
            let kind = match first_blank(device, &counts) {
                (Number::Done, Some(page)) => {
                    assert!(page < row.pages() && counts[page] == 0);
                    assert!(!counts[..page].contains(&0));
                    0
                }
                (Number::Done, None) => {
                    assert!(!counts.contains(&0));
                    1
                }
                (Number::Device, None) => 2,
                (Number::Counts, None) => 3,
                other => panic!("{other:?} for device {device}"),
            };
            seen[kind] += 1;
        }
    }
    assert!(seen.iter().all(|&times| times > 200), "{seen:?}");
}

#[test]
fn a_wrong_count_is_believed() {
    for row in &DEVICES {
        let mut board = Board::new(row.number);
        board.counts[0] = 1;
        assert_eq!(room(&board), Some(1), "blank cells, counted as written");
        board.counts.fill(u16::MAX);
        assert_eq!(room(&board), None, "more than a page has");
        board.cells.fill(0x00);
        board.counts[2] = 0;
        assert_eq!(room(&board), Some(2), "written cells, counted as blank");
    }
}

/// A full page of devices 3 and 4 has a count whose low byte is 0.
#[test]
fn a_full_page_is_not_blank() {
    for row in &DEVICES {
        let mut cells = vec![0xFF; row.cells];
        cells[..row.page].fill(0x00);
        let mut counts = vec![0; row.pages()];
        assert_eq!(count_pages(row.number, &cells, &mut counts), Number::Done);
        assert_eq!(usize::from(counts[0]), row.page);
        let given = first_blank(row.number, &counts);
        assert_eq!(given, (Number::Done, Some(1)), "{}", row.name);
    }
}

#[test]
fn pages_fill_up_one_by_one() {
    for number in [1, 5, 6] {
        let mut board = Board::new(number);
        let row = board.device;
        for page in 0..row.pages() {
            assert_eq!(room(&board), Some(page));
            // The last cell of the page: the answer is not about its first one.
            board.write(&write_at(row, (page + 1) * row.page - 1));
        }
        assert_eq!(room(&board), None);
    }
}

/// The change comes with the end of the cycle, and writing FFh makes room again.
#[test]
fn room_goes_and_comes_with_the_cells() {
    for row in &DEVICES {
        let mut board = Board::new(row.number);
        let written = write_at(row, 0);
        board.start_write(&written);
        assert_eq!(room(&board), Some(0), "the cells have not changed yet");
        board.wait(row.write_time);
        assert_eq!(room(&board), Some(1));
        let (_, command) = written.split_last().expect("a byte");
        board.write(&[command, &[0xFF]].concat());
        assert_eq!(room(&board), Some(0));
    }
}

/// A board with the contents of a chip's file and the counts of its cells. Block protection is left out, or hardly a
/// write would be done.
fn loaded(row: &Device, contents: Contents) -> Board {
    let mut board = Board::new(row.number);
    let (number, state) = load(row.number, contents.status & 0x80, 0);
    assert_eq!(number, Number::Done);
    board.state = state;
    board.cells = contents.cells;
    board.identification = contents.identification;
    let counted = count_pages(row.number, &board.cells, &mut board.counts);
    assert_eq!(counted, Number::Done);
    board
}

/// From blank chips and from those with few blank pages, which make the answer move. The counts are those that the
/// events kept, and then those counted afresh.
#[test]
fn it_agrees_with_every_cell_after_generated_traces() {
    let mut answers = Vec::new();
    for row in &DEVICES {
        let mut random = Random::new(u64::from(row.number));
        let starts = blank_chips(row, &mut random).into_iter();
        let starts = starts.filter_map(|chip| Contents::from_bytes(row, &chip.bytes?).ok());
        for (start, profile) in starts.zip(Profile::ALL.into_iter().cycle()) {
            let mut board = loaded(row, start);
            for happening in events(profile, row, random.word(), 4000) {
                board.set(happening);
                if let Event::Wait(_) = happening {
                    assert_eq!(room(&board), by_every_cell(row, &board.cells));
                }
            }
            let by_cells = by_every_cell(row, &board.cells);
            assert_eq!(room(&board), by_cells, "{profile:?} {}", row.name);
            board.counts.fill(7);
            count_pages(row.number, &board.cells, &mut board.counts);
            assert_eq!(room(&board), by_cells, "{profile:?} {}", row.name);
            answers.push(by_cells);
        }
    }
    let has = |sort: fn(&Option<usize>) -> bool| answers.iter().any(sort);
    assert!(has(|page| page.is_none()));
    assert!(has(|page| *page == Some(0)));
    assert!(has(|page| page.is_some_and(|page| page > 255)));
}

/// Without agreement nothing is promised: with each way of counting wrongly some answer is another than the cells'.
#[test]
fn without_agreement_it_goes_by_the_counts() {
    let row = device(6).expect("device 6");
    for counting in [Counting::OneMore, Counting::Highest, Counting::AllWrong] {
        let mut differs = false;
        for seed in 0..20 {
            let mut board = Board::new(row.number);
            for happening in short_events(Profile::Commands, row, seed, 400) {
                board.set(happening);
            }
            let mut random = Random::new(seed);
            board.counts = counts(counting, row, &board.state, &board.cells, &mut random);
            let by_counts = board.counts.iter().position(|&count| count == 0);
            assert_eq!(room(&board), by_counts);
            differs |= by_counts != by_every_cell(row, &board.cells);
        }
        assert!(differs, "{counting:?}");
    }
}

/// The chosen questions ask the right model itself where there is no fault.
#[test]
fn questions_without_a_fault_are_answered_by_the_call() {
    for blank in DEVICES.iter().flat_map(blanks) {
        let right = first_blank(blank.device, &blank.counts);
        assert_eq!(blank.ask(Fault::None), right);
    }
}

/// What the chips to ask a program about are for: each is what its words say, on every device.
#[test]
fn chips_to_ask_about_are_not_all_alike() {
    for row in &DEVICES {
        for seed in 0..20 {
            let chips = blank_chips(row, &mut Random::new(seed));
            assert_eq!(chips.len(), 12);
            let pages = row.pages();
            for chip in chips {
                let read = chip.bytes.map(|bytes| Contents::from_bytes(row, &bytes));
                let given = match read {
                    Some(Ok(contents)) => Ok(by_every_cell(row, &contents.cells)),
                    Some(Err(_)) => Err("refused"),
                    None => Err("missing"),
                };
                let is_meant = match chip.what {
                    "all pages blank" => given == Ok(Some(0)),
                    "one cell of page 0 written" => given == Ok(Some(1)),
                    "only the last page blank" => given == Ok(Some(pages - 1)),
                    "one cell of every page written" | "one cell of the last page written" => {
                        given == Ok(None)
                    }
                    "no file" => given == Err("missing"),
                    "a wrong length" | "a wrong status or lock" => given == Err("refused"),
                    _ => matches!(given, Ok(Some(page)) if (1..pages).contains(&page)),
                };
                assert!(is_meant, "{} {given:?} {}", chip.what, row.name);
            }
        }
    }
}
