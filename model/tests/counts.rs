//! Request W-204 of document 02, a count for each page: its settled readings one by one, each at a place where the
//! other reading would answer differently.

mod common;

use common::{write_at, Board};
use m95_model::generate::{counts, events, records_of, trace, Counting, Profile, Random};
use m95_model::{
    append_record, count_pages, device, event, play, prepare, view, Contents, Cycle, Device, Event,
    Number, Output, Region, State, DEVICES,
};

/// Counts that no page of any device has.
const IMPOSSIBLE: [u16; 3] = [257, 300, u16::MAX];
const REFUSED: (Number, Output) = (Number::Miscounted, Output::Z);

/// The number of cells other than FFh in each page.
fn agreeing(row: &Device, cells: &[u8]) -> Vec<u16> {
    let pages = cells.chunks(row.page);
    pages
        .map(|page| page.iter().filter(|&&cell| cell != 0xFF).count() as u16)
        .collect()
}

/// Everything that a refused event must leave.
#[derive(Clone, Debug, PartialEq, Eq)]
struct Whole {
    state: State,
    cells: Vec<u8>,
    identification: Vec<u8>,
    latch: Vec<u8>,
    counts: Vec<u16>,
}

fn whole(board: &Board) -> Whole {
    Whole {
        state: board.state.clone(),
        cells: board.cells.clone(),
        identification: board.identification.clone(),
        latch: board.latch.clone(),
        counts: board.counts.clone(),
    }
}

/// An event that must be refused with 15 and leave everything.
fn refuse(board: &mut Board, microseconds: u32) {
    let before = whole(board);
    assert_eq!(board.try_set(Event::Wait(microseconds)), REFUSED);
    assert!(whole(board) == before, "{}", board.device.name);
}

/// WRITE of these bytes.
fn write_of(row: &Device, address: usize, data: &[u8]) -> Vec<u8> {
    let mut bytes = write_at(row, address);
    bytes.pop();
    bytes.extend_from_slice(data);
    bytes
}

/// A board with three cells of its second page written, so that neither 0 nor the page's length is its count.
fn written(number: u8) -> Board {
    let mut board = Board::new(number);
    let row = board.device;
    board.write(&write_of(row, row.page + 4, &[0x11, 0x00, 0xFE]));
    assert_eq!(board.counts[1], 3);
    board
}

/// The same with an array cycle running on that page, and its count.
fn miscounted(number: u8, count: u16) -> Board {
    let mut board = written(number);
    board.start_write(&write_at(board.device, board.device.page));
    assert_eq!(board.state.cycle, Cycle::Array);
    board.counts[1] = count;
    board
}

/// 82h or 83h with an address of the page or of the lock.
fn page_command(row: &Device, code: u8, is_lock: bool, data: u8) -> Vec<u8> {
    let address = if is_lock { row.lock_bit() } else { 0 };
    let mut bytes = vec![code];
    for place in (0..row.address_bytes).rev() {
        bytes.push((address >> (8 * place)) as u8);
    }
    bytes.push(data);
    bytes
}

/// Commands that start the cycles that are not of the array.
fn other_cycles(row: &Device) -> Vec<(Cycle, Vec<u8>)> {
    let mut commands = vec![(Cycle::Status, vec![0x01, 0x04])];
    if row.has_identification() {
        let write = page_command(row, 0x82, false, 0x11);
        commands.push((Cycle::Identification, write));
        commands.push((Cycle::Lock, page_command(row, 0x82, true, 0x02)));
    }
    commands
}

#[test]
fn numbers_14_and_15() {
    assert_eq!(Number::Counts as u8, 14);
    assert_eq!(Number::Miscounted as u8, 15);
}

// 204.1: a count is 0 to 256.
#[test]
fn a_full_page_of_256_counts_256() {
    for number in [3, 4] {
        let mut board = Board::new(number);
        let row = board.device;
        let data: Vec<u8> = (0..=255).map(|byte| byte % 255).collect();
        board.write(&write_of(row, row.page, &data));
        let mut expected = vec![0; row.pages()];
        expected[1] = 256;
        assert_eq!(board.counts, expected);
        // It is right, so a further write goes through, and takes one away.
        board.write(&write_of(row, row.page + 9, &[0xFF]));
        expected[1] = 255;
        assert_eq!(board.counts, expected);
        board.counts[1] = 256;
        board.start_write(&write_at(row, row.page));
        refuse(&mut board, row.write_time);
    }
}

/// 0 is what a byte would make of 256.
#[test]
fn a_full_page_is_not_blank() {
    for row in &DEVICES {
        let mut board = Board::new(row.number);
        board.write(&write_of(row, 0, &vec![0x00; row.page]));
        assert_eq!(usize::from(board.counts[0]), row.page);
        board.start_write(&write_at(row, 0));
        board.counts[0] = 0;
        refuse(&mut board, row.write_time);
        board.counts[0] = row.page as u16;
        board.wait(row.write_time);
        assert_eq!(usize::from(board.counts[0]), row.page);
    }
}

#[test]
fn a_count_that_no_page_has_is_merely_wrong() {
    for row in &DEVICES {
        for count in IMPOSSIBLE {
            let mut board = miscounted(row.number, count);
            board.wait(row.write_time - 1);
            assert_eq!(board.status() & 0x01, 0x01);
            refuse(&mut board, 1);
        }
    }
}

// 204.2: the length.
#[test]
fn a_count_for_each_page() {
    let pages = [32, 256, 512, 1024, 8, 16, 256];
    for (row, pages) in DEVICES.iter().zip(pages) {
        assert_eq!(row.pages(), pages, "{}", row.name);
        assert_eq!(Board::new(row.number).counts.len(), pages);
    }
}

// 204.3: when a count is tested, and which.
#[test]
fn every_wrong_count_is_refused_at_the_end_of_the_array_cycle() {
    for row in &DEVICES {
        let full = row.page as u16;
        for count in (0..=u16::MAX).filter(|count| *count != 3) {
            // All numbers are wrong but one; the neighbours and the edges are enough for most devices.
            let is_edge = [0, 1, 2, 4, full - 1, full, full + 1, 255, 256, 257].contains(&count);
            if row.number == 5 && count < 1000 || is_edge || count >= u16::MAX - 1 {
                let mut board = miscounted(row.number, count);
                refuse(&mut board, row.write_time);
            }
        }
        miscounted(row.number, 3).wait(row.write_time);
    }
}

#[test]
fn shorter_waits_do_not_look() {
    for row in &DEVICES {
        for count in [2, 4, 0, 257, u16::MAX] {
            let mut board = miscounted(row.number, count);
            let time = row.write_time;
            for (wait, left) in [(0, time), (1, time - 1), (time - 2, 1), (0, 1)] {
                board.wait(wait);
                assert_eq!(board.state.time_left, left);
                assert_eq!(board.counts[1], count);
            }
            for wait in [1, 2, time, u32::MAX] {
                refuse(&mut board, wait);
            }
        }
    }
}

#[test]
fn the_rise_of_s_does_not_look() {
    for row in &DEVICES {
        let mut board = written(row.number);
        for count in [0, 2, 4, u16::MAX] {
            board.counts.fill(count);
            board.command(&[0x06]);
            board.select();
            board.bytes(&write_at(row, row.page));
            board.deselect();
            assert_eq!(board.state.cycle, Cycle::Array);
            assert!(board.counts.iter().all(|&one| one == count));
            board.counts = agreeing(row, &board.cells);
            board.wait(row.write_time);
        }
    }
}

#[test]
fn counts_of_other_pages_are_not_looked_at() {
    for row in &DEVICES {
        for wrong in [1, 256, u16::MAX] {
            let mut board = miscounted(row.number, 3);
            board.counts.fill(wrong);
            board.counts[1] = 3;
            board.wait(row.write_time);
            let mut expected = vec![wrong; row.pages()];
            expected[1] = 4;
            assert_eq!(board.counts, expected, "{}", row.name);
            assert_eq!(board.cells[row.page], 0x5A);
        }
    }
}

/// The page is that of the cycle, wherever it is.
#[test]
fn the_count_of_each_page_is_tested_for_its_own_cycle() {
    for row in &DEVICES {
        for page in [0, 1, row.pages() / 2, row.pages() - 1] {
            let mut board = Board::new(row.number);
            let last = page * row.page + row.page - 1;
            board.start_write(&write_at(row, last));
            board.counts[page] = 1;
            refuse(&mut board, row.write_time);
            board.counts[page] = 0;
            board.wait(row.write_time);
            let mut expected = vec![0; row.pages()];
            expected[page] = 1;
            assert_eq!(board.counts, expected, "{} {page}", row.name);
            assert_eq!(board.cells[last], 0x5A);
        }
    }
}

#[test]
fn other_cycles_never_look() {
    for row in &DEVICES {
        for (cycle, command) in other_cycles(row) {
            for wrong in [1, 257, u16::MAX] {
                let mut board = written(row.number);
                board.counts.fill(wrong);
                board.start_write(&command);
                assert_eq!(board.state.cycle, cycle);
                board.wait(row.write_time - 1);
                board.wait(u32::MAX);
                assert_eq!(board.state.cycle, Cycle::None);
                assert_eq!(board.status() & 0x03, 0x00);
                assert!(board.counts.iter().all(|&count| count == wrong));
            }
        }
    }
}

/// Reading, WREN, a dropped write and a wait with no cycle: nothing of it tests a count.
#[test]
fn nothing_else_looks() {
    for row in &DEVICES {
        let mut board = written(row.number);
        board.counts.fill(9);
        board.wait(u32::MAX);
        let mut read = write_at(row, row.page + 4);
        read.pop();
        read[0] |= 0x01;
        assert_eq!(board.query(&read, 3), [0x11, 0x00, 0xFE]);
        board.command(&write_at(row, row.page));
        board.wait(u32::MAX);
        board.set(Event::Power);
        assert!(board.counts.iter().all(|&count| count == 9));
    }
}

/// Power and a wait are two events, so the two numbers never meet.
#[test]
fn power_gives_11_where_the_wait_gives_15() {
    for row in &DEVICES {
        let mut board = miscounted(row.number, 0);
        let before = whole(&board);
        assert_eq!(board.try_set(Event::Power), (Number::Power, Output::Z));
        assert!(whole(&board) == before);
        refuse(&mut board, row.write_time);
    }
}

// 204.4: what is wrong, and what the new count is.
#[test]
fn the_count_is_tested_before_the_change_and_set_after_it() {
    for row in &DEVICES {
        // The first place of the page is blank and gets a byte: 3 before, 4 after.
        let mut board = miscounted(row.number, 4);
        refuse(&mut board, row.write_time);
        board.counts[1] = 3;
        board.wait(row.write_time);
        assert_eq!(board.counts[1], 4);
    }
}

#[test]
fn the_new_count_is_that_of_the_cells() {
    for row in &DEVICES {
        for (place, data, count) in [
            (4, &[0x22][..], 3),                    // another byte in a place that has one
            (4, &[0xFF], 2),                        // a place is blank again
            (4, &[0xFF, 0xFF, 0xFF], 0),            // all of them are
            (0, &[0xFF], 3),                        // a blank place stays so
            (0, &[0x00], 4),                        // 00h is not blank
            (6, &[0x33, 0x44, 0xFF], 4),            // one of each
            (row.page - 1, &[0x55, 0x66], 5),       // rolled round within the page
            (row.page - 1, &[0xFF, 0x66, 0x77], 5), // the same, one of them blank
        ] {
            let mut board = written(row.number);
            board.write(&write_of(row, row.page + place, data));
            assert_eq!(board.counts[1], count, "{} {data:02X?}", row.name);
            assert_eq!(board.counts, agreeing(row, &board.cells));
        }
    }
}

/// The last byte for a place counts, so a place that was sent twice counts once or not at all.
#[test]
fn a_place_sent_twice_counts_once() {
    for row in &DEVICES {
        for (last, count) in [(0x77, 1), (0xFF, 0)] {
            let mut board = Board::new(row.number);
            let mut data = vec![0xFF; row.page];
            data[0] = 0x11;
            data.push(last);
            board.write(&write_of(row, 0, &data));
            assert_eq!((board.cells[0], board.counts[0]), (last, count));
        }
    }
}

/// A cycle that marks nothing changes nothing, but its page is tested all the same.
#[test]
fn a_cycle_without_marks_tests_its_page() {
    for row in &DEVICES {
        let mut board = miscounted(row.number, 2);
        board.latch.fill(0);
        refuse(&mut board, row.write_time);
        board.counts[1] = 3;
        board.wait(row.write_time);
        assert_eq!(board.counts[1], 3);
    }
}

// 204.5: what a refused wait leaves, and how the cycle ends after it.
#[test]
fn refused_again_until_the_count_is_mended() {
    for row in &DEVICES {
        let mut board = miscounted(row.number, 4);
        let time = row.write_time;
        for _ in 0..3 {
            refuse(&mut board, time);
        }
        board.wait(time - 1);
        assert_eq!((board.state.time_left, board.status()), (1, 0x03));
        refuse(&mut board, 1);
        board.wait(0);
        refuse(&mut board, u32::MAX);
        assert_eq!(board.cells[row.page], 0xFF);
        board.counts[1] = 3;
        board.wait(1);
        assert_eq!((board.state.time_left, board.status()), (0, 0x00));
        assert_eq!((board.cells[row.page], board.counts[1]), (0x5A, 4));
    }
}

/// A refused event answers Z, whatever Q shows, and a selection goes on after it.
#[test]
fn a_selection_goes_on_after_a_refused_wait() {
    for row in &DEVICES {
        let mut board = miscounted(row.number, 0);
        board.select();
        board.bytes(&[0x05]);
        assert_eq!(board.q(), Output::Zero);
        refuse(&mut board, row.write_time);
        assert_eq!(board.q(), Output::Zero);
        assert_eq!(board.shown_byte(), 0x03);
        board.counts[1] = 3;
        board.wait(row.write_time);
        board.shown_byte();
        assert_eq!(board.shown_byte(), 0x00);
        board.deselect();
    }
}

#[test]
fn a_refused_record_ends_the_trace() {
    for row in &DEVICES {
        let mut board = miscounted(row.number, 2);
        let mut trace = Vec::new();
        append_record(&mut trace, Event::Wait(row.write_time - 1));
        append_record(&mut trace, Event::Wait(1));
        append_record(&mut trace, Event::Data(true));
        let mut expected = miscounted(row.number, 2);
        expected.wait(row.write_time - 1);
        // 10 comes before 15, and at the limit nothing is looked at.
        for (room, limit, number) in [
            (1, 9, Number::Answers),
            (9, 1, Number::Done),
            (9, 9, Number::Miscounted),
        ] {
            let mut again = miscounted(row.number, 2);
            let mut answers = vec![7; room];
            let ran = again.run(&trace, &mut answers, limit);
            assert_eq!((ran.number, ran.done, ran.taken), (number, 1, 8));
            assert_eq!(answers[0], 2);
            assert!(answers[1..].iter().all(|&answer| answer == 7));
            assert!(whole(&again) == whole(&expected));
        }
        // From where it stopped it is refused at once, and runs through once the count is mended.
        let mut answers = [7; 3];
        assert_eq!(board.run(&trace, &mut answers, 1).done, 1);
        let ran = board.run(&trace[8..], &mut answers, 9);
        assert_eq!(
            (ran.number, ran.done, ran.taken),
            (Number::Miscounted, 0, 0)
        );
        board.counts[1] = 3;
        let ran = board.run(&trace[8..], &mut answers, 9);
        assert_eq!((ran.number, ran.done, ran.taken), (Number::Done, 2, 13));
        assert_eq!(board.counts[1], 4);
    }
}

// 204.6: counts and soundness, and the identification page.
#[test]
fn a_wrong_count_is_never_5() {
    for row in &DEVICES {
        for count in IMPOSSIBLE {
            let mut board = Board::new(row.number);
            board.counts.fill(count);
            board.set(Event::Data(true));
            assert_eq!(board.run(&[], &mut [], 0).number, Number::Done);
            assert_eq!(board.status(), 0x00);
        }
    }
}

#[test]
fn the_identification_page_has_no_count() {
    for row in DEVICES.iter().filter(|row| row.has_identification()) {
        let mut board = written(row.number);
        let before = board.counts.clone();
        board.write(&page_command(row, 0x82, false, 0x11));
        assert_eq!((board.identification[0], &board.counts), (0x11, &before));
    }
}

// 204.7: preparing.
#[test]
fn preparing_sets_all_counts_to_0() {
    for row in &DEVICES {
        for count in [0, 1, 256, u16::MAX] {
            let mut board = written(row.number);
            board.counts.fill(count);
            let (number, _) = prepare(
                row.number,
                &mut board.cells,
                &mut board.identification,
                &mut board.latch,
                &mut board.counts,
            );
            assert_eq!(number, Number::Done);
            assert_eq!(board.counts, vec![0; row.pages()]);
        }
    }
}

// 204.8 is in tests/generated.rs: broken selections leave nothing behind in the counts, and with wrong ones both runs
// are refused alike.

// 204.9: a view is lent no counts, and what it shows can only be read.
#[test]
fn a_view_takes_no_counts() {
    type View = for<'a> fn(u8, Region, &'a [u8], &'a [u8], usize) -> (Number, &'a [u8]);
    let view: View = view;
    let board = written(1);
    let (number, part) = view(1, Region::Cells, &board.cells, &board.identification, 16);
    assert_eq!(
        (number, &part[4..7]),
        (Number::Done, &[0x11, 0x00, 0xFE][..])
    );
}

// 204.10: cells that are filled otherwise.
#[test]
fn cells_filled_otherwise_are_refused_until_they_are_counted() {
    for row in &DEVICES {
        let mut board = Board::new(row.number);
        let mut random = Random::new(u64::from(row.number));
        board.cells.fill_with(|| random.pick(&[0xFF, 0x00, 0x5B]));
        board.start_write(&write_at(row, 0));
        refuse(&mut board, row.write_time);
        let done = count_pages(row.number, &board.cells, &mut board.counts);
        assert_eq!(done, Number::Done);
        assert_eq!(board.counts, agreeing(row, &board.cells));
        board.wait(row.write_time);
        assert_eq!(board.counts, agreeing(row, &board.cells));
    }
}

#[test]
fn counting_afresh_counts_every_page() {
    for row in &DEVICES {
        for value in [0x00, 0x01, 0xFE, 0xFF] {
            let mut counts = vec![9; row.pages()];
            let cells = vec![value; row.cells];
            assert_eq!(count_pages(row.number, &cells, &mut counts), Number::Done);
            let expected = if value == 0xFF { 0 } else { row.page as u16 };
            assert!(counts.iter().all(|&count| count == expected));
        }
        // One cell at each end of a page.
        for address in [
            0,
            row.page - 1,
            row.page,
            row.cells - row.page,
            row.cells - 1,
        ] {
            let mut cells = vec![0xFF; row.cells];
            cells[address] = 0x00;
            let mut counts = vec![9; row.pages()];
            assert_eq!(count_pages(row.number, &cells, &mut counts), Number::Done);
            let mut expected = vec![0; row.pages()];
            expected[address / row.page] = 1;
            assert_eq!(counts, expected, "{} {address}", row.name);
        }
    }
}

#[test]
fn counting_afresh_gives_1_2_and_14_in_order() {
    // Everything is wrong at first; then one thing after another is made right.
    for (number, cells, pages, expected) in [
        (0, 511, 31, Number::Device),
        (8, 512, 32, Number::Device),
        (255, 511, 31, Number::Device),
        (1, 511, 31, Number::Cells),
        (1, 513, 32, Number::Cells),
        (1, 0, 0, Number::Cells),
        (1, 512, 31, Number::Counts),
        (1, 512, 33, Number::Counts),
        (1, 512, 512, Number::Counts),
        (1, 512, 0, Number::Counts),
        (1, 512, 32, Number::Done),
    ] {
        let cells = vec![0x00; cells];
        let mut counts = vec![9; pages];
        assert_eq!(count_pages(number, &cells, &mut counts), expected);
        let left = if expected == Number::Done { 16 } else { 9 };
        assert!(counts.iter().all(|&count| count == left), "{expected:?}");
    }
}

#[test]
fn a_good_file_never_ends_in_15() {
    for (profile, row) in all_profiles() {
        let mut random = Random::new(3);
        let blank = Contents::prepared(row);
        let zero = Contents {
            cells: vec![0; row.cells],
            ..blank.clone()
        };
        for start in [blank, zero, Contents::random(row, &mut random, false)] {
            let mut contents = Contents::from_bytes(row, &start.to_bytes()).expect("a good file");
            let events = events(profile, row, 21, 3000);
            let played = play(row, &mut contents, &records_of(&events));
            assert_eq!(played.ran.number, Number::Done, "{profile:?} {}", row.name);
            assert_eq!(played.counts, agreeing(row, &contents.cells));
        }
    }
}

fn all_profiles() -> impl Iterator<Item = (Profile, &'static Device)> {
    let profiles = Profile::ALL.into_iter();
    profiles.flat_map(|profile| DEVICES.iter().map(move |row| (profile, row)))
}

/// From a prepared device the counts agree with the cells after every event, and 15 never comes.
#[test]
fn counts_agree_after_every_event() {
    let mut written = 0;
    for (profile, row) in all_profiles() {
        let mut board = Board::new(row.number);
        let mut cells = board.cells.clone();
        let mut expected = agreeing(row, &cells);
        for (index, happening) in events(profile, row, 31, 10_000).into_iter().enumerate() {
            let place = format!("{profile:?} {} {index}", row.name);
            assert_eq!(board.try_set(happening).0, Number::Done, "{place}");
            // Counting all cells takes longer than seeing that none has changed.
            if board.cells != cells {
                cells.clone_from(&board.cells);
                expected = agreeing(row, &cells);
                written += 1;
            }
            assert_eq!(board.counts, expected, "{place}");
        }
    }
    assert!(written > 100, "cells changed only {written} times");
}

/// The number of an event by the request alone, and the counts after it.
fn due(board: &Board, happening: Event) -> (Number, Vec<u16>) {
    let (row, state) = (board.device, &board.state);
    let page = state.page_start / row.page;
    let right = agreeing(row, &board.cells)[page];
    let ends = matches!(happening, Event::Wait(microseconds) if microseconds >= state.time_left);
    let mut counts = board.counts.clone();
    if happening == Event::Power && state.cycle != Cycle::None {
        return (Number::Power, counts);
    }
    if state.cycle != Cycle::Array || !ends {
        return (Number::Done, counts);
    }
    if counts[page] != right {
        return (Number::Miscounted, counts);
    }
    let mut cells = board.cells.clone();
    for place in 0..row.page {
        if board.marks()[place] == 1 {
            cells[page * row.page + place] = board.latch[place];
        }
    }
    counts[page] = agreeing(row, &cells)[page];
    (Number::Done, counts)
}

/// Once in so many events of a generated trace its counts are chosen anew.
const EVENTS: usize = 40;

/// Generated traces with every way of counting, on the small devices, where a page is soon met again. The trace goes on
/// after a refusal.
#[test]
fn wrong_counts_are_refused_exactly_where_they_are_due() {
    let mut refused = [0; Counting::ALL.len()];
    for (profile, row) in all_profiles().filter(|(_, row)| row.cells <= 512) {
        let mut random = Random::new(profile as u64);
        let mut board = Board::new(row.number);
        let mut counting = Counting::Agreeing;
        for happening in events(profile, row, 41, 12_000) {
            if random.once_in(EVENTS) {
                counting = random.pick(&Counting::ALL);
                board.counts = counts(counting, row, &board.state, &board.cells, &mut random);
            }
            let place = format!("{profile:?} {counting:?} {} {happening:?}", row.name);
            let (number, counts) = due(&board, happening);
            let before = whole(&board);
            let given = board.try_set(happening);
            assert_eq!((given.0, &board.counts), (number, &counts), "{place}");
            if number != Number::Done {
                assert_eq!(given.1, Output::Z, "{place}");
                assert!(whole(&board) == before, "{place}");
            }
            refused[counting as usize] += usize::from(number == Number::Miscounted);
        }
    }
    let [agreeing, others @ ..] = refused;
    assert_eq!(agreeing, 0);
    assert!(others.iter().all(|&one| one > 0), "{refused:?}");
}

/// A trace that is run and the same events one by one end alike.
#[test]
fn a_trace_and_its_events_are_refused_at_the_same_place() {
    for (profile, row) in all_profiles().filter(|(_, row)| row.cells <= 512) {
        for counting in Counting::ALL {
            let mut random = Random::new(9);
            let mut first = Board::new(row.number);
            first.counts = counts(counting, row, &first.state, &first.cells, &mut random);
            let mut second = Board::new(row.number);
            second.counts = first.counts.clone();
            let happenings = events(profile, row, 9, 4000);
            let mut answers = vec![7; happenings.len()];
            let ran = first.run(&records_of(&happenings), &mut answers, usize::MAX);
            let mut number = Number::Done;
            let mut done = 0;
            for happening in happenings {
                let (given, answer) = second.try_set(happening);
                number = given;
                if given != Number::Done {
                    break;
                }
                assert_eq!(answers[done], answer as u8);
                done += 1;
            }
            assert_eq!(
                (ran.number, ran.done),
                (number, done),
                "{profile:?} {}",
                row.name
            );
            assert!(whole(&first) == whole(&second));
        }
    }
}

/// What another suite may rely on when it chooses counts.
#[test]
fn chosen_counts_are_what_their_names_say() {
    for row in &DEVICES {
        let cells = Contents::random(row, &mut Random::new(1), false).cells;
        let right = agreeing(row, &cells);
        let state = State::prepared();
        for counting in Counting::ALL {
            for seed in 0..20 {
                let given = counts(counting, row, &state, &cells, &mut Random::new(seed));
                let again = counts(counting, row, &state, &cells, &mut Random::new(seed));
                assert_eq!(given, again);
                let pairs = right.iter().zip(&given);
                let wrong: Vec<_> = pairs.filter(|(right, given)| right != given).collect();
                let fits = |&(&right, &given): &(&u16, &u16)| match counting {
                    Counting::Agreeing => false,
                    Counting::OneMore => given == right + 1,
                    Counting::OneLess => given == right.wrapping_sub(1),
                    Counting::Blank => given == 0,
                    Counting::Full => usize::from(given) == row.page,
                    Counting::Is256 => given == 256,
                    Counting::Is257 => given == 257,
                    Counting::Highest => given == u16::MAX,
                    Counting::AllWrong => true,
                };
                assert!(wrong.iter().all(fits), "{counting:?} {}", row.name);
                let expected = match counting {
                    Counting::Agreeing => 0..=0,
                    Counting::Full | Counting::Is256 => 0..=1,
                    Counting::AllWrong => row.pages()..=row.pages(),
                    _ => 1..=1,
                };
                assert!(expected.contains(&wrong.len()), "{counting:?} {}", row.name);
            }
        }
    }
}

/// In an array cycle the page that is counted otherwise is the cycle's.
#[test]
fn chosen_counts_meet_a_running_cycle() {
    for row in &DEVICES {
        for page in 0..row.pages() {
            let state = State {
                cycle: Cycle::Array,
                time_left: 1,
                page_start: page * row.page,
                ..State::prepared()
            };
            let cells = vec![0xFF; row.cells];
            let random = &mut Random::new(page as u64);
            let given = counts(Counting::OneMore, row, &state, &cells, random);
            let mut expected = vec![0; row.pages()];
            expected[page] = 1;
            assert_eq!(given, expected);
        }
    }
}

/// A profile, a device and a seed give the trace that they gave before there were counts; the stored vectors hold short
/// ones to it, and this a long one of each.
#[test]
fn generated_traces_are_those_of_before() {
    let mut sum = 0u64;
    // Those with stored vectors are those that there were before.
    for (profile, row) in all_profiles().filter(|(one, _)| Profile::STORED.contains(one)) {
        for byte in trace(profile, row, 77, 2000) {
            sum = (sum ^ u64::from(byte)).wrapping_mul(0x0100_0000_01B3);
        }
    }
    assert_eq!(sum, 0x9894_CC86_3A13_84CD);
}

/// One event through the call itself, its parameters in their order.
#[test]
fn the_counts_come_after_the_latch() {
    let row = device(5).expect("device 5");
    let (mut cells, mut latch, mut counts) = (vec![0xFF; 128], vec![0; 32], vec![0; 8]);
    let mut state = State {
        cycle: Cycle::Array,
        time_left: row.write_time,
        page_start: 112,
        ..State::prepared()
    };
    latch[3] = 0x42;
    latch[16 + 3] = 1;
    counts[7] = 1;
    for expected in [REFUSED, (Number::Done, Output::Z)] {
        let wait = Event::Wait(5000);
        let given = event(
            5,
            &mut state,
            &mut cells,
            &mut [],
            &mut latch,
            &mut counts,
            wait,
        );
        assert_eq!(given, expected);
        assert_eq!(cells[115], if expected == REFUSED { 0xFF } else { 0x42 });
        counts[7] -= u16::from(expected == REFUSED);
    }
    assert_eq!(counts, [0, 0, 0, 0, 0, 0, 0, 1]);
}
