//! The numbers given back: each with what it leaves, and their order (document 01, "Numbers given back").

mod common;

use common::Board;
use m95_model::generate::{lendings, view_bytes, views, Lending, View};
use m95_model::{
    append_record, device, event, prepare, run, view, Device, Event, Fault, Number, Output, Ran,
    Region, State, DEVICES,
};

fn records(events: &[Event]) -> Vec<u8> {
    let mut trace = Vec::new();
    for &event in events {
        append_record(&mut trace, event);
    }
    trace
}

fn ran(number: Number, done: usize, taken: usize) -> Ran {
    Ran {
        number,
        done,
        taken,
    }
}

/// A copy of everything that a refused call must leave.
fn whole(board: &Board) -> (State, Vec<u8>, Vec<u8>, Vec<u8>, Vec<u16>) {
    (
        board.state.clone(),
        board.cells.clone(),
        board.identification.clone(),
        board.latch.clone(),
        board.counts.clone(),
    )
}

#[test]
fn preparing() {
    for (number, cells, page, identification, pages) in [
        (1, 512, 16, 16, 32),
        (2, 16_384, 64, 64, 256),
        (3, 131_072, 256, 256, 512),
        (4, 262_144, 256, 256, 1024),
        (5, 128, 16, 0, 8),
        (6, 256, 16, 0, 16),
        (7, 16_384, 64, 0, 256),
    ] {
        let (mut array, mut identification, mut latch, mut counts) = (
            vec![1; cells],
            vec![2; identification],
            vec![3; 2 * page],
            vec![4; pages],
        );
        let (done, state) = prepare(
            number,
            &mut array,
            &mut identification,
            &mut latch,
            &mut counts,
        );
        assert_eq!(done, Number::Done);
        assert!(array.iter().all(|&cell| cell == 0xFF));
        assert!(latch.iter().all(|&byte| byte == 0));
        assert!(counts.iter().all(|&count| count == 0));
        let start: &[u8] = match number {
            4 => &[0x20, 0x00, 0x12],
            _ => &[],
        };
        assert!(identification.starts_with(start));
        let rest = &identification[start.len()..];
        assert!(rest.iter().all(|&byte| byte == 0xFF));
        assert!(state.select && state.hold && state.protect && !state.clock && !state.data);
        assert!(!state.selected && !state.locked && !state.write_enable_latch && !state.in_cycle());
        assert_eq!(state.status, 0);
    }
}

#[test]
fn refused_preparing_changes_nothing() {
    // Everything is wrong at first; then one thing after another is made right.
    for (number, cells, page, latch, pages, expected) in [
        (0, 511, 15, 33, 33, Number::Device),
        (8, 511, 15, 33, 33, Number::Device),
        (1, 511, 15, 33, 33, Number::Cells),
        (1, 16_384, 15, 33, 33, Number::Cells),
        (1, 512, 15, 33, 33, Number::Identification),
        (1, 512, 16, 33, 33, Number::Latch),
        (1, 512, 16, 16, 32, Number::Latch),
        (1, 512, 16, 32, 33, Number::Counts),
        (1, 512, 16, 32, 31, Number::Counts),
        (1, 512, 16, 32, 0, Number::Counts),
    ] {
        let (mut array, mut identification, mut lent, mut counts) = (
            vec![1; cells],
            vec![2; page],
            vec![3; latch],
            vec![4; pages],
        );
        let (got, state) = prepare(
            number,
            &mut array,
            &mut identification,
            &mut lent,
            &mut counts,
        );
        assert_eq!(got, expected);
        assert_eq!(state, State::prepared());
        assert!(array.iter().all(|&byte| byte == 1));
        assert!(identification.iter().all(|&byte| byte == 2));
        assert!(lent.iter().all(|&byte| byte == 3));
        assert!(counts.iter().all(|&count| count == 4));
    }
}

#[test]
fn events_and_traces_give_1_to_4_14_and_5_in_order() {
    let sound = State::prepared();
    let unsound = State {
        address: 512,
        ..State::prepared()
    };
    for (number, state, cells, page, latch, pages, expected) in [
        (9, &unsound, 511, 15, 33, 31, Number::Device),
        (1, &unsound, 511, 15, 33, 31, Number::Cells),
        (1, &unsound, 512, 15, 33, 31, Number::Identification),
        (1, &unsound, 512, 16, 33, 31, Number::Latch),
        (1, &unsound, 512, 16, 32, 31, Number::Counts),
        (1, &unsound, 512, 16, 32, 33, Number::Counts),
        (1, &unsound, 512, 16, 32, 32, Number::State),
        (1, &sound, 512, 16, 32, 31, Number::Counts),
        (1, &sound, 512, 16, 32, 32, Number::State), // a mark of 3
    ] {
        let (mut array, mut identification, mut lent, mut counts) = (
            vec![1; cells],
            vec![2; page],
            vec![3; latch],
            vec![4; pages],
        );
        let mut after = state.clone();
        let given = event(
            number,
            &mut after,
            &mut array,
            &mut identification,
            &mut lent,
            &mut counts,
            Event::Power,
        );
        assert_eq!(given, (expected, Output::Z));
        let mut answers = [7; 2];
        let trace = records(&[Event::Power]);
        for limit in [0, 1] {
            let given = run(
                number,
                &mut after,
                &mut array,
                &mut identification,
                &mut lent,
                &mut counts,
                &trace,
                &mut answers,
                limit,
            );
            assert_eq!(given, ran(expected, 0, 0), "before the limit {limit}");
        }
        assert_eq!(answers, [7; 2]);
        assert_eq!(&after, state);
        assert!(array.iter().all(|&byte| byte == 1));
        assert!(lent.iter().all(|&byte| byte == 3));
        assert!(counts.iter().all(|&count| count == 4));
    }
}

#[test]
fn marks_count_and_latch_data_does_not() {
    let mut board = Board::new(1);
    board.latch[..16].fill(0xEE);
    board.latch[16..].fill(1);
    assert_eq!(board.try_set(Event::Wait(0)).0, Number::Done);
    board.latch[31] = 2;
    assert_eq!(board.try_set(Event::Wait(0)).0, Number::State);
}

/// A good record, then the bytes, then what refuses them; the answers after the first stay.
fn refused(bytes: &[u8]) -> Number {
    let mut board = Board::new(1);
    let mut trace = records(&[Event::Select(false)]);
    trace.extend_from_slice(bytes);
    let mut expected = Board::new(1);
    expected.set(Event::Select(false));
    let mut answers = [7; 4];
    let given = board.run(&trace, &mut answers, 10);
    assert_eq!((given.done, given.taken), (1, 5));
    assert_eq!(answers, [2, 7, 7, 7]);
    assert_eq!(whole(&board), whole(&expected));
    given.number
}

#[test]
fn number_6_for_the_head() {
    for head in [&[3][..], &[3, 0], &[3, 0, 1], &[0, 0, 99], &[255, 255, 255]] {
        assert_eq!(refused(head), Number::Cut);
    }
}

#[test]
fn number_7_before_8_and_the_body() {
    for kind in [0, 4, 5, 16, 255] {
        assert_eq!(refused(&[3, 0, kind, 0, 0]), Number::Kind);
        assert_eq!(refused(&[99, 0, kind, 0]), Number::Kind);
    }
    for kind in [1, 2, 3] {
        assert_eq!(refused(&[3, 0, kind, 1, 0]), Number::Kind);
    }
}

#[test]
fn number_8_before_the_body() {
    for (kind, right) in [(1, 3), (2, 6), (3, 2)] {
        for length in [0, 1, 2, 3, 4, 5, 6, 7, 255] {
            if length != right {
                assert_eq!(refused(&[length, 0, kind, 0]), Number::Length);
                assert_eq!(
                    refused(&[length, 0, kind, 0, 0, 0, 0, 0, 0, 0]),
                    Number::Length
                );
            }
        }
        assert_eq!(refused(&[right, 1, kind, 0, 0, 0, 0, 0]), Number::Length);
    }
}

#[test]
fn number_6_for_the_body() {
    assert_eq!(refused(&[3, 0, 1, 0]), Number::Cut);
    for left in 0..4 {
        assert_eq!(refused(&[6, 0, 2, 0, 1, 1, 1, 1][..4 + left]), Number::Cut);
    }
}

#[test]
fn number_9_above_pin_byte_9() {
    for pin in 10..=255 {
        assert_eq!(refused(&[3, 0, 1, 0, pin]), Number::Pin);
    }
    let mut board = Board::new(1);
    let trace: Vec<u8> = (0..=9).flat_map(|pin| [3, 0, 1, 0, pin]).collect();
    let mut answers = [7; 10];
    assert_eq!(
        board.run(&trace, &mut answers, 10),
        ran(Number::Done, 10, 50)
    );
    let state = &board.state;
    assert!(state.clock && state.data && state.select && state.hold && state.protect);
}

#[test]
fn number_10_after_9_and_before_11() {
    let mut board = Board::new(1);
    board.start_write(&[0x02, 0x00, 0x11]);
    let before = whole(&board);
    assert_eq!(
        board.run(&[3, 0, 1, 0, 10], &mut [], 1),
        ran(Number::Pin, 0, 0)
    );
    assert_eq!(
        board.run(&[2, 0, 3, 0], &mut [], 1),
        ran(Number::Answers, 0, 0)
    );
    assert_eq!(
        board.run(&[2, 0, 3, 0], &mut [7], 1),
        ran(Number::Power, 0, 0)
    );
    assert_eq!(
        board.run(&[3, 0, 1, 0, 4], &mut [], 1),
        ran(Number::Answers, 0, 0)
    );
    assert_eq!(whole(&board), before);
}

#[test]
fn number_11_in_every_cycle() {
    for bytes in [
        &[0x02, 0x00, 0x11][..], // array
        &[0x82, 0x00, 0x11],     // identification
        &[0x01, 0x0C],           // status
        &[0x82, 0x80, 0x02],     // lock
    ] {
        let mut board = Board::new(1);
        board.start_write(bytes);
        board.wait(4999);
        let before = whole(&board);
        assert_eq!(board.try_set(Event::Power), (Number::Power, Output::Z));
        assert_eq!(whole(&board), before);
        board.wait(1);
        board.set(Event::Power);
        assert_eq!(board.status() & 0x03, 0x00);
    }
}

#[test]
fn number_0_at_the_limit_or_the_end() {
    let mut board = Board::new(2);
    let mut answers = [7; 3];
    assert_eq!(board.run(&[], &mut answers, 5), ran(Number::Done, 0, 0));
    // At the limit nothing more is looked at, not even a record that would be refused.
    assert_eq!(board.run(&[1], &mut answers, 0), ran(Number::Done, 0, 0));
    let mut trace = records(&[Event::Wait(1), Event::Power]);
    trace.push(99);
    assert_eq!(board.run(&trace, &mut answers, 2), ran(Number::Done, 2, 12));
    assert_eq!(answers, [2, 2, 7]);
    assert_eq!(board.run(&trace, &mut answers, 3), ran(Number::Cut, 2, 12));
}

const NO_PART: &[u8] = &[];
/// In the order of the numbers that judge their slices.
const REGIONS: [Region; 2] = [Region::Cells, Region::Identification];

/// Each device with cells and an identification page of its lengths.
fn lent() -> impl Iterator<Item = (&'static Device, Vec<u8>, Vec<u8>)> {
    let (cells, identification) = view_bytes();
    DEVICES.iter().map(move |row| {
        let cells = cells[..row.cells].to_vec();
        (row, cells, identification[..row.identification].to_vec())
    })
}

#[test]
fn a_view_lends_the_page_of_an_address() {
    for (row, cells, identification) in lent() {
        let (page, last) = (row.page, row.cells - 1);
        for address in [0, 1, page - 1, page, 5 * page + 3, last - page, last] {
            let first = address / page * page;
            let expected = &cells[first..first + page];
            let (number, part) = view(row.number, Region::Cells, &cells, &identification, address);
            assert_eq!(number, Number::Done);
            assert!(std::ptr::eq(part, expected), "{} {address}", row.name);
        }
    }
}

#[test]
fn a_view_lends_the_identification_bytes_at_any_address() {
    for (row, cells, identification) in lent() {
        for address in [0, 1, row.page, row.cells - 1, row.cells, usize::MAX] {
            let region = Region::Identification;
            let (number, part) = view(row.number, region, &cells, &identification, address);
            assert_eq!(number, Number::Done);
            assert!(std::ptr::eq(part, &identification[..]), "{}", row.name);
        }
    }
}

#[test]
fn number_13_for_cells_alone() {
    for (row, cells, identification) in lent() {
        for address in [row.cells, row.cells + 1, 2 * row.cells, usize::MAX] {
            let given = view(row.number, Region::Cells, &cells, &identification, address);
            assert_eq!(given, (Number::Address, NO_PART), "{}", row.name);
        }
    }
}

#[test]
fn a_view_gives_1_2_3_and_13_in_order() {
    let bytes = [7; 513];
    // Everything is wrong at first; then one thing after another is made right.
    for (number, cells, page, address, of_cells) in [
        (0, 511, 15, 512, Number::Device),
        (8, 512, 16, 0, Number::Device),
        (255, 512, 16, 512, Number::Device),
        (1, 511, 15, 512, Number::Cells),
        (1, 513, 17, 0, Number::Cells),
        (1, 0, 16, usize::MAX, Number::Cells),
        (1, 512, 15, 512, Number::Identification),
        (1, 512, 0, 0, Number::Identification),
        (1, 512, 16, 512, Number::Address),
        (1, 512, 16, 511, Number::Done),
    ] {
        let of_identification = match of_cells {
            Number::Address => Number::Done,
            other => other,
        };
        for (region, expected) in REGIONS.into_iter().zip([of_cells, of_identification]) {
            let (got, part) = view(number, region, &bytes[..cells], &bytes[..page], address);
            let asked = format!("{number} {region:?} {cells} {page} {address}");
            assert_eq!(got, expected, "{asked}");
            let length = if got == Number::Done { 16 } else { 0 };
            assert_eq!(part.len(), length, "{asked}");
        }
    }
}

#[test]
fn a_view_judges_the_slice_that_was_not_asked_for() {
    for (row, cells, identification) in lent() {
        for wrong in [&cells[1..], &identification, NO_PART] {
            let region = Region::Identification;
            let given = view(row.number, region, wrong, &identification, 0);
            assert_eq!(given, (Number::Cells, NO_PART), "{}", row.name);
        }
        // A byte more, a byte less where there is one, a page where none is due or none where one is, and the cells.
        let lengths = [
            row.identification + 1,
            row.identification.max(2) - 1,
            row.page - row.identification,
            row.cells,
        ];
        for wrong in lengths.map(|length| &cells[..length]) {
            let given = view(row.number, Region::Cells, &cells, wrong, 0);
            assert_eq!(given, (Number::Identification, NO_PART), "{}", row.name);
        }
    }
}

/// The number of a view by the table alone: the first of its rows that fits.
fn number_due(view: &View) -> Number {
    let Some(row) = device(view.device) else {
        return Number::Device;
    };
    let past = view.region == Region::Cells && view.address >= row.cells;
    let rows = [
        (Number::Cells, view.cells != row.cells),
        (
            Number::Identification,
            view.identification != row.identification,
        ),
        (Number::Address, past),
        (Number::Done, true),
    ];
    let due = rows.into_iter().find(|(_, fits)| *fits);
    due.expect("the last fits always").0
}

#[test]
fn every_chosen_view_gives_the_number_due() {
    let (cells, identification) = view_bytes();
    for row in &DEVICES {
        let mut seen = Vec::new();
        for view in views(row) {
            let (number, part) = view.show(Fault::None, &cells, &identification);
            assert_eq!(number, number_due(&view), "{view:?}");
            let length = match (number, view.region) {
                (Number::Done, Region::Cells) => row.page,
                (Number::Done, Region::Identification) => row.identification,
                _ => 0,
            };
            assert_eq!(part.len(), length, "{view:?}");
            if !seen.contains(&(view.region, number)) {
                seen.push((view.region, number));
            }
        }
        assert_eq!(seen.len(), 5 + 4, "all numbers, 13 for cells alone");
    }
}

/// The number of preparing by the table alone, and behind it that of an event.
fn numbers_due(lending: &Lending) -> [Number; 2] {
    let Some(row) = device(lending.device) else {
        return [Number::Device; 2];
    };
    let rows = [
        (Number::Cells, lending.cells != row.cells),
        (
            Number::Identification,
            lending.identification != row.identification,
        ),
        (Number::Latch, lending.latch != 2 * row.page),
        (Number::Counts, lending.counts != row.cells / row.page),
        (Number::State, !lending.is_sound),
    ];
    let due = |rows: &[(Number, bool)]| {
        let first = rows.iter().find(|(_, fits)| *fits);
        first.map_or(Number::Done, |(number, _)| *number)
    };
    [due(&rows[..4]), due(&rows)]
}

/// 14 comes right after 4 and before 5, in preparing too, and what is refused is left as it was.
#[test]
fn every_chosen_lending_gives_the_number_due() {
    for row in &DEVICES {
        let mut seen = Vec::new();
        for lending in lendings(row) {
            let numbers = numbers_due(&lending);
            let calls = [lending.prepare(Fault::None), lending.event(Fault::None)];
            for (left, number) in calls.iter().zip(numbers) {
                assert_eq!(left.number, number, "{lending:?}");
                let lent = lending.lent();
                let is_left = left.cells == lent.cells
                    && left.identification == lent.identification
                    && left.latch == lent.latch
                    && left.counts == lent.counts;
                let prepared = left.answer.is_none() && number == Number::Done;
                assert_eq!(is_left, !prepared, "{lending:?}");
                if left.answer.is_some() && number != Number::Done {
                    assert_eq!((left.answer, &left.state), (Some(Output::Z), &lent.state));
                }
            }
            seen.extend(numbers);
        }
        for number in [
            Number::Done,
            Number::Device,
            Number::Cells,
            Number::Identification,
            Number::Latch,
            Number::Counts,
            Number::State,
        ] {
            assert!(seen.contains(&number), "{} {number:?}", row.name);
        }
    }
}
