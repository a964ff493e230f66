//! Request W-202 of document 02, devices 5 to 7: its settled readings one by one, each at a place where the other
//! reading would answer differently. What is the same on all devices is among the tests of document 01.

mod common;

use common::Board;
use m95_model::generate::{events, states, view_bytes, Profile};
use m95_model::{
    bench, device, event, is_sound, load, prepare, run, view, Cycle, Event, Instruction, Number,
    Output, Ran, Region, State, DEVICES,
};

/// Devices 5 and 6, which have one address byte, and all three.
const SMALL: [u8; 2] = [5, 6];
const SMALLER: [u8; 3] = [5, 6, 7];
const OF_PAGE: [Instruction; 4] = [
    Instruction::Rdid,
    Instruction::Rdls,
    Instruction::Wrid,
    Instruction::Lid,
];

/// A code, an address in as many bytes as the device has, and data.
fn command(board: &Board, code: u8, address: usize, data: &[u8]) -> Vec<u8> {
    let mut bytes = vec![code];
    for place in (0..board.device.address_bytes).rev() {
        bytes.push((address >> (8 * place)) as u8);
    }
    bytes.extend_from_slice(data);
    bytes
}

fn read(board: &mut Board, address: usize, count: usize) -> Vec<u8> {
    let bytes = command(board, 0x03, address, &[]);
    board.query(&bytes, count)
}

fn write(board: &mut Board, address: usize, data: &[u8]) {
    let bytes = command(board, 0x02, address, data);
    board.write(&bytes);
}

/// 82h or 83h with an address of the page and with one of the lock, as devices 1 and 2 would have them.
fn page_commands(board: &Board, code: u8, data: &[u8]) -> [Vec<u8>; 2] {
    let lock_bit = if board.device.number == 7 {
        0x400
    } else {
        0x80
    };
    [0, lock_bit].map(|address| command(board, code, address, data))
}

#[test]
fn the_table_has_the_rows_of_the_request() {
    let rows = [
        (5, "M95010", 128, 16, 1, 5000, false, 0),
        (6, "M95020", 256, 16, 1, 5000, false, 0),
        (7, "M95128", 16_384, 64, 2, 5000, true, 0),
    ];
    for row in rows {
        let found = device(row.0).expect("a device of the table");
        let columns = (
            found.number,
            found.name,
            found.cells,
            found.page,
            found.address_bytes,
            found.write_time,
            found.has_srwd,
            found.identification,
        );
        assert_eq!(columns, row);
    }
    assert!(device(0).is_none() && device(8).is_none() && device(255).is_none());
    assert_eq!(DEVICES.len(), 7);
}

// 202.1: the bench program goes on with two devices. What `play` takes is among the tests of the programs.
#[test]
fn the_bench_program_takes_none_of_them() {
    for number in SMALLER {
        assert_eq!(bench(&[3, 0, 16, 0, number]), "end 1 --\n");
        // The refusal comes before the trace is looked at.
        assert_eq!(bench(&[3, 0, 16, 0, number, 99]), "end 1 --\n");
    }
}

// 202.2: bit 3 of the code.
#[test]
fn bit_3_of_short_codes_is_ignored_on_5_and_6() {
    for number in SMALL {
        let mut board = Board::new(number);
        board.command(&[0x0E]);
        assert_eq!(board.query(&[0x0D], 2), [0x02, 0x02]);
        board.command(&[0x0C]);
        assert_eq!(board.status(), 0x00);
        board.write(&[0x09, 0x04]);
        assert_eq!(board.status(), 0x04);
    }
}

#[test]
fn bit_3_of_read_and_write_is_ignored_on_5_and_6() {
    for number in SMALL {
        let mut board = Board::new(number);
        board.write(&[0x0A, 0x11, 0xA5]);
        assert_eq!(board.cells[0x11], 0xA5);
        assert_eq!(board.cells.iter().filter(|&&cell| cell != 0xFF).count(), 1);
        assert_eq!(board.query(&[0x0B, 0x11], 2), [0xA5, 0xFF]);
        assert_eq!(read(&mut board, 0x11, 1), [0xA5]);
    }
}

/// On device 1 the same code brings A8, so the address starts from 1 there.
#[test]
fn the_address_starts_from_0_without_a8() {
    for (number, first) in [(1, 1), (5, 0), (6, 0)] {
        for code in [0x0A, 0x0B] {
            let mut board = Board::new(number);
            board.select();
            board.bytes(&[code]);
            assert_eq!(board.state.address, first, "device {number} {code:02X}");
        }
    }
}

#[test]
fn codes_with_bit_3_are_unknown_on_7() {
    for code in [0x0E, 0x0C, 0x0D, 0x09, 0x0A, 0x0B] {
        let mut board = Board::new(7);
        board.command(&[0x06]);
        board.select();
        board.bytes(&[code, 0x00, 0x00, 0x00]);
        assert_eq!(board.state.instruction, Instruction::Unknown, "{code:02X}");
        assert_eq!(board.q(), Output::Z);
        board.deselect();
        assert_eq!(board.status(), 0x02, "{code:02X}");
    }
}

/// 8Ah and 8Bh are no 82h and 83h anywhere, and other bits of the short codes count.
#[test]
fn only_bit_3_of_short_codes_is_ignored() {
    for number in SMALL {
        for code in [0x8A, 0x8B, 0x86, 0x16, 0x26, 0x46, 0x0F, 0x08, 0x07, 0x00] {
            let mut board = Board::new(number);
            board.select();
            board.bytes(&[code]);
            assert_eq!(board.state.instruction, Instruction::Unknown, "{code:02X}");
        }
    }
}

#[test]
fn bits_above_the_array_are_ignored() {
    let mut board = Board::new(5);
    write(&mut board, 0x80, &[0xA5]);
    assert_eq!(board.cells[0], 0xA5);
    assert_eq!(read(&mut board, 0x00, 1), [0xA5]);
    assert_eq!(read(&mut board, 0x80, 1), [0xA5]);
    let mut board = Board::new(6);
    write(&mut board, 0x80, &[0xA5]);
    assert_eq!((board.cells[0x80], board.cells[0]), (0xA5, 0xFF));
    let mut board = Board::new(7);
    write(&mut board, 0xC003, &[0xA5]);
    assert_eq!(board.cells[3], 0xA5);
}

#[test]
fn read_goes_on_at_cell_0() {
    for number in SMALLER {
        let mut board = Board::new(number);
        let last = board.device.cells - 1;
        write(&mut board, last, &[0xA5]);
        write(&mut board, 0, &[0x3C]);
        assert_eq!(read(&mut board, last, 3), [0xA5, 0x3C, 0xFF]);
    }
}

/// The latch has two pages of cells, and a write rolls round in such a page.
#[test]
fn a_page_write_rolls_round() {
    for (number, page) in [(5, 16), (6, 16), (7, 64)] {
        let mut board = Board::new(number);
        let data: Vec<u8> = (0..page as u8 + 1).collect();
        write(&mut board, 2 * page - 1, &data);
        assert_eq!(board.cells[2 * page - 1], page as u8);
        assert_eq!(board.cells[page..2 * page - 1], data[1..page]);
        assert_eq!(board.cells[2 * page], 0xFF);
        assert_eq!(board.cells[page - 1], 0xFF);
    }
}

#[test]
fn a_cycle_takes_5000_microseconds() {
    for number in SMALLER {
        let mut board = Board::new(number);
        let bytes = command(&board, 0x02, 0, &[0x42]);
        board.start_write(&bytes);
        board.wait(4999);
        assert_eq!((board.status(), board.cells[0]), (0x03, 0xFF));
        board.wait(1);
        assert_eq!((board.status(), board.cells[0]), (0x00, 0x42));
    }
}

// 202.3: what is not sound. The chosen states are all sound on a device with the page.
#[test]
fn nothing_of_an_identification_page_is_sound() {
    for row in &DEVICES {
        let marks = vec![0; row.page];
        for state in states(row) {
            let of_page = state.locked
                || matches!(state.cycle, Cycle::Identification | Cycle::Lock)
                || OF_PAGE.contains(&state.instruction);
            let expected = row.number <= 4 || !of_page;
            assert_eq!(is_sound(row, &state, &marks), expected, "{state:?}");
        }
    }
}

/// The state of device 2 after a command, on device 7 with everything else right.
fn left_over(bytes: &[u8]) -> Board {
    let mut before = Board::new(2);
    before.command(bytes);
    let mut board = Board::new(7);
    board.state = before.state;
    board
}

#[test]
fn an_instruction_left_over_from_device_2_gives_5_on_device_7() {
    for (bytes, instruction, number) in [
        (&[0x83, 0x00, 0x00][..], Instruction::Rdid, Number::State),
        (&[0x83, 0x04, 0x00], Instruction::Rdls, Number::State),
        (&[0x82, 0x00, 0x00], Instruction::Wrid, Number::State),
        (&[0x82, 0x04, 0x00], Instruction::Lid, Number::State),
        (&[0x02, 0x00, 0x00], Instruction::Write, Number::Done),
        (&[0x05], Instruction::Rdsr, Number::Done),
    ] {
        let mut board = left_over(bytes);
        let state = board.state.clone();
        assert_eq!((state.selected, state.instruction), (false, instruction));
        let answer = Output::Z;
        assert_eq!(board.try_set(Event::Data(true)), (number, answer));
        if number == Number::State {
            // A trace of no records is refused too, and the state is handed back as it was.
            assert_eq!(board.run(&[], &mut [], 0), refused(number));
            assert_eq!(board.state, state);
        }
    }
}

fn refused(number: Number) -> Ran {
    Ran {
        number,
        done: 0,
        taken: 0,
    }
}

#[test]
fn a_lock_is_neither_sound_nor_loaded() {
    for number in SMALLER {
        let mut board = Board::new(number);
        board.state.locked = true;
        assert_eq!(board.try_set(Event::Power).0, Number::State);
        assert_eq!(load(number, 0x04, 0).0, Number::Done);
        for lock in [1, 2, 255] {
            assert_eq!(load(number, 0x04, lock), (Number::State, State::prepared()));
        }
    }
}

// 202.4: 82h and 83h.
#[test]
fn codes_82h_and_83h_do_nothing() {
    for number in SMALLER {
        for code in [0x82, 0x83] {
            let mut board = Board::new(number);
            let marked = command(&board, 0x02, 5, &[0x42]);
            board.command(&marked); // WEL is 0: latched, not done
            let latch = board.latch.clone();
            board.command(&[0x06]);
            for bytes in page_commands(&board, code, &[0x02, 0x02]) {
                board.select();
                for &byte in &bytes {
                    board.bytes(&[byte]);
                    assert_eq!(board.state.instruction, Instruction::Unknown);
                    assert_eq!(board.q(), Output::Z);
                }
                assert_eq!(board.shown_bits(), [Output::Z; 8]);
                board.deselect();
                assert_eq!(board.latch, latch, "device {number} {code:02X}");
                assert_eq!(board.status(), 0x02);
                board.set(Event::Power); // no cycle runs
                board.command(&[0x06]);
            }
            board.wait(5000);
            assert_eq!(board.status(), 0x02);
            assert!(board.cells.iter().all(|&cell| cell == 0xFF));
            assert!(!board.state.locked);
        }
    }
}

/// One data byte and no bit more would be a whole WRID or LID.
#[test]
fn whole_commands_of_82h_start_no_cycle() {
    for number in SMALLER {
        let mut board = Board::new(number);
        for bytes in page_commands(&board, 0x82, &[0x02]) {
            board.write(&bytes);
            assert_eq!(board.status(), 0x02);
            assert!(!board.state.locked);
        }
    }
}

#[test]
fn codes_82h_and_83h_are_turned_away_in_a_cycle() {
    for number in SMALLER {
        for code in [0x82, 0x83] {
            let mut board = Board::new(number);
            let bytes = command(&board, 0x02, 5, &[0x42]);
            board.start_write(&bytes);
            let latch = board.latch.clone();
            for bytes in page_commands(&board, code, &[0x02]) {
                board.select();
                board.bytes(&bytes);
                assert!(board.state.turned_away);
                assert_eq!(board.shown_bits(), [Output::Z; 8]);
                board.deselect();
                assert_eq!(board.latch, latch);
                assert_eq!(board.status(), 0x03);
            }
            board.wait(5000);
            assert_eq!((board.status(), board.cells[5]), (0x00, 0x42));
        }
    }
}

// 202.5: lengths. Each call in the order of its numbers; all lengths are wrong at first.
#[test]
fn the_identification_buffer_has_no_bytes() {
    for number in SMALLER {
        let row = device(number).expect("a device of the table");
        let (cells, page) = (row.cells, row.page);
        for (cells, identification, latch, expected) in [
            (cells - 1, page, page, Number::Cells),
            (2 * cells, page, page, Number::Cells),
            (cells, page, page, Number::Identification),
            (cells, 1, 2 * page, Number::Identification),
            (cells, page, 2 * page, Number::Identification),
            (cells, 2 * page, 2 * page, Number::Identification),
            (cells, 0, 0, Number::Latch),
            (cells, 0, page, Number::Latch),
            (cells, 0, 2 * page - 1, Number::Latch),
            (cells, 0, 2 * page + 1, Number::Latch),
            (cells, 0, 2 * page, Number::Done),
        ] {
            let (mut cells, mut identification, mut latch) =
                (vec![1; cells], vec![2; identification], vec![1; latch]);
            let mut counts = vec![3; row.pages()];
            let mut state = State::prepared();
            // A mark of 1 is as good as one of 0, so a latch of ones is sound.
            let given = event(
                number,
                &mut state,
                &mut cells,
                &mut identification,
                &mut latch,
                &mut counts,
                Event::Power,
            );
            assert_eq!(given, (expected, Output::Z));
            let ran = run(
                number,
                &mut state,
                &mut cells,
                &mut identification,
                &mut latch,
                &mut counts,
                &[],
                &mut [],
                0,
            );
            assert_eq!(ran, refused(expected));
            assert_eq!(state, State::prepared());
            let is_untouched = |bytes: &[u8], byte| bytes.iter().all(|&one| one == byte);
            assert!(is_untouched(&cells, 1) && is_untouched(&latch, 1));
            assert!(is_untouched(&identification, 2));
            assert_eq!(counts, vec![3; row.pages()]);
            let (done, _) = prepare(
                number,
                &mut cells,
                &mut identification,
                &mut latch,
                &mut counts,
            );
            assert_eq!(done, expected);
            let prepared = expected == Number::Done;
            assert!(is_untouched(&cells, if prepared { 0xFF } else { 1 }));
            assert!(is_untouched(&latch, if prepared { 0 } else { 1 }));
            assert!(is_untouched(&identification, 2));
        }
    }
}

/// 201.4 with 202.5: the page is there and has no bytes.
#[test]
fn a_view_of_the_identification_page_is_done_and_empty() {
    let (bytes, _) = view_bytes();
    for number in SMALLER {
        let row = device(number).expect("a device of the table");
        let cells = &bytes[..row.cells];
        for address in [0, row.cells - 1, row.cells, usize::MAX] {
            let region = Region::Identification;
            let given = view(number, region, cells, &[], address);
            assert_eq!(given, (Number::Done, &[][..]));
            for length in [1, row.page - 1, row.page, 2 * row.page] {
                for region in [Region::Cells, Region::Identification] {
                    let given = view(number, region, cells, &bytes[..length], address);
                    assert_eq!(given, (Number::Identification, &[][..]), "{length}");
                }
            }
        }
        let (done, part) = view(number, Region::Cells, cells, &[], row.page + 1);
        assert_eq!(done, Number::Done);
        assert!(std::ptr::eq(part, &cells[row.page..2 * row.page]));
        let past = view(number, Region::Cells, cells, &[], row.cells);
        assert_eq!(past, (Number::Address, &[][..]));
    }
}

// 202.6: W and the status bits.
#[test]
fn w_low_at_any_moment_stops_wrsr_and_write_on_5_and_6() {
    for number in SMALL {
        for (bytes, bits) in [(&[0x01, 0x0C][..], 16), (&[0x02, 0x00, 0x42], 24)] {
            for low_after in 0..=bits {
                let mut board = Board::new(number);
                board.command(&[0x06]);
                board.select();
                for place in 0..=bits {
                    if place == low_after {
                        board.set(Event::Protect(false));
                        board.set(Event::Protect(true));
                    }
                    if place < bits {
                        board.bit(bytes[place / 8] << (place % 8) & 0x80 != 0);
                    }
                }
                board.deselect();
                let place = format!("device {number}, W low after {low_after} bits");
                assert_eq!(board.status(), 0x02, "{place}");
                board.wait(5000);
                assert_eq!((board.status(), board.cells[0]), (0x02, 0xFF), "{place}");
            }
        }
    }
}

#[test]
fn w_low_before_and_after_the_selection_stops_nothing() {
    for number in SMALL {
        let mut board = Board::new(number);
        board.set(Event::Protect(false));
        board.command(&[0x06]); // nor does it stop WREN
        board.set(Event::Protect(true));
        board.command(&[0x01, 0x04]);
        board.set(Event::Protect(false));
        board.wait(5000);
        assert_eq!(board.status(), 0x04);
    }
}

#[test]
fn device_7_goes_by_srwd() {
    let mut board = Board::new(7);
    board.set(Event::Protect(false));
    board.write(&[0x01, 0x80]);
    assert_eq!(board.status(), 0x80, "SRWD was 0");
    board.write(&[0x01, 0x00]);
    assert_eq!(board.status(), 0x82, "SRWD is 1");
    write(&mut board, 0, &[0x42]);
    assert_eq!(
        (board.status(), board.cells[0]),
        (0x80, 0x42),
        "W guards no WRITE"
    );
    board.set(Event::Protect(true));
    board.write(&[0x01, 0x00]);
    assert_eq!(board.status(), 0x00);
}

#[test]
fn the_status_has_srwd_on_7_alone() {
    for (number, status) in [(5, 0x0C), (6, 0x0C), (7, 0x8C)] {
        let mut board = Board::new(number);
        board.write(&[0x01, 0xFF]);
        assert_eq!(board.status(), status);
    }
}

// 202.7: nothing locks, so that there is nothing for a claim on the lock to be about.
#[test]
fn no_trace_locks() {
    for number in SMALLER {
        for profile in Profile::ALL {
            let mut board = Board::new(number);
            for happening in events(profile, board.device, 3, 6_000) {
                board.set(happening);
                assert!(!board.state.locked);
            }
        }
    }
}

// 202.8 held until W-206; what device 7 does with a write that is deselected in hold is among the tests of that request.

// 202.9: what the columns say.
#[test]
fn the_columns_tell_what_was_said_of_device_1() {
    for row in &DEVICES {
        let place = row.name;
        let (is_first, is_small) = (row.number == 1, SMALL.contains(&row.number));
        assert_eq!(row.has_one_address_byte(), is_first || is_small, "{place}");
        assert_eq!(row.code_brings_a8(), is_first, "{place}");
        assert_eq!(row.has_identification(), row.number <= 4, "{place}");
        assert!([0, row.page].contains(&row.identification), "{place}");
        if row.has_identification() {
            assert_eq!(
                row.lock_bit(),
                if is_first { 0x80 } else { 0x400 },
                "{place}"
            );
        }
    }
}

// 202.10: refused preparing.
#[test]
fn refused_preparing_gives_one_and_the_same_state() {
    for number in 0..=9 {
        for (cells, identification, latch) in [(0, 0, 0), (128, 16, 32), (16_384, 64, 0)] {
            let (refused, state) = prepare(
                number,
                &mut vec![1; cells],
                &mut vec![2; identification],
                &mut vec![3; latch],
                &mut [4; 8],
            );
            assert_ne!(refused, Number::Done);
            assert_eq!(state, State::prepared());
        }
    }
}
