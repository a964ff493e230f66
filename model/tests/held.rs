//! Request W-206 of document 02, a command that S's rise finds held: its settled readings one by one, each at a place
//! where another reading would answer differently.

mod common;

use common::{write_at, Board, FALL, RISE};
use m95_model::generate::{events, Profile};
use m95_model::{event, Cycle, Event, Instruction, Number, Output, State, DEVICES};

const HOLD_LOW: Event = Event::Hold(false);
const HOLD_HIGH: Event = Event::Hold(true);

/// The devices that let a write start in hold, and those that drop it.
const WRITING: [u8; 2] = [2, 7];
const DROPPING: [u8; 5] = [1, 3, 4, 5, 6];

/// Ways to be held when S rises, from C low: by the pin and the flag, with C raised, by the flag alone, and after clocks.
const HELD: [&[Event]; 5] = [
    &[HOLD_LOW],
    &[HOLD_LOW, RISE],
    &[HOLD_LOW, RISE, HOLD_HIGH],
    &[HOLD_LOW, RISE, FALL],
    &[HOLD_LOW, RISE, HOLD_HIGH, HOLD_LOW, FALL, RISE, FALL],
];

/// The first `count` bits of `bytes` in a selection that S's rise ends in hold; then all pins go back to rest.
fn deselect_held(board: &mut Board, bytes: &[u8], count: usize, way: &[Event]) {
    board.select();
    board.bits(bytes, count);
    for &happening in way {
        board.set(happening);
    }
    assert!(board.state.held);
    board.deselect();
    assert!(!board.state.held);
    board.set(HOLD_HIGH);
    board.set(FALL);
}

/// `bytes` in a selection that ends in hold in the plainest way.
fn command_held(board: &mut Board, bytes: &[u8]) {
    deselect_held(board, bytes, 8 * bytes.len(), HELD[0]);
}

/// `bytes` in a selection that ends with HOLD low and without hold, since C is high.
fn command_unheld(board: &mut Board, bytes: &[u8]) {
    let last = bytes[bytes.len() - 1] & 1 == 1;
    board.select();
    board.bits(bytes, 8 * bytes.len() - 1);
    board.set(Event::Data(last));
    board.set(RISE);
    board.set(HOLD_LOW);
    assert!(!board.state.held);
    board.deselect();
    board.set(HOLD_HIGH);
    board.set(FALL);
}

/// A device in hold, C low, that has received a WRITE of 42h to cell 0 with WEL set.
fn written_and_held(number: u8) -> Board {
    let mut board = Board::new(number);
    board.command(&[0x06]);
    board.select();
    board.bytes(&[0x02, 0x00, 0x00, 0x42]);
    board.set(HOLD_LOW);
    board
}

/// A code, an address in as many bytes as the device has, and data.
fn command(board: &Board, code: u8, address: usize, data: &[u8]) -> Vec<u8> {
    let places = (0..board.device.address_bytes).rev();
    let address = places.map(|place| (address >> (8 * place)) as u8);
    let code = [code].into_iter();
    code.chain(address).chain(data.iter().copied()).collect()
}

/// WRID to place 5 and LID, where the device has them.
fn page_commands(board: &Board) -> Vec<Vec<u8>> {
    match board.device.has_identification() {
        true => vec![
            command(board, 0x82, 5, &[0x5A]),
            command(board, 0x82, board.device.lock_bit(), &[0x02]),
        ],
        false => Vec::new(),
    }
}

/// Nothing runs, nothing has changed but what `status` says, and a wait shows that this stays so.
fn assert_dropped(board: &mut Board, status: u8, what: &str) {
    let what = format!("{} {what}", board.device.name);
    assert_eq!(board.state.cycle, Cycle::None, "{what}");
    board.wait(5000);
    assert_eq!(board.status(), status, "{what}");
    assert!(board.cells.iter().all(|&cell| cell == 0xFF), "{what}");
    assert!(board.counts.iter().all(|&count| count == 0), "{what}");
}

#[test]
fn the_column_is_true_on_2_and_7_alone() {
    for row in &DEVICES {
        assert_eq!(row.writes_in_hold, WRITING.contains(&row.number));
    }
}

#[test]
fn a_write_deselected_in_hold_is_done_on_2_and_7() {
    for number in WRITING {
        for way in HELD {
            let mut board = Board::new(number);
            board.command(&[0x06]);
            deselect_held(&mut board, &[0x02, 0x12, 0x34, 0xA5], 32, way);
            assert_eq!((board.state.cycle, board.status()), (Cycle::Array, 0x03));
            board.wait(4999);
            assert_eq!((board.status(), board.cells[0x1234]), (0x03, 0xFF));
            board.wait(1);
            assert_eq!((board.status(), board.cells[0x1234]), (0x00, 0xA5));
        }
    }
}

/// 206.4: the others keep document 01's ruling, for all three writes.
#[test]
fn a_write_deselected_in_hold_is_dropped_on_the_others() {
    for number in DROPPING {
        for way in HELD {
            let mut board = Board::new(number);
            board.command(&[0x06]);
            let write = write_at(board.device, 3);
            for bytes in page_commands(&board).into_iter().chain([write]) {
                deselect_held(&mut board, &bytes, 8 * bytes.len(), way);
                assert_dropped(&mut board, 0x02, &format!("{bytes:02X?} {way:?}"));
            }
            assert!(!board.state.locked);
            let page = &board.identification;
            assert_eq!(page.get(5), page.last(), "still FFh");
        }
    }
}

/// 206.1: held by the flag alone too. WEL is clear for WREN and set for the others.
#[test]
fn wren_wrdi_and_wrsr_are_dropped_on_all_devices() {
    for row in &DEVICES {
        for way in HELD {
            for (bytes, before) in [(&[0x06][..], 0x00), (&[0x04], 0x02), (&[0x01, 0x0C], 0x02)] {
                let mut board = Board::new(row.number);
                if before != 0 {
                    board.command(&[0x06]);
                }
                deselect_held(&mut board, bytes, 8 * bytes.len(), way);
                assert_dropped(&mut board, before, &format!("{bytes:02X?} {way:?}"));
            }
        }
    }
}

/// 206.1: HOLD lowered with C high does not hold, so that everything is judged as usual.
#[test]
fn everything_is_done_that_is_not_held_with_hold_low() {
    for row in &DEVICES {
        let mut board = Board::new(row.number);
        command_unheld(&mut board, &[0x06]);
        assert_eq!(board.status(), 0x02);
        command_unheld(&mut board, &[0x04]);
        assert_eq!(board.status(), 0x00);
        board.command(&[0x06]);
        command_unheld(&mut board, &[0x01, 0x04]);
        board.wait(5000);
        assert_eq!(board.status(), 0x04);
        board.command(&[0x06]);
        command_unheld(&mut board, &write_at(row, 3));
        board.wait(5000);
        assert_eq!((board.status(), board.cells[3]), (0x04, 0x5A));
        for bytes in page_commands(&board) {
            board.command(&[0x06]);
            command_unheld(&mut board, &bytes);
            board.wait(5000);
        }
        assert_eq!(board.state.locked, row.has_identification());
        let written = row.has_identification().then_some(&0x5A);
        assert_eq!(board.identification.get(5), written);
    }
}

#[test]
fn wrid_and_lid_deselected_in_hold_are_done_on_2() {
    for way in HELD {
        let mut board = Board::new(2);
        board.command(&[0x06]);
        deselect_held(&mut board, &[0x82, 0x00, 0x3F, 0xA5, 0x3C], 40, way);
        let cycle = board.state.cycle;
        assert_eq!((cycle, board.status()), (Cycle::Identification, 0x03));
        board.wait(5000);
        let page = &board.identification;
        assert_eq!((page[0x3F], page[0], page[1]), (0xA5, 0x3C, 0xFF));
        board.command(&[0x06]);
        deselect_held(&mut board, &[0x82, 0x04, 0x00, 0x02], 32, way);
        assert_eq!(
            (board.state.cycle, board.state.locked),
            (Cycle::Lock, false)
        );
        board.wait(5000);
        assert_eq!((board.status(), board.state.locked), (0x00, true));
    }
}

/// 206.4: there is only WRITE on device 7.
#[test]
fn code_82h_deselected_in_hold_does_nothing_on_7() {
    for way in HELD {
        for bytes in [[0x82, 0x00, 0x05, 0x02], [0x82, 0x04, 0x00, 0x02]] {
            let mut board = Board::new(7);
            board.command(&[0x06]);
            let latch = board.latch.clone();
            deselect_held(&mut board, &bytes, 32, way);
            assert_dropped(&mut board, 0x02, "82h");
            assert_eq!((board.latch, board.state.locked), (latch, false));
        }
    }
}

/// 206.2 and 206.6: a length that is no whole number of data bytes, or none. Clocks in hold are not among the bits.
#[test]
fn a_held_write_of_another_length_is_dropped() {
    for number in WRITING {
        for bits in (0..=41).filter(|bits| ![32, 40].contains(bits)) {
            for way in HELD {
                let mut board = Board::new(number);
                board.command(&[0x06]);
                let bytes = [0x02, 0x00, 0x00, 0x42, 0x43, 0x44];
                deselect_held(&mut board, &bytes, bits, way);
                assert_dropped(&mut board, 0x02, &format!("{bits} bits {way:?}"));
            }
        }
    }
}

/// The same with the identification page and the lock, which takes one data byte and no more.
#[test]
fn a_held_wrid_or_lid_of_another_length_is_dropped() {
    for (address, done) in [(0x00, &[32, 40, 48][..]), (0x04, &[32])] {
        for bits in (0..=49).filter(|bits| !done.contains(bits)) {
            let mut board = Board::new(2);
            board.command(&[0x06]);
            // Bit 1 is set in every byte behind the code, so that no other byte stands in for LID's.
            let bytes = [0x82, address | 0x02, 0x02, 0x02, 0x02, 0x02, 0x02];
            deselect_held(&mut board, &bytes, bits, HELD[0]);
            assert_dropped(&mut board, 0x02, &format!("82h {bits} bits"));
            assert!(!board.state.locked);
            assert!(board.identification.iter().all(|&byte| byte == 0xFF));
        }
    }
}

/// 206.6: no selection that demand 3 takes away starts anything, whatever its code.
#[test]
fn broken_selections_start_nothing_in_hold() {
    for row in &DEVICES {
        for code in [0x01, 0x02, 0x04, 0x06, 0x82] {
            for bits in (0..=48).filter(|bits| bits % 8 != 0 || *bits == 0) {
                for way in HELD {
                    let mut board = Board::new(row.number);
                    board.command(&[0x06]);
                    let before = (board.cells.clone(), board.counts.clone());
                    let bytes = [code, 0x04, 0x02, 0x02, 0x02, 0x02, 0x02];
                    deselect_held(&mut board, &bytes, bits, way);
                    let state = &board.state;
                    assert_eq!((state.cycle, state.write_enable_latch), (Cycle::None, true));
                    board.wait(5000);
                    assert_eq!((board.cells, board.counts), before);
                }
            }
        }
    }
}

/// 206.3: the clocks in hold do not make up for missing bits.
#[test]
fn clocks_in_hold_complete_nothing() {
    for number in WRITING {
        for (bits, clocks) in [(31, 1), (24, 8), (25, 7), (24, 16), (16, 16)] {
            let mut board = Board::new(number);
            board.command(&[0x06]);
            let way = [&[HOLD_LOW][..], &[RISE, FALL].repeat(clocks)].concat();
            deselect_held(&mut board, &[0x02, 0x00, 0x00, 0x42], bits, &way);
            assert_dropped(&mut board, 0x02, &format!("{bits} bits {clocks} clocks"));
        }
    }
}

/// 206.3: nor do they spoil a byte, whatever D is.
#[test]
fn clocks_in_hold_spoil_nothing() {
    for number in WRITING {
        for clocks in 1..=9 {
            let mut board = Board::new(number);
            board.command(&[0x06]);
            let clock = [Event::Data(true), RISE, FALL];
            let way = [&[HOLD_LOW][..], &clock.repeat(clocks)].concat();
            deselect_held(&mut board, &[0x02, 0x00, 0x00, 0x42], 32, &way);
            board.wait(5000);
            assert_eq!(
                (board.status(), &board.cells[..2]),
                (0x00, &[0x42, 0xFF][..])
            );
        }
    }
}

/// 206.2: what was received before a pause and after it counts, and the pause itself does not.
#[test]
fn a_write_with_an_earlier_pause_is_done() {
    for number in WRITING {
        let mut board = Board::new(number);
        board.command(&[0x06]);
        board.select();
        board.bits(&[0x02, 0x00, 0x00, 0x42], 29);
        for happening in [HOLD_LOW, RISE, FALL, HOLD_HIGH] {
            board.set(happening);
        }
        board.bits(&[0x42 << 5], 3);
        board.set(HOLD_LOW);
        board.deselect();
        board.wait(5000);
        assert_eq!(board.cells[0], 0x42);
    }
}

/// 206.2: WEL.
#[test]
fn a_held_write_asks_for_wel() {
    for number in WRITING {
        let mut board = Board::new(number);
        let write = command(&board, 0x02, 0, &[0x42]);
        for bytes in page_commands(&board).into_iter().chain([write]) {
            command_held(&mut board, &bytes);
            assert_dropped(&mut board, 0x00, &format!("{bytes:02X?} without WEL"));
            assert!(!board.state.locked);
        }
    }
}

/// 206.2: the page's protection, on both sides of each entry of the sheet.
#[test]
fn a_held_write_goes_by_the_sheet() {
    for number in WRITING {
        for (status, first) in [(0x04, 0x3000), (0x08, 0x2000), (0x0C, 0)] {
            let mut board = Board::new(number);
            board.write(&[0x01, status]);
            board.command(&[0x06]);
            let bytes = command(&board, 0x02, first, &[0x42]);
            command_held(&mut board, &bytes);
            assert_dropped(&mut board, status | 0x02, "protected");
            if let Some(below) = first.checked_sub(1) {
                let bytes = command(&board, 0x02, below, &[0x42]);
                command_held(&mut board, &bytes);
                board.wait(5000);
                assert_eq!((board.status(), board.cells[below]), (status, 0x42));
            }
        }
    }
}

/// 206.2: the lock and BP 11 stop WRID and LID; BP 01 and 10 stop neither.
#[test]
fn a_held_wrid_or_lid_goes_by_lock_and_bp_11() {
    for (status, locked) in [(0x00, true), (0x0C, false), (0x08, false), (0x04, false)] {
        for (bytes, cycle) in [
            ([0x82, 0x00, 0x05, 0x42], Cycle::Identification),
            ([0x82, 0x04, 0x00, 0x02], Cycle::Lock),
        ] {
            let mut board = Board::new(2);
            if locked {
                board.write(&[0x82, 0x04, 0x00, 0x02]);
            }
            board.write(&[0x01, status]);
            board.command(&[0x06]);
            command_held(&mut board, &bytes);
            let is_open = !locked && status != 0x0C;
            let expected = if is_open { cycle } else { Cycle::None };
            assert_eq!(board.state.cycle, expected, "status {status:02X} {locked}");
            board.wait(5000);
            let wel = if is_open { 0x00 } else { 0x02 };
            assert_eq!(board.status(), status | wel);
        }
    }
}

/// 206.2: LID asks for bit 1 of its one data byte.
#[test]
fn a_held_lid_asks_for_bit_1() {
    for (data, locks) in [
        (&[0xFD][..], false),
        (&[0x00], false),
        (&[], false),
        (&[0x02, 0x02], false),
        (&[0x02, 0x02, 0x02, 0x02], false),
        (&[0x02], true),
        (&[0xFF], true),
    ] {
        let mut board = Board::new(2);
        board.command(&[0x06]);
        command_held(&mut board, &[&[0x82, 0x04, 0x02], data].concat());
        board.wait(5000);
        assert_eq!(board.state.locked, locks, "{data:02X?}");
        assert_eq!(board.status(), if locks { 0x00 } else { 0x02 });
    }
}

/// 206.2: turned away for the whole selection, also where the cycle ends within it and WEL is set again before.
#[test]
fn a_held_write_that_was_turned_away_is_dropped() {
    for number in WRITING {
        for waited in [0, 2500] {
            let mut board = Board::new(number);
            board.start_write(&[0x02, 0x00, 0x40, 0x42]);
            board.wait(waited);
            let (latch, left) = (board.latch.clone(), 5000 - waited);
            for bytes in [[0x02, 0x00, 0x80, 0x43], [0x82, 0x00, 0x05, 0x43]] {
                command_held(&mut board, &bytes);
                assert_eq!(
                    (board.state.cycle, board.state.time_left),
                    (Cycle::Array, left)
                );
            }
            assert_eq!(board.latch, latch);
            board.wait(left);
            assert_eq!((board.status(), board.cells[0x40]), (0x00, 0x42));
            assert_eq!(board.cells[0x80], 0xFF);
        }
        let mut board = Board::new(number);
        board.start_write(&[0x02, 0x00, 0x40, 0x42]);
        board.select();
        board.bytes(&[0x02, 0x00, 0x80, 0x43]);
        board.wait(5000);
        board.set(HOLD_LOW);
        board.state.write_enable_latch = true; // no trace reaches this
        board.deselect();
        assert_eq!((board.state.cycle, board.cells[0x80]), (Cycle::None, 0xFF));
    }
}

/// W guards no write on these devices, in hold or before. With SRWD it guards WRSR, which is dropped anyway.
#[test]
fn w_seen_low_does_not_stop_a_held_write() {
    let (low, high) = (Event::Protect(false), Event::Protect(true));
    for number in WRITING {
        for way in [
            &[low, HOLD_LOW][..],
            &[HOLD_LOW, low, high],
            &[HOLD_LOW, low],
        ] {
            let mut board = Board::new(number);
            board.write(&[0x01, 0x80]);
            board.command(&[0x06]);
            deselect_held(&mut board, &[0x02, 0x00, 0x00, 0x42], 32, way);
            board.wait(5000);
            assert_eq!((board.status(), board.cells[0]), (0x80, 0x42));
            board.set(high);
            board.command(&[0x06]);
            deselect_held(&mut board, &[0x01, 0x00], 16, way);
            board.wait(5000);
            assert_eq!(board.status(), 0x82);
        }
    }
}

/// The latch is that of the command: the place rolls round, and the last byte for a place counts.
#[test]
fn a_held_write_of_more_than_a_page_rolls_round() {
    for number in WRITING {
        let mut board = Board::new(number);
        board.command(&[0x06]);
        let data: Vec<u8> = (0..65).collect();
        let bytes = command(&board, 0x02, 0x7F, &data);
        command_held(&mut board, &bytes);
        board.wait(5000);
        assert_eq!(board.cells[0x7F], 64);
        assert_eq!(board.cells[0x40..0x7F], data[1..64]);
        assert_eq!((board.cells[0x3F], board.cells[0x80]), (0xFF, 0xFF));
    }
}

/// 206.5, with C low: HOLD stays low, the device is not held, and the cycle runs its time.
#[test]
fn afterwards_hold_low_holds_nothing_until_s_falls() {
    for number in WRITING {
        let mut board = written_and_held(number);
        board.deselect();
        let state = &board.state;
        assert!(!state.held && !state.hold && !state.selected);
        assert_eq!(board.q(), Output::Z);
        board.wait(4999);
        assert_eq!(board.cells[0], 0xFF);
        board.select();
        assert!(board.state.held, "held at once");
        board.bytes(&[0x04]); // lost
        assert_eq!(board.shown_bits(), [Output::Z; 8]);
        board.deselect();
        assert!(!board.state.held);
        board.wait(1);
        assert_eq!(board.cells[0], 0x42);
        board.select();
        board.bytes(&[0x06]); // lost too
        board.set(HOLD_HIGH);
        board.bytes(&[0x05]);
        assert_eq!(board.shown_byte(), 0x00);
    }
}

/// 206.5, with C high: the selection is not held until C falls.
#[test]
fn afterwards_a_fall_of_s_with_c_high_is_not_held() {
    for number in WRITING {
        let mut board = written_and_held(number);
        board.set(RISE);
        board.deselect();
        board.select();
        assert!(!board.state.held);
        board.set(FALL);
        assert!(board.state.held);
    }
}

/// A cycle is a cycle: power is refused in it, and what a selection sends meanwhile is turned away.
#[test]
fn the_cycle_is_as_any_other() {
    for number in WRITING {
        let mut board = Board::new(number);
        board.command(&[0x06]);
        command_held(&mut board, &[0x02, 0x00, 0x00, 0x42]);
        assert_eq!(board.try_set(Event::Power), (Number::Power, Output::Z));
        board.command(&[0x01, 0x0C]);
        board.command(&[0x04]);
        assert_eq!(board.status(), 0x01);
        board.wait(5000);
        assert_eq!((board.status(), board.cells[0]), (0x00, 0x42));
    }
}

/// Power while held loses the command, as ever.
#[test]
fn power_in_hold_loses_a_complete_write() {
    for number in WRITING {
        let mut board = written_and_held(number);
        board.set(Event::Power);
        board.deselect();
        board.set(HOLD_HIGH);
        assert_dropped(&mut board, 0x00, "power");
    }
}

/// W-204: the count of the page is set at the end of the cycle, and a wrong one refuses it.
#[test]
fn the_count_follows_a_held_write() {
    for number in WRITING {
        let mut board = Board::new(number);
        for (page, wrong) in [(3, false), (3, false), (200, true)] {
            board.command(&[0x06]);
            let bytes = command(&board, 0x02, 64 * page + 7, &[0x00, 0xFF, 0x42]);
            board.counts[page] += u16::from(wrong);
            let before = board.counts.clone();
            command_held(&mut board, &bytes);
            assert_eq!(board.counts, before, "not at the rise of S");
            if wrong {
                let refused = (Number::Miscounted, Output::Z);
                assert_eq!(board.try_set(Event::Wait(5000)), refused);
                board.counts[page] -= 1;
            }
            board.wait(5000);
            assert_eq!(board.counts[page], 2);
            assert_eq!(board.status(), 0x00);
        }
        let counted = board.counts.iter().filter(|&&count| count != 0);
        assert_eq!(counted.count(), 2);
    }
}

/// The identification page has no count.
#[test]
fn a_held_wrid_leaves_the_counts() {
    let mut board = Board::new(2);
    board.command(&[0x06]);
    command_held(&mut board, &[0x82, 0x00, 0x05, 0x42]);
    board.wait(5000);
    assert_eq!(board.identification[5], 0x42);
    assert!(board.counts.iter().all(|&count| count == 0));
}

/// The state that a rise of S leaves now, held or not; C is low then, so that both are sound.
fn after_rise(board: &mut Board, held: bool) -> State {
    let mut state = State {
        clock: false,
        hold: !held,
        held,
        ..board.state.clone()
    };
    let given = event(
        board.device.number,
        &mut state,
        &mut board.cells,
        &mut board.identification,
        &mut board.latch,
        &mut board.counts,
        Event::Select(true),
    );
    assert_eq!(given, (Number::Done, Output::Z));
    State {
        hold: true,
        ..state
    }
}

/// What a rise of S leaves of a command that is dropped.
fn dropped(board: &Board) -> State {
    State {
        clock: false,
        hold: true,
        select: true,
        selected: false,
        held: false,
        bits: 0,
        value: 0,
        whole_bytes: 0,
        output: Output::Z,
        ..board.state.clone()
    }
}

/// There is one judgement: whatever a generated trace has received, a write that S's rise finds held does what it does
/// out of hold where the column is true, and everything else nothing.
#[test]
fn what_starts_in_hold_is_what_starts_out_of_hold() {
    let (mut started, mut lacking) = (0, 0);
    for row in &DEVICES {
        for profile in [
            Profile::Lengths,
            Profile::Glitch,
            Profile::Mixed,
            Profile::Held,
        ] {
            let mut board = Board::new(row.number);
            for happening in events(profile, row, 206, 30_000) {
                if happening == Event::Select(true) && board.state.selected {
                    let writes = matches!(
                        board.state.instruction,
                        Instruction::Write | Instruction::Wrid | Instruction::Lid
                    );
                    let held = after_rise(&mut board, true);
                    let free = after_rise(&mut board, false);
                    let lasts = writes && row.writes_in_hold;
                    let expected = if lasts { free } else { dropped(&board) };
                    assert_eq!(held, expected, "{} {:?}", row.name, board.state);
                    started += usize::from(lasts && held != dropped(&board));
                    lacking += usize::from(lasts && held == dropped(&board));
                }
                board.set(happening);
            }
        }
    }
    assert!(started > 50 && lacking > 50, "{started} {lacking}");
}
