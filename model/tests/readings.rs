//! The settled readings of document 01, each at a place where the other reading would answer differently.

mod common;

use common::{Board, FALL, RISE};
use m95_model::{is_sound, Cycle, Event, Instruction, Number, Output, State};

const HOLD_LOW: Event = Event::Hold(false);
const HOLD_HIGH: Event = Event::Hold(true);

/// A board with RDSR sent, WEL set, so that the status bits are 0000 0010.
fn reading_status(number: u8) -> Board {
    let mut board = Board::new(number);
    board.command(&[0x06]);
    board.select();
    board.bytes(&[0x05]);
    board
}

#[test]
fn s_falls_with_hold_low_and_c_low_is_held_at_once() {
    let mut board = Board::new(1);
    board.set(HOLD_LOW);
    board.select();
    assert!(board.state.held);
    board.bytes(&[0x06]); // lost
    board.set(HOLD_HIGH);
    board.bytes(&[0x05]);
    assert_eq!(board.shown_byte(), 0x00);
}

#[test]
fn s_falls_with_hold_low_and_c_high_is_held_after_the_fall() {
    let mut board = Board::new(1);
    board.set(RISE);
    board.set(HOLD_LOW);
    board.select();
    assert!(!board.state.held);
    board.set(FALL);
    assert!(board.state.held);
}

#[test]
fn deselected_while_held_goes_by_the_stored_flag() {
    // Held, C raised, HOLD raised with C high: still held, dropped.
    let mut board = Board::new(2);
    board.select();
    board.bytes(&[0x06]);
    board.set(HOLD_LOW);
    board.set(RISE);
    board.set(HOLD_HIGH);
    board.deselect();
    board.set(FALL);
    assert_eq!(board.status(), 0x00);
    // C high and HOLD lowered: not held, judged.
    board.select();
    board.bits(&[0x06], 7);
    board.set(Event::Data(false));
    board.set(RISE);
    board.set(HOLD_LOW);
    board.deselect();
    board.set(HOLD_HIGH);
    board.set(FALL);
    assert_eq!(board.status(), 0x02);
}

#[test]
fn deselected_while_held_is_dropped_on_all_devices() {
    for number in 1..=7 {
        let mut board = Board::new(number);
        board.select();
        board.bytes(&[0x06]);
        board.set(HOLD_LOW);
        board.deselect();
        board.set(HOLD_HIGH);
        assert_eq!(board.status(), 0x00);
    }
}

#[test]
fn the_fall_that_starts_hold_takes_the_status() {
    // Device 1 is busy when the fall that starts hold takes the status, and ready when hold ends.
    let mut board = Board::new(1);
    board.start_write(&[0x02, 0x00, 0x55]);
    board.select();
    board.bits(&[0x05], 7);
    board.set(Event::Data(true));
    board.set(RISE);
    board.set(HOLD_LOW);
    assert_eq!(board.set(FALL), Output::Z);
    board.wait(5000);
    assert_eq!(board.set(HOLD_HIGH), Output::Zero);
    assert_eq!(board.shown_byte(), 0x03);
    assert_eq!(board.shown_byte(), 0x00);
}

#[test]
fn the_fall_that_ends_hold_is_not_decoded() {
    // The top bit of READ's byte differs from the next one: the fall that ends hold must not move on.
    let mut board = Board::new(2);
    board.cells[0] = 0x80;
    board.select();
    board.bytes(&[0x03, 0x00, 0x00]);
    assert_eq!(board.q(), Output::One);
    assert_eq!(board.set(HOLD_LOW), Output::Z);
    assert_eq!(board.set(RISE), Output::Z);
    assert_eq!(board.set(HOLD_HIGH), Output::Z);
    assert_eq!(board.set(FALL), Output::One);
    assert_eq!(board.shown_byte(), 0x80);
    assert_eq!(board.shown_byte(), 0xFF);
}

#[test]
fn hold_keeps_the_bit_and_takes_none() {
    let mut board = reading_status(3);
    for _ in 0..6 {
        assert_eq!(board.bit(false), Output::Zero);
    }
    assert_eq!(board.q(), Output::One);
    board.set(HOLD_LOW);
    for _ in 0..5 {
        assert_eq!(board.set(RISE), Output::Z);
        assert_eq!(board.set(FALL), Output::Z);
    }
    assert_eq!(board.set(HOLD_HIGH), Output::One);
    assert_eq!(board.bit(false), Output::One);
    assert_eq!(board.bit(false), Output::Zero);
}

#[test]
fn hold_lowered_with_c_high_shows_q_until_the_fall() {
    let mut board = reading_status(4);
    assert_eq!(board.set(RISE), Output::Zero);
    assert_eq!(board.set(HOLD_LOW), Output::Zero);
    assert_eq!(board.set(HOLD_HIGH), Output::Zero);
    assert_eq!(board.set(HOLD_LOW), Output::Zero);
    assert_eq!(board.set(FALL), Output::Z);
}

#[test]
fn w_counts_in_hold() {
    let mut board = Board::new(1);
    board.command(&[0x06]);
    board.select();
    board.bytes(&[0x02, 0x00]);
    board.set(HOLD_LOW);
    board.set(Event::Protect(false));
    board.set(Event::Protect(true));
    board.set(HOLD_HIGH);
    board.bytes(&[0x55]);
    board.deselect();
    assert_eq!(board.status(), 0x02);
}

#[test]
fn w_counts_at_any_moment_of_wrsr() {
    for low_after in 0..=16 {
        let mut board = Board::new(2);
        board.write(&[0x01, 0x80]);
        board.command(&[0x06]);
        board.select();
        board.bits(&[0x01, 0x0C], low_after);
        board.set(Event::Protect(false));
        board.set(Event::Protect(true));
        for place in low_after..16 {
            board.bit([0x01u8, 0x0C][place / 8] << (place % 8) & 0x80 != 0);
        }
        board.deselect();
        assert_eq!(board.status(), 0x82, "W low after {low_after} bits");
    }
}

#[test]
fn w_low_outside_the_selection_does_not_count() {
    let mut board = Board::new(1);
    board.command(&[0x06]);
    board.set(Event::Protect(false));
    board.set(Event::Protect(true));
    board.command(&[0x01, 0x0C]);
    board.wait(5000);
    assert_eq!(board.status(), 0x0C);
}

#[test]
fn w_low_stops_no_wren_and_keeps_wel() {
    for number in 1..=7 {
        let mut board = Board::new(number);
        board.set(Event::Protect(false));
        board.command(&[0x06]);
        assert_eq!(board.status(), 0x02);
        board.set(Event::Protect(true));
        board.set(Event::Protect(false));
        assert_eq!(board.status(), 0x02);
    }
}

#[test]
fn w_low_stops_writes_on_device_1_only() {
    for number in 1..=4 {
        let mut board = Board::new(number);
        let mut address = vec![0; usize::from(board.device.address_bytes)];
        board.set(Event::Protect(false));
        board.write(&[&[0x02], &address[..], &[0x55]].concat());
        board.write(&[&[0x82], &address[..], &[0x66]].concat());
        // The lock bit: bit 7 of one address byte, else bit 10, in the last but one byte.
        let last = address.len() - 1;
        if number == 1 {
            address[last] = 0x80;
        } else {
            address[last - 1] = 0x04;
        }
        board.write(&[&[0x82], &address[..], &[0x02]].concat());
        let written = number != 1;
        assert_eq!(board.cells[0] == 0x55, written);
        assert_eq!(board.identification[0] == 0x66, written);
        assert_eq!(board.state.locked, written);
    }
}

#[test]
fn w_low_stops_wrsr_only_with_srwd_where_it_exists() {
    let mut board = Board::new(3);
    board.set(Event::Protect(false));
    board.write(&[0x01, 0x84]);
    assert_eq!(board.status(), 0x84);
    board.write(&[0x01, 0x00]);
    assert_eq!(board.status(), 0x86);
    let mut board = Board::new(1);
    board.set(Event::Protect(false));
    board.write(&[0x01, 0x04]);
    assert_eq!(board.status(), 0x02);
}

#[test]
fn time_passes_in_hold_and_in_a_selection() {
    let mut board = Board::new(2);
    board.start_write(&[0x02, 0x00, 0x00, 0x42]);
    board.select();
    board.wait(2000);
    board.set(HOLD_LOW);
    board.wait(2999);
    assert_eq!(board.cells[0], 0xFF);
    board.wait(1);
    assert_eq!(board.cells[0], 0x42);
}

#[test]
fn after_power_with_s_low_nothing_is_selected() {
    let mut board = Board::new(1);
    board.select();
    board.bytes(&[0x06]);
    board.set(Event::Power); // a complete command is lost
    board.set(Event::Select(false)); // no edge
    board.bytes(&[0x06]);
    board.deselect(); // judges nothing
    assert_eq!(board.status(), 0x00);
    board.command(&[0x06]);
    board.set(Event::Power);
    assert_eq!(board.status(), 0x00);
}

#[test]
fn power_keeps_bytes_status_lock_and_levels() {
    let mut board = Board::new(1);
    board.write(&[0x02, 0x00, 0x55]);
    board.write(&[0x82, 0x80, 0x02]);
    board.write(&[0x01, 0x04]);
    board.set(RISE);
    board.set(Event::Protect(false));
    board.select();
    let latch = board.latch.clone();
    assert_eq!(board.set(Event::Power), Output::Z);
    assert_eq!(board.latch, latch);
    assert_eq!(board.cells[0], 0x55);
    assert!(board.state.locked && board.state.clock);
    assert!(!board.state.protect && !board.state.select);
    board.deselect();
    board.set(FALL);
    assert_eq!(board.status(), 0x04);
}

#[test]
fn power_in_a_cycle_inside_a_selection_is_refused_and_the_selection_goes_on() {
    let mut board = Board::new(2);
    board.start_write(&[0x01, 0x0C]);
    board.select();
    board.bits(&[0x05], 4);
    assert_eq!(board.try_set(Event::Power), (Number::Power, Output::Z));
    board.bits(&[0x50], 4);
    assert_eq!(board.shown_byte(), 0x03);
}

#[test]
fn a_wait_without_a_cycle_changes_nothing() {
    let mut board = Board::new(2);
    board.command(&[0x06]);
    let state = board.state.clone();
    board.wait(u32::MAX);
    assert_eq!(board.state, state);
}

#[test]
fn a_wait_of_0_ends_no_cycle_and_the_longest_ends_it() {
    let mut board = Board::new(4);
    board.start_write(&[0x02, 0x00, 0x00, 0x00, 0x12]);
    board.wait(4999);
    board.wait(0);
    assert_eq!(board.status(), 0x03);
    board.wait(u32::MAX);
    assert_eq!(board.status(), 0x00);
    assert_eq!(board.cells[0], 0x12);
}

#[test]
fn rdsr_takes_the_status_afresh_at_each_top_bit() {
    for number in 1..=7 {
        let mut board = Board::new(number);
        board.start_write(&[0x01, 0x0C]);
        board.select();
        board.bytes(&[0x05]);
        board.bit(false);
        board.wait(5000); // after the top bit: this byte stays as it was taken
        for expected in [0, 0, 0, 0, 0, 1, 1] {
            assert_eq!(board.bit(false) as u8, expected);
        }
        assert_eq!(board.shown_byte(), 0x0C);
    }
}

#[test]
fn turned_away_is_judged_at_the_eighth_rise() {
    let read = [0x03, 0x00, 0x00];
    for (bits_before, read_back) in [(0, true), (7, true), (8, false), (20, false)] {
        let mut board = Board::new(2);
        board.start_write(&[0x02, 0x00, 0x00, 0x42]);
        board.select();
        board.bits(&read, bits_before);
        board.wait(5000);
        for place in bits_before..24 {
            board.bit(read[place / 8] << (place % 8) & 0x80 != 0);
        }
        let expected = if read_back { Output::Zero } else { Output::Z };
        assert_eq!(board.q(), expected, "cycle ends after {bits_before} bits");
    }
}

#[test]
fn in_a_cycle_only_rdsr_and_wrdi_are_taken() {
    for code in [0x01, 0x02, 0x03, 0x06, 0x82, 0x83, 0x7F] {
        let mut board = Board::new(2);
        board.start_write(&[0x02, 0x00, 0x00, 0x42]);
        board.select();
        board.bytes(&[code, 0x00, 0x00, 0x00]);
        assert!(board.state.turned_away, "{code:02X}");
        assert_eq!(board.q(), Output::Z);
        board.deselect();
        board.wait(5000);
        assert_eq!(board.status(), 0x00);
        assert_eq!(board.cells[0], 0x42);
    }
}

#[test]
fn wrdi_in_a_cycle_clears_wel_and_leaves_the_cycle() {
    let mut board = Board::new(2);
    board.start_write(&[0x02, 0x00, 0x00, 0x42]);
    board.command(&[0x04]);
    assert_eq!(board.status(), 0x01);
    board.command(&[0x06]); // turned away
    assert_eq!(board.status(), 0x01);
    board.wait(5000);
    assert_eq!(board.cells[0], 0x42);
}

#[test]
fn the_latch_belongs_to_the_running_cycle() {
    let mut board = Board::new(2);
    board.start_write(&[0x02, 0x00, 0x00, 0x42]);
    let latch = board.latch.clone();
    board.command(&[0x02, 0x00, 0x01, 0x43]);
    assert_eq!(board.latch, latch);
    board.wait(5000);
    assert_eq!(board.cells[..2], [0x42, 0xFF]);
}

#[test]
fn marks_are_cleared_without_wel_and_for_lid_and_data_stays() {
    let mut board = Board::new(2);
    for bytes in [&[0x02, 0x00, 0x05, 0x42][..], &[0x82, 0x00, 0x05, 0x42]] {
        board.command(bytes); // WEL is 0: latched, not done
        assert_eq!(board.latch[5], 0x42);
        assert_eq!(board.marks()[5], 1);
        board.command(&[bytes[0]]);
        assert_eq!(board.latch[5], 0x42);
        assert!(board.marks().iter().all(|&mark| mark == 0));
    }
    board.command(&[0x82, 0x00, 0x05, 0x42]);
    board.latch[0] = 0x99;
    board.command(&[0x82, 0x04, 0x00, 0x02]);
    assert!(board.marks().iter().all(|&mark| mark == 0));
    assert_eq!(board.latch[0], 0x99, "LID's byte is not latched");
    assert_eq!(board.status(), 0x00);
}

#[test]
fn the_last_byte_for_a_place_counts() {
    let mut board = Board::new(1);
    let mut bytes = vec![0x02, 0x04];
    bytes.extend(0x10..0x22); // 18 bytes into a page of 16
    board.write(&bytes);
    assert_eq!(board.cells[4..6], [0x20, 0x21]);
    assert_eq!(
        board.cells[6..16],
        [0x12, 0x13, 0x14, 0x15, 0x16, 0x17, 0x18, 0x19, 0x1A, 0x1B]
    );
    assert_eq!(board.cells[..4], [0x1C, 0x1D, 0x1E, 0x1F]);
    assert_eq!(board.cells[16], 0xFF);
}

#[test]
fn bits_above_the_array_are_ignored() {
    let mut board = Board::new(2);
    board.write(&[0x02, 0xC0, 0x03, 0x21]);
    assert_eq!(board.cells[3], 0x21);
    let mut board = Board::new(4);
    board.write(&[0x02, 0xFC, 0x00, 0x03, 0x21]);
    assert_eq!(board.query(&[0x03, 0x00, 0x00, 0x03], 1), [0x21]);
    let mut board = Board::new(3);
    board.write(&[0x02, 0xFE, 0x00, 0x03, 0x21]);
    assert_eq!(board.cells[3], 0x21);
}

#[test]
fn identification_instructions_ignore_other_bits() {
    let mut board = Board::new(2);
    board.write(&[0x82, 0xFB, 0xC1, 0x77]); // all but bit 10, place 1
    assert_eq!(board.identification[..3], [0xFF, 0x77, 0xFF]);
    assert_eq!(board.query(&[0x83, 0x00, 0x01], 1), [0x77]);
    assert_eq!(board.query(&[0x83, 0xFF, 0xFF], 1), [0x00]); // RDLS
    let mut board = Board::new(1);
    board.write(&[0x82, 0x71, 0x77]);
    assert_eq!(board.identification[1], 0x77);
    assert_eq!(board.query(&[0x83, 0x8F], 2), [0x00, 0x00]);
    board.write(&[0x8A, 0x01, 0x11]); // no such code
    assert_eq!(board.identification[1], 0x77);
    assert_eq!(board.status(), 0x02);
}

#[test]
fn the_lock_bit_counts_with_the_last_address_byte() {
    let mut board = Board::new(2);
    for (code, before, after) in [
        (0x82, Instruction::Wrid, Instruction::Lid),
        (0x83, Instruction::Rdid, Instruction::Rdls),
    ] {
        board.select();
        board.bytes(&[code, 0x04]);
        assert_eq!(board.state.instruction, before);
        board.bytes(&[0x00]);
        assert_eq!(board.state.instruction, after);
        board.deselect();
    }
}

#[test]
fn the_address_moves_on_at_the_fall_that_shows_a_top_bit() {
    let mut board = Board::new(2);
    board.select();
    board.bytes(&[0x03, 0x00, 0x10]);
    assert_eq!(board.state.address, 0x10);
    for _ in 0..7 {
        board.bit(false);
    }
    board.set(RISE);
    assert_eq!(board.state.address, 0x10);
    board.set(FALL);
    assert_eq!(board.state.address, 0x11);
}

#[test]
fn whole_bytes_stop_counting_at_six() {
    let mut board = Board::new(1);
    board.select();
    board.bytes(&[0x05; 9]);
    assert_eq!(board.state.whole_bytes, 6);
}

#[test]
fn rdid_sends_z_past_its_page() {
    let mut board = Board::new(1);
    board.identification[15] = 0x00;
    board.select();
    board.bytes(&[0x83, 0x0F]);
    assert_eq!(board.shown_byte(), 0x00);
    for _ in 0..40 {
        assert_eq!(board.shown_bits(), [Output::Z; 8]);
    }
    assert_eq!(board.state.address, 16);
}

#[test]
fn lid_asks_for_one_data_byte_with_bit_1() {
    for (data, locks) in [
        (&[0xFD][..], false),
        (&[][..], false),
        (&[0x02, 0x02], false),
        (&[0x02, 0x02, 0x02], false),
        (&[0x02], true),
        (&[0xFF], true),
    ] {
        let mut board = Board::new(4);
        board.write(&[&[0x82, 0x00, 0x04, 0x00], data].concat());
        assert_eq!(board.state.locked, locks, "{data:02X?}");
        assert_eq!(board.status(), if locks { 0x00 } else { 0x02 });
    }
}

#[test]
fn lock_and_bp_11_stop_wrid_and_lid() {
    let mut board = Board::new(2);
    board.write(&[0x01, 0x0C]);
    board.write(&[0x82, 0x00, 0x00, 0x11]);
    board.write(&[0x82, 0x04, 0x00, 0x02]);
    assert_eq!(board.status(), 0x0E);
    board.write(&[0x01, 0x08]);
    board.write(&[0x82, 0x00, 0x3F, 0x11]);
    assert_eq!(board.identification[0x3F], 0x11);
    board.write(&[0x82, 0x04, 0x00, 0x02]);
    board.write(&[0x82, 0x00, 0x00, 0x11]);
    assert_eq!(board.identification[0], 0xFF);
    assert_eq!(board.status(), 0x0A);
}

#[test]
fn status_stores_only_its_bits() {
    let mut board = Board::new(4);
    board.write(&[0x01, 0xFF]);
    assert_eq!(board.status(), 0x8C);
    let mut board = Board::new(1);
    board.write(&[0x01, 0xFF]);
    assert_eq!(board.status(), 0x0C);
}

#[test]
fn wrsr_asks_for_exactly_sixteen_rises() {
    for (rises, status) in [(8, 0x02), (15, 0x02), (16, 0x0C), (17, 0x02), (24, 0x02)] {
        let mut board = Board::new(2);
        board.command(&[0x06]);
        board.command_of(&[0x01, 0x0C, 0x0C], rises);
        board.wait(5000);
        assert_eq!(board.status(), status, "{rises} rises");
    }
}

#[test]
fn an_unknown_code_is_ignored_until_s_rises() {
    let mut board = Board::new(2);
    board.command(&[0x00, 0x06]);
    assert_eq!(board.status(), 0x00);
    board.select();
    board.bytes(&[0xFF, 0x05]);
    assert_eq!(board.shown_bits(), [Output::Z; 8]);
}

/// A selection with C idle high: C falls, D is set, C rises. Gives what Q shows before each rise.
fn exchange_idle_high(board: &mut Board, bytes: &[u8]) -> Vec<Output> {
    board.select();
    let mut shown = Vec::new();
    for place in 0..8 * bytes.len() {
        board.set(FALL);
        board.set(Event::Data(bytes[place / 8] << (place % 8) & 0x80 != 0));
        shown.push(board.q());
        board.set(RISE);
    }
    board.deselect();
    shown
}

#[test]
fn c_may_idle_high() {
    let mut board = Board::new(2);
    board.set(RISE);
    exchange_idle_high(&mut board, &[0x06]);
    let shown = exchange_idle_high(&mut board, &[0x05, 0x00]);
    assert_eq!(shown[..8], [Output::Z; 8]);
    let status: Vec<u8> = shown[8..].iter().map(|&bit| bit as u8).collect();
    assert_eq!(status, [0, 0, 0, 0, 0, 0, 1, 0]);
}

#[test]
fn setting_a_level_it_has_is_no_edge() {
    let mut board = Board::new(1);
    board.select();
    board.bits(&[0x06], 4);
    board.select();
    board.set(FALL);
    board.bits(&[0x60], 3);
    board.set(Event::Data(false));
    board.set(RISE);
    board.set(RISE);
    board.deselect();
    board.deselect();
    board.set(FALL);
    assert_eq!(board.status(), 0x02);
}

/// A sound selected state to make unsound ones from.
fn selected() -> State {
    State {
        select: false,
        selected: true,
        bits: 3,
        value: 7,
        whole_bytes: 6,
        instruction: Instruction::Read,
        address: 511,
        output: Output::One,
        ..State::prepared()
    }
}

#[test]
fn soundness_is_the_list_of_document_01() {
    let device = m95_model::device(1).expect("device 1");
    let marks = [0, 1].repeat(8);
    let sound = |state: &State| is_sound(device, state, &marks);
    let prepared = State::prepared;
    for state in [
        prepared(),
        selected(),
        State {
            cycle: Cycle::Array,
            time_left: 1,
            page_start: 496,
            ..prepared()
        },
        State {
            cycle: Cycle::Identification,
            time_left: 5000,
            ..prepared()
        },
        State {
            cycle: Cycle::Lock,
            time_left: 9,
            turned_away: true,
            ..selected()
        },
        State {
            cycle: Cycle::Lock,
            time_left: 9,
            instruction: Instruction::Rdsr,
            ..selected()
        },
        State {
            cycle: Cycle::Lock,
            time_left: 9,
            whole_bytes: 0,
            ..selected()
        },
        State {
            hold: false,
            held: true,
            ..selected()
        },
        State {
            hold: false,
            clock: true,
            ..selected()
        },
        State {
            held: true,
            clock: true,
            ..selected()
        },
        State {
            protect: false,
            protect_seen_low: true,
            ..selected()
        },
        State {
            protect: false,
            select: false,
            hold: false,
            ..prepared()
        },
        State {
            instruction: Instruction::Lid,
            sent_byte: 0xFF,
            last_byte: 0xFF,
            ..prepared()
        },
        State {
            status: 0x0C,
            new_status: 0x0C,
            page_start: 16,
            ..prepared()
        },
    ] {
        assert!(sound(&state), "{state:?}");
    }
    for state in [
        State {
            value: 8,
            ..selected()
        },
        State {
            bits: 0,
            value: 1,
            ..selected()
        },
        State {
            whole_bytes: 7,
            ..selected()
        },
        State {
            address: 512,
            ..prepared()
        },
        State {
            status: 0x80,
            ..prepared()
        },
        State {
            new_status: 0x80,
            ..prepared()
        },
        State {
            status: 0x01,
            ..prepared()
        },
        State {
            time_left: 1,
            ..prepared()
        },
        State {
            cycle: Cycle::Status,
            ..prepared()
        },
        State {
            cycle: Cycle::Status,
            time_left: 5001,
            ..prepared()
        },
        State {
            page_start: 15,
            ..prepared()
        },
        State {
            page_start: 512,
            ..prepared()
        },
        State {
            cycle: Cycle::Identification,
            time_left: 1,
            page_start: 16,
            ..prepared()
        },
        State {
            held: true,
            ..prepared()
        },
        State {
            bits: 1,
            ..prepared()
        },
        State {
            whole_bytes: 1,
            ..prepared()
        },
        State {
            output: Output::Zero,
            ..prepared()
        },
        State {
            select: true,
            ..selected()
        },
        State {
            protect: false,
            ..selected()
        },
        State {
            cycle: Cycle::Lock,
            time_left: 9,
            ..selected()
        },
        State {
            cycle: Cycle::Lock,
            time_left: 9,
            instruction: Instruction::Unknown,
            ..selected()
        },
        State {
            held: true,
            ..selected()
        },
        State {
            hold: false,
            ..selected()
        },
    ] {
        assert!(!sound(&state), "{state:?}");
    }
    assert!(!is_sound(device, &prepared(), &[2]));
}
