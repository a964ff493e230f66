//! The twelve proved examples of document 01, at the pins.

mod common;

use common::Board;
use m95_model::Event;

#[test]
fn example_1_wren_shows_in_the_status() {
    let mut board = Board::new(1);
    board.command(&[0x06]);
    assert_eq!(board.status(), 0x02);
}

#[test]
fn example_2_bit_3_of_the_code_is_ignored_on_device_1_only() {
    let mut board = Board::new(1);
    board.command(&[0x0E]);
    assert_eq!(board.status(), 0x02);
    let mut board = Board::new(2);
    board.command(&[0x0E]);
    assert_eq!(board.status(), 0x00);
}

#[test]
fn example_3_a_page_write_rolls_round() {
    let mut board = Board::new(2);
    board.write(&[0x02, 0x00, 0x3E, 0xA1, 0xA2, 0xA3]);
    assert_eq!(board.cells[0x3E], 0xA1);
    assert_eq!(board.cells[0x3F], 0xA2);
    assert_eq!(board.cells[0x00], 0xA3);
    assert_eq!(board.cells[0x40], 0xFF);
    assert_eq!(board.query(&[0x03, 0x00, 0x3E], 2), [0xA1, 0xA2]);
}

#[test]
fn example_4_the_change_comes_at_the_end() {
    let mut board = Board::new(2);
    board.start_write(&[0x02, 0x00, 0x3E, 0xA1, 0xA2, 0xA3]);
    board.wait(4999);
    assert_eq!(board.status(), 0x03);
    assert!(board.cells.iter().all(|&cell| cell == 0xFF));
    board.wait(1);
    assert_eq!(board.status(), 0x00);
    assert_eq!(
        [board.cells[0x3E], board.cells[0x3F], board.cells[0]],
        [0xA1, 0xA2, 0xA3]
    );
}

#[test]
fn example_5_device_3_takes_4000_microseconds() {
    let mut board = Board::new(3);
    board.start_write(&[0x02, 0x00, 0x00, 0x00, 0x11]);
    board.wait(3999);
    assert_eq!(board.status() & 0x01, 0x01);
    board.wait(1);
    assert_eq!(board.status() & 0x01, 0x00);
}

#[test]
fn example_6_read_goes_on_with_cell_0() {
    let mut board = Board::new(4);
    board.write(&[0x02, 0x03, 0xFF, 0xFF, 0x5A]);
    board.write(&[0x02, 0x00, 0x00, 0x00, 0xC3]);
    assert_eq!(
        board.query(&[0x03, 0x03, 0xFF, 0xFF], 3),
        [0x5A, 0xC3, 0xFF]
    );
}

#[test]
fn example_7_the_upper_half_is_protected() {
    let mut board = Board::new(2);
    board.write(&[0x01, 0x08]);
    board.write(&[0x02, 0x1F, 0xFF, 0x77]);
    assert_eq!(board.cells[0x1FFF], 0x77);
    board.write(&[0x02, 0x20, 0x00, 0x77]);
    assert_eq!(board.cells[0x2000], 0xFF);
    assert_eq!(board.status(), 0x0A);
}

#[test]
fn example_8_a8_comes_with_the_code_of_device_1() {
    let mut board = Board::new(1);
    board.write(&[0x0A, 0xFF, 0x55]);
    assert_eq!(board.cells[0x1FF], 0x55);
    assert_eq!(board.cells[0x0FF], 0xFF);
}

#[test]
fn example_9_nine_rises_are_no_wren() {
    for number in 1..=7 {
        let mut board = Board::new(number);
        board.command_of(&[0x06, 0x00], 9);
        assert_eq!(board.status(), 0x00);
    }
}

#[test]
fn example_10_a_write_needs_whole_bytes() {
    let command = [0x02, 0x00, 0x00, 0x5A, 0x00];
    for (rises, status, cell) in [(31, 0x02, 0xFF), (33, 0x02, 0xFF), (32, 0x00, 0x5A)] {
        let mut board = Board::new(2);
        board.command(&[0x06]);
        board.command_of(&command, rises);
        board.wait(5000);
        assert_eq!(board.cells[0], cell, "{rises} rises");
        assert_eq!(board.status(), status, "{rises} rises");
    }
}

#[test]
fn example_11_lid_locks() {
    let mut board = Board::new(4);
    assert_eq!(board.query(&[0x83, 0x00, 0x04, 0x00], 1), [0x00]);
    board.write(&[0x82, 0x00, 0x04, 0x00, 0x02]);
    assert_eq!(board.query(&[0x83, 0x00, 0x04, 0x00], 2), [0x01, 0x01]);
}

#[test]
fn example_12_w_low_guards_the_status() {
    let mut board = Board::new(2);
    board.write(&[0x01, 0xFF]);
    assert_eq!(board.status(), 0x8C);
    board.set(Event::Protect(false));
    board.write(&[0x01, 0x00]);
    assert_eq!(board.status(), 0x8E);
}
