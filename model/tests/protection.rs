//! Request W-203 of document 02: the service sheet answers what the arithmetic on the cell count answered before it.

mod common;

use common::{write_at, Board};
use m95_model::{DEVICES, SRWD};

/// The numbers 2 BP1 + BP0.
const SETTINGS: std::ops::Range<u8> = 0..4;

/// The arithmetic, which is here alone: nothing, the upper quarter, the upper half and all are protected.
fn start_of_protected_part(cells: usize, setting: u8) -> usize {
    match setting {
        0b00 => cells,
        0b01 => cells - cells / 4,
        0b10 => cells / 2,
        _ => 0,
    }
}

#[test]
fn the_sheet_answers_as_the_arithmetic_for_every_address() {
    for row in &DEVICES {
        for setting in SETTINGS {
            let start = start_of_protected_part(row.cells, setting);
            for address in 0..row.cells {
                // SRWD is in the same byte and must not count.
                for status in [setting << 2, setting << 2 | SRWD] {
                    let place = format_args!("{} BP {setting:02b} {address:X}h", row.name);
                    let answer = row.is_protected(status, address);
                    assert_eq!(answer, address >= start, "{place}");
                }
            }
        }
    }
}

/// So no page is protected in part, and "none" is no number but the cell count.
#[test]
fn every_entry_is_a_multiple_of_the_page_and_at_most_the_cell_count() {
    for row in &DEVICES {
        for (setting, entry) in row.sheet.into_iter().enumerate() {
            let place = format!("{} BP {setting:02b} {entry:X}h", row.name);
            assert!(entry <= row.cells, "{place}");
            assert!(entry.is_multiple_of(row.page), "{place}");
        }
    }
}

/// At the pins. A data byte moves the address on, after the last cell of a page back to its first, and S rises only
/// then. So each side has a WRITE that is sent to the address next to the limit and one that leaves the address there.
#[test]
fn writes_are_done_below_each_entry_and_dropped_from_there_on() {
    for row in &DEVICES {
        for setting in SETTINGS {
            let (bits, start) = (setting << 2, start_of_protected_part(row.cells, setting));
            let mut board = Board::new(row.number);
            board.write(&[0x01, bits]);
            let below = [row.page, 2, 1].map(|distance| start.checked_sub(distance));
            for address in below.into_iter().flatten() {
                board.write(&write_at(row, address));
                assert_eq!(board.status(), bits, "{} {address:X}h", row.name);
                assert_eq!(board.cells[address], 0x5A, "{} {address:X}h", row.name);
            }
            let from_there = [start, start + row.page - 1, row.cells - 1];
            for address in from_there.into_iter().filter(|_| start < row.cells) {
                board.write(&write_at(row, address));
                assert_eq!(board.status(), bits | 0x02, "{} {address:X}h", row.name);
                assert_eq!(board.cells[address], 0xFF, "{} {address:X}h", row.name);
            }
        }
    }
}
