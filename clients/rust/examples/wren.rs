//! The example of the README in Rust: prepares an M95040, selects it, sends WREN as a trace, and asks for a blank page.

use proved::{kind, pin, Lent, STATE_BYTES};

const DEVICE: usize = 1;

fn main() {
    let mut lent = Lent {
        state: &mut [0; STATE_BYTES],
        cells: &mut vec![0; proved::cells(DEVICE)],
        identification: &mut vec![0; proved::identification(DEVICE)],
        latch: &mut vec![0; 2 * proved::page(DEVICE)],
        counts: &mut vec![0; proved::pages(DEVICE)],
    };
    let mut trace = Vec::new();
    for bit in (0..8).rev() {
        // 06h, three records a bit: D, C up, C down
        for pin in [pin::D + (0x06 >> bit & 1), pin::C + 1, pin::C] {
            trace.extend([3, 0, kind::SET_PIN as u8, 0, pin as u8]);
        }
    }
    let mut answers = [0; 24];
    let mut number = proved::prepare(DEVICE, &mut lent);
    number += proved::event(DEVICE, &mut lent, kind::SET_PIN, pin::S).0;
    let ran = proved::run(DEVICE, &mut lent, &trace, &mut answers, 24);
    number += ran.number + proved::event(DEVICE, &mut lent, kind::SET_PIN, pin::S + 1).0;
    let status = proved::status_byte(lent.state).unwrap();
    println!(
        "numbers {number}, records {}, bytes {}, status {status:02X}",
        ran.done, ran.taken
    );
    if let Some(page) = proved::first_blank(DEVICE, lent.counts).unwrap() {
        println!("the first blank page is {page}");
    }
}
