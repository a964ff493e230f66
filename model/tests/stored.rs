//! The vectors that `store` writes: their layout, their size, and that the right model gives them again.

mod common;

use std::fs;
use std::path::{Path, PathBuf};
use std::process::Command;
use std::sync::OnceLock;

use common::Board;
use m95_model::generate::Profile;
use m95_model::{append_record, device, Cycle, Event, Fault, Vector};

/// How many vectors each file had before there were some about held commands (document 02, W-206), in the order of the
/// profiles, and what these were together before a write could start in hold.
const EARLIER: [usize; 10] = [71, 50, 73, 41, 72, 65, 49, 41, 60, 104];
const EARLIER_BYTES: usize = 1_015_112;
const EARLIER_SUM: u64 = 0xE840_434D_A066_ECDA;

/// Those of them in which a write starts in hold.
const MOVED: [(Profile, usize); 3] = [
    (Profile::Hold, 71),
    (Profile::Mixed, 8),
    (Profile::Mixed, 39),
];

/// The files of `store` in a directory of the test's own.
fn store(name: &str) -> PathBuf {
    let directory = Path::new(env!("CARGO_TARGET_TMPDIR")).join(name);
    fs::create_dir_all(&directory).expect("a directory");
    let status = Command::new(env!("CARGO_BIN_EXE_store"))
        .arg(&directory)
        .status()
        .expect("store starts");
    assert!(status.success());
    directory
}

/// The files of one run of `store` that all tests may read; making them takes a while.
fn stored() -> &'static Path {
    static DIRECTORY: OnceLock<PathBuf> = OnceLock::new();
    DIRECTORY.get_or_init(|| store("first"))
}

#[test]
fn all_vectors_are_read_back_and_replayed() {
    let directory = stored();
    let (mut size, mut count) = (0, 0);
    for &profile in Profile::STORED {
        let file = fs::read(directory.join(profile.name())).expect("a file");
        let vectors = Vector::read_all(&file).expect("whole vectors");
        let mut again = Vec::new();
        for (index, vector) in vectors.iter().enumerate() {
            let place = format!("{} {index}", profile.name());
            let row = device(vector.device).expect("a device of the table");
            assert_eq!(Vector::of(Fault::None, row, &vector.trace), *vector);
            assert!(vector.answers.len() <= 400, "{place}");
            assert!(vector.trace.len() <= 2_100, "{place}");
            assert_eq!(vector.number != 0, profile == Profile::Malformed, "{place}");
            vector.append_to(&mut again);
        }
        assert_eq!(again, file);
        for number in 1..=7 {
            let of_device = vectors.iter().filter(|one| one.device == number);
            assert!(of_device.count() >= 5, "{} {number}", profile.name());
        }
        assert!(file.len() < 131_072, "{} {}", profile.name(), file.len());
        size += file.len();
        count += vectors.len();
    }
    assert!(size < 1_100_000, "{size} bytes");
    assert!(count >= 500, "{count} vectors");
}

/// The files beside the model are those that it writes today.
#[test]
fn stored_files_are_those_of_today() {
    let kept = Path::new(env!("CARGO_MANIFEST_DIR")).join("../crates/vectors/data");
    let written = stored();
    for &profile in Profile::STORED {
        let read = |directory: &Path| fs::read(directory.join(profile.name())).expect("a file");
        assert!(read(&kept) == read(written), "{}", profile.name());
    }
}

/// Another implementation may name a vector by its place in a file, and the traces of a device by their seeds. So all
/// that were there stay first in each file, byte for byte, but for what a write that starts in hold makes of a few: with
/// such writes dropped again they too are what they were.
#[test]
fn earlier_vectors_stay_first_and_move_only_by_held_writes() {
    let directory = stored();
    let (mut bytes, mut moved) = (Vec::new(), Vec::new());
    for (&profile, count) in Profile::STORED.iter().zip(EARLIER) {
        let file = fs::read(directory.join(profile.name())).expect("a file");
        let vectors = Vector::read_all(&file).expect("whole vectors");
        for (index, vector) in vectors[..count].iter().enumerate() {
            let row = device(vector.device).expect("a device of the table");
            let before = Vector::of(Fault::HeldCommandDropped, row, &vector.trace);
            before.append_to(&mut bytes);
            moved.extend((before != *vector).then_some((profile, index)));
        }
    }
    assert_eq!(bytes.len(), EARLIER_BYTES);
    assert_eq!(sum(&bytes), EARLIER_SUM);
    assert_eq!(moved, MOVED);
}

/// FNV-1a of 64 bits.
fn sum(bytes: &[u8]) -> u64 {
    bytes.iter().fold(0xCBF2_9CE4_8422_2325, |sum, &byte| {
        (sum ^ u64::from(byte)).wrapping_mul(0x0100_0000_01B3)
    })
}

#[test]
fn same_files_each_time() {
    let (first, second) = (stored(), store("second"));
    for &profile in Profile::STORED {
        let read = |directory: &Path| fs::read(directory.join(profile.name())).expect("a file");
        assert_eq!(read(first), read(&second), "{}", profile.name());
    }
}

#[test]
fn stored_vectors_notice_every_fault_that_they_can() {
    let output = Command::new(env!("CARGO_BIN_EXE_sharpness"))
        .arg("--stored")
        .arg(stored())
        .output()
        .expect("sharpness starts");
    let text = String::from_utf8_lossy(&output.stdout);
    assert_eq!(output.status.code(), Some(0), "{text}");
}

/// The pages on which the array cycles of a trace end, in turn.
fn pages_written(vector: &Vector) -> Vec<usize> {
    let mut board = Board::new(vector.device);
    let mut pages = Vec::new();
    let mut taken = 0;
    for _ in 0..vector.answers.len() {
        let (cycle, page) = (board.state.cycle, board.state.page_start);
        taken += board.run(&vector.trace[taken..], &mut [7], 1).taken;
        if cycle == Cycle::Array && board.state.cycle == Cycle::None {
            pages.push(page);
        }
    }
    pages
}

/// Why most faults about counts go unnoticed here: a count that was set wrongly is not tested again.
#[test]
fn no_vector_writes_to_a_page_twice() {
    let mut written = 0;
    for &profile in Profile::STORED {
        let file = fs::read(stored().join(profile.name())).expect("a file");
        for vector in Vector::read_all(&file).expect("whole vectors") {
            let mut pages = pages_written(&vector);
            let writes = pages.len();
            pages.sort_unstable();
            pages.dedup();
            assert_eq!(pages.len(), writes, "{}", profile.name());
            written += writes;
        }
    }
    assert!(written > 200, "{written} writes");
}

/// One vector, byte by byte: WREN, and a record that is cut.
#[test]
fn layout_of_a_vector() {
    let mut trace = Vec::new();
    append_record(&mut trace, Event::Select(false));
    for level in [false, false, false, false, false, true, true, false] {
        append_record(&mut trace, Event::Data(level));
        append_record(&mut trace, Event::Clock(true));
        append_record(&mut trace, Event::Clock(false));
    }
    append_record(&mut trace, Event::Select(true));
    trace.push(3);
    let mut vector = Vector::of(Fault::None, device(4).expect("device 4"), &trace);
    // As after a write of a cell and of an identification byte.
    vector.cells.push((0x3_FFFE, 0xA5));
    vector.identification.push((0xFF, 0x3C));
    let mut file = Vec::new();
    vector.append_to(&mut file);
    let mut expected = vec![4, 6, 0x02, 0];
    expected.extend([
        131, 0, 0, 0, 26, 0, 0, 0, 130, 0, 0, 0, 1, 0, 0, 0, 1, 0, 0, 0,
    ]);
    expected.extend(trace);
    expected.extend([2; 26]);
    expected.extend([0xFE, 0xFF, 0x03, 0x00, 0xA5, 0xFF, 0x00, 0x00, 0x00, 0x3C]);
    assert_eq!(file, expected);
    assert_eq!(Vector::read_all(&file), Some(vec![vector]));
    for length in 1..file.len() {
        assert_eq!(Vector::read_all(&file[..length]), None, "{length}");
    }
}
