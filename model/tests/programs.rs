//! The two programs of the model, run as processes: the bench program of document 01 and `play`, with its question for a
//! blank page (document 02, W-205).

use std::fs;
use std::io::Write;
use std::path::{Path, PathBuf};
use std::process::{Command, Output, Stdio};

use m95_model::{append_record, Event};

fn bench(input: &[u8]) -> String {
    let mut child = Command::new(env!("CARGO_BIN_EXE_bench"))
        .stdin(Stdio::piped())
        .stdout(Stdio::piped())
        .spawn()
        .expect("bench starts");
    let mut pipe = child.stdin.take().expect("a pipe");
    // A program that has seen enough may close its end early, as bench does with an input that is too long.
    let _ = pipe.write_all(input);
    drop(pipe);
    let output = child.wait_with_output().expect("bench ends");
    assert!(output.status.success());
    String::from_utf8(output.stdout).expect("text")
}

const DEVICE_1: [u8; 5] = [3, 0, 16, 0, 1];
const DEVICE_2: [u8; 5] = [3, 0, 16, 0, 2];

fn with_trace(first: [u8; 5], trace: &[u8]) -> Vec<u8> {
    [&first[..], trace].concat()
}

#[test]
fn printed_example() {
    let input = [
        0x03, 0x00, 0x10, 0x00, 0x01, 0x03, 0x00, 0x01, 0x00, 0x04, 0x03, 0x00, 0x01, 0x00, 0x05,
    ];
    assert_eq!(bench(&input), "record q\n1 Z\n2 Z\nend 0 00\n");
}

#[test]
fn first_record_is_judged_by_6_7_8_6_1_after_12() {
    assert_eq!(bench(&[]), "end 6 --\n");
    assert_eq!(bench(&[3, 0, 16]), "end 6 --\n");
    assert_eq!(bench(&[3, 0, 17, 0]), "end 7 --\n");
    assert_eq!(bench(&[9, 0, 1, 0]), "end 7 --\n");
    assert_eq!(bench(&[2, 0, 16, 0]), "end 8 --\n");
    assert_eq!(bench(&[3, 1, 16, 0]), "end 8 --\n");
    assert_eq!(bench(&[3, 0, 16, 0]), "end 6 --\n");
    for device in [0, 3, 4, 5, 6, 7, 8, 255] {
        assert_eq!(bench(&[3, 0, 16, 0, device]), "end 1 --\n");
    }
    let long = vec![0; 32_769];
    assert_eq!(bench(&long), "end 12 --\n");
}

#[test]
fn longest_input_runs() {
    // 5 bytes of first record, 8 of a wait and 6551 pin records of 5 bytes make 32,768 in all.
    let mut trace = Vec::new();
    append_record(&mut trace, Event::Wait(1));
    for _ in 0..6551 {
        append_record(&mut trace, Event::Data(false));
    }
    let mut input = with_trace(DEVICE_2, &trace);
    assert_eq!(input.len(), 32_768);
    let text = bench(&input);
    assert!(text.starts_with("record q\n1 Z\n2 Z\n"));
    assert!(text.ends_with("\n6552 Z\nend 0 00\n"));
    input.push(0);
    assert_eq!(bench(&input), "end 12 --\n");
}

#[test]
fn refused_trace_keeps_header_and_status() {
    assert_eq!(bench(&DEVICE_1), "record q\nend 0 00\n");
    assert_eq!(bench(&with_trace(DEVICE_1, &[3])), "record q\nend 6 00\n");
    assert_eq!(
        bench(&with_trace(DEVICE_1, &DEVICE_1)),
        "record q\nend 7 00\n"
    );
    let mut trace = Vec::new();
    for event in selection(&[0x06]) {
        append_record(&mut trace, event);
    }
    let done = trace.len() / 5;
    trace.extend_from_slice(&[3, 0, 1, 0, 10]);
    let text = bench(&with_trace(DEVICE_1, &trace));
    assert!(text.ends_with(&format!("\n{done} Z\nend 9 02\n")), "{text}");
}

/// The events of one selection with C idle low.
fn selection(bytes: &[u8]) -> Vec<Event> {
    let mut events = vec![Event::Select(false)];
    for place in 0..8 * bytes.len() {
        let level = bytes[place / 8] << (place % 8) & 0x80 != 0;
        events.extend([Event::Data(level), Event::Clock(true), Event::Clock(false)]);
    }
    events.push(Event::Select(true));
    events
}

/// A directory of its own for one test.
struct Place(PathBuf);

impl Place {
    fn new(name: &str) -> Place {
        let path = Path::new(env!("CARGO_TARGET_TMPDIR")).join(name);
        let _ = fs::remove_dir_all(&path);
        fs::create_dir_all(&path).expect("a directory");
        Place(path)
    }

    fn path(&self, name: &str) -> PathBuf {
        self.0.join(name)
    }

    fn put(&self, name: &str, bytes: &[u8]) {
        fs::write(self.path(name), bytes).expect("a file");
    }

    fn get(&self, name: &str) -> Vec<u8> {
        fs::read(self.path(name)).expect("a file")
    }

    fn play(&self, device: &str) -> Output {
        Command::new(env!("CARGO_BIN_EXE_play"))
            .arg(device)
            .args([self.path("chip"), self.path("trace"), self.path("answers")])
            .output()
            .expect("play starts")
    }

    fn blank(&self, device: &str) -> Output {
        play_with(&["blank", device, &self.path("chip").display().to_string()])
    }

    /// The names and bytes of all files.
    fn files(&self) -> Vec<(String, Vec<u8>)> {
        let entries = fs::read_dir(&self.0).expect("a directory");
        let mut names: Vec<String> = entries
            .map(|entry| entry.expect("an entry").file_name())
            .map(|name| name.into_string().expect("text"))
            .collect();
        names.sort();
        let files = names.into_iter();
        files.map(|name| (name.clone(), self.get(&name))).collect()
    }

    fn put_trace(&self, events: &[Event]) -> usize {
        let mut trace = Vec::new();
        for &event in events {
            append_record(&mut trace, event);
        }
        self.put("trace", &trace);
        trace.len()
    }
}

fn play_with(words: &[&str]) -> Output {
    Command::new(env!("CARGO_BIN_EXE_play"))
        .args(words)
        .output()
        .expect("play starts")
}

fn line(output: &Output) -> &str {
    assert!(output.status.success());
    std::str::from_utf8(&output.stdout).expect("text")
}

#[test]
fn play_makes_a_missing_chip_and_goes_on_with_it() {
    let place = Place::new("goes_on");
    let write = [selection(&[0x06]), selection(&[0x02, 0x1F, 0xA5])].concat();
    let bytes = place.put_trace(&write);
    let output = place.play("1");
    let expected = format!("end 0 03 records {} bytes {bytes}\n", write.len());
    assert_eq!(line(&output), expected);
    let mut chip = vec![0xFF; 512 + 16];
    chip.extend_from_slice(&[0, 0]);
    assert_eq!(place.get("chip"), chip, "the cycle was lost");
    assert_eq!(place.get("answers"), vec![2; write.len()]);

    let whole = [write, vec![Event::Wait(5000)]].concat();
    place.put_trace(&whole);
    assert!(line(&place.play("1")).starts_with("end 0 00 "));
    chip[0x1F] = 0xA5;
    assert_eq!(place.get("chip"), chip);
}

#[test]
fn play_takes_a_raw_image_and_stores_the_long_form() {
    let place = Place::new("raw");
    let mut chip: Vec<u8> = (0..16_384usize).map(|index| (index % 251) as u8).collect();
    place.put("chip", &chip);
    let status = [
        selection(&[0x06]),
        selection(&[0x01, 0x8C]),
        vec![Event::Wait(5000), Event::Power],
    ];
    place.put_trace(&status.concat());
    assert!(line(&place.play("2")).starts_with("end 0 8C "));
    chip.extend_from_slice(&[0xFF; 64]);
    chip.extend_from_slice(&[0x8C, 0]);
    assert_eq!(place.get("chip"), chip);
}

/// 204.10: a chip's file holds no counts, so they are taken from its cells; or the first write to it would end in 15.
/// Pages of 256 with no blank cell are among these.
#[test]
fn play_writes_to_a_chip_that_is_not_blank() {
    for (device, cells, address, identification) in [
        ("1", 512, &[0x20][..], 16),
        ("3", 131_072, &[0x00, 0x01, 0x00], 256),
        ("5", 128, &[0x20], 0),
    ] {
        let place = Place::new("not_blank");
        let mut chip = vec![0x00; cells];
        place.put("chip", &chip);
        // The same page twice: a byte, then a blank cell.
        let write = |byte| {
            let command = [&[0x02], address, &[byte]].concat();
            let wait = vec![Event::Wait(5000)];
            [selection(&[0x06]), selection(&command), wait].concat()
        };
        let events = [write(0xA5), write(0xFF), write(0xFF)].concat();
        let bytes = place.put_trace(&events);
        let expected = format!("end 0 00 records {} bytes {bytes}\n", events.len());
        assert_eq!(line(&place.play(device)), expected);
        // In the form that it was left in, too, which is the long one.
        assert_eq!(line(&place.play(device)), expected);
        let written = address
            .iter()
            .fold(0, |all, &byte| all << 8 | usize::from(byte));
        chip[written] = 0xFF;
        chip.extend(vec![0xFF; identification]);
        chip.extend([0, 0]);
        assert_eq!(place.get("chip"), chip);
    }
}

#[test]
fn play_reads_status_and_lock_and_stops_at_a_refusal() {
    let place = Place::new("status");
    let mut chip = vec![0x33; 512 + 16];
    chip.extend_from_slice(&[0x0C, 1]);
    place.put("chip", &chip);
    // RDSR and the first output bit, then a record that is cut.
    let mut events = selection(&[0x05]);
    events.pop();
    let bytes = place.put_trace(&events);
    let mut trace = place.get("trace");
    trace.extend_from_slice(&[3, 0]);
    place.put("trace", &trace);
    let output = place.play("1");
    let expected = format!("end 6 0C records {} bytes {bytes}\n", events.len());
    assert_eq!(line(&output), expected);
    let mut answers = vec![2; events.len()];
    answers[events.len() - 1] = 0;
    assert_eq!(place.get("answers"), answers);
    assert_eq!(place.get("chip"), chip);
}

/// A missing chip becomes a prepared one in the long form, which has no identification bytes on devices 5 to 7.
#[test]
fn play_takes_every_row() {
    let place = Place::new("rows");
    for (device, cells, identification) in [
        ("1", 512, 16),
        ("2", 16_384, 64),
        ("3", 131_072, 256),
        ("4", 262_144, 256),
        ("5", 128, 0),
        ("6", 256, 0),
        ("7", 16_384, 0),
    ] {
        let _ = fs::remove_file(place.path("chip"));
        place.put_trace(&[Event::Power]);
        assert_eq!(line(&place.play(device)), "end 0 00 records 1 bytes 4\n");
        let chip = place.get("chip");
        assert_eq!(chip.len(), cells + identification + 2);
        assert!(chip[..cells].iter().all(|&cell| cell == 0xFF));
        assert_eq!(chip[cells + identification..], [0, 0]);
    }
}

#[test]
fn play_goes_on_with_a_chip_without_an_identification_page() {
    let place = Place::new("without_page");
    let mut chip: Vec<u8> = (0..128).collect();
    place.put("chip", &chip);
    let write = [selection(&[0x0E]), selection(&[0x0A, 0x85, 0xA5])].concat();
    place.put_trace(&[write, vec![Event::Wait(5000)]].concat());
    assert!(line(&place.play("5")).starts_with("end 0 00 "));
    chip[5] = 0xA5;
    chip.extend([0, 0]);
    assert_eq!(place.get("chip"), chip);
    // The long form is read back, with its status bits.
    chip[128] = 0x0C;
    place.put("chip", &chip);
    place.put_trace(&[]);
    assert_eq!(line(&place.play("5")), "end 0 0C records 0 bytes 0\n");
    assert_eq!(place.get("chip"), chip);
}

/// Where nothing can be locked, 1 is as wrong as 2.
#[test]
fn play_says_that_such_a_chip_has_no_lock() {
    let place = Place::new("no_lock");
    place.put("answers", b"as it was");
    place.put_trace(&[Event::Power]);
    for (device, cells, lock) in [
        ("5", 128, 1),
        ("6", 256, 1),
        ("7", 16_384, 1),
        ("7", 16_384, 2),
    ] {
        let mut chip = vec![0; cells];
        chip.extend([0, lock]);
        place.put("chip", &chip);
        let output = place.play(device);
        assert_refused(&place, &output, &chip);
        let message = String::from_utf8_lossy(&output.stderr);
        let expected = format!("lock is {lock}, not 0\n");
        assert!(message.ends_with(&expected), "{message}");
    }
}

#[test]
fn bad_use_changes_no_file() {
    let place = Place::new("bad_use");
    place.put("answers", b"as it was");
    let long = 512 + 16 + 2;
    let mut wrong_status = vec![0; long];
    wrong_status[long - 2] = 0x80;
    let mut wrong_lock = vec![0; long];
    wrong_lock[long - 1] = 2;
    place.put_trace(&[Event::Power]);
    for (device, chip) in [
        ("0", vec![0; long]),
        ("8", vec![0; long]),
        ("01", vec![0; long]),
        ("1", vec![0; long - 1]),
        ("1", vec![0; 513]),
        ("2", vec![0; 512]),
        ("1", wrong_status),
        ("1", wrong_lock),
        // The lengths of devices 1 and 2, which have an identification page, and a byte too few.
        ("5", vec![0; 128 + 16 + 2]),
        ("6", vec![0; long]),
        ("7", vec![0; 16_384 + 64 + 2]),
        ("7", vec![0; 16_384 + 1]),
    ] {
        place.put("chip", &chip);
        let output = place.play(device);
        assert_refused(&place, &output, &chip);
    }
    fs::remove_file(place.path("trace")).expect("the trace");
    let chip = vec![0; long];
    place.put("chip", &chip);
    assert_refused(&place, &place.play("1"), &chip);
    assert_eq!(play_with(&["1", "only"]).status.code(), Some(2));
}

fn assert_refused(place: &Place, output: &Output, chip: &[u8]) {
    assert_eq!(output.status.code(), Some(2));
    assert!(output.stdout.is_empty());
    assert_eq!(
        output.stderr.iter().filter(|&&byte| byte == b'\n').count(),
        1
    );
    assert_eq!(place.get("chip"), chip);
    assert_eq!(place.get("answers"), b"as it was");
}

/// What a question for a blank page prints, its status, and whether it complains.
fn told(output: &Output) -> (&str, Option<i32>, bool) {
    let text = std::str::from_utf8(&output.stdout).expect("text");
    (text, output.status.code(), !output.stderr.is_empty())
}

const DEVICES: [(&str, usize, usize, usize); 7] = [
    ("1", 512, 16, 16),
    ("2", 16_384, 64, 64),
    ("3", 131_072, 256, 256),
    ("4", 262_144, 256, 256),
    ("5", 128, 16, 0),
    ("6", 256, 16, 0),
    ("7", 16_384, 64, 0),
];

/// In both forms of a file, on every device: the first page, the next one, the last one, and none.
#[test]
fn play_tells_the_first_blank_page() {
    let place = Place::new("blank");
    for (device, cells, page, identification) in DEVICES {
        for rest in [vec![], [vec![0xFF; identification], vec![0x0C, 0]].concat()] {
            let last = cells / page - 1;
            for (written, expected, status) in [
                (0, "blank 0\n".to_string(), 0),
                (1, "blank 1\n".to_string(), 0),
                (page, "blank 1\n".to_string(), 0),
                (cells - page, format!("blank {last}\n"), 0),
                (cells - page + 1, "blank none\n".to_string(), 1),
                (cells, "blank none\n".to_string(), 1),
            ] {
                let mut chip = vec![0xFF; cells];
                chip[..written].fill(0x00);
                chip.extend(&rest);
                place.put("chip", &chip);
                let before = place.files();
                let output = place.blank(device);
                assert_eq!(told(&output), (expected.as_str(), Some(status), false));
                assert_eq!(place.files(), before);
            }
        }
    }
}

/// One written cell is enough, whichever of the page it is and whatever it holds.
#[test]
fn play_counts_every_cell_of_a_page() {
    let place = Place::new("blank_cells");
    let mut chip = vec![0xFF; 512];
    for page in 0..17 {
        chip[16 * page + page % 16] = [0x00, 0xFE, 0x7F][page % 3];
    }
    place.put("chip", &chip);
    assert_eq!(told(&place.blank("1")), ("blank 17\n", Some(0), false));
}

/// A run and a question after it go by the same file.
#[test]
fn play_tells_the_blank_page_that_a_run_leaves() {
    let place = Place::new("blank_after_run");
    let write = [selection(&[0x06]), selection(&[0x02, 0x0F, 0xA5])].concat();
    place.put_trace(&[write.clone(), vec![Event::Wait(5000)]].concat());
    assert!(line(&place.play("1")).starts_with("end 0 00 "));
    assert_eq!(told(&place.blank("1")), ("blank 1\n", Some(0), false));
    // A cycle that is cut has written nothing.
    fs::remove_file(place.path("chip")).expect("the chip");
    place.put_trace(&write);
    assert!(line(&place.play("1")).starts_with("end 0 03 "));
    assert_eq!(told(&place.blank("1")), ("blank 0\n", Some(0), false));
}

/// A question judges a file as a run does, in the same words, and prints nothing then.
#[test]
fn play_complains_of_a_chip_as_in_a_run() {
    let place = Place::new("blank_bad_chip");
    place.put("answers", b"as it was");
    place.put_trace(&[Event::Power]);
    let long = 512 + 16 + 2;
    let mut wrong_status = vec![0xFF; long];
    wrong_status[long - 2..].copy_from_slice(&[0x80, 0]);
    let mut wrong_lock = vec![0xFF; long];
    wrong_lock[long - 2..].copy_from_slice(&[0, 2]);
    let locked = [vec![0xFF; 128], vec![0, 1]].concat();
    for (device, chip) in [
        ("0", vec![0xFF; 512]),
        ("8", vec![0xFF; 512]),
        ("01", vec![0xFF; 512]),
        ("", vec![0xFF; 512]),
        ("blank", vec![0xFF; 512]),
        ("1", vec![]),
        ("1", vec![0xFF; 511]),
        ("1", vec![0xFF; 513]),
        ("1", vec![0xFF; long + 1]),
        ("2", vec![0xFF; 512]),
        ("1", wrong_status),
        ("1", wrong_lock),
        ("5", locked),
    ] {
        place.put("chip", &chip);
        let before = place.files();
        let output = place.blank(device);
        assert_refused(&place, &output, &chip);
        assert_eq!(output.stderr, place.play(device).stderr, "device {device}");
        assert_eq!(place.files(), before);
    }
}

/// In a run this would be a prepared chip, whose page 0 is blank; here it may be a name that was mistyped.
#[test]
fn play_tells_no_blank_page_of_a_missing_chip() {
    let place = Place::new("blank_missing");
    for (device, ..) in DEVICES {
        let output = place.blank(device);
        assert_eq!(told(&output), ("", Some(2), true));
        let message = String::from_utf8_lossy(&output.stderr);
        assert!(
            message.starts_with("play: cannot read the chip "),
            "{message}"
        );
        assert_eq!(message.lines().count(), 1);
        assert!(place.files().is_empty(), "no file is made");
    }
    fs::create_dir(place.path("chip")).expect("a directory");
    assert_eq!(told(&place.blank("1")), ("", Some(2), true));
}

#[test]
fn play_takes_the_word_blank_with_two_others_alone() {
    let place = Place::new("blank_words");
    place.put("chip", &[0xFF; 512]);
    place.put_trace(&[]);
    let before = place.files();
    let [chip, trace, answers] =
        ["chip", "trace", "answers"].map(|name| place.path(name).display().to_string());
    for words in [
        &["blank"][..],
        &["blank", "1"],
        &["blank", &chip],
        &["Blank", "1", &chip],
        &["blank ", "1", &chip],
        &["--blank", "1", &chip],
        &["1", "blank", &chip],
        &["1", &chip, "blank"],
        &["1", &chip],
        &["1", &chip, &trace],
        &["blank", "1", &chip, &answers],
        &["blank", &chip, &trace, &answers],
        &["blank", "1", &chip, &trace, &answers],
        &[],
    ] {
        let output = play_with(words);
        assert_eq!(told(&output), ("", Some(2), true), "{words:?}");
        assert_eq!(place.files(), before, "{words:?}");
    }
    let output = play_with(&["blank", "1", &chip]);
    assert_eq!(told(&output), ("blank 0\n", Some(0), false));
}
