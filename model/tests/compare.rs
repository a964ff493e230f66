//! `compare` finds nothing where there is nothing and names what there is: it is run against the model's own
//! programs, and against scripts that spoil one byte of what they leave.
#![cfg(unix)]

use std::fs;
use std::path::{Path, PathBuf};
use std::process::{Command, Output};

const PLAY: &str = env!("CARGO_BIN_EXE_play");
const BENCH: &str = env!("CARGO_BIN_EXE_bench");

fn directory(name: &str) -> PathBuf {
    let path = Path::new(env!("CARGO_TARGET_TMPDIR")).join(name);
    let _ = fs::remove_dir_all(&path);
    fs::create_dir_all(&path).expect("a directory");
    path
}

/// A command that runs `lines` as a shell script with the arguments it is given.
fn script(directory: &Path, lines: &str) -> String {
    let path = directory.join("script.sh");
    fs::write(&path, lines).expect("a script");
    format!("sh {}", path.display())
}

fn compare(directory: &Path, play: &str, bench: &str) -> Output {
    Command::new(env!("CARGO_BIN_EXE_compare"))
        .args(["--play", play, "--bench", bench])
        .args(["--records", "120000", "--seed", "3", "--keep"])
        .arg(directory.join("files"))
        .output()
        .expect("compare starts")
}

fn text(output: &Output) -> String {
    String::from_utf8(output.stdout.clone()).expect("text")
}

/// A line of a script that answers questions for a blank page rightly, so that the lines behind it are of runs.
fn right_blanks() -> String {
    format!("test \"$1\" != blank || exec {PLAY} \"$@\"")
}

/// The first line that `compare` prints where `play` is this script.
fn difference_to(directory: &Path, lines: &str) -> String {
    let output = compare(directory, &script(directory, lines), BENCH);
    assert_eq!(output.status.code(), Some(1));
    let text = text(&output);
    text.lines().next().expect("a difference").to_string()
}

/// The same where a run of `play` is followed by a command that spoils what it left.
fn difference(directory: &Path, spoil: &str) -> String {
    let lines = format!("{}\n{PLAY} \"$@\"; {spoil}", right_blanks());
    difference_to(directory, &lines)
}

/// A command that puts a byte, named as `printf` has it, at a place of the file that is this word of `play`'s.
fn spoils(word: usize, place: usize, byte: &str) -> String {
    format!("printf '{byte}' | dd of=\"${word}\" bs=1 seek={place} conv=notrunc 2>/dev/null")
}

fn files(directory: &Path) -> usize {
    fs::read_dir(directory.join("files"))
        .expect("a directory")
        .count()
}

#[test]
fn no_difference_to_itself() {
    let directory = directory("same");
    let output = compare(&directory, PLAY, BENCH);
    let text = text(&output);
    assert!(output.status.success(), "{text}");
    let total = text.lines().last().expect("a total");
    let words: Vec<&str> = total.split_whitespace().collect();
    assert_eq!(words[0], "total");
    assert!(words[2].parse::<usize>().expect("records") >= 120_000);
    assert_eq!(words[3], "0");
    let asked = |name: &str| {
        let mut lines = text.lines();
        let line = lines.find_map(|line| line.strip_prefix(name)).expect(name);
        let words: Vec<usize> = line
            .split_whitespace()
            .map(|word| word.parse().expect("a number"))
            .collect();
        assert_eq!(words[1..], [0, 0], "{name}");
        words[0]
    };
    assert_eq!(asked("blank made"), 12 * 7);
    assert!(asked("blank left") >= 4);
    assert_eq!(files(&directory), 0, "nothing is kept");
}

#[test]
fn a_wrong_answer_is_found() {
    let directory = directory("answer");
    let first = difference(&directory, &spoils(4, 99, "\\003"));
    assert!(first.starts_with("play differs: seed "), "{first}");
    assert!(first.contains("profile commands, device 1: record 100: the model answers "));
    assert!(first.ends_with(", the other 3"), "{first}");
    for name in [
        "trace",
        "chip1",
        "answers",
        "answers-expected",
        "chip-expected",
    ] {
        assert!(
            directory.join("files").join(name).exists(),
            "{name} is kept"
        );
    }
}

#[test]
fn a_wrong_stored_byte_is_found() {
    let directory = directory("stored");
    // The last byte of device 1's chip is the lock; 512 + 16 + 1 bytes come before it.
    let first = difference(&directory, &spoils(2, 529, "\\007"));
    assert!(
        first.contains("device 1: lock: the model stores 0"),
        "{first}"
    );
    assert!(first.ends_with("the other 07"), "{first}");
}

/// The chip of a device without an identification page has no bytes between its cells and its status.
#[test]
fn a_wrong_byte_of_a_chip_without_a_page_is_found() {
    for (place, part) in [(127, "cell 7Fh"), (128, "status"), (129, "lock")] {
        let directory = directory("without_page");
        let spoil = format!("test \"$1\" != 5 || {}", spoils(2, place, "\\007"));
        let first = difference(&directory, &spoil);
        assert!(
            first.contains(&format!("device 5: {part}: the model stores ")),
            "{first}"
        );
    }
}

#[test]
fn a_wrong_line_is_found() {
    let directory = directory("line");
    let bench = script(&directory, &format!("{BENCH} | sed 's/^end /End /'"));
    let output = compare(&directory, PLAY, &bench);
    assert_eq!(output.status.code(), Some(1));
    let text = text(&output);
    let first = text.lines().next().expect("a difference");
    assert!(first.starts_with("bench differs: "), "{first}");
    assert!(first.contains("the model prints \"end "), "{first}");
    assert!(first.contains("the other \"End "), "{first}");
}

#[test]
fn a_named_fault_is_found() {
    let directory = directory("fault");
    for fault in [
        "PageRollsIntoNext",
        "HoldShowsOutput",
        "WriteTimeOneLong",
        "CountOfFileIsBlank",
    ] {
        let play = format!("{} {fault}", env!("CARGO_BIN_EXE_wrong_play"));
        let output = Command::new(env!("CARGO_BIN_EXE_compare"))
            .args(["--play", &play, "--seed", "3", "--keep"])
            .arg(directory.join("files"))
            .output()
            .expect("compare starts");
        assert_eq!(output.status.code(), Some(1), "{fault}");
    }
}

#[test]
fn a_failing_program_is_a_difference() {
    let directory = directory("failing");
    let first = difference_to(&directory, "exit 3");
    assert!(first.starts_with("play blank differs: "), "{first}");
    let first = difference_to(&directory, &format!("{}\nexit 3", right_blanks()));
    assert!(first.starts_with("play differs: "), "{first}");
}

/// The chips that runs leave are asked about too; here only they are answered wrongly.
#[test]
fn a_wrong_blank_page_of_a_left_chip_is_found() {
    let directory = directory("blank_left");
    let wrong = "case \"$1 $3\" in blank*chip4) echo blank 1024; exit 0;; esac";
    let first = difference_to(&directory, &format!("{wrong}\nexec {PLAY} \"$@\""));
    assert!(first.starts_with("play blank differs: seed "), "{first}");
    assert!(first.contains("profile commands, device 4: "), "{first}");
    assert!(first.ends_with("the other \"blank 1024\""), "{first}");
    for (name, is_kept) in [("trace", true), ("chip4", true), ("chip-blank", false)] {
        let path = directory.join("files").join(name);
        assert_eq!(path.exists(), is_kept, "{name}");
    }
}

/// Status and files count as much as the line; `$3` is the chip.
#[test]
fn all_that_a_question_does_is_compared() {
    let directory = directory("blank_status");
    for (lines, chip, told) in [
        (
            "; exit 0",
            "one cell of every page written",
            "the model ends with status 1, the other with exit status: 0",
        ),
        (
            "; s=$?; test $s = 0 && exit 1; exit $s",
            "all pages blank",
            "the model ends with status 0, the other with exit status: 1",
        ),
        (
            "; s=$?; test $s = 2 && exit 1; exit $s",
            "no file",
            "the model ends with status 2, the other with exit status: 1",
        ),
        (
            "; s=$?; printf a >>\"$3\"; exit $s",
            "all pages blank",
            "the other changes the chip's file",
        ),
        (
            "; s=$?; test -e \"$3\" || : >\"$3\"; exit $s",
            "no file",
            "the other changes the chip's file",
        ),
        (
            "; s=$?; test $s = 2 && echo blank 0; exit $s",
            "no file",
            "the model prints \"nothing more\", the other \"blank 0\"",
        ),
        (
            "; s=$?; test $s = 0 && echo; exit $s",
            "all pages blank",
            "the model prints \"nothing more\", the other \"\"",
        ),
    ] {
        let first = difference_to(&directory, &format!("{PLAY} \"$@\" {lines}"));
        let expected = format!("play blank differs: seed 3, chip with {chip}, device 1: {told}");
        assert_eq!(first, expected);
        let kept = directory.join("files").join("chip-blank").exists();
        assert_eq!(kept, chip != "no file" || lines.contains(": >"));
    }
}

/// The faults that `wrong_play` can have in a question for a blank page are all found in the chips made for it.
#[test]
fn every_fault_of_a_blank_page_is_found() {
    let directory = directory("blank_faults");
    let listed = Command::new(env!("CARGO_BIN_EXE_wrong_play"))
        .arg("list")
        .output()
        .expect("wrong_play starts");
    let listed = text(&listed);
    let faults: Vec<&str> = listed
        .lines()
        .filter(|name| name.starts_with("Blank"))
        .collect();
    assert!(faults.len() > 10);
    for fault in faults {
        let play = format!("{} {fault}", env!("CARGO_BIN_EXE_wrong_play"));
        let output = compare(&directory, &play, BENCH);
        let text = text(&output);
        assert_eq!(output.status.code(), Some(1), "{fault}");
        let first = text.lines().next().expect("a difference");
        let made = "play blank differs: seed 3, chip with ";
        assert!(first.starts_with(made), "{fault}: {first}");
    }
}

#[test]
fn bad_use_is_told() {
    for arguments in [&["--play"][..], &["--seed", "x"], &["--odd", "1"], &[]] {
        let output = Command::new(env!("CARGO_BIN_EXE_compare"))
            .args(arguments)
            .output()
            .expect("compare starts");
        assert_eq!(output.status.code(), Some(2));
        assert!(output.stdout.is_empty());
    }
}
