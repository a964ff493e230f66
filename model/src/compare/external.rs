//! Other programs, and the files they are given.

use std::fs::{self, File};
use std::io::{self, ErrorKind};
use std::path::{Path, PathBuf};
use std::process::{Command, ExitStatus, Output, Stdio};

use crate::device::{Device, DEVICES};

/// A command, split at spaces.
#[derive(Clone)]
pub(super) struct Program {
    words: Vec<String>,
}

/// What a `play` left.
pub(super) struct Given {
    pub text: String,
    pub answers: Vec<u8>,
    pub chip: Vec<u8>,
}

/// What came of asking for a blank page.
pub(super) struct Said {
    pub text: String,
    pub status: ExitStatus,
    /// The file afterwards, none where there is none.
    pub chip: Option<Vec<u8>>,
}

impl Program {
    pub fn new(command: &str) -> Program {
        Program {
            words: command.split_whitespace().map(String::from).collect(),
        }
    }

    fn command(&self) -> io::Result<Command> {
        let (first, rest) = self
            .words
            .split_first()
            .ok_or_else(|| io::Error::new(ErrorKind::InvalidInput, "an empty command"))?;
        let mut command = Command::new(first);
        command.args(rest);
        Ok(command)
    }

    /// Runs `play` on the trace and the device's chip.
    pub fn play(&self, device: &Device, files: &Files) -> io::Result<Given> {
        files.remove("answers")?;
        let chip = super::chip_name(device);
        let output = self
            .command()?
            .arg(device.number.to_string())
            .args([
                files.path(&chip),
                files.path("trace"),
                files.path("answers"),
            ])
            .output()?;
        Ok(Given {
            text: text(&output),
            answers: files.read_or_empty("answers")?,
            chip: files.read_or_empty(&chip)?,
        })
    }

    /// Asks `play` for the first blank page of the chip in this file.
    pub fn blank(&self, device: &Device, chip: &str, files: &Files) -> io::Result<Said> {
        let output = self
            .command()?
            .args(["blank", &device.number.to_string()])
            .arg(files.path(chip))
            .output()?;
        Ok(Said {
            text: String::from_utf8_lossy(&output.stdout).into_owned(),
            status: output.status,
            chip: files.read(chip)?,
        })
    }

    /// Runs `bench` with the trace as standard input.
    pub fn bench(&self, files: &Files) -> io::Result<String> {
        let input = File::open(files.path("trace"))?;
        let output = self.command()?.stdin(Stdio::from(input)).output()?;
        Ok(text(&output))
    }
}

/// Standard output; a program that failed adds how, which then shows as a difference. A status of 1 is no failure: it
/// says that a record was refused, as the last line does.
fn text(output: &Output) -> String {
    let mut text = String::from_utf8_lossy(&output.stdout).into_owned();
    if !matches!(output.status.code(), Some(0 | 1)) {
        text.push_str(&format!("failed with {}: ", output.status));
        text.push_str(&String::from_utf8_lossy(&output.stderr));
    }
    text
}

/// The directory of the files; those of a difference stay.
pub(super) struct Files {
    directory: PathBuf,
    kept: bool,
}

impl Files {
    /// Files that an earlier comparison kept are taken away, so that none is mistaken for one of this comparison.
    pub fn new(directory: &Path) -> io::Result<Files> {
        fs::create_dir_all(directory)?;
        let files = Files {
            directory: directory.to_path_buf(),
            kept: false,
        };
        files.clear()?;
        Ok(files)
    }

    pub fn path(&self, name: &str) -> PathBuf {
        self.directory.join(name)
    }

    pub fn write(&self, name: &str, bytes: &[u8]) -> io::Result<()> {
        fs::write(self.path(name), bytes)
    }

    pub fn copy(&self, from: &str, to: &str) -> io::Result<()> {
        fs::copy(self.path(from), self.path(to)).map(drop)
    }

    /// None where there is no such file.
    fn read(&self, name: &str) -> io::Result<Option<Vec<u8>>> {
        match fs::read(self.path(name)) {
            Err(error) if error.kind() == ErrorKind::NotFound => Ok(None),
            read => read.map(Some),
        }
    }

    /// A file that a program did not make counts as an empty one.
    fn read_or_empty(&self, name: &str) -> io::Result<Vec<u8>> {
        Ok(self.read(name)?.unwrap_or_default())
    }

    pub fn remove(&self, name: &str) -> io::Result<()> {
        match fs::remove_file(self.path(name)) {
            Err(error) if error.kind() == ErrorKind::NotFound => Ok(()),
            removed => removed,
        }
    }

    /// Keeps what is there now.
    pub fn keep(&mut self) {
        self.kept = true;
    }

    /// Takes away what is not to be kept.
    pub fn clear(&self) -> io::Result<()> {
        if self.kept {
            return Ok(());
        }
        for device in &DEVICES {
            self.remove(&super::chip_name(device))?;
        }
        for name in [
            "chip-blank",
            "chip-before",
            "chip-expected",
            "trace",
            "answers",
            "answers-expected",
        ] {
            self.remove(name)?;
        }
        Ok(())
    }
}
