//! Questions for the first blank page, put to the other `play`.

use std::io;

use super::external::{Program, Said};
use super::{chip_name, text_difference, Comparison, Run};
use crate::device::{Device, DEVICES};
use crate::files::{tell_blank, Told};
use crate::generate::{blank_chips, BlankChip, Random};
use crate::{Contents, Fault};

/// The file of a chip that is made to be asked about.
const CHIP: &str = "chip-blank";

impl Comparison {
    /// Asks about the chip that a run left, once no difference was found in the run itself.
    pub(super) fn ask_about_left(&mut self, program: &Program, run: &Run) -> io::Result<()> {
        if self.outcome.difference.is_some() {
            return Ok(());
        }
        let device = run.device;
        let chip = &self.chains[usize::from(device.number) - 1].contents;
        let bytes = chip.to_bytes();
        let difference = self.ask(program, device, &chip_name(device), Some(&bytes))?;
        self.outcome.blank_left.add(0, &difference);
        let program = "play blank";
        self.keep(self.place(&Run { program, ..*run }), difference);
        Ok(())
    }

    /// Asks about chips made for this. Their random numbers are their own, so that a seed goes on giving the traces that
    /// it gave before there were such questions.
    pub(super) fn ask_about_made(&mut self) -> io::Result<()> {
        let Some(program) = self.play.clone() else {
            return Ok(());
        };
        let mut random = Random::new(self.seed);
        for device in &DEVICES {
            for chip in blank_chips(device, &mut random) {
                self.ask_about(&program, device, &chip)?;
                if self.outcome.difference.is_some() {
                    return Ok(());
                }
            }
        }
        self.files.remove(CHIP)
    }

    fn ask_about(
        &mut self,
        program: &Program,
        device: &Device,
        chip: &BlankChip,
    ) -> io::Result<()> {
        self.files.remove(CHIP)?;
        if let Some(bytes) = &chip.bytes {
            self.files.write(CHIP, bytes)?;
        }
        let difference = self.ask(program, device, CHIP, chip.bytes.as_deref())?;
        self.outcome.blank_made.add(0, &difference);
        let (what, number) = (chip.what, device.number);
        let place = format!(
            "play blank differs: seed {}, chip with {what}, device {number}",
            self.seed
        );
        self.keep(place, difference);
        Ok(())
    }

    /// What differs about the chip in the file `name`, which has these bytes or is missing.
    fn ask(
        &self,
        program: &Program,
        device: &Device,
        name: &str,
        bytes: Option<&[u8]>,
    ) -> io::Result<Option<String>> {
        let said = program.blank(device, name, &self.files)?;
        Ok(difference(&expected(device, bytes), bytes, &said))
    }
}

/// What the model tells; nothing is printed about a file that it does not take.
fn expected(device: &Device, bytes: Option<&[u8]>) -> Told {
    let contents = bytes.and_then(|bytes| Contents::from_bytes(device, bytes).ok());
    let told = contents.and_then(|contents| tell_blank(Fault::None, device, &contents).ok());
    told.unwrap_or(Told {
        line: String::new(),
        status: 2,
    })
}

/// The words of a complaint are not compared. The file must be as it was, or still missing.
fn difference(expected: &Told, bytes: Option<&[u8]>, said: &Said) -> Option<String> {
    if let Some(difference) = text_difference(&expected.line, &said.text) {
        return Some(difference);
    }
    if said.status.code() != Some(expected.status.into()) {
        return Some(format!(
            "the model ends with status {}, the other with {}",
            expected.status, said.status
        ));
    }
    (bytes != said.chip.as_deref()).then(|| "the other changes the chip's file".into())
}
