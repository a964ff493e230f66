//! What a chip keeps without its board: the contents that `play` reads from and writes to a file, and one run of a
//! trace over them.

use crate::calls::{lend, load, prepare, stored, Ran};
use crate::device::Device;
use crate::fault::Fault;
use crate::generate::Random;
use crate::mistakes::{self, run_wrongly, stored_wrongly};
use crate::number::Number;
use crate::state::status_byte;

/// Fills the room for answers; no answer has this value.
const UNTOUCHED: u8 = 0xEE;

/// The stored contents of one chip.
#[derive(Clone, Debug, PartialEq, Eq)]
pub struct Contents {
    pub cells: Vec<u8>,
    pub identification: Vec<u8>,
    pub status: u8,
    pub locked: bool,
}

impl Contents {
    /// The contents of a prepared chip.
    pub fn prepared(device: &Device) -> Contents {
        let mut cells = vec![0; device.cells];
        let mut identification = vec![0; device.identification];
        let mut latch = vec![0; 2 * device.page];
        let mut counts = vec![0; device.pages()];
        let (_, state) = prepare(
            device.number,
            &mut cells,
            &mut identification,
            &mut latch,
            &mut counts,
        );
        let (status, lock) = stored(&state);
        Contents {
            cells,
            identification,
            status,
            locked: lock == 1,
        }
    }

    /// `prepared`, with a mistake.
    pub fn prepared_wrongly(fault: Fault, device: &Device) -> Contents {
        let mut contents = Contents::prepared(device);
        mistakes::prepared(fault, device, &mut contents.identification);
        contents
    }

    /// Any contents that the device can have, but the lock as asked for where there is something to lock.
    pub fn random(device: &Device, random: &mut Random, locked: bool) -> Contents {
        let mut contents = Contents::prepared(device);
        for byte in contents
            .cells
            .iter_mut()
            .chain(&mut contents.identification)
        {
            *byte = random.byte();
        }
        contents.status = random.byte() & device.status_bits();
        contents.locked = locked && device.has_identification();
        contents
    }

    /// Reads the long form (cells, identification page, status bits, lock) or a raw image of the cells.
    pub fn from_bytes(device: &Device, bytes: &[u8]) -> Result<Contents, String> {
        let mut contents = Contents::prepared(device);
        let long = device.cells + device.identification + 2;
        if bytes.len() != device.cells && bytes.len() != long {
            return Err(format!(
                "chip has {} bytes, device {} needs {} or {}",
                bytes.len(),
                device.number,
                long,
                device.cells
            ));
        }
        let (cells, rest) = bytes.split_at(device.cells);
        contents.cells.copy_from_slice(cells);
        if rest.is_empty() {
            return Ok(contents);
        }
        let (identification, bits) = rest.split_at(device.identification);
        contents.identification.copy_from_slice(identification);
        let (status, lock) = (bits[0], bits[1]);
        judge_kept(device, status, lock)?;
        contents.keep((status, lock));
        Ok(contents)
    }

    /// Takes over status bits and lock in the form that `stored` gives.
    fn keep(&mut self, (status, lock): (u8, u8)) {
        self.status = status;
        self.locked = lock == 1;
    }

    /// The long form.
    pub fn to_bytes(&self) -> Vec<u8> {
        let mut bytes = self.cells.clone();
        bytes.extend_from_slice(&self.identification);
        bytes.extend_from_slice(&[self.status, u8::from(self.locked)]);
        bytes
    }
}

/// Says which of the two bytes `load` refuses: its number is the same for both, but whoever mends a file must know. With
/// a lock that is right only the status bits can be wrong.
fn judge_kept(device: &Device, status: u8, lock: u8) -> Result<(), String> {
    let number = device.number;
    if load(number, status, 0).0 != Number::Done {
        return Err(format!(
            "status {status:02X} has bits that device {number} has not"
        ));
    }
    if load(number, status, lock).0 != Number::Done {
        let locks = match device.has_identification() {
            true => "0 or 1",
            false => "0",
        };
        return Err(format!("lock is {lock}, not {locks}"));
    }
    Ok(())
}

/// What one run of a trace gave.
#[derive(Clone, Debug, PartialEq, Eq)]
pub struct Played {
    pub ran: Ran,
    /// The byte RDSR would send at the end.
    pub status_byte: u8,
    /// One byte for each record done.
    pub answers: Vec<u8>,
    /// Whether the room for more answers is as it was.
    pub rest_untouched: bool,
    /// The latch at the end, data and marks; a chip's file does not keep it.
    pub latch: Vec<u8>,
    /// The counts at the end; a chip's file does not keep them either.
    pub counts: Vec<u16>,
}

impl Played {
    /// The line that `play` prints.
    pub fn line(&self) -> String {
        format!(
            "end {} {:02X} records {} bytes {}\n",
            self.ran.number as u8, self.status_byte, self.ran.done, self.ran.taken
        )
    }
}

/// Runs a whole trace over a chip's contents, at rest. A cycle that still runs at the end is lost, its change has not
/// come.
pub fn play(device: &Device, contents: &mut Contents, trace: &[u8]) -> Played {
    play_wrongly(Fault::None, device, contents, trace, usize::MAX, usize::MAX)
}

/// `play` with a mistake, with room for no more than `room` answers and at most `limit` records.
pub fn play_wrongly(
    fault: Fault,
    device: &Device,
    contents: &mut Contents,
    trace: &[u8],
    room: usize,
    limit: usize,
) -> Played {
    let (loaded, mut state) = load(device.number, contents.status, contents.locked.into());
    let mut latch = vec![0; 2 * device.page];
    let mut counts = mistakes::file_counts(fault, device, &contents.cells);
    let mut answers = vec![UNTOUCHED; room.min(most_records(trace))];
    let ran = match lend(
        device.number,
        &mut state,
        &mut contents.cells,
        &mut contents.identification,
        &mut latch,
        &mut counts,
    ) {
        Ok(chip) if loaded == Number::Done => run_wrongly(fault, chip, trace, &mut answers, limit),
        Ok(_) => Ran::refused(loaded),
        Err(number) => Ran::refused(number),
    };
    // Contents that were refused stay as they are; the state is another chip's then.
    if loaded == Number::Done {
        contents.keep(stored_wrongly(fault, &state));
    }
    let rest_untouched = answers[ran.done..].iter().all(|&byte| byte == UNTOUCHED);
    answers.truncate(ran.done);
    Played {
        ran,
        status_byte: status_byte(&state),
        answers,
        rest_untouched,
        latch,
        counts,
    }
}

/// No record is shorter than its head, so no trace has more records than this; one more keeps room for a refused
/// one.
fn most_records(trace: &[u8]) -> usize {
    trace.len() / crate::trace::HEAD + 1
}
