//! Vectors to keep in files: a trace from a prepared device with all that it must give, so that another
//! implementation can be held against them without this model at hand.
//!
//! A file is a row of vectors without anything between them. All numbers are little-endian. A vector is:
//!
//! | bytes | what |
//! |---|---|
//! | 1 | device |
//! | 1 | number given back |
//! | 1 | byte that RDSR would send at the end |
//! | 1 | lock at the end, 0 or 1 |
//! | 4 | bytes of the trace |
//! | 4 | records done |
//! | 4 | bytes taken |
//! | 4 | N, cells that are not FFh at the end |
//! | 4 | K, identification bytes that are not those of a prepared device at the end |
//! | | the trace |
//! | 1 each | an answer (0, 1 or 2) for each record done |
//! | 5 each | N times the address of a cell in 4 bytes and its value |
//! | 5 each | K times the place of an identification byte in 4 bytes and its value |
//!
//! The trace starts from a prepared device. The limit and the room for answers are the bytes of the trace, which is
//! more than it has records, so neither ends a run.

use crate::contents::{play_wrongly, Contents};
use crate::device::{device, Device};
use crate::fault::Fault;

/// One vector. Two are equal exactly if their bytes are.
#[derive(Clone, Debug, PartialEq, Eq)]
pub struct Vector {
    pub device: u8,
    pub number: u8,
    pub status_byte: u8,
    pub locked: u8,
    pub taken: u32,
    pub trace: Vec<u8>,
    /// One byte for each record done.
    pub answers: Vec<u8>,
    /// Address and value of each cell that is not FFh.
    pub cells: Vec<(u32, u8)>,
    /// Place and value of each identification byte that is not that of a prepared device.
    pub identification: Vec<(u32, u8)>,
}

impl Vector {
    /// What the model with `fault` makes of a trace.
    pub fn of(fault: Fault, device: &Device, trace: &[u8]) -> Vector {
        let mut contents = Contents::prepared_wrongly(fault, device);
        let (room, limit) = (trace.len(), trace.len());
        let played = play_wrongly(fault, device, &mut contents, trace, room, limit);
        let prepared = Contents::prepared(device);
        Vector {
            device: device.number,
            number: played.ran.number as u8,
            status_byte: played.status_byte,
            locked: contents.locked.into(),
            taken: played.ran.taken as u32,
            trace: trace.to_vec(),
            answers: played.answers,
            cells: differing(&contents.cells, &prepared.cells),
            identification: differing(&contents.identification, &prepared.identification),
        }
    }

    /// Whether the model with `fault` gives anything else than this vector says.
    pub fn notices(&self, fault: Fault) -> bool {
        device(self.device).is_none_or(|row| Vector::of(fault, row, &self.trace) != *self)
    }

    /// Appends the vector to a file.
    pub fn append_to(&self, file: &mut Vec<u8>) {
        file.extend([self.device, self.number, self.status_byte, self.locked]);
        let counts = [
            self.trace.len() as u32,
            self.answers.len() as u32,
            self.taken,
            self.cells.len() as u32,
            self.identification.len() as u32,
        ];
        for count in counts {
            file.extend(count.to_le_bytes());
        }
        file.extend_from_slice(&self.trace);
        file.extend_from_slice(&self.answers);
        for &(address, value) in self.cells.iter().chain(&self.identification) {
            file.extend(address.to_le_bytes());
            file.push(value);
        }
    }

    /// All vectors of a file, or none if it ends within one.
    pub fn read_all(mut file: &[u8]) -> Option<Vec<Vector>> {
        let mut vectors = Vec::new();
        while !file.is_empty() {
            vectors.push(Vector::read(&mut file)?);
        }
        Some(vectors)
    }

    fn read(file: &mut &[u8]) -> Option<Vector> {
        let &[device, number, status_byte, locked] = file.split_off(..4)? else {
            return None;
        };
        let trace = read_number(file)?;
        let done = read_number(file)?;
        let taken = read_number(file)?;
        let cells = read_number(file)?;
        let identification = read_number(file)?;
        Some(Vector {
            device,
            number,
            status_byte,
            locked,
            taken,
            trace: file.split_off(..trace as usize)?.to_vec(),
            answers: file.split_off(..done as usize)?.to_vec(),
            cells: read_bytes(file, cells)?,
            identification: read_bytes(file, identification)?,
        })
    }
}

/// Where and with what value `bytes` differ from `prepared`.
fn differing(bytes: &[u8], prepared: &[u8]) -> Vec<(u32, u8)> {
    let pairs = bytes.iter().zip(prepared).zip(0..);
    pairs
        .filter(|((byte, before), _)| byte != before)
        .map(|((&byte, _), place)| (place, byte))
        .collect()
}

fn read_number(file: &mut &[u8]) -> Option<u32> {
    let bytes = file.split_off(..4)?;
    bytes.try_into().ok().map(u32::from_le_bytes)
}

/// `count` times an address and a value.
fn read_bytes(file: &mut &[u8], count: u32) -> Option<Vec<(u32, u8)>> {
    (0..count)
        .map(|_| {
            let address = read_number(file)?;
            let value = *file.split_off_first()?;
            Some((address, value))
        })
        .collect()
}
