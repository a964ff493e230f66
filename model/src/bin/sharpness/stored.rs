//! `sharpness --stored DIR`: which faults the vectors that `store` wrote notice.

use std::fs;
use std::path::Path;

use m95_model::generate::Profile;
use m95_model::{Fault, Vector};

const LATCH: &str = "only the latch shows it, which a vector does not hold";
const BITS: &str = "only the stored bits show it, which a vector does not hold";
const ROOM: &str = "only a full room for answers shows it, which a vector never has";
const BEYOND: &str =
    "only the answer room past the last answer shows it, which a vector does not hold";
const LIMIT: &str = "only the limit shows it, which a vector never reaches";
const VIEW: &str = "only a view shows it, which a vector does not hold";
const STATE: &str = "only a state that no trace reaches shows it, which a vector does not hold";
const LOAD: &str = "only a load shows it, which a vector does not start with";
const COUNTS: &str =
    "only the counts or a second write to a page show it, and a vector has neither";
const FILE: &str =
    "only cells that a chip's file brings show it, which a vector does not start with";
const WRONG: &str = "only a wrong count shows it, which a vector does not start with";
const LENT: &str = "only preparing or the counts' length shows it, which a vector does not hold";
const BLANK: &str = "only a search for a blank page shows it, which a vector does not hold";
const BENCH: &str = "only the bench program shows it, which a vector does not run";

/// Faults that no vector can notice, and why.
const UNNOTICED: [(Fault, &str); 22] = [
    (Fault::CycleEndClearsMarks, LATCH),
    (Fault::MarksClearedOnlyWithWel, LATCH),
    (Fault::LatchDataCleared, LATCH),
    (Fault::LatchedOnlyWithWel, LATCH),
    (Fault::LidByteLatched, LATCH),
    (Fault::SmallerWridClearsMarks, LATCH),
    (Fault::SmallerWridLatches, LATCH),
    (Fault::RoomJudgedBeforePin, ROOM),
    (Fault::PowerJudgedBeforeRoom, ROOM),
    (Fault::RefusalWritesAnswer, BEYOND),
    (Fault::LookPastLimit, LIMIT),
    (Fault::StoredBitsWithWel, BITS),
    (Fault::StoredBitsAreNew, BITS),
    (Fault::CountInByte, COUNTS),
    (Fault::CountSkipsZero, COUNTS),
    (Fault::CountLeftAtCycleEnd, COUNTS),
    (Fault::CountAddsMarkedBytes, COUNTS),
    (Fault::CountSetAtSelectRise, COUNTS),
    (Fault::CountSetByIdentificationCycle, COUNTS),
    (Fault::CountClearedByPower, COUNTS),
    (Fault::CountLeftByHeldWrite, COUNTS),
    (Fault::CountOfFileIsBlank, FILE),
];

/// Prints the table and gives the number of faults that were missed without a reason, or what is wrong with the
/// files.
pub fn show(directory: &str) -> Result<usize, String> {
    let files = read(Path::new(directory))?;
    let vectors: usize = files.iter().map(|(_, vectors)| vectors.len()).sum();
    println!("{} faults, {vectors} vectors", Fault::ALL.len());
    println!(
        "{:<32} {:<10} {:>6} {:>6} {:>8}  meaning",
        "fault", "profile", "device", "index", "vectors"
    );
    let (elsewhere, of_traces): (Vec<Fault>, Vec<Fault>) = Fault::ALL
        .iter()
        .partition(|fault| elsewhere(**fault).is_some());
    let unnoticed: Vec<Fault> = of_traces
        .into_iter()
        .filter(|fault| !show_noticed(*fault, &files))
        .collect();
    let without_reason = unnoticed
        .iter()
        .filter(|fault| reason(**fault).is_none())
        .count();
    println!(
        "{} faults noticed, {} not:",
        Fault::ALL.len() - unnoticed.len() - elsewhere.len(),
        unnoticed.len() + elsewhere.len()
    );
    for fault in unnoticed.iter().chain(&elsewhere) {
        let why = reason(*fault).unwrap_or("no reason is known");
        println!("{:<32} {why}  ({})", format!("{fault:?}"), fault.meaning());
    }
    println!("{without_reason} faults not noticed without a reason");
    Ok(without_reason)
}

fn reason(fault: Fault) -> Option<&'static str> {
    let mut all = UNNOTICED.iter().chain(&super::UNSEEN);
    all.find(|(unnoticed, _)| *unnoticed == fault)
        .map(|(_, why)| *why)
        .or(elsewhere(fault))
}

/// The reason for the faults of all that is not a trace.
fn elsewhere(fault: Fault) -> Option<&'static str> {
    match fault {
        _ if fault.is_of_bench() => Some(BENCH),
        _ if fault.is_of_view() => Some(VIEW),
        _ if fault.is_of_state() => Some(STATE),
        _ if fault.is_of_load() => Some(LOAD),
        _ if fault.is_of_wrong_count() => Some(WRONG),
        _ if fault.is_of_lent() => Some(LENT),
        _ if fault.is_of_blank() => Some(BLANK),
        _ => None,
    }
}

/// The vectors of each profile. Each must be what the right model gives, or it would seem to notice everything.
fn read(directory: &Path) -> Result<Vec<(Profile, Vec<Vector>)>, String> {
    let mut files = Vec::new();
    for &profile in Profile::STORED {
        let path = directory.join(profile.name());
        let bytes = fs::read(&path).map_err(|error| format!("{}: {error}", path.display()))?;
        let vectors = Vector::read_all(&bytes)
            .ok_or(format!("{}: it ends within a vector", path.display()))?;
        if let Some(index) = vectors.iter().position(|one| one.notices(Fault::None)) {
            let path = path.display();
            return Err(format!(
                "{path}: the right model differs from vector {index}"
            ));
        }
        files.push((profile, vectors));
    }
    Ok(files)
}

/// Prints the line of a fault that is noticed; false when it is not.
fn show_noticed(fault: Fault, files: &[(Profile, Vec<Vector>)]) -> bool {
    let mut first = None;
    let mut noticed = 0;
    for (profile, vectors) in files {
        for (index, vector) in vectors.iter().enumerate() {
            if vector.notices(fault) {
                noticed += 1;
                first = first.or(Some((profile.name(), vector.device, index)));
            }
        }
    }
    let Some((profile, device, index)) = first else {
        return false;
    };
    let (name, meaning) = (format!("{fault:?}"), fault.meaning());
    println!("{name:<32} {profile:<10} {device:>6} {index:>6} {noticed:>8}  {meaning}");
    true
}
