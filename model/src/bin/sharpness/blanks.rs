//! The faults of looking for a blank page, which no trace shows: the questions of all devices are asked instead.

use m95_model::generate::{blanks, Blank};
use m95_model::{Fault, DEVICES};

/// The chosen questions.
pub struct Blanks {
    blanks: Vec<Blank>,
}

impl Blanks {
    pub fn new() -> Blanks {
        Blanks {
            blanks: DEVICES.iter().flat_map(blanks).collect(),
        }
    }

    /// Prints the line of one fault; false when it was missed.
    pub fn show(&self, fault: Fault) -> bool {
        let differing = |blank: &Blank| Some((blank.device.to_string(), difference(fault, blank)?));
        let differences: Vec<_> = self.blanks.iter().filter_map(differing).collect();
        let first = differences.first().cloned();
        super::show_without_trace(fault, "blank", first, differences.len())
    }
}

fn difference(fault: Fault, blank: &Blank) -> Option<&'static str> {
    let (right, wrong) = (blank.ask(Fault::None), blank.ask(fault));
    match right.0 == wrong.0 {
        false => Some("number"),
        true if right.1 != wrong.1 => Some("page"),
        true => None,
    }
}
