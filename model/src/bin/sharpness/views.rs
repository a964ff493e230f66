//! The faults of a view, which no trace shows: the views of all devices are asked instead.

use m95_model::generate::{view_bytes, views, View};
use m95_model::{Fault, DEVICES};

/// The chosen views and the bytes that they are lent.
pub struct Views {
    views: Vec<View>,
    cells: Vec<u8>,
    identification: Vec<u8>,
}

impl Views {
    pub fn new() -> Views {
        let (cells, identification) = view_bytes();
        Views {
            views: DEVICES.iter().flat_map(views).collect(),
            cells,
            identification,
        }
    }

    /// Prints the line of one fault; false when it was missed.
    pub fn show(&self, fault: Fault) -> bool {
        let differences: Vec<_> = self
            .views
            .iter()
            .filter_map(|view| self.difference(fault, view))
            .collect();
        let first = differences.first().map(|(view, by)| {
            let device = view.device.to_string();
            (device, *by)
        });
        super::show_without_trace(fault, "view", first, differences.len())
    }

    fn difference(&self, fault: Fault, view: &View) -> Option<(View, &'static str)> {
        let right = view.show(Fault::None, &self.cells, &self.identification);
        let wrong = view.show(fault, &self.cells, &self.identification);
        let by = match right.0 == wrong.0 {
            false => "number",
            true if right.1 != wrong.1 => "part",
            true => return None,
        };
        Some((*view, by))
    }
}
