//! Views to compare models by: not drawn by lot but every edge of each argument with every edge of the others, since
//! a view depends on nothing that came before it.

use super::Random;
use crate::calls::Region;
use crate::device::{Device, DEVICES};
use crate::fault::Fault;
use crate::mistakes::view_wrongly;
use crate::number::Number;

/// All that a view is asked with, but the lent bytes themselves.
#[derive(Clone, Copy, Debug, PartialEq, Eq)]
pub struct View {
    pub device: u8,
    pub region: Region,
    /// How many cells are lent.
    pub cells: usize,
    /// How many bytes are lent as the identification page.
    pub identification: usize,
    pub address: usize,
}

impl View {
    /// What the model with `fault` shows, lent the first of these bytes; `view_bytes` has enough for each view.
    pub fn show<'a>(
        &self,
        fault: Fault,
        cells: &'a [u8],
        identification: &'a [u8],
    ) -> (Number, &'a [u8]) {
        view_wrongly(
            fault,
            self.device,
            self.region,
            &cells[..self.cells],
            &identification[..self.identification],
            self.address,
        )
    }
}

/// Numbers of no device.
const NO_DEVICES: [u8; 3] = [0, 8, 255];

/// The views of one device, then some with a number of no device, at its lengths and at none.
pub fn views(device: &Device) -> Vec<View> {
    let (cells, page) = (device.cells, device.page);
    // Among the wrong ones are those of a neighbour in the table, of the slice lent in its place, and of the latch. The
    // right length of the identification page is one of two, and each is wrong where the other is right.
    let cell_counts = [cells, cells - 1, cells + 1, cells / 2, 2 * cells, page, 0];
    let page_lengths = [page, page - 1, page + 1, 2 * page, cells, 1, 0];
    let addresses = [
        0,
        1,
        page - 1,
        page,
        cells - page - 1,
        cells - page,
        cells - 1,
        cells,
        cells + 1,
        // A single bit so high that a narrower number loses it and is left with 0.
        usize::MAX / 2 + 1,
        usize::MAX,
    ];
    let mut views = combined(device.number, &cell_counts, &page_lengths, &addresses);
    for number in NO_DEVICES {
        views.extend(combined(number, &[cells, 0], &[page, 0], &[0, cells]));
    }
    views
}

/// Both regions with each choice of the rest.
fn combined(
    device: u8,
    cell_counts: &[usize],
    page_lengths: &[usize],
    addresses: &[usize],
) -> Vec<View> {
    let mut views = Vec::new();
    for region in [Region::Cells, Region::Identification] {
        for &cells in cell_counts {
            for &identification in page_lengths {
                views.extend(addresses.iter().map(|&address| View {
                    device,
                    region,
                    cells,
                    identification,
                    address,
                }));
            }
        }
    }
    views
}

/// Bytes to lend as cells and as identification page, as many as the longest slices of any view, and such that no
/// two pages of the two are alike.
pub fn view_bytes() -> (Vec<u8>, Vec<u8>) {
    let most = DEVICES.iter().map(|device| 2 * device.cells).max();
    let mut random = Random::new(0);
    let mut bytes = || (0..most.unwrap_or(0)).map(|_| random.byte()).collect();
    (bytes(), bytes())
}
