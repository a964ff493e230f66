//! Mistakes of a view (document 02, W-201 and W-202): the right one asked for something else, or its answer changed.

use crate::calls::{view, Region};
use crate::device::{device, Device};
use crate::fault::Fault;
use crate::number::Number;

/// `view`, with a mistake.
pub fn view_wrongly<'a>(
    fault: Fault,
    number: u8,
    region: Region,
    cells: &'a [u8],
    identification: &'a [u8],
    address: usize,
) -> (Number, &'a [u8]) {
    let asked = Asked {
        number,
        region,
        cells,
        identification,
        address,
    };
    let right = asked.right();
    match (fault, device(number)) {
        (Fault::ViewRefusalShowsPart, _) if right.0 != Number::Done => (right.0, asked.slice()),
        (_, Some(row)) => match asked.judged_wrongly(fault, row) {
            Some(number) => (number, &[]),
            None => asked.shown_wrongly(fault, row),
        },
        (_, None) => right,
    }
}

/// What a view is asked with.
#[derive(Clone, Copy)]
struct Asked<'a> {
    number: u8,
    region: Region,
    cells: &'a [u8],
    identification: &'a [u8],
    address: usize,
}

impl<'a> Asked<'a> {
    fn right(self) -> (Number, &'a [u8]) {
        view(
            self.number,
            self.region,
            self.cells,
            self.identification,
            self.address,
        )
    }

    /// The slice that was asked for, whole.
    fn slice(self) -> &'a [u8] {
        match self.region {
            Region::Cells => self.cells,
            Region::Identification => self.identification,
        }
    }

    /// The number that a wrong order of the tests gives, or a test that is not due.
    fn judged_wrongly(self, fault: Fault, row: &Device) -> Option<Number> {
        let cells_wrong = self.cells.len() != row.cells;
        let page_wrong = self.identification.len() != row.identification;
        let past = self.address >= row.cells;
        match (fault, self.region) {
            (Fault::ViewThreeBeforeTwo, _)
            | (Fault::ViewAskedJudgedFirst, Region::Identification)
                if page_wrong =>
            {
                Some(Number::Identification)
            }
            (Fault::ViewThirteenBeforeTwo, Region::Cells) if past => Some(Number::Address),
            (Fault::ViewThirteenBeforeThree, Region::Cells) if past && !cells_wrong => {
                Some(Number::Address)
            }
            (Fault::ViewAddressAlwaysJudged, _) if past && !cells_wrong && !page_wrong => {
                Some(Number::Address)
            }
            _ => None,
        }
    }

    /// The mistakes about what is shown, and about whether anything is.
    fn shown_wrongly(self, fault: Fault, row: &Device) -> (Number, &'a [u8]) {
        let right = self.right();
        match (fault, self.region, right.0) {
            (Fault::ViewUnaskedUnchecked, _, _) => self.unasked_unchecked(row),
            (Fault::ViewRegionsSwapped, _, _) => self.swapped().right(),
            (Fault::ViewAddressWraps, _, _) => {
                let address = self.address % row.cells;
                Asked { address, ..self }.right()
            }
            (Fault::ViewCountIsAddress, _, Number::Address) if self.address == row.cells => {
                (Number::Done, &[])
            }
            (Fault::ViewStartsAtAddress, Region::Cells, Number::Done) => {
                let end = row.cells.min(self.address + row.page);
                (Number::Done, &self.cells[self.address..end])
            }
            (Fault::ViewShowsAllCells, Region::Cells, Number::Done) => (Number::Done, self.cells),
            (Fault::ViewIdentificationFromAddress, Region::Identification, Number::Done) => {
                let place = self.address.checked_rem(row.identification);
                (Number::Done, &self.identification[place.unwrap_or(0)..])
            }
            _ if !row.has_identification() => self.shown_without_page(fault, row),
            _ => right,
        }
    }

    /// The mistakes of devices without an identification page (document 02, W-202).
    fn shown_without_page(self, fault: Fault, row: &Device) -> (Number, &'a [u8]) {
        let right = self.right();
        match (fault, self.region, right.0) {
            (Fault::ViewSmallerUnknown, _, _) => (Number::Device, &[]),
            (Fault::ViewSmallerAsksForPage, _, Number::Done | Number::Address) => {
                (Number::Identification, &[])
            }
            (Fault::ViewSmallerAsksForPage, _, Number::Identification)
                if self.identification.len() == row.page =>
            {
                self.of_any_length()
            }
            (Fault::ViewSmallerTakesAnyLength, _, Number::Identification) => self.of_any_length(),
            (Fault::ViewSmallerIsRefused, Region::Identification, Number::Done) => {
                (Number::Identification, &[])
            }
            (Fault::ViewSmallerShowsCells, Region::Identification, Number::Done) => {
                (Number::Done, &self.cells[..row.page])
            }
            _ => right,
        }
    }

    /// A view of a device without an identification page that takes the bytes lent for one, as many as there are.
    fn of_any_length(self) -> (Number, &'a [u8]) {
        let without = Asked {
            identification: &[],
            ..self
        };
        match self.region {
            Region::Cells => without.right(),
            Region::Identification => (without.right().0, self.identification),
        }
    }

    /// Each region judged by its own slice alone, as if it still had a call to itself.
    fn unasked_unchecked(self, row: &Device) -> (Number, &'a [u8]) {
        let right = self.right();
        match (self.region, right.0) {
            // The cells have passed, so the right view can be lent some of them for the slice that it refused.
            (Region::Cells, Number::Identification) => {
                let identification = &self.cells[..row.identification];
                Asked {
                    identification,
                    ..self
                }
                .right()
            }
            (Region::Identification, Number::Cells)
                if self.identification.len() == row.identification =>
            {
                (Number::Done, self.identification)
            }
            (Region::Identification, Number::Cells) => (Number::Identification, &[]),
            _ => right,
        }
    }

    fn swapped(self) -> Asked<'a> {
        let region = match self.region {
            Region::Cells => Region::Identification,
            Region::Identification => Region::Cells,
        };
        Asked { region, ..self }
    }
}
