//! Questions for the first blank page (document 02, W-205): counts to look through, chosen as views are, and files of
//! chips for a program that counts them itself.

use super::Random;
use crate::contents::Contents;
use crate::device::{Device, DEVICES, SRWD};
use crate::fault::Fault;
use crate::mistakes::first_blank_wrongly;
use crate::number::Number;

/// All that the call is asked with.
#[derive(Clone, Debug, PartialEq, Eq)]
pub struct Blank {
    pub device: u8,
    pub counts: Vec<u16>,
}

impl Blank {
    /// What the model with `fault` gives.
    pub fn ask(&self, fault: Fault) -> (Number, Option<usize>) {
        first_blank_wrongly(fault, self.device, &self.counts)
    }
}

/// Numbers of no device.
const NO_DEVICES: [u8; 3] = [0, 8, 255];

/// The questions of one device: first those that are answered, then wrong lengths, then numbers of no device.
pub fn blanks(device: &Device) -> Vec<Blank> {
    let mut counts = blank_places(device);
    counts.extend(odd_pages(device));
    counts.extend(wrong_lengths(device));
    let mut blanks = of_device(device.number, counts);
    for number in NO_DEVICES {
        let mut counts = fillings(device.pages());
        counts.extend(wrong_lengths(device));
        blanks.extend(of_device(number, counts));
    }
    blanks
}

fn of_device(device: u8, counts: Vec<Vec<u16>>) -> Vec<Blank> {
    let asked = counts.into_iter();
    asked.map(|counts| Blank { device, counts }).collect()
}

/// Counts other than 0: around a page's cells, and where a byte, a page of 256 and a signed number come to an end.
fn values(device: &Device) -> Vec<u16> {
    let page = device.page as u16;
    let mut values = vec![1, 2, page - 1, page, page + 1];
    values.extend([255, 256, 257, 512, 0x7FFF, 0x8000, 0xFF00, u16::MAX]);
    values
}

/// Pages at the edges and in the middle, and where the number of a page outgrows a byte.
fn places(device: &Device) -> Vec<usize> {
    let pages = device.pages();
    let mut places = vec![0, 1, pages / 2, pages - 2, pages - 1, 255, 256, 257];
    places.retain(|&page| page < pages);
    places
}

/// Every other count the same: no page blank, one, two, or all from one on.
fn blank_places(device: &Device) -> Vec<Vec<u16>> {
    let places = places(device);
    let mut asked = Vec::new();
    for value in values(device) {
        let written = vec![value; device.pages()];
        asked.push(written.clone());
        for (index, &page) in places.iter().enumerate() {
            let mut counts = written.clone();
            counts[page] = 0;
            asked.push(counts.clone());
            for &second in &places[index + 1..] {
                let mut counts = counts.clone();
                counts[second] = 0;
                asked.push(counts);
            }
            counts[page..].fill(0);
            asked.push(counts);
        }
    }
    asked
}

/// One page counts otherwise than all others, of which the last may be blank.
fn odd_pages(device: &Device) -> Vec<Vec<u16>> {
    let last = device.pages() - 1;
    let mut asked = Vec::new();
    for value in values(device) {
        for page in places(device) {
            for rest in [2, device.page as u16 - 1] {
                let mut counts = vec![rest; device.pages()];
                counts[page] = value;
                asked.push(counts.clone());
                counts[last] = 0;
                asked.push(counts);
            }
        }
    }
    asked
}

/// Lengths beside the right one, those of other devices, of a page's and of all cells.
fn wrong_lengths(device: &Device) -> Vec<Vec<u16>> {
    let pages = device.pages();
    let mut lengths = vec![0, 1, pages - 1, pages + 1, pages / 2, 2 * pages];
    lengths.extend([device.page, device.cells]);
    lengths.extend(DEVICES.iter().map(Device::pages));
    lengths.sort_unstable();
    lengths.dedup();
    lengths.retain(|&length| length != pages);
    lengths.into_iter().flat_map(fillings).collect()
}

/// Counts of this length: all blank, none blank, and the first or the last alone. In a buffer that is too long the last
/// is of no page.
fn fillings(length: usize) -> Vec<Vec<u16>> {
    let written = vec![1; length];
    let (mut first, mut last) = (written.clone(), written.clone());
    first.iter_mut().take(1).for_each(|count| *count = 0);
    last.iter_mut().rev().take(1).for_each(|count| *count = 0);
    vec![vec![0; length], written, first, last]
}

/// The file of a chip to ask a program about.
#[derive(Clone, Debug, PartialEq, Eq)]
pub struct BlankChip {
    /// What is special about it.
    pub what: &'static str,
    /// None where the file is missing.
    pub bytes: Option<Vec<u8>>,
}

/// Chips of one device whose first blank page, if they have one, is seldom page 0, and files that are refused. Generated
/// traces leave few chips of this sort: most pages of theirs are blank, or none is.
pub fn blank_chips(device: &Device, random: &mut Random) -> Vec<BlankChip> {
    let whole = readable(device, random).map(|(what, chip)| (what, Some(chip.to_bytes())));
    let middle = 1 + random.below(device.pages() - 2);
    let cells = with_blanks(device, random, &[middle]).cells;
    let others = [
        ("a page in the middle blank, cells alone", Some(cells)),
        ("no file", None),
        ("a wrong length", Some(of_wrong_length(device, random))),
        (
            "a wrong status or lock",
            Some(with_wrong_end(device, random)),
        ),
    ];
    let chips = whole.into_iter().chain(others);
    let named = chips.map(|(what, bytes)| BlankChip { what, bytes });
    named.collect()
}

/// Those that are read in the long form.
fn readable(device: &Device, random: &mut Random) -> [(&'static str, Contents); 8] {
    let last = device.pages() - 1;
    let middle = 1 + random.below(last - 1);
    let later = middle + 1 + random.below(last - middle);
    let mut place = |_| random.below(device.page);
    let first_page = written_before(device, 1, &mut place);
    let every_page = written_before(device, device.pages(), &mut place);
    let mut one_cell = with_blanks(device, random, &[last]);
    one_cell.cells[last * device.page + random.below(device.page)] = 0x00;
    [
        ("all pages blank", Contents::prepared(device)),
        ("one cell of page 0 written", first_page),
        ("one cell of every page written", every_page),
        (
            "first cells of pages written",
            written_before(device, middle, |_| 0),
        ),
        (
            "last cells of pages written",
            written_before(device, later, |_| device.page - 1),
        ),
        (
            "only the last page blank",
            with_blanks(device, random, &[last]),
        ),
        ("one cell of the last page written", one_cell),
        (
            "two pages blank",
            with_blanks(device, random, &[middle, later]),
        ),
    ]
}

/// A prepared chip with one cell written in each page before `end`, at a place that is asked for.
fn written_before(device: &Device, end: usize, place: impl FnMut(usize) -> usize) -> Contents {
    let mut contents = Contents::prepared(device);
    let pages = contents.cells.chunks_exact_mut(device.page);
    for (page, place) in pages.zip((0..end).map(place)) {
        page[place] = 0x00;
    }
    contents
}

/// Any contents, with these pages blank and no other cell FFh: so full that a page of 256 outgrows a byte.
fn with_blanks(device: &Device, random: &mut Random, blank: &[usize]) -> Contents {
    let mut contents = Contents::random(device, random, false);
    for cell in &mut contents.cells {
        *cell = (*cell).min(0xFE);
    }
    for &page in blank {
        let start = page * device.page;
        contents.cells[start..start + device.page].fill(0xFF);
    }
    contents
}

/// A byte more or less than the long form has, or than the cells alone.
fn of_wrong_length(device: &Device, random: &mut Random) -> Vec<u8> {
    let mut bytes = Contents::prepared(device).to_bytes();
    if random.level() {
        bytes.truncate(device.cells);
    }
    if random.level() {
        bytes.push(0);
    } else {
        bytes.pop();
    }
    bytes
}

/// The long form with a status bit that the device has not, or with a lock that it cannot have.
fn with_wrong_end(device: &Device, random: &mut Random) -> Vec<u8> {
    let mut contents = Contents::prepared(device);
    if random.level() {
        contents.status = if device.has_srwd { 0x40 } else { SRWD };
        return contents.to_bytes();
    }
    let mut bytes = contents.to_bytes();
    let lock = bytes.len() - 1;
    bytes[lock] = if device.has_identification() { 2 } else { 1 };
    bytes
}
