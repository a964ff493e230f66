//! Counts to compare models by (document 02, W-204). No trace makes a count wrong, so whoever wants to see what a wrong
//! one does lends it: `counts` gives what a lent buffer may hold, for a generated trace to run into, and `lendings` how
//! long it and its neighbours may be.

use super::Random;
use crate::calls::count_pages;
use crate::device::{Device, DEVICES};
use crate::fault::Fault;
use crate::mistakes::{event_wrongly, prepare_wrongly};
use crate::number::Number;
use crate::state::{Cycle, Output, State};
use crate::trace::Event;

/// How counts stand to the cells. Each but the first and the last says what one page counts, all others being counted
/// right; what it counts may be right all the same, as `Blank` is on a blank page.
#[derive(Clone, Copy, Debug, PartialEq, Eq)]
pub enum Counting {
    Agreeing,
    OneMore,
    /// Of a blank page the highest number.
    OneLess,
    Blank,
    /// As many as a page has cells.
    Full,
    Is256,
    Is257,
    Highest,
    /// No page is counted right.
    AllWrong,
}

impl Counting {
    pub const ALL: [Counting; 9] = [
        Counting::Agreeing,
        Counting::OneMore,
        Counting::OneLess,
        Counting::Blank,
        Counting::Full,
        Counting::Is256,
        Counting::Is257,
        Counting::Highest,
        Counting::AllWrong,
    ];
}

/// Counts for a device in this state with these cells, which are as many as it has. The page that is counted otherwise
/// is the one whose start a running cycle has, though only an array cycle is about it, or else one that generated
/// traces like to write to. Lend such counts not only before a trace but now and then during it, `Agreeing` ones among
/// them: a cycle on a wrong count does not end, and what comes after it would hardly be seen.
pub fn counts(
    counting: Counting,
    device: &Device,
    state: &State,
    cells: &[u8],
    random: &mut Random,
) -> Vec<u16> {
    let mut counts = vec![0; device.pages()];
    count_pages(device.number, cells, &mut counts);
    let page = match state.cycle {
        Cycle::None => likely_page(device, random),
        _ => state.page_start / device.page,
    };
    let count = &mut counts[page];
    match counting {
        Counting::Agreeing => {}
        Counting::OneMore => *count += 1,
        Counting::OneLess => *count = count.wrapping_sub(1),
        Counting::Blank => *count = 0,
        Counting::Full => *count = device.page as u16,
        Counting::Is256 => *count = 256,
        Counting::Is257 => *count = 257,
        Counting::Highest => *count = u16::MAX,
        Counting::AllWrong => make_all_wrong(&mut counts, random),
    }
    counts
}

fn make_all_wrong(counts: &mut [u16], random: &mut Random) {
    for count in counts {
        *count = count.wrapping_add(1 + random.below(usize::from(u16::MAX)) as u16);
    }
}

/// A page at an edge of the array or of a protected part, as the addresses of generated commands are.
fn likely_page(device: &Device, random: &mut Random) -> usize {
    let pages = device.pages();
    let edges = [0, 1, 2, pages / 4, pages / 2, pages - pages / 4, pages];
    (random.pick(&edges) + pages - random.below(2)) % pages
}

/// How many elements of each buffer a call is lent, and whether the state is sound that an event is lent with them.
#[derive(Clone, Copy, Debug, PartialEq, Eq)]
pub struct Lending {
    pub device: u8,
    pub cells: usize,
    pub identification: usize,
    pub latch: usize,
    pub counts: usize,
    pub is_sound: bool,
}

/// What a call gives, and all that it leaves.
#[derive(Clone, Debug, PartialEq, Eq)]
pub struct Left {
    pub number: Number,
    /// That of an event; preparing has none.
    pub answer: Option<Output>,
    pub state: State,
    pub cells: Vec<u8>,
    pub identification: Vec<u8>,
    pub latch: Vec<u8>,
    pub counts: Vec<u16>,
}

impl Lending {
    /// The buffers before a call. Their values are none that preparing gives, the marks such that they can be sound.
    pub fn lent(&self) -> Left {
        let address = match self.is_sound {
            true => 0,
            false => usize::MAX,
        };
        Left {
            number: Number::Done,
            answer: None,
            state: State {
                address,
                ..State::prepared()
            },
            cells: vec![0xA5; self.cells],
            identification: vec![0xA5; self.identification],
            latch: vec![1; self.latch],
            counts: vec![0xA5A5; self.counts],
        }
    }

    /// What preparing with `fault` gives and leaves.
    pub fn prepare(&self, fault: Fault) -> Left {
        let mut left = self.lent();
        (left.number, left.state) = prepare_wrongly(
            fault,
            self.device,
            &mut left.cells,
            &mut left.identification,
            &mut left.latch,
            &mut left.counts,
        );
        left
    }

    /// What an event with `fault` gives and leaves. The event raises D, which shows in the state if it was done.
    pub fn event(&self, fault: Fault) -> Left {
        let mut left = self.lent();
        let (number, answer) = event_wrongly(
            fault,
            self.device,
            &mut left.state,
            &mut left.cells,
            &mut left.identification,
            &mut left.latch,
            &mut left.counts,
            Event::Data(true),
        );
        left.number = number;
        left.answer = Some(answer);
        left
    }
}

/// The lengths of one device, each right and wrong with each of the others, then the right ones with numbers of no
/// device. Among the wrong lengths of the counts are one of a page too many, as if the identification page were
/// counted, and that of cells.
pub fn lendings(device: &Device) -> Vec<Lending> {
    let pages = device.pages();
    let mut lendings = Vec::new();
    for cells in [device.cells, device.cells - 1] {
        for identification in [device.identification, device.identification + 1] {
            for latch in [2 * device.page, device.page] {
                for counts in [pages, pages - 1, pages + 1, 2 * pages, device.cells, 0] {
                    lendings.extend([true, false].map(|is_sound| Lending {
                        device: device.number,
                        cells,
                        identification,
                        latch,
                        counts,
                        is_sound,
                    }));
                }
            }
        }
    }
    let right = lendings[0];
    let beside = [0, DEVICES.len() as u8 + 1, u8::MAX];
    lendings.extend(beside.map(|device| Lending { device, ..right }));
    lendings
}
