//! Short traces made by hand, for what a few hundred random records seldom reach: a second write after a first, a
//! chip that is locked already, each code in a cycle, hold at each bit that is sent, an end within a cycle, a write
//! next to an entry of the service sheet, and a command that S's rise finds held.

use super::commands::{Maker, BIT_3, RDID, RDSR, READ, WRDI, WREN, WRID, WRITE, WRSR};
use super::Profile;
use crate::device::{Device, DEVICES};
use crate::trace::Event;

/// A trace made by hand: the profile it belongs to, and its steps.
type Made = (Profile, Steps);
type Steps = fn(&mut Maker);
/// Which devices get a trace.
type Devices = fn(&Device) -> bool;

const MADE: [Made; 18] = [
    (Profile::Commands, locks_twice),
    (Profile::Commands, writes_two_pages),
    (Profile::Commands, writes_both_kinds),
    (Profile::Commands, reads_past_last_cell),
    (Profile::Power, power_when_locked),
    (Profile::Waits, reads_in_cycle),
    (Profile::Waits, disables_in_cycle),
    (Profile::Waits, writes_in_cycle),
    (Profile::Waits, writes_identification_in_cycle),
    (Profile::Waits, writes_status_in_cycle),
    (Profile::Hold, holds_at_each_bit),
    (Profile::Hold, fall_starts_hold),
    (Profile::Hold, fall_ends_hold),
    (Profile::Hold, fall_in_hold),
    (Profile::Protect, protect_in_hold),
    (Profile::Lengths, fills_a_page),
    (Profile::Mixed, ends_in_array_cycle),
    (Profile::Mixed, ends_in_other_cycle),
];

/// Those for devices without an identification page alone (document 02, W-202). All of these devices get each one:
/// where it is about one of them, the others show what must not be taken over from it.
const MADE_WITHOUT_PAGE: [Made; 11] = [
    (Profile::Commands, sets_bit_3_of_short_codes),
    (Profile::Commands, sets_bit_3_of_array_codes),
    (Profile::Commands, tells_80h_from_00h),
    (Profile::Commands, stores_status_bits),
    (Profile::Mixed, reads_on_at_cell_0),
    (Profile::Mixed, reads_no_page),
    (Profile::Mixed, writes_no_page),
    (Profile::Protect, protects_a_quarter),
    (Profile::Protect, protect_low_and_status),
    (Profile::Protect, protect_low_and_array),
    (Profile::Hold, deselects_in_hold),
];

/// Those about the service sheet (document 02, W-203), with the devices that get them. The first shows the same on all
/// devices, so those with the shortest commands are enough; without an identification page there is
/// `protects_a_quarter` in place of the second.
const MADE_FOR_SHEET: [(Devices, Made); 3] = [
    (
        Device::has_one_address_byte,
        (Profile::Protect, protects_nothing),
    ),
    (
        Device::has_identification,
        (Profile::Protect, protects_a_quarter_with_srwd),
    ),
    (|_| true, (Profile::Protect, protects_half_and_all)),
];

/// Those about commands that S's rise finds held (document 02, W-206), with the devices that get them: most are for
/// the devices that let a write start there, the last one for those that drop it and that `deselects_in_hold` leaves
/// out.
const MADE_FOR_HELD: [(Devices, Made); 16] = [
    (writes_in_hold, (Profile::Hold, writes_from_hold)),
    (writes_in_hold, (Profile::Hold, holds_by_the_flag)),
    (writes_in_hold, (Profile::Hold, clocks_in_hold)),
    (writes_in_hold, (Profile::Hold, drops_others_in_hold)),
    (writes_in_hold, (Profile::Lengths, held_write_lacks)),
    (writes_in_hold, (Profile::Lengths, held_write_bits)),
    (writes_in_hold, (Profile::Glitch, held_write_and_protection)),
    (writes_in_hold, (Profile::Glitch, held_in_cycle)),
    (writes_page_in_hold, (Profile::Mixed, held_page_and_lock)),
    (writes_page_in_hold, (Profile::Mixed, held_when_locked)),
    (writes_page_in_hold, (Profile::Mixed, held_when_protected)),
    (writes_page_in_hold, (Profile::Lengths, held_page_lacks)),
    (writes_page_in_hold, (Profile::Lengths, held_page_bits)),
    (writes_page_in_hold, (Profile::Lengths, held_lock_bytes)),
    (writes_no_page_in_hold, (Profile::Mixed, held_without_page)),
    (drops_page_in_hold, (Profile::Hold, deselects_in_hold)),
];

fn writes_in_hold(device: &Device) -> bool {
    device.writes_in_hold
}

fn writes_page_in_hold(device: &Device) -> bool {
    device.writes_in_hold && device.has_identification()
}

fn writes_no_page_in_hold(device: &Device) -> bool {
    device.writes_in_hold && !device.has_identification()
}

fn drops_page_in_hold(device: &Device) -> bool {
    !device.writes_in_hold && device.has_identification()
}

/// Data bytes that differ from each other, from FFh and from 00h.
const FIRST: u8 = 0xA5;
const SECOND: u8 = 0x3C;

/// A page that a short trace can fill.
const SHORT_PAGE: usize = 16;

const RISE: Event = Event::Clock(true);
const FALL: Event = Event::Clock(false);
const HOLD: Event = Event::Hold(false);
const RELEASE: Event = Event::Hold(true);
const DESELECT: Event = Event::Select(true);

/// The traces of this profile for these devices, each trace for one device after the other.
pub fn made_events(
    profile: Profile,
    devices: &'static [Device],
) -> Vec<(&'static Device, Vec<Event>)> {
    let mut traces = Vec::new();
    for (place, (of, steps)) in MADE.iter().chain(&MADE_WITHOUT_PAGE).enumerate() {
        let for_all = place < MADE.len();
        let is_for = |device: &&Device| for_all || !device.has_identification();
        for device in devices.iter().filter(is_for).filter(|_| *of == profile) {
            traces.push((device, made(device, place, *steps)));
        }
    }
    traces
}

/// The traces of this profile about the service sheet.
pub fn sheet_events(profile: Profile) -> Vec<(&'static Device, Vec<Event>)> {
    events_for(profile, &MADE_FOR_SHEET)
}

/// The traces of this profile about commands that S's rise finds held.
pub fn held_events(profile: Profile) -> Vec<(&'static Device, Vec<Event>)> {
    events_for(profile, &MADE_FOR_HELD)
}

fn events_for(profile: Profile, list: &[(Devices, Made)]) -> Vec<(&'static Device, Vec<Event>)> {
    let mut traces = Vec::new();
    for (place, (is_for, (of, steps))) in list.iter().enumerate() {
        let devices = DEVICES.iter().filter(|device| is_for(device));
        for device in devices.filter(|_| *of == profile) {
            traces.push((device, made(device, place, *steps)));
        }
    }
    traces
}

/// The events of one trace; its place in its list seeds the random choices that are left.
fn made(device: &'static Device, place: usize, steps: Steps) -> Vec<Event> {
    let mut maker = Maker::new(device, place as u64, 0);
    steps(&mut maker);
    maker.events
}

impl Maker {
    fn write_bytes(&mut self, address: usize, data: &[u8]) {
        let bytes = self.array_command(WRITE, address);
        self.send(&[&bytes[..], data].concat());
    }

    fn write_identification(&mut self, place: usize, value: u8) {
        let bytes = self.identification_command(WRID, place, false);
        self.send(&[&bytes[..], &[value]].concat());
    }

    fn lock(&mut self) {
        let bytes = self.identification_command(WRID, 0, true);
        self.send(&[&bytes[..], &[0x02]].concat());
    }

    fn read_lock(&mut self) {
        let bytes = self.identification_command(RDID, 0, true);
        self.send(&[&bytes[..], &[0]].concat());
    }

    /// A command with exactly this code and address, then `data`.
    fn send_at(&mut self, code: u8, address: usize, data: &[u8]) {
        let bytes = self.with_address(code, address);
        self.send(&[&bytes[..], data].concat());
    }

    /// Exactly 82h or 83h, at the start of the page and with the lock bit.
    fn send_at_page_and_lock(&mut self, code: u8, data: u8) {
        for address in [0, self.device.lock_bit()] {
            self.send_at(code, address, &[data]);
            self.send(&[RDSR, 0]);
        }
    }

    /// A byte for the last cell of the first page that these status bits protect. It brings the address back to the
    /// start of the page, which is then the entry itself.
    fn write_just_above(&mut self, status: u8) {
        let first = self.device.first_protected(status);
        self.write_bytes(first + self.device.page - 1, &[0]);
    }

    /// A byte for the last cell but one below the entry, which leaves the address at the last.
    fn write_just_below(&mut self, status: u8) {
        let first = self.device.first_protected(status);
        self.write_bytes(first - 2, &[0]);
    }

    /// The first `bits` bits of `bytes` in a selection that ends with `ending` in place of the rise of S.
    fn send_ending(&mut self, bytes: &[u8], bits: usize, ending: &[Event]) {
        let mut events = self.selection_of(bytes, bits);
        events.pop();
        self.put(&events);
        self.put(ending);
    }

    /// As before, deselected in hold.
    fn send_bits_held(&mut self, bytes: &[u8], bits: usize) {
        self.send_ending(bytes, bits, &[HOLD, DESELECT, RELEASE]);
    }

    fn send_held(&mut self, bytes: &[u8]) {
        self.send_bits_held(bytes, 8 * bytes.len());
    }

    /// `bytes` with HOLD lowered while C is still high: it never holds.
    fn send_unheld(&mut self, bytes: &[u8]) {
        let mut events = self.selection(bytes);
        events.truncate(events.len() - 2);
        self.put(&events);
        self.put(&[HOLD, DESELECT, RELEASE, FALL]);
    }

    /// A code, an address and data.
    fn bytes_at(&self, code: u8, address: usize, data: &[u8]) -> Vec<u8> {
        [&self.with_address(code, address)[..], data].concat()
    }

    /// LID. Without its data byte the last one is the address's, so bit 1 is set there too.
    fn lid_bytes(&self, data: &[u8]) -> Vec<u8> {
        self.bytes_at(WRID, self.device.lock_bit() | 0x02, data)
    }

    /// Enables and starts a cycle that writes one cell.
    fn start_array_cycle(&mut self) {
        self.enable();
        self.write_bytes(self.device.page + 1, &[FIRST]);
    }
}

/// The second LID must start no cycle.
fn locks_twice(maker: &mut Maker) {
    maker.enable();
    maker.lock();
    maker.settle();
    maker.enable();
    maker.lock();
    maker.look();
}

/// The marks of the first write must not come back in the second.
fn writes_two_pages(maker: &mut Maker) {
    maker.enable();
    maker.write_bytes(1, &[FIRST]);
    maker.settle();
    maker.enable();
    maker.write_bytes(maker.device.page + 2, &[SECOND]);
    maker.settle();
}

/// As before, with a WRITE and a WRID.
fn writes_both_kinds(maker: &mut Maker) {
    maker.enable();
    maker.write_bytes(4, &[FIRST]);
    maker.settle();
    maker.enable();
    maker.write_identification(5, SECOND);
    maker.settle();
}

fn reads_past_last_cell(maker: &mut Maker) {
    let last = maker.device.cells - 1;
    maker.enable();
    maker.write_bytes(last, &[FIRST]);
    maker.settle();
    maker.read_at(last - 1, 3);
}

/// A lock outlasts power and stops WRID.
fn power_when_locked(maker: &mut Maker) {
    maker.enable();
    maker.lock();
    maker.settle();
    maker.put(&[Event::Power]);
    maker.read_lock();
    maker.enable();
    maker.write_identification(1, FIRST);
    maker.settle();
}

fn reads_in_cycle(maker: &mut Maker) {
    maker.start_array_cycle();
    for code in [READ, RDID] {
        let bytes = maker.array_command(code, 0);
        maker.send(&[&bytes[..], &[0]].concat());
    }
    maker.settle();
}

/// RDSR shows WEL gone and the cycle still running.
fn disables_in_cycle(maker: &mut Maker) {
    maker.start_array_cycle();
    maker.look();
    maker.disable();
    maker.look();
    maker.enable();
    maker.look();
    maker.settle();
    maker.look();
}

/// The latch belongs to the running cycle.
fn writes_in_cycle(maker: &mut Maker) {
    maker.start_array_cycle();
    maker.write_bytes(2, &[SECOND]);
    maker.look();
    maker.settle();
    maker.look();
}

fn writes_identification_in_cycle(maker: &mut Maker) {
    maker.start_array_cycle();
    maker.write_identification(2, SECOND);
    maker.look();
    maker.settle();
    maker.look();
}

fn writes_status_in_cycle(maker: &mut Maker) {
    maker.start_array_cycle();
    maker.send(&[WRSR, 0x0C]);
    maker.look();
    maker.settle();
    maker.look();
}

/// The status with WEL set, with a pause at each bit: the three ways that edges of C can fall into hold.
fn holds_at_each_bit(maker: &mut Maker) {
    maker.enable();
    let mut events = maker.selection(&[RDSR]);
    events.pop();
    maker.put(&events);
    let pauses = [
        // The fall that ends hold.
        [RISE, FALL, HOLD, RISE, RELEASE, FALL],
        // A rise and a fall while held.
        [RISE, FALL, HOLD, RISE, FALL, RELEASE],
        // The fall that starts hold.
        [RISE, HOLD, FALL, RISE, FALL, RELEASE],
    ];
    for pause in pauses {
        for _ in 0..8 {
            maker.put(&pause);
        }
    }
    maker.put(&[Event::Select(true)]);
}

/// The fall that shows the top bit starts hold and takes the status; the cycle ends in hold, and the next byte shows
/// that.
fn fall_starts_hold(maker: &mut Maker) {
    let wait = Event::Wait(maker.device.write_time);
    status_at_end_of_cycle(maker, &[HOLD, FALL, wait, RELEASE]);
}

/// The fall that ends hold comes after the end of the cycle and must not take the status again.
fn fall_ends_hold(maker: &mut Maker) {
    let wait = Event::Wait(maker.device.write_time);
    status_at_end_of_cycle(maker, &[FALL, HOLD, RISE, wait, RELEASE, FALL]);
}

/// As before, with a fall while held.
fn fall_in_hold(maker: &mut Maker) {
    let wait = Event::Wait(maker.device.write_time);
    status_at_end_of_cycle(maker, &[FALL, HOLD, RISE, wait, FALL, RELEASE]);
}

/// Two bytes of status in a cycle, with `pause` in place of the fall that shows the first top bit.
fn status_at_end_of_cycle(maker: &mut Maker, pause: &[Event]) {
    maker.start_array_cycle();
    let mut events = maker.selection(&[RDSR]);
    events.truncate(events.len() - 2);
    maker.put(&events);
    maker.put(pause);
    for _ in 0..16 {
        maker.put(&[RISE, FALL]);
    }
    maker.put(&[Event::Select(true)]);
}

/// W low in hold stops WRSR with SRWD set, and always where there is one address byte.
fn protect_in_hold(maker: &mut Maker) {
    maker.set_status(0x80);
    maker.enable();
    let mut events = maker.selection(&[WRSR, 0x0C]);
    events.pop();
    maker.put(&events);
    maker.put(&[
        HOLD,
        Event::Protect(false),
        Event::Protect(true),
        RELEASE,
        Event::Select(true),
    ]);
    maker.look();
    maker.settle();
    maker.look();
}

/// A microsecond before its end the cycle has changed nothing yet.
fn ends_in_array_cycle(maker: &mut Maker) {
    maker.start_array_cycle();
    maker.put(&[Event::Wait(maker.device.write_time - 1)]);
    maker.look();
}

/// As before with the other three cycles, one for each device; without an identification page there is only one.
fn ends_in_other_cycle(maker: &mut Maker) {
    maker.enable();
    match maker.device.number {
        1 => maker.lock(),
        3 | 4 => maker.write_identification(6, FIRST),
        _ => maker.send(&[WRSR, 0x8C]),
    }
    maker.put(&[Event::Wait(maker.device.write_time - 1)]);
    maker.look();
}

/// A byte more than a page, so that the last byte for a place counts; where pages are too long for a short trace, the
/// end of a page.
fn fills_a_page(maker: &mut Maker) {
    let page = maker.device.page;
    maker.enable();
    if page <= SHORT_PAGE {
        let data = [&vec![0; page][..], &[0x0F]].concat();
        maker.write_bytes(page + 3, &data);
        maker.settle();
    } else {
        maker.write_bytes(2 * page - 1, &[FIRST, SECOND]);
        maker.settle();
        maker.read_at(2 * page - 1, 2);
    }
}

/// WREN, WRDI and WRSR with bit 3 set; the status is read with and without it.
fn sets_bit_3_of_short_codes(maker: &mut Maker) {
    maker.send(&[WREN | BIT_3]);
    maker.send(&[RDSR | BIT_3, 0]);
    maker.send(&[WRDI | BIT_3]);
    maker.send(&[RDSR, 0]);
    maker.send(&[WREN]);
    maker.send(&[WRSR | BIT_3, 0x04]);
    maker.settle();
    maker.send(&[RDSR, 0]);
}

/// WRITE with bit 3 set, to a cell of the lower half; the cell is read with and without it. A8 would be in the place of
/// the upper half.
fn sets_bit_3_of_array_codes(maker: &mut Maker) {
    maker.send(&[WREN]);
    maker.send_at(WRITE | BIT_3, 0x11, &[FIRST]);
    maker.settle();
    maker.send_at(READ | BIT_3, 0x11, &[0]);
    maker.send_at(READ, 0x11, &[0]);
}

/// One cell on device 5, two on the others.
fn tells_80h_from_00h(maker: &mut Maker) {
    maker.send(&[WREN]);
    maker.send_at(WRITE, 0x80, &[FIRST]);
    maker.settle();
    maker.send_at(READ, 0x00, &[0]);
    maker.send_at(READ, 0x80, &[0]);
}

/// Both sides of the turn hold something, so that neither silence nor the same cell again looks right.
fn reads_on_at_cell_0(maker: &mut Maker) {
    let last = maker.device.cells - 1;
    for (address, value) in [(last, FIRST), (0, SECOND)] {
        maker.send(&[WREN]);
        maker.send_at(WRITE, address, &[value]);
        maker.settle();
    }
    maker.send_at(READ, last, &[0, 0]);
}

fn stores_status_bits(maker: &mut Maker) {
    maker.send(&[WREN]);
    maker.send(&[WRSR, 0xFF]);
    maker.settle();
    maker.send(&[RDSR, 0]);
}

fn reads_no_page(maker: &mut Maker) {
    maker.send_at_page_and_lock(RDID, 0);
}

/// WEL stays and no cycle runs, so that a wait afterwards changes nothing either.
fn writes_no_page(maker: &mut Maker) {
    maker.send(&[WREN]);
    maker.send_at_page_and_lock(WRID, 0x02);
    maker.settle();
    maker.send(&[RDSR, 0]);
}

/// Writes to both sides of where the upper quarter begins.
fn protects_a_quarter(maker: &mut Maker) {
    let first = maker.device.first_protected(0x04);
    maker.set_status(0x04);
    for address in [first, first - 1] {
        maker.send(&[WREN]);
        maker.send_at(WRITE, address, &[FIRST]);
        maker.send(&[RDSR, 0]);
    }
    maker.settle();
}

/// With W low WREN is done. Device 7 stores SRWD and then no second WRSR; the others do neither.
fn protect_low_and_status(maker: &mut Maker) {
    maker.put(&[Event::Protect(false)]);
    for bits in [0x80, 0x04] {
        maker.send(&[WREN]);
        maker.send(&[RDSR, 0]);
        maker.send(&[WRSR, bits]);
        maker.settle();
    }
    maker.send(&[RDSR, 0]);
}

/// W low stops the WRITE, but on device 7.
fn protect_low_and_array(maker: &mut Maker) {
    maker.put(&[Event::Protect(false)]);
    maker.send(&[WREN]);
    maker.send_at(WRITE, 0x22, &[FIRST]);
    maker.send(&[RDSR, 0]);
    maker.settle();
    maker.send_at(READ, 0x22, &[0]);
}

/// A WRITE that lacks nothing is dropped, but where the device lets it start.
fn deselects_in_hold(maker: &mut Maker) {
    maker.send(&[WREN]);
    let bytes = maker.bytes_at(WRITE, 0x33, &[FIRST]);
    maker.send_held(&bytes);
    maker.send(&[RDSR, 0]);
}

/// With BP 00 a write that leaves the address at the last cell is done.
fn protects_nothing(maker: &mut Maker) {
    maker.enable();
    maker.write_just_below(0x00);
    maker.settle();
}

/// With BP 01 writes on both sides of the entry, where SRWD must not count. The dropped one leaves WEL for the other.
fn protects_a_quarter_with_srwd(maker: &mut Maker) {
    maker.set_status(0x84);
    maker.enable();
    maker.write_just_above(0x84);
    maker.write_just_below(0x84);
    maker.settle();
}

/// With BP 10 and 11 a write that is dropped; the first leaves WEL for the WRSR.
fn protects_half_and_all(maker: &mut Maker) {
    maker.set_status(0x88);
    maker.enable();
    maker.write_just_above(0x88);
    maker.send(&[WRSR, 0x8C]);
    maker.settle();
    maker.enable();
    maker.write_just_above(0x8C);
}

/// A WRITE that lacks nothing is done. HOLD stays low: the next selection is lost, and time passes all the same.
fn writes_from_hold(maker: &mut Maker) {
    let page = maker.device.page;
    let bytes = maker.bytes_at(WRITE, 3 * page - 1, &[FIRST, SECOND]);
    maker.send(&[WREN]);
    maker.send_ending(&bytes, 8 * bytes.len(), &[HOLD, DESELECT]);
    maker.put(&[Event::Wait(maker.device.write_time - 1)]);
    maker.send(&[RDSR, 0]);
    maker.put(&[RELEASE]);
    maker.send(&[RDSR, 0]);
    maker.put(&[Event::Wait(1)]);
    maker.send(&[RDSR, 0]);
}

/// HOLD high again while C is high is still hold, and HOLD low while C is high is none: of two WREN the second is done.
/// A WRITE is done in the first case too.
fn holds_by_the_flag(maker: &mut Maker) {
    let by_flag = [HOLD, RISE, RELEASE, DESELECT, FALL];
    maker.send_ending(&[WREN], 8, &by_flag);
    maker.send(&[RDSR, 0]);
    maker.send_unheld(&[WREN]);
    let bytes = maker.bytes_at(WRITE, 0x44, &[FIRST]);
    maker.send_ending(&bytes, 8 * bytes.len(), &by_flag);
    maker.send(&[RDSR, 0]);
    maker.settle();
}

/// A clock in hold does not spoil a WRITE; and one that never was held is done with HOLD low.
fn clocks_in_hold(maker: &mut Maker) {
    let page = maker.device.page;
    maker.send(&[WREN]);
    let bytes = maker.bytes_at(WRITE, page, &[FIRST]);
    maker.send_ending(
        &bytes,
        8 * bytes.len(),
        &[HOLD, RISE, FALL, DESELECT, RELEASE],
    );
    maker.settle();
    maker.send(&[WREN]);
    let bytes = maker.bytes_at(WRITE, 2 * page, &[SECOND]);
    maker.send_unheld(&bytes);
    maker.send(&[RDSR, 0]);
    maker.settle();
}

/// WREN, WRDI and WRSR.
fn drops_others_in_hold(maker: &mut Maker) {
    maker.send_held(&[WREN]);
    maker.send(&[RDSR, 0]);
    maker.send(&[WREN]);
    maker.send_held(&[WRDI]);
    maker.send(&[RDSR, 0]);
    maker.send_held(&[WRSR, 0x8C]);
    maker.send(&[RDSR, 0]);
    maker.settle();
}

/// A WRITE without WEL, then without a data byte, for which clocks in hold do not make up. A cycle that one of them
/// starts shows at the end.
fn held_write_lacks(maker: &mut Maker) {
    let bytes = maker.bytes_at(WRITE, 0x81, &[FIRST]);
    maker.send_held(&bytes);
    maker.send(&[WREN]);
    let clocks = [RISE, FALL].repeat(8);
    let ending = [&[HOLD], &clocks[..], &[DESELECT, RELEASE]].concat();
    maker.send_ending(&bytes, 24, &ending);
    maker.send(&[RDSR, 0]);
}

/// A WRITE with a bit over, and one with a bit less, which a clock in hold does not make whole.
fn held_write_bits(maker: &mut Maker) {
    let bytes = maker.bytes_at(WRITE, 0x82, &[FIRST, 0]);
    maker.send(&[WREN]);
    maker.send_bits_held(&bytes, 33);
    maker.send_ending(&bytes, 31, &[HOLD, RISE, FALL, DESELECT, RELEASE]);
    maker.send(&[RDSR, 0]);
}

/// A WRITE into a protected page is dropped, one below is done although W is low in hold.
fn held_write_and_protection(maker: &mut Maker) {
    let first = maker.device.first_protected(0x04);
    maker.set_status(0x04);
    maker.send(&[WREN]);
    let bytes = maker.bytes_at(WRITE, first, &[FIRST]);
    maker.send_held(&bytes);
    maker.send(&[RDSR, 0]);
    let bytes = maker.bytes_at(WRITE, first - 2, &[SECOND]);
    let protect = [Event::Protect(false), Event::Protect(true)];
    let ending = [&[HOLD], &protect[..], &[DESELECT, RELEASE]].concat();
    maker.send_ending(&bytes, 8 * bytes.len(), &ending);
    maker.settle();
}

/// A WRITE that a cycle has turned away neither starts another one nor ends this one.
fn held_in_cycle(maker: &mut Maker) {
    let (page, time) = (maker.device.page, maker.device.write_time);
    maker.send(&[WREN]);
    maker.send_at(WRITE, page, &[FIRST]);
    maker.put(&[Event::Wait(time / 2)]);
    let bytes = maker.bytes_at(WRITE, 2 * page, &[SECOND]);
    maker.send_held(&bytes);
    maker.put(&[Event::Wait(time - time / 2)]);
    maker.send(&[RDSR, 0]);
}

/// WRID, then LID.
fn held_page_and_lock(maker: &mut Maker) {
    let page = maker.bytes_at(WRID, 0x11, &[FIRST]);
    let lock = maker.lid_bytes(&[0x02]);
    for bytes in [page, lock] {
        maker.send(&[WREN]);
        maker.send_held(&bytes);
        maker.send(&[RDSR, 0]);
        maker.settle();
    }
}

/// Neither WRID nor LID is done when locked.
fn held_when_locked(maker: &mut Maker) {
    let lock = maker.lid_bytes(&[0x02]);
    maker.send(&[WREN]);
    maker.send(&lock);
    maker.settle();
    send_page_and_lock_held(maker);
}

/// Nor with BP 11.
fn held_when_protected(maker: &mut Maker) {
    maker.set_status(0x0C);
    send_page_and_lock_held(maker);
}

/// A WRID and a LID with WEL set; the status at the end shows either.
fn send_page_and_lock_held(maker: &mut Maker) {
    let page = maker.bytes_at(WRID, 0x12, &[FIRST]);
    let lock = maker.lid_bytes(&[0x02]);
    maker.send(&[WREN]);
    maker.send_held(&page);
    maker.send_held(&lock);
    maker.send(&[RDSR, 0]);
}

/// WRID and LID without WEL, then without a data byte.
fn held_page_lacks(maker: &mut Maker) {
    let page = maker.bytes_at(WRID, 0x13, &[FIRST]);
    let lock = maker.lid_bytes(&[0x02]);
    maker.send_held(&page);
    maker.send_held(&lock);
    maker.send(&[WREN]);
    maker.send_bits_held(&page, 24);
    maker.send_bits_held(&lock, 24);
    maker.send(&[RDSR, 0]);
}

/// WRID and LID with a bit over, and WRID with a cut byte.
fn held_page_bits(maker: &mut Maker) {
    let page = maker.bytes_at(WRID, 0x14, &[FIRST, 0]);
    let lock = maker.lid_bytes(&[0x02, 0]);
    maker.send(&[WREN]);
    maker.send_bits_held(&page, 33);
    maker.send_bits_held(&page, 31);
    maker.send_bits_held(&lock, 33);
    maker.send(&[RDSR, 0]);
}

/// LID with two data bytes, and with one whose bit 1 is clear.
fn held_lock_bytes(maker: &mut Maker) {
    let two = maker.lid_bytes(&[0x02, 0x02]);
    let other = maker.lid_bytes(&[0xFD]);
    maker.send(&[WREN]);
    maker.send_held(&two);
    maker.send_held(&other);
    maker.send(&[RDSR, 0]);
}

/// 82h is no code.
fn held_without_page(maker: &mut Maker) {
    maker.send(&[WREN]);
    for address in [0x15, maker.device.lock_bit()] {
        let bytes = maker.bytes_at(WRID, address, &[0x02]);
        maker.send_held(&bytes);
    }
    maker.send(&[RDSR, 0]);
    maker.settle();
}
