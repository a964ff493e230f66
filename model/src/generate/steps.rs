//! The steps that the profiles repeat.

use super::commands::{Command, Kind, Maker, RDSR};
use super::disturb;
use super::Profile;
use crate::trace::Event;

/// What a command lacks that S's rise finds held.
#[derive(Clone, Copy, PartialEq, Eq)]
enum Lack {
    Nothing,
    Wel,
    /// Its page is protected.
    Opening,
    Data,
    /// Some bits, or it has some over.
    Bits,
    /// It has a byte over, which only LID cannot take.
    End,
}

const LACKS: [Lack; 9] = [
    Lack::Nothing,
    Lack::Nothing,
    Lack::Nothing,
    Lack::Nothing,
    Lack::Wel,
    Lack::Opening,
    Lack::Data,
    Lack::Bits,
    Lack::End,
];

impl Maker {
    pub fn step(&mut self, profile: Profile) {
        match profile {
            Profile::Commands => self.command_step(),
            Profile::Lengths => self.length_step(),
            Profile::Protect => self.protect_step(),
            Profile::Glitch => self.glitch_step(),
            Profile::Hold => self.hold_step(),
            Profile::Waits => self.waits_step(),
            Profile::Power => self.power_step(),
            Profile::Noise => self.noise_step(),
            Profile::Mixed | Profile::Malformed => {
                let others = &Profile::ALL[..Profile::Mixed as usize];
                let other = self.random.pick(others);
                self.step(other);
            }
            Profile::Held if self.random.once_in(8) => self.held_in_cycle_step(),
            Profile::Held => self.held_step(),
        }
    }

    /// Looks at the status, ends the cycle if there is one, and looks at what came of `command`.
    fn look_after(&mut self, command: &Command) {
        self.look();
        if self.random.once_in(8) {
            self.some_wait();
            self.look();
        }
        self.settle();
        if self.random.level() {
            self.look();
        }
        self.look_back(command);
    }

    /// Whole commands, also without WEL, into protected pages, and during a cycle.
    fn command_step(&mut self) {
        self.calm();
        self.usual_status();
        match self.random.below(10) {
            0 => self.read_on(),
            1 | 2 => self.commands_in_cycle(),
            3..=5 => self.protected_writes(),
            6 => self.without_wel(),
            _ => {
                let command = self.any_command();
                self.make_ready(&command);
                self.send(&command.bytes);
                self.look_after(&command);
            }
        }
    }

    /// Writes on both sides of a protection limit, and to the identification page.
    fn protected_writes(&mut self) {
        let bits = self.random.pick(&[0x04, 0x08, 0x0C, 0x0C]);
        self.set_status(bits);
        let (cells, page) = (self.device.cells, self.device.page);
        let first = self.device.first_protected(bits);
        let places = [
            first,
            first + cells - 1,
            first + cells - page,
            first + cells / 4,
        ];
        let address = self.random.pick(&places) % cells;
        // All protected stops LID too, so that it may be sent in full.
        let all = bits == 0x0C;
        let command = match self.random.below(4) {
            0 if all => self.lid_command(true),
            1 => self.wrid_command(),
            _ => self.write_command_at(address),
        };
        self.enable();
        self.send(&command.bytes);
        self.look_after(&command);
    }

    /// Writing commands that lack nothing but WEL.
    fn without_wel(&mut self) {
        self.set_status(0);
        self.disable();
        let command = match self.random.below(4) {
            0 => self.lid_command(true),
            1 => self.wrsr_command(),
            2 => self.wrid_command(),
            _ => self.write_command(),
        };
        self.send(&command.bytes);
        self.look_after(&command);
    }

    /// Reads across an end: of the array, of the identification page, and the repeated bytes.
    fn read_on(&mut self) {
        for _ in 0..3 {
            let mut command = self.reading_command();
            let more = 2 + self.random.below(6);
            command.bytes.extend(vec![0; more]);
            self.send(&command.bytes);
        }
        let near_end = self.device.cells - 1 - self.random.below(3);
        self.read_at(near_end, 4);
    }

    /// Starts a cycle and sends commands before it ends.
    fn commands_in_cycle(&mut self) {
        self.enable();
        let running = self.writing_command();
        self.send(&running.bytes);
        if self.random.once_in(3) {
            self.disable();
            self.look();
            self.enable();
            self.look();
        }
        for _ in 0..2 {
            let command = match self.random.below(4) {
                0 => self.wrsr_command(),
                _ => self.any_command(),
            };
            self.send(&command.bytes);
            self.look();
        }
        self.look_after(&running);
    }

    /// A command with a byte or bits less or more; its right length at times, but never LID's where it would lock.
    fn length_step(&mut self) {
        self.calm();
        if self.random.once_in(4) {
            self.set_status(0);
        }
        let mut command = match self.random.below(8) {
            0 | 1 => self.short_command(),
            2 => self.wrsr_command(),
            3 | 4 => self.write_command(),
            5 => self.wrid_command(),
            _ => self.lid_command(true),
        };
        self.make_ready(&command);
        let whole = 8 * command.bytes.len();
        let before_data = 8 * usize::from(self.device.bytes_before_data());
        let mut lengths = vec![
            before_data.min(whole - 8),
            whole - 8,
            whole - 7,
            whole - 1,
            whole + 1,
            whole + 7,
            whole + 8,
            whole + 16,
        ];
        if command.kind != Kind::Lock || !self.device.has_identification() {
            lengths.push(whole);
        }
        let bits = self.random.pick(&lengths);
        command.bytes.extend([0x02, 0x02]);
        let events = self.selection_of(&command.bytes, bits);
        self.put(&events);
        self.look();
        self.settle();
        self.look_back(&command);
    }

    /// A command that W could stop, with W low at some moment.
    fn protect_step(&mut self) {
        self.calm();
        let bits = self.random.pick(&[0x00, 0x80, 0x80, 0x84]);
        self.set_status(bits);
        let surely_inside = self.random.once_in(3);
        let stops_lid = surely_inside && self.device.has_one_address_byte();
        let command = match self.random.below(8) {
            0..=2 => self.wrsr_command(),
            3 => self.write_command(),
            4 => self.wrid_command(),
            5 | 6 => self.lid_command(stops_lid),
            _ => self.short_command(),
        };
        self.make_ready(&command);
        let mut events = self.selection(&command.bytes);
        if surely_inside {
            disturb::pulse_protect_inside(&mut self.random, &mut events);
        } else {
            disturb::pulse_protect(&mut self.random, &mut events);
        }
        self.put(&events);
        self.look_after(&command);
        if self.random.once_in(4) {
            self.protect_outside();
        }
    }

    /// W low before or after a selection, and low all the time.
    fn protect_outside(&mut self) {
        self.put(&[Event::Protect(false)]);
        self.enable();
        if self.random.level() {
            self.put(&[Event::Protect(true)]);
        }
        let command = self.writing_command();
        self.send(&command.bytes);
        self.look_after(&command);
        self.put(&[Event::Protect(true)]);
    }

    /// Any command with wrong edges.
    fn glitch_step(&mut self) {
        self.calm();
        self.usual_status();
        let command = self.any_command();
        self.make_ready(&command);
        let mut events = self.selection(&command.bytes);
        for _ in 0..1 + self.random.below(2) {
            disturb::glitch(&mut self.random, &mut events);
        }
        self.put(&events);
        self.put(&[Event::Select(true), Event::Clock(self.idle_high)]);
        self.look_after(&command);
    }

    /// Any command with HOLD at some moment; reading commands send long enough to cross bytes.
    fn hold_step(&mut self) {
        self.calm();
        self.usual_status();
        let reads = self.random.level();
        let command = if reads {
            self.reading_command()
        } else {
            self.any_command()
        };
        self.make_ready(&command);
        let mut events = self.selection(&command.bytes);
        match self.random.below(5) {
            0 => disturb::hold_at_start(&mut self.random, &mut events),
            1 | 2 if reads => disturb::pause_at_top_bit(&mut self.random, &mut events),
            1 | 2 => disturb::hold_at_end(&mut self.random, &mut events),
            _ => {
                for _ in 0..1 + self.random.below(2) {
                    disturb::hold(&mut self.random, &mut events);
                }
            }
        }
        self.put(&events);
        self.rest();
        self.look_after(&command);
    }

    /// A cycle whose end falls on some moment of the next selection.
    fn waits_step(&mut self) {
        self.calm();
        self.usual_status();
        self.enable();
        let running = self.writing_command();
        self.send(&running.bytes);
        let time = self.device.write_time;
        let left = self.random.pick(&[1, 1, 2, time / 2]);
        self.put(&[Event::Wait(0), Event::Wait(time - left)]);
        let next = if self.random.once_in(3) {
            self.rdsr_command()
        } else {
            self.any_command()
        };
        let mut events = self.selection(&next.bytes);
        self.insert_wait(&mut events, left);
        self.put(&events);
        self.look();
        if self.random.level() {
            self.send(&next.bytes);
        }
        self.look_after(&next);
        self.look_back(&running);
    }

    /// The rest of a cycle at one moment, whole, in two parts, too long, or in hold.
    fn insert_wait(&mut self, events: &mut Vec<Event>, left: u32) {
        let place = disturb::some_moment(&mut self.random, events);
        match self.random.below(6) {
            0 => {
                disturb::insert(events, place, &[Event::Wait(1)]);
                let first = self.random.below(place + 1);
                disturb::insert(events, first, &[Event::Wait(left - 1)]);
            }
            1 => disturb::insert(events, place, &[Event::Wait(u32::MAX)]),
            2 => {
                let in_hold = [Event::Hold(false), Event::Wait(left), Event::Hold(true)];
                disturb::insert(events, place, &in_hold);
            }
            _ => disturb::insert(events, place, &[Event::Wait(left)]),
        }
    }

    /// Power at some moment of a selection, which then goes on with S low, or is sent again whole without a fall of
    /// S. No cycle runs then: the wait before power ends it.
    fn power_step(&mut self) {
        self.calm();
        self.usual_status();
        let command = self.any_command();
        self.make_ready(&command);
        let mut events = self.selection(&command.bytes);
        let place = match self.random.below(4) {
            0 => events.len() - 1,
            _ => disturb::some_moment(&mut self.random, &events),
        };
        let rest = events.split_off(place);
        self.put(&events);
        self.put(&[Event::Wait(self.device.write_time), Event::Power]);
        if self.random.once_in(3) {
            self.put(&[Event::Select(false)]);
        }
        if self.random.once_in(6) {
            self.put(&[Event::Select(true)]);
        }
        if self.random.once_in(3) {
            let again = self.any_command();
            let events = self.selection(&again.bytes);
            // With or without the setting of S that is no fall.
            let from = self.random.below(2);
            self.put(&events[from..]);
        } else {
            self.put(&rest);
        }
        self.look_after(&command);
    }

    /// Random pins after the start of a meaningful command.
    fn noise_step(&mut self) {
        self.calm();
        self.usual_status();
        if !self.random.once_in(6) {
            self.enable();
        }
        let start = self.command_start();
        let mut events = self.selection(&start);
        events.pop();
        self.put(&events);
        for _ in 0..20 + self.random.below(80) {
            let event = disturb::noise(&mut self.random, self.device.write_time);
            self.put(&[event]);
        }
        if self.random.once_in(8) {
            self.put(&[Event::Wait(self.device.write_time), Event::Power]);
        }
        self.put(&[Event::Select(true)]);
        self.settle();
        self.calm();
        self.look();
        let address = self.cell_address();
        self.read_around(address);
    }

    /// A command that S's rise finds held, with all that it needs or but for one thing.
    fn held_step(&mut self) {
        self.calm();
        let lack = self.random.pick(&LACKS);
        let command = self.held_command(lack != Lack::Nothing);
        let protection = match command.kind {
            Kind::Array => self.random.pick(&[0x04, 0x08, 0x0C]),
            _ => self.random.pick(&[0x0C, 0x8C]),
        };
        match lack {
            Lack::Opening => self.set_status(protection),
            _ if self.random.once_in(8) => self.set_status(0),
            _ => {}
        }
        if lack == Lack::Wel {
            self.disable();
        } else {
            self.make_ready(&command);
        }
        self.deselect_held(&command, lack);
        self.look();
        self.settle();
        if self.random.level() {
            self.look_back(&command);
        }
        if lack == Lack::Opening || command.kind == Kind::Status {
            self.set_status(0);
        }
    }

    /// LID may be sent in full where it is harmless, since what it lacks surely stops it. Where it may lock it comes
    /// often, so that it also finds a lock.
    fn held_command(&mut self, harmless: bool) -> Command {
        if self.device.has_identification() && self.may_lock() && self.random.level() {
            return self.lid_command(harmless);
        }
        match self.random.below(12) {
            0..=2 => self.write_command(),
            3..=5 => self.wrid_command(),
            6..=8 => self.lid_command(harmless),
            9 => self.wrsr_command(),
            _ => self.short_command(),
        }
    }

    /// Sends the command and deselects in hold; HOLD may stay low for a while. A selection meanwhile is lost.
    fn deselect_held(&mut self, command: &Command, lack: Lack) {
        let whole = 8 * command.bytes.len();
        let before_data = 8 * usize::from(self.device.bytes_before_data());
        let bits = match lack {
            Lack::Data => before_data.min(whole - 8),
            Lack::Bits => self
                .random
                .pick(&[whole - 7, whole - 1, whole + 1, whole + 7]),
            Lack::End => whole + 8,
            _ => whole,
        };
        let bytes = [&command.bytes[..], &[0x02]].concat();
        let mut events = self.selection_of(&bytes, bits);
        disturb::deselect_in_hold(&mut self.random, &mut events);
        self.put(&events);
        match self.random.below(6) {
            0 | 1 => self.some_wait(),
            2 => self.send(&[RDSR, 0]),
            _ => {}
        }
        self.rest();
    }

    /// A command that a cycle has turned away and S's rise finds held. The cycle ends when it would have ended without.
    fn held_in_cycle_step(&mut self) {
        self.calm();
        self.set_status(0);
        self.enable();
        let running = self.write_command();
        self.send(&running.bytes);
        let time = self.device.write_time;
        self.put(&[Event::Wait(time / 2)]);
        let command = self.held_command(false);
        let mut events = self.selection(&command.bytes);
        disturb::deselect_in_hold(&mut self.random, &mut events);
        self.put(&events);
        self.rest();
        self.look();
        self.put(&[Event::Wait(time - time / 2)]);
        self.look_after(&running);
    }
}
