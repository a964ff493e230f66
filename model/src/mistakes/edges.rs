//! Mistakes about edges, hold, W, time and power (document 01, "Events").

use super::Mistaken;
use crate::fault::Fault;
use crate::state::{Cycle, Output, State};
use crate::trace::Event;

impl Mistaken<'_> {
    /// Mistakes about what is an edge, about hold at an edge of C, and about how long a wait is.
    pub(super) fn before_edge(&mut self, event: Event) -> Event {
        let state = &mut *self.chip.state;
        let rises = event == Event::Clock(true) && !state.clock;
        let falls = event == Event::Clock(false) && state.clock;
        match self.fault {
            Fault::RedundantClockHighIsRise if event == Event::Clock(true) => state.clock = false,
            Fault::RedundantSelectLowIsFall if event == Event::Select(false) => state.select = true,
            Fault::RiseDecodedWhileHeld if rises => state.held = false,
            Fault::FallDecodedWhileHeld if falls && !state.hold => state.held = false,
            Fault::FallEndingHoldDecoded if falls && state.hold => state.held = false,
            Fault::FallStartingHoldNotDecoded if falls && state.selected && !state.hold => {
                state.held = true;
            }
            _ => {}
        }
        match event {
            Event::Wait(microseconds) => Event::Wait(self.wait_taken(microseconds)),
            _ => event,
        }
    }

    fn wait_taken(&self, microseconds: u32) -> u32 {
        let state = &*self.chip.state;
        match self.fault {
            Fault::WaitPastEndWraps if microseconds > state.time_left => 0,
            Fault::ZeroWaitIsOne => microseconds.max(1),
            Fault::TimeStopsWhileHeld if state.held => 0,
            Fault::TimeStopsWhileSelected if state.selected => 0,
            _ => microseconds,
        }
    }

    /// Before an event that is neither a decoded edge of C nor a rise of S.
    pub(super) fn before_other(&mut self, event: Event) {
        let in_cycle = self.chip.state.in_cycle();
        match (self.fault, event) {
            (Fault::TurnedAwayJudgedAtSelectFall, Event::Select(false)) => {
                self.cycle_before_code = in_cycle;
            }
            (Fault::UnmarkedBytesWritten, Event::Wait(_)) => {
                self.marks_before = self.chip.marks.to_vec();
                self.chip.marks.fill(1);
            }
            (
                Fault::CountLeftAtCycleEnd
                | Fault::CountAddsMarkedBytes
                | Fault::CountLeftByHeldWrite,
                Event::Wait(_),
            ) => self.note_count(),
            _ => {}
        }
    }

    pub(super) fn after_select_fall(&mut self, was: &State) {
        let state = &mut *self.chip.state;
        match self.fault {
            Fault::HoldAtSelectWithClockHigh => state.held = !state.hold,
            Fault::ProtectSeenKept => state.protect_seen_low |= was.protect_seen_low,
            _ => {}
        }
        self.keep_received(was);
    }

    /// Leaves the bits of a cut byte where the right rules clear them.
    pub(super) fn keep_received(&mut self, was: &State) {
        if self.fault == Fault::ReceivedKeptAtSelectFall {
            self.chip.state.bits = was.bits;
            self.chip.state.value = was.value;
        }
    }

    pub(super) fn after_other(&mut self, event: Event, was: &State) {
        match event {
            Event::Protect(false) => self.after_protect_low(was),
            Event::Wait(_) => self.after_wait(was),
            Event::Power => self.after_power(was),
            _ => {}
        }
    }

    fn after_protect_low(&mut self, was: &State) {
        let state = &mut *self.chip.state;
        match self.fault {
            Fault::ProtectSampledAtStart => state.protect_seen_low = was.protect_seen_low,
            Fault::ProtectNotSeenInHold if was.held => {
                state.protect_seen_low = was.protect_seen_low;
            }
            Fault::ProtectClearsWel => state.write_enable_latch = false,
            _ => {}
        }
    }

    fn after_wait(&mut self, was: &State) {
        match self.fault {
            Fault::UnmarkedBytesWritten => self.chip.marks.copy_from_slice(&self.marks_before),
            Fault::WaitWithoutCycleClearsWel if !was.in_cycle() => {
                self.chip.state.write_enable_latch = false;
            }
            _ => {}
        }
        if was.in_cycle() && !self.chip.state.in_cycle() {
            self.after_cycle(was);
        }
    }

    fn after_cycle(&mut self, was: &State) {
        self.after_change(was);
        let state = &mut *self.chip.state;
        match self.fault {
            Fault::CycleEndKeepsWel => state.write_enable_latch = was.write_enable_latch,
            Fault::TurnedAwayEndsWithCycle => state.turned_away = false,
            Fault::CycleEndClearsMarks => self.chip.marks.fill(0),
            Fault::CycleEndDropsSelection => self.chip.deselect(),
            _ => {}
        }
    }

    fn after_power(&mut self, was: &State) {
        let state = &mut *self.chip.state;
        match self.fault {
            Fault::PowerKeepsWel => state.write_enable_latch = was.write_enable_latch,
            Fault::PowerClearsStatus => state.status = 0,
            Fault::PowerUnlocks => state.locked = false,
            Fault::PowerRaisesSelect => state.select = true,
            Fault::CountClearedByPower => self.chip.counts.fill(0),
            Fault::PowerKeepsSelection => {
                *state = was.clone();
                state.write_enable_latch = false;
            }
            Fault::SelectedAfterPower if !state.select => {
                self.chip.select_falls();
                self.chip.follow_hold();
            }
            _ => {}
        }
        self.keep_received(was);
    }

    /// Mistakes about hold that show after any event; `was` is the state before all of it.
    pub(super) fn after_any(&mut self, event: Event, was: &State) {
        let state = &mut *self.chip.state;
        if !state.selected {
            return;
        }
        let hold_edge = matches!(event, Event::Clock(_) | Event::Hold(_));
        match self.fault {
            Fault::RiseDecodedWhileHeld if state.clock => state.held = was.held,
            Fault::HoldStartsWithClockHigh if state.clock && !state.hold => state.held = true,
            Fault::HoldEndsWithClockHigh if state.clock && state.hold => state.held = false,
            Fault::HoldNeedsAnEdge if !hold_edge => state.held = was.held,
            Fault::HoldLosesOutput if state.held => state.output = Output::Z,
            _ => {}
        }
    }

    /// Mistakes about when a cycle's change comes and how long it takes.
    pub(super) fn after_cycle_started(&mut self) {
        let state = &mut *self.chip.state;
        match (self.fault, state.cycle) {
            (Fault::WriteTimeOneShort, _) => state.time_left -= 1,
            (Fault::WriteTimeOneLong, _) => state.time_left += 1,
            (Fault::Device3WriteTimeAsOthers, _) => state.time_left = 5000,
            (Fault::SmallerWriteTimeIs4000, _) => state.time_left = 4000,
            (Fault::SmallerWridDoneAtOnce, Cycle::Identification) => {
                state.cycle = Cycle::None;
                state.time_left = 0;
                state.write_enable_latch = false;
            }
            (Fault::CellsChangeAtSelectRise, Cycle::Array)
            | (Fault::IdentificationChangesAtSelectRise, Cycle::Identification)
            | (Fault::StatusChangesAtSelectRise, Cycle::Status)
            | (Fault::LockChangesAtSelectRise, Cycle::Lock) => self.chip.make_change(),
            (_, Cycle::Array) => self.after_array_cycle_started(),
            _ => {}
        }
    }
}
