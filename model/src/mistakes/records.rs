//! Mistakes about records and the numbers that refuse them (document 01, "Traces" and "Numbers given back").

use super::Mistaken;
use crate::calls::{judge_record, Ran};
use crate::fault::Fault;
use crate::number::Number;
use crate::state::Output;
use crate::trace::{head, length_of, read_record, record_bytes, Event, HEAD};

/// No record that is taken is longer than this.
const LONGEST_RECORD: usize = 8;

impl Mistaken<'_> {
    /// The loop of `run` with a mistaken device, or with mistakes of its own.
    pub(super) fn run(&mut self, trace: &[u8], answers: &mut [u8], limit: usize) -> Ran {
        let (mut done, mut taken) = (0, 0);
        let mut number = Number::Done;
        while done < limit && taken < trace.len() {
            let record = self.judge_record(&trace[taken..], done < answers.len());
            match record.and_then(|(event, bytes)| Ok((self.try_event(event)?, bytes))) {
                Ok((answer, bytes)) => {
                    answers[done] = answer as u8;
                    done += 1;
                    taken += bytes;
                }
                Err(refused) => {
                    number = refused;
                    break;
                }
            }
        }
        let room_left = done < answers.len();
        match self.fault {
            Fault::RefusalWritesAnswer if number != Number::Done && room_left => {
                answers[done] = Output::Z as u8;
            }
            Fault::LookPastLimit if taken < trace.len() && number == Number::Done => {
                number = match judge_record(&trace[taken..], true) {
                    Ok((event, _)) => self.refusal(event).unwrap_or(Number::Done),
                    Err(refused) => refused,
                };
            }
            Fault::TailIsEnd if trace.len() - taken < HEAD => number = Number::Done,
            _ => {}
        }
        Ran {
            number,
            done,
            taken,
        }
    }

    fn judge_record(&mut self, bytes: &[u8], has_room: bool) -> Result<(Event, usize), Number> {
        if let Some(number) = self.judged_too_early(bytes, has_room) {
            return Err(number);
        }
        let mut start = [0; LONGEST_RECORD];
        let size = bytes.len().min(LONGEST_RECORD);
        start[..size].copy_from_slice(&bytes[..size]);
        self.misread(&mut start);
        if has_room && is_power(&start[..size]) {
            self.end_cycle_at_power();
        }
        judge_record(&start[..size], has_room)
    }

    /// Changes the bytes of a record to those that a mistaken reader sees.
    fn misread(&self, start: &mut [u8; LONGEST_RECORD]) {
        match self.fault {
            Fault::LengthHighByteIgnored => start[1] = 0,
            Fault::KindHighByteIgnored => start[3] = 0,
            // It shall do nothing, so it sets a pin that nothing looks at outside a selection.
            Fault::DeviceRecordTakenInTrace if start[..HEAD] == [3, 0, 16, 0] => {
                start[2..].copy_from_slice(&[1, 0, 9, 0, 0, 0]);
            }
            Fault::PinTenTaken if start[..HEAD] == [3, 0, 1, 0] && start[HEAD] >> 1 == 5 => {
                start[HEAD] -= 2;
            }
            _ => {}
        }
    }

    /// The number that a wrong order gives, where it gives another one.
    fn judged_too_early(&self, bytes: &[u8], has_room: bool) -> Option<Number> {
        if self.fault == Fault::RoomJudgedBeforePin && !has_room {
            return Some(Number::Answers);
        }
        if bytes.len() < HEAD {
            return None;
        }
        let (length, kind) = head(bytes);
        let cut = bytes.len() < record_bytes(length);
        match self.fault {
            Fault::BodyJudgedBeforeKind if cut => Some(Number::Cut),
            Fault::BodyJudgedBeforeLength if cut && length_of(kind).is_some() => Some(Number::Cut),
            Fault::LengthJudgedBeforeKind if !(2..=6).contains(&length) => Some(Number::Length),
            Fault::PowerJudgedBeforeRoom if is_power(bytes) && self.chip.state.in_cycle() => {
                Some(Number::Power)
            }
            _ => None,
        }
    }
}

fn is_power(bytes: &[u8]) -> bool {
    matches!(read_record(bytes), Ok((Event::Power, _)))
}
