//! Safe mode: its command SAF, the bytes of packets, and what a tick does for the cable.

use crate::answers::{alarm_answer, communication_error, CommandError, Outcome, Text, START};
use crate::line::Line;
use crate::numbers::{print_three_digits, read_three_digits};
use crate::packet::{packet, Packet, Taken};
use crate::state::{Alarm, Pump};

const TICKS_A_SECOND: u32 = 1_000;

impl Pump {
    /// Basic mode is a limit of none.
    pub fn safe(&self) -> bool {
        self.limit > 0
    }

    pub fn limit_ticks(&self) -> u32 {
        u32::from(self.limit) * TICKS_A_SECOND
    }

    /// Taken in every state of the pump; a pause is kept.
    pub(crate) fn saf(&mut self, argument: &[u8]) -> Outcome {
        if argument.is_empty() {
            let mut text = Text::new();
            print_three_digits(&mut text, self.limit);
            return Ok(text);
        }
        let seconds = read_three_digits(argument).ok_or(CommandError::Malformed)?;
        self.limit = u8::try_from(seconds).map_err(|_| CommandError::OutOfRange)?;
        self.restart_timer();
        Ok(Text::new())
    }

    /// A byte in Safe mode; gives the packet that answers it.
    pub(crate) fn packet_byte(&mut self, byte: u8) -> Option<Vec<u8>> {
        let Some(mut part) = self.packet.take() else {
            if byte == START {
                self.packet = Some(Packet::new());
            }
            return None;
        };
        match part.take(byte) {
            Taken::Part => {
                self.packet = Some(part);
                None
            }
            // Nobody knows whom it was for, so address, alarm and timer are left out of it.
            Taken::Wrong => Some(packet(communication_error(self.status()).as_bytes())),
            Taken::Whole => self.end_packet(part.data()),
        }
    }

    /// A good packet, to whatever address. Its command may turn to Basic mode, but is answered in the one it came in.
    fn end_packet(&mut self, data: &[u8]) -> Option<Vec<u8>> {
        self.restart_timer();
        let answer = self.answer(&Line::as_it_came(data))?;
        Some(packet(answer.as_bytes()))
    }

    /// What a tick does in Safe mode when its other work is done. Gives the packet of a new alarm.
    pub(crate) fn watch(&mut self, mut raised: bool) -> Option<Vec<u8>> {
        if self.packet.as_mut().is_some_and(|part| !part.wait()) {
            self.packet = None;
        }
        if self.time_is_out() {
            self.raise_alarm(Alarm::TimeOut);
            raised = true;
        }
        let alarm = self.alarm.filter(|_| raised)?;
        Some(packet(alarm_answer(alarm).as_bytes()))
    }

    /// One tick of the timer. When it has run out it waits for the next good packet.
    fn time_is_out(&mut self) -> bool {
        self.timer = match self.timer {
            None => return false,
            Some(1) => None,
            Some(left) => Some(left - 1),
        };
        self.timer.is_none()
    }

    /// The whole limit again.
    fn restart_timer(&mut self) {
        self.timer = self.safe().then_some(self.limit_ticks());
    }
}
