//! A byte from the line, and the command that a return or a whole packet completes.

use crate::answers::{alarm_answer, command_answer, framed, CommandError, Outcome, Text, ANSWER_ROOM};
use crate::line::{Line, RETURN};
use crate::report::{Report, SHORT_BUFFER, UNSOUND};
use crate::state::Pump;

impl Pump {
    pub fn byte(&mut self, byte: u8, out: &mut [u8]) -> Report {
        if !self.is_sound() {
            return self.refused(UNSOUND);
        }
        if out.len() < ANSWER_ROOM {
            return self.refused(SHORT_BUFFER);
        }
        let answer = if self.safe() { self.packet_byte(byte) } else { self.line_byte(byte) };
        Report { answer: written(answer, out), ..self.quiet() }
    }

    fn line_byte(&mut self, byte: u8) -> Option<Vec<u8>> {
        if byte != RETURN {
            self.line.take(byte);
            return None;
        }
        let line = std::mem::take(&mut self.line);
        Some(framed(&self.answer(&line)?))
    }

    /// The checks in their order: address, pending alarm, then what the command itself asks.
    pub(crate) fn answer(&mut self, line: &Line) -> Option<Text> {
        let command = line.command()?;
        if let Some(alarm) = self.alarm.take() {
            return Some(alarm_answer(alarm));
        }
        let outcome = self.obey(line, command);
        Some(command_answer(self.status(), &outcome))
    }

    fn obey(&mut self, line: &Line, command: &[u8]) -> Outcome {
        if line.over_long {
            return Err(CommandError::Malformed);
        }
        match command {
            b"" => Ok(Text::new()),
            [b'D', b'I', b'A', argument @ ..] => self.dia(argument),
            [b'R', b'A', b'T', argument @ ..] => self.rat(argument),
            [b'V', b'O', b'L', argument @ ..] => self.vol(argument),
            [b'D', b'I', b'R', argument @ ..] => self.dir(argument),
            [b'P', b'H', b'N', argument @ ..] => self.phn(argument),
            [b'F', b'U', b'N', argument @ ..] => self.fun(argument),
            [b'R', b'U', b'N', argument @ ..] => self.run(argument),
            [b'C', b'L', b'D', argument @ ..] => self.cld(argument),
            [b'S', b'A', b'F', argument @ ..] => self.saf(argument),
            b"STP" => self.stp(),
            b"DIS" => self.dis(),
            b"*RESET" => self.reset(),
            _ => Err(CommandError::Malformed),
        }
    }

    pub(crate) fn not_while_operating(&self) -> Result<(), CommandError> {
        if self.operating() {
            return Err(CommandError::NotApplicable);
        }
        Ok(())
    }
}

/// Writes what is to be sent, if anything, to the caller's buffer; gives its length.
pub(crate) fn written(sent: Option<Vec<u8>>, out: &mut [u8]) -> usize {
    let bytes = sent.unwrap_or_default();
    out[..bytes.len()].copy_from_slice(&bytes);
    bytes.len()
}
