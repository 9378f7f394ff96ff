//! Commands that move the pump or concern its totals: RUN, STP, DIS, CLD and *RESET.

use crate::answers::{CommandError, Outcome, Text};
use crate::drive::{volume_unit, VolumeUnit};
use crate::numbers::{print_number, read_two_digits, NUMBER_MAX};
use crate::program::is_phase;
use crate::state::{Mode, Pump};

impl Pump {
    pub(crate) fn run(&mut self, argument: &[u8]) -> Outcome {
        if argument.is_empty() {
            self.run_on()?;
            return Ok(Text::new());
        }
        let phase = read_two_digits(argument).ok_or(CommandError::Malformed)?;
        self.not_while_operating()?;
        if !is_phase(phase) {
            return Err(CommandError::OutOfRange);
        }
        self.start(phase);
        Ok(Text::new())
    }

    fn run_on(&mut self) -> Result<(), CommandError> {
        match self.mode {
            Mode::Stopped => self.start(1),
            Mode::Paused => self.mode = Mode::Operating,
            Mode::Operating if self.trigger_wait => self.go_on(),
            Mode::Operating => return Err(CommandError::NotApplicable),
        }
        Ok(())
    }

    /// A pause drops nothing, so only the mode changes; a trigger wait has nothing to pause.
    pub(crate) fn stp(&mut self) -> Outcome {
        match self.mode {
            Mode::Operating if !self.trigger_wait => self.mode = Mode::Paused,
            Mode::Operating | Mode::Paused => self.stop(),
            Mode::Stopped => return Err(CommandError::NotApplicable),
        }
        Ok(Text::new())
    }

    pub(crate) fn dis(&self) -> Outcome {
        let unit = volume_unit(self.diameter);
        let infused = printable(self.infused, unit)?;
        let withdrawn = printable(self.withdrawn, unit)?;
        let mut text = Text::of(b"I");
        print_number(&mut text, infused);
        text.push(b"W");
        print_number(&mut text, withdrawn);
        text.push(unit.name());
        Ok(text)
    }

    pub(crate) fn cld(&mut self, argument: &[u8]) -> Outcome {
        let total = match argument {
            b"INF" => &mut self.infused,
            b"WDR" => &mut self.withdrawn,
            _ => return Err(CommandError::Malformed),
        };
        if self.mode == Mode::Operating {
            return Err(CommandError::NotApplicable);
        }
        *total = 0;
        Ok(Text::new())
    }

    /// Power-up again, but the host asked for it, so no alarm; the pins are wires and stay.
    pub(crate) fn reset(&mut self) -> Outcome {
        *self = Pump { alarm: None, pins: self.pins, ..Pump::new() };
        Ok(Text::new())
    }
}

/// A total in thousandths of its unit, if four digits can show it: below 10,000 units.
fn printable(total: u64, unit: VolumeUnit) -> Result<u32, CommandError> {
    let thousandths = total / unit.thousandth();
    if thousandths >= u64::from(NUMBER_MAX) + 1000 {
        return Err(CommandError::OutOfRange);
    }
    Ok(thousandths as u32)
}
