//! Settings and queries of the syringe and of a phase: DIA, RAT, VOL, DIR, PHN and FUN.

use crate::answers::{CommandError, Outcome, Text};
use crate::drive::{volume_unit, CurrentRate, RateUnit, DIAMETER_MAX, DIAMETER_MIN};
use crate::functions::Function;
use crate::numbers::{print_number, print_two_digits, read_number, read_two_digits};
use crate::program::{is_phase, Direction, Phase, PHASES};
use crate::state::{Mode, Pump};

impl Pump {
    pub(crate) fn dia(&mut self, argument: &[u8]) -> Outcome {
        if argument.is_empty() {
            let mut text = Text::new();
            print_number(&mut text, self.diameter);
            return Ok(text);
        }
        let diameter = read_number(argument).ok_or(CommandError::Malformed)?;
        self.not_while_operating()?;
        if !(DIAMETER_MIN..=DIAMETER_MAX).contains(&diameter) {
            return Err(CommandError::OutOfRange);
        }
        self.diameter = diameter;
        self.accepted()
    }

    pub(crate) fn rat(&mut self, argument: &[u8]) -> Outcome {
        if argument.is_empty() {
            return self.rat_query();
        }
        let (rate, unit) = read_rate(argument).ok_or(CommandError::Malformed)?;
        if self.operating() {
            self.alter_current_rate(rate, unit)
        } else {
            self.store_rate(rate, unit)
        }
    }

    fn rat_query(&self) -> Outcome {
        let mut text = Text::new();
        if self.operating() {
            let rate = self.rate.ok_or(CommandError::NotApplicable)?;
            print_number(&mut text, rate.thousandths);
            text.push(rate.unit.name());
            return Ok(text);
        }
        let phase = self.dispensing_phase()?;
        print_number(&mut text, phase.rate);
        if phase.function == Function::Rate {
            text.push(phase.unit.name());
        }
        Ok(text)
    }

    fn store_rate(&mut self, rate: u32, unit: Option<RateUnit>) -> Outcome {
        let phase = *self.dispensing_phase()?;
        let is_rate = phase.function == Function::Rate;
        if !is_rate && unit.is_some() {
            return Err(CommandError::NotApplicable);
        }
        let unit = unit.unwrap_or(phase.unit);
        // INC and DEC store a difference: the motor's limits are asked only of the rate it leads to.
        let in_range = if is_rate { CurrentRate { thousandths: rate, unit }.usable(self.diameter) } else { rate > 0 };
        if !in_range {
            return Err(CommandError::OutOfRange);
        }
        self.alter_chosen(|phase| {
            phase.rate = rate;
            phase.unit = unit;
        })
    }

    /// While operating a RAT setting touches the rate that the motor follows, and nothing stored.
    fn alter_current_rate(&mut self, rate: u32, unit: Option<RateUnit>) -> Outcome {
        let running_rate = self.program.phase(self.current).is_some_and(|phase| phase.function == Function::Rate);
        let ramp_follows = self
            .program
            .phase(self.current.saturating_add(1))
            .is_some_and(|next| matches!(next.function, Function::Increment | Function::Decrement));
        if !running_rate || self.visit.is_none() || ramp_follows || unit.is_some() {
            return Err(CommandError::NotApplicable);
        }
        let current = self.rate.ok_or(CommandError::NotApplicable)?;
        let wanted = CurrentRate { thousandths: rate, ..current };
        if !wanted.usable(self.diameter) {
            return Err(CommandError::OutOfRange);
        }
        self.rate = Some(wanted);
        Ok(Text::new())
    }

    pub(crate) fn vol(&mut self, argument: &[u8]) -> Outcome {
        if argument.is_empty() {
            let phase = self.dispensing_phase()?;
            let mut text = Text::new();
            print_number(&mut text, phase.volume);
            text.push(volume_unit(self.diameter).name());
            return Ok(text);
        }
        let volume = read_number(argument).ok_or(CommandError::Malformed)?;
        self.not_while_operating()?;
        self.dispensing_phase()?;
        self.alter_chosen(|phase| phase.volume = volume)
    }

    pub(crate) fn dir(&mut self, argument: &[u8]) -> Outcome {
        let stored = self.concerned_phase().map_or(Direction::Infuse, |phase| phase.direction);
        let wanted = match argument {
            b"" => return Ok(Text::of(stored.name())),
            b"INF" => Direction::Infuse,
            b"WDR" => Direction::Withdraw,
            b"REV" => stored.reversed(),
            _ => return Err(CommandError::Malformed),
        };
        // A dispense of a set volume keeps its direction: the other one would undo what was given.
        if self.operating() && self.dispensing_phase()?.volume != 0 {
            return Err(CommandError::NotApplicable);
        }
        let concerned = self.concerned();
        if let Some(phase) = self.program.phase_mut(concerned) {
            phase.direction = wanted;
        }
        self.accepted()
    }

    pub(crate) fn phn(&mut self, argument: &[u8]) -> Outcome {
        if argument.is_empty() {
            if self.concerned() > PHASES {
                return Err(CommandError::NotApplicable);
            }
            let mut text = Text::new();
            print_two_digits(&mut text, self.concerned());
            return Ok(text);
        }
        let phase = read_two_digits(argument).ok_or(CommandError::Malformed)?;
        self.not_while_operating()?;
        if !is_phase(phase) {
            return Err(CommandError::OutOfRange);
        }
        self.chosen = phase;
        Ok(Text::new())
    }

    pub(crate) fn fun(&mut self, argument: &[u8]) -> Outcome {
        if argument.is_empty() {
            let function = self.concerned_phase().map_or(Function::Stop, |phase| phase.function);
            let mut text = Text::new();
            function.print(&mut text);
            return Ok(text);
        }
        let function = Function::read(argument).ok_or(CommandError::Malformed)?;
        self.not_while_operating()?;
        if !function.in_range() {
            return Err(CommandError::OutOfRange);
        }
        self.alter_chosen(|phase| phase.function = function)
    }

    /// The concerned phase if it is RAT, INC or DEC.
    fn dispensing_phase(&self) -> Result<&Phase, CommandError> {
        self.concerned_phase().filter(|phase| phase.function.dispenses()).ok_or(CommandError::NotApplicable)
    }

    fn alter_chosen(&mut self, alter: impl FnOnce(&mut Phase)) -> Outcome {
        if let Some(phase) = self.program.phase_mut(self.chosen) {
            alter(phase);
        }
        self.accepted()
    }

    /// A paused run was made for the old settings, so an accepted setting ends it.
    fn accepted(&mut self) -> Outcome {
        if self.mode == Mode::Paused {
            self.stop();
        }
        Ok(Text::new())
    }
}

/// A number, and units if the last two letters are some.
fn read_rate(argument: &[u8]) -> Option<(u32, Option<RateUnit>)> {
    let unit = RateUnit::ALL.into_iter().find(|unit| argument.ends_with(unit.name()));
    let number = &argument[..argument.len() - unit.map_or(0, |unit| unit.name().len())];
    Some((read_number(number)?, unit))
}
