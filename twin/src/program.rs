//! The program: forty-one phases, each with a function and the data of a dispense.

use crate::drive::{CurrentRate, RateUnit};
use crate::functions::Function;

pub const PHASES: u8 = 41;

#[derive(Clone, Copy, Debug, PartialEq, Eq)]
pub enum Direction {
    Infuse,
    Withdraw,
}

/// A phase keeps rate, unit, volume and direction whatever its function is, so that a change of function loses nothing.
#[derive(Clone, Copy, Debug, PartialEq, Eq)]
pub struct Phase {
    pub function: Function,
    pub rate: u32,
    pub unit: RateUnit,
    pub volume: u32,
    pub direction: Direction,
}

/// Phases are numbered from 1, as the operator numbers them.
#[derive(Clone, Debug, PartialEq, Eq)]
pub struct Program {
    pub phases: [Phase; PHASES as usize],
}

pub fn is_phase(n: u8) -> bool {
    (1..=PHASES).contains(&n)
}

impl Program {
    /// The program at power-up.
    pub fn new() -> Program {
        let mut phases = [Phase::new(Function::Stop); PHASES as usize];
        phases[0].function = Function::Rate;
        Program { phases }
    }

    /// The phase of this number; none past the last one.
    pub fn phase(&self, n: u8) -> Option<&Phase> {
        self.phases.get(usize::from(n).wrapping_sub(1))
    }

    pub fn phase_mut(&mut self, n: u8) -> Option<&mut Phase> {
        self.phases.get_mut(usize::from(n).wrapping_sub(1))
    }
}

impl Default for Program {
    fn default() -> Program {
        Program::new()
    }
}

impl Phase {
    fn new(function: Function) -> Phase {
        Phase { function, rate: 0, unit: RateUnit::MillilitreHour, volume: 0, direction: Direction::Infuse }
    }

    pub fn stored_rate(&self) -> CurrentRate {
        CurrentRate { thousandths: self.rate, unit: self.unit }
    }
}

impl Direction {
    pub fn reversed(self) -> Direction {
        match self {
            Direction::Infuse => Direction::Withdraw,
            Direction::Withdraw => Direction::Infuse,
        }
    }

    pub fn name(self) -> &'static [u8] {
        match self {
            Direction::Infuse => b"INF",
            Direction::Withdraw => b"WDR",
        }
    }
}
