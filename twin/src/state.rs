//! The whole state of the board, its status letter, and the moves that several calls share.

use crate::drive::CurrentRate;
use crate::line::Line;
use crate::loops::Loops;
use crate::packet::Packet;
use crate::program::{Direction, Phase, Program};

#[derive(Clone, Copy, Debug, PartialEq, Eq)]
pub enum Alarm {
    /// The board was reset.
    Reset,
    /// The program cannot go on.
    Program,
    /// No good packet came in time.
    TimeOut,
}

#[derive(Clone, Copy, Debug, PartialEq, Eq)]
pub enum Mode {
    Stopped,
    Paused,
    Operating,
}

/// A dispense under way. A continuous one has no target and counts no steps.
#[derive(Clone, Copy, Debug, PartialEq, Eq)]
pub struct Visit {
    pub target: Option<u64>,
    pub given: u64,
}

/// Kept pin levels: pin 2 starts and stops, pin 4 fires the trap, pin 6 is asked by IF.
#[derive(Clone, Copy, Debug, PartialEq, Eq)]
pub struct Pins {
    pub pin2: u8,
    pub pin4: u8,
    pub pin6: u8,
}

/// Every field is open, so that a state can be kept, given back and held against another;
/// each call tests the whole before it trusts any of it.
#[derive(Clone, Debug, PartialEq, Eq)]
pub struct Pump {
    /// Of Basic mode; empty in Safe mode.
    pub line: Line,
    /// The time limit of Safe mode in seconds; 0 is Basic mode.
    pub limit: u8,
    /// Ticks left of the limit; none while it waits for a good packet, and in Basic mode.
    pub timer: Option<u32>,
    /// A packet of which a part came, in Safe mode.
    pub packet: Option<Packet>,
    pub alarm: Option<Alarm>,
    pub mode: Mode,
    /// In micrometres.
    pub diameter: u32,
    pub program: Program,
    /// The phase that PHN chose for settings and queries.
    pub chosen: u8,
    /// The running phase, one past the last when the program has run out.
    pub current: u8,
    pub rate: Option<CurrentRate>,
    pub visit: Option<Visit>,
    /// Femtolitres an hour, summed tick by tick, that have not yet made a step.
    pub store: u64,
    /// Ticks left of a timed pause.
    pub pause: Option<u32>,
    pub trigger_wait: bool,
    pub trap: Option<u8>,
    pub loops: Loops,
    /// In femtolitres, so that a new diameter never prices old steps anew.
    pub infused: u64,
    pub withdrawn: u64,
    pub pins: Pins,
    pub output: u8,
}

impl Pump {
    /// The state at power-up.
    pub fn new() -> Pump {
        Pump {
            line: Line::new(),
            limit: 0,
            timer: None,
            packet: None,
            alarm: Some(Alarm::Reset),
            mode: Mode::Stopped,
            diameter: 10_000,
            program: Program::new(),
            chosen: 1,
            current: 1,
            rate: None,
            visit: None,
            store: 0,
            pause: None,
            trigger_wait: false,
            trap: None,
            loops: Loops::new(),
            infused: 0,
            withdrawn: 0,
            pins: Pins { pin2: 1, pin4: 1, pin6: 1 },
            output: 0,
        }
    }

    pub fn status(&self) -> u8 {
        match self.mode {
            Mode::Stopped => b'S',
            Mode::Paused => b'P',
            Mode::Operating if self.pause.is_some() => b'T',
            Mode::Operating if self.trigger_wait => b'U',
            Mode::Operating => match self.running_direction() {
                Direction::Infuse => b'I',
                Direction::Withdraw => b'W',
            },
        }
    }

    pub fn operating(&self) -> bool {
        self.mode == Mode::Operating
    }

    /// The phase that settings and queries concern.
    pub(crate) fn concerned(&self) -> u8 {
        if self.operating() {
            self.current
        } else {
            self.chosen
        }
    }

    /// The concerned phase; none when the program has run past the last one.
    pub(crate) fn concerned_phase(&self) -> Option<&Phase> {
        self.program.phase(self.concerned())
    }

    fn running_direction(&self) -> Direction {
        self.program.phase(self.current).map_or(Direction::Infuse, |phase| phase.direction)
    }

    pub(crate) fn start(&mut self, phase: u8) {
        self.drop_run();
        self.mode = Mode::Operating;
        self.current = phase;
    }

    /// The place stays what it was; only a start chooses a new one.
    pub(crate) fn stop(&mut self) {
        self.drop_run();
        self.mode = Mode::Stopped;
    }

    pub(crate) fn raise_program_alarm(&mut self) {
        self.raise_alarm(Alarm::Program);
    }

    pub(crate) fn raise_alarm(&mut self, alarm: Alarm) {
        self.stop();
        self.alarm = Some(alarm);
    }

    /// Goes to a phase that is not entered. A visit leaves nothing of its time store behind.
    pub(crate) fn go_to(&mut self, phase: u8) {
        self.leave_phase();
        self.current = phase;
    }

    pub(crate) fn go_on(&mut self) {
        self.go_to(self.current + 1);
    }

    fn leave_phase(&mut self) {
        self.visit = None;
        self.store = 0;
        self.pause = None;
        self.trigger_wait = false;
    }

    fn drop_run(&mut self) {
        self.leave_phase();
        self.trap = None;
        self.loops = Loops::new();
        self.rate = None;
    }
}

impl Default for Pump {
    fn default() -> Pump {
        Pump::new()
    }
}

impl Alarm {
    pub fn letter(self) -> u8 {
        match self {
            Alarm::Reset => b'R',
            Alarm::Program => b'E',
            Alarm::TimeOut => b'T',
        }
    }
}
