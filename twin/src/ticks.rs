//! The tick: a thousand a second, each either enters the current phase or works the entered one.

use crate::answers::ANSWER_ROOM;
use crate::commands::written;
use crate::drive::{step_target, step_volume, threshold, CurrentRate, TOTAL_MAX};
use crate::functions::Function;
use crate::numbers::NUMBER_MAX;
use crate::program::{Direction, Phase};
use crate::report::{Report, SHORT_BUFFER, TOO_MANY_TICKS, UNSOUND};
use crate::state::{Pump, Visit};

/// One call does no more ticks than these: a bit more than a quarter of an hour.
pub const TICKS_A_CALL_MAX: u32 = 1_000_000;

impl Pump {
    pub fn tick(&mut self, out: &mut [u8]) -> Report {
        if !self.is_sound() {
            return self.refused(UNSOUND);
        }
        if out.len() < ANSWER_ROOM {
            return self.refused(SHORT_BUFFER);
        }
        self.tick_untested(out)
    }

    /// So many single ticks one after another, but none after one that sent a packet. One test of the state serves for
    /// all: a tick keeps a sound state sound.
    pub fn ticks(&mut self, n: u32, out: &mut [u8]) -> Report {
        if !self.is_sound() {
            return self.refused(UNSOUND);
        }
        if out.len() < ANSWER_ROOM {
            return self.refused(SHORT_BUFFER);
        }
        if n > TICKS_A_CALL_MAX {
            return self.refused(TOO_MANY_TICKS);
        }
        let mut sum = Report { ticks: n, ..self.quiet() };
        for done in 0..n {
            let report = self.tick_untested(out);
            sum.infused += report.infused;
            sum.withdrawn += report.withdrawn;
            sum.beeps += report.beeps;
            if report.answer > 0 {
                (sum.ticks, sum.answer) = (done + 1, report.answer);
                break;
            }
        }
        sum.output = self.output;
        sum
    }

    /// A tick of a state that is known to be sound; it is sound afterwards too.
    #[inline]
    fn tick_untested(&mut self, out: &mut [u8]) -> Report {
        let mut report = Report { ticks: 1, ..self.quiet() };
        let pending = self.alarm;
        if self.operating() && !self.trigger_wait {
            if let Some(visit) = self.visit {
                self.work_visit(visit, &mut report);
            } else if let Some(left) = self.pause {
                self.work_pause(left);
            } else {
                self.enter(&mut report);
            }
        }
        report.output = self.output;
        if self.safe() {
            // A pump that moves has no alarm pending, so one that was not there before is new.
            let sent = self.watch(self.alarm != pending);
            report.answer = written(sent, out);
        }
        report
    }

    fn enter(&mut self, report: &mut Report) {
        let Some(&phase) = self.program.phase(self.current) else {
            return self.stop();
        };
        match phase.function {
            Function::Rate | Function::Increment | Function::Decrement => self.enter_visit(&phase),
            Function::Pause(_) | Function::PauseTenths(_) => self.enter_pause(phase.function),
            Function::LoopStart => self.enter_loop_start(),
            Function::Loop(count) => match self.loops.pass(count) {
                Some(back) => self.go_to(back),
                None => self.go_on(),
            },
            Function::LoopEndless => {
                let back = self.loops.repeat();
                self.go_to(back)
            }
            Function::Jump(n) => self.go_to(n),
            Function::If(n) if self.pins.pin6 == 0 => self.go_to(n),
            Function::If(_) => self.go_on(),
            Function::EventTrap(n) => self.enter_trap(n),
            Function::EventReset => {
                self.trap = None;
                self.go_on()
            }
            Function::Beep => {
                report.beeps = 1;
                self.go_on()
            }
            Function::Output(level) => {
                self.output = level;
                self.go_on()
            }
            Function::Stop => self.stop(),
        }
    }

    fn enter_visit(&mut self, phase: &Phase) {
        let Some(rate) = self.entry_rate(phase).filter(|rate| rate.usable(self.diameter)) else {
            return self.raise_program_alarm();
        };
        self.rate = Some(rate);
        match step_target(phase, self.diameter) {
            // Less than one step: nothing to give, but the rate is current for an INC or DEC that follows.
            Some(0) => self.go_on(),
            target => {
                self.visit = Some(Visit { target, given: 0 });
                self.store = 0;
            }
        }
    }

    /// The rate that a visit of this phase begins with; none if there is nothing to add to or the sum is out of bounds.
    fn entry_rate(&self, phase: &Phase) -> Option<CurrentRate> {
        if phase.function == Function::Rate {
            return Some(phase.stored_rate());
        }
        let current = self.rate?;
        let thousandths = match phase.function {
            Function::Increment => current.thousandths.checked_add(phase.rate)?,
            _ => current.thousandths.checked_sub(phase.rate)?,
        };
        (thousandths <= NUMBER_MAX).then_some(CurrentRate { thousandths, ..current })
    }

    fn enter_pause(&mut self, function: Function) {
        self.rate = None;
        match function.pause_ticks() {
            0 => self.trigger_wait = true,
            ticks => self.pause = Some(ticks),
        }
    }

    fn enter_loop_start(&mut self) {
        if self.loops.begin(self.current) {
            self.go_on();
        } else {
            self.raise_program_alarm();
        }
    }

    fn enter_trap(&mut self, n: u8) {
        if self.pins.pin4 == 0 {
            self.fire(n);
        } else {
            self.trap = Some(n);
            self.go_on();
        }
    }

    fn work_pause(&mut self, left: u32) {
        if left > 1 {
            self.pause = Some(left - 1);
        } else {
            self.go_on();
        }
    }

    fn work_visit(&mut self, mut visit: Visit, report: &mut Report) {
        // A sound pump has a rate and a real phase in a visit; both are asked only to name them.
        let (Some(rate), Some(direction)) = (self.rate, self.program.phase(self.current).map(|p| p.direction)) else {
            return;
        };
        let threshold = threshold(self.diameter);
        let gathered = self.store + rate.hourly();
        let due = gathered / threshold;
        let steps = visit.target.map_or(due, |target| due.min(target - visit.given));
        if !self.book(direction, steps) {
            return self.raise_program_alarm();
        }
        match direction {
            Direction::Infuse => report.infused = steps as u32,
            Direction::Withdraw => report.withdrawn = steps as u32,
        }
        self.store = gathered % threshold;
        if let Some(target) = visit.target {
            visit.given += steps;
            self.visit = Some(visit);
            if visit.given == target {
                self.go_on();
            }
        }
    }

    /// Adds steps to their total, at the price of the present diameter. Gives false if the total would pass its limit.
    fn book(&mut self, direction: Direction, steps: u64) -> bool {
        let total = match direction {
            Direction::Infuse => &mut self.infused,
            Direction::Withdraw => &mut self.withdrawn,
        };
        let sum = *total + steps * step_volume(self.diameter);
        if sum > TOTAL_MAX {
            return false;
        }
        *total = sum;
        true
    }
}
