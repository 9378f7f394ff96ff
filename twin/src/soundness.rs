//! Which states a call may trust. One function a clause, in the order of the rule.

use crate::drive::{step_target, threshold, CurrentRate, DIAMETER_MAX, DIAMETER_MIN, TOTAL_MAX};
use crate::functions::Function;
use crate::line::{is_kept, LINE_LENGTH};
use crate::loops::LOOPS_MAX;
use crate::numbers::{writable, NUMBER_MAX};
use crate::packet::Packet;
use crate::program::{is_phase, Phase, PHASES};
use crate::state::{Mode, Pump, Visit};

const PASSES_MAX: u8 = 98;

impl Pump {
    pub fn is_sound(&self) -> bool {
        self.ranges_sound()
            && self.line_sound()
            && self.link_sound()
            && self.program.phases.iter().all(phase_sound)
            && self.loops_sound()
            && self.store_sound()
            && self.visit_sound()
            && self.pause_sound()
            && self.trigger_wait_sound()
            && self.one_under_way()
            && self.stopped_sound()
            && self.alarm_sound()
    }

    fn ranges_sound(&self) -> bool {
        (DIAMETER_MIN..=DIAMETER_MAX).contains(&self.diameter)
            && writable(self.diameter)
            && is_phase(self.chosen)
            && (1..=PHASES + 1).contains(&self.current)
            && self.rate.is_none_or(|rate| rate.thousandths <= NUMBER_MAX)
            && self.trap.is_none_or(is_phase)
            && self.infused <= TOTAL_MAX
            && self.withdrawn <= TOTAL_MAX
            && self.levels_sound()
    }

    fn levels_sound(&self) -> bool {
        self.pins.pin2 <= 1 && self.pins.pin4 <= 1 && self.pins.pin6 <= 1 && self.output <= 1
    }

    fn line_sound(&self) -> bool {
        self.line.length <= LINE_LENGTH
            && self.line.characters().iter().all(|&c| is_kept(c))
            && (!self.line.over_long || self.line.length == LINE_LENGTH)
    }

    /// What belongs to the other mode is not there.
    fn link_sound(&self) -> bool {
        if !self.safe() {
            return self.timer.is_none() && self.packet.is_none();
        }
        self.line.length == 0
            && self.timer.is_none_or(|left| (1..=self.limit_ticks()).contains(&left))
            && self.packet.as_ref().is_none_or(Packet::is_sound)
    }

    fn loops_sound(&self) -> bool {
        if self.loops.count > LOOPS_MAX {
            return false;
        }
        let open = self.loops.open();
        open.iter().enumerate().all(|(i, this)| {
            this.beginner <= PHASES
                && this.passes <= PASSES_MAX
                && open[..i].iter().all(|other| other.beginner != this.beginner)
        })
    }

    fn store_sound(&self) -> bool {
        match self.visit {
            Some(_) => self.store < threshold(self.diameter),
            None => self.store == 0,
        }
    }

    fn visit_sound(&self) -> bool {
        let Some(visit) = self.visit else {
            return true;
        };
        self.program.phase(self.current).is_some_and(|phase| {
            phase.function.dispenses()
                && visit.target == step_target(phase, self.diameter)
                && given_sound(visit)
                && self.rate.is_some_and(|rate: CurrentRate| rate.usable(self.diameter))
        })
    }

    fn pause_sound(&self) -> bool {
        let Some(left) = self.pause else {
            return true;
        };
        // A phase that is no timed pause has 0 ticks, so no number left is right for it.
        self.program.phase(self.current).is_some_and(|phase| (1..=phase.function.pause_ticks()).contains(&left))
    }

    fn trigger_wait_sound(&self) -> bool {
        !self.trigger_wait || self.program.phase(self.current).is_some_and(|phase| phase.function == Function::Pause(0))
    }

    fn one_under_way(&self) -> bool {
        u8::from(self.visit.is_some()) + u8::from(self.pause.is_some()) + u8::from(self.trigger_wait) <= 1
    }

    fn stopped_sound(&self) -> bool {
        self.mode != Mode::Stopped
            || (self.visit.is_none()
                && self.pause.is_none()
                && !self.trigger_wait
                && self.trap.is_none()
                && self.loops.count == 0
                && self.rate.is_none())
    }

    fn alarm_sound(&self) -> bool {
        self.alarm.is_none() || self.mode == Mode::Stopped
    }
}

fn phase_sound(phase: &Phase) -> bool {
    phase.function.in_range() && writable(phase.rate) && writable(phase.volume)
}

fn given_sound(visit: Visit) -> bool {
    match visit.target {
        Some(target) => visit.given < target,
        None => visit.given == 0,
    }
}
