//! A time-out that meets something else: limits set so that both come in one tick.

use twin::{Alarm, Mode, Pump, ANSWER_ROOM};

use crate::composer::Composer;

/// How far a run is followed.
const FORECAST_TICKS: u64 = 6_000;
const SECOND: u64 = 1_000;

/// What happens if the pump is left alone: the ticks in which it does.
#[derive(Default)]
struct Ahead {
    /// A beep or a new level.
    signals: Vec<u64>,
    /// Alarm E, the end of a visit, of a pause or of the program.
    ends: Vec<u64>,
    steps: Vec<u64>,
}

impl Composer {
    /// A program whose second phase cannot go on, for a time-out to meet.
    pub fn run_into_alarm(&mut self) {
        if self.pump.mode != Mode::Stopped || self.pump.alarm.is_some() {
            return self.wait_for_time_out();
        }
        let first = self.random.pick(&["FUN PAS 1", "FUN PAS 0.1", "FUN BEP", "FUN OUT 0", "FUN OUT 1"]);
        for command in ["PHN 1", first, "PHN 2", "FUN INC"] {
            self.say(command);
        }
        self.meet_time_out();
    }

    pub fn meet_time_out(&mut self) {
        if self.pump.operating() && self.random.percent(40) {
            self.meet_later();
        } else {
            self.meet_by_foot_switch();
        }
    }

    /// A long limit first, then the one that runs out with what is ahead.
    fn meet_later(&mut self) {
        let ahead = ahead(&self.pump, SECOND, FORECAST_TICKS);
        let Some(ticks) = self.one_of(ahead) else {
            return self.wait_for_time_out();
        };
        let seconds = self.random.between(1, ticks / SECOND);
        self.set_limit_to(255);
        self.tick_lines(&[ticks - SECOND * seconds]);
        self.set_limit_to(seconds);
        self.last_ticks(SECOND * seconds);
    }

    /// Pin 2 starts and resumes without a packet, so the limit goes on: what is less than a second away is met too.
    fn meet_by_foot_switch(&mut self) {
        if self.pump.alarm.is_some() || self.pump.trigger_wait {
            return self.wait_for_time_out();
        }
        self.line(b"E 2 1".to_vec());
        if self.pump.operating() {
            self.press_at_once();
        }
        let mut started = self.pump.clone();
        started.pin(2, 0);
        let ahead = ahead(&started, 1, SECOND);
        let Some(ticks) = self.one_of(ahead) else {
            return self.wait_for_time_out();
        };
        self.set_limit_to(1);
        self.tick_lines(&[SECOND - ticks]);
        self.press_at_once();
        self.last_ticks(ticks);
    }

    fn press_at_once(&mut self) {
        self.line(b"E 2 0".to_vec());
        self.line(b"E 2 1".to_vec());
    }

    fn last_ticks(&mut self, ticks: u64) {
        match self.random.between(0, 3) {
            0 => self.tick_lines(&[ticks - 1, 1]),
            1 => self.tick_lines(&[ticks + 1]),
            _ => self.tick_lines(&[ticks]),
        }
    }

    fn one_of(&mut self, ahead: Ahead) -> Option<u64> {
        let kinds = [ahead.signals, ahead.ends, ahead.steps];
        let some: Vec<Vec<u64>> = kinds.into_iter().filter(|ticks| !ticks.is_empty()).collect();
        if some.is_empty() {
            return None;
        }
        let ticks = self.random.pick(&some);
        Some(self.random.pick(&ticks))
    }
}

fn ahead(pump: &Pump, first: u64, last: u64) -> Ahead {
    let mut pump = pump.clone();
    // No time-out may come between.
    pump.timer = None;
    let mut ahead = Ahead::default();
    for tick in 1..=last {
        let before = pump.clone();
        let report = pump.tick(&mut [0; ANSWER_ROOM]);
        if tick < first {
            continue;
        }
        let ended = before.visit.is_some() && pump.visit.is_none() || before.pause.is_some() && pump.pause.is_none();
        if report.beeps > 0 || pump.output != before.output {
            ahead.signals.push(tick);
        } else if pump.mode != before.mode || ended {
            ahead.ends.push(tick);
        } else if report.infused + report.withdrawn > 0 {
            ahead.steps.push(tick);
        }
        if pump.alarm == Some(Alarm::Program) {
            break;
        }
    }
    ahead
}
