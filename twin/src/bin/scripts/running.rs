//! Running programs: starts, ticks that end close to where something happens, edges, stops and resumes.

use twin::{threshold, Mode};

use crate::composer::Composer;

/// Ticks that one line may take, but for the rare long one.
const TICKS_MAX: u64 = 6_000;
const LONG_TICKS_MAX: u64 = 200_000;

impl Composer {
    pub fn run_program(&mut self) {
        self.start();
        let actions = self.random.between(15, 60);
        for _ in 0..actions {
            if self.full() {
                return;
            }
            if self.safe && self.random.percent(22) {
                self.cable();
                continue;
            }
            match self.pump.mode {
                Mode::Stopped if self.pump.alarm.is_some() && self.random.percent(85) => self.say(""),
                Mode::Stopped if self.random.percent(25) => return,
                Mode::Stopped => self.while_stopped(),
                Mode::Paused => self.while_paused(),
                Mode::Operating if self.pump.trigger_wait => self.while_waiting(),
                Mode::Operating => self.while_moving(),
            }
        }
        self.come_to_rest();
    }

    fn start(&mut self) {
        if self.first == 1 && self.random.percent(20) {
            return self.press(2);
        }
        if self.first == 1 && self.random.percent(75) {
            return self.say("RUN");
        }
        let n = if self.random.percent(80) { self.first } else { self.near_phase() };
        self.say(&format!("RUN {n}"));
    }

    fn while_moving(&mut self) {
        let event_weight = if self.pump.trap.is_some() { 20 } else { 4 };
        match self.random.weighted(&[52, event_weight, 7, 5, 3, 7, 10, 9]) {
            0 => self.ticks(),
            1 => self.press(4),
            2 => self.turn_pin(),
            3 => self.say("STP"),
            4 => self.press(2),
            5 => self.meddle(),
            6 => self.query(),
            _ => self.noise(),
        }
    }

    fn while_paused(&mut self) {
        match self.random.weighted(&[40, 8, 10, 6, 10, 8, 3, 6, 6, 5]) {
            0 => self.say("RUN"),
            1 => self.start(),
            2 => self.press(2),
            3 => self.say("STP"),
            4 => self.meddle(),
            5 => self.press(4),
            6 => self.ticks(),
            7 => self.reset_or_clear(),
            8 => self.noise(),
            _ => self.query(),
        }
    }

    fn while_waiting(&mut self) {
        match self.random.weighted(&[35, 20, 12, 6, 5, 8, 8, 6]) {
            0 => self.say("RUN"),
            1 => self.press(2),
            2 => self.press(4),
            3 => self.say("STP"),
            4 => self.ticks(),
            5 => self.query(),
            6 => self.meddle(),
            _ => {
                let n = self.near_phase();
                self.say(&format!("RUN {n}"))
            }
        }
    }

    fn while_stopped(&mut self) {
        match self.random.weighted(&[50, 3, 10, 12, 20, 5]) {
            0 => self.start(),
            1 => self.ticks(),
            2 => self.reset_or_clear(),
            3 => self.query(),
            4 => self.noise(),
            _ => self.say("STP"),
        }
    }

    /// Most scripts stop a run before they enter the next program; some let it refuse.
    pub fn come_to_rest(&mut self) {
        while self.pump.mode != Mode::Stopped && self.random.percent(92) && !self.full() {
            self.say("STP");
        }
        if self.pump.alarm.is_some() && self.random.percent(90) {
            self.say("");
        }
    }

    pub fn ticks(&mut self) {
        if self.service && self.random.percent(35) {
            return self.many_ticks();
        }
        let near = self.ticks_to_event();
        if near == 1 && self.random.percent(75) {
            let ticks = self.random.between(2, 1_200);
            return self.line(format!("T {ticks}").into_bytes());
        }
        let ticks = match self.random.weighted(&[300, 80, 80, 250, 200, 80, 3]) {
            0 => near,
            1 => near - 1,
            2 => near + 1,
            3 => near + self.random.between(1, 2_500),
            4 => self.random.between(near / 4 + 1, near.max(2)),
            5 => self.random.between(1, 40),
            _ => self.random.between(20_000, LONG_TICKS_MAX),
        };
        self.line(format!("T {}", ticks.max(1)).into_bytes());
    }

    /// No tick at all, ticks across many phases, about as many as one call takes, and more.
    fn many_ticks(&mut self) {
        let near = self.ticks_to_event();
        let wanted = match self.random.weighted(&[200, 150, 100, 400, 120, 15, 15]) {
            0 => 0,
            1 => near - 1,
            2 => near,
            3 => self.random.between(1_000, 12_000),
            4 => self.random.between(12_000, 60_000),
            5 => self.random.between(999_999, 1_000_001),
            _ => self.random.between(1_000_002, 1_800_000),
        };
        let ticks = wanted.min(self.many_ticks);
        self.many_ticks -= ticks;
        self.line(format!("T {ticks}").into_bytes());
    }

    /// Ticks until the visit or the pause under way ends of itself.
    fn ticks_to_event(&mut self) -> u64 {
        let pump = &self.pump;
        if let Some(left) = pump.pause {
            return u64::from(left).min(TICKS_MAX);
        }
        if let (Some(visit), Some(rate)) = (pump.visit, pump.rate) {
            if let Some(target) = visit.target {
                let missing = (target - visit.given).saturating_mul(threshold(pump.diameter)) - pump.store;
                return missing.div_ceil(rate.hourly()).min(TICKS_MAX);
            }
            return self.random.between(1, 500);
        }
        1
    }

    /// A falling edge, and mostly the rise after it.
    pub fn press(&mut self, pin: u8) {
        self.line(format!("E {pin} 0").into_bytes());
        if self.random.percent(15) {
            self.ticks();
        }
        if self.random.percent(92) {
            self.line(format!("E {pin} 1").into_bytes());
        }
    }

    fn turn_pin(&mut self) {
        let pin = self.random.pick(&[6, 6, 6, 4, 2]);
        let level = self.random.pick(&[0, 1]);
        self.line(format!("E {pin} {level}").into_bytes());
    }
}
