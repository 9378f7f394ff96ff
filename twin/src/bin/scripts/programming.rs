//! Entering programs and settings through the line.

use twin::{CurrentRate, RateUnit, NUMBER_MAX, PHASES};

use crate::composer::Composer;
use crate::figures;
use crate::plan::{Plan, Planned};

impl Composer {
    /// Enters a whole program, mostly from phase 1 on, at times close to the last phase.
    pub fn enter_program(&mut self) {
        if self.random.percent(50) {
            self.enter_diameter();
        }
        let mut plan = Plan::new(&mut self.random, self.service);
        let length = plan.phases.len() as u8;
        let last_first = PHASES + 1 - length;
        let first = match self.random.weighted(&[75, 15, 10]) {
            0 => 1,
            1 => last_first,
            _ => self.random.between(1, u64::from(last_first)) as u8,
        };
        if first == last_first && self.random.percent(70) {
            plan.run_out(&mut self.random);
        }
        self.first = first;
        self.past = first + length;
        let mut base = CurrentRate { thousandths: 1000, unit: RateUnit::MillilitreHour };
        for (n, planned) in (first..).zip(plan.phases) {
            if self.full() {
                return;
            }
            self.enter_phase(n, &planned, &mut base);
        }
    }

    /// Alters a phase or two of the program that is there.
    pub fn edit_program(&mut self) {
        for _ in 0..self.random.between(1, 3) {
            let n = self.near_phase();
            let mut base = self.pump.program.phase(n).map_or_else(
                || CurrentRate { thousandths: 1000, unit: RateUnit::MillilitreHour },
                |phase| phase.stored_rate(),
            );
            let plan = Plan::new(&mut self.random, self.service);
            let planned = self.random.pick(&plan.phases);
            self.enter_phase(n, &planned, &mut base);
        }
    }

    pub fn enter_diameter(&mut self) {
        let diameter = figures::diameter(&mut self.random);
        let number = figures::spell(&mut self.random, diameter);
        self.say(&format!("DIA {number}"));
    }

    /// Enters a phase, often as one text with returns in it, so that a script has more lines left for the run.
    fn enter_phase(&mut self, n: u8, planned: &Planned, base: &mut CurrentRate) {
        self.gathering = self.random.percent(45);
        self.enter_phase_commands(n, planned, base);
        self.gathering = false;
        self.send_gathered();
    }

    fn enter_phase_commands(&mut self, n: u8, planned: &Planned, base: &mut CurrentRate) {
        if self.pump.chosen != n || self.random.percent(5) {
            let number = if self.random.percent(50) { format!("PHN {n:02}") } else { format!("PHN {n}") };
            self.say(&number);
        }
        match planned {
            Planned::Whole(function) => self.say(&format!("FUN {function}")),
            Planned::Aimed(function) => {
                let aim = self.aim(n);
                self.say(&format!("FUN {function} {aim:02}"))
            }
            Planned::Dispense(function) => {
                self.say(&format!("FUN {function}"));
                if self.random.percent(8) {
                    self.overreach();
                }
                self.enter_rate(function, base);
                self.enter_volume(*base);
                self.enter_direction();
            }
        }
    }

    /// Mostly onward, so that programs end; at times back, or to any phase at all.
    fn aim(&mut self, n: u8) -> u8 {
        match self.random.weighted(&[70, 25, 5]) {
            0 => self.random.between(u64::from(n) + 1, u64::from(self.past.max(n + 1))).min(u64::from(PHASES)) as u8,
            1 => self.near_phase(),
            _ => self.random.between(1, u64::from(PHASES)) as u8,
        }
    }

    /// A phase of the program that was entered last.
    pub fn near_phase(&mut self) -> u8 {
        let past = self.past.min(PHASES).max(self.first);
        self.random.between(u64::from(self.first), u64::from(past)) as u8
    }

    fn enter_rate(&mut self, function: &str, base: &mut CurrentRate) {
        if function != "RAT" {
            let change = match self.random.weighted(&[90, 5, 5]) {
                0 => u64::from(base.thousandths) / self.random.between(2, 30) + 1,
                1 => self.random.between(1, u64::from(NUMBER_MAX)),
                _ => u64::from(base.thousandths) * self.random.between(1, 9),
            };
            let change = figures::writable_below(change.min(u64::from(NUMBER_MAX)) as u32);
            let number = figures::spell(&mut self.random, change);
            return self.say(&format!("RAT {number}"));
        }
        let speed = figures::speed(&mut self.random);
        *base = figures::rate(&mut self.random, self.pump.diameter, speed);
        let number = figures::spell(&mut self.random, base.thousandths);
        let unit = String::from_utf8_lossy(base.unit.name()).into_owned();
        self.say(&format!("RAT {number} {unit}"));
    }

    /// A setting out of range, which must leave everything as it was.
    fn overreach(&mut self) {
        let speed = self.random.between(4_001, 4_400);
        let beyond = figures::rate(&mut self.random, self.pump.diameter, speed);
        let number = figures::spell(&mut self.random, beyond.thousandths);
        let unit = String::from_utf8_lossy(beyond.unit.name()).into_owned();
        let command = self.random.pick(&[
            "RAT 0",
            "RAT 9999 MM",
            "PHN 42",
            "PHN 0",
            "FUN LOP 0",
            "FUN OUT 2",
            "FUN PAS 0.0",
            "DIA 50.01",
            "DIA 0.099",
            "RUN 42",
            "FUN JMP 0",
            "FUN EVN 42",
            "FUN IF 99",
        ]);
        if self.random.percent(50) {
            self.say(&format!("RAT {number} {unit}"));
        } else {
            self.say(command);
        }
    }

    fn enter_volume(&mut self, base: CurrentRate) {
        let volume = figures::volume(&mut self.random, self.pump.diameter, base);
        let number = figures::spell(&mut self.random, volume);
        self.say(&format!("VOL {number}"));
    }

    fn enter_direction(&mut self) {
        if self.random.percent(40) {
            let direction = self.random.pick(&["INF", "WDR", "WDR", "REV"]);
            self.say(&format!("DIR {direction}"));
        }
    }

    /// A run that brings a total to where DIS can just not print it any more: 10 ml at 50 mm, shown in microlitres.
    pub fn fill_total(&mut self) {
        for command in ["DIA 50", "PHN 1", "FUN RAT", "RAT 7068 MH", "VOL 0", "RUN"] {
            self.say(command);
        }
        let ticks = self.random.between(5_085, 5_105);
        self.line(format!("T {ticks}").into_bytes());
        for command in ["STP", "DIS", "DIA 14", "DIS", "DIA 14.01", "DIS"] {
            self.say(command);
        }
    }

    /// A setting while something runs or is paused: most must be refused, some alter the run.
    pub fn meddle(&mut self) {
        match self.random.weighted(&[35, 10, 20, 15, 10, 10]) {
            0 => self.meddle_with_rate(),
            1 => self.say("VOL 0.5"),
            2 => {
                let direction = self.random.pick(&["DIR REV", "DIR INF", "DIR WDR"]);
                self.say(direction)
            }
            3 => {
                let n = self.near_phase();
                self.say(&format!("PHN {n}"))
            }
            4 => self.enter_diameter(),
            _ => {
                let function =
                    self.random.pick(&["FUN RAT", "FUN PAS 1", "FUN BEP", "FUN OUT 7", "FUN PAS 0.0", "FUN STP"]);
                self.say(function)
            }
        }
    }

    /// About the current rate, at times with units, at times beyond the limit.
    fn meddle_with_rate(&mut self) {
        let now = self.pump.rate.map_or(1000, |rate| rate.thousandths);
        let wanted = u64::from(now) * self.random.between(1, 30) / 15 + self.random.between(0, 1);
        let number =
            figures::spell(&mut self.random, figures::writable_below(wanted.min(u64::from(NUMBER_MAX)) as u32));
        let unit = if self.random.percent(10) { " UM" } else { "" };
        self.say(&format!("RAT {number}{unit}"));
    }
}
