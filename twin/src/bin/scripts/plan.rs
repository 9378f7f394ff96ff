//! A plan of a program: its functions in order, with loops inside loops, before any number is filled in.

use crate::random::Random;

#[derive(Clone, Debug, PartialEq, Eq)]
pub enum Planned {
    /// RAT, INC or DEC, which get a rate, a volume and a direction.
    Dispense(&'static str),
    /// JMP, IF or EVN, which get a phase.
    Aimed(&'static str),
    /// A function with its datum.
    Whole(String),
}

pub struct Plan {
    pub phases: Vec<Planned>,
    /// For the service program, which alone shows beeps and the output: more of them.
    service: bool,
}

const LONGEST: usize = 12;

impl Plan {
    pub fn new(random: &mut Random, service: bool) -> Plan {
        let mut plan = Plan { phases: Vec::new(), service };
        if random.percent(25) {
            plan.phases.push(Planned::Aimed("EVN"));
        }
        if random.percent(50) {
            plan.phases.push(Planned::Dispense("RAT"));
        }
        plan.block(random, 0);
        plan.ending(random);
        plan
    }

    /// A last phase after which the program runs past the table, for a plan that is laid at its end.
    pub fn run_out(&mut self, random: &mut Random) {
        self.phases.pop();
        self.phases.push(match random.between(0, 4) {
            0 => Planned::Dispense("RAT"),
            n => Planned::Whole(["BEP", "PAS 0", "LPS", "PAS 0.1"][n as usize - 1].to_string()),
        });
    }

    fn block(&mut self, random: &mut Random, depth: u32) {
        for _ in 0..random.between(1, 4) {
            if self.phases.len() >= LONGEST {
                return;
            }
            self.item(random, depth);
        }
    }

    fn item(&mut self, random: &mut Random, depth: u32) {
        // Beyond three a loop is alarm E: now and then only.
        let loop_weight = [20, 18, 14, 5, 0][depth.min(4) as usize];
        let plain_weight = if self.service { 35 } else { 7 };
        match random.weighted(&[30, 18, loop_weight, 15, 6, plain_weight, 5, 9]) {
            0 => self.phases.push(Planned::Dispense("RAT")),
            1 => self.ramp(random),
            2 => self.nest(random, depth),
            3 => self.pause(random),
            4 => self.phases.push(Planned::Whole("PAS 0".to_string())),
            5 if self.service && random.percent(50) => self.signalled(),
            5 => {
                let plain = random.pick(&["BEP", "BEP", "OUT 0", "OUT 1", "EVR", "EVR"]);
                self.phases.push(Planned::Whole(plain.to_string()))
            }
            6 => self.phases.push(Planned::Aimed("IF")),
            _ => {
                let aimed = random.pick(&["JMP", "JMP", "EVN", "EVN", "EVN"]);
                self.phases.push(Planned::Aimed(aimed))
            }
        }
    }

    /// A dispense during which the output is on, and a beep behind it.
    fn signalled(&mut self) {
        self.phases.push(Planned::Whole("OUT 1".to_string()));
        self.phases.push(Planned::Dispense("RAT"));
        self.phases.push(Planned::Whole("OUT 0".to_string()));
        self.phases.push(Planned::Whole("BEP".to_string()));
    }

    fn nest(&mut self, random: &mut Random, depth: u32) {
        self.phases.push(Planned::Whole("LPS".to_string()));
        self.block(random, depth + 1);
        let end = match random.weighted(&[80, 10, 5, 5]) {
            0 => format!("LOP {}", random.between(2, 5)),
            1 => format!("LOP {:02}", random.between(1, 99)),
            2 => "LPE".to_string(),
            _ => return,
        };
        self.phases.push(Planned::Whole(end));
    }

    /// A rate that rises or falls from the one before it, alone or turn by turn in a loop.
    fn ramp(&mut self, random: &mut Random) {
        let change = Planned::Dispense(random.pick(&["INC", "DEC"]));
        if random.percent(92) {
            self.phases.push(Planned::Dispense("RAT"));
        }
        if random.percent(50) {
            self.phases.push(change);
            return;
        }
        self.phases.push(Planned::Whole("LPS".to_string()));
        self.phases.push(change);
        self.phases.push(Planned::Whole(format!("LOP {}", random.between(1, 6))));
    }

    fn pause(&mut self, random: &mut Random) {
        let pause = match random.weighted(&[60, 30, 8, 2]) {
            0 => format!("PAS 0.{}", random.between(1, 9)),
            1 => format!("PAS {}", random.between(1, 2)),
            2 => format!("PAS {}.{}", random.between(1, 9), random.between(0, 9)),
            _ => format!("PAS {:02}", random.between(1, 99)),
        };
        self.phases.push(Planned::Whole(pause));
    }

    fn ending(&mut self, random: &mut Random) {
        let end = match random.weighted(&[55, 8, 15, 6, 16]) {
            0 => Planned::Whole("STP".to_string()),
            1 => Planned::Whole("JMP 01".to_string()),
            2 => Planned::Whole(format!("LOP {}", random.between(1, 4))),
            3 => Planned::Whole("LPE".to_string()),
            _ => return,
        };
        self.phases.push(end);
    }
}
