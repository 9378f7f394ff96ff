//! The time limit of Safe mode: setting it, and ticks that end just before, at or after a time-out.

use crate::composer::Composer;
use crate::damage;

/// A time-out further away than this is brought nearer before a script waits for it.
const NEAR_TICKS: u32 = 12_000;

const ODD_LIMITS: [&str; 16] = [
    "SAF 256",
    "SAF 300",
    "SAF 999",
    "SAF 0005",
    "SAF 0000",
    "SAF 1000",
    "SAF 1.0",
    "SAF .5",
    "SAF -1",
    "SAF X",
    "SAF 1X",
    "SAFE",
    "SAF 5 S",
    "SA",
    "SAF ON",
    "SAF 00256",
];

impl Composer {
    /// Mostly at once; at times after lines that leave Basic mode as it is, or with no packet before the time-out.
    pub fn turn_to_safe_mode(&mut self) {
        while self.random.percent(35) && !self.full() {
            self.cable();
        }
        self.set_limit();
        if self.random.percent(20) {
            self.wait_for_time_out();
        }
    }

    /// `SAF n`: in Basic mode as a line, in Safe mode as a packet.
    pub fn set_limit(&mut self) {
        let limit = match self.random.weighted(&[20, 12, 28, 25, 15]) {
            0 => 1,
            1 => self.random.between(2, 3),
            2 => self.random.between(4, 12),
            3 => self.random.pick(&[60, 99, 100, 254, 255]),
            _ => self.random.between(1, 255),
        };
        self.set_limit_to(limit);
    }

    pub fn set_limit_to(&mut self, limit: u64) {
        let command = match self.random.between(0, 3) {
            0 => format!("SAF {limit:02}"),
            1 => format!("SAF {limit:03}"),
            _ => format!("SAF {limit}"),
        };
        self.say(&command);
    }

    pub fn odd_limit(&mut self) {
        // The first of them are well formed, but out of range.
        let command = if self.random.percent(35) { ODD_LIMITS[0] } else { self.random.pick(&ODD_LIMITS) };
        self.say(command);
    }

    /// At times with the time-out so near that it would come if it were not given up.
    pub fn leave_safe_mode(&mut self) {
        let near = self.random.percent(50);
        if near {
            self.set_limit_to(1);
            let ticks = self.random.between(1, 999);
            self.tick_lines(&[ticks]);
        }
        let command = self.random.pick(&["SAF 0", "SAF 00", "SAF 000", "*RESET"]);
        self.say(command);
        if near {
            self.tick_lines(&[1_000]);
            self.say("");
        }
    }

    /// A packet during which the time runs out.
    pub fn time_out_in_a_packet(&mut self) {
        self.set_limit_to(1);
        let whole = self.some_packet();
        let place = self.random.between(1, whole.len() as u64 - 1) as usize;
        let ticks = self.random.between(1, 499);
        self.tick_lines(&[1_000 - ticks]);
        self.hexadecimal(&whole[..place]);
        self.tick_lines(&[ticks]);
        self.hexadecimal(&whole[place..]);
    }

    /// Ticks that end just before, at or after the time-out.
    pub fn wait_for_time_out(&mut self) {
        if self.random.percent(4) {
            let limit = self.random.between(60, 255);
            self.set_limit_to(limit);
            return self.tick_lines(&[1_000 * limit - 1, 1]);
        }
        if self.pump.timer.is_none() && self.random.percent(40) {
            return self.wait_in_vain();
        }
        if self.pump.timer.is_none_or(|left| left > NEAR_TICKS) && self.random.percent(85) {
            let limit = self.random.between(1, 3);
            self.set_limit_to(limit);
        }
        let left = match self.pump.timer {
            Some(left) if left <= NEAR_TICKS => u64::from(left),
            _ => return self.wait_in_vain(),
        };
        match self.random.weighted(&[25, 25, 15, 15, 20]) {
            0 => self.tick_lines(&[left - 1, 1]),
            1 => self.tick_lines(&[left]),
            2 => self.tick_lines(&[left + 1]),
            3 => {
                let after = self.random.between(2, 5_000);
                self.tick_lines(&[left + after])
            }
            // A packet in the last moment.
            _ => {
                self.tick_lines(&[left - 1]);
                if self.random.percent(50) {
                    self.foreign_packet();
                } else {
                    self.damaged_packet();
                }
                self.tick_lines(&[1])
            }
        }
    }

    /// The timer waits for a good packet, or is far away; what is damaged does not start it.
    fn wait_in_vain(&mut self) {
        if self.random.percent(60) {
            let good = self.some_packet();
            let bytes = damage::damaged(&mut self.random, good);
            self.hexadecimal(&bytes);
        }
        let ticks = self.random.between(500, 5_000);
        self.tick_lines(&[ticks]);
    }

    pub fn tick_lines(&mut self, lines: &[u64]) {
        for ticks in lines {
            self.line(format!("T {ticks}").into_bytes());
        }
    }

    /// The time runs out, another pump's packet begins it anew, and it runs out over the alarm that is pending.
    pub fn time_out_again(&mut self) {
        self.set_limit_to(1);
        self.tick_lines(&[1_000]);
        let rest = self.random.between(0, 1_200);
        self.tick_lines(&[rest]);
        self.foreign_packet();
        match self.random.between(0, 2) {
            0 => self.tick_lines(&[999, 1]),
            1 => self.tick_lines(&[1_000]),
            _ => self.tick_lines(&[1_001, 999]),
        }
        self.say("");
        if self.random.percent(50) {
            self.say("");
        }
    }
}
