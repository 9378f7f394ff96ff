//! Pin levels and what their falling edges do.

use crate::loops::Loops;
use crate::report::{Report, NO_SUCH_LEVEL, NO_SUCH_PIN, UNSOUND};
use crate::state::{Mode, Pump};

impl Pump {
    pub fn pin(&mut self, pin: u8, level: u8) -> Report {
        if !self.is_sound() {
            return self.refused(UNSOUND);
        }
        if !matches!(pin, 2 | 4 | 6) {
            return self.refused(NO_SUCH_PIN);
        }
        if level > 1 {
            return self.refused(NO_SUCH_LEVEL);
        }
        let kept = match pin {
            2 => &mut self.pins.pin2,
            4 => &mut self.pins.pin4,
            _ => &mut self.pins.pin6,
        };
        let falling = *kept == 1 && level == 0;
        *kept = level;
        match pin {
            2 if falling => self.foot_switch(),
            4 if falling => self.event(),
            _ => {}
        }
        self.quiet()
    }

    /// Pin 2 falling acts as RUN or STP. An alarm must first be seen on the line.
    fn foot_switch(&mut self) {
        if self.alarm.is_some() {
            return;
        }
        match self.mode {
            Mode::Stopped => self.start(1),
            Mode::Paused => self.mode = Mode::Operating,
            Mode::Operating if self.trigger_wait => self.go_on(),
            Mode::Operating => self.mode = Mode::Paused,
        }
    }

    /// Pin 4 falling: an edge in a pause or a stop is lost, also for a later resume.
    fn event(&mut self) {
        if !self.operating() {
            return;
        }
        if let Some(n) = self.trap {
            self.fire(n);
        }
    }

    /// Firing the trap. The current rate stays, so that an INC or DEC at n has something to work on.
    pub(crate) fn fire(&mut self, n: u8) {
        self.trap = None;
        self.loops = Loops::new();
        self.go_to(n);
    }
}
