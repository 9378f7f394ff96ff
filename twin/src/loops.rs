//! The open loops, oldest first.

pub const LOOPS_MAX: usize = 3;

#[derive(Clone, Copy, Debug, PartialEq, Eq)]
pub struct Loop {
    /// The phase that began it; 0 for the loop that LOP or LPE opens when none is open.
    pub beginner: u8,
    pub passes: u8,
}

/// Places past the count are zero after every call, so that equal histories give equal loops.
#[derive(Clone, Debug, PartialEq, Eq)]
pub struct Loops {
    pub places: [Loop; LOOPS_MAX],
    pub count: usize,
}

const CLOSED: Loop = Loop { beginner: 0, passes: 0 };

impl Loop {
    /// Where the loop goes back to. The loop begun by phase 0 returns to 1, so one rule serves both.
    pub fn return_phase(self) -> u8 {
        self.beginner + 1
    }
}

impl Loops {
    pub fn new() -> Loops {
        Loops { places: [CLOSED; LOOPS_MAX], count: 0 }
    }

    pub fn open(&self) -> &[Loop] {
        &self.places[..self.count]
    }

    /// LPS: a phase that comes round again closes its old loop first, with those opened inside it.
    /// Gives false if three others are still open.
    pub fn begin(&mut self, phase: u8) -> bool {
        if let Some(old) = self.open().iter().position(|l| l.beginner == phase) {
            self.close_from(old);
        }
        if self.count == LOOPS_MAX {
            return false;
        }
        self.places[self.count] = Loop { beginner: phase, passes: 0 };
        self.count += 1;
        true
    }

    /// LOP: counts a pass of the newest loop. Gives the phase to return to, or none when the loop is through.
    pub fn pass(&mut self, wanted: u8) -> Option<u8> {
        let place = self.newest();
        self.places[place].passes += 1;
        if self.places[place].passes >= wanted {
            self.close_from(place);
            return None;
        }
        Some(self.places[place].return_phase())
    }

    /// LPE: returns always and counts nothing.
    pub fn repeat(&mut self) -> u8 {
        let place = self.newest();
        self.places[place].return_phase()
    }

    /// The place of the newest loop; with none open the whole program is the loop.
    fn newest(&mut self) -> usize {
        if self.count == 0 {
            self.places[0] = CLOSED;
            self.count = 1;
        }
        self.count - 1
    }

    fn close_from(&mut self, first: usize) {
        self.places[first..].fill(CLOSED);
        self.count = first;
    }
}

impl Default for Loops {
    fn default() -> Loops {
        Loops::new()
    }
}
