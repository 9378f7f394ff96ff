//! What a call reports, and the numbered refusals.

use crate::state::Pump;

pub const SHORT_BUFFER: u8 = 1;
pub const NO_SUCH_PIN: u8 = 2;
pub const NO_SUCH_LEVEL: u8 = 3;
pub const UNSOUND: u8 = 4;
pub const TOO_MANY_TICKS: u8 = 5;

#[derive(Clone, Copy, Debug, Default, PartialEq, Eq)]
pub struct Report {
    /// 0 if the call was taken.
    pub refusal: u8,
    /// The ticks that the call has done.
    pub ticks: u32,
    pub infused: u32,
    pub withdrawn: u32,
    pub beeps: u32,
    /// The output's level after the call.
    pub output: u8,
    /// Bytes written to the answer buffer.
    pub answer: usize,
}

impl Pump {
    pub(crate) fn refused(&self, refusal: u8) -> Report {
        Report { refusal, output: self.output, ..Report::default() }
    }

    /// A report of a call that gave no tick, no step, no beep and no answer.
    pub(crate) fn quiet(&self) -> Report {
        Report { output: self.output, ..Report::default() }
    }
}
