//! The functions that a phase can have, how FUN names them, and which data are in range.

use crate::answers::Text;
use crate::numbers::{digit, print_two_digits, read_two_digits};
use crate::program::is_phase;

const TICKS_A_SECOND: u32 = 1000;
const TICKS_A_TENTH: u32 = 100;

#[derive(Clone, Copy, Debug, PartialEq, Eq)]
pub enum Function {
    Rate,
    Increment,
    Decrement,
    Stop,
    Jump(u8),
    If(u8),
    LoopStart,
    Loop(u8),
    LoopEndless,
    /// Whole seconds; 0 waits for the trigger.
    Pause(u8),
    PauseTenths(u8),
    EventTrap(u8),
    EventReset,
    Beep,
    Output(u8),
}

impl Function {
    /// Reads a name with its datum. The datum may still be out of range:
    /// a malformed argument is reported before that, and other checks stand between the two.
    pub fn read(text: &[u8]) -> Option<Function> {
        match text {
            b"RAT" => Some(Function::Rate),
            b"INC" => Some(Function::Increment),
            b"DEC" => Some(Function::Decrement),
            b"STP" => Some(Function::Stop),
            b"LPS" => Some(Function::LoopStart),
            b"LPE" => Some(Function::LoopEndless),
            b"EVR" => Some(Function::EventReset),
            b"BEP" => Some(Function::Beep),
            [b'I', b'F', n @ ..] => read_two_digits(n).map(Function::If),
            [b'J', b'M', b'P', n @ ..] => read_two_digits(n).map(Function::Jump),
            [b'L', b'O', b'P', n @ ..] => read_two_digits(n).map(Function::Loop),
            [b'E', b'V', b'N', n @ ..] => read_two_digits(n).map(Function::EventTrap),
            [b'O', b'U', b'T', n @ b'0'..=b'9'] => Some(Function::Output(n - b'0')),
            [b'P', b'A', b'S', n @ ..] => Function::read_pause(n),
            _ => None,
        }
    }

    fn read_pause(text: &[u8]) -> Option<Function> {
        match text {
            [a @ b'0'..=b'9', b'.', b @ b'0'..=b'9'] => Some(Function::PauseTenths((a - b'0') * 10 + (b - b'0'))),
            _ => read_two_digits(text).map(Function::Pause),
        }
    }

    pub fn in_range(self) -> bool {
        match self {
            Function::Jump(n) | Function::If(n) | Function::EventTrap(n) => is_phase(n),
            Function::Loop(n) | Function::PauseTenths(n) => (1..=99).contains(&n),
            Function::Pause(n) => n <= 99,
            Function::Output(n) => n <= 1,
            _ => true,
        }
    }

    pub fn print(self, text: &mut Text) {
        text.push(self.name());
        match self {
            Function::Jump(n) | Function::If(n) | Function::EventTrap(n) | Function::Loop(n) | Function::Pause(n) => {
                print_two_digits(text, n)
            }
            Function::PauseTenths(n) => text.push(&[digit(u32::from(n / 10)), b'.', digit(u32::from(n))]),
            Function::Output(n) => text.push(&[digit(u32::from(n))]),
            _ => {}
        }
    }

    pub fn name(self) -> &'static [u8] {
        match self {
            Function::Rate => b"RAT",
            Function::Increment => b"INC",
            Function::Decrement => b"DEC",
            Function::Stop => b"STP",
            Function::Jump(_) => b"JMP",
            Function::If(_) => b"IF",
            Function::LoopStart => b"LPS",
            Function::Loop(_) => b"LOP",
            Function::LoopEndless => b"LPE",
            Function::Pause(_) | Function::PauseTenths(_) => b"PAS",
            Function::EventTrap(_) => b"EVN",
            Function::EventReset => b"EVR",
            Function::Beep => b"BEP",
            Function::Output(_) => b"OUT",
        }
    }

    /// RAT, INC and DEC move the plunger; only they have a rate and a volume.
    pub fn dispenses(self) -> bool {
        matches!(self, Function::Rate | Function::Increment | Function::Decrement)
    }

    /// Working ticks of a timed pause; 0 for every other phase, PAS 0 among them.
    pub fn pause_ticks(self) -> u32 {
        match self {
            Function::Pause(seconds) => u32::from(seconds) * TICKS_A_SECOND,
            Function::PauseTenths(tenths) => u32::from(tenths) * TICKS_A_TENTH,
            _ => 0,
        }
    }
}
