//! Answers: the text that a command gives back, and its frame in Basic mode.

use crate::state::Alarm;

/// A caller's buffer must have this room before a byte is taken or a tick done.
pub const ANSWER_ROOM: usize = 24;

pub const START: u8 = 2;
pub const END: u8 = 3;

/// A short text built on the stack. The longest answer, that of DIS, has 17 bytes, and as a packet 22.
#[derive(Clone, Copy, Debug, Default)]
pub struct Text {
    bytes: [u8; ANSWER_ROOM],
    length: usize,
}

/// The three error answers, in the order in which the checks are made.
#[derive(Clone, Copy, Debug, PartialEq, Eq)]
pub enum CommandError {
    Malformed,
    NotApplicable,
    OutOfRange,
}

/// The data of an answer, or why the command was not obeyed.
pub type Outcome = Result<Text, CommandError>;

impl Text {
    pub fn new() -> Text {
        Text::default()
    }

    pub fn of(bytes: &[u8]) -> Text {
        let mut text = Text::new();
        text.push(bytes);
        text
    }

    pub fn push(&mut self, bytes: &[u8]) {
        self.bytes[self.length..self.length + bytes.len()].copy_from_slice(bytes);
        self.length += bytes.len();
    }

    pub fn as_bytes(&self) -> &[u8] {
        &self.bytes[..self.length]
    }
}

impl CommandError {
    fn name(self) -> &'static [u8] {
        match self {
            CommandError::Malformed => b"?",
            CommandError::NotApplicable => b"?NA",
            CommandError::OutOfRange => b"?OOR",
        }
    }
}

pub fn command_answer(status: u8, outcome: &Outcome) -> Text {
    match outcome {
        Ok(data) => answer(status, data.as_bytes()),
        Err(error) => answer(status, error.name()),
    }
}

pub fn alarm_answer(alarm: Alarm) -> Text {
    answer(b'A', &[b'?', alarm.letter()])
}

/// The answer to a packet that came over the cable damaged.
pub fn communication_error(status: u8) -> Text {
    answer(status, b"?COM")
}

fn answer(status: u8, data: &[u8]) -> Text {
    let mut text = Text::of(&[b'0', b'0', status]);
    text.push(data);
    text
}

/// An answer as Basic mode sends it.
pub fn framed(answer: &Text) -> Vec<u8> {
    let mut bytes = vec![START];
    bytes.extend_from_slice(answer.as_bytes());
    bytes.push(END);
    bytes
}
