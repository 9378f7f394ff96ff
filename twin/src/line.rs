//! The command line as it comes in, byte by byte, and the address before the command.

pub const LINE_LENGTH: usize = 40;
pub const RETURN: u8 = 13;

const OUR_ADDRESS: u8 = 0;

/// Bytes past the length are zero after every call, so that equal histories give equal lines.
#[derive(Clone, Debug, PartialEq, Eq)]
pub struct Line {
    pub bytes: [u8; LINE_LENGTH],
    pub length: usize,
    /// A character came after the fortieth.
    pub over_long: bool,
}

impl Line {
    pub fn new() -> Line {
        Line { bytes: [0; LINE_LENGTH], length: 0, over_long: false }
    }

    /// The data of a packet, which has room for no more than a line: nothing is dropped or raised.
    pub fn as_it_came(data: &[u8]) -> Line {
        let mut line = Line { length: data.len(), ..Line::new() };
        line.bytes[..data.len()].copy_from_slice(data);
        line
    }

    /// Takes a byte that does not end the line.
    pub fn take(&mut self, byte: u8) {
        let character = match byte {
            0..=32 | 127 => return,
            b'a'..=b'z' => byte.to_ascii_uppercase(),
            _ => byte,
        };
        if self.length < LINE_LENGTH {
            self.bytes[self.length] = character;
            self.length += 1;
        } else {
            self.over_long = true;
        }
    }

    pub fn characters(&self) -> &[u8] {
        &self.bytes[..self.length]
    }

    /// The command without its address; none if the line is for another pump.
    pub fn command(&self) -> Option<&[u8]> {
        let (address, command) = match self.characters() {
            [a @ b'0'..=b'9', b @ b'0'..=b'9', rest @ ..] => ((a - b'0') * 10 + (b - b'0'), rest),
            [a @ b'0'..=b'9', rest @ ..] => (a - b'0', rest),
            rest => (OUR_ADDRESS, rest),
        };
        (address == OUR_ADDRESS).then_some(command)
    }
}

impl Default for Line {
    fn default() -> Line {
        Line::new()
    }
}

/// Whether a line can hold this character at all.
pub fn is_kept(character: u8) -> bool {
    !matches!(character, 0..=32 | 127 | b'a'..=b'z')
}
