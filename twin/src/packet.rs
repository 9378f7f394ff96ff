//! Packets of Safe mode: how one is wrapped, and a part of one as it comes in.

use std::ops::RangeInclusive;

use crate::answers::{END, START};
use crate::crc::check;
use crate::line::LINE_LENGTH;

/// A length counts the length byte itself, the data, two check bytes and ETX: four more than the data.
const LENGTHS: RangeInclusive<u8> = 4..=44;
const KEPT_MAX: usize = LINE_LENGTH + 3;
/// After so many ticks with no byte a part packet is dropped.
pub const QUIET_TICKS: u16 = 500;

/// A packet of which STX has come. ETX, its last byte, is never kept: the call that takes it ends the packet.
#[derive(Clone, Debug, PartialEq, Eq)]
pub struct Packet {
    /// The length byte, the data and the check bytes, as far as they came; zeros behind them.
    pub bytes: [u8; KEPT_MAX],
    pub count: usize,
    /// Ticks since the last byte.
    pub quiet: u16,
}

#[derive(Clone, Copy, Debug, PartialEq, Eq)]
pub enum Taken {
    Part,
    Wrong,
    Whole,
}

impl Packet {
    /// STX alone.
    pub fn new() -> Packet {
        Packet { bytes: [0; KEPT_MAX], count: 0, quiet: 0 }
    }

    pub fn take(&mut self, byte: u8) -> Taken {
        self.quiet = 0;
        if self.count == 0 && !LENGTHS.contains(&byte) {
            return Taken::Wrong;
        }
        if self.lacks_only_etx() {
            return if byte == END { Taken::Whole } else { Taken::Wrong };
        }
        self.bytes[self.count] = byte;
        self.count += 1;
        if self.lacks_only_etx() && !self.check_right() {
            return Taken::Wrong;
        }
        Taken::Part
    }

    /// One more tick with no byte; says whether the packet is still waited for.
    pub fn wait(&mut self) -> bool {
        self.quiet += 1;
        self.quiet < QUIET_TICKS
    }

    /// The data, once the check bytes behind them are in.
    pub fn data(&self) -> &[u8] {
        &self.bytes[1..self.count - 2]
    }

    pub fn is_sound(&self) -> bool {
        self.quiet < QUIET_TICKS && (self.count == 0 || self.bytes_sound())
    }

    fn bytes_sound(&self) -> bool {
        LENGTHS.contains(&self.bytes[0])
            && self.count < usize::from(self.bytes[0])
            && (!self.lacks_only_etx() || self.check_right())
    }

    fn lacks_only_etx(&self) -> bool {
        self.count > 0 && self.count + 1 == usize::from(self.bytes[0])
    }

    fn check_right(&self) -> bool {
        self.bytes[self.count - 2..self.count] == check(self.data()).to_be_bytes()
    }
}

impl Default for Packet {
    fn default() -> Packet {
        Packet::new()
    }
}

/// These data, at most 40 bytes of them, as a packet.
pub fn packet(data: &[u8]) -> Vec<u8> {
    let mut bytes = vec![START, data.len() as u8 + 4];
    bytes.extend_from_slice(data);
    bytes.extend_from_slice(&check(data).to_be_bytes());
    bytes.push(END);
    bytes
}
