//! The check of a packet: the 16-bit CCITT remainder, worked out bit by bit.

const POLYNOMIAL: u16 = 0x1021;
const START_VALUE: u16 = 0;

/// The check of these bytes; in a packet it covers the data alone.
pub fn check(data: &[u8]) -> u16 {
    let mut remainder = START_VALUE;
    for &byte in data {
        remainder ^= u16::from(byte) << 8;
        for _ in 0..8 {
            let carry = remainder & 0x8000 != 0;
            remainder <<= 1;
            if carry {
                remainder ^= POLYNOMIAL;
            }
        }
    }
    remainder
}
