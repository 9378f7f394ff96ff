//! Numbers of the command set: how they are read, kept in thousandths, and printed.

use crate::answers::Text;

/// The largest number that four digits can give, in thousandths.
pub const NUMBER_MAX: u32 = 9_999_000;

const DIGITS_MAX: usize = 4;
const PLACES_MAX: usize = 3;

/// Reads one to four digits with at most one point and at most three digits after it.
pub fn read_number(text: &[u8]) -> Option<u32> {
    let mut value: u32 = 0;
    let mut digits = 0;
    let mut places = None;
    for &b in text {
        match b {
            b'0'..=b'9' if digits < DIGITS_MAX => {
                value = value * 10 + u32::from(b - b'0');
                digits += 1;
                places = places.map(|n| n + 1);
            }
            b'.' if places.is_none() => places = Some(0),
            _ => return None,
        }
    }
    let places = places.unwrap_or(0);
    if digits == 0 || places > PLACES_MAX {
        return None;
    }
    Some(value * [1000, 100, 10, 1][places])
}

/// Reads one to three digits: the whole seconds of a time limit.
pub fn read_three_digits(text: &[u8]) -> Option<u16> {
    let well_formed = (1..=3).contains(&text.len()) && text.iter().all(u8::is_ascii_digit);
    well_formed.then(|| text.iter().fold(0, |value, digit| 10 * value + u16::from(digit - b'0')))
}

/// Reads exactly one or two digits: a phase, a count or whole seconds.
pub fn read_two_digits(text: &[u8]) -> Option<u8> {
    match text {
        [a @ b'0'..=b'9'] => Some(a - b'0'),
        [a @ b'0'..=b'9', b @ b'0'..=b'9'] => Some((a - b'0') * 10 + (b - b'0')),
        _ => None,
    }
}

/// A stored number is writable if some input gives it: four digits leave fewer places as it grows.
pub fn writable(thousandths: u32) -> bool {
    match thousandths {
        0..=9_999 => true,
        10_000..=99_999 => thousandths.is_multiple_of(10),
        100_000..=999_999 => thousandths.is_multiple_of(100),
        1_000_000..=NUMBER_MAX => thousandths.is_multiple_of(1000),
        _ => false,
    }
}

/// Prints four digits; what does not fit is cut off, never rounded.
/// The caller gives less than 10,000 units, so four digits hold the whole part.
pub fn print_number(text: &mut Text, thousandths: u32) {
    let (four_digits, whole_digits) = match thousandths {
        0..=9_999 => (thousandths, 1),
        10_000..=99_999 => (thousandths / 10, 2),
        100_000..=999_999 => (thousandths / 100, 3),
        _ => (thousandths / 1000, 4),
    };
    for (place, unit) in [1000, 100, 10, 1].into_iter().enumerate() {
        if place == whole_digits {
            text.push(b".");
        }
        text.push(&[digit(four_digits / unit)]);
    }
    if whole_digits == DIGITS_MAX {
        text.push(b".");
    }
}

pub fn print_two_digits(text: &mut Text, n: u8) {
    text.push(&[digit(u32::from(n / 10)), digit(u32::from(n))]);
}

pub fn print_three_digits(text: &mut Text, n: u8) {
    text.push(&[digit(u32::from(n / 100)), digit(u32::from(n / 10)), digit(u32::from(n))]);
}

pub fn digit(n: u32) -> u8 {
    b'0' + (n % 10) as u8
}
