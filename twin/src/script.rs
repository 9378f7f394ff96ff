//! The lines of a script, for the bench program and for the service program.

/// The most ticks of one line.
const TICKS_MAX: u32 = 10_000_000;
/// The most bytes of one line.
const BYTES_MAX: usize = 65_536;
/// The most bytes of a packet's data.
const DATA_MAX: usize = 40;

#[derive(Clone, Debug, PartialEq, Eq)]
pub enum Item<'a> {
    /// A text for the command line, without its return.
    Text(&'a [u8]),
    /// A pin and a level, which the engine may still refuse.
    Edge(u8, u8),
    Ticks(u32),
    /// Bytes as they are, which only the service program sends.
    Bytes(Vec<u8>),
    /// The data of one good packet, which only the service program sends.
    Packet(&'a [u8]),
    Bad,
}

/// Reads a line of a bench script, without its end.
pub fn read_item(line: &[u8]) -> Item<'_> {
    read_common(line, 1).unwrap_or(Item::Bad)
}

/// Reads a line of a service script, without its end.
pub fn read_service_item(line: &[u8]) -> Item<'_> {
    let item = match line {
        b"B" => Some(Item::Bytes(Vec::new())),
        [b'B', b' ', rest @ ..] => read_bytes(rest).map(Item::Bytes),
        [b'P', data @ ..] => (data.len() <= DATA_MAX).then_some(Item::Packet(data)),
        _ => read_common(line, 0),
    };
    item.unwrap_or(Item::Bad)
}

/// The items that both programs have; they differ in the fewest ticks.
fn read_common(line: &[u8], ticks_min: u32) -> Option<Item<'_>> {
    match line {
        [b'>', text @ ..] => Some(Item::Text(text)),
        [b'E', b' ', rest @ ..] => read_edge(rest),
        [b'T', b' ', rest @ ..] => read_count(rest).filter(|n| (ticks_min..=TICKS_MAX).contains(n)).map(Item::Ticks),
        _ => None,
    }
}

fn read_edge(rest: &[u8]) -> Option<Item<'_>> {
    let blank = rest.iter().position(|&b| b == b' ')?;
    let pin = u8::try_from(read_count(&rest[..blank])?).ok()?;
    let level = u8::try_from(read_count(&rest[blank + 1..])?).ok()?;
    Some(Item::Edge(pin, level))
}

/// Plain decimal digits, at least one; leading zeros may be as many as they like.
fn read_count(text: &[u8]) -> Option<u32> {
    if text.is_empty() {
        return None;
    }
    text.iter().try_fold(0u32, |n, &b| match b {
        b'0'..=b'9' => n.checked_mul(10)?.checked_add(u32::from(b - b'0')),
        _ => None,
    })
}

/// Bytes of two hexadecimal digits each. Blanks may stand anywhere but between the two digits of a byte.
fn read_bytes(mut text: &[u8]) -> Option<Vec<u8>> {
    let mut bytes = Vec::new();
    loop {
        text = match text {
            [] => break,
            [b' ', rest @ ..] => rest,
            [high, low, rest @ ..] => {
                bytes.push(16 * read_hex_digit(*high)? + read_hex_digit(*low)?);
                rest
            }
            [_] => return None,
        };
    }
    (bytes.len() <= BYTES_MAX).then_some(bytes)
}

fn read_hex_digit(digit: u8) -> Option<u8> {
    match digit {
        b'0'..=b'9' => Some(digit - b'0'),
        b'a'..=b'f' => Some(digit - b'a' + 10),
        b'A'..=b'F' => Some(digit - b'A' + 10),
        _ => None,
    }
}
