//! How a command is dressed for the line: cases, blanks, control bytes and addresses that the line must bear.

use crate::random::Random;

/// A command that still means the same.
pub fn harmless(random: &mut Random, command: &str) -> Vec<u8> {
    let mut text: Vec<u8> = command.bytes().collect();
    if random.percent(75) {
        return text;
    }
    if random.percent(40) {
        text.retain(|&b| b != b' ');
    }
    if random.percent(40) {
        text = lowered(random, &text);
    }
    if random.percent(40) {
        text = addressed(random, &text, &["0", "00"]);
    }
    if random.percent(40) {
        text = padded(random, &text);
    }
    text
}

/// A command as data of a packet. There nothing is dropped or raised, so a blank or a small letter spoils it.
pub fn for_packet(random: &mut Random, command: &str) -> Vec<u8> {
    if random.percent(8) {
        return harmless(random, command);
    }
    let text: Vec<u8> = command.bytes().filter(|&b| b != b' ').collect();
    if random.percent(8) {
        return [random.pick(&[&b"0"[..], b"00"]), &text].concat();
    }
    text
}

/// A command for another pump.
pub fn foreign(random: &mut Random, command: &str) -> Vec<u8> {
    let text: Vec<u8> = command.bytes().collect();
    addressed(random, &text, &["1", "9", "01", "10", "42", "99"])
}

/// A command with something wrong in it, or at times by luck not.
pub fn spoiled(random: &mut Random, command: &str) -> Vec<u8> {
    let mut text: Vec<u8> = command.bytes().collect();
    let place = random.between(0, text.len() as u64) as usize;
    match random.weighted(&[20, 20, 15, 15, 10, 10, 10]) {
        0 => text.insert(place, random.pick(b"0159.XI*?-+,")),
        1 => text.truncate(place),
        2 => text.extend_from_slice(random.pick(&[&b"X"[..], b"0", b".0", b" UM", b"MH", b"1", b"C"])),
        3 => text = over_long(random, text),
        4 => text.insert(place, random.between(128, 255) as u8),
        5 => text = addressed(random, &text, &["000", "001", "0 1", "00 0"]),
        _ => text.reverse(),
    }
    text.retain(|&b| b != b'\n');
    text
}

/// About forty characters, on both sides of the limit; half of the time with blanks that do not count.
fn over_long(random: &mut Random, mut text: Vec<u8>) -> Vec<u8> {
    let filler = random.pick(b"0X ");
    let length = random.between(36, 60) as usize;
    while text.len() < length {
        text.push(filler);
    }
    if random.percent(50) {
        text = padded(random, &text);
    }
    text
}

fn lowered(random: &mut Random, text: &[u8]) -> Vec<u8> {
    let all = random.percent(60);
    text.iter().map(|&b| if all || random.percent(50) { b.to_ascii_lowercase() } else { b }).collect()
}

fn addressed(random: &mut Random, text: &[u8], addresses: &[&str]) -> Vec<u8> {
    let mut addressed = random.pick(addresses).as_bytes().to_vec();
    if random.percent(30) {
        addressed.push(b' ');
    }
    addressed.extend_from_slice(text);
    addressed
}

fn padded(random: &mut Random, text: &[u8]) -> Vec<u8> {
    let mut padded = Vec::new();
    for &b in text {
        while random.percent(15) {
            padded.push(random.pick(&[b' ', b' ', b' ', b'\t', 0, 1, 2, 3, 11, 27, 31, 127]));
        }
        padded.push(b);
    }
    padded
}
