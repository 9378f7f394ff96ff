//! What a noisy cable does to a packet, and what it invents between packets.

use crate::random::Random;

/// A packet with something wrong in it; now and then by luck still a good one.
pub fn damaged(random: &mut Random, mut packet: Vec<u8>) -> Vec<u8> {
    let end = packet.len();
    let place = random.between(0, end as u64 - 1) as usize;
    match random.weighted(&[10, 10, 14, 10, 8, 14, 20, 12, 8]) {
        0 => {
            packet.remove(place);
        }
        1 => packet.insert(place, packet[place]),
        2 => packet[place] ^= 1 << random.between(0, 7),
        3 => packet[place] = random.between(0, 255) as u8,
        4 => {
            let other = random.between(0, end as u64 - 1) as usize;
            packet.swap(place, other);
            packet[place] ^= random.between(1, 255) as u8;
        }
        5 => packet[1] = random.pick(&[0, 1, 2, 3, 4, packet[1] - 1, packet[1] + 1, 13, 43, 44, 45, 46, 128, 255]),
        6 => {
            wrong_check(random, &mut packet[end - 3..end - 1]);
            // The answer does not wait for ETX.
            if random.percent(30) {
                packet.pop();
            }
        }
        7 => packet[end - 1] = random.pick(&[0, 2, 2, 4, 13, 131, 255]),
        _ => packet.truncate(place + 1),
    }
    packet
}

fn wrong_check(random: &mut Random, check: &mut [u8]) {
    match random.between(0, 4) {
        0 => check.swap(0, 1),
        1 => check[0] = check[0].wrapping_add(1),
        2 => check[1] = check[1].wrapping_sub(1),
        3 => check.fill(0),
        _ => check[random.between(0, 1) as usize] = 2,
    }
}

/// Bytes of which none begins a packet.
pub fn garbage(random: &mut Random) -> Vec<u8> {
    let length = random.between(1, 9);
    let bytes = (0..length).map(|_| random.pick(&[0, 1, 3, 4, 8, 13, b' ', b'0', b'S', b's', b'?', 127, 255]));
    bytes.collect()
}
