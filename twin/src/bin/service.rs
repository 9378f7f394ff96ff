//! The service program: the bench program's items, bytes in hexadecimal, packets, and ticks with their beeps, the
//! output level and the packets they send.

use std::io;

use twin::{packet, play, read_service_item, Item, Player};

fn main() -> io::Result<()> {
    play(line)
}

fn line(player: &mut Player, line: &[u8]) -> bool {
    match read_service_item(line) {
        Item::Bytes(bytes) => send_bytes(player, &bytes),
        Item::Packet(data) => send_bytes(player, &packet(data)),
        Item::Ticks(ticks) => do_ticks(player, ticks),
        item => player.common(item),
    }
}

/// Answers are told whole, STX and ETX too.
fn send_bytes(player: &mut Player, bytes: &[u8]) -> bool {
    let answers = player.send(bytes.iter(), |player, answer| player.say(hexadecimal(answer).as_bytes()));
    if answers == Some(0) {
        player.say(b"-");
    }
    answers.is_some()
}

fn hexadecimal(bytes: &[u8]) -> String {
    bytes.iter().map(|byte| format!("{byte:02x}")).collect()
}

fn do_ticks(player: &mut Player, ticks: u32) -> bool {
    let Some((sum, packets)) = player.ticks(ticks) else {
        return false;
    };
    let (infused, withdrawn) = (sum.infused, sum.withdrawn);
    player.say(format!("T {} I {infused} W {withdrawn} B {} O {}", sum.ticks, sum.beeps, sum.output).as_bytes());
    for packet in packets {
        player.say(hexadecimal(&packet).as_bytes());
    }
    true
}
