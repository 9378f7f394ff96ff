//! The bench program: a script on standard input drives one pump, whose answers go to standard output.

use std::io;

use twin::{play, read_item, Item, Player};

fn main() -> io::Result<()> {
    play(line)
}

fn line(player: &mut Player, line: &[u8]) -> bool {
    match read_item(line) {
        Item::Ticks(ticks) => do_ticks(player, ticks),
        item => player.common(item),
    }
}

fn do_ticks(player: &mut Player, ticks: u32) -> bool {
    let Some((sum, _)) = player.ticks(ticks) else {
        return false;
    };
    player.say(format!("T {} I {} W {}", sum.ticks, sum.infused, sum.withdrawn).as_bytes());
    true
}
