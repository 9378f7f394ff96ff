//! The composer of a script: writes lines, and follows them with a pump of its own.

use twin::{packet, read_item, read_service_item, Item, Mode, Pump, ANSWER_ROOM, TICKS_A_CALL_MAX};

use crate::dress;
use crate::random::Random;

pub const RETURN: u8 = 13;

/// The ticks that the long `T` of a service script may have in all, so that it stays quick to play.
const MANY_TICKS_MAX: u64 = 2_000_000;

#[derive(Clone, Copy, PartialEq, Eq)]
pub enum Kind {
    Bench,
    /// For the service program, in Basic mode.
    Service,
    /// For the service program, and mostly in Safe mode.
    Safe,
}

pub struct Composer {
    pub random: Random,
    pub pump: Pump,
    /// Whether the script is for the service program.
    pub service: bool,
    /// Whether it turns to Safe mode.
    pub safe: bool,
    /// What is left for the long `T`.
    pub many_ticks: u64,
    /// The phases of the program entered last: its first, and the one past its end.
    pub first: u8,
    pub past: u8,
    /// While gathering, commands wait to be sent as one text.
    pub gathering: bool,
    gathered: Vec<u8>,
    script: Vec<Vec<u8>>,
    wanted: usize,
}

impl Composer {
    pub fn new(seed: u64, wanted: usize, kind: Kind) -> Composer {
        Composer {
            random: Random::new(seed),
            pump: Pump::new(),
            service: kind != Kind::Bench,
            safe: kind == Kind::Safe,
            many_ticks: MANY_TICKS_MAX,
            first: 1,
            past: 2,
            gathering: false,
            gathered: Vec::new(),
            script: Vec::new(),
            wanted,
        }
    }

    /// The whole script, of exactly the lines that were asked for.
    pub fn write(mut self) -> Vec<u8> {
        self.opening();
        while !self.full() {
            if self.safe && !self.pump.safe() && self.random.percent(85) {
                self.turn_to_safe_mode();
            }
            match self.random.weighted(&[55, 30, 12, 3]) {
                0 => self.enter_program(),
                1 => self.edit_program(),
                2 => self.noise(),
                _ => self.fill_total(),
            }
            self.run_program();
            while self.pump.mode == Mode::Stopped && self.random.percent(25) && !self.full() {
                self.reset_or_clear();
            }
        }
        self.joined()
    }

    pub fn full(&self) -> bool {
        self.script.len() >= self.wanted
    }

    /// A command on a line of its own.
    pub fn say(&mut self, command: &str) {
        if self.in_safe_mode() {
            return self.say_in_packet(command);
        }
        let text = dress::harmless(&mut self.random, command);
        if self.gathering {
            self.gathered.extend_from_slice(&text);
            self.gathered.push(RETURN);
        } else {
            self.text(text);
        }
    }

    fn say_in_packet(&mut self, command: &str) {
        let data = dress::for_packet(&mut self.random, command);
        if self.gathering {
            self.gathered.extend(packet(&data));
        } else {
            self.send_packet(data);
        }
    }

    /// Nothing that is gathered alters the mode, so all of it is packets or all of it lines.
    pub fn send_gathered(&mut self) {
        let mut text = std::mem::take(&mut self.gathered);
        if self.in_safe_mode() && !text.is_empty() {
            return self.hexadecimal(&text);
        }
        // The bench adds the last return.
        if text.pop().is_some() {
            self.text(text);
        }
    }

    pub fn text(&mut self, text: Vec<u8>) {
        if self.in_safe_mode() && self.random.percent(95) {
            return self.send_packet(text);
        }
        if self.service && self.random.percent(30) {
            return self.send_bytes(text);
        }
        let mut line = vec![b'>'];
        line.extend_from_slice(&text);
        // Two commands in one text now and then: the return inside it ends the first.
        if self.random.percent(2) {
            line.push(RETURN);
            line.extend_from_slice(self.random.pick(&[&b""[..], b"PHN", b"FUN", b"DIS", b"5DIS", b"VOL"]));
        }
        self.line(line);
    }

    /// Any line of a script. Lines past the wanted number are neither written nor followed.
    pub fn line(&mut self, line: Vec<u8>) {
        if self.full() {
            return;
        }
        self.follow(&line);
        self.script.push(line);
    }

    /// Most scripts take the power-up alarm first.
    fn opening(&mut self) {
        if self.random.percent(85) {
            return self.say("");
        }
        for _ in 0..self.random.between(1, 5) {
            match self.random.between(0, 3) {
                0 => self.press(2),
                1 => self.ticks(),
                2 => self.line(b">1RUN".to_vec()),
                _ => self.noise(),
            }
        }
    }

    fn follow(&mut self, line: &[u8]) {
        match if self.service { read_service_item(line) } else { read_item(line) } {
            Item::Text(text) => self.follow_bytes(text.iter().chain(&[RETURN])),
            Item::Bytes(bytes) => self.follow_bytes(bytes.iter()),
            Item::Packet(data) => self.follow_bytes(packet(data).iter()),
            Item::Edge(pin, level) => {
                self.pump.pin(pin, level);
            }
            Item::Ticks(ticks) => {
                let mut left = ticks;
                while left > 0 {
                    let report = self.pump.ticks(left.min(TICKS_A_CALL_MAX), &mut [0; ANSWER_ROOM]);
                    assert_eq!(report.refusal, 0);
                    left -= report.ticks;
                }
            }
            Item::Bad => {}
        }
    }

    fn follow_bytes<'a>(&mut self, bytes: impl Iterator<Item = &'a u8>) {
        let mut answer = [0; ANSWER_ROOM];
        for &byte in bytes {
            self.pump.byte(byte, &mut answer);
        }
    }

    /// Line ends of both kinds, and at times none after the last line.
    fn joined(mut self) -> Vec<u8> {
        let returns = self.random.pick(&[0, 0, 0, 0, 0, 0, 1, 1, 100]);
        let mut script = Vec::new();
        let count = self.script.len();
        for (n, line) in self.script.iter().enumerate() {
            script.extend_from_slice(line);
            let last_open = n + 1 == count && !line.is_empty() && self.random.percent(10);
            if last_open {
                break;
            }
            // A line that itself ends in a return needs one more, or the bench would take it for the line's end.
            if line.last() == Some(&RETURN) || self.random.percent(returns) {
                script.push(RETURN);
            }
            script.push(b'\n');
        }
        script
    }
}
