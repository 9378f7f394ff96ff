//! What the bench and the service program share: lines on standard input drive one pump, and what comes of them goes
//! to standard output.

use std::io::{self, ErrorKind, Read, Write};

use crate::answers::ANSWER_ROOM;
use crate::line::RETURN;
use crate::report::Report;
use crate::script::Item;
use crate::state::Pump;
use crate::ticks::TICKS_A_CALL_MAX;

const CHUNK: usize = 1 << 16;

/// A pump, and what was said of it that is not yet written.
pub struct Player {
    pub pump: Pump,
    said: Vec<u8>,
}

/// Plays standard input to a fresh pump. The program's `line` says whether the line, without its end, was an item
/// that the pump took.
pub fn play(line: impl Fn(&mut Player, &[u8]) -> bool) -> io::Result<()> {
    let mut player = Player { pump: Pump::new(), said: Vec::with_capacity(CHUNK) };
    let mut input = io::stdin().lock();
    let mut output = io::stdout().lock();
    let mut chunk = vec![0; CHUNK];
    let mut begun = Vec::new();
    loop {
        // Someone may wait for our answers before giving more, so they leave before we read.
        player.flush(&mut output)?;
        let length = match input.read(&mut chunk) {
            Ok(length) => length,
            Err(error) if error.kind() == ErrorKind::Interrupted => continue,
            Err(error) => return Err(error),
        };
        if length == 0 {
            break;
        }
        let mut rest = &chunk[..length];
        while let Some(end) = rest.iter().position(|&b| b == b'\n') {
            begun.extend_from_slice(&rest[..end]);
            player.line(begun.strip_suffix(&[RETURN]).unwrap_or(&begun), &line);
            begun.clear();
            rest = &rest[end + 1..];
            if player.said.len() >= CHUNK {
                player.flush(&mut output)?;
            }
        }
        begun.extend_from_slice(rest);
    }
    if !begun.is_empty() {
        // No newline came, so a return at the end is part of the line.
        player.line(&begun, &line);
    }
    player.flush(&mut output)
}

impl Player {
    /// An item that both programs treat alike.
    pub fn common(&mut self, item: Item) -> bool {
        match item {
            Item::Text(text) => self.text(text),
            Item::Edge(pin, level) => self.pump.pin(pin, level).refusal == 0,
            _ => false,
        }
    }

    /// Sends bytes and hands each answer over. Gives the number of answers; none if a byte was refused.
    pub fn send<'a>(&mut self, bytes: impl Iterator<Item = &'a u8>, tell: impl Fn(&mut Player, &[u8])) -> Option<u32> {
        let mut answer = [0; ANSWER_ROOM];
        let mut answers = 0;
        for &byte in bytes {
            let report = self.pump.byte(byte, &mut answer);
            if report.refusal != 0 {
                return None;
            }
            if report.answer > 0 {
                tell(self, &answer[..report.answer]);
                answers += 1;
            }
        }
        Some(answers)
    }

    /// So many ticks, by as many calls as they need: one that sends a packet ends early, and its report says what is
    /// left. Gives the sum of the reports and the packets; none if a call was refused.
    pub fn ticks(&mut self, n: u32) -> Option<(Report, Vec<Vec<u8>>)> {
        let mut answer = [0; ANSWER_ROOM];
        let mut sum = Report::default();
        let mut packets = Vec::new();
        loop {
            let report = self.pump.ticks((n - sum.ticks).min(TICKS_A_CALL_MAX), &mut answer);
            if report.refusal != 0 {
                return None;
            }
            sum.ticks += report.ticks;
            sum.infused += report.infused;
            sum.withdrawn += report.withdrawn;
            sum.beeps += report.beeps;
            sum.output = report.output;
            if report.answer > 0 {
                packets.push(answer[..report.answer].to_vec());
            }
            if sum.ticks == n {
                return Some((sum, packets));
            }
        }
    }

    pub fn say(&mut self, text: &[u8]) {
        self.said.extend_from_slice(text);
        self.said.push(b'\n');
    }

    fn line(&mut self, line: &[u8], play: impl Fn(&mut Player, &[u8]) -> bool) {
        if !play(self, line) {
            self.say(b"!");
        }
    }

    /// A return inside the text ends a line of its own, so one text can have several answers.
    fn text(&mut self, text: &[u8]) -> bool {
        // What lies between STX and ETX.
        let answers =
            self.send(text.iter().chain(&[RETURN]), |player, answer| player.say(&answer[1..answer.len() - 1]));
        if answers == Some(0) {
            self.say(b"");
        }
        answers.is_some()
    }

    fn flush(&mut self, output: &mut impl Write) -> io::Result<()> {
        output.write_all(&self.said)?;
        output.flush()?;
        self.said.clear();
        Ok(())
    }
}
