//! What happens on the cable in Safe mode: packets good and wrong, parts dropped, alarms sent.

use twin::{Alarm, Mode, Packet, Pump, Report, ANSWER_ROOM, QUIET_TICKS};

use crate::Counts;

impl Counts {
    /// A byte that the pump has taken: before it the state was `before`.
    pub fn cable_byte(&mut self, before: &Pump, pump: &Pump, byte: u8, answer: &[u8]) {
        if before.safe() != pump.safe() {
            self.add(if pump.safe() { "cable: turned to Safe mode" } else { "cable: turned to Basic mode" });
        } else if before.limit != pump.limit {
            self.add("cable: new limits in Safe mode");
        }
        if !before.safe() {
            return;
        }
        match (&before.packet, &pump.packet) {
            (None, None) => self.add("cable: bytes outside a packet"),
            (Some(part), Some(_)) if part.quiet == QUIET_TICKS - 1 => self.add("cable: bytes after 499 quiet ticks"),
            (Some(part), None) => self.end_of_packet(before, part, byte, answer),
            _ => {}
        }
    }

    fn end_of_packet(&mut self, before: &Pump, part: &Packet, byte: u8, answer: &[u8]) {
        if answer.ends_with(b"?COM") {
            self.add(match part.count {
                0 => "cable: ?COM at the length",
                n if n + 1 == usize::from(part.bytes[0]) => "cable: ?COM at ETX",
                _ => "cable: ?COM at the check",
            });
            if byte == 2 {
                self.add("cable: ?COM for a byte 02");
            }
            if before.alarm.is_some() {
                self.add("cable: ?COM with an alarm pending");
            }
            if before.mode != Mode::Stopped {
                self.add("cable: ?COM while a program is on");
            }
            return;
        }
        self.add("cable: good packets");
        let data = part.data();
        if answer.is_empty() {
            self.add("cable: good packets to another address");
        }
        if before.timer.is_none() {
            self.add("cable: good packets that start a waiting timer");
        }
        if before.timer == Some(1) {
            self.add("cable: good packets one tick before the time-out");
        }
        if part.quiet > 0 {
            self.add("cable: good packets whose ETX came after quiet ticks");
        }
        if data.iter().any(|&b| b.is_ascii_lowercase() || b <= b' ') && !answer.is_empty() {
            self.add("cable: good packets with small letters, blanks or control bytes");
        }
        if data.contains(&2) {
            self.add("cable: good packets with 02 in the data");
        }
        if data.is_empty() {
            self.add("cable: good packets of length 4");
        }
        if data.len() == 40 {
            self.add("cable: good packets of length 44");
        }
        if data.ends_with(b"*RESET") && answer == b"00S" {
            self.add("cable: *RESET in Safe mode");
        }
        if data.starts_with(b"SAF") && answer.ends_with(b"?") {
            self.add("cable: SAF malformed");
        }
        if data.starts_with(b"SAF") && answer.ends_with(b"?OOR") {
            self.add("cable: SAF out of range");
        }
        if data.starts_with(b"SAF") && before.mode == Mode::Paused {
            self.add("cable: SAF while paused");
        }
    }

    pub fn cable_tick(&mut self, pump: &mut Pump, tick: impl FnOnce(&mut Counts, &mut Pump) -> Report) -> Report {
        if !pump.safe() {
            return tick(self, pump);
        }
        let part = pump.packet.is_some();
        let before = (pump.timer == Some(1)).then(|| pump.clone());
        let status = char::from(pump.status());
        let report = tick(self, pump);
        if part && pump.packet.is_none() {
            self.add(&format!("cable: part packets dropped in state {status}"));
        }
        if report.answer > 0 && before.is_none() {
            self.add("cable: alarms E sent");
        }
        if let Some(before) = before {
            self.time_out(&before, &report);
        }
        report
    }

    fn time_out(&mut self, before: &Pump, report: &Report) {
        match before.alarm {
            Some(alarm) => self.add(&format!("cable: alarms T over a pending {}", char::from(alarm.letter()))),
            None => self.add(&format!("cable: alarms T in state {}", char::from(before.status()))),
        }
        if before.packet.is_some() {
            self.add("cable: alarms T in a part packet");
        }
        // The same tick with the timer waiting shows what else it does.
        let mut other = Pump { timer: None, ..before.clone() };
        other.tick(&mut [0; ANSWER_ROOM]);
        let was_under_way = before.visit.is_some() || before.pause.is_some();
        let with = [
            (other.alarm == Some(Alarm::Program) && before.alarm.is_none(), "alarm E"),
            (report.infused + report.withdrawn > 0, "steps"),
            (report.beeps > 0, "a beep"),
            (report.output != before.output, "a new level"),
            (was_under_way && other.visit.is_none() && other.pause.is_none(), "the end of a visit or pause"),
            (before.operating() && other.mode == Mode::Stopped && other.alarm.is_none(), "the program's end"),
        ];
        for (_, what) in with.iter().filter(|(happened, _)| *happened) {
            self.add(&format!("cable: alarms T in a tick with {what}"));
        }
    }
}
