//! `census [service] SCRIPT...` runs scripts and counts what happened in them, to see that they reach what they should.

mod cable;

use std::collections::BTreeMap;
use std::io;

use twin::{
    packet, read_item, read_service_item, Alarm, Function, Item, Mode, Pump, Report, ANSWER_ROOM, TICKS_A_CALL_MAX,
};

const RETURN: u8 = 13;

fn main() -> io::Result<()> {
    let mut counts = Counts::default();
    let mut names: Vec<String> = std::env::args().skip(1).collect();
    let service = names.first().is_some_and(|name| name == "service");
    if service {
        names.remove(0);
    }
    for name in names {
        let script = std::fs::read(name)?;
        let mut pump = Pump::new();
        let ended = script.ends_with(b"\n");
        let mut lines: Vec<&[u8]> = script.split(|&b| b == b'\n').collect();
        if ended {
            lines.pop();
        }
        let last = lines.len().saturating_sub(1);
        for (n, line) in lines.into_iter().enumerate() {
            let line = if n < last || ended { line.strip_suffix(&[RETURN]).unwrap_or(line) } else { line };
            counts.item(&mut pump, if service { read_service_item(line) } else { read_item(line) });
        }
        counts.add("scripts");
    }
    for (what, count) in &counts.0 {
        println!("{count:10} {what}");
    }
    Ok(())
}

#[derive(Default)]
struct Counts(BTreeMap<String, u64>);

impl Counts {
    fn add(&mut self, what: &str) {
        self.add_many(what, 1);
    }

    fn add_many(&mut self, what: &str, count: u64) {
        match self.0.get_mut(what) {
            Some(n) => *n += count,
            None => {
                self.0.insert(what.to_string(), count);
            }
        }
    }

    fn item(&mut self, pump: &mut Pump, item: Item) {
        self.add("lines");
        match item {
            Item::Text(text) => self.bytes(pump, text.iter().chain(&[RETURN])),
            Item::Bytes(bytes) => {
                self.add("B lines");
                self.bytes(pump, bytes.iter())
            }
            Item::Packet(data) => {
                self.add("P lines");
                self.bytes(pump, packet(data).iter())
            }
            Item::Edge(pin, level) => self.edge(pump, pin, level),
            Item::Ticks(ticks) => self.ticks(pump, ticks),
            Item::Bad => self.add("bad lines"),
        }
    }

    fn bytes<'a>(&mut self, pump: &mut Pump, bytes: impl Iterator<Item = &'a u8>) {
        let mut out = [0; ANSWER_ROOM];
        let mut answered = false;
        for &byte in bytes {
            let before = pump.clone();
            let report = pump.byte(byte, &mut out);
            // In Safe mode length and check stand around what was said.
            let (front, behind) = if before.safe() { (2, 3) } else { (1, 1) };
            let answer = out[..report.answer].get(front..report.answer.saturating_sub(behind)).unwrap_or_default();
            if report.answer > 0 {
                answered = true;
                self.answer(answer);
            }
            self.cable_byte(&before, pump, byte, answer);
        }
        if !answered {
            self.add("answers: none");
        }
    }

    fn answer(&mut self, answer: &[u8]) {
        self.add(&format!("status {}", char::from(answer[2])));
        let data = &answer[3..];
        match data {
            b"?" | b"?NA" | b"?OOR" | b"?COM" | b"?R" | b"?E" | b"?T" => self.add(&format!(
                "answers: {}{}",
                if answer[2] == b'A' { "A" } else { "" },
                String::from_utf8_lossy(data)
            )),
            b"" => self.add("answers: status alone"),
            _ => self.add("answers: with data"),
        }
    }

    fn edge(&mut self, pump: &mut Pump, pin: u8, level: u8) {
        let (trap, under_way) = (pump.trap, pump.visit.is_some() || pump.pause.is_some() || pump.trigger_wait);
        if pump.pin(pin, level).refusal != 0 {
            return self.add("refused edges");
        }
        if trap.is_some() && pump.trap.is_none() {
            self.add("traps fired by an edge");
            if under_way {
                self.add("traps fired by an edge in an entered phase");
            }
        }
    }

    fn ticks(&mut self, pump: &mut Pump, ticks: u32) {
        let (mut steps, mut beeps, output) = (0, 0, pump.output);
        for _ in 0..ticks {
            let report = self.cable_tick(pump, Counts::tick);
            steps += u64::from(report.infused + report.withdrawn);
            beeps += u64::from(report.beeps);
        }
        self.add_many("ticks", u64::from(ticks));
        self.add_many("steps", steps);
        self.add_many("beeps", beeps);
        self.add_many("T lines with several beeps", u64::from(beeps > 1));
        self.add_many("T lines that turn the output", u64::from(pump.output != output));
        self.add_many("T lines of no tick", u64::from(ticks == 0));
        self.add_many("T lines of several calls", u64::from(ticks > TICKS_A_CALL_MAX));
        self.add(if steps > 0 { "T lines with steps" } else { "T lines without steps" });
    }

    fn tick(&mut self, pump: &mut Pump) -> Report {
        if pump.mode != Mode::Operating || pump.trigger_wait {
            return pump.tick(&mut [0; ANSWER_ROOM]);
        }
        let (visit, pause) = (pump.visit.is_some(), pump.pause.is_some());
        let phase = phase_name(pump);
        if !visit && !pause {
            self.add(&format!("entered {phase}"));
        }
        let report = pump.tick(&mut [0; ANSWER_ROOM]);
        if pump.alarm == Some(Alarm::TimeOut) {
            self.add("runs ended by alarm T");
        } else if pump.alarm == Some(Alarm::Program) {
            self.add(&if visit {
                "alarms E in a visit".to_string()
            } else {
                format!("alarms E at the entry of {phase}")
            });
        } else if visit && pump.visit.is_none() {
            self.add("visits ended of themselves");
        } else if pause && pump.pause.is_none() {
            self.add("timed pauses ended of themselves");
        } else if pump.mode == Mode::Stopped {
            self.add("programs ended of themselves");
        }
        report
    }
}

fn phase_name(pump: &Pump) -> String {
    let Some(phase) = pump.program.phase(pump.current) else {
        return "past the last phase".to_string();
    };
    let kind = match phase.function {
        Function::Pause(0) => " 0",
        Function::Pause(_) => " nn",
        Function::PauseTenths(_) => " n.n",
        _ => "",
    };
    format!("{}{kind}", String::from_utf8_lossy(phase.function.name()))
}
