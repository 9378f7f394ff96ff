//! A pump in Safe mode that one can talk to.

use super::set;
use twin::{check, packet, Alarm, Pump, ANSWER_ROOM};

/// A stopped pump in Safe mode, with no alarm.
pub fn safe(limit: u8) -> Pump {
    let mut pump = super::awake();
    set(&mut pump, &[&format!("SAF {limit}")]);
    assert!(pump.safe() && pump.is_sound());
    pump
}

/// Sends bytes; gives each answer with the place of the byte, from 1 on, that it came with.
pub fn entered(pump: &mut Pump, bytes: &[u8]) -> Vec<(usize, Vec<u8>)> {
    let mut answers = Vec::new();
    for (n, &byte) in (1..).zip(bytes) {
        let mut out = [0; ANSWER_ROOM];
        let report = pump.byte(byte, &mut out);
        assert_eq!(report.refusal, 0);
        assert!(pump.is_sound());
        if report.answer > 0 {
            answers.push((n, out[..report.answer].to_vec()));
        }
    }
    answers
}

pub fn bytes(pump: &mut Pump, bytes: &[u8]) -> Vec<Vec<u8>> {
    entered(pump, bytes).into_iter().map(|(_, answer)| answer).collect()
}

/// A line with its return, and its one answer whole.
pub fn line(pump: &mut Pump, text: &str) -> Vec<u8> {
    let answers = bytes(pump, format!("{text}\r").as_bytes());
    assert_eq!(answers.len(), 1);
    answers[0].clone()
}

/// Data as a good packet; gives the data of its one answer.
pub fn send(pump: &mut Pump, data: &[u8]) -> String {
    let answers = bytes(pump, &packet(data));
    assert_eq!(answers.len(), 1);
    packet_answer(&answers[0])
}

/// The data of a packet, whose frame is looked at here.
pub fn packet_answer(bytes: &[u8]) -> String {
    let end = bytes.len();
    let data = &bytes[2..end - 3];
    let sum = check(data);
    assert_eq!((bytes[0], usize::from(bytes[1]), bytes[end - 1]), (2, end - 1, 3));
    assert_eq!((bytes[end - 3], bytes[end - 2]), ((sum >> 8) as u8, sum as u8));
    String::from_utf8_lossy(data).into_owned()
}

/// The letter of an alarm that a tick has sent.
pub fn letter(bytes: &[u8]) -> u8 {
    let data = packet_answer(bytes);
    assert!(data.starts_with("00A?") && data.len() == 5);
    data.as_bytes()[4]
}

pub fn status_of(pump: &Pump) -> String {
    format!("00{}", char::from(pump.status()))
}

/// The wrong packet's answer from a stopped pump.
pub fn com() -> Vec<u8> {
    packet(b"00S?COM")
}

/// The time runs out with the last of so many ticks, and not before.
pub fn time_out_after(pump: &mut Pump, ticks: u32) {
    let mut out = [0; ANSWER_ROOM];
    let before = pump.ticks(ticks - 1, &mut out);
    assert_eq!((before.ticks, before.answer), (ticks - 1, 0));
    let report = pump.tick(&mut out);
    assert_eq!(letter(&out[..report.answer]), b'T');
    assert_eq!(pump.alarm, Some(Alarm::TimeOut));
    assert!(pump.is_sound());
}
