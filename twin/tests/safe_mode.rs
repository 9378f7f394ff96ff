//! Safe mode: the check, packets, the timer and its alarm. The numbers are those of the decided open points.

mod common;

use common::safe::{bytes, com, entered, letter, line, packet_answer, safe, send, status_of, time_out_after};
use common::{awake, continuous, pausing, set, visiting, waiting};
use twin::{check, packet, Alarm, Mode, Pump, Report};

#[test]
fn the_check() {
    assert_eq!(check(b"123456789"), 0x31C3);
    assert_eq!(check(b""), 0);
    assert_eq!(check(b"SAF0"), 0x5543);
    assert_eq!(packet(b"SAF0"), *b"\x02\x08SAF0\x55\x43\x03");
    assert_eq!(packet(b""), *b"\x02\x04\x00\x00\x03");
}

/// 4: in Basic mode the bytes of a packet go the way of all bytes of a line.
#[test]
fn basic_mode_takes_no_packets() {
    let mut pump = awake();
    assert_eq!(bytes(&mut pump, &packet(b"DIS")), Vec::<Vec<u8>>::new());
    // DIS and what of its check is a character: 1c and af.
    assert_eq!(pump.line.characters(), b"DIS\xaf");
    // A length of 13 is a return.
    assert_eq!(bytes(&mut awake(), &packet(b"123456789")), [b"\x0200S\x03".to_vec()]);
    let mut pump = awake();
    assert_eq!(bytes(&mut pump, &[2, 3, 4, 44]), Vec::<Vec<u8>>::new());
    assert_eq!((pump.line.length, pump.packet, pump.timer), (1, None, None));
}

/// 5: a command is answered in the mode it came in; a fresh state is in Basic mode.
#[test]
fn answered_in_the_mode_it_came_in() {
    let mut pump = awake();
    assert!(!pump.safe() && !Pump::new().safe());
    assert_eq!(line(&mut pump, "SAF 5"), b"\x0200S\x03");
    assert!(pump.safe());
    assert_eq!(bytes(&mut pump, &packet(b"SAF0")), [packet(b"00S")]);
    assert_eq!(line(&mut pump, ""), b"\x0200S\x03");
    let mut pump = safe(5);
    pump.pin(6, 0);
    assert_eq!(bytes(&mut pump, &packet(b"*RESET")), [packet(b"00S")]);
    assert!(!pump.safe() && pump.pins.pin6 == 0 && pump.timer.is_none());
    assert_eq!(line(&mut pump, "SAF"), b"\x0200S000\x03");
}

/// 6: SAF in every state, its spellings, its query.
#[test]
fn saf_in_every_state() {
    for pump in [awake(), visiting(), continuous(), pausing(), waiting()] {
        let status = char::from(pump.status());
        let mut given = pump.clone();
        assert_eq!(line(&mut given, "SAF 7"), format!("\x0200{status}\x03").as_bytes());
        assert_eq!(given, Pump { limit: 7, timer: Some(7_000), ..pump.clone() });
        assert_eq!(send(&mut given, b"SAF9"), status_of(&pump));
        assert_eq!(given, Pump { limit: 9, timer: Some(9_000), ..pump.clone() });
        assert_eq!(send(&mut given, b"SAF0"), status_of(&pump));
        assert_eq!(given, pump);
    }
    let mut pump = visiting();
    set(&mut pump, &["STP", "SAF 3"]);
    assert_eq!((pump.mode, pump.visit.is_some()), (Mode::Paused, true));
}

#[test]
fn saf_spelled() {
    for (argument, answer, limit) in [
        ("5", "00S", 5),
        ("05", "00S", 5),
        ("005", "00S", 5),
        ("255", "00S", 255),
        ("000", "00S", 0),
        ("0005", "00S?", 9),
        ("1.0", "00S?", 9),
        (".", "00S?", 9),
        ("X", "00S?", 9),
        ("-1", "00S?", 9),
        ("256", "00S?OOR", 9),
        ("999", "00S?OOR", 9),
        ("2560", "00S?", 9),
    ] {
        let mut pump = safe(9);
        assert_eq!(send(&mut pump, format!("SAF{argument}").as_bytes()), answer, "{argument}");
        assert_eq!(pump.limit, limit);
    }
    let mut pump = awake();
    for (argument, answer) in [("0", "00S"), ("", "00S000"), ("256", "00S?OOR"), ("0000", "00S?")] {
        assert_eq!(common::ask(&mut pump, &format!("SAF{argument}")), answer);
        assert!(!pump.safe() && pump.timer.is_none());
    }
    for (limit, told) in [(5, "00S005"), (42, "00S042"), (255, "00S255")] {
        assert_eq!(send(&mut safe(limit), b"SAF"), told);
    }
}

/// 7: an alarm comes first; a refused SAF restarts the old limit.
#[test]
fn saf_met_by_an_alarm_or_refused() {
    let mut pump = Pump::new();
    assert_eq!(common::ask(&mut pump, "SAF 5"), "00A?R");
    assert!(!pump.safe());
    for command in [&b"SAF0"[..], b"*RESET", b"SAF200"] {
        let mut pump = safe(5);
        time_out_after(&mut pump, 5_000);
        assert_eq!(send(&mut pump, command), "00A?T");
        assert_eq!((pump.limit, pump.timer, pump.alarm), (5, Some(5_000), None));
    }
    for command in [&b"SAF256"[..], b"SAF0005", b"SAF1."] {
        let mut pump = safe(5);
        pump.ticks(300, &mut [0; 24]);
        assert!(send(&mut pump, command).starts_with("00S?"));
        assert_eq!((pump.limit, pump.timer), (5, Some(5_000)));
    }
}

/// 8: which call answers `?COM`, once a packet.
#[test]
fn wrong_packets() {
    for length in (0..4).chain(45..=255) {
        assert_eq!(entered(&mut safe(5), &[2, length]), [(2, com())], "length {length}");
    }
    for length in 4..=44 {
        assert_eq!(entered(&mut safe(5), &[2, length]), []);
    }
    for wrong in [*b"\x02\x08SAF0\x55\x42\x03", *b"\x02\x08SAF0\x54\x43\x03", *b"\x02\x08SAF0\x43\x55\x03"] {
        for etx in [3, 4] {
            let mut pump = safe(5);
            let mut sent = wrong;
            sent[8] = etx;
            assert_eq!(entered(&mut pump, &sent), [(8, com())]);
            assert_eq!((pump.limit, pump.packet), (5, None));
        }
    }
    for etx in [0, 2, 4, 13, 131] {
        let mut pump = safe(5);
        assert_eq!(entered(&mut pump, &[2, 4, 0, 0, etx]), [(5, com())]);
        assert!(pump.packet.is_none());
    }
}

/// 9: the wrong byte is spent, also where it is 02; elsewhere 02 is a byte as any.
#[test]
fn two_begins_no_packet_inside_one() {
    assert_eq!(entered(&mut safe(5), &[2, 2, 4, 0, 0, 3]), [(2, com())]);
    assert_eq!(entered(&mut safe(5), &[2, 4, 0, 0, 2, 4, 0, 0, 3]), [(5, com())]);
    assert_eq!(entered(&mut safe(5), &[2, 4, 0, 2, 4, 0, 0, 3]), [(4, com())]);
    assert_eq!(send(&mut safe(5), b"\x02"), "00S?");
    assert_eq!(send(&mut safe(5), b"\x02\x04\x00\x00\x03"), "00S?");
    // Data whose check begins with 02.
    let mut data = [0; 2];
    let found = (0..=u16::MAX).find(|n| {
        data = n.to_be_bytes();
        check(&data).to_be_bytes()[0] == 2
    });
    assert!(found.is_some());
    assert_eq!(send(&mut safe(5), &data), "00S?");
}

/// 10: `?COM` comes before address and alarm, and touches neither of them nor the timer.
#[test]
fn com_touches_nothing() {
    let mut pump = safe(5);
    pump.ticks(300, &mut [0; 24]);
    let kept = pump.clone();
    assert_eq!(entered(&mut pump, b"\x02\x0517\x00\x03"), [(5, com())]);
    assert_eq!(pump, kept);
    time_out_after(&mut pump, 4_700);
    let kept = pump.clone();
    assert_eq!(entered(&mut pump, b"\x02\x08SAF0\x55\x44\x03"), [(8, com())]);
    assert_eq!(pump, kept);
    assert_eq!(send(&mut pump, b""), "00A?T");
    let mut pump = safe_with(visiting(), 5);
    assert_eq!(entered(&mut pump, &[2, 3]), [(2, packet(b"00I?COM"))]);
}

/// 11: data are taken as they come.
#[test]
fn nothing_is_dropped_or_raised() {
    assert_eq!(send(&mut safe(5), b""), "00S");
    for command in [&b"dis"[..], b"DIS ", b" DIS", b"DIA 10.00", b"DIS\r", b"\0DIS", b"DIS\x7f", b"DIRinf", b"saf"] {
        assert_eq!(send(&mut safe(5), command), "00S?", "{command:?}");
    }
    assert_eq!(send(&mut safe(5), b"DIA10.00"), "00S");
    for (data, answer) in [(&b"0DIA"[..], "00S10.00"), (b"00DIA", "00S10.00"), (b"000DIA", "00S?"), (b"0", "00S")] {
        assert_eq!(send(&mut safe(5), data), answer);
    }
    for foreign in [&b"5"[..], b"17DIS", b"01DIS", b"10"] {
        assert_eq!(bytes(&mut safe(5), &packet(foreign)), Vec::<Vec<u8>>::new());
    }
    assert_eq!(send(&mut safe(5), &[b'X'; 40]), "00S?");
    assert_eq!(send(&mut safe(5), &[b'0'; 40]), "00S?");
    assert_eq!(entered(&mut safe(5), &[2, 45]), [(2, com())]);
}

/// 12: whatever good packet restarts the timer, counted from the call that takes its ETX.
#[test]
fn good_packets_restart_the_timer() {
    for data in [&b""[..], b"17", b"99*RESET", b"XYZ", b"RUN99", b"DIA10.00"] {
        let mut pump = safe(2);
        pump.ticks(1_500, &mut [0; 24]);
        let whole = packet(data);
        bytes(&mut pump, &whole[..whole.len() - 1]);
        pump.ticks(400, &mut [0; 24]);
        assert_eq!(pump.timer, Some(100));
        bytes(&mut pump, &[3]);
        assert_eq!(pump.timer, Some(2_000));
        time_out_after(&mut pump, 2_000);
        bytes(&mut pump, &whole);
        assert_eq!(pump.timer, Some(2_000));
    }
}

/// 13: a part packet lives for 499 ticks without a byte, in every state of the pump.
#[test]
fn part_packets() {
    let states = [awake(), visiting(), paused(), pausing(), waiting()];
    for pump in states {
        let pump = safe_with(pump, 9);
        let status = pump.status();
        for place in 1..5 {
            for (quiet, belongs) in [(499, true), (500, false), (501, false)] {
                let mut pump = pump.clone();
                bytes(&mut pump, &packet(b"")[..place]);
                pump.ticks(quiet, &mut [0; 24]);
                assert_eq!(pump.packet.is_some(), belongs, "{status} {place}");
                let answers = bytes(&mut pump, &packet(b"")[place..]);
                assert_eq!(answers.len(), usize::from(belongs));
            }
        }
    }
    let mut pump = safe(9);
    for byte in packet(b"PHN") {
        pump.ticks(499, &mut [0; 24]);
        let answer = bytes(&mut pump, &[byte]);
        assert_eq!(answer.is_empty(), byte != 3);
    }
    let mut pump = safe(9);
    assert_eq!(bytes(&mut pump, b"\x00\x03\rDIS\r0\x04"), Vec::<Vec<u8>>::new());
    assert_eq!(pump, safe(9));
}

#[test]
fn alarms_and_edges_leave_a_part_packet() {
    let mut pump = safe_with(pausing(), 1);
    pump.ticks(800, &mut [0; 24]);
    bytes(&mut pump, &packet(b"DIA")[..4]);
    pump.pin(2, 0);
    pump.pin(4, 0);
    assert_eq!(pump.mode, Mode::Paused);
    time_out_after(&mut pump, 200);
    assert!(pump.packet.is_some());
    assert_eq!(bytes(&mut pump, &packet(b"DIA")[4..]), [packet(b"00A?T")]);
}

/// 14: the longest answer as a packet has 22 bytes.
#[test]
fn longest_answer() {
    let mut pump = safe(5);
    let answer = bytes(&mut pump, &packet(b"DIS")).remove(0);
    assert_eq!((answer.len(), packet_answer(&answer)), (22, "00SI0.000W0.000UL".to_string()));
}

/// 15: alarm T comes with the 1,000 n-th tick in every state.
#[test]
fn the_time_out() {
    for pump in [awake(), visiting(), continuous(), paused(), pausing(), waiting()] {
        for limit in [1, 2, 255] {
            let mut pump = safe_with(pump.clone(), limit);
            time_out_after(&mut pump, u32::from(limit) * 1_000);
            assert_eq!((pump.mode, pump.limit, pump.timer), (Mode::Stopped, limit, None));
            assert_eq!((pump.visit, pump.pause, pump.trigger_wait, pump.rate), (None, None, false, None));
            // The timer waits, so there is no second one.
            assert_eq!(pump.ticks(600_000, &mut [0; 24]).answer, 0);
            assert!(pump.is_sound());
        }
    }
}

#[test]
fn the_tick_of_the_time_out_does_its_work() {
    // Two steps and two thirds a tick.
    let mut pump = safe_with(continuous(), 1);
    let mut other = pump.clone();
    other.timer = None;
    pump.ticks(999, &mut [0; 24]);
    other.ticks(999, &mut [0; 24]);
    let mut out = [0; 24];
    let (late, plain) = (pump.tick(&mut out), other.tick(&mut [0; 24]));
    assert!(late.infused > 0 && letter(&out[..late.answer]) == b'T');
    assert_eq!((late.infused, pump.infused), (plain.infused, other.infused));
    // A beep, a level and the end of a program in that tick.
    for (function, beeps, output) in [("FUN BEP", 1, 0), ("FUN OUT 1", 0, 1), ("FUN STP", 0, 0)] {
        let mut pump = awake();
        set(&mut pump, &[function, "SAF 1"]);
        pump.ticks(999, &mut [0; 24]);
        pump.pin(2, 0);
        let report = pump.tick(&mut [0; 24]);
        assert_eq!((report.beeps, report.output, report.answer), (beeps, output, packet(b"00A?T").len()));
        assert_eq!((pump.output, pump.alarm, pump.mode), (output, Some(Alarm::TimeOut), Mode::Stopped));
    }
}

/// 16: E and T in one tick are one packet, T; T over a pending T is sent again.
#[test]
fn alarms_meet() {
    let mut pump = awake();
    set(&mut pump, &["FUN INC", "SAF 1"]);
    pump.ticks(999, &mut [0; 24]);
    pump.pin(2, 0);
    time_out_after(&mut pump, 1);
    assert_eq!((send(&mut pump, b""), send(&mut pump, b"")), ("00A?T".into(), "00S".into()));
    time_out_after(&mut pump, 1_000);
    assert_eq!(bytes(&mut pump, &packet(b"17")), Vec::<Vec<u8>>::new());
    time_out_after(&mut pump, 1_000);
    assert_eq!((send(&mut pump, b""), send(&mut pump, b"")), ("00A?T".into(), "00S".into()));
    // T over a pending E.
    set_in_packets(&mut pump, &["PHN1", "FUNINC", "RUN"]);
    let mut out = [0; 24];
    let report = pump.ticks(5, &mut out);
    assert_eq!((report.ticks, letter(&out[..report.answer])), (1, b'E'));
    time_out_after(&mut pump, 999);
    assert_eq!((send(&mut pump, b""), send(&mut pump, b"")), ("00A?T".into(), "00S".into()));
}

/// 17: only ticks send alarms, only in Safe mode, and the alarm stays pending.
#[test]
fn alarms_sent() {
    let mut pump = awake();
    set(&mut pump, &["FUN INC", "RUN"]);
    assert_eq!(pump.tick(&mut [0; 24]).answer, 0);
    assert_eq!(pump.alarm, Some(Alarm::Program));
    let mut pump = awake();
    set(&mut pump, &["FUN INC", "SAF 5"]);
    assert_eq!(send(&mut pump, b"RUN"), "00I");
    let mut out = [7; 24];
    let report = pump.tick(&mut out);
    assert_eq!(out[..report.answer], packet(b"00A?E"));
    assert_eq!(out[report.answer..], [7; 24][report.answer..]);
    assert_eq!(pump.tick(&mut out).answer, 0);
    assert_eq!((send(&mut pump, b"DIS"), send(&mut pump, b"")), ("00A?E".into(), "00S".into()));
    let mut pump = safe(5);
    assert_eq!((pump.pin(2, 0).answer, pump.byte(2, &mut out).answer), (0, 0));
}

/// The call of many ticks ends with the tick that sends.
#[test]
fn many_ticks_end_with_a_packet() {
    let mut pump = safe_with(continuous(), 1);
    let mut single = pump.clone();
    let mut sum = Report::default();
    for _ in 0..1_000 {
        let report = single.tick(&mut [0; 24]);
        sum.infused += report.infused;
        sum.ticks += report.ticks;
        sum.answer = report.answer;
    }
    assert_eq!(pump.ticks(1_000_000, &mut [0; 24]), sum);
    assert_eq!(pump, single);
    assert_eq!((sum.ticks, sum.answer), (1_000, 10));
    // On its last tick; before it; after it.
    for (n, answer) in [(1_000, 10), (999, 0), (0, 0)] {
        let report = safe_with(continuous(), 1).ticks(n, &mut [0; 24]);
        assert_eq!((report.ticks, report.answer), (n, answer));
    }
}

/// 1 after 4 and before 5, in both modes, also where nothing would be written.
#[test]
fn refusals_of_ticks() {
    for pump in [awake(), visiting(), safe(5), safe_with(visiting(), 1)] {
        let mut given = pump.clone();
        let refused = |refusal| Report { refusal, ..Report::default() };
        let mut short = [7; 23];
        assert_eq!(given.tick(&mut short), refused(1));
        assert_eq!(given.tick(&mut []), refused(1));
        for n in [0, 1, 1_000_000, 1_000_001] {
            assert_eq!(given.ticks(n, &mut short), refused(1));
        }
        assert_eq!(given.ticks(1_000_001, &mut [0; 24]), refused(5));
        assert_eq!((given.clone(), short), (pump, [7; 23]));
        given.diameter = 99;
        assert_eq!(given.tick(&mut []), refused(4));
        assert_eq!(given.ticks(1_000_001, &mut []), refused(4));
    }
}

fn safe_with(mut pump: Pump, limit: u8) -> Pump {
    set(&mut pump, &[&format!("SAF {limit}")]);
    pump
}

fn paused() -> Pump {
    let mut pump = visiting();
    set(&mut pump, &["STP"]);
    pump
}

fn set_in_packets(pump: &mut Pump, commands: &[&str]) {
    for command in commands {
        assert!(!send(pump, command.as_bytes()).contains('?'), "{command}");
    }
}
