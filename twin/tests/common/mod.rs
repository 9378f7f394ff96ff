//! What the tests share: a pump one can talk to, and states in the middle of a run.
#![allow(dead_code)]

pub mod safe;

use twin::{Pump, ANSWER_ROOM};

/// Sends a command with its return; gives what lies between STX and ETX, empty if there was no answer.
pub fn ask(pump: &mut Pump, command: &str) -> String {
    let mut out = [0; ANSWER_ROOM];
    let mut answer = String::new();
    for byte in command.bytes().chain([13]) {
        let report = pump.byte(byte, &mut out);
        assert_eq!(report.refusal, 0);
        if report.answer > 0 {
            assert_eq!((out[0], out[report.answer - 1]), (2, 3));
            answer = String::from_utf8_lossy(&out[1..report.answer - 1]).into_owned();
        }
    }
    answer
}

/// Sends commands that must all be taken.
pub fn set(pump: &mut Pump, commands: &[&str]) {
    for command in commands {
        let answer = ask(pump, command);
        assert!(!answer.contains('?'), "{command}: {answer}");
    }
}

/// Steps infused and withdrawn in so many ticks.
pub fn ticks(pump: &mut Pump, count: u32) -> (u32, u32) {
    let mut steps = (0, 0);
    for _ in 0..count {
        let report = pump.tick(&mut [0; 24]);
        assert_eq!(report.refusal, 0);
        steps = (steps.0 + report.infused, steps.1 + report.withdrawn);
    }
    steps
}

/// A pump whose power-up alarm was seen.
pub fn awake() -> Pump {
    let mut pump = Pump::new();
    assert_eq!(ask(&mut pump, ""), "00A?R");
    pump
}

/// In the middle of a dispense of 50 steps.
pub fn visiting() -> Pump {
    let mut pump = awake();
    set(&mut pump, &["RAT 200 MH", "VOL 1", "RUN"]);
    ticks(&mut pump, 5);
    assert!(pump.visit.is_some() && pump.store > 0 && pump.is_sound());
    pump
}

/// In the middle of a dispense without a target.
pub fn continuous() -> Pump {
    let mut pump = awake();
    set(&mut pump, &["RAT 200 MH", "VOL 0", "RUN"]);
    ticks(&mut pump, 5);
    assert!(pump.visit.is_some_and(|visit| visit.target.is_none()) && pump.is_sound());
    pump
}

/// In a timed pause of one second, some of it gone.
pub fn pausing() -> Pump {
    let mut pump = awake();
    set(&mut pump, &["FUN PAS 1", "RUN"]);
    ticks(&mut pump, 5);
    assert!(pump.pause.is_some() && pump.is_sound());
    pump
}

pub fn waiting() -> Pump {
    let mut pump = awake();
    set(&mut pump, &["FUN PAS 0", "RUN"]);
    ticks(&mut pump, 5);
    assert!(pump.trigger_wait && pump.is_sound());
    pump
}

/// Three loops open, in front of a phase that is not entered.
pub fn looping() -> Pump {
    let mut pump = awake();
    set(&mut pump, &["FUN LPS", "PHN 2", "FUN LPS", "PHN 3", "FUN LPS", "RUN"]);
    ticks(&mut pump, 3);
    assert!(pump.loops.count == 3 && pump.is_sound());
    pump
}
