//! Refusals: each clause of soundness has a test that breaks it alone, and the order of the numbers is kept.

mod common;

use common::safe::{bytes, safe};
use common::{awake, continuous, looping, pausing, visiting, waiting};
use twin::{
    packet, step_volume, threshold, Alarm, CurrentRate, Function, Loop, Mode, Packet, Pump, RateUnit, Report, Visit,
};
use twin::{NUMBER_MAX, TOTAL_MAX};

/// Spoils a sound state; every call must then refuse with 4, change nothing and write nothing.
fn unsound(mut pump: Pump, spoil: impl FnOnce(&mut Pump)) {
    assert!(pump.is_sound());
    spoil(&mut pump);
    assert!(!pump.is_sound());
    let kept = pump.clone();
    let mut out = [7; 30];
    let taken = [pump.byte(13, &mut out), pump.byte(13, &mut [])];
    let pins = [pump.pin(9, 9), pump.pin(2, 0)];
    let ticks = [pump.tick(&mut out), pump.tick(&mut []), pump.ticks(3, &mut out), pump.ticks(1_000_001, &mut [])];
    for report in taken.into_iter().chain(pins).chain(ticks) {
        assert_eq!(report, Report { refusal: 4, output: kept.output, ..Report::default() });
    }
    assert_eq!(pump, kept);
    assert_eq!(out, [7; 30]);
}

/// A change that soundness allows.
fn sound(mut pump: Pump, change: impl FnOnce(&mut Pump)) {
    change(&mut pump);
    assert!(pump.is_sound());
}

#[test]
fn diameter_in_range() {
    unsound(awake(), |p| p.diameter = 99);
    unsound(awake(), |p| p.diameter = 50_010);
    unsound(awake(), |p| p.diameter = 0);
}

#[test]
fn diameter_writable() {
    unsound(awake(), |p| p.diameter = 10_001);
    sound(awake(), |p| p.diameter = 9_999);
}

#[test]
fn stored_rate_writable() {
    unsound(awake(), |p| p.program.phases[40].rate = 10_001);
    unsound(awake(), |p| p.program.phases[40].rate = NUMBER_MAX + 1000);
    sound(awake(), |p| p.program.phases[40].rate = NUMBER_MAX);
}

#[test]
fn stored_volume_writable() {
    unsound(awake(), |p| p.program.phases[7].volume = 100_010);
    sound(awake(), |p| p.program.phases[7].volume = 100_100);
}

#[test]
fn function_data_in_range() {
    let wrong = [
        Function::Jump(0),
        Function::Jump(42),
        Function::If(42),
        Function::EventTrap(0),
        Function::Loop(0),
        Function::Loop(100),
        Function::Pause(100),
        Function::PauseTenths(0),
        Function::PauseTenths(100),
        Function::Output(2),
    ];
    for function in wrong {
        unsound(awake(), |p| p.program.phases[20].function = function);
    }
}

#[test]
fn chosen_phase_in_range() {
    unsound(awake(), |p| p.chosen = 0);
    unsound(awake(), |p| p.chosen = 42);
}

#[test]
fn current_phase_in_range() {
    unsound(awake(), |p| p.current = 0);
    unsound(awake(), |p| p.current = 43);
    sound(awake(), |p| p.current = 42);
}

#[test]
fn current_rate_in_range_but_not_writable() {
    let rate = |thousandths| Some(CurrentRate { thousandths, unit: RateUnit::MillilitreMinute });
    unsound(looping(), |p| p.rate = rate(NUMBER_MAX + 1));
    sound(looping(), |p| p.rate = rate(NUMBER_MAX - 1));
    sound(looping(), |p| p.rate = rate(0));
}

#[test]
fn trap_in_range() {
    unsound(visiting(), |p| p.trap = Some(0));
    unsound(visiting(), |p| p.trap = Some(42));
    sound(visiting(), |p| p.trap = Some(41));
}

#[test]
fn totals_in_range() {
    unsound(awake(), |p| p.infused = TOTAL_MAX + 1);
    unsound(awake(), |p| p.withdrawn = TOTAL_MAX + 1);
    sound(awake(), |p| p.infused = TOTAL_MAX);
}

#[test]
fn levels_in_range() {
    unsound(awake(), |p| p.pins.pin2 = 2);
    unsound(awake(), |p| p.pins.pin4 = 2);
    unsound(awake(), |p| p.pins.pin6 = 2);
    unsound(awake(), |p| p.output = 2);
}

#[test]
fn line_holds_what_a_line_can_keep() {
    unsound(awake(), |p| p.line.length = 41);
    unsound(awake(), |p| p.line.length = 1);
    for byte in [32, 127, b'a', b'z'] {
        unsound(awake(), |p| (p.line.bytes[0], p.line.length) = (byte, 1));
    }
    sound(awake(), |p| (p.line.bytes[0], p.line.length) = (255, 1));
}

#[test]
fn over_long_only_when_full() {
    unsound(awake(), |p| p.line.over_long = true);
    sound(awake(), |p| (p.line.bytes, p.line.length, p.line.over_long) = ([b'X'; 40], 40, true));
}

#[test]
fn basic_mode_has_neither_timer_nor_packet() {
    unsound(awake(), |p| p.timer = Some(1));
    unsound(awake(), |p| p.packet = Some(Packet::new()));
    unsound(safe(5), |p| p.limit = 0);
    unsound(part(b"DIS", 1), |p| (p.limit, p.timer) = (0, None));
}

#[test]
fn safe_mode_has_an_empty_line() {
    unsound(safe(5), |p| (p.line.bytes[0], p.line.length) = (b'X', 1));
    unsound(safe(5), |p| p.line.over_long = true);
    sound(safe(5), |p| p.line.bytes[39] = b'a');
}

#[test]
fn timer_within_the_limit() {
    unsound(safe(5), |p| p.timer = Some(0));
    unsound(safe(5), |p| p.timer = Some(5_001));
    unsound(safe(255), |p| p.timer = Some(255_001));
    for timer in [None, Some(1), Some(5_000)] {
        sound(safe(5), |p| p.timer = timer);
    }
}

#[test]
fn part_packet_of_a_right_length() {
    for (length, count) in [(0, 1), (3, 1), (3, 2), (45, 1), (255, 1), (4, 4), (7, 7), (44, 44)] {
        unsound(part(b"", 0), |p| p.packet = Some(of(length, count)));
    }
    for (length, count) in [(4, 1), (4, 2), (7, 5), (44, 1), (44, 42), (0, 0), (3, 0)] {
        sound(part(b"", 0), |p| p.packet = Some(of(length, count)));
    }
}

/// Bytes of a packet without its STX, so many of them.
fn of(length: u8, count: usize) -> Packet {
    let mut packet = Packet { count, ..Packet::new() };
    packet.bytes[0] = length;
    packet
}

#[test]
fn check_right_once_it_is_in() {
    for place in [1, 3, 4, 5] {
        unsound(part(b"DIS", 6), |p| p.packet.as_mut().unwrap().bytes[place] ^= 1);
        sound(part(b"DIS", 5), |p| p.packet.as_mut().unwrap().bytes[place] ^= 1);
    }
    // With another length it would be in at another place.
    unsound(part(b"DIS", 5), |p| p.packet.as_mut().unwrap().bytes[0] = 6);
}

#[test]
fn at_most_499_quiet_ticks() {
    for pump in [part(b"DIS", 0), part(b"DIS", 3), part(b"DIS", 6)] {
        unsound(pump.clone(), |p| p.packet.as_mut().unwrap().quiet = 500);
        unsound(pump.clone(), |p| p.packet.as_mut().unwrap().quiet = u16::MAX);
        sound(pump, |p| p.packet.as_mut().unwrap().quiet = 499);
    }
}

#[test]
fn bytes_that_did_not_come_are_asked_nothing() {
    sound(part(b"DIS", 3), |p| p.packet.as_mut().unwrap().bytes[42] = 7);
    sound(part(b"DIS", 0), |p| p.packet.as_mut().unwrap().bytes[0] = 7);
}

/// In Safe mode, with STX and so many bytes of a packet after it.
fn part(data: &[u8], count: usize) -> Pump {
    let mut pump = safe(5);
    assert_eq!(bytes(&mut pump, &packet(data)[..=count]), Vec::<Vec<u8>>::new());
    assert_eq!(pump.packet.as_ref().unwrap().count, count);
    pump
}

#[test]
fn at_most_three_loops() {
    unsound(looping(), |p| p.loops.count = 4);
}

#[test]
fn loops_begun_by_different_phases() {
    unsound(looping(), |p| p.loops.places[2].beginner = 1);
    unsound(looping(), |p| p.loops.places[2].beginner = 42);
    sound(looping(), |p| p.loops.places[2].beginner = 0);
}

#[test]
fn at_most_98_passes() {
    unsound(looping(), |p| p.loops.places[0].passes = 99);
    sound(looping(), |p| p.loops.places[0].passes = 98);
}

#[test]
fn closed_places_are_asked_nothing() {
    sound(visiting(), |p| p.loops.places[2] = Loop { beginner: 200, passes: 200 });
    sound(visiting(), |p| p.line.bytes[39] = b'a');
}

#[test]
fn store_below_threshold() {
    unsound(visiting(), |p| p.store = threshold(p.diameter));
    sound(visiting(), |p| p.store = threshold(p.diameter) - 1);
}

#[test]
fn store_zero_outside_a_visit() {
    unsound(awake(), |p| p.store = 1);
    unsound(pausing(), |p| p.store = 1);
}

#[test]
fn target_is_what_phase_and_diameter_give() {
    unsound(visiting(), |p| p.visit = Some(Visit { target: Some(51), given: 0 }));
    unsound(visiting(), |p| p.visit = Some(Visit { target: None, given: 0 }));
    unsound(continuous(), |p| p.visit = Some(Visit { target: Some(50), given: 0 }));
    unsound(visiting(), |p| p.diameter = 9_000);
    unsound(visiting(), |p| p.program.phases[0].volume = 2_000);
}

#[test]
fn steps_given_below_target() {
    unsound(visiting(), |p| p.visit = Some(Visit { target: Some(50), given: 50 }));
    sound(visiting(), |p| p.visit = Some(Visit { target: Some(50), given: 49 }));
}

#[test]
fn continuous_visit_counts_none() {
    unsound(continuous(), |p| p.visit = Some(Visit { target: None, given: 1 }));
}

#[test]
fn visit_has_a_usable_rate() {
    let rate = |thousandths| Some(CurrentRate { thousandths, unit: RateUnit::MillilitreHour });
    unsound(visiting(), |p| p.rate = None);
    unsound(visiting(), |p| p.rate = rate(0));
    unsound(visiting(), |p| p.rate = rate(282_745));
    sound(visiting(), |p| p.rate = rate(282_744));
}

#[test]
fn timed_pause_within_its_phase() {
    unsound(pausing(), |p| p.pause = Some(0));
    unsound(pausing(), |p| p.pause = Some(1_001));
    unsound(pausing(), |p| p.program.phases[0].function = Function::Pause(0));
    unsound(pausing(), |p| p.program.phases[0].function = Function::Beep);
    unsound(pausing(), |p| p.current = 42);
    sound(pausing(), |p| p.pause = Some(1_000));
}

#[test]
fn trigger_wait_in_pas_0() {
    unsound(waiting(), |p| p.program.phases[0].function = Function::Pause(1));
    unsound(waiting(), |p| p.current = 42);
    sound(waiting(), |p| p.mode = Mode::Paused);
}

/// Two at once also break the clause on their phases: no phase suits both.
#[test]
fn one_under_way() {
    unsound(pausing(), |p| p.trigger_wait = true);
    unsound(visiting(), |p| p.pause = Some(1));
    unsound(visiting(), |p| p.trigger_wait = true);
}

#[test]
fn visit_only_where_something_is_dispensed() {
    unsound(visiting(), |p| p.program.phases[0].function = Function::Stop);
    unsound(visiting(), |p| p.current = 42);
    sound(visiting(), |p| p.program.phases[0].function = Function::Decrement);
}

#[test]
fn stopped_pump_holds_nothing() {
    for pump in [visiting(), pausing(), waiting(), looping()] {
        unsound(pump, |p| p.mode = Mode::Stopped);
    }
    unsound(awake(), |p| p.trap = Some(1));
    unsound(awake(), |p| p.rate = Some(CurrentRate { thousandths: 1, unit: RateUnit::MillilitreHour }));
}

#[test]
fn alarm_only_when_stopped() {
    unsound(visiting(), |p| p.alarm = Some(Alarm::Program));
    unsound(visiting(), |p| (p.alarm, p.mode) = (Some(Alarm::Reset), Mode::Paused));
}

#[test]
fn refusals_in_their_order() {
    let mut pump = visiting();
    let kept = pump.clone();
    let mut short = [7; 23];
    assert_eq!(pump.byte(b'X', &mut short).refusal, 1);
    assert_eq!(pump.byte(0, &mut short).refusal, 1);
    assert_eq!(pump.pin(3, 2).refusal, 2);
    assert_eq!(pump.pin(2, 2).refusal, 3);
    assert_eq!(pump, kept);
    assert_eq!(short, [7; 23]);
    assert_eq!(pump.byte(b'X', &mut [0; 24]).refusal, 0);
}

/// A tick that would give four steps past the limit gives none; one that ends on the limit is taken.
#[test]
fn total_limit() {
    for (room, taken) in [(2, true), (1, false)] {
        let mut pump = visiting();
        let v = step_volume(pump.diameter);
        (pump.infused, pump.store) = (TOTAL_MAX - room * v, 0);
        let report = pump.tick(&mut [0; 24]);
        assert_eq!(report.infused, if taken { 2 } else { 0 });
        assert_eq!(pump.alarm, if taken { None } else { Some(Alarm::Program) });
        assert_eq!(pump.infused, TOTAL_MAX - if taken { 0 } else { v });
    }
}
