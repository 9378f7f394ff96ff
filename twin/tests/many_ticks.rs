//! Many ticks in one call: equal to single ticks one after another, and their refusals.

mod common;

use common::{awake, continuous, looping, pausing, set, visiting, waiting};
use twin::{Mode, Pump, Report, TICKS_A_CALL_MAX};

/// What so many single ticks report, summed up by hand.
fn single(pump: &mut Pump, n: u32) -> Report {
    let mut sum = Report { output: pump.output, ..Report::default() };
    for _ in 0..n {
        let report = pump.tick(&mut [0; 24]);
        assert_eq!((report.refusal, report.ticks, report.answer), (0, 1, 0));
        sum.ticks += 1;
        sum.infused += report.infused;
        sum.withdrawn += report.withdrawn;
        sum.beeps += report.beeps;
        sum.output = report.output;
    }
    sum
}

fn same_as_single(pump: &Pump, n: u32) {
    let (mut one, mut other) = (pump.clone(), pump.clone());
    assert_eq!(one.ticks(n, &mut [0; 24]), single(&mut other, n));
    assert_eq!(one, other);
}

/// Both directions, beeps, an output that is turned on and off, pauses and a loop; some 4,000 ticks to the stop.
fn busy() -> Pump {
    let mut pump = awake();
    let program = [
        &["FUN LPS"][..],
        &["FUN OUT 1"],
        &["FUN RAT", "RAT 200 MH", "VOL 1"],
        &["FUN BEP"],
        &["FUN RAT", "RAT 30 MH", "VOL 0.5", "DIR WDR"],
        &["FUN OUT 0"],
        &["FUN PAS 0.3"],
        &["FUN LOP 9"],
        &["FUN OUT 1"],
    ];
    for (n, commands) in program.into_iter().enumerate() {
        set(&mut pump, &[&format!("PHN {}", n + 1)]);
        set(&mut pump, commands);
    }
    set(&mut pump, &["RUN"]);
    pump
}

#[test]
fn equal_to_single_ticks() {
    for pump in [Pump::new(), awake(), visiting(), continuous(), pausing(), waiting(), looping(), busy()] {
        for n in [0, 1, 2, 14, 15, 16, 995, 996, 997, 5_000] {
            same_as_single(&pump, n);
        }
    }
}

#[test]
fn equal_at_every_length() {
    for n in 0..700 {
        same_as_single(&busy(), n);
    }
}

#[test]
fn sums_and_the_last_level() {
    let report = busy().ticks(5_000, &mut [0; 24]);
    let expected =
        Report { ticks: 5_000, infused: 9 * 50, withdrawn: 9 * 25, beeps: 9, output: 1, ..Report::default() };
    assert_eq!(report, expected);
}

/// A pump that comes to rest in the midst does not shorten the call, and what it gave before counts.
#[test]
fn rest_in_the_midst() {
    let mut pump = visiting();
    let report = pump.ticks(1_000, &mut [0; 24]);
    assert_eq!((report.ticks, report.infused), (1_000, 39));
    assert_eq!(pump.mode, Mode::Stopped);
    let mut pump = waiting();
    assert_eq!(pump.ticks(1_000, &mut [0; 24]).ticks, 1_000);
    assert!(pump.trigger_wait);
}

#[test]
fn no_tick() {
    for pump in [busy(), visiting(), pausing(), waiting()] {
        let mut given = pump.clone();
        given.output = 1;
        let kept = given.clone();
        assert_eq!(given.ticks(0, &mut [0; 24]), Report { output: 1, ..Report::default() });
        assert_eq!(given, kept);
    }
}

#[test]
fn a_million_and_one_more() {
    assert_eq!(TICKS_A_CALL_MAX, 1_000_000);
    let mut pump = continuous();
    let report = pump.ticks(1_000_000, &mut [0; 24]);
    assert_eq!((report.refusal, report.ticks), (0, 1_000_000));
    pump.output = 1;
    let kept = pump.clone();
    for n in [1_000_001, u32::MAX] {
        assert_eq!(pump.ticks(n, &mut [0; 24]), Report { refusal: 5, output: 1, ..Report::default() });
        assert_eq!(pump, kept);
    }
}

#[test]
fn four_before_five() {
    let mut pump = visiting();
    (pump.diameter, pump.output) = (99, 1);
    let kept = pump.clone();
    for n in [0, 1, 1_000_000, 1_000_001] {
        assert_eq!(pump.ticks(n, &mut [0; 24]), Report { refusal: 4, output: 1, ..Report::default() });
        assert_eq!(pump, kept);
    }
}

#[test]
fn other_calls_do_no_tick() {
    let mut pump = visiting();
    assert_eq!(pump.byte(13, &mut [0; 24]).ticks, 0);
    assert_eq!(pump.byte(b'X', &mut [0; 24]).ticks, 0);
    assert_eq!(pump.pin(6, 0).ticks, 0);
    assert_eq!(pump.tick(&mut [0; 24]).ticks, 1);
}
