//! The marked figures and the worked example of document 01.

mod common;

use common::{ask, awake, set, ticks};
use twin::{print_number, step_target, step_volume, volume_unit, Mode, Text, VolumeUnit};

fn printed(thousandths: u32) -> String {
    let mut text = Text::new();
    print_number(&mut text, thousandths);
    String::from_utf8_lossy(text.as_bytes()).into_owned()
}

#[test]
fn a_b_c_step_volumes() {
    assert_eq!(step_volume(100), 1_963);
    assert_eq!(step_volume(10_000), 19_635_000);
    assert_eq!(step_volume(50_000), 490_875_000);
}

#[test]
fn d_smallest_diameter() {
    let mut pump = awake();
    assert_eq!(ask(&mut pump, "DIA0.099"), "00S?OOR");
    assert_eq!(ask(&mut pump, "DIA0.1"), "00S");
    assert_eq!(ask(&mut pump, "DIA"), "00S0.100");
}

#[test]
fn e_largest_diameter() {
    let mut pump = awake();
    assert_eq!(ask(&mut pump, "DIA50.01"), "00S?OOR");
    assert_eq!(ask(&mut pump, "DIA50"), "00S");
}

#[test]
fn f_volume_units() {
    assert_eq!(volume_unit(14_000), VolumeUnit::Microlitre);
    assert_eq!(volume_unit(14_010), VolumeUnit::Millilitre);
    let mut pump = awake();
    set(&mut pump, &["DIA14.00"]);
    assert_eq!(ask(&mut pump, "VOL"), "00S0.000UL");
    set(&mut pump, &["DIA14.01"]);
    assert_eq!(ask(&mut pump, "VOL"), "00S0.000ML");
}

#[test]
fn g_largest_usable_rate() {
    let mut pump = awake();
    assert_eq!(ask(&mut pump, "RAT282.7MH"), "00S");
    assert_eq!(ask(&mut pump, "RAT282.8MH"), "00S?OOR");
    assert_eq!(ask(&mut pump, "RAT"), "00S282.7MH");
}

#[test]
fn h_i_step_targets() {
    let mut pump = awake();
    for (volume, steps) in [("VOL0.019", 0), ("VOL0.020", 1), ("VOL1.000", 50)] {
        set(&mut pump, &[volume]);
        assert_eq!(step_target(pump.program.phase(1).unwrap(), pump.diameter), Some(steps));
    }
}

#[test]
fn j_k_printing_truncates() {
    assert_eq!(printed(9_999), "9.999");
    assert_eq!(printed(10_000), "10.00");
    assert_eq!(printed(99_999), "99.99");
    assert_eq!(printed(999_999), "999.9");
    assert_eq!(printed(9_999_000), "9999.");
}

#[test]
fn l_nested_loops() {
    let mut pump = awake();
    let commands = ["FUN LPS", "PHN2", "FUN LPS", "PHN3", "FUN PAS1", "PHN4", "FUN LOP60", "PHN5", "FUN LOP24", "RUN"];
    set(&mut pump, &commands);
    let mut entries = 0;
    while pump.mode == Mode::Operating {
        let before = pump.pause.is_some();
        assert_eq!(pump.tick(&mut [0; 24]).refusal, 0);
        entries += u32::from(!before && pump.pause.is_some());
    }
    assert_eq!(entries, 1_440);
}

#[test]
fn worked_example() {
    let mut pump = twin::Pump::new();
    assert_eq!(ask(&mut pump, ""), "00A?R");
    assert_eq!(ask(&mut pump, "DIA 10.00"), "00S");
    assert_eq!(ask(&mut pump, "RAT 200.0 MH"), "00S");
    assert_eq!(ask(&mut pump, "VOL 1.000"), "00S");
    assert_eq!(ask(&mut pump, "RUN"), "00I");
    assert_eq!(ticks(&mut pump, 19), (50, 0));
    assert_eq!(ask(&mut pump, ""), "00I");
    assert_eq!(ticks(&mut pump, 1), (0, 0));
    assert_eq!(ask(&mut pump, "DIS"), "00SI0.981W0.000UL");
}
