//! Diameters, rates and volumes that a program can really run with, and how a number is spelled.

use twin::{step_volume, threshold, volume_unit, CurrentRate, RateUnit, NUMBER_MAX};

use crate::random::Random;

/// Diameters in micrometres at which something changes, or nearly.
const DIAMETERS: [u32; 14] =
    [100, 500, 1_000, 4_610, 9_999, 10_000, 10_010, 13_990, 14_000, 14_010, 20_000, 26_590, 49_990, 50_000];

pub fn diameter(random: &mut Random) -> u32 {
    if random.percent(70) {
        random.pick(&DIAMETERS)
    } else {
        writable_below(random.between(100, 50_000) as u32)
    }
}

/// A usable rate of about so many thousandths of a step a tick.
pub fn rate(random: &mut Random, diameter: u32, step_thousandths: u64) -> CurrentRate {
    let hourly = threshold(diameter) / 1000 * step_thousandths;
    let fitting: Vec<CurrentRate> = RateUnit::ALL
        .into_iter()
        .map(|unit| CurrentRate { thousandths: (hourly / unit.thousandth()).min(10_000_000) as u32, unit })
        .filter(|rate| (1..=NUMBER_MAX).contains(&rate.thousandths))
        .collect();
    let rate = random.pick(&fitting);
    CurrentRate { thousandths: writable_below(rate.thousandths), ..rate }
}

/// Thousandths of a step a tick: from crawling to the motor's limit.
pub fn speed(random: &mut Random) -> u64 {
    match random.weighted(&[55, 28, 12, 5]) {
        0 => random.between(300, 3_999),
        1 => random.between(40, 300),
        2 => 4_000,
        _ => random.between(5, 40),
    }
}

/// A volume that takes about so many ticks, or 0 for a continuous dispense.
pub fn volume(random: &mut Random, diameter: u32, rate: CurrentRate) -> u32 {
    let ticks = match random.weighted(&[6, 5, 32, 47, 10]) {
        0 => return 0,
        1 => return random.between(1, 20) as u32,
        2 => random.between(1, 60),
        3 => random.between(60, 900),
        _ => random.between(900, 4_000),
    };
    // The fastest rates of the widest syringes pass 64 bits in some 2,600 ticks.
    let steps = (u128::from(rate.hourly()) * u128::from(ticks) / u128::from(threshold(diameter))).max(1) as u64;
    let thousandth = volume_unit(diameter).thousandth();
    let least = (steps * step_volume(diameter)).div_ceil(thousandth);
    writable_below(least.min(u64::from(NUMBER_MAX)) as u32)
}

/// The nearest number at or below that four digits can give.
pub fn writable_below(thousandths: u32) -> u32 {
    let place = match thousandths {
        0..=9_999 => 1,
        10_000..=99_999 => 10,
        100_000..=999_999 => 100,
        _ => 1000,
    };
    thousandths / place * place
}

/// One of the spellings of a number: with or without the zeros and the point that it can spare.
pub fn spell(random: &mut Random, thousandths: u32) -> String {
    let (whole, part) = (thousandths / 1000, thousandths % 1000);
    let fraction = format!("{part:03}");
    let needed = fraction.trim_end_matches('0').len();
    let whole_text = if whole == 0 && needed > 0 && random.percent(20) { String::new() } else { whole.to_string() };
    let room = (4 - whole_text.len()).min(3).max(needed);
    let places = if random.percent(50) { needed } else { random.between(needed as u64, room as u64) as usize };
    if places == 0 && random.percent(80) {
        return whole_text;
    }
    format!("{whole_text}.{}", &fraction[..places])
}
