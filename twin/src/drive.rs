//! The mechanics: what one step moves, when a step is due, and which rates the motor can follow.
//!
//! All volumes are whole femtolitres, so that no step is ever rounded twice.

use crate::program::Phase;

pub const DIAMETER_MIN: u32 = 100;
pub const DIAMETER_MAX: u32 = 50_000;
pub const TOTAL_MAX: u64 = 1_000_000_000_000_000_000;

/// Syringes up to this diameter are counted in microlitres.
const MICROLITRE_DIAMETER_MAX: u32 = 14_000;
/// Ticks in an hour: the time store holds femtolitres per hour, summed tick by tick.
const TICKS_AN_HOUR: u64 = 3_600_000;
/// More steps than these in one tick the motor cannot follow.
const STEPS_A_TICK_MAX: u64 = 4;

#[derive(Clone, Copy, Debug, PartialEq, Eq)]
pub enum VolumeUnit {
    Microlitre,
    Millilitre,
}

#[derive(Clone, Copy, Debug, PartialEq, Eq)]
pub enum RateUnit {
    MicrolitreMinute,
    MillilitreMinute,
    MicrolitreHour,
    MillilitreHour,
}

/// The rate that the motor follows; INC and DEC may make it one that no input gives.
#[derive(Clone, Copy, Debug, PartialEq, Eq)]
pub struct CurrentRate {
    pub thousandths: u32,
    pub unit: RateUnit,
}

/// Femtolitres that one step moves in a syringe of this diameter in micrometres.
pub fn step_volume(diameter: u32) -> u64 {
    let d = u64::from(diameter);
    d * d * 19_635 / 100_000
}

/// What the time store must gather for one step.
pub fn threshold(diameter: u32) -> u64 {
    TICKS_AN_HOUR * step_volume(diameter)
}

pub fn volume_unit(diameter: u32) -> VolumeUnit {
    if diameter <= MICROLITRE_DIAMETER_MAX {
        VolumeUnit::Microlitre
    } else {
        VolumeUnit::Millilitre
    }
}

/// The steps of a whole visit; none for a continuous one.
pub fn step_target(phase: &Phase, diameter: u32) -> Option<u64> {
    if phase.volume == 0 {
        return None;
    }
    let volume = u64::from(phase.volume) * volume_unit(diameter).thousandth();
    Some(volume / step_volume(diameter))
}

impl VolumeUnit {
    /// Femtolitres in a thousandth of the unit.
    pub fn thousandth(self) -> u64 {
        match self {
            VolumeUnit::Microlitre => 1_000_000,
            VolumeUnit::Millilitre => 1_000_000_000,
        }
    }

    pub fn name(self) -> &'static [u8] {
        match self {
            VolumeUnit::Microlitre => b"UL",
            VolumeUnit::Millilitre => b"ML",
        }
    }
}

impl RateUnit {
    pub const ALL: [RateUnit; 4] =
        [RateUnit::MicrolitreMinute, RateUnit::MillilitreMinute, RateUnit::MicrolitreHour, RateUnit::MillilitreHour];

    /// Femtolitres an hour in a thousandth of the unit.
    pub fn thousandth(self) -> u64 {
        match self {
            RateUnit::MicrolitreMinute => 60_000_000,
            RateUnit::MillilitreMinute => 60_000_000_000,
            RateUnit::MicrolitreHour => 1_000_000,
            RateUnit::MillilitreHour => 1_000_000_000,
        }
    }

    pub fn name(self) -> &'static [u8] {
        match self {
            RateUnit::MicrolitreMinute => b"UM",
            RateUnit::MillilitreMinute => b"MM",
            RateUnit::MicrolitreHour => b"UH",
            RateUnit::MillilitreHour => b"MH",
        }
    }
}

impl CurrentRate {
    /// Femtolitres an hour. The largest rate that can be kept is 6 x 10^17, well inside 64 bits.
    pub fn hourly(self) -> u64 {
        u64::from(self.thousandths) * self.unit.thousandth()
    }

    pub fn usable(self, diameter: u32) -> bool {
        self.thousandths > 0 && self.hourly() <= STEPS_A_TICK_MAX * threshold(diameter)
    }
}
