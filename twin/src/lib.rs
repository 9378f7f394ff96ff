//! The engine of a syringe pump drive board, written plainly from the rules (document 01, and requests 1/12 and
//! 2/12 of document 02).
//!
//! The crate knows the board's line, its program of phases, its pins, ticks, steps and totals.
//! The engine knows nothing of a host, of files or of time: a caller gives bytes, pin levels and ticks. Only `player`,
//! which its programs share, reads and writes.
//! Each call first tests the whole state, because a caller may hand in a state of its own making.

mod answers;
mod commands;
mod control;
mod crc;
mod drive;
mod edges;
mod functions;
mod line;
mod loops;
mod numbers;
mod packet;
mod player;
mod program;
mod report;
mod safe;
mod script;
mod settings;
mod soundness;
mod state;
mod ticks;

pub use answers::{Text, ANSWER_ROOM};
pub use crc::check;
pub use drive::{step_target, step_volume, threshold, volume_unit, CurrentRate, RateUnit, VolumeUnit};
pub use drive::{DIAMETER_MAX, DIAMETER_MIN, TOTAL_MAX};
pub use functions::Function;
pub use line::{Line, LINE_LENGTH};
pub use loops::{Loop, Loops, LOOPS_MAX};
pub use numbers::{print_number, read_number, writable, NUMBER_MAX};
pub use packet::{packet, Packet, QUIET_TICKS};
pub use player::{play, Player};
pub use program::{Direction, Phase, Program, PHASES};
pub use report::Report;
pub use script::{read_item, read_service_item, Item};
pub use state::{Alarm, Mode, Pins, Pump, Visit};
pub use ticks::TICKS_A_CALL_MAX;
