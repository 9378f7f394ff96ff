//! `scripts SEED LINES` prints a random bench script, `scripts SEED LINES service` one for the service program, and
//! `scripts SEED LINES safe` one for the service program that turns to Safe mode; the same words give the same script.
//!
//! The composer keeps a pump of its own beside the script, so that lines can aim at what is near:
//! the last tick of a visit, a pause that can be cut, a trap that is set.

mod bytes;
mod cable;
mod composer;
mod damage;
mod dress;
mod figures;
mod limits;
mod meeting;
mod noise;
mod plan;
mod programming;
mod random;
mod running;

use std::io::Write;
use std::process::ExitCode;

use composer::{Composer, Kind};

fn main() -> ExitCode {
    let words: Vec<String> = std::env::args().skip(1).collect();
    let Some((seed, lines, kind)) = asked(&words) else {
        eprintln!("use: scripts SEED LINES [service|safe]");
        return ExitCode::FAILURE;
    };
    let script = Composer::new(seed, lines, kind).write();
    match std::io::stdout().write_all(&script) {
        Ok(()) => ExitCode::SUCCESS,
        Err(_) => ExitCode::FAILURE,
    }
}

fn asked(words: &[String]) -> Option<(u64, usize, Kind)> {
    let (seed, lines, kind) = match words {
        [seed, lines] => (seed, lines, Kind::Bench),
        [seed, lines, word] if word == "service" => (seed, lines, Kind::Service),
        [seed, lines, word] if word == "safe" => (seed, lines, Kind::Safe),
        _ => return None,
    };
    Some((seed.parse().ok()?, lines.parse().ok()?, kind))
}
