//! Ticks and bytes of the plain engine against the clock, from the same tables as the Rattle crate that tests/speed names.

use twin::{Direction, Function, Mode, Phase, Pump, RateUnit, ANSWER_ROOM};

/// The steps infused by that many ticks; all tables infuse.
#[no_mangle]
pub extern "C" fn twin_ticks(ticks: u32, table: u32) -> u64 {
    let mut pump = running(table);
    let mut answer = [0; ANSWER_ROOM];
    let mut steps = 0;
    for _ in 0..ticks {
        steps += u64::from(pump.tick(&mut answer).infused);
    }
    steps
}

/// The steps infused by that many calls of so many ticks each; a call tests the state once.
#[no_mangle]
pub extern "C" fn twin_calls(calls: u32, ticks: u32, table: u32) -> u64 {
    let mut pump = running(table);
    let mut answer = [0; ANSWER_ROOM];
    let mut steps = 0;
    for _ in 0..calls {
        steps += u64::from(pump.ticks(ticks, &mut answer).infused);
    }
    steps
}

/// The bytes that so many times eight are answered with. Of kind 0 the first eight lead into Safe mode, and then it is the query DIA as a
/// packet; of any other it is DIA twice, as lines.
#[no_mangle]
pub extern "C" fn twin_bytes(times: u32, kind: u32, table: u32) -> u64 {
    let (first, then) = match kind {
        0 => (*b"\rSAF255\r", [2, 7, b'D', b'I', b'A', 0x2e, 0xdc, 3]),
        _ => (*b"DIA\rDIA\r", *b"DIA\rDIA\r"),
    };
    let mut pump = running(table);
    let mut answer = [0; ANSWER_ROOM];
    let mut bytes = first;
    let mut said = 0;
    for _ in 0..times {
        for byte in bytes {
            said += pump.byte(byte, &mut answer).answer as u64;
        }
        bytes = then;
    }
    said
}

/// A pump just started on a table.
fn running(table: u32) -> Pump {
    let mut pump = Pump::new();
    pump.diameter = if matches!(table, 5 | 8 | 9) { 26_590 } else { 10_000 };
    for (n, phase) in (1..).zip(&mut pump.program.phases) {
        *phase = phase_of(table, n);
    }
    pump.alarm = None;
    pump.mode = Mode::Operating;
    pump
}

fn phase_of(table: u32, n: u8) -> Phase {
    match table {
        0 => continuous(n),
        1 => large(n),
        2 => pausing(n),
        3 => mixed(n),
        4 => visits(n),
        5 => first(n, rated(Function::Rate, 500_000, 9_999_000)),
        6 => bare(Function::Stop),
        7 => first(n, bare(Function::Pause(0))),
        8 => ramp(n, 100),
        9 => ramp(n, 1),
        _ => first(n, bare(Function::Jump(1))),
    }
}

fn continuous(n: u8) -> Phase {
    match n {
        1 => rated(Function::Rate, 200_000, 0),
        _ => bare(Function::Stop),
    }
}

fn large(n: u8) -> Phase {
    let more = u32::from(n) * 1000;
    Phase { unit: RateUnit::MicrolitreMinute, ..rated(Function::Rate, 4_000_000 + more, 9_000_000 + more) }
}

fn pausing(n: u8) -> Phase {
    match n {
        1 => bare(Function::Pause(99)),
        2 => bare(Function::Jump(1)),
        _ => bare(Function::Stop),
    }
}

fn mixed(n: u8) -> Phase {
    let x = [1_234_000, 5_000, 50_000, 200_000][usize::from(n % 4)];
    match n {
        1 => rated(Function::Rate, 200_000, 0),
        _ => rated(FUNCTIONS[usize::from(n % 15)], x, x),
    }
}

const FUNCTIONS: [Function; 15] = [
    Function::Output(1),
    Function::Rate,
    Function::Increment,
    Function::Decrement,
    Function::Stop,
    Function::Jump(7),
    Function::Loop(9),
    Function::LoopStart,
    Function::LoopEndless,
    Function::Pause(50),
    Function::PauseTenths(5),
    Function::If(3),
    Function::EventTrap(4),
    Function::EventReset,
    Function::Beep,
];

fn visits(n: u8) -> Phase {
    match n {
        1 => bare(Function::LoopStart),
        2 => rated(Function::Rate, 200_000, 1_000),
        3 => bare(Function::Loop(99)),
        4 => bare(Function::Jump(1)),
        _ => bare(Function::Stop),
    }
}

fn first(n: u8, phase: Phase) -> Phase {
    match n {
        1 => phase,
        _ => bare(Function::Stop),
    }
}

fn ramp(n: u8, volume: u32) -> Phase {
    match n {
        1 => rated(Function::Rate, 200_000, volume),
        2 => bare(Function::LoopStart),
        3 => rated(Function::Increment, 1_000, volume),
        4 => bare(Function::Loop(50)),
        5 => bare(Function::Jump(1)),
        _ => bare(Function::Stop),
    }
}

fn rated(function: Function, rate: u32, volume: u32) -> Phase {
    Phase { function, rate, unit: RateUnit::MillilitreHour, volume, direction: Direction::Infuse }
}

fn bare(function: Function) -> Phase {
    rated(function, 0, 0)
}
