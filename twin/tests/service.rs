//! The service program as a filter.

#[path = "common/filter.rs"]
mod filter;

use filter::converses;

const SERVICE: &str = env!("CARGO_BIN_EXE_service");

fn run(script: &[u8]) -> String {
    filter::run(SERVICE, script)
}

#[test]
fn items_of_the_bench_program() {
    assert_eq!(run(b">\r\n>PHN\r5DIS\n>5\n"), "00A?R\n00S01\n\n");
    assert_eq!(run(b"E 2 1\nE 04 01\nE 3 0\nE 2 2\nE 2\n"), "!\n!\n!\n");
    assert_eq!(run(b"\nX\nb 0d\nT\nT 1\r"), "!\n".repeat(5));
}

#[test]
fn ticks_with_beeps_and_level() {
    assert_eq!(run(b"T 0\nT 0007\nT 10000000\nT 10000001"), format!("{}!\n", told(&[0, 7, 10_000_000])));
    let script = b">\r\rFUN BEP\rPHN 2\rFUN OUT 1\rPHN 3\rFUN BEP\rRUN\nT 1\nT 2\nT 1";
    let output = run(script);
    let ticks: Vec<&str> = output.lines().filter(|line| line.starts_with('T')).collect();
    assert_eq!(ticks, ["T 1 I 0 W 0 B 1 O 0", "T 2 I 0 W 0 B 1 O 1", "T 1 I 0 W 0 B 0 O 1"]);
}

fn told(ticks: &[u32]) -> String {
    ticks.iter().map(|n| format!("T {n} I 0 W 0 B 0 O 0\n")).collect()
}

/// 47.12 ml an hour are 47,120 / 70,686 of a step a tick, and the tick of entry gives none.
#[test]
fn more_ticks_than_a_call_takes() {
    let script = b">\r\rDIA 10\rRAT 47.12 MH\rRUN\nT 2500001\n>STP\n>STP\nT 1";
    let steps = 2_500_000u64 * 47_120 / 70_686;
    let ticks = format!("T 2500001 I {steps} W 0 B 0 O 0\n");
    assert_eq!(run(script), format!("00A?R\n00S\n00S\n00S\n00I\n{ticks}00P\n00S\n{}", told(&[1])));
}

#[test]
fn bytes_in_hexadecimal() {
    assert_eq!(run(b"B 0d\nB 0D\n"), "023030413f5203\n0230305303\n");
    assert_eq!(run(b"B\nB \nB   \nB 44 49\nB 53\n"), "-\n".repeat(5));
    assert_eq!(
        run(b"B 0d0d\nB  0d  50 48 4e0D  \n>\n"),
        "023030413f5203\n0230305303\n0230305303\n02303053303103\n00S\n"
    );
}

#[test]
fn malformed_bytes_send_nothing() {
    for line in
        ["B 0", "B 0 d", "B 0d 0", "B 0d0", "B 0g", "B g0", "B0d", "B 0x0d", "B 0d,0d", "B\t0d", "B 0d\t", "b 0d"]
    {
        assert_eq!(run(format!("{line}\n>").as_bytes()), "!\n00A?R\n", "{line}");
    }
}

#[test]
fn bytes_of_one_line() {
    let most = format!("B {}\n", "0d".repeat(65_536));
    assert_eq!(run(most.as_bytes()).lines().count(), 65_536);
    let more = format!("B {}\n>\n", "0d".repeat(65_537));
    assert_eq!(run(more.as_bytes()), "!\n00A?R\n");
}

#[test]
fn answers_before_the_next_line_is_given() {
    converses(SERVICE, &[("B 0d\n", "023030413f5203\n"), (">PHN\n", "00S01\n"), ("T 5\n", "T 5 I 0 W 0 B 0 O 0\n")]);
}

#[test]
fn packets() {
    assert_eq!(run(b">\n>SAF 5\nP\nPSAF\nP5\n"), "00A?R\n00S\n0207303053aaa603\n020a3030533030356b4303\n-\n");
    // In Basic mode they are bytes of a line, and a length of 13 ends one.
    assert_eq!(run(b"PDIS\n>\n"), "-\n00A?R\n");
    assert_eq!(run(b"P123456789\n"), "023030413f5203\n");
    let longest = format!(">\n>SAF1\nP{}\nP{}\n", "X".repeat(40), "X".repeat(41));
    assert_eq!(run(longest.as_bytes()), "00A?R\n00S\n02083030533f751c03\n!\n");
    assert_eq!(run(b"p\n P\n"), "!\n!\n");
}

#[test]
fn packets_that_ticks_send() {
    let alarm = "02093030413f54054003\n";
    let output = run(b">\n>SAF 1\nT 999\nT 1\nT 5000\nP5\nT 3000\nP\n");
    let expected = ["00A?R\n00S\n", &told(&[999, 1]), alarm, &told(&[5_000]), "-\n", &told(&[3_000]), alarm, alarm];
    assert_eq!(output, expected.concat());
}
