//! The bench program as a filter.

#[path = "common/filter.rs"]
mod filter;

use filter::converses;

const BENCH: &str = env!("CARGO_BIN_EXE_bench");

fn run(script: &[u8]) -> String {
    filter::run(BENCH, script)
}

#[test]
fn worked_example() {
    let script = b">\n>DIA 10.00\n>RAT 200.0 MH\n>VOL 1.000\n>RUN\nT 19\n>\nT 1\n>DIS\n";
    let output = "00A?R\n00S\n00S\n00S\n00I\nT 19 I 50 W 0\n00I\nT 1 I 0 W 0\n00SI0.981W0.000UL\n";
    assert_eq!(run(script), output);
}

#[test]
fn line_ends() {
    assert_eq!(run(b""), "");
    assert_eq!(run(b">"), "00A?R\n");
    assert_eq!(run(b">\r\n>\r\n"), "00A?R\n00S\n");
    assert_eq!(run(b"\n\r\n>"), "!\n!\n00A?R\n");
    assert_eq!(run(b"T 1\r"), "!\n");
}

#[test]
fn returns_inside_a_text() {
    assert_eq!(run(b">\rPHN\r5DIS\n>5\n"), "00A?R\n00S01\n\n");
    assert_eq!(run(b">\r\r\n"), "00A?R\n00S\n");
}

#[test]
fn edges_and_ticks() {
    assert_eq!(run(b"E 2 1\nE 04 01\nT 0007\n"), "T 7 I 0 W 0\n");
    for line in [
        "E 3 0",
        "E 2 2",
        "E 256 0",
        "E 2",
        "E 2  0",
        "E 2 0 ",
        "e 2 0",
        "T",
        "T 0",
        "T 10000001",
        "T 1 ",
        "T +1",
        "t 1",
        "T\t1",
    ] {
        assert_eq!(run(line.as_bytes()), "!\n", "{line}");
    }
    assert_eq!(run(b"T 99999999999999999999999999\nT 10000000000000000000001\n"), "!\n!\n");
}

#[test]
fn long_lines_and_raw_bytes() {
    let mut script = vec![b'>'];
    script.extend_from_slice(&[b' '; 300_000]);
    script.extend_from_slice(b"\n>");
    script.extend_from_slice(&[b'X'; 300_000]);
    script.extend_from_slice(b"\n>\0P\xffHN\n>\0PHN\n");
    assert_eq!(run(&script), "00A?R\n00S?\n00S?\n00S01\n");
}

#[test]
fn answers_before_the_next_line_is_given() {
    converses(BENCH, &[(">\n", "00A?R\n"), (">PHN\n", "00S01\n"), ("T 5\n", "T 5 I 0 W 0\n")]);
}

/// A call that ends early is followed by another; what a tick sends is not told here.
#[test]
fn ticks_across_an_alarm() {
    let script = b">\n>RAT 200 MH\n>SAF 1\nE 2 0\nT 2000\n>DIS\n";
    let steps = 999 * 200_000 / 70_686;
    assert_eq!(run(script), format!("00A?R\n00S\n00S\nT 2000 I {steps} W 0\n\n"));
}
