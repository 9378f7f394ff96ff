//! A program of this crate as a filter.

use std::io::{BufRead, BufReader, Read, Write};
use std::process::{Child, Command, Stdio};

fn started(program: &str) -> Child {
    Command::new(program).stdin(Stdio::piped()).stdout(Stdio::piped()).spawn().unwrap()
}

pub fn run(program: &str, script: &[u8]) -> String {
    let mut child = started(program);
    child.stdin.take().unwrap().write_all(script).unwrap();
    let mut output = String::new();
    child.stdout.take().unwrap().read_to_string(&mut output).unwrap();
    assert!(child.wait().unwrap().success());
    output
}

/// What it has to say is out before it waits for more.
pub fn converses(program: &str, lines: &[(&str, &str)]) {
    let mut child = started(program);
    let mut input = child.stdin.take().unwrap();
    let mut output = BufReader::new(child.stdout.take().unwrap());
    for (line, answer) in lines {
        input.write_all(line.as_bytes()).unwrap();
        let mut said = String::new();
        output.read_line(&mut said).unwrap();
        assert_eq!(said, *answer);
    }
    drop(input);
    child.wait().unwrap();
}
