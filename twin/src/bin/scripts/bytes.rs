//! Lines `B` of a service script: commands as bytes in hexadecimal, and lines that are none.

use crate::composer::{Composer, RETURN};
use crate::random::Random;

const ODD_LINES: [&str; 24] = [
    "B",
    "B ",
    "B    ",
    "B 0d",
    "B  0D ",
    "B 0d0d0d",
    "B 0d 0d  0D",
    "B 02303053 03",
    "B ff 80 7f 20 00 0d",
    "B 2a 52 45 53 45 54 58 0d",
    "B 0",
    "B 0 d",
    "B 0d 0",
    "B 0d0",
    "B 0g",
    "B g0",
    "B 0x0d",
    "B 0d,0d",
    "B 0d\t0d",
    "B\t0d",
    "B0d",
    "b 0d",
    " B 0d",
    "B -1",
];

impl Composer {
    /// A command as bytes, mostly with its return; at times two commands, or one that the next line goes on with.
    pub fn send_bytes(&mut self, mut bytes: Vec<u8>) {
        match self.random.weighted(&[70, 15, 12, 3]) {
            0 => bytes.push(RETURN),
            1 => {
                let query = self.random.pick(&[&b""[..], b"PHN", b"FUN", b"DIS", b"7DIS", b"dir"]);
                bytes.push(RETURN);
                bytes.extend_from_slice(query);
                bytes.push(RETURN);
            }
            2 => {
                let rest = bytes.split_off(bytes.len() / 2);
                self.hexadecimal(&bytes);
                return self.line([b">", &rest[..]].concat());
            }
            // What is begun spoils the next command.
            _ => {}
        }
        self.hexadecimal(&bytes);
    }

    /// Lines of which most are no bytes, and some by luck are.
    pub fn odd_bytes(&mut self) {
        if self.random.percent(60) {
            let line = self.random.pick(&ODD_LINES);
            return self.line(line.as_bytes().to_vec());
        }
        let mut line = spelled(&mut self.random, b"DIS\rPHN\r");
        let place = self.random.between(1, line.len() as u64 - 1) as usize;
        match self.random.between(0, 2) {
            0 => line.insert(place, self.random.pick(b" 0fFgG.")),
            1 => line[place] = self.random.pick(b" 0fF:@`/"),
            _ => line.truncate(place),
        }
        self.line(line);
    }

    pub fn hexadecimal(&mut self, bytes: &[u8]) {
        let line = spelled(&mut self.random, bytes);
        self.line(line);
    }
}

/// One of the spellings of bytes: either case, blanks between bytes or none.
fn spelled(random: &mut Random, bytes: &[u8]) -> Vec<u8> {
    let upper = random.pick(&[0, 0, 50, 100]);
    let blank = random.pick(&[0, 50, 100]);
    let mut line = b"B ".to_vec();
    for (n, byte) in bytes.iter().enumerate() {
        if n > 0 && random.percent(blank) || random.percent(3) {
            line.push(b' ');
        }
        let digits = if random.percent(upper) { format!("{byte:02X}") } else { format!("{byte:02x}") };
        line.extend_from_slice(digits.as_bytes());
    }
    line
}
