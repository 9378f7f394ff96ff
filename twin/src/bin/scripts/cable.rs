//! Safe mode on a noisy cable: packets whole, damaged, cut by pauses or for another pump, and garbage between them.

use twin::packet;

use crate::composer::Composer;
use crate::damage;
use crate::dress;

impl Composer {
    pub fn in_safe_mode(&self) -> bool {
        self.safe && self.pump.safe()
    }

    /// Something that concerns Safe mode, whatever the pump is doing.
    pub fn cable(&mut self) {
        if !self.pump.safe() {
            return self.cable_in_basic_mode();
        }
        if self.pump.trigger_wait && self.random.percent(50) {
            return if self.random.percent(30) { self.set_limit() } else { self.cut_packet() };
        }
        match self.random.weighted(&[18, 8, 12, 11, 6, 4, 4, 14, 9, 4, 3, 6, 6, 5, 5, 5]) {
            0 => self.wait_for_time_out(),
            1 => self.set_limit(),
            2 => self.damaged_packet(),
            3 => self.cut_packet(),
            4 => self.foreign_packet(),
            5 => self.garbage(),
            6 => self.leave_safe_mode(),
            7 => self.meet_time_out(),
            8 => self.odd_limit(),
            9 => self.say("SAF"),
            10 => {
                let line = self.random.pick(&[">", ">DIS", ">*RESET", ">SAF0", ">\x02", ">\x02\x04"]);
                self.line(line.as_bytes().to_vec())
            }
            11 => self.time_out_again(),
            12 => self.odd_data(),
            13 => self.wrong_length(),
            14 => self.time_out_in_a_packet(),
            _ => self.run_into_alarm(),
        }
    }

    fn cable_in_basic_mode(&mut self) {
        match self.random.weighted(&[45, 15, 18, 10, 12]) {
            0 => self.set_limit(),
            1 => self.odd_limit(),
            2 => {
                let command = self.random.pick(&["SAF", "SAF 0", "SAF 000", "saf", "0 SAF"]);
                self.say(command)
            }
            // Packets are not taken in Basic mode; their bytes go into the line.
            3 => {
                let line = self.random.pick(&["P", "PSAF5", "PDIS", "P*RESET", "PDIA10.00", "PRUN"]);
                self.line(line.as_bytes().to_vec())
            }
            _ => {
                let bytes = packet(b"SAF0");
                self.hexadecimal(&bytes)
            }
        }
    }

    /// Data as a packet: mostly as they should be, at times damaged, cut by a pause, or after garbage.
    pub fn send_packet(&mut self, data: Vec<u8>) {
        if self.random.percent(60) {
            return self.line([b"P", &data[..]].concat());
        }
        let short = &data[..data.len().min(40)];
        let whole = packet(short);
        match self.random.weighted(&[65, 10, 12, 13]) {
            0 => self.hexadecimal(&whole),
            1 => {
                let twice = [&whole[..], &packet(b"")].concat();
                self.hexadecimal(&twice)
            }
            2 => {
                let mut bytes = damage::garbage(&mut self.random);
                bytes.extend_from_slice(&whole);
                self.hexadecimal(&bytes)
            }
            _ => self.in_two_parts(&whole),
        }
    }

    pub fn some_packet(&mut self) -> Vec<u8> {
        let command =
            self.random.pick(&["", "", "DIS", "PHN", "SAF", "SAF 0", "SAF 2", "STP", "RUN", "DIA 10.00", "5"]);
        packet(&dress::for_packet(&mut self.random, command))
    }

    /// A packet that came damaged, and mostly a good one behind it.
    pub fn damaged_packet(&mut self) {
        let good = self.some_packet();
        let mut bytes = damage::damaged(&mut self.random, good);
        match self.random.between(0, 3) {
            0 => bytes.extend(self.some_packet()),
            1 => {
                self.hexadecimal(&bytes);
                bytes = self.some_packet();
            }
            _ => {}
        }
        self.hexadecimal(&bytes);
    }

    /// Part, ticks about the half second after which it is dropped, and the rest.
    fn cut_packet(&mut self) {
        let whole = self.some_packet();
        self.in_two_parts(&whole);
    }

    fn in_two_parts(&mut self, whole: &[u8]) {
        let place = self.random.between(1, whole.len() as u64 - 1) as usize;
        self.hexadecimal(&whole[..place]);
        if self.random.percent(10) {
            self.press(2);
        }
        let ticks = match self.random.weighted(&[25, 25, 15, 15, 10, 10]) {
            0 => 499,
            1 => 500,
            2 => 501,
            3 => self.random.between(0, 498),
            4 => self.random.between(502, 1_500),
            // In two waits, with the parts of the parts between them.
            _ => return self.in_three_parts(&whole[place..]),
        };
        self.line(format!("T {ticks}").into_bytes());
        self.hexadecimal(&whole[place..]);
    }

    fn in_three_parts(&mut self, rest: &[u8]) {
        let place = self.random.between(0, rest.len() as u64) as usize;
        for part in [&rest[..place], &rest[place..]] {
            let ticks = self.random.pick(&[250, 300, 498, 499]);
            self.line(format!("T {ticks}").into_bytes());
            self.hexadecimal(part);
        }
    }

    pub fn foreign_packet(&mut self) {
        let command = self.random.pick(&["", "DIS", "*RESET", "SAF 0", "SAF 9", "STP", "RUN"]).replace(' ', "");
        let data = dress::foreign(&mut self.random, &command);
        self.send_packet(data);
    }

    fn garbage(&mut self) {
        let bytes = damage::garbage(&mut self.random);
        self.hexadecimal(&bytes);
    }

    fn wrong_length(&mut self) {
        let length = self.random.pick(&[0, 1, 2, 2, 3, 3, 45, 45, 46, 127, 128, 255]);
        let mut bytes = vec![2, length];
        if self.random.percent(50) {
            bytes.extend(self.some_packet());
        }
        self.hexadecimal(&bytes);
    }

    /// Good packets with data that no command has: bytes that mean something elsewhere, or as many as there may be.
    fn odd_data(&mut self) {
        if self.random.percent(30) {
            let length = self.random.between(38, 42) as usize;
            return self.line([b"P", &b"X".repeat(length)[..]].concat());
        }
        let data: Vec<u8> = match self.random.between(0, 6) {
            0 => b"\x02".to_vec(),
            1 => b"\x02\x04\x00\x00\x03".to_vec(),
            2 => (0..40).map(|_| self.random.between(0, 255) as u8).collect(),
            3 => (0..self.random.between(36, 40)).map(|_| b'0').collect(),
            4 => b"DIS\r".to_vec(),
            5 => [b"DIS", &[self.random.pick(&[0, 9, 10, 32, 127])][..]].concat(),
            _ => [&[self.random.pick(&[0, 9, 13, 32, 127])][..], b"PHN"].concat(),
        };
        let bytes = packet(&data);
        self.hexadecimal(&bytes);
    }
}
