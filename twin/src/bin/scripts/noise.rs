//! Lines that nothing in the run asks for: queries, errors, bad lines, texts of every kind.

use crate::composer::Composer;
use crate::dress;

const QUERIES: [&str; 8] = ["", "DIA", "RAT", "VOL", "DIR", "PHN", "FUN", "DIS"];

const ODD_COMMANDS: [&str; 58] = [
    "RAT 0",
    "RAT 0 UM",
    "RAT 9999 MM",
    "RAT 9999",
    "RAT 1 UX",
    "RATUM",
    "RAT 12.345",
    "RAT 12345",
    "RAT . UM",
    "RATC 5",
    "RAT 5 ML",
    "VOL .",
    "VOL 0.0000",
    "VOL 10000",
    "VOL -1",
    "VOL UL",
    "VOL 5 UL",
    "DIA 0",
    "DIA 0.099",
    "DIA 50.01",
    "DIA 9999",
    "DIA 1.2.3",
    "DIR",
    "DIR REVERSE",
    "DIR I",
    "DIR 1",
    "PHN 0",
    "PHN 00",
    "PHN 42",
    "PHN 99",
    "PHN 001",
    "PHN X",
    "FUN PAS",
    "FUN PAS 0.0",
    "FUN PAS .5",
    "FUN PAS 12.5",
    "FUN PAS 100",
    "FUN OUT",
    "FUN OUT 2",
    "FUN OUT 9",
    "FUN OUT 01",
    "FUN LOP 0",
    "FUN LOP",
    "FUN JMP 42",
    "FUN IF 0",
    "FUN EVN 99",
    "FUN STP 1",
    "FUN RAT 5",
    "FUN EVS 3",
    "RUN 0",
    "RUN 42",
    "RUN 001",
    "RUN E",
    "STP 1",
    "DIS I",
    "CLD",
    "CLD X",
    "*RESETX",
];

const BAD_LINES: [&str; 34] = [
    "",
    " ",
    "X",
    "!",
    "T",
    "T ",
    "T 0",
    "T 00",
    "T -1",
    "T +1",
    "T 1.0",
    "T  1",
    "T 1 ",
    " T 1",
    "t 1",
    "T1",
    "T 10000001",
    "T 99999999999999999999999",
    "E",
    "E 2",
    "E 2 ",
    "E 2 2",
    "E 3 0",
    "E 0 1",
    "E 4 10",
    "E 256 0",
    "E 258 0",
    "E 2 256",
    "E 2 0 0",
    "E  2 0",
    "e 2 0",
    "E 2,0",
    "E 4294967298 0",
    "DIA 10",
];

impl Composer {
    pub fn query(&mut self) {
        let query = self.random.pick(&QUERIES);
        self.say(query);
    }

    pub fn noise(&mut self) {
        if self.service && self.random.percent(25) {
            return self.odd_bytes();
        }
        match self.random.weighted(&[30, 25, 20, 10, 15]) {
            0 => {
                let odd = self.random.pick(&ODD_COMMANDS);
                self.say(odd)
            }
            1 => self.spoiled_command(),
            2 => {
                let bad = self.random.pick(&BAD_LINES);
                self.line(bad.as_bytes().to_vec())
            }
            3 => {
                let command = self.any_command();
                let text = dress::foreign(&mut self.random, &command);
                self.text(text)
            }
            _ => self.leading_zeros(),
        }
    }

    fn spoiled_command(&mut self) {
        let command = self.any_command();
        let text = dress::spoiled(&mut self.random, &command);
        self.text(text);
    }

    fn any_command(&mut self) -> String {
        let n = self.random.between(0, 45);
        let pattern = self.random.pick(&[
            "RAT 5.5 UM",
            "RAT #",
            "VOL 1.5",
            "VOL #",
            "DIA 10.00",
            "DIA #",
            "DIR WDR",
            "DIR REV",
            "PHN #",
            "FUN RAT",
            "FUN LOP #",
            "FUN JMP #",
            "FUN PAS #",
            "FUN PAS 1.5",
            "FUN OUT 1",
            "FUN IF #",
            "RUN",
            "RUN #",
            "STP",
            "DIS",
            "CLD INF",
            "CLD WDR",
            "",
        ]);
        pattern.replace('#', &n.to_string())
    }

    fn leading_zeros(&mut self) {
        let line = self.random.pick(&[
            "T 01",
            "T 007",
            "T 0000000000000000000012",
            "E 04 1",
            "E 6 00001",
            "E 002 1",
            "> 000",
            ">0",
            ">00",
            ">0 0",
        ]);
        self.line(line.as_bytes().to_vec());
    }

    pub fn reset_or_clear(&mut self) {
        let command = self.random.pick(&["CLD INF", "CLD WDR", "CLDINF", "cld wdr", "DIS", "DIS"]);
        self.say(command);
        if self.random.percent(8) {
            self.say("*RESET");
        }
    }
}
