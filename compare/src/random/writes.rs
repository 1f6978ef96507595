//! Typed requests that are written, values that no reader gives among them.

use super::Generator;
use crate::text::request::COMMANDS;

impl Generator {
    /// A typed request of one of the three kinds; a few lines are no call.
    pub(super) fn write_call(&mut self) {
        let told = self.tell();
        let line = match self.random.below(10) {
            0..=5 => format!("write2 {} {} {}{told}", self.lent(109), self.told_address(), self.v2_words()),
            6..=7 => format!("write1 {} {} {}", self.lent(109), self.told_address(), self.v1_words()),
            _ => format!("writeopg {} {}", self.lent(32), self.opg_words()),
        };
        let line = if self.random.chance(5) { self.damaged_line(&line) } else { line };
        self.push(line);
    }

    fn told_address(&mut self) -> usize {
        match self.random.below(10) {
            0 => self.random.pick(&[0, 999, 1000, 1001, 65535]),
            1 => self.random.below(65536),
            2 => self.random.below(1000),
            _ => 1 + self.random.below(16),
        }
    }

    fn v2_words(&mut self) -> String {
        let (_, name) = self.random.pick(&COMMANDS);
        match self.random.below(20) {
            0..=1 => format!("read {name}"),
            2..=3 => format!("restore {name}"),
            4 => format!("DA {}", self.near(&[0, 1, 2, 10, 16, 17, 99, 100, 255], 256)),
            5 => format!("DU {}", self.random.below(3)),
            6..=7 => format!("C1 {}", self.near(&[0, 19, 20, 21, 100, 799, 800, 801, 10_000, 65535], 65536)),
            8..=10 => {
                let command = self.random.pick(&["CM", "CC", "FC"]);
                format!("{command} {}", self.near(&[0, 1, 2, 3, 4, 9, 10, 11, 255], 256))
            }
            11..=12 => format!("ST D {}", self.st_number()),
            13..=14 => format!("ST F {} T {}", self.st_number(), self.st_number()),
            15..=16 => self.close_ends(),
            _ => format!("SM {}", self.stream_words()),
        }
    }

    /// One of these, or any below the limit.
    fn near(&mut self, edges: &[usize], limit: usize) -> usize {
        if self.random.chance(20) {
            self.random.below(limit)
        } else {
            self.random.pick(edges)
        }
    }

    /// SIGN MANTISSA PLACE: one to ten digits, mostly so placed that the value
    /// lies about 1 to 20, or about the limits of VSH and VSM.
    fn st_number(&mut self) -> String {
        if self.is_hot(75) {
            return self.hot_number_words();
        }
        let mantissa: u32 = match self.random.below(8) {
            0 => self.random.pick(&[0, 1, 2, 5, 10, 20, 21, 199_999, 200_000, 200_001, 999_999, 1_000_000, u32::MAX]),
            1 => self.random.next() as u32,
            2 => self.random.below(10_000_000) as u32,
            3 => (1 + self.random.below(21) as u32) * self.random.pick(&[1, 10, 1000, 100_000, 10_000_000]),
            _ => 100_000 + self.random.below(110_000) as u32,
        };
        let digits = mantissa.to_string().len();
        let place = match self.random.below(12) {
            0 => self.random.below(256),
            1 => self.random.pick(&[0, 13, 14, 15, 18, 19, 255]),
            2 => 14 - digits,
            3 => 17 - digits,
            4..=7 => 15 - digits,
            _ => 16 - digits,
        };
        let sign = if self.random.chance(6) { '-' } else { '+' };
        format!("{sign} {mantissa} {place}")
    }

    /// F and T of the same value, or one unit of their last digit apart.
    fn close_ends(&mut self) -> String {
        let mantissa = 100_000 + self.random.below(100_001);
        let place = self.random.pick(&[9, 10]);
        let other = mantissa - 1 + self.random.below(3);
        let (other, lower) = self.random.pick(&[(other, 0), (other * 10, 1), (other * 1000, 3), (other * 10 + 1, 1)]);
        format!("ST F + {mantissa} {place} T + {other} {}", place - lower)
    }

    fn v1_words(&mut self) -> String {
        match self.random.below(8) {
            0..=3 => {
                let edges = [0, 19, 20, 21, 100, 799, 800, 801, 999_999, 1_000_000, 1_000_020, 4_294_967_295];
                format!("c {}", self.near(&edges, 1 << 32))
            }
            4 => format!("u {}", self.random.below(3)),
            _ => self.random.pick(&["M", "C1", "c1", "U"]).to_string(),
        }
    }

    fn opg_words(&mut self) -> String {
        match self.random.below(8) {
            0..=1 => format!("pressure {}", self.near(&[0, 1, 2, 3, 4, 5, 255], 256)),
            2..=3 => format!("unit {}", self.near(&[0, 1, 2, 3, 4, 5, 255], 256)),
            4 => "unit".to_string(),
            5 => "off".to_string(),
            _ => {
                let spectra = self.near(&[0, 1, 100, 65536, 4_294_967_295], 1 << 32);
                format!("on {spectra} {}", self.near(&[0, 1, 9, 10, 11, 255], 256))
            }
        }
    }

    /// The line with a word changed, gone, doubled or empty.
    fn damaged_line(&mut self, line: &str) -> String {
        let mut words: Vec<&str> = line.split(' ').collect();
        let at = 1 + self.random.below(words.len() - 1);
        let odd = ["256", "65536", "257", "4294967296", "99999999999", "0016", "+", "-", "5", "XX", "mv", "D", "F", "T", "3", ""];
        match self.random.below(4) {
            0 => words[at] = self.random.pick(&odd),
            1 => {
                words.remove(at);
            }
            2 => words.insert(at, words[at]),
            _ => words.push(self.random.pick(&odd)),
        }
        words.join(" ")
    }
}
