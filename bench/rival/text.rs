//! Words, numbers, tokens and moments as text.

use crate::civil::civil;
use crate::tap::{Sums, Token};

/// Bytes of the longest line of a token: seven numbers of at most 20 digits among 84 letters.
pub const LINE: usize = 256;

/// A text that grows.
pub struct Text(pub Vec<u8>);

/// The two digits of each number below a hundred.
pub const PAIRS: [[u8; 2]; 100] = {
    let mut pairs = [[0; 2]; 100];
    let mut number = 0;
    while number < 100 {
        pairs[number] = [b'0' + number as u8 / 10, b'0' + number as u8 % 10];
        number += 1;
    }
    pairs
};

/// The two hexadecimal digits of each byte.
pub const HEX: [[u8; 2]; 256] = {
    let mut pairs = [[0; 2]; 256];
    let digits = b"0123456789abcdef";
    let mut number = 0;
    while number < 256 {
        pairs[number] = [digits[number >> 4], digits[number & 15]];
        number += 1;
    }
    pairs
};

impl Text {
    #[inline(always)]
    pub fn word(&mut self, word: &str) -> &mut Text {
        self.0.extend_from_slice(word.as_bytes());
        self
    }

    pub fn number(&mut self, number: u64) -> &mut Text {
        let mut digits = [0; 20];
        let start = put(&mut digits, 20, number);
        self.0.extend_from_slice(&digits[start..]);
        self
    }

    pub fn token(&mut self, token: Token) -> &mut Text {
        let number = (token.high as u128) << 64 | token.low as u128;
        for byte in number.to_be_bytes() {
            self.0.extend_from_slice(&HEX[byte as usize]);
        }
        self
    }

    /// The line of a token, made from its end to its start.
    pub fn token_line(&mut self, token: Token, sums: &Sums) {
        let mut line = [0; LINE];
        let mut at = LINE;
        macro_rules! word {
            ($word:literal) => {
                at -= $word.len();
                line[at..at + $word.len()].copy_from_slice($word);
            };
        }
        let [paid, transfers, capped, stale, unknown] = sums.counts;
        word!(b"\n");
        at = put(&mut line, at, sums.cents);
        word!(b" cents ");
        at = put(&mut line, at, unknown);
        word!(b" unknown ");
        at = put(&mut line, at, stale);
        word!(b" stale ");
        at = put(&mut line, at, capped);
        word!(b" capped ");
        at = put(&mut line, at, transfers);
        word!(b" transfers ");
        at = put(&mut line, at, paid);
        word!(b" paid ");
        at = put(&mut line, at, sums.counts.iter().sum());
        word!(b" taps ");
        at -= 32;
        let number = (token.high as u128) << 64 | token.low as u128;
        for (pair, byte) in line[at..at + 32]
            .chunks_exact_mut(2)
            .zip(number.to_be_bytes())
        {
            pair.copy_from_slice(&HEX[byte as usize]);
        }
        word!(b"token ");
        self.0.extend_from_slice(&line[at..]);
    }

    pub fn sums(&mut self, sums: &Sums) -> &mut Text {
        let [paid, transfers, capped, stale, unknown] = sums.counts;
        self.word("taps ").number(sums.counts.iter().sum());
        self.word(" paid ").number(paid);
        self.word(" transfers ").number(transfers);
        self.word(" capped ").number(capped);
        self.word(" stale ").number(stale);
        self.word(" unknown ").number(unknown);
        self.word(" cents ").number(sums.cents).word("\n")
    }

    /// `YYYY-MM-DDTHH:MM:SS.mmmZ` of milliseconds since 1970.
    pub fn moment(&mut self, moment: u64) -> &mut Text {
        let (year, month, day) = civil(moment / 86_400_000);
        let rest = moment % 86_400_000;
        let (hour, minute) = (rest / 3_600_000, rest / 60_000 % 60);
        let (second, thousandth) = (rest / 1000 % 60, rest % 1000);
        let text = format!(
            "{year:04}-{month:02}-{day:02}T{hour:02}:{minute:02}:{second:02}.{thousandth:03}Z"
        );
        self.word(&text)
    }
}

/// Writes the digits of a number before this place, and returns where they start.
#[inline(always)]
pub fn put(line: &mut [u8], mut at: usize, mut number: u64) -> usize {
    while number >= 100 {
        at -= 2;
        line[at..at + 2].copy_from_slice(&PAIRS[(number % 100) as usize]);
        number /= 100;
    }
    if number >= 10 {
        at -= 2;
        line[at..at + 2].copy_from_slice(&PAIRS[number as usize]);
    } else {
        at -= 1;
        line[at] = b'0' + number as u8;
    }
    at
}
