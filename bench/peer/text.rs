//! The report and the statement, each made in one buffer.

use crate::account::Answer;
use crate::book::{Book, Summary, Sums};
use crate::civil::civil;
use crate::end::End;
use crate::layout::Token;
use crate::table::Table;

/// The whole report.
pub fn report(ends: &[End], summary: &Summary) -> Vec<u8> {
    let lines = ends.len() + summary.validators.len() + summary.tokens.len();
    let mut out = Text(Vec::with_capacity(128 * lines + 256));
    out.word("uploads ").number(ends.len() as u64).word("\n");
    for (upload, end) in ends.iter().enumerate() {
        out.word("upload ").number(upload as u64);
        match end {
            End::Posted { taps } => out.word(" posted ").number(*taps),
            End::Refused {
                taps,
                offset,
                fault,
            } => {
                out.word(" refused ")
                    .number(*taps)
                    .word(" at ")
                    .number(*offset);
                out.word(" L").number(*fault as u64)
            }
        };
        out.word("\n");
    }
    out.word("totals ").sums(&summary.totals);
    out.word("validators ")
        .number(summary.validators.len() as u64)
        .word("\n");
    for (validator, sums) in &summary.validators {
        out.word("validator ")
            .number(*validator as u64)
            .word(" ")
            .sums(sums);
    }
    out.word("tokens ")
        .number(summary.tokens.len() as u64)
        .word("\n");
    for (token, sums) in &summary.tokens {
        out.word("token ").token(*token).word(" ").sums(sums);
    }
    out.0
}

/// The statement of one token, of the book of its shard.
pub fn statement(table: &Table, book: &Book, token: Token) -> Vec<u8> {
    let mut out = Text(Vec::new());
    let mut totals = Sums::default();
    out.word("statement ").token(token).word("\n");
    for entry in book.entries.iter().filter(|entry| entry.token == token) {
        totals.add(entry);
        let mode = table
            .mode_of(entry.validator)
            .map_or("-", |mode| table.mode_name(mode));
        out.moment(entry.moment)
            .word(" ")
            .word(mode)
            .word(" ")
            .number(entry.validator as u64);
        out.word(match entry.answer {
            Answer::Paid => " paid ",
            Answer::Transfer => " transfer ",
            Answer::Capped => " capped ",
            Answer::Stale => " stale ",
            Answer::Unknown => " unknown ",
        });
        out.number(entry.cents as u64).word("\n");
    }
    out.word("totals ").sums(&totals).word("window ");
    match book
        .accounts
        .get(&token)
        .and_then(|account| account.window())
    {
        None => out.word("none\n"),
        Some(window) => {
            out.moment(window.start)
                .word(" ")
                .moment(window.until)
                .word(" paid ");
            out.number(window.paid as u64)
                .word(" cents ")
                .number(window.cents as u64)
                .word("\n")
        }
    };
    out.0
}

struct Text(Vec<u8>);

impl Text {
    fn word(&mut self, word: &str) -> &mut Text {
        self.0.extend_from_slice(word.as_bytes());
        self
    }

    fn number(&mut self, mut number: u64) -> &mut Text {
        let mut digits = [0; 20];
        let mut start = digits.len();
        loop {
            start -= 1;
            digits[start] = b'0' + (number % 10) as u8;
            number /= 10;
            if number == 0 {
                break;
            }
        }
        self.0.extend_from_slice(&digits[start..]);
        self
    }

    fn token(&mut self, token: Token) -> &mut Text {
        let mut digits = [0; 32];
        let number = (token.high as u128) << 64 | token.low as u128;
        for (place, byte) in number.to_be_bytes().into_iter().enumerate() {
            digits[2 * place] = b"0123456789abcdef"[byte as usize >> 4];
            digits[2 * place + 1] = b"0123456789abcdef"[byte as usize & 15];
        }
        self.0.extend_from_slice(&digits);
        self
    }

    fn sums(&mut self, sums: &Sums) -> &mut Text {
        self.word("taps ").number(sums.taps);
        self.word(" paid ").number(sums.paid);
        self.word(" transfers ").number(sums.transfers);
        self.word(" capped ").number(sums.capped);
        self.word(" stale ").number(sums.stale);
        self.word(" unknown ").number(sums.unknown);
        self.word(" cents ").number(sums.cents).word("\n")
    }

    /// `YYYY-MM-DDTHH:MM:SS.mmmZ` of milliseconds since 1970.
    fn moment(&mut self, moment: u64) -> &mut Text {
        let (year, month, day) = civil(moment / 86_400_000);
        let rest = moment % 86_400_000;
        self.padded(year, 4)
            .word("-")
            .padded(month, 2)
            .word("-")
            .padded(day, 2)
            .word("T");
        self.padded(rest / 3_600_000, 2)
            .word(":")
            .padded(rest / 60_000 % 60, 2)
            .word(":");
        self.padded(rest / 1000 % 60, 2)
            .word(".")
            .padded(rest % 1000, 3)
            .word("Z")
    }

    fn padded(&mut self, number: u64, width: usize) -> &mut Text {
        let text = format!("{number:0width$}");
        self.word(&text)
    }
}
