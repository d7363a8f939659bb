//! The ledger of sorted files: each line is written into one buffer, with digits by pairs. The texts of
//! days and of the last window are kept.

use std::io::Write;

use crate::account::Account;
use crate::civil::civil;
use crate::hash::Seed;
use crate::settle::Own;
use crate::sorted::each_token;
use crate::table::Table;
use crate::tallies::Tallies;
use crate::tap::{Answer, Token};
use crate::text::{HEX, PAIRS, put};

const HEAD: &[u8] = b"token,line,moment,validator,mode,answer,cents,window_start,window_end,ride,reason,points_at\n";
/// The bytes of lines that are written at once.
const PIECE: usize = 128 << 10;
/// The most bytes of a line without its mode.
const LINE: usize = 512;
const DAY: u64 = 86_400_000;
/// The bytes of a moment's text.
const MOMENT: usize = 24;

/// A short text that is copied by one move of 32 bytes, if it is not longer.
struct Word {
    start: [u8; 32],
    rest: Vec<u8>,
    len: usize,
}

impl Word {
    fn new(text: &str) -> Word {
        let bytes = text.as_bytes();
        let len = bytes.len();
        let mut start = [0; 32];
        start[..len.min(32)].copy_from_slice(&bytes[..len.min(32)]);
        let rest = bytes[len.min(32)..].to_vec();
        Word { start, rest, len }
    }
}

/// Lines that are not written yet.
struct Pen {
    room: Vec<u8>,
    at: usize,
}

impl Pen {
    /// Appends bytes whose number is known when this is compiled.
    #[inline(always)]
    fn bytes<const N: usize>(&mut self, bytes: &[u8; N]) {
        self.room[self.at..self.at + N].copy_from_slice(bytes);
        self.at += N;
    }

    #[inline(always)]
    fn word(&mut self, word: &Word) {
        self.room[self.at..self.at + 32].copy_from_slice(&word.start);
        if word.len > 32 {
            self.room[self.at + 32..self.at + word.len].copy_from_slice(&word.rest);
        }
        self.at += word.len;
    }

    #[inline(always)]
    fn number(&mut self, number: u32) {
        let end = self.at + number.checked_ilog10().unwrap_or(0) as usize + 1;
        put(&mut self.room, end, number as u64);
        self.at = end;
    }
}

/// The dates that are kept: those of two years of taps.
const DATES: usize = 1024;

/// Makes texts of moments. The date of each day is made once.
struct Moments {
    /// A day, and its date, each at the day's remainder.
    dates: Vec<(u32, [u8; 11])>,
}

impl Moments {
    fn new() -> Moments {
        Moments {
            dates: vec![(u32::MAX, [0; 11]); DATES],
        }
    }

    #[inline(always)]
    fn text(&mut self, moment: u64) -> [u8; MOMENT] {
        let day = (moment / DAY) as u32;
        let rest = (moment - day as u64 * DAY) as u32;
        let kept = &mut self.dates[day as usize % DATES];
        if kept.0 != day {
            *kept = (day, date(day));
        }
        let (seconds, thousandths) = (rest / 1000, rest % 1000);
        let mut text = *b"0000-00-00T00:00:00.000Z";
        text[..11].copy_from_slice(&kept.1);
        let mut pair = |at: usize, number: u32| {
            text[at..at + 2].copy_from_slice(&PAIRS[number as usize]);
        };
        pair(11, seconds / 3600);
        pair(14, seconds / 60 % 60);
        pair(17, seconds % 60);
        pair(21, thousandths % 100);
        text[20] = b'0' + (thousandths / 100) as u8;
        text
    }
}

/// The text of a day, with the letter after it.
#[cold]
#[inline(never)]
fn date(day: u32) -> [u8; 11] {
    let (year, month, date) = civil(day as u64);
    let text = format!("{year:04}-{month:02}-{date:02}T");
    text.as_bytes().try_into().unwrap()
}

/// Why a ride costs what it costs, and the other answers: places in `words`.
#[derive(Clone, Copy)]
enum Reason {
    Full,
    CeilingCut,
    Ceiling,
    RideLimit,
    Transfer,
    Stale,
    Unknown,
}

/// The lines of tokens, one token after another.
struct Lines<'a> {
    table: &'a Table,
    /// Looked at for the modes alone.
    tallies: Tallies,
    modes: Vec<Word>,
    /// The words `,ANSWER,` by `Answer`, and `,REASON,` by `Reason`.
    answers: [Word; 5],
    reasons: [Word; 7],
    pen: Pen,
    moments: Moments,
    /// The start of the last window, and the text of both its ends.
    window: (u64, [u8; 2 * MOMENT + 1]),
}

impl Lines<'_> {
    /// Appends the lines of one token.
    fn token<W: Write>(&mut self, token: Token, taps: &[Own], out: &mut W) -> Result<(), String> {
        let mut hex = [b','; 33];
        let number = (token.high as u128) << 64 | token.low as u128;
        for (pair, byte) in hex.chunks_exact_mut(2).zip(number.to_be_bytes()) {
            pair.copy_from_slice(&HEX[byte as usize]);
        }
        let mut account = Account::new(self.table, token);
        let terms = self.table.class(account.class());
        let mut rides = 0;
        for (number, tap) in taps.iter().enumerate() {
            if self.pen.at > PIECE {
                write(&mut self.pen, out)?;
            }
            let place = self.tallies.place(self.table, tap.validator);
            let mode = self.tallies.mode(place);
            let before = account.last_live();
            let (answer, cents) = account.step(self.table, mode, tap.moment);
            let mut is_ride = false;
            let reason = match answer {
                Answer::Unknown => Reason::Unknown,
                Answer::Stale => Reason::Stale,
                Answer::Transfer => Reason::Transfer,
                Answer::Paid | Answer::Capped => {
                    is_ride = true;
                    rides = if account.window_start == tap.moment {
                        1
                    } else {
                        rides + 1
                    };
                    match cents {
                        _ if rides > terms.rides => Reason::RideLimit,
                        0 => Reason::Ceiling,
                        _ if cents < terms.fare => Reason::CeilingCut,
                        _ => Reason::Full,
                    }
                }
            };
            let pen = &mut self.pen;
            pen.bytes(&hex);
            pen.number(number as u32 + 1);
            pen.bytes(b",");
            pen.bytes(&self.moments.text(tap.moment));
            pen.bytes(b",");
            pen.number(tap.validator);
            pen.bytes(b",");
            if let Some(mode) = self.modes.get(mode as usize) {
                pen.word(mode);
            }
            pen.word(&self.answers[answer as usize]);
            pen.number(cents);
            pen.bytes(b",");
            if is_ride {
                if self.window.0 != account.window_start {
                    self.window.0 = account.window_start;
                    let ends = &mut self.window.1;
                    ends[..MOMENT].copy_from_slice(&self.moments.text(account.window_start));
                    ends[MOMENT + 1..].copy_from_slice(&self.moments.text(account.window_end));
                }
                pen.bytes(&self.window.1);
                pen.bytes(b",");
                if rides <= terms.rides {
                    pen.number(rides);
                }
            } else {
                pen.bytes(b",,");
            }
            pen.word(&self.reasons[reason as usize]);
            if matches!(answer, Answer::Transfer | Answer::Stale) {
                pen.bytes(&self.moments.text(before));
            }
            pen.bytes(b"\n");
        }
        Ok(())
    }
}

fn write<W: Write>(pen: &mut Pen, out: &mut W) -> Result<(), String> {
    let written = out.write_all(&pen.room[..pen.at]);
    pen.at = 0;
    written.map_err(|_| "cannot write".to_string())
}

/// Writes the ledger of sorted files. What is before a fault is written.
pub fn run(
    table: &Table,
    seed: Seed,
    names: &[String],
    out: &mut impl Write,
) -> Result<(), String> {
    let modes: Vec<Word> = table.mode_names().map(Word::new).collect();
    let longest = modes.iter().map(|mode| mode.len).max().unwrap_or(0);
    let mut window = (u64::MAX, [0; 2 * MOMENT + 1]);
    window.1[MOMENT] = b',';
    let reasons = [
        "full",
        "ceiling-cut",
        "ceiling",
        "ride-limit",
        "transfer",
        "stale",
        "unknown",
    ];
    let mut lines = Lines {
        table,
        tallies: Tallies::new(seed),
        modes,
        answers: Answer::ALL.map(|it| Word::new(&format!(",{},", it.word()))),
        reasons: reasons.map(|it| Word::new(&format!(",{it},"))),
        pen: Pen {
            room: vec![0; PIECE + LINE + longest],
            at: 0,
        },
        moments: Moments::new(),
        window,
    };
    out.write_all(HEAD)
        .map_err(|_| "cannot write".to_string())?;
    each_token(names, |token, taps| lines.token(token, taps, out))?;
    write(&mut lines.pen, out)
}
