//! Makes loads: tap files, and the fare table that goes with them. The same words give the same bytes.
//!
//! `loads --out FOLDER [--taps N] [--tokens N] [--uploads N] [--batch N] [--layout 1|2|both] [--skewed] [--own-tokens]
//! [--once] [--colliding] [--again N] [--ranges N] [--riders N] [--seed N]` writes `table.toml` and `000.tap`, `001.tap`, .. into the folder,
//! and prints the names of the tap files in order.
//!
//! `--again` repeats the first upload's last tap that many times: its token has as many stale taps.
//! `--own-tokens`: no two uploads share a token, so there are at most as many uploads as tokens.
//! `--once`: each token has one tap, so there are as many tokens as taps, whatever `--tokens` says.
//!
//! The taps of an upload rise in time. Of 64 taps about 16 are of a token that tapped within the last hour (so that
//! there are transfers), one is of no known validator and one is there twice (so that there are unknown and stale taps).
//! The whole load spans four weeks. Riders have a class with a low ceiling, so that there are capped rides.

mod numbers;
mod table;

use std::fs::{self, File};
use std::io::{self, BufWriter, Write};
use std::path::Path;
use std::process::ExitCode;

use numbers::{Numbers, mixed};

/// What the program loads of one file.
const FILE_LIMIT: u64 = 67_108_864;
const START: u64 = 1_709_917_200_000;
const SPAN: u64 = 28 * 86_400_000;
const HOUR: u64 = 3_600_000;
struct Words {
    out: String,
    taps: u64,
    tokens: u64,
    uploads: u64,
    batch: u64,
    layout: Layout,
    skewed: bool,
    own_tokens: bool,
    once: bool,
    colliding: bool,
    again: u64,
    ranges: u32,
    riders: u64,
    seed: u64,
}

#[derive(Clone, Copy, PartialEq)]
enum Layout {
    First,
    Second,
    Both,
}

fn words() -> Option<Words> {
    let mut words = Words {
        out: String::new(),
        taps: 1_000_000,
        tokens: 50_000,
        uploads: 16,
        batch: 4096,
        layout: Layout::First,
        skewed: false,
        own_tokens: false,
        once: false,
        colliding: false,
        again: 0,
        ranges: 300,
        riders: 1000,
        seed: 1,
    };
    let mut args = std::env::args().skip(1);
    while let Some(word) = args.next() {
        let mut number = || args.next()?.replace('_', "").parse::<u64>().ok();
        match word.as_str() {
            "--taps" => words.taps = number()?,
            "--tokens" => words.tokens = number()?,
            "--uploads" => words.uploads = number()?,
            "--batch" => words.batch = number()?,
            "--again" => words.again = number()?,
            "--ranges" => words.ranges = number()? as u32,
            "--riders" => words.riders = number()?,
            "--seed" => words.seed = number()?,
            "--skewed" => words.skewed = true,
            "--own-tokens" => words.own_tokens = true,
            "--once" => words.once = true,
            "--colliding" => words.colliding = true,
            "--out" => words.out = args.next()?,
            "--layout" => {
                words.layout = match args.next()?.as_str() {
                    "1" => Layout::First,
                    "2" => Layout::Second,
                    "both" => Layout::Both,
                    _ => return None,
                }
            }
            _ => return None,
        }
    }
    if words.once {
        words.tokens = words.taps;
    }
    if words.own_tokens {
        words.uploads = words.uploads.min(words.tokens);
    }
    // As many uploads as it takes that no file is over the limit.
    let most = FILE_LIMIT / (28 * words.batch + 12) * words.batch;
    words.uploads = words.uploads.max(words.taps.div_ceil(most.max(1))).max(1);
    let fits = !words.out.is_empty()
        && (1..=4096).contains(&words.batch)
        && words.tokens >= if words.own_tokens { words.uploads } else { 1 }
        && (3..=100_000_000).contains(&words.ranges);
    fits.then_some(words)
}

fn token(words: &Words, place: u64) -> [u8; 16] {
    let high = mixed(place.wrapping_add(words.seed << 40));
    let low = if words.colliding {
        // Whoever knows the seed can choose what the second half meets.
        folded(KNOWN_STATE ^ high, KNOWN_MULTIPLIER) ^ KNOWN_STATE
    } else {
        mixed(!place)
    };
    ((high as u128) << 64 | low as u128).to_be_bytes()
}

/// The seed of Rattle's own hash of maps, which is fixed: under it the colliding tokens all have one hash.
const KNOWN_STATE: u64 = 0x243f_6a88_85a3_08d3;
const KNOWN_MULTIPLIER: u64 = 0x9e37_79b9_7f4a_7c15;

/// The two halves of the product, joined by xor: the step of the program's hash.
fn folded(a: u64, b: u64) -> u64 {
    let product = a as u128 * b as u128;
    product as u64 ^ (product >> 64) as u64
}

#[derive(Clone, Copy)]
struct Tap {
    token: u64,
    validator: u32,
    moment: u64,
}

/// The taps of one upload, in their order.
struct Taps<'a> {
    words: &'a Words,
    upload: u64,
    number: u64,
    count: u64,
    numbers: Numbers,
    /// Tokens of the last hour.
    recent: Vec<u64>,
    last: Tap,
}

impl<'a> Taps<'a> {
    fn of(words: &'a Words, upload: u64) -> Taps<'a> {
        let count = words.taps / words.uploads + u64::from(upload < words.taps % words.uploads);
        let numbers = Numbers(mixed(words.seed) ^ mixed(upload << 32));
        // With tokens of its own an upload spans all the weeks, else its part of them.
        let span = if words.own_tokens {
            SPAN
        } else {
            SPAN / words.uploads
        };
        let recent = Vec::with_capacity((count * HOUR / span).clamp(1, 65_536) as usize);
        let last = Tap {
            token: 0,
            validator: 0,
            moment: 0,
        };
        Taps {
            words,
            upload,
            number: 0,
            count,
            numbers,
            recent,
            last,
        }
    }

    /// The place of the tap that is due among those of all uploads.
    fn place(&self) -> u64 {
        let words = self.words;
        let extra = self.upload.min(words.taps % words.uploads);
        self.upload * (words.taps / words.uploads) + extra + self.number
    }

    /// The moment of the tap that is due: uploads with tokens of their own run side by side, others in turn.
    fn moment(&self) -> u64 {
        let words = self.words;
        if words.own_tokens {
            START + (self.number as u128 * SPAN as u128 / self.count as u128) as u64
        } else {
            START + (self.place() as u128 * SPAN as u128 / words.taps as u128) as u64
        }
    }

    fn token(&mut self) -> u64 {
        if self.words.once {
            return self.place();
        }
        if !self.recent.is_empty() && self.numbers.below(4) == 0 {
            return self.recent[self.numbers.below(self.recent.len() as u64) as usize];
        }
        let words = self.words;
        let (choices, step, start) = if words.own_tokens {
            let rest = u64::from(self.upload < words.tokens % words.uploads);
            (
                words.tokens / words.uploads + rest,
                words.uploads,
                self.upload,
            )
        } else {
            (words.tokens, 1, 0)
        };
        let mut place = self.numbers.below(choices);
        if words.skewed {
            // The product of four uniform numbers: 70 of 100 taps are of a sixteenth of the tokens.
            for _ in 0..3 {
                place =
                    (place as u128 * self.numbers.below(choices) as u128 / choices as u128) as u64;
            }
        }
        start + step * place
    }

    fn validator(&mut self) -> u32 {
        table::validator(&mut self.numbers, self.words.ranges)
    }

    fn next(&mut self) -> Tap {
        let moment = self.moment();
        let again = self.number > 0 && self.numbers.below(64) == 0 && !self.words.once;
        if !again {
            let token = self.token();
            self.last = Tap {
                token,
                validator: self.validator(),
                moment,
            };
            if self.recent.len() < self.recent.capacity() {
                self.recent.push(token);
            } else {
                let place = self.number as usize % self.recent.len();
                self.recent[place] = token;
            }
        }
        self.number += 1;
        self.last
    }
}

fn write_upload(words: &Words, upload: u64, out: &mut impl Write) -> io::Result<()> {
    let mut taps = Taps::of(words, upload);
    let mut batch = 0;
    let mut again = if upload == 0 { words.again } else { 0 };
    while taps.number < taps.count || again > 0 {
        let is_again = taps.number == taps.count;
        let left = if is_again { again } else { taps.count - taps.number };
        let count = words.batch.min(left);
        again -= if is_again { count } else { 0 };
        let second = match words.layout {
            Layout::First => false,
            Layout::Second => true,
            Layout::Both => batch % 2 == 1,
        };
        out.write_all(if second { b"TAP2" } else { b"TAP1" })?;
        out.write_all(&(count as u16).to_be_bytes())?;
        out.write_all(&[0, 0])?;
        let shared = taps.validator();
        if second {
            out.write_all(&shared.to_be_bytes())?;
        }
        for _ in 0..count {
            let tap = if is_again { taps.last } else { taps.next() };
            out.write_all(&token(words, tap.token))?;
            if !second {
                out.write_all(&tap.validator.to_be_bytes())?;
            }
            out.write_all(&tap.moment.to_be_bytes())?;
        }
        batch += 1;
    }
    out.flush()
}

fn run(words: &Words) -> io::Result<()> {
    let folder = Path::new(&words.out);
    fs::create_dir_all(folder)?;
    let riders = (0..words.riders.min(words.tokens)).map(|place| token(words, place));
    fs::write(folder.join("table.toml"), table::text(words.ranges, riders))?;
    for upload in 0..words.uploads {
        let path = folder.join(format!("{upload:03}.tap"));
        let mut out = BufWriter::with_capacity(1 << 20, File::create(&path)?);
        write_upload(words, upload, &mut out)?;
        println!("{}", path.display());
    }
    Ok(())
}

fn main() -> ExitCode {
    let Some(words) = words() else {
        eprintln!(
            "usage: loads --out FOLDER [--taps N] [--tokens N] [--uploads N] [--batch N] [--layout 1|2|both]"
        );
        eprintln!(
            "             [--skewed] [--own-tokens] [--once] [--colliding] [--again N] [--ranges N] [--riders N] [--seed N]"
        );
        return ExitCode::from(2);
    };
    match run(&words) {
        Ok(()) => ExitCode::SUCCESS,
        Err(fault) => {
            eprintln!("fault: {fault}");
            ExitCode::from(1)
        }
    }
}
