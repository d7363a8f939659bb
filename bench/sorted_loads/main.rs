//! Makes a year of taps as upload files that are each in canonical order, and their fare table.
//!
//! `sorted_loads --out FOLDER [--taps N] [--tokens N] [--files N] [--batch N]` writes `table.toml` and `000.tap`,
//! `001.tap`, .. into the folder, and prints the names of the tap files in order. The same words give the same bytes.
//!
//! Each file has its part of the year, of all tokens in rising order, so that no tap has to be kept: one token's taps
//! of that part are made, sorted and written. Of 16 tokens one taps 8 times as often as the usual one, and one never.
//! Of 4 taps one is within an hour of the one before it (so that there are transfers), of 64 one is of no known
//! validator, and of 256 one is there twice (so that there are stale taps).

#[path = "../loads/numbers.rs"]
mod numbers;
#[path = "../loads/table.rs"]
mod table;

use std::fs::{self, File};
use std::io::{self, BufWriter, Write};
use std::path::Path;
use std::process::ExitCode;

use numbers::{Numbers, mixed};

const START: u64 = 1_704_067_200_000;
const YEAR: u64 = 366 * 86_400_000;
const HOUR: u64 = 3_600_000;
const RANGES: u32 = 300;
const RIDERS: u64 = 1000;

struct Words {
    out: String,
    taps: u64,
    tokens: u64,
    files: u64,
    batch: u64,
}

fn words() -> Option<Words> {
    let mut words = Words {
        out: String::new(),
        taps: 200_000_000,
        tokens: 0,
        files: 24,
        batch: 512,
    };
    let mut args = std::env::args().skip(1);
    while let Some(word) = args.next() {
        let value = args.next()?;
        let number = value.replace('_', "").parse::<u64>().ok();
        match word.as_str() {
            "--out" => words.out = value,
            "--taps" => words.taps = number?,
            "--tokens" => words.tokens = number?,
            "--files" => words.files = number?,
            "--batch" => words.batch = number?,
            _ => return None,
        }
    }
    if words.tokens == 0 {
        words.tokens = words.taps.div_ceil(100).max(16);
    }
    let fits = !words.out.is_empty()
        && words.files > 0
        && words.tokens >= 16
        && (1..=4096).contains(&words.batch);
    fits.then_some(words)
}

/// The token at a place: they rise with their places.
fn token(words: &Words, place: u64) -> [u8; 16] {
    let step = u64::MAX / words.tokens;
    let high = step * place + mixed(place) % step;
    ((high as u128) << 64 | mixed(!place) as u128).to_be_bytes()
}

/// How often a token taps, beside the others.
fn weight(place: u64) -> u64 {
    match mixed(place ^ 0x5eed) % 16 {
        0 => 0,
        1 => 8,
        _ => 1,
    }
}

/// A file of batches of TAP1, which are full but for the last.
struct Upload {
    file: BufWriter<File>,
    batch: Vec<u8>,
    room: usize,
}

impl Upload {
    fn create(path: &Path, taps: u64) -> io::Result<Upload> {
        let room = 28 * taps as usize;
        Ok(Upload {
            file: BufWriter::with_capacity(1 << 20, File::create(path)?),
            batch: Vec::with_capacity(room),
            room,
        })
    }

    fn push(&mut self, token: &[u8; 16], validator: u32, moment: u64) -> io::Result<()> {
        self.batch.extend_from_slice(token);
        self.batch.extend_from_slice(&validator.to_be_bytes());
        self.batch.extend_from_slice(&moment.to_be_bytes());
        if self.batch.len() == self.room {
            self.write_batch()?;
        }
        Ok(())
    }

    fn write_batch(&mut self) -> io::Result<()> {
        if !self.batch.is_empty() {
            self.file.write_all(b"TAP1")?;
            self.file.write_all(&((self.batch.len() / 28) as u16).to_be_bytes())?;
            self.file.write_all(&[0, 0])?;
            self.file.write_all(&self.batch)?;
            self.batch.clear();
        }
        Ok(())
    }
}

/// The moments and validators of a token's taps in a part of the year, in canonical order.
fn fill(taps: &mut Vec<(u64, u32)>, numbers: &mut Numbers, count: u64, begin: u64, span: u64) {
    taps.clear();
    while (taps.len() as u64) < count {
        let moment = match taps.last() {
            Some(&(last, _)) if numbers.below(4) == 0 => {
                (last + 1 + numbers.below(HOUR)).min(begin + span - 1)
            }
            _ => begin + numbers.below(span),
        };
        taps.push((moment, table::validator(numbers, RANGES)));
        if numbers.below(256) == 0 && (taps.len() as u64) < count {
            taps.push(taps[taps.len() - 1]);
        }
    }
    taps.sort_unstable();
}

fn write_file(words: &Words, number: u64, whole: u64, path: &Path) -> io::Result<()> {
    let mut upload = Upload::create(path, words.batch)?;
    let due = words.taps / words.files + u64::from(number < words.taps % words.files);
    let span = YEAR / words.files;
    let mut taps = Vec::new();
    // The taps that are due up to a token, by the weights so far.
    let (mut sum, mut written) = (0, 0);
    for place in 0..words.tokens {
        let weight = weight(place);
        if weight == 0 {
            continue;
        }
        sum += weight;
        // Of the token's taps of the year each file has its share, and a seventh file none.
        let upto = (due as u128 * sum as u128 / whole as u128) as u64;
        let away = (mixed(place) + number) % 7 == 0 && sum < whole;
        if away || upto == written {
            continue;
        }
        let mut numbers = Numbers(mixed(place) ^ mixed(number << 48));
        fill(&mut taps, &mut numbers, upto - written, START + span * number, span);
        written = upto;
        let token = token(words, place);
        for &(moment, validator) in &taps {
            upload.push(&token, validator, moment)?;
        }
    }
    upload.write_batch()?;
    upload.file.flush()
}

fn run(words: &Words) -> io::Result<()> {
    let folder = Path::new(&words.out);
    fs::create_dir_all(folder)?;
    let riders = (0..RIDERS.min(words.tokens)).map(|place| token(words, place));
    fs::write(folder.join("table.toml"), table::text(RANGES, riders))?;
    let whole = (0..words.tokens).map(weight).sum();
    for number in 0..words.files {
        let path = folder.join(format!("{number:03}.tap"));
        write_file(words, number, whole, &path)?;
        println!("{}", path.display());
    }
    Ok(())
}

fn main() -> ExitCode {
    let Some(words) = words() else {
        eprintln!("usage: sorted_loads --out FOLDER [--taps N] [--tokens N] [--files N] [--batch N]");
        return ExitCode::from(2);
    };
    match run(&words) {
        Ok(()) => ExitCode::SUCCESS,
        Err(fault) => {
            eprintln!("fault: {fault}");
            ExitCode::from(1)
        }
    }
}
