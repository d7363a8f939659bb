//! The sorted way: the bill of files in canonical order, by one thread. Each file is asked for all its
//! taps of the next token, so files are compared once a token, and no tap goes through a heap.

use std::fs::File;
use std::io::{ErrorKind, Read};

use crate::end::{End, Fault};
use crate::hash::Seed;
use crate::reading::MOMENT_LIMIT;
use crate::settle::{Own, Settled, post, sort};
use crate::table::Table;
use crate::tallies::Tallies;
use crate::tap::Token;

/// The bytes of a file that are read at once. The buffer grows if a batch does not fit.
const BUFFER: usize = 64 << 10;
const HEADER: usize = 8;
const RECORD: usize = 28;
const MOST_TAPS: usize = 4096;

/// A file, at its next tap.
struct Source<'a> {
    name: &'a str,
    /// Its place among the words.
    number: usize,
    file: File,
    buffer: Vec<u8>,
    /// Where the next tap or header is in the buffer.
    at: usize,
    /// Where the bytes end that were read.
    have: usize,
    /// The bytes of the file before the buffer.
    offset: u64,
    /// The bytes of the batch from the next tap on.
    left: usize,
    /// The taps of all batches up to this one.
    taps: u64,
}

impl<'a> Source<'a> {
    fn open(number: usize, name: &'a str) -> Result<Source<'a>, String> {
        let file = File::open(name).map_err(|_| format!("cannot read {name}"))?;
        let buffer = vec![0; BUFFER];
        Ok(Source {
            name,
            number,
            file,
            buffer,
            at: 0,
            have: 0,
            offset: 0,
            left: 0,
            taps: 0,
        })
    }

    /// The token of the next tap.
    fn token(&self) -> Token {
        Token::of(&self.buffer[self.at..])
    }

    /// Takes all taps of this token, at which the file is. Returns the next token, if there is one.
    #[inline(always)]
    fn take(&mut self, token: Token, taps: &mut Vec<Own>) -> Result<Option<Token>, String> {
        let mut last = (0, 0);
        loop {
            let batch = &self.buffer[self.at..self.at + self.left];
            let mut next = None;
            let mut done = 0;
            let mut is_sound = true;
            for record in batch.chunks_exact(RECORD) {
                let found = Token::of(record);
                if found != token {
                    next = Some(found);
                    is_sound &= found > token;
                    break;
                }
                let tap = Own {
                    validator: u32::from_be_bytes(record[16..20].try_into().unwrap()),
                    moment: u64::from_be_bytes(record[20..28].try_into().unwrap()),
                };
                if tap.key() < last || tap.moment >= MOMENT_LIMIT {
                    is_sound = false;
                    break;
                }
                last = tap.key();
                taps.push(tap);
                done += RECORD;
            }
            self.at += done;
            self.left -= done;
            if !is_sound {
                return Err(self.unsound());
            }
            if next.is_some() || !self.next_batch()? {
                return Ok(next);
            }
        }
    }

    /// Goes to the next batch that has a tap. Returns whether there is one.
    #[inline(never)]
    fn next_batch(&mut self) -> Result<bool, String> {
        while self.left == 0 {
            self.want(HEADER)?;
            if self.at == self.have {
                return Ok(false);
            }
            let count =
                count_of(&self.buffer[self.at..self.have]).map_err(|it| self.refused(it))?;
            let len = HEADER + RECORD * count;
            self.want(len)?;
            if self.have - self.at < len {
                return Err(self.refused(Fault::Length));
            }
            self.at += HEADER;
            self.left = len - HEADER;
            self.taps += count as u64;
        }
        Ok(true)
    }

    /// Reads until the buffer has this many bytes from `at` on, or the file ends.
    fn want(&mut self, len: usize) -> Result<(), String> {
        if self.have - self.at >= len {
            return Ok(());
        }
        self.buffer.copy_within(self.at..self.have, 0);
        self.offset += self.at as u64;
        self.have -= self.at;
        self.at = 0;
        if self.buffer.len() < len {
            self.buffer.resize(len, 0);
        }
        while self.have < len {
            match self.file.read(&mut self.buffer[self.have..]) {
                Ok(0) => break,
                Ok(count) => self.have += count,
                Err(error) if error.kind() == ErrorKind::Interrupted => {}
                Err(_) => return Err(format!("cannot read {}", self.name)),
            }
        }
        Ok(())
    }

    /// The fault line of the batch that begins at `at`.
    fn refused(&self, fault: Fault) -> String {
        let offset = self.offset + self.at as u64;
        format!("{} at {offset} L{}", self.name, fault as u64)
    }

    /// The fault line of the next tap.
    #[cold]
    fn unsound(&self) -> String {
        let moment = self.buffer[self.at + 20..self.at + 28].try_into().unwrap();
        let number = self.taps - (self.left / RECORD) as u64;
        if u64::from_be_bytes(moment) >= MOMENT_LIMIT {
            return format!("{}: tap {number} has a late moment", self.name);
        }
        format!("{}: tap {number} is out of order", self.name)
    }
}

/// The taps that the header of a batch counts.
fn count_of(bytes: &[u8]) -> Result<usize, Fault> {
    if bytes.len() < HEADER {
        return Err(Fault::Short);
    }
    if !bytes.starts_with(b"TAP1") {
        return Err(Fault::Magic);
    }
    if bytes[6] != 0 || bytes[7] != 0 {
        return Err(Fault::Flags);
    }
    let count = u16::from_be_bytes([bytes[4], bytes[5]]) as usize;
    if count > MOST_TAPS {
        return Err(Fault::TooMany);
    }
    Ok(count)
}

/// Gives each token with its taps in canonical order, by rising tokens. Returns how the files ended.
pub fn each_token(
    names: &[String],
    mut charge: impl FnMut(Token, &[Own]) -> Result<(), String>,
) -> Result<Vec<End>, String> {
    let mut ends = vec![End::Posted { taps: 0 }; names.len()];
    // The files that have a tap left, and the token of each one's next tap.
    let (mut sources, mut heads) = (Vec::new(), Vec::new());
    for (number, name) in names.iter().enumerate() {
        let mut source = Source::open(number, name)?;
        if source.next_batch()? {
            heads.push(source.token());
            sources.push(source);
        }
    }
    let mut taps: Vec<Own> = Vec::new();
    while let Some(&token) = heads.iter().min() {
        taps.clear();
        let mut is_sorted = true;
        let mut at = 0;
        while at < heads.len() {
            if heads[at] != token {
                at += 1;
                continue;
            }
            let from = taps.len();
            let next = sources[at].take(token, &mut taps)?;
            is_sorted &= from == 0 || taps[from - 1].key() <= taps[from].key();
            match next {
                Some(next) => {
                    heads[at] = next;
                    at += 1;
                }
                None => {
                    heads.remove(at);
                    let source = sources.remove(at);
                    ends[source.number] = End::Posted { taps: source.taps };
                }
            }
        }
        if !is_sorted {
            sort(&mut taps);
        }
        charge(token, &taps)?;
    }
    Ok(ends)
}

/// The sums of all tokens, as the settled way leaves them.
pub fn run(table: &Table, seed: Seed, names: &[String]) -> Result<Settled, String> {
    let mut tallies = Tallies::new(seed);
    let mut tokens = Vec::new();
    let ends = each_token(names, |token, taps| {
        tokens.push(post(table, &mut tallies, token, taps));
        Ok(())
    })?;
    Ok(Settled {
        ends,
        tallies,
        parts: vec![tokens],
    })
}
