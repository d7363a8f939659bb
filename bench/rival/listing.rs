//! The listing: one line a tap, by one thread, while the uploads are read.

use std::collections::HashMap;
use std::io::Write;

use crate::end::End;
use crate::hash::Seed;
use crate::reading::{LoadFault, Sink, read_all};
use crate::table::Table;
use crate::tap::{Tap, Token};
use crate::text::Text;

/// Bytes of text that are written at once.
const PIECE: usize = 64 << 10;

/// Lists the taps of one upload after another.
struct Lister<'a, W> {
    table: Option<&'a Table>,
    /// The moment of each token's latest known tap, plus one.
    next: &'a mut HashMap<Token, u64, Seed>,
    /// Live, stale, unknown.
    counts: &'a mut [u64; 3],
    upload: usize,
    number: u64,
    text: Text,
    out: &'a mut W,
}

impl<W: Write + Send> Sink for Lister<'_, W> {
    fn push(&mut self, tap: Tap) {
        let word = self.word(&tap);
        self.counts[word] += 1;
        let text = &mut self.text;
        text.number(self.upload as u64)
            .word(" ")
            .number(self.number)
            .word(" ");
        text.token(tap.token)
            .word(" ")
            .number(tap.validator as u64)
            .word(" ")
            .number(tap.moment);
        text.word([" live\n", " stale\n", " unknown\n"][word]);
        self.number += 1;
    }

    fn end_batch(&mut self) {
        if self.text.0.len() >= PIECE {
            self.flush();
        }
    }

    fn end(&mut self) {
        self.flush();
    }
}

impl<W: Write> Lister<'_, W> {
    fn word(&mut self, tap: &Tap) -> usize {
        if self
            .table
            .is_some_and(|table| table.mode_of(tap.validator).is_none())
        {
            return 2;
        }
        let next = self.next.entry(tap.token).or_insert(0);
        if tap.moment < *next {
            return 1;
        }
        *next = tap.moment + 1;
        0
    }

    fn flush(&mut self) {
        if self.out.write_all(&self.text.0).is_err() {
            eprintln!("fault: cannot write");
            crate::memory::exit_now(1);
        }
        self.text.0.clear();
    }
}

/// Writes the listing. What stands before a file that is not loaded is written.
pub fn write(
    table: Option<&Table>,
    seed: Seed,
    names: &[String],
    out: &mut (impl Write + Send),
) -> Result<Vec<End>, (String, LoadFault)> {
    let mut next = HashMap::with_hasher(seed);
    let (mut counts, mut ends) = ([0; 3], Vec::new());
    let mut last = Text(Vec::new());
    for upload in 0..names.len().max(1) {
        let name = names.get(upload..upload + 1).unwrap_or(&[]);
        let lister = std::sync::Mutex::new(Some(Lister {
            table,
            next: &mut next,
            counts: &mut counts,
            upload,
            number: 0,
            text: Text(std::mem::take(&mut last.0)),
            out: &mut *out,
        }));
        let (end, _) = read_all(name, 1, |_| lister.lock().unwrap().take().unwrap())?;
        if let End::Refused { offset, fault, .. } = end[0] {
            last.number(upload as u64).word(" refused ").number(offset);
            last.word(" L").number(fault as u64).word("\n");
        }
        ends.extend(end);
    }
    let [live, stale, unknown] = counts;
    last.word("taps ")
        .number(counts.iter().sum())
        .word(" live ")
        .number(live);
    last.word(" stale ")
        .number(stale)
        .word(" unknown ")
        .number(unknown)
        .word("\n");
    if out.write_all(&last.0).is_err() {
        eprintln!("fault: cannot write");
        crate::memory::exit_now(1);
    }
    Ok(ends)
}
