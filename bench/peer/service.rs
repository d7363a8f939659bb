//! Workers that draw uploads and post them to books, one lock a shard.

use std::sync::Mutex;
use std::sync::atomic::{AtomicUsize, Ordering};
use std::thread;

use crate::book::{Book, Priced};
use crate::end::End;
use crate::layout::{Batch, Tap, Token};
use crate::table::Table;

/// A book in cache lines of its own, so that posting to it does not slow down its neighbours.
#[repr(align(128))]
#[derive(Default)]
struct Shard(Mutex<Book>);

pub struct Service<'a> {
    table: &'a Table,
    uploads: &'a [Vec<u8>],
    drawn: AtomicUsize,
    books: Vec<Shard>,
}

impl<'a> Service<'a> {
    pub fn open(table: &'a Table, shards: u32, uploads: &'a [Vec<u8>]) -> Service<'a> {
        let books = (0..shards).map(|_| Shard::default()).collect();
        Service {
            table,
            uploads,
            drawn: AtomicUsize::new(0),
            books,
        }
    }

    /// Posts all uploads by `workers` threads: the books, and how each upload ended.
    pub fn run(self, workers: u32) -> (Vec<Book>, Vec<End>) {
        let mut ends = vec![End::Posted { taps: 0 }; self.uploads.len()];
        thread::scope(|scope| {
            let others: Vec<_> = (1..workers).map(|_| scope.spawn(|| self.work())).collect();
            let mine = self.work();
            let theirs = others.into_iter().flat_map(|other| other.join().unwrap());
            for (upload, end) in mine.into_iter().chain(theirs) {
                ends[upload] = end;
            }
        });
        let books = self
            .books
            .into_iter()
            .map(|shard| shard.0.into_inner().unwrap())
            .collect();
        (books, ends)
    }

    /// One worker: draws and posts uploads until none is left.
    fn work(&self) -> Vec<(usize, End)> {
        let mut ends = Vec::new();
        let mut runs = Runs::new(self.books.len());
        loop {
            let upload = self.drawn.fetch_add(1, Ordering::Relaxed);
            let Some(file) = self.uploads.get(upload) else {
                return ends;
            };
            ends.push((upload, self.post(file, &mut runs)));
        }
    }

    fn post(&self, file: &[u8], runs: &mut Runs) -> End {
        let mut rest = file;
        let mut taps = 0;
        while !rest.is_empty() {
            let batch;
            let offset = file.len() - rest.len();
            (batch, rest) = match Batch::first(rest) {
                Ok(first) => first,
                Err(fault) => {
                    return End::Refused {
                        taps,
                        offset: offset as u64,
                        fault,
                    };
                }
            };
            runs.cut(&batch, self.table);
            for (shard, Shard(book)) in self.books.iter().enumerate() {
                let run = runs.of(shard);
                if !run.is_empty() {
                    book.lock().unwrap().post(self.table, run);
                }
            }
            taps += batch.len() as u64;
        }
        End::Posted { taps }
    }
}

/// The taps of one batch sorted by shard, in order within each shard. Kept from batch to batch.
struct Runs {
    taps: Vec<Priced>,
    ends: Vec<usize>,
}

impl Runs {
    fn new(shards: usize) -> Runs {
        Runs {
            taps: Vec::new(),
            ends: vec![0; shards + 1],
        }
    }

    /// One counting sort: counts, then places.
    fn cut(&mut self, batch: &Batch, table: &Table) {
        let shards = self.ends.len() as u32 - 1;
        self.ends.fill(0);
        batch.for_each(|tap| self.ends[tap.token.shard(shards) as usize + 1] += 1);
        for shard in 1..self.ends.len() {
            self.ends[shard] += self.ends[shard - 1];
        }
        let empty = Tap {
            token: Token { high: 0, low: 0 },
            moment: 0,
            validator: 0,
        };
        self.taps.resize(
            batch.len(),
            Priced {
                tap: empty,
                mode: None,
            },
        );
        // Each start moves to its run's end, which is the next run's start.
        batch.for_each(|tap| {
            let place = &mut self.ends[tap.token.shard(shards) as usize];
            self.taps[*place] = Priced {
                tap,
                mode: table.mode_of(tap.validator),
            };
            *place += 1;
        });
    }

    fn of(&self, shard: usize) -> &[Priced] {
        let start = if shard == 0 { 0 } else { self.ends[shard - 1] };
        &self.taps[start..self.ends[shard]]
    }
}
