//! The way `shards`: all files are read first, straight into entries of 32 bytes in runs by shard.
//! Then one worker a shard goes over its runs in the order of the uploads, and writes the replies
//! in place. No lock, and the result does not depend on timing.

use std::sync::Mutex;
use std::sync::atomic::{AtomicUsize, Ordering};

use crate::accounts::{Accounts, Sharding};
use crate::hash::Seed;
use crate::live::{Book, History, Line, Posted};
use crate::memory::Arena;
use crate::reading::{LoadFault, Sink, read_all};
use crate::table::Table;
use crate::tallies::{Tallies, by_workers};
use crate::tap::{Answer, Reply, Tap, Token};

/// Entries of a chunk.
const CHUNK: usize = 1024;
const BLOCK: usize = 8 << 20;

/// A tap, and its reply once it is posted.
#[derive(Clone, Copy)]
#[repr(C, align(32))]
struct Entry {
    token: Token,
    reply: Reply,
    validator: u32,
}

/// Entries of one shard that lie side by side. Their reader wrote them, and the poster of the shard
/// alone changes them.
struct Run {
    at: *mut Entry,
    len: usize,
}

// SAFETY: a run is the only one over its entries.
unsafe impl Send for Run {}
// SAFETY: a shared run is only read.
unsafe impl Sync for Run {}

/// The runs of one shard in the order of its history.
struct Runs(Vec<Run>);

impl History for Runs {
    fn lines(&self, _accounts: &Accounts, token: Token) -> Vec<Line> {
        let mut lines = Vec::new();
        for run in &self.0 {
            // SAFETY: a run's entries are all written.
            let entries = unsafe { std::slice::from_raw_parts(run.at, run.len) };
            for entry in entries.iter().filter(|entry| entry.token == token) {
                lines.push(Line {
                    validator: entry.validator,
                    reply: entry.reply,
                });
            }
        }
        lines
    }
}

/// Where the next entry of a shard goes, and the runs that were ended.
struct Writer {
    start: *mut Entry,
    at: *mut Entry,
    end: *mut Entry,
    runs: Vec<Run>,
}

impl Writer {
    fn new() -> Writer {
        let none = std::ptr::null_mut();
        Writer {
            start: none,
            at: none,
            end: none,
            runs: Vec::new(),
        }
    }

    /// The runs since the last call.
    fn take(&mut self) -> Vec<Run> {
        if self.at != self.start {
            // SAFETY: both are in one chunk.
            let len = unsafe { self.at.offset_from(self.start) } as usize;
            self.runs.push(Run {
                at: self.start,
                len,
            });
            self.start = self.at;
        }
        std::mem::take(&mut self.runs)
    }
}

/// What a thread reads: the runs of each shard, for each group of uploads.
struct Kept {
    sharding: Sharding,
    arena: Arena<Entry, CHUNK, BLOCK>,
    writers: Vec<Writer>,
    groups: Vec<(usize, Vec<Vec<Run>>)>,
}

// SAFETY: its writers own their chunks.
unsafe impl Send for Kept {}

impl Sink for Kept {
    #[inline(always)]
    fn push(&mut self, tap: Tap) {
        let shard = self.sharding.shard(tap.token);
        if self.writers[shard].at == self.writers[shard].end {
            self.next_chunk(shard);
        }
        let writer = &mut self.writers[shard];
        // SAFETY: `at` is before `end`, in a chunk that is this writer's alone.
        unsafe {
            writer.at.write(Entry {
                token: tap.token,
                reply: Reply::new(tap.moment, Answer::Paid, 0),
                validator: tap.validator,
            });
            writer.at = writer.at.add(1);
        }
    }

    fn end_group(&mut self, first: usize) {
        let runs = self.writers.iter_mut().map(Writer::take).collect();
        self.groups.push((first, runs));
    }
}

impl Kept {
    #[cold]
    #[inline(never)]
    fn next_chunk(&mut self, shard: usize) {
        let writer = &mut self.writers[shard];
        let runs = writer.take();
        writer.runs = runs;
        writer.start = self.arena.chunk();
        writer.at = writer.start;
        // SAFETY: a chunk has that many entries.
        writer.end = unsafe { writer.at.add(CHUNK) };
    }
}

/// Reads all uploads by `threads` threads, and posts them by this many workers.
pub fn run(
    table: &Table,
    seed: Seed,
    names: &[String],
    shards: usize,
    (threads, workers): (usize, usize),
) -> Result<Posted, (String, LoadFault)> {
    let (ends, sinks) = read_all(names, threads, |_| Kept {
        sharding: Sharding::new(shards),
        arena: Arena::new(),
        writers: (0..shards).map(|_| Writer::new()).collect(),
        groups: Vec::new(),
    })?;
    let mut groups: Vec<_> = sinks.into_iter().flat_map(|sink| sink.groups).collect();
    groups.sort_unstable_by_key(|(first, _)| *first);
    let mut runs: Vec<Runs> = (0..shards).map(|_| Runs(Vec::new())).collect();
    for (_, group) in groups {
        for (runs, more) in runs.iter_mut().zip(group) {
            runs.0.extend(more);
        }
    }
    let (books, tallies) = post(table, seed, runs, workers);
    Ok(Posted {
        ends,
        books,
        tallies,
    })
}

/// Posts the runs of all shards, a shard at a time.
fn post(table: &Table, seed: Seed, runs: Vec<Runs>, workers: usize) -> (Vec<Book>, Tallies) {
    let drawn = AtomicUsize::new(0);
    let books: Vec<Mutex<(Accounts, Runs)>> = runs
        .into_iter()
        .map(|runs| Mutex::new((Accounts::new(seed), runs)))
        .collect();
    let work = || {
        let mut tallies = Tallies::new(seed);
        while let Some(book) = books.get(drawn.fetch_add(1, Ordering::Relaxed)) {
            let (accounts, runs) = &mut *book.lock().unwrap();
            for run in &mut runs.0 {
                // SAFETY: this worker alone has the shard, and the readers are done.
                let entries = unsafe { std::slice::from_raw_parts_mut(run.at, run.len) };
                accounts.post(table, &mut tallies, entries, tap_of, |_, entry, reply| {
                    entry.reply = reply
                });
            }
        }
        tallies
    };
    let tallies = by_workers(table, workers.min(books.len()), work);
    let books = books
        .into_iter()
        .map(|book| {
            let (accounts, runs) = book.into_inner().unwrap();
            let history = Box::new(runs);
            Book { accounts, history }
        })
        .collect();
    (books, tallies)
}

#[inline(always)]
fn tap_of(entry: &Entry) -> Tap {
    Tap {
        token: entry.token,
        moment: entry.reply.moment(),
        validator: entry.validator,
    }
}
