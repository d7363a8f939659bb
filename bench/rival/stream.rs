//! The way `stream`: a worker draws a file, gathers the taps of some batches by shard, and posts
//! them shard by shard under the shard's lock. Of the files nothing is kept but the history, of 16
//! bytes a tap.

use std::sync::Mutex;

use crate::accounts::{Accounts, Sharding};
use crate::hash::Seed;
use crate::live::{Book, History, Line, Posted};
use crate::memory::Arena;
use crate::reading::{LoadFault, Sink, read_all};
use crate::table::Table;
use crate::tallies::Tallies;
use crate::tap::{Reply, Tap, Token};

/// How many taps are gathered: they stay in the near cache.
const GATHERED: usize = 8192;
const BLOCK: usize = 2 << 20;
/// Entries of a block.
const COUNT: usize = BLOCK / size_of::<Entry>();

/// An entry whose token is known by the place of its account.
#[derive(Clone, Copy)]
#[repr(C, align(16))]
struct Entry {
    place: u32,
    validator: u32,
    reply: Reply,
}

/// A history in blocks that never move.
struct Entries {
    arena: Arena<Entry, COUNT, BLOCK>,
    blocks: Vec<*mut Entry>,
    at: *mut Entry,
    end: *mut Entry,
}

// SAFETY: the list owns its blocks.
unsafe impl Send for Entries {}
// SAFETY: a shared list only reads its blocks.
unsafe impl Sync for Entries {}

impl Entries {
    fn new() -> Entries {
        Entries {
            arena: Arena::new(),
            blocks: Vec::new(),
            at: std::ptr::null_mut(),
            end: std::ptr::null_mut(),
        }
    }

    #[inline(always)]
    fn push(&mut self, entry: Entry) {
        if self.at == self.end {
            self.next_block();
        }
        // SAFETY: `at` is before `end`, in the last block.
        unsafe {
            self.at.write(entry);
            self.at = self.at.add(1);
        }
    }

    #[cold]
    #[inline(never)]
    fn next_block(&mut self) {
        self.at = self.arena.chunk();
        // SAFETY: a block has `COUNT` entries.
        self.end = unsafe { self.at.add(COUNT) };
        self.blocks.push(self.at);
    }
}

impl History for Entries {
    fn lines(&self, accounts: &Accounts, token: Token) -> Vec<Line> {
        let Some(place) = accounts
            .list
            .iter()
            .position(|account| account.token == token)
        else {
            return Vec::new();
        };
        let mut lines = Vec::new();
        for (number, block) in self.blocks.iter().enumerate() {
            let is_last = number + 1 == self.blocks.len();
            // SAFETY: all blocks are full but the last, which is written up to `at`.
            let len = if is_last {
                unsafe { self.at.offset_from(*block) as usize }
            } else {
                COUNT
            };
            let entries = unsafe { std::slice::from_raw_parts(*block, len) };
            for entry in entries.iter().filter(|entry| entry.place == place as u32) {
                lines.push(Line {
                    validator: entry.validator,
                    reply: entry.reply,
                });
            }
        }
        lines
    }
}

/// A shard: its lock has cache lines of its own.
#[repr(align(128))]
struct Shard(Mutex<(Accounts, Entries)>);

struct Gathered<'a> {
    table: &'a Table,
    shards: &'a [Shard],
    sharding: Sharding,
    tallies: Tallies,
    taps: Vec<Vec<Tap>>,
    count: usize,
    /// Where the next round of the shards begins, so that workers are not all at one.
    first: usize,
}

impl Sink for Gathered<'_> {
    #[inline(always)]
    fn push(&mut self, tap: Tap) {
        self.taps[self.sharding.shard(tap.token)].push(tap);
        self.count += 1;
    }

    fn end_batch(&mut self) {
        if self.count >= GATHERED {
            self.post_all();
        }
    }

    fn end(&mut self) {
        self.post_all();
    }
}

impl Gathered<'_> {
    fn post_all(&mut self) {
        let count = self.shards.len();
        let mut held_back = 0u64;
        for number in 0..count {
            let shard = (self.first + number) % count;
            if self.taps[shard].is_empty() {
                continue;
            }
            // What another worker holds comes last.
            match self.shards[shard].0.try_lock() {
                Ok(mut book) => self.post(shard, &mut book),
                Err(_) => held_back |= 1 << shard,
            }
        }
        for shard in (0..count).filter(|shard| held_back >> shard & 1 == 1) {
            let mut book = self.shards[shard].0.lock().unwrap();
            self.post(shard, &mut book);
        }
        self.count = 0;
        self.first = (self.first + 1) % count;
    }

    fn post(&mut self, shard: usize, (accounts, entries): &mut (Accounts, Entries)) {
        let taps = &mut self.taps[shard];
        accounts.post(
            self.table,
            &mut self.tallies,
            taps,
            |tap| *tap,
            |place, tap, reply| {
                entries.push(Entry {
                    place,
                    validator: tap.validator,
                    reply,
                })
            },
        );
        taps.clear();
    }
}

/// Posts all uploads by this many workers.
pub fn run(
    table: &Table,
    seed: Seed,
    names: &[String],
    shards: usize,
    workers: usize,
) -> Result<Posted, (String, LoadFault)> {
    let shards: Vec<Shard> = (0..shards)
        .map(|_| Shard(Mutex::new((Accounts::new(seed), Entries::new()))))
        .collect();
    let (ends, sinks) = read_all(names, workers, |worker| Gathered {
        table,
        shards: &shards,
        sharding: Sharding::new(shards.len()),
        tallies: Tallies::new(seed),
        taps: shards.iter().map(|_| Vec::with_capacity(512)).collect(),
        count: 0,
        first: worker * shards.len() / workers,
    })?;
    let mut tallies = Tallies::new(seed);
    for sink in sinks {
        tallies.join(table, &sink.tallies);
    }
    let books = shards
        .into_iter()
        .map(|shard| {
            let (accounts, entries) = shard.0.into_inner().unwrap();
            let history = Box::new(entries);
            Book { accounts, history }
        })
        .collect();
    Ok(Posted {
        ends,
        books,
        tallies,
    })
}
