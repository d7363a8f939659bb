//! The validators that a thread met, with their modes and sums: one look-up a tap gives both.

use std::thread;

use crate::account::NO_MODE;
use crate::hash::Seed;
use crate::memory::prefetch;
use crate::table::Table;
use crate::tap::{Answer, Sums};

/// A validator's sums, in half a line of the cache.
#[derive(Clone, Copy)]
#[repr(C, align(32))]
struct Tally {
    cents: u64,
    counts: [u32; 5],
}

/// An open-addressing index over the validators.
pub struct Tallies {
    seed: Seed,
    /// `validator << 32 | place + 1`, 0 if there is none.
    slots: Vec<u64>,
    mask: usize,
    tallies: Vec<Tally>,
    validators: Vec<u32>,
    /// Apart, so that they stay in the nearest cache.
    modes: Vec<u8>,
}

impl Tallies {
    pub fn new(seed: Seed) -> Tallies {
        Tallies {
            seed,
            slots: vec![0; 4096],
            mask: 4095,
            tallies: Vec::new(),
            validators: Vec::new(),
            modes: Vec::new(),
        }
    }

    /// Prefetch: the slot at which the validator is looked up first.
    #[inline(always)]
    pub fn prefetch_slot(&self, validator: u32) {
        let at = self.seed.validator(validator) as usize & self.mask;
        prefetch(self.slots.as_ptr().wrapping_add(at));
    }

    /// Prefetch: the sums at a place.
    #[inline(always)]
    pub fn prefetch_sums(&self, place: u32) {
        prefetch(self.tallies.as_ptr().wrapping_add(place as usize));
    }

    /// The place of a validator, which is made if there is none.
    #[inline(always)]
    pub fn place(&mut self, table: &Table, validator: u32) -> u32 {
        let mut at = self.seed.validator(validator) as usize & self.mask;
        loop {
            let slot = self.slots[at];
            if (slot >> 32) as u32 == validator && slot != 0 {
                return slot as u32 - 1;
            }
            if slot == 0 {
                return self.add(table, validator);
            }
            at = (at + 1) & self.mask;
        }
    }

    /// The mode of the validator at a place, or `NO_MODE`.
    #[inline(always)]
    pub fn mode(&self, place: u32) -> u8 {
        self.modes[place as usize]
    }

    /// Counts an answer of the validator at a place.
    #[inline(always)]
    pub fn count(&mut self, place: u32, answer: Answer, cents: u32) {
        let tally = &mut self.tallies[place as usize];
        tally.counts[answer as usize] += 1;
        tally.cents += cents as u64;
    }

    /// Adds what another thread counted.
    pub fn join(&mut self, table: &Table, other: &Tallies) {
        for (validator, more) in other.validators.iter().zip(&other.tallies) {
            let place = self.place(table, *validator) as usize;
            let into = &mut self.tallies[place];
            for (count, more) in into.counts.iter_mut().zip(more.counts) {
                *count += more;
            }
            into.cents += more.cents;
        }
    }

    /// The validators, rising, with their sums.
    pub fn sums(&self) -> Vec<(u32, Sums)> {
        let sums = |tally: &Tally| Sums {
            counts: tally.counts.map(u64::from),
            cents: tally.cents,
        };
        let mut list: Vec<_> = self
            .validators
            .iter()
            .copied()
            .zip(self.tallies.iter().map(sums))
            .collect();
        list.sort_unstable_by_key(|(validator, _)| *validator);
        list
    }

    #[cold]
    #[inline(never)]
    fn add(&mut self, table: &Table, validator: u32) -> u32 {
        if (self.tallies.len() + 1) * 3 > self.mask {
            self.mask = self.mask * 2 + 1;
            self.slots = vec![0; self.mask + 1];
            for place in 0..self.tallies.len() {
                self.put(self.validators[place], place);
            }
        }
        let place = self.tallies.len();
        self.tallies.push(Tally {
            cents: 0,
            counts: [0; 5],
        });
        self.validators.push(validator);
        self.modes.push(table.mode_of(validator).unwrap_or(NO_MODE));
        self.put(validator, place);
        place as u32
    }

    fn put(&mut self, validator: u32, place: usize) {
        let mut at = self.seed.validator(validator) as usize & self.mask;
        while self.slots[at] != 0 {
            at = (at + 1) & self.mask;
        }
        self.slots[at] = (validator as u64) << 32 | (place as u64 + 1);
    }
}

/// What this many workers count together, of whom the caller's thread is one.
pub fn by_workers(table: &Table, workers: usize, work: impl Fn() -> Tallies + Sync) -> Tallies {
    thread::scope(|scope| {
        let others: Vec<_> = (1..workers).map(|_| scope.spawn(&work)).collect();
        let mut tallies = work();
        for other in others {
            tallies.join(table, &other.join().unwrap());
        }
        tallies
    })
}
