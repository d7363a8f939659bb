//! The accounts of one shard: an index by hash, and the posting of taps, some side by side.

use std::collections::HashMap;

use crate::account::Account;
use crate::hash::Seed;
use crate::memory::prefetch;
use crate::table::Table;
use crate::tallies::Tallies;
use crate::tap::{Answer, Reply, Sums, Tap, Token};

/// How many taps are looked up side by side.
const AT_ONCE: usize = 32;

/// Which shard a token falls to: its last two bytes modulo the shards, without a division.
#[derive(Clone, Copy)]
pub struct Sharding {
    shards: u64,
    /// `2^32 / shards`, rounded up.
    inverse: u64,
}

impl Sharding {
    pub fn new(shards: usize) -> Sharding {
        Sharding {
            shards: shards as u64,
            inverse: (1u64 << 32).div_ceil(shards as u64),
        }
    }

    #[inline(always)]
    pub fn shard(self, token: Token) -> usize {
        let last = token.low as u16 as u64;
        (last - ((last * self.inverse) >> 32) * self.shards) as usize
    }
}

/// The accounts of one shard.
pub struct Accounts {
    seed: Seed,
    /// The upper half of the hash, and a place plus one; 0 if there is none.
    slots: Vec<u64>,
    mask: usize,
    pub list: Vec<Account>,
    /// What of an account's counts is past 16 bits, and of its cents past 32.
    spilled: HashMap<u32, Sums>,
}

impl Accounts {
    pub fn new(seed: Seed) -> Accounts {
        Accounts {
            seed,
            slots: vec![0; 1024],
            mask: 1023,
            list: Vec::with_capacity(512),
            spilled: HashMap::new(),
        }
    }

    /// Posts taps in order. `keep` is given the account's place, the tap's number among them, and
    /// the reply.
    #[inline(always)]
    pub fn post<T>(
        &mut self,
        table: &Table,
        tallies: &mut Tallies,
        items: &mut [T],
        tap: impl Fn(&T) -> Tap,
        mut keep: impl FnMut(u32, &mut T, Reply),
    ) {
        let mut hashes = [0; AT_ONCE];
        let mut places = [0; AT_ONCE];
        let mut validators = [0; AT_ONCE];
        for group in items.chunks_mut(AT_ONCE) {
            for (hash, item) in hashes.iter_mut().zip(group.iter()) {
                *hash = self.seed.token(tap(item).token);
                prefetch(self.slots.as_ptr().wrapping_add(*hash as usize & self.mask));
            }
            for (number, item) in group.iter().enumerate() {
                let tap = tap(item);
                places[number] = self.place(table, tap.token, hashes[number]);
                prefetch(self.list.as_ptr().wrapping_add(places[number] as usize));
                validators[number] = tallies.place(table, tap.validator);
            }
            for (number, item) in group.iter_mut().enumerate() {
                let tap = tap(item);
                let mut place = places[number];
                if self.list[place as usize].token != tap.token {
                    place = self.sure_place(table, tap.token);
                }
                let validator = validators[number];
                let account = &mut self.list[place as usize];
                let (answer, cents) = account.step(table, tallies.mode(validator), tap.moment);
                tallies.count(validator, answer, cents);
                keep(place, item, Reply::new(tap.moment, answer, cents));
                let count = account.counts[answer as usize].wrapping_add(1);
                account.counts[answer as usize] = count;
                let (sum, carries) = account.cents.overflowing_add(cents);
                account.cents = sum;
                if (count == 0) | carries {
                    self.spill(place, answer, count == 0, carries);
                }
            }
        }
    }

    /// The sums of the account at a place.
    pub fn sums(&self, place: usize) -> Sums {
        let account = &self.list[place];
        let mut sums = Sums {
            counts: account.counts.map(u64::from),
            cents: account.cents as u64,
        };
        if !self.spilled.is_empty()
            && let Some(more) = self.spilled.get(&(place as u32))
        {
            sums.add(more);
        }
        sums
    }

    /// The first place whose hash fits, where the token's account is unless hashes meet. It is made
    /// if there is none.
    #[inline(always)]
    fn place(&mut self, table: &Table, token: Token, hash: u64) -> u32 {
        let mut at = hash as usize & self.mask;
        loop {
            let slot = self.slots[at];
            if slot == 0 {
                return self.open(table, token, hash);
            }
            if slot >> 32 == hash >> 32 {
                return slot as u32 - 1;
            }
            at = (at + 1) & self.mask;
        }
    }

    /// The place of the token's account: the accounts themselves are looked at.
    #[cold]
    #[inline(never)]
    fn sure_place(&mut self, table: &Table, token: Token) -> u32 {
        let hash = self.seed.token(token);
        let mut at = hash as usize & self.mask;
        loop {
            let slot = self.slots[at];
            if slot == 0 {
                return self.open(table, token, hash);
            }
            if slot >> 32 == hash >> 32 && self.list[slot as u32 as usize - 1].token == token {
                return slot as u32 - 1;
            }
            at = (at + 1) & self.mask;
        }
    }

    #[inline(never)]
    fn open(&mut self, table: &Table, token: Token, hash: u64) -> u32 {
        if self.list.len() * 2 > self.mask {
            self.mask = self.mask * 4 + 3;
            self.slots = vec![0; self.mask + 1];
            for place in 0..self.list.len() {
                self.put(self.seed.token(self.list[place].token), place);
            }
        }
        let place = self.list.len();
        self.list.push(Account::new(table, token));
        self.put(hash, place);
        place as u32
    }

    fn put(&mut self, hash: u64, place: usize) {
        let mut at = hash as usize & self.mask;
        while self.slots[at] != 0 {
            at = (at + 1) & self.mask;
        }
        self.slots[at] = hash >> 32 << 32 | (place as u64 + 1);
    }

    #[cold]
    #[inline(never)]
    fn spill(&mut self, place: u32, answer: Answer, counts: bool, cents: bool) {
        let spilled = self.spilled.entry(place).or_default();
        spilled.counts[answer as usize] += (counts as u64) << 16;
        spilled.cents += (cents as u64) << 32;
    }
}
