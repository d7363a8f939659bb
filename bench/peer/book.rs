//! The accounts and the history of one shard, and the sums of a history.

use std::collections::HashMap;

use crate::account::{Account, Answer};
use crate::layout::{Entry, Tap, Token};
use crate::table::Table;

/// A tap with the mode of its validator, looked up before the shard is locked.
#[derive(Clone, Copy)]
pub struct Priced {
    pub tap: Tap,
    pub mode: Option<u8>,
}

#[derive(Default)]
pub struct Book {
    pub accounts: HashMap<Token, Account>,
    pub entries: Vec<Entry>,
}

impl Book {
    /// Posts taps of this shard in their order.
    pub fn post(&mut self, table: &Table, taps: &[Priced]) {
        self.entries.reserve(taps.len());
        for Priced { tap, mode } in taps {
            let account = self
                .accounts
                .entry(tap.token)
                .or_insert_with(|| Account::fresh(table.class_of(tap.token)));
            let (answer, cents) = account.step(table, *mode, tap.moment);
            self.entries.push(Entry {
                token: tap.token,
                moment: tap.moment,
                validator: tap.validator,
                cents,
                answer,
            });
        }
    }
}

#[derive(Clone, Copy, Default)]
pub struct Sums {
    pub taps: u64,
    pub paid: u64,
    pub transfers: u64,
    pub capped: u64,
    pub stale: u64,
    pub unknown: u64,
    pub cents: u64,
}

impl Sums {
    pub fn add(&mut self, entry: &Entry) {
        self.taps += 1;
        self.cents += entry.cents as u64;
        match entry.answer {
            Answer::Paid => self.paid += 1,
            Answer::Transfer => self.transfers += 1,
            Answer::Capped => self.capped += 1,
            Answer::Stale => self.stale += 1,
            Answer::Unknown => self.unknown += 1,
        }
    }

    fn join(&mut self, other: &Sums) {
        self.taps += other.taps;
        self.paid += other.paid;
        self.transfers += other.transfers;
        self.capped += other.capped;
        self.stale += other.stale;
        self.unknown += other.unknown;
        self.cents += other.cents;
    }
}

/// The sums of all books: over all taps, by validator and by token, both rising.
pub struct Summary {
    pub totals: Sums,
    pub validators: Vec<(u32, Sums)>,
    pub tokens: Vec<(Token, Sums)>,
}

/// One pass over each history, then sorting.
pub fn summary(books: &[Book]) -> Summary {
    let mut by_validator: HashMap<u32, Sums> = HashMap::new();
    let mut tokens = Vec::with_capacity(books.iter().map(|book| book.accounts.len()).sum());
    for book in books {
        let mut by_token: HashMap<Token, Sums> = HashMap::with_capacity(book.accounts.len());
        for entry in &book.entries {
            by_validator.entry(entry.validator).or_default().add(entry);
            by_token.entry(entry.token).or_default().add(entry);
        }
        tokens.extend(by_token);
    }
    tokens.sort_unstable_by_key(|(token, _)| *token);
    let mut validators: Vec<(u32, Sums)> = by_validator.into_iter().collect();
    validators.sort_unstable_by_key(|(validator, _)| *validator);
    let mut totals = Sums::default();
    validators.iter().for_each(|(_, sums)| totals.join(sums));
    Summary {
        totals,
        validators,
        tokens,
    }
}
