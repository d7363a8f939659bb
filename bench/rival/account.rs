//! The account of a token, and its step for one tap.

use crate::table::{Table, Terms};
use crate::tap::{Answer, Token};

const TWO_HOURS: u64 = 7_200_000;
const SEVEN_DAYS: u64 = 604_800_000;

/// The mode of a validator that the table does not know.
pub const NO_MODE: u8 = 63;

/// A token's account and the counts of its answers, in one line of the cache.
#[derive(Clone, Copy)]
#[repr(C, align(64))]
pub struct Account {
    pub token: Token,
    /// The moment of the last live tap, plus one; 0 before the first.
    next: u64,
    pub window_start: u64,
    pub window_end: u64,
    /// The lower 32 bits of all cents: `Accounts` counts what is above.
    pub cents: u32,
    pub window_cents: u32,
    /// The lower 16 bits of each answer's count: `Accounts` counts what is above.
    pub counts: [u16; 5],
    /// Paid rides of the window. A capped ride is followed by capped ones alone, so this is the
    /// place of the next ride.
    pub window_paid: u16,
    class: u16,
    mode: u8,
    /// Whether the last live tap was a ride, as a number.
    ride: u8,
}

const _: () = assert!(size_of::<Account>() == 64);

impl Account {
    /// The account before the first tap.
    #[inline(always)]
    pub fn new(table: &Table, token: Token) -> Account {
        Account {
            token,
            next: 0,
            window_start: 0,
            window_end: 0,
            cents: 0,
            window_cents: 0,
            counts: [0; 5],
            window_paid: 0,
            class: table.class_of(token),
            mode: 0,
            ride: 0,
        }
    }

    /// Whether there was a live tap, and so a window.
    pub fn has_window(&self) -> bool {
        self.next != 0
    }

    /// The moment of the last live tap, if there was one.
    pub fn last_live(&self) -> u64 {
        self.next.wrapping_sub(1)
    }

    /// The place of the class.
    pub fn class(&self) -> u16 {
        self.class
    }

    /// Answer and cents of the next tap. No processor guesses which answer a live tap gets, so it
    /// is worked out without a branch.
    #[inline(always)]
    pub fn step(&mut self, table: &Table, mode: u8, moment: u64) -> (Answer, u32) {
        if mode == NO_MODE {
            return (Answer::Unknown, 0);
        }
        if moment < self.next {
            return (Answer::Stale, 0);
        }
        let since = moment.wrapping_sub(self.next.wrapping_sub(1));
        let transfer = (self.ride != 0) & (since <= TWO_HOURS) & table.permits(self.mode, mode);
        self.next = moment + 1;
        self.mode = mode;
        self.ride = !transfer as u8;
        let opens = !transfer & (moment >= self.window_end);
        self.window_start = if opens { moment } else { self.window_start };
        self.window_end = if opens {
            moment + SEVEN_DAYS
        } else {
            self.window_end
        };
        let paid = if opens { 0 } else { self.window_paid };
        let before = if opens { 0 } else { self.window_cents };
        let price = price(table.class(self.class), paid);
        let cents = if transfer { 0 } else { price };
        self.window_paid = paid + (cents != 0) as u16;
        self.window_cents = before + cents;
        let answer = if transfer {
            Answer::Transfer
        } else if cents == 0 {
            Answer::Capped
        } else {
            Answer::Paid
        };
        (answer, cents)
    }
}

/// What a ride at this place of its window costs.
#[inline(always)]
fn price(terms: &Terms, place: u16) -> u32 {
    let before = place as u64 * terms.fare as u64;
    let left = (terms.ceiling as u64).saturating_sub(before);
    let price = (terms.fare as u64).min(left) as u32;
    if place as u32 >= terms.rides {
        0
    } else {
        price
    }
}
