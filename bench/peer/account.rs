//! The rules of one account: rides, transfers, windows of seven days, caps.

use crate::table::{Table, Terms};

#[derive(Clone, Copy, PartialEq, Eq, Debug)]
pub enum Answer {
    Paid,
    Transfer,
    Capped,
    Stale,
    Unknown,
}

const TWO_HOURS: u64 = 7_200_000;
const SEVEN_DAYS: u64 = 604_800_000;
const NO_MODE: u8 = u8::MAX;

/// What the rules need of a token's earlier taps. 40 bytes.
#[derive(Clone, Copy)]
pub struct Account {
    /// Moment of the last live tap.
    last: u64,
    start: u64,
    until: u64,
    paid: u32,
    cents: u32,
    /// Place of the class in the table, looked up once.
    class: u16,
    /// Mode of the last live tap, `NO_MODE` before the first.
    mode: u8,
    /// Whether the last live tap was a ride, so that it may give a transfer.
    ride: bool,
}

/// The last window of an account.
pub struct Window {
    pub start: u64,
    pub until: u64,
    pub paid: u32,
    pub cents: u32,
}

impl Account {
    pub fn fresh(class: u16) -> Account {
        Account {
            last: 0,
            start: 0,
            until: 0,
            paid: 0,
            cents: 0,
            class,
            mode: NO_MODE,
            ride: false,
        }
    }

    /// Posts one tap: the answer and the cents that are charged. `mode` is that of the tap's validator.
    pub fn step(&mut self, table: &Table, mode: Option<u8>, moment: u64) -> (Answer, u32) {
        let Some(mode) = mode else {
            return (Answer::Unknown, 0);
        };
        let seen = self.mode != NO_MODE;
        if seen && moment <= self.last {
            return (Answer::Stale, 0);
        }
        let transfer =
            self.ride && moment - self.last <= TWO_HOURS && table.permits(self.mode, mode);
        self.last = moment;
        self.mode = mode;
        self.ride = !transfer;
        if transfer {
            return (Answer::Transfer, 0);
        }
        if !seen || moment >= self.until {
            self.start = moment;
            self.until = moment + SEVEN_DAYS;
            self.paid = 0;
            self.cents = 0;
        }
        let charge = charge(table.class(self.class), self.paid);
        if charge == 0 {
            return (Answer::Capped, 0);
        }
        self.paid += 1;
        self.cents += charge;
        (Answer::Paid, charge)
    }

    pub fn window(&self) -> Option<Window> {
        (self.mode != NO_MODE).then_some(Window {
            start: self.start,
            until: self.until,
            paid: self.paid,
            cents: self.cents,
        })
    }
}

/// What ride `place` of a window costs: nothing once the rides or the ceiling are reached.
fn charge(terms: &Terms, place: u32) -> u32 {
    let before = place as u64 * terms.fare as u64;
    if place >= terms.rides || before >= terms.ceiling as u64 {
        0
    } else {
        terms.fare.min((terms.ceiling as u64 - before) as u32)
    }
}
