//! What both live ways leave: the books of the shards.

use crate::accounts::Accounts;
use crate::end::End;
use crate::tallies::Tallies;
use crate::tap::{Reply, Token};

/// A line of a statement, before its text.
pub struct Line {
    pub validator: u32,
    pub reply: Reply,
}

/// The accounts of a shard and its history.
pub struct Book {
    pub accounts: Accounts,
    pub history: Box<dyn History>,
}

/// The entries of a shard in order.
pub trait History: Send + Sync {
    /// The entries of one token.
    fn lines(&self, accounts: &Accounts, token: Token) -> Vec<Line>;
}

/// All books, the sums of validators, and how the uploads ended.
pub struct Posted {
    pub ends: Vec<End>,
    pub books: Vec<Book>,
    pub tallies: Tallies,
}
