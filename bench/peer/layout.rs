//! Tap batches in bytes: both layouts, and the first fault of a batch.

use crate::account::Answer;
use crate::end::Fault;

/// The name of a card or device: its sixteen bytes as two big-endian halves,
/// so that order and equality are those of the bytes.
#[derive(Clone, Copy, PartialEq, Eq, PartialOrd, Ord, Hash, Debug)]
pub struct Token {
    pub high: u64,
    pub low: u64,
}

impl Token {
    pub fn of(bytes: &[u8]) -> Token {
        Token {
            high: number(&bytes[..8]),
            low: number(&bytes[8..16]),
        }
    }

    /// The number in the last two bytes modulo `shards`.
    pub fn shard(self, shards: u32) -> u32 {
        (self.low as u16 as u32) % shards
    }
}

fn number(bytes: &[u8]) -> u64 {
    u64::from_be_bytes(bytes.try_into().unwrap())
}

/// One line of a history.
#[derive(Clone, Copy)]
pub struct Entry {
    pub token: Token,
    pub moment: u64,
    pub validator: u32,
    pub cents: u32,
    pub answer: Answer,
}

#[derive(Clone, Copy)]
pub struct Tap {
    pub token: Token,
    pub moment: u64,
    pub validator: u32,
}

const MOMENT_LIMIT: u64 = 4_102_444_800_000;

/// A batch whose layout was checked.
pub struct Batch<'a> {
    /// The validator of all taps, in the layout that has one.
    validator: Option<u32>,
    records: &'a [u8],
}

impl<'a> Batch<'a> {
    /// The first batch of `bytes`, and the bytes after it.
    pub fn first(bytes: &'a [u8]) -> Result<(Batch<'a>, &'a [u8]), Fault> {
        let second = bytes.starts_with(b"TAP2");
        let header = if second { 12 } else { 8 };
        let record = if second { 24 } else { 28 };
        if bytes.len() < header {
            return Err(Fault::Short);
        }
        if !second && !bytes.starts_with(b"TAP1") {
            return Err(Fault::Magic);
        }
        let count = u16::from_be_bytes([bytes[4], bytes[5]]) as usize;
        if bytes[6] != 0 || bytes[7] != 0 {
            return Err(Fault::Flags);
        }
        if count > 4096 {
            return Err(Fault::TooMany);
        }
        let want = header + record * count;
        if bytes.len() < want {
            return Err(Fault::Length);
        }
        let (whole, rest) = bytes.split_at(want);
        let records = &whole[header..];
        let late = |tap: &[u8]| number(&tap[record - 8..]) >= MOMENT_LIMIT;
        if records.chunks_exact(record).any(late) {
            return Err(Fault::Moment);
        }
        let validator = second.then(|| u32::from_be_bytes(bytes[8..12].try_into().unwrap()));
        Ok((Batch { validator, records }, rest))
    }

    pub fn len(&self) -> usize {
        self.records.len() / if self.validator.is_some() { 24 } else { 28 }
    }

    /// Calls `each` on every tap in order.
    pub fn for_each(&self, mut each: impl FnMut(Tap)) {
        match self.validator {
            None => {
                for record in self.records.chunks_exact(28) {
                    each(Tap {
                        token: Token::of(record),
                        moment: number(&record[20..28]),
                        validator: u32::from_be_bytes(record[16..20].try_into().unwrap()),
                    });
                }
            }
            Some(validator) => {
                for record in self.records.chunks_exact(24) {
                    let token = Token::of(record);
                    each(Tap {
                        token,
                        moment: number(&record[16..24]),
                        validator,
                    });
                }
            }
        }
    }
}
