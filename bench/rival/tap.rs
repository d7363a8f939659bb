//! Tokens, taps with their answers, and sums.

/// The name of a card or device: its sixteen bytes as two numbers whose order is that of the bytes.
#[derive(Clone, Copy, PartialEq, Eq, PartialOrd, Ord, Debug, Default)]
pub struct Token {
    /// The first eight bytes.
    pub high: u64,
    /// The last eight bytes.
    pub low: u64,
}

impl Token {
    /// The token in the first sixteen bytes.
    #[inline(always)]
    pub fn of(bytes: &[u8]) -> Token {
        Token {
            high: u64::from_be_bytes(bytes[..8].try_into().unwrap()),
            low: u64::from_be_bytes(bytes[8..16].try_into().unwrap()),
        }
    }
}

/// What the account rule replies to a tap.
#[derive(Clone, Copy, PartialEq, Eq, Debug)]
#[repr(u8)]
pub enum Answer {
    Paid,
    Transfer,
    Capped,
    Stale,
    Unknown,
}

impl Answer {
    /// All answers, each at its own number.
    pub const ALL: [Answer; 5] = [
        Answer::Paid,
        Answer::Transfer,
        Answer::Capped,
        Answer::Stale,
        Answer::Unknown,
    ];

    /// The word of statements.
    pub fn word(self) -> &'static str {
        match self {
            Answer::Paid => "paid",
            Answer::Transfer => "transfer",
            Answer::Capped => "capped",
            Answer::Stale => "stale",
            Answer::Unknown => "unknown",
        }
    }
}

/// A tap of an upload.
#[derive(Clone, Copy)]
pub struct Tap {
    pub token: Token,
    /// Milliseconds since 1970, below 2^42.
    pub moment: u64,
    pub validator: u32,
}

/// Moment (42 bits), answer (3) and cents (17: a fare is at most 100,000) in one word.
#[derive(Clone, Copy)]
#[repr(transparent)]
pub struct Reply(u64);

impl Reply {
    #[inline(always)]
    pub fn new(moment: u64, answer: Answer, cents: u32) -> Reply {
        Reply(moment | (answer as u64) << 42 | (cents as u64) << 45)
    }

    pub fn moment(self) -> u64 {
        self.0 & ((1 << 42) - 1)
    }

    pub fn answer(self) -> Answer {
        Answer::ALL[(self.0 >> 42 & 7) as usize]
    }

    pub fn cents(self) -> u32 {
        (self.0 >> 45) as u32
    }
}

/// The numbers of a report's line.
#[derive(Clone, Copy, Default)]
pub struct Sums {
    /// How often each answer was given, in the order of `Answer::ALL`.
    pub counts: [u64; 5],
    pub cents: u64,
}

impl Sums {
    /// Adds the sums of other taps.
    pub fn add(&mut self, other: &Sums) {
        for (count, more) in self.counts.iter_mut().zip(other.counts) {
            *count += more;
        }
        self.cents += other.cents;
    }
}
