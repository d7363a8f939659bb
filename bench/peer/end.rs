//! How an upload ends, in the peer and in the rival.

/// The first check of a batch that fails: `L1` to `L6`.
#[derive(Clone, Copy, PartialEq, Eq, Debug)]
pub enum Fault {
    /// Fewer bytes than a header.
    Short = 1,
    /// The first bytes are those of no layout.
    Magic,
    /// A flag is set.
    Flags,
    /// More taps than a batch may have.
    TooMany,
    /// Fewer bytes than the header counts.
    Length,
    /// A tap's moment is past the limit.
    Moment,
}

/// How an upload ended.
#[derive(Clone, Copy)]
pub enum End {
    /// All of it was posted.
    Posted {
        /// How many taps it has.
        taps: u64,
    },
    /// A batch is faulty. Those before it were posted.
    Refused {
        /// How many taps were posted.
        taps: u64,
        /// Bytes before the faulty batch.
        offset: u64,
        /// The fault.
        fault: Fault,
    },
}
