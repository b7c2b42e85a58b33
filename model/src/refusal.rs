//! "What is turned down": the table of document 01, number by number, with those that document 02
//! adds.

/// A refusal (document 01: what is turned down). The value of each case is its
/// number in the table.
#[derive(Clone, Copy, Debug, PartialEq, Eq)]
#[repr(u8)]
pub enum Refusal {
    /// "file under 17 or above 65,535 bytes, or contents not as above, lengths apart"
    Contents = 1,
    /// "n not 1 to 16, or a body's length does not fit it"
    Lengths = 2,
    /// "a row has a bit at n or above, or lacks its own"
    Rows = 3,
    /// "two classes flow to each other"
    FlowBothWays = 4,
    /// "not transitive"
    NotTransitive = 5,
    /// "no least class"
    NoLeastClass = 6,
    /// "E or the sum of minimums out of range"
    Turns = 7,
    /// "a timing byte out of range"
    Timing = 8,
    /// "class not below n"
    Class = 9,
    /// "bank above 7 or kind above 1"; W-206: "With ten bytes a rank other than 0 is refused with 10."
    BankOrKind = 10,
    /// "8 requests of that class wait"
    QueueFull = 11,
    /// "a tick after 16,777,215 ticks"; of a log that W-204's recordings are made of, one that has
    /// such a tick by the cycle at which it begins.
    NoMoreTicks = 12,
    /// "a state or policy handed in has numbers out of range"
    OutOfRange = 13,
    /// "a trace number of neither form"
    Malformed = 14,
    /// "log shorter than 4 times the trace"
    LogTooShort = 15,
    /// "extract shorter than what is kept", or too little room for one of W-204's recordings or for
    /// a policy file
    ExtractTooShort = 16,
    /// "log to extract not 4 times the trace", or a log to make W-204's recordings of
    LogNotOfTrace = 17,
    /// W-204: "A recording with an odd length, a cycle not above the one before, or a due cycle past
    /// 32 bits"
    Recording = 18,
    /// W-208: "20 for n outside 1 to 4"
    SmallOrder = 20,
}

impl Refusal {
    /// The number of the refusal in the table.
    pub fn number(self) -> u32 {
        self as u32
    }
}

/// The status of a call: "0 or the number below".
pub fn status<T>(outcome: &Result<T, Refusal>) -> u32 {
    match outcome {
        Ok(_) => 0,
        Err(refusal) => refusal.number(),
    }
}
