//! Refusals: why a call was not done, each with its number.

use std::error::Error;
use std::fmt;

/// Why a call was refused. A refused call has changed nothing.
#[derive(Clone, Copy, Debug, PartialEq, Eq, Hash, PartialOrd, Ord)]
#[repr(u8)]
pub enum Refusal {
    /// 1: N, server, phone, cell, origin or cut count out of range, a vector that is not zero past N, or an unknown choice.
    OutOfRange = 1,
    /// 2: the server is down; for a recovery, it is up.
    NotUp = 2,
    /// 3: not yet. V is below the request's vector at some position: the server lacks a write that the phone has read or
    /// made. The phone asks again later, or at another server.
    NotYet = 3,
    /// 4: a write with 256 held, or an update whose new writes take the history past 256.
    HistoryFull = 4,
    /// 5: a write with 64 in the log. A checkpoint frees the log's room.
    LogFull = 5,
    /// 6: state or image unsound, or a message malformed; at a server also a message of another N or from itself.
    Unsound = 6,
    /// 7: at its turn a foreign write is numbered above V\[origin\] + 1: the sender's earlier writes have to come first.
    Gap = 7,
    /// 8: a write of the receiver's own origin is numbered above V\[own\].
    OwnAhead = 8,
    /// 9: a buffer is too short.
    TooShort = 9,
}

impl Refusal {
    /// All nine, in the order of their numbers.
    pub const ALL: [Refusal; 9] = [
        Refusal::OutOfRange,
        Refusal::NotUp,
        Refusal::NotYet,
        Refusal::HistoryFull,
        Refusal::LogFull,
        Refusal::Unsound,
        Refusal::Gap,
        Refusal::OwnAhead,
        Refusal::TooShort,
    ];

    /// The refusal's number, 1 to 9.
    pub const fn number(self) -> u32 {
        self as u32
    }

    /// What a call of the library returned: 0 for done, or a refusal's number.
    pub(crate) fn answer(returned: u32) -> Result<(), Refusal> {
        match returned {
            0 => Ok(()),
            number => Err(Refusal::returned(number)),
        }
    }

    /// A refusal's number, as a call of the library returned it.
    pub(crate) fn returned(number: u32) -> Refusal {
        // The library is proved to return no other number here: another archive was linked.
        Refusal::try_from(number).expect("libssaldorip.a returned a number that is no refusal")
    }
}

impl fmt::Display for Refusal {
    fn fmt(&self, f: &mut fmt::Formatter<'_>) -> fmt::Result {
        let words = match self {
            Refusal::OutOfRange => "a number is out of range",
            Refusal::NotUp => "the server is down (for a recovery: up)",
            Refusal::NotYet => "not yet: the server lacks a write that the phone has read or made",
            Refusal::HistoryFull => "the history is full",
            Refusal::LogFull => "the log is full",
            Refusal::Unsound => "state or image unsound, or message malformed",
            Refusal::Gap => "an earlier write of the same origin is missing",
            Refusal::OwnAhead => "a write of the receiver's own that it does not have",
            Refusal::TooShort => "a buffer is too short",
        };
        write!(f, "refused {}: {words}", self.number())
    }
}

impl Error for Refusal {}

/// A number that is no refusal's.
#[derive(Clone, Copy, Debug, PartialEq, Eq)]
pub struct NoRefusal(pub u32);

impl fmt::Display for NoRefusal {
    fn fmt(&self, f: &mut fmt::Formatter<'_>) -> fmt::Result {
        write!(f, "{} is not the number of a refusal", self.0)
    }
}

impl Error for NoRefusal {}

impl TryFrom<u32> for Refusal {
    type Error = NoRefusal;

    fn try_from(number: u32) -> Result<Refusal, NoRefusal> {
        Refusal::ALL.into_iter().find(|refusal| refusal.number() == number).ok_or(NoRefusal(number))
    }
}

impl From<Refusal> for u32 {
    fn from(refusal: Refusal) -> u32 {
        refusal.number()
    }
}
