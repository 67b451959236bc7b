//! The phone's session, and the replies that raise it.

use std::fmt;

use crate::ffi;
use crate::refusal::Refusal;
use crate::vector::{bytes_at, u32_at, Vector};

// Where the parts of a session stand.
const READS_AT: usize = 0;
const WRITES_AT: usize = READS_AT + Vector::LEN;
const CHOICE_AT: usize = WRITES_AT + Vector::LEN;

/// What a session chooses, for as long as it lasts: which writes a server must have to serve its reads. A server that lacks
/// one of them answers "not yet".
#[derive(Clone, Copy, Debug, PartialEq, Eq, Hash)]
#[repr(u8)]
pub enum Choice {
    /// 1: reads that stay read. These are the writes that the session has read.
    Reads = 1,
    /// 2: own writes. These are the writes whose replies the session has received; what it has read may be missing.
    Writes = 2,
    /// 3: both.
    Both = 3,
}

impl Choice {
    /// All three, in the order of their numbers.
    pub const ALL: [Choice; 3] = [Choice::Reads, Choice::Writes, Choice::Both];

    /// The choice's number, 1 to 3.
    pub const fn number(self) -> u8 {
        self as u8
    }
}

/// The choice of a number. Any other than 1, 2 and 3 is refused: [`Refusal::OutOfRange`].
impl TryFrom<u8> for Choice {
    type Error = Refusal;

    fn try_from(number: u8) -> Result<Choice, Refusal> {
        Choice::ALL.into_iter().find(|choice| choice.number() == number).ok_or(Refusal::OutOfRange)
    }
}

impl From<Choice> for u8 {
    fn from(choice: Choice) -> u8 {
        choice.number()
    }
}

/// A phone's session: a vector of what the phone has read, a vector of its own writes, and its choice. A phone keeps one; a
/// reinstalled app begins a new one.
///
/// Each read's reply raises the one vector ([`Session::raise`]), each write's reply the other ([`Session::raise_written`]),
/// whatever was chosen. A read request carries what was chosen of them, a write request zero.
///
/// A phone stores its session, raised by a reply, before it goes on: after a read before it shows the value, else it may
/// forget that the grower has seen the value, and take an older one for the newest; after a write before it tells the grower
/// that the note is saved. A session that has forgotten a write's reply does not know of the note, and a later read may be
/// served without it.
#[derive(Clone, Copy, PartialEq, Eq, Hash)]
pub struct Session {
    // As the library left them: the last byte is always a choice's number.
    bytes: [u8; Session::LEN],
}

impl Session {
    /// How many bytes a session has.
    pub const LEN: usize = CHOICE_AT + 1;

    /// A new session of this choice: both vectors are zero.
    pub fn new(choice: Choice) -> Session {
        let mut bytes = [0; Session::LEN];
        Session::done(ffi::session_start(choice.number(), &mut bytes));
        Session { bytes }
    }

    /// The session of a store from before sessions had a choice: the vector of what was read, which was all of it. No own
    /// writes are known yet.
    pub fn from_vector(choice: Choice, reads: Vector) -> Session {
        let mut session = Session::new(choice);
        session.raise_by(ffi::session_raise, &reads);
        session
    }

    /// A session that was stored: the bytes that [`Session::to_bytes`] gave.
    ///
    /// # Errors
    ///
    /// [`Refusal::OutOfRange`] if the last byte is no choice's number.
    pub fn from_bytes(bytes: &[u8; Session::LEN]) -> Result<Session, Refusal> {
        // What it asks for is not wanted here: the library looks at the choice.
        Refusal::answer(ffi::session_asks(bytes, &mut [0; Vector::LEN]))?;
        Ok(Session { bytes: *bytes })
    }

    /// The session's bytes, to be stored: the vector of what was read, the vector of own writes, the choice's number.
    pub fn to_bytes(&self) -> [u8; Session::LEN] {
        self.bytes
    }

    /// What the session chose when it began.
    pub fn choice(&self) -> Choice {
        Choice::try_from(self.bytes[CHOICE_AT]).expect("the library's choice")
    }

    /// What a read request carries: the vector that was chosen, or the maximum of both.
    pub fn for_read(&self) -> Vector {
        let mut asked = [0; Vector::LEN];
        Session::done(ffi::session_asks(&self.bytes, &mut asked));
        Vector::from_bytes(&asked)
    }

    /// What a write request carries: zero, whatever was read or written.
    pub fn for_write(&self) -> Vector {
        Vector::ZERO
    }

    /// Raises the vector of what was read in place by a read's reply, to the maximum at each position.
    pub fn raise(&mut self, reply: &Read) {
        self.raise_by(ffi::session_raise, &reply.vector);
    }

    /// Raises the vector of own writes in place by a write's reply, to the maximum at each position. Store the session then,
    /// and only then tell the grower that the note is saved.
    pub fn raise_written(&mut self, reply: &Vector) {
        self.raise_by(ffi::session_raise_written, reply);
    }

    fn raise_by(&mut self, raise: fn(&mut [u8], &[u8]) -> u32, reply: &Vector) {
        Session::done(raise(&mut self.bytes, &reply.to_bytes()));
    }

    // What a call on a session's own bytes returned: it is never refused.
    fn done(returned: u32) {
        Refusal::answer(returned).expect("all have their size, and the choice is known");
    }
}

// The derived form would list 33 bytes.
impl fmt::Debug for Session {
    fn fmt(&self, f: &mut fmt::Formatter<'_>) -> fmt::Result {
        let vector = |at| Vector::from_bytes(&bytes_at(&self.bytes, at));
        f.debug_struct("Session")
            .field("reads", &vector(READS_AT))
            .field("writes", &vector(WRITES_AT))
            .field("choice", &self.choice())
            .finish()
    }
}

/// A read's reply.
#[derive(Clone, Copy, Debug, PartialEq, Eq, Hash)]
pub struct Read {
    /// The value of the cell's winner, or none for "no note".
    pub value: Option<u32>,
    /// The server's V, by which the phone raises its session.
    pub vector: Vector,
}

impl Read {
    /// How many bytes a read's reply has.
    pub const LEN: usize = 21;

    /// The reply as it goes to the phone: 1 and the value, or five zeros; then V.
    pub fn to_bytes(&self) -> [u8; Read::LEN] {
        let mut bytes = [0; Read::LEN];
        if let Some(value) = self.value {
            bytes[0] = 1;
            bytes[1..5].copy_from_slice(&value.to_le_bytes());
        }
        bytes[5..].copy_from_slice(&self.vector.to_bytes());
        bytes
    }

    /// The reply of these bytes, or none if no read's reply has them.
    pub fn from_bytes(bytes: &[u8; Read::LEN]) -> Option<Read> {
        let value = match (bytes[0], u32_at(bytes, 1)) {
            (0, 0) => None,
            (1, value) => Some(value),
            _ => return None,
        };
        Some(Read { value, vector: Vector::from_bytes(&bytes_at(bytes, 5)) })
    }
}
