//! Records and update messages, usable alone by the phone app.

use std::fmt;
use std::iter::FusedIterator;

use crate::ffi;
use crate::refusal::Refusal;
use crate::vector::{bytes_at, u16_at, u32_at, Cell, PhoneId, ServerId, Vector};

/// A write, as histories, messages and images hold it.
#[derive(Clone, Copy, Debug, PartialEq, Eq, Hash)]
pub struct Record {
    /// The server that a phone gave the write to.
    pub origin: ServerId,
    /// The phone that wrote.
    pub phone: PhoneId,
    /// The cell.
    pub cell: Cell,
    /// The value: a handle of the note's text.
    pub value: u32,
    /// The phone's time. It is passed on and decides nothing.
    pub time: u32,
    /// The timestamp T: V at the origin, right after the write.
    pub timestamp: Vector,
}

impl Record {
    /// How many bytes a record has.
    pub const LEN: usize = 28;

    /// The write's number: its timestamp at its origin. Numbers begin at 1.
    pub fn number(&self) -> u16 {
        self.timestamp.at(self.origin)
    }

    /// The record of these bytes. It is well formed only as far as they are.
    pub fn from_bytes(bytes: &[u8; Record::LEN]) -> Record {
        Record {
            origin: ServerId(bytes[0]),
            phone: PhoneId(bytes[1]),
            cell: Cell(u16_at(bytes, 2)),
            value: u32_at(bytes, 4),
            time: u32_at(bytes, 8),
            timestamp: Vector::from_bytes(&bytes_at(bytes, 12)),
        }
    }

    /// The record's bytes.
    pub fn to_bytes(&self) -> [u8; Record::LEN] {
        let mut bytes = [0; Record::LEN];
        bytes[0] = self.origin.0;
        bytes[1] = self.phone.0;
        bytes[2..4].copy_from_slice(&self.cell.0.to_le_bytes());
        bytes[4..8].copy_from_slice(&self.value.to_le_bytes());
        bytes[8..12].copy_from_slice(&self.time.to_le_bytes());
        bytes[12..].copy_from_slice(&self.timestamp.to_bytes());
        bytes
    }
}

/// The records of a message or a history, in order: a reader that holds the bytes and the place of the next record. Made by
/// [`Message::records`] and [`Server::writes`](crate::Server::writes).
#[derive(Clone, Debug)]
pub struct Records<'a> {
    bytes: &'a [u8],
    // Whole records stand from here to the end: the makers of this type cut the bytes to size.
    at: usize,
}

impl<'a> Records<'a> {
    pub(crate) fn of(bytes: &'a [u8], at: usize) -> Records<'a> {
        debug_assert_eq!((bytes.len() - at) % Record::LEN, 0);
        Records { bytes, at }
    }
}

impl Iterator for Records<'_> {
    type Item = Record;

    fn next(&mut self) -> Option<Record> {
        let mut record = [0; Record::LEN];
        match ffi::message_next(self.bytes, self.at, &mut record) {
            // The end. The place stays, so that it is the end for ever.
            0 => None,
            // Never the refusal 9: `record` has its size.
            place => {
                self.at = place;
                Some(Record::from_bytes(&record))
            }
        }
    }

    fn size_hint(&self) -> (usize, Option<usize>) {
        let left = (self.bytes.len() - self.at) / Record::LEN;
        (left, Some(left))
    }
}

impl ExactSizeIterator for Records<'_> {}
impl FusedIterator for Records<'_> {}

/// An update message: a server's history, for the other servers. Its bytes are checked, so that every `Message` is well
/// formed.
#[derive(Clone, PartialEq, Eq, Hash)]
pub struct Message {
    bytes: Box<[u8]>,
}

impl Message {
    /// How many bytes stand before the first record.
    pub const HEADER_LEN: usize = 8;

    /// How many bytes a message has at most: those of 256 records.
    pub const MOST: usize = Message::HEADER_LEN + 256 * Record::LEN;

    /// Are these bytes exactly one well formed message?
    ///
    /// # Errors
    ///
    /// [`Refusal::Unsound`] if not.
    pub fn check(bytes: &[u8]) -> Result<(), Refusal> {
        Refusal::answer(ffi::message_check(bytes))
    }

    /// The message of these bytes, for example as they came from another server.
    ///
    /// # Errors
    ///
    /// As [`Message::check`].
    pub fn from_bytes(bytes: impl Into<Box<[u8]>>) -> Result<Message, Refusal> {
        let bytes = bytes.into();
        Message::check(&bytes)?;
        Ok(Message { bytes })
    }

    /// Writes a message of N, sender and records.
    ///
    /// # Errors
    ///
    /// [`Refusal::OutOfRange`] for N or sender; then [`Refusal::Unsound`] for a record that is not well formed for N, or more
    /// than 256 records.
    pub fn write<'a>(
        n: u8,
        sender: ServerId,
        records: impl IntoIterator<Item = &'a Record>,
    ) -> Result<Message, Refusal> {
        // One record too many is as refused as any more, so that an endless iterator ends here.
        let records: Vec<u8> = records.into_iter().take(257).flat_map(Record::to_bytes).collect();
        let mut bytes = vec![0; Message::HEADER_LEN + records.len()];
        Refusal::answer(ffi::message_write(n, sender.0, &records, &mut bytes))?;
        Ok(Message { bytes: bytes.into() })
    }

    /// The message at the start of an output that a call filled.
    pub(crate) fn at_start_of(mut out: Vec<u8>) -> Message {
        out.truncate(usize::from(u16_at(&out, 6)));
        Message { bytes: out.into() }
    }

    /// The message's bytes, to be sent.
    pub fn as_bytes(&self) -> &[u8] {
        &self.bytes
    }

    /// The message's bytes, given away.
    pub fn into_bytes(self) -> Vec<u8> {
        self.bytes.into()
    }

    /// N: how many servers there are.
    pub fn servers(&self) -> u8 {
        self.bytes[0]
    }

    /// The server whose history this is.
    pub fn sender(&self) -> ServerId {
        ServerId(self.bytes[1])
    }

    /// How many records there are: 0 to 256.
    pub fn count(&self) -> u16 {
        u16_at(&self.bytes, 2)
    }

    /// The records in order.
    pub fn records(&self) -> Records<'_> {
        Records::of(&self.bytes, ffi::message_first(&self.bytes))
    }
}

impl AsRef<[u8]> for Message {
    fn as_ref(&self) -> &[u8] {
        self.as_bytes()
    }
}

impl TryFrom<&[u8]> for Message {
    type Error = Refusal;

    fn try_from(bytes: &[u8]) -> Result<Message, Refusal> {
        Message::from_bytes(bytes)
    }
}

impl TryFrom<Vec<u8>> for Message {
    type Error = Refusal;

    fn try_from(bytes: Vec<u8>) -> Result<Message, Refusal> {
        Message::from_bytes(bytes)
    }
}

impl<'a> IntoIterator for &'a Message {
    type Item = Record;
    type IntoIter = Records<'a>;

    fn into_iter(self) -> Records<'a> {
        self.records()
    }
}

// The derived form would list up to 7,176 bytes.
impl fmt::Debug for Message {
    fn fmt(&self, f: &mut fmt::Formatter<'_>) -> fmt::Result {
        f.debug_struct("Message")
            .field("servers", &self.servers())
            .field("sender", &self.sender())
            .field("records", &self.records().collect::<Vec<_>>())
            .finish()
    }
}

/// As the listing program prints a message: a line for N, sender and count, and then a line for each record, of origin,
/// number, phone, cell, value, phone time and N positions of T. No line feed at the end.
impl fmt::Display for Message {
    fn fmt(&self, f: &mut fmt::Formatter<'_>) -> fmt::Result {
        write!(f, "servers {} sender {} writes {}", self.servers(), self.sender(), self.count())?;
        for r in self {
            write!(f, "\n{} {} {} {} {} {}", r.origin, r.number(), r.phone, r.cell, r.value, r.time)?;
            for count in &r.timestamp.0[..usize::from(self.servers())] {
                write!(f, " {count}")?;
            }
        }
        Ok(())
    }
}
