//! Numbers of servers, phones and cells, and vectors of counts.

use std::fmt;

/// A server's number: 0 to N - 1. Not a phone's, which has its own type.
#[derive(Clone, Copy, Debug, PartialEq, Eq, Hash, PartialOrd, Ord)]
pub struct ServerId(pub u8);

/// A phone's number: 0 to 63. Not a server's, which has its own type.
#[derive(Clone, Copy, Debug, PartialEq, Eq, Hash, PartialOrd, Ord)]
pub struct PhoneId(pub u8);

/// A cell's number: 0 to 1,023.
#[derive(Clone, Copy, Debug, PartialEq, Eq, Hash, PartialOrd, Ord)]
pub struct Cell(pub u16);

impl fmt::Display for ServerId {
    fn fmt(&self, f: &mut fmt::Formatter<'_>) -> fmt::Result {
        self.0.fmt(f)
    }
}

impl fmt::Display for PhoneId {
    fn fmt(&self, f: &mut fmt::Formatter<'_>) -> fmt::Result {
        self.0.fmt(f)
    }
}

impl fmt::Display for Cell {
    fn fmt(&self, f: &mut fmt::Formatter<'_>) -> fmt::Result {
        self.0.fmt(f)
    }
}

/// Eight counts of writes, one for each server; those from N on are zero.
#[derive(Clone, Copy, Debug, Default, PartialEq, Eq, Hash)]
pub struct Vector(pub [u16; Vector::POSITIONS]);

impl Vector {
    /// How many positions a vector has.
    pub const POSITIONS: usize = 8;

    /// How many bytes a vector has.
    pub const LEN: usize = 2 * Vector::POSITIONS;

    /// The vector of no writes. It is what a write request carries.
    pub const ZERO: Vector = Vector([0; Vector::POSITIONS]);

    /// The vector whose first counts are these, and the others zero.
    ///
    /// # Panics
    ///
    /// With more than eight counts.
    pub fn of(counts: &[u16]) -> Vector {
        assert!(counts.len() <= Vector::POSITIONS, "a vector has eight positions");
        let mut vector = Vector::ZERO;
        vector.0[..counts.len()].copy_from_slice(counts);
        vector
    }

    /// The count of a server's writes; 0 for a number that no server has.
    pub fn at(&self, server: ServerId) -> u16 {
        self.0.get(usize::from(server.0)).copied().unwrap_or(0)
    }

    /// The vector of these bytes.
    pub fn from_bytes(bytes: &[u8; Vector::LEN]) -> Vector {
        let mut vector = Vector::ZERO;
        for (count, two) in vector.0.iter_mut().zip(bytes.chunks_exact(2)) {
            *count = u16::from_le_bytes([two[0], two[1]]);
        }
        vector
    }

    /// The vector's bytes.
    pub fn to_bytes(&self) -> [u8; Vector::LEN] {
        let mut bytes = [0; Vector::LEN];
        for (two, count) in bytes.chunks_exact_mut(2).zip(self.0) {
            two.copy_from_slice(&count.to_le_bytes());
        }
        bytes
    }
}

impl From<[u16; Vector::POSITIONS]> for Vector {
    fn from(counts: [u16; Vector::POSITIONS]) -> Vector {
        Vector(counts)
    }
}

/// The eight counts with blanks between.
impl fmt::Display for Vector {
    fn fmt(&self, f: &mut fmt::Formatter<'_>) -> fmt::Result {
        for (i, count) in self.0.iter().enumerate() {
            write!(f, "{}{count}", if i == 0 { "" } else { " " })?;
        }
        Ok(())
    }
}

/// The bytes at a place, as an array. For places that the layouts of document 01 fix.
pub(crate) fn bytes_at<const LEN: usize>(bytes: &[u8], at: usize) -> [u8; LEN] {
    bytes[at..at + LEN].try_into().expect("a part of LEN bytes")
}

/// The two-byte number at a place.
pub(crate) fn u16_at(bytes: &[u8], at: usize) -> u16 {
    u16::from_le_bytes(bytes_at(bytes, at))
}

/// The four-byte number at a place.
pub(crate) fn u32_at(bytes: &[u8], at: usize) -> u32 {
    u32::from_le_bytes(bytes_at(bytes, at))
}
