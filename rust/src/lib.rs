//! The proved sync server of an offline field notebook, for Rust.
//!
//! Growers write notes where there is no signal. A phone hands them to the first of up to eight servers that it can reach;
//! the servers work while they cannot see each other, and come together later by update messages. What a phone has read
//! stays read, and it finds its own notes: a server that lacks them answers "not yet". A phone may choose one of these alone.
//! A write that was answered is not lost by a cut.
//!
//! This package is a thin, safe cover over `libssaldorip.a`, whose code is proved to follow its rules on every input. The
//! cover only turns bytes into types: every decision is the library's. Its first call asks the archive for its version, and
//! panics if that is not [`VERSION`]: then the program was linked with an archive that is not the package's own.
//!
//! Two orders are the programs' own to keep, or what is promised can be lost: a server's program stores the image before a
//! reply goes out ([`Server`]), and a phone's stores the session before it shows a value or says that a note is saved
//! ([`Session`]).
//!
//! - [`Server`]: the steps of a server (read, write, update, cut, recovery) and its reports.
//! - [`Session`]: what a phone has read and written, raised by each reply; [`Choice`]: which of it the phone's reads must find.
//! - [`Message`] and [`Record`]: update messages, also without a server.
//! - [`Refusal`]: why a call was refused. A refused call changes nothing.
//!
//! A write at one server, an update to another, a read there. The phone hears both kinds of reply, a write's and a read's:
//!
//! ```
//! use ssaldorip::{Cell, Choice, PhoneId, Refusal, Server, ServerId, Session, Write};
//!
//! # fn main() -> Result<(), Refusal> {
//! let mut barn = Server::start(2, ServerId(0))?;
//! let mut house = Server::start(2, ServerId(1))?;
//! let (phone, cell) = (PhoneId(5), Cell(300));
//! let mut session = Session::new(Choice::Both);
//!
//! // The phone writes at the barn: the reply raises the session.
//! let written = barn.write(phone, Write { cell, value: 7, time: 900 }, &session.for_write())?;
//! session.raise_written(&written);
//!
//! // The house has not seen the note, and does not pretend: not yet.
//! assert_eq!(house.read(phone, cell, &session.for_read()), Err(Refusal::NotYet));
//!
//! // The barn's update brings it. This reply raises the session too.
//! house.update(&barn.message()?)?;
//! let reply = house.read(phone, cell, &session.for_read())?;
//! session.raise(&reply);
//! assert_eq!(reply.value, Some(7));
//! # Ok(())
//! # }
//! ```

#![deny(missing_docs)]
#![deny(unsafe_code)]

#[allow(unsafe_code)]
mod ffi;
mod message;
mod refusal;
mod server;
mod session;
mod sys;
mod vector;

pub use message::{Message, Record, Records};
pub use refusal::{NoRefusal, Refusal};
pub use server::{look_up, Server, Status, Write, HISTORY_LEN, IMAGE_LEN, STATE_LEN, WRITE_STORES};
pub use session::{Choice, Read, Session};
pub use sys::VERSION;
pub use vector::{Cell, PhoneId, ServerId, Vector};
