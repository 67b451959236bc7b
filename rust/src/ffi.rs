//! Each call of libssaldorip.a as a safe function on slices. The only unsafe code of the package; rust/lockstep takes this
//! file too, so that what it compares with its model is what the package runs.
//!
//! Why each call is safe: the archive's version is that of our declarations. The library takes any bytes, numbers and lengths,
//! reads and writes only within what is lent, and keeps no pointer. What it leaves to the caller is what a slice's type says:
//! the pointer is not null, the length is true, and a `&mut` slice overlaps no other and is used by no other thread.

use std::sync::OnceLock;

use crate::sys;

/// A server's three buffers, lent for a step.
pub struct Lent<'a> {
    pub state: &'a mut [u8],
    pub history: &'a mut [u8],
    pub image: &'a mut [u8],
}

/// A server's three buffers, lent for a report.
#[derive(Clone, Copy)]
pub struct Seen<'a> {
    pub state: &'a [u8],
    pub history: &'a [u8],
    pub image: &'a [u8],
}

/// The archive's version. The one call that is made without knowing it.
pub fn version() -> u32 {
    // SAFETY: nothing is lent, and every version of the archive has this call as it is.
    unsafe { sys::ssaldorip_version() }
}

/// Every call passes through here. The archive is asked once.
fn test_version() {
    static ARCHIVE: OnceLock<u32> = OnceLock::new();
    must_be_ours(*ARCHIVE.get_or_init(version));
}

fn must_be_ours(archive: u32) {
    let ours = sys::VERSION;
    // An archive of another version would take some arguments for others, and spoil memory without a word.
    assert!(
        archive == ours,
        "libssaldorip.a is not the package's own: it has version {archive} of the interface, the package {ours}"
    );
}

/// Makes a call. `ref x` is a slice lent to be read, `mut x` one lent for change, `all ref x` and `all mut x` are the three
/// buffers of a `Seen` and of a `Lent`; what else stands in the list is a number.
macro_rules! call {
    ($call:ident: $($list:tt)*) => { call!(@$call [] $($list)*,) };
    (@$call:ident $done:tt all $how:tt $x:ident, $($rest:tt)*) => {
        call!(@$call $done $how $x.state, $how $x.history, $how $x.image, $($rest)*)
    };
    (@$call:ident [$($done:tt)*] ref $x:expr, $($rest:tt)*) => {
        call!(@$call [$($done)* $x.as_ptr(), $x.len(),] $($rest)*)
    };
    (@$call:ident [$($done:tt)*] mut $x:expr, $($rest:tt)*) => {
        call!(@$call [$($done)* $x.as_mut_ptr(), $x.len(),] $($rest)*)
    };
    (@$call:ident [$($done:tt)*] $number:expr, $($rest:tt)*) => { call!(@$call [$($done)* $number,] $($rest)*) };
    (@$call:ident [$($done:tt)*]) => {{
        test_version();
        // SAFETY: each pointer and length is a slice's, and the slices lent for change are `&mut` ones.
        unsafe { sys::$call($($done)*) }
    }};
}

pub fn start(n: u8, own: u8, lent: Lent) -> u32 {
    call!(ssaldorip_start: n, own, all mut lent)
}

pub fn read(lent: Lent, server: u8, phone: u8, cell: u16, asked: &[u8], reply: &mut [u8]) -> u32 {
    call!(ssaldorip_read: all mut lent, server, phone, cell, ref asked, mut reply)
}

pub fn read_cut(lent: Lent, server: u8, phone: u8, cell: u16, asked: &[u8], stores: u32) -> u32 {
    call!(ssaldorip_read_cut: all mut lent, server, phone, cell, ref asked, stores)
}

#[rustfmt::skip]
#[allow(clippy::too_many_arguments)] // The library's own list.
pub fn write(
    lent: Lent, server: u8, phone: u8, cell: u16, value: u32, time: u32, asked: &[u8], reply: &mut [u8],
) -> u32 {
    call!(ssaldorip_write: all mut lent, server, phone, cell, value, time, ref asked, mut reply)
}

#[rustfmt::skip]
#[allow(clippy::too_many_arguments)] // The library's own list.
pub fn write_cut(
    lent: Lent, server: u8, phone: u8, cell: u16, value: u32, time: u32, asked: &[u8], stores: u32,
) -> u32 {
    call!(ssaldorip_write_cut: all mut lent, server, phone, cell, value, time, ref asked, stores)
}

pub fn update(lent: Lent, server: u8, message: &[u8]) -> u32 {
    call!(ssaldorip_update: all mut lent, server, ref message)
}

pub fn cut(lent: Lent, server: u8) -> u32 {
    call!(ssaldorip_cut: all mut lent, server)
}

pub fn recover(lent: Lent, server: u8) -> u32 {
    call!(ssaldorip_recover: all mut lent, server)
}

pub fn judge(seen: Seen) -> u32 {
    call!(ssaldorip_judge: all ref seen)
}

pub fn status(seen: Seen, reply: &mut [u8]) -> u32 {
    call!(ssaldorip_status: all ref seen, mut reply)
}

pub fn look_up(image: &[u8], origin: u8, number: u32) -> u32 {
    call!(ssaldorip_look_up: ref image, origin, number)
}

pub fn message(seen: Seen, out: &mut [u8]) -> u32 {
    call!(ssaldorip_message: all ref seen, mut out)
}

pub fn message_check(message: &[u8]) -> u32 {
    call!(ssaldorip_message_check: ref message)
}

pub fn message_write(n: u8, sender: u8, records: &[u8], out: &mut [u8]) -> u32 {
    call!(ssaldorip_message_write: n, sender, ref records, mut out)
}

pub fn message_first(message: &[u8]) -> usize {
    call!(ssaldorip_message_first: ref message)
}

pub fn message_next(message: &[u8], at: usize, record: &mut [u8]) -> usize {
    call!(ssaldorip_message_next: ref message, at, mut record)
}

pub fn session_start(choice: u8, session: &mut [u8]) -> u32 {
    call!(ssaldorip_session_start: choice, mut session)
}

pub fn session_raise(session: &mut [u8], reply_vector: &[u8]) -> u32 {
    call!(ssaldorip_session_raise: mut session, ref reply_vector)
}

pub fn session_raise_written(session: &mut [u8], reply_vector: &[u8]) -> u32 {
    call!(ssaldorip_session_raise_written: mut session, ref reply_vector)
}

pub fn session_asks(session: &[u8], asked: &mut [u8]) -> u32 {
    call!(ssaldorip_session_asks: ref session, mut asked)
}

#[cfg(test)]
mod tests {
    use super::*;

    #[test]
    fn the_archive_is_our_own() {
        assert_eq!(version(), sys::VERSION);
        test_version();
    }

    #[test]
    #[should_panic(expected = "libssaldorip.a is not the package's own")]
    fn an_older_archive_is_found() {
        must_be_ours(sys::VERSION - 1);
    }

    #[test]
    #[should_panic(expected = "libssaldorip.a is not the package's own")]
    fn a_newer_archive_is_found() {
        must_be_ours(sys::VERSION + 1);
    }
}
