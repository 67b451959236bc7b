//! The calls of libssaldorip.a as include/ssaldorip.h declares them, and the version of these declarations. They stand here
//! alone: rust/lockstep takes this file too, and tests/header.sh holds it to the header and to the library's source.

/// The version of the C interface that this package is made for. At its first call the package asks the archive for its
/// own, and panics if it is another.
pub const VERSION: u32 = 2;

#[rustfmt::skip]
extern "C" {
    pub fn ssaldorip_version() -> u32;
    pub fn ssaldorip_start(
        n: u8, own: u8,
        state: *mut u8, state_len: usize, history: *mut u8, history_len: usize, image: *mut u8, image_len: usize,
    ) -> u32;
    pub fn ssaldorip_read(
        state: *mut u8, state_len: usize, history: *mut u8, history_len: usize, image: *mut u8, image_len: usize,
        server: u8, phone: u8, cell: u16, asked: *const u8, asked_len: usize, reply: *mut u8, reply_len: usize,
    ) -> u32;
    pub fn ssaldorip_read_cut(
        state: *mut u8, state_len: usize, history: *mut u8, history_len: usize, image: *mut u8, image_len: usize,
        server: u8, phone: u8, cell: u16, asked: *const u8, asked_len: usize, stores: u32,
    ) -> u32;
    pub fn ssaldorip_write(
        state: *mut u8, state_len: usize, history: *mut u8, history_len: usize, image: *mut u8, image_len: usize,
        server: u8, phone: u8, cell: u16, value: u32, time: u32, asked: *const u8, asked_len: usize,
        reply: *mut u8, reply_len: usize,
    ) -> u32;
    pub fn ssaldorip_write_cut(
        state: *mut u8, state_len: usize, history: *mut u8, history_len: usize, image: *mut u8, image_len: usize,
        server: u8, phone: u8, cell: u16, value: u32, time: u32, asked: *const u8, asked_len: usize, stores: u32,
    ) -> u32;
    pub fn ssaldorip_update(
        state: *mut u8, state_len: usize, history: *mut u8, history_len: usize, image: *mut u8, image_len: usize,
        server: u8, message: *const u8, message_len: usize,
    ) -> u32;
    pub fn ssaldorip_cut(
        state: *mut u8, state_len: usize, history: *mut u8, history_len: usize, image: *mut u8, image_len: usize,
        server: u8,
    ) -> u32;
    pub fn ssaldorip_recover(
        state: *mut u8, state_len: usize, history: *mut u8, history_len: usize, image: *mut u8, image_len: usize,
        server: u8,
    ) -> u32;
    pub fn ssaldorip_judge(
        state: *const u8, state_len: usize, history: *const u8, history_len: usize, image: *const u8, image_len: usize,
    ) -> u32;
    pub fn ssaldorip_status(
        state: *const u8, state_len: usize, history: *const u8, history_len: usize, image: *const u8, image_len: usize,
        reply: *mut u8, reply_len: usize,
    ) -> u32;
    pub fn ssaldorip_look_up(image: *const u8, image_len: usize, origin: u8, number: u32) -> u32;
    pub fn ssaldorip_message(
        state: *const u8, state_len: usize, history: *const u8, history_len: usize, image: *const u8, image_len: usize,
        out: *mut u8, out_len: usize,
    ) -> u32;
    pub fn ssaldorip_message_check(message: *const u8, message_len: usize) -> u32;
    pub fn ssaldorip_message_write(
        n: u8, sender: u8, records: *const u8, records_len: usize, out: *mut u8, out_len: usize,
    ) -> u32;
    pub fn ssaldorip_message_first(message: *const u8, message_len: usize) -> usize;
    pub fn ssaldorip_message_next(
        message: *const u8, message_len: usize, at: usize, record: *mut u8, record_len: usize,
    ) -> usize;
    pub fn ssaldorip_session_start(choice: u8, session: *mut u8, session_len: usize) -> u32;
    pub fn ssaldorip_session_raise(
        session: *mut u8, session_len: usize, reply_vector: *const u8, reply_vector_len: usize,
    ) -> u32;
    pub fn ssaldorip_session_raise_written(
        session: *mut u8, session_len: usize, reply_vector: *const u8, reply_vector_len: usize,
    ) -> u32;
    pub fn ssaldorip_session_asks(session: *const u8, session_len: usize, asked: *mut u8, asked_len: usize) -> u32;
}
