//! The model behind the library's C interface: an archive to try the tests on, until the
//! real one is there, and (with a line changed) wrong archives that the tests must find.

#[path = "call.rs"]
#[allow(dead_code)]
mod call;
#[path = "model.rs"]
#[allow(dead_code)]
mod model;

use call::Call;
use model::{Left, Memory};
use std::slice::{from_raw_parts, from_raw_parts_mut};

/// What a call is lent. A buffer that it does not have is empty.
#[derive(Default)]
struct Lent {
    state: Vec<u8>,
    history: Vec<u8>,
    image: Vec<u8>,
    given: Vec<u8>,
    out: Vec<u8>,
}

impl Lent {
    /// The number that the call returns; the buffers are then what it leaves.
    fn run(&mut self, call: Call) -> usize {
        let memory = Memory { state: self.state.clone(), history: self.history.clone(), image: self.image.clone() };
        let Left { number, memory, out } = model::run(&call, &memory, &self.given, &self.out);
        if let Some(memory) = memory {
            (self.state, self.history, self.image) = (memory.state, memory.history, memory.image);
        }
        if let Some(out) = out {
            self.out = out;
        }
        number
    }
}

unsafe fn taken(at: *const u8, length: usize) -> Vec<u8> {
    from_raw_parts(at, length).to_vec()
}

unsafe fn put(at: *mut u8, length: usize, bytes: &[u8]) {
    from_raw_parts_mut(at, length).copy_from_slice(bytes)
}

/// Exports a call under its C name. In the list a buffer of `Lent` is lent to be read, or with
/// `mut` for change; the rest are numbers. The lengths have one name and are several: what a
/// macro names is new at each of its turns.
macro_rules! export {
    ($name:ident($($list:tt)*) -> $type:ty: $call:expr) => { export!(@($name $type, $call) [] [] [] $($list)*,); };
    (@$call:tt [$($args:tt)*] [$($take:tt)*] [$($put:tt)*] mut $x:ident, $($rest:tt)*) => {
        export!(@$call [$($args)* $x: *mut u8, length: usize,] [$($take)* $x: taken($x, length),]
            [$($put)* $x length,] $($rest)*);
    };
    (@$call:tt [$($args:tt)*] $take:tt $put:tt $x:ident: $type:ty, $($rest:tt)*) => {
        export!(@$call [$($args)* $x: $type,] $take $put $($rest)*);
    };
    (@$call:tt [$($args:tt)*] [$($take:tt)*] $put:tt $x:ident, $($rest:tt)*) => {
        export!(@$call [$($args)* $x: *const u8, length: usize,] [$($take)* $x: taken($x, length),] $put $($rest)*);
    };
    (@($name:ident $type:ty, $call:expr) [$($args:tt)*] [$($take:tt)*] [$($put:ident $length:ident,)*] $(,)?) => {
        #[no_mangle]
        pub unsafe extern "C" fn $name($($args)*) -> $type {
            let mut lent = Lent { $($take)* ..Lent::default() };
            let number = lent.run($call);
            $(put($put, $length, &lent.$put);)*
            number as $type
        }
    };
}

export!(ssaldorip_version() -> u32: Call::Version);
export!(ssaldorip_start(n: u8, own: u8, mut state, mut history, mut image) -> u32: Call::Start { n, own });
export!(ssaldorip_read(mut state, mut history, mut image, server: u8, phone: u8, cell: u16, given, mut out) -> u32:
    Call::Read { server, phone, cell });
export!(ssaldorip_read_cut(mut state, mut history, mut image,
    server: u8, phone: u8, cell: u16, given, stores: u32) -> u32: Call::ReadCut { server, phone, cell, stores });
export!(ssaldorip_write(mut state, mut history, mut image,
    server: u8, phone: u8, cell: u16, value: u32, time: u32, given, mut out) -> u32:
    Call::Write { server, phone, cell, value, time });
export!(ssaldorip_write_cut(mut state, mut history, mut image,
    server: u8, phone: u8, cell: u16, value: u32, time: u32, given, stores: u32) -> u32:
    Call::WriteCut { server, phone, cell, value, time, stores });
export!(ssaldorip_update(mut state, mut history, mut image, server: u8, given) -> u32: Call::Update { server });
export!(ssaldorip_cut(mut state, mut history, mut image, server: u8) -> u32: Call::Cut { server });
export!(ssaldorip_recover(mut state, mut history, mut image, server: u8) -> u32: Call::Recover { server });
export!(ssaldorip_judge(state, history, image) -> u32: Call::Judge);
export!(ssaldorip_status(state, history, image, mut out) -> u32: Call::Status);
export!(ssaldorip_look_up(image, origin: u8, number: u32) -> u32: Call::LookUp { origin, number });
export!(ssaldorip_message(state, history, image, mut out) -> u32: Call::Message);
export!(ssaldorip_message_check(given) -> u32: Call::MessageCheck);
export!(ssaldorip_message_write(n: u8, sender: u8, given, mut out) -> u32: Call::MessageWrite { n, sender });
export!(ssaldorip_message_first(given) -> usize: Call::MessageFirst);
export!(ssaldorip_message_next(given, at: usize, mut out) -> usize: Call::MessageNext { at });
export!(ssaldorip_session_start(choice: u8, mut out) -> u32: Call::SessionStart { choice });
export!(ssaldorip_session_raise(mut out, given) -> u32: Call::SessionRaise);
export!(ssaldorip_session_raise_written(mut out, given) -> u32: Call::SessionRaiseWritten);
export!(ssaldorip_session_asks(given, mut out) -> u32: Call::SessionAsks);
