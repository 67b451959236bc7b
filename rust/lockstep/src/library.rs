//! The library's interface, and its two implementations: the model and the archive.

use crate::call::Call;
use crate::case::Lents;
use crate::model;

pub trait Library {
    fn name(&self) -> &'static str;

    /// Makes a call with these buffers. Returns the number that the C function returns.
    fn run(&self, call: &Call, lents: &mut Lents) -> usize;
}

/// The library under test: the archive if one is linked, otherwise the model.
pub fn library() -> &'static dyn Library {
    libraries().pop().unwrap()
}

/// Every library there is.
pub fn libraries() -> Vec<&'static dyn Library> {
    vec![
        &Model,
        #[cfg(ssaldorip_real)]
        &real::Real,
    ]
}

pub struct Model;

impl Library for Model {
    fn name(&self) -> &'static str {
        "the model"
    }

    fn run(&self, call: &Call, lents: &mut Lents) -> usize {
        let left = model::run(call, &lents.memory(), lents.given.bytes(), lents.out.bytes());
        if let Some(memory) = left.memory {
            lents.state.bytes_mut().copy_from_slice(&memory.state);
            lents.history.bytes_mut().copy_from_slice(&memory.history);
            lents.image.bytes_mut().copy_from_slice(&memory.image);
        }
        if let Some(out) = left.out {
            lents.out.bytes_mut().copy_from_slice(&out);
        }
        left.number
    }
}

#[cfg(ssaldorip_real)]
mod real {
    use super::{Call, Lents, Library};
    use crate::ffi::{self, Lent, Seen};

    pub struct Real;

    impl Library for Real {
        fn name(&self) -> &'static str {
            concat!("the archive ", env!("SSALDORIP_LINKED"))
        }

        fn run(&self, call: &Call, lents: &mut Lents) -> usize {
            let (given, out) = (lents.given.bytes(), lents.out.bytes_mut());
            let (state, history, image) = (&mut lents.state, &mut lents.history, &mut lents.image);
            let lent = Lent { state: state.bytes_mut(), history: history.bytes_mut(), image: image.bytes_mut() };
            let number = match *call {
                Call::Version => ffi::version(),
                Call::Start { n, own } => ffi::start(n, own, lent),
                Call::Read { server, phone, cell } => ffi::read(lent, server, phone, cell, given, out),
                Call::ReadCut { server, phone, cell, stores } => {
                    ffi::read_cut(lent, server, phone, cell, given, stores)
                }
                Call::Write { server, phone, cell, value, time } => {
                    ffi::write(lent, server, phone, cell, value, time, given, out)
                }
                Call::WriteCut { server, phone, cell, value, time, stores } => {
                    ffi::write_cut(lent, server, phone, cell, value, time, given, stores)
                }
                Call::Update { server } => ffi::update(lent, server, given),
                Call::Cut { server } => ffi::cut(lent, server),
                Call::Recover { server } => ffi::recover(lent, server),
                Call::Judge => ffi::judge(seen(&lent)),
                Call::Status => ffi::status(seen(&lent), out),
                Call::LookUp { origin, number } => ffi::look_up(lent.image, origin, number),
                Call::Message => ffi::message(seen(&lent), out),
                Call::MessageCheck => ffi::message_check(given),
                Call::MessageWrite { n, sender } => ffi::message_write(n, sender, given, out),
                // Places have more than 32 bits: all of them are compared.
                Call::MessageFirst => return ffi::message_first(given),
                Call::MessageNext { at } => return ffi::message_next(given, at, out),
                Call::SessionStart { choice } => ffi::session_start(choice, out),
                Call::SessionRaise => ffi::session_raise(out, given),
                Call::SessionRaiseWritten => ffi::session_raise_written(out, given),
                Call::SessionAsks => ffi::session_asks(given, out),
            };
            number as usize
        }
    }

    fn seen<'a>(lent: &'a Lent) -> Seen<'a> {
        Seen { state: lent.state, history: lent.history, image: lent.image }
    }
}
