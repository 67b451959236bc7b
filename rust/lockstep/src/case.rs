//! One call with the buffers lent to it, run on the library and on the model.

use crate::call::Call;
use crate::library::{Library, Model};
use crate::model::Memory;
use crate::random::Random;
use std::fmt;

/// A lent buffer inside a longer one: the bytes before and after it are guards.
#[derive(Clone, Default)]
pub struct Lent {
    all: Vec<u8>,
    from: usize,
    length: usize,
}

const GUARD: usize = 24;

impl Lent {
    /// `length` lent bytes that begin with `content` (cut off, or followed by random
    /// bytes), at a random alignment.
    pub fn new(r: &mut Random, content: &[u8], length: usize) -> Lent {
        let from = GUARD + r.below(8);
        let mut all = vec![0; from + length + GUARD];
        let known = content.len().min(length);
        all[from..from + known].copy_from_slice(&content[..known]);
        r.fill(&mut all[..from]);
        r.fill(&mut all[from + known..]);
        Lent { all, from, length }
    }

    pub fn exactly(r: &mut Random, content: &[u8]) -> Lent {
        Lent::new(r, content, content.len())
    }

    /// These bytes without guards.
    pub fn of(content: &[u8]) -> Lent {
        Lent { all: content.to_vec(), from: 0, length: content.len() }
    }

    pub fn bytes(&self) -> &[u8] {
        &self.all[self.from..self.from + self.length]
    }

    pub fn bytes_mut(&mut self) -> &mut [u8] {
        &mut self.all[self.from..self.from + self.length]
    }
}

/// The buffers of any call, `given` and `out` as `model::run` takes them.
#[derive(Clone, Default)]
pub struct Lents {
    pub state: Lent,
    pub history: Lent,
    pub image: Lent,
    pub given: Lent,
    pub out: Lent,
}

impl Lents {
    pub fn memory(&self) -> Memory {
        let [state, history, image] = [&self.state, &self.history, &self.image].map(|lent| lent.bytes().to_vec());
        Memory { state, history, image }
    }

    fn named(&self) -> [(&'static str, &Lent); 5] {
        [
            ("state", &self.state),
            ("history", &self.history),
            ("image", &self.image),
            ("asked, message, records, reply vector or session that asks", &self.given),
            ("reply, output, record, session or what it asks for", &self.out),
        ]
    }
}

/// Why a run stops.
pub struct Failure(pub String);

impl fmt::Display for Failure {
    fn fmt(&self, f: &mut fmt::Formatter) -> fmt::Result {
        f.write_str(&self.0)
    }
}

/// Runs the call on the library and on the model, from the same bytes. They must return
/// the same number and leave the same bytes, guards included. `lents` is then what the
/// library left.
pub fn compare(library: &dyn Library, call: &Call, lents: &mut Lents) -> Result<usize, Failure> {
    let before = lents.clone();
    let mut expected = lents.clone();
    let number = library.run(call, lents);
    let expected_number = Model.run(call, &mut expected);
    let told = |what: String| Failure(format!("call {call:?}\n{}{what}", describe(&before)));
    if number != expected_number {
        return Err(told(format!("returned {number}, the model {expected_number}")));
    }
    for (i, (name, lent)) in lents.named().into_iter().enumerate() {
        let model = &expected.named()[i].1.all;
        let Some(at) = (0..model.len()).find(|&at| lent.all[at] != model[at]) else { continue };
        let place = at as isize - lent.from as isize;
        let was = before.named()[i].1.all[at];
        return Err(told(format!(
            "returned {number} as the model, but byte {place} of {name} (length {}) was {was} and is {}, in the model {}",
            lent.length, lent.all[at], model[at]
        )));
    }
    Ok(number)
}

/// The bytes before the call, in hexadecimal, zeros at a buffer's end left out.
fn describe(lents: &Lents) -> String {
    let mut text = String::new();
    for (name, lent) in lents.named() {
        let bytes = lent.bytes();
        let shown = bytes.iter().rposition(|&b| b != 0).map_or(0, |last| last + 1);
        text += &format!("{name}, length {}:", bytes.len());
        for byte in &bytes[..shown] {
            text += &format!(" {byte:02x}");
        }
        text.push('\n');
    }
    text
}
