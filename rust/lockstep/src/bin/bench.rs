//! Times the calls on one core, through the same interface for each library there is.
//!
//! bench [seconds for each measurement]

use ssaldorip_tests::call::Call;
use ssaldorip_tests::case::{Lent, Lents};
use ssaldorip_tests::library::{libraries, Library};
use ssaldorip_tests::model::{self, Header, Message, Record, State};
use std::hint::black_box;
use std::time::{Duration, Instant};

const N: u8 = 8;

/// Writes of all eight servers in turn, as genuine servers number them.
fn writes(count: usize) -> Vec<Record> {
    let mut v = [0; 8];
    (0..count)
        .map(|i| {
            let origin = i % N as usize;
            v[origin] += 1;
            let (phone, cell) = ((i % 64) as u8, (i * 37 % 1024) as u16);
            Record { origin: origin as u8, phone, cell, value: i as u32, time: i as u32, t: v }
        })
        .collect()
}

/// Server 0 with these writes, all of them in the checkpoint or none (own ones in the log).
fn server(writes: &[Record], checked: bool) -> Lents {
    let own: Vec<&Record> = writes.iter().filter(|w| w.origin == 0).collect();
    let (in_checkpoint, in_log) = if checked { (writes.len(), 0) } else { (0, own.len()) };
    let mut state = State::fresh(N, 0);
    state.held = writes.len() as u16;
    state.writes = in_log as u16;
    state.v = model::counts(writes, N);
    let mut image = Header::new(N, 0, in_checkpoint as u16, in_log as u16).bytes();
    for record in &writes[..in_checkpoint] {
        image.extend(record.bytes());
    }
    image.resize(model::LOG_AT, 0);
    for record in &own[..in_log] {
        image.extend(record.bytes());
    }
    image.resize(model::IMAGE, 0);
    let mut history: Vec<u8> = writes.iter().flat_map(|w| w.bytes()).collect();
    history.resize(model::HISTORY, 0);
    let [state, history, image] = [state.bytes(), history, image].map(|bytes| Lent::of(&bytes));
    Lents { state, history, image, ..Lents::default() }
}

/// Prints how many such calls a second are made. State and image header are put back before
/// each, and none may be refused.
fn measure(library: &dyn Library, time: Duration, what: &str, call: Call, mut lents: Lents) {
    let before = lents.clone();
    let header = before.image.bytes().len().min(Header::LENGTH);
    let mut make_20 = || {
        for _ in 0..20 {
            lents.state.bytes_mut().copy_from_slice(before.state.bytes());
            lents.image.bytes_mut()[..header].copy_from_slice(&before.image.bytes()[..header]);
            let number = black_box(library.run(&call, &mut lents));
            assert!(!(1..=9).contains(&number), "{what}: refused {number}");
        }
    };
    make_20();
    let (began, mut calls) = (Instant::now(), 0);
    while began.elapsed() < time {
        make_20();
        calls += 20;
    }
    println!("  {what:58} {:>12.0} a second", calls as f64 / began.elapsed().as_secs_f64());
}

/// The same buffers with this to be read, and this many bytes to be changed.
fn with(lents: Lents, given: &[u8], out: usize) -> Lents {
    Lents { given: Lent::of(given), out: Lent::of(&vec![0; out]), ..lents }
}

fn bench(library: &dyn Library, time: Duration) {
    println!("{}", library.name());
    let rate = |what: &str, call: Call, lents: Lents| measure(library, time, what, call, lents);
    let full = writes(256);
    let message = Message { n: N, sender: 1, records: full.clone() }.bytes();
    let update = Call::Update { server: 0 };
    let read = Call::Read { server: 0, phone: 5, cell: 300 };
    let write = Call::Write { server: 0, phone: 5, cell: 300, value: 7, time: 900 };
    let request = |lents: Lents| with(lents, &[0; model::VECTOR], model::READ_REPLY);

    for (checked, checkpoint) in [(true, "checkpoint holding all"), (false, "checkpoint holding nothing")] {
        let holding_all = server(&full, checked);
        rate(&format!("update of 256, none new, {checkpoint}"), update, with(holding_all.clone(), &message, 0));
        rate(&format!("read at 256 held, {checkpoint}"), read, request(holding_all));
        rate(&format!("write at 255 held, {checkpoint}"), write, request(server(&full[..255], checked)));
    }

    let own: Vec<Record> = full.iter().filter(|w| w.origin == 0).copied().collect();
    rate("update of 256, 224 new", update, with(server(&own, false), &message, 0));

    // Phone 5 has read before, with own writes in the log alone.
    let mut second = server(&full, false);
    let mut state = State::parse(second.state.bytes());
    (state.cr, state.rw[5]) = (1 << 5, state.writes);
    second.state = Lent::of(&state.bytes());
    rate("read with a checkpoint of 256", read, request(second));

    // Small servers: 8 writes held, one of them its own, in the log.
    rate("read at 8 held", read, request(server(&full[..8], false)));
    rate("write at 8 held", write, request(server(&full[..8], false)));

    let up = server(&full, true);
    let down = Lents { state: Lent::of(&State::down(N, 0).bytes()), ..up.clone() };
    rate("recovery of 256", Call::Recover { server: 0 }, down);
    rate("status at 256 held", Call::Status, with(up.clone(), &[], model::STATUS_REPLY));
    rate("own message of 256", Call::Message, with(up.clone(), &[], message.len()));
    rate("look-up among 256", Call::LookUp { origin: 7, number: 32 }, up);
    rate("message check of 256", Call::MessageCheck, with(Lents::default(), &message, 0));
}

fn main() {
    let seconds = std::env::args().nth(1).map_or(0.3, |s| s.parse().expect("seconds"));
    for library in libraries() {
        bench(library, Duration::from_secs_f64(seconds));
    }
}
