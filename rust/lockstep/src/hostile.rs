//! Hostile cases: any bytes, damaged sound ones, all lengths, several reasons at once.

use crate::call::{Call, Kind};
use crate::case::{Lent, Lents};
use crate::make::{self, Made};
use crate::model::{self, Header, Message, Record, Session, State};
use crate::random::Random;

/// Any call, each with the chance of its weight.
fn some_kind(r: &mut Random) -> Kind {
    let weights = Kind::ALL.iter().map(|kind| match kind {
        Kind::Version => 1,
        Kind::SessionStart => 2,
        Kind::Start | Kind::MessageFirst => 3,
        Kind::SessionRaise | Kind::SessionRaiseWritten | Kind::SessionAsks => 3,
        Kind::Cut | Kind::Status | Kind::MessageCheck => 4,
        Kind::Message | Kind::MessageNext => 5,
        Kind::Judge | Kind::MessageWrite => 6,
        Kind::Recover => 7,
        Kind::LookUp => 8,
        Kind::ReadCut | Kind::WriteCut => 12,
        Kind::Read | Kind::Write => 14,
        Kind::Update => 24,
    });
    Kind::ALL[r.weighted(&weights.collect::<Vec<_>>())]
}

/// A case from its own generator alone.
pub fn case(r: &mut Random) -> (Call, Lents) {
    let kind = some_kind(r);
    let mut wish = make::some_wish(r);
    if matches!(kind, Kind::Write | Kind::WriteCut) && r.one_in(8) {
        // A full log.
        wish.held = r.from_to(64, 256);
        wish.own_percent = 100;
        wish.in_checkpoint = wish.held - 64;
    }
    if kind == Kind::Read && r.one_in(20) {
        // Own writes up to number 256: the greatest sums of T.
        wish = make::Wish { n: 8, own: r.below(8) as u8, held: 256, own_percent: 100, in_checkpoint: 256 };
    }
    let up = match kind {
        Kind::Recover | Kind::LookUp => r.one_in(8),
        Kind::Judge => r.one_in(2),
        _ => !r.one_in(8),
    };
    let mut made = make::sound(r, &wish, up);
    if r.one_in(50) {
        let buffer = r.below(3);
        r.fill([&mut made.state, &mut made.history, &mut made.image][buffer]);
    }
    let damages = r.pick(&[0, 0, 0, 1, 1, 1, 2, 3]);
    for _ in 0..damages {
        made.damage(r);
    }
    on(r, kind, &made)
}

/// A damaged copy of a real server's memory, and any call on it.
pub fn probe(r: &mut Random, lents: &Lents) -> (Call, Lents) {
    let kind = some_kind(r);
    let (state, history, image) = (lents.state.bytes(), lents.history.bytes(), lents.image.bytes());
    let header = Header::parse(image);
    let block = State::parse(state);
    let writes =
        if block.up == 1 { model::records(history, 0, block.held as usize) } else { model::checkpoint(image) };
    let mut made = Made {
        n: block.n,
        own: block.own,
        up: block.up == 1,
        in_checkpoint: header.checkpoint_count as usize,
        in_log: header.log_count as usize,
        writes,
        state: state[..model::STATE].to_vec(),
        history: history[..model::HISTORY].to_vec(),
        image: image[..model::IMAGE].to_vec(),
    };
    for _ in 0..r.pick(&[0, 1, 1, 2]) {
        made.damage(r);
    }
    on(r, kind, &made)
}

/// A length for a buffer of this size: mostly enough.
fn length(r: &mut Random, size: usize) -> usize {
    match r.below(24) {
        0 => size.saturating_sub(1),
        1 => size.saturating_sub(r.from_to(1, 2)),
        2 => 0,
        3 => r.below(size + 1),
        4..=12 => size,
        13..=20 => size + r.from_to(1, 3),
        _ => size + r.below(40),
    }
}

fn lent(r: &mut Random, content: &[u8], size: usize) -> Lent {
    let length = length(r, size);
    Lent::new(r, content, length)
}

fn on(r: &mut Random, kind: Kind, made: &Made) -> (Call, Lents) {
    let mut lents = Lents::default();
    // One case in three has no short buffer among the three of the memory.
    if r.one_in(3) {
        lents.state = lent(r, &made.state, model::STATE);
        lents.history = lent(r, &made.history, model::HISTORY);
        lents.image = lent(r, &made.image, model::IMAGE);
    } else {
        for (lent, content) in
            [(&mut lents.state, &made.state), (&mut lents.history, &made.history), (&mut lents.image, &made.image)]
        {
            let length = content.len() + r.pick(&[0, 0, 1, 2, 3, 17]);
            *lent = Lent::new(r, content, length);
        }
    }
    let block = State::parse(&made.state);
    let header = Header::parse(&made.image);
    let server = if r.one_in(10) { r.pick(&[0, 1, 7, 8, 255, made.n]) } else { block.own };
    let call = match kind {
        Kind::Version => Call::Version,
        Kind::Start => {
            let n = r.pick(&[0, 1, 2, 3, 4, 5, 6, 7, 8, 8, 9, 255]);
            let own = if r.one_in(4) { r.pick(&[n, 8, 255]) } else { r.below(n.max(1) as usize) as u8 };
            Call::Start { n, own }
        }
        Kind::Read | Kind::ReadCut | Kind::Write | Kind::WriteCut => {
            request(r, kind, server, made, &block, &header, &mut lents)
        }
        Kind::Update | Kind::MessageCheck | Kind::MessageFirst => {
            let message = message(r, &block, made);
            lents.given = Lent::exactly(r, &message);
            match kind {
                Kind::Update => Call::Update { server },
                Kind::MessageCheck => Call::MessageCheck,
                _ => Call::MessageFirst,
            }
        }
        Kind::Cut => Call::Cut { server },
        Kind::Recover => Call::Recover { server },
        Kind::Judge => Call::Judge,
        Kind::Status => {
            lents.out = lent(r, &[], model::STATUS_REPLY);
            Call::Status
        }
        Kind::LookUp => {
            let origin = if r.one_in(6) { r.pick(&[made.n, 7, 8, 255]) } else { r.below(8) as u8 % header.n.max(1) };
            let number = match r.below(8) {
                0 => r.pick(&[0, 1, 256, 257, 65_536, 65_537, u32::MAX, 1 << 31]),
                1 => 65_536 + r.below(8) as u32,
                2 => r.from_to(1, 257) as u32,
                3 if made.in_log > 0 => made.writes.len() as u32,
                _ => {
                    let some = made.writes.get(r.below(made.writes.len().max(1)));
                    match some.and_then(|w| w.number().map(|number| (w.origin, number))) {
                        Some((origin, number)) => {
                            let beyond = r.pick(&[0, 0, 0, 1, 65_536]);
                            return (Call::LookUp { origin, number: number as u32 + beyond }, lents);
                        }
                        None => r.below(4) as u32,
                    }
                }
            };
            Call::LookUp { origin, number }
        }
        Kind::Message => {
            let size = model::MESSAGE_HEADER + block.held.min(300) as usize * Record::LENGTH;
            lents.out = lent(r, &[], size);
            Call::Message
        }
        Kind::MessageWrite => message_write(r, made, &mut lents),
        Kind::MessageNext => message_next(r, &block, made, &mut lents),
        Kind::SessionStart => {
            lents.out = lent(r, &[], Session::LENGTH);
            Call::SessionStart { choice: choice(r) }
        }
        Kind::SessionRaise | Kind::SessionRaiseWritten => {
            lents.out = session(r, &block);
            let reply_vector = asked(r, &block);
            lents.given = lent(r, &reply_vector, model::VECTOR);
            if kind == Kind::SessionRaise {
                Call::SessionRaise
            } else {
                Call::SessionRaiseWritten
            }
        }
        Kind::SessionAsks => {
            lents.given = session(r, &block);
            lents.out = lent(r, &[], model::VECTOR);
            Call::SessionAsks
        }
    };
    (call, lents)
}

/// Any choice, mostly a known one.
fn choice(r: &mut Random) -> u8 {
    match r.below(6) {
        0 => r.u8(),
        // Unknown, but for some of its bits.
        1 => r.pick(&[0, 4, 5, 6, 7, 128 + 1, 64 + 2, 128 + 3, 255]),
        _ => r.from_to(1, 3) as u8,
    }
}

/// A session whose two vectors are around V.
fn session(r: &mut Random, block: &State) -> Lent {
    let bytes = [asked(r, block), asked(r, block), vec![choice(r)]].concat();
    lent(r, &bytes, Session::LENGTH)
}

/// A vector around V.
fn asked(r: &mut Random, block: &State) -> Vec<u8> {
    let n = block.n.clamp(1, 8) as usize;
    let mut v = block.v;
    match r.below(12) {
        0..=3 => v = [0; 8],
        4 | 5 => {}
        6 => v = v.map(|p| r.from_to(0, p as usize) as u16),
        7 | 8 => {
            let i = r.below(n);
            v[i] = v[i].saturating_add(r.pick(&[1, 1, 2, 256]));
        }
        9 if n < 8 => v[r.from_to(n, 7)] = r.pick(&[1, 256, 0xffff]),
        10 => {
            v[r.below(8)] = r.u16();
            v[r.below(8)] = r.below(300) as u16;
        }
        _ => v = std::array::from_fn(|_| r.u16()),
    }
    model::vector_bytes(&v)
}

fn request(
    r: &mut Random,
    kind: Kind,
    server: u8,
    made: &Made,
    block: &State,
    header: &Header,
    lents: &mut Lents,
) -> Call {
    let vector = asked(r, block);
    lents.given = if r.one_in(12) {
        lent(r, &vector, model::VECTOR)
    } else {
        let length = model::VECTOR + r.pick(&[0, 0, 1, 5]);
        Lent::new(r, &vector, length)
    };
    let seconds: Vec<u8> = (0..64).filter(|&i| block.in_cr(i) && block.rw[i as usize] > 0).collect();
    let phone = match r.below(12) {
        0 => r.pick(&[64, 65, 127, 128, 255]),
        1..=6 if !seconds.is_empty() => r.pick(&seconds),
        7 => r.pick(&[0, 63]),
        _ => r.below(64) as u8,
    };
    let cell = match r.below(12) {
        0 => r.pick(&[1024, 1025, 2048, 0xffff]),
        1 => r.pick(&[0, 1023]),
        2 => r.below(1024) as u16,
        _ if !made.writes.is_empty() => made.writes[r.below(made.writes.len())].cell,
        _ => r.below(4) as u16,
    };
    let (value, time) = (r.u32(), r.u32());
    let past_checkpoint = block.held.saturating_sub(header.checkpoint_count).min(256) as u32;
    let number_of_stores = match kind {
        Kind::WriteCut => 29,
        _ if phone < 64 && seconds.contains(&phone) => 28 * past_checkpoint + 2,
        _ => 0,
    };
    let stores = match r.below(12) {
        0 => r.pick(&[u32::MAX, 1 << 16, 1 << 31, 65_536 + 29, 256 + 29]),
        1 => number_of_stores + 1,
        2 => number_of_stores + r.from_to(1, 40) as u32,
        3 | 4 => number_of_stores,
        5 => number_of_stores.saturating_sub(1),
        6 => number_of_stores.saturating_sub(2),
        7 => 0,
        _ => r.from_to(0, number_of_stores as usize) as u32,
    };
    match kind {
        Kind::Read => {
            lents.out = lent(r, &[], model::READ_REPLY);
            Call::Read { server, phone, cell }
        }
        Kind::ReadCut => Call::ReadCut { server, phone, cell, stores },
        Kind::Write => {
            lents.out = lent(r, &[], model::WRITE_REPLY);
            Call::Write { server, phone, cell, value, time }
        }
        _ => Call::WriteCut { server, phone, cell, value, time, stores },
    }
}

/// Any message bytes.
fn message(r: &mut Random, block: &State, made: &Made) -> Vec<u8> {
    let n = made.n;
    let other = if n > 1 { (made.own + 1 + r.below(n as usize - 1) as u8) % n } else { 0 };
    let mut bytes = match r.below(12) {
        0 => {
            let length = r.pick(&[0, 1, 7, 8, 9, 35, 36, 37, 64, 7_176, 7_177]);
            r.bytes(length)
        }
        1 => Message { n, sender: other, records: made.writes.clone() }.bytes(),
        2 => {
            let mut wish = make::some_wish(r);
            (wish.n, wish.own) = (n, other);
            let writes = make::sound(r, &wish, true).writes;
            Message { n, sender: other, records: writes }.bytes()
        }
        3 => Message { n, sender: r.below(n as usize) as u8, records: Vec::new() }.bytes(),
        4 if !made.writes.is_empty() => {
            // Well formed but for its more than 256 records.
            let many = r.pick(&[256, 257, 258, 512, 2_340]);
            let records = made.writes.iter().copied().cycle().take(many).collect();
            Message { n, sender: other, records }.bytes()
        }
        _ => make::message_for(r, block).bytes(),
    };
    if r.one_in(300) {
        // As long as its total says, and 65,536 more.
        bytes.resize(bytes.len() + 65_536, 0);
    }
    for _ in 0..r.pick(&[0, 0, 0, 0, 1, 1, 2]) {
        make::damage_message(r, &mut bytes, block.own);
    }
    bytes
}

fn message_write(r: &mut Random, made: &Made, lents: &mut Lents) -> Call {
    let n = if r.one_in(8) { r.pick(&[0, 9, 255]) } else { made.n };
    let sender = if r.one_in(8) { r.pick(&[made.n, 8, 255]) } else { r.below(made.n as usize) as u8 };
    let mut records: Vec<u8> = made.writes.iter().flat_map(|w| w.bytes()).collect();
    match r.below(10) {
        0 => {
            records.pop();
        }
        1 => records.push(r.u8()),
        2 | 3 if !records.is_empty() => {
            let at = 28 * r.below(made.writes.len());
            let mut record = Record::parse(&records[at..at + 28]);
            make::edit(r, &mut record, made.n);
            records[at..at + 28].copy_from_slice(&record.bytes());
        }
        4 if !records.is_empty() => {
            // More than 256: a little, or so many that 16 bits do not hold them.
            let many = if r.one_in(40) { r.pick(&[2_340, 2_341, 65_536, 65_537]) } else { r.from_to(257, 260) };
            records = records.iter().copied().cycle().take(28 * many).collect();
        }
        _ => {}
    }
    let size = model::MESSAGE_HEADER + records.len() / 28 * 28;
    lents.out = if r.one_in(3) { lent(r, &[], size.min(8_000)) } else { Lent::new(r, &[], size.min(8_000)) };
    lents.given = Lent::exactly(r, &records);
    Call::MessageWrite { n, sender }
}

/// Any place in any message bytes.
fn message_next(r: &mut Random, block: &State, made: &Made, lents: &mut Lents) -> Call {
    let message = message(r, block, made);
    let end = message.len();
    // A record's place, or the end of the last whole one.
    let right = model::MESSAGE_HEADER + r.from_to(0, end.saturating_sub(8) / 28) * Record::LENGTH;
    let at = match r.below(12) {
        0 => 0,
        1 => model::MESSAGE_HEADER,
        2 => end,
        3 => end + r.from_to(1, 40),
        // 27, 28 or 29 bytes are left.
        4 | 5 => end.saturating_sub(r.from_to(27, 29)),
        6 => end.saturating_sub(r.from_to(1, 28)),
        // The place behind is past the greatest number, or just not.
        7 => usize::MAX - r.below(64),
        // A right place but for its high bits.
        8 => right + r.pick(&[1 << 16, 1 << 32, 1 << 63]),
        9 => r.from_to(0, end),
        _ => right,
    };
    lents.given = Lent::exactly(r, &message);
    lents.out = lent(r, &[], Record::LENGTH);
    Call::MessageNext { at }
}
