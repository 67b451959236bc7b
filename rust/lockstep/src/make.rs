//! Random sound memories and messages, and damage to them.

use crate::model::{self, Header, Message, Record, State, Vector};
use crate::random::Random;

/// A server's memory at its exact sizes, and what it was made from.
#[derive(Clone)]
pub struct Made {
    pub n: u8,
    pub own: u8,
    pub up: bool,
    pub writes: Vec<Record>,
    pub in_checkpoint: usize,
    pub in_log: usize,
    pub state: Vec<u8>,
    pub history: Vec<u8>,
    pub image: Vec<u8>,
}

/// What the bytes past the counts are.
fn unused(r: &mut Random, size: usize) -> Vec<u8> {
    match r.below(3) {
        0 => vec![0; size],
        1 => r.bytes(size),
        _ => {
            // Old records of the kind that counted once.
            let record = random_record(r, 3, 0, [1, 1, 0, 0, 0, 0, 0, 0], 4);
            record.bytes().iter().copied().cycle().take(size).collect()
        }
    }
}

fn random_record(r: &mut Random, n: u8, origin: u8, t: Vector, cells: usize) -> Record {
    let phone = if r.one_in(4) { r.pick(&[0, 63]) } else { r.below(64) as u8 };
    let cell = if r.one_in(8) { r.pick(&[0, 1023]) } else { r.below(cells) as u16 };
    let value = if r.one_in(4) { r.pick(&[0, 1, u32::MAX]) } else { r.u32() };
    let time = if r.one_in(4) { r.pick(&[0, u32::MAX]) } else { r.u32() };
    debug_assert!(origin < n);
    Record { origin, phone, cell, value, time, t }
}

/// How the other positions of T are chosen.
#[derive(Clone, Copy)]
enum Style {
    /// as a server that never lost anything would count
    Genuine,
    /// 0 to 3: sums that tie
    Tied,
    /// anything up to 256
    Wide,
    /// 256: the greatest sums
    High,
}

fn timestamp(r: &mut Random, style: Style, n: u8, origin: u8, v: &Vector) -> Vector {
    let mut t = *v;
    for (i, position) in t.iter_mut().enumerate().take(n as usize) {
        if i != origin as usize {
            *position = match style {
                Style::Genuine => *position,
                Style::Tied => r.below(4) as u16,
                Style::Wide if r.one_in(4) => r.pick(&[0, 1, 255, 256]),
                Style::Wide => r.below(257) as u16,
                Style::High => 256,
            };
        }
    }
    t
}

/// What a made memory should be like.
pub struct Wish {
    pub n: u8,
    pub own: u8,
    pub held: usize,
    /// Percent of the writes that are the server's own.
    pub own_percent: usize,
    /// How many writes the checkpoint should hold; it holds more if the log cannot.
    pub in_checkpoint: usize,
}

pub fn some_wish(r: &mut Random) -> Wish {
    let n = r.pick(&[1, 2, 2, 3, 3, 4, 5, 6, 7, 8, 8]);
    let held = match r.below(16) {
        0 => 0,
        1..=7 => r.from_to(1, 8),
        8..=10 => r.from_to(9, 40),
        11..=12 => r.from_to(41, 254),
        13 => 255,
        _ => 256,
    };
    let in_checkpoint = match r.below(4) {
        0 => 0,
        1 => held,
        _ => r.from_to(0, held),
    };
    Wish { n, own: r.below(n as usize) as u8, held, own_percent: r.pick(&[0, 20, 50, 90, 100]), in_checkpoint }
}

/// A sound memory, up or down.
pub fn sound(r: &mut Random, wish: &Wish, up: bool) -> Made {
    let (n, own) = (wish.n, wish.own);
    let style = r.pick(&[Style::Genuine, Style::Tied, Style::Wide, Style::High]);
    let cells = r.pick(&[1, 2, 4, 1024]);
    let mut v: Vector = [0; 8];
    let mut writes = Vec::new();
    for _ in 0..wish.held {
        let origin = if r.percent(wish.own_percent) { own } else { r.below(n as usize) as u8 };
        v[origin as usize] += 1;
        let t = timestamp(r, style, n, origin, &v);
        writes.push(random_record(r, n, origin, t, cells));
    }
    let total_own = v[own as usize] as usize;
    let own_among = |first: usize| writes[..first].iter().filter(|w| w.origin == own).count();
    let mut in_checkpoint = wish.in_checkpoint.min(wish.held);
    while total_own - own_among(in_checkpoint) > model::LOG_WRITES {
        in_checkpoint += 1;
    }
    let unchecked = total_own - own_among(in_checkpoint);
    let most = total_own.min(model::LOG_WRITES);
    let in_log = match r.below(4) {
        0 => most,
        1 => r.from_to(unchecked, most),
        _ => unchecked,
    };

    let mut made = Made {
        n,
        own,
        up,
        in_checkpoint,
        in_log,
        state: Vec::new(),
        history: unused(r, model::HISTORY),
        image: unused(r, model::IMAGE),
        writes,
    };
    let header = Header::new(n, own, in_checkpoint as u16, in_log as u16);
    made.image[..Header::LENGTH].copy_from_slice(&header.bytes());
    let own_writes: Vec<Record> = made.writes.iter().filter(|w| w.origin == own).copied().collect();
    for (place, record) in made.writes[..in_checkpoint].iter().enumerate() {
        put(&mut made.image, model::CHECKPOINT_AT, place, record);
    }
    for (place, record) in own_writes[total_own - in_log..].iter().enumerate() {
        put(&mut made.image, model::LOG_AT, place, record);
    }
    if up {
        for (place, record) in made.writes.iter().enumerate() {
            put(&mut made.history, 0, place, record);
        }
        let mut state = State::fresh(n, own);
        state.held = wish.held as u16;
        state.writes = unchecked as u16;
        state.v = v;
        state.cr = match r.below(5) {
            0 => 0,
            1 => u64::MAX,
            2 => 1 << r.below(64),
            3 => r.u64() & r.u64() & r.u64(),
            _ => r.u64(),
        };
        for phone in 0..64 {
            if state.in_cr(phone) {
                state.rw[phone as usize] = match r.below(3) {
                    0 => 0,
                    1 => state.writes,
                    _ => r.from_to(0, unchecked) as u16,
                };
            }
        }
        made.state = state.bytes();
    } else {
        made.state = State::down(n, own).bytes();
    }
    made
}

fn put(bytes: &mut [u8], base: usize, place: usize, record: &Record) {
    let at = base + place * Record::LENGTH;
    bytes[at..at + Record::LENGTH].copy_from_slice(&record.bytes());
}

fn get_u16(bytes: &[u8], at: usize) -> u16 {
    u16::from_le_bytes([bytes[at], bytes[at + 1]])
}

fn set_u16(bytes: &mut [u8], at: usize, value: u16) {
    bytes[at..at + 2].copy_from_slice(&value.to_le_bytes());
}

fn flip(r: &mut Random, bytes: &mut [u8], from: usize, to: usize) {
    if to > from {
        bytes[r.from_to(from, to - 1)] ^= 1 << r.below(8);
    }
}

/// Near the number, or far off it.
fn other_u16(r: &mut Random, value: u16) -> u16 {
    match r.below(8) {
        0 | 1 => value.wrapping_add(1),
        2 | 3 => value.wrapping_sub(1),
        4 => value.wrapping_add(256),
        5 => r.pick(&[0, 1, 64, 65, 256, 257, 0xffff]),
        6 => r.u16(),
        _ => r.below(300) as u16,
    }
}

/// One field of a record changed, often to the edge of its range.
pub fn edit(r: &mut Random, record: &mut Record, n: u8) {
    let positions = n.clamp(1, 8) as usize;
    match r.below(11) {
        0 => record.origin = r.pick(&[0, n.wrapping_sub(1), n, 7, 8, 255]),
        1 => record.phone = r.pick(&[0, 63, 64, 255]),
        2 => record.cell = r.pick(&[0, 1023, 1024, 0xffff]),
        3 => record.value = r.u32(),
        4 => record.time = r.u32(),
        5 => {
            if let Some(number) = record.t.get_mut(record.origin as usize) {
                *number = if r.one_in(2) { 0 } else { other_u16(r, *number) };
            }
        }
        6 => record.t[r.below(positions)] = r.pick(&[256, 257, 0xffff, 512]),
        7 if positions < 8 => record.t[r.from_to(positions, 7)] = r.pick(&[1, 256, 257]),
        8 => record.t[r.below(8)] = r.below(258) as u16,
        9 => {
            // A foreign position past 256: malformed and nothing else.
            let i = r.below(positions);
            if i != record.origin as usize {
                record.t[i] = 257;
            }
        }
        _ => {
            let mut bytes = record.bytes();
            flip(r, &mut bytes, 0, Record::LENGTH);
            *record = Record::parse(&bytes);
        }
    }
}

impl Made {
    /// Where in the log the write at a place of the history stands, if it does.
    fn place_in_log(&self, place: usize) -> Option<usize> {
        if self.writes[place].origin != self.own {
            return None;
        }
        let own = |of: &[Record]| of.iter().filter(|w| w.origin == self.own).count();
        (own(&self.writes[..place]) + self.in_log).checked_sub(own(&self.writes))
    }

    /// Changes a write wherever it is kept.
    fn put_everywhere(&mut self, place: usize, record: &Record) {
        if self.up {
            put(&mut self.history, 0, place, record);
        }
        if place < self.in_checkpoint {
            put(&mut self.image, model::CHECKPOINT_AT, place, record);
        }
        if let Some(in_log) = self.place_in_log(place) {
            put(&mut self.image, model::LOG_AT, in_log, record);
        }
    }

    /// One damage to state, history or image. Some leave the memory sound.
    pub fn damage(&mut self, r: &mut Random) {
        let held = self.writes.len();
        let end_of_checkpoint = model::CHECKPOINT_AT + self.in_checkpoint * Record::LENGTH;
        let end_of_log = model::LOG_AT + self.in_log * Record::LENGTH;
        match r.below(36) {
            0 => flip(r, &mut self.state, 0, model::STATE),
            1 => {
                let n = r.pick(&[0, 1, 2, 8, 9, 255, self.n + 1, self.n - 1]);
                self.state[0] = n;
                if r.one_in(2) {
                    self.image[0] = n;
                }
            }
            2 => {
                let own = r.pick(&[0, self.n - 1, self.n, 8, 255]);
                self.state[1] = own;
                if r.one_in(2) {
                    self.image[1] = own;
                }
            }
            3 => self.state[2] = r.pick(&[0, 1, 2, 3, 128, 255]),
            4 => self.state[3] = r.pick(&[1, 2, 128, 255]),
            5 => {
                let other = other_u16(r, get_u16(&self.state, 4));
                set_u16(&mut self.state, 4, other);
            }
            6 => {
                let other = other_u16(r, get_u16(&self.state, 6));
                set_u16(&mut self.state, 6, other);
            }
            7 => {
                let at = 8 + 2 * r.below(8);
                let other = other_u16(r, get_u16(&self.state, at));
                set_u16(&mut self.state, at, other);
            }
            8 => flip(r, &mut self.state, 24, 32),
            9 => {
                let at = 32 + 2 * r.below(64);
                let writes = get_u16(&self.state, 6);
                let other = r.pick(&[0, 1, writes, writes.wrapping_add(1), 256, 0xffff]);
                set_u16(&mut self.state, at, other);
            }
            10..=13 if held > 0 => {
                let place = r.below(held);
                let mut record = self.writes[place];
                edit(r, &mut record, self.n);
                self.put_everywhere(place, &record);
            }
            14 if held > 0 && self.up => {
                let place = r.below(held);
                let mut record = self.writes[place];
                edit(r, &mut record, self.n);
                put(&mut self.history, 0, place, &record);
            }
            15 | 16 if held > 1 => {
                let (a, b) = (r.below(held), r.below(held));
                let (first, second) = (self.writes[a], self.writes[b]);
                if r.one_in(2) {
                    self.put_everywhere(a, &second);
                    self.put_everywhere(b, &first);
                } else {
                    put(&mut self.history, 0, a, &second);
                    put(&mut self.history, 0, b, &first);
                }
            }
            17 if held > 1 => {
                let (a, b) = (r.below(held), r.below(held));
                let copy = self.writes[b];
                self.put_everywhere(a, &copy);
            }
            18 => {
                let at = r.below(Header::LENGTH);
                self.image[at] = r.u8();
            }
            19 | 20 => {
                let count = self.in_checkpoint as u16;
                let other = if r.one_in(3) { r.pick(&[256, 257, 512, 0xffff]) } else { other_u16(r, count) };
                set_u16(&mut self.image, model::CHECKPOINT_COUNT_AT, other);
            }
            21 | 22 => {
                let count = self.in_log as u16;
                let other = if r.one_in(3) { r.pick(&[0, 64, 65, 256, 0xffff]) } else { other_u16(r, count) };
                set_u16(&mut self.image, model::LOG_COUNT_AT, other);
            }
            23 => {
                let at = r.pick(&[4, 8, 10]);
                let other = other_u16(r, get_u16(&self.image, at));
                set_u16(&mut self.image, at, other);
            }
            24 => flip(r, &mut self.image, 12, 16),
            25 => flip(r, &mut self.image, model::CHECKPOINT_AT, end_of_checkpoint),
            26 => flip(r, &mut self.image, model::LOG_AT, end_of_log),
            27 if self.in_log > 1 => {
                let (a, b) = (r.below(self.in_log), r.below(self.in_log));
                for i in 0..Record::LENGTH {
                    self.image.swap(model::LOG_AT + a * Record::LENGTH + i, model::LOG_AT + b * Record::LENGTH + i);
                }
            }
            28 | 29 if self.in_log > 0 => {
                // The log's first record lost, the rest in order.
                self.image.copy_within(model::LOG_AT + Record::LENGTH..end_of_log, model::LOG_AT);
                set_u16(&mut self.image, model::LOG_COUNT_AT, self.in_log as u16 - 1);
            }
            30 if self.in_log > 0 => {
                // The log's last record lost.
                set_u16(&mut self.image, model::LOG_COUNT_AT, self.in_log as u16 - 1);
            }
            31 if !self.up => {
                let at = r.from_to(4, model::STATE - 1);
                self.state[at] = r.pick(&[1, 2, 128, 255]);
            }
            32 if !self.up => self.over_full(r),
            33 => {
                // A checkpoint that holds one write less, or a foreign one in the log.
                if r.one_in(2) && self.in_checkpoint > 0 {
                    set_u16(&mut self.image, model::CHECKPOINT_COUNT_AT, self.in_checkpoint as u16 - 1);
                } else if self.in_log > 0 && self.n > 1 {
                    let at = model::LOG_AT + r.below(self.in_log) * Record::LENGTH;
                    self.image[at] = (self.own + 1) % self.n;
                }
            }
            34 if self.in_log < 64 && self.in_log > 0 => {
                // One more own write in the log than in the history, or a gap before it.
                let at = end_of_log - Record::LENGTH;
                let mut record = Record::parse(&self.image[at..end_of_log]);
                let number = &mut record.t[self.own as usize];
                *number = number.wrapping_add(r.from_to(0, 2) as u16);
                put(&mut self.image, model::LOG_AT, self.in_log, &record);
                set_u16(&mut self.image, model::LOG_COUNT_AT, self.in_log as u16 + 1);
            }
            _ => {
                let buffer = r.below(3);
                let bytes = [&mut self.state, &mut self.history, &mut self.image][buffer].as_mut_slice();
                for _ in 0..r.from_to(1, 4) {
                    flip(r, bytes, 0, bytes.len());
                }
            }
        }
    }

    /// A down image of a full checkpoint with later own writes in the log.
    fn over_full(&mut self, r: &mut Random) {
        let held = 256 - r.pick(&[0, 0, 1]);
        let later = r.from_to(1, 3);
        let mut v: Vector = [0; 8];
        for place in 0..held + later {
            let origin = if place < held { r.below(self.n as usize) as u8 } else { self.own };
            v[origin as usize] += 1;
            let record = random_record(r, self.n, origin, v, 4);
            if !record.well_formed(self.n) {
                return;
            }
            if place < held {
                put(&mut self.image, model::CHECKPOINT_AT, place, &record);
            } else {
                put(&mut self.image, model::LOG_AT, place - held, &record);
            }
        }
        let header = Header::new(self.n, self.own, held as u16, later as u16);
        self.image[..Header::LENGTH].copy_from_slice(&header.bytes());
    }
}

/// A message for a server in this state (as the block stands): writes it has, next writes,
/// and sometimes gaps and own writes ahead.
pub fn message_for(r: &mut Random, state: &State) -> Message {
    let n = state.n.clamp(1, 8);
    let own = state.own.min(n - 1);
    let sender = if n > 1 { (own + 1 + r.below(n as usize - 1) as u8) % n } else { 0 };
    let room = 256usize.saturating_sub(state.held as usize);
    let length = match r.below(6) {
        0 => 0,
        1 | 2 => r.from_to(1, 6),
        3 => (room + r.below(4)).saturating_sub(1).min(256),
        4 => r.pick(&[255, 256]),
        _ => r.from_to(1, 256),
    };
    let faults = r.pick(&[0, 0, 0, 1, 1, 2, 3]);
    let skips = r.pick(&[0, 0, 20, 90]);
    let genuine = r.one_in(2);
    let mut v = state.v;
    let mut records = Vec::new();
    let fault_places: Vec<usize> = (0..faults)
        .map(|_| if r.one_in(2) { length.saturating_sub(1 + r.below(3)) } else { r.below(length.max(1)) })
        .collect();
    for place in 0..length {
        let mut origin = r.below(n as usize) as u8;
        let bad = fault_places.contains(&place);
        if bad && r.one_in(2) {
            origin = own;
        }
        let known = v[origin as usize].min(256);
        let next = known.saturating_add(1);
        let number = if bad {
            if origin == own {
                next.saturating_add(r.pick(&[0, 0, 1, 5]))
            } else {
                next.saturating_add(r.pick(&[1, 1, 2, 100]))
            }
        } else if (origin == own || r.percent(skips)) && known > 0 {
            r.from_to(1, known as usize) as u16
        } else if origin == own {
            continue;
        } else {
            next
        };
        if number > 256 {
            continue;
        }
        if !bad && number == next {
            v[origin as usize] = number;
        }
        let style = if genuine { Style::Genuine } else { Style::Wide };
        let mut base = v.map(|p| p.min(256));
        base[n as usize..].fill(0);
        let mut t = timestamp(r, style, n, origin, &base);
        t[origin as usize] = number;
        records.push(random_record(r, n, origin, t, 4));
    }
    Message { n, sender, records }
}

/// One damage to a message's bytes.
pub fn damage_message(r: &mut Random, bytes: &mut Vec<u8>, own: u8) {
    let n = bytes.first().copied().unwrap_or(0);
    match r.below(14) {
        0 if bytes.len() >= 8 => bytes[0] = r.pick(&[0, 9, 255, n.wrapping_add(1), n.wrapping_sub(1)]),
        1 if bytes.len() >= 8 => bytes[1] = own,
        2 if bytes.len() >= 8 => bytes[1] = r.pick(&[n, n.wrapping_add(1), 8, 255]),
        3 if bytes.len() >= 8 => {
            let at = r.pick(&[2, 4, 6]);
            let other = other_u16(r, get_u16(bytes, at));
            set_u16(bytes, at, other);
        }
        4 => {
            bytes.pop();
        }
        5 => bytes.push(r.u8()),
        6 => {
            let length = r.pick(&[28, 27, 29, 56]);
            bytes.extend(r.bytes(length));
        }
        7 => bytes.truncate(bytes.len().saturating_sub(28)),
        8 => bytes.truncate(r.below(12)),
        9 => {
            // A whole record more than counted, total adjusted.
            let last: Vec<u8> = bytes.iter().rev().take(28).rev().copied().collect();
            if bytes.len() >= 36 {
                bytes.extend(last);
                let total = bytes.len() as u16;
                set_u16(bytes, 6, total);
            }
        }
        10 | 11 if bytes.len() >= 36 => {
            let place = 8 + 28 * r.below((bytes.len() - 8) / 28);
            let mut record = Record::parse(&bytes[place..place + 28]);
            edit(r, &mut record, n);
            bytes[place..place + 28].copy_from_slice(&record.bytes());
        }
        12 if bytes.len() >= 64 => {
            let count = (bytes.len() - 8) / 28;
            let (a, b) = (8 + 28 * r.below(count), 8 + 28 * r.below(count));
            for i in 0..28 {
                bytes.swap(a + i, b + i);
            }
        }
        _ => {
            let length = bytes.len();
            flip(r, bytes, 0, length);
        }
    }
}
