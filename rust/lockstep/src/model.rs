//! The model: document 01, document 02's CR 3 and the library's interface, written for clarity.
//!
//! Every call of the interface is here a pure function on bytes, and `run` is all of them.

use crate::call::Call;

// ---------------------------------------------------------------- limits and sizes

/// Positions of a vector; N is at most this.
pub const SERVERS: usize = 8;
pub const PHONES: usize = 64;
pub const CELLS: u16 = 1024;
pub const HISTORY_WRITES: usize = 256;
pub const LOG_WRITES: usize = 64;

pub const VECTOR: usize = 2 * SERVERS;
pub const STATE: usize = 160;
pub const HISTORY: usize = HISTORY_WRITES * Record::LENGTH;
pub const IMAGE: usize = LOG_AT + LOG_WRITES * Record::LENGTH;
pub const CHECKPOINT_AT: usize = 16;
pub const LOG_AT: usize = CHECKPOINT_AT + HISTORY;
pub const CHECKPOINT_COUNT_AT: usize = 2;
pub const LOG_COUNT_AT: usize = 6;
pub const MESSAGE_HEADER: usize = 8;
pub const READ_REPLY: usize = 5 + VECTOR;
pub const WRITE_REPLY: usize = VECTOR;
pub const STATUS_REPLY: usize = 2;

/// The version of the interface that all this is of.
pub const VERSION: u32 = 2;

// ---------------------------------------------------------------- refusal numbers

pub const RANGE: u32 = 1;
pub const DOWN: u32 = 2;
pub const NOT_YET: u32 = 3;
pub const FULL: u32 = 4;
pub const LOG_FULL: u32 = 5;
pub const UNSOUND: u32 = 6;
pub const GAP: u32 = 7;
pub const OWN_AHEAD: u32 = 8;
pub const SHORT: u32 = 9;

fn refuse_if(reason: bool, number: u32) -> Result<(), u32> {
    if reason {
        Err(number)
    } else {
        Ok(())
    }
}

// ---------------------------------------------------------------- numbers and vectors

pub type Vector = [u16; SERVERS];

fn u16_at(bytes: &[u8], at: usize) -> u16 {
    u16::from_le_bytes([bytes[at], bytes[at + 1]])
}

fn u32_at(bytes: &[u8], at: usize) -> u32 {
    u32::from_le_bytes([bytes[at], bytes[at + 1], bytes[at + 2], bytes[at + 3]])
}

pub fn vector(bytes: &[u8]) -> Vector {
    std::array::from_fn(|i| u16_at(bytes, 2 * i))
}

pub fn vector_bytes(v: &Vector) -> Vec<u8> {
    v.iter().flat_map(|p| p.to_le_bytes()).collect()
}

/// "to the maximum, position by position"
fn maximum(a: Vector, b: Vector) -> Vector {
    std::array::from_fn(|i| a[i].max(b[i]))
}

// ---------------------------------------------------------------- records

#[derive(Clone, Copy, Debug, PartialEq, Eq)]
pub struct Record {
    pub origin: u8,
    pub phone: u8,
    pub cell: u16,
    pub value: u32,
    pub time: u32,
    pub t: Vector,
}

impl Record {
    pub const LENGTH: usize = 28;

    /// Any 28 bytes; they are all kept, so records are equal exactly if their bytes are.
    pub fn parse(bytes: &[u8]) -> Record {
        Record {
            origin: bytes[0],
            phone: bytes[1],
            cell: u16_at(bytes, 2),
            value: u32_at(bytes, 4),
            time: u32_at(bytes, 8),
            t: vector(&bytes[12..28]),
        }
    }

    pub fn bytes(&self) -> [u8; Record::LENGTH] {
        let mut bytes = [0; Record::LENGTH];
        bytes[0] = self.origin;
        bytes[1] = self.phone;
        bytes[2..4].copy_from_slice(&self.cell.to_le_bytes());
        bytes[4..8].copy_from_slice(&self.value.to_le_bytes());
        bytes[8..12].copy_from_slice(&self.time.to_le_bytes());
        for (place, position) in bytes[12..].chunks_exact_mut(2).zip(self.t) {
            place.copy_from_slice(&position.to_le_bytes());
        }
        bytes
    }

    /// "The write's number is T at its origin"; none with an origin past every vector.
    pub fn number(&self) -> Option<u16> {
        self.t.get(self.origin as usize).copied()
    }

    /// "origin below N, phone, cell in range, number at least 1, every position at most
    /// 256, positions from N on zero"
    pub fn well_formed(&self, n: u8) -> bool {
        self.origin < n
            && (self.phone as usize) < PHONES
            && self.cell < CELLS
            && self.number().is_some_and(|number| number >= 1)
            && self.t.iter().all(|&p| p <= 256)
            && self.t[n as usize..].iter().all(|&p| p == 0)
    }

    /// "the greatest sum of T, then the higher origin, then the higher number"
    fn rank(&self) -> (u32, u8, Option<u16>) {
        (self.t.iter().map(|&p| p as u32).sum(), self.origin, self.number())
    }
}

/// `count` records from the place `at` on.
pub fn records(bytes: &[u8], at: usize, count: usize) -> Vec<Record> {
    bytes[at..at + count * Record::LENGTH].chunks_exact(Record::LENGTH).map(Record::parse).collect()
}

/// How many records each origin below N has.
pub fn counts(of: &[Record], n: u8) -> Vector {
    let mut counts = [0; SERVERS];
    for record in of.iter().filter(|r| r.origin < n) {
        counts[record.origin as usize] += 1;
    }
    counts
}

fn valid_servers(n: u8, own: u8) -> bool {
    (1..=SERVERS as u8).contains(&n) && own < n
}

// ---------------------------------------------------------------- messages

#[derive(Clone, Debug, PartialEq, Eq)]
pub struct Message {
    pub n: u8,
    pub sender: u8,
    pub records: Vec<Record>,
}

impl Message {
    /// Nothing if the message is malformed.
    pub fn parse(bytes: &[u8]) -> Option<Message> {
        if bytes.len() < MESSAGE_HEADER {
            return None;
        }
        let (n, sender) = (bytes[0], bytes[1]);
        let count = u16_at(bytes, 2) as usize;
        let well_formed_header = valid_servers(n, sender)
            && count <= HISTORY_WRITES
            && u16_at(bytes, 4) as usize == MESSAGE_HEADER
            && u16_at(bytes, 6) as usize == bytes.len()
            && bytes.len() == MESSAGE_HEADER + count * Record::LENGTH;
        if !well_formed_header {
            return None;
        }
        let records = records(bytes, MESSAGE_HEADER, count);
        records.iter().all(|r| r.well_formed(n)).then_some(Message { n, sender, records })
    }

    /// For at most 256 records.
    pub fn bytes(&self) -> Vec<u8> {
        let count = self.records.len();
        let total = MESSAGE_HEADER + count * Record::LENGTH;
        let mut bytes = vec![self.n, self.sender];
        for number in [count, MESSAGE_HEADER, total] {
            bytes.extend((number as u16).to_le_bytes());
        }
        for record in &self.records {
            bytes.extend(record.bytes());
        }
        bytes
    }
}

/// What the listing program prints for the whole of its standard input.
pub fn listing(input: &[u8]) -> String {
    let Some(message) = Message::parse(input) else {
        return "refused 6\n".to_string();
    };
    let (n, sender, writes) = (message.n, message.sender, message.records.len());
    let mut text = format!("servers {n} sender {sender} writes {writes}\n");
    for r in &message.records {
        let number = r.t[r.origin as usize];
        text += &format!("{} {} {} {} {} {}", r.origin, number, r.phone, r.cell, r.value, r.time);
        for position in &r.t[..n as usize] {
            text += &format!(" {position}");
        }
        text.push('\n');
    }
    text
}

// ---------------------------------------------------------------- a phone's session

/// R, "a second session vector, raised by the reply to each write, and a choice fixed per
/// session"
#[derive(Clone, Debug, PartialEq, Eq)]
pub struct Session {
    pub r: Vector,
    pub own_writes: Vector,
    pub choice: u8,
}

impl Session {
    pub const LENGTH: usize = 2 * VECTOR + 1;
    pub const CHOICE_AT: usize = 2 * VECTOR;

    /// "begins a new session, at zero"; "an unknown choice is 1"
    fn new(choice: u8) -> Result<Session, u32> {
        refuse_if(!(1..=3).contains(&choice), RANGE)?;
        Ok(Session { r: [0; SERVERS], own_writes: [0; SERVERS], choice })
    }

    /// The session in its bytes, if its choice is known.
    fn parse(bytes: &[u8]) -> Result<Session, u32> {
        let new = Session::new(bytes[Session::CHOICE_AT])?;
        Ok(Session { r: vector(bytes), own_writes: vector(&bytes[VECTOR..]), ..new })
    }

    fn bytes(&self) -> Vec<u8> {
        [vector_bytes(&self.r), vector_bytes(&self.own_writes), vec![self.choice]].concat()
    }

    /// "1 reads that stay read, 2 own writes, 3 both"
    fn chosen(&self) -> Vec<Vector> {
        match self.choice {
            1 => vec![self.r],
            2 => vec![self.own_writes],
            _ => vec![self.r, self.own_writes],
        }
    }

    /// "a read carries the maximum of those chosen"
    fn carried(&self) -> Vector {
        self.chosen().into_iter().fold([0; SERVERS], maximum)
    }
}

// ---------------------------------------------------------------- the state block

#[derive(Clone, Debug, PartialEq, Eq)]
pub struct State {
    pub n: u8,
    pub own: u8,
    pub up: u8,
    pub spare: u8,
    pub held: u16,
    /// nWrites
    pub writes: u16,
    pub v: Vector,
    pub cr: u64,
    pub rw: [u16; PHONES],
}

impl State {
    pub fn parse(bytes: &[u8]) -> State {
        State {
            n: bytes[0],
            own: bytes[1],
            up: bytes[2],
            spare: bytes[3],
            held: u16_at(bytes, 4),
            writes: u16_at(bytes, 6),
            v: vector(&bytes[8..24]),
            cr: u32_at(bytes, 24) as u64 | (u32_at(bytes, 28) as u64) << 32,
            rw: std::array::from_fn(|i| u16_at(bytes, 32 + 2 * i)),
        }
    }

    pub fn bytes(&self) -> Vec<u8> {
        let mut bytes = vec![self.n, self.own, self.up, self.spare];
        bytes.extend(self.held.to_le_bytes());
        bytes.extend(self.writes.to_le_bytes());
        bytes.extend(vector_bytes(&self.v));
        bytes.extend(self.cr.to_le_bytes());
        bytes.extend(self.rw.iter().flat_map(|w| w.to_le_bytes()));
        bytes
    }

    /// "the state's numbers are zero but for N and own number"
    pub fn down(n: u8, own: u8) -> State {
        State { n, own, up: 0, spare: 0, held: 0, writes: 0, v: [0; SERVERS], cr: 0, rw: [0; PHONES] }
    }

    pub fn fresh(n: u8, own: u8) -> State {
        State { up: 1, ..State::down(n, own) }
    }

    pub fn in_cr(&self, phone: u8) -> bool {
        self.cr >> phone & 1 == 1
    }
}

// ---------------------------------------------------------------- the image's header

#[derive(Clone, Debug, PartialEq, Eq)]
pub struct Header {
    pub n: u8,
    pub own: u8,
    pub checkpoint_count: u16,
    pub checkpoint_offset: u16,
    pub log_count: u16,
    pub log_offset: u16,
    pub total: u16,
    pub zeros: [u8; 4],
}

impl Header {
    pub const LENGTH: usize = 16;

    pub fn parse(bytes: &[u8]) -> Header {
        Header {
            n: bytes[0],
            own: bytes[1],
            checkpoint_count: u16_at(bytes, CHECKPOINT_COUNT_AT),
            checkpoint_offset: u16_at(bytes, 4),
            log_count: u16_at(bytes, LOG_COUNT_AT),
            log_offset: u16_at(bytes, 8),
            total: u16_at(bytes, 10),
            zeros: [bytes[12], bytes[13], bytes[14], bytes[15]],
        }
    }

    pub fn new(n: u8, own: u8, checkpoint_count: u16, log_count: u16) -> Header {
        Header {
            n,
            own,
            checkpoint_count,
            checkpoint_offset: CHECKPOINT_AT as u16,
            log_count,
            log_offset: LOG_AT as u16,
            total: IMAGE as u16,
            zeros: [0; 4],
        }
    }

    pub fn bytes(&self) -> Vec<u8> {
        let mut bytes = vec![self.n, self.own];
        for number in [self.checkpoint_count, self.checkpoint_offset, self.log_count, self.log_offset, self.total] {
            bytes.extend(number.to_le_bytes());
        }
        bytes.extend(self.zeros);
        bytes
    }
}

/// For a header whose count is at most 256.
pub fn checkpoint(image: &[u8]) -> Vec<Record> {
    records(image, CHECKPOINT_AT, Header::parse(image).checkpoint_count as usize)
}

/// For a header whose count is at most 64.
pub fn log(image: &[u8]) -> Vec<Record> {
    records(image, LOG_AT, Header::parse(image).log_count as usize)
}

// ---------------------------------------------------------------- sound states

/// The sentences of "Sound states" that can be broken.
#[derive(Clone, Copy, Debug, PartialEq, Eq, PartialOrd, Ord)]
pub enum Fault {
    /// N is not 1 to 8, or the own number is not below N.
    Servers,
    /// The up byte is neither 0 nor 1.
    UpByte,
    /// The spare byte is not zero.
    Spare,
    /// Down, and a number other than N and the own number is not zero.
    DownNumbers,
    /// The image's N or own number is not the state's.
    HeaderServers,
    CheckpointOffset,
    LogOffset,
    Total,
    Zeros,
    /// More than 256 in the checkpoint.
    CheckpointCount,
    /// More than 64 in the log.
    LogCount,
    /// More than 256 in the history, held or recovered.
    Held,
    /// A record is not well formed.
    Malformed,
    /// An origin's numbers are not 1, 2, 3 and so on.
    Numbering,
    /// V is not the origins' counts.
    Counts,
    /// The checkpoint's records are not the first of the history.
    Checkpoint,
    /// The log's records are not the history's last own writes.
    Log,
    /// The checkpoint misses an own write from before the log.
    Missing,
    /// nWrites is not V[own] less the checkpoint's own count.
    Writes,
    /// RW above nWrites.
    ReadsAbove,
    /// RW not zero outside CR.
    ReadsOutside,
}

/// Every sentence that the state breaks (those that can still be judged); none if sound.
/// The buffers have their sizes at least. A down state's history is not looked at.
pub fn faults(state: &[u8], history: &[u8], image: &[u8]) -> Vec<Fault> {
    let state = State::parse(state);
    match state.up {
        0 => faults_down(&state, image),
        1 if state.held as usize > HISTORY_WRITES => vec![Fault::Held],
        1 => faults_up(&state, &records(history, 0, state.held as usize), image),
        _ => vec![Fault::UpByte],
    }
}

/// What both kinds of state have to keep: valid servers, a zero spare byte, the header.
pub fn faults_of_block_and_header(state: &State, header: &Header) -> Vec<Fault> {
    let right = Header::new(state.n, state.own, 0, 0);
    let mut faults = Vec::new();
    let mut note = |broken: bool, fault: Fault| {
        if broken {
            faults.push(fault)
        }
    };
    note(!valid_servers(state.n, state.own), Fault::Servers);
    note(state.spare != 0, Fault::Spare);
    note((header.n, header.own) != (state.n, state.own), Fault::HeaderServers);
    note(header.checkpoint_offset != right.checkpoint_offset, Fault::CheckpointOffset);
    note(header.log_offset != right.log_offset, Fault::LogOffset);
    note(header.total != right.total, Fault::Total);
    note(header.zeros != right.zeros, Fault::Zeros);
    note(header.checkpoint_count as usize > HISTORY_WRITES, Fault::CheckpointCount);
    note(header.log_count as usize > LOG_WRITES, Fault::LogCount);
    faults
}

fn cannot_be_judged_further(faults: &[Fault]) -> bool {
    [Fault::Servers, Fault::CheckpointCount, Fault::LogCount].iter().any(|f| faults.contains(f))
}

/// `history` has the records held, at most 256.
fn faults_up(state: &State, history: &[Record], image: &[u8]) -> Vec<Fault> {
    let mut faults = faults_of_block_and_header(state, &Header::parse(image));
    if cannot_be_judged_further(&faults) {
        return faults;
    }
    let mut note = |broken: bool, fault: Fault| {
        if broken {
            faults.push(fault)
        }
    };
    let own = state.own as usize;

    // "records well formed; for each origin its numbers are 1, 2, 3 and so on in history
    // order, and the vector V at each position is their count"
    note(!history.iter().all(|r| r.well_formed(state.n)), Fault::Malformed);
    let mut so_far = [0; SERVERS];
    let numbered = history.iter().filter(|r| r.origin < state.n).all(|r| {
        so_far[r.origin as usize] += 1;
        r.number() == Some(so_far[r.origin as usize])
    });
    note(!numbered, Fault::Numbering);
    note(state.v != counts(history, state.n), Fault::Counts);

    // "The checkpoint's records are the first of the history."
    let checkpoint = checkpoint(image);
    note(!history.starts_with(&checkpoint), Fault::Checkpoint);

    // "Log records equal the history's own writes of consecutive numbers ending at V[own];
    // the checkpoint holds every own write before the first of them, or, with an empty
    // log, all."
    let log = log(image);
    let own_writes: Vec<Record> = history.iter().filter(|r| r.origin == state.own).copied().collect();
    let own_in_checkpoint = checkpoint.iter().filter(|r| r.origin == state.own).count();
    note(!own_writes.ends_with(&log), Fault::Log);
    let before_the_log = own_writes.len().saturating_sub(log.len());
    note(before_the_log > own_in_checkpoint, Fault::Missing);

    // "nWrites is V[own] less the checkpoint's own count."
    note(state.v[own] as usize != state.writes as usize + own_in_checkpoint, Fault::Writes);

    // "The set CR holds phones; RW is at most nWrites, and zero outside CR."
    note(state.rw.iter().any(|&w| w > state.writes), Fault::ReadsAbove);
    let outside = (0..PHONES as u8).any(|i| !state.in_cr(i) && state.rw[i as usize] != 0);
    note(outside, Fault::ReadsOutside);
    faults
}

fn faults_down(state: &State, image: &[u8]) -> Vec<Fault> {
    let mut faults = faults_of_block_and_header(state, &Header::parse(image));
    if (State { spare: 0, ..state.clone() }) != State::down(state.n, state.own) {
        faults.push(Fault::DownNumbers);
    }
    if cannot_be_judged_further(&faults) {
        return faults;
    }
    let (recovered, history) = recovered(state.n, state.own, image);
    if history.len() > HISTORY_WRITES {
        faults.push(Fault::Held);
        return faults;
    }
    for fault in faults_up(&recovered, &history, image) {
        if !faults.contains(&fault) {
            faults.push(fault);
        }
    }
    faults
}

/// "A look-up takes exactly the images that suit a down state."
pub fn faults_of_image(image: &[u8]) -> Vec<Fault> {
    let header = Header::parse(image);
    faults_down(&State::down(header.n, header.own), image)
}

/// "the history is the checkpoint, then log records numbered above V[own], in order, V
/// raised at own only; ... CR and RW empty." For an image whose counts are in range; on an
/// unsound one the result is unsound too (a log record without a number is taken, and is
/// malformed).
fn recovered(n: u8, own: u8, image: &[u8]) -> (State, Vec<Record>) {
    let mut history = checkpoint(image);
    let mut v = counts(&history, n);
    let own_in_checkpoint = v[own as usize];
    for record in log(image) {
        let number = record.number();
        if number.is_none_or(|number| number > v[own as usize]) {
            v[own as usize] = number.unwrap_or(v[own as usize]);
            history.push(record);
        }
    }
    let writes = v[own as usize] - own_in_checkpoint;
    let state = State { held: history.len() as u16, writes, v, ..State::fresh(n, own) };
    (state, history)
}

// ---------------------------------------------------------------- a server's memory

/// The three buffers of a server, as lent: perhaps longer than their sizes.
#[derive(Clone, Debug, PartialEq, Eq)]
pub struct Memory {
    pub state: Vec<u8>,
    pub history: Vec<u8>,
    pub image: Vec<u8>,
}

impl Memory {
    fn put_state(&mut self, state: &State) {
        self.state[..STATE].copy_from_slice(&state.bytes());
    }

    fn put_history(&mut self, place: usize, record: &Record) {
        let at = place * Record::LENGTH;
        self.history[at..at + Record::LENGTH].copy_from_slice(&record.bytes());
    }

    fn long_enough(&self) -> Result<(), u32> {
        refuse_if(self.state.len() < STATE, SHORT)?;
        refuse_if(self.history.len() < HISTORY || self.image.len() < IMAGE, SHORT)
    }

    /// "9 for history and image; 6 for state": the sound state.
    fn judged(&self) -> Result<State, u32> {
        self.long_enough()?;
        refuse_if(!faults(&self.state, &self.history, &self.image).is_empty(), UNSOUND)?;
        Ok(State::parse(&self.state))
    }

    /// The same, and 2 if the server is down.
    fn judged_up(&self) -> Result<State, u32> {
        let state = self.judged()?;
        refuse_if(state.up == 0, DOWN)?;
        Ok(state)
    }

    /// The history of an up state.
    fn held(&self, state: &State) -> Vec<Record> {
        records(&self.history, 0, state.held as usize)
    }
}

// ---------------------------------------------------------------- stores and steps

/// "A store is one record byte, or one two-byte count; a count is stored whole or not at
/// all."
#[derive(Clone, Copy, Debug, PartialEq, Eq)]
pub enum Store {
    Byte { at: usize, byte: u8 },
    Count { at: usize, count: u16 },
}

impl Store {
    fn make(self, image: &mut [u8]) {
        match self {
            Store::Byte { at, byte } => image[at] = byte,
            Store::Count { at, count } => image[at..at + 2].copy_from_slice(&count.to_le_bytes()),
        }
    }
}

/// The 28 stores of a record, in order.
fn stores_of(record: &Record, at: usize) -> Vec<Store> {
    let bytes = record.bytes();
    bytes.iter().enumerate().map(|(i, &byte)| Store::Byte { at: at + i, byte }).collect()
}

/// What a served request does.
struct Step {
    stores: Vec<Store>,
    state: State,
    appended: Option<Record>,
    reply: Vec<u8>,
}

impl Step {
    /// "raise V[own] by one; T is the new V; store the record's 28 bytes in order at the
    /// log's next place, then the log count; then append to the history and raise nWrites
    /// by one. The reply is V."
    fn write(memory: &Memory, state: &State, write: Write) -> Step {
        let mut next = state.clone();
        next.v[state.own as usize] += 1;
        next.held += 1;
        next.writes += 1;
        let record = Record {
            origin: state.own,
            phone: write.phone,
            cell: write.cell,
            value: write.value,
            time: write.time,
            t: next.v,
        };
        let logged = Header::parse(&memory.image).log_count;
        let mut stores = stores_of(&record, LOG_AT + logged as usize * Record::LENGTH);
        stores.push(Store::Count { at: LOG_COUNT_AT, count: logged + 1 });
        Step { stores, reply: vector_bytes(&next.v), state: next, appended: Some(record) }
    }

    /// "if i is in CR this is a second read; otherwise add i and set RW[i] to nWrites. On a
    /// second read with RW[i] above zero, take a checkpoint first ... The reply is the value
    /// of the cell's winner, or "no note", with V."
    fn read(memory: &Memory, state: &State, phone: u8, cell: u16) -> Step {
        let history = memory.held(state);
        let mut next = state.clone();
        let mut stores = Vec::new();
        if !state.in_cr(phone) {
            next.cr |= 1 << phone;
            next.rw[phone as usize] = state.writes;
        } else if state.rw[phone as usize] > 0 {
            let done = Header::parse(&memory.image).checkpoint_count as usize;
            for (place, record) in history.iter().enumerate().skip(done) {
                stores.extend(stores_of(record, CHECKPOINT_AT + place * Record::LENGTH));
            }
            stores.push(Store::Count { at: CHECKPOINT_COUNT_AT, count: state.held });
            stores.push(Store::Count { at: LOG_COUNT_AT, count: 0 });
            next.cr = 0;
            next.rw = [0; PHONES];
            next.writes = 0;
        }
        let winner = history.iter().filter(|r| r.cell == cell).max_by_key(|r| r.rank());
        let mut reply = vec![winner.is_some() as u8];
        reply.extend(winner.map_or(0, |r| r.value).to_le_bytes());
        reply.extend(vector_bytes(&state.v));
        Step { stores, state: next, appended: None, reply }
    }

    /// The memory after the whole step.
    fn done(&self, memory: &Memory) -> Memory {
        let mut after = memory.clone();
        for store in &self.stores {
            store.make(&mut after.image);
        }
        if let Some(record) = &self.appended {
            after.put_history(self.state.held as usize - 1, record);
        }
        after.put_state(&self.state);
        after
    }

    /// "exactly the first k are in the image, the state is down, the history buffer is
    /// unchanged, no reply is given"; 1 for more than the step's number of stores.
    fn cut_after(&self, memory: &Memory, k: u32) -> Result<Memory, u32> {
        refuse_if(k as usize > self.stores.len(), RANGE)?;
        let mut after = memory.clone();
        for store in &self.stores[..k as usize] {
            store.make(&mut after.image);
        }
        after.put_state(&State::down(self.state.n, self.state.own));
        Ok(after)
    }
}

#[derive(Clone, Copy)]
struct Write {
    phone: u8,
    cell: u16,
    value: u32,
    time: u32,
}

// ---------------------------------------------------------------- refusals of requests

/// The order of a read up to its output: 9, 6, 2, 1, 3.
fn judged_request(memory: &Memory, server: u8, phone: u8, cell: u16, asked: &[u8]) -> Result<State, u32> {
    refuse_if(memory.state.len() < STATE || asked.len() < VECTOR, SHORT)?;
    let state = memory.judged_up()?;
    let asked = vector(asked);
    let past_n = asked[state.n as usize..].iter().any(|&p| p != 0);
    refuse_if(server != state.own, RANGE)?;
    refuse_if(phone as usize >= PHONES || cell >= CELLS || past_n, RANGE)?;
    refuse_if((0..SERVERS).any(|i| state.v[i] < asked[i]), NOT_YET)?;
    Ok(state)
}

/// The same for a write, which goes on with 4 and 5.
fn judged_write(memory: &Memory, server: u8, write: Write, asked: &[u8]) -> Result<State, u32> {
    let state = judged_request(memory, server, write.phone, write.cell, asked)?;
    refuse_if(state.held as usize == HISTORY_WRITES, FULL)?;
    refuse_if(Header::parse(&memory.image).log_count as usize == LOG_WRITES, LOG_FULL)?;
    Ok(state)
}

/// The output with the reply at its front; 9 if it is too short.
fn answered(output: &[u8], reply: &[u8]) -> Result<Vec<u8>, u32> {
    refuse_if(output.len() < reply.len(), SHORT)?;
    Ok([reply, &output[reply.len()..]].concat())
}

// ---------------------------------------------------------------- the calls

/// What a call leaves: the number that it returns, and the bytes of each buffer that it
/// changed, at their full length. Bytes that no step names are the bytes given.
#[derive(Clone, Debug, Default, PartialEq, Eq)]
pub struct Left {
    pub number: usize,
    pub memory: Option<Memory>,
    pub out: Option<Vec<u8>>,
}

impl Left {
    fn number(number: usize) -> Left {
        Left { number, ..Left::default() }
    }

    fn memory(memory: Memory) -> Left {
        Left { memory: Some(memory), ..Left::default() }
    }

    fn out(out: Vec<u8>) -> Left {
        Left { out: Some(out), ..Left::default() }
    }
}

/// Any call. `given` is the buffer lent to be read beside the memory (asked vector, message,
/// records, reply vector, or the session that asks), `out` the one lent to be changed (reply,
/// output, record, session, or the vector that a session asks for).
pub fn run(call: &Call, memory: &Memory, given: &[u8], out: &[u8]) -> Left {
    let left = match *call {
        Call::Version => Ok(Left::number(VERSION as usize)),
        Call::Start { n, own } => start(memory, n, own),
        Call::Read { server, phone, cell } => read(memory, server, phone, cell, given, out),
        Call::ReadCut { server, phone, cell, stores } => read_cut(memory, server, phone, cell, given, stores),
        Call::Write { server, phone, cell, value, time } => {
            write(memory, server, Write { phone, cell, value, time }, given, out)
        }
        Call::WriteCut { server, phone, cell, value, time, stores } => {
            write_cut(memory, server, Write { phone, cell, value, time }, given, stores)
        }
        Call::Update { server } => update(memory, server, given),
        Call::Cut { server } => cut(memory, server),
        Call::Recover { server } => recover(memory, server),
        Call::Judge => memory.judged().map(|_| Left::default()),
        Call::Status => status(memory, out),
        Call::LookUp { origin, number } => look_up(&memory.image, origin, number),
        Call::Message => message(memory, out),
        Call::MessageCheck => message_check(given),
        Call::MessageWrite { n, sender } => message_write(n, sender, given, out),
        Call::MessageFirst => Ok(message_first(given)),
        Call::MessageNext { at } => message_next(given, at, out),
        Call::SessionStart { choice } => session_start(out, choice),
        Call::SessionRaise => session_raise(out, given, false),
        Call::SessionRaiseWritten => session_raise(out, given, true),
        Call::SessionAsks => session_asks(given, out),
    };
    // "A refusal returns its number only and changes nothing."
    left.unwrap_or_else(|refusal| Left::number(refusal as usize))
}

fn start(memory: &Memory, n: u8, own: u8) -> Result<Left, u32> {
    memory.long_enough()?;
    refuse_if(!valid_servers(n, own), RANGE)?;
    let mut after = memory.clone();
    after.put_state(&State::fresh(n, own));
    after.history[..HISTORY].fill(0);
    after.image[..IMAGE].fill(0);
    after.image[..Header::LENGTH].copy_from_slice(&Header::new(n, own, 0, 0).bytes());
    Ok(Left::memory(after))
}

fn read(memory: &Memory, server: u8, phone: u8, cell: u16, asked: &[u8], reply: &[u8]) -> Result<Left, u32> {
    let state = judged_request(memory, server, phone, cell, asked)?;
    let step = Step::read(memory, &state, phone, cell);
    let reply = answered(reply, &step.reply)?;
    Ok(Left { memory: Some(step.done(memory)), ..Left::out(reply) })
}

fn read_cut(memory: &Memory, server: u8, phone: u8, cell: u16, asked: &[u8], stores: u32) -> Result<Left, u32> {
    let state = judged_request(memory, server, phone, cell, asked)?;
    Ok(Left::memory(Step::read(memory, &state, phone, cell).cut_after(memory, stores)?))
}

fn write(memory: &Memory, server: u8, write: Write, asked: &[u8], reply: &[u8]) -> Result<Left, u32> {
    let state = judged_write(memory, server, write, asked)?;
    let step = Step::write(memory, &state, write);
    let reply = answered(reply, &step.reply)?;
    Ok(Left { memory: Some(step.done(memory)), ..Left::out(reply) })
}

fn write_cut(memory: &Memory, server: u8, write: Write, asked: &[u8], stores: u32) -> Result<Left, u32> {
    let state = judged_write(memory, server, write, asked)?;
    Ok(Left::memory(Step::write(memory, &state, write).cut_after(memory, stores)?))
}

/// "in message order, a write numbered at most V[origin] is skipped uncompared; one
/// numbered V[origin] + 1 is appended and V[origin] becomes that number; V changes nowhere
/// else. ... Nothing is stored."
fn update(memory: &Memory, server: u8, message: &[u8]) -> Result<Left, u32> {
    let mut state = memory.judged_up()?;
    refuse_if(server != state.own, RANGE)?;
    let message = Message::parse(message).ok_or(UNSOUND)?;
    refuse_if(message.n != state.n || message.sender == state.own, UNSOUND)?;
    let mut new = Vec::new();
    for record in message.records {
        let origin = record.origin as usize;
        let number = record.t[origin];
        if number <= state.v[origin] {
            continue;
        }
        refuse_if(record.origin == state.own, OWN_AHEAD)?;
        refuse_if(number > state.v[origin] + 1, GAP)?;
        state.v[origin] = number;
        new.push(record);
    }
    refuse_if(state.held as usize + new.len() > HISTORY_WRITES, FULL)?;
    let mut after = memory.clone();
    for record in &new {
        after.put_history(state.held as usize, record);
        state.held += 1;
    }
    after.put_state(&state);
    Ok(Left::memory(after))
}

/// "A plain cut stores nothing."
fn cut(memory: &Memory, server: u8) -> Result<Left, u32> {
    let state = memory.judged_up()?;
    refuse_if(server != state.own, RANGE)?;
    let mut after = memory.clone();
    after.put_state(&State::down(state.n, state.own));
    Ok(Left::memory(after))
}

fn recover(memory: &Memory, server: u8) -> Result<Left, u32> {
    let state = memory.judged()?;
    refuse_if(state.up == 1, DOWN)?;
    refuse_if(server != state.own, RANGE)?;
    let (state, history) = recovered(state.n, state.own, &memory.image);
    let mut after = memory.clone();
    after.history[..HISTORY].fill(0);
    for (place, record) in history.iter().enumerate() {
        after.put_history(place, record);
    }
    after.put_state(&state);
    Ok(Left::memory(after))
}

/// "how many phones are in CR, and the lowest numbered one if any"
fn status(memory: &Memory, reply: &[u8]) -> Result<Left, u32> {
    let state = memory.judged_up()?;
    let phones: Vec<u8> = (0..PHONES as u8).filter(|&i| state.in_cr(i)).collect();
    let told = [phones.len() as u8, phones.first().copied().unwrap_or(255)];
    Ok(Left::out(answered(reply, &told)?))
}

/// "the record's bytes as they stand, from the checkpoint area or else from the log, or
/// "not there", also for a number that can't occur"
fn look_up(image: &[u8], origin: u8, number: u32) -> Result<Left, u32> {
    refuse_if(image.len() < IMAGE, SHORT)?;
    refuse_if(!faults_of_image(image).is_empty(), UNSOUND)?;
    refuse_if(origin >= Header::parse(image).n, RANGE)?;
    let sought = |r: &Record| r.origin == origin && r.number().map(u32::from) == Some(number);
    let place = |area: usize, records: Vec<Record>| {
        records.iter().position(sought).map(|index| area + index * Record::LENGTH)
    };
    let found = place(CHECKPOINT_AT, checkpoint(image)).or_else(|| place(LOG_AT, log(image)));
    Ok(Left::number(found.unwrap_or(0)))
}

/// The server's own update message.
fn message(memory: &Memory, out: &[u8]) -> Result<Left, u32> {
    let state = memory.judged_up()?;
    let records = memory.held(&state);
    Ok(Left::out(answered(out, &Message { n: state.n, sender: state.own, records }.bytes())?))
}

fn message_check(message: &[u8]) -> Result<Left, u32> {
    Message::parse(message).map(|_| Left::default()).ok_or(UNSOUND)
}

fn message_write(n: u8, sender: u8, records: &[u8], out: &[u8]) -> Result<Left, u32> {
    refuse_if(!valid_servers(n, sender), RANGE)?;
    let count = records.len() / Record::LENGTH;
    refuse_if(!records.len().is_multiple_of(Record::LENGTH) || count > HISTORY_WRITES, UNSOUND)?;
    let records = self::records(records, 0, count);
    refuse_if(!records.iter().all(|r| r.well_formed(n)), UNSOUND)?;
    Ok(Left::out(answered(out, &Message { n, sender, records }.bytes())?))
}

/// Where the reading of a message begins: "then the sender's history in order", behind the
/// eight bytes of the header. In what is no message there is nothing to read: its end.
fn message_first(message: &[u8]) -> Left {
    match Message::parse(message) {
        Some(_) => Left::number(MESSAGE_HEADER),
        None => Left::number(message.len()),
    }
}

/// "The app reads it through a reader that holds the message and the place of the next
/// record": the record's 28 bytes, and the place of the one after it; 0 if not all 28 are
/// there.
fn message_next(message: &[u8], at: usize, record: &[u8]) -> Result<Left, u32> {
    refuse_if(record.len() < Record::LENGTH, SHORT)?;
    let whole = message.get(at..).and_then(|rest| rest.get(..Record::LENGTH));
    match whole {
        Some(bytes) => Ok(Left { number: at + Record::LENGTH, ..Left::out(answered(record, bytes)?) }),
        None => Ok(Left::default()),
    }
}

/// A new session: 9 for what is lent, then 1.
fn session_start(session: &[u8], choice: u8) -> Result<Left, u32> {
    refuse_if(session.len() < Session::LENGTH, SHORT)?;
    Ok(Left::out(answered(session, &Session::new(choice)?.bytes())?))
}

/// "A read's reply raises R to the maximum, position by position"; the second vector is
/// "raised by the reply to each write". "Both vectors are always raised": whatever the choice
/// is. 9 for what is lent, then 1.
fn session_raise(session: &[u8], reply_vector: &[u8], written: bool) -> Result<Left, u32> {
    refuse_if(session.len() < Session::LENGTH || reply_vector.len() < VECTOR, SHORT)?;
    let mut after = Session::parse(session)?;
    let raised = if written { &mut after.own_writes } else { &mut after.r };
    *raised = maximum(*raised, vector(reply_vector));
    Ok(Left::out(answered(session, &after.bytes())?))
}

/// What the session's next read carries: 9 for what is lent, then 1, then 9 for the output.
fn session_asks(session: &[u8], asked: &[u8]) -> Result<Left, u32> {
    refuse_if(session.len() < Session::LENGTH, SHORT)?;
    Ok(Left::out(answered(asked, &vector_bytes(&Session::parse(session)?.carried()))?))
}

#[cfg(test)]
mod tests {
    use super::*;

    const LISTED: [u8; 36] = [
        0x02, 0x00, 0x01, 0x00, 0x08, 0x00, 0x24, 0x00, 0x00, 0x05, 0x2C, 0x01, 0x07, 0x00, 0x00, 0x00, 0x84, 0x03,
        0x00, 0x00, 0x01, 0x00, 0, 0, 0, 0, 0, 0, 0, 0, 0, 0, 0, 0, 0, 0,
    ];

    #[test]
    fn sizes_are_document_01s() {
        assert_eq!((HISTORY, IMAGE, LOG_AT), (7_168, 8_976, 7_184));
        assert_eq!(MESSAGE_HEADER + HISTORY, 7_176);
        assert_eq!(State::fresh(1, 0).bytes().len(), STATE);
        assert_eq!(Header::new(1, 0, 0, 0).bytes().len(), Header::LENGTH);
        assert_eq!(Session::new(1).unwrap().bytes().len(), Session::LENGTH);
    }

    #[test]
    fn bytes_and_parse_are_inverse() {
        let bytes: Vec<u8> = (0..160).map(|i| (i * 7 + 3) as u8).collect();
        assert_eq!(State::parse(&bytes).bytes(), bytes);
        assert_eq!(Record::parse(&bytes).bytes()[..], bytes[..28]);
        assert_eq!(Header::parse(&bytes).bytes()[..], bytes[..16]);
        let session = [&bytes[..32], &[2]].concat();
        assert_eq!(Session::parse(&session).unwrap().bytes(), session);
    }

    #[test]
    fn each_choice_of_a_session() {
        let (r, own_writes) = ([3, 0, 256, 0, 0, 0, 0, 1], [2, 5, 0, 0, 0, 0, 0, 1]);
        for (choice, carried) in [(1, r), (2, own_writes), (3, [3, 5, 256, 0, 0, 0, 0, 1])] {
            assert_eq!(Session { r, own_writes, choice }.carried(), carried);
        }
        for unknown in [0, 4, 255] {
            assert_eq!(Session::new(unknown), Err(RANGE));
        }
    }

    #[test]
    fn the_listing_example() {
        assert_eq!(message_check(&LISTED), Ok(Left::default()));
        assert_eq!(listing(&LISTED), "servers 2 sender 0 writes 1\n0 1 5 300 7 900 1 0\n");
        assert_eq!(listing(&LISTED[..35]), "refused 6\n");
        assert_eq!(message_write(2, 0, &LISTED[8..], &[9; 37]), Ok(Left::out([&LISTED[..], &[9]].concat())));
        assert_eq!(message_first(&LISTED), Left::number(8));
        assert_eq!(message_first(&LISTED[..35]), Left::number(35));
        let first = Left { number: 36, ..Left::out([&LISTED[8..], &[9]].concat()) };
        assert_eq!(message_next(&LISTED, 8, &[9; 29]), Ok(first));
        assert_eq!(message_next(&LISTED, 36, &[9; 29]), Ok(Left::default()));
    }

    #[test]
    fn each_clause_of_a_well_formed_record() {
        let good = Record { origin: 1, phone: 63, cell: 1023, value: 0, time: 0, t: [0, 1, 256, 0, 0, 0, 0, 0] };
        assert!(good.well_formed(3));
        assert!(!good.well_formed(2));
        assert!(!good.well_formed(1));
        assert!(!Record { origin: 3, ..good }.well_formed(3));
        assert!(!Record { origin: 200, ..good }.well_formed(3));
        assert!(!Record { phone: 64, ..good }.well_formed(3));
        assert!(!Record { cell: 1024, ..good }.well_formed(3));
        assert!(!Record { origin: 0, ..good }.well_formed(3));
        assert!(!Record { t: [0, 1, 257, 0, 0, 0, 0, 0], ..good }.well_formed(3));
        assert!(!Record { t: [0, 1, 0, 0, 0, 0, 0, 1], ..good }.well_formed(3));
    }
}
