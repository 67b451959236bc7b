//! Random clusters of servers, phones and sessions. Every call is compared with the model;
//! demand 3, and that a phone finds its own writes, are checked on what the library itself
//! replied and keeps.

use crate::call::Call;
use crate::case::{compare, Failure, Lent, Lents};
use crate::hostile;
use crate::library::Library;
use crate::model::{self, Header, Record, Session, State};
use crate::random::Random;
use crate::tally::{Met, Tally};
use std::collections::{HashMap, HashSet};

type RecordBytes = [u8; Record::LENGTH];

/// Compares calls and counts what they return.
pub struct Runner<'a> {
    pub library: &'a dyn Library,
    /// Whether the model runs beside the library; if not, only demands are checked.
    pub model: bool,
    pub tally: Tally,
}

impl Runner<'_> {
    fn run(&mut self, hostile: bool, call: Call, lents: &mut Lents) -> Result<usize, Failure> {
        let number = if self.model { compare(self.library, &call, lents)? } else { self.library.run(&call, lents) };
        self.tally.returned(hostile, call.kind(), number);
        Ok(number)
    }

    pub fn call(&mut self, call: Call, lents: &mut Lents) -> Result<usize, Failure> {
        self.run(false, call, lents)
    }

    /// The same, with all reasons to refuse counted first. The first of them must be what
    /// the call returns.
    pub fn hostile_call(&mut self, call: Call, lents: &mut Lents) -> Result<usize, Failure> {
        let first = self.tally.reasons(&call, lents);
        let number = self.run(true, call, lents)?;
        let right = first.map_or_else(|| is_done(&call, number), |first| number == first);
        if self.model && !right {
            return Err(Failure(format!(
                "call {call:?}: library and model return {number}, but the first reason present is {first:?}"
            )));
        }
        Ok(number)
    }
}

/// Whether a call returns this number if it has no reason not to be done.
fn is_done(call: &Call, number: usize) -> bool {
    match *call {
        Call::Version => number == model::VERSION as usize,
        Call::LookUp { .. } => number == 0 || number >= Header::LENGTH,
        Call::MessageFirst => number == model::MESSAGE_HEADER,
        Call::MessageNext { at } => number == at + Record::LENGTH,
        _ => number == 0,
    }
}

/// A set of writes by the numbers that the cluster gave them.
#[derive(Clone, Default)]
struct Writes(Vec<u64>);

impl Writes {
    fn add(&mut self, write: usize) {
        if self.0.len() <= write / 64 {
            self.0.resize(write / 64 + 1, 0);
        }
        self.0[write / 64] |= 1 << (write % 64);
    }

    fn add_all(&mut self, other: &Writes) {
        if self.0.len() < other.0.len() {
            self.0.resize(other.0.len(), 0);
        }
        for (mine, others) in self.0.iter_mut().zip(&other.0) {
            *mine |= others;
        }
    }

    /// How much of this set is in the other.
    fn met_in(&self, other: &Writes) -> Met {
        if self.0.is_empty() {
            return Met::Nothing;
        }
        let within = self.0.iter().enumerate().all(|(i, mine)| mine & !other.0.get(i).copied().unwrap_or(0) == 0);
        if within {
            Met::All
        } else {
            Met::NotAll
        }
    }
}

struct Server {
    memory: Lents,
    /// Its own writes that were replied to.
    performed: Vec<RecordBytes>,
    /// Its own writes that a cut stored whole, without a reply.
    logged: HashSet<RecordBytes>,
}

struct Phone {
    number: u8,
    /// How often the app was installed again.
    installed: u32,
    session: Lent,
    known: Known,
}

/// What is known of a session beside its bytes.
#[derive(Clone, Default)]
struct Known {
    choice: u8,
    /// The writes in the histories of the read replies that it received.
    seen: Writes,
    /// The writes whose own replies it received.
    wrote: Writes,
}

#[derive(Clone, Copy)]
enum Wanted {
    Read,
    Write { value: u32, time: u32 },
}

/// A request on its way.
#[derive(Clone)]
struct Request {
    phone: usize,
    installed: u32,
    server: usize,
    cell: u16,
    wanted: Wanted,
    asked: Vec<u8>,
    /// The session when it asked.
    known: Known,
}

/// A reply on its way.
#[derive(Clone)]
struct Reply {
    phone: usize,
    installed: u32,
    /// Whether it is a write's.
    written: bool,
    v: Vec<u8>,
    /// A read's: those in the serving server's history. A write's: itself.
    writes: Writes,
}

/// Weights of what happens next.
struct Profile {
    name: &'static str,
    write: usize,
    read: usize,
    late_request: usize,
    late_reply: usize,
    message: usize,
    deliver: usize,
    cut: usize,
    recover: usize,
    status: usize,
    look_up: usize,
    wrong: usize,
    reinstall: usize,
    sweep: usize,
    probe: usize,
    /// Percent of the requests that are cut.
    request_cuts: usize,
    phones: usize,
    actions: usize,
}

const CALM: Profile = Profile {
    name: "calm",
    write: 20,
    read: 24,
    late_request: 6,
    late_reply: 6,
    message: 10,
    deliver: 16,
    cut: 2,
    recover: 8,
    status: 2,
    look_up: 4,
    wrong: 6,
    reinstall: 1,
    sweep: 1,
    probe: 3,
    request_cuts: 5,
    phones: 4,
    actions: 400,
};

const PROFILES: [Profile; 5] = [
    CALM,
    Profile { name: "many phones", phones: 64, actions: 600, ..CALM },
    Profile { name: "cuts", request_cuts: 30, cut: 6, recover: 20, sweep: 3, phones: 2, ..CALM },
    Profile {
        name: "full",
        write: 60,
        read: 16,
        message: 8,
        deliver: 14,
        request_cuts: 1,
        cut: 1,
        phones: 2,
        actions: 1500,
        ..CALM
    },
    Profile { name: "writes only", write: 80, read: 0, late_request: 0, request_cuts: 1, actions: 500, ..CALM },
];

const IN_FLIGHT: usize = 24;

pub struct Cluster<'a, 'b> {
    run: &'a mut Runner<'b>,
    r: Random,
    profile: &'static Profile,
    n: u8,
    cells: usize,
    servers: Vec<Server>,
    phones: Vec<Phone>,
    requests: Vec<Request>,
    replies: Vec<Reply>,
    messages: Vec<Vec<u8>>,
    names: HashMap<RecordBytes, usize>,
    /// Whether a late reply to an earlier session raises the new one.
    late_replies_raise: bool,
}

fn history_of(memory: &Lents) -> Vec<RecordBytes> {
    let held = State::parse(memory.state.bytes()).held as usize;
    let bytes = &memory.history.bytes()[..held * Record::LENGTH];
    bytes.chunks_exact(Record::LENGTH).map(|r| r.try_into().unwrap()).collect()
}

/// The stores of the phone's next read.
fn stores_of_read(memory: &Lents, phone: u8) -> u32 {
    let state = State::parse(memory.state.bytes());
    let checked = Header::parse(memory.image.bytes()).checkpoint_count;
    if state.in_cr(phone) && state.rw[phone as usize] > 0 {
        28 * (state.held - checked) as u32 + 2
    } else {
        0
    }
}

fn failed<T>(what: String) -> Result<T, Failure> {
    Err(Failure(what))
}

impl<'a, 'b> Cluster<'a, 'b> {
    pub fn new(run: &'a mut Runner<'b>, mut r: Random) -> Result<Self, Failure> {
        let profile = &PROFILES[r.below(PROFILES.len())];
        let n = r.from_to(1, 8) as u8;
        let cells = r.pick(&[1, 2, 5, 1024]);
        let phones = (0..profile.phones)
            .map(|i| Phone {
                number: if profile.phones == 64 { i as u8 } else { (i * 21) as u8 },
                installed: 0,
                session: Lent::default(),
                known: Known::default(),
            })
            .collect();
        let late_replies_raise = r.one_in(2);
        let mut cluster = Cluster {
            run,
            profile,
            n,
            cells,
            servers: Vec::new(),
            phones,
            requests: Vec::new(),
            replies: Vec::new(),
            messages: Vec::new(),
            names: HashMap::new(),
            late_replies_raise,
            r,
        };
        // A program asks for the version before its first other call.
        cluster.run.call(Call::Version, &mut Lents::default())?;
        for own in 0..n {
            let r = &mut cluster.r;
            let mut memory = Lents::default();
            for (lent, size) in [
                (&mut memory.state, model::STATE),
                (&mut memory.history, model::HISTORY),
                (&mut memory.image, model::IMAGE),
            ] {
                let length = size + r.pick(&[0, 1, 3, 30]);
                *lent = Lent::new(r, &[], length);
            }
            if cluster.run.call(Call::Start { n, own }, &mut memory)? != 0 {
                return failed("start is refused".to_string());
            }
            cluster.servers.push(Server { memory, performed: Vec::new(), logged: HashSet::new() });
        }
        for phone in 0..cluster.phones.len() {
            cluster.install(phone)?;
        }
        Ok(cluster)
    }

    pub fn describe(&self) -> String {
        let raise = if self.late_replies_raise { "raise the new one" } else { "are dropped" };
        format!("profile {}, N {}, late replies to an earlier session {raise}", self.profile.name, self.n)
    }

    /// Runs the cluster to its end, or until the run has this many cases.
    pub fn go(&mut self, until: u64) -> Result<(), Failure> {
        let p = self.profile;
        let weights = [
            p.write,
            p.read,
            p.late_request,
            p.late_reply,
            p.message,
            p.deliver,
            p.cut,
            p.recover,
            p.status,
            p.look_up,
            p.wrong,
            p.reinstall,
            p.sweep,
            p.probe,
        ];
        for _ in 0..p.actions {
            if self.run.tally.cases >= until {
                break;
            }
            match self.r.weighted(&weights) {
                0 => self.ask(true)?,
                1 => self.ask(false)?,
                2 => self.late_request()?,
                3 => self.late_reply()?,
                4 => self.make_message()?,
                5 => self.deliver()?,
                6 => self.cut()?,
                7 => self.recover()?,
                8 => self.judge_and_status()?,
                9 => self.look_up()?,
                10 => self.wrong()?,
                11 => self.reinstall()?,
                12 => self.sweep()?,
                _ => self.probe()?,
            }
        }
        Ok(())
    }

    // ------------------------------------------------------------ calls

    fn at(&mut self, server: usize, call: Call, given: &[u8], out: usize) -> Result<(usize, Vec<u8>), Failure> {
        let memory = &mut self.servers[server].memory;
        let more = self.r.pick(&[0, 0, 1, 3]);
        let given_length = match call {
            Call::Update { .. } => given.len(),
            _ => given.len() + more,
        };
        memory.given = Lent::new(&mut self.r, given, given_length);
        memory.out = Lent::new(&mut self.r, &[], out + more);
        let number = self.run.call(call, memory)?;
        let reply = memory.out.bytes()[..out].to_vec();
        (memory.given, memory.out) = (Lent::default(), Lent::default());
        Ok((number, reply))
    }

    fn state(&self, server: usize) -> State {
        State::parse(self.servers[server].memory.state.bytes())
    }

    /// A call on a session, which is not refused. What it leaves in `out`.
    fn on_session(&mut self, call: Call, given: Lent, out: Lent) -> Result<Lent, Failure> {
        let mut lents = Lents { given, out, ..Lents::default() };
        match self.run.call(call, &mut lents)? {
            0 => Ok(lents.out),
            refusal => failed(format!("{call:?} is refused with {refusal}")),
        }
    }

    fn writes(&mut self, records: &[RecordBytes]) -> Writes {
        let mut writes = Writes::default();
        for &record in records {
            let next = self.names.len();
            writes.add(*self.names.entry(record).or_insert(next));
        }
        writes
    }

    // ------------------------------------------------------------ requests and replies

    fn ask(&mut self, write: bool) -> Result<(), Failure> {
        let phone = self.r.below(self.phones.len());
        let wanted = if write { Wanted::Write { value: self.r.u32(), time: self.r.u32() } } else { Wanted::Read };
        let asked = match wanted {
            Wanted::Read => self.asked_by(phone)?,
            Wanted::Write { .. } => vec![0; model::VECTOR],
        };
        let request = Request {
            phone,
            installed: self.phones[phone].installed,
            server: self.r.below(self.n as usize),
            cell: self.r.below(self.cells) as u16,
            wanted,
            asked,
            known: self.phones[phone].known.clone(),
        };
        if self.r.one_in(5) {
            self.requests.push(request.clone());
            if self.requests.len() > IN_FLIGHT {
                let lost = self.r.below(IN_FLIGHT);
                self.requests.swap_remove(lost);
            }
            if self.r.one_in(2) {
                return Ok(());
            }
        }
        self.serve(&request)
    }

    /// What the phone's next read carries.
    fn asked_by(&mut self, phone: usize) -> Result<Vec<u8>, Failure> {
        let length = model::VECTOR + self.r.pick(&[0, 0, 1, 3]);
        let out = Lent::new(&mut self.r, &[], length);
        let asked = self.on_session(Call::SessionAsks, self.phones[phone].session.clone(), out)?;
        Ok(asked.bytes()[..model::VECTOR].to_vec())
    }

    fn late_request(&mut self) -> Result<(), Failure> {
        if self.requests.is_empty() {
            return Ok(());
        }
        let which = self.r.below(self.requests.len());
        let request = if self.r.one_in(3) { self.requests[which].clone() } else { self.requests.swap_remove(which) };
        self.serve(&request)
    }

    fn serve(&mut self, request: &Request) -> Result<(), Failure> {
        let cut = self.r.percent(self.profile.request_cuts);
        let number = self.phones[request.phone].number;
        let own = request.server as u8;
        match (request.wanted, cut) {
            (Wanted::Write { value, time }, false) => {
                let call = Call::Write { server: own, phone: number, cell: request.cell, value, time };
                if let Some(performed) = self.write(request.server, call, &request.asked)? {
                    let writes = self.writes(&[performed]);
                    self.reply(request, true, performed[12..].to_vec(), writes)?;
                }
            }
            (Wanted::Write { value, time }, true) => {
                let stores = self.r.pick(&[0, 1, 27, 28, 29, 29, 30]);
                let stores = if self.r.one_in(2) { stores } else { self.r.below(30) as u32 };
                let call = Call::WriteCut { server: own, phone: number, cell: request.cell, value, time, stores };
                self.write_cut(request.server, call, &request.asked)?;
            }
            (Wanted::Read, true) => {
                let most = stores_of_read(&self.servers[request.server].memory, number);
                let stores = match self.r.below(6) {
                    0 => most + 1,
                    1 => most,
                    2 => most.saturating_sub(1),
                    3 => most.saturating_sub(2),
                    _ => self.r.from_to(0, most as usize) as u32,
                };
                let call = Call::ReadCut { server: own, phone: number, cell: request.cell, stores };
                self.at(request.server, call, &request.asked, 0)?;
            }
            (Wanted::Read, false) => {
                let call = Call::Read { server: own, phone: number, cell: request.cell };
                let (refusal, reply) = self.at(request.server, call, &request.asked, model::READ_REPLY)?;
                if refusal == 0 {
                    self.read_served(request, &reply)?;
                }
            }
        }
        Ok(())
    }

    /// Demand 3: every write of the read replies that the session received before asking is in
    /// the serving server's history, but under choice 2. Own writes: so is, but under choice 1,
    /// every write whose own reply the session received before asking.
    fn read_served(&mut self, request: &Request, reply: &[u8]) -> Result<(), Failure> {
        let (server, Known { choice, seen, wrote }) = (request.server, &request.known);
        let history = history_of(&self.servers[server].memory);
        let writes = self.writes(&history);
        let (seen, wrote) = (seen.met_in(&writes), wrote.met_in(&writes));
        if *choice != 2 && seen == Met::NotAll {
            return failed(format!("demand 3: server {server} served a read and misses a write"));
        }
        if *choice != 1 && wrote == Met::NotAll {
            return failed(format!("own writes: server {server} served a read and misses a write of the phone's"));
        }
        *self.run.tally.served.entry((*choice, seen, wrote)).or_default() += 1;
        let v = reply[5..].to_vec();
        let records: Vec<Record> = history.iter().map(|r| Record::parse(r)).collect();
        if model::vector(&v) != model::counts(&records, self.n) {
            return failed(format!("server {server}: the reply's vector is not its history's counts"));
        }
        self.reply(request, false, v, writes)
    }

    /// Sends a reply: it may be late, lost or repeated.
    fn reply(&mut self, request: &Request, written: bool, v: Vec<u8>, writes: Writes) -> Result<(), Failure> {
        let reply = Reply { phone: request.phone, installed: request.installed, written, v, writes };
        if self.r.one_in(5) {
            self.replies.push(reply.clone());
            if self.replies.len() > IN_FLIGHT {
                let lost = self.r.below(IN_FLIGHT);
                self.replies.swap_remove(lost);
            }
            if self.r.one_in(2) {
                return Ok(());
            }
        }
        self.receive(&reply)
    }

    fn late_reply(&mut self) -> Result<(), Failure> {
        if self.replies.is_empty() {
            return Ok(());
        }
        let which = self.r.below(self.replies.len());
        let reply = if self.r.one_in(3) { self.replies[which].clone() } else { self.replies.swap_remove(which) };
        self.receive(&reply)
    }

    fn receive(&mut self, reply: &Reply) -> Result<(), Failure> {
        if self.phones[reply.phone].installed != reply.installed && !self.late_replies_raise {
            return Ok(());
        }
        let call = if reply.written { Call::SessionRaiseWritten } else { Call::SessionRaise };
        let given = Lent::exactly(&mut self.r, &reply.v);
        let session = self.on_session(call, given, self.phones[reply.phone].session.clone())?;
        let phone = &mut self.phones[reply.phone];
        phone.session = session;
        let known = if reply.written { &mut phone.known.wrote } else { &mut phone.known.seen };
        known.add_all(&reply.writes);
        Ok(())
    }

    /// Begins a phone's session, of any choice.
    fn install(&mut self, phone: usize) -> Result<(), Failure> {
        let choice = self.r.from_to(1, 3) as u8;
        let length = Session::LENGTH + self.r.pick(&[0, 0, 1, 3]);
        let out = Lent::new(&mut self.r, &[], length);
        self.phones[phone].session = self.on_session(Call::SessionStart { choice }, Lent::default(), out)?;
        self.phones[phone].known = Known { choice, ..Known::default() };
        Ok(())
    }

    fn reinstall(&mut self) -> Result<(), Failure> {
        let phone = self.r.below(self.phones.len());
        self.phones[phone].installed += 1;
        self.install(phone)
    }

    /// The record performed, if any.
    fn write(&mut self, server: usize, call: Call, asked: &[u8]) -> Result<Option<RecordBytes>, Failure> {
        let expected = self.record_of(server, &call);
        let (refusal, reply) = self.at(server, call, asked, model::WRITE_REPLY)?;
        if refusal != 0 {
            return Ok(None);
        }
        let performed = *history_of(&self.servers[server].memory).last().unwrap();
        if performed != expected || reply != performed[12..] {
            return failed(format!("server {server}: the write performed is not the write asked for"));
        }
        self.servers[server].performed.push(performed);
        Ok(Some(performed))
    }

    fn write_cut(&mut self, server: usize, call: Call, asked: &[u8]) -> Result<(), Failure> {
        let record = self.record_of(server, &call);
        let (refusal, _) = self.at(server, call, asked, 0)?;
        if let (0, Call::WriteCut { stores: 29, .. }) = (refusal, call) {
            self.servers[server].logged.insert(record);
        }
        Ok(())
    }

    /// The record that a write makes of the server's next number and V.
    fn record_of(&self, server: usize, call: &Call) -> RecordBytes {
        let (Call::Write { phone, cell, value, time, .. } | Call::WriteCut { phone, cell, value, time, .. }) = *call
        else {
            unreachable!()
        };
        let mut t = self.state(server).v;
        t[server] += 1;
        Record { origin: server as u8, phone, cell, value, time, t }.bytes()
    }

    // ------------------------------------------------------------ updates

    fn make_message(&mut self) -> Result<(), Failure> {
        let server = self.r.below(self.n as usize);
        let size = model::MESSAGE_HEADER + self.state(server).held as usize * Record::LENGTH;
        let (refusal, message) = self.at(server, Call::Message, &[], size)?;
        if refusal != 0 {
            return Ok(());
        }
        let total = u16::from_le_bytes([message[6], message[7]]) as usize;
        if total != size {
            return failed(format!("server {server}: its message has the length {total}"));
        }
        let given = Lent::exactly(&mut self.r, &message);
        let mut lents = Lents { given, ..Lents::default() };
        if self.run.call(Call::MessageCheck, &mut lents)? != 0 {
            return failed(format!("server {server}: its own message is malformed"));
        }
        self.read_to_the_end(server, lents)?;
        self.messages.push(message);
        if self.messages.len() > IN_FLIGHT {
            let lost = self.r.below(IN_FLIGHT);
            self.messages.swap_remove(lost);
        }
        Ok(())
    }

    /// The server's own message, given in `lents`, is read as the server's history.
    fn read_to_the_end(&mut self, server: usize, mut lents: Lents) -> Result<(), Failure> {
        let length = Record::LENGTH + self.r.pick(&[0, 0, 1, 3]);
        lents.out = Lent::new(&mut self.r, &[], length);
        let mut at = self.run.call(Call::MessageFirst, &mut lents)?;
        for record in history_of(&self.servers[server].memory) {
            let behind = self.run.call(Call::MessageNext { at }, &mut lents)?;
            if behind != at + Record::LENGTH || lents.out.bytes()[..Record::LENGTH] != record {
                return failed(format!("server {server}: its message is not read as its history at {at}"));
            }
            at = behind;
        }
        if self.run.call(Call::MessageNext { at }, &mut lents)? != 0 {
            return failed(format!("server {server}: its message is read past its history's end"));
        }
        Ok(())
    }

    fn deliver(&mut self) -> Result<(), Failure> {
        if self.messages.is_empty() {
            return Ok(());
        }
        let which = self.r.below(self.messages.len());
        let message = if self.r.one_in(3) { self.messages.swap_remove(which) } else { self.messages[which].clone() };
        let server = self.r.below(self.n as usize);
        self.at(server, Call::Update { server: server as u8 }, &message, 0)?;
        Ok(())
    }

    // ------------------------------------------------------------ cuts and recoveries

    fn cut(&mut self) -> Result<(), Failure> {
        let server = self.r.below(self.n as usize);
        self.at(server, Call::Cut { server: server as u8 }, &[], 0)?;
        Ok(())
    }

    fn recover(&mut self) -> Result<(), Failure> {
        let down: Vec<usize> = (0..self.n as usize).filter(|&s| self.state(s).up == 0).collect();
        let server =
            if down.is_empty() || self.r.one_in(20) { self.r.below(self.n as usize) } else { self.r.pick(&down) };
        let (refusal, _) = self.at(server, Call::Recover { server: server as u8 }, &[], 0)?;
        if refusal == 0 {
            self.check_recovered(server, &self.servers[server].memory, None)?;
        } else if down.contains(&server) {
            return failed(format!("server {server} is down and does not recover"));
        }
        Ok(())
    }

    /// The history is the checkpoint's records and then later log records, with every own
    /// write that was replied to, and no own write but those and the ones logged whole
    /// (`also` is one more of them).
    fn check_recovered(&self, server: usize, memory: &Lents, also: Option<RecordBytes>) -> Result<(), Failure> {
        let image = memory.image.bytes();
        let own = |r: &Record| r.origin as usize == server;
        let mut expected = model::checkpoint(image);
        let checked = expected.iter().filter(|r| own(r)).count() as u16;
        expected.extend(model::log(image).iter().filter(|r| r.number() > Some(checked)));
        let history = history_of(memory);
        let found: Vec<Record> = history.iter().map(|r| Record::parse(r)).collect();
        if found != expected {
            return failed(format!("server {server}: recovered history is not checkpoint and later log"));
        }
        if memory.history.bytes()[history.len() * Record::LENGTH..model::HISTORY].iter().any(|&b| b != 0) {
            return failed(format!("server {server}: bytes past the recovered history are not zero"));
        }
        let own_writes: HashSet<&RecordBytes> =
            history.iter().zip(&found).filter(|(_, r)| own(r)).map(|(bytes, _)| bytes).collect();
        let Server { performed, logged, .. } = &self.servers[server];
        if performed.iter().any(|w| !own_writes.contains(w)) {
            return failed(format!("demand 3: server {server} recovered without a write it had replied to"));
        }
        let known: HashSet<&RecordBytes> = performed.iter().chain(logged).chain(&also).collect();
        if own_writes.iter().any(|&w| !known.contains(w)) {
            return failed(format!("server {server} recovered a write that no phone asked for"));
        }
        Ok(())
    }

    /// Every cut of the next write and of a read, each on a copy that then recovers.
    fn sweep(&mut self) -> Result<(), Failure> {
        let server = self.r.below(self.n as usize);
        let state = self.state(server);
        if state.up == 0 {
            return Ok(());
        }
        let own = server as u8;
        let cell = self.r.below(self.cells) as u16;
        let phone = self.phones[self.r.below(self.phones.len())].number;
        let (value, time) = (self.r.u32(), self.r.u32());
        let mut memory = self.servers[server].memory.clone();
        for stores in 0..=30 {
            let call = Call::WriteCut { server: own, phone, cell, value, time, stores };
            self.cut_copy(server, &memory, call)?;
        }
        let room = state.held < 256 && Header::parse(memory.image.bytes()).log_count < 64;
        self.run.tally.swept_writes += room as u64;

        // A read that takes a checkpoint: some phone's next, or one that reads a first time now.
        let seconds: Vec<u8> = (0..64).filter(|&i| stores_of_read(&memory, i) > 0).collect();
        let newcomers: Vec<u8> = (0..64).filter(|&i| !state.in_cr(i)).collect();
        let mut phone = phone;
        if !seconds.is_empty() {
            phone = self.r.pick(&seconds);
        } else if state.writes > 0 && !newcomers.is_empty() {
            phone = self.r.pick(&newcomers);
            memory.given = Lent::new(&mut self.r, &[0; model::VECTOR], model::VECTOR);
            memory.out = Lent::new(&mut self.r, &[], model::READ_REPLY);
            self.run.call(Call::Read { server: own, phone, cell }, &mut memory)?;
            (memory.given, memory.out) = (Lent::default(), Lent::default());
        }
        let most = stores_of_read(&memory, phone);
        let all = most <= 28 * 4 + 2 || self.r.one_in(60);
        for stores in 0..=most + 1 {
            if all || stores + 4 > most || self.r.one_in(100) {
                self.cut_copy(server, &memory, Call::ReadCut { server: own, phone, cell, stores })?;
            }
        }
        if all {
            *self.run.tally.swept_reads.entry(most / 28).or_default() += 1;
        }
        Ok(())
    }

    fn cut_copy(&mut self, server: usize, memory: &Lents, call: Call) -> Result<(), Failure> {
        let mut copy = memory.clone();
        copy.given = Lent::new(&mut self.r, &[0; model::VECTOR], model::VECTOR);
        if self.run.call(call, &mut copy)? != 0 {
            return Ok(());
        }
        if self.run.call(Call::Recover { server: server as u8 }, &mut copy)? != 0 {
            return failed(format!("server {server} does not recover after {call:?}"));
        }
        let logged = matches!(call, Call::WriteCut { stores: 29, .. });
        let also = logged.then(|| self.record_of(server, &call));
        if let Some(record) = also {
            if history_of(&copy).last() != Some(&record) {
                return failed(format!("server {server}: a write logged whole does not appear"));
            }
        }
        self.check_recovered(server, &copy, also)
    }

    // ------------------------------------------------------------ judge, status, look-up, wrong requests

    /// What a server has become is sound, up or down.
    fn judge_and_status(&mut self) -> Result<(), Failure> {
        let server = self.r.below(self.n as usize);
        if self.at(server, Call::Judge, &[], 0)?.0 != 0 {
            return failed(format!("server {server} is not sound"));
        }
        self.at(server, Call::Status, &[], model::STATUS_REPLY)?;
        Ok(())
    }

    fn look_up(&mut self) -> Result<(), Failure> {
        let server = self.r.below(self.n as usize);
        // A write that was replied to is found, byte for byte.
        let performed = &self.servers[server].performed;
        if !performed.is_empty() && self.r.one_in(2) {
            let bytes = performed[self.r.below(performed.len())];
            let record = Record::parse(&bytes);
            let number = record.number().unwrap_or(0) as u32;
            let (place, _) = self.at(server, Call::LookUp { origin: server as u8, number }, &[], 0)?;
            let image = self.servers[server].memory.image.bytes();
            if place < Header::LENGTH || image[place..place + Record::LENGTH] != bytes {
                return failed(format!("server {server}: write {number} was replied to and is not looked up"));
            }
            return Ok(());
        }
        let origin = self.r.below(self.n as usize + 1) as u8;
        let number = if self.r.one_in(4) { self.r.u32() } else { self.r.below(40) as u32 };
        self.at(server, Call::LookUp { origin, number }, &[], 0)?;
        Ok(())
    }

    /// A request or event that is out of range, ahead, or for another server.
    fn wrong(&mut self) -> Result<(), Failure> {
        let to = self.r.below(self.n as usize);
        let mut server = to as u8;
        let mut phone = self.phones[self.r.below(self.phones.len())].number;
        let mut cell = self.r.below(self.cells) as u16;
        let mut asked = [0; model::SERVERS];
        match self.r.below(6) {
            0 => server = self.r.pick(&[(to as u8 + 1) % self.n, self.n, 8, 255]),
            1 => phone = self.r.pick(&[64, 100, 255]),
            2 => cell = self.r.pick(&[1024, 0xffff]),
            3 => asked[self.r.below(8)] = 1,
            4 => {
                asked = self.state(to).v;
                asked[self.r.below(self.n as usize)] += 1;
            }
            _ => asked = self.state(to).v,
        }
        let asked = model::vector_bytes(&asked);
        let (value, time) = (self.r.u32(), self.r.u32());
        match self.r.below(4) {
            0 => {
                self.at(to, Call::Read { server, phone, cell }, &asked, model::READ_REPLY)?;
            }
            1 => {
                self.write(to, Call::Write { server, phone, cell, value, time }, &asked)?;
            }
            2 => {
                let stores = self.r.below(32) as u32;
                let call = Call::WriteCut { server, phone, cell, value, time, stores };
                self.write_cut(to, call, &asked)?;
            }
            _ => {
                let call = self.r.pick(&[Call::Cut { server }, Call::Recover { server }, Call::Update { server }]);
                let message = self.messages.first().cloned().unwrap_or_default();
                let given = if matches!(call, Call::Update { .. }) { &message[..] } else { &[] };
                if server != to as u8 {
                    self.at(to, call, given, 0)?;
                }
            }
        }
        Ok(())
    }

    /// A damaged copy of a server's memory.
    fn probe(&mut self) -> Result<(), Failure> {
        if !self.run.model {
            return Ok(());
        }
        let server = self.r.below(self.n as usize);
        let (call, mut lents) = hostile::probe(&mut self.r, &self.servers[server].memory);
        self.run.hostile_call(call, &mut lents)?;
        Ok(())
    }
}
