//! All reasons to refuse that a case has, whatever their order: to count which reasons
//! meet, and to check the model's own order against document 01's list a second time.

use crate::call::{Call, Kind};
use crate::case::Lents;
use crate::model::{self, Fault, Header, Message, Record, Session, State, Vector};

/// A reason that a lent byte or a number of the call shows. Bytes missing from a short
/// buffer show nothing; a number is taken from the state block as it stands.
#[derive(Clone, Copy, Debug, PartialEq, Eq, PartialOrd, Ord)]
pub enum Cause {
    ShortState,
    ShortAsked,
    ShortHistory,
    ShortImage,
    ShortSession,
    ShortReplyVector,
    Unsound,
    Down,
    Up,
    ServerNotOwn,
    Phone,
    Cell,
    PastN,
    N,
    Own,
    Origin,
    Sender,
    Choice,
    Message,
    MessageN,
    MessageFromReceiver,
    Records,
    NotYet,
    Gap,
    OwnAhead,
    Full,
    LogFull,
    ShortOut,
    CutCount,
    /// A reader's place: at the end, with a part of a record left, past the end, or so far
    /// that the place behind a record has no number.
    AtEnd,
    PartLeft,
    PastEnd,
    PlaceTooGreat,
}

/// The places of document 01's order, first to last.
#[derive(Clone, Copy, Debug, PartialEq, Eq, PartialOrd, Ord)]
pub enum Reason {
    /// 9 for what is lent
    Short9,
    /// 6 for state (or image)
    State6,
    Down2,
    Range1,
    /// 6 for message (or records)
    Message6,
    NotYet3,
    /// 7 and 8 stand at one place, by message order
    Gap7,
    OwnAhead8,
    Full4,
    LogFull5,
    /// 9 for output
    Output9,
    /// 1 for the cut count
    Cut1,
    /// No refusal: the 0 of a reader that has no whole record left
    End0,
}

impl Cause {
    pub fn reason(self) -> Reason {
        use Cause::*;
        match self {
            ShortState | ShortAsked | ShortHistory | ShortImage | ShortSession | ShortReplyVector => Reason::Short9,
            Unsound => Reason::State6,
            Down | Up => Reason::Down2,
            ServerNotOwn | Phone | Cell | PastN | N | Own | Origin | Sender | Choice => Reason::Range1,
            Message | MessageN | MessageFromReceiver | Records => Reason::Message6,
            NotYet => Reason::NotYet3,
            Gap => Reason::Gap7,
            OwnAhead => Reason::OwnAhead8,
            Full => Reason::Full4,
            LogFull => Reason::LogFull5,
            ShortOut => Reason::Output9,
            CutCount => Reason::Cut1,
            AtEnd | PartLeft | PastEnd | PlaceTooGreat => Reason::End0,
        }
    }
}

impl Reason {
    pub fn number(self) -> u32 {
        match self {
            Reason::Short9 | Reason::Output9 => 9,
            Reason::State6 | Reason::Message6 => 6,
            Reason::Down2 => 2,
            Reason::Range1 | Reason::Cut1 => 1,
            Reason::NotYet3 => 3,
            Reason::Gap7 => 7,
            Reason::OwnAhead8 => 8,
            Reason::Full4 => 4,
            Reason::LogFull5 => 5,
            Reason::End0 => 0,
        }
    }

    fn place(self) -> u32 {
        match self {
            Reason::OwnAhead8 => Reason::Gap7 as u32,
            other => other as u32,
        }
    }
}

/// What was found in one case.
pub struct Found {
    /// In document 01's order; 7 and 8 in the message's.
    pub causes: Vec<Cause>,
    /// The sentences broken, if the state is unsound and the buffers are long enough.
    pub faults: Vec<Fault>,
    /// Whether the state block says up, for the faults.
    pub up: bool,
}

impl Found {
    /// The reasons at their places, each once.
    pub fn reasons(&self) -> Vec<Reason> {
        let mut reasons: Vec<Reason> = Vec::new();
        for cause in &self.causes {
            if !reasons.contains(&cause.reason()) {
                reasons.push(cause.reason());
            }
        }
        reasons
    }
}

pub fn find(call: &Call, lents: &Lents) -> Found {
    let mut found = Found { causes: Vec::new(), faults: Vec::new(), up: false };
    match *call {
        Call::Version => {}
        Call::LookUp { origin, .. } => look_up(&mut found, lents.image.bytes(), origin),
        Call::MessageCheck | Call::MessageFirst => {
            if Message::parse(lents.given.bytes()).is_none() {
                found.causes.push(Cause::Message);
            }
        }
        Call::MessageWrite { n, sender } => {
            message_write(&mut found, n, sender, lents.given.bytes(), lents.out.bytes().len())
        }
        Call::MessageNext { at } => message_next(&mut found, lents.given.bytes(), at, lents.out.bytes().len()),
        Call::SessionStart { choice } => session(&mut found, lents.out.bytes(), Some(choice)),
        Call::SessionRaise | Call::SessionRaiseWritten => {
            stored_session(&mut found, lents.out.bytes());
            found.note(lents.given.bytes().len() < model::VECTOR, Cause::ShortReplyVector);
        }
        Call::SessionAsks => {
            stored_session(&mut found, lents.given.bytes());
            found.note(lents.out.bytes().len() < model::VECTOR, Cause::ShortOut);
        }
        _ => at_a_server(&mut found, call, lents),
    }
    // A stable sort: 7 and 8 share a place and stay in message order.
    found.causes.sort_by_key(|cause| cause.reason().place());
    found
}

impl Found {
    fn note(&mut self, present: bool, cause: Cause) {
        if present && !self.causes.contains(&cause) {
            self.causes.push(cause);
        }
    }
}

fn look_up(found: &mut Found, image: &[u8], origin: u8) {
    let header = (image.len() >= Header::LENGTH).then(|| Header::parse(image));
    found.note(image.len() < model::IMAGE, Cause::ShortImage);
    if image.len() >= model::IMAGE {
        found.faults = model::faults_of_image(image);
    } else if let Some(header) = &header {
        let state = State::down(header.n, header.own);
        let visible = model::faults_of_block_and_header(&state, header);
        found.note(!visible.is_empty(), Cause::Unsound);
    }
    found.note(!found.faults.is_empty(), Cause::Unsound);
    let n = header.map_or(8, |h| if (1..=8).contains(&h.n) { h.n } else { 8 });
    found.note(origin >= n, Cause::Origin);
}

fn message_write(found: &mut Found, n: u8, sender: u8, records: &[u8], room: usize) {
    let valid_n = (1..=8).contains(&n);
    found.note(!valid_n, Cause::N);
    found.note(sender >= if valid_n { n } else { 8 }, Cause::Sender);
    let count = records.len() / Record::LENGTH;
    let of = if valid_n { n } else { 8 };
    let malformed = records.chunks_exact(Record::LENGTH).any(|r| !Record::parse(r).well_formed(of));
    found.note(!records.len().is_multiple_of(Record::LENGTH) || count > 256 || malformed, Cause::Records);
    found.note(room < model::MESSAGE_HEADER + count * Record::LENGTH, Cause::ShortOut);
}

fn message_next(found: &mut Found, message: &[u8], at: usize, room: usize) {
    found.note(room < Record::LENGTH, Cause::ShortOut);
    let end = message.len();
    let behind = at.checked_add(Record::LENGTH);
    found.note(behind.is_none(), Cause::PlaceTooGreat);
    found.note(behind.is_some() && at > end, Cause::PastEnd);
    found.note(at == end, Cause::AtEnd);
    found.note(at < end && behind > Some(end), Cause::PartLeft);
}

fn session(found: &mut Found, bytes: &[u8], choice: Option<u8>) {
    found.note(bytes.len() < Session::LENGTH, Cause::ShortSession);
    found.note(choice.is_some_and(|choice| choice == 0 || choice > 3), Cause::Choice);
}

/// Its choice is among its bytes.
fn stored_session(found: &mut Found, bytes: &[u8]) {
    session(found, bytes, bytes.get(Session::CHOICE_AT).copied());
}

fn at_a_server(found: &mut Found, call: &Call, lents: &Lents) {
    let (state, history, image) = (lents.state.bytes(), lents.history.bytes(), lents.image.bytes());
    found.note(state.len() < model::STATE, Cause::ShortState);
    found.note(history.len() < model::HISTORY, Cause::ShortHistory);
    found.note(image.len() < model::IMAGE, Cause::ShortImage);
    let long_enough = found.causes.is_empty();
    let block = (state.len() >= model::STATE).then(|| State::parse(state));
    let header = (image.len() >= Header::LENGTH).then(|| Header::parse(image));
    let room = lents.out.bytes().len();

    if let Call::Start { n, own } = *call {
        let valid_n = (1..=8).contains(&n);
        found.note(!valid_n, Cause::N);
        found.note(own >= if valid_n { n } else { 8 }, Cause::Own);
        return;
    }

    if let Some(block) = &block {
        found.up = block.up == 1;
        if long_enough {
            found.faults = model::faults(state, history, image);
            found.note(!found.faults.is_empty(), Cause::Unsound);
        } else {
            found.note(visibly_unsound(block, header.as_ref()), Cause::Unsound);
        }
        match call.kind() {
            Kind::Judge => {}
            Kind::Recover => found.note(block.up == 1, Cause::Up),
            _ => found.note(block.up == 0, Cause::Down),
        }
    }

    let event = match *call {
        Call::Read { server, .. }
        | Call::ReadCut { server, .. }
        | Call::Write { server, .. }
        | Call::WriteCut { server, .. }
        | Call::Update { server }
        | Call::Cut { server }
        | Call::Recover { server } => Some(server),
        _ => None,
    };
    if let Some(server) = event {
        found.note(block.as_ref().map_or(server >= 8, |b| server != b.own), Cause::ServerNotOwn);
    }

    match *call {
        Call::Read { phone, cell, .. } => {
            request(found, block.as_ref(), phone, cell, lents.given.bytes());
            found.note(room < model::READ_REPLY, Cause::ShortOut);
        }
        Call::ReadCut { phone, cell, stores, .. } => {
            request(found, block.as_ref(), phone, cell, lents.given.bytes());
            let most = match (&block, &header) {
                (Some(block), Some(header)) if found.causes.is_empty() => stores_of_read(block, header, phone),
                _ => 28 * 256 + 2,
            };
            found.note(stores > most, Cause::CutCount);
        }
        Call::Write { phone, cell, .. } => {
            request(found, block.as_ref(), phone, cell, lents.given.bytes());
            room_for_write(found, block.as_ref(), header.as_ref());
            found.note(room < model::WRITE_REPLY, Cause::ShortOut);
        }
        Call::WriteCut { phone, cell, stores, .. } => {
            request(found, block.as_ref(), phone, cell, lents.given.bytes());
            room_for_write(found, block.as_ref(), header.as_ref());
            found.note(stores > 29, Cause::CutCount);
        }
        Call::Update { .. } => update(found, block.as_ref(), lents.given.bytes()),
        Call::Status => found.note(room < model::STATUS_REPLY, Cause::ShortOut),
        Call::Message => {
            if let Some(block) = &block {
                let need = model::MESSAGE_HEADER + block.held as usize * Record::LENGTH;
                found.note(room < need, Cause::ShortOut);
            }
        }
        _ => {}
    }
}

/// Unsound whatever a short buffer's missing bytes are.
fn visibly_unsound(block: &State, header: Option<&Header>) -> bool {
    let header_of_its_own = Header::new(block.n, block.own, 0, 0);
    let header = header.unwrap_or(&header_of_its_own);
    let not_down = State { spare: 0, ..block.clone() } != State::down(block.n, block.own);
    block.up > 1
        || !model::faults_of_block_and_header(block, header).is_empty()
        || block.up == 1 && block.held > 256
        || block.up == 0 && not_down
}

fn stores_of_read(block: &State, header: &Header, phone: u8) -> u32 {
    if block.in_cr(phone) && block.rw[phone as usize] > 0 {
        28 * (block.held - header.checkpoint_count) as u32 + 2
    } else {
        0
    }
}

fn request(found: &mut Found, block: Option<&State>, phone: u8, cell: u16, asked: &[u8]) {
    found.note(phone > 63, Cause::Phone);
    found.note(cell > 1023, Cause::Cell);
    if asked.len() < model::VECTOR {
        found.note(true, Cause::ShortAsked);
        return;
    }
    let asked: Vector = model::vector(asked);
    let Some(block) = block else { return };
    let n = if (1..=8).contains(&block.n) { block.n as usize } else { 8 };
    found.note(asked[n..].iter().any(|&p| p != 0), Cause::PastN);
    found.note((0..n).any(|i| block.v[i] < asked[i]), Cause::NotYet);
}

fn room_for_write(found: &mut Found, block: Option<&State>, header: Option<&Header>) {
    found.note(block.is_some_and(|b| b.held >= 256), Cause::Full);
    found.note(header.is_some_and(|h| h.log_count >= 64), Cause::LogFull);
}

/// The message at a server. Its records are walked even if the message is malformed, as
/// long as they are whole and their origins are below 8.
fn update(found: &mut Found, block: Option<&State>, message: &[u8]) {
    found.note(Message::parse(message).is_none(), Cause::Message);
    let Some(block) = block else { return };
    if message.len() < model::MESSAGE_HEADER {
        return;
    }
    found.note(message[0] != block.n, Cause::MessageN);
    found.note(message[1] == block.own, Cause::MessageFromReceiver);
    let mut v = block.v;
    let mut new = 0;
    for record in message[model::MESSAGE_HEADER..].chunks_exact(Record::LENGTH).map(Record::parse) {
        let Some(number) = record.number() else { return };
        let held = &mut v[record.origin as usize];
        if number <= *held {
            continue;
        }
        if record.origin == block.own {
            found.note(true, Cause::OwnAhead);
        } else if number as u32 > *held as u32 + 1 {
            found.note(true, Cause::Gap);
        } else {
            *held = number;
            new += 1;
        }
    }
    found.note(block.held as usize + new > 256, Cause::Full);
}
