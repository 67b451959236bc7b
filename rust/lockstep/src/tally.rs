//! What a run has seen: numbers by call, reasons alone and together, sentences of
//! soundness broken alone; and what a full run must have seen.

use crate::call::{Call, Kind};
use crate::case::Lents;
use crate::model::Fault;
use crate::reasons::{self, Cause, Reason};
use std::collections::BTreeMap;

#[derive(Default)]
pub struct Tally {
    pub cases: u64,
    /// By whether the case was hostile.
    numbers: BTreeMap<(bool, Kind, u32), u64>,
    /// The reason reported and another that was there too.
    pairs: BTreeMap<(Kind, Reason, Reason), u64>,
    /// A cause that was the case's only one.
    alone: BTreeMap<(Kind, Cause), u64>,
    /// A sentence that was the only one broken, of an up state or not, the case having no
    /// other reason to be refused.
    faults: BTreeMap<(bool, Fault), u64>,
    /// Reads that were cut after each of their stores, by the records they checkpoint.
    pub swept_reads: BTreeMap<u32, u64>,
    /// Writes that were cut after each of their stores.
    pub swept_writes: u64,
    /// Reads served, by the session's choice and by how many of the writes that it had read,
    /// and of its own, the server had.
    pub served: BTreeMap<(u8, Met, Met), u64>,
}

/// How many of some writes were met.
#[derive(Clone, Copy, Debug, PartialEq, Eq, PartialOrd, Ord)]
pub enum Met {
    /// There were none.
    Nothing,
    All,
    NotAll,
}

impl Tally {
    pub fn returned(&mut self, hostile: bool, kind: Kind, number: usize) {
        // A cluster's message that is read to its end is one case, however long it is: the
        // other calls would be few among its records.
        let read_on = !hostile && kind == Kind::MessageNext && number != 0;
        self.cases += !read_on as u64;
        // What is no refusal, a place or the version, counts as 10.
        let number = match kind {
            Kind::Version | Kind::MessageFirst => 10,
            _ => number.min(10) as u32,
        };
        *self.numbers.entry((hostile, kind, number)).or_default() += 1;
    }

    /// Counts the reasons of a case before its call. What the call should return for the
    /// first of them, in document 01's order; none if there are none.
    pub fn reasons(&mut self, call: &Call, lents: &Lents) -> Option<usize> {
        let kind = call.kind();
        let found = reasons::find(call, lents);
        let reasons = found.reasons();
        let &first = reasons.first()?;
        for &other in &reasons[1..] {
            *self.pairs.entry((kind, first, other)).or_default() += 1;
        }
        if let [cause] = found.causes[..] {
            *self.alone.entry((kind, cause)).or_default() += 1;
            if let (Cause::Unsound, [fault]) = (cause, &found.faults[..]) {
                *self.faults.entry((found.up, *fault)).or_default() += 1;
            }
        }
        Some(match kind {
            // No refusal: the end of what is no message.
            Kind::MessageFirst => lents.given.bytes().len(),
            _ => first.number() as usize,
        })
    }

    /// What clusters were to show and did not.
    pub fn missing_in_clusters(&self) -> Vec<String> {
        let mut missing = Vec::new();
        for (kind, number) in MET_IN_CLUSTERS {
            if !self.numbers.contains_key(&(false, kind, number)) {
                missing.push(format!("{kind:?}: {number} in a cluster"));
            }
        }
        for records in 0..=4 {
            if !self.swept_reads.contains_key(&records) {
                missing.push(format!("every cut of a read that checkpoints {records}"));
            }
        }
        if self.swept_reads.keys().all(|&records| records < 20) {
            missing.push("every cut of a read that checkpoints 20 or more".to_string());
        }
        if self.swept_writes == 0 {
            missing.push("every cut of a write".to_string());
        }
        for (choice, read, own) in SERVED_IN_CLUSTERS {
            if !self.served.contains_key(&(choice, read, own)) {
                missing.push(format!("a read served under choice {choice}: had read {read:?}, own {own:?}"));
            }
        }
        missing
    }

    /// What hostile cases were to show and did not.
    pub fn missing_in_hostile_cases(&self) -> Vec<String> {
        let mut missing = Vec::new();
        for (kind, first, other) in pairs_that_can_meet() {
            if !self.pairs.contains_key(&(kind, first, other)) {
                missing.push(format!("{kind:?}: {first:?} with {other:?}"));
            }
        }
        for (kind, cause) in causes_that_can_be_alone() {
            if !self.alone.contains_key(&(kind, cause)) {
                missing.push(format!("{kind:?}: {cause:?} alone"));
            }
        }
        for fault in FAULTS_UP {
            if !self.faults.contains_key(&(true, fault)) {
                missing.push(format!("up state, {fault:?} alone"));
            }
        }
        for fault in FAULTS_DOWN {
            if !self.faults.contains_key(&(false, fault)) {
                missing.push(format!("down state, {fault:?} alone"));
            }
        }
        missing
    }

    pub fn report(&self) -> String {
        let mut text = String::new();
        for hostile in [false, true] {
            let of = if hostile { "hostile cases" } else { "clusters" };
            text += &format!("numbers returned in {of} (10 is a place or the version)\n");
            for &kind in Kind::ALL {
                text += &format!("  {:19}", format!("{kind:?}"));
                for number in 0..=10 {
                    if let Some(seen) = self.numbers.get(&(hostile, kind, number)) {
                        text += &format!(" {number}:{seen}");
                    }
                }
                text.push('\n');
            }
        }
        let swept: Vec<String> =
            self.swept_reads.iter().map(|(records, times)| format!("{records}:{times}")).collect();
        text += &format!(
            "writes cut after each store: {}\nreads cut after each store, by records checkpointed: {}\n",
            self.swept_writes,
            swept.join(" ")
        );
        text += "reads served under a choice (of the writes that it had read, of its own, the server had)\n ";
        for ((choice, read, own), times) in &self.served {
            text += &format!(" {choice}-{read:?}-{own:?}:{times}");
        }
        text += "\npairs of reasons (the one reported, one that was there too)\n";
        for &kind in Kind::ALL {
            let seen: Vec<String> = self
                .pairs
                .iter()
                .filter(|((of, _, _), _)| *of == kind)
                .map(|((_, first, other), times)| format!("{first:?}-{other:?}:{times}"))
                .collect();
            if !seen.is_empty() {
                text += &format!("  {kind:?} {}\n", seen.join(" "));
            }
        }
        text += "causes that were a case's only one\n";
        for &kind in Kind::ALL {
            let seen: Vec<String> = self
                .alone
                .iter()
                .filter(|((of, _), _)| *of == kind)
                .map(|((_, cause), times)| format!("{cause:?}:{times}"))
                .collect();
            if !seen.is_empty() {
                text += &format!("  {kind:?} {}\n", seen.join(" "));
            }
        }
        text += "sentences of soundness broken alone\n";
        for up in [true, false] {
            let seen: Vec<String> = self
                .faults
                .iter()
                .filter(|((of, _), _)| *of == up)
                .map(|((_, fault), times)| format!("{fault:?}:{times}"))
                .collect();
            text += &format!("  {} {}\n", if up { "up" } else { "down" }, seen.join(" "));
        }
        text
    }
}

/// Reads by which the choices differ.
const SERVED_IN_CLUSTERS: [(u8, Met, Met); 3] =
    [(1, Met::All, Met::NotAll), (2, Met::NotAll, Met::All), (3, Met::All, Met::All)];

/// What genuine clusters meet (7 and 8 cannot come of genuine messages).
const MET_IN_CLUSTERS: [(Kind, u32); 31] = [
    (Kind::Version, 10),
    (Kind::Read, 0),
    (Kind::Read, 1),
    (Kind::Read, 2),
    (Kind::Read, 3),
    (Kind::ReadCut, 0),
    (Kind::ReadCut, 1),
    (Kind::Write, 0),
    (Kind::Write, 1),
    (Kind::Write, 2),
    (Kind::Write, 3),
    (Kind::Write, 4),
    (Kind::Write, 5),
    (Kind::WriteCut, 0),
    (Kind::WriteCut, 1),
    (Kind::WriteCut, 4),
    (Kind::WriteCut, 5),
    (Kind::Update, 0),
    (Kind::Update, 2),
    (Kind::Update, 4),
    (Kind::Update, 6),
    (Kind::Recover, 0),
    (Kind::Recover, 2),
    (Kind::Judge, 0),
    (Kind::MessageFirst, 10),
    (Kind::MessageNext, 0),
    (Kind::MessageNext, 10),
    (Kind::SessionStart, 0),
    (Kind::SessionRaise, 0),
    (Kind::SessionRaiseWritten, 0),
    (Kind::SessionAsks, 0),
];

/// The reasons a call can give, in order.
fn reasons_of(kind: Kind) -> &'static [Reason] {
    use Reason::*;
    match kind {
        Kind::Version => &[],
        Kind::Start => &[Short9, Range1],
        Kind::Read => &[Short9, State6, Down2, Range1, NotYet3, Output9],
        Kind::ReadCut => &[Short9, State6, Down2, Range1, NotYet3, Cut1],
        Kind::Write => &[Short9, State6, Down2, Range1, NotYet3, Full4, LogFull5, Output9],
        Kind::WriteCut => &[Short9, State6, Down2, Range1, NotYet3, Full4, LogFull5, Cut1],
        Kind::Update => &[Short9, State6, Down2, Range1, Message6, Gap7, OwnAhead8, Full4],
        Kind::Cut | Kind::Recover => &[Short9, State6, Down2, Range1],
        Kind::Judge => &[Short9, State6],
        Kind::Status | Kind::Message => &[Short9, State6, Down2, Output9],
        Kind::LookUp => &[Short9, State6, Range1],
        Kind::MessageCheck | Kind::MessageFirst => &[Message6],
        Kind::MessageWrite => &[Range1, Message6, Output9],
        Kind::MessageNext => &[Output9, End0],
        Kind::SessionStart | Kind::SessionRaise | Kind::SessionRaiseWritten => &[Short9, Range1],
        Kind::SessionAsks => &[Short9, Range1, Output9],
    }
}

/// Every two reasons of a call, the first reported, but for those that cannot meet: a sound
/// down state holds no writes, and a message has at most 256, so 2 never meets 4; a session
/// that is too short has no choice that could be unknown.
pub fn pairs_that_can_meet() -> Vec<(Kind, Reason, Reason)> {
    let mut pairs = Vec::new();
    for &kind in Kind::ALL {
        let reasons = reasons_of(kind);
        for (i, &first) in reasons.iter().enumerate() {
            for &other in &reasons[i + 1..] {
                let shorter = (kind, first, other) == (Kind::SessionAsks, Reason::Short9, Reason::Range1);
                if (first, other) != (Reason::Down2, Reason::Full4) && !shorter {
                    pairs.push((kind, first, other));
                }
            }
        }
    }
    // By message order, 8 may come before 7.
    pairs.push((Kind::Update, Reason::OwnAhead8, Reason::Gap7));
    pairs
}

fn causes_that_can_be_alone() -> Vec<(Kind, Cause)> {
    use Cause::*;
    let mut causes = Vec::new();
    let mut add = |kind: Kind, of: &[Cause]| causes.extend(of.iter().map(|&cause| (kind, cause)));
    for kind in [
        Kind::Read,
        Kind::ReadCut,
        Kind::Write,
        Kind::WriteCut,
        Kind::Update,
        Kind::Cut,
        Kind::Recover,
        Kind::Judge,
        Kind::Status,
        Kind::Message,
    ] {
        add(kind, &[ShortState, ShortHistory, ShortImage, Unsound]);
        match kind {
            Kind::Judge => {}
            Kind::Recover => add(kind, &[Up]),
            _ => add(kind, &[Down]),
        }
    }
    for kind in [Kind::Read, Kind::ReadCut, Kind::Write, Kind::WriteCut] {
        add(kind, &[ShortAsked, ServerNotOwn, Phone, Cell, PastN, NotYet]);
    }
    for kind in [Kind::Write, Kind::WriteCut] {
        add(kind, &[Full, LogFull]);
    }
    for kind in [Kind::Read, Kind::Write, Kind::Status, Kind::Message] {
        add(kind, &[ShortOut]);
    }
    add(Kind::ReadCut, &[CutCount]);
    add(Kind::WriteCut, &[CutCount]);
    add(Kind::Update, &[ServerNotOwn, Message, MessageN, MessageFromReceiver, Gap, OwnAhead, Full]);
    add(Kind::Cut, &[ServerNotOwn]);
    add(Kind::Recover, &[ServerNotOwn]);
    add(Kind::Start, &[ShortState, ShortHistory, ShortImage, N, Own]);
    add(Kind::LookUp, &[ShortImage, Unsound, Origin]);
    add(Kind::MessageCheck, &[Message]);
    add(Kind::MessageFirst, &[Message]);
    add(Kind::MessageWrite, &[N, Sender, Records, ShortOut]);
    add(Kind::MessageNext, &[ShortOut, AtEnd, PartLeft, PastEnd, PlaceTooGreat]);
    add(Kind::SessionStart, &[ShortSession, Choice]);
    for kind in [Kind::SessionRaise, Kind::SessionRaiseWritten] {
        add(kind, &[ShortSession, ShortReplyVector, Choice]);
    }
    add(Kind::SessionAsks, &[ShortSession, Choice, ShortOut]);
    causes
}

/// Each can be the only sentence that an up state breaks.
const FAULTS_UP: [Fault; 19] = [
    Fault::Servers,
    Fault::Spare,
    Fault::HeaderServers,
    Fault::CheckpointOffset,
    Fault::LogOffset,
    Fault::Total,
    Fault::Zeros,
    Fault::CheckpointCount,
    Fault::LogCount,
    Fault::Held,
    Fault::Malformed,
    Fault::Numbering,
    Fault::Counts,
    Fault::Checkpoint,
    Fault::Log,
    Fault::Missing,
    Fault::Writes,
    Fault::ReadsAbove,
    Fault::ReadsOutside,
];

/// The same of a state that is not up: a down one's recovered state is judged, whose V,
/// nWrites, CR and RW are made by recovery and cannot be wrong alone.
const FAULTS_DOWN: [Fault; 15] = [
    Fault::Servers,
    Fault::UpByte,
    Fault::Spare,
    Fault::DownNumbers,
    Fault::HeaderServers,
    Fault::CheckpointOffset,
    Fault::LogOffset,
    Fault::Total,
    Fault::Zeros,
    Fault::CheckpointCount,
    Fault::LogCount,
    Fault::Held,
    Fault::Malformed,
    Fault::Numbering,
    Fault::Log,
];
