//! Document 01's examples and document 02's sessions, by hand, on every library there is
//! (the model, and the archive if one is linked).

use ssaldorip_tests::call::Call;
use ssaldorip_tests::case::{Lent, Lents};
use ssaldorip_tests::library::{libraries, Library};
use ssaldorip_tests::model::VERSION;

/// A server and its three buffers, at their exact sizes.
struct Server<'a> {
    library: &'a dyn Library,
    own: u8,
    memory: Lents,
}

fn bytes(v: &[u16]) -> Vec<u8> {
    let mut bytes: Vec<u8> = v.iter().flat_map(|p| p.to_le_bytes()).collect();
    bytes.resize(16, 0);
    bytes
}

/// Makes a call with this to be read and this to be changed.
fn call(library: &dyn Library, call: Call, memory: &mut Lents, given: &[u8], out: &mut [u8]) -> usize {
    (memory.given, memory.out) = (Lent::of(given), Lent::of(out));
    let number = library.run(&call, memory);
    out.copy_from_slice(memory.out.bytes());
    number
}

/// Makes a call that needs no server.
fn alone(library: &dyn Library, of: Call, given: &[u8], out: &mut [u8]) -> usize {
    call(library, of, &mut Lents::default(), given, out)
}

impl<'a> Server<'a> {
    fn fresh(library: &'a dyn Library, n: u8, own: u8) -> Server<'a> {
        let [state, history, image] = [160, 7_168, 8_976].map(|size| Lent::of(&vec![7; size]));
        let memory = Lents { state, history, image, ..Lents::default() };
        let mut server = Server { library, own, memory };
        assert_eq!(server.call(Call::Start { n, own }, &[], &mut []), 0);
        assert!(server.history().iter().all(|&b| b == 0));
        assert_eq!(server.image()[..16], [n, own, 0, 0, 16, 0, 0, 0, 0x10, 0x1c, 0x10, 0x23, 0, 0, 0, 0]);
        assert!(server.image()[16..].iter().all(|&b| b == 0));
        server
    }

    fn copy(&self) -> Server<'a> {
        Server { library: self.library, own: self.own, memory: self.memory.clone() }
    }

    fn call(&mut self, of: Call, given: &[u8], out: &mut [u8]) -> usize {
        call(self.library, of, &mut self.memory, given, out)
    }

    fn write(&mut self, phone: u8, cell: u16, value: u32) -> Result<Vec<u8>, usize> {
        let (server, mut reply) = (self.own, [0; 16]);
        match self.call(Call::Write { server, phone, cell, value, time: 900 }, &[0; 16], &mut reply) {
            0 => Ok(reply.to_vec()),
            refusal => Err(refusal),
        }
    }

    fn write_cut(&mut self, phone: u8, cell: u16, value: u32, stores: u32) -> usize {
        let server = self.own;
        self.call(Call::WriteCut { server, phone, cell, value, time: 900, stores }, &[0; 16], &mut [])
    }

    /// The value, if there is a note.
    fn read(&mut self, phone: u8, cell: u16, asked: &[u16]) -> Result<Option<u32>, usize> {
        let (server, mut reply) = (self.own, [0; 21]);
        match self.call(Call::Read { server, phone, cell }, &bytes(asked), &mut reply) {
            0 => {
                assert_eq!(reply[5..], self.v());
                let value = u32::from_le_bytes(reply[1..5].try_into().unwrap());
                assert!(reply[0] == 1 || reply[..5] == [0; 5]);
                Ok((reply[0] == 1).then_some(value))
            }
            refusal => Err(refusal),
        }
    }

    fn read_cut(&mut self, phone: u8, cell: u16, stores: u32) -> usize {
        let server = self.own;
        self.call(Call::ReadCut { server, phone, cell, stores }, &[0; 16], &mut [])
    }

    fn message(&mut self) -> Vec<u8> {
        let mut out = vec![0; 7_176];
        assert_eq!(self.call(Call::Message, &[], &mut out), 0);
        out.truncate(u16::from_le_bytes([out[6], out[7]]) as usize);
        out
    }

    fn update(&mut self, message: &[u8]) -> usize {
        let server = self.own;
        self.call(Call::Update { server }, message, &mut [])
    }

    fn cut(&mut self) {
        let server = self.own;
        assert_eq!(self.call(Call::Cut { server }, &[], &mut []), 0);
    }

    fn recover(&mut self) {
        let server = self.own;
        assert_eq!(self.call(Call::Recover { server }, &[], &mut []), 0);
    }

    fn judge(&mut self) -> usize {
        self.call(Call::Judge, &[], &mut [])
    }

    /// How many phones are in CR and the lowest of them.
    fn status(&mut self) -> (u8, u8) {
        let mut reply = [9; 2];
        assert_eq!(self.call(Call::Status, &[], &mut reply), 0);
        (reply[0], reply[1])
    }

    fn look_up(&mut self, origin: u8, number: u32) -> usize {
        self.call(Call::LookUp { origin, number }, &[], &mut [])
    }

    fn state(&self) -> &[u8] {
        self.memory.state.bytes()
    }

    fn history(&self) -> &[u8] {
        self.memory.history.bytes()
    }

    fn image(&self) -> &[u8] {
        self.memory.image.bytes()
    }

    fn v(&self) -> Vec<u8> {
        self.state()[8..24].to_vec()
    }

    /// The checkpoint's count and the log's.
    fn counts(&self) -> (u16, u16) {
        let count = |at: usize| u16::from_le_bytes([self.image()[at], self.image()[at + 1]]);
        (count(2), count(6))
    }
}

#[test]
fn example_1() {
    for library in libraries() {
        let mut server = Server::fresh(library, 2, 0);
        assert_eq!(server.write(5, 300, 7), Ok(bytes(&[1, 0])));
        assert_eq!(server.v(), bytes(&[1, 0]));
        assert_eq!(server.read(5, 300, &[0, 1]), Err(3));
        assert_eq!(server.read(5, 300, &[1, 0]), Ok(Some(7)));
        assert_eq!(server.read(6, 301, &[1, 0]), Ok(None));
    }
}

#[test]
fn example_2() {
    for library in libraries() {
        let mut servers: Vec<Server> = (0..3).map(|own| Server::fresh(library, 3, own)).collect();
        assert_eq!(servers[1].write(1, 10, 11), Ok(bytes(&[0, 1, 0])));
        let from_1 = servers[1].message();
        assert_eq!(servers[0].update(&from_1), 0);
        assert_eq!(servers[0].write(1, 10, 12), Ok(bytes(&[1, 1, 0])));
        servers[0].cut();
        servers[0].recover();
        assert_eq!(servers[0].v(), bytes(&[1, 0, 0]));
        assert_eq!(servers[0].history()[12..18], [1, 0, 1, 0, 0, 0]);
        let from_0 = servers[0].message();
        assert_eq!(servers[2].update(&from_0), 0);
        assert_eq!(servers[2].v(), bytes(&[1, 0, 0]));
        assert_eq!(servers[2].read(2, 10, &[0, 1, 0]), Err(3));
        assert_eq!(servers[2].update(&from_1), 0);
        assert_eq!(servers[2].v(), bytes(&[1, 1, 0]));
        assert_eq!(servers[2].read(2, 10, &[0, 1, 0]), Ok(Some(12)));
    }
}

#[test]
fn example_3() {
    for library in libraries() {
        let (mut zero, mut one) = (Server::fresh(library, 2, 0), Server::fresh(library, 2, 1));
        assert_eq!(zero.write(1, 10, 100), Ok(bytes(&[1, 0])));
        assert_eq!(one.write(2, 10, 101), Ok(bytes(&[0, 1])));
        let (from_0, from_1) = (zero.message(), one.message());
        assert_eq!((zero.update(&from_1), one.update(&from_0)), (0, 0));
        assert_eq!(zero.read(3, 10, &[1, 1]), Ok(Some(101)));
        assert_eq!(one.read(3, 10, &[1, 1]), Ok(Some(101)));
    }
}

fn example_4_before_the_checkpoint(library: &dyn Library) -> Server<'_> {
    let mut server = Server::fresh(library, 2, 0);
    server.write(5, 300, 7).unwrap();
    assert_eq!(server.read(5, 300, &[]), Ok(Some(7)));
    assert_eq!(server.status(), (1, 5));
    server
}

#[test]
fn example_4() {
    for library in libraries() {
        let mut server = example_4_before_the_checkpoint(library);
        assert_eq!(server.read(5, 300, &[]), Ok(Some(7)));
        assert_eq!(server.counts(), (1, 0));
        assert_eq!(server.status(), (0, 255));
    }
}

#[test]
fn example_5() {
    for library in libraries() {
        let mut server = Server::fresh(library, 2, 0);
        server.read(5, 300, &[]).unwrap();
        server.write(5, 300, 7).unwrap();
        server.read(5, 300, &[]).unwrap();
        assert_eq!(server.counts(), (0, 1));
        assert_eq!(server.status(), (1, 5));
    }
}

#[test]
fn example_6() {
    for library in libraries() {
        let mut server = Server::fresh(library, 2, 0);
        server.read(5, 300, &[]).unwrap();
        server.read(5, 300, &[]).unwrap();
        server.write(5, 300, 7).unwrap();
        server.read(6, 300, &[]).unwrap();
        assert_eq!(server.counts(), (0, 1));
        assert_eq!(server.status(), (2, 5));
    }
}

#[test]
fn example_7() {
    for library in libraries() {
        for (stores, v, counted) in [(28, [0, 0], 0), (29, [1, 0], 1)] {
            let mut server = Server::fresh(library, 2, 0);
            assert_eq!(server.write_cut(5, 300, 7, stores), 0);
            assert_eq!(server.counts(), (0, counted));
            let down: Vec<u8> = [2].into_iter().chain([0; 159]).collect();
            assert_eq!(server.state(), down);
            server.recover();
            assert_eq!(server.v(), bytes(&v));
        }
        let mut server = Server::fresh(library, 2, 0);
        assert_eq!(server.write_cut(5, 300, 7, 30), 1);
    }
}

#[test]
fn example_8() {
    for library in libraries() {
        let before = example_4_before_the_checkpoint(library);
        for (stores, counts) in [(28, (0, 1)), (29, (1, 1)), (30, (1, 0))] {
            let mut server = before.copy();
            assert_eq!(server.read_cut(5, 300, stores), 0);
            assert_eq!(server.counts(), counts);
            server.recover();
            assert_eq!(server.v(), bytes(&[1, 0]));
            assert_eq!(server.state()[4..6], [1, 0]);
            assert_eq!(server.history()[..28], before.history()[..28]);
        }
        assert_eq!(before.copy().read_cut(5, 300, 31), 1);
    }
}

#[test]
fn example_9() {
    for library in libraries() {
        let mut one = Server::fresh(library, 2, 1);
        one.write(5, 300, 7).unwrap();
        one.write(5, 300, 8).unwrap();
        let second = one.message()[36..].to_vec();
        let mut message = vec![0; 36];
        assert_eq!(alone(library, Call::MessageWrite { n: 2, sender: 1 }, &second, &mut message), 0);
        assert_eq!(Server::fresh(library, 2, 0).update(&message), 7);
    }
}

#[test]
fn example_10() {
    for library in libraries() {
        let mut server = Server::fresh(library, 2, 0);
        for number in 1..=64 {
            assert_eq!(server.write(5, 300, 7), Ok(bytes(&[number, 0])));
        }
        assert_eq!(server.write(5, 300, 7), Err(5));

        // 256 held with a full log: three checkpoints of 64, then 64 writes.
        for _ in 0..3 {
            server.read(5, 300, &[]).unwrap();
            server.read(5, 300, &[]).unwrap();
            for _ in 0..64 {
                server.write(5, 300, 7).unwrap();
            }
        }
        assert_eq!((server.counts(), server.v()), ((192, 64), bytes(&[256, 0])));
        assert_eq!(server.write(5, 300, 7), Err(4));
        server.read(5, 300, &[]).unwrap();
        server.read(5, 300, &[]).unwrap();
        assert_eq!(server.counts(), (256, 0));
        assert_eq!(server.write(5, 300, 7), Err(4));
    }
}

#[test]
fn the_listing_examples_message() {
    let listed: Vec<u8> = [
        vec![0x02, 0x00, 0x01, 0x00, 0x08, 0x00, 0x24, 0x00],
        vec![0x00, 0x05, 0x2C, 0x01, 0x07, 0x00, 0x00, 0x00, 0x84, 0x03, 0x00, 0x00, 0x01, 0x00],
        vec![0; 14],
    ]
    .concat();
    for library in libraries() {
        let mut server = Server::fresh(library, 2, 0);
        server.write(5, 300, 7).unwrap();
        assert_eq!(server.message(), listed);
        assert_eq!(alone(library, Call::MessageCheck, &listed, &mut []), 0);
        assert_eq!(alone(library, Call::MessageCheck, &listed[..35], &mut []), 6);
        let mut written = vec![0xee; 40];
        assert_eq!(alone(library, Call::MessageWrite { n: 2, sender: 0 }, &listed[8..], &mut written), 0);
        assert_eq!(written, [&listed[..], &[0xee; 4]].concat());
        assert_eq!(server.look_up(0, 1), 7_184);
        assert_eq!(server.look_up(0, 2), 0);
        assert_eq!(server.look_up(1, 1), 0);
        assert_eq!(server.look_up(2, 1), 1);
    }
}

#[test]
fn a_message_is_read_record_by_record() {
    for library in libraries() {
        let mut server = Server::fresh(library, 2, 0);
        server.write(5, 300, 7).unwrap();
        server.write(6, 301, 8).unwrap();
        let message = server.message();
        let next = |at: usize, record: &mut [u8]| alone(library, Call::MessageNext { at }, &message, record);
        let mut record = [0xee; 30];
        let first = alone(library, Call::MessageFirst, &message, &mut []);
        assert_eq!(first, 8);
        assert_eq!(next(first, &mut record), 36);
        assert_eq!(record[..], [&server.history()[..28], &[0xee; 2]].concat());
        assert_eq!(next(36, &mut record), 64);
        assert_eq!(record[..], [&server.history()[28..56], &[0xee; 2]].concat());
        let last = record;
        for at in [64, 37, 63, 65, usize::MAX - 27, usize::MAX] {
            assert_eq!(next(at, &mut record), 0);
        }
        assert_eq!(alone(library, Call::MessageNext { at: 0 }, &[], &mut record), 0);
        for at in [8, 64] {
            assert_eq!(next(at, &mut record[..27]), 9);
        }
        assert_eq!(record, last);
    }
}

/// In what is no message the reading begins at the end, where nothing is left.
#[test]
fn what_is_no_message_has_nothing_to_read() {
    for library in libraries() {
        let mut server = Server::fresh(library, 2, 0);
        assert_eq!(alone(library, Call::MessageFirst, &server.message(), &mut []), 8);
        server.write(5, 300, 7).unwrap();
        let message = server.message();
        for other in [&[][..], &message[..7], &message[..8], &message[..35], &[&message[..], &[0]].concat()] {
            let first = alone(library, Call::MessageFirst, other, &mut []);
            assert_eq!(first, other.len());
            assert_eq!(alone(library, Call::MessageNext { at: first }, other, &mut [0; 28]), 0);
        }
    }
}

#[test]
fn a_server_is_judged_up_and_down() {
    for library in libraries() {
        let mut server = Server::fresh(library, 2, 0);
        server.write(5, 300, 7).unwrap();
        assert_eq!(server.judge(), 0);
        let mut one_more = server.copy();
        one_more.memory.state.bytes_mut()[4] = 2; // A write held that no record is of.
        assert_eq!(one_more.judge(), 6);
        server.cut();
        assert_eq!(server.judge(), 0);
        server.memory.history = Lent::of(&vec![9; 7_168]); // Down, the image alone counts.
        assert_eq!(server.judge(), 0);
        for at in [0, 1, 2, 6, 12, 7_184] {
            let mut spoilt = server.copy();
            spoilt.memory.image.bytes_mut()[at] += 1;
            assert_eq!(spoilt.judge(), 6, "byte {at} of the image");
        }
        for size in [159, 0] {
            let mut short = server.copy();
            short.memory.state = Lent::of(&vec![9; size]);
            assert_eq!(short.judge(), 9);
        }
        server.memory.history = Lent::of(&[0; 7_167]);
        assert_eq!(server.judge(), 9);
    }
}

#[test]
fn the_version_is_the_models() {
    for library in libraries() {
        assert_eq!(alone(library, Call::Version, &[], &mut []), VERSION as usize);
    }
}

/// The vector of reads, the vector of own writes, the choice, and bytes past the session.
fn session(reads: &[u16], writes: &[u16], choice: u8, past: &[u8]) -> Vec<u8> {
    [&bytes(reads)[..], &bytes(writes), &[choice], past].concat()
}

/// What the session's next read carries.
fn asks(library: &dyn Library, session: &[u8]) -> Vec<u8> {
    let mut asked = [0xee; 18];
    assert_eq!(alone(library, Call::SessionAsks, session, &mut asked), 0);
    assert_eq!(asked[16..], [0xee; 2]);
    asked[..16].to_vec()
}

#[test]
fn a_session_begins_at_zero() {
    for library in libraries() {
        for choice in 1..=3 {
            let mut begun = [0xee; 35];
            assert_eq!(alone(library, Call::SessionStart { choice }, &[], &mut begun), 0);
            assert_eq!(begun[..], [&[0; 32][..], &[choice, 0xee, 0xee]].concat());
            assert_eq!(asks(library, &begun), [0; 16]);
        }
    }
}

#[test]
fn both_vectors_are_raised_under_each_choice() {
    for library in libraries() {
        for choice in 1..=3 {
            let mut raised = session(&[3, 0, 256, 7], &[2, 6, 0, 0, 0, 0, 0, 0x0102], choice, &[9]);
            let by = bytes(&[1, 5, 255, 8, 1]);
            assert_eq!(alone(library, Call::SessionRaise, &by, &mut raised), 0);
            assert_eq!(raised, session(&[3, 5, 256, 8, 1], &[2, 6, 0, 0, 0, 0, 0, 0x0102], choice, &[9]));
            let by = session(&[3, 1, 1, 0, 0, 0, 0, 0x0201], &[9], 9, &[]); // Its first 16 bytes are the reply.
            assert_eq!(alone(library, Call::SessionRaiseWritten, &by, &mut raised), 0);
            assert_eq!(raised, session(&[3, 5, 256, 8, 1], &[3, 6, 1, 0, 0, 0, 0, 0x0201], choice, &[9]));
        }
    }
}

#[test]
fn a_read_carries_the_maximum_of_those_chosen() {
    let (reads, writes) = ([3, 5, 256, 8, 1, 0, 0, 0], [4, 6, 1, 0, 0, 0, 0, 0x0201]);
    for library in libraries() {
        for (choice, carried) in [(1, reads), (2, writes), (3, [4, 6, 256, 8, 1, 0, 0, 0x0201])] {
            assert_eq!(asks(library, &session(&reads, &writes, choice, &[])), bytes(&carried));
        }
    }
}

/// Every number but 1, 2 and 3 is refused with 1, as a choice and as byte 32 of a session, and
/// nothing is changed.
#[test]
fn an_unknown_choice_is_refused() {
    for library in libraries() {
        for choice in (0..=255).filter(|choice| ![1, 2, 3].contains(choice)) {
            let stored = session(&[3], &[4], choice, &[1, 2, 3]);
            for call in [Call::SessionStart { choice }, Call::SessionRaise, Call::SessionRaiseWritten] {
                let mut after = stored.clone();
                assert_eq!(alone(library, call, &bytes(&[9, 9]), &mut after), 1, "{call:?} of {choice}");
                assert_eq!(after, stored);
            }
            let mut asked = [0xee; 16];
            assert_eq!(alone(library, Call::SessionAsks, &stored, &mut asked), 1);
            assert_eq!(asked, [0xee; 16]);
        }
    }
}

/// 9 for what is lent, then 1, then 9 for the output.
#[test]
fn the_order_of_a_sessions_refusals() {
    for library in libraries() {
        for choice in [0, 1, 2, 3, 4] {
            let known = (1..=3).contains(&choice);
            // A session as it was stored before: 16 bytes. And one without its choice.
            for length in [0, 16, 32] {
                let short = vec![choice; length];
                for call in [Call::SessionStart { choice }, Call::SessionRaise, Call::SessionRaiseWritten] {
                    assert_eq!(alone(library, call, &[0; 16], &mut short.clone()), 9);
                }
                assert_eq!(alone(library, Call::SessionAsks, &short, &mut [0; 16]), 9);
                assert_eq!(alone(library, Call::SessionAsks, &short, &mut [0; 15]), 9);
            }
            let stored = session(&[3], &[4], choice, &[]);
            for call in [Call::SessionRaise, Call::SessionRaiseWritten] {
                assert_eq!(alone(library, call, &[0; 15], &mut stored.clone()), 9);
            }
            let no_room = alone(library, Call::SessionAsks, &stored, &mut [0; 15]);
            assert_eq!(no_room, if known { 9 } else { 1 });
        }
    }
}

/// "A grower saves a note, drives on, and the next server shows the field without it": so under
/// choice 1, and not yet under 2 and 3.
#[test]
fn a_phone_finds_its_own_writes() {
    for library in libraries() {
        for (choice, before) in [(1, Ok(None)), (2, Err(3)), (3, Err(3))] {
            let (mut zero, mut one) = (Server::fresh(library, 2, 0), Server::fresh(library, 2, 1));
            let mut phone = session(&[], &[], choice, &[]);
            let reply = zero.write(5, 300, 7).unwrap();
            assert_eq!(alone(library, Call::SessionRaiseWritten, &reply, &mut phone), 0);
            let asked: Vec<u16> = asks(library, &phone).chunks(2).map(|p| u16::from_le_bytes([p[0], p[1]])).collect();
            assert_eq!(one.read(5, 300, &asked), before);
            assert_eq!(one.update(&zero.message()), 0);
            assert_eq!(one.read(5, 300, &asked), Ok(Some(7)));
        }
    }
}

/// A tie of sum and origin is reachable: [1,1] from server 0, then [2,0] after a recovery.
#[test]
fn the_higher_number_wins_a_tie_of_sum_and_origin() {
    for library in libraries() {
        let (mut zero, mut one) = (Server::fresh(library, 2, 0), Server::fresh(library, 2, 1));
        one.write(1, 10, 1).unwrap();
        zero.update(&one.message());
        assert_eq!(zero.write(1, 20, 2), Ok(bytes(&[1, 1])));
        zero.cut();
        zero.recover();
        assert_eq!(zero.write(1, 20, 3), Ok(bytes(&[2, 0])));
        assert_eq!(zero.read(1, 20, &[]), Ok(Some(3)));
    }
}
