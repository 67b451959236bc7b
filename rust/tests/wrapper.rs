//! The package from outside: document 01's examples 1, 2, 4, 7 and 8, each refusal, recovery from a stored image, sessions,
//! messages.

use ssaldorip::{
    look_up, Cell, Choice, Message, NoRefusal, PhoneId, Read, Record, Records, Refusal, Server, ServerId, Session,
    Status, Vector, Write, HISTORY_LEN, IMAGE_LEN, STATE_LEN, WRITE_STORES,
};

const PHONE: PhoneId = PhoneId(5);
const CELL: Cell = Cell(300);
const NOTE: Write = Write { cell: CELL, value: 7, time: 900 };
const ZERO: &Vector = &Vector::ZERO;

fn fresh(n: u8, own: u8) -> Server {
    Server::start(n, ServerId(own)).unwrap()
}

fn v(counts: &[u16]) -> Vector {
    Vector::of(counts)
}

/// A record of phone 5, cell 300, value 7 and time 900.
fn record(origin: u8, timestamp: &[u16]) -> Record {
    Record { origin: ServerId(origin), phone: PHONE, cell: CELL, value: 7, time: 900, timestamp: v(timestamp) }
}

/// Runs a step that has to be refused, and to change no byte.
fn refused<T: std::fmt::Debug>(
    server: &mut Server,
    refusal: Refusal,
    step: impl FnOnce(&mut Server) -> Result<T, Refusal>,
) {
    let before = server.clone();
    assert_eq!(step(server).unwrap_err(), refusal);
    assert_eq!(*server, before);
}

/// A server that holds 256 own writes. Its log is emptied by a checkpoint after every 64: two reads of one phone.
fn full() -> Server {
    let mut server = fresh(2, 0);
    for _ in 0..4 {
        for _ in 0..64 {
            server.write(PHONE, NOTE, ZERO).unwrap();
        }
        server.read(PHONE, CELL, ZERO).unwrap();
        server.read(PHONE, CELL, ZERO).unwrap();
    }
    server
}

/// Reads to the end: these records in order, the length counted down, and then none for ever.
fn read_to_the_end(mut reader: Records, expected: &[Record]) {
    for (read, record) in expected.iter().enumerate() {
        assert_eq!(reader.len(), expected.len() - read);
        assert_eq!(reader.next(), Some(*record));
    }
    for _ in 0..3 {
        assert_eq!((reader.len(), reader.size_hint()), (0, (0, Some(0))));
        assert_eq!(reader.next(), None);
    }
}

// ---------------------------------------------------------------- document 01's examples

#[test]
fn example_1() {
    let mut server = fresh(2, 0);
    assert_eq!(server.write(PHONE, NOTE, ZERO), Ok(v(&[1, 0])));
    assert_eq!(server.vector(), v(&[1, 0]));
    refused(&mut server, Refusal::NotYet, |s| s.read(PHONE, CELL, &v(&[0, 1])));
    assert_eq!(server.read(PHONE, CELL, &v(&[1, 0])), Ok(Read { value: Some(7), vector: v(&[1, 0]) }));
    assert_eq!(server.read(PHONE, Cell(301), ZERO), Ok(Read { value: None, vector: v(&[1, 0]) }));
}

#[test]
fn example_2() {
    let [mut zero, mut one, mut two] = [0, 1, 2].map(|own| fresh(3, own));
    assert_eq!(one.write(PHONE, NOTE, ZERO), Ok(v(&[0, 1, 0])));
    zero.update(&one.message().unwrap()).unwrap();
    assert_eq!(zero.write(PHONE, NOTE, ZERO), Ok(v(&[1, 1, 0])));
    zero.cut().unwrap();
    zero.recover().unwrap();
    assert_eq!(zero.vector(), v(&[1, 0, 0]));
    assert_eq!(zero.writes().collect::<Vec<_>>(), [record(0, &[1, 1, 0])]);
    two.update(&zero.message().unwrap()).unwrap();
    assert_eq!(two.vector(), v(&[1, 0, 0]));
    refused(&mut two, Refusal::NotYet, |s| s.read(PHONE, CELL, &v(&[0, 1, 0])));
    two.update(&one.message().unwrap()).unwrap();
    assert_eq!(two.vector(), v(&[1, 1, 0]));
    assert_eq!(two.read(PHONE, CELL, &v(&[0, 1, 0])).unwrap().value, Some(7));
}

#[test]
fn example_4() {
    let mut server = fresh(2, 0);
    assert_eq!(server.status(), Ok(Status { phones: 0, lowest: None }));
    server.write(PHONE, NOTE, ZERO).unwrap();
    server.read(PHONE, CELL, ZERO).unwrap();
    assert_eq!((server.checkpoint_count(), server.log_count()), (0, 1));
    assert_eq!(server.status(), Ok(Status { phones: 1, lowest: Some(PHONE) }));
    server.read(PHONE, CELL, ZERO).unwrap();
    assert_eq!((server.checkpoint_count(), server.log_count()), (1, 0));
    assert_eq!(server.status(), Ok(Status { phones: 0, lowest: None }));
}

#[test]
fn example_7() {
    for (stores, after) in [(28, v(&[0, 0])), (WRITE_STORES, v(&[1, 0]))] {
        let mut server = fresh(2, 0);
        server.write_cut(PHONE, NOTE, ZERO, stores).unwrap();
        assert!(!server.is_up());
        server.recover().unwrap();
        assert!(server.is_up());
        assert_eq!(server.vector(), after);
    }
}

#[test]
fn example_8() {
    for (stores, counts) in [(28, (0, 1)), (29, (1, 1)), (30, (1, 0))] {
        let mut server = fresh(2, 0);
        server.write(PHONE, NOTE, ZERO).unwrap();
        server.read(PHONE, CELL, ZERO).unwrap();
        server.read_cut(PHONE, CELL, ZERO, stores).unwrap();
        assert_eq!((server.checkpoint_count(), server.log_count()), counts);
        server.recover().unwrap();
        assert_eq!(server.writes().collect::<Vec<_>>(), [record(0, &[1, 0])]);
    }
}

#[test]
fn the_listing() {
    let mut bytes = vec![2, 0, 1, 0, 8, 0, 0x24, 0];
    bytes.extend([0, 5, 0x2c, 1, 7, 0, 0, 0, 0x84, 3, 0, 0, 1, 0]);
    bytes.extend([0; 14]);
    let message = Message::from_bytes(bytes).unwrap();
    assert_eq!(message.to_string(), "servers 2 sender 0 writes 1\n0 1 5 300 7 900 1 0");
}

// ---------------------------------------------------------------- refusals

#[test]
fn refusal_1() {
    for (n, own) in [(0, 0), (9, 0), (2, 2), (255, 255)] {
        assert_eq!(Server::start(n, ServerId(own)), Err(Refusal::OutOfRange));
    }
    let mut server = fresh(2, 0);
    refused(&mut server, Refusal::OutOfRange, |s| s.read(PhoneId(64), CELL, ZERO));
    refused(&mut server, Refusal::OutOfRange, |s| s.read(PHONE, Cell(1024), ZERO));
    refused(&mut server, Refusal::OutOfRange, |s| s.read(PHONE, CELL, &v(&[0, 0, 1])));
    refused(&mut server, Refusal::OutOfRange, |s| s.write(PHONE, Write { cell: Cell(1024), ..NOTE }, ZERO));
    refused(&mut server, Refusal::OutOfRange, |s| s.write(PhoneId(64), NOTE, ZERO));
    refused(&mut server, Refusal::OutOfRange, |s| s.write_cut(PHONE, NOTE, ZERO, WRITE_STORES + 1));
    refused(&mut server, Refusal::OutOfRange, |s| s.read_cut(PHONE, CELL, ZERO, 1));
    refused(&mut server, Refusal::OutOfRange, |s| s.look_up(ServerId(2), 1));
    assert_eq!(Message::write(9, ServerId(0), &[]), Err(Refusal::OutOfRange));
    assert_eq!(Message::write(2, ServerId(2), &[]), Err(Refusal::OutOfRange));
}

#[test]
fn refusal_2() {
    let mut server = fresh(2, 0);
    refused(&mut server, Refusal::NotUp, Server::recover);
    server.cut().unwrap();
    refused(&mut server, Refusal::NotUp, Server::cut);
    refused(&mut server, Refusal::NotUp, |s| s.read(PHONE, CELL, ZERO));
    refused(&mut server, Refusal::NotUp, |s| s.read_cut(PHONE, CELL, ZERO, 0));
    refused(&mut server, Refusal::NotUp, |s| s.write(PHONE, NOTE, ZERO));
    refused(&mut server, Refusal::NotUp, |s| s.write_cut(PHONE, NOTE, ZERO, 0));
    refused(&mut server, Refusal::NotUp, |s| s.update(&fresh(2, 1).message().unwrap()));
    refused(&mut server, Refusal::NotUp, |s| s.status());
    refused(&mut server, Refusal::NotUp, |s| s.message());
}

#[test]
fn refusal_3() {
    let mut server = fresh(2, 0);
    refused(&mut server, Refusal::NotYet, |s| s.read(PHONE, CELL, &v(&[1, 0])));
    refused(&mut server, Refusal::NotYet, |s| s.write(PHONE, NOTE, &v(&[0, 1])));
}

#[test]
fn refusal_4() {
    let mut server = full();
    assert_eq!((server.checkpoint_count(), server.log_count(), server.writes().len()), (256, 0, 256));
    refused(&mut server, Refusal::HistoryFull, |s| s.write(PHONE, NOTE, ZERO));
    let other = Message::write(2, ServerId(1), &[record(1, &[0, 1])]).unwrap();
    refused(&mut server, Refusal::HistoryFull, |s| s.update(&other));
    // The greatest message there is goes out and is taken.
    let message = server.message().unwrap();
    assert_eq!((message.count(), message.as_bytes().len()), (256, Message::MOST));
    let mut one = fresh(2, 1);
    one.update(&message).unwrap();
    assert_eq!(one.vector(), v(&[256, 0]));
}

#[test]
fn refusal_5() {
    let mut server = fresh(2, 0);
    for number in 1..=64 {
        assert_eq!(server.write(PHONE, NOTE, ZERO), Ok(v(&[number])));
    }
    refused(&mut server, Refusal::LogFull, |s| s.write(PHONE, NOTE, ZERO));
}

#[test]
fn refusal_6() {
    assert_eq!(Message::check(&[]), Err(Refusal::Unsound));
    let good = Message::write(2, ServerId(1), &[record(1, &[0, 1])]).unwrap();
    let short = &good.as_bytes()[..35];
    assert_eq!(Message::try_from(short), Err(Refusal::Unsound));
    assert_eq!(Message::from_bytes([good.as_bytes(), &[0]].concat()), Err(Refusal::Unsound));
    // Number 0, and a position past N.
    assert_eq!(Message::write(2, ServerId(1), &[record(1, &[1, 0])]), Err(Refusal::Unsound));
    assert_eq!(Message::write(2, ServerId(1), &[record(1, &[0, 1, 1])]), Err(Refusal::Unsound));
    assert_eq!(Message::write(2, ServerId(1), &[record(1, &[0, 1]); 257]), Err(Refusal::Unsound));
    assert_eq!(Message::write(2, ServerId(1), std::iter::repeat(&record(1, &[0, 1]))), Err(Refusal::Unsound));

    let mut server = fresh(2, 0);
    refused(&mut server, Refusal::Unsound, |s| s.update(&fresh(3, 1).message().unwrap()));
    refused(&mut server, Refusal::Unsound, |s| s.update(&s.message().unwrap()));

    let mut image = *server.image();
    image[2] = 1; // A checkpoint of one record, which is zeros.
    assert_eq!(Server::from_image(&image), Err(Refusal::Unsound));
    assert_eq!(look_up(&image, ServerId(0), 1), Err(Refusal::Unsound));
    assert_eq!(Server::from_parts(server.state(), server.history(), &image), Err(Refusal::Unsound));
    let mut state = *server.state();
    state[3] = 1; // The spare byte.
    assert_eq!(Server::from_parts(&state, server.history(), server.image()), Err(Refusal::Unsound));
}

#[test]
fn refusal_7() {
    let message = Message::write(2, ServerId(1), &[record(1, &[0, 2])]).unwrap();
    refused(&mut fresh(2, 0), Refusal::Gap, |s| s.update(&message));
}

#[test]
fn refusal_8() {
    let message = Message::write(2, ServerId(1), &[record(0, &[1, 0])]).unwrap();
    refused(&mut fresh(2, 0), Refusal::OwnAhead, |s| s.update(&message));
}

#[test]
fn refusal_9() {
    let server = fresh(2, 0);
    let (state, history, image) = (server.state(), server.history(), server.image());
    assert_eq!(Server::from_parts(&state[..STATE_LEN - 1], history, image), Err(Refusal::TooShort));
    assert_eq!(Server::from_parts(state, &history[..HISTORY_LEN - 1], image), Err(Refusal::TooShort));
    assert_eq!(Server::from_parts(state, history, &image[..IMAGE_LEN - 1]), Err(Refusal::TooShort));
    assert_eq!(Server::from_image(&image[..IMAGE_LEN - 1]), Err(Refusal::TooShort));
    for short in [0, 1, 2] {
        assert_eq!(Server::from_image(&image[..short]), Err(Refusal::TooShort));
    }
    assert_eq!(look_up(&image[..IMAGE_LEN - 1], ServerId(0), 1), Err(Refusal::TooShort));
}

#[test]
fn refusals_and_numbers() {
    for (number, refusal) in (1..).zip(Refusal::ALL) {
        assert_eq!(refusal.number(), number);
        assert_eq!(Refusal::try_from(number), Ok(refusal));
        assert!(refusal.to_string().starts_with(&format!("refused {number}: ")));
    }
    for number in [0, 10, u32::MAX] {
        assert_eq!(Refusal::try_from(number), Err(NoRefusal(number)));
    }
    let as_error: Box<dyn std::error::Error + Send + Sync> = Refusal::NotYet.into();
    assert_eq!(as_error.to_string(), "refused 3: not yet: the server lacks a write that the phone has read or made");
}

// ---------------------------------------------------------------- the image

#[test]
fn recovery_from_a_stored_image() {
    let mut server = fresh(3, 1);
    for value in 1..=3 {
        server.write(PhoneId(9), Write { value, ..NOTE }, ZERO).unwrap();
    }
    server.read(PHONE, CELL, ZERO).unwrap();
    server.read(PHONE, CELL, ZERO).unwrap(); // A checkpoint of three.
    server.write(PhoneId(9), Write { value: 4, ..NOTE }, ZERO).unwrap();
    assert_eq!((server.checkpoint_count(), server.log_count()), (3, 1));

    let file = std::path::Path::new(env!("CARGO_TARGET_TMPDIR")).join("image");
    std::fs::write(&file, server.image()).unwrap();
    let stored = std::fs::read(&file).unwrap();
    let mut back = Server::from_image(&stored).unwrap();
    assert_eq!((back.servers(), back.own(), back.is_up()), (3, ServerId(1), false));
    assert_eq!((back.vector(), back.writes().len()), (Vector::ZERO, 0));
    assert_eq!(back.judge(), Ok(()));
    back.recover().unwrap();
    assert_eq!(back.image(), server.image());
    assert_eq!(back.history(), server.history());
    assert_eq!(back.vector(), v(&[0, 4, 0]));
    assert_eq!(back.read(PHONE, CELL, ZERO).unwrap().value, Some(4));

    // The same write from the checkpoint and from the log; others are not there.
    for number in 1..=4 {
        let found = look_up(&stored, ServerId(1), number).unwrap().unwrap();
        assert_eq!((found.value, u32::from(found.number()), found.phone), (number, number, PhoneId(9)));
        assert_eq!(back.look_up(ServerId(1), number), Ok(Some(found)));
    }
    for number in [0, 5, 257, 65_537, u32::MAX] {
        assert_eq!(look_up(&stored, ServerId(1), number), Ok(None));
    }
    assert_eq!(look_up(&stored, ServerId(0), 1), Ok(None));
}

#[test]
fn parts_up_and_down() {
    let mut server = fresh(2, 1);
    server.write(PHONE, NOTE, ZERO).unwrap();
    server.read(PHONE, CELL, ZERO).unwrap();
    for _ in 0..2 {
        let longer = [&server.image()[..], &[9; 5]].concat();
        assert_eq!(Server::from_parts(server.state(), server.history(), &longer), Ok(server.clone()));
        assert_eq!(server.judge(), Ok(()));
        if server.is_up() {
            server.cut().unwrap();
        }
    }
}

// ---------------------------------------------------------------- sessions

/// The vector of what was read, the vector of own writes, and the choice's number.
fn session_bytes(reads: &[u16], writes: &[u16], choice: u8) -> [u8; Session::LEN] {
    [&v(reads).to_bytes()[..], &v(writes).to_bytes(), &[choice]].concat().try_into().unwrap()
}

#[test]
fn choices_and_numbers() {
    for (number, choice) in (1..).zip(Choice::ALL) {
        assert_eq!((choice.number(), u8::from(choice)), (number, number));
        assert_eq!(Choice::try_from(number), Ok(choice));
    }
    for number in [0, 4, 255] {
        assert_eq!(Choice::try_from(number), Err(Refusal::OutOfRange));
    }
}

#[test]
fn a_new_session_is_at_zero() {
    for choice in Choice::ALL {
        let session = Session::new(choice);
        assert_eq!(session.choice(), choice);
        assert_eq!((session.for_read(), session.for_write()), (*ZERO, *ZERO));
        assert_eq!(session.to_bytes(), session_bytes(&[], &[], choice.number()));
    }
}

#[test]
fn both_vectors_are_raised_under_each_choice() {
    let (reads, writes) = ([3, 2, 256, 0, 0, 0, 0, 1], [2, 5, 0, 0, 0, 0, 0, 0xffff]);
    for (choice, carried) in
        [(Choice::Reads, reads), (Choice::Writes, writes), (Choice::Both, [3, 5, 256, 0, 0, 0, 0, 0xffff])]
    {
        let mut session = Session::new(choice);
        session.raise(&Read { value: None, vector: v(&[3, 0, 256, 0, 0, 0, 0, 1]) });
        session.raise(&Read { value: Some(1), vector: v(&[1, 2, 255]) });
        assert_eq!(session.to_bytes(), session_bytes(&reads, &[], choice.number()));
        session.raise_written(&v(&[0, 5, 0, 0, 0, 0, 0, 0xffff]));
        session.raise_written(&v(&[2, 4]));
        assert_eq!(session.to_bytes(), session_bytes(&reads, &writes, choice.number()));
        assert_eq!((session.for_read(), session.for_write()), (v(&carried), *ZERO));
        assert_eq!(session.choice(), choice);
    }
}

#[test]
fn a_session_as_bytes() {
    // The library knows the choices that the package knows.
    for number in 0..=255 {
        let bytes = session_bytes(&[1, 0x0201], &[0, 7], number);
        let session = Session::from_bytes(&bytes);
        assert_eq!(session.map(|session| session.choice()), Choice::try_from(number));
        assert_eq!(session.map(|session| session.to_bytes()).unwrap_or(bytes), bytes);
    }
    let bytes = session_bytes(&[1, 0x0201], &[0, 7], 3);
    assert_eq!((bytes[..4].to_vec(), bytes[16..20].to_vec(), bytes[32]), (vec![1, 0, 1, 2], vec![0, 0, 7, 0], 3));
    assert_eq!(
        format!("{:?}", Session::from_bytes(&bytes).unwrap()),
        "Session { reads: Vector([1, 513, 0, 0, 0, 0, 0, 0]), writes: Vector([0, 7, 0, 0, 0, 0, 0, 0]), choice: Both }"
    );
}

#[test]
fn a_session_of_an_old_store() {
    for choice in Choice::ALL {
        let session = Session::from_vector(choice, v(&[3, 0, 256]));
        assert_eq!(session.to_bytes(), session_bytes(&[3, 0, 256], &[], choice.number()));
    }
}

/// A phone that has written at one server asks another, before and after the update.
fn asks_elsewhere(session: &Session) -> [Result<Option<u32>, Refusal>; 2] {
    let (mut barn, mut house) = (fresh(2, 0), fresh(2, 1));
    barn.write(PHONE, NOTE, ZERO).unwrap();
    let before = house.read(PHONE, CELL, &session.for_read());
    house.update(&barn.message().unwrap()).unwrap();
    [before, house.read(PHONE, CELL, &session.for_read())].map(|reply| reply.map(|read| read.value))
}

#[test]
fn a_phone_finds_its_own_writes() {
    let reply = v(&[1, 0]);
    for choice in Choice::ALL {
        // Whose reply was forgotten is not known of.
        let mut session = Session::new(choice);
        assert_eq!(asks_elsewhere(&session), [Ok(None), Ok(Some(7))]);
        session.raise_written(&reply);
        let before = if choice == Choice::Reads { Ok(None) } else { Err(Refusal::NotYet) };
        assert_eq!(asks_elsewhere(&session), [before, Ok(Some(7))]);

        let mut session = Session::new(choice);
        session.raise(&Read { value: Some(7), vector: reply });
        let before = if choice == Choice::Writes { Ok(None) } else { Err(Refusal::NotYet) };
        assert_eq!(asks_elsewhere(&session), [before, Ok(Some(7))]);
    }
}

// ---------------------------------------------------------------- replies, messages

#[test]
fn a_read_reply_as_bytes() {
    for value in [None, Some(0), Some(0x0403_0201)] {
        let reply = Read { value, vector: v(&[1, 0x0201]) };
        assert_eq!(Read::from_bytes(&reply.to_bytes()), Some(reply));
    }
    let bytes = Read { value: Some(0x0403_0201), vector: v(&[1, 0x0201]) }.to_bytes();
    assert_eq!(bytes[..9], [1, 1, 2, 3, 4, 1, 0, 1, 2]);
    for (first, second) in [(0, 1), (2, 0)] {
        let mut bytes = [0; Read::LEN];
        (bytes[0], bytes[1]) = (first, second);
        assert_eq!(Read::from_bytes(&bytes), None);
    }
}

#[test]
fn messages_and_records() {
    let mut server = fresh(3, 2);
    let (first, second) = (
        Write { cell: Cell(1023), value: 0x0403_0201, time: 0x0807_0605 },
        Write { cell: Cell(0), value: u32::MAX, time: 0 },
    );
    server.write(PhoneId(63), first, ZERO).unwrap();
    server.write(PhoneId(0), second, ZERO).unwrap();
    let message = server.message().unwrap();
    assert_eq!((message.servers(), message.sender(), message.count()), (3, ServerId(2), 2));

    let records: Vec<Record> = message.records().collect();
    assert_eq!(message.records().len(), 2);
    assert_eq!(
        records[0],
        Record {
            origin: ServerId(2),
            phone: PhoneId(63),
            cell: first.cell,
            value: first.value,
            time: first.time,
            timestamp: v(&[0, 0, 1]),
        }
    );
    assert_eq!(records[0].to_bytes()[..12], [2, 63, 0xff, 3, 1, 2, 3, 4, 5, 6, 7, 8]);
    assert_eq!((records[1].number(), records[1].cell, records[1].value), (2, second.cell, second.value));
    assert_eq!(server.writes().collect::<Vec<_>>(), records);
    for r in &records {
        assert_eq!(Record::from_bytes(&r.to_bytes()), *r);
    }

    // Written again, and sent as bytes: the same message.
    assert_eq!(Message::write(3, ServerId(2), &records), Ok(message.clone()));
    assert_eq!(Message::from_bytes(message.as_bytes()), Ok(message.clone()));
    assert_eq!(Message::try_from(message.clone().into_bytes()), Ok(message));

    let empty = Message::write(1, ServerId(0), &[]).unwrap();
    assert_eq!((empty.count(), empty.records().count(), empty.as_bytes().len()), (0, 0, 8));
    assert_eq!(empty, fresh(1, 0).message().unwrap());
}

/// Record `i` of eight servers that write in turn. No two are alike, and no byte is zero in all of them.
fn unlike(i: u16) -> Record {
    let origin = i % 8;
    let mut timestamp = Vector([256; 8]);
    timestamp.0[usize::from(origin)] = i / 8 + 1;
    Record {
        origin: ServerId(origin as u8),
        phone: PhoneId((i % 64) as u8),
        cell: Cell(1023 - i),
        value: u32::from(i) * 0x0101_0101,
        time: u32::MAX - u32::from(i),
        timestamp,
    }
}

#[test]
fn a_message_is_read_to_the_end() {
    for count in [1, 2, 3, 64, 255, 256] {
        let records: Vec<Record> = (0..count).map(unlike).collect();
        let message = Message::write(8, ServerId(3), &records).unwrap();
        read_to_the_end(message.records(), &records);
        read_to_the_end((&message).into_iter(), &records);
        read_to_the_end(Message::from_bytes(message.as_bytes()).unwrap().records(), &records);
    }
}

#[test]
fn an_empty_message_is_read_to_the_end() {
    read_to_the_end(Message::write(8, ServerId(3), &[]).unwrap().records(), &[]);
    let mut server = fresh(2, 0);
    read_to_the_end(server.message().unwrap().records(), &[]);
    read_to_the_end(server.writes(), &[]);
    server.write(PHONE, NOTE, ZERO).unwrap();
    server.cut().unwrap();
    read_to_the_end(server.writes(), &[]); // Down, it holds none, whatever its history's bytes are.
}

#[test]
fn a_servers_message_is_read_to_the_end() {
    let mut server = fresh(8, 7);
    let theirs: Vec<Record> = (0..240).map(unlike).filter(|r| r.origin != server.own()).collect();
    server.update(&Message::write(8, ServerId(3), &theirs).unwrap()).unwrap();
    let timestamp = server.write(PHONE, NOTE, ZERO).unwrap();
    let records = [theirs, vec![Record { timestamp, ..record(7, &[]) }]].concat();
    read_to_the_end(server.message().unwrap().records(), &records);
    read_to_the_end(server.writes(), &records);

    let full = full();
    let records: Vec<Record> = (1..=256).map(|number| record(0, &[number])).collect();
    read_to_the_end(full.message().unwrap().records(), &records);
    read_to_the_end(full.writes(), &records);
}

#[test]
fn a_copied_reader_reads_on_alone() {
    let records: Vec<Record> = (0..5).map(unlike).collect();
    let message = Message::write(8, ServerId(3), &records).unwrap();
    let mut reader = message.records();
    reader.next();
    let copy = reader.clone();
    read_to_the_end(reader, &records[1..]);
    read_to_the_end(copy, &records[1..]);
}

#[test]
fn servers_go_to_other_threads() {
    fn can_go<T: Send + Sync + 'static>() {}
    can_go::<Server>();
    can_go::<Message>();
    can_go::<Session>();
    can_go::<Choice>();
}
