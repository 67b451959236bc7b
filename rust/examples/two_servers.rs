//! Two servers and a phone: writes, an update, reads by a session, a cut, and a recovery from the stored image.
//!
//! Run with `cargo run --example two_servers`.

use ssaldorip::{Cell, Choice, PhoneId, Refusal, Server, ServerId, Session, Write};

fn main() -> Result<(), Refusal> {
    let mut barn = Server::start(2, ServerId(0))?;
    let mut house = Server::start(2, ServerId(1))?;
    let (phone, cell) = (PhoneId(5), Cell(300));
    let mut session = Session::new(Choice::Both);

    let v = barn.write(phone, Write { cell, value: 7, time: 900 }, &session.for_write())?;
    // Here the barn's program stores barn.image(), before the reply goes out.
    session.raise_written(&v);
    // Here the phone stores session.to_bytes(), before it says that the note is saved.
    println!("the barn took the note: V = {v}; the next read asks for {}", session.for_read());

    // The house cannot see the barn yet. A program looks at the refusal and asks again later.
    match house.read(phone, cell, &session.for_read()) {
        Err(refusal) => println!("read at the house: {refusal}"),
        Ok(reply) => println!("read at the house: {:?}", reply.value),
    }

    // The message goes over some wire as bytes.
    let message = barn.message()?;
    println!("the barn sends {} bytes:\n{message}", message.as_bytes().len());
    house.update(&message)?;
    let reply = house.read(phone, cell, &session.for_read())?;
    session.raise(&reply);
    // Here the phone stores session.to_bytes() again, before it shows the value.
    println!("read at the house: {:?}", reply.value);

    // This stands for a disk. The barn's program ends, and a new one begins with what was stored.
    let disk = barn.image().to_vec();
    drop(barn);
    let mut barn = Server::from_image(&disk)?;
    barn.recover()?;
    println!("the barn is back: V = {}, {} write(s) held", barn.vector(), barn.writes().len());
    println!("read at the barn: {:?}", barn.read(phone, cell, &session.for_read())?.value);
    Ok(())
}
