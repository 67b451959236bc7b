//! A server: its three buffers, its steps and its reports.

use std::fmt;

use crate::ffi;
use crate::message::{Message, Record, Records};
use crate::refusal::Refusal;
use crate::session::Read;
use crate::vector::{bytes_at, u16_at, Cell, PhoneId, ServerId, Vector};

/// How many bytes a server's state has.
pub const STATE_LEN: usize = 160;

/// How many bytes a server's history has: 256 records.
pub const HISTORY_LEN: usize = 256 * Record::LEN;

/// How many bytes a server's image has: a header, 256 checkpoint records, 64 log records.
pub const IMAGE_LEN: usize = 16 + (256 + 64) * Record::LEN;

/// How many stores a write has, for [`Server::write_cut`]: the record's bytes and the log count.
pub const WRITE_STORES: u32 = Record::LEN as u32 + 1;

// Where the fields stand that are shown here, in the state and in the image.
const UP_AT: usize = 2;
const HELD_AT: usize = 4;
const V_AT: usize = 8;
const CHECKPOINT_COUNT_AT: usize = 2;
const LOG_COUNT_AT: usize = 6;

/// A server, up or down. It owns its state, its history and its image, and these are always sound together.
///
/// State and history are the server's memory, which a cut loses. The image is what is stored, and alone brings the server
/// back: store [`Server::image`] before the reply of a write or a read goes out, and after a restart give it to
/// [`Server::from_image`] and recover. Store it whole or not at all (a new file, then a rename), or else in store order: the
/// bytes of the new records in order, then the count, as [`Server::write_cut`] and [`Server::read_cut`] list the stores.
///
/// A step that is refused changes nothing. The library judges state and image anew at every call.
#[derive(Clone, PartialEq, Eq)]
pub struct Server {
    state: [u8; STATE_LEN],
    history: Box<[u8; HISTORY_LEN]>,
    image: Box<[u8; IMAGE_LEN]>,
}

/// What a write asks for.
#[derive(Clone, Copy, Debug, PartialEq, Eq, Hash)]
pub struct Write {
    /// The cell to write.
    pub cell: Cell,
    /// The value: a handle of the note's text.
    pub value: u32,
    /// The phone's time. It is passed on and decides nothing.
    pub time: u32,
}

/// A server's status: the phones in CR, those that have read since the last checkpoint, recovery or start.
#[derive(Clone, Copy, Debug, PartialEq, Eq, Hash)]
pub struct Status {
    /// How many phones are in CR.
    pub phones: u8,
    /// The lowest numbered of them, if any.
    pub lowest: Option<PhoneId>,
}

impl Server {
    /// Starts server `own` of `n` anew: up, with no writes.
    ///
    /// # Errors
    ///
    /// [`Refusal::OutOfRange`] if `n` is not 1 to 8 or `own` is not below `n`.
    pub fn start(n: u8, own: ServerId) -> Result<Server, Refusal> {
        let mut server = Server::blank();
        Refusal::answer(ffi::start(n, own.0, server.lend()))?;
        Ok(server)
    }

    /// A down server with this stored image, to be brought back by [`Server::recover`]. Bytes past [`IMAGE_LEN`] are left out.
    /// This also answers whether a stored image is good.
    ///
    /// # Errors
    ///
    /// [`Refusal::TooShort`] for fewer bytes than [`IMAGE_LEN`]; then [`Refusal::Unsound`] for an image that no down server
    /// has.
    pub fn from_image(image: &[u8]) -> Result<Server, Refusal> {
        // Down, with the image's N and own number. An image without these two bytes is refused as too short.
        let mut state = [0; STATE_LEN];
        if let Some(servers) = image.get(..2) {
            state[..2].copy_from_slice(servers);
        }
        Server::from_parts(&state, &[0; HISTORY_LEN], image)
    }

    /// The server, up or down, of these three buffers, which are copied. Bytes past their sizes are left out.
    ///
    /// # Errors
    ///
    /// [`Refusal::TooShort`] for a buffer shorter than its size; then [`Refusal::Unsound`] if they are not sound together.
    pub fn from_parts(state: &[u8], history: &[u8], image: &[u8]) -> Result<Server, Refusal> {
        Refusal::answer(ffi::judge(ffi::Seen { state, history, image }))?;
        let mut server = Server::blank();
        server.state.copy_from_slice(&state[..STATE_LEN]);
        server.history.copy_from_slice(&history[..HISTORY_LEN]);
        server.image.copy_from_slice(&image[..IMAGE_LEN]);
        Ok(server)
    }

    /// Serves a phone's read of a cell. `asked` is what the request carries: [`Session::for_read`](crate::Session::for_read).
    ///
    /// A second read may take a checkpoint, so the image is to be stored again before the reply goes out.
    ///
    /// # Errors
    ///
    /// In this order: [`Refusal::NotUp`]; [`Refusal::OutOfRange`] for phone, cell or a vector that is not zero past N;
    /// [`Refusal::NotYet`].
    pub fn read(&mut self, phone: PhoneId, cell: Cell, asked: &Vector) -> Result<Read, Refusal> {
        let (own, asked, mut reply) = (self.own().0, asked.to_bytes(), [0; Read::LEN]);
        Refusal::answer(ffi::read(self.lend(), own, phone.0, cell.0, &asked, &mut reply))?;
        Ok(Read::from_bytes(&reply).expect("the library's reply"))
    }

    /// The same read, cut after its first `stores` stores: these alone are in the image, and the server is down. For trying
    /// cuts one by one.
    ///
    /// A checkpoint has 28 stores for each record that it adds, and then 2 for the counts: its own, and the log's, which is
    /// then zero. Any other read has none.
    ///
    /// # Errors
    ///
    /// As [`Server::read`]; then [`Refusal::OutOfRange`] for more stores than the step has.
    pub fn read_cut(&mut self, phone: PhoneId, cell: Cell, asked: &Vector, stores: u32) -> Result<(), Refusal> {
        let (own, asked) = (self.own().0, asked.to_bytes());
        Refusal::answer(ffi::read_cut(self.lend(), own, phone.0, cell.0, &asked, stores))
    }

    /// Serves a phone's write. `asked` is what the request carries: [`Session::for_write`](crate::Session::for_write), zero
    /// from every phone. The reply is V, by which the phone raises its session:
    /// [`Session::raise_written`](crate::Session::raise_written).
    ///
    /// The write is in the image, which is to be stored before the reply goes out.
    ///
    /// # Errors
    ///
    /// In this order: [`Refusal::NotUp`]; [`Refusal::OutOfRange`] for phone, cell or a vector that is not zero past N;
    /// [`Refusal::NotYet`]; [`Refusal::HistoryFull`]; [`Refusal::LogFull`].
    pub fn write(&mut self, phone: PhoneId, write: Write, asked: &Vector) -> Result<Vector, Refusal> {
        let (own, asked, mut reply) = (self.own().0, asked.to_bytes(), [0; Vector::LEN]);
        let Write { cell, value, time } = write;
        Refusal::answer(ffi::write(self.lend(), own, phone.0, cell.0, value, time, &asked, &mut reply))?;
        Ok(Vector::from_bytes(&reply))
    }

    /// The same write, cut after its first `stores` stores, of [`WRITE_STORES`]: these alone are in the image, and the server
    /// is down. For trying cuts one by one. The stores are the record's 28 bytes in order, then the log count.
    ///
    /// # Errors
    ///
    /// As [`Server::write`]; then [`Refusal::OutOfRange`] for more stores than the step has.
    pub fn write_cut(&mut self, phone: PhoneId, write: Write, asked: &Vector, stores: u32) -> Result<(), Refusal> {
        let (own, asked) = (self.own().0, asked.to_bytes());
        let Write { cell, value, time } = write;
        Refusal::answer(ffi::write_cut(self.lend(), own, phone.0, cell.0, value, time, &asked, stores))
    }

    /// Takes another server's update: writes that the server has are skipped, new ones are appended. Nothing is stored.
    ///
    /// # Errors
    ///
    /// In this order: [`Refusal::NotUp`]; [`Refusal::Unsound`] for a message of another N or from this server;
    /// [`Refusal::Gap`] or [`Refusal::OwnAhead`], whichever is first in the message; [`Refusal::HistoryFull`].
    pub fn update(&mut self, message: &Message) -> Result<(), Refusal> {
        let own = self.own().0;
        Refusal::answer(ffi::update(self.lend(), own, message.as_bytes()))
    }

    /// Cuts the server: it is down, and its image is what is left.
    ///
    /// # Errors
    ///
    /// [`Refusal::NotUp`] if it is down already.
    pub fn cut(&mut self) -> Result<(), Refusal> {
        let own = self.own().0;
        Refusal::answer(ffi::cut(self.lend(), own))
    }

    /// Brings a down server back from its image: the checkpoint's writes and after them its later logged ones.
    ///
    /// # Errors
    ///
    /// [`Refusal::NotUp`] if the server is up.
    pub fn recover(&mut self) -> Result<(), Refusal> {
        let own = self.own().0;
        Refusal::answer(ffi::recover(self.lend(), own))
    }

    /// Are state, history and image sound together, up or down? So they were when the server was made, and every step keeps
    /// them so: this asks the library again, where the memory itself is in doubt.
    ///
    /// # Errors
    ///
    /// [`Refusal::Unsound`] if not.
    pub fn judge(&self) -> Result<(), Refusal> {
        Refusal::answer(ffi::judge(self.seen()))
    }

    /// How many phones are in CR, and the lowest numbered one.
    ///
    /// # Errors
    ///
    /// [`Refusal::NotUp`].
    pub fn status(&self) -> Result<Status, Refusal> {
        let mut reply = [0; 2];
        Refusal::answer(ffi::status(self.seen(), &mut reply))?;
        let [phones, lowest] = reply;
        Ok(Status { phones, lowest: (phones > 0).then_some(PhoneId(lowest)) })
    }

    /// The server's own update message: its history, for the other servers.
    ///
    /// # Errors
    ///
    /// [`Refusal::NotUp`].
    pub fn message(&self) -> Result<Message, Refusal> {
        let mut out = vec![0; Message::MOST];
        Refusal::answer(ffi::message(self.seen(), &mut out))?;
        Ok(Message::at_start_of(out))
    }

    /// Looks a write up in the server's image, up or down, by origin and number: none if it is not there.
    ///
    /// # Errors
    ///
    /// [`Refusal::OutOfRange`] if the origin is not below N.
    pub fn look_up(&self, origin: ServerId, number: u32) -> Result<Option<Record>, Refusal> {
        look_up(&self.image[..], origin, number)
    }

    /// N: how many servers there are.
    pub fn servers(&self) -> u8 {
        self.state[0]
    }

    /// The server's own number.
    pub fn own(&self) -> ServerId {
        ServerId(self.state[1])
    }

    /// Is the server up?
    pub fn is_up(&self) -> bool {
        self.state[UP_AT] == 1
    }

    /// V: how many writes of each server the history holds. Zero while the server is down.
    pub fn vector(&self) -> Vector {
        Vector::from_bytes(&bytes_at(&self.state, V_AT))
    }

    /// The writes of the history, in order. None while the server is down.
    pub fn writes(&self) -> Records<'_> {
        let held = usize::from(u16_at(&self.state, HELD_AT));
        Records::of(&self.history[..held * Record::LEN], 0)
    }

    /// How many writes the image's checkpoint has.
    pub fn checkpoint_count(&self) -> u16 {
        u16_at(&self.image[..], CHECKPOINT_COUNT_AT)
    }

    /// How many writes the image's log has.
    pub fn log_count(&self) -> u16 {
        u16_at(&self.image[..], LOG_COUNT_AT)
    }

    /// The state's bytes.
    pub fn state(&self) -> &[u8; STATE_LEN] {
        &self.state
    }

    /// The history's bytes.
    pub fn history(&self) -> &[u8; HISTORY_LEN] {
        &self.history
    }

    /// The image's bytes: what is to be stored.
    pub fn image(&self) -> &[u8; IMAGE_LEN] {
        &self.image
    }

    // Zeros, which are no server yet.
    fn blank() -> Server {
        Server { state: [0; STATE_LEN], history: Box::new([0; HISTORY_LEN]), image: Box::new([0; IMAGE_LEN]) }
    }

    fn lend(&mut self) -> ffi::Lent<'_> {
        ffi::Lent { state: &mut self.state, history: &mut self.history[..], image: &mut self.image[..] }
    }

    fn seen(&self) -> ffi::Seen<'_> {
        ffi::Seen { state: &self.state, history: &self.history[..], image: &self.image[..] }
    }
}

// The derived form would list some 16,000 bytes.
impl fmt::Debug for Server {
    fn fmt(&self, f: &mut fmt::Formatter<'_>) -> fmt::Result {
        f.debug_struct("Server")
            .field("servers", &self.servers())
            .field("own", &self.own())
            .field("up", &self.is_up())
            .field("vector", &self.vector())
            .field("checkpoint_count", &self.checkpoint_count())
            .field("log_count", &self.log_count())
            .finish_non_exhaustive()
    }
}

/// Looks a write up in a stored image, by origin and number: from the checkpoint or else from the log, or none if it is not
/// there. A number that cannot occur is not there.
///
/// # Errors
///
/// In this order: [`Refusal::TooShort`]; [`Refusal::Unsound`] for an image that no down server has; [`Refusal::OutOfRange`]
/// if the origin is not below the image's N.
pub fn look_up(image: &[u8], origin: ServerId, number: u32) -> Result<Option<Record>, Refusal> {
    match ffi::look_up(image, origin.0, number) {
        0 => Ok(None),
        // Places begin behind the image's header, so that none is a refusal's number.
        refusal @ 1..=9 => Err(Refusal::returned(refusal)),
        place => Ok(Some(Record::from_bytes(&bytes_at(image, place as usize)))),
    }
}
