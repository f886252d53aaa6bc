//! Nodes: processes of a run that logs messages causally.
use crate::fault::Error;
use crate::foreign::{self, Handle, Shown};
use crate::foreign_node::{self as c, Kept, Listed};
use crate::node_fault::NodeFault;
use crate::trace::Determinant;

/// Which process of a run a node is, and where it begins.
#[derive(Clone, Copy, Debug, PartialEq, Eq)]
pub struct Identity {
    /// This process, from 0.
    pub process: u8,
    /// The number of processes, at most 256.
    pub processes: u16,
    /// The number of processes that may be down at once.
    pub faults: u16,
    /// A number that no other run has.
    pub run: u64,
    /// 0 if the recording is new; else one more than the number of its restarts. The process has to recover then.
    pub lane: u32,
    /// The greatest clock of the process's recording; 0 if it is new.
    pub clock: u64,
    /// A number that strangers do not know, for hash tables; only costs depend on it.
    pub seed: u64,
}

/// A message: write the line to the recording, then let the parcel go to its receiver.
#[derive(Clone, Debug, PartialEq, Eq)]
pub struct Sent {
    /// The send sequence number.
    pub ssn: u32,
    /// The clock of the send.
    pub clock: u64,
    /// The line of the recording.
    pub line: Vec<u8>,
    /// The bytes for the receiver.
    pub parcel: Vec<u8>,
}

/// A message again. It has no line.
#[derive(Clone, Debug, PartialEq, Eq)]
pub struct Resent {
    /// The receiver.
    pub to: u8,
    /// The bytes for it.
    pub parcel: Vec<u8>,
}

/// The name of a message.
#[derive(Clone, Copy, Debug, PartialEq, Eq, PartialOrd, Ord, Hash)]
pub struct MessageName {
    /// The sender.
    pub source: u8,
    /// The send sequence number.
    pub ssn: u32,
}

/// A message was delivered: write the line to the recording, then act on the body.
#[derive(Clone, Debug, PartialEq, Eq)]
pub struct Message {
    /// The sender.
    pub source: u8,
    /// Its lane (incarnation).
    pub lane: u32,
    /// The send sequence number.
    pub ssn: u32,
    /// The receive sequence number.
    pub rsn: u32,
    /// The clock of the delivery.
    pub clock: u64,
    /// The line of the recording.
    pub line: Vec<u8>,
    /// The body.
    pub body: Vec<u8>,
    /// What the delivery lists, ascending: usually acknowledged to the sender.
    pub listed: Vec<Determinant>,
}

/// What came with a parcel.
#[derive(Clone, Debug, PartialEq, Eq)]
pub enum Received {
    /// A message, which was delivered.
    Message(Message),
    /// Who asks recovers: let the parcel, which replies to it, go to it.
    Question(u8, Vec<u8>),
    /// This process holds determinants.
    Acknowledgement(u8),
    /// This process has replied with its log.
    Log(u8),
    /// This process has replied with its lane: the round is given up. Begin another.
    Number(u8),
    /// This process has replied that it is not up. The round may be given up.
    NotUp(u8),
}

/// What a node is about.
#[derive(Clone, Copy, Debug, PartialEq, Eq)]
pub enum Stage {
    /// It sends and receives messages.
    Up,
    /// A round has to begin.
    Down,
    /// Processes have still to reply to the round.
    Gathering,
    /// All have replied; stable storage has to be read.
    Reading,
    /// It can restart.
    Ready,
}

/// The state of a node, and how much it holds.
#[derive(Clone, Copy, Debug, PartialEq, Eq)]
pub struct NodeState {
    /// What it is about.
    pub stage: Stage,
    /// The greatest clock so far.
    pub clock: u64,
    /// The name of the round; 0 if there is none.
    pub round: u64,
    /// The lane (incarnation); the next one if the process is not up.
    pub lane: u32,
    /// The determinants in the log.
    pub logged: u32,
    /// The messages of the lane that were sent, and are kept.
    pub sent: u32,
    /// The messages that were delivered in the lane, whose names are kept.
    pub received: u32,
}

/// One process of a run that logs messages causally: it keeps the books, and who embeds it moves bytes, keeps the recording and stable
/// storage. `now` is the time in microseconds.
///
/// A call that is refused returns [`Error::Node`], and the node is as it was. After [`Error::NoMemory`] nobody may know what the call
/// has changed: the node is closed then, and the process has to end and recover.
///
/// ```
/// use nixu::{Identity, Node, Received};
///
/// let identity = Identity { process: 0, processes: 2, faults: 1, run: 7, lane: 0, clock: 0, seed: 1 };
/// let mut zero = Node::open(identity)?;
/// let mut one = Node::open(Identity { process: 1, ..identity })?;
/// let sent = zero.send(1000, 1, b"hello")?;
/// assert_eq!(sent.line, b"[\"send\",0,1000,1,0]\n");
/// match one.receive(1500, &sent.parcel)? {
///     Received::Message(message) => {
///         assert_eq!(message.line, b"[\"deliver\",1,1500,0,0,0,0,[[0,0,1,0]]]\n");
///         assert_eq!(message.body, b"hello");
///     }
///     _ => panic!("it is a message"),
/// }
/// # Ok::<(), nixu::Error>(())
/// ```
#[derive(Debug)]
pub struct Node(Handle);

impl Node {
    /// The node of a process. In lane 0 it is up. In a later lane it has to recover first: [`Node::begin_round`].
    ///
    /// # Errors
    /// [`NodeFault::Clock`], [`NodeFault::NoProcess`], and [`Error::NoMemory`].
    pub fn open(identity: Identity) -> Result<Node, Error> {
        let Identity { process, processes, faults, run, lane, clock, seed } = identity;
        let identity = c::Identity { run, clock, seed, lane, processes, faults, process };
        let mut node = Node(Handle::closed());
        node.call(|node, fault| c::open(node, &identity, fault))?;
        Ok(node)
    }

    /// Sends a message.
    ///
    /// # Errors
    /// [`NodeFault::NotUp`], [`NodeFault::NoProcess`], [`NodeFault::Full`], [`NodeFault::Long`] and [`NodeFault::Clock`].
    pub fn send(&mut self, now: u64, to: u8, body: &[u8]) -> Result<Sent, Error> {
        let mut sent = c::Sent::default();
        self.call(|node, fault| c::send(node, now, to, body, &mut sent, fault))?;
        let c::Sent { clock, parcel, ssn } = sent;
        Ok(Sent { ssn, clock, line: self.kept(c::LINE, 128)?, parcel: self.kept(c::PARCEL, parcel)? })
    }

    /// Receives a parcel.
    ///
    /// # Errors
    /// [`Error::Node`]: a parcel whose refusal [`NodeFault::is_later`] may be received later, any other is to be dropped.
    pub fn receive(&mut self, now: u64, parcel: &[u8]) -> Result<Received, Error> {
        let mut got = c::Received::default();
        self.call(|node, fault| c::receive(node, now, parcel, &mut got, fault))?;
        match got.kind {
            0 => self.message(&got).map(Received::Message),
            1 => Ok(Received::Acknowledgement(got.source)),
            2 => Ok(Received::Question(got.source, self.kept(c::PARCEL, got.parcel)?)),
            3 => Ok(Received::Log(got.source)),
            4 => Ok(Received::Number(got.source)),
            5 => Ok(Received::NotUp(got.source)),
            _ => Err(Error::OtherVersion),
        }
    }

    fn message(&mut self, got: &c::Received) -> Result<Message, Error> {
        let &c::Received { source, lane, ssn, rsn, clock, .. } = got;
        let (line, body) = (self.kept(c::LINE, 256)?, self.kept(c::BODY, got.body)?);
        Ok(Message { source, lane, ssn, rsn, clock, line, body, listed: self.listed(c::LISTED, got.listed)? })
    }

    /// The message that has to be delivered next, if the log names one: all others are refused with [`NodeFault::MustReplay`].
    ///
    /// # Errors
    /// [`Error::Closed`].
    pub fn due(&mut self) -> Result<Option<MessageName>, Error> {
        let mut due = c::Message::default();
        checked(c::due(&mut self.0, &mut due))?;
        let c::Message { source, ssn, exists } = due;
        Ok(if exists == 0 { None } else { Some(MessageName { source, ssn }) })
    }

    /// A message of this lane again, for a receiver that may have lost it; `None` if so many were not sent.
    ///
    /// # Errors
    /// [`NodeFault::Long`].
    pub fn resend(&mut self, ssn: u32) -> Result<Option<Resent>, Error> {
        let mut to = 0;
        match c::receiver(&mut self.0, ssn, &mut to) {
            foreign::MISUSED => return Ok(None),
            status => checked(status)?,
        }
        self.call(|node, fault| c::resend(node, ssn, fault))?;
        Ok(Some(Resent { to, parcel: self.kept(c::PARCEL, 1024)? }))
    }

    /// The parcel that says which of these determinants, which ascend, are logged here, and who is known to hold them.
    ///
    /// # Errors
    /// [`Error::Unsorted`]; [`NodeFault::NotUp`], [`NodeFault::NoProcess`], [`NodeFault::Long`] and [`NodeFault::Clock`].
    pub fn acknowledge(&mut self, now: u64, to: u8, listed: &[Determinant]) -> Result<Vec<u8>, Error> {
        if listed.windows(2).any(|pair| pair[0] >= pair[1]) {
            return Err(Error::Unsorted);
        }
        let listed: Vec<_> = listed.iter().map(|det| det.in_c()).collect();
        self.call(|node, fault| c::acknowledge(node, now, to, &listed, fault))?;
        self.kept(c::PARCEL, 1024)
    }

    /// What the node logs and does not know to be stable, ascending.
    ///
    /// # Errors
    /// [`Error::NoMemory`] and [`Error::Closed`].
    pub fn unstored(&mut self) -> Result<Vec<Determinant>, Error> {
        self.listed(c::UNSTORED, 16)
    }

    /// Storage has confirmed this determinant, or it was read there in a recovery, once all have replied. Returns the line.
    ///
    /// # Errors
    /// [`NodeFault::NoRound`], [`NodeFault::Waiting`] and [`NodeFault::Clock`].
    pub fn stored(&mut self, now: u64, determinant: Determinant) -> Result<Vec<u8>, Error> {
        self.call(|node, fault| c::stored(node, now, determinant.in_c(), fault))?;
        self.kept(c::LINE, 128)
    }

    /// Takes what is known to be stable out of the log. Returns the line, which has no bytes if nothing is forgotten.
    ///
    /// # Errors
    /// [`NodeFault::NotUp`] and [`NodeFault::Clock`].
    pub fn forget(&mut self, now: u64) -> Result<Vec<u8>, Error> {
        self.call(|node, fault| c::forget(node, now, fault))?;
        self.kept(c::LINE, 1024)
    }

    /// Begins a round, whose name no other round of the process has had, also in earlier lanes.
    ///
    /// # Errors
    /// [`NodeFault::Up`].
    pub fn begin_round(&mut self, name: u64) -> Result<(), Error> {
        self.call(|node, fault| c::begin_round(node, name, fault))
    }

    /// The parcel of the round's question, which may be asked again.
    ///
    /// # Errors
    /// [`NodeFault::Up`], [`NodeFault::NoRound`], [`NodeFault::NoProcess`] and [`NodeFault::Clock`].
    pub fn question(&mut self, now: u64, to: u8) -> Result<Vec<u8>, Error> {
        self.call(|node, fault| c::question(node, now, to, fault))?;
        self.kept(c::PARCEL, 128)
    }

    /// Who has still to reply to the round, ascending.
    ///
    /// # Errors
    /// [`Error::Closed`].
    pub fn awaited(&mut self) -> Result<Vec<u8>, Error> {
        let mut processes = [0; 256];
        checked(c::awaited(&mut self.0, &mut processes))?;
        Ok((0..=u8::MAX).zip(processes).filter(|(_, is_in)| *is_in != 0).map(|(process, _)| process).collect())
    }

    /// The least lane of each process that is accepted. Until the restart this is the view of the round: once stable storage is read for
    /// it, storage refuses writes of lesser lanes.
    ///
    /// # Errors
    /// [`Error::Closed`].
    pub fn view(&mut self) -> Result<Vec<u32>, Error> {
        filled(256, |out: &mut [u32]| c::view(&mut self.0, out))
    }

    /// In the place of its reply to the round of this name: `who` has ended, and `lane` is its next one. Only who starts processes
    /// knows that. The round may be given up.
    ///
    /// # Errors
    /// [`NodeFault::Up`] and [`NodeFault::Unasked`].
    pub fn take_ended(&mut self, name: u64, who: u8, lane: u32) -> Result<(), Error> {
        self.call(|node, fault| c::take_ended(node, name, who, lane, fault))
    }

    /// Storage has been read for the round of this name: [`Node::stored`] was called for all that it has.
    ///
    /// # Errors
    /// [`NodeFault::Up`], [`NodeFault::Unasked`] and [`NodeFault::Waiting`].
    pub fn finish_read(&mut self, name: u64) -> Result<(), Error> {
        self.call(|node, fault| c::finish_read(node, name, fault))
    }

    /// The process is up, with what its round has gathered. Returns the line.
    ///
    /// # Errors
    /// [`NodeFault::Up`], [`NodeFault::NoRound`], [`NodeFault::Waiting`] and [`NodeFault::Clock`].
    pub fn restart(&mut self, now: u64) -> Result<Vec<u8>, Error> {
        self.call(|node, fault| c::restart(node, now, fault))?;
        self.kept(c::LINE, 1024)
    }

    /// The header line of the process's recording, which follows a line feed at each opening.
    ///
    /// # Errors
    /// [`Error::Closed`].
    pub fn header(&mut self) -> Result<Vec<u8>, Error> {
        self.kept(c::HEADER, 128)
    }

    /// The state of the node.
    ///
    /// # Errors
    /// [`Error::Closed`].
    pub fn state(&mut self) -> Result<NodeState, Error> {
        let mut state = c::State::default();
        checked(c::inspect(&mut self.0, &mut state))?;
        let c::State { clock, round, stage, lane, logged, sent, received } = state;
        let stage = match stage {
            0 => Stage::Up,
            1 => Stage::Down,
            2 => Stage::Gathering,
            3 => Stage::Reading,
            4 => Stage::Ready,
            _ => return Err(Error::OtherVersion),
        };
        Ok(NodeState { stage, clock, round, lane, logged, sent, received })
    }

    fn call(&mut self, call: impl FnOnce(&mut Handle, &mut u32) -> u32) -> Result<(), Error> {
        let mut fault = 0;
        match call(&mut self.0, &mut fault) {
            foreign::FAULT => Err(NodeFault::numbered(fault).map_or(Error::OtherVersion, Error::Node)),
            foreign::NO_MEMORY => Err(self.close(Error::NoMemory)),
            status => checked(status),
        }
    }

    /// The bytes that the last call has kept. If there is no memory for them the process can't go on: the node is closed.
    fn kept(&mut self, kept: Kept, room: usize) -> Result<Vec<u8>, Error> {
        let written = filled(room, |out: &mut [u8]| c::kept(kept, &mut self.0, out));
        written.map_err(|error| self.close(error))
    }

    fn listed(&mut self, listed: Listed, room: usize) -> Result<Vec<Determinant>, Error> {
        let written = filled(room, |out: &mut [foreign::Determinant]| c::listed(listed, &mut self.0, out));
        written.map(|dets| dets.into_iter().map(Determinant::of_c).collect()).map_err(|error| self.close(error))
    }

    fn close(&mut self, error: Error) -> Error {
        c::close(&mut self.0);
        error
    }
}

impl Drop for Node {
    fn drop(&mut self) {
        c::close(&mut self.0);
    }
}

/// The line of a crash, for whoever has seen the process end. The clock is above each of its recording.
///
/// # Errors
/// [`Error::NoMemory`].
pub fn crash_line(process: u8, clock: u64) -> Result<Vec<u8>, Error> {
    filled(64, |out: &mut [u8]| c::crash_line(process, clock, out))
}

fn checked(status: u32) -> Result<(), Error> {
    match status {
        foreign::OK => Ok(()),
        status => Err(Error::of_status(status)),
    }
}

/// What a call writes. It is called with a first room, and once more where that was too small.
fn filled<T: Clone + Default>(room: usize, mut call: impl FnMut(&mut [T]) -> Shown) -> Result<Vec<T>, Error> {
    let mut out = vec![T::default(); room];
    let mut written = call(&mut out);
    if written.status == foreign::OK && written.needed > room {
        out.resize(written.needed, T::default());
        written = call(&mut out);
    }
    checked(written.status)?;
    out.truncate(written.needed);
    Ok(out)
}
