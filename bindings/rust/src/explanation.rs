//! Explanations of verdicts, as values.
use crate::fault::Error;
use crate::foreign::{self, Fact, Summary};
use crate::stray::Stray;
use crate::trace::Determinant;
use crate::verdict::{self, Audit};

/// What an audit tells of a trace, and why it is so.
#[derive(Clone, Debug, PartialEq, Eq)]
pub struct Explanation {
    /// The verdict, with the trace's counts.
    pub audit: Audit,
    /// Why the verdict is so.
    pub reason: Reason,
    /// The first stray, if a recovery did not follow what survives.
    pub straying: Option<Straying>,
}

/// Why a verdict is so.
#[derive(Clone, Debug, PartialEq, Eq)]
pub enum Reason {
    /// Of an accepted run: the delivery that comes closest to having an orphan; `None` if none ever has one, for any number of
    /// failures.
    Accepted(Option<Closest>),
    /// More processes are down than may be.
    Exceeded {
        /// The crash that was one too many.
        cause: Cause,
        /// The processes that are down, ascending, each since its crash.
        down: Vec<Event>,
    },
    /// A delivery has an orphan.
    Orphan(Breach),
}

/// The delivery that has an orphan for the least number of failures. For fewer, down to the given number, the run is safe.
#[derive(Clone, Copy, Debug, PartialEq, Eq)]
pub struct Closest {
    /// That number of failures.
    pub faults: u16,
    /// The position of the delivery, from 0.
    pub delivery: u32,
    /// The first instant at which it has one.
    pub instant: u32,
    /// The process.
    pub orphan: u8,
}

/// How a delivery comes to have an orphan. The facts are those at the verdict's instant.
#[derive(Clone, Debug, PartialEq, Eq)]
pub struct Breach {
    /// The delivery's determinant, which is not in stable storage.
    pub determinant: Determinant,
    /// The entry by which the instant fails.
    pub cause: Cause,
    /// The processes with the determinant in their logs, ascending, each since an entry.
    pub holders: Vec<Event>,
    /// The processes that had it in their logs and lost it, ascending.
    pub losses: Vec<Loss>,
    /// The processes that are down, ascending, each since its crash.
    pub down: Vec<Event>,
    /// Events from the delivery to the orphan, each of which directly precedes the next.
    pub chain: Vec<Event>,
    /// The first delivery of the chain after which its receiver's log lacks the determinant.
    pub unlisted: Option<Arrival>,
    /// The first later delivery that brings it to a process that lacked it, by a message in transit at the instant.
    pub underway: Option<Arrival>,
}

/// What a process does, or what is so of it since then.
#[derive(Clone, Copy, Debug, PartialEq, Eq)]
pub struct Event {
    /// The process.
    pub process: u8,
    /// The position of the entry, from 0. It stands on line `entry + 2` of the text.
    pub entry: u32,
}

/// The delivery of a message.
#[derive(Clone, Copy, Debug, PartialEq, Eq)]
pub struct Arrival {
    /// The receiver.
    pub process: u8,
    /// The position of the delivery, from 0.
    pub entry: u32,
    /// The position of the send.
    pub send: u32,
}

/// The entry by which an instant fails: the last one before it.
#[derive(Clone, Copy, Debug, PartialEq, Eq)]
pub struct Cause {
    /// The process of the entry.
    pub process: u8,
    /// Its position, from 0.
    pub entry: u32,
    /// What it does.
    pub by: CauseKind,
}

/// What an entry does, by which an instant fails.
#[derive(Clone, Copy, Debug, PartialEq, Eq)]
pub enum CauseKind {
    /// The orphan delivers the message of the send entry at a position, so it depends on the delivery, and its log lacks the
    /// determinant.
    Delivery {
        /// The position of the send.
        send: u32,
    },
    /// The process crashes, and more are down than may be.
    Crash,
    /// The process restarts, and does not list the determinant, which is in the log of another.
    Restart,
    /// The process forgets the determinant, which is not in stable storage.
    Forgetting,
}

/// The log of a process had the determinant, and has lost it.
#[derive(Clone, Copy, Debug, PartialEq, Eq)]
pub struct Loss {
    /// The process.
    pub process: u8,
    /// The position of the entry by which it lost it last.
    pub entry: u32,
    /// What that entry does.
    pub by: LostBy,
}

/// What loses a determinant from a log.
#[derive(Clone, Copy, Debug, PartialEq, Eq)]
pub enum LostBy {
    /// A crash.
    Crash,
    /// A forgetting.
    Forgetting,
}

/// A stray, and who has which of its two determinants.
#[derive(Clone, Debug, PartialEq, Eq)]
pub struct Straying {
    /// The stray.
    pub stray: Stray,
    /// Who has the determinant of its first delivery.
    pub first: Copies,
    /// Who has that of its second.
    pub second: Copies,
}

/// Who has the determinant of a delivery.
#[derive(Clone, Debug, PartialEq, Eq)]
pub struct Copies {
    /// The processes with it in their logs, ascending, each since an entry.
    pub logged: Vec<Event>,
    /// Whether stable storage has it.
    pub stable: bool,
}

/// The kinds of facts of nixu.h.
mod kind {
    pub const DOWN: u32 = 1;
    pub const DELIVERY: u32 = 2;
    pub const CAUSE: u32 = 3;
    pub const HOLDER: u32 = 5;
    pub const LOSS: u32 = 7;
    pub const CHAIN: u32 = 9;
    pub const UNLISTED: u32 = 10;
    pub const UNDERWAY: u32 = 12;
    pub const CLOSEST: u32 = 14;
    pub const NEVER: u32 = 15;
    pub const STRAYED: u32 = 16;
    pub const LOGGED: u32 = 17;
    pub const STABLE: u32 = 18;
}

/// The kinds of entries of nixu.h.
const DELIVER: u32 = 1;
const CRASH: u32 = 3;
const RESTART: u32 = 4;
const FORGET: u32 = 5;

/// What a call gives with its facts. It is asked with a first room, and once more where that was too small.
pub(crate) fn ask(mut call: impl FnMut(&mut Summary, &mut [Fact], &mut usize) -> u32) -> Result<Explanation, Error> {
    let (mut told, mut facts, mut needed) = (Summary::default(), vec![Fact::default(); 64], 0);
    let mut status = call(&mut told, &mut facts, &mut needed);
    if status == foreign::OK && needed > facts.len() {
        facts.resize(needed, Fact::default());
        status = call(&mut told, &mut facts, &mut needed);
    }
    if status == foreign::MISUSED {
        return Err(Error::NoHeader);
    }
    let audit = verdict::told(status, &told)?;
    let facts = Facts(facts.get(..needed).ok_or(Error::OtherVersion)?);
    Ok(Explanation { audit, reason: facts.reason()?, straying: facts.straying() })
}

struct Facts<'a>(&'a [Fact]);

impl Facts<'_> {
    fn all(&self, kind: u32) -> impl Iterator<Item = &Fact> {
        self.0.iter().filter(move |fact| fact.kind == kind)
    }

    fn one(&self, kind: u32) -> Result<&Fact, Error> {
        self.all(kind).next().ok_or(Error::OtherVersion)
    }

    fn reason(&self) -> Result<Reason, Error> {
        if let Some(fact) = self.all(kind::CLOSEST).next() {
            let faults = u16::try_from(fact.faults).map_err(|_| Error::OtherVersion)?;
            let Fact { delivery, instant, process: orphan, .. } = *fact;
            return Ok(Reason::Accepted(Some(Closest { faults, delivery, instant, orphan })));
        }
        if self.all(kind::NEVER).next().is_some() {
            return Ok(Reason::Accepted(None));
        }
        match self.all(kind::DELIVERY).next() {
            Some(delivery) => self.breach(delivery).map(Reason::Orphan),
            None => Ok(Reason::Exceeded { cause: self.cause()?, down: self.events(kind::DOWN) }),
        }
    }

    fn breach(&self, delivery: &Fact) -> Result<Breach, Error> {
        let Fact { source, ssn, process: dest, rsn, .. } = *delivery;
        Ok(Breach {
            determinant: Determinant { source, ssn, dest, rsn },
            cause: self.cause()?,
            holders: self.events(kind::HOLDER),
            losses: self.all(kind::LOSS).map(loss).collect::<Result<_, _>>()?,
            down: self.events(kind::DOWN),
            chain: self.events(kind::CHAIN),
            unlisted: self.all(kind::UNLISTED).map(arrival).next(),
            underway: self.all(kind::UNDERWAY).map(arrival).next(),
        })
    }

    fn cause(&self) -> Result<Cause, Error> {
        let Fact { process, entry, send, by, .. } = *self.one(kind::CAUSE)?;
        let by = match by {
            DELIVER => CauseKind::Delivery { send },
            CRASH => CauseKind::Crash,
            RESTART => CauseKind::Restart,
            FORGET => CauseKind::Forgetting,
            _ => return Err(Error::OtherVersion),
        };
        Ok(Cause { process, entry, by })
    }

    fn events(&self, kind: u32) -> Vec<Event> {
        self.all(kind).map(event).collect()
    }

    fn straying(&self) -> Option<Straying> {
        let Fact { instant, process, rsn, delivery: first, second, .. } = *self.all(kind::STRAYED).next()?;
        let stray = Stray { instant, process, rsn, first, second };
        Some(Straying { stray, first: self.copies(first), second: self.copies(second) })
    }

    fn copies(&self, delivery: u32) -> Copies {
        Copies {
            logged: self.all(kind::LOGGED).filter(|fact| fact.delivery == delivery).map(event).collect(),
            stable: self.all(kind::STABLE).any(|fact| fact.delivery == delivery),
        }
    }
}

fn event(fact: &Fact) -> Event {
    Event { process: fact.process, entry: fact.entry }
}

fn arrival(fact: &Fact) -> Arrival {
    Arrival { process: fact.process, entry: fact.entry, send: fact.send }
}

fn loss(fact: &Fact) -> Result<Loss, Error> {
    let by = match fact.by {
        CRASH => LostBy::Crash,
        FORGET => LostBy::Forgetting,
        _ => return Err(Error::OtherVersion),
    };
    Ok(Loss { process: fact.process, entry: fact.entry, by })
}
