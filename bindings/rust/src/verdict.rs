//! Verdicts.
use crate::fault::{Error, Fault};
use crate::foreign::{self, Summary};

/// What an audit tells of a trace.
#[derive(Clone, Debug, PartialEq, Eq)]
pub struct Audit {
    /// The trace's entries.
    pub entries: u32,
    /// How many of them are deliveries.
    pub deliveries: u32,
    /// Whether every instant is safe, and else why the first one isn't.
    pub verdict: Verdict,
}

/// An instant is what is so after so many entries. Processes ascend.
#[derive(Clone, Debug, PartialEq, Eq)]
pub enum Verdict {
    /// Every instant is safe.
    Accepted,
    /// At the first instant that is not safe more processes are down than may be.
    Exceeded {
        /// That instant.
        instant: u32,
        /// The processes that are down.
        down: Vec<u8>,
    },
    /// At the first instant that is not safe a delivery has an orphan.
    Orphan {
        /// That instant.
        instant: u32,
        /// The position of the first delivery that has one, from 0. It stands on line `delivery + 2` of the text.
        delivery: u32,
        /// The crash set: were these down, nobody could replay the delivery.
        crash: Vec<u8>,
        /// The least process that would be an orphan then.
        orphan: u8,
    },
}

/// What a status and the struct beside it tell.
pub(crate) fn told(status: u32, told: &Summary) -> Result<Audit, Error> {
    match status {
        foreign::OK => Ok(Audit { entries: told.entries, deliveries: told.deliveries, verdict: verdict(told)? }),
        foreign::FAULT => Err(Fault::told(told)),
        _ => Err(Error::of_status(status)),
    }
}

fn verdict(told: &Summary) -> Result<Verdict, Error> {
    let instant = told.instant;
    match told.kind {
        0 => Ok(Verdict::Accepted),
        1 => Ok(Verdict::Exceeded { instant, down: processes(told) }),
        2 => Ok(Verdict::Orphan {
            instant,
            delivery: told.delivery,
            crash: processes(told),
            orphan: u8::try_from(told.orphan).map_err(|_| Error::OtherVersion)?,
        }),
        _ => Err(Error::OtherVersion),
    }
}

fn processes(told: &Summary) -> Vec<u8> {
    (0..=u8::MAX).zip(told.processes).filter(|(_, is_in)| *is_in != 0).map(|(process, _)| process).collect()
}
