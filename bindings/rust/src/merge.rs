//! Merging of the recordings of a run's processes.
use crate::fault::{Error, FaultKind};
use crate::foreign::{self, CMergeFault};
use crate::trace::Determinant;
use crate::{MOST_ENTRIES, USUAL_ENTRIES};
use std::fmt::{self, Display, Formatter};

/// The first fault of recordings.
#[derive(Clone, Debug, PartialEq, Eq)]
pub struct MergeFault {
    /// The recording in which the line begins, from 0.
    pub recording: usize,
    /// The number of the line in it, from 1. Of [`MergeFaultKind::NoHeader`] it is the one that would come next.
    pub line: u32,
    /// What is wrong with it.
    pub kind: MergeFaultKind,
}

impl Display for MergeFault {
    fn fmt(&self, to: &mut Formatter<'_>) -> fmt::Result {
        write!(to, "line {} of recording {}: {}", self.line, self.recording, self.kind)
    }
}

/// What is wrong with recordings, with the values that explain it.
#[derive(Clone, Debug, PartialEq, Eq)]
#[non_exhaustive]
pub enum MergeFaultKind {
    /// Some process has no header.
    NoHeader {
        /// The processes that have none, ascending; empty if there is no header at all.
        missing: Vec<u8>,
    },
    /// Another line of this process has the same clock.
    Twice,
    /// The send sequence number is not the next one.
    WrongSsn {
        /// The sender.
        process: u8,
        /// The number that the line has.
        given: u32,
        /// The one that is the next.
        next: u32,
    },
    /// There is no such send to the process.
    NoSend {
        /// The receiver.
        process: u8,
        /// The message's sender.
        source: u8,
        /// The sender's incarnation.
        lane: u32,
        /// The message's number.
        ssn: u32,
    },
    /// The receive sequence number is not the next one.
    WrongRsn {
        /// The receiver.
        process: u8,
        /// The number that the line has.
        given: u32,
        /// The one that is the next.
        next: u32,
    },
    /// The message has been delivered.
    Doubled {
        /// The receiver.
        process: u8,
        /// The message's sender.
        source: u8,
        /// The message's number.
        ssn: u32,
    },
    /// There is no delivery of this determinant.
    NoDelivery(Determinant),
    /// Another fault, as of a text. [`FaultKind::Header`] is a header that differs from the first one.
    Line(FaultKind),
}

impl MergeFaultKind {
    /// Its number in nixu.h.
    fn number(&self) -> u32 {
        match self {
            MergeFaultKind::NoHeader { .. } => foreign::NO_HEADER,
            MergeFaultKind::Twice => foreign::TWICE,
            MergeFaultKind::WrongSsn { .. } => FaultKind::WrongSsn as u32,
            MergeFaultKind::NoSend { .. } => FaultKind::NoSend as u32,
            MergeFaultKind::WrongRsn { .. } => FaultKind::WrongRsn as u32,
            MergeFaultKind::Doubled { .. } => FaultKind::Doubled as u32,
            MergeFaultKind::NoDelivery(_) => FaultKind::NoDelivery as u32,
            MergeFaultKind::Line(kind) => *kind as u32,
        }
    }
}

/// The sentence that the program prints of the kind.
impl Display for MergeFaultKind {
    fn fmt(&self, to: &mut Formatter<'_>) -> fmt::Result {
        let mut out = [0; 128];
        let told = foreign::merge_fault_text(self.number(), &mut out);
        let sentence = out.get(..told.needed).and_then(|bytes| std::str::from_utf8(bytes).ok());
        to.write_str(sentence.filter(|_| told.status == foreign::OK).unwrap_or("a fault of another version"))
    }
}

/// The trace that the recordings of all processes of a run merge into, as `causal_tool merge` prints it, of up to
/// [`USUAL_ENTRIES`] entries. The recordings are read as one text, one after the other; a line that lacks its line feed goes on in the
/// next one.
///
/// ```
/// let recordings: [&[u8]; 2] = [
///     br#"["recording",0,1,2,4711]
/// ["send",0,1764118000000001,1,0]
/// "#,
///     br#"["recording",1,1,2,4711]
/// ["deliver",1,1764118000000002,0,0,0,0,[[0,0,1,0]]]
/// "#,
/// ];
/// let trace = nixu::merge(&recordings)?;
/// assert_eq!(nixu::audit(&trace, 1)?.deliveries, 1);
/// # Ok::<(), nixu::Error>(())
/// ```
///
/// # Errors
/// [`Error::Merge`] with the first fault of the recordings, and [`Error::NoMemory`].
pub fn merge(recordings: &[&[u8]]) -> Result<Vec<u8>, Error> {
    merge_within(recordings, USUAL_ENTRIES)
}

/// The same of up to so many entries, 1 to [`MOST_ENTRIES`]. The recordings have up to 1,024 bytes for each together, and at most
/// 2,147,483,648.
///
/// # Errors
/// [`Error::Entries`], and those of [`merge`].
pub fn merge_within(recordings: &[&[u8]], entries: u32) -> Result<Vec<u8>, Error> {
    if !(1..=MOST_ENTRIES).contains(&entries) {
        return Err(Error::Entries);
    }
    // The lines of a trace are shorter than those of recordings, but for its header and its end.
    let mut out = vec![0; recordings.iter().map(|text| text.len()).sum::<usize>() + 64];
    let mut fault = CMergeFault::default();
    let mut told = foreign::merge(recordings, entries, &mut out, &mut fault);
    if told.needed > out.len() {
        out.resize(told.needed, 0);
        told = foreign::merge(recordings, entries, &mut out, &mut fault);
    }
    match told.status {
        foreign::OK => {
            out.truncate(told.needed);
            Ok(out)
        }
        foreign::FAULT => Err(fault_of(&fault)),
        status => Err(Error::of_status(status)),
    }
}

fn fault_of(told: &CMergeFault) -> Error {
    let CMergeFault { recording, line, .. } = *told;
    kind_of(told).map_or(Error::OtherVersion, |kind| Error::Merge(MergeFault { recording, line, kind }))
}

fn kind_of(told: &CMergeFault) -> Option<MergeFaultKind> {
    let CMergeFault { kind, given, next, lane, ssn, rsn, process, source, dest, .. } = *told;
    if kind == foreign::NO_HEADER {
        let missing = (0..=u8::MAX).zip(told.missing).filter(|(_, is_in)| *is_in != 0).map(|(process, _)| process);
        return Some(MergeFaultKind::NoHeader { missing: missing.collect() });
    }
    if kind == foreign::TWICE {
        return Some(MergeFaultKind::Twice);
    }
    Some(match FaultKind::numbered(kind)? {
        FaultKind::WrongSsn => MergeFaultKind::WrongSsn { process, given, next },
        FaultKind::NoSend => MergeFaultKind::NoSend { process, source, lane, ssn },
        FaultKind::WrongRsn => MergeFaultKind::WrongRsn { process, given, next },
        FaultKind::Doubled => MergeFaultKind::Doubled { process, source, ssn },
        FaultKind::NoDelivery => MergeFaultKind::NoDelivery(Determinant { source, ssn, dest, rsn }),
        other => MergeFaultKind::Line(other),
    })
}
