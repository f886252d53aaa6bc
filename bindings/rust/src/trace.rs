//! Traces that are made of entries.
use crate::explanation::{self, Explanation};
use crate::fault::{Error, FaultKind};
use crate::foreign::{self, Handle, Summary};
use crate::stray::{self, Stray};
use crate::verdict::{self, Audit};
use crate::{MOST_ENTRIES, USUAL_ENTRIES};

/// The determinant of a delivery.
#[derive(Clone, Copy, Debug, PartialEq, Eq, PartialOrd, Ord, Hash)]
pub struct Determinant {
    /// The message's sender.
    pub source: u8,
    /// Its send sequence number.
    pub ssn: u32,
    /// The receiver.
    pub dest: u8,
    /// The receive sequence number.
    pub rsn: u32,
}

impl Determinant {
    pub(crate) fn in_c(self) -> foreign::Determinant {
        let Determinant { source, ssn, dest, rsn } = self;
        foreign::Determinant { ssn, rsn, source, dest }
    }

    pub(crate) fn of_c(det: foreign::Determinant) -> Determinant {
        let foreign::Determinant { ssn, rsn, source, dest } = det;
        Determinant { source, ssn, dest, rsn }
    }
}

/// One step of a run. Positions of entries, and sequence numbers, count from 0.
#[derive(Clone, Debug, PartialEq, Eq)]
pub enum Entry {
    /// `from` sends its message number `ssn` to `to`.
    Send { from: u8, to: u8, ssn: u32 },
    /// `to` delivers the message of the send entry at the position `send`, as its delivery number `rsn`, and logs what is listed.
    Deliver { to: u8, send: u32, rsn: u32, listed: Vec<Determinant> },
    /// The determinant is in stable storage from here on.
    Stable(Determinant),
    /// `who` goes down.
    Crash { who: u8 },
    /// `who` comes up with what is listed in its log.
    Restart { who: u8, listed: Vec<Determinant> },
    /// `who` takes what is listed out of its log.
    Forget { who: u8, listed: Vec<Determinant> },
}

impl Entry {
    fn in_c(&self) -> foreign::Entry {
        let blank = foreign::Entry::default();
        match *self {
            Entry::Send { from, to, ssn } => foreign::Entry { kind: 0, source: from, dest: to, ssn, ..blank },
            Entry::Deliver { to, send, rsn, .. } => foreign::Entry { kind: 1, dest: to, send, rsn, ..blank },
            Entry::Stable(Determinant { source, ssn, dest, rsn }) => {
                foreign::Entry { kind: 2, source, ssn, dest, rsn, ..blank }
            }
            Entry::Crash { who } => foreign::Entry { kind: 3, who, ..blank },
            Entry::Restart { who, .. } => foreign::Entry { kind: 4, who, ..blank },
            Entry::Forget { who, .. } => foreign::Entry { kind: 5, who, ..blank },
        }
    }

    fn listed(&self) -> &[Determinant] {
        match self {
            Entry::Deliver { listed, .. } | Entry::Restart { listed, .. } | Entry::Forget { listed, .. } => listed,
            _ => &[],
        }
    }
}

/// A trace that is made entry by entry, without text.
///
/// ```
/// use nixu::{Entry, Trace, Verdict};
///
/// let mut trace = Trace::new(2)?;
/// trace.push(&Entry::Send { from: 0, to: 1, ssn: 0 })?;
/// trace.push(&Entry::Crash { who: 0 })?;
/// assert_eq!(trace.audit(0)?.verdict, Verdict::Exceeded { instant: 2, down: vec![0] });
/// assert_eq!(trace.text()?, "[\"trace\",1,2]\n[\"send\",0,1,0]\n[\"crash\",0]\n[\"end\",2]\n");
/// # Ok::<(), nixu::Error>(())
/// ```
#[derive(Debug)]
pub struct Trace(Handle);

impl Trace {
    /// A trace of so many processes, 1 to 256, that has no entries and may have up to [`USUAL_ENTRIES`].
    ///
    /// # Errors
    /// [`Error::Processes`] and [`Error::NoMemory`].
    pub fn new(processes: u16) -> Result<Trace, Error> {
        Trace::within(processes, USUAL_ENTRIES)
    }

    /// The same with up to so many entries, 1 to [`MOST_ENTRIES`], which list up to 16 determinants for each in all.
    ///
    /// # Errors
    /// [`Error::Entries`], [`Error::Processes`] and [`Error::NoMemory`].
    pub fn within(processes: u16, entries: u32) -> Result<Trace, Error> {
        if !(1..=MOST_ENTRIES).contains(&entries) {
            return Err(Error::Entries);
        }
        let mut trace = Trace(Handle::closed());
        match foreign::trace_open(&mut trace.0, processes, entries) {
            foreign::OK => Ok(trace),
            foreign::MISUSED => Err(Error::Processes),
            status => Err(Error::of_status(status)),
        }
    }

    /// Adds an entry at the end. After an error the trace is as it was.
    ///
    /// # Errors
    /// [`Error::Refused`] with what first stands against it, and [`Error::NoMemory`].
    pub fn push(&mut self, entry: &Entry) -> Result<(), Error> {
        let listed: Vec<_> = entry.listed().iter().map(|determinant| determinant.in_c()).collect();
        let mut fault = 0;
        match foreign::trace_push(&mut self.0, &entry.in_c(), &listed, &mut fault) {
            foreign::OK => Ok(()),
            foreign::FAULT => Err(FaultKind::numbered(fault).map_or(Error::OtherVersion, Error::Refused)),
            status => Err(Error::of_status(status)),
        }
    }

    /// The verdict on the entries so far, with up to `faults` processes down at once.
    ///
    /// # Errors
    /// [`Error::NoMemory`].
    pub fn audit(&mut self, faults: u16) -> Result<Audit, Error> {
        let mut told = Summary::default();
        let status = foreign::trace_audit(&mut self.0, faults, &mut told);
        verdict::told(status, &told)
    }

    /// The first stray of the entries so far; `None` if the recoveries follow what survives.
    ///
    /// # Errors
    /// [`Error::NoMemory`].
    pub fn replays(&mut self) -> Result<Option<Stray>, Error> {
        let mut told = foreign::CStray::default();
        let status = foreign::trace_replays(&mut self.0, &mut told);
        stray::told(status, &told)
    }

    /// The verdict on the entries so far, and why it is so.
    ///
    /// # Errors
    /// [`Error::NoMemory`].
    pub fn explanation(&mut self, faults: u16) -> Result<Explanation, Error> {
        let trace = &mut self.0;
        explanation::ask(|told, facts, needed| foreign::trace_facts(trace, faults, told, facts, needed))
    }

    /// The text of the trace so far, which [`crate::audit`] reads.
    ///
    /// # Errors
    /// [`Error::NoMemory`].
    pub fn text(&mut self) -> Result<String, Error> {
        let mut out = Vec::new();
        let mut told = foreign::trace_text(&mut self.0, &mut out);
        out.resize(told.needed, 0);
        if told.status == foreign::OK {
            told = foreign::trace_text(&mut self.0, &mut out);
        }
        match told.status {
            foreign::OK => String::from_utf8(out).map_err(|_| Error::OtherVersion),
            status => Err(Error::of_status(status)),
        }
    }
}

impl Drop for Trace {
    fn drop(&mut self) {
        foreign::trace_close(&mut self.0);
    }
}
