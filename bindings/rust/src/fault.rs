//! Faults of texts, and the other reasons for which a call gives no verdict.
use crate::foreign::{self, Summary};
use crate::merge::MergeFault;
use crate::node_fault::NodeFault;
use std::error;
use std::fmt::{self, Display, Formatter};

/// Why a call gives no verdict.
#[derive(Clone, Debug, PartialEq, Eq)]
#[non_exhaustive]
pub enum Error {
    /// The text spells no trace.
    Fault(Fault),
    /// Something stands against an entry: this first.
    Refused(FaultKind),
    /// The recordings make no trace.
    Merge(MergeFault),
    /// A reader has not read its header line yet.
    NoHeader,
    /// A node refuses the call, and is as it was.
    Node(NodeFault),
    /// The determinants of an acknowledgement don't ascend.
    Unsorted,
    /// A trace can't have so many processes.
    Processes,
    /// A trace may not have so many entries.
    Entries,
    /// An earlier call failed, and the reader or the node is closed since.
    Closed,
    /// Memory was refused.
    NoMemory,
    /// The library's answer is none of the version for which this package was written.
    OtherVersion,
}

impl Error {
    /// The error of a status that is neither success nor a fault.
    pub(crate) fn of_status(status: u32) -> Error {
        match status {
            foreign::NO_MEMORY => Error::NoMemory,
            foreign::CLOSED => Error::Closed,
            _ => Error::OtherVersion,
        }
    }
}

impl Display for Error {
    fn fmt(&self, to: &mut Formatter<'_>) -> fmt::Result {
        match self {
            Error::Fault(fault) => fault.fmt(to),
            Error::Refused(kind) => kind.fmt(to),
            Error::Merge(fault) => fault.fmt(to),
            Error::NoHeader => to.write_str("the header line is not complete yet"),
            Error::Node(fault) => fault.fmt(to),
            Error::Unsorted => to.write_str("the determinants don't ascend"),
            Error::Processes => to.write_str("a trace has 1 to 256 processes"),
            Error::Entries => write!(to, "a trace may have 1 to {} entries", crate::MOST_ENTRIES),
            Error::Closed => to.write_str("an earlier call failed"),
            Error::NoMemory => to.write_str("memory was refused"),
            Error::OtherVersion => to.write_str("the library is of another version"),
        }
    }
}

impl error::Error for Error {}

/// The first fault of a text.
#[derive(Clone, Copy, Debug, PartialEq, Eq)]
pub struct Fault {
    /// The line, from 1.
    pub line: u32,
    /// What is wrong with it.
    pub kind: FaultKind,
}

impl Fault {
    pub(crate) fn told(told: &Summary) -> Error {
        FaultKind::numbered(told.fault)
            .map_or(Error::OtherVersion, |kind| Error::Fault(Fault { line: told.line, kind }))
    }
}

impl Display for Fault {
    fn fmt(&self, to: &mut Formatter<'_>) -> fmt::Result {
        write!(to, "line {}: {}", self.line, self.kind)
    }
}

/// What is wrong with a line, or stands against an entry. The names are those that the program prints.
#[derive(Clone, Copy, Debug, PartialEq, Eq, Hash)]
#[repr(u32)]
pub enum FaultKind {
    /// A line follows the end line.
    After = 1,
    /// The text is too long.
    Big,
    /// The line is not a JSON value.
    Syntax,
    /// The line has none of the shapes.
    Form,
    /// The header is not the first line alone.
    Header,
    /// There is no such version.
    Version,
    /// The number of processes is not one that the version allows.
    Processes,
    /// The trace would be too long.
    TooLong,
    /// There is no such process.
    NoProcess,
    /// The process is not up.
    NotUp,
    /// The process is not down.
    NotDown,
    /// Too many lanes have been opened: there are more restarts than the number of entries allows.
    Lanes,
    /// The send sequence number is not the next one.
    WrongSsn,
    /// There is no such send.
    NoSend,
    /// The receive sequence number is not the next one.
    WrongRsn,
    /// The message has been delivered.
    Doubled,
    /// The determinants are not in order.
    Unsorted,
    /// There is no delivery of this determinant.
    NoDelivery,
    /// The number of entries is another.
    Count,
    /// The text ends without an end line.
    Cut,
}

impl FaultKind {
    /// All of them, in the order of their numbers, from 1.
    pub const ALL: [FaultKind; 20] = [
        FaultKind::After,
        FaultKind::Big,
        FaultKind::Syntax,
        FaultKind::Form,
        FaultKind::Header,
        FaultKind::Version,
        FaultKind::Processes,
        FaultKind::TooLong,
        FaultKind::NoProcess,
        FaultKind::NotUp,
        FaultKind::NotDown,
        FaultKind::Lanes,
        FaultKind::WrongSsn,
        FaultKind::NoSend,
        FaultKind::WrongRsn,
        FaultKind::Doubled,
        FaultKind::Unsorted,
        FaultKind::NoDelivery,
        FaultKind::Count,
        FaultKind::Cut,
    ];

    pub(crate) fn numbered(number: u32) -> Option<FaultKind> {
        FaultKind::ALL.into_iter().find(|kind| *kind as u32 == number)
    }
}

/// The sentence that the program prints.
impl Display for FaultKind {
    fn fmt(&self, to: &mut Formatter<'_>) -> fmt::Result {
        let mut out = [0; 128];
        let told = foreign::fault_text(*self as u32, &mut out);
        let sentence = out.get(..told.needed).and_then(|bytes| std::str::from_utf8(bytes).ok());
        to.write_str(sentence.filter(|_| told.status == foreign::OK).unwrap_or("a fault of another version"))
    }
}
