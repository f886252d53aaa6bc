//! The audit of recorded runs of causal message logging, inside a program.
//!
//! A text is a trace, as docs/FORMAT.md of the repository has it. Its audit tells whether any set of at most `faults` processes
//! could be down and leave an orphan.
//!
//! ```
//! use nixu::{audit, Error, Verdict};
//!
//! let text = br#"["trace",1,3]
//! ["send",0,1,0]
//! ["deliver",1,0,0,[[0,0,1,0]]]
//! ["send",1,2,0]
//! ["deliver",2,2,0,[[1,0,2,0]]]
//! ["end",4]
//! "#;
//! let told = audit(text, 1)?;
//! assert_eq!((told.entries, told.deliveries), (4, 2));
//! assert_eq!(told.verdict, Verdict::Orphan { instant: 4, delivery: 1, crash: vec![1], orphan: 2 });
//!
//! match audit(&text[..40], 1) {
//!     Err(Error::Fault(fault)) => assert_eq!(fault.to_string(), "line 3: the line is not a JSON value"),
//!     _ => panic!("a text that is cut spells no trace"),
//! }
//! # Ok::<(), Error>(())
//! ```
//!
//! A [`Reader`] is fed with the pieces of a text while the run is recorded. A [`Trace`] is made of entries, without text. A [`Node`]
//! is one process of a run that logs messages causally: it keeps the books, and who embeds it moves bytes (docs/NODE.md).
//!
//! Every call may be made from any thread, and keeps nothing of what it was given; a reader, a trace or a node stays on its thread. What the
//! library itself asks of memory may be refused, and is told as [`Error::NoMemory`]; the vectors and strings of this package are as
//! those of any other.

mod explanation;
mod fault;
mod foreign;
mod foreign_node;
mod merge;
mod node;
mod node_fault;
mod reader;
mod stray;
mod trace;
mod verdict;

pub use explanation::{
    Arrival, Breach, Cause, CauseKind, Closest, Copies, Event, Explanation, Loss, LostBy, Reason, Straying,
};
pub use fault::{Error, Fault, FaultKind};
pub use merge::{merge, merge_within, MergeFault, MergeFaultKind};
pub use node::{crash_line, Identity, Message, MessageName, Node, NodeState, Received, Resent, Sent, Stage};
pub use node_fault::NodeFault;
pub use reader::Reader;
pub use stray::Stray;
pub use trace::{Determinant, Entry, Trace};
pub use verdict::{Audit, Verdict};

use foreign::{Shows, Summary};

/// The version of the interface for which this package was written.
pub const VERSION: u32 = 1;

/// How many entries a trace may have where no other number is given.
pub const USUAL_ENTRIES: u32 = 65_536;

/// The greatest number of entries that a trace may have. If more than [`USUAL_ENTRIES`] are allowed, one in 256 may be a restart; else 192 may.
pub const MOST_ENTRIES: u32 = 16_777_216;

/// The version of the library that is linked. It has to be [`VERSION`].
pub fn version() -> u32 {
    foreign::version()
}

/// The verdict on the trace that a text spells, with up to `faults` processes down at once.
///
/// # Errors
/// [`Error::Fault`] where the text spells no trace, and [`Error::NoMemory`].
pub fn audit(text: &[u8], faults: u16) -> Result<Audit, Error> {
    let mut told = Summary::default();
    let status = foreign::audit(text, faults, &mut told);
    verdict::told(status, &told)
}

/// The first stray of the trace that a text spells; `None` if its recoveries follow what survives.
///
/// # Errors
/// As for [`audit`].
pub fn replays(text: &[u8]) -> Result<Option<Stray>, Error> {
    let mut told = foreign::CStray::default();
    let status = foreign::replays(text, &mut told);
    stray::told(status, &told)
}

/// The verdicts for several numbers of faults, in their order, of a text that is read once.
///
/// # Errors
/// As for [`audit`]; where no number is asked for, a text with a fault is told as [`Error::Fault`] too.
pub fn audit_each(text: &[u8], faults: &[u16]) -> Result<Vec<Audit>, Error> {
    let mut told = vec![Summary::default(); faults.len()];
    match foreign::audit_each(text, faults, &mut told) {
        foreign::FAULT if faults.is_empty() => Err(first_fault(text)),
        status @ (foreign::OK | foreign::FAULT) => told.iter().map(|told| verdict::told(status, told)).collect(),
        status => Err(Error::of_status(status)),
    }
}

/// The line of the verdict, as `causal_tool audit` prints it, with its line feed.
///
/// # Errors
/// As for [`audit`].
pub fn line(text: &[u8], faults: u16) -> Result<String, Error> {
    shown(foreign::LINE, 2_048, text, faults)
}

/// The line of the verdict and below it what tells why it is so, as `causal_tool explain` prints them.
///
/// # Errors
/// As for [`audit`].
pub fn explain(text: &[u8], faults: u16) -> Result<String, Error> {
    shown(foreign::EXPLAIN, 16_384, text, faults)
}

/// The verdict on the trace that a text spells, and why it is so: what [`explain`] tells, as a value.
///
/// ```
/// let text = b"[\"trace\",1,2]\n[\"send\",0,1,0]\n[\"crash\",0]\n[\"end\",2]\n";
/// let told = nixu::explanation(text, 0)?;
/// let cause = nixu::Cause { process: 0, entry: 1, by: nixu::CauseKind::Crash };
/// let down = vec![nixu::Event { process: 0, entry: 1 }];
/// assert_eq!(told.reason, nixu::Reason::Exceeded { cause, down });
/// # Ok::<(), nixu::Error>(())
/// ```
///
/// # Errors
/// As for [`audit`].
pub fn explanation(text: &[u8], faults: u16) -> Result<Explanation, Error> {
    explanation::ask(|told, facts, needed| foreign::facts(text, faults, told, facts, needed))
}

/// The space-time diagram of the run with its verdict, in SVG, as `causal_tool draw` prints it.
///
/// # Errors
/// As for [`audit`].
pub fn draw(text: &[u8], faults: u16) -> Result<String, Error> {
    shown(foreign::DRAW, 196_608, text, faults)
}

/// What a call gives. It is asked with a first room, and once more where that was too small.
fn shown(call: Shows, first_room: usize, text: &[u8], faults: u16) -> Result<String, Error> {
    let mut out = vec![0; first_room];
    let mut told = foreign::show(call, text, faults, &mut out);
    if told.needed > out.len() {
        out.resize(told.needed, 0);
        told = foreign::show(call, text, faults, &mut out);
    }
    out.truncate(told.needed);
    match told.status {
        foreign::OK => String::from_utf8(out).map_err(|_| Error::OtherVersion),
        foreign::FAULT => Err(first_fault(text)),
        status => Err(Error::of_status(status)),
    }
}

/// What is wrong with a text that has a fault.
fn first_fault(text: &[u8]) -> Error {
    audit(text, 0).err().unwrap_or(Error::OtherVersion)
}
