//! Why a node refuses a call.
use crate::foreign_node;
use std::error;
use std::fmt::{self, Display, Formatter};

/// Why a node refuses a call: the first reason of those that apply.
#[derive(Clone, Copy, Debug, PartialEq, Eq, Hash)]
#[repr(u32)]
pub enum NodeFault {
    /// The bytes end too early.
    WireShort = 32,
    /// The bytes are of another version of the format.
    WireVersion,
    /// There is no such kind of parcel.
    WireKind,
    /// The parcel is of another run, or its number of processes or of faults differs.
    WireRun,
    /// The parcel names a process that the run has not.
    WireProcess,
    /// The parcel's clock is 2^62 or greater.
    WireClock,
    /// The determinants do not ascend.
    WireUnsorted,
    /// The holders do not ascend, or the source is among them.
    WireHolder,
    /// A flag is neither 0 nor 1.
    WireFlag,
    /// Bytes follow the end.
    WireTrailing,
    /// The parcel is for another process.
    NotMine = 64,
    /// The parcel is from this process itself.
    OwnParcel,
    /// The body has 2^32 bytes or more, or there are as many determinants.
    Long,
    /// The clock would be 2^62 or greater.
    Clock,
    /// There is no such process.
    NoProcess,
    /// The process is not up.
    NotUp,
    /// The process is up.
    Up,
    /// No round has begun.
    NoRound,
    /// The reply is to another round, or the process has replied.
    Unasked,
    /// The lane is not accepted any more.
    OldLane,
    /// The message has been delivered.
    Duplicate,
    /// Another message has to be delivered first: [`crate::Node::due`].
    MustReplay,
    /// The message has to be delivered later.
    Reserved,
    /// The question has another number of processes.
    View,
    /// This process recovers too, and goes before the one that asks.
    NotYet,
    /// A process or stable storage has still to reply.
    Waiting,
    /// A limit would be exceeded.
    Full,
}

impl NodeFault {
    /// All of them, in the order of their numbers.
    pub const ALL: [NodeFault; 27] = [
        NodeFault::WireShort,
        NodeFault::WireVersion,
        NodeFault::WireKind,
        NodeFault::WireRun,
        NodeFault::WireProcess,
        NodeFault::WireClock,
        NodeFault::WireUnsorted,
        NodeFault::WireHolder,
        NodeFault::WireFlag,
        NodeFault::WireTrailing,
        NodeFault::NotMine,
        NodeFault::OwnParcel,
        NodeFault::Long,
        NodeFault::Clock,
        NodeFault::NoProcess,
        NodeFault::NotUp,
        NodeFault::Up,
        NodeFault::NoRound,
        NodeFault::Unasked,
        NodeFault::OldLane,
        NodeFault::Duplicate,
        NodeFault::MustReplay,
        NodeFault::Reserved,
        NodeFault::View,
        NodeFault::NotYet,
        NodeFault::Waiting,
        NodeFault::Full,
    ];

    /// Whether the same parcel may be received later. After any other refusal it is to be dropped.
    pub fn is_later(self) -> bool {
        matches!(self, NodeFault::NotUp | NodeFault::MustReplay | NodeFault::Reserved | NodeFault::NotYet)
    }

    pub(crate) fn numbered(number: u32) -> Option<NodeFault> {
        NodeFault::ALL.into_iter().find(|fault| *fault as u32 == number)
    }
}

impl Display for NodeFault {
    fn fmt(&self, to: &mut Formatter<'_>) -> fmt::Result {
        let mut out = [0; 128];
        let needed = foreign_node::fault_text(*self as u32, &mut out);
        let sentence = out.get(..needed).and_then(|bytes| std::str::from_utf8(bytes).ok());
        to.write_str(sentence.filter(|sentence| !sentence.is_empty()).unwrap_or("a refusal of another version"))
    }
}

impl error::Error for NodeFault {}
