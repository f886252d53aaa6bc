"""The audit of recorded runs of causal message logging, inside a program.

    told = nixu.audit(text, faults=1)
    if isinstance(told, nixu.Orphan):
        print(f"process {told.orphan} is an orphan after {told.instant} entries")

A Reader is fed with the pieces of a text while the run is recorded. A Trace is made of entries, without text. A Node is one process of a
run that logs messages causally: it keeps the books, and who embeds it moves bytes (docs/NODE.md).

An argument of a wrong type raises TypeError, one that is out of range ValueError, and a call on what is closed RuntimeError.
"""
from __future__ import annotations

import ctypes
import enum
from collections.abc import Callable, Sequence
from dataclasses import dataclass
from typing import NamedTuple, Union

from . import _library as c
from ._explanation import Arrival, Breach, Cause, Closest, Copies, EntryKind, Event, Excess, Loss, Margin, Reason, Stray, Straying
from ._explanation import reason_of, straying_of
from ._library import MOST_ENTRIES, VERSION
from ._merge import MergeFault, MergeFaultKind, merge
from ._node import Acknowledgement, Log, Message, MessageName, Node, NodeFault, NodeFaultKind, NodeState, NotUp, Number, Question, Received
from ._node import Resent, Sent, Stage, crash_line
from ._open import Determinant, Open, check, determinant_of, determinants_of, number_of_32_bits, process_of

__all__ = ["Accepted", "Exceeded", "Orphan", "Verdict", "Fault", "FaultKind", "audit", "audit_each", "line", "explain", "draw", "VERSION"]
__all__ += ["USUAL_ENTRIES", "MOST_ENTRIES", "Stray", "replays", "merge", "MergeFault", "MergeFaultKind"]
__all__ += ["explanation", "Explanation", "Reason", "Margin", "Closest", "Excess", "Breach", "Cause", "EntryKind", "Event", "Arrival", "Loss"]
__all__ += ["Straying", "Copies"]
__all__ += ["Reader", "Trace", "Refused", "Entry", "Send", "Deliver", "Stable", "Crash", "Restart", "Forget", "Determinant"]
__all__ += ["Node", "NodeFault", "NodeFaultKind", "NodeState", "Stage", "Sent", "Resent", "MessageName", "crash_line"]
__all__ += ["Received", "Message", "Question", "Acknowledgement", "Log", "Number", "NotUp"]

USUAL_ENTRIES = 65_536
"""How many entries a trace may have where no other number is given."""


@dataclass(frozen=True)
class Accepted:
    """Every instant is safe."""

    entries: int
    deliveries: int


@dataclass(frozen=True)
class Exceeded:
    """At the first instant that is not safe, after so many entries, more processes are down than may be."""

    entries: int
    deliveries: int
    instant: int
    down: frozenset[int]


@dataclass(frozen=True)
class Orphan:
    """At the first instant that is not safe a delivery has an orphan."""

    entries: int
    deliveries: int
    instant: int
    delivery: int
    """The position of the first delivery that has one, from 0. It stands on line delivery + 2 of the text."""
    crash: frozenset[int]
    """Were these down, nobody could replay the delivery."""
    orphan: int
    """The least process that would be an orphan then."""


Verdict = Union[Accepted, Exceeded, Orphan]


@dataclass(frozen=True)
class Explanation:
    """A verdict, and why it is so."""

    verdict: Verdict
    reason: Reason
    """A Margin for Accepted, an Excess for Exceeded, a Breach for Orphan."""
    straying: Union[Straying, None]
    """The first stray, if a recovery did not follow what survives."""


class FaultKind(enum.IntEnum):
    """What is wrong with a line, or stands against an entry. The names are those that the program prints."""

    After = 1
    Big = 2
    Syntax = 3
    Form = 4
    Header = 5
    Version = 6
    Processes = 7
    TooLong = 8
    NoProcess = 9
    NotUp = 10
    NotDown = 11
    Lanes = 12
    WrongSsn = 13
    NoSend = 14
    WrongRsn = 15
    Doubled = 16
    Unsorted = 17
    NoDelivery = 18
    Count = 19
    Cut = 20

    @property
    def sentence(self) -> str:
        """The sentence that the program prints."""
        out, needed = ctypes.create_string_buffer(128), ctypes.c_size_t()
        check(c.library.nixu_fault_text(self.value, out, len(out), needed))
        return out.raw[: needed.value].decode()


class Fault(ValueError):
    """A text spells no trace. Its first fault is at a line, from 1."""

    def __init__(self, line: int, kind: FaultKind) -> None:
        super().__init__(f"line {line}: {kind.sentence}")
        self.line = line
        self.kind = kind


class Refused(ValueError):
    """Something stands against an entry: this first."""

    def __init__(self, kind: FaultKind) -> None:
        super().__init__(kind.sentence)
        self.kind = kind


class Send(NamedTuple):
    """`sender` sends its message number `ssn` to `to`."""

    sender: int
    to: int
    ssn: int


class Deliver(NamedTuple):
    """`to` delivers the message of the send entry at a position, as its delivery number `rsn`, and logs what is listed."""

    to: int
    send: int
    rsn: int
    listed: Sequence[Determinant] = ()


class Stable(NamedTuple):
    """The determinant is in stable storage from here on."""

    determinant: Determinant


class Crash(NamedTuple):
    """`who` goes down."""

    who: int


class Restart(NamedTuple):
    """`who` comes up with what is listed in its log."""

    who: int
    listed: Sequence[Determinant] = ()


class Forget(NamedTuple):
    """`who` takes what is listed out of its log."""

    who: int
    listed: Sequence[Determinant] = ()


Entry = Union[Send, Deliver, Stable, Crash, Restart, Forget]


def audit(text: bytes, faults: int) -> Verdict:
    """The verdict on the trace that a text spells, with up to `faults` processes down at once, 0 to 65535.

    Raises Fault where the text spells no trace, and MemoryError.
    """
    told = c.Summary()
    status = c.library.nixu_audit(c.text_of("text", text), len(text), _bound(faults), told)
    return _verdict(status, told)


def audit_each(text: bytes, faults: Sequence[int]) -> list[Verdict]:
    """The verdicts for several numbers of faults, in their order, of a text that is read once. Raises as audit does."""
    bounds = c.bounds_of(faults)
    count = len(bounds)
    told = (c.Summary * count)()
    status = c.library.nixu_audit_each(c.text_of("text", text), len(text), bounds, count, told, count)
    if status == c.FAULT:
        audit(text, 0)
    check(status)
    return [_verdict(status, one) for one in told]


def replays(text: bytes) -> Union[Stray, None]:
    """The first stray of the trace that a text spells; None if its recoveries follow what survives. Raises as audit does."""
    told = c.CStray()
    status = c.library.nixu_replays(c.text_of("text", text), len(text), told)
    return _stray(status, told)


def line(text: bytes, faults: int) -> str:
    """The line of the verdict, as `causal_tool audit` prints it, with its line feed. Raises as audit does."""
    return _shown(c.library.nixu_line, 2_048, text, faults)


def explain(text: bytes, faults: int) -> str:
    """The line of the verdict and below it what tells why it is so, as `causal_tool explain` prints them. Raises as audit does."""
    return _shown(c.library.nixu_explain, 16_384, text, faults)


def explanation(text: bytes, faults: int) -> Explanation:
    """The verdict on the trace that a text spells, and why it is so: what explain tells, as a value. Raises as audit does."""
    return _explanation(lambda *rest: c.library.nixu_facts(c.text_of("text", text), len(text), *rest), faults)


def draw(text: bytes, faults: int) -> str:
    """The space-time diagram of the run with its verdict, in SVG, as `causal_tool draw` prints it. Raises as audit does."""
    return _shown(c.library.nixu_draw, 196_608, text, faults)


class Reader(Open):
    """Reads a text in pieces, for a run that is judged while it is recorded. One call at a time may use it, of any thread.

    The trace may have up to `entries` entries, which list up to 16 determinants for each in all, and the text up to 512 bytes for each.
    """

    def __init__(self, entries: int = USUAL_ENTRIES) -> None:
        super().__init__(c.library.nixu_reader_close)
        check(c.library.nixu_reader_open_within(self._handle, c.number_of("entries", entries, MOST_ENTRIES, 1)))

    def feed(self, piece: bytes) -> None:
        """Reads one more piece, of any length.

        Raises Fault with the text's first fault, as soon as a line has one, and MemoryError. The reader is closed then, and each
        further call raises RuntimeError.
        """
        told, piece = c.Summary(), c.text_of("piece", piece)
        with self._alone() as handle:
            status = c.library.nixu_reader_feed(handle, piece, len(piece), told)
        if status == c.FAULT:
            raise Fault(told.line, FaultKind(told.fault))
        check(status, "Reader")

    def explanation(self, faults: int) -> Explanation:
        """The verdict on the entries that the complete lines so far have, and why it is so. The reader stays open.

        Raises ValueError where the header line is not complete yet, and MemoryError.
        """
        with self._alone() as handle:
            return _explanation(lambda *rest: c.library.nixu_reader_facts(handle, *rest), faults, "Reader")

    def finish(self, faults: int) -> Verdict:
        """Ends the text, and tells the verdict on the trace that the pieces spell. Raises as feed does; the reader is closed."""
        return self.finish_each([_bound(faults)])[0]

    def finish_each(self, faults: Sequence[int]) -> list[Verdict]:
        """The same for several numbers of faults, in their order. Where no number is asked for a fault is not told."""
        bounds = c.bounds_of(faults)
        count = len(bounds)
        told = (c.Summary * count)()
        with self._alone() as handle:
            status = c.library.nixu_reader_finish(handle, bounds, count, told, count)
        if status != c.FAULT:
            check(status, "Reader")
        return [_verdict(status, one) for one in told]

    def __enter__(self) -> Reader:
        return self


class Trace(Open):
    """A trace of 1 to 256 processes that is made entry by entry, without text. One call at a time may use it, of any thread.

    It may have up to `entries` entries, which list up to 16 determinants for each in all.
    """

    def __init__(self, processes: int, entries: int = USUAL_ENTRIES) -> None:
        super().__init__(c.library.nixu_trace_close)
        processes, entries = c.number_of("processes", processes, 256, 1), c.number_of("entries", entries, MOST_ENTRIES, 1)
        check(c.library.nixu_trace_open_within(self._handle, processes, entries))

    def push(self, entry: Entry) -> None:
        """Adds an entry at the end.

        Raises Refused with what first stands against it, and MemoryError. The trace is as it was then.
        """
        given, listed, fault = _entry(entry), _listed(entry), ctypes.c_uint32()
        with self._alone() as handle:
            status = c.library.nixu_trace_push(handle, given, listed, len(listed), fault)
        if status == c.FAULT:
            raise Refused(FaultKind(fault.value))
        check(status, "Trace")

    def audit(self, faults: int) -> Verdict:
        """The verdict on the entries so far, with up to `faults` processes down at once. Raises MemoryError."""
        told, bound = c.Summary(), _bound(faults)
        with self._alone() as handle:
            status = c.library.nixu_trace_audit(handle, bound, told)
        check(status, "Trace")
        return _verdict(status, told)

    def replays(self) -> Union[Stray, None]:
        """The first stray of the entries so far; None if the recoveries follow what survives. Raises MemoryError."""
        told = c.CStray()
        with self._alone() as handle:
            status = c.library.nixu_trace_replays(handle, told)
        check(status, "Trace")
        return _stray(status, told)

    def explanation(self, faults: int) -> Explanation:
        """The verdict on the entries so far, and why it is so. Raises MemoryError."""
        with self._alone() as handle:
            return _explanation(lambda *rest: c.library.nixu_trace_facts(handle, *rest), faults, "Trace")

    def text(self) -> str:
        """The text of the trace so far, which `audit` reads. Raises MemoryError."""
        needed = ctypes.c_size_t()
        with self._alone() as handle:
            check(c.library.nixu_trace_text(handle, None, 0, needed), "Trace")
            out = ctypes.create_string_buffer(needed.value)
            check(c.library.nixu_trace_text(handle, out, needed.value, needed))
        return ctypes.string_at(out, needed.value).decode()

    def __enter__(self) -> Trace:
        return self


def _listed(entry: Entry) -> ctypes.Array[c.CDeterminant]:
    return determinants_of(f"{type(entry).__name__}.listed", getattr(entry, "listed", ()))


def _entry(entry: Entry) -> c.CEntry:
    if isinstance(entry, Send):
        source, dest = process_of("Send.sender", entry.sender), process_of("Send.to", entry.to)
        return c.CEntry(kind=0, source=source, dest=dest, ssn=number_of_32_bits("Send.ssn", entry.ssn))
    if isinstance(entry, Deliver):
        dest, send = process_of("Deliver.to", entry.to), number_of_32_bits("Deliver.send", entry.send)
        return c.CEntry(kind=1, dest=dest, send=send, rsn=number_of_32_bits("Deliver.rsn", entry.rsn))
    if isinstance(entry, Stable):
        det = determinant_of("Stable.determinant", entry.determinant)
        return c.CEntry(kind=2, source=det.source, dest=det.dest, ssn=det.ssn, rsn=det.rsn)
    for kind, words in ((3, Crash), (4, Restart), (5, Forget)):
        if isinstance(entry, words):
            return c.CEntry(kind=kind, who=process_of(f"{words.__name__}.who", entry.who))
    c.refuse_type("entry", "a Send, Deliver, Stable, Crash, Restart or Forget", entry)


def _shown(call: Callable[..., int], room: int, text: bytes, faults: int) -> str:
    """What a call gives. It is asked with a first room, and once more where that was too small."""
    out, needed = ctypes.create_string_buffer(room), ctypes.c_size_t()
    status = call(c.text_of("text", text), len(text), _bound(faults), out, room, needed)
    if needed.value > room:
        room = needed.value
        out = ctypes.create_string_buffer(room)
        status = call(text, len(text), faults, out, room, needed)
    if status == c.FAULT:
        audit(text, faults)
    check(status)
    return ctypes.string_at(out, needed.value).decode()


def _explanation(call: Callable[..., int], faults: int, handle: str = "handle") -> Explanation:
    """What a call tells with its facts. It is asked with a first room, and once more where that was too small."""
    told, needed, bound, room = c.Summary(), ctypes.c_size_t(), _bound(faults), 64
    facts = (c.CFact * room)()
    status = call(bound, told, facts, room, needed)
    if status == c.OK and needed.value > room:
        room = needed.value
        facts = (c.CFact * room)()
        status = call(bound, told, facts, room, needed)
    if status == c.MISUSED:
        raise ValueError("the header line is not complete yet")
    if status != c.FAULT:
        check(status, handle)
    verdict, found = _verdict(status, told), facts[: needed.value]
    return Explanation(verdict, reason_of(found), straying_of(found))


def _verdict(status: int, told: c.Summary) -> Verdict:
    if status == c.FAULT:
        raise Fault(told.line, FaultKind(told.fault))
    check(status)
    processes = frozenset(process for process, is_in in enumerate(told.processes) if is_in)
    if told.kind == 0:
        return Accepted(told.entries, told.deliveries)
    if told.kind == 1:
        return Exceeded(told.entries, told.deliveries, told.instant, processes)
    return Orphan(told.entries, told.deliveries, told.instant, told.delivery, processes, told.orphan)


def _stray(status: int, told: c.CStray) -> Union[Stray, None]:
    if status == c.FAULT:
        raise Fault(told.line, FaultKind(told.fault))
    check(status)
    return Stray(told.instant, told.process, told.rsn, told.first, told.second) if told.kind else None


def _bound(faults: int) -> int:
    return c.number_of("faults", faults, 65_535)
