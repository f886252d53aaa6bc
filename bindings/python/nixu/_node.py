"""A node: one process of a run that logs messages causally. docs/NODE.md has what who embeds one has to do."""
from __future__ import annotations

import contextlib
import ctypes
import enum
import secrets
import time
from collections.abc import Callable, Iterator, Sequence
from dataclasses import dataclass
from typing import NamedTuple, Optional, Union

from . import _library as c
from ._open import Determinant, Open, check, determinant_of, determinants_of, number_of_32_bits, process_of


class NodeFaultKind(enum.IntEnum):
    """Why a node refuses a call: the first reason of those that apply."""

    WireShort = 32
    WireVersion = 33
    WireKind = 34
    WireRun = 35
    WireProcess = 36
    WireClock = 37
    WireUnsorted = 38
    WireHolder = 39
    WireFlag = 40
    WireTrailing = 41
    NotMine = 64
    OwnParcel = 65
    Long = 66
    Clock = 67
    NoProcess = 68
    NotUp = 69
    Up = 70
    NoRound = 71
    Unasked = 72
    OldLane = 73
    Duplicate = 74
    MustReplay = 75
    Reserved = 76
    View = 77
    NotYet = 78
    Waiting = 79
    Full = 80

    @property
    def sentence(self) -> str:
        out, needed = ctypes.create_string_buffer(128), ctypes.c_size_t()
        check(c.library.nixu_node_fault_text(self.value, out, len(out), needed))
        return out.raw[: needed.value].decode()

    @property
    def is_later(self) -> bool:
        """Whether the same parcel may be received later. After any other refusal it is to be dropped."""
        return self in _LATER


_LATER = frozenset({NodeFaultKind.NotUp, NodeFaultKind.MustReplay, NodeFaultKind.Reserved, NodeFaultKind.NotYet})


class NodeFault(ValueError):
    """The node refuses a call, and is as it was."""

    def __init__(self, kind: NodeFaultKind) -> None:
        super().__init__(kind.sentence)
        self.kind = kind
        self.number = int(kind)


class Stage(enum.IntEnum):
    """What a node is about."""

    Up = 0
    """It sends and receives messages."""
    Down = 1
    """A round has to begin."""
    Gathering = 2
    """Processes have still to reply to the round."""
    Reading = 3
    """All have replied; stable storage has to be read."""
    Ready = 4
    """It can restart."""


class NodeState(NamedTuple):
    """The state of a node, and how much it holds."""

    clock: int
    """The greatest clock so far."""
    round: int
    """The name of the round; 0 if there is none."""
    stage: Stage
    lane: int
    """The lane (incarnation); the next one if the process is not up."""
    logged: int
    """The determinants in the log."""
    sent: int
    """The messages of the lane that were sent, and are kept."""
    received: int
    """The messages that were delivered in the lane, whose names are kept."""


class MessageName(NamedTuple):
    source: int
    ssn: int


class Sent(NamedTuple):
    """A message: write the line to the recording, then let the parcel go to its receiver."""

    ssn: int
    clock: int
    line: bytes
    parcel: bytes


class Resent(NamedTuple):
    """A message again. It has no line."""

    to: int
    parcel: bytes


@dataclass(frozen=True)
class Message:
    """A message was delivered: write the line to the recording, then act on the body."""

    source: int
    lane: int
    ssn: int
    rsn: int
    clock: int
    line: bytes
    body: bytes
    listed: Sequence[Determinant]
    """What the delivery lists, ascending: usually acknowledged to the source."""


@dataclass(frozen=True)
class Question:
    """`source` recovers: let the parcel, which replies to it, go to it."""

    source: int
    parcel: bytes


@dataclass(frozen=True)
class Acknowledgement:
    """`source` holds determinants."""

    source: int


@dataclass(frozen=True)
class Log:
    """`source` has replied with its log."""

    source: int


@dataclass(frozen=True)
class Number:
    """`source` has replied with its lane: the round is given up. Begin another."""

    source: int


@dataclass(frozen=True)
class NotUp:
    """`source` has replied that it is not up. The round may be given up."""

    source: int


Received = Union[Message, Question, Acknowledgement, Log, Number, NotUp]

_REPLIES: dict[int, Callable[[int], Received]] = {1: Acknowledgement, 3: Log, 4: Number, 5: NotUp}


def crash_line(process: int, clock: int) -> bytes:
    """The line of a crash, for whoever has seen the process end. The clock is above each of its recording."""
    out, needed = ctypes.create_string_buffer(64), ctypes.c_size_t()
    check(c.library.nixu_crash_line(process_of("process", process), _number("clock", clock), out, len(out), needed))
    return out.raw[: needed.value]


class Node(Open):
    """One process of a run that logs messages causally: it keeps the books, and who embeds it moves bytes, keeps the recording and stable
    storage. One call at a time may use it, of any thread.

    `run` is a number that no other run has. After a crash `lane` is one more than the number of restarts of the process's recording, and
    `clock` the greatest clock there; the node has to recover then. `seed` is a number that strangers do not know; if there is none, a
    random one is drawn. `now` is the time in microseconds, that of the machine if none is given.

    A call that is refused raises NodeFault, and the node is as it was. After MemoryError, or where a call is interrupted, nobody may know
    what it has changed: the node is closed then, and the process has to end and recover.
    """

    def __init__(
        self, *, process: int, processes: int, faults: int, run: int, lane: int = 0, clock: int = 0, seed: Optional[int] = None
    ) -> None:
        super().__init__(c.library.nixu_node_close)
        self._out = ctypes.create_string_buffer(1024)
        given = {"process": process_of("process", process), "processes": c.number_of("processes", processes, 256, 1)}
        given |= {"faults": c.number_of("faults", faults, 65_535), "lane": number_of_32_bits("lane", lane)}
        given |= {"run": _number("run", run), "clock": _number("clock", clock)}
        given |= {"seed": secrets.randbits(64) if seed is None else _number("seed", seed)}
        self._call(self._handle, c.library.nixu_node_open, c.CIdentity(**given))

    def __enter__(self) -> Node:
        return self

    # ---- messages

    def send(self, to: int, body: bytes, now: Optional[int] = None) -> Sent:
        """Sends a message. Raises NodeFault: NotUp, NoProcess, Full, Long, Clock."""
        to, body, sent = process_of("to", to), c.text_of("body", body), c.CSent()
        with self._changing() as handle:
            self._call(handle, c.library.nixu_node_send, _time(now), to, body, len(body), sent)
            line, parcel = (self._bytes(handle, kept) for kept in (c.library.nixu_node_line, c.library.nixu_node_parcel))
        return Sent(sent.ssn, sent.clock, line, parcel)

    def receive(self, parcel: bytes, now: Optional[int] = None) -> Received:
        """Receives a parcel. Raises NodeFault: a parcel whose refusal `is_later` may be received later, any other is to be dropped."""
        parcel, got = c.text_of("parcel", parcel), c.CReceived()
        with self._changing() as handle:
            self._call(handle, c.library.nixu_node_receive, _time(now), parcel, len(parcel), got)
            if got.kind == 0:
                line, body = (self._bytes(handle, kept) for kept in (c.library.nixu_node_line, c.library.nixu_node_body))
                listed = tuple(self._determinants(handle, c.library.nixu_node_listed, got.listed))
                return Message(got.source, got.lane, got.ssn, got.rsn, got.clock, line, body, listed)
            if got.kind == 2:
                return Question(got.source, self._bytes(handle, c.library.nixu_node_parcel))
        return _REPLIES[got.kind](got.source)

    @property
    def due(self) -> Optional[MessageName]:
        """The message that has to be delivered next, if the log names one: all others are refused with MustReplay."""
        due = c.CMessage()
        with self._alone() as handle:
            check(c.library.nixu_node_due(handle, due), "Node")
        return MessageName(due.source, due.ssn) if due.exists else None

    def resend(self, ssn: int) -> Optional[Resent]:
        """A message of this lane again, for a receiver that may have lost it; None if so many were not sent."""
        ssn, to = number_of_32_bits("ssn", ssn), ctypes.c_uint8()
        with self._changing() as handle:
            status = c.library.nixu_node_receiver(handle, ssn, to)
            if status == c.MISUSED:
                return None
            check(status, "Node")
            self._call(handle, c.library.nixu_node_resend, ssn)
            return Resent(to.value, self._bytes(handle, c.library.nixu_node_parcel))

    def acknowledge(self, to: int, listed: Sequence[Determinant], now: Optional[int] = None) -> bytes:
        """The parcel that says which of these determinants, in ascending order, are logged here, and who is known to hold them. Raises
        NodeFault: NotUp, NoProcess, Long, Clock."""
        to, dets = process_of("to", to), determinants_of("listed", listed)
        if any(not one < other for one, other in zip(listed, listed[1:])):
            raise ValueError("listed must ascend")
        with self._changing() as handle:
            self._call(handle, c.library.nixu_node_acknowledge, _time(now), to, dets, len(dets))
            return self._bytes(handle, c.library.nixu_node_parcel)

    # ---- stable storage

    def unstored(self) -> list[Determinant]:
        """What the node logs and does not know to be stable, ascending."""
        with self._alone() as handle:
            return self._determinants(handle, c.library.nixu_node_unstored, 16)

    def stored(self, determinant: Determinant, now: Optional[int] = None) -> bytes:
        """Storage has confirmed this determinant, or it was read there in a recovery, once all have replied. Returns the line. Raises
        NodeFault: NoRound, Waiting, Clock."""
        det = determinant_of("determinant", determinant)
        with self._changing() as handle:
            self._call(handle, c.library.nixu_node_stored, _time(now), det)
            return self._bytes(handle, c.library.nixu_node_line)

    def forget(self, now: Optional[int] = None) -> bytes:
        """Takes what is known to be stable out of the log. Returns the line, which has no bytes if nothing is forgotten. Raises NodeFault:
        NotUp, Clock."""
        with self._changing() as handle:
            self._call(handle, c.library.nixu_node_forget, _time(now))
            return self._bytes(handle, c.library.nixu_node_line)

    # ---- recovery

    def begin_round(self, name: int) -> None:
        """Begins a round, whose name no other round of the process has had, also in earlier lanes. Raises NodeFault: Up."""
        with self._changing() as handle:
            self._call(handle, c.library.nixu_node_begin_round, _number("name", name))

    def question(self, to: int, now: Optional[int] = None) -> bytes:
        """The parcel of the round's question, which may be asked again. Raises NodeFault: Up, NoRound, NoProcess, Clock."""
        to = process_of("to", to)
        with self._changing() as handle:
            self._call(handle, c.library.nixu_node_question, _time(now), to)
            return self._bytes(handle, c.library.nixu_node_parcel)

    @property
    def awaited(self) -> frozenset[int]:
        """Who has still to reply to the round."""
        processes = (ctypes.c_uint8 * 256)()
        with self._alone() as handle:
            check(c.library.nixu_node_awaited(handle, processes), "Node")
        return frozenset(process for process, is_in in enumerate(processes) if is_in)

    @property
    def view(self) -> tuple[int, ...]:
        """The least lane of each process that is accepted. Until the restart this is the view of the round: once storage is read for it,
        storage refuses writes of lesser lanes."""
        lanes, needed = (ctypes.c_uint32 * 256)(), ctypes.c_size_t()
        with self._alone() as handle:
            check(c.library.nixu_node_view(handle, lanes, len(lanes), needed), "Node")
        return tuple(lanes[: needed.value])

    def take_ended(self, name: int, who: int, lane: int) -> None:
        """In the place of its reply to the round of this name: `who` has ended, and `lane` is its next one. Only who starts processes
        knows that. The round may be given up. Raises NodeFault: Up, Unasked."""
        name, who, lane = _number("name", name), process_of("who", who), number_of_32_bits("lane", lane)
        with self._changing() as handle:
            self._call(handle, c.library.nixu_node_take_ended, name, who, lane)

    def finish_read(self, name: int) -> None:
        """Storage has been read for the round of this name: `stored` was called for all that it has. Raises NodeFault: Up, Unasked,
        Waiting."""
        with self._changing() as handle:
            self._call(handle, c.library.nixu_node_finish_read, _number("name", name))

    def restart(self, now: Optional[int] = None) -> bytes:
        """The process is up, with what its round has gathered. Returns the line. Raises NodeFault: Up, NoRound, Waiting, Clock."""
        with self._changing() as handle:
            self._call(handle, c.library.nixu_node_restart, _time(now))
            return self._bytes(handle, c.library.nixu_node_line)

    # ---- the state

    @property
    def header(self) -> bytes:
        """The header line of the process's recording, which follows a line feed at each opening."""
        with self._alone() as handle:
            return self._bytes(handle, c.library.nixu_node_header)

    @property
    def state(self) -> NodeState:
        state = c.CState()
        with self._alone() as handle:
            check(c.library.nixu_node_inspect(handle, state), "Node")
        counts = state.lane, state.logged, state.sent, state.received
        return NodeState(state.clock, state.round, Stage(state.stage), *counts)

    # ---- calls

    @contextlib.contextmanager
    def _changing(self) -> Iterator[c.Handle]:
        with self._alone() as handle:
            try:
                yield handle
            except NodeFault:
                raise
            except BaseException:
                self._closing(handle)
                raise

    def _call(self, handle: c.Handle, call: Callable[..., int], *given: object) -> None:
        fault = ctypes.c_uint32()
        status = call(handle, *given, fault)
        if status == c.FAULT:
            raise NodeFault(NodeFaultKind(fault.value))
        check(status, "Node")

    def _bytes(self, handle: c.Handle, call: Callable[..., int]) -> bytes:
        needed = ctypes.c_size_t()
        check(call(handle, self._out, len(self._out), needed), "Node")
        if needed.value > len(self._out):
            self._out = ctypes.create_string_buffer(2 * needed.value)
            check(call(handle, self._out, len(self._out), needed), "Node")
        return ctypes.string_at(self._out, needed.value)

    def _determinants(self, handle: c.Handle, call: Callable[..., int], room: int) -> list[Determinant]:
        needed, out = ctypes.c_size_t(), (c.CDeterminant * room)()
        check(call(handle, out, room, needed), "Node")
        if needed.value > room:
            out = (c.CDeterminant * needed.value)()
            check(call(handle, out, needed.value, needed), "Node")
        return [Determinant(det.source, det.ssn, det.dest, det.rsn) for det in out[: needed.value]]


def _time(now: Optional[int]) -> int:
    return time.time_ns() // 1000 if now is None else _number("now", now)


def _number(name: str, number: int) -> int:
    return c.number_of(name, number, 2**64 - 1)
