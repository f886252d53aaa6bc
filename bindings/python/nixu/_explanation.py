"""Explanations of verdicts, as values."""
from __future__ import annotations

import enum
from collections.abc import Sequence
from dataclasses import dataclass
from typing import Union

from . import _library as c
from ._open import Determinant

# The kinds of facts of nixu.h.
DOWN, DELIVERY, CAUSE, UNSTABLE, HOLDER, NO_HOLDER, LOSS, CRASH, CHAIN, UNLISTED, LISTED, UNDERWAY, ORPHAN = range(1, 14)
CLOSEST, NEVER, STRAYED, LOGGED, STABLE = range(14, 19)


class EntryKind(enum.Enum):
    """What an entry does that makes an instant fail, or by which a log loses a determinant."""

    Deliver = "deliver"
    Crash = "crash"
    Restart = "restart"
    Forget = "forget"


_KINDS = {1: EntryKind.Deliver, 3: EntryKind.Crash, 4: EntryKind.Restart, 5: EntryKind.Forget}


@dataclass(frozen=True)
class Event:
    """What a process does, or what is so of it since then. Position k is on line k + 2 of the text."""

    process: int
    entry: int
    """The position of the entry, from 0."""


@dataclass(frozen=True)
class Arrival:
    """The delivery of a message."""

    process: int
    entry: int
    """The position of the delivery, from 0."""
    send: int
    """The position of the send."""


@dataclass(frozen=True)
class Cause:
    """The entry by which an instant fails: the last one before it."""

    process: int
    entry: int
    """The position of the entry, from 0."""
    by: EntryKind
    send: Union[int, None]
    """The position of the send whose message is delivered, if the entry is a delivery."""


@dataclass(frozen=True)
class Loss:
    """The log of a process had the determinant, and has lost it."""

    process: int
    entry: int
    """The position of the crash or forgetting by which it lost it last."""
    by: EntryKind


@dataclass(frozen=True)
class Closest:
    """The delivery that has an orphan for the least number of failures. For fewer, down to the given number, the run is safe."""

    faults: int
    """That number of failures."""
    delivery: int
    """The position of the delivery, from 0."""
    instant: int
    """The first instant at which it has one."""
    orphan: int
    """The process."""


@dataclass(frozen=True)
class Margin:
    """Explains why a run is accepted: how far it is from having an orphan."""

    closest: Union[Closest, None]
    """None if no delivery has an orphan, for any number of failures."""


@dataclass(frozen=True)
class Excess:
    """Explains why more processes are down than may be."""

    cause: Cause
    down: tuple[Event, ...]
    """The processes that are down, ascending, each since its crash."""


@dataclass(frozen=True)
class Breach:
    """Explains how a delivery comes to have an orphan. The facts are those at the verdict's instant."""

    determinant: Determinant
    """The delivery's determinant, which is not in stable storage."""
    cause: Cause
    holders: tuple[Event, ...]
    """The processes with it in their logs, ascending, each since an entry."""
    losses: tuple[Loss, ...]
    """The processes that had it in their logs and lost it, ascending."""
    down: tuple[Event, ...]
    """The processes that are down, ascending, each since its crash."""
    chain: tuple[Event, ...]
    """Events from the delivery to the orphan, each of which directly precedes the next."""
    unlisted: Union[Arrival, None]
    """The first delivery of the chain after which its receiver's log lacks the determinant."""
    underway: Union[Arrival, None]
    """The first later delivery that brings it to a process that lacked it, by a message in transit at the instant."""


Reason = Union[Margin, Excess, Breach]


@dataclass(frozen=True)
class Copies:
    """Who has the determinant of a delivery."""

    delivery: int
    """The position of the delivery, from 0."""
    logged: tuple[Event, ...]
    """The processes with it in their logs, ascending, each since an entry."""
    stable: bool
    """Whether stable storage has it."""


@dataclass(frozen=True)
class Stray:
    """Two different determinants survive in one slot: the process delivered another message than a survivor names."""

    instant: int
    """The first instant with such a slot, as a number of entries."""
    process: int
    """The receiver of the least such slot."""
    rsn: int
    """The receive sequence number of the slot."""
    first: int
    """The position of the first delivery with a survivor of the slot, from 0."""
    second: int
    """The position of the first delivery with another survivor of the slot."""


@dataclass(frozen=True)
class Straying:
    """A stray, and who has which of its two determinants."""

    stray: Stray
    first: Copies
    second: Copies


def reason_of(facts: Sequence[c.CFact]) -> Reason:
    """The reason that these facts are. A library of another version may give others."""
    kinds = {fact.kind for fact in facts}
    if CLOSEST in kinds or NEVER in kinds:
        closest = _all(facts, CLOSEST)
        return Margin(Closest(closest[0].faults, closest[0].delivery, closest[0].instant, closest[0].process) if closest else None)
    cause, down = _cause(_one(facts, CAUSE)), _events(facts, DOWN)
    if DELIVERY not in kinds:
        return Excess(cause, down)
    det = _one(facts, DELIVERY)
    losses = tuple(Loss(fact.process, fact.entry, _KINDS[fact.by]) for fact in _all(facts, LOSS))
    lists = _events(facts, HOLDER), losses, down, _events(facts, CHAIN)
    return Breach(Determinant(det.source, det.ssn, det.process, det.rsn), cause, *lists, _arrival(facts, UNLISTED), _arrival(facts, UNDERWAY))


def straying_of(facts: Sequence[c.CFact]) -> Union[Straying, None]:
    found = _all(facts, STRAYED)
    if not found:
        return None
    stray = Stray(found[0].instant, found[0].process, found[0].rsn, found[0].delivery, found[0].second)
    return Straying(stray, _copies(facts, stray.first), _copies(facts, stray.second))


def _copies(facts: Sequence[c.CFact], delivery: int) -> Copies:
    logged = tuple(Event(fact.process, fact.entry) for fact in _all(facts, LOGGED) if fact.delivery == delivery)
    return Copies(delivery, logged, any(fact.delivery == delivery for fact in _all(facts, STABLE)))


def _all(facts: Sequence[c.CFact], kind: int) -> list[c.CFact]:
    return [fact for fact in facts if fact.kind == kind]


def _one(facts: Sequence[c.CFact], kind: int) -> c.CFact:
    found = _all(facts, kind)
    if not found:
        raise RuntimeError("the library is of another version")
    return found[0]


def _events(facts: Sequence[c.CFact], kind: int) -> tuple[Event, ...]:
    return tuple(Event(fact.process, fact.entry) for fact in _all(facts, kind))


def _arrival(facts: Sequence[c.CFact], kind: int) -> Union[Arrival, None]:
    found = _all(facts, kind)
    return Arrival(found[0].process, found[0].entry, found[0].send) if found else None


def _cause(fact: c.CFact) -> Cause:
    by = _KINDS[fact.by]
    return Cause(fact.process, fact.entry, by, fact.send if by is EntryKind.Deliver else None)
