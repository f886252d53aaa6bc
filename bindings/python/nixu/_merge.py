"""Merging of the recordings of a run's processes."""
from __future__ import annotations

import ctypes
import enum
from collections.abc import Sequence
from typing import Union

from . import _library as c
from ._open import Determinant, check


class MergeFaultKind(enum.IntEnum):
    """What is wrong with recordings. The names are those that the program prints."""

    Big = 2
    Syntax = 3
    Form = 4
    Header = 5
    Version = 6
    Processes = 7
    TooLong = 8
    NoProcess = 9
    NotUp = 10
    NotDown = 11
    Lanes = 12
    WrongSsn = 13
    NoSend = 14
    WrongRsn = 15
    Doubled = 16
    Unsorted = 17
    NoDelivery = 18
    NoHeader = 21
    Twice = 22

    @property
    def sentence(self) -> str:
        """The sentence that the program prints of the kind."""
        out, needed = ctypes.create_string_buffer(128), ctypes.c_size_t()
        check(c.library.nixu_merge_fault_text(self.value, out, len(out), needed))
        return out.raw[: needed.value].decode()


class MergeFault(ValueError):
    """Recordings make no trace. Their first fault is on a line of one of them, with the values that explain it; a value that its kind
    does not have is None."""

    def __init__(self, told: c.CMergeFault) -> None:
        kind = MergeFaultKind(told.kind)
        super().__init__(f"line {told.line} of recording {told.recording}: {kind.sentence}")
        numbers = kind in (MergeFaultKind.WrongSsn, MergeFaultKind.WrongRsn)
        named = kind in (MergeFaultKind.NoSend, MergeFaultKind.Doubled)
        undelivered = kind is MergeFaultKind.NoDelivery
        self.kind: MergeFaultKind = kind
        self.recording: int = told.recording
        """The recording in which the line begins, from 0."""
        self.line: int = told.line
        """The number of the line in it, from 1. Of NoHeader it is the one that would come next."""
        self.process: Union[int, None] = told.process if numbers or named else None
        """The process of the line: of WrongSsn, NoSend, WrongRsn and Doubled."""
        self.given: Union[int, None] = told.given if numbers else None
        """The number that the line has: of WrongSsn and WrongRsn."""
        self.next: Union[int, None] = told.next if numbers else None
        """The one that would be right."""
        self.source: Union[int, None] = told.source if named else None
        """The sender of the message that the line delivers: of NoSend and Doubled."""
        self.ssn: Union[int, None] = told.ssn if named else None
        """The number of that message."""
        self.lane: Union[int, None] = told.lane if kind is MergeFaultKind.NoSend else None
        """The incarnation of its sender: of NoSend."""
        self.determinant: Union[Determinant, None] = None
        """The determinant of no delivery: of NoDelivery."""
        if undelivered:
            self.determinant = Determinant(told.source, told.ssn, told.dest, told.rsn)
        self.missing: frozenset[int] = frozenset(process for process, is_in in enumerate(told.missing) if is_in)
        """The processes without a header: of NoHeader; empty if there is no header at all."""


def merge(recordings: Sequence[bytes], entries: int = 65_536) -> bytes:
    """The trace that the recordings of all processes of a run merge into, as `causal_tool merge` prints it: of up to `entries` entries.

    The recordings are read as one text, one after the other; a line that lacks its line feed goes on in the next one. Raises MergeFault
    with their first fault, and MemoryError.
    """
    if not isinstance(recordings, Sequence) or isinstance(recordings, (bytes, bytearray, memoryview, str)):
        c.refuse_type("recordings", "a sequence of bytes", recordings)
    most, count = c.number_of("entries", entries, c.MOST_ENTRIES, 1), len(recordings)
    texts = [c.text_of(f"recordings[{i}]", text) for i, text in enumerate(recordings)]
    given = (c.CRecording * count)(*(c.CRecording(text, len(text)) for text in texts))
    # The lines of a trace are shorter than those of recordings, but for its header and its end.
    room, needed, fault = sum(map(len, texts)) + 64, ctypes.c_size_t(), c.CMergeFault()
    out = ctypes.create_string_buffer(room)
    status = c.library.nixu_merge(given, count, most, out, room, needed, fault)
    if needed.value > room:
        room = needed.value
        out = ctypes.create_string_buffer(room)
        status = c.library.nixu_merge(given, count, most, out, room, needed, fault)
    if status == c.FAULT:
        raise MergeFault(fault)
    check(status)
    return ctypes.string_at(out, needed.value)
