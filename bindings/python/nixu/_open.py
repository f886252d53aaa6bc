"""Open handles, statuses, and determinants: what the parts of the package share."""
from __future__ import annotations

import contextlib
import ctypes
import threading
from collections.abc import Callable, Iterator, Sequence
from typing import NamedTuple

from . import _library as c


class Determinant(NamedTuple):
    """The determinant of a delivery. Lists of them ascend as tuples do."""

    source: int
    ssn: int
    dest: int
    rsn: int


class Open:
    """An open handle. One call at a time may use it: a call while another thread is in one raises RuntimeError, and nothing is done.

    It may be made in one thread and used, closed or collected in another.
    """

    def __init__(self, closing: Callable[[c.Handle], None]) -> None:
        self._handle = c.Handle()
        self._closing = closing
        self._in_use = threading.Lock()

    @contextlib.contextmanager
    def _alone(self) -> Iterator[c.Handle]:
        if not self._in_use.acquire(blocking=False):
            raise RuntimeError(f"another call uses the {type(self).__name__}")
        try:
            yield self._handle
        finally:
            self._in_use.release()

    def close(self) -> None:
        """Gives back what it holds. What is closed already stays so."""
        with self._alone() as handle:
            self._closing(handle)

    def __exit__(self, *_: object) -> None:
        self.close()

    def __del__(self) -> None:
        # Nobody has it any more, so no call uses it. Where its making has failed it may lack its parts.
        if hasattr(self, "_in_use"):
            self._closing(self._handle)


def check(status: int, handle: str = "handle") -> None:
    """Raises the error of a status; `handle` is what a call on a closed one names."""
    if status == c.NO_MEMORY:
        raise MemoryError("an allocation of the library failed")
    if status == c.CLOSED:
        raise RuntimeError(f"the {handle} is closed")
    if status != c.OK:
        raise RuntimeError(f"the library returned the status {status}, which this call does not have")


def number_of_32_bits(name: str, number: int) -> int:
    return c.number_of(name, number, 2**32 - 1)


def process_of(name: str, process: int) -> int:
    return c.number_of(name, process, 255)


def determinant_of(name: str, det: Determinant) -> c.CDeterminant:
    if not isinstance(det, tuple) or len(det) != 4:
        c.refuse_type(name, "a Determinant", det)
    source, ssn, dest, rsn = det
    numbers = number_of_32_bits(f"{name}.ssn", ssn), number_of_32_bits(f"{name}.rsn", rsn)
    return c.CDeterminant(*numbers, process_of(f"{name}.source", source), process_of(f"{name}.dest", dest))


def determinants_of(name: str, dets: Sequence[Determinant]) -> ctypes.Array[c.CDeterminant]:
    if not isinstance(dets, Sequence):
        c.refuse_type(name, "a sequence of Determinants", dets)
    return (c.CDeterminant * len(dets))(*(determinant_of(f"{name}[{i}]", det) for i, det in enumerate(dets)))
