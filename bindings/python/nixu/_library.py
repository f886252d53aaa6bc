"""The calls of nixu.h: where the shared object is found, its structs, and checks of arguments, of which ctypes would cut numbers."""
from __future__ import annotations

import ctypes
import os
import warnings
from collections.abc import Sequence
from typing import Any, NoReturn

VERSION = 1
"""The version of the interface for which this module was written."""

MOST_ENTRIES = 16_777_216
"""The greatest number of entries that a trace may have. If more than 65,536 are allowed, one in 256 may be a restart; else 192 may."""

OK, FAULT, NO_MEMORY, MISUSED, CLOSED = range(5)


class Summary(ctypes.Structure):
    """`nixu_verdict`."""

    _fields_ = [
        ("kind", ctypes.c_uint32),
        ("entries", ctypes.c_uint32),
        ("deliveries", ctypes.c_uint32),
        ("instant", ctypes.c_uint32),
        ("delivery", ctypes.c_uint32),
        ("orphan", ctypes.c_uint32),
        ("line", ctypes.c_uint32),
        ("fault", ctypes.c_uint32),
        ("processes", ctypes.c_uint8 * 256),
    ]


class CStray(ctypes.Structure):
    """`nixu_stray`."""

    _fields_ = [(name, ctypes.c_uint32) for name in ("kind", "instant", "rsn", "first", "second", "line", "fault")]
    _fields_ += [("process", ctypes.c_uint8)]


class CFact(ctypes.Structure):
    """`nixu_fact`."""

    _fields_ = [(name, ctypes.c_uint32) for name in ("kind", "entry", "delivery", "send", "second", "instant", "ssn", "rsn", "faults", "by")]
    _fields_ += [(name, ctypes.c_uint8) for name in ("process", "source")]


class CRecording(ctypes.Structure):
    """`nixu_recording`."""

    _fields_ = [("text", ctypes.c_char_p), ("length", ctypes.c_size_t)]


class CMergeFault(ctypes.Structure):
    """`nixu_merge_fault`."""

    _fields_ = [("recording", ctypes.c_size_t)]
    _fields_ += [(name, ctypes.c_uint32) for name in ("line", "kind", "given", "next", "lane", "ssn", "rsn")]
    _fields_ += [(name, ctypes.c_uint8) for name in ("process", "source", "dest")]
    _fields_ += [("missing", ctypes.c_uint8 * 256)]


class Handle(ctypes.Structure):
    """`nixu_reader`, `nixu_trace` and `nixu_node`."""

    _fields_ = [("held", ctypes.c_void_p), ("full", ctypes.c_uint32)]


class CDeterminant(ctypes.Structure):
    """`nixu_determinant`."""

    _fields_ = [("ssn", ctypes.c_uint32), ("rsn", ctypes.c_uint32), ("source", ctypes.c_uint8), ("dest", ctypes.c_uint8)]


class CEntry(ctypes.Structure):
    """`nixu_entry`."""

    _fields_ = [*((name, ctypes.c_uint32) for name in ("kind", "ssn", "rsn", "send"))]
    _fields_ += [(name, ctypes.c_uint8) for name in ("source", "dest", "who")]


class CIdentity(ctypes.Structure):
    """`nixu_node_identity`."""

    _fields_ = [*((name, ctypes.c_uint64) for name in ("run", "clock", "seed")), ("lane", ctypes.c_uint32)]
    _fields_ += [("processes", ctypes.c_uint16), ("faults", ctypes.c_uint16), ("process", ctypes.c_uint8)]


class CSent(ctypes.Structure):
    """`nixu_node_sent`."""

    _fields_ = [("clock", ctypes.c_uint64), ("parcel", ctypes.c_size_t), ("ssn", ctypes.c_uint32)]


class CReceived(ctypes.Structure):
    """`nixu_node_received`."""

    _fields_ = [("clock", ctypes.c_uint64), *((name, ctypes.c_size_t) for name in ("body", "parcel", "listed"))]
    _fields_ += [*((name, ctypes.c_uint32) for name in ("kind", "ssn", "rsn", "lane")), ("source", ctypes.c_uint8)]


class CMessage(ctypes.Structure):
    """`nixu_node_message`."""

    _fields_ = [("ssn", ctypes.c_uint32), ("exists", ctypes.c_uint8), ("source", ctypes.c_uint8)]


class CState(ctypes.Structure):
    """`nixu_node_state`."""

    _fields_ = [("clock", ctypes.c_uint64), ("round", ctypes.c_uint64)]
    _fields_ += [(name, ctypes.c_uint32) for name in ("stage", "lane", "logged", "sent", "received")]


# ---- the shared object


def _found() -> str:
    """The path of the shared object: where NIXU_SO says, else beside this file, as in a wheel, else where bindings/build leaves it."""
    named, here = os.environ.get("NIXU_SO"), os.path.dirname(os.path.abspath(__file__))
    built = os.path.join(os.path.dirname(os.path.dirname(here)), "out", "lib")
    paths = [named] if named else [os.path.join(folder, "libnixu.so") for folder in (here, built)]
    for path in paths:
        if os.path.isfile(path):
            return path
    where = "NIXU_SO names no file" if named else "run bindings/build, or set NIXU_SO to its path"
    raise ImportError(f"there is no {' and no '.join(paths)}: {where}", path=paths[-1])


def _loaded() -> ctypes.CDLL:
    path = _found()
    try:
        library = ctypes.CDLL(path)
        _declare(library)
    except (OSError, AttributeError) as error:
        raise ImportError(f"{path} can't be loaded: {error}", path=path) from None
    if library.nixu_version() != VERSION:
        raise ImportError(f"{path} has version {library.nixu_version()}, and this module is for {VERSION}", path=path)
    if hasattr(library, "nixu_unproved"):
        warnings.warn(f"{path} is built without proof", stacklevel=2)
    return library


def _declare(library: ctypes.CDLL) -> None:
    text, size = [ctypes.c_char_p, ctypes.c_size_t], ctypes.c_size_t
    number, out = ctypes.c_uint32, [ctypes.c_char_p, ctypes.c_size_t, ctypes.POINTER(ctypes.c_size_t)]
    handle, told, faults = ctypes.POINTER(Handle), ctypes.POINTER(Summary), ctypes.POINTER(ctypes.c_uint16)
    det, fault, now = ctypes.POINTER(CDeterminant), ctypes.POINTER(number), ctypes.c_uint64
    facts = [told, ctypes.POINTER(CFact), size, ctypes.POINTER(size)]
    arguments: dict[str, list[Any]] = {
        "version": [],
        "audit": [*text, ctypes.c_uint16, told],
        "audit_each": [*text, faults, size, told, size],
        **{view: [*text, ctypes.c_uint16, *out] for view in ("line", "explain", "draw")},
        "replays": [*text, ctypes.POINTER(CStray)],
        "facts": [*text, ctypes.c_uint16, *facts],
        "trace_facts": [handle, ctypes.c_uint16, *facts],
        "reader_facts": [handle, ctypes.c_uint16, *facts],
        "merge": [ctypes.POINTER(CRecording), size, number, *out, ctypes.POINTER(CMergeFault)],
        "merge_fault_text": [number, *out],
        "fault_text": [number, *out],
        "reader_open_within": [handle, number],
        "reader_feed": [handle, *text, told],
        "reader_finish": [handle, faults, size, told, size],
        "reader_close": [handle],
        "trace_open_within": [handle, ctypes.c_uint16, number],
        "trace_push": [handle, ctypes.POINTER(CEntry), det, size, fault],
        "trace_audit": [handle, ctypes.c_uint16, told],
        "trace_replays": [handle, ctypes.POINTER(CStray)],
        "trace_text": [handle, *out],
        "trace_close": [handle],
        "node_open": [handle, ctypes.POINTER(CIdentity), fault],
        "node_close": [handle],
        "node_send": [handle, now, ctypes.c_uint8, *text, ctypes.POINTER(CSent), fault],
        "node_receive": [handle, now, *text, ctypes.POINTER(CReceived), fault],
        "node_due": [handle, ctypes.POINTER(CMessage)],
        "node_receiver": [handle, number, ctypes.POINTER(ctypes.c_uint8)],
        "node_resend": [handle, number, fault],
        "node_acknowledge": [handle, now, ctypes.c_uint8, det, size, fault],
        **{f"node_{kept}": [handle, *out] for kept in ("line", "parcel", "body", "header")},
        **{f"node_{dets}": [handle, det, size, ctypes.POINTER(size)] for dets in ("listed", "unstored")},
        "node_stored": [handle, now, det, fault],
        "node_forget": [handle, now, fault],
        "node_begin_round": [handle, ctypes.c_uint64, fault],
        "node_question": [handle, now, ctypes.c_uint8, fault],
        "node_awaited": [handle, ctypes.POINTER(ctypes.c_uint8)],
        "node_view": [handle, ctypes.POINTER(number), size, ctypes.POINTER(size)],
        "node_take_ended": [handle, ctypes.c_uint64, ctypes.c_uint8, number, fault],
        "node_finish_read": [handle, ctypes.c_uint64, fault],
        "node_restart": [handle, now, fault],
        "node_inspect": [handle, ctypes.POINTER(CState)],
        "node_fault_text": [number, *out],
        "crash_line": [ctypes.c_uint8, ctypes.c_uint64, *out],
    }
    for name, types in arguments.items():
        call = getattr(library, f"nixu_{name}")
        call.argtypes, call.restype = types, None if name.endswith("_close") else number


library = _loaded()


# ---- arguments


def refuse_type(name: str, wanted: str, value: object) -> NoReturn:
    raise TypeError(f"{name} must be {wanted}, not {type(value).__name__}")


def text_of(name: str, value: bytes) -> bytes:
    if not isinstance(value, bytes):
        refuse_type(name, "bytes", value)
    return value


def number_of(name: str, value: int, most: int, least: int = 0) -> int:
    if not isinstance(value, int):
        refuse_type(name, "an int", value)
    if not least <= value <= most:
        raise ValueError(f"{name} must be from {least} to {most}, not {value}")
    return value


def bounds_of(faults: Sequence[int]) -> ctypes.Array[ctypes.c_uint16]:
    """The bounds for which verdicts are requested, as an array."""
    if not isinstance(faults, Sequence):
        refuse_type("faults", "a sequence of ints", faults)
    return (ctypes.c_uint16 * len(faults))(*(number_of(f"faults[{i}]", bound, 65_535) for i, bound in enumerate(faults)))
