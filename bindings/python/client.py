"""Does what a file of tasks asks for, and answers in the form that bindings/test compares with the program's answers: the form and the
words are those of ../c/client.c.

    client.py TASKS
"""
from __future__ import annotations

import random
import sys

import nixu

FAULTS = (0, 1, 2, 3)
PIECE = 37
SHOWS = {"line": nixu.line, "explain": nixu.explain, "draw": nixu.draw}


def listed(processes: frozenset[int]) -> str:
    return ",".join(map(str, sorted(processes))) or "-"


def said(told: nixu.Verdict, f: int) -> str:
    if isinstance(told, nixu.Accepted):
        return f"accept f={f} entries={told.entries} deliveries={told.deliveries}\n"
    if isinstance(told, nixu.Exceeded):
        return f"exceeded f={f} instant={told.instant} down={listed(told.down)}\n"
    return f"orphan f={f} instant={told.instant} delivery={told.delivery} crash={listed(told.crash)} orphan={told.orphan}\n"


def strayed(told: nixu.Stray | None) -> str:
    if told is None:
        return "followed\n"
    return f"strayed instant={told.instant} process={told.process} rsn={told.rsn} first={told.first} second={told.second}\n"


def deed(by: nixu.EntryKind) -> str:
    return by.value


def caused(cause: nixu.Cause) -> str:
    return f"cause line={cause.entry + 2} process={cause.process} by={deed(cause.by)}\n"


def down(events: tuple[nixu.Event, ...]) -> str:
    return "".join(f"down process={event.process} line={event.entry + 2}\n" for event in events)


def breach(told: nixu.Orphan, reason: nixu.Breach) -> str:
    det, holders = reason.determinant, reason.holders
    lines = [f"delivery line={told.delivery + 2} process={det.dest} source={det.source} ssn={det.ssn} rsn={det.rsn}\n"]
    lines += [caused(reason.cause), f"unstable line={told.instant + 1}\n"]
    lines += [f"holder process={event.process} line={event.entry + 2}\n" for event in holders] or ["holder process=-\n"]
    lines += [f"loss process={loss.process} line={loss.entry + 2} by={deed(loss.by)}\n" for loss in reason.losses]
    lines += [down(reason.down), *(f"crash process={process}\n" for process in sorted(told.crash))]
    lines += [f"chain line={event.entry + 2} process={event.process}\n" for event in reason.chain]
    unlisted, underway = reason.unlisted, reason.underway
    lines += [f"unlisted line={unlisted.entry + 2} send={unlisted.send + 2} process={unlisted.process}\n" if unlisted else "listed\n"]
    if underway:
        lines += [f"underway send={underway.send + 2} line={underway.entry + 2} process={underway.process}\n"]
    return "".join([*lines, f"orphan process={told.orphan}\n"])


def margin(closest: nixu.Closest | None) -> str:
    if closest is None:
        return "closest faults=-\n"
    return f"closest faults={closest.faults} line={closest.delivery + 2} until={closest.instant + 1} orphan={closest.orphan}\n"


def copied(copies: nixu.Copies) -> str:
    lines = [f"logged delivery={copies.delivery} process={event.process} line={event.entry + 2}\n" for event in copies.logged]
    return "".join(lines) + f"stable delivery={copies.delivery}\n" * copies.stable


def facts(told: nixu.Explanation, f: int) -> str:
    """The lines of explain without their sentences."""
    reason, straying = told.reason, told.straying
    if isinstance(reason, nixu.Margin):
        lines = margin(reason.closest)
    elif isinstance(reason, nixu.Excess):
        lines = caused(reason.cause) + down(reason.down)
    else:
        lines = breach(told.verdict, reason)
    stray = strayed(straying.stray) + copied(straying.first) + copied(straying.second) if straying else ""
    return said(told.verdict, f) + lines + stray


def merged(text: bytes) -> str:
    """Recordings that are cut anywhere, into pieces of some bytes."""
    pieces = [text[at : at + PIECE] for at in range(0, len(text), PIECE)]
    try:
        return nixu.merge(pieces).decode()
    except nixu.MergeFault as fault:
        line = fault.line + b"".join(pieces[: fault.recording]).count(b"\n")
        return f"fault line={line} {fault.kind.name}\n"


def verdict(word: str, text: bytes, f: int) -> str:
    if word in SHOWS:
        return SHOWS[word](text, f)
    if word == "audit":
        return said(nixu.audit(text, f), f)
    if word == "each":
        return "".join(map(said, nixu.audit_each(text, FAULTS), FAULTS))
    if word == "replays":
        return strayed(nixu.replays(text))
    if word == "facts":
        return facts(nixu.explanation(text, f), f)
    if word == "merge":
        return merged(text)
    if word == "fed":
        return said(fed(text, f), f)
    if word == "entries":
        return recorded(text.decode(), f)
    nixu.audit(text, f)
    return ""


def fed(text: bytes, f: int) -> nixu.Verdict:
    """The text in pieces of many lengths."""
    at, chosen = 0, random.Random(len(text))
    with nixu.Reader() as reader:
        while at < len(text):
            length = chosen.randrange(64)
            reader.feed(text[at : at + length])
            at += length
        return reader.finish(f)


def entry(line: str) -> nixu.Entry:
    """An entry of a file of entries, whose form ../c/entries.h tells."""
    kind, ssn, rsn, send, source, dest, who, _, *behind = map(int, line.split())
    listed = [nixu.Determinant(*behind[i : i + 4]) for i in range(0, len(behind), 4)]
    return {
        0: lambda: nixu.Send(source, dest, ssn),
        1: lambda: nixu.Deliver(dest, send, rsn, listed),
        2: lambda: nixu.Stable(nixu.Determinant(source, ssn, dest, rsn)),
        3: lambda: nixu.Crash(who),
        4: lambda: nixu.Restart(who, listed),
        5: lambda: nixu.Forget(who, listed),
    }[kind]()


def recorded(file: str, f: int) -> str:
    """The verdict's line and the trace's text, or what stands against an entry, at the line on which it would stand."""
    processes, *lines = file.splitlines()
    with nixu.Trace(int(processes)) as trace:
        for i, line in enumerate(lines):
            try:
                trace.push(entry(line))
            except nixu.Refused as refused:
                return f"fault line={i + 2} {refused.kind.name}\n"
        return said(trace.audit(f), f) + strayed(trace.replays()) + facts(trace.explanation(f), f) + trace.text()


def answer(word: str, text: bytes, f: int) -> str:
    try:
        return verdict(word, text, f)
    except nixu.Fault as fault:
        if word == "sentence":
            return fault.kind.sentence
        if word == "draw":
            return ""  # there is no picture
        return f"fault line={fault.line} {fault.kind.name}\n" * (len(FAULTS) if word == "each" else 1)


def main() -> None:
    with open(sys.argv[1]) as tasks:
        for task in tasks:
            word, f, path = task.rstrip("\n").split(" ", 2)
            with open(path, "rb") as file:
                told = answer(word, file.read(), int(f)).encode()
            sys.stdout.buffer.write(b"%d\n%s" % (len(told), told))


if __name__ == "__main__":
    main()
