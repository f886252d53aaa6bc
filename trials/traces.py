"""A plain model of the auditor, from docs/FORMAT.md alone: it reads a text as the format says, and judges the trace by
trying every crash set at every instant. It shares no code with the product, and is for small traces."""
import itertools
import json
import math
import re

MAX_TEXT = 33_554_432
MAX_ENTRIES = 65_536
MAX_LISTED = 1_048_576
MAX_RESTARTS = 192
LEVELS = 127  # as many brackets may stand in one another
U8, U32, U64 = 2**8, 2**32, 2**64


class Fault(Exception):
    def __init__(self, kind):
        super().__init__(kind)
        self.kind = kind


class NoWhole:
    """A JSON number that is no whole number in plain digits, or one past 64 bits."""


def whole(digits):
    if len(digits) > 300 and math.isinf(float(digits)):
        raise ValueError("past a float")
    return NoWhole if digits.startswith("-") or int(digits) >= U64 else int(digits)


def fraction(digits):
    if math.isinf(float(digits)):
        raise ValueError("past a float")
    return NoWhole


def constant(word):
    raise ValueError(word)


def depth_of(value):
    if isinstance(value, list):
        return 1 + max(map(depth_of, value), default=0)
    if isinstance(value, dict):
        return 1 + max(map(depth_of, value.values()), default=0)
    return 0


SURROGATE = re.compile("[\ud800-\udfff]")


def strings_of(value):
    if isinstance(value, str):
        yield value
    elif isinstance(value, list):
        for item in value:
            yield from strings_of(item)
    elif isinstance(value, dict):
        for key, item in value.items():
            yield key
            yield from strings_of(item)


def json_of(line):
    """The JSON value of a line; a ValueError where it is none."""
    value = json.loads(line.decode("utf-8"), parse_int=whole, parse_float=fraction, parse_constant=constant)
    if depth_of(value) > LEVELS or any(SURROGATE.search(s) for s in strings_of(value)):
        raise ValueError("too deep, or half a character")
    return value


def is_number(value, below):
    return type(value) is int and value < below


def is_det(value):
    return (
        isinstance(value, list)
        and len(value) == 4
        and all(is_number(x, b) for x, b in zip(value, (U8, U32, U8, U32)))
    )


def are_dets(value):
    return isinstance(value, list) and all(map(is_det, value))


SHAPES = {
    "trace": [lambda v: is_number(v, U32)] * 2,
    "send": [lambda v: is_number(v, U8), lambda v: is_number(v, U8), lambda v: is_number(v, U32)],
    "deliver": [lambda v: is_number(v, U8), lambda v: is_number(v, U32), lambda v: is_number(v, U32), are_dets],
    "stable": [is_det],
    "crash": [lambda v: is_number(v, U8)],
    "restart": [lambda v: is_number(v, U8), are_dets],
    "forget": [lambda v: is_number(v, U8), are_dets],
    "end": [lambda v: is_number(v, U32)],
}


def shape_of(value, version):
    """The word and the fields of a line, else `Form`."""
    if not (isinstance(value, list) and value and isinstance(value[0], str) and value[0] in SHAPES):
        raise Fault("Form")
    word, *fields = value
    tests = SHAPES[word]
    if len(fields) != len(tests) or not all(test(field) for test, field in zip(tests, fields)):
        raise Fault("Form")
    if word == "forget" and version == 1:
        raise Fault("Form")
    return word, fields


class Process:
    """What a trace says of a process at an instant."""

    def __init__(self):
        self.up = True
        self.lane = 0
        self.open_lane([])

    def open_lane(self, listed):
        self.sends = self.deliveries = 0
        self.received = set()
        self.log = set(listed)
        self.depends = frozenset()  # positions of the deliveries that reach an event of the present lane


class Trace:
    """A well-formed trace, entry by entry, and what it says at the present instant."""

    def __init__(self, n):
        self.n = n
        self.entries = []
        self.processes = [Process() for _ in range(n)]
        self.reach = []  # of each position: the deliveries that reach it
        self.dets = {}  # of each position that is a delivery: its determinant
        self.stable = set()
        self.listed = 0
        self.restarts = 0

    def push(self, word, fields):
        listed = [tuple(det) for det in fields[-1]] if word in ("deliver", "restart", "forget") else []
        if len(self.entries) + 1 > MAX_ENTRIES or self.listed + len(listed) > MAX_LISTED:
            raise Fault("TooLong")
        own = getattr(self, "push_" + word)(fields, listed)
        if any(a >= b for a, b in zip(listed, listed[1:])):
            raise Fault("Unsorted")
        delivered = set(self.dets.values()) | ({own} if word == "deliver" else set())
        named = listed + ([tuple(fields[0])] if word == "stable" else [])
        if not all(det in delivered for det in named):
            raise Fault("NoDelivery")
        self.listed += len(listed)
        self.note(word, fields, listed, own)
        self.entries.append((word, fields))

    def process(self, p):
        if p >= self.n:
            raise Fault("NoProcess")
        return self.processes[p]

    def up(self, p):
        if not self.process(p).up:
            raise Fault("NotUp")
        return self.processes[p]

    def push_send(self, fields, listed):
        p, q, ssn = fields
        self.process(p), self.process(q)
        if self.up(p).sends != ssn:
            raise Fault("WrongSsn")

    def push_deliver(self, fields, listed):
        q, k, rsn, _ = fields
        receiver = self.up(q)
        word, send = self.entries[k] if k < len(self.entries) else (None, None)
        if word != "send" or send[1] != q:
            raise Fault("NoSend")
        if receiver.deliveries != rsn:
            raise Fault("WrongRsn")
        if (send[0], send[2]) in receiver.received:
            raise Fault("Doubled")
        return (send[0], send[2], q, rsn)

    def push_stable(self, fields, listed):
        return None

    def push_crash(self, fields, listed):
        self.up(fields[0])

    def push_forget(self, fields, listed):
        self.up(fields[0])

    def push_restart(self, fields, listed):
        if self.process(fields[0]).up:
            raise Fault("NotDown")
        if self.restarts >= MAX_RESTARTS:
            raise Fault("Lanes")

    def note(self, word, fields, listed, own):
        here = len(self.entries)
        reached = frozenset()
        if word == "send":
            sender = self.processes[fields[0]]
            sender.sends += 1
            reached = sender.depends
        elif word == "deliver":
            receiver = self.processes[fields[0]]
            receiver.deliveries += 1
            receiver.received.add(own[:2])
            receiver.log.update(listed)
            self.dets[here] = own
            reached = receiver.depends | self.reach[fields[1]] | {here}
            receiver.depends = reached
        elif word == "stable":
            self.stable.add(tuple(fields[0]))
        elif word == "crash":
            self.processes[fields[0]].up = False
        elif word == "forget":
            self.processes[fields[0]].log.difference_update(listed)
        elif word == "restart":
            self.restarts += 1
            p = self.processes[fields[0]]
            p.up = True
            p.lane += 1
            p.open_lane(listed)
        self.reach.append(reached)

    def down(self):
        return {p for p in range(self.n) if not self.processes[p].up}

    def orphans(self, k, crash):
        """The processes that are orphans for the delivery at position k when just these are down."""
        det = self.dets[k]
        outside = [p for p in range(self.n) if p not in crash]
        if det in self.stable or any(det in self.processes[p].log for p in outside):
            return []
        return [p for p in outside if k in self.processes[p].depends]

    def failure(self, f):
        """How the present instant is unsafe for f, by trying every crash set of processes that have come up or gone down,
        sent or delivered; None where it is safe. The other processes hold nothing and depend on nothing."""
        instant, down = len(self.entries), self.down()
        if len(down) > f:
            return f"exceeded f={f} instant={instant} down={joined(down)}"
        others = sorted({fields[0] for word, fields in self.entries if word != "stable"} - down)
        sets = [
            down | set(more)
            for size in range(min(f - len(down), len(others)) + 1)
            for more in itertools.combinations(others, size)
        ]
        for k in sorted(self.dets):
            bad = [crash for crash in sets if self.orphans(k, crash)]
            if bad:
                least = [crash for crash in bad if all(crash <= other for other in bad)]
                assert len(least) == 1, "one of the crash sets is contained in all of them"
                orphan = min(self.orphans(k, least[0]))
                return f"orphan f={f} instant={instant} delivery={k} crash={joined(least[0])} orphan={orphan}"
        return None


def joined(processes):
    return ",".join(map(str, sorted(processes))) or "-"


def lines_of(text):
    """The lines, each with its line feed where it has one."""
    return re.findall(rb"[^\n]*\n|[^\n]+\Z", text)


def read(text):
    """The trace that a text spells, else a Fault with the number of the line."""
    trace, version, ended, size = None, None, False, 0
    number = 0
    for number, line in enumerate(lines_of(text), 1):
        size += len(line)
        try:
            if ended:
                raise Fault("After")
            if size > MAX_TEXT:
                raise Fault("Big")
            try:
                value = json_of(line[:-1] if line.endswith(b"\n") else line)
            except (ValueError, RecursionError):
                raise Fault("Syntax") from None
            word, fields = shape_of(value, version)
            if (number == 1) != (word == "trace"):
                raise Fault("Header")
            if word == "trace":
                version, n = fields
                if version not in (1, 2):
                    raise Fault("Version")
                if not 1 <= n <= {1: 64, 2: 256}[version]:
                    raise Fault("Processes")
                trace = Trace(n)
            elif word == "end":
                if fields[0] != len(trace.entries):
                    raise Fault("Count")
                ended = True
            else:
                trace.push(word, fields)
        except Fault as fault:
            fault.line = number
            raise
    if not ended:
        fault = Fault("Cut")
        fault.line = number + 1
        raise fault
    return trace


def audited(text, f):
    """What the audit of a text has to print, and its status."""
    try:
        trace = read(text)
    except Fault as fault:
        return f"fault line={fault.line} {fault.kind}", 2
    again = Trace(trace.n)
    for entry in [None, *trace.entries]:
        if entry is not None:
            again.push(*entry)
        failure = again.failure(f)
        if failure:
            return failure, 1
    return f"accept f={f} entries={len(trace.entries)} deliveries={len(trace.dets)}", 0


def audited_until_breach(text, f):
    """The same with --until-breach: the answer to the first 1, 2, 4 entries and so on, as if the trace ended there, where that is a
    breach."""
    lines = lines_of(text)
    for look in itertools.takewhile(lambda look: look < len(lines), (1 << k for k in itertools.count())):
        begun = b"".join(lines[: look + 1])
        line, status = audited(begun + b'["end",%d]' % look, f)
        if status == 1 and begun.endswith(b"\n"):
            return f"{line} read={look}", 1
    return audited(text, f)
