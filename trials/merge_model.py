#!/usr/bin/env python3
"""The plain model of `causal_tool merge`: the rule of docs/MERGING.md, written as plainly as it goes.

    cat run/*.log | python3 trials/merge_model.py > run.jsonl
"""
import json
import re
import sys

from traces import json_of

MAX_TEXT, MAX_ENTRIES, MAX_LISTED, MAX_RESTARTS = 67_108_864, 65_536, 1_048_576, 192
U8, U32, U64 = 2**8, 2**32, 2**64
BEHIND = "what this line names stands behind it, by the clocks: a clock was not carried along"
KINDS = {
    "Big": "the recordings have more than 67,108,864 bytes",
    "Syntax": "this is no JSON value; where two lines ran into one, a file before it ends with a torn line",
    "Form": "this has none of the shapes of a recording's line",
    "Version": "the version is not 1",
    "Processes": "there may be 1 to 256 processes",
    "Header": "this header differs from the first one: are these recordings of one run?",
    "NoHeader": "some process has no header: is its recording missing?",
    "NoProcess": "there is no such process",
    "Twice": "another line of this process has the same clock: was a file given twice, or did the clock fall back at a restart?",
    "TooLong": "the limit on entries or on listed determinants is passed",
    "NotUp": "by the clocks the process is down here",
    "NotDown": "by the clocks the process is up here: a restart needs a crash before it",
    "Lanes": "the limit on restarts is passed",
    "WrongSsn": "this is not the number of sends so far in the sender's present incarnation: a line before it is missing?",
    "NoSend": "no line sends this message to this process: a recording is missing, or its end was lost",
    "WrongRsn": "this is not the number of deliveries so far in the present incarnation: a line before it is missing?",
    "Doubled": "the present incarnation has delivered a message of this name",
    "Unsorted": "the determinants do not strictly ascend",
    "NoDelivery": "a determinant named here is that of no delivery of any recording",
}


# the kinds that values explain
EXPLAINED = {"WrongSsn", "NoSend", "WrongRsn", "Doubled", "NoDelivery"}


class Fault(Exception):
    """The first fault, and the sentence that has the values that explain it, if its kind is one of `EXPLAINED`."""

    def __init__(self, line, kind, event=None, behind=False, told=None):
        super().__init__(kind)
        self.line, self.kind, self.event, self.behind, self.told = line, kind, event, behind, told


class Event:
    def __init__(self, line, word, fields):
        self.line, self.word = line, word
        self.process, self.clock = fields[0], fields[1]
        self.fields = fields[2:]
        self.dets = [tuple(d) for d in fields[-1]] if word in ("deliver", "restart", "forget") else []
        self.named = self.dets + ([tuple(fields[2])] if word == "stable" else [])

    def key(self):
        return (self.clock, self.process)


def number(bound):
    return lambda v: type(v) is int and 0 <= v < bound


def is_det(v):
    return isinstance(v, list) and len(v) == 4 and all(number(b)(x) for x, b in zip(v, (U8, U32, U8, U32)))


def are_dets(v):
    return isinstance(v, list) and all(map(is_det, v))


u8, u32, u64 = number(U8), number(U32), number(U64)
SHAPES = {
    "recording": [u8, u32, u32, u64],
    "send": [u8, u64, u8, u32],
    "deliver": [u8, u64, u8, u32, u32, u32, are_dets],
    "heard": [u8, u64, u8, u64],
    "stable": [u8, u64, is_det],
    "crash": [u8, u64],
    "restart": [u8, u64, are_dets],
    "forget": [u8, u64, are_dets],
}


TORN = re.compile(rb'\[("[a-z0-9 ,\[\]]*("[a-z0-9 ,\[\]]*)?)?')


def stays_open(line):
    """Whether some bracket is open after each byte of the line."""
    depth = 0
    for byte in line:
        depth += (byte == ord("[")) - (byte == ord("]"))
        if depth <= 0:
            return False
    return True


def is_torn(line):
    """A beginning of one line of a recording, by the definition in docs/MERGING.md; asked only of what is no JSON value."""
    return TORN.fullmatch(line) is not None and stays_open(line)


def is_whole(line):
    """Whether a line is a JSON value."""
    try:
        json_of(line)
    except (ValueError, RecursionError):
        return False
    return True


def read(text):
    """The header's number of processes and the events, in the order of the input."""
    n, header, headed, events, torn, count, end = None, None, set(), [], [], 0, 0
    for count, line in enumerate(text.split(b"\n"), 1):
        end += len(line) + 1
        if min(end, len(text)) > MAX_TEXT:
            raise Fault(count, "Big")
        if not line.strip(b" \t\r"):
            continue
        try:
            value = json_of(line)
        except (ValueError, RecursionError):
            if is_torn(line):
                torn.append(count)
                continue
            raise Fault(count, "Syntax") from None
        if not (isinstance(value, list) and value and isinstance(value[0], str) and value[0] in SHAPES):
            raise Fault(count, "Form")
        word, *fields = value
        tests = SHAPES[word]
        if len(fields) != len(tests) or not all(t(v) for t, v in zip(tests, fields)):
            raise Fault(count, "Form")
        if word == "recording":
            if fields[1] != 1:
                raise Fault(count, "Version")
            if not 1 <= fields[2] <= 256:
                raise Fault(count, "Processes")
            if header is not None and header != fields[1:]:
                raise Fault(count, "Header")
            header, n = fields[1:], fields[2]
            if fields[0] >= n:
                raise Fault(count, "NoProcess")
            headed.add(fields[0])
        elif word != "heard":
            events.append(Event(count, word, fields))
    if header is None or len(headed) < n:
        raise Fault(count + (0 if text.endswith(b"\n") or not text else 1), "NoHeader")
    return n, events, torn


def trace_of(n, events):
    """The entries of the trace that has the events in this order, else the first fault in this order."""
    up, lane, sends, delivered, names = [True] * n, [0] * n, [0] * n, [0] * n, [set() for _ in range(n)]
    sent = {}  # (source, lane, ssn) -> position, receiver
    dets = set()
    listed = restarts = 0
    entries, place = [], 0
    later = None  # what the whole recording has; made when a name is not found

    def whole():
        lanes, all_sends, all_dets = [0] * n, set(), set()
        for e in events:
            if e.process >= n:
                continue
            if e.word == "restart":
                lanes[e.process] += 1
            elif e.word == "send":
                all_sends.add((e.process, lanes[e.process], e.fields[1], e.fields[0]))
            elif e.word == "deliver":
                all_dets.add((e.fields[0], e.fields[2], e.process, e.fields[3]))
        return all_sends, all_dets

    last = None
    for e in events:
        p, own = e.process, None

        def bad(kind, told=None, behind=False):
            raise Fault(e.line, kind, e, behind, told)

        if last is not None and last.key() == e.key():
            bad("Twice")
        last = e
        if place + 1 > MAX_ENTRIES or listed + len(e.dets) > MAX_LISTED:
            bad("TooLong")
        if p >= n or (e.word in ("send", "deliver") and e.fields[0] >= n):
            bad("NoProcess")
        if e.word == "restart":
            if up[p]:
                bad("NotDown")
            if restarts >= MAX_RESTARTS:
                bad("Lanes")
        elif e.word != "stable" and not up[p]:
            bad("NotUp")
        if e.word == "send":
            q, ssn = e.fields
            if sends[p] != ssn:
                bad("WrongSsn", f"process {p} sends with the number {ssn}, and its next is {sends[p]}")
            entry = ["send", p, q, ssn]
        elif e.word == "deliver":
            source, source_lane, ssn, rsn, _ = e.fields
            position, to = sent.get((source, source_lane, ssn), (None, None))
            if to != p:
                later = later or whole()
                told = f"there is no earlier send to process {p} of message {ssn} of incarnation {source_lane} of process {source}"
                bad("NoSend", told, (source, source_lane, ssn, p) in later[0])
            if delivered[p] != rsn:
                bad("WrongRsn", f"process {p} delivers with the number {rsn}, and its next is {delivered[p]}")
            if (source, ssn) in names[p]:
                bad("Doubled", f"process {p} has delivered message {ssn} of process {source} already")
            own = (source, ssn, p, rsn)
            entry = ["deliver", p, position, rsn, [list(d) for d in e.dets]]
        elif e.word == "stable":
            entry = ["stable", list(e.named[0])]
        elif e.word == "crash":
            entry = ["crash", p]
        else:
            entry = [e.word, p, [list(d) for d in e.dets]]
        if any(a >= b for a, b in zip(e.dets, e.dets[1:])):
            bad("Unsorted")
        missing = [d for d in e.named if d not in dets and d != own]
        if missing:
            later = later or whole()
            first = ",".join(map(str, missing[0]))
            bad("NoDelivery", f"there is no delivery of the determinant [{first}]", all(d in later[1] for d in missing))
        # the step
        if e.word == "send":
            sent[(p, lane[p], e.fields[1])] = (place, e.fields[0])
            sends[p] += 1
        elif e.word == "deliver":
            dets.add(own)
            names[p].add(own[:2])
            delivered[p] += 1
        elif e.word == "crash":
            up[p] = False
        elif e.word == "restart":
            restarts += 1
            up[p], sends[p], delivered[p], names[p] = True, 0, 0, set()
            lane[p] += 1
        listed += len(e.dets)
        place += 1
        entries.append(entry)
    return entries


def merged(text):
    n, events, torn = read(text)
    events.sort(key=Event.key)  # stable: of two that are alike the later in the input is `Twice`
    return n, events, trace_of(n, events), torn


def spell(n, entries):
    version = 1 if n <= 64 and all(e[0] != "forget" for e in entries) else 2
    lines = [["trace", version, n], *entries, ["end", len(entries)]]
    return "".join(json.dumps(line, separators=(",", ":")) + "\n" for line in lines)


def main():
    text = sys.stdin.buffer.read()
    try:
        n, events, entries, torn = merged(text)
    except Fault as fault:
        print(f"fault line={fault.line} {fault.kind}")
        where = f" (process {fault.event.process}, clock {fault.event.clock})" if fault.event else ""
        if fault.told:
            print(f"line {fault.line}: {fault.told}", file=sys.stderr)
        print(f"line {fault.line}{where}: {BEHIND if fault.behind else KINDS[fault.kind]}", file=sys.stderr)
        return 2
    for line in torn:
        print(f"torn line={line}: passed over", file=sys.stderr)
    sys.stdout.write(spell(n, entries))
    return 0


if __name__ == "__main__":
    sys.exit(main())
