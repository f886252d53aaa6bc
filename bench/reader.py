"""A plain reader of traces, which judges each instant from the definitions. It shares no code with the product; of the
generators it takes the limits, and how a line is spelled. It is slow: at each instant it looks at all determinants.
"""
import json

import generate


class Reader:
    """A trace that is read with every rule of a well-formed one, and its first unsafe instant for f."""

    def __init__(self, f):
        self.f = f
        self.entries = []
        self.dets = {}  # determinant: the positions of its deliveries
        self.reached = []  # of a send: the deliveries that reach it
        self.listed = 0
        self.restarts = 0
        self.verdict = None

    def start(self, header):
        word, version, n = header
        assert word == "trace" and 1 <= n <= {1: 64, 2: 256}[version]
        self.n = n
        self.up = [True] * n
        self.sends = [0] * n
        self.delivers = [0] * n
        self.names = [set() for _ in range(n)]
        self.logs = [set() for _ in range(n)]
        self.depends = [frozenset() for _ in range(n)]
        self.stable = set()

    def check_list(self, dets):
        dets = [tuple(det) for det in dets]
        assert all(a < b for a, b in zip(dets, dets[1:])), "unsorted"
        assert all(det in self.dets for det in dets), "no delivery"
        self.listed += len(dets)
        return dets

    def take(self, entry):
        getattr(self, "take_" + entry[0])(*entry[1:])
        self.entries.append(entry)
        assert len(self.entries) <= generate.MAX_ENTRIES and self.listed <= generate.MAX_LISTED
        if self.verdict is None:
            self.verdict = self.judge()

    def take_send(self, p, q, s):
        assert p < self.n and q < self.n and self.up[p] and s == self.sends[p]
        self.sends[p] += 1
        self.reached.append(self.depends[p])

    def take_deliver(self, q, k, r, dets):
        send = self.entries[k]
        assert send[0] == "send" and send[2] == q and self.up[q] and r == self.delivers[q]
        name = (send[1], send[3])
        assert name not in self.names[q], "doubled"
        self.names[q].add(name)
        self.delivers[q] += 1
        position = len(self.entries)
        self.dets.setdefault((send[1], send[3], q, r), []).append(position)
        self.logs[q].update(self.check_list(dets))
        self.reached.append(None)
        self.depends[q] = self.depends[q] | self.reached[k] | {position}

    def take_stable(self, det):
        assert tuple(det) in self.dets
        self.stable.add(tuple(det))
        self.reached.append(None)

    def take_crash(self, p):
        assert self.up[p]
        self.up[p] = False
        self.logs[p] = set()
        self.depends[p] = frozenset()
        self.reached.append(None)

    def take_forget(self, p, dets):
        assert self.up[p]
        self.logs[p].difference_update(self.check_list(dets))
        self.reached.append(None)

    def take_restart(self, p, dets):
        assert not self.up[p]
        self.restarts += 1
        assert self.restarts <= generate.MAX_RESTARTS
        self.up[p] = True
        self.sends[p] = self.delivers[p] = 0
        self.names[p] = set()
        self.logs[p] = set(self.check_list(dets))
        self.reached.append(None)

    def judge(self):
        """How the present instant is unsafe, if it is."""
        instant = len(self.entries)
        down = {p for p in range(self.n) if not self.up[p]}
        if len(down) > self.f:
            return f"exceeded f={self.f} instant={instant} down={','.join(map(str, sorted(down)))}"
        found = []
        for det, positions in self.dets.items():
            if det in self.stable:
                continue
            holders = {p for p in range(self.n) if det in self.logs[p]}
            if len(down | holders) > self.f:
                continue
            for position in positions:
                orphans = [p for p in range(self.n) if position in self.depends[p] and p not in holders]
                if orphans:
                    found.append((position, sorted(down | holders), orphans[0]))
        if not found:
            return None
        position, crash, orphan = min(found)
        crash = ",".join(map(str, crash)) or "-"
        return f"orphan f={self.f} instant={instant} delivery={position} crash={crash} orphan={orphan}"


def answered(text, f):
    lines = [json.loads(line) for line in text.splitlines()]
    reader = Reader(f)
    reader.start(lines[0])
    for entry in lines[1:-1]:
        reader.take(entry)
    count = len(reader.entries)
    assert lines[-1] == ["end", count]
    deliveries = sum(entry[0] == "deliver" for entry in reader.entries)
    return reader, reader.verdict or f"accept f={f} entries={count} deliveries={deliveries}"


def first_breach(n, entries, f):
    """What the reader says of the first instant that is unsafe for f, as soon as it comes."""
    reader = Reader(f)
    reader.start(["trace", 2, n])
    for entry in entries:
        reader.take(json.loads(generate.line_of(entry)))
        if reader.verdict is not None:
            return reader.verdict
    raise SystemExit("no instant is unsafe")
