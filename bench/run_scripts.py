#!/usr/bin/env python3
"""Makes scripts for the command `run` whose traces come as near to the limits as their kind of process allows, without any
code of the product. How many entries and deliveries the trace has is known from how the script was made, and the same
command makes the same bytes.

    run_scripts.py SCRIPT [--part 8]
"""
import argparse
import sys
from collections import deque

from generate import MAX_ENTRIES, MAX_LISTED, MAX_RESTARTS

MAX_SCRIPT = 1_048_576
ROOM = 9  # entries that have to be left for a delivery or a restart

SCRIPTS = {
    "ring": "a ring of 3, of which process 1 crashes 192 times and replays its 86 deliveries; in a ring of 2 the lists would "
    "be too long",
    "echo": "128 pairs that echo each other, up to the limit on entries",
    "tally": "a tally of 256, of which process 0 crashes and replays its 255 deliveries up to the limit on entries",
    "ring for 2": "the ring for two failures: no list has more than the 255 determinants that there are, and the crashes end where "
    "so long lists would come near the limit on listed determinants",
    "ring for 3": "the same for as many failures as there are processes",
    "tally of 64 for 8": "a tally of 64 for eight failures, in the same way",
    "tally for 2": "a tally of 256 for two failures, in the same way",
    "tally for 256": "the same for as many failures as there are processes",
    "flushes": "128 pairs that echo each other for no failure; then each process flushes what it logs, and forgets it",
}
# kind, number of processes, failures, parameter, and who crashes
RUNS = {
    "ring": ("ring", 3, 1, 255, 1),
    "echo": ("echo", 256, 0, 255, None),
    "tally": ("tally", 256, 1, 0, 0),
    "ring for 2": ("ring", 3, 2, 255, 1),
    "ring for 3": ("ring", 3, 3, 255, 1),
    "tally of 64 for 8": ("tally", 64, 8, 0, 0),
    "tally for 2": ("tally", 256, 2, 0, 0),
    "tally for 256": ("tally", 256, 256, 0, 0),
    "flushes": ("echo", 256, 0, 255, None),
}
TEXTS = {
    "long lines": "1,048,576 bytes of deliveries, the last line of which is none of a script",
    "short lines": "the same of flushes",
}


class Processes:
    """The processes of a script, which send as their kind says, and the commands so far."""

    def __init__(self, kind, n, f, param, limit):
        self.kind, self.n, self.param, self.limit = kind, n, param, limit
        self.lines = [f"start {kind} {n} {f}" + ("" if kind == "tally" else f" {param}")]
        self.entries = self.deliveries = self.restarts = 0
        self.made = self.listed = 0  # determinants in all, and how many are listed at most
        self.sent = [[] for _ in range(n)]
        self.got = [[] for _ in range(n)]
        self.totals = [0] * n
        self.ways = deque()
        for p in range(n):
            self.send(p, self.beginning(p))

    def beginning(self, p):
        if self.kind == "ring":
            return [(1 % self.n, self.param)] if p == 0 else []
        if self.kind == "echo":
            return [(p ^ 1, self.param)] if p ^ 1 < self.n else []
        return [(0, p)] if p else []

    def reaction(self, q, p, body):
        if self.kind == "tally":
            if q:
                return []
            self.totals[q] += body
            return [(p, self.totals[q] >> 56)]  # of a total the first byte is the highest
        to = (q + 1) % self.n if self.kind == "ring" else p
        return [(to, body - 1)] if body else []

    def send(self, p, sends, is_new=True):
        for to, body in sends:
            if is_new:
                self.ways.append((to, p, len(self.sent[p])))
            self.sent[p].append((to, body))
            self.entries += 1

    def has_room(self):
        return self.entries + ROOM <= self.limit

    def lists(self):
        """A list has no more than all determinants."""
        self.listed += self.made

    def deliver(self, q, p, number, is_new=True):
        self.lines.append(f"deliver {q} {p} {number}")
        self.got[q].append((p, number))
        self.entries += 1
        self.deliveries += 1
        self.made += is_new
        self.lists()
        self.send(q, self.reaction(q, p, self.sent[p][number][1]), is_new)

    def deliver_all(self):
        while self.ways and self.has_room():
            self.deliver(*self.ways.popleft())

    def crash_and_replay(self, p):
        """Its sends are those that it made before, so nothing new is on its way after."""
        self.lines += [f"crash {p}", f"restart {p}"]
        self.entries += 2
        self.restarts += 1
        self.lists()
        before, self.got[p], self.sent[p], self.totals[p] = self.got[p], [], [], 0
        self.send(p, self.beginning(p), False)
        for name in before:
            if not self.has_room():
                return
            self.deliver(p, *name, False)

    def replays_fit(self, p):
        """Whether one more replay of p's deliveries, with lists of all determinants, stays within the limit."""
        return self.listed + (len(self.got[p]) + 1) * self.made <= MAX_LISTED

    def flush_and_forget(self, p):
        """For no failure a process logs what it delivered, and nothing else."""
        self.lines += [f"flush {p}", f"forget {p}"]
        self.entries += len(self.got[p]) + (len(self.got[p]) > 0)


def run(script, part):
    kind, n, f, param, crashing = RUNS[script]
    flushes = script == "flushes"
    # a flush takes an entry for each delivery, of which each has a send, and a forgetting one for each process
    limit = MAX_ENTRIES // part
    run = Processes(kind, n, f, param, (limit - n) * 2 // 3 if flushes else limit)
    run.deliver_all()
    if flushes:
        for p in range(n):
            run.flush_and_forget(p)
    # the crash takes an entry too
    while crashing is not None and run.restarts < MAX_RESTARTS // part and run.entries + 1 + ROOM <= run.limit:
        if f > 1 and not run.replays_fit(crashing):
            break
        run.crash_and_replay(crashing)
    return run


def filled(line, size):
    """Lines after a first one, so many bytes together, the last of which is no line of a script."""
    text = "start ring 1 0 0\n"
    text += line * ((size - len(text) - 2) // len(line))
    return text + "x" * (size - len(text) - 1) + "\n"


def misended(text):
    """The same script with a last line that is none: it is read whole, and nothing runs."""
    return text[: text.rindex("\n", 0, -1) + 1] + "x\n"


def make(script, part=1):
    """The text and what is known of it."""
    if script in TEXTS:
        text = filled({"long lines": "deliver 255 255 65535\n", "short lines": "flush 0\n"}[script], MAX_SCRIPT // part)
        lines = text.count("\n")
        return text, {"script": script, "processes": 1, "commands": lines - 2, "entries": 0, "deliveries": 0,
                      "bytes": len(text), "answer": f"fault line={lines} Script", "status": 2}
    made = run(script, part)
    text = "\n".join(made.lines) + "\n"
    return text, {"script": script, "processes": made.n, "f": RUNS[script][2], "commands": len(made.lines) - 1, "entries": made.entries,
                  "deliveries": made.deliveries, "restarts": made.restarts, "bytes": len(text), "answer": f'["end",{made.entries}]', "status": 0}


def main():
    words = argparse.ArgumentParser(description=__doc__.split("\n")[0])
    words.add_argument("script", choices=[*SCRIPTS, *TEXTS])
    words.add_argument("--part", type=int, default=1, help="every limit is divided by this (1)")
    given = words.parse_args()
    text, about = make(given.script, given.part)
    sys.stdout.write(text)
    print(about, file=sys.stderr)


if __name__ == "__main__":
    main()
