#!/usr/bin/env python3
"""Makes runs of millions of entries, written as they are simulated, and measures what their audit takes for each entry.

    long_runs.py [--program PATH] [--entries 65536,1048576,4194304] [--faults 1,2] [--shapes ring,gossip] [--workers 1]
                 [--restarts 192]

It prints a row for each run. It ends with status 1 where an answer is not the one that the run was made for.
"""
import argparse
import collections
import io
import json
import os
import random
import sys

import generate
import timed
from reader import answered
from timed import HERE, INPUTS

PROGRAM = os.path.join(HERE, "..", "crates", "causal_tool", "out", "causal_tool")
SHAPES = ("ring", "gossip", "star", "chain", "restarts", "pairs")
PAIRS = ("pairs", "acquainted")  # the second for f = 2 takes time as the square of the entries, so it is made where it is asked for
LISTED = 16  # determinants of a message at most
SHORT = 512  # entries of a run that the plain reader judges


class Lines:
    """The entries of a run, each of which is written at once and not kept."""

    def __init__(self, file):
        self.file = file
        self.count = self.listed = self.deliveries = 0

    def __len__(self):
        return self.count

    def append(self, entry):
        self.file.write(generate.line_of(entry) + "\n")
        self.count += 1
        if entry[0] == "deliver":
            self.deliveries += 1
            self.listed += len(entry[4])
        elif entry[0] == "restart":
            self.listed += len(entry[2])


class LongRun(generate.Run):
    """A simulated run that forgets the holders of a determinant once it is secure, and remembers a process's past and log only where
    processes restart."""

    def __init__(self, n, f, limit, lines, restarts):
        super().__init__(n, f, limit, LISTED, False)
        self.entries = lines
        self.remembers = restarts > 0

    def is_secure(self, det):
        return det not in self.holders

    def hold(self, p, det):
        super().hold(p, det)
        if self.holders[det].bit_count() >= self.enough:
            del self.holders[det]
        if not self.remembers:
            self.logs[p].clear()

    def write(self, det):
        super().write(det)
        del self.holders[det]
        if not self.remembers:
            self.stable.clear()

    def send(self, p, q):
        message = super().send(p, q)
        if not self.remembers:
            self.past[p].clear()
        return message

    def crash_and_restart(self, p):
        held = self.holders
        self.holders = collections.defaultdict(int, held)  # others hold what is secure
        super().crash_and_restart(p)
        self.holders = held


def run_pairs(run):
    """Partners send to and fro, and both hold each delivery. For f = 2 both may crash, and nobody else ever depends on it."""
    half = run.n // 2
    turn = 0
    while run.room() > 4:
        pair = turn % half
        a, b = 2 * pair + turn // half % 2, 2 * pair + 1 - turn // half % 2
        run.deliver(run.send(a, b))
        turn += 1
    return lambda: (0, 1)


def run_acquainted(run):
    """Pairs of which one has sent to one of the next pair before anything else. It reaches others than its partner then, so that for
    f = 2 each delivery to it is followed to the end."""
    for message in [run.send(p, (p + 2) % run.n) for p in range(0, run.n, 2)]:
        run.deliver(message)
    return run_pairs(run)


def simulate(shape, f, entries, file, most=generate.MAX_RESTARTS):
    """Writes a run of so many entries that is safe for f, and gives what is known of it."""
    n = generate.processes_of(shape)
    share = 341 if most == generate.MAX_RESTARTS else 256  # entries for each restart, and more
    restarts = min(most, entries // share) if shape == "restarts" else 0
    lines = Lines(file)
    file.write('["trace",%d,%d]\n' % (2 if n > 64 else 1, n))
    run = LongRun(n, 1 if shape in PAIRS else f, entries, lines, restarts)
    rng = random.Random(f"{shape} {f} {entries}")
    if shape == "restarts":
        draw = generate.run_restarts(run, rng, restarts)
    elif shape == "pairs":
        draw = run_pairs(run)
    elif shape == "acquainted":
        draw = run_acquainted(run)
    else:
        draw = getattr(generate, "run_" + shape)(run, rng)
    run.finish(draw, False)
    file.write('["end",%d]\n' % len(lines))
    return lines


def answer_of(f, about):
    return f"accept f={f} entries={about['entries']} deliveries={about['deliveries']}"


def about(lines):
    return {"entries": len(lines), "deliveries": lines.deliveries, "listed": lines.listed}


def check(shape, f, most):
    """A short run of the same make is judged by the plain reader."""
    file = io.StringIO()
    known = about(simulate(shape, f, SHORT, file, most))
    said = answered(file.getvalue(), f)[1]
    if said != answer_of(f, known):
        sys.exit(f"{shape} f={f}: the plain reader says {said}")


def made(shape, f, entries, most=generate.MAX_RESTARTS):
    """The file of a run, and what is known of it. What an earlier call has made is taken as it is."""
    name = f"{shape}{most}" if shape == "restarts" and most != generate.MAX_RESTARTS else shape
    path = os.path.join(INPUTS, f"long-{name}-{f}-{entries}.jsonl")
    if not os.path.exists(path + ".about"):
        with open(path, "w", buffering=1 << 20) as file:
            known = about(simulate(shape, f, entries, file, most))
        with open(path + ".about", "w") as file:
            json.dump(known, file)
    with open(path + ".about") as file:
        return path, json.load(file)


def rows(program, workers, shape, f, sizes, most):
    """Beside the time for each entry stands how many times it is that of the first size; of the memory, what each entry takes."""
    first = None
    for entries in sizes:
        path, known = made(shape, f, entries, most)
        command = [program, "audit", "--faults", str(f), "--workers", str(workers), "--entries", str(entries)]
        found = timed.measure(command, path)
        if found.line != answer_of(f, known):
            sys.exit(f"{shape} f={f} entries={entries}: the program says {found.line}")
        each = found.least_processor() / entries * 1e6
        first = first or each
        print(
            f"| {shape} | {f} | {entries:,} | {known['listed'] / entries:.2f} | {min(found.walls):.2f} | {each:.2f} | {each / first:.2f} "
            f"| {found.peak * 1024 / entries:.0f} |",
            flush=True,
        )


def main():
    words = argparse.ArgumentParser(description=__doc__.split("\n")[0])
    words.add_argument("--program", default=PROGRAM)
    words.add_argument("--entries", default="65536,1048576,4194304")
    words.add_argument("--faults", default="1,2")
    words.add_argument("--shapes", default=",".join(SHAPES))
    words.add_argument("--workers", type=int, default=1)
    words.add_argument("--restarts", type=int, default=generate.MAX_RESTARTS, help="at most, of `restarts`, and one for 256 entries")
    words.add_argument("--only-make", action="store_true", help="make the files, and measure nothing")
    given = words.parse_args()
    timed.LIMIT = 3600.0
    os.makedirs(INPUTS, exist_ok=True)
    sizes = list(map(int, given.entries.split(",")))
    asked = [(shape, f) for shape in given.shapes.split(",") for f in map(int, given.faults.split(","))]
    if given.only_make:
        for shape, f in asked:
            for entries in sizes:
                made(shape, f, entries, given.restarts)
        return
    print("| run | f | entries | listed | s | us an entry | times | bytes an entry |\n|---|---|---|---|---|---|---|---|")
    for shape, f in asked:
        check(shape, f, given.restarts)
        rows(given.program, given.workers, shape, f, sizes, given.restarts)


if __name__ == "__main__":
    main()
