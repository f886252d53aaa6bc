#!/usr/bin/env python3
"""Runs the built program on runs of millions of entries, whose verdicts follow from how they are made. Small runs of the same shapes are
judged by the plain model (traces.py) first, which has to say the same. It tells what each took.

    trials/long.py [--program PATH] [--entries 4194304] [--workers 1]
"""
import argparse
import json
import os
import resource
import subprocess
import sys
import tempfile

import fuzz
import traces

PROCESSES = 64
SMALL = 96  # entries of a run that the plain model judges


def hop(a, b, number):
    """The determinant of a delivery by b of what a sends, where both count alike."""
    return [a, number, b, number]


def lines_of(n, hops, listed):
    """Messages one after another, each sent and delivered at once: `hops` has sender, receiver and the number that both count, and
    `listed` says what the receiver lists of the message at a place."""
    yield ["trace", 2, n]
    for place, (a, b, number) in enumerate(hops):
        yield ["send", a, b, number]
        yield ["deliver", b, 2 * place, number, sorted(listed(place))]
    yield ["end", 2 * len(hops)]


def ring(n, entries, lacking):
    """A token goes round. Each message brings the determinant of the delivery before it, so two hold each; the last brings none where
    it is to be lacking, and then one crash loses that delivery, on which the last receiver depends."""
    hops = [(i % n, (i + 1) % n, i // n) for i in range(entries // 2)]
    last = len(hops) - 1

    def listed(i):
        return [hop(*hops[k]) for k in (i - 1, i) if k == i or (k >= 0 and not (lacking and i == last))]

    said = f"accept f=1 entries={2 * len(hops)} deliveries={len(hops)}"
    if lacking:
        said = f"orphan f=1 instant={2 * len(hops)} delivery={2 * last - 1} crash={hops[last][0]} orphan={hops[last][1]}"
    return 1, said, lines_of(n, hops, listed)


def pairs(n, entries):
    """Partners send to and fro, and each delivery is held by both. Both may crash, and nobody else ever depends on it."""
    half = n // 2
    turns = [(i % half, i // half) for i in range(entries // 2)]
    hops = [(2 * j + m % 2, 2 * j + 1 - m % 2, m // 2) for j, m in turns]

    def listed(i):
        return [hop(*hops[k]) for k in (i - half, i) if k >= 0]

    return 2, f"accept f=2 entries={2 * len(hops)} deliveries={len(hops)}", lines_of(n, hops, listed)


def runs(n, entries):
    yield "ring", ring(n, entries, False)
    yield "ring that breaks at the end", ring(n, entries, True)
    yield "pairs", pairs(n, entries)


def spelled(line):
    return json.dumps(line, separators=(",", ":")) + "\n"


def answered(program, f, workers, entries, lines):
    """The program's answer, the processor seconds that it took, and its memory in MB."""
    with tempfile.TemporaryFile("w+") as file:
        file.writelines(map(spelled, lines))
        file.seek(0)
        before = resource.getrusage(resource.RUSAGE_CHILDREN)
        words = [program, "audit", "--faults", str(f), "--workers", str(workers), "--entries", str(entries)]
        said = subprocess.run(words, stdin=file, capture_output=True).stdout.decode().rstrip("\n")
        after = resource.getrusage(resource.RUSAGE_CHILDREN)
    return said, after.ru_utime + after.ru_stime - before.ru_utime - before.ru_stime, after.ru_maxrss / 1000


def main():
    given = argparse.ArgumentParser(description=__doc__.split("\n\n")[0])
    given.add_argument("--program", default=fuzz.PROGRAM)
    given.add_argument("--entries", type=int, default=4_194_304)
    given.add_argument("--workers", type=int, default=1)
    words = given.parse_args()
    wrong = 0
    for name, (f, wanted, lines) in runs(4, SMALL):
        said = traces.audited("".join(map(spelled, lines)).encode(), f)[0]
        if said != wanted:
            wrong += 1
            print(f"{name}: the model says {said}, and not {wanted}")
    for name, (f, wanted, lines) in runs(PROCESSES, words.entries):
        said, seconds, most = answered(words.program, f, words.workers, words.entries, lines)
        if said != wanted:
            wrong += 1
            print(f"{name}: the program says {said}, and not {wanted}")
        print(f"{name}: {seconds:.1f} s, {seconds / words.entries * 1e6:.2f} us an entry, at most {most:.0f} MB so far")
    print(f"{words.entries} entries, {wrong} wrong")
    sys.exit(1 if wrong else 0)


if __name__ == "__main__":
    main()
