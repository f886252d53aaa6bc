#!/usr/bin/env python3
"""Measures the audit by one, two and four workers, who share reading, preparing and following. `measure.py` puts what is told here into
the results; alone it prints it. The machine should have nothing else to do.

    bench/measure_reading.py [--program PATH] [--seed 1] [--long]
"""
import argparse
import concurrent.futures
import os
import statistics
import subprocess
import sys

import long_runs
from texts import make_inputs, path_of
from timed import HERE, INPUTS, Measured, once

PROGRAM = os.path.join(os.path.dirname(HERE), "crates", "causal_tool", "out", "causal_tool")
WORKERS = (1, 2, 4)
ROUNDS = 9  # how often each number of workers has its turn
LONG_ROUNDS = 3  # the same for runs of millions of entries
MOST_STOLEN = 0.03  # a turn is repeated if other machines took a larger part of the processors meanwhile
TRIES = 6  # how many turns there are at most for each that counts
SHORT_ROUNDS = 200  # the same for the short text
SHAPES = ("ring", "gossip", "restarts")
SIZE, LONG_SIZE, SHORT_SIZE = 1_048_576, 4_194_304, 1_024
LISTS = ("lists", "safe", "1")
NAMES = ("trace", "entries", "wall s: 1 worker", "2", "4", "2 / 1", "4 / 1", "processor s: 1", "1 beside 3", "4", "4 / 1 beside 3", "peak MB: 1", "4")
TEXT = f"""Medians of {ROUNDS} turns over a regular file for one failure, of {LONG_ROUNDS} for four million entries; a turn runs all numbers of workers, and
ratios are medians of the turns' own. *processor* is the time of all processors. *1 beside 3* is that of an audit by one worker while three
others run: processors that share caches and clocks slow each other, and four workers do what these four audits do. `lists` has 1,048,576
listed determinants. `short` is a text below 64 KB, for which no thread reads, of {SHORT_ROUNDS} turns, in milliseconds. Four workers start
three threads for it to follow deliveries. A turn during which other machines took more than {100 * MOST_STOLEN:.0f} % of the processors is repeated."""


def words(program, entries, workers):
    return [program, "audit", "--faults", "1", "--workers", str(workers), "--entries", str(max(entries, 65_536))]


def beside_three(program, path, entries):
    """Processor seconds of an audit by one worker, on average over four that run at the same time."""
    with open(path, "rb") as given:
        running = [subprocess.Popen([*words(program, entries, 1), path], stdin=given, stdout=subprocess.DEVNULL) for _ in range(4)]
        used = [os.wait4(child.pid, 0)[2] for child in running]
    for child in running:
        child.returncode = 0
    return sum(usage.ru_utime + usage.ru_stime for usage in used) / len(used)


def ticks():
    """The clock ticks that other machines took of this one's processors so far, and all ticks."""
    with open("/proc/stat") as file:
        each = [int(word) for word in file.readline().split()[1:9]]
    return each[7], sum(each)


class Turns:
    """The runs of one text by each number of workers, and the processor seconds of one beside three others, in turns that other machines
    left alone."""

    def __init__(self, program, path, entries, rounds):
        self.by, self.beside, self.lost = {workers: Measured() for workers in WORKERS}, [], 0
        for _ in range(TRIES * rounds):
            if len(self.beside) < rounds:
                self.turn(program, path, entries)

    def turn(self, program, path, entries):
        (stolen, all_ticks), found = ticks(), {workers: Measured() for workers in WORKERS}
        for workers, each in found.items():
            once(words(program, entries, workers), path, each)
        beside = beside_three(program, path, entries)
        stolen_then, all_then = ticks()
        if stolen_then - stolen > MOST_STOLEN * (all_then - all_ticks):
            self.lost += 1
            return
        self.beside.append(beside)
        for workers, each in found.items():
            self.by[workers].add(each)

    def wall(self, workers):
        return statistics.median(self.by[workers].walls)

    def shorter(self, workers):
        return statistics.median(one / other for one, other in zip(self.by[workers].walls, self.by[1].walls))

    def processor(self, workers):
        return statistics.median(self.by[workers].processor)

    def dearer(self):
        return statistics.median(one / other for one, other in zip(self.by[4].processor, self.beside))

    def more_memory(self):
        """Megabytes of four workers beyond those of one."""
        return (self.by[4].peak - self.by[1].peak) / 1e3


def inputs(given):
    """The name, the file, the number of entries and the answer of each text."""
    sizes = (SIZE, LONG_SIZE) if given.long else (SIZE,)
    asked = [(shape, 1, size) for size in sizes for shape in SHAPES]
    os.makedirs(INPUTS, exist_ok=True)
    asked.append(("ring", 1, SHORT_SIZE))
    with concurrent.futures.ProcessPoolExecutor() as pool:
        made = list(pool.map(long_runs.made, *zip(*asked)))
    for (shape, f, size), (path, about) in zip(asked, made):
        yield "short" if size == SHORT_SIZE else shape, path, about["entries"], long_runs.answer_of(f, about)
    about = make_inputs([LISTS], given.seed)[LISTS]
    yield "lists", path_of(LISTS), about["entries"], about["answer"]


def row_of(name, entries, runs):
    unit = 1000 if name == "short" else 1
    cells = [name, f"{entries:,}", *(f"{unit * runs.wall(workers):.2f}" for workers in WORKERS), f"{runs.shorter(2):.2f}", f"{runs.shorter(4):.2f}",
             f"{unit * runs.processor(1):.2f}", f"{unit * statistics.median(runs.beside):.2f}", f"{unit * runs.processor(4):.2f}", f"{runs.dearer():.2f}",
             f"{runs.by[1].peak / 1e3:.1f}", f"{runs.by[4].peak / 1e3:.1f}"]
    return "| " + " | ".join(cells) + " |"


def target(name, bound, values):
    value = max(values)
    return f"| {name} | {bound:.2f} | {value:.2f} | {'yes' if value <= bound else 'no'} |"


def targets(found):
    """What is asked: the worst of the texts."""
    def of(figure, *names):
        return [figure(runs) for name, runs in found if name in names]

    every = ("ring", "gossip", "lists", "restarts")
    return [
        target("four workers / one, wall: ring, gossip, lists", 0.5, of(lambda runs: runs.shorter(4), *every[:3])),
        target("the same: restarts", 0.6, of(lambda runs: runs.shorter(4), "restarts")),
        target("two workers / one, wall", 0.7, of(lambda runs: runs.shorter(2), *every)),
        target("four workers / one beside three others, processor", 1.1, of(lambda runs: runs.dearer(), *every)),
        target("memory of four workers beyond one's, MB", 3.0, of(lambda runs: runs.more_memory(), *every)),
    ]


def measure_reading(given):
    """The section, and what was answered wrongly."""
    rows, found, wrong = [], [], []
    for name, path, entries, answer in inputs(given):
        rounds = SHORT_ROUNDS if name == "short" else LONG_ROUNDS if entries > SIZE else ROUNDS
        runs = Turns(given.program, path, entries, rounds)
        if not runs.beside:
            sys.exit(f"{name}: other machines took too much of the processors")
        wrong += [f"{name}, {workers} workers: {run.line}" for workers, run in runs.by.items() if run.line != answer]
        rows.append(row_of(name, entries, runs))
        found.append((name, runs))
        print(rows[-1], file=sys.stderr, flush=True)
    table = ["| " + " | ".join(NAMES) + " |", "|" + "---|" * len(NAMES), *rows]
    text = "\n".join([TEXT, "", *table, "", "| Target | At most | Measured | Met |", "|---|---|---|---|", *targets(found)])
    if wrong:
        text += "\n\nWrong answers:\n\n" + "\n".join(f"- {line}" for line in wrong)
    return text, wrong


def main():
    given = argparse.ArgumentParser(description=__doc__.split("\n")[0])
    given.add_argument("--program", default=PROGRAM)
    given.add_argument("--seed", type=int, default=1)
    given.add_argument("--long", action="store_true", help="runs of four million entries too")
    text, wrong = measure_reading(given.parse_args())
    print(text)
    return 1 if wrong else 0


if __name__ == "__main__":
    sys.exit(main())
