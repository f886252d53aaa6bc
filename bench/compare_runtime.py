#!/usr/bin/env python3
"""Measures two builds of the runtime in turn, row by row, and prints the rows of both side by side: deliveries on a core, the command
`run`, and determinants picked to collide.

    bench/compare_runtime.py BEFORE AFTER [--turns 9]

Each folder has the programs `runtime_bench` (of `runtime/`), `runtime_log` and `causal_tool` of one build. A time is the median of the turns.
A ratio of times is the median of the turns' own, for each target: the machine's speed changes within a minute, so two programs are compared
only within a turn, in which every other time the second runs first. The ratio of the least times is printed beside it. Instructions are
counted by `valgrind` once, since other work changes them little.
"""
import argparse
import os
import statistics
import sys

import measure_runtime
import run_scripts
from measure_runtime import KINDS, SIZES, figures, instructions, written

MOST_AVERAGE, MOST_PACE, MOST_DELIVERY, MOST_RUN, MOST_PICKED = 1.35, 2.2, 1.2, 2.2, 1.3
KEYS = (256, 1_024, 2_048, 8_192)


def table(names, rows):
    lines = ["| " + " | ".join(names) + " |", "|" + "---|" * len(names)]
    return "\n".join(lines + ["| " + " | ".join(map(str, row)) + " |" for row in rows])


class Builds:
    """The two builds, and how many turns each row has."""

    def __init__(self, before, after, turns):
        self.folders, self.turns, self.targets = (before, after), turns, []

    def program(self, name):
        return [os.path.join(folder, name) for folder in self.folders]

    def each_turn(self, programs, words):
        """The figures of each program in each turn, one run of each after the other; `words` has the words of each."""
        found = []
        for turn in range(self.turns):
            runs = list(zip(programs, words))
            told = [figures(said, program=program) for program, said in (runs[::-1] if turn % 2 else runs)]
            found.append(told[::-1] if turn % 2 else told)
        if any(None in turn for turn in found):
            sys.exit(f"no figures: {words}")
        return found

    def aim(self, target, most, values):
        worst, row = max(values)
        self.targets.append((target, most, f"{worst:.2f} ({row})", "yes" if worst <= most else "no"))


def ratio_of(times, one, other):
    """The median of the turns' own ratios of two times, and the ratio of the least."""
    return statistics.median(turn[one] / turn[other] for turn in times), min(turn[one] for turn in times) / min(turn[other] for turn in times)


def medians(times):
    return [statistics.median(each) for each in zip(*times)]


def pace_of(runs):
    """How much longer the slowest thousand deliveries take than the fastest, by the medians of each."""
    whole = medians([run[4 : 4 + run[1] // 1000] for run in runs])
    return max(whole) / min(whole)


def short_lists(builds):
    """Deliveries for f = 0, and the slowest thousand beside the fastest."""
    rows, times, leasts, paces = [], [], [], []
    for kind in KINDS:
        for n in SIZES:
            turns = builds.each_turn(builds.program("runtime_bench"), [["core", kind, n, 0, 1000]] * 2)
            each = [[sum(run[4:]) / run[1] / 1e3 for run in turn] for turn in turns]
            ratio, least = ratio_of(each, 1, 0)
            pace = [pace_of(runs) for runs in zip(*turns)]
            rows.append((kind, n, *(f"{x:.3f}" for x in medians(each)), f"{ratio:.2f}", f"{least:.2f}", *(f"{x:.2f}" for x in pace)))
            times.append((ratio, f"{kind} of {n}"))
            leasts.append((least, f"{kind} of {n}"))
            paces.append((pace[1], f"{kind} of {n}"))
    builds.aim("f = 0: a delivery / before", MOST_DELIVERY, times)
    builds.aim("the same, by the least", MOST_DELIVERY, leasts)
    builds.aim("f = 0: the slowest thousand / the fastest", MOST_PACE, paces)
    return table(["kind", "n", "µs before", "µs", "/ before", "by the least", "slowest / fastest before", "slowest / fastest"], rows)


def each_listed(turn):
    """Nanoseconds of a listed determinant, of the two builds and of plain Rust."""
    return [sum(run[first:]) / run[listed] for run, first, listed in zip(turn, (4, 4, 2), (2, 2, 1))]


def long_lists(builds):
    """Deliveries for f of 1, 2, 8 and n: nanoseconds for each listed determinant, beside plain Rust."""
    rows, ratios, plain, plain_least = [], [], [], []
    programs = [*builds.program("runtime_bench"), measure_runtime.YARDSTICK]
    for fault in (1, 2, 8, "n"):
        for kind in KINDS:
            for n in SIZES:
                f = n if fault == "n" else fault
                if fault != "n" and f >= n:
                    continue
                words = ["core", kind, n, f, 1000]
                times = [each_listed(turn) for turn in builds.each_turn(programs, [words, words, words[1:4]])]
                before, after, beside = medians(times)
                (to_before, _), (to_plain, by_least) = ratio_of(times, 1, 0), ratio_of(times, 1, 2)
                rows.append((kind, n, f, f"{before:.0f}", f"{after:.0f}", f"{to_before:.2f}", f"{beside:.0f}", f"{to_plain:.2f}", f"{by_least:.2f}"))
                plain.append((to_plain, f"{kind} of {n} for {f}"))
                plain_least.append((by_least, f"{kind} of {n} for {f}"))
                if fault != "n":
                    ratios.append(to_before)
    builds.aim(f"a listed determinant / before, on average over {len(ratios)} rows for f of 1, 2 and 8", MOST_AVERAGE,
               [(sum(ratios) / len(ratios), "average")])
    builds.aim("a listed determinant / plain Rust", 1.0, plain)
    builds.aim("the same, by the least", 1.0, plain_least)
    return table(["kind", "n", "f", "ns before", "ns", "/ before", "plain ns", "/ plain", "by the least"], rows)


def scripts(builds):
    """The command `run` beside reading the script and making the text."""
    rows, ratios = [], []
    for script in run_scripts.SCRIPTS:
        text, _ = run_scripts.make(script, 1)
        path, wrong = written(f"script-{script}", text), written(f"misended-{script}", run_scripts.misended(text))
        cells = []
        for tool, bench in zip(builds.program("causal_tool"), builds.program("runtime_bench")):
            calls, whole = (instructions([bench, "script", part], path) for part in ("calls", "text"))
            read, run = instructions([tool, "run"], wrong), instructions([tool, "run"], path)
            cells += [run / 1e6, run / (read + whole - calls)]
        rows.append((script, f"{cells[0]:.1f}", f"{cells[2]:.1f}", f"{cells[2] / cells[0]:.2f}", f"{cells[1]:.2f}", f"{cells[3]:.2f}"))
        ratios.append((cells[3], script))
    builds.aim("`run` / (read + text)", MOST_RUN, ratios)
    return table(["script", "run M before", "run M", "/ before", "run / (read + text) before", "run / (read + text)"], rows)


def collisions(builds):
    """Determinants picked to collide, with a known seed and with another one."""
    rows, ratios = [], []
    program = builds.program("runtime_log")[1]
    for count in KEYS:
        turns = [turn[0] for turn in builds.each_turn([program], [["keys", count]])]
        times = [[took / many for many, took in zip(turn[::2], turn[1::2])] for turn in turns]
        rows.append((f"{count:,}", *(f"{x:.1f}" for x in medians(times))))
        ratios += [(ratio_of(times, 1, 0)[0], f"alike, {count:,}"), (ratio_of(times, 3, 4)[0], f"seeded, {count:,}")]
    builds.aim("picked and colliding / spread, with a seed", MOST_PICKED, ratios)
    return table(["determinants", "spread", "alike", "picked", "seeded", "spread, seeded"], rows)


def main():
    given = argparse.ArgumentParser(description=__doc__.split("\n\n")[0])
    given.add_argument("before")
    given.add_argument("after")
    given.add_argument("--turns", type=int, default=9)
    words = given.parse_args()
    os.makedirs(measure_runtime.INPUTS, exist_ok=True)
    os.makedirs(os.path.dirname(measure_runtime.YARDSTICK), exist_ok=True)
    measure_runtime.build_yardstick()
    builds = Builds(words.before, words.after, words.turns)
    parts = [part(builds) for part in (short_lists, long_lists, scripts, collisions)]
    print(table(["Target", "At most", "Worst", "Met"], builds.targets), *parts, sep="\n\n")


if __name__ == "__main__":
    main()
