#!/usr/bin/env python3
"""Runs causal_simulation on many seeds: processes over a network and a storage that a seed disturbs, each run merged, audited and compared
by the program itself. No run may be wrong. Then it breaks one rule after the other, of the protocol or of an embedder: each must be caught
within some thousand seeds, in the way that is named here.

    trials/simulation.py [--program PATH] [--runs 100000] [--seed 0]
"""
import argparse
import concurrent.futures
import os
import re
import subprocess
import sys
import time

TOP = os.path.dirname(os.path.dirname(os.path.abspath(__file__)))
PROGRAM = os.path.join(TOP, "crates", "causal_simulation", "out", "causal_simulation")
PIECE = 500  # seeds of one call of the program
MOST = 16_000  # seeds until which a broken rule must be caught

# the rules, and how each may be caught: by merge, by the audit (Orphan, Exceeded), by replays (Strayed), by what a replay sends (Differs),
# or since a process lacks for ever what it has to repeat (Stuck)
RULES = {
    "piggyback": "Orphan Strayed Differs",
    "holders": "Orphan Strayed Differs",
    "answer": "Orphan Strayed Differs",
    "floor": "Orphan Strayed Differs",
    "no_read": "Orphan Strayed Differs",
    "early_read": "Orphan Strayed Differs",
    "fence": "Orphan Strayed Differs",
    "lose_stored": "Orphan Strayed Differs",
    "early_stored": "Orphan Strayed Differs",
    "storage_clock": "Merge",
    "parcel_clock": "Merge",
    "end_clock": "Orphan Strayed Differs",
    "crash_clock": "Exceeded Orphan",
    "early_ended": "Orphan Strayed Differs",
    "old_report": "Orphan Strayed Differs",
    "late_line": "Merge",
    "round_name": "Orphan Strayed Differs",
    "lane": "Merge Orphan Strayed Differs",
    "impure": "Differs",
    "too_many": "Exceeded",
    "no_resend": "Stuck",
}

COUNTS = re.compile(r"runs=(\d+) wrong=(\d+) deliveries=(\d+) crashes=(\d+) restarts=(\d+) stored=(\d+)")
WRONG = re.compile(r"wrong seed=(\d+) f=\d+: (\w+)")


class Answer:
    """What the program has printed for some seeds: its counts, the first wrong run's seed and kind, and all text if there is one."""

    def __init__(self, program, first, count, *rule):
        ran = subprocess.run([program, str(first), str(count), *rule], capture_output=True, text=True)
        lines = ran.stdout.splitlines() or [""]
        counts, wrong = COUNTS.fullmatch(f"{lines[-1]} {ran.stderr.strip()}"), WRONG.match(lines[0])
        self.is_whole = bool(counts) and ran.returncode == int(counts[2]) and int(counts[2]) == bool(wrong)
        self.counts = [int(it) for it in counts.groups()] if counts else [0] * 6
        self.seed, self.kind = (int(wrong[1]), wrong[2]) if wrong else (None, None)
        self.text = f"status {ran.returncode}\n{ran.stdout[-20000:]}{ran.stderr[-2000:]}"


def caught(program, first, rule):
    """The first wrong run of a broken rule; None if there is none."""
    for at in range(first, first + MOST, PIECE):
        answer = Answer(program, at, PIECE, rule)
        if not answer.is_whole or answer.kind:
            return answer
    return None


def main():
    given = argparse.ArgumentParser(description=__doc__.split("\n\n")[0])
    given.add_argument("--program", default=PROGRAM)
    given.add_argument("--runs", type=int, default=100_000)
    given.add_argument("--seed", type=int, default=0, help="the first one")
    words = given.parse_args()
    wrong, began = [], time.monotonic()
    with concurrent.futures.ThreadPoolExecutor(os.cpu_count()) as pool:
        pieces = [(at, min(PIECE, words.seed + words.runs - at)) for at in range(words.seed, words.seed + words.runs, PIECE)]
        answers = list(pool.map(lambda piece: Answer(words.program, *piece), pieces))
        wrong += [it.text for it in answers if not it.is_whole or it.kind]
        total = [sum(column) for column in zip(*(it.counts for it in answers))]
        names = ("runs", "wrong", "deliveries", "crashes", "restarts", "stored")
        print(*(f"{name}={number}" for name, number in zip(names, total)), f"in {time.monotonic() - began:.0f} s", flush=True)
        for rule, answer in zip(RULES, pool.map(lambda rule: caught(words.program, words.seed, rule), RULES)):
            found = f"{answer.kind} at seed {answer.seed}" if answer else "never caught"
            print(f"{rule}: {found}", flush=True)
            if not answer or answer.kind not in RULES[rule].split():
                wrong.append(f"{rule}: {found}\n{answer.text if answer else ''}")
    for text in wrong[:3]:
        print("WRONG", text)
    print(f"simulation: {len(RULES)} broken rules, {len(wrong)} wrong, {time.monotonic() - began:.0f} s")
    sys.exit(1 if wrong else 0)


if __name__ == "__main__":
    main()
