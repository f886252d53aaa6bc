#!/usr/bin/env python3
"""Lets the built program explore runs, from 600 seeds, a third of them after commands, and compares each trace with that of the plain
model of the runtime. Each must be accepted for its F, and its recoveries must follow what survives. Each run of the program hashes by
another seed. It also fails if too few runs had crashes, restarts, flushes or forgetting.

    trials/explore.py [--program PATH] [--runs N] [--from SEED]
"""
import argparse
import concurrent.futures
import os
import random
import subprocess
import sys

import fuzz
import scripts
from refuse import PROGRAM

RUNS = 600
LEAST = {"crash": 100, "restart": 100, "forget": 50, "stable": 100, "deliver": 400}


def script_of(rng):
    """A script that explores, and its F."""
    kind = rng.choice(fuzz.KINDS)
    n = rng.choice((1, 2, 3, 3, 4, 5, 8, 20))
    f = rng.choice((0, 1, 1, 2, 3, n, 65535))
    h = rng.choice((0, 2, 9, 40, 255))
    numbers = f"{kind} {n} {f}" + ("" if kind == "tally" else f" {h}")
    seed = rng.choice((0, 2**32 - 1, rng.randrange(1000), rng.randrange(2**32)))
    lines = [f"explore {numbers} {seed} {rng.choice((0, 1, 10, 100, 300, 1_000))}"]
    if rng.random() < 0.3:
        run = scripts.Run(kind, n, f, 0 if kind == "tally" else h)
        for _ in range(rng.randrange(12)):
            name, *given = fuzz.random_command(rng, run)
            try:
                getattr(run, name)(*given)
            except scripts.Refused:
                continue
            lines.append(" ".join(map(str, (name, *given))))
    return "\n".join(lines).encode(), f


def answer(program, words, text):
    ended = subprocess.run([program, *words], input=text, capture_output=True, timeout=120)
    return ended.stdout.decode(), ended.returncode


def tried(program, seed):
    """The script of a seed, what is wrong with its answers, and the trace."""
    text, f = script_of(random.Random(seed))
    expected = scripts.ran(text)
    wrong = [] if answer(program, ["run"], text) == expected else ["the trace"]
    if expected[1]:
        wrong.append("the script")
    verdict, status = answer(program, ["audit", "--faults", str(f)], expected[0].encode())
    wrong += [] if status == 0 and verdict.startswith(f"accept f={f} ") else [verdict.strip()]
    verdict, status = answer(program, ["replays"], expected[0].encode())
    wrong += [] if status == 0 else [verdict.strip()]
    return text, wrong, expected[0]


def main():
    given = argparse.ArgumentParser(description=__doc__.split("\n\n")[0])
    given.add_argument("--program", default=PROGRAM)
    given.add_argument("--runs", type=int, default=RUNS)
    given.add_argument("--from", type=int, default=0, dest="first")
    words = given.parse_args()
    wrong, met = 0, dict.fromkeys(LEAST, 0)
    with concurrent.futures.ProcessPoolExecutor(os.cpu_count()) as pool:
        for text, told, trace in pool.map(tried, [words.program] * words.runs, range(words.first, words.first + words.runs), chunksize=8):
            if told:
                wrong += 1
                print("WRONG", text, *told)
            for word in met:
                met[word] += f'["{word}"' in trace
    few = [f"{word}: {met[word]} runs" for word, least in LEAST.items() if words.runs >= RUNS and met[word] < least]
    print(f"{words.runs} runs, {wrong} wrong; " + ", ".join(f"{count} with {word}" for word, count in met.items()))
    for line in few:
        print("TOO FEW", line)
    sys.exit(1 if wrong or few else 0)


if __name__ == "__main__":
    main()
