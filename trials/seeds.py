#!/usr/bin/env python3
"""Runs scripts by the built program under 100 seeds of its logs' hashes, and compares each answer with that of the plain model of the
runtime: no answer may depend on the seed. A long script and one that explores run under all of them, the others under the first few. The random source that
the program asks is replaced by a small library that is preloaded; it is built from seeds.c with the machine's C compiler. The source
fails in one more run of each script.

    trials/seeds.py [--program PATH]
"""
import argparse
import concurrent.futures
import itertools
import os
import random
import subprocess
import sys
import tempfile

import fuzz
import scripts
from refuse import PROGRAM, library_in

SEEDS = 100
FEW = 8  # seeds of a script that is not long
SIZES = (3, 5, 8)


def seeds():
    """100 numbers of 64 bits: the least, the greatest, and random ones."""
    rng = random.Random(1)
    return [0, 1, 2**64 - 1, *(rng.randrange(2**64) for _ in range(SEEDS - 3))]


def long_script(n, f, rounds):
    """A ring whose processes 1 and 2 crash, replay and forget, so that logs are gathered, copied and shortened."""
    steps = [((i + 1) % n, i % n, i // n) for i in range(n * rounds)]
    lines = [f"start ring {n} {f} 255", *("deliver %d %d %d" % step for step in steps)]
    for p in (1, 2):
        lines += [f"flush {p - 1}", f"crash {p}", f"restart {p}"]
        lines += ["deliver %d %d %d" % step for step in steps if step[0] == p]
        lines += [f"flush {p}", f"forget {p}"]
    return ("\n".join(lines) + "\n").encode()


def short_scripts():
    """A random script of each kind of process, with restarts and flushes."""
    rng = random.Random(2)
    for kind in (b"ring", b"echo", b"tally"):
        made = (fuzz.random_script(rng, 0.0, SIZES) for _ in itertools.count())
        yield next(text for text in made if kind in text and text.count(b"\n") > 20 and b"restart" in text and b"flush" in text)


EXPLORED = b"explore echo 5 2 40 10 400"  # ten crashes and restarts, with flushes and forgetting


def tries():
    """Each script with each of its seeds, and with None: a source that fails."""
    for text, count in [(long_script(5, 2, 10), SEEDS), (EXPLORED, SEEDS), *((text, FEW) for text in short_scripts())]:
        for seed in [*seeds()[:count], None]:
            yield text, seed


def answer(program, library, folder, text, seed, name):
    """What the program prints, its status, and how the random source was asked."""
    count = os.path.join(folder, name)
    settings = {} if seed is None else {"SEED_BYTES": str(seed)}
    environment = {**os.environ, "LD_PRELOAD": library, "SEED_COUNT": count, **settings}
    ended = subprocess.run([program, "run"], input=text, capture_output=True, env=environment, timeout=60)
    with open(count, "a+") as file:
        file.seek(0)
        return ended.stdout.decode(), ended.returncode, file.read()


def main():
    given = argparse.ArgumentParser(description=__doc__.split("\n\n")[0])
    given.add_argument("--program", default=PROGRAM)
    program = given.parse_args().program
    wrong = 0
    runs = list(tries())
    expected = {text: (*scripts.ran(text), "8\n") for text, _ in runs}
    with tempfile.TemporaryDirectory() as folder, concurrent.futures.ThreadPoolExecutor(os.cpu_count()) as pool:
        library = library_in(folder, "seeds.c")
        answers = [pool.submit(answer, program, library, folder, *run, str(i)) for i, run in enumerate(runs)]
        for (text, seed), said in zip(runs, answers):
            if said.result() != expected[text]:
                wrong += 1
                print("WRONG", "seed", seed, text, said.result()[1:])
    print(f"{len(runs)} runs under {SEEDS} seeds, {wrong} wrong")
    sys.exit(1 if wrong else 0)


if __name__ == "__main__":
    main()
