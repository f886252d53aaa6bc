#!/usr/bin/env python3
"""Runs a service of real processes over NATS, kills what it can, and has the recordings audited.

    examples/nodes/run.py                                    one run, shown
    examples/nodes/run.py --faults 2 --store jetstream       two processes may be down at once; three servers keep what is stable
    examples/nodes/run.py --runs 200                         counted; the status is 0 only if all of them were right
    examples/nodes/run.py --runs 20 --broken no_resend       of a broken embedder: the status is 0 only if some run shows it

The library has to be built (bindings/build), and nats-server installed.
"""
import argparse
import collections
import glob
import os
import random
import shutil
import subprocess
import sys
import tempfile
import time

HERE = os.path.dirname(os.path.abspath(__file__))
TOP = os.path.dirname(os.path.dirname(HERE))
BINDINGS = os.path.join(TOP, "bindings")
os.environ["PYTHONPATH"] = os.pathsep.join(filter(None, [os.environ.get("PYTHONPATH"), os.path.join(BINDINGS, "python")]))
os.environ["PYTHONWARNINGS"] = "ignore"  # of a library that is built without proof, once is enough
sys.path.append(os.path.join(BINDINGS, "python"))
from servers import Servers  # noqa: E402
from starter import Program, Run  # noqa: E402

BROKEN = ("no_resend", "early_ended", "early_stored")
MOMENT = 0.15  # seconds within which the next harm comes
LIMIT = 60.0  # seconds after which a run counts as stuck, if runs are counted


def worker_in_c(folder):
    """The path of the worker in C, if there is a compiler and an archive to build it with."""
    library = os.environ.get("NIXU_LIB") or os.path.join(BINDINGS, "out", "lib")
    archive, made = os.path.join(library, "libnixu.a"), os.path.join(folder, "worker")
    if not shutil.which("cc") or not os.path.isfile(archive) or not os.path.isfile(os.path.join(HERE, "worker.c")):
        return None
    include = os.path.join(os.path.dirname(library), "include")
    subprocess.run(["cc", "-O2", "-I", include, os.path.join(HERE, "worker.c"), archive, "-o", made], check=True, stderr=subprocess.DEVNULL)
    return made


class Harm:
    """What is done to a run, at random, and how often."""

    def __init__(self, run, servers, faults):
        self.run, self.servers, self.faults, self.counts = run, servers, faults, collections.Counter()

    def kill_some(self):
        """As many as may be down at once, or fewer; at times one that recovers is killed again, before it is up."""
        run, down = self.run, self.run.down()
        again = [p for p in down if random.random() < 0.5]
        up = [p for p in range(run.processes) if p not in down]
        more = random.sample(up, random.randint(0 if again else 1, self.faults - len(down))) if self.faults > len(down) else []
        if again or more:
            run.kill(*again, *more)
            self.counts.update(kills=len(again) + len(more), kills_while_down=len(again), kills_of_two=len(more) == 2)
            run.wait(lambda: False, random.random() * 0.1)
            for p in random.sample([*again, *more], len(again) + len(more)):
                run.start(p)

    def kill_store(self):
        """At times with a process that waits for it."""
        self.run.kill("store")
        if random.random() < 0.5:
            self.kill_some()
        self.run.start("store")
        self.counts["kills_of_store"] += 1

    def kill_server(self):
        """The leader of the stream, where there are several."""
        several = len(self.servers.ports) > 1
        at = self.servers.leader(f"stable_{self.run.given['run']}") if several else 0
        if at is not None:
            self.servers.kill(at)
            self.counts["kills_of_leader" if several else "kills_of_server"] += 1
            self.run.wait(lambda: False, random.random() * 0.3)
            self.servers.start(at)

    def cut(self):
        self.run.cut(random.choice(list(self.run.children)))
        self.counts["cuts"] += 1

    def one(self):
        weighted = {self.kill_some: 6, self.cut: 2, self.kill_store: 1, self.kill_server: 1}
        random.choices(list(weighted), list(weighted.values()))[0]()


class Judged(collections.namedtuple("Judged", "word text counts is_right")):
    """What became of a run: a word, the verdicts and errors, and what was done to it."""


def one_run(folder, servers, words, program, worker):
    given = {"processes": words.faults + 3, "faults": words.faults, "run": random.getrandbits(48), "jobs": words.jobs, "folder": folder}
    given |= {"ports": servers.ports, "copies": len(servers.ports), "store": words.store, "store_each": 8, "chaos": 0.03, "pause": 0.01}
    run = Run({**given, "broken": words.broken, "talks": not words.runs}, worker)
    harm, limit = Harm(run, servers, words.faults), 20.0 if words.broken else LIMIT if words.runs else 3600.0
    try:
        ended = time.monotonic() + limit
        run.wait(lambda: not run.down(), limit)
        for _ in range(words.harms):
            run.wait(lambda: False, random.random() * MOMENT)
            harm.one()
        is_done = run.wait(lambda: len(run.shown) == words.jobs and not run.down(), ended - time.monotonic())
        wrong = run.damaged or (["stuck"] if not is_done else run.check())
        while is_done and wrong and time.monotonic() < ended:  # the last receipts may be under way
            run.wait(lambda: False, 0.05)
            wrong = run.check()
        wrong = [*wrong, *run.ended]
    finally:
        run.close()
    verdicts, is_accepted = program.judge(folder, given["processes"], words.faults)
    word = "damaged storage" if run.damaged else "stuck" if wrong == ["stuck"] else "wrong books" if wrong else "right books"
    verdict = " ".join(line.split()[0] for line in verdicts.splitlines()[:2])
    text = f"{verdicts}{''.join(f'{it}{chr(10)}' for it in wrong)}"
    return Judged(f"{word}, {verdict}", text, harm.counts, is_accepted and not wrong)


def errors_in(folder):
    texts = []
    for path in sorted(glob.glob(os.path.join(folder, "*.err"))):
        with open(path) as file:
            texts.append(file.read()[-1000:])
    return "".join(texts)


def show(words, servers, program, worker):
    folder = words.folder or tempfile.mkdtemp(prefix="nodes-")
    os.makedirs(folder, exist_ok=True)
    judged = one_run(folder, servers, words, program, worker)
    print(f"{words.faults + 3} processes, {words.jobs} jobs: {', '.join(f'{count} {name}' for name, count in judged.counts.items())}")
    print(f"{judged.word.partition(',')[0]}\n{judged.text}recordings and trace: {folder}")
    if not judged.is_right:
        print(program.explain(folder, words.faults) + errors_in(folder))
    return 0 if judged.is_right else 1


def count(words, servers, program, worker):
    began, all_words, all_counts, right = time.monotonic(), collections.Counter(), collections.Counter(), 0
    for k in range(words.runs):
        if time.monotonic() - began > words.seconds:
            break
        folder = tempfile.mkdtemp(prefix="nodes-", dir=words.keep)
        judged = one_run(folder, servers, words, program, worker)
        all_words[judged.word] += 1
        all_counts.update(judged.counts)
        right += judged.is_right
        if not judged.is_right and not words.broken:
            print(f"run {k}: {judged.word}: {folder}\n{judged.text}{errors_in(folder)}", flush=True)
        elif not words.keep:
            shutil.rmtree(folder)
    runs, what = all_words.total(), f"f={words.faults} {words.store}" + (f" broken={words.broken}" if words.broken else "")
    became, done = (", ".join(f"{n} {name}" for name, n in sorted(it.items())) for it in (all_words, all_counts))
    print(f"nodes: {what}: {right} of {runs} runs right, {time.monotonic() - began:.0f} s: {became}")
    print(f"nodes: {what}: {done}; a worker in C: {'yes' if worker else 'no'}")
    return 0 if (right < runs if words.broken else right == runs) else 1


def main():
    given = argparse.ArgumentParser(description=__doc__.split("\n\n")[0])
    given.add_argument("--program", default=os.path.join(TOP, "causal_tool"))
    given.add_argument("--faults", type=int, default=1, help="how many processes may be down at once; there are 3 more")
    given.add_argument("--store", choices=("sqlite", "jetstream"), default="sqlite")
    given.add_argument("--jobs", type=int, default=40)
    given.add_argument("--harms", type=int, default=6, help="of one run")
    given.add_argument("--broken", choices=BROKEN, help="a rule that the embedder breaks")
    given.add_argument("--folder", help="of the one run that is shown")
    given.add_argument("--runs", type=int, help="counted, not shown")
    given.add_argument("--keep", help="the folder where what is counted leaves its recordings")
    given.add_argument("--seconds", type=float, default=7200.0, help="after which no further run begins")
    words = given.parse_args()
    if not shutil.which("nats-server"):
        sys.exit("examples/nodes/run.py: there is no nats-server (on Debian: apt-get install nats-server)")
    program, servers, made = Program(words.program), Servers(3 if words.store == "jetstream" else 1), tempfile.mkdtemp(prefix="worker-")
    try:
        return (count if words.runs else show)(words, servers, program, worker_in_c(made))
    finally:
        servers.close()
        shutil.rmtree(made)


if __name__ == "__main__":
    sys.exit(main())
