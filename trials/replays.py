#!/usr/bin/env python3
"""A plain model of `replays`, from the definition alone: at each instant it collects all determinants that survive, and looks for two of
one slot. It shares no code with the product, and is for small traces. It has to answer hand-computed runs, and follow recorded ones. With
--program the built program is compared with it, on random traces of which many stray, and on damaged ones, also as JSON, which says who
has which determinant. Everything is decided by the seed.

    trials/replays.py [--program PATH] [--cases 3000] [--seed 1] [--jobs N]
"""
import argparse
import collections
import concurrent.futures
import json
import os
import random
import subprocess
import sys

import scripts
import traces


def survivors(trace):
    """The determinants that are stable, or in the log of a process that is up."""
    return trace.stable.union(*(process.log for process in trace.processes if process.up))


def stray(trace):
    """Where two different survivors fill one slot at the present instant: the least slot, and the least positions of deliveries with two
    determinants of it. None where each slot has at most one."""
    alive = survivors(trace)
    slots = {}
    for k, det in sorted(trace.dets.items()):
        if det in alive:
            slots.setdefault(det[2:], []).append((k, det))
    for slot, deliveries in sorted(slots.items()):
        first, det = deliveries[0]
        others = [k for k, other in deliveries if other != det]
        if others:
            return (*slot, first, others[0])
    return None


def first_stray(trace):
    """The first instant that strays, with the slot and the positions; None where the trace follows what survives."""
    again = traces.Trace(trace.n)
    for entry in trace.entries:
        again.push(*entry)
        found = stray(again)
        if found:
            return (len(again.entries), *found)
    return None


def copies(trace, instant, k):
    """Who has the determinant of the delivery at position k at an instant: each process with it in its log, with the line of the entry
    since which it is there, and stable storage."""
    again, det, since = traces.Trace(trace.n), trace.dets[k], {}
    for line, entry in enumerate(trace.entries[:instant], 2):
        again.push(*entry)
        for p, process in enumerate(again.processes):
            if process.up and det in process.log:
                since.setdefault(p, line)
            else:
                since.pop(p, None)
    logged = [{"fact": "logged", "delivery": k, "process": p, "line": line} for p, line in sorted(since.items())]
    return logged + ([{"fact": "stable", "delivery": k}] if det in again.stable else [])


def object_of(text):
    """What `replays --json` says of a text."""
    word, *fields = followed(text)[0].split()
    said = {"verdict": word} | dict(field.split("=") if "=" in field else ("kind", field) for field in fields)
    said = {key: int(value) if value.isdigit() else value for key, value in said.items()}
    if word == "strayed":
        trace = traces.read(text)
        said["reason"] = [fact for k in (said["first"], said["second"]) for fact in copies(trace, said["instant"], k)]
    return said


def followed(text):
    """What `replays` prints for a text, and its status."""
    try:
        trace = traces.read(text)
    except traces.Fault as fault:
        return f"fault line={fault.line} {fault.kind}", 2
    found = first_stray(trace)
    if found is None:
        return f"followed entries={len(trace.entries)} deliveries={len(trace.dets)}", 0
    return "strayed instant={} process={} rsn={} first={} second={}".format(*found), 1


def some_dets(rng, trace, own):
    """Some of the determinants so far, mostly with the own one."""
    share = rng.choice((0.2, 0.5, 0.9))
    return [list(det) for det in sorted({*trace.dets.values(), own} - {None}) if rng.random() < (0.9 if det == own else share)]


def random_entry(rng, trace):
    """An entry that mostly may be next; processes crash and restart often, and lists are long or empty."""
    n = trace.n
    downs = [q for q in range(n) if not trace.processes[q].up]
    p = rng.choice([q for q in range(n) if trace.processes[q].up] or [0])
    sends = [i for i, (word, _) in enumerate(trace.entries) if word == "send"]
    kind = rng.random()
    if kind < 0.3 or not sends:
        return "send", [p, rng.randrange(n), trace.processes[p].sends]
    if kind < 0.7:
        k = rng.choice(sends)
        source, q, ssn = trace.entries[k][1]
        own = (source, ssn, q, trace.processes[q].deliveries)
        few = [list(own)] if rng.random() < 0.7 else []
        return "deliver", [q, k, own[3], some_dets(rng, trace, own) if rng.random() < 0.3 else few]
    if kind < 0.78:
        return "crash", [p]
    if kind < 0.9 and downs:
        return "restart", [rng.choice(downs), some_dets(rng, trace, None) if rng.random() < 0.7 else []]
    if kind < 0.94 and trace.dets:
        return "stable", [list(rng.choice(list(trace.dets.values())))]
    return "forget", [p, some_dets(rng, trace, None)]


def random_run(rng):
    """The lines of a trace in which half of the runs stray."""
    trace = traces.Trace(rng.choice((1, 2, 2, 3, 4)))
    wanted = rng.choice((10, 20, 40, 80))
    for _ in range(8 * wanted):
        if len(trace.entries) >= wanted:
            break
        try:
            trace.push(*random_entry(rng, trace))
        except traces.Fault:
            continue
    lines = [("trace", 2, trace.n), *[(word, *fields) for word, fields in trace.entries], ("end", len(trace.entries))]
    return [scripts.spelled(line) for line in lines]


# a message from 0 is delivered by 1, and 2 depends on it; 1 crashes and restarts
SENT = '["send",0,1,0]\n["send",2,1,0]\n["deliver",1,0,0,[[0,0,1,0]]]\n["send",1,2,0]\n["deliver",2,3,0,[[0,0,1,0],[1,0,2,0]]]\n'
CRASHED = SENT + '["crash",1]\n["restart",1,[]]\n'
OTHER = '["deliver",1,1,0,[[2,0,1,0]]]\n'
UNLOGGED = '["deliver",1,1,0,[]]\n'
FORGOTTEN = '["forget",2,[[0,0,1,0]]]\n'
STORED = '["stable",[0,0,1,0]]\n'


def text_of(entries):
    """The text of a trace of three processes with these entries."""
    return '["trace",2,3]\n%s["end",%d]\n' % (entries, entries.count("\n"))


# runs and hand-computed answers
ROWS = [
    ("", "followed entries=0 deliveries=0"),
    (SENT, "followed entries=5 deliveries=2"),
    (CRASHED + '["deliver",1,0,0,[[0,0,1,0]]]\n', "followed entries=8 deliveries=3"),
    (CRASHED + OTHER, "strayed instant=8 process=1 rsn=0 first=2 second=7"),
    (CRASHED + FORGOTTEN + OTHER, "followed entries=9 deliveries=3"),
    (STORED.join((SENT, CRASHED[len(SENT):])) + FORGOTTEN + OTHER, "strayed instant=10 process=1 rsn=0 first=2 second=9"),
    (CRASHED + UNLOGGED, "followed entries=8 deliveries=3"),
    (CRASHED + UNLOGGED + '["stable",[2,0,1,0]]\n', "strayed instant=9 process=1 rsn=0 first=2 second=7"),
    (CRASHED + UNLOGGED + '["crash",0]\n["restart",0,[[2,0,1,0]]]\n', "strayed instant=10 process=1 rsn=0 first=2 second=7"),
    (CRASHED + '["crash",2]\n' + OTHER, "followed entries=9 deliveries=3"),
]


def wrong_models():
    """How many of the rows, and of runs that the model of the runtime recorded, the model answers otherwise."""
    wrong = [(text_of(entries), line) for entries, line in ROWS if followed(text_of(entries).encode())[0] != line]
    for seed in range(2_000):
        run = "\n".join(fuzz.recorded_run(random.Random(seed))) + "\n"
        if followed(run.encode())[1] != 0:
            wrong.append((run, "followed"))
    for text, line in wrong:
        print(f"DIFFERENT\n  input {text!r}\n  wanted {line!r}\n  got    {followed(text.encode())[0]!r}")
    print(f"{len(ROWS)} rows and 2000 runs, {len(wrong)} different")
    return len(wrong)


def case(rng):
    """The text of a random run, in a third of the cases damaged."""
    lines = random_run(rng)
    return fuzz.damaged(rng, lines) if rng.random() < 0.33 else ("\n".join(lines) + "\n").encode()


def answered(program, text, *words):
    ended = subprocess.run([program, "replays", *words], input=text, capture_output=True, timeout=60)
    return ended.stdout.decode(), ended.returncode


def differences(program, text, workers):
    """What the program answers otherwise than the model, and the first word of the answer."""
    line, status = followed(text)
    said, ended = answered(program, text, "--json", "--workers", str(workers))
    tries = [((line + "\n", status), answered(program, text, "--workers", str(workers))), ((object_of(text), status), (json.loads(said), ended))]
    return [(text, wanted, got) for wanted, got in tries if wanted != got], line.split()[0]


def chunk(program, seed, count):
    """The differences of some cases, and how often each answer was met."""
    rng, wrong, met = random.Random(seed), [], collections.Counter()
    for _ in range(count):
        differs, word = differences(program, case(rng), rng.choice((1, 1, 2, 3, 16)))
        wrong += differs
        met[word] += 1
    return wrong, met


def wrong_answers(given):
    """How many answers of the program differ from those of the model; each answer has to be met."""
    wrong, met = 0, collections.Counter()
    with concurrent.futures.ProcessPoolExecutor(given.jobs) as pool:
        starts = range(0, given.cases, fuzz.CHUNK)
        jobs = [pool.submit(chunk, given.program, f"replays {given.seed} {start}", min(fuzz.CHUNK, given.cases - start)) for start in starts]
        for job in concurrent.futures.as_completed(jobs):
            found, counted = job.result()
            met.update(counted)
            for text, wanted, got in found:
                wrong += 1
                print(f"DIFFERENT\n  input {text!r}\n  wanted {wanted!r}\n  got    {got!r}")
    for word in ("followed", "strayed", "fault"):
        print(f"{met[word]:7} {word}")
        wrong += not met[word]
    print(f"{sum(met.values())} cases, {wrong} different")
    return wrong


def main():
    given = argparse.ArgumentParser(description=__doc__.split("\n\n")[0])
    given.add_argument("--program")
    given.add_argument("--cases", type=int, default=3_000)
    given.add_argument("--seed", type=int, default=1)
    given.add_argument("--jobs", type=int, default=os.cpu_count())
    given = given.parse_args()
    wrong = wrong_answers(given) if given.program else wrong_models()
    sys.exit(1 if wrong else 0)


if __name__ == "__main__":
    import fuzz

    main()
