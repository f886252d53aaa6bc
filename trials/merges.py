#!/usr/bin/env python3
"""Runs the built program's `merge` on random and damaged recordings, and compares what it answers with the plain model
merge_model.py. Recordings that were not damaged have to make the very trace that was split into them, and so have its verdict.
Each beginning of a line of each kind has to be torn, and no line that has a whole line in it. Each difference is printed with its input.
Recordings cut into files at any byte have to make the same trace, and the map of the plain model; `explain` has to add the places of that map
to its lines. Then hostile recordings have to cost as their length. 1, 2, 3 or 16 workers read; some recordings are so long that all of them
do. Everything is decided by the seed.

    trials/merges.py [--program PATH] [--cases 20000] [--seed 1] [--jobs N] [--bytes 16000000]
"""
import argparse
import collections
import concurrent.futures
import functools
import itertools
import json
import os
import random
import re
import subprocess
import sys
import tempfile
import time

import fuzz
import merge_model
import scripts
import traces

WORKERS = ("1", "2", "3", "16")
PADDED = 1 / 20  # of the recordings so many are so long that all workers read them
LONG = 150_000  # bytes that they have at least

TORN = re.compile(r"^causal_tool merge: torn line=(\d+): passed over$", re.MULTILINE)


# ---- recordings


def spelled(rng, line):
    return json.dumps(line, separators=rng.choice(((",", ":"), (",", ":"), (", ", ": "))))


def events_of(rng, n, entries):
    """The lines of the events of a trace, in its order. Of two events one after the other that may share a clock some do."""
    clock, last, lane, sends = rng.choice((0, 1, 2**40, 2**64 - 10_000)), n, [0] * n, []
    for word, *fields in entries:
        p = rng.randrange(n) if word == "stable" else fields[0]
        clock += rng.choice((1, 1, 2)) if p <= last or rng.random() < 0.7 else 0
        last = p
        if word == "deliver":
            yield p, [word, p, clock, *sends[fields[1]], *fields[2:]]
        else:
            yield p, [word, p, clock, *(fields if word == "stable" else fields[1:])]
        if word == "restart":
            lane[p] += 1
        sends.append((p, lane[p], fields[2]) if word == "send" else None)


def recordings_of(rng, n, entries):
    """The lines of the recordings of a trace, one after the other or mixed, with lines among them that say nothing."""
    run = rng.choice((0, 7, 2**64 - 1))
    lines = [(p, ["recording", p, 1, n, run]) for p in range(n)] + list(events_of(rng, n, entries))
    if rng.random() < 0.3:
        lines.append((0, ["heard", rng.randrange(n), rng.randrange(99), rng.randrange(n), 5]))
    if rng.random() < 0.5:
        rng.shuffle(lines)
    else:
        lines.sort(key=lambda line: line[0])
    texts = [spelled(rng, line) for _, line in lines]
    for _ in range(rng.choice((0, 0, 1, 3))):
        whole = json.dumps(rng.choice(lines)[1], separators=(",", ":"))
        texts.insert(rng.randrange(len(texts) + 1), rng.choice(("", " \t\r", whole[: rng.randrange(1, len(whole))])))
    return texts


def trace_of(rng):
    """A trace that has no fault, by the number of its processes and its entries."""
    while True:
        lines = fuzz.recorded_run(rng) if rng.random() < 0.5 else fuzz.random_trace(rng)
        if not traces.audited("\n".join(lines).encode(), 1)[0].startswith("fault"):
            header, *entries, _ = map(json.loads, lines)
            return header[2], entries


def mistaken(rng, lines):
    """Recordings with a mistake that a recorder makes: one of them is missing or stands twice, or two lines exchange their clocks."""
    parsed = [json.loads(line) for line in lines if merge_model.is_whole(line.encode())]
    kind, p = rng.random(), rng.choice(parsed)[1]
    if kind < 0.3:
        parsed = [line for line in parsed if line[1] != p or (line[0] == "recording" and kind < 0.15)]
    elif kind < 0.6:
        parsed += [line for line in parsed if line[1] == p]
    else:
        events = [line for line in parsed if line[0] not in ("recording", "heard")]
        if events:
            a, b = rng.choice(events), rng.choice(events)
            a[2], b[2] = b[2], a[2]
    return "".join(spelled(rng, line) + "\n" for line in parsed).encode()


def case(rng):
    """Recordings, and the trace that they have to make, where they were not damaged."""
    n, entries = trace_of(rng)
    lines = recordings_of(rng, n, entries)
    if rng.random() < PADDED:
        blank = " " * (LONG // len(lines))
        lines = [line for pair in zip(lines, itertools.repeat(blank)) for line in pair]
    kind = rng.random()
    if kind < 0.35:
        return ("\n".join(lines) + "\n").encode(), scripts.text_of(n, entries)
    return (mistaken(rng, lines) if kind < 0.55 else fuzz.damaged(rng, lines)), None


# ---- the answers


def modelled(text):
    try:
        n, _, entries, torn = merge_model.merged(text)
    except merge_model.Fault as fault:
        said = f"causal_tool merge: line {fault.line}: {fault.told}" if fault.told else None
        return f"fault line={fault.line} {fault.kind}\n", 2, [], said
    return merge_model.spell(n, entries), 0, torn, None


def answered(program, text, workers="1"):
    ended = subprocess.run([program, "merge", "--workers", workers], input=text, capture_output=True, timeout=60)
    out, told = ended.stdout.decode(), ended.stderr.decode()
    is_explained = ended.returncode == 2 and out.split()[-1] in merge_model.EXPLAINED
    return out, ended.returncode, [int(line) for line in TORN.findall(told)], told.splitlines()[0] if is_explained else None


def chunk(program, seed, count):
    """The differences of some cases, and how often each answer was met."""
    rng, wrong, met = random.Random(seed), [], collections.Counter()
    for _ in range(count):
        text, whole = case(rng)
        wanted, got = modelled(text), answered(program, text, rng.choice(WORKERS))
        if got != wanted or (whole is not None and got[0] != whole):
            wrong.append((text, wanted, got))
        met["the trace that was split" if whole else wanted[0].split()[-1] if wanted[1] else "a trace"] += 1
    return wrong, met


def compare(given):
    wrong, met = 0, collections.Counter()
    with concurrent.futures.ProcessPoolExecutor(given.jobs) as pool:
        starts = range(0, given.cases, fuzz.CHUNK)
        jobs = [
            pool.submit(chunk, given.program, f"merge {given.seed} {start}", min(fuzz.CHUNK, given.cases - start))
            for start in starts
        ]
        for job in concurrent.futures.as_completed(jobs):
            found, counted = job.result()
            met.update(counted)
            for text, wanted, got in found:
                wrong += 1
                print(f"DIFFERENT\n  input {text!r}\n  wanted {wanted!r}\n  got    {got!r}")
    for answer, times in sorted(met.items(), key=lambda row: -row[1]):
        print(f"{times:7} {answer}")
    print(f"{sum(met.values())} cases, {wrong} different")
    return wrong


# ---- maps

NAMES = ("a.log", "b c", 'd"e', "f\\g", "h:1", "\u00e9\u20ac", "i,j]")


def split_anywhere(rng, text):
    """The text in pieces, some of them empty, by their files' names."""
    ends = sorted(rng.randrange(len(text) + 1) for _ in range(rng.randrange(len(NAMES))))
    names = rng.sample(NAMES, len(ends) + 1)
    return {name: text[start:end] for name, start, end in zip(names, [0, *ends], [*ends, len(text)])}


def place_of(files, line):
    """The file in which a line of all files together begins, and its number there."""
    text = b"".join(files.values())
    start = sum(len(part) + 1 for part in text.split(b"\n")[: line - 1])
    for name, part in files.items():
        if start < len(part):
            return name, part[:start].count(b"\n") + 1
        start -= len(part)
    raise AssertionError("a line without a byte")


def map_of(files, events):
    """The lines of the map, and what they add to a line of an explanation, by the line of the trace."""
    lines, added = [], {}
    for position, event in enumerate(events):
        name, line = place_of(files, event.line)
        spelled = json.dumps(name, ensure_ascii=False)
        lines.append(f"[{position},{spelled},{line},{event.clock}]\n")
        added[position + 2] = f" at={spelled[1:-1]}:{line} clock={event.clock}"
    return "".join(lines), added


def with_places(explained, added):
    told = []
    for fact in explained.splitlines():
        fields, colon, sentence = fact.partition(":")
        named = re.search(r" line=(\d+)( |$)", fields)
        told.append(fields + (added.get(int(named[1]), "") if named else "") + colon + sentence + "\n")
    return "".join(told)


def map_differs(program, rng):
    text, whole = case(rng)
    if b"\0" in text:
        return None
    files, f = split_anywhere(rng, text), rng.randrange(4)
    try:
        _, events, _, _ = merge_model.merged(text)
        wanted, added = map_of(files, events)
    except merge_model.Fault:
        wanted, added = None, {}
    with tempfile.TemporaryDirectory() as folder:
        for name, part in files.items():
            with open(os.path.join(folder, name), "wb") as file:
                file.write(part)
        run = functools.partial(subprocess.run, capture_output=True, timeout=60, cwd=folder)
        merged, mapped = run([program, "merge", *files]), run([program, "merge", "--workers", rng.choice(WORKERS), "--map", "the.map", *files])
        map_path = os.path.join(folder, "the.map")
        got = open(map_path, encoding="utf-8").read() if os.path.exists(map_path) else None
        if (merged.stdout, merged.returncode, merged.stderr) != (mapped.stdout, mapped.returncode, mapped.stderr) or got != wanted:
            return files, (merged.returncode, wanted), (mapped.returncode, got)
        if got is None:
            return None
        explain = [program, "explain", "--faults", str(f)]
        plain, placed = run(explain, input=merged.stdout), run([*explain, "--map", "the.map"], input=merged.stdout)
        wanted = with_places(plain.stdout.decode(), added), plain.returncode
        return None if (placed.stdout.decode(), placed.returncode) == wanted else (files, wanted, (placed.stdout.decode(), placed.returncode))


def compare_maps(given):
    """How many recordings in files get another map than that of the model, or another explanation by it."""
    program, wrong = os.path.abspath(given.program), 0
    with concurrent.futures.ThreadPoolExecutor(given.jobs) as pool:
        for differs in pool.map(lambda k: map_differs(program, random.Random(f"map {given.seed} {k}")), range(given.maps)):
            if differs:
                wrong += 1
                print("DIFFERENT MAP\n  files {!r}\n  wanted {!r}\n  got    {!r}".format(*differs))
    print(f"{given.maps} recordings in files with their maps, {wrong} different")
    return wrong


# ---- lines that a kill has cut

HEADERS = b'["recording",0,1,2,7]\n["recording",1,1,2,7]\n'
# a line of each kind
KINDS = [
    b'["recording",1,1,2,7]',
    b'["send",0,1764118000000001,1,0]',
    b'["deliver",1,1764118000000002,0,0,0,0,[]]',
    b'["deliver",1,1764118000000002,0,0,0,0,[[0,0,1,0],[1,0,0,0]]]',
    b'["stable",1,3,[0,0,1,0]]',
    b'["crash",1,4]',
    b'["restart",1,5,[]]',
    b'["restart", 1, 5, [[0, 0, 1, 0], [1, 0, 0, 0]]]',
    b'["forget",1,20,[[0,0,1,0]]]',
    b'["heard",0,3,1,2]',
]


def beginnings(line):
    return [line[:end] for end in range(1, len(line))]


def cuts():
    """Each text with the number of its torn lines, or with None where line 3 is `Syntax`: the beginnings of each kind of line, each as
    a line of its own; and a whole line with each beginning of each kind behind it and before it, and a whole line of each kind."""
    for line in KINDS:
        parts = beginnings(line)
        yield HEADERS + b"".join(part + b"\n" for part in parts), len(parts)
    for line in KINDS:
        for part in {part for other in KINDS for part in [*beginnings(other), other]}:
            yield HEADERS + line + part, None
            yield HEADERS + part + line, None


def cut_differently(program, text, torn):
    wanted = ("fault line=3 Syntax\n", 2, [], None) if torn is None else (merge_model.spell(2, []), 0, list(range(3, 3 + torn)), None)
    return [(who, got) for who, got in (("model", modelled(text)), ("program", answered(program, text))) if got != wanted]


def compare_cuts(given):
    """How many of these texts the model or the program answers otherwise."""
    wrong, texts = 0, list(cuts())
    with concurrent.futures.ThreadPoolExecutor(given.jobs) as pool:
        for (text, _), differs in zip(texts, pool.map(lambda cut: cut_differently(given.program, *cut), texts)):
            wrong += bool(differs)
            for who, got in differs:
                print(f"CUT DIFFERENTLY\n  input {text!r}\n  the {who} gives {got!r}")
    print(f"{len(texts)} texts with lines that are cut, {wrong} different")
    return wrong


# ---- hostile recordings


FACTOR, ROOM = 32, 100_000_000  # it may take so many times its bytes of memory, and what a short line and the program take
SLACK = 2.0  # seconds by which the longer may take more than its share of the time of the shorter

# what begins it, what is repeated, with a number that ascends where it says so, what ends it, and the first line of the answer
HOSTILE = [
    ("blank lines", "", "\n", "", None),
    ("torn lines", "", "[\n", "", None),
    ("brackets", "", "[", "", "fault line=1 Syntax"),
    ("a torn line", '["restart",0,1,', "[", "", "fault line=2 NoHeader"),
    ("small arrays", '["crash",0,1', ",[0]", "]", "fault line=1 Form"),
    ("small objects", '["crash",0,1', ',{"":0}', "]", "fault line=1 Form"),
    ("a list of numbers", '["restart",0,1,[0', ",0", "]]", "fault line=1 Form"),
    ("a list of determinants", '["recording",0,1,1,7]\n["restart",0,1,[[0,0,0,0]', ",[0,0,0,0]", "]]", None),
    ("one event again and again", '["recording",0,1,1,7]\n', '["crash",0,1]\n', "", "fault line=3 Twice"),
    ("headers", "", '["recording",0,1,2,7]\n', "", None),
    ("sends", '["recording",0,1,1,7]\n', '["send",0,{k},0,{k}]\n', "", None),
    ("sends, the last first", '["recording",0,1,1,7]\n', '["send",0,{back},0,{back}]\n', "", None),
]


def hostile(begin, unit, end, size):
    count = size // len(unit.replace("{k}", "1" * 6).replace("{back}", "1" * 6))
    if "{" in unit and '"":' not in unit:
        middle = "".join(unit.replace("{k}", str(k)).replace("{back}", str(count - 1 - k)) for k in range(count))
    else:
        middle = unit * count
    return (begin + middle + end).encode()


def cost(program, text, workers):
    """The first line of the answer, the seconds, and the most memory in bytes."""
    with tempfile.TemporaryFile() as given, tempfile.TemporaryFile() as out:
        given.write(text)
        given.seek(0)
        began = time.monotonic()
        child = subprocess.Popen([program, "merge", "--workers", workers], stdin=given, stdout=out, stderr=subprocess.DEVNULL)
        _, _, used = os.wait4(child.pid, 0)
        seconds = time.monotonic() - began
        child.returncode = 0
        out.seek(0)
        return out.readline().decode().rstrip("\n"), seconds, used.ru_maxrss * 1024


def compare_costs(program, size):
    """How many hostile recordings of so many bytes take more memory than their length allows, or more than their share of the time
    of those that have a quarter."""
    wrong = 0
    for (name, begin, unit, end, answer), workers in itertools.product(HOSTILE, ("1", "4")):
        texts = [hostile(begin, unit, end, length) for length in (size // 4, size)]
        (first, less, _), (_, more, memory) = [cost(program, text, workers) for text in texts]
        ratio = len(texts[1]) / len(texts[0])
        is_wrong = memory > FACTOR * len(texts[1]) + ROOM or more > 2 * ratio * less + SLACK
        is_wrong = is_wrong or (answer is not None and first != answer)
        wrong += is_wrong
        times = memory / len(texts[1])
        print(f"{'WRONG ' if is_wrong else ''}{name}, {workers} workers: {less:.2f} s, then {more:.2f} s for {ratio:.0f} times the bytes; memory {times:.1f} times; {first}")
    return wrong


def main():
    given = argparse.ArgumentParser(description=__doc__.split("\n\n")[0])
    given.add_argument("--program", default=fuzz.PROGRAM)
    given.add_argument("--cases", type=int, default=20_000)
    given.add_argument("--maps", type=int, default=2_000)
    given.add_argument("--seed", type=int, default=1)
    given.add_argument("--jobs", type=int, default=os.cpu_count())
    given.add_argument("--bytes", type=int, default=16_000_000, help="of a hostile recording")
    given = given.parse_args()
    wrong = compare(given)
    wrong += compare_maps(given)
    wrong += compare_cuts(given)
    wrong += compare_costs(given.program, given.bytes)
    sys.exit(1 if wrong else 0)


if __name__ == "__main__":
    main()
