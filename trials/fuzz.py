#!/usr/bin/env python3
"""Runs the built program on random and damaged texts and scripts, and compares what it answers with the plain models
beside this file. Each difference is printed with its input. Everything is decided by the seed.

    trials/fuzz.py [--program PATH] [--cases 20000] [--seed 1] [--jobs N] [--only audit|explain|draw|run]
"""
import argparse
import collections
import concurrent.futures
import itertools
import json
import os
import random
import re
import subprocess
import sys

import elements
import pictures
import reasons
import scripts
import traces

HERE = os.path.dirname(os.path.abspath(__file__))
PROGRAM = os.path.join(os.path.dirname(HERE), "crates", "causal_tool", "out", "causal_tool")
CHUNK = 250  # cases that one worker makes from one seed
KINDS = ("ring", "echo", "tally")
PADDED = 1 / 40  # of the texts of `audit` so many are so long that all workers read them
SHORT = 40  # of so few lines the plain model judges a trace in no time
LONG = 1 / 800  # of the traces so many have more deliveries that stay open than one worker follows at once


# ---- traces


def random_det(rng, trace):
    if trace.dets and rng.random() < 0.95:
        return list(rng.choice(list(trace.dets.values())))
    return [rng.randrange(3), rng.randrange(3), rng.randrange(3), rng.randrange(3)]


def random_list(rng, trace, own=None):
    dets = {tuple(random_det(rng, trace)) for _ in range(rng.choice((0, 0, 1, 1, 2, 4)))}
    if own is not None and rng.random() < 0.9:
        dets.add(own)
    listed = [list(det) for det in sorted(dets)]
    if len(listed) > 1 and rng.random() < 0.02:
        rng.shuffle(listed)
    return listed


def random_entry(rng, trace):
    """An entry that mostly may stand next."""
    n = trace.n
    p = rng.randrange(n + (rng.random() < 0.01))
    ups = [q for q in range(n) if trace.processes[q].up]
    if ups and rng.random() < 0.97:
        p = rng.choice(ups)
    process = trace.processes[min(p, n - 1)]
    kind = rng.random()
    sends = [i for i, (word, _) in enumerate(trace.entries) if word == "send"]
    if kind < 0.36 or not sends:
        return "send", [p, rng.randrange(n), process.sends + (rng.random() < 0.01)]
    if kind < 0.74:
        k = rng.choice(sends)
        q = trace.entries[k][1][1] if rng.random() < 0.98 else p
        receiver = trace.processes[min(q, n - 1)]
        source, _, ssn = trace.entries[k][1]
        rsn = receiver.deliveries + (rng.random() < 0.01)
        return "deliver", [q, k, rsn, random_list(rng, trace, (source, ssn, q, rsn))]
    if kind < 0.82:
        return "stable", [random_det(rng, trace)]
    if kind < 0.88:
        return "crash", [p]
    if kind < 0.95:
        downs = [q for q in range(n) if not trace.processes[q].up]
        return "restart", [rng.choice(downs) if downs else p, random_list(rng, trace)]
    return "forget", [p, random_list(rng, trace)]


def random_trace(rng):
    """The lines of a trace of few processes, and whether it needs the second version."""
    n = rng.choice((1, 2, 2, 3, 3, 3, 4))
    trace = traces.Trace(n)
    wanted = rng.choice((0, 2, 5, 8, 12, 18, 25, 40))
    for _ in range(6 * wanted):
        if len(trace.entries) >= wanted:
            break
        word, fields = random_entry(rng, trace)
        try:
            trace.push(word, fields)
        except traces.Fault:
            if rng.random() < 0.004:
                trace.entries.append((word, fields))
                break
    forgets = any(word == "forget" for word, _ in trace.entries)
    version = 2 if rng.random() < (0.97 if forgets else 0.2) else 1
    lines = [("trace", version, n), *[(word, *fields) for word, fields in trace.entries], ("end", len(trace.entries))]
    return [scripts.spelled(line) for line in lines]


def recorded_run(rng):
    """The lines of a trace that a run of the plain model makes, of so few processes that all crash sets can be tried."""
    text, _ = scripts.ran(random_script(rng, 0.0, (1, 2, 3, 3, 4, 5)))
    return text.splitlines()


def raised(lines, by):
    """The same of processes whose numbers are greater by so much, of 256; those below them do nothing."""
    entries = [json.loads(line) for line in lines]
    for entry in entries:
        lift(entry, by)
    return [json.dumps(entry, separators=(",", ":")) for entry in entries]


def lift(entry, by):
    word = entry[0]
    if word == "trace":
        entry[1:] = [2, 256]
    elif word == "stable":
        lift_det(entry[1], by)
    elif word != "end":
        entry[1] += by
        if word == "send":
            entry[2] += by
        for det in entry[-1] if word in ("deliver", "restart", "forget") else []:
            lift_det(det, by)


def lift_det(det, by):
    det[0] += by
    det[2] += by


def raised_line(line, by):
    """A verdict's line, of processes whose numbers are greater by so much."""
    def lifted(found):
        numbers = found[2].split(",")
        return found[1] + ",".join(str(int(number) + by) if number != "-" else number for number in numbers)

    return re.sub(r"\b((?:down|crash|orphan)=)(\S+)", lifted, line)


def long_run(rng):
    """The lines of a trace with so many deliveries that several workers have some to follow, and its number of processes. Mostly
    each process logs what it depends on, so that the trace is safe to the end, or to a late instant, for any number of faults."""
    n = rng.choice((2, 2, 3))
    trace = traces.Trace(n)
    wanted = rng.randrange(520, 600) if n == 2 else rng.randrange(290, 340)
    careless = rng.choice((0.0, 0.0, 0.0005, 0.003))
    carried, waiting = {}, []  # what the sender's log had, of each send; sends that may be delivered
    while len(trace.dets) < wanted:
        p, here = rng.randrange(n), len(trace.entries)
        process = trace.processes[p]
        try:
            if not process.up:
                trace.push("restart", [p, []])
            elif rng.random() < 0.001:
                trace.push("crash", [p])
            elif rng.random() < 0.55 or not waiting:
                trace.push("send", [p, rng.randrange(n), process.sends])
                carried[here] = frozenset(process.log)
                waiting.append(here)
            else:
                k = waiting.pop(rng.randrange(len(waiting)))
                source, q, ssn = trace.entries[k][1]
                receiver = trace.processes[q]
                own = (source, ssn, q, receiver.deliveries)
                listed = sorted((carried[k] | {own}) - receiver.log)
                if rng.random() < careless:
                    listed.remove(rng.choice(listed))
                trace.push("deliver", [q, k, own[3], [list(det) for det in listed]])
        except traces.Fault:
            continue
    lines = [("trace", 1, n), *[(word, *fields) for word, fields in trace.entries], ("end", len(trace.entries))]
    return n, [scripts.spelled(line) for line in lines]


def long_case(rng):
    n, lines = long_run(rng)
    f = rng.choice((n, n, 65535, n - 1))
    workers = rng.choice((2, 3, 16, 64))
    text = ("\n".join(lines) + "\n").encode()
    return ["audit", "--faults", str(f), "--workers", str(workers)], text, lambda _: traces.audited(text, f)


NUMBERS = ("0", "1", "2", "3", "7", "64", "65", "255", "256", "257", "65536", "4294967295", "4294967296",
           "18446744073709551615", "18446744073709551616", "-1", "-0", "0.0", "1e0", "1e400", "00", "01", "null", '"0"',
           "[]", "{}", "true", "9" * 320)
JUNK = (b"\n", b" ", b"\t", b"\r", b",", b"[", b"]", b'"', b"{", b"}", b":", b"0", b"-", b"\\", b"\x00", b"\xff", b"\xc2\xa0",
        b"\xe2\x80\xa8", b"\xef\xbb\xbf", b"\x0b", b"\\ud800", b'["end",0]', b'["trace",1,2]', b'["forget",0,[]]')


def damaged(rng, lines):
    """The text of lines, mostly with one wrong thing in it."""
    lines = list(lines)
    kind = rng.random()
    if kind < 0.25:
        pass
    elif kind < 0.35 and len(lines) > 1:
        del lines[rng.randrange(len(lines))]
    elif kind < 0.42:
        lines.insert(rng.randrange(len(lines) + 1), rng.choice(lines))
    elif kind < 0.48 and len(lines) > 2:
        i, j = rng.randrange(len(lines)), rng.randrange(len(lines))
        lines[i], lines[j] = lines[j], lines[i]
    elif kind < 0.7:
        i = rng.randrange(len(lines))
        places = [(a, b) for a, b in number_places(lines[i])]
        if places:
            a, b = rng.choice(places)
            lines[i] = lines[i][:a] + rng.choice(NUMBERS) + lines[i][b:]
    text = "\n".join(lines).encode("utf-8", "surrogateescape") + (b"" if rng.random() < 0.1 else b"\n")
    if kind >= 0.7:
        at = rng.randrange(len(text) + 1)
        how = rng.random()
        if how < 0.35:
            text = text[:at]
        elif how < 0.75:
            text = text[:at] + rng.choice(JUNK) + text[at:]
        elif how < 0.9:
            text = text[:at] + text[at + 1 :]
        else:
            text = text[:at] + bytes([rng.randrange(256)]) + text[at + 1 :]
    if rng.random() < 0.05:
        text = text.replace(b",", b" ,\t").replace(b"\n", b"\r\n")
    return text


def padded(rng, text):
    """The text with blanks before each line, some 150,000 in all, so that it is read in chunks."""
    lines = text.split(b"\n")
    most = 300_000 // len(lines)
    return b"\n".join(b" " * rng.randrange(most) + line for line in lines)


def number_places(line):
    start = None
    for i, letter in enumerate(line + " "):
        if letter.isdigit():
            start = i if start is None else start
        elif start is not None:
            yield start, i
            start = None


def audit_case(rng):
    if rng.random() < LONG:
        return long_case(rng)
    lines = recorded_run(rng) if rng.random() < 0.3 else random_trace(rng)
    f = rng.choice((0, 1, 1, 1, 2, 2, 3, 5, 65535))
    words = ["audit", "--faults", str(f), "--workers", str(rng.choice((1, 2, 3, 16)))]
    text = damaged(rng, lines)
    if rng.random() < PADDED:
        text = padded(rng, text)
    if rng.random() < 0.2:
        return [*words, "--until-breach"], text, lambda _: traces.audited_until_breach(text, f)
    return words, text, lambda _: traces.audited(text, f)


def raised_case(rng):
    """A trace whose processes have numbers around 63, or the greatest: its verdict is that of the trace with small ones, raised."""
    lines, f, by = whole_trace(rng), rng.choice((0, 1, 1, 2, 3)), rng.choice((61, 62, 252))
    text, small = ("\n".join(raised(lines, by)) + "\n").encode(), ("\n".join(lines) + "\n").encode()
    return ["audit", "--faults", str(f)], text, lambda _: raised_answer(small, f, by)


def whole_trace(rng):
    while True:
        lines = random_trace(rng)
        try:
            traces.read(("\n".join(lines) + "\n").encode())
            return lines
        except traces.Fault:
            continue


def raised_answer(small, f, by):
    line, status = traces.audited(small, f)
    return raised_line(line, by), status


def explain_case(rng):
    """A whole trace, mostly: what damage does is seen by the audit."""
    lines = recorded_run(rng) if rng.random() < 0.3 else random_trace(rng)
    f = rng.choice((0, 1, 1, 1, 2, 2, 3))
    text = damaged(rng, lines) if rng.random() < 0.1 else ("\n".join(lines) + "\n").encode()
    return ["explain", "--faults", str(f)], text, lambda said: explained(text, f, said)


def explained(text, f, said):
    line, status = traces.audited(text, f)
    return "\n".join([line] if status == 2 else reasons.told(text, f, said.splitlines())), status


def draw_case(rng):
    """A whole trace. Some are so long, or of so many processes, that they are not all shown."""
    lines = recorded_run(rng) if rng.random() < 0.3 else whole_trace(rng)
    f = rng.choice((0, 1, 1, 2, 3))
    answer, status = traces.audited(("\n".join(lines) + "\n").encode(), f)
    if rng.random() < 0.3:
        lines, answer = stretch(rng, lines, answer)
    text = ("\n".join(lines) + "\n").encode()
    assert len(lines) > SHORT or traces.audited(text, f)[0] == answer, "idle entries and processes change nothing"
    words = ["draw", "--faults", str(f), *selection(rng, len(lines), rng.random() < 0.4)]
    return words, text, lambda said: (pictures.picture_of(words, text, answer, said), status)


def stretch(rng, lines, answer):
    """The lines of a trace with idle entries between the others, and with some idle processes, and its verdict's line."""
    entries = [json.loads(line) for line in lines[1:-1]]
    n = json.loads(lines[0])[2]
    ups, places, longer = set(range(n)), [], []
    idle = dict.fromkeys(rng.choices(range(len(entries) + 1), k=rng.choice((1, 2, 3))), 0)
    for at in idle:
        idle[at] = rng.randrange(180)
    for at, entry in enumerate([*entries, None]):
        longer += [["forget", rng.choice(sorted(ups)), []] for _ in range(idle.get(at, 0) if ups else 0)]
        if entry is None:
            break
        places.append(len(longer))
        if entry[0] == "deliver":
            entry[2] = places[entry[2]]
        elif entry[0] in ("crash", "restart"):
            ups ^= {entry[1]}
        longer.append(entry)
    moved = re.sub(r"instant=(\d+)", lambda found: f"instant={places[int(found[1]) - 1] + 1}", answer)
    moved = re.sub(r"delivery=(\d+)", lambda found: f"delivery={places[int(found[1])]}", moved)
    moved = re.sub(r"entries=\d+", f"entries={len(longer)}", moved)
    rows = [["trace", 2, rng.choice((n, n, n + 9, 64, 256))], *longer, ["end", len(longer)]]
    return [json.dumps(row, separators=(",", ":")) for row in rows], moved


def selection(rng, lines, is_part):
    """The words that select a part of a picture."""
    around = ["--around", str(rng.choice((2, rng.randrange(2, lines + 3), 16_777_217)))] if rng.random() < 0.3 else []
    return [*around, *(["--only", "breach"] if is_part else [])]


def window_case(rng):
    """A run of many entries and processes, most of them idle, in which a process comes to depend on a delivery without its determinant."""
    n = rng.choice((3, 5, 14, 40, 64, 200, 256, rng.randrange(3, 50)))
    length = rng.choice((30, 77, 190, 201, 260, 420, rng.randrange(70, 210)))
    first = rng.randrange(1, length - 4)
    sent = rng.randrange(first + 1, length - 2)
    last = rng.randrange(sent + 1, length)
    p, q = rng.sample(range(n), 2)
    entries = [("forget", [rng.randrange(n), []]) for _ in range(length)]
    entries[first - 1], entries[first] = ("send", [0, p, 0]), ("deliver", [p, first - 1, 0, [[0, 0, p, 0]]])
    ssn, is_logged = 0 if p else 1, rng.random() < 0.8
    entries[sent] = ("send", [p, q, ssn])
    entries[last] = ("deliver", [q, sent, 0, [[p, ssn, q, 0]] if is_logged else []])
    lines = [("trace", 2, n), *[(word, *fields) for word, fields in entries], ("end", length)]
    text = ("\n".join(map(scripts.spelled, lines)) + "\n").encode()
    f = 1 if is_logged else rng.choice((0, 1))
    # With p down nobody has the first determinant; without a fault only the second may be lost.
    delivery, crash = (first, p) if f else (last, "-")
    answer = f"orphan f={f} instant={last + 1} delivery={delivery} crash={crash} orphan={q}"
    assert n * length > 3 * SHORT or traces.audited(text, f)[0] == answer
    words = ["draw", "--faults", str(f), *selection(rng, len(lines), rng.random() < 0.5)]
    return words, text, lambda said: (pictures.picture_of(words, text, answer, said), 1)


# ---- scripts


def random_command(rng, run):
    """A command that the run mostly does not refuse."""
    n = run.n
    p = rng.randrange(n + (rng.random() < 0.02))
    kind = rng.random()
    if kind < 0.62:
        waiting = [
            (to, q, ssn)
            for q in range(n)
            if run.memories[q]
            for ssn, (to, *_) in enumerate(run.memories[q].sent)
            if run.memories[to] and (q, ssn) not in run.memories[to].received
        ]
        if waiting and rng.random() < 0.97:
            q, source, ssn = rng.choice(waiting)
            named = run.named(q)
            return ("deliver", q, *(named if named and rng.random() < 0.97 else (source, ssn)))
        return "deliver", p, rng.randrange(n), rng.randrange(3)
    downs = [q for q in range(n) if not run.memories[q]]
    if kind < 0.82 and downs and rng.random() < 0.8:
        return "restart", rng.choice(downs)
    return rng.choice(("crash", "crash", "restart", "flush", "forget")), p


def random_script(rng, wrong, sizes):
    """A script's text. Refused commands stay in it where `wrong` says so; else each is left out and another tried."""
    kind = rng.choice(KINDS)
    n = rng.choice(sizes)
    f = rng.choice((0, 1, 1, 1, 2, 2, 3, n, 65535))
    param = rng.choice((0, 1, 2, 3, 5, 9, 255))
    run = scripts.Run(kind, n, f, param)
    lines = [f"start {kind} {n} {f}" + ("" if kind == "tally" else f" {param}")]
    for _ in range(rng.choice((0, 3, 8, 15, 30, 60))):
        name, *numbers = random_command(rng, run)
        try:
            getattr(run, name)(*numbers)
        except scripts.Refused:
            if rng.random() >= wrong:
                continue
        lines.append(" ".join(map(str, (name, *numbers))))
    return ("\n".join(lines) + "\n").encode()


def run_case(rng):
    sizes = (1, 2, 3, 3, 4, 5, 8) if rng.random() < 0.98 else (64, 65, 256)
    text = random_script(rng, rng.choice((0.0, 0.0, 0.05)), sizes)
    if rng.random() < 0.1:
        first, rest = text.split(b"\n", 1)
        text = first.replace(b"start", b"explore") + f" {rng.randrange(1000)} {rng.choice((0, 5, 30))}\n".encode() + rest
    kind = rng.random()
    at = rng.randrange(len(text) + 1)
    if kind < 0.1:
        text = text[:at]
    elif kind < 0.2:
        junk = (b"\n", b" ", b"0", b"-", b"\r", b"\t", b"x", b"\xff", b"start ring 1 0 0\n", b"4294967296")
        text = text[:at] + rng.choice(junk) + text[at:]
    elif kind < 0.25:
        text = text[:at] + text[at + 1 :]
    return ["run"], text, lambda _: scripts.ran(text)


# ---- both

MAKERS = {"audit": [audit_case, audit_case, raised_case], "explain": [explain_case], "draw": [draw_case, window_case], "run": [run_case]}

# What a trial of all cases has to meet at least once in so many.
LEAST = {"accept": 10, "exceeded": 50, "orphan crash=-": 50, "orphan": 100, "with a replay": 50, "with a forgetting": 20, "with a stable": 20}

# How a picture's text shows what pictures have to be met with.
PICTURED = {
    "picture of a safe run": ">accept f=",
    "picture of an excess": ">exceeded f=",
    "picture of an orphan": ">orphan f=",
    "picture with a chain": "<title>chain<",
    "picture of later entries": "entries before are not shown",
    "picture of two ranges": "entries between are not shown",
    "picture of earlier entries": "entries after are not shown",
    "picture of some processes": "processes are not shown",
    "picture of many processes": ">process 50<",
    "picture with narrow columns": "rotate(-90)",
    "picture with an arrow to its sender": "Q",
    "picture with a message sent again": "<g opacity",
}
LEAST |= dict.fromkeys(PICTURED, 200)


def features(text):
    """What stands in a trace that tests of its verdict want to have met."""
    sends = re.findall(rb'^\["deliver",\d+,(\d+),', text, re.MULTILINE)
    yield from ["with a replay"] * (len(set(sends)) < len(sends))
    yield from ["with a forgetting"] * (b'"forget"' in text)
    yield from ["with a stable"] * (b'"stable"' in text)


def one(program, words, text):
    """What the program prints, of the lines of `explain` the words before the colon, and its status."""
    ended = subprocess.run([program, *words], input=text, capture_output=True, timeout=60)
    said = ended.stdout.decode("utf-8", "replace")
    if words[0] == "explain":
        said = "".join(line.split(":")[0] + "\n" for line in said.splitlines())
    return said, ended.returncode


def difference(words, wanted, got):
    """What differs in two answers, each a text and a status, and nothing where they are the same: of a picture the first lines that do,
    or what covers what in it."""
    if words[0] != "draw":
        return None if got == wanted else (wanted, got)
    if got == wanted:
        covered = list(elements.overlaps(got[0]))
        return ("no label is covered", covered) if covered else None
    lines = itertools.zip_longest(wanted[0].splitlines(), got[0].splitlines())
    return tuple(zip((wanted[1], got[1]), *[pair for pair in lines if pair[0] != pair[1]][:4]))


def chunk(program, makers, seed, count):
    """The differences of some cases, and how often each answer was met."""
    rng, wrong, met = random.Random(seed), [], collections.Counter()
    for _ in range(count):
        words, text, model = rng.choice(makers)(rng)
        got = one(program, words, text)
        wanted, status = model(got[0])
        wanted = wanted if wanted.endswith("\n") else wanted + "\n"
        differs = difference(words, (wanted, status), got)
        if differs:
            wrong.append((words, text, *differs))
        if words[0] == "draw":
            met.update(name for name, shown in PICTURED.items() if shown in wanted)
        else:
            first = wanted.split("\n", 1)[0].split(" ")
            met[" ".join(word for word in first if not any(c.isdigit() for c in word)) or first[0][:8]] += 1
        if words[0] != "run" and status != 2:
            met.update(features(text))
    return wrong, met


def main():
    given = argparse.ArgumentParser(description=__doc__.split("\n\n")[0])
    given.add_argument("--program", default=PROGRAM)
    given.add_argument("--cases", type=int, default=20_000)
    given.add_argument("--seed", type=int, default=1)
    given.add_argument("--jobs", type=int, default=os.cpu_count())
    given.add_argument("--only", choices=("audit", "explain", "draw", "run"))
    words = given.parse_args()
    makers = MAKERS[words.only] if words.only else [maker for makers in MAKERS.values() for maker in makers]
    wrong, met = 0, collections.Counter()
    with concurrent.futures.ProcessPoolExecutor(words.jobs) as pool:
        starts = range(0, words.cases, CHUNK)
        jobs = [
            pool.submit(chunk, words.program, makers, f"{words.seed} {start}", min(CHUNK, words.cases - start))
            for start in starts
        ]
        for job in concurrent.futures.as_completed(jobs):
            found, counted = job.result()
            met.update(counted)
            for said, text, wanted, got in found:
                wrong += 1
                print(f"DIFFERENT {' '.join(said)}\n  input {text!r}\n  wanted {wanted!r}\n  got    {got!r}")
    for answer, times in sorted(met.items(), key=lambda row: -row[1]):
        print(f"{times:7} {answer}")
    rare = [] if words.only else [answer for answer, most in LEAST.items() if met[answer] * most < words.cases]
    for answer in rare:
        print(f"TOO FEW {answer}")
    print(f"{words.cases} cases, {wrong} different")
    sys.exit(1 if wrong or rare else 0)


if __name__ == "__main__":
    main()
