#!/usr/bin/env python3
"""Pipes runs into the built program, and never ends the pipe. Each breaks at a known instant, and the program has to end by itself with that
verdict, without reading far beyond the look that finds it; or it has a fault, which must be told by any number of workers though the pipe is open.
Slow runs break late between two looks of a number of entries; with `--until-breach=live` a look by time has to find that.

    trials/live.py [--program PATH]
"""
import argparse
import itertools
import os
import subprocess
import sys
import threading

PROGRAM = os.path.join(os.path.dirname(os.path.abspath(__file__)), "..", "crates", "causal_tool", "out", "causal_tool")
PROCESSES = 5
AHEAD = 2 * 65_536 + 4_096  # bytes: those of a pipe, the longest piece that is written, and one that is read
LONGEST = 100  # seconds for one answer
PAUSE = 1.1  # seconds between the pieces of a slow run, whose looks come after one


def hop(place):
    """Who sends and who receives at a place of the ring, and what both count."""
    return place % PROCESSES, (place + 1) % PROCESSES, place // PROCESSES


def det(place):
    sender, receiver, number = hop(place)
    return f"[{sender},{number},{receiver},{number}]"


def ring(broken):
    """The lines of a token that goes round for ever, each message with the determinant of the delivery before it; but the one that is
    delivered at this place brings none."""
    yield f'["trace",2,{PROCESSES}]\n'
    for place in itertools.count():
        sender, receiver, number = hop(place)
        brought = [place - 1] if place > 0 and place != broken else []
        listed = ",".join(sorted((det(k) for k in [*brought, place]), key=lambda text: [int(part) for part in text[1:-1].split(",")]))
        yield f'["send",{sender},{receiver},{number}]\n'
        yield f'["deliver",{receiver},{2 * place},{number},[{listed}]]\n'


def verdict(broken):
    """The instant of that delivery fails: whoever delivered before it may crash, and its receiver depends on what is lost."""
    sender, receiver, _ = hop(broken)
    return f"orphan f=1 instant={2 * broken + 2} delivery={2 * broken - 1} crash={sender} orphan={receiver}"


def look_at(instant):
    return 1 << (instant - 1).bit_length()


def pieces(lines, size, whole=False):
    """The bytes of the lines in pieces of this size; if they are wanted whole, what is left after the last in a shorter one."""
    held = b""
    for line in lines:
        held += line.encode()
        while len(held) >= size:
            yield held[:size]
            held = held[size:]
    if whole:
        yield held


def answered(program, words, parts, most):
    """The answer and the status of `audit`, into which these parts are piped until nobody reads them; the pipe stays open. It may
    take so many bytes."""
    running = subprocess.Popen([program, "audit", *words], stdin=subprocess.PIPE, stdout=subprocess.PIPE, stderr=subprocess.DEVNULL)
    written = 0
    try:
        while written <= most and (part := next(parts, None)):
            written += os.write(running.stdin.fileno(), part)
    except BrokenPipeError:
        pass
    try:
        running.wait(LONGEST if written <= most else 0)
    except subprocess.TimeoutExpired:
        running.kill()
    return running.stdout.read().decode(), running.wait()


def trials():
    """Names, words, what is piped in, the answer, and how many bytes have to be read for it."""
    read = ("--faults", "1", "--entries", "16777216")
    for workers in (1, 2, 3, 16):
        for fault in (20, 2_500, 20_000):
            lines = [*itertools.islice(ring(None), fault - 1), "[]\n"]
            said = f"fault line={fault} Form\n", 2
            for size in (4_096, 65_536):
                yield f"fault at line {fault}, {workers} workers, pieces of {size}", (*read, "--workers", str(workers)), pieces(lines, size, True), said, sum(map(len, lines))
    long = ("--until-breach", *read)
    for broken in (1, 2_047, 2_048, 50_000):
        look = look_at(2 * broken + 2)
        needed = sum(map(len, itertools.islice(ring(broken), look + 1)))
        said = f"{verdict(broken)} read={look}\n", 1
        for size in (4_096, 1_000, 65_536):
            yield f"broken at {broken}, pieces of {size}", long, pieces(ring(broken), size), said, needed
        for workers in ("2", "3", "16"):
            yield f"broken at {broken}, {workers} workers", (*long, "--workers", workers), pieces(ring(broken), 4_096), said, needed
        yield f"broken at {broken}, and no more", long, map(str.encode, itertools.islice(ring(broken), look + 1)), said, needed
    bound = 5_000
    needed = sum(map(len, itertools.islice(ring(None), bound + 2)))
    safe = pieces(ring(None), 4_096)
    yield "never broken", ("--until-breach", "--faults", "1", "--entries", str(bound)), safe, (f"fault line={bound + 2} TooLong\n", 2), needed


def slowly(program, words, parts):
    """The answer and the status of `audit`, into which these parts are piped with pauses between them until it ends, the pipe open."""
    running = subprocess.Popen([program, "audit", *words], stdin=subprocess.PIPE, stdout=subprocess.PIPE, stderr=subprocess.DEVNULL)
    for part in parts:
        try:
            os.write(running.stdin.fileno(), part)
        except BrokenPipeError:
            break
        try:
            running.wait(PAUSE)
            break
        except subprocess.TimeoutExpired:
            pass
    else:
        running.kill()
    return running.stdout.read().decode(), running.wait()


def slow_parts(first, steps, broken, cut):
    """The first lines of a run and then one more entry at a time, each part without the last bytes of its last line."""
    lines = [line.encode() for line in itertools.islice(ring(broken), first + steps + 1)]
    text, ends = b"".join(lines), list(itertools.accumulate(map(len, lines)))[first:]
    marks = [0, *[end - cut for end in ends]]
    return [text[begin:end] for begin, end in zip(marks, marks[1:])]


def slow_trials():
    """Names, words, the parts that are piped in, the beginning of the answer and the numbers of entries that may have been read for it.
    A part that ends within a line shows one entry less."""
    read = ("--faults", "1", "--until-breach=live")
    for workers in ("1", "4"):
        for cut in (0, 5):
            # instant 2 * 39 + 2 = 80 fails: behind the look at 64, and before that at 128
            shown = [entries - bool(cut) for entries in range(78, 98)]
            yield f"slow, by {workers}, {cut} bytes left out", (*read, "--workers", workers), slow_parts(78, 19, 39, cut), verdict(39), [n for n in shown if n >= 80]
    # instant 64 fails, where all looks are
    yield "at a number of entries", read, slow_parts(70, 5, 31, 0), verdict(31), [64]


def slow_wrong(program):
    """How many slow runs there are, and how many are answered wrong; they run at the same time."""
    asked, got = list(slow_trials()), {}

    def run(name, words, parts):
        got[name] = slowly(program, words, parts)

    running = [threading.Thread(target=run, args=(name, words, parts)) for name, words, parts, _, _ in asked]
    for thread in running:
        thread.start()
    for thread in running:
        thread.join()
    wrong = 0
    for name, _, _, wanted, read in asked:
        if got[name] not in [(f"{wanted} read={entries}\n", 1) for entries in read]:
            wrong += 1
            print(f"{name}: wanted {wanted!r} and one of {read}, the program gives {got[name]!r}")
    return len(asked), wrong


def main():
    options = argparse.ArgumentParser(description=__doc__.splitlines()[0])
    options.add_argument("--program", default=PROGRAM)
    program, count, wrong = options.parse_args().program, 0, 0
    for name, words, parts, wanted, needed in trials():
        count += 1
        got = answered(program, words, parts, needed + AHEAD)
        if got != wanted:
            wrong += 1
            print(f"{name}: wanted {wanted!r}, the program gives {got!r}")
    slow, late = slow_wrong(program)
    count, wrong = count + slow, wrong + late
    print(f"live: {count} runs, {wrong} wrong")
    return 1 if wrong else 0


if __name__ == "__main__":
    sys.exit(main())
