#!/usr/bin/env python3
"""Runs the built program with each allocation, each thread start, each read and each write refused in turn, one alone
and all from the k-th on, and says what was wrong. Some runs have streams that give and take a byte at a time, with each call
refused. The calls are refused by a small library that is preloaded; it is built from refuse.c with the machine's C compiler. Another
one, from seeds.c, gives each run of the same words the same random seed, and so the same allocations.

    trials/refuse.py [--program PATH] [--seconds N]

Each growth alone comes first, and then each call of the streams of single bytes; what is left when the seconds are over is
counted, and not tried.
"""
import argparse
import concurrent.futures
import errno
import os
import subprocess
import sys
import tempfile
import threading
import time

HERE = os.path.dirname(os.path.abspath(__file__))
TOP = os.path.dirname(HERE)
PROGRAM = os.path.join(TOP, "crates", "causal_tool", "out", "causal_tool")
MOST = 20_000  # tries of one kind in one run
SEED = 1

RING = '["trace",1,3]\n["send",0,1,0]\n["deliver",1,0,0,[[0,0,1,0]]]\n["send",1,2,0]\n' \
    '["deliver",2,2,0,[[0,0,1,0],[1,0,2,0]]]\n["send",2,0,0]\n["deliver",0,4,0,[[1,0,2,0],[2,0,0,0]]]\n["end",6]\n'
RESTARTED = RING.replace('["end",6]', '["crash",1]\n["restart",1,[]]\n["end",8]')
CRASHED = RING.replace('["end",6]', '["crash",1]\n["crash",2]\n["end",8]')
REPLAY = "start ring 3 1 2\ndeliver 1 0 0\ndeliver 2 1 0\ndeliver 0 2 0\ncrash 1\nrestart 1\ndeliver 1 0 0\n"
FLUSHES = "start tally 3 1\ndeliver 0 2 0\ndeliver 2 0 0\nflush 2\nflush 2\nflush 0\n"

MESSAGE = '["recording",0,1,2,7]\n["send",0,2,1,0]\n["send"\n["recording",1,1,2,7]\n["deliver",1,3,0,0,0,0,[[0,0,1,0]]]\n'

# bytes of a text that is not read in chunks, and longer texts
UNDIVIDED = 32_768
LONG = RING.replace("[\"", " " * 15_000 + "[\"")
LONG_MESSAGE = MESSAGE.replace("\n", "\n" + " " * 25_000 + "\n")

TEXTS = [
    ("an accepted trace", RING, 0),
    ("an orphan, and a process that lost the determinant", RESTARTED, 1),
    ("too many down", CRASHED, 1),
    ("a text with a fault", RING.replace('"end",6', '"end",7'), 2),
]
# what is run, with the status of an undisturbed run
RUNS = [
    ("audit, one worker", ["audit", "--faults", "1"], RING, 0),
    ("audit, two workers", ["audit", "--faults", "1", "--workers", "2"], RING, 0),
    *((f"audit of a long text, {count} workers", ["audit", "--faults", "1", "--workers", str(count)], LONG, 0) for count in (2, 3, 16)),
    ("audit of a long text with a fault, 3 workers", ["audit", "--faults", "1", "--workers", "3"], LONG.replace('"end",6', '"end",7'), 2),
    ("explain of a long text, 3 workers", ["explain", "--faults", "1", "--workers", "3"], LONG, 0),
    ("audit of a text with a fault", ["audit", "--faults", "1"], RING.replace('"end",6', '"end",7'), 2),
    *((f"explain, {name}", ["explain", "--faults", "1"], text, status) for name, text, status in TEXTS),
    ("audit until a breach", ["audit", "--faults", "1", "--until-breach"], CRASHED, 1),
    ("audit, as JSON", ["audit", "--faults", "1", "--json"], CRASHED, 1),
    *((f"explain as JSON, {name}", ["explain", "--faults", "1", "--json"], text, status) for name, text, status in TEXTS),
    ("explain for all numbers of faults", ["explain"], CRASHED, 0),
    ("explain for all numbers of faults, as JSON", ["explain", "--json"], CRASHED, 0),
    ("explain for all numbers of faults, a text with a fault", ["explain"], RING + "[]", 2),
    ("audit of a text with a faulty entry", ["audit", "--faults", "1"], RING.replace('["end",6]', '["crash",9]\n["end",7]'), 2),
    *((f"draw, {name}", ["draw", "--faults", "1"], text, status) for name, text, status in TEXTS),
    ("merge, with a torn line", ["merge"], MESSAGE, 0),
    ("merge of recordings with a fault", ["merge"], MESSAGE.replace('"send",0,2', '"send",0,4'), 2),
    ("merge of a long text, 3 workers", ["merge", "--workers", "3"], LONG_MESSAGE, 0),
    ("merge of a long text with a fault, 2 workers", ["merge", "--workers", "2"], LONG_MESSAGE.replace('"recording",1,1', '"recording",1,2'), 2),
    ("run, a replay", ["run"], REPLAY, 0),
    ("run, flushes", ["run"], FLUSHES, 0),
    ("run, a refused command", ["run"], REPLAY + "crash 9\n", 2),
    ("run of a text that is no script", ["run"], "start\n", 2),
    ("help", ["--help"], "", 0),
    ("words that ask for nothing", ["audit"], "", 3),
]
# for each kind of refusal the status and what may stand on standard error
TROUBLE = {
    "memory": (5, ("no memory\n",)),
    "thread": (5, ("no worker\n",)),
    "read": (4, ("read fault\n",)),
    "write": (4, ("write fault\n",)),
}
# a thread needs memory too, and is started where there is more than one worker
MANY_WORKERS = {"memory": (5, ("no memory\n", "no worker\n"))}
# the errors with which a read and a write fail; a write may also take no byte
STREAMS = [("read", (errno.EIO, errno.EINTR)), ("write", (errno.EIO, errno.EINTR, 0))]
# runs whose streams give and take a byte at a time as well
BY_BYTES = (
    "audit, one worker",
    "audit of a text with a fault",
    "explain, an accepted trace",
    "merge, with a torn line",
    "merge of recordings with a fault",
    "run, a replay",
    "run, a refused command",
    "run of a text that is no script",
)
# texts whose fault is told before a further read is asked for: that of a whole line, and that of the first byte after the end line;
# each with the bytes that a read gives, and the answer
AT_ONCE = [
    ('["trace",1,2]\n["send",0,1,1]\n', 4096, "fault line=2 WrongSsn\n"),
    ('["trace",1,1]\n["end",0]\n ', 1, "fault line=3 After\n"),
]
# the run and the error after which std's printing makes the call again
MADE_AGAIN = ("help", errno.EINTR)


def library_in(folder, name="refuse.c"):
    """The library to preload, built in a folder."""
    library = os.path.join(folder, name.replace(".c", ".so"))
    source = os.path.join(HERE, name)
    compiler = os.environ.get("CC", "cc")
    subprocess.run([compiler, "-shared", "-fPIC", "-O2", "-o", library, source, "-ldl", "-lpthread"], check=True)
    return library


class Tries:
    def __init__(self, program, preloaded, folder, seconds):
        self.program, self.preloaded, self.folder = program, preloaded, folder
        self.end = time.monotonic() + seconds
        self.tried, self.survived, self.left, self.wrong = 0, 0, 0, []
        self.texts, self.lock = {}, threading.Lock()

    def text_file(self, text):
        """A file with this text. Of a pipe several workers read as much as has been written, so runs differ in their calls."""
        with self.lock:
            if text not in self.texts:
                self.texts[text] = os.path.join(self.folder, f"text{len(self.texts)}")
                with open(self.texts[text], "wb") as file:
                    file.write(text.encode())
            return self.texts[text]

    def once(self, words, text, **refuse):
        count = os.path.join(self.folder, f"count{threading.get_ident()}")
        settings = {f"REFUSE_{name.upper()}": str(value) for name, value in refuse.items()}
        environment = {**os.environ, "LD_PRELOAD": self.preloaded, "REFUSE_COUNT": count, "SEED_BYTES": str(SEED), **settings}
        with open(self.text_file(text), "rb") as given:
            ended = subprocess.run([self.program, *words], stdin=given, capture_output=True, env=environment, timeout=60)
        return ended.returncode, ended.stdout.decode(), ended.stderr.decode()

    def calls(self, words, text, kind, step=0, plain=None):
        """How many calls of a kind an undisturbed run makes."""
        got = self.once(words, text, kind=kind, at=0, step=step)
        if plain and got != plain:
            self.wrong.append(("undisturbed", words, kind, step, got))
        with open(os.path.join(self.folder, f"count{threading.get_ident()}")) as file:
            return int(file.read())

    def each(self, pool, run, plain, kind, every, **refuse):
        """Every call of a kind, alone or with all after it."""
        name, words, text, status = run
        step = refuse.get("step", 0)
        ats = range(1, min(self.calls(words, text, kind, step, plain), MOST) + 1)
        if step and kind == "read" and not status and len(ats) != len(text) + 1:
            self.wrong.append((name, kind, f"{len(ats)} calls for {len(text)} bytes and their end"))
        is_made_again = (name, refuse.get("error")) == MADE_AGAIN and not every
        trouble = {**TROUBLE, **MANY_WORKERS} if "--workers" in words else TROUBLE

        def at_one(at):
            if time.monotonic() > self.end:
                return None
            return self.once(words, text, kind=kind, at=at, all=every, **refuse)

        for at, got in zip(ats, pool.map(at_one, ats)):
            if got is None:
                self.left += 1
                continue
            self.tried += 1
            self.survived += got == plain
            reason = reason_of(words, refuse.get("error"))
            is_whole = not step or kind != "write" or got[1] == plain[1][: at - 1]
            if not is_whole or not is_refusal(got, plain, kind, trouble[kind], reason, is_made_again, len(text) > UNDIVIDED):
                self.wrong.append((name, kind, at, every, refuse, got))


def reason_of(words, error):
    """What the program says below the line of a stream that failed with this error; it takes none for the help."""
    return f"causal_tool {words[0]}: {os.strerror(error)} (os error {error})\n" if error and words != ["--help"] else ""


def is_refusal(got, plain, kind, trouble, reason, is_made_again, is_long):
    """The trouble's status with its line on standard error, and the system's reason below it. What was written before a write was
    refused may stand on standard output, and what is said of a fault before the line. Where memory was refused that the program can
    do without, or a thread that reads a part of a long text, or the call is made again, the answer may be that of an undisturbed run, and less may be said of a fault on standard
    error."""
    status, out, err = got
    if got == plain:
        return kind == "memory" or is_made_again or (kind == "thread" and is_long)
    if kind == "memory" and (status, out) == plain[:2] == (2, plain[1]):
        return True
    expected, lines = trouble
    written = plain[1].startswith(out) if kind == "write" else out == ""
    before = plain[2] if kind == "write" else ""
    return status == expected and err in [before + line + reason for line in lines] and written


def passes():
    """What is refused, in the order in which it is tried: each growth alone, and then each call of streams of single bytes, before
    anything else."""
    streams = [(kind, error) for kind, errors in STREAMS for error in errors]
    yield "memory", 0, {}
    for kind, error in streams:
        if error != errno.EINTR:
            yield kind, 0, {"error": error, "step": 1}
    for every in (0, 1):
        if every:
            yield "memory", every, {}
        yield "thread", every, {}
        for kind, error in streams:
            yield kind, every, {"error": error}


def main():
    given = argparse.ArgumentParser(description=__doc__.split("\n\n")[0])
    given.add_argument("--program", default=PROGRAM)
    given.add_argument("--seconds", type=float, default=float("inf"))
    words = given.parse_args()
    with tempfile.TemporaryDirectory() as folder, concurrent.futures.ThreadPoolExecutor(os.cpu_count()) as pool:
        libraries = " ".join(library_in(folder, name) for name in ("refuse.c", "seeds.c"))
        tries = Tries(words.program, libraries, folder, words.seconds)
        plain = {}
        for name, said, text, status in RUNS:
            plain[name] = tries.once(said, text, kind="none")
            if plain[name][0] != status:
                tries.wrong.append((name, "undisturbed", plain[name]))
        for text, step, line in AT_ONCE:
            audit, reads = ["audit", "--faults", "1"], -(-len(text) // step)
            told = tries.once(audit, text, kind="read", at=reads + 1, error=errno.EIO, step=step)
            if told[:2] != (2, line) or tries.calls(audit, text, "read", step) != reads:
                tries.wrong.append(("a fault that is told at once", text, told))
        untried = 0
        for kind, every, refuse in passes():
            before = tries.tried
            for run in RUNS:
                if "step" not in refuse or run[0] in BY_BYTES:
                    tries.each(pool, run, plain[run[0]], kind, every, **refuse)
            if (kind == "memory" and not every) or "step" in refuse:
                untried = tries.left
                if tries.tried + tries.left == 0:
                    tries.wrong.append(("no run", "asked for memory that this library sees"))
            print(f"{tries.tried - before:7} tries: {kind}{' from there on' if every else ''} {refuse or ''}", flush=True)
    for row in tries.wrong:
        print("WRONG", *row)
    print(f"{tries.tried} tries, {tries.survived} of them survived with the answer of an undisturbed run, {len(tries.wrong)} wrong")
    if tries.left:
        print(f"{tries.left} were not tried, for want of time; {untried} of these refuse one growth, or a call of a stream of single bytes")
    sys.exit(1 if tries.wrong or untried else 0)


if __name__ == "__main__":
    main()
