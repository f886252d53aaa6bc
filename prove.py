#!/usr/bin/env python3
"""Proves the program's crates and builds the program, in a folder that `./causal_tool prove` has laid out.

    prove.py ROOM

Each crate is proved as the kit's `rt ci` proves it, by one call of `rattle`, over the libraries below it. Only the order differs: the
crate with the most work behind it comes first, and a crate whose chain would otherwise end last is proved by several processes. What
`rt ci` does beside that is left out: tests, must-fail edits, a second compiler, the search for contracts that say nothing. The status is
1 if a crate is not proved, and 2 if the kit gave no answer, as another kit may that has other words; then the end of its log is printed.
"""
import glob
import os
import re
import shutil
import subprocess
import sys
import time

PROGRAM = "causal_tool"
MEMORY = 3_000_000_000  # bytes that one proof takes at most
MOST_JOBS = 4  # more gain nothing
MORE_JOBS = 2  # jobs beyond one for each processor, since no proof keeps all its jobs busy
BEHIND = 10  # by how much a proof that is not urgent stands behind the others, in the system's priorities
AHEAD = 1.4  # how much sooner than all the rest a chain of proofs should end, since the last crates of it leave processors idle
FIXED, EACH_LINE = 15, 0.085  # seconds that a proof takes: for loading what is below, and for each line of code
# How many times as long as that rule says the proofs of a crate take that is generic, or whose `main` holds the whole program.
DEARER = {"causal_memory": 1.2, "causal_shared": 1.2, "causal_run": 1.8, "causal_runtime_commands": 1.3, PROGRAM: 1.8}
# Words on a proof's last line that no crate of the repository may have.
REFUSED = ("foreign", "hides", "partial", "may-abort", "may-serve", "bugs")


def say(text):
    print(f"causal_tool: {text}", file=sys.stderr, flush=True)


class Crate:
    """A crate of the room: the names on which it depends, those of the repository and those of the kit."""

    def __init__(self, room, name, uses, ours):
        self.name = name
        self.folder = os.path.join(room, "crates", name)
        self.ours = [it for it in uses if it in ours]
        self.of_kit = ["std", *(it for it in uses if it not in ours)]
        self.library = os.path.join(self.folder, "out", "rlib", f"{name}.rlib")
        self.log = os.path.join(self.folder, "out", "prove.log")
        lines = sum(map(lines_of, glob.glob(f"{self.folder}/src/**/*.rt", recursive=True)))
        self.cost = DEARER.get(name, 1) * (FIXED + EACH_LINE * lines)


class NotProved(Exception):
    """A crate is not proved: status 1, or the kit gave no answer: status 2."""

    def __init__(self, crate, status):
        super().__init__(crate.name)
        self.crate, self.status = crate, status


def lines_of(path):
    with open(path, "rb") as file:
        return sum(1 for _ in file)


def crates_of(room):
    """The crates of the room, by name."""
    with open(os.path.join(room, "crates.txt")) as file:
        uses = {line.partition(":")[0].split()[0]: line.partition(":")[2].split() for line in file if re.match("[a-z]", line)}
    return {name: Crate(room, name, its, uses) for name, its in uses.items()}


def below(crates, crate):
    """The crates on which it depends, also by others."""
    found, todo = [], list(crate.ours)
    while todo:
        name = todo.pop()
        if name not in found:
            found.append(name)
            todo += crates[name].ours
    return [crates[name] for name in found]


def work_behind(crates):
    """The cost of the dearest chain of crates that begins with each crate and of which each waits for the one before."""
    found = {}

    def chain(name):
        if name not in found:
            above = [chain(it.name) for it in crates.values() if name in it.ours]
            found[name] = crates[name].cost + max(above, default=0)
        return found[name]

    return {name: chain(name) for name in crates}


def words(kit, crates, crate, jobs):
    """The command that proves the crate and builds its library, or the program."""
    root = "main" if crate.name == PROGRAM else "lib"
    found = [f"{kit}/bin/rattle", "build", "--crate-name", crate.name, f"src/{root}.rt", "-L", f"dependency={kit}/rlibs"]
    for name in crate.of_kit:
        found += ["--extern", f"{name}={kit}/rlibs/{name}.rlib"]
    for name in crate.ours:
        found += ["--extern", f"{name}={crates[name].library}"]
    for it in below(crates, crate):
        found += ["-L", f"dependency={os.path.dirname(it.library)}"]
    found += ["--antt-project", f"{kit}/rattle/logic/antt-project.json", "--logic-built", f"{kit}/logic_built"]
    found += ["--links", f"{crate.name}=", "--jobs", str(jobs)]
    if crate.name == PROGRAM:
        return [*found, "--toolchain", f"{kit}/toolchain", "--backend", "llvm", "-o", f"out/{PROGRAM}.o"]
    return [*found, "--statements", "-o", crate.library]


def link(kit, crate):
    """Links the program."""
    made = [f"{kit}/bin/rattle-link", "--target", "x86_64-unknown-linux-gnu", "--toolchain", f"{kit}/toolchain"]
    made += ["-o", f"out/{PROGRAM}", f"out/{PROGRAM}.o", f"{kit}/c/libos_c.a", f"{kit}/c/liblibc_c.a"]
    return subprocess.run(made, cwd=crate.folder, stdin=subprocess.DEVNULL).returncode == 0


def is_proved(crate):
    """Whether the last line of the crate's proof says so, without a word that no crate may have."""
    with open(crate.log, errors="replace") as log:
        last = [line for line in log if line.startswith("logic=")][-1:]
    return bool(last) and last[0].startswith("logic=proved ") and not any(f" {word}=" in last[0] for word in REFUSED)


def lanes():
    """How many processors there are to use, as far as memory allows a proof on each."""
    processors = len(os.sched_getaffinity(0))
    with open("/proc/meminfo") as file:
        free = 1024 * int(re.search(r"MemAvailable:\s+(\d+)", file.read())[1])
    return max(1, min(processors, free // MEMORY))


class Proving:
    """The crates that are left, those that are being proved, with their processes and jobs, and those that are proved."""

    def __init__(self, kit, crates):
        self.kit, self.crates = kit, crates
        self.behind = work_behind(crates)
        self.left = sorted(crates, key=lambda name: -self.behind[name])
        self.running, self.proved = {}, set()
        self.lanes = lanes()

    def start_ready(self):
        """Begins the proofs of crates that wait for nothing, as long as processors and jobs are left."""
        ready = [name for name in self.left if self.proved.issuperset(self.crates[name].ours)]
        for at, name in enumerate(ready):
            idle = self.lanes - len(self.running)
            if not idle or sum(jobs for _, jobs in self.running.values()) >= self.lanes + MORE_JOBS:
                return
            self.start(name, max(1, min(MOST_JOBS, self.lanes, max(idle // (len(ready) - at), self.jobs_needed(name)))))

    def jobs_needed(self, name):
        """The jobs by which the chain that begins with the crate ends ahead of all work on all processors."""
        work = sum(self.crates[it].cost for it in (*self.left, *self.running))
        return round(AHEAD * self.behind[name] * self.lanes / work)

    def start(self, name, jobs):
        crate = self.crates[name]
        shutil.rmtree(os.path.join(crate.folder, "out"), ignore_errors=True)
        os.makedirs(os.path.dirname(crate.library))
        command = ["nice", "-n", str(0 if jobs > 1 else BEHIND), *words(self.kit, self.crates, crate, jobs)]
        with open(crate.log, "w") as log:
            process = subprocess.Popen(command, cwd=crate.folder, stdin=subprocess.DEVNULL, stdout=log, stderr=log)
        self.left.remove(name)
        self.running[name] = process, jobs

    def end_finished(self):
        """Takes note of the proofs that have ended, and returns their crates' names."""
        ended = [name for name, (process, _) in self.running.items() if process.poll() is not None]
        for name in ended:
            status = self.running.pop(name)[0].returncode
            if status or not is_proved(self.crates[name]):
                raise NotProved(self.crates[name], 1 if status in (0, 1) else 2)
            self.proved.add(name)
        return ended

    def stop(self):
        for process, _ in self.running.values():
            process.kill()
            process.wait()


def prove_all(kit, crates):
    """Proves all crates."""
    proving, began = Proving(kit, crates), time.monotonic()
    try:
        while proving.left or proving.running:
            proving.start_ready()
            time.sleep(0.2)
            for name in proving.end_finished():
                say(f"{name} proved after {time.monotonic() - began:.0f} s, {len(proving.proved)} of {len(crates)} crates")
    finally:
        proving.stop()


def main():
    room = os.path.abspath(sys.argv[1])
    kit = os.path.dirname(os.path.dirname(os.path.realpath(shutil.which("rt"))))
    crates = crates_of(room)
    try:
        prove_all(kit, crates)
    except NotProved as why:
        with open(why.crate.log, errors="replace") as log:
            print("".join(log.readlines()[-40:]), end="")
        say(f"{why.crate.name} is not proved")
        return why.status
    return 0 if link(kit, crates[PROGRAM]) else 2


if __name__ == "__main__":
    sys.exit(main())
