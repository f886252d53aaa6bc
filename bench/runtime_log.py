#!/usr/bin/env python3
"""Measures what a delivery costs the runtime's log, beside maps of Rust's standard library: builds both programs where they
are not built yet, runs them in turn, and gives the part of RESULTS.md on them. Alone, it prints that part."""
import os
import shutil
import subprocess
import tempfile

HERE = os.path.dirname(os.path.abspath(__file__))
TOP = os.path.dirname(HERE)
OUT = os.path.join(HERE, "out")
PROGRAM = os.path.join(OUT, "runtime_log")
YARDSTICK = os.path.join(OUT, "runtime_log_std")
CRATES = ("causal_name", "causal_holders", "causal_log")
LISTED = """\
causal_name: thiserror
causal_holders: causal_name
causal_log: causal_name causal_holders indexmap thiserror
runtime_log: anyhow causal_name causal_log
"""
RUNS = 5
RINGS = ((2, 1), (64, 1), (2, 2), (64, 2), (64, 8))
KEYS = (256, 1_024, 2_048, 8_192)


def newest(paths):
    """When the youngest file at or below these was changed."""
    files = [p for p in paths if os.path.isfile(p)]
    for path in paths:
        files += [os.path.join(at, name) for at, _, names in os.walk(path) for name in names]
    return max(os.path.getmtime(file) for file in files)


def is_built(built, sources):
    return os.path.exists(built) and os.path.getmtime(built) >= newest(sources)


def build_program():
    """The crates are copied with what their proofs left, since a program of no crate list is built outside the repository."""
    text = os.path.join(HERE, "runtime_log.rattle")
    crates = [os.path.join(TOP, "crates", name) for name in CRATES]
    if is_built(PROGRAM, [text] + [os.path.join(crate, "src") for crate in crates]):
        return
    with tempfile.TemporaryDirectory() as room:
        for crate in crates:
            shutil.copytree(crate, os.path.join(room, "crates", os.path.basename(crate)), symlinks=True)
        own = os.path.join(room, "crates", "runtime_log")
        os.makedirs(os.path.join(own, "src"))
        shutil.copyfile(text, os.path.join(own, "src", "main.rt"))
        with open(os.path.join(room, "crates.txt"), "w") as listed:
            listed.write(LISTED)
        subprocess.run(["rt", "run"], cwd=own, stdin=subprocess.DEVNULL, capture_output=True, check=True)
        os.makedirs(OUT, exist_ok=True)
        shutil.copy(os.path.join(own, "out", "runtime_log"), PROGRAM)


def build_yardstick():
    text = os.path.join(HERE, "runtime_log.rs")
    if not is_built(YARDSTICK, [text]):
        os.makedirs(OUT, exist_ok=True)
        subprocess.run(["rustc", "-O", "--edition", "2021", "-o", YARDSTICK, text], capture_output=True, check=True)


def thousands(command):
    """Of each number of processes, the nanoseconds of each thousand deliveries, what a log had then, and how many items all
    batches had."""
    found = {}
    for line in subprocess.run(command, capture_output=True, text=True, check=True).stdout.split("\n")[:-1]:
        processes, _, took, logged, items = map(int, line.split())
        found.setdefault(processes, []).append((took, logged, items))
    return found


def best(runs):
    """The least time of each thousand deliveries, in microseconds a delivery."""
    return {processes: [min(run[processes][i][0] for run in runs) / 1e6 for i in range(len(runs[0][processes]))] for processes in runs[0]}


def figures(words):
    """The figures of each run."""
    return [list(map(int, subprocess.run([PROGRAM, *map(str, words)], capture_output=True, text=True, check=True).stdout.split())) for _ in range(RUNS)]


def lists():
    """A message round a ring, with lists as long as they get."""
    lines = [
        "",
        "A message round a ring, up to 1,000,000 determinants that deliveries list; the log's part of a delivery alone.",
        "",
        "| processes | f | deliveries | listed | ns a listed one |",
        "|---|---|---|---|---|",
    ]
    for processes, faults in RINGS:
        _, _, deliveries, listed, took = min(figures(("lists", processes, faults)), key=lambda run: run[4])
        lines.append(f"| {processes} | {faults} | {deliveries:,} | {listed:,} | {took / listed:.0f} |")
    return lines


def keys():
    """Determinants that were chosen to collide, and the targets."""
    lines = [
        "",
        "Nanoseconds for each determinant that a log adds and looks up. *spread*: all of a run with 256 receivers. *alike*: chosen to collide "
        "in a hash table of determinants with a fixed seed. *picked*: those of a run of 32,768 deliveries that collide in a log whose seed is "
        "known. *seeded*: the same in a log with another seed, and *spread, seeded* those of the first column in that log: by its seed a log "
        "grows at other sizes.",
        "",
        "| determinants | spread | alike | picked | seeded | spread, seeded |",
        "|---|---|---|---|---|---|",
    ]
    targets = []
    for count in KEYS:
        columns = list(zip(*figures(("keys", count))))
        each = [min(took) / many[0] for many, took in zip(columns[::2], columns[1::2])]
        spread, alike, _, seeded, spread_seeded = each
        lines.append(f"| {count:,} | " + " | ".join(f"{nanoseconds:.1f}" for nanoseconds in each) + " |")
        targets.append((f"{count:,} determinants chosen to collide in a hash / as many of a run", alike / spread, 1.3))
        targets.append((f"{count:,} determinants picked of a longer run, with another seed / as many of a run with that seed",
                        seeded / spread_seeded, 1.3))
    return lines, targets


def section():
    """The part of RESULTS.md, and what was answered wrongly."""
    try:
        build_program()
        build_yardstick()
    except (OSError, subprocess.CalledProcessError) as fault:
        return f"Not measured: {fault}.", ["the log's programs were not built"]
    commands = {"log": [PROGRAM], "index": [YARDSTICK, "index"], "scan": [YARDSTICK, "scan"]}
    runs = {name: [] for name in commands}
    for _ in range(RUNS):
        for name, command in commands.items():
            runs[name].append(thousands(command))
    told = {name: [(logged, items) for _, logged, items in sum(of[0].values(), [])] for name, of in runs.items()}
    if len({str(each) for each in told.values()}) != 1:
        wrong = "the log and its yardsticks do not send the same batches"
        return f"WRONG: {wrong}.", [wrong]
    times = {name: best(of) for name, of in runs.items()}
    lines = [
        "30,000 deliveries by one message that goes from process to process: each takes in the message's batch and its own",
        "determinant, chooses the next batch for f = 1, and marks it as stable at each eighth delivery of the process. Microseconds a",
        f"delivery, each thousand at the best of {RUNS} runs. *index* is a `BTreeMap` with a `BTreeSet` of what messages carry, *scan* the map",
        "alone, looked through at each delivery; both in plain Rust by `rustc -O`.",
        "",
        "| processes | deliveries | entries of a log | log | index | scan | log / index |",
        "|---|---|---|---|---|---|---|",
    ]
    for processes, each in times["log"].items():
        for i in (0, 1, 2, 9, 19, 29):
            log, index, scan = (times[name][processes][i] for name in ("log", "index", "scan"))
            logged = runs["log"][0][processes][i][1]
            lines.append(f"| {processes} | {i * 1000:,} to {i * 1000 + 1000:,} | {logged:,} | {log:.1f} | {index:.1f} | {scan:.1f} | {log / index:.2f} |")
    collided, targets = keys()
    lines += lists() + collided
    lines += ["", "| Target | At most | Measured | Met |", "|---|---|---|---|"]
    for name, value, bound in targets:
        lines.append(f"| {name} | {bound:.1f} | {value:.2f} | {'yes' if value <= bound else 'no'} |")
    for processes, each in times["log"].items():
        whole = sum(each) / sum(times["index"][processes])
        first = next(i for i, (_, logged, _) in enumerate(runs["log"][0][processes]) if logged >= 1000) + 1
        for name, value, bound in (
            (f"{processes} processes, all deliveries: log / index", whole, 3.0),
            (f"{processes} processes: the last thousand / the first after 1,000 entries", each[-1] / each[first], 1.5),
        ):
            lines.append(f"| {name} | {bound:.1f} | {value:.2f} | {'yes' if value <= bound else 'no'} |")
    return "\n".join(lines), []


if __name__ == "__main__":
    print(section()[0])
