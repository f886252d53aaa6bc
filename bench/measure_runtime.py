"""Measures the runtime: its core alone, the seats that share one, and the command `run`. `measure.py` puts what is told here
into the results.

Each part answers a `Part`. A further part is a further function in `PARTS`.
"""
import os
import re
import shutil
import subprocess
import sys

import run_scripts
import runtime_log
from generate import MAX_ENTRIES
from timed import HERE, INPUTS, LIMIT, TURNS, Measured, measure_in_turn, once, ratio_in_turn, target_line

PROGRAM = os.path.join(HERE, "out", "runtime_bench")
YARDSTICK = os.path.join(HERE, "out", "runtime_cores")
VALGRIND = shutil.which("valgrind")
COUNTING = [VALGRIND, "--tool=cachegrind", "--cache-sim=no", "--cachegrind-out-file=/dev/null"]
# It counts an instruction that repeats once for each byte, so memory is set and copied without them.
PLAIN = ":".join(f"glibc.cpu.x86_rep_{each}_threshold=1073741824" for each in ("stosb", "movsb"))
LARGE_PAGES = {"GLIBC_TUNABLES": "glibc.malloc.hugetlb=1"}
RUNS = 15  # how often a core delivers
KINDS = ("ring", "echo", "tally")
SIZES = (2, 64, 256)
FAULTS = (0, 1, 2, 8, "n")
SEATS = (1, 2, 4, 8)
CALLS = {"refusals": 800_000, "deliveries": 24_000}


class Part:
    """A table with a few words on it, the targets that its rows meet or miss, and what was answered wrongly. The first `keys`
    columns say which row it is, and the one named `timed` is compared with the table that stood there before."""

    def __init__(self, text, names, keys, timed):
        self.text = text
        self.names = [*names, timed + " / last"]
        self.keys = keys
        self.timed = names.index(timed)
        self.rows = []
        self.aims = {}
        self.wrong = []

    def row(self, *cells):
        self.rows.append(cells)
        print(*cells[:3], "..", *cells[-2:], file=sys.stderr, flush=True)

    def aim(self, target, bound, row, value):
        """What a row has measured of a target."""
        self.aims.setdefault((target, bound), []).append((value, row))

    def targets(self):
        """Each target by the row that is worst."""
        for (target, bound), measured in self.aims.items():
            value, row = max(measured)
            met = sum(each <= bound for each, _ in measured)
            yield target_line(f"{target}, at worst {row}; {met} of {len(measured)} meet it", value, bound)

    def told(self, before):
        lines = [self.text, "", "| " + " | ".join(self.names) + " |", "|" + "---|" * len(self.names)]
        past = {line[: self.keys]: line for line in tables(before).get(tuple(self.names), [])}
        for cells in self.rows:
            cells = tuple(map(str, cells))
            last = past.get(cells[: self.keys])
            ratio = f"{number(cells[self.timed]) / number(last[self.timed]):.2f}" if last else ""
            lines.append("| " + " | ".join((*cells, ratio)) + " |")
        return "\n".join(lines)


def number(cell):
    return float(re.match(r"[\d,.]+", cell)[0].replace(",", ""))


def tables(text):
    """The rows of each table of a text, by the table's names."""
    found, names = {}, None
    for line in text.splitlines():
        cells = tuple(cell.strip() for cell in line.strip("|").split("|"))
        if not line.startswith("|"):
            names = None
        elif names is None:
            names = cells
        elif not cells[0].startswith("---"):
            found.setdefault(names, []).append(cells)
    return found


def figures(words, given=None, program=PROGRAM):
    """The figures of one run of a program, given these variables too; none where it failed or was stopped."""
    try:
        done = subprocess.run([program, *map(str, words)], stdin=subprocess.DEVNULL, capture_output=True, text=True, timeout=LIMIT,
                              env={**os.environ, **(given or {})})
    except subprocess.TimeoutExpired:
        return None
    return [int(word) for word in done.stdout.split()] if done.returncode == 0 else None


def least(runs):
    """The least of each figure of some runs; none where one has none."""
    return None if None in runs else [min(each) for each in zip(*runs)]


def delivered(words):
    """How many entries, deliveries and listed determinants a core had, and the nanoseconds of the making of the text and of each
    thousand of deliveries, each the least of some runs."""
    told = least([figures(words) for _ in range(RUNS)])
    return told and (*told[:4], told[4:])


def delivered_in_turn(words):
    """The same of a core, of a core in large pages, and of plain Rust, which tells neither entries nor the making of the text: one run of
    each after the other, so that a quick moment of the machine is one of all."""
    turns = [(figures(words), figures(words, LARGE_PAGES), figures(words[1:4], program=YARDSTICK)) for _ in range(RUNS)]
    core, large, plain = map(least, zip(*turns))
    if None in (core, large, plain):
        return None
    return (*core[:4], core[4:]), sum(large[4:]), (*plain[:2], sum(plain[2:]))


def build_yardstick():
    text = os.path.join(HERE, "runtime_cores.rs")
    if not runtime_log.is_built(YARDSTICK, [text]):
        subprocess.run(["rustc", "-O", "--edition", "2021", "-o", YARDSTICK, text], capture_output=True, check=True)


def measure_cores(given):
    part = Part(
        "A core whose processes send a message for each that they get: round a ring, to and fro between pairs, and between "
        "process 0 and the others. What is on its way is delivered in the order in which it was sent, until the trace is "
        f"full or {given.core_seconds} s have gone by. For *f* = 0 each delivery lists its own determinant alone, so that the "
        "trace is full of entries, and all thousands of deliveries have as much to do. For more faults lists grow until "
        f"1,048,576 determinants are listed. Each thousand is told at the least of {RUNS} runs, and so is the making of the text of the "
        "trace after them (*text*). *a listed one* is a determinant that a delivery lists. *ns in large pages* is the same where the C "
        "library asks the system for pages of 2 MB: lists and batches stay, so that new memory is much of what they take. *plain* are the "
        "same deliveries, lists and batches over `BTreeMap` in plain Rust, by `rustc -O`.",
        ["kind", "n", "f", "entries", "listed", "ended", "µs each", "ns a listed one", "text ns a listed one", "deliveries / text",
         "ns in large pages", "plain ns", "deliveries / plain", "fastest thousand ms", "slowest ms", "slowest / fastest"],
        3,
        "µs each",
    )
    for fault in FAULTS:
        for kind in KINDS:
            for n in SIZES:
                f = n if fault == "n" else fault
                if fault == "n" or f < n:
                    measure_core(given, part, kind, n, f)
    return part


def measure_core(given, part, kind, n, f):
    words = ["core", kind, n, f, given.core_seconds]
    told = delivered(words) if f == 0 else delivered_in_turn(words)
    if told is None:
        part.wrong.append(f"core {kind} {n} {f}: no figures")
        return
    figured, cells = (told, pace(part, kind, n, told)) if f == 0 else (told[0], long_lists(part, kind, n, f, *told))
    entries, deliveries, listed, writing, thousands = figured
    nanos = sum(thousands)
    ended = "time" if nanos > given.core_seconds * 1e9 else "entries" if entries > MAX_ENTRIES - 9 else "listed"
    part.row(kind, n, f, f"{entries:,}", f"{listed:,}", ended, f"{nanos / deliveries / 1e3:.2f}", f"{nanos / listed:.0f}",
             f"{writing / listed:.0f}", f"{nanos / writing:.2f}", *cells)


def pace(part, kind, n, told):
    """The last cells of a run whose deliveries have all as much to do."""
    _, deliveries, _, _, thousands = told
    whole = thousands[: deliveries // 1000]
    fastest, slowest = min(whole), max(whole)
    part.aim("f = 0: the slowest thousand deliveries / the fastest", 2.0, f"`{kind}` of {n} for 0", slowest / fastest)
    return "", "", "", f"{fastest / 1e6:.2f}", f"{slowest / 1e6:.2f}", f"{slowest / fastest:.2f}"


def long_lists(part, kind, n, f, told, large, plain):
    """The last cells of a run whose lists grow."""
    _, deliveries, listed, writing, thousands = told
    nanos, row = sum(thousands), f"`{kind}` of {n} for {f}"
    if plain[:2] != (deliveries, listed):
        part.wrong.append(f"core {kind} {n} {f}: plain Rust does not list the same")
    part.aim("long lists: ns for each listed determinant", 60.0, row, nanos / listed)
    part.aim("long lists: the deliveries / the making of the text", 3.0, row, nanos / writing)
    part.aim("long lists: the deliveries / the same in plain Rust", 1.0, row, nanos / plain[2])
    return f"{large / listed:.0f}", f"{plain[2] / listed:.0f}", f"{nanos / plain[2]:.2f}", "", "", ""


def measure_seats(given):
    part = Part(
        "Seats on as many threads that share one runtime, and call it without a pause: *refusals* are crashes of a process "
        "that there is not, which the core refuses at once and which are items of the history; *deliveries* are made to 16 "
        "processes. The calls together are the same for any number of seats, and `finish` answers Ok after them.",
        ["calls", "seats", "number", "s", "calls/s", "µs each", "calls/s, to one seat's"],
        2,
        "µs each",
    )
    for asking, calls in CALLS.items():
        alone = None
        for seats in SEATS:
            runs = [figures(["shared", seats, asking, calls // given.part]) for _ in range(3)]
            if None in runs:
                part.wrong.append(f"shared {seats} {asking}: no figures")
                continue
            made, nanos = min(runs)
            alone = alone or nanos / made
            part.row(asking, seats, f"{made:,}", f"{nanos / 1e9:.3f}", f"{made / nanos * 1e9:,.0f}", f"{nanos / made / 1e3:.2f}",
                     f"{alone / (nanos / made):.2f}")
    return part


def written(name, text):
    """The path of a file with this text."""
    path = os.path.join(INPUTS, name.replace(" ", "_"))
    with open(path, "w") as file:
        file.write(text)
    return path


def make_script(script, part):
    text, about = run_scripts.make(script, part)
    return written(f"script-{script}", text), about


def judged(program, trace, about):
    """What the audit has to say of the trace that was printed, if it says otherwise."""
    wanted = f"accept f={about['f']} entries={about['entries']} deliveries={about['deliveries']}"
    said = subprocess.run([program, "audit", "--faults", str(about["f"])], input=trace + "\n", capture_output=True, text=True)
    return None if said.stdout.strip() == wanted else f"the audit says {said.stdout.strip()!r} for {wanted!r}"


def check_run(part, program, about, run):
    """Whether the command answered as it had to."""
    last = run.line.rsplit("\n", 1)[-1]
    if (last, run.status) != (about["answer"], about["status"]):
        part.wrong.append(f"{about['script']}: {last!r} status {run.status} for {about['answer']!r}")
    elif about["status"] == 0:
        wrong = judged(program, run.line, about)
        if wrong:
            part.wrong.append(f"{about['script']}: {wrong}")


def instructions(command, path):
    """How many instructions a command takes on that input. What else the machine does changes them little, unlike times."""
    with open(path, "rb") as file:
        done = subprocess.run([*COUNTING, *command], stdin=file, capture_output=True, text=True, timeout=30 * LIMIT,
                              env={**os.environ, "GLIBC_TUNABLES": PLAIN})
    told = re.search(r"I\s+refs:\s+([\d,]+)", done.stderr)
    if told is None:
        sys.exit(f"{VALGRIND} counts nothing of {' '.join(command)}: {done.stderr}")
    return int(told[1].replace(",", ""))


def costs(commands):
    """What each command takes on its file: millions of instructions, or milliseconds of processor time where they cannot be
    counted."""
    if VALGRIND:
        return [instructions(*command) / 1e6 for command in commands]
    return [each.least_processor() * 1e3 for each in measure_in_turn(commands)]


def costs_of_script(program, path, script):
    """What a script costs: its reading, the core's calls, the making of the trace's text, and the command."""
    with open(path) as file:
        misended = written(f"misended-{script}", run_scripts.misended(file.read()))
    parts = [([PROGRAM, "script", part], path) for part in ("reading", "calls", "text")]
    read, run, reading, calls, text = costs([([program, "run"], misended), ([program, "run"], path), *parts])
    return read, calls - reading, text - calls, run


def measure_scripts(given):
    unit = "M" if VALGRIND else "ms"
    part = Part(
        "The command `run`, on scripts whose traces are as long as their kind of process can make them, beside the reading of the "
        "same script with a last line that is none (*read*), the calls that it asks of a core (*core*) and the making of the trace's "
        "text (*text*), in " + ("millions of instructions, as `valgrind` counts them" if VALGRIND else "milliseconds of processor time")
        + f". *run / audit* is of processor time, in turn with the audit of the printed trace by one worker, the median of {TURNS}: a count "
        "of instructions lacks what the system does for new memory, of which `run` takes more.",
        ["script", "n", "f", "commands", "entries", "MB of trace", "wall s", "peak MB", f"read {unit}", f"core {unit}", f"text {unit}",
         f"run {unit}", "run / (read + text)", "audit s", "run / audit"],
        1,
        f"run {unit}",
    )
    for script in run_scripts.SCRIPTS:
        path, about = make_script(script, given.part)
        run = Measured()
        once([given.program, "run"], path, run)
        if run.over:
            part.wrong.append(f"{script}: over {LIMIT:.0f} s")
            continue
        check_run(part, given.program, about, run)
        measure_script(given, part, path, about, run.line)
    return part


def measure_script(given, part, path, about, trace):
    script, program = about["script"], given.program
    printed = written(f"trace-of-{script}", trace + "\n")
    audit = [program, "audit", "--faults", str(about["f"]), "--workers", "1"]
    ran, audited = measure_in_turn([([program, "run"], path), (audit, printed)])
    read, core, text, run = costs_of_script(program, path, script)
    beside_text, beside_audit = run / (read + text), ratio_in_turn(ran, audited)
    part.row(script, about["processes"], about["f"], f"{about['commands']:,}", f"{about['entries']:,}", f"{len(trace) / 1e6:.1f}",
             ran.told(), f"{ran.peak / 1e3:.1f}", *(f"{cost:.1f}" for cost in (read, core, text, run)), f"{beside_text:.2f}",
             f"{audited.least_processor():.3f}", f"{beside_audit:.2f}")
    part.aim("`run` / the reading of the script and the making of the text", 2.0, f"`{script}`", beside_text)
    if about["restarts"]:
        part.aim("`run` with replays / the audit of its trace", 2.5, f"`{script}`", beside_audit)


def measure_texts(given):
    part = Part(
        "The same on texts as long as a script may be, whose last line is none of a script: they are read whole, and nothing "
        "runs.",
        ["text", "bytes", "lines", "answer", "wall s", "user s", "peak MB", "MB/s"],
        1,
        "wall s",
    )
    for script in run_scripts.TEXTS:
        path, about = make_script(script, given.part)
        run = Measured()
        while len(run.walls) < 5 and not run.over:
            once([given.program, "run"], path, run)
        if run.over:
            part.wrong.append(f"{script}: over {LIMIT:.0f} s")
            continue
        check_run(part, given.program, about, run)
        part.row(script, f"{about['bytes']:,}", f"{about['commands'] + 2:,}", run.line, run.told(), f"{min(run.users):.3f}",
                 f"{run.peak / 1e3:.1f}", f"{about['bytes'] / 1e6 / run.best():.1f}")
        part.aim("reading a script of 1,048,576 bytes: seconds", 0.5, script, run.best())
    return part


PARTS = [measure_cores, measure_seats, measure_scripts, measure_texts]


def measure_runtime(given, before):
    """The section on the runtime, and what was answered wrongly. `given` has the program, `core_seconds`, and `part`, by
    which scripts and calls are divided; `before` is the section that is compared with."""
    if not os.path.exists(PROGRAM):
        return "The program over the runtime was not built; see bench/out/runtime_bench.log.", ["no program"]
    try:
        build_yardstick()
    except (OSError, subprocess.CalledProcessError) as fault:
        return f"Not measured: {fault}.", ["the deliveries in plain Rust were not built"]
    os.makedirs(INPUTS, exist_ok=True)
    parts = [tell(given) for tell in PARTS]
    wrong = [line for part in parts for line in part.wrong]
    lines = ["| Target | At most | Measured | Met |", "|---|---|---|---|"]
    lines += [line for part in parts for line in part.targets()]
    text = "\n".join(lines) + "\n\n" + "\n\n".join(part.told(before) for part in parts if part.rows)
    if wrong:
        text += "\n\nWrong answers:\n\n" + "\n".join(f"- {line}" for line in wrong)
    return text, wrong
