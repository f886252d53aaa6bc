#!/usr/bin/env python3
"""Measures the built program on the generated traces, writes the table to RESULTS.md, and prints it.

Nothing here fails for being slow. The status is 1 where an answer is not the one that the generator foretells.
"""
import argparse
import os
import platform
import re
import shutil
import subprocess
import sys
import time

import generate
import hostile
import runtime_log
from texts import make_inputs, path_of
from measure_runtime import measure_runtime
from measure_reading import measure_reading
from measure_shown import measure_shown
from timed import HERE, INPUTS, LIMIT, SLOW, TURNS, measure, measure_in_turn, ratio, ratio_in_turn, target_line

TOP = os.path.dirname(HERE)
RESULTS = os.path.join(HERE, "RESULTS.md")
KIT_JSON = os.path.join(HERE, "out", "json_lines")
FAULTS = ("0", "1", "2", "8", "n")
READ_AIM = 1.3  # reading and checking / the kit's JSON reader
FULL_AIM = 1.6  # the whole audit / the same, where a million determinants are listed
LEAN_AIM = 3.0  # the same where few are
EARLY_AIM = 1.3  # the whole audit / reading, where the answer is told at an early instant
# For how many faults a hostile trace is unsafe at an early instant.
EARLY = {
    "early": ("0",),
    "down": ("0", "8", "n"),
    "orphaned": FAULTS,
    "shared": ("2", "8", "n"),
    "forgotten": ("2", "8", "n"),
    "reaching": ("2", "8", "n"),
}


def misended(path, about):
    """A copy whose end line has a wrong number: it is read whole, and not judged."""
    copy = os.path.join(INPUTS, "misended.jsonl")
    shutil.copyfile(path, copy)
    with open(copy, "r+b") as file:
        size = file.seek(0, os.SEEK_END)
        file.seek(max(0, size - 4_000_000))
        tail = file.read().rstrip(b"\n")
        file.seek(max(0, size - 4_000_000) + tail.rfind(b"\n") + 1)
        file.truncate()
        file.write(b'["end",%d]\n' % (about["entries"] + 1))
    return copy


class Row:
    def __init__(self, about, workers):
        self.about = about
        self.workers = workers
        self.full = None
        self.read = None
        self.lines = None
        self.python = None
        self.kit = None
        self.wrong = []

    def key(self):
        about = self.about
        return f"{about['shape']} {about['variant']}", about["f_word"], str(self.workers)

    def check(self, measured, line, status):
        if not measured.over and (measured.line, measured.status) != (line, status):
            self.wrong.append(f"{measured.line!r} status {measured.status} for {line!r} status {status}")


def lists_many(about):
    return about["listed"] > generate.MAX_LISTED * 0.9


def measure_row(row, program, path):
    about = row.about
    command = [program, "audit", "--faults", str(about["f"]), "--workers", str(row.workers)]
    if row.workers > 1:
        row.full = measure(command, path)
        row.check(row.full, about["answer"], about["status"])
        return
    row.lines = measure(["wc", "-l"], path)
    if (about["variant"], about["f_word"]) == ("safe", "1"):
        row.python = measure([sys.executable, "-I", "-S", os.path.join(HERE, "json_lines.py")], path)
    is_line = about["shape"] == "line" or about["shape"] in hostile.LINES
    unjudged = path if is_line else misended(path, about)
    runs = [(command, unjudged)]
    if os.path.exists(KIT_JSON):
        runs.append(([KIT_JSON], unjudged))
    if not is_line:
        runs.append((command, path))
    row.read, *others = measure_in_turn(runs)
    row.full = row.read if is_line else others.pop()
    kit = others
    if row.read.over or any(each.over for each in kit):
        sys.exit(f"reading {' '.join(row.key())} takes over {LIMIT:.0f} s")
    row.check(row.full, about["answer"], about["status"])
    if not is_line:
        row.check(row.read, f"fault line={about['entries'] + 2} Count", 2)
    if kit:
        row.kit = kit[0]
        row.check(row.kit, row.lines.line.split()[0], 0)


def plan():
    """What is measured: shape, variant, f and workers, the most telling first."""
    shapes = [shape for shape in generate.SHAPES if shape != "line"]
    rows = [("lists", "safe", "1", 1), ("line", "safe", "1", 1)]
    rows += [(shape, "hostile", f, 1) for shape in hostile.SHAPES for f in ("1", "0")]
    rows += [(shape, "hostile", "1", workers) for shape in hostile.LINES for workers in (1, 4)]
    rows += [(shape, "safe", "1", 1) for shape in shapes if shape != "lists"]
    rows += [(shape, "safe", "1", workers) for shape in shapes for workers in (2, 4)]
    return rows + [(shape, "breach", f, 1) for f in FAULTS for shape in shapes]


def plan_of_faults():
    """The same for other numbers of faults, beside one row for one: those that cost most come first."""
    order = ["lists", "restarts", "star", "long", "gossip", "ring", "chain", "bytes"]
    return [("lists", "safe", "1", 1)] + [(shape, "safe", f, 1) for f in ("n", "8", "2", "0") for shape in order]


def plan_of_stable():
    """The same where each determinant is stable at once, for all numbers of faults: those that cost most come first."""
    order = ["lists", "long", "bytes", "restarts", "star", "gossip", "ring", "chain"]
    return [("lists", "safe", "1", 1)] + [(shape, "stable", f, 1) for f in reversed(FAULTS) for shape in order]


def plan_of_hostile():
    """The same of the traces that were made to be slow: those that cost most come first."""
    order = ["released", "replayed", "colliding", "scattered", "late", "early", "down", "shared", "forgotten", "everywhere", "reaching"]
    order += ["overlapping", "spared", "buried", "orphaned"]
    return [("lists", "safe", "1", 1)] + [(shape, "hostile", f, 1) for f in ("n", "8", "2") for shape in order]


def output_of(command, otherwise):
    try:
        return subprocess.run(command, cwd=TOP, capture_output=True, text=True, check=True).stdout.strip()
    except (OSError, subprocess.CalledProcessError):
        return otherwise


def commit():
    """The last commit of the product's sources."""
    sources = ["--", "crates", "crates.txt", "HANDLES"]
    last = output_of(["git", "log", "-1", "--format=%h", *sources], "unknown")
    return last + (", changed since" if output_of(["git", "status", "--porcelain", *sources], "") else "")


def machine():
    model = platform.processor() or platform.machine()
    try:
        with open("/proc/cpuinfo") as file:
            model = re.search(r"model name\s*: (.*)", file.read())[1]
        with open("/proc/meminfo") as file:
            memory = int(re.search(r"MemTotal:\s*(\d+)", file.read())[1]) / 1e6
    except (OSError, TypeError):
        return f"{model}, {os.cpu_count()} processors, {platform.system()}"
    return f"{model}, {os.cpu_count()} processors, {memory:.0f} GB, {platform.system()} {platform.release()}"


def columns(row, before):
    about = row.about
    full, read = row.full, row.read
    seconds = full.best() if not full.over else LIMIT
    less = "under " if full.over else ""
    cells = {
        "trace": row.key()[0],
        "f": row.key()[1],
        "workers": row.key()[2],
        "n": str(about["processes"]),
        "entries": f"{about['entries']:,}",
        "listed": f"{about['listed']:,}",
        "MB": f"{about['bytes'] / 1e6:.1f}",
        "answer": "WRONG" if row.wrong else "none" if full.over else full.line.split(" ")[0],
        "wall s": full.told(),
        "processor s": "" if full.over else f"{full.least_processor():.3f}",
        "peak MB": "" if full.over else f"{full.peak / 1e3:.1f}",
        "MB/s": f"{less}{about['bytes'] / 1e6 / seconds:.2f}",
        "entries/s": f"{less}{about['entries'] / seconds:,.0f}",
        "read s": "",
        "read peak MB": "",
        "judge s": "",
        "wc -l s": "",
        "Python JSON s": "",
        "kit JSON s": "",
        "kit JSON peak MB": "",
        "read / Python": "",
        "read / kit": "",
        "whole / kit": "",
        "wall / last": "",
    }
    if read is not None:
        cells["read s"] = f"{read.least_processor():.3f}"
        cells["read peak MB"] = f"{read.peak / 1e3:.1f}"
        judging = full.least_processor() - read.least_processor() if full.processor else LIMIT
        cells["judge s"] = f"over {LIMIT:.0f}" if full.over else f"{max(0.0, judging):.3f}"
        cells["wc -l s"] = f"{row.lines.least_processor():.3f}"
        if row.python is not None:
            cells["Python JSON s"] = f"{row.python.least_processor():.3f}"
            cells["read / Python"] = f"{ratio(read, row.python):.2f}"
        if row.kit is not None:
            cells["kit JSON s"] = f"{row.kit.least_processor():.3f}"
            cells["kit JSON peak MB"] = f"{row.kit.peak / 1e3:.1f}"
            cells["read / kit"] = f"{ratio_in_turn(read, row.kit):.2f}"
            cells["whole / kit"] = f"{whole(row):.2f}"
    if row.key() in before and not full.over:
        cells["wall / last"] = f"{full.best() / before[row.key()]:.2f}"
    return cells


def earlier_walls(this_machine):
    """The wall times of the table that is there, if it is of such a machine."""
    text = sections_there().get("Audit", "")
    if f"- Machine: {this_machine}\n" not in text:
        return {}
    walls = {}
    names = None
    for line in text.splitlines():
        cells = [cell.strip() for cell in line.strip("|").split("|")]
        if line.startswith("| trace "):
            names = cells
        elif names and line.startswith("| ") and len(cells) == len(names):
            row = dict(zip(names, cells))
            found = re.match(r"\d+\.\d+", row["wall s"])
            if found:
                walls[row["trace"], row["f"], row["workers"]] = float(found[0])
    return walls


def own_size(about):
    """What a trace takes that is held as plainly as can be, in bytes: 40 for an entry and 12 for a listed determinant."""
    return 40 * about["entries"] + 12 * about["listed"]


def worst(rows, value_of):
    """The greatest value, and the trace that has it."""
    return max(((value_of(row), " ".join(row.key()[:2])) for row in rows), default=(None, "no trace"))


def lists_targets(row):
    """What is asked of the trace with the most entries and the most listed determinants."""
    name = "{entries:,} entries with {listed:,} listed determinants by one worker".format(**row.about)
    seconds = LIMIT if row.full.over else row.full.best()
    return [
        target_line(f"reading and checking {name}: seconds / 2", row.read.best() / 2, 1.0),
        target_line("judging them too: seconds / 2", seconds / 2, 1.0, row.full.over),
        target_line("reading and checking / Python's JSON reader", ratio(row.read, row.python), READ_AIM),
    ]


def targets(rows):
    lines = ["| Target | At most | Measured | Met |", "|---|---|---|---|"]
    row = next((row for row in rows if row.key() == ("lists safe", "1", "1") and row.full), None)
    lines += lists_targets(row) if row else ["| not run | | | no |"]
    compared = [row for row in rows if row.read and row.kit]
    for row in compared:
        if (row.about["variant"], row.about["f_word"]) != ("safe", "1"):
            continue
        name = f"reading and checking `{row.key()[0]}` / the kit's JSON reader"
        lines.append(target_line(name, ratio_in_turn(row.read, row.kit), READ_AIM))
    value, trace = worst(compared, lambda row: ratio_in_turn(row.read, row.kit))
    lines.append(target_line(f"the same at worst, of all rows: `{trace}`", value, READ_AIM))
    # a fault keeps no trace
    kept = [row for row in compared if row.about["status"] != 2]
    value, trace = worst(kept, lambda row: (row.read.peak - row.kit.peak) * 1e3 / own_size(row.about))
    lines.append(target_line(f"memory beyond the kit's JSON reader's / the trace's own size, at worst: `{trace}`", value, 2.0))
    return lines + audit_targets(kept) + hostile_targets(rows)


def whole(row):
    """How long the whole audit takes, as a ratio to the kit's JSON reader on the same text."""
    return ratio_in_turn(row.full, row.kit)


def audit_targets(rows):
    """What is asked of the whole audit, friendly traces and hostile ones alike."""
    full = [row for row in rows if lists_many(row.about)]
    lean = [row for row in rows if row not in full]
    small = [row for row in rows if row.about["processes"] <= 64]
    beyond = lambda row: (row.full.peak - row.kit.peak) / 1e3
    lines = []
    for name, some, value_of, bound in (
        ("the whole audit / the kit's JSON reader, where a million determinants are listed", full, whole, FULL_AIM),
        ("the same where few are", lean, whole, LEAN_AIM),
        ("MB beyond the kit's JSON reader", rows, beyond, 100.0),
        ("the same up to 64 processes", small, beyond, 40.0),
    ):
        value, trace = worst([row for row in some if row.full], value_of)
        lines.append(target_line(f"{name}, at worst: `{trace}`", value, bound))
    return lines


def hostile_targets(rows):
    """What is asked of traces and lines that were made to be slow."""
    found = {row.key(): row for row in rows if row.full}
    lines = []
    colliding, scattered = (found.get((f"{shape} hostile", "1", "1")) for shape in ("colliding", "scattered"))
    if colliding and scattered:
        lines.append(target_line("colliding determinants / the same in a random order",
                                 ratio(colliding.full, scattered.full), 1.3, colliding.full.over))
    for shape, f in ((shape, f) for shape, some in EARLY.items() for f in some):
        row = found.get((f"{shape} hostile", f, "1"))
        if row:
            lines.append(target_line(f"`{shape} hostile` for f = {f}, told at an early instant: whole audit / reading",
                                     ratio_in_turn(row.full, row.read), EARLY_AIM, row.full.over))
    for shape in hostile.LINES:
        row = found.get((f"{shape} hostile", "1", "1"))
        if row:
            lines.append(target_line(f"`{shape}`: peak memory / the line's length",
                                     row.full.peak * 1e3 / row.about["bytes"], 30.0, row.full.over))
    return lines


HEAD = """\
# Results of the benchmark

`bench/run` makes traces and scripts, measures the program on them, and rewrites this file.
"""

AUDIT = """\
### Targets

{targets}

### Table

{about}

{table}
"""

LIKE_AUDIT = "The rows are of the traces that the section 'Audit' lists, and its columns are told there."

ABOUT = """\
{shapes}
- {variants}.
{hostile}

Every trace stands at a limit. *f* is the `--faults` of the run, for which the trace was made (`n`: as many as there are
processes). No run is safe for f = 0 in which a process crashes, so there the right answer is `exceeded`.

Each time is the best of some runs: of one worker's {turns}, in turn with *read* and *kit JSON*, and otherwise of three to five.
*wall* is told with how much longer the longest was; all other times, and the ratios, are processor seconds (the system's part
included), which the machine's other work lengthens less. A ratio to *kit JSON* is the median of the turns' own ratios: the
machine's speed changes within a minute, so the best times of two commands can come from different moments. `once` stands beside a run of more than {slow:.0f} seconds,
and `over {limit:.0f}` where it was stopped after {limit:.0f} seconds without an answer. *wall*, *processor*, *peak*, *MB/s* and *entries/s*
are of a whole run of the program. *read* is a run on the same text with a wrong number in its end line, which is read whole
and each entry checked, but not judged; *judge* is the difference. *wc -l*, *Python JSON* and *kit JSON* are the yardsticks on the same bytes: a count of the lines, and
programs that read each line to a value by Python's `json` and by the kit's `serde_json`, and drop it. A trace's own size is
40 bytes an entry and 12 a listed determinant; what the kit's reader takes is the program and the longest line's value.
*wall / last* is against the table that stood here before, if that was of a machine of this kind. MB are 10^6 bytes."""


def table_of(rows, before):
    made = [(row, columns(row, before)) for row in rows if row.full]
    if not made:
        return "No row was measured."
    names = list(made[0][1])
    lines = ["| " + " | ".join(names) + " |", "|" + "---|" * len(names)]
    lines += ["| " + " | ".join(cells.values()) + " |" for _, cells in made]
    missing = [row for row in rows if not row.full]
    if missing:
        lines.append("")
        lines.append("Not run, for want of time: " + "; ".join(" ".join(row.key()) for row in missing) + ".")
    wrong = [f"- {' '.join(row.key())}: {text}" for row in rows for text in row.wrong]
    if wrong:
        lines += ["", "Wrong answers:", "", *wrong]
    return "\n".join(lines)


def about_audit():
    """What the rows and the columns are."""
    return ABOUT.format(
        shapes="\n".join(f"- `{name}`: {text}." for name, text in generate.SHAPES.items()),
        variants="; ".join(f"`{name}`: {text}" for name, text in generate.VARIANTS.items()),
        hostile="\n".join(f"- `{name} hostile`: {text}." for name, text in {**hostile.SHAPES, **hostile.LINES}.items()),
        turns=TURNS,
        slow=SLOW,
        limit=LIMIT,
    )


def measure_audit(given, start, part):
    """The section on the audit by a part's rows, and what was answered wrongly."""
    rows = AUDITS[part]()
    abouts = make_inputs(rows, given.seed)
    rows = [Row(abouts[row[:3]], row[3]) for row in rows]
    for row in rows:
        if time.monotonic() - start < given.seconds:
            text = (row.about["shape"], row.about["variant"], row.about["f_word"])
            measure_row(row, given.program, path_of(text))
            print(*row.key(), row.full.told(), *row.wrong, file=sys.stderr, flush=True)
    about = about_audit() if part == "audit" else LIKE_AUDIT
    text = AUDIT.format(targets="\n".join(targets(rows)), about=about, table=table_of(rows, earlier_walls(machine())))
    return text, [line for row in rows for line in row.wrong]


def facts_of(part, given, load, start):
    facts = {
        "Date": time.strftime("%Y-%m-%d %H:%M UTC", time.gmtime()),
        "Machine": machine(),
        "Toolchain": output_of(["rt", "version"], "no command rt"),
        "Program": "commit " + (given.commit or commit()),
        "Yardsticks": f"`wc`, Python {platform.python_version()}"
        + (", the kit's `serde_json`" if os.path.exists(KIT_JSON) else "; the one over the kit's `serde_json` was not built"),
        "Load": f"{load:.1f} processes ran in the minute before the first run, this benchmark's aside",
        "Seed": given.seed,
        "Time taken": f"{time.monotonic() - start:.0f} s",
    }
    if part not in AUDITS:
        del facts["Yardsticks"]
    if part not in (*AUDITS, "shown", "reading"):
        del facts["Seed"]
    return "\n".join(f"- {name}: {value}" for name, value in facts.items())


def sections_there():
    """The sections of the results that are there, by their names."""
    try:
        with open(RESULTS) as file:
            _, *parts = re.split(r"^## ", file.read(), flags=re.MULTILINE)
    except OSError:
        return {}
    return {name: text.strip("\n") for name, text in (part.split("\n", 1) for part in parts)}


def earlier(name):
    """The section that is there, if it is of such a machine."""
    text = sections_there().get(name, "")
    return text if f"- Machine: {machine()}\n" in text else ""


AUDITS = {"audit": plan, "faults": plan_of_faults, "stable": plan_of_stable, "hostile": plan_of_hostile}
SECTIONS = {
    "runtime": "Runtime",
    "log": "The runtime's log",
    "audit": "Audit",
    "faults": "Audit for other numbers of faults",
    "stable": "Audit where each determinant is stable at once",
    "hostile": "Audit of hostile traces for other numbers of faults",
    "shown": "Why a verdict is so",
    "reading": "Reading by several workers",
}
MEASURES = {
    "runtime": lambda given, start: measure_runtime(given, earlier("Runtime")),
    "log": lambda given, start: runtime_log.section(),
    **{part: lambda given, start, part=part: measure_audit(given, start, part) for part in AUDITS},
    "shown": lambda given, start: measure_shown(given, earlier("Why a verdict is so")),
    "reading": lambda given, start: measure_reading(given),
}


def words():
    words = argparse.ArgumentParser(description=__doc__.split("\n")[0])
    words.add_argument("--program", default=os.path.join(TOP, "crates/causal_tool/out/causal_tool"))
    words.add_argument("--only", choices=SECTIONS, help="one part; the other's results stay as they are")
    words.add_argument("--seed", type=int, default=1)
    words.add_argument("--seconds", type=float, default=1000,
                       help="no row of a section of the audit is begun after so many seconds of it (1000)")
    words.add_argument("--core-seconds", type=int, default=2, help="how long a core delivers at most (2)")
    words.add_argument("--part", type=int, default=1, help="scripts and calls of the runtime are divided by this (1)")
    words.add_argument("--long", action="store_true", help="for `reading`: runs of four million entries too")
    words.add_argument("--commit", help="the commit of the program, if it is not the one that is checked out")
    words.add_argument("--out", default=RESULTS, help="the file to write, if it is not RESULTS.md")
    return words.parse_args()


def main():
    given = words()
    sections, wrong = sections_there(), []
    for part, name in SECTIONS.items():
        if given.only in (None, part):
            began, load = time.monotonic(), os.getloadavg()[0]
            text, found = MEASURES[part](given, began)
            sections[name] = facts_of(part, given, load, began) + "\n\n" + text.strip("\n")
            wrong += found
    # Behind its own sections stand those that other scripts write.
    names = sorted(sections, key=lambda name: list(SECTIONS.values()).index(name) if name in SECTIONS.values() else len(SECTIONS))
    written = HEAD + "".join(f"\n## {name}\n\n{sections[name].strip()}\n" for name in names)
    with open(given.out, "w") as file:
        file.write(written)
    print(written)
    return 1 if wrong else 0


if __name__ == "__main__":
    sys.exit(main())
