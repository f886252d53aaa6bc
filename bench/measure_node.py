#!/usr/bin/env python3
"""Measures a delivery of a node by the C library (node_calls.c), beside the same in plain Rust (node_plain.rs) and on a core (`runtime/`),
and one of a node that never sends; the memory of the names of received messages; and the reading of hostile parcels. It prints a section
of RESULTS.md, and puts it there if it is told to.

    bench/measure_node.py [--library bindings/out] [--core bench/out/runtime_bench] [--write]
"""
import argparse
import os
import re
import subprocess
import sys
import tempfile
import time

HERE = os.path.dirname(os.path.abspath(__file__))
TOP = os.path.dirname(HERE)
sys.path.insert(0, os.path.join(TOP, "bindings"))
from release import facts_of  # noqa: E402

RESULTS = os.path.join(HERE, "RESULTS.md")
NAME = "A node by the library"
CARRIED = (0, 1, 7, 15)
OPEN = (1_024, 4_096, 16_384, 32_768)
APART = (1, 2, 8, 64)
WRONG = ("whole", "cut", "unsorted", "trailing", "count")
MANY = (4_096, 16_384, 65_536)
NAMES = 65_536
RUNS = 5
BODY = 100


def built(library, folder):
    calls, plain = os.path.join(folder, "node_calls"), os.path.join(folder, "node_plain")
    archive, include = os.path.join(library, "lib", "libnixu.a"), os.path.join(library, "include")
    subprocess.run(["cc", "-std=c99", "-O2", "-I", include, os.path.join(HERE, "node_calls.c"), archive, "-o", calls], check=True)
    subprocess.run(["rustc", "-O", "--edition", "2021", "-o", plain, os.path.join(HERE, "node_plain.rs")], check=True)
    return calls, plain


def numbers(words):
    return list(map(int, subprocess.run(words, capture_output=True, text=True, check=True).stdout.split()))


def row(calls, plain, core, carried, folder):
    """The least of some runs, in turn."""
    path, word = os.path.join(folder, "parcels"), str(carried)
    runs = [numbers([calls, word, path]) + numbers([plain, path]) + numbers([core, "relay", word]) for _ in range(RUNS)]
    length, copy, delivery, line, send, plainly, of_core = map(min, zip(*runs))
    each = f"{(length - 40 - BODY) / carried:.0f}" if carried else ""
    return (f"| {carried + 1} | {length} | {each} | {copy} | {delivery:,} | {plainly:,} | {delivery / plainly:.2f} | {of_core:,} "
            f"| {delivery / of_core:.2f} | {line:,} | {send:,} |")


def open_row(calls, count):
    delivery, first, pair = map(min, zip(*(numbers([calls, "open", str(count)]) for _ in range(RUNS))))
    return f"| {count:,} | {delivery:,} | {first / 1e6:.2f} | {pair / 1e6:.2f} |"


def names_row(calls, apart):
    each = subprocess.run([calls, "names", str(apart), str(NAMES)], capture_output=True, text=True, check=True).stdout.strip()
    return f"| {apart} | {each} |"


def is_proved(core):
    """Whether bench/run has built the program: it proves what it builds, and then writes a file beside it."""
    beside = core + ".sources"
    return os.path.exists(beside) and os.path.getmtime(beside) >= os.path.getmtime(core)


def hostile_row(calls, count):
    """Nanoseconds for each byte of a message that carries so many determinants, whole and wrong at its end."""
    each = []
    for kind in WRONG:
        length, took = numbers([calls, "hostile", kind, str(count)])
        each.append(f"{took / length:.2f}")
    return f"| {count:,} | " + " | ".join(each) + " |"


def section(library, core):
    with tempfile.TemporaryDirectory() as folder:
        calls, plain = built(library, folder)
        rows = [row(calls, plain, core, carried, folder) for carried in CARRIED]
        open_rows = [open_row(calls, count) for count in OPEN]
        names_rows = [names_row(calls, apart) for apart in APART]
        hostile_rows = [hostile_row(calls, count) for count in MANY]
    facts = facts_of(library)
    return "\n".join([
        f"## {NAME}",
        "",
        f"- Date: {time.strftime('%Y-%m-%d %H:%M', time.gmtime())} UTC",
        f"- Program: commit {facts['commit']}",
        f"- Load: {os.getloadavg()[0]:.1f} processes",
        "",
        "A delivery of a message of 100 bytes by `nixu_node_receive` (`bench/measure_node.py`); what it carries is new. Nanoseconds of processor",
        f"time, the least of {RUNS} runs. *plain*: the same with maps in plain Rust. *core*: a delivery of the same message on the runtime's core",
        f"(`runtime_bench relay`), in a program that is built {'with' if is_proved(core) else 'without'} proof. *line*: `nixu_node_line`. *send*:",
        "`nixu_node_send` and its parcel. The targets are 3,000 beyond copying, 1.5 times the core's delivery, and 24 bytes for each determinant",
        "that is carried.",
        *(["The library is built without proof."] if facts["proved"] != "yes" else []),
        "",
        "| listed | bytes | for each carried | copying | delivery | plain | delivery / plain | core | delivery / core | line | send |",
        "|---|---|---|---|---|---|---|---|---|---|---|",
        *rows,
        "",
        "A node that receives so many messages, and neither sends nor stores: all their determinants stay open. *delivery*: nanoseconds for",
        "each. *first send*: milliseconds of the next `nixu_node_send`; *pair*: of a delivery and a send after it, whose message carries all.",
        "",
        "| open | delivery | first send | pair |",
        "|---|---|---|---|",
        *open_rows,
        "",
        f"A node that receives {NAMES:,} messages of one process and stores and forgets all: bytes of heap for each. *apart*: how far their",
        "numbers are apart. 64 is the worst order; a list of the names, which is counted too, takes 8 to 16.",
        "",
        "| apart | bytes |",
        "|---|---|",
        *names_rows,
        "",
        "A message that carries so many determinants: nanoseconds of `nixu_node_receive` for each of its bytes, the least of 20. *whole* is",
        "delivered. The others are refused at their end: *cut* lacks a byte, *unsorted* has a determinant twice, *trailing* has a byte more,",
        "*count* claims 4,294,967,295 determinants.",
        "",
        "| carried | " + " | ".join(WRONG) + " |",
        "|" + "---|" * (len(WRONG) + 1),
        *hostile_rows,
        "",
    ])


def put(made):
    with open(RESULTS) as file:
        text = file.read()
    before, _, behind = text.partition(f"## {NAME}\n")
    after = re.search(r"^## ", behind, re.M)
    with open(RESULTS, "w") as file:
        file.write(before.rstrip("\n") + "\n\n" + made + (f"\n{behind[after.start():]}" if after else ""))


def main():
    given = argparse.ArgumentParser(description=__doc__.split("\n\n")[0])
    given.add_argument("--library", default=os.path.join(TOP, "bindings", "out"), help="the folder that bindings/build wrote")
    given.add_argument("--core", default=os.path.join(HERE, "out", "runtime_bench"), help="the program over the runtime that bench/run built")
    given.add_argument("--write", action="store_true", help="put the section into RESULTS.md")
    words = given.parse_args()
    if words.write and facts_of(words.library)["proved"] != "yes":
        sys.exit(f"bench/measure_node.py: {words.library} is built without proof, and slower; bindings/build proves it")
    if not os.path.exists(words.core):
        sys.exit(f"bench/measure_node.py: there is no {words.core}; bench/run --only runtime builds it")
    made = section(os.path.abspath(words.library), os.path.abspath(words.core))
    print(made)
    if words.write:
        put(made)


if __name__ == "__main__":
    main()
