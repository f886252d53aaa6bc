#!/usr/bin/env python3
"""Checks that the answers in examples/rules/README.md are those of the plain model of the auditor (trials/traces.py), and with --program
of the program too, and that the two determinants that a row names survive at the instant that it names, as the first two of one slot.

    examples/rules/check.py [--program crates/causal_tool/out/causal_tool]
"""
import argparse
import json
import os
import re
import subprocess
import sys

HERE = os.path.dirname(os.path.abspath(__file__))
TOP = os.path.dirname(os.path.dirname(HERE))
sys.path.insert(0, os.path.join(TOP, "trials"))
import traces  # noqa: E402


def rows():
    """The file, the text, F, the answer and the status of each row of the table."""
    with open(os.path.join(HERE, "README.md")) as page:
        for line in page:
            cells = [cell.strip() for cell in line.strip().strip("|").split("|")]
            if len(cells) == 5 and cells[4].isdigit():
                yield cells[0].strip("`"), cells[1], int(cells[2]), cells[3].strip("`"), int(cells[4])


def first_shared_slot(text):
    """The first instant at which two determinants of one slot are in logs of processes that are up or in stable storage, and these."""
    _, *entries, _ = [json.loads(line) for line in text.decode().splitlines()]
    logs, stable = {}, set()
    for instant, entry in enumerate(entries, 1):
        dets = {tuple(det) for det in entry[-1]} if entry[0] in ("deliver", "restart", "forget") else set()
        if entry[0] == "deliver":
            logs.setdefault(entry[1], set()).update(dets)
        elif entry[0] == "restart":
            logs[entry[1]] = dets
        elif entry[0] == "crash":
            logs[entry[1]] = set()
        elif entry[0] == "forget":
            logs[entry[1]] -= dets
        elif entry[0] == "stable":
            stable.add(tuple(entry[1]))
        survivors = sorted(stable.union(*logs.values()))
        for det in survivors:
            for other in survivors:
                if det < other and det[2:] == other[2:]:
                    return instant, list(det), list(other)
    return None


def main():
    given = argparse.ArgumentParser(description=__doc__.split("\n\n")[0])
    given.add_argument("--program")
    program = given.parse_args().program
    count, wrong, met = 0, 0, set()
    for name, what, f, answer, status in rows():
        met.add(name)
        with open(os.path.join(HERE, name), "rb") as file:
            text = file.read()
        answers = {"model": traces.audited(text, f)}
        if program:
            ended = subprocess.run([program, "audit", "--faults", str(f)], input=text, capture_output=True)
            answers["program"] = ended.stdout.decode().rstrip("\n"), ended.returncode
        for who, said in answers.items():
            count += 1
            if said != (answer, status):
                wrong += 1
                print(f"{name} for {f}: the table has {answer!r}, the {who} says {said!r}")
        told = re.search(r"At instant (\d+) `(\[.*?\])` and `(\[.*?\])` survive", what)
        wanted = told and (int(told[1]), json.loads(told[2]), json.loads(told[3]))
        count += 1
        if first_shared_slot(text) != wanted or (name.endswith("-slot.jsonl") and not wanted):
            wrong += 1
            print(f"{name}: the table has {wanted}, the slots are {first_shared_slot(text)}")
    unmet = {name for name in os.listdir(HERE) if name.endswith(".jsonl")} ^ met
    if unmet:
        wrong += len(unmet)
        print(f"no row, or no trace, for {', '.join(sorted(unmet))}")
    print(f"rules: {count} answers, {wrong} wrong")
    sys.exit(1 if wrong or not count else 0)


if __name__ == "__main__":
    main()
