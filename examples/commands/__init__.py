"""What the built program answers to rows worked out by hand: each command, to the byte. examples/check.py runs them."""
import concurrent.futures
import os

import merge_model
import pictures as painter
import replays as follower
import scripts as runtime
import traces as auditor

from . import breaches, faults, files, helps, maps, merges, pictures, reasons, replays, scripts, verdicts
from .row import difference

MODULES = (verdicts, breaches, faults, reasons, pictures, replays, scripts, merges, maps, files, helps)
SHORT = 300_000  # bytes of a text that a plain model reads in no time


def all_rows():
    return [(module.__name__, row) for module in MODULES for row in module.rows()]


def told(kind, name, row, differs):
    """Prints a row that is answered otherwise."""
    print(f"{name}, {row.name}: {' '.join(row.words)}: {kind} {differs}")


def wrong_rows(program):
    """Tells each row that the program answers otherwise, and gives how many rows there are and how many are wrong."""
    rows, wrong = all_rows(), 0
    with concurrent.futures.ThreadPoolExecutor(os.cpu_count()) as pool:
        for (name, row), differs in zip(rows, pool.map(lambda named: difference(program, named[1]), rows)):
            if differs:
                wrong += 1
                told("the program:", name, row, differs)
    return len(rows), wrong


def merged(text):
    """What the plain model of `merge` answers."""
    try:
        n, _, entries, _ = merge_model.merged(text)
    except merge_model.Fault as fault:
        return 2, f"fault line={fault.line} {fault.kind}\n"
    return 0, merge_model.spell(n, entries)


def picture_answer(row):
    """What a row compares of the picture by the plain model. A row of a whole picture is made by it."""
    if row.status > 1 or row.seen is bytes.decode:
        return None
    answer, status = auditor.audited(row.text, int(row.words[2]))
    return status, row.seen(painter.picture_of(row.words, row.text, answer).encode())


def modelled(row):
    """What a plain model answers to a row, where there is one."""
    if row.words[0] == "draw":
        return picture_answer(row)
    if row.files is not None or row.made is not None or len(row.text) > SHORT or row.seen is not bytes.decode or {"--entries", "--json"} & set(row.words):
        return None
    if row.words[0] == "audit":
        answered = auditor.audited_until_breach if {"--until-breach", "--until-breach=live"} & set(row.words) else auditor.audited
        line, status = answered(row.text, int(row.words[2]))
        return status, line + "\n"
    if row.words == ("replays",):
        line, status = follower.followed(row.text)
        return status, line + "\n"
    if row.words[0] == "run":
        return runtime.ran(row.text)[::-1]
    if row.words == ("merge",):
        return merged(row.text)
    return None


def wrong_by_models():
    """The same of the plain models of the auditor, of pictures, of the runtime and of `merge`."""
    asked = [(name, row, modelled(row)) for name, row in all_rows()]
    wrong = [(name, row, got) for name, row, got in asked if got not in (None, (row.status, row.out))]
    for name, row, got in wrong:
        told("the model:", name, row, f"wanted {(row.status, row.out)!r}, it gives {got!r}")
    return sum(got is not None for _, _, got in asked), len(wrong)
