#!/usr/bin/env python3
"""Puts a trace and an answer about it into one HTML file, which needs nothing else: zoom, pan, the entry at the pointer, facts to click.

    ./causal_tool explain --faults 1 --json < run.jsonl > why.json
    examples/page/page.py run.jsonl why.json > run.html

The answer may be left out, or be that of any command with --json; the trace may be `-`, standard input. It has to be one that the audit
accepts as a text: of a line that is none this ends with status 2.
"""
import array
import base64
import json
import os
import re
import sys
import zlib

HERE = os.path.dirname(os.path.abspath(__file__))
KINDS = {"send": 0, "deliver": 1, "stable": 2, "crash": 3, "restart": 4, "forget": 5}
SEND = KINDS["send"]


class Columns:
    """The entries of a trace as columns of numbers: of each its kind, its process (of `stable` the receiver), what it refers to (the
    receiver of a send, the send of a delivery, the delivery of a stable determinant), its ssn or rsn, and how many determinants it lists.
    `listed` has the positions of these determinants' deliveries, entry after entry."""

    def __init__(self):
        self.kind, self.process, self.count = array.array("B"), array.array("B"), array.array("I")
        self.refers, self.number, self.listed = array.array("I"), array.array("I"), array.array("I")
        self.deliveries = {}

    def add(self, line):
        word, process = line[0], line[1]
        place, refers, number, listed = len(self.kind), 0, 0, ()
        if word == "send":
            refers, number = line[2], line[3]
        elif word == "deliver":
            refers, number, listed = line[2:5]
            if not 0 <= refers < place or self.kind[refers] != SEND:
                raise ValueError("the delivery names no earlier send")
            self.deliveries[self.process[refers], self.number[refers], process, number] = place
        elif word == "stable":
            process, refers = line[1][2], self.deliveries[tuple(line[1])]
        elif word != "crash":
            listed = line[2]
        self.kind.append(KINDS[word])
        self.process.append(process)
        self.refers.append(refers)
        self.number.append(number)
        self.count.append(len(listed))
        self.listed.extend([self.deliveries[tuple(det)] for det in listed])

    def packed(self):
        columns = (self.refers, self.number, self.count, self.listed, self.kind, self.process)
        if sys.byteorder == "big":
            for column in columns:
                column.byteswap()
        return base64.b64encode(zlib.compress(b"".join(column.tobytes() for column in columns), 6)).decode()


def read(lines):
    """The number of processes and the columns of a trace's lines; ends with the number of the first line that can't be shown."""
    columns, processes, at = Columns(), 0, 0
    try:
        for at, text in enumerate(lines, 1):
            line = json.loads(text)
            if (at == 1) != (line[0] == "trace"):
                raise ValueError("line 1, and no other, is the header")
            if at == 1:
                processes = line[2]
            elif line[0] == "end":
                return processes, columns
            else:
                columns.add(line)
    except (ValueError, KeyError, IndexError, TypeError, OverflowError) as wrong:
        sys.exit(complain(f"line {at} is no line of a trace: {wrong!r}"))
    sys.exit(complain(f"the text ends after line {at}, without an end line"))


def complain(what):
    print(f"page.py: {what}; `causal_tool audit` names the first error of a text", file=sys.stderr)
    return 2


def contents(name):
    with open(os.path.join(HERE, name), encoding="utf-8") as file:
        return file.read()


def page(title, processes, columns, answer):
    """The page. A `<` of what stands in it as data is written so that it never ends the element around it."""
    data = {"title": title, "processes": processes, "entries": len(columns.kind), "listed": len(columns.listed), "answer": answer}
    filled = {"data": json.dumps(data).replace("<", "\\u003c"), "columns": columns.packed(), "script": contents("page.js")}
    return re.sub(r"\{\{(\w+)\}\}", lambda name: filled[name[1]], contents("page.html"))


def main(arguments):
    if len(arguments) not in (1, 2):
        print(__doc__, file=sys.stderr)
        return 3
    trace, answers, answer = arguments[0], arguments[1:], None
    try:
        with sys.stdin if trace == "-" else open(trace, encoding="utf-8") as lines:
            processes, columns = read(lines)
        for name in answers:
            with open(name, encoding="utf-8") as file:
                answer = json.load(file)
    except OSError as wrong:
        print(f"page.py: {wrong}", file=sys.stderr)
        return 4
    except ValueError as wrong:
        print(f"page.py: {answers[0]} is no answer of a command with --json: {wrong}", file=sys.stderr)
        return 2
    sys.stdout.write(page(os.path.basename(trace), processes, columns, answer))
    return 0


if __name__ == "__main__":
    sys.exit(main(sys.argv[1:]))
