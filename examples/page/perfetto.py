#!/usr/bin/env python3
"""Writes a trace on standard input as Chrome trace events for ui.perfetto.dev: a track for each process, an arrow for each delivery.
    examples/page/perfetto.py < run.jsonl > run.json"""
import json
import sys

events, down, sender = [], {}, {}
for at, line in enumerate(map(json.loads, sys.stdin), -1):
    word, process = line[0], line[1] if line[0] != "stable" else line[1][2]
    if word == "trace":
        events += [{"ph": "M", "name": "thread_name", "pid": 1, "tid": p, "args": {"name": f"process {p}"}} for p in range(line[2])]
    elif word != "end":
        here = {"pid": 1, "tid": process, "ts": 10 * at}
        events.append({"ph": "X", "dur": 8, "name": word, "args": {"line": at + 2, "entry": line}, **here})
        if word == "send":
            sender[at] = {**here, "ts": here["ts"] + 4}
        elif word == "deliver":
            arrow = {"cat": "message", "name": "message", "id": at}
            events += [{"ph": "s", **arrow, **sender[line[2]]}, {"ph": "f", "bp": "e", **arrow, **here, "ts": here["ts"] + 4}]
        elif word == "crash":
            down[process] = {**here, "ts": here["ts"] + 9}
        elif word == "restart":
            events.append({"ph": "X", "name": "down", **down[process], "dur": here["ts"] - down[process]["ts"] - 1})
json.dump({"traceEvents": events}, sys.stdout)
