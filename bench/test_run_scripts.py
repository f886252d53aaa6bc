#!/usr/bin/env python3
"""Tests of the scripts: small ones of every kind are run command by command, by code that shares nothing with their generator
or with the product. Which determinants are listed is not told, so of a replay only that it repeats the deliveries before.

    python3 bench/test_run_scripts.py
"""
import re
import unittest

import generate
import run_scripts

PART = 64


class Process:
    """One incarnation, with what it sent as receiver and body, and the names of what it received."""

    def __init__(self, kind, n, me, param):
        self.kind, self.n, self.me, self.total = kind, n, me, 0
        self.sent = []
        self.received = []
        if kind == "tally" and me:
            self.sent.append((0, bytes([me])))
        if kind == "ring" and me == 0:
            self.sent.append((1 % n, bytes([param])))
        if kind == "echo":
            partner = me + 1 if me % 2 == 0 else me - 1
            if partner < n:
                self.sent.append((partner, bytes([param])))

    def take(self, source, body):
        if self.kind == "tally":
            if self.me == 0:
                self.total = (self.total + body[0]) % 2**64
                self.sent.append((source, self.total.to_bytes(8, "big")))
        elif body[0]:
            to = source if self.kind == "echo" else (self.me + 1) % self.n
            self.sent.append((to, bytes([body[0] - 1])))


class Run:
    def __init__(self, start, limit):
        word, kind, n, f, *param = start.split(" ")
        assert word == "start" and len(param) == (kind != "tally")
        self.n, self.f, self.limit = int(n), int(f), limit
        self.fresh = lambda p: Process(kind, self.n, p, int(param[0]) if param else 0)
        self.up = [self.fresh(p) for p in range(self.n)]
        self.past = [[] for _ in range(self.n)]
        self.stable = [0] * self.n
        self.kept = [0] * self.n
        self.entries = sum(len(each.sent) for each in self.up)
        self.deliveries = self.restarts = 0

    def do(self, line):
        word, *numbers = line.split(" ")
        getattr(self, word)(*map(int, numbers))
        assert self.entries <= self.limit

    def deliver(self, q, p, number):
        receiver, sender = self.up[q], self.up[p]
        to, body = sender.sent[number]
        assert to == q and (p, number) not in receiver.received and self.entries + 9 <= self.limit
        place = len(receiver.received)
        assert self.past[q][place : place + 1] in ([], [(p, number)]), "another is to be replayed"
        receiver.received.append((p, number))
        before = len(receiver.sent)
        receiver.take(p, body)
        self.entries += 1 + len(receiver.sent) - before
        self.deliveries += 1

    def crash(self, p):
        assert self.up[p] is not None and self.up.count(None) < self.f
        if len(self.up[p].received) > len(self.past[p]):
            self.past[p] = self.up[p].received
        self.up[p] = None
        self.entries += 1

    def restart(self, p):
        assert self.up[p] is None and self.entries + 9 <= self.limit
        self.up[p] = self.fresh(p)
        self.entries += 1 + len(self.up[p].sent)
        self.restarts += 1

    def flush(self, p):
        """What the process delivered and did not flush before: it logs nothing else, where none may fail."""
        assert self.up[p] is not None and self.f == 0
        new = len(self.up[p].received) - self.stable[p]
        self.stable[p] += new
        self.kept[p] += new
        self.entries += new

    def forget(self, p):
        self.entries += self.kept[p] > 0
        self.kept[p] = 0


class Scripts(unittest.TestCase):
    def check(self, script, part):
        text, about = run_scripts.make(script, part)
        first, *commands, last = text.split("\n")
        self.assertEqual(last, "")
        self.assertLessEqual(len(text), run_scripts.MAX_SCRIPT)
        run = Run(first, generate.MAX_ENTRIES // part)
        for line in commands:
            run.do(line)
        self.assertEqual((run.entries, run.deliveries), (about["entries"], about["deliveries"]))
        self.assertEqual(about["answer"], f'["end",{run.entries}]')
        self.assertEqual((run.f, run.n, len(commands)), (about["f"], about["processes"], about["commands"]))
        return run

    def test_small_scripts(self):
        for script in run_scripts.SCRIPTS:
            with self.subTest(script=script):
                self.check(script, PART)

    def test_they_end_at_a_limit(self):
        for script in run_scripts.SCRIPTS:
            with self.subTest(script=script):
                run = self.check(script, 1)
                if run_scripts.RUNS[script][2] < 2 and script != "flushes":
                    self.assertTrue(run.restarts == generate.MAX_RESTARTS or run.entries + 10 > generate.MAX_ENTRIES)

    def test_flushes_come_near_the_limit(self):
        self.assertGreater(self.check("flushes", 1).entries, generate.MAX_ENTRIES * 9 // 10)

    def test_crashes_for_more_failures(self):
        for script, (_, _, faults, _, crashing) in run_scripts.RUNS.items():
            if faults > 1:
                with self.subTest(script=script):
                    self.assertEqual(crashing in (0, 1), self.check(script, 1).restarts > 0)

    def test_a_last_line_that_is_none(self):
        for script in run_scripts.SCRIPTS:
            text, _ = run_scripts.make(script, PART)
            self.assertEqual(run_scripts.misended(text).split("\n"), [*text.split("\n")[:-2], "x", ""])

    def test_texts_of_full_length(self):
        for script in run_scripts.TEXTS:
            text, about = run_scripts.make(script)
            self.assertEqual(len(text), 1_048_576)
            first, *commands, last, end = text.split("\n")
            self.assertEqual((first, end), ("start ring 1 0 0", ""))
            self.assertTrue(all(re.fullmatch(r"deliver 255 255 65535|flush 0", line) for line in commands))
            self.assertRegex(last, "^x+$")
            self.assertEqual(about["answer"], f"fault line={len(commands) + 2} Script")


if __name__ == "__main__":
    unittest.main()
