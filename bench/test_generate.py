#!/usr/bin/env python3
"""Tests of the generators: small traces of every shape are read again and judged by the plain reader.

    python3 bench/test_generate.py
"""
import json
import unittest

import generate
import hostile
from reader import answered

PART = 128


class Generated(unittest.TestCase):
    def one(self, shape, variant, f):
        with self.subTest(shape=shape, variant=variant, f=f):
            text, about = generate.make(shape, variant, f, PART)
            reader, answer = answered(text, about["f"])
            self.assertEqual(answer, about["answer"])
            self.assertEqual(reader.listed, about["listed"])
            self.assertEqual(len(reader.entries), generate.MAX_ENTRIES // PART)
            if shape in ("lists", "long", "bytes"):
                self.assertEqual(reader.listed, generate.MAX_LISTED // PART)
            if shape == "bytes":
                self.assertEqual(len(text), generate.MAX_BYTES // PART)
            if shape == "restarts":
                self.assertEqual(reader.restarts, generate.MAX_RESTARTS // PART)

    def test_every_shape(self):
        for shape in generate.SHAPES:
            if shape == "line":
                continue
            for variant in generate.VARIANTS:
                for f in ("0", "1", "3", "n"):
                    self.one(shape, variant, f)

    def test_hostile_shapes(self):
        for shape in hostile.SHAPES:
            for f in ("0", "1", "2", "8", "n"):
                with self.subTest(shape=shape, f=f):
                    text, about = hostile.make(shape, f, PART)
                    reader, answer = answered(text, about["f"])
                    self.assertEqual(answer, about["answer"])
                    self.assertEqual(reader.listed, about["listed"])
                    self.assertEqual(len(reader.entries), about["entries"])

    def test_hostile_lines(self):
        for shape in hostile.ONE_LINE:
            text, about = hostile.make(shape, "1", PART)
            self.assertLessEqual(len(text), generate.MAX_BYTES // PART)
            self.assertGreater(len(text), generate.MAX_BYTES // PART - 600)
            self.assertIsInstance(json.loads(text), list)

    def test_short_lines(self):
        text, about = hostile.make("short lines", "1", PART)
        self.assertLessEqual(len(text), generate.MAX_BYTES // PART)
        lines = text.splitlines()
        entries = [tuple(json.loads(line)) for line in lines[1:] if line.startswith('["send"')]
        self.assertEqual(entries, [("send", 0, 1, number) for number in range(hostile.BEFORE)])
        self.assertEqual(about["answer"], f"fault line={len(entries) + 2} Form")
        self.assertTrue(all(hostile.SHORT - 16 < len(line) <= hostile.SHORT for line in lines[len(entries) + 1 :]))

    def test_one_line(self):
        text, about = generate.make("line", "safe", "1", PART)
        header, send, deliver, end = (json.loads(line) for line in text.splitlines())
        self.assertEqual(len(deliver[4]), generate.MAX_LISTED // PART)
        self.assertTrue(all(a < b for a, b in zip(deliver[4], deliver[4][1:])))
        self.assertNotIn(deliver[4][0], [[0, 0, 1, 0]])

    def test_same_seed_same_bytes(self):
        make = lambda seed: generate.make("gossip", "safe", "1", PART, seed)[0]
        self.assertEqual(make(7), make(7))
        self.assertNotEqual(make(7), make(8))


if __name__ == "__main__":
    unittest.main()
