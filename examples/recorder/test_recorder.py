#!/usr/bin/env python3
"""Tests recorder.py: what it writes and reads back, worked out by hand from docs/RECORDING.md, with a clock of the machine that is set.

    python3 examples/recorder/test_recorder.py
"""
import os
import sys
import tempfile
import unittest
from unittest import mock

HERE = os.path.dirname(os.path.abspath(__file__))
sys.path.insert(0, HERE)
sys.path.insert(0, os.path.join(os.path.dirname(os.path.dirname(HERE)), "trials"))
import merge_model  # noqa: E402
import recorder  # noqa: E402

TRACE = """["trace",2,2]
["send",0,1,0]
["deliver",1,0,0,[[0,0,1,0]]]
["stable",[0,0,1,0]]
["forget",1,[[0,0,1,0]]]
["send",1,0,0]
["crash",1]
["restart",1,[[0,0,1,0]]]
["deliver",1,0,0,[[0,0,1,0]]]
["end",8]
"""


class Recordings(unittest.TestCase):
    def setUp(self):
        self.folder = tempfile.TemporaryDirectory()
        self.addCleanup(self.folder.cleanup)
        self.at(1000)

    def at(self, microseconds):
        stopped = mock.patch("recorder.time.time_ns", return_value=microseconds * 1000)
        stopped.start()
        self.addCleanup(stopped.stop)

    def path(self, process):
        return os.path.join(self.folder.name, f"{process}.log")

    def open(self, process):
        opened = recorder.Recorder(process, 2, self.path(process), 7)
        self.addCleanup(opened.close)
        return opened

    def bytes_of(self, process):
        with open(self.path(process), "rb") as file:
            return file.read()

    def test_the_clock_ascends_though_the_machine_stands_still_or_falls_back(self):
        first = self.open(0)
        self.assertEqual((first.send(1), first.send(1)), ((0, 0, 1000), (0, 1, 1001)))
        self.at(500)
        self.assertEqual(first.now(), 1002)
        first.take_in(2000)
        self.assertEqual(first.send(1), (0, 2, 2001))
        header, lines = '\n["recording",0,1,2,7]\n', '["send",0,1000,1,0]\n["send",0,1001,1,1]\n["send",0,2001,1,2]\n'
        self.assertEqual(self.bytes_of(0).decode(), header + lines)

    def test_a_delivery_lists_its_own_determinant_in_order(self):
        first = self.open(1)
        self.assertEqual(first.deliver(0, 0, 3, 1500, [(1, 0, 0, 0), (0, 2, 0, 1)]), (0, 3, 1, 0))
        self.assertIn(b'["deliver",1,1501,0,0,3,0,[[0,2,0,1],[0,3,1,0],[1,0,0,0]]]\n', self.bytes_of(1))

    def test_an_opening_goes_on_behind_what_stands_there_though_its_end_was_cut(self):
        first = self.open(0)
        first.send(1)
        first.crash()
        first.restart([])
        first.send(1)
        with open(self.path(0), "ab") as file:
            file.write(b'["send",0,99')
        second = self.open(0)
        self.assertEqual((second.began, second.incarnation, second.clock, second.down), (True, 1, 1003, False))
        second.crash()
        self.assertTrue(self.bytes_of(0).endswith(b'["send",0,99\n["recording",0,1,2,7]\n["crash",0,1004]\n'))

    def test_a_crash_is_written_once_by_whoever_comes_first(self):
        self.open(0).send(1)
        self.open(0).crash()
        third = self.open(0)
        third.crash()
        third.restart([])
        self.assertEqual(third.send(1)[:2], (1, 0))
        self.assertEqual(self.bytes_of(0).count(b'"crash"'), 1)

    def test_an_opening_ends_a_line_that_only_lost_its_line_feed(self):
        self.open(1)
        first = self.open(0)
        first.send(1)
        first.crash()
        os.truncate(self.path(0), len(self.bytes_of(0)) - 1)
        second = self.open(0)
        self.assertTrue(second.down)
        self.assertTrue(self.bytes_of(0).endswith(b'\n["crash",0,1001]\n["recording",0,1,2,7]\n'))
        n, _, entries, torn = merge_model.merged(self.bytes_of(0) + self.bytes_of(1))
        self.assertEqual((n, entries, torn), (2, [["send", 0, 1, 0], ["crash", 0]], []))

    def test_a_whole_line_that_runs_into_the_next_is_no_torn_line(self):
        first = self.open(0)
        first.send(1)
        first.crash()
        whole = self.bytes_of(0)
        for rest in (b"[", b'["', b'["recording",0,1', b'["recording",0,1,2,7]\n'):
            with self.assertRaises(merge_model.Fault) as refused:
                merge_model.merged(whole[:-1] + rest)
            self.assertEqual((refused.exception.line, refused.exception.kind), (whole.count(b"\n"), "Syntax"))

    def test_two_recordings_make_a_trace(self):
        sender, receiver = self.open(0), self.open(1)
        incarnation, ssn, clock = sender.send(1)
        det = receiver.deliver(0, incarnation, ssn, clock, [])
        receiver.stable(det)
        receiver.forget([det])
        receiver.send(0)
        again = self.open(1)
        again.crash()
        again.restart([det])
        again.deliver(0, incarnation, ssn, clock, [])
        n, _, entries, torn = merge_model.merged(self.bytes_of(1) + self.bytes_of(0))
        self.assertEqual((merge_model.spell(n, entries), torn), (TRACE, []))


if __name__ == "__main__":
    unittest.main()
