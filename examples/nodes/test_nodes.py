#!/usr/bin/env python3
"""Tests of the service's parts: what stores keep when they are killed or damaged, what a recording's opening reads back, and what the
service's own check finds. Expected values are worked out by hand.

    examples/nodes/test_nodes.py [--kills 30]
"""
import base64
import json
import os
import random
import sqlite3
import subprocess
import sys
import tempfile
import time
import unittest

HERE = os.path.dirname(os.path.abspath(__file__))
sys.path[:0] = [HERE, os.path.join(HERE, "..", "..", "bindings", "python")]
from links import Links  # noqa: E402
from recording import Recording  # noqa: E402
from service import Dispatcher, Ledger, Worker, faults_in  # noqa: E402
from stores import Damaged, JetStream, Sqlite  # noqa: E402

KILLS = int(sys.argv.pop()) if "--kills" in sys.argv and sys.argv.remove("--kills") is None else 10


def put_without_end(path):
    """Commits of two rows each; the number of each commit is printed once it is confirmed."""
    store = Sqlite(path)
    for k in range(1_000_000):
        store.put([(0, 0, [[0, 2 * k, 1, 2 * k, 1], [0, 2 * k + 1, 1, 2 * k + 1, 1]])])
        os.write(1, b"%d\n" % k)


class Folder(unittest.TestCase):
    def setUp(self):
        folder = tempfile.TemporaryDirectory()
        self.addCleanup(folder.cleanup)
        self.path = os.path.join(folder.name, "file")


class Stores(Folder):
    def rows_of(self, store, view=(0, 0)):
        return {tuple(row[:4]) for row in store.read(view)}

    def test_what_a_commit_has_confirmed_is_found_after_a_kill(self):
        found = 0
        for _ in range(KILLS):
            with subprocess.Popen([sys.executable, __file__, "--put", self.path], stdout=subprocess.PIPE) as child:
                lines = [child.stdout.readline() for _ in range(random.randrange(1, 20))]
                child.kill()
                lines += child.stdout.read().splitlines()
            rows = self.rows_of(Sqlite(self.path))
            for k in range(int(lines[-1]) + 1):
                self.assertLessEqual({(0, 2 * k, 1, 2 * k), (0, 2 * k + 1, 1, 2 * k + 1)}, rows)
            self.assertEqual(len(rows) % 2, 0)  # a commit is there or not
            found = max(found, len(rows))
        self.assertGreater(found, 2)

    def test_a_changed_byte_never_makes_another_determinant(self):
        result = {"all": 0, "fewer": 0, "reported": 0}
        rows = {(p, i, 3, 1000 * p + i) for p in range(3) for i in range(200)}
        for seed in range(150):
            path = f"{self.path}{seed}"
            store = Sqlite(path)
            store.put([(0, 0, [[*row, 1764118000000000 + i] for i, row in enumerate(sorted(rows))])])
            if seed % 2:
                store.db.execute("PRAGMA wal_checkpoint(TRUNCATE)")
            harmed = path if seed % 2 else path + "-wal"
            with open(harmed, "rb") as file:
                data = bytearray(file.read())
            store.db.close()
            rng = random.Random(seed)
            data[rng.randrange(len(data))] ^= 1 << rng.randrange(8)
            with open(harmed, "wb") as file:
                file.write(data)
            try:
                read = self.rows_of(Sqlite(path))
            except (Damaged, sqlite3.Error):
                result["reported"] += 1
            else:
                self.assertLessEqual(read, rows)
                result["all" if read == rows else "fewer"] += 1
        self.assertGreater(result["reported"], 0, result)

    def test_a_changed_row_is_reported(self):
        store = Sqlite(self.path)
        store.put([(0, 0, [[0, 1, 2, 3, 5]])])
        store.db.execute("UPDATE det SET ssn = 2")
        with self.assertRaises(Damaged) as raised:
            store.read([0, 0])
        self.assertEqual(str(raised.exception), "of determinant [0, 2, 2, 3] the checksum is wrong")

    def test_one_commit_serves_many_and_refuses_earlier_lanes(self):
        store = Sqlite(self.path)
        requests = [(0, 0, [[1, 0, 0, 0, 7]]), (1, 0, [[0, 0, 1, 0, 8], [0, 1, 1, 1, 9]])]
        self.assertEqual(store.put(requests), [True, True])
        self.assertEqual(self.rows_of(store, (1, 0)), {(1, 0, 0, 0), (0, 0, 1, 0), (0, 1, 1, 1)})
        self.assertEqual(store.put([(0, 0, [[1, 1, 0, 1, 10]]), (0, 1, [[1, 2, 0, 1, 11]])]), [False, True])
        again = Sqlite(self.path)  # a store that was started again refuses them too
        self.assertEqual(again.put([(0, 0, [[1, 1, 0, 1, 10]])]), [False])
        self.assertEqual(self.rows_of(again), {(1, 0, 0, 0), (0, 0, 1, 0), (0, 1, 1, 1), (1, 2, 0, 1)})


class Stream(JetStream):
    """A stream in memory, which several share as the servers' one. Each second put is confirmed only when it is made again."""

    def __init__(self, messages):
        self.messages, self.stream, self.last, self.least, self.rows = messages, "stable", 0, {}, {}

    def request(self, subject, data):
        if subject == "stable.put":
            self.messages.append(json.dumps(data))
            return {"seq": len(self.messages)} if len(self.messages) % 2 else {}
        return {"message": {"data": base64.b64encode(self.messages[data["seq"] - 1].encode())}}


class Streams(unittest.TestCase):
    def test_a_read_refuses_what_earlier_lanes_put_behind_it(self):
        messages = []
        first, second = Stream(messages), Stream(messages)
        self.assertEqual(first.put([(0, 0, [[1, 0, 0, 0, 7]]), (1, 0, [[0, 0, 1, 0, 8]])]), [True, True])
        self.assertEqual(len(second.read([1, 0])), 2)
        self.assertEqual(first.put([(0, 0, [[1, 1, 0, 1, 9]]), (0, 1, [[1, 2, 0, 1, 9]])]), [False, True])
        self.assertEqual({tuple(row[:4]) for row in second.read([1, 0])}, {(1, 0, 0, 0), (0, 0, 1, 0), (1, 2, 0, 1)})

    def test_a_changed_byte_is_reported(self):
        messages = []
        Stream(messages).put([(0, 0, [[1, 0, 0, 0, 7]])])
        messages[0] = messages[0].replace("[1, 0,", "[1, 1,")
        self.assertRaises(Damaged, Stream(messages).read, [0, 0])


class Parcels(unittest.TestCase):
    def test_messages_come_whole_whatever_bytes_they_have(self):
        links = Links.__new__(Links)
        links.buffer = b"MSG r.0 mine 4\r\na\r\nb\r\nMSG r.all all 1\r\n2\r\nMSG r.0.store store 5\r\nab"
        self.assertEqual(links.parsed(), [("mine", b"a\r\nb"), ("all", b"2")])
        self.assertEqual(links.parsed(), [])
        links.buffer += b"cde\r\nMSG"
        self.assertEqual(links.parsed(), [("store", b"abcde")])
        self.assertEqual(links.buffer, b"MSG")

    def test_what_is_held_back_comes_all_the_same(self):
        links = Links.__new__(Links)
        links.held, links.chaos = [], 0.0
        self.assertEqual(links.held_back([("mine", b"1"), ("all", b"2")]).count(("all", b"2")), 1)
        came = []
        links.chaos = 0.001
        for k in range(200):
            came += links.held_back([("mine", b"%d" % k)])
        time.sleep(0.01)
        came += links.held_back([])
        self.assertEqual({data for _, data in came}, {b"%d" % k for k in range(200)})
        self.assertGreater(len(came), 200)


class Recordings(Folder):
    def open(self):
        opened = Recording(self.path, 1)
        result = opened.lane, opened.clock, opened.down
        return opened, result

    def test_an_opening_reads_back_clock_and_lane(self):
        first, result = self.open()
        self.assertEqual(result, (0, 0, False))
        first.write(b'["recording",1,1,3,7]\n["send",1,1000,0,0]\n["crash",1,1005]\n\n["recording",1,1,3,7]\n["restart",1,20')
        first.close()
        again, result = self.open()  # it was killed while it recorded its restart
        self.assertEqual(result, (1, 1005, True))
        again.crash(4000)
        again.write(b'["restart",1,5000,[]]\n')
        again.close()
        third, result = self.open()
        self.assertEqual(result, (2, 5000, False))
        third.crash(2**61)
        third.crash(2**61)
        third.close()
        with open(self.path, "rb") as file:
            text = file.read()
        self.assertTrue(text.endswith(b'["crash",1,%d]\n' % (2**61 + 1)))
        self.assertEqual(text.count(b"crash"), 2)

    def test_no_two_have_a_recording(self):
        first, _ = self.open()
        self.assertRaises(BlockingIOError, self.open)
        first.close()
        self.open()[0].close()


class Service(unittest.TestCase):
    """Three jobs of two workers; the amounts are 1, 920 and 839."""

    def played(self):
        roles, sent, shown = [Dispatcher(4, 3), Worker(4, 3), Worker(4, 3), Ledger(4, 3)], [], {}

        def show(text):
            _, job, number, balance = text.split()
            shown[int(job)] = {(int(number), int(balance))}

        for me, role in enumerate(roles):
            role.open(lambda to, text, me=me: sent.append((me, to, text)), show)
        while sent:
            source, me, text = sent.pop(0)
            roles[me].take(source, text.split(), lambda to, text, me=me: sent.append((me, to, text)), show)
        return [role.book() for role in roles], shown

    def test_right_books(self):
        books, shown = self.played()
        self.assertEqual(books[0]["given"], {0: 1, 1: 2, 2: 1})
        self.assertEqual([book["done"] for book in books[1:3]], [[0, 2], [1]])
        self.assertEqual(books[3]["entries"], {"0": [1, 1, 1, 1], "1": [2, 2, 1, 921], "2": [3, 1, 2, 1760]})
        self.assertEqual(shown, {0: {(1, 1)}, 1: {(2, 921)}, 2: {(3, 1760)}})
        self.assertEqual(faults_in(3, books, shown), [])

    def test_wrong_books(self):
        books, shown = self.played()
        self.assertIn("of job 1 was shown ['(2, 921)', '(3, 921)'], and the dispatcher has (2, 921)",
                      faults_in(3, books, {**shown, 1: {(2, 921), (3, 921)}}))
        self.assertIn("2 receipts of 3 were shown", faults_in(3, books, {0: shown[0], 1: shown[1]}))
        books[1]["done"] = [0]
        self.assertEqual(faults_in(3, books, shown), ["the workers have not done each job once", "job 2 is not number 2 of worker 1"])
        del books[3]["entries"]["2"]
        self.assertIn("the ledger has 2 jobs of 3", faults_in(3, books, shown))


if __name__ == "__main__":
    if "--put" in sys.argv:
        put_without_end(sys.argv[2])
    unittest.main()
