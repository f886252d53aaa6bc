"""What keeps determinants: SQLite on one machine, or a JetStream stream with a copy on each of three. Each row has a checksum of its own,
since neither would see that a byte has changed.

`put` returns once all is kept for good. `read` returns all that is kept, and from then on what lanes below the view put is refused.
"""
import base64
import json
import random
import socket
import sqlite3
import time
import zlib


class Damaged(Exception):
    """A row is not what was stored."""


def sum_of(row):
    return zlib.crc32(" ".join(map(str, row)).encode())


class Sqlite:
    """One file, with a log beside it. One sync for each commit, however many rows it has."""

    def __init__(self, path):
        self.db = sqlite3.connect(path, timeout=30, isolation_level=None)
        self.db.execute("PRAGMA journal_mode=WAL")
        self.db.execute("PRAGMA synchronous=FULL")
        columns = "source INT, ssn INT, dest INT, rsn INT, clock INT, sum INT, PRIMARY KEY (dest, rsn, source, ssn)"
        self.db.execute(f"CREATE TABLE IF NOT EXISTS det ({columns}) WITHOUT ROWID, STRICT")
        self.db.execute("CREATE TABLE IF NOT EXISTS least (process INT PRIMARY KEY, lane INT) WITHOUT ROWID, STRICT")

    def put(self, requests):
        """Requests of (process, lane, rows), a row being a determinant and a clock, by one commit. Returns which are stored."""
        self.db.execute("BEGIN IMMEDIATE")
        least = dict(self.db.execute("SELECT process, lane FROM least"))
        taken = [lane >= least.get(process, 0) for process, lane, _ in requests]
        rows = [row for (_, _, rows), is_taken in zip(requests, taken) if is_taken for row in rows]
        self.db.executemany("INSERT OR IGNORE INTO det VALUES (?,?,?,?,?,?)", [(*row, sum_of(row)) for row in rows])
        self.db.execute("COMMIT")
        return taken

    def read(self, view):
        self.db.execute("BEGIN IMMEDIATE")
        self.db.executemany("INSERT INTO least VALUES (?,?) ON CONFLICT DO UPDATE SET lane = max(lane, excluded.lane)", enumerate(view))
        self.db.execute("COMMIT")
        rows = self.db.execute("SELECT source, ssn, dest, rsn, clock, sum FROM det").fetchall()
        return [checked(row) for row in rows]


def checked(row):
    *row, kept_sum = row
    if sum_of(row) != kept_sum:
        raise Damaged(f"of determinant {row[:4]} the checksum is wrong")
    return row


class JetStream:
    """One stream of a run, which the servers keep in order. A put is a message; so is a read, which says what is refused behind it. A put
    whose confirmation was lost is made again: what is stored is a set."""

    def __init__(self, ports, run, copies):
        self.ports, self.stream, self.count, self.inbox = ports, f"stable_{run}", 0, f"_INBOX.{random.getrandbits(64)}"
        self.socket, self.last, self.least, self.rows = None, 0, {}, {}
        subjects = {"name": self.stream, "subjects": [f"{self.stream}.>"], "storage": "file", "num_replicas": copies}
        while self.request(f"$JS.API.STREAM.CREATE.{self.stream}", subjects).get("error", {}).get("err_code") not in (None, 10058):
            time.sleep(0.1)  # the servers have no leader yet; 10058: the stream is there

    def connect(self):
        self.socket = socket.create_connection(("127.0.0.1", self.ports[self.count % len(self.ports)]), timeout=2)
        self.socket.setsockopt(socket.IPPROTO_TCP, socket.TCP_NODELAY, 1)
        self.lines = self.socket.makefile("rb")
        self.lines.readline()
        self.socket.sendall(b'CONNECT {"verbose":false}\r\nSUB %s.> 1\r\n' % self.inbox.encode())

    def request(self, subject, data):
        """Until there is an answer: the server may be away, or have no leader."""
        while True:
            self.count += 1
            try:
                if self.socket is None:
                    self.connect()
                return self.request_once(subject.encode(), json.dumps(data).encode())
            except (OSError, ValueError):
                if self.socket:
                    self.socket.close()
                self.socket = None
                time.sleep(0.05)

    def request_once(self, subject, data):
        """One request and its answer. An answer to an earlier request is passed over."""
        reply = f"{self.inbox}.{self.count}".encode()
        self.socket.sendall(b"PUB %s %s %d\r\n%s\r\n" % (subject, reply, len(data), data))
        while line := self.lines.readline():
            if line.startswith(b"MSG "):
                words = line.split()
                answer = self.lines.read(int(words[-1]) + 2)
                if words[1] == reply:
                    return json.loads(answer)
            elif line == b"PING\r\n":
                self.socket.sendall(b"PONG\r\n")
        raise ConnectionError

    def append(self, thing):
        """Returns the message's place in the stream, once the servers confirm that they have it."""
        while "seq" not in (reply := self.request(f"{self.stream}.put", thing)):
            time.sleep(0.05)
        return reply["seq"]

    def put(self, requests):
        least = self.least
        taken = [lane >= least.get(process, 0) for process, lane, _ in requests]
        kept = [request for request, is_taken in zip(requests, taken) if is_taken]
        seq = self.append([[process, lane, [[*row, sum_of(row)] for row in rows]] for process, lane, rows in kept])
        self.catch_up(seq)
        return [is_taken and lane >= self.least.get(process, 0) for (process, lane, _), is_taken in zip(requests, taken)]

    def read(self, view):
        self.catch_up(self.append({"view": view}))
        return list(self.rows.values())

    def catch_up(self, seq):
        """Reads the stream up to that place: a put counts unless a read before it refuses its lane."""
        for at in range(self.last + 1, seq + 1):
            while "message" not in (reply := self.request(f"$JS.API.STREAM.MSG.GET.{self.stream}", {"seq": at})):
                time.sleep(0.05)
            thing = json.loads(base64.b64decode(reply["message"]["data"]))
            if isinstance(thing, dict):
                self.least = {p: max(lane, self.least.get(p, 0)) for p, lane in enumerate(thing["view"])}
            else:
                for process, lane, rows in thing:
                    if lane >= self.least.get(process, 0):
                        self.rows.update({tuple(row[:4]): checked(row) for row in rows})
            self.last = at
