#!/usr/bin/env python3
"""Storage of a run: keeps determinants for all its processes, by messages. A commit serves all that has come meanwhile, and
nothing is called stored before it is confirmed. Whoever starts it again finds what was stored."""
import json
import os
import sys

from links import Links, cut_at_signal, print_line
from stores import Damaged, JetStream, Sqlite

PART = 4096  # determinants of one message


class Store:
    def __init__(self, given):
        if given["store"] == "sqlite":
            self.kept = Sqlite(os.path.join(given["folder"], "stable.db"))
        else:
            self.kept = JetStream(given["ports"], given["run"], given["copies"])
        self.links = Links(given["ports"], given["run"], "store", given["chaos"])
        self.links.watch(sys.stdin, "starter")
        cut_at_signal(self.links)

    def commit(self, stores):
        requests, replies = [], []
        for numbers, lines in stores:
            process, lane, count, clock = map(int, numbers)
            requests.append((process, lane, [[*map(int, line.split()), clock] for line in lines]))
            replies.append((process, f"stored {lane} {count}"))
        for (process, text), is_stored in zip(replies, self.kept.put(requests)):
            if is_stored:
                self.links.publish(f"{process}.store", text.encode())

    def reply(self, process, name, view):
        numbers = bytes.fromhex(view)
        rows = self.kept.read([int.from_bytes(numbers[at : at + 4], "big") for at in range(0, len(numbers), 4)])
        clock = max((row[4] for row in rows), default=0)
        parts = [rows[at : at + PART] for at in range(0, len(rows), PART)] or [[]]
        for number, part in enumerate(parts):
            lines = [f"has {name} {clock} {number} {len(parts)} {len(rows)}", *("{} {} {} {}".format(*row[:4]) for row in part)]
            self.links.publish(f"{process}.store", "\n".join(lines).encode())

    def work(self):
        print_line("up", 0)
        while True:
            stores, reads = [], []
            for whence, data in self.links.take(1.0):
                if whence == "starter":
                    os._exit(0)
                elif whence == "mine":
                    head, *lines = data.decode().splitlines()
                    word, *words = head.split()
                    stores.append((words, lines)) if word == "store" else reads.append(words)
            if stores:
                self.commit(stores)
            for words in reads:
                self.reply(*words)


if __name__ == "__main__":
    try:
        Store(json.loads(sys.argv[1])).work()
    except Damaged as damaged:
        print_line("damaged", damaged)
        sys.exit(1)
