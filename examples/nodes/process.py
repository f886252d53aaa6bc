#!/usr/bin/env python3
"""One process of the service: run.py starts it, kills it, and starts it again. The node keeps the books of the protocol; this file
moves bytes, writes the recording, and runs the role. It has one thread, so each call of the node is alone."""
import json
import os
import random
import secrets
import sys
import time

import nixu
from links import BACK, Links, cut_at_signal, print_line
from recording import Recording, path_of
from service import role_of
from storing import Storing

PATIENCE = 0.2  # seconds without news after which a process asks again


def name_of(parcel):
    """Kind and source, and of a message its number (docs/WIRE.md): what comes again has the same name."""
    return parcel[1:2] + parcel[14:15] + (parcel[28:32] if parcel[1] == 0 else b"")


def lane_of(parcel):
    return parcel[16:20]


class Process:
    def __init__(self, given):
        self.number, self.broken = given["process"], given["broken"]
        self.others = [p for p in range(given["processes"]) if p != self.number]
        self.recording = Recording(path_of(given["folder"], self.number), self.number)
        named = {name: given[name] for name in ("process", "processes", "faults", "run")}
        self.node = nixu.Node(**named, lane=self.recording.lane, clock=self.recording.clock)
        self.recording.write(self.node.header)
        self.role = role_of(self.number, given["processes"], given["jobs"])
        self.waiting, self.round, self.is_asked, self.pause = {}, 0, False, given["pause"]
        self.links = Links(given["ports"], given["run"], self.number, given["chaos"])
        self.storing = Storing(self.node, self.recording, self.links, self.number, given)
        self.links.watch(sys.stdin, "starter")
        cut_at_signal(self.links)

    def is_up(self):
        return self.node.state.stage == nixu.Stage.Up

    # messages: a line is written before anything that follows from it leaves the process

    def send(self, to, text):
        sent = self.node.send(to, text.encode())
        self.recording.write(sent.line)
        self.links.publish(to, sent.parcel)

    def receive(self, parcel):
        """A parcel waits under its name until the node takes it, or never will."""
        name = name_of(parcel)
        self.waiting[name] = max(parcel, self.waiting.get(name, parcel), key=lane_of)
        self.receive_waiting([name])

    def receive_waiting(self, names):
        """Receives what waits under these names; and all that waits again, as long as something comes of it."""
        while names:
            tried, names = names, []
            for name in tried:
                if name in self.waiting and self.take(self.waiting.pop(name), name):
                    due = self.node.due  # in a replay one message after the other is named
                    names = [bytes([0, due.source]) + due.ssn.to_bytes(4, "big")] if due else [*self.waiting]

    def take(self, parcel, name):
        """Whether something came of it."""
        try:
            got = self.node.receive(parcel)
        except nixu.NodeFault as fault:
            if fault.kind.is_later:
                self.waiting[name] = parcel
            return False
        if isinstance(got, nixu.Message):
            self.recording.write(got.line)
            self.storing.delivered += 1
            time.sleep(self.pause * random.random())  # the work itself
            self.role.take(got.source, got.body.decode().split(), self.send, self.storing.show)
        elif isinstance(got, nixu.Question):
            self.links.publish(got.source, got.parcel)
        return isinstance(got, nixu.Message)

    def resend(self, to):
        """What this lane has sent to a process may be lost: all of it goes out again."""
        ssn = 0
        while self.broken != "no_resend" and (kept := self.node.resend(ssn)):
            if kept.to == to:
                self.links.publish(to, kept.parcel)
            ssn += 1

    # recovery: a round of questions, what storage has, the restart

    def begin(self):
        self.round, self.is_asked = secrets.randbits(64), False  # no other round has this name, also of an incarnation that was killed
        self.node.begin_round(self.round)
        self.send_questions()

    def send_questions(self):
        """What has not been answered is asked, again too."""
        stage = self.node.state.stage
        if stage == nixu.Stage.Up:
            self.storing.send_request()
        elif stage == nixu.Stage.Reading:
            self.storing.read(self.round, self.node.view)
        for other in self.node.awaited:
            self.links.publish(other, self.node.question(other))

    def recover(self):
        """After something has come: a round that was given up begins again; once all have answered, storage is read."""
        stage = self.node.state.stage
        if stage == nixu.Stage.Down:
            self.begin()
        elif stage == nixu.Stage.Reading and not self.is_asked:
            self.is_asked = True
            self.send_questions()
        elif stage == nixu.Stage.Ready:
            self.come_up(self.node.restart())

    def come_up(self, line):
        self.recording.write(line)
        print_line("up", self.node.state.clock)
        self.role.open(self.send, self.storing.show)
        self.receive_waiting([*self.waiting])

    def take_ended(self):
        """Broken: who does not reply at once is taken to have ended, as if a lost connection were a crash."""
        for other in self.node.awaited:
            self.node.take_ended(self.round, other, self.node.view[other])

    # the loop

    def handle(self, whence, data):
        if whence == "mine":
            self.receive(data)
        elif whence == "store":
            self.storing.handle(data, self.round)
        elif whence == "all" and data != str(self.number).encode():
            if data.isdigit():  # a process, and not storage
                self.resend(int(data))
            self.send_questions()
        elif whence == BACK:
            for other in self.others:
                self.resend(other)
            self.send_questions()
        elif whence == "starter":
            if not os.read(0, 4096):  # the starter has ended
                os._exit(0)
            print_line("book", json.dumps(self.role.book(), separators=(",", ":")))

    def work(self):
        self.come_up(b"") if self.is_up() else self.begin()
        while True:
            came = self.links.take(PATIENCE)
            for whence, data in came:
                self.handle(whence, data)
            if self.broken == "early_ended" and self.node.awaited:
                self.take_ended()
            self.storing.store() if self.is_up() else self.recover()
            if not came:
                self.send_questions()
                self.links.publish("all", str(self.number).encode())


if __name__ == "__main__":
    Process(json.loads(sys.argv[1])).work()
