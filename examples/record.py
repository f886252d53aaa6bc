#!/usr/bin/env python3
"""Records three toy processes that log causally, as another runtime would, and prints the trace.

    examples/record.py           each message carries the determinants that too few processes hold
    examples/record.py --broken  each message carries the determinants that only the sender holds

The second rule is a common mistake: a determinant that one other process holds too is no longer carried, though both of
them may crash. For two processes that may fail together (--faults 2), the audit accepts the first and refuses the second.

A token wanders through the three. After six steps process 2 writes its log to stable storage and forgets it; then 1 crashes and comes
back.
"""
import json
import sys

FAULTS = 2  # as many processes may be down at once


class Recorder:
    """Writes down what happens. Only this class knows the format."""

    def __init__(self, n):
        self.lines = [["trace", 2, n]]

    def note(self, *entry):
        self.lines.append(list(entry))
        return len(self.lines) - 2  # its position

    def text(self):
        lines = [*self.lines, ["end", len(self.lines) - 1]]
        return "".join(json.dumps(line, separators=(",", ":")) + "\n" for line in lines)


class Process:
    """A process knows of each determinant in its log who holds it."""

    def __init__(self, number, recorder, broken):
        self.number, self.recorder, self.broken = number, recorder, broken
        self.begin()

    def begin(self):
        """All that a crash loses."""
        self.sent, self.delivered, self.log = [], 0, {}

    def carried(self):
        """The determinants that go along with the next message, each with its known holders."""
        enough = 1 if self.broken else FAULTS
        return {det: set(holders) for det, holders in self.log.items() if len(holders) <= enough}

    def send(self):
        """To whom depends on what was delivered so far, and on nothing else."""
        to, ssn = (self.number + 1 + self.delivered % 2) % 3, len(self.sent)
        position = self.recorder.note("send", self.number, to, ssn)
        self.sent.append({"source": self.number, "to": to, "ssn": ssn, "position": position, "carried": self.carried()})
        return self.sent[-1]

    def deliver(self, message):
        rsn, self.delivered = self.delivered, self.delivered + 1
        own = (message["source"], message["ssn"], self.number, rsn)
        for det, holders in message["carried"].items():
            self.log.setdefault(det, set()).update(holders, {message["source"], self.number})
        self.log.setdefault(own, set()).add(self.number)
        self.recorder.note("deliver", self.number, message["position"], rsn, sorted({*message["carried"], own}))

    def store(self, storage):
        """Only what is in stable storage may be forgotten."""
        dets = sorted(self.log)
        storage.update(dets)
        for det in dets:
            self.recorder.note("stable", det)
        self.recorder.note("forget", self.number, dets)
        self.log.clear()

    def crash(self):
        self.recorder.note("crash", self.number)
        self.begin()

    def restart(self, others, storage):
        """With all that the others log and stable storage has it repeats its past: the same messages at the same places."""
        for det in {*storage, *(det for other in others for det in other.log)}:
            self.log[det] = {self.number}
        self.recorder.note("restart", self.number, sorted(self.log))
        kept = {(message["source"], message["ssn"]): message for other in others for message in other.sent}
        past = {det[3]: det[:2] for det in self.log if det[2] == self.number}
        for rsn in sorted(past):
            self.deliver(kept[past[rsn]])
            self.send()


def pass_on(processes, at, steps):
    """The token goes so many steps from there; gives where it is then."""
    for _ in range(steps):
        message = processes[at].send()
        at = message["to"]
        processes[at].deliver(message)
    return at


def main():
    broken = "--broken" in sys.argv[1:]
    recorder, storage = Recorder(3), set()
    processes = [Process(p, recorder, broken) for p in range(3)]
    at = pass_on(processes, 0, 6)
    processes[2].store(storage)
    processes[1].crash()
    processes[1].restart([processes[0], processes[2]], storage)
    pass_on(processes, at, 6)
    sys.stdout.write(recorder.text())


if __name__ == "__main__":
    main()
