"""Records what one process of a run does, line by line, as docs/MERGING.md has it. Copy this file: it needs Python alone.

Each call writes its line by one write(2) before it returns. So call it before anything that follows from the event leaves the
process: then a kill loses no line whose effect somebody saw, and cuts at most the last one. docs/RECORDING.md has the rules and why.

The calls take no lock. Where several threads share a process, hold one lock over the call and the change that it tells of.
"""
import json
import os
import time


class Recorder:
    """One process through all its incarnations. The recording is all that they have in common: an opening reads back the clock, the
    number of incarnations, and whether the process is down."""

    def __init__(self, process, n, path, run):
        self.process = process
        self.clock = self.incarnation = self.sent = self.delivered = 0
        self.down = False
        self.began = self._read_back(path)
        self.file = os.open(path, os.O_WRONLY | os.O_CREAT | os.O_APPEND, 0o644)
        self._write(b"\n")  # ends a line that a kill has cut, here or at the end of the file before this one in a concatenation
        self._line("recording", process, 1, n, run)

    def _read_back(self, path):
        """Whether the process has run before."""
        if not os.path.exists(path):
            return False
        with open(path, "rb") as file:
            for line in file:
                try:
                    word, process, *rest = json.loads(line)
                except ValueError:
                    continue  # blank, or cut
                if word != "recording" and process == self.process:
                    self.clock = max(self.clock, rest[0])
                    self.incarnation += word == "restart"
                    self.down = word == "crash" or (self.down and word != "restart")
        return True

    def _write(self, data):
        if os.write(self.file, data) != len(data):
            raise OSError("the recording takes no more: the process has to end, since nobody would know what it does")

    def _line(self, *fields):
        self._write(json.dumps(fields, separators=(",", ":")).encode() + b"\n")

    def _note(self, word, *fields):
        self._line(word, self.process, self.now(), *fields)

    # clocks

    def now(self):
        """A new clock: microseconds of the machine, or one more than the last clock, whichever is greater. It has to go along with all
        that leaves the process and is no message: an acknowledgement, a question or an answer in a recovery, what is stored."""
        self.clock = max(self.clock + 1, time.time_ns() // 1000)
        return self.clock

    def take_in(self, clock):
        """The clock that came along with something from outside: all that is recorded from here on is later."""
        self.clock = max(self.clock, clock)

    # events

    def send(self, to):
        """Before the message goes out. Incarnation, number and clock have to go along with it."""
        ssn, self.sent = self.sent, self.sent + 1
        self._note("send", to, ssn)
        return self.incarnation, ssn, self.clock

    def deliver(self, source, incarnation, ssn, clock, listed):
        """Before the process acts on the message; `listed` has what came along and goes into its log. Gives the delivery's own
        determinant, which goes there too."""
        rsn, self.delivered = self.delivered, self.delivered + 1
        own = (source, ssn, self.process, rsn)
        self.take_in(clock)
        self._note("deliver", source, incarnation, ssn, rsn, sorted({*listed, own}))
        return own

    def stable(self, det):
        """Once stable storage has confirmed the determinant."""
        self._note("stable", det)

    def forget(self, dets):
        """When these leave the log of a process that is up."""
        self._note("forget", sorted(dets))

    def crash(self):
        """By who has seen that the process has ended, or else first of all by its next incarnation; the second of them writes nothing."""
        if not self.down:
            self._note("crash")
        self.down = True

    def restart(self, dets):
        """Once the new incarnation has gathered these, and before it delivers or sends anything."""
        self.incarnation, self.sent, self.delivered, self.down = self.incarnation + 1, 0, 0, False
        self._note("restart", sorted(dets))

    # the file

    def sync(self):
        """Before anything leaves the process, where the recording has to outlive the machine and not only the process. One call serves
        all the lines before it."""
        os.fsync(self.file)

    def close(self):
        os.close(self.file)
