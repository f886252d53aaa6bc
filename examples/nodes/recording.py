"""The recording of one process, a file through all its incarnations: the lines of its node, and the crashes that the starter writes."""
import fcntl
import json
import os
import time

import nixu


class Recording:
    """An opening reads back the greatest clock, the number of restarts, and whether the process is down. Who has it open locks it: so no
    two processes run under one number, and nobody writes the crash of one that lives."""

    def __init__(self, path, process):
        self.process, self.clock, self.restarts, self.began, self.down = process, 0, 0, False, False
        self.file = os.open(path, os.O_WRONLY | os.O_CREAT | os.O_APPEND, 0o644)
        fcntl.flock(self.file, fcntl.LOCK_EX | fcntl.LOCK_NB)
        with open(path, "rb") as file:
            for line in file:
                self.read(line)
        self.write(b"\n")  # ends a line that a kill has cut

    def read(self, line):
        try:
            word, _, clock, *_ = json.loads(line)
        except ValueError:
            return  # blank, or cut
        self.began = True
        if word != "recording":
            self.clock = max(self.clock, clock)
            self.restarts += word == "restart"
            self.down = word == "crash" or (self.down and word != "restart")

    @property
    def lane(self):
        """The lane (incarnation) that begins now."""
        return self.restarts + 1 if self.began else 0

    def write(self, line):
        """One write, before anything that follows from the line leaves the process."""
        if os.write(self.file, line) != len(line):
            raise OSError("the recording takes no more: the process has to end, since nobody would know what it does")

    def crash(self, clock):
        """By who has seen that the process has ended. A second one before it is up again writes nothing."""
        if not self.down:
            self.clock = max(self.clock + 1, clock + 1, time.time_ns() // 1000)
            self.write(nixu.crash_line(self.process, self.clock))
        self.down = True

    def close(self):
        os.close(self.file)


def path_of(folder, process):
    return os.path.join(folder, f"{process}.log")
