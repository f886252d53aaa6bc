"""Starts the processes of one run of the service, and its storage; kills them, and starts them again. The starter alone knows that a
process has ended, since it has waited for it: so it writes the crash."""
import json
import os
import selectors
import signal
import subprocess
import sys
import time

from recording import Recording, path_of
from service import faults_in

HERE = os.path.dirname(os.path.abspath(__file__))


class Child:
    """A process that was started, the beginning of its next line, and whether it is up."""

    def __init__(self, words, errors):
        self.it = subprocess.Popen(words, stdin=subprocess.PIPE, stdout=subprocess.PIPE, stderr=errors)
        self.rest, self.is_up = b"", False

    def lines(self, data):
        *lines, self.rest = (self.rest + data).split(b"\n")
        return [line.decode() for line in lines]

    def end(self):
        """By kill -9. Returns its last lines."""
        self.it.kill()
        with self.it.stdin, self.it.stdout as output:
            lines = self.lines(output.read())
        self.it.wait()
        return lines


class Run:
    def __init__(self, given, worker_in_c=None):
        self.given, self.worker_in_c = given, worker_in_c
        self.processes, self.folder = given["processes"], given["folder"]
        self.children, self.books, self.shown, self.clock, self.damaged, self.ended = {}, {}, {}, 0, [], []
        self.watched = selectors.DefaultSelector()
        self.start("store")
        for p in range(self.processes):
            self.start(p)

    def start(self, name):
        program = "store.py" if name == "store" else "process.py"
        words = [sys.executable, os.path.join(HERE, program), json.dumps({**self.given, "process": name})]
        if name == 1 and self.worker_in_c:
            ports = ",".join(map(str, self.given["ports"]))
            fields = [name, self.processes, self.given["faults"], self.given["run"], ports, path_of(self.folder, name)]
            words = [self.worker_in_c, *map(str, fields)]
        with open(os.path.join(self.folder, f"{name}.err"), "ab") as errors:
            self.children[name] = Child(words, errors)
        self.watched.register(self.children[name].it.stdout, selectors.EVENT_READ, name)
        if self.given["talks"]:
            print(f"{name} runs as {self.children[name].it.pid}", flush=True)

    def kill(self, *names):
        """All at once. Who has seen a process end records the crash. The clocks of those that came up are taken in: they were up before."""
        for name in names:
            self.children[name].it.send_signal(signal.SIGKILL)
        for name in names:
            child = self.children.pop(name)
            self.watched.unregister(child.it.stdout)
            for line in child.end():
                self.take(name, child, line)
            if name != "store":
                recording = Recording(path_of(self.folder, name), name)
                recording.crash(self.clock)
                recording.close()

    def replace(self, name):
        """It has ended: somebody has killed it, or else its errors say why."""
        child = self.children[name]
        self.kill(name)
        if child.it.returncode != -signal.SIGKILL:
            self.ended.append(f"process {name} ended with status {child.it.returncode}")
        if len(self.ended) > 20:
            self.damaged.append(f"process {name} ends again and again")
        elif not self.damaged:
            self.start(name)

    def cut(self, name):
        """Only of one that is up: before, the signal would end it."""
        if self.children[name].is_up:
            self.children[name].it.send_signal(signal.SIGUSR1)

    def wait(self, reached, seconds):
        """Whether that was reached in time."""
        end = time.monotonic() + seconds
        while not reached():
            left = end - time.monotonic()
            if left <= 0 or self.damaged:
                return False
            for key, _ in self.watched.select(left):
                child, data = self.children[key.data], os.read(key.fd, 1 << 16)
                for line in child.lines(data):
                    self.take(key.data, child, line)
                if not data:
                    self.replace(key.data)
        return True

    def take(self, name, child, line):
        word, _, rest = line.partition(" ")
        if word == "up":
            child.is_up, self.clock = True, max(self.clock, int(rest))
        elif word == "book":
            self.books[name] = json.loads(rest)
        elif word == "receipt":
            job, number, balance = map(int, rest.split())
            self.shown.setdefault(job, set()).add((number, balance))
        elif word == "twice":
            self.shown.setdefault(int(rest), set()).add("twice")
        else:
            self.damaged.append(line)

    def down(self):
        return [p for p in range(self.processes) if not self.children[p].is_up]

    def check(self):
        """What is wrong with the service's books; nothing where the list is empty."""
        self.books = {}
        for p in range(self.processes):
            self.children[p].it.stdin.write(b"book\n")
            self.children[p].it.stdin.flush()
        if not self.wait(lambda: len(self.books) == self.processes, 5):
            return ["a process does not show its book"]
        return faults_in(self.given["jobs"], [self.books[p] for p in range(self.processes)], self.shown)

    def close(self):
        """Ends all. No crash is recorded: the run ends here."""
        for child in self.children.values():
            child.end()


class Program:
    """The commands of causal_tool, of the recordings in a folder."""

    def __init__(self, path):
        self.path = path
        subprocess.run([path, "--version"], stdout=subprocess.DEVNULL, check=True)  # it may have to be built first

    def judge(self, folder, processes, faults):
        """The lines of `merge`, if it fails, or else of `audit` and `replays`; and whether the run is accepted."""
        logs = [path_of(folder, p) for p in range(processes)]
        merged = subprocess.run([self.path, "merge", *logs], capture_output=True)
        if merged.returncode:
            return f"merge: {merged.stdout.decode()}{merged.stderr.decode()}", False
        with open(os.path.join(folder, "run.jsonl"), "wb") as file:
            file.write(merged.stdout)
        words = [["audit", "--faults", str(faults)], ["replays"]]
        output = [subprocess.run([self.path, *it], input=merged.stdout, capture_output=True) for it in words]
        return "".join(it.stdout.decode() for it in output), all(it.returncode == 0 for it in output)

    def explain(self, folder, faults):
        with open(os.path.join(folder, "run.jsonl"), "rb") as trace:
            return subprocess.run([self.path, "explain", "--faults", str(faults)], stdin=trace, capture_output=True).stdout.decode()
