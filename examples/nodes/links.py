"""What carries bytes: NATS by its text protocol, over one connection to a server. No package is needed, and no thread.

Nothing is kept for who is not there. So whoever joins, or joins again after its connection was cut, says hello to all; and `take`
returns `BACK`: what was under way to or from this process may be lost.
"""
import contextlib
import heapq
import os
import random
import selectors
import signal
import socket
import time

BACK = "back"


class Links:
    """The connection of one process of a run. It has the subject RUN.NAME, and hears RUN.all."""

    def __init__(self, ports, run, name, chaos=0.0):
        self.ports, self.run, self.name, self.chaos = ports, run, str(name), chaos
        self.socket, self.buffer, self.held, self.count = None, b"", [], random.randrange(len(ports))
        self.waiting = selectors.DefaultSelector()
        self.join()

    # the connection

    def join(self):
        """Returns once a server has taken the subscriptions: nothing that is sent to this process from then on passes it by."""
        while True:
            try:
                return self.connect(self.ports[self.count % len(self.ports)])
            except OSError:
                self.count += 1
                time.sleep(0.02)

    def connect(self, port):
        self.leave()
        self.socket, self.buffer = socket.create_connection(("127.0.0.1", port), timeout=2), b""
        self.socket.setsockopt(socket.IPPROTO_TCP, socket.TCP_NODELAY, 1)
        words = f'CONNECT {{"verbose":false,"name":"{self.run}.{self.name}"}}\r\n'
        words += f"SUB {self.run}.{self.name} mine\r\nSUB {self.run}.{self.name}.store store\r\nSUB {self.run}.all all\r\nPING\r\n"
        self.socket.sendall(words.encode())
        while b"PONG\r\n" not in self.buffer:
            self.fill()
        self.buffer = self.buffer.partition(b"PONG\r\n")[2]
        self.waiting.register(self.socket, selectors.EVENT_READ, "server")
        self.publish("all", self.name.encode())

    def leave(self):
        if self.socket is not None:
            if self.socket.fileno() in self.waiting.get_map():
                self.waiting.unregister(self.socket)
            self.socket.close()
            self.socket = None

    def cut(self):
        """Ends the connection, as a network may."""
        with contextlib.suppress(OSError, AttributeError):
            self.socket.shutdown(socket.SHUT_RDWR)

    def fill(self):
        piece = self.socket.recv(1 << 16)
        if not piece:
            raise ConnectionError
        self.buffer += piece

    def watch(self, file, name):
        """`take` returns the name when something can be read from that file too."""
        self.waiting.register(file, selectors.EVENT_READ, name)

    # what is sent

    def publish(self, to, data, whole=None):
        """Sends to a process of the run, or to a whole subject. Where the connection has ended it is lost, as under way."""
        subject = whole or f"{self.run}.{to}"
        try:
            self.socket.sendall(b"PUB %s %d\r\n%s\r\n" % (subject.encode(), len(data), data))
        except OSError:
            pass  # `take` will notice

    # what comes

    def take(self, seconds):
        """What has come, within that time: pairs of whence and what. Whence is `mine`, `store`, `all`, `BACK`, or the name of a file."""
        due = [self.held[0][0] - time.monotonic()] if self.held else []
        ready = [key.data for key, _ in self.waiting.select(max(0.0, min([seconds, *due])))]
        came = [(name, b"") for name in ready if name != "server"]
        if "server" in ready:
            try:
                self.fill()
                came += self.parsed()
            except OSError:
                self.join()
                came.append((BACK, b""))
        return self.held_back(came) if self.chaos or self.held else came

    def parsed(self):
        """The whole messages of the buffer."""
        came = []
        while b"\r\n" in self.buffer:
            line, _, rest = self.buffer.partition(b"\r\n")
            words = line.split()
            if words and words[0] == b"MSG":
                size = int(words[-1])
                if len(rest) < size + 2:
                    break
                came.append((words[2].decode(), rest[:size]))
                rest = rest[size + 2 :]
            elif words and words[0] == b"PING":
                self.socket.sendall(b"PONG\r\n")
            self.buffer = rest
        return came

    def held_back(self, came):
        """Some messages come later than they could, and some twice: for trials."""
        now = time.monotonic()
        for whence, data in came:
            is_held = whence in ("mine", "store")
            late = self.chaos * random.random() if is_held and random.random() < 0.3 else 0.0
            heapq.heappush(self.held, (now + late, random.random(), whence, data))
            if is_held and random.random() < 0.1:
                heapq.heappush(self.held, (now + self.chaos * random.random(), random.random(), whence, data))
        ready = []
        while self.held and self.held[0][0] <= time.monotonic():
            _, _, whence, data = heapq.heappop(self.held)
            ready.append((whence, data))
        return ready


def cut_at_signal(links):
    """SIGUSR1 cuts the connection, so that a trial can."""
    signal.signal(signal.SIGUSR1, lambda *_: links.cut())


def print_line(*words):
    """A line for who has started this process, by one write."""
    os.write(1, " ".join(map(str, words)).encode() + b"\n")
