"""A plain model of the runtime: it reads a script, runs it as causal message logging demands, and gives the trace, or the
first line that is refused. It shares no code with the product.

A script is ASCII lines of words with one space between them: `start ring N F H`, `start echo N F H` or `start tally N F` on
line 1 (N processes, at most F of which may be down), then `deliver Q SOURCE SSN`, `crash P`, `restart P`, `flush P` and
`forget P`. Numbers are plain digits without a leading zero. With `explore` in place of `start`, and SEED STEPS at the end of
that line, the run goes on after the commands by calls that the seed chooses."""
import re

import traces

MAX_SCRIPT = 1_048_576
U8, U16, U32 = 2**8, 2**16, 2**32
MOST_PROCESSES = 256
MAX_STEPS = 1_000
RESTARTS = 64  # once so many were made, an exploration crashes no process
ROOM = 9  # a delivery or a restart may append an entry and eight sends

COMMANDS = {
    "deliver": (U8, U8, U32),
    "crash": (U8,),
    "restart": (U8,),
    "flush": (U8,),
    "forget": (U8,),
}


class ScriptFault(Exception):
    pass


class Refused(Exception):
    pass


def number(word, below):
    if not re.fullmatch(rb"0|[1-9][0-9]*", word) or int(word) >= below:
        raise ScriptFault
    return int(word)


def start_of(line):
    words = line.split(b" ")
    if len(words) < 2 or words[0] not in (b"start", b"explore") or words[1] not in (b"ring", b"echo", b"tally"):
        raise ScriptFault
    kind = words[1].decode()
    limits = [MOST_PROCESSES + 1, U16] if kind == "tally" else [MOST_PROCESSES + 1, U16, U8]
    own = len(limits)
    if words[0] == b"explore":
        limits += [U32, MAX_STEPS + 1]
    if len(words) != 2 + len(limits):
        raise ScriptFault
    numbers = [number(word, below) for word, below in zip(words[2:], limits)]
    if numbers[0] == 0:
        raise ScriptFault
    return (kind, *(numbers[:own] + [0])[:3]), numbers[own:]


def command_of(line):
    words = line.split(b" ")
    name = words[0].decode("ascii", "replace")
    if name not in COMMANDS or len(words) != 1 + len(COMMANDS[name]):
        raise ScriptFault
    return (name, *[number(word, below) for word, below in zip(words[1:], COMMANDS[name])])


def parsed(text):
    """The start with the numbers of its exploration, if it has one, and the commands with their lines; else the line of the first fault
    and its kind."""
    lines, size = traces.lines_of(text), 0
    start, commands = None, []
    if not lines:
        return None, (1, "Script")
    for count, line in enumerate(lines, 1):
        size += len(line)
        if size > MAX_SCRIPT:
            return None, (count, "Big")
        line = line[:-1] if line.endswith(b"\n") else line
        try:
            if count == 1:
                start = start_of(line)
            else:
                commands.append((count, command_of(line)))
        except ScriptFault:
            return None, (count, "Script")
    return (start, commands), None


class Kind:
    """A deterministic process of one of the three kinds."""

    def __init__(self, kind, n, me, param):
        self.kind, self.n, self.me, self.param = kind, n, me, param
        self.total = 0

    def begin(self):
        following = (self.me + 1) % self.n
        if self.kind == "ring":
            return [(following, bytes([self.param]))] if self.me == 0 else []
        if self.kind == "echo":
            partner = self.me ^ 1
            return [(partner, bytes([self.param]))] if partner < self.n else []
        return [(0, bytes([self.me]))] if self.me else []

    def receive(self, source, body):
        b = body[0] if body else 0
        if self.kind == "ring":
            return [((self.me + 1) % self.n, bytes([b - 1]))] if b else []
        if self.kind == "echo":
            return [(source, bytes([b - 1]))] if b else []
        if self.me:
            return []
        self.total = (self.total + b) % 2**64
        return [(source, self.total.to_bytes(8, "big"))]


class Memory:
    """What an up process keeps: its log (of each determinant the known holders and a mark), what its lane sent, and the
    names that its lane delivered."""

    def __init__(self, box, log):
        self.box, self.log = box, log
        self.sent, self.received = [], []

    def learn(self, det, holders, stable=False):
        known, mark = self.log.get(det, (frozenset(), False))
        self.log[det] = (known | holders, mark or stable)

    def unmarked(self):
        return sorted(det for det, (_, stable) in self.log.items() if not stable)

    def marked(self):
        return sorted(det for det, (_, stable) in self.log.items() if stable)

    def piggyback(self, f):
        return [
            (det, holders) for det, (holders, stable) in sorted(self.log.items()) if not stable and len(holders) <= f
        ]


class Run:
    def __init__(self, kind, n, f, param):
        self.kind, self.n, self.f, self.param = kind, n, f, param
        self.entries, self.listed, self.restarts = [], 0, 0
        self.store = set()
        self.memories = []
        for p in range(n):
            self.memories.append(Memory(Kind(kind, n, p, param), {}))
            self.send_all(p, self.memories[p].box.begin())

    def append(self, *entry):
        self.entries.append(entry)

    def send_all(self, p, sends):
        memory = self.memories[p]
        batch = memory.piggyback(self.f)
        for to, body in sends:
            if to < self.n:
                memory.sent.append((to, len(self.entries), batch, body))
                self.append("send", p, to, len(memory.sent) - 1)

    def full(self, entries, listed=0):
        return len(self.entries) + entries > traces.MAX_ENTRIES or self.listed + listed > traces.MAX_LISTED

    def up(self, p):
        if p >= self.n:
            raise Refused("NoProcess")
        if self.memories[p] is None:
            raise Refused("Down")
        return self.memories[p]

    def named(self, q):
        """The message of the least determinant, logged or stable, of q's next delivery."""
        memory = self.memories[q]
        slot = (q, len(memory.received))
        found = [det for det in self.store | set(memory.log) if det[2:] == slot]
        return min(found)[:2] if found else None

    def deliver(self, q, source, ssn):
        if q >= self.n or source >= self.n:
            raise Refused("NoProcess")
        memory = self.up(q)
        named = self.named(q)
        if named not in (None, (source, ssn)):
            raise Refused(f"MustReplay {named[0]} {named[1]}")
        sender = self.memories[source]
        if sender is None or ssn >= len(sender.sent) or sender.sent[ssn][0] != q:
            raise Refused("NotAvailable")
        if (source, ssn) in memory.received:
            raise Refused("AlreadyDelivered")
        _, position, batch, body = sender.sent[ssn]
        own = (source, ssn, q, len(memory.received))
        listed = sorted({own} | {det for det, _ in batch})
        if self.full(ROOM, len(listed)):
            raise Refused("Full")
        for det, holders in batch:
            memory.learn(det, holders | {source, q})
        memory.learn(own, frozenset({q}))
        self.append("deliver", q, position, own[3], listed)
        self.listed += len(listed)
        memory.received.append((source, ssn))
        self.send_all(q, memory.box.receive(source, body))

    def crash(self, p):
        self.up(p)
        if sum(memory is None for memory in self.memories) >= self.f:
            raise Refused("OverFaults")
        if self.full(1):
            raise Refused("Full")
        self.append("crash", p)
        self.memories[p] = None

    def restart(self, p):
        if p >= self.n:
            raise Refused("NoProcess")
        if self.memories[p] is not None:
            raise Refused("NotDown")
        fresh = Memory(Kind(self.kind, self.n, p, self.param), {})
        for memory in filter(None, self.memories):
            for det, (holders, stable) in memory.log.items():
                fresh.learn(det, holders | {p}, stable)
        for det in self.store:
            fresh.learn(det, frozenset({p}), True)
        listed = sorted(fresh.log)
        if self.full(ROOM, len(listed)) or self.restarts >= traces.MAX_RESTARTS:
            raise Refused("Full")
        self.restarts += 1
        self.append("restart", p, listed)
        self.listed += len(listed)
        self.memories[p] = fresh
        self.send_all(p, fresh.box.begin())

    def flush(self, p):
        memory = self.up(p)
        dets = memory.unmarked()
        if self.full(len(dets)):
            raise Refused("Full")
        for det in dets:
            self.store.add(det)
            self.append("stable", det)
            memory.learn(det, frozenset(), True)

    def forget(self, p):
        memory = self.up(p)
        dets = memory.marked()
        if not dets:
            return
        if self.full(1, len(dets)):
            raise Refused("Full")
        self.append("forget", p, dets)
        self.listed += len(dets)
        for det in dets:
            del memory.log[det]


    # ---- exploring

    def pending(self, q):
        """What up processes have sent to q and q has not delivered since it came up, by sender and number."""
        for source, sender in enumerate(self.memories):
            if sender is not None:
                for ssn, (to, *_) in enumerate(sender.sent):
                    if to == q and (source, ssn) not in self.memories[q].received:
                        yield source, ssn

    def moves(self):
        """What leads on, by process: the restart of one that is down, else each delivery that it may make."""
        for p in range(self.n):
            if self.memories[p] is None:
                yield "restart", p
            else:
                named = self.named(p)
                yield from (("deliver", p, *message) for message in self.pending(p) if named in (None, message))

    def disturbance(self, choice):
        p, kind = choice // 4 % self.n, choice % 4
        if kind == 0 and self.restarts < RESTARTS:
            return "crash", p
        return "forget" if kind == 1 else "flush", p

    def explore(self, seed, steps):
        """Goes on with calls that the seed chooses, as long as something leads on. Refused ones change nothing."""
        word = seed
        for _ in range(steps):
            moves = list(self.moves())
            if not moves:
                return
            word = (word * 6364136223846793005 + 1442695040888963407) % 2**64  # the sequence of Knuth's MMIX
            choice, kind = divmod(word >> 32, 8)
            name, *numbers = moves[choice % len(moves)] if kind else self.disturbance(choice)
            try:
                getattr(self, name)(*numbers)
            except Refused:
                pass


def spelled(value):
    if isinstance(value, (tuple, list)):
        return "[" + ",".join(map(spelled, value)) + "]"
    return f'"{value}"' if isinstance(value, str) else str(value)


def text_of(n, entries):
    """The canonical text."""
    version = 2 if n > 64 or any(entry[0] == "forget" for entry in entries) else 1
    lines = [("trace", version, n), *entries, ("end", len(entries))]
    return "".join(spelled(line) + "\n" for line in lines)


def ran(text):
    """What `run` has to print for a script, and its status."""
    script, fault = parsed(text)
    if fault:
        return "fault line=%d %s\n" % fault, 2
    (start, exploration), commands = script
    run = Run(*start)
    for line, (name, *numbers) in commands:
        try:
            getattr(run, name)(*numbers)
        except Refused as refused:
            return f"refused line={line} {refused}\n", 2
    if exploration:
        run.explore(*exploration)
    return text_of(run.n, run.entries), 0
