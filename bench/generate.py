#!/usr/bin/env python3
"""Makes large traces for the benchmark, without any code of the product.

A run of processes that log causally is simulated, and its trace is written. What the auditor has to answer is known from
how the trace was made. Everything is decided by the arguments and the seed, so the same command makes the same bytes.

    generate.py SHAPE VARIANT F [--part 8] [--seed 1] [--out FILE]
"""
import argparse
import json
import random
import sys

MAX_ENTRIES = 65_536
MAX_LISTED = 1_048_576
MAX_BYTES = 33_554_432
MAX_RESTARTS = 192

SHAPES = {
    "ring": "all processes send to the next one in rounds",
    "gossip": "any process sends to any other, and messages overtake each other",
    "star": "one hub and 255 others, in version 2",
    "chain": "one message is on its way at a time, so all entries are one happened-before chain",
    "restarts": "192 crashes and restarts, after each of which the process replays its past",
    "lists": "as many listed determinants as there may be, in lists of 32",
    "long": "as many listed determinants as there may be, most of them in some 40 lists of 19,000 and more",
    "bytes": "the trace of `lists` with spaces between the tokens, as long as a text may be",
    "line": "1,048,576 determinants on one line; no trace can have that many deliveries, so the answer is a fault",
}
VARIANTS = {
    "safe": "safe throughout",
    "breach": "the last delivery does not list its own determinant, and nothing else is wrong",
    "stable": "each delivery's determinant is written to stable storage at once",
}


class Message:
    def __init__(self, position, source, ssn, dest, carried):
        self.position = position
        self.source = source
        self.ssn = ssn
        self.dest = dest
        self.carried = carried


class Run:
    """A simulated run. A determinant is secure once it is stable or more than f processes (or all) hold it; the
    determinants on which a sender depends and that are not secure go along with its messages. Who holds what is known to
    all at once, as by perfect acknowledgements, so lists are as short as they can be."""

    def __init__(self, n, f, limit, longest, writes_all):
        self.n = n
        self.enough = min(f + 1, n)
        self.limit = limit
        self.longest = longest
        self.writes_all = writes_all
        self.entries = []
        self.sent = [0] * n
        self.delivered = [0] * n
        self.holders = {}
        self.stable = set()
        self.logs = [[] for _ in range(n)]
        self.carries = [{} for _ in range(n)]
        self.past = [[] for _ in range(n)]
        self.own = 0  # entries that are no replay

    def room(self):
        return self.limit - len(self.entries)

    def is_secure(self, det):
        return det in self.stable or self.holders[det].bit_count() >= self.enough

    def send(self, p, q):
        carries = {det: None for det in self.carries[p] if not self.is_secure(det)}
        self.carries[p] = carries
        message = Message(len(self.entries), p, self.sent[p], q, list(carries))
        self.entries.append(("send", p, q, message.ssn))
        self.past[p].append(("send", q, message.ssn))
        self.sent[p] += 1
        self.own += 1
        return message

    def hold(self, p, det):
        if not self.holders[det] >> p & 1:
            self.holders[det] |= 1 << p
            self.logs[p].append(det)

    def write(self, det):
        self.stable.add(det)
        self.entries.append(("stable", det))
        self.own += 1

    def deliver(self, message, logs_own=True):
        """Delivers, and first writes to stable storage what would make the list too long. An entry of room is needed for
        each determinant that is written."""
        q = message.dest
        det = (message.source, message.ssn, q, self.delivered[q])
        wanted = [d for d in message.carried if not self.is_secure(d) and not self.holders[d] >> q & 1]
        excess = max(0, len(wanted) + 1 - self.longest)
        for d in wanted[:excess]:
            self.write(d)
        wanted = wanted[excess:]
        self.holders[det] = 0
        if logs_own:
            wanted.append(det)
        for d in wanted:
            self.hold(q, d)
            self.carries[q][d] = None
        self.entries.append(("deliver", q, message.position, det[3], wanted, det))
        self.past[q].append(("deliver", message.position, det))
        self.delivered[q] += 1
        self.own += 1
        if self.writes_all and logs_own:
            self.write(det)

    def crash_and_restart(self, p):
        """p crashes, comes up with what is still to be had of its log, and replays its past up to the first delivery whose
        determinant nobody else has. Nobody depends on that one, since it was sent nowhere."""
        self.entries.append(("crash", p))
        lost = {d for d in self.logs[p] if self.holders[d] == 1 << p and d not in self.stable}
        kept = [d for d in self.logs[p] if d not in lost and d not in self.stable]
        self.entries.append(("restart", p, kept))
        self.own += 2
        self.logs[p] = list(kept)
        self.carries[p] = {d: None for d in kept}
        past = self.past[p]
        for i, event in enumerate(past):
            if event[0] == "deliver" and event[2] in lost:
                past = past[:i]
                break
        self.past[p] = past
        self.sent[p] = sum(event[0] == "send" for event in past)
        self.delivered[p] = len(past) - self.sent[p]
        for event in past:
            if event[0] == "send":
                self.entries.append(("send", p, event[1], event[2]))
            else:
                self.entries.append(("deliver", p, event[1], event[2][3], [], event[2]))

    def finish(self, draw, with_breach):
        """Fills the run up to its limit; the last delivery is made here."""
        last = 3 if self.writes_all and not with_breach else 2
        while self.room() > last:
            self.send(*draw())
        p, q = draw()
        # what the last message carries is made secure by its own list, which may be of any length
        self.longest = self.limit
        self.deliver(self.send(p, q), logs_own=not with_breach)


def spare(run):
    """The entries that a delivery may need beside itself."""
    return run.longest + 8


def run_ring(run, rng):
    step = lambda p: (p, (p + 1) % run.n)
    while run.room() > run.n * 4 + run.n * run.longest:
        for message in [run.send(*step(p)) for p in range(run.n)]:
            run.deliver(message)
    p = 0
    while run.room() > spare(run):
        run.deliver(run.send(*step(p)))
        p = (p + 1) % run.n
    return lambda: step(p)


def run_gossip(run, rng):
    def draw():
        p = rng.randrange(run.n)
        return p, (p + rng.randrange(1, run.n)) % run.n

    waiting = []
    while run.room() > spare(run):
        if len(waiting) < run.n and (not waiting or rng.random() < 0.5 + 0.5 / run.n):
            waiting.append(run.send(*draw()))
        else:
            i = rng.randrange(len(waiting))
            waiting[i], waiting[-1] = waiting[-1], waiting[i]
            run.deliver(waiting.pop())
    return draw


def run_star(run, rng):
    turn = 0
    while run.room() > 2 * spare(run):
        other = 1 + turn % (run.n - 1)
        run.deliver(run.send(other, 0))
        run.deliver(run.send(0, 1 + rng.randrange(run.n - 1)))
        turn += 1
    return lambda: (1 + rng.randrange(run.n - 1), 0)


def run_chain(run, rng):
    at = 0
    while run.room() > spare(run):
        to = (at + rng.randrange(1, run.n)) % run.n
        run.deliver(run.send(at, to))
        at = to
    return lambda: (at, (at + 1) % run.n)


def run_lists(run, rng):
    at = 0
    while run.room() > spare(run):
        run.deliver(run.send(at, (at + 1) % run.n))
        at = (at + 1) % run.n
    return lambda: (at, (at + 1) % run.n)


def run_restarts(run, rng, restarts):
    def draw():
        p = rng.randrange(run.n)
        return p, (p + rng.randrange(1, run.n)) % run.n

    # each process replays about all that it has done, some three times, so not half of the entries are its own; for more restarts fewer are
    apart = run.limit / max(2.7, 1.08 * (1 + restarts / (2 * run.n))) / (restarts + 1)
    done = 0
    while run.room() > spare(run):
        if done < restarts and run.own >= (done + 1) * apart:
            p = done % run.n
            if run.room() <= len(run.past[p]) + spare(run):
                break
            run.crash_and_restart(p)
            done += 1
        else:
            run.deliver(run.send(*draw()))
    if done < restarts:
        raise SystemExit(f"only {done} of {restarts} restarts fit")
    return draw


def deliveries_of(entries):
    return [i for i, entry in enumerate(entries) if entry[0] == "deliver"]


def pad_evenly(entries, listed):
    """Lists older determinants again, the latest first, until so many are listed in all and no list is much longer than
    another."""
    places = deliveries_of(entries)
    dets = [entries[i][5] for i in places]
    short = listed - sum(len(entries[i][4]) for i in places)
    for number, place in enumerate(places):
        entry = entries[place]
        share = -(-short // (len(places) - number))
        has = set(entry[4])
        latest = reversed(dets[max(0, number - 2 * share - len(has)) : number])
        more = [d for d in latest if d not in has][:share]
        entry[4].extend(more)
        short -= len(more)
    if short:
        raise SystemExit(f"{short} determinants are listed too few")


def pad_few(entries, listed):
    """Lists all determinants so far at some deliveries of the second half, until so many are listed in all."""
    places = deliveries_of(entries)
    dets = [entries[i][5] for i in places]
    short = listed - sum(len(entries[i][4]) for i in places)
    step = max(1, len(places) // 2 // 48)
    for number in range(len(places) - 1, -1, -step):
        entry = entries[places[number]]
        has = set(entry[4])
        more = [d for d in dets[:number] if d not in has][:short]
        entry[4].extend(more)
        short -= len(more)
    if short:
        raise SystemExit(f"{short} determinants are listed too few")


def spell(det):
    return "[%d,%d,%d,%d]" % det


def spell_list(dets):
    return ",".join(map(spell, sorted(dets)))


def line_of(entry):
    kind = entry[0]
    if kind == "send":
        return '["send",%d,%d,%d]' % entry[1:]
    if kind == "deliver":
        return '["deliver",%d,%d,%d,[%s]]' % (*entry[1:4], spell_list(entry[4]))
    if kind == "stable":
        return '["stable",%s]' % spell(entry[1])
    if kind == "crash":
        return '["crash",%d]' % entry[1]
    return '["%s",%d,[%s]]' % (kind, entry[1], spell_list(entry[2]))


def text_of(version, n, entries):
    lines = ['["trace",%d,%d]' % (version, n)]
    lines.extend(map(line_of, entries))
    lines.append('["end",%d]\n' % len(entries))
    return "\n".join(lines)


def widened(text, size):
    """The text with spaces after its commas, so many bytes long."""
    each, rest = divmod(size - len(text), text.count(","))
    *first, last = text.split(",", rest)
    wide = "".join(part + "," + " " * (each + 1) for part in first)
    return wide + last.replace(",", "," + " " * each)


def one_line(part):
    """A text whose third line lists as many determinants as a trace may list, of deliveries that nobody made."""
    dets = ("[0,%d,0,0]" % i for i in range(MAX_LISTED // part))
    return "\n".join(
        ['["trace",1,64]', '["send",0,1,0]', '["deliver",1,0,0,[%s]]' % ",".join(dets), '["end",2]\n']
    )


def processes_of(shape):
    if shape == "star":
        return 256
    return {"chain": 8, "lists": 32, "long": 32, "bytes": 32}.get(shape, 64)


def f_of(word, n):
    return n if word == "n" else int(word)


def answer_of(variant, f, entries):
    """What the auditor has to answer, and the status with which it ends."""
    crashes = [i for i, entry in enumerate(entries) if entry[0] == "crash"]
    if f == 0 and crashes:
        return f"exceeded f=0 instant={crashes[0] + 1} down={entries[crashes[0]][1]}", 1
    if variant == "breach":
        orphan = entries[-1][1]
        return f"orphan f={f} instant={len(entries)} delivery={len(entries) - 1} crash=- orphan={orphan}", 1
    return f"accept f={f} entries={len(entries)} deliveries={len(deliveries_of(entries))}", 0


def simulate(shape, variant, f, part, seed):
    n = processes_of(shape)
    limit = MAX_ENTRIES // part
    # a crash makes any run unsafe for f = 0, so there the run is the one for f = 1
    kept_for = max(1, f) if shape == "restarts" else f
    longest = 1 if variant == "stable" else MAX_LISTED // (MAX_ENTRIES // 2)
    run = Run(n, kept_for, limit, longest, variant == "stable")
    rng = random.Random(f"{shape} {variant} {f} {part} {seed}")
    if shape == "restarts":
        draw = run_restarts(run, rng, MAX_RESTARTS // part)
    elif shape in ("lists", "long", "bytes"):
        draw = run_lists(run, rng)
    else:
        draw = {"ring": run_ring, "gossip": run_gossip, "star": run_star, "chain": run_chain}[shape](run, rng)
    run.finish(draw, variant == "breach")
    if shape in ("lists", "bytes"):
        pad_evenly(run.entries, MAX_LISTED // part)
    if shape == "long":
        pad_few(run.entries, MAX_LISTED // part)
    return n, run.entries


def make(shape, variant, f_word, part=1, seed=1):
    """The text and what is known of it."""
    n = processes_of(shape)
    f = f_of(f_word, n)
    if shape == "line":
        text = one_line(part)
        listed = MAX_LISTED // part
        about = {"entries": 2, "deliveries": 1, "listed": listed, "answer": "fault line=3 NoDelivery", "status": 2}
    else:
        n, entries = simulate(shape, variant, f, part, seed)
        text = text_of(2 if n > 64 else 1, n, entries)
        if shape == "bytes":
            text = widened(text, MAX_BYTES // part)
        answer, status = answer_of(variant, f, entries)
        about = {
            "entries": len(entries),
            "deliveries": len(deliveries_of(entries)),
            "listed": sum(len(e[4]) for e in entries if e[0] == "deliver")
            + sum(len(e[2]) for e in entries if e[0] == "restart"),
            "answer": answer,
            "status": status,
        }
    about.update(shape=shape, variant=variant, f=f, f_word=f_word, part=part, processes=n, bytes=len(text))
    return text, about


def main():
    words = argparse.ArgumentParser(description=__doc__.split("\n")[0])
    words.add_argument("shape", choices=SHAPES)
    words.add_argument("variant", choices=VARIANTS)
    words.add_argument("f", help="0, 1, 3, .. or n for the number of processes")
    words.add_argument("--part", type=int, default=1, help="every limit is divided by this (1)")
    words.add_argument("--seed", type=int, default=1)
    words.add_argument("--out", help="the file to write; beside it FILE.about says what is known of it")
    given = words.parse_args()
    text, about = make(given.shape, given.variant, given.f, given.part, given.seed)
    if given.out is None:
        sys.stdout.write(text)
        print(json.dumps(about), file=sys.stderr)
        return
    with open(given.out, "w") as file:
        file.write(text)
    with open(given.out + ".about", "w") as file:
        json.dump(about, file)


if __name__ == "__main__":
    main()
