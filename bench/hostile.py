#!/usr/bin/env python3
"""Makes traces and texts that someone chose to make an auditor slow, without any code of the product. What the auditor has
to answer is known from how each was made, or, where an early instant is unsafe, from a plain reader that judges instant by
instant from the definitions. The same command makes the same bytes.

    hostile.py SHAPE F [--part 8] [--seed 1]
"""
import argparse
import functools
import random
import sys

import generate
from generate import MAX_BYTES, MAX_ENTRIES, MAX_LISTED, MAX_RESTARTS
from reader import first_breach

SHAPES = {
    "colliding": "one process delivers to itself in an order for which the determinants collide in the hash of the kit's "
    "`HashMap`, whose seed is fixed, and the last deliveries list 8,192 each",
    "scattered": "the same deliveries in a random order",
    "replayed": "one process crashes and restarts 192 times and replays 105 deliveries, whose lists name all 105",
    "early": "256 processes; 192 crashes and restarts come first",
    "late": "256 processes; 192 crashes and restarts come last",
    "down": "256 processes, of which one is down from the first instant on",
    "orphaned": "256 processes, of which one depends on the first delivery, which nobody lists, from then on",
    "shared": "256 processes; nearly all lists name the same determinants, so that each is held in many lanes",
    "released": "a determinant is forgotten and listed in turn, while very many deliveries of it and others stand",
    "forgotten": "256 processes; a message goes from each to the next one, and the last entry forgets the first delivery's determinant, "
    "on which the last process depends by a chain over all",
    "everywhere": "one process crashes and restarts 192 times and replays 160 deliveries, and each time another process comes to depend on "
    "them and lists all: for as many faults as there are processes all are open to the end",
    "reaching": "64 processes with 192 crashes and restarts, and one message on its way: each delivery soon reaches all processes, and two "
    "hold its determinant",
    "buried": "one process delivers 32 messages in another order after each of its first restarts and in one order after all others; what it "
    "delivered first is then listed again and again",
    "overlapping": "64 processes, of which one or two are always down, by turns; process 0 delivers messages of another one and alone holds each",
    "spared": "the same, but another process holds each determinant too, and a third one was reached, so that each is safe for two as long as "
    "any process is down",
}
ONE_LINE = {
    "objects": "one line of objects with an empty name",
    "nested arrays": "one line of arrays in arrays, 126 deep",
    "nested objects": "one line of objects in objects, 126 deep",
}
LINES = {
    **ONE_LINE,
    "short lines": "lines of 16,384 bytes, of objects with an empty name, behind 8,192 entries: each worker builds the tree of one",
}
SHORT = 16_384  # bytes of a line that is not scanned before its tree is built
BEFORE = 8_192  # entries before the short lines
MULTIPLIER = 0x9E37_79B9_7F4A_7C15
INITIAL = 0x243F_6A88_85A3_08D3
WORD = (1 << 64) - 1


def folded(state, number, length):
    """One write of the kit's fixed hash."""
    product = (state ^ number) * (MULTIPLIER ^ (2 * length))
    return (product & WORD) ^ (product >> 64)


def colliding_order(count, rng):
    """For each receive number the send number of a message that nobody has delivered yet, so that the determinants'
    homes in a table of so many entries lie side by side."""
    groups = 1
    while 9 * groups < count:
        groups *= 2
    homes = max(1, groups // 64)
    states = []
    for ssn in range(count):
        state = folded(folded(INITIAL, 0, 1), ssn | ssn << 32, 4)
        states.append((ssn, folded(state, 0, 1)))
    rng.shuffle(states)
    order = []
    for rsn in range(count):
        number = rsn | rsn << 32
        at = 0
        for at, (_, state) in enumerate(states):
            mixed = folded(state, number, 4)
            if (mixed ^ mixed >> 32) & (groups - 1) < homes:
                break
        states[at], states[-1] = states[-1], states[at]
        order.append(states.pop()[0])
    return order


def self_deliveries(part, rng, colliding):
    count = 32_700 // part
    order = colliding_order(count, rng) if colliding else rng.sample(range(count), count)
    entries = [("send", 0, 0, ssn) for ssn in range(count)]
    dets = [(0, ssn, 0, rsn) for rsn, ssn in enumerate(order)]
    lists = max(1, 124 // part)
    each = (MAX_LISTED // part - count) // lists
    for rsn, ssn in enumerate(order):
        more = dets[:rsn][:each] if rsn >= count - lists else []
        entries.append(("deliver", 0, ssn, rsn, [*more, dets[rsn]], dets[rsn]))
    return 1, entries


def replayed(part, rng):
    count, restarts, left = 105, max(1, MAX_RESTARTS // part), MAX_LISTED // part
    dets = [(0, i, 1, i) for i in range(count)]
    entries = [("send", 0, 1, i) for i in range(count)]
    to_come = count * (restarts + 1)
    for lane in range(restarts + 1):
        if lane:
            entries += [("crash", 1), ("restart", 1, [])]
        for i in range(count):
            to_come -= 1
            listed = dets if lane and left - count >= to_come else [dets[i]]
            left -= len(listed)
            entries.append(("deliver", 1, i, i, listed, dets[i]))
    return 2, entries


def pairs(count):
    """Deliveries from even processes to the odd ones beside them, each listed by its receiver alone."""
    sent, delivered, entries = [0] * 256, [0] * 256, []
    for i in range(count):
        p = 2 * (i % 128)
        entries.append(("send", p, p + 1, sent[p]))
        det = (p, sent[p], p + 1, delivered[p + 1])
        entries.append(["deliver", p + 1, len(entries) - 1, det[3], [det], det])
        sent[p] += 1
        delivered[p + 1] += 1
    return entries


def moved(entries, by):
    """The entries with so many others before them."""
    return [(*e[:2], e[2] + by, *e[3:]) if e[0] == "deliver" else e for e in entries]


def restarts_of(part):
    return [entry for i in range(max(1, MAX_RESTARTS // part)) for entry in (("crash", i), ("restart", i, []))]


def early(part, rng):
    turns = restarts_of(part)
    return 256, turns + moved(pairs((MAX_ENTRIES // part - len(turns)) // 2), len(turns))


def late(part, rng):
    turns = restarts_of(part)
    return 256, pairs((MAX_ENTRIES // part - len(turns)) // 2) + turns


def down(part, rng):
    run = generate.Run(255, 1, MAX_ENTRIES // part - 1, 32, False)
    draw = generate.run_gossip(run, rng)
    run.finish(draw, False)
    return 256, [("crash", 255)] + moved(run.entries, 1)


def orphaned(part, rng):
    run = generate.Run(256, 1, MAX_ENTRIES // part, 32, False)
    draw = generate.run_gossip(run, rng)
    run.finish(draw, False)
    first = generate.deliveries_of(run.entries)[0]
    run.entries[first][4].clear()
    return 256, run.entries


def shared(part, rng):
    run = generate.Run(256, 1, MAX_ENTRIES // part, 32, False)
    draw = generate.run_chain(run, rng)
    run.finish(draw, False)
    places = generate.deliveries_of(run.entries)
    dets = [run.entries[i][5] for i in places]
    left = MAX_LISTED // part - sum(len(run.entries[i][4]) for i in places)
    share = left // len(places)
    for number, place in enumerate(places):
        listed = run.entries[place][4]
        listed.extend([d for d in dets[: min(number, share)] if d not in listed])
    return 256, run.entries


def released(part, rng):
    """Process 0 sends to 1, which crashes and replays in all of its lanes; process 0 lists the determinants and forgets
    them again and again, between which nothing else changes."""
    lanes, count = max(1, MAX_RESTARTS // part), 100
    dets = [(0, i, 1, i) for i in range(count)]
    entries = [("send", 0, 1, i) for i in range(count)]
    for lane in range(lanes + 1):
        if lane:
            entries += [("crash", 1), ("restart", 1, [])]
        entries += [("deliver", 1, i, i, [dets[i]], dets[i]) for i in range(count)]
    listed, ssn, rsn = count * (lanes + 1), count, 0
    while listed + 2 * count + 1 < MAX_LISTED // part and len(entries) + 3 <= MAX_ENTRIES // part:
        entries.append(("send", 0, 0, ssn))
        own = (0, ssn, 0, rsn)
        entries.append(("deliver", 0, len(entries) - 1, rsn, [*dets, own], own))
        entries.append(("forget", 0, dets))
        listed, ssn, rsn = listed + 2 * count + 1, ssn + 1, rsn + 1
    return 2, entries


def forgotten(part, rng):
    """The last process sends to the one before it, which delivers and answers, so that both hold the determinant; from there a
    message goes down to process 0, each list naming the delivery before it. Process 0 then delivers to itself, with long lists,
    until the last process forgets."""
    limit, left = MAX_ENTRIES // part, MAX_LISTED // part
    n = min(256, limit // 4)
    first, answer = (n - 1, 0, n - 2, 0), (n - 2, 0, n - 1, 0)
    entries = [("send", n - 1, n - 2, 0), ("deliver", n - 2, 0, 0, [first], first)]
    entries += [("send", n - 2, n - 1, 0), ("deliver", n - 1, 2, 0, [first, answer], answer)]
    carried = []
    for p in range(n - 2, 0, -1):
        ssn = 1 if p == n - 2 else 0
        det = (p, ssn, p - 1, 0)
        entries.append(("send", p, p - 1, ssn))
        entries.append(("deliver", p - 1, len(entries) - 1, 0, [*carried, det], det))
        carried = [det]
    left -= sum(len(entry[4]) for entry in entries if entry[0] == "deliver") + 1
    rounds = (limit - 1 - len(entries)) // 2
    dets = [(0, i, 0, i + 1) for i in range(rounds)]
    for i, det in enumerate(dets):
        listed = dets[max(0, i + 1 - max(1, left // (rounds - i))) : i + 1]
        entries += [("send", 0, 0, i), ("deliver", 0, len(entries), i + 1, listed, det)]
        left -= len(listed)
    entries.append(("forget", n - 1, [first]))
    return n, entries


def everywhere(part, rng):
    """Process 1 delivers the messages of 0 in all of its lanes; each lane sends to a process of its own."""
    lanes, count = max(1, MAX_RESTARTS // part), max(1, 160 // part)
    dets = [(0, i, 1, i) for i in range(count)]
    entries = [("send", 0, 1, i) for i in range(count)]
    for lane in range(lanes + 1):
        if lane:
            entries += [("crash", 1), ("restart", 1, [])]
        entries += [("deliver", 1, i, i, [dets[i]], dets[i]) for i in range(count)]
        own = (1, 0, lane + 2, 0)
        entries.append(("send", 1, lane + 2, 0))
        entries.append(("deliver", lane + 2, len(entries) - 1, 0, [*dets, own], own))
    return lanes + 3, entries


def reaching(part, rng):
    """One message goes from process to process; each list names the delivery and the one before it. A process restarts with its
    whole log. A process sends a message of the same number to another one in each of its lanes."""
    n, limit, restarts = 64, MAX_ENTRIES // part, max(1, MAX_RESTARTS // part)
    sent, delivered, lanes, logs = [0] * n, [0] * n, [0] * n, [set() for _ in range(n)]
    entries, carried, at, done = [], [], 0, 0
    while len(entries) + 4 <= limit:
        if done < restarts and len(entries) >= (done + 1) * limit // (restarts + 1):
            p = done % n if done % n != at else (done + 1) % n
            entries += [("crash", p), ("restart", p, sorted(logs[p]))]
            sent[p], delivered[p], lanes[p], done = 0, 0, lanes[p] + 1, done + 1
        to = (at + 1 + sent[at] + 17 * lanes[at]) % n
        det = (at, sent[at], to, delivered[to])
        entries.append(("send", at, to, sent[at]))
        sent[at] += 1
        entries.append(("deliver", to, len(entries) - 1, delivered[to], sorted({*carried, det}), det))
        delivered[to] += 1
        logs[to].update(carried, [det])
        carried, at = [det], to
    return n, entries


def buried(part, rng):
    """The newest delivery of each determinant that is listed at the end is behind those of nearly all lanes."""
    lanes, count, left = max(1, MAX_RESTARTS // part), 32, MAX_LISTED // part
    entries, early = [("send", 0, 1, i) for i in range(count)], set()
    for lane in range(lanes + 1):
        if lane:
            entries += [("crash", 1), ("restart", 1, [])]
        turn = lane if lane < min(count, lanes // 2) else 0
        for rsn in range(count):
            det = (0, (rsn + turn) % count, 1, rsn)
            entries.append(("deliver", 1, det[1], rsn, [det], det))
            if turn:
                early.add(det)
    left -= count * (lanes + 1)
    rounds = min(left // (len(early) + 1), (MAX_ENTRIES // part - len(entries)) // 2)
    for i in range(rounds):
        own = (0, count + i, 0, i)
        entries += [("send", 0, 0, count + i), ("deliver", 0, len(entries), i, sorted([*early, own]), own)]
    return 2, entries


class TurnsDown:
    """A run of 64 processes in which process 62 was reached by process 0, and the others crash by turns: each before the last one to crash
    restarts, so that one or two are down from the third instant on."""

    def __init__(self, part, others):
        first = (0, 0, 62, 0)
        self.entries = [("send", 0, 62, 0), ("deliver", 62, 0, 0, [first], first), ("crash", 1)]
        self.others, self.down, self.turns = others, 1, max(1, MAX_RESTARTS // part)
        self.each = (MAX_ENTRIES // part - len(self.entries) - 2 * self.turns) // self.turns

    def turn(self):
        after = self.down % self.others + 1
        self.entries += [("crash", after), ("restart", self.down, [])]
        self.down = after

    def deliver(self, source, ssn, dest, rsn, listed):
        """Sends and delivers a message, whose delivery lists these and its own."""
        own = (source, ssn, dest, rsn)
        self.entries += [("send", source, dest, ssn), ("deliver", dest, len(self.entries), rsn, sorted([*listed, own]), own)]
        return own


def overlapping(part, rng):
    """Process 0 sends once, and what it delivers from then on has no effect elsewhere."""
    run, ssn = TurnsDown(part, 62), 0
    for _ in range(run.turns):
        for ssn in range(ssn, ssn + run.each // 2):
            run.deliver(63, ssn, 0, ssn, [])
        ssn += 1
        run.turn()
    return 64, run.entries


def spared(part, rng):
    """Process 61 lists what process 0 delivers, eight determinants at a time."""
    run, ssn, sent = TurnsDown(part, 60), 0, 0
    for _ in range(run.turns):
        for sent in range(sent, sent + run.each // 18):
            listed = [run.deliver(63, ssn + i, 0, ssn + i, []) for i in range(8)]
            run.deliver(0, sent + 1, 61, sent, listed)
            ssn += 8
        sent += 1
        run.turn()
    return 64, run.entries


MAKERS = {
    "colliding": lambda part, rng: self_deliveries(part, rng, True),
    "scattered": lambda part, rng: self_deliveries(part, rng, False),
    "replayed": replayed,
    "early": early,
    "late": late,
    "down": down,
    "orphaned": orphaned,
    "shared": shared,
    "released": released,
    "forgotten": forgotten,
    "everywhere": everywhere,
    "reaching": reaching,
    "buried": buried,
    "overlapping": overlapping,
    "spared": spared,
}


# For so many faults and more an early instant is unsafe: each of these runs logs for fewer.
EARLY_FROM = {"down": 3, "shared": 2, "forgotten": 2, "reaching": 2}
# For so many faults an early instant has too many down.
EXCEEDED_FOR = {"overlapping": 1, "spared": 1}


def answer_of(shape, f, n, entries):
    """What the auditor has to answer, and the status with which it ends."""
    if f >= EARLY_FROM.get(shape, f + 1) or f == EXCEEDED_FOR.get(shape):
        return first_breach(n, entries, f), 1
    first = generate.deliveries_of(entries)[0]
    if shape == "orphaned":
        return f"orphan f={f} instant={first + 1} delivery={first} crash=- orphan={entries[first][1]}", 1
    if shape == "forgotten" and f == 1:
        return f"orphan f={f} instant={len(entries)} delivery={first} crash={entries[first][1]} orphan=0", 1
    return generate.answer_of("safe", f, entries)


def text_of(n, entries):
    version = 2 if n > 64 or any(entry[0] == "forget" for entry in entries) else 1
    return generate.text_of(version, n, entries)


def repeated(piece, size):
    return "[" + ",".join([piece] * ((size - 2) // (len(piece) + 1))) + "]"


def short_lines(size):
    """Sends that no process delivers, and then the lines."""
    sends = "".join(f'["send",0,1,{number}]\n' for number in range(BEFORE))
    line = repeated('{"":0}', SHORT) + "\n"
    return '["trace",1,2]\n' + sends + line * ((size - len(sends)) // len(line) - 1)


def hostile_lines(shape, size):
    """The text of lines, and the number of the first that is wrong."""
    if shape == "short lines":
        return short_lines(size), BEFORE + 2
    return one_line(shape, size), 1


def one_line(shape, size):
    piece = {
        "objects": '{"":0}',
        "nested arrays": "[" * 126 + "]" * 126,
        "nested objects": '{"":' * 126 + "0" + "}" * 126,
    }[shape]
    return repeated(piece, size - 1) + "\n"


@functools.lru_cache(maxsize=1)
def made(shape, part, seed):
    """The text, which is the same for every f, with the number of processes and the entries."""
    n, entries = MAKERS[shape](part, random.Random(f"{shape} {part} {seed}"))
    return text_of(n, entries), n, entries


def make(shape, f_word, part=1, seed=1):
    """The text and what is known of it."""
    if shape in LINES:
        f = int(f_word)
        text, line = hostile_lines(shape, MAX_BYTES // part)
        about = {"processes": 0, "entries": 0, "deliveries": 0, "listed": 0, "answer": f"fault line={line} Form", "status": 2}
    else:
        text, n, entries = made(shape, part, seed)
        f = generate.f_of(f_word, n)
        answer, status = answer_of(shape, f, n, entries)
        about = {
            "processes": n,
            "entries": len(entries),
            "deliveries": len(generate.deliveries_of(entries)),
            "listed": sum(len(e[{"deliver": 4}.get(e[0], 2)]) for e in entries if e[0] in ("deliver", "restart", "forget")),
            "answer": answer,
            "status": status,
        }
    about.update(shape=shape, variant="hostile", f=f, f_word=f_word, part=part, bytes=len(text))
    return text, about


def set_limits(entries):
    """Sets the limits that `--entries` sets."""
    global MAX_ENTRIES, MAX_LISTED, MAX_RESTARTS
    MAX_ENTRIES, MAX_LISTED = entries, 16 * entries
    MAX_RESTARTS = min(65_536, entries // 256) if entries > 65_536 else MAX_RESTARTS


def main():
    words = argparse.ArgumentParser(description=__doc__.split("\n")[0])
    words.add_argument("shape", choices=[*SHAPES, *LINES])
    words.add_argument("f", help="0, 1, 2, .. or n for the number of processes; a number for a line")
    words.add_argument("--part", type=int, default=1, help="every limit is divided by this (1)")
    words.add_argument("--seed", type=int, default=1)
    words.add_argument("--entries", type=int, help="the limit of entries, which sets the others, in place of the default")
    given = words.parse_args()
    if given.entries:
        set_limits(given.entries)
    text, about = make(given.shape, given.f, given.part, given.seed)
    sys.stdout.write(text)
    print(about, file=sys.stderr)


if __name__ == "__main__":
    main()
