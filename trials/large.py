#!/usr/bin/env python3
"""Runs the built program on runs of so many deliveries that several workers have some to follow, with verdicts worked out by hand.
Small runs of the same shapes are judged by the plain model (traces.py) first, which has to say the same.

    trials/large.py [--program PATH]
"""
import argparse
import os
import subprocess
import sys

import fuzz
import scripts
import traces

WORKERS = (1, 2, 3, 16, 64)


def text_of(n, entries):
    lines = [("trace", 2, n), *entries, ("end", len(entries))]
    return "".join(scripts.spelled(line) + "\n" for line in lines).encode()


def orphan(f, instant, delivery, crash, process):
    return f"orphan f={f} instant={instant} delivery={delivery} crash={traces.joined(crash)} orphan={process}"


def accepted(f, entries):
    return f"accept f={f} entries={len(entries)} deliveries={sum(entry[0] == 'deliver' for entry in entries)}"


def received(count):
    """0 sends so many messages to 1, which lists each as it delivers it."""
    entries = []
    for number in range(count):
        entries.append(("send", 0, 1, number))
        entries.append(("deliver", 1, len(entries) - 1, number, [[0, number, 1, number]]))
    return entries


def unlisted(count):
    """1 then sends to 2, which lists nothing of them: with 1 down, 2 depends on the first, which nobody has."""
    entries = received(count)
    entries += [("send", 1, 2, 0), ("deliver", 2, len(entries), 0, [[1, 0, 2, 0]])]
    return 3, entries, 1, orphan(1, 2 * count + 2, 1, [1], 2)


def passed_on(count, lacking):
    """1 then sends to 2, which lists them all, and 2 to 3, which lists all but one. Two hold each, so all are followed for two."""
    entries, send = received(count), 2 * count
    listed = [[0, number, 1, number] for number in range(count)]
    entries += [("send", 1, 2, 0), ("deliver", 2, send, 0, [*listed, [1, 0, 2, 0]])]
    del listed[lacking]
    entries += [("send", 2, 3, 0), ("deliver", 3, send + 2, 0, [*listed, [1, 0, 2, 0], [2, 0, 3, 0]])]
    return 4, entries, 2, orphan(2, send + 4, 2 * lacking + 1, [1, 2], 3)


# What 2 and 3 have of the first delivery, what 1 delivers in each incarnation, what 0 delivers halfway, and what 2 delivers of 1.
FIRST, AGAIN, MIDDLE, PASSED = [0, 0, 2, 0], [0, 1, 1, 0], [0, 2, 0, 0], [1, 0, 2, 1]

# 0 sends to 2, and that to 3, which lists both deliveries; then 0 sends to 1.
BEGINNING = [
    ("send", 0, 2, 0),
    ("deliver", 2, 0, 0, [FIRST]),
    ("send", 2, 3, 0),
    ("deliver", 3, 2, 0, [FIRST, [2, 0, 3, 0]]),
    ("send", 0, 1, 1),
    ("deliver", 1, 4, 0, [AGAIN]),
]


def replays(count):
    """1 delivers again what it delivered in the beginning, in so many incarnations."""
    return [("crash", 1), ("restart", 1, [AGAIN]), ("deliver", 1, 4, 0, [AGAIN])] * count


def loss(kind, send):
    """How a delivery gets an orphan where two may crash, as the next entries, and the verdict that comes of it first."""
    if kind == "first":
        return [("forget", 3, [FIRST])], orphan(2, send + 1, 1, [2], 3)
    if kind == "both":
        return [("forget", 3, [FIRST, PASSED])], orphan(2, send + 1, 1, [2], 3)
    if kind == "middle":
        return [("forget", 0, [MIDDLE])], orphan(2, send + 1, send // 2 + 1, [], 0)
    return [("send", 1, 1, 1), ("deliver", 1, send, 1, [])], orphan(2, send + 2, send + 1, [], 1)


def losing(half, kinds):
    """1 delivers one message in twice so many incarnations; between them 0 delivers one of its own, and what 1 sends is passed on to 2
    and to 3. Until the losses whoever depends on a delivery holds its determinant, or more than two do."""
    entries = BEGINNING + replays(half)
    entries += [("send", 0, 0, 2), ("deliver", 0, len(entries), 0, [MIDDLE]), *replays(half)]
    send = len(entries)
    entries += [
        ("send", 1, 2, 0),
        ("deliver", 2, send, 1, [AGAIN, PASSED]),
        ("send", 2, 3, 1),
        ("deliver", 3, send + 2, 1, [AGAIN, PASSED, [2, 1, 3, 1]]),
    ]
    said = accepted(2, entries)
    for at, kind in enumerate(kinds):
        more, verdict = loss(kind, len(entries))
        said = verdict if at == 0 else said
        entries += more
    return 4, entries, 2, said


def losing_early(early, late):
    """The same, where 3 forgets the first delivery between two rows of incarnations, and 1 lists nothing of a delivery in the end."""
    entries = BEGINNING + replays(early)
    instant = len(entries) + 1
    entries += [("forget", 3, [FIRST]), *replays(late)]
    entries += [("send", 1, 1, 0), ("deliver", 1, len(entries), 1, [])]
    return 4, entries, 2, orphan(2, instant, 1, [2], 3)


def replayed(count):
    """1 delivers a message, and again in so many incarnations; then it sends to 2, which lists it too. Two hold what they share."""
    again = [("crash", 1), ("restart", 1, [[0, 0, 1, 0]]), ("deliver", 1, 0, 0, [[0, 0, 1, 0]])]
    entries = [("send", 0, 1, 0), again[2], *again * count]
    entries += [("send", 1, 2, 0), ("deliver", 2, len(entries), 0, [[0, 0, 1, 0], [1, 0, 2, 0]])]
    return 4, entries, 2, accepted(2, entries)


def relisted(count):
    """1 sends to 2 so many messages, and 2 lists the first delivery of 1 with each; then it forgets that, which 1 alone holds from then."""
    entries = received(1)
    for number in range(count):
        entries += [("send", 1, 2, number), ("deliver", 2, len(entries), number, [[0, 0, 1, 0], [1, number, 2, number]])]
    entries.append(("forget", 2, [[0, 0, 1, 0]]))
    return 3, entries, 1, orphan(1, len(entries), 1, [1], 2)


def token(count):
    """A token goes round, so many times delivered. Each message brings the determinant of the delivery before it, so two hold each."""
    hops = [(place % 5, (place + 1) % 5, place // 5) for place in range(count)]
    dets = [[sender, number, receiver, number] for sender, receiver, number in hops]
    entries = []
    for place, (sender, receiver, number) in enumerate(hops):
        listed = sorted(dets[max(place - 1, 0) : place + 1])
        entries += [("send", sender, receiver, number), ("deliver", receiver, 2 * place, number, listed)]
    return 5, entries, 1, accepted(1, entries)


ORDERS = (("last", "first", "middle"), ("middle", "last", "first"), ("first", "middle", "last"), ("both", "middle", "last"), ())
SMALL = [
    unlisted(3),
    *(passed_on(3, lacking) for lacking in range(3)),
    *(losing(1, kinds) for kinds in ORDERS),
    losing_early(1, 1),
    replayed(3),
    relisted(3),
    relisted(300),
    token(12),
]
LARGE = [
    unlisted(4097),
    *(passed_on(600, lacking) for lacking in (0, 255, 256, 300, 511, 512, 599)),
    *(losing(95, kinds) for kinds in ORDERS),
    losing_early(5, 185),
    replayed(190),
    token(65_537),
]
# Runs with more than 192 restarts, which need a greater limit of entries.
MANY = [*(losing(1_000, kinds) for kinds in ORDERS), losing_early(5, 2_000), replayed(4_096)]
MANY_LIMIT = 1_048_576


def output_of(program, command, words, limit, text):
    words = [program, command, *words, "--entries", str(limit)]
    return subprocess.run(words, input=text, capture_output=True, timeout=60).stdout.decode()


def wrong_of_many(program, n, entries, f, wanted):
    """What the program says wrongly of a run with many restarts: they deliver what they did before, so that no recovery strays."""
    text = text_of(n, entries)
    followed = accepted(f, entries).replace(f"accept f={f}", "followed") + "\n"
    said = {"explain": output_of(program, "explain", ["--faults", str(f)], MANY_LIMIT, text).split("\n")[0]}
    said["replays"] = output_of(program, "replays", [], MANY_LIMIT, text)
    said["audit with fewer"] = output_of(program, "audit", ["--faults", str(f)], 65_536, text)
    right = {"explain": wanted, "replays": followed, "audit with fewer": f"fault line={lines_of_restarts(entries)[traces.MAX_RESTARTS]} Lanes\n"}
    return [f"{len(entries)} entries: {name} says {said[name]}, and not {right[name]}" for name in right if said[name] != right[name]]


def lines_of_restarts(entries):
    return [line for line, entry in enumerate(entries, 2) if entry[0] == "restart"]


def main():
    given = argparse.ArgumentParser(description=__doc__.split("\n\n")[0])
    given.add_argument("--program", default=fuzz.PROGRAM)
    program = given.parse_args().program
    wrong = 0
    for n, entries, f, wanted in SMALL:
        said = traces.audited(text_of(n, entries), f)[0]
        if said != wanted:
            wrong += 1
            print(f"the model says {said}, and not {wanted}")
    for n, entries, f, wanted in SMALL + LARGE + MANY:
        text, limit = text_of(n, entries), MANY_LIMIT if len(lines_of_restarts(entries)) > traces.MAX_RESTARTS else max(len(entries), 65_536)
        for workers in WORKERS:
            said = output_of(program, "audit", ["--faults", str(f), "--workers", str(workers)], limit, text).rstrip("\n")
            if said != wanted:
                wrong += 1
                print(f"{len(entries)} entries, {workers} workers: the program says {said}, and not {wanted}")
    for run in MANY:
        for said in wrong_of_many(program, *run):
            wrong += 1
            print(said)
    print(f"{len(SMALL)} small runs, {len(LARGE)} large ones and {len(MANY)} with many restarts by {len(WORKERS)} numbers of workers, {wrong} wrong")
    sys.exit(1 if wrong else 0)


if __name__ == "__main__":
    main()
