"""Traces, and what `audit` answers to each for some numbers of faults."""
from . import texts
from .row import given, status_of
from .texts import A, B, C, CHAIN, FIRST, LOGGED, REPLAYED, RING, SENT, crash, deliver, forget, restart, send, stable, trace

# the ring with a message to a fourth process, which both processes that hold the first determinant leave out
FOURTH = [send(2, 3, 1), deliver(3, 6, 0, B, [2, 1, 3, 0])]
OUT_OF_ORDER = deliver(2, 3, 1, A, [1, 1, 2, 1])


def replayed(**other):
    """The text of the ring that is replayed, with other lines in the place of some."""
    return trace(1, 3, [other.get(f"at_{k}", line) for k, line in enumerate(REPLAYED)])


# for each text the lines that are answered; the number of faults stands in the line
JUDGED = [
    ("no entries", texts.EMPTY, ["accept f=0 entries=0 deliveries=0"]),
    ("one delivery, logged by its receiver", trace(1, 2, LOGGED), ["accept f=0 entries=2 deliveries=1", "accept f=1 entries=2 deliveries=1"]),
    ("one delivery that nobody logged", texts.UNLOGGED, ["orphan f=0 instant=2 delivery=1 crash=- orphan=1"]),
    ("the same, and then a crash", trace(1, 2, SENT, deliver(1, 0, 0), crash(0)), ["orphan f=0 instant=2 delivery=1 crash=- orphan=1"]),
    (
        "a message passed on without its past",
        texts.PASSED_ON_BARE,
        ["accept f=0 entries=4 deliveries=2", "orphan f=1 instant=4 delivery=1 crash=1 orphan=2"],
    ),
    (
        "a message passed on with its past",
        texts.PASSED_ON,
        ["accept f=1 entries=4 deliveries=2", "accept f=2 entries=4 deliveries=2", "accept f=3 entries=4 deliveries=2"],
    ),
    (
        "a ring",
        texts.RING_TEXT,
        ["accept f=0 entries=6 deliveries=3", "accept f=1 entries=6 deliveries=3", "orphan f=2 instant=6 delivery=1 crash=1,2 orphan=0"],
    ),
    (
        "two messages out of order",
        trace(1, 3, CHAIN, send(1, 2, 1), deliver(2, 2, 0, B), OUT_OF_ORDER),
        ["orphan f=1 instant=5 delivery=1 crash=1 orphan=2"],
    ),
    (
        "the same with the first determinant stable",
        trace(1, 3, CHAIN, send(1, 2, 1), stable(A), deliver(2, 2, 0, B), OUT_OF_ORDER),
        ["accept f=1 entries=7 deliveries=3"],
    ),
    ("a ring with a crash", trace(1, 3, RING, crash(1)), ["accept f=1 entries=7 deliveries=3"]),
    (
        "a delivery from a dead sender",
        trace(1, 3, CHAIN, crash(1), deliver(2, 2, 0, B)),
        ["exceeded f=0 instant=4 down=1", "orphan f=1 instant=5 delivery=1 crash=1 orphan=2"],
    ),
    ("a ring with two crashes", texts.RING_CRASHED, ["exceeded f=1 instant=8 down=1,2"]),
    ("a restart that gathers nothing", trace(1, 3, RING, crash(1), restart(1)), ["orphan f=1 instant=8 delivery=1 crash=2 orphan=0"]),
    ("a restart that gathers its delivery", trace(1, 3, RING, crash(1), restart(1, A)), ["accept f=1 entries=8 deliveries=3"]),
    (
        "a message delivered again in a new lane",
        trace(1, 2, LOGGED, crash(1), restart(1), FIRST),
        ["exceeded f=0 instant=3 down=1", "accept f=1 entries=5 deliveries=2"],
    ),
    (
        "an orphan at once among others",
        texts.ORPHAN_AT_ONCE,
        ["orphan f=0 instant=5 delivery=4 crash=- orphan=3", "orphan f=1 instant=5 delivery=4 crash=- orphan=3"],
    ),
    ("two deliveries fail at one instant", texts.TIE, ["orphan f=1 instant=6 delivery=2 crash=1 orphan=2"]),
    (
        "a message to its sender",
        trace(1, 1, send(0, 0, 0), deliver(0, 0, 0, [0, 0, 0, 0])),
        ["accept f=0 entries=2 deliveries=1", "accept f=1 entries=2 deliveries=1"],
    ),
    (
        "two orphans under one crash set",
        trace(1, 4, RING, FOURTH, crash(1), restart(1)),
        ["orphan f=1 instant=10 delivery=1 crash=2 orphan=0"],
    ),
    ("a crash, a restart and a replay", texts.REPLAYED_TEXT, ["accept f=1 entries=10 deliveries=4"]),
    ("the same, its first delivery unlogged", replayed(at_1=deliver(1, 0, 0)), ["orphan f=1 instant=2 delivery=1 crash=- orphan=1"]),
    (
        "the same, the third delivery without its own determinant",
        replayed(at_5=deliver(0, 4, 0, B)),
        ["orphan f=1 instant=6 delivery=5 crash=- orphan=0"],
    ),
    (
        "the same, the restart without the first determinant",
        replayed(at_7=restart(1, B, C)),
        ["orphan f=1 instant=8 delivery=1 crash=2 orphan=0"],
    ),
    ("the same, the restart without the second determinant", replayed(at_7=restart(1, A, C)), ["accept f=1 entries=10 deliveries=4"]),
    (
        "a ring that forgets",
        texts.RING_FORGETTING,
        ["accept f=0 entries=7 deliveries=3", "orphan f=1 instant=7 delivery=1 crash=2 orphan=0"],
    ),
    ("a ring that forgets what is stable", trace(2, 3, RING, stable(A), forget(1, A)), ["accept f=1 entries=8 deliveries=3"]),
    ("a determinant that all forget", texts.RING_FORGOTTEN, ["orphan f=0 instant=8 delivery=1 crash=- orphan=0"]),
    ("the same, once it is stable", trace(2, 3, RING, stable(A), forget(1, A), forget(2, A)), ["accept f=0 entries=9 deliveries=3"]),
    (
        "the last of 256 processes crashes",
        trace(2, 256, crash(255)),
        ["exceeded f=0 instant=1 down=255", "accept f=65535 entries=1 deliveries=0"],
    ),
]


def faults_in(line):
    """The number of faults that a verdict's line tells."""
    return line.split(" ")[1].removeprefix("f=")


# how many workers share an audit, beside one
WORKERS = [
    (texts.EMPTY, (2, 64), "accept f=0 entries=0 deliveries=0"),
    (texts.RING_TEXT, (2, 3, 64), "accept f=0 entries=6 deliveries=3"),
    (texts.RING_TEXT, (2, 3, 64), "accept f=1 entries=6 deliveries=3"),
    (texts.RING_TEXT, range(2, 65), "orphan f=2 instant=6 delivery=1 crash=1,2 orphan=0"),
    (texts.RING_CRASHED, (2, 3, 64), "exceeded f=1 instant=8 down=1,2"),
    (texts.ORPHAN_AT_ONCE, (2, 3), "orphan f=0 instant=5 delivery=4 crash=- orphan=3"),
    (texts.ORPHAN_AT_ONCE, (2, 3), "orphan f=1 instant=5 delivery=4 crash=- orphan=3"),
    (texts.TIE, (2, 3, 64), "orphan f=1 instant=6 delivery=2 crash=1 orphan=2"),
]

# The instant that decides comes after the sixty-fourth that is surveyed first, at its end and in it: of traces that go on for so
# many entries more, by which process 0 forgets nothing.
GOING_ON = [
    (4, texts.AT_ONCE, (0, 1, 62, 63, 64, 399), "orphan f=1 instant=5 delivery=4 crash=- orphan=3"),
    (3, [*RING, crash(1), crash(2)], (0, 1, 62, 63, 64, 599), "exceeded f=1 instant=8 down=1,2"),
]


def audited(name, text, line, more=""):
    return given(f"{name}, f={faults_in(line)}{more}", f"audit --faults {faults_in(line)}{more}", text, status_of(line), line + "\n")


def rows():
    for name, text, lines in JUDGED:
        for line in lines:
            yield audited(name, text, line)
    for text, workers, line in WORKERS:
        for count in workers:
            yield audited(line, text, line, f" --workers {count}")
    for n, entries, more, line in GOING_ON:
        for count in more:
            yield audited(f"{count} entries more", trace(2, n, entries, [forget(0)] * count), line, " --workers 2")
