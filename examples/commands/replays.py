"""Traces, and what `replays` answers: whether each delivery follows the determinants that survive, or the first that strays."""
import itertools
import json

from .row import given
from .texts import A, B, EMPTY, FIRST, LOGGED, REPLAYED_TEXT, SENT, crash, deliver, forget, lines, restart, send, stable, trace

# A message of 0 comes to 1, whose determinant 2 holds too; another, of 2, is on its way to 1. Then 1 crashes.
BEFORE = [SENT, send(2, 1, 0), FIRST, send(1, 2, 0), deliver(2, 3, 0, A, B)]
DOWN = [*BEFORE, crash(1), restart(1)]
OTHER = deliver(1, 1, 0, [2, 0, 1, 0])
TWO_LOGS = trace(1, 3, DOWN, OTHER)
STRAYED = "strayed instant=8 process=1 rsn=0 first=2 second=7\n"
# The first determinant is stable, and nobody logs it any more.
STORED = trace(2, 3, BEFORE, stable(A), crash(1), restart(1), forget(2, A), OTHER)
# Process 1 replays two messages in the other order, which nobody logs, until 0 restarts with both determinants.
FIRST_OF_TWO, SECOND_OF_TWO = [0, 0, 1, 0], [0, 1, 1, 1]
TWO_NUMBERS = trace(
    1, 3, SENT, send(0, 1, 1), deliver(1, 0, 0, FIRST_OF_TWO), deliver(1, 1, 1, SECOND_OF_TWO), send(1, 2, 0),
    deliver(2, 4, 0, FIRST_OF_TWO, SECOND_OF_TWO, B), crash(1), restart(1), deliver(1, 1, 0), deliver(1, 0, 1),
    crash(0), restart(0, [0, 0, 1, 1], [0, 1, 1, 0]),
)
# Processes 1 and 2 deliver what is stable, crash, and deliver other messages, 2 before 1, until 0 restarts with both determinants.
TWO_PROCESSES = trace(
    1, 3, SENT, send(0, 2, 1), send(0, 1, 2), send(0, 2, 3), FIRST, deliver(2, 1, 0, [0, 1, 2, 0]), stable(A), stable([0, 1, 2, 0]),
    crash(1), crash(2), restart(1), restart(2), deliver(2, 3, 0), deliver(1, 2, 0), crash(0), restart(0, [0, 2, 1, 0], [0, 3, 2, 0]),
)
FAULTY = lines(TWO_LOGS.splitlines()[:-1], send(0, 1, 5))
SAID = "causal_tool replays: line {}: process 0 sends with the number {}, and its next is {}\ncausal_tool replays: the entries before line {}: {}\n"

# the text of a trace, the answer, and who has which of the two determinants
JUDGED = [
    ("no entries", EMPTY, "followed entries=0 deliveries=0", None),
    ("no crash", trace(1, 3, BEFORE), "followed entries=5 deliveries=2", None),
    ("a replay of the same messages", REPLAYED_TEXT, "followed entries=10 deliveries=4", None),
    ("another message, and two logs", TWO_LOGS, STRAYED, [("logged", 2, 2, 6), ("logged", 7, 1, 9)]),
    ("a log and stable storage", STORED, "strayed instant=10 process=1 rsn=0 first=2 second=9", [("stable", 2), ("logged", 9, 1, 11)]),
    (
        "two logs and stable storage",
        trace(1, 3, BEFORE, stable(A), crash(1), restart(1), OTHER),
        "strayed instant=9 process=1 rsn=0 first=2 second=8",
        [("logged", 2, 2, 6), ("stable", 2), ("logged", 8, 1, 10)],
    ),
    ("nobody logs the other one", trace(1, 3, DOWN, deliver(1, 1, 0)), "followed entries=8 deliveries=3", None),
    (
        "it becomes stable later",
        trace(1, 3, DOWN, deliver(1, 1, 0), stable([2, 0, 1, 0])),
        "strayed instant=9 process=1 rsn=0 first=2 second=7",
        [("logged", 2, 2, 6), ("stable", 7)],
    ),
    ("the first one is forgotten before", trace(2, 3, DOWN, forget(2, A), OTHER), "followed entries=9 deliveries=3", None),
    ("its last holder crashes before", trace(1, 3, DOWN, crash(2), OTHER), "followed entries=9 deliveries=3", None),
    ("the least number", TWO_NUMBERS, "strayed instant=12 process=1 rsn=0 first=2 second=8", [("logged", 2, 2, 7), ("logged", 8, 0, 13)]),
    ("the least process", TWO_PROCESSES, "strayed instant=16 process=1 rsn=0 first=4 second=13", [("stable", 4), ("logged", 13, 0, 17)]),
    (
        "a second crash loses the other one",
        trace(1, 3, DOWN, OTHER, crash(1), restart(1, A), FIRST),
        STRAYED,
        [("logged", 2, 2, 6), ("logged", 7, 1, 9)],
    ),
    (
        "the same message in between",
        trace(1, 3, DOWN, FIRST, crash(1), restart(1), OTHER),
        "strayed instant=11 process=1 rsn=0 first=2 second=10",
        [("logged", 2, 2, 6), ("logged", 10, 1, 12)],
    ),
    ("another message in another place", trace(1, 3, DOWN, FIRST, deliver(1, 1, 1, [2, 0, 1, 1])), "followed entries=9 deliveries=4", None),
]


EXPLAINED = (
    "exceeded f=0 instant=6 down=1\n"
    "cause line=7 process=1 by=crash: process 1 crashes, and more are down than may be\n"
    "down process=1 line=7: process 1 is down since its crash at line 7\n"
    "strayed instant=8 process=1 rsn=0 first=2 second=7: "
    "after line 9 two determinants of delivery 0 of process 1 survive, those of lines 4 and 9\n"
    "logged delivery=2 process=2 line=6: process 2 has the determinant of the delivery of line 4 in its log since line 6\n"
    "logged delivery=7 process=1 line=9: process 1 has the determinant of the delivery of line 9 in its log since line 9\n"
)


def fact_of(word, delivery, *holder):
    """What `--json` tells of a process with a determinant in its log, or of stable storage."""
    return {"fact": word, "delivery": delivery} | dict(zip(("process", "line"), holder))


def object_of(line, survivors):
    """The answer as JSON."""
    word, *fields = line.split()
    said = {"verdict": word} | {key: int(value) for key, value in (field.split("=") for field in fields)}
    told = {} if survivors is None else {"reason": [fact_of(*survivor) for survivor in survivors]}
    return json.dumps(said | told, separators=(",", ":")) + "\n"


def judged_rows():
    for name, text, answer, survivors in JUDGED:
        line, status = answer.strip(), 0 if survivors is None else 1
        yield given(name, "replays", text, status, line + "\n", said="")
        yield given(f"{name}, in JSON", "replays --json", text, status, object_of(line, survivors), said="")


def sentence_of(line):
    """What `explain` says of the stray of a line: lines of the text are two more than positions, and the last before instant T is T + 1."""
    instant, process, rsn, first, second = (int(field.split("=")[1]) for field in line.split()[1:])
    return (
        f"after line {instant + 1} two determinants of delivery {rsn} of process {process} survive, "
        f"those of lines {first + 2} and {second + 2}"
    )


def told_of(word, delivery, *holder):
    """What `explain` says of a process with a determinant in its log, or of stable storage."""
    of_line = f"the determinant of the delivery of line {delivery + 2}"
    if word == "stable":
        return f"stable delivery={delivery}: {of_line} is in stable storage\n"
    process, line = holder
    return f"logged delivery={delivery} process={process} line={line}: process {process} has {of_line} in its log since line {line}\n"


def of_stray(printed):
    """The lines of `explain` from the stray on."""
    return "".join(itertools.dropwhile(lambda line: not line.startswith("strayed "), printed.decode().splitlines(keepends=True)))


def facts_of_stray(printed):
    """The facts of `explain --json` from the stray on."""
    return list(itertools.dropwhile(lambda fact: fact["fact"] != "strayed", json.loads(printed)["reason"]))


def explained_rows():
    """Whatever the verdict, `explain` ends with the stray. For F = 0 a crash is one too many."""
    for name, text, answer, survivors in JUDGED:
        line, status = answer.strip(), 1 if '"crash"' in text else 0
        told = "" if survivors is None else f"{line}: {sentence_of(line)}\n" + "".join(told_of(*survivor) for survivor in survivors)
        yield given(f"{name}, explained", "explain --faults 0", text, status, told, seen=of_stray, said="")
        facts = [] if survivors is None else [fact_of_line(line), *(fact_of(*survivor) for survivor in survivors)]
        yield given(f"{name}, explained in JSON", "explain --faults 0 --json", text, status, facts, seen=facts_of_stray, said="")
    yield given("a stray and an excess", "explain --faults 0 --workers 2", TWO_LOGS, 1, EXPLAINED, said="")


def fact_of_line(line):
    """The line of a stray as a fact."""
    word, *fields = line.split()
    return {"fact": word} | {key: int(value) for key, value in (field.split("=") for field in fields)}


def rows():
    yield from judged_rows()
    yield from explained_rows()
    yield given("by four workers", "replays --workers 4", TWO_LOGS, 1, STRAYED, said="")
    yield given("by four workers, in JSON", "replays --json --workers 4", trace(1, 2, LOGGED), 0, '{"verdict":"followed","entries":2,"deliveries":1}\n', said="")
    yield given("of a file", "replays run.jsonl", "", 1, STRAYED, said="", files={"run.jsonl": TWO_LOGS})
    yield given("as many entries as may be", "replays --entries 8", TWO_LOGS, 1, STRAYED, said="")
    yield given("one more", "replays --entries 7", TWO_LOGS, 2, "fault line=9 TooLong\n")
    turns = ['["crash",0]', '["restart",0,[]]'] * 512
    yield given("as many restarts as may be", "replays --entries 131072", trace(1, 1, turns), 0, "followed entries=1024 deliveries=0\n")
    yield given("one restart more", "replays --entries 131072", trace(1, 1, turns, turns[:2]), 2, "fault line=1027 Lanes\n")
    said = SAID.format(2, 1, 0, 2, "accept f=0 entries=0 deliveries=0")
    yield given("no trace", "replays", trace(1, 2, send(0, 1, 1)), 2, "fault line=2 WrongSsn\n", said=said)
    yield given("no trace, in JSON", "replays --json", trace(1, 2, send(0, 1, 1)), 2, '{"verdict":"fault","line":2,"kind":"WrongSsn"}\n', said=said)
    yield given("no trace behind the stray", "replays", FAULTY, 2, "fault line=10 WrongSsn\n", said="causal_tool replays: line 10: process 0 sends with the number 5, and its next is 1\n")
    yield given("too many workers", "replays --workers 65", EMPTY, 3, "")
    yield given("no number of faults", "replays --faults 1", EMPTY, 3, "")
