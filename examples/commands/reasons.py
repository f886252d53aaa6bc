"""Traces, and what `explain` tells of each verdict, whole."""
from . import faults, texts, verdicts
from .row import given, status_of
from .texts import A, FIRST, SENT, crash, deliver, forget, restart, send, trace

DELIVERY = "delivery line=3 process=1 source=0 ssn=0 rsn=0: process 1 delivers message 0 of process 0, as its delivery 0\n"
CHAIN = "chain line=3 process=1: process 1 delivers what line 2 sends\n"
LACKS = "process {0} depends on the delivery by this chain, and lacks its determinant\n"
CLOSEST = (
    "closest faults=2 line=3 until=7 orphan=0: "
    "for f=2 the delivery of line 3 has an orphan, process 0, once line 7 is read; for a smaller f none has one\n"
)
NEVER = "closest faults=-: no delivery has an orphan, whatever f is\n"


def by_delivery(line, process, sends):
    return (
        f"cause line={line} process={process} by=deliver: process {process} delivers what line {sends} sends, "
        "so it depends on the delivery, and its log lacks the determinant\n"
    )


def unstable(line):
    return f"unstable line={line}: up to line {line} nothing writes its determinant to stable storage\n"


def holder(process, line):
    return f"holder process={process} line={line}: process {process} has the determinant in its log since line {line}\n"


def crashes(process):
    return f"crash process={process}: process {process} is in the crash set, under which nobody has the determinant\n"


def sends(line, process, number, dest):
    return f"chain line={line} process={process}: process {process} sends message {number} to process {dest}\n"


def delivers(line, process, sent):
    return f"chain line={line} process={process}: process {process} delivers what line {sent} sends\n"


def unlisted(line, sent, process):
    return (
        f"unlisted line={line} send={sent} process={process}: "
        f"the message that line {sent} sends comes to process {process} without the determinant\n"
    )


def underway(sent, line, process):
    return (
        f"underway send={sent} line={line} process={process}: "
        f"the message that line {sent} sends was in transit, and brings the determinant to process {process} only at line {line}\n"
    )


def orphan(process):
    return f"orphan process={process}: {LACKS.format(process)}"


# by the ring the determinant of process 1 comes to 0, and the message that line 6 sends leaves it out
ROUND = sends(4, 1, 0, 2) + delivers(5, 2, 4) + sends(6, 2, 0, 0) + delivers(7, 0, 6) + unlisted(7, 6, 0) + orphan(0)

REASONS = [
    (
        "a message passed on without its past",
        texts.PASSED_ON_BARE,
        "orphan f=1 instant=4 delivery=1 crash=1 orphan=2\n",
        DELIVERY + by_delivery(5, 2, 4) + unstable(5) + holder(1, 3) + crashes(1) + CHAIN + sends(4, 1, 0, 2) + delivers(5, 2, 4)
        + unlisted(5, 4, 2) + orphan(2),
    ),
    (
        "a delivery that nobody logged",
        texts.UNLOGGED,
        "orphan f=0 instant=2 delivery=1 crash=- orphan=1\n",
        DELIVERY + by_delivery(3, 1, 2) + unstable(3) + "holder process=-: no process has the determinant in its log\n" + CHAIN
        + "unlisted line=3 send=2 process=1: process 1 delivers what line 2 sends, and does not log the determinant\n" + orphan(1),
    ),
    (
        "a determinant that was forgotten too early",
        trace(2, 2, SENT, FIRST, forget(1, A)),
        "orphan f=0 instant=3 delivery=1 crash=- orphan=1\n",
        DELIVERY + "cause line=4 process=1 by=forget: process 1 forgets the determinant, which is not in stable storage\n" + unstable(4)
        + "holder process=-: no process has the determinant in its log\n"
        + "loss process=1 line=4 by=forget: process 1 lost the determinant from its log at line 4, by forgetting it\n" + CHAIN
        + "listed: after each delivery of the chain its receiver has the determinant in its log\n" + orphan(1),
    ),
    (
        "a message that leaves out what its receiver holds, and one that leaves it out for a receiver that does not",
        texts.HELD_BEFORE,
        "orphan f=3 instant=10 delivery=1 crash=1,2,4 orphan=3\n",
        DELIVERY + by_delivery(11, 3, 10) + unstable(11) + holder(1, 3) + holder(2, 7) + holder(4, 5) + crashes(1) + crashes(2)
        + crashes(4) + CHAIN + sends(8, 1, 1, 2) + delivers(9, 2, 8) + sends(10, 2, 0, 3) + delivers(11, 3, 10) + unlisted(11, 10, 3)
        + orphan(3),
    ),
    (
        "a holder that was counted while the determinant was on its way to it",
        texts.IN_TRANSIT,
        "orphan f=1 instant=5 delivery=1 crash=1 orphan=2\n",
        DELIVERY + by_delivery(6, 2, 5) + unstable(6) + holder(1, 3) + crashes(1) + CHAIN + sends(5, 1, 1, 2) + delivers(6, 2, 5)
        + unlisted(6, 5, 2) + underway(4, 7, 3) + orphan(2),
    ),
    (
        "of five messages that bring it later, the first that a holder had sent before and that was in transit",
        texts.MANY_IN_TRANSIT,
        "orphan f=2 instant=10 delivery=1 crash=1,4 orphan=2\n",
        DELIVERY + by_delivery(11, 2, 9) + unstable(11) + holder(1, 3) + holder(4, 6) + crashes(1) + crashes(4) + CHAIN
        + sends(9, 1, 2, 2) + delivers(11, 2, 9) + unlisted(11, 9, 2) + underway(7, 15, 3) + orphan(2),
    ),
    (
        "a message in transit to one that holds it, one that was delivered before a crash, and one that does not bring it",
        texts.NONE_IN_TRANSIT,
        "orphan f=2 instant=14 delivery=1 crash=1,4 orphan=2\n",
        DELIVERY + by_delivery(15, 2, 14) + unstable(15) + holder(1, 3) + holder(4, 8)
        + "loss process=3 line=10 by=crash: process 3 lost the determinant from its log at line 10, by its crash\n"
        + crashes(1) + crashes(4) + CHAIN + sends(14, 1, 4, 2) + delivers(15, 2, 14) + unlisted(15, 14, 2) + orphan(2),
    ),
    (
        "a restart that leaves out what another process holds",
        texts.GATHERED_TOO_LITTLE,
        "orphan f=1 instant=8 delivery=1 crash=2 orphan=0\n",
        DELIVERY
        + "cause line=9 process=1 by=restart: process 1 restarts, and does not list the determinant, which is in the log of another\n"
        + unstable(9) + holder(2, 5)
        + "loss process=1 line=8 by=crash: process 1 lost the determinant from its log at line 8, by its crash\n" + crashes(2) + CHAIN
        + ROUND,
    ),
    (
        "a ring whose holders both may crash",
        texts.RING_TEXT,
        "orphan f=2 instant=6 delivery=1 crash=1,2 orphan=0\n",
        DELIVERY + by_delivery(7, 0, 6) + unstable(7) + holder(1, 3) + holder(2, 5) + crashes(1) + crashes(2) + CHAIN + ROUND,
    ),
    (
        "a determinant that both that held it have forgotten",
        texts.RING_FORGOTTEN,
        "orphan f=0 instant=8 delivery=1 crash=- orphan=0\n",
        DELIVERY + "cause line=9 process=2 by=forget: process 2 forgets the determinant, which is not in stable storage\n" + unstable(9)
        + "holder process=-: no process has the determinant in its log\n"
        + "loss process=1 line=8 by=forget: process 1 lost the determinant from its log at line 8, by forgetting it\n"
        + "loss process=2 line=9 by=forget: process 2 lost the determinant from its log at line 9, by forgetting it\n" + CHAIN + ROUND,
    ),
    (
        "two that are down, one of them for the second time",
        trace(1, 3, crash(1), restart(1), crash(2), crash(1)),
        "exceeded f=1 instant=4 down=1,2\n",
        "cause line=5 process=1 by=crash: process 1 crashes, and more are down than may be\n"
        "down process=1 line=5: process 1 is down since its crash at line 5\n"
        "down process=2 line=4: process 2 is down since its crash at line 4\n",
    ),
    (
        "a ring and two crashes",
        texts.RING_CRASHED,
        "exceeded f=1 instant=8 down=1,2\n",
        "cause line=9 process=2 by=crash: process 2 crashes, and more are down than may be\n"
        "down process=1 line=8: process 1 is down since its crash at line 8\n"
        "down process=2 line=9: process 2 is down since its crash at line 9\n",
    ),
    ("a ring that is safe for one more too", texts.RING_TEXT, "accept f=0 entries=6 deliveries=3\n", CLOSEST),
    ("the same, asked for all that it is safe for", texts.RING_TEXT, "accept f=1 entries=6 deliveries=3\n", CLOSEST),
    (
        "a ring of which a later delivery comes closer to failing",
        trace(1, 3, texts.RING, send(0, 1, 1), deliver(1, 6, 1, [0, 1, 1, 1])),
        "accept f=0 entries=8 deliveries=4\n",
        "closest faults=1 line=7 until=9 orphan=1: "
        "for f=1 the delivery of line 7 has an orphan, process 1, once line 9 is read; for a smaller f none has one\n",
    ),
    ("determinants that go wherever their deliveries do", texts.PASSED_ON, "accept f=1 entries=4 deliveries=2\n", NEVER),
    ("no entries", texts.EMPTY, "accept f=0 entries=0 deliveries=0\n", NEVER),
    ("more faults than processes", texts.EMPTY, "accept f=65535 entries=0 deliveries=0\n", NEVER),
    # Each of its 191 deliveries on process 1 has to be followed, and 382 entries mention their determinant.
    (
        "a closest failure of many replays",
        trace(
            1, 3, SENT, FIRST, [crash(1), restart(1, A), FIRST] * 190, send(1, 2, 0), deliver(2, 572, 0, A, [1, 0, 2, 0]),
        ),
        "accept f=1 entries=574 deliveries=192\n",
        NEVER,
    ),
]


def beginning(printed):
    """The first line of what is printed, and whether what comes closest to failing follows."""
    first, _, rest = printed.decode().partition("\n")
    return first, rest.startswith("closest faults=")


def explained(name, text, line, out, **more):
    return given(f"{name}, explained", f"explain --faults {verdicts.faults_in(line)}", text, status_of(line), out, **more)


def rows():
    for name, text, line, rest in REASONS:
        yield explained(name, text, line.rstrip("\n"), line + rest)
    for name, text, lines in verdicts.JUDGED:
        for line in lines:
            yield explained(name, text, line, (line, line.startswith("accept")), seen=beginning)
    for name, text, fault in faults.FAULTY:
        yield given(f"{name}, explained", "explain --faults 0", text, 2, f"fault line={fault}\n")
