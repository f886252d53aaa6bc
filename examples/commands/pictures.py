"""Traces, and what the pictures that `draw` prints show of them."""
import re

import pictures as painter
import traces
from elements import marks, processes

from . import faults, texts, verdicts
from .row import given, status_of
from .texts import A, B, CHAIN, FIRST, LOGGED, SENT, crash, deliver, forget, restart, send, trace

# how the lines of a picture end that show a verdict: the shade behind a process, since when a holder is one, the chain, the instant, and
# who is what there
OF_VERDICT = (
    " stroke='#ffe3b3' stroke-width='34'/>",
    " stroke='#0072b2' stroke-width='10' stroke-opacity='0.25' pointer-events='none'/>",
    " stroke='#d55e00' stroke-width='4' stroke-opacity='0.75'/>",
    " stroke='#0072b2' stroke-width='2' stroke-dasharray='7 4'/>",
    ": orphan</text>",
    ": holder</text>",
)
IN_WORDS = "<text x='10' y='15' "


def shade(y):
    return f"<path d='M0 {y}H600' fill='none' stroke='#ffe3b3' stroke-width='34'/>\n"


def band(since, end, y):
    return f"<path d='M{since} {y}H{end}' fill='none' stroke='#0072b2' stroke-width='10' stroke-opacity='0.25' pointer-events='none'/>\n"


def chain(points):
    return f"<polyline points='{points} ' fill='none' stroke='#d55e00' stroke-width='4' stroke-opacity='0.75'/>\n"


def instant(x, bottom=212):
    return f"<path d='M{x} 70V{bottom}' fill='none' stroke='#0072b2' stroke-width='2' stroke-dasharray='7 4'/>\n"


def named(x, y, process, what):
    return f"<text x='{x}' y='{y}' dx='9' dy='4' font-size='10' fill='#0072b2'>process {process}: {what}</text>\n"


def in_words(words):
    return f"{IN_WORDS}font-size='14' font-weight='bold' fill='#222'>{words}</text>\n"


# By the layout process p has its line at 92 + 40 p, the entry at position k stands at 110 + 30 k, the instant t at 95 + 30 t, the lines of
# e entries end at 110 + 30 e, and what stands below three rows begins at 212.
DRAWN = [
    (
        "1 may crash, and 2 depends on its delivery by positions 1, 2 and 3",
        texts.PASSED_ON_BARE,
        1,
        shade(132) + band(140, 215, 132) + chain("140,132 170,132 200,172") + instant(215) + named(230, 132, 1, "holder")
        + named(230, 172, 2, "orphan")
        + in_words("orphan f=1: process 2 depends on the delivery of line 3"),
    ),
    (
        "1 and 2 may crash, and 0 depends on the delivery of 1 by all that follows in the ring",
        texts.RING_TEXT,
        2,
        shade(132) + shade(172) + band(140, 275, 132) + band(200, 275, 172) + chain("140,132 170,132 200,172 230,172 260,92")
        + instant(275) + named(290, 92, 0, "orphan") + named(290, 132, 1, "holder") + named(290, 172, 2, "holder")
        + in_words("orphan f=2: process 0 depends on the delivery of line 3"),
    ),
    (
        "1 and 2 are down after 8 entries",
        texts.RING_CRASHED,
        1,
        shade(132) + shade(172) + instant(335) + in_words("exceeded f=1: the shaded processes are down"),
    ),
    ("a message passed on, and no fault", texts.PASSED_ON_BARE, 0, in_words("accept f=0: no delivery has an orphan")),
    ("a ring, and one fault", texts.RING_TEXT, 1, in_words("accept f=1: no delivery has an orphan")),
]


# Process 2 gets the determinant of the delivery and loses it by a crash; then 3 gets a message without it. Only 1 has it, so a crash of 1
# leaves 3 an orphan.
LOST = trace(
    1, 4, CHAIN, deliver(2, 2, 0, A, B), crash(2), restart(2), send(1, 3, 1), deliver(3, 6, 0, [1, 1, 3, 0]),
)
LOST_DRAWN = (
    shade(132) + band(140, 335, 132) + band(200, 230, 172) + chain("140,132 290,132 320,212") + instant(335, 252)
    + named(350, 132, 1, "holder") + named(350, 212, 3, "orphan") + in_words("orphan f=1: process 3 depends on the delivery of line 3")
)

# With the processes of the breach alone, the first of them has the first line. The hidden ones are counted below.
ONLY = [
    (
        "without 0, which sends",
        texts.PASSED_ON_BARE,
        1,
        [1, 2],
        [3, 4, 5],
        shade(92) + band(140, 215, 92) + chain("140,92 170,92 200,132") + instant(215, 172) + named(230, 92, 1, "holder")
        + named(230, 132, 2, "orphan") + in_words("orphan f=1: process 2 depends on the delivery of line 3"),
    ),
    (
        "with 2, which lost the determinant",
        LOST,
        1,
        [1, 2, 3],
        list(range(3, 10)),
        shade(92) + band(140, 335, 92) + band(200, 230, 132) + chain("140,92 290,92 320,172") + instant(335, 212)
        + named(350, 92, 1, "holder") + named(350, 172, 3, "orphan") + in_words("orphan f=1: process 3 depends on the delivery of line 3"),
    ),
    (
        "those that are down",
        texts.RING_CRASHED,
        1,
        [1, 2],
        [3, 4, 5, 6, 8, 9],
        shade(92) + shade(132) + instant(335, 172) + in_words("exceeded f=1: the shaded processes are down"),
    ),
    ("no breach", texts.PASSED_ON_BARE, 0, [0, 1, 2], [2, 3, 4, 5], in_words("accept f=0: no delivery has an orphan")),
]


def of_verdict(printed):
    """The lines of a picture that show the verdict."""
    lines = printed.decode().splitlines(keepends=True)
    return "".join(line for line in lines if line.startswith(IN_WORDS) or line.rstrip("\n").endswith(OF_VERDICT))


def of_breach(printed):
    """The shown processes, the number of hidden ones, the shown lines, and what shows the verdict."""
    hidden = re.findall(r"<title>(\d+) processes are not shown</title>", printed.decode())
    return processes(printed), [int(count) for count in hidden], shown(printed), of_verdict(printed)


def only_rows():
    for name, text, f, drawn, lines, verdict in ONLY:
        n = int(text.split("]")[0].split(",")[2])
        hidden = [n - len(drawn)] if len(drawn) < n else []
        status = 0 if "accept" in verdict else 1
        yield given(f"only the breach: {name}", f"draw --faults {f} --only breach", text, status, (drawn, hidden, lines, verdict), seen=of_breach)
    yield given("a lost determinant, drawn", "draw --faults 1", LOST, 1, LOST_DRAWN, seen=of_verdict)


def shown(printed):
    """The numbers of the lines whose entries are shown."""
    return [line for line, _, _ in marks(printed)]


# process 1 crashes, restarts, and repeats what it did: it sends its message once more, which is faint there and where it is delivered
REPEATED = trace(1, 3, SENT, FIRST, send(1, 2, 0), crash(1), restart(1), FIRST, send(1, 2, 0), deliver(2, 6, 0, B))
FAINT = [
    (8, "process 1 sends message 0 to process 2", True),
    (9, "process 2 delivers message 0 of process 1, and logs [1,0,2,0]", True),
]
LOGS = [
    (3, "process 1 delivers message 0 of process 0, and logs [0,0,1,0]", False),
    (5, "process 2 delivers message 0 of process 1, and logs [0,0,1,0] [1,0,2,0]", False),
]


def faint(printed):
    """The marks that are faint."""
    return [mark for mark in marks(printed) if mark[2]]


def of_lines_3_and_5(printed):
    return [mark for mark in marks(printed) if mark[0] in (3, 5)]


# What is shown of a run that is longer than a picture: from an entry on, and before another. Of an instant these are the 190 entries
# before it and the 10 from it on, or fewer before where the chain begins earlier. Where 200 do not reach back to the first of the
# chain, 9 entries before that and 31 from it on are shown, and 150 before the instant and 10 from it on.
LONGER = 300
EXCEEDED = [(50, [(0, 200)]), (230, [(40, 240)])]
ORPHANED = [((33, 200), [(33, 233)]), ((100,), [(40, 240)]), ((29,), [(20, 60), (80, 240)]), ((4, 100), [(0, 40), (80, 240)])]


def idle(count):
    """So many entries that change nothing."""
    return [forget(0)] * count


def exceeded_at(t):
    """The text of a run in which a process crashes by the instant t."""
    return trace(2, 3, idle(t - 1), crash(1), idle(LONGER - t))


def orphaned_by(first, sent=None):
    """The text of a run in which process 1 delivers at the position `first` what 0 sends before, and sends to 2 at the position `sent`
    or at once; 2 delivers it at position 229 without the determinant."""
    sent = first + 1 if sent is None else sent
    entries = [*idle(first - 1), SENT, deliver(1, first - 1, 0, A), *idle(sent - first - 1), send(1, 2, 0), *idle(229 - sent - 1)]
    return trace(2, 3, entries, deliver(2, sent, 0, B), idle(LONGER - 230))


def lines_of(parts):
    """The lines of the entries of these parts; the header is line 1."""
    return [position + 2 for first, end in parts for position in range(first, end)]


def longer_rows():
    yield given("the beginning of a longer run", "draw --faults 1", trace(2, 3, idle(LONGER)), 0, lines_of([(0, 200)]), seen=shown)
    for t, parts in EXCEEDED:
        yield given(f"an excess at {t}", "draw --faults 0", exceeded_at(t), 1, lines_of(parts), seen=shown)
    for places, parts in ORPHANED:
        yield given(f"a chain by {places}", "draw --faults 1", orphaned_by(*places), 1, lines_of(parts), seen=shown)


# The line around which entries are drawn, and the first of them: 100 before it, if there are as many and 100 from it on.
AROUND = [(2, 0), (102, 0), (103, 1), (152, 50), (202, 100), (301, 100), (302, 100), (16_777_217, 100)]


def around_rows():
    for line, first in AROUND:
        words = f"draw --faults 1 --around {line}"
        yield given(f"around {line}", words, trace(2, 3, idle(LONGER)), 0, lines_of([(first, first + 200)]), seen=shown)
    yield given("around another than the instant", "draw --faults 1 --around 52", orphaned_by(33, 200), 1, lines_of([(0, 200)]), seen=shown)
    yield given("around one of few", "draw --faults 1 --around 4", texts.RING_TEXT, 0, list(range(2, 8)), seen=shown)
    for words in ("--around 1", "--around 0", "--around -2", "--around 16777218", "--around", "--only chain", "--only", "--only breach,chain"):
        yield given(f"no such picture: {words}", f"draw --faults 1 {words}", texts.RING_TEXT, 3, "")


# Whole pictures, to the byte as the plain model has them. Some have each glyph, an arrow to another process or the same, entries hidden
# before, between and after, hidden processes, narrow columns or rows, and each verdict.
TO_ITSELF = trace(1, 2, send(0, 0, 0), deliver(0, 0, 0, [0, 0, 0, 0]))
# Process 2 has the determinant by its restart alone.
GATHERED = trace(1, 4, LOGGED, crash(2), restart(2, A), send(1, 3, 0), deliver(3, 4, 0, [1, 0, 3, 0]))
# Process 1 crashes at position 99 and restarts at 100.
DOWN_AT_99 = trace(2, 3, LOGGED, idle(97), crash(1), restart(1), idle(199))
WHOLE = [
    ("each kind of event", 1, "", texts.TALLY_FORGETTING),
    ("a message to itself", 0, "", TO_ITSELF),
    ("a repeated message", 1, "", REPEATED),
    ("a lost determinant", 1, "", LOST),
    ("a lost determinant alone", 1, " --only breach", LOST),
    ("an excess", 1, "", texts.RING_CRASHED),
    ("an excess in a long run", 0, "", exceeded_at(230)),
    ("an early chain in a long run", 1, "", orphaned_by(4, 100)),
    ("the middle of a long run", 1, " --around 150", orphaned_by(100)),
    ("a holder by a restart", 2, "", GATHERED),
    ("entries from a crash on", 1, " --around 201", DOWN_AT_99),
    ("entries from a restart on", 1, " --around 202", DOWN_AT_99),
    ("rows that are hardly the lowest", 1, "", trace(1, 32, CHAIN, deliver(2, 2, 0, B))),
    ("many processes", 1, "", trace(1, 60, CHAIN, deliver(2, 2, 0, B))),
]


def whole_rows():
    for name, f, more, text in WHOLE:
        answer, status = traces.audited(text.encode(), f)
        words = f"draw --faults {f}{more}"
        yield given(f"whole: {name}", words, text, status, painter.picture_of(words.split(), text.encode(), answer))


def rows():
    for name, text, f, lines in DRAWN:
        status = 0 if "accept" in lines else 1
        yield given(f"{name}, drawn", f"draw --faults {f}", text, status, lines, seen=of_verdict)
    for name, text, lines in verdicts.JUDGED:
        entries = list(range(2, text.count("\n")))
        for line in lines:
            words = f"draw --faults {verdicts.faults_in(line)}"
            yield given(f"{name}, drawn", words, text, status_of(line), entries, seen=shown)
    for name, text, _ in faults.FAULTY:
        yield given(f"{name}, not drawn", "draw --faults 0", text, 2, "")
    yield given("a message sent again", "draw --faults 1", REPEATED, 1, FAINT, seen=faint)
    yield given("what is logged", "draw --faults 1", texts.RING_TEXT, 0, LOGS, seen=of_lines_3_and_5)
    yield from longer_rows()
    yield from only_rows()
    yield from around_rows()
    yield from whole_rows()
