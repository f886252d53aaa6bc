"""Recordings, and what `merge` makes of them."""
from .row import given
from .texts import A as FIRST_DET
from .texts import LOGGED, RING, forget, lines, trace

# how long the recordings may be together
BYTES = 67_108_864

A, B = '["recording",0,1,2,7]', '["recording",1,1,2,7]'
SEND, DELIVER = '["send",0,1,1,0]', '["deliver",1,2,0,0,0,0,[[0,0,1,0]]]'
# one message of two processes, the later line first, with one that a kill has cut
MESSAGE = lines(B, DELIVER, '["send",1', "", A, SEND)
# the same with a heard line, a blank one, a header that stands twice and two lines that a kill has cut
SHUFFLED = lines(DELIVER, B, " \t\r", SEND, "[", A, '["heard",0,9,1,2]', A) + '["send",0,1'
MERGED = trace(1, 2, LOGGED)
# the same message in a text that is so long that all workers parse lines, and with two faulty lines
BLANK = " " * 60_000
SPREAD = lines(DELIVER, BLANK, B, BLANK, '["send",1', BLANK, A, SEND)
FAULTY = lines(DELIVER, BLANK, B, BLANK, '["sent",1]', BLANK, "{", A, SEND)
# two processes go down and come up at the same clocks, and one sends in its second incarnation
SAME_CLOCKS = lines(
    '["forget",1,7,[]]', '["deliver",1,6,0,1,0,0,[[0,0,1,0]]]', '["send",0,5,1,0]', '["restart",1,4,[]]', '["restart",0,4,[]]',
    '["crash",1,3]', '["crash",0,3]', '["send",0,2,1,0]', B, A,
)
IN_ORDER = lines(
    '["trace",2,2]', '["send",0,1,0]', '["crash",0]', '["crash",1]', '["restart",0,[]]', '["restart",1,[]]', '["send",0,1,0]',
    '["deliver",1,5,0,[[0,0,1,0]]]', '["forget",1,[]]', '["end",8]',
)
# What is told where headers are missing: the processes that have none, if one header says how many there are.
NO_HEADER = """causal_tool merge: line 3: some process has no header
causal_tool merge: process 1 has no header
causal_tool merge: a recording may be missing
"""
THREE_MISSING = """causal_tool merge: line 3: some process has no header
causal_tool merge: process 0 has no header
causal_tool merge: process 2 has no header
causal_tool merge: process 4 has no header
causal_tool merge: a recording may be missing
"""
NONE_KNOWN = """causal_tool merge: line 2: some process has no header
causal_tool merge: a recording may be missing
"""
OTHER_RUN = """causal_tool merge: line 3: the header differs from the first one
causal_tool merge: these may be recordings of two runs
"""
TOO_LONG = "causal_tool merge: line 2: the trace would be too long\n"

# A message goes once round three processes, and then the one that logged its first delivery forgets it. The line that says so, line 7,
# may have lost its line feed.
ROUND = [
    '["recording",0,1,3,7]', '["recording",1,1,3,7]', '["recording",2,1,3,7]',
    '["send",0,1,1,0]', '["deliver",1,2,0,0,0,0,[[0,0,1,0]]]', '["send",1,3,2,0]',
]
FORGETS = '["forget",1,20,[[0,0,1,0]]]'
REST = [
    '["deliver",2,4,1,0,0,0,[[0,0,1,0],[1,0,2,0]]]', '["send",2,5,0,0]', '["deliver",0,6,2,0,0,0,[[1,0,2,0],[2,0,0,0]]]',
]
FORGOTTEN = trace(2, 3, RING, forget(1, FIRST_DET))
RUNS_ON = """causal_tool merge: line 7: the line is not a JSON value
causal_tool merge: a line that a kill has cut may run into the next one
"""

# The lines of recordings and the line of their first fault with its kind; where there are two, the first in the rule's order. A kind
# that values explain is followed by the sentence that has them.
FAULTS = [
    ([], 1, "NoHeader"),
    ([A], 2, "NoHeader"),
    ([A, '["restart",0,1,[]]'], 3, "NoHeader"),
    (['["recording",0,2,2,7]'], 1, "Version"),
    ([A, B, '["recording",0,2,257,8]'], 3, "Version"),
    (['["recording",0,1,257,7]'], 1, "Processes"),
    ([A, B, '["recording",0,1,0,8]'], 3, "Processes"),
    ([A, B, '["recording",2,1,2,8]'], 3, "Header"),
    ([A, B, '["recording",2,1,2,7]'], 3, "NoProcess"),
    ([A, B, SEND, DELIVER, SEND], 5, "Twice"),
    (['["recording",0,1,1,7]', '["crash",0,1]', '["send",0,1,9,9]'], 3, "Twice"),
    ([A, B, '["sent",0,1,1,0]'], 3, "Form"),
    ([A, B, '["send",0,1,256,0]'], 3, "Form"),
    ([A, B, '["heard",0,1,1]'], 3, "Form"),
    ([A, B, '["crash",-0,1]'], 3, "Form"),
    ([A, B, '["crash",1e999,1]'], 3, "Syntax"),
    ([A, B, SEND + '["send"'], 3, "Syntax"),
    ([A, B, '["send",0]]'], 3, "Syntax"),
    ([A, B, '["crash",0,1]['], 3, "Syntax"),
    ([A, B, '["crash",0,1]["'], 3, "Syntax"),
    ([A, B, '["crash",0,1] [['], 3, "Syntax"),
    ([A, B, '["restart",0,1,[]]][['], 3, "Syntax"),
    ([A, B, '[["crash",0,1]'], 3, "Syntax"),
    ([A, B, '["crash",0,["crash",0,1]'], 3, "Syntax"),
    ([A, B, "[]["], 3, "Syntax"),
    ([A, B, '["Send"'], 3, "Syntax"),
    ([A, B, "[1"], 3, "Syntax"),
    ([A, B, '["restart",0,1,[]]', "{"], 4, "Syntax"),
    ([A, B, '["send",2,1,1,0]'], 3, "NoProcess"),
    ([A, B, '["crash",0,1]', '["send",0,2,2,9]'], 4, "NoProcess"),
    ([A, B, '["crash",0,1]', '["send",0,2,1,9]'], 4, "NotUp"),
    ([A, B, '["restart",0,1,[]]'], 3, "NotDown"),
    ([A, B, '["crash",1,5]', '["restart",0,5,[]]'], 4, "NotDown"),
    ([A, B, '["send",0,1,1,1]'], 3, "WrongSsn", "process 0 sends with the number 1, and its next is 0"),
    ([A, B, '["stable",0,2,[0,0,1,0]]', '["send",0,1,1,1]'], 4, "WrongSsn", "process 0 sends with the number 1, and its next is 0"),
    ([A, B, SEND, '["send",1,2,0,0]', '["send",0,3,1,2]'], 5, "WrongSsn", "process 0 sends with the number 2, and its next is 1"),
    ([A, B, SEND, '["crash",0,2]', '["restart",0,3,[]]', '["send",0,4,1,1]'], 6, "WrongSsn", "process 0 sends with the number 1, and its next is 0"),
    ([A, B, '["send",0,3,1,0]', '["deliver",1,2,0,0,0,0,[]]'], 4, "NoSend", "there is no earlier send to process 1 of message 0 of incarnation 0 of process 0"),
    ([A, B, SEND, '["deliver",1,2,0,1,0,9,[]]'], 4, "NoSend", "there is no earlier send to process 1 of message 0 of incarnation 1 of process 0"),
    ([A, B, SEND, '["deliver",0,2,0,0,0,0,[]]'], 4, "NoSend", "there is no earlier send to process 0 of message 0 of incarnation 0 of process 0"),
    ([A, B, SEND, '["deliver",1,2,0,0,7,0,[]]'], 4, "NoSend", "there is no earlier send to process 1 of message 7 of incarnation 0 of process 0"),
    ([A, B, SEND, '["deliver",1,2,0,0,0,1,[]]'], 4, "WrongRsn", "process 1 delivers with the number 1, and its next is 0"),
    ([A, B, SEND, DELIVER, '["deliver",1,3,0,0,0,0,[]]'], 5, "WrongRsn", "process 1 delivers with the number 0, and its next is 1"),
    ([A, B, SEND, DELIVER, '["crash",1,3]', '["restart",1,4,[]]', '["deliver",1,5,0,0,0,1,[]]'], 7, "WrongRsn", "process 1 delivers with the number 1, and its next is 0"),
    ([A, B, SEND, DELIVER, '["deliver",1,3,0,0,0,1,[[9,9,9,9],[0,0,1,0]]]'], 5, "Doubled", "process 1 has delivered message 0 of process 0 already"),
    ([A, B, SEND, '["deliver",1,2,0,0,0,0,[[9,9,9,9],[0,0,1,0]]]'], 4, "Unsorted"),
    ([A, B, SEND, '["deliver",1,2,0,0,0,0,[[0,0,1,0],[0,0,1,0]]]'], 4, "Unsorted"),
    ([A, B, SEND, '["deliver",1,2,0,0,0,0,[[0,0,1,1]]]'], 4, "NoDelivery", "there is no delivery of the determinant [0,0,1,1]"),
    ([A, B, SEND, '["deliver",1,2,0,0,0,0,[[0,0,1,0],[0,1,1,0],[0,2,1,0]]]'], 4, "NoDelivery", "there is no delivery of the determinant [0,1,1,0]"),
    ([A, B, '["stable",0,1,[0,0,1,0]]'], 3, "NoDelivery", "there is no delivery of the determinant [0,0,1,0]"),
]

# What begins a line, what is repeated in it so often that it is long, what ends it, and the kind of the fault.
LONG = [
    ('["restart",0,1,[[0,0,0,0]', ",[0,0,0,0]", "]]", "NotDown"),
    ('["restart",0,1,[[0]', ",[0]", "]]", "Form"),
    ('["crash",0,1', ",[]", "]", "Form"),
    ('["crash",0,{"":[]', ',"":[]', "}]", "Form"),
    ('["crash",0,{"":[]', ',"":[]', "}", "Syntax"),
    ('["crash",0', " ", ",1,1]", "Form"),
]
# the same of lines that a kill has cut
TORN = [('["restart",0,1,[[0,0,0,0]', ",[0,0,0,0]"), ('["restart",0,1,[', "[")]
REPEATED = 270_000  # bytes of the repeated parts


def long_line(begin, unit, end):
    return lines(A, B) + begin + unit * (REPEATED // len(unit) + 1) + end


def all_but(process):
    """What is told where of 256 processes this one alone has a header, in line 1."""
    missing = "".join(f"causal_tool merge: process {p} has no header\n" for p in range(256) if p != process)
    return "causal_tool merge: line 2: some process has no header\n" + missing


def torn(*numbers):
    return "".join(f"causal_tool merge: torn line={number}: passed over\n" for number in numbers)


def rows():
    yield given("a torn line", "merge", MESSAGE, 0, MERGED, said=torn(3))
    yield given("lines in another order", "merge", SHUFFLED, 0, MERGED, said=torn(5, 9))
    yield given("by four workers", "merge --workers 4", SHUFFLED, 0, MERGED, said=torn(5, 9))
    for count in (1, 2, 3, 16):
        yield given(f"a long text by {count} workers", f"merge --workers {count}", SPREAD, 0, MERGED, said=torn(5))
        yield given(f"a long text with faults by {count} workers", f"merge --workers {count}", FAULTY, 2, "fault line=5 Form\n")
    yield given("of one clock the lower process comes first", "merge", SAME_CLOCKS, 0, IN_ORDER, said="")
    yield given("a line of an event", "merge", lines(ROUND, FORGETS, REST), 0, FORGOTTEN, said="")
    yield given("what that event says", "audit --faults 1", FORGOTTEN, 1, "orphan f=1 instant=7 delivery=1 crash=2 orphan=0\n")
    # were it passed over, the run would be accepted
    for behind in ("[", '["', REST[0]):
        text = lines(ROUND, FORGETS + behind, REST)
        yield given(f"a line of an event with {behind} behind it", "merge", text, 2, "fault line=7 Syntax\n", said=RUNS_ON)
    for texts, line, kind, *told in FAULTS:
        said = f"causal_tool merge: line {line}: {told[0]}\n" if told else None
        yield given(kind, "merge", lines(texts), 2, f"fault line={line} {kind}\n", said=said)
    for begin, unit, end, kind in LONG:
        yield given(f"a long line, {begin}", "merge", long_line(begin, unit, end), 2, f"fault line=3 {kind}\n")
    for begin, unit in TORN:
        yield given(f"a long line that is cut, {begin}", "merge", long_line(begin, unit, ""), 0, trace(1, 2), said=torn(3))
    yield given("no header", "merge", lines(A) + '["send"', 2, "fault line=3 NoHeader\n", said=NO_HEADER)
    yield given("of five processes two have headers", "merge", lines('["recording",3,1,5,7]', '["recording",1,1,5,7]'), 2, "fault line=3 NoHeader\n", said=THREE_MISSING)
    yield given("one of 256 has a header", "merge", lines('["recording",255,1,256,7]'), 2, "fault line=2 NoHeader\n", said=all_but(255))
    yield given("no recording at all", "merge", lines('["heard",0,1,1,2]'), 2, "fault line=2 NoHeader\n", said=NONE_KNOWN)
    yield given("a recording of another run", "merge", lines(A, B, '["recording",0,1,2,8]'), 2, "fault line=3 Header\n", said=OTHER_RUN)
    # one byte too many is read, and no further one
    yield given("much too long", "merge", " " * (BYTES + 1 + 5_000), 2, "fault line=1 Big\n", left=5_000)
    yield given("as many events as asked for", "merge --entries 2", MESSAGE, 0, MERGED)
    yield given("one event too many", "merge --entries 1", MESSAGE, 2, "fault line=2 TooLong\n", said=TOO_LONG)
    second = lines(A, B, SEND, '["send",0,2,1,1]')
    yield given("a second event of one", "merge --entries 1", second, 2, "fault line=4 TooLong\n")
    yield given("a second event of two", "merge --entries 2", second, 0, trace(1, 2, LOGGED[0], '["send",0,1,1]'))
    recorded = ['["recording",0,1,1,7]', *(f'["{word}",0,{2 * k + i}{rest}]' for k in range(513) for i, (word, rest) in enumerate((("crash", ""), ("restart", ",[]"))))]
    turns = ['["crash",0]', '["restart",0,[]]'] * 512
    yield given("as many restarts as asked for", "merge --entries 131072", lines(recorded[:1025]), 0, trace(1, 1, turns))
    yield given("one restart too many", "merge --entries 131072", lines(recorded), 2, "fault line=1027 Lanes\n")
    # 1,024 bytes for each
    yield given("much too long for one event", "merge --entries 1", " " * (1_024 + 1 + 5_000), 2, "fault line=1 Big\n", left=5_000)
    yield given("not too long for two", "merge --entries 2", " " * 2_048, 2, "fault line=2 NoHeader\n")
