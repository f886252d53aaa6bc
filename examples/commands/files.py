"""Files on the command line: the answers are those of the same bytes on standard input, and messages name a file and its line."""
from .merges import A, B, DELIVER, MERGED, SEND
from .row import given
from .texts import RING_TEXT, lines, send, trace

RING = "accept f=0 entries=6 deliveries=3\n"
SKIPPED = trace(1, 2, send(0, 1, 1))
SKIPPED_SAID = """causal_tool audit: run.jsonl:2: process 0 sends with the number 1, and its next is 0
causal_tool audit: the entries before line 2: accept f=0 entries=0 deliveries=0
"""
UNREAD = "read fault\ncausal_tool {}: {}: {}\n"
MISSING, FOLDER = "No such file or directory (os error 2)", "Is a directory (os error 21)"
SCRIPT = "start ring 3 1 2\ndeliver 1 0 0\n"

# The recordings of two processes, by file; that of process 1 delivers with the wrong number, in its second line.
FIRST, SECOND = lines(A, SEND), lines(B, DELIVER)
WRONG = lines(B, '["deliver",1,2,0,0,0,7,[[0,0,1,0]]]')
WRONG_SAID = "causal_tool merge: p1.log:2: process 1 delivers with the number 7, and its next is 0\n"


def merge_rows():
    """The line of a fault is counted over all files, as if they were one; the message has the line of the file in which it begins."""
    yield given("two recordings", "merge p0.log p1.log", "", 0, MERGED, said="", files={"p0.log": FIRST, "p1.log": SECOND})
    yield given("in the other order", "merge p1.log p0.log", "", 0, MERGED, said="", files={"p0.log": FIRST, "p1.log": SECOND})
    yield given("one of them on standard input", "merge p0.log -", SECOND, 0, MERGED, said="", files={"p0.log": FIRST})
    yield given("one file with both", "merge all.log", "", 0, MERGED, said="", files={"all.log": FIRST + SECOND})
    yield given("empty files between", "merge e p0.log e p1.log e", "", 0, MERGED, said="", files={"e": "", "p0.log": FIRST, "p1.log": SECOND})
    yield given("a fault in the second", "merge p0.log p1.log", "", 2, "fault line=4 WrongRsn\n", said=WRONG_SAID, files={"p0.log": FIRST, "p1.log": WRONG})
    said = "causal_tool merge: p0.log:2: the line is not a JSON value\n"
    runs_on = {"p0.log": FIRST[:-1], "p1.log": SECOND}
    yield given("a line that runs into the next file", "merge p0.log p1.log", "", 2, "fault line=2 Syntax\n", said=said, files=runs_on)
    said = "causal_tool merge: p1.log:4: another line of this process has the same clock\n"
    twice = {"p0.log": FIRST + '["send",0', "p1.log": "\n" + SECOND + DELIVER + "\n"}
    yield given("behind a line that runs on", "merge p0.log p1.log", "", 2, "fault line=6 Twice\n", said=said, files=twice)
    torn = {"p0.log": FIRST + '["send",0\n', "p1.log": SECOND}
    said = "causal_tool merge: p0.log:3: torn line=3: passed over\n"
    yield given("a torn line", "merge p0.log p1.log", "", 0, MERGED, said=said, files=torn)
    said = UNREAD.format("merge", "p2.log", MISSING)
    yield given("a file that is not there", "merge p0.log p2.log", "", 4, "", said=said, files={"p0.log": FIRST})


def rows():
    yield given("a trace", "audit --faults 0 run.jsonl", "", 0, RING, said="", files={"run.jsonl": RING_TEXT})
    yield given("a trace in JSON", "audit --faults 0 --json run.jsonl", "", 0, '{"verdict":"accept","f":0,"entries":6,"deliveries":3}\n', said="", files={"run.jsonl": RING_TEXT})
    yield given("a trace, its options behind it", "audit run.jsonl --faults 0", "", 0, RING, said="", files={"run.jsonl": RING_TEXT})
    yield given("a wrong number", "audit --faults 0 run.jsonl", "", 2, "fault line=2 WrongSsn\n", said=SKIPPED_SAID, files={"run.jsonl": SKIPPED})
    yield given("a file that is not there", "audit --faults 0 run.jsonl", "", 4, "", said=UNREAD.format("audit", "run.jsonl", MISSING), files={})
    yield given("a folder", "explain .", "", 4, "", said=UNREAD.format("explain", ".", FOLDER), files={})
    yield given("no picture", "draw --faults 0 run.jsonl", "", 2, "", said=SKIPPED_SAID.replace("audit", "draw"), files={"run.jsonl": SKIPPED})
    said = "causal_tool run: it.script:2: this is no line of a script here\n"
    yield given("a script", "run it.script", "", 2, "fault line=2 Script\n", said=said, files={"it.script": SCRIPT.replace("deliver", "deliver ")})
    said = "causal_tool run: it.script:2 is refused: "
    yield given("a refused command", "run it.script", "", 2, "refused line=2 NotAvailable\n", said=said, files={"it.script": SCRIPT.replace("0 0", "0 1")})
    yield from merge_rows()
