"""What standard error adds to the message of an error: what stands on the line, what was expected there, and what to do."""
import gzip

from .merges import A, B, SEND
from .row import given
from .texts import RING_TEXT, lines, send, spelled, trace

TWO = spelled("trace", 1, 2)
FORM = "causal_tool {}: line {}: the line has none of the shapes\n"
SYNTAX = "causal_tool {}: line {}: the line is not a JSON value\n"
FOUND = "causal_tool {}: found there: {}\n"
EXPECTED = "causal_tool {}: expected there: {}\n"
WORDS = {
    "audit": "an array whose first word is trace (in line 1), send, deliver, stable, crash, restart, forget or end",
    "merge": "an array whose first word is recording, send, deliver, stable, crash, restart, forget or heard",
}
SEND_SHAPE = '["send",P,Q,SSN], with P and Q 0 to 255 and SSN 0 to 4294967295'

# A line in the second place of a trace, and what is expected there.
SHAPES = [
    ('["send",0,1]', SEND_SHAPE),
    ('["send",0,256,0]', SEND_SHAPE),
    (' [ "send",0,1,0,0]', SEND_SHAPE),
    ('["sent",0,1,0]', WORDS["audit"]),
    ('{"send":[0,1,0]}', WORDS["audit"]),
    ("7", WORDS["audit"]),
    ('["crash","a"]', '["crash",P], with P 0 to 255'),
    ('["forget",1,[[0]]]', '["forget",P,[[SOURCE,SSN,DEST,RSN],..]], in version 2 alone, with P, SOURCE and DEST 0 to 255 and SSN and RSN 0 to 4294967295'),
]

# The beginning of a text that is none, and what it is.
OTHERS = [
    (gzip.compress(RING_TEXT.encode()), "this is compressed by gzip: unpack it first, as by gzip -dc"),
    (RING_TEXT.encode("utf-16"), "this is UTF-16: write it as UTF-8"),
    (RING_TEXT.encode("utf-16-be").join([b"\xfe\xff", b""]), "this is UTF-16: write it as UTF-8"),
    (RING_TEXT.encode("utf-8-sig"), "a byte-order mark stands there: remove it"),
    (b"# a ring\n" + RING_TEXT.encode(), "a comment stands there: the format has none"),
]

LONGER = "causal_tool {}: give --entries N for a longer one, N to 16777216\n"
RESTARTS = "causal_tool audit: give --entries N for more than 192 restarts: at most N / 256 of all processes together, N above 65536, to 16777216\n"


def shape_rows():
    for line, expected in SHAPES:
        said = FORM.format("audit", 2) + FOUND.format("audit", line) + EXPECTED.format("audit", expected)
        yield given(f"no shape: {line}", "audit --faults 0", lines(TWO, line), 2, "fault line=2 Form\n", said=said)
    long = '["sent","' + "\u00e9" * 60 + '"]'
    said = FORM.format("audit", 2) + FOUND.format("audit", '["sent","' + "\\xc3\\xa9" * 35 + "\\xc3")
    yield given("80 bytes of a long line, escaped", "audit --faults 0", lines(TWO, long), 2, "fault line=2 Form\n", said=said)
    # the line begins in one piece that is read, of 4,096 bytes, and ends in the next
    text = lines(TWO.ljust(4_089), '["cut"]')
    said = FORM.format("audit", 2) + FOUND.format("audit", '["cut"]')
    yield given("a line in two pieces", "audit --faults 0", text, 2, "fault line=2 Form\n", said=said)


def other_rows():
    for text, told in OTHERS:
        said = SYNTAX.format("audit", 1) + f"causal_tool audit: {told}\n"
        yield given(told, "audit --faults 0", text, 2, "fault line=1 Syntax\n", said=said)
        said = SYNTAX.format("merge", 1) + f"causal_tool merge: {told}\n"
        yield given(f"no recording: {told}", "merge", text, 2, "fault line=1 Syntax\n", said=said)
    said = FORM.format("audit", 1) + "causal_tool audit: this is a recording: merge it first, by causal_tool merge\n"
    yield given("a recording", "audit --faults 0", lines(A, B, SEND), 2, "fault line=1 Form\n", said=said)
    said = FORM.format("merge", 2) + "causal_tool merge: this is a trace, which is not merged: give it to causal_tool audit\n"
    yield given("a trace among recordings", "merge", lines(A, TWO), 2, "fault line=2 Form\n", said=said)
    expected = '["send",P,CLOCK,Q,SSN], with P and Q 0 to 255, CLOCK 0 to 18446744073709551615 and SSN 0 to 4294967295'
    said = FORM.format("merge", 2) + FOUND.format("merge", '["send",0,1,1]') + EXPECTED.format("merge", expected)
    yield given("a recorded send without clock", "merge", lines(A, '["send",0,1,1]'), 2, "fault line=2 Form\n", said=said)


def limit_rows():
    text = trace(1, 1, send(0, 0, 0), send(0, 0, 1))
    said = "causal_tool audit: line 3: the trace would be too long\n"
    said += "causal_tool audit: the entries before line 3: accept f=0 entries=1 deliveries=0\n" + LONGER.format("audit")
    yield given("one entry too many", "audit --faults 0 --entries 1", text, 2, "fault line=3 TooLong\n", said=said)
    turns = [line for _ in range(193) for line in ('["crash",0]', '["restart",0,[]]')]
    said = "causal_tool audit: line 387: too many lanes have been opened\n"
    said += "causal_tool audit: the entries before line 387: accept f=1 entries=385 deliveries=0\n" + RESTARTS
    yield given("one restart too many", "audit --faults 1", lines(spelled("trace", 1, 1), turns), 2, "fault line=387 Lanes\n", said=said)


def rows():
    yield from shape_rows()
    yield from other_rows()
    yield from limit_rows()
