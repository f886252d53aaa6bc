"""Texts that are no traces, with the line of their first fault, and texts that look as if they were none."""
from . import texts
from .row import given
from .texts import A, B, C, LOGGED, RING, SENT, crash, deliver, forget, lines, restart, send, spelled, trace

# how long a text may be, how many entries a trace may have, and how many times processes may restart, unless asked for more
BYTES, ENTRIES, RESTARTS = 33_554_432, 65_536, 192
# so many determinants, listed as many times, are as many as entries may list
LISTED = 1_024

TWO = spelled("trace", 1, 2)

FAULTY = [
    ("a skipped send", trace(1, 2, send(0, 1, 1)), "2 WrongSsn"),
    ("no end line", texts.DELIVERED, "4 Cut"),
    ("another number of entries", texts.DELIVERED + '["end",1]\n', "4 Count"),
    ("a line after the end", trace(1, 2, LOGGED) + '["end",2]\n', "5 After"),
    ("a cut line", lines(TWO, SENT) + '["deliver",1,0', "3 Syntax"),
    ("a message delivered twice", texts.DOUBLED, "4 Doubled"),
    ("forgetting in the first version", trace(1, 3, RING, forget(1, A)), "8 Form"),
]

# what follows a header of two processes and a message that the first sends the second
AFTER_SENT = [
    ('["send",1,0,-1]', "3 Form"),
    ('["send",1,0,0.0]', "3 Form"),
    ('["send",1,0,0e0]', "3 Form"),
    ('["send",1,0,-0]', "3 Form"),
    ('["send",1,0,4294967296]', "3 Form"),
    ('["send",1,0,18446744073709551616]', "3 Form"),
    ('["send",1,0,"0"]', "3 Form"),
    ('["send",1,0,0,0]', "3 Form"),
    ('["send",1,0,00]', "3 Syntax"),
    ('["send",1,0,1]', "3 WrongSsn"),
    ('["send",0,2,7]', "3 NoProcess"),
    ('{"send":[1,0,0]}', "3 Form"),
    ('["note",1]', "3 Form"),
    ('["forget",1,[]]', "3 Form"),
    ('["trace",1,2]', "3 Header"),
    ('\n["end",1]', "3 Syntax"),
    ('["end",1]["end",1]', "3 Syntax"),
    ('["end",0]', "3 Count"),
    ('["end",1]\n\n', "4 After"),
    ('["end",1]\n["end",1]', "4 After"),
    ("", "3 Cut"),
    ('["deliver",2,0,0,[]]', "3 NoProcess"),
    ('["deliver",2,9,9,[]]', "3 NoProcess"),
    ('["crash",2]', "3 NoProcess"),
    ('["deliver",1,1,0,[]]', "3 NoSend"),
    ('["deliver",0,0,0,[]]', "3 NoSend"),
    ('["deliver",1,7,9,[[9,9,9,9],[0,0,0,0]]]', "3 NoSend"),
    ('["deliver",1,0,1,[]]', "3 WrongRsn"),
    ('["deliver",1,0,0,[[0,0,1,0],[0,0,1,0]]]', "3 Unsorted"),
    ('["deliver",1,0,0,[[0,0,1,1]]]', "3 NoDelivery"),
    ('["deliver",1,0,0,[[0,0,1]]]', "3 Form"),
    ('["deliver",1,0', "3 Syntax"),
    ('["stable",[0,0,1,0]]', "3 NoDelivery"),
    ('["restart",1,[]]', "3 NotDown"),
    ('["crash",1]\n["crash",1]', "4 NotUp"),
    ('["crash",1]\n["deliver",1,0,0,[]]', "4 NotUp"),
    ('["cr\\u0061sh",1]\n["crash",1]', "4 NotUp"),
    ('["deliver",1,0,0,[]]\n["deliver",1,0,1,[[0,0,1,1]]]', "4 Doubled"),
]

WHOLE = [
    ("", "1 Cut"),
    ("\n", "1 Syntax"),
    ('["send",0,1,0]', "1 Header"),
    ('["end",0]', "1 Header"),
    ('["forget",0,[]]', "1 Header"),
    ('["trace",1]', "1 Form"),
    ('["trace",7,2]', "1 Version"),
    ('["trace",3,2]', "1 Version"),
    ('["trace",0,300]', "1 Version"),
    ('["trace",1,0]', "1 Processes"),
    ('["trace",1,65]', "1 Processes"),
    ('["trace",2,0]', "1 Processes"),
    ('["trace",2,257]', "1 Processes"),
    ('["trace",2,65537]', "1 Processes"),
    ('\ufeff["trace",1,2]', "1 Syntax"),
    ('["trace",1,2]\n["send",0,2,0]', "2 NoProcess"),
    ('["trace",1,2]\n["send",0,256,0]', "2 Form"),
    ('["trace",1,2]\n["send",0,1', "2 Syntax"),
    ('["trace",1,2]\n["send",0,1,1]', "2 WrongSsn"),
    ('["trace",2,2]\n["forget",0,[[0,0,1,0]]]', "2 NoDelivery"),
    ('["trace",2,2]\n["crash",1]\n["forget",1,[]]', "3 NotUp"),
    (b'["trace",1,2]\n["\xff",0]\n', "2 Syntax"),
    ("[" * 200, "1 Syntax"),
]

# what follows a message that is sent and delivered
AFTER_DELIVERED = [
    ("", "4 Cut"),
    ('["end",1]', "4 Count"),
    ('["end",2]\n ', "5 After"),
    ('["deliver",1,0,1,[[0,0,1,1]]]', "4 Doubled"),
    ('["forget",1,[[0,0,1,0]]]', "4 Form"),
]

# texts that spell traces, and for no fault the verdict
SPELLED = [
    ('["trace",1,64]\n["end",0]', "accept f=0 entries=0 deliveries=0"),
    ('["trace",2,256]\n["crash",255]\n["end",1]', "exceeded f=0 instant=1 down=255"),
    ('["trace",2,1]\r\n\t[ "forget" , 0 , [ ] ]\r\n["end",1]\r\n', "accept f=0 entries=1 deliveries=0"),
    (texts.DELIVERED + '["end",2]', "accept f=0 entries=2 deliveries=1"),
    (
        texts.DELIVERED + '["crash",1]\n["restart",1,[]]\n["deliver",1,0,0,[[0,0,1,0]]]\n["end",5]\n',
        "exceeded f=0 instant=3 down=1",
    ),
    (texts.RING_TEXT.replace(",", ", ").replace("\n", "\r\n"), "accept f=0 entries=6 deliveries=3"),
]

# what begins a line, what is repeated in it so often that it is long, what ends it, and the fault; each after a message is sent
LONG = [
    ('["end"', " ", ',1]\n["end",1]', "4 After"),
    ('["end"', " ", ",1,1]", "3 Form"),
    ('["end"', " ", ",1", "3 Syntax"),
    ('["end",1]', " ", "1", "3 Syntax"),
    ('"end', " ", '"', "3 Form"),
    ('[{"":0}', ',{"":0}', "]", "3 Form"),
    ('[{"":0}', ',{"":0}', ",1e400]", "3 Syntax"),
    ("[[0]", ",[0]", "]", "3 Form"),
    ("[[0]", ",[0]", "}", "3 Syntax"),
    ("[0", ",-0", ",-1e308]", "3 Form"),
    ('["deliver",1,0,0,[[0,0,1,0]', ",[0,0,1,0]", "]]", "3 Unsorted"),
    ('["deliver",1,0,0,[[0,0,1,0]', ",[0,0,1]", "]]", "3 Form"),
    ('["deliver",1,0,0,[[0,0,1,0]', ",[0,0,1,[0]]", "]]", "3 Form"),
]
REPEATED = 270_000

# one line of the replayed ring in the place of another, and the answer for one fault
FORGED = [
    (2, deliver(1, 0, 0), "orphan f=1 instant=2 delivery=1 crash=- orphan=1"),
    (6, deliver(0, 4, 0, B), "orphan f=1 instant=6 delivery=5 crash=- orphan=0"),
    (8, restart(1, B, C), "orphan f=1 instant=8 delivery=1 crash=2 orphan=0"),
    (8, restart(1, A, C), "accept f=1 entries=10 deliveries=4"),
]


def long_line(begin, unit, end):
    """A text whose third line repeats a part so often that it is long."""
    return lines(TWO, SENT) + begin + unit * (REPEATED // len(unit) + 1) + end


def limits():
    """Texts that are as long as may be, and those beyond."""
    padded = texts.EMPTY[:-1].ljust(BYTES)
    yield "the longest text", padded, None
    yield "a text too long", padded + "\n", "2 Big"
    yield "one line too long", " " * (BYTES + 1), "1 Big"
    turns = [crash(0), restart(0)]
    yield "one restart too many", lines(spelled("trace", 1, 1), turns * (RESTARTS + 1)), f"{2 * RESTARTS + 3} Lanes"
    sends = [send(0, 0, k) for k in range(ENTRIES + 1)]
    yield "one entry too many", lines(spelled("trace", 1, 1), sends), f"{ENTRIES + 2} TooLong"


def listing_rows():
    """Each of many deliveries lists its determinant, and another process forgets all of them, which it does not hold, again and again
    until no entry may list one more."""
    dets = [[0, k, 0, k] for k in range(LISTED)]
    delivered = [line for k, det in enumerate(dets) for line in (send(0, 0, k), deliver(0, 2 * k, k, det))]
    full = [*delivered, *[forget(1, *dets)] * (LISTED - 1)]
    yield faulty("one determinant too many", lines(spelled("trace", 2, 2), full, forget(1, dets[0])), f"{len(full) + 2} TooLong")
    yield accepted("as many determinants as may be", trace(2, 2, full, forget(1)), "accept f=0 entries=3072 deliveries=1024")


def asked_limits():
    """Texts as long as a limit lets pass that is asked for, and those beyond: N entries and 512 N bytes."""
    for n in (1, 2, ENTRIES, ENTRIES + 1):
        sends = [send(0, 0, k) for k in range(n + 1)]
        text, more = trace(1, 1, sends[:n]), trace(1, 1, sends)
        yield accepted(f"{n} of {n} entries", text, f"accept f=0 entries={n} deliveries=0", f" --entries {n}")
        yield accepted(f"{n + 1} of {n + 1} entries", more, f"accept f=0 entries={n + 1} deliveries=0", f" --entries {n + 1}")
        yield faulty(f"{n + 1} entries, of which {n} may be", more, f"{n + 2} TooLong", f" --entries {n}")
    for n in (1, 2, ENTRIES + 1):
        padded = texts.EMPTY[:-1].ljust(512 * n)
        yield accepted(f"as many bytes as for {n} entries", padded, "accept f=0 entries=0 deliveries=0", f" --entries {n}")
        yield faulty(f"one byte more than for {n} entries", padded + " ", "2 Big", f" --entries {n}")


def asked_restarts():
    """As many restarts as a limit of N entries lets pass, and one more: N / 256 where N is beyond the usual limit."""
    for n, most in ((1_000, RESTARTS), (ENTRIES, RESTARTS), (ENTRIES + 1, 256), (2 * ENTRIES, 512), (16_777_216, 65_536)):
        turns = [crash(0), restart(0)] * most
        text, more = trace(1, 1, turns), lines(spelled("trace", 1, 1), turns, crash(0), restart(0))
        yield accepted(f"{most} restarts of {n} entries", text, f"accept f=1 entries={2 * most} deliveries=0", f" --entries {n}")
        yield faulty(f"{most + 1} restarts of {n} entries", more, f"{2 * most + 3} Lanes", f" --entries {n}")


def faulty(name, text, fault, asked="", **more):
    return given(name, "audit --faults 0" + asked, text, 2, f"fault line={fault}\n", **more)


def accepted(name, text, line, asked=""):
    return given(name, f"audit --faults {line.split()[1][2:]}{asked}", text, 0 if line.startswith("accept") else 1, line + "\n")


def cut_rows():
    """The replayed ring, cut after each of its bytes. A line that was cut is no JSON value; one that lacks its line feed alone is whole,
    and so is the text without its last. After whole lines the end line is missing in the next one."""
    text, line, begins = texts.REPLAYED_TEXT, 1, True
    for cut, following in enumerate(text):
        whole = following == "\n"
        line += whole
        kind = "Cut" if whole or begins else "Syntax"
        if cut < len(text) - 1:
            yield given(f"cut after {cut}", "audit --faults 1", text[:cut], 2, f"fault line={line} {kind}\n")
        else:
            yield accepted("without its last line feed", text[:cut], "accept f=1 entries=10 deliveries=4")
        begins = whole


def forged_rows():
    for place, forged, line in FORGED:
        own = texts.REPLAYED_TEXT.splitlines()
        yield accepted(f"{forged} in line {place + 1}", lines(own[:place], forged, own[place + 1 :]), line)


def rows():
    for name, text, fault in FAULTY:
        yield faulty(name, text, fault)
    for rest, fault in AFTER_SENT:
        yield faulty(f"a message, and {rest}", lines(TWO, SENT) + rest, fault)
    for text, fault in WHOLE:
        yield faulty(repr(text), text, fault)
    for rest, fault in AFTER_DELIVERED:
        yield faulty(f"a delivery, and {rest}", texts.DELIVERED + rest, fault)
    for text, line in SPELLED:
        yield accepted(repr(text), text, line)
    for begin, unit, end, fault in LONG:
        yield faulty(f"a long line {begin}{unit}..{end}", long_line(begin, unit, end), fault)
    yield accepted("a long line of spaces", long_line('["end"', " ", ",1]"), "accept f=0 entries=1 deliveries=0")
    yield from listing_rows()
    for name, text, fault in limits():
        yield faulty(name, text, fault) if fault else accepted(name, text, "accept f=0 entries=0 deliveries=0")
    yield from asked_limits()
    yield from asked_restarts()
    # the piece that has one byte too many is read, and no further one
    yield faulty("much too long", " " * (BYTES + 5_000), "1 Big", left=5_000 - 4_096)
    yield given("what is wrong", "audit --faults 0", lines(TWO, send(0, 1, 1)), 2, "fault line=2 WrongSsn\n", said=WRONG)
    yield from cut_rows()
    yield from forged_rows()


WRONG = (
    "causal_tool audit: line 2: process 0 sends with the number 1, and its next is 0\n"
    "causal_tool audit: the entries before line 2: accept f=0 entries=0 deliveries=0\n"
)
