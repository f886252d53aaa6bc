"""Maps: what `merge --map` writes, and what `explain --map` tells by it."""
from . import reasons
from .files import FIRST, MISSING, SECOND, UNREAD, WRONG
from .merges import A, B, DELIVER, MERGED, SEND
from .row import given
from .texts import crash, lines, send, trace

MAP = '[0,"p0.log",2,1]\n[1,"p1.log",2,2]\n'
BOTH = {"p0.log": FIRST, "p1.log": SECOND}
USAGE = "error: the argument '--map <PATH>' cannot be used with '--json'\n"
NO_FAULTS = "error: the following required arguments were not provided:\n  --faults <F>\n"
GIVE = "causal_tool explain: give the map that merge wrote with this trace\n"

# A message is passed on without its past: recordings of three processes, with clocks of more than 32 bits.
C = 2**63
PARTS = {
    "a.log": lines('["recording",0,1,3,7]', f'["send",0,{C},1,0]'),
    "b c.log": lines('["recording",1,1,3,7]', f'["deliver",1,{C + 1},0,0,0,0,[[0,0,1,0]]]', "", f'["send",1,{C + 2},2,0]'),
    "d.log": lines('["recording",2,1,3,7]', f'["deliver",2,{C + 3},1,0,0,0,[[1,0,2,0]]]'),
}
BARE = trace(1, 3, send(0, 1, 0), '["deliver",1,0,0,[[0,0,1,0]]]', send(1, 2, 0), '["deliver",2,2,0,[[1,0,2,0]]]')
BARE_MAP = lines(f'[0,"a.log",2,{C}]', f'[1,"b c.log",2,{C + 1}]', f'[2,"b c.log",4,{C + 2}]', f'[3,"d.log",2,{C + 3}]')
PLACES = {3: f" at=b c.log:2 clock={C + 1}", 4: f" at=b c.log:4 clock={C + 2}", 5: f" at=d.log:2 clock={C + 3}"}
BARE_VERDICT = "orphan f=1 instant=4 delivery=1 crash=1 orphan=2\n"
BARE_FACTS = [
    (3, reasons.DELIVERY), (5, reasons.by_delivery(5, 2, 4)), (5, reasons.unstable(5)), (3, reasons.holder(1, 3)), (None, reasons.crashes(1)),
    (3, reasons.CHAIN), (4, reasons.sends(4, 1, 0, 2)), (5, reasons.delivers(5, 2, 4)), (5, reasons.unlisted(5, 4, 2)), (None, reasons.orphan(2)),
]


def placed(line, fact):
    """A fact with the place of the entry on its line, before its sentence."""
    return fact.replace(":", PLACES[line] + ":", 1) if line else fact


EXPLAINED = BARE_VERDICT + "".join(placed(line, fact) for line, fact in BARE_FACTS)


def merge_rows():
    command = "merge --map run.map "
    yield given("two recordings", command + "p0.log p1.log", "", 0, MERGED, said="", files=BOTH, made={"run.map": MAP})
    yield given("in the other order", command + "p1.log p0.log", "", 0, MERGED, said="", files=BOTH, made={"run.map": MAP})
    yield given("an older map is replaced", command + "p0.log p1.log", "", 0, MERGED, said="", files={**BOTH, "run.map": MAP * 9}, made={"run.map": MAP})
    yield given("empty files between", command + "e p0.log e p1.log e", "", 0, MERGED, files={"e": "", **BOTH}, made={"run.map": MAP})
    all_in_one = '[0,"all.log",2,1]\n[1,"all.log",4,2]\n'
    yield given("one file with both", command + "all.log", "", 0, MERGED, files={"all.log": FIRST + SECOND}, made={"run.map": all_in_one})
    yield given("standard input alone", command, FIRST + SECOND, 0, MERGED, made={"run.map": all_in_one.replace("all.log", "-")})
    mixed = '[0,"p0.log",2,1]\n[1,"-",2,2]\n'
    yield given("standard input behind a file", command + "p0.log -", SECOND, 0, MERGED, files={"p0.log": FIRST}, made={"run.map": mixed})
    # the first line of the second file begins in the first, which has no line feed at its end
    runs_on = {"p0.log": lines(A, SEND) + '["recor', "p1.log": 'ding",1,1,2,7]\n' + DELIVER + "\n"}
    yield given("a line that runs into the next file", command + "p0.log p1.log", "", 0, MERGED, files=runs_on, made={"run.map": MAP})
    begins = {"p0.log": lines(A, B) + SEND[:9], "e": "", "p1.log": SEND[9:] + "\n" + DELIVER + "\n"}
    begun = '[0,"p0.log",3,1]\n[1,"p1.log",2,2]\n'
    yield given("an event that runs into the next file", command + "p0.log e p1.log", "", 0, MERGED, files=begins, made={"run.map": begun})
    odd = '[0,"p\\"0\\\\.log",2,1]\n[1,"p1.log",2,2]\n'
    yield given("a name with a quotation mark", command + 'p"0\\.log p1.log', "", 0, MERGED, files={'p"0\\.log': FIRST, "p1.log": SECOND}, made={"run.map": odd})
    yield given("no events", command + "p0.log p1.log", "", 0, trace(1, 2), files={"p0.log": lines(A), "p1.log": lines(B)}, made={"run.map": ""})
    yield given("a fault", command + "p0.log p1.log", "", 2, "fault line=4 WrongRsn\n", files={"p0.log": FIRST, "p1.log": WRONG}, made={"run.map": None})
    kept = {"p0.log": FIRST, "p1.log": WRONG, "run.map": MAP * 9}
    yield given("a fault leaves an older map", command + "p0.log p1.log", "", 2, "fault line=4 WrongRsn\n", files=kept, made={"run.map": MAP * 9})
    for name, named, replaced in (("p0.log", "p0.log p1.log", "p0.log"), ("./p1.log", "p0.log p1.log", "p1.log"), ("p1.log", "- ././p1.log", "././p1.log"), ("none", "p0.log none", "none")):
        said = f"causal_tool merge: the map {name} would replace {replaced}, which is read: name another file\n"
        yield given(f"the map {name} of {named}", f"merge --map {name} {named}", "", 3, "", said=said, files=BOTH, made=BOTH)
    dash = '[0,"p0.log",2,1]\n[1,"-",2,2]\n'
    yield given("standard input is no file of that name", "merge --map - p0.log -", SECOND, 0, MERGED, said="", files={"p0.log": FIRST}, made={"-": dash})
    said = "write fault\ncausal_tool merge: no/run.map: " + MISSING + "\n"
    yield given("a map that cannot be written", "merge --map no/run.map p0.log p1.log", "", 4, MERGED, said=said, files=BOTH)
    yield given("no map", "merge p0.log p1.log", "", 0, MERGED, files=BOTH, made={"run.map": None})


def explain_rows():
    command = "explain --faults 1 --map run.map"
    files = {"run.map": BARE_MAP}
    yield given("an orphan", command, BARE, 1, EXPLAINED, said="", files=files)
    yield given("by four workers", command + " --workers 4", BARE, 1, EXPLAINED, said="", files=files)
    safe = "accept f=0 entries=2 deliveries=1\n" + reasons.NEVER
    yield given("no entry is named", command.replace("1", "0"), MERGED, 0, safe, said="", files={"run.map": MAP})
    down = trace(1, 2, crash(1))
    told = "exceeded f=0 instant=1 down=1\ncause line=2 process=1 by=crash at=x:9 clock=7: process 1 crashes, and more are down than may be\n"
    told += "down process=1 line=2 at=x:9 clock=7: process 1 is down since its crash at line 2\n"
    yield given("more are down", command.replace("1", "0"), down, 1, told, said="", files={"run.map": '[0,"x",9,7]\n'})
    yield given("spaces in a line of the map", command.replace("1", "0"), down, 1, told, said="", files={"run.map": ' [ 0 , "x" ,9,7]\n'})
    escaped = told.replace("at=x", "at=\\u0001\\n\\\"")
    yield given("a name is escaped", command.replace("1", "0"), down, 1, escaped, said="", files={"run.map": '[0,"\\u0001\\n\\"",9,7]\n'})
    unread = UNREAD.format("explain", "run.map", MISSING)
    yield given("no map there", command, BARE, 4, "", said=unread, files={})
    yield given("it is not read for a faulty trace", command, "", 2, "fault line=1 Cut\n", files={})
    # of the map only the lines of entries that are named are looked at: not that of entry 0
    other = "[]\n" + "".join(BARE_MAP.splitlines(True)[1:])
    yield given("a wrong line that is not named", command, BARE, 1, EXPLAINED, said="", files={"run.map": other})
    for name, wrong in (
        ("the line of another entry", BARE_MAP.replace("[1,", "[2,")),
        ("a number too few", BARE_MAP.replace(f",2,{C + 1}]", f",{C + 1}]")),
        ("a clock beyond 64 bits", BARE_MAP.replace(f"{C + 1}]", f"{2**64}]")),
        ("a file that is no text", BARE_MAP.replace('"b c.log"', "7")),
        ("no JSON", BARE_MAP.replace("[1,", "(1,")),
        ("a long line", BARE_MAP.replace("b c.log", "b" * 65_536)),
    ):
        said = "causal_tool explain: run.map:2: this is not the line of entry 1 of the trace\n" + GIVE
        yield given(name, command, BARE, 2, "", said=said, files={"run.map": wrong})
    short = "causal_tool explain: run.map: the map has {} lines, and the trace {} entries\n" + GIVE
    yield given("the map of another trace", command, BARE, 2, "", said=short.format(2, 4), files={"run.map": MAP})
    yield given("the map of a shorter trace", command.replace("1", "0"), MERGED, 2, "", said=short.format(4, 2), files=files)
    yield given("a map that is cut", command, BARE, 2, "", said=short.format(3, 4), files={"run.map": BARE_MAP[:-1]})
    yield given("the trace in place of the map", command, BARE, 2, "", said=short.format(6, 4), files={"run.map": BARE})
    # a map may have 1,024 bytes for each entry
    big = "causal_tool explain: run.map: the map is too long\n" + GIVE
    yield given("as long as it may be", command.replace("1", "0") + " --entries 1", down, 1, told, files={"run.map": '[0,"x",9,7]'.ljust(1_023) + "\n"})
    yield given("too long", command.replace("1", "0") + " --entries 1", down, 2, "", said=big, files={"run.map": '[0,"x",9,7]'.ljust(1_024) + "\n"})
    yield given("JSON", command + " --json", BARE, 3, "", said=USAGE, files=files)
    yield given("no bound", "explain --map run.map", BARE, 3, "", said=NO_FAULTS, files=files)


def rows():
    yield given("the recordings of that trace", "merge --map run.map a.log d.log bc", "", 0, BARE, files={**PARTS, "bc": PARTS["b c.log"]}, made={"run.map": BARE_MAP.replace("b c.log", "bc")})
    yield from merge_rows()
    yield from explain_rows()
