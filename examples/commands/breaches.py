"""What `audit --until-breach` answers, which looks at 1, 2, 4 entries and so on."""
from .row import given
from .texts import crash, deliver, lines, send, spelled

TWO = spelled("trace", 1, 2)
USUAL = 65_536  # entries that a trace may have where nobody says otherwise


def sends(entries):
    """So many messages of the first process to the second."""
    return [send(0, 1, number) for number in range(entries)]


def broken(instant, entries):
    """The lines of a run whose entry before this instant is a delivery that nobody has logged, all others messages."""
    return [TWO, *sends(instant - 1), deliver(1, 0, 0), *[send(0, 1, number) for number in range(instant - 1, entries - 1)]]


def orphan(instant, read=None):
    told = f"orphan f=0 instant={instant} delivery={instant - 1} crash=- orphan=1"
    return told + ("" if read is None else f" read={read}") + "\n"


def fault(line, kind):
    return f"fault line={line} {kind}\n"


def end(entries):
    return spelled("end", entries)


def until(name, text, status, out, words="", looks="", **more):
    return given(name, f"audit --faults 0 --until-breach{looks} {words}", text, status, out, **more)


def live_rows():
    """Looks by time come at the last line of a piece, so an earlier one at a number of entries is the first; `trials/live.py` has slow runs."""
    for name, words in (("live", ""), ("live, by four workers", "--workers 4")):
        yield until(f"{name}: at a number of entries", lines(broken(3, 5)), 1, orphan(3, 4), words, "=live", said="")
        yield until(f"{name}: nothing breaks", lines(TWO, sends(4), end(4)), 0, "accept f=0 entries=4 deliveries=0\n", words, "=live", said="")
        yield until(f"{name}: a fault where nothing breaks", lines(TWO, sends(5), "[]"), 2, fault(7, "Form"), words, "=live")
    yield until("live, as JSON", lines(broken(3, 4)), 1, '{"verdict":"orphan","f":0,"instant":3,"delivery":2,"crash":[],"orphan":1,"read":4}\n', "--json", "=live")


def rows():
    yield from live_rows()
    yield until("no text", "", 2, fault(1, "Cut"))
    yield until("a header alone", lines(TWO), 2, fault(2, "Cut"))
    yield until("a breach among what the look sees", lines(broken(3, 4)), 1, orphan(3, 4), said="")
    yield until("the same and an end", lines(broken(3, 4), end(4)), 1, orphan(3, 4))
    yield until("the same, its last line cut", lines(broken(3, 4))[:-1], 2, fault(6, "Cut"))
    yield until("the same in the middle of a line", lines(broken(3, 4))[:-3], 2, fault(5, "Syntax"))
    yield until("one entry less", lines(broken(3, 3)), 2, fault(5, "Cut"))
    yield until("that and an end", lines(broken(3, 3), end(3)), 1, orphan(3))
    yield until("a breach right at the look", lines(broken(4, 4)), 1, orphan(4, 4))
    yield until("a breach right behind it", lines(broken(5, 8)), 1, orphan(5, 8))
    yield until("the same, ended before the next", lines(broken(5, 7), end(7)), 1, orphan(5))
    yield until("a fault right before the look", lines(broken(3, 3), "[]"), 2, fault(5, "Form"))
    yield until("a fault right behind it", lines(broken(3, 4), "[]"), 1, orphan(3, 4), said="")
    yield until("a fault between the breach and the next look", lines(broken(5, 5), "[]"), 2, fault(7, "Form"))
    yield until("a fault where nothing breaks", lines(TWO, sends(5), "[]"), 2, fault(7, "Form"))
    yield until("nothing breaks", lines(TWO, sends(4), end(4)), 0, "accept f=0 entries=4 deliveries=0\n", said="")
    yield until("a process is down", lines(TWO, crash(1)), 1, "exceeded f=0 instant=1 down=1 read=1\n")
    yield until("by four workers", lines(broken(5, 8)), 1, orphan(5, 8), "--workers 4")
    yield until("one entry may be", lines(TWO, crash(1)), 1, "exceeded f=0 instant=1 down=1 read=1\n", "--entries 1")
    yield until("and there are two", lines(broken(2, 2)), 2, fault(3, "TooLong"), "--entries 1")
    yield until("two may be", lines(broken(2, 2)), 1, orphan(2, 2), "--entries 2")
    yield until("and there are three", lines(broken(3, 3)), 2, fault(4, "TooLong"), "--entries 2")
    yield until("as many as may be", lines(broken(USUAL, USUAL)), 1, orphan(USUAL, USUAL))
    yield until("one more", lines(broken(USUAL + 1, USUAL + 1)), 2, fault(USUAL + 2, "TooLong"))
    yield until("one more may be", lines(broken(USUAL + 1, USUAL + 1), end(USUAL + 1)), 1, orphan(USUAL + 1), f"--entries {USUAL + 1}")
    yield until("and there is another", lines(broken(USUAL + 1, USUAL + 2)), 2, fault(USUAL + 3, "TooLong"), f"--entries {USUAL + 1}")
    as_object = '{"verdict":"orphan","f":0,"instant":3,"delivery":2,"crash":[],"orphan":1'
    yield until("as JSON", lines(broken(3, 4)), 1, as_object + ',"read":4}\n', "--json")
    yield until("as JSON, ended before a look", lines(broken(3, 3), end(3)), 1, as_object + "}\n", "--json")
    # a piece that is begun is read to its end
    begun = lines(broken(2, 2))
    beyond = -len(begun) % 4_096
    yield until("a long text", begun + " " * 600_000, 1, orphan(2, 2), left=600_000 - beyond)
