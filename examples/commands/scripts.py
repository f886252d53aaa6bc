"""Scripts, and what `run` prints for each or why it is refused."""
from . import texts
from .row import given
from .texts import A, B, C, FIRST, RING, SENT, TALLIED, AGAIN, BACK, FROM_2, crash, deliver, restart, send, stable, trace

# how long a script may be, and how many times processes may restart
BYTES, RESTARTS = 1_048_576, 192

ROUND = "start ring 3 1 2\ndeliver 1 0 0\ndeliver 2 1 0\ndeliver 0 2 0\n"
# a second receiver crashes, restarts, and delivers and sends again what it had
REPLAY = ROUND + "crash 1\nrestart 1\ndeliver 1 0 0\n"
ROUND_FOR_TWO = ROUND.replace("3 1 2", "3 2 2")
TWO_CRASHES = ROUND_FOR_TWO + "crash 0\ncrash 1\nrestart 0\nrestart 1\ndeliver 1 0 0\ndeliver 0 2 0\n"
TALLY = "start tally 3 1\ndeliver 0 2 0\ndeliver 2 0 0\n"
# The second flush writes nothing; the third writes what 0 did not know to be stable, once more.
FLUSHED = TALLY + "flush 2\nflush 2\nflush 0\n"
# A tally forgets what is stable, crashes, and forgets once more.
FORGOTTEN = TALLY + "flush 0\nforget 0\ncrash 0\nrestart 0\nforget 0\n"
# 1 delivers what 0 starts with, and 0 delivers what 1 sends back.
ECHO = "start echo 2 1 1\ndeliver 1 0 0\ndeliver 0 1 1\n"
ANSWER = [0, 0, 1, 0], [1, 1, 0, 0]

# a script, the trace that it records, and what the audit says of it
RECORDED = [
    ("one process", "start ring 1 0 0", trace(1, 1, send(0, 0, 0)), "accept f=0 entries=1 deliveries=0"),
    ("as many processes as the first version has", "start ring 64 0 0", trace(1, 64, SENT), "accept f=0 entries=1 deliveries=0"),
    ("one process more", "start ring 65 0 0", trace(2, 65, SENT), "accept f=0 entries=1 deliveries=0"),
    ("a replay in a ring", REPLAY, texts.REPLAYED_TEXT, "accept f=1 entries=10 deliveries=4"),
    (
        "a replay of a tally",
        TALLY + "crash 0\nrestart 0\ndeliver 0 2 0\n",
        trace(1, 3, TALLIED, crash(0), restart(0, BACK, FROM_2), AGAIN),
        "accept f=1 entries=9 deliveries=3",
    ),
    (
        "what is stable is not flushed again, but by another process",
        FLUSHED,
        trace(1, 3, TALLIED, stable(BACK), stable(FROM_2), stable(FROM_2)),
        "accept f=1 entries=8 deliveries=2",
    ),
    ("a replay after forgetting", FORGOTTEN + "deliver 0 2 0\n", texts.TALLY_FORGETTING, "accept f=1 entries=12 deliveries=3"),
    (
        "two processes down at once",
        TWO_CRASHES,
        trace(
            1, 3, RING[:5], deliver(0, 4, 0, A, B, C), crash(0), crash(1), restart(0, A, B), SENT, restart(1, A, B),
            deliver(1, 9, 0, A, B), send(1, 2, 0), deliver(0, 4, 0, A, B, C),
        ),
        "accept f=2 entries=14 deliveries=5",
    ),
    (
        "an echo",
        ECHO,
        trace(1, 2, SENT, send(1, 0, 0), FIRST, send(1, 0, 1), deliver(0, 3, 0, *ANSWER)),
        "accept f=1 entries=5 deliveries=2",
    ),
]

# Scripts that go on by themselves. The sequence of a seed chooses by the high 32 bits of its words, w: if w is a multiple of 8, what
# disturbs the run, by w / 8; else one of the moves, by w / 8 modulo their number.
EXPLORED = [
    ("no step", "explore ring 3 1 2 7 0", trace(1, 3, SENT), "accept f=1 entries=1 deliveries=0"),
    # w modulo 8 is 4, 3 and 1; there is one move each time, and then none.
    ("a ring, until nothing leads on", "explore ring 3 1 2 1 1000\n", texts.RING_TEXT, "accept f=1 entries=6 deliveries=3"),
    ("the same, for two steps", "explore ring 3 1 2 1 2\n", trace(1, 3, RING[:5]), "accept f=1 entries=5 deliveries=2"),
    # w modulo 8 is 1, 5, 0, 0 and 7. The third w / 8 is 371,190,114, a flush of 1, which has logged A; the fourth is 195,695,126, a flush of
    # 0, which has logged nothing.
    ("a flush in between", "explore ring 3 1 2 2 9", trace(1, 3, RING[:5], stable(A), RING[5]), "accept f=1 entries=7 deliveries=3"),
    # w / 8 is 44,680,340, a crash of 1; its restart is the next move, then what it sends once more, and the answer.
    (
        "a crash and a restart",
        "explore tally 2 1 29 10",
        trace(
            1, 2, send(1, 0, 0), crash(1), restart(1), send(1, 0, 0), deliver(0, 3, 0, [1, 0, 0, 0]), send(0, 1, 0),
            deliver(1, 5, 0, [0, 0, 1, 0], [1, 0, 0, 0]),
        ),
        "accept f=1 entries=7 deliveries=2",
    ),
    # With F = 0 the crash is refused: two moves are left.
    (
        "a crash that is refused",
        "explore tally 2 0 29 10",
        trace(1, 2, send(1, 0, 0), deliver(0, 0, 0, [1, 0, 0, 0]), send(0, 1, 0), deliver(1, 2, 0, [0, 0, 1, 0])),
        "accept f=0 entries=4 deliveries=2",
    ),
    # w / 8 is 41,987,951, odd: the second of the two messages for 0.
    (
        "a step after the commands",
        "explore echo 2 1 1 0 1\ndeliver 1 0 0\n",
        trace(1, 2, SENT, send(1, 0, 0), FIRST, send(1, 0, 1), deliver(0, 3, 0, *ANSWER)),
        "accept f=1 entries=5 deliveries=2",
    ),
]

# The last of as many processes as there may be is asked for each call; it has been sent nothing.
GREATEST = "start echo 256 65535 255\ncrash 255\nrestart 255\nflush 255\nforget 255\ndeliver 255 255 4294967295\n"

# a script, and the line that refuses it
REFUSED = [
    ("the greatest numbers", GREATEST, "6 NotAvailable"),
    ("another order than before the crash", TALLY + "crash 0\nrestart 0\ndeliver 0 1 0\n", "6 MustReplay 2 0"),
    ("a message that was sent in a lane that is down", ROUND_FOR_TWO + "crash 0\ncrash 1\nrestart 1\ndeliver 1 0 0\n", "8 NotAvailable"),
    ("one process more than may be down", ROUND + "crash 0\ncrash 1\nrestart 1\ndeliver 1 0 0\n", "6 OverFaults"),
    ("a message that was delivered", "start ring 3 1 2\ndeliver 1 0 0\ndeliver 1 0 0\n", "3 AlreadyDelivered"),
    ("what was forgotten is named all the same", FORGOTTEN + "deliver 0 1 0\n", "9 MustReplay 2 0"),
    ("a process that the run does not have", "start ring 3 1 2\ndeliver 9 0 0\n", "2 NoProcess"),
    ("a restart of a process that the run does not have", "start ring 3 1 2\nrestart 9\n", "2 NoProcess"),
    ("the same, of a greater number", "start ring 2 1 1\nrestart 200\n", "2 NoProcess"),
    ("a flush of a process that is down", "start ring 3 1 2\ncrash 1\nflush 1\n", "3 Down"),
    ("the first of two lines that are refused", "start ring 2 1 1\ncrash 1\nflush 1\ncrash 1\n", "3 Down"),
    ("a restart of a process that is up", "start ring 3 1 2\nrestart 1\n", "2 NotDown"),
    ("a command before an exploration", "explore ring 3 1 2 7 5\ndeliver 1 0 0\ncrash 9\n", "3 NoProcess"),
]

# whole scripts with a fault on the first line
FIRST_LINE = [
    "", "\n", " ", "start", "start ", "start ring", "start ring ", "start ring 0 1 2", "start ring 0 1 2\n", "start ring 257 1 2",
    "start ring 3 65536 2", "start ring 3 1 256", "start ring 3 1", "start ring 3 1 ", "start ring 3 1 2 ", "start ring 3 1 2 4",
    "start echo 3 1", "start tally 3", "start tally 0 1", "start tally 3 1 0", "start tally 3 1 0\n", "start sum 3 1 2",
    "Start ring 3 1 2", " start ring 3 1 2", "start  ring 3 1 2", "start\tring 3 1 2", "start ring 3 1 2\r\n", "start ring 03 1 2",
    "start ring +3 1 2", "start ring 3 -1 2", "start ring 3 1 2.0", "deliver 1 0 0", "\nstart ring 3 1 2", "\ufeffstart ring 3 1 2",
    b"\xff", "explore", "explore ring 3 1 2", "explore ring 3 1 2 7", "explore ring 3 1 2 7 ", "explore ring 3 1 2 7 5 6",
    "explore ring 3 1 2 4294967296 5", "explore ring 3 1 2 7 1001", "explore ring 3 1 2 -7 5", "explore ring 3 1 2 07 5",
    "explore ring 3 1 2 7 05", "explore ring 3 1 2  7 5", "explore ring 0 1 2 7 5", "explore ring 3 1 256 7 5", "explore 3 1 2 7 5",
    "explore tally 3 1", "explore tally 3 1 7", "explore tally 3 1 2 7 5", "explore sum 3 1 2 7 5", "Explore ring 3 1 2 7 5",
    "start ring 3 1 2 7 5", "start tally 3 1 7 5", "explored ring 3 1 2 7 5",
]

# lines at fault that follow a first line
LATER_LINE = [
    "\n", "start ring 3 1 2", "start tally 3 1", "deliver 01 0 0", "deliver 1 00 0", "deliver 1 0 00", "deliver 256 0 0",
    "deliver 0 256 0", "deliver 0 0 4294967296", "deliver 0 0 18446744073709551616", "deliver 0 0", "deliver 0 0 0 0",
    "deliver  0 0 0", "deliver 0 0 +0", "deliver 0 0 0x0", "crash", "crash ", "crash 256", "crash 1 ", "crash 1 1", "crash  1",
    " crash 1", "crash\t1", "crash 1\r", "crash -1", "Crash 1", "crashed 1", "restart 256", "flush 256", "forget 256", "forget",
    "forget 1 0", "stop 1", "1", "explore ring 3 1 2 7 5", "explore 7 5",
]

# scripts, and what standard error tells of them
SENTENCES = [
    ("start ring 3 1 2\nfly 1\n", "fault line=2 Script", "line 2: this is no line of a script here"),
    ("start ring 3 1 2\ncrash 9\n", "refused line=2 NoProcess", "line 2 is refused: there is no such process"),
]

NOTHING = "causal_tool run: no message is pending there\n"

# deliveries that are refused as not available, their lines, and what is pending for the receiver, as source and number
PENDING = [
    ("start ring 3 1 2\ndeliver 1 0 1\n", 2, [(0, 0)]),
    # the first message of a ring is delivered; it goes on to 2
    ("start ring 3 1 2\ndeliver 1 0 0\ndeliver 1 0 1\n", 3, []),
    ("start ring 3 1 2\ndeliver 1 0 0\ndeliver 2 1 1\n", 3, [(1, 0)]),
    # each but 0 of a tally has sent it one message; what 2 sent is lost, and 1 sends again
    ("start tally 4 2\ndeliver 0 3 0\ncrash 2\ncrash 1\nrestart 1\ndeliver 0 1 1\n", 6, [(1, 0)]),
    ("start tally 4 2\ndeliver 0 2 9\n", 2, [(1, 0), (2, 0), (3, 0)]),
    (GREATEST, 6, [(254, 0)]),
    # the receiver restarts, and may be given again what it had
    ("start ring 2 1 1\ndeliver 1 0 0\ncrash 1\nrestart 1\ndeliver 1 0 7\n", 5, [(0, 0)]),
]


def pending_rows():
    for script, line, names in PENDING:
        said = f"causal_tool run: line {line} is refused: the message is not available\n"
        said += "".join(f"causal_tool run: pending there: message {number} of process {source}\n" for source, number in names) or NOTHING
        yield given(f"pending at line {line} of {script[:16]!r}, {len(names)}", "run", script, 2, f"refused line={line} NotAvailable\n", said=said)
    # 255 processes have sent 0 a message each, of which 100 are listed
    said = "".join(f"causal_tool run: pending there: message 0 of process {source}\n" for source in range(1, 101)) + "causal_tool run: 155 more are pending there\n"
    said = "causal_tool run: line 2 is refused: the message is not available\n" + said
    yield given("more than a hundred are pending", "run", "start tally 256 1\ndeliver 0 1 1\n", 2, "refused line=2 NotAvailable\n", said=said)

# lines, up to how many bytes spaces follow them, and the fault
PADDED = [
    ("", BYTES, "1 Script"),
    ("", BYTES + 1, "1 Big"),
    ("start ring 1 0 0\n", BYTES, "2 Script"),
    ("start ring 1 0 0\n", BYTES + 1, "2 Big"),
    ("start ring 1 0 0\nstop\n", BYTES + 1, "2 Script"),
    ("start ring 1 0 0\ncrash 0\n", 2 * BYTES, "3 Big"),
]


def shape(printed):
    """How many entries and how many deliveries a printed trace has."""
    lines = printed.decode().splitlines()
    return len(lines) - 2, sum(line.startswith('["deliver"') for line in lines)


# scripts, and how many entries and deliveries their traces have
SHAPES = [
    ("start echo 2 1 1\ndeliver 1 0 0\ndeliver 0 1 1\n", (5, 2)),
    ("start tally 2 1\ncrash 1\nrestart 1\ndeliver 0 1 0\n", (6, 1)),
]


def counting_down(count):
    """So many deliveries of 128 pairs of processes that count down from 255, one pair after the other: in turn to the second and to the
    first of the pair, of a count from each side."""
    yield "start echo 256 0 255"
    for number in range(count):
        first = number // 512 * 2
        q, source = (first, first + 1) if number % 2 else (first + 1, first)
        yield f"deliver {q} {source} {number % 512 // 2}"


def refused(name, script, line, **more):
    return given(name, "run", script, 2, f"refused line={line}\n", **more)


def faulty(name, script, line, **more):
    return given(name, "run", script, 2, f"fault line={line}\n", **more)


def longest_rows():
    """A command is refused where it could pass the most entries, of which a delivery may need nine. 256 sends open the run; each pair has
    512 deliveries and 510 more sends, so 63 pairs and 443 deliveries of the next come to 65,528."""
    yield given("a run to the limit", "run", "\n".join(counting_down(32_699)), 0, (65_528, 32_699), seen=shape)
    yield refused("a run past the limit", "\n".join(counting_down(32_700)), "32701 Full")
    # Process 0 of a tally sends nothing when it begins, so 192 crashes and restarts and one more crash are all the entries.
    restarts = "start tally 1 1\n" + "crash 0\nrestart 0\n" * RESTARTS + "crash 0\n"
    yield given("as many restarts as may be", "run", restarts, 0, (2 * RESTARTS + 1, 0), seen=shape)
    yield refused("a restart more", restarts + "restart 0\n", f"{2 * RESTARTS + 3} Full")
    # The longest script that begins so lacks its last line feed; with it, it is too long by one byte, on the line that this ends. The
    # first crash is refused, so that no more is run.
    crashes = "start ring 1 0 0\n" + "crash 0\n" * 131_070
    yield faulty("too long by a line feed", crashes, "131071 Big")
    yield refused("as long as may be", crashes[:-1], "2 OverFaults")
    exact = "start ring 1 0 0\n" + "crash 0\n" * 131_062 + "crash 10\n" * 7
    yield refused("as long as may be, with its last line feed", exact, "2 OverFaults")
    yield faulty("the same, and a line feed more", exact + "\n", "131071 Big")


def sized_rows():
    for lines, size, line in PADDED:
        yield faulty(f"{lines!r} up to {size} bytes", lines.ljust(size), line)
    # What is too long is told before what is no script, and no byte is read behind the first that is too many.
    for size, line, left in ((0, "1 Script", 0), (BYTES, "1 Script", 0), (BYTES + 1, "1 Big", 0), (BYTES + 5_001, "1 Big", 5_000)):
        yield faulty(f"{size} spaces", " " * size, line, left=left)


def rows():
    for name, script, recorded, _ in RECORDED + EXPLORED:
        yield given(name, "run", script, 0, recorded, said="")
    for name, _, recorded, line in RECORDED + EXPLORED:
        yield given(f"{name}, audited", f"audit --faults {line.split()[1][2:]}", recorded, 0, line + "\n")
    for name, script, line in REFUSED:
        yield refused(name, script, line)
    for script in FIRST_LINE:
        yield faulty(repr(script), script, "1 Script")
    for line in LATER_LINE:
        yield faulty(f"{line!r} in line 2", f"start ring 3 1 2\n{line}", "2 Script")
        yield faulty(f"{line!r} in line 3", f"start tally 3 1\nforget 1\n{line}\nstop", "3 Script")
    for line in ("deliver 01 0 0", "start ring 3 1 2"):
        yield faulty(f"{line!r} in line 2, with its line feed", f"start ring 3 1 2\n{line}\n", "2 Script")
    yield faulty("a fault behind a command that would be refused", "start ring 3 1 2\nrestart 1\nrestart\n", "3 Script")
    for script, line, sentence in SENTENCES:
        yield given(sentence, "run", script, 2, line + "\n", said=f"causal_tool run: {sentence}\n")
    for script, sizes in SHAPES:
        yield given(f"the sizes of {script!r}", "run", script, 0, sizes, seen=shape)
    yield given("nothing is told of a run", "run", "start ring 3 1 2\ndeliver 1 0 0\n", 0, (3, 1), seen=shape, said="")
    yield from pending_rows()
    yield from longest_rows()
    yield from sized_rows()
