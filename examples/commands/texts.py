"""Texts of traces, written short: an entry by a word for each kind, a determinant by its four numbers."""


def spelled(word, *fields):
    return f'["{word}",{",".join(str(field).replace(" ", "") for field in fields)}]'


def send(source, dest, ssn):
    return spelled("send", source, dest, ssn)


def deliver(dest, position, rsn, *listed):
    return spelled("deliver", dest, position, rsn, list(listed))


def crash(process):
    return spelled("crash", process)


def restart(process, *listed):
    return spelled("restart", process, list(listed))


def forget(process, *listed):
    return spelled("forget", process, list(listed))


def stable(det):
    return spelled("stable", det)


def lines(*parts):
    """The text of these lines, each a line or a list of lines."""
    return "".join(line + "\n" for part in parts for line in ([part] if isinstance(part, str) else part))


def trace(version, n, *parts):
    """The text of the trace of n processes with these entries."""
    entries = [line for part in parts for line in ([part] if isinstance(part, str) else part)]
    return lines(spelled("trace", version, n), entries, spelled("end", len(entries)))


# The deliveries of the ring below, and its entries: a message goes once round three processes. Each logs its own delivery and the
# one before it.
A, B, C = [0, 0, 1, 0], [1, 0, 2, 0], [2, 0, 0, 0]
SENT, FIRST = send(0, 1, 0), deliver(1, 0, 0, A)
LOGGED = [SENT, FIRST]
CHAIN = [*LOGGED, send(1, 2, 0)]
RING = [*CHAIN, deliver(2, 2, 0, A, B), send(2, 0, 0), deliver(0, 4, 0, B, C)]
# Process 1 of the ring crashes, restarts with what the others know of it, and delivers and sends again what it had.
REPLAYED = [*RING, crash(1), restart(1, A, B, C), FIRST, send(1, 2, 0)]

RING_TEXT = trace(1, 3, RING)
REPLAYED_TEXT = trace(1, 3, REPLAYED)
EMPTY = trace(1, 1)
# A message is sent and delivered, and then the text is cut off.
DELIVERED = lines(spelled("trace", 1, 2), LOGGED)
DOUBLED = trace(1, 2, LOGGED, deliver(1, 0, 1, [0, 0, 1, 1]))
# A delivery that nobody logs: its receiver is an orphan at once.
UNLOGGED = trace(1, 2, SENT, deliver(1, 0, 0))
# A message is passed on without the determinant of the first: a crash of 1 leaves 2 an orphan. And with it.
PASSED_ON_BARE = trace(1, 3, CHAIN, deliver(2, 2, 0, B))
PASSED_ON = trace(1, 3, CHAIN, deliver(2, 2, 0, A, B))
# Process 1 delivers a message, and its determinant comes to 4 and from there to 2. A message of 1 to 2 leaves it out, which is right,
# since 2 holds it; one of 2 to 3 leaves it out too, so a crash of 1, 2 and 4 leaves 3 an orphan.
TO_4, TO_2, SECOND, TO_3 = [1, 0, 4, 0], [4, 0, 2, 0], [1, 1, 2, 1], [2, 0, 3, 0]
HELD_BEFORE = trace(
    1, 5, LOGGED, send(1, 4, 0), deliver(4, 2, 0, A, TO_4), send(4, 2, 0), deliver(2, 4, 0, A, TO_4, TO_2),
    send(1, 2, 1), deliver(2, 6, 1, SECOND), send(2, 3, 0), deliver(3, 8, 0, TO_4, SECOND, TO_3, TO_2),
)
# Process 1 sends 3 a message with the determinant and then 2 one without it. 2 delivers before 3 does.
IN_TRANSIT = trace(
    1, 4, LOGGED, send(1, 3, 0), send(1, 2, 1), deliver(2, 3, 0, [1, 1, 2, 0]), deliver(3, 2, 0, A, [1, 0, 3, 0]),
)
# 4 has the determinant, when process 1 sends 2 a message without it. Later it comes to 0 by a message that 1 sent after that one, and to
# 3 four times: by one of 0, which did not have it, by one of 4 (twice, in two incarnations) and by one of 1.
MANY_IN_TRANSIT = trace(
    1, 5, LOGGED, send(1, 3, 0), send(1, 4, 1), deliver(4, 3, 0, A, [1, 1, 4, 0]), send(4, 3, 0), send(0, 3, 1),
    send(1, 2, 2), send(1, 0, 3), deliver(2, 7, 0, [1, 2, 2, 0]),
    deliver(0, 8, 0, A, [1, 3, 0, 0]), deliver(3, 6, 0, A, [0, 1, 3, 0]), send(0, 3, 2), deliver(3, 5, 1, A, [4, 0, 3, 1]),
    deliver(3, 2, 2, A, [1, 0, 3, 2]), crash(3), restart(3), deliver(3, 5, 0, A, [4, 0, 3, 0]),
)
# Three messages of process 1 are delivered after 2 delivered one without the determinant. The first brings it to 4, which has it; the
# second to 3, for the second time, after a crash; the third does not bring it to 0.
NONE_IN_TRANSIT = trace(
    1, 5, LOGGED, send(1, 4, 0), send(1, 3, 1), send(1, 0, 2), send(1, 4, 3), deliver(4, 5, 0, A, [1, 3, 4, 0]),
    deliver(3, 3, 0, A, [1, 1, 3, 0]), crash(3), restart(3), send(4, 0, 0), send(0, 4, 1), send(1, 2, 4), deliver(2, 12, 0, [1, 4, 2, 0]),
    deliver(4, 2, 1, A, [1, 0, 4, 1]), deliver(3, 3, 0, A, [1, 1, 3, 0]), deliver(0, 4, 0, [1, 2, 0, 0]),
)
RING_CRASHED = trace(1, 3, RING, crash(1), crash(2))
RING_FORGETTING = trace(2, 3, RING, forget(1, A))
# Both that held the first determinant forget it.
RING_FORGOTTEN = trace(2, 3, RING, forget(1, A), forget(2, A))
# Process 1 restarts without the determinant of its delivery, though 2 holds it.
GATHERED_TOO_LITTLE = trace(1, 3, RING, crash(1), restart(1, B, C))
# The second of three deliveries has an orphan at once. The first has one later, and only where a process may crash.
AT_ONCE = [*CHAIN, send(0, 3, 1), deliver(3, 3, 0), deliver(2, 2, 0, B)]
ORPHAN_AT_ONCE = trace(1, 4, AT_ONCE)
# Two deliveries have an orphan first at the same instant.
TIE = trace(1, 3, SENT, send(0, 1, 1), FIRST, deliver(1, 1, 1, [0, 1, 1, 1]), send(1, 2, 0), deliver(2, 4, 0, B))
# A tally forgets what is stable, crashes, and replays after it has forgotten once more.
FROM_2, BACK = [2, 0, 0, 0], [0, 0, 2, 0]
TALLIED = [send(1, 0, 0), send(2, 0, 0), deliver(0, 1, 0, FROM_2), send(0, 2, 0), deliver(2, 3, 0, BACK, FROM_2)]
AGAIN = [deliver(0, 1, 0, FROM_2), send(0, 2, 0)]
TALLY_FORGETTING = trace(
    2, 3, TALLIED, stable(FROM_2), forget(0, FROM_2), crash(0), restart(0, BACK, FROM_2), forget(0, FROM_2), AGAIN
)
