"""A plain model of what `explain` tells of a trace, from docs/FORMAT.md alone: of each line the words before the colon. It judges the
trace by the plain model of the auditor (traces.py), reads the entries over for each fact, and shares no code with the product. It is for
small traces."""
import re

import replays
import traces


def logs_over(entries, n):
    """The volatile logs at each instant, process by process."""
    logs = [frozenset()] * n
    over = [logs]
    for word, fields in entries:
        logs = list(logs)
        listed = frozenset(tuple(det) for det in fields[-1]) if word in ("deliver", "restart", "forget") else frozenset()
        if word in ("deliver", "restart"):
            logs[fields[0]] |= listed
        elif word == "forget":
            logs[fields[0]] -= listed
        elif word == "crash":
            logs[fields[0]] = frozenset()
        over.append(logs)
    return over


def turned(answers):
    """The position of the last entry that changed a yes or no, of which there is one answer for each instant; None where none did."""
    changes = [i for i, (before, after) in enumerate(zip(answers, answers[1:])) if before != after]
    return changes[-1] if changes else None


def replayed(entries, n, t):
    """The plain model's trace of the first t entries."""
    trace = traces.Trace(n)
    for entry in entries[:t]:
        trace.push(*entry)
    return trace


def lanes(entries):
    """Of each send and delivery the process and how often it had restarted; None of another entry."""
    restarts, found = {}, []
    for word, fields in entries:
        if word == "restart":
            restarts[fields[0]] = restarts.get(fields[0], 0) + 1
        found.append((fields[0], restarts.get(fields[0], 0)) if word in ("send", "deliver") else None)
    return found, restarts


def shortest_chains(entries, k, p):
    """The shortest chains from the delivery at position k to an event of p's present lane."""
    found, restarts = lanes(entries)
    present = (p, restarts.get(p, 0))
    chains, reached = [[k]], {k}
    while chains:
        arrived = [chain for chain in chains if found[chain[-1]] == present]
        if arrived:
            return arrived
        chains = [[*chain, j] for chain in chains for j in range(len(entries)) if j not in reached and precedes(entries, found, chain[-1], j)]
        reached |= {chain[-1] for chain in chains}
    return []


def chain_to(entries, k, p, told):
    """A shortest chain from the delivery at position k to an event of p's present lane: the one that is told, where it is one."""
    chains = shortest_chains(entries, k, p)
    return told if told in chains else chains[0]


def precedes(entries, found, i, j):
    word, fields = entries[j]
    return (word == "deliver" and fields[1] == i) or (i < j and found[i] is not None and found[i] == found[j])


def cause(trace, t, k, det, orphan, over):
    """The word of the entry by which the instant t fails, after it was seen to do so."""
    word, fields = trace.entries[t - 1]
    p, before, after = fields[0], over[t - 1], over[t]
    if word == "deliver":
        assert p == orphan and det not in after[p], "the receiver is the orphan, and lacks the determinant"
        assert k not in replayed(trace.entries, trace.n, t - 1).processes[p].depends, "it did not depend on the delivery"
        assert k in replayed(trace.entries, trace.n, t).processes[p].depends, "and does now"
    elif word == "restart":
        assert det not in after[p] and any(det in log for log in before), "it leaves out what another holds"
    elif word == "forget":
        assert det in before[p] and det not in after[p], "it forgets what it held"
        assert det not in replayed(trace.entries, trace.n, t).stable, "which is not stable"
    else:
        raise AssertionError(f"no orphan comes of a {word}")
    return word


def facts_of_excess(trace, t):
    word, fields = trace.entries[t - 1]
    assert word == "crash", "too many are down by a crash"
    return [f"cause line={t + 1} process={fields[0]} by={word}", *downs(trace, t)]


def downs(trace, t):
    for p in range(trace.n):
        ups = [replayed(trace.entries, trace.n, u).processes[p].up for u in range(t + 1)]
        if not ups[-1]:
            yield f"down process={p} line={turned(ups) + 2}"


def facts_of_orphan(trace, t, k, crash, orphan, chain_told):
    entries, over = trace.entries[:t], logs_over(trace.entries[:t], trace.n)
    det = trace.dets[k]
    yield f"delivery line={k + 2} process={det[2]} source={det[0]} ssn={det[1]} rsn={det[3]}"
    yield f"cause line={t + 1} process={entries[t - 1][1][0]} by={cause(trace, t, k, det, orphan, over)}"
    assert ("stable", [list(det)]) not in entries
    yield f"unstable line={t + 1}"
    held = [[det in logs[p] for logs in over] for p in range(trace.n)]
    holders = [f"holder process={p} line={turned(has) + 2}" for p, has in enumerate(held) if has[-1]]
    yield from holders or ["holder process=-"]
    for p, has in enumerate(held):
        if any(has) and not has[-1]:
            yield f"loss process={p} line={turned(has) + 2} by={entries[turned(has)][0]}"
    yield from downs(trace, t)
    yield from (f"crash process={p}" for p in sorted(crash))
    chain = chain_to(entries, k, orphan, chain_told)
    yield from (f"chain line={i + 2} process={entries[i][1][0]}" for i in chain)
    lacking = [i for i in chain if entries[i][0] == "deliver" and det not in over[i + 1][entries[i][1][0]]]
    for i in lacking[:1]:
        yield f"unlisted line={i + 2} send={entries[i][1][1] + 2} process={entries[i][1][0]}"
    yield from ["listed"] * (not lacking)
    if lacking:
        yield from underway(trace, t, entries[lacking[0]][1][1], det, over)
    yield f"orphan process={orphan}"


def underway(trace, t, left_out, det, over):
    """The first delivery after the instant t that lists the determinant, where its receiver did not have it at t, and the message was
    sent before the one that left it out, by a process that had it then, and was delivered nowhere up to t."""
    arrived = {fields[1] for word, fields in trace.entries[:t] if word == "deliver"}
    sent = {k for k in range(left_out) if trace.entries[k][0] == "send" and det in over[k][trace.entries[k][1][0]]}
    for j in range(t, len(trace.entries)):
        word, fields = trace.entries[j]
        if word == "deliver" and fields[1] in sent - arrived and list(det) in fields[3] and det not in over[t][fields[0]]:
            yield f"underway send={fields[1] + 2} line={j + 2} process={fields[0]}"
            return


def closest(text, f, n):
    """What comes closest to failing in a trace that is accepted: the verdict for the least number of faults that refuses it."""
    for faults in range(f + 1, n + 1):
        line, status = traces.audited(text, faults)
        if status == 1:
            said = dict(word.split("=") for word in line.split()[1:])
            return f"closest faults={faults} line={int(said['delivery']) + 2} until={int(said['instant']) + 1} orphan={said['orphan']}"
    return "closest faults=-"


def told(text, f, facts):
    """The verdict's line, and of each line below it the words before the colon. Of several shortest chains it is that of the facts that
    the program told."""
    return [*reason(text, f, facts), *strayed(traces.read(text))]


def strayed(trace):
    """The first instant that strays, and who has which of the two determinants."""
    found = replays.first_stray(trace)
    if found is None:
        return []
    held = [fact for k in found[3:] for fact in replays.copies(trace, found[0], k)]
    told = [" ".join([fact.pop("fact"), *(f"{key}={value}" for key, value in fact.items())]) for fact in held]
    return ["strayed instant={} process={} rsn={} first={} second={}".format(*found), *told]


def reason(text, f, facts):
    """The verdict's line, and why it is so."""
    line = traces.audited(text, f)[0]
    kind, *words = line.split()
    said = dict(word.split("=") for word in words)
    trace = traces.read(text)
    if kind == "accept":
        return [line, closest(text, f, trace.n)]
    t = int(said["instant"])
    if kind == "exceeded":
        return [line, *facts_of_excess(trace, t)]
    crash = [] if said["crash"] == "-" else map(int, said["crash"].split(","))
    chain = [int(re.match(r"chain line=(\d+)", fact)[1]) - 2 for fact in facts if fact.startswith("chain ")]
    return [line, *facts_of_orphan(trace, t, int(said["delivery"]), crash, int(said["orphan"]), chain)]
