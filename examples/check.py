#!/usr/bin/env python3
"""Checks that the answers in examples/README.md and docs/FORMAT.md are those of the traces and scripts that stand here, by the plain
models of the auditor and of the runtime (trials/traces.py, trials/scripts.py): each row of the table, and both answers to the worked
recording, of which the second is to one list that is forged. The explanations that stand here have to tell what the plain model of
explanations tells (trials/reasons.py). The rows of commands/ have to be answered by the models where they can. With --program the
program has to give all of these too, with --json an object that says what the lines say, and to command lines what stands here. The
picture that stands here has to be that of the plain model of pictures (trials/pictures.py), and what follows by hand from the layout; of
record.py it checks that it shows each kind of line.

    examples/check.py [--program crates/causal_tool/out/causal_tool]
"""
import argparse
import json
import os
import pty
import re
import subprocess
import sys
import tempfile
import time
import xml.etree.ElementTree

HERE = os.path.dirname(os.path.abspath(__file__))
TOP = os.path.dirname(HERE)
sys.path.insert(0, os.path.join(TOP, "trials"))
import commands  # noqa: E402
import pictures  # noqa: E402
import reasons  # noqa: E402
import scripts  # noqa: E402
import traces  # noqa: E402


def rows():
    """The trace's command or file, F, the answer and the status of each row of the table."""
    trace = None
    with open(os.path.join(HERE, "README.md")) as page:
        for line in page:
            cells = [cell.strip() for cell in line.strip().strip("|").split("|")]
            if len(cells) != 5 or not cells[4].isdigit():
                continue
            trace = cells[0].strip("`") or trace
            for f in ("0", "1", "7") if cells[2] == "any" else (cells[2],):
                yield trace, int(f), cells[3].strip("`"), int(cells[4])


def bytes_of(name):
    with open(os.path.join(HERE, name), "rb") as file:
        return file.read()


def text_of(trace):
    if trace.endswith(".jsonl"):
        return bytes_of(trace)
    if trace.endswith(".script"):
        return scripts.ran(bytes_of(trace))[0].encode()
    script, *words = trace.split()
    return subprocess.run([sys.executable, os.path.join(HERE, script), *words], capture_output=True, check=True).stdout


def worked_recording():
    """What docs/FORMAT.md says of its worked recording."""
    with open(os.path.join(TOP, "docs", "FORMAT.md")) as page:
        return page.read().split("### A worked recording")[1].split("\n## ")[0]


def recorded_in_the_format():
    """The worked recording of docs/FORMAT.md, as a text."""
    part = worked_recording()
    lines = re.findall(r"\| `(\[.*\])` \|$", part, re.M)
    header, end = re.search(r'With `(\["trace".*?\])`', part)[1], re.search(r'`(\["end".*?\])`', part)[1]
    return "".join(line + "\n" for line in [header, *lines, end]).encode()


def without(text, process, det):
    """The text with a determinant taken out of what the process lists at its only delivery."""
    lines = [json.loads(line) for line in text.decode().splitlines()]
    (delivery,) = [line for line in lines if line[:2] == ["deliver", process]]
    delivery[4].remove(det)
    return "".join(json.dumps(line, separators=(",", ":")) + "\n" for line in lines).encode()


def wrong_in_the_format():
    """Tells what docs/FORMAT.md says of its worked recording, and of the one that it forges, and the model does not; and gives how many
    answers there are and how many are wrong."""
    part, text = " ".join(worked_recording().split()), recorded_in_the_format()
    wrong = int(text != text_of("recorded.jsonl"))
    if wrong:
        print("recorded.jsonl is not the worked recording of docs/FORMAT.md")
    answer = re.search(r"the audit answers `(accept .*?)`", part)[1]
    process, det, forged = re.search(r"Had (\d+) left `(\[.*?\])` [^`]*`((?:accept|exceeded|orphan) .*?)`", part).groups()
    answers = {answer: text, forged: without(text, int(process), json.loads(det))}
    for said, judged in answers.items():
        told = traces.audited(judged, int(re.search(r" f=(\d+) ", said)[1]))[0]
        if told != said:
            wrong += 1
            print(f"docs/FORMAT.md: the page has {said!r}, the model says {told!r}")
    return len(answers), wrong


# What the program shows of a trace, which stands beside it: by which command, of which trace and for which f.
SHOWN = {
    "orphan.svg": ("draw", "orphan.jsonl", 1),
    "orphan.txt": ("explain", "orphan.jsonl", 1),
    "gap.txt": ("explain", "gap.jsonl", 3),
    "transit.txt": ("explain", "transit.jsonl", 1),
    "gathered.txt": ("explain", "gathered.jsonl", 1),
    "forgotten.txt": ("explain", "forgotten.jsonl", 1),
    "crashes.txt": ("explain", "crashes.jsonl", 1),
}


def wrong_reasons():
    """Tells each explanation that stands here and whose words are not those of the plain model, and gives how many there are and how
    many are wrong. Sentences, from the colon on, are not compared."""
    told = {shown: (trace, f) for shown, (word, trace, f) in SHOWN.items() if word == "explain"}
    wrong = 0
    for shown, (trace, f) in told.items():
        verdict, *facts = bytes_of(shown).decode().splitlines()
        if [verdict, *(fact.split(": ")[0] for fact in facts)] != reasons.told(bytes_of(trace), f, facts):
            wrong += 1
            print(f"{shown} does not tell what the model tells of {trace} for {f}")
    return len(told), wrong


# Where things stand in the picture, by the layout (crates/causal_picture/src/layout.rt): the first process at 92 and each 40 below
# the one before it, from 80 to 230, and its shade from edge to edge; the first entry at 110 and each 30 to the right of the one before
# it; the instant in the middle after the fourth, down to 92 + 3 * 40. At the right end of its line each process is named, and a band goes
# from the delivery that process 1 logged to the instant.
ROWS = ["80 92H230", "80 132H230", "80 172H230"]
SHADED = ["0 132H600"]
INSTANT = ["215 70V212"]
BANDS = ["140 132H215"]
CHAIN = ["140,132 170,132 200,172"]
NAMED = ["process 0", "process 1: holder", "process 2: orphan"]
VERDICT = ["orphan f=1: process 2 depends on the delivery of line 3"]


def wrong_pictures():
    """Tells each picture that stands here and is not the one of the plain model, and gives how many there are and how many are wrong."""
    told = {shown: (trace, f) for shown, (word, trace, f) in SHOWN.items() if word == "draw"}
    wrong = 0
    for shown, (trace, f) in told.items():
        text = bytes_of(trace)
        if bytes_of(shown).decode() != pictures.picture_of(["draw"], text, traces.audited(text, f)[0]):
            wrong += 1
            print(f"{shown} is not the model's picture of {trace} for {f}")
    return len(told), wrong


def wrong_in_the_picture():
    """Tells where orphan.svg, which has to be XML, is not as the layout has it, and gives how often: three processes with a line each,
    of which the crash set of the answer is shaded, one dashed line at the instant 4, the chain from line 3 by line 4 to line 5, and in
    words the verdict, and who is an orphan, who holds the determinant, and since when."""
    root = xml.etree.ElementTree.fromstring(bytes_of("orphan.svg"))
    name = "{http://www.w3.org/2000/svg}"
    paths = [path.attrib for path in root.iter(name + "path") if "transform" not in path.attrib]
    solid = [path["d"][1:] for path in paths if path.get("stroke-width") == "1.5" and "stroke-dasharray" not in path]
    shaded = [path["d"][1:] for path in paths if path.get("stroke-width") == "34"]
    bands = [path["d"][1:] for path in paths if path.get("stroke-width") == "10"]
    dashed = [path["d"][1:] for path in paths if path.get("stroke-dasharray") == "7 4"]
    chain = [line.attrib["points"].strip() for line in root.iter(name + "polyline")]
    words = [text for text in root.iter(name + "text") if text.text]
    named = [text.text for text in words if text.get("dx") == "9"]
    verdict = [text.text for text in words if text.get("font-weight") == "bold"]
    facts = {"lines": (solid, ROWS), "shade": (shaded, SHADED), "instant": (dashed, INSTANT), "chain": (chain, CHAIN), "bands": (bands, BANDS)}
    facts |= {"names": (named, NAMED), "verdict": (verdict, VERDICT)}
    wrong = 0
    for fact, (shown, wanted) in facts.items():
        if shown != wanted:
            wrong += 1
            print(f"orphan.svg: the {fact} at {shown}, by the layout {wanted}")
    return wrong


# What running a script prints, and its status; a trace stands in a file.
RUNS = {
    "replay.script": (bytes_of("replay.jsonl").decode(), 0),
    "stopped.script": ("refused line=6 MustReplay 2 0\n", 2),
}


def wrong_runs(program):
    """Tells each script whose run prints something else, and gives how many there are."""
    wrong = 0
    for script, answer in RUNS.items():
        answers = {"model": scripts.ran(bytes_of(script))}
        if program:
            ended = subprocess.run([program, "run"], input=bytes_of(script), capture_output=True)
            answers["program"] = ended.stdout.decode(), ended.returncode
        for who, said in answers.items():
            if said != answer:
                wrong += 1
                print(f"{script}: the table has {answer!r}, the {who} says {said!r}")
    return wrong


# What is said on standard error of texts that are no traces, for F = 1, each line after the name of the program and the command.
HEADER_2, HEADER_3 = '["trace",1,2]', '["trace",1,3]'
SENT, DELIVERED = '["send",0,1,0]', '["deliver",1,0,0,[[0,0,1,0]]]'
COMPLAINTS = [
    ([HEADER_2, '["send",0,1,1]'], ["line 2: process 0 sends with the number 1, and its next is 0", "the entries before line 2: accept f=1 entries=0 deliveries=0"]),
    (
        [HEADER_2, SENT, '["deliver",1,1,0,[]]'],
        ["line 3: there is no earlier send to process 1 at position 1, which is line 3", "the entries before line 3: accept f=1 entries=1 deliveries=0"],
    ),
    ([HEADER_2, SENT, '["deliver",1,0,1,[]]'], ["line 3: process 1 delivers with the number 1, and its next is 0", "the entries before line 3: accept f=1 entries=1 deliveries=0"]),
    (
        [HEADER_2, SENT, DELIVERED, '["deliver",1,0,1,[[0,0,1,1]]]'],
        ["line 4: process 1 has delivered message 0 of process 0 already, at line 3", "the entries before line 4: accept f=1 entries=2 deliveries=1"],
    ),
    (
        [HEADER_2, SENT, DELIVERED, '["crash",1]', '["restart",1,[[0,0,1,0],[0,0,1,1]]]'],
        ["line 5: there is no delivery of the determinant [0,0,1,1]", "the entries before line 5: accept f=1 entries=3 deliveries=1"],
    ),
    (
        [HEADER_3, SENT, DELIVERED, '["send",1,2,0]', '["deliver",2,2,0,[[1,0,2,0]]]', '["deliver",2,2,1,[]]'],
        ["line 6: process 2 has delivered message 0 of process 1 already, at line 5", "the entries before line 6: orphan f=1 instant=4 delivery=1 crash=1 orphan=2"],
    ),
    ([HEADER_2, SENT, '["end",2]'], ["line 3: the end line counts 2 entries, and there are 1"]),
    ([HEADER_2, SENT], ["line 3: the text ends without an end line"]),
    ([HEADER_2, "send 0 1 0"], ["line 2: the line is not a JSON value"]),
]


# What `draw` says of skipped.jsonl for F = 1, and `run` of a script that starts with too many processes.
UNDRAWN = (
    "causal_tool draw: line 2: process 0 sends with the number 1, and its next is 0\n"
    "causal_tool draw: the entries before line 2: accept f=1 entries=0 deliveries=0\n"
)
REFUSED_START = (
    "causal_tool run: line 1: this is no line of a script here\n"
    "causal_tool run: expected there: start ring N F H, start echo N F H or start tally N F, or the same with explore in place of start and SEED STEPS at the end, with N 1 to 256, F 0 to 65535, H 0 to 255, SEED 0 to 4294967295 and STEPS 0 to 1000\n"
)


def wrong_complaints(program):
    """Tells each of these texts of which the program says something else, as a text that ends with a line feed and as one whose last
    line is unfinished, and gives how many there are and how many are wrong."""
    wrong = 0
    for lines, said in COMPLAINTS:
        for end in ("", "\n") if "text ends" not in said[0] else ("\n",):
            text, wanted = ("\n".join(lines) + end).encode(), "".join(f"causal_tool audit: {line}\n" for line in said)
            ended = subprocess.run([program, "audit", "--faults", "1"], input=text, capture_output=True)
            if (ended.stderr.decode(), ended.returncode) != (wanted, 2):
                wrong += 1
                print(f"of {text!r} the program says {ended.stderr.decode()!r}, wanted {wanted!r}")
    return len(COMPLAINTS), wrong


def wrong_streams(program):
    """Tells what the program does with streams and is no habit of a good one, and gives how many there are and how many are wrong: a
    text with a fault leaves no picture; a reader of the answer that has gone makes no noise; the system's reason stands below the line
    of a stream that failed; a script that is refused is told with the name of the command; at a terminal it says what it reads."""
    fault, trace = bytes_of("skipped.jsonl"), bytes_of("orphan.jsonl")

    def ended(words, **streams):
        done = subprocess.run([program, *words], stderr=subprocess.PIPE, **{"stdout": subprocess.PIPE, **streams})
        return done.stdout, done.stderr.decode(), done.returncode

    reading, closed = os.pipe()
    os.close(reading)
    full, folder = os.open("/dev/full", os.O_WRONLY), os.open(HERE, os.O_RDONLY)
    typing, terminal = pty.openpty()
    os.write(typing, trace + b"\x04")
    tries = [
        (("draw", "--faults", "1"), {"input": fault}, (b"", UNDRAWN, 2)),
        (("audit", "--faults", "1"), {"input": trace, "stdout": closed}, (None, "", 4)),
        (
            ("audit", "--faults", "1"),
            {"input": trace, "stdout": full},
            (None, "write fault\ncausal_tool audit: No space left on device (os error 28)\n", 4),
        ),
        (("explain",), {"stdin": folder}, (b"", "read fault\ncausal_tool explain: Is a directory (os error 21)\n", 4)),
        (("run",), {"input": b"start ring 300 1 2\n"}, (b"fault line=1 Script\n", REFUSED_START, 2)),
        (
            ("audit", "--faults", "0"),
            {"stdin": terminal},
            (b"accept f=0 entries=4 deliveries=2\n", "causal_tool audit: reading a trace from the terminal; end it with control-D\n", 0),
        ),
    ]
    wrong = 0
    for words, streams, wanted in tries:
        got = ended(words, **streams)
        if got != wanted:
            wrong += 1
            print(f"{' '.join(words)}: wanted {wanted!r}, the program gives {got!r}")
    for stream in (closed, full, folder, typing, terminal):
        os.close(stream)
    return len(tries), wrong


# What is said of 1,200,000 blank lines, the second half of which comes after more than a second: at a terminal how far the reading is,
# and what is wrong with them.
FAR = r"(causal_tool merge: \d+ lines, [12] MB, \d MB/s so far\n)+causal_tool merge: 1200000 lines, 2 MB, \d MB/s in all\n"
BLANK = r"causal_tool merge: line 1200001: some process has no header\ncausal_tool merge: a recording may be missing\n"


def wrong_progress(program):
    """Tells where a person at a terminal is not told how far the reading of a long text is, or where a file is; and gives how many there
    are and how many are wrong."""
    half, wrong = b" \n" * 600_000, 0
    watching, terminal = pty.openpty()
    with tempfile.TemporaryFile() as file:
        running = [subprocess.Popen([program, "merge"], stdin=subprocess.PIPE, stdout=subprocess.PIPE, stderr=to) for to in (terminal, file)]
        for one in running:
            one.stdin.write(half)
            one.stdin.flush()
        time.sleep(1.2)
        for one in running:
            one.communicate(half)
        file.seek(0)
        told = os.read(watching, 65_536).replace(b"\r\n", b"\n"), file.read()
    for said, wanted in zip(told, (FAR + BLANK, BLANK)):
        if not re.fullmatch(wanted, said.decode()):
            wrong += 1
            print(f"of a long text: wanted {wanted!r}, the program says {said!r}")
    for stream in (watching, terminal):
        os.close(stream)
    return len(told), wrong


# What command lines give: the words behind the program's name, the standard output, what standard error begins with, and the status.
# Each has orphan.jsonl as its standard input. `clap` says what is wrong; an answer is the row of examples/README.md.
USAGE = "error: "
SAFE = b"accept f=0 entries=4 deliveries=2\n"
UNKNOWN_SIZE = """unexpected argument '--size' found

  tip: to pass '--size' as a value, use '-- --size'

Usage: causal_tool explain [OPTIONS] [FILE]
"""
WORDS = [
    (["audit", "--faults", "0"], SAFE, "", 0),
    (["audit", "--faults=0"], SAFE, "", 0),
    (["audit", "--workers", "64", "--faults", "0"], SAFE, "", 0),
    (["audit", "--faults", "1", "--workers", "1"], b"orphan f=1 instant=4 delivery=1 crash=1 orphan=2\n", "", 1),
    (["audit", "--faults", "65535"], b"orphan f=65535 instant=4 delivery=1 crash=1 orphan=2\n", "", 1),
    ([], b"", USAGE + "'causal_tool' requires a subcommand but one was not provided\n", 3),
    (["audit"], b"", USAGE + "the following required arguments were not provided:\n  --faults <F>\n", 3),
    (["audit", "--json"], b"", USAGE + "the following required arguments were not provided:\n  --faults <F>\n", 3),
    (["draw"], b"", USAGE + "the following required arguments were not provided:\n  --faults <F>\n", 3),
    (["audit", "--faults"], b"", USAGE + "a value is required for '--faults <F>' but none was supplied\n", 3),
    (["audit", "--faults", "65536"], b"", USAGE + "invalid value '65536' for '--faults <F>': 65536 is not in 0..=65535\n", 3),
    (["draw", "--faults", "65536"], b"", USAGE + "invalid value '65536' for '--faults <F>': 65536 is not in 0..=65535\n", 3),
    (["audit", "--faults", "-1"], b"", USAGE + "invalid value '-1' for '--faults <F>': -1 is not in 0..=65535\n", 3),
    (["audit", "--faults", "one"], b"", USAGE + "invalid value 'one' for '--faults <F>': invalid digit found in string\n", 3),
    (["audit", "--faults", "0", "--workers", "0"], b"", USAGE + "invalid value '0' for '--workers <W>': 0 is not in 1..=64\n", 3),
    (["audit", "--faults", "0", "--workers", "65"], b"", USAGE + "invalid value '65' for '--workers <W>': 65 is not in 1..=64\n", 3),
    (["audit", "--faults", "0", "--entries", "0"], b"", USAGE + "invalid value '0' for '--entries <N>': 0 is not in 1..=16777216\n", 3),
    (["explain", "--entries", "16777217"], b"", USAGE + "invalid value '16777217' for '--entries <N>': 16777217 is not in 1..=16777216\n", 3),
    (["draw", "--faults", "0", "--entries", "-1"], b"", USAGE + "invalid value '-1' for '--entries <N>': -1 is not in 1..=16777216\n", 3),
    (["merge", "--entries", "one"], b"", USAGE + "invalid value 'one' for '--entries <N>': invalid digit found in string\n", 3),
    (["merge", "--entries"], b"", USAGE + "a value is required for '--entries <N>' but none was supplied\n", 3),
    (["run", "--entries", "1"], b"", USAGE + "unexpected argument '--entries' found\n", 3),
    (["audit", "--faults", "1", "--until-breach"], b"orphan f=1 instant=4 delivery=1 crash=1 orphan=2 read=4\n", "", 1),
    (["audit", "--until-breach"], b"", USAGE + "the following required arguments were not provided:\n  --faults <F>\n", 3),
    (["audit", "--until-breach", "--faults", "1", "--entries", "0"], b"", USAGE + "invalid value '0' for '--entries <N>': 0 is not in 1..=16777216\n", 3),
    (["audit", "--faults", "1", "--until-breach=often"], b"", USAGE + "invalid value 'often' for '--until-breach[=<WHEN>]'\n", 3),
    (["explain", "--until-breach"], b"", USAGE + "unexpected argument '--until-breach' found\n", 3),
    (["audit", "--faults", "0", "--entries", "4"], SAFE, "", 0),
    (["audit", "--faults", "0", "--entries", "16777216"], SAFE, "", 0),
    (["audit", "--faults", "0", "--entries", "3"], b"fault line=5 TooLong\n", "causal_tool audit: line 5: the trace would be too long\n", 2),
    (["explain", "--entries", "3"], b"fault line=5 TooLong\n", "causal_tool explain: line 5: the trace would be too long\n", 2),
    (["draw", "--faults", "0", "--entries", "3"], b"", "causal_tool draw: line 5: the trace would be too long\n", 2),
    (["audit", "--faults", "0", "--json", "--entries", "3"], b'{"verdict":"fault","line":5,"kind":"TooLong"}\n', "causal_tool audit: line 5: ", 2),
    (["audit", "--faults", "0", "--faults", "1"], b"", USAGE + "the argument '--faults <F>' cannot be used multiple times\n", 3),
    (["audit", "--faults", "0", "trace.jsonl"], b"", "read fault\ncausal_tool audit: trace.jsonl: No such file or directory (os error 2)\n", 4),
    (["audit", "--faults", "0", "-"], SAFE, "", 0),
    (["audit", "--faults", "0", "--", "-"], SAFE, "", 0),
    (["audit", "--faults", "0", "-", "trace.jsonl"], b"", USAGE + "unexpected argument 'trace.jsonl' found\n", 3),
    (["explain", "--faults", "1", "--size", "2"], b"", USAGE + UNKNOWN_SIZE, 3),
    (["explain", "--workers", "65"], b"", USAGE + "invalid value '65' for '--workers <W>': 65 is not in 1..=64\n", 3),
    (["draw", "--faults", "0", "--workers", "0"], b"", USAGE + "invalid value '0' for '--workers <W>': 0 is not in 1..=64\n", 3),
    (["merge", "--workers", "65"], b"", USAGE + "invalid value '65' for '--workers <W>': 65 is not in 1..=64\n", 3),
    (["merge", "--faults", "1"], b"", USAGE + "unexpected argument '--faults' found\n", 3),
    (["draw", "--faults", "1", "--json"], b"", USAGE + "unexpected argument '--json' found\n", 3),
    (["merge", "--json"], b"", USAGE + "unexpected argument '--json' found\n", 3),
    (["merge", "run.log"], b"", "read fault\ncausal_tool merge: run.log: No such file or directory (os error 2)\n", 4),
    (["run", "--json"], b"", USAGE + "unexpected argument '--json' found\n", 3),
    (["run", "--faults", "1"], b"", USAGE + "unexpected argument '--faults' found\n", 3),
    (["run", "script"], b"", "read fault\ncausal_tool run: script: No such file or directory (os error 2)\n", 4),
    (["replay"], b"", USAGE + "unrecognized subcommand 'replay'\n", 3),
    ([b"\xff"], b"", USAGE + "the arguments are no UTF-8 text\n", 3),
    (["--version"], b"causal_tool 1.0.0\n", "", 0),
]
# Words that ask for help, and how it begins.
HELP = {
    ("--help",): "Audits recorded runs of processes that log their messages causally, and records such runs\n",
    ("help",): "Audits recorded runs of processes that log their messages causally, and records such runs\n",
    ("audit", "--help"): "Audits a trace\n",
    ("explain", "--help"): "Audits a trace, and tells why the verdict is so; or for which F it is safe\n",
    ("replays", "--help"): "Tells whether recoveries follow the determinants that survive\n",
    ("draw", "--help"): "Audits a trace, and draws it with the verdict\n",
    ("merge", "--help"): "Merges recordings into one trace\n",
    ("run", "--help"): "Runs a script and prints its trace\n",
    ("help", "run"): "Runs a script and prints its trace\n",
}


def wrong_words(program):
    """Tells each command line to which the program says something else, and each help or version that ends otherwise where standard
    output is full; and gives how many there are and how many are wrong."""
    wrong, trace = 0, bytes_of("orphan.jsonl")

    def differs(words, said, wanted):
        if said != wanted:
            print(f"the words {words}: wanted {wanted!r}, the program gives {said!r}")
        return said != wanted

    for words, out, begun, status in WORDS:
        ended = subprocess.run(["causal_tool", *words], executable=program, input=trace, capture_output=True)
        told = ended.stderr.decode()
        wrong += differs(words, (ended.stdout, told[: len(begun)] if begun else told, ended.returncode), (out, begun, status))
    for words, begun in HELP.items():
        ended = subprocess.run([program, *words], input=trace, capture_output=True)
        said = ended.stdout.decode()[: len(begun)], ended.stderr, ended.returncode
        wrong += differs(words, said, (begun, b"", 0))
    for word in ("--help", "--version"):
        with open("/dev/full", "wb") as full:
            ended = subprocess.run([program, word], stdout=full, stderr=subprocess.PIPE)
        wrong += differs([word], (ended.stderr, ended.returncode), (b"write fault\n", 4))
    return len(WORDS) + len(HELP) + 2, wrong


# What `--json` answers, by hand from the explanations and answers that stand here: the words, the trace, the object and the status.
AUDITED = {"verdict": "orphan", "f": 1, "instant": 4, "delivery": 1, "crash": [1], "orphan": 2}
OBJECTS = [
    (("audit", "--faults", "1"), "ring.jsonl", {"verdict": "accept", "f": 1, "entries": 6, "deliveries": 3}, 0),
    (("audit", "--faults", "1"), "crashes.jsonl", {"verdict": "exceeded", "f": 1, "instant": 8, "down": [1, 2]}, 1),
    (("audit", "--faults", "1"), "orphan.jsonl", AUDITED, 1),
    (("audit", "--faults", "0"), "unlogged.jsonl", {"verdict": "orphan", "f": 0, "instant": 5, "delivery": 4, "crash": [], "orphan": 3}, 1),
    (("audit", "--faults", "1"), "skipped.jsonl", {"verdict": "fault", "line": 2, "kind": "WrongSsn"}, 2),
    (("explain", "--faults", "1"), "skipped.jsonl", {"verdict": "fault", "line": 2, "kind": "WrongSsn"}, 2),
    (("explain",), "cut.jsonl", {"verdict": "fault", "line": 4, "kind": "Cut"}, 2),
    (
        ("explain", "--faults", "0"),
        "ring.jsonl",
        {
            "verdict": "accept", "f": 0, "entries": 6, "deliveries": 3,
            "reason": [{"fact": "closest", "faults": 2, "line": 3, "until": 7, "orphan": 0}],
        },
        0,
    ),
    (
        ("explain", "--faults", "1"),
        "recorded.jsonl",
        {"verdict": "accept", "f": 1, "entries": 10, "deliveries": 3, "reason": [{"fact": "closest", "faults": None}]},
        0,
    ),
    (
        ("explain", "--faults", "1"),
        "crashes.jsonl",
        {
            "verdict": "exceeded", "f": 1, "instant": 8, "down": [1, 2],
            "reason": [
                {"fact": "cause", "line": 9, "process": 2, "by": "crash"},
                {"fact": "down", "process": 1, "line": 8},
                {"fact": "down", "process": 2, "line": 9},
            ],
        },
        1,
    ),
    (
        ("explain", "--faults", "1"),
        "orphan.jsonl",
        {
            **AUDITED,
            "reason": [
                {"fact": "delivery", "line": 3, "process": 1, "source": 0, "ssn": 0, "rsn": 0},
                {"fact": "cause", "line": 5, "process": 2, "by": "deliver"},
                {"fact": "unstable", "line": 5},
                {"fact": "holder", "process": 1, "line": 3},
                {"fact": "crash", "process": 1},
                {"fact": "chain", "line": 3, "process": 1},
                {"fact": "chain", "line": 4, "process": 1},
                {"fact": "chain", "line": 5, "process": 2},
                {"fact": "unlisted", "line": 5, "send": 4, "process": 2},
                {"fact": "orphan", "process": 2},
            ],
        },
        1,
    ),
    (
        ("explain", "--faults", "1"),
        "transit.jsonl",
        {
            "verdict": "orphan", "f": 1, "instant": 5, "delivery": 1, "crash": [1], "orphan": 2,
            "reason": [
                {"fact": "delivery", "line": 3, "process": 1, "source": 0, "ssn": 0, "rsn": 0},
                {"fact": "cause", "line": 6, "process": 2, "by": "deliver"},
                {"fact": "unstable", "line": 6},
                {"fact": "holder", "process": 1, "line": 3},
                {"fact": "crash", "process": 1},
                {"fact": "chain", "line": 3, "process": 1},
                {"fact": "chain", "line": 5, "process": 1},
                {"fact": "chain", "line": 6, "process": 2},
                {"fact": "unlisted", "line": 6, "send": 5, "process": 2},
                {"fact": "underway", "send": 4, "line": 7, "process": 3},
                {"fact": "orphan", "process": 2},
            ],
        },
        1,
    ),
    (
        ("explain",),
        "replay.jsonl",
        {"ranges": [{"verdict": "exceeded", "to": 0}, {"verdict": "accept", "from": 1, "to": 1}, {"verdict": "orphan", "from": 2}]},
        0,
    ),
]


def spoken(name, line):
    """What a line of an answer says, but for its sentence, as an object whose first member has this name."""
    word, *fields = line.split(": ")[0].rstrip(":").split(" ")
    said = {name: word}
    for field in fields:
        key, _, value = field.rpartition("=")
        if key in ("crash", "down"):
            said[key] = [int(process) for process in value.split(",") if process != "-"]
        elif key in ("", "by"):
            said[key or "kind"] = value
        else:
            said[key] = None if value == "-" else int(value)
    return said


def meant(text, words):
    """What the lines of an answer say, as an object."""
    line, *facts = text.splitlines()
    if words == ("explain",) and not line.startswith("fault"):
        return {"ranges": [spoken("verdict", part) for part in (line, *facts)]}
    return spoken("verdict", line) | ({"reason": [spoken("fact", fact) for fact in facts]} if facts else {})


def wrong_objects(program):
    """Tells each answer of which the object that `--json` writes is not one line, has a member twice, or says something else than the
    lines do: of each row of the table, and of all numbers of faults for each trace; and each of which it is not the one above. Standard
    error and the status are those without the option. Gives how many there are and how many are wrong."""
    asked = {(command, trace, words) for trace, f, _, _ in rows() for command in ("audit", "explain") for words in (("--faults", str(f)), ())}
    wanted = {(words[0], trace, words[1:]): (answer, status) for words, trace, answer, status in OBJECTS}
    count = wrong = 0

    def whole(pairs):
        if len(dict(pairs)) < len(pairs):
            raise ValueError("a member stands twice")
        return dict(pairs)

    for command, trace, words in sorted(asked | wanted.keys()):
        if (command, words) == ("audit", ()):
            continue
        text = text_of(trace)
        plain = subprocess.run([program, command, *words], input=text, capture_output=True)
        ended = subprocess.run([program, command, *words, "--json"], input=text, capture_output=True)
        said, lines = ended.stdout.decode(), plain.stdout.decode()
        answers = [(meant(lines, (command, *words)), plain.returncode, plain.stderr)]
        if (command, trace, words) in wanted:
            answers.append((*wanted[command, trace, words], plain.stderr))
        for answer in answers:
            count += 1
            try:
                got = json.loads(said, object_pairs_hook=whole), ended.returncode, ended.stderr
            except ValueError as fault:
                got = fault
            if got != answer or said.count("\n") != 1 or not said.endswith("}\n"):
                wrong += 1
                print(f"{command} {' '.join(words)} --json of {trace}: wanted {answer!r}, the program says {said!r}")
    return count, wrong


# Where the page for `man` and the completions for bash stand.
SHELL = os.path.join(TOP, "docs", "shell")


def helped(program, *words):
    """The options that a command's help names, and the commands."""
    text = subprocess.run([program, *words, "--help"], capture_output=True).stdout.decode()
    commands = re.search(r"Commands:\n((?:  .*\n)+)", text)
    return set(re.findall(r"--[a-z-]+", text.split("Options:\n")[1].split("\n\n")[0])), re.findall(r"^  (\w+)", commands[1], re.M) if commands else []


def completed(*words):
    """The words that the completions for bash offer behind these."""
    script = 'source "$0"; COMP_WORDS=("$@"); COMP_CWORD=$(($# - 1)); _causal_tool; printf "%s\\n" "${COMPREPLY[@]}"'
    file = os.path.join(SHELL, "causal_tool.bash")
    return set(subprocess.run(["bash", "-c", script, file, "causal_tool", *words, ""], capture_output=True).stdout.decode().split())


def wrong_pages(program):
    """Tells each word of the program's help that the page for `man` or the completions for bash lack, and each that they have beyond
    it, and gives how many commands there are and how many words are wrong."""
    with open(os.path.join(SHELL, "causal_tool.1")) as file:
        page = file.read().replace("\\-", "-")
    options, commands = helped(program)
    known, wrong = set(options), 0
    offered = {(): set(commands) | options}
    for command in set(commands) - {"help"}:
        offered[(command,)] = helped(program, command)[0]
        known |= offered[(command,)]
    for words, wanted in offered.items():
        if completed(*words) != wanted:
            wrong += 1
            print(f"causal_tool.bash offers {sorted(completed(*words))} after {words}, the help has {sorted(wanted)}")
    named = set(re.findall(r"--[a-z-]+", page))
    for word in sorted((named ^ known) | {command for command in set(commands) - {"help"} if f"\n.B {command}\n" not in page}):
        wrong += 1
        print(f"causal_tool.1 and the help differ in {word}")
    return len(commands), wrong


# For which numbers of faults traces are safe.
RANGES = {
    "ring.jsonl": ["accept from=0 to=1", "orphan from=2"],
    "orphan.jsonl": ["accept from=0 to=0", "orphan from=1"],
    "unlogged.jsonl": ["orphan from=0"],
    "crash.jsonl": ["exceeded to=0", "orphan from=1"],
    "replay.jsonl": ["exceeded to=0", "accept from=1 to=1", "orphan from=2"],
    "recorded.jsonl": ["exceeded to=0", "accept from=1"],
}


def wrong_ranges(program):
    """Tells each of these traces for which the plain model, asked for each number, or the program tells other numbers."""
    wrong = 0
    for trace, wanted in RANGES.items():
        text = bytes_of(trace)
        kinds = [traces.audited(text, f)[0].split()[0] for f in range(traces.read(text).n + 1)]
        first, end = kinds.index("orphan") if "orphan" in kinds else None, kinds.count("exceeded")
        answers = {"model": [
            *([f"exceeded to={end - 1}"] if end else []),
            *([f"accept from={end}" + (f" to={first - 1}" if first is not None else "")] if "accept" in kinds else []),
            *([f"orphan from={first}"] if first is not None else []),
        ]}
        if program:
            ended = subprocess.run([program, "explain"], input=text, capture_output=True)
            answers["program"] = [line.split(": ")[0] for line in ended.stdout.decode().splitlines()]
        for who, said in answers.items():
            if said != wanted:
                wrong += 1
                print(f"{trace} for all numbers of faults: {wanted!r}, the {who} says {said!r}")
    return len(RANGES), wrong


# Each word that a line of a trace begins with.
KINDS = {"trace", "send", "deliver", "stable", "crash", "restart", "forget", "end"}


def is_shown_by_record():
    """Whether record.py shows how each of them is recorded."""
    met = {json.loads(line)[0] for line in text_of("record.py").splitlines()}
    if met != KINDS:
        print(f"record.py shows no line {', '.join(sorted(KINDS - met))}")
    return met == KINDS


def shown_by(program, word, trace, f):
    return subprocess.run([program, word, "--faults", str(f)], input=bytes_of(trace), capture_output=True).stdout


def closest(text, f):
    """What `explain` has to tell below the verdict of a trace that is accepted for f, up to its sentence: of the least number of
    faults for which the plain model finds an orphan, the lines of the delivery and of the last entry before the instant."""
    for g in range(f + 1, traces.read(text).n + 1):
        words = traces.audited(text, g)[0].split()
        if words[0] == "orphan":
            told = dict(word.split("=") for word in words[1:])
            line, last = int(told["delivery"]) + 2, int(told["instant"]) + 1
            return f"closest faults={g} line={line} until={last} orphan={told['orphan']}"
    return "closest faults=-"


def main():
    given = argparse.ArgumentParser(description=__doc__.split("\n\n")[0])
    given.add_argument("--program")
    program = given.parse_args().program
    wrong, count, met = wrong_runs(program), 0, set()
    for trace, f, answer, status in rows():
        text = text_of(trace)
        answers = {"model": traces.audited(text, f)}
        if program:
            ended = subprocess.run([program, "audit", "--faults", str(f)], input=text, capture_output=True)
            answers["program"] = ended.stdout.decode().rstrip("\n"), ended.returncode
            ended = subprocess.run([program, "explain", "--faults", str(f)], input=text, capture_output=True)
            told = ended.stdout.decode().split("\n")
            answers["program's first line of why"] = told[0], ended.returncode
            count += status == 0
            if status == 0 and told[1].split(":")[0] != closest(text, f):
                wrong += 1
                print(f"{trace} for {f}: {closest(text, f)!r} by the model, the program says {told[1]!r}")
        for who, said in answers.items():
            count += 1
            if said != (answer, status):
                wrong += 1
                print(f"{trace} for {f}: the table has {answer!r}, the {who} says {said!r}")
        met.add(trace)
    unmet = {name for name in os.listdir(HERE) if name.endswith((".jsonl", ".script"))} - met - RUNS.keys()
    if unmet:
        wrong += len(unmet)
        print(f"no row for {', '.join(sorted(unmet))}")
    asked = [wrong_in_the_format(), wrong_reasons(), wrong_pictures(), wrong_ranges(program), commands.wrong_by_models()]
    if program:
        asked += [wrong_complaints(program), wrong_streams(program), wrong_words(program), wrong_objects(program)]
        asked.append(wrong_progress(program))
        asked += [wrong_pages(program), commands.wrong_rows(program)]
    for answers, mistaken in asked:
        count, wrong = count + answers, wrong + mistaken
    wrong += wrong_in_the_picture() + (not is_shown_by_record())
    for shown, (word, trace, f) in SHOWN.items() if program else ():
        count += 1
        if shown_by(program, word, trace, f) != bytes_of(shown):
            wrong += 1
            print(f"{shown} is not what `{word}` shows of {trace} for {f}")
    print(f"examples: {count} answers, {wrong} wrong")
    sys.exit(1 if wrong or not count else 0)


if __name__ == "__main__":
    main()
