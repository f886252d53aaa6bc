#!/usr/bin/env python3
"""Tries the page in a real browser without a window, where one is installed (else it says so, and checks page.py and perfetto.py alone).

    examples/page/test_page.py
    examples/page/test_page.py --program crates/causal_tool/out/causal_tool      # the answers are the program's; large traces are audited
    examples/page/test_page.py --pictures FOLDER                                 # leaves screenshots there

Of small traces: what the page says of the answer, of an entry at the pointer and of a clicked fact, zoom, pan, the processes of the breach,
and colors where the chain has to be. Of 65,536 and 1,000,000 entries: that they are there within one and ten seconds."""
import argparse
import base64
import json
import os
import random
import subprocess
import sys
import tempfile
import time

HERE = os.path.dirname(os.path.abspath(__file__))
EXAMPLES = os.path.dirname(HERE)
sys.path[:0] = [HERE, EXAMPLES]
import browser  # noqa: E402
from check import meant  # noqa: E402

# Of each trace with an explanation beside it: F, the processes of the breach, and the sentence of an entry, by hand.
SMALL = {
    "orphan": (1, [1, 2], 1, "line 3: process 1 delivers message 0 of process 0, sent on line 2, as its delivery 0; 1 determinant"),
    "gap": (3, [1, 2, 3, 4], 8, "line 10: process 2 sends message 0 to process 3, delivered on line 11"),
    "gathered": (1, [0, 1, 2], 7, "line 9: process 1 restarts with 2 determinants"),
    "forgotten": (1, [0, 1, 2], 6, "line 8: process 1 forgets 1 determinant"),
    "crashes": (1, [1, 2], 7, "line 9: process 2 crashes"),
}
LARGE = {65_536: 1.0, 1_000_000: 10.0}  # entries, seconds
DRAW = "drawRun(); drawOverview();"
INK = """(() => {
  const d = canvas.getContext("2d").getImageData(0, 0, canvas.width, canvas.height).data;
  let count = 0;
  for (let i = 3; i < d.length; i += 4) count += d[i] > 0;
  return count;
})()"""
TRIES = 3  # the best of so many loads counts, since the machine may have other work


class Tally:
    def __init__(self):
        self.checks = self.wrong = 0

    def same(self, what, got, wanted):
        self.checks += 1
        if got != wanted:
            self.wrong += 1
            print(f"page: {what}: wanted {wanted!r}, got {got!r}")

    def holds(self, what, holds):
        self.same(what, bool(holds), True)


def example(name):
    return os.path.join(EXAMPLES, name)


def answer_of(program, name, f):
    """The answer as an object: the program's, or what the explanation says that lies beside the trace."""
    if program is None:
        with open(example(f"{name}.txt"), encoding="utf-8") as file:
            return json.dumps(meant(file.read(), ("explain", "--faults", str(f))))
    with open(example(f"{name}.jsonl"), "rb") as trace:
        words = [program, "explain", "--faults", str(f), "--json"]
        return subprocess.run(words, stdin=trace, capture_output=True, check=False).stdout.decode()


def made_page(folder, trace, answer=None):
    """The path of a page, and the seconds that it took to make it."""
    words, path = [os.path.join(HERE, "page.py"), trace], os.path.join(folder, "page.html")
    if answer is not None:
        words.append(os.path.join(folder, "answer.json"))
        with open(words[-1], "w", encoding="utf-8") as file:
            file.write(answer)
    before = time.monotonic()
    with open(path, "wb") as file:
        subprocess.run([sys.executable, *words], stdout=file, check=True)
    return path, time.monotonic() - before


def facts_as_text(answer):
    def spelled(fact):
        return " ".join([fact["fact"], *(f"{key}={'-' if value is None else value}" for key, value in fact.items() if key != "fact")])

    return [spelled(fact) for fact in answer["reason"]]


def middle_of(page, selector, index=0):
    return page.value(
        f"(() => {{ const r = document.querySelectorAll({selector!r})[{index}].getBoundingClientRect();"
        " return [r.x + r.width / 2, r.y + r.height / 2]; })()"
    )


def place_of(page, at):
    """Where the entry at a position is in the window."""
    return page.value(f"(() => {{ const r = canvas.getBoundingClientRect(), [x, y] = pointOf({at}); return [r.x + x, r.y + y]; }})()")


def settled(page):
    page.value("new Promise((done) => requestAnimationFrame(() => requestAnimationFrame(done)))")


def check_side(page, tally, name, answer):
    """The verdict and the facts, and that a click on a fact goes to its line."""
    shown = page.value("[...document.querySelectorAll('.fact')].map((fact) => fact.firstChild.textContent)")
    tally.same(f"{name}: facts", shown, facts_as_text(answer))
    begins = f"{answer['verdict']} f={answer['f']} instant={answer['instant']}"
    tally.holds(f"{name}: verdict", page.value("byId('verdict').textContent").startswith(begins))
    index = next(i for i, fact in enumerate(answer["reason"]) if fact["fact"] == "cause")
    page.click(*middle_of(page, ".fact", index))
    settled(page)
    at = answer["reason"][index]["line"] - 2
    tally.same(f"{name}: entry of the clicked fact", page.value("view.kept"), at)
    tally.holds(f"{name}: it is in the window", page.value(f"xOf({at}) > LABELS && xOf({at}) < width()"))
    page.value("showBreach()")
    settled(page)


def check_pointer(page, tally, name, at, sentence):
    """The entry at the pointer."""
    x, y = place_of(page, at)
    page.mouse("mouseMoved", x + 2, y + 2)
    settled(page)
    tally.same(f"{name}: entry at the pointer", page.value("byId('tip').textContent"), sentence)


def check_moves(page, tally, at):
    """The wheel, which keeps what is below the pointer; the drag, which moves it along; the keys; the line that is typed."""
    page.value(f"show({at} - 90, {at} + 60)")
    settled(page)
    (x, y), before = place_of(page, at), page.value("view.to - view.from")
    page.mouse("mouseWheel", x, y, deltaX=0, deltaY=-200)
    settled(page)
    tally.holds("the wheel zooms", page.value("view.to - view.from") < 0.8 * before)
    tally.holds("and keeps the place", abs(place_of(page, at)[0] - x) < 2)
    page.mouse("mousePressed", x, y, button="left", buttons=1, clickCount=1)
    page.mouse("mouseMoved", x - 40, y, button="left", buttons=1)
    page.mouse("mouseReleased", x - 40, y, button="left", clickCount=1)
    settled(page)
    tally.holds("the drag moves it", abs(place_of(page, at)[0] - x + 40) < 2)
    page.value("byId('line').value = 12345, byId('line').onchange({ target: byId('line') })")
    tally.holds("the typed line is kept and shown", page.value("view.kept === 12343 && view.from < 12343 && view.to > 12343"))
    page.value("canvas.focus()")
    page.call("Input.dispatchKeyEvent", type="keyDown", key="0")
    tally.same("the key 0 shows the whole run", page.value("[view.from, view.to]"), [-1, page.value("trace.n") + 1])


def check_breach(page, tally, name, processes, answer):
    """The rows of the breach alone, and the chain's color in the middle of its first step."""
    page.value("showBreach()")
    page.click(*middle_of(page, "#only"))
    settled(page)
    tally.same(f"{name}: processes of the breach", page.value("view.rows"), processes)
    chain = [fact["line"] - 2 for fact in answer["reason"] if fact["fact"] == "chain"]
    if len(chain) > 1:
        tally.holds(f"{name}: the chain is orange", is_orange(page, *chain[:2]))
    page.click(*middle_of(page, "#only"))
    settled(page)


def is_orange(page, one, other):
    red, green, blue = page.value(
        f"(() => {{ const ratio = devicePixelRatio, [a, b] = pointOf({one}), [c, d] = pointOf({other}), pen = canvas.getContext('2d');"
        f" return [...pen.getImageData(ratio * (a + c) / 2, ratio * (b + d) / 2, 1, 1).data].slice(0, 3); }})()"
    )
    return red > 180 and 60 < green < 190 and blue < 120


def check_small(page, tally, program, folder, pictures):
    for name, (f, processes, at, sentence) in SMALL.items():
        text = answer_of(program, name, f)
        path, _ = made_page(folder, example(f"{name}.jsonl"), text)
        page.open(path)
        answer = json.loads(text)
        if pictures:
            picture(page, os.path.join(pictures, f"{name}.png"))
        check_side(page, tally, name, answer)
        check_pointer(page, tally, name, at, sentence)
        check_breach(page, tally, name, processes, answer)
    path, _ = made_page(folder, example("ring.jsonl"))
    page.open(path)
    shown = page.value("[byId('verdict').textContent, byId('only').disabled, trace.n]")
    tally.same("without an answer", shown, ["none was given", True, 6])
    script = "</script><script>document.body.dataset.forged = 1</script>{{columns}}"
    hostile = json.dumps({"verdict": script, "reason": [{"fact": "<b>", "line": 3}]})
    path, _ = made_page(folder, example("ring.jsonl"), hostile)
    page.open(path)
    shown = page.value("[document.body.dataset.forged || 0, document.querySelectorAll('.fact b').length]")
    tally.same("text in an answer is text", shown, [0, 0])


def picture(page, path):
    with open(path, "wb") as file:
        file.write(base64.b64decode(page.call("Page.captureScreenshot", format="png")["data"]))


# ---- large traces


class Run:
    """A run of 16 processes: messages are delivered in any order; now and then one is down for a while, and one determinant is stable."""

    def __init__(self, seed, n):
        self.random, self.processes = random.Random(seed), 16
        self.sent, self.delivered, self.up = [0] * 16, [0] * 16, [True] * 16
        self.seen = [set() for _ in range(16)]
        self.pending, self.lines, self.entries, self.restarts = [], [f'["trace",1,{self.processes}]\n'], n, 0

    def text(self):
        while len(self.lines) <= self.entries:
            self.step()
        return "".join(self.lines) + f'["end",{self.entries}]\n'

    def step(self):
        p, dice = self.random.randrange(self.processes), self.random.random()
        if not self.up[p]:
            if dice < 0.01:
                self.restart(p)
        elif dice < 0.00002 and self.restarts < 180 and sum(self.up) > 14:
            self.up[p] = False
            self.lines.append(f'["crash",{p}]\n')
        elif dice < 0.5 or not self.pending:
            self.send(p, self.random.randrange(self.processes))
        else:
            self.deliver(*self.pending.pop(self.random.randrange(max(0, len(self.pending) - 40), len(self.pending))))

    def restart(self, p):
        self.up[p], self.restarts, self.sent[p], self.delivered[p], self.seen[p] = True, self.restarts + 1, 0, 0, set()
        self.lines.append(f'["restart",{p},[]]\n')

    def send(self, p, to):
        self.pending.append((p, self.sent[p], to, len(self.lines) - 1))
        self.lines.append(f'["send",{p},{to},{self.sent[p]}]\n')
        self.sent[p] += 1

    def deliver(self, source, ssn, to, at):
        if not self.up[to] or (source, ssn) in self.seen[to]:
            return
        det = f"[{source},{ssn},{to},{self.delivered[to]}]"
        self.seen[to].add((source, ssn))
        self.lines.append(f'["deliver",{to},{at},{self.delivered[to]},[{det}]]\n')
        self.delivered[to] += 1
        if self.random.random() < 0.01 and len(self.lines) <= self.entries:
            self.lines.append(f'["stable",{det}]\n')


def large_answer(program, trace, entries):
    """The program's answer, for two down at once, or one made by hand at the end of the trace."""
    if program is None:
        answer = {"verdict": "orphan", "f": 2, "instant": entries, "delivery": entries // 2, "crash": [1], "orphan": 2, "reason": []}
        return json.dumps(answer)
    with open(trace, "rb") as file:
        words = [program, "explain", "--faults", "2", "--json", "--entries", str(entries)]
        return subprocess.run(words, stdin=file, capture_output=True, check=False).stdout.decode()


def check_large(page, tally, program, folder, pictures):
    results = []
    for entries, seconds in LARGE.items():
        trace = os.path.join(folder, "large.jsonl")
        with open(trace, "w", encoding="ascii") as file:
            file.write(Run(7, entries).text())
        answer = large_answer(program, trace, entries)
        tally.holds(f"{entries} entries are a trace: {answer[:80]}", '"verdict":"fault"' not in answer and answer)
        path, made = made_page(folder, trace, answer)
        loads = []
        while len(loads) < TRIES and min(loads, default=seconds + 1) > seconds:
            page.call("Page.navigate", url="about:blank")
            loads.append(page.open(path) / 1000)
        tally.holds(f"{entries} entries in {min(loads)} of {seconds} seconds", min(loads) <= seconds)
        tally.same(f"{entries} entries: number", page.value("trace.n"), entries)
        drawn = page.value(f"(() => {{ showWhole(); const t = performance.now(); {DRAW} return performance.now() - t; }})()")
        ink = page.value(INK)
        tally.holds(f"{entries} entries: {ink} pixels are drawn", ink > 10_000)
        if pictures:
            picture(page, os.path.join(pictures, f"large{entries}.png"))
        check_moves(page, tally, entries // 2)
        size = os.path.getsize(path)
        results.append(f"{entries:,} entries in {min(loads):.2f} s, drawn in {drawn / 1000:.2f} s (made in {made:.1f} s, {size:,} bytes)")
    return results


# ---- without a browser


def check_scripts(tally, folder):
    """What page.py refuses, and the numbers of events that perfetto.py writes, counted by hand."""
    for name in ("cut.jsonl", "replay.script"):
        ended = subprocess.run([sys.executable, os.path.join(HERE, "page.py"), example(name)], capture_output=True, check=False)
        tally.same(f"page.py of {name}", (ended.returncode, ended.stdout), (2, b""))
    with open(example("replay.jsonl"), "rb") as file:
        ended = subprocess.run([sys.executable, os.path.join(HERE, "perfetto.py")], stdin=file, capture_output=True, check=True)
    events = json.loads(ended.stdout)["traceEvents"]
    counts = {kind: sum(event["ph"] == kind for event in events) for kind in "MXsf"}
    tally.same("perfetto.py of replay.jsonl", counts, {"M": 3, "X": 11, "s": 4, "f": 4})


def main():
    parser = argparse.ArgumentParser(description=__doc__, formatter_class=argparse.RawDescriptionHelpFormatter)
    parser.add_argument("--program")
    parser.add_argument("--pictures")
    words, tally, results = parser.parse_args(), Tally(), []
    with tempfile.TemporaryDirectory(prefix="page-") as folder:
        check_scripts(tally, folder)
        path = browser.installed()
        if path:
            page = browser.Browser(path)
            try:
                check_small(page, tally, words.program, folder, words.pictures)
                results = check_large(page, tally, words.program, folder, words.pictures)
                tally.same("exceptions", page.wrong, [])
            finally:
                page.close()
        else:
            results = [f"left out: the page itself, since there is none of {', '.join(browser.NAMES)} here (apt-get install chromium)"]
    print(f"page: {tally.checks} checks, {tally.wrong} wrong; {'; '.join(results)}")
    return int(tally.wrong > 0)


if __name__ == "__main__":
    sys.exit(main())
