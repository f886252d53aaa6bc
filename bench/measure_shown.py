#!/usr/bin/env python3
"""Measures what `explain` and `draw` cost beside `audit` on the same text. `measure.py` puts what is told here into the results;
alone it prints it, of all texts or of those of some shapes.

    bench/measure_shown.py [SHAPE ..] [--program PATH] [--seed 1]
"""
import argparse
import os
import sys

from texts import make_inputs, path_of
from measure_runtime import Part
from timed import HERE, LIMIT, TURNS, measure_in_turn, ratio_in_turn, target_line

PROGRAM = os.path.join(os.path.dirname(HERE), "crates", "causal_tool", "out", "causal_tool")
AIM = 2.0  # `explain` or `draw` / `audit`
COMMANDS = ("audit", "explain", "draw")
# shape, variant and f, and the f of the audit where it is another, by what is told of them
TEXTS = {
    "accepted": [
        ("lists", "safe", "1"),
        ("gossip", "safe", "1"),
        ("restarts", "safe", "1"),
        ("late", "hostile", "1"),
        ("replayed", "hostile", "1"),
        ("released", "hostile", "1"),
        ("shared", "hostile", "1"),
        ("colliding", "hostile", "1"),
        ("down", "hostile", "1"),
        *((shape, "safe", "2") for shape in ("lists", "long", "gossip", "ring", "star", "chain", "restarts")),
        *((shape, "safe", "n") for shape in ("lists", "gossip", "star", "restarts")),
        *((shape, "safe", "8", 1) for shape in ("lists", "gossip", "star", "restarts")),
        *((shape, "safe", "n", 1) for shape in ("gossip", "star", "restarts")),
    ],
    "an orphan at an early instant": [("orphaned", "hostile", "1")],
    "an orphan at the last instant": [
        ("lists", "breach", "1"),
        ("star", "breach", "1"),
        ("restarts", "breach", "1"),
        ("forgotten", "hostile", "1"),
    ],
    "too many down at an early instant": [("early", "hostile", "0"), ("down", "hostile", "0")],
    "too many down at a late instant": [("restarts", "safe", "0"), ("late", "hostile", "0")],
}
TEXT = (
    f"What `explain` and `draw` take beside `audit` by one worker on the same text, each of {TURNS} runs in turn with the others: "
    "processor seconds, the least of the runs; the ratios are the medians of the turns' own. *lines* are those that `explain` "
    "prints below the verdict, and *kB* is the length of the picture. *made for* is the number of faults for which the run was "
    "made, *f* that of the audit. The texts are those of the audit."
)
NAMES = ["trace", "made for", "f", "told", "entries", "listed", "MB", "lines", "kB", "audit s", "explain s", "draw s", "audit peak MB",
         "explain peak MB", "draw peak MB", "explain / audit", "draw / audit"]


def asked_of(text, about):
    """The f of the audit, the line of its verdict and its status. A run that is safe for f is so for fewer faults too, as long as
    no more processes are down; that holds of those that are asked so here."""
    if len(text) == 3:
        return about["f"], about["answer"], about["status"]
    return text[3], about["answer"].replace(f"f={about['f']} ", f"f={text[3]} "), about["status"]


def wrong_answers(answer, status, runs):
    """What is not as it has to be: each command's status, and the line of the verdict, or that it is a picture."""
    audit, explain, draw = (run.line.split("\n") for run in runs)
    said = [(command, run.status, status) for command, run in zip(COMMANDS, runs)]
    said += [("audit", audit, [answer]), ("explain", explain[0], answer),
             ("draw", (draw[0][:5], draw[-1]), ("<svg ", "</svg>"))]
    return [f"{command}: {found!r} for {wanted!r}" for command, found, wanted in said if found != wanted]


def name_of(text):
    """A text's name: shape and variant, the f that it was made for, and that of the audit where it is another."""
    return " ".join(map(str, text))


def cells_of(text, told, about, runs):
    audit, explain, draw = runs
    return (
        " ".join(text[:2]), text[2], str(asked_of(text, about)[0]), told, f"{about['entries']:,}", f"{about['listed']:,}",
        f"{about['bytes'] / 1e6:.1f}", f"{explain.line.count(chr(10)):,}", f"{len(draw.line) / 1e3:.1f}",
        *(f"{run.least_processor():.3f}" for run in runs), *(f"{run.peak / 1e3:.1f}" for run in runs),
        f"{ratio_in_turn(explain, audit):.2f}", f"{ratio_in_turn(draw, audit):.2f}",
    )


def measure_text(part, program, text, told, about):
    """The runs of the three commands on one text; none where one of them was stopped."""
    f, answer, status = asked_of(text, about)
    commands = [([program, command, "--faults", str(f)], path_of(text[:3])) for command in COMMANDS]
    runs = measure_in_turn(commands)
    over = [command for command, run in zip(COMMANDS, runs) if run.over]
    name = name_of(text)
    if over:
        part.wrong.append(f"{name}: {over[0]} takes over {LIMIT:.0f} s")
        return None
    part.wrong += [f"{name}: {wrong}" for wrong in wrong_answers(answer, status, runs)]
    part.row(*cells_of(text, told, about, runs))
    return runs


def targets(told, found):
    """What is asked of the texts of which this is told: the ratios of the one that is worst."""
    lines = []
    for place, command in ((1, "explain"), (2, "draw")):
        value, text = max((ratio_in_turn(runs[place], runs[0]), text) for text, runs in found)
        lines.append(target_line(f"`{command}` / `audit`, {told}, at worst: `{name_of(text)}`", value, AIM))
    return lines


def measure_shown(given, before, shapes=()):
    """The section, and what was answered wrongly, of all texts or of those of these shapes. `given` has the program and the
    seed; `before` is the section that is compared with."""
    chosen = {told: [text for text in texts if not shapes or text[0] in shapes] for told, texts in TEXTS.items()}
    abouts = make_inputs([text[:3] for texts in chosen.values() for text in texts], given.seed)
    part = Part(TEXT, NAMES, 3, "explain s")
    for told, texts in chosen.items():
        runs = [(text, measure_text(part, given.program, text, told, abouts[text[:3]])) for text in texts]
        found = [(text, each) for text, each in runs if each]
        if found:
            part.targets += targets(told, found)
    text = "\n".join(["| Target | At most | Measured | Met |", "|---|---|---|---|", *part.targets]) + "\n\n" + part.told(before)
    if part.wrong:
        text += "\n\nWrong answers:\n\n" + "\n".join(f"- {line}" for line in part.wrong)
    return text, part.wrong


def main():
    words = argparse.ArgumentParser(description=__doc__.split("\n")[0])
    words.add_argument("shapes", nargs="*", metavar="SHAPE", choices=sorted({text[0] for texts in TEXTS.values() for text in texts}))
    words.add_argument("--program", default=PROGRAM)
    words.add_argument("--seed", type=int, default=1)
    given = words.parse_args()
    text, wrong = measure_shown(given, "", given.shapes)
    print(text)
    return 1 if wrong else 0


if __name__ == "__main__":
    sys.exit(main())
