#!/usr/bin/env python3
"""Tries wrong changes of the code that the proofs must refuse, those of `trials/edits/CRATE/`. The full check tries the others, in
`crates/CRATE/must-fail/`, which turn what the headline promises; these tell whether the contracts of a crate are strong enough for those
that call it. Try them when the crate has changed. What the full check has proved of these sources is not proved again, but each crate is,
once for its edits. The status is 1 if one is not refused.

    trials/edits.py [CRATE ..]      of all crates if none is named
"""
import os
import shutil
import subprocess
import sys
import tempfile

ROOT = os.path.dirname(os.path.dirname(os.path.abspath(__file__)))
EDITS = os.path.join(ROOT, "trials", "edits")


def lay_out(room, crates):
    """Copies what a proof reads, with these edits alone."""
    for name in ("crates.txt", "HANDLES"):
        shutil.copy(os.path.join(ROOT, name), room)
    ignored = shutil.ignore_patterns("out", "must-fail")
    shutil.copytree(os.path.join(ROOT, "crates"), os.path.join(room, "crates"), ignore=ignored)
    for crate in crates:
        shutil.copytree(os.path.join(EDITS, crate), os.path.join(room, "crates", crate, "must-fail"))


def main():
    crates = sys.argv[1:] or sorted(os.listdir(EDITS))
    unknown = [crate for crate in crates if not os.path.isdir(os.path.join(EDITS, crate))]
    if unknown:
        sys.exit(f"trials/edits.py: {unknown[0]} has no edits here")
    with tempfile.TemporaryDirectory() as room:
        lay_out(room, crates)
        return subprocess.run(["rt", "ci", *crates], cwd=room).returncode


if __name__ == "__main__":
    sys.exit(main())
