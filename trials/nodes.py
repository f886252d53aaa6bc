#!/usr/bin/env python3
"""Checks the protocol between real processes by a model: all interleavings of small settings and some random runs, in which each clause
of the invariant has to hold of each state and each step has to be legal; and for each rule of the protocol that, with the rule dropped,
the shortest run is found that leaves an orphan or two survivors of one slot. The model is trials/nodes/, in Rust; where there is no
`rustc` nothing is checked, and that is told. With --long there are larger settings too, for some twenty minutes.

    trials/nodes.py [--long] [--workers 2] [--traces FOLDER]
"""
import argparse
import os
import shutil
import subprocess
import sys
import tempfile

HERE = os.path.dirname(os.path.abspath(__file__))


def main():
    given = argparse.ArgumentParser(description=__doc__.split("\n\n")[0])
    given.add_argument("--long", action="store_true", help="larger settings too")
    given.add_argument("--workers", type=int, default=2, help="how many settings are searched at once")
    given.add_argument("--traces", help="write the run of each dropped rule into this folder, as a trace, and check nothing")
    given = given.parse_args()
    compiler = shutil.which("rustc")
    if not compiler:
        print("trials/nodes.py left out everything: there is no rustc")
        return 0
    with tempfile.TemporaryDirectory() as folder:
        program = os.path.join(folder, "nodes")
        source = os.path.join(HERE, "nodes", "main.rs")
        subprocess.run([compiler, "-O", "--edition", "2021", "-C", "overflow-checks=on", "-o", program, source], check=True)
        if given.traces:
            return subprocess.run([program, "traces", given.traces]).returncode
        return subprocess.run([program, "check", *(["long"] if given.long else []), f"threads={given.workers}"]).returncode


if __name__ == "__main__":
    sys.exit(main())
