#!/usr/bin/env python3
"""Writes docs/DEFINITIONS.md: for each crate of crates.txt, in that order, each file of definitions that a public contract cites, with
the comment line at its head, up to a colon or semicolon if five words are before it.

    docs/definitions.py             writes the page
    docs/definitions.py --check     exits with 1 if the page differs, and changes nothing

A file below crates/X/specs is cited if a definition of it is named by a clause of a function that is `pub`, or of a public trait's, or by a
ghost item of a trait or an implementation. Files below specs/Inside, which no clause of a public call may cite, are left out. A crate whose
README names each of its cited files is linked instead.
"""
import argparse
import glob
import os
import re
import sys

HERE = os.path.dirname(os.path.abspath(__file__))
TOP = os.path.dirname(HERE)
PAGE = os.path.join(HERE, "DEFINITIONS.md")
HEAD = """\
# Definitions

The files of definitions that public contracts cite, from the base up. `docs/definitions.py` makes this page from their first lines.

A state of a run is its **past**: the entries so far, newest first. Positions count from the oldest: the newest entry of `e ∷ past` has the
position `length past`.

Sources: Lamport 1978 (CACM 21(7)) for happened-before; Alvisi and Marzullo 1998 (IEEE TSE 24(2)) for determinants and causal logging;
Elnozahy, Alvisi, Wang and Johnson 2002 (ACM Computing Surveys 34(3)) for `Depend`, `Log`, `Stable` and orphans. The rest is this project's.
"""
ELSEWHERE = "The READMEs of these crates name theirs: "
IMPORT = re.compile(r"\buse Rattle\.(\w+)\.specs\.([\w.]+?)(?:\.\{([^}]*)\}| as (\w+))", re.S)
PUBLIC = re.compile(r"\s*pub (?:const |unsafe )*(?:extern \"C\" )?fn \w")
GHOST = re.compile(r"^    ghost (?!use\b)\w+\s*[:=]\s*\{.*?\};", re.S | re.M)
NAME = re.compile(r"[^\W\d]\w*")


def text_of(*parts):
    with open(os.path.join(*parts), encoding="utf-8") as file:
        return file.read()


def crates():
    lines = (line.split("#")[0].strip() for line in text_of(TOP, "crates.txt").splitlines())
    return [line.split(":")[0].split()[0] for line in lines if line]


def imports(source):
    """For each name that a source imports from definitions, the file that defines it."""
    found = {}
    for crate, module, names, alias in IMPORT.findall(source):
        path = os.path.join("crates", crate, "specs", *module.split(".")) + ".antt"
        for name in (names or alias).split(","):
            for word in NAME.findall(name.split(" as ")[-1]):
                found[word] = path
    return found


def public_clauses(source):
    """The heads of all functions that are public, or in a public trait: from `fn` to the body."""
    lines, in_trait = source.splitlines(), False
    for start, line in enumerate(lines):
        if re.match(r"pub trait\b", line):
            in_trait = True
        elif line.startswith("}"):
            in_trait = False
        if not (PUBLIC.match(line) or in_trait and re.match(r"\s*fn \w", line)):
            continue
        head = []
        for more in lines[start:]:
            if more.strip() == "{" or (head and re.match(r"\s*(pub |#\[|///|$)", more)):
                break
            head.append(more)
        yield "\n".join(head)


def cited():
    """The files of definitions that public contracts cite."""
    files = set()
    for path in glob.glob(os.path.join(TOP, "crates", "*", "src", "**", "*.rt"), recursive=True):
        source = text_of(path)
        known = imports(source)
        for head in (*public_clauses(source), *GHOST.findall(source)):
            files |= {known[word] for word in NAME.findall(head) if word in known}
    return files


def row(path):
    """The row of a file: its link, and the comment at its head."""
    first = text_of(TOP, path).split("\n", 1)[0]
    if not first.startswith("-- "):
        raise SystemExit(f"{path}: the first line is not a comment")
    name = os.path.splitext(os.path.basename(path))[0]
    sentence = first[3:].strip()
    short = re.split("[:;] ", sentence)[0].rstrip(".")
    return f"- [{name}](../{path}): {short if len(short.split()) > 4 else sentence.rstrip('.')}"


def is_named(path, readme):
    """Whether a README names the file, as `Name.antt`."""
    return re.search(rf"\b{re.escape(os.path.basename(path))}", readme)


def page():
    files, parts, elsewhere = cited(), [], []
    for crate in crates():
        paths = sorted(os.path.relpath(path, TOP) for path in glob.glob(os.path.join(TOP, "crates", crate, "specs", "*.antt")))
        paths = [path for path in paths if path in files]
        readme = os.path.join("crates", crate, "README.md")
        if paths and os.path.exists(os.path.join(TOP, readme)) and all(is_named(path, text_of(TOP, readme)) for path in paths):
            elsewhere.append(f"[{crate}](../{readme})")
        elif paths:
            parts.append(f"## {crate}\n\n" + "\n".join(map(row, paths)) + "\n")
    return "\n".join([HEAD, ELSEWHERE + ",\n".join(elsewhere) + ".\n", *parts])


def main():
    given = argparse.ArgumentParser(description=__doc__.split("\n\n")[0])
    given.add_argument("--check", action="store_true", help="change nothing; exit with 1 if the page differs")
    made = page()
    if given.parse_args().check:
        if not os.path.exists(PAGE) or text_of(PAGE) != made:
            print("docs/DEFINITIONS.md is not what docs/definitions.py makes: run it")
            sys.exit(1)
        return
    with open(PAGE, "w", encoding="utf-8") as file:
        file.write(made)


if __name__ == "__main__":
    main()
