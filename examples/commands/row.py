"""One row: what the built program is given, and how it ends and what it prints then. All that is expected was worked out by hand from
the definitions and the formats, but for whole pictures, which the plain model has drawn."""
import os
import subprocess
import tempfile
import typing


LONGEST = 120  # seconds for one answer


class Row(typing.NamedTuple):
    """`out` is what is printed on standard output. Where `seen` is given, it is what that makes of it, as of a picture the lines that
    show the verdict. `said` is what standard error begins with, where it is empty nothing stands there, and `left` how many bytes of
    the input are not read. `files` are the files that lie where the program runs, their texts by their names, and `made` those that
    have to lie there afterwards; None where none may."""

    name: str
    words: tuple
    text: bytes
    status: int
    out: object
    seen: typing.Callable = bytes.decode
    said: str | None = None
    left: int | None = None
    files: dict | None = None
    made: dict | None = None


def given(name, command, text, status, out, **more):
    """A row of a command with these words and a text."""
    return Row(name, tuple(command.split()), text if isinstance(text, bytes) else text.encode(), status, out, **more)


def status_of(line):
    """The status with which a verdict's line is answered."""
    return 0 if line.startswith("accept") else 1


def text_at(path):
    """The text of a file, and None where there is none."""
    if not os.path.exists(path):
        return None
    with open(path, encoding="utf-8") as file:
        return file.read()


def difference(program, row):
    """What differs from a row as the program answers it, and nothing where it is right."""
    with tempfile.TemporaryFile() as file, tempfile.TemporaryDirectory() as folder:
        file.write(row.text)
        file.seek(0)
        for name, text in (row.files or {}).items():
            with open(os.path.join(folder, name), "wb") as written:
                written.write(text if isinstance(text, bytes) else text.encode())
        try:
            ended = subprocess.run([os.path.abspath(program), *row.words], stdin=file, capture_output=True, timeout=LONGEST, cwd=folder)
        except subprocess.TimeoutExpired:
            return f"no answer after {LONGEST} seconds"
        left = len(row.text) - os.lseek(file.fileno(), 0, os.SEEK_CUR)
        made = {name: text_at(os.path.join(folder, name)) for name in row.made or {}}
    got = ended.returncode, row.seen(ended.stdout)
    if got != (row.status, row.out):
        return f"wanted {(row.status, row.out)!r}, the program gives {got!r}"
    said = ended.stderr.decode()
    if row.said is not None and not (said.startswith(row.said) if row.said else said == ""):
        return f"wanted {row.said!r} on standard error, the program says {said!r}"
    if row.left is not None and left != row.left:
        return f"{row.left} bytes have to be left, and {left} are"
    if made != (row.made or {}):
        return f"wanted the files {row.made!r}, the program makes {made!r}"
    return None
