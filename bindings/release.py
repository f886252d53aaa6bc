"""A release: the archive that bindings/dist makes of a built library and a built program."""
import gzip
import hashlib
import os
import re
import shutil
import subprocess
import sys
import tarfile
import tempfile

HERE = os.path.dirname(os.path.abspath(__file__))
TOP = os.path.dirname(HERE)
PAGES = ["LIBRARY.md", "NODE.md", "WIRE.md", "FORMAT.md", "RECORDING.md", "MERGING.md", "SCRIPT.md"]
OF_RUST = ["Cargo.toml", "Cargo.lock", "build.rs", "src"]


class Failed(Exception):
    pass


def facts_of(library):
    """What bindings/build says of the library."""
    with open(os.path.join(library, "built")) as file:
        return dict(line.rstrip("\n").split(" ", 1) for line in file)


def put(source, to):
    os.makedirs(os.path.dirname(to), exist_ok=True)
    (shutil.copytree if os.path.isdir(source) else shutil.copy)(source, to)


def put_page(name, to, shipped):
    """Writes a page in which only links to what is shipped with it are left."""
    with open(os.path.join(TOP, name)) as file:
        text = file.read()
    kept = re.sub(r"(?<!!)\[([^]]*)\]\((?!https?:|#)([^)#]*)[^)]*\)", lambda link: link[0] if link[2] in shipped else link[1], text)
    os.makedirs(to, exist_ok=True)
    with open(os.path.join(to, os.path.basename(name)), "w") as file:
        file.write(kept)


def put_wheel(library, to):
    """Makes the wheel by pip's own way to it, which needs no network."""
    sys.path.insert(0, os.path.join(HERE, "python"))
    import backend

    os.makedirs(to)
    os.environ["NIXU_SO"] = os.path.join(library, "lib", "libnixu.so")
    try:
        backend.build_wheel(to)
    finally:
        del os.environ["NIXU_SO"]


def lay_out(library, program, to):
    """The folder that the archive holds."""
    for part in ("built", "include", "lib"):
        put(os.path.join(library, part), os.path.join(to, part))
    put(program, os.path.join(to, "bin", "causal_tool"))
    put(os.path.join(HERE, "install"), os.path.join(to, "install"))
    put(os.path.join(TOP, "docs", "shell", "causal_tool.1"), os.path.join(to, "share", "man", "man1", "causal_tool.1"))
    completions = os.path.join(to, "share", "bash-completion", "completions", "causal_tool")
    put(os.path.join(TOP, "docs", "shell", "causal_tool.bash"), completions)
    for part in OF_RUST:
        put(os.path.join(HERE, "rust", part), os.path.join(to, "rust", part))
    put_wheel(library, os.path.join(to, "python"))
    for name in sorted(os.listdir(os.path.join(TOP, "examples"))):
        if name.endswith(".jsonl"):
            put(os.path.join(TOP, "examples", name), os.path.join(to, "examples", name))
    for name in PAGES:
        put_page(os.path.join("docs", name), os.path.join(to, "docs"), PAGES)
    put_page("CHANGELOG.md", to, [f"docs/{name}" for name in PAGES])
    if os.path.isfile(os.path.join(TOP, "LICENSE")):
        put(os.path.join(TOP, "LICENSE"), os.path.join(to, "LICENSE"))


def commit_time():
    told = subprocess.run(["git", "-C", TOP, "log", "-1", "--format=%ct"], capture_output=True, text=True)
    return int(told.stdout) if told.returncode == 0 and told.stdout.strip() else 0


def pack(folder, archive):
    """Packs a folder so that the same files of the same commit give the same bytes."""
    time = commit_time()

    def plain(entry):
        entry.uid = entry.gid = 0
        entry.uname = entry.gname = ""
        entry.mode, entry.mtime = 0o755 if entry.isdir() or entry.mode & 0o100 else 0o644, time
        return entry

    with open(archive, "wb") as raw, gzip.GzipFile("", "wb", mtime=0, fileobj=raw) as packed:
        with tarfile.open(fileobj=packed, mode="w", format=tarfile.PAX_FORMAT) as file:
            file.add(folder, os.path.basename(folder), filter=plain)


def release(library, program, to):
    """Writes the archive and its checksum into a folder, and returns the archive's path."""
    facts = facts_of(library)
    ended = subprocess.run([program, "--version"], capture_output=True, text=True)
    if facts["version"] not in ended.stdout.split():
        raise Failed(f"{program} --version prints {ended.stdout!r}, and the library has the version {facts['version']}")
    name = "-".join(["nixubazela", facts["version"], facts["commit"], "x86_64-linux", *(["unproved"] if facts["proved"] != "yes" else [])])
    archive = os.path.join(os.path.abspath(to), f"{name}.tar.gz")
    with tempfile.TemporaryDirectory(prefix="nixu-") as room:
        lay_out(library, program, os.path.join(room, name))
        pack(os.path.join(room, name), archive)
    with open(archive, "rb") as file:
        checksum = hashlib.sha256(file.read()).hexdigest()
    with open(f"{archive}.sha256", "w") as file:
        file.write(f"{checksum}  {os.path.basename(archive)}\n")
    return archive
