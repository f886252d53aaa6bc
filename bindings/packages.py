"""Tests of what is given away: a release is made, unpacked where no kit is on the path, and used by the commands of docs/LIBRARY.md; the
same of a copy of bindings/ alone. What is missing must be named."""
import glob
import os
import re
import shutil
import subprocess
import sys

from release import Failed, facts_of, release

HERE = os.path.dirname(os.path.abspath(__file__))
TOP = os.path.dirname(HERE)
SAID_BY_SNIPPETS = "process 2 is an orphan after 4 entries\n"
LINE = "orphan f=1 instant=4 delivery=1 crash=1 orphan=2\n"


def ran(words, **given):
    """What a command prints. It has to succeed."""
    ended = subprocess.run(words, capture_output=True, **given)
    if ended.returncode:
        said = (ended.stdout + ended.stderr).decode("utf-8", "replace")
        raise Failed(f"{' '.join(words)} ended with status {ended.returncode}\n{said[-4000:]}")
    return ended.stdout


def refused(words, *told, **given):
    """A command has to fail, and to tell these words on standard error."""
    ended = subprocess.run(words, capture_output=True, text=True, **given)
    lacking = [it for it in told if it not in ended.stderr]
    if not ended.returncode or lacking:
        raise Failed(f"{' '.join(words)} ended with status {ended.returncode} and does not tell {lacking}:\n{ended.stderr[-2000:]}")


def snippets(language, name="LIBRARY.md"):
    """The programs in that language of a page of docs/."""
    with open(os.path.join(TOP, "docs", name)) as page:
        return re.findall(rf"```{language}\n(.*?)```", page.read(), re.S)


def write(folder, name, text):
    path = os.path.join(folder, name)
    os.makedirs(os.path.dirname(path), exist_ok=True)
    with open(path, "w") as file:
        file.write(text)
    return path


def expect(what, said, wanted):
    if said != wanted:
        raise Failed(f"{what} prints {said!r}, and not {wanted!r}")


def without_kit():
    """The environment without the kit, and without what could name a library."""
    folders = [it for it in os.environ["PATH"].split(os.pathsep) if not os.path.exists(os.path.join(it, "rt"))]
    kept = {name: value for name, value in os.environ.items() if not name.startswith(("NIXU_", "PYTHONPATH"))}
    return {**kept, "PATH": os.pathsep.join(folders), "PYTHONDONTWRITEBYTECODE": "1"}


# ---- each way to it


def test_program(top, given):
    """The program answers, and its page and completions are there."""
    ended = subprocess.run([os.path.join(top, "bin", "causal_tool"), "audit", "--faults", "1", "examples/orphan.jsonl"], capture_output=True, **given)
    expect("the program", (ended.returncode, ended.stdout.decode()), (1, LINE))
    for file in ("share/man/man1/causal_tool.1", "share/bash-completion/completions/causal_tool", "CHANGELOG.md"):
        if not os.path.isfile(os.path.join(top, file)):
            raise Failed(f"the release has no {file}")


def test_c(top, folder, given):
    """The archive alone links; installed, pkg-config finds it, wherever DESTDIR has put it."""
    source, made = write(folder, "first.c", snippets("c")[0]), os.path.join(folder, "first")
    ran(["cc", "-I", "include", source, "lib/libnixu.a", "-o", made], **given)
    expect("the program in C", ran([made], **given).decode(), SAID_BY_SNIPPETS)
    place = {**given, "env": {**given["env"], "PREFIX": "/opt/nixu", "DESTDIR": os.path.join(folder, "place")}}
    installed = ran(["./install"], **place).decode().split()
    if not all(map(os.path.isfile, installed)) or len(installed) != 6:
        raise Failed(f"install says that it has written {installed}")
    if not shutil.which("pkg-config"):
        return
    found = {**given["env"], "PKG_CONFIG_PATH": os.path.join(folder, "place", "opt", "nixu", "lib", "pkgconfig")}
    flags = ran(["pkg-config", "--cflags", "--libs", "nixu"], env=found).decode().split()
    ran(["cc", source, *flags, "-o", made], **given)
    expect("the program by pkg-config", ran([made], **given).decode(), SAID_BY_SNIPPETS)


def test_python(package, folder, given):
    """pip installs a package without a network; from anywhere, the module finds its shared object."""
    to = os.path.join(folder, "site")
    ran([sys.executable, "-m", "pip", "install", "--quiet", "--no-index", "--target", to, package], **given)
    found = {**given, "env": {**given["env"], "PYTHONPATH": to}}
    for snippet in snippets("python"):
        expect("the program in Python", ran([sys.executable, "-c", snippet], **found).decode(), SAID_BY_SNIPPETS)
    no_library, load = os.path.join(to, "nixu", "libnixu.so"), [sys.executable, "-c", "import nixu"]
    wrong = {**given, "env": {**found["env"], "NIXU_SO": "/nowhere/libnixu.so"}}
    refused(load, "ImportError: there is no /nowhere/libnixu.so: NIXU_SO names no file", **wrong)
    wrong["env"]["NIXU_SO"] = write(folder, "no_library.so", "no library\n")
    refused(load, f"ImportError: {folder}/no_library.so can't be loaded", **wrong)
    os.remove(no_library)
    refused(load, f"ImportError: there is no {no_library}", "run bindings/build", **found)


def test_rust(package, folder, given):
    """A package elsewhere takes the crate by its path, and cargo builds it without a network."""
    app, made = os.path.join(folder, "app"), os.path.join(folder, "target")
    cargo = {**given, "cwd": app, "env": {**given["env"], "CARGO_TARGET_DIR": made}}
    write(app, "Cargo.toml", '[package]\nname = "app"\nversion = "0.0.0"\nedition = "2021"\n')
    write(app, "src/main.rs", snippets("rust")[0])
    ran(["cargo", "add", "--offline", "--path", package], **cargo)
    ran(["cargo", "build", "--offline"], **cargo)
    expect("the program in Rust", ran([os.path.join(made, "debug", "app")], **given).decode(), SAID_BY_SNIPPETS)
    wrong = {**cargo, "env": {**cargo["env"], "NIXU_LIB": "/nowhere"}}
    refused(["cargo", "build", "--offline"], "there is no libnixu.a in /nowhere", "run bindings/build", **wrong)


# ---- all


def test_versions(library):
    """The packages have the version that the program has, which the release has compared with the library's."""
    version = facts_of(library)["version"]
    for name in ("rust/Cargo.toml", "python/pyproject.toml"):
        with open(os.path.join(HERE, name)) as file:
            expect(name, re.search(r'^version = "(.+)"$', file.read(), re.M)[1], version)


def tested(tools, test, *given):
    """Runs a test where its tools are, and returns whether it did."""
    is_there = all(map(shutil.which, tools))
    if is_there:
        test(*given)
    return is_there


def test_release(library, program, folder):
    """Makes a release, unpacks it, and uses all that is in it."""
    archive = release(library, program, folder)
    ran(["sha256sum", "--check", "--quiet", f"{archive}.sha256"], cwd=folder)
    with open(archive, "rb") as file:
        first = file.read()
    with open(release(library, program, folder), "rb") as file:
        expect("whether a second release is the same", file.read() == first, True)
    ran(["tar", "xzf", archive], cwd=folder)
    top = archive.removesuffix(".tar.gz")
    given = {"cwd": top, "env": without_kit()}
    test_program(top, given)
    [wheel] = glob.glob(os.path.join(top, "python", "*.whl"))
    left_out = "" if tested(["cc"], test_c, top, os.path.join(folder, "c"), given) else "; there is no cc for C"
    left_out += "" if tested(["cargo", "cc"], test_rust, os.path.join(top, "rust"), folder, given) else "; there is no cargo and cc for Rust"
    test_python(wheel, folder, given)
    return f"{os.path.basename(archive)} is used with no kit on the path{left_out}", given


def test_packages(library, program, folder):
    """A release, and a copy of bindings/ with the library in it, as bindings/build leaves it there."""
    test_versions(library)
    os.mkdir(folder)
    told, given = test_release(library, program, folder)
    yield told
    copy = os.path.join(folder, "copy", "bindings")
    shutil.copytree(HERE, copy, ignore=shutil.ignore_patterns("out", "target", "__pycache__"))
    refused([os.path.join(copy, "install")], f"there is no {copy}/out/lib/libnixu.a: run bindings/build", **given)
    shutil.copytree(library, os.path.join(copy, "out"))
    test_python(os.path.join(copy, "python"), os.path.dirname(copy), given)
    tested(["cargo", "cc"], test_rust, os.path.join(copy, "rust"), os.path.dirname(copy), given)
    yield "so are the packages in a copy of bindings/"
