"""Makes the wheel, for pip: the module and the shared object. It needs no package from anywhere, so it works without a network."""
import base64
import hashlib
import os
import re
import zipfile

HERE = os.path.dirname(os.path.abspath(__file__))
TAG = "py3-none-linux_x86_64"


def project():
    """The facts of pyproject.toml, whose values are strings; Python 3.9 has no reader of TOML."""
    with open(os.path.join(HERE, "pyproject.toml")) as file:
        return dict(re.findall(r'^([a-z-]+) = "(.*)"$', file.read().partition("[project]")[2], re.M))


def shared_object():
    """The bytes of libnixu.so, and whether it is proved."""
    path = os.environ.get("NIXU_SO") or os.path.join(HERE, "..", "out", "lib", "libnixu.so")
    if not os.path.isfile(path):
        raise SystemExit(f"there is no {os.path.normpath(path)}: run bindings/build, or set NIXU_SO to its path")
    with open(path, "rb") as file:
        data = file.read()
    return data, b"\0nixu_unproved\0" not in data


def files_of(version, library):
    """The files of the wheel, except the record of them."""
    facts, info = project(), f"nixu-{version}.dist-info"
    metadata = f"Metadata-Version: 2.1\nName: {facts['name']}\nVersion: {version}\nSummary: {facts['description']}\n"
    files = {"nixu/libnixu.so": library}
    for name in ("__init__.py", "_explanation.py", "_library.py", "_merge.py", "_node.py", "_open.py", "py.typed"):
        with open(os.path.join(HERE, "nixu", name), "rb") as file:
            files[f"nixu/{name}"] = file.read()
    files[f"{info}/METADATA"] = f"{metadata}Requires-Python: {facts['requires-python']}\n".encode()
    files[f"{info}/WHEEL"] = f"Wheel-Version: 1.0\nGenerator: nixu\nRoot-Is-Purelib: false\nTag: {TAG}\n".encode()
    return files


def record_of(files, name):
    """A line for each file, as wheels have it; that of the record itself has no sum."""
    sums = {it: base64.urlsafe_b64encode(hashlib.sha256(data).digest()).rstrip(b"=").decode() for it, data in files.items()}
    return "".join(f"{it},sha256={sums[it]},{len(data)}\n" for it, data in files.items()) + f"{name},,\n"


def build_wheel(wheel_directory, config_settings=None, metadata_directory=None):
    library, is_proved = shared_object()
    version = project()["version"] + ("" if is_proved else "+unproved")
    files, record = files_of(version, library), f"nixu-{version}.dist-info/RECORD"
    files[record] = record_of(files, record).encode()
    wheel = f"nixu-{version}-{TAG}.whl"
    with zipfile.ZipFile(os.path.join(wheel_directory, wheel), "w", zipfile.ZIP_DEFLATED) as file:
        for name, data in files.items():
            entry = zipfile.ZipInfo(name)  # of 1980, so that the same files give the same wheel
            entry.external_attr, entry.compress_type = 0o100644 << 16, zipfile.ZIP_DEFLATED
            file.writestr(entry, data)
    return wheel
