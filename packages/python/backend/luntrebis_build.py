"""A build backend (PEP 517) with no dependencies, so that `pip install .` works with no network.

It puts the shared library and the program `imem` into the wheel, or the one that there is. It takes those that
LUNTREBIS_LIBRARY and LUNTREBIS_IMEM name, those of this checkout's out/, the installed ones, or those in out/ that
weren't proved.
"""
import base64
import hashlib
import os
import re
import shutil
import subprocess
import sys
import sysconfig
import zipfile
from pathlib import Path

TOP = Path(__file__).resolve().parent.parent
OUT = TOP.parent.parent / "out"
NAME = "luntrebis"
PROJECT = (TOP / "pyproject.toml").read_text()
NONE = """there is neither the program nor the library to put into the package. In the checkout, with no proof:
`make try` builds the program, which luntrebis.aio.serve needs, in two or three minutes;
`make try-library` builds the library, which all else needs, in a minute or two.
(LUNTREBIS_IMEM and LUNTREBIS_LIBRARY name others.)"""


def said(key):
    return re.search(rf'^{key} = "(.*)"$', PROJECT, re.M)[1]


def first(places):
    return next((Path(it) for it in places if it and Path(it).is_file()), None)


def library():
    """Returns the shared library that goes into the wheel, or None."""
    unproved = OUT / "unproved" / "libluntrebis.so.1"
    return first([os.environ.get("LUNTREBIS_LIBRARY"), OUT / "libluntrebis.so.1", *installed(), unproved])


def program():
    """Returns the program that goes into the wheel, or None."""
    return first([os.environ.get("LUNTREBIS_IMEM"), OUT / "imem", shutil.which("imem"), OUT / "imem-unproved"])


def installed():
    words = ["pkg-config", "--variable=libdir", NAME]
    try:
        told = subprocess.run(words, capture_output=True, text=True)
    except OSError:
        return []
    return [f"{told.stdout.strip()}/libluntrebis.so.1"] if told.returncode == 0 else []


def made(path):
    """Returns what a program or a library says of its own making."""
    found = re.search(rb"commit .{12}, (?:all|not) proved", path.read_bytes()) if path else None
    return found[0].decode() if found else "of which nothing is told"


def about(held):
    """Returns a sentence about what the wheel has."""
    parts = [f"{what}: {path} ({made(path)})" if path else f"no {what}" for what, path in held.items()]
    return f"luntrebis {said('version')} with {'; '.join(parts)}"


def tag():
    return f"py3-none-{re.sub('[-.]', '_', sysconfig.get_platform())}"


def files():
    """Yields the path and the bytes of each file of the wheel, and whether it can be run."""
    info, held = f"{NAME}-{said('version')}.dist-info", {"library": library(), "program": program()}
    if not any(held.values()):
        raise SystemExit(NONE)
    print(about(held), file=sys.stderr)
    for path in sorted((TOP / NAME).iterdir()):
        if path.is_file() and path.suffix != ".so" and path.name != "imem":
            yield f"{NAME}/{path.name}", path.read_bytes(), False
    for what, name in (("library", "libluntrebis.so"), ("program", "imem")):
        if held[what]:
            yield f"{NAME}/{name}", held[what].read_bytes(), what == "program"
    yield f"{info}/METADATA", metadata(held), False
    wheel = {"Wheel-Version": "1.0", "Generator": "luntrebis_build", "Root-Is-Purelib": "false", "Tag": tag()}
    yield f"{info}/WHEEL", lines(wheel), False


def metadata(held):
    fields = {"Metadata-Version": "2.1", "Name": NAME, "Version": said("version"), "Summary": said("description")}
    more = {"Requires-Python": said("requires-python"), "License": said("license")}
    text = f"{(TOP / 'README.md').read_text()}\nThis package has the {', the '.join(it for it in held if held[it])}: "
    text += "; ".join(f"{what} {made(path)}" for what, path in held.items() if path)
    return lines({**fields, **more, "Description-Content-Type": "text/markdown"}) + f"\n{text}.\n".encode()


def lines(fields):
    return "".join(f"{name}: {value}\n" for name, value in fields.items()).encode()


def record(held):
    """Yields the list of the files with their sums."""
    for name, data, _ in held:
        digest = base64.urlsafe_b64encode(hashlib.sha256(data).digest()).rstrip(b"=").decode()
        yield f"{name},sha256={digest},{len(data)}\n"


def build_wheel(wheel_directory, config_settings=None, metadata_directory=None):
    name, held = f"{NAME}-{said('version')}-{tag()}.whl", list(files())
    listed = f"{NAME}-{said('version')}.dist-info/RECORD"
    held.append((listed, f"{''.join(record(held))}{listed},,\n".encode(), False))
    with zipfile.ZipFile(Path(wheel_directory) / name, "w", zipfile.ZIP_DEFLATED) as wheel:
        for path, data, runs in held:
            entry = zipfile.ZipInfo(path, (2026, 1, 1, 0, 0, 0))
            entry.external_attr, entry.compress_type = (0o100755 if runs else 0o100644) << 16, zipfile.ZIP_DEFLATED
            wheel.writestr(entry, data)
    return name


def build_sdist(sdist_directory, config_settings=None):
    raise NotImplementedError("the library is built in a checkout: install the package from there")
