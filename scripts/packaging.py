"""What the packages are made of, for the scripts beside this file: the version, and the library in its two forms."""
import email.utils
import io
import re
import subprocess
import tempfile
import zipfile
from pathlib import Path

import headers
from sources import TOP

OUT = TOP / "out"
PACKAGES = TOP / "packages"
VERSION = (TOP / "VERSION").read_text().strip()
SERIES = "1"  # Of the calls: it changes if a program that was built before would not run as before.
SONAME = f"libluntrebis.so.{SERIES}"
ARCHIVE, SHARED, IMEM = OUT / "libluntrebis.a", OUT / SONAME, OUT / "imem"
OWN = OUT / "libim_c.a"  # The library without its part in C.
UNPROVED = OUT / "unproved"  # The library with no proof, by the same names.
UNPROVED_IMEM = OUT / "imem-unproved"
PROVED = OUT / "libluntrebis.proved"  # Of which commit the library is, and what the prover said of it.
FLAGS = ["-std=c11", "-O2", "-fPIC", "-Wall", "-Wextra", "-Werror"]
SAFE = "-Wl,-z,defs,-z,relro,-z,now,-z,noexecstack"


def date():
    """Returns the day of the version, as the changelog of the Debian packages has it."""
    found = re.search(r"^ -- .*>  (.*)$", (PACKAGES / "debian" / "changelog").read_text(), re.M)
    return email.utils.parsedate_to_datetime(found[1]).date().isoformat()


def names():
    """Returns each call that a program may make."""
    return sorted(name for calls in headers.calls().values() for name in calls)


def packed(script, files):
    """Returns a script of this folder and the files that it needs as one file, which Python runs."""
    held = io.BytesIO()
    with zipfile.ZipFile(held, "w", zipfile.ZIP_DEFLATED) as to:
        for name in [script, *files]:
            told = zipfile.ZipInfo("__main__.py" if name == script else name)  # Of the year 1980, whenever it is made.
            told.compress_type = zipfile.ZIP_DEFLATED
            to.writestr(told, (TOP / "scripts" / name).read_bytes())
    return b"#!/usr/bin/env python3\n" + held.getvalue()


def take_apart(archive, folder):
    """Unpacks the objects of an archive."""
    folder.mkdir()
    subprocess.run(["ar", "x", archive], cwd=folder, check=True)
    return sorted(folder.iterdir())


def compile_sources(folder, proved):
    """Compiles the C files beside the headers, and yields their objects."""
    made_of = f'-DLT_MADE="{words_of_making(proved)}"'
    for source in sorted(headers.FOLDER.glob("*.c")):
        made = folder / f"{source.stem}.c.o"
        subprocess.run(["cc", *FLAGS, made_of, f"-I{headers.FOLDER}", "-c", source, "-o", made], check=True)
        yield made


def put_together(archives, archive=ARCHIVE, shared=SHARED, proved=True):
    """The library of these archives and of the C files of include/, as an archive of one object and as a shared one.

    Both have the headers' calls alone: two libraries of this toolchain in one program would else meet in the others.
    """
    archive.parent.mkdir(parents=True, exist_ok=True)
    with tempfile.TemporaryDirectory() as named:
        room = Path(named)
        objects = [it for at, part in enumerate(archives) for it in take_apart(part, room / str(at))]
        objects += compile_sources(room, proved)
        subprocess.run(["ld", "-r", "-o", room / "all.o", *objects], check=True)
        (room / "names").write_text("".join(f"{it}\n" for it in names()))
        one = room / "luntrebis.o"
        subprocess.run(["objcopy", f"--keep-global-symbols={room}/names", room / "all.o", one], check=True)
        archive.unlink(missing_ok=True)
        subprocess.run(["ar", "rcs", archive, one], check=True)
        link(one, room, shared)


def link(one, room, shared):
    listed = "".join(f"{it}; " for it in names())
    (room / "exports").write_text(f"LUNTREBIS_{SERIES} {{ global: {listed}local: *; }};\n")
    words = [f"-Wl,-soname,{SONAME}", f"-Wl,--version-script={room}/exports", SAFE]
    shared.unlink(missing_ok=True)
    subprocess.run(["cc", "-shared", "-pthread", "-o", shared, one, *words], check=True)
    shared.chmod(0o644)


def filled(name, **values):
    """Returns a template of packages/install, with @NAME@ replaced."""
    text = (PACKAGES / "install" / name).read_text()
    return re.sub(r"@(\w+)@", lambda it: values[it[1]], text)


def versions():
    """Yields each place that has the version, and what it says."""
    looks = {
        "crates/im_words/src/words.rt": r'^const VERSION: &str = "([\d.]+),',
        "packages/python/pyproject.toml": r'^version = "(.*)"',
        "packages/rust/luntrebis-sys/Cargo.toml": r'^version = "(.*)"',
        "packages/rust/luntrebis/Cargo.toml": r'^version = "(.*)"',
        "packages/debian/changelog": r"^luntrebis \(([\d.]+)-",
        "server/src/imem_server.app.src": r'{vsn, "(.*)"}',
        "CHANGELOG.md": r"^## ([\d.]+)",
    }
    for file, pattern in looks.items():
        found = re.search(pattern, (TOP / file).read_text(), re.M)
        yield file, found[1] if found else None
    for path in headers.paths():
        if found := re.search(r'^#define LT_VERSION "(.*)"', path.read_text(), re.M):
            yield f"include/{path.name}", found[1]


def faults():
    """Yields what doesn't agree: versions, bindings and headers, and a call whose name another library may have."""
    for file, version in versions():
        if version != VERSION:
            yield f"{file}: the version is {version}, and {VERSION} in VERSION"
    for name in names():
        if not name.startswith(("lt_", "lts_", "ltf_")):
            yield f"include/: {name} doesn't begin as the library's calls do"


# ---- What a program says of its own making

MARK = b"commit ------------, not proved"


def commit():
    """Returns the commit of the checkout in twelve letters. The last one is + if its crates have changed since."""
    try:
        words = ["git", "-C", TOP, "rev-parse", "HEAD"]
        told = subprocess.run(words, capture_output=True, text=True, check=True).stdout.strip()
        changed = ["git", "-C", TOP, "status", "--porcelain", "--", "crates", "crates.txt", "HANDLES", "include"]
        has_changed = subprocess.run(changed, capture_output=True, text=True, check=True).stdout.strip()
    except (OSError, subprocess.CalledProcessError):
        return "no checkout "
    return f"{told[:11]}+" if has_changed else told[:12]


def words_of_making(proved):
    return f"commit {commit()}, {'all' if proved else 'not'} proved"


def unproved(*made):
    """Returns those of these programs and libraries that say of themselves that they aren't proved."""
    return [it for it in made if it.exists() and re.search(rb"commit .{12}, not proved", it.read_bytes())]


def stamp(program, proved):
    """Writes over the words that the program prints at `--version` of which commit it is, and whether all was proved.

    They are letters of a text that no contract reads, as many as before. A program without such letters is left as it
    is, and says nothing of its commit.
    """
    data = program.read_bytes()
    words = words_of_making(proved).encode()
    if MARK not in data or len(words) != len(MARK):
        return
    made = program.with_name(f"{program.name}.new")
    made.write_bytes(data.replace(MARK, words))
    made.chmod(0o755)
    made.replace(program)
