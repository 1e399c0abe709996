"""Loads the library at its first use: that of LUNTREBIS_LIBRARY, the one beside this file, or that in out/ or
out/unproved/ of this checkout. What asks the program instead (`luntrebis.aio.serve`) needs none."""
from __future__ import annotations

import ctypes as c
import os
import pathlib
from typing import Any

from ._calls import CALLS

HERE = pathlib.Path(__file__).resolve()
OUT = [it / "out" for it in HERE.parents[3:4]]
NONE = (
    "there is no libluntrebis.so: `make try-library` builds one in a minute, with no proof, and `make library` a "
    "proved one; then install this package again. luntrebis.aio.serve needs none"
)


def path() -> str:
    """Returns where the library is."""
    below = [it / name / "libluntrebis.so.1" for it in OUT for name in ("", "unproved")]
    there = [it for it in [HERE.with_name("libluntrebis.so"), *below] if it.exists()]
    found = os.environ.get("LUNTREBIS_LIBRARY") or (str(there[0]) if there else "")
    if not found:
        raise OSError(NONE)
    return found


def load() -> c.CDLL:
    """Returns the library, with the types of its calls. A call that an older library lacks is left out."""
    library = c.CDLL(path())
    for name, (gives, *given) in CALLS.items():
        if hasattr(library, name):
            call = getattr(library, name)
            call.restype, call.argtypes = gives, given
    return library


class Library:
    """The library, which is loaded once a call of it is named."""

    _loaded: c.CDLL | None = None

    def __getattr__(self, name: str) -> Any:
        if self._loaded is None:
            self._loaded = load()
        self.__dict__[name] = call = getattr(self._loaded, name)
        return call


LIB = Library()


def version() -> str:
    """Returns what the library says of its own making, such as `0.1.0, commit 3f2a91c07d1b, all proved`."""
    said: bytes = LIB.lt_version_text()
    return said.decode()
