"""Where the names and the numbers of refusals stand, for scripts/check.

A name stands once, as a variant of `Refusal`, and its number once, in `Refusal::number`. The prover sees to it that the
library for C gives these. Compared here is what it doesn't read: texts, the header, the packages, and the pages.
"""
import re

import headers
from sources import TOP

SOURCE, NAMING, OF_C = (f"crates/{it}.rt" for it in ("im_types/src/refusals", "im_c/src/naming", "im_c/src/plain"))
PYTHON, RUST = "packages/python/luntrebis/_words.py", "packages/rust/luntrebis/src/words.rs"
READ = ("*.md", "docs/*.md", "crates/*/src/**/*.rt")


def found(pattern, path):
    return re.findall(pattern, (TOP / path).read_text(), re.M | re.S)


def named(constant):
    """Returns the name for which a constant stands: NoCall for NO_CALL and for LT_NO_CALL."""
    return "".join(it.capitalize() for it in constant.removeprefix("LT_").split("_"))


def misnamed(known):
    """Yields the refusals whose text isn't their name, and the lists that don't have all of them."""
    variants = found(r'#\[error\("([^"]*)"\)\]\n    (\w+),', SOURCE)
    yield from (f"{SOURCE}: the text of {name} is {text}" for text, name in variants if text != name)
    of_c = re.findall(r"\w+", " ".join(found(r"return_name!\(\s+number: ([\w,\s]+)\);", NAMING)))
    for path, names in ((SOURCE, [name for _, name in variants]), (NAMING, of_c)):
        if names != list(known):
            yield f"{path}: it doesn't list the refusals in the order of their numbers"


def declared():
    """Yields what the header and the package in Python declare: a place, a name, its number."""
    header = headers.FOLDER / "luntrebis.h"
    listed = next(it.fields for it in headers.items(header) if it.name == "lt_refusal")
    yield from ((f"include/{header.name}", named(name), number) for name, number, _ in listed)
    yield from ((PYTHON, name, number) for name, number in found(r"^class (\w+)\(Refused\):.*?^    number = (\d+)", PYTHON))


def mentioned():
    """Yields each word behind a number in pages and sources, as the next cell of a table too: a place, the word, the
    number."""
    for path in sorted(path for it in READ for path in TOP.glob(it)):
        place = str(path.relative_to(TOP))
        yield from ((place, name, number) for number, name in found(r"(?<! to )\b(\d+)(?: \| |\s+)([A-Z]\w+)", place))


def faults():
    """Yields each place where a refusal has another name or number than its own."""
    known = {name: int(number) for name, number in found(r"Refusal::(\w+) => (\d+),", SOURCE)}
    of_c = {named(name): int(number) for name, number in found(r"const (NO_CALL|UNSERVED): u8 = (\d+);", OF_C)}
    right = {"Ok": 0, **known, **of_c}
    yield from misnamed(known)
    for place, name, number in declared():
        if int(number) != right.get(name):
            yield f"{place}: {name} is {number}, and {right.get(name, 'nothing')} in {SOURCE}"
    for place, name, number in mentioned():
        if int(number) != known.get(name, int(number)):
            yield f"{place}: {number} {name}, which is {known[name]} in {SOURCE}"
    for name, constant in found(r"^    (\w+) = sys::(LT_\w+),", RUST):
        if name != named(constant):
            yield f"{RUST}: {name} is {constant}"
