"""What the headers of include/ declare, for the scripts beside this file: constants, records, calls, and their
comments.

The headers are plain C: a declaration ends with a semicolon, and a comment comes before or after what it is about.
"""
import re
from dataclasses import dataclass, field

from sources import TOP

FOLDER = TOP / "include"
TOKEN = re.compile(r"/\*.*?\*/|^[ \t]*#(?:[^\n]*\\\n)*[^\n]*$|extern \"C\" \{|[{};]|[^{};/#\n]+|.|\n", re.M | re.S)
CALL = re.compile(r"^(?P<gives>[\w ]+?[ *]+)(?P<name>lt[a-z]?_\w+)\s*\((?P<given>.*)\)$", re.S)


@dataclass
class Item:
    """A declaration. `fields` has (name, value, comment) for an enumeration, (type, name, comment) for a record, and
    the parameters of a call in the same form as a record."""

    kind: str  # enum, struct, opaque (a struct whose fields nobody sees), call, macro, text
    name: str
    comment: str
    text: str
    gives: str = ""
    fields: list = field(default_factory=list)


def plain(comment):
    """Returns a comment's words without its stars. Paragraphs stay."""
    lines = [re.sub(r"^\s*\* ?", "", it).rstrip() for it in comment.strip()[2:-2].strip().splitlines()]
    return "\n".join(lines).strip()


def paths():
    return sorted(FOLDER.glob("*.h"))


def pieces(text):
    """Yields each declaration with its comment, and each comment that has no declaration."""
    comment, words, depth = "", "", 0
    for token in TOKEN.findall(text):
        if token.startswith("/*"):
            if depth:
                words += token
            elif words.strip():
                words += " "
            else:
                if comment:
                    yield comment, ""
                comment = token
        elif token.lstrip().startswith("#") and not depth:
            if found := re.match(r"\s*#define (LT[A-Z]?_[A-Z_0-9]+) +(\S.*)", token):
                yield comment, f"#define {found[1]} {found[2].split('/*')[0].strip()}"
                comment = ""
        elif token == 'extern "C" {' or (token == "}" and not depth):
            continue
        elif token == ";" and not depth:
            yield comment, " ".join(words.split("\n")).strip() if "{" not in words else words.strip()
            comment, words = "", ""
        else:
            depth += (token == "{") - (token == "}")
            words += token
    if comment:
        yield comment, ""


def members(body, ends):
    """Yields the members of a record or an enumeration: (text, comment)."""
    body = re.sub(rf"({ends})[ \t]*(/\*.*?\*/)", r"\2\1", body, flags=re.S)
    for part in re.split(ends + r"(?![^/]*\*/)", body):
        comment = " ".join(plain(it) for it in re.findall(r"/\*.*?\*/", part, re.S))
        if word := re.sub(r"/\*.*?\*/", " ", part, flags=re.S).strip():
            yield " ".join(word.split()), " ".join(comment.split())


def typed(text):
    """Splits a declaration such as `const uint8_t *bytes` into a type and a name."""
    found = re.match(r"^(.*?)(\w+)$", text)
    return " ".join(found[1].replace("*", " * ").split()), found[2]


def values(body):
    """Yields the constants of an enumeration. A constant without a value has the next number."""
    last = -1
    for word, said in members(body, ","):
        name, _, value = (it.strip() for it in word.partition("="))
        last = int(value, 0) if value else last + 1
        yield name, str(last), said


def records(body):
    """Yields the fields of a record. One type may stand before several names."""
    for word, said in members(body, ";"):
        first, *others = (it.strip() for it in word.split(","))
        kind, name = typed(first)
        for one in (name, *others):
            yield kind, one, said


def given(text):
    """Returns the parameters of a call."""
    return [(*typed(" ".join(it.split())), "") for it in text.split(",")] if text.strip() not in ("", "void") else []


def item(comment, text):
    about = plain(comment) if comment else ""
    if not text:
        return Item("text", "", about, "")
    if found := re.match(r"#define (\w+) (.*)", text):
        return Item("macro", found[1], about, text, found[2])
    if found := re.match(r"(enum|struct) (\w+) \{(.*)\}$", text, re.S):
        fields = list(values(found[3]) if found[1] == "enum" else records(found[3]))
        return Item(found[1], found[2], about, text, fields=fields)
    if found := re.match(r"struct (\w+)$", text):
        return Item("opaque", found[1], about, text)
    if (found := CALL.match(text)) and not text.startswith("typedef"):
        gives = " ".join(found["gives"].split())
        return Item("call", found["name"], about, " ".join(text.split()), gives, given(found["given"]))
    return Item("text", "", about, text)


def items(path):
    return [item(*it) for it in pieces(path.read_text())]


def calls():
    """Returns the names of all calls, by header."""
    return {path.name: [it.name for it in items(path) if it.kind == "call"] for path in paths()}
