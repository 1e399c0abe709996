"""Checks the pages of this repository for scripts/check: their width, their size, their sentences, no dates, no words that
went."""
import re

from sources import TOP

WIDEST, LARGEST, LONGEST = 120, 40, 45  # columns of a line, KB of a page, words of a sentence
USERS = ("README.md", *(f"docs/{it}.md" for it in "TUTORIAL SCRIPTS SERVE SERVER EMBEDDING DATAFLOW CLUSTER MIGRATION DETERMINACY".split()))
SHORT = ("README.md", *(f"docs/{it}.md" for it in "TUTORIAL SCRIPTS SERVE SERVER EMBEDDING DATAFLOW".split()))
LARGE = {"docs/DECISIONS.md": 70, "docs/GATE.md": 3}
# Words that went, each with what stands in its place: of pages, where backquotes may have them; and parts of names in crates.
GONE = {
    "so many": "this many",
    "(?:is|was|what is) asked of": "gets, is sent",
    "of which": "with, whose",
    "tells?|told": "prints, answers, reports",
    "calm": "synced",
    "spell(?:s|ed|ing)?": "encode",
    "ledgers?|books?": "list, counts",
    "walks?": "traverse, run, random test",
}
GONE_NAMES = {"paper": "printer", "sieve": "filter", "relay": "writer", "slate": "line", "silenced": "ended"}
OLD = ("docs/DECISIONS.md", "docs/DEFINITIONS.md")  # These still have them: choices that were made, sentences of specs/.


def paragraphs(text):
    """Yields the paragraphs, list items and table cells of a page, each in one line. Code is left out."""
    text = re.sub(r"^```.*?^```", "", text, flags=re.M | re.S)
    for block in re.split(r"\n\s*\n|\n(?=[ ]*(?:[-*]|\d+\.) )|\n(?=\|)", text):
        if block.startswith("|"):
            yield from (cell.strip() for cell in re.split(r"(?<!\\)\|", block))
        elif not block.startswith(("    ", "#")):
            yield " ".join(block.split())


def sentences(text):
    for paragraph in paragraphs(text):
        yield from re.split(r"(?<=[.!?])[)\"*]*\s+(?=[A-Z`*\[(])", paragraph)


def gone(text):
    """Yields words of a text that went, each with what to say in its place."""
    for paragraph in paragraphs(text):
        for word, instead in GONE.items():
            yield from (f"{found[0]!r} is no longer used: {instead}" for found in re.finditer(rf"\b(?:{word})\b", re.sub("`[^`]*`", "``", paragraph)))


def gone_names(names):
    """Yields those of some names that have a part that went."""
    for name in sorted(names):
        for part in {it.lower() for it in re.findall("[A-Z]?[a-z]+|[A-Z]+", name)} & set(GONE_NAMES):
            yield f"`{name}` is no longer used: {GONE_NAMES[part]}"


def faults():
    for path in sorted(it for it in TOP.glob("**/*.md") if it.parts[len(TOP.parts)] not in ("crates", "out")):
        if (name := str(path.relative_to(TOP))) not in OLD:
            yield from (f"{name}: {it}" for it in gone(path.read_text()))
    for path in sorted([*TOP.glob("*.md"), *TOP.glob("docs/*.md"), *TOP.glob("models/*.md")]):
        name, text = str(path.relative_to(TOP)), path.read_text()
        if len(text.encode()) > 1000 * (most := LARGE.get(name, LARGEST)):
            yield f"{name}: {len(text.encode()) / 1000:.1f} KB, at most {most}"
        for at, line in enumerate(text.splitlines(), 1):
            if len(line) > WIDEST and not line.startswith("|"):
                yield f"{name}:{at}: {len(line)} columns, at most {WIDEST}"
            if name in USERS and (found := re.search(r"\b20\d\d-\d\d-\d\d\b", line)):
                yield f"{name}:{at}: a date, {found[0]}"
        for sentence in sentences(text) if name in SHORT else ():
            if len(sentence.split()) > LONGEST:
                yield f"{name}: a sentence of {len(sentence.split())} words, at most {LONGEST}: {sentence[:60]}.."
