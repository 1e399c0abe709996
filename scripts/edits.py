"""Reads the wrong bodies of this repository and the prover's words about one, for the scripts beside this file.

Of an edit the gate's tool reads the lines `file:`, `old:` and `new:`. The others begin with `# `, as it remarks on what it
doesn't read. A twin's file is the one that was named last.
"""
import re
from dataclasses import dataclass, field
from pathlib import Path

import sources

LINE = re.compile(r"(file|old|new|# (?:breaks|case|twin-file|twin-old|twin-new)):(?: (.*))?$")
FLAW = re.compile(r"^(?:\./)?(\S+?):\d+:\d+: error: (?:`([^`]*)`: )?(.*)$", re.M)
NOTE = re.compile(r"^note: (?:\./)?(src/\S+):(\d+):\d+: .* \(`([^`]+)`\)(?:;.*)?$", re.M)
GONE = re.compile(r"is not in scope|has no (?!atom in common)|is no name|was not admitted|no such goal|operand is missing|expected the end|cannot continue")
OPEN = re.compile(r"^(?:fn|impl) (\S+): (?:not proved|no proof: expected)(.*)$", re.M)
UNSHOWN = re.compile(r"`search` did not prove ((?:`[^`]*`(?:, | and |, and )?)+)")
OWN_PROOF = re.compile(r"proofs/((?:\w+/)*\w+)/(?:Answers|Proof|Invariants)\.antt")
NO_CLAUSES = ("loop", "invariant", "requires", "overflow", "lemma")
IN_THE_GATE = 130


@dataclass
class Edit:
    """A wrong body with its twin, each as replacements in a crate's files: file, old text, new text."""

    path: Path
    breaks: list = field(default_factory=list)  # functions, as the prover names them, each with words for a part of it (`is_of`)
    case: str = ""
    wrong: list = field(default_factory=list)
    twin: list = field(default_factory=list)


def read(path):
    edit, file, old = Edit(path), None, None
    for line in path.read_text().split("\n"):
        kind, text = (found[1].removeprefix("# "), found[2] or "") if (found := LINE.match(line)) else ("", "")
        if kind in ("file", "twin-file"):
            file = text.strip()
        elif kind in ("old", "twin-old"):
            old = text
        elif kind in ("new", "twin-new"):
            (edit.wrong if kind == "new" else edit.twin).append((file, old, text))
        elif kind == "breaks":
            edit.breaks.append(tuple(text.split(None, 1)))
        elif kind == "case":
            edit.case = text.strip()
    return edit


def edits_of(crate, top=sources.TOP):
    """Returns the edits of a crate by their names: those that the gate tries, and the others."""
    folder = top / "crates" / crate
    return {it.stem: read(it) for part in ("must-fail", "edits") for it in sorted((folder / part).glob("*.edit"))}


def rewritten(folder, pairs):
    """Returns the texts of a folder's files with these replacements made in turn, and the first text that doesn't stand in
    its file once, or None."""
    texts = {}
    for file, old, new in pairs:
        if file not in texts:
            texts[file] = (folder / file).read_text() if (folder / file).is_file() else ""
        if texts[file].count(old) != 1:
            return texts, f"{file} has not once: {old[:60]}"
        texts[file] = texts[file].replace(old, new)
    return texts, None


# ---- What the prover says


def is_of(goal, what):
    """Whether a goal belongs to what an edit is meant to break: a clause, by its label; `returns`, the only clause;
    `invariant`, that of a type; `loop NAME`, that of a loop; `requires CALLEE LABEL`, what a call requires; `overflow`,
    of a number."""
    kind, *names = what.split()
    required = re.match(r"(.+?)-requires(?:-(?:[\w-]*-)?clause-(\w+?)|-[\w-]*)?(?:-\d+)?$", goal)
    if kind == "requires":
        return bool(required) and names[0] in required[1].split("-") and [*filter(None, [required[2]])] == names[1:]
    if required:
        return False
    if kind == "loop":
        return goal.startswith("-".join(["loop", *names]) + "-")
    if kind in ("invariant", "overflow"):
        return goal.startswith(f"{kind}_")
    if kind == "returns":
        return goal.startswith("returns")
    return re.search(rf"-clause-{re.escape(kind)}(?!\w)", goal) is not None


@dataclass
class Words:
    """The prover's words about a crate that isn't proved."""

    goals: dict = field(default_factory=dict)  # of each function: its goals that are open
    gone: dict = field(default_factory=dict)  # of each function: what its answers name and the function no longer has
    lemmas: list = field(default_factory=list)  # what is wrong in the crate's own lemmas
    refused: list = field(default_factory=list)  # the functions that aren't proved
    flaws: list = field(default_factory=list)  # each message with its file and its goal

    def open_at(self, function, what):
        """Returns the open goals of what an edit is meant to break; for a lemma, what the prover says about it."""
        if what == "lemma":
            return self.lemmas if any(it.split("::")[-1] == function.split("::")[-1] for it in self.refused) else []
        return [goal for goal in self.goals.get(function, []) if is_of(goal, what)]

    def missed(self, function, what):
        """Returns what the prover says instead, if no goal of that is open."""
        goals, gone = self.goals.get(function), ", ".join(self.gone.get(function, []))
        if goals:
            return f"refused, but not at {what} of {function}; open: {', '.join(goals)}" + (f"; gone: {gone}" if gone else "")
        if gone:
            return f"an answer of {function} names what it no longer has, so no clause was tried: {gone}"
        return f"refused, but not in {function}: {self.place()}"

    def place(self):
        """Returns where the prover stopped: the first function with a goal that isn't proved."""
        for function, goals in self.goals.items():
            return f"{function}: {goals[0]}"
        return self.flaws[0][2][:80] if self.flaws else "-"

    def unread_in(self, changed):
        """Returns a message which says that an edit of these files can't be read at all, so that no contract was
        tried."""
        for file, goal, message in self.flaws:
            if (file in changed or file.startswith(("src/", "specs/"))) and (not goal or is_gone(message)):
                return message
        return None


def read_words(said, crate, top=sources.TOP):
    """Reads the prover's words about a crate. A goal is open if a search finds no proof, which a note says with its
    place in the code, or if the answer that is written for it doesn't fit."""
    words = Words(flaws=FLAW.findall(said), refused=[function.split("::", 1)[-1] for function, _ in OPEN.findall(said)])
    functions = list(sources.functions(crate, top))
    notes = [(function_at(functions, file, int(line)), goal) for file, line, goal in NOTE.findall(said)]
    for function, rest in OPEN.findall(said):
        name = function.split("::", 1)[-1]
        folder = "proofs/" + name.replace("::", "/") + "/"
        own = [(goal, message) for file, goal, message in words.flaws if file.startswith(folder)]
        unshown = [goal for listed in UNSHOWN.findall(rest) for goal in re.findall(r"`([^`]*)`", listed)]
        noted = [goal for at, goal in notes if at and is_named(at, name)]
        unfit = [goal for goal, message in own if goal and not is_gone(message)]
        if noted or unshown or unfit:
            words.goals[name] = list(dict.fromkeys([*words.goals.get(name, []), *noted, *unshown, *unfit]))
        if gone := [goal or message for goal, message in own if is_gone(message)]:
            words.gone[name] = list(dict.fromkeys([*words.gone.get(name, []), *gone]))
    words.lemmas = [message for file, _, message in words.flaws if re.fullmatch(r"proofs/\w+\.antt", file) and not is_gone(message)]
    return words


def function_at(functions, file, line):
    """Returns the one of these functions that has this line of a file, or None. An edit keeps the lines of a file."""
    return next((it for it in functions if it.file == Path(file).name and it.line <= line < it.line + it.lines), None)


def is_named(function, name):
    """Whether a name of the prover may mean this function: of a type, of a trait's impl for the type, or of no type."""
    *_, owner, last = ["", *name.split("::")]
    if function.name != last:
        return False
    if owner[:1].isupper():
        return bool(function.owner) and owner.startswith(function.owner)
    return not function.owner and Path(function.file).stem in (owner, "mod", "lib", "main")


def is_verdict(said):
    """Whether the prover came to its end and said that something isn't proved."""
    return "logic=not-proved" in said or OPEN.search(said) is not None


def is_gone(message):
    """Whether a message says that a name doesn't exist or a text can't be read, so that no contract was tried."""
    return GONE.search(re.sub(r"`[^`]*`", "", message)) is not None


# ---- What an edit says of the sources


class Known:
    """The functions of the repository with their clauses, in which to look up what an edit is meant to break."""

    def __init__(self, top=sources.TOP):
        self.top = top
        self.by_crate = {crate: list(sources.functions(crate, top)) for crate in sources.stands_on(top)}
        self.all = [it for functions in self.by_crate.values() for it in functions]

    def functions(self, crate, function):
        """Returns the functions that a name of the prover may mean. For a type these include the functions of a trait
        that the type implements."""
        *_, owner, name = ["", *function.split("::")]
        found = [it for it in self.by_crate[crate] if is_named(it, function)]
        traits = {owner.removeprefix(it.owner) for it in found if owner != it.owner}
        return found + [it for it in self.all if it.name == name and it.owner and it.owner in traits]

    def around(self, crate, file, old):
        """Returns the function that has this text of a file, in its contract or its body, or None."""
        text = (self.top / "crates" / crate / file).read_text() if file.startswith("src/") else ""
        return function_at(self.by_crate[crate], file, text[: text.index(old)].count("\n") + 1) if text.count(old) == 1 else None

    def asked(self, crate, edit, pairs):
        """Returns the functions to ask the prover for, by its names for them, if these replacements change nothing but the
        bodies and proofs of those that the edit breaks: their callers see their contracts alone. None if they change more."""
        names, found = [name for name, what in edit.breaks if what != "lemma"], set()
        for file, old, _ in pairs:
            around, own = self.around(crate, file, old), OWN_PROOF.fullmatch(file)
            if not own and (not around or old not in around.body):
                return None
            found |= {it for it in names if (own and own[1].replace("/", "::") == it) or (around and is_named(around, it))} or {None}
        return None if None in found or not found else sorted(names)

    def why_not(self, crate, function, what):
        """Returns why there is no such thing to break, or None."""
        kind, *names = what.split()
        labels = lambda functions, kind: [[it.label for it in one.clauses if it.kind == kind] for one in functions]
        found = self.functions(crate, function)
        is_impl = any(it.owner and function.split("::")[-1].startswith(it.owner) for it in self.by_crate[crate])
        if not found and not is_impl:
            return f"there is no function {function}"
        if kind == "requires":
            required = sum(labels([it for it in self.all if it.name == names[0]], "requires"), [])
            return f"{names[0]} requires no `{names[1]}`" if names[1:] and required and names[1] not in required else None
        ensured = labels(found, "ensures")
        if not any(ensured) and all(it.owner and it.owner != function.split("::")[-2] for it in found):
            return None  # A trait of a library, whose clauses aren't here.
        if kind == "returns":
            return None if any(len(it) < 2 for it in ensured) else f"{function} has {max(map(len, ensured))} clauses: say which"
        return None if kind in NO_CLAUSES or kind in sum(ensured, []) else f"{function} has no clause `{kind}`"

    def faults(self, crate, edit):
        """Yields what is wrong with an edit: a line that it lacks, an old text that doesn't stand once in its file, or a
        clause that doesn't exist."""
        if not (edit.breaks and edit.case and edit.wrong and edit.twin and all(len(it) == 2 for it in edit.breaks)):
            yield "it has to have lines breaks:, case:, file:, old:, new:, twin-old:, twin-new:"
            return
        yield from filter(None, (self.why_not(crate, *it) for it in edit.breaks))
        yield from filter(None, (rewritten(self.top / "crates" / crate, it)[1] for it in (edit.wrong, edit.twin)))


def faults(top=sources.TOP):
    """Yields what is wrong with the edits of the crates, and with those of scripts/threads."""
    known, gate = Known(top), len([*top.glob("crates/*/must-fail/*.edit")])
    for path in sorted((top / "scripts" / "threads").rglob("*.edit")):
        if lost := rewritten(top, read(path).wrong)[1]:
            yield f"{path.relative_to(top)}: {lost}"
    for crate in known.by_crate:
        for edit in edits_of(crate, top).values():
            yield from (f"{edit.path.relative_to(top)}: {it}" for it in known.faults(crate, edit))
    if gate > IN_THE_GATE:
        yield f"crates/*/must-fail has {gate} edits, at most {IN_THE_GATE}"
