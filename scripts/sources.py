"""What the sources of this repository contain, for the scripts beside this file: crates, functions with their clauses,
lemmas."""
import functools
import re
import shutil
import subprocess
import sys
from dataclasses import dataclass, field
from pathlib import Path
from typing import NamedTuple

TOP = Path(__file__).resolve().parent.parent
FUNCTION = re.compile(r"( *)(pub(?:\([a-z]+\))? )?(?:unsafe )?(?:extern \"C\" )?fn (\w+)")
OWNER = re.compile(r"(?:pub )?(impl|trait)\b(?:<[^{]*?>)? *(?:[^{]* for )?(\w+)")
CLAUSE = re.compile(r"\s*(requires|ensures)\*? *(\w*) *\{")
TYPE = re.compile(r"^(?:pub(?:\([a-z]+\))? )?(?:struct|enum|trait) (\w+)", re.M)
DEFINITION = re.compile(r"^(?:abbrev pub|unfoldable pub|pub record|pub data|pub) (?!mod |use )([^\s:({]+)", re.M)
IMPORT = re.compile(r"^[ \t]*(?:(?:pub|unfoldable|ghost) )*use ([\w.]+?)\.?\{([^{}]*)\}", re.M)
ANY_IMPORT = re.compile(r"^[ \t]*(?:pub(?:\([^)]*\))? |ghost |unfoldable )*use [^{;\n]*(?:\{[^}]*\})?", re.M)
WORDS = "im_types", "specs.Types"  # The page that passes on the words that all crates share.
LEMMA = re.compile(r"(|  )(?:(?:pub|abbrev|unfoldable) )*([^\s:(){},|]+) : ")


class Clause(NamedTuple):
    kind: str  # requires or ensures
    label: str  # "" if it has none
    fact: str  # what stands between its braces, in one line


@dataclass
class Function:
    crate: str
    file: str
    line: int
    owner: str
    name: str
    is_public: bool
    clauses: list = field(default_factory=list)
    body: str = ""
    text: str = ""

    @property
    def lines(self):
        return self.text.count("\n") + 1

    @property
    def parameters(self):
        """Returns the number of its parameters, with `self`."""
        return sum(bool(it.strip()) for it in split(within(self.text, self.text.index(self.name) + len(self.name))))

    def path(self):
        return "::".join(it for it in (self.crate, self.owner, self.name) if it)


@dataclass
class Lemma:
    crate: str
    file: str  # its path below the crate
    name: str
    statement: str
    text: str


def rows(top=TOP):
    """Returns the row of each crate of crates.txt, in its order: its name with its kind, and what it stands on."""
    lines = [line.split("#")[0].partition(":") for line in (top / "crates.txt").read_text().splitlines()]
    return {name.split()[0]: (name.split(), rest.split()) for name, colon, rest in lines if colon}


def stands_on(top=TOP):
    """Returns for each crate of crates.txt, in its order, the crates of this repository that it stands on."""
    named = rows(top)
    return {crate: [it for it in rest if it in named] for crate, (_, rest) in named.items()}


def below(crates, top=TOP):
    """Returns these crates and those that they stand on, in the order of crates.txt."""
    found, more, of = set(), list(crates), stands_on(top)
    while more:
        crate = more.pop()
        more += of[crate] if crate not in found else ()
        found.add(crate)
    return [it for it in of if it in found]


def copied(folder, crates, more=()):
    """Makes or renews a copy of what is proved of these crates, as a repository of its own, and of other files of their
    folders by their names. What was built there before (out/) stays. Returns the folder."""
    (folder / "crates").mkdir(parents=True, exist_ok=True)
    for old in (folder / "crates").iterdir():
        if old.name not in crates:
            shutil.rmtree(old)
    shutil.copy(TOP / "HANDLES", folder / "HANDLES")
    lines = (TOP / "crates.txt").read_text().splitlines()
    (folder / "crates.txt").write_text("".join(f"{it}\n" for it in lines if (it.split(":")[0].split() or [""])[0] in crates))
    for crate in crates:
        here, there = TOP / "crates" / crate, folder / "crates" / crate
        for part in ("src", "specs", "proofs", *more):
            shutil.rmtree(there / part, ignore_errors=True)
            if (here / part).is_dir():
                shutil.copytree(here / part, there / part)
            elif (here / part).is_file():
                shutil.copy(here / part, there / part)
    return folder


def need_rt():
    """Ends the script where the toolchain isn't there."""
    if not shutil.which("rt"):
        sys.exit("this needs the toolchain's command `rt`, which isn't on the PATH (README.md, The toolchain)")


def kit():
    """Returns the folder of the toolchain."""
    need_rt()
    return Path(subprocess.run(["rt", "doc"], capture_output=True, text=True, check=True).stdout.strip()).parent


def functions(crate, top=TOP):
    """The functions of a crate's sources."""
    for path in sorted((top / "crates" / crate / "src").rglob("*.rt")):
        owner, is_trait, lines = "", False, path.read_text().splitlines()
        for at, line in enumerate(lines):
            if found := OWNER.match(line):
                owner, is_trait = found[2], found[1] == "trait"
            elif line == "}":
                owner, is_trait = "", False
            if found := FUNCTION.match(line):
                yield function(crate, path, lines, at, found, owner if found[1] else "", is_trait)


def function(crate, path, lines, at, found, owner, is_trait):
    space, start, depth = found[1], at, lines[at].count("{") - lines[at].count("}")
    while not (lines[at] in (f"{space}{{", f"{space}{{}}") or lines[at].endswith(" {}") or ends(lines[at], depth) or opens(lines[at], space)):
        at += 1
        depth += lines[at].count("{") - lines[at].count("}")
    head, begin = lines[start : at + 1], at
    if lines[at].endswith("{"):
        while lines[at] != f"{space}}}":
            at += 1
    clauses = list(clauses_of(head))
    body, text = "\n".join(lines[begin + 1 : at]), "\n".join(lines[start : at + 1])
    return Function(crate, path.name, start + 1, owner, found[3], bool(found[2]) or is_trait, clauses, body, text)


def clauses_of(head):
    """Yields the clauses of a signature. Each goes from its head to the line before the next clause or the body."""
    starts = [at for at, line in enumerate(head) if CLAUSE.match(line)]
    for start, end in zip(starts, [*starts[1:], len(head)]):
        found = CLAUSE.match(head[start])
        lines = [head[start][found.end() :], *(it for it in head[start + 1 : end] if it.strip() not in ("{", "{}"))]
        fact = " ".join(it.partition("//")[0].strip() for it in lines)
        yield Clause(found[1], found[2], fact.strip().removesuffix(";").removesuffix("}").strip())


def within(text, at):
    """Returns the text in the first parentheses from there on that aren't inside angle brackets."""
    depth, begin, plain = 0, None, text.replace("->", "  ")
    for end in range(at, len(plain)):
        sign = plain[end]
        if sign == "(" and not depth:
            begin = end + 1
        depth += (sign in "(<[") - (sign in ")>]")
        if begin and not depth:
            return plain[begin:end]
    return ""


def split(text):
    """Splits a list at its commas, except for those inside brackets."""
    depth, parts = 0, [""]
    for sign in text:
        depth += (sign in "(<[{") - (sign in ")>]}")
        if sign == "," and not depth:
            parts.append("")
        else:
            parts[-1] += sign
    return parts


def import_lines(text):
    """Returns how many lines of a text are imports, Rust's own with them."""
    return sum(it.count("\n") + 1 for it in ANY_IMPORT.findall(text))


def taken(text):
    """Yields what a text brings in, name by name: the path of each, and the name that the text has for it."""
    for of, names in IMPORT.findall(text):
        for own, _, seen in (" ".join(it.split()).partition(" as ") for it in names.split(",") if it.strip()):
            yield f"{of}.{own}", seen or own.rpartition(".")[2]


@functools.lru_cache(maxsize=None)
def passed_on(top=TOP):
    """Returns what the page of shared words passes on: each name that it has with its path."""
    crate, module = WORDS
    page = top / "crates" / crate / f"{module.replace('.', '/')}.antt"
    return {seen: own for own, seen in taken(page.read_text())} if page.is_file() else {}


def imports(text, top=TOP):
    """Yields what a file brings in from crates of this repository: the crate, the module there (`specs.Act`), its name
    there, and the name that the file has for it. It looks through the page of shared words."""
    page = f"Rattle.{'.'.join(WORDS)}."
    for path, seen in taken(text):
        if path.startswith(page):
            path = passed_on(top).get(path.removeprefix(page), path)
        root, crate, *module, own = path.split(".") if path.count(".") > 2 else ("", "", "", "")
        if root == "Rattle":
            yield crate, ".".join(module), own, seen


def types(crate, top=TOP):
    """Yields the types and traits of a crate's sources, each with its name and file."""
    for path in sorted((top / "crates" / crate / "src").rglob("*.rt")):
        yield from ((name, path.name) for name in TYPE.findall(path.read_text()))


def definitions(crate, top=TOP):
    """Yields the definitions of a crate's specs/, each with its name and file."""
    for path in sorted((top / "crates" / crate / "specs").rglob("*.antt")):
        yield from ((name, path.name) for name in DEFINITION.findall(path.read_text()))


def ends(line, depth):
    """Whether a signature without a body ends here, and not a record of a clause."""
    return line.endswith(";") and not depth


def opens(line, space):
    """Whether a signature without clauses ends here, followed by its body."""
    return line.endswith(" {") and (line.startswith((f"{space}) ", f"{space}fn ")) or bool(FUNCTION.match(line)))


def lemmas(crate, top=TOP):
    """Yields the lemmas of a crate's own files of proofs, without those that answer a function's goals. A lemma may be
    in a `module _`."""
    for path in sorted((top / "crates" / crate / "proofs").glob("*.antt")):
        here, space, in_module = None, "", False
        for line in path.read_text().splitlines() + ["end"]:
            if not line.strip():
                continue
            is_own = here and own_line(here, line, space)
            if here and not is_own:
                yield here
                here = None
            if line[0] not in " )]}":
                in_module = line.startswith("module _")
            if not is_own and (found := LEMMA.match(line)) and (in_module or not found[1]):
                here, space = Lemma(crate, f"proofs/{path.name}", found[2], line, line), found[1]
            elif is_own:
                here.text += f"\n{line}"
                if here.text == f"{here.statement}\n{line}" and not re.match(rf"{space}\S", line):
                    here.statement = here.text


def own_line(lemma, line, space):
    """Whether a line belongs to this lemma, which is indented by this much."""
    begins = (" ", ")", "]", "}", f"{lemma.name} ", f"{lemma.name}=")
    return line.startswith(tuple(space + it for it in begins))
