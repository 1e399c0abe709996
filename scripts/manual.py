"""Makes the manual's pages and the completions of the shells from imem's help, the headers, and docs/FORMAT.md.
`pages(imem, ..)` and `completions(imem)` give each file's path below share/ with its text."""
import ast
import itertools
import re
import subprocess
import textwrap

import headers
import packaging
from sources import TOP

OF_USE = "TUTORIAL SCRIPTS SERVE SERVER EMBEDDING DATAFLOW CLUSTER CRASH MIGRATION PERFORMANCE"
DOCUMENTS = f"{OF_USE} FORMAT DETERMINACY PROVED RELIABILITY".split()  # That are installed.
BULLET = "\\(bu"
NOTHING = "\\&"
WIDEST = 71  # Columns of a line that stands as it is, on a page of 80.
ABOUT = "a durable memory of I-structure and M-structure cells"


def told(imem, *words):
    """Returns what the program prints, with `imem` in place of its file's name."""
    text = subprocess.run([imem, *words], capture_output=True, text=True, check=True).stdout
    return re.sub(rf"^Usage: {re.escape(str(imem).rpartition('/')[2])}\b", "Usage: imem", text, flags=re.M)


class Help:
    """The help of the program, or of one of its subcommands."""

    def __init__(self, text):
        self.usage = re.search(r"^Usage: (.*)$", text, re.M)[1]
        self.about = text.split("\n\n")[0].strip()
        self.arguments = re.findall(r"^  <(\w+)> +(.*)$", self.part(text, "Arguments"), re.M)
        option = r"^ +(?:(-\w), )?(--[\w-]+)(?: <([\w-]+)>)? +(.*)$"
        rows = re.findall(option, self.part(text, "Options"), re.M)
        self.options = [row[1:] for row in rows]  # Of each its name, its value's, and its text.
        self.letters = {name: letter for letter, name, _, _ in rows if letter}
        self.subcommands = re.findall(r"^  (\w+) +(.*)$", self.part(text, "Commands"), re.M)
        last = list(re.finditer(r"^Options:\n(?:  .*\n)+\n?", text, re.M))[-1]
        self.more = text[last.end() :].strip("\n")

    @staticmethod
    def part(text, head):
        found = re.search(rf"^{head}:\n((?:  .*\n)+)", text, re.M)
        return found[1] if found else ""


def read_help(imem):
    """Returns the program's help, and that of each subcommand."""
    top = Help(told(imem, "--help"))
    return top, {name: Help(told(imem, name, "--help")) for name, _ in top.subcommands if name != "help"}


# ---- roff


def escaped(text):
    return text.replace("\\", "\\e").replace("-", "\\-").replace("'", "\\(aq").replace("`", "\\(ga")


def line(text):
    """Returns a line of text that roff doesn't take for a request."""
    done = escaped(text)
    return f"\\&{done}" if done.startswith((".", "\\(aq")) else done


def folded(text):
    """Returns a line, or two if it is too wide and has a pipe: behind it the shell reads on."""
    head, pipe, rest = text.rpartition(" | ")
    return [f"{head} |", f"    {rest}"] if pipe and len(text) > WIDEST else [text]


def as_it_stands(lines):
    shown = [part for text in textwrap.dedent("\n".join(lines)).splitlines() for part in folded(text)]
    return [".PP", ".RS 2", ".nf", *map(line, shown), ".fi", ".RE"]


def heading(name, section, about):
    words = [f'"{it}"' for it in (name.upper(), section, packaging.date(), f"luntrebis {packaging.VERSION}", "Luntrebis")]
    return ["'\\\" t", f".TH {' '.join(words)}", ".SH NAME", f"{name} \\- {line(about)}"]


def finished(lines):
    """Returns the text of a page. No paragraph macro follows a heading directly, as mandoc warns about that."""
    return re.sub(r"^(\.S[HS] .*\n)\.PP\n", r"\1", "\n".join(lines) + "\n", flags=re.M)


def indented(lines):
    """Returns lines that begin with a space: as a list if they have two columns, else as they are."""
    rows = [re.split(r" {2,}", it.strip(), maxsplit=1) for it in lines]
    goes_on = [it.startswith(" " * 12) for it in lines]  # Text for the row above.
    of_heads = [len(row) for row, more in zip(rows, goes_on) if not more]
    if of_heads.count(2) < len(of_heads) - len(of_heads) // 4:
        return as_it_stands(lines)
    made = []
    for text, row, more in zip(lines, rows, goes_on):
        if more:
            made.append(line(text.strip()))
            continue
        head = f"\\fB{escaped(row[0])}\\fR"
        made += [".PP", head, ".br"] if len(row) == 1 else [".TP", head, line(row[1])]
    return made


def runs(part):
    """Yields the lines of a paragraph. Lines that begin with a space stay as they are; the others are filled."""
    for stands, run in itertools.groupby(part.splitlines(), lambda it: it.startswith("  ")):
        yield from indented(list(run)) if stands else [".PP", *map(line, run)]


def prose(text):
    """Yields paragraphs. Lines that begin with a space stay as they are; the others are filled. `Example:` and `Exit
    status:` get a heading."""
    heads = {"Example": "EXAMPLES", "Exit status": "EXIT STATUS"}
    for part in text.split("\n\n"):
        head, colon, rest = part.partition(":")
        if colon and head in heads:
            yield f".SH {heads[head]}"
            part = rest.strip("\n").lstrip(" ") if head != "Example" or not rest.startswith("\n") else rest.strip("\n")
        yield from runs(part)


def listed(rows):
    for name, text in rows:
        yield from (".TP", f"\\fB{escaped(name)}\\fR", line(text))


def see_also(others):
    return [".SH SEE ALSO", ",\n".join(f"\\fB{escaped(name)}\\fR({section})" for name, section in others)]


def page_of_help(name, it, others):
    lines = heading(name, "1", it.about.rstrip(".")[0].lower() + it.about.rstrip(".")[1:])
    lines += [".SH SYNOPSIS", f"\\fB{escaped(it.usage)}\\fR", ".SH DESCRIPTION", line(it.about)]
    paragraphs = list(prose(it.more)) if it.more else []
    first = next((at for at, one in enumerate(paragraphs) if one.startswith(".SH")), len(paragraphs))
    lines += paragraphs[:first]
    if it.arguments:
        lines += [".SH ARGUMENTS", *listed(it.arguments)]
    if it.subcommands:
        lines += [".SH COMMANDS", *listed([row for row in it.subcommands if row[0] != "help"])]
    named = [(", ".join(filter(None, [it.letters.get(row[0]), row[0]])), *row[1:]) for row in it.options]
    lines += [".SH OPTIONS", *listed([(f"{option} {value}".strip(), text) for option, value, text in named])]
    return finished([*lines, *paragraphs[first:], *see_also(others)])


def pages_of_help(imem):
    top, below = read_help(imem)
    all_pages = [("imem", "1"), *((f"imem-{name}", "1") for name in below), ("imem-image", "5"), ("luntrebis", "3")]
    for name, it in (("imem", top), *((f"imem-{name}", it) for name, it in below.items())):
        yield f"man/man1/{name}.1", page_of_help(name, it, [row for row in all_pages if row[0] != name])


def paragraphs(comment):
    """Yields the paragraphs of a header's comment."""
    for part in comment.split("\n\n"):
        yield from runs(part)


def page_of_headers():
    lines = heading("luntrebis", "3", f"{ABOUT}, for C")
    files = [it.name for it in headers.paths()]
    includes = [f'#include <{name}>' for name in files]
    lines += [".SH SYNOPSIS", ".nf", *(f"\\fB{escaped(it)}\\fR" for it in includes), ".PP"]
    lines += ["cc program.c $(pkg\\-config \\-\\-cflags \\-\\-libs luntrebis)", ".fi"]
    for path in headers.paths():
        head, *items = headers.items(path)
        title = "DESCRIPTION" if path == headers.paths()[0] else path.name.upper()
        lines += [f".SH {title}", *paragraphs(head.comment)]
        for it in items:
            lines += item(it)
    return finished([*lines, *see_also([("imem", "1"), ("imem-image", "5")])])


def item(it):
    """Returns a declaration: its name, its text, its comment."""
    if it.kind == "text" and not it.text:
        head, _, rest = it.comment.lstrip("- ").partition("\n")
        is_head = it.comment.startswith("----")
        return [f".SH {escaped(head.upper())}", *paragraphs(rest.strip("\n"))] if is_head else [*paragraphs(it.comment)]
    text = it.text if it.kind == "macro" else f"{it.text};"
    shown = textwrap.wrap(text, 76, subsequent_indent="    ") if it.kind == "call" else text.splitlines()
    name = escaped(it.name or it.text.split("(")[0])
    return [f".SS {name}", ".nf", *map(line, shown), ".fi", *paragraphs(it.comment)]


def spoken(text):
    """Returns a line of Markdown: links by their words, code in bold."""
    text = re.sub(r"\[([^\]]+)\]\([^)]+\)", r"\1", text)
    parts = re.split(r"`([^`]+)`|\*\*([^*]+)\*\*", text)
    done = ""
    for at in range(0, len(parts), 3):
        done += escaped(parts[at])
        if at + 2 < len(parts):
            done += f"\\fB{escaped(parts[at + 1] or parts[at + 2])}\\fR"
    return f"\\&{done}" if done.startswith((".", "\\(aq")) else done


def cell(text, is_filled):
    return f"T{{\n{spoken(text) or NOTHING}\nT}}" if is_filled else spoken(text)


def table(rows):
    cells = [[it.strip() for it in re.split(r"(?<!\\)\|", row.strip().strip("|"))] for row in rows]
    cells = [row for row in cells if not all(re.fullmatch(r":?-+:?", it) for it in row)]
    count = len(cells[0])
    widths = [max(len(row[at]) for row in cells if at < len(row)) for at in range(count)]
    is_wide = sum(widths) + 3 * count > 72
    forms = ["lx" if is_wide and width > 12 else "l" for width in widths]
    room = f".ne {2 * len(cells)}"  # Else a page ends in the table, and groff warns.
    yield from (".PP", room, ".TS", "tab(@);", " ".join(it.replace("l", "lb", 1) for it in forms), " ".join(forms) + ".")
    for row in cells:
        yield "@".join(cell(it, "x" in form) for it, form in zip(row, forms))
    yield ".TE"


def of_markdown(text):
    """Yields the roff of a document after its title."""
    parts = re.split(r"(^```.*?^```\n)", text, flags=re.M | re.S)
    for part in parts:
        if part.startswith("```"):
            yield from as_it_stands(part.splitlines()[1:-1])
            continue
        for block in re.split(r"\n\n+", part.strip("\n")):
            lines = block.splitlines()
            if not lines or block.startswith("!["):  # A picture, whose words stand in the text.
                continue
            if found := re.match(r"^(#+) (.*)", block):
                yield f".SH {spoken(found[2].upper())}" if len(found[1]) == 2 else f".SS {spoken(found[2])}"
            elif block.startswith("|"):
                yield from table(lines)
            elif re.match(r"[-*] |\d+\. ", block):
                for one in re.split(r"\n(?=[-*] |\d+\. )", block):
                    mark, rest = one.split(" ", 1)
                    yield from (f".IP {mark if mark[0].isdigit() else BULLET} 4", spoken(" ".join(rest.split())))
            else:
                yield from (".PP", *map(spoken, lines))


def page_of_format():
    title, text = (TOP / "docs" / "FORMAT.md").read_text().split("\n", 1)
    text = re.sub(r"`(crates/\w+/specs[\w/.]*)`", r"`\1` of the sources", text)
    lines = heading("imem-image", "5", "the file in which imem and luntrebis keep a memory")
    others = [("imem", "1"), ("imem-inspect", "1"), ("luntrebis", "3")]
    return finished([*lines, ".SH DESCRIPTION", *of_markdown(text), *see_also(others)])


def page_of_draw():
    """Returns the page of imem-draw, from what the script says of itself."""
    said = ast.get_docstring(ast.parse((TOP / "scripts" / "draw-image").read_text())).format(name="imem-draw")
    about, usage, *rest = said.split("\n\n")
    lines = heading("imem-draw", "1", "draws an image, or plays the trace of a run")
    shown = indented([f"  {it.removeprefix('usage:').strip()}" for it in usage.splitlines()])
    text = [".SH SYNOPSIS", *shown, ".SH DESCRIPTION", *prose("\n\n".join([about, *rest]))]
    return finished([*lines, *text, *see_also([("imem", "1"), ("imem-run", "1")])])


def placed(text, doc):
    """Returns a page that names its documents where they are installed."""
    return re.sub(rf"\bdocs/({'|'.join(DOCUMENTS)})\.md", rf"{doc}/docs/\1.md", text)


def pages(imem, has_library=True, doc="docs"):
    """Returns each page of what there is, its path and its text: of the program, if `imem` isn't None, of the library, and
    of the image."""
    made = {"man/man5/imem-image.5": page_of_format()}
    if imem:
        made.update(pages_of_help(imem))
        made["man/man1/imem-draw.1"] = page_of_draw()
    if has_library:
        made["man/man3/luntrebis.3"] = page_of_headers()
    return {path: placed(text, doc) for path, text in made.items()}


# ---- Completions


def bash(top, below):
    rows = ""
    for name, it in below.items():
        options = " ".join([*(option for option, _, _ in it.options), *it.letters.values()])
        kinds = {"values": lambda value: value, "files": lambda value: value == "FILE", "folders": lambda value: value == "FOLDER"}
        told = {kind: " ".join(option for option, value, _ in it.options if has(value)) for kind, has in kinds.items()}
        said = " ".join(f"{kind}='{names}'" for kind, names in told.items() if names)
        rows += f"        {name}) words='{options}' {said} ;;\n"
    first = " ".join([*below, "help", *(option for option, _, _ in top.options), *top.letters.values()])
    return packaging.filled("imem.bash", SUBCOMMANDS=" ".join(below), FIRST=first, ROWS=rows.rstrip("\n"))


def quoted(text):
    return text.replace("'", "'\\''").replace("[", "\\[").replace("]", "\\]").replace(":", "\\:")


def zsh_option(it, option, value, text):
    """Returns an option as `_arguments` takes it, with its letter if it has one, and with what completes its value."""
    completes = {"FILE": "_files", "FOLDER": "_files -/"}.get(value, "")
    letter = it.letters.get(option)
    names = f"'({letter} {option})'{{{letter},{option}}}'" if letter else f"'{option}"
    return f"{names}[{quoted(text)}]" + (f":{value}:{completes}'" if value else "'")


def zsh(top, below):
    names = "\n".join(f"        '{name}:{quoted(text)}'" for name, text in top.subcommands if name in below)
    rows = []
    for name, it in below.items():
        words = [zsh_option(it, *row) for row in it.options]
        words += [f"'{at}:{quoted(text)}:_files'" for at, (_, text) in enumerate(it.arguments, 1)]
        rows.append(f"        {name}) _arguments \\\n" + " \\\n".join(f"            {it}" for it in words) + " ;;")
    first = " ".join(zsh_option(top, *row) for row in top.options)
    return packaging.filled("imem.zsh", SUBCOMMANDS=names, FIRST=first, ROWS="\n".join(rows))


def completions(imem):
    top, below = read_help(imem)
    return {"bash-completion/completions/imem": bash(top, below), "zsh/site-functions/_imem": zsh(top, below)}
