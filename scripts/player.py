"""Makes the page that plays the trace of a run, for draw-image. player.html is the page without its data."""
import json
import pkgutil

import images
import traced

TAGS = {images.EMPTY: "empty", images.FULL: "full", images.WAITING: "waiting", images.CLASHED: "clashed"}
WORDS = {code: word for word, code in traced.CODES.items()}
I_CELL, M_CELL = 1, 2


def told_of(memory):
    """What the page is told of a memory: its blocks, the cells that aren't empty, and the windows that were used."""
    cells = [(at, cell) for at, cell in enumerate(memory.cells) if cell]
    blocks = [[at, cell.length, cell.kind] for at, cell in cells if cell.base == at]
    held = [[at, TAGS[cell.tag], str(cell.value), [f"{element}.{number}" for element, number in cell.waiters]] for at, cell in cells if cell.tag != images.EMPTY]
    windows = []
    for element, (base, entries) in enumerate(memory.windows):
        waiting = [[number, f"{WORDS[op[0]]} {op[1]}"] for number, (op, reply) in enumerate(entries, base) if reply is None]
        if base > 1 or entries:
            windows.append([element, base, base + len(entries), waiting])
    return {"blocks": blocks, "cells": held, "windows": windows}


def state_before(call):
    """The kind of a cell, its state and its value, as they were before the first call of it; None if it is no cell. A value that isn't known is
    None."""
    code, (word, *value) = call.op[0], call.reply.split()
    if code not in (images.FETCH, images.STORE, images.TAKE, images.PUT) or word in ("nocell", "refused"):
        return None
    reads, is_i = code in (images.FETCH, images.TAKE), code in (images.FETCH, images.STORE)
    if word == "wrongkind":
        return M_CELL if is_i else I_CELL, "empty", None
    state = "full" if word == "value" or (word == "clash" and not reads) else "clashed" if word == "clash" else "empty"
    return I_CELL if is_i else M_CELL, state, value[0] if value else None


def learned(calls):
    """What the calls themselves tell of an image that had commands before: cells that no alloc of theirs made, in rows of neighbours, and from
    which number on each element asks."""
    made, cells, windows = {}, {}, {}
    for call in calls:
        if call.op is None:
            continue
        windows.setdefault(call.element, call.number)
        code, at = call.op[:2]
        if call.reply.startswith("base "):
            made[int(call.reply.split()[1])] = at
        elif call.reply == "released":
            made.pop(at, None)
        elif not any(base <= at < base + length for base, length in made.items()) and (found := state_before(call)):
            cells.setdefault(at, found)
    blocks = []
    for at, (kind, _, _) in sorted(cells.items()):
        if blocks and blocks[-1][0] + blocks[-1][1] == at and blocks[-1][2] == kind:
            blocks[-1][1] += 1
        else:
            blocks.append([at, 1, kind])
    held = [[at, state, value, []] for at, (_, state, value) in sorted(cells.items()) if state != "empty"]
    return {"blocks": blocks, "cells": held, "windows": [[it, number, number, []] for it, number in sorted(windows.items()) if number > 1]}


def page(lines, marks, before, name):
    """The page of a trace, given its lines, where groups began and checkpoints came in force, and the memory before it, if that is known."""
    calls = [traced.call_of(line) for line in lines]  # So that a line that is none is refused.
    data = {
        "name": name,
        "calls": lines,
        "groups": [at for at, mark in enumerate(marks) if mark[0]],
        "checkpoints": [at for at, mark in enumerate(marks) if mark[1]],
        "before": told_of(before) if before else learned(calls),
    }
    form = pkgutil.get_data(__name__, "player.html").decode()
    return form.replace("/* The trace. */ null", json.dumps(data, separators=(",", ":")).replace("<", "\\u003c"))
