"""Random scripts for the trials that kill `imem`: requests of eight elements on blocks of both kinds."""
import re

ELEMENTS = 8
CELLS = 64
REQUESTS = 3_000  # of a script: some batches of output before its end
AT_ONCE = 400  # of a script that is run by threads
BLOCKS = 8  # of each kind that a setup makes, of eight cells


def requests(dice, image):
    """Returns requests of a block of each kind. Element 0 writes, and sometimes empties a block, and the others ask.
    Requests that wait are answered soon, so that no window stays full."""
    half, lines = CELLS // 2, []
    full, waiting = set(image.full), list(image.waiting)
    for _ in range(REQUESTS):
        if dice.random() < 0.005:
            base = dice.choice([0, half])
            lines.append(f"element 0\nreset {base}\n")
            if not any(base <= it < base + half for it in waiting):
                full -= set(range(base, base + half))
            continue
        cell = dice.randrange(CELLS)
        answers = waiting and dice.random() < 0.2 * len(waiting)
        if answers:
            cell = waiting.pop(0)
        is_once = cell < half
        if answers or cell not in full and dice.random() < 0.5:
            lines.append(f"element 0\n{'store' if is_once else 'put'} {cell} {dice.randrange(1000)}\n")
            if is_once:
                waiting = [it for it in waiting if it != cell]
            if is_once or not answers:
                full.add(cell)
        else:
            lines.append(f"element {dice.randrange(1, ELEMENTS)}\n{'fetch' if is_once else 'take'} {cell}\n")
            if cell not in full:
                waiting.append(cell)
            elif not is_once:
                full.remove(cell)
    return "".join(lines)


def requests_at_once(dice):
    """Returns requests of blocks that a setup makes. In their order each that may wait comes after its answer, so no
    order of the elements ends in a standstill: if another takes what was put for it, a put finds the cell full, and the
    clash answers all."""
    lines, written = ["setup\n"], []
    for at in range(BLOCKS):
        lines.append(f"alloc a{at} i 8\nalloc b{at} m 8\n")
    for _ in range(AT_ONCE):
        element = f"element {dice.randrange(1, ELEMENTS)}\n"
        place = f"{dice.choice('ab')}{dice.randrange(BLOCKS)}+{dice.randrange(8)}"
        if written and dice.random() < 0.5:
            place = dice.choice(written)
            if place[0] == "b":
                written.remove(place)
            lines.append(f"{element}{'fetch' if place[0] == 'a' else 'take'} {place}\n")
        elif place not in written:
            written.append(place)
            lines.append(f"{element}{'store' if place[0] == 'a' else 'put'} {place} {dice.randrange(1000)}\n")
    return "".join(lines)


def named(dice, lines):
    """Returns the lines with names in place of some addresses, behind a setup that makes the blocks."""
    half = CELLS // 2

    def place(found):
        word, cell = found[1], int(found[2])
        if dice.random() < 0.3:
            return found[0]
        return f"{word} {'ab'[cell // half]}+{cell % half}" if cell % half else f"{word} {'ab'[cell // half]}"

    return f"setup\nalloc a i {half}\nalloc b m {half}\n" + re.sub(r"\b(fetch|store|take|put|reset) (\d+)", place, lines)


def once_each(dice):
    """Returns requests of blocks that a setup makes. Each cell of the one half is stored once and fetched some times, and
    each of the other put once and taken once: so each reply is the same in all orders. Few elements fill their windows."""
    lines, asked = ["setup\n"] + [f"alloc a{at} i 8\nalloc b{at} m 8\n" for at in range(BLOCKS)], []
    for at in range(8 * BLOCKS):
        cell = f"{at // 8}+{at % 8}"
        asked += [f"store a{cell} {dice.randrange(1000)}\n"] + [f"fetch a{cell}\n"] * dice.randrange(3)
        asked += [f"put b{cell} {dice.randrange(1000)}\n", f"take b{cell}\n"]
    dice.shuffle(asked)
    elements = dice.choice([2, 3, ELEMENTS - 1])
    return "".join(lines + [f"element {1 + at % elements}\n{it}" for at, it in enumerate(asked)])


def plan(dice):
    """Returns a plan over the blocks of a setup: each cell is stored at most once, and fetched by some before or after
    that."""
    cells = [f"a{at // 8}+{at % 8}" for at in range(8 * BLOCKS)]
    stored = [f"element {dice.randrange(1, ELEMENTS)}\nstore {cell} {dice.randrange(1000)}\n" for cell in cells]
    fetched = [f"element {dice.randrange(1, ELEMENTS)}\nfetch {dice.choice(cells)}\n" for _ in range(AT_ONCE // 2)]
    dice.shuffle(lines := stored + fetched)
    return "setup\n" + "".join(f"alloc a{at} i 8\n" for at in range(BLOCKS)) + "".join(lines)
