"""How long requests take that are asked over pipes, beside the same requests by `imem serial` and beside a server in C that
makes a command's four calls for each line.

usage: pipes.py IMEM ECHO [FOLDER]      the images are made in FOLDER, else in a temporary one; ECHO is echo.c, built

It prints two lines, for one request in flight and for 64: the time over pipes, of that by the script (medians); the script's
times, of the same made again: far from 1, the disk was too uneven to tell; the microseconds of a request over pipes, by the
script and over pipes to ECHO. Of each time that of a single request is taken off, so that the program's start and end fall
away.
"""
import os
import statistics
import subprocess
import sys
import tempfile
import time
from pathlib import Path

STORES, ELEMENTS, ROUNDS = 480, 60, 7  # so an element has fewer requests than its window keeps
SIZES = ["--cells", "1024", "--elements", "64", "--slots", "4096"]


def requests(stores):
    """The element, the number and the cell of each store: the elements take turns."""
    return [(1 + at % ELEMENTS, 1 + at // ELEMENTS, at) for at in range(stores)]


def by_script(imem, image, folder, stores):
    """Seconds that a script takes, with the program's start and end."""
    lines = ["setup", f"alloc x i {STORES}"]
    for element, _, cell in requests(stores):
        lines += [f"element {element}", f"store x+{cell} {cell + 7}"]
    script = folder / "script"
    script.write_text("\n".join(lines) + "\n")
    start = time.perf_counter()
    done = subprocess.run([imem, "serial", image, script], check=True, capture_output=True, text=True)
    took = time.perf_counter() - start
    if done.stdout.count(" stored\n") != stores:
        raise SystemExit(f"serial: {done.stdout[-200:]}")
    return took


def ask_all(to_program, from_program, lines, in_flight):
    """Asks all lines, and so many at most that aren't answered: as soon as some are answered, as many more are sent."""
    sent = answered = 0
    while answered < len(lines):
        more = min(len(lines), answered + in_flight)
        if sent < more:
            os.write(to_program, b"".join(lines[sent:more]))
            sent = more
        answers = os.read(from_program, 65536)
        if not answers or b"refused" in answers or b"error" in answers:
            raise SystemExit(f"serve: {answers}")
        answered += answers.count(b"\n")


def over_pipes(command, stores, in_flight):
    """Seconds that the same requests take over pipes to a server."""
    lines = [b"%d.%d store %d %d\n" % (element, number, cell, cell + 7) for element, number, cell in requests(stores)]
    start = time.perf_counter()
    with subprocess.Popen(command, stdin=subprocess.PIPE, stdout=subprocess.PIPE) as program:
        pipes = program.stdin.fileno(), program.stdout.fileno()
        ask_all(*pipes, [b"0.1 alloc i %d\n" % STORES], 1)
        ask_all(*pipes, lines, in_flight)
        program.stdin.close()
        program.wait()
    return time.perf_counter() - start


def measure(imem, echo, folder, in_flight):
    """For each round the seconds of the stores past those of one: by a script, over pipes, by the server in C, and by the
    script again."""
    image = folder / "image"
    script = lambda stores: by_script(imem, image, folder, stores)
    served = lambda stores: over_pipes([imem, "serve", image], stores, in_flight)
    echoed = lambda stores: over_pipes([echo, image], stores, in_flight)
    for _ in range(ROUNDS):
        times = []
        for way in (script, served, echoed, script):
            each = []
            for stores in (1, STORES):
                image.unlink(missing_ok=True)
                subprocess.run([imem, "format", image, *SIZES], check=True)
                each.append(way(stores))
            times.append(each[1] - each[0])
        yield times


def tell(imem, echo, folder):
    for in_flight in (1, 64):
        first, asked, echoed, second = zip(*measure(imem, echo, folder, in_flight))
        asked, alone, echoed = statistics.median(asked), statistics.median(first + second), statistics.median(echoed)
        uneven = statistics.median(first) / statistics.median(second)
        each = " ".join(f"{seconds / (STORES - 1) * 1e6:.1f}" for seconds in (asked, alone, echoed))
        print(f"{asked / alone:.3f} {uneven:.3f} {each}", flush=True)


def main(imem, echo, folder=None):
    with tempfile.TemporaryDirectory(dir=folder) as room:
        tell(imem, echo, Path(room))


if __name__ == "__main__":
    main(*sys.argv[1:])
