"""A memory behind two pipes, asked from Python: each request is done exactly once, also where the program is killed, or
the client.

    memory = Memory(["imem", "serve", "a.img"])
    element = Element(memory, 1)
    reply = finish(element.request("take 0"))       # ["value", "42"], waited for where the cell is empty
    element.confirm()

A client keeps no file where an element's number alone tells what it asks next. It begins at the first request that it
hasn't confirmed and asks from there on again; what was done is answered as before. So it confirms only at places where
its program can begin anew: docs/SERVE.md, "A client with no file". `async_client.py` has many requests under way.
"""
import subprocess


class Refused(Exception):
    """The memory refused what was asked: the number and the name of the refusal. Nothing has changed."""


class Memory:
    """The program, which is started again where it ended without an answer, and the line that isn't answered yet."""

    def __init__(self, words):
        self.words, self.program = words, None
        self.asked = self.again = 0

    def start(self):
        self.program = subprocess.Popen(self.words, stdin=subprocess.PIPE, stdout=subprocess.PIPE)

    def kill(self):
        """Kills the program, if it runs, wherever it stands."""
        if self.program:
            self.program.kill()

    def close(self):
        """Lets the program end, which has nothing more to read. Its status, below 0 where it was killed."""
        program, self.program = self.program, None
        program.communicate()
        return program.returncode

    def answer(self, line):
        """Sends a line once. Its answer, or none, where the program ended before it was through."""
        try:
            self.program.stdin.write(line.encode() + b"\n")
            self.program.stdin.flush()
            answer = self.program.stdout.readline()
        except BrokenPipeError:
            return None
        return answer.decode().split() if answer.endswith(b"\n") else None

    def ask(self, line):
        """Sends a line until it is answered. The words of the answer behind the first, which says whose it is."""
        self.asked += 1
        while True:
            if not self.program:
                self.start()
            answer = self.answer(line)
            if answer and answer[0] != "refused":
                break
            if self.close() >= 0:
                raise SystemExit(f"the program ended by itself at: {line}")
            self.again += 1
        if answer[1] == "refused":
            raise Refused(*answer[2:])
        return answer[1:]


class Element:
    """An element with one request under way at a time, and the number of its next one: at first of the first one that
    isn't confirmed."""

    def __init__(self, memory, element):
        self.memory, self.element = memory, element
        self.number = int(memory.ask(f"window {element}")[1])

    def request(self, what):
        """Asks it, and yields while it waits. The words of the reply."""
        number = self.number
        reply = self.memory.ask(f"{self.element}.{number} {what}")
        self.number = number + 1
        while reply == ["waiting"]:
            yield
            reply = self.memory.ask(f"collect {self.element}.{number}")
        return reply

    def confirm(self):
        """Confirms all that was asked: the element begins behind it from now on."""
        self.memory.ask(f"confirm {self.element} {self.number}")


def finish(request):
    """Waits until a request is answered. The words of its reply."""
    while True:
        try:
            next(request)
        except StopIteration as done:
            return done.value
