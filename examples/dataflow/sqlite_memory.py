"""The memory of the machine as tables of SQLite: cells, requests that wait, and the answers that are kept. It has what
the machine asks for, and no more, so that the two can be compared.

What stands there at the same time is one transaction. A thread of its own commits it, while the machine goes on.
"""
import asyncio
import sqlite3

from luntrebis import Answer, Reply, Tag

TABLES = """
PRAGMA journal_mode = WAL;
PRAGMA synchronous = FULL;
CREATE TABLE IF NOT EXISTS cell (at INTEGER PRIMARY KEY, value INTEGER);
CREATE TABLE IF NOT EXISTS waiter (place INTEGER PRIMARY KEY, at INTEGER, element INTEGER, number INTEGER);
CREATE INDEX IF NOT EXISTS waiter_at ON waiter (at);
CREATE TABLE IF NOT EXISTS entry (
    element INTEGER, number INTEGER, tag INTEGER, at INTEGER, answer INTEGER, value INTEGER,
    PRIMARY KEY (element, number)
) WITHOUT ROWID;
CREATE TABLE IF NOT EXISTS window (element INTEGER PRIMARY KEY, base INTEGER, next INTEGER);
"""


class SqliteMemory:
    def __init__(self, path):
        self.base = sqlite3.connect(path, isolation_level=None, check_same_thread=False)
        self.base.executescript(TABLES)
        self.asked, self.waiting, self.worker = [], {}, None
        self.do = self.base.execute

    def report(self):
        """Returns what the machine reads of a report of an image."""
        windows = self.do("SELECT * FROM window").fetchall()
        waits = self.do("SELECT element, number, at FROM entry WHERE answer IS NULL AND tag = ?", (Tag.FETCH,))
        lines = [f"cell {at} full {value}" for at, value in self.do("SELECT * FROM cell WHERE value IS NOT NULL")]
        lines += [f"element {element} base {base} kept {after - base}" for element, base, after in windows]
        lines += [f"entry {element}.{number} fetch {at} -> waiting" for element, number, at in waits]
        return "\n".join(lines)

    def ask(self, request):
        future = asyncio.get_running_loop().create_future()
        self.asked.append((request, future))
        if not self.worker:
            self.worker = asyncio.ensure_future(self.work())
        return future

    def confirm(self, element, upto):
        return self.ask(("confirm", element, upto))

    async def work(self):
        """Serves what was asked, until nothing is."""
        await asyncio.sleep(0)
        while self.asked:
            asked, self.asked = self.asked, []
            for request, future in asked:
                if request[0] == "confirm":
                    future.set_result(None)
                else:
                    self.waiting[request.element, request.number] = future
            for of, answer, value in await asyncio.to_thread(self.serve, [it for it, _ in asked]):
                if of in self.waiting:
                    self.waiting.pop(of).set_result(Reply(Answer(answer), value or 0, f"{of[0]}.{of[1]}"))
        self.worker = None

    def serve(self, requests):
        """Serves requests in one transaction. Returns who is answered."""
        answered, windows = [], {}
        self.do("BEGIN IMMEDIATE")
        for request in requests:
            if request[0] == "confirm":
                self.do("DELETE FROM entry WHERE element = ? AND number < ?", request[1:])
                self.do("UPDATE window SET base = ? WHERE element = ?", (request[2], request[1]))
                continue
            of = request.element, request.number
            kept = self.do("SELECT answer, value FROM entry WHERE element = ? AND number = ?", of).fetchone()
            if not kept:
                kept = self.act(request, answered)
                self.do("INSERT INTO entry VALUES (?, ?, ?, ?, ?, ?)", (*of, request.tag, request.address, *kept))
                windows[request.element] = request.number + 1
            if kept[0] is not None:
                answered.append((of, *kept))
        renewed = "INSERT INTO window VALUES (?, 1, ?) ON CONFLICT (element) DO UPDATE SET next = excluded.next"
        self.base.executemany(renewed, windows.items())
        self.do("COMMIT")
        return answered

    def act(self, request, answered):
        """Does what a request asks for. Returns its answer and its value, or none if it waits."""
        tag, at = request.tag, request.address
        if tag in (Tag.ALLOC_I, Tag.ALLOC_M):
            (first,) = self.do("SELECT coalesce(max(at) + 1, 0) FROM cell").fetchone()
            self.base.executemany("INSERT INTO cell VALUES (?, NULL)", ((it,) for it in range(first, first + at)))
            return Answer.BASE, first
        (value,) = self.do("SELECT value FROM cell WHERE at = ?", (at,)).fetchone()
        if tag in (Tag.STORE, Tag.PUT):
            return (Answer.CLASH if value is not None else self.write(request, answered)), None
        if value is None:
            self.do("INSERT INTO waiter VALUES (NULL, ?, ?, ?)", (at, request.element, request.number))
            return None, None
        if tag == Tag.TAKE:
            self.do("UPDATE cell SET value = NULL WHERE at = ?", (at,))
        return Answer.VALUE, value

    def write(self, request, answered):
        """Stores or puts a value, and answers all that wait, or the first."""
        most = -1 if request.tag == Tag.STORE else 1
        first = "SELECT place, element, number FROM waiter WHERE at = ? ORDER BY place LIMIT ?"
        reply = "UPDATE entry SET answer = ?, value = ? WHERE element = ? AND number = ?"
        came = self.do(first, (request.address, most)).fetchall()
        for place, *of in came:
            self.do("DELETE FROM waiter WHERE place = ?", (place,))
            self.do(reply, (Answer.VALUE, request.value, *of))
            answered.append((tuple(of), Answer.VALUE, request.value))
        if request.tag == Tag.STORE or not came:
            self.do("UPDATE cell SET value = ? WHERE at = ?", (request.value, request.address))
        return Answer.STORED

    async def close(self):
        while self.worker:
            await self.worker
        self.base.close()
