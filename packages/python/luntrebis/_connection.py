"""A server's socket, asked by the dialogue's lines. No library is needed, and no program."""
from __future__ import annotations

import asyncio
import re
import ssl
import time
from typing import Optional

from ._dialogue import Dialogue, Served, served_by
from ._words import refusal

PAUSE, MOST_PAUSE = 0.05, 0.25  # Seconds between two tries to connect, at first and at most.
FIRST, LATER = 5.0, 60.0  # Seconds for which a connection is tried, if the caller doesn't say so.
FORM = "unix:PATH, tcp:HOST:PORT or tls:HOST:PORT"


class Connection(Dialogue):
    """A socket. If its server goes away, it is connected again, for so many seconds."""

    def __init__(self, address: str, tls: Optional[ssl.SSLContext], patience: Optional[float]) -> None:
        super().__init__()
        found = re.fullmatch(r"unix:(.+)|(tcp|tls):\[?([^\]]+?)\]?:(\d+)", address)
        if not found:
            raise ValueError(f"{address!r} isn't {FORM}")
        self.path, self.kind, self.host, self.port = found[1], found[2], found[3], int(found[4] or 0)
        self.address, self.patience = address, patience
        self.tls = tls or ssl.create_default_context() if self.kind == "tls" else None

    async def _open(self) -> None:
        """Connects, as soon as there is a server."""
        patience = (LATER if self.starts else FIRST) if self.patience is None else self.patience
        until, pause = time.monotonic() + patience, PAUSE
        while True:
            try:
                if self.path:
                    self.reader, self.writer = await asyncio.open_unix_connection(self.path)
                else:
                    self.reader, self.writer = await asyncio.open_connection(self.host, self.port, ssl=self.tls)
                return
            except OSError as fault:
                if time.monotonic() + pause > until:
                    raise type(fault)(fault.errno, f"{self.address}: {fault.strerror or fault}") from fault
            await asyncio.sleep(pause)
            pause = min(MOST_PAUSE, 2 * pause)

    def _say_end(self) -> None:
        if self.writer and not self.writer.is_closing():
            self.writer.write(b"quit\n")

    async def _ended(self) -> Optional[Exception]:
        if self.writer:
            self.writer.close()
        number, _, said = self.refused.partition(" ")
        if number == "0:":
            return ConnectionRefusedError(f"{self.address}: {said}")
        return refusal(int(number), self.address) if number else None


async def begin(address: str, tls: Optional[ssl.SSLContext], patience: Optional[float]) -> Served:
    return await served_by(address, Connection(address, tls, patience))
