"""What the tests have in place of the servers: the ports that the relay speaks to."""

from __future__ import annotations

import contextlib
import socket
import threading
from collections import defaultdict
from typing import Callable, Iterator, Optional

__all__ = ["Host", "Mirror", "serving"]

WINDOW = 64


class Double:
    """A port of 127.0.0.1 with one session at a time, whose lines `answer` answers."""

    def __init__(self, port: int = 0) -> None:
        self._listener = socket.create_server(("127.0.0.1", port), reuse_port=False)
        self.port = self._listener.getsockname()[1]
        self.sessions, self._session = 0, None
        threading.Thread(target=self._serve, daemon=True).start()

    def answer(self, line: str) -> Optional[str]:
        raise NotImplementedError

    def begin(self) -> None:
        """A session begins."""

    def _serve(self) -> None:
        with contextlib.suppress(OSError, ValueError):
            while True:
                self._session, _ = self._listener.accept()
                self._session.setsockopt(socket.IPPROTO_TCP, socket.TCP_NODELAY, 1)
                self.sessions += 1
                self.begin()
                with contextlib.suppress(OSError, ValueError), self._session as session:
                    for line in session.makefile("r"):
                        reply = self.answer(line.rstrip("\n"))
                        if reply is not None:
                            session.sendall(f"{reply}\n".encode())

    def break_session(self) -> None:
        """Ends the session, as a server does that goes away."""
        session = self._session
        if session is not None:
            with contextlib.suppress(OSError):
                session.shutdown(socket.SHUT_RDWR)

    def close(self) -> None:
        """The server goes away, as by a kill."""
        with contextlib.suppress(OSError):
            self._listener.shutdown(socket.SHUT_RDWR)
        self._listener.close()
        self.break_session()


class Host(Double):
    """An analysts' port of a host: it prints tables of the release that a test sets."""

    def __init__(self, release: int, port: int = 0) -> None:
        self.release, self.asked, self.stayed = release, 0, 0
        super().__init__(port)

    def answer(self, line: str) -> Optional[str]:
        if line == "#":
            self.stayed += 1
            return None
        self.asked += 1
        if line != "table SEX":
            return "refused 3 UnknownName 2"
        return f"release {self.release}\nSEX,count\n1,1\n2,2\n."


class Mirror(Double):
    """The first port of a mirror: `begin`, edits, `end`, `where`, and a window of 64 messages.

    `instead` has lines and, for each, replies that come in place of the next ones to that line;
    what it asks for isn't done then. `after` is called with the number of each message that ended.
    """

    def __init__(self, port: int = 0) -> None:
        self.applied: list[list[str]] = []
        self.window: dict[int, list[str]] = {}
        self.instead: dict[str, list[str]] = defaultdict(list)
        self.after: Callable[[int], None] = lambda number: None
        self.lines: list[str] = []
        super().__init__(port)

    def begin(self) -> None:
        self._number, self._held = 0, None

    def answer(self, line: str) -> Optional[str]:
        self.lines.append(line)
        if line == "#":
            return None
        if self.instead[line]:
            self._held = None
            return self.instead[line].pop(0)
        word, _, rest = line.partition(" ")
        if line == "where":
            return f"at {len(self.applied)}"
        if word == "begin":
            self._number, self._held = int(rest), []
            return f"begun {rest}"
        if self._held is None:
            return "refused leader"
        if line == "end":
            reply, self._held = self._deliver(self._number, self._held), None
            self.after(self._number)
            return reply
        self._held.append(line)
        return f"held {len(self._held)}"

    def _deliver(self, number: int, edits: list[str]) -> str:
        at = len(self.applied)
        if number <= at:
            return f"old {at}"
        if number > at + WINDOW:
            return f"far {at}"
        self.window.setdefault(number, edits)
        if number > at + 1:
            return f"kept {at}"
        while len(self.applied) + 1 in self.window:
            self.applied.append(self.window.pop(len(self.applied) + 1))
        return f"at {len(self.applied)}"

    def forget(self) -> None:
        """It is at release 0 again, as one that was started anew, without that its session ends."""
        self.applied.clear()
        self.window.clear()


@contextlib.contextmanager
def serving(double: Double) -> Iterator[Double]:
    try:
        yield double
    finally:
        double.close()
