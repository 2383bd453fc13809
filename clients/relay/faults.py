"""What ends the relay, what it waits for, and how both are told."""

from __future__ import annotations

import sys
from typing import IO, Optional

__all__ = ["Away", "Gone", "Stop", "Teller"]


class Stop(Exception):
    """Somebody is to look first: the relay doesn't go on."""


class Away(Exception):
    """Who is asked isn't there, or can't answer now: it is tried again."""


class Gone(Away):
    """A session has ended, or none could be had: another one is to be opened."""


class Teller:
    """Tells what is waited for, and once that it goes on; the same isn't told twice in a row."""

    def __init__(self, to: Optional[IO[str]] = None) -> None:
        self._to, self._last = to, ""

    def tell(self, what: object) -> None:
        text = str(what)
        if text != self._last:
            self._last = text
            print(text, file=self._to or sys.stderr, flush=True)
