"""The words of a query: where each stands in its line, and what may stand at a place."""

from __future__ import annotations

import re
from typing import NamedTuple, Optional

__all__ = ["Token", "expected_after", "query_start", "stage_after", "tokens_of"]

# A word's bytes stay together, and each other that is no blank stands by itself.
_TOKEN = re.compile(r"[A-Za-z0-9_.+-]+|[^ \t]")
_PAST = re.compile(r"[ \t]*at[ \t]+([0-9]{1,10})(?=[ \t]|$)")
_LARGEST_NUMBER = 4_294_967_295
_WORDS = ("table", "by", "where", "and", "not", "in", "with", "totals", "labels")
_MARKS = ("(", ",", ")")

# What was read last, or what is to come; for each kind of token that may follow, where it leads.
_STEPS: dict[str, dict[str, str]] = {
    "start": {"table": "dimension"},
    "dimension": {"name": "dimensions"},
    "dimensions": {"by": "dimension", "where": "name", "with": "first with"},
    "name": {"name": "test"},
    "test": {"not": "negated", "in": "opening"},
    "negated": {"in": "opening"},
    "opening": {"(": "code"},
    "code": {"code": "codes"},
    "codes": {",": "code", ")": "filters"},
    "filters": {"and": "name", "with": "first with"},
    "first with": {"totals": "totals", "labels": "labels"},
    "totals": {"with": "second with"},
    "second with": {"labels": "labels"},
    "labels": {},
}
_ENDS = ("dimensions", "filters", "totals", "labels")


class Token(NamedTuple):
    """A token of a line, and where in the line it begins, from 0."""

    text: str
    start: int


class Stage(NamedTuple):
    """What may stand behind some tokens: words and marks, and `name` and `code` for any of these.

    `filter` is the name of the filter in which that is, where it is in one.
    """

    name: str
    filter: Optional[str]

    @property
    def next(self) -> tuple[str, ...]:
        return tuple(_STEPS[self.name])

    @property
    def is_end(self) -> bool:
        return self.name in _ENDS


def query_start(line: str) -> int:
    """Where the query begins: in a line ``at N QUERY`` after the number, else at its start."""
    past = _PAST.match(line)
    return past.end() if past and int(past[1]) <= _LARGEST_NUMBER else 0


def tokens_of(line: str, start: int = 0) -> list[Token]:
    """The tokens of a line from a start on."""
    return [Token(it[0], it.start()) for it in _TOKEN.finditer(line, start)]


def stage_after(tokens: list[Token]) -> Optional[Stage]:
    """What may stand behind these tokens. None where no query begins with them.

    ``dwellings`` may begin one in place of ``table``; whether it does the server knows.
    """
    stage, name = "start", None
    for token in tokens:
        steps = _STEPS[stage]
        is_first = stage == "start" and token.text == "dwellings"
        kind = "table" if is_first else _kind_of(token.text)
        if "code" in steps and kind in (*_WORDS, "name"):
            kind = "code"
        if kind not in steps:
            return None
        if stage == "name":
            name = token.text
        stage = steps[kind]
        if stage in ("filters", "name"):
            name = None
    return Stage(stage, name)


def expected_after(tokens: list[Token]) -> Optional[str]:
    """What may stand behind these tokens, in words. None where no query begins with them."""
    stage = stage_after(tokens)
    if stage is None:
        return None
    told = [f"a {it}" if it in ("name", "code") else f"`{it}`" for it in stage.next]
    told += ["the end"] * stage.is_end
    *others, last = told
    return f"{', '.join(others)} or {last}" if others else last


def _kind_of(text: str) -> str:
    if text in _WORDS or text in _MARKS:
        return text
    return "name" if re.fullmatch(r"[A-Za-z0-9_.+-]+", text) else "other"
