"""Edge lists as text: two whole numbers a line, as the program `cores` reads them, or three columns where the edges have times."""

from __future__ import annotations

import re
from typing import Any, Iterable, List, NoReturn, Pattern, Tuple, Union

#: The greatest id that the programs of this repository read.
GREATEST_ID = 0xFFFFFFFF

_EDGE = re.compile(r"[ \t]*([0-9]+)[ \t]+([0-9]+)[ \t]*\Z")
_TEMPORAL = re.compile(r"[ \t]*([0-9]+)[ \t]+([0-9]+)[ \t]+(-?[0-9]+(?:\.[0-9]+)?)[ \t]*\Z")
_SKIPPED = re.compile(r"[ \t]*(?:[#%]|\Z)")

_IDS = f"two whole numbers of 0 to {GREATEST_ID}"
_WANTED_EDGE = f"an edge line has {_IDS}, with spaces or tabs between them, as in 12 7"
_WANTED_TEMPORAL = f"a line has {_IDS} and a time, which is a number, with spaces or tabs between them, as in 12 7 1082040961"


class WrongLineError(ValueError):
    """A line of a text is not what is wanted there."""


def edges(lines: Iterable[Union[str, bytes]], name: str) -> List[Tuple[int, int]]:
    """The edges of a text. Raises WrongLineError at the first line that is neither an edge, nor blank, nor a comment."""
    return [(int(row[0]), int(row[1])) for row in _rows(lines, name, _EDGE, _WANTED_EDGE)]


def temporal_edges(lines: Iterable[Union[str, bytes]], name: str) -> List[Tuple[int, int, Any]]:
    """The edges of a text with their times. Raises WrongLineError as `edges` does."""
    return [(int(row[0]), int(row[1]), _time(row[2])) for row in _rows(lines, name, _TEMPORAL, _WANTED_TEMPORAL)]


def _time(text: str) -> Union[int, float]:
    return float(text) if "." in text else int(text)


def _rows(lines: Iterable[Union[str, bytes]], name: str, pattern: Pattern[str], wanted: str) -> Iterable[Tuple[str, ...]]:
    for number, given in enumerate(lines, 1):
        line = given.decode("utf-8", "backslashreplace") if isinstance(given, bytes) else given
        line = line[:-1] if line.endswith("\n") else line
        line = line[:-1] if line.endswith("\r") else line
        found = pattern.match(line)
        if found is None:
            if _SKIPPED.match(line):
                continue
            _refuse(name, number, line, wanted)
        if int(found[1]) > GREATEST_ID or int(found[2]) > GREATEST_ID:
            _refuse(name, number, line, wanted)
        yield found.groups()


def _refuse(name: str, number: int, line: str, wanted: str) -> NoReturn:
    shown = line if len(line) <= 60 else line[:57] + "..."
    raise WrongLineError(f"{name}: line {number}: {wanted}; this line has {shown!r}")
