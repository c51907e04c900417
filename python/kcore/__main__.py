"""`python3 -m kcore report FILE -o report.html`: a page on the core numbers of an edge list."""

from __future__ import annotations

import argparse
import sys
from datetime import datetime, timedelta, timezone
from pathlib import Path
from typing import Any, Iterable, List, Optional, Sequence, Tuple

from . import __version__, _text, batches, report

_DONE, _NO_NUMPY, _REFUSED, _NOT_READ, _NOT_WRITTEN = 0, 1, 3, 4, 5

#: How many intervals there are where their length is not asked for.
_INTERVALS = 50

#: How many intervals there may be: the page has a place on its slider for each.
_MOST_INTERVALS = 5_000

_STATUSES = """Exit status: 0 where the page is written, 1 where NumPy is not installed, 2 where the words are not right, 3 where a line is
refused, 4 where the file can't be read, and 5 where the page can't be written."""

_FILE = """Each line of FILE has two whole numbers, the ends of an edge; with --time also a number, the time of the edge. Blank lines, and
lines that begin with # or %, are passed over. Loops are dropped, and an edge that comes again counts once. The name - is standard input."""


def main(words: Optional[Sequence[str]] = None) -> int:
    """Runs the command, and answers its exit status."""
    parser = _parser()
    asked = parser.parse_args(words)
    for word in ("every", "window", "unix"):
        if getattr(asked, word) and not asked.time:
            parser.error(f"--{word} goes with --time")
    name = "standard input" if asked.file == "-" else asked.file
    try:
        page = _page(_read(asked, name), asked, name)
    except OSError as fault:
        return _told(f"{name}: {fault.strerror or fault}", _NOT_READ)
    except ValueError as fault:
        return _told(str(fault), _REFUSED)
    except ImportError as fault:
        return _told(str(fault), _NO_NUMPY)
    try:
        _write(asked.output, page)
    except OSError as fault:
        return _told(f"{asked.output}: {fault.strerror or fault}", _NOT_WRITTEN)
    return _DONE


def _parser() -> argparse.ArgumentParser:
    parser = argparse.ArgumentParser(prog="kcore", description="Core numbers by proved code.")
    parser.add_argument("--version", action="version", version=__version__)
    commands = parser.add_subparsers(metavar="COMMAND", required=True)
    command = commands.add_parser("report", help="write a page on the core numbers of an edge list", description=_FILE, epilog=_STATUSES)
    command.add_argument("file", metavar="FILE", help="the edge list, or - for standard input")
    command.add_argument("-o", "--output", metavar="PAGE", required=True, help="the page, one HTML file; - for standard output")
    command.add_argument("--title", help="the title of the page; the file's name where it is left out")
    command.add_argument("--time", action="store_true", help="each line has a time behind the edge")
    times = command.add_argument_group("with --time")
    times.add_argument("--every", type=_length, metavar="LENGTH", help=f"the length of an interval; else the span in {_INTERVALS} parts")
    times.add_argument("--window", type=_length, metavar="LENGTH", help="how long an edge stays after its last mention; else for good")
    times.add_argument("--unix", action="store_true", help="times and lengths are seconds, and times are told as dates of UTC")
    return parser


def _length(text: str) -> Any:
    """A length of time. argparse tells of the ValueError."""
    value = float(text)
    if not 0 < value < float("inf"):
        raise argparse.ArgumentTypeError(f"{text} is not above 0")
    return int(value) if value.is_integer() else value


def _told(fault: str, status: int) -> int:
    print(f"kcore: {fault}", file=sys.stderr)
    return status


def _read(asked: argparse.Namespace, name: str) -> List[Tuple[Any, ...]]:
    """The rows of the file."""
    if asked.file == "-":
        return _rows(sys.stdin.buffer, asked, name)
    with open(asked.file, "rb") as lines:
        return _rows(lines, asked, name)


def _rows(lines: Iterable[bytes], asked: argparse.Namespace, name: str) -> List[Tuple[Any, ...]]:
    if asked.time:
        return [*_text.temporal_edges(lines, name)]
    return [*_text.edges(lines, name)]


def _page(rows: List[Tuple[Any, ...]], asked: argparse.Namespace, name: str) -> str:
    title = asked.title or Path(name).name
    if not asked.time:
        return report(rows, title=title, return_ids=True)
    times = [row[2] for row in rows]
    span = max(times, default=0) - min(times, default=0)
    every = asked.every or _part(span)
    if span / every >= _MOST_INTERVALS:
        raise ValueError(f"{name}: --every {every} makes more than {_MOST_INTERVALS} intervals of the span {span}: give a greater length")
    if not asked.unix:
        return report((), batches(rows, every, asked.window), title=title)
    dated = [(u, v, _date(time, name)) for u, v, time in rows]
    window = timedelta(seconds=asked.window) if asked.window else None
    return report((), batches(dated, timedelta(seconds=every), window), title=title)


def _part(span: Any) -> Any:
    """A length that makes some fifty intervals of the span."""
    part = span / _INTERVALS
    return int(part) + 1 if isinstance(span, int) else part or 1


def _date(time: Any, name: str) -> datetime:
    try:
        return datetime.fromtimestamp(time, timezone.utc).replace(tzinfo=None)
    except (OverflowError, OSError, ValueError):
        raise ValueError(f"{name}: the time {time} is no second of a year from 1 to 9999") from None


def _write(path: str, page: str) -> None:
    if path == "-":
        sys.stdout.buffer.write(page.encode("utf-8", "replace"))
        sys.stdout.buffer.flush()
        return
    with open(path, "w", encoding="utf-8", errors="replace") as file:
        file.write(page)


if __name__ == "__main__":
    sys.exit(main())
