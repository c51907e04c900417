"""Edges with times: batches of them in order of time, and core numbers that follow these batches."""

from __future__ import annotations

import math
import operator
import sys
from datetime import datetime, timedelta
from numbers import Integral, Real
from typing import TYPE_CHECKING, Any, Dict, Hashable, Iterable, Iterator, List, NamedTuple, Optional, Sequence, Set, Tuple

from . import _forms, _lists

if TYPE_CHECKING:
    from ._cores import Change, Cores

#: The two ends of an edge, as the caller names them.
Pair = Tuple[Any, Any]

_NAMES = ("source", "target", "time")
_WANTED = "rows of source, target and time: an array of three columns, a data frame with the columns source, target and time, or triples"


class Batch(NamedTuple):
    """What changes in one interval of time.

    Attributes
    ----------
    begin, end
        The interval holds the times t with begin <= t < end.
    insert : list of pairs
        The edges that come, in order of time. None of them was there before.
    remove : list of pairs
        The edges that go, the one that was mentioned longest ago first. All of them were there before.
    """

    begin: Any
    end: Any
    insert: List[Pair]
    remove: List[Pair]


class BatchResult(NamedTuple):
    """What a batch changed.

    Attributes
    ----------
    begin, end
        The interval of the batch.
    changes : dict
        For each vertex whose core number changed, or that is new, its number before and after; before is None where it is new.
    core_numbers
        The core number of each vertex after the batch, as `Cores.core_numbers` has it, or None where they were not asked for.
    """

    begin: Any
    end: Any
    changes: Dict[Any, Change]
    core_numbers: Any


def batches(table: Any, every: Any, window: Any = None, *, columns: Optional[Sequence[Hashable]] = None) -> Iterator[Batch]:
    """Temporal edges as batches in order of time.

    Parameters
    ----------
    table : array, data frame or iterable of triples
        Rows of source, target and time, in any order: an array of the shape (m, 3), an array with named fields, a data frame of pandas, or
        an iterable of triples. Times are numbers, `datetime`, `numpy.datetime64` or timestamps of pandas, all rows alike.
    every : number, timedelta or numpy.timedelta64
        The length of an interval, above 0: a number where the times are numbers, else a length of time.
    window : number, timedelta or numpy.timedelta64, optional
        How long an edge stays after its last mention. By default it stays for good.
    columns : triple of names or places, optional
        Which columns of a data frame or fields of an array are source, target and time. By default those with these names, or else its
        three columns.

    Yields
    ------
    Batch
        The interval as `begin` and `end`, and the edges to `insert` and to `remove`.

    Raises
    ------
    TypeError
        Where the table has none of the forms, a time is neither a number nor a date, times can't be compared, or `every` or `window` does
        not go with them.
    ValueError
        Where a row is no triple, a time is missing or infinite, an end is missing, or `every` or `window` is not above 0.

    Notes
    -----
    The first interval begins at the least time t, and interval i holds the times from t + i * every on and before t + (i + 1) * every. The
    last interval is that of the greatest time. An interval without rows has a batch too, so that time goes on evenly.

    After a batch these edges are there, and no others: without `window` those that are mentioned before its end, else those that are
    mentioned at a time s with end - window <= s < end. So an edge stays where it is mentioned again in time, and goes with the first batch
    whose end is more than `window` after its last mention. One that is gone at the end of the very interval which mentions it, as a window
    shorter than `every` lets it be, is neither inserted nor removed.

    Edges have no direction: (u, v) and (v, u) are one edge, told with its ends as the row has them that brought it. A loop is no edge, and
    brings no vertex, but its time counts. Rows are sorted by time, and rows of one time stay in their order. Batches are made one by one
    while they are asked for. The table is read at once, at the call.

    Examples
    --------
    >>> rows = [("ann", "bob", 0), ("bob", "cat", 4), ("cat", "ann", 11), ("bob", "ann", 12)]
    >>> for batch in batches(rows, every=5, window=10):
    ...     print(batch.begin, batch.end, batch.insert, batch.remove)
    0 5 [('ann', 'bob'), ('bob', 'cat')] []
    5 10 [] []
    10 15 [('cat', 'ann')] [('bob', 'cat')]
    """
    rows = _rows(table, columns)
    _refuse_wrong_times(rows)
    first = rows[0][2] if rows else None
    every = _length("every", every, first)
    window = None if window is None else _length("window", window, first)
    try:
        rows.sort(key=operator.itemgetter(2))
    except TypeError as cause:
        raise TypeError(f"the times can't be compared: {cause}") from None
    return _batches_of(rows, every, window)


def replay(cores: Cores, listed: Iterable[Batch], with_numbers: bool) -> Iterator[BatchResult]:
    """Applies batches one by one, and tells of each what it changed."""
    for begin, end, insert, remove in listed:
        changes = cores.apply(insert, remove)
        yield BatchResult(begin, end, changes, cores.core_numbers() if with_numbers else None)


class _Window:
    """The edges that are there, and those that came since, with the time of their last mention."""

    def __init__(self, length: Any) -> None:
        self._length = length
        # The edge that was mentioned longest ago stands first.
        self._last: Dict[Pair, Any] = {}
        self._there: Set[Pair] = set()
        self._come: Dict[Pair, None] = {}

    def mention(self, u: Any, v: Any, time: Any) -> None:
        """Takes a row of the interval."""
        if u == v:
            return
        edge = (v, u) if (v, u) in self._last else (u, v)
        self._last.pop(edge, None)
        self._last[edge] = time
        if edge not in self._there:
            self._come[edge] = None

    def close(self, end: Any) -> Tuple[List[Pair], List[Pair]]:
        """Ends the interval: which edges come, and which go."""
        gone = [] if self._length is None else self._forget(end - self._length)
        come = [edge for edge in self._come if edge in self._last]
        self._come.clear()
        left = [edge for edge in gone if edge in self._there]
        self._there.difference_update(left)
        self._there.update(come)
        return come, left

    def _forget(self, least: Any) -> List[Pair]:
        """Takes out the edges that were last mentioned before this time."""
        gone = []
        for edge, time in self._last.items():
            if time >= least:
                break
            gone.append(edge)
        for edge in gone:
            del self._last[edge]
        return gone


def _batches_of(rows: List[Tuple[Any, Any, Any]], every: Any, window: Any) -> Iterator[Batch]:
    """The batches of rows that are sorted by time."""
    edges = _Window(window)
    row = place = 0
    while row < len(rows):
        begin, end = rows[0][2] + place * every, rows[0][2] + (place + 1) * every
        while row < len(rows) and rows[row][2] < end:
            edges.mention(*rows[row])
            row += 1
        yield Batch(begin, end, *edges.close(end))
        place += 1


def _rows(table: Any, columns: Optional[Sequence[Hashable]]) -> List[Tuple[Any, Any, Any]]:
    """The rows of a table, as a list of its own."""
    pandas = sys.modules.get("pandas")
    if pandas is not None and isinstance(table, pandas.DataFrame):
        return _rows_of_frame(table, columns)
    if _lists.is_array(table) and table.dtype.names is not None:
        fields = _three(list(table.dtype.names), columns)
        return _listed(list(zip(*(_values(table[table.dtype.names[place]].ravel()) for place in fields))))
    if columns is not None:
        raise TypeError("columns goes with a data frame or an array with named fields")
    if _lists.is_array(table):
        return _rows_of_array(table)
    if isinstance(table, (str, bytes, bytearray)) or not hasattr(table, "__iter__"):
        raise TypeError(f"a table has {_WANTED}, and is not of the type {type(table).__name__}")
    return _listed(table)


def _rows_of_frame(frame: Any, columns: Optional[Sequence[Hashable]]) -> List[Tuple[Any, Any, Any]]:
    places = _three(list(frame.columns), columns)
    for place in places[:2]:
        column = frame.iloc[:, place]
        if column.isna().any():
            raise ValueError(f"the column {column.name!r} has places without a value: give frame.dropna()")
    return _listed(list(zip(*(frame.iloc[:, place].tolist() for place in places))))


def _rows_of_array(table: Any) -> List[Tuple[Any, Any, Any]]:
    _lists.refuse_masked(table)
    if not table.size:
        return []
    if table.ndim != 2 or table.shape[1] != 3:
        raise ValueError(f"a table has {_WANTED}, and this array has the shape {table.shape}")
    ends = table[:, :2]
    if table.dtype.kind == "f":
        # Times with a fraction make an array of floats of the ends too.
        if not (abs(ends) < 2**53).all() or (ends != ends.round()).any():
            raise ValueError("the ends in this array of floats are no whole numbers below 2**53")
        ends = ends.astype("int64")
    return _listed([(u, v, time) for (u, v), time in zip(ends.tolist(), _values(table[:, 2]))])


def _values(column: Any) -> List[Any]:
    """The values of a column of an array: those of NumPy where they are dates, which Python's may not hold."""
    return list(column) if column.dtype.kind in "mM" else list(column.tolist())


def _listed(table: Iterable[Any]) -> List[Tuple[Any, Any, Any]]:
    """Rows as triples. Raises ValueError or TypeError at what is none."""
    rows = []
    for place, given in enumerate(table):
        if isinstance(given, (str, bytes, bytearray)) or not hasattr(given, "__iter__"):
            raise TypeError(f"row {place} is of the type {type(given).__name__}, and a row has source, target and time")
        row = tuple(given)
        if len(row) != 3:
            raise ValueError(f"row {place} is {given!r}, and a row has source, target and time")
        rows.append((row[0], row[1], row[2]))
    for end in {end: None for row in rows for end in row[:2]}:
        _forms.refuse_no_name(end)
    return rows


def _three(names: List[Any], columns: Optional[Sequence[Hashable]]) -> List[int]:
    """The places of source, target and time among columns with these names."""
    if columns is None:
        if all(names.count(name) == 1 for name in _NAMES):
            return [names.index(name) for name in _NAMES]
        if len(names) == 3:
            return [0, 1, 2]
        raise ValueError(f"a table has the columns source, target and time, and this one has {names}: say which by columns=")
    if isinstance(columns, (str, bytes)) or len(columns) != 3:
        raise ValueError(f"columns has three names or places, and not {columns!r}")
    return [_place(names, column) for column in columns]


def _place(names: List[Any], column: Hashable) -> int:
    """The place of a column that is told by its name, or by its place where no column has that name."""
    if names.count(column) == 1:
        return names.index(column)
    if isinstance(column, Integral) and column not in names and -len(names) <= int(column) < len(names):
        return int(column) % len(names)
    raise ValueError(f"there is not one column {column!r}, but these: {names}")


def _is_date(time: Any) -> bool:
    numpy = sys.modules.get("numpy")
    return isinstance(time, datetime) or (numpy is not None and isinstance(time, numpy.datetime64))


def _refuse_wrong_times(rows: List[Tuple[Any, Any, Any]]) -> None:
    """Raises TypeError or ValueError where a time is neither a date nor a finite number, or both kinds are there."""
    dates = bool(rows) and _is_date(rows[0][2])
    for place, (_, _, time) in enumerate(rows):
        if time is None or time != time:
            raise ValueError(f"row {place} has no time, but {time!r}")
        if _is_date(time) != dates or not (dates or _is_number(time)):
            told = "all dates" if dates else "numbers, datetime, numpy.datetime64 or timestamps of pandas"
            raise TypeError(f"row {place} has the time {time!r} of the type {type(time).__name__}, and the times are {told}")
        if not dates and not math.isfinite(time):
            raise ValueError(f"row {place} has the time {time!r}, which is not finite")


def _is_number(value: Any) -> bool:
    return isinstance(value, Real) and not isinstance(value, bool)


def _length(word: str, length: Any, time: Any) -> Any:
    """A length of time, so that it can be added to such a time. Raises TypeError or ValueError where it is none above 0."""
    numpy = sys.modules.get("numpy")
    lasts = isinstance(length, timedelta) or (numpy is not None and isinstance(length, numpy.timedelta64))
    if not lasts and not _is_number(length):
        raise TypeError(f"{word} is a number or a timedelta, and not of the type {type(length).__name__}")
    if time is not None and lasts != _is_date(time):
        raise TypeError(f"{word} is {length!r}, and the times are {'numbers' if lasts else 'dates: give a timedelta'}")
    if not length > type(length)(0) or (not lasts and not math.isfinite(length)):
        raise ValueError(f"{word} is {length!r}, and has to be above 0 and finite")
    try:
        fitting = _fitting(length, time) if lasts else length
        if time is not None:
            time + fitting
    except TypeError as cause:
        raise TypeError(f"{word} is {length!r}, which can't be added to the time {time!r}: {cause}") from None
    return fitting


def _fitting(length: Any, time: Any) -> Any:
    """A length of time in the kind that goes with such a date: of NumPy, of pandas, or of Python."""
    if isinstance(time, datetime):
        if isinstance(length, timedelta):
            return length
        # Months and years have no length of their own, and are refused here. A timestamp of pandas takes nanoseconds.
        whole = length.astype("m8[us]", casting="same_kind").item()
        return length if hasattr(time, "to_datetime64") else whole
    if isinstance(length, timedelta) and time is not None:
        import numpy

        return length.to_timedelta64() if hasattr(length, "to_timedelta64") else numpy.timedelta64(length)
    return length
