"""Lists of numbers of 32 bits that the library reads and writes: NumPy's arrays, or `array.array` where the caller has no NumPy."""

from __future__ import annotations

import ctypes
import sys
from array import array
from collections.abc import Mapping, Set
from typing import Any, List, Tuple

#: The greatest number of 32 bits, which is also the greatest number of vertices.
GREATEST = 0xFFFFFFFF

#: The remedy where numbers are too great.
FAR_APART = ": give return_ids=True where ids are far apart"

#: The type code of `array` for unsigned numbers of 32 bits.
CODE = next(code for code in "IL" if array(code).itemsize == 4)

#: No updates, as `updates_of` makes them.
NO_UPDATES = array(CODE)

# An update whose ends are to be written.
_COMES, _GOES = array(CODE, (0, 0, 1)), array(CODE, (0, 0, 0))

# Where an empty list lies: the library wants no null pointer.
_nothing = ctypes.c_uint32()
_NOWHERE = ctypes.addressof(_nothing)

# What has bytes where numbers are wanted.
_BYTES = (bytes, bytearray)


def is_array(values: Any) -> bool:
    """Whether the values are a NumPy array. Whoever has one has imported NumPy."""
    numpy = sys.modules.get("numpy")
    return numpy is not None and isinstance(values, numpy.ndarray)


def refuse_masked(values: Any) -> None:
    """Raises TypeError where the values are a masked array of NumPy, whose mask the library would not see."""
    masked = sys.modules.get("numpy.ma")
    if masked is not None and isinstance(values, masked.MaskedArray):
        raise TypeError("a masked array has places without a number: give the rows that have one, or fill it by its method filled()")


def refuse_unordered(values: Any, what: str) -> None:
    """Raises TypeError where the values are bytes, a mapping, a set or a masked array, and so no sequence of numbers or nodes."""
    refuse_masked(values)
    if isinstance(values, (*_BYTES, Mapping, Set)):
        raise TypeError(f"{what} is a sequence or an array, and not of the type {type(values).__name__}")


def refuse_no_integers(values: Any) -> None:
    """Raises TypeError where an array has something else than integers, with the remedy where there is one."""
    if values.dtype.kind in "ui" or not values.size:
        return
    told = f"these are no integers, but {values.dtype}"
    if values.dtype.kind == "f" and (values == values.round()).all():
        told += ", though all are whole numbers: give the array's astype('int64')"
    elif values.dtype.kind in "OUS":
        told += ": give the array's tolist(), since a list of pairs may have names"
    raise TypeError(told)


def from_array(values: Any) -> Any:
    """The numbers as an array of `uint32` in rows: the same array where it is one, else a copy.

    Raises TypeError where they are no integers, and OverflowError where one does not fit.
    """
    refuse_masked(values)
    dtype = values.dtype
    if dtype.char == CODE and dtype.isnative and values.flags.carray:
        return values
    import numpy

    if dtype != numpy.uint32:
        refuse_no_integers(values)
        if dtype.kind in "ui" and values.size and not (0 <= int(values.min()) and int(values.max()) <= GREATEST):
            raise OverflowError("a number does not fit 32 bits")
    return numpy.require(values, numpy.uint32, ["C_CONTIGUOUS", "ALIGNED"])


def from_numbers(values: Any, what: str) -> Any:
    """The numbers as a list that the library reads. Raises TypeError, ValueError or OverflowError."""
    refuse_unordered(values, what)
    if not is_array(values):
        return array(CODE, values)
    if values.ndim != 1:
        raise ValueError(f"{what} is an array of one dimension, and this one has the shape {values.shape}: give it flat, as by ravel()")
    return from_array(values)


def from_rows(offsets: Any, neighbours: Any) -> Tuple[Any, Any]:
    """The offsets and the entries of rows in CSR as the library reads them: those of SciPy, which has no negative ones, where they lie."""
    import numpy

    if neighbours.dtype == numpy.int32 and neighbours.flags.carray:
        neighbours = neighbours.view(numpy.uint32)
    return offsets.astype(numpy.uint64), numpy.require(neighbours, numpy.uint32, ["C_CONTIGUOUS", "ALIGNED"])


def copy_of_numbers(values: Any, what: str) -> Any:
    """The numbers as a list of its own that the library reads. Raises TypeError, and ValueError where one does not fit, with its place."""
    if not is_array(values):
        refuse_unordered(values, what)
        values = list(values)
    try:
        numbers = from_numbers(values, what)
    except OverflowError:
        place = next(place for place, number in enumerate(values) if not 0 <= number <= GREATEST)
        raise ValueError(f"{what} has {values[place]} at place {place}, and 0 to {GREATEST} are allowed") from None
    return numbers.copy() if numbers is values else numbers


def first_difference(first: Any, second: Any) -> int:
    """The first place at which two lists of the same length differ, or their length where there is none."""
    if is_array(first) and is_array(second):
        places = (first != second).nonzero()[0]
        return int(places[0]) if len(places) else len(first)
    return next((place for place, (here, there) in enumerate(zip(first, second)) if here != there), len(first))


def add_up(sums: Any, counts: Any) -> None:
    """Adds counts place by place. A sum that does not fit stays at the greatest number, as the counts of the library do."""
    if is_array(sums) and is_array(counts):
        import numpy

        sums += numpy.minimum(counts, GREATEST - sums)
    else:
        for place, count in enumerate(counts):
            sums[place] = min(int(sums[place]) + int(count), GREATEST)


def updates_of(ends: Any, add: bool) -> Any:
    """An update for each edge whose ends these are: its two ends, and 1 where it is to come, or else 0."""
    if isinstance(ends, array):
        updates = (_COMES if add else _GOES) * (len(ends) // 2)
        updates[0::3], updates[1::3] = ends[0::2], ends[1::2]
        return updates
    import numpy

    rows = numpy.full((ends.size // 2, 3), int(add), numpy.uint32)
    rows[:, :2] = ends.reshape(-1, 2)
    return rows.reshape(-1)


def within(ends: Any, most: int) -> Any:
    """The ends of those edges both of whose ends are below `most`."""
    if is_array(ends):
        pairs = ends.reshape(-1, 2)
        return pairs[(pairs < most).all(axis=1)].reshape(-1)
    kept = array(CODE)
    for first, second in zip(ends[0::2], ends[1::2]):
        if first < most and second < most:
            kept.extend((first, second))
    return kept


def room(length: int, like_array: bool) -> Any:
    """A list of this length to be written. Its places are 0, since the library wants numbers there."""
    if like_array:
        return sys.modules["numpy"].zeros(length, sys.modules["numpy"].uint32)
    return array(CODE, bytes(4 * length))


def bound(values: Any) -> int:
    """One more than the greatest of some numbers, and 0 where there are none."""
    if isinstance(values, array):
        return max(values, default=-1) + 1
    return int(values.max()) + 1 if values.size else 0


def greatest(values: Any) -> int:
    """The greatest of some numbers."""
    return int(values.max() if is_array(values) else max(values))


def as_list(values: Any) -> List[Any]:
    """The values as a flat list: those of an array row by row."""
    return list(values.ravel().tolist() if is_array(values) else values)


def places_between(values: Any, least: int, most: int) -> Any:
    """The places, ascending, whose number is at least the one and at most the other."""
    if is_array(values):
        import numpy

        return ((values >= least) & (values <= most)).nonzero()[0].astype(numpy.uint32)
    return array(CODE, [place for place, number in enumerate(values) if least <= number <= most])


def size(values: Any) -> int:
    """How many numbers there are."""
    return len(values) if isinstance(values, array) else int(values.size)


def address(values: Any) -> int:
    """Where the numbers lie."""
    if isinstance(values, array):
        where, length = values.buffer_info()
        return where if length else _NOWHERE
    return int(values.__array_interface__["data"][0]) if values.size else _NOWHERE


def counts_inside(ends: Any, core: Any, k: int) -> Any:
    """For each vertex how many different neighbours it has by edges both of whose ends have a core number of at least k."""
    if is_array(core):
        return _counts_inside_array(ends, core, k)
    inside = [number >= k for number in core]
    flat = iter(ends)
    edges = {(min(u, v), max(u, v)) for u, v in zip(flat, flat) if u != v and inside[u] and inside[v]}
    counts = [0] * len(core)
    for edge in edges:
        for end in edge:
            counts[end] += 1
    return counts


def _counts_inside_array(ends: Any, core: Any, k: int) -> Any:
    import numpy

    pairs = ends.reshape(-1, 2)
    inside = core >= k
    pairs = pairs[inside[pairs[:, 0]] & inside[pairs[:, 1]] & (pairs[:, 0] != pairs[:, 1])].astype(numpy.uint64)
    keys = numpy.unique(pairs.min(axis=1) * numpy.uint64(len(core)) + pairs.max(axis=1)) if len(pairs) else pairs[:, 0]
    both = numpy.concatenate(numpy.divmod(keys, numpy.uint64(max(len(core), 1))))
    return numpy.bincount(both.astype(numpy.int64), minlength=len(core))


def taken(places: Any, numbers: Any, wanted: int) -> Any:
    """Those of some places whose number is the wanted one."""
    if is_array(places):
        return places[numbers[places] == wanted]
    return array(CODE, [place for place in places if numbers[place] == wanted])
