"""A round of h-indices on some rows of a graph, as an engine makes it on each of its machines."""

from __future__ import annotations

import sys
from array import array
from typing import TYPE_CHECKING, Any, List, NoReturn, Optional, Sequence, Union, overload

from . import _library, _lists

if TYPE_CHECKING:
    import numpy
    import numpy.typing

    Array = numpy.typing.NDArray[Any]
    Numbers = numpy.typing.NDArray[numpy.uint32]
    Listed = Sequence[int]
    Room = Union[Numbers, "array[int]"]

#: The greatest offset: more entries than any memory has.
_GREATEST_OFFSET = 0xFFFFFFFFFFFFFFFF


class WrongRowsError(ValueError):
    """Offsets do not cut the entries into rows, or an entry is no vertex.

    Attributes
    ----------
    place : int or None
        Where the offset, the row or the entry stands that is wrong, or None where the error tells of none.
    """

    def __init__(self, wrong: str, place: Optional[int] = None) -> None:
        super().__init__(wrong)
        self.place = place


def _offsets_of(values: Any) -> Any:
    """The offsets as numbers of 64 bits that the library reads. Raises TypeError or ValueError."""
    _lists.refuse_unordered(values, "offsets")
    if not _lists.is_array(values):
        values = list(values)
        wrong = next((place for place, offset in enumerate(values) if not 0 <= offset <= _GREATEST_OFFSET), None)
        if wrong is not None:
            raise WrongRowsError(f"offset {wrong} is {values[wrong]}, which does not fit 64 bits without a sign", wrong)
        return array("Q", values)
    if values.ndim != 1:
        raise ValueError(f"offsets is an array of one dimension, and this one has the shape {values.shape}: give it flat, as by ravel()")
    _lists.refuse_no_integers(values)
    if values.dtype.kind == "i" and values.size and int(values.min()) < 0:
        wrong = int((values < 0).argmax())
        raise WrongRowsError(f"offset {wrong} is {values[wrong]}, which does not fit 64 bits without a sign", wrong)
    numpy = sys.modules["numpy"]
    return numpy.require(values, numpy.uint64, ["C_CONTIGUOUS", "ALIGNED"])


def _numbers_of(values: Any, what: str) -> Any:
    """The numbers as a list that the library reads. Raises TypeError or ValueError."""
    _lists.refuse_unordered(values, what)
    if not (_lists.is_array(values) or isinstance(values, (array, list, tuple))):
        values = list(values)
    try:
        return _lists.from_numbers(values, what)
    except OverflowError:
        place = next(place for place, number in enumerate(values) if not 0 <= number <= _lists.GREATEST)
        raise WrongRowsError(f"{what} has {values[place]} at place {place}, and 0 to {_lists.GREATEST} are allowed", place) from None


def _refuse_room(out: Any, read: Sequence[Any]) -> None:
    """Raises TypeError or ValueError where the library may not write to `out`."""
    if isinstance(out, array):
        if out.typecode != _lists.CODE:
            raise TypeError(f"out is an array of the type code {_lists.CODE!r}, and this one has {out.typecode!r}")
        return
    if not _lists.is_array(out):
        raise TypeError(f"out is an array of NumPy or of the module array, and not of the type {type(out).__name__}")
    _lists.refuse_masked(out)
    if out.ndim != 1 or out.dtype.char != _lists.CODE or not (out.dtype.isnative and out.flags.carray):
        told = f"{out.dtype} and the shape {out.shape}{'' if out.flags.writeable else ', and may not be written'}"
        raise TypeError(f"out is a contiguous array of uint32 of one dimension that may be written, and this one has {told}")
    if any(_lists.is_array(values) and sys.modules["numpy"].may_share_memory(out, values) for values in read):
        raise ValueError("out overlaps what is read: give one of its own, such as a copy")


@overload
def h_index_round(offsets: Array, neighbours: Array, numbers: Array, out: None = ...) -> Numbers: ...


@overload
def h_index_round(offsets: Listed, neighbours: Listed, numbers: Listed, out: None = ...) -> List[int]: ...


@overload
def h_index_round(offsets: Union[Array, Listed], neighbours: Union[Array, Listed], numbers: Union[Array, Listed], out: Room) -> int: ...


def h_index_round(offsets: Any, neighbours: Any, numbers: Any, out: Any = None) -> Any:
    """One round of h-indices for some rows of a graph.

    A row has the neighbours of one vertex. It gets the h-index of their numbers: the greatest k for which at least k are at least k.
    Where the rows are those of all vertices of a simple graph, in any pieces, and the numbers begin at the degrees, and rounds are made
    until one changes no number, the numbers are the core numbers [1]_ [2]_. Each row's number is the library's, whose contract is proved.

    Parameters
    ----------
    offsets : array of one dimension or sequence of int
        One place more than there are rows: 0, and then for each row before which entry it ends. So row `i` has the entries from
        `offsets[i]` to before `offsets[i + 1]`. With `neighbours` this is the form CSR, as SciPy's `indptr` and `indices` have it.
    neighbours : array of one dimension or sequence of int
        The entries of all rows, one row after the other. Each is a vertex of the whole graph.
    numbers : array of one dimension or sequence of int
        The present number of each vertex of the whole graph.
    out : array of uint32, optional
        A place for each row, to which its number is written. It overlaps nothing else.

    Returns
    -------
    array of uint32, list of int, or int
        The number of each row; a list where no array was given. With `out`, how many of its places had another number before: leave there
        what the round before wrote, and 0 says that the round changed nothing.

    Raises
    ------
    WrongRowsError
        Where the offsets do not cut the entries into rows, or an entry is no vertex, with the first such place.
    ValueError, TypeError
        Where a number does not fit 32 bits, an array has not one dimension, or there is something else than integers; or where `out` is
        no contiguous array of `uint32` with a place for each row, or overlaps another argument.
    MemoryError
        Where there is none for 4 bytes for each entry of the longest row.

    Notes
    -----
    Where an error is raised nothing was written. Arrays of `uint64` for the offsets, and of `uint32` for the others, are read where they
    lie.

    References
    ----------
    .. [1] L. Lü, T. Zhou, Q.-M. Zhang and H. E. Stanley, "The H-index of a network node and its relation to degree and coreness", Nature
       Communications 7 (2016), 10168.
    .. [2] A. Montresor, F. De Pellegrini and D. Miorandi, "Distributed k-core decomposition", IEEE Transactions on Parallel and Distributed
       Systems 24 (2013), 288-300.

    Examples
    --------
    A triangle with a tail, in one piece, from its degrees; and the rows of its last two vertices alone:

    >>> h_index_round([0, 2, 4, 7, 8], [1, 2, 0, 2, 0, 1, 3, 2], [2, 2, 3, 1])
    [2, 2, 2, 1]
    >>> h_index_round([0, 3, 4], [0, 1, 3, 2], [2, 2, 2, 1])
    [2, 1]
    """
    given = (offsets, neighbours, numbers)
    read = (_offsets_of(offsets), _numbers_of(neighbours, "neighbours"), _numbers_of(numbers, "numbers"))
    like_array = any(map(_lists.is_array, given))
    if out is None:
        rows = _lists.room(max(_lists.size(read[0]) - 1, 0), like_array)
    else:
        _refuse_room(out, read)
        rows = out
    answer = _library.h_index_round(*[word for values in (*read, rows) for word in (_lists.address(values), _lists.size(values))])
    if answer.status != _library.DONE:
        _refuse(answer, *read, _lists.size(rows))
    if out is not None:
        return int(answer.number)
    return rows if like_array else rows.tolist()


def _refuse(answer: _library.Answer, offsets: Any, neighbours: Any, numbers: Any, rows: int) -> NoReturn:
    """Raises what the status of a round says."""
    place, status = answer.number, answer.status
    if status == _library.NO_MEMORY:
        raise MemoryError("there is no memory for the counts of the longest row")
    if status == _library.WRONG_OFFSETS_LENGTH:
        raise WrongRowsError(f"there are {_lists.size(offsets)} offsets for {rows} rows, and one more than rows is wanted")
    if status == _library.NOT_FROM_ZERO:
        raise WrongRowsError(f"the first offset is {offsets[0]}, and the first row begins at 0", 0)
    if status == _library.DESCENDING:
        raise WrongRowsError(f"offset {place} is {offsets[place]}, less than {offsets[place - 1]}, the one before it", place)
    if status == _library.LONG_ROW:
        raise WrongRowsError(f"row {place} has 4294967296 entries or more, from {offsets[place]} to before {offsets[place + 1]}", place)
    if status == _library.WRONG_LAST_OFFSET:
        raise WrongRowsError(f"the last offset is {offsets[rows]}, and there are {_lists.size(neighbours)} entries", rows)
    if status == _library.NOT_A_VERTEX:
        raise WrongRowsError(f"entry {place} is {neighbours[place]}, but the vertices are the numbers below {_lists.size(numbers)}", place)
    raise RuntimeError(f"kcore_h_index_round answered the status {status}, which is not one that it may have here")
