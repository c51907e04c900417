"""The edges of a kept graph, which the library does not tell."""

from __future__ import annotations

from array import array
from typing import Any, Dict, List, Tuple

from . import _library, _lists

# A key is an edge, the lesser end first, with as many bits for the other as the last vertex of a keeper has.
_BITS = (_library.KEEPER_VERTICES - 1).bit_length()
_OTHER = (1 << _BITS) - 1

# How many updates may wait, beyond as many as there are edges.
_FEW = 65_536


class KeptEdges:
    """Edges that come and go: those that were there when they were last put together, and the updates since.

    An update is noted and no more, and the edges are put together when they are asked for, or when more updates wait than there are edges.
    So the cost of an update stays the same, and memory in proportion to the graph. The edges at the start are noted too.
    """

    __slots__ = ("_there", "_updates", "_waiting", "_size")

    def __init__(self, ends: Any) -> None:
        """The ends of the edges at the start, one edge after the other: in any order, with loops and repeats."""
        self._there: Any = _no_keys(_lists.is_array(ends))
        self._updates: List[Any] = [_lists.updates_of(ends, True)]
        self._waiting = 0
        # How many edges there were when they were last put together, or are listed at the start.
        self._size = _lists.size(ends) // 2

    def note(self, updates: Any) -> None:
        """Notes updates, each of two ends and whether the edge is to come, as the library takes them, in the order in which they are made."""
        size = len(updates)
        if size:
            self._updates.append(updates)
            self._waiting += size // 3
            if self._waiting > self._size + _FEW:
                self._put_together()

    def pairs(self) -> Any:
        """Each edge once, the lesser end first, ascending: an array where all ends came in arrays, or else a list of pairs."""
        self._put_together()
        if _lists.is_array(self._there):
            import numpy

            return numpy.stack([self._there >> _BITS, self._there & _OTHER], axis=1).astype(numpy.uint32)
        return [(key >> _BITS, key & _OTHER) for key in self._there]

    def _put_together(self) -> None:
        updates, self._updates, self._waiting = [listed for listed in self._updates if len(listed)], [], 0
        if not updates:
            return
        if all(map(_lists.is_array, updates)) and (_lists.is_array(self._there) or not len(self._there)):
            self._there = _after_arrays(self._there, updates)
        else:
            self._there = _after(self._there, updates)
        self._size = len(self._there)


def _no_keys(like_array: bool) -> Any:
    if not like_array:
        return array("Q")
    import numpy

    return numpy.zeros(0, numpy.uint64)


def _after(there: Any, updates: List[Any]) -> Any:
    """The keys after updates, ascending: the last one that names an edge decides."""
    last: Dict[int, bool] = dict.fromkeys(_lists.as_list(there), True)
    for listed in updates:
        words = iter(_lists.as_list(listed))
        last.update(((u << _BITS | v if u < v else v << _BITS | u), bool(add)) for u, v, add in zip(words, words, words) if u != v)
    return array("Q", sorted(key for key, add in last.items() if add))


def _after_arrays(there: Any, updates: List[Any]) -> Any:
    """The same by arrays."""
    import numpy

    rows = numpy.concatenate([listed.reshape(-1, 3) for listed in updates]).astype(numpy.uint64)
    rows = rows[rows[:, 0] != rows[:, 1]]
    ends = numpy.sort(rows[:, :2], axis=1)
    keys = numpy.concatenate([numpy.asarray(there, numpy.uint64), ends[:, 0] << numpy.uint64(_BITS) | ends[:, 1]])
    come = numpy.concatenate([numpy.ones(len(there), bool), rows[:, 2] != 0])
    # The first in reverse is the last one that names the edge.
    named, first = numpy.unique(keys[::-1], return_index=True)
    return named[come[::-1][first]]


def flat(pairs: Any) -> Tuple[Any, bool]:
    """The ends of edges, one edge after the other, as the library reads them, and whether they are an array."""
    if _lists.is_array(pairs):
        return pairs.reshape(-1), True
    return array(_lists.CODE, [end for pair in pairs for end in pair]), False
