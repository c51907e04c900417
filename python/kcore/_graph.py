"""A graph as the library takes it, and how results are told to its caller."""

from __future__ import annotations

import operator
from typing import Any, Hashable, List, Mapping, Optional, Sequence, Tuple

from . import _library, _lists


class NotAVertexError(ValueError):
    """An end of an edge is no vertex.

    Attributes
    ----------
    place : int
        Where the edge stands in the list.
    edge : tuple of int
        Its ends.
    vertices : int
        How many vertices there are.
    """

    def __init__(self, place: int, edge: Tuple[int, int], vertices: int) -> None:
        super().__init__(f"edge {place} is {edge}, but the vertices are the numbers below {vertices}")
        self.place = place
        self.edge = edge
        self.vertices = vertices


class AsArrays:
    """Results are arrays of `uint32`."""

    like_array = True
    ids: Any = None

    def named(self) -> Optional[List[Hashable]]:
        """The names of the vertices, or None where they are numbers."""
        return None

    def numbers(self, core: Any) -> Any:
        """One number for each vertex."""
        return core

    def vertices(self, listed: Any) -> Any:
        """Some vertices."""
        return listed

    def claim(self, core: Any, order: Any) -> Optional[Tuple[Any, Any]]:
        """Numbers and an order that a caller gives, by vertex; or None where they are of other vertices."""
        return core, order


class AsLists(AsArrays):
    """Results are lists of integers."""

    like_array = False

    def numbers(self, core: Any) -> Any:
        return core.tolist()

    def vertices(self, listed: Any) -> Any:
        return listed.tolist()


class ByName(AsArrays):
    """Vertices have names: numbers are told as a dict, and vertices as a list of names."""

    like_array = False

    def __init__(self, names: List[Hashable]) -> None:
        self.names = names

    def named(self) -> Optional[List[Hashable]]:
        return self.names

    def numbers(self, core: Any) -> Any:
        return dict(zip(self.names, core))

    def vertices(self, listed: Any) -> Any:
        names = self.names
        return [names[number] for number in listed]

    def claim(self, core: Any, order: Any) -> Optional[Tuple[Any, Any]]:
        if not hasattr(core, "keys"):
            raise TypeError(f"core is a mapping with the names of the vertices as keys, and not of the type {type(core).__name__}")
        return claim_of_names(self.names, core, order)


class ById(AsArrays):
    """Vertices have ids that ascend: numbers are told in the order of the ids, and vertices as ids. Both are arrays, or both lists."""

    def __init__(self, ids: Any) -> None:
        self.like_array = _lists.is_array(ids)
        self.ids = ids

    def numbers(self, core: Any) -> Any:
        return core if self.like_array else core.tolist()

    def vertices(self, listed: Any) -> Any:
        return self.ids[listed] if self.like_array else [self.ids[number] for number in listed]

    def claim(self, core: Any, order: Any) -> Optional[Tuple[Any, Any]]:
        return claim_of_names(_lists.as_list(self.ids), core, order)


class ByIndex(AsArrays):
    """Vertices have the labels of an index of pandas: numbers are told as a Series, and vertices as an Index."""

    def __init__(self, index: Any) -> None:
        self.index = index

    def named(self) -> Optional[List[Hashable]]:
        return list(self.index.tolist())

    def numbers(self, core: Any) -> Any:
        import pandas

        return pandas.Series(core, index=self.index, name="core_number")

    def vertices(self, listed: Any) -> Any:
        return self.index[listed]

    def claim(self, core: Any, order: Any) -> Optional[Tuple[Any, Any]]:
        if not hasattr(core, "keys"):
            raise TypeError(f"core is a Series or a mapping with the ids as keys, and not of the type {type(core).__name__}")
        return claim_of_names(self.index.tolist(), core, order)


def claim_of_names(names: Sequence[Hashable], core: Mapping[Hashable, int], order: Any) -> Optional[Tuple[List[int], List[int]]]:
    """Numbers and an order of names as the library takes them, or None where the numbers or the order are of other names."""
    _lists.refuse_unordered(order, "order")
    numbers = {name: number for number, name in enumerate(names)}
    listed = list(order)
    if len(core) != len(names) or any(name not in core for name in names) or any(name not in numbers for name in listed):
        return None
    return [core[name] for name in names], [numbers[name] for name in listed]


class Graph:
    """The ends of edges, one edge after the other, the number of vertices, and how results are told."""

    __slots__ = ("_ends", "vertices", "results")

    #: How the names end of those functions of the library that take a graph so.
    suffix = ""

    def __init__(self, ends: Any, vertices: Optional[int], results: AsArrays) -> None:
        if vertices is None:
            vertices = _lists.bound(ends)
        vertices = operator.index(vertices)
        if not 0 <= vertices <= _lists.GREATEST:
            raise ValueError(f"there are {vertices} vertices, and 0 to {_lists.GREATEST} are allowed{_lists.FAR_APART}")
        self._ends = ends
        self.vertices = vertices
        self.results = results

    @property
    def ends(self) -> Any:
        """The ends of the edges, one edge after the other."""
        return self._ends

    @property
    def edges(self) -> int:
        """How many edges are listed."""
        return _lists.size(self.ends) // 2

    def given(self) -> Tuple[int, ...]:
        """What the library is given behind the number of vertices: where the edges lie, and how many there are."""
        return _lists.address(self._ends), self.edges

    def call(self, name: str, *arguments: int, other: Tuple[int, ...] = ()) -> _library.Answer:
        """Calls the library. Raises NotAVertexError or MemoryError, and RuntimeError at a status that is neither 0 nor one of `other`."""
        function = getattr(_library, name + self.suffix)
        answer: _library.Answer = function(self.vertices, *self.given(), *arguments)
        if answer.status == _library.NOT_A_VERTEX:
            raise NotAVertexError(answer.number, self.edge(answer.number), self.vertices)
        if answer.status == _library.NO_MEMORY:
            raise MemoryError("there is no memory for the graph")
        if answer.status != _library.DONE and answer.status not in other:
            raise RuntimeError(f"{function.__name__} answered the status {answer.status}, which is not one that it may have here")
        return answer

    def edge(self, place: int) -> Tuple[int, int]:
        """The ends of the edge at this place."""
        first, second = self.ends.reshape(-1, 2)[place] if _lists.is_array(self.ends) else self.ends[2 * place : 2 * place + 2]
        return int(first), int(second)

    def room(self) -> Any:
        """A place for each vertex."""
        return _lists.room(self.vertices, self.results.like_array)

    def core_numbers(self) -> Any:
        """The core number of each vertex."""
        core = self.room()
        self.call("core_numbers", _lists.address(core), self.vertices)
        return core

    def decomposition(self) -> Tuple[Any, Any]:
        """The core number of each vertex, and an order that certifies them."""
        core, order = self.room(), self.room()
        self.call("degeneracy_order", _lists.address(core), self.vertices, _lists.address(order), self.vertices)
        return core, order

    def k_core(self, k: int) -> Any:
        """The vertices of the k-core, ascending."""
        members = self.room()
        # No core number is as great as the greatest number of 32 bits, so that number stands for each greater k.
        answer = self.call("k_core", min(k, _lists.GREATEST), _lists.address(members), self.vertices)
        return members[: answer.number]

    def certifies(self, core: Any, order: Any) -> bool:
        """Whether the order certifies the numbers. Both are lists that the library reads."""
        claim = (_lists.address(core), _lists.size(core), _lists.address(order), _lists.size(order))
        return bool(self.call("check", *claim, other=(_library.NOT_CERTIFIED,)).status == _library.DONE)


class RowGraph(Graph):
    """The neighbours of each vertex in arrays of NumPy, in the form that is known as CSR. They are read where they lie, and no pairs are
    made for the library; those of `ends` are made when they are asked for.

    `halves` says that each edge stands in one row alone. Else it stands in the rows of both its ends.
    """

    __slots__ = ("offsets", "neighbours", "halves")

    suffix = "_csr"

    def __init__(self, offsets: Any, neighbours: Any, halves: bool, results: AsArrays) -> None:
        super().__init__(None, len(offsets) - 1, results)
        self.offsets = offsets
        self.neighbours = neighbours
        self.halves = halves

    @property
    def ends(self) -> Any:
        if self._ends is None:
            import numpy

            rows = numpy.repeat(numpy.arange(self.vertices, dtype=numpy.uint32), numpy.diff(self.offsets.astype(numpy.int64)))
            kept = slice(None) if self.halves else rows <= self.neighbours
            self._ends = numpy.stack([rows[kept], self.neighbours[kept]], axis=1)
        return self._ends

    def given(self) -> Tuple[int, ...]:
        offsets, neighbours = self.offsets, self.neighbours
        return _lists.address(offsets), _lists.size(offsets), _lists.address(neighbours), _lists.size(neighbours)

    def edge(self, place: int) -> Tuple[int, int]:
        """The row in which the entry at this place stands, and the entry."""
        return int(self.offsets.searchsorted(place, "right")) - 1, int(self.neighbours[place])
