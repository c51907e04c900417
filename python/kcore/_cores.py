"""A graph whose core numbers are kept right while edges come and go."""

from __future__ import annotations

import ctypes
import operator
import threading
from array import array
from typing import Any, Dict, Hashable, Iterable, Iterator, List, NoReturn, Optional, Sequence, Tuple, Union

from . import _edges, _forms, _library, _lists, _temporal
from ._graph import AsArrays, AsLists, Graph, NotAVertexError

#: The core numbers of a vertex before and after a call; before is None where the vertex is new.
Change = Tuple[Optional[int], int]

# For how many changes of core numbers there is room from the opening on.
_FEW = 64

_CLOSED = "these core numbers are closed"
_FAR_APART = ": say names=True where ids are far apart"


class _Place:
    """Memory in which a keeper of the library lies, from its opening to its end."""

    def __init__(self) -> None:
        align = _library.keeper_align()
        self._bytes = ctypes.create_string_buffer(_library.keeper_size() + align)
        first = ctypes.addressof(self._bytes)
        self.address = first + -first % align


class Cores:
    """A graph whose core numbers are kept right while edges come and go.

    An update costs what it concerns, and not the graph: mostly some microseconds. So does telling which core numbers changed. Where a call
    brings new vertices, it reads all core numbers once. Core numbers, and the order that certifies them, are the library's, whose contracts
    are proved [1]_. The edges are kept here too, for `to_edges`, `check` and pickling.

    Parameters
    ----------
    edges : as of `core_numbers`, optional
        The edges at the start. Where they have names, vertices have names.
    vertices : int, optional
        How many vertices there are, where vertices are numbers: all numbers below it, or up to the greatest end where it is left out.
    names : bool, optional
        True says that vertices have names whatever the edges are, so that numbers are names too. Ids may be far apart then.
    axis, columns : optional
        As of `core_numbers`.

    Raises
    ------
    ValueError
        Where there are more than 16,777,216 vertices.
    NotAVertexError, TypeError, ValueError, MemoryError
        As `core_numbers` does.

    Notes
    -----
    Several threads may use one `Cores`: a lock of its own lets one call in at a time. It is pickled and copied by its edges, and the copy
    may have another order. `close` gives its memory back at once, and so does a `with` statement at its end.

    References
    ----------
    .. [1] Y. Zhang, J. X. Yu, Y. Zhang and L. Qin, "A fast order-based approach for core maintenance", ICDE 2017, 337-348.

    Examples
    --------
    >>> cores = Cores([("ann", "bob"), ("bob", "cat")])
    >>> cores.insert([("cat", "ann"), ("ann", "dan")])
    {'ann': (1, 2), 'bob': (1, 2), 'cat': (1, 2), 'dan': (None, 1)}
    >>> cores["ann"], cores.degeneracy
    (2, 2)
    >>> cores.remove([("ann", "bob")])
    {'ann': (2, 1), 'bob': (2, 1), 'cat': (2, 1)}
    >>> cores.to_edges(), cores.check()
    ([('ann', 'cat'), ('ann', 'dan'), ('bob', 'cat')], True)
    """

    __slots__ = ("_lock", "_place", "_names", "_numbers", "_vertices", "_room", "_core", "_like_array", "_edges", "_told", "_told_at", "__weakref__")

    def __init__(
        self,
        edges: Any = (),
        vertices: Optional[int] = None,
        *,
        names: bool = False,
        axis: Optional[int] = None,
        columns: Optional[Sequence[Hashable]] = None,
    ) -> None:
        self._place: Optional[_Place] = None
        self._lock = threading.Lock()
        words = _forms.Words(vertices=vertices, axis=axis, columns=columns)
        if names and vertices is not None:
            raise TypeError("vertices does not go with names")
        graph = _read(edges, words, names)
        self._open(graph, graph.results.named())

    def _open(self, graph: Graph, names: Optional[List[Hashable]]) -> None:
        """Begins with a graph. Raises NotAVertexError, ValueError or MemoryError."""
        self._names: Optional[List[Hashable]] = names
        self._numbers: Dict[Hashable, int] = {} if names is None else {name: number for number, name in enumerate(names)}
        self._like_array = _lists.is_array(graph.ends)
        self._vertices = self._room = graph.vertices
        place = _Place()
        answer = _library.keeper_open(place.address, graph.vertices, _lists.address(graph.ends), graph.edges)
        if answer.status == _library.NOT_A_VERTEX:
            raise NotAVertexError(answer.number, graph.edge(answer.number), graph.vertices)
        if answer.status != _library.DONE:
            self._refuse(answer)
        self._place = place
        self._core = self._read()
        self._edges = _edges.KeptEdges(graph.ends)
        self._told = array(_lists.CODE, bytes(12 * _FEW))
        self._told_at = _lists.address(self._told)

    def __reduce__(self) -> Tuple[Any, ...]:
        with self._lock:
            self._refuse_closed()
            return _opened, (self._edges.pairs(), self._vertices, self._names)

    def __enter__(self) -> Cores:
        return self

    def __exit__(self, *_: Any) -> None:
        self.close()

    def __del__(self) -> None:
        if getattr(self, "_place", None) is not None:
            self.close()

    def close(self) -> None:
        """Gives the memory back. No other call may follow."""
        with self._lock:
            place, self._place = self._place, None
            if place is not None:
                _library.keeper_end(place.address)

    def __len__(self) -> int:
        """How many vertices there are."""
        return self._vertices

    def __contains__(self, vertex: Any) -> bool:
        return self._number(vertex) is not None

    def __getitem__(self, vertex: Any) -> int:
        """The core number of a vertex. Raises KeyError where it is none."""
        with self._lock:
            number = self._number(vertex)
            if number is None:
                raise KeyError(vertex)
            return int(self._core[number])

    @property
    def degeneracy(self) -> int:
        """The greatest core number, and 0 where there are no vertices."""
        with self._lock:
            return _lists.greatest(self._core) if self._vertices else 0

    def core_numbers(self) -> Any:
        """The core number of each vertex: a dict by names, or else an array, or a list, by vertex, as `core_numbers` of the module has it."""
        with self._lock:
            if self._names is not None:
                return dict(zip(self._names, _lists.as_list(self._core)))
            return self._core.copy() if self._like_array else _lists.as_list(self._core)

    def k_core(self, k: Optional[int] = None) -> List[Any]:
        """The vertices of the k-core, in the order in which they came; without `k` those of the main core, of the greatest core number."""
        with self._lock:
            least = _lists.greatest(self._core) if k is None and self._vertices else operator.index(k or 0)
            if least < 0:
                raise ValueError(f"k is {least}, and a k-core has k of 0 and more")
            return [self._vertex(number) for number in _lists.places_between(self._core, least, _lists.GREATEST).tolist()]

    def main_core(self) -> List[Any]:
        """The vertices of the main core, the k-core of the greatest k that has members."""
        return self.k_core()

    def order(self) -> List[Any]:
        """The vertices in the order that certifies the core numbers: these never fall along it, and each vertex has at most as many later
        neighbours as its number. `before` compares two places in it."""
        with self._lock:
            return [self._vertex(number) for number in _lists.as_list(self._order())]

    def to_edges(self) -> Any:
        """The edges, each once and in the order of the vertices: an array of the shape (edges, 2) where all edges came in arrays, or else a
        list of pairs."""
        with self._lock:
            self._refuse_closed()
            pairs = self._edges.pairs()
            if self._names is None:
                return pairs
            return [(self._names[first], self._names[second]) for first, second in pairs]

    def check(self) -> bool:
        """Whether the kept order certifies the kept core numbers for the edges that `to_edges` tells, by `check` of the module, which makes
        that graph anew. It is True unless this module, the machine or the caller's memory is faulty."""
        with self._lock:
            order = self._order()
            ends, like_array = _edges.flat(self._edges.pairs())
            core = _lists.from_numbers(self._core, "core")
            results = AsArrays() if like_array else AsLists()
            return Graph(ends, self._vertices, results).certifies(core, order)

    def before(self, first: Any, second: Any) -> bool:
        """Whether one vertex stands before another in the order that certifies the core numbers. Raises KeyError where one is no vertex."""
        with self._lock:
            numbers = [self._number(vertex) for vertex in (first, second)]
            for number, vertex in zip(numbers, (first, second)):
                if number is None:
                    raise KeyError(vertex)
            return bool(self._call(_library.keeper_before, *numbers).number)

    def add_vertices(self, more: Union[int, Iterable[Hashable]]) -> None:
        """Adds vertices without edges: so many, where vertices are numbers, or those with these names. Names that are there stay."""
        with self._lock:
            if self._names is None:
                count = operator.index(more)  # type: ignore[arg-type]
                if count < 0:
                    raise ValueError(f"{count} vertices can't be added")
                self._grow(self._vertices + count)
            else:
                new = [name for name in dict.fromkeys(more) if name not in self._numbers]  # type: ignore[arg-type]
                for name in new:
                    _forms.refuse_no_name(name)
                self._grow(self._vertices + len(new), new)
            self._core = self._read()

    def insert(self, edges: Any, *, axis: Optional[int] = None, columns: Optional[Sequence[Hashable]] = None) -> Dict[Any, Change]:
        """Adds edges. Ends that are no vertices yet become vertices. What is told is as of `apply`."""
        changes = self._changed_by_one(edges, 1) if axis is None and columns is None else None
        return self.apply(insert=edges, axis=axis, columns=columns) if changes is None else changes

    def remove(self, edges: Any, *, axis: Optional[int] = None, columns: Optional[Sequence[Hashable]] = None) -> Dict[Any, Change]:
        """Removes edges. An edge that is not there is passed over. What is told is as of `apply`."""
        changes = self._changed_by_one(edges, 0) if axis is None and columns is None else None
        return self.apply(remove=edges, axis=axis, columns=columns) if changes is None else changes

    def apply(
        self, insert: Any = (), remove: Any = (), *, axis: Optional[int] = None, columns: Optional[Sequence[Hashable]] = None
    ) -> Dict[Any, Change]:
        """Removes edges, and then adds edges.

        Parameters
        ----------
        insert, remove : as `edges` of `core_numbers`, optional
            An edge that is there is not added again, and one that is not there is not removed. Ends of edges that are added become vertices
            where they are none yet.
        axis, columns : optional
            As of `core_numbers`, for both.

        Returns
        -------
        dict
            For each vertex whose core number changed, or that is new, its number before and after; before is None where it is new.

        Raises
        ------
        MemoryError
            Where there is none. The message tells how many updates were made, removals first; the core numbers are those after them.
        ValueError
            Where there would be more than 16,777,216 vertices. Nothing was changed.
        TypeError, ValueError
            As `core_numbers` does. Nothing was changed.
        """
        words = _forms.NOTHING_SAID if axis is None and columns is None else _forms.Words(axis=axis, columns=columns)
        named = self._names is not None
        leaving = _read(remove, words, named) if _is_given(remove) else None
        coming = _read(insert, words, named) if _is_given(insert) else None
        with self._lock:
            count = self._vertices
            updates = _lists.NO_UPDATES if leaving is None else _lists.updates_of(self._known_ends(leaving), False)
            if coming is not None:
                ends, vertices, new = self._all_ends(coming)
                if vertices > count:
                    self._grow(vertices, new)
                    self._core = self._read()
                added = _lists.updates_of(ends, True)
                updates = added if leaving is None else _joined(updates, added)
            changes: Dict[Any, Change] = {}
            for place, before, now in self._made(updates):
                if place < count:
                    changes[self._vertex(place)] = (before, now)
            if self._vertices > count:
                changes.update((self._vertex(place), (None, int(self._core[place]))) for place in range(count, self._vertices))
            return changes

    def _changed_by_one(self, edges: Any, add: int) -> Optional[Dict[Any, Change]]:
        """Makes the update of one edge, the call that comes most often, and tells what `apply` does. It is not made, and None is told, where
        the edges are no list of just one tuple of two vertices that are numbers."""
        if type(edges) is not list or len(edges) != 1 or type(edges[0]) is not tuple or len(edges[0]) != 2 or self._names is not None:
            return None
        first, second = edges[0]
        if type(first) is not int or type(second) is not int:
            return None
        with self._lock:
            if not (0 <= first < self._vertices and 0 <= second < self._vertices):
                return None
            made = self._made(array(_lists.CODE, (first, second, add)))
        return {place: (before, now) for place, before, now in made}

    def _made(self, updates: Any) -> List[Tuple[int, int, int]]:
        """Makes updates, and tells each vertex whose core number they changed, as `_changed` does. Raises MemoryError where some are not made."""
        size = len(updates) // 3
        answer = self._answer(_library.keeper_apply, _lists.address(updates), size)
        changed = self._changed()
        for place, _, now in changed:
            self._core[place] = now
        if answer.status == _library.NO_MEMORY:
            self._edges.note(updates[: 3 * answer.number])
            raise MemoryError(f"there is no memory: the first {answer.number} of {size} updates are made")
        if answer.status != _library.DONE:
            self._refuse(answer)
        self._edges.note(updates)
        return changed

    def replay(self, batches: Iterable[_temporal.Batch], *, core_numbers: bool = False) -> Iterator[_temporal.BatchResult]:
        """Applies batches of edges with times one by one, as `kcore.batches` makes them. Vertices come as edges bring them.

        Parameters
        ----------
        batches : iterable of Batch
            Each has `begin`, `end`, `insert` and `remove`. It is applied when its result is asked for, and not before.
        core_numbers : bool
            Whether each result has the core numbers of all vertices after its batch.

        Yields
        ------
        BatchResult
            The interval as `begin` and `end`, the `changes` as `apply` tells them, and `core_numbers`, or None where they are not asked for.

        Raises
        ------
        MemoryError, ValueError, TypeError
            As `apply` does, when the result of the batch is asked for. The batches before it are applied.

        Examples
        --------
        >>> from kcore import batches
        >>> rows = [("ann", "bob", 0), ("bob", "cat", 4), ("cat", "ann", 11)]
        >>> for result in Cores(names=True).replay(batches(rows, every=10)):
        ...     print(result.begin, result.end, result.changes)
        0 10 {'ann': (None, 1), 'bob': (None, 1), 'cat': (None, 1)}
        10 20 {'ann': (1, 2), 'bob': (1, 2), 'cat': (1, 2)}
        """
        return _temporal.replay(self, batches, core_numbers)

    def _number(self, vertex: Any) -> Optional[int]:
        """The number of a vertex, or None where it is none."""
        if self._names is not None:
            return self._numbers.get(vertex)
        try:
            number = operator.index(vertex)
        except TypeError:
            return None
        return number if 0 <= number < self._vertices else None

    def _vertex(self, number: int) -> Any:
        """What stands for a number: its name, or the number."""
        return number if self._names is None else self._names[number]

    def _known_ends(self, graph: Graph) -> Any:
        """The ends of those edges both of whose ends are vertices, as numbers of this graph."""
        names = self._names_in(graph)
        if names is None:
            return _lists.within(graph.ends, self._vertices)
        numbers = [self._numbers.get(name, _library.KEEPER_VERTICES) for name in names]
        return _lists.within(array(_lists.CODE, [numbers[end] for end in _lists.as_list(graph.ends)]), self._vertices)

    def _all_ends(self, graph: Graph) -> Tuple[Any, int, List[Hashable]]:
        """The ends of all edges as numbers of this graph, how many vertices there are with them, and the names that are new."""
        names = self._names_in(graph)
        if names is None:
            return graph.ends, max(self._vertices, graph.vertices), []
        new = [name for name in names if name not in self._numbers]
        later = {name: number for number, name in enumerate(new, self._vertices)}
        numbers = [self._numbers[name] if name in self._numbers else later[name] for name in names]
        return array(_lists.CODE, [numbers[end] for end in _lists.as_list(graph.ends)]), self._vertices + len(new), new

    def _names_in(self, graph: Graph) -> Optional[List[Hashable]]:
        """The names of the vertices of some edges, or None where they are numbers. Raises TypeError where they are not what vertices are here."""
        names = graph.results.named()
        if self._names is None and names is not None:
            raise TypeError("the vertices are numbers here, and these edges have names: open it with names=True")
        if self._names is not None and names is None:
            return []
        return names

    def _grow(self, vertices: int, names: Sequence[Hashable] = ()) -> None:
        """Makes room for so many vertices, twice as much as there was, so that vertices may come one by one; the new ones have these names."""
        if vertices > _library.KEEPER_VERTICES:
            raise ValueError(f"there would be {vertices} vertices, and there may be {_library.KEEPER_VERTICES}{_FAR_APART}")
        if vertices > self._room:
            room = min(max(vertices, 2 * self._room, 16), _library.KEEPER_VERTICES)
            self._call(_library.keeper_grow, room)
            self._room = room
        if self._names is not None:
            self._numbers.update((name, number) for number, name in enumerate(names, self._vertices))
            self._names.extend(names)
        self._vertices = vertices

    def _read(self) -> Any:
        """The core number of each vertex."""
        core = _lists.room(self._room, self._like_array)
        self._call(_library.keeper_core_numbers, _lists.address(core), self._room)
        return core[: self._vertices]

    def _order(self) -> Any:
        """The vertices in the order of the keeper, as numbers."""
        order = _lists.room(self._room, self._like_array)
        self._call(_library.keeper_order, _lists.address(order), self._room)
        # Places for vertices to come have no edges, and may stand anywhere.
        if self._room == self._vertices:
            return order
        if self._like_array:
            return order[order < self._vertices]
        return array(_lists.CODE, [number for number in order if number < self._vertices])

    def _changed(self) -> List[Tuple[int, int, int]]:
        """Each vertex whose core number the last batch changed, in ascending order, with its number before and now."""
        told = self._told
        number = self._call(_library.keeper_changes, 0, self._told_at, _FEW).number
        if not number:
            return []
        if number > _FEW:
            told = array(_lists.CODE, bytes(12 * number))
            self._call(_library.keeper_changes, 0, _lists.address(told), number)
        return list(zip(told[0 : 3 * number : 3], told[1 : 3 * number : 3], told[2 : 3 * number : 3]))

    def _refuse_closed(self) -> None:
        if self._place is None:
            raise ValueError(_CLOSED)

    def _answer(self, function: Any, *arguments: Any) -> _library.Answer:
        if self._place is None:
            raise ValueError(_CLOSED)
        answer: _library.Answer = function(self._place.address, *arguments)
        return answer

    def _call(self, function: Any, *arguments: Any) -> _library.Answer:
        if self._place is None:
            raise ValueError(_CLOSED)
        answer: _library.Answer = function(self._place.address, *arguments)
        if answer.status != _library.DONE:
            self._refuse(answer)
        return answer

    def _refuse(self, answer: _library.Answer) -> NoReturn:
        if answer.status == _library.NO_MEMORY:
            raise MemoryError("there is no memory for the graph")
        if answer.status == _library.TOO_MANY_VERTICES:
            raise ValueError(f"there are {self._vertices} vertices, and there may be {_library.KEEPER_VERTICES}{_FAR_APART}")
        raise RuntimeError(f"the library answered the status {answer.status}, which is not one that it may have here")


def _opened(pairs: Any, vertices: int, names: Optional[List[Hashable]]) -> Cores:
    """A `Cores` of these edges, as it was pickled."""
    cores = Cores.__new__(Cores)
    cores._place = None
    cores._lock = threading.Lock()
    ends, like_array = _edges.flat(pairs)
    cores._open(Graph(ends, vertices, AsArrays() if like_array else AsLists()), names)
    return cores


def _is_given(edges: Any) -> bool:
    """Whether there may be edges. The empty tuple, which is none, is what is taken where a caller gives nothing."""
    return type(edges) is not tuple or bool(edges)


def _read(edges: Any, words: _forms.Words, names: bool) -> Graph:
    """The edges that a caller gives, where integers are names or not. No word goes with the empty tuple, which stands for no edges."""
    if isinstance(edges, tuple) and not edges:
        words = _forms.Words(vertices=words.vertices)
    try:
        return _forms.read_named(edges, words) if names else _forms.read(edges, words)
    except ValueError as cause:
        told = str(cause)
        if not told.endswith(_lists.FAR_APART):
            raise
        raise ValueError(told[: -len(_lists.FAR_APART)] + _FAR_APART) from None


def _joined(first: Any, second: Any) -> Any:
    """Two flat lists, one behind the other, as one that the library reads."""
    if not len(first):
        return second
    if not len(second):
        return first
    if _lists.is_array(first) and _lists.is_array(second):
        import numpy

        return numpy.concatenate((first, second))
    return array(_lists.CODE, _lists.as_list(first) + _lists.as_list(second))
