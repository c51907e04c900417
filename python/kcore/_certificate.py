"""A certificate of core numbers for edges that come in pieces."""

from __future__ import annotations

from typing import TYPE_CHECKING, Any, List, NoReturn, Optional, Sequence, Tuple, Union

from . import _forms, _library, _lists
from ._graph import Graph, NotAVertexError

if TYPE_CHECKING:
    import numpy

    Numbers = Union[numpy.ndarray, Sequence[int]]

#: The ends of an edge, the lesser one first.
Ends = Tuple[int, int]

_WRONG = {_library.LOOP: "both ends are the same", _library.GREATER_FIRST: "its greater end stands first"}


class WrongEdgeError(ValueError):
    """An edge of a piece is a loop, has its greater end first, or is not above the edge before it.

    Attributes
    ----------
    place : int
        Where the edge stands in the piece.
    edge : tuple of int
        Its ends.
    """

    def __init__(self, place: int, edge: Ends, wrong: str) -> None:
        super().__init__(f"edge {place} is {edge}: {wrong}")
        self.place = place
        self.edge = edge


class Certificate:
    """Whether claimed numbers are the core numbers of edges that come in pieces.

    Each edge gives the end that comes first, by its number, then its rank, then itself, a later neighbour. It gives each end whose
    neighbour has no lesser number a supporter. The numbers are the core numbers where each vertex has at most as many later neighbours as
    its number, and at least as many supporters [1]_. These counts are sums over edges. So pieces may be counted anywhere, each by a
    certificate of its own with the same claim, and merged. A certificate takes 16 bytes a vertex, keeps no edges, and can be pickled.

    Parameters
    ----------
    core : array of one dimension or sequence of int
        The claimed core number of each vertex.
    ranks : array of one dimension or sequence of int
        A number for each vertex: its place in an order that certifies the numbers, as `degeneracy_order` has one, or the round in which it
        is taken on its level [2]_. The verdict is never wrongly True, whatever the ranks are.

    Raises
    ------
    ValueError
        Where there are not as many ranks as core numbers, a number does not fit 32 bits, or an array has not one dimension.
    TypeError
        Where `core` or `ranks` has something else than integers, or is of bytes, a set, a mapping or a masked array.

    References
    ----------
    .. [1] Y. Zhang, J. X. Yu, Y. Zhang and L. Qin, "A fast order-based approach for core maintenance", ICDE 2017, 337-348.
    .. [2] L. Hébert-Dufresne, J. A. Grochow and A. Allard, "Multi-scale structure and topological anomaly detection via a new network
       statistic: The onion decomposition", Scientific Reports 6 (2016), 31708.

    Examples
    --------
    >>> core, ranks = [2, 2, 2, 1], [1, 2, 3, 0]
    >>> first, second = Certificate(core, ranks), Certificate(core, ranks)
    >>> first.add([(0, 1), (0, 2)])
    >>> second.add([(1, 2), (2, 3)])
    >>> first.merge(second)
    >>> first.verdict()
    True
    """

    __slots__ = ("_core", "_ranks", "_counts", "_ranges")

    def __init__(self, core: Numbers, ranks: Numbers) -> None:
        self._core = _lists.copy_of_numbers(core, "core")
        self._ranks = _lists.copy_of_numbers(ranks, "ranks")
        vertices, ranked = _lists.size(self._core), _lists.size(self._ranks)
        if vertices != ranked:
            raise ValueError(f"there are {vertices} core numbers and {ranked} ranks, and each vertex has one of both")
        if vertices > _lists.GREATEST:
            raise ValueError(f"there are {vertices} vertices, and 0 to {_lists.GREATEST} are allowed")
        # How many later neighbours each vertex has, and behind these how many supporters.
        self._counts = _lists.room(2 * vertices, _lists.is_array(self._core))
        # The first and the last edge of each piece that was counted here, ascending.
        self._ranges: List[Tuple[Ends, Ends]] = []

    @property
    def vertices(self) -> int:
        """How many vertices there are: they are the numbers below it."""
        return _lists.size(self._core)

    @property
    def last_edge(self) -> Optional[Ends]:
        """The greatest edge that was counted, or None where none was."""
        return max((last for _, last in self._ranges), default=None)

    def add(self, edges: Any) -> None:
        """Counts a piece of the edges.

        Parameters
        ----------
        edges : array of shape (edges, 2) or iterable of pairs of int
            Each edge has its lesser end first, and they ascend: by their first ends, and then by their second ones. The first one is above
            `last_edge`. So no edge is counted twice here. An array of `numpy.uint32` in rows is read where it lies.

        Raises
        ------
        NotAVertexError
            Where an end is no vertex.
        WrongEdgeError
            Where an edge is a loop, has its greater end first, or is not above the one before it.
        ValueError, TypeError
            As `core_numbers` does, and where `edges` is of another form, as a graph of networkx, whose edges may not ascend.

        Notes
        -----
        Where an error is raised nothing was counted.
        """
        piece = _forms.read_piece(edges, self.vertices)
        after = self.last_edge or (0, 0)
        lists = (self._core, self._ranks, self._counts)
        told = [word for numbers in lists for word in (_lists.address(numbers), _lists.size(numbers))]
        answer = _library.tally(piece.vertices, _library.Edge(*after), _lists.address(piece.ends), piece.edges, *told)
        if answer.status != _library.DONE:
            self._refuse(answer, piece)
        if piece.edges:
            self._ranges.append((piece.edge(0), piece.edge(piece.edges - 1)))

    def _refuse(self, answer: _library.Answer, piece: Graph) -> NoReturn:
        """Raises what the status of a piece says."""
        if answer.status == _library.NOT_A_VERTEX:
            raise NotAVertexError(answer.number, piece.edge(answer.number), piece.vertices)
        if answer.status in _WRONG:
            raise WrongEdgeError(answer.number, piece.edge(answer.number), _WRONG[answer.status])
        if answer.status == _library.NOT_ABOVE:
            before = piece.edge(answer.number - 1) if answer.number else self.last_edge
            raise WrongEdgeError(answer.number, piece.edge(answer.number), f"it is not above {before}, the edge before it")
        raise RuntimeError(f"kcore_tally answered the status {answer.status}, which is not one that it may have here")

    def merge(self, other: Certificate, disjoint: bool = False) -> None:
        """Adds the counts of other pieces. `other` stays as it is.

        Parameters
        ----------
        other : Certificate
            Has the same core numbers and ranks.
        disjoint : bool
            Where pieces of both lie among each other, as those do that a hash of the edge has parted, nothing here tells whether an edge is
            counted in both. Say True where you know that none is.

        Raises
        ------
        ValueError
            Where core numbers or ranks differ, with the first such place; or where a piece of the one begins before a piece of the other
            ends, unless `disjoint` is True. Nothing was added then.
        TypeError
            Where `other` is no certificate.
        """
        if not isinstance(other, Certificate):
            raise TypeError(f"only a certificate can be merged, and not something of the type {type(other).__name__}")
        if self.vertices != other.vertices:
            raise ValueError(f"there are {self.vertices} vertices here and {other.vertices} there")
        for what, here, there in [("core number", self._core, other._core), ("rank", self._ranks, other._ranks)]:
            place = _lists.first_difference(here, there)
            if place < self.vertices:
                raise ValueError(f"the {what} of vertex {place} is {here[place]} here and {there[place]} there")
        ranges = sorted(self._ranges + other._ranges)
        for (first, last), (begin, _) in zip(ranges, ranges[1:]):
            if begin <= last and not disjoint:
                raise ValueError(
                    f"a piece from {first} to {last} and one from {begin} on may have an edge in common: "
                    "give disjoint=True where you know that they have none"
                )
        _lists.add_up(self._counts, other._counts)
        self._ranges = ranges

    def verdict(self) -> bool:
        """Whether the counts so far agree with the claim.

        Returns
        -------
        bool
            True says that `core` has the core numbers of the graph with all edges that were counted. It is certain where no edge was counted
            twice: `add` and `merge` see to that, but where `disjoint` is True. False says that the numbers are wrong, or that the ranks do
            not show that they are right. With the places in an order that certifies the numbers as ranks, it says that they are wrong.
        """
        lists = (self._core, self._counts)
        told = [word for numbers in lists for word in (_lists.address(numbers), _lists.size(numbers))]
        answer: _library.Answer = _library.verdict(self.vertices, *told)
        if answer.status not in (_library.DONE, _library.NOT_AGREED):
            raise RuntimeError(f"kcore_verdict answered the status {answer.status}, which is not one that it may have here")
        return bool(answer.status == _library.DONE)
