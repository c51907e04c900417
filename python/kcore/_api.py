"""The functions that the package hands out."""

from __future__ import annotations

import operator
from typing import Any, Optional

from . import _forms, _layers, _lists
from ._graph import ByIndex, Graph


def core_numbers(edges: Any, vertices: Optional[int] = None, *, axis: Any = None, columns: Any = None, return_ids: bool = False) -> Any:
    """The core number of each vertex.

    Parameters
    ----------
    edges : array, iterable of pairs, graph, sparse matrix or data frame
        The edges, in any order and in one of the forms of the table below. Loops are dropped, and an edge that comes again, in either
        direction, counts once.
    vertices : int, optional
        How many vertices there are: they are the numbers below it. By default one more than the greatest end. For arrays and for pairs of
        integers only.
    axis : {0, 1}, optional
        Along which axis of an array the two ends of an edge lie: 1 where an edge is a row, and 0 where it is a column, as in an edge index
        of the shape (2, edges). By default edges are rows, but for an array of the shape (2, 2) it has to be said.
    columns : pair of names or places, optional
        Which columns of a data frame have the ends. By default its two columns.
    return_ids : bool
        Say True where the ends are ids, whole numbers that may be far apart. The vertices are the ids that occur then, and the result is
        the pair of the numbers and the ids, both in ascending order of the ids. For arrays and for pairs of integers only.

    Returns
    -------
    array of uint32, list of int, dict, or Series
        The core number of each vertex, as the table says. With `return_ids` a pair: numbers and ids.

    Raises
    ------
    NotAVertexError
        Where an end is not below `vertices`.
    ValueError
        Where the shape of an array or a matrix is none of edges, an edge is no pair, a matrix is not symmetric, or an end or `vertices` does
        not fit 32 bits.
    TypeError
        Where the edges have none of the forms, a graph is directed or has several edges between two vertices, an end is no integer
        and no name, an array is masked, or a word does not go with the form.
    MemoryError
        Where there is no memory.
    RuntimeError
        Where the library answers a status that it does not have here, as only one of another version would.

    Notes
    -----
    The core number is the greatest k for which some set of vertices has the vertex, and gives each member at least k neighbours inside the
    set [1]_. Vertices are taken one after the other, those with the fewest neighbours left first [2]_, in time linear in the edges but for
    sorting the neighbours of each vertex. Each call makes the graph anew. No function of this module may be called in the child of a fork
    of a process with several threads.

    ================================  =====================  =============================
    Form                              Vertices               Numbers, and some vertices
    ================================  =====================  =============================
    array of integers                 numbers                arrays
    array or buffer protocol          numbers                arrays
    sparse matrix of SciPy            its rows               arrays
    iterable of pairs of integers     numbers                lists
    graph of igraph                   its indices            lists
    iterable of pairs of names        the names              dict, and list of names
    graph of networkx                 its nodes              dict, and list of nodes
    data frame of pandas              the values             Series, and Index
    ================================  =====================  =============================

    Pairs are pairs of names where one of the ends is no integer.

    References
    ----------
    .. [1] S. B. Seidman, "Network structure and minimum degree", Social Networks 5 (1983), 269-287.
    .. [2] V. Batagelj and M. Zaversnik, "An O(m) algorithm for cores decomposition of networks", 2003, arXiv:cs/0310049.

    Examples
    --------
    >>> core_numbers([(0, 1), (1, 2), (2, 0), (2, 3)])
    [2, 2, 2, 1]
    >>> core_numbers([(0, 1)], vertices=3)
    [1, 1, 0]
    >>> core_numbers([("ann", "bob"), ("bob", "eve")])
    {'ann': 1, 'bob': 1, 'eve': 1}
    >>> core_numbers([(7, 10**12), (10**12, 10**15)], return_ids=True)
    ([1, 1, 1], [7, 1000000000000, 1000000000000000])
    """
    graph = _read(edges, vertices, axis, columns, return_ids)
    return _told(graph, graph.results.numbers(graph.core_numbers()))


def degeneracy_order(
    edges: Any, vertices: Optional[int] = None, *, axis: Any = None, columns: Any = None, return_ids: bool = False
) -> Any:
    """The core number of each vertex, and the vertices in an order that certifies these numbers.

    Parameters
    ----------
    edges, vertices, axis, columns, return_ids
        As `core_numbers` takes them.

    Returns
    -------
    core : array of uint32, list of int, dict, or Series
        The core number of each vertex, as `core_numbers` returns it.
    order : array, list or Index
        Each vertex once. The numbers never fall along it, and each vertex has at most as many later neighbours as its number.
    ids : array or list
        The ids that occur, ascending. With `return_ids` only.

    Raises
    ------
    NotAVertexError, ValueError, TypeError, MemoryError, RuntimeError
        As `core_numbers` does.

    See Also
    --------
    check : whether an order certifies numbers, wherever both come from.

    Notes
    -----
    Such an order is a degeneracy order [1]_. With it anyone can check the numbers at one pass over the edges [2]_.

    References
    ----------
    .. [1] D. W. Matula and L. L. Beck, "Smallest-last ordering and clustering and graph coloring algorithms", Journal of the ACM 30 (1983),
       417-427.
    .. [2] Y. Zhang, J. X. Yu, Y. Zhang and L. Qin, "A fast order-based approach for core maintenance", ICDE 2017, 337-348.

    Examples
    --------
    >>> core, order = degeneracy_order([(0, 1), (1, 2), (2, 0), (2, 3)])
    >>> core, order[0]
    ([2, 2, 2, 1], 3)
    """
    graph = _read(edges, vertices, axis, columns, return_ids)
    core, order = graph.decomposition()
    return _told(graph, graph.results.numbers(core), graph.results.vertices(order))


def k_core(
    edges: Any,
    k: Optional[int] = None,
    vertices: Optional[int] = None,
    *,
    axis: Any = None,
    columns: Any = None,
    return_ids: bool = False,
) -> Any:
    """The vertices of the k-core: the greatest set of vertices that gives each member at least `k` neighbours inside.

    Parameters
    ----------
    edges, vertices, axis, columns
        As `core_numbers` takes them.
    k : int, optional
        How many neighbours inside each member has. No core number is above 32 bits, so a k above them has no members. By default the
        greatest core number, which gives the main core.
    return_ids : bool
        Say True where the ends are ids, whole numbers that may be far apart. Members are told as ids then.

    Returns
    -------
    array, list or Index
        The members, ascending; names in the order of the nodes of a graph, or in which they first come in the edges.

    Raises
    ------
    NotAVertexError, MemoryError, RuntimeError
        As `core_numbers` does.
    ValueError
        As `core_numbers` does, and where `k` is negative.
    TypeError
        As `core_numbers` does, and where `k` is no integer.

    Examples
    --------
    >>> edges = [(0, 1), (1, 2), (2, 0), (2, 3)]
    >>> k_core(edges, 1)
    [0, 1, 2, 3]
    >>> k_core(edges)
    [0, 1, 2]
    """
    if k is None:
        return main_core(edges, vertices, axis=axis, columns=columns, return_ids=return_ids)
    k = _asked(k)
    graph = _read(edges, vertices, axis, columns, return_ids)
    return graph.results.vertices(graph.k_core(k))


def main_core(edges: Any, vertices: Optional[int] = None, *, axis: Any = None, columns: Any = None, return_ids: bool = False) -> Any:
    """The vertices of the main core, the k-core of the greatest k that has members.

    Parameters
    ----------
    edges, vertices, axis, columns, return_ids
        As `k_core` takes them.

    Returns
    -------
    array, list or Index
        The members, in the order of `k_core`.

    Raises
    ------
    NotAVertexError, ValueError, TypeError, MemoryError, RuntimeError
        As `core_numbers` does.

    Examples
    --------
    >>> main_core([(0, 1), (1, 2), (2, 0), (2, 3)])
    [0, 1, 2]
    """
    graph = _read(edges, vertices, axis, columns, return_ids)
    core = graph.core_numbers()
    return graph.results.vertices(_lists.places_between(core, _top(core), _lists.GREATEST))


def k_shell(
    edges: Any,
    k: Optional[int] = None,
    vertices: Optional[int] = None,
    *,
    axis: Any = None,
    columns: Any = None,
    return_ids: bool = False,
) -> Any:
    """The vertices whose core number is `k`: those of the k-core that are not in the (k+1)-core [1]_.

    Parameters
    ----------
    edges, vertices, axis, columns, return_ids
        As `k_core` takes them.
    k : int, optional
        By default the greatest core number.

    Returns
    -------
    array, list or Index
        The vertices, in the order of `k_core`.

    Raises
    ------
    NotAVertexError, ValueError, TypeError, MemoryError, RuntimeError
        As `k_core` does.

    References
    ----------
    .. [1] S. Carmi, S. Havlin, S. Kirkpatrick, Y. Shavitt and E. Shir, "A model of Internet topology using k-shell decomposition", PNAS 104
       (2007), 11150-11154.

    Examples
    --------
    >>> k_shell([(0, 1), (1, 2), (2, 0), (2, 3)], 1)
    [3]
    """
    asked = None if k is None else _asked(k)
    graph = _read(edges, vertices, axis, columns, return_ids)
    core = graph.core_numbers()
    number = _top(core) if asked is None else asked
    return graph.results.vertices(_lists.places_between(core, number, number))


def k_crust(
    edges: Any,
    k: Optional[int] = None,
    vertices: Optional[int] = None,
    *,
    axis: Any = None,
    columns: Any = None,
    return_ids: bool = False,
) -> Any:
    """The vertices whose core number is at most `k`: those that are not in the (k+1)-core.

    Parameters
    ----------
    edges, vertices, axis, columns, return_ids
        As `k_core` takes them.
    k : int, optional
        By default one less than the greatest core number, so that all vertices but the main core are told.

    Returns
    -------
    array, list or Index
        The vertices, in the order of `k_core`.

    Raises
    ------
    NotAVertexError, ValueError, TypeError, MemoryError, RuntimeError
        As `k_core` does.

    Notes
    -----
    The crust is that of networkx. Carmi and others [1]_ leave out the vertices whose core number is k.

    References
    ----------
    .. [1] S. Carmi, S. Havlin, S. Kirkpatrick, Y. Shavitt and E. Shir, "A model of Internet topology using k-shell decomposition", PNAS 104
       (2007), 11150-11154.

    Examples
    --------
    >>> k_crust([(0, 1), (1, 2), (2, 0), (2, 3)])
    [3]
    """
    asked = None if k is None else _asked(k)
    graph = _read(edges, vertices, axis, columns, return_ids)
    core = graph.core_numbers()
    return graph.results.vertices(_lists.places_between(core, 0, _top(core) - 1 if asked is None else asked))


def k_corona(
    edges: Any, k: int, vertices: Optional[int] = None, *, axis: Any = None, columns: Any = None, return_ids: bool = False
) -> Any:
    """The vertices of the k-core that have exactly `k` neighbours in it [1]_.

    Parameters
    ----------
    edges, vertices, axis, columns, return_ids
        As `k_core` takes them.
    k : int
        How many neighbours inside the k-core each vertex has.

    Returns
    -------
    array, list or Index
        The vertices, in the order of `k_core`.

    Raises
    ------
    NotAVertexError, ValueError, TypeError, MemoryError, RuntimeError
        As `k_core` does.

    References
    ----------
    .. [1] A. V. Goltsev, S. N. Dorogovtsev and J. F. F. Mendes, "k-core (bootstrap) percolation on complex networks: Critical phenomena and
       nonlocal effects", Physical Review E 73 (2006), 056101.

    Examples
    --------
    >>> k_corona([(0, 1), (1, 2), (2, 0), (2, 3)], 2)
    [0, 1, 2]
    >>> k_corona([(0, 1), (1, 2), (2, 0), (2, 3)], 1)
    [3]
    """
    k = _asked(k)
    graph = _read(edges, vertices, axis, columns, return_ids)
    core = graph.core_numbers()
    inside = _lists.counts_inside(graph.ends, core, k)
    shell = _lists.places_between(core, k, k)
    return graph.results.vertices(_lists.taken(shell, inside, k))


def onion_layers(edges: Any, vertices: Optional[int] = None, *, axis: Any = None, columns: Any = None, return_ids: bool = False) -> Any:
    """The layer of each vertex in the onion decomposition [1]_, as networkx numbers it.

    Parameters
    ----------
    edges, vertices, axis, columns, return_ids
        As `core_numbers` takes them.

    Returns
    -------
    array of uint32, list of int, dict, or Series
        The layer of each vertex, from 1 on, in the form of `core_numbers`. With `return_ids` a pair: layers and ids.

    Raises
    ------
    NotAVertexError, ValueError, TypeError, MemoryError, RuntimeError
        As `core_numbers` does.

    Notes
    -----
    Vertices go round by round. Let k be the least number of neighbours that a vertex has left, or the k before where that is greater. All
    vertices with at most k neighbours left go at once: they are the next layer, and their core number is k. So the layers of a lesser core
    number come before those of a greater one, and each core number begins a layer of its own.

    The core numbers are the library's, which are proved. The rounds are made of them in plain Python, or by NumPy where arrays come. They
    are tested beside networkx, and not proved. The layers that the program `cores` writes are proved. Those begin anew with each core
    number, at 0.

    References
    ----------
    .. [1] L. Hébert-Dufresne, J. A. Grochow and A. Allard, "Multi-scale structure and topological anomaly detection via a new network
       statistic: The onion decomposition", Scientific Reports 6 (2016), 31708.

    Examples
    --------
    >>> onion_layers([(0, 1), (1, 2), (2, 0), (2, 3), (3, 4)])
    [3, 3, 3, 2, 1]
    """
    graph = _read(edges, vertices, axis, columns, return_ids)
    layers = _layers.onion_layers(graph, graph.core_numbers())
    told = graph.results.numbers(layers)
    return _told(graph, told.rename("onion_layer") if isinstance(graph.results, ByIndex) else told)


def degeneracy(edges: Any, vertices: Optional[int] = None, *, axis: Any = None, columns: Any = None, return_ids: bool = False) -> int:
    """The greatest core number, which is the degeneracy of the graph [1]_; 0 where there are no vertices.

    Parameters
    ----------
    edges, vertices, axis, columns, return_ids
        As `k_core` takes them.

    Returns
    -------
    int
        The greatest core number.

    Raises
    ------
    NotAVertexError, ValueError, TypeError, MemoryError, RuntimeError
        As `core_numbers` does.

    References
    ----------
    .. [1] D. R. Lick and A. T. White, "k-degenerate graphs", Canadian Journal of Mathematics 22 (1970), 1082-1096.

    Examples
    --------
    >>> degeneracy([(0, 1), (1, 2), (2, 0), (2, 3)])
    2
    """
    return _top(_read(edges, vertices, axis, columns, return_ids).core_numbers())


def check(
    edges: Any, core: Any, order: Any, vertices: Optional[int] = None, *, axis: Any = None, columns: Any = None, ids: Any = None
) -> bool:
    """Whether an order certifies that numbers are the core numbers, wherever both come from.

    Parameters
    ----------
    edges, vertices, axis, columns
        As `core_numbers` takes them.
    core : array of one dimension, sequence of int, mapping, or Series
        The number of each vertex at its place. Where vertices have names, as those of a graph of networkx, a mapping with these as keys.
    order : array of one dimension, sequence, or Index
        The vertices in order.
    ids : array of one dimension or sequence of int, optional
        Where the ends are ids, as with `return_ids` of `core_numbers`: the id of each number in `core`. The order is one of ids then.

    Returns
    -------
    bool
        True exactly where `core` has a number for each vertex and nothing else, `order` has each vertex once and nothing else, the numbers
        never fall along it, and each vertex has at most as many later neighbours as its number and at least as many neighbours whose number
        is no less [1]_. The numbers are the core numbers then. Lists of any length and content may be given.

    Raises
    ------
    NotAVertexError, MemoryError, RuntimeError
        As `core_numbers` does.
    ValueError
        As `core_numbers` does, and where `core` or `order` is an array that has not one dimension.
    TypeError
        As `core_numbers` does, and where `core` or `order` has something else than integers, or is of bytes, a set, a masked array or, but
        where vertices have names, a mapping. Where they have names, where `core` is no mapping.

    References
    ----------
    .. [1] Y. Zhang, J. X. Yu, Y. Zhang and L. Qin, "A fast order-based approach for core maintenance", ICDE 2017, 337-348.

    Examples
    --------
    >>> edges = [(0, 1), (1, 2), (2, 0), (2, 3)]
    >>> check(edges, [2, 2, 2, 1], [3, 0, 1, 2])
    True
    >>> check(edges, [2, 2, 2, 2], [3, 0, 1, 2])
    False
    """
    graph = _read(edges, vertices, axis, columns, ids is not None)
    if ids is not None:
        core = _by_id(ids, core)
        if core is None:
            return False
    claim = graph.results.claim(core, order)
    if claim is None:
        return False
    core, order = claim
    try:
        core, order = _lists.from_numbers(core, "core"), _lists.from_numbers(order, "order")
        fit = True
    except OverflowError:
        # A number that does not fit 32 bits is neither a core number nor a vertex. The edges are judged still.
        core = order = _lists.room(0, False)
        fit = False
    return graph.certifies(core, order) and fit


def _read(edges: Any, vertices: Optional[int], axis: Any, columns: Any, return_ids: bool) -> Graph:
    return _forms.read(edges, _forms.Words(vertices, axis, columns, bool(return_ids)))


def _told(graph: Graph, *results: Any) -> Any:
    """The results, and the ids where the caller wants them: one alone, or a tuple."""
    if graph.results.ids is not None:
        results = (*results, graph.results.ids)
    return results if len(results) > 1 else results[0]


def _asked(k: Any) -> int:
    """The k that a caller gives. Raises TypeError where it is no integer, and ValueError where it is negative."""
    number = operator.index(k)
    if number < 0:
        raise ValueError(f"k is {number}, and no number of neighbours is negative")
    return number


def _top(core: Any) -> int:
    """The greatest core number, or 0 where there are no vertices."""
    return _lists.greatest(core) if len(core) else 0


def _by_id(ids: Any, core: Any) -> Any:
    """The numbers by their ids, or None where there are not as many of both, or an id comes twice."""
    _lists.refuse_unordered(ids, "ids")
    _lists.refuse_unordered(core, "core")
    numbers, names = list(core), _lists.as_list(ids)
    by_id = dict(zip(names, numbers))
    return by_id if len(numbers) == len(names) == len(by_id) else None
