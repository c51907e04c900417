"""The forms in which a graph may be given. FORMS is the table of them: `read` takes the first form that a value has."""

from __future__ import annotations

import operator
import sys
from array import array
from itertools import chain
from numbers import Integral, Real
from typing import Any, Callable, Dict, FrozenSet, Hashable, Iterable, Iterator, List, NamedTuple, Optional, Sequence, Tuple

from . import _lists
from ._graph import AsArrays, AsLists, ById, ByIndex, ByName, Graph, RowGraph


class Words(NamedTuple):
    """What a caller says beside the graph."""

    vertices: Optional[int] = None
    axis: Optional[int] = None
    columns: Optional[Sequence[Hashable]] = None
    return_ids: bool = False


class Form(NamedTuple):
    """A form of input: what messages call it, which words go with it, what has it, and how it is read."""

    name: str
    words: FrozenSet[str]
    holds: Callable[[Any], bool]
    read: Callable[[Any, Words], Graph]


#: What a caller says who says nothing.
NOTHING_SAID = Words()
_AS_ARRAYS = AsArrays()
_AS_LISTS = AsLists()
_TEXT = (str, bytes, bytearray)

_DIRECTED = "networkx counts the edges in and out of a node of a directed graph, and this module does not: give it graph.to_undirected()"
_SEVERAL = "networkx has no core numbers of a graph with several edges between two nodes: give networkx.Graph(graph), which keeps one of them"
_DIRECTED_IGRAPH = "igraph has several core numbers for a directed graph: give graph.as_undirected(), which keeps one edge for each pair"
_SEVERAL_IGRAPH = "igraph counts each of several edges between two vertices, and this module counts one: give graph.copy().simplify()"
_NOT_SYMMETRIC = "this matrix is neither symmetric nor triangular, so its graph is directed: give (matrix != 0) + (matrix != 0).T"
_STORED_ZEROS = "this matrix stores zeros, which are edges to some packages and none to others: call its eliminate_zeros() first"


def read(edges: Any, words: Words = NOTHING_SAID) -> Graph:
    """The graph that a caller gives. Raises TypeError where it has none of the forms, or a word does not go with its form."""
    form = _form_of(edges)
    if form is None:
        raise TypeError(f"edges are pairs of integers or of names, and not of the type {type(edges).__name__}. {told_forms()}")
    if words is not NOTHING_SAID:
        _refuse_other_words(form, words)
    return form.read(edges, words)


def _form_of(edges: Any) -> Optional[Form]:
    """The first form that a value has. A list or a tuple has the last one alone, which is known without asking."""
    if type(edges) in (list, tuple):
        return FORMS[-1]
    return next((form for form in FORMS if form.holds(edges)), None)


def read_piece(edges: Any, vertices: int) -> Graph:
    """A piece of the edges: an array with an edge in each row, or an iterable of pairs of integers."""
    form = _form_of(edges)
    if form is None or form.read not in (_read_array, _read_pairs):
        given = form.name if form else f"of the type {type(edges).__name__}"
        raise TypeError(f"a piece is an array or an iterable of pairs whose edges ascend, and not {given}")
    words = Words(vertices=vertices, axis=1 if form.read is _read_array else None)
    graph = form.read(edges, words)
    if isinstance(graph.results, ByName):
        raise TypeError("a piece has pairs of integers, and not of names")
    return graph


def read_named(edges: Any, words: Words = NOTHING_SAID) -> Graph:
    """The graph that a caller gives, whose vertices have names: integers are names too."""
    form = _form_of(edges)
    if form is not None and form.read is _read_pairs:
        _refuse_other_words(form, words)
        return _read_names(_ends_of(edges))
    graph = read(edges, words)
    if graph.results.named() is None:
        ends = zip(*[iter(_lists.as_list(graph.ends))] * 2)
        return _read_names(ends)
    return graph


def told_forms() -> str:
    """The forms in one sentence."""
    return "These forms are taken: " + "; ".join(form.name for form in FORMS) + "."


def _refuse_other_words(form: Form, words: Words) -> None:
    for word, value, unsaid in zip(Words._fields, words, NOTHING_SAID):
        if value is not unsaid and word not in form.words:
            raise TypeError(f"{word} does not go with {form.name}")


# Arrays.


def _read_array(edges: Any, words: Words) -> Graph:
    rows = _rows(edges, words.axis)
    if words.return_ids:
        return _of_ids(rows)
    try:
        return Graph(_lists.from_array(rows), words.vertices, _AS_ARRAYS)
    except OverflowError:
        raise _does_not_fit() from None


def _rows(edges: Any, axis: Optional[int]) -> Any:
    """The array with an edge in each row. Raises ValueError where its shape is none of edges."""
    if axis not in (None, 0, 1):
        raise ValueError(f"axis is {axis!r}: say 1 where an edge is a row, or 0 where it is a column")
    if not edges.size:
        return edges
    shape = edges.shape
    if shape == (2, 2) and axis is None:
        raise ValueError("an array of the shape (2, 2) may have an edge in each row or in each column: say axis=1 or axis=0")
    if edges.ndim == 2 and axis == 0 and shape[0] == 2:
        return edges.T
    if edges.ndim == 2 and axis != 0 and shape[1] == 2:
        return edges
    wanted = "two rows where axis is 0" if axis == 0 else "two columns"
    raise ValueError(f"an array of edges has {wanted}, and this one has the shape {shape}{_remedy_for(shape, axis)}")


def _remedy_for(shape: Tuple[int, ...], axis: Optional[int]) -> str:
    if len(shape) == 2 and axis is None and shape[0] == 2:
        return ": give axis=0 where an edge is a column"
    if len(shape) == 2 and shape[0] == shape[1]:
        return ": give scipy.sparse.csr_matrix(edges) where it is an adjacency matrix"
    return ""


def _of_ids(rows: Any) -> Graph:
    """A graph whose vertices are the ids in an array, ascending."""
    import numpy

    _lists.refuse_masked(rows)
    _lists.refuse_no_integers(rows)
    ids, numbers = numpy.unique(rows, return_inverse=True)
    if not rows.size:
        ids = ids.astype(numpy.uint32)
    return Graph(numbers.astype(numpy.uint32).reshape(-1, 2), len(ids), ById(ids))


def _does_not_fit() -> ValueError:
    return ValueError(f"an end of an edge is not in 0 to {_lists.GREATEST}{_lists.FAR_APART}")


def _is_like_array(edges: Any) -> bool:
    """Whether a value of two dimensions has the array or the buffer protocol."""
    if isinstance(edges, type) or isinstance(edges, _TEXT):
        return False
    if hasattr(edges, "__array__") or hasattr(edges, "__array_interface__"):
        return bool(getattr(edges, "ndim", 2) == 2)
    try:
        with memoryview(edges) as view:
            return view.ndim == 2
    except TypeError:
        return False


def _read_like_array(edges: Any, words: Words) -> Graph:
    import numpy

    return _read_array(numpy.asarray(edges), words)


# Matrices and frames.


def _is_sparse(edges: Any) -> bool:
    sparse = sys.modules.get("scipy.sparse")
    return sparse is not None and bool(sparse.issparse(edges))


def _read_sparse(matrix: Any, words: Words) -> Graph:
    if len(matrix.shape) != 2 or matrix.shape[0] != matrix.shape[1]:
        raise ValueError(f"a sparse matrix has a row and a column for each vertex, and this one has the shape {matrix.shape}")
    rows = matrix.tocsr()
    if not rows.data.all():
        raise ValueError(_STORED_ZEROS)
    rows = _without_repeats(rows)
    halves = _is_triangular(rows)
    if not halves and not _is_symmetric(rows):
        raise ValueError(_NOT_SYMMETRIC)
    return RowGraph(*_lists.from_rows(rows.indptr, rows.indices), halves, _AS_ARRAYS)


def _without_repeats(rows: Any) -> Any:
    """The same places of a matrix in CSR, in ascending order in each row, and each once: the matrix itself where that is so."""
    if rows.has_canonical_format:
        return rows
    import numpy

    # Truth values, so that no entries add up to nothing.
    places = type(rows)((numpy.ones(len(rows.indices), bool), rows.indices, rows.indptr), shape=rows.shape, copy=True)
    places.sum_duplicates()
    return places


def _is_triangular(rows: Any) -> bool:
    """Whether all places of a matrix in CSR are on one side of its diagonal, by the first and the last of each row."""
    begins, ends = rows.indptr[:-1], rows.indptr[1:]
    row = (begins < ends).nonzero()[0]
    return bool((rows.indices[begins[row]] >= row).all() or (rows.indices[ends[row] - 1] <= row).all())


def _is_symmetric(rows: Any) -> bool:
    """Whether the places of a matrix in CSR are those of its transpose."""
    turned = rows.transpose().tocsr()
    turned.sort_indices()
    return bool((rows.indptr == turned.indptr).all() and (rows.indices == turned.indices).all())


def _is_frame(edges: Any) -> bool:
    pandas = sys.modules.get("pandas")
    return pandas is not None and isinstance(edges, pandas.DataFrame)


def _read_frame(frame: Any, words: Words) -> Graph:
    import numpy
    import pandas

    ends = [frame.iloc[:, place] for place in _two_columns(frame, words.columns)]
    for column in ends:
        if pandas.api.types.is_float_dtype(column.dtype):
            raise TypeError(f"the column {column.name!r} has floats: drop rows without a value, and give its astype('int64')")
        if column.isna().any():
            raise ValueError(f"the column {column.name!r} has places without a value: give frame.dropna()")
    numbers, index = pandas.factorize(pandas.concat(ends, ignore_index=True))
    pairs = numbers.reshape(2, -1).T
    return Graph(numpy.ascontiguousarray(pairs, dtype=numpy.uint32), len(index), ByIndex(pandas.Index(index)))


def _two_columns(frame: Any, columns: Optional[Sequence[Hashable]]) -> List[int]:
    """The places of the two columns that have the ends."""
    if columns is None:
        if frame.shape[1] != 2:
            raise ValueError(f"a frame of edges has two columns, and this one has {frame.shape[1]}: say which by columns=")
        return [0, 1]
    if isinstance(columns, _TEXT) or len(columns) != 2:
        raise ValueError(f"columns has two names or places, and not {columns!r}")
    return [_column(frame, column) for column in columns]


def _column(frame: Any, column: Hashable) -> int:
    """The place of a column that is told by its name, or by its place where no column has that name."""
    named = [place for place, name in enumerate(frame.columns) if name == column]
    if len(named) == 1:
        return named[0]
    if named:
        raise ValueError(f"the frame has {len(named)} columns {column!r}")
    if isinstance(column, Integral) and -frame.shape[1] <= int(column) < frame.shape[1]:
        return int(column) % int(frame.shape[1])
    raise ValueError(f"the frame has no column {column!r}, but {list(frame.columns)}")


# Graphs of other packages.


def is_networkx(edges: Any) -> bool:
    """Whether a value is a graph of networkx. Whoever has one has imported networkx."""
    networkx = sys.modules.get("networkx")
    return networkx is not None and isinstance(edges, networkx.Graph)


def _read_networkx(graph: Any, words: Words) -> Graph:
    if graph.is_directed():
        raise TypeError(_DIRECTED)
    if graph.is_multigraph():
        raise TypeError(_SEVERAL)
    nodes = list(graph)
    numbers = {node: number for number, node in enumerate(nodes)}
    ends = array(_lists.CODE, [numbers[node] for edge in graph.edges() for node in edge])
    return Graph(ends, len(nodes), ByName(nodes))


def _is_igraph(edges: Any) -> bool:
    igraph = sys.modules.get("igraph")
    return igraph is not None and isinstance(edges, igraph.Graph)


def _read_igraph(graph: Any, words: Words) -> Graph:
    if graph.is_directed():
        raise TypeError(_DIRECTED_IGRAPH)
    if graph.has_multiple():
        raise TypeError(_SEVERAL_IGRAPH)
    ends = array(_lists.CODE, chain.from_iterable(graph.get_edgelist()))
    return Graph(ends, graph.vcount(), _AS_LISTS)


# Pairs.


def _is_iterable(edges: Any) -> bool:
    return hasattr(edges, "__iter__") and not isinstance(edges, _TEXT)


def _read_pairs(pairs: Iterable[Any], words: Words) -> Graph:
    if words.return_ids:
        return _read_ids(pairs)
    numbers = array(_lists.CODE)
    append = numbers.append
    pieces = _ends_of(pairs)
    for first, second in pieces:
        try:
            append(first)
            append(second)
        except OverflowError:
            raise _does_not_fit() from None
        except TypeError:
            break
    else:
        return Graph(numbers, words.vertices, _AS_LISTS)
    if words.vertices is not None:
        raise TypeError(f"vertices does not go with names, and {first!r} or {second!r} is one")
    taken = iter(numbers[: len(numbers) // 2 * 2])
    return _read_names(chain(zip(taken, taken), [(first, second)], pieces))


def _ends_of(pairs: Iterable[Any]) -> Iterator[Tuple[Any, Any]]:
    """The two ends of each pair. Raises TypeError or ValueError at what is no pair."""
    for place, pair in enumerate(pairs):
        if type(pair) is not tuple and isinstance(pair, _TEXT):
            raise TypeError(f"edge {place} is of the type {type(pair).__name__}, and an edge is a pair of integers or of names")
        try:
            first, second = pair
        except (TypeError, ValueError) as cause:
            raise type(cause)(f"edge {place} is {pair!r}, and an edge is a pair of integers or of names. {told_forms()}") from None
        yield first, second


def _read_names(pairs: Iterable[Tuple[Any, Any]]) -> Graph:
    """A graph whose vertices are the names, in the order in which they first come."""
    numbers: Dict[Hashable, int] = {}
    ends = array(_lists.CODE)
    for pair in pairs:
        for name in pair:
            try:
                number = numbers.setdefault(name, len(numbers))
            except TypeError:
                raise TypeError(f"an end is of the type {type(name).__name__}, which is not hashable, and so no name") from None
            ends.append(number)
    for name in numbers:
        refuse_no_name(name)
    return Graph(ends, len(numbers), ByName(list(numbers)))


def refuse_no_name(name: Hashable) -> None:
    if name is None:
        raise TypeError("an end is None, which is no name: leave out the edges without both ends")
    if isinstance(name, Real) and not isinstance(name, Integral):
        whole = float(name).is_integer()
        raise TypeError(f"an end is the float {name!r}" + (f": give {int(name)}, as int() makes it" if whole else ", which is no vertex"))


def _read_ids(pairs: Iterable[Any]) -> Graph:
    """A graph whose vertices are the ids in the pairs, ascending."""
    try:
        listed = [operator.index(end) for pair in _ends_of(pairs) for end in pair]
    except TypeError as cause:
        raise TypeError(f"return_ids goes with ids that are integers, and names need no word: {cause}") from None
    ids = sorted(set(listed))
    numbers = {number: place for place, number in enumerate(ids)}
    return Graph(array(_lists.CODE, [numbers[number] for number in listed]), len(ids), ById(ids))


#: Each form, and the words that go with it. The first that a value has is taken.
FORMS = (
    Form(
        "an array of integers with an edge in each row, or with axis=0 in each column",
        frozenset({"vertices", "axis", "return_ids"}),
        _lists.is_array,
        _read_array,
    ),
    Form("a graph of networkx", frozenset(), is_networkx, _read_networkx),
    Form("a graph of igraph", frozenset(), _is_igraph, _read_igraph),
    Form("a sparse adjacency matrix of SciPy", frozenset(), _is_sparse, _read_sparse),
    Form("a data frame of pandas with two columns, or two of its columns by columns=", frozenset({"columns"}), _is_frame, _read_frame),
    Form(
        "what has the array or the buffer protocol and two dimensions",
        frozenset({"vertices", "axis", "return_ids"}),
        _is_like_array,
        _read_like_array,
    ),
    Form("an iterable of pairs of integers or of hashable names", frozenset({"vertices", "return_ids"}), _is_iterable, _read_pairs),
)
