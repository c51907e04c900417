"""A page on the core numbers of a graph: one HTML file with its data, its style and its script, which asks nothing of any network."""

from __future__ import annotations

import base64
import hashlib
import html
import json
import re
from pathlib import Path
from typing import Any, Dict, Hashable, Iterable, List, NamedTuple, Optional, Sequence, Set, Tuple

from . import _forms, _layers, _library, _lists, _measures
from ._cores import Change, Cores
from ._graph import ByName, Graph
from ._temporal import Batch

_FOLDER = Path(__file__).with_name("_page")

# How many vertices and edges are drawn as rings at most, how many vertices are marked as far off, and how many are told to rise or to fall.
_MOST_DOTS = 3_000
_MOST_LINES = 4_000
_MARKED = 8
_MOST_CHANGES = 200


def report(
    edges: Any,
    batches: Optional[Iterable[Batch]] = None,
    title: Optional[str] = None,
    *,
    vertices: Optional[int] = None,
    axis: Optional[int] = None,
    columns: Optional[Sequence[Hashable]] = None,
    return_ids: bool = False,
) -> str:
    """A page on the core numbers of a graph, as the text of one HTML file.

    The page shows vertices per core number with the sizes of the k-cores, core number against degree with the vertices that are farthest
    off [1]_, the shells as rings [2]_, the onion spectrum [3]_, and a table of all vertices. The pictures answer the pointer and the
    keyboard, and a click on a shell, a dot or a layer filters the table, which can be sorted and searched. With `batches` there is a slider
    over them, with the sizes of the k-cores over time and the vertices that rose and fell. The other parts show the graph after the last
    batch then.

    Parameters
    ----------
    edges, vertices, axis, columns, return_ids
        As `core_numbers` takes them. With `batches` these are the edges before the first one, `()` for none, vertices have names, and
        neither `vertices` nor `return_ids` goes with them.
    batches : iterable of Batch, optional
        What changes over time, as `batches` of the module makes it.
    title : str, optional
        The title of the page.

    Returns
    -------
    str
        The page. It has no reference to any other file, and forbids its reader's browser to load one. Names are shown as `str` tells
        them, and are never read as HTML.

    Raises
    ------
    ImportError
        Where NumPy is not installed. matplotlib is not needed.
    NotAVertexError, ValueError, TypeError, MemoryError, RuntimeError
        As `core_numbers` does, and with `batches` as `Cores.apply` does.

    Notes
    -----
    The core numbers are the library's. What is counted and drawn of them is plain Python, and tested. The page is made for up to some
    200,000 vertices; it takes some 10 bytes for each, and its name.

    References
    ----------
    .. [1] K. Shin, T. Eliassi-Rad and C. Faloutsos, "CoreScope: Graph mining using k-core analysis - patterns, anomalies and algorithms",
       ICDM 2016, 469-478.
    .. [2] J. I. Alvarez-Hamelin, L. Dall'Asta, A. Barrat and A. Vespignani, "Large scale networks fingerprinting and visualization using the
       k-core decomposition", Advances in Neural Information Processing Systems 18 (2005), 41-50.
    .. [3] L. Hébert-Dufresne, J. A. Grochow and A. Allard, "Multi-scale structure and topological anomaly detection via a new network
       statistic: The onion decomposition", Scientific Reports 6 (2016), 31708.

    Examples
    --------
    >>> page = report([("ann", "bob"), ("bob", "cat"), ("cat", "ann"), ("cat", "dan")], title="Friends")
    >>> page.splitlines()[0], "<h1>Friends</h1>" in page
    ('<!DOCTYPE html>', True)
    """
    try:
        import numpy  # noqa: F401
    except ImportError as cause:
        raise ImportError(f"a report needs NumPy ({cause}): install it, on Debian as python3-numpy") from None
    words = _forms.Words(vertices, axis, columns, bool(return_ids))
    if batches is None:
        graph, time = _forms.read(edges, words), None
    else:
        graph, time = _followed(edges, batches, words)
    data = {**_of_graph(graph), "time": time}
    return _filled(title or "Core numbers", data)


# What the page knows.


def _of_graph(graph: Graph) -> Dict[str, Any]:
    """What the page tells of a graph."""
    import numpy

    core, degree, pairs = _measures.numbers(graph), _measures.degrees(graph), _measures.simple_edges(graph)
    layer = numpy.asarray(_layers.onion_layers(graph, core), numpy.int64)
    names = [str(name) for name in _measures.names(graph, list(range(graph.vertices)))]
    return {
        "names": None if all(name == str(v) for v, name in enumerate(names)) else names,
        "core": core.tolist(),
        "degree": degree.tolist(),
        "layer": layer.tolist(),
        "far": _measures.far_off(core, degree, min(_MARKED, max(3, len(core) // 20))),
        "shells": _shells(core, pairs),
        "rings": _rings(core, pairs),
    }


def _shells(core: Any, pairs: Any) -> List[List[int]]:
    """For each k from 0 to the greatest core number: k, the vertices with it, and the vertices and edges of the k-core."""
    import numpy

    own = numpy.bincount(core)
    inside = numpy.bincount(core[pairs].min(axis=1), minlength=len(own)) if len(pairs) else 0 * own
    table = numpy.stack([numpy.arange(len(own)), own, own[::-1].cumsum()[::-1], inside[::-1].cumsum()[::-1]], axis=1)
    listed: List[List[int]] = table.tolist()
    return listed


def _rings(core: Any, pairs: Any) -> Dict[str, List[Any]]:
    """Some vertices of each shell with their places, at most 1 from the middle, and some of the edges between them, as places in `v`."""
    import numpy

    shells, shell = numpy.unique(core, return_inverse=True)
    own = len(shells) - 1 - shell
    angle = _measures.angles(core, pairs)
    # A shell has a ring of the width 0.4, and the main core has a disc, over which multiples of the golden ratio spread it evenly.
    ring = own + 0.55 - 0.4 * _nearness(own, pairs)
    disc = 0.6 * numpy.sqrt((numpy.argsort(numpy.argsort(angle, kind="stable")) * 0.618034 + 0.5) % 1)
    radius = numpy.where(own > 0, ring, disc) / (len(shells) - 0.4)
    drawn = _drawn(core, angle)
    place = numpy.full(len(core), -1)
    place[drawn] = numpy.arange(len(drawn))
    lines = place[pairs[(place[pairs] >= 0).all(axis=1)]] if len(pairs) else pairs
    lines = lines[:: len(lines) // _MOST_LINES + 1]
    places = {"x": radius * numpy.cos(angle), "y": radius * numpy.sin(angle)}
    listed = {axis: numpy.round(values[drawn], 4).tolist() for axis, values in places.items()}
    return {"v": drawn.tolist(), **listed, "edges": lines.ravel().tolist()}


def _nearness(own: Any, pairs: Any) -> Any:
    """How far inwards each vertex moves in its ring, 0 to 1: 1 where its neighbours that lie no further out are all in the middle."""
    import numpy

    total, count = numpy.zeros(len(own)), numpy.zeros(len(own))
    for here, there in [(pairs[:, 0], pairs[:, 1]), (pairs[:, 1], pairs[:, 0])]:
        inner = own[there] <= own[here]
        total += numpy.bincount(here[inner], weights=own[there[inner]], minlength=len(own))
        count += numpy.bincount(here[inner], minlength=len(own))
    mean = numpy.divide(total, count, out=own.astype(float), where=count > 0)
    return 1 - mean / numpy.maximum(own, 1)


def _drawn(core: Any, angle: Any) -> Any:
    """The vertices that are drawn, the innermost last: all of them, or a share of each shell that goes with the root of its size."""
    import numpy

    order = numpy.lexsort([angle, core])
    counts = numpy.bincount(core, minlength=1)
    if len(core) <= _MOST_DOTS:
        return order
    share = numpy.sqrt(counts) / numpy.sqrt(counts).sum()
    quota = numpy.minimum(numpy.maximum((share * _MOST_DOTS).astype(numpy.int64), 1), counts)
    starts = counts.cumsum() - counts
    taken = [starts[k] + numpy.arange(quota[k]) * counts[k] // max(quota[k], 1) for k in range(len(counts))]
    return order[numpy.concatenate(taken)]


# Over time.

#: What the page tells of each batch: `rose` and `fell` are how many vertices did, and `up` and `down` those that moved farthest.
_OF_A_BATCH = ("begin", "end", "inserted", "removed", "edges", "sizes", "rose", "fell", "up", "down")


class _Change(NamedTuple):
    """A vertex whose number changed; before is -1 where it is new."""

    vertex: int
    before: int
    after: int

    def rise(self) -> int:
        """By how much the number is greater than before, where a new vertex had none."""
        return self.after - max(self.before, 0)


class _Followed:
    """The edges that are there, by the numbers of their ends, and how many vertices have each core number."""

    def __init__(self, graph: Graph, core: Dict[Hashable, int]) -> None:
        self.numbers = {name: number for number, name in enumerate(core)}
        ends = iter(_lists.as_list(graph.ends))
        self.pairs = {(min(u, v), max(u, v)) for u, v in zip(ends, ends) if u != v}
        self.counts: List[int] = []
        for number in core.values():
            self._count(number, 1)

    def apply(self, insert: Sequence[Any], remove: Sequence[Any], changes: Dict[Any, Change]) -> Tuple[int, int, List[_Change]]:
        """Takes a batch and what it changed: how many edges came and went, and which vertices changed."""
        for name in changes:
            self.numbers.setdefault(name, len(self.numbers))
        for before, after in changes.values():
            if before is not None:
                self._count(before, -1)
            self._count(after, 1)
        gone, come = self._keys(remove) & self.pairs, self._keys(insert)
        self.pairs -= gone
        come -= self.pairs
        self.pairs |= come
        listed = [(self.numbers[name], *change) for name, change in changes.items()]
        return len(come), len(gone), [_Change(v, -1 if before is None else before, after) for v, before, after in listed]

    def sizes(self) -> List[int]:
        """The number of vertices of each k-core, from k = 0 on."""
        sizes: List[int] = []
        for count in reversed(self.counts):
            if sizes or count:
                sizes.append(count + (sizes[-1] if sizes else 0))
        return sizes[::-1]

    def graph(self) -> Graph:
        """The graph as it is now."""
        import numpy

        ends = numpy.array(sorted(self.pairs), numpy.uint32).reshape(-1)
        return Graph(ends, len(self.numbers), ByName(list(self.numbers)))

    def _count(self, number: int, by: int) -> None:
        self.counts.extend([0] * (number + 1 - len(self.counts)))
        self.counts[number] += by

    def _keys(self, edges: Iterable[Tuple[Any, Any]]) -> Set[Tuple[int, int]]:
        known = [(self.numbers.get(u), self.numbers.get(v)) for u, v in edges]
        return {(min(u, v), max(u, v)) for u, v in known if u is not None and v is not None and u != v}


def _followed(edges: Any, batches: Iterable[Batch], words: _forms.Words) -> Tuple[Graph, Dict[str, List[Any]]]:
    """The graph after the batches, and what the page tells of each."""
    if words.vertices is not None or words.return_ids:
        raise TypeError(f"{'return_ids' if words.return_ids else 'vertices'} does not go with batches, where vertices have names")
    start = _forms.read_named(edges, _forms.Words() if isinstance(edges, tuple) and not edges else words)
    names = start.results.named() or []
    told: Dict[str, List[Any]] = {key: [] for key in _OF_A_BATCH}
    with Cores(names=True) as cores:
        ends = iter(_lists.as_list(start.ends))
        cores.add_vertices(names)
        cores.insert([(names[u], names[v]) for u, v in zip(ends, ends)])
        followed = _Followed(start, cores.core_numbers())
        for begin, end, insert, remove in batches:
            insert, remove = list(insert), list(remove)
            come, gone, changes = followed.apply(insert, remove, cores.apply(insert, remove))
            up = sorted((change for change in changes if change.rise() > 0), key=_Change.rise, reverse=True)
            down = sorted((change for change in changes if change.rise() < 0), key=_Change.rise)
            values = (str(begin), str(end), come, gone, len(followed.pairs), followed.sizes(), len(up), len(down))
            for key, value in zip(_OF_A_BATCH, (*values, up[:_MOST_CHANGES], down[:_MOST_CHANGES])):
                told[key].append(value)
    return followed.graph(), told


# The page.


def _filled(title: str, data: Dict[str, Any]) -> str:
    """The page with its data."""
    style, script = ((_FOLDER / name).read_text("utf-8") for name in ("page.css", "page.js"))
    shells = data["shells"]
    time = data["time"]
    parts = {
        "title": html.escape(title),
        "style": style,
        "style-hash": _hash(style),
        "script": script,
        "script-hash": _hash(script),
        "version": _library.__version__,
        "vertices": f"{len(data['core']):,}",
        "edges": f"{shells[0][3] if shells else 0:,}",
        "degeneracy": f"{max(len(shells) - 1, 0):,}",
        "layers": f"{max(data['layer'], default=0):,}",
        "scope": _scope(time),
        "shells": "\n".join("<tr>" + "".join(f"<td>{value:,}</td>" for value in row) + "</tr>" for row in shells),
        "data": _as_json(data),
    }
    page = (_FOLDER / "page.html").read_text("utf-8")
    return re.sub(r"\{\{([a-z-]+)\}\}", lambda found: parts[found[1]], page)


def _scope(time: Optional[Dict[str, List[Any]]]) -> str:
    if not time or not time["begin"]:
        return ""
    first, last = html.escape(time["begin"][0]), html.escape(time["end"][-1])
    return f"The graph after the last of {len(time['begin']):,} batches, from {first} to {last}. Edges that went are not in it."


def _hash(text: str) -> str:
    """The name by which the page's policy lets this text run, and no other."""
    return "sha256-" + base64.b64encode(hashlib.sha256(text.encode("utf-8")).digest()).decode("ascii")


def _as_json(data: Dict[str, Any]) -> str:
    """The data as text that ends no element of HTML, whatever names it has."""
    text = json.dumps(data, separators=(",", ":"), allow_nan=False)
    return text.replace("&", "\\u0026").replace("<", "\\u003c").replace(">", "\\u003e")
