"""Pictures of core numbers, by matplotlib.

Each function takes a graph as `kcore.core_numbers` does, and `changes` takes what followed batches left; draws into `ax` or else into a new
figure, and returns the axes.

Examples
--------
>>> import kcore.plot                                                # doctest: +SKIP
>>> kcore.plot.sizes(edges).figure.savefig("sizes.png")              # doctest: +SKIP
"""

from __future__ import annotations

from typing import Any, Iterable, List, NamedTuple, Tuple

from . import _forms, _layers, _measures
from ._graph import Graph

__all__ = ["changes", "degrees", "onion", "rings", "sizes"]

# How many edges are drawn at most: more only make the picture darker.
_MOST_EDGES = 20_000


def sizes(edges: Any, *, ax: Any = None, **words: Any) -> Any:
    """Vertices per core number, and the size of each k-core.

    Parameters
    ----------
    edges
        As `kcore.core_numbers` takes it.
    ax : matplotlib.axes.Axes, optional
        Where to draw. By default in a new figure.
    **words
        `vertices`, `axis`, `columns` or `return_ids`, as `kcore.core_numbers` takes them.

    Returns
    -------
    matplotlib.axes.Axes
        The axes that were drawn.

    Raises
    ------
    ImportError
        Where matplotlib is not installed.
    ValueError, TypeError
        As `kcore.core_numbers` does.
    """
    import numpy

    ax = _axes(ax)
    counts = numpy.bincount(_measures.numbers(_read(edges, words)))
    members = counts[::-1].cumsum()[::-1]
    numbers = numpy.arange(len(counts))
    steps = _held(members)
    ax.step(numpy.arange(len(steps)) - 0.5, steps, where="post", color="tab:blue", label="vertices of the k-core")
    ax.bar(numbers, counts, width=0.8, color="tab:orange", label="vertices with core number k")
    ax.set(xlabel="k", ylabel="vertices", yscale="log", ylim=(0.7, 2 * members.max(initial=1)))
    _tell_counts(ax.yaxis, members.max(initial=1))
    ax.xaxis.get_major_locator().set_params(integer=True)
    ax.legend()
    return ax


def degrees(edges: Any, *, marked: int = 10, ax: Any = None, **words: Any) -> Any:
    """The core number of each vertex against its degree, with those marked that lie far off [1]_.

    Parameters
    ----------
    edges, ax, **words
        As `sizes` takes them.
    marked : int
        How many vertices are marked, and named where there is room: those whose rank by degree and rank by core number differ by the
        greatest factor.

    Returns
    -------
    matplotlib.axes.Axes
        The axes that were drawn.

    Raises
    ------
    ImportError, ValueError, TypeError
        As `sizes` does.

    References
    ----------
    .. [1] K. Shin, T. Eliassi-Rad and C. Faloutsos, "CoreScope: Graph mining using k-core analysis - patterns, anomalies and algorithms",
       ICDM 2016, 469-478.
    """
    import numpy

    ax = _axes(ax)
    graph = _read(edges, words)
    core, degree = _measures.numbers(graph), _measures.degrees(graph)
    # Vertices without neighbours lie nowhere on these axes.
    joined = degree > 0
    ax.scatter(degree[joined], core[joined], s=8, alpha=0.4, linewidths=0, color="tab:blue")
    far = _measures.far_off(core, degree, marked)
    ax.scatter(degree[far], core[far], s=30, facecolors="none", edgecolors="tab:red", label=f"the {len(far)} that are farthest off")
    ax.set(xlabel="degree", ylabel="core number", xscale="log", yscale="log")
    ax.set(xlim=(0.8, 2.5 * degree.max(initial=1)), ylim=(0.8, 1.5 * core.max(initial=1)))
    _tell_counts(ax.xaxis, degree.max(initial=1))
    _tell_counts(ax.yaxis, core.max(initial=1))
    ax.legend(loc="upper left")
    crowd = numpy.unique(numpy.stack([degree[joined], core[joined]], axis=1), axis=0)
    _name_apart(ax, [(degree[v], core[v]) for v in far], [_shortened(str(name)) for name in _measures.names(graph, far)], crowd)
    return ax


def rings(edges: Any, *, ax: Any = None, **words: Any) -> Any:
    """The shells as rings: the main core in the middle, and a vertex the farther out the lesser its core number [1]_.

    A vertex moves inwards with those of its neighbours that lie further in. The parts of a shell that hang together lie side by side.
    The colour tells the core number, and the size the degree. Of many edges some are drawn, evenly taken.

    Parameters
    ----------
    edges, ax, **words
        As `sizes` takes them.

    Returns
    -------
    matplotlib.axes.Axes
        The axes that were drawn.

    Raises
    ------
    ImportError, ValueError, TypeError
        As `sizes` does.

    References
    ----------
    .. [1] J. I. Alvarez-Hamelin, L. Dall'Asta, A. Barrat and A. Vespignani, "Large scale networks fingerprinting and visualization using the
       k-core decomposition", Advances in Neural Information Processing Systems 18 (2005), 41-50.
    """
    import numpy

    ax = _axes(ax)
    from matplotlib.collections import LineCollection
    from matplotlib.ticker import MaxNLocator

    graph = _read(edges, words)
    core, degree, pairs = _measures.numbers(graph), _measures.degrees(graph), _measures.simple_edges(graph)
    radius, angle = _radii(core, pairs), _measures.angles(core, pairs)
    places = numpy.stack([radius * numpy.cos(angle), radius * numpy.sin(angle)], axis=1)
    drawn = pairs[:: len(pairs) // _MOST_EDGES + 1]
    # Of few vertices dots are larger, and of few edges lines are darker.
    dot, dark = min(max(2000 / max(len(core), 1), 0.5), 15), min(max(100 / max(len(drawn), 1), 0.1), 0.6)
    ax.add_collection(LineCollection(places[drawn], colors="grey", linewidths=0.3, alpha=dark, zorder=1))
    # The vertices further in are drawn last.
    last = numpy.argsort(core, kind="stable")
    dots = ax.scatter(*places[last].T, c=core[last], s=dot * (1 + numpy.log1p(degree[last])), cmap="turbo", linewidths=0, zorder=2)
    ax.figure.colorbar(dots, ax=ax, label="core number", shrink=0.8, ticks=MaxNLocator(integer=True))
    ax.set_aspect("equal")
    ax.set_axis_off()
    return ax


def onion(edges: Any, *, ax: Any = None, **words: Any) -> Any:
    """The onion spectrum [1]_: how many vertices each layer has, coloured by their core number.

    Within a shell the layers are joined by a line. One that falls straight on these axes is what a random tree would have; long tails
    come of chains.

    Parameters
    ----------
    edges, ax, **words
        As `sizes` takes them.

    Returns
    -------
    matplotlib.axes.Axes
        The axes that were drawn.

    Raises
    ------
    ImportError, ValueError, TypeError
        As `sizes` does.

    References
    ----------
    .. [1] L. Hébert-Dufresne, J. A. Grochow and A. Allard, "Multi-scale structure and topological anomaly detection via a new network
       statistic: The onion decomposition", Scientific Reports 6 (2016), 31708.
    """
    import numpy

    ax = _axes(ax)
    from matplotlib.ticker import MaxNLocator

    graph = _read(edges, words)
    core = _measures.numbers(graph)
    layers = numpy.asarray(_layers.onion_layers(graph, graph.core_numbers()), dtype=numpy.int64)
    counts = numpy.bincount(layers)[1:]
    number = numpy.zeros(len(counts), numpy.int64)
    number[layers - 1] = core
    layer = numpy.arange(1, len(counts) + 1)
    for k in numpy.unique(number):
        ax.plot(layer[number == k], counts[number == k], color="lightgrey", linewidth=1, zorder=1)
    dots = ax.scatter(layer, counts, c=number, s=16, cmap="turbo", linewidths=0, zorder=2)
    ax.figure.colorbar(dots, ax=ax, label="core number", ticks=MaxNLocator(integer=True))
    ax.set(xlabel="layer", ylabel="vertices", yscale="log", ylim=(0.7, 2 * counts.max(initial=1)))
    _tell_counts(ax.yaxis, counts.max(initial=1))
    ax.xaxis.get_major_locator().set_params(integer=True)
    return ax


def changes(results: Iterable[Any], *, axes: Any = None) -> Any:
    """Cores over time: how large each k-core is after each batch, and how many vertices rose and fell.

    Parameters
    ----------
    results : iterable of BatchResult
        As `kcore.Cores.replay` yields them with `core_numbers=True`.
    axes : pair of matplotlib.axes.Axes, optional
        Where to draw both. By default in a new figure, one above the other.

    Returns
    -------
    pair of matplotlib.axes.Axes
        The sizes of the k-cores as areas, each within the one before, and a line for the greatest core number; and who rose and fell.

    Raises
    ------
    ImportError
        Where matplotlib is not installed.
    ValueError
        Where a result has no core numbers.
    """
    import numpy

    told = list(results)
    if any(result.core_numbers is None for result in told):
        raise ValueError("these results have no core numbers: give cores.replay(batches, core_numbers=True)")
    above, below = _two_axes() if axes is None else axes
    from matplotlib import colormaps

    shells, times = _shells_after(told), [result.begin for result in told] + [result.end for result in told[-1:]]
    top = shells.shape[1] - 1
    members = shells[:, ::-1].cumsum(axis=1)[:, ::-1]
    colours = colormaps["turbo"](numpy.linspace(0.05, 0.95, max(top, 1)))
    for k in range(1, top + 1):
        named = f"{k}-core" if _is_named(k, top) else None
        above.fill_between(times, _held(members[:, k]), step="post", color=colours[k - 1], linewidth=0, label=named)
    beside = above.twinx()
    beside.step(times, _held((members > 0).sum(axis=1) - 1), where="post", color="black", linewidth=1)
    beside.set(ylabel="greatest core number (line)", ylim=(0, 1.3 * top + 1))
    beside.yaxis.get_major_locator().set_params(integer=True)
    above.set(ylabel="vertices of the k-core", ylim=(0, 1.3 * members[:, 1:].max(initial=1)))
    if top:
        # On the axes that are drawn last.
        beside.legend(*above.get_legend_handles_labels(), loc="upper left", fontsize=7, ncols=4)
    rose, fell = numpy.array([_rose_and_fell(result.changes) for result in told]).reshape(len(told), 2).T
    below.step(times, _held(rose), where="post", color="tab:green", label="rose")
    below.step(times, _held(-fell), where="post", color="tab:red", label="fell")
    below.axhline(0, color="grey", linewidth=0.5)
    below.set(xlabel="time", ylabel="vertices")
    _tell_times(below.xaxis)
    below.legend(loc="upper left", fontsize=7)
    return above, below


def _shells_after(told: List[Any]) -> Any:
    """A row for each batch: how many vertices have each core number after it, up to the greatest of all batches."""
    import numpy

    numbers = [list(result.core_numbers.values()) if hasattr(result.core_numbers, "values") else result.core_numbers for result in told]
    top = max((int(max(core, default=0)) for core in numbers), default=0)
    counts = [numpy.bincount(numpy.asarray(core, dtype=numpy.int64), minlength=top + 1) for core in numbers]
    return numpy.array(counts, dtype=numpy.int64).reshape(len(told), top + 1)


def _held(values: Any) -> Any:
    """The values of intervals, with the last one again for the end of the last."""
    import numpy

    return numpy.append(values, values[-1:])


def _is_named(k: int, top: int) -> bool:
    """Whether a k-core stands in the legend: of many some do."""
    return k in (1, top) or k % max(top // 6, 1) == 0


def _rose_and_fell(changed: Any) -> Tuple[int, int]:
    """How many of the vertices have a greater number than before, and how many a lesser one. A new one is as if its number had been 0."""
    steps = [now - (before or 0) for before, now in changed.values()]
    return sum(step > 0 for step in steps), sum(step < 0 for step in steps)


def _tell_counts(axis: Any, greatest: Any) -> None:
    """Has an axis of counts tell whole numbers: powers of ten, and of few of them also twice and five times as much."""
    from matplotlib.ticker import LogLocator, NullFormatter, StrMethodFormatter

    axis.set_major_locator(LogLocator(subs=(1, 2, 5) if greatest < 300 else (1,)))
    axis.set_major_formatter(StrMethodFormatter("{x:,.0f}"))
    axis.set_minor_formatter(NullFormatter())


def _tell_times(axis: Any) -> None:
    """Has an axis tell dates shortly, and great numbers in full."""
    from matplotlib.dates import AutoDateFormatter, ConciseDateFormatter
    from matplotlib.ticker import ScalarFormatter

    told = axis.get_major_formatter()
    if isinstance(told, ScalarFormatter):
        told.set_useOffset(False)
        told.set_scientific(False)
        axis.get_major_locator().set_params(nbins=6)
    elif isinstance(told, AutoDateFormatter):
        axis.set_major_formatter(ConciseDateFormatter(axis.get_major_locator()))


#: Where a name may stand beside its dot, by preference: how far off in points, and on which side.
_OFFSETS = [
    (far * right, far * up)
    for far in (4, 12, 20, 30, 42, 56)
    for right, up in ((1, 1), (1, -1), (-1, 1), (-1, -1), (0, 1), (0, -1), (1, 0), (-1, 0))
]


#: How a text is aligned that stands to the right of a dot or above it, beside it, or to the left or below.
_SIDES = {1: ("left", "bottom"), 0: ("center", "center"), -1: ("right", "top")}


class _Box(NamedTuple):
    """A part of a picture, in points."""

    left: float
    low: float
    right: float
    high: float

    def meets(self, other: "_Box") -> bool:
        return self.left < other.right and other.left < self.right and self.low < other.high and other.low < self.high

    def covers(self, x: Any, y: Any) -> int:
        """How many of some places lie in it."""
        return int(((self.left < x) & (x < self.right) & (self.low < y) & (y < self.high)).sum())

    def lies_in(self, other: "_Box") -> bool:
        return other.left <= self.left and self.right <= other.right and other.low <= self.low and self.high <= other.high


def _name_apart(ax: Any, places: List[Tuple[Any, Any]], names: List[str], crowd: Any) -> None:
    """Writes a name beside each place, or not at all: where no other name, no other of the places and no legend is, and the fewest dots of
    the crowd are. A line leads to a name that is far off."""
    # What follows goes by where things lie when the picture is drawn.
    ax.figure.draw_without_rendering()
    points = 72 / ax.figure.dpi
    inside, legend = (_Box(*(it.get_window_extent().extents * points)) for it in (ax.patch, ax.get_legend()))
    dots = [_Box(x - 3, y - 3, x + 3, y + 3) for x, y in (ax.transData.transform(place) * points for place in places)]
    crowded = ax.transData.transform(crowd).T * points
    taken = [legend, *dots]
    for place, dot, name in zip(places, dots, names):
        boxes = [(_beside(dot, x, y, name), x, y) for x, y in _OFFSETS]
        free = [it for it in boxes if it[0].lies_in(inside) and not any(it[0].meets(other) for other in taken)]
        if free:
            box, x, y = min(free, key=lambda it: it[0].covers(*crowded))
            taken.append(box)
            line = {"arrowstyle": "-", "color": "grey", "linewidth": 0.5, "shrinkA": 0, "shrinkB": 3} if max(abs(x), abs(y)) > 4 else None
            words = {"ha": _SIDES[(x > 0) - (x < 0)][0], "va": _SIDES[(y > 0) - (y < 0)][1], "fontsize": 7, "parse_math": False}
            ax.annotate(name, place, xytext=(x, y), textcoords="offset points", arrowprops=line, **words)


def _beside(dot: _Box, x: float, y: float, name: str) -> _Box:
    """Where a name stands that is written so far to the right of a dot and above it, in letters of 7 points."""
    wide, high = 4.5 * len(name), 8.0
    left = (dot.left + dot.right) / 2 + x - (wide if x < 0 else wide / 2 if x == 0 else 0)
    low = (dot.low + dot.high) / 2 + y - (high if y < 0 else high / 2 if y == 0 else 0)
    return _Box(left, low, left + wide, low + high)


def _shortened(name: str) -> str:
    """A name of at most 24 letters."""
    return name if len(name) <= 24 else f"{name[:11]}\u2026{name[-12:]}"


def _two_axes() -> Any:
    _axes_needed()
    from matplotlib import pyplot

    return pyplot.subplots(2, 1, figsize=(8, 7), sharex=True, height_ratios=(2, 1), layout="constrained")[1]


def _axes(ax: Any) -> Any:
    """The axes to draw in. Raises ImportError where there is no matplotlib."""
    _axes_needed()
    from matplotlib import pyplot

    return pyplot.subplots(figsize=(7, 5), layout="constrained")[1] if ax is None else ax


def _axes_needed() -> None:
    """Raises ImportError where there is no matplotlib."""
    try:
        from matplotlib import pyplot  # noqa: F401
    except ImportError as cause:
        raise ImportError(f"pictures need matplotlib ({cause}): install it, on Debian as python3-matplotlib") from None


def _read(edges: Any, words: Any) -> Graph:
    return _forms.read(edges, _forms.Words(**words))


def _radii(core: Any, pairs: Any) -> Any:
    """How far from the middle each vertex lies: by its own number, and a little by those of its neighbours that are no less."""
    import numpy

    top = core.max(initial=0)
    total, count = numpy.zeros(len(core)), numpy.zeros(len(core))
    for here, there in [(pairs[:, 0], pairs[:, 1]), (pairs[:, 1], pairs[:, 0])]:
        inner = core[there] >= core[here]
        total += numpy.bincount(here[inner], weights=top - core[there[inner]], minlength=len(core))
        count += numpy.bincount(here[inner], minlength=len(core))
    own = (top - core).astype(float)
    inner_mean = numpy.divide(total, count, out=own.copy(), where=count > 0)
    return 0.6 + 0.7 * own + 0.3 * inner_mean
