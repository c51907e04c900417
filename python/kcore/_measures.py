"""What pictures show of a graph: its core numbers, degrees and edges as arrays of NumPy, and places for the vertices."""

from __future__ import annotations

from typing import Any, Hashable, Iterable, List, Tuple

from ._graph import Graph


def numbers(graph: Graph) -> Any:
    """The core numbers as an array."""
    import numpy

    return numpy.asarray(graph.core_numbers(), dtype=numpy.int64)


def simple_edges(graph: Graph) -> Any:
    """Each edge once, as a row, without loops."""
    import numpy

    pairs = numpy.sort(numpy.asarray(graph.ends).reshape(-1, 2).astype(numpy.int64), axis=1)
    keys = numpy.unique(pairs[:, 0] * graph.vertices + pairs[:, 1]) if len(pairs) else pairs[:, 0]
    rows = numpy.stack([keys // max(graph.vertices, 1), keys % max(graph.vertices, 1)], axis=1)
    return rows[rows[:, 0] != rows[:, 1]]


def degrees(graph: Graph) -> Any:
    """How many neighbours each vertex has."""
    import numpy

    return numpy.bincount(simple_edges(graph).ravel(), minlength=graph.vertices)


def ranks(values: Any) -> Any:
    """The rank of each number, 1 for the greatest; equal numbers share the mean of their ranks."""
    import numpy

    _, place, counts = numpy.unique(-values, return_inverse=True, return_counts=True)
    return (counts.cumsum() - (counts - 1) / 2)[place]


def far_off(core: Any, degree: Any, most: int) -> List[int]:
    """So many vertices with neighbours whose rank by degree and rank by core number differ by the greatest factor, and differ at all."""
    import numpy

    odds = numpy.abs(numpy.log(ranks(degree)) - numpy.log(ranks(core)))
    return [int(v) for v in numpy.argsort(-odds, kind="stable")[:most] if degree[v] and odds[v]]


def names(graph: Graph, listed: List[int]) -> Iterable[Hashable]:
    """What the caller calls some vertices."""
    import numpy

    told: Iterable[Hashable] = graph.results.vertices(numpy.asarray(listed, dtype=numpy.int64))
    return told


def angles(core: Any, pairs: Any) -> Any:
    """The angle of each vertex: the shell is spread over the circle, part by part."""
    import numpy

    part = _parts(core, pairs)
    order = numpy.lexsort([part, core])
    counts = numpy.bincount(core, minlength=1)
    place = numpy.empty(len(core))
    place[order] = numpy.arange(len(core)) - numpy.repeat(counts.cumsum() - counts, counts)
    # Each shell begins at an angle of its own, so that they do not all begin in one line.
    return 2 * numpy.pi * (place / numpy.maximum(counts[core], 1) + core * 0.381966)


def _parts(core: Any, pairs: Any) -> Any:
    """For each vertex the least vertex of the part of its shell that hangs together with it."""
    import numpy

    parent = list(range(len(core)))

    def root(v: int) -> int:
        while parent[v] != v:
            parent[v] = parent[parent[v]]
            v = parent[v]
        return v

    for u, v in _inside_a_shell(core, pairs):
        first, second = root(u), root(v)
        parent[max(first, second)] = min(first, second)
    return numpy.array([root(v) for v in range(len(core))], dtype=numpy.int64)


def _inside_a_shell(core: Any, pairs: Any) -> List[Tuple[int, int]]:
    """The edges whose ends have the same core number."""
    same: List[Tuple[int, int]] = pairs[core[pairs[:, 0]] == core[pairs[:, 1]]].tolist()
    return same
