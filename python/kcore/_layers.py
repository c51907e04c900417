"""The onion layers of a graph, from its core numbers."""

from __future__ import annotations

from array import array
from itertools import accumulate
from typing import Any, List, Set

from . import _lists, _measures
from ._graph import Graph


def onion_layers(graph: Graph, core: Any) -> Any:
    """The layer of each vertex, from 1 on: the round in which it goes. The core numbers are those of the graph."""
    layers = _rounds_of_array(graph, core) if _lists.is_array(core) else _rounds(graph, core)
    return _stacked(core, layers)


def _rounds(graph: Graph, core: Any) -> Any:
    """The round of each vertex among those with its core number, from 0 on.

    Each core number has rounds of its own, since the vertices with a lesser number are gone by then, and those with a greater one stay. So
    a round of all of them is taken at once.
    """
    neighbours = _neighbours(graph)
    left = [sum(core[u] >= core[v] for u in listed) for v, listed in enumerate(neighbours)]
    rounds = array(_lists.CODE, bytes(4 * graph.vertices))
    taken = [left[v] <= core[v] for v in range(graph.vertices)]
    front = [v for v in range(graph.vertices) if taken[v]]
    place = 0
    while front:
        later = []
        for v in front:
            rounds[v] = place
            for u in neighbours[v]:
                if core[u] == core[v] and not taken[u]:
                    left[u] -= 1
                    if left[u] == core[u]:
                        later.append(u)
        for u in later:
            taken[u] = True
        front = later
        place += 1
    return rounds


def _neighbours(graph: Graph) -> List[List[int]]:
    """The neighbours of each vertex, each once."""
    sets: List[Set[int]] = [set() for _ in range(graph.vertices)]
    ends = iter(_lists.as_list(graph.ends))
    for u, v in zip(ends, ends):
        if u != v:
            sets[u].add(v)
            sets[v].add(u)
    return [list(listed) for listed in sets]


def _rounds_of_array(graph: Graph, core: Any) -> Any:
    """What `_rounds` has, by arrays."""
    import numpy

    pairs = _measures.simple_edges(graph)
    here, there = numpy.concatenate([pairs, pairs[:, ::-1]]).T
    left = numpy.bincount(here[core[there] >= core[here]], minlength=graph.vertices)
    same = core[there] == core[here]
    here, there = here[same], there[same]
    there = there[numpy.argsort(here, kind="stable")]
    starts = numpy.concatenate([[0], numpy.bincount(here, minlength=graph.vertices).cumsum()])
    rounds = numpy.zeros(graph.vertices, numpy.uint32)
    taken = left <= core
    front = taken.nonzero()[0]
    place = 0
    while len(front):
        rounds[front] = place
        reached = there[_ranges(starts[front], starts[front + 1])]
        touched, times = numpy.unique(reached[~taken[reached]], return_counts=True)
        left[touched] -= times
        front = touched[left[touched] <= core[touched]]
        taken[front] = True
        place += 1
    return rounds


def _ranges(starts: Any, stops: Any) -> Any:
    """The numbers from each start to its stop, one range after the other."""
    import numpy

    counts = stops - starts
    return numpy.repeat(starts - (counts.cumsum() - counts), counts) + numpy.arange(counts.sum())


def _stacked(core: Any, rounds: Any) -> Any:
    """The layers, where the rounds of a core number follow all those of the lesser ones."""
    if _lists.is_array(core):
        import numpy

        numbers, shell = numpy.unique(core, return_inverse=True)
        heights = numpy.zeros(len(numbers), numpy.uint32)
        numpy.maximum.at(heights, shell, rounds + numpy.uint32(1))
        below = heights.cumsum(dtype=numpy.uint32) - heights
        return below[shell] + rounds + numpy.uint32(1)
    height = [0] * (max(core, default=0) + 1)
    for number, place in zip(core, rounds):
        height[number] = max(height[number], place + 1)
    lower = [0, *accumulate(height)]
    return array(_lists.CODE, [lower[number] + place + 1 for number, place in zip(core, rounds)])
