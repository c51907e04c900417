#!/usr/bin/env python3
"""Keeps the core numbers of a large graph through batches of random updates, and has them checked on the way.

    dist/library.sh && /usr/bin/python3 bench/large_graph.py FILE

FILE has lines `u v` with ids of 32 bits; lines that begin with # or % are passed over. The graph is opened as a `kcore.Cores`. Half of the
updates of a batch remove an edge that is there; the others add one between any two vertices. After each tenth batch (--every) these have to
hold, or the status is 1:

- the core numbers are those of `kcore.core_numbers`, and of igraph where it is installed, for the edges that the script keeps of its own;
- so they are where the changes that the batches told are added up;
- the order that is kept certifies them, by the proved check of the library;
- the edges that are kept are the script's own.

The script keeps its edges in an array, and what came and went since in two sets: it takes nothing from the module. Lines tell the times (of
the processor) and the peak memory of the process so far, its own arrays among it. --batches 0 opens the graph and no more. With --mistake
one thing is done wrong on purpose, in the second half of the batches, and the script has to find it.
"""
import argparse
import resource
import sys
import time
from pathlib import Path

import numpy

sys.path.insert(0, str(Path(__file__).resolve().parents[1] / "python"))
import kcore

try:
    import igraph
except ImportError:
    igraph = None

PIECE = 1 << 26  # bytes of a file that are read at a time
MISTAKES = ("forget", "twist", "unsaid")


def peak():
    """The peak memory of the process so far, in megabytes."""
    return resource.getrusage(resource.RUSAGE_SELF).ru_maxrss // 1000


class Timer:
    """Seconds of the processor since the last lap."""

    def __init__(self):
        self.begun = time.process_time()

    def lap(self):
        begun, self.begun = self.begun, time.process_time()
        return self.begun - begun


def numbers_in(piece):
    """The numbers of whole lines, two a line."""
    if b"#" in piece or b"%" in piece:
        piece = b"\n".join(line for line in piece.splitlines() if not line.lstrip().startswith((b"#", b"%")))
    numbers = numpy.fromstring(piece.decode("ascii"), numpy.int64, sep=" ") if piece.strip() else numpy.zeros(0, numpy.int64)
    if len(numbers) % 2:
        sys.exit("a line has not two numbers")
    return numbers.astype(numpy.uint32)


def ends_in(path):
    """The ids of all lines, two a line."""
    parts, begun = [], b""
    with open(path, "rb") as file:
        while piece := file.read(PIECE):
            whole, newline, begun = (begun + piece).rpartition(b"\n")
            parts.append(numbers_in(whole + newline))
    return numpy.concatenate([*parts, numbers_in(begun)])


def dense(ends):
    """The edges with their ids numbered in a row from 0, and how many ids there are."""
    there = numpy.zeros(int(ends.max()) + 1 if len(ends) else 0, bool)
    there[ends] = True
    vertices = int(there.sum())
    if vertices < len(there):
        ends = (numpy.cumsum(there, dtype=numpy.uint32) - 1)[ends]
    return ends.reshape(-1, 2), vertices


def keys_of(pairs):
    """A number for each edge: its lesser end, and then the other."""
    pairs = numpy.asarray(pairs, numpy.uint64).reshape(-1, 2)
    return numpy.minimum(pairs[:, 0], pairs[:, 1]) << numpy.uint64(32) | numpy.maximum(pairs[:, 0], pairs[:, 1])


def pairs_of(keys):
    """The edges of such numbers."""
    pairs = numpy.empty((len(keys), 2), numpy.uint32)
    pairs[:, 0], pairs[:, 1] = keys >> numpy.uint64(32), keys & numpy.uint64(0xFFFFFFFF)
    return pairs


class Edges:
    """The edges as they have to be: an array of the edges at the start, and what came and went since."""

    def __init__(self, edges, vertices, seed):
        keys = keys_of(edges[edges[:, 0] != edges[:, 1]])
        self.base, self.vertices, self.draw = numpy.unique(keys), vertices, numpy.random.default_rng(seed)
        self.came, self.gone = set(), set()

    def has(self, key):
        if key in self.came or key in self.gone:
            return key in self.came
        place = int(numpy.searchsorted(self.base, numpy.uint64(key)))
        return place < len(self.base) and int(self.base[place]) == key

    def change(self, key, add):
        """Makes an update, and tells whether it changed the edges."""
        if self.has(key) == add:
            return False
        mine, other = (self.came, self.gone) if add else (self.gone, self.came)
        other.discard(key) if key in other else mine.add(key)
        return True

    def drawn(self, updates):
        """Random updates: edges to be removed, which are there, and edges to be added."""
        coming = self.draw.integers(0, self.vertices, (updates - updates // 2, 2), numpy.uint32)
        places = self.draw.integers(0, len(self.base) + len(self.came), updates // 2)
        came = sorted(self.came)
        leaving = [int(self.base[at]) if at < len(self.base) else came[at - len(self.base)] for at in places.tolist()]
        leaving = [key for key in dict.fromkeys(leaving) if key not in self.gone]
        return pairs_of(numpy.array(leaving, numpy.uint64)), coming[coming[:, 0] != coming[:, 1]]

    def make(self, leaving, coming):
        """Makes a batch, removals first; tells how many updates changed the edges."""
        removed = sum(self.change(key, False) for key in keys_of(leaving).tolist())
        return removed + sum(self.change(key, True) for key in keys_of(coming).tolist())

    def now(self):
        """All edges, ascending."""
        gone = numpy.searchsorted(self.base, numpy.array(sorted(self.gone), numpy.uint64))
        keys = numpy.delete(self.base, gone)
        return numpy.union1d(keys, numpy.array(sorted(self.came), numpy.uint64)) if self.came else keys


def anew(pairs, vertices):
    """The core numbers of some edges by each library that computes them anew, with its name."""
    yield "the library", kcore.core_numbers(pairs, vertices, axis=1)
    if igraph:
        yield "igraph", numpy.array(igraph.Graph(vertices, pairs).coreness(), numpy.uint32)


class Run:
    """A kept graph, the edges that it is to have, and the core numbers that it told."""

    def __init__(self, edges, vertices, chosen):
        timer = Timer()
        self.cores = kcore.Cores(edges, vertices, axis=1)
        self.timer, self.chosen = timer, chosen
        print(f"opened: {vertices} vertices, {len(edges)} lines, top {self.cores.degeneracy}, {timer.lap():.2f} s, peak {peak()} MB", flush=True)
        self.edges = Edges(edges, vertices, chosen.seed) if chosen.batches else None
        self.told, self.changed, self.updates, self.seconds = self.cores.core_numbers(), 0, 0, 0.0

    def wrong(self, mistake, number):
        """Whether a mistake is to be made on purpose."""
        return self.chosen.mistake == mistake and number > self.chosen.batches // 2

    def work(self, number):
        """Makes a batch."""
        leaving, coming = self.edges.drawn(self.chosen.updates)
        self.updates += self.edges.make(leaving, coming)
        if self.wrong("forget", number):
            leaving = leaving[1:]
        self.timer.lap()
        changes = self.cores.apply(coming, leaving, axis=1)
        self.seconds += self.timer.lap()
        self.changed += len(changes)
        for vertex, (before, now) in list(changes.items())[self.wrong("unsaid", number) :]:
            if self.told[vertex] != before:
                sys.exit(f"batch {number}: vertex {vertex} is told to have had {before}, and had {self.told[vertex]}")
            self.told[vertex] = now

    def compare(self, number):
        """Compares all with what is computed anew of the script's own edges."""
        self.timer.lap()
        keys = self.edges.now()
        pairs, vertices = pairs_of(keys), self.edges.vertices
        core = self.cores.core_numbers()
        for source, numbers in (("what was told", self.told), *anew(pairs, vertices)):
            if not numpy.array_equal(core, numbers):
                sys.exit(f"batch {number}: {int((core != numbers).sum())} core numbers are other ones by {source}")
        order = numpy.array(self.cores.order(), numpy.uint32)
        if self.wrong("twist", number):
            order[[0, -1]] = order[[-1, 0]]
        if not kcore.check(pairs, core, order, axis=1):
            sys.exit(f"batch {number}: the order does not certify the core numbers")
        if not numpy.array_equal(keys_of(self.cores.to_edges()), keys):
            sys.exit(f"batch {number}: other edges are kept")
        print(f"{number} batches: edges {len(keys)}, top {core.max()}, updates that changed the graph {self.updates},", end=" ")
        print(f"core numbers changed {self.changed}; updates {self.seconds:.2f} s, this comparison {self.timer.lap():.1f} s, peak {peak()} MB", flush=True)


def main():
    words = argparse.ArgumentParser(description=__doc__, formatter_class=argparse.RawDescriptionHelpFormatter)
    words.add_argument("file", metavar="FILE")
    words.add_argument("--batches", type=int, default=100)
    words.add_argument("--updates", type=int, default=1000, help="updates of a batch")
    words.add_argument("--every", type=int, default=10, help="compare after so many batches")
    words.add_argument("--seed", type=int, default=1)
    words.add_argument("--mistake", choices=MISTAKES)
    chosen = words.parse_args()
    timer = Timer()
    edges, vertices = dense(ends_in(chosen.file))
    print(f"read: {timer.lap():.2f} s, peak {peak()} MB", flush=True)
    run = Run(edges, vertices, chosen)
    del edges
    for number in range(1, chosen.batches + 1):
        run.work(number)
        if number % chosen.every == 0 or number == chosen.batches:
            run.compare(number)
    if chosen.batches:
        print("everything is as it has to be, by the library " + ("and igraph" if igraph else "alone: igraph is not installed"))


if __name__ == "__main__":
    main()
