"""What a worker does: it makes chunks of edges into shards, makes rounds on them, and tallies them.

Each function takes its arguments as they are, changes none of them, and is given to the scheduler by cores.py.
"""

from typing import NamedTuple

import kcore
import numpy


class Shard(NamedTuple):
    """The neighbours of the vertices from `first` on, each once and ascending."""

    first: int
    offsets: numpy.ndarray
    neighbours: numpy.ndarray


class Part(NamedTuple):
    """The numbers of a shard's vertices after some rounds, the last round that changed each, and how many the last round changed."""

    numbers: numpy.ndarray
    ranks: numpy.ndarray
    changed: int


# Chunks of the edges: made by a seed, or read from a file.


def chunk_by_seed(seed, edges, scale):
    """Random edges of 2 ** scale vertices, skewed as in R-MAT, with loops and repeats."""
    draws = numpy.random.default_rng(seed)
    first, second = numpy.zeros(edges, numpy.uint32), numpy.zeros(edges, numpy.uint32)
    for bit in range(scale):
        draw = draws.random(edges)
        first |= (draw >= 0.76).astype(numpy.uint32) << numpy.uint32(bit)
        second |= (((draw >= 0.57) & (draw < 0.76)) | (draw >= 0.95)).astype(numpy.uint32) << numpy.uint32(bit)
    return numpy.column_stack((first, second))


def chunk_of_file(path, begin, end):
    """The edges of those lines `u v` that begin from the byte `begin` on and before `end`. Other lines begin with no digit."""
    with open(path, "rb") as lines:
        if begin:
            lines.seek(begin - 1)
            lines.readline()
        text = lines.read(max(end - lines.tell(), 0))
        text += lines.readline() if text and not text.endswith(b"\n") else b""
    pairs = [line.split()[:2] for line in text.split(b"\n") if line[:1].isdigit()]
    ends = numpy.array(pairs, numpy.int64).reshape(-1, 2)
    if ends.size and not (0 <= ends.min() and ends.max() < 0xFFFFFFFF):
        raise ValueError(f"{path} has a vertex that is not a number below 4294967295")
    return ends.astype(numpy.uint32)


# What a worker does with a chunk, and what it makes of the parts of all chunks.


def size_of(*chunks):
    """How many vertices there are: one more than the greatest end."""
    return max((int(chunk.max()) + 1 for chunk in chunks if chunk.size), default=0)


def ends_at(chunk, vertices):
    """How many ends of edges each vertex is."""
    return numpy.bincount(chunk.reshape(-1), minlength=vertices)


def cuts_of(pieces, *ends):
    """Where to cut the vertices into ranges with about as many ends each."""
    so_far = numpy.cumsum(sum(ends) + 1)
    inner = numpy.searchsorted(so_far, [so_far[-1] * k // pieces for k in range(1, pieces)]) if so_far.size else [0] * (pieces - 1)
    return [0, *map(int, inner), so_far.size]


def dealt(chunk, cuts):
    """The edges of a chunk in both directions, without loops, for each range of first ends."""
    both = numpy.concatenate((chunk, chunk[:, ::-1]))
    both = both[both[:, 0] != both[:, 1]]
    ranges = numpy.searchsorted(cuts[1:-1], both[:, 0], side="right")
    return [both[ranges == k] for k in range(len(cuts) - 1)]


def shard_of(first, end, *parts):
    """The shard of the vertices from `first` to before `end`, from all edges that begin there."""
    ends = numpy.concatenate(parts).astype(numpy.uint64)
    keys = numpy.unique(ends[:, 0] << numpy.uint64(32) | ends[:, 1])
    rows = (keys >> numpy.uint64(32)).astype(numpy.int64) - first
    offsets = numpy.zeros(end - first + 1, numpy.uint64)
    offsets[1:] = numpy.cumsum(numpy.bincount(rows, minlength=end - first))
    return Shard(first, offsets, (keys & numpy.uint64(0xFFFFFFFF)).astype(numpy.uint32))


# Rounds.


def first_part(shard):
    """Each vertex begins with its degree."""
    degrees = numpy.diff(shard.offsets).astype(numpy.uint32)
    return Part(degrees, numpy.zeros_like(degrees), degrees.size)


def next_part(shard, part, numbers, round_number):
    """A round on a shard, by the proved call."""
    made = part.numbers.copy()
    changed = kcore.h_index_round(shard.offsets, shard.neighbours, numbers, made)
    return Part(made, numpy.where(made != part.numbers, numpy.uint32(round_number), part.ranks), changed)


def joined(field, *parts):
    """The numbers or the ranks of all vertices."""
    return numpy.concatenate([getattr(part, field) for part in parts])


def changed_in(*parts):
    """How many numbers the last round changed."""
    return sum(part.changed for part in parts)


# The tally and its verdict.


def edges_of(shard):
    """The edges whose lesser end has its row here, ascending."""
    counts = numpy.diff(shard.offsets).astype(numpy.int64)
    ends = numpy.arange(shard.first, shard.first + counts.size, dtype=numpy.uint32).repeat(counts)
    return numpy.column_stack((ends, shard.neighbours))[ends < shard.neighbours]


def tallied(core, ranks, shard):
    """A certificate that has counted the edges of a shard."""
    certificate = kcore.Certificate(core, ranks)
    certificate.add(edges_of(shard))
    return certificate


def merged(core, ranks, *certificates):
    """A certificate that has the counts of these."""
    whole = kcore.Certificate(core, ranks)
    for certificate in certificates:
        whole.merge(certificate)
    return whole


def spoiled(core, vertex):
    """The numbers with that of one vertex raised by one, as a fault on the way may do it."""
    wrong = core.copy()
    wrong[vertex] += 1
    return wrong


def verdict_of(certificate):
    """Whether the counts show that the numbers are the core numbers of the edges that were counted."""
    return certificate.verdict()


def sizes(shard):
    """How many vertices and entries a shard has."""
    return shard.offsets.size - 1, shard.neighbours.size


def summary(core):
    """The top core number, and how many vertices have it."""
    top = int(core.max(initial=0))
    return top, int((core == top).sum())
