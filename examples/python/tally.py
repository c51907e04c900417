"""Certifies core numbers in pieces: PYTHONPATH=python python3 examples/python/tally.py EDGES [PIECES]

The edges are a text file of lines `u v`. The pieces are ranges of the lesser end. Each is counted by a certificate of its own, as an engine
would do on many machines (in Spark by `mapPartitions`, in Dask or Ray by a task), and the certificates are merged.
In a checkout `dist/library.sh` comes first; where kcore is installed PYTHONPATH is left out.
"""

import sys
from bisect import bisect_left

import kcore


def edges_of(path):
    """The edges of the file, ascending, each once and with its lesser end first."""
    with open(path, encoding="utf-8") as lines:
        pairs = [tuple(map(int, line.split()[:2])) for line in lines if line[:1].isdigit()]
    return sorted({(min(pair), max(pair)) for pair in pairs if pair[0] != pair[1]})


def places_in(order):
    """At each vertex its place in the order."""
    places = [0] * len(order)
    for place, v in enumerate(order):
        places[v] = place
    return places


def certificate_of(piece, core, ranks):
    """What one machine does: it counts its piece."""
    certificate = kcore.Certificate(core, ranks)
    certificate.add(piece)
    return certificate


def verdict_in_pieces(edges, vertices, pieces, core, ranks):
    """The verdict on certificates of pieces that are merged."""
    cuts = [bisect_left(edges, (vertices * k // pieces, 0)) for k in range(pieces + 1)]
    whole = kcore.Certificate(core, ranks)
    for begin, end in zip(cuts, cuts[1:]):
        whole.merge(certificate_of(edges[begin:end], core, ranks))
    return whole.verdict()


def main():
    edges = edges_of(sys.argv[1])
    pieces = int(sys.argv[2]) if len(sys.argv) > 2 else 2
    core, order = kcore.degeneracy_order(edges)
    ranks = places_in(order)
    vertices = len(core)
    print(f"vertices {vertices} edges {len(edges)} pieces {pieces} verdict {verdict_in_pieces(edges, vertices, pieces, core, ranks)}")
    refused = 0
    for v in range(vertices):
        raised = [*core[:v], core[v] + 1, *core[v + 1 :]]
        refused += not verdict_in_pieces(edges, vertices, pieces, raised, ranks)
    print(f"with the number of one vertex raised: refused {refused} of {vertices}")


if __name__ == "__main__":
    main()
