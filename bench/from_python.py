"""Times the Python module beside python-igraph and networkx, from one NumPy array of `uint32` pairs to the core numbers.

    python3 bench/from_python.py [--networkx] FILE..

Each FILE has lines `u v`; ids are made dense first, in the order in which they first come. Each row is processor time, the least of some
runs, of which networkx has one. c/build.sh makes the library that is called.
"""

import argparse
import sys
import time
from pathlib import Path

import igraph
import networkx
import numpy

sys.path.insert(0, str(Path(__file__).resolve().parents[1] / "python"))
import kcore
from kcore import _library, _lists


def least(call, runs):
    """The least of some runs, and the result of the last."""
    times = []
    for _ in range(runs):
        start = time.process_time()
        result = call()
        times.append(time.process_time() - start)
    return min(times), result


def dense_edges(path):
    flat = numpy.fromstring("\n".join(line for line in open(path) if line[0].isdigit()), dtype=numpy.int64, sep=" ")
    _, first, places = numpy.unique(flat, return_index=True, return_inverse=True)
    ranks = numpy.empty(len(first), dtype=numpy.uint32)
    ranks[numpy.argsort(first)] = numpy.arange(len(first), dtype=numpy.uint32)
    return ranks[places].reshape(-1, 2), len(first)


def made_by_networkx(vertices, edges):
    graph = networkx.Graph()
    graph.add_nodes_from(range(vertices))
    graph.add_edges_from(edges)
    graph.remove_edges_from(list(networkx.selfloop_edges(graph)))
    return graph


def call_cost():
    """Microseconds of a call for a graph without vertices: of the library's function alone, and of the module's."""
    edges, runs = numpy.empty((0, 2), numpy.uint32), 100_000
    where = _lists.address(edges)

    def many(call):
        for _ in range(runs):
            call()

    alone = least(lambda: many(lambda: _library.core_numbers(0, where, 0, where, 0)), 5)[0]
    whole = least(lambda: many(lambda: kcore.core_numbers(edges)), 5)[0]
    return alone / runs * 1e6, whole / runs * 1e6


def main():
    words = argparse.ArgumentParser(description=__doc__, formatter_class=argparse.RawDescriptionHelpFormatter)
    words.add_argument("--networkx", action="store_true", help="time networkx too")
    words.add_argument("files", nargs="*", metavar="FILE")
    chosen = words.parse_args()
    print("a call without vertices: %.1f us the library's function alone, %.1f us the module's" % call_cost())
    for path in chosen.files:
        edges, vertices = dense_edges(path)
        print(f"{path}: {vertices} vertices, {len(edges)} edges")
        ours, core = least(lambda: kcore.core_numbers(edges), 7)
        print(f"  kcore.core_numbers              {ours:8.3f} s")
        ordered, _ = least(lambda: kcore.degeneracy_order(edges), 3)
        print(f"  kcore.degeneracy_order          {ordered:8.3f} s")
        theirs, numbers = least(lambda: igraph.Graph(vertices, edges).coreness(), 3)
        print(f"  igraph, graph and coreness      {theirs:8.3f} s   ours / theirs {ours / theirs:.3f}")
        simple, numbers = least(lambda: igraph.Graph(vertices, edges).simplify().coreness(), 3)
        print(f"  igraph, simplify too            {simple:8.3f} s   ours / theirs {ours / simple:.3f}")
        graph = igraph.Graph(vertices, edges).simplify()
        print(f"  igraph, of a graph that is made {least(lambda: graph.coreness(), 3)[0]:8.3f} s")
        if core.tolist() != numbers:
            sys.exit("the numbers differ from igraph's")
        if chosen.networkx:
            listed = edges.tolist()
            making, graph = least(lambda: made_by_networkx(vertices, listed), 1)
            slow, numbers = least(lambda: networkx.core_number(graph), 1)
            whole = making + slow
            print(f"  networkx, graph and core_number {whole:8.3f} s   theirs / ours {whole / ours:.1f}")
            made, _ = least(lambda: kcore.core_numbers(graph), 3)
            print(f"  kcore, of networkx's graph      {made:8.3f} s")
            print(f"  networkx, of a graph it made    {slow:8.3f} s   theirs / ours {slow / made:.1f}")
            if core.tolist() != [numbers[v] for v in range(vertices)]:
                sys.exit("the numbers differ from networkx's")


if __name__ == "__main__":
    main()
