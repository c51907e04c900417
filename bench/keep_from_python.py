"""Times kept core numbers in Python: the opening, updates one by one, and a batch of a thousand.

    dist/library.sh && /usr/bin/python3 bench/keep_from_python.py FILE..

Each FILE has lines `u v`; ids are made dense first. A batch of a thousand removes 500 edges that are there, and adds 500 between any two
vertices; the batch after it undoes it. Single updates add such an edge or take it away. Beside each stands `kcore_keeper_apply` alone, on the
same updates in the form that it takes. Each figure is processor time, the least of some rounds in which all are made in turn.
"""

import argparse
import sys
import time
from pathlib import Path

import numpy

sys.path.insert(0, str(Path(__file__).resolve().parents[1] / "python"))
import kcore
from kcore import _library, _lists

SINGLE, HALF = 1000, 500


def dense_edges(path):
    with open(path, encoding="utf-8") as lines:
        flat = numpy.array([end for line in lines if line[0].isdigit() for end in line.split()[:2]], numpy.int64)
    ids, places = numpy.unique(flat, return_inverse=True)
    return places.reshape(-1, 2).astype(numpy.uint32), len(ids)


class Least:
    """The least seconds of each of some calls."""

    def __init__(self):
        self.seconds = {}

    def time(self, name, call):
        begun = time.process_time()
        result = call()
        taken = time.process_time() - begun
        self.seconds[name] = min(taken, self.seconds.get(name, taken))
        return result


def update_singly(cores, pairs, add):
    change = cores.insert if add else cores.remove
    for pair in pairs:
        change([pair])


def apply_alone(cores, updates, size):
    """Makes updates by the library's function, so many in each call. The module is told nothing."""
    first, place = _lists.address(updates), cores._place.address
    for begin in range(0, len(updates) // 3, size):
        answer = _library.keeper_apply(place, first + 12 * begin, size)
        if answer.status != _library.DONE:
            sys.exit(f"the library answered the status {answer.status}")


def rounds_of(edges, vertices, rounds):
    least = Least()
    draw = numpy.random.default_rng(1)
    # Loops, and edges that are there already, change nothing; they are as rare as in a stream of random pairs.
    coming = draw.integers(0, vertices, (SINGLE, 2), numpy.uint32)
    pairs = list(map(tuple, coming.tolist()))
    single = [_lists.updates_of(coming.reshape(-1), add) for add in (True, False)]
    for _ in range(rounds):
        least.time("numbers", lambda: kcore.core_numbers(edges))
        cores = least.time("opening", lambda: kcore.Cores(edges, vertices))
        for add in (True, False):
            least.time(f"single {add}", lambda: update_singly(cores, pairs, add))
        for add, updates in zip((True, False), single):
            least.time(f"single {add}, alone", lambda: apply_alone(cores, updates, 1))
        leaving = draw.choice(edges, HALF, replace=False)
        here, there = coming[:HALF], leaving
        for _ in range(2):
            least.time("thousand", lambda: cores.apply(here, there))
            here, there = there, here
        listed = [list(map(tuple, part.tolist())) for part in (here, there)]
        least.time("thousand, listed", lambda: cores.apply(*listed))
        least.time("thousand, listed", lambda: cores.apply(*listed[::-1]))
        for here, there in ((coming[:HALF], leaving), (leaving, coming[:HALF])):
            updates = numpy.concatenate([_lists.updates_of(part.reshape(-1), add) for part, add in ((there, False), (here, True))])
            least.time("thousand, alone", lambda: apply_alone(cores, updates, 2 * HALF))
        if not cores.check():
            sys.exit("the numbers that are kept are not certified")
        cores.close()
    return least.seconds


def main():
    words = argparse.ArgumentParser(description=__doc__, formatter_class=argparse.RawDescriptionHelpFormatter)
    words.add_argument("--rounds", type=int, default=7)
    words.add_argument("files", nargs="+", metavar="FILE")
    chosen = words.parse_args()
    for path in chosen.files:
        edges, vertices = dense_edges(path)
        least = rounds_of(edges, vertices, chosen.rounds)
        print(f"{path}: {vertices} vertices, {len(edges)} edges")
        numbers, opening = least["numbers"], least["opening"]
        print(f"  core_numbers {numbers * 1e3:.1f} ms, opening {opening * 1e3:.1f} ms, ratio {opening / numbers:.2f}")
        for name, add in (("insertion", True), ("removal", False)):
            whole, alone = (least[f"single {add}{word}"] / SINGLE * 1e6 for word in ("", ", alone"))
            print(f"  one {name} {whole:.1f} us, of which the library's function alone {alone:.1f} us")
        arrays, listed, alone = (least[f"thousand{word}"] * 1e3 for word in ("", ", listed", ", alone"))
        print(f"  1,000 updates {arrays:.2f} ms of arrays and {listed:.2f} ms of lists, the library's function alone {alone:.2f} ms")


if __name__ == "__main__":
    main()
