"""Rounds of h-indices in pieces, and each refusal."""

import doctest
import random
import unittest
from array import array
from unittest import mock

import kcore
from kcore import _library, _lists, _rounds

from .test_kcore import edges_of, needs_numpy, numpy, random_graphs

# A triangle with a tail.
OFFSETS, NEIGHBOURS, DEGREES = [0, 2, 4, 7, 8], [1, 2, 0, 2, 0, 1, 3, 2], [2, 2, 3, 1]


def rows_of(edges, vertices):
    """The neighbours of each vertex."""
    rows = [set() for _ in range(vertices)]
    for u, v in edges:
        if u != v:
            rows[u].add(v)
            rows[v].add(u)
    return [list(row) for row in rows]


def shard_of(rows):
    """Offsets and entries of some rows."""
    offsets = [0]
    for row in rows:
        offsets.append(offsets[-1] + len(row))
    return offsets, [w for row in rows for w in row]


def by_definition(numbers):
    """The greatest k for which at least k of the numbers are at least k."""
    return max(k for k in range(len(numbers) + 1) if sum(number >= k for number in numbers) >= k)


def settled(rows, pieces):
    """Numbers that rounds in pieces leave as they are, and how many rounds there were."""
    cuts = [len(rows) * k // pieces for k in range(pieces + 1)]
    shards = [(*shard_of(rows[begin:end]), begin, end) for begin, end in zip(cuts, cuts[1:])]
    numbers, rounds = [len(row) for row in rows], 0
    while True:
        rounds += 1
        made = [number for offsets, entries, _, _ in shards for number in kcore.h_index_round(offsets, entries, numbers)]
        if made == numbers:
            return numbers, rounds
        numbers = made


class Rounds(unittest.TestCase):
    def test_examples(self):
        self.assertEqual(doctest.testmod(_rounds, verbose=False).failed, 0)

    def test_by_hand(self):
        path, star, tailed = [(0, 1), (1, 2), (2, 3), (3, 4)], [(3, 0), (3, 1), (3, 2), (3, 4)], [(0, 1), (1, 2), (2, 0), (2, 3)]
        for edges, wanted, rounds in [(path, [1] * 5, 3), (star, [1] * 5, 2), (tailed, [2, 2, 2, 1], 2), ([], [], 1)]:
            for pieces in [1, 2, 3]:
                self.assertEqual(settled(rows_of(edges, len(wanted)), pieces), (wanted, rounds))

    def test_rows_are_not_only_those_of_graphs(self):
        self.assertEqual(kcore.h_index_round([0, 3, 3, 5], [2, 0, 3, 1, 1], [5, 0, 3, 3]), [3, 0, 0])
        self.assertEqual(kcore.h_index_round([0, 4], [0, 0, 0, 0], [_lists.GREATEST]), [4])
        self.assertEqual(kcore.h_index_round([0], [], []), [])
        self.assertEqual(kcore.h_index_round([0, 0], [], []), [0])

    def test_rounds_end_at_the_core_numbers(self):
        edges = edges_of("karate")
        core = kcore.core_numbers(edges)
        self.assertEqual(settled(rows_of(edges, len(core)), 3)[0], core)
        for vertices, edges in random_graphs(200):
            core = kcore.core_numbers(edges, vertices)
            self.assertEqual(settled(rows_of(edges, vertices), 2)[0], core, edges)

    def test_random_rows(self):
        rng = random.Random(5)
        for _ in range(200):
            vertices = rng.randrange(1, 9)
            numbers = [rng.choice([0, 1, 2, 3, 7, _lists.GREATEST]) for _ in range(vertices)]
            rows = [[rng.randrange(vertices) for _ in range(rng.randrange(12))] for _ in range(rng.randrange(6))]
            wanted = [by_definition([numbers[w] for w in row]) for row in rows]
            self.assertEqual(kcore.h_index_round(*shard_of(rows), numbers), wanted)
            before = [rng.choice(wanted) for _ in rows]
            out = array(_lists.CODE, before)
            changed = kcore.h_index_round(*shard_of(rows), numbers, out)
            self.assertEqual((out.tolist(), changed), (wanted, sum(a != b for a, b in zip(before, wanted))))

    @needs_numpy
    def test_arrays(self):
        for kind in ["uint8", "int32", "int64", "uint32", "uint64", ">u4"]:
            given = [numpy.array(values, kind) for values in (OFFSETS, NEIGHBOURS, DEGREES)]
            made = kcore.h_index_round(*given)
            self.assertEqual((made.tolist(), made.dtype), ([2, 2, 2, 1], numpy.uint32))
            self.assertEqual([values.tolist() for values in given], [OFFSETS, NEIGHBOURS, DEGREES])
        twice = numpy.repeat(numpy.array(NEIGHBOURS), 2)[::2]
        out = numpy.array([2, 2, 2, 1], numpy.uint32)
        self.assertEqual(kcore.h_index_round(OFFSETS, twice, DEGREES, out), 0)
        out[0] = 7
        self.assertEqual((kcore.h_index_round(OFFSETS, twice, DEGREES, out), out.tolist()), (1, [2, 2, 2, 1]))
        self.assertEqual(kcore.h_index_round(numpy.array(OFFSETS), NEIGHBOURS, DEGREES).tolist(), [2, 2, 2, 1])
        empty = numpy.array([], numpy.uint32)
        self.assertEqual(kcore.h_index_round([0], empty, empty).tolist(), [])

    @needs_numpy
    def test_rows_of_scipy(self):
        try:
            from scipy.sparse import csr_matrix
        except ImportError:
            self.skipTest("SciPy is not installed")
        matrix = csr_matrix(([1] * 8, NEIGHBOURS, OFFSETS), (4, 4))
        self.assertEqual(kcore.h_index_round(matrix.indptr, matrix.indices, numpy.diff(matrix.indptr)).tolist(), [2, 2, 2, 1])


class Refusals(unittest.TestCase):
    def refused(self, wrong, place, *given, kind=kcore.WrongRowsError):
        out = array(_lists.CODE, [7, 7])
        with self.assertRaisesRegex(kind, wrong) as told:
            kcore.h_index_round(*given, out)
        if kind is kcore.WrongRowsError:
            self.assertEqual(told.exception.place, place)
        self.assertEqual(out.tolist(), [7, 7])

    def test_wrong_rows(self):
        entries, numbers = [0, 2, 3], [1, 1, 1]
        for offsets, wrong, place in [
            ([], "there are 0 offsets for 2 rows", None),
            ([0, 3], "there are 2 offsets for 2 rows", None),
            ([1, 1, 3], "the first offset is 1,", 0),
            ([0, 2, 1], "offset 2 is 1, less than 2,", 2),
            ([0, 0, 1 << 32], "row 1 has 4294967296 entries or more, from 0 to before 4294967296", 1),
            ([0, 0, 1], "the last offset is 1, and there are 3 entries", 2),
            ([0, 1, 3], "entry 2 is 3, but the vertices are the numbers below 3", 2),
            ([0, 1, 1 << 64], "offset 2 is 18446744073709551616, which does not fit", 2),
            ([0, -1, 3], "offset 1 is -1, which does not fit", 1),
        ]:
            self.refused(wrong, place, offsets, entries, numbers)
        self.refused("neighbours has -1 at place 1", 1, [0, 1, 3], [0, -1, 2], numbers)
        self.refused("numbers has 4294967296 at place 2", 2, [0, 1, 3], [0, 1, 2], [1, 1, 1 << 32])
        with self.assertRaisesRegex(kcore.WrongRowsError, "there are 0 offsets for 0 rows"):
            kcore.h_index_round([], [], [])

    def test_wrong_types(self):
        wrong = [("012", [0], [1]), (5, [0], [1]), ([0, 0.5, 1], [0], [1]), ([0, 1], {0}, [1]), ([0, 1], [0], b"1"), ([0, 1], [0], [1.5])]
        for given in wrong:
            with self.assertRaises(TypeError):
                kcore.h_index_round(*given)
        for out in [[0, 0], "00", array("B", [0, 0]), array("d", [0, 0])]:
            with self.assertRaisesRegex(TypeError, "out is an array"):
                kcore.h_index_round([0, 1, 2], [0, 0], [1], out)

    @needs_numpy
    def test_wrong_arrays(self):
        given = [numpy.array(values) for values in ([0, 1, 2], [0, 0], [1])]
        fixed = numpy.zeros(2, numpy.uint32)
        fixed.flags.writeable = False
        masked = numpy.ma.array([0, 0], numpy.uint32, mask=[0, 1])
        turned, spread = numpy.zeros((2, 1), numpy.uint32), numpy.zeros(4, numpy.uint32)[::2]
        for out in [numpy.zeros(2), numpy.zeros(2, numpy.int32), turned, spread, fixed, masked]:
            with self.assertRaises(TypeError):
                kcore.h_index_round(*given, out)
            self.assertEqual(numpy.asarray(out).sum(), 0)
        whole = numpy.array([1, 1, 1, 1], numpy.uint32)
        for place in range(3):
            lists = [whole[:2] if place == i else values for i, values in enumerate(given)]
            if place:
                with self.assertRaisesRegex(ValueError, "out overlaps"):
                    kcore.h_index_round(*lists, whole[1:3])
        with self.assertRaises(ValueError):
            kcore.h_index_round(given[0], given[1].reshape(1, 2), given[2])
        with self.assertRaises(ValueError):
            kcore.h_index_round(given[0].reshape(1, 3), given[1], given[2])
        with self.assertRaises(TypeError):
            kcore.h_index_round(given[0] / 2, given[1], given[2])
        with self.assertRaisesRegex(kcore.WrongRowsError, "offset 1 is -1, which") as told:
            kcore.h_index_round(numpy.array([0, -1, 2]), given[1], given[2])
        self.assertEqual(told.exception.place, 1)
        with self.assertRaisesRegex(kcore.WrongRowsError, "there are 3 offsets for 3 rows"):
            kcore.h_index_round(*given, numpy.zeros(3, numpy.uint32))

    def test_other_statuses(self):
        for status, kind in [(_library.NO_MEMORY, MemoryError), (99, RuntimeError)]:
            with mock.patch.object(_library, "h_index_round", lambda *_, status=status: _library.Answer(status, 0)):
                with self.assertRaises(kind):
                    kcore.h_index_round(OFFSETS, NEIGHBOURS, DEGREES)


if __name__ == "__main__":
    unittest.main()
