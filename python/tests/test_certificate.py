"""Certificates that are counted in pieces, and each refusal."""

import doctest
import pickle
import random
import unittest
from unittest import mock

import kcore
from kcore import _certificate, _library, _lists

from .test_kcore import TAILED, TAILED_CORE, edges_of, needs_networkx, needs_numpy, networkx, numpy, random_graphs

# The edges of the triangle with a tail, as a piece has them, and ranks by an order that certifies its numbers.
ASCENDING = [(0, 1), (0, 2), (1, 2), (2, 3)]
RANKS = [2, 3, 4, 1, 0]


def in_order(edges):
    """The edges as a piece has them."""
    return sorted({(min(edge), max(edge)) for edge in edges if edge[0] != edge[1]})


def claim_of(edges, vertices=None):
    """The core numbers, and the place of each vertex in an order that certifies them."""
    core, order = kcore.degeneracy_order(edges, vertices)
    return core, [place for _, place in sorted(zip(order, range(len(order))))]


def whole(core, ranks, *pieces):
    """One certificate that has counted all pieces."""
    certificate = kcore.Certificate(core, ranks)
    for piece in pieces:
        certificate.add(piece)
    return certificate


class Verdicts(unittest.TestCase):
    def test_examples(self):
        self.assertEqual(doctest.testmod(_certificate, verbose=False).failed, 0)

    def test_a_triangle_with_a_tail(self):
        for pieces in [[ASCENDING], [ASCENDING[:2], ASCENDING[2:]], [[], ASCENDING], [[edge] for edge in ASCENDING]]:
            certificate = whole(TAILED_CORE, RANKS, *pieces)
            self.assertTrue(certificate.verdict())
            self.assertEqual((certificate.vertices, certificate.last_edge), (5, (2, 3)))
        self.assertFalse(whole(TAILED_CORE, RANKS, ASCENDING[:2]).verdict())
        self.assertTrue(whole([], []).verdict())
        self.assertIsNone(whole([], []).last_edge)

    def test_each_number_that_is_one_off(self):
        for name in ["karate"]:
            edges = in_order(edges_of(name))
            core, ranks = claim_of(edges)
            self.assertTrue(whole(core, ranks, edges).verdict())
            for v in range(len(core)):
                for number in [core[v] - 1, core[v] + 1]:
                    self.assertFalse(whole([*core[:v], number, *core[v + 1 :]], ranks, edges).verdict(), (v, number))

    def test_random_graphs_in_pieces(self):
        draws = random.Random(2)
        for vertices, edges in random_graphs(200):
            edges = in_order(edges)
            core, ranks = claim_of(edges, vertices)
            cut = draws.randrange(len(edges) + 1)
            first, second = whole(core, ranks, edges[:cut]), whole(core, ranks, edges[cut:])
            second.merge(pickle.loads(pickle.dumps(first)))
            self.assertTrue(second.verdict())
            parts = [whole(core, ranks, [edge for edge in edges if hash(edge) % 3 == part]) for part in range(3)]
            for part in parts[1:]:
                parts[0].merge(part, disjoint=True)
            self.assertTrue(parts[0].verdict())
            if vertices:
                raised = [*core]
                raised[draws.randrange(vertices)] += 1
                self.assertFalse(whole(raised, ranks, edges).verdict())

    @needs_numpy
    def test_arrays(self):
        edges = numpy.array(ASCENDING, numpy.uint32)
        for dtype in ["uint32", "int64", ">u4"]:
            core, ranks = numpy.array(TAILED_CORE, dtype), numpy.array(RANKS, dtype)
            certificate = whole(core, ranks, edges[:2])
            core[0] = 7  # the certificate has numbers of its own
            certificate.merge(whole(TAILED_CORE, RANKS, edges[2:].astype("int64")))
            self.assertTrue(certificate.verdict())

    def test_sums_stay_at_the_greatest_number(self):
        sums = _lists.room(3, False)
        for _ in range(2):
            _lists.add_up(sums, _lists.from_numbers([1, 2**31, _lists.GREATEST], "counts"))
        self.assertEqual(sums.tolist(), [2, _lists.GREATEST, _lists.GREATEST])
        if numpy is not None:
            sums = _lists.room(3, True)
            for _ in range(2):
                _lists.add_up(sums, numpy.array([1, 2**31, _lists.GREATEST], numpy.uint32))
            self.assertEqual(sums.tolist(), [2, _lists.GREATEST, _lists.GREATEST])


class Refusals(unittest.TestCase):
    def refused(self, cause, text, call, *arguments, **named):
        with self.assertRaisesRegex(cause, text) as caught:
            call(*arguments, **named)
        return caught.exception

    def test_claims(self):
        self.refused(ValueError, "5 core numbers and 4 ranks", kcore.Certificate, TAILED_CORE, RANKS[:4])
        self.refused(ValueError, "core has -1 at place 3, and 0 to 4294967295", kcore.Certificate, [2, 2, 2, -1, 0], RANKS)
        self.refused(ValueError, "ranks has 4294967296 at place 0", kcore.Certificate, [0], [2**32])
        for given in [b"abcde", {0: 1}, {1, 2}]:
            self.refused(TypeError, "core is a sequence", kcore.Certificate, given, RANKS)
            self.refused(TypeError, "ranks is a sequence", kcore.Certificate, TAILED_CORE, given)
        self.refused(TypeError, "", kcore.Certificate, [0.5], [0])

    @needs_numpy
    def test_claims_in_arrays(self):
        core = numpy.array(TAILED_CORE)
        self.refused(ValueError, "one dimension", kcore.Certificate, core.reshape(5, 1), RANKS)
        self.refused(ValueError, "core has -1 at place 4", kcore.Certificate, core - [0, 0, 0, 0, 1], RANKS)
        self.refused(TypeError, "no integers", kcore.Certificate, core, core / 2)

    def test_edges_that_are_wrong(self):
        certificate = whole(TAILED_CORE, RANKS, ASCENDING[:2])
        for edge, text in [
            ((1, 1), r"edge 1 is \(1, 1\): both ends are the same"),
            ((3, 1), r"edge 1 is \(3, 1\): its greater end stands first"),
            ((1, 2), r"edge 1 is \(1, 2\): it is not above \(1, 2\), the edge before it"),
        ]:
            error = self.refused(kcore.WrongEdgeError, text, certificate.add, [(1, 2), edge])
            self.assertEqual((error.place, error.edge), (1, edge))
        self.refused(kcore.WrongEdgeError, r"edge 0 is \(0, 2\): it is not above \(0, 2\)", certificate.add, ASCENDING[1:])
        error = self.refused(kcore.NotAVertexError, r"edge 1 is \(2, 5\)", certificate.add, [(1, 2), (2, 5)])
        self.assertEqual((error.place, error.edge, error.vertices), (1, (2, 5), 5))
        for edges, cause in [([(0, 1, 2)], ValueError), ([(0, -1)], ValueError), ("0 1", TypeError), (5, TypeError)]:
            self.refused(cause, "", certificate.add, edges)
        certificate.add(ASCENDING[2:])  # nothing of the others was counted
        self.assertTrue(certificate.verdict())

    @needs_networkx
    def test_a_graph_of_networkx(self):
        self.refused(TypeError, "networkx", whole(TAILED_CORE, RANKS).add, networkx.Graph(TAILED))

    def test_other_claims(self):
        certificate = whole(TAILED_CORE, RANKS, ASCENDING)
        for core, ranks, text in [
            ([2, 2, 2, 2, 0], RANKS, "the core number of vertex 3 is 1 here and 2 there"),
            (TAILED_CORE, [2, 3, 5, 1, 0], "the rank of vertex 2 is 4 here and 5 there"),
            (TAILED_CORE[:4], RANKS[:4], "5 vertices here and 4 there"),
        ]:
            self.refused(ValueError, text, certificate.merge, kcore.Certificate(core, ranks))
        self.refused(TypeError, "type list", certificate.merge, [])
        self.assertTrue(certificate.verdict())

    def test_pieces_that_may_have_an_edge_in_common(self):
        first, second = whole(TAILED_CORE, RANKS, [(0, 1), (1, 2)]), whole(TAILED_CORE, RANKS, [(0, 2), (2, 3)])
        text = r"from \(0, 1\) to \(1, 2\) and one from \(0, 2\) on may have an edge in common"
        self.refused(ValueError, text, first.merge, second)
        self.refused(ValueError, r"from \(0, 1\) on", first.merge, first)
        first.merge(second, disjoint=True)
        self.assertTrue(first.verdict())
        self.refused(kcore.WrongEdgeError, r"not above \(2, 3\)", first.add, [(0, 4)])

    def test_statuses_that_a_function_does_not_have(self):
        certificate = whole(TAILED_CORE, RANKS)
        for name, call in [("tally", lambda: certificate.add([])), ("verdict", certificate.verdict)]:
            for status in [1, 5, 7, 14]:
                fake = mock.Mock(return_value=_library.Answer(status, 0))
                with mock.patch.object(_library, name, fake):
                    self.refused(RuntimeError, f"kcore_{name} answered the status {status},", call)


if __name__ == "__main__":
    unittest.main()
