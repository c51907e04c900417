"""Each form in which a graph may be given, and each refusal with its message."""

import ctypes
import sys
import unittest
from unittest import mock

import kcore
from kcore import _forms
from kcore._graph import RowGraph

from .test_kcore import TAILED, TAILED_CORE, igraph, needs_igraph, needs_networkx, needs_numpy, networkx, numpy

try:
    import pandas
except ImportError:
    pandas = None
try:
    import scipy.sparse as sparse
except ImportError:
    sparse = None

needs_pandas = unittest.skipIf(pandas is None, "pandas is not installed")
needs_scipy = unittest.skipIf(sparse is None or numpy is None, "SciPy is not installed")

# A triangle with a tail, by names; and by ids that are far apart.
NAMED = [("ann", "bob"), ("bob", "eve"), ("eve", "ann"), ("eve", "joe"), ("joe", "joe")]
NAMED_CORE = {"ann": 2, "bob": 2, "eve": 2, "joe": 1}
APART = [(5, 10**12), (10**12, 7), (7, 5), (7, 10**15)]
APART_IDS, APART_CORE = [5, 7, 10**12, 10**15], [2, 2, 2, 1]


class Case(unittest.TestCase):
    def refused(self, cause, text, edges, **words):
        for call in [kcore.core_numbers, kcore.degeneracy_order, kcore.k_shell, kcore.degeneracy]:
            with self.assertRaisesRegex(cause, text):
                call(edges, **words)

    def certified(self, edges, **words):
        core, order = kcore.degeneracy_order(edges, **words)
        self.assertTrue(kcore.check(edges, core, order, **words))
        self.assertEqual(len(order), len(core))
        return core


class Arrays(Case):
    @needs_numpy
    def test_an_edge_in_each_column(self):
        for dtype in ["uint32", "int64", "uint8", ">i4"]:
            columns = numpy.array(TAILED, dtype).T
            for given in [columns, numpy.ascontiguousarray(columns)]:
                core = self.certified(given, axis=0)
                self.assertEqual((core.dtype, core.tolist()), (numpy.uint32, TAILED_CORE))
        self.assertEqual(kcore.core_numbers(numpy.array(TAILED), axis=1).tolist(), TAILED_CORE)
        for axis in [None, 0, 1]:
            self.assertEqual(kcore.core_numbers(numpy.empty((0, 2), int), axis=axis).tolist(), [])
            self.assertEqual(kcore.core_numbers(numpy.empty((2, 0), int), vertices=2, axis=axis).tolist(), [0, 0])

    @needs_numpy
    def test_shapes_that_are_none_of_edges(self):
        rows = numpy.array(TAILED)
        self.refused(ValueError, r"two columns, .* shape \(2, 7\): give axis=0", rows.T)
        self.refused(ValueError, r"two columns, .* shape \(2, 7\)$", rows.T, axis=1)
        self.refused(ValueError, r"two rows where axis is 0, .* shape \(7, 2\)", rows, axis=0)
        self.refused(ValueError, r"shape \(3, 3\): give scipy.sparse.csr_matrix\(edges\)", numpy.ones((3, 3), int))
        self.refused(ValueError, r"shape \(1, 2, 2\)", numpy.ones((1, 2, 2), int))
        self.refused(ValueError, "axis is 2: say 1 where an edge is a row", rows, axis=2)

    @needs_numpy
    def test_two_edges(self):
        edges = numpy.array([(0, 1), (2, 1)])
        self.refused(ValueError, r"shape \(2, 2\) may have an edge in each row or in each column: say axis=1 or axis=0", edges)
        self.assertEqual(kcore.core_numbers(edges, axis=1).tolist(), [1, 1, 1])
        self.assertEqual(kcore.core_numbers(edges, axis=0).tolist(), [1, 0, 1])
        self.assertEqual(kcore.core_numbers(numpy.array([(0, 1), (0, 3)]), axis=0).tolist(), [0, 1, 0, 1])
        # A piece has an edge in each row.
        certificate = kcore.Certificate(numpy.array([1, 1, 1]), numpy.array([0, 2, 1]))
        certificate.add(numpy.array([(0, 1), (1, 2)]))
        self.assertTrue(certificate.verdict())

    @needs_numpy
    def test_numbers_of_other_types(self):
        self.refused(TypeError, r"float64, though all are whole numbers: give the array's astype\('int64'\)", numpy.array(TAILED, float))
        self.refused(TypeError, "float32$", numpy.array(TAILED, "float32") + 0.5)
        self.refused(TypeError, "float64$", numpy.full((3, 2), numpy.nan))
        self.refused(TypeError, "bool$", numpy.ones((3, 2), bool))
        for given in [numpy.array(TAILED, object), numpy.array(NAMED)]:
            self.refused(TypeError, r"tolist\(\), since a list of pairs may have names", given)
        self.refused(TypeError, "whole numbers", numpy.array(TAILED, float), return_ids=True)
        self.refused(TypeError, "masked", numpy.ma.array(TAILED), return_ids=True)

    @needs_numpy
    def test_ids_that_are_far_apart(self):
        for edges, words in [(numpy.array(APART), {}), (numpy.array(APART).T, {"axis": 0})]:
            core, ids = kcore.core_numbers(edges, return_ids=True, **words)
            self.assertEqual((core.tolist(), ids.tolist(), ids.dtype), (APART_CORE, APART_IDS, edges.dtype))
            core, order, ids = kcore.degeneracy_order(edges, return_ids=True, **words)
            self.assertEqual((core.tolist(), sorted(order.tolist()), ids.tolist()), (APART_CORE, APART_IDS, APART_IDS))
            self.assertTrue(kcore.check(edges, core, order, ids=ids, **words))
            self.assertTrue(kcore.check(edges, core[::-1], order, ids=ids[::-1], **words))
            self.assertFalse(kcore.check(edges, core, order[::-1], ids=ids, **words))
            self.assertEqual(kcore.k_core(edges, 2, return_ids=True, **words).tolist(), APART_IDS[:3])
        core, ids = kcore.core_numbers(numpy.empty((0, 2)), return_ids=True)
        self.assertEqual((core.tolist(), ids.tolist()), ([], []))
        self.refused(ValueError, "an end of an edge is not in 0 to 4294967295: give return_ids=True", numpy.array(APART))

    @needs_numpy
    def test_the_array_protocol(self):
        class Tensor:
            def __init__(self, values):
                self.values = values
                self.ndim = values.ndim

            def __array__(self, dtype=None, copy=None):
                return self.values

        self.assertEqual(self.certified(Tensor(numpy.array(TAILED))).tolist(), TAILED_CORE)
        self.assertEqual(self.certified(Tensor(numpy.array(TAILED).T), axis=0).tolist(), TAILED_CORE)
        core, ids = kcore.core_numbers(Tensor(numpy.array(APART)), return_ids=True)
        self.assertEqual((core.tolist(), ids.tolist()), (APART_CORE, APART_IDS))
        self.refused(TypeError, "whole numbers", Tensor(numpy.array(TAILED, float)))

    @needs_numpy
    def test_the_buffer_protocol(self):
        rows = numpy.array(TAILED, numpy.int32)
        table = (ctypes.c_uint32 * 2 * len(TAILED))(*[(ctypes.c_uint32 * 2)(*edge) for edge in TAILED])
        for given in [memoryview(rows), table]:
            self.assertEqual(self.certified(given).tolist(), TAILED_CORE)
        self.assertEqual(kcore.core_numbers(memoryview(rows.T.copy()), axis=0).tolist(), TAILED_CORE)


class Pairs(Case):
    def test_names(self):
        for given in [NAMED, iter(NAMED), dict.fromkeys(NAMED), (list(edge) for edge in NAMED)]:
            self.assertEqual(kcore.core_numbers(given), NAMED_CORE)
        core, order = kcore.degeneracy_order(NAMED)
        self.assertEqual((core, sorted(order), order[0]), (NAMED_CORE, sorted(NAMED_CORE), "joe"))
        self.assertTrue(kcore.check(NAMED, core, order))
        self.assertFalse(kcore.check(NAMED, {**core, "joe": 2}, order))
        self.assertFalse(kcore.check(NAMED, core, [*order, "tim"]))
        self.assertFalse(kcore.check(NAMED, {**core, "tim": 0}, order))
        self.assertEqual(kcore.k_core(NAMED, 2), ["ann", "bob", "eve"])
        with self.assertRaisesRegex(TypeError, "core is a mapping with the names"):
            kcore.check(NAMED, [2, 2, 2, 1], order)

    def test_names_and_numbers_together(self):
        edges = [(0, 1), (1, 2), (2, 0), (2, ("a", 7)), (("a", 7), "end")]
        core = {0: 2, 1: 2, 2: 2, ("a", 7): 1, "end": 1}
        self.assertEqual(list(kcore.core_numbers(iter(edges)).items()), list(core.items()))
        self.assertEqual(kcore.core_numbers([("x", 0)]), {"x": 1, 0: 1})
        self.assertEqual(kcore.core_numbers([(0, 1), (2, "x")]), {0: 1, 1: 1, 2: 1, "x": 1})

    def test_ids_that_are_far_apart(self):
        for given in [APART, iter(APART), [(-u, -v) for u, v in APART]]:
            core, ids = kcore.core_numbers(given, return_ids=True)
            self.assertEqual(dict(zip(map(abs, ids), core)), dict(zip(APART_IDS, APART_CORE)))
            self.assertEqual(ids, sorted(ids))
        core, order, ids = kcore.degeneracy_order(APART, return_ids=True)
        self.assertEqual((core, sorted(order), ids), (APART_CORE, APART_IDS, APART_IDS))
        self.assertTrue(kcore.check(APART, core, order, ids=ids))
        self.assertFalse(kcore.check(APART, core, order, ids=ids[:-1]))
        self.assertFalse(kcore.check(APART, [*core, 1], order, ids=[*ids, 5]))
        self.assertFalse(kcore.check(APART, core, order, ids=[6, *ids[1:]]))
        self.assertEqual(kcore.k_shell(APART, 1, return_ids=True), [10**15])
        self.assertEqual(kcore.degeneracy(APART, return_ids=True), 2)
        self.refused(ValueError, "give return_ids=True where ids are far apart", APART)
        self.refused(ValueError, "4294967296 vertices.*give return_ids=True", [(0, 2**32 - 1)])

    def test_what_is_no_pair(self):
        forms = "These forms are taken: an array of integers .*; an iterable of pairs"
        self.refused(TypeError, f"edge 1 is 5, and an edge is a pair of integers or of names. {forms}", [(0, 1), 5])
        self.refused(ValueError, f"edge 0 is .0, 1, 2., and an edge is a pair of integers or of names. {forms}", [(0, 1, 2)])
        self.refused(TypeError, "edge 0 is of the type str, and an edge is a pair", ["ab"])
        self.refused(TypeError, "edge 1 is of the type bytes, and an edge is a pair", [("a", "b"), b"ab"])

    def test_ends_that_are_no_names(self):
        self.refused(TypeError, "an end is the float 1.0: give 1, as int", [(0, 1.0)])
        self.refused(TypeError, "an end is the float 0.5, which is no vertex", [("a", 0.5)])
        self.refused(TypeError, "an end is the float nan, which is no vertex", [("a", float("nan"))])
        self.refused(TypeError, "an end is the float inf, which is no vertex", [("a", float("inf"))])
        self.refused(TypeError, "an end is None, which is no name", [("a", None)])
        self.refused(TypeError, "an end is of the type list, which is not hashable", [("a", [])])
        if numpy is not None:
            self.refused(TypeError, "an end is the float 2.0: give 2", [("a", numpy.float32(2))])

    def test_words_that_do_not_go_with_names(self):
        self.refused(TypeError, "vertices does not go with names, and 'ann' or 'bob' is one", NAMED, vertices=9)
        self.refused(TypeError, "return_ids goes with ids that are integers", NAMED, return_ids=True)
        self.refused(TypeError, "axis does not go with an iterable of pairs", NAMED, axis=0)
        self.refused(TypeError, "columns does not go with an iterable of pairs", NAMED, columns=(0, 1))


class Matrices(Case):
    @needs_scipy
    def test_symmetric_and_triangular(self):
        rows, columns = numpy.array([(u, v) for u, v in TAILED]).T
        matrix = sparse.coo_matrix((numpy.ones(len(rows)), (rows, columns)), shape=(6, 6)).tocsr()
        both = matrix + matrix.T
        for given in [both, sparse.triu(both), sparse.tril(both), both.tocoo(), both.tocsc(), both.todok(), -both, both != 0]:
            self.assertEqual(self.certified(given).tolist(), TAILED_CORE + [0])
        self.assertEqual(kcore.k_core(sparse.csr_array(both), 2).tolist(), [0, 1, 2])
        self.assertEqual(kcore.core_numbers(sparse.csr_matrix((3, 3))).tolist(), [0, 0, 0])
        self.assertEqual(kcore.core_numbers(sparse.csr_matrix((0, 0))).tolist(), [])

    @needs_scipy
    def test_rows_are_read_where_they_lie(self):
        rows, columns = numpy.array([(u, v) for u, v in TAILED if u != v]).T
        matrix = sparse.coo_matrix((numpy.ones(len(rows)), (rows, columns)), shape=(5, 5)).tocsr()
        both = ((matrix + matrix.T) != 0).tocsr()
        for given in [both, sparse.triu(both, format="csr"), sparse.tril(both, format="csr")]:
            graph = _forms.read(given)
            self.assertIs(type(graph), RowGraph)
            self.assertTrue(numpy.shares_memory(graph.neighbours, given.indices))
            self.assertEqual(sorted(sorted(edge) for edge in graph.ends.tolist()), [[0, 1], [0, 2], [1, 2], [2, 3]])
            self.assertEqual(graph.edges, 4)
        self.assertEqual(kcore.onion_layers(both).tolist(), kcore.onion_layers(TAILED, 5))
        self.assertEqual(kcore.k_corona(both, 2).tolist(), kcore.k_corona(TAILED, 2))
        self.assertEqual(kcore.Cores(both).core_numbers().tolist(), TAILED_CORE)

    @needs_scipy
    def test_rows_that_do_not_ascend_or_repeat(self):
        shuffled = sparse.csr_matrix((numpy.ones(6), [2, 1, 2, 0, 1, 0], [0, 2, 4, 6]), shape=(3, 3))
        self.assertEqual(self.certified(shuffled).tolist(), [2, 2, 2])
        twice = sparse.csr_matrix(([1, -1, 1, 1, 1], [1, 1, 0, 2, 1], [0, 2, 4, 5]), shape=(3, 3))
        self.assertEqual(self.certified(twice).tolist(), [1, 1, 1])
        wide = sparse.csr_matrix(([True, True], numpy.array([1, 0], numpy.int64), numpy.array([0, 1, 2], numpy.int64)), shape=(2, 2))
        self.assertEqual(self.certified(wide).tolist(), [1, 1])

    @needs_scipy
    def test_rows_that_scipy_would_not_have(self):
        broken = sparse.csr_matrix(numpy.array([[0, 1], [1, 0]]))
        graph = _forms.read(broken)
        graph.neighbours[1] = 7
        with self.assertRaises(kcore.NotAVertexError) as caught:
            graph.core_numbers()
        self.assertEqual((caught.exception.place, caught.exception.edge, caught.exception.vertices), (1, (1, 7), 2))
        for offsets, status in [([1, 1, 2], 18), ([0, 3, 2], 19), ([0, 1, 1], 21)]:
            graph.offsets = numpy.array(offsets, numpy.uint64)
            with self.assertRaisesRegex(RuntimeError, f"kcore_core_numbers_csr answered the status {status}"):
                graph.core_numbers()

    @needs_scipy
    def test_matrices_of_directed_graphs(self):
        matrix = sparse.csr_matrix(numpy.array([[0, 1, 0], [0, 0, 1], [1, 0, 0]]))
        self.refused(ValueError, r"neither symmetric nor triangular.*give \(matrix != 0\) \+ \(matrix != 0\).T", matrix)
        self.assertEqual(kcore.core_numbers((matrix != 0) + (matrix != 0).T).tolist(), [2, 2, 2])

    @needs_scipy
    def test_other_matrices(self):
        self.refused(ValueError, r"a row and a column for each vertex, .* \(2, 3\)", sparse.csr_matrix((2, 3)))
        zeros = sparse.csr_matrix(([1.0, 0.0, 1.0, 0.0], ([0, 1, 1, 2], [1, 2, 0, 1])), shape=(3, 3))
        self.refused(ValueError, "stores zeros.*eliminate_zeros", zeros)
        zeros.eliminate_zeros()
        self.assertEqual(kcore.core_numbers(zeros).tolist(), [1, 1, 0])
        for word, value in [("vertices", 3), ("axis", 0), ("columns", (0, 1)), ("return_ids", True)]:
            self.refused(TypeError, f"{word} does not go with a sparse adjacency matrix of SciPy", zeros, **{word: value})


class Frames(Case):
    @needs_pandas
    def test_two_columns(self):
        for pairs, core in [(NAMED, NAMED_CORE), (APART, dict(zip(APART_IDS, APART_CORE)))]:
            frame = pandas.DataFrame(pairs, columns=["source", "target"])
            found = kcore.core_numbers(frame)
            self.assertIsInstance(found, pandas.Series)
            self.assertEqual((found.to_dict(), found.name), (core, "core_number"))
            self.assertEqual(self.certified(frame).to_dict(), core)
            members = kcore.k_core(frame, 2)
            self.assertIsInstance(members, pandas.Index)
            self.assertEqual(set(members), {name for name, number in core.items() if number == 2})
        self.assertEqual(len(kcore.core_numbers(pandas.DataFrame({"u": [], "v": []}, dtype="int64"))), 0)
        frame = pandas.DataFrame(NAMED, dtype="category")
        self.assertEqual(kcore.core_numbers(frame).to_dict(), NAMED_CORE)

    @needs_pandas
    def test_some_of_the_columns(self):
        frame = pandas.DataFrame([(t, *edge) for t, edge in enumerate(NAMED)], columns=["time", "source", "target"])
        for columns in [("source", "target"), [1, 2], ("source", -1)]:
            self.assertEqual(kcore.core_numbers(frame, columns=columns).to_dict(), NAMED_CORE)
        self.refused(ValueError, "two columns, and this one has 3: say which by columns=", frame)
        self.refused(ValueError, "no column 'from', but .'time'", frame, columns=("from", "target"))
        self.refused(ValueError, "no column 3, but", frame, columns=(1, 3))
        self.refused(ValueError, "columns has two names or places, and not 'st'", frame, columns="st")
        self.refused(ValueError, "columns has two names or places", frame, columns=("time", "source", "target"))
        frame.columns = ["time", "end", "end"]
        self.refused(ValueError, "2 columns 'end'", frame, columns=("end", "end"))
        self.assertEqual(kcore.core_numbers(frame, columns=(1, 2)).to_dict(), NAMED_CORE)

    @needs_pandas
    def test_columns_without_all_values(self):
        self.refused(TypeError, r"column 'v' has floats.*astype\('int64'\)", pandas.DataFrame({"u": [1, 2], "v": [2, None]}))
        self.refused(ValueError, r"column 'v' has places without a value: give frame.dropna\(\)", pandas.DataFrame({"u": ["a", "b"], "v": ["b", None]}))
        for word, value in [("vertices", 3), ("axis", 0), ("return_ids", True)]:
            self.refused(TypeError, f"{word} does not go with a data frame of pandas", pandas.DataFrame(NAMED), **{word: value})

    @needs_pandas
    def test_numbers_from_anywhere(self):
        frame = pandas.DataFrame(NAMED)
        core, order = kcore.degeneracy_order(frame)
        self.assertTrue(kcore.check(frame, core.sample(frac=1, random_state=1), list(order)))
        self.assertTrue(kcore.check(frame, core.to_dict(), order))
        self.assertFalse(kcore.check(frame, core + 1, order))
        with self.assertRaisesRegex(TypeError, "core is a Series or a mapping"):
            kcore.check(frame, core.tolist(), order)


class Graphs(Case):
    @needs_igraph
    def test_igraph(self):
        graph = igraph.Graph(6, [(0, 1), (4, 4), (2, 0), (1, 2), (3, 2)])
        core = self.certified(graph)
        self.assertEqual(core, TAILED_CORE + [0])
        self.assertEqual(kcore.k_core(graph, 2), [0, 1, 2])
        self.assertEqual(kcore.core_numbers(igraph.Graph()), [])

    @needs_igraph
    def test_graphs_of_igraph_that_are_refused(self):
        directed = igraph.Graph([(0, 1), (1, 0)], directed=True)
        self.refused(TypeError, r"give graph.as_undirected\(\)", directed)
        self.assertEqual(kcore.core_numbers(directed.as_undirected()), [1, 1])
        several = igraph.Graph([(0, 1), (1, 0)])
        self.refused(TypeError, r"give graph.copy\(\).simplify\(\)", several)
        self.assertEqual(kcore.core_numbers(several.copy().simplify()), [1, 1])
        self.refused(TypeError, "vertices does not go with a graph of igraph", igraph.Graph(), vertices=3)

    @needs_networkx
    def test_words_that_do_not_go_with_networkx(self):
        for word, value in [("vertices", 3), ("axis", 0), ("columns", (0, 1)), ("return_ids", True)]:
            self.refused(TypeError, f"{word} does not go with a graph of networkx", networkx.Graph(), **{word: value})


class Others(Case):
    def test_each_form_is_told(self):
        for given in [5, None, "graph.txt", b"0 1", object()]:
            with self.assertRaises(TypeError) as caught:
                kcore.core_numbers(given)
            for form in _forms.FORMS:
                self.assertIn(form.name, str(caught.exception))
            self.assertIn(f"not of the type {type(given).__name__}", str(caught.exception))

    def test_without_other_packages(self):
        absent = dict.fromkeys(["numpy", "numpy.ma", "networkx", "igraph", "pandas", "scipy.sparse"])
        with mock.patch.dict(sys.modules, absent):
            self.assertEqual(self.certified(TAILED), TAILED_CORE)
            self.assertEqual(kcore.core_numbers(NAMED), NAMED_CORE)
            self.assertEqual(kcore.core_numbers(APART, return_ids=True), (APART_CORE, APART_IDS))
            self.assertEqual(kcore.k_corona(TAILED, 2), [0, 1, 2])


if __name__ == "__main__":
    unittest.main()
