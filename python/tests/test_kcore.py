"""The module beside networkx and igraph, and each refusal. Tests that need a package or a graph which is not here are skipped, and say so.

graphs/karate.txt is part of the repository. Other graphs are looked for in bench/data, and in the folder that KCORE_GRAPHS names.
"""

import _ctypes
import doctest
import os
import platform
import random
import re
import shutil
import subprocess
import tempfile
import unittest
from pathlib import Path
from unittest import mock

import kcore
from kcore import _api, _forms, _library, _lists

try:
    import numpy
except ImportError:
    numpy = None
try:
    import networkx
except ImportError:
    networkx = None
try:
    import igraph
except ImportError:
    igraph = None

TOP = Path(__file__).resolve().parents[2]
FOLDERS = [TOP / "graphs", TOP / "bench" / "data", *([Path(os.environ["KCORE_GRAPHS"])] if "KCORE_GRAPHS" in os.environ else [])]

needs_numpy = unittest.skipIf(numpy is None, "NumPy is not installed")
needs_networkx = unittest.skipIf(networkx is None, "networkx is not installed")
needs_igraph = unittest.skipIf(igraph is None, "igraph is not installed")
needs_compiler = unittest.skipIf(shutil.which("cc") is None, "there is no cc")

# A triangle with a tail, listed with a loop, a repeat and a repeat the other way round, and a vertex that has a loop alone.
TAILED = [(0, 1), (1, 0), (4, 4), (2, 0), (1, 2), (1, 2), (3, 2)]
TAILED_CORE = [2, 2, 2, 1, 0]


def random_graphs(count):
    """Numbers of vertices and lists of edges, with loops and repeats."""
    draws = random.Random(1)
    for _ in range(count):
        vertices = draws.randrange(0, 40)
        edges = draws.randrange(0, 3 * vertices + 1)
        yield vertices, [(draws.randrange(vertices), draws.randrange(vertices)) for _ in range(edges)]


def edges_of(name):
    """The edges of a graph with ids that are made dense, or a skip where its file is not here."""
    for folder in FOLDERS:
        path = folder / f"{name}.txt"
        if path.exists():
            pairs = [line.split()[:2] for line in path.read_text().splitlines() if line[:1].isdigit()]
            ids = {name: number for number, name in enumerate(sorted({int(end) for pair in pairs for end in pair}))}
            return [(ids[int(u)], ids[int(v)]) for u, v in pairs]
    raise unittest.SkipTest(f"there is no {name}.txt in {', '.join(map(str, FOLDERS))}")


def numbers_by_networkx(vertices, edges):
    graph = networkx.Graph()
    graph.add_nodes_from(range(vertices))
    graph.add_edges_from((u, v) for u, v in edges if u != v)
    numbers = networkx.core_number(graph) if vertices else {}
    return [numbers[v] for v in range(vertices)]


def numbers_by_igraph(vertices, edges):
    return igraph.Graph(vertices, edges).simplify().coreness() if vertices else []


class Results(unittest.TestCase):
    def certified(self, edges, vertices, core, order):
        self.assertEqual(sorted(order), list(range(vertices)))
        self.assertTrue(kcore.check(edges, core, order, vertices=vertices))

    def test_examples(self):
        self.assertEqual(doctest.testmod(_api, verbose=False).failed, 0)

    def test_a_triangle_with_a_tail(self):
        self.assertEqual(kcore.core_numbers(TAILED), TAILED_CORE)
        self.assertEqual(kcore.core_numbers(iter(TAILED), vertices=6), TAILED_CORE + [0])
        self.assertEqual(kcore.core_numbers([list(edge) for edge in TAILED]), TAILED_CORE)
        core, order = kcore.degeneracy_order(TAILED)
        self.assertEqual(core, TAILED_CORE)
        self.certified(TAILED, 5, core, order)
        members = {0: [0, 1, 2, 3, 4], 1: [0, 1, 2, 3], 2: [0, 1, 2], 3: [], 2**32 - 1: [], 2**32: [], 2**40: []}
        for k, wanted in members.items():
            self.assertEqual(kcore.k_core(TAILED, k), wanted)

    def test_no_edges(self):
        self.assertEqual(kcore.core_numbers([]), [])
        self.assertEqual(kcore.core_numbers([], vertices=2), [0, 0])
        self.assertEqual(kcore.degeneracy_order([]), ([], []))
        self.assertTrue(kcore.check([], [], []))

    def test_what_no_order_certifies(self):
        order = [4, 3, 0, 1, 2]
        self.assertTrue(kcore.check(TAILED, TAILED_CORE, order))
        for core, listed in [
            ([2, 2, 2, 2, 0], order),
            ([2, 2, 1, 1, 0], order),
            (TAILED_CORE, [3, 4, 0, 1, 2]),
            (TAILED_CORE, [4, 3, 0, 1, 1]),
            (TAILED_CORE, [4, 3, 0, 1, 5]),
            (TAILED_CORE, [4, 3, 0, 1]),
            (TAILED_CORE + [0], order),
            (TAILED_CORE, [4, 3, 0, 1, 2**32 + 2]),
            ([2, 2, 2, 1, -1], order),
            ([], []),
        ]:
            self.assertFalse(kcore.check(TAILED, core, listed), (core, listed))

    @needs_numpy
    def test_arrays(self):
        for dtype in [*numpy.typecodes["AllInteger"], ">u2", ">i4", ">u4", ">i8", ">u8"]:
            edges = numpy.array(TAILED, dtype=dtype)
            for given in [edges, numpy.asfortranarray(edges), numpy.repeat(edges, 2, axis=0)[::2]]:
                core = kcore.core_numbers(given)
                self.assertEqual((core.dtype, core.tolist()), (numpy.uint32, TAILED_CORE))
        core, order = kcore.degeneracy_order(edges)
        self.assertTrue(kcore.check(edges, core, order))
        self.assertTrue(kcore.check(TAILED, core, order))
        self.assertFalse(kcore.check(edges, core.astype("int64") - 1, order))
        self.assertEqual(kcore.k_core(edges, 2).tolist(), [0, 1, 2])
        self.assertEqual(kcore.core_numbers(numpy.array([])).tolist(), [])

    @needs_numpy
    def test_an_array_of_uint32_is_not_copied(self):
        edges = numpy.array(TAILED, dtype=numpy.uint32)
        self.assertIs(_forms.read(edges).ends, edges)

    @needs_numpy
    def test_lists_of_other_kinds(self):
        core, order = numpy.array(TAILED_CORE), [4, 3, 0, 1, 2]
        for given in [core, core[::-1][::-1], core.astype(">i8"), tuple(TAILED_CORE), iter(TAILED_CORE), memoryview(bytes(TAILED_CORE))]:
            self.assertTrue(kcore.check(TAILED, given, numpy.array(order)))
        self.assertTrue(kcore.check(TAILED, core, iter(order)))
        self.assertEqual(kcore.core_numbers(TAILED, numpy.int64(6)), TAILED_CORE + [0])
        self.assertEqual(kcore.k_core(TAILED, numpy.uint8(2)), [0, 1, 2])

    def test_results_are_written_over_zeros(self):
        self.assertEqual(_lists.room(3, False).tolist(), [0, 0, 0])
        if numpy is not None:
            freed = numpy.full(100_000, 7, numpy.uint32)
            del freed
            self.assertFalse(_lists.room(100_000, True).any())

    @needs_numpy
    @needs_igraph
    def test_igraph_has_the_same_numbers(self):
        for vertices, edges in random_graphs(1000):
            with self.subTest(vertices=vertices, edges=edges):
                array = numpy.array(edges, dtype=numpy.uint32).reshape(-1, 2)
                core, order = kcore.degeneracy_order(array, vertices, axis=1)
                self.assertEqual(core.tolist(), numbers_by_igraph(vertices, edges))
                self.assertTrue(kcore.check(array, core, order, vertices, axis=1))

    @needs_networkx
    def test_networkx_has_the_same_numbers(self):
        for vertices, edges in random_graphs(300):
            with self.subTest(vertices=vertices, edges=edges):
                self.assertEqual(kcore.core_numbers(edges, vertices), numbers_by_networkx(vertices, edges))

    @needs_networkx
    def test_a_graph_of_networkx(self):
        for graph in [networkx.karate_club_graph(), networkx.Graph([("a", "b"), ("b", "c"), ("c", "a"), ("c", (1, 2))]), networkx.Graph()]:
            core, order = kcore.degeneracy_order(graph)
            self.assertEqual(core, networkx.core_number(graph) if len(graph) else {})
            self.assertEqual(kcore.core_numbers(graph), core)
            self.assertTrue(kcore.check(graph, core, order))
            self.assertFalse(kcore.check(graph, core, [*order, "none"]))
            self.assertFalse(kcore.check(graph, {**core, "none": 0}, order))
            for k in range(5):
                self.assertEqual(set(kcore.k_core(graph, k)), {node for node, number in core.items() if number >= k})
        with self.assertRaisesRegex(TypeError, "vertices does not go with a graph of networkx"):
            kcore.core_numbers(networkx.Graph(), vertices=1)

    @needs_networkx
    def test_numbers_of_nodes_from_anywhere(self):
        graph = networkx.Graph([("a", "b"), ("b", "c"), ("c", "a"), ("c", "d")])
        core, order = kcore.degeneracy_order(graph)
        self.assertTrue(kcore.check(graph, core, iter(order)))
        self.assertTrue(kcore.check(graph, core, tuple(order)))
        self.assertFalse(kcore.check(graph, core, iter(order[:-1])))
        self.assertFalse(kcore.check(graph, core, iter([*order, order[0]])))
        self.assertFalse(kcore.check(graph, {"a": 2, "b": 2, "c": 2}, order))
        self.assertFalse(kcore.check(graph, {**core, "a": 2**32 + 2}, order))
        for given in [[2, 2, 2, 1], "abcd", iter(core)]:
            with self.assertRaisesRegex(TypeError, "core is a mapping"):
                kcore.check(graph, given, order)
        for given in [set(order), dict.fromkeys(order), b"dabc"]:
            with self.assertRaisesRegex(TypeError, "order is a sequence"):
                kcore.check(graph, core, given)


class KnownGraphs(unittest.TestCase):
    """Each graph beside both packages."""

    def compared(self, name):
        edges = edges_of(name)
        vertices = 1 + max(max(edge) for edge in edges)
        core, order = kcore.degeneracy_order(edges)
        self.assertEqual(core, kcore.core_numbers(edges))
        self.assertTrue(kcore.check(edges, core, order))
        if networkx is None or igraph is None:
            self.skipTest("networkx or igraph is not installed")
        self.assertEqual(core, numbers_by_igraph(vertices, edges))
        self.assertEqual(core, numbers_by_networkx(vertices, edges))

    def test_karate(self):
        self.compared("karate")

    def test_deb_depends(self):
        self.compared("deb-depends")

    def test_email_enron(self):
        self.compared("email-Enron")


class Refusals(unittest.TestCase):
    CALLS = [
        lambda edges, vertices=None: kcore.core_numbers(edges, vertices),
        lambda edges, vertices=None: kcore.degeneracy_order(edges, vertices),
        lambda edges, vertices=None: kcore.k_core(edges, 1, vertices),
        lambda edges, vertices=None: kcore.check(edges, [], [], vertices),
    ]

    def refused(self, cause, edges, vertices=None, text=""):
        for call in self.CALLS:
            with self.assertRaisesRegex(cause, text):
                call(edges, vertices)

    def test_an_end_that_is_no_vertex(self):
        lists = [[(0, 1), (1, 2), (3, 0), (4, 4)]]
        if numpy is not None:
            lists.append(numpy.array(lists[0]))
        for edges in lists:
            for call in self.CALLS:
                with self.assertRaises(kcore.NotAVertexError) as caught:
                    call(edges, 3)
                self.assertEqual((caught.exception.place, caught.exception.edge, caught.exception.vertices), (2, (3, 0), 3))
                self.assertIn("edge 2 is (3, 0)", str(caught.exception))

    def test_ends_that_do_not_fit(self):
        self.refused(ValueError, [(0, -1)], text="an end of an edge")
        self.refused(ValueError, [(0, 2**32)], text="an end of an edge")
        self.refused(ValueError, [(0, 2**32 - 1)], text="4294967296 vertices")
        self.refused(ValueError, [], vertices=-1, text="-1 vertices")
        self.refused(ValueError, [], vertices=2**32, text="4294967296 vertices")

    @needs_numpy
    def test_arrays_that_do_not_fit(self):
        self.refused(ValueError, numpy.array([(0, -1)]), text="an end of an edge")
        self.refused(ValueError, numpy.array([(0, 2**32)]), text="an end of an edge")
        self.refused(ValueError, numpy.array([0, 1]), text="two columns")
        self.refused(ValueError, numpy.array([(0, 1, 2)]), text="two columns")
        self.refused(TypeError, numpy.array([(0.0, 1.0)]), text="no integers")

    def test_what_are_no_edges(self):
        self.refused(ValueError, [(0, 1, 2)])
        self.refused(ValueError, [(0,)])
        self.refused(TypeError, [(0.5, 1)])
        self.refused(TypeError, 5)
        for edges in ["0 1", b"ab", bytearray(b"ab")]:
            self.refused(TypeError, edges, text="edges are pairs of integers")
        for edges in [[b"ab"], [(0, 1), bytearray(b"ab")]]:
            self.refused(TypeError, edges, text="an edge is a pair of integers")

    @needs_networkx
    def test_directed_graphs(self):
        pairs = [(1, 2), (2, 1), (2, 3), (2, 4), (3, 4), (4, 3)]
        for graph in [networkx.DiGraph(pairs), networkx.MultiDiGraph(pairs)]:
            self.refused(TypeError, graph, text="to_undirected")
            undirected = networkx.Graph(graph.to_undirected())
            self.assertEqual(kcore.core_numbers(undirected), networkx.core_number(undirected))

    @needs_networkx
    def test_graphs_with_several_edges_of_two_nodes(self):
        graph = networkx.MultiGraph([("a", "b"), ("b", "a"), ("a", "b"), ("b", "c"), ("c", "c")])
        self.refused(TypeError, graph, text=r"give networkx.Graph\(graph\)")
        self.assertEqual(kcore.core_numbers(networkx.Graph(graph)), {"a": 1, "b": 1, "c": 1})

    def test_numbers_of_vertices_that_are_no_integers(self):
        for vertices in [4.0, "4"]:
            self.refused(TypeError, [(0, 1)], vertices)

    def test_a_k_that_is_no_number_of_neighbours(self):
        for k in [-1, -(2**40)]:
            with self.assertRaisesRegex(ValueError, f"k is {k}"):
                kcore.k_core(TAILED, k)
        for k in [1.0, "1"]:
            with self.assertRaises(TypeError):
                kcore.k_core(TAILED, k)

    def assert_no_list(self, cause, text, core, order):
        for given in [(core, [4, 3, 0, 1, 2]), (TAILED_CORE, order)]:
            with self.assertRaisesRegex(cause, text):
                kcore.check(TAILED, *given)

    def test_what_is_no_list_of_numbers(self):
        for given in [bytes(20), bytearray(20), dict.fromkeys(range(5), 2), {0, 1, 2}, frozenset()]:
            self.assert_no_list(TypeError, "is a sequence or an array", given, given)
        for given in ["ab", [0.5], [None], 5]:
            self.assert_no_list(TypeError, "", given, given)

    @needs_numpy
    def test_arrays_of_another_dimension(self):
        core = numpy.array(TAILED_CORE, numpy.uint32)
        for given in [numpy.empty((5, 0), numpy.uint32), numpy.empty((0, 5), numpy.int64), core.reshape(5, 1), core.reshape(1, 5), core[0:1][0, ...]]:
            self.assert_no_list(ValueError, "one dimension", given, given)
        # The first five of these ten numbers are right in both.
        self.assert_no_list(ValueError, "ravel", numpy.append(core, core).reshape(5, 2), numpy.array([4, 3, 0, 1, 2] * 2).reshape(5, 2))
        self.assert_no_list(TypeError, "no integers", core.astype(float), core > 0)

    @needs_numpy
    def test_masked_arrays(self):
        masked = numpy.ma.masked_array(numpy.array(TAILED, numpy.uint32), mask=False)
        self.refused(TypeError, masked, text="masked")
        self.assert_no_list(TypeError, "masked", numpy.ma.array(TAILED_CORE), numpy.ma.array([4, 3, 0, 1, 2]))
        if networkx is not None:
            graph = networkx.Graph(TAILED)
            with self.assertRaisesRegex(TypeError, "masked"):
                kcore.check(graph, kcore.core_numbers(graph), numpy.ma.array([4, 3, 0, 1, 2]))

    def test_edges_are_judged_beside_numbers_that_do_not_fit(self):
        with self.assertRaises(kcore.NotAVertexError):
            kcore.check([(0, 3)], [2**32], [0], vertices=1)
        self.assertFalse(kcore.check([], [2**32], []))
        self.assertFalse(kcore.check([], [], [-1]))

    def test_statuses_that_a_function_does_not_have(self):
        names = ["core_numbers", "degeneracy_order", "k_core", "check"]
        for name, call in zip(names, self.CALLS):
            for status in [1, 2, 3, 6, 7, 2**32 - 1]:
                if (name, status) == ("check", 6):
                    continue
                fake = mock.Mock(return_value=_library.Answer(status, 0), __name__=f"kcore_{name}")
                with mock.patch.object(_library, name, fake), self.assertRaisesRegex(RuntimeError, f"kcore_{name} .* {status},"):
                    call(TAILED)


class Libraries(unittest.TestCase):
    """Which libraries are taken."""

    def refused(self, path, text):
        with mock.patch.dict(os.environ, KCORE_LIBRARY=str(path)), self.assertRaisesRegex(ImportError, text) as caught:
            _library._load()
        self.assertIn(str(path), str(caught.exception))
        self.assertIn("c/build.sh", str(caught.exception))

    def test_the_version_is_the_headers_and_the_crates(self):
        header = re.search(r"KCORE_VERSION (0x[0-9a-f]+)u", (TOP / "include" / "kcore.h").read_text())
        crate = re.search(r"VERSION: u32 = (0x[0-9a-f_]+);", (TOP / "crates" / "kc_c" / "src" / "lib.rt").read_text())
        self.assertEqual(int(header[1], 16), _library.VERSION)
        self.assertEqual(int(crate[1].replace("_", ""), 16), _library.VERSION)
        self.assertEqual(_library._library.kcore_version(), _library.VERSION)

    def test_what_is_no_library(self):
        self.refused("/nowhere/libkcore.so", "there is no library")
        self.refused(__file__, "no library that can be loaded")

    @unittest.skipIf(platform.machine() != "x86_64", "the library is for x86-64")
    def test_a_processor_that_lacks_what_the_library_wants(self):
        with tempfile.TemporaryDirectory() as folder:
            told = Path(folder) / "cpuinfo"
            with mock.patch.object(_library, "_PROCESSOR", told):
                self.assertEqual(_library._lacking(), set())
                told.write_text("processor : 0\nflags : fpu cx16 ssse3 sse4_1\n")
                with self.assertRaisesRegex(ImportError, "level x86-64-v2, and this one lacks popcnt, sse4_2$"):
                    _library._load()
                told.write_text("no flags\n")
                self.assertEqual(_library._lacking(), set())

    def test_a_library_without_a_version(self):
        self.refused(_ctypes.__file__, f"tells no version, and this module calls version {kcore.__version__}")

    @needs_compiler
    def test_a_library_of_another_version(self):
        with tempfile.TemporaryDirectory() as folder:
            for version in [_library.VERSION + 1, 0x010203]:
                told = _library._dotted(version)
                path = Path(folder) / f"{told}.so"
                text = f"unsigned kcore_version(void) {{ return {version}; }}"
                subprocess.run(["cc", "-shared", "-fPIC", "-x", "c", "-", "-o", str(path)], input=text.encode(), check=True)
                self.refused(path, f"is version {told}, and this module calls version {kcore.__version__}")


if __name__ == "__main__":
    unittest.main()
