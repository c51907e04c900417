"""Core numbers that are kept while edges come and go."""

import concurrent.futures
import copy
import itertools
import pickle
import random
import unittest
import unittest.mock

import kcore
from kcore import _edges, _library

from .test_forms import igraph, networkx, numpy, pandas, sparse

TRIANGLE = [(0, 1), (1, 2), (2, 0)]
# A triangle with a tail, and the tail alone.
TAILED, TAIL = [(0, 1), (0, 2), (1, 2), (2, 3)], [(2, 3)]
NAMES = [("ann", "bob"), ("bob", "cat"), ("cat", "ann")]


def changes(old, new):
    """The numbers that differ, before and after, with None before where a vertex is new."""
    return {vertex: (old.get(vertex), number) for vertex, number in new.items() if old.get(vertex) != number}


def forms_of(whole, part):
    """Two lists of edges between four vertices in each form that is at hand, with its name and the words that go with it."""
    yield "pairs", whole, part, {}
    yield "an iterator", iter(whole), part, {}
    if networkx is not None:
        yield "networkx", networkx.Graph(whole), networkx.Graph(part), {}
    if igraph is not None:
        yield "igraph", igraph.Graph(4, whole), igraph.Graph(4, part), {}
    if numpy is None:
        return
    rows = [numpy.array(edges) for edges in (whole, part)]
    yield ("an array", *rows, {})
    yield ("an array of columns", *(edges.T for edges in rows), {"axis": 0})
    yield ("a buffer", *(memoryview(edges.astype(numpy.int32)) for edges in rows), {})
    if sparse is not None:
        yield ("a matrix", *(sparse.csr_matrix((numpy.ones(len(edges)), edges.T), shape=(4, 4)) for edges in rows), {})
    if pandas is not None:
        frames = [pandas.DataFrame([(7, u, v) for u, v in edges], columns=["time", "from", "to"]) for edges in (whole, part)]
        yield ("a frame by names", *frames, {"columns": ("from", "to")})
        yield ("a frame by places", *frames, {"columns": (1, 2)})


class CoresTest(unittest.TestCase):
    def test_numbers_follow_the_edges(self):
        with kcore.Cores(TRIANGLE) as cores:
            self.assertEqual(cores.core_numbers(), [2, 2, 2])
            self.assertEqual(cores.insert([(2, 3)]), {3: (None, 1)})
            self.assertEqual(cores.remove([(0, 1)]), {0: (2, 1), 1: (2, 1), 2: (2, 1)})
            self.assertEqual(cores.apply(insert=[(0, 1)], remove=[(2, 3)]), {0: (1, 2), 1: (1, 2), 2: (1, 2), 3: (1, 0)})
            self.assertEqual((cores[0], cores[3], len(cores), cores.degeneracy), (2, 0, 4, 2))
            self.assertEqual((cores.k_core(), cores.k_core(0), cores.k_core(5)), ([0, 1, 2], [0, 1, 2, 3], []))

    def test_what_is_there_or_is_no_edge_changes_nothing(self):
        cores = kcore.Cores(TRIANGLE)
        self.assertEqual(cores.insert([(1, 0), (1, 1)]), {})
        self.assertEqual(cores.remove([(0, 7), (7, 8), (2, 2)]), {})
        self.assertEqual((len(cores), cores.core_numbers()), (3, [2, 2, 2]))
        self.assertEqual(cores.apply(), {})

    def test_removals_are_made_before_insertions(self):
        cores = kcore.Cores(TRIANGLE)
        self.assertEqual(cores.apply(insert=[(0, 1)], remove=[(0, 1)]), {})

    def test_names_come_with_edges(self):
        cores = kcore.Cores([("ann", "bob")])
        self.assertEqual(cores.insert([("bob", "cat"), ("cat", "ann")]), {"ann": (1, 2), "bob": (1, 2), "cat": (None, 2)})
        self.assertEqual(cores.core_numbers(), {"ann": 2, "bob": 2, "cat": 2})
        cores.add_vertices(["dan", "ann"])
        self.assertEqual((cores["dan"], "dan" in cores, "eve" in cores), (0, True, False))
        self.assertEqual(cores.remove([("ann", "eve"), ("eve", "fay")]), {})
        self.assertEqual(len(cores), 4)

    def test_ids_far_apart_are_names(self):
        cores = kcore.Cores(names=True)
        self.assertEqual(cores.insert([(7, 10**15)]), {7: (None, 1), 10**15: (None, 1)})

    def test_the_order_certifies(self):
        edges = [*TRIANGLE, (2, 3), (4, 5)]
        cores = kcore.Cores(edges, vertices=7)
        numbers = cores.core_numbers()
        neighbours = {v: {w for e in edges for w in e if v in e and w != v} for v in range(7)}
        for vertex in range(7):
            self.assertLessEqual(sum(cores.before(vertex, other) for other in neighbours[vertex]), numbers[vertex])
            for other in range(7):
                self.assertTrue(numbers[vertex] <= numbers[other] or not cores.before(vertex, other))
                self.assertEqual(cores.before(vertex, other) + cores.before(other, vertex), int(vertex != other))

    def test_the_order_is_told(self):
        cores = kcore.Cores([*TRIANGLE, (2, 3), (4, 5)], vertices=7)
        order = cores.order()
        self.assertEqual(sorted(order), list(range(7)))
        self.assertTrue(all(cores.before(*two) for two in zip(order, order[1:])))
        cores.insert([(7, 8)])
        self.assertEqual(sorted(cores.order()), list(range(9)))
        self.assertEqual(sorted(kcore.Cores([("ann", "bob")]).order()), ["ann", "bob"])
        self.assertEqual((cores.main_core(), kcore.Cores().main_core(), kcore.Cores().order()), ([0, 1, 2], [], []))

    def test_the_edges_are_told(self):
        cores = kcore.Cores([(1, 0), (0, 1), (2, 2), (1, 2)])
        self.assertEqual(cores.to_edges(), [(0, 1), (1, 2)])
        cores.apply(insert=[(2, 0), (3, 3), (9, 1)], remove=[(1, 0), (5, 6)])
        self.assertEqual((cores.to_edges(), cores.check()), ([(0, 2), (1, 2), (1, 9)], True))
        named = kcore.Cores([("bob", "ann")])
        named.apply(insert=[("cat", "bob")], remove=[("ann", "bob")])
        self.assertEqual((named.to_edges(), named.check()), ([("bob", "cat")], True))
        self.assertEqual((kcore.Cores().to_edges(), kcore.Cores().check()), ([], True))

    @unittest.skipUnless(numpy, "NumPy is not installed")
    def test_edges_of_arrays_are_told_as_one(self):
        given = numpy.array([(1, 0), (0, 1), (2, 2), (1, 2)])
        cores = kcore.Cores(given)
        given[:] = 0
        self.assertEqual(cores.to_edges().tolist(), [[0, 1], [1, 2]])
        cores.apply(insert=numpy.array([(2, 0), (3, 3), (9, 1)]), remove=numpy.array([(1, 0), (5, 6), (1, 1)]))
        self.assertEqual((cores.to_edges().dtype, cores.to_edges().tolist()), (numpy.uint32, [[0, 2], [1, 2], [1, 9]]))
        self.assertTrue(cores.check())
        self.assertEqual(kcore.Cores(numpy.empty((0, 2), int)).to_edges().shape, (0, 2))
        cores.insert([(4, 3)])
        self.assertEqual(cores.to_edges(), [(0, 2), (1, 2), (1, 9), (3, 4)])
        self.assertTrue(cores.check())

    def test_edges_of_the_last_vertices_that_may_be_are_told(self):
        last = _library.KEEPER_VERTICES - 1
        edges = [(0, 1), (0, last), (1, last), (last - 1, last)]
        kept = _edges.KeptEdges(_edges.flat(edges)[0])
        self.assertEqual(kept.pairs(), edges)
        if numpy:
            kept = _edges.KeptEdges(_edges.flat(numpy.array(edges, numpy.uint32))[0])
            self.assertEqual(list(map(tuple, kept.pairs().tolist())), edges)

    def test_edges_are_put_together_now_and_then(self):
        cores = kcore.Cores([(0, 1)])
        with unittest.mock.patch.object(_edges, "_FEW", 3):
            for place in range(40):
                cores.apply(insert=[(place % 5, place % 7)], remove=[(place % 3, place % 5)])
                self.assertLessEqual(cores._edges._waiting, max(len(cores._edges._there), 1) + 3)
        self.assertTrue(cores.check())

    def test_check_finds_a_number_that_is_one_off(self):
        cores = kcore.Cores(TRIANGLE)
        cores._core[1] += 1
        self.assertFalse(cores.check())

    def test_copies_go_their_own_way(self):
        cores = kcore.Cores([*NAMES, ("ann", "dan")])
        cores.remove([("ann", "dan")])
        for twin in (pickle.loads(pickle.dumps(cores)), copy.copy(cores), copy.deepcopy(cores)):
            self.assertEqual((twin.core_numbers(), twin.to_edges(), len(twin)), (cores.core_numbers(), cores.to_edges(), 4))
            self.assertEqual(twin.insert([("dan", "eve")]), {"dan": (0, 1), "eve": (None, 1)})
            self.assertEqual((len(cores), cores["dan"]), (4, 0))
        twin = pickle.loads(pickle.dumps(kcore.Cores(TRIANGLE, vertices=9)))
        self.assertEqual(twin.core_numbers(), [2, 2, 2, 0, 0, 0, 0, 0, 0])

    def test_refusals_leave_everything(self):
        cores = kcore.Cores(TRIANGLE)
        for edges, error, told in (
            ([("a", "b")], TypeError, "names=True"),
            ([(0, 1, 2)], ValueError, "edge 0"),
            ([(0, -1)], ValueError, "names=True"),
            ([(0, _library.KEEPER_VERTICES)], ValueError, "there may be 16777216"),
            ("ab", TypeError, "pairs"),
        ):
            with self.subTest(edges=edges), self.assertRaisesRegex(error, told):
                cores.insert(edges)
            self.assertEqual((len(cores), cores.core_numbers()), (3, [2, 2, 2]))
        for vertex in (3, -1, "a", None):
            with self.subTest(vertex=vertex), self.assertRaises(KeyError):
                cores[vertex]
        with self.assertRaises(KeyError):
            cores.before(0, 3)
        with self.assertRaisesRegex(ValueError, "k is -1"):
            cores.k_core(-1)
        with self.assertRaises(kcore.NotAVertexError):
            kcore.Cores([(0, 1), (1, 5)], vertices=2)
        with self.assertRaisesRegex(TypeError, "names"):
            kcore.Cores(names=True, vertices=2)
        with self.assertRaisesRegex(ValueError, "there may be 16777216"):
            kcore.Cores([], vertices=_library.KEEPER_VERTICES + 1)

    def test_nothing_can_be_asked_after_the_end(self):
        cores = kcore.Cores(TRIANGLE)
        cores.close()
        cores.close()
        for call in (lambda: cores.insert([(0, 3)]), cores.order, cores.to_edges, cores.check, lambda: pickle.dumps(cores)):
            with self.assertRaisesRegex(ValueError, "closed"):
                call()

    def test_vertices_may_come_one_by_one(self):
        cores = kcore.Cores()
        for vertex in range(1, 300):
            cores.insert([(vertex - 1, vertex)])
        self.assertEqual(cores.core_numbers(), [1] * 300)
        cores.add_vertices(2)
        self.assertEqual(cores.core_numbers()[-2:], [0, 0])

    def test_a_with_statement_gives_the_memory_back(self):
        with kcore.Cores(TRIANGLE) as cores:
            self.assertEqual(cores.main_core(), [0, 1, 2])
        with self.assertRaisesRegex(ValueError, "closed"):
            cores.insert([(0, 3)])
        with self.assertRaisesRegex(KeyError, "no such"), kcore.Cores(NAMES) as cores:
            raise KeyError("no such")
        with self.assertRaisesRegex(ValueError, "closed"):
            cores.to_edges()

    def test_one_edge_by_itself_is_as_in_a_batch(self):
        draw = random.Random(6)
        for start in ([(v, v + 1) for v in range(30)], [(f"v{v}", f"v{v + 1}") for v in range(30)]):
            single, batch = kcore.Cores(start), kcore.Cores(start)
            named = isinstance(start[0][0], str)
            for _ in range(400):
                pair = tuple(f"v{end}" if named else end for end in (draw.randrange(34), draw.randrange(34)))
                add = draw.random() < 0.6
                found = single.insert([pair]) if add else single.remove([pair])
                self.assertEqual(found, batch.apply(*(([pair], ()) if add else ((), [pair]))))
            self.assertEqual((single.to_edges(), single.core_numbers()), (batch.to_edges(), batch.core_numbers()))
            self.assertTrue(single.check())
        cores = kcore.Cores([(0, 1)])
        for wrong, cause in (([(0, -1)], ValueError), ([(0, 2**32)], ValueError), ([(0, 1, 2)], ValueError), ([(0, "a")], TypeError)):
            with self.assertRaises(cause):
                cores.insert(wrong)
        with self.assertRaises(TypeError):
            cores.insert([(0, 1)], axis=0)
        self.assertEqual((cores.to_edges(), cores.insert([(True, 2)]), len(cores)), ([(0, 1)], {2: (None, 1)}, 3))
        cores.close()
        for call in (cores.insert, cores.remove):
            with self.assertRaisesRegex(ValueError, "closed"):
                call([(0, 1)])

    def test_threads_take_turns(self):
        cores = kcore.Cores([], vertices=40)
        told = [[] for _ in range(4)]

        def work(seed):
            draw = random.Random(seed)
            for _ in range(200):
                edges = [[(draw.randrange(40), draw.randrange(40)) for _ in range(3)] for _ in range(2)]
                told[seed].append(cores.apply(*edges))
                # Between two calls another thread may change everything, and within one nobody.
                self.assertEqual(len(cores.core_numbers()), 40)
                self.assertTrue(cores.check())

        with concurrent.futures.ThreadPoolExecutor(len(told)) as pool:
            for done in [pool.submit(work, seed) for seed in range(len(told))]:
                done.result()
        sums = [0] * 40
        for changed in itertools.chain.from_iterable(told):
            for vertex, (before, now) in changed.items():
                sums[vertex] += now - before
        self.assertEqual(cores.core_numbers(), sums)
        self.assertEqual(kcore.core_numbers(cores.to_edges(), 40), sums)

    def test_each_form_opens_and_updates(self):
        for name, whole, tail, words in forms_of(TAILED, TAIL):
            with self.subTest(form=name), kcore.Cores(whole, **words) as cores:
                self.assertEqual([cores[vertex] for vertex in range(4)], [2, 2, 2, 1])
                self.assertEqual(len(cores.core_numbers()), 4)
                self.assertEqual(cores.remove(tail, **words), {3: (1, 0)})
                self.assertEqual(cores.apply(insert=tail, **words), {3: (0, 1)})
                self.assertEqual(sorted(map(tuple, cores.to_edges())), sorted(TAILED))
                self.assertTrue(cores.check())

    @unittest.skipUnless(networkx, "networkx is not installed")
    def test_what_no_form_has_is_refused_with_the_remedy(self):
        cores = kcore.Cores([(0, 1)])
        for call in (kcore.Cores, cores.insert, cores.remove):
            with self.assertRaisesRegex(TypeError, "to_undirected"):
                call(networkx.DiGraph([(0, 1)]))
            with self.assertRaisesRegex(TypeError, "These forms are taken: an array of integers"):
                call(5)
            with self.assertRaisesRegex(TypeError, "axis does not go with an iterable of pairs"):
                call([(0, 1)], axis=0)
        with self.assertRaisesRegex(TypeError, "columns does not go with an iterable of pairs"):
            kcore.Cores(NAMES).insert([("ann", "dan")], columns=(0, 1))
        self.assertEqual(cores.to_edges(), [(0, 1)])

    def follow(self, seed, given):
        """Random batches beside networkx."""
        draw = random.Random(seed)
        graph = networkx.empty_graph(draw.randrange(1, 25))
        cores = kcore.Cores(given([]), vertices=len(graph))
        for _ in range(20):
            top = len(graph) + draw.randrange(2)
            coming = [(draw.randrange(top), draw.randrange(top)) for _ in range(draw.choice((0, 1, 3, 8)))]
            leaving = [edge for edge in graph.edges if draw.random() < 0.2] + [(draw.randrange(top), draw.randrange(top))]
            old = networkx.core_number(graph)
            graph.remove_edges_from([edge for edge in leaving if graph.has_edge(*edge)])
            graph.add_nodes_from(range(max((end + 1 for edge in coming for end in edge), default=0)))
            graph.add_edges_from(edge for edge in coming if edge[0] != edge[1])
            told = cores.apply(given(coming), given(leaving))
            new = networkx.core_number(graph)
            self.assertEqual(dict(enumerate(cores.core_numbers())), new)
            self.assertEqual(told, changes(old, new))

    @unittest.skipUnless(networkx, "networkx is not installed")
    def test_random_batches_beside_networkx(self):
        for seed in range(100):
            with self.subTest(seed=seed):
                self.follow(seed, list)

    @unittest.skipUnless(networkx and numpy, "networkx or NumPy is not installed")
    def test_random_batches_of_arrays_beside_networkx(self):
        def given(edges):
            # An array of two rows would not say whether an edge is a row.
            return edges if len(edges) == 2 else numpy.array(edges, int).reshape(-1, 2)

        for seed in range(100):
            with self.subTest(seed=seed):
                self.follow(seed, given)


if __name__ == "__main__":
    unittest.main()
