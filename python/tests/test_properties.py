"""Random graphs by Hypothesis: each form has the numbers of networkx, and the family is networkx's.

KCORE_EXAMPLES says how many graphs each property is tried on.
"""

import os
import pickle
import unittest

import kcore

from .test_forms import igraph, networkx, numpy, pandas, sparse

try:
    from hypothesis import HealthCheck, given, settings
    from hypothesis import strategies as st
except ImportError:
    raise unittest.SkipTest("Hypothesis is not installed") from None
if networkx is None:
    raise unittest.SkipTest("networkx is not installed")

EXAMPLES = int(os.environ.get("KCORE_EXAMPLES", "60"))
settings.register_profile("kcore", max_examples=EXAMPLES, deadline=None, suppress_health_check=[HealthCheck.too_slow], derandomize=True)
settings.load_profile("kcore")


@st.composite
def graphs(draw, most=14):
    """A number of vertices and a list of edges, with loops and repeats."""
    vertices = draw(st.integers(1, most))
    end = st.integers(0, vertices - 1)
    return vertices, draw(st.lists(st.tuples(end, end), max_size=4 * vertices))


def of_networkx(vertices, edges):
    """The graph without loops, which networkx does not take."""
    graph = networkx.Graph()
    graph.add_nodes_from(vertices)
    graph.add_edges_from(edge for edge in edges if edge[0] != edge[1])
    return graph


def numbers_of_ends(edges):
    """By networkx the core number of each end."""
    graph = of_networkx({end for edge in edges for end in edge}, edges)
    return networkx.core_number(graph) if graph else {}


def other_forms(vertices, edges):
    """The graph in each form that is at hand, by its name: what is given, its words, and the number of each vertex from the result."""
    yield "pairs", edges, {"vertices": vertices}, list
    yield "networkx", of_networkx(range(vertices), edges), {}, lambda core: [core[v] for v in range(vertices)]
    if numpy is not None:
        rows = numpy.array(edges, numpy.int64).reshape(-1, 2)
        yield "array", rows, {"vertices": vertices, "axis": 1}, list
        yield "columns", rows.T, {"vertices": vertices, "axis": 0}, list
    if igraph is not None:
        yield "igraph", igraph.Graph(vertices, edges).simplify(), {}, list
    if numpy is not None and sparse is not None:
        matrix = sparse.csr_matrix((numpy.ones(len(edges)), rows.T), shape=(vertices, vertices))
        yield "matrix", matrix + matrix.T, {}, list


class Numbers(unittest.TestCase):
    @given(graphs())
    def test_each_form_has_the_numbers_of_networkx(self, graph):
        vertices, edges = graph
        wanted = networkx.core_number(of_networkx(range(vertices), edges))
        for name, given_, words, told in other_forms(vertices, edges):
            core, order = kcore.degeneracy_order(given_, **words)
            self.assertEqual(told(kcore.core_numbers(given_, **words)), [wanted[v] for v in range(vertices)], name)
            self.assertEqual(told(core), [wanted[v] for v in range(vertices)], name)
            self.assertTrue(kcore.check(given_, core, order, **words), name)
            self.assertEqual(sorted(order), list(range(vertices)), name)

    @given(graphs(), st.lists(st.one_of(st.text(), st.integers()), min_size=14, max_size=14))
    def test_names(self, graph, words):
        _, edges = graph
        named = [((u, words[u]), (v, words[v])) for u, v in edges]
        core, order = kcore.degeneracy_order(named)
        self.assertEqual(core if named else {}, numbers_of_ends(named))
        self.assertTrue(kcore.check(named, core, order))

    @given(graphs(), st.lists(st.integers(-(2**62), 2**62), min_size=14, max_size=14, unique=True))
    def test_ids(self, graph, ids):
        _, edges = graph
        apart = [(ids[u], ids[v]) for u, v in edges]
        wanted = numbers_of_ends(apart)
        given_ = [apart] if numpy is None else [apart, numpy.array(apart, numpy.int64).reshape(-1, 2)]
        for edges_ in given_:
            words = {"axis": 1} if edges_ is not apart else {}
            core, order, found = kcore.degeneracy_order(edges_, return_ids=True, **words)
            self.assertEqual(list(found), sorted(wanted))
            self.assertEqual(dict(zip(found, core)), wanted)
            self.assertTrue(kcore.check(edges_, core, order, ids=found, **words))
        if pandas is not None:
            series = kcore.core_numbers(pandas.DataFrame(apart, columns=["u", "v"], dtype="int64"))
            self.assertEqual(series.to_dict(), wanted)

    @given(graphs(), st.data())
    def test_a_number_that_is_changed_is_found(self, graph, data):
        vertices, edges = graph
        core, order = kcore.degeneracy_order(edges, vertices)
        place = data.draw(st.integers(0, vertices - 1))
        core[place] += data.draw(st.sampled_from([-1, 1, 2]))
        self.assertFalse(kcore.check(edges, core, order, vertices))


@st.composite
def updates(draw, most=12):
    """A number of vertices, edges at the start, and batches of updates: each with edges to go and edges to come, in which there may be more
    vertices."""
    vertices = draw(st.integers(1, most))

    def edges(top, count):
        end = st.integers(0, top)
        return st.lists(st.tuples(end, end), max_size=count)

    start = draw(edges(vertices - 1, 3 * vertices))
    batches = draw(st.lists(st.tuples(edges(most, 8), edges(most, 8)), min_size=1, max_size=12))
    return vertices, start, batches


class Updates(unittest.TestCase):
    def follow(self, graph, given):
        """Each batch beside networkx: the numbers, what is told as changed, the edges, the order, and the k-cores."""
        vertices, start, batches = graph
        theirs = of_networkx(range(vertices), start)
        with kcore.Cores(given(start), vertices=vertices) as cores:
            for leaving, coming in batches:
                before = networkx.core_number(theirs)
                theirs.remove_edges_from(edge for edge in leaving if theirs.has_edge(*edge))
                theirs.add_nodes_from(range(len(theirs), max((max(edge) + 1 for edge in coming), default=0)))
                theirs.add_edges_from(edge for edge in coming if edge[0] != edge[1])
                told = cores.apply(given(coming), given(leaving))
                now = networkx.core_number(theirs)
                self.assertEqual(list(cores.core_numbers()), [now[v] for v in range(len(theirs))])
                self.assertEqual(told, {v: (before.get(v), now[v]) for v in now if before.get(v) != now[v]})
                self.assertEqual(sorted(map(tuple, cores.to_edges())), sorted(tuple(sorted(edge)) for edge in theirs.edges))
                self.assertEqual(cores.main_core(), sorted(networkx.k_core(theirs)))
                self.assertTrue(cores.check())
            twin = pickle.loads(pickle.dumps(cores))
            self.assertEqual(list(twin.core_numbers()), list(cores.core_numbers()))

    @given(updates())
    def test_kept_numbers_beside_networkx(self, graph):
        self.follow(graph, list)

    @unittest.skipIf(numpy is None, "NumPy is not installed")
    @given(updates())
    def test_kept_numbers_of_arrays_beside_networkx(self, graph):
        # An array of two rows would not say whether an edge is a row.
        self.follow(graph, lambda edges: edges if len(edges) == 2 else numpy.array(edges, numpy.int64).reshape(-1, 2))

    @given(updates())
    def test_kept_numbers_of_names_beside_networkx(self, graph):
        vertices, start, batches = graph
        name = "v{}".format
        theirs = of_networkx({end for edge in start for end in edge}, start)
        cores = kcore.Cores([(name(u), name(v)) for u, v in start], names=True)
        for leaving, coming in batches:
            theirs.remove_edges_from(edge for edge in leaving if theirs.has_edge(*edge))
            theirs.add_nodes_from(end for edge in coming for end in edge)
            theirs.add_edges_from(edge for edge in coming if edge[0] != edge[1])
            cores.apply([(name(u), name(v)) for u, v in coming], [(name(u), name(v)) for u, v in leaving])
            wanted = networkx.core_number(theirs) if theirs else {}
            self.assertEqual(cores.core_numbers(), {name(v): number for v, number in wanted.items()})
        self.assertTrue(cores.check())


class Family(unittest.TestCase):
    @given(graphs(), st.integers(0, 6))
    def test_members_are_those_of_networkx(self, graph, k):
        vertices, edges = graph
        theirs = of_networkx(range(vertices), edges)
        numbers = networkx.core_number(theirs)
        calls = [
            (kcore.k_core, networkx.k_core, {"k": k}),
            (kcore.k_core, networkx.k_core, {}),
            (kcore.main_core, networkx.k_core, {}),
            (kcore.k_shell, networkx.k_shell, {"k": k}),
            (kcore.k_shell, networkx.k_shell, {}),
            (kcore.k_crust, networkx.k_crust, {"k": k}),
            (kcore.k_crust, networkx.k_crust, {}),
            (kcore.k_corona, networkx.k_corona, {"k": k}),
        ]
        for name, given_, words, _ in other_forms(vertices, edges):
            self.assertEqual(kcore.degeneracy(given_, **words), max(numbers.values()), name)
            for ours, other, chosen in calls:
                members = list(ours(given_, **chosen, **words))
                self.assertEqual(members, sorted(other(theirs, **chosen)), (name, ours.__name__, chosen))

    def test_no_vertices(self):
        for call in [kcore.k_core, kcore.main_core, kcore.k_shell, kcore.k_crust]:
            self.assertEqual(call([]), [])
        self.assertEqual(kcore.k_corona([], 0), [])
        self.assertEqual(kcore.degeneracy([]), 0)

    def test_a_k_that_is_no_number_of_neighbours(self):
        for call in [kcore.k_core, kcore.k_shell, kcore.k_crust, kcore.k_corona]:
            self.assertEqual(call([(0, 1)], 2**40), [0, 1] if call is kcore.k_crust else [])
            with self.assertRaisesRegex(ValueError, "k is -1, and no number of neighbours is negative"):
                call([(0, 1)], -1)
            with self.assertRaises(TypeError):
                call([(0, 1)], 1.0)


if __name__ == "__main__":
    unittest.main()
