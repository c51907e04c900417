"""The backend of networkx, by its dispatch where networkx is 3.2 or later and has found it, and called without it."""

import unittest
import warnings

import kcore

from .test_kcore import needs_networkx, networkx, random_graphs


def dispatches():
    """Whether networkx calls this backend: it is 3.2 or later, and kcore is installed, so that its entry point is found."""
    backends = getattr(getattr(getattr(networkx, "utils", None), "backends", None), "backends", {})
    return "kcore" in backends


needs_dispatch = unittest.skipUnless(dispatches(), "networkx is older than 3.2, or kcore is not installed")
NAMES = ["core_number", "k_core", "k_shell", "k_crust", "k_corona"]


def simple(vertices, edges):
    graph = networkx.Graph(name="simple")
    graph.add_nodes_from(range(vertices), colour="red")
    graph.add_edges_from(((u, v) for u, v in edges if u != v), weight=2)
    return graph


def content(result):
    """What a graph or a dict has, to be compared."""
    if isinstance(result, dict):
        return result
    return dict(result.nodes(data=True)), {frozenset(edge[:2]): edge[2] for edge in result.edges(data=True)}, result.graph, type(result)


@needs_networkx
class Backend(unittest.TestCase):
    def call(self, name, graph, **words):
        from kcore import _networkx

        return getattr(_networkx, name)(_networkx.convert_from_nx(graph), **words)

    def test_results_are_those_of_networkx(self):
        for vertices, edges in random_graphs(30):
            graph = simple(vertices, edges)
            if not graph:
                continue
            core = networkx.core_number(graph)
            for name in NAMES:
                theirs = getattr(networkx, name)
                for words in [{"k": 0}, {"k": 1}, {"k": 2}] + ([{}] if name != "k_corona" else []):
                    words = {} if name == "core_number" else words
                    self.assertEqual(content(self.call(name, graph, **words)), content(theirs(graph, **words)), (name, words))
                    if name != "core_number":
                        given = {**words, "core_number": core}
                        self.assertEqual(content(self.call(name, graph, **given)), content(theirs(graph, **given)), (name, words))

    def test_core_numbers_that_are_given(self):
        graph = networkx.path_graph(3)
        self.assertEqual(list(self.call("k_core", graph, k=2, core_number={0: 2, 1: 2, 2: 1})), [0, 1])

    def test_loops_and_directed_graphs_are_refused(self):
        with self.assertRaisesRegex(networkx.NetworkXNotImplemented, "self loops"):
            self.call("core_number", networkx.Graph([(0, 1), (1, 1)]))
        with self.assertRaisesRegex(networkx.NetworkXNotImplemented, "to_undirected"):
            self.call("core_number", networkx.DiGraph([(0, 1)]))


@needs_networkx
@needs_dispatch
class Dispatch(unittest.TestCase):
    def setUp(self):
        # networkx warns where it takes a graph that it has converted before.
        caught = warnings.catch_warnings()
        caught.__enter__()
        self.addCleanup(caught.__exit__, None, None, None)
        warnings.filterwarnings("ignore", "Note: conversions to backend graphs")

    def test_each_function(self):
        for vertices, edges in random_graphs(10):
            graph = simple(vertices, edges)
            if not graph:
                continue
            for name in NAMES:
                call = getattr(networkx, name)
                for words in [{}] if name == "core_number" else [{"k": 2}]:
                    wanted = content(call(graph, **words))
                    self.assertEqual(content(call(graph, backend="kcore", **words)), wanted)
                    self.assertEqual(content(call(graph, backend="kcore", **words)), wanted)

    def test_a_graph_that_changes(self):
        graph = networkx.path_graph(3)
        self.assertEqual(networkx.core_number(graph, backend="kcore"), {0: 1, 1: 1, 2: 1})
        graph.add_edge(0, 2)
        self.assertEqual(networkx.core_number(graph, backend="kcore"), {0: 2, 1: 2, 2: 2})

    def test_directed_graphs(self):
        with self.assertRaises(NotImplementedError):
            networkx.core_number(networkx.DiGraph([(0, 1)]), backend="kcore")

    def test_the_backend_is_asked_before_networkx_where_its_caller_says_so(self):
        with networkx.config(backend_priority=["kcore"]):
            self.assertEqual(networkx.core_number(networkx.path_graph(3)), kcore.core_numbers(networkx.path_graph(3)))
            self.assertEqual(networkx.core_number(networkx.DiGraph([(0, 1), (1, 0)])), {0: 2, 1: 2})


if __name__ == "__main__":
    unittest.main()
