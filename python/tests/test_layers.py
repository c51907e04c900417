"""Onion layers beside networkx, and beside their definition."""

import unittest

import kcore

from .test_kcore import TAILED, edges_of, needs_networkx, needs_numpy, networkx, numpy, random_graphs

try:
    import pandas
except ImportError:
    pandas = None


def by_rounds(vertices, edges):
    """The layers by their definition: all vertices with the fewest neighbours left, or fewer than the core number at hand, go at once."""
    neighbours = {v: set() for v in range(vertices)}
    for u, v in edges:
        if u != v:
            neighbours[u].add(v)
            neighbours[v].add(u)
    layers, layer, k = {}, 0, 0
    while neighbours:
        k = max(k, min(map(len, neighbours.values())))
        going = [v for v, listed in neighbours.items() if len(listed) <= k]
        layer += 1
        for v in going:
            layers[v] = layer
            del neighbours[v]
        for listed in neighbours.values():
            listed.difference_update(going)
    return [layers[v] for v in range(vertices)]


class OnionLayers(unittest.TestCase):
    def test_a_triangle_with_a_tail(self):
        self.assertEqual(kcore.onion_layers(TAILED), [3, 3, 3, 2, 1])
        self.assertEqual(kcore.onion_layers(TAILED, 6), [3, 3, 3, 2, 1, 1])
        self.assertEqual(kcore.onion_layers([]), [])
        self.assertEqual(kcore.onion_layers([], 2), [1, 1])
        self.assertEqual(kcore.onion_layers([("a", "b"), ("b", "c")]), {"a": 1, "b": 2, "c": 1})
        self.assertEqual(kcore.onion_layers([(7, 10**12)], return_ids=True), ([1, 1], [7, 10**12]))
        path = [(v, v + 1) for v in range(9)]
        self.assertEqual(kcore.onion_layers(path), [1, 2, 3, 4, 5, 5, 4, 3, 2, 1])

    def test_random_graphs_beside_the_definition(self):
        for vertices, edges in random_graphs(500):
            self.assertEqual(kcore.onion_layers(edges, vertices), by_rounds(vertices, edges))

    @needs_numpy
    def test_arrays_have_the_same(self):
        for vertices, edges in random_graphs(500):
            layers = kcore.onion_layers(numpy.array(edges, int).reshape(-1, 2), vertices, axis=1)
            self.assertEqual((layers.dtype, layers.tolist()), (numpy.uint32, kcore.onion_layers(edges, vertices)))

    @needs_networkx
    def test_networkx_has_the_same(self):
        for vertices, edges in random_graphs(300):
            graph = networkx.empty_graph(vertices)
            graph.add_edges_from(edge for edge in edges if edge[0] != edge[1])
            wanted = networkx.onion_layers(graph) if vertices else {}
            self.assertEqual(dict(enumerate(kcore.onion_layers(edges, vertices))), wanted)
            self.assertEqual(kcore.onion_layers(graph), wanted)

    def test_layers_within_core_numbers_certify_them(self):
        edges = edges_of("karate")
        core, layers = kcore.core_numbers(edges), kcore.onion_layers(edges)
        certificate = kcore.Certificate(core, layers)
        certificate.add(sorted({(min(edge), max(edge)) for edge in edges}))
        self.assertTrue(certificate.verdict())

    @unittest.skipUnless(pandas, "pandas is not installed")
    def test_a_frame(self):
        layers = kcore.onion_layers(pandas.DataFrame([("a", "b"), ("b", "c")]))
        self.assertEqual((layers.to_dict(), layers.name), ({"a": 1, "b": 2, "c": 1}, "onion_layer"))


if __name__ == "__main__":
    unittest.main()
