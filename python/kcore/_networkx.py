"""The backend of networkx: `networkx.core_number(graph, backend="kcore")`, and so for k_core, k_shell, k_crust and k_corona.

networkx finds this module by its entry point, and calls the functions below by their names. Results and refusals are those of networkx.
"""

from __future__ import annotations

from typing import Any, Callable, Dict, Hashable, Mapping, Optional, Union

from . import _forms, _lists
from ._graph import ByName, Graph

Core = Mapping[Hashable, int]

_LOOPS = "Input graph has self loops which is not permitted; Consider using G.remove_edges_from(nx.selfloop_edges(G))."
_DIRECTED = "kcore has no core numbers of directed graphs, where networkx counts the edges in and out of a node: give G.to_undirected()"


class ConvertedGraph:
    """A graph of networkx with its edges as the library takes them."""

    __networkx_backend__ = "kcore"

    def __init__(self, original: Any) -> None:
        self.original = original
        self.read: Graph = _forms.read(original)
        self.has_loops = any(node in neighbours for node, neighbours in original.adj.items())

    def is_directed(self) -> bool:
        """Whether the edges have a direction: no."""
        return False

    def is_multigraph(self) -> bool:
        """Whether two nodes may have several edges: no."""
        return False


def convert_from_nx(graph: Any, *_: Any, **__: Any) -> ConvertedGraph:
    """The graph as this backend takes it. Raises NetworkXNotImplemented where it is directed."""
    import networkx

    if isinstance(graph, ConvertedGraph):
        return graph
    if graph.is_directed():
        raise networkx.NetworkXNotImplemented(_DIRECTED)
    return ConvertedGraph(graph)


def convert_to_nx(result: Any, *_: Any, **__: Any) -> Any:
    """A result as networkx has it."""
    return result.original if isinstance(result, ConvertedGraph) else result


def can_run(name: str, args: Any, kwargs: Dict[str, Any]) -> Union[bool, str]:
    """Whether this backend has the function for the graph: True, or the reason why not."""
    graph = args[0] if args else kwargs.get("G")
    return _DIRECTED if graph is not None and graph.is_directed() else True


def should_run(name: str, args: Any, kwargs: Dict[str, Any]) -> bool:
    """Whether it pays to convert a graph for the function."""
    return True


def core_number(G: ConvertedGraph) -> Dict[Hashable, int]:
    """The core number of each node."""
    import networkx

    if G.has_loops:
        raise networkx.NetworkXNotImplemented(_LOOPS)
    told: Dict[Hashable, int] = G.read.results.numbers(G.read.core_numbers())
    return told


def k_core(G: ConvertedGraph, k: Optional[int] = None, core_number: Optional[Core] = None) -> Any:
    """The k-core as a graph. By default the main core."""
    return _part(G, k, core_number, lambda number, least: number >= least)


def k_shell(G: ConvertedGraph, k: Optional[int] = None, core_number: Optional[Core] = None) -> Any:
    """The graph of the nodes with the core number k. By default the greatest core number."""
    return _part(G, k, core_number, lambda number, wanted: number == wanted)


def k_crust(G: ConvertedGraph, k: Optional[int] = None, core_number: Optional[Core] = None) -> Any:
    """The graph of the nodes with a core number of at most k. By default one less than the greatest."""
    core = _numbers(G, core_number)
    return _part(G, max(core.values()) - 1 if k is None else k, core, lambda number, most: number <= most)


def k_corona(G: ConvertedGraph, k: int, core_number: Optional[Core] = None) -> Any:
    """The graph of the nodes in the k-core that have exactly k neighbours in it."""
    core = _numbers(G, core_number)
    assert isinstance(G.read.results, ByName)
    names = G.read.results.names
    inside = _lists.counts_inside(G.read.ends, [core[name] for name in names], k)
    return _subgraph(G, [name for name, count in zip(names, inside) if core[name] == k == count])


def _numbers(G: ConvertedGraph, given: Optional[Core]) -> Core:
    """The core numbers that a caller gives, or else those of the graph."""
    return core_number(G) if given is None else given


def _part(G: ConvertedGraph, k: Optional[int], given: Optional[Core], chosen: Callable[[int, int], bool]) -> Any:
    """The graph of the nodes whose number is chosen for k."""
    core = _numbers(G, given)
    bound = max(core.values()) if k is None else k
    return _subgraph(G, [node for node, number in core.items() if chosen(number, bound)])


def _subgraph(G: ConvertedGraph, nodes: Any) -> Any:
    return G.original.subgraph(nodes).copy()
