"""Core numbers by proved code.

The core number of a vertex is the greatest k for which some set of vertices has it, and gives each member at least k neighbours inside the
set [1]_. The functions of this module call a library whose contracts are proved for all inputs. What is said here of results holds of the
library's; this module, which hands the arguments over, is tested only.

A graph is given as `edges`: an array of integers, an iterable of pairs of integers or of names, a sparse matrix of SciPy, a data frame of
pandas, or a graph of networkx or igraph. `core_numbers` has the table of these forms, and of what comes for each. Loops are dropped, and an
edge that is listed again, in either direction, counts once. An array of `numpy.uint32` in rows is read where it lies.

Edges that are read in pieces, or lie on many machines, are for `Certificate`: it tells whether numbers from anywhere are the core numbers
of all of them, with memory for the vertices alone.

`h_index_round` makes a round of h-indices for some of the vertices. Rounds on many machines, from the degrees until one changes nothing, find
the core numbers.

`Cores` keeps the core numbers of a graph right while edges come and go, at the cost of what each update concerns. `batches` makes updates
of edges with times, and `Cores.replay` follows them.

The core numbers, the order, the k-core and the answer of `check` are the library's. `main_core`, `k_shell`, `k_crust`, `k_corona` and
`degeneracy` are plain filters on its core numbers, `onion_layers` are made of them in plain Python, and `kcore.plot` draws them.

A graph may not be directed: give its `to_undirected()`, or `as_undirected()` of igraph.

The library is the file that the environment variable KCORE_LIBRARY names, or else the one that lies beside the installed package, or else
build/libkcore.so of the repository, which c/build.sh makes. A library of another version is refused when the module is imported. Other
threads run during a call: none may write the arrays that it is given meanwhile. No call may come from the child of a fork of a process with
several threads, and NumPy may have started some: let `multiprocessing` start its processes by "spawn" or "forkserver".

References
----------
.. [1] S. B. Seidman, "Network structure and minimum degree", Social Networks 5 (1983), 269-287.
"""

from typing import Any, List

from ._api import check, core_numbers, degeneracy, degeneracy_order, k_core, k_corona, k_crust, k_shell, main_core, onion_layers
from ._certificate import Certificate, WrongEdgeError
from ._cores import Cores
from ._graph import NotAVertexError
from ._library import __version__
from ._report import report
from ._rounds import WrongRowsError, h_index_round
from ._temporal import Batch, BatchResult, batches

__all__ = [
    "Batch",
    "BatchResult",
    "Certificate",
    "Cores",
    "NotAVertexError",
    "WrongEdgeError",
    "WrongRowsError",
    "__version__",
    "batches",
    "check",
    "core_numbers",
    "degeneracy",
    "degeneracy_order",
    "h_index_round",
    "k_core",
    "k_corona",
    "k_crust",
    "k_shell",
    "main_core",
    "onion_layers",
    "report",
]


def __getattr__(name: str) -> Any:
    """`kcore.plot`, which is imported where it is first asked for."""
    if name == "plot":
        import importlib

        return importlib.import_module("kcore.plot")
    raise AttributeError(f"module 'kcore' has no attribute {name!r}")


def __dir__() -> List[str]:
    return sorted([*globals(), "plot"])
