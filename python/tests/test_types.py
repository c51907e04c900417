"""What mypy says of the package, of the stub beside the functions, and of calls. Skipped where mypy is not installed."""

import importlib.util
import os
import subprocess
import sys
import tempfile
import unittest
from pathlib import Path

from .test_kcore import TOP, needs_numpy

CALLS = '''
from typing import Any, Dict, Iterator, List, Tuple

import kcore
import numpy
from numpy.typing import NDArray
from typing_extensions import assert_type

Numbers = NDArray[numpy.uint32]


class NodeGraph:
    """What a stub says of networkx.Graph[str]."""

    def __iter__(self) -> Iterator[str]:
        return iter(())

    def is_directed(self) -> bool:
        return False

    def is_multigraph(self) -> bool:
        return False


array: NDArray[numpy.int64] = numpy.array([(0, 1), (1, 2), (2, 0)])
pairs = [(0, 1)]
named = [("a", "b")]

assert_type(kcore.core_numbers(array), Numbers)
assert_type(kcore.core_numbers(array.T, axis=0), Numbers)
assert_type(kcore.core_numbers(array, return_ids=True), Tuple[Numbers, NDArray[Any]])
assert_type(kcore.core_numbers(pairs, 3), List[int])
assert_type(kcore.core_numbers(pairs, return_ids=True), Tuple[List[int], List[int]])
assert_type(kcore.core_numbers(named), Dict[str, int])
assert_type(kcore.core_numbers(NodeGraph()), Dict[str, int])
assert_type(kcore.degeneracy_order(array), Tuple[Numbers, Numbers])
assert_type(kcore.degeneracy_order(pairs), Tuple[List[int], List[int]])
assert_type(kcore.degeneracy_order(NodeGraph()), Tuple[Dict[str, int], List[str]])
assert_type(kcore.k_core(pairs), List[int])
assert_type(kcore.k_core(named, 2), List[str])
assert_type(kcore.k_shell(NodeGraph()), List[str])
assert_type(kcore.onion_layers(named), Dict[str, int])
assert_type(next(kcore.batches(array, 5)), kcore.Batch)
assert_type(kcore.degeneracy(named), int)
assert_type(kcore.check(pairs, [1, 1], [0, 1]), bool)
assert_type(kcore.h_index_round(array, array, array), Numbers)
assert_type(kcore.h_index_round([0, 1], [0], [1]), List[int])
assert_type(kcore.h_index_round(array, array, array, kcore.core_numbers(array)), int)
assert_type(kcore.__version__, str)
'''

WRONG = {
    "kcore.core_numbers(5)": "No overload variant",
    "kcore.core_numbers(named, vertices=2)": "Argument 1 .* has incompatible type",
    "kcore.core_numbers(array, axis=2)": "No overload variant",
    'kcore.k_core(pairs, "2")': "No overload variant",
    "kcore.k_corona(pairs)": "No overload variant",
}


@needs_numpy
@unittest.skipIf(importlib.util.find_spec("mypy") is None, "mypy is not installed")
class Types(unittest.TestCase):
    def mypy(self, *words, module="mypy"):
        environment = {**os.environ, "MYPYPATH": str(TOP / "python"), "PYTHONPATH": str(TOP / "python")}
        ended = subprocess.run(
            [sys.executable, "-m", module, *words], cwd=TOP, env=environment, stdout=subprocess.PIPE, stderr=subprocess.STDOUT, text=True
        )
        return ended.returncode, ended.stdout

    def of_text(self, text):
        with tempfile.TemporaryDirectory() as folder:
            path = Path(folder) / "calls.py"
            path.write_text(text)
            return self.mypy("--strict", "--cache-dir", str(Path(folder) / "cache"), str(path))

    def test_the_package(self):
        status, told = self.mypy("--cache-dir", os.devnull)
        self.assertEqual(status, 0, told)

    def test_the_stub_is_that_of_the_functions(self):
        status, told = self.mypy("kcore._api", module="mypy.stubtest")
        self.assertEqual(status, 0, told)

    def test_results_are_told_apart(self):
        status, told = self.of_text(CALLS)
        self.assertEqual(status, 0, told)

    def test_wrong_calls_are_told(self):
        start = CALLS[: CALLS.index("assert_type(kcore")]
        status, told = self.of_text(start + "\n".join(WRONG) + "\n")
        self.assertEqual(status, 1)
        first = start.count("\n") + 1
        for place, wanted in enumerate(WRONG.values()):
            self.assertRegex(told, rf"calls.py:{first + place}: error: {wanted}")


if __name__ == "__main__":
    unittest.main()
