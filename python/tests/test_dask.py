"""The example on Dask's scheduler: its tasks without a scheduler, and all of it on a cluster of two processes."""

import importlib.util
import os
import random
import subprocess
import sys
import tempfile
import unittest
from pathlib import Path

import kcore

from .test_kcore import TOP, needs_numpy, numpy, random_graphs

FOLDER = TOP / "examples" / "dask"


def load(name):
    spec = importlib.util.spec_from_file_location(name, FOLDER / f"{name}.py")
    module = importlib.util.module_from_spec(spec)
    spec.loader.exec_module(module)
    return module


@needs_numpy
@unittest.skipUnless(FOLDER.exists(), "the examples are not here")
class Tasks(unittest.TestCase):
    def settled(self, work, shards):
        """Numbers and ranks after all rounds."""
        parts, rounds = [work.first_part(shard) for shard in shards], 0
        while True:
            rounds += 1
            numbers = work.joined("numbers", *parts)
            parts = [work.next_part(shard, part, numbers, rounds) for shard, part in zip(shards, parts)]
            if work.changed_in(*parts) == 0:
                return numbers, work.joined("ranks", *parts)

    def verdict(self, work, shards, core, ranks):
        return work.verdict_of(work.merged(core, ranks, *[work.tallied(core, ranks, shard) for shard in shards]))

    def test_random_graphs(self):
        work, draws = load("shards"), random.Random(3)
        for _, edges in random_graphs(60):
            chunks = numpy.array_split(numpy.array(edges, numpy.uint32).reshape(-1, 2), draws.randrange(1, 4))
            vertices, pieces = work.size_of(*chunks), draws.randrange(1, 6)
            cuts = work.cuts_of(pieces, *[work.ends_at(chunk, vertices) for chunk in chunks])
            lists = [work.dealt(chunk, cuts) for chunk in chunks]
            shards = [work.shard_of(cuts[k], cuts[k + 1], *[parts[k] for parts in lists]) for k in range(pieces)]
            core, ranks = self.settled(work, shards)
            self.assertEqual(core.tolist(), kcore.core_numbers(edges, vertices))
            self.assertTrue(self.verdict(work, shards, core, ranks))
            for vertex in range(vertices):
                self.assertFalse(self.verdict(work, shards, work.spoiled(core, vertex), ranks))

    def test_chunks_of_a_file(self):
        work = load("shards")
        for text in [b"", b"1 2", b"1 2\n\n# three\n3 4 9\r\n5\t6", b"7 8\n" * 5]:
            with tempfile.TemporaryDirectory() as folder:
                path = Path(folder) / "edges.txt"
                path.write_bytes(text)
                whole = work.chunk_of_file(path, 0, len(text)).tolist()
                self.assertEqual(len(whole), sum(line[:1].isdigit() for line in text.split(b"\n")))
                for pieces in range(1, 12):
                    cuts = [len(text) * k // pieces for k in range(pieces + 1)]
                    parts = [work.chunk_of_file(path, *cut).tolist() for cut in zip(cuts, cuts[1:])]
                    self.assertEqual(sum(parts, []), whole)


@needs_numpy
@unittest.skipIf(importlib.util.find_spec("distributed") is None, "Dask's scheduler is not installed")
@unittest.skipUnless(FOLDER.exists(), "the examples are not here")
class Cluster(unittest.TestCase):
    def run_example(self, *words):
        environment = {**os.environ, "PYTHONPATH": str(TOP / "python")}
        command = [sys.executable, str(FOLDER / "cores.py"), "--processes", "2", "--pieces", "3", *words]
        ended = subprocess.run(command, env=environment, stdout=subprocess.PIPE, stderr=subprocess.STDOUT, text=True, timeout=300)
        return ended.returncode, ended.stdout

    def test_a_graph_and_a_spoilt_number(self):
        status, told = self.run_example("--edges", "2000", "--scale", "8", "--compare")
        self.assertEqual(status, 0, told)
        self.assertRegex(told, "verdict: yes")
        self.assertRegex(told, "the same as kcore.core_numbers: yes")
        status, told = self.run_example("--edges", "2000", "--scale", "8", "--spoil")
        self.assertEqual(status, 1, told)
        self.assertRegex(told, "verdict: no")

    def test_a_file(self):
        status, told = self.run_example(str(TOP / "graphs" / "karate.txt"))
        self.assertEqual(status, 0, told)
        self.assertRegex(told, "34 vertices and 78 edges")
        self.assertRegex(told, "top core number 4, which 10 vertices have")


if __name__ == "__main__":
    unittest.main()
